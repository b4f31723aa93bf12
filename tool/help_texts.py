"""What ./bench --help and ./bench COMMAND --help print."""

GENERAL = """\
usage: ./bench COMMAND ARGUMENTS        ./bench COMMAND --help says more of each

  pair C1 C2 LIMIT FILE              the plain run and the reduced run under the written choices, a line each
  plain LIMIT FILE                   the plain run, and the record where it ended
  trace [C1 C2] LIMIT FILE [CHOICES] the last rows of a run, what each changed, and the choices it took
  choices C1 C2 LIMIT FILE           the choices of the plain run, a number a line
  reduced C1 C2 LIMIT FILE [CHOICES] the reduced run under your own choices, beside the plain one
  reduce C1 C2 FILE                  the reduced program
  list FILE                          a program, written out
  pack TEXT                          makes a program file of a text
  unpack FILE                        writes a program file as a text

C1 and C2 are the two circuits that are tracked, C1 below C2. LIMIT is the most steps that a run takes. FILE is a program file, made by pack;
names stand beside it in FILE.names. With --json, pair, plain, trace, choices and reduced print one object. What an end or a refusal means is
said on standard error, and so is the progress of a long run on a terminal.

Exit status:
  0  a run is done or has taken LIMIT steps; or the command did what it does
  1  a run ended with assert, assume or fail
  2  the arguments or the choices are wrong
  3  refused: the file, the text, the program or the pair
  4  a run ended with room, deep, badchoice or nochoice, or the list of choices is full
  5  something could not be read or written
  6  the programs could not be built

Every answer is that of a proved program; they are built, and proved on the way, when ./bench is run for the first time and after a change.
"""

COMMANDS = {
    "pair": """\
usage: ./bench pair [--json] C1 C2 LIMIT FILE

Runs a program, and its reduction with the circuits C1 and C2 tracked under the choices that the plain run gives (at most 8,192), each fresh and
for at most LIMIT steps, and prints a line for each:

  plain END row R steps S
  pair END row R steps S choices U

after fail stands `reason` and its number. A refusal is one line, `refused N line L`. What END or N means is said on standard error. The exit
status is that of the plain run's end or, where that is 0, of the pair's: the two differ only where the plain run ends with room, or where the
list is full and the pair ends with nochoice.
""",
    "plain": """\
usage: ./bench plain [--circuits C,C,..] [--json] LIMIT FILE

Runs a program fresh for at most LIMIT steps. Prints its line, `plain END row R steps S`, and the record where it ended: the row, written out;
what called it, where it stands in a procedure; the open loops, each with where its counter is and the last number; the variables; and of each
array its length and its cells: those of the circuits named by --circuits, else the first 16. Where the run ended with assert, assume or fail,
what the row worked out stands below, as far as it came.
""",
    "trace": """\
usage: ./bench trace [--last K] [--json] LIMIT FILE
       ./bench trace [--last K] [--written] [--json] C1 C2 LIMIT FILE [CHOICES]

Prints the last K rows (20, if not said) of a run of at most LIMIT steps: each with the number of its step, its instruction, what it changed and
the choices it took, and at the end the run's line. A row that was begun and not carried out (badchoice, nochoice) is `not taken`. With C1 and C2
the run is the reduced one: CHOICES is a file of numbers, standard input where it is left out or -, or with --written the choices of the plain run.
""",
    "choices": """\
usage: ./bench choices [--room N] [--numbers] [--json] C1 C2 LIMIT FILE

Writes the choices under which the reduced run does what the plain run does: a number a line, each with its step and its row, and the kind and
name of what it stands for, as a comment (27 an iterator that is read, 28 a cell of another circuit, 42 and 39 start and end of a loop). The first
line is a comment with the end, row, steps and count. The output can be edited and given to reduced or trace. --room is how many numbers fit, 8192 if
not said and at most 268435456; a list that is full ends before the row whose numbers do not fit. --numbers leaves the comments out, which is
faster for a long list.
""",
    "reduced": """\
usage: ./bench reduced [--written] [--json] C1 C2 LIMIT FILE [CHOICES]

Runs the reduction of a program under the choices in the file CHOICES, or on standard input where it is left out or -: numbers, with what follows
a # left out; with --written, under the choices of the plain run. Prints its line, the plain run's line, how many choices were used, and the
record with the cells of the tracked circuits. What the plain run has in its place where the two differ stands behind <>.
""",
    "reduce": """\
usage: ./bench reduce C1 C2 FILE

Prints the reduced program: each row whose line changed, or that works out a node that did, with a * before it, and then each line of the table that
changed, as it was and as it is. A ? stands after what takes a choice, or may take one.
""",
    "list": """\
usage: ./bench list FILE

Prints a program: variables with types and marks, constants, rows with their numbers, indented by loops, and procedures with their locals. Names
are those in FILE.names, which pack writes; without it variables are v0, v1, .., procedures p0, p1, ..
""",
    "pack": """\
usage: ./bench pack TEXT [--output FILE]

Makes a program file of a text: TEXT.txt gives TEXT, where no FILE is named, with the names and comments in FILE.names. TEXT - is standard input. A
mistake is named with its line and column, and then nothing is written. A text has one thing on a line, and a # begins a comment:

  uint NAME [marked]        a variable; also bool NAME, and pointer NAME [marked]. They stand first
  constant NAME = 16        a number, true or false that has a name. They stand next; a number may also be written where it is used
  let NAME = EXPRESSION     an expression that has a name; it is worked out anew at each use
  NAME := EXPRESSION        a variable is set
  NAME := new EXPRESSION    a pointer gets a new array of that length
  NAME[EXPRESSION] := EXPRESSION        a cell is written; *POINTER := EXPRESSION where nothing is added to the pointer
  assert EXPRESSION         assume EXPRESSION         nothing
  loop NAME from EXPRESSION to EXPRESSION       end
  procedure NAME(A, B)      to the next procedure or the end; A, the parameter, and B are variables that are declared one after another
  return EXPRESSION         NAME := call PROCEDURE(EXPRESSION)

  expressions: numbers, true, false, names, a + b, a - b, a < b, a <= b, a = b, if a then b else c, p[a] and *p (the number in a cell),
  has p[a] and has *p (whether there is that cell), brackets. + and - take two uints, or a pointer and a uint; <, <= and = take two uints; the
  condition of an if, an assert and an assume is a bool: a comparison, has, true, false, a bool variable, or an if of these (there is no and, or, not)

Equal expressions become one node; one that has a name is a node of its own. The exact form, which unpack --exact writes, is taken too.
""",
    "unpack": """\
usage: ./bench unpack [--exact] FILE [--output TEXT]

Writes a program file as a text, as pack takes it, with the names and comments in FILE.names: the text that was packed, but for spaces, and for
brackets and stars that can be written more simply. Without names pack makes of it a program that runs the same. With --exact each line is a line
of the table: its number, its name (v a variable, n a node, r a row), its kind and three operands; pack makes the same file of it.
""",
}
