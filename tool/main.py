"""The commands of ./bench: arguments, files and what is printed. The answers are those of the proved programs (machines.py)."""
import fcntl
import json
import os
import sys
from array import array

import help_texts
from infix import Infix
from machines import LARGEST_ROOM, LONGEST_FILE, SMALL_ROOM, Broken, Machines, Progress, Refused, Run, write_choices
from program import PROCEDURE, TYPES, Names, Program, number_in
from show import Show, run_json, run_line
from text_form import INDENT, Mistake, read_text, written, written_exact

STATUS = {"done": 0, "steps": 0, "assert": 1, "assume": 1, "fail": 1, "room": 4, "deep": 4, "badchoice": 4, "nochoice": 4, "full": 4}
USAGE, REFUSED, BROKEN = 2, 3, 5
HERE = os.path.dirname(os.path.abspath(__file__))


class Usage(Exception):
    """Arguments that a command cannot take."""


# Meanings


def meanings():
    out = {}
    with open(os.path.join(HERE, "meanings.txt")) as lines:
        for line in lines:
            sort, word, text = line.rstrip("\n").split(" ", 2)
            out[sort, word] = text
    return out


def say(text):
    sys.stderr.write("bench: %s\n" % text)


def end_meaning(end, reason):
    known = meanings()
    return known["end", end] + (": " + known["reason", str(reason)] if end == "fail" else "")


# Files


def read_bytes(path, most=-1):
    """The bytes of a file, or for - of standard input; no more than so many."""
    try:
        if path == "-":
            return sys.stdin.buffer.read(most)
        with open(path, "rb") as data:
            return data.read(most)
    except OSError as error:
        raise Broken("%s cannot be read: %s" % (path, error.strerror))
    except AttributeError:
        raise Broken("standard input cannot be read")


def write_bytes(path, data):
    try:
        with open(path, "wb") as out:
            out.write(data)
    except OSError as error:
        raise Broken("%s cannot be written: %s" % (path, error.strerror))


def looks_like_text(data):
    return bool(data) and all(byte in b"\t\n\r" or 32 <= byte < 127 or 128 <= byte for byte in data[:512])


def names_path(path):
    return path + ".names"


def names_beside(path, program):
    """The names beside a program file; names of another table are not taken."""
    if not os.path.exists(names_path(path)):
        return None
    found = Names.read(read_bytes(names_path(path)).decode("utf-8", "replace"), program)
    if found is None:
        say("%s is not of this program, and is not used" % names_path(path))
    return found


def load(machines, path):
    """The program in a file, with its names. A text in its place gets a hint. Of a file that is too long enough is read to be refused."""
    data = read_bytes(path, LONGEST_FILE + 1)
    try:
        words = machines.read(data)
    except Refused:
        if looks_like_text(data):
            say("%s is a text and no program file; ./bench pack makes one of it" % path)
        raise
    program = Program(words)
    names = names_beside(path, program)
    program.names, program.has_names = names or program.names, names is not None
    if not words:
        say("%s is empty: a program with no lines" % path)
    return program


def checked(machines, program):
    """Sees to it that a table passes, as the writer of files does."""
    machines.file_of(program.words)
    return program


def listed(program, place):
    """The line of a table that a refusal names, or nothing."""
    lines = list(written_exact(program))[1:]
    return lines[place].rstrip("\n") if place < len(lines) else ""


def say_refusal(refused, program):
    say(meanings()["refusal", str(refused.number)])
    if refused.number >= 5 and refused.number not in (13, 14, 15) and program is not None:
        say("line %s" % listed(program, refused.place).strip())


# Output


def put(text):
    sys.stdout.write(text + "\n")


def put_all(texts):
    for text in texts:
        put(text)


def put_json(value):
    put(json.dumps(value))


# Arguments


def word(text, what):
    number = number_in(text)
    if number is None:
        raise Usage("%s is a number below 4294967296, and not '%s'" % (what, text[:40]))
    return number


def split(arguments, options):
    """Positional arguments and options; an option takes a value where its default is not False."""
    found, places, rest = dict(options), [], list(arguments)
    while rest:
        item = rest.pop(0)
        name = item[2:].partition("=")[0]
        if item == "--":
            places += rest
            break
        if item == "-o" and "output" in options:
            item, name = "--output", "output"
        if not item.startswith("--"):
            places.append(item)
        elif name not in options or (options[name] is False and "=" in item):
            raise Usage("there is no option %s here" % item)
        elif options[name] is False:
            found[name] = True
        else:
            found[name] = item.partition("=")[2] if "=" in item else rest.pop(0) if rest else None
            if not found[name]:
                raise Usage("%s takes a value" % item)
    return places, found


def pair_of(c1, c2):
    return word(c1, "C1"), word(c2, "C2")


def circuits_of(text):
    return None if text is None else [word(part, "a circuit") for part in text.split(",")]


def count_of(text, what, least, most):
    number = word(text, what)
    if not least <= number <= most:
        raise Usage("%s is from %d to %d" % (what, least, most))
    return number


class Choices:
    """The numbers of a choice file or of standard input, each with its line; what follows a # is left out."""

    def __init__(self, path):
        if path == "-" and sys.stdin is not None and sys.stdin.isatty():
            say("the choices are read from standard input")
        self.path, self.numbers, self.lines = path, array("I"), array("I")
        for at, line in enumerate(read_bytes(path).decode("utf-8", "replace").split("\n"), 1):
            for item in line.partition("#")[0].replace(",", " ").split():
                self.take(item, at)

    def take(self, item, at):
        number = number_in(item)
        if number is None:
            raise Usage("%s, line %d: '%s' is no number below 4294967296" % (self.path, at, item[:40]))
        self.numbers.append(number)
        self.lines.append(at)

    def say_bad(self, run):
        """Names the choice that was not allowed."""
        k = run.used + run.bad_choice()
        say("the choice that is not allowed is %d, line %d of %s" % (self.numbers[k], self.lines[k], self.path))


def warn_of_circuits(record, circuits):
    """Says which circuits are in no array of a run."""
    longest = max([length for _, length, _ in record.arrays()], default=0)
    for c in circuits or ():
        if c >= longest:
            say("circuit %d is in no array of this run: the longest has %d cells" % (c, longest))


# Commands


def plain(arguments):
    places, options = split(arguments, {"circuits": None, "json": False})
    if len(places) != 2:
        raise Usage("plain takes LIMIT and FILE")
    limit, circuits = word(places[0], "LIMIT"), circuits_of(options["circuits"])
    machines = Machines()
    program = load_for_run(machines, places[1])
    run = Run(machines, program.words).to(limit, Progress("plain"))
    warn_of_circuits(run.record, circuits)
    show = Show(program, None, circuits)
    if options["json"]:
        put_json({"plain": run_json(run), "record": show.record_json(run), "worked_out": ended_at(show, run)})
    else:
        put(run_line("plain", run))
        put_all(show.record_lines(run))
        put_all("worked out: " + text for text in ended_at(show, run))
    return told(run)


def ended_at(show, run):
    """What the row worked out at which a run ended by an assert, an assume or a failure."""
    if run.end in ("assert", "assume", "fail"):
        return show.worked_out(run.again().to(run.steps - 1, Progress("again")) if run.reduced else run)
    return show.worked_out(run) if run.end in ("badchoice", "nochoice") else []


def told(run, own=None):
    """Says what the end of a run means, and which of the user's own choices was not allowed. Gives the exit status."""
    say("%s: %s" % (run.end, end_meaning(run.end, run.reason)))
    if own is not None and run.end == "badchoice":
        own.say_bad(run)
    return STATUS[run.end]


def load_for_run(machines, path):
    program = load(machines, path)
    try:
        return checked(machines, program)
    except Refused as refused:
        refused.program = program
        raise


def reduce_program(machines, program, c1, c2):
    reduced = Program(machines.reduced(program.words, c1, c2))
    reduced.names = program.names
    return reduced


def reduced(arguments):
    places, options = split(arguments, {"written": False, "json": False})
    if len(places) not in (4, 5) or (options["written"] and len(places) == 5):
        raise Usage("reduced takes C1, C2, LIMIT, FILE and, where not --written, CHOICES or standard input")
    pair, limit = pair_of(*places[:2]), word(places[2], "LIMIT")
    machines = Machines()
    program = load_for_run(machines, places[3])
    table = reduce_program(machines, program, *pair)
    choices, own = the_choices(machines, program, pair, limit, places[3:], options["written"])
    run = Run(machines, table.words, pair, choices).to(limit, Progress("reduced"))
    beside = Run(machines, program.words).to(limit, Progress("plain"))
    warn_of_circuits(beside.record, pair)
    show = Show(table, pair)
    if options["json"]:
        value = {"reduced": run_json(run), "record": show.record_json(run), "worked_out": ended_at(show, run)}
        put_json({**value, "plain": run_json(beside), "plain_record": Show(program, None, pair).record_json(beside)})
    else:
        put(run_line("reduced", run))
        put(run_line("plain", beside))
        put("choices: %d given, %d used" % (len(choices), run.used))
        put_all(show.record_lines(run, beside))
        put_all("worked out: " + text for text in ended_at(show, run))
    return told(run, own)


def the_choices(machines, program, pair, limit, places, are_written):
    """The user's choices, from the file after FILE or from standard input, or those that the writer writes, with as much room as they need."""
    if not are_written:
        source = places[1] if len(places) > 1 else "-"
        if source == places[0] == "-":
            raise Usage("the program and the choices cannot both be read from standard input")
        own = Choices(source)
        return own.numbers, own
    size = SMALL_ROOM
    while True:
        end, _, _, _, numbers = write_choices(machines, program.words, *pair, limit, size)
        if end != "full" or size >= LARGEST_ROOM:
            return numbers, None
        size = min(LARGEST_ROOM, size * 128)


def choices(arguments):
    places, options = split(arguments, {"room": str(SMALL_ROOM), "numbers": False, "json": False})
    if len(places) != 4:
        raise Usage("choices takes C1, C2, LIMIT and FILE")
    pair, limit = pair_of(*places[:2]), word(places[2], "LIMIT")
    room = count_of(options["room"], "--room", 0, LARGEST_ROOM)
    machines = Machines()
    program = load_for_run(machines, places[3])
    table = reduce_program(machines, program, *pair)
    end, reason, steps, row, numbers = write_choices(machines, program.words, *pair, limit, room)
    warn_of_circuits(Run(machines, program.words).to(steps).record, pair)
    line = "choices %s%s row %d steps %d choices %d" % (end, " reason %d" % reason if end == "fail" else "", row, steps, len(numbers))
    if options["json"]:
        head = {"end": end, "row": row, "steps": steps, "choices": len(numbers), **({"reason": reason} if end == "fail" else {})}
        put_json({"choices": head, "list": choice_json(machines, table, pair, numbers, options["numbers"])})
    else:
        put("# " + line)
        if options["numbers"]:
            put_all(map(str, numbers))
        else:
            put_all("%d  # step %d, row %d, %d: %s" % item for item in annotated(machines, table, pair, numbers))
    say("%s: %s" % (end, end_meaning(end, reason)))
    return STATUS[end]


def choice_json(machines, table, pair, numbers, bare):
    if bare:
        return list(numbers)
    keys = ("number", "step", "row", "kind", "stands_for")
    return [dict(zip(keys, item)) for item in annotated(machines, table, pair, numbers)]


def annotated(machines, table, pair, numbers):
    """Each choice with its step, its row, its kind and what it stands for: the reduced run is made step by step under them."""
    run, show, progress = Run(machines, table.words, pair, numbers), Show(table, pair), Progress("choices")
    while run.end == "steps" and run.used < len(numbers):
        before = run.copy()
        run.advance(1)
        found = show.choices_of(before, run.used - before.used)
        for number, (kind, what) in zip(numbers[before.used : run.used], found):
            yield number, run.steps, before.record.row, kind, what
        if not sys.stdout.isatty():
            progress.steps(run.steps)
    progress.over()


def trace(arguments):
    places, options = split(arguments, {"last": "20", "written": False, "json": False})
    if len(places) not in (2, 4, 5) or (options["written"] and len(places) != 4):
        raise Usage("trace takes LIMIT and FILE, or C1, C2, LIMIT, FILE and, where not --written, CHOICES or standard input")
    pair = pair_of(*places[:2]) if len(places) > 2 else None
    limit, path = places[2:4] if pair else places
    limit, last = word(limit, "LIMIT"), word(options["last"], "--last")
    machines = Machines()
    program = load_for_run(machines, path)
    table, given, own = program, (), None
    if pair:
        table = reduce_program(machines, program, *pair)
        given, own = the_choices(machines, program, pair, limit, places[3:], options["written"])
    whole = Run(machines, table.words, pair, given).to(limit, Progress("trace"))
    show = Show(table, pair)
    if pair:
        warn_of_circuits(whole.record, pair)
    start = whole.again().to(whole.steps - min(last, whole.steps), Progress("again"))
    steps = traced(show, start, limit)
    if options["json"]:
        put_json({"run": run_json(whole), "steps": list(steps), "worked_out": ended_at(show, whole)})
    else:
        for step in steps:
            put_all(step_lines(step))
        put_all(INDENT + "worked out: " + text for text in ended_at(show, whole))
        put(run_line("reduced" if pair else "plain", whole))
    return told(whole, own)


def traced(show, run, limit):
    """The steps of a run from where it stands: row, what it changed and the choices it took."""
    while run.end == "steps" and run.steps < limit:
        before = run.copy()
        run.advance(1)
        if run.steps == before.steps and run.end in ("steps", "done"):
            return
        took = run.used - before.used
        given = zip(run.choices[before.used : run.used], show.choices_of(before, took))
        yield {
            "step": before.steps + 1 if run.steps > before.steps else None,
            "row": before.record.row,
            "instruction": show.row_text(before.record.row),
            "changed": show.changes(before.record, run.record),
            "choices": [{"number": n, "kind": kind, "stands_for": what} for n, (kind, what) in given],
            **({"end": run.end} if run.end not in ("steps", "done") else {}),
        }


def step_lines(step):
    number = "step %d" % step["step"] if step["step"] else "not taken"
    yield "%s, row %d: %s" % (number, step["row"], step["instruction"])
    for text in step["changed"]:
        yield INDENT + text
    if step["choices"]:
        yield INDENT + "choices: " + ", ".join("%d (%d %s)" % (c["number"], c["kind"], c["stands_for"]) for c in step["choices"])
    if "end" in step:
        yield INDENT + "ends: " + step["end"]


def list_program(arguments):
    places, _ = split(arguments, {})
    if len(places) != 1:
        raise Usage("list takes FILE")
    machines = Machines()
    put_all(listing(load_for_run(machines, places[0])))
    return 0


def reduce_command(arguments):
    places, _ = split(arguments, {})
    if len(places) != 3:
        raise Usage("reduce takes C1, C2 and FILE")
    pair = pair_of(*places[:2])
    machines = Machines()
    program = load_for_run(machines, places[2])
    table = reduce_program(machines, program, *pair)
    put("The reduced table for circuits %d and %d. A ? stands after what takes a choice, or may take one." % pair)
    put("A row with a * has another kind than in the program, or works out a node that has.")
    put_all(listing(table, changed_rows(program, table)))
    put("changed lines:")
    for k in range(0, len(program.words), 4):
        old, new = program.words[k : k + 4], table.words[k : k + 4]
        if old != new:
            put("  line %s -> %s" % (with_words(program, k // 4), " ".join(map(str, new))))
    return 0


def with_words(program, k):
    """A line of a table on one line: its number, name, what it is and its words."""
    numbers, _, comment = listed(program, k).partition("#")
    line, name, *words = numbers.split()
    return "%4s %-5s %s: %s" % (line, name, comment.strip(), " ".join(words))


def changed_rows(program, table):
    """The rows that the reduction changed, themselves or in a node under them."""
    changed = []
    for n, line in enumerate(table.nodes):
        changed.append(line != program.nodes[n] or any(changed[m] for m in table.operands(line)))
    return {r for r, line in enumerate(table.rows) if line != program.rows[r] or any(changed[m] for m in table.operands(line))}


def listing(program, starred=None):
    """Variables, constants and rows of a program, the rows with their numbers and indented by loops."""
    names, infix, depths = program.names, Infix(program), program.depths()
    owner = {v: names.procedure(p) for p in range(len(program.procedures())) for v in program.locals_of(p)}
    yield "%d lines: %d variables, %d nodes, %d rows" % (len(program.words) // 4, len(program.variables), len(program.nodes), len(program.rows))
    yield "variables:" + ("" if program.variables else " none")
    for v, (kind, mark, _, _) in enumerate(program.variables):
        yield "  %-8s %s%s%s" % (TYPES[kind], names.variable(v), ", marked" * mark, ", local of " + owner[v] if v in owner else "")
    if names.constants:
        yield "constants:"
    for n, name in sorted(names.constants.items()):
        yield "  %s = %s" % (name, infix.written(n))
    yield "main:"
    for r, line in enumerate(program.rows):
        for n, name in sorted(names.lets.items()):
            if names.before[n] == r:
                yield "  %s          %s%s = %s" % ("" if starred is None else "  ", INDENT * depths[r], name, infix.written(n))
        star = "" if starred is None else "* " if r in starred else "  "
        text = infix.row(r)
        if line[0] == PROCEDURE:
            yield "%s:" % text
            text = "(opens it)"
        yield "  %srow %4d  %s%s" % (star, r, INDENT * depths[r], text)


def pack(arguments):
    places, options = split(arguments, {"output": None})
    if len(places) != 1:
        raise Usage("pack takes TEXT")
    source = places[0]
    target = pack_target(source, options["output"])
    try:
        words, names, packed = packed_text(read_bytes(source))
    except Mistake as mistake:
        say("%s:%d:%d: %s" % (source, mistake.line, mistake.column, mistake.what))
        return REFUSED
    if names is not None:
        write_bytes(names_path(target), names.written(Program(words).mark()).encode())
    write_bytes(target, packed)
    if names is None:
        names_beside(target, Program(words))
    if not words:
        say("%s is empty: a program with no lines" % source)
    put("%s: %d lines, %d bytes" % (target, len(words) // 4, len(packed)))
    return 0


def pack_target(source, target):
    """The file that a text is packed into."""
    if target is None:
        if not source.endswith(".txt"):
            raise Usage("the file of a text whose name does not end in .txt is named by --output")
        target = source[:-4]
    if os.path.realpath(source) in (os.path.realpath(target), os.path.realpath(names_path(target))):
        raise Usage("%s would be written over" % source)
    return target


def packed_text(data):
    """The words, names and file of a text. A table that is refused is a mistake at the place in the text of its line."""
    try:
        text = data.decode("utf-8-sig")
    except UnicodeDecodeError as error:
        raise Mistake(data.count(b"\n", 0, error.start) + 1, error.start - data.rfind(b"\n", 0, error.start), "this is no text")
    words, at, names = read_text(text.replace("\r\n", "\n"))
    try:
        return words, names, Machines().file_of(words)
    except Refused as refused:
        line, column = at[refused.place] if refused.place < len(at) else (1, 1)
        raise Mistake(line, column, "refused %d: %s" % (refused.number, meanings()["refusal", str(refused.number)]))


def unpack(arguments):
    places, options = split(arguments, {"exact": False, "output": None})
    if len(places) != 1:
        raise Usage("unpack takes FILE")
    if options["output"] and os.path.realpath(options["output"]) == os.path.realpath(places[0]):
        raise Usage("%s would be written over" % places[0])
    machines = Machines()
    if options["exact"]:
        text = "".join(written_exact(load(machines, places[0])))
    else:
        program = load_for_run(machines, places[0])
        text = written(program, program.has_names)
    if options["output"]:
        write_bytes(options["output"], text.encode())
    else:
        sys.stdout.write(text)
    return 0


def watch(arguments):
    """Shows the progress of a plain run while `pair` waits for pairrun; it is no command of ./bench."""
    limit, path = arguments
    machines = Machines()
    Run(machines, load(machines, path).words).to(word(limit, "LIMIT"), Progress("plain", 0))
    return 0


COMMANDS = {
    "plain": plain, "reduce": reduce_command, "choices": choices, "reduced": reduced, "trace": trace, "list": list_program, "pack": pack,
    "unpack": unpack, "watch": watch,
}


def main(arguments):
    sys.setrecursionlimit(10000)
    if not arguments or arguments[0] in ("--help", "-h", "help"):
        (sys.stdout if arguments else sys.stderr).write(help_texts.GENERAL)
        return 0 if arguments else USAGE
    command, rest = arguments[0], arguments[1:]
    if "--help" in rest or "-h" in rest:
        if command not in help_texts.COMMANDS:
            raise Usage("there is no command %s" % command)
        sys.stdout.write(help_texts.COMMANDS[command])
        return 0
    if command not in COMMANDS:
        raise Usage("there is no command %s" % command)
    return COMMANDS[command](rest)


def guarded(arguments):
    """Runs a command; what goes wrong gets a line on standard error and its exit status."""
    try:
        status = main(arguments)
        sys.stdout.flush()
        return status
    except Usage as usage:
        say("%s; ./bench --help says what there is" % usage)
        return USAGE
    except Refused as refused:
        if "--json" in arguments:
            put_json({"refused": refused.number, "line": refused.place})
        else:
            put(str(refused))
        sys.stdout.flush()
        say_refusal(refused, getattr(refused, "program", None))
        return REFUSED


def is_open(stream, number, mode):
    """Whether a stream is open; in the place of one that is not something else may have been opened, in another mode."""
    try:
        return stream is not None and fcntl.fcntl(number, fcntl.F_GETFL) & os.O_ACCMODE in (mode, os.O_RDWR)
    except OSError:
        return False


def open_streams():
    """Sees to it that nothing else is opened in the place of a closed stream: what is said goes nowhere where standard error is closed."""
    if not is_open(sys.stdin, 0, os.O_RDONLY):
        os.open(os.devnull, os.O_RDONLY)
        sys.stdin = None
    if not is_open(sys.stderr, 2, os.O_WRONLY):
        sys.stderr = open(os.devnull, "w")
    if not is_open(sys.stdout, 1, os.O_WRONLY):
        sys.stdout = None
        raise Broken("standard output is closed")


def run():
    try:
        open_streams()
        status = guarded(sys.argv[1:])
    except BrokenPipeError:
        status = BROKEN
    except Broken as broken:
        say(str(broken))
        status = BROKEN
    except MemoryError:
        say("there is not enough memory")
        status = BROKEN
    except OSError as error:
        say("the output cannot be written: %s" % error.strerror)
        status = BROKEN
    except KeyboardInterrupt:
        sys.stderr.write("\n")
        status = 130
    os._exit(closed(status))


def closed(status):
    """Closes standard output: the exit status, where what was left could not be written."""
    try:
        if sys.stdout is not None:
            sys.stdout.close()
    except OSError:
        return status or BROKEN
    return status


if __name__ == "__main__":
    run()
