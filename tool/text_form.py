"""The text form of a program: read into a table and names (`pack`), and written from them (`unpack`).

A text has one thing on a line: first the variables, then the constants, then rows and named expressions (let) in any order. A # begins a
comment. The exact form has a line of the table on each line, as numbers.
"""
import contextlib
import re
from array import array

from infix import Infix, name_long_ones
from program import (
    ASSERT, ASSUME, AT_MOST, CALL, CELL, END, EQUAL, HAS, IF, LESS, LOOP, MINUS, NEW, NOTHING, NUMBER, PLUS, PROCEDURE, RETURN, SET, TRUTH,
    TYPES, VARIABLE, VARIABLE_READ, WRITE, Names, is_name, number_in,
)

TOKEN = re.compile(r"\s*(?:([A-Za-z_][A-Za-z0-9_]*)|([0-9]+)|(:=|<=|[-+<=*()\[\],])|(\S))")
COMPARISONS = {"<": LESS, "<=": AT_MOST, "=": EQUAL}
INDENT = "    "
FAR = 60  # brackets, stars and ifs inside one another that are read; a node has at most 12


class Mistake(Exception):
    """A mistake in a text, with its line and column, both from 1."""

    def __init__(self, line, column, what):
        super().__init__(what)
        self.line, self.column, self.what = line, column, what


class Node:
    """An expression that was read: its kind, its operands (nodes or numbers), and where it stands."""

    def __init__(self, kind, operands, at):
        self.kind, self.operands, self.at, self.number = kind, operands, at, None


class Line:
    """The tokens of one line of text, read from left to right."""

    def __init__(self, number, text):
        self.number, self.tokens, self.next, self.inner = number, [], 0, 0
        at = 0
        while text[at:].strip():
            found = TOKEN.match(text, at)
            start = found.start(found.lastindex)
            if found.lastindex == 4:
                raise Mistake(number, start + 1, "'%s' has no meaning here" % found.group(4))
            self.tokens.append((found.group(found.lastindex), start + 1))
            at = found.end()
        self.end = len(text.rstrip()) + 1

    def column(self):
        return self.tokens[self.next][1] if self.next < len(self.tokens) else self.end

    def here(self):
        return self.number, self.column()

    def peek(self, ahead=0):
        at = self.next + ahead
        return self.tokens[at][0] if at < len(self.tokens) else ""

    def mistake(self, what):
        return Mistake(self.number, self.column(), what)

    def expected(self, what):
        found = "'%s'" % self.peek() if self.peek() else "the end of the line"
        return self.mistake("%s is expected here, and not %s" % (what, found))

    def take(self):
        self.next += 1
        return self.tokens[self.next - 1][0]

    def takes(self, token):
        if self.peek() != token:
            return False
        self.next += 1
        return True

    def need(self, token):
        if not self.takes(token):
            raise self.expected("'%s'" % token)

    def name(self, what):
        if not is_name(self.peek()):
            raise self.expected(what)
        return self.take()

    def value(self):
        """A number or a truth: the kind of its node, and its operand."""
        if self.peek() in ("true", "false"):
            return TRUTH, int(self.take() == "true")
        if not self.peek().isdigit():
            raise self.expected("a number, true or false")
        if number_in(self.peek()) is None:
            raise self.mistake("a number is below 4294967296")
        return NUMBER, number_in(self.take())

    @contextlib.contextmanager
    def inside(self):
        """One bracket, star or if further inside."""
        self.inner += 1
        if self.inner > FAR:
            raise self.mistake("more than %d brackets, stars and ifs stand inside one another here" % FAR)
        yield
        self.inner -= 1

    def finish(self):
        if self.next < len(self.tokens):
            raise self.expected("the end of the line")


class Reader:
    """Reads a text. Equal expressions become one node; a named one is a node of its own."""

    def __init__(self):
        self.variables, self.constants, self.lets, self.rows = [], [], [], []
        self.what, self.procedures, self.calls = {}, [], []  # what each name is; the names of procedures; calls whose procedure is to be found
        self.shared, self.made = {}, []  # unnamed nodes by what they are; the nodes that are neither constants nor variables, in order
        self.names = Names()

    # Names

    def fresh_name(self, line, what):
        at = line.here()
        name = line.name(what)
        if name in self.what:
            raise Mistake(*at, "the name %s is given already" % name)
        return name

    def variable(self, line, what="a variable"):
        at = line.here()
        name = line.name(what)
        sort, found = self.what.get(name, (None, None))
        if sort != "variable":
            raise Mistake(*at, self.no_such(name, sort, "a variable"))
        return found

    def no_such(self, name, sort, wanted):
        if sort is None:
            return "there is no %s with the name %s" % (wanted.partition(" ")[2], name)
        return "%s is not %s but a %s" % (name, wanted, sort)

    # Expressions

    def node(self, kind, operands, at):
        """The unnamed node of a kind with these operands, made where there is none yet."""
        key = (kind, tuple(id(x) if isinstance(x, Node) else x for x in operands))
        if key not in self.shared:
            self.shared[key] = Node(kind, operands, at)
            if kind not in (VARIABLE, NUMBER, TRUTH):
                self.made.append(self.shared[key])
        return self.shared[key]

    def expression(self, line):
        at = line.here()
        if not line.takes("if"):
            return self.compared(line)
        with line.inside():
            truth = self.compared(line)
            line.need("then")
            then = self.compared(line)
            line.need("else")
            return self.node(IF, (truth, then, self.expression(line)), at)

    def compared(self, line):
        at = line.here()
        left = self.sum(line)
        if line.peek() not in COMPARISONS:
            return left
        kind = COMPARISONS[line.take()]
        return self.node(kind, (left, self.sum(line)), at)

    def sum(self, line):
        at = line.here()
        left = self.tight(line)
        while line.peek() in ("+", "-"):
            kind = PLUS if line.take() == "+" else MINUS
            left = self.node(kind, (left, self.tight(line)), at)
        return left

    def tight(self, line):
        at = line.here()
        with line.inside():
            if line.takes("has"):
                return self.node(HAS, (self.place(line),), at)
            if line.peek() == "*":
                return self.node(CELL, (self.place(line),), at)
            return self.indexed(line, at)

    def indexed(self, line, at):
        """A name, a number or brackets, and the cell that it points to where an index follows."""
        found = self.single(line)
        while line.peek() == "[":
            found = self.node(CELL, (self.moved_on(line, found, at),), at)
        return found

    def moved_on(self, line, pointer, at):
        line.need("[")
        number = self.expression(line)
        line.need("]")
        return self.node(PLUS, (pointer, number), at)

    def single(self, line):
        at = line.here()
        if line.takes("("):
            found = self.expression(line)
            line.need(")")
            return found
        if line.peek().isdigit() or line.peek() in ("true", "false"):
            kind, value = line.value()
            return self.node(kind, (value,), at)
        name = line.name("an expression")
        sort, found = self.what.get(name, (None, None))
        if sort == "variable":
            return self.node(VARIABLE, (found,), at)
        if found is None or sort == "procedure":
            raise Mistake(*at, self.no_such(name, sort, "a variable or named expression"))
        return found

    def place(self, line):
        """The pointer to a cell that is written `*pointer` or `pointer[number]`."""
        at = line.here()
        if line.takes("*"):
            return self.tight(line)
        pointer = self.single(line)
        if line.peek() != "[":
            raise line.expected("'['")
        place = self.moved_on(line, pointer, at)
        while line.peek() == "[":
            place = self.moved_on(line, self.node(CELL, (place,), at), at)
        return place

    # Lines

    def declare(self, line):
        if self.constants or self.lets or self.rows:
            raise line.mistake("the variables stand before everything else")
        kind = {name: kind for kind, name in TYPES.items()}[line.take()]
        at = line.here()
        name = self.fresh_name(line, "the name of a variable")
        self.what[name] = ("variable", len(self.variables))
        self.names.variables[len(self.variables)] = name
        self.variables.append(((kind, int(line.takes("marked")), 0, 0), at))

    def constant(self, line):
        if self.lets or self.rows:
            raise line.mistake("the constants stand before the rows and the named expressions")
        line.take()
        at = line.here()
        name = self.fresh_name(line, "the name of a constant")
        line.need("=")
        kind, value = line.value()
        self.what[name] = ("constant", Node(kind, (value,), at))
        self.constants.append(name)

    def let(self, line):
        line.take()
        at = line.here()
        name = self.fresh_name(line, "the name of an expression")
        line.need("=")
        start = line.here()
        count = len(self.shared)
        found = self.expression(line)
        if found.kind in (NUMBER, TRUTH):
            raise Mistake(*start, "a number or a truth is named by constant")
        if any(found is known for sort, known in self.what.values() if sort == "named expression"):
            raise Mistake(*start, "this has a name already")
        own = Node(found.kind, found.operands, at)
        if len(self.shared) > count and next(reversed(self.shared.values())) is found:  # it was made for this name alone
            self.shared.popitem()
            self.made = [n for n in self.made if n is not found]
        self.made.append(own)
        self.what[name] = ("named expression", own)
        self.lets.append((name, len(self.rows)))

    def row(self, line):
        at = line.here()
        words = {"nothing": NOTHING, "end": END, "assert": ASSERT, "assume": ASSUME, "return": RETURN, "loop": LOOP, "procedure": PROCEDURE}
        kind = words.get(line.peek())
        if kind is None:
            self.rows.append((self.assignment(line), at))
            return
        line.take()
        if kind in (NOTHING, END):
            row = (kind, 0, 0, 0)
        elif kind == LOOP:
            row = self.loop(line)
        elif kind == PROCEDURE:
            row = self.procedure(line)
        else:
            row = (kind, self.expression(line), 0, 0)
        self.rows.append((row, at))

    def loop(self, line):
        iterator = self.variable(line)
        line.need("from")
        start = self.expression(line)
        line.need("to")
        return (LOOP, iterator, start, self.expression(line))

    def procedure(self, line):
        name = self.fresh_name(line, "the name of a procedure")
        self.what[name] = ("procedure", len(self.procedures))
        self.names.procedures[len(self.procedures)] = name
        self.procedures.append(name)
        line.need("(")
        first = self.variable(line)
        count = 1
        while line.takes(","):
            at = line.here()
            if self.variable(line) != first + count:
                raise Mistake(*at, "the locals of a procedure are declared one after another, in this order")
            count += 1
        line.need(")")
        return (PROCEDURE, first, count, 0)

    def assignment(self, line):
        """A variable that is set, a new array, a call, or a cell that is written."""
        sort = self.what.get(line.peek(), (None, None))[0]
        if line.peek(1) == "=":
            line.take()
            raise line.expected("':='")
        if line.peek(1) != ":=" or line.peek() == "*":
            pointer = self.place(line)
            line.need(":=")
            return (WRITE, pointer, self.expression(line), 0)
        if sort == "named expression":
            raise line.mistake("%s is a named expression; the cell to which it points is *%s" % (line.peek(), line.peek()))
        variable = self.variable(line)
        line.need(":=")
        if line.takes("new"):
            return (NEW, variable, self.expression(line), 0)
        if line.takes("call"):
            return self.call(line, variable)
        return (SET, variable, self.expression(line), 0)

    def call(self, line, variable):
        at = line.here()
        name = line.name("the name of a procedure")
        line.need("(")
        number = self.expression(line)
        line.need(")")
        self.calls.append((len(self.rows), name, at))
        return (CALL, 0, number, variable)

    def read_line(self, line):
        word = line.peek()
        if word in TYPES.values():
            self.declare(line)
        elif word == "constant":
            self.constant(line)
        elif word == "let":
            self.let(line)
        else:
            self.row(line)
        line.finish()

    def read(self, text):
        """Reads a whole text: the words of its table, and where each line of the table stands in the text."""
        count = 0
        for number, whole in enumerate(text.split("\n"), 1):
            code, sign, comment = whole.partition("#")
            if not code.strip():
                self.names.above.setdefault(count, []).append((sign + comment).strip())
                continue
            if sign:
                self.names.beside[count] = (sign + comment).strip()
            self.read_line(Line(number, code.replace("\t", " ")))
            count += 1
        self.drop_last_line(count)
        return self.table()

    def drop_last_line(self, count):
        """What stands after the last newline is no line."""
        last = self.names.above.get(count)
        if last and not last[-1]:
            last.pop()
        if last == []:
            del self.names.above[count]

    # The table

    def table(self):
        for row, name, at in self.calls:
            sort, found = self.what.get(name, (None, None))
            if sort != "procedure":
                raise Mistake(*at, self.no_such(name, sort, "a procedure"))
            kind, _, number, variable = self.rows[row][0]
            self.rows[row] = ((kind, found, number, variable), self.rows[row][1])
        nodes = self.numbered()
        lines = self.variables + [((n.kind, *n.operands), n.at) for n in nodes] + self.rows
        words = array("I")
        for line, _ in lines:
            numbers = [x.number if isinstance(x, Node) else x for x in line]
            words.extend(numbers + [0] * (4 - len(numbers)))
        return words, [at for _, at in lines]

    def numbered(self):
        """The nodes in their order: unnamed constants by size, named ones, variables, and what is made of these as the text has it."""
        def unnamed(kind):
            return sorted((n for n in self.shared.values() if n.kind == kind), key=lambda n: n.operands)

        named = [self.what[name][1] for name in self.constants]
        nodes = unnamed(NUMBER) + unnamed(TRUTH) + named + unnamed(VARIABLE) + self.made
        for k, node in enumerate(nodes):
            node.number = k
        self.names.constants = {self.what[name][1].number: name for name in self.constants}
        for name, row in self.lets:
            n = self.what[name][1].number
            self.names.lets[n], self.names.before[n] = name, row
        return nodes


# The exact form

EXACT = re.compile(r"\s*([0-9]+)\s+([vnr])([0-9]+)\s+([0-9]+)\s+([0-9]+)\s+([0-9]+)\s+([0-9]+)\s*$")


def is_exact(text):
    """Whether the first line that is not a comment begins with a number."""
    for whole in text.split("\n"):
        code = whole.partition("#")[0].strip()
        if code:
            return code[0].isdigit()
    return False


def read_exact(text):
    """The words of a table whose lines are written as numbers, and where each stands in the text."""
    words, places, counts = array("I"), [], {"v": 0, "n": 0, "r": 0}
    for at, whole in enumerate(text.split("\n"), 1):
        code = whole.partition("#")[0]
        if not code.strip():
            continue
        column = len(code) - len(code.lstrip()) + 1
        found = EXACT.match(code)
        if not found or any(number_in(x) is None for x in found.groups() if x not in ("v", "n", "r")):
            raise Mistake(at, column, "a line is its number, its name, its kind and three operands, numbers below 4294967296")
        line, letter, number = number_in(found.group(1)), found.group(2), number_in(found.group(3))
        if line != len(places) or number != counts[letter]:
            raise Mistake(at, column, "line %d, %s%d, is expected here" % (len(places), letter, counts[letter]))
        counts[letter] += 1
        words.extend(map(number_in, found.groups()[3:]))
        places.append((at, column))
    return words, places


def read_text(text):
    """The words of a text's table, where each line of the table stands, and the names, or None for an exact text."""
    if is_exact(text):
        return (*read_exact(text), None)
    reader = Reader()
    return (*reader.read(text), reader.names)


# Writing


def written(program, named):
    """The text of a program. Where it has no names of its own, long expressions that are used more than once are given one."""
    if not named:
        name_long_ones(program)
    names, infix = program.names, Infix(program)
    lines = ["%s %s%s" % (TYPES[kind], names.variable(v), " marked" * mark) for v, (kind, mark, _, _) in enumerate(program.variables)]
    lines += ["constant %s = %s" % (name, infix.written(n)) for n, name in sorted(names.constants.items())]
    depths = program.depths()
    for r in range(len(program.rows) + 1):
        indent = INDENT * (depths[r] if r < len(depths) else depths[-1] if depths else 0)
        lines += [indent + "let %s = %s" % (name, infix.written(n)) for n, name in sorted(names.lets.items()) if names.before[n] == r]
        if r < len(program.rows):
            lines.append(indent + infix.row(r))
    return "".join(with_comments(names, lines))


def with_comments(names, lines):
    for k, line in enumerate(lines + [""]):
        indent = line[: len(line) - len(line.lstrip())]
        for comment in names.above.get(k, []):
            yield (indent + comment).rstrip() + "\n"
        if k < len(lines):
            yield line + ("  " + names.beside[k] if k in names.beside else "") + "\n"


def written_exact(program):
    """A line of the table on each line, with what it is as a comment."""
    names, depths = program.names, program.depths()
    yield "# line name  kind          a          b          c\n"
    k = 0
    for v, line in enumerate(program.variables):
        yield exact_line(k, "v%d" % v, line, "%s %s%s" % (TYPES.get(line[0], "?"), names.variable(v), ", marked" * (line[1] == 1)))
        k += 1
    short = Short(program)
    for n, line in enumerate(program.nodes):
        yield exact_line(k, "n%d" % n, line, short.comment(n))
        k += 1
    for r, line in enumerate(program.rows):
        yield exact_line(k, "r%d" % r, line, INDENT * depths[r] + short.row_comment(r))
        k += 1


class Short(Infix):
    """Writes an expression one deep: the nodes that it uses stand as n and their number, but for names, constants and variables."""

    def node(self, n, least=0):
        if n in self.named or n >= len(self.program.nodes):
            return self.named.get(n, "n%d" % n)
        return self.written(n) if self.program.nodes[n][0] in (VARIABLE, NUMBER, TRUTH, VARIABLE_READ) else "n%d" % n

    def place(self, n):
        return "*" + self.node(n)

    def comment(self, n):
        try:
            name = self.named.get(n)
            return (name + " = " if name else "") + self.written(n)
        except (KeyError, IndexError, ValueError):
            return "?"

    def row_comment(self, r):
        try:
            return self.row(r)
        except (KeyError, IndexError, ValueError):
            return "?"


def exact_line(k, name, line, comment):
    return "%6d %-5s %4d %10d %10d %10d  # %s\n" % (k, name, *line, comment)
