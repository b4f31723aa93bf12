"""A program: its table taken apart into variables, nodes and rows, what each kind is, and the names that a .names file gives."""
import re
import zlib
from array import array

BOOL, UINT, POINTER = 1, 2, 3
TYPES = {BOOL: "bool", UINT: "uint", POINTER: "pointer"}

# The kinds of nodes and rows; a reduced kind stands beside the plain one of which the reduction makes it.
VARIABLE, NUMBER, TRUTH, CELL, PLUS, MINUS, LESS, AT_MOST, EQUAL, IF, HAS = range(16, 27)
NOTHING, SET, WRITE, ASSERT, ASSUME, NEW, LOOP, END = range(32, 40)
PROCEDURE, RETURN, CALL = 43, 44, 45
VARIABLE_READ, CELL_READ, HAS_REDUCED, WRITE_REDUCED, NEW_REDUCED, LOOP_REDUCED = 27, 28, 29, 40, 41, 42
PLAIN_OF = {VARIABLE_READ: VARIABLE, CELL_READ: CELL, HAS_REDUCED: HAS, WRITE_REDUCED: WRITE, NEW_REDUCED: NEW, LOOP_REDUCED: LOOP}

# Which operands of a kind are nodes, by plain kind, in the order in which they are worked out.
NODE_OPERANDS = {
    VARIABLE: (), NUMBER: (), TRUTH: (), CELL: (0,), PLUS: (0, 1), MINUS: (0, 1), LESS: (0, 1), AT_MOST: (0, 1), EQUAL: (0, 1),
    IF: (0, 1, 2), HAS: (0,), NOTHING: (), SET: (1,), WRITE: (0, 1), ASSERT: (0,), ASSUME: (0,), NEW: (1,), LOOP: (1, 2), END: (),
    PROCEDURE: (), RETURN: (0,), CALL: (1,),
}

MOST = 2**32
NAME = re.compile(r"[A-Za-z_][A-Za-z0-9_]*")
KEYWORDS = set(
    "bool uint pointer marked constant let true false if then else has new loop from to end nothing assert assume procedure return call".split()
)


def number_in(text):
    """The number below 2^32 that a text spells in decimal, or None."""
    digits = text.lstrip("0") or text[:1]
    if not (text.isascii() and text.isdigit()) or len(digits) > 10 or int(digits) >= MOST:
        return None
    return int(digits)


def is_name(text):
    return NAME.fullmatch(text) is not None and text not in KEYWORDS


def plain_kind(kind):
    return PLAIN_OF.get(kind, kind)


class Program:
    """The lines of a table by sort: variables (type, mark), nodes and rows (kind, operands)."""

    def __init__(self, words):
        self.words = array("I", words)
        lines = [tuple(self.words[i : i + 4]) for i in range(0, len(self.words), 4)]
        self.variables = [line for line in lines if line[0] < 16]
        self.nodes = [line for line in lines if 16 <= line[0] < 32]
        self.rows = [line for line in lines if 32 <= line[0]]
        self.names, self.has_names = Names(), False

    def is_marked(self, variable):
        return self.variables[variable][1] == 1

    def operands(self, line):
        """The numbers of the nodes that a node or a row works out."""
        return [line[1 + i] for i in NODE_OPERANDS[plain_kind(line[0])]]

    def type_of(self, node):
        """The type that a node gives (of a table that passes)."""
        kind, a, b, _ = self.nodes[node]
        kind = plain_kind(kind)
        if kind == VARIABLE:
            return self.variables[a][0]
        if kind in (NUMBER, CELL):
            return UINT
        if kind in (PLUS, MINUS):
            return self.type_of(a)
        return self.type_of(b) if kind == IF else BOOL

    def procedures(self):
        """The row of each procedure's 43."""
        return [r for r, line in enumerate(self.rows) if line[0] == PROCEDURE]

    def belongs(self, row):
        """The procedure to which a row belongs, or None in main; the end of a part belongs to it."""
        above = [n for n, r in enumerate(self.procedures()) if r < row]
        return above[-1] if above else None

    def locals_of(self, procedure):
        if procedure is None:
            return range(0)
        _, first, count, _ = self.rows[self.procedures()[procedure]]
        return range(first, first + count)

    def closing_rows(self):
        """The row that opens each loop, by the row that closes it."""
        opened, pairs = [], {}
        for r, line in enumerate(self.rows):
            if plain_kind(line[0]) == LOOP:
                opened.append(r)
            elif line[0] == END and opened:
                pairs[r] = opened.pop()
        return pairs

    def depths(self):
        """How far each row is indented: by the loops around it, and by one in a procedure."""
        depth, out = 0, []
        for line in self.rows:
            if line[0] == PROCEDURE:
                out.append(0)
                depth = 1
                continue
            depth -= line[0] == END
            out.append(max(depth, 0))
            depth += plain_kind(line[0]) == LOOP
        return out

    def mark(self):
        """What a .names file has to know its table by: how many words, and their check."""
        data = array("I", self.words)
        return "%d %d" % (len(data), zlib.crc32(data.tobytes()))


class Names:
    """The names of a program, with the comments of its text: variables, named nodes, procedures."""

    HEAD = "names of a pair bench program"

    def __init__(self):
        self.variables, self.constants, self.lets, self.procedures = {}, {}, {}, {}
        self.before = {}  # of a named expression: the row before which it is written
        self.above, self.beside = {}, {}  # by the line of the text, blank and comment lines left out

    def variable(self, n):
        return self.variables.get(n, "v%d" % n)

    def procedure(self, n):
        return self.procedures.get(n, "p%d" % n)

    def written(self, mark):
        lines = [self.HEAD, "table " + mark]
        lines += ["variable %d %s" % item for item in sorted(self.variables.items())]
        lines += ["constant %d %s" % item for item in sorted(self.constants.items())]
        lines += ["let %d %d %s" % (n, self.before[n], name) for n, name in self.lets.items()]
        lines += ["procedure %d %s" % item for item in sorted(self.procedures.items())]
        lines += ["above %d %s" % (k, text) for k in sorted(self.above) for text in self.above[k]]
        lines += ["beside %d %s" % item for item in sorted(self.beside.items())]
        return "".join(line.rstrip() + "\n" for line in lines)

    @classmethod
    def read(cls, text, program):
        """The names in a .names file, or None where it is none or is of another program."""
        lines = text.rstrip("\n").split("\n")
        if lines[:2] != [cls.HEAD, "table " + program.mark()]:
            return None
        names = cls()
        for line in lines[2:]:
            if not names.take(line):
                return None
        return names if names.fits(program) else None

    def take(self, line):
        """Takes one line of a .names file: whether it is one."""
        sort, number, rest = (line.split(" ", 2) + ["", ""])[:3]
        n = number_in(number)
        if n is None:
            return False
        if sort == "let":
            before, _, rest = rest.partition(" ")
            self.before[n] = number_in(before)
        if sort in ("above", "beside"):
            return self.take_comment(sort, n, rest)
        kept = {"variable": self.variables, "constant": self.constants, "procedure": self.procedures, "let": self.lets}.get(sort)
        if kept is None or not is_name(rest):
            return False
        kept[n] = rest
        return True

    def take_comment(self, sort, n, text):
        if sort == "beside":
            self.beside[n] = text
        else:
            self.above.setdefault(n, []).append(text)
        return text.startswith("#") or (sort == "above" and not text)

    def fits(self, program):
        """Whether the names are of what a program has, and none is given twice."""
        given = [*self.variables.values(), *self.constants.values(), *self.lets.values(), *self.procedures.values()]
        nodes = range(len(program.nodes))
        return (
            len(given) == len(set(given))
            and all(v < len(program.variables) for v in self.variables)
            and all(n in nodes and program.nodes[n][0] in (NUMBER, TRUTH) for n in self.constants)
            and all(n in nodes and self.before[n] is not None and self.before[n] <= len(program.rows) for n in self.lets)
            and all(k < len(program.procedures()) for k in self.procedures)
        )
