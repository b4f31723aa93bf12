"""Expressions and rows of a program, written out: `timer[wiring[circuit]] := minute`.

In a reduced table a ? stands after what takes a choice, or may take one: a marked iterator that is read (27), a cell (28), a loop (42).
"""
from program import (
    ASSERT, ASSUME, AT_MOST, CELL, CELL_READ, END, EQUAL, HAS, IF, LESS, LOOP, LOOP_REDUCED, MINUS, NEW, NEW_REDUCED, NOTHING, NUMBER, PLUS,
    PROCEDURE, RETURN, SET, TRUTH, VARIABLE, VARIABLE_READ, WRITE, plain_kind,
)

# How tightly a form binds: an operand that binds less stands in brackets.
LOOSE, COMPARED, SUM, TIGHT = range(4)
SIGNS = {PLUS: "+", MINUS: "-", LESS: "<", AT_MOST: "<=", EQUAL: "="}
LONG = 12  # an unnamed expression with more leaves than this, used more than once, is given a name of its own


class Infix:
    """Writes the nodes and the rows of a program with its names."""

    def __init__(self, program):
        self.program, self.names = program, program.names
        self.named = {**self.names.constants, **self.names.lets}

    def node(self, n, least=LOOSE):
        """A node, by its name where it has one."""
        if n in self.named:
            return self.named[n]
        return self.written(n, least)

    def written(self, n, least=LOOSE):
        """What a node is, also where it has a name."""
        kind, a, b, c = self.program.nodes[n]
        tie, text = self.form(kind, a, b, c)
        return "(%s)" % text if tie < least else text

    def form(self, kind, a, b, c):
        """How tightly a node's form binds, and its text."""
        take = "?" if kind in (VARIABLE_READ, CELL_READ) else ""
        kind = plain_kind(kind)
        if kind == VARIABLE:
            return TIGHT, self.names.variable(a) + take
        if kind == NUMBER:
            return TIGHT, str(a)
        if kind == TRUTH:
            return TIGHT, "true" if a else "false"
        if kind == CELL:
            return TIGHT, self.place(a) + take
        if kind == HAS:
            return TIGHT, "has " + self.place(a)
        if kind == IF:
            return LOOSE, "if %s then %s else %s" % (self.node(a, COMPARED), self.node(b, COMPARED), self.node(c))
        if kind in (PLUS, MINUS):
            return SUM, "%s %s %s" % (self.node(a, SUM), SIGNS[kind], self.node(b, TIGHT))
        return COMPARED, "%s %s %s" % (self.node(a, SUM), SIGNS[kind], self.node(b, SUM))

    def place(self, n):
        """The cell to which a pointer points: `pointer[number]` where it is moved on, else `*pointer`."""
        kind, a, b, _ = self.program.nodes[n]
        if kind == PLUS and n not in self.named:
            return "%s[%s]" % (self.node(a, TIGHT), self.node(b))
        return "*" + self.node(n, TIGHT)

    def row(self, r):
        """A row, not indented."""
        kind, a, b, c = self.program.rows[r]
        variable = self.names.variable
        plain = plain_kind(kind)
        if plain == NOTHING:
            return "nothing"
        if plain == SET:
            return "%s := %s" % (variable(a), self.node(b))
        if plain == WRITE:
            return "%s := %s" % (self.place(a), self.node(b))
        if plain in (ASSERT, ASSUME):
            return "%s %s" % ("assert" if plain == ASSERT else "assume", self.node(a))
        if plain == NEW:
            return "%s := new %s%s" % (variable(a), "reduced " if kind == NEW_REDUCED else "", self.node(b))
        if plain == LOOP:
            return "loop %s%s from %s to %s" % (variable(a), "?" if kind == LOOP_REDUCED else "", self.node(b), self.node(c))
        if plain == END:
            return "end"
        if plain == PROCEDURE:
            return "procedure %s(%s)" % (self.procedure_at(r), ", ".join(variable(v) for v in range(a, a + b)))
        if plain == RETURN:
            return "return %s" % self.node(a)
        return "%s := call %s(%s)" % (variable(c), self.names.procedure(a), self.node(b))

    def procedure_at(self, r):
        return self.names.procedure(self.program.procedures().index(r))




def name_long_ones(program):
    """Gives a name, n and its number, to each unnamed node that is long and used more than once; each stands before the first row with it."""
    names, uses, rows = program.names, [0] * len(program.nodes), first_rows(program)
    for n, line in enumerate(program.nodes):
        if rows[n] is not None:
            for m in program.operands(line):
                uses[m] += 1
    for line in program.rows:
        for m in program.operands(line):
            uses[m] += 1
    sizes = []
    for n, line in enumerate(program.nodes):
        size = sum(sizes[m] for m in program.operands(line)) or 1
        if n in names.lets:
            size = 1
        elif size > LONG and uses[n] > 1 and rows[n] is not None:
            names.lets[n], names.before[n] = "n%d" % n, rows[n]
            size = 1
        sizes.append(size)


def first_rows(program):
    """The first row that works each node out, or None."""
    rows = [None] * len(program.nodes)
    for r, line in enumerate(program.rows):
        waiting = program.operands(line)
        while waiting:
            n = waiting.pop()
            if rows[n] is None:
                rows[n] = r
                waiting += program.operands(program.nodes[n])
    return rows
