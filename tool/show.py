"""What ./bench says of runs: lines, records, what a step changed, the choices that it took, and what the row at which a run ended worked out."""
from infix import Infix
from machines import Broken, Probe
from program import (
    BOOL, CELL, CELL_READ, END, HAS, IF, LOOP_REDUCED, NUMBER, POINTER, PROCEDURE, TRUTH, VARIABLE, VARIABLE_READ, WRITE, plain_kind,
)

FIRST_CELLS = 16  # of an array, where no circuits are named


def run_line(word, run):
    """The line of a run, as pairrun prints it."""
    reason = " reason %d" % run.reason if run.end == "fail" else ""
    choices = " choices %d" % run.used if run.reduced else ""
    return "%s %s%s row %d steps %d%s" % (word, run.end, reason, run.record.row, run.steps, choices)


def run_json(run):
    out = {"end": run.end, "row": run.record.row, "steps": run.steps}
    if run.end == "fail":
        out["reason"] = run.reason
    if run.reduced:
        out["choices"] = run.used
    return out


class Show:
    """Shows the records of one program's runs. A pair of circuits goes with the reduced machine."""

    def __init__(self, program, pair=None, circuits=None):
        self.program, self.pair, self.circuits = program, pair, circuits
        self.infix, self.names, self.probe = Infix(program), program.names, Probe(program, pair is not None)

    # Values

    def class_text(self, k):
        c1, c2 = self.pair
        return ("below %d" % c1, "%d" % c1, "between %d and %d" % (c1, c2), "%d" % c2, "above %d" % c2)[k]

    def class_of(self, number):
        c1, c2 = self.pair
        return (c1 < number) + (c1 <= number) + (c2 < number) + (c2 <= number)

    def holds_class(self, v):
        return self.pair is not None and self.program.is_marked(v)

    def array_name(self, record, k):
        """Array k, from 1, by the variables that point to it."""
        names = [self.names.variable(v) for v, line in enumerate(self.program.variables) if line[0] == POINTER and record.bases[v] == k]
        return "/".join(names) or "array %d" % k

    def value_text(self, kind, number, base, is_class=False):
        if kind == BOOL:
            return "true" if number else "false"
        if kind == POINTER:
            return "place %d of %s" % (number, "array %d" % base if base else "no array")
        return "class %d (%s)" % (number, self.class_text(number)) if is_class else str(number)

    def variable_text(self, record, v):
        kind = self.program.variables[v][0]
        return self.value_text(kind, record.numbers[v], record.bases[v], kind != POINTER and self.holds_class(v))

    def kept(self, record, k):
        """The cell of each place of array k, from 1, that is kept: of a reduced array the tracked ones, each at its class."""
        first, length, reduced = record.arrays()[k - 1]
        if reduced:
            return {c: first + 2 * i + 1 for i, c in enumerate(self.pair) if c < length}
        return {p: first + p for p in range(length)}

    def places(self, record, k, also=()):
        """The places of array k that are shown, each with its cell: those of the circuits named, or the first and the tracked, and some more."""
        kept = self.kept(record, k)
        asked = self.circuits if self.circuits is not None else {*range(FIRST_CELLS), *(self.pair or ())}
        return [(p, kept[p]) for p in sorted({*asked, *also}) if p in kept]

    # Rows

    def row_text(self, row):
        if row >= len(self.program.rows) or self.program.rows[row][0] == PROCEDURE:
            return "the end of main" if self.program.belongs(row) is None else "the end of %s" % self.names.procedure(self.program.belongs(row))
        return self.infix.row(row)

    def loop_text(self, row, start, end):
        iterator = self.names.variable(self.program.rows[row][1])
        return "row %d: loop %s, at %d, to %d" % (row, iterator, start, end)

    # Records

    def record_lines(self, run, beside=None):
        """The record, with what another run's has in its place where the two differ."""
        record, other = run.record, beside.record if beside else None
        yield "row %d: %s" % (record.row, self.row_text(record.row))
        yield from self.caller_lines(record, other)
        mine, theirs = record.loops(), other.loops() if other else None
        yield "open loops:" + ("" if mine else " none") + self.differs(mine, theirs, lambda x: "; ".join(self.loop_text(*y) for y in x) or "none")
        for loop in mine:
            yield "  " + self.loop_text(*loop)
        yield "variables:" + ("" if self.program.variables else " none")
        for v in range(len(self.program.variables)):
            yield "  %s %s%s" % (self.names.variable(v), self.variable_text(record, v), self.variable_differs(record, other, v))
        yield from self.array_lines(record, other)

    def caller_lines(self, record, other):
        mine, theirs = record.callers(), other.callers() if other else None
        for caller in mine:
            yield self.caller_text(*caller)
        if theirs is not None and mine != theirs:
            yield "    <> plain: " + (" / ".join(self.caller_text(*caller) for caller in theirs) or "not in a call")

    def caller_text(self, row, locals_kept, loops):
        at = self.program.belongs(row)
        inner = ["%s %d" % (self.names.variable(v), n) for v, n in zip(self.program.locals_of(at), locals_kept)]
        return "called from row %d: %s%s" % (row, self.row_text(row), "".join("; " + x for x in inner + [self.loop_text(*y) for y in loops]))

    def differs(self, mine, theirs, text):
        return "" if theirs is None or mine == theirs else "    <> plain: " + text(theirs)

    def variable_differs(self, record, other, v):
        if other is None:
            return ""
        kind = self.program.variables[v][0]
        theirs = (other.numbers[v], other.bases[v] if kind == POINTER else 0)
        mine = (record.numbers[v], record.bases[v] if kind == POINTER else 0)
        if kind != POINTER and self.holds_class(v):
            return self.differs(mine[0], self.class_of(theirs[0]), lambda _: str(theirs[0]))
        return self.differs(mine, theirs, lambda x: self.value_text(kind, *x))

    def array_lines(self, record, other):
        mine, theirs = record.arrays(), other.arrays() if other else []
        yield "arrays:" + ("" if mine or theirs else " none")
        for k in range(1, len(mine) + 1):
            yield self.array_line(record, other, k)
            if other and (k > len(theirs) or theirs[k - 1][1] != mine[k - 1][1]):
                yield "    <> plain: " + ("%d cells" % theirs[k - 1][1] if k <= len(theirs) else "no such array")
        for k in range(len(mine) + 1, len(theirs) + 1):
            yield "    <> plain has array %d: %d cells" % (k, theirs[k - 1][1])

    def array_line(self, record, other, k):
        """An array with its cells; one that differs from the other run's has that number behind it."""
        _, length, reduced = record.arrays()[k - 1]
        differ = self.differing(record, other, k)
        shown = self.places(record, k, differ)
        cells = " ".join("[%d] %d%s" % (p, record.cells[at], " (<> plain %d)" % differ[p] if p in differ else "") for p, at in shown)
        kept = ", only the tracked circuits' cells kept" if reduced else ""
        more = " .." if not reduced and self.circuits is None and length > FIRST_CELLS else ""
        return "  %d %s: %d cells%s%s%s" % (k, self.array_name(record, k), length, kept, ": " + cells if cells else "", more)

    def differing(self, record, other, k):
        """The places of array k whose cells differ from those of the other run's, with its numbers."""
        if other is None or k > other.count or other.lengths[k - 1] != record.lengths[k - 1]:
            return {}
        first = other.firsts[k - 1]
        return {p: other.cells[first + p] for p, at in self.kept(record, k).items() if other.cells[first + p] != record.cells[at]}

    def record_json(self, run):
        record = run.record
        out = {"row": record.row, "instruction": self.row_text(record.row)}
        out["loops"] = [self.loop_json(loop) for loop in record.loops()]
        out["variables"] = {self.names.variable(v): self.variable_json(record, v) for v in range(len(self.program.variables))}
        out["arrays"] = [
            {"name": self.array_name(record, k), "length": length, "reduced": reduced, "cells": {str(p): record.cells[at] for p, at in self.places(record, k)}}
            for k, (_, length, reduced) in enumerate(record.arrays(), 1)
        ]
        out["callers"] = [
            {"row": row, "locals": {self.names.variable(v): n for v, n in zip(self.program.locals_of(self.program.belongs(row)), kept)},
             "loops": [self.loop_json(loop) for loop in loops]}
            for row, kept, loops in record.callers()
        ]
        return out

    def loop_json(self, loop):
        return {"row": loop[0], "iterator": self.names.variable(self.program.rows[loop[0]][1]), "at": loop[1], "to": loop[2]}

    def variable_json(self, record, v):
        kind = self.program.variables[v][0]
        if kind == POINTER:
            return {"array": record.bases[v], "place": record.numbers[v]}
        if kind == BOOL:
            return bool(record.numbers[v])
        return {"class": record.numbers[v]} if self.holds_class(v) else record.numbers[v]

    # Steps

    def changes(self, before, after):
        """What a step changed."""
        out = []
        for v in range(len(self.program.variables)):
            if (before.numbers[v], before.bases[v]) != (after.numbers[v], after.bases[v]):
                out.append("%s %s -> %s" % (self.names.variable(v), self.variable_text(before, v), self.variable_text(after, v)))
        for k in range(before.count + 1, after.count + 1):
            out.append("array %d: %d cells, all 0" % (k, after.lengths[k - 1]))
        for at in (i for i in range(len(after.cells)) if before.cells[i] != after.cells[i]):
            out.append("%s %d -> %d" % (self.cell_name(after, at), before.cells[at], after.cells[at]))
        inner, outer = before.depth(), after.depth()
        if inner < outer:
            out.append("calls %s" % self.names.procedure(self.program.belongs(after.row)))
        elif outer < inner:
            out.append("returns to row %d" % after.row)
        elif after.open != before.open:
            out.append("enters the loop" if before.open < after.open else "leaves the loop")
        elif after.loops() != before.loops():
            out.append("goes round, at %d, to %d" % after.loops()[-1][1:])
        return out

    def cell_name(self, record, at):
        for k in range(1, record.count + 1):
            for place, cell in self.kept(record, k).items():
                if cell == at:
                    return "%s[%d]" % (self.array_name(record, k), place)
        return "cell %d" % at

    # Choices

    def choices_of(self, run, took):
        """The kind of each choice that the step of the row where a run stands takes, with what it stands for."""
        row = run.record.row
        if not took or row >= len(self.program.rows):
            return []
        kind, a, _, _ = self.program.rows[row]
        if kind == END:
            iterator = self.names.variable(self.program.rows[self.program.closing_rows()[row]][1])
            return [(39, "next %s" % iterator), (39, "end of %s" % iterator)]
        walk = Walk(self, run)
        found = walk.row(row)
        if kind == LOOP_REDUCED and not walk.stopped:
            found += [(42, "start of %s" % self.names.variable(a)), (42, "end of %s" % self.names.variable(a))]
        if walk.unknown:
            found += [(0, "not known")] * took
        if len(found) < took:
            raise Broken("the choices of row %d cannot be told apart" % row)
        return found[:took]  # more, where the row failed on the way

    # What the row at which a run ended worked out

    def worked_out(self, run):
        """What the row where a run stands works out: each part that is no constant, with its value or why it failed."""
        row = run.record.row
        if row >= len(self.program.rows):
            return []
        return Values(self, run).row(row)


class Stop(Exception):
    """Nothing more of a row is worked out."""


class Walk:
    """Goes through a row of the reduced machine in the order in which it is worked out, and finds where choices are taken."""

    def __init__(self, show, run):
        self.show, self.run, self.found, self.stopped, self.unknown = show, run, [], False, False

    def row(self, row):
        try:
            for n in self.show.program.operands(self.show.program.rows[row]):
                self.node(n)
        except Stop:
            self.stopped = True
        return self.found

    def value(self, n, start):
        found = self.show.probe.value(self.run, n, start)
        if found is None:
            self.unknown = True
            raise Stop
        return found

    def node(self, n):
        start = len(self.found)
        kind, a, b, c = self.show.program.nodes[n]
        if kind == VARIABLE_READ:
            self.found.append((27, self.show.names.variable(a)))
        elif kind == IF:
            self.node(a)
            end, _, value, _ = self.value(a, start)
            if end:
                raise Stop
            self.node(b if value[0] else c)
        else:
            for m in self.show.program.operands((kind, a, b, c)):
                self.node(m)
        if kind == CELL_READ:
            end, _, _, took = self.value(n, start)
            if took > len(self.found) - start:
                self.found.append((28, self.show.infix.written(n).replace("?", "")))
            if end:
                raise Stop


class Values(Walk):
    """Goes through a row of either machine, and says what its parts come to."""

    def __init__(self, show, run):
        super().__init__(show, run)
        self.took, self.said = 0, []

    def row(self, row):
        program = self.show.program
        line = program.rows[row]
        try:
            for n in program.operands(line):
                self.node(n)
            if plain_kind(line[0]) == WRITE:
                self.pointer(line[1], self.value(line[1], 0)[2])
        except Stop:
            pass
        return self.said

    def text(self, n):
        """A node, with its name before it where it has one."""
        infix = self.show.infix
        name = infix.named.get(n)
        return (name + " = " if name else "") + infix.written(n).replace("?", "")

    def say(self, text):
        if text not in self.said:
            self.said.append(text)

    def pointer(self, n, value):
        """Where a pointer points."""
        place, base = value
        if not base:
            self.say("%s points to no array" % self.text(n))
            return
        self.say("%s points to place %d of an array of %d" % (self.text(n), place, self.run.record.lengths[base - 1]))

    def node(self, n):
        """Works a node out: its parts first, and then itself where it did not fail in one of them."""
        program, start = self.show.program, self.took
        kind, a, b, c = program.nodes[n]
        plain = plain_kind(kind)
        if plain in (NUMBER, TRUTH):
            return
        operands = program.operands((kind, a, b, c))
        if plain == IF:
            self.node(a)
            operands = [b if self.value(a, start)[2][0] else c]
        for m in operands:
            self.node(m)
        end, reason, value, took = self.value(n, start)
        self.took = start + took
        if end:
            self.failed(n, plain, end, reason, start)
            raise Stop
        self.worked(n, plain, value, start)

    def worked(self, n, plain, value, start):
        """Says what a variable, a cell or a question whether there is one came to."""
        kind = self.show.program.type_of(n)
        if plain not in (CELL, VARIABLE, HAS) or kind == POINTER or value[0] is None:
            return
        if plain == HAS and not value[0]:
            pointer = self.show.program.nodes[n][1]
            self.pointer(pointer, self.value(pointer, start)[2])
        self.say("%s = %s" % (self.text(n), ("true" if value[0] else "false") if kind == BOOL else value[0]))

    def failed(self, n, plain, end, reason, start):
        if plain == CELL and end == "fail":
            pointer = self.show.program.nodes[n][1]
            self.pointer(pointer, self.value(pointer, start)[2])
        self.say("%s: %s" % (self.text(n), "fails, reason %d" % reason if end == "fail" else end))
