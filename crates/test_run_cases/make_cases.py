#!/usr/bin/env python3
"""Writes stdin and stdout of this program: cases of runs, each after its length, and the line that must be printed of each run.

A case is little-endian words: the machine (0 plain, 1 reduced), c1, c2, how many cells are lent, how many words the table has, how many
numbers the list has, how often the first run is done, or 0 for once with every run of the case cut; the table (for the reduced machine the
reduced one); the list; then the runs until the case ends, each a limit, a number of edits, and for each edit field (numbered as ROW to STACK
below), slot, value. All cells are 7 at first. The first run is fresh. A later one continues with the record of the last run that was not
refused, the cells as they are, and the choices not yet used. Its edits change that record, or the cells, before it runs; a refused run
leaves the record as it was before them.

The callers stand in a stack of 241 words, field STACK: 30 words for each of eight, the one in main first, with its row, how many loops are
open, four locals, and the rows, starts and ends of eight loops. How many callers there are, the last word, is the field DEPTH.

A line has the end or the refusal, and check numbers: h = 0, then h * 31 + word modulo 2^32 for each word of the cells, and for each word
of the record's parts in use (record_check). These are, in order: the row; how many loops are open, and of each, outermost first, row, start
and end; of each variable its number, and of a pointer the number of its array after it; how many arrays there are, and of each its first
cell, length and 1 if it is reduced, else 0; how many callers there are, and of each, the one in main first, its row, the numbers of its
locals, how many loops are open, and of each of these row, start and end.

Runs are cut in all cases here. Then the line of one that is not refused ends with how many cuts leave it what it is: the program runs it
again in parts, each of which goes on with the record, the cells and the choices that the one before it left, and the parts must have the
end, the record and the cells of the whole run, and its steps and choices between them. A run is cut after each number of steps, 0 to one more
than it took, or to its limit where that is less; and after each of them once more, after every number of further steps up to the last where
the last is at most ALL_PAIRS, else half-way to the last. A second cut after no further step goes on for 0.

The lines come from the interpreter below, which is written from the rules (docs/RULES.md). It takes tables that pass: the number and line
of a refused table are given with the case. The examples of section 8 of the rules are held to what it says of them.
"""
import pathlib
import random
import struct

HERE = pathlib.Path(__file__).parent
BIG = 2**32 - 1
PLAIN, REDUCED = 0, 1
CELLS = {PLAIN: 4096, REDUCED: 4128}
BOOL, UINT, POINTER = 1, 2, 3
SUM, DIFFERENCE, NO_ARRAY, PAST, COUNTER = range(1, 6)  # the reasons of a failure
ROW, OPEN, LOOP_ROW, START, END, NUMBER, BASE, COUNT, FIRST, LENGTH, SHAPE, CELL, DEPTH, STACK = range(14)
MOST_CALLERS = 8
ALL_PAIRS = 9  # where the last cut of a run is at most here, all pairs of cuts are tried


# Tables


class Table:
    """Lines by sort; the end row of each loop row; the rows 43, and where main or a procedure ends, at the next 43 or the row count."""

    def __init__(self, lines):
        self.lines = lines
        self.declarations = [line for line in lines if line[0] <= 3]
        self.nodes = [line for line in lines if 16 <= line[0] <= 29]
        self.rows = [line for line in lines if 32 <= line[0]]
        self.ends = {}
        opened = []
        for r, line in enumerate(self.rows):
            if line[0] in (38, 42):
                opened.append(r)
            elif line[0] == 39 and opened:
                self.ends[opened.pop()] = r
        self.procedures = [r for r, line in enumerate(self.rows) if line[0] == 43]
        self.stops = {*self.procedures, len(self.rows)}

    def home(self, row):
        """The procedure that a row belongs to, that of the last 43 above it; None for main."""
        above = [p for p, r in enumerate(self.procedures) if r < row]
        return above[-1] if above else None

    def locals_of(self, home):
        """The variables that are a procedure's locals; main has none."""
        if home is None:
            return []
        _, first, count, _ = self.rows[self.procedures[home]]
        return list(range(first, first + count))

    def marked(self, v, sort):
        return self.declarations[v][:2] == (sort, 1)

    def reduced(self):
        def kind(k, a):
            if k in (16, 38) and self.marked(a, UINT):
                return {16: 27, 38: 42}[k]
            if k == 37 and self.marked(a, POINTER):
                return 41
            return {19: 28, 26: 29, 34: 40}.get(k, k)

        return Table([(kind(k, a), a, b, c) for k, a, b, c in self.lines])


def class_of(v, pair):
    c1, c2 = pair
    return 0 if v < c1 else 1 if v == c1 else 2 if v < c2 else 3 if v == c2 else 4


def empty_classes(pair):
    """The classes up to 4 that no number has."""
    c1, c2 = pair
    return [k for k, empty in ((0, c1 == 0), (2, c1 + 1 == c2), (4, c2 == BIG)) if empty]


# Runs


class Ended(Exception):
    """A row that ends the run, by the end's name, and for a failure its reason."""


def failed(reason):
    return Ended("fail reason %d" % reason)


class State:
    """Row, open loops (row, start, end), variables (a pointer is a base, 0 for none, and a place), arrays (first, length, reduced), and
    callers (row, numbers of the locals, open loops), the one in main first."""

    def __init__(self, row, loops, variables, arrays, callers):
        self.row, self.loops, self.variables, self.arrays, self.callers = row, loops, variables, arrays, callers

    def copy(self):
        return State(self.row, list(self.loops), list(self.variables), list(self.arrays), list(self.callers))


class Machine:
    """A machine on a table: plain, reduced under a list, or the choice writer, which runs plain over a reduced table and fills a list,
    of any length where no room is given."""

    def __init__(self, table, cells, pair=None, choices=None, writer=False, room=None):
        self.table, self.cells, self.pair, self.writer, self.room = table, cells, pair, writer, room
        self.choices = choices if choices is not None else []
        self.used = 0
        self.holds_classes = pair is not None and not writer

    def fresh(self):
        first = {BOOL: False, UINT: 0, POINTER: (0, 0)}
        variables = [first[kind] for kind, _, _, _ in self.table.declarations]
        for v, _ in enumerate(variables):
            if self.holds_classes and self.table.marked(v, UINT):
                variables[v] = class_of(0, self.pair)
        return State(0, [], variables, [], [])

    def choice(self, true, wanted=None):
        """The next choice, in the class of the true number unless any number will do; the writer writes the true number."""
        if self.writer:
            if self.used == self.room:
                raise Ended("full")
            self.choices.append(true)
            self.used += 1
            return true
        if self.used == len(self.choices):
            raise Ended("nochoice")
        v = self.choices[self.used]
        self.used += 1
        if wanted is not None and class_of(v, self.pair) != wanted:
            raise Ended("badchoice")
        return v

    def in_class(self, true):
        return self.choice(true, class_of(true, self.pair))

    def size(self, length, reduced):
        return class_of(length, self.pair) if reduced and not self.writer else length

    def array(self, state, pointer):
        return state.arrays[pointer[0] - 1] if pointer[0] else None

    def read(self, state, pointer):
        """The number in the cell at a pointer, or the choice that stands for it."""
        array = self.array(state, pointer)
        if array is None:
            raise failed(NO_ARRAY)
        if pointer[1] >= array[1]:
            raise failed(PAST)
        first, _, reduced = array
        if not reduced:
            return self.cells[first + pointer[1]]
        true = self.cells[first + pointer[1]] if self.writer else None
        if pointer[1] not in self.pair:
            return self.choice(true)
        return true if self.writer else self.cells[first + class_of(pointer[1], self.pair)]

    def value(self, state, n):
        """The value of a node."""
        kind, a, b, c = self.table.nodes[n]
        if kind == 16:
            return state.variables[a]
        if kind == 17:
            return a
        if kind == 18:
            return a == 1
        if kind == 27:
            held = state.variables[a]
            return self.choice(held, None if self.writer else held)
        x = self.value(state, a)
        if kind in (19, 28):
            return self.read(state, x)
        if kind in (26, 29):
            return x[0] != 0 and x[1] < self.array(state, x)[1]
        if kind == 25:
            return self.value(state, b if x else c)
        y = self.value(state, b)
        if kind in (20, 21):
            number = (x[1] if isinstance(x, tuple) else x) + (y if kind == 20 else -y)
            if number > BIG:
                raise failed(SUM)
            if number < 0:
                raise failed(DIFFERENCE)
            return (x[0], number) if isinstance(x, tuple) else number
        return {22: x < y, 23: x <= y, 24: x == y}[kind]

    def write(self, state, pointer, v):
        """The number goes to the place of a pointer; in a reduced array one that is not tracked drops it. No choice is taken."""
        array = self.array(state, pointer)
        if array is None:
            raise failed(NO_ARRAY)
        first, length, reduced = array
        place = pointer[1]
        if place >= length:
            raise failed(PAST)
        if not reduced or self.writer:
            self.cells[first + place] = v
        elif place in self.pair:
            self.cells[first + class_of(place, self.pair)] = v

    def new(self, state, variable, length, reduced):
        first = sum(self.size(n, shape) for _, n, shape in state.arrays)
        size = self.size(length, reduced)
        if len(state.arrays) == 16 or first + size > len(self.cells):
            raise Ended("room")
        self.cells[first : first + size] = [0] * size
        state.arrays.append((first, length, reduced))
        state.variables[variable] = (len(state.arrays), 0)

    def enter(self, state, row, start, end):
        """Enters the loop of a row, or sets its iterator alone; whether it enters."""
        kind, iterator, _, _ = self.table.rows[row]
        if kind == 42:
            start = self.in_class(start)
            end = self.in_class(end)
        state.variables[iterator] = class_of(start, self.pair) if kind == 42 and self.holds_classes else start
        if start > end:
            return False
        state.loops.append((row, start, end))
        state.row = row + 1
        return True

    def call(self, state, at, procedure, v):
        """The call of row at: the caller is put aside, with its locals and its open loops, and the procedure starts with fresh ones."""
        if len(state.callers) == MOST_CALLERS:
            raise Ended("deep")
        at_work = self.table.locals_of(self.table.home(at))
        held = [state.variables[x] for x in at_work]
        state.callers.append((at, held, state.loops))
        for x in at_work:
            state.variables[x] = 0
        state.loops = []
        first, *others = self.table.locals_of(procedure)
        state.variables[first] = v
        for x in others:
            state.variables[x] = 0
        state.row = self.table.procedures[procedure] + 1

    def give_back(self, state, at, v):
        """The return of a number from row at: the last caller's locals and open loops come back, then the variable of its 45 gets the number."""
        for x in self.table.locals_of(self.table.home(at)):
            state.variables[x] = 0
        row, held, loops = state.callers.pop()
        for x, number in zip(self.table.locals_of(self.table.home(row)), held):
            state.variables[x] = number
        state.loops = list(loops)
        state.variables[self.table.rows[row][3]] = v
        state.row = row + 1

    def step(self, state):
        """Changes the state and the cells by one row, or raises the end that it comes to. The end of a procedure returns 0."""
        at = state.row
        if at in self.table.stops:
            self.give_back(state, at, 0)
            return
        kind, a, b, c = self.table.rows[at]
        state.row = at + 1
        if kind == 33:
            state.variables[a] = self.value(state, b)
        elif kind in (34, 40):
            pointer = self.value(state, a)
            self.write(state, pointer, self.value(state, b))
        elif kind in (35, 36):
            if not self.value(state, a):
                raise Ended("assert" if kind == 35 else "assume")
        elif kind in (37, 41):
            self.new(state, a, self.value(state, b), kind == 41)
        elif kind in (38, 42):
            start = self.value(state, b)
            if not self.enter(state, at, start, self.value(state, c)):
                state.row = self.table.ends[at] + 1
        elif kind == 39:
            row, start, end = state.loops.pop()
            if start == BIG:
                raise failed(COUNTER)
            self.enter(state, row, start + 1, end)
        elif kind == 44:
            self.give_back(state, at, self.value(state, a))
        elif kind == 45:
            self.call(state, at, a, self.value(state, b))

    def writes(self, row):
        """Whether a row can change the cells."""
        return row not in self.table.stops and self.table.rows[row][0] in (34, 37, 40, 41)

    def run(self, state, limit):
        """The end, the steps and the last state. A step that ends the run leaves state and cells as they were."""
        steps = 0
        while state.callers or state.row not in self.table.stops:
            if steps == limit:
                return "steps", steps, state
            used, following = self.used, state.copy()
            cells = list(self.cells) if self.writes(state.row) else None
            try:
                self.step(following)
            except Ended as e:
                if cells is not None:
                    self.cells[:] = cells
                if e.args[0] in ("badchoice", "nochoice", "full"):
                    self.used = used
                    if self.writer:
                        del self.choices[used:]
                    return e.args[0], steps, state
                return e.args[0], steps + 1, state
            state = following
            steps += 1
        return "done", steps, state


# Records


def columns(table, state):
    """The record by field, each a list by slot; a slot that is not in use has no value."""
    width = {LOOP_ROW: 8, START: 8, END: 8, NUMBER: 32, BASE: 32, FIRST: 16, LENGTH: 16, SHAPE: 16, STACK: 240}
    record = {field: [None] * n for field, n in width.items()}
    record[ROW], record[OPEN], record[COUNT] = [state.row], [len(state.loops)], [len(state.arrays)]
    for i, parts in enumerate(state.loops):
        record[LOOP_ROW][i], record[START][i], record[END][i] = parts
    for i, v in enumerate(state.variables):
        record[BASE][i], record[NUMBER][i] = v if isinstance(v, tuple) else (None, int(v))
    for i, (first, length, reduced) in enumerate(state.arrays):
        record[FIRST][i], record[LENGTH][i], record[SHAPE][i] = first, length, int(reduced)
    record[DEPTH] = [len(state.callers)]
    for d, (row, held, loops) in enumerate(state.callers):
        for slot, v in caller_words(row, held, loops).items():
            record[STACK][30 * d + slot] = v
    return record


def caller_words(row, held, loops):
    """The words of a caller that are in use, by their slots among its 30."""
    words = {0: row, 1: len(loops)}
    words.update((2 + i, v) for i, v in enumerate(held))
    for i, parts in enumerate(loops):
        words.update(zip((6 + i, 14 + i, 22 + i), parts))
    return words


def open_loops(table, row, open_, rows, starts, ends):
    """The open loops at a row, or None where they are not those around it or one has a start above its end."""
    around = [r for r in sorted(table.ends) if r < row <= table.ends[r]]
    if open_ != len(around) or rows[:open_] != around:
        return None
    loops = list(zip(around, starts, ends))
    if any(start > end for _, start, end in loops):
        return None
    return loops


def callers_of(table, record):
    """The callers of a record and the procedure that the last one calls, None with no callers; or None where 15 refuses them."""
    callers, called = [], None
    if record[DEPTH][0] > MOST_CALLERS:
        return None
    for d in range(record[DEPTH][0]):
        words = record[STACK][30 * d : 30 * d + 30]
        row, open_, held = words[0], words[1], words[2 : 2 + len(table.locals_of(called))]
        if row >= len(table.rows) or table.rows[row][0] != 45:
            return None
        if table.home(row) != called:
            return None
        loops = open_loops(table, row, open_, words[6:14], words[14:22], words[22:])
        if loops is None:
            return None
        callers.append((row, held, loops))
        called = table.rows[row][1]
    return callers, called


def state_of(table, record, pair, cells):
    """The state that a record holds, or None where 15 refuses it; a machine with no pair is plain."""
    row, open_, count = record[ROW][0], record[OPEN][0], record[COUNT][0]
    if row > len(table.rows):
        return None
    loops = open_loops(table, row, open_, record[LOOP_ROW], record[START], record[END])
    if loops is None or count > 16:
        return None
    found = callers_of(table, record)
    if found is None:
        return None
    callers, called = found
    if table.home(row) != called:
        return None
    idle = [v for p in range(len(table.procedures)) if p != called for v in table.locals_of(p)]
    if any(record[NUMBER][v] != 0 for v in idle):
        return None
    arrays, following = [], 0
    for i in range(count):
        first, length, reduced = record[FIRST][i], record[LENGTH][i], record[SHAPE][i] == 1
        if first != following or reduced and pair is None:
            return None
        following += class_of(length, pair) if reduced else length
        arrays.append((first, length, reduced))
    if following > cells:
        return None
    variables = []
    for v, (kind, _, _, _) in enumerate(table.declarations):
        number, base = record[NUMBER][v], record[BASE][v]
        if kind == BOOL and number > 1 or kind == POINTER and base > count:
            return None
        if pair is not None and table.marked(v, UINT):
            if number > 4 or number in empty_classes(pair):
                return None
        variables.append((base, number) if kind == POINTER else number == 1 if kind == BOOL else number)
    return State(row, loops, variables, arrays, callers)


def check_number(words):
    h = 0
    for w in words:
        h = (h * 31 + w) % 2**32
    return h


def record_check(table, state):
    words = [state.row, len(state.loops)]
    words += [w for parts in state.loops for w in parts]
    for v in state.variables:
        words += [v[1], v[0]] if isinstance(v, tuple) else [int(v)]
    words.append(len(state.arrays))
    words += [int(w) for array in state.arrays for w in array]
    words.append(len(state.callers))
    for row, held, loops in state.callers:
        words += [row, *held, len(loops)] + [w for parts in loops for w in parts]
    return check_number(words)


def holds_empty(run, state):
    """Whether a marked uint of a reduced state holds a class that no number has."""
    held = [v for i, v in enumerate(state.variables) if run.holds_classes and run.table.marked(i, UINT)]
    return any(k in empty_classes(run.pair) for k in held)


# Cases

CASES = []  # bytes, lines


def cuts_of(limit, steps):
    """How many cuts the program tries of a run, each of which must leave it as it is."""
    last = min(limit, steps + 1)
    firsts = last + 1
    return firsts + (firsts * (firsts + 1) // 2 if last <= ALL_PAIRS else firsts)


def lines_of(machine, table, pair, lent, choices, runs, refusal, reached=None):
    """What is printed of each run; the refusal of a table is given. The last states are put into a list, if one is given."""
    reached = [] if reached is None else reached
    cells = [7] * lent
    state, out = None, []
    for k, (limit, edits) in enumerate(runs):
        checked = refusal
        if checked is None and machine == REDUCED and not pair[0] < pair[1]:
            checked = (13, 0)
        if checked is None and lent != CELLS[machine]:
            checked = (14, 0)
        if k:
            for field, slot, v in edits:
                if field == CELL:
                    cells[slot] = v
        run = Machine(table, cells, pair if machine == REDUCED else None, choices)
        start = None
        if checked is None and k == 0:
            cells[:] = [0] * lent
            start = run.fresh()
        elif checked is None:
            record = columns(table, state)
            for field, slot, v in edits:
                if field != CELL:
                    record[field][slot] = v
            start = state_of(table, record, run.pair, lent)
            checked = (15, 0) if start is None else None
        if checked:
            line = "refused %d line %d" % checked
        else:
            end, steps, state = run.run(start, limit)
            reached.append((run, state))
            choices = choices[run.used :]
            line = "%s row %d steps %d choices %d record %d" % (end, state.row, steps, run.used, record_check(table, state))
        cuts = "" if checked else " cuts %d" % cuts_of(limit, steps)
        out.append("%s cells %d%s" % (line, check_number(cells), cuts))
    return out


def shares(table):
    """Whether a loop has the iterator of a loop around it, which 16 refuses."""
    return any(table.rows[o][1] == table.rows[r][1] and o < r < end for o, end in table.ends.items() for r in table.ends)


# Which operand of a line names a variable, and which name nodes
NAMES_VARIABLE = {16: 0, 27: 0, 33: 0, 37: 0, 38: 0, 41: 0, 42: 0, 45: 2}
NAMES_NODES = {19: (0,), 25: (0, 1, 2), 26: (0,), 28: (0,), 29: (0,), 33: (1,), 34: (0, 1), 35: (0,), 36: (0,), 37: (1,), 38: (1, 2)}
NAMES_NODES.update({40: (0, 1), 41: (1,), 42: (1, 2), 44: (0,), 45: (1,), **{kind: (0, 1) for kind in range(20, 25)}})


def used(table, kind, *operands):
    """The variables that a line names, and those that the nodes under it read."""
    found = {operands[NAMES_VARIABLE[kind]]} if kind in NAMES_VARIABLE else set()
    return found.union(*(used(table, *table.nodes[operands[i]]) for i in NAMES_NODES.get(kind, ())))


def strays(table):
    """Whether a table has procedures that 17 refuses."""
    listed = [(v, p) for p in range(len(table.procedures)) for v in table.locals_of(p)]
    owners, counts = dict(listed), [len(table.locals_of(p)) for p in range(len(table.procedures))]
    if len(counts) > 16 or len(owners) < len(listed) or not all(1 <= n <= 4 for n in counts) or any(table.declarations[v][1] for v in owners):
        return True
    if any(o < r < end for o, end in table.ends.items() for r in table.procedures):
        return True
    for r, (kind, a, b, c) in enumerate(table.rows):
        home = table.home(r)
        if any(owners.get(v, home) != home for v in used(table, kind, a, b, c)) or kind == 44 and home is None:
            return True
        if kind == 45 and (a >= len(counts) or table.declarations[c][1]):
            return True
    return False


def case(machine, lines, runs, pair=(1, 3), choices=(), lent=None, refusal=None, words=None, expect=None, holds=None):
    """Adds a case: lines of the machine's own table. A run is a limit, or a limit and edits. What the rules say of the last one may be
    given: how its line begins, and the numbers that variables hold then."""
    table = Table(lines)
    assert not (shares(table) or strays(table)) if refusal is None else refusal[0] != 17 or strays(table), lines
    runs = [run if isinstance(run, tuple) else (run, []) for run in runs]
    lent = CELLS[machine] if lent is None else lent
    words = [w for line in lines for w in line] if words is None else words
    data = [machine, *pair, lent, len(words), len(choices), 0, *words, *choices]
    for limit, edits in runs:
        data += [limit, len(edits), *(w for edit in edits for w in edit)]
    reached = []
    out = lines_of(machine, table, pair, lent, list(choices), runs, refusal, reached)
    assert not any(holds_empty(run, state) for run, state in reached)
    if expect is not None:
        assert out[-1].startswith(expect + " "), (out, expect)
    if holds is not None:
        held = reached[-1][1].variables
        assert all(held[v] == n for v, n in holds.items()), (held, holds)
    CASES.append((struct.pack("<%dI" % len(data), *data), out))
    return out


def plain(lines, *runs, **more):
    return case(PLAIN, lines, runs, **more)


def reduced(lines, *runs, **more):
    """The reduced machine on the reduction of a plain table."""
    return case(REDUCED, Table(lines).reduced().lines, runs, **more)


def both(lines, *runs, **more):
    """Both machines, the reduced one under the true choices."""
    plain(lines, *runs, **more)
    reduced(lines, *runs, choices=written(lines, (1, 3), 10000), **more)


def write_choices(lines, pair, limit, room=None):
    """The choice writer's end, steps and last state, how many numbers it counts, and the numbers."""
    writer = Machine(Table(lines).reduced(), [0] * CELLS[PLAIN], pair, writer=True, room=room)
    end, steps, state = writer.run(writer.fresh(), limit)
    return end, steps, state, writer.used, writer.choices


def written(lines, pair, limit):
    """The choice writer's list."""
    return write_choices(lines, pair, limit)[4]


def fields(line):
    """A printed run, but for its counts."""
    parts = line.split()
    return [w for i, w in enumerate(parts) if i < 2 or parts[i - 1] not in ("steps", "choices", "cuts")]


def count(line, name):
    parts = line.split()
    return int(parts[parts.index(name, 1) + 1])


SKIP, CLOSE = (32, 0, 0, 0), (39, 0, 0, 0)
U, MU, P, MP, B = (2, 0, 0, 0), (2, 1, 0, 0), (3, 0, 0, 0), (3, 1, 0, 0), (1, 0, 0, 0)


def variable(v):
    return (16, v, 0, 0)


def constant(v):
    return (17, v, 0, 0)


T = [MU, MP, constant(5), constant(0), constant(4), variable(1), variable(0), (20, 3, 4, 0), constant(7), (19, 5, 0, 0), (24, 7, 6, 0)]
T += [(37, 1, 0, 0), (38, 0, 1, 2), (34, 5, 6, 0), (35, 8, 0, 0), CLOSE]


def document():
    """The examples of runs in section 8 of the rules."""
    plain(T, 100, expect="done row 5 steps 17 choices 0")
    reduced(T, 100, choices=written(T, (1, 3), 100), expect="done row 5 steps 17 choices 25")
    reduced(T, 100, choices=[0, 4, 0, 0, 9], expect="assert row 3 steps 4 choices 5")
    reduced(T, 100, choices=[1], expect="badchoice row 1 steps 1 choices 0")
    reduced(T, 100, expect="nochoice row 1 steps 1 choices 0")
    for run in (plain, reduced):
        run(T, 0, expect="steps row 0 steps 0 choices 0")
        run([], 0, expect="done row 0 steps 0 choices 0")
        run([], 0, (5, []), expect="done row 0 steps 0 choices 0")
    reduced(T, 100, pair=(1, 1), expect="refused 13 line 0")
    reduced(T, 100, pair=(1, 2), choices=written(T, (1, 2), 100), expect="done row 5 steps 17 choices 25")
    reduced(T, 100, pair=(0, 2), choices=written(T, (0, 2), 100), expect="done row 5 steps 17")
    # the second array begins after the cells that the first takes
    for pair, sizes in (
        ((1, 3), {0: 0, 1: 1, 2: 2, 3: 3, 5: 4}),
        ((0, 2), {0: 1, 1: 2}),
        ((0, 1), {0: 1, 1: 3, 2: 4, 3: 4}),
        ((1, 2), {0: 0, 1: 1, 2: 3, 3: 4}),
    ):
        for length, size in sizes.items():
            lines = [MP, constant(length), (37, 0, 0, 0), (37, 0, 0, 0)]
            assert class_of(length, pair) == size
            reduced(lines, 100, pair=pair, expect="done row 2 steps 2 choices 0")


def continued():
    """T continued after every number of steps, against the whole run."""
    choices = written(T, (1, 3), 100)
    whole = {PLAIN: plain(T, 100)[0], REDUCED: reduced(T, 100, choices=choices)[0]}
    for machine, lines in (PLAIN, T), (REDUCED, Table(T).reduced().lines):
        given = choices if machine == REDUCED else []
        splits = [(k, 100) for k in range(18)] + [(1,) * 19, (0, 0, 3, 0, 100), (2, 3, 5, BIG)]
        for limits in splits:
            out = case(machine, lines, limits, choices=given)
            assert fields(out[-1]) == fields(whole[machine])
            for name in ("steps", "choices"):
                assert sum(count(line, name) for line in out) == count(whole[machine], name)


def wants_of_cells():
    def arrays(declaration, *lengths):
        return [declaration] + [constant(n) for n in lengths] + [(37, 0, i, 0) for i in range(len(lengths))]

    for lengths in (4096,), (4097,), (BIG,), (4096, 0, 1), (4000, 96), (4000, 97), (1, BIG), (0,) * 17, (1,) * 17, (256,) * 17:
        plain(arrays(P, *lengths), 100, 100)
    for lengths in (4097,), (4128,), (4129,), (4128, 0), (4128, 1), (BIG,), (4096, 32, 0), (258,) * 17:
        reduced(arrays(P, *lengths), 100, 100)
    for lengths in (BIG,) * 16, (BIG,) * 17, (0,) * 17, (3, 2, 1, 4, 0):
        reduced(arrays(MP, *lengths), 100)
        for pair in (0, 2), (0, 1), (1, 2):
            reduced(arrays(MP, *lengths), 100, pair=pair)
    for plain_length, length in (4124, 4), (4125, 4), (4126, 2), (4127, 2), (4127, 1), (4128, 0), (4128, 1):
        reduced([P, MP, constant(plain_length), constant(length), (37, 0, 0, 0), (37, 1, 1, 0)], 100)
    for plain_length, length in (4124, 2), (4125, 2), (4125, 1), (4126, 1), (4127, 0), (4128, 0):
        reduced([P, MP, constant(plain_length), constant(length), (37, 0, 0, 0), (37, 1, 1, 0)], 100, pair=(0, 1))
    # the most that a run can need whose plain run has room, one plain array and 15 reduced ones of two cells more than their length; and a cell more
    for length in 1, 2:
        for plain_length in 4096 - 15 * length, 4097 - 15 * length:
            ended = "done row 16 steps 16" if plain_length + 15 * length == 4096 else "room row 15 steps 16"
            lines = [P, MP, constant(plain_length), constant(length), (37, 0, 0, 0)] + [(37, 1, 1, 0)] * 15
            plain(lines, 100, expect=ended)
            reduced(lines, 100, pair=(0, 1), expect="done row 16 steps 16 choices 0")
            reduced(lines[:4] + lines[5:] + [lines[4]], 100, pair=(0, 1), expect="done row 16 steps 16 choices 0")
    # a new array's cells are zeroed, those that the edit left
    lines = [P, constant(3), (37, 0, 0, 0), (37, 0, 0, 0)]
    edits = [(CELL, 0, 5), (CELL, 3, 6), (CELL, 5, 8), (CELL, 6, 9), (CELL, 4095, 4)]
    plain(lines, 1, (1, edits))
    lines = [MP, constant(9), (37, 0, 0, 0), (37, 0, 0, 0)]
    reduced(lines, 1, (1, edits + [(CELL, 7, 3), (CELL, 8, 2), (CELL, 12, 1)]))
    # one that doesn't fit leaves the cells
    plain([P, constant(3), constant(4094), (37, 0, 0, 0), (37, 0, 1, 0)], 1, (1, edits), 1)
    plain([P, constant(3), constant(0), (37, 0, 0, 0)] + [(37, 0, 1, 0)] * 15 + [(37, 0, 0, 0)], 16, (1, edits), 1)
    reduced([P, constant(3), constant(4126), (37, 0, 0, 0), (37, 0, 1, 0)], 1, (1, edits), 1)
    # the pointer is at place 0 then, wherever it was
    for declaration in P, MP:
        both([declaration, constant(4), variable(0), (20, 1, 0, 0), (33, 0, 2, 0), (37, 0, 0, 0)], 100)
    # the length fails before room is looked for
    plain([P, constant(0), constant(1), (21, 0, 1, 0)] + [(37, 0, 0, 0)] * 16 + [(37, 0, 2, 0)], 100)


def sums():
    for kind, x, y in (20, BIG, 0), (20, BIG, 1), (20, 1, BIG), (20, 2**31, 2**31), (21, 3, 3), (21, 3, 4), (21, 0, BIG), (21, BIG, BIG):
        lines = [U, P, constant(x), constant(y), (kind, 0, 1, 0), variable(1), (20, 3, 0, 0), (kind, 4, 1, 0), (33, 0, 2, 0), (33, 1, 5, 0)]
        both(lines, 100, 100)
        both(lines[:8] + [(33, 1, 5, 0)], 100)
    for kind in 22, 23, 24:
        for x, y in (0, 0), (0, 1), (1, 0), (BIG, BIG), (BIG, 0), (2**31, 2**31 - 1):
            both([B, constant(x), constant(y), (kind, 0, 1, 0), (33, 0, 2, 0), (35, 2, 0, 0)], 100)
            both([constant(x), constant(y), (kind, 0, 1, 0), (36, 2, 0, 0)], 100)


def loop(v, start, end, *body):
    return [(38, v, start, end), *body, CLOSE]


def loops():
    ends = [constant(n) for n in (0, 1, 2, 5, BIG - 1, BIG)]
    for declaration in U, MU:
        for start, end in (0, 0), (0, 2), (1, 0), (2, 2), (5, 4), (4, 5), (5, 5), (0, 5), (3, 2):
            for pair in (1, 3), (0, 2), (0, BIG), (BIG - 2, BIG), (0, 1), (1, 2), (BIG - 1, BIG):
                lines = [declaration, *ends, *loop(0, start, end, SKIP), SKIP]
                reduced(lines, 40, 40, pair=pair, choices=written(lines, pair, 80))
            plain(lines, 40, 40)
        # loops in loops, some not entered, with the skip over them
        nested = loop(0, 0, 1, *loop(1, 1, 2, *loop(2, 2, 2, SKIP)), *loop(1, 2, 1, *loop(2, 0, 0, SKIP)))
        both([declaration, U, declaration, *ends, *nested], 7, 1000)
        both([declaration, U, declaration, declaration, *ends, *loop(3, 1, 0, *nested), SKIP], 100)
        both([declaration, U, U, *ends, *loop(1, 0, 1, *loop(0, 1, 0, *loop(2, 0, 0), *loop(2, 0, 0)), SKIP)], 100)
        # eight deep, entered and not
        for last in 1, 0:
            deep = [SKIP]
            for v in range(1, 8):
                deep = loop(v, 0, 1, *deep)
            both([declaration] * 8 + [*ends, *loop(0, 0, last, *deep)], 900, 10000)
    # the body sets the iterator: the kept start counts
    both([U, *ends, *loop(0, 0, 2, (33, 0, 3, 0)), SKIP], 3, 100)
    # the bounds are worked out once, on entry
    both([U, U, *ends, variable(1), (20, 6, 1, 0), (33, 1, 2, 0), *loop(0, 0, 6, (33, 1, 7, 0))], 100)


def siblings():
    """An iterator serves one loop after another, beside it or inside a third, and the body of its loop may set it, where it is not marked."""
    ends = [constant(n) for n in (0, 1, 2)]
    for declaration in U, MU:
        both([declaration, *ends, *loop(0, 0, 2), *loop(0, 1, 2, SKIP), *loop(0, 2, 2)], 5, 100)
        both([declaration, U, *ends, *loop(1, 0, 1, *loop(0, 0, 1), *loop(0, 1, 2, SKIP)), *loop(0, 0, 0)], 5, 100)
        both([declaration, U, *ends, *loop(0, 0, 1, *loop(1, 0, 1)), *loop(1, 0, 1, *loop(0, 0, 1))], 5, 100)
        both([declaration, U, U, *ends, *loop(2, 0, 1, *loop(0, 0, 0, *loop(1, 0, 0)), *loop(1, 0, 1, *loop(0, 1, 2)))], 5, 100)
    both([U, U, *ends, *loop(0, 0, 2, (33, 0, 2, 0), *loop(1, 0, 1, (33, 0, 1, 0), (33, 1, 2, 0)))], 5, 100)


def shared_iterators():
    """16: a loop whose iterator is that of a loop around it, in tables that pass otherwise; the line is the inner loop's, the first such."""
    for machine, declaration, opens in (PLAIN, U, 38), (PLAIN, MU, 38), (REDUCED, U, 38), (REDUCED, MU, 42):
        declared = [declaration] * 8

        def opened(v):
            return (opens, v, 0, 0)

        for place, rows in (
            (1, [opened(0), opened(0), CLOSE, CLOSE]),
            # the outermost of three, of eight, and one between
            (2, [opened(0), opened(1), opened(0), CLOSE, CLOSE, CLOSE]),
            (2, [opened(1), opened(0), opened(0), CLOSE, CLOSE, CLOSE]),
            (7, [opened(v) for v in (0, 1, 2, 3, 4, 5, 6, 0)] + [CLOSE] * 8),
            (7, [opened(v) for v in (0, 1, 2, 3, 4, 5, 6, 3)] + [CLOSE] * 8),
            # past loops that are closed, and past other rows
            (3, [opened(0), opened(1), CLOSE, opened(0), CLOSE, CLOSE]),
            (5, [opened(0), CLOSE, opened(1), opened(2), CLOSE, opened(1), CLOSE, CLOSE]),
            (4, [SKIP, opened(0), SKIP, SKIP, opened(0), SKIP, CLOSE, SKIP, CLOSE]),
            # the first of two
            (2, [opened(0), opened(1), opened(1), CLOSE, CLOSE, opened(0), CLOSE, CLOSE]),
            (1, [opened(7), opened(7), opened(7), CLOSE, CLOSE, CLOSE]),
            # a row that no run reaches
            (3, [(35, 1, 0, 0), (opens, 0, 2, 0), opened(1), opened(0), CLOSE, CLOSE, CLOSE]),
        ):
            lines = declared + [constant(0), (18, 0, 0, 0), constant(1)]
            for pair, lent in ((1, 3), CELLS[machine]), ((3, 1), CELLS[machine]), ((1, 3), 9):
                case(machine, lines + rows, [100, (10, [(ROW, 0, 99)])], pair=pair, lent=lent, refusal=(16, len(lines) + place))
        # 11 and 12 come before it, wherever their lines are
        inner = [opened(0), opened(0), CLOSE, CLOSE]
        case(machine, declared + [constant(0), *inner, CLOSE], [100], refusal=(11, 13))
        case(machine, declared + [constant(0), *inner, opened(1)], [100], refusal=(11, 13))
        case(machine, declared + [MU, constant(0), *inner, (33, 8, 0, 0)], [100], refusal=(12, 14))
        case(machine, declared + [MU, constant(0), (33, 8, 0, 0), *inner], [100], refusal=(12, 10))
        case(machine, [U] + declared + [(18, 0, 0, 0), constant(0), (33, 0, 0, 0)] + inner, [100], refusal=(9, 11))
    # a marked and an unmarked loop never have one iterator; 38 and 42 of a reduced table are alike
    mixed = [U, MU, constant(0), (38, 0, 0, 0), (42, 1, 0, 0), (38, 0, 0, 0), CLOSE, CLOSE, CLOSE]
    case(REDUCED, mixed, [100], refusal=(16, 5))
    case(REDUCED, [MU, U, constant(0), (42, 0, 0, 0), (38, 1, 0, 0), (42, 0, 0, 0), CLOSE, CLOSE, CLOSE], [100], refusal=(16, 5))
    case(REDUCED, [MU, constant(0), (42, 0, 0, 0), (38, 0, 0, 0), CLOSE, CLOSE], [100], refusal=(12, 3))


def branches():
    """25 works out the branch that it takes, and no other."""
    for taken in 0, 1:
        nodes = [(18, taken, 0, 0), constant(0), constant(1), (21, 1, 2, 0), (25, 0, 1, 3), (25, 0, 3, 1)]
        both([U, *nodes, (33, 0, 4, 0), (33, 0, 5, 0)], 100)
        both([U, *nodes, (33, 0, 5, 0), (33, 0, 4, 0)], 100)
    # bools and pointers, and a choice in one branch
    for taken in 0, 1:
        nodes = [(18, taken, 0, 0), variable(0), variable(1), (25, 0, 1, 2), (26, 3, 0, 0), (26, 2, 0, 0), (25, 0, 4, 5), constant(3)]
        both([P, MP, B, *nodes, (37, 0, 7, 0), (33, 1, 3, 0), (33, 2, 6, 0), (35, 4, 0, 0)], 100)
        nodes = [(18, taken, 0, 0), variable(0), constant(8), (25, 0, 1, 2), (25, 0, 2, 1)]
        for node in 3, 4:
            both([MU, U, *nodes, (33, 1, node, 0)], 100)
            reduced([MU, U, *nodes, (33, 1, node, 0)], 100)


def pointers():
    """Pointers with no array, at the end of an array and past it, and off to both sides."""
    for declaration in P, MP:
        for length in 0, 1, 2, 3, 4, 5:
            for place in 0, 1, 2, 3, 4, 5, 6, BIG:
                nodes = [constant(length), constant(place), variable(0), (20, 2, 1, 0), (19, 3, 0, 0), (26, 3, 0, 0), constant(9)]
                both([declaration, U, B, *nodes, (37, 0, 0, 0), (33, 2, 5, 0), (33, 1, 4, 0)], 100)
                both([declaration, U, B, *nodes, (37, 0, 0, 0), (34, 3, 6, 0), (33, 1, 4, 0)], 100)
        nodes = [constant(4), variable(0), (20, 1, 0, 0), (26, 2, 0, 0), (19, 2, 0, 0), (21, 2, 0, 0), (21, 5, 0, 0)]
        for row in (33, 1, 3, 0), (35, 3, 0, 0), (33, 2, 4, 0), (34, 2, 4, 0), (34, 2, 0, 0), (33, 0, 5, 0), (33, 0, 6, 0):
            both([declaration, B, U, *nodes, row], 100, 100)
    # 26 fails only with its operand
    nodes = [constant(1), variable(0), (21, 1, 0, 0), (26, 2, 0, 0)]
    both([P, *nodes, (35, 3, 0, 0)], 100)
    # the write's value fails before the cell is tested, and with an array or none
    nodes = [constant(1), constant(0), (21, 1, 0, 0), variable(0)]
    both([MP, *nodes, (34, 3, 2, 0)], 100)
    both([MP, *nodes, (37, 0, 0, 0), (34, 3, 2, 0)], 100)


def kinds_of_arrays():
    """Whether an array is reduced goes by the row that made it: a pointer of the other kind reaches it."""
    for made, other in (P, MP), (MP, P):
        for place in range(6):
            nodes = [constant(5), constant(place), variable(1), (20, 2, 1, 0), (19, 3, 0, 0), (26, 3, 0, 0), variable(0), constant(6)]
            lines = [made, other, U, *nodes, (37, 0, 0, 0), (33, 1, 6, 0), (34, 3, 7, 0), (35, 5, 0, 0), (33, 2, 4, 0)]
            both(lines, 100)
            reduced(lines, 100, choices=[place] * 8)
            reduced(lines, 100)
    # plain arrays take no choice in the reduced machine, also past the end
    for place in 0, 1, 3, 4, 5:
        nodes = [constant(5), constant(place), variable(0), (20, 2, 1, 0), (19, 3, 0, 0), (26, 3, 0, 0)]
        reduced([P, U, B, *nodes, (37, 0, 0, 0), (34, 3, 1, 0), (33, 1, 4, 0), (33, 2, 5, 0)], 100, choices=[place])


def dropped_writes():
    """An untracked write is dropped, and each reading of an untracked cell takes its own choice."""
    for place in range(6):
        nodes = [constant(5), constant(place), variable(0), (20, 2, 1, 0), (19, 3, 0, 0), (20, 4, 4, 0), constant(6), (24, 5, 6, 0)]
        lines = [MP, U, *nodes, (37, 0, 0, 0), (34, 3, 6, 0), (33, 1, 4, 0), (33, 1, 5, 0), (35, 7, 0, 0)]
        both(lines, 100)
        for choices in [6, 6, 6], [4, 2, 4], [1, 2, 3, 3, 3], [BIG, BIG, 1]:
            reduced(lines, 100, choices=choices)


def true_places():
    """A reduced write is judged by its place, of which it takes no choice: it fails where the plain one does, is written at a tracked place, and
    dropped at any other below the length."""
    for length in range(7):
        for place in *range(8), BIG - 1, BIG:
            lines = [MP, constant(length), constant(place), variable(0), (20, 2, 1, 0), constant(9), (37, 0, 0, 0), (34, 3, 4, 0), SKIP]
            ended = "done row 3 steps 3" if place < length else "fail reason 4 row 1 steps 2"
            plain(lines, 100, expect=ended)
            for pair in (1, 3), (0, 1), (0, 2), (1, 2), (3, 4), (4, 6), (6, BIG), (BIG - 1, BIG):
                assert written(lines, pair, 100) == []
                for choices in [], [place]:
                    reduced(lines, 100, pair=pair, choices=choices, expect=ended + " choices 0")
    # what is written at each place of 5, then read: a tracked place has it, and the others take the choice
    for pair in (1, 3), (0, 4), (3, 4), (0, 1):
        for place in range(5):
            lines = [MP, U, constant(5), constant(place), variable(0), (20, 2, 1, 0), constant(9), (19, 3, 0, 0)]
            lines += [(37, 0, 0, 0), (34, 3, 4, 0), (33, 1, 5, 0)]
            reduced(lines, 100, pair=pair, choices=[8], expect="done row 3 steps 3", holds={1: 9 if place in pair else 8})
    # the place is that of the pointer as it is worked out: a marked iterator's is its choice, of the last class here, below the length or past it
    lines = [MP, MU, constant(5), constant(4), variable(0), variable(1), (20, 2, 3, 0), (37, 0, 0, 0), *loop(1, 1, 1, (34, 4, 0, 0))]
    for place, ended in (4, "steps row 3 steps 3 choices 3"), (5, "fail reason 4 row 2 steps 3 choices 3"), (BIG, "fail reason 4 row 2 steps 3 choices 3"):
        reduced(lines, 3, choices=[4, 4, place], expect=ended)
    # with no array it fails wherever the place is
    for place in 0, 3, 4, BIG:
        lines = [MP, constant(place), variable(0), (20, 1, 0, 0), constant(9), (34, 2, 3, 0)]
        for choices in [], [place]:
            reduced(lines, 100, choices=choices, expect="fail reason 3 row 0 steps 1 choices 0")
    # a record continued at the write, with other lengths and places
    lines = [MP, constant(5), constant(3), variable(0), (20, 2, 1, 0), constant(9), (37, 0, 0, 0), (34, 3, 4, 0)]
    for length, place in (5, 0), (4, 0), (3, 0), (4, 1), (5, 1), (5, 2), (7, 3), (9, BIG - 3):
        ended = "done row 2 steps 1" if place + 3 < length else "fail reason 4 row 1 steps 1"
        reduced(lines, 1, (9, [(LENGTH, 0, length), (NUMBER, 0, place)]), expect=ended + " choices 0")


def choices_taken():
    """Choices outside the class, and lists that end, at each place."""
    for lines, pair in (T, (1, 3)), (T, (0, 2)), (T, (0, 4)), (T, (2, 9)), (T, (1, 2)), (T, (0, 1)), (T, (4, 5)):
        choices = written(lines, pair, 100)
        for k in range(len(choices)):
            reduced(lines, 100, pair=pair, choices=choices[:k])
            for v in range(6):
                if v != choices[k]:
                    reduced(lines, 100, 100, pair=pair, choices=choices[:k] + [v] + choices[k + 1 :])
    # the choices of 42 take the place of start and end, in the class or not
    lines = [MU, U, constant(6), constant(9), constant(2), variable(0), *loop(0, 0, 1, (33, 1, 3, 0)), SKIP]
    for choices in [6, 9], [9, 6], [9, 9, 9, 10, 4], [4, BIG, 7, 5, 8, 4], [BIG, BIG, 4, 4], [3, 9], [2, 9], [6, 3], [6, 2], [4, 5, 5, 6, 3]:
        for pair in (1, 3), (0, 5), (8, BIG), (6, 9), (5, 6), (8, 9):
            reduced(lines, 4, 100, pair=pair, choices=choices)
    # a fail after a choice counts it; a marked uint that no loop uses holds the class of 0
    lines = [MU, U, variable(0), constant(1), (21, 0, 1, 0), (33, 1, 2, 0)]
    for pair in (0, 2), (1, 3), (5, 7), (0, 1), (3, 4):
        for choices in [], [0], [1], [3], [4, 4], [5]:
            reduced(lines, 100, 100, pair=pair, choices=choices)
    # start + 1 fails before any choice
    lines = [MU, constant(BIG), *loop(0, 0, 0)]
    for choices in [BIG, BIG], [BIG, BIG, 1], [4, 5, 6, 6, 7]:
        reduced(lines, 1, 1, 10, choices=choices)


def fails_for(reason, lines, row=None, steps=None):
    """Both machines fail for the reason at a row, the last unless it is given; so does a plain run that is continued there."""
    row = len(Table(lines).rows) - 1 if row is None else row
    ended = "fail reason %d row %d steps %d" % (reason, row, row + 1 if steps is None else steps)
    plain(lines, 100, 100, expect="fail reason %d row %d steps 1" % (reason, row))
    plain(lines, 100, expect=ended)
    reduced(lines, 100, choices=written(lines, (1, 3), 100), expect=ended)


# Nodes 0 to 3 are numbers, 4 fails for a sum and 5 for a difference
FAILING = [constant(0), constant(1), constant(5), constant(BIG), (20, 3, 1, 0), (21, 0, 1, 0)]
ZERO, ONE, FIVE, LARGEST, TOO_LARGE, BELOW = range(6)


def reasons_of_sums():
    """1 and 2: of uints, and of a pointer's place, with an array and with none."""
    fails_for(SUM, [U, *FAILING, (33, 0, TOO_LARGE, 0)])
    fails_for(DIFFERENCE, [U, *FAILING, (33, 0, BELOW, 0)])
    for declaration in P, MP:
        nodes = [*FAILING, variable(0), (20, 6, LARGEST, 0), (20, 7, ONE, 0), (21, 6, ONE, 0)]
        for made in [], [(37, 0, FIVE, 0)]:
            fails_for(SUM, [declaration, *nodes, *made, (33, 0, 8, 0)])
            fails_for(DIFFERENCE, [declaration, *nodes, *made, (33, 0, 9, 0)])
            # before the cell is looked for
            for reason, pointer in (SUM, 8), (DIFFERENCE, 9):
                fails_for(reason, [declaration, U, *nodes, (19, pointer, 0, 0), *made, (33, 1, 10, 0)])
                fails_for(reason, [declaration, B, *nodes, (26, pointer, 0, 0), *made, (33, 1, 10, 0)])
                fails_for(reason, [declaration, *nodes, *made, (34, pointer, ONE, 0)])


def reasons_of_cells():
    """3 with no array, whatever the place; 4 with an array and a place that is not below its length; 26 and 29 have neither."""
    for declaration in P, MP:
        for place in 0, 1, 3, 5, 6, BIG:
            nodes = [*FAILING, constant(place), variable(0), (20, 7, 6, 0), (19, 8, 0, 0), (26, 8, 0, 0)]
            fails_for(NO_ARRAY, [declaration, U, *nodes, (33, 1, 9, 0)])
            fails_for(NO_ARRAY, [declaration, *nodes, (34, 8, ONE, 0)])
            plain([declaration, B, *nodes, (33, 1, 10, 0), (36, 10, 0, 0)], 100, expect="assume row 1 steps 2")
            reduced([declaration, B, *nodes, (33, 1, 10, 0), (36, 10, 0, 0)], 100, expect="assume row 1 steps 2")
            for length in ZERO, ONE, FIVE:
                if place >= FAILING[length][1]:
                    made = [(37, 0, length, 0)]
                    fails_for(PAST, [declaration, U, *nodes, *made, (33, 1, 9, 0)])
                    fails_for(PAST, [declaration, *nodes, *made, (34, 8, ONE, 0)])
                    plain([declaration, *nodes, *made, (36, 10, 0, 0)], 100, expect="assume row 1 steps 2")
                    reduced([declaration, *nodes, *made, (36, 10, 0, 0)], 100, expect="assume row 1 steps 2")
    # 26 has the reason of a cell under it
    nodes = [*FAILING, variable(0), variable(1), (20, 6, FIVE, 0), (19, 8, 0, 0), (20, 7, 9, 0), (26, 10, 0, 0)]
    for first, second in (P, P), (P, MP), (MP, P), (MP, MP):
        fails_for(NO_ARRAY, [first, second, *nodes, (35, 11, 0, 0)])
        fails_for(PAST, [first, second, *nodes, (37, 0, FIVE, 0), (35, 11, 0, 0)])


def reasons_of_counters():
    """5 where start + 1 of row 39 is too large, and nowhere else."""
    for declaration in U, MU:
        for more in [], [SKIP]:
            fails_for(COUNTER, [declaration, *FAILING, *loop(0, LARGEST, LARGEST, *more)], steps=2 + len(more))
        # a sum in the loop has 1, also one that is the same
        lines = [declaration, U, *FAILING, variable(0), (20, 6, ONE, 0), *loop(0, LARGEST, LARGEST, (33, 1, 7, 0))]
        fails_for(SUM, lines, row=1)
    # the inner loop's, and the outer loop's past an inner one that is not entered
    fails_for(COUNTER, [U, U, *FAILING, *loop(0, ZERO, ONE, *loop(1, LARGEST, LARGEST))], row=2, steps=3)
    fails_for(COUNTER, [U, U, *FAILING, *loop(0, LARGEST, LARGEST, *loop(1, ONE, ZERO))], row=3, steps=3)
    lines = [U, *FAILING, *loop(0, ZERO, FIVE, SKIP)]
    for start, end, ended in (BIG, BIG, "fail reason 5 row 2 steps 2"), (BIG - 1, BIG, "fail reason 5 row 2 steps 4"):
        plain(lines, 1, (9, [(START, 0, start), (END, 0, end)]), expect=ended)
        reduced(lines, 1, (9, [(START, 0, start), (END, 0, end)]), expect=ended)


def reasons_in_order():
    """The first reason met: operands in the order of working out, then the row's or the node's own."""
    for first, second, reason in (TOO_LARGE, BELOW, SUM), (BELOW, TOO_LARGE, DIFFERENCE):
        for kind in (20, 21):
            fails_for(reason, [U, *FAILING, (kind, first, second, 0), (33, 0, 6, 0)])
            fails_for(reason, [U, *FAILING, (kind, LARGEST, first, 0), (33, 0, 6, 0)])
            fails_for(reason, [P, *FAILING, variable(0), (kind, 6, first, 0), (33, 0, 7, 0)])
        for kind in (22, 23, 24):
            fails_for(reason, [B, *FAILING, (kind, first, second, 0), (33, 0, 6, 0)])
            fails_for(reason, [B, *FAILING, (kind, ONE, first, 0), (33, 0, 6, 0)])
            fails_for(reason, [U, *FAILING, (kind, first, ONE, 0), (25, 6, second, second), (33, 0, 7, 0)])
            for row in 35, 36:
                fails_for(reason, [*FAILING, (kind, first, second, 0), (row, 6, 0, 0)])
        for truth in 0, 1:
            branch = (first, second) if truth else (second, first)
            fails_for(reason, [U, *FAILING, (18, truth, 0, 0), (25, 6, *branch), (33, 0, 7, 0)])
        fails_for(reason, [P, *FAILING, (37, 0, first, 0)])
        for declaration in U, MU:
            fails_for(reason, [declaration, *FAILING, *loop(0, first, second)], row=0)
            fails_for(reason, [declaration, *FAILING, *loop(0, ONE, first)], row=0)
        # a write: its pointer, its value, then the array and the place
        for declaration in P, MP:
            for made in [], [(37, 0, ONE, 0)]:
                nodes = [*FAILING, variable(0), (20, 6, FIVE, 0), (20, 6, first, 0), (19, 6, 0, 0)]
                fails_for(reason, [declaration, *nodes, *made, (34, 6, first, 0)])
                fails_for(reason, [declaration, *nodes, *made, (34, 7, first, 0)])
                fails_for(reason, [declaration, *nodes, *made, (34, 8, second, 0)])
                fails_for(reason, [declaration, *nodes, *made, (34, 8, 9, 0)])
    # a value that is a cell: its reason is met before the write's own
    nodes = [*FAILING, variable(0), variable(1), (20, 7, FIVE, 0), (19, 6, 0, 0), (19, 8, 0, 0), (20, 6, FIVE, 0)]
    for first, second in (P, P), (P, MP), (MP, P), (MP, MP):
        fails_for(NO_ARRAY, [first, second, *nodes, (37, 1, ONE, 0), (34, 8, 9, 0)])
        fails_for(PAST, [first, second, *nodes, (37, 1, ONE, 0), (34, 6, 10, 0)])
        fails_for(PAST, [first, second, *nodes, (37, 1, ONE, 0), (34, 11, 10, 0)])


def orders():
    """Two operands take a choice each, the marked uint one of its class and the cell any: the left operand takes the first."""
    nodes = [constant(8), variable(0), variable(1), (19, 2, 0, 0), (20, 2, 1, 0)]
    made = [(37, 1, 0, 0)]
    uint, cell, pointer = 1, 3, 4
    users = []
    for a, b in (uint, cell), (cell, uint):
        users += [([(kind, a, b, 0)], [(33, 2, 5, 0)]) for kind in (20, 21)]
        users += [([(kind, a, b, 0)], [(33, 3, 5, 0)]) for kind in (22, 23, 24)]
        users += [([], loop(v, a, b)) for v in (0, 2)]
    users += [([(20, pointer, cell, 0)], [(33, 1, 5, 0)]), ([], [(34, pointer, cell, 0)])]
    users += [([(22, cell, uint, 0), (25, 5, uint, cell)], [(33, 2, 6, 0)])]
    for more, rows in users:
        for choices in [], [4], [4, 2], [2, 4], [4, 100], [100, 4], [4, 3, 2, 1, 0, 5], [4, 100, 3, 100, 2], [3, 4, 3, 4, 4, 4, 4, 4]:
            reduced([MU, MP, U, B, *nodes, *more, *made, *rows], 3, 100, pair=(5, 9), choices=choices)


# Procedures


def procedure(first, count, *rows):
    return [(43, first, count, 0), *rows]


def calls(p, node, v):
    return (45, p, node, v)


def returns(node):
    return (44, node, 0, 0)


def in_parts(lines, expect=None, holds=None, pair=(1, 3)):
    """Both machines, the reduced one under the true choices: the whole run; stopped after each number of steps and continued; step by step."""
    choices = written(lines, pair, 1000)
    for machine, own in (PLAIN, lines), (REDUCED, Table(lines).reduced().lines):
        more = {"pair": pair, "choices": choices if machine == REDUCED else []}
        whole = case(machine, own, [1000], expect=expect, holds=holds, **more)[0]
        steps, done = count(whole, "steps"), whole.startswith("done")
        assert steps < 1000 and count(whole, "choices") == len(more["choices"])
        for limits in [(k, 1000) for k in range(steps + done)] + [(1,) * (steps or 1)]:
            out = case(machine, own, limits, **more)
            assert fields(out[-1]) == fields(whole)
            for name in ("steps", "choices"):
                assert sum(count(line, name) for line in out) == count(whole, name)


def each(lines, *runs, **more):
    """Both machines, the reduced one with no choices."""
    plain(lines, *runs, **more)
    reduced(lines, *runs, **more)


# Variable 0 takes results, variable 1 is the local of procedure 0; nodes 0 to 2 are 5, the local, twice the local
DOUBLES = [U, U, constant(5), variable(1), (20, 1, 1, 0)]


def examples_of_calls():
    """The examples of rule 8.22."""
    lines = DOUBLES + [calls(0, 0, 0), *procedure(1, 1, returns(2))]
    each(lines, 100, expect="done row 1 steps 2 choices 0", holds={0: 10, 1: 0})
    each(lines, 1, expect="steps row 2 steps 1 choices 0", holds={0: 0, 1: 5})
    each(lines[:-1], 100, expect="done row 1 steps 2 choices 0", holds={0: 0, 1: 0})
    each(DOUBLES + [calls(0, 0, 0), *procedure(1, 1, calls(0, 1, 0))], 100, expect="deep row 2 steps 9 choices 0", holds={0: 0, 1: 5})


def where_main_ends():
    """Main is done at the first 43, whatever the limit, and no row after it is carried out but by a call."""
    nodes = [constant(0), constant(1), (18, 0, 0, 0)]
    for head in [], [SKIP], [SKIP] * 3, loop(0, 0, 0), loop(0, 1, 0, SKIP):
        for body in [], [SKIP], [(35, 2, 0, 0)], [returns(0)], [calls(0, 0, 0)], procedure(2, 1, SKIP), loop(1, 0, 1):
            lines = [U, U, U, *nodes, *head, *procedure(1, 1, *body)]
            each(lines, 100, 0, 5, expect="done row %d steps 0" % len(head))
            each(lines, 0, expect="%s row 0 steps 0" % ("steps" if head else "done"))
    each([U, *procedure(0, 1)], 0, 7, expect="done row 0 steps 0")


def falling_off():
    """The end of a procedure, at the next 43 or the row count, returns 0 in a step of its own."""
    nodes = [constant(5), constant(9), constant(0), variable(3)]
    # rows 0 to 3 are main's, 4 and 5 those of procedure 0, 6 and 7 those of procedure 1
    lines = [U, U, U, U, *nodes, (33, 0, 1, 0), calls(0, 0, 0), (33, 0, 1, 0), calls(1, 0, 0)]
    lines += procedure(1, 1, (33, 1, 1, 0)) + procedure(2, 1, (33, 2, 1, 0))
    in_parts(lines, "done row 4 steps 8", {0: 0, 1: 0, 2: 0})
    each(lines, 3, expect="steps row 6 steps 3", holds={0: 9, 1: 9})
    each(lines, 4, expect="steps row 2 steps 4", holds={0: 0, 1: 0})
    each(lines, 7, expect="steps row 8 steps 7", holds={0: 9, 2: 9})
    # no rows: the call, and this
    lines = [U, U, U, U, *nodes, (33, 0, 1, 0), calls(0, 0, 0), (33, 0, 1, 0), calls(1, 0, 0), *procedure(1, 1), *procedure(2, 1)]
    in_parts(lines, "done row 4 steps 6", {0: 0, 1: 0, 2: 0})
    each(lines, 2, expect="steps row 5 steps 2", holds={0: 9, 1: 5})
    each(lines, 5, expect="steps row 6 steps 5", holds={0: 9, 2: 5})
    # after a loop, after one that is not entered, after a call; the last row of main, and a result for another variable
    head = [U, U, U, U, *nodes]
    for body in loop(2, 0, 0, SKIP), loop(2, 0, 2, SKIP), [calls(1, 1, 2)], loop(2, 2, 2, calls(1, 1, 2)), [calls(1, 1, 1), SKIP]:
        in_parts(head + [(33, 0, 1, 0), calls(0, 0, 0), *procedure(1, 2, *body), *procedure(3, 1, returns(3))], "done row 2", {0: 0})
    in_parts(head + [SKIP, calls(0, 1, 3), SKIP, *procedure(1, 2)], "done row 3 steps 4", {0: 0, 3: 0})


def chain_of(n):
    """Procedures that call the next and return what it returns; the last returns its parameter, which is 5."""
    rows = [calls(0, 0, 0)]
    for k in range(n):
        rows += procedure(1 + k, 1, *([calls(1 + k, 1 + k, 1 + k)] if k < n - 1 else []), returns(1 + k))
    return [U] * (n + 1) + [constant(5)] + [variable(1 + k) for k in range(n)] + rows


def too_deep():
    """A ninth call, its node worked out, ends the run: the step counts, and nothing changes. A node that fails comes before it."""
    for n in 1, 7, 8:
        each(chain_of(n), 100, expect="done row 1 steps %d" % (2 * n), holds={0: 5})
    for n in 9, 10, 16:
        each(chain_of(n), 100, 0, expect="steps row 23 steps 0", holds={0: 0, 8: 5, 9: 0})
        each(chain_of(n), 100, 5, expect="deep row 23 steps 1", holds={0: 0, 8: 5, 9: 0})
    in_parts(chain_of(8), "done row 1 steps 16", {0: 5})
    in_parts(chain_of(9), "deep row 23 steps 9", {8: 5})
    # one that calls itself with one less, or one more
    for kind, first, expect, held in (
        (21, 6, "fail reason 2 row 2 steps 8", 0),
        (21, 7, "fail reason 2 row 2 steps 9", 0),
        (21, 8, "deep row 2 steps 9", 1),
        (20, BIG - 6, "fail reason 1 row 2 steps 8", BIG),
        (20, BIG - 7, "fail reason 1 row 2 steps 9", BIG),
        (20, BIG - 8, "deep row 2 steps 9", BIG - 1),
    ):
        lines = [U, U, constant(first), constant(1), variable(1), (kind, 2, 1, 0), calls(0, 0, 0), *procedure(1, 1, calls(0, 3, 0))]
        each(lines, 100, expect=expect, holds={0: 0, 1: held})
        each(lines, 100, 1, expect=expect[:-1] + "1", holds={0: 0, 1: held})
    # the ninth call, the tenth step, reads place 7 of an array
    for declaration in P, MP:
        nodes = [constant(0), constant(1), variable(1), variable(2), (20, 3, 2, 0), (19, 4, 0, 0), (20, 2, 1, 0), (20, 6, 5, 0)]
        rows = [calls(0, 0, 0), *procedure(1, 1, calls(0, 7, 0))]
        for length, expect in (7, "fail reason 4 row 3 steps"), (8, "deep row 3 steps"):
            lines = [U, U, declaration, *nodes, constant(length), (37, 2, 8, 0), *rows]
            both(lines, 100, expect=expect + " 10", holds={1: 7})
            both(lines, 9, 100, expect=expect + " 1", holds={1: 7})
        both([U, U, declaration, *nodes, *rows], 100, expect="fail reason 3 row 2 steps 2")
    # the caller's loops and those of the call stay
    for declaration in U, MU:
        nodes = [constant(1), constant(5), constant(2)]
        body = loop(2, 0, 1, *loop(3, 2, 2, calls(0, 1, 0)))
        in_parts([U, U, declaration, U, *nodes, *loop(3, 0, 0, calls(0, 1, 0)), *procedure(1, 1, *body)], "deep row 6 steps 26")


def choices_of_calls():
    """A call takes the choices of its node, too deep or not; a return those of its own; falling off takes none."""
    more = {"pair": (5, 9)}
    # a call takes one choice, or two
    for node, taken in (0, 1), (1, 2):
        lines = [U, U, MU, variable(2), (20, 0, 0, 0), calls(0, node, 0), *procedure(1, 1, calls(0, node, 0))]
        short = "row 2 steps 8 choices %d" % (8 * taken)
        reduced(lines, 100, choices=[4] * 9 * taken, expect="deep row 2 steps 9 choices %d" % (9 * taken), holds={1: 4 * taken}, **more)
        for choices, end in ([4] * (9 * taken - 1), "nochoice"), ([4] * 8 * taken, "nochoice"), ([4] * (9 * taken - 1) + [7, 7], "badchoice"):
            reduced(lines, 100, choices=choices, expect="%s %s" % (end, short), **more)
        reduced(lines, 100, 1, choices=[4] * 9 * taken + [1, 2, 3], expect="deep row 2 steps 1 choices %d" % taken, **more)
        reduced(lines, 100, 0, 1, 1, 1, 1, choices=[4] * 9 * taken + [1, 2, 3], **more)
        for k in range(8 * taken):
            reduced(lines, 100, 100, choices=[3] * k, expect="nochoice row %d steps 0 choices 0" % (2 if k >= taken else 0), **more)
            reduced(lines, 100, 100, choices=[3] * k + [5] + [3] * 9, **more)
    # the call gives the choice; the return gives the sum of two; falling off gives 0 and leaves the list
    head = [U, U, MU, U, variable(2), variable(1), (20, 1, 0, 0)]
    for body, choices, expect, held in (
        ([returns(2)], [3, 4, 2], "done row 1 steps 2 choices 2", 7),
        ([returns(2)], [3], "nochoice row 2 steps 1 choices 1", 0),
        ([returns(2)], [3, 9], "badchoice row 2 steps 1 choices 1", 0),
        ([], [3, 4, 2], "done row 1 steps 2 choices 1", 0),
        ([], [3], "done row 1 steps 2 choices 1", 0),
        ([], [], "nochoice row 0 steps 0 choices 0", 0),
    ):
        reduced(head + [calls(0, 0, 0), *procedure(1, 1, *body)], 100, choices=choices, expect=expect, holds={0: held}, **more)
        reduced(head + [calls(0, 0, 0), *procedure(1, 1, *body)], 1, 0, 100, choices=choices, holds={0: held}, **more)


def returns_in_loops():
    """A return drops the procedure's loops, wherever it stands in them; a global iterator keeps its number, a local one is 0."""
    nodes = [constant(0), constant(1), constant(3), constant(5), variable(3), variable(1), variable(2)]
    zero, one, three, five, local, first, second = range(7)
    nodes += [(24, first, three, 0), (25, 7, one, zero), (24, second, three, 0), (25, 9, one, zero)]
    for declaration in U, MU:
        # variables: a result, two iterators, the two locals of procedure 0
        head = [U, declaration, U, U, U, *nodes]
        for body, held in (
            (loop(2, one, five, returns(local)), {0: 5, 2: 1}),
            (loop(2, three, five, *loop(4, one, three, returns(local))), {0: 5, 2: 3}),
            (loop(1, one, five, *loop(2, three, three, *loop(4, one, one, SKIP, returns(second)))), {0: 3, 2: 3}),
            (loop(4, one, three) + loop(2, one, one) + [returns(local)], {0: 5, 2: 2}),
            # where the iterator is 3
            (loop(1, zero, five, *loop(4, one, 8, returns(first))), {0: 3}),
            (loop(2, zero, five, *loop(4, one, 10, returns(second))), {0: 3, 2: 3}),
        ):
            lines = head + [calls(0, five, 0), *procedure(3, 2, *body)]
            in_parts(lines, "done row 1", {3: 0, 4: 0, **held})
            # the caller is in a loop, which may have an iterator of the procedure's, and opens another after the call
            around = loop(1, zero, one, calls(0, five, 0), *loop(2, zero, zero))
            both(head + around + procedure(3, 2, *body), 1000, expect="done row 5", holds={0: held[0], 2: 1, 3: 0, 4: 0})
            for stopped in 5, 9, 14, 20:
                both(head + around + procedure(3, 2, *body), stopped, 3, 1000)


def eight_loops(n):
    """Main and n procedures, each of which calls the next in eight loops, all with the same iterators, and returns in them."""

    def looped(*rows):
        for v in reversed(range(8)):
            rows = loop(v, 0, 0, *rows)
        return rows

    rows = [*looped(calls(0, 1, 8))]
    for k in range(n):
        rows += procedure(9 + k, 1, *looped(calls(k + 1, 1, 9 + k) if k < n - 1 else SKIP, returns(1)))
    return [U] * (9 + n) + [constant(0), constant(7)] + rows


def calls_in_loops():
    """The caller's loops keep start and end, whatever the procedure does to their iterators, which have its numbers till then."""
    nodes = [constant(0), constant(2), constant(5), variable(2), constant(1), (20, 3, 4, 0)]
    zero, two, five, counter, one, counted = range(6)
    for declaration in U, MU:
        bodies = [[], loop(1, five, five), loop(1, two, zero, SKIP), loop(1, one, five, returns(two))]
        bodies += [loop(1, zero, five, *loop(4, two, two, returns(two)))]
        bodies += [[(33, 1, five, 0)], [(33, 1, zero, 0), returns(one)]] if declaration == U else []
        for body in bodies:
            # three rounds, which variable 2 counts
            lines = [U, declaration, U, U, U, *nodes, *loop(1, zero, two, calls(0, five, 0), (33, 2, counted, 0)), *procedure(3, 2, *body)]
            in_parts(lines, "done row 4", {2: 3, **({1: 3} if declaration == U else {})})
            # two loops around, the inner one's iterator used; and the result in the iterator of the outer
            around = loop(0, zero, one, *loop(1, one, two, calls(0, five, 0), (33, 2, counted, 0)))
            both([U, declaration, U, U, U, *nodes, *around, *procedure(3, 2, *body)], 1000, expect="done row 6", holds={0: 2, 2: 4})
    # after a call the iterator has what the procedure left in it
    lines = [U, U, U, U, U, *nodes, *loop(1, zero, zero, calls(0, five, 0)), *procedure(3, 2, *loop(1, two, five, returns(one)))]
    each(lines, 4, expect="steps row 2 steps 4", holds={0: 1, 1: 2})
    # eight loops open in main and in each of eight calls
    for n in 8, 9:
        each(eight_loops(n), 1000, expect="done row 17 steps 97" if n == 8 else "deep row 159 steps 81", holds={8: 7 if n == 8 else 0})
        each(eight_loops(n), 80, 1, 3, 8, 1000)


def of_itself(n, c):
    """A table whose procedure 0 has n locals and calls itself with one less until it has 0, the result to variable c: 0 is global, 1 on are
    its locals. It returns the sum of these, each but the first set to 10, 20 or 30 more than the first before the call."""
    nodes = [constant(0), constant(1), constant(3), *(variable(v) for v in range(n + 1))]
    own = 4  # the node of the first local
    for k in range(1, n):
        nodes += [constant(10 * k), (20, own, len(nodes), 0), (24, own + k, 0, 0), (24, own + k, len(nodes) + 1, 0)]
    sets = 4 + n  # four nodes for each local but the first
    nodes += [(21, own, 1, 0), (22, 0, own, 0), (25, len(nodes) + 1, 1, 0)]
    less, once = len(nodes) - 3, len(nodes) - 1
    total = own - 1 if c == 0 else 0
    for k in range(n):
        nodes.append((20, total, own + k, 0))
        total = len(nodes) - 1
    body = [(35, sets + 4 * k + 2, 0, 0) for k in range(n - 1)] + [(33, 2 + k, sets + 4 * k + 1, 0) for k in range(n - 1)]
    kept = [(35, sets + 4 * k + 3, 0, 0) for k in range(n - 1) if c not in (1, 2 + k)]
    body += loop(n + 1, 1, once, calls(0, less, c), *kept) + [returns(total)]
    return [U] * (n + 2) + nodes + [calls(0, 2, 0), *procedure(1, n, *body)]


def sum_of_itself(n, c, first):
    """What the procedure of of_itself returns."""
    held = [0, first] + [first + 10 * k for k in range(1, n)]
    if first > 0:
        held[c] = sum_of_itself(n, c, first - 1)
    return sum(held)


def fresh_locals():
    """A procedure that calls itself gets a fresh set of locals, and its own come back before the result is set; so do those of two that
    call each other."""
    for n in range(1, 5):
        for c in range(n + 1):
            lines = of_itself(n, c)
            each(lines, 1000, expect="done row 1", holds={0: sum_of_itself(n, c, 3), **{1 + k: 0 for k in range(n)}})
            each(lines, 7, 6, 9, 4, 1000, expect="done row 1", holds={0: sum_of_itself(n, c, 3)})
    for n, c in (1, 0), (1, 1), (2, 2), (4, 3):
        in_parts(of_itself(n, c), "done row 1", {0: sum_of_itself(n, c, 3)})
    # f(x) is x + g(x - 1), or 0 with x = 0, g(x) is 2 x + f(x); f(3) = 3 + 4 + 2 + 2 + 1 + 0 + 0
    nodes = [constant(0), constant(1), constant(3), variable(1), variable(2), variable(3), variable(4), (21, 3, 1, 0), (22, 0, 3, 0)]
    nodes += [(25, 8, 1, 0), (20, 3, 4, 0), (20, 5, 5, 0), (20, 11, 6, 0)]
    f = procedure(1, 2, *loop(5, 1, 9, calls(1, 7, 2)), returns(10))
    g = procedure(3, 2, calls(0, 5, 4), returns(12))
    in_parts([U] * 6 + nodes + [calls(0, 2, 0)] + f + g, "done row 1", {0: 12, 1: 0, 2: 0, 3: 0, 4: 0})


def results():
    """Where a result goes: to a global, to a local of the caller over what came back, to the parameter, to the iterator of an open loop."""
    nodes = [constant(5), constant(7), variable(1), variable(2), variable(3), (20, 2, 3, 0), (20, 5, 4, 0), variable(5), (20, 7, 0, 0)]
    for c, total in (0, 19), (1, 26), (2, 24), (3, 24):
        # locals 5, 7 and 7, of which c becomes 12; variable 5 is the other procedure's, which returns 5 more
        body = [(33, 2, 1, 0), (33, 3, 1, 0), calls(1, 1, c), returns(6)]
        lines = [U] * 6 + nodes + [calls(0, 0, 4), *procedure(1, 3, *body), *procedure(5, 1, returns(8))]
        in_parts(lines, "done row 1", {0: 12 if c == 0 else 0, 1: 0, 2: 0, 3: 0, 4: total, 5: 0})
    # the iterator of a loop of the caller, which goes on by the start that it keeps
    for p in procedure(1, 1, returns(2)), procedure(1, 1):
        in_parts([U, U, U, U, constant(0), constant(2), variable(1), *loop(0, 0, 1, calls(0, 1, 0)), *p], "done row 3", {0: 3})
    # f(x) calls f(2 x) for each number from 2 x to 4 and returns 2 x and its other locals, of which the second is x: f(1) = 3, f(2) = 6
    nodes = [constant(4), *(variable(v) for v in range(1, 5)), (20, 1, 1, 0), (20, 2, 3, 0), (20, 6, 4, 0), (20, 5, 7, 0), constant(1)]
    body = [(33, 2, 1, 0), *loop(6, 0, 0, *loop(7, 5, 0, calls(0, 5, 0))), returns(8)]
    in_parts([U] * 8 + nodes + [calls(0, 9, 5), *procedure(1, 4, *body)], "done row 1", {0: 6, 1: 0, 2: 0, 5: 3})


def globals_in_procedures():
    """Bools, pointers, arrays, and uints that no 43 lists are not put aside."""
    for declaration in P, MP:
        # variables: bool, pointer, pointer, a uint, a result, a local
        nodes = [constant(1), constant(6), (18, 1, 0, 0), variable(0), variable(1), variable(2), variable(3), variable(5), (20, 4, 7, 0)]
        nodes += [(19, 8, 0, 0), (24, 6, 1, 0), (26, 5, 0, 0)]
        body = [(33, 0, 2, 0), (37, 1, 1, 0), (33, 2, 8, 0), (33, 3, 1, 0), (34, 8, 7, 0), returns(9)]
        after = [(35, 3, 0, 0), (35, 10, 0, 0), (35, 11, 0, 0)]
        # the parameter is a place of an array of 6
        for node, expect, held in (0, "done row 5 steps 17", {4: 1, 5: 0}), (1, "fail reason 4 row 10 steps 6", {4: 0, 5: 6}):
            rows = [calls(0, node, 4), *after, calls(0, node, 4), *procedure(5, 1, *body)]
            in_parts([B, declaration, declaration, U, U, U, *nodes, *rows], expect, {0: True, 3: 6, **held})
        # the table T is the body: an array at each call, its cells written and read
        rows = [calls(0, 2, 2)] * 2 + procedure(3, 1, *T[11:], returns(0))
        lines = [MU, declaration, U, U, *T[2:11], *rows]
        in_parts(lines, "done row 2 steps 38", {2: 5, 3: 0})
        for pair in (0, 2), (1, 2), (0, 1), (4, 5), (2, BIG):
            reduced(lines, 30, 1000, pair=pair, choices=written(lines, pair, 100), expect="done row 2 steps 8")
    # an array at each call until there is no room, for arrays or for cells
    for length, made in (0, 16), (1, 16), (256, 16), (1000, 4), (4096, 1):
        nodes = [constant(0), constant(20), constant(length), variable(3)]
        rows = loop(0, 0, 1, calls(0, 2, 1)) + procedure(3, 1, (37, 2, 3, 0), returns(3))
        for declaration, kept in (P, made), (MP, 16):
            lines = [U, U, declaration, U, *nodes, *rows]
            plain(lines, 1000, 1, expect="room row 4 steps 1", holds={0: made, 3: length})
            plain(lines, 1000, expect="room row 4 steps %d" % (3 + 4 * made))
            reduced(lines, 1000, expect="room row 4 steps %d" % (3 + 4 * kept), holds={0: kept, 3: length})


def tracked_in_procedures():
    """Cells of tracked circuits, written in a procedure by its parameter and read in another; marked iterators of loops in main and there."""
    # variables: iterator, array, result, the locals of procedures 0 and 1, an iterator of main's
    nodes = [constant(0), constant(4), constant(5), variable(0), variable(1), variable(3), variable(4), variable(5), (20, 4, 5, 0), (20, 4, 6, 0)]
    nodes += [(20, 5, 2, 0), (19, 9, 0, 0), (20, 4, 3, 0), (19, 12, 0, 0)]
    marked, plain_one = 3, 7  # nodes of the iterators
    # a cell gets 5 more than its place; every cell is copied to itself, and then one is the result
    writes = procedure(3, 1, (34, 8, 10, 0), returns(5))
    reads = procedure(4, 1, *loop(0, 0, 1, (34, 12, 13, 0)), returns(11))
    for iterator, array in (U, P), (MU, P), (U, MP), (MU, MP):
        head = [iterator, array, U, U, U, U, *nodes, (37, 1, 2, 0)]
        lines = head + loop(5, 0, 1, calls(0, plain_one, 2), calls(1, plain_one, 2)) + writes + reads
        ended = {"expect": "done row 5 steps 87", "holds": {2: 9, 3: 0, 4: 0, 5: 5}}
        # the walk of main has the procedure's iterator
        shared = head + loop(0, 0, 1, calls(0, marked, 2), calls(1, marked, 2)) + writes + reads
        stops = [[stopped, 9, 1000] for stopped in (3, 4, 5, 7, 13, 40)]
        plain(lines, 1000, **ended)
        for runs in stops:
            plain(lines, *runs)
        for runs in [1000], *stops[:3]:
            plain(shared, *runs)
        for pair in (1, 3), (0, 1), (4, 9):
            choices = written(lines, pair, 1000)
            assert count(reduced(lines, 1000, pair=pair, choices=choices, **ended)[0], "choices") == len(choices)
            for runs in stops:
                reduced(lines, *runs, pair=pair, choices=choices)
            for k in range(0, len(choices), 17):
                reduced(lines, 1000, 5, pair=pair, choices=choices[:k])
                reduced(lines, 1000, 5, pair=pair, choices=choices[:k] + [choices[k] + 1] + choices[k + 1 :])
            for runs in [1000], *stops[:3]:
                reduced(shared, *runs, pair=pair, choices=written(shared, pair, 1000))


def ends_in_procedures():
    """Each end in a procedure, two calls deep and in a loop: the record stays, and the step is taken again where it is continued."""
    nodes = [constant(0), constant(1), constant(BIG), (18, 0, 0, 0), (20, 2, 1, 0), (21, 0, 1, 0)]
    nodes += [variable(5), (19, 6, 0, 0), (20, 6, 1, 0), (19, 8, 0, 0)]
    for row, end in (
        ((35, 3, 0, 0), "assert"),
        ((36, 3, 0, 0), "assume"),
        ((33, 0, 4, 0), "fail reason 1"),
        (returns(5), "fail reason 2"),
        ((33, 0, 7, 0), "fail reason 3"),
        (returns(9), "fail reason 3"),
        (calls(1, 4, 0), "fail reason 1"),
        (calls(1, 7, 3), "fail reason 3"),
        ((37, 5, 2, 0), "room"),
        ((38, 4, 5, 0), "fail reason 2"),
    ):
        rows = [calls(0, 1, 0), *procedure(1, 1, *loop(2, 0, 1, calls(1, 1, 1)), returns(1)), *procedure(3, 2, row)]
        lines = [U, U, U, U, U, P, *nodes, *rows, *([CLOSE] if row[0] == 38 else [])]
        each(lines, 100, 0, expect="steps row 7 steps 0", holds={1: 0, 3: 1})
        each(lines, 100, 2, expect="%s row 7 steps 1" % end, holds={1: 0, 3: 1})
        each(lines, 100, expect="%s row 7 steps 4" % end)
    # the counter of a loop that opened in the procedure
    rows = [calls(0, 1, 0), *procedure(1, 1, *loop(2, 2, 2))]
    each([U, U, U, U, U, P, *nodes, *rows], 100, expect="fail reason 5 row 3 steps 3")
    # the last place of an array that procedure 0 made
    rows = [calls(0, 1, 0), *procedure(1, 1, (37, 5, 1, 0), calls(1, 7, 0), calls(1, 9, 0)), *procedure(3, 2)]
    each([U, U, U, U, U, P, *nodes, *rows], 100, expect="fail reason 4 row 4 steps 5")


def sixteen_procedures():
    """As many procedures as there may be, with one to four locals each, which are not in the order of the procedures; and as many rows."""
    counts = [1, 4, 2, 3, 1, 1, 2, 1, 1, 2, 1, 1, 3, 1, 2, 4]
    firsts = [2 + sum(counts[:k]) for k in range(16)]
    order = [7, 0, 12, 3, 15, 1, 9, 14, 2, 6, 11, 5, 4, 8, 10, 13]
    # each returns its parameter, which is 3, and its last local, the parameter again where it has one
    nodes = [constant(3)] + [variable(firsts[p]) for p in order] + [variable(firsts[p] + counts[p] - 1) for p in order]
    nodes += [(20, 1 + p, 17 + p, 0) for p in range(16)] + [variable(0), variable(1), (20, 49, 50, 0)]
    main = [row for p in range(16) for row in (calls(p, 0, 1), (33, 0, 51, 0))]
    rows = [row for p in range(16) for row in procedure(firsts[order[p]], counts[order[p]], *[SKIP] * (p % 3), returns(33 + p))]
    total = sum(6 if counts[p] == 1 else 3 for p in order)
    lines = [U] * 32 + nodes + main + rows
    each(lines, 1000, expect="done row 32 steps 63", holds={0: total})
    each(lines, 13, 20, 1, 30, 1000, expect="done row 32", holds={0: total})
    # 256 rows: of 16 procedures, each with 14 rows that do nothing
    rows = [calls(p, 0, 0) for p in range(16)] + [row for p in range(16) for row in procedure(1 + p, 1, *[SKIP] * 14)]
    each([U] * 17 + [constant(3), *rows], 1000, expect="done row 16 steps 256", holds={0: 0, 16: 0})
    each([U] * 17 + [constant(3), *rows], 255, 0, 1, expect="done row 16 steps 1")
    # of which the last is a 43, a 44, a 45
    for last, expect in ((43, 1, 1, 0), "done row 1 steps 1"), (returns(0), "done row 1 steps 1"), (calls(0, 0, 0), "deep row 255 steps 1779"):
        rows = [calls(0, 0, 0), *procedure(2, 1, *[SKIP] * 253, last)]
        each([U, U, U, constant(3), *rows], 254, 5000, expect=expect)
        each([U, U, U, constant(3), *rows], 5000, 3, expect="deep row 255 steps 1" if last[0] == 45 else "done row 1 steps 0")


# 15: rows 2 to 7 are a loop with a loop in rows 3 to 5, rows 8 and 9 a loop; variables bool, uint, pointer, marked uint, marked pointer
KEPT = [B, U, P, MU, MP, constant(3), constant(4), constant(0), constant(2), (37, 2, 0, 0), (37, 4, 1, 0)]
KEPT += loop(1, 2, 3, *loop(3, 2, 3, SKIP), SKIP) + loop(1, 3, 3) + [SKIP]


def loops_at(row, *parts):
    """Edits that put a record at a row with open loops (row, start, end)."""
    edits = [(ROW, 0, row), (OPEN, 0, len(parts))]
    for i, (r, start, end) in enumerate(parts):
        edits += [(LOOP_ROW, i, r), (START, i, start), (END, i, end)]
    return edits


def sequence(*arrays):
    """Edits that give a record these arrays (first, length, shape)."""
    edits = [(COUNT, 0, len(arrays))]
    for i, (first, length, shape) in enumerate(arrays):
        edits += [(FIRST, i, first), (LENGTH, i, length), (SHAPE, i, shape)]
    return edits


def record_edits():
    """Edits of the record that stands at row 4 after four steps, in both loops, with a plain array of 3 and the other of 4 cells."""
    outer, inner, last = (2, 0, 2), (3, 0, 2), (8, 2, 2)
    # the row, and the loops around it
    yield from ([(ROW, 0, r)] for r in (0, 2, 3, 4, 5, 6, 7, 8, 9, 11, 12, BIG))
    yield from ([(OPEN, 0, n)] for n in (0, 1, 3, 8, 9, BIG))
    yield from ([(LOOP_ROW, i, r)] for i in (0, 1) for r in (0, 2, 3, 4, 8, 2**31 + 2, BIG))
    yield from ([(ROW, 0, r), (OPEN, 0, n)] for r in (0, 2, 3, 6, 7, 8, 10, 11, 12) for n in (0, 1))
    yield from (loops_at(r, outer, inner) for r in (3, 4, 5, 6))
    yield from (loops_at(r, inner, outer) for r in (4, 5))
    yield from (loops_at(r, outer) for r in (3, 4, 6, 7, 8, 9))
    yield from (loops_at(r, last) for r in (7, 8, 9, 10))
    yield from (loops_at(4, outer, inner, (r, 0, 0)) for r in (2, 3, 4))
    yield loops_at(9, outer, last)
    yield loops_at(4, outer, outer)
    yield loops_at(4, inner, inner)
    # starts and ends
    yield from ([(START, i, v)] for i in (0, 1) for v in (0, 1, 2, 3, BIG))
    yield from ([(END, i, v)] for i in (0, 1) for v in (0, 1, BIG))
    yield from ([(START, i, 2), (END, i, 1)] for i in (0, 1))
    yield from ([(START, i, BIG), (END, i, BIG)] for i in (0, 1))
    # variables: bool, uint, class, pointers, and what is no part of the record
    yield from ([(NUMBER, 0, v)] for v in (0, 1, 2, 256, BIG))
    yield from ([(NUMBER, 1, v)] for v in (0, 7, BIG))
    yield from ([(NUMBER, 3, v)] for v in (0, 1, 2, 3, 4, 5, 6, BIG))
    yield from ([(NUMBER, v, place)] for v in (2, 4) for place in (4, BIG))
    yield from ([(BASE, v, base)] for v in (2, 4) for base in (0, 1, 2, 3, 16, 17, BIG))
    yield [(BASE, 0, 9), (BASE, 1, 9), (BASE, 3, 9), (NUMBER, 5, BIG), (BASE, 5, 9), (NUMBER, 31, BIG), (BASE, 31, BIG)]
    yield [(LOOP_ROW, 2, 9), (START, 7, 9), (END, 7, 1), (FIRST, 2, 9), (LENGTH, 15, BIG), (SHAPE, 15, 1)]
    # arrays
    yield from ([(COUNT, 0, n)] for n in (0, 1, 17, 2**31, BIG))
    yield from ([(COUNT, 0, n), (BASE, 4, 1), (BASE, 2, 1)] for n in (1, 17))
    yield from ([(COUNT, 0, 0), (BASE, 4, 0), (BASE, 2, base)] for base in (0, 1))
    yield from ([(FIRST, 0, v)] for v in (1, 3, BIG))
    yield from ([(FIRST, 1, v)] for v in (0, 2, 4, BIG))
    yield from ([(LENGTH, 0, v)] for v in (2, 4, BIG))
    yield from ([(LENGTH, 0, v), (FIRST, 1, v)] for v in (0, 2, 4, 4091, 4092, 4093, 4123, 4124, 4125, 4128, 4129, BIG))
    yield from ([(LENGTH, 1, v)] for v in (0, 1, 5, 4093, 4094, BIG))
    yield from ([(LENGTH, 1, v), (SHAPE, 1, 0)] for v in (4093, 4094, 4125, 4126, BIG))
    yield from ([(SHAPE, i, v)] for i in (0, 1) for v in (0, 1, 2, 255))
    yield from ([(LENGTH, 0, v), (SHAPE, 0, 1)] for v in (2, 4, 5, BIG))
    yield from ([(LENGTH, 0, v), (SHAPE, 0, 1), (FIRST, 1, n)] for v, n in ((2, 2), (0, 0), (9, 4), (BIG, 4), (9, 9)))
    yield sequence((0, 2**31, 0), (2**31, 2**31, 0), (0, 4, 0))
    yield sequence((0, BIG, 0), (BIG, 1, 0), (0, 4, 0))
    yield from (sequence(*[(min(i, k), int(i < k), 0) for i in range(16)]) for k in (0, 1, 16))
    yield sequence(*[(258 * i, 258, 0) for i in range(16)])
    yield sequence(*[(258 * i, 258 + i // 15, 0) for i in range(16)])
    yield sequence(*[(256 * i, 256, 0) for i in range(16)])
    yield sequence(*[(256 * i, 256 + i // 15, 0) for i in range(16)])
    yield sequence(*[(4 * i, BIG, 1) for i in range(16)])
    yield sequence(*[(0, 0, 0)] * 16) + [(COUNT, 0, 17)]
    # a record at the end
    yield loops_at(11)
    yield loops_at(12)


def records():
    """Each edited record, then the one before it, which a refusal leaves; then with other numbers in the cells."""
    choices = written(KEPT, (1, 3), 1000)
    for edits in record_edits():
        more = [(CELL, 0, 12), (CELL, 4, 13), (CELL, 4095, 14)]
        plain(KEPT, 4, (3, edits), 2, (1000, more))
        reduced(KEPT, 4, (3, edits), 2, (1000, more), choices=choices)
    # a refusal leaves the numbers in the cells
    for edits in [(ROW, 0, 12)], [(COUNT, 0, 17)], [(START, 0, BIG)]:
        plain(KEPT, 4, (3, edits + [(CELL, 0, 12), (CELL, 4095, 14)]), 2)
        reduced(KEPT, 4, (3, edits + [(CELL, 0, 12), (CELL, 4127, 14)]), 2, choices=choices)
    # the classes that hold no number, of each pair; the plain machine holds numbers
    for pair, empty in (
        ((1, 3), ()),
        ((1, BIG - 1), ()),
        ((0, 2), (0,)),
        ((0, BIG - 1), (0,)),
        ((1, 2), (2,)),
        ((BIG - 2, BIG - 1), (2,)),
        ((1, BIG), (4,)),
        ((BIG - 2, BIG), (4,)),
        ((0, 1), (0, 2)),
        ((0, BIG), (0, 4)),
        ((BIG - 1, BIG), (2, 4)),
    ):
        choices = written(KEPT, pair, 1000)
        for held in range(6):
            edits = [(NUMBER, 3, held)]
            out = reduced(KEPT, 4, (100, edits), pair=pair, choices=choices)
            assert out[-1].startswith("refused 15 line 0 ") == (held == 5 or held in empty)
            plain(KEPT, 4, (100, edits), pair=pair, expect="done row 11 steps 29 choices 0")
    # a reduced array takes its cells, those of empty classes too, before the one after it
    for pair, length, size in ((0, 1), 0, 1), ((0, 1), 1, 3), ((0, 1), 2, 4), ((1, 2), 1, 1), ((1, 2), 2, 3), ((1, 2), 3, 4):
        lines = [MP, constant(length), (37, 0, 0, 0), (37, 0, 0, 0), SKIP]
        for first in range(6):
            out = reduced(lines, 2, (1, [(FIRST, 1, first)]), pair=pair)
            assert out[-1].startswith("refused 15 line 0 ") == (first != size)
    # what a run ended with is continued: the row is done again, with the choices that are left
    lines = [MU, B, variable(0), constant(2), (22, 0, 1, 0), (35, 2, 0, 0)]
    for choices in [0, 0], [2, 0], [2, 1, 0], [2, 2, 2]:
        reduced(lines, 10, 10, 10, (10, [(NUMBER, 0, 2)]), pair=(3, 5), choices=choices)


# 15 with callers. Main has a call of procedure 0 in two loops and calls of 1 and 2; procedure 0 (rows 10 to 14, variables 3 and 4) calls 1 in a
# loop, and 2; procedure 1 (rows 16 to 18, variable 5) calls 2; procedure 2 (rows 20 to 23, variables 6 to 9) has a loop. Row 6 would call 0 and
# row 7 would call 1, were they taken for calls, and so would row 17 call 0.
STACKED = [U, U, MU, *[U] * 8, constant(0), constant(1), constant(2), constant(5), variable(3), variable(5), variable(6)]
STACKED += loop(1, 0, 2, *loop(2, 0, 1, calls(0, 3, 0))) + [calls(1, 1, 0), SKIP, (33, 1, 1, 0), calls(2, 2, 10)]
STACKED += procedure(3, 2, *loop(4, 0, 2, calls(1, 4, 3)), calls(2, 4, 4), returns(4))
STACKED += procedure(5, 1, calls(2, 5, 5), SKIP, returns(5))
STACKED += procedure(6, 4, *loop(7, 0, 1, SKIP), (33, 8, 6, 0))
# After seven steps it stands at row 21, in the loop of row 20, with these callers
IN_MAIN, IN_FIRST, IN_SECOND = (2, [], [(0, 0, 2), (1, 0, 1)]), (11, [5, 0], [(10, 0, 2)]), (16, [5], [])


def stack(*callers):
    """Edits that give a record these callers."""
    edits = [(DEPTH, 0, len(callers))]
    for d, caller in enumerate(callers):
        edits += [(STACK, 30 * d + slot, v) for slot, v in caller_words(*caller).items()]
    return edits


def stands(row, *callers, held=(), loops=()):
    """Edits that let a record stand at a row with these callers and open loops, every local 0 but those given."""
    return loops_at(row, *loops) + stack(*callers) + [(NUMBER, v, dict(held).get(v, 0)) for v in range(3, 10)]


def chains():
    """Edits of what a row, or a caller, belongs to; whether 15 refuses them."""
    at_21 = [(20, 0, 1)]
    around = {1: [(0, 0, 2)], 2: IN_MAIN[2], 3: IN_MAIN[2], 4: [(0, 0, 2)], 11: IN_FIRST[2], 12: IN_FIRST[2], 21: at_21, 22: at_21}
    second, third = (5, [], []), (8, [], [])  # main calls procedures 1 and 2
    # with no callers the row is main's, with one it is of the procedure called; past the row count it is nobody's
    for callers, rows in ([], range(10)), ([IN_MAIN], range(10, 16)), ([second], range(16, 20)), ([third], range(20, 25)):
        for row in (*range(26), BIG):
            yield stands(row, *callers, loops=around.get(row, [])), row not in rows
    # the first caller is main's
    for callers, refused in (
        ([third], False),
        ([(16, [7], [])], True),
        ([(13, [1, 2], [])], True),
        ([IN_FIRST, IN_SECOND], True),
        ([IN_SECOND, IN_SECOND], True),
        # each later one is of the procedure that the one before it calls
        ([second, IN_SECOND], False),
        ([second, (13, [0, 0], [])], True),
        ([second, third], True),
        ([IN_MAIN, (13, [3, 4], [])], False),
        ([IN_MAIN, IN_SECOND], True),
        ([IN_MAIN, third], True),
        ([IN_MAIN, IN_FIRST, IN_SECOND], False),
        ([IN_MAIN, (13, [0, 0], []), IN_SECOND], True),
        ([IN_MAIN, IN_FIRST, (13, [0, 0], [])], True),
        ([IN_MAIN, IN_FIRST, third], True),
        ([second, IN_FIRST, IN_SECOND], True),
        ([third, IN_FIRST, IN_SECOND], True),
        ([IN_MAIN, IN_MAIN, IN_FIRST, IN_SECOND], True),
    ):
        yield stands(21, *callers, loops=at_21), refused
    # a caller's row that is no 45: a 32, a 33, a 38, two 39, a 43, the row count, past it; the run stands where the row's operand a would call
    for row, called in (6, 13), (7, 17), (0, 17), (3, 13), (4, 13), (9, 13), (24, 13), (25, 13), (BIG, 13):
        yield stands(called, (row, [], around.get(row, []))), True
        yield stands(21, (row, [], around.get(row, [])), IN_SECOND, loops=at_21), True
    # a later one: a 32, a 44, two 43, the row count, past it; and a 45 that calls another procedure
    for row in (17, 18, 15, 19, 24, BIG, 16):
        yield stands(13, second, (row, [1], [])), True


def kept_loops():
    """Edits of the open loops of callers, and whether 15 refuses them."""
    for d, caller in enumerate((IN_MAIN, IN_FIRST, IN_SECOND)):
        loops = caller[2]
        at = 30 * d
        # fewer, more, others
        for n in 0, 1, 2, 3, 8, 9, 2**31, BIG:
            given = [(STACK, at + 6 + i, 20) for i in range(len(loops), 8)] + [(STACK, at + 14 + i, 0) for i in range(len(loops), 8)]
            yield [(STACK, at + 1, n), *given, *((STACK, at + 22 + i, 1) for i in range(len(loops), 8))], n != len(loops)
        for i, (r, start, end) in enumerate(loops):
            yield from (([(STACK, at + 6 + i, v)], v != r) for v in (0, 1, 2, 10, 11, 20, 2**31 + r, BIG))
            # a start above its end
            yield from (([(STACK, at + 14 + i, v)], v > end) for v in (0, 1, 2, 3, BIG))
            yield from (([(STACK, at + 22 + i, v)], v < start) for v in (0, 1, 2, 9, BIG))
            for v, w in (2, 1), (7, 7), (BIG, BIG), (BIG, BIG - 1), (2**31, 1):
                yield [(STACK, at + 14 + i, v), (STACK, at + 22 + i, w)], v > w
    # the loops of main the other way round; one twice; those of another row of main
    for loops in [(1, 0, 1), (0, 0, 2)], [(0, 0, 2), (0, 0, 2)], [(1, 0, 1), (1, 0, 1)], [(0, 0, 2)], [], [(0, 0, 2), (1, 0, 1), (2, 0, 1)]:
        yield stack((2, [], loops), IN_FIRST, IN_SECOND), True
    # those of the procedure at work
    for edits in [(OPEN, 0, 0)], [(OPEN, 0, 2)], [(LOOP_ROW, 0, 0)], [(LOOP_ROW, 0, 10)], [(START, 0, 2)], [(ROW, 0, 20)], [(ROW, 0, 24)]:
        yield edits, True
    # as many loops as are around, at a row where other loops are, and at one where there are none
    yield stack((2, [], [(20, 0, 2), (10, 0, 1)]), IN_FIRST, IN_SECOND), True
    yield stack(IN_MAIN, (11, [5, 0], [(20, 0, 1)]), IN_SECOND), True
    yield stack(IN_MAIN, (13, [5, 0], [(10, 0, 2)])), True
    yield stack(IN_MAIN, IN_FIRST, (16, [5], [(20, 0, 1)])), True


def kept_locals():
    """Edits of locals, and whether 15 refuses them."""
    # of a procedure that is not at work, also of a caller's: 0 in the variables, any number where they are kept
    yield from (([(NUMBER, v, n)], n != 0) for v in (3, 4, 5) for n in (0, 1, 5, 2**31, BIG))
    yield from (([(NUMBER, v, n)], False) for v in (0, 1, 6, 7, 8, 9, 10) for n in (0, 5, BIG))
    yield from (([(STACK, slot, n)], False) for slot in (32, 33, 62) for n in (0, 1, 7, BIG))
    for row, callers, loops, work in (
        (5, [], [], ()),
        (9, [], [], ()),
        (2, [], IN_MAIN[2], ()),
        (13, [IN_MAIN], [], (3, 4)),
        (15, [IN_MAIN], [], (3, 4)),
        (17, [(5, [], [])], [], (5,)),
        (17, [IN_MAIN, IN_FIRST], [], (5,)),
        (23, [(8, [], [])], [], (6, 7, 8, 9)),
        (24, [(5, [], []), (16, [3], [])], [], (6, 7, 8, 9)),
    ):
        for v in range(3, 10):
            yield stands(row, *callers, loops=loops, held={v: 1}), v not in work
            yield stands(row, *callers, loops=loops, held={v: BIG}), v not in work
        yield stands(row, *callers, loops=loops, held={v: 6 for v in work}), False
        yield stands(row, *callers, loops=loops, held={v: 6 for v in range(3, 10)}), True
    # how many callers
    yield from (([(DEPTH, 0, n)], n != 3) for n in (0, 1, 2, 3, 9, 10, 16, 255, 256, 259, 2**16 + 3, 2**31 + 3, BIG))


def no_part():
    """Edits of words of the stack that are not in use, and of the arrays beside the locals."""
    in_use = {30 * d + slot for d, caller in enumerate((IN_MAIN, IN_FIRST, IN_SECOND)) for slot in caller_words(*caller)}
    unused = [slot for slot in range(240) if slot not in in_use]
    assert len(unused) == 240 - 8 - 7 - 3
    for v in 0, 1, 45, BIG:
        yield [(STACK, slot, v) for slot in unused]
    yield [(STACK, slot, slot) for slot in unused] + [(BASE, v, 9) for v in range(11)]
    yield [(STACK, slot, 9) for slot in (2, 3, 4, 5)]
    yield [(STACK, slot, 9) for slot in (34, 35, 63, 64, 65)]
    yield [(STACK, slot, BIG) for slot in (8, 16, 37, 45, 66, 74)]


def callers_kept():
    """Records with callers: each edited one, then the one before it where it is refused."""
    choices = written(STACKED, (1, 3), 400)
    for edits, refused in [*chains(), *kept_loops(), *kept_locals()]:
        for run, more in (plain, {}), (reduced, {"choices": choices[:20]}):
            out = run(STACKED, 7, (2, edits), 30, **more)
            assert out[1].startswith("refused 15 line 0 ") == refused, (edits, out)
            assert not refused or not out[2].startswith("refused")
    for run, more in (plain, {}), (reduced, {"choices": choices}):
        unchanged = run(STACKED, 7, 3, 30, 300, **more)
        for edits in no_part():
            out = run(STACKED, 7, (3, edits), 30, 300, **more)
            assert out == unchanged
        # kept locals come back as they are kept, and then the result is set, which is 0: to that of procedure 1, to the first of procedure 0
        for slot, expect, held in (
            (62, "steps row 17 steps 6", {5: 0}),
            (32, "steps row 12 steps 8", {3: 0, 4: 0}),
            (33, "steps row 12 steps 8", {3: 0, 4: 77}),
        ):
            run(STACKED, 7, (count(expect, "steps"), [(STACK, slot, 77)]), expect=expect, holds=held, **more)
            run(STACKED, 7, (count(expect, "steps"), [(STACK, slot, 77)]), 300, **more)
        # the loops of a caller, which are longer and shorter then
        for edits in [(STACK, 52, 4)], [(STACK, 44, 2)], [(STACK, 14, 2), (STACK, 22, 3)], [(STACK, 23, 0)], [(STACK, 15, 1)]:
            run(STACKED, 7, (6, edits), 40, 300, **more)


def callers_of_itself():
    """Eight callers: of a procedure that calls itself, any number from 1 to 8 may be kept; each caller is tested."""
    # the procedure has rows 3 to 5 and two locals, and the eighth call of it stands before a ninth
    lines = [U, U, U, constant(5), variable(1), (20, 1, 1, 0), calls(0, 0, 0), SKIP, *procedure(1, 2, (33, 2, 2, 0), calls(0, 1, 2), returns(2))]
    each(lines, 100, expect="deep row 4 steps 17", holds={0: 0, 1: 5, 2: 10})
    for n in (0, 9, 10, 16, 255, 256, 264, 2**31 + 8, BIG):
        each(lines, 100, (100, [(DEPTH, 0, n)]), expect="refused 15 line 0")
    for n in range(1, 9):
        each(lines, 100, (100, [(DEPTH, 0, n)]), expect="deep row 4 steps %d" % (2 * (8 - n) + 1), holds={1: 5, 2: 10})
        # from its return on, which gives 10 each time; and from its end on
        each(lines, 100, (100, [(DEPTH, 0, n), (ROW, 0, 5)]), expect="done row 2 steps %d" % (n + 1), holds={0: 10, 1: 0, 2: 0})
        fallen = "steps row %d steps %d" % (5 if n > 1 else 6, n - 1)
        each(lines, 100, (n - 1, [(DEPTH, 0, n), (ROW, 0, 6), (NUMBER, 1, 4)]), expect=fallen)
    for d in range(8):
        at = 30 * d
        edits = [[(STACK, at, r)] for r in (1, 2, 3, 5, 6, 7, BIG, 0 if d else 4)] + [[(STACK, at + 1, n)] for n in (1, 8, BIG)]
        for edit in edits:
            each(lines, 100, (9, edit), expect="refused 15 line 0")
        # what it kept comes back, and the result over the second; main keeps none
        edits = [(ROW, 0, 5), (STACK, at + 2, 66), (STACK, at + 3, 77)]
        each(lines, 100, (8, edits), expect="steps row 1 steps 8", holds={0: 132 if d == 1 else 10, 1: 0, 2: 0})
        if d > 0:
            each(lines, 100, (8 - d, edits), expect="steps row 5 steps %d" % (8 - d), holds={0: 0, 1: 66, 2: 10})
    # eight loops in each: their rows, starts and ends
    lines = eight_loops(9)
    each(lines, 1000, expect="deep row 159 steps 81")
    for d, i in (0, 0), (0, 7), (1, 3), (3, 0), (6, 4), (7, 0), (7, 7):
        row = (19 * d - 1 if d else 0) + i
        for edit in [(6, row + 1)], [(6, BIG)], [(14, 1)], [(14, 9), (22, 8)]:
            each(lines, 1000, (9, [(STACK, 30 * d + slot + i, v) for slot, v in edit]), expect="refused 15 line 0")
        each(lines, 1000, (9, [(STACK, 30 * d + 14 + i, 8), (STACK, 30 * d + 22 + i, 8)]), expect="deep row 159 steps 1")
        each(lines, 1000, (9, [(STACK, 30 * d + 6 + i, row)]), expect="deep row 159 steps 1")
    for n in 0, 7, 9, BIG:
        for d in 0, 7:
            each(lines, 1000, (9, [(STACK, 30 * d + 1, n)]), expect="refused 15 line 0")


def refusals():
    """Sizes of the cells, refused tables, and which refusal comes first."""
    row = (ROW, 0, 99)
    for machine, lines in (PLAIN, T), (REDUCED, Table(T).reduced().lines):
        size = CELLS[machine]
        for lent in 0, 1, size - 1, size + 1, CELLS[1 - machine], 4112, 4200:
            case(machine, lines, [10, (10, [row])], lent=lent, expect="refused 14 line 0")
        case(machine, lines, [0, (10, [row]), 10], choices=written(T, (1, 3), 10))
        spoiled = [w for line in lines for w in line]
        case(machine, lines, [10, (10, [row])], words=spoiled[:-1], refusal=(4, 0), pair=(3, 1), lent=9)
        for pair, lent in ((1, 3), size), ((3, 1), size), ((3, 1), 9):
            more = {"pair": pair, "lent": lent}
            case(machine, lines + [(31, 0, 0, 0)], [10, (10, [row])], refusal=(5, 16), **more)
            case(machine, lines + [CLOSE], [10, (10, [row])], refusal=(11, 16), **more)
            case(machine, [U, constant(1)] + [(38, 0, 0, 0)] * 9 + [CLOSE] * 9, [10], refusal=(11, 10), **more)
            case(machine, [MU, constant(1), (33, 0, 0, 0)], [10], refusal=(12, 2), **more)
            case(machine, [constant(0)] + [(20, i, i, 0) for i in range(12)], [10], refusal=(10, 12), **more)
            case(machine, [P, variable(0), (35, 0, 0, 0)], [10], refusal=(9, 2), **more)
            case(machine, [U, (16, 1, 0, 0)], [10], refusal=(8, 1), **more)
            case(machine, [U, (16, 0, 1, 0)], [10], refusal=(7, 1), **more)
            case(machine, [U] * 33, [10], refusal=(6, 32), **more)
    # each machine takes its own tables, the reduced one no kind that the reduction would not give
    case(PLAIN, Table(T).reduced().lines, [10], refusal=(5, 6))
    case(REDUCED, T, [10], refusal=(5, 9))
    case(REDUCED, [MU, variable(0)], [10], refusal=(12, 1))
    case(REDUCED, [U, (27, 0, 0, 0)], [10], refusal=(12, 1))
    case(REDUCED, [MP, constant(1), (37, 0, 0, 0)], [10], refusal=(12, 2), lent=9)
    case(REDUCED, [P, constant(1), (41, 0, 0, 0)], [10], refusal=(12, 2), pair=(3, 3))
    case(REDUCED, [MU, constant(1), (38, 0, 0, 0), CLOSE], [10], refusal=(12, 2))
    case(REDUCED, [U, constant(1), (42, 0, 0, 0), CLOSE], [10], refusal=(12, 2))
    # the pair is for the reduced machine alone, and comes before the size
    for pair in (0, 0), (1, 1), (2, 1), (2, 2), (3, 1), (BIG, 0), (BIG, BIG), (BIG, BIG - 1), (BIG, 1):
        plain(T, 100, pair=pair)
        reduced(T, 100, (100, [row]), pair=pair, expect="refused 13 line 0")
        reduced(T, 100, (100, [row]), pair=pair, lent=4127, expect="refused 13 line 0")
    for pair in (0, 2), (BIG - 2, BIG), (0, BIG), (0, 1), (1, 2), (4, 5), (BIG - 1, BIG):
        reduced(T, 100, pair=pair, choices=written(T, pair, 100), expect="done row 5 steps 17")


# A line of each kind that passes after these declarations, and these nodes in a node or row
DECLARED = [B, U, MU, P, MP]
LEAVES = [(18, 1, 0, 0), constant(1), variable(3)]
BOOL_NODE, UINT_NODE, POINTER_NODE = 0, 1, 2
NODES = {16: (1, 0, 0), 17: (9, 0, 0), 18: (1, 0, 0), 19: (2, 0, 0), 25: (0, 1, 1), 26: (2, 0, 0), 27: (2, 0, 0), 28: (2, 0, 0), 29: (2, 0, 0)}
NODES.update({kind: (1, 1, 0) for kind in range(20, 25)})
ROWS = {32: (0, 0, 0), 33: (1, 1, 0), 34: (2, 1, 0), 35: (0, 0, 0), 36: (0, 0, 0), 37: (3, 1, 0), 38: (1, 1, 1), 39: (0, 0, 0)}
ROWS.update({40: (2, 1, 0), 41: (4, 1, 0), 42: (2, 1, 1)})
LINES = {1: (0, 0, 0), 2: (1, 0, 0), 3: (1, 0, 0), **NODES, **ROWS}
# How many of the operands a, b, c name a variable or a node; the first of VARIABLES' is a variable
NAMED = {1: 0, 2: 0, 3: 0, 16: 1, 17: 0, 18: 0, 19: 1, 25: 3, 26: 1, 27: 1, 28: 1, 29: 1, 32: 0, 35: 1, 36: 1, 38: 3, 39: 0, 42: 3}
NAMED.update({kind: 2 for kind in (20, 21, 22, 23, 24, 33, 34, 37, 40, 41)})
VARIABLES = (16, 27, 33, 37, 38, 41, 42)
REDUCED_ONLY = (27, 28, 29, 40, 41, 42)


def with_line(kind, operands, leaves=LEAVES):
    """A table with a line of a kind in the place of its sort, and the number of that line."""
    line = (kind, *operands)
    if kind < 16:
        return DECLARED + [line] + leaves, len(DECLARED)
    before = DECLARED + leaves + ([(38, 1, UINT_NODE, UINT_NODE)] if kind == 39 else [])
    return before + [line] + ([CLOSE] if kind in (38, 42) else []), len(before)


def refused_line(number, kind, operands, leaves=LEAVES, machine=None):
    machine = (REDUCED if kind in REDUCED_ONLY else PLAIN) if machine is None else machine
    lines, place = with_line(kind, operands, leaves)
    case(machine, lines, [1], refusal=(number, place))


def changed(operands, at, v):
    return operands[:at] + (v,) + operands[at + 1 :]


def chain(depth):
    """Nodes in which the last three have a depth: a bool, a uint, a pointer."""
    nodes = list(LEAVES)
    for i in range(0, 3 * depth - 3, 3):
        nodes += [(25, i, i, i), (20, i + 1, i + 1, 0), (20, i + 2, UINT_NODE, 0)]
    return nodes


def refused_lines():
    """Each check of a line, for each kind and operand, and unknown kinds."""
    for kind, good in LINES.items():
        for at in range(NAMED[kind], 3):
            if (kind, at) != (17, 0):
                refused_line(7, kind, changed(good, at, 2 if (kind, at) in ((2, 0), (3, 0), (18, 0)) else 1))
        for at in range(NAMED[kind]):
            variable_there = kind in VARIABLES and at == 0
            refused_line(8, kind, changed(good, at, len(DECLARED) if variable_there else len(LEAVES)))
            # another type
            others = [n for n in (BOOL_NODE, UINT_NODE, POINTER_NODE) if n != good[at] and (kind, at, n) not in ((20, 0, 2), (21, 0, 2))]
            if variable_there:
                others = [v for v in (0, 1, 3) if DECLARED[v][0] != DECLARED[good[at]][0] and kind not in (16, 27)]
            for v in others:
                refused_line(9, kind, changed(good, at, v))
            if 19 <= kind <= 29 and kind != 27:
                deep = chain(12)
                refused_line(10, kind, changed(good, at, len(deep) - 3 + good[at]), deep)
    for kind in (20, 21):
        for v in (BOOL_NODE, POINTER_NODE):
            refused_line(9, kind, (POINTER_NODE, v, 0))
    for kind in (22, 23, 24):
        for v in (BOOL_NODE, POINTER_NODE):
            refused_line(9, kind, (v, v, 0))
    for v, w in (0, 1), (0, 2), (2, 0), (2, 1):
        refused_line(9, 25, (BOOL_NODE, v, w))
    for v, w in (0, 1), (0, 2), (3, 0), (3, 1):
        refused_line(9, 33, (v, w, 0))
    # a kind in a table of the other sort, and kinds of no sort
    none = (0, 4, 15, 30, 31, 46, 2**31 + 17, BIG)
    for machine, kinds in (PLAIN, (*REDUCED_ONLY, *none)), (REDUCED, (19, 26, 34, *none)):
        for kind in kinds:
            refused_line(5, kind, LINES.get(kind, (0, 0, 0)), machine=machine)
    # 27 has the type of its variable
    case(REDUCED, [B, (27, 0, 0, 0), (35, 0, 0, 0)], [1], refusal=(12, 1))
    case(REDUCED, [MP, (27, 0, 0, 0), constant(1), (40, 0, 1, 0)], [1], refusal=(12, 1))


def refused_twice():
    """Two lines that break a check, and two checks that are broken: the first line, and the smaller number."""
    bad = {7: (16, 0, 1, 0), 8: (16, 9, 0, 0), 9: (19, 0, 0, 0), 12: (33, 2, 1, 0)}
    for number, line in bad.items():
        lines = DECLARED + LEAVES + [line]
        case(PLAIN, lines + [line], [1], refusal=(number, len(lines) - 1))
    case(PLAIN, [U] * 33 + [(31, 0, 0, 0)], [1], refusal=(5, 33))
    case(PLAIN, [U] * 35 + [(2, 2, 0, 0)], [1], refusal=(6, 32))
    case(PLAIN, [U, SKIP, U], [1], refusal=(5, 2))
    case(PLAIN, [U, SKIP, U, constant(1)], [1], refusal=(5, 2))
    deep = DECLARED + chain(13)
    place = len(deep) - 3
    case(PLAIN, deep, [1], refusal=(10, place))
    case(PLAIN, deep + [CLOSE, (33, 2, 1, 0)], [1], refusal=(10, place))
    case(PLAIN, deep + [(33, 0, 1, 0)], [1], refusal=(9, len(deep)))
    ends = DECLARED + LEAVES + [SKIP, CLOSE, (38, 1, 1, 1)]
    case(PLAIN, ends, [1], refusal=(11, len(ends) - 2))
    case(PLAIN, ends + [(33, 2, 1, 0)], [1], refusal=(11, len(ends) - 2))
    case(PLAIN, [(33, 0, 0, 0), CLOSE], [1], refusal=(8, 0))
    for cut in 1, 2, 3:
        words = [w for line in T for w in line][:-cut]
        case(PLAIN, T, [1], words=words, refusal=(4, 0))


# 17: tables of variables 0 to 6, of which 5 is a pointer and 6 a bool; nodes 0 to 2 are numbers, 3 to 7 read variables 0 to 4, 8 reads the
# pointer, 9 the bool
LISTED = [U, U, U, U, U, P, B, constant(0), constant(1), constant(2), *(variable(v) for v in range(7))]
OWN = 3  # the node of variable 0


def both_refuse(lines, number, place):
    """Both machines refuse a table, the reduced one also with a pair that 13 refuses; place counts from the first row on."""
    refusal = (number, len(lines) - len(Table(lines).rows) + place)
    case(PLAIN, lines, [100], refusal=refusal)
    case(REDUCED, Table(lines).reduced().lines, [100], pair=(3, 1), refusal=refusal)


def refused_calls():
    """17 of rows 45 and 44: a number that no procedure has, a marked variable, a return in main."""
    two = procedure(1, 1) + procedure(2, 1)
    for p, rows in (0, []), (1, procedure(1, 1)), (2, two), (16, two), (2**16 + 1, two), (2**31, two), (BIG, two):
        both_refuse(LISTED + [calls(p, 0, 0), *rows], 17, 0)
        both_refuse(LISTED + [SKIP, SKIP, calls(p, 0, 0), *rows], 17, 2)
    both_refuse(LISTED + [SKIP, *procedure(1, 1, calls(1, 0, 0))], 17, 2)
    both_refuse(LISTED + [*two, SKIP, calls(2, 0, 0)], 17, 3)
    # the first of two, also where no run comes to it
    both_refuse(LISTED + [calls(0, 0, 0), calls(1, 0, 0), *procedure(1, 1, calls(9, 0, 0))], 17, 1)
    both_refuse([U, (18, 0, 0, 0), constant(0), (35, 0, 0, 0), calls(0, 1, 0)], 17, 1)
    # the variable that gets the result is marked: never 12
    for declarations in [MU, U, U], [U, MU, U]:
        marked = declarations.index(MU)
        lines = [*declarations, constant(0), constant(1)]
        both_refuse(lines + [calls(0, 0, marked), *procedure(2, 1)], 17, 0)
        both_refuse(lines + [calls(0, 0, 1 - marked), *procedure(2, 1, calls(0, 0, marked))], 17, 2)
        both_refuse(lines + [*loop(marked, 0, 1, calls(0, 0, marked)), *procedure(2, 1)], 17, 1)
        both_refuse(lines + [calls(0, 0, marked), (33, marked, 0, 0), *procedure(2, 1)], 12, 1)
    # a return in main, before a 43 and with none
    for rows, place in (
        ([returns(0)], 0),
        ([SKIP, returns(0), returns(0)], 1),
        ([returns(0), *two], 0),
        ([SKIP, *loop(0, 0, 1, returns(0)), *two], 2),
        ([calls(0, 0, 0), returns(OWN), *procedure(1, 1, returns(OWN))], 1),
    ):
        both_refuse(LISTED + rows, 17, place)


def refused_openings():
    """17 of rows 43: one too many, one in a loop, a count that is not 1 to 4, a local that is marked or an earlier 43's."""
    for n in 17, 18, 25:
        lines = [U] * 26 + [constant(0), variable(25)]
        opened = [row for k in range(n) for row in procedure(k, 1)]
        both_refuse(lines + opened, 17, 16)
        # a call of the seventeenth is no fault of its own, one of a number that none has is; so is an earlier row
        both_refuse(lines + [calls(16, 0, 25), *opened], 17, 17)
        both_refuse(lines + [calls(n - 1, 0, 25), *opened], 17, 17)
        both_refuse(lines + [calls(n, 0, 25), *opened], 17, 0)
        both_refuse(lines + [calls(15, 0, 25), returns(0), *opened], 17, 1)
        # and so is a use of its local
        both_refuse(lines + [(33, 16, 0, 0), *opened], 17, 0)
        both_refuse(lines + [*opened[:16], calls(0, 0, 16), *opened[16:]], 17, 16)
    for opens in 38, 42:
        declared = [U if opens == 38 else MU, U, U, U, constant(0)]
        rows = [(opens, 0, 0, 0)]
        for machine in (PLAIN, REDUCED) if opens == 38 else (REDUCED,):
            for given, place in (
                ([*rows, *procedure(1, 1), CLOSE], 1),
                ([*rows, SKIP, *procedure(1, 1), SKIP, CLOSE], 2),
                ([*rows, CLOSE, *procedure(1, 1), *rows, *procedure(2, 1), CLOSE], 4),
                ([(38, 3, 0, 0), *rows, *procedure(1, 1), CLOSE, *procedure(2, 1), CLOSE], 2),
                ([(38, 3, 0, 0), *rows, CLOSE, *procedure(1, 1), CLOSE], 3),
                # 16 compares no loop with one from before the 43
                ([*rows, *procedure(1, 1), *rows, CLOSE, CLOSE], 1),
                ([(38, 3, 0, 0), *rows, *procedure(1, 1), (38, 3, 0, 0), *rows, CLOSE, CLOSE, CLOSE, CLOSE], 2),
                ([*rows, *procedure(1, 1), CLOSE, *rows, CLOSE], 1),
            ):
                case(machine, declared + given, [100], refusal=(17, 5 + place))
    # counts, in tables that have so many uints, and of none at a place where none is
    for b in 0, 5, 6:
        both_refuse([U] * 8 + [constant(0), SKIP, *procedure(1, b), SKIP], 17, 1)
    both_refuse([U] * 32 + [constant(0), SKIP, *procedure(0, 32), SKIP], 17, 1)
    for a in 0, 5, 6, 7, 99, 2**31, BIG:
        both_refuse(LISTED + [SKIP, *procedure(a, 0)], 17, 1)
    both_refuse(LISTED + [SKIP, *procedure(0, 4), *procedure(0, 0)], 17, 2)
    # a local that is marked, each of four; the variables around them may be
    each([MU, U, U, U, U, MU, constant(0), SKIP, *procedure(1, 4)], 9, expect="done row 1 steps 1")
    for k in range(4):
        declared = [MU if v == 1 + k else U for v in range(6)]
        both_refuse(declared + [constant(0), SKIP, *procedure(1, 4)], 17, 1)
        both_refuse(declared + [constant(0), SKIP, *procedure(0, 1), *procedure(1 + k, 1)], 17, 2)
    # a local of an earlier 43: the same, one of several, the last, the first
    for first, second in ((1, 1), (1, 1)), ((1, 4), (1, 4)), ((1, 4), (4, 1)), ((1, 4), (1, 1)), ((2, 2), (1, 2)), ((1, 2), (2, 2)), ((2, 1), (1, 3)):
        both_refuse(LISTED + [*procedure(*first), SKIP, *procedure(*second)], 17, 2)
        both_refuse(LISTED + [*procedure(0, 1), *procedure(*first), *procedure(*second), *procedure(0, 1)], 17, 2)
    # it stays the first one's
    both_refuse(LISTED + [*procedure(1, 2, (33, 2, 0, 0)), *procedure(2, 2, (33, 2, 0, 0))], 17, 2)
    both_refuse(LISTED + [calls(0, 0, 0), *procedure(1, 1, (33, 2, 0, 0)), *procedure(2, 1), *procedure(2, 1)], 17, 2)


def refused_uses():
    """17 of rows that use a local of a procedure where they do not stand; a node under no row, and one in both places, are no such use."""
    local = OWN + 3  # the node of variable 3
    below = len(LISTED) - 7  # and one above it
    nodes = [(20, local, 0, 0), (25, 9, 0, below), (25, 9, below, 0), (20, 8, below, 0), (19, 13, 0, 0), (26, 13, 0, 0), (24, below, 0, 0)]
    nodes += [(25, 16, 0, 1), (20, 17, 17, 0), (20, 18, 0, 0), (20, 19, 1, 0), (22, 0, 20, 0), (23, 1, below, 0), (21, 8, local, 0)]
    nodes += [(18, 1, 0, 0), (25, 24, 24, 22)]
    lines = LISTED + nodes
    uints, bools, pointers = (local, below, 11, 12, 14, 17, 19, 20), (16, 21, 22, 15, 25), (13, 23)
    rows = [(33, 3, 0, 0), (38, 3, 0, 1), calls(0, 0, 3)]
    rows += [(33, 0, n, 0) for n in uints] + [(34, 8, n, 0) for n in uints[:3]] + [(34, n, 0, 0) for n in pointers]
    rows += [(33, 5, n, 0) for n in pointers]
    rows += [(k, n, 0, 0) for k in (35, 36) for n in bools] + [(33, 6, n, 0) for n in bools[:2]] + [(37, 5, n, 0) for n in uints[:4]]
    rows += [(38, 0, n, 1) for n in uints[:3]] + [(38, 0, 1, n) for n in uints[:4]] + [calls(0, n, 0) for n in uints]
    for row in rows:
        shut = [CLOSE] if row[0] == 38 else []
        # in main, before the 43 that lists it; in the procedure before it, and after it
        both_refuse(lines + [SKIP, row, *shut, *procedure(1, 1), *procedure(3, 2)], 17, 1)
        both_refuse(lines + [SKIP, *procedure(1, 1, row, *shut), *procedure(3, 2)], 17, 2)
        both_refuse(lines + [SKIP, *procedure(3, 2, SKIP), *procedure(1, 1, SKIP, row, *shut)], 17, 5)
        # in its own procedure it passes, and so do the nodes, which no row of main uses
        case(PLAIN, lines + [SKIP, *procedure(3, 2, row, *shut), *procedure(1, 1)], [5], expect="done row 1 steps 1")
    for n in uints:
        both_refuse(lines + [SKIP, *procedure(1, 1, SKIP, returns(n)), *procedure(3, 2)], 17, 3)
        both_refuse(lines + [SKIP, *procedure(3, 2, returns(n)), *procedure(1, 1, returns(n))], 17, 4)
    both_refuse(LISTED + [SKIP, *procedure(1, 1, returns(OWN + 1)), *procedure(3, 1, returns(OWN + 3), returns(OWN + 1))], 17, 5)
    # the row is where the 45 stands: the result goes to no local of the one that is called, unless it calls itself
    for c in 1, 2:
        both_refuse(LISTED + [calls(0, 0, c), *procedure(1, 2)], 17, 0)
        both_refuse(LISTED + [calls(0, 0, 0), *procedure(3, 1, calls(1, 0, c)), *procedure(1, 2)], 17, 2)
        each(LISTED + [calls(0, 0, 0), *procedure(1, 2, calls(0, 0, c))], 50, expect="deep row 2 steps 9")
        each(LISTED + [calls(0, 0, 0), *procedure(1, 2, calls(1, 0, c)), *procedure(3, 1)], 50, expect="done row 1 steps 4")
        both_refuse(LISTED + [calls(0, 0, 0), *procedure(1, 2, calls(1, 0, 3)), *procedure(3, 1)], 17, 2)
        both_refuse(LISTED + [calls(0, OWN + c, 0), *procedure(1, 2)], 17, 0)
    # the locals of a 43 whose count is wrong: all that it lists
    for v in range(5):
        both_refuse(LISTED + [SKIP, (33, v, 0, 0), SKIP, *procedure(0, 5)], 17, 1)
        both_refuse([U] * 6 + [constant(0), variable(v), (33, 5, 1, 0), *procedure(0, 5)], 17, 0)
    both_refuse([U] * 6 + [constant(0), (33, 5, 0, 0), *procedure(0, 5)], 17, 1)
    # and a marked one, by the iterator of main's loop; and where the reading is a choice
    for rows, place in (loop(1, 0, 0), 0), ([(33, 0, 1, 0)], 0), (loop(2, 0, 0), 2):
        both_refuse([U, MU, U, constant(0), variable(1), *rows, *procedure(1, 1)], 17, place)
    # a global that no 43 lists, in any place; a marked global, its loop and its reading
    lines = [U, MU, U, constant(0), variable(0), variable(1), variable(2)]
    for row in (33, 0, 1, 0), (33, 0, 2, 0), calls(0, 1, 0), calls(0, 2, 0):
        plain(lines + [row, *procedure(2, 1, row, (33, 0, 3, 0), returns(3))], 50)
        reduced(lines + [row, *procedure(2, 1, row, (33, 0, 3, 0), returns(3))], 50, choices=[0] * 40)
    both(lines + [*loop(1, 0, 0, calls(0, 0, 0)), *procedure(2, 1, *loop(1, 0, 0, (33, 0, 2, 0)))], 50, expect="done row 3")


def refused_in_order():
    """17 after 16, 12 and the others, before 13; 7, 8 and 9 of 43, 44 and 45; 5, 6 and 11 where there are procedures."""
    in_main = [returns(0)]
    shared = loop(0, 0, 0, *loop(0, 0, 0))
    for machine, own in (PLAIN, LISTED), (REDUCED, Table(LISTED).reduced().lines):
        for pair, lent in ((1, 3), CELLS[machine]), ((3, 1), CELLS[machine]), ((1, 3), 9), ((3, 1), 9):
            for rows in in_main, [calls(0, 0, 0)], procedure(1, 0), [(33, 1, 0, 0), *procedure(1, 1)]:
                case(machine, own + rows, [100, (10, [(ROW, 0, 999), (DEPTH, 0, 9)])], pair=pair, lent=lent, refusal=(17, len(own)))
    both_refuse(LISTED + in_main + shared, 16, 2)
    both_refuse(LISTED + in_main + procedure(1, 1, *shared), 16, 3)
    both_refuse(LISTED + loop(0, 0, 0) + procedure(1, 1, *loop(0, 0, 0)) + procedure(2, 1, SKIP, *shared), 16, 8)
    both_refuse(LISTED + procedure(1, 1, *loop(1, 0, 0, *loop(0, 0, 0, *loop(1, 0, 0)))), 16, 3)
    both_refuse(LISTED + in_main + [CLOSE], 11, 1)
    both_refuse([MU, U, constant(0), *in_main, (33, 0, 0, 0)], 12, 1)
    both_refuse([MU, U, constant(0), *in_main, *procedure(1, 1, (33, 0, 0, 0))], 12, 2)
    both_refuse(LISTED + in_main + [(33, 0, 9, 0)], 9, 1)
    both_refuse(LISTED + in_main + [(33, 0, 10, 0)], 8, 1)
    both_refuse(LISTED + in_main + [(39, 1, 0, 0)], 7, 1)
    # 11 goes across a 43: never closed, and nine in all
    both_refuse(LISTED + [(38, 0, 0, 0), *procedure(1, 1)], 11, 0)
    both_refuse(LISTED + [SKIP, *procedure(1, 1, CLOSE)], 11, 2)
    both_refuse(LISTED + [SKIP, *procedure(1, 1, (38, 1, 0, 0)), *procedure(2, 1, SKIP)], 11, 2)
    nine = [U] * 12 + [constant(0)]
    rows = [(38, v, 0, 0) for v in range(5)] + procedure(9, 1) + [(38, v, 0, 0) for v in range(5, 9)] + [CLOSE] * 9
    both_refuse(nine + rows, 11, 9)
    both_refuse(nine + rows[:9] + [CLOSE] * 8, 17, 5)
    # operands with no role; one of 43 alone, two of 44, none of 45
    both_refuse(LISTED + [SKIP, (43, 1, 1, 1)], 7, 1)
    both_refuse(LISTED + [SKIP, (43, 1, 0, BIG)], 7, 1)
    for b, c in (1, 0), (0, 1), (BIG, 0), (0, BIG):
        both_refuse(LISTED + [*procedure(1, 1), (44, 0, b, c)], 7, 1)
        both_refuse(LISTED + [(44, 0, b, c), *procedure(1, 1)], 7, 0)
    # locals that are not there, in whole numbers
    for a, b in (7, 1), (6, 2), (5, 3), (4, 4), (99, 1), (BIG, 1), (BIG, 2), (2**31, 2**31), (BIG, BIG), (0, BIG), (7, BIG - 6), (2, BIG - 1), (0, 8):
        both_refuse(LISTED + [SKIP, *procedure(a, b)], 8, 1)
    both_refuse([U] * 4 + [constant(0), SKIP, *procedure(0, 5)], 8, 1)
    both_refuse([U] * 4 + [constant(0), SKIP, *procedure(4, 1)], 8, 1)
    both_refuse([constant(0), SKIP, *procedure(0, 1)], 8, 1)
    each([U] * 4 + [constant(0), SKIP, *procedure(0, 4)], 9, expect="done row 1 steps 1")
    each([U] * 4 + [constant(0), SKIP, *procedure(3, 1)], 9, expect="done row 1 steps 1")
    # nodes and variables that are not there
    for n in 10, 11, BIG:
        both_refuse(LISTED + [SKIP, *procedure(1, 1), returns(n)], 8, 2)
        both_refuse(LISTED + [SKIP, calls(0, n, 0), *procedure(1, 1)], 8, 1)
    for v in 7, 8, BIG:
        both_refuse(LISTED + [SKIP, calls(0, 0, v), *procedure(1, 1)], 8, 1)
    # other types: each local, the node of 44, the node and the variable of 45
    for declaration in B, P, MP:
        for k in range(4):
            declared = [declaration if v == 1 + k else U for v in range(6)]
            both_refuse(declared + [constant(0), SKIP, *procedure(1, 4)], 9, 1)
            both_refuse(declared + [constant(0), SKIP, *procedure(1 + k, 1)], 9, 1)
            both_refuse(declared + [constant(0), SKIP, *procedure(1, 5)], 9, 1)
        both_refuse([declaration, U, constant(0), variable(0), SKIP, *procedure(1, 1), returns(1)], 9, 2)
        both_refuse([declaration, U, constant(0), variable(0), SKIP, calls(0, 1, 1), *procedure(1, 1)], 9, 1)
        both_refuse([declaration, U, constant(0), variable(0), SKIP, calls(0, 0, 0), *procedure(1, 1)], 9, 1)
    # a number of a procedure and a count are no variables and no nodes
    each([U, U, constant(0), calls(0, 0, 0), *procedure(1, 1)], 9, expect="done row 1 steps 2")
    both_refuse([U, U, constant(0), calls(1, 0, 0), *procedure(1, 1)], 17, 0)
    both_refuse([U, U, constant(0), calls(7, 0, 0), *procedure(1, 1)], 17, 0)
    # the 257th row; a kind after these
    for row in (43, 1, 1, 0), returns(0), calls(0, 0, 0):
        both_refuse(LISTED + [SKIP] * 256 + [row], 6, 256)
    for kind in 46, 47, 63, 2**31 + 43:
        both_refuse(LISTED + [SKIP, (kind, 0, 0, 0)], 5, 1)


class Shuffled:
    """A pseudo-random table that passes: arrays first, then rows of all kinds with loops up to three deep; then so many procedures."""

    def __init__(self, pick, procedures=0):
        self.pick = pick
        self.declarations = [MU, U, MP, P, B, MU, U, MP, P][: pick.randint(4, 9)]
        self.nodes, self.known, self.rows = [], [], []  # known: type, depth and home of each node
        self.procedures, self.home, self.owners = procedures, None, {}
        for v, (kind, _, _, _) in enumerate(self.declarations):
            self.add(kind, 16, v)
        for n in pick.sample(range(9), 4):
            self.add(UINT, 17, n)
        self.add(BOOL, 18, pick.randint(0, 1))
        for _ in range(pick.randint(10, 40)):
            self.grow()
        for v, (kind, _, _, _) in enumerate(self.declarations):
            if kind == POINTER and pick.random() < 0.9:
                self.rows.append((37, v, self.leaf(), 0))
        self.block(pick.randint(4, 14), [])
        for p in range(procedures):
            self.add_procedure(p)
        self.lines = self.declarations + self.nodes + self.rows

    def add_procedure(self, p):
        """One to four locals, nodes that read them, and rows."""
        first, count = len(self.declarations), self.pick.randint(1, 4)
        self.home = p
        self.declarations += [U] * count
        for v in range(first, first + count):
            self.owners[v] = p
            self.add(UINT, 16, v)
        for _ in range(self.pick.randint(2, 8)):
            self.grow()
        self.rows.append((43, first, count, 0))
        self.block(self.pick.randint(0, 7), [])

    def usable(self, v):
        return self.owners.get(v) in (None, self.home)

    def add(self, kind, node, *operands):
        leaf = node in (16, 17, 18)
        depth = 1 if leaf else 1 + max(self.known[i][1] for i in operands)
        own = node == 16 and operands[0] in self.owners or not leaf and any(self.known[i][2] is not None for i in operands)
        self.nodes.append((node, *operands) + (0,) * (3 - len(operands)))
        self.known.append((kind, depth, self.home if own else None))

    def node(self, kind):
        """A node of a type, a late one more often than not."""
        found = [i for i, (k, depth, home) in enumerate(self.known) if k == kind and depth < 6 and home in (None, self.home)]
        return self.pick.choice(found[-6:] if self.pick.random() < 0.6 else found)

    def leaf(self):
        return self.pick.choice([i for i, node in enumerate(self.nodes) if node[0] == 17])

    def grow(self):
        p = self.node(POINTER)
        form = self.pick.randrange(9)
        if form == 0:
            self.add(UINT, self.pick.choice([20, 20, 21]), self.node(UINT), self.node(UINT))
        elif form in (1, 2):
            self.add(POINTER, self.pick.choice([20, 20, 20, 21]), p, self.node(UINT))
        elif form == 3:
            self.add(BOOL, self.pick.choice([22, 23, 24]), self.node(UINT), self.node(UINT))
        elif form == 4:
            kind = self.pick.choice([BOOL, UINT, POINTER])
            self.add(kind, 25, self.node(BOOL), self.node(kind), self.node(kind))
        elif form == 5:
            self.add(UINT, 19, p)
        else:  # the cell where there is one
            self.add(BOOL, 26, p)
            self.add(UINT, 19, p)
            self.add(UINT, 25, len(self.nodes) - 2, len(self.nodes) - 1, self.leaf())

    def variable(self, *declared):
        return self.pick.choice([v for v, d in enumerate(self.declarations) if d in declared and self.usable(v)])

    def free(self, around):
        """The uints that are no iterator of a loop around."""
        return [v for v, (kind, _, _, _) in enumerate(self.declarations) if kind == UINT and v not in around and self.usable(v)]

    def called(self):
        """The number of a procedure, more often than not one after this."""
        later = 0 if self.home is None else self.home + 1
        return self.pick.randrange(later if later < self.procedures and self.pick.random() < 0.7 else 0, self.procedures)

    def block(self, n, around):
        """Rows, in loops with these iterators."""
        for _ in range(n):
            kinds = [32, 33, 33, 33, 34, 34, 35, 36, 37, 38, 38, 38]
            kind = self.pick.choice(kinds + [44, 45, 45, 45, 45] if self.procedures else kinds)
            if kind == 33:
                v = self.variable(U, P, MP, B)
                self.rows.append((33, v, self.node(self.declarations[v][0]), 0))
            elif kind == 34:
                self.rows.append((34, self.node(POINTER), self.node(UINT), 0))
            elif kind in (35, 36) and self.pick.random() < 0.4:
                self.rows.append((kind, self.node(BOOL), 0, 0))
            elif kind == 37 and self.pick.random() < 0.4:
                self.rows.append((37, self.variable(P, MP), self.node(UINT), 0))
            elif kind == 38 and len(around) < 3 and (free := self.free(around)):
                end = self.leaf() if self.pick.random() < 0.8 else self.node(UINT)
                iterator = self.pick.choice(free)
                self.rows.append((38, iterator, self.leaf(), end))
                self.block(self.pick.randint(1, 4), [*around, iterator])
                self.rows.append(CLOSE)
            elif kind == 44 and self.home is not None:
                self.rows.append((44, self.node(UINT), 0, 0))
            elif kind == 45:
                self.rows.append((45, self.called(), self.node(UINT), self.variable(U)))
            else:
                self.rows.append(SKIP)


def worth(pick, lines, limit):
    """Whether a plain run goes on for a while; some that don't are let through."""
    machine = Machine(Table(lines), [0] * CELLS[PLAIN])
    return machine.run(machine.fresh(), limit)[1] > 12 or pick.random() < 0.1


def shuffled(tables, seed, pairs, procedures=0):
    """Plain runs whole and in parts; reduced runs under the true choices, damaged ones and too few. How many plain runs had which end."""
    pick = random.Random(seed)
    tally = {}
    while sum(tally.values()) < tables:
        lines = Shuffled(pick, procedures and pick.randint(1, procedures)).lines
        pair = pick.choice(pairs)
        limit = pick.choice([20, 60, 200])
        choices = written(lines, pair, limit)
        if len(choices) > 800 or not worth(pick, lines, limit):
            continue
        parts = [pick.randint(0, limit // 3), pick.randint(0, limit // 2)]
        whole = plain(lines, limit)[0]
        plain(lines, *parts, limit, 10, 10)
        out = reduced(lines, limit, 10, pair=pair, choices=choices)[0]
        end = whole.split()[0]
        if end != "room":
            said = 7 if end == "fail" else 5
            assert whole.split()[:said] == out.split()[:said] and count(out, "choices") == len(choices), (lines, whole, out)
        tally[end] = tally.get(end, 0) + 1
        reduced(lines, *parts, limit, pair=pair, choices=choices)
        for _ in range(3):
            damaged = list(choices)
            for _ in range(min(len(damaged), pick.randint(1, 2))):
                damaged[pick.randrange(len(damaged))] = pick.choice([*range(9), BIG])
            reduced(lines, limit, 10, pair=pair, choices=damaged)
        reduced(lines, limit, 10, pair=pair, choices=choices[: pick.randint(0, len(choices))])
    return tally


def main():
    document()
    continued()
    wants_of_cells()
    sums()
    loops()
    siblings()
    shared_iterators()
    branches()
    pointers()
    kinds_of_arrays()
    dropped_writes()
    true_places()
    choices_taken()
    reasons_of_sums()
    reasons_of_cells()
    reasons_of_counters()
    reasons_in_order()
    orders()
    examples_of_calls()
    where_main_ends()
    falling_off()
    too_deep()
    choices_of_calls()
    returns_in_loops()
    calls_in_loops()
    fresh_locals()
    results()
    globals_in_procedures()
    tracked_in_procedures()
    ends_in_procedures()
    sixteen_procedures()
    records()
    callers_kept()
    callers_of_itself()
    refusals()
    refused_lines()
    refused_twice()
    refused_calls()
    refused_openings()
    refused_uses()
    refused_in_order()
    tally = shuffled(150, 1, [(1, 3), (0, 2), (2, 5), (1, 6), (0, BIG)])
    neighbours = shuffled(60, 2, [(0, 1), (1, 2), (2, 3), (4, 5)])
    called = shuffled(70, 3, [(1, 3), (0, 2), (1, 2), (2, 5), (0, BIG)], procedures=4)
    (HERE / "stdin").write_bytes(b"".join(struct.pack("<I", len(data)) + data for data, _ in CASES))
    (HERE / "stdout").write_text("".join(line + "\n" for _, out in CASES for line in out))
    print(len(CASES), "cases,", sum(len(out) for _, out in CASES), "runs; ends of the pseudo-random tables:", tally, neighbours, called)


if __name__ == "__main__":
    main()
