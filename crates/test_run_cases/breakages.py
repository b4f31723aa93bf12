"""The breakages that break_rules.py tries: for each the rule, what is broken, and the text put in place of some text of an interpreter.

The rule is its number in docs/RULES.md. Each old text must stand in its file exactly once, so that a patch which no longer fits is an
error. A breakage may say which cases it can change: those whose table has one of some kinds of line, those with a continued run, or for the
checks those that one of some numbers refuses. Those not named are not run.
"""
RUNS, RULES, PAIRS = "test_run_cases/make_cases.py", "test_checked_files/rules.py", "test_pair_cases/make_cases.py"
ROOMS, BUFFERS = "test_write_rooms/make_cases.py", "test_buffers/make_cases.py"
BREAKAGES = []


class Breakage:
    """A rule and what is broken of it; patches (old text, new text) of a file; which cases to try; whether the machines, the reduction and
    the checks of a table can change; whether a broken run may stop short."""

    def __init__(self, rule, what, file, patches, **more):
        self.rule, self.what, self.file, self.patches = rule, what, file, patches
        self.kinds = self.refused = None
        self.continued = self.reduces = self.stops = False
        self.machines = self.tables = True
        for name, v in more.items():
            assert hasattr(self, name), name
            setattr(self, name, v)


def broken(rule, what, *patches, file=RUNS, **more):
    BREAKAGES.append(Breakage(rule, what, file, patches, **more))


# How a table runs: start values and zeroing

FIRST = "first = {BOOL: False, UINT: 0, POINTER: (0, 0)}"
broken("2.5", "a uint starts at 1", (FIRST, FIRST.replace("UINT: 0", "UINT: 1")))
broken("2.5", "a bool starts true", (FIRST, FIRST.replace("False", "True")), kinds={1})
broken("2.5", "a pointer starts at place 1", (FIRST, FIRST.replace("(0, 0)", "(0, 1)")), kinds={3})
CLASS_OF_ZERO = "variables[v] = class_of(0, self.pair)"
broken("3.6", "a marked uint starts at class 0", (CLASS_OF_ZERO, "variables[v] = 0"))
broken("3.6", "a marked uint starts at class 2", (CLASS_OF_ZERO, "variables[v] = 2"))
IS_ITERATOR = "any(line[0] == 42 and line[1] == v for line in self.table.rows)"
broken(
    "3.6",
    "a marked uint that is no iterator holds a number",
    (CLASS_OF_ZERO, "variables[v] = class_of(0, self.pair) if %s else 0" % IS_ITERATOR),
)
ZEROED = "cells[:] = [0] * lent"
broken("2.32", "a fresh run zeroes no cells", (ZEROED, "pass"))
broken("2.32", "a fresh run that takes no step zeroes no cells", (ZEROED, "cells[:] = [0] * lent if limit else cells[:]"))
broken("2.32", "a fresh reduced run zeroes 4,096 cells", (ZEROED, "cells[:4096] = [0] * 4096"))
broken("2.32", "a fresh run leaves the last cell", (ZEROED, "cells[:-1] = [0] * (lent - 1)"))
CONTINUES = "            record = columns(table, state)\n"
broken("2.33", "a continued run zeroes the cells", (CONTINUES, "            cells[:] = [0] * lent\n" + CONTINUES), continued=True)
CLEARED = "self.cells[first : first + size] = [0] * size"
broken("2.23", "new cells of 37 are not zeroed", (CLEARED, "if reduced:\n            " + CLEARED), kinds={37})
broken("3.7", "new cells of 41 are not zeroed", (CLEARED, "if not reduced:\n            " + CLEARED), kinds={41})
broken(
    "2.23",
    "the cell after the new array is zeroed too",
    (CLEARED, "size = min(size + 1, len(self.cells) - first)\n        " + CLEARED),
)
broken("2.23", "the last new cell is not zeroed", (CLEARED, "size = max(size - 1, 0)\n        " + CLEARED))
WHOLE = "size = min(length, len(self.cells) - first)\n        "
broken("3.7", "41 zeroes as many cells as the true length", (CLEARED, WHOLE + CLEARED), kinds={41})
broken("2.23", "a new array zeroes all cells after it too", (CLEARED, "self.cells[first:] = [0] * (len(self.cells) - first)"))

# How a table runs: working out

LEFT = "        x = self.value(state, a)\n        if kind in (19, 28):"
RIGHT = "        y = self.value(state, b)\n        if kind in (20, 21):"
for kind in (20, 21, 22, 23, 24):
    broken(
        "2.8",
        "%d works out its right operand first" % kind,
        (LEFT, "        early = self.value(state, b) if kind == %d else None\n" % kind + LEFT),
        (RIGHT, RIGHT.replace("self.value(state, b)", "early if kind == %d else self.value(state, b)" % kind)),
        kinds={kind},
    )
BOUNDS = "            start = self.value(state, b)\n            if not self.enter(state, at, start, self.value(state, c)):"
for kind in (38, 42):
    other = (
        "            if kind == %d:\n                end, start = self.value(state, c), self.value(state, b)\n            else:\n"
        % kind
    )
    other += (
        "                start, end = self.value(state, b), self.value(state, c)\n"
        "            if not self.enter(state, at, start, end):"
    )
    broken("2.8", "%d works out its end before its start" % kind, (BOUNDS, other), kinds={kind})
STORED = "            pointer = self.value(state, a)\n            self.write(state, pointer, self.value(state, b))"
VALUE_FIRST = "            v = self.value(state, b)\n            self.write(state, self.value(state, a), v)"
broken("2.8", "40 works out its value before its pointer", (STORED, VALUE_FIRST), kinds={40})
EARLY = "            pointer = self.value(state, a)\n            if not pointer[0]:\n                raise failed(NO_ARRAY)\n"
EARLY += "            self.write(state, pointer, self.value(state, b))"
broken("3.17", "40 tests for an array before it works out its value", (STORED, EARLY), kinds={40})
EARLY = "            pointer = self.value(state, a)\n            if pointer[0] and pointer[1] >= self.array(state, pointer)[1]:\n"
EARLY += "                raise failed(PAST)\n            self.write(state, pointer, self.value(state, b))"
broken("3.17", "40 tests the place before it works out its value", (STORED, EARLY), kinds={40})
VALUE = '    def value(self, state, n):\n        """The value of a node."""\n'
MEMO = "    def value(self, state, n):\n        if n not in self.worked%s:\n            self.worked[n] = self.anew(state, n)\n"
MEMO += "        return self.worked[n]\n\n    def anew(self, state, n):\n"
NEW_ROW = ("        at = state.row\n", "        at = state.row\n        self.worked = {}\n")
broken("2.6", "a node is worked out once in a row", (VALUE, MEMO % ""), NEW_ROW)
ONLY = " or self.table.nodes[n][0] != 27"
broken("2.6", "one choice serves two readings of an iterator in a row", (VALUE, MEMO % ONLY), NEW_ROW, kinds={27})
ONLY = " or self.table.nodes[n][0] != 28"
broken("2.6", "one choice serves two readings of a cell in a row", (VALUE, MEMO % ONLY), NEW_ROW, kinds={28})
NEW_RUN = ("        self.used = 0\n", "        self.used = 0\n        self.worked = {}\n")
broken("2.6", "a node is worked out once in a run", (VALUE, MEMO % ""), NEW_RUN)
broken(
    "2.6",
    "a node used as both operands is worked out once",
    (RIGHT, RIGHT.replace("self.value", "x if a == b else self.value")),
)
for kind in (28, 29):
    broken(
        "3.14",
        "%d works out its pointer twice" % kind,
        (LEFT, LEFT.replace("        if", "        if kind == %d:\n            x = self.value(state, a)\n        if" % kind)),
        kinds={kind},
    )
broken(
    "3.14",
    "40 works out its pointer twice",
    (STORED, STORED.replace("(state, a)\n", "(state, a)\n            pointer = self.value(state, a) if kind == 40 else pointer\n")),
    kinds={40},
)

SUM_FAILS = "            if number > BIG:\n                raise failed(SUM)\n"
DIFFERENCE_FAILS = "            if number < 0:\n                raise failed(DIFFERENCE)\n"
for kind, name, wrong in (20, "a sum above 4,294,967,295", "number % 2**32"), (21, "a difference below 0", "number % 2**32"):
    for test, of in ("not isinstance(x, tuple)", "uints"), ("isinstance(x, tuple)", "places"):
        more = "            if kind == %d and %s:\n                number = %s\n" % (kind, test, wrong)
        broken("2.%d" % (kind - 10), "%s of %s wraps" % (name, of), (SUM_FAILS, more + SUM_FAILS), kinds={kind})
for test, of in ("not isinstance(x, tuple)", "uints"), ("isinstance(x, tuple)", "places"):
    broken(
        "2.10",
        "a sum of %s that is 4,294,967,295 fails" % of,
        (SUM_FAILS, SUM_FAILS.replace("number > BIG", "%s and number == BIG or number > BIG" % test)),
        kinds={20},
    )
    broken(
        "2.11",
        "a difference of %s that is 0 fails" % of,
        (DIFFERENCE_FAILS, DIFFERENCE_FAILS.replace("number < 0", "%s and kind == 21 and number == 0 or number < 0" % test)),
        kinds={21},
    )
    more = "            if %s:\n                number = max(number, 0)\n" % test
    broken("2.11", "a difference of %s below 0 is 0" % of, (SUM_FAILS, more + SUM_FAILS), kinds={21})
NO_ARRAY_SUM = "            if isinstance(x, tuple) and x[0] == 0:\n                raise failed(NO_ARRAY)\n"
broken("2.10", "a sum on a pointer with no array fails", (SUM_FAILS, NO_ARRAY_SUM + SUM_FAILS), kinds={20, 21})
broken(
    "2.10",
    "a sum past the end of an array fails",
    (
        SUM_FAILS,
        "            if isinstance(x, tuple) and x[0] and number > self.array(state, x)[1]:\n                raise failed(PAST)\n" + SUM_FAILS,
    ),
)
broken(
    "2.11",
    "21 is the difference of the other order",
    (SUM_FAILS, "            if kind == 21 and not isinstance(x, tuple):\n                number = y - x\n" + SUM_FAILS),
    kinds={21},
)

READ = "        if pointer[1] >= array[1]:\n"
NONE_TO_READ = "        if array is None:\n            raise failed(NO_ARRAY)\n" + READ
broken(
    "2.14",
    "a cell with no array reads as 0",
    (NONE_TO_READ, NONE_TO_READ.replace("raise failed(NO_ARRAY)", "return 0")),
    kinds={19, 28},
)
broken("2.14", "19 at the length reads on", (READ, READ.replace("array[1]:", "array[1] + (not array[2]):")), kinds={19, 28})
broken("3.15", "28 at the true length reads on", (READ, READ.replace("array[1]:", "array[1] + array[2]:")), kinds={28}, stops=True)
broken("2.14", "19 fails at the last place", (READ, READ.replace("array[1]:", "array[1] - (not array[2]):")), kinds={19, 28})
broken("3.15", "28 fails at the last place", (READ, READ.replace("array[1]:", "array[1] - array[2]:")), kinds={28})
broken(
    "2.14",
    "a place past the length reads as 0",
    (READ, "        if pointer[1] >= array[1]:\n            return 0\n" + READ),
    kinds={19, 28},
)
WRITTEN = "        if array is None:\n            raise failed(NO_ARRAY)\n        first, length, reduced = array\n"
broken("2.19", "a write with no array is dropped", (WRITTEN, WRITTEN.replace("raise failed(NO_ARRAY)", "return")), kinds={34, 40})
WRITE_PAST = "        if place >= length:\n            raise failed(PAST)\n"
broken(
    "2.19",
    "a write at the length is let through, array not reduced",
    (WRITE_PAST, WRITE_PAST.replace("length:", "length + (not reduced):")),
    kinds={34, 40},
)
broken(
    "3.17",
    "a write at the true length is let through, array reduced",
    (WRITE_PAST, WRITE_PAST.replace("length:", "length + reduced:")),
    kinds={40},
)
broken(
    "2.19",
    "a write at the last place fails, array not reduced",
    (WRITE_PAST, WRITE_PAST.replace("length:", "length - (not reduced):")),
    kinds={34, 40},
)
broken("3.17", "a write at the last place fails, array reduced", (WRITE_PAST, WRITE_PAST.replace("length:", "length - reduced:")), kinds={40})
broken("2.19", "a write past the length is dropped", (WRITE_PAST, WRITE_PAST.replace("raise failed(PAST)", "return")), kinds={34, 40})
ALL_THE_SAME = (
    "        if place >= length:\n"
    "            self.cells[min(first + place, len(self.cells) - 1)] = v\n"
    "            raise failed(PAST)\n"
)
broken(
    "2.30",
    "a write past the length is made, and fails",
    (WRITE_PAST, ALL_THE_SAME),
    ("                    self.cells[:] = cells\n", "                    pass\n"),
    kinds={34, 40},
)
BRANCH = "            return self.value(state, b if x else c)"
BOTH = "            taken = self.value(state, b), self.value(state, c)\n            return taken[0 if x else 1]"
broken("2.13", "25 works out both branches", (BRANCH, BOTH), kinds={25})
broken("2.13", "25 takes the other branch", (BRANCH, BRANCH.replace("b if x else c", "c if x else b")), kinds={25})
broken("2.13", "25 works out the branch twice", (BRANCH, "            self.value(state, b if x else c)\n" + BRANCH), kinds={25})
VALID = "            return x[0] != 0 and x[1] < self.array(state, x)[1]"
broken("2.15", "26 is true with no array", (VALID, VALID.replace("x[0] != 0 and", "x[0] == 0 or")), kinds={26, 29})
broken("2.15", "26 is true at the length", (VALID, VALID.replace("<", "<=")), kinds={26, 29})
broken("2.15", "26 is true wherever there is an array", (VALID, "            return x[0] != 0"), kinds={26, 29})
broken(
    "2.15",
    "26 fails with no array",
    (VALID, "            if not x[0]:\n                raise failed(NO_ARRAY)\n" + VALID),
    kinds={26, 29},
)
broken(
    "2.15",
    "26 fails past the length",
    (VALID, "            if x[0] and x[1] >= self.array(state, x)[1]:\n                raise failed(PAST)\n" + VALID),
    kinds={26, 29},
)
broken(
    "2.2",
    "an array of length 0 fails at 26",
    (VALID, "            if x[0] and self.array(state, x)[1] == 0:\n                raise failed(PAST)\n" + VALID),
    kinds={26, 29},
)
broken(
    "3.16",
    "29 goes by the cells of a reduced array",
    (VALID, VALID.replace("self.array(state, x)[1]", "self.size(*self.array(state, x)[1:])")),
    kinds={29},
)
COMPARE = "        return {22: x < y, 23: x <= y, 24: x == y}[kind]"
for kind, old, new in (
    (22, "x < y", "x <= y"),
    (22, "x < y", "x > y"),
    (23, "x <= y", "x < y"),
    (23, "x <= y", "x >= y"),
    (24, "x == y", "x != y"),
    (24, "x == y", "x <= y"),
):
    broken(
        "2.12",
        "%d is %s" % (kind, new),
        (COMPARE, COMPARE.replace("%d: %s" % (kind, old), "%d: %s" % (kind, new))),
        kinds={kind},
    )
SIGNED = "        if kind in (22, 23):\n            x, y = (x + 2**31) % 2**32, (y + 2**31) % 2**32\n"
broken("1.1", "22 and 23 compare with a sign", (COMPARE, SIGNED + COMPARE), kinds={22, 23})
broken("2.9", "18 is the other bool", ("            return a == 1\n", "            return a == 0\n"), kinds={18})
broken("1.1", "17 drops the highest bit", ("            return a\n", "            return a % 2**31\n"), kinds={17})

# How a table runs: why a row failed

for kind, name, text, right in (20, "sum", SUM_FAILS, "SUM"), (21, "difference", DIFFERENCE_FAILS, "DIFFERENCE"):
    for test, of in ("not isinstance(x, tuple)", "uints"), ("isinstance(x, tuple)", "places"):
        for wrong in "SUM", "DIFFERENCE", "NO_ARRAY", "PAST", "COUNTER":
            if wrong != right:
                other = text.replace("failed(%s)" % right, "failed(%s if %s else %s)" % (wrong, test, right))
                broken("2.36", "a %s of %s has the reason %s" % (name, of, wrong), (text, other), kinds={kind})
    other = text.replace("failed(%s)" % right, "failed(%s if isinstance(x, tuple) and x[0] == 0 else %s)" % ("NO_ARRAY", right))
    broken("2.36", "a %s of the place of a pointer with no array has the reason NO_ARRAY" % name, (text, other), kinds={kind})
ONE_MORE = SUM_FAILS.replace("failed(SUM)", "failed(COUNTER if y == 1 else SUM)")
broken("2.36", "a sum with 1 has the reason COUNTER", (SUM_FAILS, ONE_MORE), kinds={20})
READ_PAST = READ + "            raise failed(PAST)\n"
for what, old, right in ("a cell read with no array", NONE_TO_READ, "NO_ARRAY"), ("a cell read past the length", READ_PAST, "PAST"):
    for wrong in "SUM", "DIFFERENCE", "NO_ARRAY", "PAST", "COUNTER":
        if wrong != right:
            other = old.replace("failed(%s)" % right, "failed(%s)" % wrong)
            broken("2.36", "%s has the reason %s" % (what, wrong), (old, other), kinds={19, 28})
for what, old, right in ("a write with no array", WRITTEN, "NO_ARRAY"), ("a write past the length", WRITE_PAST, "PAST"):
    for wrong in "SUM", "DIFFERENCE", "NO_ARRAY", "PAST", "COUNTER":
        if wrong != right:
            other = old.replace("failed(%s)" % right, "failed(%s)" % wrong)
            broken("2.36", "%s has the reason %s" % (what, wrong), (old, other), kinds={34, 40})
BY_PLACE = "failed(PAST if pointer[1] else NO_ARRAY)"
broken("2.36", "a read with no array goes by its place", (NONE_TO_READ, NONE_TO_READ.replace("failed(NO_ARRAY)", BY_PLACE)), kinds={19, 28})
broken("2.36", "a write with no array goes by its place", (WRITTEN, WRITTEN.replace("failed(NO_ARRAY)", BY_PLACE)), kinds={34, 40})
BY_LENGTH = "failed(PAST if array[1] else NO_ARRAY)"
broken("2.36", "an array of length 0 is none to read", (READ_PAST, READ_PAST.replace("failed(PAST)", BY_LENGTH)), kinds={19, 28})
broken("2.36", "an array of length 0 is none to write", (WRITE_PAST, WRITE_PAST.replace("failed(PAST)", BY_LENGTH)), kinds={34, 40})
IF_REDUCED = READ_PAST.replace("PAST", "NO_ARRAY if array[2] else PAST")
broken("2.36", "28 past the length of a reduced array has the reason NO_ARRAY", (READ_PAST, IF_REDUCED), kinds={28})
IF_REDUCED = WRITE_PAST.replace("PAST", "NO_ARRAY if reduced else PAST")
broken("2.36", "40 past the length of a reduced array has the reason NO_ARRAY", (WRITE_PAST, IF_REDUCED), kinds={40})
STORED_EARLY = "            pointer = self.value(state, a)\n            if kind == 34 and %s:\n                raise failed(%s)\n"
STORED_EARLY += "            self.write(state, pointer, self.value(state, b))"
broken("2.38", "34 tests for an array before it works out its value", (STORED, STORED_EARLY % ("not pointer[0]", "NO_ARRAY")), kinds={34})
TEST = "pointer[0] and pointer[1] >= self.array(state, pointer)[1]"
broken("2.38", "34 tests the place before it works out its value", (STORED, STORED_EARLY % (TEST, "PAST")), kinds={34})
VALUE_OF_34 = "            v = self.value(state, b) if kind == 34 else None\n            pointer = self.value(state, a)\n"
VALUE_OF_34 += "            self.write(state, pointer, v if kind == 34 else self.value(state, b))"
broken("2.38", "34 works out its value before its pointer", (STORED, VALUE_OF_34), kinds={34})

# How a table runs: steps, rows and ends

ENDED = "                return e.args[0], steps + 1, state"
broken("2.29", "a failure reports done", (ENDED, ENDED.replace("e.args[0],", "'done' if e.args[0].startswith('fail') else e.args[0],")))
GOES_ON = "                    self.cells[:] = cells\n"
SKIPPED = (
    "                if e.args[0].startswith('fail'):\n"
    "                    state.row, steps = state.row + 1, steps + 1\n"
    "                    continue\n"
)
broken("2.7", "a failing row is left out and the run goes on", (GOES_ON, GOES_ON + SKIPPED), stops=True)
COUNTED = "            state = following\n            steps += 1\n"
SKIP = "steps += state.row in self.table.stops or self.table.rows[state.row][0] != %d\n            state = following"
for kind, what in (
    (32, "a skip"),
    (33, "row 33"),
    (34, "row 34"),
    (40, "row 40"),
    (35, "an assert"),
    (36, "an assume"),
    (37, "row 37"),
    (41, "row 41"),
    (38, "row 38"),
    (42, "row 42"),
    (44, "a return"),
    (45, "a call"),
):
    broken("2.16", "%s counts no step" % what, (COUNTED, "            " + SKIP % kind + "\n"), kinds={kind})
LEFT_LOOP = (
    "            steps += not (len(following.loops) < len(state.loops) and self.table.rows[state.row][0] == 39)\n"
    "            state = following\n"
)
broken("2.16", "a 39 that leaves counts no step", (COUNTED, LEFT_LOOP), kinds={39})
PAST_END = (
    "            opens = state.row not in self.table.stops and self.table.rows[state.row][0] in (38, 42)\n"
    "            steps += 1 + (opens and following.row > state.row + 1)\n"
    "            state = following\n"
)
broken("2.16", "a loop not entered counts two steps", (COUNTED, PAST_END), kinds={38, 42})
ASSIGN = "            state.variables[a] = self.value(state, b)\n"
broken("2.26", "39 is a skip", ("        elif kind == 39:\n", "        elif kind == 0:\n"), kinds={39})
broken("2.17", "32 ends the run by fail", (ASSIGN, ASSIGN + "        elif kind == 32:\n            raise failed(SUM)\n"), kinds={32})
broken("2.18", "33 is a skip", (ASSIGN, "            self.value(state, b)\n"), kinds={33})
PLACE = "            if isinstance(state.variables[a], tuple):\n                state.variables[a] = %s\n"
broken("2.18", "33 to a pointer puts it at place 0", (ASSIGN, ASSIGN + PLACE % "(state.variables[a][0], 0)"), kinds={33})
broken(
    "2.18",
    "33 to a pointer keeps its array",
    (ASSIGN, "            before = state.variables[a]\n" + ASSIGN + PLACE % "(before[0], state.variables[a][1])"),
    kinds={33},
)
TOLD = '                raise Ended("assert" if kind == 35 else "assume")'
for old, new in ("assume", "assert"), ("assert", "assume"), ("assert", "fail reason 1"), ("assume", "fail reason 1"), ("assume", "done"):
    broken("2.20", "%s false ends as %s" % (old, new), (TOLD, TOLD.replace('"%s"' % old, '"%s"' % new)), kinds={35, 36})
TESTED = "            if not self.value(state, a):\n"
broken("2.20", "35 is the other way round", (TESTED, "            if self.value(state, a) == (kind == 35):\n"), kinds={35})
broken("2.20", "36 is the other way round", (TESTED, "            if self.value(state, a) == (kind == 36):\n"), kinds={36})
NEW = "            self.new(state, a, self.value(state, b), kind == 41)\n"
broken(
    "2.22",
    "16 arrays end for want of cells before the length is worked out",
    (NEW, '            if len(state.arrays) == 16:\n                raise Ended("room")\n' + NEW),
    kinds={37, 41},
)
ROOM = "        if len(state.arrays) == 16 or first + size > len(self.cells):\n"
broken("2.22", "a 17th array is made", (ROOM, ROOM.replace("16", "17")), stops=True)
broken("2.22", "a 16th array is not made", (ROOM, ROOM.replace("16", "15")))
for test, what in ("self.pair is None", "plain"), ("self.pair is not None", "reduced"):
    broken(
        "2.22",
        "the last cell of the %s machine is not used" % what,
        (ROOM, ROOM.replace("len(self.cells)", "len(self.cells) - (%s)" % test)),
    )
    broken(
        "2.22",
        "the %s machine has a cell more" % what,
        (ROOM, ROOM.replace("len(self.cells)", "len(self.cells) + (%s)" % test)),
    )
broken("2.22", "the reduced machine has 4,096 cells", (ROOM, ROOM.replace("len(self.cells)", "4096")))
broken(
    "2.22",
    "the cells are counted modulo 2^32",
    (ROOM, ROOM.replace("first + size", "(first + size) % 2**32")),
    (CLEARED, "size = min(size, len(self.cells) - first)\n        " + CLEARED),
)
broken(
    "3.7",
    "41 wants as many cells as the true length",
    (ROOM, ROOM.replace("first + size", "first + length")),
    kinds={41},
)
broken("2.22", "an array of no cells does not fit into full cells", (ROOM, ROOM.replace(":\n", " or first == len(self.cells):\n")))
broken("2.22", "want of cells ends as fail", ('            raise Ended("room")\n', "            raise failed(PAST)\n"))
KEPT = (GOES_ON, "                    pass\n")
FULL_CELLS = '            self.cells[first:] = [0] * (len(self.cells) - first)\n            raise Ended("room")\n'
broken(
    "2.30",
    "37 zeroes cells before it ends for want of cells",
    ('            raise Ended("room")\n', FULL_CELLS),
    KEPT,
)
POINTS = "        state.variables[variable] = (len(state.arrays), 0)\n"
broken("2.23", "the variable keeps its place", (POINTS, POINTS.replace(", 0)", ", state.variables[variable][1])")))
broken(
    "2.2",
    "an array of length 0 is no array",
    (POINTS, POINTS.replace("len(state.arrays)", "len(state.arrays) if length else 0")),
)
broken("2.23", "the variable points at the first array", (POINTS, POINTS.replace("len(state.arrays)", "1")))
LAID = "        first = sum(self.size(n, shape) for _, n, shape in state.arrays)\n"
broken("2.21", "each array begins at cell 0", (LAID, "        first = 0\n"))
broken("2.21", "a cell is left free between arrays", (LAID, LAID.replace("\n", " + len(state.arrays)\n")))
broken(
    "3.7",
    "arrays take as many cells as the true length",
    (LAID, "        first = sum(n for _, n, _ in state.arrays)\n"),
    kinds={41},
)

ENTERS = "        if start > end:\n            return False\n"
broken("2.24", "a loop of one round is not entered", (ENTERS, ENTERS.replace(">", ">=")), kinds={38, 42})
broken(
    "2.24",
    "a loop is always entered",
    (ENTERS, "        if start > end and state.row - 1 != row:\n            return False\n"),
    kinds={38, 42},
)
SETS = "        state.variables[iterator] = class_of(start, self.pair) if kind == 42 and self.holds_classes else start\n"
for kind in (38, 42):
    only = "        if start <= end or state.row - 1 %s row or kind != " + str(kind) + ":\n    " + SETS
    broken({38: "2.24", 42: "3.20"}[kind], "%d not entered leaves the iterator" % kind, (SETS, only % "!="), kinds={kind})
    broken({38: "2.27", 42: "3.21"}[kind], "leaving a %d leaves the iterator" % kind, (SETS, only % "=="), kinds={kind})
    last = "        if start > end and state.row - 1 %s row and kind == " + str(kind) + ":\n"
    last += "            state.variables[iterator] = class_of(end, self.pair) if kind == 42 and self.holds_classes else end\n"
    broken({38: "2.24", 42: "3.20"}[kind], "%d not entered sets the iterator to the end" % kind, (SETS, SETS + last % "=="), kinds={kind})
    broken({38: "2.27", 42: "3.21"}[kind], "leaving a %d leaves the iterator at the end" % kind, (SETS, SETS + last % "!="), kinds={kind})
OVER = "                state.row = self.table.ends[at] + 1\n"
NEXT_END = "                state.row = next(r for r, line in enumerate(self.table.rows) if r > at and line[0] == 39) + 1\n"
broken("2.25", "a loop not entered goes past the next 39", (OVER, NEXT_END), kinds={38, 42}, stops=True)
broken(
    "2.25",
    "a loop not entered goes to its 39",
    (OVER, "                state.row = self.table.ends[at]\n"),
    kinds={38, 42},
    stops=True,
)
broken("2.25", "a loop not entered goes two rows past its 39", (OVER, OVER.replace("+ 1", "+ 2")), kinds={38, 42}, stops=True)
AGAIN = "            self.enter(state, row, start + 1, end)\n"
HELD = "state.variables[self.table.rows[row][1]] + 1 if self.table.rows[row][0] == 38 else start + 1"
broken("2.26", "39 goes by the iterator's present value", (AGAIN, AGAIN.replace("start + 1", HELD)), kinds={38})
NEW_END = "            end = self.value(state, self.table.rows[row][3]) if self.table.rows[row][0] == %d else end\n"
broken("2.26", "39 of a 38 works out the end again", (AGAIN, NEW_END % 38 + AGAIN), kinds={38})
broken("2.26", "39 of a 42 works out the end again", (AGAIN, NEW_END % 42 + AGAIN), kinds={42})
broken(
    "2.27",
    "leaving keeps the loop open",
    (AGAIN, "            if not %s:\n                state.loops.append((row, start, end))\n" % AGAIN.strip()),
    kinds={39},
)
broken(
    "2.27",
    "39 keeps the old start",
    (AGAIN, AGAIN + "            if state.row == row + 1:\n                state.loops[-1] = (row, start, state.loops[-1][2])\n"),
    kinds={39},
)
broken("2.26", "39 repeats with start + 2", (AGAIN, AGAIN.replace("+ 1", "+ 2")), kinds={39})
broken(
    "2.27",
    "39 goes back to the loop row",
    (AGAIN, AGAIN + "            if len(state.loops) and state.loops[-1][0] == row:\n                state.row = row\n"),
    kinds={39},
    stops=True,
)
POP = "            row, start, end = state.loops.pop()\n"
broken("2.26", "39 closes the outermost loop", (POP, POP.replace("pop()", "pop(0)")), kinds={39}, stops=True)
LARGEST = "            if start == BIG:\n                raise failed(COUNTER)\n"
broken(
    "2.26",
    "start + 1 too large leaves the loop",
    (LARGEST, LARGEST.replace("raise failed(COUNTER)", "return")),
    kinds={39},
)
broken("2.26", "start + 1 wraps to 0", (LARGEST, "            start = -1 if start == BIG else start\n"), kinds={39})
broken("2.26", "39 fails a number too early", (LARGEST, LARGEST.replace("== BIG", ">= BIG - 1")), kinds={39})
CHOICES = (
    '            if start == BIG:\n                if self.table.rows[row][0] == 42:\n'
    '                    self.in_class(start)\n                    self.in_class(end)\n'
    "                raise failed(COUNTER)\n"
)
broken("3.21", "39 takes its choices before start + 1 fails", (LARGEST, CHOICES), kinds={42})
for wrong in "SUM", "DIFFERENCE", "NO_ARRAY", "PAST":
    for kind in 38, 42:
        other = LARGEST.replace("COUNTER", "%s if self.table.rows[row][0] == %d else COUNTER" % (wrong, kind))
        broken("2.36", "start + 1 of a loop of %d has the reason %s" % (kind, wrong), (LARGEST, other), kinds={kind})

ROWS_LEFT = "        while state.callers or state.row not in self.table.stops:\n"
broken("2.28", "out of steps is tested before done", (ROWS_LEFT, ROWS_LEFT.replace(":\n", " or steps == limit:\n")))
broken(
    "2.28",
    "a run takes a step more than its limit",
    ("            if steps == limit:\n", "            if steps == limit + 1:\n"),
)
broken(
    "2.28",
    "a run takes a step fewer than its limit",
    ("            if steps == limit:\n", "            if steps + 1 >= limit:\n"),
)
broken("2.28", "a run is done at its last row", (ROWS_LEFT, "        while state.callers or not {state.row, state.row + 1} & self.table.stops:\n"))
for end in ("assert", "assume", "fail", "room", "deep"):
    broken(
        "2.29",
        "the step that ends by %s does not count" % end,
        (ENDED, ENDED.replace("steps + 1", "steps + (not e.args[0].startswith('%s'))" % end)),
    )
    uncounted = "                self.used = used if e.args[0].startswith('%s') else self.used\n" % end
    broken(
        "2.29",
        "the choices of a step that ends by %s do not count" % end,
        (ENDED, uncounted + ENDED),
        kinds={27, 28, 42},
    )
    on = "                state.row += e.args[0].startswith('%s')\n" % end
    broken("2.30", "the row moves on at an end by %s" % end, (ENDED, on + ENDED))
broken(
    "2.30",
    "a 39 that fails drops its loop",
    (ENDED, "                state.loops = following.loops\n" + ENDED),
    kinds={39},
)
NOT_TAKEN = "                    return e.args[0], steps, state\n"
TAKEN_BACK = "                    self.used = used\n"
for end in ("badchoice", "nochoice"):
    broken(
        "2.29",
        "the step of %s counts" % end,
        (NOT_TAKEN, NOT_TAKEN.replace("steps,", "steps + (e.args[0] == '%s')," % end)),
        kinds={27, 28, 42},
    )
    broken(
        "2.29",
        "the choices of %s count" % end,
        (TAKEN_BACK, TAKEN_BACK.replace("= used", "= self.used if e.args[0] == '%s' else used" % end)),
        kinds={27, 28, 42},
    )
    broken(
        "2.29",
        "the row moves on at %s" % end,
        (NOT_TAKEN, "                    state.row += e.args[0] == '%s'\n" % end + NOT_TAKEN),
        kinds={27, 28, 42},
    )
broken(
    "2.34",
    "the steps of the runs before count",
    (
        "            end, steps, state = run.run(start, limit)\n",
        (
            "            end, steps, state = run.run(start, limit)\n"
            "            steps += sum(int(line.split()[4]) for line in out if line[:7] != 'refused')\n"
        ),
    ),
    continued=True,
)
RAN = "            end, steps, state = run.run(start, limit)\n"
broken("2.45", "a continued run has the list from its front", ("            choices = choices[run.used :]\n", ""), continued=True, kinds={27, 28, 42})
broken("2.45", "a continued run that is done counts a step", (RAN, RAN + "            steps += k > 0 and end == 'done'\n"), continued=True)
broken("2.45", "continued for 0 steps a run takes one", (RAN, RAN.replace("limit)", "limit or min(k, 1))")), continued=True)
broken(
    "2.33",
    "a continued run begins at row 0",
    (
        "            end, steps, state = run.run(start, limit)\n",
        "            start.row = 0\n            end, steps, state = run.run(start, limit)\n",
    ),
    continued=True,
    stops=True,
)

# How a table runs: calls and returns

CALLS = {"kinds": {45}, "stops": True}
DEEP = '        if len(state.callers) == MOST_CALLERS:\n            raise Ended("deep")\n'
broken("2.41", "a ninth call is made", (DEEP, DEEP.replace("MOST_CALLERS", "MOST_CALLERS + 1")), **CALLS)
broken("2.41", "no call is too deep", (DEEP, ""), **CALLS)
broken("2.41", "an eighth call is too deep", (DEEP, DEEP.replace("MOST_CALLERS", "MOST_CALLERS - 1")), **CALLS)
broken("2.41", "a first call is too deep", (DEEP, DEEP.replace("== MOST_CALLERS", "in (0, MOST_CALLERS)")), **CALLS)
ITSELF = DEEP.replace(":\n", " and state.callers[-1][0] == at:\n", 1)
broken("2.41", "only a procedure that calls itself is too deep", (DEEP, ITSELF), **CALLS)
broken("2.41", "a procedure that calls itself is too deep", (DEEP, DEEP.replace(":\n", " or procedure == self.table.home(at):\n", 1)), **CALLS)
for end in "assert", "fail reason 5", "room", "done", "steps":
    broken("2.29", "too deep ends as %s" % end, (DEEP, DEEP.replace('"deep"', '"%s"' % end)), **CALLS)
CALLED = "            self.call(state, at, a, self.value(state, b))\n"
EARLY_DEEP = DEEP.replace("        if", "            if").replace("            raise", "                raise")
broken("2.41", "too deep comes before the node is worked out", (CALLED, EARLY_DEEP + CALLED), **CALLS)
broken("2.40", "a call works out its node twice", (CALLED, "            self.value(state, b)\n" + CALLED), kinds={45})
broken("2.40", "a call hands over 0", (CALLED, CALLED.replace("self.value(state, b)", "self.value(state, b) * 0")), kinds={45})
AT_WORK = "        at_work = self.table.locals_of(self.table.home(at))\n"
PUT_ASIDE = "        held = [state.variables[x] for x in at_work]\n"
CLEARED_AT_CALL = "        for x in at_work:\n            state.variables[x] = 0\n"
CHANGED = "                if e.args[0] == 'deep':\n                    state.variables = following.variables\n"
broken(
    "2.30",
    "a call that is too deep sets the locals to 0",
    (DEEP + AT_WORK + PUT_ASIDE, AT_WORK + PUT_ASIDE + CLEARED_AT_CALL + DEEP),
    (ENDED, CHANGED + ENDED),
    **CALLS,
)
DROPPED_AT_DEEP = "                if e.args[0] == 'deep':\n                    state.loops = []\n"
broken("2.30", "a call that is too deep drops the loops", (ENDED, DROPPED_AT_DEEP + ENDED), **CALLS)
DROPPED_AT_DEEP = "                if e.args[0] == 'deep':\n                    state.callers = state.callers[:-1]\n"
broken("2.30", "a call that is too deep drops the last caller", (ENDED, DROPPED_AT_DEEP + ENDED), **CALLS)
broken("2.40", "locals are not put aside", (PUT_ASIDE, "        held = [0 for _ in at_work]\n"), **CALLS)
for part, what in ("[:1]", "first"), ("[-1:]", "last"):
    lost = "        for x in at_work%s:\n            held[at_work.index(x)] = 0\n" % part
    broken("2.40", "the %s local is not put aside" % what, (PUT_ASIDE, PUT_ASIDE + lost), **CALLS)
broken("2.40", "locals stay at a call", (CLEARED_AT_CALL, ""), **CALLS)
for part, what in ("[:1]", "first"), ("[-1:]", "last"):
    stay = CLEARED_AT_CALL.replace("in at_work:", "in [x for x in at_work if x not in at_work%s]:" % part)
    broken("2.40", "the %s local stays at a call" % what, (CLEARED_AT_CALL, stay), **CALLS)
OTHERS = "        for x in others:\n            state.variables[x] = 0\n"
OWN_STAY = CLEARED_AT_CALL.replace(":\n", " if self.table.home(at) != procedure else []:\n", 1)
broken("2.40", "a procedure that calls itself keeps its other locals", (CLEARED_AT_CALL, OWN_STAY), (OTHERS, ""), **CALLS)
APPENDED = "        state.callers.append((at, held, state.loops))\n"
broken("2.40", "the caller's loops are not put aside", (APPENDED, APPENDED.replace("state.loops", "[]")), **CALLS)
broken("2.40", "the caller's innermost loop alone is put aside", (APPENDED, APPENDED.replace("state.loops", "state.loops[-1:]")), **CALLS)
broken("2.40", "the caller's outermost loop alone is put aside", (APPENDED, APPENDED.replace("state.loops", "state.loops[:1]")), **CALLS)
broken("2.40", "the caller is put aside as the first", (APPENDED, APPENDED.replace("append((at", "insert(0, (at")), **CALLS)
NONE_OPEN = "        state.loops = []\n        first, *others"
broken("2.40", "the caller's loops stay open in the procedure", (NONE_OPEN, NONE_OPEN.replace("[]", "list(state.loops)")), **CALLS)
HANDED = "        state.variables[first] = v\n"
broken("2.40", "the argument goes to the second local", (HANDED + OTHERS, OTHERS + "        state.variables[(others or [first])[0]] = v\n"), **CALLS)
broken("2.40", "the argument goes to the last local", (HANDED + OTHERS, OTHERS + "        state.variables[[first, *others][-1]] = v\n"), **CALLS)
broken(
    "2.40",
    "the argument goes to every local",
    (HANDED + OTHERS, "        for x in [first, *others]:\n            state.variables[x] = v\n"),
    **CALLS,
)
broken("2.40", "the argument goes to no local", (HANDED, "        state.variables[first] = 0\n"), **CALLS)
STARTS = "        state.row = self.table.procedures[procedure] + 1\n"
broken("2.40", "a call goes to the 43", (STARTS, STARTS.replace(" + 1", "")), **CALLS)
broken("2.40", "a call goes to the second row", (STARTS, STARTS.replace("+ 1", "+ 2")), **CALLS)
broken("2.40", "a call goes to the first procedure", (STARTS, STARTS.replace("[procedure]", "[0]")), **CALLS)
broken("1.19", "procedures are numbered from the last", (STARTS, STARTS.replace("[procedure]", "[-1 - procedure]")), **CALLS)

LOCALS_LEFT = "        for x in self.table.locals_of(self.table.home(at)):\n            state.variables[x] = 0\n"
broken("2.42", "locals stay at a return", (LOCALS_LEFT, ""), **CALLS)
broken("2.42", "the first local stays at a return", (LOCALS_LEFT, LOCALS_LEFT.replace("(at)):", "(at))[1:]:")), **CALLS)
broken("2.42", "the last local stays at a return", (LOCALS_LEFT, LOCALS_LEFT.replace("(at)):", "(at))[:-1]:")), **CALLS)
BACK = "        row, held, loops = state.callers.pop()\n"
broken("2.42", "a return goes to the first caller", (BACK, BACK.replace("pop()", "pop(0)")), **CALLS)
broken("2.42", "a return drops all callers", (BACK, BACK + "        state.callers = []\n"), **CALLS)
broken("2.42", "a return keeps the caller", (BACK, BACK.replace("pop()", "copy()[-1]")), **CALLS)
RESTORED = "        for x, number in zip(self.table.locals_of(self.table.home(row)), held):\n            state.variables[x] = number\n"
broken("2.42", "locals do not come back", (RESTORED, ""), **CALLS)
broken(
    "2.42",
    "the first local does not come back",
    (RESTORED, RESTORED.replace("= number", "= number if x != self.table.locals_of(self.table.home(row))[0] else 0")),
    **CALLS,
)
broken(
    "2.42",
    "the last local does not come back",
    (RESTORED, RESTORED.replace("= number", "= number if x != self.table.locals_of(self.table.home(row))[-1] else 0")),
    **CALLS,
)
LOOPS_BACK = "        state.loops = list(loops)\n"
broken("2.42", "the caller's loops do not come back", (LOOPS_BACK, "        state.loops = []\n"), **CALLS)
broken("2.42", "the procedure's loops stay open", (LOOPS_BACK, "        state.loops = list(loops) + state.loops\n"), **CALLS)
broken("2.42", "the procedure's loops stay in place of the caller's", (LOOPS_BACK, ""), **CALLS)
broken("2.42", "a return drops the innermost loop alone", (LOOPS_BACK, "        state.loops = list(loops) + state.loops[:-1]\n"), **CALLS)
RESULT = "        state.variables[self.table.rows[row][3]] = v\n"
broken("2.42", "the result is set before the locals come back", (RESTORED, RESULT + RESTORED), (LOOPS_BACK + RESULT, LOOPS_BACK), **CALLS)
broken(
    "2.42",
    "the result is set before the locals become 0",
    (BACK, ""),
    (LOCALS_LEFT, BACK + RESULT + LOCALS_LEFT),
    (LOOPS_BACK + RESULT, LOOPS_BACK),
    **CALLS,
)
broken("2.42", "the result goes nowhere", (RESULT, ""), **CALLS)
broken("2.42", "the result is 0", (RESULT, RESULT.replace("= v", "= 0")), **CALLS)
broken("2.42", "a result of 0 is not set", (RESULT, "        if v:\n    " + RESULT), **CALLS)
broken("2.42", "the result goes to variable 0", (RESULT, RESULT.replace("self.table.rows[row][3]", "0")), **CALLS)
AFTER = RESULT + "        state.row = row + 1\n"
broken("2.42", "a return goes to the 45", (AFTER, AFTER.replace("row + 1", "row")), **CALLS)
broken("2.42", "a return goes two rows past the 45", (AFTER, AFTER.replace("row + 1", "row + 2")), **CALLS)
LOST = "        for r, _, _ in state.loops:\n            state.variables[self.table.rows[r][1]] = 0\n"
broken("2.42", "the iterator of a dropped loop becomes 0", (LOCALS_LEFT, LOST + LOCALS_LEFT), **CALLS)
LAST = "        for r, _, end in state.loops:\n            if self.table.rows[r][0] == 38:\n"
LAST += "                state.variables[self.table.rows[r][1]] = end\n"
broken("2.42", "the iterator of a dropped loop gets its end", (LOCALS_LEFT, LAST + LOCALS_LEFT), **CALLS)
SET_BACK = "        for r, start, _ in loops:\n"
SET_BACK += "            held = start if self.table.rows[r][0] == 38 or self.writer else class_of(start, self.pair)\n"
SET_BACK += "            state.variables[self.table.rows[r][1]] = held\n"
broken("2.44", "the iterators of the caller's loops come back", (LOOPS_BACK, LOOPS_BACK + SET_BACK), **CALLS)
for kinds, what in ("(BOOL,)", "bools"), ("(POINTER,)", "pointers"), ("(UINT,)", "global uints"):
    keeps = "        kept = {x: y for x, y in enumerate(state.variables) if self.table.declarations[x][0] in %s and x not in at_work}\n" % kinds
    come = "        for x, y in kept.items():\n            state.variables[x] = y\n"
    broken(
        "2.44",
        "%s are put aside" % what,
        (PUT_ASIDE, PUT_ASIDE + keeps),
        (APPENDED, APPENDED.replace("state.loops", "state.loops, kept")),
        (BACK, BACK.replace("loops", "loops, kept")),
        (RESULT, come + RESULT),
        **CALLS,
    )
broken(
    "2.44",
    "the arrays of a procedure are dropped",
    (APPENDED, APPENDED.replace("state.loops", "state.loops, len(state.arrays)")),
    (BACK, BACK.replace("loops", "loops, made") + "        del state.arrays[made:]\n"),
    **CALLS,
)

FALLS = "        if at in self.table.stops:\n            self.give_back(state, at, 0)\n            return\n"
broken("2.43", "falling off returns 1", (FALLS, FALLS.replace("at, 0", "at, 1")), **CALLS)
PARAMETER = "state.variables[self.table.locals_of(self.table.home(at))[0]]"
broken("2.43", "falling off returns the parameter", (FALLS, FALLS.replace("at, 0", "at, " + PARAMETER)), **CALLS)
KEPT_RESULT = "state.variables[self.table.rows[state.callers[-1][0]][3]]"
broken("2.43", "falling off leaves the variable of the 45", (FALLS, FALLS.replace("at, 0", "at, " + KEPT_RESULT)), **CALLS)
broken(
    "2.43",
    "falling off takes a choice",
    (FALLS, FALLS.replace("            self.give", "            if self.pair:\n                self.choice(0)\n            self.give")),
    **CALLS,
)
INTO = FALLS.replace("in self.table.stops", "== len(self.table.rows)")
broken("2.43", "a procedure runs into the next", (FALLS, INTO), **CALLS)
ENDS_THERE = '            if at == len(self.table.rows):\n                raise Ended("done")\n            self.give'
ENDS_THERE = FALLS.replace("            self.give", ENDS_THERE)
broken("2.43", "a run ends at the row count, with callers or none", (FALLS, ENDS_THERE), **CALLS)
UNCOUNTED = "            steps += state.row not in self.table.stops\n            state = following\n"
broken("2.43", "falling off counts no step", (COUNTED, UNCOUNTED), **CALLS)
broken(
    "2.43",
    "falling off counts two steps",
    (COUNTED, UNCOUNTED.replace("state.row not in", "1 + (state.row in").replace("stops\n", "stops)\n", 1)),
    **CALLS,
)
EMPTY = "            steps += not (state.row in self.table.stops and state.row - 1 in self.table.stops)\n            state = following\n"
broken("2.43", "a call of a procedure with no rows is one step", (COUNTED, EMPTY), **CALLS)
OUT = "            if steps == limit:\n"
broken("2.43", "falling off is taken also with the limit reached", (OUT, OUT.replace(":\n", " and state.row not in self.table.stops:\n")), **CALLS)
broken("2.28", "a run is done at a 43, with callers or none", (ROWS_LEFT, "        while state.row not in self.table.stops:\n"), **CALLS)
OVER_43 = FALLS.replace("in self.table.stops:", "in self.table.stops and state.callers:")
broken(
    "2.28",
    "main goes on past the first 43",
    (ROWS_LEFT, "        while state.callers or state.row < len(self.table.rows):\n"),
    (FALLS, OVER_43),
    kinds={43},
    stops=True,
)
HOME = "        above = [p for p, r in enumerate(self.procedures) if r < row]\n"
broken("1.20", "the row of a 43 belongs to the procedure that it opens", (HOME, HOME.replace("<", "<=")), kinds={43}, stops=True)
broken("1.20", "the row after a 43 belongs to what is before it", (HOME, HOME.replace("r < row", "r + 1 < row")), kinds={43}, stops=True)
RANGE = "        return list(range(first, first + count))\n"
broken("1.21", "the last local is global", (RANGE, RANGE.replace("first + count", "first + max(count - 1, 1)")), kinds={43}, stops=True)
broken(
    "1.21",
    "the variable after the locals is one too",
    (RANGE, RANGE.replace("first + count", "first + count + (first + count < len(self.declarations))")),
    kinds={43},
    stops=True,
)

# The reduction

CLASS = "    return 0 if v < c1 else 1 if v == c1 else 2 if v < c2 else 3 if v == c2 else 4"
REDUCED_KINDS = {27, 28, 29, 40, 41, 42}
for what, old, new in (
    ("c1 has class 0", "v < c1", "v <= c1"),
    ("c1 + 1 has class 1", "v == c1", "v in (c1, c1 + 1)"),
    ("c2 has class 2", "v < c2", "v <= c2"),
    ("c2 - 1 has class 3", "2 if v < c2 else 3 if v == c2", "2 if v < c2 - 1 else 3 if v <= c2"),
    ("above c2 has class 3", "v == c2", "v >= c2"),
    ("c2 has class 4", "3 if v == c2", "3 if v < 0"),
    ("neighbours have the classes 0 to 3", "3 if v == c2 else 4", "(3 if v == c2 else 4) - (c1 + 1 == c2)"),
):
    broken("3.2", what, (CLASS, CLASS.replace(old, new)), kinds=REDUCED_KINDS, stops=True)
KIND = "            if k in (16, 38) and self.marked(a, UINT):\n"
OTHERS = "            return {19: 28, 26: 29, 34: 40}.get(k, k)\n"
for k, new in (16, 27), (38, 42):
    broken("3.4", "%d of a marked uint stays" % k, (KIND, KIND.replace("(16, 38)", "(%d,)" % (54 - k))), reduces=True)
    broken(
        "3.4",
        "%d of any uint becomes %d" % (k, new),
        (KIND, "            if k == %d and self.declarations[a][0] == UINT:\n                return %d\n" % (k, new) + KIND),
        reduces=True,
    )
broken(
    "3.4",
    "16 of a marked pointer becomes 27",
    (KIND, "            if k == 16 and self.marked(a, POINTER):\n                return 27\n" + KIND),
    stops=True,
    reduces=True,
)
NEW_KIND = "            if k == 37 and self.marked(a, POINTER):\n"
broken("3.4", "37 of a marked pointer stays", (NEW_KIND, NEW_KIND.replace("37", "0")), reduces=True)
broken("3.4", "37 of any pointer becomes 41", (NEW_KIND, "            if k == 37:\n"), reduces=True)
for k, new in (19, 28), (26, 29), (34, 40):
    broken("3.4", "%d stays" % k, (OTHERS, OTHERS.replace("%d: %d" % (k, new), "0: 0")), reduces=True)
LINES = "        return Table([(kind(k, a), a, b, c) for k, a, b, c in self.lines])\n"
broken(
    "3.3",
    "42 has its bounds the other way round",
    (LINES, LINES.replace("a, b, c) for", "a, *((c, b) if kind(k, a) == 42 else (b, c))) for")),
    kinds={38},
    reduces=True,
)
broken(
    "3.3",
    "40 has the operands of its value alone",
    (LINES, LINES.replace("a, b, c) for", "a, a if k == 34 else b, c) for")),
    kinds={34},
    stops=True,
    reduces=True,
)
broken(
    "3.3",
    "the marks are lost",
    (LINES, LINES.replace("a, b, c) for", "a if k > 3 else 0, b, c) for")),
    reduces=True,
)
broken(
    "3.3",
    "rows of skip are left out",
    (LINES, LINES.replace("self.lines]", "self.lines if k != 32]")),
    kinds={32},
    stops=True,
    reduces=True,
)
IN_PROCEDURES = LINES.replace("kind(k, a), a", "k if i > at else kind(k, a), a")
IN_PROCEDURES = IN_PROCEDURES.replace("for k, a, b, c in self.lines", "for i, (k, a, b, c) in enumerate(self.lines)")
FIRST_43 = "        at = min([i for i, line in enumerate(self.lines) if line[0] == 43], default=len(self.lines))\n"
broken("3.4", "the rows of procedures stay", (LINES, FIRST_43 + IN_PROCEDURES), kinds={43}, stops=True, reduces=True)

TAKES = "            return self.choice(held, None if self.writer else held)\n"
broken("3.13", "27 takes no choice and is the class", (TAKES, "            return held\n"), kinds={27})
broken("3.13", "27 takes any choice", (TAKES, "            return self.choice(held)\n"), kinds={27})
broken(
    "3.13",
    "27 takes a choice and is the class",
    (TAKES, TAKES.replace("return", "v =") + "            return v if self.writer else held\n"),
    kinds={27},
)
broken(
    "3.13",
    "the variable of 27 gets the choice",
    (TAKES, TAKES.replace("return", "v =") + "            state.variables[a] = v\n            return v\n"),
    kinds={27},
    stops=True,
)
UNTRACKED = "        if pointer[1] not in self.pair:\n            return self.choice(true)\n"
TRACKED = "        return true if self.writer else self.cells[first + class_of(pointer[1], self.pair)]\n"
broken("3.15", "28 fails by the cells of the reduced array", (READ, READ.replace("array[1]:", "self.size(*array[1:]):")), kinds={28})
broken(
    "3.15",
    "28 takes a choice before it fails past the length",
    (READ, "        if array[2] and pointer[1] >= array[1]:\n            self.choice(0)\n" + READ),
    kinds={28},
)
broken(
    "3.15",
    "28 takes a choice before it fails with no array",
    (NONE_TO_READ, "        if array is None and self.pair:\n            self.choice(0)\n" + NONE_TO_READ),
    kinds={28},
)
broken("3.15", "28 at a tracked place takes a choice too", (TRACKED, "        self.choice(true)\n" + TRACKED), kinds={28})
broken("3.15", "28 at c1 takes a choice and is that", (UNTRACKED, UNTRACKED.replace("self.pair:", "self.pair[1:]:")), kinds={28})
broken("3.15", "28 at c2 takes a choice and is that", (UNTRACKED, UNTRACKED.replace("self.pair:", "self.pair[:1]:")), kinds={28})
broken("3.15", "28 elsewhere reads the cell of its class, with no choice", (UNTRACKED, ""), kinds={28})
broken(
    "3.15",
    "28 elsewhere wants a choice in the class of the place",
    (UNTRACKED, UNTRACKED.replace("self.choice(true)", "self.choice(true, None if self.writer else class_of(pointer[1], self.pair))")),
    kinds={28},
)
broken(
    "3.10",
    "28 at a tracked place reads the cell numbered by the place",
    (TRACKED, TRACKED.replace("class_of(pointer[1], self.pair)", "min(pointer[1], 4)")),
    kinds={28},
)
LAST = (
    "        if pointer[1] not in self.pair:\n            got = self.choice(true)\n"
    "            return got if self.writer else self.last.get((first, pointer[1]), got)\n"
)
DROPPED = "        elif place in self.pair:\n"
REMEMBER = "            self.last[(first, pointer[1])] = v\n        if reduced and place in self.pair and not self.writer:\n"
broken(
    "3.15",
    "28 elsewhere is the last number written there",
    (UNTRACKED, LAST),
    (DROPPED, "        elif place not in self.pair:\n" + REMEMBER),
    ("        self.used = 0\n", "        self.used = 0\n        self.last = {}\n"),
    kinds={28},
)
MEMORY = (
    "        if pointer[1] not in self.pair:\n"
    "            if (first, pointer[1]) not in self.seen:\n"
    "                self.seen[(first, pointer[1])] = self.choice(true)\n"
    "            return self.seen[(first, pointer[1])]\n"
)
broken(
    "3.15",
    "28 elsewhere takes a choice at its first reading alone",
    (UNTRACKED, MEMORY),
    ("        self.used = 0\n", "        self.used = 0\n        self.seen = {}\n"),
    kinds={28},
)
ARRAY_PLAIN = "        if not reduced:\n            return self.cells[first + pointer[1]]\n"
broken(
    "3.19",
    "28 of a plain array takes a choice where the place is not tracked",
    (ARRAY_PLAIN, ARRAY_PLAIN.replace("if not reduced", "if not reduced and (self.pair is None or pointer[1] in self.pair)")),
    (UNTRACKED, UNTRACKED.replace("true)", "self.cells[first + pointer[1]])")),
    kinds={28},
    stops=True,
)
PLACE_OF = "        place = pointer[1]\n"
CHOSEN = "        place = self.in_class(pointer[1]) if %s else pointer[1]\n"
TAKEN_FOR_IT = "        if %s:\n            self.in_class(pointer[1])\n" + PLACE_OF
broken("3.19", "40 of a plain array takes a choice", (PLACE_OF, CHOSEN % "not reduced and self.pair is not None"), kinds={40})
broken(
    "3.19",
    "40 of a plain array drops the write where the place is not tracked",
    (
        "        if not reduced or self.writer:\n            self.cells[first + place] = v\n",
        (
            "        if self.holds_classes and not reduced and place not in self.pair:\n"
            "            return\n        if not reduced or self.writer:\n"
            "            self.cells[first + place] = v\n"
        ),
    ),
    kinds={40},
)
NO_ARRAY = WRITTEN.replace(
    "            raise",
    "            if self.pair is not None:\n                self.in_class(pointer[1])\n            raise",
)
broken("3.17", "40 with no array takes a choice before it fails", (WRITTEN, NO_ARRAY), kinds={40})
broken("3.17", "40 goes by a choice in the class of its place", (PLACE_OF, CHOSEN % "reduced"), kinds={40})
broken("3.17", "40 goes by such a choice where its place is not tracked", (PLACE_OF, CHOSEN % "reduced and pointer[1] not in self.pair"), kinds={40})
for what, test in (
    ("", "reduced"),
    (" at a tracked place", "reduced and pointer[1] in self.pair"),
    (" at a place that is not tracked", "reduced and pointer[1] not in self.pair"),
    (" past the length", "reduced and pointer[1] >= length"),
    (" below the length", "reduced and pointer[1] < length"),
):
    broken("3.17", "40%s takes a choice, and goes by its place" % what, (PLACE_OF, TAKEN_FOR_IT % test), kinds={40})
BY_CLASS = "        if (class_of(place, self.pair) >= class_of(length, self.pair) if reduced else place >= length):\n            raise failed(PAST)\n"
broken("3.17", "40 fails by the class of its place", (WRITE_PAST, BY_CLASS), kinds={40})
LAST_CLASS = "        if place >= length or reduced and class_of(place, self.pair) == 4:\n            raise failed(PAST)\n"
broken("3.17", "40 above both tracked places fails", (WRITE_PAST, LAST_CLASS), kinds={40})
broken(
    "3.17",
    "40 fails at a place that is not tracked",
    (WRITE_PAST, WRITE_PAST.replace("length:", "length or reduced and not self.writer and place not in self.pair:")),
    kinds={40},
)
broken(
    "3.17",
    "40 past the length fails at a tracked place alone",
    (WRITE_PAST, WRITE_PAST.replace("length:", "length and (not reduced or self.writer or place in self.pair):")),
    kinds={40},
)
broken(
    "3.18",
    "40 elsewhere writes the cell of its class",
    (DROPPED, "        elif class_of(place, self.pair) < class_of(length, self.pair):\n"),
    kinds={40},
)
broken("3.18", "40 at c1 is dropped", (DROPPED, "        elif place == self.pair[1]:\n"), kinds={40})
broken("3.18", "40 at c2 is dropped", (DROPPED, "        elif place == self.pair[0]:\n"), kinds={40})
KEPT_CELL = "            self.cells[first + class_of(place, self.pair)] = v\n"
broken(
    "3.10",
    "40 at a tracked place writes the cell numbered by the place",
    (KEPT_CELL, "            self.cells[first + min(place, 4)] = v\n"),
    kinds={40},
)
PAIR_TAKEN = "            start = self.in_class(start)\n            end = self.in_class(end)\n"
broken(
    "3.20",
    "42 takes the choice of the end first",
    (PAIR_TAKEN, "            end = self.in_class(end)\n            start = self.in_class(start)\n"),
    kinds={42},
)
broken("3.20", "42 takes no choice for the end", (PAIR_TAKEN, "            start = self.in_class(start)\n"), kinds={42})
broken("3.20", "42 takes no choice for the start", (PAIR_TAKEN, "            end = self.in_class(end)\n"), kinds={42})
broken(
    "3.20",
    "42 takes any choice for the start",
    (PAIR_TAKEN, PAIR_TAKEN.replace("self.in_class(start)", "self.choice(start)")),
    kinds={42},
)
broken("3.20", "42 takes any choice for the end", (PAIR_TAKEN, PAIR_TAKEN.replace("self.in_class(end)", "self.choice(end)")), kinds={42})
broken(
    "3.20",
    "the choices of 42 do not take the place of start and end",
    (PAIR_TAKEN, "            self.in_class(start)\n            self.in_class(end)\n"),
    kinds={42},
)
broken(
    "3.20",
    "the choice of the start does not take its place",
    (PAIR_TAKEN, "            self.in_class(start)\n            end = self.in_class(end)\n"),
    kinds={42},
)
broken(
    "3.20",
    "the choice of the end does not take its place",
    (PAIR_TAKEN, "            start = self.in_class(start)\n            self.in_class(end)\n"),
    kinds={42},
)
KEEPS = "        state.loops.append((row, start, end))\n"
TRUE = (
    "        kind, iterator, _, _ = self.table.rows[row]\n",
    "        kind, iterator, _, _ = self.table.rows[row]\n        true = start, end\n",
)
broken("3.20", "the true start and end of 42 are kept", TRUE, (KEEPS, "        state.loops.append((row, *true))\n"), kinds={42})
broken("3.20", "42 goes by the true start and end", TRUE, (ENTERS, ENTERS.replace("start > end", "true[0] > true[1]")), kinds={42})
broken(
    "3.20",
    "42 compares the classes of start and end",
    (ENTERS, ENTERS.replace("start > end", "(class_of(start, self.pair) > class_of(end, self.pair) if kind == 42 else start > end)")),
    kinds={42},
)
broken("3.20", "the iterator of 42 gets the choice", (SETS, "        state.variables[iterator] = start\n"), kinds={42}, stops=True)
broken("3.20", "the iterator of 42 gets the class of the end", (SETS, SETS.replace("class_of(start,", "class_of(end,")), kinds={42})
BOTH_READ = (
    "            true, start, end = (start, end), self.choice(start), self.choice(end)\n"
    "            for v, w in zip(true, (start, end)):\n"
    "                if class_of(v, self.pair) != class_of(w, self.pair):\n"
    "                    raise Ended('badchoice')\n"
)
broken("3.12", "42 reads both choices before it tests one", (PAIR_TAKEN, BOTH_READ), kinds={42})
BETWEEN = (
    "            start = self.in_class(start)\n            if self.holds_classes:\n"
    "                state.variables[iterator] = class_of(start, self.pair)\n"
)
BETWEEN += "            end = self.in_class(end)\n"
STAYS = "                    state.variables = following.variables\n" + NOT_TAKEN
broken(
    "2.30",
    "42 sets its iterator before its second choice is tested",
    (PAIR_TAKEN, BETWEEN),
    (NOT_TAKEN, STAYS),
    kinds={42},
)
LOOPS_STAY = "                    state.loops = following.loops\n" + NOT_TAKEN
broken("2.30", "a 39 whose choice is not allowed drops its loop", (NOT_TAKEN, LOOPS_STAY), kinds={42})
EXACT = (
    "        v = self.choice(true, class_of(true, self.pair))\n        if v != true:\n"
    "            raise Ended('badchoice')\n        return v\n"
)
broken(
    "3.12",
    "42 takes no choice but the true number",
    ("        return self.choice(true, class_of(true, self.pair))\n", EXACT),
    kinds={42},
)
TRACKED_EXACT = EXACT.replace("v != true", "v != true and true not in self.pair and v == 0")
broken(
    "3.12",
    "0 is not allowed for another number below c1",
    ("        return self.choice(true, class_of(true, self.pair))\n", TRACKED_EXACT),
    kinds={42},
)
AT_ENTRY = "        if kind == 42 and state.row - 1 == row:\n            start = self.in_class(start)\n"
broken(
    "3.21",
    "39 takes no choices",
    ("        if kind == 42:\n            start = self.in_class(start)\n", AT_ENTRY),
    kinds={42},
)
broken(
    "3.21",
    "39 takes choices only where it goes round",
    (
        "        if kind == 42:\n            start = self.in_class(start)\n",
        AT_ENTRY.replace("state.row - 1 == row", "(state.row - 1 == row or start <= end)"),
    ),
    kinds={42},
)
broken(
    "3.20",
    "42 takes choices only where it is entered",
    (
        "        if kind == 42:\n            start = self.in_class(start)\n",
        AT_ENTRY.replace("state.row - 1 == row", "(state.row - 1 != row or start <= end)"),
    ),
    kinds={42},
)
broken(
    "3.21",
    "39 takes its choice in the class of the kept start",
    (PAIR_TAKEN, "            start = self.in_class(start if state.row - 1 == row else start - 1)\n            end = self.in_class(end)\n"),
    kinds={42},
)
ENTRY_CHOICE = (
    "            start = self.value(state, b)\n            if kind == 42:\n"
    "                start = self.in_class(start)\n"
    "            if not self.enter(state, at, start, self.value(state, c)):"
)
broken(
    "3.20",
    "42 takes its first choice before its end is worked out",
    (BOUNDS, ENTRY_CHOICE),
    (PAIR_TAKEN, "            start = start if state.row - 1 == row else self.in_class(start)\n            end = self.in_class(end)\n"),
    kinds={42},
)
broken(
    "3.5",
    "38 takes choices too",
    (
        "        if kind == 42:\n            start = self.in_class(start)\n",
        "        if self.pair is not None:\n            start = self.in_class(start)\n",
    ),
    kinds={38},
)
SIZE = "        return class_of(length, self.pair) if reduced and not self.writer else length\n"
broken(
    "3.7",
    "a reduced array has the cells of the class of its last place",
    (SIZE, SIZE.replace("class_of(length,", "length and class_of(length - 1,")),
    kinds={41},
)
broken(
    "3.7",
    "a reduced array has a cell more",
    (SIZE, SIZE.replace("class_of(length, self.pair)", "class_of(length, self.pair) + 1")),
    kinds={41},
)
FILLED = "sum(k not in empty_classes(%s) for k in range(class_of(length, %s)))"
broken(
    "3.7",
    "a reduced array has no cell for an empty class",
    (SIZE, SIZE.replace("class_of(length, self.pair)", FILLED % ("self.pair", "self.pair"))),
    kinds={41},
)
broken("3.7", "a reduced array has as many cells as its length", (SIZE, "        return length\n"), kinds={41})
broken("3.7", "a reduced array always has four cells", (SIZE, SIZE.replace("class_of(length, self.pair)", "4")), kinds={41})
MADE = "        state.arrays.append((first, length, reduced))\n"
broken("3.7", "a reduced array's length is the number of its cells", (MADE, MADE.replace("length", "size")), kinds={41})
broken(
    "3.7",
    "a reduced array's length is the class of the length",
    (MADE, MADE.replace("length", "class_of(length, self.pair) if reduced else length")),
    kinds={41},
)
broken("3.7", "41 makes a plain array", (NEW, NEW.replace("kind == 41", "False")), kinds={41})
broken("3.8", "37 of an unmarked pointer makes a reduced array", (NEW, NEW.replace("kind == 41", "self.pair is not None")), kinds={37})
ROOT = (
    "    def root(self, n):\n        kind, a, b, _ = self.table.nodes[n]\n"
    "        return a if kind in (16, 27) else self.root(b if kind == 25 else a)\n\n"
    "    def read(self, state, pointer):\n"
)
BY_POINTER = (
    "        first, _, reduced = array\n"
    "        reduced = self.pair is not None and self.table.marked(self.root(self.reading), POINTER)\n"
)
broken(
    "3.8",
    "28 goes by the mark of the pointer, not by the row that made the array",
    ("    def read(self, state, pointer):\n", ROOT),
    ("        first, _, reduced = array\n", BY_POINTER),
    (LEFT, LEFT + "\n            self.reading = a"),
    kinds={28},
    stops=True,
)
ROOTS = ROOT.replace("read(self, state, pointer)", "write(self, state, pointer, v)")
BY_POINTER = (
    "        first, length, reduced = array\n"
    "        reduced = self.pair is not None and self.table.marked(self.root(self.writing), POINTER)\n"
)
broken(
    "3.8",
    "40 goes by the mark of the pointer, not by the row that made the array",
    ("    def write(self, state, pointer, v):\n", ROOTS),
    ("        first, length, reduced = array\n", BY_POINTER),
    (STORED, "            self.writing = a\n" + STORED),
    kinds={40},
    stops=True,
)
READER = "        if self.used == len(self.choices):\n            raise Ended(\"nochoice\")\n"
broken(
    "3.12",
    "a choice that is not there ends as badchoice",
    (READER, READER.replace("nochoice", "badchoice")),
    kinds={27, 28, 42},
)
broken(
    "3.11",
    "the list starts again at its end",
    (READER, "        if not self.choices:\n            raise Ended(\"nochoice\")\n"),
    ("        v = self.choices[self.used]\n", "        v = self.choices[self.used % len(self.choices)]\n"),
    kinds={27, 28, 42},
)
broken(
    "3.11",
    "the last choice is not read",
    (READER, READER.replace("== len(self.choices)", ">= len(self.choices) - 1")),
    kinds={27, 28, 42},
)
broken(
    "3.12",
    "a choice that is not allowed ends as nochoice",
    ('            raise Ended("badchoice")\n', '            raise Ended("nochoice")\n'),
    kinds={27, 42},
)
broken(
    "3.12",
    "a choice that is not allowed ends as fail",
    ('            raise Ended("badchoice")\n', "            raise failed(PAST)\n"),
    kinds={27, 42},
)
broken(
    "3.11",
    "choices are read from the end",
    ("        v = self.choices[self.used]\n", "        v = self.choices[-1 - self.used]\n"),
    kinds={27, 28, 42},
)

# The choice writer and pairrun

WRITES = {"kinds": {27, 28, 40, 41, 42}, "machines": False}
broken(
    "4.6",
    "the writer writes the class at 27",
    (TAKES, "            if self.writer:\n                self.choice(class_of(held, self.pair))\n                return held\n" + TAKES),
    **WRITES,
)
broken(
    "4.6",
    "the writer writes nothing at 27",
    (TAKES, "            if self.writer:\n                return held\n" + TAKES),
    **WRITES,
)
broken(
    "4.6",
    "the writer writes the place at 28",
    (
        UNTRACKED,
        UNTRACKED.replace(
            "            return",
            "            if self.writer:\n                self.choice(pointer[1])\n                return true\n            return",
        ),
    ),
    **WRITES,
)
broken(
    "4.6",
    "the writer writes nothing at 28",
    (UNTRACKED, UNTRACKED.replace("not in self.pair:", "not in self.pair and not self.writer:")),
    **WRITES,
)
broken(
    "4.6",
    "the writer writes at a tracked place of 28 too",
    (UNTRACKED, UNTRACKED.replace("if pointer[1]", "if self.writer or pointer[1]")),
    **WRITES,
)
broken(
    "4.7",
    "the writer writes at 28 of a plain array",
    (
        ARRAY_PLAIN,
        ARRAY_PLAIN.replace(
            "            return",
            (
                "            if self.writer and pointer[1] not in self.pair:\n"
                "                self.choice(self.cells[first + pointer[1]])\n            return"
            ),
        ),
    ),
    **WRITES,
)
for what, test in (
    ("", "reduced"),
    (" at a tracked place", "reduced and pointer[1] in self.pair"),
    (" at a place that is not tracked", "reduced and pointer[1] not in self.pair"),
    (" past the length", "reduced and pointer[1] >= length"),
    (" of a plain array", "not reduced"),
):
    broken("4.6", "the writer writes the place at 40" + what, (PLACE_OF, TAKEN_FOR_IT % ("self.writer and (%s)" % test)), **WRITES)
broken("4.6", "the writer writes the value at 40", (PLACE_OF, (TAKEN_FOR_IT % "self.writer and reduced").replace("pointer[1])", "v)")), **WRITES)
broken(
    "4.6",
    "the writer writes the end before the start",
    (
        PAIR_TAKEN,
        (
            "            if self.writer:\n                self.choice(end)\n                self.choice(start)\n            else:\n    "
            + PAIR_TAKEN.replace("\n            end", "\n                end")
        ),
    ),
    **WRITES,
)
broken(
    "4.6",
    "the writer writes the start alone",
    (PAIR_TAKEN, PAIR_TAKEN.replace("end = self.in_class(end)", "end = end if self.writer else self.in_class(end)")),
    **WRITES,
)
broken(
    "4.6",
    "the writer writes nothing at 39",
    (
        "        if kind == 42:\n            start = self.in_class(start)\n",
        AT_ENTRY.replace("state.row - 1 == row", "not (self.writer and state.row - 1 != row)"),
    ),
    **WRITES,
)
broken(
    "4.6",
    "the writer writes nothing at a 39 that leaves",
    (
        "        if kind == 42:\n            start = self.in_class(start)\n",
        AT_ENTRY.replace("state.row - 1 == row", "not (self.writer and state.row - 1 != row and start > end)"),
    ),
    **WRITES,
)
broken(
    "4.6",
    "the writer writes nothing at a 42 not entered",
    (
        "        if kind == 42:\n            start = self.in_class(start)\n",
        AT_ENTRY.replace("state.row - 1 == row", "not (self.writer and state.row - 1 == row and start > end)"),
    ),
    **WRITES,
)
KEPT_OLD = PAIR_TAKEN.replace(
    "self.in_class(start)",
    "self.in_class(start) if not self.writer or state.row - 1 == row else self.choice(start - 1) + 1",
)
broken("4.6", "the writer writes the kept start, not start + 1", (PAIR_TAKEN, KEPT_OLD), **WRITES)
broken("4.7", "the writer takes every array as reduced", (NEW, NEW.replace("kind == 41", "kind == 41 or self.writer")), **WRITES)
broken("4.7", "the writer takes no array as reduced", (NEW, NEW.replace("kind == 41", "kind == 41 and not self.writer")), **WRITES)
broken(
    "4.5",
    "the writer has the cells of reduced arrays",
    (SIZE, SIZE.replace("reduced and not self.writer", "reduced")),
    **WRITES,
    stops=True,
)
broken(
    "4.5",
    "the writer's marked uints start at class 1",
    ("self.holds_classes and self.table.marked", "(self.holds_classes or self.writer) and self.table.marked"),
    (CLASS_OF_ZERO, "variables[v] = class_of(0, self.pair) if self.holds_classes else 1"),
    **WRITES,
)
FULL = "            if self.used == self.room:\n                raise Ended(\"full\")\n"
broken("4.8", "the last word of the room is not used", (FULL, FULL.replace("== self.room", "+ 1 == self.room")), **WRITES)
broken("4.8", "a word more than the room is written", (FULL, FULL.replace("self.used ==", "self.used - 1 ==")), **WRITES)
broken(
    "4.8",
    "the step of list full counts",
    (NOT_TAKEN, NOT_TAKEN.replace("steps,", "steps + (e.args[0] == 'full'),")),
    **WRITES,
)
broken(
    "4.8",
    "the numbers of the step of list full count",
    (TAKEN_BACK, TAKEN_BACK.replace("= used", "= self.used if e.args[0] == 'full' else used")),
    ("                        del self.choices[used:]\n", "                        pass\n"),
    **WRITES,
)
broken(
    "4.8",
    "the numbers of a step that is not taken stay in the list",
    ("                        del self.choices[used:]\n", "                        pass\n"),
    **WRITES,
)
broken(
    "4.8",
    "the row moves on at list full",
    (NOT_TAKEN, "                    state.row += e.args[0] == 'full'\n" + NOT_TAKEN),
    **WRITES,
)
STEPS = "            used, following = self.used, state.copy()\n"
TOO_SOON = "            if self.writer and self.used == self.room:\n                return 'full', steps, state\n"
broken("4.9", "a step without choices is not taken where no room is left", (STEPS, TOO_SOON + STEPS), **WRITES)
broken(
    "4.9",
    "list full is tested before out of steps",
    ("            if steps == limit:\n", TOO_SOON + "            if steps == limit:\n"),
    **WRITES,
)
broken(
    "4.9",
    "list full is tested before done",
    (ROWS_LEFT, ROWS_LEFT.replace(":\n", " or self.writer and self.used == self.room:\n") + TOO_SOON),
    **WRITES,
)
LATE = "            try:\n                self.step(following)\n"
AT_THE_END = (
    LATE
    + "                if self.writer and self.room is not None and self.used > self.room:\n                    raise Ended('full')\n"
)
broken("4.8", "a step that fails after numbers that do not fit is a fail", (FULL, ""), (LATE, AT_THE_END), **WRITES)
broken(
    "4.10",
    "the rest of the list is zeroed",
    ("[LENT] * (n - len(numbers))", "[0] * (n - len(numbers))"),
    file=ROOMS,
)
PLAIN_LINE = '"plain %s row %d steps %d" % (end, state.row, steps)'
PAIR_LINE = '"pair %s row %d steps %d choices %d" % (end, state.row, steps, reduced.used)'
for line, text in ("plain", PLAIN_LINE), ("pair", PAIR_LINE):
    broken("8.17", "the %s line has no reason" % line, (text, text.replace("(end,", "(end.split()[0],")), file=PAIRS)
    broken("8.17", "the %s line has the reason last" % line, (text, "(%s).replace(end, end.split()[0]) + end[4:]" % text), file=PAIRS)
broken("8.6", "pairrun lends a room of 8,191", ("ROOM = 8192\n", "ROOM = 8191\n"), file=PAIRS)
broken("8.6", "pairrun lends a room of 8,193", ("ROOM = 8192\n", "ROOM = 8193\n"), file=PAIRS)
broken(
    "8.6",
    "the reduced run is lent the whole room",
    ("numbers[:count])", "numbers[:count] + [0] * (ROOM - count))"),
    file=PAIRS,
)
broken(
    "8.6",
    "the reduced run has a limit of its own",
    ("reduced.run(reduced.fresh(), limit)", "reduced.run(reduced.fresh(), limit + 1)"),
    file=PAIRS,
)
broken(
    "8.6",
    "the writer takes a step fewer",
    ("write_choices(lines, pair, limit, ROOM)", "write_choices(lines, pair, max(limit - 1, 0), ROOM)"),
    file=PAIRS,
)
broken(
    "2.22",
    "the plain run has 4,128 cells",
    ("Machine(Table(lines), [0] * CELLS[PLAIN])", "Machine(Table(lines), [0] * CELLS[REDUCED])"),
    file=PAIRS,
)
broken("2.22", "the reduced run has 4,096 cells", ("[0] * CELLS[REDUCED], pair", "[0] * CELLS[PLAIN], pair"), file=PAIRS)
broken(
    "8.8",
    "after a plain room nothing is printed of the pair",
    ("    _, _, _, count, numbers", "    if end == 'room':\n        return out\n    _, _, _, count, numbers"),
    file=PAIRS,
)
broken(
    "8.7",
    "a full list is told as full",
    (
        "    end, steps, state = reduced.run(reduced.fresh(), limit)\n",
        "    end, steps, state = reduced.run(reduced.fresh(), limit)\n    end = 'full' if end == 'nochoice' else end\n",
    ),
    file=PAIRS,
)

# Check 15, and the order of the table's checks, 13, 14 and 15

RECORD = {"continued": True, "stops": True}
ABOVE = "    if row > len(table.rows):\n"
broken("7.2", "the row count is above the row count", (ABOVE, ABOVE.replace(">", ">=")), **RECORD)
broken("7.2", "a row above the row count passes", (ABOVE, ABOVE.replace("len(table.rows)", "len(table.rows) + 1")), **RECORD)
AROUND = "    around = [r for r in sorted(table.ends) if r < row <= table.ends[r]]\n"
broken("7.3", "a loop is open at its own row", (AROUND, AROUND.replace("r < row", "r <= row")), **RECORD)
broken("7.3", "a loop is not open at its end row", (AROUND, AROUND.replace("<= table", "< table")), **RECORD)
broken(
    "7.3",
    "a loop is open past its end row",
    (AROUND, AROUND.replace("table.ends[r]]", "table.ends[r] + 1]")),
    **RECORD,
)
broken(
    "7.3",
    "open loops come innermost first",
    (AROUND, AROUND.replace("sorted(table.ends)", "sorted(table.ends, reverse=True)")),
    **RECORD,
)
OPEN = "    if open_ != len(around) or rows[:open_] != around:\n"
broken(
    "7.3",
    "the number of open loops is not tested",
    (OPEN, "    if rows[:len(around)] != around:\n"),
    **RECORD,
)
broken(
    "7.3",
    "more open loops than those around pass",
    (OPEN, "    if open_ < len(around) or rows[:len(around)] != around:\n"),
    **RECORD,
)
broken("7.3", "the rows of the open loops are not tested", (OPEN, "    if open_ != len(around):\n"), **RECORD)
broken(
    "7.3",
    "the innermost loop's row is not tested",
    (OPEN, OPEN.replace("[:open_] != around", "[: max(open_ - 1, 0)] != around[:-1]")),
    **RECORD,
)
broken(
    "7.3",
    "the outermost loop's row is not tested",
    (OPEN, OPEN.replace("[:open_] != around", "[1:open_] != around[1:]")),
    **RECORD,
)
STARTED = "    if any(start > end for _, start, end in loops):\n"
broken("7.4", "a start above its end passes", (STARTED, "    if False:\n"), **RECORD)
broken("7.4", "a start at its end is refused", (STARTED, STARTED.replace("start > end", "start >= end")), **RECORD)
broken("7.4", "only the innermost start is tested", (STARTED, STARTED.replace("in loops)", "in loops[-1:])")), **RECORD)
broken("7.4", "only the outermost start is tested", (STARTED, STARTED.replace("in loops)", "in loops[:1])")), **RECORD)
FEW = "    if loops is None or count > 16:\n"
broken("7.8", "17 arrays pass", (FEW, FEW.replace("16", "17")), **RECORD)
broken("7.8", "16 arrays are refused", (FEW, FEW.replace("16", "15")), **RECORD)
IN_SEQUENCE = "        if first != following or reduced and pair is None:\n"
broken(
    "7.9",
    "where arrays begin is not tested",
    (IN_SEQUENCE, "        if reduced and pair is None:\n"),
    **RECORD,
)
broken(
    "7.9",
    "where the first array begins is not tested",
    (IN_SEQUENCE, IN_SEQUENCE.replace("first != following", "i and first != following")),
    **RECORD,
)
broken(
    "7.9",
    "where the second array begins is not tested",
    (IN_SEQUENCE, IN_SEQUENCE.replace("first != following", "not i and first != following")),
    **RECORD,
)
broken(
    "7.9",
    "a cell may be left free between arrays",
    (IN_SEQUENCE, IN_SEQUENCE.replace("first != following", "first not in (following, following + 1)")),
    **RECORD,
)
broken(
    "7.9",
    "an array may begin inside the one before",
    (IN_SEQUENCE, IN_SEQUENCE.replace("first != following", "first > following")),
    **RECORD,
)
broken(
    "7.11",
    "a reduced array in a plain record passes",
    (IN_SEQUENCE, "        if first != following:\n"),
    (
        "        following += class_of(length, pair) if reduced else length\n",
        "        following += class_of(length, pair or (1, 3)) if reduced else length\n",
    ),
    **RECORD,
)
SHAPE = 'record[SHAPE][i] == 1\n'
broken("2.4", "any shape but 0 is a reduced array", (SHAPE, "record[SHAPE][i] != 0\n"), **RECORD)
broken(
    "7.12",
    "a reduced record may hold no plain array",
    (IN_SEQUENCE, IN_SEQUENCE.replace("pair is None", "pair is None or pair and not reduced")),
    **RECORD,
)
FOLLOWING = "        following += class_of(length, pair) if reduced else length\n"
broken("7.9", "a reduced array takes its length", (FOLLOWING, "        following += length\n"), **RECORD)
broken("7.9", "an empty class takes no cell", (FOLLOWING, FOLLOWING.replace("class_of(length, pair)", FILLED % ("pair", "pair"))), **RECORD)
broken(
    "7.9",
    "a plain array in a reduced record takes its class",
    (FOLLOWING, FOLLOWING.replace("if reduced", "if reduced or pair")),
    **RECORD,
)
broken("7.10", "lengths are summed modulo 2^32", (FOLLOWING, FOLLOWING + "        following %= 2**32\n"), **RECORD)
CELLS_LEFT = "    if following > cells:\n"
broken("7.10", "arrays past the cells pass", (CELLS_LEFT, "    if False:\n"), **RECORD)
broken("7.10", "arrays that fill the cells are refused", (CELLS_LEFT, CELLS_LEFT.replace(">", ">=")), **RECORD)
broken("7.10", "arrays one past the cells pass", (CELLS_LEFT, CELLS_LEFT.replace("cells", "cells + 1")), **RECORD)
broken("7.10", "both records have 4,128 cells", (CELLS_LEFT, CELLS_LEFT.replace("cells", "4128")), **RECORD)
broken("7.10", "a reduced record has 4,127 cells", (CELLS_LEFT, CELLS_LEFT.replace("cells", "min(cells, 4127)")), **RECORD)
broken("7.10", "both records have 4,096 cells", (CELLS_LEFT, CELLS_LEFT.replace("cells", "4096")), **RECORD)
OF_TYPE = "        if kind == BOOL and number > 1 or kind == POINTER and base > count:\n"
broken("7.5", "a bool of 2 passes", (OF_TYPE, OF_TYPE.replace("number > 1", "number > 2")), **RECORD)
broken("7.5", "a bool of 1 is refused", (OF_TYPE, OF_TYPE.replace("number > 1", "number > 0")), **RECORD)
broken(
    "7.7",
    "a pointer to the array after the last passes",
    (OF_TYPE, OF_TYPE.replace("base > count", "base > count + 1")),
    **RECORD,
)
broken(
    "7.7",
    "a pointer to the last array is refused",
    (OF_TYPE, OF_TYPE.replace("base > count", "base >= count")),
    **RECORD,
)
broken(
    "7.7",
    "a pointer with no array is refused",
    (OF_TYPE, OF_TYPE.replace("base > count", "(base > count or base == 0)")),
    **RECORD,
)
PAST_ARRAY = OF_TYPE.replace("base > count", "(base > count or base and number >= arrays[base - 1][1])")
broken("7.12", "a pointer past its array is refused", (OF_TYPE, PAST_ARRAY), **RECORD)
broken(
    "7.12",
    "a pointer with no array and a place is refused",
    (OF_TYPE, OF_TYPE.replace("base > count", "(base > count or not base and number)")),
    **RECORD,
)
broken(
    "7.13",
    "the base of a variable that is no pointer is tested",
    (OF_TYPE, OF_TYPE.replace("kind == POINTER and base", "base is not None and base")),
    **RECORD,
)
HELD = "            if number > 4 or number in empty_classes(pair):\n"
broken("7.6", "a class of 5 passes", (HELD, HELD.replace("4", "5")), **RECORD)
broken("7.6", "a class of 4 is refused", (HELD, HELD.replace("> 4", "> 3")), **RECORD)
broken("7.6", "a class that holds no number passes", (HELD, "            if number > 4:\n"), **RECORD)
EMPTY = "((0, c1 == 0), (2, c1 + 1 == c2), (4, c2 == BIG))"
for what, old, new in (
    ("class 0 with c1 = 0 passes", "c1 == 0", "False"),
    ("class 2 with c2 = c1 + 1 passes", "c1 + 1 == c2", "False"),
    ("class 2 with c2 = c1 + 1 passes where c1 is 0", "c1 + 1 == c2", "0 < c1 == c2 - 1"),
    ("class 4 with c2 = 4,294,967,295 passes", "c2 == BIG", "False"),
    ("class 4 with c2 = 4,294,967,295 passes where class 2 is empty too", "c2 == BIG", "c1 + 1 < c2 == BIG"),
    ("class 0 with c1 = 1 is refused", "c1 == 0", "c1 <= 1"),
    ("class 2 with c2 = c1 + 2 is refused", "c1 + 1 == c2", "c1 + 2 >= c2"),
    ("class 2 is always refused", "c1 + 1 == c2", "True"),
    ("class 4 with c2 = 4,294,967,294 is refused", "c2 == BIG", "c2 >= BIG - 1"),
    ("neighbours have no class 3", "(4, c2", "(3, c1 + 1 == c2), (4, c2"),
):
    broken("7.6", what, (EMPTY, EMPTY.replace(old, new)), **RECORD)
broken(
    "7.6",
    "a marked uint of a plain record must be a class",
    (
        "        if pair is not None and table.marked(v, UINT):\n",
        (
            "        if pair is None and table.marked(v, UINT) and number > 4:\n"
            "            return None\n        if pair is not None and table.marked(v, UINT):\n"
        ),
    ),
    **RECORD,
)
broken(
    "7.6",
    "a uint that is not marked must be a class",
    ("        if pair is not None and table.marked(v, UINT):\n", "        if pair is not None and kind == UINT:\n"),
    **RECORD,
)
# Check 15 of the callers

CALLERS = {**RECORD, "kinds": {45}}
FEW_CALLERS = "    if record[DEPTH][0] > MOST_CALLERS:\n        return None\n    for d in range(record[DEPTH][0]):\n"
broken("7.15", "nine callers pass", (FEW_CALLERS, FEW_CALLERS.replace("MOST_CALLERS", "MOST_CALLERS + 1")), **CALLERS)
broken("7.15", "eight callers are refused", (FEW_CALLERS, FEW_CALLERS.replace(">", ">=")), **CALLERS)
broken("7.15", "callers past the eighth are no part", (FEW_CALLERS, "    for d in range(min(record[DEPTH][0], MOST_CALLERS)):\n"), **CALLERS)
broken("7.15", "the number of callers is one of 8 bits", (FEW_CALLERS, FEW_CALLERS.replace("record[DEPTH][0]", "record[DEPTH][0] % 256")), **CALLERS)
broken(
    "7.15",
    "the number of callers is one of 31 bits",
    (FEW_CALLERS, FEW_CALLERS.replace("record[DEPTH][0]", "record[DEPTH][0] % 2**31")),
    **CALLERS,
)
IS_CALL = "        if row >= len(table.rows) or table.rows[row][0] != 45:\n"
broken("7.16", "a caller's row may be of any kind", (IS_CALL, "        if row >= len(table.rows):\n"), **CALLERS)
broken("7.16", "the first caller's row may be of any kind", (IS_CALL, IS_CALL.replace("or table", "or d and table")), **CALLERS)
broken("7.16", "a later caller's row may be of any kind", (IS_CALL, IS_CALL.replace("or table", "or not d and table")), **CALLERS)
for kind in 32, 33, 38, 39, 43, 44:
    broken("7.16", "a caller's row may be a %d" % kind, (IS_CALL, IS_CALL.replace("!= 45", "not in (45, %d)" % kind)), **CALLERS)
PAST_ROWS = IS_CALL.replace("row >= len(table.rows) or table.rows[row][0]", "table.rows[row % len(table.rows)][0]")
broken("7.16", "a caller's row past the table is taken from its front", (IS_CALL, "        row %= len(table.rows)\n" + PAST_ROWS), **CALLERS)
IN_CALLED = "        if table.home(row) != called:\n            return None\n        loops"
broken("7.16", "a caller's row may be anywhere", (IN_CALLED, "        loops"), **CALLERS)
broken("7.16", "the first caller's row may be anywhere", (IN_CALLED, IN_CALLED.replace("if table", "if d and table")), **CALLERS)
broken("7.16", "a later caller's row may be anywhere", (IN_CALLED, IN_CALLED.replace("if table", "if not d and table")), **CALLERS)
broken("7.16", "a later caller's row may be in main", (IN_CALLED, IN_CALLED.replace("!= called", "not in (None, called)")), **CALLERS)
broken(
    "7.16",
    "a later caller's row may be in any procedure",
    (IN_CALLED, IN_CALLED.replace("table.home(row) != called", "(table.home(row) is None) != (called is None)")),
    **CALLERS,
)
for d in 1, 2, 7:
    broken("7.16", "caller %d may stand anywhere" % d, (IN_CALLED, IN_CALLED.replace("if table", "if d != %d and table" % d)), **CALLERS)
WORKS = "    if table.home(row) != called:\n        return None\n    idle"
broken("7.16", "the row may be anywhere", (WORKS, "    idle"), **CALLERS)
broken("7.16", "with no callers the row may be anywhere", (WORKS, WORKS.replace("if table", "if callers and table")), **CALLERS)
broken("7.16", "with callers the row may be anywhere", (WORKS, WORKS.replace("if table", "if not callers and table")), **CALLERS)
broken("7.16", "with callers the row may be in main", (WORKS, WORKS.replace("!= called", "not in (None, called)")), **CALLERS)
broken(
    "7.16",
    "with no callers the row of the first 43 is refused",
    (WORKS, WORKS.replace("if table", "if not callers and row in table.procedures or table")),
    **CALLERS,
)
broken("7.16", "the end of a procedure is refused", (WORKS, WORKS.replace("if table", "if callers and row in table.stops or table")), **CALLERS)
broken(
    "7.16",
    "the row count is refused with callers",
    (WORKS, WORKS.replace("if table", "if callers and row == len(table.rows) or table")),
    **CALLERS,
)
IN_LOOPS = "        loops = open_loops(table, row, open_, words[6:14], words[14:22], words[22:])\n"
AROUND_CALL = "        expected = [r for r in sorted(table.ends) if r < row <= table.ends[r]]\n"
AS_KEPT = "list(zip(words[6:14], words[14:22], words[22:]))[:open_]"
broken("7.17", "a caller's loops are not tested", (IN_LOOPS, "        loops = %s\n" % AS_KEPT), **CALLERS)
for d, what in ("d == 0", "the first caller"), ("d == 1", "the second caller"), ("d", "a later caller"), ("d == 7", "the eighth caller"):
    broken("7.17", "the loops of %s are not tested" % what, (IN_LOOPS, IN_LOOPS.replace("= open", "= %s if %s else open" % (AS_KEPT, d))), **CALLERS)
broken("7.17", "how many loops a caller has is not tested", (IN_LOOPS, AROUND_CALL + IN_LOOPS.replace("open_,", "len(expected),")), **CALLERS)
broken(
    "7.17",
    "a caller may have more loops than those around",
    (IN_LOOPS, AROUND_CALL + IN_LOOPS.replace("open_,", "min(open_, len(expected)),")),
    **CALLERS,
)
broken("7.17", "the rows of a caller's loops are not tested", (IN_LOOPS, AROUND_CALL + IN_LOOPS.replace("words[6:14]", "expected")), **CALLERS)
ONE_ROW = AROUND_CALL + IN_LOOPS.replace("words[6:14]", "expected[:1] + words[7:14]")
broken("7.17", "the row of a caller's outermost loop is not tested", (IN_LOOPS, ONE_ROW), **CALLERS)
ONE_ROW = AROUND_CALL + IN_LOOPS.replace("words[6:14]", "words[6 : 5 + len(expected)] + expected[-1:]")
broken("7.17", "the row of a caller's innermost loop is not tested", (IN_LOOPS, ONE_ROW), **CALLERS)
TESTED_WITH = "        loops = open_loops(table, row, open_, words[6:14], %s, words[22:])\n        loops = loops and " + AS_KEPT + "\n"
broken("7.17", "a start above its end passes in a caller", (IN_LOOPS, TESTED_WITH % "[0] * 8"), **CALLERS)
broken(
    "7.17",
    "only the innermost start of a caller is tested",
    (IN_LOOPS, TESTED_WITH % "([0] * 7 + [words[13 + open_]])[8 - open_ :] + [0] * 8"),
    **CALLERS,
)
broken("7.17", "only the outermost start of a caller is tested", (IN_LOOPS, TESTED_WITH % "[words[14]] + [0] * 7"), **CALLERS)
AT_END = IN_LOOPS + "        if loops and any(start == end for _, start, end in loops):\n            return None\n"
broken("7.17", "a start at its end is refused in a caller", (IN_LOOPS, AT_END), **CALLERS)
IDLE = "    idle = [v for p in range(len(table.procedures)) if p != called for v in table.locals_of(p)]\n"
broken("7.18", "a local that is not at work may hold a number", (IDLE, "    idle = []\n"), **CALLERS)
AMONG = "[table.home(r) for r, _, _ in callers]"
broken(
    "7.18",
    "a local of a caller's procedure may hold a number",
    (IDLE, IDLE.replace("if p != called", "if p != called and p not in " + AMONG)),
    **CALLERS,
)
broken(
    "7.18",
    "a local of a procedure that is no caller's may hold a number",
    (IDLE, IDLE.replace("if p != called", "if p != called and p in " + AMONG)),
    **CALLERS,
)
broken("7.18", "only first locals are tested", (IDLE, IDLE.replace("locals_of(p)]", "locals_of(p)[:1]]")), **CALLERS)
broken("7.18", "last locals are not tested", (IDLE, IDLE.replace("locals_of(p)]", "locals_of(p)[:-1]]")), **CALLERS)
broken("7.18", "with no callers a local may hold a number", (IDLE, IDLE.replace("if p != called", "if p != called is not None")), **CALLERS)
broken(
    "7.18",
    "with callers a local that is not at work may hold a number",
    (IDLE, IDLE.replace("if p != called", "if p != called is None")),
    **CALLERS,
)
broken("7.18", "a local at work may hold no number", (IDLE, IDLE.replace(" if p != called", "")), **CALLERS)
broken("7.18", "the parameter at work may be 0 alone", (IDLE, IDLE + "    idle += table.locals_of(called)[:1]\n"), **CALLERS)
KEEPS_15 = "        callers.append((row, held, loops))\n"
broken("7.12", "kept locals must be 0", (KEEPS_15, "        if any(held):\n            return None\n" + KEEPS_15), **CALLERS)
broken(
    "7.13",
    "words past a caller's locals are tested",
    (KEEPS_15, "        if any(words[2 + len(held) : 6]):\n            return None\n" + KEEPS_15),
    **CALLERS,
)
broken(
    "7.13",
    "words past a caller's loops are tested",
    (KEEPS_15, "        if any(words[6 + open_ : 14]) or any(words[14 + open_ : 22]):\n            return None\n" + KEEPS_15),
    **CALLERS,
)
PAST_CALLERS = "    if any(record[STACK][30 * record[DEPTH][0] :]):\n        return None\n    return callers, called\n"
broken("7.13", "words past the callers are tested", ("    return callers, called\n", PAST_CALLERS), **CALLERS)
FOUR = "held = words[0], words[1], words[2 : 2 + len(table.locals_of(called))]\n"
broken("2.39", "a caller has four locals whatever its procedure has", (FOUR, "held = words[0], words[1], words[2:6]\n"), **CALLERS)
broken("2.39", "main keeps a local", (FOUR, FOUR.replace("len(table.locals_of(called))", "max(1, len(table.locals_of(called)))")), **CALLERS)

FITS = "    return State(row, loops, variables, arrays, callers)\n\n\ndef check_number"
ITERATOR = "    if any(table.rows[r][0] == 38 and variables[table.rows[r][1]] != start for r, start, _ in loops):\n        return None\n"
broken("7.12", "an iterator that is not its kept start is refused", (FITS, ITERATOR + FITS), **RECORD)
ITERATOR = (
    "    if any(table.rows[r][0] == 42 and variables[table.rows[r][1]] != class_of(start, pair) for r, start, _ in loops):\n"
    "        return None\n"
)
broken("7.12", "an iterator that is not its kept start's class is refused", (FITS, ITERATOR + FITS), **RECORD)
UNUSED = "    if any(v is not None and v > count for v in record[BASE][len(table.declarations) :]):\n        return None\n"
broken("7.13", "slots past the declarations are tested", (FITS, UNUSED + FITS), **RECORD)
UNUSED = (
    "    if any(v is not None for v in record[LOOP_ROW][open_:]) or any((w or 0) < (v or 0) for v, w in zip(record[START], record[END])):\n"
    "        return None\n"
)
broken("7.13", "slots past the open loops are tested", (FITS, UNUSED + FITS), **RECORD)
UNUSED = "    if any(v for v in record[FIRST][count:] + record[LENGTH][count:] + record[SHAPE][count:]):\n        return None\n"
broken("7.13", "slots past the arrays are tested", (FITS, UNUSED + FITS), **RECORD)
PAIR_13 = "        if checked is None and machine == REDUCED and not pair[0] < pair[1]:\n"
broken("6.21", "the plain machine refuses a pair", (PAIR_13, PAIR_13.replace("machine == REDUCED and ", "")), stops=True)
for what, test in (
    ("c1 = c2 passes for a run", "not pair[0] <= pair[1]"),
    ("c1 = c2 + 1 passes for a run", "not pair[0] < pair[1] and pair[0] != pair[1] + 1"),
    ("a c1 above c2 passes for a run", "pair[0] == pair[1]"),
    ("c1 + 1 = c2 is refused for a run", "not pair[0] + 1 < pair[1]"),
    ("0, 1 is refused for a run", "not (pair[0] < pair[1] and pair != (0, 1))"),
):
    broken("3.1", what, (PAIR_13, PAIR_13.replace("not pair[0] < pair[1]", test)), stops=True)
SIZE_14 = "        if checked is None and lent != CELLS[machine]:\n"
broken("6.21", "more cells than stated pass", (SIZE_14, SIZE_14.replace("!=", "<")), stops=True)
broken("6.21", "fewer cells than stated pass", (SIZE_14, SIZE_14.replace("!=", ">")), stops=True)
broken("6.21", "the plain machine takes 4,128 cells too", (SIZE_14, SIZE_14.replace(":\n", " and lent != 4128:\n")), stops=True)
broken("6.21", "the reduced machine takes 4,112 cells too", (SIZE_14, SIZE_14.replace(":\n", " and lent != 4112:\n")), stops=True)
broken("6.21", "the reduced machine takes 4,096 cells too", (SIZE_14, SIZE_14.replace(":\n", " and lent != 4096:\n")), stops=True)
broken("6.2", "14 comes before 13", (SIZE_14, SIZE_14.replace("checked is None", "(checked is None or checked[0] == 13)")))
for test, what in ("not in (13, 14)", "the table's checks"), ("== 16", "16"), ("== 17", "17"):
    early = "(checked is None or checked[0] %s)" % test
    broken("6.2", "14 comes before %s" % what, (SIZE_14, SIZE_14.replace("checked is None", early)))
    broken("6.2", "13 comes before %s" % what, (PAIR_13, PAIR_13.replace("checked is None", early)))
EDITS = "        if k:\n            for field, slot, v in edits:\n"
for number, what in (
    ("checked[0] == 14", "14"),
    ("checked[0] == 13", "13"),
    ("checked[0] == 16", "16"),
    ("checked[0] == 17", "17"),
    ("checked[0] not in (13, 14)", "the table's checks"),
):
    fifteen = (
        "        if checked and %s and any(e[0] == ROW and e[2] > len(table.rows) for e in edits):\n            checked = (15, 0)\n"
        % number
    )
    broken("6.2", "15 comes before %s" % what, (EDITS, fifteen + EDITS), continued=True)
REFUSED = '            line = "refused %d line %d" % checked\n'
broken("6.4", "a refused run zeroes the cells", (REFUSED, REFUSED + "            cells[:] = [0] * lent\n"))
broken(
    "6.4",
    "a run that 15 refuses zeroes the cells",
    (REFUSED, REFUSED + "            cells[:] = [0] * lent if checked[0] == 15 else cells[:]\n"),
)
broken(
    "7.1",
    "15 is not tested",
    ("            checked = (15, 0) if start is None else None\n", "            start, checked = start or state, None\n"),
    continued=True,
    stops=True,
)
broken("6.3", "15 tells the row as its place", ("(15, 0)", "(15, record[ROW][0] % 2**32)"), continued=True)

# The file

FILES = {"file": RULES, "tables": False}

broken(
    "6.5",
    "bytes after the last block are left out",
    (
        "    if len(data) % BLOCK != 0 or len(data) > MOST_BYTES:\n",
        "    data = data[: len(data) // BLOCK * BLOCK]\n    if len(data) > MOST_BYTES:\n",
    ),
    **FILES,
)
broken("6.5", "a file of 22,016 bytes is refused", ("len(data) > MOST_BYTES", "len(data) >= MOST_BYTES"), **FILES)
broken("6.5", "a file of 22,528 bytes passes 1", ("len(data) > MOST_BYTES", "len(data) > MOST_BYTES + 512"), **FILES)
broken(
    "5.1",
    "no bytes are refused",
    ("    if len(data) % BLOCK != 0 or", "    if not data or len(data) % BLOCK != 0 or"),
    **FILES,
)
broken("8.1", "12 bytes are too few", ("    if len(data) < 12:\n", "    if len(data) <= 12:\n"), **FILES)
broken(
    "8.1",
    "11 bytes are enough",
    (
        "    if len(data) < 12:\n        return (1, 0), None\n    c1, c2, _ =",
        "    if len(data) < 11:\n        return (1, 0), None\n    data = data.ljust(12, b'\\0')\n    c1, c2, _ =",
    ),
    **FILES,
)
SUMMED = "        if sum(ws[:127]) % 2**32 != ws[127]:\n"
broken("6.6", "the check is not tested", (SUMMED, "        if False:\n"), **FILES)
broken("6.6", "the check leaves out the last word before it", (SUMMED, SUMMED.replace("127])", "126])")), **FILES)
broken("6.6", "the check leaves out the first word", (SUMMED, SUMMED.replace("ws[:127]", "ws[1:127]")), **FILES)
broken("6.6", "the check is not taken modulo 2^32", (SUMMED, SUMMED.replace(" % 2**32", "")), **FILES)
broken(
    "6.6",
    "the check is compared in its low 16 bits",
    (SUMMED, SUMMED.replace("% 2**32 != ws[127]", "% 2**16 != ws[127] % 2**16")),
    **FILES,
)
broken("6.6", "the check of the last block is not tested", (SUMMED, SUMMED.replace("if ", "if k < len(blocks) - 1 and ")), **FILES)
broken("6.6", "the check of a later block is not tested", (SUMMED, SUMMED.replace("if ", "if k == 0 and ")), **FILES)
broken(
    "6.3",
    "the place of 2 is the last block that breaks it",
    (SUMMED, SUMMED.replace(":\n", " and all(sum(later[:127]) % 2**32 == later[127] for later in blocks[k + 1 :]):\n")),
    **FILES,
)
broken("6.3", "the place of 2 is 0", ("            return (2, k), None\n", "            return (2, 0), None\n"), **FILES)
broken("5.2", "words are big-endian", ('struct.unpack_from("<128I"', 'struct.unpack_from(">128I"'), **FILES)
NUMBER_3 = "        if number != k:\n            return (3, k), None\n"
broken("6.7", "block numbers are not tested", (NUMBER_3, ""), **FILES)
broken("6.7", "block numbers start at 1", (NUMBER_3, NUMBER_3.replace("!= k:", "!= k + 1:")), **FILES)
broken("6.7", "the first block's number is not tested", (NUMBER_3, NUMBER_3.replace("!= k:", "!= k and k:")), **FILES)
broken("6.7", "block numbers need only rise", (NUMBER_3, NUMBER_3.replace("!= k:", "< k:")), **FILES)
broken(
    "6.7",
    "block numbers are compared in their low 16 bits",
    (NUMBER_3, NUMBER_3.replace("number != k", "number % 2**16 != k")),
    **FILES,
)
COUNT_3 = "        if not (1 <= count <= FULL if last else count == FULL):\n"
broken("6.8", "a last block of no lines passes", (COUNT_3, COUNT_3.replace("1 <= count", "0 <= count")), **FILES)
broken("6.7", "a last block of 31 lines is refused", (COUNT_3, COUNT_3.replace("<= FULL if", "< FULL if")), **FILES)
broken(
    "6.7",
    "a last block may count more than 31 lines",
    (COUNT_3, COUNT_3.replace("<= FULL if", "<= FULL + 1 if")),
    **FILES,
    stops=True,
)
broken(
    "6.7",
    "a block before the last may count fewer lines",
    (COUNT_3, COUNT_3.replace("count == FULL", "1 <= count <= FULL")),
    **FILES,
)
broken("6.7", "counts are not tested", (COUNT_3, "        if False:\n"), **FILES, stops=True)
TOTAL_3 = "        if in_all != total or total > MOST_LINES:\n"
broken("6.7", "lines in all are not tested", (TOTAL_3, "        if total > MOST_LINES:\n"), **FILES)
broken(
    "6.7",
    "lines in all are tested in the first block alone",
    (TOTAL_3, TOTAL_3.replace("in_all != total", "k == 0 and in_all != total")),
    **FILES,
)
broken(
    "6.7",
    "lines in all are tested in the last block alone",
    (TOTAL_3, TOTAL_3.replace("in_all != total", "last and in_all != total")),
    **FILES,
)
broken(
    "6.7",
    "lines in all are compared modulo 2^32",
    (TOTAL_3, TOTAL_3.replace("in_all != total", "in_all != total % 2**32")),
    (COUNT_3, COUNT_3.replace("not (", "k and not (")),
    **FILES,
    stops=True,
)
broken(
    "6.7",
    "lines in all are compared in their low 16 bits",
    (TOTAL_3, TOTAL_3.replace("in_all != total", "in_all % 2**16 != total % 2**16")),
    **FILES,
)
broken("6.7", "above 1,312 lines passes", (TOTAL_3, "        if in_all != total:\n"), **FILES)
broken("6.7", "1,312 lines are refused", (TOTAL_3, TOTAL_3.replace("> MOST_LINES", ">= MOST_LINES")), **FILES)
broken("6.7", "1,313 lines pass", (TOTAL_3, TOTAL_3.replace("> MOST_LINES", "> MOST_LINES + 1")), **FILES)
broken(
    "6.8",
    "above 1,312 lines shows at the last block",
    (TOTAL_3, TOTAL_3.replace("total > MOST_LINES", "last and total > MOST_LINES")),
    **FILES,
)
broken(
    "6.8",
    "a wrong count shows at its own block",
    (TOTAL_3, TOTAL_3.replace("in_all != total", "last and in_all != total or k and in_all != blocks[0][126]")),
    **FILES,
)
FILL_3 = "        if any(ws[4 * count : 124]):\n"
broken("6.7", "unused lines are not tested", (FILL_3, "        if False:\n"), **FILES)
broken("6.7", "the last unused line is not tested", (FILL_3, FILL_3.replace("124", "120")), **FILES)
broken("6.7", "the first unused line is not tested", (FILL_3, FILL_3.replace("4 * count", "4 * count + 4")), **FILES)
broken("6.7", "only the kind of an unused line is tested", (FILL_3, FILL_3.replace(": 124]", ": 124 : 4]")), **FILES)
THREE_FIRST = (
    "    for k, ws in enumerate(blocks):\n        if ws[124] != k:\n            return (3, k), None\n"
    + "    for k, ws in enumerate(blocks):\n"
    + SUMMED
)
broken("6.2", "3 comes before 2", ("    for k, ws in enumerate(blocks):\n" + SUMMED, THREE_FIRST), **FILES)
broken(
    "6.3",
    "2 and 3 are tested block by block",
    (
        "    for k, ws in enumerate(blocks):\n" + SUMMED,
        "    for k, ws in enumerate(blocks):\n        if ws[124] != k:\n            return (3, k), None\n" + SUMMED,
    ),
    **FILES,
)
OUT_COUNTS = "        ws += [k // FULL, len(part), len(lines)]\n"
broken("5.2", "blocks are numbered from 1", (OUT_COUNTS, OUT_COUNTS.replace("k // FULL", "k // FULL + 1")), **FILES)
broken("5.5", "lines in all are those of the block", (OUT_COUNTS, OUT_COUNTS.replace("len(lines)", "len(part)")), **FILES)
broken(
    "5.5",
    "lines in all are those up to the block",
    (OUT_COUNTS, OUT_COUNTS.replace("len(lines)", "k + len(part)")),
    **FILES,
)
broken("5.4", "every block counts 31 lines", (OUT_COUNTS, OUT_COUNTS.replace("len(part)", "FULL")), **FILES)
broken("5.6", "unused lines are not zero", ("[0] * (4 * (FULL - len(part)))", "[7] * (4 * (FULL - len(part)))"), **FILES)
broken(
    "5.3",
    "the check is of the lines alone",
    ("        ws.append(sum(ws) % 2**32)\n", "        ws.append(sum(ws[:124]) % 2**32)\n"),
    **FILES,
)
broken(
    "5.3",
    "the check is cut at 2^32 - 1",
    ("        ws.append(sum(ws) % 2**32)\n", "        ws.append(min(sum(ws), 2**32 - 1))\n"),
    **FILES,
)
broken(
    "5.1",
    "no lines are one block",
    ("    out = []\n    for k in range(0, len(lines), FULL):\n", "    out = []\n    for k in range(0, max(len(lines), 1), FULL):\n"),
    **FILES,
)
broken("5.2", "words are big-endian", ('struct.pack("<128I"', 'struct.pack(">128I"'), **FILES)

# The table's checks, by number

ASKED = "        place = getattr(table, \"check_%d\" % number)()\n"
FOUND = "            return (number, place)\n"
broken(
    "6.9",
    "words left over are left out",
    ("    if len(words) % 4 != 0:\n        return (4, 0)\n", "    words = words[: len(words) // 4 * 4]\n"),
    file=RULES,
)
broken(
    "6.9",
    "an even number of words passes",
    (
        "    if len(words) % 4 != 0:\n        return (4, 0)\n",
        "    if len(words) % 2 != 0:\n        return (4, 0)\n    words = words[: len(words) // 4 * 4]\n",
    ),
    file=RULES,
)
broken(
    "6.2",
    "4 comes after the others",
    ("    if len(words) % 4 != 0:\n        return (4, 0)\n", "    left, words = len(words) % 4, words[: len(words) // 4 * 4]\n"),
    ("            return (number, place)\n    return None\n", "            return (number, place)\n    return (4, 0) if left else None\n"),
    file=RULES,
)
NUMBERS = (5, 6, 7, 8, 9, 10, 11, 12, 16, 17)
ORDER = "ORDER = %s\n" % (NUMBERS,)
for before, n in zip(NUMBERS, NUMBERS[1:]):
    broken(
        "6.2",
        "%d comes before %d" % (n, before),
        (ORDER, ORDER.replace("%d, %d" % (before, n), "%d, %d" % (n, before))),
        file=RULES,
        refused={before, n},
        stops=n == 6,
    )
    broken(
        "6.2",
        "%d comes first" % n,
        (ORDER, ORDER.replace(", %d" % n, "").replace("(5", "(%d, 5" % n)),
        file=RULES,
        refused=set(NUMBERS[: NUMBERS.index(n) + 1]),
        stops=True,
    )
broken("6.2", "16 comes before 11", (ORDER, ORDER.replace("11, 12, 16", "16, 11, 12")), file=RULES, refused={11, 12, 16})
broken(
    "6.3",
    "lines are tested one by one, each by all checks",
    (
        "    for number in ORDER:\n" + ASKED + "        if place is not None:\n" + FOUND,
        (
            (
                "    numbers = ORDER if table.check_5() is None else ORDER[:1]\n"
                "    all_of = [(getattr(table, 'check_%d' % number)(), number) for number in numbers]\n"
                "    all_of = [found for found in all_of if found[0] is not None]\n"
                "    if all_of:\n        place, number = min(all_of)\n"
            )
            + FOUND[4:]
        ),
    ),
    file=RULES,
    refused=set(NUMBERS),
)
broken(
    "6.2",
    "13 comes before the file and the table",
    (
        "    refusal, lines = read(data[12:])\n    if refusal is None:\n        refusal = check_table(flat(lines), False)\n",
        (
            "    if check_pair(c1, c2):\n        return check_pair(c1, c2), None\n"
            "    refusal, lines = read(data[12:])\n    if refusal is None:\n"
            "        refusal = check_table(flat(lines), False)\n"
        ),
    ),
    file=RULES,
)
for n in NUMBERS:
    of = {"file": RULES, "refused": {n}}
    sort_place = (
        "            place -= sum(sort(line[0]) < sort(table.lines[place][0]) for line in table.lines) if number == %d else 0\n"
        % n
    )
    broken("6.3", "the place is the line's number in its sort", (FOUND, sort_place + FOUND), **of)
    broken("6.3", "the place is counted from 1", (FOUND, FOUND.replace("place)", "place + (number == %d))" % n)), **of)
FIRST_LINE = "        return next((i for i, line in enumerate(self.lines) if breaks(i, line)), None)\n"
LAST_LINE = "        found = [i for i, line in enumerate(self.lines) if breaks(i, line)]\n        return found[-1] if found else None\n"
for n in NUMBERS:
    if n != 11:
        last = (
            "    def last(self, breaks):\n"
            + LAST_LINE
            + (
                  (
                      "\n    def first(self, breaks):\n"
                      "        if sys._getframe(1).f_code.co_name == 'check_%d':\n"
                      "            return self.last(breaks)\n"
                  )
                  % n
              )
            + FIRST_LINE
        )
        broken(
            "6.3",
            "the place is the last line that breaks it",
            ("    def first(self, breaks):\n" + FIRST_LINE, last),
            file=RULES,
            refused={n},
        )
broken(
    "6.3",
    "the place is the last line that breaks it",
    ("min(opened + broken, default=None)", "max(opened + broken, default=None)"),
    file=RULES,
    refused={11},
)
broken(
    "6.3",
    "a loop never closed comes after the others",
    ("min(opened + broken, default=None)", "min(broken or opened, default=None)"),
    file=RULES,
    refused={11},
)
broken(
    "6.3",
    "a loop never closed comes before the others",
    ("min(opened + broken, default=None)", "min(opened or broken, default=None)"),
    file=RULES,
    refused={11},
)
broken(
    "1.14",
    "a 39 closes the outermost loop",
    ("                    opened.pop()\n", "                    opened.pop(0)\n"),
    file=RULES,
    refused={11},
)
broken(
    "6.3",
    "a loop never closed shows past the table",
    ("min(opened + broken, default=None)", "min(broken + [len(self.lines)] * bool(opened), default=None)"),
    file=RULES,
    refused={11},
)

KNOWN = "        self.known = REDUCED_KINDS if reduced else PLAIN_KINDS\n"
KIND_TABLES = "class Checked:\n"
for plain, kinds in (True, (0, 4, 15, 27, 28, 29, 30, 31, 40, 41, 42, 46)), (False, (0, 4, 15, 19, 26, 30, 31, 34, 46)):
    for kind in kinds:
        more = (KIND_TABLES, "ROLES.setdefault(%d, '000')\nTYPES.setdefault(%d, {(): None})\n\n\n" % (kind, kind) + KIND_TABLES)
        what = "%d is known in a %s table" % (kind, "plain" if plain else "reduced")
        broken(
            "6.10",
            what,
            (KNOWN, KNOWN + "        if reduced != %s:\n            self.known = self.known | {%d}\n" % (plain, kind)),
            more,
            file=RULES,
            refused={5},
        )
for plain, kinds in (
    (True, [1, 2, 3, *range(16, 27), *range(32, 40), *range(43, 46)]),
    (False, [1, 2, 3, 16, 17, 18, *range(20, 26), 27, 28, 29, 32, 33, *range(35, 46)]),
):
    for kind in kinds:
        what = "%d is unknown in a %s table" % (kind, "plain" if plain else "reduced")
        broken(
            "6.10",
            what,
            (KNOWN, KNOWN + "        if reduced != %s:\n            self.known = self.known - {%d}\n" % (plain, kind)),
            file=RULES,
        )
SORTED = "            if line[0] not in self.known or sort(line[0]) < highest:\n"
broken("6.10", "sorts may be out of order", (SORTED, "            if line[0] not in self.known:\n"), file=RULES, refused={5})
broken(
    "6.10",
    "a declaration may come after a node",
    (SORTED, SORTED.replace("< highest", "< highest and (sort(line[0]), highest) != (0, 1)")),
    file=RULES,
    refused={5},
)
broken(
    "6.10",
    "a declaration may come after a row",
    (SORTED, SORTED.replace("< highest", "< highest and (sort(line[0]), highest) != (0, 2)")),
    file=RULES,
    refused={5},
)
broken(
    "6.10",
    "a node may come after a row",
    (SORTED, SORTED.replace("< highest", "< highest and (sort(line[0]), highest) != (1, 2)")),
    file=RULES,
    refused={5},
)
MOST = "MOST = (32, 1024, 256)\n"
for old, what in ("32", "declarations"), ("1024", "nodes"), ("256", "rows"):
    broken("6.11", "%d %s pass" % (int(old) + 1, what), (MOST, MOST.replace(old, str(int(old) + 1))), file=RULES, refused={6})
    broken("6.11", "%d %s are refused" % (int(old), what), (MOST, MOST.replace(old, str(int(old) - 1))), file=RULES)
ROLE_LINE = "}  # fmt: skip\nPLAIN_KINDS"
ALL_ROLES = {1: "000", 2: "m00", 3: "m00", 16: "v00", 17: "c00", 18: "f00", 19: "n00", 25: "nnn", 26: "n00"}
ALL_ROLES.update({27: "v00", 28: "n00", 29: "n00"})
ALL_ROLES.update({kind: "nn0" for kind in (20, 21, 22, 23, 24, 34, 40)})
ALL_ROLES.update({32: "000", 33: "vn0", 35: "n00", 36: "n00", 37: "vn0", 38: "vnn", 39: "000", 41: "vn0", 42: "vnn"})
ALL_ROLES.update({43: "lk0", 44: "n00", 45: "pnv"})
NAMES = "abc"


def with_role(kind, at, role):
    """A patch that gives an operand another role."""
    roles = ALL_ROLES[kind][:at] + role + ALL_ROLES[kind][at + 1 :]
    return (ROLE_LINE, ROLE_LINE.replace("PLAIN_KINDS", "ROLES[%d] = '%s'\nPLAIN_KINDS" % (kind, roles)))


for kind, roles in sorted(ALL_ROLES.items()):
    for at, role in enumerate(roles):
        if role == "0":
            broken("6.12", "%s of %d may be any number" % (NAMES[at], kind), with_role(kind, at, "c"), file=RULES, refused={7})
        if role in "mf":
            broken("6.12", "%s of %d may be above 1" % (NAMES[at], kind), with_role(kind, at, "c"), file=RULES, refused={7})
broken("6.12", "a bool may be marked", with_role(1, 0, "m"), file=RULES, refused={7})
broken(
    "6.12",
    "a mark of 2 passes",
    ('                if role in "mf" and w > 1:\n', '                if role in "mf" and w > 1 + (role == "m"):\n'),
    file=RULES,
    refused={7},
)
broken(
    "6.12",
    "18 of 2 passes",
    ('                if role in "mf" and w > 1:\n', '                if role in "mf" and w > 1 + (role == "f"):\n'),
    file=RULES,
    refused={7},
)
ROLES_8 = '                if role == "v" and w >= len(self.declarations):\n'
THERE = '                if role == "n" and w >= len(self.nodes):\n'
SMALLER = '                if role == "n" and sort(line[0]) == 1 and w >= self.node(i):\n'
for kind, roles in sorted(ALL_ROLES.items()):
    for at, role in enumerate(roles):
        if role in "vn":
            free = (
                (
                    "            for at_, (role, w) in enumerate(zip(ROLES[line[0]], line[1:])):\n"
                    "                if (line[0], at_) == (%d, %d):\n"
                    "                    continue\n"
                )
                % (kind, at)
            )
            old = "            for role, w in zip(ROLES[line[0]], line[1:]):\n" + ROLES_8
            broken("6.13", "%s of %d may be anything" % (NAMES[at], kind), (old, free + ROLES_8), file=RULES, refused={8})
broken("6.13", "a variable may be the number of declarations", (ROLES_8, ROLES_8.replace(">=", ">")), file=RULES, refused={8})
broken("6.13", "a row's node may be the number of nodes", (THERE, THERE.replace(">=", ">")), file=RULES, refused={8})
broken("6.13", "a node may be its own operand", (SMALLER, SMALLER.replace(">=", ">")), file=RULES, refused={8})
broken("6.13", "a node may have a later operand", (SMALLER, "                if False:\n"), file=RULES, refused={8})
broken(
    "6.13",
    "numbers are compared with a sign",
    (ROLES_8, ROLES_8.replace(" w >=", " w < 2**31 and w >=")),
    (THERE, THERE.replace(" w >=", " w < 2**31 and w >=")),
    (SMALLER, SMALLER.replace(" w >=", " w < 2**31 and w >=")),
    file=RULES,
    refused={8},
    stops=True,
)
broken(
    "6.13",
    "a row's node must be below the row's number in its sort",
    (
        SMALLER,
        (
            (
                '                if role == "n" and sort(line[0]) == 2 and w > i - len(self.declarations) - len(self.nodes):\n'
                '                    return True\n'
            )
            + SMALLER
        ),
    ),
    file=RULES,
)
TYPED = "            return operands not in TYPES[line[0]]\n"
for kind, roles in sorted(ALL_ROLES.items()):
    places = [at for at, role in enumerate(roles) if role in "vn"]
    if kind in (16, 27):
        continue
    for k, at in enumerate(places):
        others = "t[:%d] + t[%d:] == operands[:%d] + operands[%d:]" % (k, k + 1, k, k + 1)
        any_type = "            like = [v for t, v in TYPES[line[0]].items() if line[0] == %d and %s]\n" % (kind, others)
        any_type += (
            "            if like:\n"
            "                types[-1:] = like[:1] if sort(line[0]) == 1 else types[-1:]\n"
            "                return False\n"
        )
        broken(
            "6.14",
            "%s of %d may have any type" % (NAMES[at], kind),
            (TYPED, any_type + TYPED),
            file=RULES,
            refused={9},
            stops=True,
        )


def with_types(kind, types, gives):
    """A patch that lets operands of other types through."""
    return ("class Checked:\n", "TYPES[%d][%r] = %s\n\n\nclass Checked:\n" % (kind, types, gives))


for kind in (20, 21):
    broken("6.14", "%d takes a uint and then a pointer" % kind, with_types(kind, (2, 3), 3), file=RULES, refused={9}, stops=True)
    broken("6.14", "%d takes two pointers" % kind, with_types(kind, (3, 3), 3), file=RULES, refused={9}, stops=True)
for kind in (22, 23, 24):
    broken("6.14", "%d takes two pointers" % kind, with_types(kind, (3, 3), 1), file=RULES, refused={9}, stops=True)
    broken("6.14", "%d takes two bools" % kind, with_types(kind, (1, 1), 1), file=RULES, refused={9}, stops=True)
for t, name in (1, "bools"), (3, "pointers"):
    refuse = "del TYPES[%d][%r]\n\n\nclass Checked:\n"
    broken("6.14", "25 does not take two %s" % name, ("class Checked:\n", refuse % (25, (1, t, t))), file=RULES)
    broken("6.14", "33 does not take %s" % name, ("class Checked:\n", refuse % (33, (t, t))), file=RULES)
for kind in (20, 21):
    broken("6.14", "%d does not take a pointer" % kind, ("class Checked:\n", refuse % (kind, (3, 2))), file=RULES)
broken(
    "6.14",
    "27 is a uint, whatever its variable",
    ("class Checked:\n", "TYPES[27] = {(t,): UINT for t in (1, 2, 3)}\n\n\nclass Checked:\n"),
    file=RULES,
)
broken("6.14", "27 takes uints alone", ("class Checked:\n", "TYPES[27] = {(2,): UINT}\n\n\nclass Checked:\n"), file=RULES)
broken(
    "6.14",
    "a node that no row uses is not checked",
    (
        "            if sort(line[0]) == 1:\n                types.append(TYPES[line[0]].get(operands))\n",
        (
            "            if sort(line[0]) == 1:\n"
            "                types.append(TYPES[line[0]].get(operands))\n"
            "                used = {w for other in self.lines for role, w in zip(ROLES[other[0]], other[1:]) if role == 'n'}\n"
            "                if self.node(i) not in used:\n"
            "                    return False\n"
        ),
    ),
    file=RULES,
    refused={9},
    stops=True,
)

DEPTH = "MOST_DEPTH, MOST_LOOPS = 12, 8\n"
broken("6.15", "depth 13 passes", (DEPTH, DEPTH.replace("12", "13")), file=RULES, refused={10})
broken("6.15", "depth 12 is refused", (DEPTH, DEPTH.replace("12", "11")), file=RULES)
broken(
    "6.15",
    "a leaf has depth 0",
    ("depths.append(1 + max(operands, default=0))", "depths.append(1 + max(operands, default=-1))"),
    file=RULES,
    refused={10},
)
broken(
    "6.15",
    "a depth is the sum of its operands' depths",
    ("depths.append(1 + max(operands, default=0))", "depths.append(1 + sum(operands))"),
    file=RULES,
)
OPERANDS = '            operands = [at(depths, w) or 0 for role, w in zip(ROLES[line[0]], line[1:]) if role == "n"]\n'
for kind, roles in sorted(ALL_ROLES.items()):
    for at, role in enumerate(roles):
        if role == "n" and kind < 32:
            left = OPERANDS.replace(
                "for role, w in zip(ROLES[line[0]], line[1:])",
                "for k, (role, w) in enumerate(zip(ROLES[line[0]], line[1:]))",
            )
            left = left.replace('role == "n"', 'role == "n" and (line[0], k) != (%d, %d)' % (kind, at))
            broken("6.15", "the depth of %s of %d is left out" % (NAMES[at], kind), (OPERANDS, left), file=RULES, refused={10})
broken(
    "6.16",
    "an end with no open loop passes",
    ("                else:\n                    broken.append(i)\n", "                else:\n                    pass\n"),
    file=RULES,
    refused={11},
    stops=True,
)
broken(
    "6.16",
    "a loop that is never closed passes",
    ("min(opened + broken, default=None)", "min(broken, default=None)"),
    file=RULES,
    refused={11},
    stops=True,
)
broken("6.16", "nine nested loops pass", (DEPTH, DEPTH.replace("8", "9")), file=RULES, refused={11})
broken("6.16", "eight nested loops are refused", (DEPTH, DEPTH.replace("8", "7")), file=RULES)
broken(
    "6.16",
    "42 opens no loop",
    ("            if kind in (38, 42):\n                if len", "            if kind == 38:\n                if len"),
    file=RULES,
)
broken(
    "6.16",
    "38 opens no loop",
    ("            if kind in (38, 42):\n                if len", "            if kind == 42:\n                if len"),
    file=RULES,
)
ROW_12 = "            if kind == 33:\n                return declared == (UINT, 1)\n"
broken("6.17", "33 to a marked uint passes", (ROW_12, ROW_12.replace("declared == (UINT, 1)", "False")), file=RULES, refused={12})
broken(
    "6.17",
    "33 to a marked uint passes in a reduced table",
    (ROW_12, ROW_12.replace("declared ==", "not self.reduced and declared ==")),
    file=RULES,
    refused={12},
)
broken(
    "6.17",
    "33 to a marked uint passes in a plain table",
    (ROW_12, ROW_12.replace("declared ==", "self.reduced and declared ==")),
    file=RULES,
    refused={12},
)
broken("6.17", "33 to a marked pointer is refused", (ROW_12, ROW_12.replace("declared == (UINT, 1)", "declared[1] == 1")), file=RULES)
broken("6.17", "33 to any uint is refused", (ROW_12, ROW_12.replace("declared == (UINT, 1)", "declared[0] == UINT")), file=RULES)
broken(
    "6.17",
    "a plain table is held to the kinds of a reduced one",
    ("            if not self.reduced:\n                return False\n", ""),
    file=RULES,
)
IF_16 = "            if kind in (16, 38):\n                return declared == (UINT, 1)\n"
IF_27 = "            if kind in (27, 42):\n                return declared != (UINT, 1)\n"
IF_37 = "            if kind == 37:\n                return declared == (POINTER, 1)\n"
IF_41 = "            if kind == 41:\n                return declared != (POINTER, 1)\n"
broken("6.17", "16 of a marked uint passes", (IF_16, IF_16.replace("(16, 38)", "(38,)")), file=RULES, refused={12})
broken(
    "6.17",
    "16 of a marked pointer is refused",
    (IF_16, IF_16.replace("== (UINT, 1)", "in ((UINT, 1), (POINTER, 1) if kind == 16 else ())")),
    file=RULES,
)
broken("6.17", "38 with a marked iterator passes", (IF_16, IF_16.replace("(16, 38)", "(16,)")), file=RULES, refused={12})
broken("6.17", "27 of any variable passes", (IF_27, IF_27.replace("(27, 42)", "(42,)")), file=RULES, refused={12}, stops=True)
broken(
    "6.17",
    "27 of any uint passes",
    (IF_27, IF_27.replace("!= (UINT, 1)", "!= (UINT, 1) and (kind, declared[0]) != (27, UINT)")),
    file=RULES,
    refused={12},
)
broken(
    "6.17",
    "27 of anything marked passes",
    (IF_27, IF_27.replace("!= (UINT, 1)", "!= (UINT, 1) and (kind, declared[1]) != (27, 1)")),
    file=RULES,
    refused={12},
    stops=True,
)
broken(
    "6.17",
    "27 of a bool passes",
    (IF_27, IF_27.replace("!= (UINT, 1)", "!= (UINT, 1) and (kind, declared[0]) != (27, BOOL)")),
    file=RULES,
    refused={12},
    stops=True,
)
broken(
    "6.17",
    "42 with an iterator that is not marked passes",
    (IF_27, IF_27.replace("(27, 42)", "(27,)")),
    file=RULES,
    refused={12},
)
broken(
    "6.17",
    "37 of a marked pointer passes",
    (IF_37, IF_37.replace("declared == (POINTER, 1)", "False")),
    file=RULES,
    refused={12},
)
broken(
    "6.17",
    "41 of a pointer that is not marked passes",
    (IF_41, IF_41.replace("declared != (POINTER, 1)", "False")),
    file=RULES,
    refused={12},
)
ADDED_16 = "            iterators.append(a)\n"
IN_16 = "            return a in iterators[:-1]\n"
CLOSED_16 = "            if kind == 39 and iterators:\n                iterators.pop()\n"
OPENS_16 = "            if kind not in (38, 42):\n                return False\n"
broken("6.23", "16 is not tested", (IN_16, "            return False\n"), file=RULES, refused={16})
broken("6.23", "only the innermost loop is looked at", (IN_16, "            return a in iterators[-2:-1]\n"), file=RULES, refused={16})
broken("6.23", "only the outermost loop is looked at", (IN_16, "            return a in iterators[:-1][:1]\n"), file=RULES, refused={16})
broken("6.23", "the innermost loop is not looked at", (IN_16, "            return a in iterators[:-2]\n"), file=RULES, refused={16})
broken("6.23", "the outermost of eight loops is not looked at", (IN_16, "            return a in iterators[:-1][-6:]\n"), file=RULES, refused={16})
broken("6.23", "a later loop with the iterator is refused", (CLOSED_16, ""), file=RULES)
broken("6.23", "a 39 closes the outermost loop", (CLOSED_16, CLOSED_16.replace("pop()", "pop(0)")), file=RULES)
broken("6.23", "a 39 closes all loops", (CLOSED_16, CLOSED_16.replace("pop()", "clear()")), file=RULES, refused={16})
for kind, other in (38, 42), (42, 38):
    of = {"file": RULES, "refused": {16}}
    broken("6.23", "%d opens no loop" % kind, (OPENS_16, OPENS_16.replace("not in (38, 42)", "!= %d" % other)), **of)
    broken("6.23", "%d is not refused" % kind, (IN_16, IN_16.replace("\n", " and kind != %d\n" % kind)), **of)
SETS_16 = "            if kind == 33:\n                return a in iterators\n"
broken("6.23", "33 to the iterator of an open loop is refused", (OPENS_16, SETS_16 + OPENS_16), file=RULES)
broken("6.23", "a plain table is not tested", (IN_16, IN_16.replace("\n", " and self.reduced\n")), file=RULES, refused={16})
broken("6.23", "a reduced table is not tested", (IN_16, IN_16.replace("\n", " and not self.reduced\n")), file=RULES, refused={16})
broken("6.23", "marked iterators may be shared", (IN_16, IN_16.replace("\n", " and self.declarations[a][1] == 0\n")), file=RULES, refused={16})
broken(
    "6.23",
    "iterators that are not marked may be shared",
    (IN_16, IN_16.replace("\n", " and self.declarations[a][1] == 1\n")),
    file=RULES,
    refused={16},
)
broken("6.23", "any loop in a loop is refused", (IN_16, "            return len(iterators) > 1\n"), file=RULES)
broken(
    "6.23",
    "the place is the outer loop's",
    ("        iterators = []  # of the open loops\n", "        iterators, at = [], []  # of the open loops\n"),
    (CLOSED_16, CLOSED_16 + "                at.pop()\n"),
    (ADDED_16, ADDED_16 + "            at.append(i)\n"),
    (
        IN_16 + "\n        return self.first(breaks)\n",
        "            return a in iterators[:-1]\n\n        inner = self.first(breaks)\n"
        "        return inner if inner is None else at[iterators.index(iterators[-1])]\n",
    ),
    file=RULES,
    refused={16},
)
REACHED_16 = " and not any(k == 35 and self.nodes[n] == (18, 0, 0, 0) for k, n, _, _ in self.lines[:i])\n"
broken("6.23", "a row after an assert of false is not tested", (IN_16, IN_16.replace("\n", REACHED_16)), file=RULES, refused={16})
for n in 16, 17:
    broken(
        "6.2",
        "13 comes before %d" % n,
        (
            "    if refusal is None:\n        refusal = check_pair(c1, c2)\n    return refusal, lines\n",
            "    if refusal is None or refusal[0] == %d:\n        refusal = check_pair(c1, c2) or refusal\n    return refusal, lines\n" % n,
        ),
        file=RULES,
        refused={n},
    )
OF_17 = {"file": RULES, "refused": {17}}
LAST_17 = "            return any(owners.get(v, home) != home for v in uses(line))\n"
broken("6.24", "17 is not tested", (LAST_17 + "\n        return self.first(breaks)\n", LAST_17 + "\n        return None\n"), **OF_17)
MOST_17 = "MOST_PROCEDURES, MOST_LOCALS = 16, 4\n"
broken("6.24", "seventeen procedures pass", (MOST_17, MOST_17.replace("16", "17")), **OF_17)
broken("6.24", "sixteen procedures are refused", (MOST_17, MOST_17.replace("16", "15")), file=RULES)
OPENS_17 = "            if home >= MOST_PROCEDURES or loops > 0 or not 1 <= b <= MOST_LOCALS:\n"
broken("6.24", "any number of procedures passes", (OPENS_17, OPENS_17.replace("home >= MOST_PROCEDURES or ", "")), **OF_17)
broken("6.24", "a procedure may open in a loop", (OPENS_17, OPENS_17.replace("loops > 0 or ", "")), **OF_17)
broken("6.24", "a procedure may open in one loop", (OPENS_17, OPENS_17.replace("loops > 0", "loops > 1")), **OF_17)
LOOPS_17 = "            loops += (kind in (38, 42)) - (kind == 39)\n"
broken("6.24", "a closed loop counts as open", (LOOPS_17, LOOPS_17.replace(" - (kind == 39)", "")), file=RULES)
broken("6.24", "38 opens no loop for 17", (LOOPS_17, LOOPS_17.replace("in (38, 42)", "== 42")), **OF_17)
broken("6.24", "42 opens no loop for 17", (LOOPS_17, LOOPS_17.replace("in (38, 42)", "== 38")), **OF_17)
broken("6.24", "only the loops of main count for 17", (LOOPS_17, "            if home is None:\n    " + LOOPS_17), **OF_17)
broken("6.24", "any count of locals passes", (OPENS_17, OPENS_17.replace(" or not 1 <= b <= MOST_LOCALS", "")), **OF_17)
broken("6.24", "no locals pass", (OPENS_17, OPENS_17.replace("1 <= b", "0 <= b")), **OF_17)
broken("6.24", "five locals pass", (MOST_17, MOST_17.replace("4", "5")), **OF_17)
broken("6.24", "four locals are refused", (MOST_17, MOST_17.replace("4", "3")), file=RULES)
broken("6.24", "one local is refused", (OPENS_17, OPENS_17.replace("1 <= b", "2 <= b")), file=RULES)
MARKS_17 = "            return any(self.marked(v) or owners.get(v, home) < home for v in listed)\n"
broken("6.24", "a local may be marked", (MARKS_17, MARKS_17.replace("self.marked(v) or ", "")), **OF_17)
broken("6.24", "only the parameter may not be marked", (MARKS_17, MARKS_17.replace("self.marked(v)", "v == a and self.marked(v)")), **OF_17)
broken("6.24", "the last local may be marked", (MARKS_17, MARKS_17.replace("self.marked(v)", "v < a + b - 1 and self.marked(v)")), **OF_17)
broken("6.24", "a local may be an earlier 43's", (MARKS_17, MARKS_17.replace(" or owners.get(v, home) < home", "")), **OF_17)
broken(
    "6.24",
    "only the parameter may not be an earlier 43's",
    (MARKS_17, MARKS_17.replace("owners.get(v, home) < home", "v == a and owners.get(v, home) < home")),
    **OF_17,
)
broken(
    "6.24",
    "the last local may be an earlier 43's",
    (MARKS_17, MARKS_17.replace("owners.get(v, home) < home", "v < a + b - 1 and owners.get(v, home) < home")),
    **OF_17,
)
broken(
    "6.24",
    "a local may be a 43's before the last",
    (MARKS_17, MARKS_17.replace("owners.get(v, home) < home", "owners.get(v, home) == home - 1")),
    **OF_17,
)
RETURNS_17 = "            if kind == 44 and home is None:\n"
broken("6.24", "a return may stand in main", (RETURNS_17, "            if False:\n"), **OF_17)
broken("6.24", "a return may stand in main before a 43", (RETURNS_17, RETURNS_17.replace("home is None", "not self.procedures")), **OF_17)
broken("6.24", "a return in a procedure is refused", (RETURNS_17, RETURNS_17.replace("home is None", "home is not None")), file=RULES)
NUMBER_17 = "            if kind == 45 and (a >= len(self.procedures) or self.marked(c)):\n"
broken("6.24", "a call of no procedure passes", (NUMBER_17, NUMBER_17.replace("a >= len(self.procedures) or ", "")), **OF_17)
broken("6.24", "a call may name the number of procedures", (NUMBER_17, NUMBER_17.replace("a >= len", "a > len")), **OF_17)
broken(
    "6.24",
    "a call may name a procedure above it alone",
    (NUMBER_17, NUMBER_17.replace("a >= len(self.procedures)", "a > (-1 if home is None else home)")),
    file=RULES,
)
broken(
    "6.24",
    "a call of the seventeenth procedure is a fault of its own",
    (NUMBER_17, NUMBER_17.replace("a >= len(self.procedures)", "a >= min(len(self.procedures), 16)")),
    **OF_17,
)
broken("6.24", "the number of a procedure is compared with a sign", (NUMBER_17, NUMBER_17.replace("a >= len", "2**31 > a >= len")), **OF_17)
broken("6.24", "the result may go to a marked variable", (NUMBER_17, NUMBER_17.replace(" or self.marked(c)", "")), **OF_17)
broken(
    "6.24",
    "12 refuses a 45 to a marked variable",
    (ROW_12, "            if kind == 45 and (at(self.declarations, line[3]) or (0, 0))[:2] == (UINT, 1):\n                return True\n" + ROW_12),
    **OF_17,
)
broken("6.24", "uses are not tested", (LAST_17, "            return False\n"), **OF_17)
broken("6.24", "uses in main are not tested", (LAST_17, LAST_17.replace("return any", "return home is not None and any")), **OF_17)
broken("6.24", "uses in procedures are not tested", (LAST_17, LAST_17.replace("return any", "return home is None and any")), **OF_17)
broken(
    "6.24",
    "a local of a later procedure may be used",
    (LAST_17, LAST_17.replace("owners.get(v, home) != home", "home is not None and owners.get(v, home) < home or home is None and v in owners")),
    **OF_17,
)
broken(
    "6.24",
    "a local of an earlier procedure may be used",
    (LAST_17, LAST_17.replace("owners.get(v, home) != home", "owners.get(v, -1) > (-1 if home is None else home)")),
    **OF_17,
)
broken("6.24", "no local may be used", (LAST_17, LAST_17.replace("owners.get(v, home) != home", "v in owners")), file=RULES)
READ_17 = '            read = [at(reads, w) or set() for role, w in operands if role == "n"]\n'
USES_17 = '            return {w for role, w in operands if role == "v"}.union(*read)\n'
broken("1.22", "what nodes read is no use", (USES_17, USES_17.replace(".union(*read)", "")), **OF_17)
broken("1.22", "what a row names is no use", (USES_17, "            return set().union(*read)\n"), **OF_17)
for kind in 33, 38, 45:
    named = USES_17.replace('if role == "v"}', 'if role == "v" and line[0] != %d}' % kind)
    broken("1.22", "what a %d names is no use" % kind, (USES_17, named), **OF_17)
for kind, roles in sorted(ALL_ROLES.items()):
    for at, role in enumerate(roles):
        if role == "n" and kind >= 32 and kind not in (40, 41, 42):
            left = READ_17.replace('role == "n"]', 'role == "n" and (line[0], w) != (%d, line[%d])]' % (kind, at + 1))
            broken("1.22", "what %s of %d reads is no use" % (NAMES[at], kind), (READ_17, left), **OF_17)
BELOW_17 = '            below = [at(found, w) or set() for role, w in zip(ROLES[kind], operands) if role == "n"]\n'
broken("1.22", "what a node below reads is no use", (BELOW_17, "            below = []\n"), **OF_17)
for at in range(3):
    left = BELOW_17.replace('role == "n"]', 'role == "n" and (kind != 25 or w != operands[%d])]' % at)
    broken("1.22", "what %s of 25 reads is no use" % NAMES[at], (BELOW_17, left), **OF_17)
for kind in 19, 20, 21, 22, 23, 24, 26:
    broken(
        "1.22",
        "what a node under %d reads is no use" % kind,
        (BELOW_17, BELOW_17.replace('role == "n"]', 'role == "n" and kind != %d]' % kind)),
        **OF_17,
    )
for at in range(2):
    left = BELOW_17.replace('role == "n"]', 'role == "n" and (kind not in range(20, 25) or w != operands[%d])]' % at)
    broken("1.22", "what %s of 20 to 24 reads is no use" % NAMES[at], (BELOW_17, left), **OF_17)
OWN_17 = '            own = {w for role, w in zip(ROLES[kind], operands) if role == "v"}\n'
broken("1.22", "27 reads no variable", (OWN_17, OWN_17.replace('role == "v"', 'role == "v" and kind == 16')), **OF_17)
broken("1.22", "16 reads no variable", (OWN_17, OWN_17.replace('role == "v"', 'role == "v" and kind == 27')), **OF_17)
UNDER_NONE = "            if sort(kind) == 1 and any(v in owners for v in reads[self.node(i)]):\n                return True\n"
broken(
    "1.22",
    "a node that reads a local is refused",
    (
        "            if sort(kind) != 2:\n                return False\n            if kind == 43:\n                home",
        UNDER_NONE + "            if sort(kind) != 2:\n                return False\n            if kind == 43:\n                home",
    ),
    file=RULES,
)
FIRST_17 = "                found.setdefault(v, p)\n"
broken("1.21", "a variable belongs to the last 43 that lists it", (FIRST_17, "                found[v] = p\n"), **OF_17)
LISTED_17 = "            for v in range(a, min(a + b, len(self.declarations))):\n"
broken("6.24", "a 43 has four locals at most", (LISTED_17, LISTED_17.replace("a + b", "a + min(b, 4)")), **OF_17)
broken("6.24", "a 43 whose count is wrong has no locals", (LISTED_17, LISTED_17.replace("a + b", "a + (b if b <= 4 else 0)")), **OF_17)
broken("6.24", "a seventeenth 43 has no locals", (LISTED_17, LISTED_17.replace("a + b", "a + (b if p < 16 else 0)")), **OF_17)
RECEIVED = "            if line[0] == 45 and owners.get(line[3]) == line[1]:\n                return set(reads[line[2]])\n"
broken("1.22", "the result may go to a local of the one called", (USES_17, RECEIVED + USES_17), **OF_17)
ANEW_16 = "            if kind == 43:\n                iterators.clear()\n"
broken("6.23", "16 does not begin anew at a 43", (ANEW_16, ""), file=RULES, refused={16, 17})
broken(
    "6.23",
    "16 is not tested in procedures",
    (IN_16, IN_16.replace("\n", " and not any(k == 43 for k, _, _, _ in self.lines[:i])\n")),
    file=RULES,
    refused={16},
)
OPENS_11 = "            if kind in (38, 42):\n                if len(opened) >="
CLEARED_11 = "            if kind == 43:\n                opened.clear()\n"
broken("6.16", "11 begins anew at a 43", (OPENS_11, CLEARED_11 + OPENS_11), file=RULES, refused={11, 17})
BEFORE_11 = "            before = len(opened) if kind == 43 else min(before, len(opened))\n"
broken(
    "6.16",
    "11 counts the loops of one procedure",
    ("        opened, broken = [], []\n", "        opened, broken, before = [], [], 0\n"),
    (OPENS_11, BEFORE_11 + OPENS_11.replace("len(opened) >=", "len(opened) - before >=")),
    file=RULES,
    refused={11},
)
LOCALS_8 = '                if role == "l" and line[2] > 0 and w + line[2] > len(self.declarations):\n'
broken("6.13", "locals may be anything", (LOCALS_8, "                if False:\n"), file=RULES, refused={8}, stops=True)
broken("6.13", "only the parameter must be there", (LOCALS_8, LOCALS_8.replace("w + line[2]", "w + 1")), file=RULES, refused={8}, stops=True)
broken(
    "6.13",
    "locals are counted modulo 2^32",
    (LOCALS_8, LOCALS_8.replace("w + line[2]", "(w + line[2]) % 2**32")),
    file=RULES,
    refused={8},
    stops=True,
)
broken("6.13", "the last variable may be no local", (LOCALS_8, LOCALS_8.replace("> len", ">= len")), file=RULES)
broken(
    "6.13",
    "one local more than there are variables passes",
    (LOCALS_8, LOCALS_8.replace("> len(self.declarations)", "> len(self.declarations) + 1")),
    file=RULES,
    refused={8},
    stops=True,
)
broken(
    "6.13",
    "a 43 with no locals must name a variable",
    (LOCALS_8, LOCALS_8.replace("line[2] > 0 and w + line[2]", "w + max(line[2], 1)")),
    file=RULES,
)
broken("6.13", "a count above 4 is not tested", (LOCALS_8, LOCALS_8.replace("line[2] > 0", "5 > line[2] > 0")), file=RULES, refused={8}, stops=True)
broken("6.13", "the number of a procedure must be a variable", (ROLES_8, ROLES_8.replace('role == "v"', 'role in "vp"')), file=RULES)
broken("6.13", "the number of a procedure must be a node", (THERE, THERE.replace('role == "n"', 'role in "np"')), file=RULES)
broken("6.13", "the count of locals must be a variable", (ROLES_8, ROLES_8.replace('role == "v"', 'role in "vk"')), file=RULES)
LOCALS_9 = "            locals_ = range(line[1], line[1] + line[2]) if line[0] == 43 else ()\n"
broken("6.14", "locals may have any type", (LOCALS_9, "            locals_ = ()\n"), file=RULES, refused={9}, stops=True)
broken(
    "6.14",
    "only the parameter must be a uint",
    (LOCALS_9, LOCALS_9.replace("line[1] + line[2])", "line[1] + min(line[2], 1))")),
    file=RULES,
    refused={9},
    stops=True,
)
broken(
    "6.14",
    "the last local may have any type",
    (LOCALS_9, LOCALS_9.replace("line[1] + line[2])", "line[1] + line[2] - 1)")),
    file=RULES,
    refused={9},
    stops=True,
)
broken(
    "6.14",
    "the parameter may have any type",
    (LOCALS_9, LOCALS_9.replace("range(line[1],", "range(line[1] + 1,")),
    file=RULES,
    refused={9},
    stops=True,
)
broken("6.14", "a 43 with no locals must name a uint", (LOCALS_9, LOCALS_9.replace("line[1] + line[2])", "line[1] + max(line[2], 1))")), file=RULES)
broken(
    "6.14",
    "a count above 4 has no types to test",
    (LOCALS_9, LOCALS_9.replace("== 43", "== 43 and line[2] <= 4")),
    file=RULES,
    refused={9},
    stops=True,
)
BELOW = "    if not c1 < c2:\n"
broken("3.1", "c1 = c2 passes", (BELOW, "    if not c1 <= c2:\n"), file=RULES)
broken("3.1", "c1 = c2 + 1 passes", (BELOW, "    if not c1 < c2 and c1 != c2 + 1:\n"), file=RULES)
broken("3.1", "c1 + 1 = c2 is refused", (BELOW, "    if not c1 + 1 < c2:\n"), file=RULES)
broken("3.1", "c1 + 1 = c2 is refused where c1 is 0", (BELOW, "    if not c1 < c2 or (c1, c2) == (0, 1):\n"), file=RULES)
broken("3.1", "c1 + 1 = c2 is refused where c2 is the largest number", (BELOW, "    if not c1 < c2 or c1 + 1 == c2 == 2**32 - 1:\n"), file=RULES)
broken("3.1", "c1 above c2 passes", (BELOW, "    if c1 == c2:\n"), file=RULES)
broken("3.1", "13 is not tested", (BELOW, "    if False:\n"), file=RULES)
broken("3.1", "c1 = 0 is refused", (BELOW, "    if c1 == 0 or not c1 < c2:\n"), file=RULES)
broken("3.1", "the places are compared with a sign", (BELOW, "    if not c1 < c2 or c2 >= 2**31 > c1:\n"), file=RULES)

# Lent buffers: the reader


def lent(rule, what, *patches, **more):
    broken(rule, what, *patches, file=BUFFERS, **more)


READ_INTO = "    lent[:] = words + [0] * (READ_WORDS - len(words))\n"
lent("5.9", "the reader leaves the other words", (READ_INTO, "    lent[: len(words)] = words\n"))
lent("5.9", "the reader leaves the last word", (READ_INTO, "    lent[:-1] = (words + [0] * READ_WORDS)[: READ_WORDS - 1]\n"))
KEPT = "    kept = lent[-(-len(lines) // 31) * 124 :]\n" + READ_INTO + "    lent[len(lent) - len(kept) :] = kept\n"
lent("5.9", "the reader leaves the words after the last block", (READ_INTO, KEPT))
lent("5.9", "the reader puts the table at the end", (READ_INTO, "    lent[:] = [0] * (READ_WORDS - len(words)) + words\n"))
ALONE = READ_INTO.replace("words +", "[w * (i % 4 == 0) for i, w in enumerate(words)] +")
lent("5.9", "the reader puts the kinds alone", (READ_INTO, ALONE))
lent("5.9", "the reader writes nothing", (READ_INTO, ""))
lent("5.9", "the reader answers the number of words", ('"lines %d" % len(lines)', '"lines %d" % len(words)'))
lent("5.9", "the reader answers the lines of the last block", ('"lines %d" % len(lines)', '"lines %d" % (len(lines) % 31)'))
READ_14 = "    if refusal is None and len(lent) != READ_WORDS:\n        refusal = (14, 0)\n"
lent("6.21", "the reader takes more than 5,248 words", (READ_14, READ_14.replace("!=", "<")))
lent("6.21", "the reader takes fewer than 5,248 words", (READ_14, READ_14.replace("!=", ">")))
lent("6.21", "the reader takes any number of words", (READ_14, ""))
lent("6.21", "the reader takes no words for no lines", (READ_14, READ_14.replace(":\n", " and (lent or lines):\n", 1)))
lent("6.21", "the reader takes the words of the table", (READ_14, READ_14.replace(":\n", " and len(lent) != 4 * len(lines):\n", 1)))
lent("6.19", "the reader wants as many words as the table has", (READ_14, READ_14.replace("READ_WORDS", "4 * len(lines)")))
lent("6.3", "14 of the reader tells the size as its place", (READ_14, READ_14.replace("(14, 0)", "(14, len(lent))")))
for test, what in ("<= 3", "1 to 3"), ("== 1", "1"), ("== 2", "2"), ("== 3", "3"):
    early = READ_14.replace("refusal is None", "(refusal is None or refusal[0] %s)" % test)
    lent("6.2", "14 of the reader comes before %s" % what, (READ_14, early))
READS = "    words = rules.flat(lines)\n"
CHECKED = "    refusal = rules.check_table(rules.flat(lines), False)\n    if refusal is not None:\n        return refused(refusal)\n"
lent("6.21", "the reader checks the table", (READS, CHECKED + READS))
GIVEN_UP = "    if refusal is not None:\n        return refused(refusal)\n"
READ_GIVEN_UP = GIVEN_UP + READS
for test, what in ("True", "a refused reader"), ("refusal[0] == 14", "14 of the reader"), ("refusal[0] < 14", "1 to 3 of the reader"):
    zeroed = "    if refusal is not None and %s:\n        lent[:] = [0] * len(lent)\n" % test
    lent("6.4", "%s zeroes the words" % what, (READ_GIVEN_UP, zeroed + READ_GIVEN_UP))
for number in 1, 2, 3, 14:
    zeroed = "    if refusal is not None and refusal[0] == %d and lent:\n        lent[0] = 0\n" % number
    lent("6.4", "%d of the reader zeroes the first word" % number, (READ_GIVEN_UP, zeroed + READ_GIVEN_UP))
    last = zeroed.replace("lent[0]", "lent[-1]")
    lent("6.4", "%d of the reader zeroes the last word" % number, (READ_GIVEN_UP, last + READ_GIVEN_UP))

# Lent buffers: the writer

WRITE_INTO = "    lent[:] = list(data) + [0] * (WRITTEN_BYTES - len(data))\n"
lent("5.10", "the writer leaves the other bytes", (WRITE_INTO, "    lent[: len(data)] = data\n"))
lent("5.10", "the writer leaves the last byte", (WRITE_INTO, "    lent[:-1] = (list(data) + [0] * WRITTEN_BYTES)[: WRITTEN_BYTES - 1]\n"))
KEPT = "    kept = lent[len(data) : len(data) + 512]\n" + WRITE_INTO + "    lent[len(data) : len(data) + 512] = kept\n"
lent("5.10", "the writer leaves the bytes of the next block", (WRITE_INTO, KEPT))
lent("5.10", "the writer puts the file at the end", (WRITE_INTO, "    lent[:] = [0] * (WRITTEN_BYTES - len(data)) + list(data)\n"))
lent("5.10", "the writer writes nothing", (WRITE_INTO, ""))
ALONE = WRITE_INTO.replace("list(data)", "list(data[:-4]) + [0] * len(data[-4:])")
lent("5.10", "the writer writes no check into the last block", (WRITE_INTO, ALONE))
lent("5.10", "the writer answers the number of lines", ('"bytes %d" % len(data)', '"bytes %d" % (len(words) // 4)'))
lent("5.10", "the writer answers the number of blocks", ('"bytes %d" % len(data)', '"bytes %d" % (len(data) // 512)'))
lent("5.10", "the writer answers the size lent", ('"bytes %d" % len(data)', '"bytes %d" % len(lent)'))
WRITE_14 = "    if refusal is None and len(lent) != WRITTEN_BYTES:\n        refusal = (14, 0)\n"
lent("6.21", "the writer takes more than 22,016 bytes", (WRITE_14, WRITE_14.replace("!=", "<")))
lent("6.21", "the writer takes fewer than 22,016 bytes", (WRITE_14, WRITE_14.replace("!=", ">")))
lent("6.21", "the writer takes any number of bytes", (WRITE_14, ""))
lent("6.21", "the writer takes no bytes for no lines", (WRITE_14, WRITE_14.replace(":\n", " and (lent or words):\n", 1)))
FITTING = "512 * -(-len(words) // 124)"
lent("6.21", "the writer takes the bytes of the file", (WRITE_14, WRITE_14.replace(":\n", " and len(lent) != %s:\n" % FITTING, 1)))
lent("6.19", "the writer wants as many bytes as the file has", (WRITE_14, WRITE_14.replace("WRITTEN_BYTES", FITTING)))
lent("6.3", "14 of the writer tells the size as its place", (WRITE_14, WRITE_14.replace("(14, 0)", "(14, len(lent))")))
for test, what in [("!= 14", "the table's checks")] + [("== %d" % n, str(n)) for n in (4, *NUMBERS)]:
    early = WRITE_14.replace("refusal is None", "(refusal is None or refusal[0] %s)" % test)
    lent("6.2", "14 of the writer comes before %s" % what, (WRITE_14, early))
WRITE_CHECK = "def write_file(words, lent):\n    refusal = rules.check_table(words, False)\n"
lent("6.21", "the writer checks by the rules of reduced tables", (WRITE_CHECK, WRITE_CHECK.replace("False", "True")), stops=True)
lent("6.21", "the writer checks no table", (WRITE_CHECK, WRITE_CHECK.replace("rules.check_table(words, False)", "None")), stops=True)
for number in (4, *NUMBERS):
    passed = "    if refusal is not None and refusal[0] == %d:\n        refusal = None\n" % number
    lent("5.10", "the writer takes a table that %d refuses" % number, (WRITE_CHECK, WRITE_CHECK + passed), stops=True)
WRITES = "    data = rules.write(lines_of(words))\n"
WRITE_GIVEN_UP = GIVEN_UP + WRITES
for test, what in ("True", "a refused writer"), ("refusal[0] == 14", "14 of the writer"), ("refusal[0] != 14", "a table's check in the writer"):
    zeroed = "    if refusal is not None and %s:\n        lent[:] = [0] * len(lent)\n" % test
    lent("6.4", "%s zeroes the bytes" % what, (WRITE_GIVEN_UP, zeroed + WRITE_GIVEN_UP))
for number in (4, *NUMBERS, 14):
    zeroed = "    if refusal is not None and refusal[0] == %d and lent:\n        lent[0] = 0\n" % number
    lent("6.4", "%d of the writer zeroes the first byte" % number, (WRITE_GIVEN_UP, zeroed + WRITE_GIVEN_UP))
    last = zeroed.replace("lent[0]", "lent[-1]")
    lent("6.4", "%d of the writer zeroes the last byte" % number, (WRITE_GIVEN_UP, last + WRITE_GIVEN_UP))

# Lent buffers: the reduction, and the checks by themselves

REDUCES = "    lent[:] = rules.flat(Table(lines_of(words)).reduced().lines)\n"
lent("3.3", "the reduction writes the plain table", (REDUCES, "    lent[:] = words\n"))
lent("3.3", "the reduction writes nothing", (REDUCES, ""))
lent("3.3", "the reduction leaves the last word", (REDUCES, REDUCES.replace("[:]", "[:-1]").replace(".lines)", ".lines)[:-1]")))
lent("3.3", "the reduction leaves the last line", (REDUCES, REDUCES.replace("[:]", "[:-4]").replace(".lines)", ".lines)[:-4]")))
lent("3.3", "the reduction leaves the operands", (REDUCES, REDUCES.replace("[:]", "[::4]").replace(".lines)", ".lines)[::4]")))
lent("3.3", "the reduction leaves the kinds", (REDUCES, "    kinds = lent[::4]\n" + REDUCES + "    lent[::4] = kinds\n"))
REDUCE_14 = "    if refusal is None and len(lent) != len(words):\n        refusal = (14, 0)\n"
lent("6.21", "the reduction takes a longer table", (REDUCE_14, REDUCE_14.replace("!=", "<")), stops=True)
lent("6.21", "the reduction takes a shorter table", (REDUCE_14, REDUCE_14.replace("!=", ">")), stops=True)
lent("6.21", "the reduction takes a table of any size", (REDUCE_14, ""), stops=True)
lent("6.21", "the reduction takes 5,248 words too", (REDUCE_14, REDUCE_14.replace(":\n", " and len(lent) != 5248:\n", 1)), stops=True)
lent("6.21", "the reduction wants 5,248 words", (REDUCE_14, REDUCE_14.replace("len(words)", "5248")), stops=True)
LINES_14 = REDUCE_14.replace("len(lent) != len(words)", "len(lent) // 4 != len(words) // 4")
lent("6.21", "the reduction compares numbers of lines", (REDUCE_14, LINES_14))
lent("6.3", "14 of the reduction tells the size as its place", (REDUCE_14, REDUCE_14.replace("(14, 0)", "(14, len(lent))")))
for test, what in [("== 13", "13"), ("not in (13, 14)", "the table's checks")] + [("== %d" % n, str(n)) for n in (4, *NUMBERS)]:
    early = REDUCE_14.replace("refusal is None", "(refusal is None or refusal[0] %s)" % test)
    lent("6.2", "14 of the reduction comes before %s" % what, (REDUCE_14, early))
REDUCE_13 = "    if refusal is None:\n        refusal = rules.check_pair(c1, c2)\n"
lent("6.21", "the reduction takes any pair", (REDUCE_13, ""))
lent("6.2", "13 of the reduction comes before the table's checks", (REDUCE_13, "    refusal = rules.check_pair(c1, c2) or refusal\n"))
for n in 16, 17:
    early_13 = REDUCE_13.replace("refusal is None", "refusal is None or refusal[0] == %d" % n).replace("c2)", "c2) or refusal")
    lent("6.2", "13 of the reduction comes before %d" % n, (REDUCE_13, early_13))
REDUCE_CHECK = "def reduce_table(words, c1, c2, lent):\n    refusal = rules.check_table(words, False)\n"
lent("6.21", "the reduction checks by the rules of reduced tables", (REDUCE_CHECK, REDUCE_CHECK.replace("False", "True")), stops=True)
lent("6.21", "the reduction checks no table", (REDUCE_CHECK, REDUCE_CHECK.replace("rules.check_table(words, False)", "None")), stops=True)
for number in (4, *NUMBERS):
    passed = "    if refusal is not None and refusal[0] == %d:\n        refusal = None\n" % number
    lent("6.21", "the reduction takes a table that %d refuses" % number, (REDUCE_CHECK, REDUCE_CHECK + passed), stops=True)
REDUCE_GIVEN_UP = GIVEN_UP + REDUCES
for test, what in (
    ("True", "a refused reduction"),
    ("refusal[0] == 14", "14 of the reduction"),
    ("refusal[0] == 13", "13 of the reduction"),
    ("refusal[0] not in (13, 14)", "a table's check in the reduction"),
):
    zeroed = "    if refusal is not None and %s:\n        lent[:] = [0] * len(lent)\n" % test
    lent("6.4", "%s zeroes the lent table" % what, (REDUCE_GIVEN_UP, zeroed + REDUCE_GIVEN_UP))
    copied = "    if refusal is not None and %s:\n        lent[:] = (words + lent)[: len(lent)]\n" % test
    lent("6.4", "%s leaves the plain table" % what, (REDUCE_GIVEN_UP, copied + REDUCE_GIVEN_UP))
for number in (4, *NUMBERS, 13, 14):
    zeroed = "    if refusal is not None and refusal[0] == %d and lent:\n        lent[0] = 0\n" % number
    lent("6.4", "%d of the reduction zeroes the first word" % number, (REDUCE_GIVEN_UP, zeroed + REDUCE_GIVEN_UP))
    last = zeroed.replace("lent[0]", "lent[-1]")
    lent("6.4", "%d of the reduction zeroes the last word" % number, (REDUCE_GIVEN_UP, last + REDUCE_GIVEN_UP))
ALONE = "rules.check_pair(c1, c2) if function == PAIR else rules.check_table(words, function == REDUCED)"
lent("6.21", "check_table checks each table as a plain one", (ALONE, ALONE.replace("function == REDUCED", "False")))
lent("6.21", "check_table checks each table as a reduced one", (ALONE, ALONE.replace("function == REDUCED", "True")))
lent("6.21", "check_table checks a pair too", (ALONE, ALONE.replace("REDUCED)", "REDUCED) or rules.check_pair(c1, c2)")))
BOTH = ALONE.replace("(c1, c2) if", "(c1, c2) or rules.check_table(words, False) if")
lent("6.21", "check_pair checks a table too", (ALONE, BOTH))
