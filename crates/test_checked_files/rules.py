"""The rules on files, tables and pairs, for make_cases.py and for test_run_cases/break_rules.py: sections 1 and 5 of docs/RULES.md and the
refusals 1 to 13, 16 and 17 of section 6, apart from the proved code.

A refusal is a number and a place; None is none. A table is lines of four words.
"""
import pathlib
import struct
import sys

sys.path.insert(0, str(pathlib.Path(__file__).parent.parent / "test_run_cases"))
from make_cases import Table  # noqa: E402

BLOCK, FULL, MOST_BYTES, MOST_LINES = 512, 31, 22016, 1312
MOST = (32, 1024, 256)
MOST_DEPTH, MOST_LOOPS = 12, 8
MOST_PROCEDURES, MOST_LOCALS = 16, 4
BOOL, UINT, POINTER = 1, 2, 3

# What the operands a, b, c of a kind are: 0 zero, m mark, f 0 or 1, c any number, v variable, n node, l first local, k count of locals,
# p procedure.
ROLES = {
    1: "000", 2: "m00", 3: "m00",
    16: "v00", 17: "c00", 18: "f00", 19: "n00", 20: "nn0", 21: "nn0", 22: "nn0", 23: "nn0", 24: "nn0", 25: "nnn", 26: "n00",
    27: "v00", 28: "n00", 29: "n00",
    32: "000", 33: "vn0", 34: "nn0", 35: "n00", 36: "n00", 37: "vn0", 38: "vnn", 39: "000",
    40: "nn0", 41: "vn0", 42: "vnn", 43: "lk0", 44: "n00", 45: "pnv",
}  # fmt: skip
PLAIN_KINDS = {*range(1, 4), *range(16, 27), *range(32, 40), *range(43, 46)}
REDUCED_KINDS = {*range(1, 4), *range(16, 30), *range(32, 46)} - {19, 26, 34}

# The types that the variables and nodes of a node or row may have, and the type of the node.
SUMS = {(UINT, UINT): UINT, (POINTER, UINT): POINTER}
COMPARED = {(UINT, UINT): BOOL}
SAME = {(t, t): None for t in (BOOL, UINT, POINTER)}
TYPES = {
    16: {(t,): t for t in (BOOL, UINT, POINTER)}, 17: {(): UINT}, 18: {(): BOOL}, 19: {(POINTER,): UINT}, 20: SUMS, 21: SUMS, 22: COMPARED,
    23: COMPARED, 24: COMPARED, 25: {(BOOL, t, t): t for t in (BOOL, UINT, POINTER)}, 26: {(POINTER,): BOOL},
    32: {(): None}, 33: SAME, 34: {(POINTER, UINT): None}, 35: {(BOOL,): None}, 36: {(BOOL,): None}, 37: {(POINTER, UINT): None},
    38: {(UINT, UINT, UINT): None}, 39: {(): None}, 43: {(): None}, 44: {(UINT,): None}, 45: {(UINT, UINT): None},
}  # fmt: skip
TYPES = {kind: dict(types) for kind, types in TYPES.items()}
for new, old in {27: 16, 28: 19, 29: 26, 40: 34, 41: 37, 42: 38}.items():
    TYPES[new] = dict(TYPES[old])


# The file


def read(data):
    """The refusal of a file, and its lines."""
    if len(data) % BLOCK != 0 or len(data) > MOST_BYTES:
        return (1, 0), None
    blocks = [struct.unpack_from("<128I", data, at) for at in range(0, len(data), BLOCK)]
    for k, ws in enumerate(blocks):
        if sum(ws[:127]) % 2**32 != ws[127]:
            return (2, k), None
    total = sum(ws[125] for ws in blocks)
    for k, ws in enumerate(blocks):
        number, count, in_all = ws[124:127]
        last = k == len(blocks) - 1
        if number != k:
            return (3, k), None
        if not (1 <= count <= FULL if last else count == FULL):
            return (3, k), None
        if in_all != total or total > MOST_LINES:
            return (3, k), None
        if any(ws[4 * count : 124]):
            return (3, k), None
    return None, [ws[i : i + 4] for ws in blocks for i in range(0, 4 * ws[125], 4)]


def write(lines):
    """The file of a table."""
    out = []
    for k in range(0, len(lines), FULL):
        part = lines[k : k + FULL]
        ws = [w for line in part for w in line] + [0] * (4 * (FULL - len(part)))
        ws += [k // FULL, len(part), len(lines)]
        ws.append(sum(ws) % 2**32)
        out.append(struct.pack("<128I", *ws))
    return b"".join(out)


# The table


def sort(kind):
    return 0 if kind < 16 else 1 if kind < 32 else 2


def at(found, n):
    """A part of a list, or None past it."""
    return found[n] if n < len(found) else None


class Checked:
    """A table under its checks: each gives the first line that breaks it, or None."""

    def __init__(self, lines, reduced):
        self.lines, self.reduced = lines, reduced
        self.known = REDUCED_KINDS if reduced else PLAIN_KINDS
        self.declarations = [line for line in lines if sort(line[0]) == 0]
        self.nodes = [line for line in lines if sort(line[0]) == 1]
        self.procedures = [line for line in lines if line[0] == 43]

    def first(self, breaks):
        return next((i for i, line in enumerate(self.lines) if breaks(i, line)), None)

    def node(self, i):
        """The number of a line's node in its sort."""
        return i - len(self.declarations)

    def check_5(self):
        highest = 0

        def breaks(i, line):
            nonlocal highest
            if line[0] not in self.known or sort(line[0]) < highest:
                return True
            highest = sort(line[0])
            return False

        return self.first(breaks)

    def check_6(self):
        seen = [0, 0, 0]

        def breaks(i, line):
            seen[sort(line[0])] += 1
            return seen[sort(line[0])] > MOST[sort(line[0])]

        return self.first(breaks)

    def check_7(self):
        def breaks(i, line):
            for role, w in zip(ROLES[line[0]], line[1:]):
                if role == "0" and w != 0:
                    return True
                if role in "mf" and w > 1:
                    return True
            return False

        return self.first(breaks)

    def check_8(self):
        def breaks(i, line):
            for role, w in zip(ROLES[line[0]], line[1:]):
                if role == "v" and w >= len(self.declarations):
                    return True
                if role == "l" and line[2] > 0 and w + line[2] > len(self.declarations):
                    return True
                if role == "n" and w >= len(self.nodes):
                    return True
                if role == "n" and sort(line[0]) == 1 and w >= self.node(i):
                    return True
            return False

        return self.first(breaks)

    def check_9(self):
        types = []

        def breaks(i, line):
            if sort(line[0]) == 0:
                return False
            found = {"v": [kind for kind, _, _, _ in self.declarations], "n": types}
            operands = tuple(at(found[role], w) for role, w in zip(ROLES[line[0]], line[1:]) if role in "vn")
            if sort(line[0]) == 1:
                types.append(TYPES[line[0]].get(operands))
            locals_ = range(line[1], line[1] + line[2]) if line[0] == 43 else ()
            if any(at(found["v"], v) != UINT for v in locals_):
                return True
            return operands not in TYPES[line[0]]

        return self.first(breaks)

    def check_10(self):
        depths = []

        def breaks(i, line):
            if sort(line[0]) != 1:
                return False
            operands = [at(depths, w) or 0 for role, w in zip(ROLES[line[0]], line[1:]) if role == "n"]
            depths.append(1 + max(operands, default=0))
            return depths[-1] > MOST_DEPTH

        return self.first(breaks)

    def check_11(self):
        opened, broken = [], []
        for i, (kind, _, _, _) in enumerate(self.lines):
            if kind in (38, 42):
                if len(opened) >= MOST_LOOPS:
                    broken.append(i)
                opened.append(i)
            elif kind == 39:
                if opened:
                    opened.pop()
                else:
                    broken.append(i)
        return min(opened + broken, default=None)

    def check_12(self):
        def breaks(i, line):
            kind, a, _, _ = line
            declared = (at(self.declarations, a) or (0, 0))[:2] if ROLES[kind][0] == "v" else None
            if kind == 33:
                return declared == (UINT, 1)
            if not self.reduced:
                return False
            if kind in (16, 38):
                return declared == (UINT, 1)
            if kind in (27, 42):
                return declared != (UINT, 1)
            if kind == 37:
                return declared == (POINTER, 1)
            if kind == 41:
                return declared != (POINTER, 1)
            return False

        return self.first(breaks)

    def check_16(self):
        iterators = []  # of the open loops

        def breaks(i, line):
            kind, a, _, _ = line
            if kind == 43:
                iterators.clear()
            if kind == 39 and iterators:
                iterators.pop()
            if kind not in (38, 42):
                return False
            iterators.append(a)
            return a in iterators[:-1]

        return self.first(breaks)

    def marked(self, v):
        return (at(self.declarations, v) or (0, 0))[1] == 1

    def owners(self):
        """Of each local the procedure that has it, the first whose 43 lists it."""
        found = {}
        for p, (_, a, b, _) in enumerate(self.procedures):
            for v in range(a, min(a + b, len(self.declarations))):
                found.setdefault(v, p)
        return found

    def reads(self):
        """Of each node the variables that it reads, itself or in a node under it."""
        found = []
        for kind, *operands in self.nodes:
            below = [at(found, w) or set() for role, w in zip(ROLES[kind], operands) if role == "n"]
            own = {w for role, w in zip(ROLES[kind], operands) if role == "v"}
            found.append(own.union(*below))
        return found

    def check_17(self):
        owners, reads = self.owners(), self.reads()
        home, loops = None, 0  # the procedure where a row stands, and how many loops are open

        def opens_badly(a, b):
            listed = range(a, a + b)
            if home >= MOST_PROCEDURES or loops > 0 or not 1 <= b <= MOST_LOCALS:
                return True
            return any(self.marked(v) or owners.get(v, home) < home for v in listed)

        def uses(line):
            operands = list(zip(ROLES[line[0]], line[1:]))
            read = [at(reads, w) or set() for role, w in operands if role == "n"]
            return {w for role, w in operands if role == "v"}.union(*read)

        def breaks(i, line):
            nonlocal home, loops
            kind, a, b, c = line
            if sort(kind) != 2:
                return False
            if kind == 43:
                home = 0 if home is None else home + 1
                return opens_badly(a, b)
            loops += (kind in (38, 42)) - (kind == 39)
            if kind == 44 and home is None:
                return True
            if kind == 45 and (a >= len(self.procedures) or self.marked(c)):
                return True
            return any(owners.get(v, home) != home for v in uses(line))

        return self.first(breaks)


ORDER = (5, 6, 7, 8, 9, 10, 11, 12, 16, 17)


def check_table(words, reduced):
    """The refusal of a table's words."""
    if len(words) % 4 != 0:
        return (4, 0)
    table = Checked([tuple(words[i : i + 4]) for i in range(0, len(words), 4)], reduced)
    for number in ORDER:
        place = getattr(table, "check_%d" % number)()
        if place is not None:
            return (number, place)
    return None


def check_pair(c1, c2):
    if not c1 < c2:
        return (13, 0)
    return None


def flat(lines):
    return [w for line in lines for w in line]


def refusal_of_input(data):
    """The refusal of an input of `pairrun`, and the lines of its table."""
    if len(data) < 12:
        return (1, 0), None
    c1, c2, _ = struct.unpack_from("<3I", data)
    refusal, lines = read(data[12:])
    if refusal is None:
        refusal = check_table(flat(lines), False)
    if refusal is None:
        refusal = check_pair(c1, c2)
    return refusal, lines


def line_of(data):
    """What this program prints of a case: of a reduced table, which the limit tells, whether it passes; else all that is done with one."""
    refusal, lines = None, None
    if len(data) >= 12 and struct.unpack_from("<I", data, 8)[0] == 2**32 - 1:
        refusal, lines = read(data[12:])
        if refusal is None:
            refusal = check_table(flat(lines), True)
        if refusal is None:
            return "passes reduced"
    else:
        refusal, lines = refusal_of_input(data)
        if refusal is None:
            refusal = check_table(flat(Table(lines).reduced().lines), True)
        if refusal is None:
            return "passes %d" % len(lines) if write(lines) == data[12:] else "differs"
    return "refused %d line %d" % refusal
