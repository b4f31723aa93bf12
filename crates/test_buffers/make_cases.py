#!/usr/bin/env python3
"""Writes stdin and stdout of this program: calls of the reader, the writer, the reduction and the checks, and what must be printed of each.

A case is words, the lowest byte first, and the input after them: the function (0 reader, 1 writer, 2 reduction, 3 check of a plain table, 4
of a reduced one, 5 check of a pair), the size lent (words for 0 and 2, bytes for 1), what each word or byte of it is, c1, c2, the length
of the input in bytes. The input is the bytes of a file for 0, the words of a table for the others. Printed is the answer and, for 0 to 2,
the check number of the buffer at exit.

The answers are given here, by hand, from docs/RULES.md; the functions below, with the rules of test_checked_files/rules.py and the
reduction of test_run_cases, must come to the same ones.
"""
import pathlib
import struct
import sys

HERE = pathlib.Path(__file__).parent
sys.path.insert(0, str(HERE.parent / "test_checked_files"))
sys.path.insert(0, str(HERE.parent / "test_run_cases"))
import rules  # noqa: E402
from make_cases import Table  # noqa: E402

READER, WRITER, REDUCTION, PLAIN, REDUCED, PAIR = range(6)
READ_WORDS, WRITTEN_BYTES = 5248, 22016


# The functions, each with the buffer that it is lent (rules 5.9, 5.10, 6.4 and 6.21)


def refused(refusal):
    return "refused %d line %d" % refusal


def read_file(data, lent):
    refusal, lines = rules.read(data)
    if refusal is None and len(lent) != READ_WORDS:
        refusal = (14, 0)
    if refusal is not None:
        return refused(refusal)
    words = rules.flat(lines)
    lent[:] = words + [0] * (READ_WORDS - len(words))
    return "lines %d" % len(lines)


def write_file(words, lent):
    refusal = rules.check_table(words, False)
    if refusal is None and len(lent) != WRITTEN_BYTES:
        refusal = (14, 0)
    if refusal is not None:
        return refused(refusal)
    data = rules.write(lines_of(words))
    lent[:] = list(data) + [0] * (WRITTEN_BYTES - len(data))
    return "bytes %d" % len(data)


def reduce_table(words, c1, c2, lent):
    refusal = rules.check_table(words, False)
    if refusal is None:
        refusal = rules.check_pair(c1, c2)
    if refusal is None and len(lent) != len(words):
        refusal = (14, 0)
    if refusal is not None:
        return refused(refusal)
    lent[:] = rules.flat(Table(lines_of(words)).reduced().lines)
    return "passes"


def lines_of(words):
    return [tuple(words[i : i + 4]) for i in range(0, len(words), 4)]


def check_number(words):
    h = 0
    for w in words:
        h = (h * 31 + w) % 2**32
    return h


def line_of(case):
    """What is printed of a case."""
    function, size, fill, c1, c2, length = struct.unpack_from("<6I", case)
    data = case[24:]
    assert len(data) == length
    words = list(struct.unpack("<%dI" % (length // 4), data[: length // 4 * 4]))
    lent = [fill] * size
    if function == READER:
        answer = read_file(data, lent)
    elif function == WRITER:
        answer = write_file(words, lent)
    elif function == REDUCTION:
        answer = reduce_table(words, c1, c2, lent)
    else:
        refusal = rules.check_pair(c1, c2) if function == PAIR else rules.check_table(words, function == REDUCED)
        return "passes" if refusal is None else refused(refusal)
    return "%s buffer %d" % (answer, check_number(lent))


# Tables

BIG = 4294967295
SKIP, END = (32, 0, 0, 0), (39, 0, 0, 0)
U, MU, P, MP, B, C = (2, 0, 0, 0), (2, 1, 0, 0), (3, 0, 0, 0), (3, 1, 0, 0), (1, 0, 0, 0), (17, 1, 0, 0)
T = [MU, MP, (17, 5, 0, 0), (17, 0, 0, 0), (17, 4, 0, 0), (16, 1, 0, 0), (16, 0, 0, 0), (20, 3, 4, 0), (17, 7, 0, 0), (19, 5, 0, 0)]
T += [(24, 7, 6, 0), (37, 1, 0, 0), (38, 0, 1, 2), (34, 5, 6, 0), (35, 8, 0, 0), END]
# every kind of a plain table, each of those that the reduction changes with marked and unmarked variables
VARIABLES = [MU, MP, B, U, P]
NODES = [(17, 5, 0, 0), (18, 1, 0, 0), *((16, v, 0, 0) for v in range(5)), (19, 3, 0, 0), (19, 6, 0, 0), (20, 0, 5, 0), (20, 3, 0, 0)]
NODES += [(21, 5, 0, 0), (22, 0, 5, 0), (23, 0, 5, 0), (24, 0, 5, 0), (25, 1, 0, 5), (26, 3, 0, 0), (26, 6, 0, 0), (18, 0, 0, 0)]
ROWS = [SKIP, (33, 3, 0, 0), (33, 2, 1, 0), (33, 4, 3, 0), (33, 1, 6, 0), (34, 3, 0, 0), (34, 6, 5, 0), (35, 1, 0, 0), (36, 12, 0, 0)]
ROWS += [(37, 1, 0, 0), (37, 4, 5, 0), (38, 0, 0, 5), (38, 3, 5, 0), END, END]
KINDS = VARIABLES + NODES + ROWS
# the rows of procedures, in main and in two of them, with rows that the reduction changes
CALLS = [MU, MP, U, U, U, C, (16, 0, 0, 0), (16, 1, 0, 0), (19, 2, 0, 0), (16, 3, 0, 0), (37, 1, 0, 0), (38, 0, 0, 0), (45, 1, 1, 2), END]
CALLS += [(43, 3, 1, 0), (34, 2, 4, 0), (44, 3, 0, 0), (43, 4, 1, 0), (38, 0, 0, 0), (45, 0, 3, 4), (44, 1, 0, 0), END]
# 1,312 lines: as many of each sort as there may be
FULL = (VARIABLES * 7)[:32] + (NODES * 54)[:1024] + (ROWS * 17)[:255] + [SKIP]
PASSING = {"none": [], "one": [SKIP], "31": [SKIP] * 31, "32": [U] + [SKIP] * 31, "T": T, "kinds": KINDS, "calls": CALLS, "full": FULL}


def chain(depth):
    return [(17, 0, 0, 0)] + [(20, i, i, 0) for i in range(depth - 1)]


def loops(*iterators):
    """Loops one inside another, with these iterators of nine."""
    return [U] * 9 + [C] + [(38, v, 0, 0) for v in iterators] + [END] * len(iterators)


def flat(lines):
    return [w for line in lines for w in line]


# Words that the checks of a plain table refuse, with number and line
REFUSED = [
    ([32], (4, 0)),
    ([32, 0], (4, 0)),
    ([32, 0, 0], (4, 0)),
    (flat(T) + [32], (4, 0)),
    (flat(FULL) + [32, 0], (4, 0)),
    (flat([SKIP, (31, 0, 0, 0)]), (5, 1)),
    (flat([SKIP, (40, 0, 0, 0)]), (5, 1)),
    (flat([C, U]), (5, 1)),
    (flat([U] * 33), (6, 32)),
    (flat([C] * 1025), (6, 1024)),
    (flat([U] * 3 + [SKIP] * 257), (6, 259)),
    (flat(FULL + [SKIP]), (6, 1312)),
    (flat([U, (18, 2, 0, 0)]), (7, 1)),
    (flat([U, (16, 1, 0, 0)]), (8, 1)),
    (flat([C, (19, 0, 0, 0)]), (9, 1)),
    (flat(chain(13)), (10, 12)),
    (flat([SKIP, END]), (11, 1)),
    (flat(loops(*range(9))), (11, 18)),
    (flat([MU, C, (33, 0, 0, 0)]), (12, 2)),
    (flat(loops(0, 0)), (16, 11)),
    (flat(loops(0, 1, 2, 3, 4, 5, 6, 0)), (16, 17)),
    (flat([MU, C, (38, 0, 0, 0), (38, 0, 0, 0), END, END]), (16, 3)),
    (flat([U, C, (45, 0, 0, 0)]), (17, 2)),
    (flat([U, C, SKIP, (44, 0, 0, 0)]), (17, 3)),
    (flat(CALLS + [(43, 3, 1, 0)]), (17, 22)),
    (flat([U, U, C, (33, 1, 0, 0), (43, 1, 1, 0)]), (17, 3)),
    (flat([U, U, C, (43, 1, 2, 0)]), (8, 3)),
    (flat([U, P, C, (43, 0, 2, 0)]), (9, 3)),
    # more than one check: the first that is broken
    (flat([(33, 0, 0, 0), (99, 0, 0, 0)]) + [1], (4, 0)),
    (flat([MU, C, (33, 0, 0, 0), (39, 1, 0, 0)]), (7, 3)),
    (flat([MU, C, (38, 0, 0, 0), (38, 0, 0, 0), END, END, (33, 0, 0, 0)]), (12, 6)),
    (flat(loops(0, 0) + [END]), (11, 14)),
    (flat(loops(0, 0) + [(44, 0, 0, 0)]), (16, 11)),
    (flat([U, C, (44, 0, 0, 0), (38, 0, 0, 0), (38, 0, 0, 0), END, END]), (16, 4)),
]


# Files


def packed(words):
    return struct.pack("<%dI" % len(words), *words)


def blocks(lines, at=None):
    """A program file; at has words by place, of all blocks together, that stand before the checks are worked out."""
    out = []
    for k in range(0, len(lines), 31):
        part = lines[k : k + 31]
        ws = flat(part) + [0] * (124 - 4 * len(part)) + [k // 31, len(part), len(lines)]
        for place, w in (at or {}).items():
            if place // 128 == k // 31:
                ws[place % 128] = w
        out.append(packed(ws + [sum(ws) % 2**32]))
    return b"".join(out)


def damaged(data, at):
    return data[:at] + bytes([data[at] ^ 1]) + data[at + 1 :]


FORTY = [SKIP] * 40
# Files that the reader refuses, with number and block
REFUSED_FILES = [
    (bytes(1), (1, 0)),
    (bytes(511), (1, 0)),
    (blocks(T) + bytes(1), (1, 0)),
    (bytes(22528), (1, 0)),
    (damaged(blocks(T), 0), (2, 0)),
    (damaged(blocks(FORTY), 512 + 7), (2, 1)),
    (damaged(blocks(FULL), 22015), (2, 42)),
    (bytes(512), (3, 0)),
    (blocks(FORTY, {128 + 124: 0}), (3, 1)),
    (blocks(FORTY, {128 + 125: 10}), (3, 0)),
    (blocks(FORTY, {128 + 126: 41}), (3, 1)),
    (blocks(FORTY, {128 + 36: 1}), (3, 1)),
    (blocks([SKIP] * 1313), (3, 0)),
    (damaged(blocks(FORTY, {124: 1}), 512 + 7), (2, 1)),
]


# Cases

CASES = []


def case(function, answer, size=0, fill=0, pair=(1, 3), data=b""):
    CASES.append((struct.pack("<6I", function, size, fill, *pair, len(data)) + data, answer))


def reader():
    for lines in (*PASSING.values(), FORTY, [SKIP] * 62, [SKIP] * 1302):
        for fill in 7, BIG:
            case(READER, "lines %d" % len(lines), READ_WORDS, fill, data=blocks(lines))
    # the reader takes any words, and no pair is asked for
    for lines in loops(0, 0), [U, C, (44, 0, 0, 0)], loops(0, 1, 2, 3, 4, 5, 6, 0), [(99, BIG, 0, 1)], [(40, 0, 0, 0), (1, 1, 1, 1)] * 20, [(BIG, BIG, BIG, BIG)] * 31, [SKIP] * 1312:
        case(READER, "lines %d" % len(lines), READ_WORDS, 7, (5, 5), blocks(lines))
    case(READER, "lines 16", READ_WORDS, 0, data=blocks(T))
    for data, refusal in REFUSED_FILES:
        case(READER, refused(refusal), READ_WORDS, 7, data=data)
        case(READER, refused(refusal), 5, 7, data=data)
    for size in 0, 1, 5247, 5249, 10496:
        for lines in [], T, FULL:
            case(READER, "refused 14 line 0", size, 7, data=blocks(lines))
    case(READER, "refused 14 line 0", 64, 7, data=blocks(T))  # the words of the table alone
    case(READER, "refused 14 line 0", 1312, 7, data=blocks(FULL))
    case(READER, "refused 1 line 0", 0, 7, data=bytes(22528))


def file_bytes(lines):
    return 512 * -(-len(lines) // 31)


def writer():
    for lines in (*PASSING.values(), FORTY, [SKIP] * 62):
        for fill in 7, 255:
            case(WRITER, "bytes %d" % file_bytes(lines), WRITTEN_BYTES, fill, data=packed(flat(lines)))
    for lines in chain(12), loops(*range(8)), loops(0) + loops(0)[10:], [(17, BIG, 0, 0)] * 40:
        case(WRITER, "bytes %d" % file_bytes(lines), WRITTEN_BYTES, 1, (5, 5), packed(flat(lines)))
    case(WRITER, "bytes 512", WRITTEN_BYTES, 0, data=packed(flat(T)))
    case(WRITER, "refused 5 line 6", WRITTEN_BYTES, 7, data=packed(flat(Table(T).reduced().lines)))
    for words, refusal in REFUSED:
        case(WRITER, refused(refusal), WRITTEN_BYTES, 7, data=packed(words))
        case(WRITER, refused(refusal), 5, 7, data=packed(words))
    for size in 0, 1, 22015, 22017, 44032:
        for lines in [], T, FULL:
            case(WRITER, "refused 14 line 0", size, 7, data=packed(flat(lines)))
    case(WRITER, "refused 14 line 0", 512, 7, data=packed(flat(T)))  # the bytes of the file alone
    case(WRITER, "refused 14 line 0", 5248, 7, data=packed(flat(FULL)))


REFUSED_PAIRS = (1, 1), (2, 1), (3, 3), (3, 1), (BIG, 1), (BIG, BIG), (BIG, BIG - 1), (0, 0), (1, 0)
PAIRS = (0, 2), (1, 3), (0, BIG), (BIG - 2, BIG), (4, 11), (1, 2), (0, 1), (4, 5), (BIG - 1, BIG), (2**31 - 1, 2**31)


def reduction():
    for lines in PASSING.values():
        for fill in 7, BIG:
            case(REDUCTION, "passes", 4 * len(lines), fill, data=packed(flat(lines)))
    for pair in PAIRS:
        case(REDUCTION, "passes", 4 * len(T), 7, pair, packed(flat(T)))
    for lines in [MU, U, (16, 0, 0, 0), (16, 1, 0, 0)], [MP, P, (16, 0, 0, 0), (16, 1, 0, 0)], [B, (16, 0, 0, 0)], [C, (17, 16, 0, 0)]:
        case(REDUCTION, "passes", 4 * len(lines), 7, data=packed(flat(lines)))
    for words, refusal in REFUSED:
        case(REDUCTION, refused(refusal), len(words), 7, data=packed(words))
        case(REDUCTION, refused(refusal), len(words) + 1, 7, (5, 5), packed(words))
    for pair in REFUSED_PAIRS:
        case(REDUCTION, "refused 13 line 0", 4 * len(T), 7, pair, packed(flat(T)))
    for size in 0, 63, 65, 60, 68, 128, 5248:
        case(REDUCTION, "refused 14 line 0", size, 7, data=packed(flat(T)))
        case(REDUCTION, "refused 13 line 0", size, 7, (1, 1), packed(flat(T)))
    for size in 1, 4, 5248:
        case(REDUCTION, "refused 14 line 0", size, 7)
    for size in 0, 1312, 5247, 5249, 10496:
        case(REDUCTION, "refused 14 line 0", size, 7, data=packed(flat(FULL)))


def checks():
    for lines in PASSING.values():
        case(PLAIN, "passes", data=packed(flat(lines)))
        case(REDUCED, "passes", data=packed(flat(Table(lines).reduced().lines)), pair=(5, 5))
    for words, refusal in REFUSED:
        case(PLAIN, refused(refusal), data=packed(words), pair=(5, 5))
    case(REDUCED, "refused 5 line 9", data=packed(flat(T)))
    case(PLAIN, "refused 5 line 6", data=packed(flat(Table(T).reduced().lines)))
    for lines, refusal in (
        ([P, (16, 0, 0, 0), (28, 0, 0, 0), (29, 0, 0, 0), (40, 0, 1, 0)], None),
        ([P, (16, 0, 0, 0), (26, 0, 0, 0)], (5, 2)),
        ([P, (16, 0, 0, 0), C, (34, 0, 1, 0)], (5, 3)),
        ([MU, (16, 0, 0, 0)], (12, 1)),
        ([U, (27, 0, 0, 0)], (12, 1)),
        ([MP, C, (37, 0, 0, 0)], (12, 2)),
        ([P, C, (41, 0, 0, 0)], (12, 2)),
        ([MU, C, (38, 0, 0, 0), END], (12, 2)),
        ([U, C, (42, 0, 0, 0), END], (12, 2)),
        ([MU, C, (33, 0, 0, 0)], (12, 2)),
        ([MU, C] + [(42, 0, 0, 0)] * 9 + [END] * 9, (11, 10)),
        ([MU, C] + [(42, 0, 0, 0)] * 8 + [END] * 8, (16, 3)),
        ([MU, U, C, (42, 0, 0, 0), (38, 1, 0, 0), (42, 0, 0, 0), END, END, END], (16, 5)),
        ([MU, U, C, (42, 0, 0, 0), (38, 1, 0, 0), END, END, (42, 0, 0, 0), END], None),
        ([MU, U, C, (42, 0, 0, 0), (43, 1, 1, 0), END], (17, 4)),
        ([MU, U, C, (45, 0, 0, 0), (43, 1, 1, 0)], (17, 3)),
        ([MU, U, C, (43, 1, 1, 0), (42, 0, 0, 0), (44, 0, 0, 0), END], None),
    ):
        case(REDUCED, "passes" if refusal is None else refused(refusal), data=packed(flat(lines)))
    for words in [32], [32, 0], [32, 0, 0], flat(T) + [32]:
        case(REDUCED, "refused 4 line 0", data=packed(words))
    for pair in REFUSED_PAIRS:
        case(PAIR, "refused 13 line 0", pair=pair)
    for pair in PAIRS:
        case(PAIR, "passes", pair=pair)
    case(PAIR, "passes", data=packed([1, 2, 3]))  # no table is asked for


def main():
    reader()
    writer()
    reduction()
    checks()
    lines = [line_of(given) for given, _ in CASES]
    for line, (_, answer) in zip(lines, CASES):
        assert line.split(" buffer ")[0] == answer, (line, answer)
    (HERE / "stdin").write_bytes(b"".join(struct.pack("<I", len(given)) + given for given, _ in CASES))
    (HERE / "stdout").write_text("".join(line + "\n" for line in lines))
    print(len(CASES), "cases")


if __name__ == "__main__":
    main()
