#!/usr/bin/env python3
"""Writes stdin and stdout of this program: cases of files, each after its length, and what must be printed of each.

Run as: make_cases.py FIRST LAST, two folders of vectors for `pairrun`, cases.bin and index.txt: those handed out with the demands, and those of the
last request. The first cases are worked out here, by hand, from docs/RULES.md; the others are the vectors that are refused, with their output, and
the shorter ones that are not, which pass. Of the first vectors one is left out, which refuses neighbours, a pair now; and those with a loop in a loop
of the same iterator, which passed then or were refused with 13, are refused with 16.
"""
import pathlib
import struct
import sys

import rules

HERE = pathlib.Path(__file__).parent


def words(*ws):
    return struct.pack("<%dI" % len(ws), *ws)


def blocks(lines, numbers=None, counts=None, totals=None, fill=None):
    """A program file; numbers, counts and totals by block, and words of the unused lines, where they are to be wrong."""
    out = []
    parts = [lines[i : i + 31] for i in range(0, len(lines), 31)]
    for k, part in enumerate(parts):
        ws = [w for line in part for w in line] + [0] * (124 - 4 * len(part))
        for n, w in (fill or {}).items():
            ws[n] = w
        ws.append((numbers or {}).get(k, k))
        ws.append((counts or {}).get(k, len(part)))
        ws.append((totals or {}).get(k, len(lines)))
        ws.append(sum(ws) % 2**32)
        out.append(words(*ws))
    return b"".join(out)


def damaged(data, at):
    return data[:at] + bytes([data[at] ^ 1]) + data[at + 1 :]


SKIP, END = (32, 0, 0, 0), (39, 0, 0, 0)
BIG = 4294967295
T = [(2, 1, 0, 0), (3, 1, 0, 0), (17, 5, 0, 0), (17, 0, 0, 0), (17, 4, 0, 0), (16, 1, 0, 0), (16, 0, 0, 0), (20, 3, 4, 0), (17, 7, 0, 0)]
T += [(19, 5, 0, 0), (24, 7, 6, 0), (37, 1, 0, 0), (38, 0, 1, 2), (34, 5, 6, 0), (35, 8, 0, 0), END]


def chain(depth):
    return [(17, 0, 0, 0)] + [(20, i, i, 0) for i in range(depth - 1)]


def loops(n):
    """Loops one inside another, each with its own iterator."""
    return [(2, 0, 0, 0)] * n + [(17, 1, 0, 0)] + [(38, v, 0, 0) for v in range(n)] + [END] * n


def worst():
    """1,024 nodes, all but the first eleven of depth 12, each with three operands."""
    return [(18, 1, 0, 0)] + [(25, i, i, i) for i in range(10)] + [(25, 10, 10, 10)] * 1013


CASES = []


def case(data, expected, c1=1, c2=3, limit=100):
    CASES.append((words(c1, c2, limit) + data, expected))


def passes(lines, **pair):
    case(blocks(lines), "passes %d" % len(lines), **pair)


def refused(lines, number, place, **pair):
    case(blocks(lines), "refused %d line %d" % (number, place), **pair)


def reduced(lines, expected):
    """A reduced table, which the program knows by the limit."""
    case(blocks(lines), expected, limit=BIG)


# the file
CASES.append((b"", "refused 1 line 0"))
CASES.append((words(1, 3), "refused 1 line 0"))
CASES.append((words(1, 3, 100)[:11], "refused 1 line 0"))
case(b"", "passes 0")
case(bytes(511), "refused 1 line 0")
case(bytes(513), "refused 1 line 0")
case(bytes(22528), "refused 1 line 0")
case(bytes(512), "refused 3 line 0")
case(damaged(blocks([SKIP] * 40), 512 + 7), "refused 2 line 1")
case(damaged(blocks([SKIP] * 40), 511), "refused 2 line 0")
case(blocks([SKIP] * 40, numbers={1: 0}), "refused 3 line 1")
case(blocks([SKIP] * 40, numbers={1: 1 + 2**31}), "refused 3 line 1")
case(blocks([SKIP] * 40, counts={1: 10}), "refused 3 line 0")
case(blocks([SKIP] * 40, counts={1: 10}, totals={0: 41, 1: 41}), "passes 41 differs")
case(blocks([SKIP] * 40, totals={1: 41}), "refused 3 line 1")
case(blocks([SKIP] * 40, totals={0: 40 + 2**31}), "refused 3 line 0")
case(blocks([SKIP] * 40, counts={0: BIG, 1: 10}, totals={0: 9, 1: 9}), "refused 3 line 0")
case(blocks([SKIP] * 40, counts={1: 8}, totals={0: 39, 1: 39}), "refused 3 line 1")
case(blocks([SKIP] * 1313), "refused 3 line 0")
case(blocks([SKIP] * 1333), "refused 3 line 0")
case(blocks([SKIP] * 31, counts={0: 32}, totals={0: 32}), "refused 3 line 0")
for n in 4, 7, 120, 123:
    case(blocks([SKIP], fill={n: 1}), "refused 3 line 0")
# limits
passes([(2, 0, 0, 0)] * 32 + [(17, 0, 0, 0)] * 1024 + [SKIP] * 256)
passes([(17, 0, 0, 0)] * 1024)
refused([(17, 0, 0, 0)] * 1025, 6, 1024)
refused([(2, 0, 0, 0)] * 33, 6, 32)
refused([(2, 0, 0, 0)] * 3 + [SKIP] * 257, 6, 259)
passes(chain(12))
refused(chain(13), 10, 12)
refused(chain(200), 10, 12)
passes(worst())
passes(loops(8))
refused(loops(9), 11, 18)
passes(T)
# each check
refused([SKIP, (31, 0, 0, 0)], 5, 1)
refused([(0, 0, 0, 0)], 5, 0)
refused([(27, 0, 0, 0)], 5, 0)
refused([SKIP, (40, 0, 0, 0)], 5, 1)
refused([(2, 0, 0, 0), SKIP, (17, 0, 0, 0)], 5, 2)
refused([(17, 0, 0, 0), (2, 0, 0, 0)], 5, 1)
refused([(BIG, 0, 0, 0)], 5, 0)
refused([(2, 2, 0, 0)], 7, 0)
refused([(1, 1, 0, 0)], 7, 0)
refused([(2, 1, 0, 0), (3, 1, 0, BIG)], 7, 1)
refused([(18, 2, 0, 0)], 7, 0)
refused([(17, BIG, 0, 0), (17, 0, 1, 0)], 7, 1)
refused([SKIP, (39, 0, 0, 1)], 7, 1)
refused([(2, 0, 0, 0), (16, 1, 0, 0)], 8, 1)
refused([(2, 0, 0, 0), (16, BIG, 0, 0)], 8, 1)
refused([(17, 0, 0, 0), (20, 0, 1, 0)], 8, 1)
refused([(17, 0, 0, 0), (20, BIG, 0, 0)], 8, 1)
refused([(18, 1, 0, 0), (35, 1, 0, 0)], 8, 1)
refused([(18, 1, 0, 0), (35, BIG, 0, 0)], 8, 1)
refused([(17, 0, 0, 0), (19, 0, 0, 0)], 9, 1)
refused([(1, 0, 0, 0), (17, 0, 0, 0), (33, 0, 0, 0)], 9, 2)
refused([(3, 0, 0, 0), (16, 0, 0, 0), (24, 0, 0, 0)], 9, 2)
refused([(3, 0, 0, 0), (17, 3, 0, 0), (38, 0, 0, 0), END], 9, 2)
refused([SKIP, END], 11, 1)
refused([(2, 0, 0, 0), (17, 0, 0, 0), (38, 0, 0, 0), (38, 0, 0, 0), END], 11, 2)
refused([(2, 1, 0, 0), (17, 0, 0, 0), (33, 0, 0, 0)], 12, 2)
# an iterator of two open loops, at the line of the inner one
U, MU, P, MP, C = (2, 0, 0, 0), (2, 1, 0, 0), (3, 0, 0, 0), (3, 1, 0, 0), (17, 1, 0, 0)
NEXT, OTHER = (38, 0, 0, 0), (38, 1, 0, 0)
for iterator in U, MU:
    refused([iterator, C, NEXT, NEXT, END, END], 16, 3)
    refused([iterator, U, C, NEXT, OTHER, NEXT, END, END, END], 16, 5)
    refused([iterator, U, C, NEXT, OTHER, END, NEXT, END, END], 16, 6)
    refused([iterator, U, C, NEXT, OTHER, OTHER, END, END, NEXT, END, END], 16, 5)
    passes([iterator, C, NEXT, END, NEXT, END])
    passes([iterator, U, C, NEXT, OTHER, END, OTHER, END, END, OTHER, NEXT, END, END])
passes([U, C, NEXT, (33, 0, 0, 0), END])
refused(loops(7)[:-7] + [NEXT] + [END] * 8, 16, 15)
refused([(2, 0, 0, 0)] * 32 + [C, (38, 31, 0, 0), (38, 31, 0, 0), END, END], 16, 34)
# procedures: 17 at the row that breaks one of its parts; 7, 8 and 9 of their rows; 16 within one, 11 over all
CALL, OPENS, RETURNS = (45, 0, 0, 0), (43, 1, 1, 0), (44, 0, 0, 0)
HEAD = [U, U, C, (16, 1, 0, 0)]
passes(HEAD + [CALL, OPENS, RETURNS])
passes(HEAD + [OPENS])
passes(HEAD + [CALL, OPENS, (45, 0, 1, 1), (44, 1, 0, 0)])
passes(HEAD + [NEXT, CALL, END, OPENS, NEXT, (38, 1, 0, 0), RETURNS, END, END])
passes([U] * 32 + [C, (45, 15, 0, 0)] + [(43, 16 + p, 1, 0) for p in range(16)])
passes([U] * 32 + [C, (45, 7, 0, 0)] + [(43, 4 * p, 4, 0) for p in range(1, 8)] + [(43, 1, 3, 0)])
passes([MU, U, U, C, (16, 0, 0, 0), (16, 1, 0, 0), (45, 0, 1, 2), (43, 1, 1, 0), NEXT, (33, 1, 1, 0), END])
refused(HEAD + [CALL], 17, 4)
refused(HEAD + [(45, 1, 0, 0), OPENS], 17, 4)
refused(HEAD + [OPENS, (45, BIG, 0, 0)], 17, 5)
refused([MU, U, C, CALL, OPENS], 17, 3)
refused(HEAD + [RETURNS, OPENS], 17, 4)
refused(HEAD + [NEXT, OPENS, END], 17, 5)
refused(HEAD + [NEXT, OPENS, NEXT, END, END], 17, 5)
for count in 0, 5:
    refused([U] * 6 + [C, SKIP, (43, 1, count, 0)], 17, 8)
refused(HEAD + [(43, 99, 0, 0)], 17, 4)
refused([U, MU, C, OPENS], 17, 3)
refused(HEAD + [OPENS, (43, 0, 2, 0)], 17, 5)
refused(HEAD + [(33, 1, 0, 0), OPENS], 17, 4)
refused(HEAD + [(33, 0, 1, 0), OPENS], 17, 4)
refused(HEAD + [(43, 0, 1, 0), (33, 0, 1, 0), OPENS], 17, 5)
refused([U] * 18 + [C, (45, 16, 0, 17)] + [(43, p, 1, 0) for p in range(17)], 17, 36)
refused([U] * 6 + [C, SKIP, (33, 5, 0, 0), (43, 1, 5, 0)], 17, 8)
refused(HEAD + [(43, 1, 1, 1)], 7, 4)
refused(HEAD + [OPENS, (44, 0, 1, 0)], 7, 5)
refused(HEAD + [OPENS, (44, 0, 0, 1)], 7, 5)
refused(HEAD + [(43, 1, 2, 0)], 8, 4)
refused(HEAD + [(43, BIG, 2, 0)], 8, 4)
refused(HEAD + [OPENS, (44, 2, 0, 0)], 8, 5)
refused(HEAD + [(45, 0, 2, 0), OPENS], 8, 4)
refused(HEAD + [(45, 0, 0, 2), OPENS], 8, 4)
refused([U, P, C, (16, 1, 0, 0), OPENS], 9, 4)
refused([U, P, U, C, (16, 1, 0, 0), (43, 0, 2, 0)], 9, 5)
refused([U, U, P, C, (16, 2, 0, 0), OPENS, (44, 1, 0, 0)], 9, 6)
refused([U, U, P, C, (16, 2, 0, 0), (45, 0, 1, 0), OPENS], 9, 5)
refused([U, U, P, C, (45, 0, 0, 2), OPENS], 9, 4)
refused(HEAD + [OPENS, NEXT, NEXT, END, END], 16, 6)
refused([U] * 10 + [C] + [(38, v, 0, 0) for v in range(5)] + [(43, 9, 1, 0)] + [(38, v, 0, 0) for v in range(5, 9)] + [END] * 9, 11, 20)
refused(HEAD + [SKIP] * 256 + [OPENS], 6, 260)
refused(HEAD + [(46, 0, 0, 0)], 5, 4)
# the order decides
refused(HEAD + [RETURNS, NEXT, NEXT, END, END], 16, 6)
refused(HEAD + [RETURNS], 17, 4, c1=5, c2=5)
refused([MU, C, NEXT, NEXT, END, END, (33, 0, 0, 0)], 12, 6)
refused([U, C, NEXT, NEXT, END, END, END], 11, 6)
refused([U, C, NEXT, NEXT, END, END], 16, 3, c1=5, c2=5)
refused([U, C] + [NEXT] * 9 + [END] * 9, 11, 10)
refused([(2, 1, 0, 0), (17, 0, 0, 0), (33, 0, 0, 0), (39, 1, 0, 0)], 7, 3)
refused([(17, 0, 1, 0), (99, 0, 0, 0)], 5, 1)
refused([SKIP, END], 11, 1, c1=5, c2=5)
# reduced tables: kinds, marks that the reduction would not give, iterators of two open loops
reduced([P, (16, 0, 0, 0), (28, 0, 0, 0), (29, 0, 0, 0), (40, 0, 1, 0)], "passes reduced")
reduced([P, (16, 0, 0, 0), (19, 0, 0, 0)], "refused 5 line 2")
reduced([P, (16, 0, 0, 0), (26, 0, 0, 0)], "refused 5 line 2")
reduced([P, (16, 0, 0, 0), C, (34, 0, 1, 0)], "refused 5 line 3")
reduced([(28, 0, 0, 0)], "refused 8 line 0")
reduced([MU, (27, 0, 0, 0)], "passes reduced")
reduced([MU, (16, 0, 0, 0)], "refused 12 line 1")
reduced([U, (27, 0, 0, 0)], "refused 12 line 1")
reduced([MP, (27, 0, 0, 0)], "refused 12 line 1")
reduced([MP, C, (41, 0, 0, 0)], "passes reduced")
reduced([MP, C, (37, 0, 0, 0)], "refused 12 line 2")
reduced([P, C, (41, 0, 0, 0)], "refused 12 line 2")
reduced([MU, C, (42, 0, 0, 0), END], "passes reduced")
reduced([MU, C, (38, 0, 0, 0), END], "refused 12 line 2")
reduced([U, C, (42, 0, 0, 0), END], "refused 12 line 2")
reduced([MU, C, (33, 0, 0, 0)], "refused 12 line 2")
reduced([P, C, (42, 0, 0, 0), END], "refused 9 line 2")
MARKED = (42, 0, 0, 0)
reduced([MU, U, C, MARKED, OTHER, END, END, MARKED, END], "passes reduced")
reduced([MU, C, MARKED, MARKED, END, END], "refused 16 line 3")
reduced([MU, U, C, MARKED, OTHER, MARKED, END, END, END], "refused 16 line 5")
reduced([MU, U, C, MARKED, OTHER, OTHER, END, END, END], "refused 16 line 5")
reduced([U, C, NEXT, NEXT, END, END], "refused 16 line 3")
reduced([MU, C, MARKED, NEXT, END, END], "refused 12 line 3")
reduced([MU, U, C, (27, 0, 0, 0), (45, 0, 1, 1), (43, 1, 1, 0)], "refused 17 line 4")
reduced([MU, U, U, C, (27, 0, 0, 0), (45, 0, 1, 1), (43, 2, 1, 0), MARKED, (44, 1, 0, 0), END], "passes reduced")
reduced([MU, U, U, C, MARKED, (43, 2, 1, 0), END], "refused 17 line 5")
reduced([MU, U, C, (45, 0, 0, 0), (43, 1, 1, 0)], "refused 17 line 3")
reduced([MU, U, C, (27, 0, 0, 0), (33, 1, 1, 0), (43, 0, 1, 0)], "refused 17 line 4")
reduced([U, U, C, (44, 0, 0, 0)], "refused 17 line 3")
# the pair
refused(T, 13, 0, c1=1, c2=1)
refused(T, 13, 0, c1=2, c2=1)
refused(T, 13, 0, c1=3, c2=1)
refused(T, 13, 0, c1=0, c2=0)
refused(T, 13, 0, c1=BIG, c2=1)
refused(T, 13, 0, c1=BIG, c2=BIG)
refused(T, 13, 0, c1=BIG, c2=BIG - 1)
passes(T, c1=1, c2=2)
passes(T, c1=0, c2=1)
passes(T, c1=BIG - 1, c2=BIG)
passes(T, c1=0, c2=2)
passes(T, c1=0, c2=BIG)

# the case with nine skips and a tenth line of zeros: a table of another kind of line
CASES = [(d, "refused 5 line 40" if e == "passes 41 differs" else e) for d, e in CASES]


def shared(lines):
    """The first line of a loop whose iterator is that of a loop around it, each loop from its line to its end."""
    ends, opened = {}, []
    for i, (kind, _, _, _) in enumerate(lines):
        if kind == 38:
            opened.append(i)
        if kind == 39:
            ends[opened.pop()] = i
    inner = [r for o in ends for r in ends if o < r < ends[o] and lines[o][1] == lines[r][1]]
    return min(inner, default=None)


def add_vectors(vectors, void, before_16=False):
    """Adds the vectors of a folder, but for those that are void: a test of output, c1 and c2. They may be from before 16 was refused."""
    data = (vectors / "cases.bin").read_bytes()
    at = 0
    for line in (vectors / "index.txt").read_text().splitlines():
        _, length, output = line.split(" ", 2)
        (n,) = struct.unpack_from("<I", data, at)
        assert n == int(length)
        bytes_ = data[at + 4 : at + 4 + n]
        at += 4 + n
        c1, c2, limit = struct.unpack_from("<3I", bytes_) if n >= 12 else (0, 0, 0)
        if limit == BIG or void(output, c1, c2):
            continue
        passed = not output.startswith("refused")
        if passed:
            if n > 2000:
                continue
            output = "passes %d" % (struct.unpack_from("<I", bytes_, 12 + 4 * 126)[0] if n > 12 else 0)
        if before_16 and (passed or output == "refused 13 line 0"):
            line = shared(rules.read(bytes_[12:])[1])
            output = output if line is None else "refused 16 line %d" % line
        CASES.append((bytes_, output))


def main():
    first, last = map(pathlib.Path, sys.argv[1:])
    add_vectors(first, lambda output, c1, c2: output == "refused 13 line 0" and c1 + 1 == c2, before_16=True)
    add_vectors(last, lambda output, c1, c2: False)

    # the rules of rules.py say the same of every case
    for given, expected in CASES:
        assert rules.line_of(given) == expected, expected
    (HERE / "stdin").write_bytes(b"".join(words(len(d)) + d for d, _ in CASES))
    (HERE / "stdout").write_text("".join(e + "\n" for _, e in CASES))
    print(len(CASES), "cases")


if __name__ == "__main__":
    main()
