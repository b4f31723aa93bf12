#!/usr/bin/env python3
"""Writes stdin and stdout of this program: the vectors for `pairrun`, whose layout is the program's own, and what must be printed of them.

Run as: make_cases.py VECTORS, the folder of vectors, cases.bin, cases.expected and index.txt, which were handed out with the demands and the requests.
"""
import pathlib
import struct
import sys

HERE = pathlib.Path(__file__).parent
sys.path.insert(0, str(HERE.parent / "test_checked_files"))
sys.path.insert(0, str(HERE.parent / "test_run_cases"))
from make_cases import BIG, CELLS, MP, MU, P, PLAIN, REDUCED, SKIP, T, Machine, Table, U, constant, variable, write_choices  # noqa: E402
from rules import refusal_of_input, write  # noqa: E402

ROOM = 8192


# `pairrun`, by the rules of files and tables (test_checked_files/rules.py) and the interpreter of `test_run_cases`: it must print of every
# vector what the vector says, and of the cases after them what is given with them


def pairrun(data, most=None):
    """The lines that `pairrun` prints of an input. Under a most the runs take no more steps than it."""
    refusal, lines = refusal_of_input(data)
    if refusal is not None:
        return ["refused %d line %d" % refusal]
    c1, c2, limit = struct.unpack_from("<3I", data)
    return printed_runs(lines, (c1, c2), limit if most is None else min(limit, most))


def printed_runs(lines, pair, limit):
    plain = Machine(Table(lines), [0] * CELLS[PLAIN])
    end, steps, state = plain.run(plain.fresh(), limit)
    out = ["plain %s row %d steps %d" % (end, state.row, steps)]
    _, _, _, count, numbers = write_choices(lines, pair, limit, ROOM)
    reduced = Machine(Table(lines).reduced(), [0] * CELLS[REDUCED], pair, numbers[:count])
    end, steps, state = reduced.run(reduced.fresh(), limit)
    out.append("pair %s row %d steps %d choices %d" % (end, state.row, steps, reduced.used))
    return out


def full_lists():
    """Inputs whose list has 8,191 or 8,192 numbers before the last rows, and what they end with. Node k takes 2^k choices, each 0."""
    nodes = [variable(0)] + [(20, k, k, 0) for k in range(11)] + [constant(1), (21, 1, 12, 0)]
    fails = 13

    def gets(*found):
        return [(33, 1, n, 0) for n in found]

    whole, less = gets(11, 11, 11, 11), gets(11, 11, 11, *range(11))
    for limit, rows, ended in (
        (100, whole, "done row 4 steps 4 choices 8192"),
        (100, whole + [SKIP], "done row 5 steps 5 choices 8192"),
        (4, whole + [SKIP], "steps row 4 steps 4 choices 8192"),
        (4, whole + gets(0), "steps row 4 steps 4 choices 8192"),
        (100, whole + gets(0), "nochoice row 4 steps 4 choices 8192"),
        (100, less + gets(0, 0), "nochoice row 15 steps 15 choices 8192"),
        (100, less + gets(1), "nochoice row 14 steps 14 choices 8191"),
        (100, less + gets(fails), "nochoice row 14 steps 14 choices 8191"),
        (100, less[1:] + gets(fails), "fail reason 2 row 13 steps 14 choices 6145"),
    ):
        plain = "done row %d steps %d" % (len(rows), len(rows))
        if rows[-1] == (33, 1, fails, 0):
            plain = "fail reason 2 row %d steps %d" % (len(rows) - 1, len(rows))
        if limit == 4:
            plain = "steps row 4 steps 4"
        yield struct.pack("<3I", 1, 3, limit) + write([MU, U, *nodes, *rows]), ["plain " + plain, "pair " + ended]


def cells_of_each():
    """Inputs whose arrays fit into the cells of both machines, of one, of none: each machine has its own."""
    for declaration, length, plain, pair in (
        (P, 4096, "done row 2 steps 2", "done row 2 steps 2 choices 0"),
        (P, 4097, "room row 0 steps 1", "done row 2 steps 2 choices 0"),
        (P, 4128, "room row 0 steps 1", "done row 2 steps 2 choices 0"),
        (P, 4129, "room row 0 steps 1", "room row 0 steps 1 choices 0"),
        (MP, 4096, "done row 2 steps 2", "done row 2 steps 2 choices 0"),
        (MP, 4097, "room row 0 steps 1", "done row 2 steps 2 choices 0"),
    ):
        yield struct.pack("<3I", 1, 3, 9) + write([declaration, constant(length), (37, 0, 0, 0), SKIP]), ["plain " + plain, "pair " + pair]


def why_it_failed():
    """Inputs that fail, for each reason, and the reason that is printed on both lines."""
    large = [constant(2**32 - 1), constant(1)]
    for reason, lines, row, steps in (
        (1, [U, *large, (20, 0, 1, 0), (33, 0, 2, 0)], 0, 1),
        (2, [U, *large, (21, 1, 0, 0), (33, 0, 2, 0)], 0, 1),
        (3, [P, *large, variable(0), (20, 2, 1, 0), (34, 3, 1, 0)], 0, 1),
        (4, [MP, *large, variable(0), (20, 2, 1, 0), (37, 0, 1, 0), (34, 3, 1, 0)], 1, 2),
        (5, [U, large[0], (38, 0, 0, 0), (39, 0, 0, 0)], 1, 2),
    ):
        yield struct.pack("<3I", 1, 3, 9) + write(lines), both_lines("fail reason %d row %d steps %d" % (reason, row, steps))


def neighbours():
    """T with circuits next to each other, and with places that are no pair. Each of its five rounds takes four choices, and one more at a place that is not
    tracked; two are taken on entering the loop."""
    for c1, c2, tracked in (1, 2, 2), (0, 1, 2), (3, 4, 2), (4, 5, 1), (5, 6, 0), (BIG - 1, BIG, 0):
        out = ["plain done row 5 steps 17", "pair done row 5 steps 17 choices %d" % (2 + 5 * 4 + 5 - tracked)]
        yield struct.pack("<3I", c1, c2, 100) + write(T), out
    for c1, c2 in (1, 1), (2, 1), (0, 0), (BIG, BIG):
        yield struct.pack("<3I", c1, c2, 100) + write(T), ["refused 13 line 0"]


def false_alarms():
    """T with 1 and 3; then writes to each place of five, of a marked array: the last circuit's goes on, and one past the length fails, for no choice."""
    yield struct.pack("<3I", 1, 3, 100) + write(T), both_lines("done row 5 steps 17", 25)
    for place in range(7):
        lines = [MP, constant(5), constant(place), variable(0), (20, 2, 1, 0), (37, 0, 0, 0), (34, 3, 0, 0)]
        ended = "done row 2 steps 2" if place < 5 else "fail reason 4 row 1 steps 2"
        for c1, c2 in (1, 3), (0, 1), (3, 4), (5, 6):
            yield struct.pack("<3I", c1, c2, 9) + write(lines), both_lines(ended)
    # a walk that goes one circuit too far: two choices on entering and at each end of loop, two at each write for its two readings of the iterator
    lines = [MU, MP, constant(0), constant(5), variable(0), variable(1), (20, 3, 2, 0), (37, 1, 1, 0), (38, 0, 0, 1), (34, 4, 2, 0), (39, 0, 0, 0)]
    yield struct.pack("<3I", 1, 3, 99) + write(lines), both_lines("fail reason 4 row 2 steps 13", 2 + 5 * 4 + 2)
    # a write needs no room: after 8,192 numbers it is made, dropped or fails. Node 11 takes 2,048 choices; places 0, 1 and 5 of 5
    nodes = [variable(0)] + [(20, k, k, 0) for k in range(11)] + [constant(5), constant(1), variable(2), (20, 14, 13, 0), (20, 14, 12, 0)]
    for pointer, ended in (14, "done row 6 steps 6"), (15, "done row 6 steps 6"), (16, "fail reason 4 row 5 steps 6"):
        lines = [MU, U, MP, *nodes, (37, 2, 12, 0), *[(33, 1, 11, 0)] * 4, (34, pointer, 12, 0)]
        yield struct.pack("<3I", 1, 3, 99) + write(lines), both_lines(ended, 8192)


def one_loop_at_a_time():
    """An inner loop with the iterator of the loop around it is refused at its line; so is it with a pair that 13 refuses. A later loop is not."""
    inner, end = (38, 0, 0, 0), (39, 0, 0, 0)
    for declaration in U, MU:
        for c1, c2 in (1, 3), (1, 1), (3, 1):
            yield struct.pack("<3I", c1, c2, 9) + write([declaration, constant(0), inner, inner, end, end]), ["refused 16 line 3"]
        yield struct.pack("<3I", 1, 3, 9) + write([declaration, constant(0), inner, inner, end, end, end]), ["refused 11 line 6"]
    yield struct.pack("<3I", 1, 1, 9) + write([MU, constant(0), inner, inner, end, end, (33, 0, 0, 0)]), ["refused 12 line 6"]
    # loops side by side; a marked one takes a start and an end where it is entered, and both again at its 39
    for declaration, choices in (U, 0), (MU, 8):
        beside = ["plain done row 4 steps 4", "pair done row 4 steps 4 choices %d" % choices]
        yield struct.pack("<3I", 1, 3, 9) + write([declaration, constant(0), inner, end, inner, end]), beside


def both_lines(ended, choices=0):
    return ["plain " + ended, "pair %s choices %d" % (ended, choices)]


def procedures():
    """Calls and returns, with the examples of rule 8.22; too deep on both lines; a list that is full at a call; 17 at its line."""
    head = [U, U, constant(5), variable(1), (20, 1, 1, 0)]
    call, opened, again, double = (45, 0, 0, 0), (43, 1, 1, 0), (45, 0, 1, 0), (44, 2, 0, 0)
    for limit, rows, ended in (
        (9, [call, opened, double], "done row 1 steps 2"),
        (BIG, [call, opened, double], "done row 1 steps 2"),
        (1, [call, opened, double], "steps row 2 steps 1"),
        (9, [call, opened], "done row 1 steps 2"),
        (1, [call, opened], "steps row 2 steps 1"),
        (9, [call, opened, again], "deep row 2 steps 9"),
        (8, [call, opened, again], "steps row 2 steps 8"),
        (0, [opened, double], "done row 0 steps 0"),
        (9, [opened], "done row 0 steps 0"),
    ):
        yield struct.pack("<3I", 1, 3, limit) + write(head + rows), both_lines(ended)
    # node k takes 2^k choices: a call that takes some, too deep or not, and a return
    nodes = [variable(0)] + [(20, k, k, 0) for k in range(11)] + [constant(1)]
    for taken in 0, 1, 5:
        recursion = [MU, U, U, *nodes, (45, 0, taken, 1), (43, 2, 1, 0), (45, 0, taken, 1)]
        yield struct.pack("<3I", 1, 3, 99) + write(recursion), both_lines("deep row 2 steps 9", 9 * 2**taken)
        returned = [MU, U, U, *nodes, (45, 0, taken, 1), (43, 2, 1, 0), (44, taken, 0, 0)]
        yield struct.pack("<3I", 1, 3, 99) + write(returned), both_lines("done row 1 steps 2", 2 * 2**taken)
    # the first four rows take 7,168: the list is full at a call, at the ninth, at a return, or holds what they take
    fill = [(33, 1, 11, 0)] * 3 + [(33, 1, 10, 0)]
    for rows, plain, pair in (
        ([*fill, (45, 0, 10, 1), (43, 2, 1, 0), (44, 12, 0, 0)], "done row 5 steps 6", "done row 5 steps 6 choices 8192"),
        ([*fill, (45, 0, 11, 1), (43, 2, 1, 0), (44, 12, 0, 0)], "done row 5 steps 6", "nochoice row 4 steps 4 choices 7168"),
        ([*fill, (45, 0, 10, 1), (43, 2, 1, 0), (44, 0, 0, 0)], "done row 5 steps 6", "nochoice row 6 steps 5 choices 8192"),
        ([*fill, (45, 0, 10, 1), (43, 2, 1, 0)], "done row 5 steps 6", "done row 5 steps 6 choices 8192"),
        ([*fill, (45, 0, 7, 1), (43, 2, 1, 0), (45, 0, 7, 1)], "deep row 6 steps 13", "nochoice row 6 steps 12 choices 8192"),
        ([*fill, (45, 0, 12, 1), (43, 2, 1, 0), (45, 0, 7, 1)], "deep row 6 steps 13", "deep row 6 steps 13 choices 8192"),
    ):
        yield struct.pack("<3I", 1, 3, 99) + write([MU, U, U, *nodes, *rows]), ["plain " + plain, "pair " + pair]
    # 17, also with a pair that 13 refuses, after 16
    for c1, c2 in (1, 3), (1, 1):
        for rows, refused in (
            ([call], "17 line 5"),
            ([call, opened, (45, 1, 0, 0)], "17 line 7"),
            ([(44, 0, 0, 0), opened], "17 line 5"),
            ([(38, 0, 0, 0), opened, (39, 0, 0, 0)], "17 line 6"),
            ([(38, 0, 0, 0), opened, (38, 0, 0, 0), (39, 0, 0, 0), (39, 0, 0, 0)], "17 line 6"),
            ([(43, 1, 0, 0)], "17 line 5"),
            ([(43, 99, 0, 0)], "17 line 5"),
            ([(43, 0, 2, 0), (43, 1, 1, 0)], "17 line 6"),
            ([again, opened], "17 line 5"),
            ([(45, 0, 0, 1), opened], "17 line 5"),
            ([(44, 0, 0, 0), (38, 0, 0, 0), (38, 0, 0, 0), (39, 0, 0, 0), (39, 0, 0, 0)], "16 line 7"),
            ([call, (43, 1, 5, 0)], "8 line 6"),
            ([call, (43, 0, BIG, 0)], "8 line 6"),
            ([call, (43, 1, 1, 1)], "7 line 6"),
        ):
            yield struct.pack("<3I", c1, c2, 9) + write(head + rows), ["refused " + refused]
    yield struct.pack("<3I", 1, 1, 9) + write([MU, U, constant(5), (45, 0, 0, 0), (43, 1, 1, 0)]), ["refused 17 line 3"]
    yield struct.pack("<3I", 1, 1, 9) + write([U, MU, constant(5), (45, 0, 0, 0), (43, 1, 1, 0)]), ["refused 17 line 4"]
    yield struct.pack("<3I", 1, 1, 9) + write([P, U, constant(5), (45, 0, 0, 1), (43, 0, 1, 0)]), ["refused 9 line 4"]
    seventeen = [U] * 18 + [constant(5), (45, 16, 0, 17), *((43, v, 1, 0) for v in range(17))]
    yield struct.pack("<3I", 1, 3, 9) + write(seventeen), ["refused 17 line 36"]
    yield struct.pack("<3I", 1, 3, 9) + write(seventeen[:-1]), ["refused 17 line 19"]


def main():
    vectors = pathlib.Path(sys.argv[1])
    data = (vectors / "cases.bin").read_bytes()
    expected = (vectors / "cases.expected").read_text()
    lines = (vectors / "index.txt").read_text().splitlines()

    # the three files tell of the same cases, and the rules print the same
    at = 0
    for line in lines:
        _, length, output = line.split(" ", 2)
        (n,) = struct.unpack_from("<I", data, at)
        assert n == int(length)
        assert " | ".join(pairrun(data[at + 4 : at + 4 + n])) == output, line
        at += 4 + n
    assert at == len(data)
    assert expected == "".join(line.split(" ", 2)[2].replace(" | ", "\n") + "\n" for line in lines)

    more = 0
    for given, ended in [*full_lists(), *cells_of_each(), *why_it_failed(), *neighbours(), *false_alarms(), *one_loop_at_a_time(), *procedures()]:
        out = pairrun(given)
        assert out == ended, (out, ended)
        data += struct.pack("<I", len(given)) + given
        expected += "".join(line + "\n" for line in out)
        more += 1
    (HERE / "stdin").write_bytes(data)
    (HERE / "stdout").write_text(expected)
    print(len(lines) + more, "cases")


if __name__ == "__main__":
    main()
