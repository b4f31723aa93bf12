#!/usr/bin/env python3
"""Writes stdout of this program, from the interpreter of `test_run_cases`, which is written from docs/RULES.md."""
import pathlib
import sys

HERE = pathlib.Path(__file__).parent
sys.path.insert(0, str(HERE.parent / "test_run_cases"))
from make_cases import CELLS, CLOSE, MU, PLAIN, T, Machine, Table, U, check_number, constant, variable, write_choices  # noqa: E402

PAIR, LIMIT, MOST, LENT = (1, 3), 100, 31, 7
# A marked loop in main calls procedure 0, which returns in a loop of the same iterator; then main calls procedure 2, which has no rows, and
# procedure 1, which calls itself until that is too deep
CALLS = [MU, U, U, U, U, constant(0), constant(1), variable(0), variable(2), (20, 3, 2, 0)]
CALLS += [(38, 0, 0, 1), (45, 0, 2, 1), CLOSE, (45, 2, 0, 1), (45, 1, 2, 1)]
CALLS += [(43, 2, 1, 0), (38, 0, 0, 0), (44, 4, 0, 0), CLOSE]
CALLS += [(43, 3, 1, 0), (45, 1, 2, 3), (43, 4, 1, 0)]
# T with a walk that goes one circuit too far, where its write fails
FAR = [constant(5) if line == constant(4) else line for line in T]
TABLES = T, CALLS, FAR


def plain_run(table, limit):
    """End, steps, last state and cells of the plain run of a table."""
    machine = Machine(Table(table), [0] * CELLS[PLAIN])
    return *machine.run(machine.fresh(), limit), machine.cells


def line_of(k):
    """The line of a list, each table's in turn with 0 to MOST words: the end, the record and the cells, which are those of a plain run of so many
    steps (rule 4.11), the numbers of whole steps, and after them what was lent."""
    table, n = TABLES[k // (MOST + 1)], k % (MOST + 1)
    end, steps, state, count, numbers = write_choices(table, PAIR, LIMIT, n)
    _, _, last, cells = plain_run(table, steps)
    words = numbers + [LENT] * (n - len(numbers))
    run = "%s row %d steps %d count %d" % (end, state.row, steps, count)
    record = "open %d arrays %d callers %d" % (len(last.loops), len(last.arrays), len(last.callers))
    held = "iterator %d cells %d" % (last.variables[0], check_number(cells))
    return "room %d %s %s %s:%s" % (n, run, record, held, "".join(" %d" % w for w in words))


def lines():
    return [line_of(k) for k in range(len(TABLES) * (MOST + 1))]


def short_of_steps(table, n):
    """The most steps whose numbers fit into n words, and whether all that the limit allows do."""
    steps = max(k for k in range(LIMIT + 1) if write_choices(table, PAIR, k)[3] <= n)
    return steps, steps == LIMIT


def main():
    # the list is full where the numbers of the next step do not fit, and the run before it is the plain one
    for table in TABLES:
        for n in range(MOST + 1):
            steps, whole = short_of_steps(table, n)
            plain_end, taken, _, _ = plain_run(table, steps)
            assert write_choices(table, PAIR, LIMIT, n)[:2] == (plain_end if whole else "full", taken)
    # two choices to enter the loop of main; six in each of its two rounds, of which the call and the return have one each; one at each of nine calls
    assert lines()[2 * MOST + 1].startswith("room 31 deep row 10 steps 20 count 23 open 0 arrays 0 callers 8 ")
    # the 25 numbers of T, the last two for a round more, and the iterator's at the write that fails: with room for these 26 it fails, and is not full
    assert lines()[-6].startswith("room 26 fail reason 4 row 2 steps 18 count 26 ") and lines()[-7].startswith("room 25 full row 2 steps 17 count 25 ")
    (HERE / "stdout").write_text("".join(line + "\n" for line in lines()))


if __name__ == "__main__":
    main()
