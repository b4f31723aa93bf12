#!/usr/bin/env python3
"""Breaks the rules of docs/RULES.md one by one in the interpreters that the stored cases come from, and counts the cases that notice.

The interpreters are those of test_run_cases (both machines, the choice writer, check 15), test_checked_files/rules.py (files, tables,
pairs), test_pair_cases (`pairrun`), test_write_rooms and test_buffers (lent buffers); the cases are the stored stdin and stdout of these
five programs; breakages.py has the breakages. A case notices one if the broken interpreter prints something else of it than the stored
lines. Printed is a table: the rule, what is broken, how many cases of which program notice.

Run as: break_rules.py [--all] [WORDS], about four minutes; WORDS leaves only the breakages whose line has them. Once ENOUGH cases notice a
breakage no more are tried, but with --all. The exit status is 1 if no case notices some breakage, and 2 if a patch no longer fits or an
interpreter that is not broken does not print the stored lines.

Of the cases of test_pair_cases a broken machine runs those that take at most MOST_STEPS steps and those whose list is full.
"""
import pathlib
import struct
import sys
import types

sys.dont_write_bytecode = True
from breakages import BREAKAGES, BUFFERS, PAIRS, ROOMS, RULES, RUNS  # noqa: E402

CRATES = pathlib.Path(__file__).resolve().parent.parent
NAMES = {RUNS: "make_cases", RULES: "rules", PAIRS: "test_pair_cases", ROOMS: "test_write_rooms", BUFFERS: "test_buffers"}
SOURCES = {file: (CRATES / file).read_text() for file in NAMES}
# the rest of these makes the cases
SOURCES[RUNS] = SOURCES[RUNS].split("\n\ndef document():")[0]
SOURCES[BUFFERS] = SOURCES[BUFFERS].split("\n\n# Tables\n")[0]
CODE = {file: compile(text, file, "exec") for file, text in SOURCES.items()}
ENOUGH = 5
MOST_STEPS = 120
STOPS = (IndexError, KeyError, TypeError, ValueError, RecursionError, struct.error)


# Interpreters


def patched(breakage):
    text = SOURCES[breakage.file]
    for old, new in breakage.patches:
        if text.count(old) != 1:
            print("%s: the text is there %d times, not once:\n%s" % (breakage.what, text.count(old), old), file=sys.stderr)
            sys.exit(2)
        text = text.replace(old, new)
    return compile(text, "broken " + breakage.file, "exec")


def loaded(breakage=None):
    """The interpreters as modules by file, one of them broken."""
    modules, path = {}, list(sys.path)
    for file, name in NAMES.items():
        module = types.ModuleType(name)
        module.__file__ = str(CRATES / file)
        sys.modules[name] = modules[file] = module
        exec(patched(breakage) if breakage and breakage.file == file else CODE[file], module.__dict__)
    sys.path[:] = path
    return modules


# Cases


def stored(program):
    """The stored cases of a program, and the lines of its stored output."""
    folder = CRATES / program
    data, at, cases = (folder / "stdin").read_bytes(), 0, []
    while at < len(data):
        (n,) = struct.unpack_from("<I", data, at)
        cases.append(data[at + 4 : at + 4 + n])
        at += 4 + n
    return cases, (folder / "stdout").read_text().splitlines()


def lines_in(words):
    return [tuple(words[i : i + 4]) for i in range(0, len(words) // 4 * 4, 4)]


class RunCase:
    """A case of test_run_cases."""

    def __init__(self, data):
        words = struct.unpack("<%dI" % (len(data) // 4), data)
        self.machine, c1, c2, self.lent, table, choices, _ = words[:7]
        self.pair = (c1, c2)
        self.words, words = words[7 : 7 + table], words[7 + table :]
        self.choices, words = list(words[:choices]), words[choices:]
        self.lines = lines_in(self.words)
        self.kinds = {line[0] for line in self.lines}
        self.runs = []
        while words:
            n = 2 + 3 * words[1]
            self.runs.append((words[0], [tuple(words[i : i + 3]) for i in range(2, n, 3)]))
            words = words[n:]

    def printed(self, runs):
        return runs.lines_of(self.machine, runs.Table(self.lines), self.pair, self.lent, list(self.choices), self.runs, self.refusal)


class PairCase:
    """A case of test_pair_cases: an input of `pairrun`."""

    def __init__(self, data, modules):
        self.data = data
        self.refusal, lines = modules[RULES].refusal_of_input(data)
        self.kinds, self.most = set(), None
        if self.refusal is None:
            self.kinds = {line[0] for line in lines + modules[RUNS].Table(lines).reduced().lines}

    def printed(self, pairs):
        return pairs.pairrun(self.data, self.most)


def steps_of(line):
    parts = line.split()
    return int(parts[parts.index("steps", 2) + 1])


def quick(words):
    """In place of the check number, which takes longer."""
    return hash(tuple(words))


class Stored:
    """The cases of all five programs, which the interpreters that are not broken must agree with."""

    def __init__(self, modules):
        runs, rules = modules[RUNS], modules[RULES]
        self.rules, self.checked = rules, {}
        cases, lines = stored("test_run_cases")
        self.runs = [RunCase(data) for data in cases]
        self.tables = {}
        for case in self.runs:
            self.tables.setdefault((case.machine, case.words), []).append(case)
        for (machine, words), found in self.tables.items():
            refusal = rules.check_table(words, machine == runs.REDUCED)
            for case in found:
                case.refusal = refusal
        at = 0
        for case in self.runs:
            out = case.printed(runs)
            self.agrees("test_run_cases", out, lines[at : at + len(out)])
            at += len(out)
            # a run that takes more steps than this one is another
            limits = [limit if line.startswith("refused") else min(limit, steps_of(line) + 1) for (limit, _), line in zip(case.runs, out)]
            case.runs = [(limit, edits) for limit, (_, edits) in zip(limits, case.runs)]
        self.agrees("test_run_cases", at, len(lines))
        runs.check_number = quick
        for case in self.runs:
            case.expected = case.printed(runs)

        cases, lines = stored("test_pair_cases")
        self.pairs, at = [], 0
        for data in cases:
            case = PairCase(data, modules)
            case.expected = case.printed(modules[PAIRS])
            self.agrees("test_pair_cases", case.expected, lines[at : at + len(case.expected)])
            at += len(case.expected)
            self.pairs.append(case)
            if case.refusal is None:
                case.most = max(map(steps_of, case.expected)) + 1
        self.agrees("test_pair_cases", at, len(lines))

        cases, lines = stored("test_checked_files")
        self.files = list(zip(cases, lines))
        for data, line in self.files:
            self.agrees("test_checked_files", rules.line_of(data), line)
        self.agrees("test_checked_files", len(cases), len(lines))

        buffers = modules[BUFFERS]
        cases, lines = stored("test_buffers")
        for data, line in zip(cases, lines):
            self.agrees("test_buffers", buffers.line_of(data), line)
        self.agrees("test_buffers", len(cases), len(lines))
        buffers.check_number = quick
        self.buffers = [(data, buffers.line_of(data)) for data in cases]

        self.rooms = (CRATES / "test_write_rooms" / "stdout").read_text().splitlines()
        self.agrees("test_write_rooms", modules[ROOMS].lines(), self.rooms)

    def check_table(self, words, reduced):
        """The refusal of a table by the rules that are not broken."""
        key = (tuple(words), reduced)
        if key not in self.checked:
            self.checked[key] = self.rules.check_table(words, reduced)
        return self.checked[key]

    def agrees(self, program, found, line):
        if found != line:
            print("%s: not as stored: %s, %s" % (program, found, line), file=sys.stderr)
            sys.exit(2)


# What notices


def differs(breakage, expected, printed, *given, stops=False):
    """Whether a broken interpreter prints something else; a breakage may say that it can stop short."""
    try:
        return printed(*given) != expected
    except STOPS:
        if breakage.stops or stops:
            return True
        raise


def number_of(line):
    return int(line.split()[1]) if line.startswith("refused") else None


def tried_on_runs(b, modules, cases):
    """Breakages of a machine, the writer, `pairrun` or check 15: for each case its program, and whether it notices."""
    modules[RUNS].check_number = quick
    if b.file == RUNS and b.machines:
        for case in cases.runs:
            if (not b.kinds or b.kinds & case.kinds) and (not b.continued or len(case.runs) > 1):
                yield "test_run_cases", differs(b, case.expected, case.printed, modules[RUNS])
    if b.continued:
        return
    for n, line in enumerate(cases.rooms):
        yield "test_write_rooms", differs(b, line, modules[ROOMS].line_of, n)
    if b.reduces:
        for data, line in cases.files:
            yield "test_checked_files", differs(b, line, modules[RULES].line_of, data)
    for case in cases.pairs:
        short = case.most and (case.most <= MOST_STEPS or "nochoice" in case.expected[1])
        if short and (not b.kinds or b.kinds & case.kinds) and b.file != ROOMS:
            yield "test_pair_cases", differs(b, case.expected, case.printed, modules[PAIRS])


def tried_on_buffers(b, modules, cases):
    """Breakages of what is done with lent buffers, or of the rules beneath; a function that is handed what it cannot take may stop."""

    def tried(number):
        return not b.refused or number in b.refused

    modules[BUFFERS].check_number = quick
    for data, line in cases.buffers:
        if tried(number_of(line)):
            yield "test_buffers", differs(b, line, modules[BUFFERS].line_of, data, stops=True)


def tried_on_rules(b, rules, cases):
    """Breakages of the file, of the table's checks and of 13; what comes after a refusal that changes is not run."""

    def refusal_of(data):
        return rules.refusal_of_input(data)[0]

    def tried(number):
        return not b.refused or number in b.refused

    if not b.tables:
        rules.check_table = cases.check_table
    for data, line in cases.files:
        if tried(number_of(line)):
            yield "test_checked_files", differs(b, line, rules.line_of, data)
    for (machine, words), of in cases.tables.items() if b.tables else ():
        refusal = of[0].refusal
        if tried(refusal and refusal[0]):
            changed = differs(b, refusal, rules.check_table, words, machine == 1)
            yield from (("test_run_cases", changed) for _ in of)
    for case in cases.pairs:
        if tried(case.refusal and case.refusal[0]):
            yield "test_pair_cases", differs(b, case.refusal, refusal_of, case.data)


def tried(b, modules, cases):
    """For each case that a breakage may change its program, and whether it notices."""
    if b.file == RULES:
        yield from tried_on_rules(b, modules[RULES], cases)
    elif b.file != BUFFERS:
        yield from tried_on_runs(b, modules, cases)
    if b.file in (RULES, BUFFERS) or b.reduces:
        yield from tried_on_buffers(b, modules, cases)


def noticed(b, cases, enough):
    """How many cases of which program notice a breakage; no more are tried once there are enough."""
    modules, found = loaded(b), {}
    for program, notices in tried(b, modules, cases):
        if notices:
            found[program] = found.get(program, 0) + 1
        if sum(found.values()) == enough:
            break
    return found


def main():
    words = [w for w in sys.argv[1:] if w != "--all"]
    enough = None if "--all" in sys.argv else ENOUGH
    chosen = [b for b in BREAKAGES if " ".join(words) in "%s | %s" % (b.rule, b.what)]
    cases = Stored(loaded())
    unnoticed = 0
    print("rule | what is broken | cases that notice")
    print("---|---|---")
    for b in chosen:
        found = noticed(b, cases, enough)
        names = ", ".join("%s %d" % item for item in found.items())
        more = " or more" if sum(found.values()) == enough else ""
        print("%s | %s | %s%s" % (b.rule, b.what, names or "none", more), flush=True)
        unnoticed += not found
    print("%d breakages, %d that no case notices" % (len(chosen), unnoticed))
    sys.exit(1 if unnoticed else 0)


if __name__ == "__main__":
    main()
