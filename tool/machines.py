"""The proved programs at work: `benchrun`, which answers messages, and `benchwrite`, which writes long choice lists.

Everything that ./bench says of a file, a table or a run is what one of them answered.
"""
import contextlib
import os
import struct
import subprocess
import sys
import threading
import time
from array import array

from program import ASSERT, BOOL, NEW, NEW_REDUCED, NOTHING, POINTER, SET

CRATES = os.path.join(os.path.dirname(os.path.dirname(os.path.abspath(__file__))), "crates")
READ, WRITE_FILE, REDUCE, RUN, GO_ON, RUN_REDUCED, GO_ON_REDUCED, CHOICES = range(8)
ENDS = ("done", "assert", "assume", "fail", "room", "steps", "badchoice", "nochoice", "full", "deep")
PLAIN_CELLS, REDUCED_CELLS = 4096, 4128
LONGEST_FILE = 22016
WINDOW = 40000  # choices that are handed over at a time; no row takes as many
SLICE = 1000000  # steps between two looks at the clock
SMALL_ROOM, LARGEST_ROOM = 8192, 2**28


class Refused(Exception):
    """A refusal: its number and its place."""

    def __init__(self, number, place):
        super().__init__("refused %d line %d" % (number, place))
        self.number, self.place = number, place


class Broken(Exception):
    """A program that did not answer, or something that could not be read or written."""


def built(name):
    """Where a proved program is built."""
    return os.path.join(CRATES, name, "out", name)


class Machines:
    """The conversation with benchrun. What it says on standard error, as where nobody reads its answer any more, goes nowhere."""

    def __init__(self):
        try:
            self.process = subprocess.Popen([built("benchrun")], stdin=subprocess.PIPE, stdout=subprocess.PIPE, stderr=subprocess.DEVNULL)
        except OSError as error:
            raise Broken("benchrun cannot be started: %s" % error.strerror)

    def ask(self, what, c1=0, c2=0, limit=0, table=b"", choices=b"", record=b"", cells=b"", want=0, room=None):
        """Sends a message. Gives the head of the answer and the words after it."""
        count = len(choices) // 4 if room is None else room
        body = struct.pack("<8I", what, c1, c2, limit, len(table) // 4, count, len(cells) // 4, want) + table + choices + record + cells
        try:
            self.process.stdin.write(struct.pack("<I", len(body)) + body)
            self.process.stdin.flush()
            answer = self.process.stdout.read(struct.unpack("<I", self.exactly(4))[0])
        except OSError:
            raise Broken("benchrun stopped")
        head = struct.unpack("<8I", answer[:32])
        if head[0]:
            raise Refused(head[0], head[1])
        return head, answer[32:]

    def exactly(self, n):
        found = self.process.stdout.read(n)
        if len(found) < n:
            raise Broken("benchrun stopped")
        return found

    def read(self, data):
        """The words of the table in a program file. A file above its longest is refused for its length, so no more of it is sent than shows that."""
        return array("I", self.ask(READ, table=data[: LONGEST_FILE + 1])[1])

    def file_of(self, words):
        return self.ask(WRITE_FILE, table=words.tobytes())[1]

    def reduced(self, words, c1, c2):
        return array("I", self.ask(REDUCE, c1, c2, table=words.tobytes())[1])


class Record:
    """A record, taken apart, and the cells beside it. Its words are those of benchrun; of each caller there are 30 in the stack."""

    PARTS = (
        ("numbers", 32), ("bases", 32), ("loop_rows", 8), ("starts", 8), ("ends", 8), ("firsts", 16), ("lengths", 16), ("shapes", 16), ("stack", 241)
    )
    WORDS = 3 + sum(size for _, size in PARTS)
    NUMBERS, BASES, STACK = 3, 35, WORDS - 241
    CALLER, CALLERS = 30, 240  # words of a caller, and where in the stack it stands how many there are
    LOCALS, LOOP_ROWS, STARTS, ENDS = 2, 6, 14, 22  # in a caller, after its row and how many loops are open

    def __init__(self, data):
        words = array("I", data[: 4 * self.WORDS])
        self.row, self.open, self.count = words[:3]
        at = 3
        for name, size in self.PARTS:
            setattr(self, name, words[at : at + size])
            at += size
        self.data = words.tobytes()
        self.cells = array("I", data[4 * self.WORDS :])
        held = data[4 * self.WORDS :].rstrip(b"\0")
        self.held = held + b"\0" * (-len(held) % 4)  # the cells up to the last that is not 0

    def depth(self):
        return self.stack[self.CALLERS]

    def before_row(self, v):
        """The words of the record for a table with one row more before the row where it stands, with 0 in variable v where it is a new one."""
        words = array("I", self.data)
        if v is not None:
            words[self.NUMBERS + v] = words[self.BASES + v] = 0
        for d in range(self.depth()):
            at = self.STACK + self.CALLER * d
            for k in (at, *range(at + self.LOOP_ROWS, at + self.LOOP_ROWS + words[at + 1])):
                words[k] += words[k] >= self.row
        return words.tobytes()

    def loops(self):
        return [(self.loop_rows[i], self.starts[i], self.ends[i]) for i in range(self.open)]

    def arrays(self):
        """First cell, length and whether it is reduced, of each array."""
        return [(self.firsts[i], self.lengths[i], self.shapes[i] == 1) for i in range(self.count)]

    def callers(self):
        """Row, locals and open loops of each caller, the one in main first."""
        out = []
        for d in range(self.depth()):
            w = self.stack[self.CALLER * d : self.CALLER * (d + 1)]
            loops = [(w[self.LOOP_ROWS + i], w[self.STARTS + i], w[self.ENDS + i]) for i in range(w[1])]
            out.append((w[0], list(w[self.LOCALS : self.LOOP_ROWS]), loops))
        return out


class Progress:
    """Says on a terminal, on standard error, how many steps a run has taken that goes on for more than a second, or another time."""

    OFTEN = 0.1  # seconds between two looks

    def __init__(self, what, after=1):
        self.what, self.next, self.shown = what, time.monotonic() + after, False

    def steps(self, n):
        now = time.monotonic()
        if now > self.next and sys.stderr.isatty():
            sys.stderr.write("\r%s: %s steps so far" % (self.what, format(n, ",")))
            sys.stderr.flush()
            self.next, self.shown = now + self.OFTEN, True

    def over(self):
        if self.shown:
            sys.stderr.write("\r\033[K")
            sys.stderr.flush()


@contextlib.contextmanager
def watched(words, limit):
    """Shows the progress of a plain run, made beside something that cannot be asked how far it is."""
    over = threading.Event()

    def watch():
        progress = Progress("plain")
        if over.wait(1):
            return
        run = Run(Machines(), words)
        while not over.is_set() and run.end == "steps" and run.steps < limit:
            run.advance(min(limit - run.steps, SLICE))
            progress.steps(run.steps)
        progress.over()

    watcher = threading.Thread(target=watch, daemon=True)
    if sys.stderr.isatty():
        watcher.start()
    try:
        yield
    finally:
        over.set()
        if watcher.is_alive():
            watcher.join()


class Run:
    """A run of either machine, which can be stopped and gone on with. The choices are an array of words."""

    def __init__(self, machines, words, pair=None, choices=()):
        self.machines, self.words, self.table, self.pair = machines, words, words.tobytes(), pair or (0, 0)
        self.reduced, self.choices = pair is not None, choices if isinstance(choices, array) else array("I", choices)
        self.steps = self.used = 0
        self.end, self.reason, self.record = "steps", 0, None
        self.advance(0)

    def bad_choice(self):
        """Which choice a run that ended with badchoice was not allowed: how many before it the row took."""
        return next(k for k in range(8192) if self.call(1, window=k + 1, cells=False)[0] == "badchoice")

    def call(self, limit, table=None, record=None, window=WINDOW, cells=True):
        """Goes on from the record for so many steps, with the choices that are left; the table may be another, and the cells not asked for."""
        fresh = self.record is None
        what = (RUN_REDUCED if fresh else GO_ON_REDUCED) if self.reduced else (RUN if fresh else GO_ON)
        mine = b"" if fresh else self.record.data
        held = b"" if fresh else self.record.held
        left = self.choices[self.used : self.used + window].tobytes()
        want = (REDUCED_CELLS if self.reduced else PLAIN_CELLS) if cells else 0
        head, rest = self.machines.ask(what, *self.pair, limit, table or self.table, left, record or mine, held, want)
        return ENDS[head[2]], head[3], head[4], head[5] + (head[6] << 32), Record(rest)

    def advance(self, limit):
        """Goes on for at most so many steps, in one call; what it took is counted."""
        end, reason, steps, used, record = self.call(limit)
        if end == "nochoice" and self.used + WINDOW < len(self.choices):
            end = "steps"  # the choices that were handed over are used up, and there are more
        self.end, self.reason, self.record = end, reason, record
        self.steps += steps
        self.used += used

    def to(self, limit, progress=None):
        """Goes on until it ends or has taken so many steps in all."""
        while self.end == "steps" and self.steps < limit:
            self.advance(min(limit - self.steps, SLICE))
            if progress:
                progress.steps(self.steps)
        if progress:
            progress.over()
        return self

    def again(self):
        """The same run from its beginning."""
        return Run(self.machines, self.words, self.pair if self.reduced else None, self.choices)

    def copy(self):
        other = object.__new__(Run)
        other.__dict__.update(self.__dict__)
        return other


class Probe:
    """Works out nodes of the row where a run stands: the machine goes on for one step with a row before it that works out the node.

    That row sets a variable to the node, one more at the end of the declarations. Where there are 32 of them it sets one that the row may set; and
    where there is none it asserts a bool, or makes an array of a number's length. With 256 rows it stands in the place of the row; then there is
    no answer for a call from which a caller has not come back.
    """

    MOST_VARIABLES, MOST_ROWS = 32, 256

    def __init__(self, program, reduced):
        self.program, self.reduced, self.forms, self.tables = program, reduced, {}, {}

    def form(self, kind, row):
        """The row that works out a node of a type: its kind and its variable, or None; the kind 35 has none."""
        if (kind, row) not in self.forms:
            self.forms[kind, row] = self.form_of(kind, row)
        return self.forms[kind, row]

    def form_of(self, kind, row):
        variables = self.program.variables
        if len(variables) < self.MOST_VARIABLES:
            return SET, len(variables)
        mine = self.program.belongs(row)
        others = {v for p in range(len(self.program.procedures())) if p != mine for v in self.program.locals_of(p)}
        for v, line in enumerate(variables):
            if line[:2] == (kind, 0) and v not in others:
                return SET, v
        if kind == BOOL:
            return ASSERT, None
        pointers = [v for v, line in enumerate(variables) if line[0] == POINTER]
        if kind == POINTER or not pointers:
            return None
        return (NEW_REDUCED if self.reduced and variables[pointers[0]][1] else NEW), pointers[0]

    def table(self, row, node):
        """The table with the row that works out a node, and whether it is one row more."""
        if (row, node) not in self.tables:
            self.tables[row, node] = self.changed(row, node, *self.form(self.program.type_of(node), row))
        return self.tables[row, node]

    def changed(self, row, node, form, variable):
        program = self.program
        new = [(program.type_of(node), 0, 0, 0)] if variable == len(program.variables) else []
        line = (ASSERT, node, 0, 0) if form == ASSERT else (form, variable, node, 0)
        more = len(program.rows) < self.MOST_ROWS
        rows = program.rows[:row] + [line] + program.rows[row + (not more) :]
        if not more:
            for closing, opening in program.closing_rows().items():
                if opening == row:
                    rows[closing] = (NOTHING, 0, 0, 0)
        return array("I", [w for x in program.variables + new + program.nodes + rows for w in x]).tobytes(), more

    def value(self, run, node, used=0):
        """What a node comes to where a run stands, after so many choices of the row: (end, reason, value, choices used), or None."""
        row, form = run.record.row, self.form(self.program.type_of(node), run.record.row)
        if form is None:
            return None
        table, more = self.table(row, node)
        if not more and any(caller[0] == row for caller in run.record.callers()):
            return None
        kind, variable = form
        start = run.copy()
        start.used += used
        record = start.record.before_row(variable if variable == len(self.program.variables) else None) if more else None
        end, reason, _, took, after = start.call(1, table, record, 8192, False)
        if end in ("fail", "badchoice", "nochoice"):
            return end, reason, None, took
        return None, 0, self.read(kind, variable, end, after), took

    def read(self, kind, variable, end, after):
        """The value that the row handed back, a number and for a pointer its array; of an array for which there is no room it is not known."""
        if kind == ASSERT:
            return int(end != "assert"), 0
        if kind == SET:
            return after.numbers[variable], after.bases[variable]
        return (None if end == "room" else after.lengths[after.count - 1]), 0


def long_list(words, c1, c2, limit, room):
    """The choice writer with a list of any length: head and numbers of the answer."""
    body = struct.pack("<8I", CHOICES, c1, c2, limit, len(words), room, 0, 0) + words.tobytes()
    command = ["bash", "-c", 'ulimit -s unlimited 2>/dev/null || ulimit -s "$(ulimit -H -s)"; exec "$0"', built("benchwrite")]
    done = subprocess.run(command, input=struct.pack("<I", len(body)) + body, stdout=subprocess.PIPE, stderr=subprocess.PIPE)
    if done.returncode or len(done.stdout) < 32:
        raise Broken("there is not enough memory for a list of %d numbers" % room)
    return struct.unpack("<8I", done.stdout[:32]), array("I", done.stdout[32:])


def write_choices(machines, words, c1, c2, limit, room):
    """The choices of the plain run: end, reason, steps, row and numbers."""
    with watched(words, limit):
        if room <= SMALL_ROOM:
            head, rest = machines.ask(CHOICES, c1, c2, limit, table=words.tobytes(), room=room)
            numbers = array("I", rest)
        else:
            head, numbers = long_list(words, c1, c2, limit, room)
    if head[0]:
        raise Refused(head[0], head[1])
    return ENDS[head[2]], head[3], head[4], head[7], numbers
