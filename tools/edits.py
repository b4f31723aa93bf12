#!/usr/bin/env python3
"""Turns the edits of crates/*/must-fail to the spelling of today's Rattle.

usage: python3 tools/edits.py [-v]     at the top of the repository, once, after port.py of the Rattle kit and tools/respell.py

Each edit is read as it stood before the port (BEFORE). The line of the old file that it changes is turned, with and without the change; where the
turned line stands in today's file, the edit names the turned texts, and if these do not stand there once, what differs of the two lines.
What the rules do not turn is written out in BY_HAND: pairs of a file, an old text and a new text, for each edit named there.
An edit that comes to nothing is printed, and its file stays as it was.
It has run: nine edits were written in other words after it (docs/PORT.md), and another run would undo that.
"""

import os
import re
import subprocess
import sys

BEFORE = "a1a088d1fedc19336b0038887fc65f0bb6f2c5a4"

# words that port.py turned, of those that the edits name
WORDS = {"getD": "get_or"}

# Imports stand together today, clauses have their new form, and a call that rt fmt broke into lines has no line of which the old text is a part.
BY_HAND = {
    "calls/callers_loops_dropped.edit": [("src/lib.rt", "        open,", "        0,")],
    "demands/equal_places.edit": [("specs/Demand3.antt", "ℕ, ◌<◌, List}", "ℕ, ◌≤◌, List}"), ("specs/Demand3.antt", "(c1 c2 : ℕ) → c1 < c2", "(c1 c2 : ℕ) → c1 ≤ c2")],
    "demands/going_on_is_a_step.edit": [
        ("specs/StoppingAndGoingOn.antt", "whole ≡ reports (ended end (steps + more) last left)", "whole ≡ reports (ended end (steps + suc more) last left)"),
        ("specs/StoppingAndGoingOn.antt", "ℕ, ◌+◌, Bool", "ℕ, suc, ◌+◌, Bool"),
    ],
    "demands/refused_record_goes_on.edit": [
        ("specs/Neighbours.antt", "true, List, get_or", "true, false, List, get_or"),
        ("specs/Neighbours.antt", "(record_fits m ps t s ≡ true)", "(record_fits m ps t s ≡ false)"),
    ],
    "demands/started_with_no_place.edit": [
        ("specs/FalseAlarms.antt", "Starts reduced ps (table_of t) s", "Starts reduced [] (table_of t) s"),
        ("specs/FalseAlarms.antt", "ℕ, List}", "ℕ, List, []}"),
    ],
    "demands/stepped_with_no_place.edit": [
        ("specs/FalseAlarms.antt", "StateAfter ps (table_of t) n s choices r", "StateAfter [] (table_of t) n s choices r"),
        ("specs/FalseAlarms.antt", "ℕ, List}", "ℕ, List, []}"),
    ],
    "demands/step_too_many.edit": [
        ("specs/Demand1.antt", "◌/◌, ◌≤◌, List", "◌/◌, ◌≤◌, ◌<◌, List"),
        ("specs/Demand1.antt", "(reports (ended e n s left) used) = (n ≤ limit) × (used ≤ length choices)", "(reports (ended e n s left) used) = (n < limit) × (used ≤ length choices)"),
    ],
    "model/byte_wraps.edit": [
        ("src/lib.rt", "◌≡◌, ◌≤◌};", "◌≡◌, ◌≤◌, ◌*◌};"),
        ("src/lib.rt", "(result ≡ weight c v) × (result ≤ 2)", "(result ≡ 64 * weight c v) × (result ≤ 128)"),
        ("src/lib.rt", "return 2;", "return 128;"),
        ("src/lib.rt", "return 1;", "return 64;"),
        ("src/lib.rt", "class as u32", "(class / 64) as u32"),
    ],
    "model/choices_of_any_size.edit": [
        ("specs/EmptyClasses.antt", "→ (choices : List ℕ) → Numbers choices → (n : ℕ)", "→ (choices : List ℕ) → Numbers [] → (n : ℕ)"),
        ("specs/EmptyClasses.antt", "List, get_or}", "List, [], get_or}"),
    ],
    "reader/number_before_the_cursor.edit": [
        ("specs/Choose.antt", "ℕ, ◌+◌, List", "ℕ, ◌+◌, ◌-◌, List"),
        ("specs/Choose.antt", "Is (get_or l at 0)", "Is (get_or l (at - 1) 0)"),
    ],
    "reader/rest_says_no_change.edit": [("src/lib.rt", "(result.at ≡ cursor_after (choice_at r.entry.list.now r.entry.at) r.entry.at)", "(result.at ≡ r.entry.at)")],
    "reader/take_choice_says_rest.edit": [
        (
            "src/lib.rt",
            "    ensures { result ≡ choice_at list.now at } // the choice",
            "    ensures { result ≡ choice_at list.now (cursor_after (choice_at list.now at) at) } // the choice",
        )
    ],
    "recording_rows/value_numbers_lost.edit": [("src/lib.rt", "        last,", "        next,")],
    "row_moves/assume_for_assert.edit": [("src/lib.rt", "        36 => tested(", "        36 => tested(!")],
    "wire/high_before_low.edit": [("specs/Heads.antt", "r.used % 2 ^ 32 ∷ r.used / 2 ^ 32 ∷", "r.used / 2 ^ 32 ∷ r.used % 2 ^ 32 ∷")],
    "writing/returned_number_lost.edit": [("src/lib.rt", "    let back = give_back(", "    let x = 0; let back = give_back(")],
}

TOKEN = re.compile(r"\s+|[(){}\[\],;]|\"[^\"]*\"|[^\s(){}\[\],;]+")
PLAIN = re.compile(r"[\w′'-]+(\.[\w′'-]+)*|\.[\w′'-]+")
KEYWORDS = {"if", "then", "else", "let", "in", "do", "λ", "where", "record", "pub", "abbrev", "unfoldable", "data", "of"}


def git(*words):
    return subprocess.run(["git", *words], stdout=subprocess.PIPE, check=True, encoding="utf-8").stdout


def snake(word):
    return re.sub(r"(?<=[a-z0-9'′])[A-Z]", lambda m: "_" + m.group(0).lower(), word)


def word(text):
    """A word in today's spelling: lowerCamel becomes snake_case, but a type or a module keeps its capital."""
    if text in WORDS:
        return WORDS[text]
    text = text.replace("′", "'").replace("Rattle·", "Rattle.").replace("·specs.specs", ".specs")
    if re.fullmatch(r"_\S+_", text):
        return "◌" + text[1:-1] + "◌"
    return ".".join(snake(part) if part[:1].islower() else part for part in text.split("."))


def tree(tokens, end=None):
    """The tokens up to the bracket `end`, a list for each pair of round brackets."""
    out = []
    while tokens:
        token = tokens.pop(0)
        if token == end:
            return out, True
        if token == "(":
            inside, closed = tree(tokens, ")")
            out.append([inside, closed])
        else:
            out.append(token)
    return out, False


def is_atom(item):
    return isinstance(item, list) or bool(PLAIN.fullmatch(item) and item not in KEYWORDS and not item.startswith(".")) or item in ("[]",)


def write(items):
    """The text of items, in which a projection stands tight after what it is of."""
    out, spine = [], None
    for item in items:
        if isinstance(item, list):
            inside, closed = item
            text = write(inside)
            whole = projected(inside)
            out.append(text if whole and closed else "(" + text + (")" if closed else ""))
            spine = len(out) - 1 if spine is None else spine
        elif item.isspace():
            out.append(item)
        elif re.fullmatch(r"\.[a-z]\w*", item) and spine is not None:
            while out[-1].isspace():
                out.pop()
            atoms = [it for it in out[spine:] if not it.isspace()]
            one = out[spine] if len(atoms) == 1 else "(" + "".join(out[spine:]) + ")"
            out[spine:] = [one + word(item)]
        elif is_atom(item):
            out.append(word(item))
            spine = len(out) - 1 if spine is None else spine
        else:
            out.append(word(item))
            spine = None
    return "".join(out)


def projected(inside):
    """Whether what stands in brackets is a projection and no more: today such brackets go."""
    words = [it for it in inside if isinstance(it, list) or not it.isspace()]
    return len(words) > 1 and isinstance(words[-1], str) and bool(re.fullmatch(r"\.[a-z]\w*", words[-1])) and all(is_atom(it) or re.fullmatch(r"\.[a-z]\w*", it) for it in words)


def turned(line, path):
    if path.endswith(".rt"):
        return line
    tokens = TOKEN.findall(line)
    items, _ = tree(tokens)
    return write(items)


def pairs_of(text):
    """The comment lines of an edit, and its pairs: a file, an old text and a new text."""
    said, pairs, path, old = [], [], "", ""
    for line in text.split("\n"):
        if line.startswith("file: "):
            path = line[6:].strip()
        elif line.startswith("old: "):
            old = line[5:]
        elif line.startswith("new:"):
            pairs.append((path, old, line[4:].removeprefix(" ")))
        elif line.strip():
            said.append(line)
    return said, pairs


def written(said, pairs):
    out, at = list(said), ""
    for path, old, new in pairs:
        if path != at:
            out.append(f"file: {path}")
            at = path
        out += [f"old: {old}", f"new: {new}"]
    return "\n".join(out) + "\n"


def narrowed(old, new, text):
    """The least part of a line, of whole words, that differs between old and new and stands once in the text."""
    a, b = TOKEN.findall(old), TOKEN.findall(new)
    first = 0
    while first < min(len(a), len(b)) and a[first] == b[first]:
        first += 1
    last = 0
    while last < min(len(a), len(b)) - first and a[-1 - last] == b[-1 - last]:
        last += 1
    while True:
        one, other = "".join(a[first : len(a) - last]), "".join(b[first : len(b) - last])
        if one.strip() and text.count(one) == 1:
            return one, other
        if first:
            first -= 1
        elif last:
            last -= 1
        else:
            return None


def same(line):
    return re.sub(r"\s+", " ", line).strip()


def turn(crate, pairs):
    """The pairs in today's spelling, or what was not found."""
    before, today, out = {}, {}, []
    for path, old, new in pairs:
        if path not in today:
            before[path] = git("show", f"{BEFORE}:crates/{crate}/{path}")
            with open(f"crates/{crate}/{path}", encoding="utf-8") as it:
                today[path] = it.read()
        if before[path].count(old) != 1:
            return None, f"the old text stood {before[path].count(old)} times in {path}: {old}"
        start = before[path].index(old)
        begin = before[path].rfind("\n", 0, start) + 1
        end = before[path].find("\n", start + len(old))
        line = before[path][begin:end]
        changed = line[: start - begin] + new + line[start - begin + len(old) :]
        before[path] = before[path].replace(old, new)
        one, other = turned(old, path), turned(new, path)
        was, will = turned(line, path), turned(changed, path)
        places = [it for it in today[path].split("\n") if same(it) == same(was)]
        if len(places) != 1:
            return None, f"the line stands {len(places)} times in {path}\n    before: {line}\n    turned: {was}\n    old: {old}\n    new: {new}"
        place = places[0]
        if not (today[path].count(one) == 1 and one in place and same(place.replace(one, other)) == same(will)):
            found = narrowed(place, re.sub(r"^\s*", re.match(r"\s*", place).group(0), will), today[path])
            if not found:
                return None, f"no part of the line stands once in {path}: {place}"
            one, other = found
        if one == other:
            return None, f"it changes nothing: {one}"
        today[path] = today[path].replace(one, other)
        out.append((path, one, other))
    return out, None


def main():
    lost = 0
    names = git("ls-tree", "-r", "--name-only", BEFORE, "crates").split("\n")
    for name in sorted(it for it in names if re.fullmatch(r"crates/\w+/must-fail/[\w.-]+\.edit", it)):
        crate = name.split("/")[1]
        key = f"{crate}/{os.path.basename(name)}"
        said, pairs = pairs_of(git("show", f"{BEFORE}:{name}"))
        by_hand = BY_HAND.get(key)
        out, why = (by_hand, None) if by_hand else turn(crate, pairs)
        if why:
            lost += 1
            print(f"{key}: {why}")
            continue
        with open(name, "w", encoding="utf-8") as it:
            it.write(written(said, out))
        if "-v" in sys.argv and out != pairs:
            print(f"{key}")
            for (_, o, n), (_, x, y) in zip(pairs, out):
                print(f"    {o}\n  ->{x}\n    {n}\n  ->{y}")
    print(f"{lost} edits came to nothing")
    return 1 if lost else 0


if __name__ == "__main__":
    sys.exit(main())
