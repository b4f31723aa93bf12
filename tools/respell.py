#!/usr/bin/env python3
"""Respells the definitions and lemmas of this repository: lowerCamel words become snake_case, in specs/ and proofs/ and in the clauses of src/.

usage: python3 tools/respell.py        at the top of the repository, once, right after port.py of the Rattle kit

A lemma whose words port.py joined by underscores, and whose name would fall together with a respelled word, has its hyphens again: APART.
Functions, fields and strings of src/ keep their names: a word of src/ is respelled only if it stands in specs/ or proofs/ too.
"""

import os
import re

WORD = re.compile(r"[^\s(){}\[\],;.\"`]+")
LINE = {".antt": "--", ".rt": "//"}
APART = {
    "by_form", "goes_on", "held_next", "in_all", "met_by", "no_end", "no_line", "none_open", "numbers_of", "of_row", "on_bool", "past_end",
    "row_number", "row_typed", "whole_is",
}
KEEP = {"is_IsLeaf"}  # a step of a function's proof, named after the method is_leaf of a type


def files():
    for folder, dirs, names in os.walk("crates"):
        dirs[:] = sorted(d for d in dirs if d != "out")
        for name in sorted(names):
            end = os.path.splitext(name)[1]
            if end in LINE:
                yield os.path.join(folder, name), end


def is_camel(word):
    return word not in KEEP and word[0].islower() and re.search(r"[a-z0-9'][A-Z]", word)


def snake(word):
    return re.sub(r"(?<=[a-z0-9'])[A-Z]", lambda m: "_" + m.group(0).lower(), word)


def code(line, end):
    """The line up to a comment."""
    cut = re.search(r"(?:^|\s)" + re.escape(LINE[end]), line)
    return line[: cut.start()] if cut else line


def main():
    texts = {path: (open(path, encoding="utf-8").read(), end) for path, end in files()}
    camel = {
        word
        for text, end in texts.values()
        if end == ".antt"
        for line in text.split("\n")
        for word in WORD.findall(code(line, end))
        if is_camel(word)
    }

    def turned(match):
        word = match.group(0)
        if word in camel:
            return snake(word)
        start = match.start()
        if word in APART and match.string[start - 1 : start] != ".":
            return word.replace("_", "-")
        return word

    for path, (text, end) in texts.items():
        words = WORD if end == ".antt" else re.compile(r"\b[A-Za-z_][\w'-]*")
        out = []
        for line in text.split("\n"):
            if end == ".rt":
                out.append(re.sub(r"\b[a-z]\w*\b", lambda m: snake(m.group(0)) if m.group(0) in camel else m.group(0), line))
            else:
                out.append(words.sub(turned, line))
        new = "\n".join(out)
        if new != text:
            open(path, "w", encoding="utf-8").write(new)


main()
