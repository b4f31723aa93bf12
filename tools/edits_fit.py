#!/usr/bin/env python3
"""Lists every edit of crates/*/must-fail that does not fit the tree as it stands.

usage: python3 tools/edits_fit.py     at the top of the repository; exits with 1 if there is any

An edit fits where each old text stands once in its file, once those before it are applied, where the file differs at the end, and where each word
of a new text stands somewhere in the file as the edit leaves it, outside the new texts, or is bound in the new text itself.
"""

import glob
import os
import re
import sys

WORD = re.compile(r"[^\W\d][\w'-]*")
BOUND = re.compile(r"λ ([\w' ]+)\.|([\w']+) ←|let (?:mut )?([\w']+)|\((\w+) :")
MIDDLE = re.compile(r"◌(\S+?)◌")
# what needs no import in specs/ and in a clause, and the words of Rust
FREE = {"λ", "if", "then", "else", "where", "let", "mut", "as", "Rattle", "specs", "usize", "u8", "u32", "u64"}
RUST = {"true", "false"}
# signs that are no operator of an import
SIGNS = {"=", "→", "×", "⊥", ":", "←", "λ", "|", "&", "!", "<", "<=", "!=", "==", "=>", "+", "-", "*", "/", "%", "&mut"}


def pairs_of(text):
    pairs, path, old = [], "", ""
    for line in text.split("\n"):
        if line.startswith("file: "):
            path = line[6:].strip()
        elif line.startswith("old: "):
            old = line[5:]
        elif line.startswith("new:"):
            pairs.append((path, old, line[4:].removeprefix(" ")))
        elif line.strip() and not line.startswith("#"):
            pairs.append(("", line, ""))
    return pairs


def words(text):
    text = re.sub(r"\"[^\"]*\"", '""', text)
    return set(WORD.findall(text))


def misfit(crate, name):
    """What does not fit, or None."""
    with open(name, encoding="utf-8") as it:
        pairs = pairs_of(it.read())
    texts, was = {}, {}
    if not pairs:
        return "it has no pair of an old and a new text"
    for path, old, new in pairs:
        file = f"crates/{crate}/{path}"
        if not path or not old:
            return f"a line that is not read, or no file or old text before a new one: {old}"
        if not os.path.isfile(file):
            return f"there is no file {path}"
        if path not in texts:
            with open(file, encoding="utf-8") as it:
                texts[path] = was[path] = it.read()
        stands = texts[path].count(old)
        if stands != 1:
            return f"in {path} stands {stands} times: {old}"
        texts[path] = texts[path].replace(old, new)
    if texts == was:
        return "it changes nothing"
    for path, old, new in pairs:
        # the words of the file as it was, and of the imports as they are now
        uses = re.findall(r"^\s*(?:pub |ghost )*use .*$", texts[path], flags=re.M)
        known = words(re.sub(r"^\s*(--|//).*$", "", was[path], flags=re.M)) | words("\n".join(uses))
        # what any pair of the edit binds in this file
        bound = {w for other, _, text in pairs if other == path for found in BOUND.findall(text) for part in found for w in part.split()}
        bare = re.sub(r"(?<=[\w)])\.[a-z]\w*|::\w+", "", new)
        lacking = words(bare) - known - bound - FREE - (RUST if path.endswith(".rt") else set())
        if lacking:
            return f"in {path} no word is {', '.join(sorted(lacking))}: {new}"
        if path.endswith(".antt") and not any(new in it for it in uses):
            signs = {it for it in re.findall(r"(?<=\s)[^\w\s(){}\[\],;]+(?=\s)", f" {new} ") if it not in SIGNS}
            have = set(MIDDLE.findall(texts[path]))
            more = {it for it in re.findall(r"(?<=\s)[-+*/%<≤^∷≡&|]+(?=\s)", f" {new} ")}
            lacking = {it for it in signs | more if it not in have}
            if lacking:
                return f"in {path} no import gives {', '.join(sorted(lacking))}: {new}"
    return None


def main():
    names = sorted(glob.glob("crates/*/must-fail/*.edit"))
    bad = 0
    for name in names:
        why = misfit(name.split("/")[1], name)
        if why:
            bad += 1
            print(f"{name}: {why}")
    print(f"{len(names)} edits, {bad} of which do not fit")
    return 1 if bad else 0


if __name__ == "__main__":
    sys.exit(main())
