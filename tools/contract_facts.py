#!/usr/bin/env python3
"""Counts what the contracts of crates/*/src say again: facts that stand in the `requires` of three or more functions (each clause is taken
apart at its products), and groups of three parameters that go together in the signatures of three or more functions.

    python3 tools/contract_facts.py [FOLDER]     FOLDER is the top of a checkout, this one if none is given
"""
import collections
import itertools
import pathlib
import re
import subprocess
import sys

LEAST = 3


def sources(top):
    """The files of Rattle code that git knows, each with its text."""
    listed = subprocess.run(["git", "-C", top, "ls-files", "crates"], capture_output=True, text=True, check=True).stdout.split()
    for name in listed:
        if name.endswith(".rt"):
            yield name, (pathlib.Path(top) / name).read_text(encoding="utf-8")


def facts_of(signature):
    """The facts of each `requires` of a signature."""
    for clause in re.finditer(r"requires (?:\w+ )?\{(.*?)\}\s*(?:\n|$)", signature, re.S):
        for fact in re.sub(r"\s+", " ", clause.group(1)).split(" × "):
            yield fact.strip()


def main():
    top = sys.argv[1] if len(sys.argv) > 1 else str(pathlib.Path(__file__).resolve().parent.parent)
    facts = collections.defaultdict(set)
    groups = collections.defaultdict(set)
    for name, text in sources(top):
        crate = name.split("/")[1]
        for function in re.finditer(r"\bfn (\w+)(.*?)\n\{", text, re.S):
            for fact in facts_of(function.group(2)):
                facts[fact].add((crate, function.group(1)))
        for function in re.finditer(r"\bfn (\w+)[^(]*\(([^)]*)\)", text, re.S):
            taken = sorted(part.strip() for part in function.group(2).split(",") if ":" in part)
            for group in itertools.combinations(taken, LEAST):
                groups[group].add((crate, function.group(1)))
    often = sorted(((len(where), fact) for fact, where in facts.items() if len(where) >= LEAST), reverse=True)
    for count, fact in often:
        print(count, fact)
    together = sum(1 for where in groups.values() if len(where) >= LEAST)
    print(f"{len(often)} facts in {LEAST} or more contracts, {together} groups of {LEAST} parameters in {LEAST} or more signatures")


if __name__ == "__main__":
    main()
