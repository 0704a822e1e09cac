#!/usr/bin/env python3
"""Counts the places of docs/DESIGN-PASS.md that a pattern alone doesn't find. Run at the top of the repository."""

import glob
import re

SLICE = re.compile(r"\w+: &(mut )?\[")
COUNT = re.compile(r"(count|objects|entries|met|free): usize")
FLAG = re.compile(r"auditing: bool|reading: &?Reading")


def sources():
    """The text of every file in src/."""
    for name in sorted(glob.glob("crates/*/src/**/*.rt", recursive=True)):
        with open(name, encoding="utf-8") as file:
            yield file.read()


def functions(texts):
    """The parameters of every function."""
    for text in texts:
        for match in re.finditer(r"\bfn \w+(?:<[^>]*>)?\(([^)]*)\)", text):
            plain = re.sub(r"<[^<>]*>", "", match.group(1))
            yield [part.strip() for part in plain.split(",") if part.strip()]


def proof_lines():
    """The name and a line of every file in proofs/."""
    for name in glob.glob("crates/*/proofs/**/*.antt", recursive=True):
        with open(name, encoding="utf-8") as file:
            for line in file.read().split("\n"):
                yield name, line


def main():
    texts = list(sources())
    parameters = list(functions(texts))
    lines = list(proof_lines())
    counted = [p for p in parameters if any(map(SLICE.match, p)) and any(map(COUNT.match, p))]
    answers = [n for n, _ in lines if n.endswith(("Answers.antt", "Invariants.antt"))]
    print(len(parameters), "functions")
    print(sum(len(p) >= 6 for p in parameters), "with six parameters or more")
    print(len(counted), "with a slice and a count of its used part")
    # a Reading is told of the flag by a field
    told = [p for p in parameters if any(map(FLAG.match, p))] if any("auditing: bool" in text for text in texts) else []
    print(len(told), "with the flag of an audit")
    print(len(answers), "lines of answers and invariants")
    print(sum(len(line) > 160 for _, line in lines), "lines of proofs over 160 characters")


main()
