#!/usr/bin/env python3
"""Brings the repository's own definitions and lemmas to the spelling of today's Rattle: words in snake case, types and modules in camel case.

usage: python3 tools/respell.py      at the top of the repository, once, after port.py

It goes over clauses, specs, proofs, must-fail edits and the pages in docs/. Strings, comments of Rust code and functions of src/ keep their words.
"""

import glob
import re

TOKEN = re.compile(r"\"(?:[^\"\\\n]|\\.)*\"|[A-Za-z_][\w'-]*")
MIXED = re.compile(r"(?:^|[-_])[a-z][a-z0-9']*[A-Z]")

# A lemma that would have its function's name.
LEMMAS = {
    "crates/links/proofs/RefusedFault.antt": ["not_entered"],
    "crates/links/proofs/Counting.antt": ["count_entries"],
    "crates/links/proofs/ObjectReferences.antt": ["count_entries"],
    "crates/links/proofs/AuditAnswers.antt": ["not_opened", "not-opened-one", "not-opened-number"],
    "crates/claims/proofs/ListWords.antt": ["block_words"],
}


def snake(word):
    return re.sub(r"(?<=[a-z0-9'])([A-Z])", lambda m: "_" + m.group(1).lower(), word)


def turned(text, rust=False):
    def one(m):
        word = m.group(0)
        return snake(word) if word[0] != '"' and MIXED.search(word) else word

    if not rust:
        return TOKEN.sub(one, text)
    return "\n".join(a + TOKEN.sub(one, b) if not a else a + b for a, b in (
        (("", line) if not line.lstrip().startswith("//") else (line, "")) for line in text.split("\n")))


def lemmas(path, text):
    for name in LEMMAS.get(path, []):
        if "-" not in name:
            text = re.sub(r"(?<![\w'.-])%s(?![\w'-])" % name, name + "_lem", text)
    return text


def fact(text):
    """The one fact with a small letter: `entered` of walk's Lent."""
    text = re.sub(r"(?<![\w'.-])entered(?= \((?:entryAnswer|entry_answer)\b)", "IsEntered", text)
    text = re.sub(r"(Rattle\.walk\.specs\.Lent\.\{[^}]*?)(?<![\w'-])entered(?![\w'-])", r"\1IsEntered", text)
    text = re.sub(r"(?m)^entered(?= answer ws count)", "IsEntered", text)
    return re.sub(r"(?m)^((?:unfolding|abbrev pub|unfoldable pub) (?:[\w' -]* )?)entered(?= |$)", r"\1IsEntered", text)


def main():
    paths = [p for part in ("specs", "proofs") for p in glob.glob(f"crates/*/{part}/**/*.antt", recursive=True)]
    paths += glob.glob("crates/*/src/**/*.rt", recursive=True) + glob.glob("crates/*/must-fail/*.edit")
    for path in sorted(paths):
        with open(path, encoding="utf-8") as f:
            text = f.read()
        new = turned(fact(lemmas(path, text)), path.endswith(".rt"))
        if new != text:
            with open(path, "w", encoding="utf-8") as f:
                f.write(new)
    for path in ["README.md"] + sorted(glob.glob("docs/**/*.md", recursive=True)):
        with open(path, encoding="utf-8") as f:
            text = f.read()
        new = re.sub(r"`[^`\n]+`", lambda m: turned(m.group(0)), text)
        if new != text:
            with open(path, "w", encoding="utf-8") as f:
                f.write(new)


main()
