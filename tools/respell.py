#!/usr/bin/env python3
"""Spells this repository's own definitions and lemmas as today's Rattle does: words in snake case, a prime as an apostrophe.

usage: python3 tools/respell.py        at the top of the repository, once, right after the kit's port.py

What turns: each name that a file of specs/ or a lemma file of proofs/ declares in camel case or with a dash. Types, facts and modules keep their
capitals; functions of src/, exported names, strings, inputs and outputs are not touched. A lemma that would meet another name gets '_lem' behind it.
It turns whole words: in specs/ and proofs/, in the clauses of src/, in the texts of the must-fail edits, and in the code spans of the documents.
"""

import glob
import re
import sys

NAME = r"[^\s(){}.;,@\"«»`]+"
HEAD = re.compile(
    r" *(?:(?:abbrev|opaque|unfoldable|pub|instance|data|record|ruleset)\s+)*"
    r"((?:[^\s(){},=|:]+)(?:\s+[^\s(){},=|:]+)*?)\s+(?:\{[^{}]*\}\s*|\([^()]*\)\s*)*:(?:\s|$)"
)
SKIP = {"use", "λ", "where", "module", "let", "in", "infix", "infixl", "infixr", "elim", "open", "as", "pub", "mod"}

# What port.py garbled, and where a definition and a lemma would fall together: the definition has the word, and the lemma '_lem' behind it.
OWN = {
    "Drop-token": "drop_token",
    "isDigit": "is_digit",
    "is_digit": "is_digit_lem",
    "recordOf": "record_of",
    "record_of": "record_of_lem",
    "wellFormed": "well_formed",
}
# A lemma that shares its name with a field, which keeps it: behind a dot, before a value, and where the record declares it.
SHARED = re.compile(r"(?<![\w.'-])well-formed(?![\w'-])(?! =| : all)")


def files(*patterns):
    return sorted(p for q in patterns for p in glob.glob(q, recursive=True) if "/out/" not in p)


def read(path):
    with open(path, encoding="utf-8") as f:
        return f.read()


def declared():
    """Each name that specs/ or a lemma file declares, with whether specs/ does."""
    found = {}
    for path in files("crates/*/specs/*.antt", "crates/*/proofs/*.antt"):
        for line in read(path).split("\n"):
            m = HEAD.match(re.sub(r"(^|\s)--.*", "", line))
            if not m:
                continue
            words = m[1].split()
            if any(w in SKIP for w in words):
                continue
            for w in words:
                found[w] = found.get(w, False) or "/specs/" in path
    return found


def spelled(name):
    head = r"(?<=[a-z0-9])([A-Z])"
    if not name[:1].isupper():
        name = re.sub(head, lambda m: "_" + m[1].lower(), name)
    return re.sub(r"(?<=[\w'])-(?=\w)", "_", name)


def table():
    names = declared()
    new = dict(OWN)
    for name in sorted(names, key=lambda n: (not names[n], n)):
        to = spelled(name)
        if to == name or name in OWN:
            continue
        if (to in names and to not in OWN) or to in set(new.values()):
            print(f"meets another: {name} -> {to if name == 'well-formed' else to + '_lem'}")
            to += "" if name == "well-formed" else "_lem"
        new[name] = to
    return new


def word(m, new):
    behind_a_dot = m.string[m.start() - 1 : m.start()] == "."
    return m[0] if behind_a_dot and m[0] in OWN and OWN[m[0]].endswith("_lem") else new.get(m[0], m[0])


def turned(text, new):
    """Whole words, but for comments."""
    lines = []
    for line in text.split("\n"):
        m = re.search(r"(^|\s)--(\s|$)", line)
        code, said = (line[: m.start()], line[m.start() :]) if m else (line, "")
        code = SHARED.sub("well_formed_lem", code)
        lines.append(re.sub(NAME, lambda w: word(w, new), code) + said)
    return "\n".join(lines)


def of_source(text, new):
    camel = {a: b for a, b in new.items() if re.fullmatch(r"\w+", a)}
    clause = re.compile(r"(?:requires|ensures)\s*(?:\w+\s*)?\{.*\}\s*$|^ghost use .*;|^\s*ghost use .*;", re.M)
    return clause.sub(lambda m: re.sub(r"[\w']+", lambda w: camel.get(w[0], w[0]), m[0]), text)


def of_document(text, new):
    spans = {a: b for a, b in new.items() if a not in ("is_digit", "record_of")}
    return re.sub(r"`[^`\n]+`", lambda m: re.sub(NAME, lambda w: spans.get(w[0], w[0]), m[0]), text)


def main():
    new = table()
    for path in files("crates/*/specs/**/*.antt", "crates/*/proofs/**/*.antt", "crates/*/must-fail/*.edit"):
        write(path, turned(read(path), new))
    for path in files("crates/*/src/**/*.rt"):
        write(path, of_source(read(path), new))
    for path in files("*.md", "docs/*.md", "cases/*.md", "cases/*/*.md", "tests/*.md"):
        write(path, of_document(read(path), new))
    print(f"{len(new)} names turned")


def write(path, text):
    if text != read(path):
        with open(path, "w", encoding="utf-8") as f:
            f.write(text)


if __name__ == "__main__":
    sys.exit(main())
