#!/usr/bin/env python3
"""Respells this repository's own definitions and lemmas as today's Rattle spells names: words in snake case, a claim or a part of a record by underscores.

usage: tools/port/names.py [FOLDER]      in the repository, once, after port.py; names.tsv beside it has a row for each name: old, a tab, new

What turns: the code of .antt files, the clauses of .rt files, must-fail edits, and code spans of pages. A name with a dash turns in .antt files and edits of
them alone, not behind a dot in a Proof.antt (there it is a step of the function), and nowhere in prose.
"""

import os
import re
import sys

HERE = os.path.dirname(os.path.realpath(__file__))
WORD = re.compile(r"[^\s(){}\[\].,;:@\"«»⌜⌝|→`]+")
CLAUSE = re.compile(r"\s*(?:ensures|requires)\b")
SPAN = re.compile(r"`[^`\n]+`")


def rows():
    with open(os.path.join(HERE, "names.tsv"), encoding="utf-8") as f:
        table = dict(line.rstrip("\n").split("\t") for line in f)
    return table, {a: b for a, b in table.items() if "-" not in a}


def turned(text, table, held=lambda text, at, word: False):
    def one(m):
        word = m.group(0)
        return word if held(text, m.start(), word) else table.get(word, word)

    return WORD.sub(one, text)


def antt(text, table, plain, proof):
    brought = set()
    for m in re.finditer(r"^use \S+?\.\{([^}]*)\}", text, re.M):
        brought |= {n.strip() for n in m.group(1).split(",")}

    def held(line, at, word):
        return proof and "-" in word and word not in brought

    lines = []
    for line in text.split("\n"):
        m = re.search(r"(?:^|\s)--(?=\s|$)", line)
        code, note = (line[: m.start()], line[m.start() :]) if m else (line, "")
        lines.append(turned(code, table, held) + turned(note, plain))
    return "\n".join(lines)


def edit(text, table, plain):
    lines, of_antt = [], False
    for line in text.split("\n"):
        if line.startswith("file:"):
            of_antt = line.endswith(".antt")
        else:
            line = turned(line, table if of_antt else plain)
        lines.append(line)
    return "\n".join(lines)


def main(top):
    table, plain = rows()
    for folder, dirs, files in os.walk(top):
        dirs[:] = [d for d in dirs if d not in (".git", "out", "target")]
        for name in files:
            path = os.path.join(folder, name)
            inside = os.path.relpath(path, top).split(os.sep)[0] == "crates"
            if name == "PORT.md" or not (name.endswith(".md") or inside and name.endswith((".antt", ".rt", ".edit"))):
                continue
            with open(path, encoding="utf-8") as f:
                text = f.read()
            if name.endswith(".antt"):
                new = antt(text, table, plain, name == "Proof.antt")
            elif name.endswith(".rt"):
                lines = text.split("\n")
                new = "\n".join(turned(line, table if CLAUSE.match(line) else plain) for line in lines)
            elif name.endswith(".edit"):
                new = edit(text, table, plain)
            else:
                new = SPAN.sub(lambda m: turned(m.group(0), table), text)
            if new != text:
                with open(path, "w", encoding="utf-8") as f:
                    f.write(new)


main(sys.argv[1] if len(sys.argv) > 1 else ".")
