#!/usr/bin/env python3
"""Respells this repository's definitions and lemmas as docs/PORT.md says, by the table respell.tsv beside it: run once, behind the kit's port.py.

usage: tools/respell.py [REPO]

A row is old, a tab, new. A name of the table turns as a whole word: in .antt files and in the clauses and ghost items of .rt files, in must-fail
edits, and in the code spans of pages (.md). In comments only names with an inner capital or of capitals alone turn, since a word with a dash may be
English there. Text in quotation marks stays. A row whose old name ends in * turns a lemma's name that a definition of the table takes: not behind a
dot, where it is a module's or a step's name; so a second run would turn such a name again. It prints how many files it wrote.
"""
import os
import re
import sys

WORD = re.compile(r"(?<![\w'\-₀-₉])([A-Za-z][\w'\-₀-₉]*)")
QUOTED = re.compile(r'b?"(?:\\.|[^"\\\n])*"')
SPAN = re.compile(r"`[^`\n]+`")


def table(path):
    rows = dict(line.rstrip("\n").split("\t") for line in open(path, encoding="utf-8") if line.strip())
    lemmas = {old[:-1]: new for old, new in rows.items() if old.endswith("*")}
    return {old: new for old, new in rows.items() if not old.endswith("*")}, lemmas


def plain(word):
    return "-" in word and word.lower() == word


def turned(text, rows, lemmas, in_comment=False):
    def one(m):
        word = m.group(1)
        if word in lemmas and not in_comment and text[m.start() - 1 : m.start()] != ".":
            return lemmas[word]
        if word in rows and not (in_comment and plain(word)):
            return rows[word]
        return word

    return WORD.sub(one, text)


def line_of_code(line, mark, rows, lemmas):
    """A line of code, with its comment behind the mark, and the text in quotation marks as it was."""
    at = re.search(rf"(?:^|(?<=\s)){mark}", line)
    code, comment = (line[: at.start()], line[at.start() :]) if at else (line, "")
    out, last = "", 0
    for m in QUOTED.finditer(code):
        out += turned(code[last : m.start()], rows, lemmas) + m.group(0)
        last = m.end()
    return out + turned(code[last:], rows, lemmas) + turned(comment, rows, lemmas, True)


def of_rust(text, rows, lemmas):
    # In the code itself a name of the table would be a function's or a field's, which stays: only names that Rust has not turn there.
    camel = {old: new for old, new in rows.items() if not plain(old)}
    return "\n".join(line_of_code(line, "//", camel if "-" not in line else rows, {}) for line in text.split("\n"))


def of_page(text, rows):
    return SPAN.sub(lambda m: turned(m.group(0), rows, {}), text)


def main(root):
    rows, lemmas = table(os.path.join(os.path.dirname(os.path.realpath(__file__)), "respell.tsv"))
    wrote = 0
    for folder, dirs, files in os.walk(root):
        dirs[:] = sorted(d for d in dirs if d not in (".git", "out", "target", "node_modules"))
        inside = os.path.relpath(folder, root).split(os.sep)[0] == "crates"
        for name in sorted(files):
            path = os.path.join(folder, name)
            kind = os.path.splitext(name)[1]
            if kind not in (".antt", ".rt", ".edit", ".md") or (kind != ".md" and not inside) or name.startswith("PORT"):
                continue
            text = open(path, encoding="utf-8").read()
            if kind == ".antt":
                new = "\n".join(line_of_code(line, "--", rows, lemmas) for line in text.split("\n"))
            elif kind == ".rt":
                new = of_rust(text, rows, lemmas)
            elif kind == ".edit":
                new = "\n".join(line_of_code(line, "#", rows, lemmas) for line in text.split("\n"))
            else:
                new = of_page(text, rows)
            if new != text:
                wrote += 1
                with open(path, "w", encoding="utf-8") as f:
                    f.write(new)
    print(f"respell: {wrote} files")


if __name__ == "__main__":
    main(sys.argv[1] if len(sys.argv) > 1 else ".")
