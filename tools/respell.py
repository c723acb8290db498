#!/usr/bin/env python3
"""Gives the definitions and lemmas of this repository the spelling of today's Rattle: words in snake case.

usage: tools/respell.py        at the top of a repository that the kit's port.py has just turned; once

tools/spelling.tsv has a row for each name, old and new. Two names that would fall together have the ending `_lem` (a lemma), `_case`
(a constructor) or `_holds` (a field) in one of them. Names of Rattle source, of the kit's libraries and of what the check makes stay, and
so do the numbers that document 01 names in words (Idle, BoardAvailable, ..) and those of src/ (LARGEST, ..).
It rewrites specs/, proofs/, the clauses and `ghost use` lines of src/, and code spans in the pages.
"""

import os
import re
import sys

HERE = os.path.dirname(os.path.realpath(__file__))
WORD = re.compile(r"[^\s(){}.;,@\"«»`\[\]]+")
TABLE = dict(line.rstrip("\n").split("\t") for line in open(os.path.join(HERE, "spelling.tsv"), encoding="utf-8"))
CAMEL = {old: new for old, new in TABLE.items() if re.search(r"[a-z0-9][A-Z]", old)}


def functions():
    """The names of the source's functions: a step of a proof that the check makes may be called so."""
    found = set()
    for folder, dirs, files in os.walk("crates"):
        dirs[:] = [d for d in dirs if d != "out"]
        for f in files:
            if f.endswith(".rt"):
                found |= set(re.findall(r"\bfn (\w+)", open(os.path.join(folder, f), encoding="utf-8").read()))
    return found


def turned(line, table, made=None):
    """The line with each word of the table respelled; not behind a dot where the word is a step's (`made`: names of functions)."""

    def word(m):
        w = m.group(0)
        if "◌" in w:
            return "◌".join(table.get(part, part) for part in w.split("◌"))
        if w not in table:
            return w
        before = line[: m.start()]
        if made is not None and before.endswith("."):
            head = re.search(r"([^\s(){};,@\".]*)\.$", before).group(1)
            if head in ("c", "before", "b", "w") and w.replace("-", "_") in made:
                return w
        return table[w]

    return WORD.sub(word, line)


def antt(text, step, made):
    words = set(WORD.findall(re.sub(r"(?m)(?:^|\s)--.*$", "", text)))
    out = []
    for line in text.split("\n"):
        m = re.search(r"(?:^|(?<=\s))--.*$", line)
        code, comment = (line[: m.start()], line[m.start() :]) if m else (line, "")
        strings = re.split(r'("(?:\\.|[^"\\])*")', code)
        code = "".join(s if i % 2 else turned(s, TABLE, made if step else None) for i, s in enumerate(strings))
        seen = {old: new for old, new in TABLE.items() if old in CAMEL or old in words}
        out.append(code + turned(comment, seen))
    return "\n".join(out)


def rt(text):
    out = []
    clause = 0
    for line in text.split("\n"):
        if re.match(r"\s*(ghost use|ghost|requires|ensures)\b", line) or clause > 0:
            code, slashes, comment = line.partition("//")
            line = turned(code, TABLE) + slashes + turned(comment, CAMEL)
            clause += code.count("{") - code.count("}")
        elif line.lstrip().startswith("//"):
            line = turned(line, CAMEL)
        out.append(line)
    return "\n".join(out)


def page(text):
    return re.sub(r"`[^`\n]+`", lambda m: turned(m.group(0), TABLE), text)


def main():
    if not os.path.isdir("crates"):
        sys.exit("respell: run it at the top of the repository")
    made = functions()
    for folder, dirs, files in os.walk("."):
        dirs[:] = sorted(d for d in dirs if d not in ("out", ".git", "target", "must-fail", "data", "tools"))
        for f in sorted(files):
            path = os.path.join(folder, f)
            parts = path.split(os.sep)
            if f.endswith(".antt"):
                turn = lambda t: antt(t, parts[3] == "proofs" and len(parts) > 5, made)
            elif f.endswith(".rt"):
                turn = rt
            elif f.endswith(".md") and (parts[1] == "docs" or len(parts) == 2):
                turn = page
            else:
                continue
            old = open(path, encoding="utf-8").read()
            new = turn(old)
            if new != old:
                open(path, "w", encoding="utf-8").write(new)


main()
