#!/usr/bin/env python3
"""respell.py: gives the repository's own definitions and lemmas the spelling of today's Rattle. Run once, at the top, right after port.py.

Words are in snake case: `segmentsOf` becomes `segments_of`, and the lemma `best-le` becomes `best_le`. Types and modules keep their camel case.
What is renamed: each name that a file of specs/ or a lemma file of proofs/ (one that is not in a function's folder) declares, wherever it is cited:
in specs/, proofs/, the clauses of src/, must-fail/, tried/, README.md and docs/. Names that Rattle makes (goals, steps, fields of `c`) stay.
Where a lemma would fall together with another name, it gets `_lem`. With --list it prints the renamings and changes nothing.
"""
import os
import re
import sys

IDENT = re.compile(r"[^\s(){},;.\[\]«»\"`]+")
CAMEL = re.compile(r"(?<![\w'-])[a-z][a-z0-9]*(?:[A-Z][a-z0-9]*)+(?![\w])")
DECLARED = re.compile(r"\s*(?:(?:unfoldable|abbrev|pub|record|data|ruleset)\s+)*([A-Za-z_][^\s(){},;.:]*)(?:\s*\{[^}]*\})*\s*(?::|=|where)")
FUNCTION = re.compile(r"/proofs/[^/]+/")


def text_of(path):
    with open(path, encoding="utf-8") as f:
        return f.read()


def files(*ends):
    for folder, dirs, names in os.walk("crates"):
        dirs[:] = sorted(d for d in dirs if d != "out")
        for name in sorted(names):
            if name.endswith(ends):
                yield os.path.join(folder, name)


def pages():
    yield "README.md"
    for folder, dirs, names in os.walk("docs"):
        for name in sorted(names):
            if name.endswith(".md"):
                yield os.path.join(folder, name)


def edits():
    for top in ("crates", "tried"):
        for folder, dirs, names in os.walk(top):
            dirs[:] = sorted(d for d in dirs if d != "out")
            for name in sorted(names):
                if name.endswith(".edit"):
                    yield os.path.join(folder, name)


def snake(word):
    return re.sub(r"[A-Z]", lambda m: "_" + m[0].lower(), word)


def no_comment(line):
    return "" if line.lstrip().startswith("--") else line


def declared(text):
    for line in text.split("\n"):
        m = DECLARED.match(no_comment(line))
        if m:
            yield m[1]


def renamings():
    every = {w for p in files(".antt") if not FUNCTION.search(p) for w in declared(text_of(p))}
    camel = {w: snake(w) for w in every if CAMEL.fullmatch(w)}
    dashed = {w: w.replace("-", "_") for w in every if "-" in w and re.match(r"[a-z]", w) and not CAMEL.search(w)}
    mixed = {w: snake(w).replace("-", "_") for w in every if "-" in w and re.match(r"[a-z]", w) and CAMEL.search(w)}
    taken = {w for w in every if "-" not in w and w not in camel} | set(camel.values())
    table = dict(camel)
    for w, new in sorted({**dashed, **mixed}.items()):
        table[w] = new + "_lem" if new in taken else new
    return table


def turn(line, table, here=None):
    """One line of antt. In a function's folder, the names of `here` (the goals it answers) and the fields of `c` stay."""

    def put(m):
        word = m[0]
        if word in (here or ()) or (here is not None and m.start() and line[m.start() - 1] == "." and not line.startswith("use ")):
            return CAMEL.sub(lambda k: snake(k[0]), word) if CAMEL.fullmatch(word) else word
        if word in table:
            return table[word]
        return snake(word) if CAMEL.fullmatch(word) else word

    return IDENT.sub(put, line)


def turn_antt(path, table):
    text = text_of(path)
    here = None
    if FUNCTION.search(path):
        here = frozenset(re.findall(r"^(?:abbrev )?(?:pub )?([^\s:({]+)(?: \{[^}]*\})* :", text, re.M))
    return "\n".join(turn(line, table, here) for line in text.split("\n"))


def turn_rt(text):
    """Only camel case occurs in clauses; the code itself has none outside its strings."""
    out = []
    for part in re.split(r'(b?"(?:[^"\\]|\\.)*"|b?\'(?:[^\'\\]|\\.)\')', text):
        out.append(part if re.match(r"b?[\"']", part) else CAMEL.sub(lambda m: snake(m[0]), part))
    return "".join(out)


def turn_page(text, table):
    """Names between grave accents, but for program text and paths of files that keep their names."""

    def put(m):
        return m[1] + re.sub(r"[A-Za-z][\w'-]*", lambda w: table.get(w[0], snake(w[0]) if CAMEL.fullmatch(w[0]) else w[0]), m[2]) + m[1]

    return re.sub(r"(`)([^`\n]+)`", put, text)


def turn_edit(text, table):
    lines = []
    antt = False
    for line in text.split("\n"):
        if line.startswith("file: "):
            antt = line.rstrip().endswith(".antt")
        elif line.startswith(("old: ", "new: ")):
            line = line[:5] + (turn(line[5:], table) if antt else turn_rt(line[5:]))
        lines.append(line)
    return "\n".join(lines)


def write(path, text):
    if text != text_of(path):
        with open(path, "w", encoding="utf-8") as f:
            f.write(text)


def main():
    table = renamings()
    if "--list" in sys.argv[1:]:
        for old, new in sorted(table.items()):
            print(old, new)
        return
    turned = {}
    for path in files(".antt"):
        turned[path] = turn_antt(path, table)
    for path in files(".rt"):
        turned[path] = turn_rt(text_of(path))
    for path in pages():
        turned[path] = turn_page(text_of(path), table)
    for path in edits():
        turned[path] = turn_edit(text_of(path), table)
    for path, text in turned.items():
        write(path, text)


main()
