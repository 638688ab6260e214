#!/usr/bin/env python3
"""Lists the places in src/ that docs/DESIGN-PASS.md counts, point by point, by patterns alone.

    tools/places.py            of the files as they stand
    tools/places.py COMMIT     of that commit
    tools/places.py -c ..      counts alone

A pattern finds what looks like a place; what a find really is, the page says.
"""
import collections
import glob
import re
import subprocess
import sys

# point, what is counted, pattern of a line
LINES = [
    ("1", "variants of own enums that say none or refused", r"^\s*(Not|Nobody|Nothing|Missing|Refused\(usize\)),?$"),
    ("1", "flags and refusals with a value beside them", r"^\s*(pub )?(found|whole|fit|refusal|ok|valid|present): (bool|usize),"),
    ("1", "constants that number refusals, kinds, forms or offices", r"^(pub )?const (\w+): (usize|u8) = \d+;$"),
    ("1", "functions that take or give a refusal by its number", r"^(pub )?fn (\w*refus\w*|lost_leader|one_to|conclude|put_refusal)\(.*(usize)"),
    ("1", "kinds and forms as numbers", r"\b(kind|form): usize\b"),
    ("1", "0 for none, by its comment", r"^\s*// .*(\bor 0\b|\b0 where\b|segment 0 is none|or 0 and 0)"),
    ("2", "helpers that the library has for every type", r"^(pub )?fn (smaller|larger|greater|above|one_more|within_window|line_count|within)\("),
    ("3", "while and loop", r"^\s*('\w+: )?(while|loop)\b"),
    ("3", "for over a range of numbers", r"^\s*('\w+: )?for \w+ in .*\.\."),
    ("4", "equality, conversion and copying by hand", r"^(pub )?fn (same|same_word|number|console_of|is_office|head|float_of|put|put_run)\("),
    ("5", "states that go in by value", r"^(pub )?fn \w+\((\w+): (rules::)?(District|Unit|Office|Station|Desk|Queues|Queue|Window|Console)\b"),
    ("6", "a count or a length beside a buffer", r"^\s*(pub )?(count|length|next): usize,$"),
    ("7", "a kind that says which test to run", r"\bfn \w+\((kind|takes|which): \w+"),
]
# constants that number nothing of point 1
NUMBERLESS = re.compile(
    r"(MOST|COUNT|PLACES|PER_|BYTES|LONGEST|LINES|BLANK|POINT|FEED|DIGIT|ROWS|WORDS|COLUMNS|SIZE|LETTERS|WIDTH|LENGTH|GAINS|MINIMA|TRAFFIC|ENVIRONMENT|BARS|RATINGS|FIRST_)"
)


def sources(commit):
    if commit:
        names = subprocess.run(["git", "ls-tree", "-r", "--name-only", commit, "crates"], capture_output=True, text=True, check=True).stdout.split()
        for name in sorted(n for n in names if re.fullmatch(r"crates/\w+/src/.*\.rt", n)):
            yield name, subprocess.run(["git", "show", f"{commit}:{name}"], capture_output=True, text=True, check=True).stdout
    else:
        for name in sorted(glob.glob("crates/*/src/**/*.rt", recursive=True)):
            yield name, open(name).read()


def main():
    words = sys.argv[1:]
    brief = "-c" in words
    words = [w for w in words if w != "-c"]
    files = list(sources(words[0] if words else None))
    for point, what, pattern in LINES:
        finds = []
        for name, text in files:
            for at, line in enumerate(text.split("\n"), 1):
                m = re.search(pattern, line)
                if m and not (what.startswith("constants") and not name.endswith("refusals.rt") and NUMBERLESS.search(m.group(2))):
                    finds.append(f"{name}:{at}: {line.strip()}")
        print(f"point {point}: {what}: {len(finds)}")
        if not brief:
            for f in finds:
                print("    " + f)
    facts, wide = collections.Counter(), []
    for name, text in files:
        for m in re.finditer(r"fn (\w+)[^{]*?\n((?:\s+(?:requires|ensures)[^\n]*\n)+)", text):
            heads = set()
            for line in m.group(2).split("\n"):
                if "requires" in line:
                    for part in re.split("×", line[line.index("{") + 1 :]):
                        w = re.match(r"\s*\(*\s*([A-Z]\w+)", part)
                        if w:
                            heads.add(w.group(1))
            facts.update(heads)
        for m in re.finditer(r"fn (\w+)(?:<[^>]*>)?\(([^)]*)\)", text):
            if len([p for p in m.group(2).split(",") if ":" in p]) >= 6:
                wide.append(f"{name}: {m.group(1)}")
    often = [(n, f) for f, n in facts.most_common() if n >= 3]
    print(f"point 5: facts that three functions or more require: {len(often)}")
    if not brief:
        for n, f in often:
            print(f"    {f}: {n}")
    print(f"point 5: functions of six parameters or more: {len(wide)}")
    if not brief:
        for w in wide:
            print("    " + w)


main()
