#!/usr/bin/env python3
"""Gives the definitions and lemmas of this repository the spelling of the library: snake case, and upper camel case for types.

usage: python3 tools/respell.py [--check]    at the top of the repository, after port.py

A name turns where a file of specs/ or proofs/ declares it with a dash or a capital inside, wherever it stands in the text of specs/, proofs/ and src/.
What Rattle makes keeps its name: a goal, an invariant, a measure, and every label behind a dot that is no field of a record declared here. So do comments, strings and the functions of src/.
Places where a name falls together with another are shown, to be looked at: a function of src/ may have the name of the definition that says what it returns.
"""

import collections
import glob
import os
import re
import sys

WORD = re.compile(r"[^\s(){}.;,@\"«»⌜⌝]+")
DECLARED = re.compile(r"^(\s*)(?:(?:abbrev|pub|unfoldable|data|record)\s+)*([^\s(){}.;,@\"«»]+)((?:\s+[({][^(){}]*(?:\([^()]*\)[^(){}]*)*[)}])*)\s*:\s*(.*)$")


def files(pattern):
    return sorted(p for p in glob.glob(pattern, recursive=True) if "/out/" not in p)


def spelled(name):
    if name[0].isupper():
        return "".join(part[:1].upper() + part[1:] for part in name.split("-"))
    name = re.sub(r"(?<=[a-z0-9])[A-Z]", lambda m: "_" + m[0].lower(), name)
    return name.replace("-", "_")


def declared():
    names, fields = {}, set()
    for path in files("crates/*/specs/**/*.antt") + files("crates/*/proofs/**/*.antt"):
        inside = False
        for line in open(path, encoding="utf-8"):
            if re.match(r"\s*(pub )?(record|data) ", line):
                inside = True
            elif line.strip() and not line.startswith(" "):
                inside = False
            m = DECLARED.match(line.rstrip("\n"))
            if not m or m[4].startswith("goal.") or m[4].startswith("goal ") or m[2] in ("let", "λ"):
                continue
            new = spelled(m[2])
            if new != m[2]:
                names[m[2]] = new
                if inside and m[1]:
                    fields.add(m[2])
    return names, fields


def turned(text, names, fields, rust):
    """The text with each of the names turned, but for comments, strings and labels behind a dot."""
    out = []
    for line in text.split("\n"):
        mark = "//" if rust else "--"
        at = re.search(r"(?<!\S)" + mark, line)
        code, rest = (line[: at.start()], line[at.start():]) if at else (line, "")
        parts = re.split(r'("(?:[^"\\]|\\.)*")', code)
        for k in range(0, len(parts), 2):
            def one(m):
                word = m[0]
                behind = m.start() > 0 and m.string[m.start() - 1] == "."
                if word not in names or behind and word not in fields:
                    return word
                return names[word]
            parts[k] = WORD.sub(one, parts[k])
        out.append("".join(parts) + rest)
    return "\n".join(out)


def words(text):
    found = set()
    for line in text.split("\n"):
        found.update(WORD.findall(re.split(r"(?<!\S)(?://|--)", line)[0]))
    return found


def main(check):
    names, fields = declared()
    paths = files("crates/*/specs/**/*.antt") + files("crates/*/proofs/**/*.antt") + files("crates/*/src/**/*.rt")
    met = collections.defaultdict(set)
    for old, new in names.items():
        met[new].add(old)
    texts = {p: open(p, encoding="utf-8").read() for p in paths}
    together = 0
    for p in paths:
        here = words(texts[p])
        for new, olds in met.items():
            both = sorted(o for o in olds if o in here) + [new] * (new in here)
            if len(both) > 1 or (p.endswith(".antt") and new in here):
                print(f"together: {p}: {new}: {', '.join(both)}")
                together += 1
    print(f"{len(names)} names to turn, {together} places to look at")
    if check:
        return 0
    for p in paths:
        new = turned(texts[p], names, fields, p.endswith(".rt"))
        if new != texts[p]:
            with open(p, "w", encoding="utf-8") as f:
                f.write(new)
    return 0


if __name__ == "__main__":
    raise SystemExit(main("--check" in sys.argv))
