#!/usr/bin/env python3
"""Brings the repository's own definitions and lemmas to snake case: a dash in a name becomes an underscore.

usage: python3 tools/respell.py          at the top of a repository that port.py has turned; rewrites the files of crates/ in place
       python3 tools/respell.py --list   only says which names it would turn, and which would fall together

A name is ours where a file of specs/ or proofs/ declares it (a definition, a lemma, a field, a local name). Left as they are:
names that a file brings in from a library, the goals that a proof answers, and texts between quotes.
"""

import os
import re
import sys

PART = r"[\w'\u2080-\u2089]"
NAME = r"[^\W\d]" + PART + r"*(?:-" + PART + r"+)+"
DECLARED = re.compile(r"^\s*(?:(?:pub|abbrev|unfoldable|data|record)\s+)*(" + NAME + r")\s*:(?!=)(.*)$")
BOUND = re.compile(r"\blet\s+(" + NAME + r")\s*[:=]|\((" + NAME + r")(?:\s+[\w'-]+)*\s*:")
ANSWER = re.compile(r"\s*(goal|needs|choice|given)\.")
LIBRARY = re.compile(r"use\s+([\w.]+)\.\{([^}]*)\}")
TOKEN = re.compile(r'"(?:[^"\\]|\\.)*"|//[^\n]*|(?<![\w\'\u2080-\u2089-])' + NAME + r"(?![\w'\u2080-\u2089-])")
PLAIN = re.compile(r"(?<![\w'-])[^\W\d]" + PART + r"*(?![\w'-])")


def files(kinds):
    for folder, dirs, names in os.walk("crates"):
        dirs[:] = sorted(d for d in dirs if d != "out")
        for name in sorted(names):
            if name.endswith(kinds):
                path = os.path.join(folder, name)
                with open(path, encoding="utf-8") as f:
                    yield path, f.read()


def own_crates():
    return {d for d in os.listdir("crates") if os.path.isdir(os.path.join("crates", d))}


def names():
    """The names to turn: declared here, and brought in from no library by any file."""
    declared, foreign, own = set(), set(), own_crates()
    for path, text in files((".antt", ".rt")):
        for where, what in LIBRARY.findall(text):
            parts = where.split(".")
            if not (parts[0] == "Rattle" and len(parts) > 1 and parts[1] in own):
                foreign |= {w.strip() for w in what.split(",")}
        if not path.endswith(".antt"):
            continue
        for line in text.splitlines():
            m = DECLARED.match(line)
            if m and not ANSWER.match(m.group(2)):
                declared.add(m.group(1))
            for m in BOUND.finditer(line):
                declared.add(m.group(1) or m.group(2))
    return declared - foreign, declared & foreign


def snake(name):
    return name.replace("getD-", "get_or-").replace("-", "_")


def main():
    turned, kept = names()
    plain = {}
    for path, text in files((".antt", ".rt")):
        for m in PLAIN.finditer(text):
            plain.setdefault(m.group(0), set()).add(path)
    for name in sorted(turned):
        if snake(name) in plain:
            print(f"look: {name} becomes {snake(name)}, which stands in {', '.join(sorted(plain[snake(name)])[:4])}")
    print("kept, since a library has the name:", ", ".join(sorted(kept)))
    print(f"{len(turned)} names")
    if "--list" in sys.argv:
        return
    for path, text in files((".antt", ".rt")):
        if path.endswith("field/specs/Gf256.antt"):
            # two spellings of one library word, which port.py leaves
            text = re.sub(r"\bbit-xor\b|\bbitXor\b", "bit_xor", text)
        new = TOKEN.sub(lambda m: snake(m.group(0)) if m.group(0) in turned else m.group(0), text)
        if new != text:
            with open(path, "w", encoding="utf-8") as f:
                f.write(new)


main()
