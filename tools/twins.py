#!/usr/bin/env python3
# Lists functions whose bodies read alike once names and numbers are blotted out: candidates for one generic function.
# Takes the folders to look in; none: crates.
import re
import sys
from collections import defaultdict
from pathlib import Path

KEYWORDS = "as break else enum false fn for if impl in let loop match mut return self Self struct true unwrap while Ok Err Some None".split()
TOKENS = re.compile(r'b?"(?:\\.|[^"\\])*"|b?\'(?:\\.|[^\'\\])\'|[A-Za-z_]\w*|\d\w*|\S')


def past_braces(text, start):
    depth = 0
    for at in range(start, len(text)):
        depth += {"{": 1, "}": -1}.get(text[at], 0)
        if depth == 0:
            return at + 1
    return len(text)


def body_of(text, start):
    """From the `fn` at start: its body, past the clauses, or none."""
    at = start
    while at < len(text):
        clause = re.compile(r"\b(?:requires|ensures)\b[^{;]*").match(text, at)
        if clause:
            at = past_braces(text, clause.end())
        elif text[at] == "{":
            return text[at:past_braces(text, at)]
        elif text[at] == ";" and "[" not in text[start:at].rsplit(")", 1)[-1]:
            return None
        else:
            at += 1
    return None


def blotted(body):
    def blot(token):
        if token[0] in "\"'" or token[:2] in ('b"', "b'"):
            return '""'
        if token[0].isdigit():
            return "0"
        if re.match(r"[A-Za-z_]", token) and token not in KEYWORDS:
            return "x"
        return token

    return " ".join(blot(token) for token in TOKENS.findall(re.sub(r"//.*", "", body)))


def main():
    groups = defaultdict(list)
    for folder in sys.argv[1:] or ["crates"]:
        for path in sorted(Path(folder).glob("*/src/**/*.rt")):
            text = path.read_text()
            for found in re.finditer(r"\bfn (\w+)", text):
                body = body_of(text, found.start())
                shape = blotted(body) if body else ""
                if shape.count(" ") > 4:
                    groups[shape].append(f"{path}: {found.group(1)}")
    for shape, places in sorted(groups.items()):
        if len(places) > 1:
            print("\n  ".join([shape[:100]] + places))


main()
