#!/usr/bin/env python3
"""Lists functions of src/ that are alike but for names, numbers and types.

usage: tools/twins.py [TOP]     TOP is a checkout, this one if none is given

A function is its body as a list of marks: a keyword and a sign stand for themselves, every other word for 'x'. Bodies of at least 24
marks that agree in 17 of 20 are a group. A line for each group, and how many there are. It changes nothing; what is alike by chance is
for the reader to tell.
"""
import difflib
import glob
import re
import sys

KEYWORDS = {"if", "else", "while", "for", "loop", "match", "return", "let", "mut", "in", "as"}
LEAST = 24
ALIKE = 0.85
HEAD = re.compile(r'(?m)^( *)(?:pub )?(?:const )?(?:extern "C" )?fn (\w+)')


def marks_of(function, indent):
    """The marks of a function's body, what stands behind its clauses."""
    lines = function.split("\n")
    start = next((k for k, line in enumerate(lines) if line == indent + "{" or line.endswith(" {")), 0)
    words = re.findall(r"[A-Za-z_]\w*|\d\w*|[^\s\w]", "\n".join(lines[start + 1 : -1]))
    return [w if w in KEYWORDS or not (w[0].isalnum() or w[0] == "_") else "x" for w in words]


def functions(top):
    for path in sorted(glob.glob(top + "/crates/*/src/*.rt")):
        text = open(path, encoding="utf-8").read()
        for head in HEAD.finditer(text):
            end = re.compile(r"(?m)^" + head.group(1) + r"\}").search(text, head.end())
            if end:
                marks = marks_of(text[head.start() : end.end()], head.group(1))
                if len(marks) >= LEAST:
                    yield path[len(top) + len("/crates/") :] + "::" + head.group(2), marks


def alike(a, b):
    if 4 * abs(len(a) - len(b)) > len(a) + len(b):
        return False
    return difflib.SequenceMatcher(None, a, b, autojunk=False).ratio() >= ALIKE


def main():
    top = sys.argv[1] if len(sys.argv) > 1 else "."
    left = list(functions(top))
    total = len(left)
    groups = []
    while left:
        name, marks = left.pop(0)
        group = [name] + [n for n, m in left if alike(marks, m)]
        left = [(n, m) for n, m in left if n not in group]
        if len(group) > 1:
            groups.append(group)
    for group in groups:
        print(len(group), *group)
    print(len(groups), "groups,", sum(map(len, groups)), "functions of", total)


main()
