#!/usr/bin/env python3
"""Brings this repository's own definitions and lemmas to today's spelling: words in snake case, primes as apostrophes.

usage: python3 tools/respell.py        at the top of the repository, once, straight after the kit's port.py

    recordCount, codeOf, each-itemsOf, every-line   ->   record_count, code_of, each-items_of, every_line

It takes every name that an .antt file of specs/ or proofs/ declares. A dash stays where it joins two names (both sides are
definitions, or one begins with a capital), as in length-octets_of; elsewhere it is an underscore. Types and modules keep their
capitals; functions, types and fields of src/, exported C names and strings keep their names. A new spelling that stands somewhere
already is not given: a line 'kept:' names it. In comments, pages and other files only names with a capital inside are turned.
It goes by spelling and proves nothing: rt check decides. A second run changes nothing.
"""

import collections
import glob
import os
import re
import sys

PART = r"[^\s(){}.;,@\"«»\[\]\\`]+"
WORD = re.compile(PART)
DECLARED = re.compile(
    r"^\s*(?:(?:unfoldable|abbrev|pub|data|record|ruleset)\s+)*(" + PART + r"(?: " + PART + r")*)(?=(?:\s+[({][^=]*)?\s+:\s|\s+:$)"
)
CAMEL = re.compile(r"[a-z][A-Za-z0-9]*[A-Z]")
# Names of std and of the logic that lemma names are joined from.
STD = set(
    "length append drop take map reverse get_or get set cons nil none some suc zero sum concat cond true false add mul sub mod div".split()
)
OURS = [os.path.basename(c) for c in glob.glob("crates/*")]
# A spelling that a name has to take because the plain one is taken, and names that are not ours to turn.
EXCEPT = {}


def read(path):
    with open(path, encoding="utf-8") as f:
        return f.read()


def snake(name):
    """recordCount -> record_count; p1Items -> p1_items; lineUpTo9 -> line_up_to9; axi3 stays."""
    out = re.sub(r"(?<=[a-z0-9])([A-Z])(?=[a-z0-9]|$)", lambda m: "_" + m.group(1).lower(), name)
    return re.sub(r"(?<=[a-z0-9])([A-Z]+)", lambda m: "_" + m.group(1).lower(), out)


def turned(part):
    return snake(part) if part[:1].islower() else part


def spelled(name, names):
    name = name.replace("′", "'")
    parts = name.split("-")
    if any(not p for p in parts):
        return name
    out = turned(parts[0])
    # the longest run of words on the left of a dash counts as a name too, as first_finding in first_finding-none
    for left, right in zip(parts, parts[1:]):
        joins = left in names and right in names or left[:1].isupper() or right[:1].isupper()
        out += ("-" if joins else "_") + turned(right)
    return out


def proof_of_function(path):
    """Whether a file is the proof of a function, in a folder of its name below proofs/: what it declares is its own."""
    return "/proofs/" in path and path.count("/") > 3


def files():
    return sorted(p for p in glob.glob("crates/*/**/*", recursive=True) if p.endswith((".antt", ".rt")) and "/out/" not in p)


def code_and_comment(line, mark):
    """Splits a line at the comment that it ends in."""
    at = 0
    while True:
        at = line.find(mark, at)
        if at < 0:
            return line, ""
        if at == 0 or line[at - 1].isspace():
            return line[:at], line[at:]
        at += len(mark)


def bare(code):
    """The words that stand by themselves, not in a path."""
    return {m.group() for m in WORD.finditer(code) if code[m.start() - 1 : m.start()] != "." and code[m.end() : m.end() + 1] != "."}


def table():
    declared, all_words, fields = collections.Counter(), set(), set()
    for path in files():
        text = read(path)
        mark = "--" if path.endswith(".antt") else "//"
        for line in text.splitlines():
            code, _ = code_and_comment(line, mark)
            all_words.update(WORD.findall(code))
        if path.endswith(".antt") and not proof_of_function(path):
            for line in text.splitlines():
                m = DECLARED.match(line)
                if m:
                    declared.update(m.group(1).split(" "))
    # what comes from a library keeps its name
    for path in files():
        for items in re.findall(r"use (?!Rattle\.(?:" + "|".join(OURS) + r")\.)[\w.'-]+\.\{([^}]*)\}", read(path)):
            for item in re.split(r",\s*", items):
                declared.pop(item.split(" as ")[0].strip(), None)
    defined = set()
    for path in files():
        if path.endswith(".antt") and "/specs/" in path:
            for line in read(path).splitlines():
                m = DECLARED.match(line)
                if m:
                    defined.update(m.group(1).split(" "))
    names = defined | STD
    turn, kept = {}, []
    for name in sorted(declared):
        new = EXCEPT.get(name) or spelled(name, names)
        if new != name:
            turn[name] = new
    # no two names may fall together in one file, nor may one fall on a word that stands there by itself
    back = collections.defaultdict(list)
    for name, new in turn.items():
        back[new].append(name)
    clash, lemmas = set(), {}
    for path in files():
        words, own = set(), set()
        for line in read(path).splitlines():
            code, _ = code_and_comment(line, "--" if path.endswith(".antt") else "//")
            words.update(bare(code))
            if path.endswith(".rt"):
                own.update(re.findall(r"(\w+): ", code))
        for word in words & turn.keys():
            new = turn[word]
            if path.endswith(".rt") and new in own or path.endswith(".antt") and new in words:
                clash.add((word, new, path.split("/")[1]))
            for other in back[new]:
                if other != word and other in words:
                    clash.add((max(word, other, key=lambda n: "-" in n), new, path.split("/")[1]))
    for old, new, crate in sorted(clash):
        if old not in turn or turn[old] != new:
            continue
        mild = "-".join(turned(p) for p in old.replace("′", "'").split("-"))
        if "-" in old and mild not in back:
            turn[old] = mild
            if mild == old:
                del turn[old]
            kept.append((old, new))
        else:
            # the definition takes the spelling, and the lemma of that name gets CONTRACT_STYLE's `_lem`
            for path in files():
                if path.startswith(f"crates/{crate}/proofs/") and path.endswith(".antt") and new in bare(read(path)):
                    lemmas.setdefault(crate, set()).add(new)
    return turn, kept, lemmas


def respell_code(text, turn, in_proof, lemmas=()):
    def one(m):
        word = m.group()
        at = m.start()
        if word in lemmas and text[at - 1 : at] != "." and text[m.end() : m.end() + 1] != ".":
            return word + "_lem"
        if in_proof and "-" in word and text[at - 1 : at] == "." and not text[: at - 1].endswith("Rattle"):
            return word
        if in_proof and text[at - 4 : at] == "tie.":
            return word
        return turn.get(word, word)

    return WORD.sub(one, text)


def respell_prose(text, turn):
    """In comments and pages: names with a capital inside, and any name in backticks."""

    def one(m):
        word = m.group()
        return turn.get(word, word) if CAMEL.match(word) or "-" in word and CAMEL.search(word) else word

    def quoted(m):
        return WORD.sub(lambda w: turn.get(w.group(), w.group()), m.group())

    return re.sub(r"`[^`\n]*`", quoted, WORD.sub(one, text))


def respell(path, turn, lemmas):
    text = read(path)
    if path.endswith(".antt") or path.endswith(".rt"):
        mark = "--" if path.endswith(".antt") else "//"
        out = []
        for line in text.split("\n"):
            code, comment = code_and_comment(line, mark)
            if path.endswith(".rt"):
                code = respell_clause(code, turn)
            else:
                code = respell_code(code, turn, proof_of_function(path), lemmas.get(path.split("/")[1], ()) if "/proofs/" in path else ())
            out.append(code + respell_prose(comment, turn))
        new = "\n".join(out)
    else:
        new = respell_prose(text, turn)
    if new != text:
        with open(path, "w", encoding="utf-8") as f:
            f.write(new)
        return 1
    return 0


def respell_clause(code, turn):
    """In src/: only names with a capital inside or a dash, which are never names of the code; no text in quotes."""
    parts = re.split(r'("(?:[^"\\]|\\.)*")', code)
    for i in range(0, len(parts), 2):
        parts[i] = WORD.sub(lambda m: turn.get(m.group(), m.group()), parts[i])
    return "".join(parts)


def main():
    if not os.path.isdir("crates"):
        sys.exit("run it at the top of the repository")
    turn, kept, lemmas = table()
    n = sum(respell(p, turn, lemmas) for p in files())
    for old, new in kept:
        print(f"kept: {old}, since {new} stands already")
    for crate in sorted(lemmas):
        print(f"lemmas of {crate}: " + ", ".join(f"{it} is {it}_lem" for it in sorted(lemmas[crate])))
    print(f"respelled: {len(turn)} names in {n} files")
    if "--table" in sys.argv:
        for old in sorted(turn):
            print(old, turn[old])


if __name__ == "__main__":
    main()
