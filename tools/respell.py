#!/usr/bin/env python3
"""Brings the repository's own definitions and lemmas to today's spelling: types in upper camel case, all other words in
snake case, and in a lemma's name a dash only between two names.

usage: python3 tools/respell.py            in the repository, once, right after port.py
       python3 tools/respell.py --list     prints old and new names, and which of the new ones the files had already

Functions, strings and comments of src/ keep their text, and so does what the check names (goals, calls, loops).
"""

import collections
import glob
import re
import sys

NAME = r"[A-Za-z][\w'-]*(?:-(?:\+\+|[\w'])[\w'-]*)*"
TOKEN = re.compile(r"(?<![\w'\-])" + NAME + r"(?![\w'\-])|(?<![\w'\-])[a-z]+-\+\+")
GOAL = re.compile(r":\s*(goal|given|need)\.")
KNOWN = "length take drop append replicate map xor and mod shr number bytes bit".split()
FIXED = {}


def files(*kinds):
    return sorted(p for k in kinds for p in glob.glob(k, recursive=True))


def declared(path):
    """The names with a dash that a file declares: (name, mark, type)."""
    lines = open(path, encoding="utf-8").read().split("\n")
    for i, line in enumerate(lines):
        m = re.match(r"^(\s*)((?:(?:abbrev|unfoldable|data|record|pub)\s+)*)([^\s(){}:,;]+)\s+(.*)$", line)
        if not m or "-" not in m.group(3) or m.group(3).startswith("-") or m.group(3) == "--":
            continue
        rest = m.group(4)
        marked = m.group(2).split()
        if not re.match(r"^((\(|\{).*(\)|\})\s*)*:", rest) and "record" not in marked and "data" not in marked:
            continue
        if GOAL.search(rest):
            continue
        whole = rest
        j = i + 1
        while j < len(lines) and lines[j].startswith(" ") and not lines[j].strip().startswith("--") and not re.match(r"^\s+pub ", lines[j]):
            whole += " " + lines[j].strip()
            j += 1
        yield m.group(3), marked, whole, bool(m.group(1))


def is_type(marked, whole):
    if "record" in marked or "data" in marked:
        return True
    return bool(re.search(r"(→|:)\s*Type 0\s*$", whole.strip()))


def camel(name):
    return "".join(p[:1].upper() + p[1:] for p in name.split("-"))


def lemma(name, known):
    parts = name.split("-")
    segments, i = [], 0
    while i < len(parts):
        for j in range(len(parts), i, -1):
            word = "-".join(parts[i:j])
            if word != name and (word in known or word.replace("-", "_") in known):
                segments.append((word.replace("-", "_"), True))
                i = j
                break
        else:
            segments.append((parts[i], False))
            i += 1
    out = segments[0][0]
    for (_, before), (word, is_name) in zip(segments, segments[1:]):
        out += ("-" if before and is_name else "_") + word
    return out


def names():
    found = collections.OrderedDict()
    for path in files("crates/*/specs/**/*.antt", "crates/*/proofs/**/*.antt"):
        for name, marked, whole, inner in declared(path):
            found.setdefault(name, []).append((path, marked, whole, inner))
    known = set(KNOWN)
    for path in files("crates/*/specs/**/*.antt"):
        for line in open(path, encoding="utf-8"):
            m = re.match(r"^\s*(?:abbrev|unfoldable|data|record|pub)\s+(?:(?:abbrev|unfoldable|data|record|pub)\s+)*([^\s:(]+)", line)
            if m and m.group(1) not in ("mod",):
                known.add(m.group(1))
    made = {}
    for name, places in found.items():
        path, marked, whole, inner = places[0]
        if name in FIXED:
            made[name] = FIXED[name]
        elif is_type(marked, whole) and name[0].isupper():
            made[name] = camel(name)
        elif "abbrev" in marked or "unfoldable" in marked or inner:
            made[name] = name.replace("-", "_")
        else:
            made[name] = lemma(name, known)
    return found, made


def tokens(text):
    return {m.group(0) for m in TOKEN.finditer(text)}


def respell(text, made):
    def one(m):
        word = m.group(0)
        if word not in made:
            return word
        before = text[: m.start()]
        if re.search(r"(?<![\w'])(c|l|goal|given)\.(args\.|fn\.|initial\.)?$", before):
            return word
        return made[word]

    return TOKEN.sub(one, text)


def respell_source(text, made):
    """Only clauses and ghost items have such names; comments and strings keep theirs."""
    out = []
    for line in text.split("\n"):
        if line.lstrip().startswith("//"):
            out.append(line)
            continue
        pieces = re.split(r'("(?:[^"\\]|\\.)*"|//.*$)', line)
        out.append("".join(p if i % 2 else respell(p, made) for i, p in enumerate(pieces)))
    return "\n".join(out)


def main():
    found, made = names()
    made = {a: b for a, b in made.items() if a != b}
    sources = files("crates/*/src/**/*.rt")
    logic = files("crates/*/specs/**/*.antt", "crates/*/proofs/**/*.antt")
    if "--list" in sys.argv:
        had = collections.defaultdict(list)
        for p in sources + logic:
            for t in set(re.findall(r"(?<![\w'\-])[A-Za-z][\w'\-]*", open(p, encoding="utf-8").read())):
                had[t].append(p)
        backward = collections.defaultdict(list)
        for a, b in made.items():
            backward[b].append(a)
        for a, b in made.items():
            print(a, "->", b, "" if len(backward[b]) == 1 else f"TWICE {backward[b]}", f"HAD {had[b][:4]}" if b in had else "")
        return
    for p in logic + sources:
        text = open(p, encoding="utf-8").read()
        new = respell_source(text, made) if p.endswith(".rt") else respell(text, made)
        if new != text:
            open(p, "w", encoding="utf-8").write(new)


main()
