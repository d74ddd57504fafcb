#!/usr/bin/env python3
"""Brings the repository's own names in specs/ and proofs/ to one spelling: facts and types in camel case, everything else in snake case.

usage: python3 tools/respell.py [--list]      at the top of a checkout, once, right after /opt/rattle/port/port.py

A name of ours is one that a file of specs/ or proofs/ defines: a definition, a lemma, a field of a record, a constructor. Names of goals and
invariants keep their spelling, since the toolchain makes them, and so do functions of src/, strings and what a file imports from a library.
The names change in specs/ and proofs/, in the clauses of src/, and between backticks in README.md and docs/. With --list it writes nothing, and
prints each name with its new spelling; a name whose new spelling is taken already is printed as a clash, and keeps its own.
"""

import os
import re
import sys

WORD = r"[^\s(){}\[\].,;:=→λ∷×≡↦|\"`]+"
SIGNATURE = re.compile(r"^\s*(?:abbrev\s+|unfoldable\s+)?(?:pub\s+)?(" + WORD + r")\s*(?:[({].*)?:(?:\s|$)(.*)$")
TYPE = re.compile(r"^\s*(?:pub\s+)?(?:data|record)\s+(" + WORD + r")")
# names whose new spelling a function of src/ or a module has too, which no clause can mean
BESIDE_A_FUNCTION = {"alike-stays", "board-duty", "first-comparable", "has-enough", "is-weighty", "leading-core", "liar-yard", "meets-all", "none-shared"}
# a record whose new spelling would be a variant's
OTHERWISE = {"None-shared": "NothingShared"}
LIBRARIES = re.compile(r"^\s*(?:ghost\s+|pub\s+)?use\s+(Rattle\.std\b|mathlib\b|native\b|lib\b|Prim\b|denote\b|borrow\b|sem\b)")


def files(top):
    for folder, dirs, names in os.walk(os.path.join(top, "crates")):
        dirs[:] = sorted(d for d in dirs if d != "out")
        for name in sorted(names):
            if name.endswith((".antt", ".rt")):
                yield os.path.join(folder, name)


def read(path):
    with open(path, encoding="utf-8") as f:
        return f.read()


def code(line):
    return line.split("--", 1)[0] if line.lstrip().startswith("--") else line


def defined(top):
    """The names that specs/ and proofs/ define, each with whether it is a type or a fact."""
    found = {}
    for path in files(top):
        if not path.endswith(".antt"):
            continue
        lines = read(path).split("\n")
        for at, line in enumerate(lines):
            if line.lstrip().startswith("--"):
                continue
            kind = TYPE.match(line)
            if kind:
                found[kind.group(1)] = True
                continue
            signature = SIGNATURE.match(line)
            if not signature or " goal." in line.replace("→", " ") or re.match(r"\s*(use|let|in|elim|rw|simp)\b", line):
                continue
            said = signature.group(2).strip()
            follow = at + 1
            while not said and follow < len(lines):
                said = lines[follow].strip()
                follow += 1
            if said.startswith("goal."):
                continue
            name = signature.group(1)
            found[name] = found.get(name, False) or bool(re.search(r"(^|→ ?)Type [01]$", said))
    return found


def camel(name):
    parts = [p for p in name.split("-") if p]
    return parts[0][:1].upper() + parts[0][1:] + "".join(p[:1].upper() + p[1:] for p in parts[1:])


def respelled(name, is_type):
    name = name.replace("′", "'")
    if "-" not in name.strip("-"):
        return name
    return camel(name) if is_type else name.replace("-", "_")


def tokens(text):
    return set(re.findall(WORD, text))


def imported(text):
    """The names that a file takes from libraries."""
    names = set()
    for use in re.findall(r"(?m)^\s*(?:ghost |pub )?use [^\n]*", text):
        if LIBRARIES.match(use):
            for inner in re.findall(r"\{(.*)\}", use):
                names |= {w.strip() for part in inner.split(",") for w in part.split(" as ")}
    return names


def plan(top):
    new, clashes = {}, []
    every, library = set(), set()
    for path in files(top):
        text = read(path)
        every |= tokens(text)
        library |= imported(text)
    for name, is_type in sorted(defined(top).items()):
        to = OTHERWISE.get(name) or respelled(name, is_type)
        if to == name:
            continue
        if name not in BESIDE_A_FUNCTION and (to in every or to in library or to in new.values()):
            clashes.append((name, to))
            continue
        new[name] = to
    return new, clashes


def turn(text, new, kept):
    def one(word):
        w = word.group(0)
        return w if w in kept else new.get(w, w)

    return re.sub(WORD, one, text)


def turn_antt(text, new):
    kept = imported(text)
    out = []
    for line in text.split("\n"):
        at = line.find("--")
        if at >= 0 and (at == 0 or line[at - 1] in " \t"):
            words = re.sub(r"`[^`]*`", lambda m: turn(m.group(0), new, kept), line[at:])
            out.append(turn(line[:at], new, kept) + words)
        else:
            out.append(turn(line, new, kept))
    return "\n".join(out)


def turn_rt(text, new):
    """A name with a dash is no name of Rust, so outside strings and comments it stands in a clause."""
    kept = imported(text)
    out = []
    for line in text.split("\n"):
        parts = re.split(r'("(?:[^"\\]|\\.)*"|//.*$)', line)
        out.append("".join(p if k % 2 else turn(p, new, kept) for k, p in enumerate(parts)))
    return "\n".join(out)


def turn_page(text, new):
    return re.sub(r"`[^`\n]*`", lambda m: turn(m.group(0), new, set()), text)


def main():
    top = os.getcwd()
    new, clashes = plan(top)
    if "--list" in sys.argv:
        for name, to in new.items():
            print(name, to)
        for name, to in clashes:
            print("clash:", name, to)
        return
    pages = [os.path.join(top, "README.md")] + [os.path.join(top, "docs", f) for f in sorted(os.listdir(os.path.join(top, "docs"))) if f.endswith(".md")]
    for path in list(files(top)) + pages:
        before = read(path)
        after = turn_antt(before, new) if path.endswith(".antt") else turn_rt(before, new) if path.endswith(".rt") else turn_page(before, new)
        if after != before:
            with open(path, "w", encoding="utf-8") as f:
                f.write(after)
    print(f"respelled {len(new)} names; {len(clashes)} clash and stay")
    for name, to in clashes:
        print("clash:", name, to)


main()
