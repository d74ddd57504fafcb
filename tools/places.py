#!/usr/bin/env python3
"""Lists where the sources may read older than the language allows: places.py [-v] [FOLDER].

Each pattern finds candidates for one point of docs/DESIGN-PASS.md, which says what they are and what became of them.
With -v it prints each line found. Point 2 compares the bodies of functions: two that are alike when names are left out are listed.
"""
import difflib
import glob
import os
import re
import sys

PATTERNS = [
    ("1", "enums", r"^\s*(pub(\(crate\))? )?enum "),
    ("1", "flags in structs", r"^\s+(pub(\(crate\))? )?\w+: bool,"),
    ("1", "numbers as answers", r"\(u8, usize\)|Result<u8,|fn \w+\(.*\) -> u8 \{|Closed\(0\)|0 (for|where|for none)"),
    ("1", "failures and options wrapped anew", r"return Err\(anyhow!|Err\(_\) => (Err|false)|Ok\((?P<x>\w+)\) => Ok\((?P=x)\)|None => None|\{ None \}"),
    ("3", "while", r"^\s*while "),
    ("3", "counted by hand", r"\+= 1;|= \w+\.saturating_add\(1\)|\.wrapping_add\(1\)"),
    ("3", "loops that search", r"^\s{8,}(    )*return (true|false|Some\(.*\));$"),
    ("4", "fields compared by hand", r"self\.\w+ == other\."),
    ("4", "conversions by hand", r"^impl (Try)?From<|fn (number|numbers|flags|words|plans|group_of|named_by|cells?)\("),
    ("4", "zeros by hand", r"^\s+\w+: 0,$"),
    ("4", "printed by hand", r"\.number\(\);$|\{bay\}/\{amps"),
    ("6", "arrays", r": (\&mut |&)?\[\w[^\]]*; \w+\]"),
    ("6", "lengths", r"^\s+(pub(\(crate\))? )?(len|count|filled|phases|number): (usize|u32|u8),"),
    ("7", "function types", r"\bfn\(|\bdyn |Fn\w*\("),
    ("7", "matches on own kinds", r"match (self\.)?(kind|test|place|liars|held)\b"),
]


def sources(folder):
    return sorted(glob.glob(os.path.join(folder, "crates", "*", "src", "**", "*.rt"), recursive=True))


def functions(path):
    """Each function's name, line and body tokens, with names and literals left out."""
    lines = open(path).read().split("\n")
    at = 0
    while at < len(lines):
        m = re.match(r"^(\s*)(pub(\(crate\))? )?fn (\w+)", lines[at])
        if not m or lines[at].rstrip().endswith(";"):
            at += 1
            continue
        end = at
        while end < len(lines) and lines[end] != m.group(1) + "}":
            if end > at and re.match(r"^\s*(pub(\(crate\))? )?fn ", lines[end]):
                break
            end += 1
        text = "\n".join(l for l in lines[at + 1 : end] if not re.match(r"\s*(ensures|requires|//|where)", l))
        tokens = re.findall(r"\w+|[^\w\s]", text)
        keep = {"if", "else", "for", "in", "while", "match", "return", "let", "mut", "Some", "None", "Ok", "Err", "self"}
        yield m.group(4), at + 1, [t if t in keep or not re.match(r"\w", t) else "w" for t in tokens]
        at = end + 1


def main():
    args = [a for a in sys.argv[1:] if a != "-v"]
    verbose = "-v" in sys.argv
    folder = args[0] if args else "."
    files = sources(folder)
    for point, name, pattern in PATTERNS:
        found = []
        for path in files:
            for number, line in enumerate(open(path), 1):
                code = line.rstrip("\n")
                if re.match(r"\s*//[/!]", code) and name != "numbers as answers":
                    continue
                if "ghost" in code or re.match(r"\s*ensures", code):
                    continue
                if re.search(pattern, code):
                    found.append(f"{os.path.relpath(path, folder)}:{number}: {code.strip()}")
        print(f"{point}  {name}: {len(found)}")
        if verbose:
            print("".join(f"       {f}\n" for f in found), end="")
    all_functions = [(os.path.relpath(p, folder), *f) for p in files for f in functions(p)]
    pairs = []
    for i, (p, name, line, tokens) in enumerate(all_functions):
        for q, other, at, more in all_functions[i + 1 :]:
            if min(len(tokens), len(more)) >= 25 and abs(len(tokens) - len(more)) <= 0.2 * len(tokens):
                if difflib.SequenceMatcher(None, tokens, more, autojunk=False).ratio() > 0.9:
                    pairs.append(f"{p}:{line} {name}  {q}:{at} {other}")
    print(f"2  functions alike but for names: {len(pairs)}")
    if verbose:
        print("".join(f"       {f}\n" for f in pairs), end="")
    clauses = {}
    for path in files:
        for line in open(path):
            if re.match(r"\s*ensures", line):
                for term in set(re.findall(r"\(?\w+ (?:[A-Z]\w*\.\w+ )*(?:self|row|result|rest|controller)\.(?:now|new|old|entry)\b(?:\.\w+)*", line)):
                    clauses.setdefault((os.path.relpath(path, folder).split("/")[1], term.lstrip("(")), 0)
                    clauses[(os.path.relpath(path, folder).split("/")[1], term.lstrip("("))] += 1
    often = sorted(((n, c, t) for (c, t), n in clauses.items() if n >= 3), reverse=True)
    print(f"5  terms in three clauses or more: {len(often)}")
    if verbose:
        print("".join(f"       {c}: {t}  ({n} clauses)\n" for n, c, t in often), end="")
    proofs = glob.glob(os.path.join(folder, "crates", "*", "proofs", "**", "*.antt"), recursive=True)
    count = {n: sum(len(open(p).read().split("\n")) - 1 for p in proofs if (os.path.basename(p) == n)) for n in ("Answers.antt", "Invariants.antt")}
    rest = sum(len(open(p).read().split("\n")) - 1 for p in proofs) - sum(count.values())
    print(f"8  lines of answers {count['Answers.antt']}, of invariants {count['Invariants.antt']}, of lemmas in proofs/ {rest}")


main()
