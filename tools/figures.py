#!/usr/bin/env python3
"""Tells how easily the sources are read:
    tools/figures.py [--list] [CRATE ..]
For each crate, or for those that are named: how many functions it has; how many have more than eight parameters, and how many a
contract of more than 30 lines of 100 columns; how many clauses it has, and how many pass 100 columns; and how many lines of specs/
pass 160 columns and of proofs/ 300, but for imports, which the layout tool puts in one line each. Last stand the sums. With --list
each such function is named. It needs python3, as the kit's command rt does."""

import re
import sys
from pathlib import Path

CRATES = Path(__file__).resolve().parent.parent / "crates"
HEAD = re.compile(r"\s*(?:pub(?:\([^)]*\))? )?(?:unsafe )?(?:extern \"C\" )?(?:ghost )?fn (\w+)")
BODY = ("{", "{}")
CLAUSE = re.compile(r"\s*(?:requires|ensures)\b")


def split_top(text):
    """The parts of a list of parameters: what stands between the commas outside of brackets."""
    depth, parts, part = 0, [], ""
    for at, char in enumerate(text):
        depth += char in "([{<"
        # (the > of an arrow closes nothing)
        depth -= char in ")]}" or (char == ">" and text[at - 1] != "-")
        if char == "," and depth == 0:
            parts.append(part)
            part = ""
        else:
            part += char
    return [p for p in [*parts, part] if p.strip()]


def parameters(head):
    """How many parameters a head has, from `fn` to the clauses: what stands in its first round brackets."""
    # type parameters may hold brackets of their own, so the list begins at the first one outside of angles
    depth = 0
    for at, char in enumerate(head):
        depth += char == "<"
        depth -= char == ">" and head[at - 1] != "-"
        if char == "(" and depth == 0:
            end, level = at, 0
            for end in range(at, len(head)):
                level += head[end] == "("
                level -= head[end] == ")"
                if level == 0:
                    break
            return len(split_top(head[at + 1 : end]))
    return 0


def functions(lines):
    """Each function: its name, its number of parameters, and the lines of its contract."""
    at = 0
    while at < len(lines):
        found = HEAD.match(lines[at])
        if not found:
            at += 1
            continue
        head, contract = [], []
        while at < len(lines) and lines[at].strip() not in BODY and not (lines[at].rstrip().endswith("{") and not contract):
            if CLAUSE.match(lines[at]) or contract:
                contract.append(lines[at])
            else:
                head.append(lines[at])
            at += 1
            # (a method of a trait has no body)
            if lines[at - 1].rstrip().endswith(";"):
                break
        if at < len(lines) and not contract:
            head.append(lines[at])
        yield found[1], parameters(" ".join(head)[found.end(1) :]), contract
        at += 1


def long_lines(folder, columns):
    lines = (line.rstrip("\n") for path in folder.rglob("*.antt") for line in path.open())
    return sum(len(line) > columns for line in lines if not line.startswith("use "))


def figures(crate):
    count = wide = tall = clauses = long = 0
    for path in sorted((crate / "src").rglob("*.rt")):
        for name, parts, contract in functions(path.read_text().split("\n")):
            count += 1
            wide += parts > 8
            height = sum(-(-len(line) // 100) for line in contract if not line.strip().startswith("//"))
            tall += height > 30
            clauses += sum(bool(CLAUSE.match(line)) for line in contract)
            long += sum(len(line) > 100 for line in contract if not line.strip().startswith("//"))
            if LIST and (parts > 8 or height > 30):
                print(f"{crate.name} {path.stem}::{name}: {parts} parameters, a contract of {height} lines")
    return [count, wide, tall, clauses, long, long_lines(crate / "specs", 160), long_lines(crate / "proofs", 300)]


words = sys.argv[1:]
LIST = "--list" in words
names = [word for word in words if word != "--list"] or sorted(path.name for path in CRATES.iterdir() if path.is_dir())
titles = ["functions", "over 8 params", "tall contracts", "clauses", "long clauses", "long specs", "long proofs"]
print(f"{'crate':16}", *(f"{title:>14}" for title in titles))
sums = [0] * len(titles)
for name in names:
    row = figures(CRATES / name)
    sums = [a + b for a, b in zip(sums, row)]
    print(f"{name:16}", *(f"{number:14}" for number in row))
print(f"{'all':16}", *(f"{number:14}" for number in sums))
