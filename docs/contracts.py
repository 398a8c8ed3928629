#!/usr/bin/env python3
"""Counts what makes contracts and definitions hard to read aloud, and fails where there is more than MAY_BE.

Run at the repository's top; with --tell it names each that counts.
"""

import re
import sys
from pathlib import Path

CRATES = Path(__file__).resolve().parent.parent / "crates"

# How many there are, at most: a change that makes fewer lowers the number here.
MAY_BE = {
    "contracts of more than 8 clauses": 0,
    "contracts of more than 18 lines": 0,
    "clauses of more than 200 characters": 8,
    "definitions of more than 6 places": 0,
}

CLAUSE = re.compile(r"^ *(?:ensures|requires)\b[^{\n]*\{", re.M)
FUNCTION = re.compile(r"^ *(?:pub(?:\(crate\))? )?fn (\w+)", re.M)
RECORD = re.compile(r"^ *(?:pub )?record (?:pub )?([^\s{]+)((?:(?!\n\n)[^=])*?) : Type \d+\s+where", re.M)
AROUND = re.compile(r"^( *)module _([^=]*?) where\n((?:\n|\1 +[^\n]*\n)*)", re.M)
SIGNATURE = re.compile(
    r"^ *(?:abbrev |unfoldable )?(?:pub )?([\w-]+) :((?:(?!\n\n).)*?)\n *\1(?: [^\n]*)? =", re.M | re.S
)


def closing(text, start):
    """The place behind the brace that closes the one before `start`."""
    depth = 1
    while depth:
        depth += {"{": 1, "}": -1}.get(text[start], 0)
        start += 1
    return start


def contracts(text):
    """Each function's name and the texts of its clauses, in order."""
    starts = [(found.start(), found.group(1)) for found in FUNCTION.finditer(text)]
    clauses = [(found.start(), text[found.start():closing(text, found.end())]) for found in CLAUSE.finditer(text)]
    for number, (start, name) in enumerate(starts):
        end = starts[number + 1][0] if number + 1 < len(starts) else len(text)
        found = [clause for place, clause in clauses if start < place < end]
        if found:
            yield name, found


def top_level(text, mark):
    """The parts of a text between marks that stand in no bracket."""
    depth, part, parts = 0, "", []
    for letter in text:
        depth += {"(": 1, "{": 1, ")": -1, "}": -1}.get(letter, 0)
        if letter == mark and depth == 0:
            parts.append(part)
            part = ""
        else:
            part += letter
    return parts + [part]


def binders(text):
    """How many names the explicit binders of a text have."""
    found = re.findall(r"\(((?:[\w'-]+ )+):", re.sub(r"\{[^{}]*\}", "", text))
    return sum(len(names.split()) for names in found)


def places(signature):
    """How many arguments a definition of this signature takes."""
    parts = [part.strip() for part in top_level(re.sub(r"--[^\n]*", "", signature), "→")[:-1]]
    return sum(binders(part) if re.match(r"\([\w' -]+ :", part) else not part.startswith("{") for part in parts)


def in_contracts(path, counted):
    """Adds what counts in the contracts of a file."""
    for name, clauses in contracts(path.read_text()):
        where = f"{path.relative_to(CRATES)}: {name}"
        lines = sum(len(clause.split("\n")) for clause in clauses)
        if len(clauses) > 8:
            counted["contracts of more than 8 clauses"].append(f"{where}: {len(clauses)}")
        if lines > 18:
            counted["contracts of more than 18 lines"].append(f"{where}: {lines}")
        for clause in clauses:
            length = len(" ".join(clause.split()))
            if length > 200:
                counted["clauses of more than 200 characters"].append(f"{where}: {length}")


def definitions(text):
    """Each definition's name and how many arguments it takes, with those of the modules that it stands in."""
    around = [(found.span(3), binders(found.group(2))) for found in AROUND.finditer(text)]
    around += [
        ((start + inner.start(3), start + inner.end(3)), binders(inner.group(2)))
        for (start, end), _ in around
        for inner in AROUND.finditer(text[start:end])
    ]
    found = [(it.start(1), it.group(1), binders(it.group(2))) for it in RECORD.finditer(text)]
    found += [(it.start(1), it.group(1), places(it.group(2))) for it in SIGNATURE.finditer(text)]
    for place, name, own in found:
        yield name, own + sum(number for (start, end), number in around if start <= place < end)


def in_definitions(path, counted):
    """Adds what counts in the definitions of a file."""
    for name, number in definitions(path.read_text()):
        if number > 6:
            counted["definitions of more than 6 places"].append(f"{path.relative_to(CRATES)}: {name}: {number}")


def main():
    counted = {kind: [] for kind in MAY_BE}
    for path in sorted(CRATES.glob("*/src/**/*.rt")):
        if not path.relative_to(CRATES).parts[0].endswith("_cases"):
            in_contracts(path, counted)
    for path in sorted(CRATES.glob("*/specs/**/*.antt")):
        in_definitions(path, counted)
    failed = 0
    for kind, found in counted.items():
        failed += len(found) > MAY_BE[kind]
        print(f"{len(found)} {kind}, {MAY_BE[kind]} may be")
        if "--tell" in sys.argv or len(found) > MAY_BE[kind]:
            print("".join(f"  {it}\n" for it in found), end="")
    print(f"{len(counted) - failed} passed, {failed} failed")
    return 1 if failed else 0


if __name__ == "__main__":
    sys.exit(main())
