#!/usr/bin/env python3
"""Measures the house, crate by crate: lines of code, tests, definitions and proofs, functions with their bodies, contracts and parameters, and
wrong bodies; and below the table lists what lies outside the limits.

    python3 bench/house.py [CRATES]

CRATES is the folder crates/ where none is given. A body is counted without its braces, a contract by the lines from `fn` to the body. Nothing
here is part of the gate.
"""
import glob
import os
import re
import sys

from tools import TOP

LIMITS = {"file": 400, "crate": 1500, "functions": 100, "body": 40, "parameters": 5, "edits": 6}
FUNCTION = re.compile(r"^(\s*)(?:pub(?:\([a-z]+\))? )?(?:final )?(?:const )?(?:unsafe )?fn (\w+)")


def lines_of(path):
    with open(path, encoding="utf-8") as it:
        return it.read().split("\n")[:-1]


def parameters(head):
    """The parameters between the parentheses of a function's head, `self` aside."""
    depth, at = 0, head.index("fn ")
    while head[at] != "(" or depth:
        depth += (head[at] == "<") - (head[at] == ">" and head[at - 1] != "-")
        at += 1
    found, depth, begun = [], 0, at + 1
    for place in range(at, len(head)):
        depth += (head[place] in "([{<") - (head[place] in ")]}" or (head[place] == ">" and head[place - 1] != "-"))
        if (head[place] == "," and depth == 1) or depth == 0:
            found.append(head[begun:place].strip())
            begun = place + 1
        if depth == 0:
            break
    return [it for it in found if it and it not in ("self", "mut self", "&self", "&mut self")]


def functions(path):
    """Name, line, lines of contract, lines of body and parameters of each function of a file that has a body."""
    lines, at = lines_of(path), 0
    while at < len(lines):
        seen = FUNCTION.match(lines[at])
        if not seen:
            at += 1
            continue
        indent, begun = seen[1], at
        while at < len(lines) and lines[at] != indent + "{" and not lines[at].endswith((" {", "{}", ";")):
            at += 1
        head = "\n".join(lines[begun:at + 1])
        if at == len(lines) or lines[at].endswith(";"):
            at += 1
            continue
        end = at
        while not lines[at].endswith("{}") and end < len(lines) and lines[end] != indent + "}":
            end += 1
        yield seen[2], begun + 1, at - begun, max(end - at - 1, 0), len(parameters(head))
        at = end + 1


def spread(numbers):
    """Median, the number that nine of ten don't pass, and the greatest."""
    found = sorted(numbers) or [0]
    return "/".join(str(found[round(part * (len(found) - 1))]) for part in (0.5, 0.9, 1))


def crate_row(folder):
    """The measures of a crate, and what of it lies outside the limits."""
    name, over = os.path.basename(folder), []
    sources = glob.glob(f"{folder}/src/**/*.rt", recursive=True)
    tests = [it for it in sources if "/tests" in it or "#[test]" in lines_of(it)]
    count = {part: sum(len(lines_of(it)) for it in found) for part, found in {
        "code": [it for it in sources if it not in tests], "tests": tests,
        "specs": glob.glob(f"{folder}/specs/**/*.antt", recursive=True), "proofs": glob.glob(f"{folder}/proofs/**/*.antt", recursive=True)}.items()}
    made = [(path, *it) for path in sources if path not in tests for it in functions(path)]
    edits = len(glob.glob(f"{folder}/must-fail/*.edit"))
    for path in sources + glob.glob(f"{folder}/specs/**/*.antt", recursive=True) + glob.glob(f"{folder}/proofs/**/*.antt", recursive=True):
        if len(lines_of(path)) > LIMITS["file"]:
            over.append(f"{os.path.relpath(path, os.path.dirname(folder))}: {len(lines_of(path))} lines")
    over += [f"{name}/{os.path.basename(it[0])}:{it[2]}: {it[1]} has {it[4]} lines" for it in made if it[4] > LIMITS["body"]]
    over += [f"{name}/{os.path.basename(it[0])}:{it[2]}: {it[1]} takes {it[5]} parameters" for it in made if it[5] > LIMITS["parameters"]]
    over += [f"{name}: {count['code']} lines of code"] * (count["code"] > LIMITS["crate"])
    over += [f"{name}: {len(made)} functions"] * (len(made) > LIMITS["functions"])
    ratio = (count["specs"] + count["proofs"]) / max(count["code"] + count["tests"], 1)
    row = (name, *count.values(), f"{ratio:.1f}", len(made), spread(it[4] for it in made), spread(it[3] for it in made), spread(it[5] for it in made), edits)
    return row, over, made


def main(words):
    folder = os.path.abspath(words[0] if words else f"{TOP}/crates")
    rows, over, made = [], [], []
    for crate in sorted(it for it in glob.glob(f"{folder}/*") if os.path.isdir(f"{it}/src")):
        row, outside, its = crate_row(crate)
        rows.append(row)
        over += outside
        made += its
    print("| Crate | Code | Tests | Specs | Proofs | (Specs + proofs) / code | Functions | Bodies | Contracts | Parameters | Wrong bodies |\n" + "|---" * 11 + "|")
    for row in rows:
        print("| " + " | ".join(str(it) for it in row) + " |")
    sums = [sum(row[at] for row in rows) for at in range(1, 5)]
    print(f"| all | {' | '.join(map(str, sums))} | {(sums[2] + sums[3]) / (sums[0] + sums[1]):.1f} | {len(made)} | {spread(it[4] for it in made)} | {spread(it[3] for it in made)} | "
          f"{spread(it[5] for it in made)} | {sum(row[-1] for row in rows)} |")
    limits = ", ".join(f"{key} {value}" for key, value in LIMITS.items() if key != "edits")
    print(f"\nOutside the limits ({limits}):\n" if over else f"\nNothing lies outside the limits ({limits}).")
    for it in over:
        print(f"- {it}")


if __name__ == "__main__":
    main(sys.argv[1:])
