#!/usr/bin/env python3
"""Lets the checker look at transcripts: each has to be legal, and the same with one line changed illegal at the entry of that line, or no transcript.

    python3 bench/check.py CHECKER [--daemon MDNSD] FILE ..

CHECKER is the built crates/mdns_check/out/mdns_check. A FILE that ends with `.script` is played by MDNSD, which is crates/mdnsd/out/mdnsd where it isn't given;
each other FILE is a transcript, as it was printed by whatever program. A folder stands for its files that end with `.transcript` or `.expected`, or where there
are none, for its scripts. A last line that says how a script ended (`bad line N`, `status N`) is left out.

One line is changed in each, chosen by the number of the file, and never an entry's first: a digit of it is another one, the line is left out, or it is there
twice. What stands behind the first line of an entry follows from that line and the entries before it, so no such change is legal. One line of counts is
printed; the status is 1 where something else came. Nothing here is part of the gate.
"""
import glob
import os
import random
import subprocess
import sys

HERE = os.path.dirname(os.path.realpath(__file__))
DAEMON = f"{HERE}/../crates/mdnsd/out/mdnsd"


def files_of(word):
    """The files that a word of the command line stands for."""
    if not os.path.isdir(word):
        return [word]
    printed = glob.glob(f"{word}/*.transcript") + glob.glob(f"{word}/*.expected")
    return sorted(printed or glob.glob(f"{word}/*.script"))


def lines_of(path, daemon):
    """The lines of a transcript, without one that says how its script ended."""
    with open(path, "rb") as held:
        text = held.read()
    if path.endswith(".script"):
        text = subprocess.run([daemon, "script"], input=text, capture_output=True, check=False).stdout
    lines = text.splitlines(keepends=True)
    while lines and lines[-1].startswith((b"bad line ", b"status ")):
        lines.pop()
    return lines


def told_of(checker, lines):
    """The status of the checker, and what it prints of the lines."""
    run = subprocess.run([checker], input=b"".join(lines), capture_output=True, check=False)
    return run.returncode, run.stdout.decode().rstrip("\n")


def row_at(lines, place):
    """The number of the entry that a line belongs to."""
    return sum(line.startswith(b"@") for line in lines[:place + 1])


def change(lines, chance):
    """The lines with one of them changed, its entry's number and its own, and what was done; None where each is an entry's first."""
    places = [place for place, line in enumerate(lines) if not line.startswith(b"@")]
    if not places:
        return None
    place = chance.choice(places)
    line, row = lines[place], row_at(lines, place)
    kind = chance.choice(["another digit", "left out", "twice"])
    digits = [at for at, byte in enumerate(line) if byte in b"0123456789"]
    if kind == "another digit" and digits:
        at = chance.choice(digits)
        other = chance.choice([digit for digit in b"0123456789" if digit != line[at]])
        new = [line[:at] + bytes([other]) + line[at + 1:]]
    elif kind == "twice":
        new = [line, line]
    else:
        kind, new = "left out", []
    return lines[:place] + new + lines[place + 1:], row, place + 1, f"line {place + 1} {kind}"


def is_refused(told, row, line):
    """Whether it is said that the changed entry is illegal, or that the text is no transcript's from its line on."""
    if told == (1, f"illegal {row}"):
        return True
    word, _, number = told[1].rpartition(" ")
    return told[0] == 3 and word == "bad line" and int(number) >= line


def main():
    words = sys.argv[1:]
    daemon = DAEMON
    if "--daemon" in words:
        at = words.index("--daemon")
        daemon = words[at + 1]
        del words[at:at + 2]
    if len(words) < 2:
        sys.exit(__doc__)
    checker = words[0]
    paths = [path for word in words[1:] for path in files_of(word)]
    counts = {"legal": 0, "illegal": 0, "bad line": 0}
    wrong = 0
    for number, path in enumerate(paths):
        lines = lines_of(path, daemon)
        told = told_of(checker, lines)
        wanted = (0, f"legal {row_at(lines, len(lines))}")
        if told == wanted:
            counts["legal"] += 1
        else:
            wrong += 1
            print(f"{path}: {told[1]} ({told[0]}) in place of {wanted[1]}")
        changed = change(lines, random.Random(number))
        if changed is None:
            continue
        others, row, line, what = changed
        told = told_of(checker, others)
        if is_refused(told, row, line):
            counts[told[1].rpartition(" ")[0]] += 1
        else:
            wrong += 1
            print(f"{path}: {told[1]} ({told[0]}) in place of illegal {row}, with {what}")
    print(f"{len(paths)} transcripts: " + ", ".join(f"{count} {word}" for word, count in counts.items()) + f", {wrong} wrong")
    return wrong != 0


if __name__ == "__main__":
    sys.exit(main())
