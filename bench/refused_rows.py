#!/usr/bin/env python3
"""Refuses each allocation of the programs of worked rows in turn, once: each has to end with a fault and a beginning of its right output, or
else, where it can do without that memory, with all of it; or the row of a part in memory, as a sink, says that it failed, as such a part does
where it can't grow. So no call answers something else than want of memory where memory was refused.

    python3 bench/refused_rows.py [FOLDER] [CRATE ..]

FOLDER has the crates with their programs in out/, crates/ where none is given; the programs are those of the crates whose names end in `_tests`
where none are named. It wants a C compiler (cc). One table is printed; it ends with 1 where something else came. Nothing here is part of the gate.
"""
import functools
import os
import sys
from collections import Counter

from refused import IS_REFUSED
from refusing import refusals, report
from tools import TOP


# What a row says of a part in memory that failed, of a connection that did, and of one that tells no more what it has.
FAILURES = (b" = failed", b" = peer fault", b" = untold")


def is_failure(said, rest):
    """Whether the first line that isn't as it was says that a part failed."""
    return next((one.endswith(FAILURES) for one, other in zip(said.splitlines(), rest.splitlines()) if one != other), False)


def kind_of(ended, said, rest):
    """What came of a refusal, or None where it shouldn't have come."""
    if ended == 0 and said == rest:
        return "whole"
    if ended >= 0 and is_failure(said, rest):
        return "failed"
    return "beginning" if ended > 0 and rest.startswith(said) else None


def tried(folder, crate, refusing):
    """Refuses each allocation of a program: the cells of its row, and what was wrong."""
    kinds, wrong = Counter(), []
    for number, ended, said, rest in refusals([f"{folder}/{crate}/out/{crate}"], f"{folder}/{crate}/stdin", refusing):
        kind = kind_of(ended, said, rest)
        kinds[kind] += 1
        if kind is None:
            wrong.append(f"allocation {number}: ended with {ended}, and put {said[-120:]!r}")
    return [crate, sum(kinds.values()), kinds["beginning"], kinds["whole"], kinds["failed"]], wrong


def main(words):
    folder = words[0] if words else f"{TOP}/crates"
    crates = words[1:] or sorted(it for it in os.listdir(folder) if it.endswith("_tests") and os.path.isfile(f"{folder}/{it}/out/{it}"))
    heads = ["Program", "Allocations, each refused once", "Ended with a fault and a beginning of the output", "Did without, with all of it", "A part in memory failed"]
    return report(heads, IS_REFUSED, crates, functools.partial(tried, folder))


if __name__ == "__main__":
    sys.exit(main(sys.argv[1:]))
