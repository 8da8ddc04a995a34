#!/usr/bin/env python3
"""Measures the program with names that it claims: in instructions, which are repeatable; prints one table.

    python3 bench/claims.py [PROGRAM]

PROGRAM is crates/mdnsd/out/mdnsd where none is given, which is built where it isn't yet. It needs valgrind. Each row is the difference of
two scripts, the second of which has one line more, or so many. Nothing here is part of the gate.
"""
import struct
import sys

from held import cost, name, program_of, record
from tools import table

SESSIONS = 4


def register(number):
    """The call that registers the service of a number; a session has up to 64 operations."""
    return f"call 1 {number // 60 + 1} {number % 60 + 1} register s{number} _ipp._tcp 631 auto -"


def registered(count):
    """A daemon whose host's name and so many services' are sure."""
    return ["daemon 1 host nas 10.0.0.1"] + ["open 1"] * max(SESSIONS, count // 60 + 1) + ["at 1000"] + [register(number) for number in range(count)] + ["at 9000"]


def registering(program):
    first = None
    for count in (0, 59, 239):
        value = cost(program, registered(count), [register(count)])
        wanted = f"at most {3 * first:,.0f}" if count == 59 else ""
        first = first or value
        yield f"a service registered, {count} others sure", f"{value:,.0f} instructions", wanted


def ticking(program):
    few = None
    for count in (0, 10, 60, 239, 1000):
        held = registered(count) + [register(count)]
        value = cost(program, held, ["at 9001"])
        few = value if count == 10 else few
        yield f"a tick that probes one service, {count} others sure", f"{value:,.0f} instructions", f"at most {2 * few:,.0f}" if count == 1000 else ""
    for count in (1, 60):
        held = registered(0) + [register(number) for number in range(count)]
        yield f"a tick that probes {count} services", f"{cost(program, held, ['at 9001']):,.0f} instructions", ""
        held += ["at 9700"]
        yield f"a tick that makes {count} services sure", f"{cost(program, held, ['at 9751']):,.0f} instructions", ""


def hearing(program):
    """Packets that concern no claim, and one that conflicts with one."""
    other = record(name("other", "local"), 1, b"\x0a\x00\x00\x09")
    clash = record(name("nas", "local"), 1, b"\x0a\x00\x00\x09")
    for count in (0, 60, 239):
        for what, rr in (("another's record heard", other), ("a record heard that conflicts with the host's", clash)):
            packet = "hear 1 10.0.0.9 5353 " + (struct.pack(">6H", 0, 0x8400, 0, 1, 0, 0) + rr).hex()
            yield f"{what}, {count} services sure", f"{cost(program, registered(count), [packet]):,.0f} instructions", ""


def rows(program=None):
    program = program or program_of()
    for part in (registering, ticking, hearing):
        yield from part(program)


if __name__ == "__main__":
    table(rows(*sys.argv[1:2]))
