#!/usr/bin/env python3
"""Measures what plays and generates scripts: sixteen daemons on a link for an hour, and `mdnsd gen 200`; prints one table.

    python3 bench/link.py [PROGRAM]

PROGRAM is crates/mdnsd/out/mdnsd where none is given, which is built where it isn't yet. Times are seconds of a processor, the least of three
runs. Nothing here is part of the gate.
"""
import resource
import subprocess
import sys

from held import program_of, text
from tools import table

DAEMONS, SERVICES, HOUR = 16, 4, 3_600_000


def hosts(until):
    """Sixteen hosts with four services each, whose sessions browse for all of them, until a moment."""
    lines = ["seed 7", "delay 5"] + [f"daemon {host} host h{host} 10.0.0.{host}" for host in range(1, DAEMONS + 1)]
    for host in range(1, DAEMONS + 1):
        lines += [f"open {host}"]
        lines += [f"call {host} 1 {number} register s{host}-{number} _ipp._tcp {6000 + number} auto -" for number in range(1, SERVICES + 1)]
        lines += [f"call {host} 1 {SERVICES + 1} browse _ipp._tcp"]
    return lines + [f"at {until}"]


def seconds(program, *words, lines=()):
    """Seconds of a processor, the least of three runs."""
    def once():
        before = resource.getrusage(resource.RUSAGE_CHILDREN)
        subprocess.run([program, *words], input=text(lines), stdout=subprocess.DEVNULL, check=True)
        after = resource.getrusage(resource.RUSAGE_CHILDREN)
        return after.ru_utime + after.ru_stime - before.ru_utime - before.ru_stime
    return min(once() for _ in range(3))


def rows(program=None):
    program = program or program_of()
    for what, until, wanted in (("ten seconds", 10_000, ""), ("an hour", HOUR, "at most 2")):
        took = seconds(program, "script", lines=hosts(until))
        yield f"{DAEMONS} daemons with {SERVICES} services each, which browse each other, {what}", f"{took:.2f} seconds", wanted
    yield "mdnsd gen 200", f"{seconds(program, 'gen', '200'):.3f} seconds", "at most 0.039"


if __name__ == "__main__":
    table(rows(*sys.argv[1:2]))
