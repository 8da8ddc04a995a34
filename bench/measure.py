#!/usr/bin/env python3
"""Measures the program in instructions, which are repeatable, and in peak memory, and prints one table.

    python3 bench/measure.py [PROGRAM]

PROGRAM is crates/mdnsd/out/mdnsd where none is given, which is built where it isn't yet. It needs valgrind. Nothing here
is part of the gate.
"""
import os
import subprocess
import sys
import tempfile

from tools import TOP, instructions, table

PACKET = "0000840000000001000000000161056c6f63616c0000010001000000780004c0000201"


def comments(size):
    line = b"# " + b"x" * 61 + b"\n"
    return line * (size // len(line))


def at_lines(count):
    return b"daemon 1\n" + b"".join(b"at %d\n" % moment for moment in range(1, count + 1))


def hearings(count):
    """One daemon that hears so many records of one name, each with an address of its own."""
    lines = ["daemon 1", "open 1", "call 1 1 1 query A a.local"]
    lines += [f"hear 1 10.0.0.9 5353 {PACKET[:-8]}{0x0a000000 + n:08x}" for n in range(count)]
    return ("\n".join(lines) + "\n").encode()


def peak_memory(program, script):
    """Bytes of memory at most, and bytes of output."""
    child = "import resource,subprocess,sys\n" \
        "run = subprocess.run([sys.argv[1], 'script'], stdin=sys.stdin, stdout=subprocess.PIPE)\n" \
        "print(resource.getrusage(resource.RUSAGE_CHILDREN).ru_maxrss * 1024, len(run.stdout))"
    with tempfile.TemporaryFile() as held:
        held.write(script)
        held.seek(0)
        run = subprocess.run([sys.executable, "-c", child, program], stdin=held, stdout=subprocess.PIPE, text=True)
    most, printed = run.stdout.split()
    return int(most), int(printed)


def rows(program=None):
    if program is None:
        subprocess.run([os.path.join(TOP, "mdnsd"), "script"], stdin=subprocess.DEVNULL, check=True)
        program = os.path.join(TOP, "crates", "mdnsd", "out", "mdnsd")
    base = instructions(program, "script")

    def each(script, count):
        return (instructions(program, "script", standard_input=script) - base) / count

    yield "empty script", f"{base:,} instructions", ""
    size = 6_400_000
    yield "6.4 MB of comments", f"{each(comments(size), size):.1f} instructions a byte", "at most 30"
    first = each(at_lines(100), 100)
    yield "100 `at` lines", f"{first:,.0f} instructions a line", ""
    yield "1000 `at` lines", f"{each(at_lines(1000), 1000):,.0f} instructions a line", f"linear: at most {1.1 * first:,.0f}"
    for count in (10, 100, 1000):
        yield f"{count} records heard", f"{each(hearings(count), count):,.0f} instructions a packet", ""
    script = comments(60_000_000)
    most, printed = peak_memory(program, script)
    yield "peak memory, 60 MB of comments", f"{most / (len(script) + printed):.2f} times input and output", "at most 3"


if __name__ == "__main__":
    table(rows(*sys.argv[1:2]))
