#!/usr/bin/env python3
"""Measures the program with many records held: in instructions, which are repeatable, in seconds and in memory; prints one table.

    python3 bench/held.py [PROGRAM]

PROGRAM is crates/mdnsd/out/mdnsd where none is given, which is built where it isn't yet. It needs valgrind. Each row of instructions is
the difference of two scripts, the second of which has one line more, or so many. Nothing here is part of the gate.
"""
import itertools
import os
import random
import struct
import subprocess
import sys
import time

from measure import peak_memory
from tools import TOP, instructions, table

A, PTR = 1, 12
FLUSH = 0x8000


def label(text):
    return bytes([len(text)]) + text.encode()


def name(*labels):
    return b"".join(map(label, labels)) + b"\0"


def record(owner, kind, data, ttl=4500, flush=False):
    return owner + struct.pack(">HHIH", kind, 1 | (FLUSH if flush else 0), ttl, len(data)) + data


def response(*records):
    return "hear 1 10.0.0.9 5353 " + (struct.pack(">6H", 0, 0x8400, 0, len(records), 0, 0) + b"".join(records)).hex()


def address(number, host=None, ttl=4500, flush=False):
    """An A record, of a name of its own where no host is given."""
    owner = name(f"h{number:05}", "local") if host is None else name(host, "local")
    return record(owner, A, struct.pack(">I", 0x0A000000 + number), ttl, flush)


def packets(records, each=100):
    return [response(*records[first:first + each]) for first in range(0, len(records), each)]


def asking(*names):
    return ["daemon 1", "open 1"] + [f"call 1 1 {number} query A {host}.local" for number, host in enumerate(names, 1)]


TEN = [f"h{number:05}" for number in range(10)]


def with_held(count):
    """Ten operations, whose answers are held, with so many records held."""
    return asking(*TEN) + ["at 10"] + packets([address(number) for number in range(count)]) + ["at 9000"]


def text(lines):
    return ("\n".join(lines) + "\n").encode()


def cost(program, before, more):
    """Instructions of each of some lines behind others."""
    first = instructions(program, "script", standard_input=text(before))
    return (instructions(program, "script", standard_input=text(before + more)) - first) / len(more)


def seconds(program, lines):
    begun = time.monotonic()
    subprocess.run([program, "script"], input=text(lines), stdout=subprocess.DEVNULL, check=True)
    return time.monotonic() - begun


def known(program):
    """Ten known records heard, and a take, with so many records held."""
    ten = response(*(address(number) for number in range(10)))
    first = None
    for count in (100, 3000, 30_000):
        value = cost(program, with_held(count), [ten] * 20)
        wanted = "at most 60,000" if first is None else f"at most {min(60_000, 1.15 * first):,.0f}"
        first = first or value
        yield f"ten known records heard, ten operations, {count:,} records held", f"{value:,.0f} instructions", wanted
    for count in (100, 30_000):
        value = cost(program, with_held(count), ["take 1 1 1"] * 20)
        yield f"one item taken, {count:,} records held", f"{value:,.0f} instructions", ""


def many_of_one_name(program):
    """Records of one name that is asked for, with others of it held."""
    for count in (250, 500, 1000):
        held = asking("many") + ["at 10"] + packets([address(number, "many") for number in range(count)]) + ["at 9000"]
        value = cost(program, held, [response(address(7, "many", ttl=0)), "at 10000"]) * 2
        yield f"a goodbye and its answer's end a second later, {count:,} others of the name held", f"{value:,.0f} instructions", ""
    for count in (10, 100):
        held = asking("other") + ["at 10"] + packets([address(number, "many") for number in range(1000)]) + ["at 9000"]
        more = response(*(address(number, "many") for number in range(count)))
        yield f"{count} known records of a name with 1,000, which nobody asks for", f"{cost(program, held, [more]):,.0f} instructions", ""


def hostile(program):
    """Many records of one name, which nobody asks for: known ones, new ones, goodbyes, and flushes."""
    held = asking("other") + ["at 10"] + packets([address(number, "many") for number in range(1000)]) + ["at 9000"]
    for what, more in (
        ("new", [address(number, "many") for number in range(1000, 1100)]),
        ("known records' goodbyes", [address(number, "many", ttl=0) for number in range(100)]),
        ("known records with the flush bit", [address(number, "many", flush=True) for number in range(100)]),
    ):
        yield f"100 {what}, of a name with 1,000 that nobody asks for", f"{cost(program, held, [response(*more)]):,.0f} instructions", ""
    asked = asking("many") + held[3:]
    known = response(*(address(number, "many") for number in range(100)))
    yield "100 known records of a name with 1,000 that is asked for", f"{cost(program, asked, [known]):,.0f} instructions", ""


# The kit's default hasher, FoldHasher: its seed is fixed, so who picks the names can make them collide under it.
SEED, MULTIPLIER, MASK = 0x243F6A8885A308D3, 0x9E3779B97F4A7C15, (1 << 64) - 1


def folded_multiply(one, other):
    product = one * other
    return (product & MASK) ^ (product >> 64)


def two_blocks(state, random_numbers):
    """Two blocks of 16 bytes that lead a FoldHasher from a state to the same one, and have no capital letter."""
    while True:
        u, v, w = (random_numbers.randrange(1 << 7, 1 << size) for size in (8, 56, 56))
        blocks = [struct.pack("<QQ", (u * one) ^ state, other ^ MULTIPLIER) for one, other in ((v, w), (w, v))]
        if not any(65 <= byte <= 90 for byte in blocks[0] + blocks[1]):
            return blocks, folded_multiply((u * v), w)


def colliding():
    """1,024 names of 255 bytes, which collide under the default hasher as the owners of first records."""
    random_numbers = random.Random(5)
    state = (folded_multiply(SEED, MULTIPLIER ^ 16) + 255) & MASK
    choices = []
    for block in range(14):
        if block % 4 == 0:
            blocks = [bytes([61 if block == 12 else 63]) + b"x" * 15]
            state = folded_multiply(struct.unpack("<Q", blocks[0][:8])[0] ^ state, struct.unpack("<Q", blocks[0][8:])[0] ^ MULTIPLIER)
        else:
            blocks, state = two_blocks(state, random_numbers)
        choices.append(blocks)
    return [b"".join(blocks) + b"x" * 30 + b"\0" for blocks in itertools.product(*choices)]


def folded_hash(owner):
    """What the default hasher makes of a first record's place."""
    state = (folded_multiply(SEED, MULTIPLIER ^ 16) + len(owner)) & MASK
    words = [struct.unpack("<QQ", owner[at:at + 16]) for at in [*range(0, len(owner) - 16, 16), len(owner) - 16]]
    for one, other in words:
        state = folded_multiply(one ^ state, other ^ MULTIPLIER)
    return state


def collisions(program):
    """Records of names that collide under the default hasher, and of others as long."""
    owners = colliding()
    assert len(set(owners)) == 1024 and len(set(map(folded_hash, owners))) == 1
    others = [owner[:-9] + f"{number:08}".encode() + b"\0" for number, owner in enumerate(owners)]
    for what, names in (("that collide under the kit's default hasher", owners), ("that don't", others)):
        heard = packets([record(owner, A, struct.pack(">I", number)) for number, owner in enumerate(names)], 30)
        value = cost(program, asking("other"), heard) * len(heard) / len(names)
        yield f"1,024 records of names of 255 bytes {what}", f"{value:,.0f} instructions a record", ""


def ticks(program):
    for count in (100, 30_000):
        held = ["daemon 1", "open 1"] + packets([address(number) for number in range(count)]) + ["at 9000", "call 1 1 1 query A other.local"]
        value = cost(program, held, ["at 9200"])
        yield f"a tick that asks one question, {count:,} records held", f"{value:,.0f} instructions", "at most 30,000"


def one_of_many(program):
    """A tick that asks one of so many active questions, each of another name; the others are asked again later. And packets meanwhile."""
    other = response(record(name("nobody", "local"), A, b"\x0a\x00\x00\x09"))
    query = "hear 1 10.0.0.9 5353 " + (struct.pack(">6H", 0, 0, 1, 0, 0, 0) + name("nobody", "local") + struct.pack(">HH", A, 1)).hex()
    first = {}
    for count in (10, 4096):
        calls = [f"call 1 {number // 64 + 1} {number % 64 + 1} query A h{number:05}.local" for number in range(count)]
        held = ["daemon 1"] + ["open 1"] * 64 + ["at 1000"] + calls[:-1] + ["at 9000"]
        for what, before, more in (
            ("a tick that asks one of", held + calls[-1:], ["at 9200"]),
            ("a record heard that nobody asks for, with", held, [other] * 10),
            ("a query heard that asks for nothing of ours, with", held, [query] * 10),
        ):
            value = cost(program, before, more)
            wanted = f"at most {2 * first[what]:,.0f}" if what in first else ""
            first.setdefault(what, value)
            yield f"{what} {count:,} active questions", f"{value:,.0f} instructions", wanted


def known_answers(program):
    """A tick that asks one question again, whose answers so far are listed in the query."""
    for count in (100, 400):
        held = asking("many") + ["at 100"] + packets([address(number, "many") for number in range(count)])
        value = cost(program, held, ["at 1020"])
        wanted = "at most 1,200,000" if count == 400 else ""
        yield f"a tick that asks one question with {count} known answers", f"{value:,.0f} instructions", wanted


def asked_by_many(program):
    """One query more for a name that 2,048 operations of 32 sessions ask for, with so many records of 8 KB of that name held."""
    asked = [f"call 1 {session} {op} query TXT big.local" for session in range(1, 33) for op in range(1, 65)]
    for count in (0, 1, 8):
        held = [response(record(name("big", "local"), 16, (b"\xff" + bytes([number + 1]) * 255) * 31)) for number in range(count)]
        before = ["daemon 1"] + ["open 1"] * 33 + ["at 1000"] + held + asked + ["at 2000"]
        value = cost(program, before, ["call 1 33 1 query TXT big.local"])
        yield f"one query more for a name that 2,048 ask for, {count} records of 8 KB of it held", f"{value:,.0f} instructions", ""


def short(number):
    """An A record whose owner is one byte: 512 of them fit a packet."""
    return record(bytes([1, 97 + number % 26, 0]), A, struct.pack(">I", number))


def full_table(program):
    """64 packets of 512 records each, and what comes then."""
    filling = ["daemon 1"] + packets([short(number) for number in range(32_768)], 512)
    yield "the table filled by 64 packets of 512 records", f"{seconds(program, filling):.2f} seconds", "at most 2"
    one = response(address(40_000))
    yield "one record more, which is refused", f"{cost(program, filling, [one] * 10):,.0f} instructions", ""
    again = response(short(4711))
    yield "a held record heard again, the table full", f"{cost(program, filling, [again] * 10):,.0f} instructions", ""


def memory(program):
    """Bytes that a held record takes, its names too: the same script but that all its records are one."""
    many = text(["daemon 1"] + packets([address(number) for number in range(32_000)]))
    same = text(["daemon 1"] + packets([address(10_000)] * 32_000))
    high, _ = peak_memory(program, many)
    low, _ = peak_memory(program, same)
    yield "memory of a held record, its names too", f"{(high - low) / 32_000:,.0f} bytes", ""


def program_of():
    """The program, which is built where it isn't yet."""
    subprocess.run([os.path.join(TOP, "mdnsd"), "script"], stdin=subprocess.DEVNULL, check=True)
    return os.path.join(TOP, "crates", "mdnsd", "out", "mdnsd")


def rows(program=None):
    program = program or program_of()
    for part in (known, many_of_one_name, hostile, collisions, ticks, one_of_many, known_answers, asked_by_many, full_table, memory):
        yield from part(program)


if __name__ == "__main__":
    table(rows(*sys.argv[1:2]))
