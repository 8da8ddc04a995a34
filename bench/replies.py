#!/usr/bin/env python3
"""Measures what heard queries cost the program that replies: in instructions, in seconds and in memory; prints one table.

    python3 bench/replies.py [PROGRAM] [--many]

PROGRAM is crates/mdnsd/out/mdnsd where none is given, which is built where it isn't yet. It needs valgrind. Each row is the difference of
two scripts, the second of which has some lines more. With --many the greatest number of registrations is tried, too, 64 operations of each of
64 sessions, in seconds of a processor; this takes minutes. Nothing here is part of the gate.
"""
import argparse
import resource
import struct
import subprocess

from held import A, PTR, cost, label, name, program_of, text
from measure import peak_memory
from tools import table

ANY = 255
TYPE = name("_ipp", "_tcp", "local")
EACH = 64  # The operations of a session.
QUESTIONS = 1490  # As many fit a packet, where each but the first is a pointer, a type and a class.
FAR = 20_000  # Behind this moment all is announced, and each record was last multicast more than a second ago.


def registered(count, sessions=None):
    """A daemon with a host, and so many services of one type, all sure and announced."""
    lines = ["daemon 1 host nas 10.0.0.1"] + ["open 1"] * (sessions or -(-max(count, 1) // EACH)) + ["at 1000"]
    lines += [f"call 1 {number // EACH + 1} {number % EACH + 1} register s{number} _ipp._tcp 631 auto -" for number in range(count)]
    return lines + [f"at {FAR}"]


def heard(questions, known=()):
    """A query: each question is a name or a pointer, a type, and a class with the unicast bit."""
    head = struct.pack(">6H", 0, 0, len(questions), len(known), 0, 0)
    asked = b"".join(owner + struct.pack(">HH", kind, unicast_and_class) for owner, kind, unicast_and_class in questions)
    packet = head + asked + b"".join(known)
    assert len(packet) <= 8972, len(packet)
    return f"hear 1 10.0.0.9 5353 {packet.hex()}"


def of_one_name(owner, kinds):
    return [(b"\xc0\x0c" if place else owner, kind, 1) for place, kind in enumerate(kinds)]


def of_instances(numbers):
    """A question for any type of each service; the first has the type in full, the others a pointer to it."""
    aim = struct.pack(">H", 0xC000 | 12 + len(label(f"s{numbers[0]}")))
    return [(label(f"s{number}") + (aim if place else TYPE), ANY, 1) for place, number in enumerate(numbers)]


def packets(count):
    """Packets full of questions, for a daemon with so many services."""
    yield "equal questions for the services", of_one_name(TYPE, [PTR] * QUESTIONS)
    yield "different questions for the services' type", of_one_name(TYPE, range(1, QUESTIONS + 1))
    yield "different questions for the host", of_one_name(name("nas", "local"), range(1, QUESTIONS + 1))
    if count:
        yield "questions for a service each", of_instances(range(min(count, 800)))


def told(questions):
    return f"{len(questions):,}"


def full_packets(program, counts):
    for count in counts:
        before = registered(count)
        for what, questions in packets(count):
            value = cost(program, before, [heard(questions)])
            yield f"a packet of {told(questions)} {what}, {count:,} services sure", f"{value:,.0f} instructions", ""
        both = cost(program, before, [heard(of_one_name(TYPE, [PTR])), f"at {FAR + 200}"]) * 2
        yield f"one question for the services, and the reply, {count:,} services sure", f"{both:,.0f} instructions", ""


def seconds(program, lines):
    """Seconds of a processor."""
    before = resource.getrusage(resource.RUSAGE_CHILDREN)
    subprocess.run([program, "script"], input=text(lines), stdout=subprocess.DEVNULL, check=True)
    after = resource.getrusage(resource.RUSAGE_CHILDREN)
    return after.ru_utime + after.ru_stime - before.ru_utime - before.ru_stime


def many(program):
    """The same with all registrations that a daemon takes: ten packets at one moment, so that setting up weighs less."""
    count = EACH * 64
    before = registered(count, 64)
    base = min(seconds(program, before) for _ in range(2))
    yield f"{count:,} services registered, probed and announced", f"{base:.2f} seconds", ""
    for what, questions in packets(count):
        took = (seconds(program, before + [heard(questions)] * 10) - base) / 10
        yield f"a packet of {told(questions)} {what}, {count:,} services sure", f"{took * 1e3:,.0f} ms", ""
    took = seconds(program, before + [heard(of_one_name(TYPE, [PTR])), f"at {FAR + 200}"]) - base
    yield f"one question for the services, and the reply, {count:,} services sure", f"{took * 1e3:,.0f} ms", ""


def known_answers(program):
    """A query for one of 60 services' PTR record, with known answers for so many."""
    before = registered(60)
    for count in (0, 15, 30, 60):
        known = [TYPE + struct.pack(">HHIH", PTR, 1, 4500, len(data)) + data for data in (label(f"s{number}") + TYPE for number in range(count))]
        value = cost(program, before, [heard([(TYPE, PTR, 1)], known)])
        yield f"a query for 60 services, {count} of them known", f"{value:,.0f} instructions", ""


def flood(program):
    """Equal queries within a second, with 60 services: what they cost, how many packets answer them, and the memory."""
    before = registered(60)
    one = heard([(TYPE, PTR, 1)])
    for count in (100, 1000):
        value = cost(program, before, [one] * count)
        yield f"each of {count:,} equal queries at one moment, 60 services", f"{value:,.0f} instructions", ""
    spread = [line for number in range(1000) for line in (f"at {FAR + number}", one)]
    lines = before + spread + [f"at {FAR + 2500}"]
    ran = subprocess.run([program, "script"], input=text(lines), capture_output=True, check=True).stdout
    since = ran[ran.index(b"@%d d1 w0 hear" % FAR):]
    yield "packets to all that answer 1,000 equal queries within a second, and those of a second more", str(since.count(b"\n > all reply")), ""
    bare, _ = peak_memory(program, text(before + [f"at {FAR + 2500}"]))
    most, printed = peak_memory(program, text(lines))
    yield "memory for these, beside input and output", f"{max(0, most - bare - printed - len(text(lines))) / 1000:,.0f} kB", ""
    most, printed = peak_memory(program, text(before + [one] * 1000))
    yield "memory for 1,000 at one moment, which are all owed", f"{max(0, most - bare - printed - 1000 * len(one)) / 1000:,.0f} kB", ""


def waiting(number):
    """A query of a host of its own, with more known answers to follow: what it is owed waits 400 ms at least."""
    head = struct.pack(">6H", 0, 0x0200, 1, 0, 0, 0)
    return f"hear 1 10.0.{number // 250 + 1}.{number % 250 + 1} 5353 {(head + TYPE + struct.pack('>HH', PTR, 1)).hex()}"


def one_debt(program):
    """A tick that answers one query of so many that are owed something, by a multicast and by a reply to its asker alone."""
    question = struct.pack(">6H", 0, 0, 1, 0, 0, 0) + name("nas", "local") + struct.pack(">HH", A, 1)
    first = {}
    for count in (10, 1000):
        before = registered(1) + [waiting(number) for number in range(count - 1)]
        for port, how in ((5353, "by a multicast"), (40_000, "by a reply to its asker")):
            value = cost(program, before + [f"hear 1 10.0.0.9 {port} {question.hex()}"], [f"at {FAR + 1}"])
            wanted = f"at most {2 * first[how]:,.0f}" if how in first else ""
            first.setdefault(how, value)
            yield f"a tick that answers one of {count:,} debts {how}", f"{value:,.0f} instructions", wanted


def rows(program=None, with_many=False):
    program = program or program_of()
    yield from known_answers(program)
    yield from one_debt(program)
    yield from flood(program)
    yield from full_packets(program, (0, 60, 240))
    if with_many:
        yield from many(program)


if __name__ == "__main__":
    words = argparse.ArgumentParser()
    words.add_argument("program", nargs="?")
    words.add_argument("--many", action="store_true")
    given = words.parse_args()
    table(rows(given.program, given.many))
