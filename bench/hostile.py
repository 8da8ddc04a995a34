#!/usr/bin/env python3
"""Throws at a real `mdnsd serve`, on this machine alone and in bounded numbers, what an attacker on the link or a bad client could.

    python3 bench/hostile.py [PROGRAM] [--packets FOLDER] [--count N] [--seconds S] [--seed N]

PROGRAM is crates/mdnsd/out/mdnsd where none is given. FOLDER has files *.jsonl, each line of which has a UDP payload as `hex`; N of their
mutations are sent (10,000, and in proportion of all else), or of some packets of the script's own where no folder is given. A flood lasts S seconds (5). All along a good
client calls, and has a service found: each of its calls has to be answered within a second, and it may get nothing but what is its own.
The memory has a limit, too. What was thrown and what came is printed as one table. Nothing here is part of the gate.
"""
import argparse
import contextlib
import glob
import json
import multiprocessing
import os
import random
import resource
import select
import struct
import sys
import tempfile
import time

import messages
from end_to_end import A, TXT, announcement, record, response
from frames import LIMIT, Client, Daemon, Peer, browse, frame, free_ports, query, register, stop, wire
from held import address, packets, short
from serve import Marker, message
from tools import TOP

MEGABYTE = 1 << 20
SESSIONS, QUEUE = 64, 16 * MEGABYTE
AT_ONCE = 1.0
# What the daemon may take at most: the queues of all sessions full, one packet's items more for each, the table full, and the rest.
MEMORY = SESSIONS * (QUEUE + MEGABYTE) + 64 * MEGABYTE
# What it may take where no queue is full.
CALM = 128 * MEGABYTE


def good_calls(client, pipe):
    """Calls without end; tells how many there were since it was last asked, and the longest."""
    calls, longest = 0, 0.0
    try:
        while True:
            if pipe.poll(0.002):
                if pipe.recv() == "end":
                    return
                pipe.send((calls, longest))
                calls, longest = 0, 0.0
            begun = time.monotonic()
            for verb, data in ((1, query(3, A, "nobody.local")), (3, stop(3))):
                client.send(data)
                client.expect("reply", 3, verb, 0)
            calls, longest = calls + 1, max(longest, time.monotonic() - begun)
    except (AssertionError, EOFError, OSError) as wrong:
        pipe.send(repr(wrong))


class Good:
    """A client of its own process, which calls without end, and stops at whatever isn't its own."""

    def __init__(self, path):
        client = Client(path)
        client.call(1, register(1, "Good", "_good._tcp", 1))
        client.expect("add", 1, "named", "Good._good._tcp.local.")
        client.call(2, browse(2, "_good._tcp"))
        client.expect("add", 2, "found", "Good._good._tcp.local.")
        self.pipe, other = multiprocessing.Pipe()
        self.process = multiprocessing.Process(target=good_calls, args=(client, other), daemon=True)
        self.process.start()
        client.close()

    def told(self):
        """The longest call since the last look, which has to be short enough."""
        self.pipe.send("told")
        assert self.pipe.poll(LIMIT), "the good client waits"
        told = self.pipe.recv()
        assert isinstance(told, tuple) and told[0] and told[1] < AT_ONCE, told
        return f"{told[0]:,} calls, the longest {told[1] * 1e3:.0f} ms"

    def end(self):
        self.pipe.send("end")
        self.process.join(LIMIT)


class Target:
    """The daemon, a host of its relay, the good client, and another session whose answers come behind what was sent before."""

    def __init__(self, program, folder):
        own, played = free_ports(2)
        self.daemon = Daemon(program, folder, "a", "10.0.0.1", own, [played])
        self.peer, self.port = Peer(played, [own]), own
        self.good, self.marker = Good(self.daemon.path), Marker(self.peer, Client(self.daemon.path))

    def send(self, messages_in, each=20):
        """Sends messages and waits again and again until the daemon heard them, so that the relay drops none."""
        for number, one in enumerate(messages_in):
            self.peer.send(one)
            if number % each == each - 1:
                self.marker.wait()
        self.marker.wait()

    def catch_up(self):
        """Waits until the daemon hears again, behind packets of which the relay dropped some, and those of the marker too."""
        deadline, client = time.monotonic() + LIMIT, self.marker.client
        while not select.select([client.socket], [], [], 0.2)[0]:
            assert time.monotonic() < deadline
            self.marker.sent += 1
            self.peer.send(message(packets([address(self.marker.sent, "marker", flush=True)])[0]))
        while select.select([client.socket], [], [], 0.5)[0]:
            client.next()
        self.marker.wait()

    def row(self, thrown, came, most=CALM):
        memory = self.daemon.status("VmRSS") * 1024
        assert self.daemon.process.poll() is None and memory < most, memory
        return thrown, came, self.good.told(), f"{memory / MEGABYTE:.0f} MB"

    def replies(self):
        """How many responses it sent since the last look."""
        count = 0
        while select.select([self.peer.socket], [], [], 0)[0]:
            count += self.peer.receive()[2] >> 7
        return count

    def end(self):
        self.good.end()
        self.marker.client.close()
        self.peer.close()
        self.daemon.end()


def questions(name, kinds):
    """A query that asks for these types of one name."""
    first = wire(name)
    asked = [(first if place == 0 else b"\xc0\x0c") + struct.pack(">HH", kind, 1) for place, kind in enumerate(kinds)]
    return struct.pack(">6H", 0, 0, len(asked), 0, 0, 0) + b"".join(asked)


def real(folder):
    """The packets that are mutated."""
    if folder is None:
        return [announcement(), announcement(0), questions("a.local", [A]), messages.plain(), messages.compressed(), messages.hostile()]
    return [bytes.fromhex(json.loads(line)["hex"]) for path in sorted(glob.glob(f"{folder}/*.jsonl")) for line in open(path) if '"hex"' in line]


def mutated(given, chance):
    """A packet with some of its bytes changed, put in, left out, repeated or cut off."""
    data = bytearray(given)
    for _ in range(chance.randrange(1, 6)):
        at = chance.randrange(len(data) + 1)
        kind = chance.randrange(6)
        if kind == 0 and at < len(data):
            data[at] ^= 1 << chance.randrange(8)
        elif kind == 1 and at < len(data):
            data[at] = chance.choice((0, 1, 12, 63, 64, 192, 255))
        elif kind == 2:
            data[at:at] = chance.randbytes(chance.randrange(1, 9))
        elif kind == 3:
            del data[at:at + chance.randrange(1, 9)]
        elif kind == 4:
            data[at:at] = data[at:at + chance.randrange(1, 64)]
        elif at > 12:
            del data[at:]
    return bytes(data[:8972])


def broken_packets(target, given):
    chance = random.Random(given.seed)
    every = real(given.packets)
    target.send(mutated(chance.choice(every), chance) for _ in range(given.count))
    yield target.row(f"{given.count:,} mutations of {len(every)} packets, from the link", "heard or passed over")
    lengths = (0, 11, 12, 8972, 8973, 65_507 - 12)
    target.send(filling[:length] for filling in (bytes(65_507), b"\xff" * 65_507, chance.randbytes(65_507)) for length in lengths for _ in range(20))
    for length in range(12):
        for _ in range(20):
            target.peer.socket.sendto(bytes(length), ("127.0.0.1", target.port))
    yield target.row("60 each of 0, 11, 12, 8,972, 8,973 and 65,495 bytes behind the relay's head, and heads that are cut", "passed over")
    chains = (messages.hostile(), messages.labelled(), messages.longest())
    each = given.count // 50
    target.send((one for one in chains for _ in range(each)), 5)
    yield target.row(f"{3 * each} packets of 8,972 bytes, of chains of pointers", "heard or passed over")


def connections(target, given):
    chance = random.Random(given.seed)
    path = target.daemon.path
    for _ in range(given.count // 5):
        Client(path).close()
    yield target.row(f"{given.count // 5:,} connections that are closed at once", "opened and closed")
    halves = [Client(path) for _ in range(40)]
    for one in halves:
        one.send(query(1, A, "nobody.local")[:chance.randrange(1, 20)])
    time.sleep(1)
    yield target.row("40 clients that send a part of a frame and stay", "each holds its own session alone")
    for one in halves:
        one.close()
    ended = 0
    for _ in range(given.count // 10):
        one = Client(path)
        with contextlib.suppress(ConnectionError):
            one.send(bad_frame(chance))
        with contextlib.suppress(OSError):
            one.socket.shutdown(1)
        ended += ends(one)
    yield target.row(f"{given.count // 10:,} clients with random bytes, lengths, kinds and bodies of frames", f"{ended:,} ended, with refusals alone before")


def bad_frame(chance):
    kind = chance.randrange(4)
    if kind == 0:
        return chance.randbytes(chance.randrange(1, 2000))
    if kind == 1:
        return struct.pack(">I", chance.choice((0, 1, 4, 65_537, 0xFFFFFFFF))) + chance.randbytes(64)
    body = chance.randbytes(chance.randrange(0, 300))
    return frame(chance.randrange(1, 8) if kind == 2 else chance.randrange(8, 256), 1, body) + frame(7, 9)


def ends(client):
    """Whether the daemon ends a session whose client sends no more; it may refuse calls before."""
    try:
        while True:
            got = client.next()
            assert got[0] == "reply" or got[:3] == ("add", 1, "datum"), got
    except (EOFError, ConnectionError):
        client.close()
        return 1


def deaf_clients(target, _):
    """All seats taken; half of them have 64 operations each and never read, the others read what they asked for and nothing else."""
    path = target.daemon.path
    deaf, readers = [Client(path) for _ in range(32)], [Client(path) for _ in range(SESSIONS - 2 - 32)]
    for number, one in enumerate(readers, 1):
        one.call(number, query(number, A, f"r{number}.local"))
    for one in deaf:
        one.send(b"".join(query(number, TXT, "big.local") for number in range(1, 65)))
    assert Client(path).has_ended()
    most = 0
    for turn in range(40):
        target.peer.send(response(record("big.local", TXT, bytes([255] + [turn] * 255) * 31, 120)))
        target.peer.send(response(*(record(f"r{number}.local", A, bytes([10, 2, number, turn]), 120, False) for number in range(1, len(readers) + 1))))
        for number, one in enumerate(readers, 1):
            one.expect("add", number, "datum", A, bytes([10, 2, number, turn]))
        most = max(most, target.daemon.status("VmRSS") * 1024)
        assert most < MEMORY, most
    yield target.row(f"64 clients, 32 of which never read, with {40 * 64} answers of 8 KB to each",
                     f"the others get all of theirs and nothing else; memory at most {most / MEGABYTE:.0f} MB", MEMORY)
    cut = sum(is_cut(one) for one in deaf)
    for one in readers:
        one.close()
    assert cut == len(deaf), cut
    time.sleep(2)
    yield target.row("they read at last, and all hang up", f"{cut} were cut", MEMORY)


def is_cut(client):
    """Reads to the end of what a client got."""
    try:
        while client.socket.recv(MEGABYTE):
            pass
    except ConnectionError:
        pass
    client.close()
    return 1


def flood(target, seconds, one, any_port=False):
    """Sends as fast as this script can, from other ports than 5353 where that is wanted, and tells how many it sent."""
    over, count, head = time.monotonic() + seconds, 0, target.peer.head
    while time.monotonic() < over:
        for _ in range(50):
            if any_port:
                target.peer.head = head[:4] + struct.pack(">HIH", 1024 + count % 50_000, 0, 0)
            target.peer.send(one(count))
            count += 1
    target.peer.head = head
    target.catch_up()
    return count


def floods(target, given):
    equal, different = questions("a.local", [A] * 1490), questions("a.local", range(1, 1491))
    kinds = (("queries for its host", questions("a.local", [A]), False), ("packets of 1,490 equal questions for its host", equal, False),
             ("packets of 1,490 different questions for its host", different, False),
             ("queries for its host, from other ports", questions("a.local", [A]), True))
    for what, one, any_port in kinds:
        target.replies()
        count = flood(target, given.seconds, lambda number, one=one: one, any_port)
        sent = target.replies()
        yield target.row(f"{count:,} {what} in {given.seconds:g} s", f"{sent:,} responses" + (", and what the script couldn't take" if any_port else ""))
    target.send((message(line) for line in packets([short(number) for number in range(32_000)], 512)), 1)
    yield target.row("32,000 records", "held")
    fresh = lambda number: response(*(record(f"f{number}-{place}.local", A, bytes(4), 120) for place in range(20)))
    count = flood(target, given.seconds, fresh)
    yield target.row(f"{20 * count:,} new records with the table nearly full, in {given.seconds:g} s", "held up to the limit, then refused")


def few_descriptors(program, folder, limit):
    """A daemon that may have so many files open: whoever finds no room waits, and is served once others leave."""
    own, played = free_ports(2)
    limits = resource.getrlimit(resource.RLIMIT_NOFILE)
    resource.setrlimit(resource.RLIMIT_NOFILE, (limit, limits[1]))
    try:
        daemon = Daemon(program, folder, "few", "10.0.0.1", own, [played])
    finally:
        resource.setrlimit(resource.RLIMIT_NOFILE, limits)
    good = Good(daemon.path)
    clients = [Client(daemon.path) for _ in range(60)]
    for one in clients:
        one.send(query(1, A, "nobody.local"))
    time.sleep(1)
    served = [one for one in clients if select.select([one.socket], [], [], 0)[0]]
    for one in served:
        one.expect("reply", 1, 1, 0)
    assert 0 < len(served) < 30, len(served)
    told = good.told()
    for one in clients[:-1]:
        one.close()
    clients[-1].expect("reply", 1, 1, 0)
    clients[-1].close()
    assert daemon.process.poll() is None
    row = (f"60 connections where {limit} files may be open", f"{len(served)} are served, the others wait; once these have left, the last is served",
           f"{told}; then {good.told()}", f"{daemon.status('VmRSS') / 1024:.0f} MB")
    good.end()
    daemon.end()
    return row


def rows(given):
    with tempfile.TemporaryDirectory() as folder:
        target = Target(given.program, folder)
        try:
            for part in (broken_packets, connections, deaf_clients, floods):
                yield from part(target, given)
        finally:
            target.end()
        for limit in (40, 41):
            # A session takes two files. So in one of the cases one more can be accepted, but has no second file.
            yield few_descriptors(given.program, folder, limit)


def main():
    words = argparse.ArgumentParser(description=__doc__, formatter_class=argparse.RawDescriptionHelpFormatter)
    words.add_argument("program", nargs="?", default=os.path.join(TOP, "crates", "mdnsd", "out", "mdnsd"))
    words.add_argument("--packets", metavar="FOLDER")
    words.add_argument("--count", type=int, default=10_000)
    words.add_argument("--seconds", type=float, default=5)
    words.add_argument("--seed", type=int, default=1)
    print("| Thrown | What came | The good client | Memory |\n|---|---|---|---|")
    for row in rows(words.parse_args()):
        print("| " + " | ".join(row) + " |", flush=True)
    print("\nIt stayed up, and answered the good client within a second throughout.")


if __name__ == "__main__":
    sys.exit(main())
