#!/usr/bin/env python3
"""A daemon that runs for long: opens and closes many sessions, updates a service many times, and looks at its memory; prints one table.

    python3 bench/months.py [PROGRAM] [--sessions N] [--updates N] [--rest SECONDS]

PROGRAM is crates/mdnsd/out/mdnsd where none is given; N are 100,000 and 10,000. Half of the sessions ask and browse, the others hang up at
once. What it keeps of a record that was multicast is forgotten after a quarter of the record's TTL of 4,500 seconds, so at last it
rests for 1,200 seconds where no other number is given. Nothing here is part of the gate.
"""
import argparse
import os
import tempfile
import time

from frames import Client, Daemon, Peer, browse, free_ports, query, register, update
from tools import TOP

# The allocator keeps some of what it was given back, and the program has touched all of its own pages only after a while.
SLACK = 1024


def sessions(path, count):
    for number in range(count):
        client = Client(path)
        if number % 2:
            client.call(1, query(1, 1, f"h{number % 100}.local"))
            client.call(2, browse(2, "_ipp._tcp"))
        client.close()


def updates(client, count, first=0):
    for number in range(first, first + count):
        text = b"n=%d" % number
        client.call(1, update(1, bytes([len(text)]) + text), verb=2)


def settled(daemon, threads):
    """Waits until the threads of the sessions that are over have ended."""
    deadline = time.monotonic() + 30
    while daemon.status("Threads") > threads and time.monotonic() < deadline:
        Client(daemon.path).close()
        time.sleep(0.2)
    return f"{daemon.status('VmRSS'):,} kB, {daemon.status('Threads')} threads, {len(os.listdir(f'/proc/{daemon.process.pid}/fd'))} files open"


def rows(given, folder):
    own, played = free_ports(2)
    daemon, peer = Daemon(given.program, folder, "a", "10.0.0.1", own, [played]), Peer(played, [own])
    try:
        client = Client(daemon.path)
        client.call(1, register(1, "Long", "_ipp._tcp", 631))
        client.expect("add", 1, "named", "Long._ipp._tcp.local.")
        threads = daemon.status("Threads")
        yield "a service registered", settled(daemon, threads)
        for count in (given.sessions // 100, given.sessions - given.sessions // 100):
            begun = time.monotonic()
            sessions(daemon.path, count)
            yield f"{count:,} sessions opened and closed, {count / (time.monotonic() - begun):,.0f} a second", settled(daemon, threads)
        before = daemon.status("VmRSS")
        begun = time.monotonic()
        updates(client, given.updates)
        yield f"{given.updates:,} updates of the service, {given.updates / (time.monotonic() - begun):,.0f} a second", settled(daemon, threads)
        sessions(daemon.path, given.sessions // 100)
        yield f"{given.sessions // 100:,} sessions more", settled(daemon, threads)
        time.sleep(given.rest)
        updates(client, 1, given.updates)
        time.sleep(3)
        yield f"{given.rest:g} s later, with one update more", settled(daemon, threads)
        after = daemon.status("VmRSS")
        assert after <= before + SLACK, (before, after)
        client.close()
    finally:
        peer.close()
        daemon.end()


def main():
    words = argparse.ArgumentParser()
    words.add_argument("program", nargs="?", default=os.path.join(TOP, "crates", "mdnsd", "out", "mdnsd"))
    words.add_argument("--sessions", type=int, default=100_000)
    words.add_argument("--updates", type=int, default=10_000)
    words.add_argument("--rest", type=float, default=1200)
    print("| Done | Then |\n|---|---|", flush=True)
    with tempfile.TemporaryDirectory() as folder:
        for row in rows(words.parse_args(), folder):
            print("| " + " | ".join(row) + " |", flush=True)
    print("\nIt ends with the memory that it had after its sessions.")


if __name__ == "__main__":
    main()
