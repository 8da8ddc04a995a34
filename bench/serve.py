#!/usr/bin/env python3
"""Measures the program that serves, on real sockets: starts `mdnsd serve`, and prints one table.

    python3 bench/serve.py [PROGRAM] [--idle SECONDS]

PROGRAM is crates/mdnsd/out/mdnsd where none is given, which is built where it isn't yet. An idle daemon is watched for 600 seconds
where no other number is given. Nothing here is part of the gate.
"""
import argparse
import os
import statistics
import struct
import subprocess
import tempfile
import threading
import time

from frames import Client, Daemon, Peer, browse, free_ports, query, stop
from held import address, packets
from tools import TOP, table

CALLS = 2000


def message(line):
    """The packet of a script's line that hears it."""
    return bytes.fromhex(line.split()[-1])


def started(program, folder, name="a"):
    own, other = free_ports(2)
    daemon = Daemon(program, folder, name, "10.0.0.1", own, [other])
    return daemon, Peer(other, [own])


class Marker:
    """A question of a session whose answers come one by one, each behind the packets that were sent before it."""

    def __init__(self, peer, client):
        self.peer, self.client, self.sent = peer, client, 0
        client.send(query(1, 1, "marker.local"))
        client.expect("reply", 1, 1, 0)

    def wait(self):
        """Waits until the daemon has heard all that was sent so far. Of each address but the last nothing is kept."""
        self.sent += 1
        self.peer.send(message(packets([address(self.sent, "marker", flush=True)])[0]))
        while self.client.next()[:3] != ("add", 1, "datum"):
            pass


def hold(marker, count):
    """Lets the daemon hold so many records. The relay drops packets where too many wait, so they go in small groups."""
    for number, line in enumerate(packets([address(number) for number in range(count)])):
        marker.peer.send(message(line))
        if number % 10 == 9:
            marker.wait()
    marker.wait()


def call_times(client, count):
    """Seconds from each call to its reply, with the stop of each between them."""
    times = []
    for number in range(1000, 1000 + count):
        begun = time.perf_counter()
        client.send(query(number, 1, "nothing.local"))
        client.expect("reply", number, 1, 0)
        times.append(time.perf_counter() - begun)
        client.send(stop(number))
        client.expect("reply", number, 3, 0)
    return times


def told(times):
    ordered = sorted(times)
    return f"{statistics.median(times) * 1e6:,.0f} µs, 99 of 100 within {ordered[len(ordered) * 99 // 100] * 1e6:,.0f} µs"


def heard_a_second(marker):
    """Packets that the daemon hears a second, each with one record that is held, in groups of fifty."""
    groups, each = 400, 50
    lines = [message(line) for line in packets([address(number) for number in range(1000)], 1)]
    begun = time.perf_counter()
    for number in range(groups):
        first = number * each % len(lines)
        for line in lines[first:first + each]:
            marker.peer.send(line)
        marker.wait()
    return groups * (each + 1) / (time.perf_counter() - begun)


def flooded(peer, client):
    """Calls while packets come as fast as they can be sent."""
    line, over = message(packets([address(1)], 1)[0]), threading.Event()

    def flood():
        while not over.is_set():
            peer.send(line)

    thread = threading.Thread(target=flood)
    thread.start()
    try:
        return call_times(client, 500)
    finally:
        over.set()
        thread.join()


def rows(program, idle):
    with tempfile.TemporaryDirectory() as folder:
        begun = time.perf_counter()
        daemon, peer = started(program, folder)
        try:
            yield "start, until it serves", f"{(time.perf_counter() - begun) * 1e3:.1f} ms", ""
            yield "memory at rest", f"{daemon.status('VmRSS'):,} kB, {daemon.status('Threads')} threads", ""
            before = daemon.processor_seconds()
            time.sleep(idle)
            yield f"idle for {idle} s", f"{(daemon.processor_seconds() - before) * 1e3:.0f} ms of a processor", ""
            clients = [Client(daemon.path) for _ in range(9)]
            yield "call to reply, idle", told(call_times(clients[0], CALLS)), ""
            for client in clients[1:]:
                client.send(browse(1, "_ipp._tcp"))
                client.expect("reply", 1, 1, 0)
            marker = Marker(peer, Client(daemon.path))
            hold(marker, 1000)
            yield "call to reply, 1,000 records held", told(call_times(clients[0], CALLS)), ""
            yield "packets heard, 1,000 records, ten sessions", f"{heard_a_second(marker):,.0f} a second", ""
            yield "call to reply, flood of packets", told(flooded(peer, clients[0])), ""
            hold(marker, 30_000)
            yield "memory with 30,000 records held", f"{daemon.status('VmRSS'):,} kB, {daemon.status('Threads')} threads", ""
            yield "call to reply, 30,000 records held", told(call_times(clients[0], CALLS)), ""
            for client in clients + [marker.client]:
                client.close()
        finally:
            daemon.end()


def main():
    words = argparse.ArgumentParser()
    words.add_argument("program", nargs="?")
    words.add_argument("--idle", type=float, default=600)
    given = words.parse_args()
    program = given.program
    if program is None:
        subprocess.run([os.path.join(TOP, "mdnsd"), "--version"], stdout=subprocess.DEVNULL, check=True)
        program = os.path.join(TOP, "crates", "mdnsd", "out", "mdnsd")
    table(rows(program, given.idle))


if __name__ == "__main__":
    main()
