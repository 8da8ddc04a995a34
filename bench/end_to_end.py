#!/usr/bin/env python3
"""Tries the program that serves and the tool end to end: two `mdnsd serve` on one relay, clients that speak frames, and `dns-sd`.

    python3 bench/end_to_end.py [MDNSD [DNS_SD]]

Each is taken from its crate's out/ where none is given. Services are registered by clients of the daemons; a third host on the relay,
which the script plays, sends what they don't: goodbyes of its own, and many large records. Each wait has a limit, and what was started
is ended again. Nothing here is part of the gate.
"""
import os
import signal
import struct
import subprocess
import sys
import tempfile
import time

from frames import LIMIT, Client, Daemon, Peer, address, browse, free_ports, query, register, resolve, stop, update, wire
from tools import TOP

TYPE, INSTANCE, HOST = "_ipp._tcp.local", "Office._ipp._tcp.local", "office.local"
A, PTR, TXT, AAAA, SRV = 1, 12, 16, 28, 33
FIRST, SECOND = b"\x03a=1", b"\x03a=2"
ADDRESSES = (bytes([10, 0, 0, 1]), bytes([10, 0, 0, 2]))


def record(owner, kind, data, ttl, flush=True):
    return wire(owner) + struct.pack(">HHIH", kind, 0x8001 if flush else 1, ttl, len(data)) + data


def response(*records):
    return struct.pack(">6H", 0, 0x8400, 0, len(records), 0, 0) + b"".join(records)


def announcement(ttl=120):
    """A printer's records; a goodbye where the TTL is 0."""
    return response(
        record(TYPE, PTR, wire(INSTANCE), ttl, flush=False),
        record(INSTANCE, SRV, struct.pack(">HHH", 0, 0, 631) + wire(HOST), ttl),
        record(INSTANCE, TXT, FIRST, ttl),
        record(HOST, A, bytes([10, 0, 0, 9]), ttl))


class Watch:
    """How long it took since the last look."""

    def __init__(self):
        self.begun = time.monotonic()

    def look(self):
        now = time.monotonic()
        took, self.begun = now - self.begun, now
        return f"{took * 1e3:.0f} ms"


def seekers(daemons):
    """At each daemon a session that browses, and one that resolves the instance and wants its TXT record."""
    found = []
    for daemon in daemons:
        browsing, resolving = Client(daemon.path), Client(daemon.path)
        browsing.call(1, browse(1, "_ipp._tcp"))
        resolving.call(7, resolve(7, "Office", "_ipp._tcp"))
        found.append((browsing, resolving))
    return found


def a_service_comes_changes_and_goes(daemons):
    """Registered at the first daemon: found and resolved at both, with an update; another host's one of that name gets the next number."""
    sessions, watch = seekers(daemons), Watch()
    owner, other = Client(daemons[0].path), Client(daemons[1].path)
    owner.call(1, register(1, "Office", "_ipp._tcp", 631, FIRST))
    owner.expect("add", 1, "named", INSTANCE + ".")
    print("named", watch.look(), "after it was registered")
    for browsing, resolving in sessions:
        browsing.expect("add", 1, "found", INSTANCE + ".")
        resolving.expect("add", 7, "resolved", 0, 0, 631, "a.local.", FIRST)
    print("found and resolved at both daemons", watch.look(), "later")
    owner.call(1, update(1, SECOND), verb=2)
    for _, resolving in sessions:
        resolving.waits_for("add", 7, "resolved", 0, 0, 631, "a.local.", SECOND)
    print("updated at both", watch.look(), "after the call")
    other.call(2, register(2, "Office", "_ipp._tcp", 632))
    other.expect("add", 2, "named", "Office (2)._ipp._tcp.local.")
    other.call(3, register(3, "Office", "_ipp._tcp", 633, rename=False))
    other.expect("add", 3, "conflict")
    print("of the same name at the other: `Office (2)`, and a conflict without renaming, after", watch.look())
    for browsing, _ in sessions:
        browsing.waits_for("add", 1, "found", "Office (2)._ipp._tcp.local.")
    addresses_and_queries(daemons)
    watch.look()
    owner.close()
    for browsing, resolving in sessions:
        browsing.waits_for("remove", 1, "found", INSTANCE + ".")
        resolving.waits_for("remove", 7, "resolved", 0, 0, 631, "a.local.", SECOND)
    print("gone at both", watch.look(), "after its client hung up")
    other.call(2, stop(2), verb=3)
    for browsing, resolving in sessions:
        browsing.waits_for("remove", 1, "found", "Office (2)._ipp._tcp.local.")
        browsing.call(1, stop(1), verb=3)
        browsing.close()
        resolving.close()
    print("and the other", watch.look(), "after it was stopped")
    other.close()


def addresses_and_queries(daemons):
    """Each daemon knows both hosts' addresses and the instance's TXT record; where a host has no IPv6 address nothing is answered."""
    for daemon in daemons:
        with_all = Client(daemon.path)
        for number, (host, data) in enumerate(zip("ab", ADDRESSES), 1):
            with_all.call(number, query(number, A, f"{host}.local"))
            with_all.waits_for("add", number, "datum", A, data)
            with_all.call(number + 10, address(number + 10, 3, f"{host}.local"))
            with_all.waits_for("add", number + 10, "datum", A, data)
        with_all.call(20, query(20, TXT, INSTANCE))
        with_all.waits_for("add", 20, "datum", TXT, SECOND)
        with_all.call(21, query(21, AAAA, "a.local"))
        with_all.call(21, stop(21), verb=3)
        with_all.close()
    print("both daemons answer for the addresses of both hosts")


def a_third_host(daemons, peer):
    """A printer that says goodbye itself; a frame that is none ends its session alone."""
    sessions = seekers(daemons)
    peer.send(announcement())
    for browsing, resolving in sessions:
        browsing.expect("add", 1, "found", INSTANCE + ".")
        resolving.expect("add", 7, "resolved", 0, 0, 631, HOST + ".", FIRST)
    broken = Client(daemons[1].path)
    broken.send(b"\0\0\0\4abcd")
    assert broken.has_ended()
    peer.send(announcement(0))
    for browsing, resolving in sessions:
        browsing.expect("remove", 1, "found", INSTANCE + ".")
        resolving.expect("remove", 7, "resolved")
        browsing.close()
        resolving.close()
    broken.close()
    print("a third host comes and says goodbye; what is no frame ends one session alone")


def sixty_four_sessions(daemon):
    """64 clients are served at a time; the next is finished at once, and one that comes behind one that left is served."""
    clients = [Client(daemon.path) for _ in range(64)]
    for client in clients:
        client.call(1, query(1, A, HOST))
    assert Client(daemon.path).has_ended()
    clients.pop().close()
    deadline = time.monotonic() + LIMIT
    while True:
        one = Client(daemon.path)
        try:
            one.call(1, query(1, A, HOST))
            break
        except (EOFError, ConnectionError):
            assert time.monotonic() < deadline
    for client in clients + [one]:
        client.close()
    print("64 sessions, and no more")


def silent_clients(daemon):
    """One client sends half a frame and stays, another never reads: a third is served all the same."""
    half, deaf, third = Client(daemon.path), Client(daemon.path), Client(daemon.path)
    half.send(query(1, A, HOST)[:7])
    for number in range(1, 2000):
        deaf.send(query(1, A, HOST) + stop(1))
    third.call(1, query(1, A, HOST))
    for client in (half, deaf, third):
        client.close()
    print("served beside a client that sends half a frame, and one that doesn't read")


def full_queue(daemon, peer):
    """A client that doesn't read is cut once 16 MiB are queued for it; what it reads then are whole frames, and another is served on."""
    deaf, other = Client(daemon.path), Client(daemon.path)
    for number in range(1, 65):
        deaf.call(number, query(number, TXT, "big.local"))
    other.call(1, query(1, A, "small.local"))
    for number in range(60):
        peer.send(response(record("big.local", TXT, bytes([255]) * 8100 + struct.pack(">I", number), 120)))
        if number % 3 == 2:
            peer.send(response(record("small.local", A, bytes([10, 1, 0, number]), 120)))
            other.waits_for("add", 1, "datum", A, bytes([10, 1, 0, number]))
    items, wanted = 0, 64 * 60
    try:
        while True:
            deaf.next()
            items += 1
    except (EOFError, ConnectionError):
        assert items < wanted
    other.call(2, query(2, A, "b.local"))
    for client in (deaf, other):
        client.close()
    print(f"a client that doesn't read is cut: it got {items} items of {wanted}, and the other all of its own")


def tool(dns_sd, daemon, *words):
    """Starts the tool."""
    return subprocess.Popen([dns_sd, "-socket", daemon.path, *words], stdout=subprocess.PIPE, stderr=subprocess.PIPE)


def expect_printed(run, words, lines, status):
    out, err = run.communicate(timeout=LIMIT)
    assert (out.decode(), run.returncode) == (lines, status), (words, out, err, run.returncode)


def tools(dns_sd, daemons):
    """What `dns-sd` prints of a service that another run of it registers: while it comes, while it is there, and when that run is killed."""
    instance = "Hall._ipp._tcp.local."
    commands = [(["-B", "_ipp._tcp"], f"found {instance}"), (["-L", "Hall", "_ipp._tcp"], "resolved 0 0 631 a.local. 03613d31"),
                (["-Q", "a.local"], "A 10.0.0.1"), (["-Q", "Hall._ipp._tcp.local", "TXT"], "TXT 03613d31"), (["-G", "v4", "b.local"], "A 10.0.0.2")]
    runs = [(tool(dns_sd, daemon, "-count", "1", *words), words, line) for daemon in daemons for words, line in commands]
    watching = [tool(dns_sd, daemon, "-count", "2", "-B", "_ipp._tcp") for daemon in daemons]
    owner = tool(dns_sd, daemons[0], "-R", "Hall", "_ipp._tcp", "local", "631", "a=1")
    assert owner.stdout.readline().decode() == f"Add named {instance}\n"
    for run, words, line in runs:
        expect_printed(run, words, f"Add {line}\n", 0)
    for daemon in daemons:
        for words, line in commands:
            expect_printed(tool(dns_sd, daemon, "-count", "1", *words), words, f"Add {line}\n", 0)
    owner.send_signal(signal.SIGKILL)
    for run in watching:
        expect_printed(run, ["-B"], f"Add found {instance}\nRmv found {instance}\n", 0)
    owner.communicate(timeout=LIMIT)
    words = ["-R", "Hall", "_ipp.tcp", "local", "631"]
    expect_printed(tool(dns_sd, daemons[0], *words), words, "refused -65540\n", 3)
    print("dns-sd prints what comes, what is there and what goes with a client that is killed, and that a type is refused")


def killed(mdnsd, dns_sd, folder, ports, other):
    """A daemon that is killed ends its clients and says no goodbye; the next one takes its socket and its names; a third is refused meanwhile."""
    own, *peers = ports
    daemon = Daemon(mdnsd, folder, "c", "10.0.0.3", own, peers)
    service = tool(dns_sd, daemon, "-R", "Attic", "_http._tcp", "local", "80")
    assert service.stdout.readline() == b"Add named Attic._http._tcp.local.\n"
    run = tool(dns_sd, daemon, "-B", "_http._tcp")
    assert run.stdout.readline() == b"Add found Attic._http._tcp.local.\n"
    expect_printed(tool(dns_sd, other, "-count", "1", "-B", "_http._tcp"), ["-B"], "Add found Attic._http._tcp.local.\n", 0)
    daemon.process.send_signal(signal.SIGKILL)
    daemon.process.wait(LIMIT)
    expect_printed(run, ["-B"], "", 4)
    expect_printed(service, ["-R"], "", 4)
    expect_printed(tool(dns_sd, daemon, "-B", "_ipp._tcp"), ["-B"], "", 2)
    expect_printed(tool(dns_sd, other, "-count", "1", "-B", "_http._tcp"), ["-B"], "Add found Attic._http._tcp.local.\n", 0)
    again = Daemon(mdnsd, folder, "c", "10.0.0.3", own, peers)
    words = [mdnsd, "serve", "--socket", again.path, "--host", "d", "--address", "10.0.0.4", "--relay", str(free_ports(1)[0])]
    refused = subprocess.run(words, capture_output=True, timeout=LIMIT)
    assert refused.returncode == 9 and refused.stdout == b"" and refused.stderr.count(b"\n") == 1, refused
    print("a socket that was left is taken over, and one in use is refused:", refused.stderr.decode().strip())
    words = ["-count", "1", "-R", "Attic", "_http._tcp", "local", "80"]
    expect_printed(tool(dns_sd, again, *words), words, "Add named Attic._http._tcp.local.\n", 0)
    again.end()
    print("a daemon that is killed ends its clients; its records stay with the others, and started again it gets its names again")


def scenario(mdnsd, dns_sd):
    with tempfile.TemporaryDirectory() as folder:
        one, two, three, played = free_ports(4)
        daemons, peer = [], Peer(played, [one, two])
        try:
            daemons.append(Daemon(mdnsd, folder, "a", "10.0.0.1", one, [two, three, played]))
            daemons.append(Daemon(mdnsd, folder, "b", "10.0.0.2", two, [one, three, played]))
            a_service_comes_changes_and_goes(daemons)
            a_third_host(daemons, peer)
            sixty_four_sessions(daemons[0])
            silent_clients(daemons[0])
            full_queue(daemons[1], peer)
            tools(dns_sd, daemons)
            killed(mdnsd, dns_sd, folder, (three, one, two), daemons[0])
            print("all as wanted")
        finally:
            peer.close()
            for daemon in daemons:
                daemon.end()


def main():
    given = sys.argv[1:]
    programs = [os.path.join(TOP, "crates", crate, "out", crate) for crate in ("mdnsd", "dns_sd")]
    scenario(*(given + programs[len(given):]))


if __name__ == "__main__":
    main()
