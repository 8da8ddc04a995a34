#!/usr/bin/env python3
"""Measures responders on the same packets, side by side: `mdnsd serve`, Avahi and zeroconf for Python, where these are installed; prints one table.

    python3 bench/beside.py [PROGRAM]

PROGRAM is crates/mdnsd/out/mdnsd where none is given. Each is started in a network namespace of its own, in which it is the only
responder, and is sent the same packets from another. What is told is the time of a processor that its process took for each packet, the kernel's
part included; `mdnsd` gets its packets over its relay, once without the bridge and once with it, whose time counts then, too. A run in which a
socket dropped a packet isn't counted, and says so. Where namespaces aren't allowed, it says so and ends with 0. Nothing here is part of the gate.
"""
import os
import shutil
import socket
import struct
import subprocess
import sys
import time

from tools import TOP

sys.path.insert(0, os.path.join(TOP, "bridge"))
from link import BRIDGE, DAEMON, FAR, GROUP, INSIDE, NEAR, PORT, RELAY, Running, begin_inside, make_namespaces, namespace, relayed, run, udp  # noqa: E402
from responders import AVAHI, ZEROCONF, write  # noqa: E402

TICK = os.sysconf("SC_CLK_TCK")
PACKETS, GROUP_OF = 6000, 20
A = 1


def name(*labels):
    return b"".join(bytes([len(label)]) + label.encode() for label in labels) + b"\0"


def record(number):
    return name(f"h{number:05}", "local") + struct.pack(">HHIHI", A, 1, 4500, 4, 0x0A000000 + number)


def response(first, count):
    return struct.pack(">6H", 0, 0x8400, 0, count, 0, 0) + b"".join(record(first + number) for number in range(count))


def query(number):
    return struct.pack(">6H", 0, 0, 1, 0, 0, 0) + name(f"n{number:05}", "local") + struct.pack(">HH", A, 1)


def workloads():
    """What is sent before, and what is measured."""
    hundred = [response(first, 10) for first in range(0, 100, 10)]
    yield "ten records that it knows, with 100 that it has heard", hundred, [hundred[number % 10] for number in range(PACKETS)]
    yield "a query for a name that it doesn't have", [], [query(number % 100) for number in range(PACKETS)]


def processor_seconds(all_of):
    seconds = 0
    for one in all_of:
        with open(f"/proc/{one.process.pid}/stat", encoding="utf-8", errors="replace") as it:
            rest = it.read().rpartition(")")[2].split()
        seconds += (int(rest[11]) + int(rest[12])) / TICK
    return seconds


def dropped(where):
    """How many datagrams the sockets of a namespace dropped."""
    with namespace(where):
        told = subprocess.run(["cat", "/proc/thread-self/net/snmp"], capture_output=True, text=True, check=True).stdout
    rows = [line.split() for line in told.splitlines() if line.startswith("Udp:")]
    counts = dict(zip(rows[0][1:], rows[1][1:]))
    return int(counts["InErrors"])


def send(sender, target, packets, head=b""):
    """Sends packets in small groups, so that none is dropped."""
    for number, packet in enumerate(packets):
        sender.sendto(head + packet, target)
        if number % GROUP_OF == GROUP_OF - 1:
            time.sleep(0.01)


def settle(all_of):
    """Waits until programs have come to rest."""
    last, since = processor_seconds(all_of), time.monotonic()
    while time.monotonic() - since < 0.5:
        time.sleep(0.05)
        now = processor_seconds(all_of)
        if now != last:
            last, since = now, time.monotonic()


def cost(all_of, where, sender, target, head=b""):
    """Microseconds of a processor for each packet, by workload; None where packets were dropped."""
    for _, before, packets in workloads():
        send(sender, target, before, head)
        settle(all_of)
        lost, begun = dropped(where), processor_seconds(all_of)
        send(sender, target, packets, head)
        settle(all_of)
        is_whole = dropped(where) == lost
        yield (processor_seconds(all_of) - begun) * 1e6 / len(packets) if is_whole else None


def served(program):
    path = "/run/mdnsd.sock"
    daemon = Running("near", program, "serve", "--socket", path, "--host", "near", "--address", NEAR, "--relay", str(DAEMON), str(RELAY))
    daemon.waits_for("serving\n")
    time.sleep(3)  # Its host is announced twice.
    return daemon


def of_mdnsd(program):
    """`mdnsd serve`, to which the bridge is played."""
    with udp("near", "127.0.0.1", RELAY) as bridge:
        daemon = served(program)
        found = list(cost([daemon], "near", bridge, ("127.0.0.1", DAEMON), relayed(FAR, PORT)))
        daemon.drop()
    return found


def of_bridged(program):
    """`mdnsd serve` and the bridge, which hears the link."""
    bridge = Running("near", BRIDGE, "--interface", "link0", "--relay", str(RELAY), "--daemon", str(DAEMON))
    bridge.waits_for("bridging link0")
    daemon = served(program)
    with udp("far", "", PORT, FAR) as sender:
        found = list(cost([daemon, bridge], "near", sender, (GROUP, PORT)))
    daemon.drop()
    bridge.drop()
    return found


def of_other(words, stream, ready):
    """Another responder, which hears the link itself."""
    other = Running("far", *words)
    other.waits_for(ready, stream)
    with udp("near", "", PORT, NEAR) as sender:
        time.sleep(3)
        found = list(cost([other], "far", sender, (GROUP, PORT)))
    other.drop()
    return found


def of_avahi():
    path = shutil.which("avahi-daemon")
    if path is None:
        return None
    write("/run/avahi.conf", AVAHI.format("far", "no"))
    words = (path, "--no-drop-root", "--no-chroot", "--no-rlimits", "--no-proc-title", "-f", "/run/avahi.conf")
    return of_other(words, "stderr", "Server startup complete")


def of_zeroconf():
    for python in (sys.executable, "/usr/bin/python3"):
        if subprocess.run([python, "-c", "import zeroconf"], capture_output=True, check=False).returncode == 0:
            return of_other((python, "-c", ZEROCONF, FAR), "stdout", "registered")
    return None


def told(value, ours):
    if value is None:
        return "packets were dropped"
    return f"{value:.0f} µs" + (f", {value / ours:.1f} times as much" if ours else "")


def rows(program):
    ours = of_mdnsd(program)
    others = {"`mdnsd serve` with the bridge": of_bridged(program), "Avahi": of_avahi(), "zeroconf for Python": of_zeroconf()}
    for place, (what, _, _) in enumerate(workloads()):
        yield what, "`mdnsd serve`", told(ours[place], None)
        for who, values in others.items():
            yield what, who, told(values[place], ours[place]) if values else "isn't installed"


def main(words):
    os.environ["PATH"] += ":/usr/sbin:/sbin"
    program = os.path.abspath(words[0]) if words else os.path.join(TOP, "crates", "mdnsd", "out", "mdnsd")
    if not os.access(program, os.X_OK):
        sys.exit(f"no program at {program}")
    if INSIDE not in os.environ:
        begin_inside()
    run("mount", "-t", "tmpfs", "none", "/run")
    make_namespaces()
    print("| Each packet | Of | A processor's time |\n|---|---|---|")
    for row in rows(program):
        print("| " + " | ".join(row) + " |", flush=True)


if __name__ == "__main__":
    main(sys.argv[1:])
