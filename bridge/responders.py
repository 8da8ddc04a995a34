"""The bridge and other responders: zeroconf for Python, Avahi, and the real daemon and tool where they are built.

bridge/test.py runs these. Nothing here is part of the gate.
"""
import contextlib
import os
import select
import shutil
import signal
import socket
import struct
import subprocess
import sys
import tempfile
import time
import unittest

from link import BRIDGE, DAEMON, FAR, FAR_TOO, GROUP, HERE, LIMIT, NEAR, PORT, RELAY, Bridged, Running, arrival, namespace, relayed, run, udp

TOP = os.path.dirname(HERE)
sys.path.insert(0, os.path.join(TOP, "bench"))
from end_to_end import announcement
from frames import Client, browse, register, resolve, stop, update, wire

PROGRAMS = {name: os.path.join(TOP, "crates", name, "out", name) for name in ("mdnsd", "dns_sd")}
TYPE, PRINTER = "_ipp._tcp", "Office._ipp._tcp.local"
PTR, SRV, UNICAST = 12, 33, 0x8000
# Announces a service, with TTLs of its own where they are given, and says which others it finds and what it knows of them.
ZEROCONF = """
import queue, signal, socket, sys, zeroconf
signal.signal(signal.SIGTERM, lambda *_: sys.exit())
link = zeroconf.Zeroconf(interfaces=[sys.argv[1]], ip_version=zeroconf.IPVersion.V4Only)
own = zeroconf.ServiceInfo("_ipp._tcp.local.", "Zero._ipp._tcp.local.", addresses=[socket.inet_aton(sys.argv[1])],
                           port=8080, properties={"a": "1"}, server="zero.local.",
                           **{ttl: int(word) for word in sys.argv[2:] for ttl in ("host_ttl", "other_ttl")})
print("registering", flush=True)
link.register_service(own, allow_name_change=True)
print("registered", own.name, flush=True)
changes = queue.Queue()
def changed(zeroconf, service_type, name, state_change):
    changes.put((state_change.name, name))
seeker = zeroconf.ServiceBrowser(link, "_ipp._tcp.local.", handlers=[changed])
try:
    while True:
        state, name = changes.get()
        info = None if state == "Removed" else link.get_service_info("_ipp._tcp.local.", name)
        print(state, name, *([info.port, info.text.hex(), *info.parsed_addresses()] if info else []), flush=True)
finally:
    link.close()
"""
# The bus by which Avahi's own tools reach it.
BUS = """<busconfig><type>system</type><listen>unix:path=/run/dbus/system_bus_socket</listen><auth>EXTERNAL</auth>
<policy context="default"><allow send_destination="*" eavesdrop="true"/><allow eavesdrop="true"/><allow own="*"/><allow user="*"/></policy>
</busconfig>
"""
AVAHI = """[server]
host-name={}
use-ipv6=no
enable-dbus={}
allow-interfaces=link1
"""
AVAHI_SERVICE = """<?xml version="1.0" standalone='no'?>
<!DOCTYPE service-group SYSTEM "avahi-service.dtd">
<service-group><name>Hall</name>
<service><type>_ipp._tcp</type><port>631</port><txt-record>a=1</txt-record></service></service-group>
"""


def start_zeroconf(test, *ttl):
    """A host with zeroconf for Python, which announces `Zero`; with this TTL in seconds where one is given."""
    pythons = [python for python in (sys.executable, "/usr/bin/python3")
               if subprocess.run([python, "-c", "import zeroconf"], capture_output=True, check=False).returncode == 0]
    if not pythons:
        test.skipTest("no zeroconf for Python (python3-zeroconf of Debian)")
    started = Running("far", pythons[0], "-c", ZEROCONF, FAR, *map(str, ttl))
    test.addCleanup(started.drop)
    return started


def start_bus(test):
    """A bus for Avahi's tools, if there can be one."""
    if any(shutil.which(name) is None for name in ("dbus-daemon", "avahi-browse", "avahi-resolve")):
        test.skipTest("no dbus-daemon, or no avahi-utils (of Debian)")
    os.makedirs("/run/dbus", exist_ok=True)
    write("/run/bus.conf", BUS)
    bus = Running("far", "dbus-daemon", "--config-file=/run/bus.conf", "--nofork", "--print-address")
    test.addCleanup(bus.drop)
    bus.waits_for("system_bus_socket")


def write(path, text):
    with open(path, "w", encoding="utf-8") as out:
        out.write(text)


def start_avahi(test, host="far", tools=False, waits=True):
    """A host with Avahi, which announces `Hall`; with a bus for its tools where these are wanted."""
    path = shutil.which("avahi-daemon")
    if path is None or not os.path.isdir("/etc/avahi/services"):
        test.skipTest("no avahi-daemon (of Debian)")
    if tools:
        start_bus(test)
    run("mount", "-t", "tmpfs", "none", "/etc/avahi/services")
    test.addCleanup(run, "umount", "/etc/avahi/services")
    write("/etc/avahi/services/hall.service", AVAHI_SERVICE)
    write("/run/avahi.conf", AVAHI.format(host, "yes" if tools else "no"))
    started = Running("far", path, "--no-drop-root", "--no-chroot", "--no-rlimits", "--no-proc-title", "-f", "/run/avahi.conf")
    test.addCleanup(started.drop)
    if waits:
        started.waits_for("(/etc/avahi/services/hall.service) successfully established", "stderr")
    return started


def publish(test, name, port):
    """A service that Avahi, which runs with a bus, is told to announce."""
    published = Running("far", "avahi-publish", "-s", name, TYPE, str(port), "a=1")
    test.addCleanup(published.drop)
    return published


class Responders(Bridged):
    """Other responders on the link, and a daemon that the test plays."""

    def hears_of(self, name, receiver):
        """Waits until the daemon hears a packet from port 5353 that has this name, or begins so, and went to this receiver."""
        heads = [relayed(address, PORT, *receiver) for address in (FAR, FAR_TOO)]
        while True:
            data = self.daemon.recv(65536)
            if wire(name)[:-1] in data[12:] and data[:12] in heads:
                return

    def asks(self, name, kind, unicast=0):
        self.says(struct.pack(">6H", 0, 0, 1, 0, 0, 0) + wire(name + ".local") + struct.pack(">HH", kind, 1 | unicast))

    def is_asked(self, instance):
        """For its type, with a reply to all; then for itself, with a reply to the daemon alone (RFC 6762 section 5.4)."""
        self.responder.close()
        time.sleep(1.1)  # A record isn't sent to all again within a second (RFC 6762 section 6).
        while select.select([self.daemon], [], [], 0)[0]:
            self.daemon.recv(65536)
        self.asks(TYPE, PTR)
        self.hears_of(instance, ("0.0.0.0", 0))
        for _ in range(2):  # Avahi replies to the asker alone only where it has just replied to all.
            self.asks(f"{instance}.{TYPE}", SRV, UNICAST)
            time.sleep(0.2)
        self.hears_of(instance, (NEAR, PORT))

    def test_zeroconf_is_asked(self):
        start_zeroconf(self).waits_for("registered")
        self.is_asked("Zero")

    def test_avahi_is_asked(self):
        start_avahi(self)
        self.is_asked("Hall")

    def test_zeroconf_asks(self):
        """It finds what the daemon announces, until that says goodbye."""
        other = start_zeroconf(self)
        self.hears_of(TYPE, ("0.0.0.0", 0))
        self.says(announcement())
        other.waits_for(f"Added {PRINTER}.")
        self.says(announcement(0))
        other.waits_for(f"Removed {PRINTER}.")

    def test_avahi_asks(self):
        """Likewise: it resolves what the daemon announces, until that says goodbye."""
        start_avahi(self, tools=True)
        seeker = Running("far", "avahi-browse", "-rpk", TYPE)
        self.addCleanup(seeker.drop)
        self.hears_of(TYPE, ("0.0.0.0", 0))
        self.says(announcement())
        seeker.waits_for(f'=;link1;IPv4;Office;{TYPE};local;office.local;10.0.0.9;631;"a=1"')
        begun = time.monotonic()
        self.says(announcement(0))
        seeker.waits_for(f"-;link1;IPv4;Office;{TYPE};local")
        note(f"Office: gone from avahi-browse {time.monotonic() - begun:.2f} s after the goodbye")


class Served(unittest.TestCase):
    """`mdnsd serve` behind the bridge, with a client."""

    def setUp(self):
        if not os.access(PROGRAMS["mdnsd"], os.X_OK):
            self.skipTest(f"no program at {PROGRAMS['mdnsd']}")
        self.socket = os.path.join(tempfile.mkdtemp(dir="/run"), "s")
        bridge = Running("near", BRIDGE, "--interface", "link0", "--relay", str(RELAY), "--daemon", str(DAEMON))
        self.addCleanup(bridge.drop)
        bridge.waits_for("bridging link0")  # Before the daemon, whose first probes are lost else.
        daemon = Running("near", PROGRAMS["mdnsd"], "serve", "--socket", self.socket, "--host", "near", "--address", NEAR, "--relay", str(DAEMON), str(RELAY))
        self.addCleanup(daemon.end)
        self.addCleanup(lambda: self.assertEqual(bridge.end(), (0, "")))
        daemon.waits_for("serving\n")
        self.client = Client(self.socket)
        self.addCleanup(self.client.close)

    def asks(self, frame, op):
        self.client.send(frame)
        self.client.expect("reply", op, 1, 0)


class Claims(Served):
    """What comes to the link of a daemon that starts."""

    def setUp(self):
        self.host = udp("far", "", PORT, FAR)
        self.addCleanup(self.host.close)
        super().setUp()

    def test_host_is_probed_and_announced(self):
        """Three probes, 250 ms apart, and two announcements, a second apart (RFC 6762 section 8), all to the group."""
        moments = []
        for counts in 3 * [(0, 0, 1, 0, 1, 0)] + 2 * [(0, 0x8400, 0, 1, 0, 0)]:
            packet, *others = arrival(self.host)
            moments.append(time.monotonic())
            self.assertEqual(others, [(NEAR, PORT), GROUP, 255])
            self.assertEqual(packet[:12], struct.pack(">6H", *counts))
            self.assertIn(wire("near.local"), packet)
            self.assertIn(socket.inet_aton(NEAR), packet)
        gaps = [later - sooner for sooner, later in zip(moments, moments[1:])]
        note("between the packets: " + ", ".join(f"{gap * 1e3:.0f} ms" for gap in gaps))
        for gap, wanted in zip(gaps, (0.25, 0.25, 0.25, 1)):  # A busy machine may carry a packet late.
            self.assertGreater(gap, wanted / 2)


class Real(Served):
    """Other responders on the link, and clients that look for what these announce."""

    def finds(self, instance, port, other):
        """The instance is found and resolved, and is gone once its host says goodbye."""
        begun = time.monotonic()
        self.asks(browse(1, TYPE), 1)
        self.client.expect("add", 1, "found", f"{instance}.{TYPE}.local.")
        took = time.monotonic() - begun
        self.asks(resolve(2, instance, TYPE), 2)
        self.assertEqual(self.client.expect("add", 2, "resolved", 0, 0, port)[7], b"\x03a=1")
        self.tool_finds(instance, port)
        begun = time.monotonic()
        other.process.send_signal(signal.SIGTERM)
        self.assertEqual({self.client.next()[:2], self.client.next()[:2]}, {("remove", 1), ("remove", 2)})
        note(f"{instance}: found after {took:.2f} s, gone {time.monotonic() - begun:.2f} s after its host was told to leave")

    def tool_finds(self, instance, port):
        if not os.access(PROGRAMS["dns_sd"], os.X_OK):
            return note(f"dns-sd isn't tried: no program at {PROGRAMS['dns_sd']}")
        for words, line in ((("-B", TYPE), rf"Add found {instance}\.{TYPE}\.local\.\n"),
                            (("-L", instance, TYPE), rf"Add resolved 0 0 {port} [a-z]+\.local\. 03613d31\n")):
            ran = subprocess.run([PROGRAMS["dns_sd"], "-socket", self.socket, "-count", "1", *words],
                                 capture_output=True, text=True, timeout=LIMIT, check=True)
            self.assertRegex(ran.stdout, f"^{line}$")
        return note(f"{instance}: dns-sd printed `{ran.stdout.strip()}`")

    def test_played_printer(self):
        """What the daemon asks comes to the group from port 5353 with TTL 255; a reply to it alone is heard, and a goodbye to all."""
        with contextlib.closing(udp("far", "", PORT, FAR)) as printer:
            self.asks(browse(1, TYPE), 1)
            question = b""
            while wire(TYPE + ".local") not in question:  # A probe of the daemon's host may come before it.
                question, *others = arrival(printer)
                self.assertEqual(others, [(NEAR, PORT), GROUP, 255])
            printer.sendto(announcement(), (NEAR, PORT))
            self.client.expect("add", 1, "found", PRINTER + ".")
            printer.sendto(announcement(0), (GROUP, PORT))
            self.client.expect("remove", 1, "found", PRINTER + ".")

    def test_zeroconf(self):
        other = start_zeroconf(self)
        other.waits_for("registered")
        self.finds("Zero", 8080, other)

    def test_avahi(self):
        self.finds("Hall", 631, start_avahi(self))

    def test_avahi_withdraws(self):
        """Avahi stays, and takes back one service alone."""
        start_avahi(self, tools=True)
        published = publish(self, "Den", 800)
        published.waits_for("Established under name 'Den'", "stderr")
        self.asks(browse(1, TYPE), 1)
        self.assertEqual({self.client.expect("add", 1, "found")[3] for _ in range(2)}, {f"{name}.{TYPE}.local." for name in ("Den", "Hall")})
        begun = time.monotonic()
        published.process.send_signal(signal.SIGTERM)
        self.client.expect("remove", 1, "found", f"Den.{TYPE}.local.")
        note(f"Den: gone {time.monotonic() - begun:.2f} s after avahi-publish was told to leave")


class Found(Served):
    """What a client of `mdnsd` registers, and other responders that look for it, or want its name."""

    def registers(self, label, op=9):
        """The name that the service got."""
        self.client.call(op, register(op, label, TYPE, 700, b"\x03a=1"))
        return self.client.waits_for("add", op, "named")[3].split("." + TYPE)[0]

    def changes(self, op=9):
        self.client.call(op, update(op, b"\x03a=2"), verb=2)

    def test_found_by_zeroconf(self):
        other = start_zeroconf(self)
        other.waits_for("registered")
        self.registers("Desk")
        other.waits_for(f"Added Desk.{TYPE}.local. 700 03613d31 {NEAR}\n")
        self.changes()
        other.waits_for(f"Updated Desk.{TYPE}.local. 700 03613d32 {NEAR}\n")
        self.client.call(9, stop(9), verb=3)
        other.waits_for(f"Removed Desk.{TYPE}.local.")

    def browsed(self, wanted):
        """Waits until a new run of avahi-browse prints this."""
        for _ in range(20):
            with namespace("far"):
                ran = subprocess.run(["avahi-browse", "-rptk", TYPE], capture_output=True, text=True, timeout=LIMIT, check=True)
            if wanted in ran.stdout:
                return
            time.sleep(0.2)
        self.fail(ran.stdout)

    def test_found_by_avahi(self):
        """It asks for the host's address when its announcements are over."""
        time.sleep(3)
        start_avahi(self, tools=True)
        with namespace("far"):
            ran = subprocess.run(["avahi-resolve", "-4", "-n", "near.local"], capture_output=True, text=True, timeout=LIMIT, check=True)
        self.assertEqual(ran.stdout, f"near.local\t{NEAR}\n")
        seeker = Running("far", "avahi-browse", "-rpk", TYPE)
        self.addCleanup(seeker.drop)
        self.registers("Desk")
        line = f"=;link1;IPv4;Desk;{TYPE};local;near.local;{NEAR};700;"
        seeker.waits_for(line + '"a=1"')
        self.changes()
        self.browsed(line + '"a=2"')
        self.client.close()
        seeker.waits_for(f"-;link1;IPv4;Desk;{TYPE};local")

    def test_avahi_was_first(self):
        start_avahi(self)
        self.assertEqual(self.registers("Hall"), "Hall (2)")

    def test_avahi_comes_later(self):
        """It takes other names, for its host too, and ours stay."""
        self.assertEqual(self.registers("Hall"), "Hall")
        other = start_avahi(self, "near", waits=False)
        for words in ("Host name conflict, retrying with near-2", 'retrying with "Hall #2"'):
            other.waits_for(words, "stderr")
        other.waits_for('Service "Hall #2" (/etc/avahi/services/hall.service) successfully established', "stderr")

    def test_avahi_at_the_same_time(self):
        """One of both is renamed."""
        other = start_avahi(self, waits=False)
        other.waits_for("Loading service file /etc/avahi/services/hall.service", "stderr")
        name = self.registers("Hall")
        other.waits_for('Service "Hall', "stderr")
        theirs = "Hall" + other.waits_for('" (/etc/avahi/services/hall.service) successfully established', "stderr")
        self.assertIn((name, theirs), (("Hall", "Hall #2"), ("Hall (2)", "Hall")))
        note(f"at the same time: ours is `{name}`, Avahi's `{theirs}`")

    def test_avahi_probes_at_the_same_time(self):
        """Of two that probe at one time the greater SRV record wins (RFC 6762 section 8.2): Avahi's with port 800, ours with 700 against 600."""
        start_avahi(self, tools=True)
        for label, port, names in (("Den", 800, ("Den (2)", "Den")), ("Loft", 600, ("Loft", "Loft #2"))):
            published = publish(self, label, port)
            name = self.registers(label, port)
            published.waits_for("Established under name '", "stderr")
            theirs = published.waits_for("'\n", "stderr")
            note(f"at the same time: ours is `{name}`, Avahi's `{theirs}`")
            self.assertEqual((name, theirs), names)

    def test_zeroconf_was_first(self):
        start_zeroconf(self).waits_for("registered Zero._ipp")
        self.assertEqual(self.registers("Zero"), "Zero (2)")

    def test_zeroconf_comes_later(self):
        self.assertEqual(self.registers("Zero"), "Zero")
        start_zeroconf(self).waits_for("registered Zero-2._ipp")

    def test_zeroconf_at_the_same_time(self):
        """One of both is renamed."""
        other = start_zeroconf(self)
        other.waits_for("registering")
        name = self.registers("Zero")
        other.waits_for("registered ")
        theirs = other.waits_for(f".{TYPE}.local.")
        note(f"at the same time: ours is `{name}`, zeroconf's `{theirs}`")
        self.assertIn((name, theirs), (("Zero", "Zero-2"), ("Zero (2)", "Zero")))

    def test_zeroconf_is_killed(self):
        """What it announced, with a TTL of 8 s, ends by that."""
        other = start_zeroconf(self, 8)
        other.waits_for("registered")
        self.asks(browse(1, TYPE), 1)
        self.client.expect("add", 1, "found", f"Zero.{TYPE}.local.")
        self.asks(resolve(2, "Zero", TYPE), 2)
        self.client.expect("add", 2, "resolved", 0, 0, 8080)
        begun = time.monotonic()
        other.process.send_signal(signal.SIGKILL)
        self.assertEqual({self.client.next()[:2], self.client.next()[:2]}, {("remove", 1), ("remove", 2)})
        took = time.monotonic() - begun
        note(f"Zero: gone {took:.2f} s after its host was killed")
        self.assertLess(took, 9)

    def test_host_is_asked(self):
        """By a query to all, one that wants a reply to it alone, and one from another port."""
        time.sleep(3)
        question = struct.pack(">6H", 7, 0, 1, 0, 0, 0) + wire("near.local")
        with contextlib.closing(udp("far", "", PORT, FAR)) as host, contextlib.closing(udp("far", FAR, 0, FAR)) as resolver:
            for asker, unicast, receiver, ident in ((host, 0, GROUP, 0), (host, UNICAST, FAR, 0), (resolver, 0, FAR, 7)):
                asker.sendto(question + struct.pack(">HH", 1, 1 | unicast), (GROUP, PORT))
                packet, *others = arrival(asker)
                self.assertEqual(others, [(NEAR, PORT), receiver, 255])
                self.assertEqual(packet[:4], struct.pack(">HH", ident, 0x8400))
                self.assertIn(socket.inet_aton(NEAR), packet)

    def test_avahi_is_killed(self):
        """What it announced ends by its TTL, two minutes at most, and isn't found any more then."""
        other = start_avahi(self)
        self.asks(resolve(2, "Hall", TYPE), 2)
        self.client.expect("add", 2, "resolved", 0, 0, 631)
        begun = time.monotonic()
        other.process.send_signal(signal.SIGKILL)
        self.client.socket.settimeout(130)
        self.client.expect("remove", 2, "resolved", 0, 0, 631)
        note(f"Hall: gone {time.monotonic() - begun:.0f} s after its host was killed")


def note(words):
    print(words, file=sys.stderr, flush=True)
