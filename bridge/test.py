#!/usr/bin/env python3
"""Tries bridge/mdnsd-bridge between two network namespaces, which a pair of virtual interfaces joins.

    python3 bridge/test.py [--mdnsd PROGRAM] [--dns-sd PROGRAM] [-v] [TEST ..]

Most tests play the daemon and the other hosts themselves. It wants `ip` (iproute2), `unshare` and `setpriv` (util-linux), and root or user
namespaces; where namespaces aren't allowed it says so and ends with 0. The real programs (crates/*/out/ where none are named), and
avahi-daemon and zeroconf for Python as other responders, are tried where they are there; with -v a line says which aren't.
"""
import argparse
import contextlib
import os
import signal
import socket
import subprocess
import sys
import unittest

sys.dont_write_bytecode = True
from link import (BRIDGE, DAEMON, FAR, FAR_TOO, GROUP, INSIDE, LIMIT, NEAR, NEAR_TOO, OFF, PORT, RELAY, Bridged, Running, arrival,
                  begin_inside, join_pair, make_namespaces, namespace, relayed, run, set_sysctl, spoofed, stranger, udp)
from responders import PROGRAMS, Claims, Found, Real, Responders  # The tests there are run from here.

SILENCE = 0.5


class Packets(Bridged):
    def test_group_to_daemon(self):
        self.responder.sendto(b"from 5353", (GROUP, PORT))
        self.hears(relayed(FAR, PORT) + b"from 5353")
        self.asker.sendto(b"from another port", (GROUP, PORT))
        self.hears(relayed(FAR, self.asker.getsockname()[1]) + b"from another port")

    def test_one_host_to_daemon(self):
        for own in (NEAR, NEAR_TOO):
            self.responder.sendto(b"to one", (own, PORT))
            self.hears(relayed(FAR if own == NEAR else FAR_TOO, PORT, own, PORT) + b"to one")

    def test_one_host_to_daemon_that_has_sent(self):
        """The daemon passes over what isn't to its own address, and each address of the interface is this host's."""
        self.says(b"mine")
        self.assertEqual(arrival(self.responder)[0], b"mine")
        for own in (NEAR, NEAR_TOO):
            self.responder.sendto(b"to one", (own, PORT))
            self.hears(relayed(FAR if own == NEAR else FAR_TOO, PORT, NEAR, PORT) + b"to one")

    def test_daemon_to_group(self):
        for address in (NEAR, NEAR_TOO):
            self.says(b"to all", address=address)
            self.assertEqual(arrival(self.responder), (b"to all", (address, PORT), GROUP, 255))

    def test_daemon_to_one_host(self):
        self.says(b"reply", FAR, PORT)
        self.assertEqual(arrival(self.responder), (b"reply", (NEAR, PORT), FAR, 255))
        port = self.asker.getsockname()[1]
        self.says(b"reply to another port", FAR, port)
        self.assertEqual(arrival(self.asker), (b"reply to another port", (NEAR, PORT), FAR, 255))
        self.says(b"from the other address", FAR, port, NEAR_TOO)
        self.assertEqual(arrival(self.asker), (b"from the other address", (NEAR_TOO, PORT), FAR, 255))

    def test_asker_on_this_machine(self):
        with contextlib.closing(udp("near", NEAR, 0, NEAR)) as local:
            local.setsockopt(socket.IPPROTO_IP, socket.IP_MULTICAST_LOOP, 1)
            local.sendto(b"query", (GROUP, PORT))
            port = local.getsockname()[1]
            self.hears(relayed(NEAR, port) + b"query")
            self.says(b"reply", NEAR, port)
            self.assertEqual(arrival(local)[:2], (b"reply", (NEAR, PORT)))

    def test_lengths(self):
        for length in (0, 1, 1472, 1473, 8972):
            message = bytes(length)
            self.responder.sendto(message, (GROUP, PORT))
            self.hears(relayed(FAR, PORT) + message)
            self.says(message)
            self.assertEqual(arrival(self.responder)[0], message)
        self.responder.sendto(bytes(8973), (GROUP, PORT))
        self.hears_nothing_of(b"8973 bytes")
        self.says(bytes(8973))
        self.daemon.sendto(relayed(NEAR, PORT)[:11], ("127.0.0.1", RELAY))
        self.says(b"behind them")
        self.assertEqual(arrival(self.responder)[0], b"behind them")

    def test_many(self):
        for number in range(2000):
            message = b"%d" % number
            self.responder.sendto(message, (GROUP, PORT))
            self.hears(relayed(FAR, PORT) + message)
            self.says(message)
            self.assertEqual(arrival(self.responder)[0], message)


class Refused(Bridged):
    def test_echo(self):
        self.says(b"mine")
        self.assertEqual(arrival(self.responder)[0], b"mine")
        self.hears_nothing_of(b"mine")

    def test_echo_that_the_link_sends_back(self):
        with namespace("far"), contextlib.closing(socket.socket(socket.AF_PACKET, socket.SOCK_RAW)) as raw:
            raw.bind(("link1", 0))
            for own in (NEAR, NEAR_TOO):
                raw.send(spoofed(own, PORT, b"mine"))
            self.hears_nothing_of(b"mine")
            # The way that the frames take is open: another port of the same address is no echo.
            raw.send(spoofed(NEAR, 4000, b"not mine"))
            self.hears(relayed(NEAR, 4000) + b"not mine")

    def test_off_link(self):
        with stranger() as other:
            other.sendto(b"off", (GROUP, PORT))
            other.sendto(b"off", (NEAR, PORT))
        self.hears_nothing_of(b"off")

    def test_source_port_0(self):
        with namespace("far"), contextlib.closing(socket.socket(socket.AF_PACKET, socket.SOCK_RAW)) as raw:
            raw.bind(("link1", 0))
            raw.send(spoofed(FAR, 0, b"port 0"))
        self.hears_nothing_of(b"port 0")

    def test_other_receivers(self):
        """Neither broadcasts nor another group, though this namespace is a member of it."""
        with contextlib.closing(udp("near", "", 4001)) as member:
            member.setsockopt(socket.IPPROTO_IP, socket.IP_ADD_MEMBERSHIP, socket.inet_aton("224.0.0.252") + socket.inet_aton(NEAR))
            self.responder.setsockopt(socket.SOL_SOCKET, socket.SO_BROADCAST, 1)
            self.responder.setsockopt(socket.SOL_SOCKET, socket.SO_BINDTODEVICE, b"link1")
            for to in ("192.0.2.255", "255.255.255.255", "224.0.0.252"):
                self.responder.sendto(b"no", (to, PORT))
            self.hears_nothing_of(b"no")

    def test_daemon_to_off_link(self):
        run("ip", "-n", "near", "route", "add", "default", "via", FAR)
        with stranger() as other:
            self.says(b"off", OFF, other.getsockname()[1])
            self.says(b"port 0", FAR, 0)
            self.says(b"behind")
            self.assertEqual(arrival(self.responder)[0], b"behind")
            other.settimeout(SILENCE)
            with self.assertRaises(socket.timeout):
                other.recv(100)
        run("ip", "-n", "near", "route", "delete", "default")

    def test_other_senders_to_the_relay(self):
        with contextlib.closing(udp("near", "127.0.0.1", 0)) as other:
            other.sendto(relayed(NEAR, PORT) + b"no daemon", ("127.0.0.1", RELAY))
        self.says(b"behind")
        self.assertEqual(arrival(self.responder)[0], b"behind")


class AlsoOnLink(Bridged):
    words = ("--also-on-link", "203.0.113.0/24")

    def test_both_ways(self):
        """A gateway is there, and isn't asked: the host is on the link."""
        run("ip", "-n", "near", "route", "add", "default", "via", "192.0.2.77")
        with stranger() as other:
            other.sendto(b"on", (GROUP, PORT))
            port = other.getsockname()[1]
            self.hears(relayed(OFF, port) + b"on")
            self.says(b"reply", OFF, port)
            self.assertEqual(arrival(other), (b"reply", (NEAR, PORT), OFF, 255))
        run("ip", "-n", "near", "route", "delete", "default")


class Changes(Bridged):
    def carries(self):
        self.hears_next(b"in")
        self.says(b"out")
        self.assertEqual(arrival(self.responder)[0], b"out")

    def complains(self, words):
        self.assertEqual(self.bridge.waits_for(f"mdnsd-bridge: {words}\n", "stderr"), "")

    def test_down_and_up(self):
        for name, interface in (("near", "link0"), ("far", "link1")):
            run("ip", "-n", name, "link", "set", interface, "down")
            self.complains("link0 is down; trying again")
            self.says(b"lost")
            run("ip", "-n", name, "link", "set", interface, "up")
            self.bridge.waits_for("bridging link0")
            self.carries()

    def test_deleted_and_made_again(self):
        run("ip", "-n", "near", "link", "delete", "link0")
        self.complains("there is no interface link0; trying again")
        self.says(b"lost")
        join_pair()
        self.complains("link0 is down; trying again")
        self.bridge.waits_for(f"bridging link0 {NEAR}/24 {NEAR_TOO}/24")
        self.responder.close()
        self.responder = udp("far", "", PORT, FAR)
        self.carries()

    def test_addresses(self):
        run("ip", "-n", "near", "address", "delete", NEAR_TOO + "/24", "dev", "link0")
        self.bridge.waits_for(f"bridging link0 {NEAR}/24\n")
        self.carries()
        run("ip", "-n", "near", "address", "delete", NEAR + "/24", "dev", "link0")
        self.complains("link0 has no IPv4 address; trying again")
        for address in (NEAR, NEAR_TOO):
            run("ip", "-n", "near", "address", "add", address + "/24", "dev", "link0")
        self.bridge.waits_for(f"bridging link0 {NEAR}/24 {NEAR_TOO}/24\n")
        self.carries()

    def test_other_interfaces_change(self):
        run("ip", "-n", "near", "link", "add", "other", "type", "veth", "peer", "name", "other-end")
        run("ip", "-n", "near", "link", "delete", "other")
        self.carries()

    def test_port_taken_meanwhile(self):
        run("ip", "-n", "near", "link", "set", "link0", "down")
        self.complains("link0 is down; trying again")
        with contextlib.closing(udp("near", "", PORT)):
            run("ip", "-n", "near", "link", "set", "link0", "up")
            self.bridge.waits_for("UDP port 5353 on link0: Address already in use", "stderr")
            self.bridge.waits_for("; trying again\n", "stderr")
        self.bridge.waits_for("bridging link0")
        self.carries()

    def test_daemon_goes_and_comes(self):
        self.daemon.close()
        for _ in range(3):
            self.responder.sendto(b"lost", (GROUP, PORT))
        self.complains(f"no daemon at UDP port {DAEMON} on 127.0.0.1")
        self.daemon = udp("near", "127.0.0.1", DAEMON)
        self.carries()

    def test_daemon_with_another_address(self):
        self.says(b"out", address="10.0.0.1")
        self.assertEqual(arrival(self.responder)[:2], (b"out", (NEAR, PORT)))
        self.complains("the daemon has --address 10.0.0.1, which is none of link0")
        self.says(b"out", address="10.0.0.1")
        self.carries()


class Starts(unittest.TestCase):
    """How it starts, where it can't, and how it ends."""

    def fails(self, status, words, *given):
        with namespace("near"):
            ran = subprocess.run([*given], capture_output=True, text=True, timeout=LIMIT, check=False)
        self.assertEqual((ran.returncode, ran.stdout), (status, ""), ran.stderr)
        self.assertIn(words, ran.stderr.splitlines()[-1])
        self.assertNotIn("Traceback", ran.stderr)

    def words(self, interface="link0", relay=RELAY, daemon=DAEMON):
        return BRIDGE, "--interface", interface, "--relay", str(relay), "--daemon", str(daemon)

    def started(self, *words):
        bridge = Running("near", *words)
        self.addCleanup(bridge.drop)
        return bridge

    def test_no_interface(self):
        self.fails(1, "there is no interface link9", *self.words("link9"))
        self.fails(1, "there is no interface a-name-of-more-than-15", *self.words("a-name-of-more-than-15"))
        self.fails(1, "lo carries no multicast", *self.words("lo"))

    def test_ports_in_use(self):
        with contextlib.closing(udp("near", "", PORT)):
            self.fails(1, "UDP port 5353 on link0: Address already in use by another responder", *self.words())
        with contextlib.closing(udp("near", "127.0.0.1", RELAY)):
            self.fails(1, f"UDP port {RELAY} on 127.0.0.1: Address already in use", *self.words())

    def test_not_permitted(self):
        """As where SELinux, or the least port for all, forbids it."""
        set_sysctl("near", ip_unprivileged_port_start=6000)
        bare = "setpriv", "--bounding-set", "-all", "--inh-caps", "-all", "--no-new-privs"
        self.fails(1, "UDP port 5353 on link0: Permission denied", *bare, *self.words(relay=6001, daemon=6002))
        set_sysctl("near", ip_unprivileged_port_start=1024)

    def test_no_privilege_is_needed(self):
        bare = "setpriv", "--bounding-set", "-all", "--inh-caps", "-all", "--no-new-privs"
        bridge = self.started(*bare, *self.words())
        bridge.waits_for("bridging link0")
        self.assertEqual(bridge.end(), (0, ""))

    def test_wrong_words(self):
        self.fails(2, "--interface", BRIDGE, "--relay", "5402", "--daemon", "5401")
        self.fails(2, "two ports from 1 to 65535", *self.words(relay=0))
        self.fails(2, "two ports from 1 to 65535", *self.words(daemon=65536))
        self.fails(2, "two ports from 1 to 65535", *self.words(relay=5402, daemon=5402))
        self.fails(2, "--also-on-link", *self.words(), "--also-on-link", "10.0.0.1/8")

    def test_help_says_that_it_is_not_proved(self):
        told = subprocess.run([BRIDGE, "--help"], capture_output=True, text=True, check=True).stdout
        self.assertIn("this program is NOT", told)

    def test_starts_before_its_address(self):
        run("ip", "-n", "near", "link", "set", "link0", "down")
        bridge = self.started(*self.words())
        bridge.waits_for("mdnsd-bridge: link0 is down; trying again\n", "stderr")
        run("ip", "-n", "near", "link", "set", "link0", "up")
        bridge.waits_for("bridging link0")
        self.assertEqual(bridge.end(), (0, ""))

    def test_signals(self):
        for number in (signal.SIGTERM, signal.SIGINT):
            bridge = self.started(*self.words())
            bridge.waits_for("bridging link0")
            self.assertEqual(bridge.end(number), (0, ""))

    def test_two_interfaces(self):
        """A bridge for each of two interfaces, side by side."""
        run("ip", "-n", "near", "link", "add", "other", "type", "veth", "peer", "name", "other-end")
        run("ip", "-n", "near", "address", "add", "10.9.9.9/24", "dev", "other")
        for name in ("other", "other-end"):
            run("ip", "-n", "near", "link", "set", name, "up")
        bridges = [self.started(*self.words()), self.started(*self.words("other", 5412, 5411))]
        for bridge in bridges:
            bridge.waits_for("bridging")
        for bridge in bridges:
            self.assertEqual(bridge.end(), (0, ""))
        run("ip", "-n", "near", "link", "delete", "other")


def main():
    os.environ["PATH"] += ":/usr/sbin:/sbin"
    words = argparse.ArgumentParser(description=__doc__, formatter_class=argparse.RawDescriptionHelpFormatter)
    words.add_argument("--mdnsd", default=PROGRAMS["mdnsd"], metavar="PROGRAM")
    words.add_argument("--dns-sd", default=PROGRAMS["dns_sd"], metavar="PROGRAM")
    given, others = words.parse_known_args()
    PROGRAMS.update(mdnsd=os.path.abspath(given.mdnsd), dns_sd=os.path.abspath(given.dns_sd))
    if INSIDE not in os.environ:
        begin_inside()
    run("mount", "-t", "tmpfs", "none", "/run")
    make_namespaces()
    unittest.main(argv=[sys.argv[0], *others])


if __name__ == "__main__":
    main()
