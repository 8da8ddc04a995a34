"""The link that the bridge is tried on: two network namespaces that a pair of virtual interfaces joins, and what sends and hears there.

In `near` are the bridge and a daemon, in `far` the other hosts. All of it vanishes with the script. Nothing here is part of the gate.
"""
import contextlib
import ctypes
import os
import shutil
import signal
import socket
import struct
import subprocess
import sys
import time
import unittest

HERE = os.path.dirname(os.path.abspath(__file__))
BRIDGE = os.path.join(HERE, "mdnsd-bridge")
INSIDE = "MDNSD_BRIDGE_TEST"
GROUP, PORT = "224.0.0.251", 5353
NEAR, NEAR_TOO, FAR, FAR_TOO, OFF = "192.0.2.1", "198.51.100.1", "192.0.2.2", "198.51.100.2", "203.0.113.7"
RELAY, DAEMON = 5402, 5401
LIMIT = 30.0
CLONE_NEWNET = 0x40000000
IP_PKTINFO, IP_RECVTTL = 8, 12


def run(*words):
    subprocess.run(words, check=True, capture_output=True, text=True)


@contextlib.contextmanager
def namespace(name):
    """Within it, sockets and processes are made in this network namespace. They stay there."""
    libc = ctypes.CDLL(None, use_errno=True)
    with open("/proc/self/ns/net", "rb") as own, open(f"/run/netns/{name}", "rb") as other:
        for entered in (other, own):
            if libc.setns(entered.fileno(), CLONE_NEWNET):
                raise OSError(ctypes.get_errno(), "setns")
            if entered is other:
                try:
                    yield
                except BaseException:
                    libc.setns(own.fileno(), CLONE_NEWNET)
                    raise


def set_sysctl(name, **values):
    with namespace(name):
        for path, value in values.items():
            run("sh", "-c", f"echo {value} > /proc/sys/net/ipv4/{path.replace('__', '/')}")


def join_pair():
    """The virtual interfaces, with their addresses."""
    run("ip", "-n", "near", "link", "add", "link0", "type", "veth", "peer", "name", "link1", "netns", "far")
    for name, interface, addresses in (("near", "link0", (NEAR, NEAR_TOO)), ("far", "link1", (FAR, FAR_TOO))):
        for address in addresses:
            run("ip", "-n", name, "address", "add", address + "/24", "dev", interface)
        run("ip", "-n", name, "link", "set", interface, "up")


def make_namespaces():
    for name in ("near", "far"):
        run("ip", "netns", "add", name)
        run("ip", "-n", name, "link", "set", "lo", "up")
        # No filter of the kernel is to refuse what the bridge has to.
        set_sysctl(name, conf__all__rp_filter=0, conf__default__rp_filter=0, conf__all__accept_local=1)
    join_pair()


def udp(where, address="", port=0, group_from=None):
    """A UDP socket in a namespace; a member of the group that sends to it from `group_from`, where that is given."""
    with namespace(where):
        made = socket.socket(socket.AF_INET, socket.SOCK_DGRAM)
    made.settimeout(LIMIT)
    made.setsockopt(socket.SOL_SOCKET, socket.SO_REUSEADDR, 1)
    made.bind((address, port))
    if group_from:
        made.setsockopt(socket.IPPROTO_IP, socket.IP_MULTICAST_IF, socket.inet_aton(group_from))
        made.setsockopt(socket.IPPROTO_IP, socket.IP_ADD_MEMBERSHIP, socket.inet_aton(GROUP) + socket.inet_aton(group_from))
        made.setsockopt(socket.IPPROTO_IP, socket.IP_MULTICAST_LOOP, 0)
    for option in (IP_PKTINFO, IP_RECVTTL):
        made.setsockopt(socket.IPPROTO_IP, option, 1)
    return made


def arrival(one):
    """The next packet: its bytes, the place it came from, the address it came to, and its TTL."""
    data, ancillary, _, source = one.recvmsg(65536, 256)
    told = {kind: value for _, kind, value in ancillary}
    return data, source, socket.inet_ntoa(told[IP_PKTINFO][8:12]), struct.unpack("@i", told[socket.IP_TTL])[0]


def relayed(source, port, to="0.0.0.0", to_port=0):
    """What a relay puts before a packet."""
    return socket.inet_aton(source) + struct.pack(">H", port) + socket.inet_aton(to) + struct.pack(">H", to_port)


def spoofed(source, port, message):
    """An Ethernet frame with a packet to the group from any address."""
    datagram = struct.pack(">HHHH", port, PORT, 8 + len(message), 0) + message
    head = struct.pack(">BBHHHBBH", 0x45, 0, 20 + len(datagram), 1, 0, 255, 17, 0) + socket.inet_aton(source) + socket.inet_aton(GROUP)
    total = sum(struct.unpack(">10H", head))
    while total >> 16:
        total = (total & 0xFFFF) + (total >> 16)
    head = head[:10] + struct.pack(">H", total ^ 0xFFFF) + head[12:]
    return bytes.fromhex("01005e0000fb020000000099") + b"\x08\x00" + head + datagram


class Running:
    """A program in a namespace, and the lines that it says."""

    def __init__(self, where, *words):
        with namespace(where):
            self.process = subprocess.Popen(words, stdout=subprocess.PIPE, stderr=subprocess.PIPE)
        self.streams = {"stdout": self.process.stdout, "stderr": self.process.stderr}
        self.said = {"stdout": "", "stderr": ""}
        for stream in self.streams.values():
            os.set_blocking(stream.fileno(), False)

    def read(self, stream):
        with contextlib.suppress(BlockingIOError):
            while piece := os.read(self.streams[stream].fileno(), 65536):
                self.said[stream] += piece.decode()

    def waits_for(self, words, stream="stdout"):
        """Waits until it said these words."""
        deadline = time.monotonic() + LIMIT
        while words not in self.said[stream]:
            self.read(stream)
            assert time.monotonic() < deadline, (words, self.said)
            time.sleep(0.01)
        before, _, self.said[stream] = self.said[stream].partition(words)
        return before

    def end(self, number=signal.SIGTERM):
        """Its status, and what it said on standard error that wasn't waited for."""
        self.process.send_signal(number)
        status = self.process.wait(LIMIT)
        self.read("stderr")
        self.close()
        return status, self.said["stderr"]

    def close(self):
        for stream in self.streams.values():
            stream.close()

    def drop(self):
        """Ends it where it runs yet."""
        if self.process.poll() is None:
            self.end(signal.SIGKILL)
        self.close()


@contextlib.contextmanager
def stranger():
    """A host of the link, with an address that is on none of the bridge's subnets."""
    run("ip", "-n", "far", "address", "add", OFF + "/24", "dev", "link1")
    try:
        with contextlib.closing(udp("far", OFF, 0, OFF)) as made:
            yield made
    finally:
        run("ip", "-n", "far", "address", "delete", OFF + "/24", "dev", "link1")


class Bridged(unittest.TestCase):
    """A bridge that runs, a daemon that the test plays, and hosts of the link."""
    words = ()

    def setUp(self):
        self.daemon = udp("near", "127.0.0.1", DAEMON)
        self.responder = udp("far", "", PORT, FAR)
        self.asker = udp("far", FAR, 0, FAR)
        self.bridge = Running("near", BRIDGE, "--interface", "link0", "--relay", str(RELAY), "--daemon", str(DAEMON), *self.words)
        self.addCleanup(self.bridge.drop)
        self.bridge.waits_for(f"bridging link0 {NEAR}/24 {NEAR_TOO}/24\n")

    def tearDown(self):
        for one in (self.daemon, self.responder, self.asker):
            one.close()
        self.assertEqual(self.bridge.end(), (0, ""))

    def says(self, message, to="0.0.0.0", port=0, address=NEAR):
        """The daemon sends a message."""
        self.daemon.sendto(relayed(address, PORT, to, port) + message, ("127.0.0.1", RELAY))

    def hears(self, wanted):
        """The next datagram of the daemon is this one, and it is the bridge's."""
        data, source = self.daemon.recvfrom(65536)
        self.assertEqual((data, source), (wanted, ("127.0.0.1", RELAY)))

    def hears_next(self, message):
        """So nothing that was sent before was carried."""
        self.responder.sendto(message, (GROUP, PORT))
        self.hears(relayed(FAR, PORT) + message)

    def hears_nothing_of(self, message):
        self.hears_next(b"behind " + message)


def begin_inside():
    """Begins the script again in namespaces of its own. Says so and ends with 0 where these aren't allowed."""
    missing = [tool for tool in ("ip", "unshare", "setpriv", "mount") if shutil.which(tool) is None]
    if missing:
        sys.exit(print("skipped: there is no", *missing, "here"))
    for words in (["unshare", "--net", "--mount"], ["unshare", "--user", "--map-root-user", "--net", "--mount"]):
        attempt = ["sh", "-c", "mount -t tmpfs none /run && ip netns add near"]
        tried = subprocess.run(words + attempt, capture_output=True, text=True, check=False)
        if tried.returncode == 0:
            os.environ[INSIDE] = "yes"
            os.execvp(words[0], words + [sys.executable, *sys.argv])
    sys.exit(print("skipped: network namespaces aren't allowed here:", tried.stderr.strip()))
