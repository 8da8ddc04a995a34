"""The frames between a client and the daemon, for scripts: a client that speaks them over a Unix socket, and a daemon that is started.

Nothing here is part of the gate. `python3 bench/frames.py` tries the frames on vectors from outside.
"""
import os
import signal
import socket
import struct
import subprocess

LIMIT = 15.0


def wire(name):
    """A name in its wire form."""
    labels = [label.encode() for label in name.split(".") if label]
    return b"".join(bytes([len(label)]) + label for label in labels) + b"\0"


def text(words):
    return struct.pack(">H", len(words.encode())) + words.encode()


def blob(data):
    return struct.pack(">H", len(data)) + data


def frame(kind, op, body=b""):
    return struct.pack(">IBI", 5 + len(body), kind, op) + body


def query(op, kind, name):
    return frame(1, op, struct.pack(">H", kind) + wire(name))


def browse(op, regtype):
    return frame(2, op, text(regtype))


def resolve(op, label, regtype):
    return frame(3, op, text(label) + text(regtype))


def address(op, families, name):
    """A call for addresses: 1 for IPv4, 2 for IPv6, 3 for both."""
    return frame(4, op, bytes([families]) + wire(name))


def register(op, label, regtype, port, txt=b"", rename=True):
    return frame(5, op, struct.pack(">BH", 0 if rename else 8, port) + text(label) + text(regtype) + blob(txt))


def update(op, txt):
    return frame(6, op, blob(txt))


def stop(op):
    return frame(7, op)


def read_name(data, at):
    labels = []
    while data[at]:
        labels.append(data[at + 1:at + 1 + data[at]].decode("utf-8", "replace"))
        at += 1 + data[at]
    return ".".join(labels) + ".", at + 1


def item(kind, op, body):
    """What a frame of the daemon says."""
    if kind == 64:
        return ("reply", op, body[0], struct.unpack(">i", body[1:5])[0])
    what = {65: "add", 66: "remove"}[kind]
    tag, rest = body[0], body[1:]
    if tag == 1:
        return (what, op, "datum", struct.unpack(">H", rest[:2])[0], rest[2:])
    if tag in (2, 4):
        return (what, op, {2: "found", 4: "named"}[tag], read_name(rest, 0)[0])
    if tag == 3:
        priority, weight, port = struct.unpack(">HHH", rest[:6])
        target, at = read_name(rest, 6)
        return (what, op, "resolved", priority, weight, port, target, rest[at:])
    return (what, op, "conflict")


class Client:
    """A session of a daemon."""

    def __init__(self, path):
        self.socket = socket.socket(socket.AF_UNIX)
        self.socket.settimeout(LIMIT)
        self.socket.connect(path)

    def send(self, data):
        self.socket.sendall(data)

    def take(self, count):
        out = b""
        while len(out) < count:
            piece = self.socket.recv(count - len(out))
            if not piece:
                raise EOFError
            out += piece
        return out

    def next(self):
        size, = struct.unpack(">I", self.take(4))
        data = self.take(size)
        return item(data[0], struct.unpack(">I", data[1:5])[0], data[5:])

    def expect(self, *wanted):
        got = self.next()
        assert got[:len(wanted)] == wanted, (got, wanted)
        return got

    def call(self, op, data, verb=1, code=0):
        """Sends a call, and takes its reply; what comes before that is passed over."""
        self.send(data)
        self.waits_for("reply", op, verb, code)

    def waits_for(self, *wanted):
        """Takes items until one begins so."""
        while True:
            got = self.next()
            if got[:len(wanted)] == wanted:
                return got

    def has_ended(self):
        try:
            return self.socket.recv(1) == b""
        except ConnectionResetError:  # The daemon hadn't read all that was sent.
            return True

    def close(self):
        self.socket.close()


def free_ports(count):
    """UDP ports of this machine that nobody has."""
    held = [socket.socket(socket.AF_INET, socket.SOCK_DGRAM) for _ in range(count)]
    for one in held:
        one.bind(("127.0.0.1", 0))
    found = [one.getsockname()[1] for one in held]
    for one in held:
        one.close()
    return found


class Daemon:
    """A daemon that serves: `mdnsd serve`, until `end`."""

    def __init__(self, program, folder, name, address, relay, peers):
        self.path = os.path.join(folder, name + ".sock")
        self.process = subprocess.Popen(
            [program, "serve", "--socket", self.path, "--host", name, "--address", address, "--relay", str(relay), *map(str, peers)],
            stdout=subprocess.PIPE)
        line = self.process.stdout.readline()
        assert line == b"serving\n", line

    def processor_seconds(self):
        """Its processor time so far."""
        with open(f"/proc/{self.process.pid}/stat", encoding="utf-8") as told:
            fields = told.read().rsplit(")", 1)[1].split()
        return (int(fields[11]) + int(fields[12])) / os.sysconf("SC_CLK_TCK")

    def status(self, name):
        """A number of its status: VmRSS and VmHWM in kB, Threads."""
        with open(f"/proc/{self.process.pid}/status", encoding="utf-8") as told:
            for line in told:
                if line.startswith(name + ":"):
                    return int(line.split()[1])
        return None

    def end(self):
        self.process.send_signal(signal.SIGTERM)
        self.process.wait(LIMIT)


class Peer:
    """A host of the relay that the script plays, at a port of its own: its packets go to the relay ports of some daemons."""

    def __init__(self, port, daemons, address="10.0.0.9"):
        self.socket = socket.socket(socket.AF_INET, socket.SOCK_DGRAM)
        self.socket.bind(("127.0.0.1", port))
        self.socket.settimeout(LIMIT)
        self.daemons = [("127.0.0.1", daemon) for daemon in daemons]
        self.head = socket.inet_aton(address) + struct.pack(">HIH", 5353, 0, 0)

    def send(self, message):
        """A message to all."""
        for daemon in self.daemons:
            self.socket.sendto(self.head + message, daemon)

    def receive(self):
        """The next message, without what the relay puts before it."""
        return self.socket.recv(65536)[12:]

    def close(self):
        self.socket.close()


def try_vectors():
    def parts(data):
        return data[4], struct.unpack(">I", data[5:9])[0], data[9:]

    assert browse(1, "_ipp._tcp") == bytes.fromhex("00000010020000000100095f6970702e5f746370")
    assert stop(1) == bytes.fromhex("000000050700000001")
    assert item(*parts(bytes.fromhex("0000000a40000000010100000000"))) == ("reply", 1, 1, 0)
    assert item(*parts(bytes.fromhex("0000000a400000000201fffefff4"))) == ("reply", 2, 1, -65548)
    assert item(*parts(bytes.fromhex("0000000c4100000001010001c0000201"))) == ("add", 1, "datum", 1, bytes([192, 0, 2, 1]))
    print("frames: 5 vectors agree")


if __name__ == "__main__":
    try_vectors()
