#!/usr/bin/env python3
"""Makes a script for `mdnsd script` of a packet capture, so that what was heard on a link can be played again.

    contrib/capture_to_script.py [--ask REQUEST].. [--host LABEL=IPV4] [--until MS] CAPTURE > SCRIPT

CAPTURE is a pcap file (`tcpdump -w FILE udp port 5353`), in microseconds or nanoseconds, of an Ethernet, a cooked (`-i any`), a
loopback or a raw IP link. Each UDP packet to port 5353 over IPv4 becomes a line `hear 1 FROM PORT BYTES` at its moment, in
milliseconds from the first one. The daemon is number 1, with one session.

    --ask REQUEST    the session calls this before the first packet, as `browse _ipp._tcp` or `query A printer.local`; may be repeated
    --host L=IPV4    packets from this address are its own and left out, and the daemon claims the host label L at it
    --until MS       the script ends at this moment; else a second after the last packet

What is passed over is counted on standard error: other protocols, IPv6 (a script knows IPv4 alone), fragments, packets cut short
by the capture. It ends with 1 where the file is no such capture, and with 2 for wrong words.
"""
import argparse
import struct
import sys
from collections import Counter

PORT = 5353
LONGEST_WAIT = 86_400_000
MAGIC = {b"\xd4\xc3\xb2\xa1": ("<", 1_000), b"\xa1\xb2\xc3\xd4": (">", 1_000),
         b"\x4d\x3c\xb2\xa1": ("<", 1_000_000), b"\xa1\xb2\x3c\x4d": (">", 1_000_000)}
NEXT_GENERATION = b"\x0a\x0d\x0d\x0a"


class BadCapture(Exception):
    """The file is no capture that can be read."""


def frames(data):
    """Each frame with its moment in ms, whether it is whole, and the kind of the link."""
    if data[:4] == NEXT_GENERATION:
        raise BadCapture("it is a pcapng file: `tcpdump -r IT -w OTHER` or `editcap -F pcap IT OTHER` makes a pcap file of it")
    if data[:4] not in MAGIC or len(data) < 24:
        raise BadCapture("it is no pcap file")
    order, parts = MAGIC[data[:4]]
    link = struct.unpack_from(order + "I", data, 20)[0] & 0xFFFF
    at = 24
    while at + 16 <= len(data):
        seconds, fraction, kept, length = struct.unpack_from(order + "4I", data, at)
        frame = data[at + 16:at + 16 + kept]
        if len(frame) < kept:
            raise BadCapture(f"it ends within the packet at byte {at}")
        yield seconds * 1000 + fraction // parts, frame, kept == length, link
        at += 16 + kept


def network_part(frame, link):
    """The protocol number of Ethernet and what follows it; None where the link is of another kind."""
    if link == 1:
        at, kind = 14, frame[12:14]
        while kind in (b"\x81\x00", b"\x88\xa8"):
            at, kind = at + 4, frame[at + 2:at + 4]
        return int.from_bytes(kind, "big"), frame[at:]
    if link == 113:
        return int.from_bytes(frame[14:16], "big"), frame[16:]
    if link == 276:
        return int.from_bytes(frame[0:2], "big"), frame[20:]
    if link in (0, 108):
        return (0x0800 if 2 in (frame[0], frame[3]) else 0x86DD), frame[4:]
    if link in (12, 101, 228):
        return (0x0800 if frame[0] >> 4 == 4 else 0x86DD), frame
    raise BadCapture(f"its link is of kind {link}, which isn't Ethernet, cooked, loopback or raw IP")


def packet(kind, rest):
    """Sender, its port and the bytes of a UDP packet to port 5353, or why it is passed over."""
    if kind == 0x86DD:
        return "IPv6"
    if kind != 0x0800 or len(rest) < 20 or rest[0] >> 4 != 4:
        return "other protocols"
    header, length = (rest[0] & 15) * 4, int.from_bytes(rest[2:4], "big")
    if int.from_bytes(rest[6:8], "big") & 0x3FFF:
        return "fragments"
    if rest[9] != 17 or len(rest) < header + 8:
        return "other protocols"
    source, target, size = struct.unpack_from(">3H", rest, header)
    if target != PORT:
        return "other ports"
    if length > len(rest) or size < 8 or header + size > length:
        return "packets cut short"
    return ".".join(map(str, rest[12:16])), source, rest[header + 8:header + size]


def waits(now, moment):
    """The `at` lines from one moment to a later one: each goes at most a day ahead."""
    while moment > now:
        now = min(moment, now + LONGEST_WAIT)
        yield f"at {now}"


def script(data, asked, host, until, passed):
    """The lines of the script."""
    label, _, own = (host or "").partition("=")
    yield "daemon 1" + (f" host {label} {own}" if host else "")
    if asked:
        yield "open 1"
    for number, request in enumerate(asked, 1):
        yield f"call 1 1 {number} {request}"
    first, now = None, 0
    for moment, frame, is_whole, link in frames(data):
        found = packet(*network_part(frame, link)) if is_whole else "packets cut short"
        if isinstance(found, tuple) and found[0] == own:
            found = "own packets"
        if isinstance(found, str):
            passed[found] += 1
            continue
        first = moment if first is None else first
        then = max(now, moment - first)
        yield from waits(now, then)
        now = then
        yield f"hear 1 {found[0]} {found[1]} {found[2].hex() or '-'}"
    yield from waits(now, now + 1000 if until is None else until)


def main():
    words = argparse.ArgumentParser(usage=__doc__.partition("\n\n")[2].partition("\n\n")[0].strip(), description=__doc__.partition("\n")[0])
    words.add_argument("--ask", action="append", default=[], metavar="REQUEST")
    words.add_argument("--host", metavar="LABEL=IPV4")
    words.add_argument("--until", type=int, metavar="MS")
    words.add_argument("capture")
    given = words.parse_args()
    passed = Counter()
    try:
        with open(given.capture, "rb") as it:
            data = it.read()
        for line in script(data, given.ask, given.host, given.until, passed):
            print(line)
    except (OSError, BadCapture, IndexError) as why:
        words = "a frame is too short for its link" if isinstance(why, IndexError) else why.strerror if isinstance(why, OSError) else why
        print(f"{given.capture}: {words}", file=sys.stderr)
        return 1
    for what, count in sorted(passed.items()):
        print(f"passed over: {count} {what}", file=sys.stderr)
    return 0


if __name__ == "__main__":
    sys.exit(main())
