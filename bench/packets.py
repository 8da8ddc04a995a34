#!/usr/bin/env python3
"""Hears recorded packets in scripts, and compares what the built program reads or refuses with another reader's account.

    python3 bench/packets.py PACKETS DECODED [PROGRAM]

PACKETS and DECODED are lines of JSON, one a packet and in one order: `hex`, `src_ip` and `src_port` of a UDP payload, and
its sections as a dissector reads them. PROGRAM is crates/mdnsd/out/mdnsd where none is given. Nothing here is part of the
gate.

Of each packet the account tells what our reader makes of it: records of type OPT or of another class than IN are passed
over; a response from port 5353 without opcode and response code is heard. What is heard is asked for by ANY at each of its
names under local: its records with a TTL above 0 are answers, each once, and are gone when the last of them ends.
"""
import json
import os
import subprocess
import sys

HERE = os.path.dirname(os.path.abspath(__file__))
PROGRAM = sys.argv[3] if len(sys.argv) > 3 else os.path.join(HERE, "..", "crates", "mdnsd", "out", "mdnsd")
OPT, IN = 41, 1


def run(lines):
    script = ("\n".join(lines) + "\n").encode()
    done = subprocess.run([PROGRAM, "script"], input=script, capture_output=True, timeout=60)
    return done.returncode, done.stdout.decode("latin-1")


def folded(text):
    """A dissector's name in lower case, without a final dot."""
    return text.rstrip(".").lower()


def heard(decoded):
    """The records that a decoded packet brings, or None where it brings none."""
    flags = decoded["flags"]
    if not flags & 0x8000 or flags >> 11 & 15 or flags & 15:
        return None
    records = decoded["answers"] + decoded["additional"]
    return [r for r in records if r["type"] != OPT and r.get("class", IN) == IN]


def main():
    packets = [json.loads(line) for line in open(sys.argv[1])]
    accounts = [json.loads(line) for line in open(sys.argv[2])]
    counts = {"read": 0, "heard": 0, "records": 0, "wrong": 0}
    for packet, account in zip(packets, accounts):
        hear = f"hear 1 {packet['src_ip']} {packet['src_port']} {packet['hex']}"
        status, text = run(["daemon 1", hear])
        wrong = status != 0 or " ! " in text
        counts["read"] += not wrong
        records = heard(account) if packet["src_port"] == 5353 else None
        if records:
            counts["heard"] += 1
            wrong |= not answers_agree(hear, records, counts)
        if wrong:
            counts["wrong"] += 1
            print("wrong:", account.get("scenario"), account.get("n"), status, text[-200:])
    print(f"{len(packets)} packets: " + ", ".join(f"{count} {what}" for what, count in counts.items()))
    return 1 if counts["wrong"] else 0


def answers_agree(hear, records, counts):
    """Whether each name's records answer ANY, as many as the account lists, and are gone when the last of them ends."""
    for name in {folded(r["name"]) for r in records}:
        if name != "local" and not name.endswith(".local"):
            continue  # the daemon asks for nothing elsewhere
        own = [r for r in records if folded(r["name"]) == name]
        live = {(r["type"], json.dumps(r.get("rdata", r), sort_keys=True)) for r in own if r["ttl"] > 0}
        asked = ["daemon 1", "open 1", "call 1 1 1 query ANY " + name.replace(" ", "\\032"), hear]
        status, text = run(asked)
        added = [line for line in text.splitlines() if line.startswith(" < 1 add 1 ")]
        counts["records"] += len(added)
        last = max(r["ttl"] for r in own) * 1000
        end, tail = run(asked + [f"at {last}"])
        removed = [line for line in tail.splitlines() if line.startswith(" < 1 rem 1 ")]
        if status != 0 or end != 0 or len(added) != len(live) or len(removed) != len(live):
            return False
    return True


sys.exit(main())
