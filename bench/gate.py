#!/usr/bin/env python3
"""Runs the gate and prints what each crate cost it, in processor seconds: its proof, its tests, its must-fail edits, its programs.

    python3 bench/gate.py [WORD ..]

WORDs go to `rt ci` as they are: names of crates, or --anew for a run from nothing (without it, what earlier runs on this machine
passed costs nothing). Below the table stand the edits that were refused only since a proof file names what they take away:
these say little of a contract. It ends with the status of `rt ci`. The processors' time is read off /proc twice a second, so
each process may count half a second too little.
"""
import glob
import os
import re
import subprocess
import sys
import tempfile
import threading
import time

TICK = os.sysconf("SC_CLK_TCK")
KINDS = ("proof", "tests", "edits", "programs")


def children(parent):
    """The processes below one, by number."""
    below, found = {}, []
    for path in glob.glob("/proc/[0-9]*/stat"):
        try:
            with open(path, encoding="utf-8", errors="replace") as it:
                rest = it.read().rpartition(")")[2].split()
        except OSError:
            continue
        number = int(path.split("/")[2])
        below.setdefault(int(rest[1]), []).append((number, (int(rest[11]) + int(rest[12])) / TICK))
    waiting = [parent]
    while waiting:
        for number, seconds in below.get(waiting.pop(), []):
            found.append((number, seconds))
            waiting.append(number)
    return found


def said_by(number):
    """The words of a process, none where it has ended."""
    try:
        with open(f"/proc/{number}/cmdline", "rb") as it:
            return it.read().decode(errors="replace").split("\0")
    except OSError:
        return []


def kind_of(words):
    """The crate and the part of the gate that a process of the prover works for; None for any other process."""
    if "--crate-name" not in words or not words[0].endswith("rattle"):
        return None
    crate = words[words.index("--crate-name") + 1]
    if "--test" in words:
        return crate, "tests"
    if "--crate-checked" in words:
        return crate, "programs"
    if words[1] == "check" and "-o" not in words:
        return crate, "edits"
    return crate, "proof"


class Watch(threading.Thread):
    """Notes the processors' time of each process of the prover while the gate runs."""

    def __init__(self, parent):
        super().__init__(daemon=True)
        self.parent, self.seen, self.ended = parent, {}, threading.Event()

    def run(self):
        while not self.ended.wait(0.5):
            for number, seconds in children(self.parent):
                kind = self.seen.get(number, (None, 0))[0] or kind_of(said_by(number))
                if kind:
                    self.seen[number] = kind, seconds

    def sums(self):
        """Seconds by crate and kind."""
        found = {}
        for (crate, kind), seconds in self.seen.values():
            found.setdefault(crate, dict.fromkeys(KINDS, 0))[kind] += seconds
        return found


def main(words):
    begun = time.time()
    with tempfile.NamedTemporaryFile("w+", prefix="gate-", suffix=".log", delete=False) as log:
        gate = subprocess.Popen(["rt", "ci", *words], stdout=log, stderr=subprocess.STDOUT)
        watch = Watch(gate.pid)
        watch.start()
        status = gate.wait()
        watch.ended.set()
        watch.join()
        log.seek(0)
        said = log.read()
    if not status:
        os.remove(log.name)
    print(f"{'crate':20}" + "".join(f"{kind:>10}" for kind in KINDS) + f"{'together':>10}")
    sums = watch.sums()
    for crate, parts in sorted(sums.items(), key=lambda it: -sum(it[1].values())):
        print(f"{crate:20}" + "".join(f"{parts[kind]:10.0f}" for kind in KINDS) + f"{sum(parts.values()):10.0f}")
    every = {kind: sum(parts[kind] for parts in sums.values()) for kind in KINDS}
    print(f"{'all':20}" + "".join(f"{every[kind]:10.0f}" for kind in KINDS) + f"{sum(every.values()):10.0f}")
    print(f"{sum(every.values()) / 3600:.2f} processor hours in {(time.time() - begun) / 60:.0f} minutes")
    for edit in re.findall(r"^must-fail (\S+): refused, as it must be \(only because a proof file", said, re.M):
        print(f"says little: {edit}")
    if status:
        print(f"the gate failed; what it said is in {log.name}")
    print(said.rstrip().rpartition("\n")[2])
    return status


if __name__ == "__main__":
    sys.exit(main(sys.argv[1:]))
