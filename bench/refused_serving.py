#!/usr/bin/env python3
"""Refuses each allocation of serving in turn: a server over a place in memory, to which two clients come, has to return whatever is refused.

    python3 bench/refused_serving.py

The scene is that of `sessions_are_served_beside_each_other` in crates/mdns_serve_run, played by a program of its own: its server runs in
threads, so each allocation is refused in a run of its own, and which one that is may change from run to run. The first run builds the
program, some minutes. It wants a C compiler (cc). One table is printed; it ends with 1 where a run didn't return within twenty seconds, was
ended by a signal, or gave a status that serving doesn't have. Nothing here is part of the gate.
"""
import os
import subprocess
import sys
import tempfile
from collections import Counter

from refusing import library
from tools import TOP, built

# Refuses the allocation of the number that REFUSED tells, counted over all threads. The count stands in the file COUNTED, which has room for it.
IS_REFUSED = r"""
#include <fcntl.h>
#include <stdatomic.h>
#include <stdlib.h>
#include <sys/mman.h>

static atomic_ulong *count;
static unsigned long refused;

__attribute__((constructor)) static void begin(void) {
    const char *number = getenv("REFUSED"), *path = getenv("COUNTED");
    int file = path ? open(path, O_RDWR) : -1;
    void *at = file < 0 ? MAP_FAILED : mmap(NULL, sizeof *count, PROT_READ | PROT_WRITE, MAP_SHARED, file, 0);
    if (at == MAP_FAILED) abort();
    refused = number ? strtoul(number, NULL, 10) : 0;
    count = at;
}

static int is_refused(void) {
    return count && ++*count == refused;
}

"""

# The scene's parts stand in the tests of that crate; this plays them once, and ends with the status of the server, or with 20 where there is
# no memory for the scene itself.
MAIN = """
// The status of the server, and whether all was said to both clients.
fn play<R: Threads + Wait + Copy + Send + Sync + Drop + 'static>(rt: R, alloc: Global) -> Result<(u8, bool), AllocError> {
    let mut scene = Scene::new(alloc);
    scene.step = 10;
    let first = come(rt, alloc, &mut scene, joined(alloc, QUERY_1, QUERY_2)?)?;
    let second = come(rt, alloc, &mut scene, joined(alloc, QUERY_1, b"")?)?;
    let sent = Arc::new(alloc, Notes::new(alloc))?;
    let gate = Arc::new(alloc, Holding::new(rt, Arc::try_clone(&sent)?))?;
    let replies = joined(alloc, REPLY_1, REPLY_2)?;
    let (status, _) = served(rt, alloc, scene, sent, gate)?;
    let whole = first.take(&rt).as_slice() == replies.as_slice() && second.take(&rt).as_slice() == REPLY_1;
    Ok((status, whole))
}

fn main(rt: HostRuntime) -> ExitCode {
    let alloc = rt.alloc();
    match play(rt, alloc) {
        Ok((status, whole)) => {
            let _ = rt.println(if whole { "whole" } else { "less" });
            ExitCode::from(status)
        }
        Err(_) => ExitCode::from(20),
    }
}
"""

# What the statuses mean; any other is wrong.
MEANINGS = {
    0: "0: it served to the end",
    5: "5: `serving` couldn't be put, since the scene's sink is in memory, too",
    6: "6: it found no memory before it served",
    9: "9: the door failed", 10: "10: a thread failed", 11: "11: the link failed",
    20: "no memory for the scene itself",
}


def sources():
    """The program's files, made of the crate's tests: a gate that holds lets go after half a second."""
    tests = f"{TOP}/crates/mdns_serve_run/src"
    with open(f"{tests}/holding.rt", encoding="utf-8") as held:
        holding = held.read().replace("15_000", "500")
    with open(f"{tests}/tests/serving.rt", encoding="utf-8") as held:
        parts = held.read().split("// Session 1 makes")[0].replace("use std::test::Fail;", "use std::process::ExitCode;").replace("OpenGate, ", "")
    return {"src/main.rt": "#![tactic(auto)]\n\nmod holding;\n\n" + parts + MAIN, "src/holding.rt": holding}


def played(program, refusing, number):
    """One run in which that allocation is refused: the status, None where it didn't return; what was said; and how many allocations there were."""
    with tempfile.NamedTemporaryFile(prefix="counted-") as counted:
        counted.write(bytes(8))
        counted.flush()
        env = {**os.environ, "LD_PRELOAD": refusing, "REFUSED": str(number), "COUNTED": counted.name}
        try:
            ran = subprocess.run([program], env=env, capture_output=True, text=True, timeout=20, check=False)
        except subprocess.TimeoutExpired:
            return None, "", 0
        with open(counted.name, "rb") as held:
            return ran.returncode, ran.stdout.strip(), int.from_bytes(held.read(8), sys.byteorder)


def main():
    with tempfile.TemporaryDirectory(prefix="refused-") as folder:
        program = built(folder, sources(), "mdns_server mdns_outside mdns_base bytes")
        refusing = library(folder, IS_REFUSED)
        whole = [played(program, refusing, 0) for _ in range(5)]
        if any((status, said) != (0, "whole") for status, said, _ in whole):
            sys.exit(f"the scene itself isn't served: {whole}")
        most = max(count for _, _, count in whole)
        if most == 0:
            sys.exit("no allocation of the scene was counted")
        ends, wrong = Counter(), []
        # (some more, since threads that run otherwise may take more)
        for number in range(1, most + 21):
            status, said, _ = played(program, refusing, number)
            if status in MEANINGS:
                ends[MEANINGS[status] + (f", with {said} of its replies" if status == 0 else "")] += 1
            else:
                wrong.append(f"allocation {number}: " + ("it didn't return" if status is None else f"ended with {status}"))
    print(f"{most} allocations, each refused in a run of its own, and 20 runs beyond the last.\n\n| How serving returned | Runs |\n|---|---|")
    for meaning, count in sorted(ends.items()):
        print(f"| {meaning} | {count} |")
    print("\n".join(wrong), file=sys.stderr)
    return 1 if wrong else 0


if __name__ == "__main__":
    sys.exit(main())
