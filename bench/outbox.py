#!/usr/bin/env python3
"""Measures, in instructions, what taking an item from a session's queue costs as the queue gets longer, and prints a table.

    python3 bench/outbox.py

It builds a small program over sd_outbox in a temporary folder, over a copy of the crates that it stands on, and needs
valgrind. Nothing here is part of the gate.
"""
import tempfile

from tools import built, instructions, table

PROGRAM = """//! Appends items to a queue, and takes some of them.
#![tactic(auto)]

use sd_call::{Item, Verb};
use sd_outbox::Outbox;
use std::{env, io};

fn main(rt: HostRuntime) -> io::Result<()> {
    let mut counts = [0u32; 2];
    for (place, word) in env::args(&rt)?.skip(1).enumerate() {
        if place < 2 {
            counts[place] = word.parse().unwrap_or(0);
        }
    }
    let [appended, taken] = counts;
    let mut outbox = Outbox::new(rt.alloc());
    for op in 0..appended {
        let item = Item::Reply {
            op,
            verb: Verb::Start,
            code: 0,
        };
        let _ = outbox.append(item);
    }
    for _ in 0..taken {
        let _ = outbox.take();
    }
    Ok(())
}
"""


def rows():
    with tempfile.TemporaryDirectory() as folder:
        program = built(folder, {"src/main.rt": PROGRAM}, "sd_outbox sd_call")
        first = None
        for count in (1_000, 10_000, 100_000):
            each = (instructions(program, count, count) - instructions(program, count, 0)) / count
            wanted = f"linear: at most {1.1 * first:.1f}" if first else ""
            first = first or each
            yield f"{count:,} items taken from a queue", f"{each:.1f} instructions an item", wanted


if __name__ == "__main__":
    table(rows())
