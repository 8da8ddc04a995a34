#!/usr/bin/env python3
"""Measures, in instructions, what hearing a packet costs a daemon whose operations are live, and prints a table.

    python3 bench/core.py

It builds a small program over mdns_core in a temporary folder, over a copy of the crates that it stands on, and needs
valgrind. The first run takes some minutes, where those crates weren't built yet. Nothing here is part of the gate.
"""
import tempfile

from tools import built, instructions, table

STANDS_ON = "mdns_core mdns_happened mdns_history mdns_cache sd_call dns_record dns_name mdns_base bytes"
WHY = "The daemon keeps plain lists, copies what it holds at each step, and goes over all of it for each live operation."
PROGRAM = r"""//! Lets a daemon hear so many packets while operations are live.
#![tactic(auto)]
ghost use Rattle.std.specs.Prelude.{◌≡◌, ◌<◌};

use bytes::Bytes;
use dns_name::Name;
use mdns_base::{Host, Moment};
use mdns_cache::Steps;
use mdns_core::Daemon;
use mdns_happened::When;
use mdns_history::{Config, Event};
use sd_call::Request;
use std::alloc::{AllocError, Global};
use std::env;
use std::marker::Brand;
use std::process::ExitCode;
use std::sync::ledger::{Blank, Ledger};

const HEAD: &[u8] = &[0, 0, 132, 0, 0, 0, 0, 10, 0, 0, 0, 0];

const ONE: &[u8] = &[0, 0, 132, 0, 0, 0, 0, 1, 0, 0, 0, 0];

// An A record of `nNN.local`, with the number of the name in it, that lives for two minutes.
fn put_record(out: &mut Vec<u8>, name: u8, address: u32) -> Result<(), AllocError> {
    out.extend_from_slice(&[3, b'n', b'0' + name / 10 % 10, b'0' + name % 10])?;
    out.extend_from_slice(b"\x05local\x00")?;
    out.extend_from_slice(&[0, 1, 0, 1, 0, 0, 0, 120, 0, 4])?;
    out.extend_from_slice(&address.to_be_bytes())?;
    Ok(())
}

// Ten records of the names `n*0` to `n*9`, all with one address.
fn ten(alloc: Global, row: u8) -> Result<Vec<u8>, AllocError> {
    let mut out = Vec::new(alloc);
    out.extend_from_slice(HEAD)?;
    for place in 0..10u8 {
        put_record(&mut out, (row % 10) * 10 + place, 0x0a00_0001)?;
    }
    Ok(out)
}

// One record of the name `n00`, with an address of its own.
fn one(alloc: Global, address: u32) -> Result<Vec<u8>, AllocError> {
    let mut out = Vec::new(alloc);
    out.extend_from_slice(ONE)?;
    put_record(&mut out, 0, address)?;
    Ok(out)
}

fn tell<L: Ledger>(daemon: &mut Daemon, steps: &mut Steps<L>, event: Event) -> Result<(), AllocError> {
    if daemon.last().ms() > 0 {
        return Ok(());
    }
    match event {
        Event::Boot { .. } => Ok(()),
        _ => {
            let _ = daemon.step(When::new(Moment::default(), 0), event, steps)?;
            Ok(())
        }
    }
}

fn heard(bytes: Vec<u8>) -> Result<Event, AllocError> {
    Ok(Event::Hear {
        from: Host {
            ip: 0x0a00_0009,
            port: 5353,
        },
        bytes: Bytes::from_vec(bytes)?,
    })
}

fn ask<L: Ledger>(alloc: Global, daemon: &mut Daemon, steps: &mut Steps<L>, op: u8) -> Result<(), AllocError> {
    let text = format!(in alloc; "n0{op}.local")?;
    let name = Name::parse_text(text.as_str()).unwrap_or(Name::root());
    let request = Request::Query { kind: 1, name };
    tell(
        daemon,
        steps,
        Event::Call {
            session: 1,
            op: u32::from(op),
            request,
        },
    )
}

// Ten operations, 100 records, and then so many packets of ten of these: a packet changes no answer.
fn ten_operations<L: Ledger>(alloc: Global, daemon: &mut Daemon, steps: &mut Steps<L>, times: u32) -> Result<(), AllocError> {
    for op in 0..10u8 {
        ask(alloc, daemon, steps, op)?;
    }
    for row in 0..10u8 {
        tell(daemon, steps, heard(ten(alloc, row)?)?)?;
    }
    for _ in 0..times {
        tell(daemon, steps, heard(ten(alloc, 3)?)?)?;
    }
    Ok(())
}

// One operation, so many packets of one record each that answers it.
fn one_question<L: Ledger>(alloc: Global, daemon: &mut Daemon, steps: &mut Steps<L>, times: u32) -> Result<(), AllocError> {
    ask(alloc, daemon, steps, 0)?;
    for number in 0..times {
        tell(daemon, steps, heard(one(alloc, number)?)?)?;
    }
    Ok(())
}

fn run<L: Ledger>(alloc: Global, blank: Blank, what: u32, times: u32) -> Result<(), AllocError>
    requires name { blank.name ≡ L.name }
    requires parts { blank.parts ≡ L.parts }
    requires some { 0 < L.parts }
{
    let mut steps: Steps<L> = Steps::new(blank);
    let config = Config {
        address: 0x0a00_0001,
        host: None,
    };
    let (mut daemon, _) = Daemon::new(alloc, config, When::new(Moment::default(), 0))?;
    tell(&mut daemon, &mut steps, Event::Attach)?;
    if what == 0 {
        ten_operations(alloc, &mut daemon, &mut steps, times)
    } else {
        one_question(alloc, &mut daemon, &mut steps, times)
    }
}

fn main(rt: HostRuntime) -> ExitCode {
    let mut numbers = [0u32; 3];
    if let Ok(args) = env::args(&rt) {
        for (number, word) in numbers.iter_mut().zip(args) {
            *number = word.parse::<u32>().unwrap_or(0);
        }
    }
    let [_, what, times] = numbers;
    match run::<Brand>(rt.alloc(), Blank::new(1), what, times) {
        Ok(()) => ExitCode::SUCCESS,
        Err(_) => ExitCode::FAILURE,
    }
}
"""
GHOSTS = """use Rattle.measured.proofs.main.Given as goal

abbrev pub ghosts-run : goal.ghosts-run
ghosts-run a = record { name = a.blank.name; parts = a.blank.parts }
"""
FILES = {"src/main.rt": PROGRAM, "proofs/main/Invariants.antt": GHOSTS}


def rows():
    with tempfile.TemporaryDirectory() as folder:
        program = built(folder, FILES, STANDS_ON)
        each = (instructions(program, 0, 11) - instructions(program, 0, 1)) // 10
        yield ("ten records heard, with ten operations live and 100 records held", f"{each:,} instructions",
               "at most 400,000", WHY)
        for count in (100, 200, 400):
            each = (instructions(program, 1, count + 10) - instructions(program, 1, count)) // 10
            yield f"one more record heard that answers a question, with {count} that do so held", f"{each:,} instructions", ""


if __name__ == "__main__":
    table(rows())
