#!/usr/bin/env python3
"""Measures names, records and messages in instructions, which are repeatable, and prints one table.

    python3 bench/messages.py

It builds a small program in a temporary folder, over a copy of the crates that it stands on, and needs valgrind. The first
run takes some minutes, where those crates weren't built yet. Nothing here is part of the gate.
"""
import tempfile

from tools import built, instructions, table

STANDS_ON = "dns_message dns_record dns_name mdns_base"
PROGRAM = r"""//! Does one thing so many times: compares names or records, writes a text, or reads or writes a message.
#![tactic(auto)]

use dns_message::{Message, Questions, Rrs, read, write};
use dns_name::Name;
use dns_record::{Rdata, Rr, record_cmp};
use std::alloc::{AllocError, Global};
use std::env;
use std::io::{self, Read};
use std::process::ExitCode;

fn name(text: &str) -> Name {
    Name::parse_text(text).unwrap_or(Name::root())
}

fn record(owner: &Name, address: u32) -> Rr {
    Rr {
        owner: owner.copy(),
        flush: true,
        ttl: 120,
        rdata: Rdata::A(address),
    }
}

fn reply(alloc: Global, count: u32) -> Result<Message, AllocError> {
    let mut answers = Rrs::new(alloc);
    for number in 0..count {
        let owner = format!(in alloc; "host{number}.local")?;
        answers.push(record(&name(owner.as_str()), number))?;
    }
    Ok(Message {
        id: 0,
        response: true,
        authoritative: true,
        truncated: false,
        opcode: 0,
        rcode: 0,
        questions: Questions::new(alloc),
        answers,
        authority: Rrs::new(alloc),
        additional: Rrs::new(alloc),
    })
}

fn compares_names(times: u32) -> bool {
    let (left, right) = (name("a-longer-host.b.c.local"), name("A-longer-host.B.c.local"));
    let mut same = true;
    for _ in 0..times {
        same = same && left.folded_eq(&right);
    }
    same
}

fn compares_records(times: u32) -> bool {
    let owner = name("printer.local");
    let (left, right) = (record(&owner, 1), record(&owner, 2));
    let mut less = true;
    for _ in 0..times {
        less = less && record_cmp(&left, &right).is_lt();
    }
    less
}

fn writes_texts(alloc: Global, times: u32) -> Result<bool, AllocError> {
    let owner = name("a-longer-host.b.c.local");
    let mut text = Vec::new(alloc);
    for _ in 0..times {
        text.clear();
        owner.put_text(&mut text)?;
    }
    Ok(!text.is_empty())
}

fn writes(alloc: Global, count: u32, times: u32) -> Result<bool, AllocError> {
    let message = reply(alloc, count)?;
    let mut good = true;
    for _ in 0..times {
        good = good && write(alloc, &message, 8972).is_ok();
    }
    Ok(good)
}

fn reads(alloc: Global, bytes: &[u8], times: u32) -> bool {
    let mut good = true;
    for _ in 0..times {
        good = good && read(alloc, bytes).is_ok();
    }
    good
}

fn input<R: Read + Drop>(alloc: Global, mut source: R) -> io::Result<Vec<u8>> {
    let mut bytes = Vec::new(alloc);
    source.read_to_end(&mut bytes)?;
    Ok(bytes)
}

fn main(rt: HostRuntime) -> ExitCode {
    let alloc = rt.alloc();
    let mut numbers = [0u32; 3];
    if let Ok(args) = env::args(&rt) {
        for (number, word) in numbers.iter_mut().zip(args) {
            *number = word.parse::<u32>().unwrap_or(0);
        }
    }
    let [_, what, times] = numbers;
    let done = match what {
        0 => compares_names(times),
        1 => compares_records(times),
        2 => writes_texts(alloc, times).unwrap_or(false),
        3 => writes(alloc, 10, times).unwrap_or(false),
        4 => writes(alloc, 100, times).unwrap_or(false),
        _ => match input(alloc, rt.stdin()) {
            Ok(bytes) => reads(alloc, bytes.as_slice(), times),
            Err(_) => false,
        },
    };
    if done { ExitCode::SUCCESS } else { ExitCode::FAILURE }
}
"""


def header(answers):
    return bytes([0, 0, 0x84, 0, 0, 0]) + answers.to_bytes(2, "big") + bytes(4)


def a_record(owner, number):
    return owner + bytes([0, 1, 0, 1, 0, 0, 0, 120, 0, 4, 192, 0, 2, number])


def plain():
    return header(10) + b"".join(a_record(b"\4ho%02d\5local\0" % n, n) for n in range(10))


def compressed():
    first = a_record(b"\4ho00\5local\0", 0)
    return header(10) + first + b"".join(a_record(b"\4ho%02d\xc0\x11" % n, n) for n in range(1, 10))


def hostile():
    """Questions whose names are each a pointer to the name of the one before, as many as fit: the last takes a chain of as many."""
    questions = [b"\0\0\1\0\1"]
    at, last = 12 + 5, 12
    while at + 6 <= 8972:
        questions.append((0xC000 | last).to_bytes(2, "big") + b"\0\1\0\1")
        last, at = at, at + 6
    return bytes(4) + len(questions).to_bytes(2, "big") + bytes(6) + b"".join(questions)


def labelled():
    """The same, where each name is a label of one byte and a pointer to the name of the one before, up to 125 labels, then anew."""
    questions = [b"\0\0\1\0\1"]
    at, last = 12 + 5, 12
    while at + 8 <= 8972:
        questions.append(b"\1a" + (0xC000 | last).to_bytes(2, "big") + b"\0\1\0\1")
        last, at = 12 if len(questions) % 126 == 0 else at, at + 8
    return bytes(4) + len(questions).to_bytes(2, "big") + bytes(6) + b"".join(questions)


def longest():
    """Data with 126 labels of one byte, a pointer before and behind each, and records whose owners are pointers to the last."""
    data, last, base = b"\0", 12 + 11, 12 + 11
    for _ in range(126):
        label = base + len(data)
        data += b"\1a" + (0xC000 | last).to_bytes(2, "big") + (0xC000 | label).to_bytes(2, "big")
        last = base + len(data) - 2
    records = [b"\0\0\x63\0\1" + bytes(4) + len(data).to_bytes(2, "big") + data]
    for _ in range((8972 - 12 - len(records[0])) // 12):
        records.append((0xC000 | last).to_bytes(2, "big") + b"\0\x63\0\1" + bytes(6))
    return header(len(records)) + b"".join(records)


ROWS = (
    ("two equal names of 24 bytes compared, case aside", 0, None, 250),
    ("two address records of one owner ordered", 1, None, 600),
    ("the text of a name of 24 bytes appended", 2, None, 30 * 24),
    ("a reply of 10 records of 10 owners written", 3, None, 25_000),
    ("a reply of 100 records of 100 owners written", 4, None, 60_000),
    ("a response of 10 records with plain owners of 12 bytes read", 5, plain(), 12_000),
    ("the same compressed", 5, compressed(), 14_000),
    ("8,972 bytes of a hostile chain of pointers read", 5, hostile(), 3_000_000),
    ("the same with a label before each pointer", 5, labelled(), None),
    ("8,972 bytes with owners of 126 labels, each behind a pointer", 5, longest(), None),
)


def rows():
    with tempfile.TemporaryDirectory() as folder:
        program = built(folder, {"src/main.rt": PROGRAM}, STANDS_ON)
        for label, what, bytes_in, most in ROWS:
            many, one = (instructions(program, what, times, standard_input=bytes_in or b"") for times in (11, 1))
            yield label, f"{(many - one) // 10:,} instructions", f"at most {most:,}" if most else ""


if __name__ == "__main__":
    table(rows())
