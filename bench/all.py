#!/usr/bin/env python3
"""Measures all that is measured, and prints one table, and below it what isn't reached and why.

    python3 bench/all.py

It builds what isn't built yet, and needs valgrind. It takes some minutes, and on a fresh machine as long as the proofs
take. Nothing here is part of the gate.
"""
import claims
import core
import held
import link
import measure
import messages
import outbox
import replies
from tools import table

if __name__ == "__main__":
    table(row for part in (measure, core, held, claims, replies, link, messages, outbox) for row in part.rows())
