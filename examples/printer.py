#!/usr/bin/env python3
"""Plays a host with a printer for daemons that serve: announces it, and takes it back when it is ended.

    python3 examples/printer.py OWN_PORT DAEMON_PORT...

OWN_PORT is one of the daemons' peers, the others are their relay ports.
"""
import os
import signal
import sys
import time

sys.path.insert(0, os.path.join(os.path.dirname(os.path.abspath(__file__)), "..", "bench"))

from end_to_end import announcement
from frames import Peer


def main():
    if len(sys.argv) < 3 or not all(word.isdecimal() and 0 < int(word) < 65536 for word in sys.argv[1:]):
        sys.exit(f"usage: {sys.argv[0]} OWN_PORT DAEMON_PORT...")
    own, *daemons = map(int, sys.argv[1:])
    try:
        peer = Peer(own, daemons)
    except OSError as why:
        sys.exit(f"{sys.argv[0]}: port {own}: {why.strerror}")
    signal.signal(signal.SIGTERM, signal.default_int_handler)
    try:
        for _ in range(2):
            peer.send(announcement(4500))
            time.sleep(1)
        print("announced Office._ipp._tcp.local; Ctrl-C takes it back", flush=True)
        while True:
            # It answers nothing, so it says again what would end, and what a daemon that began since hasn't heard.
            time.sleep(60)
            peer.send(announcement(4500))
    except KeyboardInterrupt:
        peer.send(announcement(0))


if __name__ == "__main__":
    main()
