"""Compares d64 with the peers that are there and prints one fact a line: compare.py D64 [DIRECTION [SHAPE]]; a direction in a layout of 40 tracks has the
layout's word before it: dolphin/by-d64.

A fact about a peer is printed as it was observed; what d64 itself must do is required, and the program fails at the first that is not so.
"""

import os
import sys
import tempfile

import by_d64
import by_peers
import damaged
import disks
import spare
import tools
import zero

DIRECTIONS = {"by-d64": by_d64, "by-peers": by_peers, "zero": zero, "spare": spare, "damaged": damaged}


def require(holds, text):
    if not holds:
        sys.exit(f"not as it must be: {text}")


def directions():
    """Each in each layout, but for the files of no bytes, to which the number of tracks is nothing."""
    for layout in disks.LAYOUTS:
        for name, module in DIRECTIONS.items():
            if layout is disks.PLAIN:
                yield name, module, layout
            elif module is not zero:
                yield f"{layout.word}/{name}", module, layout


def main():
    path, direction, only = (sys.argv[1:] + ["", ""])[:3]
    peers = tools.found()
    require(peers, "none of the peers is there")
    with tempfile.TemporaryDirectory(prefix="peers") as work:
        d64 = tools.D64(path, work)
        for peer in peers:
            print(f"version | {peer.name} | {peer.version(work)}")
        for name, module, layout in directions():
            if direction in ("", name):
                for fact in module.facts(d64.within(layout), tools.found(layout), work, require, only):
                    print(fact, flush=True)


main()
