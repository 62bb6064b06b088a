"""Zero-length files: each writer puts ZERO, without bytes, and then BETA on a disk, and each reader is asked for ZERO."""

import os

import rules
from disks import PRG, pattern
from tools import empty_folder, read_file, write_file

BETA = pattern(700, 5)


def described(data):
    return "not got" if data is None else "the 700 bytes of BETA" if data == BETA else f"{len(data)} bytes"


def written(d64, peer, image, folder, require):
    """Has d64 (no peer given) or the peer write the disk; says how it ended if it was not done."""
    write_file(os.path.join(folder, "zero"), b"")
    write_file(os.path.join(folder, "beta"), BETA)
    if peer:
        outcome = peer.make(image, [(PRG, b"ZERO", "zero"), (PRG, b"BETA", "beta")], folder)
        return None if outcome.done else outcome.words()
    words = [("format", image, "PEERS", "01")]
    words += [("store", image, name, os.path.join(folder, name.lower())) for name in ("ZERO", "BETA")]
    require(all(d64.answer(*command) == "done" for command in words), "zero length: d64 does not write the disk")
    return None


def read_by_d64(d64, image, require):
    said, wanted = d64.read(image, b"ZERO"), rules.answer(read_file(image))
    require(said == (b"" if wanted == "done" else wanted), f"zero length: d64 reads {said}, and the rules say {wanted}")
    return f"refuses: {said}" if isinstance(said, str) else described(said)


def facts(d64, peers, work, require, only=""):
    for writer in [None, *(peer for peer in peers if peer.can("make"))]:
        folder = empty_folder(os.path.join(work, "peer"))
        image, who = os.path.join(folder, "disk.d64"), f"zero length written by {writer.name if writer else 'd64'}"
        failed = written(d64, writer, image, folder, require)
        if failed:
            yield f"{who} | no disk | {writer.name} | {failed}"
            continue
        yield f"{who} | read by | d64 | {read_by_d64(d64, image, require)}"
        for reader in peers:
            if reader.can("extract"):
                yield f"{who} | read by | {reader.name} | {described(reader.extract(image, [(PRG, b'ZERO')], folder)[1][PRG, b'ZERO'])}"
            if reader.can("validate"):
                outcome = reader.validate(image, folder)
                yield f"{who} | checked by | {reader.name} | {'passes' if outcome.done else outcome.words()}"
