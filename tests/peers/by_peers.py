"""Direction two: each peer that can write makes disks, and d64 checks them and reads every file, or refuses with number and place."""

import os

import disks
import rules
from disks import OTHER_KIND, PLAIN, PRG, SEQ, SPEEDDOS, USR, pattern
from tools import empty_folder, read_file, run, write_file

LENGTHS = [(PRG, b"LEN%d" % length, length) for length in (1, 253, 254, 255, 508, 509, 510, 5000)]
KINDS = [(SEQ, b"SEQFILE", 400), (PRG, b"PRGFILE", 700), (USR, b"USRFILE", 1000)]
MANY = [(PRG, b"FILE%03d" % number, 1 + 7 * number) for number in range(144)]
TWO = [(PRG, b"ALPHA", 3000), (PRG, b"BETA", 700)]
NEW = b"NEW BY D64"


class Shape:
    """A disk for a peer to make: files as (kind, name, length), the peer's own options, and what is done after."""

    def __init__(self, title, files, options=None, then=None):
        self.title, self.files, self.options, self.then = title, files, options, then


def cc1541_shapes():
    yield Shape("empty disk", [])
    yield Shape("lengths around a sector", LENGTHS)
    yield Shape("kinds", KINDS)
    yield Shape("a zero-length file", [(PRG, b"ZERO", 0)])
    yield Shape("full disk: 168,656 bytes in one file", [(PRG, b"FULL", 168656)])
    yield Shape("full directory: 144 files", MANY)
    yield Shape("names of odd bytes", [(PRG, bytes(range(start, start + 16)), 300) for start in (0, 32, 64, 96, 128, 192, 240)])
    for option in (["-S", "1"], ["-S", "4"], ["-S", "20"], ["-s", "3"], ["-e"], ["-x"], ["-E"], ["-r", "20"], ["-b", "5"], ["-F", "7"],
                   ["-t"], ["-t", "-u", "0"], ["-H", "hidden"], ["-P"]):
        yield Shape("option " + " ".join(option), TWO, option)
    yield Shape("a file replaced by a longer one", TWO, then=lambda peer, image, folder: peer.replace(image, b"ALPHA", "longer", folder))
    for option in (["-O"], ["-B", "9"], ["-d", "17"], ["-4"], ["-5"]):
        yield Shape("option " + " ".join(option), TWO, option)
    loose = {"-T DEL": ["-T", "DEL", "-f", "gone", "-w", "longer"], "-T REL": ["-T", "REL", "-f", "rel", "-w", "longer"],
             "-T 0": ["-T", "0", "-f", "none", "-w", "longer"], "-L": ["-f", "art", "-L"], "-l": ["-f", "loop", "-l", "alpha"],
             "-N": ["-N", "-f", "alpha", "-w", "longer"], "a name with A0 inside": ["-f", "start#a0,8,1", "-w", "longer"],
             "-f with an empty name": ["-f", "", "-w", "longer"], "-W": ["-f", "warp", "-W", "longer", "-f", "transwarp v0.86", "-w", "data1"]}
    for title, words in loose.items():
        yield Shape("then " + title, TWO, then=lambda peer, image, folder, words=words: run([peer.command, "-q", "-m", *words, image], folder))


def cbmconvert_shapes():
    yield Shape("lengths around a sector", LENGTHS)
    yield Shape("kinds", KINDS)
    yield Shape("a zero-length file", [(PRG, b"ZERO", 0)])
    yield Shape("a zero-length file, then another", [(PRG, b"ZERO", 0), (PRG, b"BETA", 700)])
    yield Shape("full disk: 168,656 bytes in one file", [(PRG, b"FULL", 168656)])
    yield Shape("one byte too many for a disk", [(PRG, b"FULL", 168657)])
    yield Shape("full directory: 144 files", MANY)
    yield Shape("one file too many for a directory", MANY + [(PRG, b"FILE144", 1)])
    yield Shape("names of odd bytes", [(PRG, bytes(range(start, start + 16)), 300) for start in (0, 32, 64, 96, 128, 192, 240)])
    yield Shape("a file replaced by a longer one", TWO, then=lambda peer, image, folder: peer.replace(image, b"ALPHA", "longer", folder))
    yield Shape("a file added later", TWO, then=lambda peer, image, folder: peer.add(image, b"GAMMA", "longer", folder))


def c1541_shapes():
    yield Shape("empty disk", [])
    yield Shape("lengths around a sector", LENGTHS)
    yield Shape("kinds", KINDS)
    yield Shape("a zero-length file", [(PRG, b"ZERO", 0)])
    yield Shape("a zero-length file, then another", [(PRG, b"ZERO", 0), (PRG, b"BETA", 700)])
    yield Shape("full disk: 168,656 bytes in one file", [(PRG, b"FULL", 168656)])
    yield Shape("one byte too many for a disk", [(PRG, b"FULL", 168657)])
    yield Shape("full directory: 144 files", MANY)
    yield Shape("one file too many for a directory", MANY + [(PRG, b"FILE144", 1)])
    yield Shape("a file replaced by a longer one", TWO, then=lambda peer, image, folder: peer.replace(image, b"ALPHA", "longer", folder))
    yield Shape("then -validate", TWO, then=lambda peer, image, folder: run([peer.command, image, "-validate"], folder))
    yield Shape("then a relative file", TWO, then=lambda peer, image, folder: run([peer.command, image, "-write", "longer", "rel,l"], folder))
    yield Shape("then -delete", TWO, then=lambda peer, image, folder: run([peer.command, image, "-delete", "alpha"], folder))


SHAPES = {"cc1541": cc1541_shapes, "cbmconvert": cbmconvert_shapes, "c1541": c1541_shapes}


def by_option(*option):
    """The same disk in a call with another option than the layout's, or none."""
    return lambda peer, image, folder: run([peer.command, "-q", "-m", *option, "-f", "gamma", "-w", "longer", image], folder)


def after_plain(option):
    """The disk is made anew with 35 tracks, and then taken for one of 40."""
    def then(peer, image, folder):
        os.remove(image)
        type(peer)(peer.command).make(image, [(PRG, b"ALPHA", "data0"), (PRG, b"BETA", "data1")], folder)
        return by_option(option)(peer, image, folder)
    return then


def cc1541_forty(layout):
    own, other = ("-4", "-5") if layout is SPEEDDOS else ("-5", "-4")
    yield Shape("empty disk", [])
    yield Shape("lengths around a sector", LENGTHS)
    yield Shape("kinds", KINDS)
    yield Shape("full disk: 190,246 bytes in one file", [(PRG, b"FULL", 190246)])
    yield Shape("one byte too many for a disk", [(PRG, b"FULL", 190247)])
    yield Shape("full directory: 144 files", MANY)
    yield Shape("tracks 1 to 35 full, and a file behind", [(PRG, b"NEAR", 168656), (PRG, b"FAR", 3000)])
    for option in (["-r", "36"], ["-r", "40"], ["-S", "1"], ["-S", "4"], ["-e"], ["-t"], ["-H", "hidden in 18/0"], ["-d", "40"]):
        yield Shape("option " + " ".join(option), TWO, option)
    yield Shape("a file replaced by a longer one", TWO, then=lambda peer, image, folder: peer.replace(image, b"ALPHA", "longer", folder))
    yield Shape("then a file with the other kind's option", TWO, then=by_option(other))
    yield Shape("then a file without the option", TWO, then=by_option())
    yield Shape("option -r 36, then a file without the option", TWO, ["-r", "36"], then=by_option())
    yield Shape("a disk of 35 tracks, then a file with the option", TWO, then=after_plain(own))


def c1541_forty(layout):
    """It formats an image of 196,608 bytes."""
    yield Shape("empty disk", [])
    yield Shape("kinds", KINDS)


FORTY = {"cc1541": cc1541_forty, "c1541": c1541_forty}


def shapes(peer):
    if peer.layout is PLAIN:
        return SHAPES.get(peer.name, lambda: ())()
    return FORTY.get(peer.name, lambda layout: ())(peer.layout)


def make(peer, shape, image, folder):
    """Has the peer make the disk; says how it ended where it was not done."""
    entries = []
    for number, (kind, name, length) in enumerate(shape.files):
        entries.append((kind, name, f"data{number}"))
        write_file(os.path.join(folder, f"data{number}"), pattern(length, number))
    write_file(os.path.join(folder, "longer"), pattern(5000, 200))
    extra = {} if shape.options is None else {"options": shape.options}
    outcomes = [peer.make(image, entries, folder, **extra)]
    outcomes += [shape.then(peer, image, folder)] if shape.then else []
    return "".join(f"{peer.name} says {outcome.words()}; " for outcome in outcomes if not outcome.done)


def read_all(d64, image, held):
    """How many files d64 reads as the independent reader does, and how many of them hold what the peer was given."""
    alike = sum(d64.read(image, name) == data for _, name, data in held)
    return f"{alike} of {len(held)} files byte for byte"


def given(shape, held):
    """The files that the peer was given and that are not on the disk as such; what is there besides."""
    wanted = {(kind, name): pattern(length, number) for number, (kind, name, length) in enumerate(shape.files)}
    longer = pattern(5000, 200)
    there = {(kind, name): data for kind, name, data in held}
    lost = [name.decode("latin-1") for (kind, name), data in wanted.items() if there.get((kind, name)) not in (data, longer)]
    return f", but not as given: {', '.join(lost[:4])}" if lost else ""


def left_alone(image, layout):
    """What a store and a scratch leave as it is: the map's spare bits, and the bytes behind the disk's name and id that are no entry of its map."""
    return disks.spare_bits(image, layout), disks.other_bytes(image, layout)


def written_on(d64, image, held, require, title):
    """d64 stores a file on the peer's disk and scratches one: the others, and the map's spare bits, stay as they are."""
    path, bits, others = os.path.join(d64.work, "new"), *left_alone(read_file(image), d64.layout)
    write_file(path, pattern(600, 222))
    answer = d64.answer("store", "--quiet", image, NEW.decode(), path)
    if answer != "done":
        return f"; a store gives {answer}"
    for _, name, _ in held[:1]:
        require(d64.answer("scratch", "--quiet", image, d64.text(name)) == "done", f"{title}: d64 does not scratch a file")
    after = sorted(disks.files(read_file(image), d64.layout))
    wanted = sorted(held[1:] + [(PRG, NEW, pattern(600, 222))])
    sound = d64.answer("check", "--quiet", image) == "done" == rules.answer(read_file(image), d64.layout)
    require(after == wanted and sound, f"{title}: the disk is not as it must be after d64's store and scratch")
    require(left_alone(read_file(image), d64.layout) == (bits, others), f"{title}: d64's store and scratch changed the map's spare bits, or bytes behind it")
    return "; d64 stores and scratches on it"


def in_the_other(d64, image, held, require, title):
    """What d64 says of a disk of 40 tracks in the other layouts; in 35 it answers 1."""
    if d64.layout is PLAIN:
        return ""
    data, other = read_file(image), d64.within(OTHER_KIND[d64.layout])
    said = {layout: d64.within(layout).answer("check", "--quiet", image) for layout in (PLAIN, other.layout)}
    require(all(rules.answer(data, layout) == answer for layout, answer in said.items()), f"{title}: in another layout d64 does not say what the rules say")
    plain = "" if said[PLAIN] == "1" else f", in layout 35: {said[PLAIN].replace('done', 'accepted')}"
    if said[other.layout] != "done":
        return f"; in the other layout: {said[other.layout]}{plain}"
    require(all(other.read(image, name) == content for _, name, content in held), f"{title}: in the other layout d64 reads other bytes")
    return f"; in the other layout: accepted{plain}"


def fact(d64, peer, shape, folder, require):
    image, title, layout = os.path.join(folder, "made.d64"), f"{peer.name}{d64.layout.named}, {shape.title}", d64.layout
    said = make(peer, shape, image, folder)
    data = read_file(image)
    if data is None:
        return said + "no disk"
    answer = d64.answer("check", "--quiet", image)
    require(answer == rules.answer(data, layout), f"{title}: d64 says {answer}, and the rules say {rules.answer(data, layout)}")
    held = disks.files(data, layout)
    other = in_the_other(d64, image, held, require, title)
    if answer != "done":
        return f"{said}refused: {answer}{other}"
    text = f"{said}accepted, {read_all(d64, image, held)}{given(shape, held)}{other}"
    return text + written_on(d64, image, held, require, title)


SECRET, SHORT = pattern(3000, 66), b"!"


def filling(image, name):
    """What fills the end of the one sector of a file with one byte."""
    entry = next(slot for slot in disks.entries(image) if slot[5:21] == disks.padded(name))
    end = disks.sector_bytes(image, *entry[3:5])[3:]
    return "zeros" if not any(end) else "bytes of the secret" if any(end[at:at + 16] in SECRET for at in range(230)) else "other bytes"


def left_over(before, after):
    """What is on the disk of a secret: beside a file of one byte written after it, and when such a file has taken its place."""
    pieces = [SECRET[start:start + 32] for start in range(0, len(SECRET) - 32, 254)]
    still = sum(piece in after for piece in pieces)
    return (f"after the byte of the next file stand {filling(before, b'NEXT')}; {still} of the secret's {len(pieces)} sectors are left when "
            f"a file of one byte has replaced it; after that byte stand {filling(after, b'SECRET')}")


def left_by_peer(peer, folder):
    image = os.path.join(folder, "made.d64")
    write_file(os.path.join(folder, "secret"), SECRET)
    write_file(os.path.join(folder, "short"), SHORT)
    made = peer.make(image, [(PRG, b"SECRET", "secret"), (PRG, b"NEXT", "short")], folder)
    before = read_file(image)
    replaced = peer.replace(image, b"SECRET", "short", folder)
    return left_over(before, read_file(image)) if made.done and replaced.done else "not done"


def left_by_d64(d64, require):
    image, secret, short = (os.path.join(d64.work, name) for name in ("made.d64", "secret", "short"))
    write_file(secret, SECRET)
    write_file(short, SHORT)
    images = []
    for words in (("format", image, "PEERS", "01"), ("store", image, "SECRET", secret), ("store", image, "NEXT", short),
                  ("scratch", image, "SECRET"), ("store", image, "SECRET", short)):
        require(d64.answer(words[0], "--quiet", *words[1:]) == "done", f"what is left: d64 does not {words[0]}")
        images.append(read_file(image))
    said = left_over(images[2], images[4])
    require(said.count("zeros") == 2 and " 0 of the secret's" in said, f"what d64 leaves of a scratched file: {said}")
    return said


def facts(d64, peers, work, require, only=""):
    for peer in peers:
        for shape in shapes(peer):
            if only in shape.title:
                folder = empty_folder(os.path.join(work, "peer"))
                yield f"written by {peer.name}{d64.layout.named} | {shape.title} | d64 | {fact(d64, peer, shape, folder, require)}"
    if d64.layout is PLAIN and only in "a secret":
        yield f"left over | a secret | d64 | {left_by_d64(d64, require)}"
        for peer in peers:
            if peer.can("replace"):
                yield f"left over | a secret | {peer.name} | {left_by_peer(peer, empty_folder(os.path.join(work, 'peer')))}"
