"""Direction one: d64 writes disks, and each peer lists them, reads every file, and adds one of its own. On 40 tracks it also replaces one that lies there.

d64 stores SEQ and PRG files; disks with USR files come from the peers, in direction two.
"""

import os
import shlex

import disks
import rules
from disks import PLAIN, PRG, SEQ, pattern
from tools import C1541, empty_folder, read_file, run, write_file

ADDED = b"ADDED"
NOT_GOT = "not got"


class Plan:
    """A list of jobs for d64, and what the disk must hold after it."""

    def __init__(self, title):
        self.title, self.jobs, self.datas, self.held = title, [], [], {}

    def store(self, name, data, kind=PRG):
        self.jobs.append(("store", name, len(self.datas), kind))
        self.datas.append(data)
        self.held[name] = (kind, data)
        return self

    def scratch(self, name):
        self.jobs.append(("scratch", name))
        del self.held[name]
        return self

    def moved(self):
        """The same files four slots further on, the last four in the first slots: for a reader that sees only half of them."""
        other = Plan(self.title)
        other.held, other.datas = dict(self.held), self.datas + [b"filler"]
        fillers = [b"FILLER%d" % number for number in range(4)]
        jobs = [("store", name, len(self.datas), PRG) for name in fillers] + self.jobs
        last = [at for at, job in enumerate(jobs) if job[0] == "store"][-4]
        other.jobs = jobs[:last] + [("scratch", name) for name in fillers] + jobs[last:]
        return other

    def write(self, d64, image):
        """Has d64 write the disk, as one list of jobs."""
        lines = ["format PEERS 01"]
        for number, data in enumerate(self.datas):
            write_file(os.path.join(d64.work, f"data{number}"), data)
        for job in self.jobs:
            if job[0] == "store":
                lines.append(f"store {d64.text(job[1])} data{job[2]} {disks.KIND_WORD[job[3]]}")
            else:
                lines.append(f"scratch {d64.text(job[1])}")
        write_file(os.path.join(d64.work, "jobs"), "\n".join(lines).encode() + b"\n")
        return d64.answer("run", "--quiet", "jobs", image)


class TypedPlan(Plan):
    """The same through single commands, with names as text: the table of man/d64.1, written down once more."""

    @staticmethod
    def typed(name):
        return "".join(chr(byte - 0x60) if 0xC1 <= byte <= 0xDA else chr(byte) if 0x20 <= byte <= 0x5F and byte != 0x5C else f"\\x{byte:02x}"
                       for byte in name)

    def write(self, d64, image):
        answers = [d64.answer("format", "--quiet", image, "PEERS", "01")]
        for _, name, number, kind in self.jobs:
            path = os.path.join(d64.work, "typed")
            write_file(path, self.datas[number])
            answers.append(d64.answer("store", "--quiet", "--", image, self.typed(name), path, disks.KIND_WORD[kind]))
        return "done" if set(answers) == {"done"} else str(answers)


def typed():
    plan = TypedPlan("names typed as text")
    names = (b"UPPER", b"\xcc\xcf\xd7\xc5\xd2", b"M\xc9X\xc5D 09", b"!\"#$%&'()*+,-./", b":;<=>?@[]^_", b"-DASH", b"\x00\x5c\x60\x7f\xff")
    for number, name in enumerate(names):
        plan.store(name, pattern(200 + number, number))
    return plan


def scattered():
    plan = Plan("scattered: stores after scratches")
    for number in range(12):
        plan.store(b"OLD%d" % number, pattern(700 + 254 * number, number))
    for number in (1, 3, 4, 8, 10):
        plan.scratch(b"OLD%d" % number)
    for number, length in enumerate((4000, 254, 9000, 0, 1)):
        plan.store(b"NEW%d" % number, pattern(length, 50 + number), (SEQ, PRG)[number % 2])
    return plan.scratch(b"OLD0").store(b"LAST", pattern(20000, 99))


def all_bytes():
    plan = Plan("names: every byte but A0")
    wanted = [byte for byte in range(256) if byte != disks.PAD]
    for start in range(0, 255, 15):
        plan.store(bytes(wanted[start:start + 15]), pattern(300, start))
    return plan


def awkward():
    plan = Plan("names: awkward for a host")
    names = (b"A", b"SIXTEEN BYTES OK", b" BLANKS  ", b"../UP", b"/ROOT", b"-OPTION", b"STAR*", b"*", b"?", b"$", b"A,S", b"A:B", b"@0:A",
             b"#2", b".", b"..", b'Q"Q', b"PERCENT%S", b"CASE", b"\xc3\xc1\xd3\xc5", b"\x63\x61\x73\x65", b"~", b"\x5c", b"\xff")
    for number, name in enumerate(names):
        plan.store(name, pattern(100 + number, number), (PRG, SEQ)[number % 2])
    return plan


def lengths():
    plan = Plan("lengths around a sector")
    for length in (1, 2, 252, 253, 254, 255, 256, 507, 508, 509, 510, 5000):
        plan.store(b"LEN%d" % length, pattern(length, length))
    return plan


def kinds():
    return Plan("kinds").store(b"SEQFILE", pattern(400, 1), SEQ).store(b"PRGFILE", pattern(400, 2))


def full(layout):
    size = 254 * layout.blocks
    return Plan(f"full disk: {size:,} bytes in one file").store(b"FULL", pattern(size, 7))


def many():
    plan = Plan("full directory: 144 files")
    for number in range(144):
        plan.store(b"FILE%03d" % number, pattern(1 + 7 * number, number))
    return plan


def beyond(title):
    """NEAR takes tracks 1 to 35 to the last sector, FAR the first 20 sectors behind them."""
    return Plan(title).store(b"NEAR", pattern(254 * PLAIN.blocks, 8)).store(b"FAR", pattern(5000, 9))


def forty(layout):
    yield Plan("empty disk")
    yield lengths()
    yield kinds()
    yield full(layout)
    yield many()
    yield scattered()
    yield beyond("a file on tracks 36 and 37, the others used")
    yield beyond("a file on tracks 36 and 37, the others free").scratch(b"NEAR")
    yield beyond("a file from track 1 to track 40").scratch(b"NEAR").store(b"HOLE", pattern(300, 3)).store(b"LONG", pattern(184000, 4)).scratch(b"HOLE")


def plans():
    yield Plan("empty disk")
    yield Plan("document 01's example").store(b"CODE", pattern(300, 1))
    yield Plan("a zero-length file").store(b"ZERO", b"")
    yield Plan("zero length, each kind").store(b"ZS", b"", SEQ).store(b"ZP", b"", PRG)
    yield lengths()
    yield kinds()
    yield full(PLAIN)
    yield many()
    yield typed()
    yield all_bytes()
    yield awkward()
    yield scattered()


def name_text(name):
    return shlex.quote("".join(chr(byte) if 0x20 <= byte < 0x7F else f"\\x{byte:02X}" for byte in name))


def some(texts):
    """A few of the texts and how many more there are."""
    return ", ".join(texts[:4]) + (f" and {len(texts) - 4} more" if len(texts) > 4 else "")


def check_own(d64, plan, image, require):
    """d64 accepts its disk and reads each file back; so does the reader that shares nothing with it."""
    title, data = plan.title, read_file(image)
    require(d64.answer("check", "--quiet", image) == "done", f"{title}: d64 does not accept its own disk")
    require(rules.answer(data, d64.layout) == "done", f"{title}: the rules say {rules.answer(data, d64.layout)} of d64's own disk")
    require(not any(disks.other_bytes(data, d64.layout)), f"{title}: 18/0 has bytes other than 0 that are no entry of the layout's map")
    wanted = sorted((kind, name, content) for name, (kind, content) in plan.held.items())
    require(sorted(disks.files(data, d64.layout)) == wanted, f"{title}: the files on the disk are not what was stored")
    blocks = sorted((kind, name, max(1, -(-len(content) // 254))) for kind, name, content in wanted)
    require(sorted(d64.entries(image)) == blocks, f"{title}: d64's listing is not what was stored")
    for kind, name, content in wanted:
        require(d64.read(image, name) == content, f"{title}: d64 does not read {name_text(name)} back")
    if b"FAR" in plan.held:
        far = next(slot[3:5] for slot in disks.entries(data, d64.layout) if slot[5:21] == disks.padded(b"FAR"))
        require({track for track, _ in disks.chain(data, far, d64.layout)[0]} == {36, 37}, f"{title}: the file is not on tracks 36 and 37")


def same_name(peer, shown, name):
    """c1541 prints names in ASCII, with a dot for what it has no character for; the others show the bytes."""
    if peer.name != "c1541":
        return shown == name
    typed = peer.typed(name)
    return len(shown) == len(name) and all(ask == "?" or ask == got for ask, got in zip(typed, shown.decode("latin-1")))


def listed(peer, plan, image, folder):
    """How many files the peer lists with their name, kind and, where it prints them, blocks; each line counts once."""
    outcome, shown = peer.list(image, folder)
    missing = []
    for name in sorted(plan.held, key=lambda name: C1541.typed(name).count("?")):
        kind, data = plan.held[name]
        blocks = max(1, -(-len(data) // 254))
        lines = [line for line in shown if line[0] == kind and line[2] in (None, blocks) and same_name(peer, line[1], name)]
        if lines:
            shown.remove(lines[0])
        else:
            missing.append(name)
    fact = f"lists {len(plan.held) - len(missing)} of {len(plan.held)}" + ("" if outcome.done else f" ({outcome.words()})")
    unprinted = peer.name == "c1541" and any(not C1541.typed(name).strip("?") for name in missing)
    absent = "a name that it prints as dots" if unprinted else some([name_text(name) for name in missing])
    return fact + (f", not {absent}" if missing else "") + (f", and {len(shown)} more" if shown else "")


def compare(plan, found):
    """The names whose bytes are equal, and a text for each that differs."""
    equal, differ = [], {}
    for (kind, name), data in found.items():
        wanted = plan.held[name][1]
        if data == wanted:
            equal.append(name)
        else:
            differ[name] = NOT_GOT if data is None else f"{len(data)} bytes for {len(wanted)}" if len(data) != len(wanted) else "other bytes"
    return equal, differ


def differences(differ):
    kinds = sorted(set(differ.values()))
    return "; ".join(f"{kind}: {some([name_text(name) for name in differ if differ[name] == kind])}" for kind in kinds)


def extracted(peer, plan, image, folder):
    """The fact, and the names of the files that the peer did not get."""
    wanted = [(kind, name) for name, (kind, _) in plan.held.items()]
    if not wanted:
        return "no files to read", []
    _, found = peer.extract(image, wanted, folder)
    equal, differ = compare(plan, found)
    fact = f"reads {len(equal)} of {len(wanted)} byte for byte" + (f"; {differences(differ)}" if differ else "")
    return fact, [name for name in differ if differ[name] == NOT_GOT]


def extracted_moved(d64, peer, plan, missing, folder, require):
    """What the peer gets of the missing ones when the same files lie in other slots."""
    image = os.path.join(folder, "moved.d64")
    require(plan.moved().write(d64, image) == "done", f"{plan.title}: d64 does not write the disk with moved slots")
    check_own(d64, plan, image, require)
    _, found = peer.extract(image, [(plan.held[name][0], name) for name in missing], folder)
    return compare(plan, found)[1]


def extracted_alone(d64, peer, plan, missing, folder, require):
    """What the peer gets of the missing ones when each is the only file on its disk: a name of wildcards finds it there."""
    image, differ = os.path.join(folder, "alone.d64"), {}
    for name in missing:
        kind, data = plan.held[name]
        alone = Plan(plan.title).store(name, data, kind)
        require(alone.write(d64, image) == "done", f"{plan.title}: d64 does not write the disk with one file")
        differ |= compare(alone, peer.extract(image, [(kind, name)], folder)[1])[1]
    return differ


def extracted_otherwise(d64, peer, plan, missing, folder, require):
    """Names and slots that a peer cannot get at are asked for on another disk that d64 writes, so that the bytes are compared all the same; on 35 tracks,
    for what a peer does not get of 40 is not missing for its name or slot."""
    ways = {"floptool": ("with the slots moved", extracted_moved), "c1541": ("alone on a disk", extracted_alone)}
    if not missing or peer.name not in ways or d64.layout is not PLAIN:
        return []
    words, way = ways[peer.name]
    differ = way(d64, peer, plan, missing, folder, require)
    return [f"{words}, {len(missing) - len(differ)} of those {len(missing)} byte for byte" + (f"; {differences(differ)}" if differ else "")]


def changed(d64, peer, plan, image, folder, call="add", target=ADDED):
    """The peer adds a file to d64's disk, or replaces one; what d64 then says, and whether any other file's bytes changed."""
    path, data = os.path.join(folder, "added.bin"), pattern(1000, 77)
    does, does_not = {"add": ("adds a file", "adds no file"), "replace": (f"replaces {target.decode()}", f"does not replace {target.decode()}")}[call]
    write_file(path, data)
    outcome = getattr(peer, call)(image, target, path, folder)
    answer = d64.answer("check", "--quiet", image)
    if not outcome.done:
        return f"{does_not} ({outcome.words()})" + ("" if answer == "done" else f" and leaves a disk that d64 refuses: {answer}")
    held = {name: content for name, (_, content) in plan.held.items()} | {target: data}
    wrong = [name for name, content in held.items() if answer == "done" and d64.read(image, name) != content]
    if wrong:
        return f"{does}, then wrong: {some([name_text(name) for name in wrong])}"
    return f"{does}, and d64 " + ("reads all" if answer == "done" else f"refuses: {answer}")


def by_peer(d64, peer, plan, image, folder, require):
    parts, copy = [], os.path.join(folder, "disk.d64")
    before = read_file(image)
    write_file(copy, before)
    if peer.can("list"):
        parts.append(listed(peer, plan, copy, folder))
    if peer.can("extract"):
        fact, missing = extracted(peer, plan, copy, folder)
        parts += [fact] + extracted_otherwise(d64, peer, plan, missing, folder, require)
    parts += ["changes the disk by reading it"] if read_file(copy) != before else []
    if peer.can("add"):
        parts.append(changed(d64, peer, plan, copy, folder))
    if b"FAR" in plan.held and peer.can("replace"):
        write_file(copy, before)
        parts.append(changed(d64, peer, plan, copy, folder, "replace", b"FAR"))
    return "; ".join(parts)


def through_flux(cc1541, floptool, image, folder):
    """cc1541 writes the disk as a G64, the signal on the disk, and floptool turns that into a D64 again: is it the same?"""
    g64, back = os.path.join(folder, "disk.g64"), os.path.join(folder, "back.d64")
    first = cc1541.call(["-g", g64, image], folder)
    second = run([floptool.command, "flopconvert", "g64", "d64", g64, back], folder)
    if not (first.done and second.done):
        return f"cc1541 {first.words()}, floptool {second.words()}"
    return f"the same {cc1541.layout.image_bytes:,} bytes" if read_file(back) == read_file(image) else "other bytes"


def facts(d64, peers, work, require, only=""):
    by_name, who = {peer.name: peer for peer in peers}, f"written by d64{d64.layout.named}"
    for plan in plans() if d64.layout is PLAIN else forty(d64.layout):
        if only not in plan.title:
            continue
        image = os.path.join(work, f"by-d64-{d64.layout.number}.d64")
        require(plan.write(d64, image) == "done", f"{plan.title}: d64 does not write it")
        check_own(d64, plan, image, require)
        for peer in peers:
            folder = empty_folder(os.path.join(work, "peer"))
            yield f"{who} | {plan.title} | {peer.name} | {by_peer(d64, peer, plan, image, folder, require)}"
        if "cc1541" in by_name and "floptool" in by_name and (d64.layout is PLAIN or not plan.held):
            folder = empty_folder(os.path.join(work, "peer"))
            said = through_flux(by_name["cc1541"], by_name["floptool"], image, folder)
            yield f"{who} | {plan.title} | cc1541 to G64, floptool back | {said}"
