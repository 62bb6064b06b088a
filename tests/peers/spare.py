"""The map's spare bits, those past a track's last sector, 157 in all and 192 on 40 tracks: d64 checks, stores and scratches on each writer's disk and leaves
them as they are, and so the bytes behind the disk's name and id that are no entry of its map.

No writer sets them by itself, so its disk is tried as it was made and with bits set by hand. On 40 tracks the other kind's entries are set, too: such a disk
is accepted in both layouts for as long as tracks 36 to 40 are free. The peer is then asked about the disk that d64 leaves, if it knows the map of 40 tracks.
"""

import os
import re

import disks
import rules
from disks import OTHER_KIND, PLAIN, PRG, pattern
from tools import empty_folder, read_file, write_file

MADE = {b"ALPHA": pattern(3000, 1), b"BETA": pattern(700, 2)}
SMALL = {b"SMALL%d" % number: pattern(100 + number, 10 + number) for number in range(8)}
LEFT = {b"BETA": MADE[b"BETA"], b"SMALL0": SMALL[b"SMALL0"], b"SMALL7": SMALL[b"SMALL7"]}
SHORT = pattern(2500, 31)
CHOICES = {"as made": lambda track, bit, was: was, "all set": lambda track, bit, was: True,
           "every second one set": lambda track, bit, was: (track + bit) % 2 == 0}
COUNTED = "all set, and counted"
BOTH_MAPS = "as made, and the other kind's entries"


def made(d64, peer, image, folder, require):
    """Has d64 (no peer given) or the peer make the disk with ALPHA and BETA; says how it ended if it was not done."""
    for name, data in MADE.items():
        write_file(os.path.join(folder, name.decode()), data)
    if peer:
        outcome = peer.make(image, [(PRG, name, name.decode()) for name in MADE], folder)
        return None if outcome.done else outcome.words()
    words = [("format", image, "PEERS", "01")] + [("store", image, name.decode(), os.path.join(folder, name.decode())) for name in MADE]
    require(all(d64.answer(*command) == "done" for command in words), "spare bits: d64 does not make the disk")
    return None


def by_zone(bits):
    """How many are set on the tracks of 21, 19, 18 and 17 sectors."""
    zones = {count: [value for (track, _), value in bits.items() if disks.sectors_on(track) == count] for count in (21, 19, 18, 17)}
    return ", ".join(f"{sum(values)} of {len(values)}" for values in zones.values())


def chosen(image_bytes, choice, layout):
    image = bytearray(image_bytes)
    disks.put_spare_bits(image, {(track, bit): choice(track, bit, was) for (track, bit), was in disks.spare_bits(image, layout).items()}, layout)
    return bytes(image)


def counted(image_bytes, layout):
    """All set, and each track's count counts its own: the count is wrong."""
    image = bytearray(chosen(image_bytes, CHOICES["all set"], layout))
    for track in layout.tracks:
        image[disks.offset(18, 0) + layout.entry(track)] += 24 - disks.sectors_on(track)
    return bytes(image)


def both_maps(image_bytes, layout):
    image = bytearray(image_bytes)
    disks.put_entries(image, disks.entry_bytes(image, layout), OTHER_KIND[layout])
    return bytes(image)


def variants(image_bytes, layout):
    """The disk as it is tried, by title."""
    for title, choice in CHOICES.items():
        yield title, chosen(image_bytes, choice, layout)
    if layout is not PLAIN:
        yield BOTH_MAPS, both_maps(image_bytes, layout)


def kept(d64, title, image, wanted, bits, others, require):
    """The disk has these files and no others, d64 and the rules accept it and say the same of it in each layout, and its spare bits and other bytes are
    these."""
    data, layout = read_file(image), d64.layout
    for each in disks.LAYOUTS:
        answer, ruled = d64.within(each).answer("check", "--quiet", image), rules.answer(data, each)
        require(answer == ruled and (each is not layout or answer == "done"), f"{title}: in layout {each.word} d64 says {answer}, and the rules say {ruled}")
    held = sorted((PRG, name, content) for name, content in wanted.items())
    require(sorted(disks.files(data, layout)) == held, f"{title}: the files are not as they must be")
    now = disks.spare_bits(data, layout)
    require(now == bits, f"{title}: the spare bits were {by_zone(bits)}, and are {by_zone(now)}")
    require(disks.other_bytes(data, layout) == others, f"{title}: bytes of 18/0 that are no entry of the map changed")


def blocks_free(d64, image):
    return int(re.search(rb"(\d+) BLOCKS FREE", d64.call("dir", image).out)[1])


def through_d64(d64, title, image, require):
    """d64 checks the disk, stores and scratches on every track, and on a copy formats. LONG takes all off track 18 but ten sectors, the small files let the
    directory grow; LEFT is left."""
    data, layout = read_file(image), d64.layout
    bits, others, free = disks.spare_bits(data, layout), disks.other_bytes(data, layout), disks.free_blocks(data, layout)
    kept(d64, title, image, MADE, bits, others, require)
    require(blocks_free(d64, image) == free, f"{title}: d64 shows {blocks_free(d64, image)} free blocks, and {free} are")
    stored = {b"LONG": pattern(254 * (free - 10), 3), **SMALL}
    for name, content in stored.items():
        path = os.path.join(d64.work, "new")
        write_file(path, content)
        require(d64.answer("store", "--quiet", image, name.decode(), path) == "done", f"{title}: d64 does not store")
    kept(d64, f"{title}, after the stores", image, MADE | stored, bits, others, require)
    was, now = (disks.sector_bytes(disk, 18, 0) for disk in (data, read_file(image)))
    require(all(was[at] != now[at] for at in map(layout.entry, layout.tracks)), f"{title}: the stores did not reach every track")
    for name in [name for name in MADE | stored if name not in LEFT]:
        require(d64.answer("scratch", "--quiet", image, name.decode()) == "done", f"{title}: d64 does not scratch")
    kept(d64, f"{title}, after the scratches", image, LEFT, bits, others, require)
    cleared = os.path.join(d64.work, "cleared.d64")
    write_file(cleared, read_file(image))
    require(d64.answer("format", "--quiet", cleared, "PEERS", "01") == "done", f"{title}: d64 does not format")
    kept(d64, f"{title}, after a format", cleared, {}, dict.fromkeys(bits, False), bytes(len(others)), require)
    return f"{by_zone(bits)} set; check, store and scratch done, and all as they were; format clears them"


def refused(d64, title, image, require):
    data, path = read_file(image), os.path.join(d64.work, "new")
    write_file(path, SHORT)
    answers = {d64.answer(*words) for words in (("check", image), ("dir", image), ("store", image, "SHORT", path), ("scratch", image, "ALPHA"))}
    require(answers == {rules.answer(data, d64.layout)} == {"8 at track 1"}, f"{title}: d64 gives {sorted(answers)}, and must refuse the count of track 1")
    require(read_file(image) == data, f"{title}: a refusal changed the disk")
    return "8 at track 1"


def became(before, after, layout):
    """What became of the spare bits, and of the bytes that are no entry of the map."""
    was, now = disks.spare_bits(before, layout), disks.spare_bits(after, layout)
    changed = sum(was[place] != now[place] for place in was)
    others = disks.other_bytes(before, layout) != disks.other_bytes(after, layout)
    return ("keeps them" if not changed else "clears them" if not any(now.values()) else "sets them" if all(now.values()) else f"changes {changed} of them"
            ) + (", changes bytes behind them" if others else "")


def changes(peer, image_bytes):
    """What the peer can be asked to do to a disk, in words: its call, a file's name and its bytes. A spare bit taken for a sector would show when it fills
    it."""
    whole = 254 * disks.free_blocks(image_bytes, peer.layout)
    wanted = {"validate": ("validate", None, None), "add": ("add", b"ADDED", SHORT), "replace": ("replace", b"BETA", SHORT),
              "fill": ("add", b"FULL", pattern(whole, 41)), "a byte more": ("add", b"MORE", pattern(whole + 1, 42))}
    return {words: call for words, call in wanted.items() if peer.can(call[0])}


def changed_by(peer, call, image_bytes, folder):
    """How it ended, what became of the bits, and what d64 says then."""
    image, path, (what, name, data) = os.path.join(folder, "disk.d64"), os.path.join(folder, "new"), call
    write_file(image, image_bytes)
    write_file(path, data or b"")
    outcome = getattr(peer, what)(image, *((name, path) if name else ()), folder)
    after = read_file(image)
    parts = [outcome.words(), became(image_bytes, after, peer.layout)]
    if name:
        parts.append("stored" if (PRG, name, data) in disks.files(after, peer.layout) else "not stored")
    answer = rules.answer(after, peer.layout)
    return ", ".join(parts + ([] if answer == "done" else [f"d64 then refuses it: {answer}"]))


def shown_free(peer, image_bytes, free, folder):
    image = os.path.join(folder, "disk.d64")
    write_file(image, image_bytes)
    shown = peer.blocks_free(image, folder)
    return f"shows {shown} free blocks" + ("" if shown == free else f" where {free} are")


def by_peer(peer, image_bytes, folder):
    """What the peer says of the disk, and does to its spare bits."""
    image, parts = os.path.join(folder, "disk.d64"), []
    write_file(image, image_bytes)
    if peer.can("blocks_free"):
        parts.append(shown_free(peer, image_bytes, disks.free_blocks(image_bytes, peer.layout), folder))
    if peer.can("list"):
        outcome, shown = peer.list(image, folder)
        parts.append(f"lists {len(shown)} of {len(LEFT)} files" + ("" if outcome.done else f" ({outcome.words()})"))
    if peer.can("extract"):
        _, found = peer.extract(image, [(PRG, name) for name in LEFT], folder)
        parts.append(f"gets {sum(found[PRG, name] == content for name, content in LEFT.items())} of {len(LEFT)} files byte for byte")
    parts += ["changes the disk by reading it"] if read_file(image) != image_bytes else []
    return " | ".join(parts + [f"{words}: {changed_by(peer, call, image_bytes, folder)}" for words, call in changes(peer, image_bytes).items()])


def facts(d64, peers, work, require, only=""):
    layout = d64.layout
    for writer in [None, *(peer for peer in peers if peer.can("make") and peer.maps())]:
        folder = empty_folder(os.path.join(work, "peer"))
        image, name = os.path.join(folder, "made.d64"), writer.name if writer else "d64"
        who, asked = f"spare bits on a disk by {name}{layout.named}", [writer] if writer else [peer for peer in peers if peer.maps()]
        failed = made(d64, writer, image, folder, require)
        if failed:
            yield f"{who} | no disk | {name} | {failed}"
            continue
        data = read_file(image)
        for title, variant in variants(data, layout):
            if only in title:
                write_file(image, variant)
                yield f"{who} | {title} | d64 | {through_d64(d64, f'{who}, {title}', image, require)}"
                for peer in asked:
                    yield f"{who} | {title} | {peer.name} | {by_peer(peer, read_file(image), folder)}"
        if only in COUNTED:
            write_file(image, counted(data, layout))
            yield f"{who} | {COUNTED} | d64 | {refused(d64, f'{who}, {COUNTED}', image, require)}"
            for peer in asked:
                if peer.can("blocks_free"):
                    yield f"{who} | {COUNTED} | {peer.name} | {shown_free(peer, read_file(image), disks.free_blocks(data, layout), folder)}"
