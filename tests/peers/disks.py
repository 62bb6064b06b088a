"""Disk images as the papers describe them, in each of the three layouts, written for this comparison alone: it shares no code with d64.

It builds the sound disks that are damaged, and reads chains on any image without trusting it.
"""

SEQ, PRG, USR = 1, 2, 3
KIND_WORD = {SEQ: "seq", PRG: "prg", USR: "usr"}
PAD = 0xA0


def sectors_on(track):
    return 21 if track <= 17 else 19 if track <= 24 else 18 if track <= 30 else 17


def offset(track, sector):
    return 256 * (sum(sectors_on(lower) for lower in range(1, track)) + sector)


class Layout:
    """Number and word of man/d64.1, the tracks, and where 18/0 has the map's entry of track 36."""

    def __init__(self, number, word, last, beyond=None):
        self.number, self.word, self.tracks, self.beyond = number, word, range(1, last + 1), beyond
        self.named = "" if number == 0 else f", {word}"
        self.image_bytes = offset(last + 1, 0)
        self.blocks = sum(sectors_on(track) for track in self.tracks if track != 18)

    def on_disk(self, track, sector):
        return track in self.tracks and sector < sectors_on(track)

    def entry(self, track):
        """Where 18/0 has the four bytes of a track: a count, and 24 bits."""
        return 4 * track if track <= 35 else self.beyond + 4 * (track - 36)

    def map_bit(self, track, sector):
        """Where the map marks a sector free: the byte of 18/0 and the bit's mask."""
        return self.entry(track) + 1 + sector // 8, 1 << sector % 8

    def other_bytes(self):
        """The bytes of 18/0 behind the id and the DOS type that are no entry of this layout; among them the entries of another layout."""
        entries = {self.entry(track) + at for track in self.tracks for at in range(4)}
        return [at for at in range(0xAB, 0x100) if at not in entries]


PLAIN, SPEEDDOS, DOLPHIN = LAYOUTS = Layout(0, "35", 35), Layout(1, "speeddos", 40, 0xC0), Layout(2, "dolphin", 40, 0xAC)
OTHER_KIND = {SPEEDDOS: DOLPHIN, DOLPHIN: SPEEDDOS}


def sector_bytes(image, track, sector):
    start = offset(track, sector)
    return image[start:start + 256]


def padded(name):
    return bytes(name) + bytes([PAD]) * (16 - len(name))


def pattern(length, owner):
    """The bytes of a file: no two owners have a sector alike, and no byte tells its neighbour."""
    state, out = 0x9E3779B9 ^ (owner * 0x85EBCA6B & 0xFFFFFFFF), bytearray()
    for _ in range(length):
        state = (state * 1664525 + 1013904223) & 0xFFFFFFFF
        out.append(state >> 24)
    return bytes(out)


def mark(image, track, sector, free, layout=PLAIN):
    """Marks a sector in the map and lets the count follow."""
    base, (at, mask) = offset(18, 0), layout.map_bit(track, sector)
    if bool(image[base + at] & mask) != free:
        image[base + at] ^= mask
        count = base + layout.entry(track)
        image[count] = (image[count] + (1 if free else -1)) & 0xFF


def spare_bits(image, layout=PLAIN):
    """The map's bits past the last sectors, 3, 5, 6 or 7 a track, by track and number: is it set?"""
    table = sector_bytes(image, 18, 0)
    bits = {(track, bit): layout.map_bit(track, bit) for track in layout.tracks for bit in range(sectors_on(track), 24)}
    return {place: bool(table[at] & mask) for place, (at, mask) in bits.items()}


def put_spare_bits(image, bits, layout=PLAIN):
    base = offset(18, 0)
    for (track, bit), value in bits.items():
        at, mask = layout.map_bit(track, bit)
        image[base + at] = image[base + at] | mask if value else image[base + at] & ~mask


def other_bytes(image, layout=PLAIN):
    return bytes(sector_bytes(image, 18, 0)[at] for at in layout.other_bytes())


def entry_bytes(image, layout, tracks=range(36, 41)):
    """The map's entries of some tracks."""
    table = sector_bytes(image, 18, 0)
    return b"".join(bytes(table[layout.entry(track):layout.entry(track) + 4]) for track in tracks)


def put_entries(image, data, layout, tracks=range(36, 41)):
    for number, track in enumerate(tracks):
        start = offset(18, 0) + layout.entry(track)
        image[start:start + 4] = data[4 * number:4 * number + 4]


def fresh(layout=PLAIN, name=b"PEERS", disk_id=b"01"):
    image = bytearray(layout.image_bytes)
    base = offset(18, 0)
    image[base:base + 4] = bytes([0x12, 0x01, 0x41, 0x00])
    for track in layout.tracks:
        for sector in range(sectors_on(track)):
            mark(image, track, sector, True, layout)
    mark(image, 18, 0, False)
    mark(image, 18, 1, False)
    image[base + 0x90:base + 0xAB] = padded(name) + b"\xa0\xa0" + disk_id + b"\xa02A\xa0\xa0\xa0\xa0"
    image[offset(18, 1) + 1] = 0xFF
    return image


def put_chain(image, sectors, data, layout=PLAIN):
    """Writes data along the sectors given and marks them as used."""
    for number, (track, sector) in enumerate(sectors):
        part = data[254 * number:254 * (number + 1)]
        last = number + 1 == len(sectors)
        link = (0, len(part) + 1) if last else sectors[number + 1]
        start = offset(track, sector)
        image[start:start + 256] = bytes(link) + part + bytes(254 - len(part))
        mark(image, track, sector, False, layout)


def slot_offset(slot):
    """Where a slot lies on a disk whose directory is 18/1 alone."""
    return offset(18, 1) + 32 * slot


def put_entry(image, slot, kind_byte, name, first, count):
    entry = bytes([kind_byte, *first]) + padded(name) + bytes(9) + count.to_bytes(2, "little")
    start = slot_offset(slot)
    image[start + 2:start + 32] = entry


def put_file(image, slot, name, sectors, data, layout=PLAIN):
    put_chain(image, sectors, data, layout)
    put_entry(image, slot, 0x80 + PRG, name, sectors[0], len(sectors))


def entries(image, layout=PLAIN):
    """The 32 bytes of each slot that is not empty, in directory order."""
    for place in chain(image, (18, 1), layout)[0]:
        block = sector_bytes(image, *place)
        for start in range(0, 256, 32):
            slot = bytes(block[start:start + 32])
            if slot[2] != 0:
                yield slot


def chain(image, first, layout=PLAIN):
    """The sectors along a chain as far as they can be followed, and the link that ends it."""
    walked, here = [], tuple(first)
    while here not in walked and layout.on_disk(*here) and len(sector_bytes(image, *here)) == 256:
        walked.append(here)
        here = tuple(sector_bytes(image, *here)[:2])
    return walked, here


def chain_bytes(image, first, layout=PLAIN):
    """The data along a chain, or None where it cannot be followed to a sound end."""
    walked, end = chain(image, first, layout)
    if not walked or end[0] != 0 or end[1] == 0:
        return None
    data = b"".join(bytes(sector_bytes(image, *place)[2:]) for place in walked)
    return data[:254 * (len(walked) - 1) + end[1] - 1]


def files(image, layout=PLAIN):
    """What is on the disk: (kind, name, bytes) for each entry."""
    return [(slot[2] & 0x0F, slot[5:21].split(bytes([PAD]))[0], chain_bytes(image, slot[3:5], layout)) for slot in entries(image, layout)]


def free_blocks(image, layout=PLAIN):
    base = offset(18, 0)
    return sum(image[base + layout.entry(track)] for track in layout.tracks if track != 18)
