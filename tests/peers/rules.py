"""The order of the check in the scope document, once more and as naively as it can be written: what d64 must answer for any image in each layout.

The map's bits past a track's last sector are not looked at: document 02, request 5. A wrong map has the lowest sector whose bit is wrong, and none where only
the count is: request 3.
"""

from disks import PAD, PLAIN, offset, sector_bytes, sectors_on


class Fault(Exception):
    def __init__(self, number, track, sector=None, slot=None):
        place = f"track {track}" if sector is None else f"{track}/{sector}"
        super().__init__(f"{number} at {place}" + ("" if slot is None else f" slot {slot}"))


def walk_directory(image, owned):
    walked = [(18, 1)]
    while True:
        track, sector = sector_bytes(image, *walked[-1])[:2]
        if track == 0:
            return walked
        if track != 18 or not 1 <= sector <= 18:
            raise Fault(2, *walked[-1])
        if (track, sector) in owned:
            raise Fault(3, *walked[-1])
        owned.add((track, sector))
        walked.append((track, sector))


def walk_chain(image, layout, entry, place, slot, owned):
    holder, link, length = place, (entry[3], entry[4]), 0
    while True:
        if not layout.on_disk(*link):
            raise Fault(2, *holder, slot)
        if link in owned:
            raise Fault(3, *holder, slot)
        owned.add(link)
        length += 1
        holder, link = link, tuple(sector_bytes(image, *link)[:2])
        if link[0] == 0 and link[1] >= 1:
            return length


def check_slot(image, layout, entry, place, slot, names, owned):
    kind, name = entry[2], entry[5:21].rstrip(bytes([PAD]))
    if kind & 0xB0 != 0x80 or kind & 0x0F not in (1, 2, 3):
        raise Fault(4, *place, slot)
    if not name or PAD in name:
        raise Fault(5, *place, slot)
    if name in names:
        raise Fault(6, *place, slot)
    names.add(name)
    if walk_chain(image, layout, entry, place, slot, owned) != entry[30] + 256 * entry[31]:
        raise Fault(7, *place, slot)


def check_map(image, layout, owned):
    table = sector_bytes(image, 18, 0)
    for track in layout.tracks:
        free = 0
        for sector in range(sectors_on(track)):
            at, mask = layout.map_bit(track, sector)
            free += (track, sector) not in owned
            if bool(table[at] & mask) == ((track, sector) in owned):
                raise Fault(8, track, sector)
        if table[layout.entry(track)] != free:
            raise Fault(8, track)


def answer(image, layout=PLAIN):
    """"done", or the number of the first fault and its place."""
    if len(image) != layout.image_bytes:
        return "1"
    owned, names, slot = {(18, 0), (18, 1)}, set(), 0
    try:
        for place in walk_directory(image, owned):
            for start in range(0, 256, 32):
                entry = bytes(image[offset(*place) + start:offset(*place) + start + 32])
                if entry[2] != 0:
                    check_slot(image, layout, entry, place, slot, names, owned)
                slot += 1
        check_map(image, layout, owned)
    except Fault as fault:
        return str(fault)
    return "done"
