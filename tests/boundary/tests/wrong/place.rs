//! Wrong libraries about the place of answer 8 (02, §3): the lowest of the
//! track's own sectors whose bit is wrong, and 255 only if all these are right.

use super::{give, tracks, wrong, Row};
use boundary::calls::{EntryPoints, Faithful, Slice};
use independent::answer::Answer;
use independent::check::check;
use independent::geometry::TRACK_18_BYTES;
use independent::naive::{entry_at, position, track_length};
use independent::sound::{map_offset, spare_mask};

pub const WRONG: &[Row] = &[
    (
        "8 has 255 for a sector, as before",
        &In(ALL, BEFORE),
        ANSWER,
    ),
    (
        "check alone gives 8 with 255 as before",
        &In(&["check"], BEFORE),
        ANSWER,
    ),
    (
        "read alone gives 8 with 255 as before",
        &In(&["read"], BEFORE),
        ANSWER,
    ),
    (
        "store alone gives 8 with 255 as before",
        &In(&["store"], BEFORE),
        ANSWER,
    ),
    (
        "scratch alone gives 8 with 255 as before",
        &In(&["scratch"], BEFORE),
        ANSWER,
    ),
    (
        "tell alone gives 8 with 255 as before",
        &In(&["tell"], BEFORE),
        ANSWER,
    ),
    (
        "8 names the highest wrong bit",
        &In(ALL, Sector(|is| highest(is.wrong()))),
        ANSWER,
    ),
    (
        "8 reads a byte from its highest bit",
        &In(ALL, Sector(reversed)),
        ANSWER,
    ),
    (
        "8 reads the last byte first",
        &In(ALL, Sector(last_byte_first)),
        ANSWER,
    ),
    (
        "8 gives the sector's number within its byte",
        &In(ALL, Renamed(|_, sector| sector % 8)),
        ANSWER,
    ),
    (
        "8 gives the sector's number on the disk, cut to a byte",
        &In(ALL, Renamed(on_disk)),
        ANSWER,
    ),
    (
        "8 counts sectors from 1",
        &In(ALL, Renamed(|_, sector| sector + 1)),
        ANSWER,
    ),
    (
        "8 counts sectors down from the last",
        &In(ALL, Renamed(counted_down)),
        ANSWER,
    ),
    (
        "8 gives the number of wrong bits",
        &In(ALL, Renamed(|is, _| ones(is.wrong()))),
        ANSWER,
    ),
    (
        "8 names the lowest sector marked free",
        &In(ALL, Renamed(|is, _| lowest(is.bits))),
        ANSWER,
    ),
    (
        "8 names the lowest sector marked used",
        &In(ALL, Renamed(|is, _| lowest(!is.bits))),
        ANSWER,
    ),
    (
        "8 names the lowest sector without an owner",
        &In(ALL, Renamed(|is, _| lowest(is.right))),
        ANSWER,
    ),
    (
        "8 names the lowest sector with an owner",
        &In(ALL, Renamed(|is, _| lowest(!is.right))),
        ANSWER,
    ),
    (
        "8 only names a sector marked free wrongly",
        &In(ALL, Sector(|is| lowest(is.taken()))),
        ANSWER,
    ),
    (
        "8 only names a sector marked used wrongly",
        &In(ALL, Sector(|is| lowest(is.lost()))),
        ANSWER,
    ),
    (
        "8 names a sector marked free wrongly before the others",
        &In(ALL, First(Entry::taken, Entry::lost)),
        ANSWER,
    ),
    (
        "8 names a sector marked used wrongly before the others",
        &In(ALL, First(Entry::lost, Entry::taken)),
        ANSWER,
    ),
    (
        "8 names a spare bit beside a wrong count",
        &In(ALL, First(Entry::wrong, Entry::spare)),
        ANSWER,
    ),
    (
        "8 names a spare bit before a wrong one",
        &In(ALL, First(Entry::spare, Entry::wrong)),
        ANSWER,
    ),
    (
        "8 names no sector beside a spare bit",
        &In(ALL, OnlyIf(|is| is.spare() == 0)),
        ANSWER,
    ),
    (
        "8 names only the first 17 sectors",
        &In(ALL, Sector(|is| lowest(is.wrong() & 0x1_FFFF))),
        ANSWER,
    ),
    (
        "8 does not name a track's last sector",
        &In(ALL, Sector(but_the_last)),
        ANSWER,
    ),
    (
        "8 does not name sector 0",
        &In(ALL, Sector(|is| lowest(is.wrong() & !1))),
        ANSWER,
    ),
    (
        "8 names sector 0 for a wrong count",
        &In(ALL, ForCount(|_| 0)),
        ANSWER,
    ),
    (
        "8 names the lowest free sector for a wrong count",
        &In(ALL, ForCount(|is| lowest(is.right))),
        ANSWER,
    ),
    (
        "8 names a sector only beside a right count",
        &In(ALL, OnlyIf(Entry::counts_right)),
        ANSWER,
    ),
    (
        "8 names a sector only beside a wrong count",
        &In(ALL, OnlyIf(|is| !is.counts_right())),
        ANSWER,
    ),
    (
        "8 names a sector only if the count adds up",
        &In(ALL, OnlyIf(Entry::adds_up)),
        ANSWER,
    ),
    (
        "8 names a sector only if the count does not add up",
        &In(ALL, OnlyIf(|is| !is.adds_up())),
        ANSWER,
    ),
    (
        "8 names a sector only if one bit is wrong",
        &In(ALL, OnlyIf(|is| ones(is.wrong()) == 1)),
        ANSWER,
    ),
    (
        "8 names the last wrong track",
        &In(ALL, Place(|all| all[all.len() - 1].place())),
        ANSWER,
    ),
    (
        "8 names the first track with a wrong bit",
        &In(ALL, Place(first_bit)),
        ANSWER,
    ),
    (
        "8 names the first track with a wrong count",
        &In(ALL, Place(first_count)),
        ANSWER,
    ),
    (
        "8 takes the sector from the last wrong track",
        &In(ALL, Place(sector_of_last)),
        ANSWER,
    ),
    (
        "8 exchanges track and sector",
        &In(ALL, Place(exchanged)),
        ANSWER,
    ),
    ("8 gives slot 0", &In(ALL, Slot(|_| 0)), ANSWER),
    (
        "8 gives the sector as the slot too",
        &In(ALL, Slot(|is| is.place()[1])),
        ANSWER,
    ),
    (
        "a check that is done gives sector 255",
        &DoneLeaves255,
        ANSWER,
    ),
    (
        "8 reports the number of wrong bits as sectors",
        &CountedInReport,
        ANSWER,
    ),
    ("a wrong bit gives 7", &NamedGives7, "number:"),
    (
        "a wrong bit gives 0, with its place",
        &NamedGives0,
        "number:",
    ),
    (
        "a wrong bit of sector 0 is no fault",
        &SectorZeroAccepted,
        "number:",
    ),
    ("check puts the named bit right", &CheckRepairs, "image:"),
    (
        "a refused store puts the named bit right",
        &StoreRepairs,
        "image:",
    ),
    (
        "a refused scratch puts the named bit right",
        &ScratchRepairs,
        "image:",
    ),
    ("the listing gives 8", &ListingGives8, "number:"),
];

const ANSWER: &str = "answer:";

// --- Wrong entries --------------------------------------------------------

/// A wrong entry, and what is right; bit s stands for sector s.
pub(super) struct Entry {
    track: u8,
    count: u8,
    bits: u32,
    right_count: u8,
    right: u32,
}

impl Entry {
    /// The bits of the track's own sectors.
    fn own(&self) -> u32 {
        (1 << track_length(self.track)) - 1
    }
    /// Those that are wrong.
    pub fn wrong(&self) -> u32 {
        (self.bits ^ self.right) & self.own()
    }
    /// Of these, the sectors that have an owner and are marked free.
    fn taken(&self) -> u32 {
        self.wrong() & self.bits
    }
    /// And those that have none and are marked used.
    fn lost(&self) -> u32 {
        self.wrong() & !self.bits
    }
    fn spare(&self) -> u32 {
        self.bits & !self.own()
    }
    fn counts_right(&self) -> bool {
        self.count == self.right_count
    }
    /// The count is that of the entry's own bits.
    fn adds_up(&self) -> bool {
        self.count == ones(self.bits & self.own())
    }
    /// The place that is right.
    pub fn place(&self) -> [u8; 3] {
        [self.track, lowest(self.wrong()), 255]
    }
}

fn bits(entry: &[u8]) -> u32 {
    u32::from_le_bytes([entry[1], entry[2], entry[3], 0])
}

fn ones(bits: u32) -> u8 {
    bits.count_ones() as u8
}

/// The lowest of 24 bits, or 255.
pub(super) fn lowest(bits: u32) -> u8 {
    (0..24).find(|bit| bits >> bit & 1 == 1).unwrap_or(255)
}

fn highest(bits: u32) -> u8 {
    let found = (0..24).rev().find(|bit| bits >> bit & 1 == 1);
    found.unwrap_or(255)
}

/// Flips the bit of a sector.
fn flip(layout: u32, image: &mut [u8], track: u8, sector: u8) {
    image[map_offset(layout, track) + 1 + usize::from(sector / 8)] ^= 1 << (sector % 8);
}

/// An image that gives 8, with its map put right: each bit that is named is
/// flipped, and each count alone is counted.
fn with_right_map(layout: u32, image: &[u8]) -> Vec<u8> {
    let mut image = image.to_vec();
    loop {
        let found = check(layout, &image);
        let (track, sector) = (found.place.track, found.place.sector);
        match (found.number, sector) {
            (8, 255) => {
                let at = map_offset(layout, track);
                let own = (1 << track_length(track)) - 1;
                image[at] = ones(bits(&image[at..at + 4]) & own);
            }
            (8, sector) => flip(layout, &mut image, track, sector),
            _ => return image,
        }
    }
}

/// The wrong entries of an image that gives 8, from track 1 on.
fn wrong_entries(layout: u32, image: &[u8]) -> Vec<Entry> {
    let sound = with_right_map(layout, image);
    let entry = |track: u8| {
        let at = map_offset(layout, track)..map_offset(layout, track) + 4;
        let (is, right) = (&image[at.clone()], &sound[at]);
        Entry {
            track,
            count: is[0],
            bits: bits(is),
            right_count: right[0],
            right: bits(right) & ((1 << track_length(track)) - 1),
        }
    };
    let is_wrong = |entry: &Entry| entry.wrong() != 0 || !entry.counts_right();
    tracks(layout).map(entry).filter(is_wrong).collect()
}

// --- Wrong places ---------------------------------------------------------

/// How a place comes about. All but `Place` keep the right track.
pub(super) enum Rule {
    /// Another sector.
    Sector(fn(&Entry) -> u8),
    /// Another number for the right sector; 255 stays.
    Renamed(fn(&Entry, u8) -> u8),
    /// The lowest of some bits if there are any, and else of others.
    First(fn(&Entry) -> u32, fn(&Entry) -> u32),
    /// The right sector where this holds, and else 255.
    OnlyIf(fn(&Entry) -> bool),
    /// Another number than 255 for a wrong count.
    ForCount(fn(&Entry) -> u8),
    /// Another slot than 255.
    Slot(fn(&Entry) -> u8),
    /// Another place, given all wrong entries.
    Place(fn(&[Entry]) -> [u8; 3]),
}
use Rule::{First, ForCount, OnlyIf, Place, Renamed, Sector, Slot};

/// As document 01 had it.
const BEFORE: Rule = Sector(|_| 255);

impl Rule {
    fn place(&self, all: &[Entry]) -> [u8; 3] {
        let is = &all[0];
        let [track, right, _] = is.place();
        let sector = match self {
            Place(place) => return place(all),
            Slot(slot) => return [track, right, slot(is)],
            Sector(sector) => sector(is),
            Renamed(renamed) if right != 255 => renamed(is, right),
            First(some, _) if some(is) != 0 => lowest(some(is)),
            First(_, others) => lowest(others(is)),
            OnlyIf(holds) if !holds(is) => 255,
            ForCount(sector) if right == 255 => sector(is),
            Renamed(_) | OnlyIf(_) | ForCount(_) => right,
        };
        [track, sector, 255]
    }
}

pub(super) const ALL: &[&str] = &["check", "read", "store", "scratch", "tell"];

/// A library in which some calls give another place with answer 8.
pub(super) struct In(pub &'static [&'static str], pub Rule);

impl In {
    unsafe fn put(&self, layout: u32, call: &str, number: u32, image: Slice, answer: Slice) -> u32 {
        if number == 8 && self.0.contains(&call) {
            let image = unsafe { image.bytes() };
            let place = self.1.place(&wrong_entries(layout, image));
            let block = unsafe { answer.bytes_mut() };
            block[..3].copy_from_slice(&place);
        }
        number
    }
}

impl EntryPoints for In {
    unsafe fn check(&self, layout: u32, image: Slice, answer: Slice) -> u32 {
        unsafe {
            let number = Faithful.check(layout, image, answer);
            self.put(layout, "check", number, image, answer)
        }
    }
    unsafe fn read(
        &self,
        layout: u32,
        image: Slice,
        name: Slice,
        out: Slice,
        answer: Slice,
    ) -> u32 {
        unsafe {
            let number = Faithful.read(layout, image, name, out, answer);
            self.put(layout, "read", number, image, answer)
        }
    }
    unsafe fn store(
        &self,
        layout: u32,
        image: Slice,
        name: Slice,
        kind: u32,
        data: Slice,
        answer: Slice,
    ) -> u32 {
        unsafe {
            let number = Faithful.store(layout, image, name, kind, data, answer);
            self.put(layout, "store", number, image, answer)
        }
    }
    unsafe fn scratch(&self, layout: u32, image: Slice, name: Slice, answer: Slice) -> u32 {
        unsafe {
            let number = Faithful.scratch(layout, image, name, answer);
            self.put(layout, "scratch", number, image, answer)
        }
    }
    unsafe fn tell(
        &self,
        layout: u32,
        image: Slice,
        position: usize,
        entry: Slice,
        answer: Slice,
    ) -> u32 {
        unsafe {
            let number = Faithful.tell(layout, image, position, entry, answer);
            self.put(layout, "tell", number, image, answer)
        }
    }
}

/// The bits of a byte are read from the highest.
fn reversed(entry: &Entry) -> u8 {
    let bytes = entry.wrong().to_le_bytes().map(u8::reverse_bits);
    lowest(u32::from_le_bytes(bytes))
}

fn last_byte_first(entry: &Entry) -> u8 {
    lowest(entry.wrong().swap_bytes() >> 8)
}

fn on_disk(entry: &Entry, sector: u8) -> u8 {
    position(entry.track, sector).expect("a place on the disk") as u8
}

fn counted_down(entry: &Entry, sector: u8) -> u8 {
    track_length(entry.track) - 1 - sector
}

fn but_the_last(entry: &Entry) -> u8 {
    lowest(entry.wrong() & entry.own() >> 1)
}

fn first_bit(all: &[Entry]) -> [u8; 3] {
    let found = all.iter().find(|entry| entry.wrong() != 0);
    found.unwrap_or(&all[0]).place()
}

fn first_count(all: &[Entry]) -> [u8; 3] {
    let found = all.iter().find(|entry| !entry.counts_right());
    found.unwrap_or(&all[0]).place()
}

fn sector_of_last(all: &[Entry]) -> [u8; 3] {
    [all[0].track, all[all.len() - 1].place()[1], 255]
}

fn exchanged(all: &[Entry]) -> [u8; 3] {
    let [track, sector, slot] = all[0].place();
    [sector, track, slot]
}

// --- Other answers, and the image -----------------------------------------

/// Whether an answer 8 names a sector; its block has nine bytes then.
unsafe fn is_named(number: u32, answer: Slice) -> bool {
    number == 8 && unsafe { answer.bytes() }[1] != 255
}

/// Puts right the bit that an answer 8 names.
unsafe fn put_right(layout: u32, number: u32, image: Slice, answer: Slice) -> u32 {
    unsafe {
        if is_named(number, answer) {
            let place = answer.bytes();
            flip(layout, image.bytes_mut(), place[0], place[1]);
        }
    }
    number
}

wrong!(DoneLeaves255: check(layout, image, answer) {
    let number = Faithful.check(layout, image, answer);
    if number == 0 {
        answer.bytes_mut()[1] = 255;
    }
    number
});

wrong!(CountedInReport: check(layout, image, answer) {
    let number = Faithful.check(layout, image, answer);
    if is_named(number, answer) {
        answer.bytes_mut()[7] = ones(wrong_entries(layout, image.bytes())[0].wrong());
    }
    number
});

wrong!(NamedGives7: check(layout, image, answer) {
    let number = Faithful.check(layout, image, answer);
    if is_named(number, answer) { 7 } else { number }
});

wrong!(NamedGives0: check(layout, image, answer) {
    let number = Faithful.check(layout, image, answer);
    if is_named(number, answer) { 0 } else { number }
});

wrong!(SectorZeroAccepted: check(layout, image, answer) {
    let number = Faithful.check(layout, image, answer);
    let zero = is_named(number, answer) && answer.bytes()[1] == 0;
    if zero { give(answer, Answer::done(0, 0)) } else { number }
});

wrong!(CheckRepairs: check(layout, image, answer) {
    let number = Faithful.check(layout, image, answer);
    put_right(layout, number, image, answer)
});

wrong!(StoreRepairs: store(layout, image, name, kind, data, answer) {
    let number = Faithful.store(layout, image, name, kind, data, answer);
    put_right(layout, number, image, answer)
});

wrong!(ScratchRepairs: scratch(layout, image, name, answer) {
    let number = Faithful.scratch(layout, image, name, answer);
    put_right(layout, number, image, answer)
});

// It asks whether the counts on track 18 add up.
wrong!(ListingGives8: listing(layout, track18, text, answer) {
    let map = track18.bytes();
    let number = Faithful.listing(layout, track18, text, answer);
    let adds_up = |track: &u8| {
        let entry = &map[entry_at(layout, *track)..][..4];
        let spare = u32::from(spare_mask(*track)) << 16;
        entry[0] == ones(bits(entry) & !spare)
    };
    if number != 0 || map.len() != TRACK_18_BYTES {
        return number;
    }
    match tracks(layout).find(|track| !adds_up(track)) {
        Some(track) => give(answer, Answer::fault(8, track, 255, 255)),
        None => number,
    }
});
