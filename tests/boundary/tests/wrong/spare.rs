//! Wrong libraries about the bits past a track's last sector (02, §5): check
//! ignores them, they are no room, and every call but format leaves them.

use super::changes::{mark, Change, ScratchEdited, StoreEdited};
use super::formatting::FormatEdited;
use super::{
    file_read, give, house_tracks, is_image, reported_length, slice_of, tracks, wrong, Row,
};
use boundary::calls::{EntryPoints, Faithful, Slice};
use independent::answer::Answer;
use independent::check::check;
use independent::naive::{contents, entry_at, places, track_length, Owner, Place};
use independent::request::track_18_of;
use independent::sound::{map_offset, offset, spare_mask};

pub const WRONG: &[Row] = &[
    (
        "check still refuses spare bits",
        &CheckSees(refused_as_before),
        "number:",
    ),
    ("read still refuses them", &ReadStillRefuses, "number:"),
    ("tell still refuses them", &TellStillRefuses, "number:"),
    ("store still refuses them", &StoreStillRefuses, "number:"),
    (
        "scratch still refuses them",
        &ScratchStillRefuses,
        "number:",
    ),
    ("check counts them", &CheckSees(counted_in), "number:"),
    (
        "check takes a count with them too",
        &CheckSees(either_count),
        "number:",
    ),
    (
        "check leaves the count unasked beside them",
        &CheckSees(count_unasked),
        "number:",
    ),
    (
        "check looks at 21 bits of every track",
        &CheckSees(twenty_one_bits),
        "number:",
    ),
    (
        "check looks at 17 bits of every track",
        &CheckIgnores(past_sector_16),
        "number:",
    ),
    (
        "check ignores the last sector of tracks 1 to 17",
        &CheckIgnores(|track| last_sector(track, 1, 17)),
        "number:",
    ),
    (
        "check ignores the last sector of tracks 18 to 24",
        &CheckIgnores(|track| last_sector(track, 18, 24)),
        "number:",
    ),
    (
        "check ignores the last sector of tracks 25 to 30",
        &CheckIgnores(|track| last_sector(track, 25, 30)),
        "number:",
    ),
    (
        "check ignores the last sector of tracks 31 to 35",
        &CheckIgnores(|track| last_sector(track, 31, 35)),
        "number:",
    ),
    ("check clears spare bits", &CheckClears, "image:"),
    ("the listing counts them", &ListingCounts, "output:"),
    (
        "store clears them where it writes",
        &StoreEdited(cleared_where_written),
        "image:",
    ),
    (
        "store clears them on all tracks",
        &StoreEdited(cleared),
        "image:",
    ),
    ("store sets them", &StoreEdited(set), "image:"),
    (
        "store sets them where it writes",
        &StoreEdited(set_where_written),
        "image:",
    ),
    ("store counts them", &StoreEdited(counted), "image:"),
    (
        "store writes the map anew from the owners",
        &StoreEdited(written_anew),
        "image:",
    ),
    (
        "a growing directory clears those of track 18",
        &StoreEdited(cleared_by_growth),
        "image:",
    ),
    (
        "store goes on past a track's last sector",
        &StoreEdited(past_the_end),
        "image:",
    ),
    (
        "a bit past track 17's last sector is room",
        &TakenAsRoom,
        "number:",
    ),
    (
        "the directory grows into 18/19",
        &TakenByDirectory,
        "number:",
    ),
    (
        "a refused store clears spare bits",
        &RefusedStoreClears,
        "image:",
    ),
    (
        "scratch clears them where it writes",
        &ScratchEdited(cleared_where_written),
        "image:",
    ),
    (
        "scratch clears them on all tracks",
        &ScratchEdited(cleared),
        "image:",
    ),
    ("scratch sets them", &ScratchEdited(set), "image:"),
    (
        "scratch sets them where it writes",
        &ScratchEdited(set_where_written),
        "image:",
    ),
    ("scratch counts them", &ScratchEdited(counted), "image:"),
    (
        "scratch writes the map anew from the owners",
        &ScratchEdited(written_anew),
        "image:",
    ),
    (
        "a refused scratch clears spare bits",
        &RefusedScratchClears,
        "image:",
    ),
    ("format keeps spare bits", &FormatEdited(kept), "image:"),
    (
        "format sets spare bits",
        &FormatEdited(set_by_format),
        "image:",
    ),
];

/// The spare bits that a track's entry has set.
fn spare_of(entry: &[u8], track: u8) -> u8 {
    entry[3] & spare_mask(track)
}

fn ones(byte: u8) -> u8 {
    byte.count_ones() as u8
}

// --- What check sees of the map -------------------------------------------

/// A check that is right but for how it sees a track's entry.
pub struct CheckSees(pub fn(u8, [u8; 4]) -> [u8; 4]);

impl EntryPoints for CheckSees {
    unsafe fn check(&self, layout: u32, image: Slice, answer: Slice) -> u32 {
        let mut seen = unsafe { image.bytes() }.to_vec();
        if is_image(layout, &seen) {
            for track in tracks(layout) {
                let entry = &mut seen[map_offset(layout, track)..][..4];
                let is = [entry[0], entry[1], entry[2], entry[3]];
                entry.copy_from_slice(&self.0(track, is));
            }
        }
        unsafe { Faithful.check(layout, slice_of(&mut seen), answer) }
    }
}

/// An entry that is wrong on every track.
const NO_ENTRY: [u8; 4] = [0xFF; 4];

/// As document 01 had it.
pub fn refused_as_before(track: u8, is: [u8; 4]) -> [u8; 4] {
    match spare_of(&is, track) {
        0 => is,
        _ => NO_ENTRY,
    }
}

/// The count has to be that of all 24 bits.
pub fn counted_in(track: u8, is: [u8; 4]) -> [u8; 4] {
    let count = is[0].wrapping_sub(ones(spare_of(&is, track)));
    [count, is[1], is[2], is[3]]
}

/// The ones of the track's own sectors.
fn own_ones(track: u8, is: [u8; 4]) -> u8 {
    ones(is[1]) + ones(is[2]) + ones(is[3] & !spare_mask(track))
}

/// The count may be that of all 24 bits.
fn either_count(track: u8, is: [u8; 4]) -> [u8; 4] {
    let own = own_ones(track, is);
    match is[0] == own + ones(spare_of(&is, track)) {
        true => [own, is[1], is[2], is[3]],
        false => is,
    }
}

fn count_unasked(track: u8, is: [u8; 4]) -> [u8; 4] {
    match spare_of(&is, track) {
        0 => is,
        _ => [own_ones(track, is), is[1], is[2], is[3]],
    }
}

pub fn twenty_one_bits(track: u8, is: [u8; 4]) -> [u8; 4] {
    match spare_of(&is, track) & 0x1F {
        0 => is,
        _ => NO_ENTRY,
    }
}

/// A check that does not look at some bits of an entry's last byte: where they
/// alone are wrong, it goes on.
pub struct CheckIgnores(pub fn(u8) -> u8);

impl EntryPoints for CheckIgnores {
    unsafe fn check(&self, layout: u32, image: Slice, answer: Slice) -> u32 {
        let mut seen = unsafe { image.bytes() }.to_vec();
        loop {
            let number = unsafe { Faithful.check(layout, slice_of(&mut seen), answer) };
            if number != 8 {
                return number;
            }
            let track = unsafe { answer.bytes() }[0];
            if !made_right(layout, &mut seen, track, self.0(track)) {
                return number;
            }
        }
    }
}

/// Makes a track's entry right by the ignored bits alone; false if that can't
/// be done.
fn made_right(layout: u32, image: &mut [u8], track: u8, ignored: u8) -> bool {
    let last = map_offset(layout, track) + 3;
    let old = image[last];
    for bits in (0..=0xFF).filter(|bits| bits & !ignored == 0) {
        image[last] = old & !ignored | bits;
        let found = check(layout, image);
        if (found.number, found.place.track) != (8, track) {
            return true;
        }
    }
    image[last] = old;
    false
}

/// The bits of the track's own sectors from 17 on.
fn past_sector_16(track: u8) -> u8 {
    !spare_mask(track) & 0xFE
}

/// The bit of the track's last sector, if it is one of these tracks.
fn last_sector(track: u8, from: u8, to: u8) -> u8 {
    match (from..=to).contains(&track) {
        true => 1 << (track_length(track) - 17),
        false => 0,
    }
}

wrong!(CheckClears: check(layout, image, answer) {
    let number = Faithful.check(layout, image, answer);
    if number == 0 {
        put_spare(layout, image.bytes_mut(), tracks(layout), 0);
    }
    number
});

wrong!(ListingCounts: listing(layout, track18, text, answer) {
    let number = Faithful.listing(layout, track18, text, answer);
    if number == 0 {
        let map = track_18_of(track18.bytes());
        let counts = house_tracks(layout).flat_map(|track| {
            let is = &map[entry_at(layout, track)..][..4];
            [is[0], ones(spare_of(is, track))]
        });
        let sum: u16 = counts.map(u16::from).sum();
        let end = reported_length(answer) - 1;
        text.bytes_mut()[end - 4..end].copy_from_slice(format!("{sum:04X}").as_bytes());
    }
    number
});

// --- The calls that check first -------------------------------------------

/// What the check said of an accepted image with spare bits set.
fn fault_before(layout: u32, image: &[u8]) -> Option<Answer> {
    contents(layout, image)?;
    let is_set = |track: &u8| spare_of(&image[map_offset(layout, *track)..], *track) != 0;
    let track = tracks(layout).find(is_set)?;
    Some(Answer::fault(8, track, 255, 255))
}

/// What a check says where no fault of an argument comes first.
pub unsafe fn fault_after_name(
    layout: u32,
    image: Slice,
    name: Slice,
    check: fn(u32, &[u8]) -> Option<Answer>,
) -> Option<Answer> {
    let (image, name) = unsafe { (image.bytes(), name.bytes()) };
    let good = (1..=16).contains(&name.len()) && !name.contains(&0xA0);
    check(layout, image).filter(|_| good)
}

wrong!(ReadStillRefuses: read(layout, image, name, out, answer) {
    match fault_after_name(layout, image, name, fault_before) {
        Some(fault) => give(answer, fault),
        None => Faithful.read(layout, image, name, out, answer),
    }
});

wrong!(TellStillRefuses: tell(layout, image, position, entry, answer) {
    match fault_before(layout, image.bytes()) {
        Some(fault) => give(answer, fault),
        None => Faithful.tell(layout, image, position, entry, answer),
    }
});

wrong!(StoreStillRefuses: store(layout, image, name, kind, data, answer) {
    match fault_after_name(layout, image, name, fault_before) {
        Some(fault) if (1..=2).contains(&kind) => give(answer, fault),
        _ => Faithful.store(layout, image, name, kind, data, answer),
    }
});

wrong!(ScratchStillRefuses: scratch(layout, image, name, answer) {
    match fault_after_name(layout, image, name, fault_before) {
        Some(fault) => give(answer, fault),
        None => Faithful.scratch(layout, image, name, answer),
    }
});

// --- What store and scratch leave -----------------------------------------

/// Gives the spare bits of some tracks the values of a byte's.
fn put_spare(layout: u32, image: &mut [u8], tracks: impl IntoIterator<Item = u8>, byte: u8) {
    for track in tracks {
        let (last, mask) = (&mut image[map_offset(layout, track) + 3], spare_mask(track));
        *last = *last & !mask | byte & mask;
    }
}

/// The tracks whose entries the call changed.
fn written(image: &[u8], change: &Change) -> Vec<u8> {
    let entry = |track| map_offset(change.layout, track)..map_offset(change.layout, track) + 4;
    let differs = |track: &u8| image[entry(*track)] != change.before[entry(*track)];
    tracks(change.layout).filter(differs).collect()
}

pub fn cleared(image: &mut [u8], change: &Change) {
    put_spare(change.layout, image, tracks(change.layout), 0);
}

pub fn cleared_where_written(image: &mut [u8], change: &Change) {
    let tracks = written(image, change);
    put_spare(change.layout, image, tracks, 0);
}

pub fn cleared_by_growth(image: &mut [u8], change: &Change) {
    if change.grown.is_some() {
        put_spare(change.layout, image, [18], 0);
    }
}

pub fn set(image: &mut [u8], change: &Change) {
    put_spare(change.layout, image, tracks(change.layout), 0xFF);
}

pub fn set_where_written(image: &mut [u8], change: &Change) {
    let tracks = written(image, change);
    put_spare(change.layout, image, tracks, 0xFF);
}

/// The new counts are those of all 24 bits.
pub fn counted(image: &mut [u8], change: &Change) {
    for track in written(image, change) {
        let entry = &mut image[map_offset(change.layout, track)..][..4];
        entry[0] += ones(spare_of(entry, track));
    }
}

/// The map is made of zeros, and each free sector marked in it.
pub fn written_anew(image: &mut [u8], change: &Change) {
    let held = contents(change.layout, image).expect("an accepted image");
    for track in tracks(change.layout) {
        image[map_offset(change.layout, track)..][..4].fill(0);
    }
    for (place, owner) in places(change.layout).zip(&held.owners) {
        mark(change.layout, image, place, *owner == Owner::Nobody);
    }
}

// --- What is no sector ----------------------------------------------------

/// Whether the bit is set that comes after those of a track's sectors.
fn next_bit_is_set(layout: u32, image: &[u8], track: u8) -> bool {
    image[map_offset(layout, track) + 3] & (1 << (track_length(track) - 16)) != 0
}

/// Links a sector to the one that would come after a track's last, and takes
/// that one's bit.
fn lead_past(layout: u32, image: &mut [u8], from: Place, track: u8) {
    let at = offset(from.0, from.1);
    image[at..at + 2].copy_from_slice(&[track, track_length(track)]);
    image[map_offset(layout, track) + 3] &= !(1 << (track_length(track) - 16));
}

/// A file that goes on to another track takes one sector more of the first.
pub fn past_the_end(image: &mut [u8], change: &Change) {
    for pair in change.file.chain.windows(2) {
        let (track, last) = (pair[0].0, track_length(pair[0].0) - 1);
        if pair[0].1 == last
            && pair[1].0 != track
            && next_bit_is_set(change.layout, &change.before, track)
        {
            lead_past(change.layout, image, pair[0], track);
            return mark(change.layout, image, pair[1], true);
        }
    }
}

// Where one sector is lacking, it is 17/21.
wrong!(TakenAsRoom: store(layout, image, name, kind, data, answer) {
    let number = Faithful.store(layout, image, name, kind, data, answer);
    let held = contents(layout, image.bytes()).filter(|_| number == 15);
    let free = held.map_or(0, |held| held.free_off_track_18());
    let lacks_one = free > 0 && data.len.div_ceil(254) == free + 1;
    if !lacks_one || !next_bit_is_set(layout, image.bytes(), 17) {
        return number;
    }
    Faithful.store(layout, image, name, kind, Slice { len: 254 * free, ..data }, answer);
    let file = file_read(layout, image, name);
    lead_past(layout, image.bytes_mut(), file.chain[free - 1], 17);
    give(answer, Answer::done(data.len as u32, free as u16 + 1))
});

wrong!(TakenByDirectory: store(layout, image, name, kind, data, answer) {
    let number = Faithful.store(layout, image, name, kind, data, answer);
    if number != 14 || !next_bit_is_set(layout, image.bytes(), 18) {
        return number;
    }
    let directory = contents(layout, image.bytes()).expect("an accepted image").directory;
    lead_past(layout, image.bytes_mut(), (18, directory[directory.len() - 1]), 18);
    give(answer, Answer::done(data.len as u32, data.len.div_ceil(254).max(1) as u16))
});

// --- Refusals, and format -------------------------------------------------

wrong!(RefusedStoreClears: store(layout, image, name, kind, data, answer) {
    let number = Faithful.store(layout, image, name, kind, data, answer);
    if matches!(number, 12 | 14 | 15) {
        put_spare(layout, image.bytes_mut(), tracks(layout), 0);
    }
    number
});

wrong!(RefusedScratchClears: scratch(layout, image, name, answer) {
    let number = Faithful.scratch(layout, image, name, answer);
    if number == 13 {
        put_spare(layout, image.bytes_mut(), tracks(layout), 0);
    }
    number
});

/// Those of the disk that was there.
pub fn kept(layout: u32, image: &mut [u8], before: &[u8]) {
    for track in tracks(layout) {
        put_spare(
            layout,
            image,
            [track],
            before[map_offset(layout, track) + 3],
        );
    }
}

/// As document 000 shows a track: `15 FF FF FF`.
pub fn set_by_format(layout: u32, image: &mut [u8], _before: &[u8]) {
    put_spare(layout, image, tracks(layout), 0xFF);
}
