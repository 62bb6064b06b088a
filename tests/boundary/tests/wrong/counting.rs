//! Wrong libraries about the count of a track's free sectors (02, §4): the
//! ones of its three bitmap bytes, those past its last sector masked off; and
//! a store that finds its sectors by that count and by the lowest one.
//!
//! A count of the sectors without an owner is not among them. It differs from
//! the ones only where a bit is wrong, and that is answered first.

use super::changes::{Change, StoreEdited};
use super::masks::{own, rows, Masked, Rule, Seen};
use super::stored::placed;
use super::{give, house_tracks, wrong, Row};
use boundary::calls::{EntryPoints, Faithful, Slice};
use independent::answer::Answer;
use independent::calls::sectors_needed;
use independent::naive::{contents, track_length, Place};
use independent::sound::map_offset;
use Rule::Judge;

pub const WRONG: &[Row] = rows![
    "the ones of all 24 bits are counted" => Judge(|seen| counted(seen, seen.bits)),
    "the ones of two bytes are counted" => Judge(|seen| counted(seen, seen.free() & 0xFFFF)),
    "the ones of the last two bytes are counted" => Judge(|seen| counted(seen, seen.free() & !0xFF)),
    "the last sector is not counted" => Judge(|seen| counted(seen, seen.free() & own(seen.track) >> 1)),
    "sector 0 is not counted" => Judge(|seen| counted(seen, seen.free() & !1)),
    "17 sectors are counted on every track" => Judge(|seen| counted(seen, seen.free() & 0x1_FFFF)),
    "21 sectors are counted on every track" => Judge(|seen| counted(seen, seen.bits & 0x1F_FFFF)),
    "19 sectors are counted on tracks 25 to 30" => Judge(|seen| counted(seen, as_on(seen, 25, 30, 19))),
    "18 sectors are counted on tracks 31 to 35" => Judge(|seen| counted(seen, as_on(seen, 31, 35, 18))),
    "20 sectors are counted on track 18" => Judge(|seen| counted(seen, as_on(seen, 18, 18, 20))),
    "the used sectors are counted" => Judge(|seen| counted(seen, !seen.bits & own(seen.track))),
    "the used sectors are taken off 24" => Judge(|seen| counted(seen, 0xFF_FFFF & !(!seen.bits & own(seen.track)))),
    "counts are compared modulo 8" => Judge(|seen| modulo(seen, 8)),
    "counts are compared modulo 16" => Judge(|seen| modulo(seen, 16)),
    "counts are compared modulo 32" => Judge(|seen| modulo(seen, 32)),
    "counts are compared modulo 64" => Judge(|seen| modulo(seen, 64)),
    "counts are compared modulo 128" => Judge(|seen| modulo(seen, 128)),
    "a count of 0 is not asked" => Judge(|seen| accepted_if(seen, seen.count == 0)),
    "a count of 255 is not asked" => Judge(|seen| accepted_if(seen, seen.count == 255)),
    "a count of 24 is not asked" => Judge(|seen| accepted_if(seen, seen.count == 24)),
    "the track's own length is taken for a count" => Judge(|seen| accepted_if(seen, seen.count == track_length(seen.track))),
    "a count may be too high" => Judge(|seen| accepted_if(seen, seen.count > seen.ones())),
    "a count may be too low" => Judge(|seen| accepted_if(seen, seen.count < seen.ones())),
    "a count may be one too high" => Judge(|seen| accepted_if(seen, seen.count == seen.ones() + 1)),
    "a count may be one too low" => Judge(|seen| accepted_if(seen, seen.ones().checked_sub(1) == Some(seen.count))),
    "a count may be the number of used sectors" => Judge(|seen| accepted_if(seen, seen.count == track_length(seen.track) - seen.ones())),
    "the count of a full track is not asked" => Judge(|seen| accepted_if(seen, seen.free() == 0)),
    "the count of an empty track is not asked" => Judge(|seen| accepted_if(seen, seen.free() == own(seen.track))),
    "the count of track 1 is not asked" => Judge(|seen| accepted_if(seen, seen.track == 1)),
    "the count of track 18 is not asked" => Judge(|seen| accepted_if(seen, seen.track == 18)),
    "the count of track 35 is not asked" => Judge(|seen| accepted_if(seen, seen.track == 35)),
    "masks are not compared where the count adds up" => Judge(|seen| not_if(seen, seen.adds_up())),
    "only the numbers of bits are compared" => Judge(|seen| not_if(seen, seen.adds_up() && seen.ones() == seen.unused())),
    "a sector marked used wrongly is not seen where the count adds up" => Judge(|seen| not_if(seen, seen.adds_up() && seen.free() & seen.used == 0)),
    "a sector marked free wrongly is not seen where the count adds up" => Judge(|seen| not_if(seen, seen.adds_up() && seen.wrong() & !seen.bits == 0)),
    "an entry of zeros is right" => Judge(|seen| not_if(seen, seen.count == 0 && seen.free() == 0)),
    "an entry of an empty track is right" => Judge(|seen| not_if(seen, seen.count == track_length(seen.track) && seen.free() == own(seen.track))),
    "the map of track 1 is not compared" => Judge(|seen| not_if(seen, seen.track == 1)),
    "the map of track 18 is not compared" => Judge(|seen| not_if(seen, seen.track == 18)),
    "the map of track 35 is not compared" => Judge(|seen| not_if(seen, seen.track == 35)),
    "the map of an empty track is not compared" => Judge(|seen| not_if(seen, seen.used & own(seen.track) == 0)),
    "the map of a full track is not compared" => Judge(|seen| not_if(seen, seen.unused() == 0)),
    "masks are compared in their first byte" => Judge(|seen| compared(seen, 0xFF)),
    "masks are compared in their second byte" => Judge(|seen| compared(seen, 0xFF00)),
    "masks are compared in their last byte" => Judge(|seen| compared(seen, 0xFF_0000)),
    "masks are compared but for sector 0" => Judge(|seen| compared(seen, !1)),
    "masks are compared but for the last sector" => Judge(|seen| compared(seen, own(seen.track) >> 1)),
];

/// Wrong stores.
pub const STORES: &[Row] = &[
    (
        "a track's last free sector is missed",
        &StoreEdited(|image, change| by_track(image, change, but_last)),
        "image:",
    ),
    (
        "a track's first free sector is missed",
        &StoreEdited(|image, change| {
            by_track(image, change, |free| free.split_off(1.min(free.len())))
        }),
        "image:",
    ),
    (
        "a track with one free sector is passed over",
        &StoreEdited(|image, change| by_track(image, change, but_lone)),
        "image:",
    ),
    (
        "sixteen sectors of a track are taken at most",
        &StoreEdited(|image, change| by_track(image, change, |free| cut(free, 16))),
        "image:",
    ),
    (
        "one sector of each track is taken",
        &StoreEdited(|image, change| by_track(image, change, |free| cut(free, 1))),
        "image:",
    ),
    (
        "sectors up to the first used one are taken",
        &StoreEdited(|image, change| by_track(image, change, up_to_a_hole)),
        "image:",
    ),
    (
        "sectors from 16 on are taken last",
        &StoreEdited(|image, change| {
            by_track(image, change, |free| where_sector(free, |s| s < 16))
        }),
        "image:",
    ),
    (
        "sector 0 is taken last",
        &StoreEdited(|image, change| by_track(image, change, |free| where_sector(free, |s| s > 0))),
        "image:",
    ),
    (
        "even sectors are taken first",
        &StoreEdited(|image, change| {
            by_track(image, change, |free| where_sector(free, |s| s % 2 == 0))
        }),
        "image:",
    ),
    (
        "the highest free sector of a track is taken first",
        &StoreEdited(|image, change| by_track(image, change, highest_first)),
        "image:",
    ),
    (
        "the map of the last track is not written",
        &StoreEdited(|image, change| map_left(image, change, change.file.chain.last())),
        "image:",
    ),
    (
        "the map of the first track is not written",
        &StoreEdited(|image, change| map_left(image, change, change.file.chain.first())),
        "image:",
    ),
    (
        "the rest of the last track is marked used",
        &StoreEdited(rest_marked),
        "image:",
    ),
    (
        "each track's count is lowered by one",
        &StoreEdited(lowered_by_one),
        "image:",
    ),
    (
        "each track's count is lowered modulo 16",
        &StoreEdited(|image, change| counts_by(image, change, |taken| taken % 16)),
        "image:",
    ),
    (
        "a count is not lowered where all is taken",
        &StoreEdited(|image, change| {
            counts_by(image, change, |taken| if taken > 16 { 0 } else { taken })
        }),
        "image:",
    ),
    (
        "room is counted in a byte",
        &Room(|_, free, _| free % 256),
        "number:",
    ),
    (
        "room is counted without track 35",
        &Room(|_, free, left| free - left(35)),
        "number:",
    ),
    (
        "room is counted without track 1",
        &Room(|_, free, left| free - left(1)),
        "number:",
    ),
    (
        "room is counted without track 17",
        &Room(|_, free, left| free - left(17)),
        "number:",
    ),
    (
        "room is counted with at most 16 of a track",
        &Room(|layout, _, left| house_tracks(layout).map(|track| left(track).min(16)).sum()),
        "number:",
    ),
    (
        "room is one sector less",
        &Room(|_, free, _| free.saturating_sub(1)),
        "number:",
    ),
    ("room is one sector more", &OneMore, "number:"),
];

// --- The check's count ----------------------------------------------------

impl Seen {
    /// The track's own sectors that are marked free.
    fn free(&self) -> u32 {
        self.bits & own(self.track)
    }

    fn ones(&self) -> u8 {
        self.free().count_ones() as u8
    }

    /// The count is that of the ones.
    fn adds_up(&self) -> bool {
        self.count == self.ones()
    }

    /// How many sectors have no owner.
    fn unused(&self) -> u8 {
        (!self.used & own(self.track)).count_ones() as u8
    }
}

/// One of the rows.
pub const TWO_BYTES: Masked = Masked(Judge(|seen| counted(seen, seen.free() & 0xFFFF)));

/// The count is compared with the ones of other bits.
fn counted(seen: &Seen, bits: u32) -> Option<u8> {
    seen.with_count(u32::from(seen.count) == bits.count_ones())
}

/// The bits of a track as if the tracks from one to another had so many.
fn as_on(seen: &Seen, from: u8, to: u8, sectors: u8) -> u32 {
    match (from..=to).contains(&seen.track) {
        true => seen.bits & ((1 << sectors) - 1),
        false => seen.free(),
    }
}

fn modulo(seen: &Seen, by: u8) -> Option<u8> {
    seen.with_count(seen.count % by == seen.ones() % by)
}

/// A wrong count is no fault where this holds.
fn accepted_if(seen: &Seen, holds: bool) -> Option<u8> {
    seen.with_count(holds || seen.adds_up())
}

/// Nothing of the entry is a fault where this holds.
fn not_if(seen: &Seen, holds: bool) -> Option<u8> {
    seen.judged().filter(|_| !holds)
}

/// Only these bits are compared.
fn compared(seen: &Seen, bits: u32) -> Option<u8> {
    match seen.wrong() & bits {
        0 if seen.adds_up() => None,
        0 => Some(255),
        wrong => Some(wrong.trailing_zeros() as u8),
    }
}

// --- The sectors that a store takes ---------------------------------------

/// The free sectors of a track before the store, upward.
fn free_on(change: &Change, track: u8) -> Vec<Place> {
    let sectors = (0..track_length(track)).map(|sector| (track, sector));
    let free = |place: &Place| change.file.chain.contains(place) || change.is_left_free(*place);
    sectors.filter(free).collect()
}

/// The store takes a part of each track's free sectors, and the rest only when
/// there is no other left.
fn by_track(image: &mut [u8], change: &Change, part: fn(&mut Vec<Place>) -> Vec<Place>) {
    let (mut order, mut rest) = (Vec::new(), Vec::new());
    for track in house_tracks(change.layout) {
        let mut free = free_on(change, track);
        order.extend(part(&mut free));
        rest.extend(free);
    }
    rest.retain(|place| !order.contains(place));
    placed(image, change, order.into_iter().chain(rest));
}

fn cut(free: &mut Vec<Place>, most: usize) -> Vec<Place> {
    free.drain(..most.min(free.len())).collect()
}

fn but_last(free: &mut Vec<Place>) -> Vec<Place> {
    cut(free, free.len().saturating_sub(1))
}

fn but_lone(free: &mut Vec<Place>) -> Vec<Place> {
    match free.len() {
        1 => Vec::new(),
        all => cut(free, all),
    }
}

fn up_to_a_hole(free: &mut Vec<Place>) -> Vec<Place> {
    let next = |pair: &[Place]| pair[1].1 == pair[0].1 + 1;
    let joined = free.windows(2).take_while(|pair| next(pair)).count();
    cut(free, joined + 1)
}

fn where_sector(free: &[Place], holds: fn(u8) -> bool) -> Vec<Place> {
    free.iter()
        .copied()
        .filter(|place| holds(place.1))
        .collect()
}

/// And then upward.
fn highest_first(free: &mut Vec<Place>) -> Vec<Place> {
    let all = free.len();
    free.rotate_right(1.min(all));
    cut(free, all)
}

/// A track's entry stays as it was.
fn map_left(image: &mut [u8], change: &Change, on: Option<&Place>) {
    if let Some((track, _)) = on {
        change.restore(image, map_offset(change.layout, *track), 4);
    }
}

pub fn rest_marked(image: &mut [u8], change: &Change) {
    let last = change.file.chain.last().expect("a sector at least").0;
    let entry = &mut image[map_offset(change.layout, last)..][..4];
    let bits = u32::from_le_bytes([entry[1], entry[2], entry[3], 0]) & !own(last);
    entry.copy_from_slice(&(bits << 8).to_le_bytes());
}

pub fn lowered_by_one(image: &mut [u8], change: &Change) {
    counts_by(image, change, |taken| taken.min(1));
}

/// Counts are lowered by another number than that of the sectors taken.
fn counts_by(image: &mut [u8], change: &Change, lowered: fn(u8) -> u8) {
    for track in house_tracks(change.layout) {
        let at = map_offset(change.layout, track);
        let taken = change.before[at] - image[at];
        image[at] = change.before[at] - lowered(taken);
    }
}

// --- Room -----------------------------------------------------------------

/// A store that takes the room for less than it is: given the layout, the free
/// sectors off track 18, and those of a track.
pub(super) struct Room(pub(super) fn(u32, usize, &dyn Fn(u8) -> usize) -> usize);

impl EntryPoints for Room {
    unsafe fn store(
        &self,
        layout: u32,
        image: Slice,
        name: Slice,
        kind: u32,
        data: Slice,
        answer: Slice,
    ) -> u32 {
        unsafe {
            let before = image.bytes().to_vec();
            let number = Faithful.store(layout, image, name, kind, data, answer);
            let left = |track: u8| usize::from(before[map_offset(layout, track)]);
            if number == 0
                && sectors_needed(data.len)
                    > self.0(layout, house_tracks(layout).map(left).sum(), &left)
            {
                image.bytes_mut().copy_from_slice(&before);
                return give(answer, Answer::refusal(15));
            }
            number
        }
    }
}

// It stores what fits.
wrong!(OneMore: store(layout, image, name, kind, data, answer) {
    let number = Faithful.store(layout, image, name, kind, data, answer);
    let held = contents(layout, image.bytes()).filter(|_| number == 15);
    let free = held.map_or(0, |held| held.free_off_track_18());
    if free == 0 || sectors_needed(data.len) != free + 1 {
        return number;
    }
    Faithful.store(layout, image, name, kind, Slice { len: 254 * free, ..data }, answer)
});
