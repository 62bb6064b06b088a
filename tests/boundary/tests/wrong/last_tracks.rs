//! Wrong libraries about tracks 36 to 40 and their map entries (02, §8), which
//! stand at one place in layout 1 and at another in layout 2.

use super::changes::{Change, ScratchEdited, StoreEdited};
use super::counting::Room;
use super::formatting::FormatEdited;
use super::place::{lowest, Entry, In, Rule, ALL};
use super::stored::{placed, upward};
use super::{file_read, give, reported_length, wrong, Row};
use boundary::calls::{EntryPoints, Faithful, Slice};
use independent::answer::Answer;
use independent::geometry::{TRACK_18_BYTES, TRACK_18_OFFSET};
use independent::naive::{contents, entry_at, File, Place};
use independent::request::track_18_of;
use independent::sound::{offset, slot_offset};
use Rule::Place as Places;

/// Rows of what is wrong, the library, and what has to differ.
macro_rules! rows {
    ($($what:literal => $library:expr, $differs:literal;)*) => {
        &[$(($what, &$library, $differs)),*]
    };
}

pub const WRONG: &[Row] = rows![
    "check: tracks 36 to 40 are not checked" => Unchecked(|_, _| true), "number:";
    "check: they are not checked in layout 1" => Unchecked(|layout, _| layout == 1), "number:";
    "check: they are not checked in layout 2" => Unchecked(|layout, _| layout == 2), "number:";
    "check: track 36 is not checked" => Unchecked(|_, place| place.0 == 36), "number:";
    "check: track 40 is not checked" => Unchecked(|_, place| place.0 == 40), "number:";
    "check: their counts are not checked" => Unchecked(|_, place| place.1 == 255), "number:";
    "check: their bits are not checked" => Unchecked(|_, place| place.1 != 255), "number:";
    "8: a last track is named by its entry's place" => In(ALL, Places(|all| tracked(all, |track| track + 12))), "answer:";
    "8: a last track is named from 1 on" => In(ALL, Places(|all| tracked(all, |track| track - 35))), "answer:";
    "8: a last track is named 35" => In(ALL, Places(|all| tracked(all, |_| 35))), "answer:";
    "8: no sector of a last track is named" => In(ALL, Places(|all| sectored(all, |_| 255))), "answer:";
    "8: sector 16 of a last track is not named" => In(ALL, Places(|all| sectored(all, |entry| lowest(entry.wrong() & 0xFFFF)))), "answer:";
    "8: the last tracks come first" => In(ALL, Places(last_first)), "answer:";
    "8: only store names a last track wrongly" => In(&["store"], Places(|all| tracked(all, |_| 0))), "answer:";
    "check: a link to tracks 36 to 40 is refused" => LinksRefused(36..=40), "number:";
    "check: a link to track 40 is refused" => LinksRefused(40..=40), "number:";
    "read: a file on tracks 36 to 40 is refused" => ReadRefused, "number:";
    "check: a link to sector 17 of tracks 36 to 40 is no fault" => LinksTaken(|_, (track, sector)| (36..41).contains(&track) && sector == 17), "number:";
    "check: a link to track 41 is no fault" => LinksTaken(|_, (track, _)| track == 41), "number:";
    "check: layout 0 takes a link to track 36" => LinksTaken(|layout, (track, _)| layout == 0 && track == 36), "number:";
    "read: tracks 36 to 40 are read as zeros" => LastTracksUnread, "output:";
    "read: 681 sectors are reported at most" => AtMost681, "answer:";
    "store: the entries of tracks 36 to 40 stay" => StoreEdited(entries_left), "image:";
    "store: they are written at the other layout's place" => StoreEdited(at_the_other), "image:";
    "store: they are written at both places" => StoreEdited(at_both), "image:";
    "store: the other layout's bytes are cleared" => StoreEdited(others_cleared), "image:";
    "store: layout 0 clears the bytes of both" => StoreEdited(cleared_in_0), "image:";
    "store: the entry of track 40 stays" => StoreEdited(|image, change| entry_left(image, change, 40)), "image:";
    "store: the other layout's bytes are written in layout 0" => StoreEdited(written_in_0), "image:";
    "store: the last tracks come first" => StoreEdited(|image, change| order(image, change, Order::First)), "image:";
    "store: the last tracks come before 19" => StoreEdited(|image, change| order(image, change, Order::Before19)), "image:";
    "store: track 40 comes before 36" => StoreEdited(|image, change| order(image, change, Order::Downward)), "image:";
    "store: room ends at track 35" => Room(|_, free, left| free - last(left)), "number:";
    "store: room is counted without track 36" => Room(|layout, free, left| free - on(layout, left, 36)), "number:";
    "store: room is counted without track 40" => Room(|layout, free, left| free - on(layout, left, 40)), "number:";
    "store: room is 664 sectors at most" => Room(|_, free, _| free.min(664)), "number:";
    "scratch: the entries of tracks 36 to 40 stay" => ScratchEdited(entries_left), "image:";
    "scratch: they are written at the other layout's place" => ScratchEdited(at_the_other), "image:";
    "scratch: they are written at both places" => ScratchEdited(at_both), "image:";
    "scratch: the other layout's bytes are cleared" => ScratchEdited(others_cleared), "image:";
    "scratch: layout 0 clears the bytes of both" => ScratchEdited(cleared_in_0), "image:";
    "scratch: tracks 36 to 40 keep their bytes" => ScratchEdited(codes_left), "image:";
    "scratch: 40/16 keeps its bytes" => ScratchEdited(last_sector_left), "image:";
    "format: the other layout's bytes are kept" => FormatEdited(others_kept), "image:";
    "format: the other layout's entries are filled too" => FormatEdited(both_filled), "image:";
    "format: the entries of tracks 36 to 40 are zero" => FormatEdited(|layout, image, _| fill(layout, image, [0; 4])), "image:";
    "format: they have all 24 bits" => FormatEdited(|layout, image, _| fill(layout, image, [17, 255, 255, 255])), "image:";
    "format: they have 18 sectors" => FormatEdited(|layout, image, _| fill(layout, image, [18, 255, 255, 3])), "image:";
    "format: they have no bits" => FormatEdited(|layout, image, _| fill(layout, image, [17, 0, 0, 0])), "image:";
    "format: tracks 36 to 40 keep their bytes" => FormatEdited(tracks_kept), "image:";
    "listing: tracks 36 to 40 are not in the sum" => ListingSums(|_, _, _| 0), "output:";
    "listing: the other layout's counts are in the sum" => ListingSums(|layout, _, map| counts(map, other(layout))), "output:";
    "listing: both layouts' counts are in the sum" => ListingSums(|layout, own, map| own + counts(map, other(layout))), "output:";
    "listing: layout 0 has them in its sum" => ListingSums(|layout, own, map| if layout == 0 { counts(map, 1) } else { own }), "output:";
    "listing: track 40 is not in the sum" => ListingSums(|layout, own, map| { own.saturating_sub(u16::from(map[entry_at(layout.max(1), 40)])) }), "output:";
];

/// The bytes of five entries.
const EXTRA: usize = 20;

/// The layout of 40 tracks that a call did not name; 1 for layout 0.
fn other(layout: u32) -> u32 {
    if layout == 1 {
        2
    } else {
        1
    }
}

/// Where an image has the entries of tracks 36 to 40 of a layout.
fn extra(layout: u32) -> usize {
    TRACK_18_OFFSET + entry_at(layout, 36)
}

// --- The check ------------------------------------------------------------

/// A check that accepts the image where the first fault is on a last track and
/// this holds of the layout and the place.
struct Unchecked(fn(u32, Place) -> bool);

impl EntryPoints for Unchecked {
    unsafe fn check(&self, layout: u32, image: Slice, answer: Slice) -> u32 {
        unsafe {
            let number = Faithful.check(layout, image, answer);
            if number == 8 {
                let place = (answer.bytes()[0], answer.bytes()[1]);
                if place.0 > 35 && self.0(layout, place) {
                    return give(answer, Answer::done(0, 0));
                }
            }
            number
        }
    }
}

/// The right place but for another name of a last track.
fn tracked(all: &[Entry], named: fn(u8) -> u8) -> [u8; 3] {
    let [track, sector, slot] = all[0].place();
    let track = if track > 35 { named(track) } else { track };
    [track, sector, slot]
}

/// The right place but for another sector on a last track.
fn sectored(all: &[Entry], named: fn(&Entry) -> u8) -> [u8; 3] {
    let [track, sector, slot] = all[0].place();
    let sector = if track > 35 { named(&all[0]) } else { sector };
    [track, sector, slot]
}

fn last_first(all: &[Entry]) -> [u8; 3] {
    let last = all.iter().find(|entry| entry.place()[0] > 35);
    last.unwrap_or(&all[0]).place()
}

// --- Links ----------------------------------------------------------------

/// The first link to one of these tracks along a file's chain, given as the
/// sector that holds it.
fn link_to(file: &File, directory: &[u8], tracks: &std::ops::RangeInclusive<u8>) -> Option<Place> {
    let at = file
        .chain
        .iter()
        .position(|place| tracks.contains(&place.0))?;
    let in_directory = (18, directory[file.slot / 8]);
    Some(if at == 0 {
        in_directory
    } else {
        file.chain[at - 1]
    })
}

/// A check that refuses links to some tracks of a sound image.
pub struct LinksRefused(pub std::ops::RangeInclusive<u8>);

impl EntryPoints for LinksRefused {
    unsafe fn check(&self, layout: u32, image: Slice, answer: Slice) -> u32 {
        unsafe {
            let number = Faithful.check(layout, image, answer);
            let Some(held) = contents(layout, image.bytes()).filter(|_| number == 0) else {
                return number;
            };
            let refused = |file: &File| Some((link_to(file, &held.directory, &self.0)?, file.slot));
            match held.files.iter().find_map(refused) {
                Some(((t, s), slot)) => give(answer, Answer::fault(2, t, s, slot as u8)),
                None => number,
            }
        }
    }
}

wrong!(ReadRefused: read(layout, image, name, out, answer) {
    let before = out.bytes().to_vec();
    let number = Faithful.read(layout, image, name, out, answer);
    if number == 0 && file_read(layout, image, name).chain.iter().any(|place| place.0 > 35) {
        out.bytes_mut().copy_from_slice(&before);
        return give(answer, Answer::refusal(13));
    }
    number
});

/// A check that takes some bad links of files, and finds the count wrong.
struct LinksTaken(fn(u32, Place) -> bool);

impl EntryPoints for LinksTaken {
    unsafe fn check(&self, layout: u32, image: Slice, answer: Slice) -> u32 {
        unsafe {
            let number = Faithful.check(layout, image, answer);
            if number != 2 || answer.bytes()[2] == 255 {
                return number;
            }
            let [track, sector, slot] = [0, 1, 2].map(|at| answer.bytes()[at]);
            // A file's first link is in its slot, which is on track 18.
            let link = match track {
                18 => slot_offset(&[sector], usize::from(slot % 8)) + 3,
                _ => offset(track, sector),
            };
            let link = &image.bytes()[link..link + 2];
            match self.0(layout, (link[0], link[1])) {
                true => give(answer, Answer::fault(7, 18, sector, slot)),
                false => number,
            }
        }
    }
}

// --- Read -----------------------------------------------------------------

wrong!(LastTracksUnread: read(layout, image, name, out, answer) {
    let number = Faithful.read(layout, image, name, out, answer);
    if number == 0 {
        let file = file_read(layout, image, name);
        let length = file.bytes.len();
        for (turn, _) in file.chain.iter().enumerate().filter(|(_, place)| place.0 > 35) {
            out.bytes_mut()[254 * turn..length.min(254 * turn + 254)].fill(0);
        }
    }
    number
});

wrong!(AtMost681: read(layout, image, name, out, answer) {
    let number = Faithful.read(layout, image, name, out, answer);
    if number == 0 {
        let block = answer.bytes();
        let sectors = u16::from_le_bytes([block[7], block[8]]).min(681);
        give(answer, Answer::done(reported_length(answer) as u32, sectors));
    }
    number
});

// --- What store and scratch leave -------------------------------------------

pub fn entries_left(image: &mut [u8], change: &Change) {
    if change.layout > 0 {
        change.restore(image, extra(change.layout), EXTRA);
    }
}

fn entry_left(image: &mut [u8], change: &Change, track: u8) {
    if change.layout > 0 {
        change.restore(image, TRACK_18_OFFSET + entry_at(change.layout, track), 4);
    }
}

pub fn at_both(image: &mut [u8], change: &Change) {
    if change.layout > 0 {
        let own = extra(change.layout);
        image.copy_within(own..own + EXTRA, extra(other(change.layout)));
    }
}

pub fn at_the_other(image: &mut [u8], change: &Change) {
    at_both(image, change);
    entries_left(image, change);
}

pub fn others_cleared(image: &mut [u8], change: &Change) {
    if change.layout > 0 {
        image[extra(other(change.layout))..][..EXTRA].fill(0);
    }
}

fn cleared_in_0(image: &mut [u8], change: &Change) {
    if change.layout == 0 {
        image[extra(2)..][..2 * EXTRA].fill(0);
    }
}

fn written_in_0(image: &mut [u8], change: &Change) {
    if change.layout == 0 {
        fill(1, image, [17, 255, 255, 1]);
    }
}

pub fn codes_left(image: &mut [u8], change: &Change) {
    let last = change.file.chain.iter().filter(|place| place.0 > 35);
    last.for_each(|place| change.restore_sector(image, offset(place.0, place.1)));
}

fn last_sector_left(image: &mut [u8], change: &Change) {
    if change.file.chain.contains(&(40, 16)) {
        change.restore_sector(image, offset(40, 16));
    }
}

// --- The sectors that a store takes -----------------------------------------

enum Order {
    First,
    Before19,
    Downward,
}

fn order(image: &mut [u8], change: &Change, order: Order) {
    if change.layout == 0 {
        return;
    }
    let (low, high) = ((1..18).rev(), 19..36);
    let tracks: Vec<u8> = match order {
        Order::First => (36..41).chain(low).chain(high).collect(),
        Order::Before19 => low.chain(36..41).chain(high).collect(),
        Order::Downward => low.chain(high).chain((36..41).rev()).collect(),
    };
    placed(image, change, upward(tracks.into_iter()));
}

/// The free sectors of the last tracks; none in layout 0, whose `left` is 0
/// there.
fn last(left: &dyn Fn(u8) -> usize) -> usize {
    (36..41).map(left).sum()
}

/// Those of a last track.
fn on(layout: u32, left: &dyn Fn(u8) -> usize, track: u8) -> usize {
    if layout == 0 {
        0
    } else {
        left(track)
    }
}

// --- Format ---------------------------------------------------------------

/// Gives the entries of tracks 36 to 40 these bytes.
fn fill(layout: u32, image: &mut [u8], entry: [u8; 4]) {
    if layout > 0 {
        image[extra(layout)..][..EXTRA].copy_from_slice(&entry.repeat(5));
    }
}

pub fn others_kept(layout: u32, image: &mut [u8], before: &[u8]) {
    if layout > 0 {
        let at = extra(other(layout))..extra(other(layout)) + EXTRA;
        image[at.clone()].copy_from_slice(&before[at]);
    }
}

pub fn both_filled(layout: u32, image: &mut [u8], _before: &[u8]) {
    if layout > 0 {
        fill(other(layout), image, [17, 255, 255, 1]);
    }
}

pub fn tracks_kept(_layout: u32, image: &mut [u8], before: &[u8]) {
    let at = offset(36, 0).min(image.len());
    image[at..].copy_from_slice(&before[at..]);
}

// --- The listing ----------------------------------------------------------

/// The counts of tracks 36 to 40 of a layout that has them.
fn counts(map: &[u8], layout: u32) -> u16 {
    (36..41)
        .map(|track| u16::from(map[entry_at(layout, track)]))
        .sum()
}

/// A listing with other counts for the last tracks: given the layout, the
/// right sum of them, and 18/0.
struct ListingSums(fn(u32, u16, &[u8]) -> u16);

impl EntryPoints for ListingSums {
    unsafe fn listing(&self, layout: u32, track18: Slice, text: Slice, answer: Slice) -> u32 {
        unsafe {
            let number = Faithful.listing(layout, track18, text, answer);
            if number != 0 || track18.len != TRACK_18_BYTES {
                return number;
            }
            let map = track_18_of(track18.bytes());
            let own = if layout == 0 { 0 } else { counts(map, layout) };
            let end = reported_length(answer) - 1;
            let text = &mut text.bytes_mut()[end - 4..end];
            let shown = std::str::from_utf8(text).expect("four digits");
            let right = u16::from_str_radix(shown, 16).expect("four digits");
            let sum = right - own + self.0(layout, own, map);
            text.copy_from_slice(format!("{sum:04X}").as_bytes());
            number
        }
    }
}
