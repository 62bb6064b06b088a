//! Wrong stores that answer right and leave a wrong image.

use super::changes::{mark, Change, StoreEdited};
use super::{house_tracks, Row};
use independent::naive::{last_track, track_length, Place};
use independent::sound::offset;

pub const WRONG: &[Row] = &[
    (
        "the last byte is miscounted",
        &StoreEdited(last_byte_miscounted),
        "image:",
    ),
    (
        "store answers done and stores nothing",
        &StoreEdited(nothing_stored),
        "image:",
    ),
    (
        "store fills the first sector alone",
        &StoreEdited(first_sector_alone),
        "image:",
    ),
    (
        "store writes the same bytes for every file",
        &StoreEdited(same_bytes_stored),
        "image:",
    ),
    (
        "the count in the slot is invented",
        &StoreEdited(count_invented),
        "image:",
    ),
    (
        "the last sector ends in ones",
        &StoreEdited(slack_of_ones),
        "image:",
    ),
    (
        "the last sector's end is left as it was",
        &StoreEdited(slack_left),
        "image:",
    ),
    (
        "store takes tracks upward from 1",
        &StoreEdited(tracks_upward),
        "image:",
    ),
    (
        "store takes tracks 19 to 35 first",
        &StoreEdited(outer_tracks_first),
        "image:",
    ),
    (
        "store takes sectors downward",
        &StoreEdited(sectors_downward),
        "image:",
    ),
    (
        "store takes sectors of track 18",
        &StoreEdited(track_18_taken),
        "image:",
    ),
    ("store sets the locked bit", &StoreEdited(locked), "image:"),
    (
        "store leaves the file unclosed",
        &StoreEdited(unclosed),
        "image:",
    ),
    (
        "store pads the name with zeros",
        &StoreEdited(name_padded_with_zeros),
        "image:",
    ),
    (
        "store leaves bytes 15-1D of the slot",
        &StoreEdited(nine_bytes_left),
        "image:",
    ),
    (
        "store clears bytes 00-01 of the slot",
        &StoreEdited(slot_bytes_cleared),
        "image:",
    ),
    (
        "the count in the slot has its high byte first",
        &StoreEdited(count_high_first),
        "image:",
    ),
    (
        "store takes the last empty slot",
        &StoreEdited(last_slot_taken),
        "image:",
    ),
    (
        "the new directory sector is not cleared",
        &StoreEdited(grown_sector_left),
        "image:",
    ),
    (
        "the new directory sector ends in 00 00",
        &StoreEdited(grown_sector_without_its_end),
        "image:",
    ),
    (
        "the new directory sector is not marked used",
        &StoreEdited(grown_sector_marked_free),
        "image:",
    ),
    (
        "the old last directory sector is not linked on",
        &StoreEdited(old_link_left),
        "image:",
    ),
    (
        "the old last directory sector's link is half set",
        &StoreEdited(old_link_half_set),
        "image:",
    ),
    (
        "the highest free sector of track 18 joins the directory",
        &StoreEdited(highest_sector_joins),
        "image:",
    ),
];

// --- Errors met before, and cheats ----------------------------------------

/// n is taken for the number of bytes in the last sector.
pub fn last_byte_miscounted(image: &mut [u8], change: &Change) {
    let last = change.chain[change.chain.len() - 1];
    image[last + 1] = image[last + 1].wrapping_sub(1);
}

pub fn nothing_stored(image: &mut [u8], change: &Change) {
    image.copy_from_slice(&change.before);
}

pub fn first_sector_alone(image: &mut [u8], change: &Change) {
    for &at in &change.chain[1..] {
        image[at + 2..at + 256].fill(0);
    }
}

pub fn same_bytes_stored(image: &mut [u8], change: &Change) {
    let length = change.file.bytes.len();
    for (turn, &at) in change.chain.iter().enumerate() {
        let part = (length - 254 * turn).min(254);
        image[at + 2..at + 2 + part].fill(0x55);
    }
}

pub fn count_invented(image: &mut [u8], change: &Change) {
    image[change.slot + 0x1E..change.slot + 0x20].copy_from_slice(&[1, 0]);
}

// --- The file's sectors ---------------------------------------------------

/// Where the unused bytes of the last sector are.
fn slack(change: &Change) -> (usize, usize) {
    let used = 2 + change.file.bytes.len() - 254 * (change.chain.len() - 1);
    (change.chain[change.chain.len() - 1] + used, 256 - used)
}

pub fn slack_of_ones(image: &mut [u8], change: &Change) {
    let (at, length) = slack(change);
    image[at..at + length].fill(0xFF);
}

pub fn slack_left(image: &mut [u8], change: &Change) {
    let (at, length) = slack(change);
    change.restore(image, at, length);
}

/// Moves the stored file to the first free sectors of another order.
pub fn placed(image: &mut [u8], change: &Change, order: impl Iterator<Item = Place>) {
    let mine = |place: &Place| change.file.chain.contains(place);
    let chain: Vec<Place> = order
        .filter(|place| mine(place) || change.is_left_free(*place))
        .take(change.chain.len())
        .collect();
    for (&at, &place) in change.chain.iter().zip(&change.file.chain) {
        change.restore_sector(image, at);
        mark(change.layout, image, place, true);
    }
    let parts = change.file.bytes.chunks(254).chain([&[][..]]);
    for (turn, (&(track, sector), part)) in chain.iter().zip(parts).enumerate() {
        let link = chain.get(turn + 1).copied();
        let bytes = &mut image[offset(track, sector)..][..256];
        bytes.fill(0);
        (bytes[0], bytes[1]) = link.unwrap_or((0, part.len() as u8 + 1));
        bytes[2..2 + part.len()].copy_from_slice(part);
        mark(change.layout, image, (track, sector), false);
    }
    (image[change.slot + 3], image[change.slot + 4]) = chain[0];
}

/// The sectors of tracks, upward.
pub fn upward(tracks: impl Iterator<Item = u8>) -> impl Iterator<Item = Place> {
    tracks.flat_map(|track| (0..track_length(track)).map(move |sector| (track, sector)))
}

/// The tracks past 18, upward.
fn past_18(change: &Change) -> impl Iterator<Item = u8> {
    19..=last_track(change.layout)
}

/// The right order, which moves nothing.
pub fn house_order(image: &mut [u8], change: &Change) {
    placed(image, change, upward(house_tracks(change.layout)));
}

pub fn tracks_upward(image: &mut [u8], change: &Change) {
    placed(image, change, upward((1..18).chain(past_18(change))));
}

pub fn outer_tracks_first(image: &mut [u8], change: &Change) {
    placed(image, change, upward(past_18(change).chain((1..18).rev())));
}

pub fn sectors_downward(image: &mut [u8], change: &Change) {
    let down = |track| (0..track_length(track)).rev().map(move |s| (track, s));
    placed(image, change, house_tracks(change.layout).flat_map(down));
}

pub fn track_18_taken(image: &mut [u8], change: &Change) {
    placed(
        image,
        change,
        upward((1..18).rev().chain([18]).chain(past_18(change))),
    );
}

// --- The slot -------------------------------------------------------------

pub fn locked(image: &mut [u8], change: &Change) {
    image[change.slot + 2] |= 0x40;
}

pub fn unclosed(image: &mut [u8], change: &Change) {
    image[change.slot + 2] &= 0x7F;
}

pub fn name_padded_with_zeros(image: &mut [u8], change: &Change) {
    let from = change.slot + 5 + change.file.name.len();
    image[from..change.slot + 0x15].fill(0);
}

pub fn nine_bytes_left(image: &mut [u8], change: &Change) {
    change.restore(image, change.slot + 0x15, 9);
}

pub fn slot_bytes_cleared(image: &mut [u8], change: &Change) {
    image[change.slot..change.slot + 2].fill(0);
}

pub fn count_high_first(image: &mut [u8], change: &Change) {
    image.swap(change.slot + 0x1E, change.slot + 0x1F);
}

/// The last empty slot of its sector is taken, not the first.
pub fn last_slot_taken(image: &mut [u8], change: &Change) {
    let sector = change.slot - change.slot % 256;
    let slots = (0..8).map(|slot| sector + 32 * slot);
    let Some(last) = slots.rev().find(|at| image[at + 2] == 0) else {
        return;
    };
    if last > change.slot {
        let entry = image[change.slot + 2..change.slot + 32].to_vec();
        image[last + 2..last + 32].copy_from_slice(&entry);
        change.restore(image, change.slot + 2, 30);
    }
}

// --- The directory grows --------------------------------------------------

/// Where the sector starts that joined the directory.
fn joined(change: &Change) -> Option<usize> {
    change.grown.map(|sector| offset(18, sector))
}

pub fn grown_sector_left(image: &mut [u8], change: &Change) {
    if let Some(at) = joined(change) {
        change.restore(image, at + 32, 224);
    }
}

pub fn grown_sector_without_its_end(image: &mut [u8], change: &Change) {
    if let Some(at) = joined(change) {
        image[at + 1] = 0;
    }
}

pub fn grown_sector_marked_free(image: &mut [u8], change: &Change) {
    if let Some(sector) = change.grown {
        mark(change.layout, image, (18, sector), true);
    }
}

pub fn old_link_left(image: &mut [u8], change: &Change) {
    change.restore(image, change.last, 2);
}

pub fn old_link_half_set(image: &mut [u8], change: &Change) {
    change.restore(image, change.last + 1, 1);
}

/// The directory takes the highest free sector of track 18.
pub fn highest_sector_joins(image: &mut [u8], change: &Change) {
    let free = |sector: &u8| change.is_left_free((18, *sector));
    let Some((from, to)) = joined(change).zip((1..19).rev().find(free)) else {
        return;
    };
    let bytes = image[from..from + 256].to_vec();
    change.restore_sector(image, from);
    image[offset(18, to)..][..256].copy_from_slice(&bytes);
    image[change.last + 1] = to;
    mark(change.layout, image, (18, change.grown.unwrap_or(to)), true);
    mark(change.layout, image, (18, to), false);
}
