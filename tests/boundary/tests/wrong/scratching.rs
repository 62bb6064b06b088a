//! Wrong libraries in scratch.

use super::changes::{mark, Change, ScratchEdited};
use super::{file_read, give, is_image, reported_length, slice_of, tracks, wrong, Row};
use boundary::calls::{EntryPoints, Faithful, Slice};
use independent::answer::Answer;
use independent::geometry::TRACK_18_OFFSET;
use independent::host::BLOCK_BYTES;
use independent::naive::{contents, places, Owner};
use independent::sound::{map_offset, offset};

pub const WRONG: &[Row] = &[
    (
        "scratch leaves the codes",
        &ScratchEdited(codes_left),
        "image:",
    ),
    (
        "scratch leaves the codes and clears the links",
        &ScratchEdited(codes_left_behind_links),
        "image:",
    ),
    (
        "scratch leaves what is behind the last byte",
        &ScratchEdited(slack_left),
        "image:",
    ),
    (
        "scratch clears the first sector alone",
        &ScratchEdited(first_sector_alone),
        "image:",
    ),
    (
        "scratch leaves the last sector",
        &ScratchEdited(last_sector_left),
        "image:",
    ),
    (
        "scratch answers done and does nothing",
        &ScratchEdited(nothing_scratched),
        "image:",
    ),
    ("scratch always refuses", &AlwaysRefused, "number:"),
    (
        "scratch leaves the slot",
        &ScratchEdited(slot_left),
        "image:",
    ),
    (
        "scratch leaves the name in the slot",
        &ScratchEdited(name_left),
        "image:",
    ),
    (
        "scratch clears bytes 00-01 of the slot",
        &ScratchEdited(slot_bytes_cleared),
        "image:",
    ),
    (
        "scratch shrinks the directory",
        &ScratchEdited(directory_shrinks),
        "image:",
    ),
    ("scratch leaves the map", &ScratchEdited(map_left), "image:"),
    (
        "scratch leaves the map's counts",
        &ScratchEdited(counts_left),
        "image:",
    ),
    (
        "scratch leaves one sector used",
        &ScratchEdited(one_left_used),
        "image:",
    ),
    (
        "scratch frees one sector too many",
        &ScratchEdited(one_too_many_freed),
        "image:",
    ),
    (
        "scratch takes the first file",
        &FirstFileScratched,
        "image:",
    ),
    ("scratch refuses a locked file", &LockedRefused, "number:"),
    ("scratch reports nothing", &NothingReported, "answer:"),
    (
        "scratch reports the sectors that the length needs",
        &SectorsFromLength,
        "answer:",
    ),
    (
        "scratch reports the length of full sectors",
        &LengthFromSectors,
        "answer:",
    ),
    (
        "scratch leaves the DOS version unasked",
        &VersionUnasked,
        "number:",
    ),
    (
        "scratch asks the DOS version before the check",
        &VersionBeforeFaults,
        "number:",
    ),
    (
        "a refused scratch has written",
        &RefusedYetWritten,
        "image:",
    ),
    (
        "a scratch without an answer block is done",
        &WrongBlockYetScratched,
        "image:",
    ),
];

// --- Errors met before, and cheats ----------------------------------------

/// The sectors are freed, and the codes are left in them.
pub fn codes_left(image: &mut [u8], change: &Change) {
    for &at in &change.chain {
        change.restore_sector(image, at);
    }
}

/// The links alone are cleared.
pub fn codes_left_behind_links(image: &mut [u8], change: &Change) {
    for &at in &change.chain {
        change.restore(image, at + 2, 254);
    }
}

/// What stands behind the file's last byte is left.
pub fn slack_left(image: &mut [u8], change: &Change) {
    let used = 2 + change.file.bytes.len() - 254 * (change.chain.len() - 1);
    let last = change.chain[change.chain.len() - 1];
    change.restore(image, last + used, 256 - used);
}

pub fn first_sector_alone(image: &mut [u8], change: &Change) {
    for &at in &change.chain[1..] {
        change.restore_sector(image, at);
    }
}

pub fn last_sector_left(image: &mut [u8], change: &Change) {
    change.restore_sector(image, change.chain[change.chain.len() - 1]);
}

pub fn nothing_scratched(image: &mut [u8], change: &Change) {
    image.copy_from_slice(&change.before);
}

wrong!(AlwaysRefused: scratch(layout, _image, _name, answer) {
    give(answer, Answer::refusal(13))
});

// --- The slot -------------------------------------------------------------

pub fn slot_left(image: &mut [u8], change: &Change) {
    change.restore(image, change.slot, 32);
}

/// Byte 02 alone is cleared, as the drive does it.
pub fn name_left(image: &mut [u8], change: &Change) {
    change.restore(image, change.slot + 3, 29);
}

pub fn slot_bytes_cleared(image: &mut [u8], change: &Change) {
    image[change.slot..change.slot + 2].fill(0);
}

/// A last directory sector without files leaves the directory.
pub fn directory_shrinks(image: &mut [u8], change: &Change) {
    let empty = (0..8).all(|slot| image[change.last + 32 * slot + 2] == 0);
    let [.., previous, last] = change.held.directory[..] else {
        return;
    };
    if empty {
        let at = offset(18, previous);
        (image[at], image[at + 1]) = (0, 0xFF);
        mark(change.layout, image, (18, last), true);
    }
}

// --- The map --------------------------------------------------------------

pub fn map_left(image: &mut [u8], change: &Change) {
    change.restore(image, TRACK_18_OFFSET, 256);
}

pub fn counts_left(image: &mut [u8], change: &Change) {
    for track in tracks(change.layout) {
        change.restore(image, map_offset(change.layout, track), 1);
    }
}

pub fn one_left_used(image: &mut [u8], change: &Change) {
    mark(
        change.layout,
        image,
        change.file.chain[change.chain.len() - 1],
        false,
    );
}

/// One sector too many is freed: another file's.
pub fn one_too_many_freed(image: &mut [u8], change: &Change) {
    let mine = Owner::File(change.file.slot);
    let others = |owner: &Owner| matches!(owner, Owner::File(_)) && *owner != mine;
    let mut owned = places(change.layout).zip(&change.held.owners);
    if let Some((place, _)) = owned.find(|(_, owner)| others(owner)) {
        mark(change.layout, image, place, true);
    }
}

// --- Which file, and the report -------------------------------------------

wrong!(FirstFileScratched: scratch(layout, image, name, answer) {
    let files = contents(layout, image.bytes()).map_or(Vec::new(), |held| held.files);
    let first = files.first().map(|file| file.name.clone());
    let there = files.iter().any(|file| file.name == name.bytes());
    match first.filter(|_| there) {
        Some(mut first) => Faithful.scratch(layout, image, slice_of(&mut first), answer),
        None => Faithful.scratch(layout, image, name, answer),
    }
});

wrong!(LockedRefused: scratch(layout, image, name, answer) {
    let before = image.bytes().to_vec();
    let number = Faithful.scratch(layout, image, name, answer);
    if number == 0 && file_read(layout, slice_of(&mut before.clone()), name).type_byte & 0x40 != 0 {
        image.bytes_mut().copy_from_slice(&before);
        return give(answer, Answer::refusal(11));
    }
    number
});

wrong!(NothingReported: scratch(layout, image, name, answer) {
    match Faithful.scratch(layout, image, name, answer) {
        0 => give(answer, Answer::done(0, 0)),
        number => number,
    }
});

wrong!(SectorsFromLength: scratch(layout, image, name, answer) {
    let number = Faithful.scratch(layout, image, name, answer);
    if number == 0 {
        let length = reported_length(answer);
        let sectors = length.div_ceil(254).max(1);
        give(answer, Answer::done(length as u32, sectors as u16));
    }
    number
});

wrong!(LengthFromSectors: scratch(layout, image, name, answer) {
    let number = Faithful.scratch(layout, image, name, answer);
    if number == 0 {
        let block = answer.bytes();
        let sectors = u16::from_le_bytes([block[7], block[8]]);
        give(answer, Answer::done(254 * u32::from(sectors), sectors));
    }
    number
});

// --- Refusals -------------------------------------------------------------

wrong!(VersionUnasked: scratch(layout, image, name, answer) {
    match Faithful.scratch(layout, image, name, answer) {
        11 => give(answer, Answer::refusal(13)),
        number => number,
    }
});

wrong!(VersionBeforeFaults: scratch(layout, image, name, answer) {
    let bytes = image.bytes();
    let forbidden = is_image(layout, bytes) && !matches!(bytes[TRACK_18_OFFSET + 2], 0x41 | 0x00);
    match Faithful.scratch(layout, image, name, answer) {
        2..=8 if forbidden => give(answer, Answer::refusal(11)),
        number => number,
    }
});

wrong!(RefusedYetWritten: scratch(layout, image, name, answer) {
    let number = Faithful.scratch(layout, image, name, answer);
    if number == 13 {
        image.start.write(image.start.read() ^ 1);
    }
    number
});

wrong!(WrongBlockYetScratched: scratch(layout, image, name, answer) {
    if answer.len == BLOCK_BYTES {
        return Faithful.scratch(layout, image, name, answer);
    }
    Faithful.scratch(layout, image, name, slice_of(&mut [0; BLOCK_BYTES]));
    16
});
