//! Wrong stores that give another answer, or write where they may not.

use super::changes::mark;
use super::{give, is_image, slice_of, wrong, Row};
use boundary::calls::{EntryPoints, Faithful, Slice};
use independent::answer::Answer;
use independent::calls::sectors_needed;
use independent::geometry::TRACK_18_OFFSET;
use independent::host::BLOCK_BYTES;
use independent::naive::{contents, places, Owner, Place};

pub const WRONG: &[Row] = &[
    ("store trusts the link in 18/0", &MapLinkTrusted, "number:"),
    (
        "store counts track 18 as room",
        &Track18CountedAsRoom,
        "number:",
    ),
    (
        "the map is marked before the directory is full",
        &MapMarkedBeforeFull,
        "image:",
    ),
    (
        "the map is marked before the disk is full",
        &MapMarkedBeforeNoRoom,
        "image:",
    ),
    ("store always refuses", &AlwaysRefused, "number:"),
    ("store reports one sector", &OneSectorReported, "answer:"),
    ("no bytes need no sector", &NoSectorForNoBytes, "answer:"),
    (
        "254 bytes need two sectors",
        &OneSectorMoreForFullOnes,
        "answer:",
    ),
    ("store reports 16 bits of the length", &LengthCut, "answer:"),
    ("the directory never grows", &DirectoryNeverGrows, "number:"),
    ("store cuts the kind to a byte", &KindCut, "number:"),
    ("store cuts the name to 16 bytes", &NameCut, "number:"),
    (
        "a wrong kind comes before a wrong name",
        &KindBeforeName,
        "number:",
    ),
    (
        "a fault comes before a wrong kind",
        &CheckBeforeKind,
        "number:",
    ),
    (
        "the DOS version comes before a fault",
        &VersionBeforeFaults,
        "number:",
    ),
    (
        "store writes under any DOS version",
        &VersionUnasked,
        "number:",
    ),
    (
        "store refuses DOS version $00",
        &Version00Refused,
        "number:",
    ),
    ("store replaces a file", &NameReplaced, "number:"),
    (
        "a full disk comes before a full directory",
        &RoomBeforeSlot,
        "number:",
    ),
    ("store leaves the map unchecked", &MapUnchecked, "number:"),
    ("store refuses a null pointer", &NullRefused, "number:"),
    ("a refused store has written", &RefusedYetWritten, "image:"),
    (
        "a store without an answer block is done",
        &WrongBlockYetStored,
        "image:",
    ),
    ("store writes the data", &DataWritten, "data:"),
    ("store writes the name", &NameWritten, "name:"),
    (
        "store writes past the image",
        &PastImageWritten,
        "after image:",
    ),
];

// --- Errors met before ----------------------------------------------------

wrong!(MapLinkTrusted: store(layout, image, name, kind, data, answer) {
    let bytes = image.bytes();
    if is_image(layout, bytes) && bytes[TRACK_18_OFFSET..][..2] != [18, 1] {
        return give(answer, Answer::fault(2, 18, 0, 255));
    }
    Faithful.store(layout, image, name, kind, data, answer)
});

wrong!(Track18CountedAsRoom: store(layout, image, name, kind, data, answer) {
    let number = Faithful.store(layout, image, name, kind, data, answer);
    let needed = sectors_needed(data.len);
    if number == 15 && needed <= free_anywhere(layout, image.bytes()) {
        return give(answer, Answer::done(data.len as u32, needed as u16));
    }
    number
});

/// Free sectors, track 18 counted.
fn free_anywhere(layout: u32, image: &[u8]) -> usize {
    let owners = contents(layout, image).expect("an accepted image").owners;
    owners
        .iter()
        .filter(|owner| **owner == Owner::Nobody)
        .count()
}

wrong!(MapMarkedBeforeFull: store(layout, image, name, kind, data, answer) {
    let number = Faithful.store(layout, image, name, kind, data, answer);
    if number == 14 {
        mark_first_free(layout, image.bytes_mut(), sectors_needed(data.len));
    }
    number
});

wrong!(MapMarkedBeforeNoRoom: store(layout, image, name, kind, data, answer) {
    let number = Faithful.store(layout, image, name, kind, data, answer);
    if number == 15 {
        mark_first_free(layout, image.bytes_mut(), sectors_needed(data.len));
    }
    number
});

/// Marks the sectors used that a store would take.
fn mark_first_free(layout: u32, image: &mut [u8], count: usize) {
    let held = contents(layout, image).expect("an accepted image");
    let free: Vec<Place> = places(layout)
        .zip(&held.owners)
        .filter(|((track, _), owner)| *track != 18 && **owner == Owner::Nobody)
        .map(|(place, _)| place)
        .take(count)
        .collect();
    for place in free {
        mark(layout, image, place, false);
    }
}

// --- Cheats ---------------------------------------------------------------

wrong!(AlwaysRefused: store(layout, _image, _name, _kind, _data, answer) {
    give(answer, Answer::refusal(15))
});

wrong!(OneSectorReported: store(layout, image, name, kind, data, answer) {
    match Faithful.store(layout, image, name, kind, data, answer) {
        0 => give(answer, Answer::done(data.len as u32, 1)),
        number => number,
    }
});

// --- The report -----------------------------------------------------------

wrong!(NoSectorForNoBytes: store(layout, image, name, kind, data, answer) {
    match Faithful.store(layout, image, name, kind, data, answer) {
        0 if data.len == 0 => give(answer, Answer::done(0, 0)),
        number => number,
    }
});

wrong!(OneSectorMoreForFullOnes: store(layout, image, name, kind, data, answer) {
    match Faithful.store(layout, image, name, kind, data, answer) {
        0 => give(answer, Answer::done(data.len as u32, (data.len / 254 + 1) as u16)),
        number => number,
    }
});

wrong!(LengthCut: store(layout, image, name, kind, data, answer) {
    let number = Faithful.store(layout, image, name, kind, data, answer);
    if number == 0 {
        answer.bytes_mut()[5] = 0;
    }
    number
});

// --- Arguments and their order --------------------------------------------

wrong!(KindCut: store(layout, image, name, kind, data, answer) {
    Faithful.store(layout, image, name, kind & 0xFF, data, answer)
});

wrong!(NameCut: store(layout, image, name, kind, data, answer) {
    let len = name.len.min(16);
    Faithful.store(layout, image, Slice { len, ..name }, kind, data, answer)
});

wrong!(KindBeforeName: store(layout, image, name, kind, data, answer) {
    match Faithful.store(layout, image, name, kind, data, answer) {
        9 if !(1..=2).contains(&kind) => give(answer, Answer::refusal(10)),
        number => number,
    }
});

wrong!(CheckBeforeKind: store(layout, image, name, kind, data, answer) {
    match Faithful.store(layout, image, name, kind, data, answer) {
        10 => {
            let number = Faithful.check(layout, image, answer);
            if number == 0 { give(answer, Answer::refusal(10)) } else { number }
        }
        number => number,
    }
});

/// Whether the DOS version allows writing.
unsafe fn writable(layout: u32, image: Slice) -> bool {
    let bytes = unsafe { image.bytes() };
    !is_image(layout, bytes) || matches!(bytes[TRACK_18_OFFSET + 2], 0x41 | 0x00)
}

wrong!(VersionBeforeFaults: store(layout, image, name, kind, data, answer) {
    match Faithful.store(layout, image, name, kind, data, answer) {
        2..=8 if !writable(layout, image) => give(answer, Answer::refusal(11)),
        number => number,
    }
});

wrong!(VersionUnasked: store(layout, image, name, kind, data, answer) {
    let asked = !writable(layout, image) && Faithful.check(layout, image, slice_of(&mut [0; 9])) == 0;
    let version = if asked { image.bytes()[TRACK_18_OFFSET + 2] } else { 0x41 };
    if asked {
        image.bytes_mut()[TRACK_18_OFFSET + 2] = 0x41;
    }
    let number = Faithful.store(layout, image, name, kind, data, answer);
    if asked {
        image.bytes_mut()[TRACK_18_OFFSET + 2] = version;
    }
    number
});

wrong!(Version00Refused: store(layout, image, name, kind, data, answer) {
    let old = image.bytes().to_vec();
    let number = Faithful.store(layout, image, name, kind, data, answer);
    if number == 0 && old[TRACK_18_OFFSET + 2] == 0 {
        image.bytes_mut().copy_from_slice(&old);
        return give(answer, Answer::refusal(11));
    }
    number
});

wrong!(NameReplaced: store(layout, image, name, kind, data, answer) {
    match Faithful.store(layout, image, name, kind, data, answer) {
        12 => {
            Faithful.scratch(layout, image, name, answer);
            Faithful.store(layout, image, name, kind, data, answer)
        }
        number => number,
    }
});

wrong!(RoomBeforeSlot: store(layout, image, name, kind, data, answer) {
    match Faithful.store(layout, image, name, kind, data, answer) {
        14 if data.len > 168_656 => give(answer, Answer::refusal(15)),
        number => number,
    }
});

wrong!(MapUnchecked: store(layout, image, name, kind, data, answer) {
    match Faithful.store(layout, image, name, kind, data, answer) {
        8 => give(answer, Answer::refusal(15)),
        number => number,
    }
});

wrong!(NullRefused: store(layout, image, name, kind, data, answer) {
    if data.start.is_null() {
        return give(answer, Answer::refusal(15));
    }
    Faithful.store(layout, image, name, kind, data, answer)
});

wrong!(DirectoryNeverGrows: store(layout, image, name, kind, data, answer) {
    let before = image.bytes().to_vec();
    let number = Faithful.store(layout, image, name, kind, data, answer);
    let sectors = |image: &[u8]| contents(layout, image).map(|held| held.directory.len());
    if number == 0 && sectors(&before) != sectors(image.bytes()) {
        image.bytes_mut().copy_from_slice(&before);
        return give(answer, Answer::refusal(14));
    }
    number
});

// --- What is written ------------------------------------------------------

wrong!(RefusedYetWritten: store(layout, image, name, kind, data, answer) {
    let number = Faithful.store(layout, image, name, kind, data, answer);
    if number == 12 {
        // An owner's mark that it forgets to take back.
        image.start.write(image.start.read() ^ 1);
    }
    number
});

wrong!(WrongBlockYetStored: store(layout, image, name, kind, data, answer) {
    if answer.len == BLOCK_BYTES {
        return Faithful.store(layout, image, name, kind, data, answer);
    }
    Faithful.store(layout, image, name, kind, data, slice_of(&mut [0; BLOCK_BYTES]));
    16
});

wrong!(DataWritten: store(layout, image, name, kind, data, answer) {
    let number = Faithful.store(layout, image, name, kind, data, answer);
    if number == 0 {
        data.bytes_mut().reverse();
    }
    number
});

wrong!(NameWritten: store(layout, image, name, kind, data, answer) {
    let number = Faithful.store(layout, image, name, kind, data, answer);
    if number == 0 {
        name.bytes_mut().reverse();
    }
    number
});

wrong!(PastImageWritten: store(layout, image, name, kind, data, answer) {
    let number = Faithful.store(layout, image, name, kind, data, answer);
    if number == 0 {
        image.start.add(image.len).write(0);
    }
    number
});
