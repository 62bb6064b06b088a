//! Wrong libraries about USR files: images may hold them, and no store makes
//! one.

use super::changes::{Change, ScratchEdited, StoreEdited};
use super::scratching::codes_left;
use super::{file_read, give, reported_length, slice_of, wrong, Row};
use boundary::calls::{EntryPoints, Faithful, Slice};
use independent::answer::Answer;
use independent::host::{scratch, BLOCK_BYTES};
use independent::listing::LONGEST;
use independent::naive::{contents, File};
use independent::sound::slot_offset;

pub const WRONG: &[Row] = &[
    ("store still takes kind 3", &StillStored, "number:"),
    ("store takes kind 3 for PRG", &StoredAsPrg, "number:"),
    (
        "a store of kind 3 is refused and yet done",
        &RefusedYetStored,
        "image:",
    ),
    (
        "every other refusal comes before kind 3",
        &RefusedLast,
        "number:",
    ),
    (
        "a store turns USR files into PRG files",
        &StoreEdited(turned_into_prg),
        "image:",
    ),
    (
        "a store takes a USR file off the disk",
        &StoreEdited(taken_off),
        "image:",
    ),
    ("check refuses a USR file", &CheckRefused, "number:"),
    ("tell gives a USR file as PRG", &ToldAsPrg, "output:"),
    ("the listing leaves USR files out", &NotListed, "output:"),
    ("read does not find a USR file", &NotRead, "number:"),
    (
        "the last byte of a USR file is not read",
        &LastByteUnread,
        "answer:",
    ),
    ("scratch does not find a USR file", &NotScratched, "number:"),
    (
        "scratch leaves the codes of a USR file",
        &ScratchEdited(usr_codes_left),
        "image:",
    ),
];

fn is_usr(file: &File) -> bool {
    file.type_byte & 0x0F == 3
}

// --- A store of kind 3 ----------------------------------------------------

/// Stores a USR file: as a PRG file, but for the type byte.
unsafe fn store_usr(layout: u32, image: Slice, name: Slice, data: Slice, answer: Slice) -> u32 {
    unsafe {
        let number = Faithful.store(layout, image, name, 2, data, answer);
        if number == 0 {
            let held = contents(layout, image.bytes()).expect("an accepted image");
            let slot = file_read(layout, image, name).slot;
            image.bytes_mut()[slot_offset(&held.directory, slot) + 2] = 0x83;
        }
        number
    }
}

wrong!(StillStored: store(layout, image, name, kind, data, answer) {
    match Faithful.store(layout, image, name, kind, data, answer) {
        10 if kind == 3 => store_usr(layout, image, name, data, answer),
        number => number,
    }
});

wrong!(StoredAsPrg: store(layout, image, name, kind, data, answer) {
    let kind = if kind == 3 { 2 } else { kind };
    Faithful.store(layout, image, name, kind, data, answer)
});

wrong!(RefusedYetStored: store(layout, image, name, kind, data, answer) {
    let number = Faithful.store(layout, image, name, kind, data, answer);
    if number == 10 && kind == 3 {
        store_usr(layout, image, name, data, slice_of(&mut [0; BLOCK_BYTES]));
    }
    number
});

wrong!(RefusedLast: store(layout, image, name, kind, data, answer) {
    if kind != 3 {
        return Faithful.store(layout, image, name, kind, data, answer);
    }
    let mut copy = image.bytes().to_vec();
    match Faithful.store(layout, slice_of(&mut copy), name, 2, data, answer) {
        0 => give(answer, Answer::refusal(10)),
        number => number,
    }
});

// --- A store beside USR files ---------------------------------------------

pub fn turned_into_prg(image: &mut [u8], change: &Change) {
    for file in change.held.files.iter().filter(|file| is_usr(file)) {
        image[slot_offset(&change.held.directory, file.slot) + 2] ^= 1;
    }
}

pub fn taken_off(image: &mut [u8], change: &Change) {
    if let Some(file) = change.held.files.iter().find(|file| is_usr(file)) {
        scratch(change.layout, image, &file.name, &mut [0; BLOCK_BYTES]);
    }
}

// --- The calls that look --------------------------------------------------

wrong!(CheckRefused: check(layout, image, answer) {
    let number = Faithful.check(layout, image, answer);
    let Some(held) = contents(layout, image.bytes()).filter(|_| number == 0) else {
        return number;
    };
    match held.files.iter().find(|file| is_usr(file)).map(|file| file.slot) {
        Some(slot) => give(answer, Answer::fault(4, 18, held.directory[slot / 8], slot as u8)),
        None => number,
    }
});

wrong!(ToldAsPrg: tell(layout, image, position, entry, answer) {
    let number = Faithful.tell(layout, image, position, entry, answer);
    if number == 0 && entry.bytes()[0] & 0x0F == 3 {
        entry.bytes_mut()[0] ^= 1;
    }
    number
});

/// The lines of a listing but those of USR files; the first is the disk's.
fn without_usr(text: &[u8]) -> Vec<u8> {
    let is_usr = |line: &[u8]| line.starts_with(b"83") || line.starts_with(b"C3");
    let lines = text.split_inclusive(|byte| *byte == b'\n').enumerate();
    let kept = lines.filter(|(at, line)| *at == 0 || !is_usr(line));
    kept.flat_map(|(_, line)| line.to_vec()).collect()
}

wrong!(NotListed: listing(layout, track18, text, answer) {
    let mut whole = [0; LONGEST];
    let number = Faithful.listing(layout, track18, slice_of(&mut whole), answer);
    if number != 0 {
        return number;
    }
    let kept = without_usr(&whole[..reported_length(answer)]);
    if text.len < kept.len() {
        return give(answer, Answer::refusal(16));
    }
    text.bytes_mut()[..kept.len()].copy_from_slice(&kept);
    give(answer, Answer::done(kept.len() as u32, 0))
});

wrong!(NotRead: read(layout, image, name, out, answer) {
    let before = out.bytes().to_vec();
    let number = Faithful.read(layout, image, name, out, answer);
    if number == 0 && is_usr(&file_read(layout, image, name)) {
        out.bytes_mut().copy_from_slice(&before);
        return give(answer, Answer::refusal(13));
    }
    number
});

wrong!(LastByteUnread: read(layout, image, name, out, answer) {
    let before = out.bytes().to_vec();
    let number = Faithful.read(layout, image, name, out, answer);
    if number == 0 && is_usr(&file_read(layout, image, name)) && reported_length(answer) > 0 {
        let (last, sectors) = (reported_length(answer) - 1, file_read(layout, image, name).chain.len());
        out.bytes_mut()[last] = before[last];
        give(answer, Answer::done(last as u32, sectors as u16));
    }
    number
});

// --- Scratch --------------------------------------------------------------

wrong!(NotScratched: scratch(layout, image, name, answer) {
    let mut before = image.bytes().to_vec();
    let number = Faithful.scratch(layout, image, name, answer);
    if number == 0 && is_usr(&file_read(layout, slice_of(&mut before), name)) {
        image.bytes_mut().copy_from_slice(&before);
        return give(answer, Answer::refusal(13));
    }
    number
});

pub fn usr_codes_left(image: &mut [u8], change: &Change) {
    if is_usr(&change.file) {
        codes_left(image, change);
    }
}
