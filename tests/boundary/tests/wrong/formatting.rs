//! Wrong libraries in format.

use super::{give, is_image, slice_of, wrong, Row};
use boundary::calls::{EntryPoints, Faithful, Slice};
use independent::answer::Answer;
use independent::check::check;
use independent::geometry::{TRACK_18_BYTES, TRACK_18_OFFSET};
use independent::host::BLOCK_BYTES;
use independent::lists::room_of;
use independent::naive::places;
use independent::sound::offset;

pub const WRONG: &[Row] = &[
    (
        "format leaves the codes of the job before",
        &FormatEdited(codes_left),
        "image:",
    ),
    (
        "format leaves the old directory",
        &FormatEdited(old_directory_left),
        "image:",
    ),
    ("format swaps the ids", &FormatEdited(ids_swapped), "image:"),
    (
        "format pads the name with zeros",
        &FormatEdited(padded_with_zeros),
        "image:",
    ),
    (
        "format keeps the DOS version",
        &FormatEdited(version_kept),
        "image:",
    ),
    (
        "format marks 18/1 free",
        &FormatEdited(directory_marked_free),
        "image:",
    ),
    (
        "format ends the directory with 00 00",
        &FormatEdited(directory_without_its_end),
        "image:",
    ),
    ("format refuses a damaged image", &DamagedRefused, "number:"),
    ("format takes an empty name", &EmptyNameTaken, "number:"),
    ("format takes a longer image", &LongImageTaken, "number:"),
    (
        "format asks for the name before the size",
        &NameBeforeSize,
        "number:",
    ),
    (
        "a refused format has cleared the image",
        &RefusedYetCleared,
        "image:",
    ),
    (
        "a format without an answer block is done",
        &WrongBlockYetDone,
        "image:",
    ),
    ("format reports the free sectors", &FreeReported, "answer:"),
];

/// A format that is right but for an edit of what it left.
pub struct FormatEdited(pub FormatEdit);

/// Given the layout, what the format left, and the image before.
pub type FormatEdit = fn(u32, &mut [u8], &[u8]);

impl EntryPoints for FormatEdited {
    unsafe fn format(
        &self,
        layout: u32,
        image: Slice,
        name: Slice,
        id1: u8,
        id2: u8,
        answer: Slice,
    ) -> u32 {
        unsafe {
            let before = image.bytes().to_vec();
            let number = Faithful.format(layout, image, name, id1, id2, answer);
            if number == 0 {
                self.0(layout, image.bytes_mut(), &before);
            }
            number
        }
    }
}

/// The bytes of 18/0.
fn map(image: &mut [u8]) -> &mut [u8] {
    &mut image[TRACK_18_OFFSET..TRACK_18_OFFSET + 256]
}

/// The codes of the job before are left on the disk.
pub fn codes_left(_layout: u32, image: &mut [u8], before: &[u8]) {
    let end = TRACK_18_OFFSET + TRACK_18_BYTES;
    image[..TRACK_18_OFFSET].copy_from_slice(&before[..TRACK_18_OFFSET]);
    image[end..].copy_from_slice(&before[end..]);
}

pub fn old_directory_left(_layout: u32, image: &mut [u8], before: &[u8]) {
    let from = offset(18, 2);
    let to = offset(19, 0);
    image[from..to].copy_from_slice(&before[from..to]);
}

pub fn ids_swapped(_layout: u32, image: &mut [u8], _before: &[u8]) {
    map(image).swap(0xA2, 0xA3);
}

pub fn padded_with_zeros(_layout: u32, image: &mut [u8], _before: &[u8]) {
    let pads = map(image)[0x90..0xA0].iter_mut();
    pads.filter(|byte| **byte == 0xA0)
        .for_each(|byte| *byte = 0);
}

pub fn version_kept(_layout: u32, image: &mut [u8], before: &[u8]) {
    map(image)[2] = before[TRACK_18_OFFSET + 2];
}

pub fn directory_marked_free(_layout: u32, image: &mut [u8], _before: &[u8]) {
    map(image)[4 * 18..4 * 18 + 2].copy_from_slice(&[0x12, 0xFE]);
}

pub fn directory_without_its_end(_layout: u32, image: &mut [u8], _before: &[u8]) {
    image[offset(18, 1) + 1] = 0;
}

wrong!(DamagedRefused: format(layout, image, name, id1, id2, answer) {
    let fault = check(layout, image.bytes());
    if is_image(layout, image.bytes()) && fault.number != 0 {
        return give(answer, fault);
    }
    Faithful.format(layout, image, name, id1, id2, answer)
});

wrong!(EmptyNameTaken: format(layout, image, name, id1, id2, answer) {
    match name.len {
        0 => Faithful.format(layout, image, slice_of(&mut [0x20]), id1, id2, answer),
        _ => Faithful.format(layout, image, name, id1, id2, answer),
    }
});

wrong!(LongImageTaken: format(layout, image, name, id1, id2, answer) {
    let len = image.len.min(256 * places(layout).count());
    Faithful.format(layout, Slice { len, ..image }, name, id1, id2, answer)
});

wrong!(NameBeforeSize: format(layout, image, name, id1, id2, answer) {
    if name.len == 0 || name.len > 16 {
        return give(answer, Answer::refusal(9));
    }
    Faithful.format(layout, image, name, id1, id2, answer)
});

// Cleared before it has looked at the name.
wrong!(RefusedYetCleared: format(layout, image, name, id1, id2, answer) {
    let number = Faithful.format(layout, image, name, id1, id2, answer);
    if number == 9 {
        image.bytes_mut().fill(0);
    }
    number
});

wrong!(WrongBlockYetDone: format(layout, image, name, id1, id2, answer) {
    if answer.len == BLOCK_BYTES {
        return Faithful.format(layout, image, name, id1, id2, answer);
    }
    Faithful.format(layout, image, name, id1, id2, slice_of(&mut [0; BLOCK_BYTES]));
    16
});

wrong!(FreeReported: format(layout, image, name, id1, id2, answer) {
    match Faithful.format(layout, image, name, id1, id2, answer) {
        0 => give(answer, Answer::done(0, room_of(layout) as u16)),
        number => number,
    }
});
