//! The sleeve listing (01, Sleeve listing; 02, §8): it looks at track 18 alone,
//! at no first link, count, chain or map bit.

use crate::answer::{Answer, DONE, NO_ROOM, UNKNOWN_LAYOUT, WRONG_SIZE};
use crate::check::{check_entry, geometry_of, Names};
use crate::disk::{
    free_off_track_18, is_empty, slot_in, track_18, walk_directory, Directory, Slot, Track18,
};
use crate::geometry::{Geometry, DIRECTORY_TRACK, TRACK_18_BYTES, TRACK_18_OFFSET};

/// Room that always suffices: 37 + 144 * 43 + 5.
pub const LONGEST: usize = 6_234;

const FIRST_LINE: usize = 2 * 18 + 1;
const FILE_LINE: usize = 2 * 21 + 1;
const LAST_LINE: usize = 2 * 2 + 1;

/// Lists the 4,864 bytes of track 18 into `text`, from its start; the rest of
/// `text` is left. The answer's length is the text's, and it visits no sector
/// of a file. A fault has the place that the check gives it: the papers fix
/// none for this call. The layout says which map entries the last line sums.
pub fn listing(layout: u32, track18: &[u8], text: &mut [u8]) -> Answer {
    match try_listing(layout, track18, text) {
        Ok(length) => Answer::done(length as u32, 0),
        Err(refusal) => refusal,
    }
}

fn try_listing(layout: u32, bytes: &[u8], text: &mut [u8]) -> Result<usize, Answer> {
    let geometry = geometry_of(layout)?;
    let track18 = track_18(bytes).ok_or(Answer::refusal(WRONG_SIZE))?;
    let directory = walk_directory(track18)?;
    let mut names = Names::new();
    let mut files = 0;
    for (index, slot) in occupied(track18, &directory) {
        let holder = directory.sector_of(index);
        let here = |number| Answer::fault(number, DIRECTORY_TRACK, holder, index as u8);
        check_entry(slot, &mut names).map_err(here)?;
        files += 1;
    }
    let length = FIRST_LINE + files * FILE_LINE + LAST_LINE;
    let text = text.get_mut(..length).ok_or(Answer::refusal(NO_ROOM))?;
    write_lines(&geometry, track18, &directory, text);
    Ok(length)
}

/// The occupied slots in directory order, each with its number.
fn occupied<'a>(
    track18: &'a Track18,
    directory: &'a Directory,
) -> impl Iterator<Item = (usize, &'a Slot)> + 'a {
    (0..directory.slots())
        .map(|index| {
            let sector = &track18[usize::from(directory.sector_of(index))];
            (index, slot_in(sector, index))
        })
        .filter(|(_, slot)| !is_empty(slot))
}

/// Writes the whole text; `text` has exactly its length.
fn write_lines(geometry: &Geometry, track18: &Track18, directory: &Directory, text: &mut [u8]) {
    let map = &track18[0];
    let (first, rest) = text.split_at_mut(FIRST_LINE);
    write_line(first, &[&map[0x90..0xA0], &map[0xA2..0xA4]]);
    let (files, last) = rest.split_at_mut(rest.len() - LAST_LINE);
    let lines = files.chunks_mut(FILE_LINE);
    for (line, (_, slot)) in lines.zip(occupied(track18, directory)) {
        write_line(line, &[&slot[0x02..0x15], &slot[0x1E..0x20]]);
    }
    let free = free_off_track_18(geometry, map) as u16;
    write_line(last, &[&free.to_be_bytes()]);
}

/// One line: the bytes as uppercase hexadecimal, then LF.
fn write_line(line: &mut [u8], parts: &[&[u8]]) {
    const DIGITS: &[u8; 16] = b"0123456789ABCDEF";
    let bytes = parts.iter().flat_map(|part| part.iter());
    for (pair, byte) in line.chunks_exact_mut(2).zip(bytes) {
        pair[0] = DIGITS[usize::from(byte >> 4)];
        pair[1] = DIGITS[usize::from(byte & 15)];
    }
    if let Some(end) = line.last_mut() {
        *end = b'\n';
    }
}

/// The layout that the listing program's first argument names: the one digit
/// 0, 1 or 2, or 0 if there is none (02, §8). `None` for any other argument.
pub fn layout_asked(argument: Option<&[u8]>) -> Option<u32> {
    match argument {
        None | Some(b"0") => Some(0),
        Some(b"1") => Some(1),
        Some(b"2") => Some(2),
        Some(_) => None,
    }
}

/// What the listing program prints for its first argument and an input: the
/// listing, or one line of two decimal digits.
pub fn sleeve_output(argument: Option<&[u8]>, input: &[u8]) -> Vec<u8> {
    let mut text = vec![0; LONGEST];
    let listed = match layout_asked(argument) {
        Some(layout) => listing_of_image(layout, input, &mut text),
        None => Answer::refusal(UNKNOWN_LAYOUT),
    };
    if listed.number == DONE {
        text.truncate(listed.length as usize);
        text
    } else {
        format!("{:02}\n", listed.number).into_bytes()
    }
}

/// The listing of a whole image, which has its layout's size.
fn listing_of_image(layout: u32, image: &[u8], text: &mut [u8]) -> Answer {
    match geometry_of(layout) {
        Err(refusal) => refusal,
        Ok(geometry) if image.len() != geometry.image_bytes() => Answer::refusal(WRONG_SIZE),
        Ok(_) => {
            let track18 = &image[TRACK_18_OFFSET..TRACK_18_OFFSET + TRACK_18_BYTES];
            listing(layout, track18, text)
        }
    }
}
