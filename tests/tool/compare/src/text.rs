//! Names as text and refusals as lines, written from the manual.

use independent::answer::{Answer, Place, MAP_WRONG, NONE, WRONG_SIZE};
use independent::geometry::{Geometry, TRACK_18_OFFSET};
use independent::rng::Rng;

/// The character of a byte, by the table in NAMES.
fn character(byte: u8) -> Option<char> {
    match byte {
        0x41..=0x5A => Some(byte as char),
        0xC1..=0xDA => Some((byte - 0xC1 + b'a') as char),
        0x5C => None,
        0x20..=0x40 | 0x5B..=0x5F => Some(byte as char),
        _ => None,
    }
}

/// A byte as it is printed: the double quote too is written as a number.
fn printed_byte(byte: u8) -> String {
    match character(byte) {
        Some(character) if character != '"' => character.to_string(),
        _ => format!("\\x{byte:02X}"),
    }
}

pub fn printed(name: &[u8]) -> String {
    name.iter().map(|&byte| printed_byte(byte)).collect()
}

/// A name as it may be typed: now and then a byte is given by its number that has a character, in digits of either case.
pub fn typed(rng: &mut Rng, name: &[u8]) -> String {
    let mut text = String::new();
    for &byte in name {
        match character(byte) {
            Some(character) if !rng.one_in(6) => text.push(character),
            _ if rng.one_in(2) => text += &format!("\\x{byte:02x}"),
            _ => text += &format!("\\x{byte:02X}"),
        }
    }
    text
}

/// A word of a job list: in quotes where it has to be, or by chance.
pub fn word(rng: &mut Rng, text: &str) -> String {
    let blank = text.is_empty() || text.contains([' ', '\t']);
    if text.contains('"') {
        return format!("'{}'", text.replace('\'', "\\x27"));
    }
    if text.contains('\'') || blank || rng.one_in(3) {
        return format!("\"{text}\"");
    }
    text.to_string()
}

fn meaning(number: u8) -> &'static str {
    match number {
        1 => "wrong size",
        2 => "bad link",
        3 => "sector already owned",
        4 => "kind or flags not carried",
        5 => "name on disk breaks the rule",
        6 => "name already on disk in an earlier slot",
        7 => "sector count wrong",
        8 => "map entry wrong",
        9 => "name asked for is empty, has over 16 bytes, or holds \\xA0",
        10 => "kind asked for is not 1 (SEQ) or 2 (PRG)",
        11 => "DOS version forbids writing",
        12 => "name is there already",
        13 => "name is not there",
        14 => "directory full: no empty slot and no free sector on track 18",
        15 => "disk full: more sectors needed than are free off track 18",
        _ => unreachable!("the tool lends enough and names a layout, so 16 and 17 are not met"),
    }
}

/// The line of a refusal of an image in a layout.
pub fn refusal(layout: u32, answer: &Answer, image: &[u8]) -> String {
    let line = format!("refused, {}: {}", answer.number, meaning(answer.number));
    let place = answer.place;
    match answer.number {
        WRONG_SIZE => format!("{line}; {}", size(layout, image.len())),
        2 | 3 if place.slot == NONE => {
            format!(
                "{line}; the link is in track {} sector {}, in the directory",
                place.track, place.sector
            )
        }
        2 | 3 => format!(
            "{line}; the link is in track {} sector {}, file in slot {}",
            place.track, place.sector, place.slot
        ),
        4..=7 => format!(
            "{line}; the entry is in track {} sector {}, slot {}",
            place.track, place.sector, place.slot
        ),
        MAP_WRONG => format!(
            "{line}: track {}, {}{}",
            place.track,
            mark(layout, place, image),
            elsewhere(layout, place.track)
        ),
        _ => line,
    }
}

/// What the map says of the sector whose mark is wrong; where it names none, the count and the sectors marked free.
fn mark(layout: u32, place: Place, image: &[u8]) -> String {
    let geometry = Geometry::of(layout).expect("a layout");
    let entry = &image[TRACK_18_OFFSET + geometry.entry_at(place.track)..][..4];
    let free = |sector: u8| entry[1 + usize::from(sector / 8)] >> (sector % 8) & 1 == 1;
    if place.sector == NONE {
        let marked = (0..geometry.sectors_on(place.track))
            .filter(|&sector| free(sector))
            .count();
        let are = if marked == 1 {
            "sector is"
        } else {
            "sectors are"
        };
        return format!("the count is {}, {marked} {are} marked free", entry[0]);
    }
    let wrongly = match free(place.sector) {
        true => "free but owned",
        false => "used but owned by nobody",
    };
    format!("sector {} is marked {wrongly}", place.sector)
}

/// Tracks 36 to 40 have their entries elsewhere in the other layout of their size.
fn elsewhere(layout: u32, track: u8) -> String {
    let other = match layout {
        1 => "dolphin (2)",
        _ => "speeddos (1)",
    };
    match track {
        36.. => format!("; layout {other} has this entry elsewhere"),
        _ => String::new(),
    }
}

fn size(layout: u32, length: usize) -> String {
    let has = match length {
        196_609.. => "more than 196,608".to_string(),
        0..1000 => length.to_string(),
        _ => format!("{},{:03}", length / 1000, length % 1000),
    };
    let named = ["35 (0)", "speeddos (1)", "dolphin (2)"][layout as usize];
    let sizes = match length {
        174_848 => format!(", the size of layout 35 (0), not of layout {named}"),
        196_608 => {
            format!(", the size of layouts speeddos (1) and dolphin (2), not of layout {named}")
        }
        _ => {
            "; layout 35 (0) has 174,848, layouts speeddos (1) and dolphin (2) have 196,608".into()
        }
    };
    format!("this image has {has} bytes{sizes}")
}
