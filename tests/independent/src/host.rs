//! The host calls (01, What the calls do, Host calls): the answer goes to
//! nine lent bytes, and its number is returned. A block of any other size
//! gives 16 before all else, and nothing is written; an unknown layout gives 17
//! right after it (02, §8). Tell and the listing have the same form, though 01
//! asks it of the other five only.

use crate::answer::{Answer, DONE, NO_ROOM};
use crate::calls::Told;
use crate::{calls, check as checking, listing as sleeve};

pub const BLOCK_BYTES: usize = 9;

/// What tell writes: type byte, 16 name bytes, track, sector, count in two
/// bytes, length in four, low byte first.
pub const ENTRY_BYTES: usize = 25;

/// Track, sector, slot, length in four bytes, sectors in two, low byte first.
pub fn block_of(answer: &Answer) -> [u8; BLOCK_BYTES] {
    let length = answer.length.to_le_bytes();
    let sectors = answer.sectors.to_le_bytes();
    [
        answer.place.track,
        answer.place.sector,
        answer.place.slot,
        length[0],
        length[1],
        length[2],
        length[3],
        sectors[0],
        sectors[1],
    ]
}

pub fn entry_of(told: &Told) -> [u8; ENTRY_BYTES] {
    let mut entry = [0; ENTRY_BYTES];
    entry[0] = told.kind;
    entry[1..17].copy_from_slice(&told.name);
    (entry[17], entry[18]) = (told.track, told.sector);
    entry[19..21].copy_from_slice(&told.count.to_le_bytes());
    entry[21..25].copy_from_slice(&told.length.to_le_bytes());
    entry
}

/// Runs a call only if the block has nine bytes.
fn with_block(block: &mut [u8], call: impl FnOnce() -> Answer) -> u32 {
    if block.len() != BLOCK_BYTES {
        return u32::from(NO_ROOM);
    }
    let answer = call();
    block.copy_from_slice(&block_of(&answer));
    u32::from(answer.number)
}

pub fn check(layout: u32, image: &[u8], block: &mut [u8]) -> u32 {
    with_block(block, || checking::check(layout, image))
}

pub fn format(
    layout: u32,
    image: &mut [u8],
    name: &[u8],
    id1: u8,
    id2: u8,
    block: &mut [u8],
) -> u32 {
    with_block(block, || calls::format(layout, image, name, id1, id2))
}

pub fn read(layout: u32, image: &[u8], name: &[u8], out: &mut [u8], block: &mut [u8]) -> u32 {
    with_block(block, || calls::read(layout, image, name, out))
}

pub fn store(
    layout: u32,
    image: &mut [u8],
    name: &[u8],
    kind: u32,
    data: &[u8],
    block: &mut [u8],
) -> u32 {
    with_block(block, || calls::store(layout, image, name, kind, data))
}

pub fn scratch(layout: u32, image: &mut [u8], name: &[u8], block: &mut [u8]) -> u32 {
    with_block(block, || calls::scratch(layout, image, name))
}

/// Writes what tell tells at the start of `entry`. A short one is refused
/// last, like any output; a refusal leaves it as it was.
pub fn tell(layout: u32, image: &[u8], position: usize, entry: &mut [u8], block: &mut [u8]) -> u32 {
    with_block(block, || {
        let (answer, told) = calls::tell(layout, image, position);
        if answer.number != DONE {
            return answer;
        }
        let Some(entry) = entry.first_chunk_mut() else {
            return Answer::refusal(NO_ROOM);
        };
        *entry = entry_of(&told);
        answer
    })
}

pub fn listing(layout: u32, track18: &[u8], text: &mut [u8], block: &mut [u8]) -> u32 {
    with_block(block, || sleeve::listing(layout, track18, text))
}
