//! Generators of arguments: names, kinds, data, buffers, answer blocks.

use crate::naive::Contents;
use crate::request::{Call, Request};
use crate::rng::Rng;
use crate::sound::fresh_name;

/// A name to ask for: one that is there, one that isn't, or a wrong one.
pub fn name(rng: &mut Rng, present: &[Vec<u8>]) -> Vec<u8> {
    match rng.below(10) {
        0..=4 if !present.is_empty() => rng.pick(present),
        5 => wrong_name(rng),
        _ => {
            let odd = rng.one_in(3);
            fresh_name(rng, odd, present)
        }
    }
}

/// A name that gives 9: empty, too long, or holding $A0.
pub fn wrong_name(rng: &mut Rng) -> Vec<u8> {
    match rng.below(4) {
        0 => Vec::new(),
        1 => vec![0x41; 17],
        2 => {
            let length = rng.pick(&[17, 18, 32, 300]);
            rng.bytes(length)
        }
        _ => {
            let mut name = vec![0x42; rng.range(1, 16)];
            let at = rng.below(name.len());
            name[at] = 0xA0;
            name
        }
    }
}

/// A kind to store. The retired one is drawn once in twelve times, so that a
/// library that still takes it shows soon; all others that give 10, together
/// once in sixteen.
pub fn kind(rng: &mut Rng) -> u32 {
    let wrong = rng.pick(&[
        0,
        4,
        5,
        0x81,
        0x82,
        0x83,
        255,
        256,
        257,
        258,
        259,
        0x8000_0002,
        u32::MAX,
    ]);
    match rng.below(48) {
        0..=3 => 3,
        4..=6 => wrong,
        _ => rng.range(1, 2) as u32,
    }
}

/// Lengths at the edges of a sector, of an empty disk, and past all of them.
const EDGES_35: [usize; 21] = [
    0, 1, 2, 252, 253, 254, 255, 256, 507, 508, 509, 510, 511, 762, 763, 168_655, 168_656, 168_657,
    172_974, 174_848, 200_000,
];
const EDGES_40: [usize; 21] = [
    0, 1, 2, 252, 253, 254, 255, 256, 507, 508, 509, 510, 511, 762, 763, 168_657, 190_245, 190_246,
    190_247, 194_564, 200_000,
];

/// A length of data: at the edges of a sector, of the free sectors, of the
/// disk, or past all of them.
pub fn length(layout: u32, rng: &mut Rng, free: usize) -> usize {
    let edges = match layout {
        0 => EDGES_35,
        _ => EDGES_40,
    };
    match rng.below(6) {
        0 | 1 => rng.below(4 * 254),
        2 => rng.below(254 * 30),
        3 => rng.pick(&edges),
        // Exactly what is free, one byte less, one more, one sector less.
        4 => rng.pick(&[
            free * 254,
            (free * 254).saturating_sub(1),
            free * 254 + 1,
            free * 127,
        ]),
        _ => rng.below(2 * 254 + 2),
    }
}

pub fn data(layout: u32, rng: &mut Rng, free: usize) -> Vec<u8> {
    let length = length(layout, rng, free);
    rng.bytes(length)
}

/// Room for an output of `needed` bytes: fitting, one short, longer, none.
pub fn room(rng: &mut Rng, needed: usize) -> usize {
    match rng.below(6) {
        0 | 1 => needed,
        2 => needed.saturating_sub(1),
        3 => needed + 1,
        4 => rng.pick(&[0, 1, needed / 2]),
        _ => needed + rng.below(2000),
    }
}

/// The size of an answer block; nearly always nine.
fn block(rng: &mut Rng) -> usize {
    if rng.one_in(16) {
        rng.pick(&[0, 1, 8, 10, 18])
    } else {
        9
    }
}

/// A layout to name for an image of one: mostly its own, now and then another,
/// or a number that is no layout.
pub fn any_layout(layout: u32, rng: &mut Rng) -> u32 {
    match rng.below(24) {
        0 | 1 => rng.pick(&[0, 1, 2]),
        2 => unknown_layout(rng),
        _ => layout,
    }
}

/// A number that is no layout.
pub fn unknown_layout(rng: &mut Rng) -> u32 {
    rng.pick(&[3, 4, 35, 40, 255, 256, 258, u32::MAX])
}

/// Any call that fits the image or doesn't. `contents` is what the image
/// holds, if it is accepted in the layout.
pub fn request(layout: u32, rng: &mut Rng, contents: Option<&Contents>) -> Request {
    let files = contents.map_or(&[][..], |c| &c.files[..]);
    let present: Vec<Vec<u8>> = files.iter().map(|file| file.name.clone()).collect();
    let free = contents.map_or(100, Contents::free_off_track_18);
    let name = name(rng, &present);
    let call = match rng.below(12) {
        0 => Call::Check,
        1 => Call::Format {
            name,
            id1: rng.byte(),
            id2: rng.byte(),
        },
        2..=4 => {
            let found = files.iter().find(|file| file.name == name);
            let needed = found.map_or(300, |file| file.bytes.len());
            Call::Read {
                name,
                room: room(rng, needed),
            }
        }
        5..=7 => Call::Store {
            name,
            kind: kind(rng),
            data: data(layout, rng, free),
        },
        8 | 9 => Call::Scratch { name },
        10 => Call::Tell {
            position: position(rng, files.len()),
            room: entry_room(rng),
        },
        _ => Call::Listing {
            room: room(rng, 42 + 43 * files.len()),
        },
    };
    with_block(layout, rng, call)
}

/// A call with a block of any size.
pub fn with_block(layout: u32, rng: &mut Rng, call: Call) -> Request {
    let block = block(rng);
    Request {
        layout,
        call,
        block,
    }
}

/// The size of the entry lent to tell; mostly as long as it has to be.
pub fn entry_room(rng: &mut Rng) -> usize {
    rng.pick(&[25, 25, 25, 25, 24, 26, 0, 1, 100])
}

/// A position for tell: on the files, just past them, far off.
pub fn position(rng: &mut Rng, files: usize) -> usize {
    let inside = rng.below(files);
    rng.pick(&[
        inside,
        inside,
        inside,
        0,
        files,
        files + 1,
        144,
        255,
        256,
        usize::MAX,
    ])
}
