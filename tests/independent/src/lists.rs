//! Generators of call lists: some hundreds of calls on one image, mixed with
//! refused ones.

use crate::arguments;
use crate::naive::contents;
use crate::request::{Call, Request};
use crate::rng::Rng;
use crate::sound::fresh_name;

/// What a list mostly does.
#[derive(Clone, Copy, PartialEq, Eq, Debug)]
pub enum Style {
    /// Many small files, until the directory is full.
    FillDirectory,
    /// Large files, until the disk is full.
    FillDisk,
    /// Stores and scratches in turn, on few names.
    Churn,
    /// Scratches first of all.
    Drain,
    /// Every call alike.
    Mixed,
}

pub const STYLES: &[Style] = &[
    Style::FillDirectory,
    Style::FillDisk,
    Style::Churn,
    Style::Drain,
    Style::Mixed,
];

/// What the generator believes to be on the disk. It may drift from the truth
/// (it doesn't foresee a full directory); then more calls are refused.
struct Guess {
    layout: u32,
    files: Vec<(Vec<u8>, usize)>,
    free: usize,
}

impl Guess {
    fn names(&self) -> Vec<Vec<u8>> {
        self.files.iter().map(|(name, _)| name.clone()).collect()
    }

    fn length_of(&self, name: &[u8]) -> Option<usize> {
        let file = self.files.iter().find(|(known, _)| known == name);
        file.map(|(_, length)| *length)
    }

    fn note(&mut self, call: &Call) {
        let sectors = |length: usize| length.div_ceil(254).max(1);
        let empty = room_of(self.layout);
        let good = |name: &[u8]| matches!(name.len(), 1..=16) && !name.contains(&0xA0);
        match call {
            Call::Format { name, .. } if good(name) => {
                self.files.clear();
                self.free = empty;
            }
            Call::Store {
                name,
                kind: 1 | 2,
                data,
            } => {
                let needed = sectors(data.len());
                if good(name) && self.length_of(name).is_none() && needed <= self.free {
                    self.files.push((name.clone(), data.len()));
                    self.free -= needed;
                }
            }
            Call::Scratch { name } => {
                if let Some(length) = self.length_of(name) {
                    self.files.retain(|(known, _)| known != name);
                    self.free = (self.free + sectors(length)).min(empty);
                }
            }
            _ => {}
        }
    }
}

/// The sectors that files may take on a formatted disk, off track 18.
pub fn room_of(layout: u32) -> usize {
    match layout {
        0 => 664,
        _ => 749,
    }
}

/// A list of `count` requests for a start image that is accepted in the layout;
/// all of them name it.
pub fn requests(
    layout: u32,
    rng: &mut Rng,
    start: &[u8],
    style: Style,
    count: usize,
) -> Vec<Request> {
    let held = contents(layout, start);
    let files = held.as_ref().map_or(&[][..], |held| &held.files[..]);
    let mut guess = Guess {
        layout,
        files: files
            .iter()
            .map(|f| (f.name.clone(), f.bytes.len()))
            .collect(),
        free: held.as_ref().map_or(0, |held| held.free_off_track_18()),
    };
    (0..count)
        .map(|_| {
            let call = call(rng, style, &guess);
            let request = arguments::with_block(layout, rng, call);
            if request.block == 9 {
                guess.note(&request.call);
            }
            request
        })
        .collect()
}

fn call(rng: &mut Rng, style: Style, guess: &Guess) -> Call {
    let names = guess.names();
    let store_share = match style {
        Style::FillDirectory | Style::FillDisk => 60,
        Style::Churn => 40,
        Style::Drain => 10,
        Style::Mixed => 30,
    };
    let scratch_share = match style {
        Style::FillDirectory | Style::FillDisk => 8,
        Style::Churn | Style::Drain => 30,
        Style::Mixed => 15,
    };
    let roll = rng.below(100);
    if roll < store_share {
        store(rng, style, guess, &names)
    } else if roll < store_share + scratch_share {
        Call::Scratch {
            name: arguments::name(rng, &names),
        }
    } else {
        other(rng, guess, &names)
    }
}

fn store(rng: &mut Rng, style: Style, guess: &Guess, names: &[Vec<u8>]) -> Call {
    let name = match style {
        Style::Churn => vec![0x41 + rng.below(12) as u8; rng.range(1, 2)],
        _ if rng.one_in(8) => arguments::name(rng, names),
        _ => {
            let odd = rng.one_in(4);
            fresh_name(rng, odd, names)
        }
    };
    let length = match style {
        Style::FillDirectory => rng.below(300),
        Style::FillDisk if rng.one_in(2) => rng.below(254 * 120),
        _ => arguments::length(guess.layout, rng, guess.free),
    };
    Call::Store {
        name,
        kind: arguments::kind(rng),
        data: rng.bytes(length),
    }
}

fn other(rng: &mut Rng, guess: &Guess, names: &[Vec<u8>]) -> Call {
    let name = arguments::name(rng, names);
    match rng.below(40) {
        0 => Call::Format {
            name,
            id1: rng.byte(),
            id2: rng.byte(),
        },
        1..=4 => Call::Check,
        5..=9 => Call::Tell {
            position: arguments::position(rng, names.len()),
            room: arguments::entry_room(rng),
        },
        10..=12 => Call::Listing {
            room: arguments::room(rng, 42 + 43 * names.len()),
        },
        _ => {
            let needed = guess.length_of(&name).unwrap_or(100);
            Call::Read {
                name,
                room: arguments::room(rng, needed),
            }
        }
    }
}
