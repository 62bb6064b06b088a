//! Libraries that get a layout wrong (02, §8), and what finds each of them: a
//! clause of `demand3`, or the comparison with the plain model. Each is the
//! independent program with one fault.

mod cheats;
mod model;

use cheats::{demand3_catches, only_the_model_catches, Run};
use independent::generate::{generate, kinds};
use independent::host;
use independent::lists::{requests, STYLES};
use independent::naive::{contents, other_entries};
use independent::plain::{demand3, ACCEPTED, OTHER_ENTRIES, READ_SECTORS};
use independent::request::{Call, Independent, Library, Request};
use independent::rng::Rng;
use independent::sound::map_offset;
use std::ops::Range;

#[derive(Clone, Copy, PartialEq, Debug)]
enum Cheat {
    /// Layouts 1 and 2 are taken for each other, by every call or by one.
    Exchanges,
    StoreExchanges,
    ScratchExchanges,
    FormatExchanges,
    /// The entries of both layouts are kept up.
    StoreWritesBoth,
    ScratchWritesBoth,
    FormatWritesBoth,
    /// The bytes of the other layout are not left, or not cleared.
    StoreClearsOthers,
    FormatKeepsOthers,
    /// The extra tracks are no room, or are not entered in the map.
    RoomEndsAt35,
    StoreLeavesExtraEntries,
    ScratchLeavesExtraEntries,
    /// A read never reports more than layout 0's bound.
    ReportsAtMost681,
    /// An unknown layout is taken for another one.
    UnknownIsZero,
    LowBitsOnly,
    LowByteOnly,
    /// 17 comes too late.
    SizeBeforeLayout,
    NameBeforeLayout,
    /// The size is that of either layout.
    TakesEitherSize,
}

/// The cheats that `demand3` finds, each with the clauses that it breaks.
const CHEATS: &[(Cheat, &[&str])] = &[
    (Cheat::StoreExchanges, &[ACCEPTED, OTHER_ENTRIES]),
    (Cheat::ScratchExchanges, &[ACCEPTED, OTHER_ENTRIES]),
    (Cheat::FormatExchanges, &[ACCEPTED, OTHER_ENTRIES]),
    (Cheat::StoreWritesBoth, &[OTHER_ENTRIES]),
    (Cheat::ScratchWritesBoth, &[OTHER_ENTRIES]),
    (Cheat::FormatWritesBoth, &[OTHER_ENTRIES]),
    (Cheat::StoreClearsOthers, &[OTHER_ENTRIES]),
    (Cheat::FormatKeepsOthers, &[OTHER_ENTRIES]),
    (Cheat::StoreLeavesExtraEntries, &[ACCEPTED]),
    (Cheat::ScratchLeavesExtraEntries, &[ACCEPTED]),
    (Cheat::ReportsAtMost681, &[READ_SECTORS]),
];

/// The cheat that breaks no clause, with a number it gives and the one owed.
const NOT_SEEN: &[(Cheat, u32, u32)] = &[(Cheat::RoomEndsAt35, 15, 0)];

/// The cheats that only calls outside demand 3 show: of an unknown layout, or of
/// an image that isn't accepted. Each with a number it gives and the one owed.
const ONE_CALL: &[(Cheat, u32, u32)] = &[
    (Cheat::Exchanges, 8, 0),
    (Cheat::Exchanges, 0, 8),
    (Cheat::UnknownIsZero, 0, 17),
    (Cheat::LowBitsOnly, 0, 17),
    (Cheat::LowByteOnly, 0, 17),
    (Cheat::SizeBeforeLayout, 1, 17),
    (Cheat::NameBeforeLayout, 9, 17),
    (Cheat::TakesEitherSize, 0, 1),
];

/// Where 18/0 has the entries of tracks 36 to 40 in a layout with 40 tracks.
fn extra(layout: u32) -> Range<usize> {
    map_offset(layout, 36)..map_offset(layout, 40) + 4
}

struct Cheating(Cheat);

impl Cheating {
    /// The layout that a call takes its layout for; `exchanges` is the cheat of
    /// this call alone.
    fn layout(&self, layout: u32, exchanges: Cheat, image: &[u8]) -> u32 {
        let known = matches!(layout, 0..=2);
        match self.0 {
            Cheat::Exchanges if matches!(layout, 1 | 2) => 3 - layout,
            cheat if cheat == exchanges && matches!(layout, 1 | 2) => 3 - layout,
            Cheat::UnknownIsZero if !known => 0,
            Cheat::LowBitsOnly if layout & 3 < 3 => layout & 3,
            Cheat::LowByteOnly if layout & 255 < 3 => layout & 255,
            Cheat::TakesEitherSize if image.len() == 174_848 => 0,
            Cheat::TakesEitherSize if layout == 0 && image.len() == 196_608 => 1,
            _ => layout,
        }
    }

    /// A refusal that comes before 17.
    fn too_early(&self, layout: u32, image: &[u8], name: &[u8], block: &mut [u8]) -> Option<u32> {
        let size = ![174_848, 196_608].contains(&image.len());
        let wrong = name.is_empty() || name.len() > 16 || name.contains(&0xA0);
        let number = match self.0 {
            Cheat::SizeBeforeLayout if size => 1,
            Cheat::NameBeforeLayout if wrong => 9,
            _ => return None,
        };
        if matches!(layout, 0..=2) || block.len() != 9 {
            return None;
        }
        block.copy_from_slice(&[0, 0, 255, 0, 0, 0, 0, 0, 0]);
        Some(number)
    }

    /// What a cheat does to the map after a store or a scratch that was done:
    /// one writes both layouts' entries, one leaves those of the extra tracks.
    fn after(&self, layout: u32, old: &[u8], image: &mut [u8], [both, leaves]: [Cheat; 2]) {
        if layout == 0 {
            return;
        }
        let (own, other) = (extra(layout), extra(3 - layout));
        if self.0 == both {
            image.copy_within(own, other.start);
        } else if self.0 == leaves {
            image[own.clone()].copy_from_slice(&old[own]);
        }
    }
}

impl Library for Cheating {
    fn check(&self, layout: u32, image: &[u8], block: &mut [u8]) -> u32 {
        if let Some(number) = self.too_early(layout, image, b"X", block) {
            return number;
        }
        host::check(self.layout(layout, Cheat::Exchanges, image), image, block)
    }

    fn format(
        &self,
        layout: u32,
        image: &mut [u8],
        name: &[u8],
        id1: u8,
        id2: u8,
        block: &mut [u8],
    ) -> u32 {
        if let Some(number) = self.too_early(layout, image, name, block) {
            return number;
        }
        let old = image.to_vec();
        let taken = self.layout(layout, Cheat::FormatExchanges, image);
        let number = host::format(taken, image, name, id1, id2, block);
        if number == 0 && matches!(layout, 1 | 2) {
            let (own, other) = (extra(layout), extra(3 - layout));
            match self.0 {
                Cheat::FormatWritesBoth => image.copy_within(own, other.start),
                Cheat::FormatKeepsOthers => image[other.clone()].copy_from_slice(&old[other]),
                _ => {}
            }
        }
        number
    }

    fn read(
        &self,
        layout: u32,
        image: &[u8],
        name: &[u8],
        out: &mut [u8],
        block: &mut [u8],
    ) -> u32 {
        if let Some(number) = self.too_early(layout, image, name, block) {
            return number;
        }
        let taken = self.layout(layout, Cheat::Exchanges, image);
        let number = host::read(taken, image, name, out, block);
        if self.0 == Cheat::ReportsAtMost681 && number == 0 {
            let sectors = u16::from_le_bytes([block[7], block[8]]).min(681);
            block[7..].copy_from_slice(&sectors.to_le_bytes());
        }
        number
    }

    fn store(
        &self,
        layout: u32,
        image: &mut [u8],
        name: &[u8],
        kind: u32,
        data: &[u8],
        block: &mut [u8],
    ) -> u32 {
        if let Some(number) = self.too_early(layout, image, name, block) {
            return number;
        }
        let old = image.to_vec();
        let taken = self.layout(layout, Cheat::StoreExchanges, image);
        let number = host::store(taken, image, name, kind, data, block);
        if number != 0 {
            return number;
        }
        let extra_taken = layout != 0 && old[extra(layout)] != image[extra(layout)];
        match self.0 {
            Cheat::RoomEndsAt35 if extra_taken => {
                image.copy_from_slice(&old);
                block.copy_from_slice(&[0, 0, 255, 0, 0, 0, 0, 0, 0]);
                return 15;
            }
            Cheat::StoreClearsOthers if layout != 0 => image[extra(3 - layout)].fill(0),
            _ => {}
        }
        let writes = [Cheat::StoreWritesBoth, Cheat::StoreLeavesExtraEntries];
        self.after(layout, &old, image, writes);
        number
    }

    fn scratch(&self, layout: u32, image: &mut [u8], name: &[u8], block: &mut [u8]) -> u32 {
        if let Some(number) = self.too_early(layout, image, name, block) {
            return number;
        }
        let old = image.to_vec();
        let taken = self.layout(layout, Cheat::ScratchExchanges, image);
        let number = host::scratch(taken, image, name, block);
        if number == 0 {
            let writes = [Cheat::ScratchWritesBoth, Cheat::ScratchLeavesExtraEntries];
            self.after(layout, &old, image, writes);
        }
        number
    }
}

// --- Finding them ---------------------------------------------------------

/// Start images and lists of a layout with 40 tracks on which the library itself
/// does nothing wrong: with files on the extra tracks, accepted in one layout and
/// in both, and one with the longest file. A format ends each.
fn honest_runs(layout: u32) -> Vec<Run> {
    let run = |(seed, kind): (usize, &str)| {
        let mut start = generate(layout, kind, seed as u64).unwrap().image;
        start[91_394] = 0x41;
        let rng = &mut Rng::new(seed as u64);
        let mut list = requests(layout, rng, &start, STYLES[seed % STYLES.len()], 80);
        for file in contents(layout, &start).unwrap().files {
            let (name, room) = (file.name, file.bytes.len());
            list.insert(0, Request::of(layout, Call::Read { name, room }));
        }
        let (name, id1, id2) = (b"NEW".to_vec(), 1, 2);
        list.push(Request::of(layout, Call::Format { name, id1, id2 }));
        demand3(&Independent, layout, &start, &list).unwrap();
        (start, list)
    };
    let kinds = [
        "last-tracks",
        "two-maps",
        "nearly-full",
        "huge",
        "full-disk",
    ];
    (0..20).zip(kinds.into_iter().cycle()).map(run).collect()
}

/// Both layouts find each cheat that writes to the map.
#[test]
fn demand3_catches_cheats() {
    for layout in [1, 2] {
        demand3_catches(&honest_runs(layout), CHEATS, Cheating);
    }
}

#[test]
fn the_model_catches_what_demand3_does_not() {
    for layout in [1, 2] {
        only_the_model_catches(&honest_runs(layout), NOT_SEEN, Cheating);
    }
}

/// Single calls on images of every kind, in every layout and in unknown ones.
#[test]
fn the_model_catches_single_calls() {
    for &(cheat, given, owed) in ONE_CALL {
        let found = (0..3).any(|seed| {
            kinds().iter().any(|kind| {
                let image = generate(1 + seed as u32 % 2, kind, seed).unwrap().image;
                let short = generate(0, kind, seed).unwrap().image;
                let list = single_calls();
                let differ = |image| model::differences(&Cheating(cheat), image, &list);
                [differ(&image), differ(&short)]
                    .concat()
                    .contains(&(given, owed))
            })
        });
        assert!(found, "{cheat:?} was not seen to give {given} for {owed}");
    }
}

fn single_calls() -> Vec<Request> {
    let layouts = [0, 1, 2, 3, 4, 256, 258, u32::MAX];
    let names = [b"X".to_vec(), Vec::new()];
    let of = |layout| {
        let read = names.clone().map(|name| Call::Read { name, room: 0 });
        let calls = [Call::Check].into_iter().chain(read);
        calls.map(move |call| Request::of(layout, call))
    };
    layouts.into_iter().flat_map(of).collect()
}

/// The runs come upon what the cheats do wrong in either layout: other entries
/// that are not zero, and more than 681 sectors.
#[test]
fn the_runs_have_what_it_takes() {
    for layout in [1, 2] {
        let runs = honest_runs(layout);
        let others = |run: &Run| other_entries(layout, &run.0).iter().any(|byte| *byte != 0);
        assert!(runs.iter().filter(|run| others(run)).count() > 4);
        let long = |run: &&Run| {
            let held = contents(layout, &run.0).unwrap();
            held.files.iter().any(|file| file.chain.len() > 681)
        };
        assert!(runs.iter().any(|run| long(&run)));
    }
}
