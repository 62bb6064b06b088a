//! Libraries that get the bits past a track's last sector wrong (02, §5), and
//! what finds each of them: a clause of `demand3`, or the comparison with the
//! plain model. Wrong checks are in tests/spare_bits.rs.

mod cheats;
mod model;

use cheats::{demand3_catches, only_the_model_catches, Run};
use independent::answer::Answer;
use independent::generate::{generate, SOUND};
use independent::host::{self, block_of};
use independent::lists::{requests, STYLES};
use independent::naive::{contents, spare_bits};
use independent::plain::{demand3, ACCEPTED, REFUSED, SPARE_BITS};
use independent::request::{Call, Independent, Library, Request};
use independent::rng::Rng;
use independent::sound::{map_offset, offset, spare_mask};

/// Each does one thing wrong and the rest right.
#[derive(Clone, Copy, PartialEq, Debug)]
enum Cheat {
    StoreClears,
    /// Only in the entries that it has to change.
    StoreClearsWhereItWrites,
    StoreSets,
    StoreCounts,
    /// Where 15 is due, its last sector is a bit past track 17's.
    StoreTakesOneAsRoom,
    /// Where 14 is due, the directory goes on in 18/19.
    DirectoryTakesOne,
    RefusedStoreClears,
    ScratchClears,
    ScratchClearsWhereItWrites,
    ScratchSets,
    ScratchCounts,
    FormatKeeps,
    FormatSets,
    /// As document 01 had it before 02, §5.
    RefusesWithEight,
    CheckRefusesWithEight,
}

/// The cheats, each with the clauses that it breaks, and no others.
const CHEATS: &[(Cheat, &[&str])] = &[
    (Cheat::StoreClears, &[SPARE_BITS]),
    (Cheat::StoreClearsWhereItWrites, &[SPARE_BITS]),
    (Cheat::StoreSets, &[SPARE_BITS]),
    (Cheat::StoreCounts, &[ACCEPTED]),
    (Cheat::StoreTakesOneAsRoom, &[ACCEPTED, SPARE_BITS]),
    (Cheat::DirectoryTakesOne, &[ACCEPTED, SPARE_BITS]),
    (Cheat::RefusedStoreClears, &[REFUSED, SPARE_BITS]),
    (Cheat::ScratchClears, &[SPARE_BITS]),
    (Cheat::ScratchClearsWhereItWrites, &[SPARE_BITS]),
    (Cheat::ScratchSets, &[SPARE_BITS]),
    (Cheat::ScratchCounts, &[ACCEPTED]),
    (Cheat::FormatKeeps, &[SPARE_BITS]),
    (Cheat::FormatSets, &[SPARE_BITS]),
];

/// The cheats that break no clause, since a refusal changes nothing, each with
/// a number it gives and the one owed.
const NOT_SEEN: &[(Cheat, u32, u32)] = &[
    (Cheat::RefusesWithEight, 8, 0),
    (Cheat::RefusesWithEight, 8, 13),
    (Cheat::CheckRefusesWithEight, 8, 0),
];

// --- What they do to the map ----------------------------------------------

/// Gives each track's spare bits the value of a byte's.
fn put_spare(image: &mut [u8], mut byte: impl FnMut(u8) -> u8) {
    for track in 1..=35 {
        let (last, mask) = (&mut image[map_offset(0, track) + 3], spare_mask(track));
        *last = *last & !mask | byte(track) & mask;
    }
}

/// The tracks whose entries differ.
fn changed(old: &[u8], image: &[u8]) -> Vec<u8> {
    let entry = |track| map_offset(0, track)..map_offset(0, track) + 4;
    let differs = |track: &u8| old[entry(*track)] != image[entry(*track)];
    (1..=35).filter(differs).collect()
}

/// Clears the spare bits of some tracks.
fn clear(image: &mut [u8], tracks: &[u8]) {
    for &track in tracks {
        image[map_offset(0, track) + 3] &= !spare_mask(track);
    }
}

/// Makes the counts of some tracks those of all 24 bits.
fn count(image: &mut [u8], tracks: &[u8]) {
    for &track in tracks {
        let at = map_offset(0, track);
        let ones = |byte: &u8| byte.count_ones() as u8;
        image[at] = image[at + 1..at + 4].iter().map(ones).sum();
    }
}

/// Stores as much as is free, and the rest in a sector that track 17 doesn't
/// have; false if it can't.
fn take_as_room(image: &mut [u8], name: &[u8], kind: u32, data: &[u8], block: &mut [u8]) -> bool {
    let free = contents(0, image).map_or(0, |held| held.free_off_track_18());
    let bit = &mut image[map_offset(0, 17) + 3];
    if free == 0 || *bit & 0x20 == 0 {
        return false;
    }
    *bit &= !0x20;
    assert_eq!(
        host::store(0, image, name, kind, &data[..254 * free], block),
        0
    );
    let held = contents(0, image).unwrap();
    let &(track, sector) = model::find(&held, name).unwrap().chain.last().unwrap();
    let at = offset(track, sector);
    image[at..at + 2].copy_from_slice(&[17, 21]);
    true
}

/// Lets the directory go on in 18/19; false if it can't.
fn take_for_directory(image: &mut [u8]) -> bool {
    let last = contents(0, image).unwrap().directory.pop().unwrap();
    let bit = &mut image[map_offset(0, 18) + 3];
    let can = *bit & 0x08 != 0;
    if can {
        *bit &= !0x08;
        let at = offset(18, last);
        image[at..at + 2].copy_from_slice(&[18, 19]);
    }
    can
}

/// Whether an image that is accepted has spare bits set; then the block says
/// 8, as before.
fn refused_as_before(image: &[u8], block: &mut [u8]) -> bool {
    let refused = block.len() == 9 && spare_bits(0, image).contains(&true);
    if refused {
        block.copy_from_slice(&block_of(&Answer::fault(8, 1, 255, 255)));
    }
    refused
}

// --- The libraries --------------------------------------------------------

struct Cheating(Cheat);

impl Cheating {
    /// What a cheat does to the map after a store, done or refused.
    fn after_store(&self, old: &[u8], image: &mut [u8], number: u32) {
        let written = changed(old, image);
        match (self.0, number) {
            (Cheat::StoreClears, 0) => put_spare(image, |_| 0),
            (Cheat::StoreClearsWhereItWrites, 0) => clear(image, &written),
            (Cheat::StoreSets, 0) => put_spare(image, |_| 0xFF),
            (Cheat::StoreCounts, 0) => count(image, &written),
            (Cheat::RefusedStoreClears, 14 | 15) => put_spare(image, |_| 0),
            _ => {}
        }
    }

    fn after_scratch(&self, old: &[u8], image: &mut [u8]) {
        let written = changed(old, image);
        match self.0 {
            Cheat::ScratchClears => put_spare(image, |_| 0),
            Cheat::ScratchClearsWhereItWrites => clear(image, &written),
            Cheat::ScratchSets => put_spare(image, |_| 0xFF),
            Cheat::ScratchCounts => count(image, &written),
            _ => {}
        }
    }
}

impl Library for Cheating {
    fn check(&self, layout: u32, image: &[u8], block: &mut [u8]) -> u32 {
        let refuses = [Cheat::RefusesWithEight, Cheat::CheckRefusesWithEight];
        match refuses.contains(&self.0) && refused_as_before(image, block) {
            true => 8,
            false => host::check(layout, image, block),
        }
    }

    fn format(
        &self,
        layout: u32,
        image: &mut [u8],
        name: &[u8],
        id1: u8,
        id2: u8,
        block: &mut [u8],
    ) -> u32 {
        let old = image.to_vec();
        let number = host::format(layout, image, name, id1, id2, block);
        match (self.0, number) {
            (Cheat::FormatKeeps, 0) => put_spare(image, |track| old[map_offset(0, track) + 3]),
            (Cheat::FormatSets, 0) => put_spare(image, |_| 0xFF),
            _ => {}
        }
        number
    }

    fn read(
        &self,
        layout: u32,
        image: &[u8],
        name: &[u8],
        out: &mut [u8],
        block: &mut [u8],
    ) -> u32 {
        match self.0 == Cheat::RefusesWithEight && refused_as_before(image, block) {
            true => 8,
            false => host::read(layout, image, name, out, block),
        }
    }

    fn store(
        &self,
        layout: u32,
        image: &mut [u8],
        name: &[u8],
        kind: u32,
        data: &[u8],
        block: &mut [u8],
    ) -> u32 {
        if self.0 == Cheat::RefusesWithEight && refused_as_before(image, block) {
            return 8;
        }
        let old = image.to_vec();
        let number = host::store(layout, image, name, kind, data, block);
        let taken = match (self.0, number) {
            (Cheat::StoreTakesOneAsRoom, 15) => take_as_room(image, name, kind, data, block),
            (Cheat::DirectoryTakesOne, 14) => take_for_directory(image),
            _ => false,
        };
        if taken {
            return 0;
        }
        self.after_store(&old, image, number);
        number
    }

    fn scratch(&self, layout: u32, image: &mut [u8], name: &[u8], block: &mut [u8]) -> u32 {
        if self.0 == Cheat::RefusesWithEight && refused_as_before(image, block) {
            return 8;
        }
        let old = image.to_vec();
        let number = host::scratch(layout, image, name, block);
        if number == 0 {
            self.after_scratch(&old, image);
        }
        number
    }
}

// --- Finding them ---------------------------------------------------------

/// Start images with all spare bits set, and with some, and lists on which the
/// library itself does nothing wrong. A format ends each.
fn honest_runs() -> Vec<Run> {
    let run = |(seed, kind): (usize, &&str)| {
        let rng = &mut Rng::new(seed as u64);
        let mut start = generate(0, kind, 2).unwrap().image;
        start[91_394] = 0x41;
        match seed % 2 {
            0 => put_spare(&mut start, |_| 0xFF),
            _ => put_spare(&mut start, |_| rng.byte()),
        }
        let mut list = requests(0, rng, &start, STYLES[seed % STYLES.len()], 60);
        let call = Call::Format {
            name: b"NEW".to_vec(),
            id1: 1,
            id2: 2,
        };
        list.push(Request::of(0, call));
        demand3(&Independent, 0, &start, &list).unwrap();
        (start, list)
    };
    SOUND.iter().enumerate().map(run).collect()
}

#[test]
fn demand3_catches_cheats() {
    demand3_catches(&honest_runs(), CHEATS, Cheating);
}

/// What demand 3 lets pass, the comparison of calls catches.
#[test]
fn the_model_catches_what_demand3_does_not() {
    only_the_model_catches(&honest_runs(), NOT_SEEN, Cheating);
}
