//! Demand 3 over generated lists (01, What demand 3 compares), and the cheats
//! that it must catch (01, Strength of the promises).

mod cheats;
mod model;

use cheats::{demand3_catches, only_the_model_catches, Run};
use independent::generate::{generate, sound, SOUND};
use independent::geometry::LAYOUTS;
use independent::host;
use independent::lists::{requests, STYLES};
use independent::naive::{contents, File, Owner};
use independent::plain::{
    demand3, PlainList, ACCEPTED, GIVEN_BACK, PLAIN_LIST, READ_BYTES, READ_SECTORS, REFUSED,
};
use independent::request::{perform, Call, Independent, Library, Request};
use independent::rng::{for_layouts, Rng};
use independent::sound::slot_offset;
use std::collections::BTreeMap;

#[test]
fn demand3_holds_over_lists() {
    let mut done: BTreeMap<String, usize> = BTreeMap::new();
    for_layouts("demand3_holds_over_lists", 8, |layout, seed, rng| {
        for (i, kind) in SOUND.iter().enumerate() {
            let mut start = sound(layout, kind, rng).unwrap().image;
            // Now and then the DOS version forbids writing.
            start[91_394] = if rng.one_in(8) { rng.byte() } else { 0x41 };
            let style = STYLES[(seed as usize + i) % STYLES.len()];
            let list = requests(layout, rng, &start, style, 120);
            if let Err(what) = demand3(&Independent, layout, &start, &list) {
                panic!("{kind}, {style:?}: {what}");
            }
            tally(&start, &list, &mut done);
        }
    });
    // Every call must have been answered in many ways, else the lists are too
    // thin; this holds for the default rounds, not for a single seed.
    if independent::rng::seeds(8).len() >= 8 {
        let wanted = "Format 0, Format 9, Store 0, Store 10, Store 11, Store 12, Store 14, \
                      Store 15, Scratch 0, Scratch 13, Read 0, Read 13, Read 16, Check 0";
        for what in wanted.split(", ") {
            assert!(done.get(what).is_some_and(|n| *n > 30), "{what}: {done:?}");
        }
    }
}

/// Which calls the list made, by their answer.
fn tally(start: &[u8], list: &[Request], done: &mut BTreeMap<String, usize>) {
    let mut image = start.to_vec();
    for request in list {
        let reply = perform(&Independent, &mut image, request).unwrap();
        let shown = request.shown();
        let word = shown.split(' ').next().unwrap_or("");
        *done.entry(format!("{word} {}", reply.number)).or_default() += 1;
    }
}

#[test]
fn long_lists_on_a_nearly_full_disk() {
    for_layouts("long_lists_on_a_nearly_full_disk", 2, |layout, _, rng| {
        let start = generate(layout, "nearly-full", 3).unwrap().image;
        for &style in STYLES {
            let list = requests(layout, rng, &start, style, 400);
            demand3(&Independent, layout, &start, &list).unwrap();
        }
    });
}

/// "Demand 3 is one claim about a whole list of calls, the empty one too."
#[test]
fn the_empty_list_and_a_bad_start() {
    for layout in LAYOUTS {
        let start = generate(layout, "scattered", 1).unwrap().image;
        assert_eq!(
            demand3(&Independent, layout, &start, &[]),
            Ok(start.clone())
        );
        assert!(demand3(&Independent, layout, &start[1..], &[]).is_err());
        assert!(demand3(&Independent, 3, &start, &[]).is_err());
        let zeros = generate(layout, "zeros", 0).unwrap().image;
        assert!(demand3(&Independent, layout, &zeros, &[]).is_err());
    }
}

/// It "covers a list whose calls all name one and the same layout, one in which
/// the start image is accepted" (02, §8).
#[test]
fn a_list_names_one_layout() {
    let start = generate(1, "two-maps", 1).unwrap().image;
    let check = |layout| Request::of(layout, Call::Check);
    for layout in [1, 2] {
        let list = [check(layout), check(layout)];
        assert!(demand3(&Independent, layout, &start, &list).is_ok());
        let list = [check(layout), check(3 - layout)];
        assert!(demand3(&Independent, layout, &start, &list).is_err());
        assert!(demand3(&Independent, layout, &start, &[check(3)]).is_err());
    }
    for layout in [1, 2] {
        let mut images = (0..).map(|seed| generate(layout, "last-tracks", seed).unwrap().image);
        let alone = images
            .find(|image| check_of(3 - layout, image) == 8)
            .unwrap();
        assert!(demand3(&Independent, layout, &alone, &[]).is_ok());
        assert!(demand3(&Independent, 3 - layout, &alone, &[]).is_err());
    }
}

fn check_of(layout: u32, image: &[u8]) -> u32 {
    host::check(layout, image, &mut [0; 9])
}

/// "Any other size of that block gives 16 before all else, and nothing is
/// written": a refusal like any other.
#[test]
fn blocks_and_formats_in_a_list() {
    for layout in LAYOUTS {
        let start = generate(layout, "any", 5).unwrap().image;
        let call = Call::Format {
            name: b"NEW".to_vec(),
            id1: 1,
            id2: 2,
        };
        let format = |block| Request {
            layout,
            call: call.clone(),
            block,
        };
        let refused = [format(8), format(10), format(0)];
        let last = demand3(&Independent, layout, &start, &refused).unwrap();
        assert_eq!(last, start);
        let last = demand3(&Independent, layout, &start, &[format(9)]).unwrap();
        assert!(PlainList::default().is_held_by(&contents(layout, &last).unwrap()));
    }
}

/// The longest chain that a disk can hold is reported whole: 681 sectors, or
/// 766 of 40 tracks.
#[test]
fn a_read_of_the_longest_chain() {
    for (layout, most) in [(0, 681), (1, 766), (2, 766)] {
        let long = |image: &Vec<u8>| contents(layout, image).unwrap().files[0].chain.len() == most;
        let mut images = (0..1000).map(|seed| generate(layout, "huge", seed).unwrap().image);
        let mut start = images.find(long).unwrap();
        let file = contents(layout, &start).unwrap().files[0].clone();
        let call = Call::Read {
            name: file.name,
            room: file.bytes.len(),
        };
        let read = Request::of(layout, call);
        let list = [read.clone(), read.clone()];
        assert_eq!(
            demand3(&Independent, layout, &start, &list),
            Ok(start.clone())
        );
        let reply = perform(&Independent, &mut start, &read).unwrap();
        assert_eq!((reply.number, usize::from(reply.sectors())), (0, most));
    }
}

// --- Cheats ---------------------------------------------------------------

/// Each does one thing wrong and the rest right.
#[derive(Clone, Copy, PartialEq, Debug)]
enum Cheat {
    StoresNothing,
    FillsFirstSectorOnly,
    /// SEQ becomes PRG.
    StoresWrongKind,
    /// As if USR were not retired (02, §12).
    StoresUsr,
    StoresUsrAndSaysTen,
    StoreRetypesUsr,
    StoreDropsUsr,
    DirtiesFreeSector,
    RefusedStoreMarksMap,
    ReadsTheSameBytes,
    ReadsOneByteMore,
    RefusedReadWrites,
    ReportsWrongLength,
    InventsSectorCount,
    CountsSectorsByLength,
    LeavesCodes,
    LeavesCodesOfUsr,
    KeepsUsrFromScratch,
    ScratchFreesNothing,
    ScratchTakesFirstFile,
    FormatKeepsOldBytes,
}

/// The cheats, each with the clauses that it breaks, and no others.
const CHEATS: &[(Cheat, &[&str])] = &[
    (Cheat::StoresNothing, &[PLAIN_LIST]),
    (Cheat::FillsFirstSectorOnly, &[PLAIN_LIST]),
    (Cheat::StoresWrongKind, &[PLAIN_LIST]),
    (Cheat::StoresUsrAndSaysTen, &[PLAIN_LIST, REFUSED]),
    (Cheat::StoreRetypesUsr, &[PLAIN_LIST]),
    (Cheat::StoreDropsUsr, &[PLAIN_LIST]),
    (Cheat::DirtiesFreeSector, &[GIVEN_BACK]),
    (Cheat::RefusedStoreMarksMap, &[ACCEPTED, REFUSED]),
    (Cheat::ReadsTheSameBytes, &[READ_BYTES]),
    (Cheat::ReadsOneByteMore, &[READ_BYTES]),
    (Cheat::RefusedReadWrites, &[REFUSED]),
    (Cheat::ReportsWrongLength, &[READ_BYTES]),
    (Cheat::InventsSectorCount, &[READ_SECTORS]),
    (Cheat::CountsSectorsByLength, &[READ_SECTORS]),
    (Cheat::LeavesCodes, &[GIVEN_BACK]),
    (Cheat::LeavesCodesOfUsr, &[GIVEN_BACK]),
    (Cheat::ScratchFreesNothing, &[ACCEPTED]),
    (Cheat::ScratchTakesFirstFile, &[PLAIN_LIST]),
    (Cheat::FormatKeepsOldBytes, &[GIVEN_BACK]),
];

/// The cheats that break no clause, since the plain list follows the answers,
/// each with a number it gives and the one owed.
const NOT_SEEN: &[(Cheat, u32, u32)] = &[
    (Cheat::StoresUsr, 0, 10),
    (Cheat::KeepsUsrFromScratch, 4, 0),
];

struct Cheating(Cheat);

impl Cheating {
    /// A store that may be wrong about the kind.
    fn store_kind(
        &self,
        layout: u32,
        image: &mut [u8],
        name: &[u8],
        kind: u32,
        data: &[u8],
        block: &mut [u8],
    ) -> u32 {
        match (self.0, kind) {
            (Cheat::StoresWrongKind, 1) => host::store(layout, image, name, 2, data, block),
            (Cheat::StoresUsr, 3) => store_usr(layout, image, name, data, block),
            (Cheat::StoresUsrAndSaysTen, 3) => match store_usr(layout, image, name, data, block) {
                0 => 10,
                number => number,
            },
            _ => host::store(layout, image, name, kind, data, block),
        }
    }
}

/// A store of a USR file, as 01 had it before 02, §12.
fn store_usr(layout: u32, image: &mut [u8], name: &[u8], data: &[u8], block: &mut [u8]) -> u32 {
    let number = host::store(layout, image, name, 2, data, block);
    if number == 0 {
        retype(layout, image, name, 0x83);
    }
    number
}

/// Gives a file of an accepted image another type byte.
fn retype(layout: u32, image: &mut [u8], name: &[u8], type_byte: u8) {
    let held = contents(layout, image).unwrap();
    let slot = model::find(&held, name).unwrap().slot;
    image[slot_offset(&held.directory, slot) + 2] = type_byte;
}

/// The USR files of an image; none if it isn't accepted.
fn usr_files(layout: u32, image: &[u8]) -> Vec<File> {
    let files = contents(layout, image).map_or(Vec::new(), |held| held.files);
    let usr = files.into_iter().filter(|file| file.type_byte & 15 == 3);
    usr.collect()
}

fn spoil_first_usr_file(layout: u32, cheat: Cheat, image: &mut [u8]) {
    if let Some(file) = usr_files(layout, image).first() {
        if cheat == Cheat::StoreRetypesUsr {
            retype(layout, image, &file.name, 0x82);
        } else {
            host::scratch(layout, image, &file.name, &mut [0; 9]);
        }
    }
}

/// Puts back all that was on the other tracks; track 18 stays new.
fn keep_off_track_18(image: &mut [u8], old: &[u8]) {
    image[..91_392].copy_from_slice(&old[..91_392]);
    image[96_256..].copy_from_slice(&old[96_256..]);
}

impl Library for Cheating {
    fn check(&self, layout: u32, image: &[u8], block: &mut [u8]) -> u32 {
        host::check(layout, image, block)
    }

    fn format(
        &self,
        layout: u32,
        image: &mut [u8],
        name: &[u8],
        id1: u8,
        id2: u8,
        block: &mut [u8],
    ) -> u32 {
        let old = image.to_vec();
        let number = host::format(layout, image, name, id1, id2, block);
        if self.0 == Cheat::FormatKeepsOldBytes && number == 0 {
            keep_off_track_18(image, &old);
        }
        number
    }

    fn read(
        &self,
        layout: u32,
        image: &[u8],
        name: &[u8],
        out: &mut [u8],
        block: &mut [u8],
    ) -> u32 {
        let number = host::read(layout, image, name, out, block);
        if number != 0 {
            if self.0 == Cheat::RefusedReadWrites && !out.is_empty() {
                out[0] ^= 1;
            }
            return number;
        }
        let length = u32::from_le_bytes([block[3], block[4], block[5], block[6]]) as usize;
        let by_length = length.div_ceil(254).max(1) as u16;
        match self.0 {
            Cheat::ReadsTheSameBytes => out[..length].fill(0),
            Cheat::ReadsOneByteMore if out.len() > length => out[length] ^= 1,
            Cheat::ReportsWrongLength => block[3] ^= 1,
            Cheat::InventsSectorCount => block[7..].copy_from_slice(&[1, 0]),
            // Wrong only where the last sector holds no byte.
            Cheat::CountsSectorsByLength => block[7..].copy_from_slice(&by_length.to_le_bytes()),
            _ => {}
        }
        number
    }

    fn store(
        &self,
        layout: u32,
        image: &mut [u8],
        name: &[u8],
        kind: u32,
        data: &[u8],
        block: &mut [u8],
    ) -> u32 {
        let old = image.to_vec();
        let mut data = data.to_vec();
        if self.0 == Cheat::FillsFirstSectorOnly && data.len() > 254 {
            data[254..].fill(0);
        }
        let number = self.store_kind(layout, image, name, kind, &data, block);
        match self.0 {
            Cheat::StoreRetypesUsr | Cheat::StoreDropsUsr if number == 0 => {
                spoil_first_usr_file(layout, self.0, image);
            }
            Cheat::StoresNothing if number == 0 => image.copy_from_slice(&old),
            Cheat::RefusedStoreMarksMap if number == 15 => image[91_396] ^= 1,
            Cheat::DirtiesFreeSector if number == 0 => {
                let owners = contents(layout, image).unwrap().owners;
                if let Some(free) = owners.iter().position(|owner| *owner == Owner::Nobody) {
                    image[256 * free + 255] ^= 1;
                }
            }
            _ => {}
        }
        number
    }

    fn scratch(&self, layout: u32, image: &mut [u8], name: &[u8], block: &mut [u8]) -> u32 {
        let old = image.to_vec();
        let first = contents(layout, image).and_then(|held| held.files.first().cloned());
        let usr = usr_files(layout, image)
            .iter()
            .any(|file| file.name == name);
        if self.0 == Cheat::KeepsUsrFromScratch && usr {
            return 4;
        }
        let number = match (self.0, &first) {
            (Cheat::ScratchTakesFirstFile, Some(file)) => {
                host::scratch(layout, image, &file.name, block)
            }
            _ => host::scratch(layout, image, name, block),
        };
        match self.0 {
            Cheat::LeavesCodes if number == 0 => keep_off_track_18(image, &old),
            Cheat::LeavesCodesOfUsr if number == 0 && usr => keep_off_track_18(image, &old),
            Cheat::ScratchFreesNothing if number == 0 => {
                image[91_392..91_648].copy_from_slice(&old[91_392..91_648]);
            }
            _ => {}
        }
        number
    }
}

/// Start images and lists on which the library itself does nothing wrong, all
/// in one layout.
fn honest_runs(layout: u32) -> Vec<Run> {
    let run = |seed: usize| {
        let kind = ["locked", "edge-ends"][seed % 2];
        let mut start = generate(layout, kind, 2).unwrap().image;
        start[91_394] = 0x41;
        let rng = &mut Rng::new(seed as u64);
        let list = requests(layout, rng, &start, STYLES[seed % STYLES.len()], 150);
        demand3(&Independent, layout, &start, &list).unwrap();
        (start, list)
    };
    (0..10).map(run).collect()
}

#[test]
fn demand3_catches_cheats() {
    for layout in LAYOUTS {
        demand3_catches(&honest_runs(layout), CHEATS, Cheating);
    }
}

/// What demand 3 lets pass, the comparison of calls catches.
#[test]
fn the_model_catches_what_demand3_does_not() {
    for layout in LAYOUTS {
        only_the_model_catches(&honest_runs(layout), NOT_SEEN, Cheating);
    }
}

/// "Demand 3 alone would let a store that always refuses pass": so the calls
/// are also compared with the plain model, which owes other answers.
#[test]
fn demand3_lets_a_refusing_library_pass() {
    struct Refuser;
    impl Library for Refuser {
        fn check(&self, _: u32, _: &[u8], _: &mut [u8]) -> u32 {
            1
        }
        fn format(&self, _: u32, _: &mut [u8], _: &[u8], _: u8, _: u8, _: &mut [u8]) -> u32 {
            1
        }
        fn read(&self, _: u32, _: &[u8], _: &[u8], _: &mut [u8], _: &mut [u8]) -> u32 {
            1
        }
        fn store(&self, _: u32, _: &mut [u8], _: &[u8], _: u32, _: &[u8], _: &mut [u8]) -> u32 {
            1
        }
        fn scratch(&self, _: u32, _: &mut [u8], _: &[u8], _: &mut [u8]) -> u32 {
            1
        }
    }
    let start = generate(1, "few", 2).unwrap().image;
    let list = requests(1, &mut Rng::new(1), &start, STYLES[4], 50);
    assert_eq!(demand3(&Refuser, 1, &start, &list), Ok(start.clone()));
    assert!(list
        .iter()
        .all(|request| model::number(&start, request) != 1));
}
