//! 02, §12: "USR files are retired. No owner's machine uses them. Store of
//! kind 3 now gives 10, whose row in document 01 becomes "not 1 or 2". Images
//! holding USR files are still accepted, listed, read and scratched. Demand 3
//! is unchanged for files that were there at the start." Cheats about USR files
//! are in tests/demand3.rs.

use independent::answer::Answer;
use independent::arguments;
use independent::calls::{format, read, scratch, store, tell, Told};
use independent::check::check;
use independent::damage::FAULTS;
use independent::generate::{generate, planted, sound, wrong_sizes, SOUND};
use independent::geometry::IMAGE_BYTES;
use independent::host;
use independent::listing::sleeve_output;
use independent::lists::{requests, STYLES};
use independent::naive::{accepted, contents, Contents, File};
use independent::plain::{demand3, PlainList};
use independent::request::{lent, perform, Call, Independent, Request};
use independent::rng::{for_layouts, for_seeds, Rng};
use independent::sound::{offset, slot_offset};
use std::collections::BTreeSet;

/// The data of the file in a slot.
fn data(slot: usize, length: usize) -> Vec<u8> {
    (0..length).map(|at| (at * 5 + slot + 1) as u8).collect()
}

/// A disk with USR files: PLAIN, 300 bytes on 17/0 and 17/1, and LOCKED, 254
/// bytes on 17/2; the third, OTHER, is PRG, 10 bytes on 17/3.
fn with_usr_files() -> Vec<u8> {
    let mut image = vec![0xEE; IMAGE_BYTES];
    assert_eq!(format(0, &mut image, b"DISK", 1, 2).number, 0);
    let files: [(&[u8], usize, u8); 3] = [
        (b"PLAIN", 300, 0x83),
        (b"LOCKED", 254, 0xC3),
        (b"OTHER", 10, 0x82),
    ];
    for (slot, (name, length, type_byte)) in files.into_iter().enumerate() {
        let stored = store(0, &mut image, name, 2, &data(slot, length));
        assert_eq!(stored.number, 0);
        image[slot_offset(&[1], slot) + 2] = type_byte;
    }
    image
}

fn padded(name: &[u8]) -> [u8; 16] {
    let mut padded = [0xA0; 16];
    padded[..name.len()].copy_from_slice(name);
    padded
}

// --- Images holding USR files ---------------------------------------------

#[test]
fn they_are_accepted_and_told() {
    let image = with_usr_files();
    assert_eq!(check(0, &image), Answer::done(0, 0));
    assert!(accepted(0, &image));
    let plain = Told {
        kind: 0x83,
        name: padded(b"PLAIN"),
        track: 17,
        sector: 0,
        count: 2,
        length: 300,
    };
    let locked = Told {
        kind: 0xC3,
        name: padded(b"LOCKED"),
        track: 17,
        sector: 2,
        count: 1,
        length: 254,
    };
    assert_eq!(tell(0, &image, 0), (Answer::done(0, 0), plain));
    assert_eq!(tell(0, &image, 1), (Answer::done(0, 0), locked));
}

#[test]
fn they_are_listed_and_read() {
    let image = with_usr_files();
    let text = String::from_utf8(sleeve_output(None, &image)).unwrap();
    let lines: Vec<&str> = text.lines().collect();
    assert_eq!(lines.len(), 5, "{text}");
    let line = "831100504C41494EA0A0A0A0A0A0A0A0A0A0A00200";
    assert_eq!(lines[1], line);
    let line = "C311024C4F434B4544A0A0A0A0A0A0A0A0A0A00100";
    assert_eq!(lines[2], line);
    let mut out = lent(302);
    assert_eq!(read(0, &image, b"PLAIN", &mut out), Answer::done(300, 2));
    assert_eq!(out, [data(0, 300), lent(302)[300..].to_vec()].concat());
    let mut out = lent(254);
    assert_eq!(read(0, &image, b"LOCKED", &mut out), Answer::done(254, 1));
    assert_eq!(out, data(1, 254));
}

/// "Scratch zeroes the file's sectors and bytes 02-1F of its slot, and frees
/// the sectors in the map; no other byte changes."
#[test]
fn they_are_scratched_and_leave_zeros() {
    let mut image = with_usr_files();
    let mut expected = image.clone();
    let track_17 = offset(18, 0) + 68..offset(18, 0) + 72;
    assert_eq!(image[track_17.clone()], [0x11, 0xF0, 0xFF, 0x1F]);

    assert_eq!(scratch(0, &mut image, b"PLAIN"), Answer::done(300, 2));
    expected[offset(17, 0)..offset(17, 2)].fill(0);
    expected[offset(18, 1) + 0x02..offset(18, 1) + 0x20].fill(0);
    expected[track_17.clone()].copy_from_slice(&[0x13, 0xF3, 0xFF, 0x1F]);
    assert!(image == expected);
    assert_eq!(
        read(0, &image, b"PLAIN", &mut [0; 300]),
        Answer::refusal(13)
    );

    assert_eq!(scratch(0, &mut image, b"LOCKED"), Answer::done(254, 1));
    expected[offset(17, 2)..offset(17, 3)].fill(0);
    expected[offset(18, 1) + 0x22..offset(18, 1) + 0x40].fill(0);
    expected[track_17].copy_from_slice(&[0x14, 0xF7, 0xFF, 0x1F]);
    assert!(image == expected);
    assert_eq!(scratch(0, &mut image, b"LOCKED"), Answer::refusal(13));
}

fn is_usr(file: &File) -> bool {
    matches!(file.type_byte, 0x83 | 0xC3)
}

fn usr_files(held: &Contents) -> Vec<File> {
    let usr = held.files.iter().filter(|file| is_usr(file));
    usr.cloned().collect()
}

/// No store makes USR files any more, so the generator has to: about a fourth
/// of all files, on images of every kind that has files.
#[test]
fn generated_images_hold_them() {
    let (mut files, mut plain, mut locked) = (0, 0, 0);
    for kind in SOUND.iter().filter(|kind| **kind != "fresh") {
        let mut with = 0;
        for seed in 0..40 {
            let held = contents(0, &generate(0, kind, seed).unwrap().image).unwrap();
            let usr = usr_files(&held);
            files += held.files.len();
            plain += usr.iter().filter(|file| file.type_byte == 0x83).count();
            locked += usr.iter().filter(|file| file.type_byte == 0xC3).count();
            with += usize::from(!usr.is_empty());
        }
        assert!(with >= 5, "{kind}: {with} of 40");
    }
    let shown = format!("{plain} plain and {locked} locked of {files}");
    assert!(
        5 * (plain + locked) > files && 40 * locked > files,
        "{shown}"
    );
}

/// Every USR file of every kind of image is looked at, then scratched.
#[test]
fn those_of_every_kind_of_image() {
    for_layouts("those_of_every_kind_of_image", 3, |layout, _, rng| {
        for kind in SOUND {
            let mut image = sound(layout, kind, rng).unwrap().image;
            image[91_394] = 0x41;
            let held = contents(layout, &image).unwrap();
            assert_eq!(check(layout, &image).number, 0, "{kind}");
            look_at_all(&image, &held, kind);
            let mut usr = usr_files(&held);
            rng.shuffle(&mut usr);
            for file in usr {
                scratch_one(layout, &mut image, &file, kind);
            }
        }
    });
}

fn look_at_all(image: &[u8], held: &Contents, kind: &str) {
    let argument = held.layout.to_string();
    let text = sleeve_output(Some(argument.as_bytes()), image);
    let text = String::from_utf8(text).unwrap();
    let lines: Vec<&str> = text.lines().collect();
    for (position, file) in held.files.iter().enumerate() {
        if !is_usr(file) {
            continue;
        }
        let (answer, told) = tell(held.layout, image, position);
        assert_eq!((answer.number, told.kind), (0, file.type_byte), "{kind}");
        let shown = format!("{:02X}", file.type_byte);
        assert!(lines[position + 1].starts_with(&shown), "{kind}");
        let mut out = lent(file.bytes.len());
        let answer = read(held.layout, image, &file.name, &mut out);
        let report = (answer.number, usize::from(answer.sectors));
        assert_eq!(report, (0, file.chain.len()), "{kind}");
        assert!(out == file.bytes, "{kind}: read gave other bytes");
    }
}

/// The other files stay, and the sectors are left as zeros.
fn scratch_one(layout: u32, image: &mut [u8], file: &File, kind: &str) {
    let mut others = contents(layout, image).unwrap().files;
    others.retain(|other| other.name != file.name);
    let answer = scratch(layout, image, &file.name);
    let done = Answer::done(file.bytes.len() as u32, file.chain.len() as u16);
    assert_eq!(answer, done, "{kind}");
    let held = contents(layout, image).unwrap();
    assert!(held.files == others, "{kind}: another file changed");
    for &(track, sector) in &file.chain {
        let at = offset(track, sector);
        assert!(image[at..at + 256] == [0; 256], "{kind}: codes are left");
    }
}

// --- Store of kind 3 ------------------------------------------------------

/// A store's number. A refusal changes no byte and has no place but the
/// check's.
fn number_of(image: &[u8], name: &[u8], kind: u32, data: &[u8]) -> u8 {
    let mut after = image.to_vec();
    let answer = store(0, &mut after, name, kind, data);
    if answer.number != 0 {
        assert!(after == image, "a refusal changed the image");
    }
    if !(2..=8).contains(&answer.number) && answer.number != 0 {
        assert_eq!(answer, Answer::refusal(answer.number));
    }
    answer.number
}

/// Where a store of kinds 1 and 2 gives `owed`, one of kind 3 gives 10.
fn ten_instead_of(owed: u8, image: &[u8], name: &[u8], data: &[u8]) {
    for kind in [1, 2] {
        assert_eq!(number_of(image, name, kind, data), owed);
    }
    assert_eq!(number_of(image, name, 3, data), 10, "instead of {owed}");
}

/// "1, then 9, 10, then 2 to 8 in check order, then 11, 12, 13, 14, 15, 16."
#[test]
fn a_store_of_kind_3_gives_10() {
    let image = with_usr_files();
    ten_instead_of(0, &image, b"NEW", &[7; 600]);
    ten_instead_of(0, &image, b"NEW", &[]);
    for taken in [&b"PLAIN"[..], b"LOCKED", b"OTHER"] {
        ten_instead_of(12, &image, taken, &[7; 10]);
    }
    ten_instead_of(15, &image, b"NEW", &vec![7; 168_657]);
    let mut version = image.clone();
    version[91_394] = 0x42;
    ten_instead_of(11, &version, b"NEW", &[7; 10]);
    ten_instead_of(11, &version, b"PLAIN", &[7; 10]);
    let mut full = generate(0, "full-directory", 4).unwrap().image;
    full[91_394] = 0x41;
    assert!(!usr_files(&contents(0, &full).unwrap()).is_empty());
    let names = contents(0, &full).unwrap().files;
    let names: Vec<Vec<u8>> = names.into_iter().map(|file| file.name).collect();
    let fresh = independent::sound::fresh_name(&mut Rng::new(1), false, &names);
    ten_instead_of(14, &full, &fresh, &[7; 10]);
}

#[test]
fn ten_comes_before_every_fault_of_the_image() {
    let mut met = BTreeSet::new();
    for_seeds("ten_comes_before_every_fault_of_the_image", 3, |_, rng| {
        for at in 0..FAULTS.len() {
            let made = planted(0, rng, at);
            let owed = made.expected.unwrap().number;
            ten_instead_of(owed, &made.image, b"NEW", &[7; 10]);
            met.insert(owed);
        }
    });
    assert_eq!(met, (2..=8).collect());
}

#[test]
fn one_and_nine_come_before_ten() {
    let image = with_usr_files();
    for name in [&b""[..], &[0x41; 17], b"A\xA0"] {
        assert_eq!(number_of(&image, name, 3, b"X"), 9);
        assert_eq!(number_of(&image[1..], name, 3, b"X"), 1);
    }
    for size in wrong_sizes(0) {
        assert_eq!(number_of(&vec![0x12; size], b"NEW", 3, b"X"), 1);
    }
    // Only the answer block's 16 comes before all.
    for (size, number) in [(8, 16), (9, 10), (10, 16)] {
        let (mut after, mut block) = (image.clone(), lent(size));
        let given = host::store(0, &mut after, b"NEW", 3, b"X", &mut block);
        assert_eq!(given, number);
        assert!(after == image);
        match size {
            9 => assert_eq!(block, [0, 0, 255, 0, 0, 0, 0, 0, 0]),
            _ => assert_eq!(block, lent(size)),
        }
    }
}

/// Kind 3 is asked for often enough to be noticed, and most stores are still
/// of a kind that is taken.
#[test]
fn kinds_are_drawn_in_good_measure() {
    let rng = &mut Rng::new(12);
    let drawn: Vec<u32> = (0..12_000).map(|_| arguments::kind(rng)).collect();
    let count = |kind: u32| drawn.iter().filter(|drawn| **drawn == kind).count();
    assert!((800..1_200).contains(&count(3)), "{}", count(3));
    let taken = (count(1), count(2));
    assert!(taken.0 > 4_500 && taken.1 > 4_500, "{taken:?}");
    for kind in [0, 0x83, 256, 257, 258, 259, u32::MAX] {
        assert!(count(kind) > 20, "{kind}: {}", count(kind));
    }
}

// --- Lists of calls -------------------------------------------------------

/// What the lists did with USR files.
#[derive(Default, Debug)]
struct Met {
    kept: usize,
    read: usize,
    scratched: usize,
    refused: usize,
}

/// The USR files of the start stay as they are, each in its slot, with its
/// lock, its sectors and its bytes, until they are scratched or the disk is
/// formatted. None is added.
#[test]
fn lists_keep_them_until_they_are_scratched() {
    let mut met = Met::default();
    for_layouts(
        "lists_keep_them_until_they_are_scratched",
        3,
        |layout, seed, rng| {
            for (i, kind) in SOUND.iter().enumerate() {
                let mut start = sound(layout, kind, rng).unwrap().image;
                start[91_394] = 0x41;
                let style = STYLES[(seed as usize + i) % STYLES.len()];
                let list = requests(layout, rng, &start, style, 120);
                demand3(&Independent, layout, &start, &list).unwrap();
                run(layout, &start, &list, &mut met);
            }
        },
    );
    if independent::rng::seeds(3).len() >= 3 {
        let least = met.read.min(met.scratched).min(met.refused);
        assert!(least > 90 && met.kept > 6_000, "{met:?}");
    }
}

fn run(layout: u32, start: &[u8], list: &[Request], met: &mut Met) {
    let mut image = start.to_vec();
    let held = contents(layout, start).unwrap();
    let mut plain = PlainList::of(&held);
    let mut usr = usr_files(&held);
    for request in list {
        let number = perform(&Independent, &mut image, request).unwrap().number;
        plain.feed(&request.call, number);
        note(&request.call, number, &mut usr, met);
        let held = contents(layout, &image).unwrap();
        let shown = request.shown();
        assert!(usr_files(&held) == usr, "{shown} gave {number}");
        assert!(plain.is_held_by(&held), "{shown} gave {number}");
        let entries = plain.entries.iter().filter(|entry| entry.kind == 3);
        let mut names: Vec<&[u8]> = entries.map(|entry| &entry.name[..]).collect();
        let mut expected: Vec<&[u8]> = usr.iter().map(|file| &file.name[..]).collect();
        names.sort();
        expected.sort();
        assert_eq!(names, expected, "{shown} gave {number}");
        met.kept += usize::from(!usr.is_empty());
    }
}

/// Takes from `usr` what a call answered so removes.
fn note(call: &Call, number: u32, usr: &mut Vec<File>, met: &mut Met) {
    let known = |name: &Vec<u8>| usr.iter().position(|file| file.name == *name);
    match (call, number) {
        (Call::Format { .. }, 0) => usr.clear(),
        (Call::Read { name, .. }, 0) => met.read += usize::from(known(name).is_some()),
        (Call::Scratch { name }, 0) => {
            if let Some(at) = known(name) {
                usr.remove(at);
                met.scratched += 1;
            }
        }
        (Call::Store { kind: 3, .. }, 10) => met.refused += 1,
        // A wrong name, or a block that isn't nine bytes.
        (Call::Store { kind: 3, .. }, 9 | 16) => {}
        (Call::Store { kind: 3, .. }, _) => panic!("a store of kind 3 gave {number}"),
        _ => {}
    }
}
