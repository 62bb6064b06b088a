//! Bits past a track's last sector (02, §5): "to be ignored by check, not
//! counted, and left as they are by every call but format. Format still writes
//! 0." Here they are called spare. Generated images are in tests/spare_images.rs;
//! libraries that get them wrong, and are found, in tests/spare_cheats.rs.

use independent::answer::Answer;
use independent::calls::{format, scratch, store};
use independent::check::check;
use independent::generate::generate;
use independent::geometry::IMAGE_BYTES;
use independent::naive::{accepted, contents};
use independent::rng::Rng;
use independent::sound::fresh_name;
use std::rc::Rc;

/// A track at each end of each zone, its sectors, and its spare bits, which
/// are the upper ones of its entry's last byte.
const ROWS: [(u8, u8, u8); 8] = [
    (1, 21, 0b1110_0000),
    (17, 21, 0b1110_0000),
    (18, 19, 0b1111_1000),
    (24, 19, 0b1111_1000),
    (25, 18, 0b1111_1100),
    (30, 18, 0b1111_1100),
    (31, 17, 0b1111_1110),
    (35, 17, 0b1111_1110),
];

/// The spare bits of any track's last byte.
fn mask(track: u8) -> u8 {
    let row = ROWS.iter().rev().find(|(first, _, _)| *first <= track);
    row.unwrap().2
}

fn entry(image: &mut [u8], track: u8) -> &mut [u8; 4] {
    let at = 91_392 + 4 * usize::from(track);
    (&mut image[at..at + 4]).try_into().unwrap()
}

/// The image with other spare bits: a byte for each track, of which the spare
/// bits are taken.
fn with_spare(image: &[u8], mut byte: impl FnMut(u8) -> u8) -> Vec<u8> {
    let mut image = image.to_vec();
    for track in 1..=35 {
        let last = &mut entry(&mut image, track)[3];
        *last = *last & !mask(track) | byte(track) & mask(track);
    }
    image
}

/// A formatted disk.
fn fresh() -> Vec<u8> {
    let mut image = vec![0xEE; IMAGE_BYTES];
    assert_eq!(format(0, &mut image, b"DISK", 1, 2).number, 0);
    image
}

/// A disk of which every row's track has used and free sectors; no spare bit
/// is set.
fn half_used() -> Vec<u8> {
    let both = |image: &mut Vec<u8>| {
        let mut counts = ROWS.map(|row| entry(image, row.0)[0]).into_iter();
        counts.all(|count| (1..16).contains(&count))
    };
    let mut images = (0..).map(|seed| generate(0, "scattered", seed).unwrap().image);
    let image = images.find_map(|mut image| both(&mut image).then_some(image));
    with_spare(&image.unwrap(), |_| 0)
}

// --- The check ------------------------------------------------------------

/// A sound image without spare bits, another entry for a track, and the answer
/// owed.
struct Case {
    what: String,
    sound: Rc<Vec<u8>>,
    track: u8,
    entry: [u8; 4],
    owed: Answer,
}

impl Case {
    fn image(&self) -> Vec<u8> {
        let mut image = self.sound.to_vec();
        *entry(&mut image, self.track) = self.entry;
        image
    }
}

/// What is owed for a track and its sectors.
type Owed = dyn Fn(u8, u8) -> Answer;

const ACCEPTED: &Owed = &|_, _| Answer::done(0, 0);
const WRONG_COUNT: &Owed = &|track, _| Answer::fault(8, track, 255, 255);

/// A case for each row of two disks: `change` is given the entry, the track's
/// sectors and its spare bits.
fn for_rows(what: &str, owed: &Owed, change: impl Fn(&mut [u8; 4], u8, u8)) -> Vec<Case> {
    let mut cases = Vec::new();
    for (disk, mut image) in [("fresh", fresh()), ("half used", half_used())] {
        let sound = Rc::new(image.clone());
        for (track, sectors, spare) in ROWS {
            let mut entry = *entry(&mut image, track);
            change(&mut entry, sectors, spare);
            cases.push(Case {
                what: format!("{what}, track {track}, {disk}"),
                sound: sound.clone(),
                track,
                entry,
                owed: owed(track, sectors),
            });
        }
    }
    cases
}

/// The highest spare bit, and the one right after the last sector's.
fn ends(spare: u8) -> [u8; 2] {
    [0x80, 1 << spare.trailing_zeros()]
}

/// Spare bits beside a right count.
fn set_cases() -> Vec<Case> {
    let mut cases = for_rows("all set", ACCEPTED, |entry, _, spare| entry[3] |= spare);
    for bit in 0..8 {
        let one = |entry: &mut [u8; 4], _, spare| entry[3] |= spare & (1 << bit);
        cases.extend(for_rows(&format!("bit {bit} alone"), ACCEPTED, one));
    }
    cases
}

/// Spare bits that are counted.
fn counted_cases() -> Vec<Case> {
    let all = for_rows("all counted", WRONG_COUNT, |entry, _, spare| {
        entry[3] |= spare;
        entry[0] += spare.count_ones() as u8;
    });
    let one_of_all = for_rows("one of all counted", WRONG_COUNT, |entry, _, spare| {
        entry[3] |= spare;
        entry[0] += 1;
    });
    let one = [0, 1].map(|end| {
        for_rows("one set and counted", WRONG_COUNT, |entry, _, spare| {
            entry[3] |= ends(spare)[end];
            entry[0] += 1;
        })
    });
    all.into_iter()
        .chain(one_of_all)
        .chain(one.into_iter().flatten())
        .collect()
}

/// The first sector of a track, one of the second byte, or the last.
fn sector_of(part: usize, sectors: u8) -> u8 {
    [0, 9, sectors - 1][part]
}

/// Flips that sector's bit; gives whether it is 1 now.
fn flip(part: usize, entry: &mut [u8; 4], sectors: u8) -> bool {
    let sector = sector_of(part, sectors);
    let (byte, bit) = (1 + usize::from(sector / 8), 1 << (sector % 8));
    entry[byte] ^= bit;
    entry[byte] & bit != 0
}

/// A sector's bit that is wrong beside spare bits: it alone is named (02, §3).
fn wrong_bit_cases() -> Vec<Case> {
    let mut cases = Vec::new();
    for part in 0..3 {
        let owed: &Owed =
            &move |track, sectors| Answer::fault(8, track, sector_of(part, sectors), 255);
        cases.extend(for_rows("a wrong bit", owed, |entry, sectors, spare| {
            entry[3] |= spare;
            flip(part, entry, sectors);
        }));
        cases.extend(for_rows("and count", owed, |entry, sectors, spare| {
            entry[3] |= spare;
            match flip(part, entry, sectors) {
                true => entry[0] += 1,
                false => entry[0] -= 1,
            }
        }));
        // As many ones as before: a spare one is set for the one that is gone,
        // or all are set but one for the one too many.
        cases.extend(for_rows("for a spare", owed, |entry, sectors, spare| {
            let one = ends(spare)[part % 2];
            entry[3] |= match flip(part, entry, sectors) {
                true => spare & !one,
                false => one,
            };
        }));
    }
    cases
}

fn assert_owed(cases: Vec<Case>) {
    for case in cases {
        let image = case.image();
        assert_eq!(check(0, &case.sound), Answer::done(0, 0), "{}", case.what);
        assert_eq!(check(0, &image), case.owed, "{}", case.what);
        assert_eq!(accepted(0, &image), case.owed.number == 0, "{}", case.what);
    }
}

/// "Images refused with 8 only for these bits are now accepted."
#[test]
fn set_with_a_right_count_they_are_accepted() {
    assert_owed(set_cases());
    for image in [fresh(), half_used()] {
        for byte in [0xFF, 0xAA, 0x55, 0x80] {
            let image = with_spare(&image, |_| byte);
            assert_eq!(check(0, &image), Answer::done(0, 0), "{byte:02X}");
        }
    }
}

/// "Not counted": a count that counts them is as wrong as before.
#[test]
fn a_count_that_counts_them_is_wrong() {
    assert_owed(counted_cases());
}

#[test]
fn a_wrong_bit_beside_them_is_wrong() {
    assert_owed(wrong_bit_cases());
}

/// "Source document 000 itself shows a 21-sector track as 15 FF FF FF."
#[test]
fn the_entry_of_document_000() {
    let mut image = fresh();
    assert_eq!(*entry(&mut image, 1), [0x15, 0xFF, 0xFF, 0x1F]);
    *entry(&mut image, 1) = [0x15, 0xFF, 0xFF, 0xFF];
    assert_eq!(check(0, &image), Answer::done(0, 0));
    *entry(&mut image, 2) = [0x15, 0xFF, 0xFF, 0xFF];
    assert_eq!(check(0, &image), Answer::done(0, 0));
    assert!(accepted(0, &image));
    *entry(&mut image, 2) = [0x18, 0xFF, 0xFF, 0xFF];
    assert_eq!(check(0, &image), Answer::fault(8, 2, 255, 255));
}

// --- The calls ------------------------------------------------------------

/// Document 01's example of a store, on a disk with all spare bits set.
#[test]
fn a_store_and_a_scratch_change_no_other_bit() {
    let start = with_spare(&fresh(), |_| 0xFF);
    let mut image = start.clone();
    assert_eq!(store(0, &mut image, b"CODE", 2, &[7; 300]).number, 0);
    assert_eq!(*entry(&mut image, 17), [0x13, 0xFC, 0xFF, 0xFF]);
    let mut plain = fresh();
    assert_eq!(store(0, &mut plain, b"CODE", 2, &[7; 300]).number, 0);
    assert_eq!(*entry(&mut plain, 17), [0x13, 0xFC, 0xFF, 0x1F]);
    assert!(image == with_spare(&plain, |_| 0xFF));
    assert_eq!(scratch(0, &mut image, b"CODE"), Answer::done(300, 2));
    assert_eq!(*entry(&mut image, 17), [0x15, 0xFF, 0xFF, 0xFF]);
    assert!(image == start);
}

/// They are no room: 664 sectors are free off track 18, whatever they say.
#[test]
fn the_largest_file_takes_none_of_them() {
    let start = with_spare(&fresh(), |_| 0xFF);
    let mut image = start.clone();
    let data: Vec<u8> = (0..168_657u32).map(|at| (at % 251) as u8).collect();
    assert_eq!(store(0, &mut image, b"BIG", 1, &data), Answer::refusal(15));
    assert!(image == start);
    let done = Answer::done(168_656, 664);
    assert_eq!(store(0, &mut image, b"BIG", 1, &data[1..]), done);
    for track in (1..=35).filter(|track| *track != 18) {
        assert_eq!(*entry(&mut image, track), [0, 0, 0, mask(track)], "{track}");
    }
    assert_eq!(*entry(&mut image, 18), [0x11, 0xFC, 0xFF, 0xFF]);
    assert_eq!(check(0, &image).number, 0);
    assert_eq!(store(0, &mut image, b"MORE", 1, b""), Answer::refusal(15));
    assert_eq!(scratch(0, &mut image, b"BIG"), done);
    assert!(image == start);
}

/// A disk with so many sectors left, the last ones in house order.
fn nearly_full(left: usize) -> Vec<u8> {
    let mut image = with_spare(&fresh(), |_| 0xFF);
    let length = 254 * (664 - left);
    assert_eq!(store(0, &mut image, b"FILL", 2, &vec![9; length]).number, 0);
    image
}

#[test]
fn the_last_free_sectors_are_counted_exactly() {
    for left in 0..=40 {
        let start = nearly_full(left);
        let mut image = start.clone();
        let data = vec![3; 254 * left + 1];
        assert_eq!(store(0, &mut image, b"NEW", 1, &data), Answer::refusal(15));
        assert!(image == start, "{left}");
        if left == 0 {
            continue;
        }
        let done = Answer::done(254 * left as u32, left as u16);
        assert_eq!(store(0, &mut image, b"NEW", 1, &data[1..]), done);
        assert_eq!(*entry(&mut image, 35), [0, 0, 0, 0b1111_1110], "{left}");
        assert_eq!(check(0, &image).number, 0, "{left}");
    }
}

/// "No empty slot and no free sector on track 18": its five spare bits are
/// none. The directory takes 18/18 last.
#[test]
fn the_directory_takes_none_of_them() {
    let mut image = with_spare(&fresh(), |_| 0xFF);
    for file in 0..144u8 {
        match file {
            135 => assert_eq!(*entry(&mut image, 18), [1, 0, 0, 0b1111_1100]),
            137 => assert_eq!(*entry(&mut image, 18), [0, 0, 0, 0b1111_1000]),
            _ => {}
        }
        assert_eq!(
            store(0, &mut image, &[file / 16 + 1, file], 1, b"X").number,
            0
        );
    }
    assert_eq!(check(0, &image).number, 0);
    let full = image.clone();
    assert_eq!(store(0, &mut image, b"MORE", 1, b"X"), Answer::refusal(14));
    assert!(image == full);
}

/// The rest of track 18 is a file's, and all slots are taken.
#[test]
fn a_file_on_track_18_leaves_none_of_them() {
    for seed in 0..20 {
        let mut image = generate(0, "crammed", seed).unwrap().image;
        image[91_394] = 0x41;
        let mut image = with_spare(&image, |_| 0xFF);
        assert_eq!(*entry(&mut image, 18), [0, 0, 0, 0b1111_1000], "{seed}");
        let names: Vec<Vec<u8>> = contents(0, &image)
            .unwrap()
            .files
            .into_iter()
            .map(|f| f.name)
            .collect();
        let name = fresh_name(&mut Rng::new(seed), false, &names);
        assert_eq!(
            store(0, &mut image, &name, 1, b""),
            Answer::refusal(14),
            "{seed}"
        );
    }
}

/// "Format still writes 0."
#[test]
fn format_writes_0_over_them() {
    let plain = fresh();
    for start in [
        with_spare(&plain, |_| 0xFF),
        vec![0xFF; IMAGE_BYTES],
        half_used(),
    ] {
        let mut image = with_spare(&start, |_| 0xFF);
        assert_eq!(format(0, &mut image, b"DISK", 1, 2), Answer::done(0, 0));
        assert!(image == plain);
    }
    for (track, sectors, spare) in ROWS.into_iter().filter(|row| row.0 != 18) {
        let free = [sectors, 0xFF, 0xFF, !spare];
        assert_eq!(*entry(&mut plain.clone(), track), free, "{track}");
    }
    assert_eq!(*entry(&mut plain.clone(), 18), [0x11, 0xFC, 0xFF, 0x07]);
}

// --- Wrong checks ---------------------------------------------------------

/// How a wrong check sees a track's entry: given the track, the entry, and the
/// one of the sound image.
type Sight = fn(u8, [u8; 4], [u8; 4]) -> [u8; 4];

/// The ones of some bits of an entry's last byte.
fn ones(byte: u8) -> u8 {
    byte.count_ones() as u8
}

/// An entry that no track can have.
const REFUSED: [u8; 4] = [0xFF; 4];

const WRONG_CHECKS: &[(&str, Sight)] = &[
    ("refuses them as before", |track, is, _| {
        match is[3] & mask(track) {
            0 => is,
            _ => REFUSED,
        }
    }),
    ("ignores three bits on every track", |track, is, _| {
        match is[3] & mask(track) & 0x1F {
            0 => is,
            _ => REFUSED,
        }
    }),
    ("ignores seven bits on every track", |_, is, right| {
        [is[0], is[1], is[2], is[3] & 1 | right[3] & 0xFE]
    }),
    ("ignores the last byte", |_, is, right| {
        [is[0], is[1], is[2], right[3]]
    }),
    ("counts them", |track, is, _| {
        let count = is[0].wrapping_sub(ones(is[3] & mask(track)));
        [count, is[1], is[2], is[3]]
    }),
    ("takes a count of them as well", |track, is, right| {
        match is[0].wrapping_sub(right[0]) == ones(is[3] & mask(track)) {
            true => [right[0], is[1], is[2], is[3]],
            false => is,
        }
    }),
    ("ignores the count beside them", |track, is, right| {
        match is[3] & mask(track) {
            0 => is,
            _ => [right[0], is[1], is[2], is[3]],
        }
    }),
    ("only compares the number of ones", |_, is, right| {
        match ones(is[1]) + ones(is[2]) + ones(is[3]) == is[0] {
            true => right,
            false => is,
        }
    }),
];

/// What a check that sees entries so says of a case.
fn seen(case: &Case, sight: Sight) -> Answer {
    let (mut image, mut sound) = (case.image(), case.sound.to_vec());
    for track in 1..=35 {
        let (is, right) = (*entry(&mut image, track), *entry(&mut sound, track));
        *entry(&mut image, track) = sight(track, is, right);
    }
    check(0, &image)
}

#[test]
fn wrong_checks_are_found() {
    let cases = [set_cases(), counted_cases(), wrong_bit_cases()];
    let cases: Vec<Case> = cases.into_iter().flatten().collect();
    let found = |sight: Sight| cases.iter().any(|case| seen(case, sight) != case.owed);
    assert!(!found(|_, is, _| is));
    for (name, sight) in WRONG_CHECKS {
        assert!(found(*sight), "a check that {name} was not found");
    }
}
