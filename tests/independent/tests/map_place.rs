//! 02, §3: "The place's sector becomes the lowest one of that track whose bit
//! is wrong, and 255 only if all those bits are right. Every call that passes on
//! answer 8 gives the new place. The sleeve listing doesn't change." Wrong rules
//! for the place, each found, are in tests/map_rules.rs.

mod map_cases;

use independent::answer::Answer;
use independent::calls::{read, scratch, store, tell, Told};
use independent::check::check;
use independent::damage::FAULTS;
use independent::generate::{generate, ground, kinds, planted};
use independent::geometry::{IMAGE_BYTES, LAYOUTS};
use independent::host::block_of;
use independent::listing::sleeve_output;
use independent::naive::{accepted, last_track, places, track_length, wrong_entry};
use independent::request::{lent, perform, Call, Independent, Request};
use independent::rng::{for_layouts, for_seeds, seeds, Rng};
use independent::sound::{map_offset, spare_mask};
use map_cases::{disk, entry, with_entry, BY_HAND, RIGHT, TWO_TRACKS};
use std::collections::BTreeSet;

/// Flips a bit of a track's entry; gives whether it is 1 now.
fn flip(image: &mut [u8], track: u8, bit: u8) -> bool {
    let byte = &mut entry(image, track)[1 + usize::from(bit / 8)];
    *byte ^= 1 << (bit % 8);
    *byte >> (bit % 8) & 1 == 1
}

/// The check's answer; the plain test must find the same place.
fn verdict_in(layout: u32, image: &[u8]) -> Answer {
    let answer = check(layout, image);
    let place = wrong_entry(layout, image).map(|(track, sector)| eight(track, sector));
    assert_eq!(place.unwrap_or(Answer::done(0, 0)), answer);
    assert_eq!(accepted(layout, image), answer.number == 0);
    answer
}

fn verdict(image: &[u8]) -> Answer {
    verdict_in(0, image)
}

fn eight(track: u8, sector: u8) -> Answer {
    Answer::fault(8, track, sector, 255)
}

// --- By hand --------------------------------------------------------------

#[test]
fn entries_worked_out_by_hand() {
    let sound = disk();
    for (track, right) in RIGHT {
        assert_eq!(*entry(&mut sound.clone(), track), right, "{track}");
    }
    assert_eq!(verdict(&sound), Answer::done(0, 0));
    for &(track, bytes, sector) in BY_HAND {
        let image = with_entry(&sound, track, bytes);
        assert_eq!(
            verdict(&image),
            eight(track, sector),
            "{track}: {bytes:02X?}"
        );
    }
}

/// Bits past the last sector alone are still no fault (02, §5).
#[test]
fn spare_bits_alone_are_never_named() {
    for (track, right) in RIGHT {
        let mut image = disk();
        for bit in track_length(track)..24 {
            flip(&mut image, track, bit);
            assert_eq!(verdict(&image), Answer::done(0, 0), "{track}: {bit}");
        }
        let all = [right[0], right[1], right[2], right[3] | spare_mask(track)];
        assert_eq!(*entry(&mut image, track), all);
    }
}

/// The lowest track comes first, whatever the sectors.
#[test]
fn of_two_tracks_the_lower_is_named() {
    for (entries, (track, sector)) in TWO_TRACKS {
        let mut image = disk();
        for (track, bytes) in entries {
            image = with_entry(&image, *track, *bytes);
        }
        assert_eq!(verdict(&image), eight(*track, *sector), "{entries:02X?}");
    }
}

// --- All sectors ----------------------------------------------------------

/// Disks of which many sectors are free and many owned, spare bits of every
/// sort among them.
fn disks() -> Vec<Vec<u8>> {
    let generated = ["scattered", "track-18", "full-disk"];
    let generated = generated.map(|kind| generate(0, kind, 3).unwrap().image);
    [disk()].into_iter().chain(generated).collect()
}

/// Each of the 683 sectors, with the count as it was, and with one that
/// follows, beside no spare bit and beside all.
#[test]
fn one_wrong_bit_gives_exactly_its_sector() {
    for sound in disks() {
        for (track, sector) in places(0) {
            let mut image = sound.clone();
            let free = flip(&mut image, track, sector);
            assert_eq!(verdict(&image), eight(track, sector));
            let count = &mut entry(&mut image, track)[0];
            *count = match free {
                true => *count + 1,
                false => *count - 1,
            };
            assert_eq!(verdict(&image), eight(track, sector));
            for byte in [0x00, 0xFF] {
                let last = &mut entry(&mut image, track)[3];
                *last = *last & !spare_mask(track) | byte & spare_mask(track);
                assert_eq!(verdict(&image), eight(track, sector));
            }
        }
    }
}

#[test]
fn of_two_wrong_bits_the_lower_is_named() {
    let mut pairs = 0;
    for mut image in disks() {
        for (track, lower) in places(0) {
            for higher in lower + 1..track_length(track) {
                flip(&mut image, track, lower);
                flip(&mut image, track, higher);
                assert_eq!(check(0, &image), eight(track, lower), "{higher}");
                flip(&mut image, track, lower);
                flip(&mut image, track, higher);
                pairs += 1;
            }
        }
        assert_eq!(verdict(&image), Answer::done(0, 0));
    }
    // 17 tracks of 210 pairs, 7 of 171, 6 of 153 and 5 of 136, on 4 disks.
    assert_eq!(pairs, 4 * 6_365);
}

/// Every wrong count of every track, with all bits right.
#[test]
fn a_wrong_count_alone_gives_255() {
    for mut image in disks() {
        for track in 1..=35 {
            let right = entry(&mut image, track)[0];
            for count in (0..=255).filter(|count| *count != right) {
                entry(&mut image, track)[0] = count;
                assert_eq!(check(0, &image), eight(track, 255), "{count}");
            }
            entry(&mut image, track)[0] = right;
        }
    }
}

// --- Every call that passes it on -----------------------------------------

fn named(name: &[u8]) -> Vec<u8> {
    name.to_vec()
}

fn read_of(name: &[u8], room: usize) -> Call {
    let name = named(name);
    Call::Read { name, room }
}

fn store_of(name: &[u8], kind: u32, length: usize) -> Call {
    let (name, data) = (named(name), vec![7; length]);
    Call::Store { name, kind, data }
}

fn scratch_of(name: &[u8]) -> Call {
    let name = named(name);
    Call::Scratch { name }
}

fn tell_of(position: usize, room: usize) -> Call {
    Call::Tell { position, room }
}

/// A host call's number and block. A refusal leaves image and output.
fn host_answer(image: &[u8], call: Call) -> (u32, Vec<u8>) {
    let mut after = image.to_vec();
    let request = Request::of(0, call);
    let reply = perform(&Independent, &mut after, &request).unwrap();
    if reply.number != 0 {
        assert!(after == image, "{}", request.shown());
        assert!(reply.out == lent(reply.out.len()), "{}", request.shown());
    }
    (reply.number, reply.block)
}

/// All calls that run the check give this answer, in both forms.
fn every_call_gives(image: &[u8], owed: Answer) {
    let (mut after, mut out) = (image.to_vec(), lent(300));
    assert_eq!(check(0, image), owed);
    assert_eq!(read(0, image, b"CODE", &mut out), owed);
    assert_eq!(tell(0, image, 0), (owed, Told::default()));
    assert_eq!(store(0, &mut after, b"NEW", 2, &[7; 300]), owed);
    assert_eq!(scratch(0, &mut after, b"CODE"), owed);
    assert!(after == image && out == lent(300));
    let owed = (u32::from(owed.number), block_of(&owed).to_vec());
    for call in [
        Call::Check,
        read_of(b"CODE", 300),
        store_of(b"NEW", 2, 300),
        scratch_of(b"CODE"),
        tell_of(0, 25),
    ] {
        assert_eq!(host_answer(image, call), owed);
    }
}

#[test]
fn every_call_gives_the_new_place() {
    let sound = disk();
    for &(track, bytes, sector) in BY_HAND {
        every_call_gives(&with_entry(&sound, track, bytes), eight(track, sector));
    }
    for (track, sector) in places(0) {
        let mut image = sound.clone();
        flip(&mut image, track, sector);
        every_call_gives(&image, eight(track, sector));
    }
}

/// The answer block, byte by byte.
#[test]
fn the_block_holds_track_sector_and_255() {
    let image = with_entry(&disk(), 17, [0x13, 0xFE, 0xFF, 0x0F]);
    let block = vec![17, 1, 255, 0, 0, 0, 0, 0, 0];
    assert_eq!(host_answer(&image, Call::Check), (8, block));
    let image = with_entry(&disk(), 35, [0x10, 0xFF, 0xFF, 0x01]);
    let block = vec![35, 255, 255, 0, 0, 0, 0, 0, 0];
    assert_eq!(host_answer(&image, scratch_of(b"CODE")), (8, block));
}

// --- The order of two faults ----------------------------------------------

/// On a sound image a call gives a number; with a wrong bit besides, it gives
/// 8 and the sector if the number is one of 11 to 16, and else the same.
fn beside_a_wrong_bit(sound: &[u8], call: Call, number: u32) {
    let alone = host_answer(sound, call.clone());
    assert_eq!(alone.0, number, "{call:?}");
    for (track, sector) in [(1, 20), (17, 1), (18, 0), (35, 16)] {
        let mut image = sound.to_vec();
        if image.len() == IMAGE_BYTES {
            flip(&mut image, track, sector);
        }
        let owed = match number {
            11..=16 => (8, block_of(&eight(track, sector)).to_vec()),
            _ => alone.clone(),
        };
        assert_eq!(host_answer(&image, call.clone()), owed, "{call:?}");
    }
}

/// "1, then 9, 10, then 2 to 8 in check order, then 11, 12, 13, 14, 15, 16."
#[test]
fn eight_comes_before_eleven_to_sixteen() {
    let sound = disk();
    let mut version = sound.clone();
    version[91_394] = 0x42;
    let mut full = sound.clone();
    for file in 2..144u8 {
        assert_eq!(
            store(0, &mut full, &[file / 16 + 1, file], 1, b"").number,
            0
        );
    }
    beside_a_wrong_bit(&version, store_of(b"NEW", 1, 1), 11);
    beside_a_wrong_bit(&version, scratch_of(b"CODE"), 11);
    beside_a_wrong_bit(&sound, store_of(b"CODE", 1, 1), 12);
    beside_a_wrong_bit(&sound, read_of(b"NOT THERE", 1), 13);
    beside_a_wrong_bit(&sound, scratch_of(b"NOT THERE"), 13);
    beside_a_wrong_bit(&sound, tell_of(2, 25), 13);
    beside_a_wrong_bit(&full, store_of(b"NEW", 1, 1), 14);
    beside_a_wrong_bit(&sound, store_of(b"NEW", 1, 168_657), 15);
    beside_a_wrong_bit(&sound, read_of(b"CODE", 299), 16);
    beside_a_wrong_bit(&sound, tell_of(0, 24), 16);
}

#[test]
fn one_nine_and_ten_come_before_eight() {
    let sound = disk();
    beside_a_wrong_bit(&sound[1..], Call::Check, 1);
    for call in [read_of(b"", 300), store_of(b"", 1, 1), scratch_of(b"")] {
        beside_a_wrong_bit(&sound[1..], call.clone(), 1);
        beside_a_wrong_bit(&sound, call, 9);
    }
    beside_a_wrong_bit(&sound, store_of(b"NEW", 3, 1), 10);
}

/// An earlier fault of the check is the answer still, with its own place.
#[test]
fn two_to_seven_come_before_eight() {
    let mut met = BTreeSet::new();
    for_seeds("two_to_seven_come_before_eight", 10, |_, rng| {
        for (at, (name, _)) in FAULTS.iter().enumerate() {
            let made = planted(0, rng, at);
            let (mut image, owed) = (made.image, made.expected.unwrap());
            if owed.number == 8 {
                continue;
            }
            let (track, sector) = rng.pick(&places(0).collect::<Vec<_>>());
            flip(&mut image, track, sector);
            assert_eq!(check(0, &image), owed, "{name}");
            assert_eq!(wrong_entry(0, &image), None, "{name}");
            met.insert(owed.number);
        }
    });
    assert_eq!(met, (2..=7).collect());
}

// --- The sleeve listing ---------------------------------------------------

/// Its text is of directory and counts; it never gives 8.
#[test]
fn the_listing_does_not_change() {
    let sound = disk();
    let text = "434F444553A0A0A0A0A0A0A0A0A0A0A03031\n\
                821100434F4445A0A0A0A0A0A0A0A0A0A0A0A00200\n\
                8211044C415354A0A0A0A0A0A0A0A0A0A0A0A00100\n\
                0295\n";
    assert_eq!(sleeve_output(None, &sound), text.as_bytes());
    for (track, sector) in places(0) {
        let mut image = sound.clone();
        flip(&mut image, track, sector);
        assert_eq!(sleeve_output(None, &image), text.as_bytes());
        let (number, block) = host_answer(&image, Call::Listing { room: 128 });
        assert_eq!(
            (number, &block[..]),
            (0, &[0, 0, 255, 128, 0, 0, 0, 0, 0][..])
        );
    }
    let image = with_entry(&sound, 1, [0x14, 0xFE, 0xFF, 0x1F]);
    assert_eq!(
        sleeve_output(None, &image),
        text.replace("0295", "0294").as_bytes()
    );
}

// --- The generator --------------------------------------------------------

/// On all bytes the plain test finds a place exactly where the check gives 8,
/// and the same one.
#[test]
fn both_tests_name_the_same_place() {
    let (mut sectors, mut counts) = (0, 0);
    for_layouts("both_tests_name_the_same_place", 30, |layout, seed, rng| {
        for kind in kinds() {
            let image = generate(layout, &kind, seed).unwrap().image;
            let answer = check(layout, &image);
            let owed = (answer.number == 8).then_some((answer.place.track, answer.place.sector));
            assert_eq!(wrong_entry(layout, &image), owed, "{kind}");
        }
        let sound = ground(layout, rng).image;
        for _ in 0..50 {
            let mut image = sound.clone();
            spoil_map(layout, rng, &mut image);
            let answer = verdict_in(layout, &image);
            counts += usize::from(answer == eight(answer.place.track, 255));
            sectors += usize::from(answer.number == 8 && answer.place.sector != 255);
        }
    });
    if seeds(30).len() >= 30 {
        assert!(sectors > 600 && counts > 600, "{sectors}, {counts}");
    }
}

/// Flips one to four bits of the map's entries, of counts and of bitmaps.
fn spoil_map(layout: u32, rng: &mut Rng, image: &mut [u8]) {
    let last = usize::from(last_track(layout));
    for _ in 0..rng.range(1, 4) {
        let (track, bit) = (rng.range(1, last) as u8, 1 << rng.below(8));
        image[map_offset(layout, track) + rng.below(4)] ^= bit;
    }
}

/// Planted faults name sectors 0 to 20, each marked free wrongly and marked
/// used wrongly, and every track with a sector and with 255.
#[test]
fn planted_faults_name_every_place() {
    let maps: Vec<usize> = (0..FAULTS.len())
        .filter(|at| FAULTS[*at].0.starts_with("8-"))
        .collect();
    assert_eq!(maps.len(), 22);
    let mut places = LAYOUTS.map(|_| (BTreeSet::new(), BTreeSet::new()));
    for_layouts("planted_faults_name_every_place", 120, |layout, _, rng| {
        let (sectors, tracks) = &mut places[layout as usize];
        for &at in &maps {
            let made = planted(layout, rng, at);
            let place = made.expected.unwrap().place;
            assert_eq!(place.slot, 255);
            tracks.insert((place.track, place.sector == 255));
            if place.sector != 255 {
                let byte = map_offset(layout, place.track) + 1 + usize::from(place.sector / 8);
                let free = made.image[byte] >> (place.sector % 8) & 1 == 1;
                sectors.insert((place.sector, free));
            }
        }
    });
    if seeds(120).len() >= 120 {
        for (layout, (sectors, tracks)) in LAYOUTS.into_iter().zip(places) {
            let all = 2 * usize::from(last_track(layout));
            assert_eq!((tracks.len(), sectors.len()), (all, 2 * 21));
        }
    }
}
