//! The count of a track's free sectors (01, The map, 18/0; 02, §4): on every
//! track, with every number of free sectors, and with chains that leave a
//! track and come back. Each disk is laid out here, in each layout, and each
//! answer follows from what was laid.

use independent::answer::Answer;
use independent::calls::{format, read, store};
use independent::check::check;
use independent::geometry::{Geometry, LAYOUTS};
use independent::naive::{
    accepted, contents, last_track, places, track_length, wrong_entry, Place,
};
use independent::rng::Rng;
use independent::sound::{map_offset, offset, slot_offset, spare_mask};

/// A formatted disk with one file for each chain, in the slots from 0 on. A
/// file's bytes are its sectors' numbers along the chain.
fn disk_with(layout: u32, chains: &[Vec<Place>]) -> Vec<u8> {
    let mut image = vec![0; Geometry::of(layout).unwrap().image_bytes()];
    assert_eq!(format(layout, &mut image, b"COUNTS", 0x30, 0x31).number, 0);
    for (slot, chain) in chains.iter().enumerate() {
        let at = slot_offset(&[1], slot);
        image[at + 2] = 0x82;
        (image[at + 3], image[at + 4]) = chain[0];
        image[at + 5..at + 21].fill(0xA0);
        image[at + 5] = b'A' + slot as u8;
        image[at + 0x1E..at + 0x20].copy_from_slice(&(chain.len() as u16).to_le_bytes());
        for (i, &place) in chain.iter().enumerate() {
            let (track, sector) = chain.get(i + 1).copied().unwrap_or((0, 255));
            image[offset(place.0, place.1)..][..256].fill(i as u8);
            image[offset(place.0, place.1)..][..2].copy_from_slice(&[track, sector]);
            take(layout, &mut image, place);
        }
    }
    image
}

/// Marks a free sector used.
fn take(layout: u32, image: &mut [u8], (track, sector): Place) {
    let at = map_offset(layout, track);
    let (byte, bit) = (at + 1 + usize::from(sector / 8), 1 << (sector % 8));
    assert_ne!(image[byte] & bit, 0, "{track}/{sector} is laid twice");
    (image[at], image[byte]) = (image[at] - 1, image[byte] & !bit);
}

fn flip(layout: u32, image: &mut [u8], (track, sector): Place) {
    image[map_offset(layout, track) + 1 + usize::from(sector / 8)] ^= 1 << (sector % 8);
}

/// Both tests say the same of an image.
fn expect(layout: u32, image: &[u8], owed: Answer) {
    assert_eq!(check(layout, image), owed);
    assert_eq!(accepted(layout, image), owed.number == 0);
    let place = (owed.number == 8).then_some((owed.place.track, owed.place.sector));
    assert_eq!(wrong_entry(layout, image), place);
}

/// The sectors of a track that a file may have on these disks.
fn room_on(track: u8) -> Vec<Place> {
    let from = if track == 18 { 2 } else { 0 };
    (from..track_length(track)).map(|s| (track, s)).collect()
}

/// The tracks that are laid in a layout: all, but of those that every layout has
/// some are enough in layouts 1 and 2.
fn tracks_of(layout: u32) -> Vec<u8> {
    match layout {
        0 => (1..=35).collect(),
        _ => vec![1, 18, 35, 36, 37, 38, 39, 40],
    }
}

/// For each track and each number of free sectors, three disks: the free ones
/// are the lowest, the highest, and any.
fn each_number(layout: u32, mut shown: impl FnMut(u8, u8, &mut Vec<u8>)) {
    let rng = &mut Rng::new(4);
    for track in tracks_of(layout) {
        let room = room_on(track);
        for free in 0..=room.len() {
            for turn in 0..3 {
                let mut chain = room.clone();
                match turn {
                    0 => chain.reverse(),
                    1 => {}
                    _ => rng.shuffle(&mut chain),
                }
                chain.truncate(room.len() - free);
                let chains: &[Vec<Place>] = if chain.is_empty() { &[] } else { &[chain] };
                shown(track, free as u8, &mut disk_with(layout, chains));
            }
        }
    }
}

/// The right count is accepted, and each of the 255 others gives 8 with 255,
/// with bits past the last sector and without.
#[test]
fn every_count_of_every_number_of_free_sectors() {
    // 21, 19, 18 and 17 sectors, each with one number more than sectors; two
    // of track 18 are never free.
    assert_eq!(every_count(0), 3 * (683 + 35 - 2));
    for layout in [1, 2] {
        assert_eq!(every_count(layout), 3 * (21 + 19 + 6 * 17 + 8 - 2));
    }
}

/// Gives how many disks were laid.
fn every_count(layout: u32) -> usize {
    let mut disks = 0;
    each_number(layout, |track, free, image| {
        disks += 1;
        let at = map_offset(layout, track);
        for spare in [0, spare_mask(track)] {
            image[at + 3] |= spare;
            assert_eq!(image[at], free);
            for count in 0..=255 {
                image[at] = count;
                let owed = match count == free {
                    true => Answer::done(0, 0),
                    false => Answer::fault(8, track, 255, 255),
                };
                assert_eq!(check(layout, image), owed, "track {track}, {free} free");
            }
            image[at] = free;
        }
        assert!(accepted(layout, image), "track {track}, {free} free");
    });
    disks
}

/// A wrong bit is named, whether the count stays, follows it, or is another.
#[test]
fn every_bit_beside_every_number_of_free_sectors() {
    for layout in LAYOUTS {
        every_bit(layout);
    }
}

fn every_bit(layout: u32) {
    each_number(layout, |track, free, image| {
        let at = map_offset(layout, track);
        for sector in 0..track_length(track) {
            let byte = image[at + 1 + usize::from(sector / 8)];
            let was_free = byte & (1 << (sector % 8)) != 0;
            flip(layout, image, (track, sector));
            let followed = if was_free { free - 1 } else { free + 1 };
            for count in [free, followed, free ^ 8, free ^ 16, 0, 255] {
                image[at] = count;
                assert_eq!(check(layout, image), Answer::fault(8, track, sector, 255));
            }
            flip(layout, image, (track, sector));
            image[at] = free;
        }
    });
}

/// The only room is on one track: a store takes it all, from the lowest sector
/// up, and one sector more does not fit.
#[test]
fn a_store_takes_every_number_of_free_sectors() {
    for layout in LAYOUTS {
        every_store(layout);
    }
}

fn every_store(layout: u32) {
    let rng = &mut Rng::new(5);
    for track in tracks_of(layout).into_iter().filter(|track| *track != 18) {
        for free in 0..=usize::from(track_length(track)) {
            let mut own = room_on(track);
            rng.shuffle(&mut own);
            let mut left = own.split_off(own.len() - free);
            left.sort();
            let others = places(layout).filter(|place| place.0 != track && place.0 != 18);
            let mut image = disk_with(layout, &[others.chain(own).collect()]);
            image[map_offset(layout, track) + 3] |= spare_mask(track);
            assert!(accepted(layout, &image));
            let full = store(layout, &mut image, b"NEW", 2, &vec![7; 254 * free + 1]);
            assert_eq!(full, Answer::refusal(15), "track {track}, {free} free");
            if free > 0 {
                let done = store(layout, &mut image, b"NEW", 2, &vec![7; 254 * free]);
                assert_eq!(done, Answer::done(254 * free as u32, free as u16));
                let held = contents(layout, &image).expect("an accepted image");
                assert_eq!(held.files[1].chain, left, "track {track}");
                assert_eq!(image[map_offset(layout, track)], 0);
                assert_eq!(image[map_offset(layout, track) + 3], spare_mask(track));
            }
        }
    }
}

// --- Chains that leave a track and come back ------------------------------

/// So many sectors of two tracks in turn, `step` at a time, from sector
/// `from` on.
fn zigzag(one: u8, two: u8, from: u8, step: u8, sectors: u8) -> Vec<Place> {
    let turns = (from..from + sectors).step_by(usize::from(step));
    let end = from + sectors;
    let part = move |track, at: u8| (at..end.min(at + step)).map(move |s| (track, s));
    turns
        .flat_map(|at| part(one, at).chain(part(two, at)))
        .collect()
}

/// One sector of each track in turn.
fn across(sector: u8, tracks: impl Iterator<Item = u8>) -> Vec<Place> {
    tracks.map(|track| (track, sector)).collect()
}

/// Disks by the chains of their files.
fn laid_chains(layout: u32) -> Vec<Vec<Vec<Place>>> {
    let end = last_track(layout);
    let last = |track: u8| (track, track_length(track) - 1);
    let by_last: Vec<Place> = (1..=end).map(last).filter(|p| p.0 != 18).collect();
    vec![
        vec![zigzag(1, 2, 0, 1, 21)],
        vec![zigzag(17, 19, 0, 3, 19)],
        vec![zigzag(end, 1, 0, 1, 17), zigzag(30, 31, 0, 2, 17)],
        vec![zigzag(18, 17, 2, 1, 17)],
        vec![zigzag(17, 18, 2, 4, 17), vec![(1, 1)]],
        // Every sector on another track, from the last to 1 and around again.
        vec![[across(16, 1..=end), across(3, 1..=end)].concat()],
        vec![across(2, (1..=end).rev()), across(3, 1..=end)],
        vec![by_last.clone(), across(0, (1..=end).filter(|t| *t != 18))],
        // Two files that take turns on one track, and one that ends where it
        // began.
        vec![
            (0..20).step_by(2).map(|s| (9, s)).collect(),
            (1..20).step_by(2).map(|s| (9, s)).collect(),
            vec![(9, 20), (10, 0), (11, 0), (10, 1), (8, 0)],
            vec![(8, 1), (7, 0), (8, 2)],
        ],
        vec![vec![(end, 16), (1, 0), (end, 0), (1, 20), (end, 8)]],
        vec![
            vec![(20, 0)],
            vec![(20, 18)],
            vec![(20, 9), (21, 9), (20, 10)],
        ],
    ]
}

fn in_each_layout() -> impl Iterator<Item = (u32, Vec<Vec<Place>>)> {
    let of = |layout| laid_chains(layout).into_iter().map(move |c| (layout, c));
    LAYOUTS.into_iter().flat_map(of)
}

/// Each disk is accepted, and each sector of it alone is named when its bit is
/// wrong; each file is read along its chain.
#[test]
fn chains_that_come_back() {
    for (layout, chains) in in_each_layout() {
        let mut image = disk_with(layout, &chains);
        expect(layout, &image, Answer::done(0, 0));
        for place in places(layout) {
            flip(layout, &mut image, place);
            expect(layout, &image, Answer::fault(8, place.0, place.1, 255));
            flip(layout, &mut image, place);
        }
        for (slot, chain) in chains.iter().enumerate() {
            let mut out = vec![0xEE; 254 * chain.len()];
            let answer = read(layout, &image, &[b'A' + slot as u8], &mut out);
            let (length, sectors) = (254 * chain.len() as u32, chain.len() as u16);
            assert_eq!(answer, Answer::done(length, sectors));
            let numbers = (0..chain.len()).flat_map(|i| [i as u8; 254]);
            assert!(out.into_iter().eq(numbers), "chain {slot}");
        }
    }
}

/// A link to any sector that the chain has had gives 3 at the link, however
/// often the chain has left that track meanwhile.
#[test]
fn a_link_back_after_many_tracks() {
    for (layout, chains) in in_each_layout() {
        let sound = disk_with(layout, &chains);
        for (slot, chain) in chains.iter().enumerate() {
            for (link, &holder) in chain.iter().enumerate() {
                for target in [chain[0], chain[link / 2], chain[link]] {
                    let mut image = sound.clone();
                    let at = offset(holder.0, holder.1);
                    (image[at], image[at + 1]) = target;
                    let owed = Answer::fault(3, holder.0, holder.1, slot as u8);
                    assert_eq!(check(layout, &image), owed);
                }
            }
        }
    }
}
