//! 02, §8: "Layouts 1 and 2 are 196,608 bytes, 768 sectors, tracks 36-40 with 17
//! each; their map entries stand at $C0 + 4(t-36) for layout 1 and $AC + 4(t-36)
//! for layout 2." Examples worked out by hand from that. The numbers 17 and 1,
//! and the listing, are in tests/layout_numbers.rs; wrong libraries in
//! tests/layout_cheats.rs.

use independent::answer::Answer;
use independent::calls::{format, read, scratch, store, tell};
use independent::check::check;
use independent::geometry::{Geometry, IMAGE_BYTES, IMAGE_BYTES_40};
use independent::naive::{accepted, contents, places, wrong_entry};
use independent::sound::{offset, slot_offset};

/// Where 18/0 starts in every image.
const MAP: usize = 91_392;

/// Where the entries of tracks 36 to 40 stand in 18/0, by layout, and the entry
/// of each of these tracks while it is empty.
const ENTRIES: [(u32, std::ops::Range<usize>); 2] = [(1, 0xC0..0xD4), (2, 0xAC..0xC0)];
const EMPTY: [u8; 4] = [0x11, 0xFF, 0xFF, 0x01];

/// The largest file of a disk of 40 tracks: 749 sectors.
const BIGGEST: usize = 190_246;

fn fresh(layout: u32) -> Vec<u8> {
    let size = if layout == 0 {
        IMAGE_BYTES
    } else {
        IMAGE_BYTES_40
    };
    let mut image = vec![0xEE; size];
    let answer = format(layout, &mut image, b"CODES", 0x30, 0x31);
    assert_eq!(answer, Answer::done(0, 0));
    image
}

/// A fresh disk whose sectors in house order are taken but for the last ones.
fn fresh_but(layout: u32, left: usize) -> Vec<u8> {
    let mut image = fresh(layout);
    let data = vec![0x33; 254 * (749 - left)];
    assert_eq!(store(layout, &mut image, b"FILL", 2, &data).number, 0);
    image
}

/// The entry of a track from 36 on.
fn entry(layout: u32, image: &mut [u8], track: u8) -> &mut [u8] {
    let start = [0xC0, 0xAC][layout as usize - 1] + 4 * (usize::from(track) - 36);
    &mut image[MAP + start..MAP + start + 4]
}

fn link(image: &[u8], track: u8, sector: u8) -> &[u8] {
    &image[offset(track, sector)..][..2]
}

/// The check's answer; the naive test says the same, and names the same place.
fn verdict(layout: u32, image: &[u8]) -> Answer {
    let answer = check(layout, image);
    assert_eq!(accepted(layout, image), answer.number == 0);
    let place = (answer.place.track, answer.place.sector);
    let owed = (answer.number == 8).then_some(place);
    assert_eq!(wrong_entry(layout, image), owed);
    answer
}

// --- Tracks and sectors ---------------------------------------------------

#[test]
fn sector_numbers_of_the_extra_tracks() {
    for layout in [1, 2] {
        let geometry = Geometry::of(layout).unwrap();
        assert_eq!((geometry.tracks, geometry.sectors), (40, 768));
        assert_eq!(geometry.image_bytes(), 196_608);
        let numbers = [
            (1, 0, 0),
            (18, 0, 357),
            (35, 16, 682),
            (36, 0, 683),
            (36, 16, 699),
            (37, 0, 700),
            (38, 0, 717),
            (39, 0, 734),
            (40, 0, 751),
            (40, 16, 767),
        ];
        for (track, sector, number) in numbers {
            assert_eq!(geometry.number(track, sector), Some(number));
            assert_eq!(places(layout).nth(number), Some((track, sector)));
        }
        for (track, sector) in [(0, 0), (36, 17), (40, 17), (41, 0), (42, 0), (255, 0)] {
            assert_eq!(geometry.number(track, sector), None, "{track}/{sector}");
        }
        assert_eq!(places(layout).count(), 768);
    }
    assert_eq!(Geometry::of(0).unwrap().number(36, 0), None);
    assert_eq!((places(0).count(), places(3).count()), (683, 0));
}

/// "House order goes on to 40": tracks 17 down to 1, then 19 up to 40.
#[test]
fn house_order_of_40_tracks() {
    for layout in [1, 2] {
        let order: Vec<u8> = Geometry::of(layout).unwrap().house_tracks().collect();
        let wanted: Vec<u8> = (1..=17).rev().chain(19..=40).collect();
        assert_eq!(order, wanted);
    }
}

// --- Format ---------------------------------------------------------------

/// "Format fills them, giving 749 free off track 18." The other layout's entries
/// are other bytes, so they are zero.
#[test]
fn formatted_disks() {
    let label = MAP + 0x90..MAP + 0xAC;
    let old = fresh(0);
    for (layout, entries) in ENTRIES {
        let image = fresh(layout);
        assert_eq!(image.len(), 196_608);
        let mut expected = old.clone();
        expected.resize(196_608, 0);
        expected[MAP + entries.start..MAP + entries.end].copy_from_slice(&EMPTY.repeat(5));
        assert!(image == expected, "layout {layout}");
        assert_eq!(image[label.clone()], old[label.clone()]);
        assert_eq!(contents(layout, &image).unwrap().free_off_track_18(), 749);
        assert_eq!(verdict(layout, &image), Answer::done(0, 0));
    }
    let mut others = fresh(1)[MAP + 0xAC..MAP + 0xC0].to_vec();
    others.extend(&fresh(2)[MAP + 0xC0..MAP + 0xD4]);
    others.extend(&old[MAP + 0xAC..MAP + 0xD4]);
    assert_eq!(others, [0; 80]);
}

/// An image formatted in one layout shows in the other at track 36: its entry
/// there says that no sector is free.
#[test]
fn a_fresh_disk_in_another_layout() {
    for (layout, other) in [(1, 2), (2, 1)] {
        let image = fresh(layout);
        assert_eq!(verdict(other, &image), Answer::fault(8, 36, 0, 255));
        assert_eq!(verdict(0, &image), Answer::refusal(1));
        assert_eq!(verdict(0, &image[..IMAGE_BYTES]), Answer::done(0, 0));
        assert_eq!(verdict(layout, &fresh(0)), Answer::refusal(1));
    }
}

// --- Store and scratch ----------------------------------------------------

/// With all of tracks 1 to 17 and 19 to 35 taken, the next file goes to 36/0.
#[test]
fn a_store_on_the_extra_tracks() {
    for layout in [1, 2] {
        let full = fresh_but(layout, 85);
        let mut image = full.clone();
        assert_eq!(*entry(layout, &mut image, 36), EMPTY);
        let data: Vec<u8> = (0..300).map(|at| at as u8).collect();
        let done = store(layout, &mut image, b"CODE", 2, &data);
        assert_eq!(done, Answer::done(300, 2));
        assert_eq!(link(&image, 36, 0), [0x24, 0x01]);
        assert_eq!(link(&image, 36, 1), [0x00, 0x2F]);
        assert_eq!(*entry(layout, &mut image, 36), [0x0F, 0xFC, 0xFF, 0x01]);
        assert_eq!(*entry(layout, &mut image, 37), EMPTY);
        let told = tell(layout, &image, 1).1;
        assert_eq!((told.track, told.sector, told.count), (36, 0, 2));
        let mut out = [0; 300];
        assert_eq!(
            read(layout, &image, b"CODE", &mut out),
            Answer::done(300, 2)
        );
        assert_eq!(out[..], data[..]);
        assert_eq!(verdict(layout, &image), Answer::done(0, 0));
        // It is given back as zeros, and used again.
        assert_eq!(scratch(layout, &mut image, b"CODE"), Answer::done(300, 2));
        assert!(image == full);
        assert_eq!(store(layout, &mut image, b"NEXT", 2, &data).number, 0);
        assert_eq!(link(&image, 36, 0), [0x24, 0x01]);
    }
}

/// A file that goes from 35/16 over track 36 to 37/0.
#[test]
fn a_store_across_three_tracks() {
    for layout in [1, 2] {
        let mut image = fresh_but(layout, 86);
        let done = store(layout, &mut image, b"LONG", 1, &[7; 19 * 254]);
        assert_eq!(done, Answer::done(19 * 254, 19));
        let mut chain = vec![(35, 16)];
        chain.extend((0..17).map(|sector| (36, sector)));
        chain.push((37, 0));
        assert_eq!(contents(layout, &image).unwrap().files[1].chain, chain);
        assert_eq!(link(&image, 35, 16), [0x24, 0x00]);
        assert_eq!(link(&image, 36, 16), [0x25, 0x00]);
        assert_eq!(link(&image, 37, 0), [0x00, 0xFF]);
        assert_eq!(*entry(layout, &mut image, 36), [0, 0, 0, 0]);
        assert_eq!(*entry(layout, &mut image, 37), [0x10, 0xFE, 0xFF, 0x01]);
    }
}

/// 749 sectors hold 190,246 bytes; one byte more needs 750.
#[test]
fn the_biggest_file() {
    let data: Vec<u8> = (0..=BIGGEST).map(|i| (i * 7 + i / 256) as u8).collect();
    for layout in [1, 2] {
        let empty = fresh(layout);
        let mut image = empty.clone();
        let refused = store(layout, &mut image, b"BIG", 2, &data);
        assert_eq!(refused, Answer::refusal(15));
        assert!(image == empty);
        let done = Answer::done(BIGGEST as u32, 749);
        assert_eq!(store(layout, &mut image, b"BIG", 2, &data[..BIGGEST]), done);
        assert_eq!(link(&image, 40, 15), [0x28, 0x10]);
        assert_eq!(link(&image, 40, 16), [0x00, 0xFF]);
        for track in 36..=40 {
            assert_eq!(*entry(layout, &mut image, track), [0, 0, 0, 0]);
        }
        let mut out = vec![0; BIGGEST];
        assert_eq!(read(layout, &image, b"BIG", &mut out), done);
        assert!(out == data[..BIGGEST]);
        assert_eq!(store(layout, &mut image, b"X", 2, b""), Answer::refusal(15));
        assert_eq!(scratch(layout, &mut image, b"BIG"), done);
        assert!(image == empty);
    }
}

/// Nine sectors are left, 40/8 to 40/16: ten don't fit, nine do.
#[test]
fn the_last_sectors() {
    for layout in [1, 2] {
        let mut image = fresh_but(layout, 9);
        let data = [9; 9 * 254 + 1];
        let full = image.clone();
        assert_eq!(*entry(layout, &mut image, 40), [0x09, 0x00, 0xFF, 0x01]);
        assert_eq!(
            store(layout, &mut image, b"NEW", 1, &data),
            Answer::refusal(15)
        );
        assert!(image == full);
        let done = store(layout, &mut image, b"NEW", 1, &data[1..]);
        assert_eq!(done, Answer::done(9 * 254, 9));
        let chain: Vec<(u8, u8)> = (8..17).map(|sector| (40, sector)).collect();
        assert_eq!(contents(layout, &image).unwrap().files[1].chain, chain);
    }
}

/// A file on every sector but 18/0 and 18/1: 766 of them.
#[test]
fn the_longest_chain() {
    for layout in [1, 2] {
        let empty = fresh(layout);
        let mut image = empty.clone();
        let mut chain: Vec<(u8, u8)> = places(layout).collect();
        chain.retain(|place| ![(18, 0), (18, 1)].contains(place));
        chain.reverse();
        assert_eq!((chain.len(), chain[0]), (766, (40, 16)));
        for (at, &(track, sector)) in chain.iter().enumerate() {
            let (next, second) = chain.get(at + 1).copied().unwrap_or((0, 0xFF));
            image[offset(track, sector)..][..2].copy_from_slice(&[next, second]);
        }
        let slot = slot_offset(&[1], 0);
        image[slot + 2..slot + 6].copy_from_slice(&[0x82, 40, 16, b'L']);
        image[slot + 6..slot + 21].fill(0xA0);
        image[slot + 0x1E..slot + 0x20].copy_from_slice(&[0xFE, 0x02]);
        image[MAP + 4..MAP + 0x90].fill(0);
        for track in 36..=40 {
            entry(layout, &mut image, track).fill(0);
        }
        assert_eq!(verdict(layout, &image), Answer::done(0, 0));
        let done = Answer::done(194_564, 766);
        assert_eq!(read(layout, &image, b"L", &mut vec![0; 194_564]), done);
        assert_eq!(store(layout, &mut image, b"X", 1, b""), Answer::refusal(15));
        assert_eq!(scratch(layout, &mut image, b"L"), done);
        assert!(image == empty);
    }
}

// --- Links ----------------------------------------------------------------

/// A fresh disk with ONE on 36/0 and 36/1.
fn with_one(layout: u32) -> Vec<u8> {
    let mut image = fresh_but(layout, 85);
    assert_eq!(store(layout, &mut image, b"ONE", 2, &[1; 300]).number, 0);
    image
}

/// Points ONE's second sector elsewhere than to 36/1, and frees that one.
fn moved(layout: u32, track: u8, sector: u8) -> Vec<u8> {
    let mut image = with_one(layout);
    let bytes: Vec<u8> = image[offset(36, 1)..offset(36, 2)].to_vec();
    image[offset(36, 0)..][..2].copy_from_slice(&[track, sector]);
    if let Some(at) = independent::naive::position(track, sector) {
        image[256 * at..][..256].copy_from_slice(&bytes);
        entry(layout, &mut image, 36).copy_from_slice(&[0x10, 0xFE, 0xFF, 0x01]);
        let target = entry(layout, &mut image, track);
        target[0] -= 1;
        target[1 + usize::from(sector / 8)] &= !(1 << (sector % 8));
    }
    image
}

#[test]
fn links_on_the_extra_tracks() {
    for layout in [1, 2] {
        for (track, sector) in [(40, 16), (40, 0), (36, 16), (37, 8), (39, 16)] {
            let image = moved(layout, track, sector);
            let answer = verdict(layout, &image);
            assert_eq!(answer, Answer::done(0, 0), "{track}/{sector}");
        }
        for (track, sector) in [(40, 17), (41, 0), (36, 17), (38, 255), (42, 16), (255, 0)] {
            let later = moved(layout, track, sector);
            let answer = verdict(layout, &later);
            assert_eq!(answer, Answer::fault(2, 36, 0, 1), "{track}/{sector}");
            let mut first = with_one(layout);
            first[slot_offset(&[1], 1) + 3..][..2].copy_from_slice(&[track, sector]);
            let answer = verdict(layout, &first);
            assert_eq!(answer, Answer::fault(2, 18, 1, 1), "{track}/{sector}");
        }
    }
    // In layout 0 there is no track 36.
    let mut image = fresh(0);
    assert_eq!(store(0, &mut image, b"ONE", 2, &[1; 300]).number, 0);
    image[offset(17, 0)..][..2].copy_from_slice(&[36, 0]);
    assert_eq!(verdict(0, &image), Answer::fault(2, 17, 0, 0));
}

/// A chain back to itself, into the other file, and a directory's link there.
#[test]
fn sectors_owned_twice() {
    for layout in [1, 2] {
        let mut back = with_one(layout);
        back[offset(36, 1)..][..2].copy_from_slice(&[36, 0]);
        assert_eq!(verdict(layout, &back), Answer::fault(3, 36, 1, 1));
        let mut meeting = with_one(layout);
        meeting[offset(36, 1)..][..2].copy_from_slice(&[35, 16]);
        assert_eq!(verdict(layout, &meeting), Answer::fault(3, 36, 1, 1));
        let mut directory = with_one(layout);
        directory[offset(18, 1)..][..2].copy_from_slice(&[36, 3]);
        assert_eq!(verdict(layout, &directory), Answer::fault(2, 18, 1, 255));
    }
}

// --- The map --------------------------------------------------------------

/// A wrong entry of a track of an empty disk, and the sector owed.
const WRONG: &[(u8, [u8; 4], u8)] = &[
    (36, [0x10, 0xFF, 0xFF, 0x01], 255),
    (36, [0x11, 0xFE, 0xFF, 0x01], 0),
    (36, [0x10, 0xFF, 0xFF, 0x00], 16),
    (36, [0x00, 0x00, 0x00, 0x00], 0),
    (37, [0x12, 0xFF, 0xFF, 0x03], 255),
    (38, [0x11, 0x7F, 0xFF, 0x01], 7),
    (39, [0x11, 0xFF, 0x7F, 0x01], 15),
    (39, [0x18, 0xFF, 0xFF, 0xFF], 255),
    (40, [0x11, 0xFF, 0xFF, 0x00], 16),
    (40, [0x11, 0xFF, 0xFF, 0xFE], 16),
    (40, [0x15, 0xFF, 0xFF, 0x1F], 255),
];

#[test]
fn the_place_of_answer_8() {
    for layout in [1, 2] {
        for &(track, bytes, sector) in WRONG {
            let mut image = fresh(layout);
            entry(layout, &mut image, track).copy_from_slice(&bytes);
            let owed = Answer::fault(8, track, sector, 255);
            assert_eq!(verdict(layout, &image), owed, "{track}: {bytes:02X?}");
        }
        // A sector with an owner is marked free.
        let mut image = with_one(layout);
        entry(layout, &mut image, 36).copy_from_slice(&[0x10, 0xFE, 0xFF, 0x01]);
        assert_eq!(verdict(layout, &image), Answer::fault(8, 36, 1, 255));
        // Bits past the 17 sectors are ignored.
        let mut image = fresh(layout);
        for track in 36..=40 {
            entry(layout, &mut image, track)[3] = 0xFF;
        }
        assert_eq!(verdict(layout, &image), Answer::done(0, 0));
    }
}

/// Step 4 is "the map, track 1 to 35", where "the layout's own number stands":
/// it goes by track number, wherever an entry stands.
#[test]
fn the_lowest_track_is_named() {
    for layout in [1, 2] {
        for (lower, higher) in [(36, 37), (36, 40), (39, 40)] {
            let mut image = fresh(layout);
            entry(layout, &mut image, lower)[0] ^= 1;
            entry(layout, &mut image, higher)[1] ^= 1;
            let owed = Answer::fault(8, lower, 255, 255);
            assert_eq!(verdict(layout, &image), owed);
        }
        for lower in [1, 17, 18, 19, 35] {
            let mut image = fresh(layout);
            image[MAP + 4 * lower] ^= 1;
            entry(layout, &mut image, 36)[1] ^= 1;
            let owed = Answer::fault(8, lower as u8, 255, 255);
            assert_eq!(verdict(layout, &image), owed);
        }
    }
}

// --- Two maps on one image ------------------------------------------------

/// A disk formatted in layout 1, with the same entries where layout 2 has them.
fn in_both() -> Vec<u8> {
    let mut image = fresh(1);
    image.copy_within(MAP + 0xC0..MAP + 0xD4, MAP + 0xAC);
    image
}

/// "An image may be accepted in both." A store on track 17 changes no entry
/// past 35, so it stays; one on track 36 is seen in its own layout's map alone.
#[test]
fn an_image_accepted_in_both() {
    for (layout, other) in [(1, 2), (2, 1)] {
        let mut image = in_both();
        assert_eq!(verdict(1, &image), Answer::done(0, 0));
        assert_eq!(verdict(2, &image), Answer::done(0, 0));
        let fill = vec![3; 254 * 664];
        assert_eq!(store(layout, &mut image, b"FILL", 2, &fill).number, 0);
        assert_eq!(verdict(other, &image), Answer::done(0, 0));
        let before = image.clone();
        assert_eq!(store(layout, &mut image, b"MORE", 2, b"X").number, 0);
        assert_eq!(verdict(layout, &image), Answer::done(0, 0));
        assert_eq!(verdict(other, &image), Answer::fault(8, 36, 0, 255));
        assert_eq!(read(other, &image, b"MORE", &mut [0; 1]).number, 8);
        assert_eq!(scratch(other, &mut image, b"MORE").number, 8);
        assert_eq!(scratch(layout, &mut image, b"MORE").number, 0);
        assert!(image == before);
        assert_eq!(verdict(other, &image), Answer::done(0, 0));
    }
}

/// The other layout's entry bytes are other bytes: ignored, and left by store
/// and scratch; a format writes 0 there. In layout 0 both are other bytes.
#[test]
fn the_other_entries() {
    let junk: Vec<u8> = (0..20).map(|at| 0x51 ^ (at * 37) as u8).collect();
    for (layout, _) in ENTRIES {
        let others = ENTRIES[2 - layout as usize].1.clone();
        let others = MAP + others.start..MAP + others.end;
        let mut image = fresh_but(layout, 20);
        image[others.clone()].copy_from_slice(&junk);
        assert_eq!(verdict(layout, &image), Answer::done(0, 0));
        assert_eq!(store(layout, &mut image, b"NEW", 1, &[9; 5000]).number, 0);
        assert_eq!(image[others.clone()], junk[..]);
        assert_eq!(scratch(layout, &mut image, b"FILL").number, 0);
        assert_eq!(image[others.clone()], junk[..]);
        assert_eq!(verdict(layout, &image), Answer::done(0, 0));
        assert_eq!(format(layout, &mut image, b"", 0, 0).number, 9);
        assert_eq!(image[others.clone()], junk[..]);
        assert_eq!(format(layout, &mut image, b"NEW", 0, 0).number, 0);
        assert_eq!(image[others], [0; 20]);
    }
    let mut image = fresh(0);
    let others = MAP + 0xAC..MAP + 0xD4;
    image[others.clone()].copy_from_slice(&[&junk[..], &EMPTY.repeat(5)].concat());
    let before = image[others.clone()].to_vec();
    assert_eq!(verdict(0, &image), Answer::done(0, 0));
    assert_eq!(store(0, &mut image, b"NEW", 1, &vec![9; 168_656]).number, 0);
    assert_eq!(store(0, &mut image, b"X", 1, b""), Answer::refusal(15));
    assert_eq!(scratch(0, &mut image, b"NEW").number, 0);
    assert_eq!(image[others.clone()], before[..]);
    assert_eq!(format(0, &mut image, b"NEW", 0, 0).number, 0);
    assert_eq!(image[others], [0; 40]);
}
