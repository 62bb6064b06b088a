//! The examples of 01, Examples, and the table of 01, Tracks and sectors; those
//! of 02, §8 are in tests/layouts.rs.

use independent::calls::{format, read, scratch, sectors_needed, store};
use independent::check::check;
use independent::disk::{bitmap, is_free};
use independent::geometry::{Geometry, IMAGE_BYTES};
use independent::listing::sleeve_output;
use independent::naive;

fn number(track: u8, sector: u8) -> Option<usize> {
    Geometry::of(0).unwrap().number(track, sector)
}

fn fresh() -> Vec<u8> {
    let mut image = vec![0xEE; IMAGE_BYTES];
    assert_eq!(format(0, &mut image, b"CODES", 0x30, 0x31).number, 0);
    image
}

#[test]
fn p_sector_numbers() {
    assert_eq!(number(1, 0), Some(0));
    assert_eq!(number(17, 0), Some(336));
    assert_eq!(number(18, 0), Some(357));
    assert_eq!(number(18, 0).map(|n| 256 * n), Some(91_392));
    assert_eq!(number(35, 16), Some(682));
}

#[test]
fn p_off_the_disk() {
    for (track, sector) in [(0, 0), (36, 0), (1, 21), (18, 19), (35, 17)] {
        assert_eq!(number(track, sector), None, "{track}/{sector}");
    }
}

#[test]
fn table_is_a_running_sum() {
    for (layout, sectors) in [(0, 683), (1, 768), (2, 768)] {
        let geometry = Geometry::of(layout).unwrap();
        let mut places = naive::places(layout);
        let mut next = 0;
        for track in 0..=255u8 {
            for sector in 0..=255u8 {
                let on_disk = sector < geometry.sectors_on(track);
                let expected = on_disk.then_some(next);
                assert_eq!(geometry.number(track, sector), expected);
                if on_disk {
                    assert_eq!(places.next(), Some((track, sector)));
                    assert_eq!(naive::position(track, sector), expected);
                }
                next += usize::from(on_disk);
            }
        }
        assert_eq!((next, places.next()), (sectors, None));
    }
    let totals = [(1..=17, 357), (18..=24, 133), (25..=30, 108), (31..=35, 85)];
    for (tracks, total) in totals {
        let geometry = Geometry::of(0).unwrap();
        let sum: u32 = tracks.map(|t| u32::from(geometry.sectors_on(t))).sum();
        assert_eq!(sum, total);
    }
}

#[test]
fn house_order_of_35_tracks() {
    let order: Vec<u8> = Geometry::of(0).unwrap().house_tracks().collect();
    assert_eq!(
        (order.len(), order[0], order[16], order[17], order[33]),
        (34, 17, 1, 19, 35)
    );
}

#[test]
fn p_map_entry() {
    let entry = [0x12, 0xFF, 0xF9, 0x17];
    assert_eq!(bitmap(entry).count_ones(), 18);
    let used: Vec<u8> = (0..21).filter(|&sector| !is_free(entry, sector)).collect();
    assert_eq!(used, [9, 10, 19]);
}

#[test]
fn p_lengths() {
    for (length, sectors, n) in [(0, 1, 1), (254, 1, 255), (255, 2, 2)] {
        assert_eq!(sectors_needed(length), sectors);
        let mut image = fresh();
        let answer = store(0, &mut image, b"A", 1, &vec![7; length]);
        assert_eq!((answer.number, usize::from(answer.sectors)), (0, sectors));
        let last = 336 + sectors - 1;
        assert_eq!(image[256 * last..256 * last + 2], [0, n]);
    }
}

#[test]
fn formatted_disk() {
    let image = fresh();
    assert_eq!(image[91_392..91_396], [0x12, 0x01, 0x41, 0x00]);
    assert_eq!(image[91_392 + 72..91_392 + 76], [0x11, 0xFC, 0xFF, 0x07]);
    assert_eq!(naive::contents(0, &image).unwrap().free_off_track_18(), 664);
    let label: Vec<u8> = [
        &b"CODES"[..],
        &[0xA0; 13],
        &[0x30, 0x31, 0xA0, 0x32, 0x41, 0xA0, 0xA0, 0xA0, 0xA0, 0x00],
    ]
    .concat();
    assert_eq!(image[91_392 + 0x90..91_392 + 0xAC], label[..]);
    assert_eq!(image[91_648..91_651], [0x00, 0xFF, 0x00]);
    assert_eq!(check(0, &image).number, 0);
}

#[test]
fn the_largest_file() {
    let data: Vec<u8> = (0..168_657u32).map(|i| (i * 7 + i / 256) as u8).collect();
    let mut image = fresh();
    let before = image.clone();
    let refused = store(0, &mut image, b"BIG", 2, &data);
    assert_eq!(
        (refused.number, refused.length, refused.sectors),
        (15, 0, 0)
    );
    assert_eq!(image, before);
    let done = store(0, &mut image, b"BIG", 2, &data[..168_656]);
    assert_eq!((done.number, done.length, done.sectors), (0, 168_656, 664));
    let mut out = vec![0; 168_656];
    assert_eq!(read(0, &image, b"BIG", &mut out).number, 0);
    assert_eq!(out, data[..168_656]);
    assert_eq!(store(0, &mut image, b"X", 2, b"").number, 15);
    assert_eq!(scratch(0, &mut image, b"BIG").number, 0);
    assert_eq!(image, before);
}

#[test]
fn the_whole_listing() {
    let mut image = fresh();
    assert_eq!(store(0, &mut image, b"CODE", 2, &[0x99; 300]).number, 0);
    assert_eq!(image[256 * 336..256 * 336 + 2], [0x11, 0x01]);
    assert_eq!(image[256 * 337..256 * 337 + 2], [0x00, 0x2F]);
    assert_eq!(image[91_392 + 68..91_392 + 72], [0x13, 0xFC, 0xFF, 0x1F]);
    let text = "434F444553A0A0A0A0A0A0A0A0A0A0A03031\n\
                821100434F4445A0A0A0A0A0A0A0A0A0A0A0A00200\n\
                0296\n";
    assert_eq!(
        String::from_utf8(sleeve_output(None, &image)).unwrap(),
        text
    );
    let lines: Vec<usize> = text.lines().map(str::len).collect();
    assert_eq!(lines, [36, 42, 4]);
}

#[test]
fn chains_that_meet() {
    let mut image = fresh();
    store(0, &mut image, b"ONE", 1, &[1; 600]);
    store(0, &mut image, b"TWO", 1, &[2; 600]);
    // ONE is 17/0 to 17/2, TWO is 17/3 to 17/5.
    let place = |answer: independent::answer::Answer| {
        (
            answer.number,
            answer.place.track,
            answer.place.sector,
            answer.place.slot,
        )
    };
    let mut meeting = image.clone();
    meeting[256 * (336 + 4)..256 * (336 + 4) + 2].copy_from_slice(&[17, 1]);
    assert_eq!(place(check(0, &meeting)), (3, 17, 4, 1));
    let mut back = image.clone();
    back[256 * (336 + 2)..256 * (336 + 2) + 2].copy_from_slice(&[17, 0]);
    assert_eq!(place(check(0, &back)), (3, 17, 2, 0));
    let mut last = image.clone();
    last[256 * (336 + 2)..256 * (336 + 2) + 2].copy_from_slice(&[0, 0]);
    assert_eq!(place(check(0, &last)), (2, 17, 2, 0));
}
