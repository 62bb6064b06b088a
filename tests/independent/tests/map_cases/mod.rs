//! A disk, and wrong entries of its map, each with the place owed. All are
//! worked out by hand from 01 and 02, §3.

// Each test file uses a part of this.
#![allow(dead_code)]

use independent::calls::{format, scratch, store};
use independent::geometry::IMAGE_BYTES;
use independent::sound::map_offset;

/// A formatted disk with two files: CODE, 300 bytes on 17/0 and 17/1, and
/// LAST, 10 bytes on 17/4. GONE lay between them.
pub fn disk() -> Vec<u8> {
    let mut image = vec![0xEE; IMAGE_BYTES];
    assert_eq!(format(0, &mut image, b"CODES", 0x30, 0x31).number, 0);
    assert_eq!(store(0, &mut image, b"CODE", 2, &[7; 300]).number, 0);
    assert_eq!(store(0, &mut image, b"GONE", 2, &[8; 300]).number, 0);
    assert_eq!(store(0, &mut image, b"LAST", 2, &[9; 10]).number, 0);
    assert_eq!(scratch(0, &mut image, b"GONE").number, 0);
    image
}

pub fn entry(image: &mut [u8], track: u8) -> &mut [u8; 4] {
    let at = map_offset(0, track);
    (&mut image[at..at + 4]).try_into().unwrap()
}

/// The image with another entry for a track.
pub fn with_entry(image: &[u8], track: u8, bytes: [u8; 4]) -> Vec<u8> {
    let mut image = image.to_vec();
    *entry(&mut image, track) = bytes;
    image
}

/// The right entries of some tracks of `disk`.
pub const RIGHT: [(u8, [u8; 4]); 8] = [
    (1, [0x15, 0xFF, 0xFF, 0x1F]),
    (17, [0x12, 0xEC, 0xFF, 0x1F]),
    (18, [0x11, 0xFC, 0xFF, 0x07]),
    (24, [0x13, 0xFF, 0xFF, 0x07]),
    (25, [0x12, 0xFF, 0xFF, 0x03]),
    (30, [0x12, 0xFF, 0xFF, 0x03]),
    (31, [0x11, 0xFF, 0xFF, 0x01]),
    (35, [0x11, 0xFF, 0xFF, 0x01]),
];

/// A wrong entry of a track, and the sector owed.
pub const BY_HAND: &[(u8, [u8; 4], u8)] = &[
    // A free sector marked used: each end of each byte. The count is as it was.
    (1, [0x15, 0xFE, 0xFF, 0x1F], 0),
    (1, [0x15, 0x7F, 0xFF, 0x1F], 7),
    (1, [0x15, 0xFF, 0xFE, 0x1F], 8),
    (1, [0x15, 0xFF, 0x7F, 0x1F], 15),
    (1, [0x15, 0xFF, 0xFF, 0x1E], 16),
    (1, [0x15, 0xFF, 0xFF, 0x0F], 20),
    // The count follows the bit, or is wrong by itself.
    (1, [0x14, 0xFE, 0xFF, 0x1F], 0),
    (1, [0x14, 0xFF, 0xFF, 0x0F], 20),
    (1, [0xFF, 0xFF, 0xF7, 0x1F], 11),
    // Document 01's entry in which 9, 10 and 19 are used.
    (1, [0x12, 0xFF, 0xF9, 0x17], 9),
    // Only the count is wrong.
    (1, [0x14, 0xFF, 0xFF, 0x1F], 255),
    (1, [0x16, 0xFF, 0xFF, 0x1F], 255),
    (1, [0x00, 0xFF, 0xFF, 0x1F], 255),
    // Bits past the last sector, with a wrong count and with a wrong bit.
    (1, [0x16, 0xFF, 0xFF, 0x3F], 255),
    (1, [0x18, 0xFF, 0xFF, 0xFF], 255),
    (1, [0x15, 0xFF, 0xFF, 0xEF], 20),
    (1, [0x15, 0xFF, 0xFF, 0x2F], 20),
    // A sector of CODE is marked free, or of both files all are.
    (17, [0x12, 0xED, 0xFF, 0x1F], 0),
    (17, [0x13, 0xEE, 0xFF, 0x1F], 1),
    (17, [0x15, 0xFF, 0xFF, 0x1F], 0),
    // A sector is marked free and another used, both wrongly.
    (17, [0x12, 0xEA, 0xFF, 0x1F], 1),
    (17, [0x12, 0xE9, 0xFF, 0x1F], 0),
    (17, [0x12, 0xF8, 0xFF, 0x1F], 2),
    (17, [0x12, 0xFC, 0xFF, 0x0F], 4),
    (17, [0x00, 0x00, 0x00, 0x00], 2),
    // The map's own sector, the directory's, and the rest of track 18.
    (18, [0x12, 0xFD, 0xFF, 0x07], 0),
    (18, [0x12, 0xFE, 0xFF, 0x07], 1),
    (18, [0x10, 0xF8, 0xFF, 0x07], 2),
    (18, [0x11, 0xFC, 0xFF, 0x03], 18),
    (18, [0x12, 0xFC, 0xFF, 0x0F], 255),
    (24, [0x13, 0xFF, 0xFF, 0xFB], 18),
    (24, [0x18, 0xFF, 0xFF, 0xFF], 255),
    (25, [0x11, 0xFF, 0xFF, 0x01], 17),
    (25, [0x13, 0xFF, 0xFF, 0x07], 255),
    (30, [0x12, 0xFF, 0xFF, 0xFD], 17),
    (31, [0x10, 0xFF, 0xFF, 0x00], 16),
    (31, [0x12, 0xFF, 0xFF, 0x03], 255),
    (35, [0x11, 0xFF, 0xFF, 0xFE], 16),
    (35, [0x11, 0xFE, 0xFF, 0xFE], 0),
    (35, [0x00, 0x00, 0x00, 0x00], 0),
];

/// Wrong entries of two tracks, and the place owed.
type TwoTracks = ([(u8, [u8; 4]); 2], (u8, u8));

pub const TWO_TRACKS: &[TwoTracks] = &[
    // A wrong bit on each; the higher track's sector is the lower one.
    (
        [
            (3, [0x14, 0xFF, 0xFF, 0x0F]),
            (20, [0x12, 0xFE, 0xFF, 0x07]),
        ],
        (3, 20),
    ),
    (
        [
            (17, [0x13, 0xFE, 0xFF, 0x0F]),
            (18, [0x12, 0xFD, 0xFF, 0x07]),
        ],
        (17, 1),
    ),
    // A wrong count, and a wrong bit on a higher track, and on a lower one.
    (
        [(2, [0x14, 0xFF, 0xFF, 0x1F]), (3, [0x14, 0xFF, 0xFF, 0x0F])],
        (2, 255),
    ),
    (
        [
            (34, [0x11, 0xFF, 0xF7, 0x01]),
            (35, [0x12, 0xFF, 0xFF, 0x03]),
        ],
        (34, 11),
    ),
    // Spare bits of a lower track are no fault.
    (
        [
            (4, [0x15, 0xFF, 0xFF, 0xFF]),
            (30, [0x12, 0xFF, 0xFF, 0x01]),
        ],
        (30, 17),
    ),
];
