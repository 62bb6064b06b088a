//! The points that 01 leaves open or that are easily misread, one test each,
//! with the sentence of 01 that decides it or comes nearest. Point 20, the
//! listing program's input and status, is in tests/programs.rs; points 24 to
//! 26, the list of calls that demand 3 speaks of, are in tests/demand3.rs.

use independent::answer::Answer;
use independent::calls::{format, read, scratch, store, tell, Told};
use independent::check::check;
use independent::geometry::IMAGE_BYTES;
use independent::host;
use independent::listing::{listing, sleeve_output, LONGEST};
use independent::naive;
use independent::request::lent;
use independent::sound::offset;

/// A formatted disk.
fn fresh() -> Vec<u8> {
    let mut image = vec![0xEE; IMAGE_BYTES];
    assert_eq!(format(0, &mut image, b"DISK", 1, 2).number, 0);
    image
}

/// A formatted disk with files "A0", "B0" ... of these lengths, kind 1, in
/// slots 0, 1 ...; 17/0 is the first sector of the first file.
fn with_files(lengths: &[usize]) -> Vec<u8> {
    let mut image = fresh();
    for (i, &length) in lengths.iter().enumerate() {
        let name = [b'A' + (i % 26) as u8, b'0' + (i / 26) as u8];
        let data: Vec<u8> = (0..length).map(|at| (at * 3 + i) as u8).collect();
        assert_eq!(store(0, &mut image, &name, 1, &data).number, 0);
    }
    image
}

fn set(image: &mut [u8], track: u8, sector: u8, at: usize, bytes: &[u8]) {
    let at = offset(track, sector) + at;
    image[at..at + bytes.len()].copy_from_slice(bytes);
}

/// The check's number and place; the naive test must agree.
fn verdict(image: &[u8]) -> (u8, u8, u8, u8) {
    let answer = check(0, image);
    assert_eq!(answer.number == 0, naive::accepted(0, image));
    (
        answer.number,
        answer.place.track,
        answer.place.sector,
        answer.place.slot,
    )
}

const SLOT: usize = 32;

/// "Where several apply: 1, then 9, 10, then 2 to 8 in check order, then 11,
/// 12, 13, 14, 15, 16."
#[test]
fn point_01_order_of_argument_refusals() {
    let sound = with_files(&[10]);
    let mut damaged = sound.clone();
    set(&mut damaged, 18, 1, 0, &[17, 0]);
    let mut version = sound.clone();
    version[91_394] = 0x50;
    let short = &sound[..IMAGE_BYTES - 1];
    assert_eq!(read(0, short, b"", &mut []), Answer::refusal(1));
    assert_eq!(read(0, &damaged, b"", &mut []), Answer::refusal(9));
    assert_eq!(
        read(0, &damaged, b"X", &mut []),
        Answer::fault(2, 18, 1, 255)
    );
    assert_eq!(
        store(0, &mut short.to_vec(), b"", 9, b""),
        Answer::refusal(1)
    );
    assert_eq!(store(0, &mut damaged, b"", 9, b""), Answer::refusal(9));
    assert_eq!(store(0, &mut damaged, b"X", 9, b""), Answer::refusal(10));
    assert_eq!(store(0, &mut damaged, b"X", 1, b"").number, 2);
    assert_eq!(store(0, &mut version, b"A0", 1, b""), Answer::refusal(11));
    assert_eq!(scratch(0, &mut version, b"NOT THERE"), Answer::refusal(11));
    assert_eq!(
        store(0, &mut sound.clone(), b"A0", 1, &vec![0; 200_000]),
        Answer::refusal(12)
    );
    assert_eq!(read(0, &sound, b"NOT THERE", &mut []), Answer::refusal(13));
    assert_eq!(read(0, &sound, b"A0", &mut [0; 9]), Answer::refusal(16));
}

/// "Any other size of that block gives 16 before all else, and nothing is
/// written."
#[test]
fn point_02_only_nine_bytes_are_an_answer_block() {
    for size in [0, 1, 8, 10, 18] {
        let mut image = with_files(&[10]);
        let before = image.clone();
        let (mut block, mut out) = (lent(size), lent(50));
        assert_eq!(host::check(0, &image, &mut block), 16);
        assert_eq!(host::format(0, &mut image, b"N", 0, 0, &mut block), 16);
        assert_eq!(host::read(0, &image, b"A0", &mut out, &mut block), 16);
        assert_eq!(host::store(0, &mut image, b"N", 1, b"", &mut block), 16);
        assert_eq!(host::scratch(0, &mut image, b"A0", &mut block), 16);
        // Before all else: also before a wrong size and a wrong name.
        assert_eq!(host::read(0, &image[1..], b"", &mut out, &mut block), 16);
        assert_eq!((image, block, out), (before, lent(size), lent(50)));
    }
    let mut block = lent(9);
    assert_eq!(host::check(0, &[], &mut block), 1);
    assert_eq!(block, [0, 0, 255, 0, 0, 0, 0, 0, 0]);
    let mut image = fresh();
    assert_eq!(
        host::store(0, &mut image, b"N", 1, &[1; 70_000], &mut block),
        0
    );
    assert_eq!(block, [0, 0, 255, 0x70, 0x11, 0x01, 0x00, 0x14, 0x01]);
}

/// Step 2 is "the directory, sector by sector along its links"; slots come in
/// step 3.
#[test]
fn point_03_the_directory_comes_before_any_slot() {
    let mut image = with_files(&[1; 9]);
    set(&mut image, 18, 1, 2, &[0xFF]);
    assert_eq!(verdict(&image), (4, 18, 1, 0));
    set(&mut image, 18, 2, 0, &[19, 0]);
    assert_eq!(verdict(&image), (2, 18, 2, 255));
}

/// The place of 3 is the "sector holding the link", of 2 the "sector holding
/// it"; "a first link is held by the directory sector".
#[test]
fn point_04_the_place_holds_the_link() {
    let image = with_files(&[600; 10]);
    let try_one = |track, sector, at, link: [u8; 2]| {
        let mut image = image.clone();
        set(&mut image, track, sector, at, &link);
        verdict(&image)
    };
    assert_eq!(try_one(18, 1, SLOT + 3, [17, 0]), (3, 18, 1, 1));
    assert_eq!(try_one(18, 2, SLOT + 3, [40, 0]), (2, 18, 2, 9));
    assert_eq!(try_one(17, 4, 0, [40, 0]), (2, 17, 4, 1));
    assert_eq!(try_one(17, 5, 0, [17, 0]), (3, 17, 5, 1));
}

/// "18/0 is such a bad link" in the directory; in a chain it is on the disk,
/// and owned. 18/1 is walked from the start.
#[test]
fn point_05_18_0_and_18_1_as_targets() {
    let image = with_files(&[600; 10]);
    let try_one = |track, sector, link: [u8; 2]| {
        let mut image = image.clone();
        set(&mut image, track, sector, 0, &link);
        verdict(&image)
    };
    assert_eq!(try_one(18, 1, [18, 0]), (2, 18, 1, 255));
    assert_eq!(try_one(18, 2, [18, 0]), (2, 18, 2, 255));
    assert_eq!(try_one(18, 1, [18, 1]), (3, 18, 1, 255));
    assert_eq!(try_one(18, 2, [18, 1]), (3, 18, 2, 255));
    assert_eq!(try_one(18, 2, [18, 19]), (2, 18, 2, 255));
    assert_eq!(try_one(17, 0, [18, 0]), (3, 17, 0, 0));
    assert_eq!(try_one(17, 0, [18, 2]), (3, 17, 0, 0));
    assert_eq!(try_one(17, 0, [18, 19]), (2, 17, 0, 0));
}

/// "Track 0 ends the directory, whatever the second byte is"; of a slot,
/// "track 0 here is a bad link"; the count comes after the chain.
#[test]
fn point_06_track_0_in_links() {
    for n in 0..=255 {
        let mut image = with_files(&[300]);
        set(&mut image, 18, 1, 0, &[0, n]);
        assert_eq!(verdict(&image).0, 0);
        set(&mut image, 18, 1, 3, &[0, n]);
        assert_eq!(verdict(&image), (2, 18, 1, 0));
        set(&mut image, 18, 1, 0x1E, &[0, 0]);
        assert_eq!(verdict(&image), (2, 18, 1, 0));
    }
    let mut image = with_files(&[300]);
    set(&mut image, 18, 1, 0x1E, &[7, 0]);
    assert_eq!(verdict(&image), (7, 18, 1, 0));
    set(&mut image, 17, 1, 0, &[0, 0]);
    assert_eq!(verdict(&image), (2, 17, 1, 0));
}

/// "The map, track 1 to 35": a wrong count, a wrong bit and a count of bits
/// past the last sector all give 8. A wrong bit's sector is named (02, §3).
#[test]
fn point_07_the_lowest_track_of_the_map() {
    let mut image = with_files(&[10]);
    for (track, entry, sector) in [
        (35u8, [18, 0xFF, 0xFF, 0x03], 255),
        (20, [18, 0xFF, 0xFF, 0x07], 255),
        (18, [0x12, 0xFC, 0xFF, 0x0F], 255),
        (17, [0x15, 0xFF, 0xFF, 0x1F], 0),
        (2, [0x14, 0xFD, 0xFF, 0x1F], 1),
        (1, [0x18, 0xFF, 0xFF, 0xFF], 255),
    ] {
        set(&mut image, 18, 0, 4 * usize::from(track), &entry);
        assert_eq!(verdict(&image), (8, track, sector, 255));
    }
}

/// "Byte 02: 0 means empty"; bit 6 "may be either and plays no part".
#[test]
fn point_08_all_type_bytes() {
    let image = with_files(&[10]);
    for byte in 0..=255 {
        let mut image = image.clone();
        set(&mut image, 18, 1, 2, &[byte]);
        match byte {
            // The file is gone, and its sector is used by nobody.
            0 => assert_eq!(verdict(&image), (8, 17, 0, 255)),
            0x81..=0x83 | 0xC1..=0xC3 => {
                assert_eq!(verdict(&image).0, 0);
                assert_eq!(read(0, &image, b"A0", &mut [0; 10]).length, 10);
            }
            _ => assert_eq!(verdict(&image), (4, 18, 1, 0), "{byte:02X}"),
        }
    }
}

/// "1 to 16 bytes that are not $A0, then only $A0. No two files share a name."
/// No wildcards, no folding of case.
#[test]
fn point_09_names() {
    let image = with_files(&[10, 20]);
    let mut wrong = image.clone();
    set(&mut wrong, 18, 1, 7, &[0xA0, 0x41]);
    assert_eq!(verdict(&wrong), (5, 18, 1, 0));
    set(&mut wrong, 18, 1, 5, &[0xA0; 16]);
    assert_eq!(verdict(&wrong), (5, 18, 1, 0));
    let mut full = image.clone();
    set(&mut full, 18, 1, 5, b"SIXTEEN BYTES OK");
    assert_eq!(verdict(&full).0, 0);
    assert_eq!(read(0, &full, b"SIXTEEN BYTES OK", &mut [0; 10]).length, 10);
    let mut twice = image.clone();
    set(&mut twice, 18, 1, SLOT + 2, &[0xC3]);
    set(&mut twice, 18, 1, SLOT + 5, b"A0");
    assert_eq!(verdict(&twice), (6, 18, 1, 1));

    let mut odd = fresh();
    let names: [&[u8]; 9] = [
        b"\0", b"\"", b"*", b"?", b"\xFF", b"\0\0", b"AB", b"ab", b"A*",
    ];
    for (i, name) in names.iter().enumerate() {
        assert_eq!(
            store(0, &mut odd, name, 2, &vec![7; i]).number,
            0,
            "{name:?}"
        );
    }
    for (i, name) in names.iter().enumerate() {
        assert_eq!(
            read(0, &odd, name, &mut [0; 20]).length as usize,
            i,
            "{name:?}"
        );
    }
    assert_eq!(read(0, &odd, b"A?", &mut [0; 20]).number, 13);
    assert_eq!(read(0, &odd, b"aB", &mut [0; 20]).number, 13);
}

/// "A file of k sectors holds 254(k-1) + n-1 bytes": n may be 1 after a full
/// sector.
#[test]
fn point_10_an_empty_last_sector() {
    let mut image = with_files(&[300]);
    set(&mut image, 17, 1, 0, &[0, 1]);
    assert_eq!(verdict(&image).0, 0);
    let answer = read(0, &image, b"A0", &mut [0; 254]);
    assert_eq!((answer.number, answer.length, answer.sectors), (0, 254, 2));
}

/// "Slots are numbered 0 to 143": no more than 18 sectors can be linked.
#[test]
fn point_11_the_last_slot_is_143() {
    let mut image = with_files(&[0; 144]);
    assert_eq!(verdict(&image).0, 0);
    assert_eq!(
        store(0, &mut image, b"ONE MORE", 1, b""),
        Answer::refusal(14)
    );
    set(&mut image, 18, 18, 7 * SLOT + 2, &[0x84]);
    assert_eq!(verdict(&image), (4, 18, 18, 143));
    set(&mut image, 18, 18, 0, &[18, 7]);
    assert_eq!(verdict(&image), (3, 18, 18, 255));
}

/// "Only 1, 9 and the host call's 16 can refuse it": no check, any DOS
/// version, any id; an empty disk name gives 9.
#[test]
fn point_12_format() {
    let mut image = vec![0x11; IMAGE_BYTES];
    for name in [&b""[..], &[0x41; 17], b"A\xA0B"] {
        let before = image.clone();
        assert_eq!(format(0, &mut image, name, 1, 2), Answer::refusal(9));
        assert_eq!(image, before);
    }
    assert_eq!(format(0, &mut image[1..], b"", 1, 2), Answer::refusal(1));
    for (id1, id2) in [(0, 0), (0xA0, 0xFF), (0x30, 0x31)] {
        image.fill(id1 ^ 0x5C);
        assert_eq!(
            format(0, &mut image, b"1234567890123456", id1, id2),
            Answer::done(0, 0)
        );
        assert_eq!(image[91_392 + 0xA2..91_392 + 0xA4], [id1, id2]);
        assert_eq!(verdict(&image).0, 0);
    }
}

/// "Position from 0 among occupied slots"; the type byte is told as it stands;
/// "all zero if refused".
#[test]
fn point_13_tell() {
    let mut image = with_files(&[10, 300, 0]);
    assert_eq!(scratch(0, &mut image, b"A0").number, 0);
    set(&mut image, 18, 1, SLOT + 2, &[0xC2]);
    image[91_394] = 0x77;
    let mut name = [0xA0; 16];
    name[..2].copy_from_slice(b"B0");
    let told = Told {
        kind: 0xC2,
        name,
        track: 17,
        sector: 1,
        count: 2,
        length: 300,
    };
    assert_eq!(tell(0, &image, 0).1, told);
    assert_eq!(
        (tell(0, &image, 1).0.number, tell(0, &image, 1).1.length),
        (0, 0)
    );
    for position in [2, 3, 144, usize::MAX] {
        assert_eq!(
            tell(0, &image, position),
            (Answer::refusal(13), Told::default())
        );
    }
}

/// "1 for no bytes"; a refusal "changes no byte of the image or of the
/// output".
#[test]
fn point_14_empty_files_and_short_buffers() {
    let image = with_files(&[0, 300]);
    assert_eq!(read(0, &image, b"A0", &mut []), Answer::done(0, 1));
    let mut out = lent(299);
    assert_eq!(read(0, &image, b"B0", &mut out), Answer::refusal(16));
    assert_eq!(out, lent(299));
}

/// 14 is for track 18 and 15 for the others: neither counts against the other,
/// and any length is taken.
#[test]
fn point_15_room() {
    // 144 files and no free sector off track 18: 14 comes before 15.
    let mut lengths = [0; 144];
    lengths[0] = 254 * (664 - 143);
    let mut image = with_files(&lengths);
    assert_eq!(store(0, &mut image, b"X", 1, b""), Answer::refusal(14));
    // A full directory sector can still grow when the disk has no more room
    // than the file needs: the two draw on different tracks.
    let mut lengths = [0; 8];
    lengths[0] = 254 * (664 - 9);
    let mut image = with_files(&lengths);
    assert_eq!(
        store(0, &mut image, b"X", 1, &[1; 509]),
        Answer::refusal(15)
    );
    assert_eq!(
        store(0, &mut image, b"X", 1, &[1; 508]),
        Answer::done(508, 2)
    );
    assert_eq!(
        store(0, &mut image, b"Y", 1, &vec![1; 1 << 24]),
        Answer::refusal(15)
    );
}

/// "Slot bytes 00-01 stay"; "the lowest free sector of track 18 joins the
/// directory", and a file may lie in the way.
#[test]
fn point_16_the_directory_grows_past_a_file() {
    let mut image = with_files(&[1; 8]);
    // The first file moves to 18/2, so that the lowest free sector is 18/3.
    set(&mut image, 18, 2, 0, &[0, 2, 0x77]);
    set(&mut image, 17, 0, 0, &[0xDD; 256]);
    set(&mut image, 18, 1, 3, &[18, 2]);
    set(&mut image, 18, 0, 72, &[0x10, 0xF8, 0xFF, 0x07]);
    set(&mut image, 18, 0, 68, &[0x0E, 0x01, 0xFF, 0x1F]);
    set(&mut image, 18, 1, 0, &[0, 0x33]);
    set(&mut image, 18, 3, 0, &[0xBB; 256]);
    assert_eq!(verdict(&image).0, 0);
    let junk: Vec<u8> = (1..8).flat_map(|slot| [slot, 0xCC]).collect();
    for slot in 1..8 {
        set(
            &mut image,
            18,
            1,
            SLOT * slot,
            &junk[2 * slot - 2..2 * slot],
        );
    }
    let done = store(0, &mut image, b"NEW", 2, &[9; 10]);
    assert_eq!(done, Answer::done(10, 1));
    assert_eq!(verdict(&image).0, 0);
    let old = &image[offset(18, 1)..offset(18, 2)];
    assert_eq!(old[..2], [18, 3]);
    for slot in 1..8 {
        assert_eq!(
            old[SLOT * slot..SLOT * slot + 2],
            junk[2 * slot - 2..2 * slot]
        );
    }
    let new = &image[offset(18, 3)..offset(18, 4)];
    assert_eq!(new[..8], [0x00, 0xFF, 0x82, 17, 0, b'N', b'E', b'W']);
    assert!(new[SLOT..].iter().all(|&byte| byte == 0));
    assert_eq!(
        image[offset(18, 0) + 72..offset(18, 0) + 76],
        [0x0F, 0xF0, 0xFF, 0x07]
    );
}

/// Bit 6 "plays no part" in scratch either, which zeroes "bytes 02-1F of its
/// slot".
#[test]
fn point_17_locked_files_are_scratched() {
    let mut image = with_files(&[300]);
    set(&mut image, 18, 1, 2, &[0xC1]);
    set(&mut image, 18, 1, 0x15, &[0x55; 9]);
    assert_eq!(scratch(0, &mut image, b"A0"), Answer::done(300, 2));
    assert_eq!(image, fresh());
}

/// "No number is given in any other case": what no row refuses is done.
#[test]
fn point_18_nothing_else_is_refused() {
    let mut image = with_files(&[300]);
    set(&mut image, 18, 0, 0, &[0xFF, 0xFF, 0x99, 0x99]);
    set(&mut image, 18, 0, 0x90, &[0x00; 0x70]);
    assert_eq!(verdict(&image).0, 0);
    assert_eq!(read(0, &image, b"A0", &mut [0; 300]).number, 0);
    image[91_394] = 0x00;
    assert_eq!(store(0, &mut image, b"A1", 2, b"").number, 0);
    assert_eq!(scratch(0, &mut image, b"A0").number, 0);
}

/// "Kind asked for is not 1 or 2", as 02, §12 has it: a number that ends in
/// such a byte is still another.
#[test]
fn point_19_the_kind_is_not_cut() {
    const REFUSED: &[u32] = &[
        0,
        3,
        4,
        0x81,
        0x82,
        0x83,
        256,
        257,
        258,
        259,
        0x1_0002,
        u32::MAX,
    ];
    let mut image = fresh();
    for &kind in REFUSED {
        assert_eq!(store(0, &mut image, b"A", kind, b""), Answer::refusal(10));
    }
    assert_eq!(image, fresh());
    for kind in 1..=2 {
        assert_eq!(store(0, &mut image, &[kind as u8], kind, b"").number, 0);
    }
}

/// "Chains and map are not checked here"; refusals are only those "that track
/// 18 shows".
#[test]
fn point_21_what_the_listing_looks_at() {
    let mut image = with_files(&[300, 300]);
    let text = sleeve_output(None, &image);
    // Chains and map bits: the check refuses, the listing doesn't see it.
    set(&mut image, 17, 0, 0, &[99, 99]);
    set(&mut image, 18, 0, 5, &[0, 0, 0]);
    assert_eq!(sleeve_output(None, &image), text);
    // First link and count are printed as they stand.
    set(&mut image, 18, 1, 3, &[0, 0]);
    set(&mut image, 18, 1, 0x1E, &[0xFF, 0x12]);
    let shown = String::from_utf8(sleeve_output(None, &image)).unwrap();
    assert!(shown.contains("\n8100004130A0"), "{shown}");
    assert!(shown.contains("A0FF12\n"), "{shown}");
    // The check stops at slot 0; the listing refuses slot 1.
    set(&mut image, 18, 1, SLOT + 2, &[0x84]);
    assert_eq!(verdict(&image), (2, 18, 1, 0));
    assert_eq!(sleeve_output(None, &image), b"04\n");
    set(&mut image, 18, 1, SLOT + 2, &[0x81, 17, 2, b'A', b'0']);
    assert_eq!(sleeve_output(None, &image), b"06\n");
    set(&mut image, 18, 1, SLOT + 5, &[0xA0]);
    assert_eq!(sleeve_output(None, &image), b"05\n");
    set(&mut image, 18, 1, 0, &[18, 1]);
    assert_eq!(sleeve_output(None, &image), b"03\n");
    set(&mut image, 18, 1, 0, &[18, 0]);
    assert_eq!(sleeve_output(None, &image), b"02\n");
}

/// "The sum of the map's count bytes except track 18, two bytes, high first",
/// whatever they are.
#[test]
fn point_22_the_sum_is_plain() {
    let mut image = fresh();
    for track in 1..=35 {
        set(&mut image, 18, 0, 4 * track, &[255]);
    }
    let text = String::from_utf8(sleeve_output(None, &image)).unwrap();
    // 34 times 255 is 8,670.
    assert_eq!(text.lines().last(), Some("21DE"));
}

/// "16, given last, if it is shorter than the listing; 6,234 always suffice."
#[test]
fn point_23_a_short_text_buffer_comes_last() {
    let mut image = with_files(&[1; 144]);
    let track18 = offset(18, 0)..offset(18, 0) + 4_864;
    let mut text = lent(LONGEST - 1);
    let listed = listing(0, &image[track18.clone()], &mut text);
    assert_eq!(listed, Answer::refusal(16));
    assert_eq!(text, lent(LONGEST - 1));
    let mut text = lent(LONGEST + 1);
    let listed = listing(0, &image[track18.clone()], &mut text);
    assert_eq!(listed, Answer::done(LONGEST as u32, 0));
    assert_eq!(text[LONGEST..], lent(LONGEST + 1)[LONGEST..]);
    set(&mut image, 18, 18, 7 * SLOT + 2, &[0x84]);
    let fault = Answer::fault(4, 18, 18, 143);
    assert_eq!(listing(0, &image[track18], &mut []), fault);
    assert_eq!(listing(0, &image[..4_863], &mut []), Answer::refusal(1));
}
