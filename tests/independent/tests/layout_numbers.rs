//! 02, §8: "any other gives 17 (place 0, 0, 255, as for all later numbers),
//! before all but the answer-block size"; "answer 1 means a size that isn't the
//! layout's"; "The sleeve total includes the extra tracks; its program takes the
//! layout as its first argument, the one digit 0, 1 or 2 (else the line is 17), 0
//! if none." All worked out by hand.

use independent::answer::Answer;
use independent::calls::{format, read, scratch, store, tell, Told};
use independent::check::check;
use independent::geometry::{IMAGE_BYTES, IMAGE_BYTES_40, LAYOUTS};
use independent::host;
use independent::listing::{layout_asked, listing, sleeve_output, LONGEST};
use independent::naive;
use independent::request::{lent, perform, Call, Independent, Request};

/// Numbers that are no layout.
const UNKNOWN: [u32; 9] = [3, 4, 35, 40, 255, 256, 257, 0x8000_0000, 4_294_967_295];

/// The place 0, 0, 255, length 0 and 0 sectors.
const NOWHERE: [u8; 9] = [0, 0, 255, 0, 0, 0, 0, 0, 0];

/// A formatted disk with one file, CODE, of 300 bytes.
fn disk(layout: u32) -> Vec<u8> {
    let size = if layout == 0 {
        IMAGE_BYTES
    } else {
        IMAGE_BYTES_40
    };
    let mut image = vec![0; size];
    assert_eq!(format(layout, &mut image, b"CODES", 0x30, 0x31).number, 0);
    assert_eq!(store(layout, &mut image, b"CODE", 2, &[7; 300]).number, 0);
    image
}

/// Every call, done where image and block are right.
fn calls() -> Vec<Call> {
    let name = |name: &[u8]| name.to_vec();
    vec![
        Call::Check,
        Call::Format {
            name: name(b"NEW"),
            id1: 1,
            id2: 2,
        },
        Call::Read {
            name: name(b"CODE"),
            room: 300,
        },
        Call::Store {
            name: name(b"NEW"),
            kind: 2,
            data: vec![7; 600],
        },
        Call::Scratch {
            name: name(b"CODE"),
        },
        Call::Tell {
            position: 0,
            room: 25,
        },
        Call::Listing { room: LONGEST },
    ]
}

/// Every call with arguments that are refused: 9, 10, 13 and 16.
fn refused_calls() -> Vec<Call> {
    let (empty, long) = (Vec::new(), vec![0x41; 17]);
    vec![
        Call::Format {
            name: empty.clone(),
            id1: 1,
            id2: 2,
        },
        Call::Read {
            name: vec![0xA0],
            room: 0,
        },
        Call::Store {
            name: long,
            kind: 9,
            data: Vec::new(),
        },
        Call::Store {
            name: b"NEW".to_vec(),
            kind: 9,
            data: Vec::new(),
        },
        Call::Scratch { name: empty },
        Call::Tell {
            position: usize::MAX,
            room: 0,
        },
        Call::Listing { room: 0 },
    ]
}

/// The number that a call gives. A refusal changes no byte, and has no place
/// but 2 to 8.
fn number_of(image: &[u8], layout: u32, call: &Call, block: usize) -> u32 {
    let mut after = image.to_vec();
    let request = Request {
        layout,
        call: call.clone(),
        block,
    };
    let reply = perform(&Independent, &mut after, &request).unwrap();
    let shown = request.shown();
    if reply.number != 0 {
        assert!(after == image, "{shown} changed the image");
        assert_eq!(reply.out, lent(reply.out.len()), "{shown}");
    }
    match (block, reply.number) {
        (9, 0 | 2..=8) => {}
        (9, _) => assert_eq!(reply.block, NOWHERE, "{shown}"),
        _ => assert_eq!(reply.block, lent(block), "{shown}"),
    }
    reply.number
}

// --- 17 -------------------------------------------------------------------

#[test]
fn every_call_is_done_in_its_layout() {
    for layout in LAYOUTS {
        for call in calls() {
            assert_eq!(number_of(&disk(layout), layout, &call, 9), 0, "{call:?}");
        }
    }
}

/// Before 1, 9, 10, 2 to 8, 13 and 16, in every call; format too.
#[test]
fn an_unknown_layout_gives_17_before_all_else() {
    let mut damaged = disk(1);
    damaged[91_648] = 99;
    let images = [
        disk(0),
        disk(1),
        disk(2),
        damaged,
        Vec::new(),
        vec![7; 4_864],
    ];
    for call in calls().iter().chain(&refused_calls()) {
        for layout in UNKNOWN {
            for image in &images {
                assert_eq!(number_of(image, layout, call, 9), 17, "{call:?}");
            }
        }
    }
}

/// "Before all but the answer-block size."
#[test]
fn only_the_block_comes_before_17() {
    for call in calls().iter().chain(&refused_calls()) {
        for layout in [3, 255, 256, 4_294_967_295] {
            for block in [0, 1, 8, 10, 18] {
                assert_eq!(number_of(&disk(1), layout, call, block), 16, "{call:?}");
                assert_eq!(number_of(&[], layout, call, block), 16, "{call:?}");
            }
        }
    }
}

/// The calls without a block answer the same; tell's answer is all zero.
#[test]
fn calls_without_a_block() {
    let refusal = Answer::refusal(17);
    for layout in UNKNOWN {
        for image in [disk(0), disk(1), vec![1, 2, 3]] {
            let mut after = image.clone();
            assert_eq!(check(layout, &after), refusal);
            assert_eq!(format(layout, &mut after, b"", 1, 2), refusal);
            assert_eq!(format(layout, &mut after, b"NEW", 1, 2), refusal);
            assert_eq!(read(layout, &after, b"CODE", &mut []), refusal);
            assert_eq!(store(layout, &mut after, b"NEW", 9, b""), refusal);
            assert_eq!(scratch(layout, &mut after, b""), refusal);
            assert_eq!(tell(layout, &after, 0), (refusal, Told::default()));
            assert_eq!(listing(layout, &after, &mut []), refusal);
            assert!(after == image);
            assert!(!naive::accepted(layout, &image));
        }
    }
}

// --- 1 --------------------------------------------------------------------

/// Each size in the layouts whose it isn't, and one byte more or less. Only the
/// listing takes 4,864 bytes, in every layout.
#[test]
fn sizes_that_are_not_the_layouts() {
    let wrong = [
        (0, [174_847, 174_849, 196_607, 196_608, 196_609]),
        (1, [174_847, 174_848, 174_849, 196_607, 196_609]),
        (2, [174_847, 174_848, 174_849, 196_607, 196_609]),
    ];
    for (layout, sizes) in wrong {
        for size in sizes {
            let mut image = disk(layout);
            image.resize(size, 0);
            for call in calls() {
                let number = number_of(&image, layout, &call, 9);
                let lists = matches!(call, Call::Listing { .. });
                let owed = match lists && [174_848, 196_608].contains(&size) {
                    // Track 18 alone is lent, and has no size of its own.
                    true => 0,
                    false => 1,
                };
                assert_eq!(number, owed, "{size} bytes, {call:?}");
            }
            for call in &refused_calls()[..6] {
                assert_eq!(number_of(&image, layout, call, 9), 1, "{call:?}");
            }
        }
    }
}

/// 35 tracks of a disk of 40: the check of layout 0 takes them for what they
/// are, and a disk of 35 tracks is none of 40.
#[test]
fn a_disk_cut_or_padded_to_the_other_size() {
    let cut = disk(1)[..IMAGE_BYTES].to_vec();
    assert_eq!(check(0, &cut), Answer::done(0, 0));
    let mut padded = disk(0);
    padded.resize(IMAGE_BYTES_40, 0);
    for layout in [1, 2] {
        assert_eq!(check(layout, &padded), Answer::fault(8, 36, 0, 255));
        assert_eq!(check(layout, &cut), Answer::refusal(1));
    }
}

// --- The sleeve listing ---------------------------------------------------

/// A disk's name and CODE, as the listing has them in every layout.
const LINES: &str = "434F444553A0A0A0A0A0A0A0A0A0A0A03031\n\
                     821100434F4445A0A0A0A0A0A0A0A0A0A0A0A00200\n";

/// 664 free sectors off track 18, or 749, less the two of CODE.
#[test]
fn the_total_includes_the_extra_tracks() {
    for (layout, total) in [(0, "0296\n"), (1, "02EB\n"), (2, "02EB\n")] {
        let argument = layout.to_string();
        let text = sleeve_output(Some(argument.as_bytes()), &disk(layout));
        assert_eq!(text, [LINES, total].concat().as_bytes(), "{layout}");
    }
}

/// The entries' count bytes as they stand, those of the layout alone: 1 to 5
/// where layout 2 has them, 10 to 50 where layout 1 has them.
#[test]
fn the_total_by_layout() {
    let mut track18 = disk(0)[91_392..96_256].to_vec();
    for track in 0..5 {
        track18[0xAC + 4 * track] = 1 + track as u8;
        track18[0xC0 + 4 * track] = 10 + 10 * track as u8;
    }
    let total = |layout: u32, track18: &[u8]| {
        let mut text = vec![0; LONGEST];
        let answer = listing(layout, track18, &mut text);
        assert_eq!((answer.number, answer.sectors), (0, 0));
        String::from_utf8(text[answer.length as usize - 5..answer.length as usize].to_vec())
    };
    // 662, 662 + 150, 662 + 15.
    for (layout, sum) in [(0, "0296\n"), (1, "032C\n"), (2, "02A5\n")] {
        assert_eq!(total(layout, &track18).unwrap(), sum, "{layout}");
    }
    track18[..256].fill(255);
    // 34 times 255, and 39 times.
    for (layout, sum) in [(0, "21DE\n"), (1, "26D9\n"), (2, "26D9\n")] {
        assert_eq!(total(layout, &track18).unwrap(), sum, "{layout}");
    }
    for layout in LAYOUTS {
        for size in [0, 4_863, 4_865, 174_848, 196_608] {
            let bytes = vec![0; size];
            let answer = listing(layout, &bytes, &mut [0; LONGEST]);
            assert_eq!(answer, Answer::refusal(1), "{size}");
        }
        let mut block = [0; 9];
        let number = host::listing(layout, &track18, &mut [0; 84], &mut block);
        assert_eq!((number, block), (16, NOWHERE));
    }
}

/// The program's first argument: the one digit 0, 1 or 2, and 0 if none.
#[test]
fn the_programs_argument() {
    for (argument, layout) in [
        (None, 0),
        (Some(&b"0"[..]), 0),
        (Some(b"1"), 1),
        (Some(b"2"), 2),
    ] {
        assert_eq!(layout_asked(argument), Some(layout));
        let text = sleeve_output(argument, &disk(layout));
        assert!(text.starts_with(LINES.as_bytes()), "{argument:?}");
        for other in LAYOUTS {
            let size = disk(other).len();
            let text = sleeve_output(argument, &disk(other));
            assert_eq!(text == b"01\n", size != disk(layout).len(), "{argument:?}");
        }
        let mut long = disk(layout);
        long.push(0);
        assert_eq!(sleeve_output(argument, &long), b"01\n");
        assert_eq!(sleeve_output(argument, &long[2..]), b"01\n");
        assert_eq!(sleeve_output(argument, &[]), b"01\n");
    }
}

/// Anything else gives the line 17, whatever the input is.
#[test]
fn arguments_that_are_no_layout() {
    let others: [&[u8]; 16] = [
        b"",
        b"00",
        b"3",
        b"1 ",
        b" 1",
        b"01",
        b"10",
        b"+1",
        b"-1",
        b"9",
        b"a",
        b"1\n",
        b"\0",
        b"one",
        b"\xB1",
        b"speeddos",
    ];
    for argument in others {
        assert_eq!(layout_asked(Some(argument)), None, "{argument:?}");
        for input in [disk(0), disk(1), Vec::new(), vec![0; 5]] {
            assert_eq!(
                sleeve_output(Some(argument), &input),
                b"17\n",
                "{argument:?}"
            );
        }
    }
}
