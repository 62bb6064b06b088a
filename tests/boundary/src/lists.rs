//! Long lists of calls on one image, by seed: each call compared with the
//! independent program, and demand 3 verified over what the library alone
//! makes of the image.

use crate::calls::{EntryPoints, Slice};
use crate::compare::{compare, Disk};
use crate::tally::{Failure, Tally};
use independent::calls::format;
use independent::generate::{sound, SOUND};
use independent::geometry::{Geometry, LAYOUTS, TRACK_18_OFFSET};
use independent::host::BLOCK_BYTES;
use independent::lists::{requests, Style, STYLES};
use independent::naive::last_track;
use independent::plain::demand3;
use independent::request::{Library, Request};
use independent::rng::Rng;
use independent::sound::{build, map_offset, spare_mask, Fill, Shape};
use std::cell::Cell;

/// Calls of one list.
pub const CALLS: usize = 200;

/// Start images besides the kinds of sound ones: a formatted disk, one with
/// bits past its tracks' last sectors, and directories with few slots left,
/// with and without room on track 18.
const STARTS: [&str; 5] = [
    "formatted",
    "formatted-spare",
    "few-slots",
    "few-slots-18-full",
    "last-slots",
];

/// An image accepted in a layout, and calls on it in turn, which all name that
/// layout.
pub struct List {
    pub seed: u64,
    pub layout: u32,
    pub kind: &'static str,
    pub style: Style,
    pub start: Vec<u8>,
    pub requests: Vec<Request>,
}

impl List {
    /// Every kind of start image in turn, and then again in another style and
    /// another layout.
    pub fn new(seed: u64) -> List {
        let kinds = [&STARTS[..], SOUND].concat();
        let (turn, at) = (seed as usize / kinds.len(), seed as usize % kinds.len());
        let (kind, style) = (kinds[at], STYLES[(turn + at) % STYLES.len()]);
        let layout = LAYOUTS[(turn + at) % LAYOUTS.len()];
        let rng = &mut Rng::new(seed);
        let start = start(layout, rng, kind);
        let requests = requests(layout, rng, &start, style, CALLS);
        List {
            seed,
            layout,
            kind,
            style,
            start,
            requests,
        }
    }

    fn shown(&self, at: usize) -> String {
        let request = self.requests[at].shown();
        format!("call {at} of {}: {request}", self.called())
    }

    /// The list's seed, layout, start and style.
    fn called(&self) -> String {
        let (seed, layout, kind, style) = (self.seed, self.layout, self.kind, self.style);
        format!("list {seed}, layout {layout}, {kind}, {style:?}")
    }
}

/// A start image. Its DOS version forbids writing now and then.
fn start(layout: u32, rng: &mut Rng, kind: &str) -> Vec<u8> {
    let mut image = match kind {
        "formatted" => formatted(layout, rng),
        "formatted-spare" => formatted_elsewhere(layout, rng),
        "few-slots" | "few-slots-18-full" | "last-slots" => {
            let shape = few_slots(rng, kind);
            build(layout, rng, &shape).image
        }
        _ => {
            let plan = sound(layout, kind, rng);
            plan.expect("a kind of sound image").image
        }
    };
    let version = if rng.one_in(8) { rng.byte() } else { 0x41 };
    image[TRACK_18_OFFSET + 2] = rng.pick(&[0x41, version, version, 0x00]);
    image
}

fn formatted(layout: u32, rng: &mut Rng) -> Vec<u8> {
    let bytes = Geometry::of(layout).expect("a layout").image_bytes();
    let mut image = rng.bytes(bytes);
    let answer = format(layout, &mut image, b"START", rng.byte(), rng.byte());
    assert_eq!(answer.number, 0);
    image
}

/// As another program formats a disk, or as owners send it: all bits past a
/// track's last sector are set, or any of them.
fn formatted_elsewhere(layout: u32, rng: &mut Rng) -> Vec<u8> {
    let mut image = formatted(layout, rng);
    let all = rng.one_in(2);
    for track in 1..=last_track(layout) {
        let bits = if all { 0xFF } else { rng.byte() };
        image[map_offset(layout, track) + 3] |= bits & spare_mask(track);
    }
    image
}

/// One to four slots are empty. Then the directory may grow, or files have
/// the rest of track 18, or there is no rest.
fn few_slots(rng: &mut Rng, kind: &str) -> Shape {
    let any = Shape::any(rng);
    let directory = if kind == "last-slots" {
        18
    } else {
        rng.range(1, 12)
    };
    let on_track_18 = kind == "few-slots-18-full";
    Shape {
        directory,
        files: 8 * directory - rng.range(1, 4),
        on_track_18,
        track_18_first: on_track_18,
        fill: match on_track_18 {
            true => Fill::AllBut(rng.range(20, 400)),
            false => rng.pick(&[Fill::Small, Fill::Some]),
        },
        ..any
    }
}

/// Compares every call of the list; `trace` prints each before it is made.
pub fn compare_list(
    library: &dyn EntryPoints,
    list: &List,
    trace: bool,
    tally: &mut Tally,
) -> Result<(), Failure> {
    let rng = &mut Rng::new(list.seed);
    let mut disk = Disk::new(&list.start, rng);
    tally.images += 1;
    for (at, request) in list.requests.iter().enumerate() {
        if trace {
            eprintln!("{}", list.shown(at));
        }
        match compare(library, &mut disk, request, rng) {
            Ok(owed) => tally.count(request, &owed),
            Err(differences) => {
                return Err(Failure {
                    request: list.shown(at),
                    differences,
                    seed: list.seed,
                })
            }
        }
    }
    Ok(())
}

/// The clause that the library's own check adds to demand 3's.
pub const OWN_CHECK: &str = "the library's own check accepts the image";

/// Verifies demand 3 on what the library makes of the start image, call by
/// call; its own check is to accept every image as well. The independent
/// library has no part in it: `plain` and `naive` look at the bytes.
pub fn demand3_over(library: &dyn EntryPoints, list: &List) -> Result<(), Failure> {
    let hosted = Hosted {
        library,
        refused: Cell::new(0),
    };
    hosted.look(list.layout, &list.start);
    let broken = match demand3(&hosted, list.layout, &list.start, &list.requests) {
        Err(broken) => Some(broken),
        Ok(_) if hosted.refused.get() > 0 => {
            let images = hosted.refused.get();
            Some(format!("{OWN_CHECK}: not {images} images"))
        }
        Ok(_) => None,
    };
    let failure = |broken| Failure {
        request: list.called(),
        differences: vec![broken],
        seed: list.seed,
    };
    broken.map_or(Ok(()), |broken| Err(failure(broken)))
}

/// A library behind d64.h as demand 3 runs one. After each call that may
/// write, its own check is asked for the image.
struct Hosted<'a> {
    library: &'a dyn EntryPoints,
    /// Images that its check refused.
    refused: Cell<usize>,
}

/// Memory that a right library only reads.
fn read_only(bytes: &[u8]) -> Slice {
    Slice {
        start: bytes.as_ptr().cast_mut(),
        len: bytes.len(),
    }
}

fn writable(bytes: &mut [u8]) -> Slice {
    Slice {
        start: bytes.as_mut_ptr(),
        len: bytes.len(),
    }
}

impl Hosted<'_> {
    /// Asks the library's check for an image, which it is to accept.
    fn look(&self, layout: u32, image: &[u8]) {
        let number = self.check(layout, image, &mut [0; BLOCK_BYTES]);
        self.refused
            .set(self.refused.get() + usize::from(number != 0));
    }
}

// Each slice is of a borrow that lasts as long as the call.
impl Library for Hosted<'_> {
    fn check(&self, layout: u32, image: &[u8], block: &mut [u8]) -> u32 {
        unsafe {
            self.library
                .check(layout, read_only(image), writable(block))
        }
    }

    fn format(
        &self,
        layout: u32,
        image: &mut [u8],
        name: &[u8],
        id1: u8,
        id2: u8,
        block: &mut [u8],
    ) -> u32 {
        let (lent, name, answer) = (writable(image), read_only(name), writable(block));
        let number = unsafe { self.library.format(layout, lent, name, id1, id2, answer) };
        self.look(layout, image);
        number
    }

    fn read(
        &self,
        layout: u32,
        image: &[u8],
        name: &[u8],
        out: &mut [u8],
        block: &mut [u8],
    ) -> u32 {
        let (image, name) = (read_only(image), read_only(name));
        let (out, answer) = (writable(out), writable(block));
        unsafe { self.library.read(layout, image, name, out, answer) }
    }

    fn store(
        &self,
        layout: u32,
        image: &mut [u8],
        name: &[u8],
        kind: u32,
        data: &[u8],
        block: &mut [u8],
    ) -> u32 {
        let (lent, answer) = (writable(image), writable(block));
        let (name, data) = (read_only(name), read_only(data));
        let number = unsafe { self.library.store(layout, lent, name, kind, data, answer) };
        self.look(layout, image);
        number
    }

    fn scratch(&self, layout: u32, image: &mut [u8], name: &[u8], block: &mut [u8]) -> u32 {
        let (lent, name, answer) = (writable(image), read_only(name), writable(block));
        let number = unsafe { self.library.scratch(layout, lent, name, answer) };
        self.look(layout, image);
        number
    }
}
