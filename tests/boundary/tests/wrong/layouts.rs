//! Wrong libraries about the layout that a call names (02, §8): one is taken
//! for another, a number that is none is taken for one or refused too late, or
//! 17 comes with more or less than it should.

use super::{give, is_layout, Row};
use boundary::calls::{EntryPoints, Faithful, Slice};
use independent::answer::Answer;
use independent::geometry::{IMAGE_BYTES, IMAGE_BYTES_40, TRACK_18_BYTES};
use independent::host::BLOCK_BYTES;

/// One row for each of some calls, with what has to differ.
macro_rules! in_calls {
    ($($what:literal => $rule:expr, $differs:literal: $($call:literal)+;)*) => {
        &[$($((concat!($call, ": ", $what), &Layouts($call, $rule), $differs)),+),*]
    };
}

pub const WRONG: &[Row] = in_calls![
    "layout 1 is taken for 2" => Takes(|layout, _| swapped(layout, 1)), "answer:": "check" "read" "store" "scratch" "tell";
    "layout 1 is taken for 2" => Takes(|layout, _| swapped(layout, 1)), "image:": "format";
    "layout 1 is taken for 2" => Takes(|layout, _| swapped(layout, 1)), "output:": "listing";
    "layout 2 is taken for 1" => Takes(|layout, _| swapped(layout, 2)), "answer:": "check" "read" "store" "scratch" "tell";
    "layout 2 is taken for 1" => Takes(|layout, _| swapped(layout, 2)), "image:": "format";
    "layout 2 is taken for 1" => Takes(|layout, _| swapped(layout, 2)), "output:": "listing";
    "layout 1 is taken for 0" => Takes(|layout, _| if layout == 1 { 0 } else { layout }), "number:": "check" "format" "read" "store" "scratch" "tell";
    "layout 1 is taken for 0" => Takes(|layout, _| if layout == 1 { 0 } else { layout }), "output:": "listing";
    "layout 2 is taken for 0" => Takes(|layout, _| if layout == 2 { 0 } else { layout }), "number:": "check" "format";
    "layout 0 is taken for 1" => Takes(|layout, _| layout.max(1)), "number:": "check" "store";
    "layout 0 is taken for 2" => Takes(|layout, _| if layout == 0 { 2 } else { layout }), "output:": "listing";
    "unknown layouts are taken for 0" => Takes(|layout, _| unknown_as(layout, 0)), "number:": "check" "format" "read" "store" "scratch" "tell" "listing";
    "unknown layouts are taken for 2" => Takes(|layout, _| unknown_as(layout, 2)), "number:": "check" "format" "read" "store" "scratch" "tell" "listing";
    "unknown layouts are those of the image's size" => Takes(|layout, bytes| unknown_as(layout, by_size(bytes))), "number:": "check" "format" "store";
    "the layout is cut to a byte" => Takes(|layout, _| layout & 0xFF), "number:": "check" "format" "read" "store" "scratch" "tell" "listing";
    "the layout is cut to two bits" => Takes(|layout, _| layout & 3), "number:": "check" "store" "listing";
    "the layout is taken modulo 3" => Takes(|layout, _| layout % 3), "number:": "check" "listing";
    "layout 3 is taken for 0" => Takes(|layout, _| if layout == 3 { 0 } else { layout }), "number:": "check" "listing";
    "layout 4,294,967,295 is taken for 0" => Takes(|layout, _| if layout == u32::MAX { 0 } else { layout }), "number:": "check" "format";
    "layout 35 is taken for 0, and 40 for 1" => Takes(by_tracks), "number:": "check" "listing";
    "an image of 35 tracks is taken in every layout" => Takes(of_35_tracks), "number:": "check" "format" "read" "store" "scratch" "tell";
    "an image of 40 tracks is taken in layout 0" => Takes(of_40_tracks), "number:": "check" "format" "read" "store" "scratch" "tell";
    "17 comes after 1" => After(|lent| (!lent.has_a_size()).then_some(1)), "number:": "check" "format" "read" "store" "scratch" "tell" "listing";
    "17 comes after 9" => After(|lent| lent.name_is_bad().then_some(9)), "number:": "format" "read" "store" "scratch";
    "17 comes after 10" => After(|lent| (!(1..=2).contains(&lent.kind)).then_some(10)), "number:": "store";
    "17 comes after the check" => After(|lent| lent.fault()), "number:": "check" "read" "store" "scratch" "tell";
    "17 comes after 16 for the output" => After(|lent| (lent.out.len < 25).then_some(16)), "number:": "read" "tell" "listing";
    "17 comes before 16 for the block" => BeforeBlock, "number:": "check" "format" "read" "store" "scratch" "tell" "listing";
    "17 leaves the block" => Leaves, "answer:": "check" "format" "read" "store" "scratch" "tell" "listing";
    "17 has sector 255" => With(|_, block| block[1] = 255), "answer:": "check" "format" "read" "store" "scratch" "tell" "listing";
    "17 has the layout for its track" => With(|layout, block| block[0] = layout as u8), "answer:": "check" "store" "listing";
    "17 has slot 0" => With(|_, block| block[2] = 0), "answer:": "check" "format" "tell";
    "17 has a length" => With(|layout, block| block[3..7].copy_from_slice(&layout.to_le_bytes())), "answer:": "check" "read" "scratch" "listing";
    "17 has sectors" => With(|_, block| block[7] = 17), "answer:": "check" "store";
    "17 clears the image" => Writes(|lent| lent.image), "image:": "format" "store" "scratch";
    "17 clears the output" => Writes(|lent| lent.out), "output:": "read" "tell" "listing";
];

// --- One layout for another -------------------------------------------------

/// A layout of 40 tracks is taken for the other one.
fn swapped(layout: u32, from: u32) -> u32 {
    if layout == from {
        3 - layout
    } else {
        layout
    }
}

fn unknown_as(layout: u32, known: u32) -> u32 {
    if is_layout(layout) {
        layout
    } else {
        known
    }
}

fn by_size(bytes: usize) -> u32 {
    u32::from(bytes == IMAGE_BYTES_40)
}

/// An image of 35 tracks is taken in every layout.
fn of_35_tracks(layout: u32, bytes: usize) -> u32 {
    if is_layout(layout) && bytes == IMAGE_BYTES {
        0
    } else {
        layout
    }
}

/// An image of 40 tracks is taken in layout 0, for one of layout 1.
fn of_40_tracks(layout: u32, bytes: usize) -> u32 {
    if bytes == IMAGE_BYTES_40 {
        layout.max(1)
    } else {
        layout
    }
}

fn by_tracks(layout: u32, _bytes: usize) -> u32 {
    match layout {
        35 => 0,
        40 => 1,
        _ => layout,
    }
}

// --- What a call is lent ----------------------------------------------------

/// What a call is lent; a call has no name, kind or output where it takes none.
struct Lent {
    call: &'static str,
    image: Slice,
    name: Slice,
    kind: u32,
    out: Slice,
    answer: Slice,
}

const NOTHING: Slice = Slice {
    start: std::ptr::null_mut(),
    len: 0,
};

impl Lent {
    fn to(call: &'static str, image: Slice, answer: Slice) -> Lent {
        Lent {
            call,
            image,
            name: NOTHING,
            kind: 1,
            out: NOTHING,
            answer,
        }
    }

    /// Whether the image, or track 18, has the size of some layout.
    fn has_a_size(&self) -> bool {
        match self.call {
            "listing" => self.image.len == TRACK_18_BYTES,
            _ => [IMAGE_BYTES, IMAGE_BYTES_40].contains(&self.image.len),
        }
    }

    fn name_is_bad(&self) -> bool {
        let name = unsafe { self.name.bytes() };
        name.is_empty() || name.len() > 16 || name.contains(&0xA0)
    }

    /// What the check says in the layout of the image's size.
    fn fault(&self) -> Option<u8> {
        let image = unsafe { self.image.bytes() };
        let found = independent::check::check(by_size(image.len()), image).number;
        (2..=8).contains(&found).then_some(found)
    }
}

// --- The libraries ----------------------------------------------------------

/// What is wrong with the layout.
enum Rule {
    /// Another one is taken, by the one named and the image's length.
    Takes(fn(u32, usize) -> u32),
    /// A refusal comes before 17.
    After(fn(&Lent) -> Option<u8>),
    /// 17 comes though the block has a wrong size.
    BeforeBlock,
    /// 17 leaves the block as it was.
    Leaves,
    /// 17 comes with another block, by the layout.
    With(fn(u32, &mut [u8])),
    /// 17 has cleared what was lent.
    Writes(fn(&Lent) -> Slice),
}
use Rule::{After, BeforeBlock, Leaves, Takes, With, Writes};

/// A library in which one call is wrong about the layout.
struct Layouts(&'static str, Rule);

impl Layouts {
    /// The call, given as what it does in a layout.
    unsafe fn call(&self, layout: u32, lent: Lent, run: impl Fn(u32) -> u32) -> u32 {
        let of_nine = lent.answer.len == BLOCK_BYTES;
        match &self.1 {
            _ if lent.call != self.0 => run(layout),
            Takes(taken) => run(taken(layout, lent.image.len)),
            _ if is_layout(layout) => run(layout),
            After(earlier) => match earlier(&lent).filter(|_| of_nine) {
                Some(number) => unsafe { give(lent.answer, Answer::refusal(number)) },
                None => run(layout),
            },
            BeforeBlock if !of_nine => 17,
            Leaves if of_nine => 17,
            BeforeBlock | Leaves => run(layout),
            _ if !of_nine => run(layout),
            With(edit) => {
                let number = run(layout);
                edit(layout, unsafe { lent.answer.bytes_mut() });
                number
            }
            Writes(cleared) => {
                unsafe { cleared(&lent).bytes_mut() }.fill(0);
                run(layout)
            }
        }
    }
}

impl EntryPoints for Layouts {
    unsafe fn check(&self, layout: u32, image: Slice, answer: Slice) -> u32 {
        let lent = Lent::to("check", image, answer);
        unsafe { self.call(layout, lent, |layout| Faithful.check(layout, image, answer)) }
    }

    unsafe fn format(
        &self,
        layout: u32,
        image: Slice,
        name: Slice,
        id1: u8,
        id2: u8,
        answer: Slice,
    ) -> u32 {
        let lent = Lent {
            name,
            ..Lent::to("format", image, answer)
        };
        let run = |layout| unsafe { Faithful.format(layout, image, name, id1, id2, answer) };
        unsafe { self.call(layout, lent, run) }
    }

    unsafe fn read(
        &self,
        layout: u32,
        image: Slice,
        name: Slice,
        out: Slice,
        answer: Slice,
    ) -> u32 {
        let lent = Lent {
            name,
            out,
            ..Lent::to("read", image, answer)
        };
        let run = |layout| unsafe { Faithful.read(layout, image, name, out, answer) };
        unsafe { self.call(layout, lent, run) }
    }

    unsafe fn store(
        &self,
        layout: u32,
        image: Slice,
        name: Slice,
        kind: u32,
        data: Slice,
        answer: Slice,
    ) -> u32 {
        let lent = Lent {
            name,
            kind,
            ..Lent::to("store", image, answer)
        };
        let run = |layout| unsafe { Faithful.store(layout, image, name, kind, data, answer) };
        unsafe { self.call(layout, lent, run) }
    }

    unsafe fn scratch(&self, layout: u32, image: Slice, name: Slice, answer: Slice) -> u32 {
        let lent = Lent {
            name,
            ..Lent::to("scratch", image, answer)
        };
        let run = |layout| unsafe { Faithful.scratch(layout, image, name, answer) };
        unsafe { self.call(layout, lent, run) }
    }

    unsafe fn tell(
        &self,
        layout: u32,
        image: Slice,
        position: usize,
        entry: Slice,
        answer: Slice,
    ) -> u32 {
        let lent = Lent {
            out: entry,
            ..Lent::to("tell", image, answer)
        };
        let run = |layout| unsafe { Faithful.tell(layout, image, position, entry, answer) };
        unsafe { self.call(layout, lent, run) }
    }

    unsafe fn listing(&self, layout: u32, track18: Slice, text: Slice, answer: Slice) -> u32 {
        let lent = Lent {
            out: text,
            ..Lent::to("listing", track18, answer)
        };
        let run = |layout| unsafe { Faithful.listing(layout, track18, text, answer) };
        unsafe { self.call(layout, lent, run) }
    }
}
