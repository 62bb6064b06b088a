//! The wrong libraries of tests/boundary, each the independent program with
//! one fault, behind the C signatures: to see which of them the fuzzer finds.
//! `c/wrong_rows.c` has the prototypes.

#[allow(dead_code)]
#[path = "../../../boundary/tests/wrong/mod.rs"]
mod wrong;

use boundary::calls::{EntryPoints, Slice};
use std::sync::atomic::{AtomicUsize, Ordering};
use wrong::{
    counting, formatting, last_tracks, layouts, masks, place, reading, scratching, spare, stored,
    storing, usr, Row,
};

static CHOSEN: AtomicUsize = AtomicUsize::new(0);

fn rows() -> impl Iterator<Item = &'static Row> {
    [
        reading::WRONG,
        formatting::WRONG,
        storing::WRONG,
        stored::WRONG,
        scratching::WRONG,
        usr::WRONG,
        spare::WRONG,
        place::WRONG,
        masks::WRONG,
        masks::OTHER_CALLS,
        counting::WRONG,
        counting::STORES,
        layouts::WRONG,
        last_tracks::WRONG,
    ]
    .into_iter()
    .flatten()
}

/// The library chosen.
fn library() -> &'static dyn EntryPoints {
    let row = rows().nth(CHOSEN.load(Ordering::Relaxed));
    row.expect("a row that was chosen").1
}

/// Chooses a row and prints what is wrong with it; false if there is none.
#[no_mangle]
extern "C" fn wrong_choose(row: usize) -> bool {
    CHOSEN.store(row, Ordering::Relaxed);
    let found = rows().nth(row);
    if let Some((what, ..)) = found {
        eprintln!("wrong: {what}");
    }
    found.is_some()
}

fn slice(start: *const u8, len: usize) -> Slice {
    let start = start.cast_mut();
    Slice { start, len }
}

#[no_mangle]
unsafe extern "C" fn wrong_check(
    layout: u32,
    i: *const u8,
    il: usize,
    a: *mut u8,
    al: usize,
) -> u32 {
    unsafe { library().check(layout, slice(i, il), slice(a, al)) }
}

#[no_mangle]
unsafe extern "C" fn wrong_format(
    layout: u32,
    i: *mut u8,
    il: usize,
    n: *const u8,
    nl: usize,
    id1: u8,
    id2: u8,
    a: *mut u8,
    al: usize,
) -> u32 {
    unsafe { library().format(layout, slice(i, il), slice(n, nl), id1, id2, slice(a, al)) }
}

#[no_mangle]
unsafe extern "C" fn wrong_read(
    layout: u32,
    i: *const u8,
    il: usize,
    n: *const u8,
    nl: usize,
    o: *mut u8,
    ol: usize,
    a: *mut u8,
    al: usize,
) -> u32 {
    unsafe {
        library().read(
            layout,
            slice(i, il),
            slice(n, nl),
            slice(o, ol),
            slice(a, al),
        )
    }
}

#[no_mangle]
unsafe extern "C" fn wrong_store(
    layout: u32,
    i: *mut u8,
    il: usize,
    n: *const u8,
    nl: usize,
    kind: u32,
    d: *const u8,
    dl: usize,
    a: *mut u8,
    al: usize,
) -> u32 {
    let (image, name, data) = (slice(i, il), slice(n, nl), slice(d, dl));
    unsafe { library().store(layout, image, name, kind, data, slice(a, al)) }
}

#[no_mangle]
unsafe extern "C" fn wrong_scratch(
    layout: u32,
    i: *mut u8,
    il: usize,
    n: *const u8,
    nl: usize,
    a: *mut u8,
    al: usize,
) -> u32 {
    unsafe { library().scratch(layout, slice(i, il), slice(n, nl), slice(a, al)) }
}

#[no_mangle]
unsafe extern "C" fn wrong_tell(
    layout: u32,
    i: *const u8,
    il: usize,
    position: usize,
    e: *mut u8,
    el: usize,
    a: *mut u8,
    al: usize,
) -> u32 {
    unsafe { library().tell(layout, slice(i, il), position, slice(e, el), slice(a, al)) }
}

#[no_mangle]
unsafe extern "C" fn wrong_listing(
    layout: u32,
    t: *const u8,
    tl: usize,
    o: *mut u8,
    ol: usize,
    a: *mut u8,
    al: usize,
) -> u32 {
    unsafe { library().listing(layout, slice(t, tl), slice(o, ol), slice(a, al)) }
}
