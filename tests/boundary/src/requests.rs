//! The requests on one image of a round, by what is on it.

use independent::arguments::{
    any_layout, data, entry_room, kind, name, position, room, unknown_layout, with_block,
    wrong_name,
};
use independent::geometry::{Geometry, IMAGE_BYTES, LAYOUTS, TRACK_18_BYTES};
use independent::listing::{listing, LONGEST};
use independent::lists::room_of;
use independent::naive::{accepted, contents, Contents};
use independent::request::{track_18_of, Call, Request};
use independent::rng::Rng;
use independent::sound::fresh_name;

/// Lengths of data at the edges: of a sector, of a fresh disk, past any disk.
const LENGTHS: [usize; 10] = [0, 0, 1, 253, 254, 255, 256, 508, 509, 510];

fn length(layout: u32, rng: &mut Rng) -> usize {
    let fresh = 254 * room_of(layout);
    let long = [fresh, fresh + 1, 200_000];
    rng.pick(&[&LENGTHS[..], &long].concat())
}

/// What is lent of an image, each with the requests on it in turn: the image,
/// and track 18 or what a caller may take for it.
pub fn lent_parts(layout: u32, rng: &mut Rng, image: &[u8]) -> [(Vec<u8>, Vec<Request>); 2] {
    let track18 = track_18(rng, image);
    let listings = listing_requests(layout, rng, &track18);
    [
        (image.to_vec(), image_requests(layout, rng, image)),
        (track18, listings),
    ]
}

/// Track 18 of an image, now and then of a wrong size; any bytes that are no
/// image are lent as they are.
fn track_18(rng: &mut Rng, image: &[u8]) -> Vec<u8> {
    let mut bytes = track_18_of(image).to_vec();
    if rng.one_in(16) {
        const SIZES: [usize; 8] = [0, 1, 256, 4_608, 4_863, 4_865, 5_120, IMAGE_BYTES - 1];
        bytes.resize(rng.pick(&SIZES), rng.byte());
    }
    bytes
}

/// Check, and reads, tells, stores and scratches in any order; now and then a
/// format after them. An image that isn't accepted refuses all alike but a
/// format, so it gets fewer of them.
fn image_requests(layout: u32, rng: &mut Rng, image: &[u8]) -> Vec<Request> {
    let held = contents(layout, image);
    let mut names = match &held {
        Some(held) => held.files.iter().map(|file| file.name.clone()).collect(),
        None => names_seen(image),
    };
    let free = held.as_ref().map_or(100, Contents::free_off_track_18);
    let again = if held.is_some() { 3 } else { 1 };
    let mut calls = vec![Call::Check];
    for _ in 0..again {
        calls.push(read_call(rng, held.as_ref(), &names));
        calls.push(tell_call(rng, names.len()));
        calls.push(store_call(layout, rng, &mut names, free));
        calls.push(scratch_call(rng, &names));
    }
    rng.shuffle(&mut calls);
    if is_wrong_size(layout, image) || rng.one_in(3) {
        calls.push(format_call(rng, &names));
        calls.push(store_call(layout, rng, &mut names, room_of(layout)));
    }
    let named = layouts_named(layout, rng, image, calls.len());
    let with_block = |(layout, call)| with_block(layout, rng, call);
    named.into_iter().zip(calls).map(with_block).collect()
}

fn is_wrong_size(layout: u32, image: &[u8]) -> bool {
    Geometry::of(layout).is_some_and(|geometry| image.len() != geometry.image_bytes())
}

/// The layouts that the calls name in turn: mostly the image's own. Where
/// another one accepts the image too, the calls from one of them on name that;
/// where the size is wrong, which comes after an unknown layout, more are none.
fn layouts_named(layout: u32, rng: &mut Rng, image: &[u8], calls: usize) -> Vec<u32> {
    let accepts = |other: &u32| *other != layout && accepted(*other, image);
    let other = LAYOUTS.into_iter().find(accepts);
    let change = rng.below(calls);
    let unknown = if is_wrong_size(layout, image) { 3 } else { 16 };
    (0..calls)
        .map(|turn| match other {
            Some(other) if turn >= change => other,
            _ if rng.one_in(unknown) => unknown_layout(rng),
            _ => any_layout(layout, rng),
        })
        .collect()
}

/// What stands for a name in the slots of track 18, linked or not: a call may
/// ask for it on a damaged image too.
fn names_seen(image: &[u8]) -> Vec<Vec<u8>> {
    let track18 = track_18_of(image);
    if track18.len() != TRACK_18_BYTES {
        return Vec::new();
    }
    let slots = track18[256..].chunks(32).filter(|slot| slot[2] != 0);
    let name = |slot: &[u8]| {
        slot[5..21]
            .split(|&byte| byte == 0xA0)
            .next()
            .map(<[u8]>::to_vec)
    };
    slots
        .filter_map(name)
        .filter(|name| !name.is_empty())
        .collect()
}

fn read_call(rng: &mut Rng, held: Option<&Contents>, names: &[Vec<u8>]) -> Call {
    let name = name(rng, names);
    let files = held.map_or(&[][..], |held| &held.files[..]);
    let file = files.iter().find(|file| file.name == name);
    let needed = file.map_or(300, |file| file.bytes.len());
    let room = room(rng, needed);
    Call::Read { name, room }
}

fn tell_call(rng: &mut Rng, files: usize) -> Call {
    Call::Tell {
        position: position(rng, files),
        room: entry_room(rng),
    }
}

/// A store, mostly of a new name, which the calls made up after it may ask
/// for.
fn store_call(layout: u32, rng: &mut Rng, names: &mut Vec<Vec<u8>>, free: usize) -> Call {
    let name = if rng.one_in(4) {
        name(rng, names)
    } else {
        let odd = rng.one_in(3);
        let fresh = fresh_name(rng, odd, names);
        names.push(fresh.clone());
        fresh
    };
    let data = if rng.one_in(3) {
        let length = length(layout, rng);
        rng.bytes(length)
    } else {
        data(layout, rng, free)
    };
    Call::Store {
        name,
        kind: kind(rng),
        data,
    }
}

fn scratch_call(rng: &mut Rng, names: &[Vec<u8>]) -> Call {
    Call::Scratch {
        name: name(rng, names),
    }
}

fn format_call(rng: &mut Rng, names: &[Vec<u8>]) -> Call {
    let name = match rng.one_in(4) {
        true => wrong_name(rng),
        false => name(rng, names),
    };
    Call::Format {
        name,
        id1: rng.byte(),
        id2: rng.byte(),
    }
}

/// Two listings: room at the edges of the text's length, and the room that
/// always suffices.
fn listing_requests(layout: u32, rng: &mut Rng, track18: &[u8]) -> Vec<Request> {
    let answer = listing(layout, track18, &mut [0; LONGEST]);
    let edge = room(rng, answer.length as usize);
    let rooms = [edge, rng.pick(&[LONGEST, LONGEST, 0, LONGEST + 1])];
    rooms
        .map(|room| with_block(any_layout(layout, rng), rng, Call::Listing { room }))
        .to_vec()
}
