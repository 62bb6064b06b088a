//! Every call on every kind of image with every kind of argument, compared
//! with the plain model: number, place, report, and every byte of the image,
//! the output and the answer block.

mod model;

use independent::check::check;
use independent::generate::{generate, kinds, sound, SOUND};
use independent::host::block_of;
use independent::lists::room_of;
use independent::naive::contents;
use independent::request::{lent, perform, track_18_of, Call, Independent, Reply, Request};
use independent::rng::{for_layouts, Rng};
use independent::{answer::Answer, arguments};
use std::collections::BTreeMap;

/// Compares one call with the model; gives its number.
fn compare(image: &[u8], request: &Request, what: &str) -> u32 {
    let mut after = image.to_vec();
    let reply = perform(&Independent, &mut after, request).unwrap();
    let number = model::number(image, request);
    let shown = format!("{what}: {}", request.shown());
    assert_eq!(reply.number, number, "{shown}");
    if number == 0 {
        assert!(
            after == model::image_after(request.layout, image, &request.call),
            "image bytes, {shown}"
        );
    } else {
        assert!(after == image, "a refusal changed the image, {shown}");
    }
    compare_output(image, request, &reply, &shown);
    compare_block(image, request, &reply, &shown);
    number
}

/// The output buffer. The part past what is to be written, and all of it
/// after a refusal, is as lent.
fn compare_output(image: &[u8], request: &Request, reply: &Reply, shown: &str) {
    let mut written = Vec::new();
    if reply.number == 0 {
        written = model::output(request.layout, image, &request.call);
    }
    let mut out = lent(reply.out.len());
    out[..written.len()].copy_from_slice(&written);
    assert!(reply.out == out, "output bytes, {shown}");
}

fn compare_block(image: &[u8], request: &Request, reply: &Reply, shown: &str) {
    let expected = match reply.number {
        _ if request.block != 9 => lent(request.block),
        0 => {
            let (length, sectors) = model::report(request.layout, image, &request.call);
            block_of(&Answer::done(length, sectors)).to_vec()
        }
        2..=8 if matches!(request.call, Call::Listing { .. }) => {
            let fault = model::listing(request.layout, track_18_of(image)).unwrap_err();
            block_of(&fault).to_vec()
        }
        number @ 2..=8 => {
            let fault = model::fault(request.layout, image);
            assert_eq!(u32::from(fault.number), number, "{shown}");
            block_of(&fault).to_vec()
        }
        _ => vec![0, 0, 255, 0, 0, 0, 0, 0, 0],
    };
    assert_eq!(reply.block, expected, "{shown}");
}

#[test]
fn every_call_on_every_kind_of_image() {
    let mut numbers: BTreeMap<u32, usize> = BTreeMap::new();
    for_layouts(
        "every_call_on_every_kind_of_image",
        30,
        |layout, seed, rng| {
            for kind in kinds() {
                let made = generate(layout, &kind, seed).unwrap();
                let held = contents(layout, &made.image);
                for _ in 0..4 {
                    let mut request = arguments::request(layout, rng, held.as_ref());
                    request.layout = arguments::any_layout(layout, rng);
                    let number = compare(&made.image, &request, &kind);
                    *numbers.entry(number).or_default() += 1;
                }
            }
        },
    );
    // Every answer number must have been met, else the mix is too thin.
    if independent::rng::seeds(30).len() >= 30 {
        let met: Vec<u32> = numbers.keys().copied().collect();
        assert_eq!(met, (0..=17).collect::<Vec<u32>>(), "{numbers:?}");
    }
}

#[test]
fn calls_on_sound_images() {
    for_layouts("calls_on_sound_images", 30, |layout, _, rng| {
        for kind in SOUND {
            let image = sound(layout, kind, rng).unwrap().image;
            let held = contents(layout, &image);
            for _ in 0..6 {
                let request = arguments::request(layout, rng, held.as_ref());
                compare(&image, &request, kind);
            }
        }
    });
}

#[test]
fn read_after_store_and_scratch_after_that() {
    let mut stored = 0;
    for_layouts(
        "read_after_store_and_scratch_after_that",
        60,
        |layout, _, rng| {
            for kind in SOUND {
                let image = sound(layout, kind, rng).unwrap().image;
                stored += usize::from(store_read_scratch(layout, rng, image, kind));
            }
        },
    );
    if independent::rng::seeds(60).len() >= 60 {
        assert!(stored > 600, "only {stored} stores were done");
    }
}

/// Whether the store was done.
fn store_read_scratch(layout: u32, rng: &mut Rng, image: Vec<u8>, kind: &str) -> bool {
    let held = contents(layout, &image).unwrap();
    let names: Vec<Vec<u8>> = held.files.iter().map(|f| f.name.clone()).collect();
    let name = independent::sound::fresh_name(rng, true, &names);
    let data = arguments::data(layout, rng, held.free_off_track_18());
    let store = Call::Store {
        name: name.clone(),
        kind: 2,
        data: data.clone(),
    };
    let mut with = image.clone();
    if perform(&Independent, &mut with, &Request::of(layout, store))
        .unwrap()
        .number
        != 0
    {
        return false;
    }
    read_back(layout, &mut with, &name, &data, kind);
    scratch_leaves_zeros(layout, &mut with, name, kind);
    assert_eq!(check(layout, &with).number, 0, "{kind}");
    true
}

fn read_back(layout: u32, image: &mut [u8], name: &[u8], data: &[u8], kind: &str) {
    let read = Call::Read {
        name: name.to_vec(),
        room: data.len(),
    };
    let reply = perform(&Independent, image, &Request::of(layout, read)).unwrap();
    let report = (reply.number, reply.length() as usize);
    assert_eq!(report, (0, data.len()), "{kind}");
    assert!(reply.out == data, "{kind}: read gave other bytes");
}

fn scratch_leaves_zeros(layout: u32, image: &mut [u8], name: Vec<u8>, kind: &str) {
    let held = contents(layout, image).unwrap();
    let taken = model::find(&held, &name).unwrap().chain.clone();
    let reply = perform(
        &Independent,
        image,
        &Request::of(layout, Call::Scratch { name }),
    )
    .unwrap();
    let report = (reply.number, usize::from(reply.sectors()));
    assert_eq!(report, (0, taken.len()), "{kind}");
    for (track, sector) in taken {
        let at = 256 * independent::naive::position(track, sector).unwrap();
        let zero = image[at..at + 256].iter().all(|&byte| byte == 0);
        assert!(zero, "{kind}: codes are left");
    }
}

/// Scratches every file of an image, one after the other.
#[test]
fn scratch_of_everything() {
    for_layouts("scratch_of_everything", 4, |layout, _, rng| {
        for kind in SOUND {
            let mut image = sound(layout, kind, rng).unwrap().image;
            image[91_394] = 0x41;
            let held = contents(layout, &image).unwrap();
            let mut names: Vec<Vec<u8>> = held.files.iter().map(|f| f.name.clone()).collect();
            rng.shuffle(&mut names);
            for name in names {
                let request = Request::of(layout, Call::Scratch { name });
                assert_eq!(compare(&image, &request, kind), 0, "{kind}");
                perform(&Independent, &mut image, &request);
            }
            let held = contents(layout, &image).unwrap();
            assert_eq!(
                (held.files.len(), held.free_off_track_18()),
                (0, room_of(layout)),
                "{kind}"
            );
        }
    });
}
