//! Sound images of every kind: accepted by both tests, and every call that
//! only looks gives what the generator placed.

mod model;

use independent::calls::{read, tell, Told};
use independent::check::{check, examine, DIRECTORY, FILES, MAP, NOBODY};
use independent::generate::{sound, SOUND};
use independent::geometry::LAYOUTS;
use independent::listing::sleeve_output;
use independent::naive::{
    accepted, contents, last_track, other_entries, spare_bits, track_length, Contents, Owner,
};
use independent::request::lent;
use independent::rng::{for_layouts, Rng};
use independent::sound::{map_offset, Plan, Planned};
use std::collections::BTreeSet;

#[test]
fn every_sound_image_is_accepted() {
    for_layouts("every_sound_image_is_accepted", 60, |layout, _, rng| {
        for kind in SOUND {
            let plan = sound(layout, kind, rng).unwrap();
            assert_eq!(
                check(layout, &plan.image),
                independent::answer::Answer::done(0, 0),
                "{kind}"
            );
            let held =
                contents(layout, &plan.image).unwrap_or_else(|| panic!("{kind}: naive refuses"));
            same_as_planned(&plan, &held, kind);
            same_owners(&plan, &held, kind);
        }
    });
}

fn same_as_planned(plan: &Plan, held: &Contents, kind: &str) {
    assert_eq!(held.directory, plan.directory, "{kind}");
    assert_eq!(held.files.len(), plan.files.len(), "{kind}");
    for (file, planned) in held.files.iter().zip(&plan.files) {
        assert_eq!(file.slot, planned.slot, "{kind}");
        assert_eq!(file.name, planned.name, "{kind}");
        assert_eq!(file.type_byte, planned.type_byte, "{kind}");
        assert_eq!(file.chain, planned.chain, "{kind}");
        let length = 254 * (planned.chain.len() - 1) + usize::from(planned.n) - 1;
        assert_eq!(file.bytes.len(), length, "{kind}");
    }
}

/// The check's owner table says what the claims say.
fn same_owners(plan: &Plan, held: &Contents, kind: &str) {
    let Ok(found) = examine(plan.layout, &plan.image) else {
        panic!("{kind}: the check refuses");
    };
    assert_eq!(found.directory.sectors(), plan.directory, "{kind}");
    assert_eq!(found.owners().len(), held.owners.len(), "{kind}");
    for (number, owner) in found.owners().iter().zip(&held.owners) {
        let expected = match owner {
            Owner::Nobody => NOBODY,
            Owner::Map => MAP,
            Owner::Directory => DIRECTORY,
            Owner::File(slot) => FILES + *slot as u16,
        };
        assert_eq!(*number, expected, "{kind}");
    }
}

#[test]
fn read_tell_and_listing_of_sound_images() {
    for_layouts(
        "read_tell_and_listing_of_sound_images",
        12,
        |layout, _, rng| {
            for kind in SOUND {
                let plan = sound(layout, kind, rng).unwrap();
                let held = contents(layout, &plan.image).unwrap();
                for (position, file) in held.files.iter().enumerate() {
                    let mut out = lent(file.bytes.len() + 3);
                    let answer = read(layout, &plan.image, &file.name, &mut out);
                    assert_eq!(answer.number, 0, "{kind}");
                    assert_eq!(answer.length as usize, file.bytes.len(), "{kind}");
                    assert_eq!(usize::from(answer.sectors), file.chain.len(), "{kind}");
                    assert_eq!(out[..file.bytes.len()], file.bytes[..], "{kind}");
                    let rest = file.bytes.len();
                    assert_eq!(out[rest..], lent(rest + 3)[rest..], "{kind}");
                    let (answer, told) = tell(layout, &plan.image, position);
                    assert_eq!((answer.number, told), (0, model::told(file)), "{kind}");
                }
                let (answer, told) = tell(layout, &plan.image, held.files.len());
                assert_eq!((answer.number, told), (13, Told::default()), "{kind}");
                let text = model::listing(layout, &plan.image[91_392..96_256]).unwrap();
                let argument = layout.to_string();
                let printed = sleeve_output(Some(argument.as_bytes()), &plan.image);
                assert_eq!(printed, text.as_bytes(), "{kind}");
            }
        },
    );
}

/// The generator reaches what it promises in each layout, so that the tests
/// above mean something.
#[test]
fn the_generator_reaches_every_shape() {
    for layout in LAYOUTS {
        let mut missing: BTreeSet<&str> = BTreeSet::from(["a first image"]);
        for seed in 0..80 {
            let rng = &mut Rng::new(seed);
            for (at, kind) in SOUND.iter().enumerate() {
                let plan = sound(layout, kind, rng).unwrap();
                let features = [features_of(&plan), features_of_layout(&plan)].concat();
                if (seed, at) == (0, 0) {
                    missing = features.iter().map(|(what, _)| *what).collect();
                }
                for (what, _) in features.iter().filter(|(_, holds)| *holds) {
                    missing.remove(what);
                }
            }
        }
        assert!(missing.is_empty(), "layout {layout}: {missing:?}");
    }
}

/// What the bytes that are a map entry in another layout alone may hold
/// (02, §8), and whether they do.
fn features_of_layout(plan: &Plan) -> Vec<(&'static str, bool)> {
    let others = other_entries(plan.layout, &plan.image);
    let fresh = |entry: &[u8]| entry == [0x11, 0xFF, 0xFF, 0x01];
    let mut features = vec![
        ("other entries: 0", others.iter().all(|byte| *byte == 0)),
        ("other entries: fresh", others.chunks(4).all(fresh)),
    ];
    if plan.layout == 0 {
        return features;
    }
    let in_both = accepted(3 - plan.layout, &plan.image);
    let [spare, other] = [plan.layout, 3 - plan.layout].map(|l| spare_bits(l, &plan.image));
    let extra = plan.files.iter().any(|file| file.chain[0].0 > 35);
    features.extend([
        ("accepted in both", in_both),
        ("accepted in both, with files there", in_both && extra),
        (
            "accepted in both, other spare bits",
            in_both && spare != other,
        ),
        ("accepted in one", !in_both),
    ]);
    features.extend(features_of_extra_tracks(plan));
    features
}

/// How files may lie on tracks 36 to 40.
fn features_of_extra_tracks(plan: &Plan) -> [(&'static str, bool); 6] {
    let any = |test: fn(&Planned) -> bool| plan.files.iter().any(test);
    let from_35 = |f: &Planned| f.chain.windows(2).any(|w| (w[0].0, w[1].0) == (35, 36));
    let alone = |f: &Planned| f.chain.iter().all(|place| place.0 > 35);
    let counts = |count: u8| {
        let of = |track| plan.image[map_offset(plan.layout, track)];
        (36..=40).all(|track| of(track) == count)
    };
    [
        ("from track 35 to 36", any(from_35)),
        ("a file on tracks 36 to 40 alone", any(alone)),
        ("a file on 40/16", any(|f| f.chain.contains(&(40, 16)))),
        ("a file on 36/0", any(|f| f.chain.contains(&(36, 0)))),
        ("tracks 36 to 40 are empty", counts(17)),
        ("tracks 36 to 40 are full", counts(0)),
    ]
}

/// Features that a shape may have, and whether this one has them.
fn features_of(plan: &Plan) -> Vec<(&'static str, bool)> {
    let held = contents(plan.layout, &plan.image).unwrap();
    let any = |test: fn(&Planned) -> bool| plan.files.iter().any(test);
    let slots = 8 * plan.directory.len();
    let full = plan.files.len() == slots && slots < 144;
    let free18 = held.owners[357..376].contains(&Owner::Nobody);
    let spare = spare_bits(plan.layout, &plan.image);
    let longest = |f: &Planned| f.chain.len() == held.owners.len() - 2;
    vec![
        ("no file", plan.files.is_empty()),
        ("144 files", plan.files.len() == 144),
        (
            "descending directory",
            plan.directory.windows(2).any(|w| w[0] > w[1]),
        ),
        ("file on track 18", any(|f| f.chain[0].0 == 18)),
        ("locked file", any(|f| f.type_byte > 0xC0)),
        ("USR file", any(|f| f.type_byte == 0x83)),
        ("locked USR file", any(|f| f.type_byte == 0xC3)),
        (
            "n = 1 after a full sector",
            any(|f| f.n == 1 && f.chain.len() > 1),
        ),
        ("empty file", any(|f| f.n == 1 && f.chain.len() == 1)),
        ("no free sector", !held.owners.contains(&Owner::Nobody)),
        ("no room for files", held.free_off_track_18() == 0),
        ("the longest file", plan.files[..].iter().any(longest)),
        ("name with 00", any(|f| f.name.contains(&0))),
        ("name of 16 bytes", any(|f| f.name.len() == 16)),
        (
            "other DOS version",
            ![0x41, 0].contains(&plan.image[91_394]),
        ),
        ("full slots, track 18 free", full && free18),
        ("full slots, track 18 taken", full && !free18),
        ("no spare bit", !spare.contains(&true)),
        ("every spare bit", !spare.contains(&false)),
        ("every second sector free", has_comb(plan)),
        ("back to a track for a run", any(back_for_a_run)),
        ("six times between two tracks", any(is_zigzag)),
        ("back to track 18", any(|f| times_on(18, f) > 1)),
        ("ten times on one track", any(ten_times_on_one)),
        (
            "from the last track to track 1",
            plan.files.iter().any(|f| from_last_to_1(plan, f)),
        ),
        ("one sector number on ten tracks", any(one_number_on_ten)),
    ]
}

/// The tracks of a chain in turn, each with the sectors taken there at once.
fn runs(file: &Planned) -> Vec<(u8, usize)> {
    let on_one = file.chain.chunk_by(|one, two| one.0 == two.0);
    on_one.map(|run| (run[0].0, run.len())).collect()
}

fn times_on(track: u8, file: &Planned) -> usize {
    runs(file).iter().filter(|run| run.0 == track).count()
}

fn ten_times_on_one(file: &Planned) -> bool {
    (1..=40).any(|track| times_on(track, file) > 9)
}

fn from_last_to_1(plan: &Plan, file: &Planned) -> bool {
    let crosses = |w: &[(u8, u8)]| (w[0].0, w[1].0) == (last_track(plan.layout), 1);
    file.chain.windows(2).any(crosses)
}

fn one_number_on_ten(file: &Planned) -> bool {
    let alike = |w: &[(u8, u8)]| w.iter().all(|place| place.1 == w[0].1);
    file.chain.windows(10).any(alike)
}

/// Two sectors or more of a track, some of another, and again two of the first.
fn back_for_a_run(file: &Planned) -> bool {
    let back = |w: &[(u8, usize)]| w[0].0 == w[2].0 && w[0].1 > 1 && w[2].1 > 1;
    runs(file).windows(3).any(back)
}

fn is_zigzag(file: &Planned) -> bool {
    let tracks: Vec<u8> = runs(file).iter().map(|run| run.0).collect();
    let between = |w: &[u8]| w.iter().zip(&w[2..]).all(|(one, two)| one == two);
    tracks.windows(6).any(between)
}

/// Of some track every second sector is free, and no other.
fn has_comb(plan: &Plan) -> bool {
    (1..=last_track(plan.layout)).any(|track| {
        let entry = &plan.image[map_offset(plan.layout, track)..][..4];
        let own = (1 << track_length(track)) - 1;
        let bits = u32::from_le_bytes([entry[1], entry[2], entry[3], 0]) & own;
        bits == 0x55_5555 & own || bits == 0xAA_AAAA & own
    })
}
