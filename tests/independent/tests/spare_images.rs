//! Bits past a track's last sector (02, §5), here called spare, on generated
//! images of every layout. Examples by hand are in tests/spare_bits.rs.

use independent::arguments;
use independent::calls::{scratch, store};
use independent::check::check;
use independent::generate::{generate, kinds, sound, SOUND};
use independent::geometry::{Geometry, LAYOUTS};
use independent::naive::{accepted, contents, last_track, spare_bits};
use independent::request::{perform, Call, Independent};
use independent::rng::{for_layouts, Rng};
use independent::sound::{fresh_name, map_offset, spare_mask};
use std::collections::BTreeMap;

/// The spare bits of a map: three of each track of 21 sectors, and so on.
fn spare_of(layout: u32) -> usize {
    match layout {
        0 => 17 * 3 + 7 * 5 + 6 * 6 + 5 * 7,
        _ => 17 * 3 + 7 * 5 + 6 * 6 + 10 * 7,
    }
}

fn is_whole(layout: u32, image: &[u8]) -> bool {
    Geometry::of(layout).is_some_and(|geometry| geometry.image_bytes() == image.len())
}

/// The image with other spare bits: a byte for each track, of which the spare
/// bits are taken.
fn with_spare(layout: u32, image: &[u8], mut byte: impl FnMut(u8) -> u8) -> Vec<u8> {
    let mut image = image.to_vec();
    for track in 1..=last_track(layout) {
        let last = &mut image[map_offset(layout, track) + 3];
        *last = *last & !spare_mask(track) | byte(track) & spare_mask(track);
    }
    image
}

/// The entries of all tracks but 18, and that of track 18.
fn entries(layout: u32, image: &[u8]) -> (Vec<u8>, Vec<u8>) {
    let of = |track| image[map_offset(layout, track)..][..4].to_vec();
    let others = (1..=last_track(layout)).filter(|track| *track != 18);
    (others.flat_map(of).collect(), of(18))
}

/// On all bytes, damaged images among them, the answer and the place are those
/// of the same image with other spare bits. So what was accepted before, with
/// zeros there, is accepted still.
#[test]
fn no_answer_of_the_check_hangs_on_them() {
    let mut refused = 0;
    for_layouts(
        "no_answer_of_the_check_hangs_on_them",
        12,
        |layout, seed, rng| {
            for kind in kinds() {
                let image = generate(layout, &kind, seed).unwrap().image;
                if !is_whole(layout, &image) {
                    continue;
                }
                let owed = check(layout, &with_spare(layout, &image, |_| 0));
                refused += usize::from(owed.number != 0);
                assert_eq!(check(layout, &image), owed, "{kind}");
                assert_eq!(
                    check(layout, &with_spare(layout, &image, |_| 0xFF)),
                    owed,
                    "{kind}"
                );
                let image = with_spare(layout, &image, |_| rng.byte());
                assert_eq!(check(layout, &image), owed, "{kind}");
                assert_eq!(accepted(layout, &image), owed.number == 0, "{kind}");
            }
        },
    );
    assert!(refused > 0);
}

/// Every call on every kind of image, with two sets of spare bits: it answers
/// alike, writes the same to the output, and leaves the same image but for
/// them. They stay, or are 0 after a format.
#[test]
fn every_call_does_the_same_whatever_they_are() {
    let mut done = BTreeMap::new();
    for_layouts(
        "every_call_does_the_same_whatever_they_are",
        12,
        |layout, seed, rng| {
            for kind in kinds() {
                let image = generate(layout, &kind, seed).unwrap().image;
                if !is_whole(layout, &image) {
                    continue;
                }
                for _ in 0..3 {
                    let word = same_on_other(layout, rng, &image, &kind);
                    *done.entry(word).or_insert(0) += 1;
                }
            }
        },
    );
    if independent::rng::seeds(12).len() >= 12 {
        let wanted = [
            "Format", "Store", "Scratch", "Read", "Listing", "Tell", "Check",
        ];
        let few = wanted
            .iter()
            .any(|word| done.get(*word).copied() < Some(45));
        assert!(!few, "{done:?}");
    }
}

/// One call on two images. Gives its word if it was done.
fn same_on_other(layout: u32, rng: &mut Rng, image: &[u8], kind: &str) -> String {
    let request = arguments::request(layout, rng, contents(layout, image).as_ref());
    let shown = format!("{kind}: {}", request.shown());
    let other = with_spare(layout, image, |_| rng.byte());
    let (mut after, mut other_after) = (image.to_vec(), other.clone());
    let reply = perform(&Independent, &mut after, &request).unwrap();
    let other_reply = perform(&Independent, &mut other_after, &request).unwrap();
    assert!(reply == other_reply, "{shown}");
    let bare = with_spare(layout, &other_after, |_| 0);
    assert!(with_spare(layout, &after, |_| 0) == bare, "{shown}");
    let formatted = matches!(request.call, Call::Format { .. }) && reply.number == 0;
    for (old, new) in [(image, &after), (&other, &other_after)] {
        let owed = match formatted {
            true => vec![false; spare_of(layout)],
            false => spare_bits(layout, old),
        };
        assert_eq!(spare_bits(layout, new), owed, "{shown}");
    }
    let word = request.shown().split(' ').next().unwrap().to_string();
    match reply.number {
        0 => word,
        _ => String::new(),
    }
}

/// The entries are as before, bit by bit; that of track 18 only if the
/// directory didn't grow.
#[test]
fn store_then_scratch_restores_every_entry() {
    let mut restored = 0;
    for_layouts(
        "store_then_scratch_restores_every_entry",
        10,
        |layout, _, rng| {
            for kind in SOUND {
                let mut image = sound(layout, kind, rng).unwrap().image;
                image[91_394] = 0x41;
                let held = contents(layout, &image).unwrap();
                let names: Vec<Vec<u8>> = held.files.iter().map(|f| f.name.clone()).collect();
                let name = fresh_name(rng, true, &names);
                let data = arguments::data(layout, rng, held.free_off_track_18());
                let before = entries(layout, &image);
                if store(layout, &mut image, &name, 2, &data).number != 0 {
                    continue;
                }
                assert_eq!(scratch(layout, &mut image, &name).number, 0, "{kind}");
                let grown = contents(layout, &image).unwrap().directory != held.directory;
                let after = entries(layout, &image);
                assert_eq!(before.0, after.0, "{kind}");
                assert!(grown || before.1 == after.1, "{kind}");
                restored += usize::from(spare_bits(layout, &image).contains(&true));
            }
        },
    );
    if independent::rng::seeds(10).len() >= 10 {
        assert!(restored > 75, "{restored}");
    }
}

// --- The generator --------------------------------------------------------

/// Each kind of sound image has none of them set, all, one, and some, often
/// enough to be noticed; one set alone is found on every zone.
#[test]
fn generated_images_have_them_in_every_way() {
    for layout in LAYOUTS {
        have_them_in_every_way(layout);
    }
}

fn have_them_in_every_way(layout: u32) {
    let all = spare_of(layout);
    let mut lone = BTreeMap::new();
    for kind in SOUND {
        let mut ways = [0; 4];
        for seed in 0..60 {
            let image = generate(layout, kind, seed).unwrap().image;
            let bits = spare_bits(layout, &image);
            assert_eq!(bits.len(), all);
            let ones = bits.iter().filter(|bit| **bit).count();
            ways[match ones {
                0 => 0,
                1 => 2,
                ones if ones == all => 1,
                _ => 3,
            }] += 1;
            let at = bits.iter().position(|bit| *bit).unwrap_or(0);
            if ones == 1 {
                *lone.entry([51, 86, 122].map(|end| at < end)).or_insert(0) += 1;
            }
        }
        assert!(ways.iter().all(|times| *times >= 5), "{kind}: {ways:?}");
    }
    assert!(
        lone.len() == 4 && lone.values().all(|times| *times >= 10),
        "{lone:?}"
    );
}
