//! All kinds of images by name and seed: sound ones, damaged ones, and bytes
//! that are no image at all.

use crate::answer::{Answer, BAD_LINK, MAP_WRONG, NONE, WRONG_SIZE};
use crate::damage::{apply, pair, Fault, FAULTS};
use crate::geometry::{Geometry, TRACK_18_BYTES, TRACK_18_OFFSET};
use crate::rng::Rng;
use crate::sound::{build, offset, Fill, Plan, Shape, Weave};

/// An image, and the check's answer where the generator knows it exactly.
pub struct Generated {
    pub image: Vec<u8>,
    pub expected: Option<Answer>,
}

/// The kinds of sound images.
pub const SOUND: &[&str] = &[
    "fresh",
    "few",
    "scattered",
    "many",
    "holes",
    "full-directory",
    "full-slots",
    "full-disk",
    "nearly-full",
    "crammed",
    "huge",
    "track-18",
    "odd-names",
    "locked",
    "edge-ends",
    "any",
    "zigzag",
    "rounds",
    "runs",
    "comb",
    "last-tracks",
    "two-maps",
];

/// The other kinds, besides "fault-" followed by a name of `FAULTS`.
pub const BROKEN: &[&str] = &[
    "fault",
    "pair",
    "flips",
    "flips-18",
    "flips-links",
    "random-18",
    "random",
    "zeros",
    "ones",
    "wrong-size",
];

/// Sizes that are not an image's, that of the other number of tracks among them.
pub fn wrong_sizes(layout: u32) -> [usize; 16] {
    match layout {
        0 => [
            0, 1, 2, 255, 256, 4_863, 4_864, 4_865, 91_392, 174_592, 174_847, 174_849, 175_104,
            175_531, 196_608, 197_376,
        ],
        _ => [
            0, 1, 2, 255, 256, 4_863, 4_864, 4_865, 91_392, 174_848, 175_531, 196_352, 196_607,
            196_609, 196_864, 197_376,
        ],
    }
}

/// Every kind's name.
pub fn kinds() -> Vec<String> {
    let faults = FAULTS.iter().map(|(name, _)| format!("fault-{name}"));
    SOUND
        .iter()
        .chain(BROKEN)
        .map(|name| name.to_string())
        .chain(faults)
        .collect()
}

/// One image of a kind in a layout; `None` if there is no such kind or layout.
pub fn generate(layout: u32, kind: &str, seed: u64) -> Option<Generated> {
    // Layouts differ on one seed.
    let rng = &mut Rng::new(seed ^ 0xD64 ^ u64::from(layout) << 40);
    if let Some(plan) = sound(layout, kind, rng) {
        return Some(Generated {
            image: plan.image,
            expected: Some(Answer::done(0, 0)),
        });
    }
    if let Some(name) = kind.strip_prefix("fault-") {
        let at = FAULTS.iter().position(|(known, _)| *known == name)?;
        Geometry::of(layout)?;
        return Some(planted(layout, rng, at));
    }
    broken(layout, kind, rng)
}

/// A sound image of a kind, with the plan it was built by.
pub fn sound(layout: u32, kind: &str, rng: &mut Rng) -> Option<Plan> {
    Geometry::of(layout)?;
    let shape = shape(kind, rng)?;
    Some(build(layout, rng, &shape))
}

fn shape(kind: &str, rng: &mut Rng) -> Option<Shape> {
    let mut shape = Shape::any(rng);
    (shape.files, shape.directory) = match kind {
        "any" => (shape.files, shape.directory),
        "fresh" => (0, shape.directory),
        "few" => (rng.range(1, 6), shape.directory),
        "scattered" => (rng.range(20, 60), rng.range(8, 18)),
        "many" => (rng.range(100, 144), 18),
        "holes" => (rng.range(4, 30), rng.range(5, 18)),
        "full-directory" => (144, 18),
        "full-slots" | "crammed" => {
            let directory = rng.range(1, 17);
            (8 * directory, directory)
        }
        "full-disk" => (rng.range(1, 80), rng.range(10, 18)),
        "nearly-full" => (rng.range(1, 40), rng.range(5, 18)),
        "huge" => (1, rng.pick(&[1, 2, 18])),
        "track-18" => {
            let directory = rng.range(1, 6);
            (rng.pick(&[1, 3, 8 * directory]), directory)
        }
        "odd-names" | "locked" | "edge-ends" => (rng.range(1, 40), 5),
        "zigzag" | "rounds" | "runs" | "comb" => (rng.range(1, 12), rng.range(2, 9)),
        "last-tracks" => (rng.range(1, 24), rng.range(3, 9)),
        "two-maps" => (rng.range(0, 24), rng.range(3, 9)),
        _ => return None,
    };
    set_details(kind, rng, &mut shape);
    set_weave(kind, rng, &mut shape);
    Some(shape)
}

/// What else a kind asks for; the rest stays left to chance.
fn set_details(kind: &str, rng: &mut Rng, shape: &mut Shape) {
    match kind {
        "scattered" => {
            (shape.scattered_directory, shape.scattered_chains) = (true, true);
            shape.fill = Fill::Some;
        }
        "holes" => (shape.scattered_directory, shape.junk) = (true, true),
        "full-disk" => shape.fill = Fill::AllBut(0),
        "nearly-full" => {
            (shape.on_track_18, shape.any_version) = (false, false);
            shape.fill = Fill::AllBut(rng.range(0, 6));
        }
        "crammed" => {
            shape.on_track_18 = true;
            shape.fill = Fill::AllBut(0);
        }
        "huge" => shape.fill = Fill::AllBut(rng.below(3)),
        "track-18" => {
            (shape.on_track_18, shape.track_18_first) = (true, true);
            shape.any_version = false;
        }
        "odd-names" => shape.odd_names = true,
        "locked" => shape.locked = true,
        "edge-ends" => shape.edge_ends = true,
        "last-tracks" => {
            (shape.last_tracks_first, shape.any_version) = (true, false);
            shape.fill = rng.pick(&[Fill::Small, Fill::Some]);
        }
        "two-maps" => (shape.two_maps, shape.any_version) = (true, false),
        _ => {}
    }
}

/// Chains that leave tracks and come back, track 18 among them.
fn set_weave(kind: &str, rng: &mut Rng, shape: &mut Shape) {
    shape.weave = match kind {
        "zigzag" => Some(Weave::Zigzag),
        "rounds" => Some(Weave::Rounds),
        "runs" => Some(Weave::Runs),
        "comb" => Some(Weave::Comb),
        _ => return,
    };
    (shape.on_track_18, shape.track_18_first) = (!rng.one_in(3), false);
    (shape.fill, shape.any_version) = (Fill::Some, false);
}

/// The kinds of sound images to plant faults in: with files, so that most
/// faults fit. The first nine for 35 tracks.
const GROUND: [&str; 12] = [
    "few",
    "scattered",
    "many",
    "holes",
    "full-disk",
    "track-18",
    "locked",
    "zigzag",
    "runs",
    "last-tracks",
    "last-tracks",
    "two-maps",
];

/// A sound image of one of them.
pub fn ground(layout: u32, rng: &mut Rng) -> Plan {
    let kinds = match layout {
        0 => &GROUND[..9],
        _ => &GROUND,
    };
    let kind = rng.pick(kinds);
    sound(layout, kind, rng).expect("a kind of SOUND, and a layout")
}

/// A single fault by its number in `FAULTS`. Looks on until it finds an image
/// with a place for it.
pub fn planted(layout: u32, rng: &mut Rng, at: usize) -> Generated {
    loop {
        let plan = ground(layout, rng);
        if let Some(fault) = FAULTS[at].1(rng, &plan) {
            return with_faults(plan, &[&fault]);
        }
    }
}

/// Applies faults; the first is the one the check meets.
fn with_faults(plan: Plan, faults: &[&Fault]) -> Generated {
    let mut image = plan.image;
    for fault in faults {
        apply(&mut image, fault);
    }
    Generated {
        image,
        expected: faults.first().map(|fault| fault.answer),
    }
}

fn broken(layout: u32, kind: &str, rng: &mut Rng) -> Option<Generated> {
    let size = Geometry::of(layout)?.image_bytes();
    let unknown = |image| Generated {
        image,
        expected: None,
    };
    Some(match kind {
        "fault" => {
            let at = rng.below(FAULTS.len());
            planted(layout, rng, at)
        }
        "pair" => two_faults(layout, rng),
        "flips" => unknown(flipped(layout, rng, 0, size)),
        "flips-18" => unknown(flipped(layout, rng, TRACK_18_OFFSET, TRACK_18_BYTES)),
        "flips-links" => unknown(flipped_links(layout, rng)),
        "random-18" => unknown(random_track_18(layout, rng)),
        "random" => unknown(rng.bytes(size)),
        // No directory link, no slot; track 1 should be free and isn't, from
        // its first sector on.
        "zeros" => Generated {
            image: vec![0; size],
            expected: Some(Answer::fault(MAP_WRONG, 1, 0, NONE)),
        },
        // The first directory link names track 255.
        "ones" => Generated {
            image: vec![0xFF; size],
            expected: Some(Answer::fault(BAD_LINK, 18, 1, NONE)),
        },
        "wrong-size" => {
            let mut image = ground(layout, rng).image;
            image.resize(rng.pick(&wrong_sizes(layout)), rng.byte());
            Generated {
                image,
                expected: Some(Answer::refusal(WRONG_SIZE)),
            }
        }
        _ => return None,
    })
}

/// A sound image but for track 18, which is random.
fn random_track_18(layout: u32, rng: &mut Rng) -> Vec<u8> {
    let mut image = ground(layout, rng).image;
    rng.fill(&mut image[TRACK_18_OFFSET..TRACK_18_OFFSET + TRACK_18_BYTES]);
    image
}

fn two_faults(layout: u32, rng: &mut Rng) -> Generated {
    loop {
        let plan = ground(layout, rng);
        for _ in 0..20 {
            if let Some((first, second)) = pair(rng, &plan) {
                return with_faults(plan, &[&first, &second]);
            }
        }
    }
}

/// One to eight bytes of a part of the image changed, some in one bit only.
fn flipped(layout: u32, rng: &mut Rng, start: usize, length: usize) -> Vec<u8> {
    let mut image = ground(layout, rng).image;
    for _ in 0..rng.range(1, 8) {
        let at = start + rng.below(length);
        match rng.one_in(2) {
            true => image[at] ^= 1 << rng.below(8),
            false => image[at] = rng.byte(),
        }
    }
    image
}

/// Link bytes set to values that lead somewhere: to the disk's edges, to
/// other files, to an end.
fn flipped_links(layout: u32, rng: &mut Rng) -> Vec<u8> {
    let tracks = match layout {
        0 => [0, 1, 17, 18, 35, 36],
        _ => [0, 18, 35, 36, 40, 41],
    };
    let plan = ground(layout, rng);
    let mut image = plan.image;
    for _ in 0..rng.range(1, 4) {
        if plan.files.is_empty() {
            return image;
        }
        let (file, other) = (rng.below(plan.files.len()), rng.below(plan.files.len()));
        let (track, sector) = rng.pick(&plan.files[file].chain);
        let at = offset(track, sector);
        let other = rng.pick(&plan.files[other].chain);
        let target = (rng.pick(&tracks), rng.pick(&[0, 1, 16, 17, 20]));
        (image[at], image[at + 1]) = rng.pick(&[other, target]);
    }
    image
}
