//! Orders of sectors in which chains leave a track and come back to it, and
//! leave holes of every sort. A check that gathers the used sectors of a track
//! while a chain stays there (02, §4) goes wrong there first.

use crate::naive::Place;
use crate::rng::Rng;

/// How chains go over the tracks.
#[derive(Clone, Copy, PartialEq, Eq, Debug)]
pub enum Weave {
    /// From one track to another and back, a few sectors at a time.
    Zigzag,
    /// One sector of each track in turn, and again with the next sector.
    Rounds,
    /// A few sectors of any track, then a few of any other.
    Runs,
    /// Every second sector of each track, then the others.
    Comb,
}

/// Puts sectors in the order of a weave.
pub(super) fn woven(rng: &mut Rng, pool: Vec<Place>, weave: Weave) -> Vec<Place> {
    match weave {
        Weave::Zigzag => zigzag(rng, &pool),
        Weave::Rounds => rounds(rng, pool),
        Weave::Runs => runs(rng, &pool),
        Weave::Comb => comb(rng, pool),
    }
}

/// The sectors of each track: upward, downward or in any order.
fn tracks_of(rng: &mut Rng, pool: &[Place]) -> Vec<Vec<Place>> {
    let turn = rng.below(3);
    let of = |track: u8| pool.iter().copied().filter(move |place| place.0 == track);
    let mut tracks: Vec<Vec<Place>> = (1..=40).map(|track| of(track).collect()).collect();
    tracks.retain(|sectors| !sectors.is_empty());
    for sectors in &mut tracks {
        match turn {
            0 => {}
            1 => sectors.reverse(),
            _ => rng.shuffle(sectors),
        }
    }
    tracks
}

/// Takes up to so many sectors off a track.
fn take(sectors: &mut Vec<Place>, most: usize) -> Vec<Place> {
    sectors.drain(..most.min(sectors.len())).collect()
}

fn zigzag(rng: &mut Rng, pool: &[Place]) -> Vec<Place> {
    let mut tracks = tracks_of(rng, pool);
    rng.shuffle(&mut tracks);
    let mut order = Vec::new();
    for pair in tracks.chunks_mut(2) {
        while pair.iter().any(|sectors| !sectors.is_empty()) {
            for sectors in pair.iter_mut() {
                order.extend(take(sectors, rng.range(1, 3)));
            }
        }
    }
    order
}

fn rounds(rng: &mut Rng, mut pool: Vec<Place>) -> Vec<Place> {
    pool.sort_by_key(|&(track, sector)| (sector, track));
    if rng.one_in(2) {
        pool.reverse();
    }
    let first = rng.below(pool.len());
    pool.rotate_left(first);
    pool
}

fn runs(rng: &mut Rng, pool: &[Place]) -> Vec<Place> {
    let mut runs = Vec::new();
    for mut sectors in tracks_of(rng, pool) {
        while !sectors.is_empty() {
            runs.push(take(&mut sectors, rng.range(2, 5)));
        }
    }
    rng.shuffle(&mut runs);
    runs.concat()
}

fn comb(rng: &mut Rng, mut pool: Vec<Place>) -> Vec<Place> {
    let first = rng.below(2) as u8;
    pool.sort_by_key(|&(track, sector)| (sector % 2 != first, track, sector));
    pool
}
