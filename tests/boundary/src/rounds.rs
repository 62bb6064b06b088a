//! The comparison by rounds. One round is one image of every kind, with more
//! of those that show most, and some calls on each. Within three rounds each
//! kind comes in each layout.

use crate::calls::EntryPoints;
use crate::compare::{compare, Disk};
use crate::requests::lent_parts;
use crate::tally::{Failure, Tally};
use independent::generate::{generate, kinds};
use independent::geometry::LAYOUTS;
use independent::rng::Rng;

/// Kinds that a round has more than once: two faults at a time, and sound
/// images of any shape.
const AGAIN: [&str; 8] = [
    "pair",
    "pair",
    "pair",
    "pair",
    "any",
    "any",
    "scattered",
    "edge-ends",
];

/// Runs one round; `trace` prints each request before its call, for a library
/// that doesn't come back.
pub fn run_round(
    library: &dyn EntryPoints,
    round: u64,
    trace: bool,
    tally: &mut Tally,
) -> Result<(), Failure> {
    let all: Vec<String> = kinds().into_iter().chain(AGAIN.map(String::from)).collect();
    for (at, kind) in all.iter().enumerate() {
        let image_seed = round.wrapping_mul(all.len() as u64) + at as u64;
        let layout = LAYOUTS[(round % 3 + at as u64) as usize % LAYOUTS.len()];
        let image = generate(layout, kind, image_seed).expect("a kind").image;
        let rng = &mut Rng::new(image_seed);
        tally.images += 1;
        for (bytes, requests) in lent_parts(layout, rng, &image) {
            let mut disk = Disk::new(&bytes, rng);
            for (turn, request) in requests.iter().enumerate() {
                let shown = || {
                    let request = request.shown();
                    format!("call {turn} on `generate {layout} {kind} {image_seed}`: {request}")
                };
                if trace {
                    eprintln!("SEED={round} {}", shown());
                }
                match compare(library, &mut disk, request, rng) {
                    Ok(owed) => tally.count(request, &owed),
                    Err(differences) => {
                        return Err(Failure {
                            request: shown(),
                            differences,
                            seed: round,
                        })
                    }
                }
            }
        }
    }
    Ok(())
}
