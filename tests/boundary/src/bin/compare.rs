//! Compares the archive libd64.a with the independent program by rounds. SEED
//! runs one round, ROUNDS so many, TRACE=1 prints each call before it is made.

use boundary::archive::Archive;
use boundary::rounds::run_round;
use boundary::tally::{Tally, EVERY_NUMBER};
use independent::rng::seeds;
use std::process::ExitCode;

/// 87 images each.
const ROUNDS: u64 = 1000;

/// Each number that a call may give is to be met so often in each layout, 17 so
/// often for unknown ones, and 8 so often with a sector and with 255.
const ENOUGH: usize = 100;

fn main() -> ExitCode {
    let rounds = seeds(ROUNDS);
    let trace = std::env::var_os("TRACE").is_some();
    println!("boundary: {} rounds from seed {}", rounds.len(), rounds[0]);
    let mut tally = Tally::default();
    for &round in &rounds {
        if let Err(failure) = run_round(&Archive, round, trace, &mut tally) {
            println!("{failure}");
            return ExitCode::FAILURE;
        }
    }
    println!("{tally}");
    // Fewer rounds than usual may well be thin.
    let mut thin = tally.thin(EVERY_NUMBER, ENOUGH);
    thin.extend(tally.thin_unknown(ENOUGH));
    thin.extend(tally.thin_places(ENOUGH));
    if rounds.len() as u64 >= ROUNDS && !thin.is_empty() {
        println!("{}", thin.join("\n"));
        return ExitCode::FAILURE;
    }
    ExitCode::SUCCESS
}
