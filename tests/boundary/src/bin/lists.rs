//! Runs long lists of calls on the archive libd64.a: each call is compared
//! with the independent program, and demand 3 is verified over what the
//! archive makes of the image. SEED runs one list, LISTS so many, TRACE=1
//! prints each call before it is made.

use boundary::archive::Archive;
use boundary::lists::{compare_list, demand3_over, List, CALLS};
use boundary::tally::{Tally, ON_ACCEPTED};
use independent::rng::seeds_by;
use std::process::ExitCode;

const LISTS: u64 = 600;

/// Each number that a call may give is to be met so often in each layout.
const ENOUGH: usize = 16;

fn main() -> ExitCode {
    let seeds = seeds_by("LISTS", LISTS);
    let trace = std::env::var_os("TRACE").is_some();
    let (lists, first) = (seeds.len(), seeds[0]);
    println!("boundary: {lists} lists of {CALLS} calls from seed {first}");
    let mut tally = Tally::default();
    for &seed in &seeds {
        let list = List::new(seed);
        let result = compare_list(&Archive, &list, trace, &mut tally);
        if let Err(failure) = result.and_then(|()| demand3_over(&Archive, &list)) {
            println!("{failure}");
            return ExitCode::FAILURE;
        }
    }
    println!("{tally}");
    // Fewer lists than usual may well be thin.
    let thin = tally.thin(ON_ACCEPTED, ENOUGH);
    if lists as u64 >= LISTS && !thin.is_empty() {
        println!("{}", thin.join("\n"));
        return ExitCode::FAILURE;
    }
    ExitCode::SUCCESS
}
