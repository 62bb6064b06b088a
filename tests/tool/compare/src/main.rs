//! `compare-tool TOOL FOLDER` compares the command line tool with the independent program, in a new folder. It stops at the first difference. `SEED` runs one
//! list of each sort again, `ROUNDS` so many; `IMAGES` seeds are taken of each kind of image.

mod garbage;
mod images;
mod jobs;
mod text;
mod tool;

use independent::rng::seeds;
use std::process::ExitCode;

fn number(name: &str, usual: u64) -> u64 {
    std::env::var(name).map_or(usual, |value| value.parse().expect("a number"))
}

fn main() -> ExitCode {
    let Some(tool) = tool::Tool::of_arguments() else {
        eprintln!("usage: compare-tool TOOL FOLDER (a new one)");
        return ExitCode::from(64);
    };
    let seen = images::compare(&tool, number("IMAGES", 2));
    assert!(
        seen.marks > 0 && seen.counts > 0 && seen.extra > 0 && seen.in_two > 0,
        "no wrong mark, no wrong count alone or none on tracks 36 to 40 in any map, or no image that two layouts accept"
    );
    let lists = jobs::compare_lists(&tool, &seeds(40), 200);
    let single = jobs::compare_commands(&tool, &seeds(3), 200);
    assert!(
        (lists.jobs - lists.refused) * 5 > lists.jobs && lists.refused * 5 > lists.jobs,
        "too few done or refused"
    );
    let odd = number("GARBAGE", 300);
    garbage::words(&tool, odd);
    garbage::lists(&tool, odd);
    println!(
        "tool: as the independent program: check, dir and listing of {} images in each layout; every command on the {} of them that are refused in their own,",
        seen.made, seen.refused
    );
    println!(
        "tool: {} for a mark of the map and {} for a count of it, {} on tracks 36 to 40; {} are accepted in two layouts;",
        seen.marks, seen.counts, seen.extra, seen.in_two
    );
    println!(
        "tool: {} jobs of lists, {} of them refused; {} single commands, {} of them refused",
        lists.jobs, lists.refused, single.jobs, single.refused
    );
    println!("tool: {odd} commands of random words and {odd} spoilt job lists do no harm");
    ExitCode::SUCCESS
}
