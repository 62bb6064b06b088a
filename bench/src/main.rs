//! Times the archive, the independent program and a memory copy of an image
//! in one run, and prints ns per call and ratios. Timing proves nothing and
//! refuses nothing; a row over its limit is marked.

mod disks;
mod lent;
mod measure;

use boundary::archive::Archive;
use boundary::calls::{EntryPoints, Faithful};
use disks::{full_bytes, Disk, FILES};
use independent::geometry::{IMAGE_BYTES, IMAGE_BYTES_40};
use lent::{Call, Lent};
use measure::{measure, timer_cost, Samples, Times, BATCHES, IMAGES};

/// The archive may take so many times what the independent program takes.
const LIMIT_TO_INDEPENDENT: f64 = 1.1;

/// Passes over all rows, so that a disturbance doesn't fall on one row alone.
const PASSES: usize = 5;

/// One row of the table.
struct Row {
    what: &'static str,
    disk: Disk,
    call: Call,
    /// The archive may take so many times what a copy of the image takes.
    limit_to_copy: Option<f64>,
    /// And so many times what its check of the image takes.
    limit_to_check: Option<f64>,
}

fn row(what: &'static str, disk: Disk, call: Call, limit_to_copy: Option<f64>) -> Row {
    Row {
        what,
        disk,
        call,
        limit_to_copy,
        limit_to_check: None,
    }
}

/// A row that is held against the check of the same image.
fn near_check(what: &'static str, disk: Disk, call: Call, limit: f64) -> Row {
    Row {
        limit_to_check: Some(limit),
        ..row(what, disk, call, None)
    }
}

/// Calls that leave the image.
fn reading_rows(seed: u64) -> Vec<Row> {
    let empty = || disks::empty(0);
    let small = || empty().with(seed, 5_000);
    let full = || empty().with(seed, full_bytes(0));
    let (many, random) = (
        || disks::numbered(0, seed, FILES),
        || disks::random_names(seed),
    );
    vec![
        row("check, empty disk", empty(), Call::Check, Some(0.2)),
        row("check, a file of 5,000", small(), Call::Check, Some(0.2)),
        row("check, 144 files", many(), Call::Check, Some(0.5)),
        row("check, 144 random names", random(), Call::Check, Some(0.5)),
        row("check, full disk", full(), Call::Check, Some(1.41)),
        row("read 5,000", small(), Call::Read, Some(0.2)),
        row("read 168,656", full(), Call::Read, Some(3.15)),
        row("listing, empty disk", empty(), Call::Listing, None),
        row("listing, 144 files", many(), Call::Listing, None),
        row("listing, 144 random names", random(), Call::Listing, None),
        near_check("read, last of 144 files", many(), Call::Read, 1.15),
        near_check("tell, last of 144 files", many(), Call::Tell, 1.2),
        near_check("tell, full disk", full(), Call::Tell, 1.2),
    ]
}

/// Calls that write it. The limits to a copy are one and a half times what
/// careful C takes.
fn writing_rows(seed: u64) -> Vec<Row> {
    let store =
        |what, disk: Disk, length, limit| row(what, disk.without(seed, length), Call::Store, limit);
    let scratch =
        |what, disk: Disk, length, limit| row(what, disk.with(seed, length), Call::Scratch, limit);
    let (empty, half) = (|| disks::empty(0), || disks::half(seed));
    let (many, all) = (
        || disks::numbered(0, seed, FILES - 1),
        || disks::numbered(0, seed, FILES),
    );
    vec![
        row("format", empty(), Call::Format, Some(1.2)),
        store("store 5,000, empty disk", empty(), 5_000, Some(0.135)),
        store("store 5,000, half-full disk", half(), 5_000, None),
        store("store 5,000, 143 files", many(), 5_000, None),
        near_check("store refused, 144 files", all(), Call::StoreAgain, 1.15),
        store("store 168,656", empty(), full_bytes(0), Some(2.4)),
        scratch("scratch 5,000, no other file", empty(), 5_000, Some(0.15)),
        scratch("scratch 5,000, half-full disk", half(), 5_000, None),
        scratch("scratch 5,000, 143 others", many(), 5_000, None),
        near_check("scratch, last of 144 files", all(), Call::Scratch, 1.15),
        scratch("scratch 168,656", empty(), full_bytes(0), Some(3.0)),
    ]
}

/// The calls in a layout of 40 tracks, held against a copy of such an image by
/// the limits of 35 tracks.
fn rows_of_40(layout: u32, seed: u64) -> Vec<Row> {
    let empty = || disks::empty(layout);
    let (small, most) = (5_000, full_bytes(layout));
    let full = || empty().with(seed, most);
    let many = || disks::numbered(layout, seed, FILES);
    vec![
        row("check, empty disk", empty(), Call::Check, Some(0.2)),
        row("check, 144 files", many(), Call::Check, Some(0.5)),
        row("check, full disk", full(), Call::Check, Some(1.41)),
        row("read 190,246", full(), Call::Read, Some(3.15)),
        row("listing, 144 files", many(), Call::Listing, None),
        row("format", empty(), Call::Format, Some(1.2)),
        row(
            "store 5,000, empty disk",
            empty().without(seed, small),
            Call::Store,
            Some(0.135),
        ),
        row(
            "scratch 5,000, no other file",
            empty().with(seed, small),
            Call::Scratch,
            Some(0.15),
        ),
        row(
            "store 190,246",
            empty().without(seed, most),
            Call::Store,
            Some(2.4),
        ),
        row("scratch 190,246", full(), Call::Scratch, Some(3.0)),
    ]
}

/// Both sides do the same thing, and what undoes it leaves the image as it
/// was, or there is nothing to compare.
fn agree(row: &Row) {
    let what = row.what;
    let outcome = |library: &dyn EntryPoints| {
        let mut lent = Lent::new(&row.disk, 1);
        let number = lent.run(library, row.call, 0);
        assert_eq!(number, row.call.number(), "{what} has another answer");
        lent
    };
    let mut undone = outcome(&Faithful);
    let (archive, independent) = (outcome(&Archive).left(), outcome(&Faithful).left());
    assert!(archive == independent, "{what}: the two differ");
    if let Some(undo) = row.call.undone_by() {
        assert_eq!(undone.run(&Faithful, undo, 0), 0, "{what} is not undone");
        let same = undone.images()[0] == row.disk.image;
        assert!(same, "{what} is undone to another image");
    }
}

/// A number for the table, or nothing.
fn cell(value: Option<f64>, digits: usize) -> String {
    value.map_or(String::new(), |value| format!("{value:.digits$}"))
}

fn print_row(row: &Row, times: &Times) {
    let to_independent = times.archive / times.independent;
    let to_copy = times.archive / times.copy;
    let to_check = times.archive / times.check;
    let over = to_independent > LIMIT_TO_INDEPENDENT
        || row.limit_to_copy.is_some_and(|limit| to_copy > limit)
        || row.limit_to_check.is_some_and(|limit| to_check > limit);
    let copies = matches!(row.call, Call::Read | Call::Store);
    let file_copy = copies.then_some(times.file_copy);
    println!(
        "{} {:30}{:9.0}{:13.0}{:7.0}{:>11} |{to_independent:10.2}{LIMIT_TO_INDEPENDENT:7.2} \
         |{to_copy:11.3}{:>7} |{:>11}{:>7} |{:10.3}{:>11}{}",
        row.disk.layout,
        row.what,
        times.archive,
        times.independent,
        times.copy,
        cell(file_copy, 0),
        cell(row.limit_to_copy, 3),
        cell(row.limit_to_check.map(|_| to_check), 3),
        cell(row.limit_to_check, 2),
        times.independent / times.copy,
        cell(file_copy.map(|time| times.archive / time), 2),
        if over { "  over" } else { "" },
    );
}

fn print_head(seed: u64) {
    let (batches, timer) = (PASSES * BATCHES, timer_cost());
    println!(
        "seed {seed}; by layout, 0 to 2; an image has {IMAGE_BYTES} bytes, or {IMAGE_BYTES_40}; ns per \
         call, medians of {batches} batches"
    );
    println!("buffers are lent as the call before left them; none is cleared first");
    println!(
        "store and scratch change the image: each is timed on {IMAGES} equal images in one go, for \
         large files on one;"
    );
    println!(
        "then the independent program undoes it, untimed, so that every call meets the same bytes"
    );
    println!(
        "the timer shows {timer:.0} ns where nothing is timed; nothing is subtracted: 1/{IMAGES} of \
         that is in these times\n"
    );
    println!(
        "  {:30}{:>9}{:>13}{:>7}{:>11} |{:>10}{:>7} |{:>11}{:>7} |{:>11}{:>7} |{:>10}{:>11}",
        "",
        "archive",
        "independent",
        "copy",
        "file copy",
        "arch/indep",
        "limit",
        "arch/copy",
        "limit",
        "arch/check",
        "limit",
        "indep/copy",
        "arch/file"
    );
}

fn main() {
    let seed = std::env::var("SEED").map_or(1, |seed| seed.parse().expect("SEED is a number"));
    let rows: Vec<Row> = reading_rows(seed)
        .into_iter()
        .chain(writing_rows(seed))
        .chain(rows_of_40(1, seed))
        .chain(rows_of_40(2, seed))
        .collect();
    let mut samples: Vec<Samples> = rows.iter().map(|_| Samples::default()).collect();
    rows.iter().for_each(agree);
    for pass in 0..=PASSES {
        for (row, samples) in rows.iter().zip(&mut samples) {
            measure(&row.disk, row.call, samples);
            // The first pass only wakes the machine.
            if pass == 0 {
                *samples = Samples::default();
            }
        }
    }
    print_head(seed);
    for (row, samples) in rows.iter().zip(samples) {
        print_row(row, &samples.medians());
    }
}
