//! Times one call: batches of the archive, of the independent program and of
//! memory copies in turn, so that what disturbs the machine disturbs all of
//! them; the median of each.

use crate::disks::Disk;
use crate::lent::{Call, Lent};
use boundary::archive::Archive;
use boundary::calls::{EntryPoints, Faithful};
use std::hint::black_box;
use std::time::{Duration, Instant};

/// Batches of one call in one pass over all rows.
pub const BATCHES: usize = 101;

/// A batch is as many calls as take about so long.
const BATCH: Duration = Duration::from_micros(200);

/// A call that changes its image is timed on so many images in one go, so
/// that they share the timer's cost. Where the file is large it is one, since
/// several would not stay in the cache, and the timer's cost is nothing.
pub const IMAGES: usize = 4;
const LARGE: usize = 10_000;

/// ns per call of each batch so far.
#[derive(Default)]
pub struct Samples {
    archive: Vec<f64>,
    independent: Vec<f64>,
    check: Vec<f64>,
    copy: Vec<f64>,
    file_copy: Vec<f64>,
}

/// Medians in ns per call.
pub struct Times {
    pub archive: f64,
    pub independent: f64,
    /// The archive's check of the same images.
    pub check: f64,
    /// A copy of an image.
    pub copy: f64,
    /// A copy of as many bytes as the file has.
    pub file_copy: f64,
}

impl Samples {
    pub fn medians(self) -> Times {
        Times {
            archive: median(self.archive),
            independent: median(self.independent),
            check: median(self.check),
            copy: median(self.copy),
            file_copy: median(self.file_copy),
        }
    }
}

/// A memory copy, from one lent buffer to another.
struct Copy {
    from: Vec<u8>,
    to: Vec<u8>,
}

impl Copy {
    fn of(length: usize) -> Copy {
        Copy {
            from: vec![0x33; length],
            to: vec![0x55; length],
        }
    }

    fn run(&mut self) {
        black_box(&mut self.to[..]).copy_from_slice(black_box(&self.from[..]));
    }
}

/// The images that a row's call is lent in turn.
fn images_for(disk: &Disk, call: Call) -> usize {
    match call.undone_by() {
        Some(_) if disk.data.len() < LARGE => IMAGES,
        _ => 1,
    }
}

/// One pass of a row: batches of each side in turn.
pub fn measure(disk: &Disk, call: Call, samples: &mut Samples) {
    let mut copy = Copy::of(disk.image.len());
    let mut file = Copy::of(disk.data.len());
    let mut lent = Lent::new(disk, images_for(disk, call));
    let turns = turns_per_batch(|turns| spent(turns, &mut lent, &Faithful, call));
    let copies = turns_per_batch(|turns| elapsed(turns, || copy.run()));
    let file_copies = turns_per_batch(|turns| elapsed(turns, || file.run()));
    let per_call = |spent: Duration, calls: usize| spent.as_nanos() as f64 / calls as f64;
    let calls = turns * lent.images().len();
    let checks = turns_per_batch(|turns| spent(turns, &mut lent, &Archive, Call::Check));
    for batch in 0..BATCHES {
        // Neither side always comes after the copies.
        for archive in [batch % 2 == 0, batch % 2 == 1] {
            if archive {
                let spent = spent(turns, &mut lent, &Archive, call);
                samples.archive.push(per_call(spent, calls));
            } else {
                let spent = spent(turns, &mut lent, &Faithful, call);
                samples.independent.push(per_call(spent, calls));
            }
        }
        let checked = spent(checks, &mut lent, &Archive, Call::Check);
        samples
            .check
            .push(per_call(checked, checks * lent.images().len()));
        let copied = elapsed(copies, || copy.run());
        samples.copy.push(per_call(copied, copies));
        let copied = elapsed(file_copies, || file.run());
        samples.file_copy.push(per_call(copied, file_copies));
    }
}

/// How many turns take about a batch's time.
fn turns_per_batch(mut time: impl FnMut(usize) -> Duration) -> usize {
    let mut turns = 1;
    while time(turns) < BATCH / 2 {
        turns *= 2;
    }
    turns
}

/// What so many turns take, one after the other.
fn elapsed<T>(turns: usize, mut turn: impl FnMut() -> T) -> Duration {
    let start = Instant::now();
    for _ in 0..turns {
        black_box(turn());
    }
    start.elapsed()
}

/// What the call takes, in so many turns over all images. Where it changes
/// them, the independent program undoes each turn, and that is not timed.
#[inline(always)]
fn spent<L: EntryPoints>(turns: usize, lent: &mut Lent, library: &L, call: Call) -> Duration {
    let images = lent.images().len();
    let Some(undo) = call.undone_by() else {
        return elapsed(turns, || {
            for image in 0..images {
                black_box(black_box(&mut *lent).run(library, call, image));
            }
        });
    };
    let mut sum = Duration::ZERO;
    for _ in 0..turns {
        let start = Instant::now();
        for image in 0..images {
            black_box(black_box(&mut *lent).run(library, call, image));
        }
        sum += start.elapsed();
        for image in 0..images {
            black_box(&mut *lent).run(&Faithful, undo, image);
        }
    }
    sum
}

/// What the timer shows where nothing is timed, in ns.
pub fn timer_cost() -> f64 {
    let empty = |_| Instant::now().elapsed().as_nanos() as f64;
    median((0..10_001).map(empty).collect())
}

fn median(mut samples: Vec<f64>) -> f64 {
    samples.sort_by(f64::total_cmp);
    samples[samples.len() / 2]
}
