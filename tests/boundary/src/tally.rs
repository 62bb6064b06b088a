//! What a run of the comparison met: how often each call gave each number in
//! each layout, and 8 with each sector and on each of the last tracks, and the
//! first difference.

use crate::compare::word_of;
use independent::geometry::LAYOUTS;
use independent::request::{Reply, Request};
use std::collections::BTreeMap;
use std::fmt;

/// Every number that each call may give in a layout.
pub const EVERY_NUMBER: &[(&str, &[u32])] = &[
    ("check", &[0, 1, 2, 3, 4, 5, 6, 7, 8, 16]),
    ("format", &[0, 1, 9, 16]),
    ("read", &[0, 1, 2, 3, 4, 5, 6, 7, 8, 9, 13, 16]),
    (
        "store",
        &[0, 1, 2, 3, 4, 5, 6, 7, 8, 9, 10, 11, 12, 14, 15, 16],
    ),
    ("scratch", &[0, 1, 2, 3, 4, 5, 6, 7, 8, 9, 11, 13, 16]),
    ("tell", &[0, 1, 2, 3, 4, 5, 6, 7, 8, 13, 16]),
    ("listing", &[0, 1, 2, 3, 4, 5, 6, 16]),
];

/// Those of them that it may give on an accepted image.
pub const ON_ACCEPTED: &[(&str, &[u32])] = &[
    ("check", &[0, 16]),
    ("format", &[0, 9, 16]),
    ("read", &[0, 9, 13, 16]),
    ("store", &[0, 9, 10, 11, 12, 14, 15, 16]),
    ("scratch", &[0, 9, 11, 13, 16]),
];

/// What each call gives for a number that is no layout.
pub const NO_LAYOUT: u32 = 17;

/// The calls that pass on answer 8.
pub const CHECKING: [&str; 5] = ["check", "read", "store", "scratch", "tell"];

/// The tracks that only layouts 1 and 2 have.
pub const LAST_TRACKS: std::ops::RangeInclusive<u8> = 36..=40;

/// How often each call gave each number, and on how many images.
#[derive(Default)]
pub struct Tally {
    pub images: usize,
    pub calls: usize,
    /// In each layout; 17, which none of them gives, comes first.
    pub numbers: BTreeMap<(&'static str, u32), [usize; 3]>,
    /// How often each call gave 8 with each sector, 255 among them (02, §3).
    pub named: BTreeMap<(&'static str, u8), usize>,
    /// And in each layout on each of the last tracks (02, §8).
    pub last_tracks: BTreeMap<(&'static str, u32, u8), usize>,
}

impl Tally {
    /// Counts a call by what is owed for it.
    pub fn count(&mut self, request: &Request, owed: &Reply) {
        self.calls += 1;
        let (call, layout) = (word_of(&request.call), request.layout);
        let column = LAYOUTS.iter().position(|known| *known == layout);
        let counts = self.numbers.entry((call, owed.number)).or_default();
        counts[column.unwrap_or(0)] += 1;
        if owed.number == 8 {
            let (track, sector) = (owed.block[0], owed.block[1]);
            *self.named.entry((call, sector)).or_default() += 1;
            if LAST_TRACKS.contains(&track) {
                *self.last_tracks.entry((call, layout, track)).or_default() += 1;
            }
        }
    }

    /// How often a call gave a number in one of the layouts.
    fn times(&self, call: &'static str, number: u32, column: usize) -> usize {
        self.numbers
            .get(&(call, number))
            .map_or(0, |counts| counts[column])
    }

    /// Which calls gave 8 with a sector, or with 255, fewer than `enough`
    /// times, or never with one of the sectors 0 to 20, or on one of the last
    /// tracks of layout 1 or 2.
    pub fn thin_places(&self, enough: usize) -> Vec<String> {
        let mut found = Vec::new();
        for call in CHECKING {
            let named = |sector| self.named.get(&(call, sector)).copied().unwrap_or(0);
            let sectors: usize = (0..21).map(named).sum();
            for (times, what) in [(sectors, "a sector"), (named(255), "255")] {
                if times < enough {
                    found.push(format!("{call} gave 8 with {what} only {times} times"));
                }
            }
            let missed = (0..21).filter(|sector| named(*sector) == 0);
            found.extend(missed.map(|sector| format!("{call} never gave 8 with sector {sector}")));
            found.extend(self.last_tracks_missed(call));
        }
        found
    }

    fn last_tracks_missed(&self, call: &'static str) -> Vec<String> {
        let all = LAST_TRACKS.flat_map(|track| [(1, track), (2, track)]);
        let missed = all.filter(|(layout, track)| {
            let times = self.last_tracks.get(&(call, *layout, *track));
            times.is_none()
        });
        let shown =
            |(layout, track)| format!("{call} never gave 8 on track {track} of layout {layout}");
        missed.map(shown).collect()
    }

    /// How often 8 was given with a sector, and with 255, by call.
    fn shown_places(&self) -> String {
        let of = |call: &str, with: fn(u8) -> bool| -> usize {
            let named = self.named.iter();
            let named = named.filter(|((word, sector), _)| *word == call && with(*sector));
            named.map(|(_, times)| times).sum()
        };
        let shown = CHECKING.map(|call| {
            let (sectors, counts) = (of(call, |s| s != 255), of(call, |s| s == 255));
            format!("{call} {sectors} and {counts}")
        });
        shown.join(", ")
    }

    /// Which of the numbers owed fewer than `enough` calls gave in one of the
    /// layouts: the comparison is thin there.
    pub fn thin(&self, owed: &[(&'static str, &[u32])], enough: usize) -> Vec<String> {
        let mut found = Vec::new();
        for &(call, numbers) in owed {
            for &number in numbers {
                for (column, layout) in LAYOUTS.iter().enumerate() {
                    if self.times(call, number, column) < enough {
                        found.push(format!(
                            "{call} gave {number} in layout {layout} fewer than {enough} times"
                        ));
                    }
                }
            }
        }
        found
    }

    /// Which calls gave 17 fewer than `enough` times.
    pub fn thin_unknown(&self, enough: usize) -> Vec<String> {
        let calls = EVERY_NUMBER.iter().map(|(call, _)| *call);
        let thin = calls.filter(|call| self.times(call, NO_LAYOUT, 0) < enough);
        thin.map(|call| format!("{call} gave {NO_LAYOUT} fewer than {enough} times"))
            .collect()
    }
}

impl fmt::Display for Tally {
    fn fmt(&self, to: &mut fmt::Formatter) -> fmt::Result {
        write!(
            to,
            "{} images, {} calls; in layouts 0, 1 and 2:",
            self.images, self.calls
        )?;
        let mut word = "";
        for ((call, number), [in_0, in_1, in_2]) in &self.numbers {
            if *call != word {
                write!(to, "\n{call:8}")?;
                word = call;
            }
            match *number {
                NO_LAYOUT => write!(to, " {number}:{in_0}")?,
                _ => write!(to, " {number}:{in_0}+{in_1}+{in_2}")?,
            }
        }
        if !self.named.is_empty() {
            write!(
                to,
                "\n8 with a sector, and with 255: {}",
                self.shown_places()
            )?;
            let last: usize = self.last_tracks.values().sum();
            write!(to, "\n8 on tracks 36 to 40: {last}")?;
        }
        Ok(())
    }
}

/// The first call that differed, and how to run it again.
#[derive(Debug)]
pub struct Failure {
    /// What was called, and on which image.
    pub request: String,
    pub differences: Vec<String>,
    pub seed: u64,
}

impl fmt::Display for Failure {
    fn fmt(&self, to: &mut fmt::Formatter) -> fmt::Result {
        writeln!(to, "{}", self.differences.join("\n"))?;
        writeln!(to, "{}", self.request)?;
        write!(to, "run again with SEED={}", self.seed)
    }
}
