//! Wrong libraries about the used sectors of a track (02, §4): a check that
//! keeps a mask of them for each track, gathers it while a chain stays on the
//! track, and puts it in when the chain leaves. On a sound image each mask is
//! the map's, so a bit that is lost or strays shows as answer 8.

use super::spare::fault_after_name;
use super::{give, is_image, tracks, wrong, Row};
use boundary::calls::{EntryPoints, Faithful, Slice};
use independent::answer::Answer;
use independent::check::check;
use independent::disk::{disk, track_18, walk_directory, Chain, Disk, Slot};
use independent::geometry::{on_track_18, Geometry};
use independent::naive::{track_length, Place};
use independent::request::track_18_of;
use independent::sound::map_offset;

/// Rows of what is wrong, and the rule by which it is.
macro_rules! rows {
    ($($what:literal => $rule:expr,)*) => {
        &[$(($what, &Masked($rule), "answer:")),*]
    };
}
pub(super) use rows;

pub const WRONG: &[Row] = rows![
    "a mask is lost when a chain comes back" => Lost(comes_back),
    "a mask is lost when another file comes" => Lost(|run| run.before == 0),
    "a mask is lost when a file begins on its track" => Lost(|run| run.turn == 0),
    "a mask is lost when a file ends on its track" => Lost(|run| run.last),
    "a mask is lost when a single sector comes" => Lost(|run| run.sectors.len() == 1),
    "the masks of the files before are lost" => Masks(last_file_alone),
    "a file on track 18 takes the directory's mask" => Lost(|run| run.track == 18),
    "a chain's end is not put in" => LeftOut(|run| run.last),
    "a chain's beginning is not put in" => LeftOut(|run| run.turn == 0),
    "a chain on one track is not put in" => LeftOut(|run| run.turn == 0 && run.last),
    "a single sector is not put in" => LeftOut(|run| run.sectors.len() == 1),
    "more than one sector is not put in" => LeftOut(|run| run.sectors.len() > 1),
    "what comes back is not put in" => LeftOut(|run| run.before > 0),
    "what comes back for more than one sector is not put in" => LeftOut(|run| run.before > 0 && run.sectors.len() > 1),
    "what comes back at a chain's end is not put in" => LeftOut(|run| run.before > 0 && run.last),
    "what comes back a ninth time is not put in" => LeftOut(|run| run.before > 8),
    "what comes back to track 18 is not put in" => LeftOut(|run| run.before > 0 && run.track == 18),
    "what comes after 255 changes of track is not put in" => LeftOut(|run| run.turn > 255),
    "files from the hundredth on are not put in" => LeftOut(|run| run.file > 98),
    "files on track 18 are not put in" => LeftOut(|run| run.track == 18),
    "files on track 1 are not put in" => LeftOut(|run| run.track == 1),
    "files on track 35 are not put in" => LeftOut(|run| run.track == 35),
    "the first sector on a track is lost" => Puts(|run| mask(&run.sectors[1..])),
    "the last sector on a track is lost" => Puts(|run| mask(run.all_but_last())),
    "the first sector of a chain is lost" => Puts(|run| if run.turn == 0 { mask(&run.sectors[1..]) } else { run.mask() }),
    "the last sector of a chain is lost" => Puts(|run| if run.last { mask(run.all_but_last()) } else { run.mask() }),
    "the sector to which a chain crosses is lost" => Puts(|run| if run.turn > 0 { mask(&run.sectors[1..]) } else { run.mask() }),
    "the sector from which a chain crosses is lost" => Puts(|run| if run.last { run.mask() } else { mask(run.all_but_last()) }),
    "sector 0 is lost" => Puts(|run| run.mask() & !1),
    "a track's last sector is lost" => Puts(|run| run.mask() & own(run.track) >> 1),
    "sectors from 16 on are lost" => Puts(|run| run.mask() & 0xFFFF),
    "sectors are taken modulo 16" => Puts(|run| (run.mask() | run.mask() >> 16) & 0xFFFF),
    "the sectors between two of a run are put in" => Puts(|run| run.between()),
    "a run is taken to go upward" => Puts(|run| (1u32 << run.sectors.len()).wrapping_sub(1) << run.sectors[0]),
    "18/0 is not put in" => Masks(|walked| with_directory(walked, directory_mask(walked) & !1)),
    "18/1 alone is put in for the directory" => Masks(|walked| with_directory(walked, 3)),
    "the directory's last sector is not put in" => Masks(|walked| with_directory(walked, all_but_its_last(walked))),
    "the directory is taken to go upward" => Masks(|walked| with_directory(walked, (2 << walked.directory.len()) - 1)),
    "sectors stay in hand when a chain changes its track" => Masks(|walked| in_hand(walked, |run| run.turn == 0)),
    "sectors stay in hand when a file ends" => Masks(|walked| in_hand(walked, |run| run.turn > 0)),
    "sectors stay in hand when a chain goes to track 18" => Masks(|walked| in_hand(walked, |run| run.turn == 0 || run.track != 18)),
    "sectors go to the track to which a chain crosses" => Masks(|walked| moved(walked, next_of_chain)),
    "sectors go to the track from which a chain came" => Masks(|walked| moved(walked, one_before_of_chain)),
    "a file's end goes to the track where the next begins" => Masks(|walked| moved(walked, next_file)),
    "a file's end is lost if the next begins on its track" => Masks(|walked| ends_lost(walked, |one, two| one == two)),
    "a file's end is lost if the next begins elsewhere" => Masks(|walked| ends_lost(walked, |one, two| one != two)),
];

/// Other calls than check, and answers other than 8.
pub const OTHER_CALLS: &[Row] = &[
    ("read loses what comes back", &ReadLoses, "number:"),
    ("tell loses what comes back", &TellLoses, "number:"),
    ("store loses what comes back", &StoreLoses, "number:"),
    ("scratch loses what comes back", &ScratchLoses, "number:"),
    (
        "a link to a sector in hand is no fault",
        &Unnoticed(in_run),
        "number:",
    ),
    (
        "a link to where the chain was on its track is no fault",
        &Unnoticed(in_chain),
        "number:",
    ),
    (
        "a link to an earlier file on its track is no fault",
        &Unnoticed(earlier_here),
        "number:",
    ),
    (
        "a link to an earlier file elsewhere is no fault",
        &Unnoticed(earlier_elsewhere),
        "number:",
    ),
    (
        "a link to the directory from track 18 is no fault",
        &Unnoticed(directory_here),
        "number:",
    ),
];

// --- The runs of an image -------------------------------------------------

/// What a chain has on one track before it goes on to another, or ends.
pub(super) struct Run {
    /// The file's number among all, and the run's within its chain.
    file: usize,
    turn: usize,
    track: u8,
    sectors: Vec<u8>,
    last: bool,
    /// How often the chain has been on this track before.
    before: usize,
}

/// The sectors as bits.
fn mask(sectors: &[u8]) -> u32 {
    sectors.iter().fold(0, |mask, sector| mask | 1 << sector)
}

/// The bits of a track's own sectors.
pub(super) fn own(track: u8) -> u32 {
    (1 << track_length(track)) - 1
}

impl Run {
    fn mask(&self) -> u32 {
        mask(&self.sectors)
    }

    fn all_but_last(&self) -> &[u8] {
        &self.sectors[..self.sectors.len() - 1]
    }

    /// The sectors from the lowest to the highest.
    fn between(&self) -> u32 {
        let (low, high) = (
            self.mask().trailing_zeros(),
            31 - self.mask().leading_zeros(),
        );
        ((2 << high) - 1) & !((1 << low) - 1)
    }
}

/// The directory's sectors, and the runs of all chains in slot order.
pub(super) struct Walked {
    directory: Vec<u8>,
    runs: Vec<Run>,
}

impl Walked {
    /// Of an image without a fault but of its map.
    pub(super) fn of(layout: u32, image: &[u8]) -> Walked {
        let geometry = Geometry::of(layout).expect("a layout");
        let disk = disk(&geometry, image).expect("an image");
        let track18 = track_18(track_18_of(image)).expect("an image");
        let directory = walk_directory(track18).expect("a sound directory");
        let directory = directory.sectors().to_vec();
        let mut runs = Vec::new();
        for (file, slot) in files(disk, &directory).enumerate() {
            let chain = Chain::of(&geometry, disk, slot);
            let chain: Vec<Place> = chain.map(|(t, s, _)| (t, s)).collect();
            runs.extend(runs_of(file, &chain));
        }
        Walked { directory, runs }
    }
}

/// The occupied slots in directory order.
fn files<'a>(disk: &'a Disk, directory: &'a [u8]) -> impl Iterator<Item = &'a Slot> {
    let slots = |sector: &u8| disk[on_track_18(*sector)].as_chunks().0;
    directory
        .iter()
        .flat_map(slots)
        .filter(|slot: &&Slot| slot[2] != 0)
}

fn runs_of(file: usize, chain: &[Place]) -> Vec<Run> {
    let mut runs: Vec<Run> = Vec::new();
    for part in chain.chunk_by(|one, two| one.0 == two.0) {
        let track = part[0].0;
        runs.push(Run {
            file,
            turn: runs.len(),
            track,
            sectors: part.iter().map(|place| place.1).collect(),
            last: false,
            before: runs.iter().filter(|run| run.track == track).count(),
        });
    }
    if let Some(run) = runs.last_mut() {
        run.last = true;
    }
    runs
}

// --- The masks ------------------------------------------------------------

/// The used sectors of each track.
pub(super) type Used = [u32; 41];

/// How the masks, or the comparison with them, come about.
pub(super) enum Rule {
    /// The mask that a track had is lost when such a run is put in.
    Lost(fn(&Run) -> bool),
    /// Such a run is not put in.
    LeftOut(fn(&Run) -> bool),
    /// Other sectors than the run's are put in.
    Puts(fn(&Run) -> u32),
    /// Other masks, given the whole walk.
    Masks(fn(&Walked) -> Used),
    /// Another comparison: the sector of answer 8, or none.
    Judge(fn(&Seen) -> Option<u8>),
}
use Rule::{Judge, LeftOut, Lost, Masks, Puts};

/// A track's entry, and its used sectors.
pub(super) struct Seen {
    pub track: u8,
    pub count: u8,
    pub bits: u32,
    pub used: u32,
}

impl Seen {
    /// The track's own sectors that are marked wrongly.
    pub fn wrong(&self) -> u32 {
        (self.bits ^ !self.used) & own(self.track)
    }

    /// The right judgement.
    pub fn judged(&self) -> Option<u8> {
        self.with_count(u32::from(self.count) == (self.bits & own(self.track)).count_ones())
    }

    /// The lowest wrong sector, or 255 if only the count is wrong.
    pub fn with_count(&self, counts: bool) -> Option<u8> {
        match self.wrong() {
            0 => (!counts).then_some(255),
            wrong => Some(wrong.trailing_zeros() as u8),
        }
    }
}

impl Rule {
    fn used(&self, walked: &Walked) -> Used {
        match self {
            Lost(lost) => of_runs(
                walked,
                |old, run| if lost(run) { 0 } else { old } | run.mask(),
            ),
            LeftOut(left) => of_runs(
                walked,
                |old, run| if left(run) { old } else { old | run.mask() },
            ),
            Puts(sectors) => of_runs(walked, |old, run| old | sectors(run)),
            Masks(masks) => masks(walked),
            Judge(_) => right_masks(walked),
        }
    }

    /// Step 4 by this rule.
    fn fault(&self, layout: u32, image: &[u8]) -> Option<Answer> {
        let used = self.used(&Walked::of(layout, image));
        tracks(layout).find_map(|track| {
            let entry = &image[map_offset(layout, track)..][..4];
            let seen = Seen {
                track,
                count: entry[0],
                bits: u32::from_le_bytes([entry[1], entry[2], entry[3], 0]),
                used: used[usize::from(track)],
            };
            let sector = match self {
                Judge(judge) => judge(&seen),
                _ => seen.judged(),
            };
            sector.map(|sector| Answer::fault(8, track, sector, 255))
        })
    }
}

fn right_masks(walked: &Walked) -> Used {
    of_runs(walked, |old, run| old | run.mask())
}

/// The masks without a fault.
pub const RIGHT: Masked = Masked(Masks(right_masks));

fn directory_mask(walked: &Walked) -> u32 {
    1 | mask(&walked.directory)
}

/// Every run is put in by a rule; track 18 begins with map and directory.
fn of_runs(walked: &Walked, put: impl Fn(u32, &Run) -> u32) -> Used {
    let mut used = [0; 41];
    used[18] = directory_mask(walked);
    for run in &walked.runs {
        let old = &mut used[usize::from(run.track)];
        *old = put(*old, run);
    }
    used
}

/// The right masks, but for other bits of map and directory.
fn with_directory(walked: &Walked, bits: u32) -> Used {
    let mut used = right_masks(walked);
    used[18] = used[18] & !directory_mask(walked) | bits;
    used
}

/// The sectors in hand are let go only at some runs.
fn in_hand(walked: &Walked, emptied: fn(&Run) -> bool) -> Used {
    let mut used = right_masks(walked);
    let mut hand = 0;
    for run in &walked.runs {
        hand = if emptied(run) { 0 } else { hand } | run.mask();
        used[usize::from(run.track)] |= hand & own(run.track);
    }
    used
}

/// The files before the last are lost.
fn last_file_alone(walked: &Walked) -> Used {
    let last = walked.runs.last().map_or(0, |run| run.file);
    of_runs(walked, |old, run| {
        if run.file == last {
            old | run.mask()
        } else {
            old
        }
    })
}

/// Map and directory but for the directory's last sector.
fn all_but_its_last(walked: &Walked) -> u32 {
    1 | mask(&walked.directory[..walked.directory.len() - 1])
}

fn next_of_chain(runs: &[Run], at: usize) -> Option<&Run> {
    runs.get(at + 1).filter(|next| next.turn > 0)
}

fn one_before_of_chain(runs: &[Run], at: usize) -> Option<&Run> {
    runs[..at].last().filter(|_| runs[at].turn > 0)
}

fn next_file(runs: &[Run], at: usize) -> Option<&Run> {
    runs.get(at + 1).filter(|next| next.turn == 0)
}

/// Runs go to another run's track, where there is such a run.
fn moved(walked: &Walked, to: fn(&[Run], usize) -> Option<&Run>) -> Used {
    let mut used = [0; 41];
    used[18] = directory_mask(walked);
    for (at, run) in walked.runs.iter().enumerate() {
        let track = to(&walked.runs, at).unwrap_or(run).track;
        used[usize::from(track)] |= run.mask();
    }
    used
}

/// The last run of a file is lost, by its track and the next file's first.
fn ends_lost(walked: &Walked, lost: fn(u8, u8) -> bool) -> Used {
    let mut used = [0; 41];
    used[18] = directory_mask(walked);
    let next = walked.runs.iter().skip(1).map(Some).chain([None]);
    for (run, next) in walked.runs.iter().zip(next) {
        let ends = next.filter(|_| run.last);
        if !ends.is_some_and(|next| lost(run.track, next.track)) {
            used[usize::from(run.track)] |= run.mask();
        }
    }
    used
}

/// A check that is right but for the rule of its step 4.
pub struct Masked(pub(super) Rule);

impl EntryPoints for Masked {
    unsafe fn check(&self, layout: u32, image: Slice, answer: Slice) -> u32 {
        unsafe {
            let number = Faithful.check(layout, image, answer);
            if number != 0 && number != 8 {
                return number;
            }
            let fault = self.0.fault(layout, image.bytes());
            give(answer, fault.unwrap_or(Answer::done(0, 0)))
        }
    }
}

// --- The other calls ------------------------------------------------------

/// A check that loses a mask when a chain comes back.
pub const LOSES: Masked = Masked(Lost(comes_back));

fn comes_back(run: &Run) -> bool {
    run.before > 0
}

/// What it says of a sound image.
fn loses(layout: u32, image: &[u8]) -> Option<Answer> {
    let sound = is_image(layout, image) && check(layout, image).number == 0;
    sound.then(|| LOSES.0.fault(layout, image)).flatten()
}

wrong!(ReadLoses: read(layout, image, name, out, answer) {
    match fault_after_name(layout, image, name, loses) {
        Some(fault) => give(answer, fault),
        None => Faithful.read(layout, image, name, out, answer),
    }
});

wrong!(TellLoses: tell(layout, image, position, entry, answer) {
    match loses(layout, image.bytes()) {
        Some(fault) => give(answer, fault),
        None => Faithful.tell(layout, image, position, entry, answer),
    }
});

wrong!(StoreLoses: store(layout, image, name, kind, data, answer) {
    match fault_after_name(layout, image, name, loses) {
        Some(fault) if (1..=2).contains(&kind) => give(answer, fault),
        _ => Faithful.store(layout, image, name, kind, data, answer),
    }
});

wrong!(ScratchLoses: scratch(layout, image, name, answer) {
    match fault_after_name(layout, image, name, loses) {
        Some(fault) => give(answer, fault),
        None => Faithful.scratch(layout, image, name, answer),
    }
});

// --- Links to sectors that have an owner ----------------------------------

/// A link that gives 3: the chain up to it, its target, and the sectors of the
/// files before.
struct Linked {
    chain: Vec<Place>,
    target: Place,
    earlier: Vec<Place>,
    directory: Vec<u8>,
}

impl Linked {
    /// The track on which the link stands.
    fn track(&self) -> u8 {
        self.chain.last().map_or(18, |place| place.0)
    }

    /// The sectors of the chain since it came to this track.
    fn run(&self) -> &[Place] {
        let here = |place: &&Place| place.0 == self.track();
        let run = self.chain.iter().rev().take_while(here).count();
        &self.chain[self.chain.len() - run..]
    }
}

fn in_run(link: &Linked) -> bool {
    link.run().contains(&link.target)
}

fn in_chain(link: &Linked) -> bool {
    let before = link.chain.len() - link.run().len();
    link.target.0 == link.track() && link.chain[..before].contains(&link.target)
}

fn earlier_here(link: &Linked) -> bool {
    link.target.0 == link.track() && link.earlier.contains(&link.target)
}

fn earlier_elsewhere(link: &Linked) -> bool {
    link.target.0 != link.track() && link.earlier.contains(&link.target)
}

fn directory_here(link: &Linked) -> bool {
    let on_18 = !link.chain.is_empty() && link.track() == 18 && link.target.0 == 18;
    on_18 && link.directory.contains(&link.target.1)
}

/// The link of a file at which the check gives 3.
fn linked(layout: u32, image: &[u8], slot: u8, holder: Place) -> Linked {
    let geometry = Geometry::of(layout).expect("a layout");
    let disk = disk(&geometry, image).expect("an image");
    let track18 = track_18(track_18_of(image)).expect("an image");
    let directory = walk_directory(track18).expect("a sound directory");
    let directory = directory.sectors().to_vec();
    let chain = |slot: &Slot| Chain::of(&geometry, disk, slot).map(|(t, s, _)| (t, s));
    let before = directory
        .iter()
        .flat_map(|sector| disk[on_track_18(*sector)].as_chunks().0);
    let before = before
        .take(usize::from(slot))
        .filter(|slot: &&Slot| slot[2] != 0);
    let earlier = before.flat_map(chain).collect();
    let (sector, at) = (directory[usize::from(slot) / 8], usize::from(slot) % 8);
    let slot: &Slot = &disk[on_track_18(sector)].as_chunks().0[at];
    let places: Vec<Place> = chain(slot).collect();
    // No chain gets past a directory sector: there the first link stands.
    let in_slot = holder == (18, sector);
    let link = places.iter().position(|place| *place == holder);
    let length = link.filter(|_| !in_slot).map_or(0, |at| at + 1);
    Linked {
        target: places[length],
        chain: places[..length].to_vec(),
        earlier,
        directory,
    }
}

/// A check that does not notice some links to sectors that have an owner. The
/// chain goes on for ever, and it gives 7.
struct Unnoticed(fn(&Linked) -> bool);

impl EntryPoints for Unnoticed {
    unsafe fn check(&self, layout: u32, image: Slice, answer: Slice) -> u32 {
        unsafe {
            let number = Faithful.check(layout, image, answer);
            if number != 3 || answer.bytes()[2] == 255 {
                return number;
            }
            let [track, sector, slot] = [0, 1, 2].map(|byte| answer.bytes()[byte]);
            let link = linked(layout, image.bytes(), slot, (track, sector));
            match self.0(&link) {
                true => give(
                    answer,
                    Answer::fault(7, 18, link.directory[usize::from(slot) / 8], slot),
                ),
                false => number,
            }
        }
    }
}
