//! Plants faults in sound images (01, Order of the check; Answer numbers).
//!
//! A fault is a few byte writes, with the answer that the check owes for it
//! and its rank in the order of the check. Of two faults that touch no byte
//! in common, the one of lower rank is the answer.

use crate::answer::Answer;
use crate::naive::{last_track, track_length};
use crate::rng::Rng;
use crate::sound::{not_pad, offset, slot_offset, Plan, Planned};

mod map;

/// Step, then directory sector, slot or track, then the part of the slot,
/// then the link.
pub type Rank = (u8, usize, u8, usize);

#[derive(Clone, Debug)]
pub struct Fault {
    pub writes: Vec<(usize, u8)>,
    pub answer: Answer,
    pub rank: Rank,
    /// The check meets it at the bytes written, and not later on.
    pub immediate: bool,
}

/// A way to plant a fault; `None` if the image has no place for it.
pub type Planter = fn(&mut Rng, &Plan) -> Option<Fault>;

/// All ways, by name. The first digit is the answer number, but for
/// "later-file", which may give 3 or 7.
pub const FAULTS: &[(&str, Planter)] = &[
    ("2-directory-to-18-0", |rng, plan| {
        directory_link(rng, plan, 2, |_, _| (18, 0))
    }),
    ("2-directory-off-18", |rng, plan| {
        directory_link(rng, plan, 2, off_track_18)
    }),
    ("2-directory-to-18-19", |rng, plan| {
        directory_link(rng, plan, 2, |rng, _| {
            (18, rng.pick(&[19, 20, 21, 127, 255]))
        })
    }),
    ("2-first-track-0", |rng, plan| {
        first_link(rng, plan, 2, |rng, _| (0, rng.byte()))
    }),
    ("2-first-off-disk", |rng, plan| {
        first_link(rng, plan, 2, off_disk)
    }),
    ("2-last-00-00", last_zero),
    ("2-cut-00-00", |rng, plan| {
        later_link(rng, plan, 2, |_, _| (0, 0))
    }),
    ("2-link-off-disk", |rng, plan| {
        later_link(rng, plan, 2, off_disk)
    }),
    ("3-directory-back", directory_back),
    ("3-first-to-18-0", |rng, plan| {
        first_link(rng, plan, 3, |_, _| (18, 0))
    }),
    ("3-first-to-directory", |rng, plan| {
        let sector = rng.pick(&plan.directory);
        first_to(rng, plan, (18, sector))
    }),
    ("3-first-to-earlier", first_to_earlier),
    ("3-link-to-18-0", |rng, plan| {
        later_link(rng, plan, 3, |_, _| (18, 0))
    }),
    ("3-link-to-directory", |rng, plan| {
        let sector = rng.pick(&plan.directory);
        let (file, link) = any_link(rng, plan)?;
        Some(link_fault(file, link, (18, sector), 3))
    }),
    ("3-link-to-itself", link_to_itself),
    ("3-link-to-earlier", link_to_earlier),
    ("3-link-to-its-track", link_to_its_track),
    ("4-kind", kind),
    ("5-name-starts-with-pad", name_starts_with_pad),
    ("5-name-after-pad", name_after_pad),
    ("6-name-twice", name_twice),
    ("7-count", count),
    ("7-chain-cut", chain_cut),
    ("7-chain-longer", chain_longer),
    ("8-count", map::count),
    ("8-count-by-eights", map::count_by_eights),
    ("8-count-of-others", map::count_of_others),
    ("8-bit", map::bit),
    ("8-marked-free", map::marked_free),
    ("8-marked-used", map::marked_used),
    ("8-bit-and-count", map::bit_and_count),
    ("8-bits", map::bits),
    ("8-bits-swapped", map::bits_swapped),
    ("8-two-tracks", map::two_tracks),
    ("8-count-then-bit", map::count_then_bit),
    ("8-bitmap", map::bitmap),
    ("8-entry-of-fresh", map::entry_of_fresh),
    ("8-entries-exchanged", map::entries_exchanged),
    ("8-bit-among-spare", map::bit_among_spare),
    ("8-bit-for-spare", map::bit_for_spare),
    ("8-bit-after-spare", map::bit_after_spare),
    ("8-spare-bit-counted", map::spare_bit_counted),
    ("8-spare-bits-counted", map::spare_bits_counted),
    ("8-entry-elsewhere", map::entry_elsewhere),
    ("8-lost-file", lost_file),
    ("8-directory-cut", directory_cut),
    ("later-file", link_to_later),
];

/// Applies a fault to an image.
pub fn apply(image: &mut [u8], fault: &Fault) {
    for &(at, byte) in &fault.writes {
        image[at] = byte;
    }
}

/// Two faults that don't interfere, first the one that the check meets.
pub fn pair(rng: &mut Rng, plan: &Plan) -> Option<(Fault, Fault)> {
    let one = rng.pick(FAULTS).1(rng, plan)?;
    let two = rng.pick(FAULTS).1(rng, plan)?;
    let touch = one
        .writes
        .iter()
        .any(|(at, _)| two.writes.iter().any(|(other, _)| at == other));
    let same_track = one.rank.0 == 4 && one.rank == two.rank;
    if !one.immediate || !two.immediate || touch || same_track {
        return None;
    }
    Some(if one.rank < two.rank {
        (one, two)
    } else {
        (two, one)
    })
}

// --- Targets --------------------------------------------------------------

/// What a link names.
type Target = fn(&mut Rng, &Plan) -> (u8, u8);

/// A link that no file may hold, with a track other than 0.
fn off_disk(rng: &mut Rng, plan: &Plan) -> (u8, u8) {
    let last = usize::from(last_track(plan.layout));
    let tracks = match plan.layout {
        0 => [36, 37, 40, 42, 127, 128, 255],
        _ => [41, 41, 42, 43, 127, 128, 255],
    };
    match rng.below(3) {
        0 => (rng.pick(&tracks), rng.byte()),
        1 => (rng.range(last + 1, 255) as u8, rng.pick(&[0, 0, 1, 16])),
        _ => {
            // The last of 40 tracks as often as any.
            let first = if last == 40 && rng.one_in(2) { 36 } else { 1 };
            let track = rng.range(first, last) as u8;
            let past = usize::from(track_length(track));
            let far = rng.range(past, 255);
            (track, rng.pick(&[past, past, far]) as u8)
        }
    }
}

/// Any link that names another track than 18, and doesn't end.
fn off_track_18(rng: &mut Rng, _: &Plan) -> (u8, u8) {
    let track = rng.pick(&[1, 17, 19, 35, 36, 0x92, 255]);
    (track, rng.range(0, 20) as u8)
}

// --- The directory's links ------------------------------------------------

fn directory_fault(plan: &Plan, index: usize, link: (u8, u8), number: u8) -> Fault {
    let sector = plan.directory[index];
    let at = offset(18, sector);
    Fault {
        writes: vec![(at, link.0), (at + 1, link.1)],
        answer: Answer::fault(number, 18, sector, 255),
        rank: (2, index, 0, 0),
        immediate: true,
    }
}

fn directory_link(rng: &mut Rng, plan: &Plan, number: u8, target: Target) -> Option<Fault> {
    let index = rng.below(plan.directory.len());
    let link = target(rng, plan);
    Some(directory_fault(plan, index, link, number))
}

/// A link to a directory sector already walked, its own included.
fn directory_back(rng: &mut Rng, plan: &Plan) -> Option<Fault> {
    let index = rng.below(plan.directory.len());
    let target = plan.directory[rng.below(index + 1)];
    Some(directory_fault(plan, index, (18, target), 3))
}

/// The directory ends early: what follows is lost, and the map shows it.
fn directory_cut(rng: &mut Rng, plan: &Plan) -> Option<Fault> {
    if plan.directory.len() < 2 {
        return None;
    }
    let index = rng.below(plan.directory.len() - 1);
    let mut fault = directory_fault(plan, index, (0, rng.byte()), 8);
    let mut lost: Vec<(u8, u8)> = plan.directory[index + 1..]
        .iter()
        .map(|&sector| (18, sector))
        .collect();
    for file in plan.files.iter().filter(|file| file.slot / 8 > index) {
        lost.extend(&file.chain);
    }
    fault.answer = lost_sectors(&lost)?;
    fault.immediate = false;
    Some(fault)
}

/// The answer for sectors that are marked used and have no owner: the place is
/// the first of them, by track and then by sector (02, §3).
fn lost_sectors(lost: &[(u8, u8)]) -> Option<Answer> {
    let &(track, sector) = lost.iter().min()?;
    Some(Answer::fault(8, track, sector, 255))
}

// --- A file's links -------------------------------------------------------

fn any_file<'a>(rng: &mut Rng, plan: &'a Plan) -> Option<&'a Planned> {
    plan.files.get(rng.below(plan.files.len()))
}

/// A file and one of its sectors, as an index into the chain.
fn any_link<'a>(rng: &mut Rng, plan: &'a Plan) -> Option<(&'a Planned, usize)> {
    let file = any_file(rng, plan)?;
    let last = file.chain.len() - 1;
    let any = rng.below(last + 1);
    Some((file, rng.pick(&[0, any, last])))
}

/// A fault of a file's slot; `part` is its rank within the slot.
fn slot_fault(plan: &Plan, file: &Planned, number: u8, part: u8, bytes: &[(usize, u8)]) -> Fault {
    let at = slot_offset(&plan.directory, file.slot);
    let sector = plan.directory[file.slot / 8];
    Fault {
        writes: bytes
            .iter()
            .map(|&(byte, value)| (at + byte, value))
            .collect(),
        answer: Answer::fault(number, 18, sector, file.slot as u8),
        rank: (3, file.slot, part, 0),
        immediate: true,
    }
}

const PART_CHAIN: u8 = 3;
const PART_COUNT: u8 = 4;

fn first_fault(plan: &Plan, file: &Planned, link: (u8, u8), number: u8) -> Fault {
    slot_fault(plan, file, number, PART_CHAIN, &[(3, link.0), (4, link.1)])
}

fn first_link(rng: &mut Rng, plan: &Plan, number: u8, target: Target) -> Option<Fault> {
    let file = any_file(rng, plan)?;
    let link = target(rng, plan);
    Some(first_fault(plan, file, link, number))
}

fn first_to(rng: &mut Rng, plan: &Plan, link: (u8, u8)) -> Option<Fault> {
    let file = any_file(rng, plan)?;
    Some(first_fault(plan, file, link, 3))
}

/// A fault of the link that the chain's sector number `link` holds.
fn link_fault(file: &Planned, link: usize, target: (u8, u8), number: u8) -> Fault {
    let (track, sector) = file.chain[link];
    let at = offset(track, sector);
    Fault {
        writes: vec![(at, target.0), (at + 1, target.1)],
        answer: Answer::fault(number, track, sector, file.slot as u8),
        rank: (3, file.slot, PART_CHAIN, link + 1),
        immediate: true,
    }
}

fn later_link(rng: &mut Rng, plan: &Plan, number: u8, target: Target) -> Option<Fault> {
    let (file, link) = any_link(rng, plan)?;
    let target = target(rng, plan);
    Some(link_fault(file, link, target, number))
}

fn last_zero(rng: &mut Rng, plan: &Plan) -> Option<Fault> {
    let file = any_file(rng, plan)?;
    Some(link_fault(file, file.chain.len() - 1, (0, 0), 2))
}

fn link_to_itself(rng: &mut Rng, plan: &Plan) -> Option<Fault> {
    let (file, link) = any_link(rng, plan)?;
    let back = rng.below(link + 1);
    let target = file.chain[rng.pick(&[0, back, link])];
    Some(link_fault(file, link, target, 3))
}

/// Two different files in slot order, by index.
fn two_files(rng: &mut Rng, plan: &Plan) -> Option<(usize, usize)> {
    if plan.files.len() < 2 {
        return None;
    }
    let later = rng.range(1, plan.files.len() - 1);
    Some((rng.below(later), later))
}

fn first_to_earlier(rng: &mut Rng, plan: &Plan) -> Option<Fault> {
    let (earlier, later) = two_files(rng, plan)?;
    let target = rng.pick(&plan.files[earlier].chain);
    Some(first_fault(plan, &plan.files[later], target, 3))
}

fn link_to_earlier(rng: &mut Rng, plan: &Plan) -> Option<Fault> {
    let (earlier, later) = two_files(rng, plan)?;
    let target = rng.pick(&plan.files[earlier].chain);
    let file = &plan.files[later];
    Some(link_fault(file, rng.below(file.chain.len()), target, 3))
}

/// A link to an owned sector of the track on which it stands: this chain had
/// it before it left the track, or the directory or an earlier file has it.
fn link_to_its_track(rng: &mut Rng, plan: &Plan) -> Option<Fault> {
    let (file, link) = match rng.one_in(4) {
        true => link_on_track_18(rng, plan)?,
        false => any_link(rng, plan)?,
    };
    let track = file.chain[link].0;
    let here = |place: &(u8, u8)| place.0 == track;
    let run = file.chain[..=link].iter().rev().take_while(|p| here(p));
    let before = file.chain[..link + 1 - run.count()].iter();
    let earlier = plan.files.iter().filter(|other| other.slot < file.slot);
    let owned = earlier
        .flat_map(|other| &other.chain)
        .chain(before)
        .copied();
    let directory = plan.directory.iter().map(|&sector| (18, sector));
    let owned: Vec<_> = owned.chain(directory).filter(here).collect();
    let target = *owned.get(rng.below(owned.len()))?;
    Some(link_fault(file, link, target, 3))
}

fn link_on_track_18<'a>(rng: &mut Rng, plan: &'a Plan) -> Option<(&'a Planned, usize)> {
    let file = any_file(rng, plan)?;
    let link = file.chain.iter().position(|place| place.0 == 18)?;
    Some((file, link))
}

/// A link into a later file. The earlier one takes the rest of its chain;
/// that shows in the earlier one's count, or else at the later one's link.
fn link_to_later(rng: &mut Rng, plan: &Plan) -> Option<Fault> {
    let (earlier, later) = two_files(rng, plan)?;
    let (file, other) = (&plan.files[earlier], &plan.files[later]);
    let link = rng.below(file.chain.len());
    let target = rng.below(other.chain.len());
    let mut fault = link_fault(file, link, other.chain[target], 3);
    let walked = link + 1 + other.chain.len() - target;
    fault.answer = if walked != file.chain.len() {
        slot_fault(plan, file, 7, PART_COUNT, &[]).answer
    } else if target == 0 {
        slot_fault(plan, other, 3, PART_CHAIN, &[]).answer
    } else {
        link_fault(other, target - 1, (0, 0), 3).answer
    };
    fault.immediate = false;
    Some(fault)
}

// --- The rest of a slot ---------------------------------------------------

fn kind(rng: &mut Rng, plan: &Plan) -> Option<Fault> {
    const KNOWN: &[u8] = &[
        0x80, 0x01, 0x02, 0x03, 0x84, 0x85, 0x88, 0x8F, 0x91, 0x92, 0xA1, 0xA2, 0xB1, 0xC0, 0xC4,
        0xD1, 0xE2, 0xF3, 0xFF, 0x41, 0x42, 0x04, 0x89, 0x8A, 0x8B,
    ];
    let file = any_file(rng, plan)?;
    let random = rng.byte();
    let allowed = [0x00, 0x81, 0x82, 0x83, 0xC1, 0xC2, 0xC3];
    let byte = match rng.one_in(3) && !allowed.contains(&random) {
        true => random,
        false => rng.pick(KNOWN),
    };
    Some(slot_fault(plan, file, 4, 0, &[(2, byte)]))
}

fn name_starts_with_pad(rng: &mut Rng, plan: &Plan) -> Option<Fault> {
    let file = any_file(rng, plan)?;
    let mut bytes: Vec<(usize, u8)> = vec![(5, 0xA0)];
    if rng.one_in(2) {
        // The empty name: padding alone.
        bytes = (5..21).map(|at| (at, 0xA0)).collect();
    }
    Some(slot_fault(plan, file, 5, 1, &bytes))
}

fn name_after_pad(rng: &mut Rng, plan: &Plan) -> Option<Fault> {
    let file = any_file(rng, plan)?;
    let pad = rng.range(0, 14);
    let any = rng.range(pad + 1, 15);
    let after = rng.pick(&[pad + 1, any, 15]);
    let byte = rng.pick(&[0x00, 0x20, 0x41, 0xFF]);
    let byte = if rng.one_in(2) { byte } else { not_pad(rng) };
    Some(slot_fault(
        plan,
        file,
        5,
        1,
        &[(5 + pad, 0xA0), (5 + after, byte)],
    ))
}

fn name_twice(rng: &mut Rng, plan: &Plan) -> Option<Fault> {
    let (earlier, later) = two_files(rng, plan)?;
    let mut name = plan.files[earlier].name.clone();
    name.resize(16, 0xA0);
    let bytes: Vec<(usize, u8)> = (5..21).zip(name).collect();
    Some(slot_fault(plan, &plan.files[later], 6, 2, &bytes))
}

fn count(rng: &mut Rng, plan: &Plan) -> Option<Fault> {
    let file = any_file(rng, plan)?;
    let right = file.chain.len() as u16;
    let any = rng.draw() as u16;
    let wrong = rng.pick(&[
        right + 1,
        right - 1,
        right.swap_bytes(),
        right + 256,
        right ^ 0x8000,
        0,
        any,
    ]);
    if wrong == right {
        return None;
    }
    let [low, high] = wrong.to_le_bytes();
    Some(slot_fault(
        plan,
        file,
        7,
        PART_COUNT,
        &[(0x1E, low), (0x1F, high)],
    ))
}

/// The chain ends early, soundly; only the count shows it.
fn chain_cut(rng: &mut Rng, plan: &Plan) -> Option<Fault> {
    let (file, link) = any_link(rng, plan)?;
    if link + 1 == file.chain.len() {
        return None;
    }
    let mut fault = link_fault(file, link, (0, rng.range(1, 255) as u8), 7);
    fault.answer = slot_fault(plan, file, 7, PART_COUNT, &[]).answer;
    fault.immediate = false;
    Some(fault)
}

/// The chain goes on into a sector that nobody owns.
fn chain_longer(rng: &mut Rng, plan: &Plan) -> Option<Fault> {
    let file = any_file(rng, plan)?;
    let track = rng.range(1, usize::from(last_track(plan.layout))) as u8;
    let sector = rng.below(usize::from(track_length(track))) as u8;
    if !map::says_free(plan, track, sector) {
        return None;
    }
    let mut fault = link_fault(file, file.chain.len() - 1, (track, sector), 7);
    let at = offset(track, sector);
    fault
        .writes
        .extend([(at, 0), (at + 1, rng.range(1, 255) as u8)]);
    fault.answer = slot_fault(plan, file, 7, PART_COUNT, &[]).answer;
    fault.immediate = false;
    Some(fault)
}

/// The slot is emptied and nothing else: its sectors are used by nobody.
fn lost_file(rng: &mut Rng, plan: &Plan) -> Option<Fault> {
    let file = any_file(rng, plan)?;
    let mut fault = slot_fault(plan, file, 8, 0, &[(2, 0)]);
    fault.answer = lost_sectors(&file.chain)?;
    fault.immediate = false;
    Some(fault)
}
