//! Rows of the comparison, as terms of the prover's language.

use independent::answer::Answer;
use independent::calls::{format, scratch, store, tell};
use independent::check::check;
use independent::geometry::{IMAGE_BYTES, TRACK_18_BYTES, TRACK_18_OFFSET};
use independent::listing::sleeve_output;
use independent::naive::{last_track, track_length};
use independent::rng::Rng;
use independent::sound::{map_offset, spare_mask};

/// What the generated modules cite: the definitions that run a case.
pub const DEFINITIONS: &str = include_str!("rows.antt.txt");

/// The head of each module of cases.
const MODULE_HEAD: &str = include_str!("head.antt.txt");

/// Every definition on the way of a computation.
const UNFOLDED: &str = include_str!("unfolded.txt");

/// The lengths that a store of a case hands in.
const LENGTHS: [usize; 4] = [0, 254, 255, 1000];

/// Images with more files than this are left out: the prover computes the
/// owners anew for every bit of the map.
pub const MOST_FILES: usize = 8;

/// One case: where it comes from, and its term.
pub struct Row {
    what: String,
    term: String,
    /// Whether it is a store or a scratch that changes a map entry in which a
    /// bit past the track's last sector is set.
    pub beside_spare: bool,
}

impl Row {
    /// The module that states it.
    pub fn module(&self) -> String {
        let Row { what, term, .. } = self;
        format!(
            "{MODULE_HEAD}\n-- {what}\nhere : Case\nhere = {term}\n\nagrees : holds here ≡ true\nunfolding here {UNFOLDED}\nagrees = refl\n"
        )
    }
}

/// The occupied slots of the sectors that the directory's links lead to.
pub fn occupied(image: &[u8]) -> usize {
    let mut sector = 1;
    let mut found = 0;
    for _ in 0..18 {
        let start = TRACK_18_OFFSET + 256 * sector;
        found += (0..8)
            .filter(|slot| image[start + 32 * slot + 2] != 0)
            .count();
        let (track, next) = (image[start], image[start + 1] as usize);
        if track != 18 || next == 0 || next > 18 {
            break;
        }
        sector = next;
    }
    found
}

/// The cases of one image: its check and its listing, and where it is
/// accepted a store if it has no file, and a scratch if it has one. These two
/// are checked once more with wrong bits of the map, and an empty disk with a
/// count that is wrong.
pub fn of_image(layout: u32, kind: &str, seed: u64, image: &[u8]) -> Vec<Row> {
    let answer = check(layout, image);
    let digit = layout.to_string();
    let printed = sleeve_output(Some(digit.as_bytes()), image);
    let listed = format!("{} {}", sectors(image), numbers(&printed));
    let mut rows = vec![
        check_row(layout, kind, seed, image),
        row(layout, kind, seed, "lists", listed),
    ];
    // with more files a write takes the prover more steps than it has
    match occupied(image) {
        0 if answer.number == 0 => {
            rows.extend(store_row(layout, kind, seed, image));
            rows.extend(counted_row(layout, kind, seed, image));
            rows.push(wrong_bits_row(layout, kind, seed, image));
        }
        1 if answer.number == 0 => {
            rows.extend(scratch_row(layout, kind, seed, image));
            rows.push(wrong_bits_row(layout, kind, seed, image));
        }
        _ => {}
    }
    rows
}

fn row(layout: u32, kind: &str, seed: u64, head: &str, rest: String) -> Row {
    Row {
        what: format!("layout {layout}, {kind} {seed}: {head}"),
        term: format!("{head} {layout} {rest}"),
        beside_spare: false,
    }
}

/// A case with the disk after a call.
fn row_of_change(
    layout: u32,
    kind: &str,
    seed: u64,
    head: &str,
    rest: String,
    disks: [&[u8]; 2],
) -> Row {
    let [before, after] = disks;
    let beside_spare = |track| {
        let at = map_offset(layout, track);
        before[at + 3] & spare_mask(track) != 0 && before[at..at + 4] != after[at..at + 4]
    };
    Row {
        beside_spare: (1..=last_track(layout)).any(beside_spare),
        ..row(layout, kind, seed, head, rest)
    }
}

fn check_row(layout: u32, kind: &str, seed: u64, image: &[u8]) -> Row {
    let answer = answer_of(&check(layout, image));
    let rest = format!("{} {}", disk(image), numbers(&answer));
    row(layout, kind, seed, "checks", rest)
}

/// The check where the last track with bits past its last sector counts them.
fn counted_row(layout: u32, kind: &str, seed: u64, image: &[u8]) -> Option<Row> {
    let spare = |track: u8| image[map_offset(layout, track) + 3] & spare_mask(track);
    let track = (1..=last_track(layout)).rfind(|&track| spare(track) != 0)?;
    let mut counted = image.to_vec();
    counted[map_offset(layout, track)] += spare(track).count_ones() as u8;
    let kind = format!("{kind}, track {track} counted,");
    Some(check_row(layout, &kind, seed, &counted))
}

/// The check where one bit or two of a track are wrong, of sectors with an
/// owner or without: the lower one is named (02, §3).
fn wrong_bits_row(layout: u32, kind: &str, seed: u64, image: &[u8]) -> Row {
    let rng = &mut Rng::new(seed);
    let track = rng.range(1, last_track(layout).into()) as u8;
    let bits = [(); 2].map(|()| rng.below(track_length(track).into()) as u8);
    let mut spoilt = image.to_vec();
    for byte in 0..3 {
        let mask = |bit: u8| if bit / 8 == byte { 1 << (bit % 8) } else { 0 };
        spoilt[map_offset(layout, track) + 1 + usize::from(byte)] ^= mask(bits[0]) | mask(bits[1]);
    }
    let kind = format!("{kind}, bits {bits:?} of track {track} wrong,");
    check_row(layout, &kind, seed, &spoilt)
}

fn answer_of(answer: &Answer) -> [u8; 4] {
    [
        answer.number,
        answer.place.track,
        answer.place.sector,
        answer.place.slot,
    ]
}

/// A store that is done, and the disk after it.
fn store_row(layout: u32, kind: &str, seed: u64, image: &[u8]) -> Option<Row> {
    let length = LENGTHS[(seed % 4) as usize];
    let data: Vec<u8> = (0..length).map(|i| ((i * 7 + 3) % 256) as u8).collect();
    let mut after = image.to_vec();
    let name = b"NEW FILE";
    let file_kind = 1 + (seed / 4 % 2) as u32;
    if store(layout, &mut after, name, file_kind, &data).number != 0 {
        return None;
    }
    let rest = format!(
        "{} {} {file_kind} {length} {} {}",
        disk(image),
        numbers(name),
        disk(&after),
        changed(image, &after)
    );
    Some(row_of_change(
        layout,
        kind,
        seed,
        "stores",
        rest,
        [image, &after],
    ))
}

/// The number that a store of a kind gives on a formatted disk.
pub fn of_kind(kind: u32) -> Row {
    let mut image = vec![0; IMAGE_BYTES];
    format(0, &mut image, b"CASES", b'0', b'1');
    let number = store(0, &mut image, b"NEW FILE", kind, b"").number;
    Row {
        what: format!("kind {kind}: takes"),
        term: format!("takes {kind} {number}"),
        beside_spare: false,
    }
}

/// A scratch of the first file, and the disk after it.
fn scratch_row(layout: u32, kind: &str, seed: u64, image: &[u8]) -> Option<Row> {
    let name = first_name(layout, image)?;
    let mut after = image.to_vec();
    if scratch(layout, &mut after, &name).number != 0 {
        return None;
    }
    let rest = format!(
        "{} {} {} {}",
        disk(image),
        numbers(&name),
        disk(&after),
        changed(image, &after)
    );
    let disks = [image, &after[..]];
    Some(row_of_change(layout, kind, seed, "scratches", rest, disks))
}

/// The name of the file at position 0.
fn first_name(layout: u32, image: &[u8]) -> Option<Vec<u8>> {
    let (answer, told) = tell(layout, image, 0);
    (answer.number == 0).then(|| {
        told.name
            .iter()
            .copied()
            .take_while(|&b| b != 0xA0)
            .collect()
    })
}

/// Track 18 whole, and of every other sector its two link bytes.
fn disk(image: &[u8]) -> String {
    format!("{} {}", sectors(image), links(image))
}

fn sectors(image: &[u8]) -> String {
    let track = &image[TRACK_18_OFFSET..TRACK_18_OFFSET + TRACK_18_BYTES];
    let runs: String = track
        .chunks(256)
        .map(|s| format!("{} ∷ ", run_lengths(s)))
        .collect();
    format!("({runs}[])")
}

/// A sector as counts and values, one after the other.
fn run_lengths(sector: &[u8]) -> String {
    let mut runs: Vec<(usize, u8)> = Vec::new();
    for &byte in sector {
        match runs.last_mut() {
            Some((count, value)) if *value == byte => *count += 1,
            _ => runs.push((1, byte)),
        }
    }
    let text: String = runs
        .iter()
        .map(|(count, value)| format!("{count} ∷ {value} ∷ "))
        .collect();
    format!("({text}[])")
}

/// Sector number and both link bytes of each sector off track 18 whose link
/// bytes are not both 0.
fn links(image: &[u8]) -> String {
    let first = TRACK_18_OFFSET / 256;
    let last = first + TRACK_18_BYTES / 256;
    let text: String = (0..image.len() / 256)
        .filter(|n| !(first..last).contains(n))
        .map(|n| (n, image[256 * n], image[256 * n + 1]))
        .filter(|&(_, a, b)| (a, b) != (0, 0))
        .map(|(n, a, b)| format!("{n} ∷ {a} ∷ {b} ∷ "))
        .collect();
    format!("({text}[])")
}

/// The sectors off track 18 that differ, as number and runs of what stands
/// there after the call.
fn changed(before: &[u8], after: &[u8]) -> String {
    let first = TRACK_18_OFFSET / 256;
    let last = first + TRACK_18_BYTES / 256;
    let text: String = (0..before.len() / 256)
        .filter(|n| !(first..last).contains(n))
        .filter(|n| before[256 * n..256 * n + 256] != after[256 * n..256 * n + 256])
        .map(|n| format!("({n} ∷ {}) ∷ ", run_lengths(&after[256 * n..256 * n + 256])))
        .collect();
    format!("({text}[])")
}

fn numbers(bytes: &[u8]) -> String {
    let text: String = bytes.iter().map(|b| format!("{b} ∷ ")).collect();
    format!("({text}[])")
}
