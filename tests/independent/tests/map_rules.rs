//! Wrong rules for the place of answer 8 (02, §3), each found by an entry
//! worked out by hand, and by a planted fault. So neither the cases of
//! tests/map_place.rs nor the generated images let such a rule pass.

mod map_cases;

use independent::damage::{apply, FAULTS};
use independent::generate::ground;
use independent::naive::{position, track_length};
use independent::rng::Rng;
use independent::sound::map_offset;
use map_cases::{disk, with_entry, BY_HAND, TWO_TRACKS};

/// A wrong entry as a check sees it, and the right one without spare bits.
struct Seen {
    track: u8,
    count: u8,
    bits: u32,
    right_count: u8,
    right: u32,
}

impl Seen {
    /// The bits of the track's own sectors.
    fn own(&self) -> u32 {
        (1 << track_length(self.track)) - 1
    }
    /// Those that are wrong.
    fn wrong(&self) -> u32 {
        (self.bits ^ self.right) & self.own()
    }
    /// Of these, the sectors that have an owner and are marked free.
    fn wrongly_free(&self) -> u32 {
        self.wrong() & self.bits
    }
    /// And those that have none and are marked used.
    fn wrongly_used(&self) -> u32 {
        self.wrong() & !self.bits
    }
    fn spare(&self) -> u32 {
        self.bits & !self.own()
    }
    /// The count is that of the entry's own bits.
    fn adds_up(&self) -> bool {
        u32::from(self.count) == (self.bits & self.own()).count_ones()
    }
    fn counts_right(&self) -> bool {
        self.count == self.right_count
    }
}

/// The lowest of 24 bits, or 255.
fn lowest(bits: u32) -> u8 {
    (0..24).find(|bit| bits >> bit & 1 == 1).unwrap_or(255)
}

fn highest(bits: u32) -> u8 {
    let found = (0..24).rev().find(|bit| bits >> bit & 1 == 1);
    found.unwrap_or(255)
}

/// The lowest wrong sector through a rule of its own; 255 stays.
fn renamed(seen: &Seen, rename: impl Fn(u8) -> u8) -> u8 {
    match lowest(seen.wrong()) {
        255 => 255,
        sector => rename(sector),
    }
}

/// The lowest wrong sector where this holds, and else 255.
fn only_if(seen: &Seen, holds: bool) -> u8 {
    match holds {
        true => lowest(seen.wrong()),
        false => 255,
    }
}

/// Some bits if there are any, and else others.
fn first_of(bits: u32, others: u32) -> u8 {
    match bits {
        0 => lowest(others),
        _ => lowest(bits),
    }
}

/// Something else than 255 for a wrong count.
fn for_a_count(seen: &Seen, sector: u8) -> u8 {
    match seen.wrong() {
        0 => sector,
        wrong => lowest(wrong),
    }
}

/// Gives the sector for the first wrong entry.
type SectorRule = fn(&Seen) -> u8;

const SECTOR_RULES: &[(&str, SectorRule)] = &[
    ("gives 255 always, as before", |_| 255),
    ("gives 0 always", |_| 0),
    ("names the highest wrong bit", |seen| highest(seen.wrong())),
    ("names a spare bit where no other is wrong", |seen| {
        first_of(seen.wrong(), seen.spare())
    }),
    ("names a spare bit before a wrong one", |seen| {
        first_of(seen.spare(), seen.wrong())
    }),
    ("takes every track for one of 21 sectors", |seen| {
        lowest((seen.bits ^ seen.right) & 0x1F_FFFF)
    }),
    ("takes every track for one of 17 sectors", |seen| {
        lowest(seen.wrong() & 0x1_FFFF)
    }),
    ("leaves out the last sector", |seen| {
        lowest(seen.wrong() & seen.own() >> 1)
    }),
    ("leaves out the first sector", |seen| {
        lowest(seen.wrong() & !1)
    }),
    ("leaves out the first byte", |seen| {
        lowest(seen.wrong() & !0xFF)
    }),
    ("leaves out the second byte", |seen| {
        lowest(seen.wrong() & !0xFF00)
    }),
    ("leaves out the last byte", |seen| {
        lowest(seen.wrong() & 0xFFFF)
    }),
    ("gives sector 0 for a wrong count", |seen| {
        for_a_count(seen, 0)
    }),
    ("gives the track's length for a wrong count", |seen| {
        for_a_count(seen, track_length(seen.track))
    }),
    ("gives the lowest free sector for a wrong count", |seen| {
        for_a_count(seen, lowest(seen.right))
    }),
    ("reads a byte from its highest bit", |seen| {
        let bytes = seen.wrong().to_le_bytes().map(u8::reverse_bits);
        lowest(u32::from_le_bytes(bytes))
    }),
    ("reads the last byte first", |seen| {
        lowest(seen.wrong().swap_bytes() >> 8)
    }),
    ("gives the sector's number within its byte", |seen| {
        renamed(seen, |sector| sector % 8)
    }),
    ("gives the number of the byte", |seen| {
        renamed(seen, |sector| sector / 8)
    }),
    (
        "gives the sector's number on the disk, cut to a byte",
        |seen| renamed(seen, |sector| position(seen.track, sector).unwrap() as u8),
    ),
    ("counts sectors from 1", |seen| {
        renamed(seen, |sector| sector + 1)
    }),
    ("counts sectors from the last", |seen| {
        renamed(seen, |sector| track_length(seen.track) - 1 - sector)
    }),
    ("gives the number of wrong bits", |seen| {
        renamed(seen, |_| seen.wrong().count_ones() as u8)
    }),
    ("only sees sectors marked free wrongly", |seen| {
        lowest(seen.wrongly_free())
    }),
    ("only sees sectors marked used wrongly", |seen| {
        lowest(seen.wrongly_used())
    }),
    ("sees sectors marked free wrongly first", |seen| {
        first_of(seen.wrongly_free(), seen.wrongly_used())
    }),
    ("sees sectors marked used wrongly first", |seen| {
        first_of(seen.wrongly_used(), seen.wrongly_free())
    }),
    ("names the lowest sector marked free", |seen| {
        renamed(seen, |_| lowest(seen.bits & seen.own()))
    }),
    ("names the lowest sector marked used", |seen| {
        renamed(seen, |_| lowest(!seen.bits & seen.own()))
    }),
    ("names the lowest sector without an owner", |seen| {
        renamed(seen, |_| lowest(seen.right))
    }),
    ("names the lowest sector with an owner", |seen| {
        renamed(seen, |_| lowest(!seen.right & seen.own()))
    }),
    ("only names a sector beside a right count", |seen| {
        only_if(seen, seen.counts_right())
    }),
    ("only names a sector beside a wrong count", |seen| {
        only_if(seen, !seen.counts_right())
    }),
    ("only names a sector if the count adds up", |seen| {
        only_if(seen, seen.adds_up())
    }),
    ("only names a sector if the count doesn't add up", |seen| {
        only_if(seen, !seen.adds_up())
    }),
    ("only names a sector that is wrong alone", |seen| {
        only_if(seen, seen.wrong().count_ones() == 1)
    }),
    ("only names a sector if no spare bit is set", |seen| {
        only_if(seen, seen.spare() == 0)
    }),
];

/// Gives track and sector for all wrong entries, from the lowest track on.
type TrackRule = fn(&[Seen]) -> (u8, u8);

const TRACK_RULES: &[(&str, TrackRule)] = &[
    ("takes the last wrong track", |all| {
        all.last().map(place).unwrap()
    }),
    ("takes the first track with a wrong bit", |all| {
        let bit = all.iter().find(|seen| seen.wrong() != 0);
        place(bit.unwrap_or(&all[0]))
    }),
    ("takes the first track with a wrong count", |all| {
        let count = all.iter().find(|seen| !seen.counts_right());
        place(count.unwrap_or(&all[0]))
    }),
    ("takes the sector from the last wrong track", |all| {
        (all[0].track, all.last().map(place).unwrap().1)
    }),
    ("takes the lowest sector of all wrong tracks", |all| {
        let sectors = all.iter().map(|seen| place(seen).1);
        (all[0].track, sectors.min().unwrap())
    }),
];

/// The rule of 02, §3 for one entry.
fn place(seen: &Seen) -> (u8, u8) {
    (seen.track, lowest(seen.wrong()))
}

// --- Cases ----------------------------------------------------------------

/// The wrong entries of an image, and the place owed.
type Case = (Vec<Seen>, (u8, u8));

fn bits(entry: &[u8]) -> u32 {
    u32::from_le_bytes([entry[1], entry[2], entry[3], 0])
}

/// The entries that are wrong against those of a sound image.
fn wrong_entries(image: &[u8], sound: &[u8]) -> Vec<Seen> {
    let seen = |track: u8| {
        let at = map_offset(0, track)..map_offset(0, track) + 4;
        let (is, right) = (&image[at.clone()], &sound[at]);
        let own = (1 << track_length(track)) - 1;
        Seen {
            track,
            count: is[0],
            bits: bits(is),
            right_count: right[0],
            right: bits(right) & own,
        }
    };
    let is_wrong = |seen: &Seen| seen.wrong() != 0 || !seen.counts_right();
    (1..=35).map(seen).filter(is_wrong).collect()
}

fn by_hand() -> Vec<Case> {
    let sound = disk();
    let mut cases = Vec::new();
    for &(track, entry, sector) in BY_HAND {
        let image = with_entry(&sound, track, entry);
        cases.push((wrong_entries(&image, &sound), (track, sector)));
    }
    for ([one, two], owed) in TWO_TRACKS {
        let image = with_entry(&sound, one.0, one.1);
        let image = with_entry(&image, two.0, two.1);
        cases.push((wrong_entries(&image, &sound), *owed));
    }
    cases
}

/// The planted faults of the map, each on so many images.
fn by_planting(rounds: u64) -> Vec<Case> {
    let mut cases = Vec::new();
    for seed in 0..rounds {
        let rng = &mut Rng::new(seed);
        let plan = ground(0, rng);
        let planted = FAULTS.iter().filter_map(|(_, planter)| planter(rng, &plan));
        for fault in planted.filter(|fault| fault.rank.0 == 4) {
            let mut image = plan.image.clone();
            apply(&mut image, &fault);
            let place = fault.answer.place;
            let owed = (place.track, place.sector);
            cases.push((wrong_entries(&image, &plan.image), owed));
        }
    }
    cases
}

fn each_wrong_rule_is_found(cases: &[Case]) {
    let found = |rule: TrackRule| cases.iter().any(|(seen, owed)| rule(seen) != *owed);
    assert!(!found(|all| place(&all[0])));
    for (name, rule) in TRACK_RULES {
        assert!(found(*rule), "a check that {name} was not found");
    }
    for (name, rule) in SECTOR_RULES {
        let wrong = |(seen, owed): &Case| (seen[0].track, rule(&seen[0])) != *owed;
        assert!(cases.iter().any(wrong), "a check that {name} was not found");
    }
}

#[test]
fn by_entries_worked_out_by_hand() {
    each_wrong_rule_is_found(&by_hand());
}

#[test]
fn by_planted_faults() {
    each_wrong_rule_is_found(&by_planting(20));
}
