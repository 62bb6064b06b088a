//! Faults of the map (01, The map, 18/0). The place names the lowest of the
//! track's own sectors whose bit is wrong, and 255 where only the count is
//! (02, §3). It is known here because each wrong bit is noted when it is made.

use super::Fault;
use crate::answer::Answer;
use crate::naive::{last_track, track_length};
use crate::rng::Rng;
use crate::sound::{map_offset, offset, spare_bit, spare_mask, Plan};

/// Whether the map of a sound image says that a sector is free.
pub(super) fn says_free(plan: &Plan, track: u8, sector: u8) -> bool {
    let byte = plan.image[map_offset(plan.layout, track) + 1 + usize::from(sector / 8)];
    byte & (1 << (sector % 8)) != 0
}

/// A track's map entry in the making, and the sectors whose bits are wrong.
struct Entry {
    layout: u32,
    track: u8,
    bytes: [u8; 4],
    wrong: Vec<u8>,
}

impl Entry {
    /// The right entry of a track.
    fn of(plan: &Plan, track: u8) -> Entry {
        let at = map_offset(plan.layout, track);
        Entry {
            layout: plan.layout,
            track,
            bytes: std::array::from_fn(|byte| plan.image[at + byte]),
            wrong: Vec::new(),
        }
    }

    /// The right entry of any track, those at the ends of a zone more often.
    fn any(rng: &mut Rng, plan: &Plan) -> Entry {
        let any = rng.range(1, usize::from(last_track(plan.layout))) as u8;
        let ends = match plan.layout {
            0 => [1, 17, 18, 19, 24, 25, 30, 31, 35],
            _ => [1, 17, 18, 19, 31, 35, 36, 38, 40],
        };
        let end = rng.pick(&ends);
        Entry::of(plan, rng.pick(&[any, any, any, end]))
    }

    /// Flips a bit, that of a sector or a spare one; gives whether it was 1.
    fn flip_bit(&mut self, bit: u8) -> bool {
        let (byte, mask) = (1 + usize::from(bit / 8), 1 << (bit % 8));
        self.bytes[byte] ^= mask;
        self.bytes[byte] & mask == 0
    }

    /// Makes the bit of a sector wrong; gives whether it was 1.
    fn spoil(&mut self, sector: u8) -> bool {
        self.wrong.push(sector);
        self.flip_bit(sector)
    }

    /// Makes some bits wrong. The count stays, follows them, or is any.
    fn spoil_all(&mut self, rng: &mut Rng, sectors: &[u8]) {
        let mut count = self.bytes[0];
        for &sector in sectors {
            count = match self.spoil(sector) {
                true => count.wrapping_sub(1),
                false => count.wrapping_add(1),
            };
        }
        let any = rng.byte();
        self.bytes[0] = rng.pick(&[self.bytes[0], count, count, any]);
    }

    /// The bits, bit s standing for sector s; the spare ones are among them.
    fn bits(&self) -> u32 {
        u32::from_le_bytes([self.bytes[1], self.bytes[2], self.bytes[3], 0])
    }

    /// The bits of the track's own sectors.
    fn own(&self) -> u32 {
        (1 << track_length(self.track)) - 1
    }

    /// Puts other bits in the place of the right ones; gives whether one of
    /// the track's own is wrong.
    fn put_bits(&mut self, bits: u32) -> bool {
        let wrong = (self.bits() ^ bits) & self.own();
        self.wrong = (0..24).filter(|bit| wrong >> bit & 1 == 1).collect();
        self.bytes[1..].copy_from_slice(&bits.to_le_bytes()[..3]);
        wrong != 0
    }

    /// The fault of this entry in the place of the track's own.
    fn fault(self) -> Fault {
        let sector = self.wrong.iter().copied().min().unwrap_or(255);
        Fault {
            writes: (map_offset(self.layout, self.track)..)
                .zip(self.bytes)
                .collect(),
            answer: Answer::fault(8, self.track, sector, 255),
            rank: (4, usize::from(self.track), 0, 0),
            immediate: true,
        }
    }
}

/// A fault of two entries: the answer is that of the lower track.
fn both(one: Entry, two: Entry) -> Fault {
    let (lower, higher) = match one.track < two.track {
        true => (one, two),
        false => (two, one),
    };
    let mut fault = lower.fault();
    fault.writes.extend(higher.fault().writes);
    fault
}

/// One of a track's sectors. Half of the time it is the last: there a mask of
/// the track's own bits goes wrong. The ends of the bitmap's bytes are common.
fn any_sector(rng: &mut Rng, track: u8) -> u8 {
    let sectors = track_length(track);
    let any = rng.below(usize::from(sectors)) as u8;
    match rng.one_in(2) {
        true => sectors - 1,
        false => rng.pick(&[0, 7, 8, 15, 16, any, any, any]),
    }
}

/// The sectors of a track that the map says are free, or used.
fn marked(plan: &Plan, track: u8, free: bool) -> Vec<u8> {
    (0..track_length(track))
        .filter(|&sector| says_free(plan, track, sector) == free)
        .collect()
}

/// One of these sectors, the first and the last of them often.
fn any_of(rng: &mut Rng, sectors: &[u8]) -> Option<u8> {
    let any = *sectors.get(rng.below(sectors.len()))?;
    Some(rng.pick(&[any, any, *sectors.first()?, *sectors.last()?]))
}

// --- Counts and bits ------------------------------------------------------

/// Only the count is wrong.
pub(super) fn count(rng: &mut Rng, plan: &Plan) -> Option<Fault> {
    let mut entry = Entry::any(rng, plan);
    spoil_count(rng, &mut entry);
    Some(entry.fault())
}

/// Makes a right count wrong.
fn spoil_count(rng: &mut Rng, entry: &mut Entry) {
    let off = rng.range(1, 255) as u8;
    entry.bytes[0] = entry.bytes[0].wrapping_add(rng.pick(&[1, 255, off]));
}

/// The count is off by eight, or by a number of that sort: its low bits are
/// right.
pub(super) fn count_by_eights(rng: &mut Rng, plan: &Plan) -> Option<Fault> {
    let mut entry = Entry::any(rng, plan);
    let off: u8 = rng.pick(&[8, 16, 24, 32, 32, 64, 64, 128, 128]);
    let off = rng.pick(&[off, off.wrapping_neg()]);
    entry.bytes[0] = entry.bytes[0].wrapping_add(off);
    Some(entry.fault())
}

/// The count of something else: of the used sectors, of a part of the bits, of
/// all 24, of another track, or the least or the greatest that a byte holds.
pub(super) fn count_of_others(rng: &mut Rng, plan: &Plan) -> Option<Fault> {
    let mut entry = Entry::any(rng, plan);
    let (bits, own) = (entry.bits(), entry.own());
    let mut parts = vec![!bits & own, !bits, bits, own, 0xFF_FFFF];
    parts.extend([0xFF, 0xFF00, 0xFFFF, 0xFF_FF00, !1, own >> 1].map(|part| bits & own & part));
    let mut counts: Vec<u8> = parts.iter().map(|&bits| ones(bits)).collect();
    let last = last_track(plan.layout);
    let beside = [entry.track - 1, entry.track + 1].map(|track| track.clamp(1, last));
    counts.extend(beside.map(|track| Entry::of(plan, track).bytes[0]));
    counts.extend([0, 255]);
    counts.retain(|&count| count != entry.bytes[0]);
    entry.bytes[0] = rng.pick(&counts);
    Some(entry.fault())
}

/// The ones of 24 bits.
fn ones(bits: u32) -> u8 {
    (bits & 0xFF_FFFF).count_ones() as u8
}

/// Another bitmap: a single byte of it, every second bit, one bit, all bits
/// but one, the used sectors, or the right one a sector or a byte off. The
/// count stays, follows the bits, or is one of the ends.
pub(super) fn bitmap(rng: &mut Rng, plan: &Plan) -> Option<Fault> {
    let mut entry = Entry::any(rng, plan);
    let (bits, own) = (entry.bits(), entry.own());
    let one = 1 << any_sector(rng, entry.track);
    let byte = 0xFF << rng.pick(&[0, 8, 16]);
    let reversed = bits.swap_bytes() >> 8;
    let bits = rng.pick(&[
        byte,
        bits & byte,
        0x55_5555,
        0xAA_AAAA,
        one,
        own & !one,
        !bits,
        0,
        0xFF_FFFF,
        bits << 1,
        bits >> 1,
        reversed,
    ]);
    let wrong = entry.put_bits(bits);
    let right = entry.bytes[0];
    entry.bytes[0] = rng.pick(&[
        right,
        ones(bits & own),
        ones(bits & own),
        ones(bits),
        0,
        255,
    ]);
    wrong.then(|| entry.fault())
}

/// The whole entry of a track without files, or of one without room.
pub(super) fn entry_of_fresh(rng: &mut Rng, plan: &Plan) -> Option<Fault> {
    let mut entry = Entry::any(rng, plan);
    let spare = entry.bits() & !entry.own();
    let bits = rng.pick(&[entry.own(), 0]);
    let wrong = entry.put_bits(bits | rng.pick(&[spare, 0]));
    entry.bytes[0] = ones(bits);
    wrong.then(|| entry.fault())
}

/// One wrong bit; the count is that of the owners.
pub(super) fn bit(rng: &mut Rng, plan: &Plan) -> Option<Fault> {
    let mut entry = Entry::any(rng, plan);
    entry.spoil(any_sector(rng, entry.track));
    Some(entry.fault())
}

/// A sector that has an owner is marked free.
pub(super) fn marked_free(rng: &mut Rng, plan: &Plan) -> Option<Fault> {
    wrongly_marked(rng, plan, true)
}

/// A sector that has no owner is marked used.
pub(super) fn marked_used(rng: &mut Rng, plan: &Plan) -> Option<Fault> {
    wrongly_marked(rng, plan, false)
}

fn wrongly_marked(rng: &mut Rng, plan: &Plan, free: bool) -> Option<Fault> {
    let mut entry = Entry::any(rng, plan);
    let sector = any_of(rng, &marked(plan, entry.track, !free))?;
    entry.spoil_all(rng, &[sector]);
    Some(entry.fault())
}

/// One wrong bit, and a count that is wrong too: it follows the bit, or it is
/// any other.
pub(super) fn bit_and_count(rng: &mut Rng, plan: &Plan) -> Option<Fault> {
    let mut entry = Entry::any(rng, plan);
    let right = entry.bytes[0];
    let followed = match entry.spoil(any_sector(rng, entry.track)) {
        true => right - 1,
        false => right + 1,
    };
    spoil_count(rng, &mut entry);
    entry.bytes[0] = rng.pick(&[followed, entry.bytes[0]]);
    Some(entry.fault())
}

/// Two or more wrong bits of one track, up to all of them.
pub(super) fn bits(rng: &mut Rng, plan: &Plan) -> Option<Fault> {
    let mut entry = Entry::any(rng, plan);
    let mut sectors: Vec<u8> = (0..track_length(entry.track)).collect();
    rng.shuffle(&mut sectors);
    let some = rng.range(2, sectors.len());
    sectors.truncate(rng.pick(&[2, 2, 3, some]));
    entry.spoil_all(rng, &sectors);
    Some(entry.fault())
}

/// A sector is marked free and another used, both wrongly: the count is still
/// that of the bits.
pub(super) fn bits_swapped(rng: &mut Rng, plan: &Plan) -> Option<Fault> {
    let mut entry = Entry::any(rng, plan);
    for free in [true, false] {
        entry.spoil(any_of(rng, &marked(plan, entry.track, free))?);
    }
    Some(entry.fault())
}

// --- Two tracks -----------------------------------------------------------

/// Two different tracks' right entries, the lower track's first.
fn two_entries(rng: &mut Rng, plan: &Plan) -> (Entry, Entry) {
    let last = usize::from(last_track(plan.layout));
    let lower = rng.range(1, last - 1);
    let higher = rng.range(lower + 1, last);
    (
        Entry::of(plan, lower as u8),
        Entry::of(plan, rng.pick(&[lower + 1, higher]) as u8),
    )
}

/// Wrong bits on two tracks.
pub(super) fn two_tracks(rng: &mut Rng, plan: &Plan) -> Option<Fault> {
    let (mut lower, mut higher) = two_entries(rng, plan);
    for entry in [&mut lower, &mut higher] {
        let sector = any_sector(rng, entry.track);
        entry.spoil_all(rng, &[sector]);
    }
    Some(both(lower, higher))
}

/// A wrong count on one track, and a wrong bit on another.
pub(super) fn count_then_bit(rng: &mut Rng, plan: &Plan) -> Option<Fault> {
    let (mut counted, mut spoilt) = two_entries(rng, plan);
    if rng.one_in(4) {
        (counted, spoilt) = (spoilt, counted);
    }
    spoil_count(rng, &mut counted);
    let sector = any_sector(rng, spoilt.track);
    spoilt.spoil_all(rng, &[sector]);
    Some(both(counted, spoilt))
}

/// Two tracks have each other's entry, with as many free sectors.
pub(super) fn entries_exchanged(rng: &mut Rng, plan: &Plan) -> Option<Fault> {
    let mut one = Entry::any(rng, plan);
    let all = (1..=last_track(plan.layout)).map(|track| Entry::of(plan, track));
    let alike = all.filter(|other| other.track != one.track && other.bytes[0] == one.bytes[0]);
    let alike: Vec<u8> = alike.map(|other| other.track).collect();
    let mut two = Entry::of(plan, *alike.get(rng.below(alike.len()))?);
    let (bits, others) = (one.bits(), two.bits());
    let wrong = one.put_bits(others) & two.put_bits(bits);
    wrong.then(|| both(one, two))
}

/// A right entry stands where another layout has one of tracks 36 to 40, and a
/// wrong one at its own place (02, §8).
pub(super) fn entry_elsewhere(rng: &mut Rng, plan: &Plan) -> Option<Fault> {
    let extra = rng.range(36, 40) as u8;
    let (mut entry, elsewhere) = match plan.layout {
        0 => (
            Entry::any(rng, plan),
            offset(18, 0) + 0xAC + 4 * rng.below(10),
        ),
        layout => (Entry::of(plan, extra), map_offset(3 - layout, extra)),
    };
    let right = entry.bytes;
    let sector = any_sector(rng, entry.track);
    entry.spoil_all(rng, &[sector]);
    let mut fault = entry.fault();
    fault.writes.extend((elsewhere..).zip(right));
    Some(fault)
}

// --- Bits past a track's last sector (02, §5) -----------------------------
//
// Such a bit is no fault and is never named; a count or a sector's bit that is
// wrong beside it is.

/// All spare bits are set, and a sector's bit is wrong. The count follows it,
/// or doesn't.
pub(super) fn bit_among_spare(rng: &mut Rng, plan: &Plan) -> Option<Fault> {
    let mut entry = Entry::any(rng, plan);
    entry.bytes[3] |= spare_mask(entry.track);
    let sector = any_sector(rng, entry.track);
    entry.spoil_all(rng, &[sector]);
    Some(entry.fault())
}

/// A sector's bit is wrong, and a spare one goes the other way: the 24 bits
/// hold as many ones as before.
pub(super) fn bit_for_spare(rng: &mut Rng, plan: &Plan) -> Option<Fault> {
    let mut entry = Entry::any(rng, plan);
    let past = rng.range(usize::from(track_length(entry.track)), 23) as u8;
    let was_free = entry.spoil(any_sector(rng, entry.track));
    let spare_was_set = entry.flip_bit(past);
    (was_free != spare_was_set).then(|| entry.fault())
}

/// A spare bit of a lower track is the other way, which is no fault, and a
/// sector's bit is wrong.
pub(super) fn bit_after_spare(rng: &mut Rng, plan: &Plan) -> Option<Fault> {
    let (mut lower, mut higher) = two_entries(rng, plan);
    lower.bytes[3] ^= spare_bit(rng, lower.track);
    let sector = any_sector(rng, higher.track);
    higher.spoil_all(rng, &[sector]);
    let mut fault = higher.fault();
    fault.writes.extend(lower.fault().writes);
    Some(fault)
}

/// One spare bit is set, and the count counts it. The others are 0 or as they
/// were.
pub(super) fn spare_bit_counted(rng: &mut Rng, plan: &Plan) -> Option<Fault> {
    let mut entry = Entry::any(rng, plan);
    if rng.one_in(2) {
        entry.bytes[3] &= !spare_mask(entry.track);
    }
    entry.bytes[3] |= spare_bit(rng, entry.track);
    entry.bytes[0] += 1;
    Some(entry.fault())
}

/// The count is that of the ones of all 24 bits. All spare bits are set, or
/// those that were.
pub(super) fn spare_bits_counted(rng: &mut Rng, plan: &Plan) -> Option<Fault> {
    let mut entry = Entry::any(rng, plan);
    if rng.one_in(2) {
        entry.bytes[3] |= spare_mask(entry.track);
    }
    let counted = (entry.bytes[3] & spare_mask(entry.track)).count_ones() as u8;
    entry.bytes[0] += counted;
    (counted > 0).then(|| entry.fault())
}
