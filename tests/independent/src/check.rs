//! The check (01, Order of the check). The first fault met is the answer.

use crate::answer::{
    Answer, ALREADY_OWNED, BAD_LINK, COUNT_WRONG, KIND_NOT_CARRIED, MAP_WRONG, NAME_ON_DISK,
    NAME_TWICE, NONE, UNKNOWN_LAYOUT, WRONG_SIZE,
};
use crate::disk::{
    bitmap, disk, is_empty, link, map, map_entry, own_bits, slot_at, slot_count, slot_name,
    track_18, walk_directory, Directory, Disk, Link, Slot, MAX_SLOTS, NAME_BYTES, PAD,
};
use crate::geometry::{
    on_track_18, Geometry, DIRECTORY_TRACK, MAP_NUMBER, MOST_SECTORS, TRACK_18_BYTES,
    TRACK_18_OFFSET,
};

/// Values of the owner table. A file's owner number is its slot plus `FILES`.
pub const NOBODY: u16 = 0;
pub const MAP: u16 = 1;
pub const DIRECTORY: u16 = 2;
pub const FILES: u16 = 3;

/// The owner of each sector so far, by number. A disk of 35 tracks uses the
/// first 683 places.
type Owners = [u16; MOST_SECTORS];

/// What the check found on an accepted image.
pub struct Found {
    owners: Owners,
    pub geometry: Geometry,
    pub directory: Directory,
}

impl Found {
    /// The owners of the disk's sectors.
    pub fn owners(&self) -> &[u16] {
        &self.owners[..self.geometry.sectors]
    }
}

/// The geometry of a layout; any unknown number gives 17, in every call before
/// all but the answer block's 16 (02, §8).
pub(crate) fn geometry_of(layout: u32) -> Result<Geometry, Answer> {
    Geometry::of(layout).ok_or(Answer::refusal(UNKNOWN_LAYOUT))
}

/// The whole check, steps 1 to 4.
pub fn check(layout: u32, image: &[u8]) -> Answer {
    match examine(layout, image) {
        Ok(_) => Answer::done(0, 0),
        Err(fault) => fault,
    }
}

/// The whole check; an accepted image gives what was found on it.
pub fn examine(layout: u32, image: &[u8]) -> Result<Found, Answer> {
    let geometry = geometry_of(layout)?;
    let disk = disk(&geometry, image).ok_or(Answer::refusal(WRONG_SIZE))?;
    let track18 = image
        .get(TRACK_18_OFFSET..TRACK_18_OFFSET + TRACK_18_BYTES)
        .and_then(track_18)
        .ok_or(Answer::refusal(WRONG_SIZE))?;
    let directory = walk_directory(track18)?;
    let mut owners = [NOBODY; MOST_SECTORS];
    owners[MAP_NUMBER] = MAP;
    for &sector in directory.sectors() {
        owners[on_track_18(sector)] = DIRECTORY;
    }
    check_slots(&geometry, disk, &directory, &mut owners)?;
    check_map(&geometry, disk, &owners)?;
    Ok(Found {
        owners,
        geometry,
        directory,
    })
}

/// Step 3: the occupied slots in directory order.
fn check_slots(
    geometry: &Geometry,
    disk: &Disk,
    directory: &Directory,
    owners: &mut Owners,
) -> Result<(), Answer> {
    let mut names = Names::new();
    for index in 0..directory.slots() {
        let slot = slot_at(disk, directory, index);
        if is_empty(slot) {
            continue;
        }
        let holder = directory.sector_of(index);
        let here = |number| Answer::fault(number, DIRECTORY_TRACK, holder, index as u8);
        check_entry(slot, &mut names).map_err(here)?;
        let sectors = claim_chain(geometry, disk, slot, holder, index as u8, owners)?;
        if slot_count(slot) != sectors {
            return Err(here(COUNT_WRONG));
        }
    }
    Ok(())
}

/// The part of step 3 that track 18 shows: kind and flags, name, name used
/// by an earlier slot. Gives the answer number.
pub(crate) fn check_entry(slot: &Slot, names: &mut Names) -> Result<(), u8> {
    if !kind_is_carried(slot[2]) {
        return Err(KIND_NOT_CARRIED);
    }
    let name = slot_name(slot);
    if !name_is_sound(&name) {
        return Err(NAME_ON_DISK);
    }
    if !names.add(name) {
        return Err(NAME_TWICE);
    }
    Ok(())
}

/// The kinds that an image may hold, USR among them (01, The directory): bit 7
/// is 1, bits 4 and 5 are 0, bit 6 plays no part, the low four bits are 1, 2
/// or 3.
fn kind_is_carried(byte: u8) -> bool {
    byte & 0xB0 == 0x80 && matches!(byte & 0x0F, 1..=3)
}

/// 1 to 16 bytes that are not $A0, then only $A0.
fn name_is_sound(name: &[u8; NAME_BYTES]) -> bool {
    let length = name.iter().position(|&byte| byte == PAD);
    match length {
        None => true,
        Some(0) => false,
        Some(length) => name[length..].iter().all(|&byte| byte == PAD),
    }
}

/// Follows a file's chain and enters it in the owner table. Each link is
/// asked first whether it is on the disk, then whether its sector is owned.
/// Every round claims a sector that nobody owned, so the walk ends.
fn claim_chain(
    geometry: &Geometry,
    disk: &Disk,
    slot: &Slot,
    directory_sector: u8,
    index: u8,
    owners: &mut Owners,
) -> Result<u16, Answer> {
    let (mut track, mut sector) = (slot[3], slot[4]);
    let mut holder = (DIRECTORY_TRACK, directory_sector);
    let mut claimed = 0;
    loop {
        let fault = |number| Answer::fault(number, holder.0, holder.1, index);
        let target = geometry.number(track, sector).ok_or(fault(BAD_LINK))?;
        if owners[target] != NOBODY {
            return Err(fault(ALREADY_OWNED));
        }
        owners[target] = FILES + u16::from(index);
        claimed += 1;
        holder = (track, sector);
        match link(&disk[target]) {
            Link::Next(next_track, next_sector) => (track, sector) = (next_track, next_sector),
            Link::Last(_) => return Ok(claimed),
            Link::Bad => return Err(Answer::fault(BAD_LINK, track, sector, index)),
        }
    }
}

/// Step 4: each entry's bits are those of the owner table, and its count is
/// the number of ones among them. Bits past the track's last sector are
/// ignored (02, §5). The place names the lowest sector whose bit is wrong
/// (02, §3). It goes by track number, wherever an entry stands.
fn check_map(geometry: &Geometry, disk: &Disk, owners: &Owners) -> Result<(), Answer> {
    let mut first = 0;
    for track in 1..=geometry.tracks {
        let own = own_bits(geometry.sectors_on(track));
        let sectors = usize::from(geometry.sectors_on(track));
        let mut free = 0u32;
        for sector in 0..sectors {
            free |= u32::from(owners[first + sector] == NOBODY) << sector;
        }
        first += sectors;
        let entry = map_entry(geometry, map(disk), track);
        let wrong = (bitmap(entry) ^ free) & own;
        if wrong != 0 || u32::from(entry[0]) != free.count_ones() {
            return Err(Answer::fault(MAP_WRONG, track, lowest(wrong), NONE));
        }
    }
    Ok(())
}

/// The lowest of a track's sectors, bit s standing for sector s; `NONE` if
/// there is none.
fn lowest(sectors: u32) -> u8 {
    match sectors {
        0 => NONE,
        _ => sectors.trailing_zeros() as u8,
    }
}

/// The names met so far. Sound names are alike exactly if their 16 bytes
/// are, padding included, so each is held as one number. A small hashed
/// index keeps 144 names from costing ten thousand comparisons.
pub(crate) struct Names {
    names: [u128; MAX_SLOTS],
    len: usize,
    /// Position in `names` plus 1, or 0; more than twice as long as needed,
    /// so a free place is always found.
    index: [u8; 512],
}

impl Names {
    pub(crate) fn new() -> Names {
        Names {
            names: [0; MAX_SLOTS],
            len: 0,
            index: [0; 512],
        }
    }

    /// Enters a name; false if it was there already.
    fn add(&mut self, name: [u8; NAME_BYTES]) -> bool {
        let name = u128::from_le_bytes(name);
        let folded = (name as u64) ^ ((name >> 64) as u64).rotate_left(29);
        let mut at = (folded.wrapping_mul(0x9E37_79B9_7F4A_7C15) >> 55) as usize;
        while self.index[at] != 0 {
            if self.names[usize::from(self.index[at]) - 1] == name {
                return false;
            }
            at = (at + 1) % self.index.len();
        }
        if self.len < MAX_SLOTS {
            self.names[self.len] = name;
            self.len += 1;
            self.index[at] = self.len as u8;
        }
        true
    }
}
