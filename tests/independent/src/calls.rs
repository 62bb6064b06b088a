//! Format, read, tell, store and scratch (01, What the calls do). Every
//! refusal is found before the first byte is written.

use crate::answer::{
    Answer, DIRECTORY_FULL, DISK_FULL, DOS_VERSION, KIND_ASKED, NAME_ASKED, NAME_THERE, NOT_THERE,
    NO_ROOM, WRONG_SIZE,
};
use crate::check::{examine, geometry_of, Found};
use crate::disk::{
    disk, disk_mut, free_off_track_18, is_empty, lowest_free, map, mark_free, mark_used, own_bits,
    slot_at, slot_count, slot_in_mut, slot_name, Chain, Directory, Disk, Sector, DATA_BYTES,
    NAME_BYTES, PAD,
};
use crate::geometry::{on_track_18, Geometry, DIRECTORY_TRACK, MAP_NUMBER, SECTOR_BYTES};

/// What tell reports; all zero if refused.
#[derive(Clone, Copy, PartialEq, Eq, Debug, Default)]
pub struct Told {
    pub kind: u8,
    pub name: [u8; NAME_BYTES],
    pub track: u8,
    pub sector: u8,
    pub count: u16,
    pub length: u32,
}

/// The refusals that every call with a name starts with: 17, 1, then 9.
/// Gives the name padded with $A0.
fn size_and_name(layout: u32, image: &[u8], name: &[u8]) -> Result<[u8; NAME_BYTES], Answer> {
    if image.len() != geometry_of(layout)?.image_bytes() {
        return Err(Answer::refusal(WRONG_SIZE));
    }
    if name.is_empty() || name.len() > NAME_BYTES || name.contains(&PAD) {
        return Err(Answer::refusal(NAME_ASKED));
    }
    let mut padded = [PAD; NAME_BYTES];
    padded[..name.len()].copy_from_slice(name);
    Ok(padded)
}

/// The occupied slot with this name.
fn find(disk: &Disk, directory: &Directory, name: &[u8; NAME_BYTES]) -> Option<usize> {
    (0..directory.slots()).find(|&index| {
        let slot = slot_at(disk, directory, index);
        !is_empty(slot) && slot_name(slot) == *name
    })
}

/// The length in bytes and in sectors of the file in a slot.
fn measure(disk: &Disk, found: &Found, slot: usize) -> (u32, u16) {
    let (mut length, mut sectors) = (0, 0);
    let slot = slot_at(disk, &found.directory, slot);
    for (_, _, data) in Chain::of(&found.geometry, disk, slot) {
        length += data.len() as u32;
        sectors += 1;
    }
    (length, sectors)
}

/// Turns either end of a call into its answer.
fn settle(result: Result<Answer, Answer>) -> Answer {
    result.unwrap_or_else(|refusal| refusal)
}

// --- Format ---------------------------------------------------------------

pub fn format(layout: u32, image: &mut [u8], name: &[u8], id1: u8, id2: u8) -> Answer {
    settle(try_format(layout, image, name, id1, id2))
}

fn try_format(
    layout: u32,
    image: &mut [u8],
    name: &[u8],
    id1: u8,
    id2: u8,
) -> Result<Answer, Answer> {
    let padded = size_and_name(layout, image, name)?;
    let geometry = geometry_of(layout)?;
    let disk = disk_mut(&geometry, image).ok_or(Answer::refusal(WRONG_SIZE))?;
    for sector in disk.iter_mut() {
        sector.fill(0);
    }
    disk[on_track_18(1)][..2].copy_from_slice(&[0x00, 0xFF]);
    format_map(&geometry, &mut disk[MAP_NUMBER], &padded, id1, id2);
    Ok(Answer::done(0, 0))
}

/// 18/0 of a fresh disk, from zeros; bits past a track's last sector are 0, and
/// so are the entries that another layout has elsewhere.
fn format_map(geometry: &Geometry, map: &mut Sector, name: &[u8; NAME_BYTES], id1: u8, id2: u8) {
    map[..4].copy_from_slice(&[0x12, 0x01, 0x41, 0x00]);
    for track in 1..=geometry.tracks {
        let sectors = geometry.sectors_on(track);
        let bits = own_bits(sectors).to_le_bytes();
        let at = geometry.entry_at(track);
        map[at] = sectors;
        map[at + 1..at + 4].copy_from_slice(&bits[..3]);
    }
    mark_used(geometry, map, DIRECTORY_TRACK, 0);
    mark_used(geometry, map, DIRECTORY_TRACK, 1);
    map[0x90..0xA0].copy_from_slice(name);
    map[0xA0..0xAB].fill(PAD);
    map[0xA2] = id1;
    map[0xA3] = id2;
    map[0xA5] = 0x32;
    map[0xA6] = 0x41;
}

// --- Read and tell --------------------------------------------------------

pub fn read(layout: u32, image: &[u8], name: &[u8], out: &mut [u8]) -> Answer {
    settle(try_read(layout, image, name, out))
}

fn try_read(layout: u32, image: &[u8], name: &[u8], out: &mut [u8]) -> Result<Answer, Answer> {
    let name = size_and_name(layout, image, name)?;
    let found = examine(layout, image)?;
    let disk = disk(&found.geometry, image).ok_or(Answer::refusal(WRONG_SIZE))?;
    let slot = find(disk, &found.directory, &name).ok_or(Answer::refusal(NOT_THERE))?;
    // The length comes first: a short buffer is left whole.
    let (length, sectors) = measure(disk, &found, slot);
    if out.len() < length as usize {
        return Err(Answer::refusal(NO_ROOM));
    }
    let mut at = 0;
    let slot = slot_at(disk, &found.directory, slot);
    for (_, _, data) in Chain::of(&found.geometry, disk, slot) {
        out[at..at + data.len()].copy_from_slice(data);
        at += data.len();
    }
    Ok(Answer::done(length, sectors))
}

/// Tells about the file at a position, counted from 0 among occupied slots.
pub fn tell(layout: u32, image: &[u8], position: usize) -> (Answer, Told) {
    match try_tell(layout, image, position) {
        Ok(told) => (Answer::done(0, 0), told),
        Err(refusal) => (refusal, Told::default()),
    }
}

fn try_tell(layout: u32, image: &[u8], position: usize) -> Result<Told, Answer> {
    let found = examine(layout, image)?;
    let directory = &found.directory;
    let disk = disk(&found.geometry, image).ok_or(Answer::refusal(WRONG_SIZE))?;
    let index = (0..directory.slots())
        .filter(|&index| !is_empty(slot_at(disk, directory, index)))
        .nth(position)
        .ok_or(Answer::refusal(NOT_THERE))?;
    let slot = slot_at(disk, directory, index);
    Ok(Told {
        kind: slot[2],
        name: slot_name(slot),
        track: slot[3],
        sector: slot[4],
        count: slot_count(slot),
        length: measure(disk, &found, index).0,
    })
}

// --- Store ----------------------------------------------------------------

pub fn store(layout: u32, image: &mut [u8], name: &[u8], kind: u32, data: &[u8]) -> Answer {
    settle(try_store(layout, image, name, kind, data))
}

/// Sectors needed: 1 for no bytes, else the length over 254 rounded up.
pub fn sectors_needed(length: usize) -> usize {
    length.div_ceil(DATA_BYTES).max(1)
}

/// The kinds that a store takes, 1 and 2: USR files are retired (02, §12).
fn kind_is_stored(kind: u32) -> bool {
    matches!(kind, 1 | 2)
}

fn try_store(
    layout: u32,
    image: &mut [u8],
    name: &[u8],
    kind: u32,
    data: &[u8],
) -> Result<Answer, Answer> {
    let name = size_and_name(layout, image, name)?;
    if !kind_is_stored(kind) {
        return Err(Answer::refusal(KIND_ASKED));
    }
    let Found {
        geometry,
        directory,
        ..
    } = examine(layout, image)?;
    let disk = disk_mut(&geometry, image).ok_or(Answer::refusal(WRONG_SIZE))?;
    writing_allowed(disk)?;
    if find(disk, &directory, &name).is_some() {
        return Err(Answer::refusal(NAME_THERE));
    }
    let spot = find_spot(&geometry, disk, &directory).ok_or(Answer::refusal(DIRECTORY_FULL))?;
    let needed = sectors_needed(data.len());
    if needed > free_off_track_18(&geometry, map(disk)) {
        return Err(Answer::refusal(DISK_FULL));
    }
    // From here on nothing is refused.
    let (sector, slot) = take_spot(&geometry, disk, &directory, spot);
    let first = write_chain(&geometry, disk, data);
    let entry = slot_in_mut(&mut disk[on_track_18(sector)], slot);
    entry[0x02] = 0x80 + kind as u8;
    (entry[0x03], entry[0x04]) = first;
    entry[0x05..0x15].copy_from_slice(&name);
    entry[0x15..0x1E].fill(0);
    entry[0x1E..0x20].copy_from_slice(&(needed as u16).to_le_bytes());
    Ok(Answer::done(data.len() as u32, needed as u16))
}

/// Store and scratch ask for DOS version $41 or $00 (01, The map, 18/0).
fn writing_allowed(disk: &Disk) -> Result<(), Answer> {
    match map(disk)[2] {
        0x41 | 0x00 => Ok(()),
        _ => Err(Answer::refusal(DOS_VERSION)),
    }
}

/// Where a new directory entry goes.
enum Spot {
    /// An empty slot that is there already.
    Slot(usize),
    /// The first slot of this free sector of track 18.
    NewSector(u8),
}

fn find_spot(geometry: &Geometry, disk: &Disk, directory: &Directory) -> Option<Spot> {
    (0..directory.slots())
        .find(|&index| is_empty(slot_at(disk, directory, index)))
        .map(Spot::Slot)
        .or_else(|| lowest_free(geometry, map(disk), DIRECTORY_TRACK, 0).map(Spot::NewSector))
}

/// Makes the spot ready, growing the directory if need be. Gives the sector
/// of track 18 and the slot within the directory sector.
fn take_spot(
    geometry: &Geometry,
    disk: &mut Disk,
    directory: &Directory,
    spot: Spot,
) -> (u8, usize) {
    match spot {
        Spot::Slot(index) => (directory.sector_of(index), index),
        Spot::NewSector(sector) => {
            let new = &mut disk[on_track_18(sector)];
            new.fill(0);
            new[1] = 0xFF;
            let old = &mut disk[on_track_18(directory.last())];
            (old[0], old[1]) = (DIRECTORY_TRACK, sector);
            mark_used(geometry, &mut disk[MAP_NUMBER], DIRECTORY_TRACK, sector);
            (sector, 0)
        }
    }
}

/// Writes the data to the first free sectors in house order, and marks them
/// used. The caller has seen that there are enough. Gives the first sector.
fn write_chain(geometry: &Geometry, disk: &mut Disk, data: &[u8]) -> (u8, u8) {
    let mut chunks = data.chunks(DATA_BYTES);
    let mut left = sectors_needed(data.len());
    let mut first = (0, 0);
    let mut previous: Option<usize> = None;
    for track in geometry.house_tracks() {
        let mut from = 0;
        while let Some(sector) = lowest_free(geometry, map(disk), track, from) {
            let Some(here) = geometry.number(track, sector) else {
                break;
            };
            mark_used(geometry, &mut disk[MAP_NUMBER], track, sector);
            match previous {
                Some(holder) => (disk[holder][0], disk[holder][1]) = (track, sector),
                None => first = (track, sector),
            }
            fill_last(&mut disk[here], chunks.next().unwrap_or(&[]));
            previous = Some(here);
            from = sector + 1;
            left -= 1;
            if left == 0 {
                return first;
            }
        }
    }
    first
}

/// Makes a sector the last of its chain, holding at most 254 bytes. The next
/// round overwrites the link of all but the true last.
fn fill_last(sector: &mut Sector, data: &[u8]) {
    let end = 2 + data.len();
    sector[0] = 0;
    sector[1] = (data.len() + 1) as u8;
    sector[2..end].copy_from_slice(data);
    sector[end..SECTOR_BYTES].fill(0);
}

// --- Scratch --------------------------------------------------------------

pub fn scratch(layout: u32, image: &mut [u8], name: &[u8]) -> Answer {
    settle(try_scratch(layout, image, name))
}

fn try_scratch(layout: u32, image: &mut [u8], name: &[u8]) -> Result<Answer, Answer> {
    let name = size_and_name(layout, image, name)?;
    let found = examine(layout, image)?;
    let directory = &found.directory;
    let disk = disk_mut(&found.geometry, image).ok_or(Answer::refusal(WRONG_SIZE))?;
    writing_allowed(disk)?;
    let index = find(disk, directory, &name).ok_or(Answer::refusal(NOT_THERE))?;
    let (length, sectors) = measure(disk, &found, index);
    let slot = slot_at(disk, directory, index);
    let mut next = Some((slot[3], slot[4]));
    while let Some((track, sector)) = next {
        next = clear_sector(&found.geometry, disk, track, sector);
    }
    let holder = &mut disk[on_track_18(directory.sector_of(index))];
    slot_in_mut(holder, index)[0x02..0x20].fill(0);
    Ok(Answer::done(length, sectors))
}

/// Zeroes and frees one sector of a file; gives the sector it linked to.
fn clear_sector(geometry: &Geometry, disk: &mut Disk, track: u8, sector: u8) -> Option<(u8, u8)> {
    let here = &mut disk[geometry.number(track, sector)?];
    let link = (here[0], here[1]);
    here.fill(0);
    mark_free(geometry, &mut disk[MAP_NUMBER], track, sector);
    (link.0 != 0).then_some(link)
}
