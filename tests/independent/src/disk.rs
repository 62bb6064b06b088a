//! The parts of an image: sectors, map, directory, links (01, The map, 18/0;
//! The directory; Chains).

use crate::answer::{Answer, ALREADY_OWNED, BAD_LINK, NONE};
use crate::geometry::{
    on_track_18, Geometry, DIRECTORY_TRACK, MAP_NUMBER, SECTOR_BYTES, TRACK_18_SECTORS,
};

pub type Sector = [u8; SECTOR_BYTES];
/// An image of its layout's size, seen as its sectors.
pub type Disk = [Sector];
/// The 19 sectors of track 18.
pub type Track18 = [Sector; TRACK_18_SECTORS];
/// One directory slot.
pub type Slot = [u8; 32];

pub const SLOTS_PER_SECTOR: usize = 8;
pub const DIRECTORY_SECTORS: usize = 18;
pub const MAX_SLOTS: usize = DIRECTORY_SECTORS * SLOTS_PER_SECTOR;
/// Data bytes of a sector after its link.
pub const DATA_BYTES: usize = 254;
pub const PAD: u8 = 0xA0;
pub const NAME_BYTES: usize = 16;

/// The image as sectors, or `None` if its size isn't exactly the layout's.
pub fn disk<'a>(geometry: &Geometry, image: &'a [u8]) -> Option<&'a Disk> {
    match image.as_chunks() {
        (sectors, []) if sectors.len() == geometry.sectors => Some(sectors),
        _ => None,
    }
}

/// The same, for a call that writes.
pub fn disk_mut<'a>(geometry: &Geometry, image: &'a mut [u8]) -> Option<&'a mut Disk> {
    match image.as_chunks_mut() {
        (sectors, []) if sectors.len() == geometry.sectors => Some(sectors),
        _ => None,
    }
}

/// Track 18 as sectors, or `None` if it isn't exactly 4,864 bytes.
pub fn track_18(bytes: &[u8]) -> Option<&Track18> {
    match bytes.as_chunks() {
        (sectors, []) => sectors.try_into().ok(),
        _ => None,
    }
}

// --- The block availability map -------------------------------------------

/// The sector that holds the map.
pub fn map(disk: &Disk) -> &Sector {
    &disk[MAP_NUMBER]
}

/// A track has four bytes: the free count, then three bitmap bytes. Zeros for
/// a track whose entry would lie outside the sector.
pub fn map_entry(geometry: &Geometry, map: &Sector, track: u8) -> [u8; 4] {
    let entries = map.as_chunks().0;
    let entry = entries.get(geometry.entry_at(track) / 4);
    entry.copied().unwrap_or_default()
}

/// The bitmap of a map entry as one number: bit s stands for sector s.
pub fn bitmap(entry: [u8; 4]) -> u32 {
    u32::from_le_bytes([entry[1], entry[2], entry[3], 0])
}

/// The bits of a bitmap that stand for sectors. Those past the track's last
/// sector are ignored and left as they are (02, §5).
pub fn own_bits(sectors: u8) -> u32 {
    (1 << sectors) - 1
}

/// Whether a sector that the track has is free, by the track's map entry.
pub fn is_free(entry: [u8; 4], sector: u8) -> bool {
    bitmap(entry) >> (sector & 31) & 1 == 1
}

/// Marks a used sector free. Its caller knows that it was used.
pub(crate) fn mark_free(geometry: &Geometry, map: &mut Sector, track: u8, sector: u8) {
    let at = geometry.entry_at(track);
    map[at] = map[at].wrapping_add(1);
    map[at + 1 + usize::from(sector / 8)] |= 1 << (sector % 8);
}

/// Marks a free sector used. Its caller knows that it was free.
pub(crate) fn mark_used(geometry: &Geometry, map: &mut Sector, track: u8, sector: u8) {
    let at = geometry.entry_at(track);
    map[at] = map[at].wrapping_sub(1);
    map[at + 1 + usize::from(sector / 8)] &= !(1 << (sector % 8));
}

/// The sum of the count bytes except track 18: the room for files on an
/// accepted image, and the last line of the sleeve listing on any.
pub fn free_off_track_18(geometry: &Geometry, map: &Sector) -> usize {
    geometry
        .house_tracks()
        .map(|track| usize::from(map_entry(geometry, map, track)[0]))
        .sum()
}

/// The lowest free sector of a track, looked for from `from` upward.
pub fn lowest_free(geometry: &Geometry, map: &Sector, track: u8, from: u8) -> Option<u8> {
    let entry = map_entry(geometry, map, track);
    (from..geometry.sectors_on(track)).find(|&sector| is_free(entry, sector))
}

// --- The directory --------------------------------------------------------

/// The directory's sectors on track 18, in link order.
#[derive(Clone, Copy, Debug)]
pub struct Directory {
    sectors: [u8; DIRECTORY_SECTORS],
    len: usize,
}

impl Directory {
    /// The directory's sectors as sector numbers of track 18.
    pub fn sectors(&self) -> &[u8] {
        &self.sectors[..self.len]
    }

    pub fn slots(&self) -> usize {
        self.len * SLOTS_PER_SECTOR
    }

    /// The sector of track 18 that holds a slot.
    pub(crate) fn sector_of(&self, slot: usize) -> u8 {
        self.sectors[slot / SLOTS_PER_SECTOR]
    }

    pub(crate) fn last(&self) -> u8 {
        self.sectors[self.len - 1]
    }
}

/// Step 2: follows the directory's links from 18/1 (01, The directory).
/// 18/0 bytes 0-1 are not looked at.
pub fn walk_directory(track18: &Track18) -> Result<Directory, Answer> {
    let mut walked = [false; TRACK_18_SECTORS];
    let mut directory = Directory {
        sectors: [0; DIRECTORY_SECTORS],
        len: 0,
    };
    let mut here = 1u8;
    loop {
        walked[usize::from(here)] = true;
        directory.sectors[directory.len] = here;
        directory.len += 1;
        let [track, next, ..] = track18[usize::from(here)];
        if track == 0 {
            return Ok(directory);
        }
        let fault = |number| Answer::fault(number, DIRECTORY_TRACK, here, NONE);
        if track != DIRECTORY_TRACK || next == 0 || usize::from(next) >= TRACK_18_SECTORS {
            return Err(fault(BAD_LINK));
        }
        if walked[usize::from(next)] {
            return Err(fault(ALREADY_OWNED));
        }
        here = next;
    }
}

/// One slot of a directory sector.
pub(crate) fn slot_in(sector: &Sector, slot: usize) -> &Slot {
    &sector.as_chunks().0[slot % SLOTS_PER_SECTOR]
}

pub(crate) fn slot_in_mut(sector: &mut Sector, slot: usize) -> &mut Slot {
    &mut sector.as_chunks_mut().0[slot % SLOTS_PER_SECTOR]
}

/// The slot with this number, counted through the directory in link order.
pub(crate) fn slot_at<'a>(disk: &'a Disk, directory: &Directory, slot: usize) -> &'a Slot {
    slot_in(&disk[on_track_18(directory.sector_of(slot))], slot)
}

/// Byte 02 is 0: the slot is empty and the rest of it is ignored.
pub(crate) fn is_empty(slot: &Slot) -> bool {
    slot[2] == 0
}

/// Bytes 05-14.
pub(crate) fn slot_name(slot: &Slot) -> [u8; NAME_BYTES] {
    let mut name = [0; NAME_BYTES];
    name.copy_from_slice(&slot[0x05..0x15]);
    name
}

/// Bytes 1E-1F, low byte first.
pub(crate) fn slot_count(slot: &Slot) -> u16 {
    u16::from_le_bytes([slot[0x1E], slot[0x1F]])
}

// --- Chains ---------------------------------------------------------------

/// The link at the start of a file's sector. "Next" is not yet known to be
/// on the disk.
pub enum Link {
    Next(u8, u8),
    Last(u8),
    Bad,
}

pub fn link(sector: &Sector) -> Link {
    match (sector[0], sector[1]) {
        (0, 0) => Link::Bad,
        (0, n) => Link::Last(n),
        (track, sector) => Link::Next(track, sector),
    }
}

/// The sectors of a file on an accepted image: their track and sector, with
/// the data bytes of each. On any other image it still ends: at a bad link, or
/// after as many sectors as a disk has.
pub struct Chain<'a> {
    geometry: Geometry,
    disk: &'a Disk,
    next: Option<(u8, u8)>,
    left: usize,
}

impl<'a> Chain<'a> {
    pub fn of(geometry: &Geometry, disk: &'a Disk, slot: &Slot) -> Chain<'a> {
        Chain {
            geometry: *geometry,
            disk,
            next: Some((slot[3], slot[4])),
            left: geometry.sectors,
        }
    }
}

impl<'a> Iterator for Chain<'a> {
    type Item = (u8, u8, &'a [u8]);

    fn next(&mut self) -> Option<Self::Item> {
        self.left = self.left.checked_sub(1)?;
        let (track, sector) = self.next.take()?;
        let bytes = &self.disk[self.geometry.number(track, sector)?];
        let end = match link(bytes) {
            Link::Next(track, sector) => {
                self.next = Some((track, sector));
                SECTOR_BYTES
            }
            // The data are bytes 2 to n: n - 1 of them.
            Link::Last(n) => usize::from(n) + 1,
            Link::Bad => 2,
        };
        Some((track, sector, &bytes[2..end]))
    }
}
