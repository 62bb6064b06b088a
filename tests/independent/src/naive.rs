//! A second acceptance test, plain on purpose (01, What demand 3 compares).
//!
//! It counts the claims on every sector and knows no order of faults. It
//! shares no code with the check, not even the geometry: it is slow, it
//! copies, and it says only whether an image is accepted and what it holds.
//! A place is on the disk exactly if the image has its bytes: the image has
//! its layout's size, and 35 tracks are the first 35 of 40 (02, §8).

use std::collections::HashSet;

/// Track and sector.
pub type Place = (u8, u8);

/// Who a sector belongs to on an accepted image.
#[derive(Clone, Copy, PartialEq, Eq, Debug)]
pub enum Owner {
    Nobody,
    Map,
    Directory,
    /// The file in this slot.
    File(usize),
}

/// A file of an accepted image.
#[derive(Clone, PartialEq, Eq, Debug)]
pub struct File {
    pub slot: usize,
    pub type_byte: u8,
    pub name: Vec<u8>,
    pub bytes: Vec<u8>,
    /// Its sectors in chain order.
    pub chain: Vec<Place>,
}

/// Everything an accepted image holds.
#[derive(Clone, Debug)]
pub struct Contents {
    pub layout: u32,
    /// In the order of the sectors on the image.
    pub owners: Vec<Owner>,
    /// The directory's sectors on track 18, in link order.
    pub directory: Vec<u8>,
    /// In slot order.
    pub files: Vec<File>,
}

impl Contents {
    pub fn free_off_track_18(&self) -> usize {
        places(self.layout)
            .zip(&self.owners)
            .filter(|((track, _), owner)| *track != 18 && **owner == Owner::Nobody)
            .count()
    }
}

/// Sectors per track (01, Tracks and sectors; 02, §8).
pub fn track_length(track: u8) -> u8 {
    match track {
        1..=17 => 21,
        18..=24 => 19,
        25..=30 => 18,
        31..=40 => 17,
        _ => 0,
    }
}

/// The last track of a layout; 0 for a number that is no layout.
pub fn last_track(layout: u32) -> u8 {
    match layout {
        0 => 35,
        1 | 2 => 40,
        _ => 0,
    }
}

/// All sectors of the disk, in the order in which the image holds them.
pub fn places(layout: u32) -> impl Iterator<Item = Place> {
    let tracks = 1..=last_track(layout);
    tracks.flat_map(|track| (0..track_length(track)).map(move |sector| (track, sector)))
}

/// How many sectors come before this one on a disk of 40 tracks.
pub fn position(track: u8, sector: u8) -> Option<usize> {
    if sector >= track_length(track) {
        return None;
    }
    let before: usize = (1..track).map(|t| usize::from(track_length(t))).sum();
    Some(before + usize::from(sector))
}

/// Where 18/0 has the map entry of a track (01, The map, 18/0; 02, §8).
pub fn entry_at(layout: u32, track: u8) -> usize {
    let past_35 = usize::from(track).saturating_sub(36);
    match (layout, track) {
        (1, 36..) => 0xC0 + 4 * past_35,
        (2, 36..) => 0xAC + 4 * past_35,
        _ => 4 * usize::from(track),
    }
}

/// The 256 bytes of a sector; the place is on the disk.
fn sector_bytes(image: &[u8], place: Place) -> Option<&[u8]> {
    let start = 256 * position(place.0, place.1)?;
    image.get(start..start + 256)
}

/// True exactly if the image is accepted.
pub fn accepted(layout: u32, image: &[u8]) -> bool {
    contents(layout, image).is_some()
}

/// What the image holds, or `None` if it isn't accepted.
pub fn contents(layout: u32, image: &[u8]) -> Option<Contents> {
    let map = sector_bytes(image, (18, 0))?;
    contents_but_map(layout, image).filter(|held| map_agrees(map, held))
}

/// What the image holds, whatever its map says, or `None` if it would be
/// refused with a right map too.
fn contents_but_map(layout: u32, image: &[u8]) -> Option<Contents> {
    let size = match layout {
        0 => 174_848,
        1 | 2 => 196_608,
        _ => return None,
    };
    if image.len() != size {
        return None;
    }
    let directory = directory_sectors(image)?;
    let files = files(image, &directory)?;
    let owners = owners(image.len() / 256, &directory, &files)?;
    let names: HashSet<&[u8]> = files.iter().map(|file| file.name.as_slice()).collect();
    let sound = names.len() == files.len();
    sound.then_some(Contents {
        layout,
        owners,
        directory,
        files,
    })
}

/// The place that answer 8 names, on an image of which only the map is wrong
/// (02, §3). Each wrong bit stands at its sector, and each wrong count at
/// sector 255 of its track; the first of them all is the place.
pub fn wrong_entry(layout: u32, image: &[u8]) -> Option<Place> {
    let map = sector_bytes(image, (18, 0))?;
    let owners = contents_but_map(layout, image)?.owners;
    let free: HashSet<Place> = places(layout)
        .zip(owners)
        .filter(|(_, owner)| *owner == Owner::Nobody)
        .map(|(place, _)| place)
        .collect();
    let bits = places(layout).filter(|place| map_bit(layout, map, *place) != free.contains(place));
    let right = |track: u8| free.iter().filter(|place| place.0 == track).count();
    let counts = (1..=last_track(layout))
        .filter(|&track| usize::from(map[entry_at(layout, track)]) != right(track));
    bits.chain(counts.map(|track| (track, 255))).min()
}

/// Follows the directory for at most as many steps as a disk has sectors; a
/// sector walked twice shows up as a second claim.
fn directory_sectors(image: &[u8]) -> Option<Vec<u8>> {
    let mut walked = vec![1u8];
    while walked.len() <= image.len() / 256 {
        let last = *walked.last()?;
        let bytes = sector_bytes(image, (18, last))?;
        match (bytes[0], bytes[1]) {
            (0, _) => return Some(walked),
            (18, sector @ 1..=18) => walked.push(sector),
            _ => return None,
        }
    }
    None
}

fn files(image: &[u8], directory: &[u8]) -> Option<Vec<File>> {
    let mut found = Vec::new();
    for (index, &sector) in directory.iter().enumerate() {
        let bytes = sector_bytes(image, (18, sector))?;
        for (part, entry) in bytes.chunks(32).enumerate() {
            if entry[2] != 0 {
                found.push(file(image, entry, 8 * index + part)?);
            }
        }
    }
    Some(found)
}

/// One file by its slot, if slot and chain are sound in themselves.
fn file(image: &[u8], entry: &[u8], slot: usize) -> Option<File> {
    const CARRIED: [u8; 6] = [0x81, 0x82, 0x83, 0xC1, 0xC2, 0xC3];
    if !CARRIED.contains(&entry[2]) {
        return None;
    }
    let name: Vec<u8> = entry[5..21]
        .iter()
        .copied()
        .filter(|&b| b != 0xA0)
        .collect();
    // All name bytes stand in front of all padding exactly if this holds.
    if name.is_empty() || entry[5..5 + name.len()] != name[..] {
        return None;
    }
    let (chain, bytes) = follow(image, (entry[3], entry[4]))?;
    if chain.len() != usize::from(entry[0x1E]) + 256 * usize::from(entry[0x1F]) {
        return None;
    }
    Some(File {
        slot,
        type_byte: entry[2],
        name,
        bytes,
        chain,
    })
}

/// A chain and its data, with a cap on the walk at the disk's sectors.
fn follow(image: &[u8], first: Place) -> Option<(Vec<Place>, Vec<u8>)> {
    let (mut chain, mut data) = (vec![first], Vec::new());
    while chain.len() <= image.len() / 256 {
        let bytes = sector_bytes(image, *chain.last()?)?;
        match (bytes[0], bytes[1]) {
            (0, 0) => return None,
            (0, n) => {
                data.extend_from_slice(&bytes[2..=usize::from(n)]);
                return Some((chain, data));
            }
            next => {
                data.extend_from_slice(&bytes[2..]);
                chain.push(next);
            }
        }
    }
    None
}

/// The owner of every sector, or `None` if some sector is claimed twice.
fn owners(sectors: usize, directory: &[u8], files: &[File]) -> Option<Vec<Owner>> {
    let mut claims: Vec<Vec<Owner>> = vec![Vec::new(); sectors];
    claims[position(18, 0)?].push(Owner::Map);
    for &sector in directory {
        claims[position(18, sector)?].push(Owner::Directory);
    }
    for file in files {
        for &(track, sector) in &file.chain {
            claims[position(track, sector)?].push(Owner::File(file.slot));
        }
    }
    claims
        .iter()
        .map(|claims| match claims[..] {
            [] => Some(Owner::Nobody),
            [owner] => Some(owner),
            _ => None,
        })
        .collect()
}

/// A bit of a track's bitmap, whether it stands for a sector or not.
fn map_bit(layout: u32, map: &[u8], (track, sector): Place) -> bool {
    let byte = map[entry_at(layout, track) + 1 + usize::from(sector) / 8];
    byte & (1 << (sector % 8)) != 0
}

/// Whether every map entry is what the owners ask for: the bit of each sector
/// of the disk, and each track's count. No other bit is looked at.
fn map_agrees(map: &[u8], held: &Contents) -> bool {
    let mut free = [0; 41];
    for (place, owner) in places(held.layout).zip(&held.owners) {
        let nobody = *owner == Owner::Nobody;
        if map_bit(held.layout, map, place) != nobody {
            return false;
        }
        free[usize::from(place.0)] += u8::from(nobody);
    }
    (1..=last_track(held.layout))
        .all(|track| map[entry_at(held.layout, track)] == free[usize::from(track)])
}

/// The bits past each track's last sector, which stand for no sector, from
/// track 1 on; none if these bytes are no image.
pub fn spare_bits(layout: u32, image: &[u8]) -> Vec<bool> {
    let tracks = 1..=last_track(layout);
    let spare = tracks.flat_map(|track| (track_length(track)..24).map(move |bit| (track, bit)));
    match sector_bytes(image, (18, 0)) {
        Some(map) => spare.map(|place| map_bit(layout, map, place)).collect(),
        None => Vec::new(),
    }
}

/// The bytes of 18/0 that are a map entry in another layout and none in this
/// one; none if these bytes are no image.
pub fn other_entries(layout: u32, image: &[u8]) -> Vec<u8> {
    let others = match layout {
        0 => 0xAC..0xD4,
        1 => 0xAC..0xC0,
        _ => 0xC0..0xD4,
    };
    match sector_bytes(image, (18, 0)) {
        Some(map) => map[others].to_vec(),
        None => Vec::new(),
    }
}
