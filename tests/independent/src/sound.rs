//! Builds sound images of every shape with placement code of its own, so that
//! it reaches shapes that store never makes. The builder remembers what it
//! placed where, so that a fault can be planted at a known place.

use crate::naive::{entry_at, last_track, places, position, track_length};
use crate::rng::Rng;
use std::collections::HashSet;

mod weave;
pub use weave::Weave;

/// A file as placed.
#[derive(Clone, Debug)]
pub struct Planned {
    pub slot: usize,
    pub type_byte: u8,
    pub name: Vec<u8>,
    pub chain: Vec<(u8, u8)>,
    /// Second link byte of the last sector.
    pub n: u8,
}

/// A sound image and what is on it. Files stand in slot order.
#[derive(Clone, Debug)]
pub struct Plan {
    pub layout: u32,
    pub image: Vec<u8>,
    pub directory: Vec<u8>,
    pub files: Vec<Planned>,
}

/// How much of the disk the files take.
#[derive(Clone, Copy, PartialEq, Eq, Debug)]
pub enum Fill {
    /// One to five sectors each.
    Small,
    /// Everything the files may use, but for this many sectors.
    AllBut(usize),
    /// Any part of the disk.
    Some,
}

/// What kind of image to build.
#[derive(Clone, Debug)]
pub struct Shape {
    pub files: usize,
    /// Directory sectors, 1 to 18.
    pub directory: usize,
    pub scattered_directory: bool,
    pub scattered_chains: bool,
    /// Chains that leave tracks and come back; it decides where it is given.
    pub weave: Option<Weave>,
    /// Whether files may lie on track 18, and whether they go there first.
    pub on_track_18: bool,
    pub track_18_first: bool,
    /// Files go to the last five tracks first.
    pub last_tracks_first: bool,
    /// Bytes that are a map entry in another layout alone hold what could be a
    /// right one there. In layouts 1 and 2 the image is accepted in both.
    pub two_maps: bool,
    /// Junk in every ignored place; else zeros there. The map's spare bits are
    /// left to chance in either case.
    pub junk: bool,
    pub fill: Fill,
    pub odd_names: bool,
    pub locked: bool,
    pub any_version: bool,
    /// Last sectors with n = 1 and n = 255 are common.
    pub edge_ends: bool,
}

impl Shape {
    /// A shape with everything left to chance.
    pub fn any(rng: &mut Rng) -> Shape {
        let directory = rng.pick(&[1, 1, 2, 3, 5, 9, 17, 18]);
        let limit = rng.pick(&[1, 4, 20, 8 * directory]).min(8 * directory);
        let left = rng.below(4);
        Shape {
            files: rng.range(0, limit),
            directory,
            scattered_directory: rng.one_in(2),
            scattered_chains: !rng.one_in(3),
            weave: None,
            on_track_18: rng.one_in(3),
            track_18_first: rng.one_in(2),
            last_tracks_first: false,
            two_maps: false,
            junk: !rng.one_in(4),
            fill: rng.pick(&[Fill::Small, Fill::Some, Fill::Some, Fill::AllBut(left)]),
            odd_names: rng.one_in(3),
            locked: rng.one_in(3),
            any_version: rng.one_in(6),
            edge_ends: rng.one_in(3),
        }
    }
}

/// Builds an image of the shape. Where a shape asks for more files than have
/// room, it gets fewer.
pub fn build(layout: u32, rng: &mut Rng, shape: &Shape) -> Plan {
    let directory = directory_order(rng, shape);
    let mut pool = sector_pool(layout, rng, shape, &directory);
    let mut slots: Vec<usize> = (0..8 * directory.len()).collect();
    rng.shuffle(&mut slots);
    slots.truncate(shape.files.min(pool.len()));
    let mut sizes = file_sizes(rng, shape, slots.len(), pool.len());
    slots.sort_unstable();
    let mut names = Vec::new();
    // The files take their sectors in an order of their own, so that an early
    // slot may lie late on the disk.
    let mut files: Vec<Planned> = Vec::new();
    rng.shuffle(&mut slots);
    for slot in slots {
        let size = sizes.pop().unwrap_or(1);
        let chain = pool.drain(..size).collect();
        let name = fresh_name(rng, shape.odd_names, &names);
        names.push(name.clone());
        files.push(Planned {
            slot,
            type_byte: type_byte(rng, shape),
            name,
            chain,
            n: last_byte(rng, shape),
        });
    }
    files.sort_by_key(|file| file.slot);
    let image = lay_out(layout, rng, shape, &directory, &files);
    Plan {
        layout,
        image,
        directory,
        files,
    }
}

/// 18/1 first, then others of track 18.
fn directory_order(rng: &mut Rng, shape: &Shape) -> Vec<u8> {
    let mut rest: Vec<u8> = (2..=18).collect();
    if shape.scattered_directory {
        rng.shuffle(&mut rest);
    }
    rest.truncate(shape.directory.clamp(1, 18) - 1);
    std::iter::once(1).chain(rest).collect()
}

/// The sectors that files may take, in the order in which they take them.
fn sector_pool(layout: u32, rng: &mut Rng, shape: &Shape, directory: &[u8]) -> Vec<(u8, u8)> {
    let taken = |sector: u8| sector == 0 || directory.contains(&sector);
    let mut pool: Vec<(u8, u8)> = places(layout)
        .filter(|&(track, sector)| track != 18 || (shape.on_track_18 && !taken(sector)))
        .collect();
    if let Some(weave) = shape.weave {
        pool = weave::woven(rng, pool, weave);
    } else if shape.scattered_chains {
        rng.shuffle(&mut pool);
    } else if rng.one_in(2) {
        pool.reverse();
    }
    if shape.track_18_first {
        pool.sort_by_key(|&(track, _)| track != 18);
    }
    if shape.last_tracks_first {
        pool.sort_by_key(|&(track, _)| track + 5 <= last_track(layout));
    }
    pool
}

/// A size for each file, together no more than the pool.
fn file_sizes(rng: &mut Rng, shape: &Shape, files: usize, pool: usize) -> Vec<usize> {
    let mut sizes = vec![1; files];
    if files == 0 {
        return sizes;
    }
    let spare = pool - files;
    let extra = match shape.fill {
        Fill::Small => rng.below(4 * files + 1).min(spare),
        Fill::AllBut(left) => spare.saturating_sub(left),
        Fill::Some => rng.below(spare + 1),
    };
    // Half of the time few files get most of it.
    let lucky = if rng.one_in(2) {
        rng.range(1, files)
    } else {
        files
    };
    for _ in 0..extra {
        sizes[rng.below(lucky)] += 1;
    }
    sizes
}

fn type_byte(rng: &mut Rng, shape: &Shape) -> u8 {
    let lock = if shape.locked && rng.one_in(2) {
        0x40
    } else {
        0
    };
    0x80 + lock + rng.pick(&[1, 2, 2, 3])
}

fn last_byte(rng: &mut Rng, shape: &Shape) -> u8 {
    if shape.edge_ends && !rng.one_in(4) {
        rng.pick(&[1, 1, 2, 254, 255])
    } else {
        rng.range(1, 255) as u8
    }
}

/// A name that none of `taken` has: 1 to 16 bytes, none of them $A0. Some
/// differ from a taken one by little.
pub fn fresh_name(rng: &mut Rng, odd: bool, taken: &[Vec<u8>]) -> Vec<u8> {
    let known: HashSet<&Vec<u8>> = taken.iter().collect();
    loop {
        let name = if !taken.is_empty() && rng.one_in(3) {
            let like = rng.pick(taken);
            near_name(rng, &like)
        } else {
            some_name(rng, odd)
        };
        if !known.contains(&name) {
            return name;
        }
    }
}

fn some_name(rng: &mut Rng, odd: bool) -> Vec<u8> {
    const ODD: &[u8] = &[0x00, 0x22, 0x2A, 0x3F, 0xFF, 0x20, 0xA1, 0x9F, 0x2C, 0x3A];
    let longest = rng.pick(&[1, 3, 8, 15, 16, 16]);
    let length = rng.range(1, longest);
    let any = rng.one_in(2);
    (0..length)
        .map(|_| match (odd, any) {
            (false, _) => rng.range(0x41, 0x5A) as u8,
            (true, false) => rng.pick(ODD),
            (true, true) => not_pad(rng),
        })
        .collect()
}

/// Any byte but $A0.
pub fn not_pad(rng: &mut Rng) -> u8 {
    let byte = rng.byte();
    if byte == 0xA0 {
        0x20
    } else {
        byte
    }
}

/// A name that is easily taken for the given one: shorter, longer, other case
/// or one byte off.
fn near_name(rng: &mut Rng, like: &[u8]) -> Vec<u8> {
    let mut name = like.to_vec();
    let at = rng.below(name.len());
    match rng.below(4) {
        0 if name.len() > 1 => name.truncate(name.len() - 1),
        1 if name.len() < 16 => name.push(rng.pick(&[0x00, 0x20, 0x41])),
        2 if name[at] != 0x80 => name[at] ^= 0x20,
        _ => name[at] = not_pad(rng),
    }
    name
}

// --- Laying out the bytes -------------------------------------------------

/// Where a sector starts in the image. Only places on the disk are asked for.
pub fn offset(track: u8, sector: u8) -> usize {
    256 * position(track, sector).expect("a place on the disk")
}

/// Where a slot starts in the image.
pub fn slot_offset(directory: &[u8], slot: usize) -> usize {
    offset(18, directory[slot / 8]) + 32 * (slot % 8)
}

/// Where a track's map entry starts in the image.
pub fn map_offset(layout: u32, track: u8) -> usize {
    offset(18, 0) + entry_at(layout, track)
}

/// The bits past a track's last sector. They all stand in the last byte of its
/// map entry, since every track has 17 to 21 sectors.
pub fn spare_mask(track: u8) -> u8 {
    0xFF << (track_length(track) - 16)
}

/// One of them.
pub fn spare_bit(rng: &mut Rng, track: u8) -> u8 {
    1 << (rng.range(usize::from(track_length(track)), 23) - 16)
}

/// Writes only what the rules ask for; all other bytes stay junk or zero.
fn lay_out(
    layout: u32,
    rng: &mut Rng,
    shape: &Shape,
    directory: &[u8],
    files: &[Planned],
) -> Vec<u8> {
    let mut image = vec![0; 256 * places(layout).count()];
    if shape.junk {
        rng.fill(&mut image);
    }
    image[offset(18, 0) + 2] = match shape.any_version {
        true => rng.byte(),
        false => rng.pick(&[0x41, 0x41, 0x00]),
    };
    lay_directory(&mut image, directory, shape.junk);
    for file in files {
        lay_file(rng, &mut image, directory, file);
    }
    lay_map(layout, &mut image, directory, files);
    lay_spare_bits(layout, rng, &mut image);
    lay_other_entries(layout, rng, shape, &mut image);
    image
}

fn lay_directory(image: &mut [u8], directory: &[u8], junk: bool) {
    for (i, &sector) in directory.iter().enumerate() {
        let at = offset(18, sector);
        match directory.get(i + 1) {
            Some(&next) => (image[at], image[at + 1]) = (18, next),
            // With junk the second byte stays what it is.
            None if junk => image[at] = 0,
            None => (image[at], image[at + 1]) = (0, 0xFF),
        }
        for slot in 0..8 {
            image[at + 32 * slot + 2] = 0;
        }
    }
}

fn lay_file(rng: &mut Rng, image: &mut [u8], directory: &[u8], file: &Planned) {
    let at = slot_offset(directory, file.slot);
    image[at + 2] = file.type_byte;
    (image[at + 3], image[at + 4]) = file.chain[0];
    image[at + 5..at + 21].fill(0xA0);
    image[at + 5..at + 5 + file.name.len()].copy_from_slice(&file.name);
    let count = (file.chain.len() as u16).to_le_bytes();
    image[at + 0x1E..at + 0x20].copy_from_slice(&count);
    for (i, &(track, sector)) in file.chain.iter().enumerate() {
        let at = offset(track, sector);
        let next = file.chain.get(i + 1).copied();
        let end = if next.is_some() {
            255
        } else {
            usize::from(file.n)
        };
        (image[at], image[at + 1]) = next.unwrap_or((0, file.n));
        rng.fill(&mut image[at + 2..=at + end]);
    }
}

fn lay_map(layout: u32, image: &mut [u8], directory: &[u8], files: &[Planned]) {
    let mut used: HashSet<(u8, u8)> = files.iter().flat_map(|f| f.chain.clone()).collect();
    used.insert((18, 0));
    used.extend(directory.iter().map(|&sector| (18, sector)));
    for track in 1..=last_track(layout) {
        let mut entry = [0u8; 4];
        for sector in 0..track_length(track) {
            if !used.contains(&(track, sector)) {
                entry[0] += 1;
                entry[1 + usize::from(sector / 8)] |= 1 << (sector % 8);
            }
        }
        let at = map_offset(layout, track);
        image[at..at + 4].copy_from_slice(&entry);
    }
}

/// The bits past each track's last sector, which are ignored (02, §5): none of
/// them, all of them, any of them, or a single one is set, each on a fourth of
/// the images. They are drawn last: the rest of an image doesn't hang on them.
fn lay_spare_bits(layout: u32, rng: &mut Rng, image: &mut [u8]) {
    let last = last_track(layout);
    let (turn, lone) = (rng.below(4), rng.range(1, usize::from(last)) as u8);
    for track in 1..=last {
        let bits = match turn {
            0 => 0,
            1 => 0xFF,
            2 => rng.byte(),
            _ if track == lone => spare_bit(rng, track),
            _ => 0,
        };
        image[map_offset(layout, track) + 3] |= bits & spare_mask(track);
    }
}

/// The entry of an empty track of 17 sectors.
const EMPTY_17: [u8; 4] = [0x11, 0xFF, 0xFF, 0x01];

/// The bytes that are a map entry of tracks 36 to 40 in another layout alone,
/// and other bytes in this one (02, §8). With 35 tracks they stay as they are,
/// unless the shape asks for two maps. With 40 they are right in the other
/// layout too, nearly right, those of a fresh disk, any, or stay.
fn lay_other_entries(layout: u32, rng: &mut Rng, shape: &Shape, image: &mut [u8]) {
    if layout == 0 && !shape.two_maps {
        return;
    }
    for other in [1, 2].into_iter().filter(|other| *other != layout) {
        let turn = if shape.two_maps { 0 } else { rng.below(6) };
        let lone = rng.range(36, 40) as u8;
        for track in 36..=40 {
            let own = match layout {
                0 => EMPTY_17,
                _ => std::array::from_fn(|byte| image[map_offset(layout, track) + byte]),
            };
            let entry = match turn {
                0 => own,
                1 => [own[0], own[1], own[2], own[3] ^ spare_bit(rng, track)],
                2 if track == lone => [own[0], own[1] ^ 1, own[2], own[3]],
                2 => own,
                3 => EMPTY_17,
                4 => std::array::from_fn(|_| rng.byte()),
                _ => continue,
            };
            let at = map_offset(other, track);
            image[at..at + 4].copy_from_slice(&entry);
        }
    }
}
