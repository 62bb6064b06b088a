//! The calls said again as plainly as possible (01, What the calls do; Sleeve
//! listing), over what the naive test finds on an image: the number each call
//! owes, what it gives, and the image after it. The library is compared with
//! this, byte for byte. Only which of 2 to 7 a refused image gives is taken
//! from the check; tests/damaged_images.rs holds that against planted faults.

// Each test file uses a part of this.
#![allow(dead_code)]

use independent::answer::Answer;
use independent::calls::Told;
use independent::check::check;
use independent::naive::{
    contents, entry_at, last_track, places, position, track_length, wrong_entry, Contents, File,
    Owner,
};
use independent::request::{perform, Call, Library, Request};
use std::collections::HashSet;

fn name_is_wrong(name: &[u8]) -> bool {
    name.is_empty() || name.len() > 16 || name.contains(&0xA0)
}

fn asked_name(call: &Call) -> Option<&[u8]> {
    match call {
        Call::Format { name, .. }
        | Call::Read { name, .. }
        | Call::Store { name, .. }
        | Call::Scratch { name } => Some(name),
        _ => None,
    }
}

/// The size of an image; 0 for a number that is no layout.
pub fn size(layout: u32) -> usize {
    256 * places(layout).count()
}

/// The answer number, by the order of 01, Answer numbers, and 02, §8: a list of
/// conditions, of which the first that holds decides.
pub fn number(image: &[u8], request: &Request) -> u32 {
    let (call, layout) = (&request.call, request.layout);
    if request.block != 9 {
        return 16;
    }
    if ![0, 1, 2].contains(&layout) {
        return 17;
    }
    if let Call::Listing { room } = call {
        return listing_number(layout, image, *room);
    }
    if image.len() != size(layout) {
        return 1;
    }
    if asked_name(call).is_some_and(name_is_wrong) {
        return 9;
    }
    if matches!(call, Call::Store { kind, .. } if ![1, 2].contains(kind)) {
        return 10;
    }
    if matches!(call, Call::Format { .. }) {
        return 0;
    }
    match contents(layout, image) {
        None => u32::from(fault(layout, image).number),
        Some(held) => number_when_accepted(image, &held, call),
    }
}

/// What the check owes an image that is not accepted: 8 if only its map is
/// wrong, with the place that `naive` finds (02, §3).
pub fn fault(layout: u32, image: &[u8]) -> Answer {
    match wrong_entry(layout, image) {
        Some((track, sector)) => Answer::fault(8, track, sector, 255),
        None => check(layout, image),
    }
}

/// The numbers given and owed, where they differ.
pub fn differences(library: &dyn Library, start: &[u8], list: &[Request]) -> Vec<(u32, u32)> {
    let mut image = start.to_vec();
    let mut differ = Vec::new();
    for request in list {
        let owed = number(&image, request);
        if let Some(reply) = perform(library, &mut image, request) {
            differ.push((reply.number, owed));
        }
    }
    differ.retain(|(given, owed)| given != owed);
    differ
}

fn number_when_accepted(image: &[u8], held: &Contents, call: &Call) -> u32 {
    let version = image[91_392 + 2];
    let writes = matches!(call, Call::Store { .. } | Call::Scratch { .. });
    let file = find(held, asked_name(call).unwrap_or(&[]));
    if writes && version != 0x41 && version != 0 {
        return 11;
    }
    match call {
        Call::Store { .. } if file.is_some() => 12,
        Call::Read { .. } | Call::Scratch { .. } if file.is_none() => 13,
        Call::Tell { position, .. } if *position >= held.files.len() => 13,
        Call::Store { .. } if new_slot(image, held).is_none() => 14,
        Call::Store { data, .. } if needed(data.len()) > house_order(held).len() => 15,
        Call::Read { room, .. } if file.is_some_and(|file| file.bytes.len() > *room) => 16,
        Call::Tell { room, .. } if *room < 25 => 16,
        _ => 0,
    }
}

pub fn find<'a>(held: &'a Contents, name: &[u8]) -> Option<&'a File> {
    held.files.iter().find(|file| file.name == name)
}

/// 1 for no bytes, and one more for each 254 bytes after the first byte.
fn needed(length: usize) -> usize {
    length.saturating_sub(1) / 254 + 1
}

/// All free sectors off track 18, in the order in which store takes them.
fn house_order(held: &Contents) -> Vec<(u8, u8)> {
    let tracks: Vec<u8> = (1..=17).rev().chain(19..=last_track(held.layout)).collect();
    let mut free = Vec::new();
    for track in tracks {
        for sector in 0..track_length(track) {
            if held.owners[position(track, sector).unwrap()] == Owner::Nobody {
                free.push((track, sector));
            }
        }
    }
    free
}

enum NewSlot {
    /// Sector of track 18, slot in it.
    Old(u8, usize),
    /// A sector that joins the directory.
    Grown(u8),
}

fn new_slot(image: &[u8], held: &Contents) -> Option<NewSlot> {
    for &sector in &held.directory {
        for slot in 0..8 {
            if image[at(18, sector) + 32 * slot + 2] == 0 {
                return Some(NewSlot::Old(sector, slot));
            }
        }
    }
    (1..19)
        .find(|&sector| held.owners[position(18, sector).unwrap()] == Owner::Nobody)
        .map(NewSlot::Grown)
}

fn at(track: u8, sector: u8) -> usize {
    256 * position(track, sector).unwrap()
}

/// The image after a call that is answered 0.
pub fn image_after(layout: u32, image: &[u8], call: &Call) -> Vec<u8> {
    let mut new = image.to_vec();
    if let Call::Format { name, id1, id2 } = call {
        return formatted(layout, name, *id1, *id2);
    }
    let Some(held) = contents(layout, image) else {
        return new;
    };
    let mut owners = held.owners.clone();
    match call {
        Call::Store { name, kind, data } => {
            stored(&mut new, &held, &mut owners, (name, *kind, data))
        }
        Call::Scratch { name } => scratched(&mut new, &held, &mut owners, name),
        _ => return new,
    }
    map_from(layout, &mut new, &owners);
    new
}

/// Rewrites each sector's bit and each track's count from the owners. Bits
/// past a track's last sector stay as they are (02, §5).
fn map_from(layout: u32, image: &mut [u8], owners: &[Owner]) {
    for ((track, sector), owner) in places(layout).zip(owners) {
        let entry = 91_392 + entry_at(layout, track);
        if sector == 0 {
            image[entry] = 0;
        }
        let byte = entry + 1 + sector as usize / 8;
        image[byte] &= !(1 << (sector % 8));
        if *owner == Owner::Nobody {
            image[entry] += 1;
            image[byte] += 1 << (sector % 8);
        }
    }
}

fn formatted(layout: u32, name: &[u8], id1: u8, id2: u8) -> Vec<u8> {
    let mut image = vec![0; size(layout)];
    let mut owners = vec![Owner::Nobody; places(layout).count()];
    owners[357] = Owner::Map;
    owners[358] = Owner::Directory;
    map_from(layout, &mut image, &owners);
    image[91_392..91_396].copy_from_slice(&[0x12, 0x01, 0x41, 0x00]);
    let mut label = name.to_vec();
    label.resize(18, 0xA0);
    label.extend([id1, id2, 0xA0, 0x32, 0x41, 0xA0, 0xA0, 0xA0, 0xA0]);
    image[91_392 + 0x90..91_392 + 0xAB].copy_from_slice(&label);
    image[91_648] = 0x00;
    image[91_649] = 0xFF;
    image
}

fn stored(
    image: &mut [u8],
    held: &Contents,
    owners: &mut [Owner],
    (name, kind, data): (&[u8], u32, &[u8]),
) {
    let chain = &house_order(held)[..needed(data.len())];
    for (i, &(track, sector)) in chain.iter().enumerate() {
        let part = &data[(254 * i).min(data.len())..(254 * i + 254).min(data.len())];
        let link = match chain.get(i + 1) {
            Some(&(track, sector)) => [track, sector],
            None => [0, part.len() as u8 + 1],
        };
        let mut bytes = [&link[..], part].concat();
        bytes.resize(256, 0);
        image[at(track, sector)..at(track, sector) + 256].copy_from_slice(&bytes);
        owners[position(track, sector).unwrap()] = Owner::File(0);
    }
    let (sector, slot) = match new_slot(image, held).unwrap() {
        NewSlot::Old(sector, slot) => (sector, slot),
        NewSlot::Grown(sector) => {
            let last = *held.directory.last().unwrap();
            image[at(18, last)..at(18, last) + 2].copy_from_slice(&[18, sector]);
            image[at(18, sector)..at(18, sector) + 256].fill(0);
            image[at(18, sector) + 1] = 0xFF;
            owners[position(18, sector).unwrap()] = Owner::Directory;
            (sector, 0)
        }
    };
    let mut entry = vec![0x80 + kind as u8, chain[0].0, chain[0].1];
    entry.extend(name);
    entry.resize(3 + 16, 0xA0);
    entry.extend([0; 9]);
    entry.extend([(chain.len() % 256) as u8, (chain.len() / 256) as u8]);
    let start = at(18, sector) + 32 * slot + 2;
    image[start..start + 30].copy_from_slice(&entry);
}

fn scratched(image: &mut [u8], held: &Contents, owners: &mut [Owner], name: &[u8]) {
    let file = find(held, name).unwrap();
    for &(track, sector) in &file.chain {
        image[at(track, sector)..at(track, sector) + 256].fill(0);
        owners[position(track, sector).unwrap()] = Owner::Nobody;
    }
    let start = at(18, held.directory[file.slot / 8]) + 32 * (file.slot % 8) + 2;
    image[start..start + 30].fill(0);
}

/// Length and sectors that a call answered 0 reports.
pub fn report(layout: u32, image: &[u8], call: &Call) -> (u32, u16) {
    match call {
        Call::Store { data, .. } => (data.len() as u32, needed(data.len()) as u16),
        Call::Read { name, .. } | Call::Scratch { name } => {
            let held = contents(layout, image).unwrap();
            let file = find(&held, name).unwrap();
            (file.bytes.len() as u32, file.chain.len() as u16)
        }
        Call::Listing { .. } => (output(layout, image, call).len() as u32, 0),
        _ => (0, 0),
    }
}

/// What a call answered 0 writes at the start of its output.
pub fn output(layout: u32, image: &[u8], call: &Call) -> Vec<u8> {
    match call {
        Call::Read { name, .. } => {
            let held = contents(layout, image).unwrap();
            find(&held, name).unwrap().bytes.clone()
        }
        Call::Tell { position, .. } => {
            let held = contents(layout, image).unwrap();
            entry(&told(&held.files[*position]))
        }
        Call::Listing { .. } => listing(layout, independent::request::track_18_of(image))
            .unwrap()
            .into_bytes(),
        _ => Vec::new(),
    }
}

/// What tell tells of a file.
pub fn told(file: &File) -> Told {
    let mut name = [0xA0; 16];
    name[..file.name.len()].copy_from_slice(&file.name);
    Told {
        kind: file.type_byte,
        name,
        track: file.chain[0].0,
        sector: file.chain[0].1,
        count: file.chain.len() as u16,
        length: file.bytes.len() as u32,
    }
}

/// The same as tell's 25 bytes.
fn entry(told: &Told) -> Vec<u8> {
    let mut bytes = vec![told.kind];
    bytes.extend(told.name);
    bytes.extend([told.track, told.sector]);
    bytes.extend([0, 8].map(|shift| (told.count >> shift) as u8));
    bytes.extend([0, 8, 16, 24].map(|shift| (told.length >> shift) as u8));
    bytes
}

// --- The sleeve listing ---------------------------------------------------

fn listing_number(layout: u32, image: &[u8], room: usize) -> u32 {
    match listing(layout, independent::request::track_18_of(image)) {
        Err(refusal) => u32::from(refusal.number),
        Ok(text) if text.len() > room => 16,
        Ok(_) => 0,
    }
}

/// The directory's sectors on track 18, or its first bad link, which the last
/// sector walked holds.
fn directory(track18: &[u8]) -> Result<Vec<usize>, Answer> {
    let mut walked = vec![1usize];
    loop {
        let last = walked[walked.len() - 1];
        let fault = |number| Err(Answer::fault(number, 18, last as u8, 255));
        match (track18[256 * last], track18[256 * last + 1] as usize) {
            (0, _) => return Ok(walked),
            (18, next @ 1..=18) if walked.contains(&next) => return fault(3),
            (18, next @ 1..=18) => walked.push(next),
            _ => return fault(2),
        }
    }
}

/// The listing's text, or its refusal.
pub fn listing(layout: u32, track18: &[u8]) -> Result<String, Answer> {
    if track18.len() != 4_864 {
        return Err(Answer::refusal(1));
    }
    let walked = directory(track18)?;
    let hex = |bytes: &[u8]| bytes.iter().map(|b| format!("{b:02X}")).collect::<String>();
    let mut text = hex(&track18[0x90..0xA0]) + &hex(&track18[0xA2..0xA4]) + "\n";
    let mut names = HashSet::new();
    for (turn, sector) in walked.into_iter().enumerate() {
        let slots = track18[256 * sector..256 * sector + 256].chunks(32);
        for (part, slot) in slots.enumerate() {
            if slot[2] == 0 {
                continue;
            }
            let index = (8 * turn + part) as u8;
            let fault = |number| Err(Answer::fault(number, 18, sector as u8, index));
            if ![0x81, 0x82, 0x83, 0xC1, 0xC2, 0xC3].contains(&slot[2]) {
                return fault(4);
            }
            let name: Vec<u8> = slot[5..21].iter().copied().filter(|b| *b != 0xA0).collect();
            if name.is_empty() || !slot[5..21].starts_with(&name) {
                return fault(5);
            }
            if !names.insert(name) {
                return fault(6);
            }
            text += &(hex(&slot[2..21]) + &hex(&slot[30..32]) + "\n");
        }
    }
    let sum: u32 = (1..=last_track(layout))
        .filter(|track| *track != 18)
        .map(|track| u32::from(track18[entry_at(layout, track)]))
        .sum();
    Ok(text + &format!("{sum:04X}\n"))
}
