//! Makes an image's sector counts and map right again after damage, as far
//! as its directory and chains can be followed: what an input damages
//! elsewhere is then met by the whole check, or accepted, and not refused for
//! its map.

use crate::calls::bytes_mut;
use independent::disk::{
    bitmap, disk_mut, map_entry, own_bits, track_18, walk_directory, Chain, Disk, Slot,
};
use independent::geometry::{on_track_18, Geometry, MAP_NUMBER, TRACK_18_SECTORS};

const COUNTS: u32 = 1;
const MAP: u32 = 2;

/// Repairs what `what` names: 1 the counts, 2 the map. Unknown layouts, other
/// sizes than an image's, and a directory that cannot be followed, are left
/// alone.
#[no_mangle]
unsafe extern "C" fn oracle_repair(layout: u32, image: *mut u8, image_len: usize, what: u32) {
    let image = unsafe { bytes_mut(image, image_len) };
    let Some(geometry) = Geometry::of(layout) else {
        return;
    };
    if let Some(disk) = disk_mut(&geometry, image) {
        repair(&geometry, disk, what);
    }
}

fn repair(geometry: &Geometry, disk: &mut Disk, what: u32) {
    let track18 = disk[MAP_NUMBER..MAP_NUMBER + TRACK_18_SECTORS].as_flattened();
    let Some(Ok(directory)) = track_18(track18).map(walk_directory) else {
        return;
    };
    let mut owned = vec![false; geometry.sectors];
    owned[MAP_NUMBER] = true;
    for &sector in directory.sectors() {
        owned[on_track_18(sector)] = true;
    }
    for &sector in directory.sectors() {
        for at in 0..8 {
            let slot: Slot = disk[on_track_18(sector)].as_chunks().0[at];
            if slot[2] != 0 {
                let claimed = claim(geometry, disk, &slot, &mut owned);
                if what & COUNTS != 0 {
                    let count = claimed.to_le_bytes();
                    disk[on_track_18(sector)][32 * at + 0x1E..][..2].copy_from_slice(&count);
                }
            }
        }
    }
    if what & MAP != 0 {
        write_map(geometry, disk, &owned);
    }
}

/// Enters a chain's sectors up to the first that is owned; gives how many.
fn claim(geometry: &Geometry, disk: &Disk, slot: &Slot, owned: &mut [bool]) -> u16 {
    let mut claimed = 0;
    for (track, sector, _) in Chain::of(geometry, disk, slot) {
        match geometry.number(track, sector) {
            Some(at) if !owned[at] => owned[at] = true,
            _ => break,
        }
        claimed += 1;
    }
    claimed
}

/// Bits past a track's last sector stay: a sound image may have them set.
fn write_map(geometry: &Geometry, disk: &mut Disk, owned: &[bool]) {
    for track in 1..=geometry.tracks {
        let free = |&sector: &u8| geometry.number(track, sector).is_some_and(|at| !owned[at]);
        let bits = (0..geometry.sectors_on(track)).filter(free);
        let bits: u32 = bits.map(|sector| 1 << sector).sum();
        let old = bitmap(map_entry(geometry, &disk[MAP_NUMBER], track));
        let spare = old & !own_bits(geometry.sectors_on(track));
        let entry = (spare | bits) << 8 | bits.count_ones();
        let at = geometry.entry_at(track);
        disk[MAP_NUMBER][at..][..4].copy_from_slice(&entry.to_le_bytes());
    }
}
