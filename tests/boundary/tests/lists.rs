//! The lists come upon what they are made for; else they show less than they
//! seem to.

use boundary::lists::List;
use independent::check::examine;
use independent::generate::SOUND;
use independent::naive::{
    contents, last_track, other_entries, position, spare_bits, Contents, Owner,
};
use independent::request::{perform, Call, Independent, Request};
use independent::sound::{map_offset, spare_mask};
use std::collections::{BTreeMap, BTreeSet};

fn has_room_on_track_18(held: &Contents) -> bool {
    let place = |sector| position(18, sector).expect("a place on the disk");
    (1..19).any(|sector| held.owners[place(sector)] == Owner::Nobody)
}

/// Whether a bit past a track's last sector is set.
fn has_spare(layout: u32, image: &[u8]) -> bool {
    spare_bits(layout, image).contains(&true)
}

/// Whether an entry of the map differs that has such a bit set.
fn written_beside_spare(layout: u32, before: &[u8], after: &[u8]) -> bool {
    (1..=last_track(layout)).any(|track| {
        let entry = map_offset(layout, track)..map_offset(layout, track) + 4;
        let spare = before[map_offset(layout, track) + 3] & spare_mask(track);
        spare != 0 && before[entry.clone()] != after[entry]
    })
}

#[test]
fn start_images_are_what_their_kind_says() {
    for list in (0..200).map(List::new) {
        let (seed, layout, kind) = (list.seed, list.layout, list.kind);
        let held =
            contents(layout, &list.start).unwrap_or_else(|| panic!("list {seed} isn't accepted"));
        let left = 8 * held.directory.len() - held.files.len();
        let (slots, room) = (held.directory.len() == 18, has_room_on_track_18(&held));
        let right = match kind {
            "formatted" => {
                held.files.is_empty() && left == 8 && !has_spare(list.layout, &list.start)
            }
            "formatted-spare" => {
                held.files.is_empty() && left == 8 && has_spare(list.layout, &list.start)
            }
            "few-slots" => (1..=4).contains(&left) && room,
            "few-slots-18-full" => (1..=4).contains(&left) && !room && !slots,
            "last-slots" => (1..=4).contains(&left) && slots,
            _ => true,
        };
        assert!(right, "list {seed}, {kind}");
    }
}

/// What stores come upon.
#[derive(Default, Debug)]
struct Met {
    /// The directory grew.
    grown: usize,
    /// 14 with 18 directory sectors, and with files on the rest of track 18.
    all_slots_taken: usize,
    files_in_the_way: usize,
    /// 15 though track 18 has room.
    room_on_track_18_alone: usize,
}

/// Directory sectors of an accepted image.
fn directory_sectors(layout: u32, image: &[u8]) -> usize {
    let found = examine(layout, image).unwrap_or_else(|_| panic!("an accepted image"));
    found.directory.sectors().len()
}

impl Met {
    fn note(&mut self, layout: u32, before: &[u8], number: u32, after: &[u8]) {
        let sectors = directory_sectors(layout, before);
        let room = |image| contents(layout, image).is_some_and(|held| has_room_on_track_18(&held));
        match number {
            0 if directory_sectors(layout, after) > sectors => self.grown += 1,
            14 if sectors == 18 => self.all_slots_taken += 1,
            14 => self.files_in_the_way += 1,
            15 if room(before) => self.room_on_track_18_alone += 1,
            _ => {}
        }
    }
}

/// Runs the first lists, and shows each call with the image before and after.
fn each_call(mut shown: impl FnMut(&Request, &[u8], u32, &[u8])) {
    for list in (0..125).map(List::new) {
        let mut image = list.start;
        for request in &list.requests {
            let before = image.clone();
            let reply = perform(&Independent, &mut image, request).expect("every call is there");
            shown(request, &before, reply.number, &image);
        }
    }
}

#[test]
fn stores_come_upon_every_end() {
    let mut met = Met::default();
    each_call(|request, before, number, after| {
        if matches!(request.call, Call::Store { .. }) {
            met.note(request.layout, before, number, after);
        }
    });
    println!("{met:?}");
    let counts = [
        met.grown,
        met.all_slots_taken,
        met.files_in_the_way,
        met.room_on_track_18_alone,
    ];
    assert!(counts.iter().all(|count| *count > 50), "{met:?}");
}

/// What calls come upon where bits past a track's last sector are set.
#[derive(Default, Debug)]
struct BesideSpare {
    /// Their entries change.
    stored: usize,
    scratched: usize,
    /// The directory grows on such a track 18.
    grown: usize,
    /// 14 and 15, which such bits must not avert.
    directory_full: usize,
    disk_full: usize,
    /// A format, which clears them.
    formatted: usize,
}

impl BesideSpare {
    fn note(&mut self, request: &Request, before: &[u8], number: u32, after: &[u8]) {
        let (layout, call) = (request.layout, &request.call);
        let track_18 = &before[map_offset(layout, 18)..][..4];
        let on_track_18 = track_18[3] & spare_mask(18) != 0;
        match (call, number) {
            (Call::Store { .. }, 0) => {
                self.stored += usize::from(written_beside_spare(layout, before, after));
                let grows = directory_sectors(layout, after) > directory_sectors(layout, before);
                self.grown += usize::from(grows && on_track_18);
            }
            (Call::Store { .. }, 14) => self.directory_full += usize::from(on_track_18),
            (Call::Store { .. }, 15) => self.disk_full += usize::from(has_spare(layout, before)),
            (Call::Scratch { .. }, 0) => {
                self.scratched += usize::from(written_beside_spare(layout, before, after));
            }
            (Call::Format { .. }, 0) => self.formatted += usize::from(has_spare(layout, before)),
            _ => {}
        }
    }
}

#[test]
fn calls_come_upon_spare_bits() {
    let mut met = BesideSpare::default();
    each_call(|request, before, number, after| met.note(request, before, number, after));
    println!("{met:?}");
    let counts = [
        met.stored,
        met.scratched,
        met.grown,
        met.directory_full,
        met.disk_full,
        met.formatted,
    ];
    assert!(counts.iter().all(|count| *count > 20), "{met:?}");
}

/// But for a formatted disk, every kind of start image has them set on some.
#[test]
fn start_images_have_spare_bits() {
    let mut kinds = BTreeMap::new();
    for list in (0..250).map(List::new) {
        *kinds.entry(list.kind).or_insert(0) += usize::from(has_spare(list.layout, &list.start));
    }
    assert_eq!(kinds.remove("formatted"), Some(0));
    assert_eq!(kinds.len(), 4 + SOUND.len());
    assert!(kinds.values().all(|images| *images >= 3), "{kinds:?}");
}

/// What calls come upon in layout 1 or 2.
#[derive(Default, Debug)]
struct OnLastTracks {
    /// Entries of tracks 36 to 40 change.
    stored: usize,
    scratched: usize,
    /// Bytes of the other layout's entries are there, and stay or go.
    beside_others: usize,
    others_cleared: usize,
    /// 15 on a disk of 40 tracks.
    disk_full: usize,
}

impl OnLastTracks {
    fn note(&mut self, request: &Request, before: &[u8], number: u32, after: &[u8]) {
        let layout = request.layout;
        let entries = |image: &[u8]| {
            let from = map_offset(layout, 36);
            image[from..from + 20].to_vec()
        };
        let changed = entries(before) != entries(after);
        let others = other_entries(layout, before).iter().any(|byte| *byte != 0);
        let count = |times: &mut usize, holds: bool| *times += usize::from(holds);
        match (&request.call, number) {
            (Call::Store { .. }, 0) => {
                count(&mut self.stored, changed);
                count(&mut self.beside_others, others);
            }
            (Call::Store { .. }, 15) => self.disk_full += 1,
            (Call::Scratch { .. }, 0) => {
                count(&mut self.scratched, changed);
                count(&mut self.beside_others, others);
            }
            (Call::Format { .. }, 0) => count(&mut self.others_cleared, others),
            _ => {}
        }
    }
}

#[test]
fn calls_come_upon_the_last_tracks() {
    for layout in [1, 2] {
        let mut met = OnLastTracks::default();
        each_call(|request, before, number, after| {
            if request.layout == layout {
                met.note(request, before, number, after);
            }
        });
        println!("{met:?}");
        let counts = [
            met.stored,
            met.scratched,
            met.beside_others,
            met.others_cleared,
            met.disk_full,
        ];
        assert!(counts.iter().all(|count| *count > 20), "{layout}: {met:?}");
    }
}

/// Each kind of start image in each layout.
#[test]
fn start_images_are_of_every_layout() {
    let met: BTreeSet<(&str, u32)> = (0..125)
        .map(List::new)
        .map(|l| (l.kind, l.layout))
        .collect();
    assert_eq!(met.len(), 3 * (5 + SOUND.len()));
}
