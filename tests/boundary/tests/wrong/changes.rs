//! What a right store or scratch has changed, for a wrong one to change it
//! again.

use boundary::calls::{EntryPoints, Faithful, Slice};
use independent::naive::{contents, position, Contents, File, Owner, Place};
use independent::sound::{map_offset, offset, slot_offset};

/// A store or scratch that was done.
pub struct Change {
    pub layout: u32,
    /// The image before, and what it held.
    pub before: Vec<u8>,
    pub held: Contents,
    /// The file stored or scratched.
    pub file: File,
    /// Where its sectors start in the image, in chain order.
    pub chain: Vec<usize>,
    /// Where its slot starts in the image.
    pub slot: usize,
    /// Where the directory's last sector started before.
    pub last: usize,
    /// The sector of track 18 that joined the directory.
    pub grown: Option<u8>,
}

impl Change {
    /// The change of the file `name`, which one of the two images has.
    fn between(layout: u32, before: Vec<u8>, after: &[u8], name: &[u8]) -> Change {
        let held = contents(layout, &before).expect("an accepted image");
        let now = contents(layout, after).expect("an accepted image");
        let mut files = now.files.iter().chain(&held.files);
        let named = files.find(|file| file.name == name);
        let file = named.expect("the file that changed").clone();
        let last = *held.directory.last().expect("18/1 at least");
        Change {
            layout,
            chain: file.chain.iter().map(|&(t, s)| offset(t, s)).collect(),
            slot: slot_offset(&now.directory, file.slot),
            last: offset(18, last),
            grown: now.directory.get(held.directory.len()).copied(),
            before,
            held,
            file,
        }
    }

    /// Puts back what was there before.
    pub fn restore(&self, image: &mut [u8], from: usize, length: usize) {
        let to = from + length;
        image[from..to].copy_from_slice(&self.before[from..to]);
    }

    /// Puts back one sector.
    pub fn restore_sector(&self, image: &mut [u8], at: usize) {
        self.restore(image, at, 256);
    }

    /// Whether nobody owned a sector, neither before nor now.
    pub fn is_left_free(&self, (track, sector): Place) -> bool {
        let at = position(track, sector).expect("a place on the disk");
        let taken = self.file.chain.contains(&(track, sector))
            || (track == 18 && self.grown == Some(sector));
        self.held.owners[at] == Owner::Nobody && !taken
    }
}

/// Marks a sector free or used in the map, where it isn't yet.
pub fn mark(layout: u32, image: &mut [u8], (track, sector): Place, free: bool) {
    let entry = map_offset(layout, track);
    let (byte, bit) = (entry + 1 + usize::from(sector / 8), 1 << (sector % 8));
    match (image[byte] & bit != 0, free) {
        (false, true) => (image[entry], image[byte]) = (image[entry] + 1, image[byte] | bit),
        (true, false) => (image[entry], image[byte]) = (image[entry] - 1, image[byte] & !bit),
        _ => {}
    }
}

/// An edit of what a call that was done left.
pub type Edit = fn(&mut [u8], &Change);

/// A store that is right but for the edit.
pub struct StoreEdited(pub Edit);

impl EntryPoints for StoreEdited {
    unsafe fn store(
        &self,
        layout: u32,
        image: Slice,
        name: Slice,
        kind: u32,
        data: Slice,
        answer: Slice,
    ) -> u32 {
        unsafe {
            let before = image.bytes().to_vec();
            let number = Faithful.store(layout, image, name, kind, data, answer);
            if number == 0 {
                let change = Change::between(layout, before, image.bytes(), name.bytes());
                self.0(image.bytes_mut(), &change);
            }
            number
        }
    }
}

/// A scratch that is right but for the edit.
pub struct ScratchEdited(pub Edit);

impl EntryPoints for ScratchEdited {
    unsafe fn scratch(&self, layout: u32, image: Slice, name: Slice, answer: Slice) -> u32 {
        unsafe {
            let before = image.bytes().to_vec();
            let number = Faithful.scratch(layout, image, name, answer);
            if number == 0 {
                let change = Change::between(layout, before, image.bytes(), name.bytes());
                self.0(image.bytes_mut(), &change);
            }
            number
        }
    }
}
