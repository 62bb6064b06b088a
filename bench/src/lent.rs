//! The memory that a call is lent, and the call itself.

use crate::disks::Disk;
use boundary::calls::{EntryPoints, Slice};
use independent::geometry::{TRACK_18_BYTES, TRACK_18_OFFSET};
use independent::host::{BLOCK_BYTES, ENTRY_BYTES};
use independent::listing::LONGEST;

#[derive(Clone, Copy)]
pub enum Call {
    Check,
    Format,
    Read,
    Store,
    /// Under a name that is there: refused with 12.
    StoreAgain,
    Scratch,
    /// The last file of the disk.
    Tell,
    Listing,
}

impl Call {
    /// The number that the call answers with.
    pub fn number(self) -> u32 {
        match self {
            Call::StoreAgain => 12,
            _ => 0,
        }
    }

    /// What makes the image again what it was before the call.
    pub fn undone_by(self) -> Option<Call> {
        match self {
            Call::Store => Some(Call::Scratch),
            Call::Scratch => Some(Call::Store),
            _ => None,
        }
    }
}

/// All memory that a call is lent, with some images alike. The same bytes for
/// both sides.
pub struct Lent {
    layout: u32,
    images: Vec<Vec<u8>>,
    name: Vec<u8>,
    data: Vec<u8>,
    files: usize,
    out: Vec<u8>,
    answer: [u8; BLOCK_BYTES],
}

fn slice_of(bytes: &mut [u8]) -> Slice {
    Slice {
        start: bytes.as_mut_ptr(),
        len: bytes.len(),
    }
}

impl Lent {
    pub fn new(disk: &Disk, images: usize) -> Lent {
        Lent {
            layout: disk.layout,
            images: vec![disk.image.clone(); images],
            name: disk.name.clone(),
            data: disk.data.clone(),
            files: disk.files,
            out: vec![0x55; disk.data.len().max(LONGEST)],
            answer: [0; BLOCK_BYTES],
        }
    }

    pub fn images(&self) -> &[Vec<u8>] {
        &self.images
    }

    /// Makes the call once, on one of the images, and gives its number.
    #[inline(always)]
    pub fn run<L: EntryPoints + ?Sized>(&mut self, library: &L, call: Call, image: usize) -> u32 {
        let layout = self.layout;
        let image = slice_of(&mut self.images[image]);
        let (name, data) = (slice_of(&mut self.name), slice_of(&mut self.data));
        let (out, answer) = (slice_of(&mut self.out), slice_of(&mut self.answer));
        // Separate allocations, and the parts taken of them are inside.
        unsafe {
            match call {
                Call::Check => library.check(layout, image, answer),
                Call::Format => library.format(layout, image, name, 0x30, 0x31, answer),
                Call::Read => library.read(layout, image, name, out, answer),
                Call::Store | Call::StoreAgain => {
                    library.store(layout, image, name, 2, data, answer)
                }
                Call::Scratch => library.scratch(layout, image, name, answer),
                Call::Tell => {
                    let len = ENTRY_BYTES;
                    library.tell(layout, image, self.files - 1, Slice { len, ..out }, answer)
                }
                Call::Listing => {
                    let track18 = Slice {
                        start: image.start.add(TRACK_18_OFFSET),
                        len: TRACK_18_BYTES,
                    };
                    library.listing(layout, track18, out, answer)
                }
            }
        }
    }

    /// What a call on the first image left.
    pub fn left(self) -> (Vec<u8>, Vec<u8>, [u8; BLOCK_BYTES]) {
        let first = self.images.into_iter().next();
        (first.unwrap_or_default(), self.out, self.answer)
    }
}
