//! The wrong libraries. Each changes what the independent program does in one
//! call, or in all of them where the fault concerns the block.

pub mod changes;
pub mod counting;
pub mod formatting;
pub mod last_tracks;
pub mod layouts;
pub mod masks;
pub mod place;
pub mod reading;
pub mod scratching;
pub mod spare;
pub mod stored;
pub mod storing;
pub mod usr;

use boundary::calls::{EntryPoints, Slice};
use independent::answer::Answer;
use independent::geometry::Geometry;
use independent::host::{block_of, BLOCK_BYTES};
use independent::naive::{contents, last_track, File};
use std::ops::RangeInclusive;

/// What is wrong, the library, and what has to differ.
pub type Row = (&'static str, &'static dyn EntryPoints, &'static str);

/// A library that is wrong in one call in every layout, given the body of that
/// call. A number that is no layout is refused as it should be.
macro_rules! wrong {
    ($library:ident: check($layout:ident, $image:ident, $answer:ident) $body:block) => {
        pub struct $library;
        impl EntryPoints for $library {
            unsafe fn check(&self, $layout: u32, $image: Slice, $answer: Slice) -> u32 {
                if !super::is_layout($layout) {
                    return unsafe { Faithful.check($layout, $image, $answer) };
                }
                unsafe { $body }
            }
        }
    };
    ($library:ident: format($layout:ident, $image:ident, $name:ident, $id1:ident, $id2:ident, $answer:ident) $body:block) => {
        pub struct $library;
        impl EntryPoints for $library {
            unsafe fn format(
                &self,
                $layout: u32,
                $image: Slice,
                $name: Slice,
                $id1: u8,
                $id2: u8,
                $answer: Slice,
            ) -> u32 {
                if !super::is_layout($layout) {
                    return unsafe { Faithful.format($layout, $image, $name, $id1, $id2, $answer) };
                }
                unsafe { $body }
            }
        }
    };
    ($library:ident: read($layout:ident, $image:ident, $name:ident, $out:ident, $answer:ident) $body:block) => {
        pub struct $library;
        impl EntryPoints for $library {
            unsafe fn read(
                &self,
                $layout: u32,
                $image: Slice,
                $name: Slice,
                $out: Slice,
                $answer: Slice,
            ) -> u32 {
                if !super::is_layout($layout) {
                    return unsafe { Faithful.read($layout, $image, $name, $out, $answer) };
                }
                unsafe { $body }
            }
        }
    };
    ($library:ident: store($layout:ident, $image:ident, $name:ident, $kind:ident, $data:ident, $answer:ident) $body:block) => {
        pub struct $library;
        impl EntryPoints for $library {
            unsafe fn store(
                &self,
                $layout: u32,
                $image: Slice,
                $name: Slice,
                $kind: u32,
                $data: Slice,
                $answer: Slice,
            ) -> u32 {
                if !super::is_layout($layout) {
                    return unsafe {
                        Faithful.store($layout, $image, $name, $kind, $data, $answer)
                    };
                }
                unsafe { $body }
            }
        }
    };
    ($library:ident: scratch($layout:ident, $image:ident, $name:ident, $answer:ident) $body:block) => {
        pub struct $library;
        impl EntryPoints for $library {
            unsafe fn scratch(
                &self,
                $layout: u32,
                $image: Slice,
                $name: Slice,
                $answer: Slice,
            ) -> u32 {
                if !super::is_layout($layout) {
                    return unsafe { Faithful.scratch($layout, $image, $name, $answer) };
                }
                unsafe { $body }
            }
        }
    };
    ($library:ident: tell($layout:ident, $image:ident, $at:ident, $entry:ident, $answer:ident) $body:block) => {
        pub struct $library;
        impl EntryPoints for $library {
            unsafe fn tell(
                &self,
                $layout: u32,
                $image: Slice,
                $at: usize,
                $entry: Slice,
                $answer: Slice,
            ) -> u32 {
                if !super::is_layout($layout) {
                    return unsafe { Faithful.tell($layout, $image, $at, $entry, $answer) };
                }
                unsafe { $body }
            }
        }
    };
    ($library:ident: listing($layout:ident, $track18:ident, $text:ident, $answer:ident) $body:block) => {
        pub struct $library;
        impl EntryPoints for $library {
            unsafe fn listing(
                &self,
                $layout: u32,
                $track18: Slice,
                $text: Slice,
                $answer: Slice,
            ) -> u32 {
                if !super::is_layout($layout) {
                    return unsafe { Faithful.listing($layout, $track18, $text, $answer) };
                }
                unsafe { $body }
            }
        }
    };
}
pub(crate) use wrong;

/// Whether a number is that of a layout.
fn is_layout(layout: u32) -> bool {
    Geometry::of(layout).is_some()
}

/// Whether bytes have the size of the layout's images.
fn is_image(layout: u32, bytes: &[u8]) -> bool {
    Geometry::of(layout).is_some_and(|geometry| bytes.len() == geometry.image_bytes())
}

/// All tracks of a layout.
fn tracks(layout: u32) -> RangeInclusive<u8> {
    1..=last_track(layout)
}

/// The tracks of a layout in house order.
fn house_tracks(layout: u32) -> impl Iterator<Item = u8> {
    let after = 19..=last_track(layout);
    (1..18).rev().chain(after)
}

/// Gives an answer as a right library does.
unsafe fn give(answer: Slice, given: Answer) -> u32 {
    if answer.len != BLOCK_BYTES {
        return 16;
    }
    unsafe { answer.bytes_mut() }.copy_from_slice(&block_of(&given));
    u32::from(given.number)
}

/// The length that a block reports.
unsafe fn reported_length(answer: Slice) -> usize {
    let block = unsafe { answer.bytes() };
    u32::from_le_bytes([block[3], block[4], block[5], block[6]]) as usize
}

/// The file that a read answered 0 read.
unsafe fn file_read(layout: u32, image: Slice, name: Slice) -> File {
    let (image, name) = unsafe { (image.bytes(), name.bytes()) };
    let held = contents(layout, image).expect("an accepted image");
    let mut files = held.files.into_iter();
    files.find(|file| file.name == name).expect("the file read")
}

/// A slice of bytes of our own.
fn slice_of(bytes: &mut [u8]) -> Slice {
    Slice {
        start: bytes.as_mut_ptr(),
        len: bytes.len(),
    }
}
