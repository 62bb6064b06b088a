//! The calls of d64.h as a trait, so that the archive and deliberately wrong
//! libraries go through the same comparison.

use independent::host;

/// Lent memory, as C has it. Raw on purpose: a wrong library may write where
/// no reference would let it.
#[derive(Clone, Copy)]
pub struct Slice {
    pub start: *mut u8,
    pub len: usize,
}

impl Slice {
    /// The bytes lent; a null pointer with length 0 is an empty slice.
    ///
    /// # Safety
    /// The memory is valid for its length, and nothing writes it meanwhile.
    pub unsafe fn bytes<'a>(self) -> &'a [u8] {
        if self.len == 0 {
            return &[];
        }
        unsafe { std::slice::from_raw_parts(self.start, self.len) }
    }

    /// The bytes lent, to be written.
    ///
    /// # Safety
    /// The memory is valid for its length, and nothing else uses it meanwhile.
    pub unsafe fn bytes_mut<'a>(self) -> &'a mut [u8] {
        if self.len == 0 {
            return &mut [];
        }
        unsafe { std::slice::from_raw_parts_mut(self.start, self.len) }
    }
}

/// A library behind d64.h. The independent program stands in for every call
/// that it leaves out.
///
/// # Safety
/// Of every method: the slices are valid, and none that may be written shares
/// a byte with another, as d64.h asks.
#[allow(clippy::missing_safety_doc)]
pub trait EntryPoints {
    unsafe fn check(&self, layout: u32, image: Slice, answer: Slice) -> u32 {
        unsafe { host::check(layout, image.bytes(), answer.bytes_mut()) }
    }

    unsafe fn format(
        &self,
        layout: u32,
        image: Slice,
        name: Slice,
        id1: u8,
        id2: u8,
        answer: Slice,
    ) -> u32 {
        unsafe {
            let (image, answer) = (image.bytes_mut(), answer.bytes_mut());
            host::format(layout, image, name.bytes(), id1, id2, answer)
        }
    }

    unsafe fn read(
        &self,
        layout: u32,
        image: Slice,
        name: Slice,
        out: Slice,
        answer: Slice,
    ) -> u32 {
        unsafe {
            let (out, answer) = (out.bytes_mut(), answer.bytes_mut());
            host::read(layout, image.bytes(), name.bytes(), out, answer)
        }
    }

    unsafe fn store(
        &self,
        layout: u32,
        image: Slice,
        name: Slice,
        kind: u32,
        data: Slice,
        answer: Slice,
    ) -> u32 {
        unsafe {
            let (image, answer) = (image.bytes_mut(), answer.bytes_mut());
            host::store(layout, image, name.bytes(), kind, data.bytes(), answer)
        }
    }

    unsafe fn scratch(&self, layout: u32, image: Slice, name: Slice, answer: Slice) -> u32 {
        unsafe {
            let (image, answer) = (image.bytes_mut(), answer.bytes_mut());
            host::scratch(layout, image, name.bytes(), answer)
        }
    }

    unsafe fn tell(
        &self,
        layout: u32,
        image: Slice,
        position: usize,
        entry: Slice,
        answer: Slice,
    ) -> u32 {
        unsafe {
            let (entry, answer) = (entry.bytes_mut(), answer.bytes_mut());
            host::tell(layout, image.bytes(), position, entry, answer)
        }
    }

    unsafe fn listing(&self, layout: u32, track18: Slice, text: Slice, answer: Slice) -> u32 {
        unsafe {
            host::listing(
                layout,
                track18.bytes(),
                text.bytes_mut(),
                answer.bytes_mut(),
            )
        }
    }
}

/// The independent program itself.
pub struct Faithful;

impl EntryPoints for Faithful {}
