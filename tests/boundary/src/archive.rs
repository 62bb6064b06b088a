//! The archive libd64.a as Rust sees it: the prototypes of d64.h.

use crate::calls::{EntryPoints, Slice};

#[link(name = "d64", kind = "static")]
unsafe extern "C" {
    fn d64_check(
        layout: u32,
        image: *const u8,
        image_len: usize,
        answer: *mut u8,
        answer_len: usize,
    ) -> u32;
    fn d64_format(
        layout: u32,
        image: *mut u8,
        image_len: usize,
        name: *const u8,
        name_len: usize,
        id1: u8,
        id2: u8,
        answer: *mut u8,
        answer_len: usize,
    ) -> u32;
    fn d64_read(
        layout: u32,
        image: *const u8,
        image_len: usize,
        name: *const u8,
        name_len: usize,
        out: *mut u8,
        out_len: usize,
        answer: *mut u8,
        answer_len: usize,
    ) -> u32;
    fn d64_store(
        layout: u32,
        image: *mut u8,
        image_len: usize,
        name: *const u8,
        name_len: usize,
        kind: u32,
        data: *const u8,
        data_len: usize,
        answer: *mut u8,
        answer_len: usize,
    ) -> u32;
    fn d64_scratch(
        layout: u32,
        image: *mut u8,
        image_len: usize,
        name: *const u8,
        name_len: usize,
        answer: *mut u8,
        answer_len: usize,
    ) -> u32;
    fn d64_tell(
        layout: u32,
        image: *const u8,
        image_len: usize,
        position: usize,
        entry: *mut u8,
        entry_len: usize,
        answer: *mut u8,
        answer_len: usize,
    ) -> u32;
    fn d64_listing(
        layout: u32,
        track18: *const u8,
        track18_len: usize,
        text: *mut u8,
        text_len: usize,
        answer: *mut u8,
        answer_len: usize,
    ) -> u32;
}

/// The archive.
pub struct Archive;

impl EntryPoints for Archive {
    unsafe fn check(&self, layout: u32, image: Slice, answer: Slice) -> u32 {
        unsafe { d64_check(layout, image.start, image.len, answer.start, answer.len) }
    }

    unsafe fn format(
        &self,
        layout: u32,
        image: Slice,
        name: Slice,
        id1: u8,
        id2: u8,
        answer: Slice,
    ) -> u32 {
        unsafe {
            d64_format(
                layout,
                image.start,
                image.len,
                name.start,
                name.len,
                id1,
                id2,
                answer.start,
                answer.len,
            )
        }
    }

    unsafe fn read(
        &self,
        layout: u32,
        image: Slice,
        name: Slice,
        out: Slice,
        answer: Slice,
    ) -> u32 {
        unsafe {
            d64_read(
                layout,
                image.start,
                image.len,
                name.start,
                name.len,
                out.start,
                out.len,
                answer.start,
                answer.len,
            )
        }
    }

    unsafe fn store(
        &self,
        layout: u32,
        image: Slice,
        name: Slice,
        kind: u32,
        data: Slice,
        answer: Slice,
    ) -> u32 {
        unsafe {
            d64_store(
                layout,
                image.start,
                image.len,
                name.start,
                name.len,
                kind,
                data.start,
                data.len,
                answer.start,
                answer.len,
            )
        }
    }

    unsafe fn scratch(&self, layout: u32, image: Slice, name: Slice, answer: Slice) -> u32 {
        unsafe {
            d64_scratch(
                layout,
                image.start,
                image.len,
                name.start,
                name.len,
                answer.start,
                answer.len,
            )
        }
    }

    unsafe fn tell(
        &self,
        layout: u32,
        image: Slice,
        position: usize,
        entry: Slice,
        answer: Slice,
    ) -> u32 {
        unsafe {
            d64_tell(
                layout,
                image.start,
                image.len,
                position,
                entry.start,
                entry.len,
                answer.start,
                answer.len,
            )
        }
    }

    unsafe fn listing(&self, layout: u32, track18: Slice, text: Slice, answer: Slice) -> u32 {
        unsafe {
            d64_listing(
                layout,
                track18.start,
                track18.len,
                text.start,
                text.len,
                answer.start,
                answer.len,
            )
        }
    }
}
