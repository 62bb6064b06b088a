//! The seven calls. Lent memory is valid for its length and shares no byte
//! with other memory lent, as d64.h asks; the harness keeps to it.

use independent::host;
use std::slice::{from_raw_parts, from_raw_parts_mut};

/// The bytes lent; a null pointer with length 0 is an empty slice.
pub unsafe fn bytes<'a>(start: *const u8, len: usize) -> &'a [u8] {
    match len {
        0 => &[],
        _ => unsafe { from_raw_parts(start, len) },
    }
}

/// The bytes lent, to be written.
pub unsafe fn bytes_mut<'a>(start: *mut u8, len: usize) -> &'a mut [u8] {
    match len {
        0 => &mut [],
        _ => unsafe { from_raw_parts_mut(start, len) },
    }
}

#[no_mangle]
unsafe extern "C" fn oracle_check(
    layout: u32,
    image: *const u8,
    image_len: usize,
    answer: *mut u8,
    answer_len: usize,
) -> u32 {
    unsafe {
        host::check(
            layout,
            bytes(image, image_len),
            bytes_mut(answer, answer_len),
        )
    }
}

#[no_mangle]
unsafe extern "C" fn oracle_format(
    layout: u32,
    image: *mut u8,
    image_len: usize,
    name: *const u8,
    name_len: usize,
    id1: u8,
    id2: u8,
    answer: *mut u8,
    answer_len: usize,
) -> u32 {
    unsafe {
        let (image, name) = (bytes_mut(image, image_len), bytes(name, name_len));
        host::format(layout, image, name, id1, id2, bytes_mut(answer, answer_len))
    }
}

#[no_mangle]
unsafe extern "C" fn oracle_read(
    layout: u32,
    image: *const u8,
    image_len: usize,
    name: *const u8,
    name_len: usize,
    out: *mut u8,
    out_len: usize,
    answer: *mut u8,
    answer_len: usize,
) -> u32 {
    unsafe {
        let (image, name) = (bytes(image, image_len), bytes(name, name_len));
        let (out, answer) = (bytes_mut(out, out_len), bytes_mut(answer, answer_len));
        host::read(layout, image, name, out, answer)
    }
}

#[no_mangle]
unsafe extern "C" fn oracle_store(
    layout: u32,
    image: *mut u8,
    image_len: usize,
    name: *const u8,
    name_len: usize,
    kind: u32,
    data: *const u8,
    data_len: usize,
    answer: *mut u8,
    answer_len: usize,
) -> u32 {
    unsafe {
        let (image, name) = (bytes_mut(image, image_len), bytes(name, name_len));
        let (data, answer) = (bytes(data, data_len), bytes_mut(answer, answer_len));
        host::store(layout, image, name, kind, data, answer)
    }
}

#[no_mangle]
unsafe extern "C" fn oracle_scratch(
    layout: u32,
    image: *mut u8,
    image_len: usize,
    name: *const u8,
    name_len: usize,
    answer: *mut u8,
    answer_len: usize,
) -> u32 {
    unsafe {
        let (image, name) = (bytes_mut(image, image_len), bytes(name, name_len));
        host::scratch(layout, image, name, bytes_mut(answer, answer_len))
    }
}

#[no_mangle]
unsafe extern "C" fn oracle_tell(
    layout: u32,
    image: *const u8,
    image_len: usize,
    position: usize,
    entry: *mut u8,
    entry_len: usize,
    answer: *mut u8,
    answer_len: usize,
) -> u32 {
    unsafe {
        let (entry, answer) = (bytes_mut(entry, entry_len), bytes_mut(answer, answer_len));
        host::tell(layout, bytes(image, image_len), position, entry, answer)
    }
}

#[no_mangle]
unsafe extern "C" fn oracle_listing(
    layout: u32,
    track18: *const u8,
    track18_len: usize,
    text: *mut u8,
    text_len: usize,
    answer: *mut u8,
    answer_len: usize,
) -> u32 {
    unsafe {
        let (text, answer) = (bytes_mut(text, text_len), bytes_mut(answer, answer_len));
        host::listing(layout, bytes(track18, track18_len), text, answer)
    }
}
