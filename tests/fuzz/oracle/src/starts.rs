//! The images that an input starts from: a formatted disk, then every kind
//! of `independent::generate`, each with a few seeds.

use crate::calls::bytes_mut;
use independent::generate::{generate, kinds};
use independent::geometry::Geometry;
use independent::host;
use std::sync::OnceLock;

/// Images of each kind.
const SEEDS: usize = 2;

static KINDS: OnceLock<Vec<String>> = OnceLock::new();

fn all_kinds() -> &'static [String] {
    KINDS.get_or_init(kinds)
}

fn formatted(layout: u32) -> Vec<u8> {
    let geometry = Geometry::of(layout).expect("a layout");
    let mut image = vec![0; geometry.image_bytes()];
    host::format(layout, &mut image, b"CODES", b'0', b'1', &mut [0; 9]);
    image
}

/// The image with this number. A kind's images follow each other.
fn start(layout: u32, number: usize) -> Vec<u8> {
    let Some(number) = number.checked_sub(1) else {
        return formatted(layout);
    };
    let kind = &all_kinds()[number / SEEDS];
    let made = generate(layout, kind, (number % SEEDS) as u64);
    made.expect("a kind that kinds() names").image
}

/// How many there are in each layout.
#[no_mangle]
extern "C" fn oracle_starts() -> usize {
    1 + SEEDS * all_kinds().len()
}

/// Writes the layout's image with this number to the start of `out` and gives
/// its length, at most `out_len`.
#[no_mangle]
unsafe extern "C" fn oracle_start(
    layout: u32,
    number: usize,
    out: *mut u8,
    out_len: usize,
) -> usize {
    let image = start(layout, number);
    let out = unsafe { bytes_mut(out, out_len) };
    let len = image.len().min(out.len());
    out[..len].copy_from_slice(&image[..len]);
    len
}
