//! The disks of the benchmark, built by the independent program.

use independent::calls::{format, store};
use independent::geometry::Geometry;
use independent::lists::room_of;
use independent::rng::Rng;
use independent::sound::fresh_name;

/// The largest file that a fresh disk takes: 168,656 bytes, or 190,246.
pub fn full_bytes(layout: u32) -> usize {
    254 * room_of(layout)
}

/// A full directory.
pub const FILES: usize = 144;

/// Bytes of each of many files: one sector.
const SMALL_BYTES: usize = 200;

/// Bytes of a file of 332 sectors: half of those that files may take.
const HALF_BYTES: usize = 332 * 254;

/// An image, and the file that the call is about: the last one on it, or one
/// that is to be stored.
#[derive(Clone)]
pub struct Disk {
    pub layout: u32,
    pub image: Vec<u8>,
    pub name: Vec<u8>,
    pub data: Vec<u8>,
    pub files: usize,
}

pub fn empty(layout: u32) -> Disk {
    let mut image = vec![0; Geometry::of(layout).expect("a layout").image_bytes()];
    assert_eq!(format(layout, &mut image, b"BENCH", 0x30, 0x31).number, 0);
    Disk {
        layout,
        image,
        name: b"BENCH".to_vec(),
        data: Vec::new(),
        files: 0,
    }
}

/// One file that takes half of a disk of 35 tracks.
pub fn half(seed: u64) -> Disk {
    let mut disk = empty(0);
    disk.add(&mut Rng::new(seed), b"HALF".to_vec(), HALF_BYTES);
    disk
}

/// Files with names that differ in their last bytes only.
pub fn numbered(layout: u32, seed: u64, files: usize) -> Disk {
    let rng = &mut Rng::new(seed);
    let mut disk = empty(layout);
    for file in 1..=files {
        disk.add(rng, format!("FILE {file:03}").into_bytes(), SMALL_BYTES);
    }
    disk
}

/// 144 files with names of any length and any bytes.
pub fn random_names(seed: u64) -> Disk {
    let rng = &mut Rng::new(seed);
    let mut disk = empty(0);
    let mut names = Vec::new();
    for _ in 0..FILES {
        names.push(fresh_name(rng, true, &names));
    }
    for name in names {
        disk.add(rng, name, SMALL_BYTES);
    }
    disk
}

impl Disk {
    /// With one file more.
    pub fn with(mut self, seed: u64, length: usize) -> Disk {
        self.add(&mut Rng::new(seed), b"FILE".to_vec(), length);
        self
    }

    /// With room for one file more, which is to be stored.
    pub fn without(self, seed: u64, length: usize) -> Disk {
        let Disk { image, files, .. } = self.clone();
        let full = self.with(seed, length);
        Disk {
            image,
            files,
            ..full
        }
    }

    fn add(&mut self, rng: &mut Rng, name: Vec<u8>, length: usize) {
        let data = rng.bytes(length);
        assert_eq!(
            store(self.layout, &mut self.image, &name, 2, &data).number,
            0
        );
        (self.name, self.data) = (name, data);
        self.files += 1;
    }
}
