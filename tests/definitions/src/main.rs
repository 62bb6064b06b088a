//! Compares the definitions of `crates/d64spec` with the independent program.
//!
//! `definitions DIR SEED IMAGES` writes a crate of cases into DIR: for so many
//! generated images, what the independent program answers and leaves, and for
//! some kinds, whether a store takes them. The prover then computes the
//! definitions on the same images and kinds. Each case is a statement of its
//! own, under a comment with its kind and seed.

mod rows;

use independent::arguments::kind;
use independent::generate::{generate, kinds};
use independent::geometry::{Geometry, LAYOUTS};
use independent::rng::Rng;
use rows::Row;
use std::fs;
use std::path::Path;

/// The kinds of files that there are, each a case of every run.
const KINDS: [u32; 3] = [1, 2, 3];

/// Cases of kinds drawn anew.
const DRAWN_KINDS: usize = 5;

fn main() {
    let arguments: Vec<String> = std::env::args().collect();
    let [_, dir, seed, images] = &arguments[..] else {
        eprintln!("usage: definitions DIR SEED IMAGES");
        std::process::exit(64);
    };
    let seed: u64 = seed.parse().expect("SEED is a number");
    let images: usize = images.parse().expect("IMAGES is a number");
    let rows = draw_rows(seed, images);
    write_crate(Path::new(dir), &rows).expect("the cases can be written");
    println!("{} cases of {images} images from seed {seed}", rows.len());
}

/// The cases of so many images, each of a kind and a seed drawn anew, one
/// layout after the other. The
/// first two have no file and one file, so that a store and a scratch are
/// among the cases, and change map entries with bits past the track's last
/// sector. The kinds that a store takes or refuses come last.
fn draw_rows(seed: u64, images: usize) -> Vec<Row> {
    let rng = &mut Rng::new(seed);
    let kinds = kinds();
    let mut rows = Vec::new();
    let mut taken = 0;
    while taken < images {
        let (kind, most) = match taken {
            0 => ("fresh".to_string(), 0),
            1 => ("few".to_string(), 1),
            _ => (rng.pick(&kinds), rows::MOST_FILES),
        };
        let at = rng.draw() % 1_000_000;
        // one layout after the other, from a drawn one on
        let layout = LAYOUTS[(seed as usize + taken) % LAYOUTS.len()];
        let Some(made) = generate(layout, &kind, at) else {
            continue;
        };
        let whole = Geometry::of(layout).is_some_and(|g| made.image.len() == g.image_bytes());
        if whole && rows::occupied(&made.image) <= most {
            let drawn = rows::of_image(layout, &kind, at, &made.image);
            if taken > 1 || drawn.iter().any(|row| row.beside_spare) {
                rows.extend(drawn);
                taken += 1;
            }
        }
    }
    let drawn: Vec<u32> = (0..DRAWN_KINDS).map(|_| kind(rng)).collect();
    rows.extend(KINDS.into_iter().chain(drawn).map(rows::of_kind));
    rows
}

fn write_crate(dir: &Path, rows: &[Row]) -> std::io::Result<()> {
    for folder in ["src", "specs", "proofs"] {
        fs::create_dir_all(dir.join(folder))?;
    }
    fs::write(
        dir.join("src/lib.rt"),
        "// Cases of the independent program.\n#![tactic(auto)]\n",
    )?;
    fs::write(dir.join("specs/Rows.antt"), rows::DEFINITIONS)?;
    fs::write(dir.join("specs/Lib.antt"), "pub mod Rows\n")?;
    let lib: String = (0..rows.len())
        .map(|i| format!("pub mod Case{i}\n"))
        .collect();
    fs::write(dir.join("proofs/Lib.antt"), lib)?;
    for (i, row) in rows.iter().enumerate() {
        fs::write(dir.join(format!("proofs/Case{i}.antt")), row.module())?;
    }
    Ok(())
}
