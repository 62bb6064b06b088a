//! `generate [LAYOUT] KIND SEED > image` writes one generated image to standard
//! output, in layout 0 if none is given; `generate --list` prints the kinds.

use independent::generate::{generate, kinds, Generated};
use std::io::{self, Write};
use std::process::ExitCode;

fn main() -> ExitCode {
    let arguments: Vec<String> = std::env::args().skip(1).collect();
    let mut output = io::stdout().lock();
    let made = match &arguments[..] {
        [flag] if flag == "--list" => Some((kinds().join("\n") + "\n").into_bytes()),
        [kind, seed] => made("0", kind, seed).map(|made| made.image),
        [layout, kind, seed] => made(layout, kind, seed).map(|made| made.image),
        _ => None,
    };
    let Some(bytes) = made else {
        eprintln!("usage: generate [LAYOUT] KIND SEED > image, or generate --list");
        return ExitCode::from(2);
    };
    match output.write_all(&bytes) {
        Ok(()) => ExitCode::SUCCESS,
        Err(_) => ExitCode::FAILURE,
    }
}

fn made(layout: &str, kind: &str, seed: &str) -> Option<Generated> {
    generate(layout.parse().ok()?, kind, seed.parse().ok()?)
}
