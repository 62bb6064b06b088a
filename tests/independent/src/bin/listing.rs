//! Reads an image from standard input and prints the sleeve listing
//! (01, Sleeve listing). The first argument is the layout (02, §8).

use independent::geometry::Geometry;
use independent::listing::{layout_asked, sleeve_output};
use std::io::{self, Read, Write};
use std::os::unix::ffi::OsStrExt;

fn main() -> io::Result<()> {
    let argument = std::env::args_os().nth(1);
    let argument = argument.as_deref().map(OsStrExt::as_bytes);
    let mut input = Vec::new();
    // The input isn't looked at if the argument names no layout. One byte more
    // than an image is enough to see that it is too long.
    if let Some(geometry) = layout_asked(argument).and_then(Geometry::of) {
        let limit = geometry.image_bytes() as u64 + 1;
        io::stdin().lock().take(limit).read_to_end(&mut input)?;
    }
    let mut output = io::stdout().lock();
    output.write_all(&sleeve_output(argument, &input))?;
    output.flush()
}
