//! One request on both sides: what the library returned and left, against
//! what the independent program returns and leaves.

use crate::calls::{EntryPoints, Slice};
use crate::memory::Guarded;
use independent::geometry::{IMAGE_BYTES, IMAGE_BYTES_40, TRACK_18_BYTES, TRACK_18_OFFSET};
use independent::request::{lent, perform, Call, Independent, Reply, Request};
use independent::rng::Rng;

/// The image, or track 18 alone, as lent to the library under test, and as
/// the independent program leaves it.
pub struct Disk {
    lent: Guarded,
    expected: Vec<u8>,
}

impl Disk {
    pub fn new(bytes: &[u8], rng: &mut Rng) -> Disk {
        Disk {
            lent: Guarded::holding(bytes, rng),
            expected: bytes.to_vec(),
        }
    }
}

/// What one call is lent besides the disk.
struct Lent {
    name: Guarded,
    data: Guarded,
    output: Guarded,
    answer: Guarded,
}

impl Lent {
    fn to(request: &Request, rng: &mut Rng) -> Lent {
        Lent {
            name: Guarded::holding(name_of(&request.call), rng),
            data: Guarded::holding(data_of(&request.call), rng),
            output: Guarded::holding(&lent(request.call.room()), rng),
            answer: Guarded::holding(&lent(request.block), rng),
        }
    }
}

/// The name that a call is given; empty if it has none.
fn name_of(call: &Call) -> &[u8] {
    match call {
        Call::Format { name, .. }
        | Call::Read { name, .. }
        | Call::Store { name, .. }
        | Call::Scratch { name } => name,
        Call::Check | Call::Tell { .. } | Call::Listing { .. } => &[],
    }
}

/// The data that a store is given.
fn data_of(call: &Call) -> &[u8] {
    match call {
        Call::Store { data, .. } => data,
        _ => &[],
    }
}

/// The word for a call in messages and counts.
pub fn word_of(call: &Call) -> &'static str {
    match call {
        Call::Check => "check",
        Call::Format { .. } => "format",
        Call::Read { .. } => "read",
        Call::Store { .. } => "store",
        Call::Scratch { .. } => "scratch",
        Call::Tell { .. } => "tell",
        Call::Listing { .. } => "listing",
    }
}

/// Track 18 of a whole image, of either size; anything else as it is.
fn track_18_in(disk: Slice) -> Slice {
    if disk.len != IMAGE_BYTES && disk.len != IMAGE_BYTES_40 {
        return disk;
    }
    Slice {
        start: disk.start.wrapping_add(TRACK_18_OFFSET),
        len: TRACK_18_BYTES,
    }
}

/// The call itself.
fn run(library: &dyn EntryPoints, request: &Request, disk: Slice, memory: &mut Lent) -> u32 {
    let layout = request.layout;
    let (name, data) = (memory.name.lend(), memory.data.lend());
    let (output, answer) = (memory.output.lend(), memory.answer.lend());
    // The slices are of five allocations, each lent once.
    unsafe {
        match request.call {
            Call::Check => library.check(layout, disk, answer),
            Call::Format { id1, id2, .. } => library.format(layout, disk, name, id1, id2, answer),
            Call::Read { .. } => library.read(layout, disk, name, output, answer),
            Call::Store { kind, .. } => library.store(layout, disk, name, kind, data, answer),
            Call::Scratch { .. } => library.scratch(layout, disk, name, answer),
            Call::Tell { position, .. } => library.tell(layout, disk, position, output, answer),
            Call::Listing { .. } => library.listing(layout, track_18_in(disk), output, answer),
        }
    }
}

/// Runs a request on both sides. Gives what is owed, or all that differs.
pub fn compare(
    library: &dyn EntryPoints,
    disk: &mut Disk,
    request: &Request,
    rng: &mut Rng,
) -> Result<Reply, Vec<String>> {
    let owed = perform(&Independent, &mut disk.expected, request)
        .expect("the independent program has every call");
    let mut memory = Lent::to(request, rng);
    let number = run(library, request, disk.lent.lend(), &mut memory);
    let mut found = Vec::new();
    if number != owed.number {
        found.push(format!("number: {number}, not {}", owed.number));
    }
    found.extend(memory.answer.differences("answer", &owed.block));
    found.extend(memory.output.differences("output", &owed.out));
    found.extend(memory.name.differences("name", name_of(&request.call)));
    found.extend(memory.data.differences("data", data_of(&request.call)));
    found.extend(disk.lent.differences("image", &disk.expected));
    match found.is_empty() {
        true => Ok(owed),
        false => Err(found),
    }
}
