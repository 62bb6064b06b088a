//! The plain list, and demand 3 run over a list of calls (01, What demand 3
//! compares).
//!
//! Demand 3: "Start from any accepted image. For every list of format, store,
//! scratch, read and check calls on it, refused ones included, each given the
//! image as the one before left it, this holds after all of them: the image is
//! accepted; it holds exactly the names, kinds and bytes of document 01's plain
//! list; every sector that one of these calls gave back, and that is free now,
//! is all zeros; each read answered "done" reported as many sectors as its
//! file's chain had, never more than 681."
//!
//! With layouts it "covers a list whose calls all name one and the same layout,
//! one in which the start image is accepted", and its bound "is 681 for layout 0
//! and 766 for the others" (02, §8).

use crate::naive::{contents, other_entries, spare_bits, Contents, File, Owner};
use crate::request::{lent, perform, Call, Library, Reply, Request};

/// Demand 3, first clause.
pub const ACCEPTED: &str = "demand 3, the image is accepted";
/// Demand 3, second clause.
pub const PLAIN_LIST: &str = "demand 3, it holds exactly the plain list";
/// Demand 3, third clause.
pub const GIVEN_BACK: &str = "demand 3, what was given back and is free now is all zeros";
/// Demand 3, fourth clause.
pub const READ_SECTORS: &str = "demand 3, a read reported its chain's sectors";
/// Demand 1: "a refused call changes no byte of the image or of the output
/// buffer". An answer block of the wrong size is refused and not written.
pub const REFUSED: &str = "demand 1, a refused call changes nothing";
/// Demand 2: "Reading gives the bytes the chain holds". It writes them at the
/// start of the output and leaves the rest (01, What the calls do, Read).
pub const READ_BYTES: &str = "demand 2, a read gives its entry's bytes";
/// Demand 2: only format, store and scratch leave another image. A library
/// in safe Rust can't break this; one behind C entry points could.
pub const LOOKS_ONLY: &str = "demand 2, a call that only looks leaves the image";
/// Demand 2, read with 02, §5: bits past a track's last sector are "left as
/// they are by every call but format. Format still writes 0."
pub const SPARE_BITS: &str = "demand 2, spare bits of the map stay, and format writes 0";

/// Demand 2, read with 02, §8: bytes of 18/0 that are a map entry in another
/// layout alone are other bytes, which only format writes.
pub const OTHER_ENTRIES: &str = "demand 2, another layout's entries stay, and format writes 0";

/// All that `demand3` verifies.
pub const CLAUSES: &[&str] = &[
    ACCEPTED,
    PLAIN_LIST,
    GIVEN_BACK,
    READ_SECTORS,
    REFUSED,
    READ_BYTES,
    LOOKS_ONLY,
    SPARE_BITS,
    OTHER_ENTRIES,
];

/// No file has more sectors: 18/0 is the map's, 18/1 the directory's.
fn most_sectors(layout: u32) -> usize {
    match layout {
        0 => 681,
        _ => 766,
    }
}

/// A name, a kind and bytes.
#[derive(Clone, PartialEq, Eq, Debug)]
pub struct Entry {
    pub name: Vec<u8>,
    pub kind: u32,
    pub bytes: Vec<u8>,
}

impl Entry {
    fn parts(&self) -> (&[u8], u32, &[u8]) {
        (&self.name, self.kind, &self.bytes)
    }
}

/// A file's name, its kind, which is the low four bits of byte 02, and its
/// bytes.
fn parts_of(file: &File) -> (&[u8], u32, &[u8]) {
    (&file.name, u32::from(file.type_byte & 0x0F), &file.bytes)
}

/// The plain list. Order plays no part.
#[derive(Clone, Debug, Default)]
pub struct PlainList {
    pub entries: Vec<Entry>,
}

impl PlainList {
    /// One entry for each file of an accepted image.
    pub fn of(contents: &Contents) -> PlainList {
        let entry = |file: &File| {
            let (name, kind, bytes) = parts_of(file);
            Entry {
                name: name.to_vec(),
                kind,
                bytes: bytes.to_vec(),
            }
        };
        PlainList {
            entries: contents.files.iter().map(entry).collect(),
        }
    }

    /// Feeds a call, its arguments and its answer number.
    pub fn feed(&mut self, call: &Call, number: u32) {
        if number != 0 {
            return;
        }
        match call {
            Call::Format { .. } => self.entries.clear(),
            Call::Store { name, kind, data } => self.entries.push(Entry {
                name: name.clone(),
                kind: *kind,
                bytes: data.clone(),
            }),
            Call::Scratch { name } => {
                // One entry goes; a list with two of that name would show.
                if let Some(at) = self.entries.iter().position(|e| e.name == *name) {
                    self.entries.swap_remove(at);
                }
            }
            _ => {}
        }
    }

    /// Whether the image holds exactly this list, as a multiset.
    pub fn is_held_by(&self, contents: &Contents) -> bool {
        let mut ours: Vec<_> = self.entries.iter().map(Entry::parts).collect();
        let mut theirs: Vec<_> = contents.files.iter().map(parts_of).collect();
        ours.sort();
        theirs.sort();
        ours == theirs
    }

    /// The entry of that name.
    pub fn find(&self, name: &[u8]) -> Option<&Entry> {
        self.entries.iter().find(|entry| entry.name == name)
    }
}

/// Runs all requests from a start image that is accepted in the layout, which
/// they all name, and verifies every clause of `CLAUSES`, for the empty list too. It looks after each call, since each
/// beginning of a list is a list as well. Tell and the listing may stand among
/// the requests; the plain list takes them for any other call.
///
/// Gives the last image, or the clauses broken, and by which request.
pub fn demand3(
    library: &dyn Library,
    layout: u32,
    start: &[u8],
    requests: &[Request],
) -> Result<Vec<u8>, String> {
    let mut image = start.to_vec();
    if requests.iter().any(|request| request.layout != layout) {
        return Err("a request names another layout".to_string());
    }
    let mut run = Run::start(layout, start).ok_or("the start image isn't accepted")?;
    for (at, request) in requests.iter().enumerate() {
        let old = image.clone();
        let Some(reply) = perform(library, &mut image, request) else {
            continue;
        };
        let broken = run.take(request, &reply, &old, &image);
        if !broken.is_empty() {
            let broken = broken.join("; ");
            let (shown, number) = (request.shown(), reply.number);
            return Err(format!("request {at}: {broken}: {shown} gave {number}"));
        }
    }
    Ok(image)
}

/// A run of calls so far.
struct Run {
    list: PlainList,
    /// What the image holds that the next call is given.
    held: Contents,
    /// For each sector, whether some call of the run gave it back.
    given_back: Vec<bool>,
}

impl Run {
    /// No call yet; `None` if the image isn't accepted.
    fn start(layout: u32, image: &[u8]) -> Option<Run> {
        let held = contents(layout, image)?;
        Some(Run {
            list: PlainList::of(&held),
            given_back: vec![false; held.owners.len()],
            held,
        })
    }

    /// Takes in one call that made `image` of `old`; gives the clauses broken.
    fn take(
        &mut self,
        request: &Request,
        reply: &Reply,
        old: &[u8],
        image: &[u8],
    ) -> Vec<&'static str> {
        // What a read owes is measured on the image that the read was given.
        let mut verdicts = vec![
            (
                READ_SECTORS,
                read_sectors_are_right(request, reply, &self.held),
            ),
            (READ_BYTES, read_bytes_are_right(request, reply, &self.list)),
            (REFUSED, refusal_is_clean(request, reply, old == image)),
            (LOOKS_ONLY, writes(&request.call) || old == image),
            (SPARE_BITS, spare_bits_are_right(request, reply, old, image)),
            (OTHER_ENTRIES, others_are_right(request, reply, old, image)),
        ];
        let after = contents(request.layout, image);
        verdicts.push((ACCEPTED, after.is_some()));
        if let Some(after) = after {
            self.list.feed(&request.call, reply.number);
            if reply.number == 0 {
                self.note_given_back(&after);
            }
            self.held = after;
            verdicts.push((PLAIN_LIST, self.list.is_held_by(&self.held)));
            verdicts.push((GIVEN_BACK, self.given_back_is_zero(image)));
        }
        let broken = verdicts.into_iter().filter(|(_, holds)| !holds);
        broken.map(|(clause, _)| clause).collect()
    }

    /// A call answered 0 gives back each sector that had an owner before it
    /// and has none after it.
    fn note_given_back(&mut self, after: &Contents) {
        let owners = self.held.owners.iter().zip(&after.owners);
        for (given, (before, after)) in self.given_back.iter_mut().zip(owners) {
            *given |= *before != Owner::Nobody && *after == Owner::Nobody;
        }
    }

    /// Third clause, for all calls of the run and not for the last alone: a
    /// later call may not dirty what an earlier one gave back.
    fn given_back_is_zero(&self, image: &[u8]) -> bool {
        self.given_back
            .iter()
            .zip(&self.held.owners)
            .zip(image.chunks(256))
            .filter(|((given, owner), _)| **given && **owner == Owner::Nobody)
            .all(|(_, sector)| sector.iter().all(|&byte| byte == 0))
    }
}

/// The name of a read answered 0.
fn name_read<'a>(request: &'a Request, reply: &Reply) -> Option<&'a [u8]> {
    match &request.call {
        Call::Read { name, .. } if reply.number == 0 => Some(name),
        _ => None,
    }
}

/// Fourth clause. The report is the block's last two bytes; the chain is the
/// one that `naive` walked on the image before the read.
fn read_sectors_are_right(request: &Request, reply: &Reply, before: &Contents) -> bool {
    let Some(name) = name_read(request, reply) else {
        return true;
    };
    let file = before.files.iter().find(|file| file.name == name);
    let reported = match reply.block[..] {
        [_, _, _, _, _, _, _, low, high] => usize::from(low) + 256 * usize::from(high),
        _ => return false,
    };
    let most = most_sectors(request.layout);
    file.is_some_and(|file| file.chain.len() == reported) && reported <= most
}

fn read_bytes_are_right(request: &Request, reply: &Reply, list: &PlainList) -> bool {
    let Some(name) = name_read(request, reply) else {
        return true;
    };
    let Some(entry) = list.find(name) else {
        return false;
    };
    let length = entry.bytes.len();
    request.block == 9
        && reply.length() as usize == length
        && reply.out.get(..length) == Some(&entry.bytes[..])
        && reply.out[length..] == lent(reply.out.len())[length..]
}

fn refusal_is_clean(request: &Request, reply: &Reply, same_image: bool) -> bool {
    let refused = reply.number != 0;
    let block_is_right = request.block == 9 || (refused && reply.block == lent(request.block));
    block_is_right && (!refused || (same_image && reply.out == lent(reply.out.len())))
}

/// A refused format leaves them, like any other call.
fn spare_bits_are_right(request: &Request, reply: &Reply, old: &[u8], image: &[u8]) -> bool {
    let after = spare_bits(request.layout, image);
    match request.call {
        Call::Format { .. } if reply.number == 0 => !after.contains(&true),
        _ => after == spare_bits(request.layout, old),
    }
}

fn others_are_right(request: &Request, reply: &Reply, old: &[u8], image: &[u8]) -> bool {
    let after = other_entries(request.layout, image);
    match request.call {
        Call::Format { .. } if reply.number == 0 => after.iter().all(|&byte| byte == 0),
        _ => after == other_entries(request.layout, old),
    }
}

fn writes(call: &Call) -> bool {
    matches!(
        call,
        Call::Format { .. } | Call::Store { .. } | Call::Scratch { .. }
    )
}
