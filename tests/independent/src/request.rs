//! Calls as data, so that one list of them can be run on two libraries.

use crate::geometry::{IMAGE_BYTES, IMAGE_BYTES_40, TRACK_18_BYTES, TRACK_18_OFFSET};
use crate::host;

/// A library under test: the five host calls, and if it has them in the same
/// form, tell and the sleeve listing.
pub trait Library {
    fn check(&self, layout: u32, image: &[u8], block: &mut [u8]) -> u32;
    fn format(
        &self,
        layout: u32,
        image: &mut [u8],
        name: &[u8],
        id1: u8,
        id2: u8,
        block: &mut [u8],
    ) -> u32;
    fn read(&self, layout: u32, image: &[u8], name: &[u8], out: &mut [u8], block: &mut [u8])
        -> u32;
    fn store(
        &self,
        layout: u32,
        image: &mut [u8],
        name: &[u8],
        kind: u32,
        data: &[u8],
        block: &mut [u8],
    ) -> u32;
    fn scratch(&self, layout: u32, image: &mut [u8], name: &[u8], block: &mut [u8]) -> u32;
    fn tell(
        &self,
        _layout: u32,
        _image: &[u8],
        _position: usize,
        _entry: &mut [u8],
        _block: &mut [u8],
    ) -> Option<u32> {
        None
    }
    fn listing(
        &self,
        _layout: u32,
        _track18: &[u8],
        _text: &mut [u8],
        _block: &mut [u8],
    ) -> Option<u32> {
        None
    }
}

/// This library.
pub struct Independent;

impl Library for Independent {
    fn check(&self, layout: u32, image: &[u8], block: &mut [u8]) -> u32 {
        host::check(layout, image, block)
    }
    fn format(
        &self,
        layout: u32,
        image: &mut [u8],
        name: &[u8],
        id1: u8,
        id2: u8,
        block: &mut [u8],
    ) -> u32 {
        host::format(layout, image, name, id1, id2, block)
    }
    fn read(
        &self,
        layout: u32,
        image: &[u8],
        name: &[u8],
        out: &mut [u8],
        block: &mut [u8],
    ) -> u32 {
        host::read(layout, image, name, out, block)
    }
    fn store(
        &self,
        layout: u32,
        image: &mut [u8],
        name: &[u8],
        kind: u32,
        data: &[u8],
        block: &mut [u8],
    ) -> u32 {
        host::store(layout, image, name, kind, data, block)
    }
    fn scratch(&self, layout: u32, image: &mut [u8], name: &[u8], block: &mut [u8]) -> u32 {
        host::scratch(layout, image, name, block)
    }
    fn tell(
        &self,
        layout: u32,
        image: &[u8],
        position: usize,
        entry: &mut [u8],
        block: &mut [u8],
    ) -> Option<u32> {
        Some(host::tell(layout, image, position, entry, block))
    }
    fn listing(
        &self,
        layout: u32,
        track18: &[u8],
        text: &mut [u8],
        block: &mut [u8],
    ) -> Option<u32> {
        Some(host::listing(layout, track18, text, block))
    }
}

/// One call with its arguments. `room` is the size of the lent output.
#[derive(Clone, PartialEq, Eq, Debug)]
pub enum Call {
    Check,
    Format {
        name: Vec<u8>,
        id1: u8,
        id2: u8,
    },
    Read {
        name: Vec<u8>,
        room: usize,
    },
    Store {
        name: Vec<u8>,
        kind: u32,
        data: Vec<u8>,
    },
    Scratch {
        name: Vec<u8>,
    },
    Tell {
        position: usize,
        room: usize,
    },
    Listing {
        room: usize,
    },
}

impl Call {
    /// The size of the output that the call is lent; 0 if it has none.
    pub fn room(&self) -> usize {
        match *self {
            Call::Read { room, .. } | Call::Tell { room, .. } | Call::Listing { room } => room,
            _ => 0,
        }
    }
}

/// A call, the layout it names, and the size of the answer block lent for it.
#[derive(Clone, PartialEq, Eq, Debug)]
pub struct Request {
    pub layout: u32,
    pub call: Call,
    pub block: usize,
}

impl Request {
    /// A call with a block that is right.
    pub fn of(layout: u32, call: Call) -> Request {
        Request {
            layout,
            call,
            block: 9,
        }
    }

    /// The request in short, for messages: data by its length alone.
    pub fn shown(&self) -> String {
        let call = match &self.call {
            Call::Store { name, kind, data } => {
                let length = data.len();
                format!("Store {{ name: {name:?}, kind: {kind}, data: {length} bytes }}")
            }
            call => format!("{call:?}"),
        };
        let Request { layout, block, .. } = self;
        format!("{call} in layout {layout} with a block of {block}")
    }
}

/// What a call gave back, besides the image.
#[derive(Clone, PartialEq, Eq, Debug)]
pub struct Reply {
    pub number: u32,
    pub block: Vec<u8>,
    pub out: Vec<u8>,
}

/// Lent memory starts with bytes that no call writes by chance all over.
pub fn lent(length: usize) -> Vec<u8> {
    (0..length).map(|i| (i % 251) as u8 ^ 0x5A).collect()
}

impl Reply {
    /// Length and sectors as the block tells them.
    pub fn length(&self) -> u32 {
        u32::from_le_bytes([self.block[3], self.block[4], self.block[5], self.block[6]])
    }
    pub fn sectors(&self) -> u16 {
        u16::from_le_bytes([self.block[7], self.block[8]])
    }
}

/// Runs one request. `None` if the library doesn't offer the call.
pub fn perform(library: &dyn Library, image: &mut [u8], request: &Request) -> Option<Reply> {
    let mut reply = Reply {
        number: 0,
        block: lent(request.block),
        out: lent(request.call.room()),
    };
    let (out, block) = (&mut reply.out, &mut reply.block);
    let layout = request.layout;
    reply.number = match &request.call {
        Call::Check => library.check(layout, image, block),
        Call::Format { name, id1, id2 } => library.format(layout, image, name, *id1, *id2, block),
        Call::Read { name, .. } => library.read(layout, image, name, out, block),
        Call::Store { name, kind, data } => library.store(layout, image, name, *kind, data, block),
        Call::Scratch { name } => library.scratch(layout, image, name, block),
        Call::Tell { position, .. } => library.tell(layout, image, *position, out, block)?,
        Call::Listing { .. } => library.listing(layout, track_18_of(image), out, block)?,
    };
    Some(reply)
}

/// The bytes a listing call is given: track 18 of a whole image of either size,
/// where it is at the same place; of any other, the image itself.
pub fn track_18_of(image: &[u8]) -> &[u8] {
    match image.len() {
        IMAGE_BYTES | IMAGE_BYTES_40 => &image[TRACK_18_OFFSET..TRACK_18_OFFSET + TRACK_18_BYTES],
        _ => image,
    }
}
