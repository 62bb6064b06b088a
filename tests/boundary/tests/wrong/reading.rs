//! Wrong libraries in check, read, tell and listing.

use super::{file_read, give, is_image, reported_length, slice_of, tracks, wrong, Row};
use boundary::calls::{EntryPoints, Faithful, Slice};
use independent::answer::Answer;
use independent::geometry::TRACK_18_OFFSET;
use independent::host::{block_of, BLOCK_BYTES, ENTRY_BYTES};
use independent::listing::LONGEST;
use independent::naive::{contents, entry_at, File};
use independent::request::track_18_of;
use independent::sound::offset;

pub const WRONG: &[Row] = &[
    ("the last byte is counted", &LastByteCounted, "answer:"),
    ("the link in 18/0 is trusted", &MapLinkTrusted, "number:"),
    ("every image is refused", &AllRefused, "number:"),
    ("a read gives zeros", &ZerosRead, "output:"),
    (
        "the first sector alone is read",
        &FirstSectorAlone,
        "output:",
    ),
    ("a read visits one sector", &OneSectorReported, "answer:"),
    (
        "the sectors are those the length needs",
        &SectorsFromLength,
        "answer:",
    ),
    (
        "a block of the wrong size is written",
        &WrongBlockWritten,
        "answer:",
    ),
    ("a block of ten is taken", &LongBlockTaken, "number:"),
    (
        "a byte is written past the output",
        &PastOutputWritten,
        "after output:",
    ),
    (
        "a byte is written before the output",
        &BeforeOutputWritten,
        "before output:",
    ),
    (
        "a byte is written past the block",
        &PastBlockWritten,
        "after answer:",
    ),
    (
        "a short output gets what fits",
        &ShortOutputFilled,
        "output:",
    ),
    ("the rest of the output is cleared", &RestCleared, "output:"),
    ("a refused read has written", &RefusedReadWrites, "output:"),
    ("the image is written", &ImageWritten, "image:"),
    ("the name is written", &NameWritten, "name:"),
    (
        "a refused check leaves the block",
        &RefusalUnanswered,
        "answer:",
    ),
    (
        "a fault is placed where its link leads",
        &TargetPlaced,
        "answer:",
    ),
    ("the count is not checked", &CountUnchecked, "number:"),
    (
        "the length has its high byte first",
        &LengthHighFirst,
        "answer:",
    ),
    ("a name is cut to 16 bytes", &NameCut, "number:"),
    (
        "a wrong name comes before a wrong size",
        &NameBeforeSize,
        "number:",
    ),
    (
        "a short output comes before a missing name",
        &ShortBeforeMissing,
        "number:",
    ),
    ("a null pointer is refused", &NullRefused, "number:"),
    (
        "a refused tell clears the entry",
        &RefusedTellClears,
        "output:",
    ),
    (
        "tell asks for an entry of exactly 25",
        &LongEntryRefused,
        "number:",
    ),
    ("tell counts empty slots", &EmptySlotsCounted, "number:"),
    ("tell hides the lock", &LockHidden, "output:"),
    ("tell cuts the position to a byte", &PositionCut, "number:"),
    ("tell reports the file's length", &TellReports, "answer:"),
    ("tell leaves the map unchecked", &TellWithoutMap, "number:"),
    ("the listing is in lowercase", &LowercaseListing, "output:"),
    (
        "the listing counts track 18 as room",
        &Track18Counted,
        "output:",
    ),
    (
        "a refused listing has no place",
        &ListingUnplaced,
        "answer:",
    ),
    (
        "a short text comes before a bad slot",
        &ShortTextFirst,
        "number:",
    ),
];

// --- Errors met before, and cheats ----------------------------------------

wrong!(LastByteCounted: read(layout, image, name, out, answer) {
    let number = Faithful.read(layout, image, name, out, answer);
    if number == 0 {
        let file = file_read(layout, image, name);
        let length = file.bytes.len();
        give(answer, Answer::done(length as u32 + 1, file.chain.len() as u16));
        out.bytes_mut()[length..].iter_mut().take(1).for_each(|byte| *byte = 0);
    }
    number
});

wrong!(MapLinkTrusted: check(layout, image, answer) {
    let bytes = image.bytes();
    if is_image(layout, bytes) && bytes[TRACK_18_OFFSET..][..2] != [18, 1] {
        return give(answer, Answer::fault(2, 18, 0, 255));
    }
    Faithful.check(layout, image, answer)
});

wrong!(AllRefused: check(layout, _image, answer) {
    give(answer, Answer::fault(8, 1, 255, 255))
});

wrong!(ZerosRead: read(layout, image, name, out, answer) {
    let number = Faithful.read(layout, image, name, out, answer);
    if number == 0 {
        out.bytes_mut()[..reported_length(answer)].fill(0);
    }
    number
});

wrong!(FirstSectorAlone: read(layout, image, name, out, answer) {
    let number = Faithful.read(layout, image, name, out, answer);
    if number == 0 {
        let length = reported_length(answer);
        out.bytes_mut()[254.min(length)..length].fill(0);
    }
    number
});

wrong!(OneSectorReported: read(layout, image, name, out, answer) {
    let number = Faithful.read(layout, image, name, out, answer);
    if number == 0 {
        give(answer, Answer::done(reported_length(answer) as u32, 1));
    }
    number
});

wrong!(SectorsFromLength: read(layout, image, name, out, answer) {
    let number = Faithful.read(layout, image, name, out, answer);
    if number == 0 {
        let length = reported_length(answer);
        let sectors = length.div_ceil(254).max(1);
        give(answer, Answer::done(length as u32, sectors as u16));
    }
    number
});

// --- The answer block -----------------------------------------------------

wrong!(WrongBlockWritten: check(layout, image, answer) {
    let block = answer.bytes_mut();
    if block.len() != BLOCK_BYTES {
        let refusal = block_of(&Answer::refusal(16));
        block.iter_mut().zip(refusal).for_each(|(to, byte)| *to = byte);
    }
    Faithful.check(layout, image, answer)
});

wrong!(LongBlockTaken: check(layout, image, answer) {
    let len = if answer.len > BLOCK_BYTES { BLOCK_BYTES } else { answer.len };
    Faithful.check(layout, image, Slice { len, ..answer })
});

wrong!(PastBlockWritten: check(layout, image, answer) {
    let number = Faithful.check(layout, image, answer);
    if answer.len == BLOCK_BYTES {
        answer.start.add(BLOCK_BYTES).write(0);
    }
    number
});

wrong!(RefusalUnanswered: check(layout, image, answer) {
    let mut block = answer.bytes().to_vec();
    let number = Faithful.check(layout, image, slice_of(&mut block));
    if number == 0 {
        answer.bytes_mut().copy_from_slice(&block);
    }
    number
});

wrong!(LengthHighFirst: read(layout, image, name, out, answer) {
    let number = Faithful.read(layout, image, name, out, answer);
    if number == 0 {
        answer.bytes_mut()[3..7].reverse();
    }
    number
});

// --- What is written ------------------------------------------------------

wrong!(PastOutputWritten: read(layout, image, name, out, answer) {
    let number = Faithful.read(layout, image, name, out, answer);
    if number == 0 && !out.start.is_null() {
        out.start.add(out.len).write(0);
    }
    number
});

wrong!(BeforeOutputWritten: read(layout, image, name, out, answer) {
    let number = Faithful.read(layout, image, name, out, answer);
    if number == 0 && !out.start.is_null() {
        out.start.sub(1).write(0);
    }
    number
});

wrong!(ShortOutputFilled: read(layout, image, name, out, answer) {
    let number = Faithful.read(layout, image, name, out, answer);
    if number == 16 && answer.len == BLOCK_BYTES {
        let file = file_read(layout, image, name);
        out.bytes_mut().copy_from_slice(&file.bytes[..out.len]);
    }
    number
});

wrong!(RestCleared: read(layout, image, name, out, answer) {
    let number = Faithful.read(layout, image, name, out, answer);
    if number == 0 {
        out.bytes_mut()[reported_length(answer)..].fill(0);
    }
    number
});

wrong!(RefusedReadWrites: read(layout, image, name, out, answer) {
    let number = Faithful.read(layout, image, name, out, answer);
    // As one that copies before it has looked at the map.
    if number == 8 {
        out.bytes_mut().fill(0);
    }
    number
});

wrong!(ImageWritten: read(layout, image, name, out, answer) {
    let number = Faithful.read(layout, image, name, out, answer);
    if number == 0 {
        // An owner's mark that it forgets to take back.
        image.start.write(image.start.read() ^ 1);
    }
    number
});

wrong!(NameWritten: read(layout, image, name, out, answer) {
    let number = Faithful.read(layout, image, name, out, answer);
    if number == 0 {
        name.bytes_mut().reverse();
    }
    number
});

// --- The check ------------------------------------------------------------

wrong!(TargetPlaced: check(layout, image, answer) {
    let number_given = Faithful.check(layout, image, answer);
    if number_given == 3 && answer.bytes()[2] == 255 {
        let sector = answer.bytes()[1];
        let at = offset(18, sector);
        answer.bytes_mut()[1] = image.bytes()[at + 1];
    }
    number_given
});

wrong!(CountUnchecked: check(layout, image, answer) {
    match Faithful.check(layout, image, answer) {
        7 => give(answer, Answer::done(0, 0)),
        number => number,
    }
});

// --- Arguments and their order --------------------------------------------

wrong!(NameCut: read(layout, image, name, out, answer) {
    let len = name.len.min(16);
    Faithful.read(layout, image, Slice { len, ..name }, out, answer)
});

wrong!(NameBeforeSize: read(layout, image, name, out, answer) {
    if name.len == 0 || name.len > 16 {
        return give(answer, Answer::refusal(9));
    }
    Faithful.read(layout, image, name, out, answer)
});

wrong!(ShortBeforeMissing: read(layout, image, name, out, answer) {
    match Faithful.read(layout, image, name, out, answer) {
        13 if out.len == 0 => give(answer, Answer::refusal(16)),
        number => number,
    }
});

wrong!(NullRefused: read(layout, image, name, out, answer) {
    if out.start.is_null() {
        return give(answer, Answer::refusal(16));
    }
    Faithful.read(layout, image, name, out, answer)
});

// --- Tell -----------------------------------------------------------------

wrong!(RefusedTellClears: tell(layout, image, position, entry, answer) {
    let number = Faithful.tell(layout, image, position, entry, answer);
    if number != 0 && answer.len == BLOCK_BYTES {
        entry.bytes_mut().fill(0);
    }
    number
});

wrong!(LongEntryRefused: tell(layout, image, position, entry, answer) {
    match Faithful.tell(layout, image, position, entry, answer) {
        0 if entry.len != ENTRY_BYTES => give(answer, Answer::refusal(16)),
        number => number,
    }
});

wrong!(EmptySlotsCounted: tell(layout, image, position, entry, answer) {
    let held = contents(layout, image.bytes());
    let slot_is = |file: &File| file.slot == position;
    let at = held.and_then(|held| held.files.iter().position(slot_is));
    Faithful.tell(layout, image, at.unwrap_or(usize::MAX), entry, answer)
});

wrong!(LockHidden: tell(layout, image, position, entry, answer) {
    let number = Faithful.tell(layout, image, position, entry, answer);
    if number == 0 {
        entry.bytes_mut()[0] &= 0xBF;
    }
    number
});

wrong!(PositionCut: tell(layout, image, position, entry, answer) {
    Faithful.tell(layout, image, position & 0xFF, entry, answer)
});

wrong!(TellReports: tell(layout, image, position, entry, answer) {
    let number = Faithful.tell(layout, image, position, entry, answer);
    if number == 0 {
        let length = &entry.bytes()[21..25];
        answer.bytes_mut()[3..7].copy_from_slice(length);
    }
    number
});

wrong!(TellWithoutMap: tell(layout, image, position, entry, answer) {
    match Faithful.tell(layout, image, position, entry, answer) {
        8 => give(answer, Answer::refusal(13)),
        number => number,
    }
});

// --- The listing ----------------------------------------------------------

wrong!(LowercaseListing: listing(layout, track18, text, answer) {
    let number = Faithful.listing(layout, track18, text, answer);
    if number == 0 {
        text.bytes_mut()[..reported_length(answer)].make_ascii_lowercase();
    }
    number
});

wrong!(Track18Counted: listing(layout, track18, text, answer) {
    let number = Faithful.listing(layout, track18, text, answer);
    if number == 0 {
        let map = track_18_of(track18.bytes());
        let sum: u16 = tracks(layout).map(|track| u16::from(map[entry_at(layout, track)])).sum();
        let end = reported_length(answer) - 1;
        text.bytes_mut()[end - 4..end].copy_from_slice(format!("{sum:04X}").as_bytes());
    }
    number
});

wrong!(ListingUnplaced: listing(layout, track18, text, answer) {
    match Faithful.listing(layout, track18, text, answer) {
        number @ 2..=6 => give(answer, Answer::refusal(number as u8)),
        number => number,
    }
});

wrong!(ShortTextFirst: listing(layout, track18, text, answer) {
    match Faithful.listing(layout, track18, text, answer) {
        4..=6 if text.len < LONGEST => give(answer, Answer::refusal(16)),
        number => number,
    }
});
