//! Answer numbers and places (01, Answer numbers; 02, §8).

pub const DONE: u8 = 0;
pub const WRONG_SIZE: u8 = 1;
pub const BAD_LINK: u8 = 2;
pub const ALREADY_OWNED: u8 = 3;
pub const KIND_NOT_CARRIED: u8 = 4;
pub const NAME_ON_DISK: u8 = 5;
pub const NAME_TWICE: u8 = 6;
pub const COUNT_WRONG: u8 = 7;
pub const MAP_WRONG: u8 = 8;
pub const NAME_ASKED: u8 = 9;
pub const KIND_ASKED: u8 = 10;
pub const DOS_VERSION: u8 = 11;
pub const NAME_THERE: u8 = 12;
pub const NOT_THERE: u8 = 13;
pub const DIRECTORY_FULL: u8 = 14;
pub const DISK_FULL: u8 = 15;
pub const NO_ROOM: u8 = 16;
pub const UNKNOWN_LAYOUT: u8 = 17;

/// The value that stands for "no slot" and, in answer 8, for "no sector": only
/// the track's count is wrong (02, §3).
pub const NONE: u8 = 255;

/// Track, sector, slot.
#[derive(Clone, Copy, PartialEq, Eq, Debug)]
pub struct Place {
    pub track: u8,
    pub sector: u8,
    pub slot: u8,
}

/// The place of every answer that names no part of the disk.
pub const NOWHERE: Place = Place {
    track: 0,
    sector: 0,
    slot: NONE,
};

/// What a call reports: number, place, length in bytes, sectors.
#[derive(Clone, Copy, PartialEq, Eq, Debug)]
pub struct Answer {
    pub number: u8,
    pub place: Place,
    pub length: u32,
    pub sectors: u16,
}

impl Answer {
    pub fn done(length: u32, sectors: u16) -> Answer {
        Answer {
            number: DONE,
            place: NOWHERE,
            length,
            sectors,
        }
    }

    /// A refusal without a place; it reports length 0 and 0 sectors.
    pub fn refusal(number: u8) -> Answer {
        Answer::fault(number, 0, 0, NONE)
    }

    /// A refusal at a place.
    pub fn fault(number: u8, track: u8, sector: u8, slot: u8) -> Answer {
        Answer {
            number,
            place: Place {
                track,
                sector,
                slot,
            },
            length: 0,
            sectors: 0,
        }
    }
}
