//! Tracks and sectors of each layout (01, Tracks and sectors; 02, §8).

/// The layouts by their numbers: 35 tracks, SpeedDOS, Dolphin.
pub const LAYOUTS: [u32; 3] = [0, 1, 2];

pub const SECTOR_BYTES: usize = 256;
/// The bytes of an image of 35 tracks, and of one of 40.
pub const IMAGE_BYTES: usize = 174_848;
pub const IMAGE_BYTES_40: usize = 196_608;
/// The most tracks and sectors that a layout has.
pub const MOST_TRACKS: u8 = 40;
pub const MOST_SECTORS: usize = 768;

/// The track of the block availability map and of the directory.
pub const DIRECTORY_TRACK: u8 = 18;
/// Number of 18/0, the map's sector.
pub const MAP_NUMBER: usize = 357;
/// Sectors of track 18, and its 4,864 bytes.
pub const TRACK_18_SECTORS: usize = 19;
pub const TRACK_18_BYTES: usize = TRACK_18_SECTORS * SECTOR_BYTES;
/// Where track 18 starts in the image.
pub const TRACK_18_OFFSET: usize = MAP_NUMBER * SECTOR_BYTES;

/// The last track whose map entry stands at four times its number.
const LAST_OF_35: u8 = 35;

/// Each track's sectors and its first sector number; track 1 comes first.
const TABLE: [(u8, u16); MOST_TRACKS as usize] = [
    (21, 0),
    (21, 21),
    (21, 42),
    (21, 63),
    (21, 84),
    (21, 105),
    (21, 126),
    (21, 147),
    (21, 168),
    (21, 189),
    (21, 210),
    (21, 231),
    (21, 252),
    (21, 273),
    (21, 294),
    (21, 315),
    (21, 336),
    (19, 357),
    (19, 376),
    (19, 395),
    (19, 414),
    (19, 433),
    (19, 452),
    (19, 471),
    (18, 490),
    (18, 508),
    (18, 526),
    (18, 544),
    (18, 562),
    (18, 580),
    (17, 598),
    (17, 615),
    (17, 632),
    (17, 649),
    (17, 666),
    (17, 683),
    (17, 700),
    (17, 717),
    (17, 734),
    (17, 751),
];

/// What a layout fixes: how many of the table's tracks a disk has, and where
/// the map entries of tracks 36 to 40 stand in 18/0.
#[derive(Clone, Copy, PartialEq, Eq, Debug)]
pub struct Geometry {
    pub tracks: u8,
    pub sectors: usize,
    extra_entries: usize,
}

impl Geometry {
    /// The geometry of a layout, or `None` for a number that is none.
    pub fn of(layout: u32) -> Option<Geometry> {
        let (tracks, sectors, extra_entries) = match layout {
            0 => (35, 683, 0),
            1 => (40, 768, 0xC0),
            2 => (40, 768, 0xAC),
            _ => return None,
        };
        Some(Geometry {
            tracks,
            sectors,
            extra_entries,
        })
    }

    /// The size of an image.
    pub fn image_bytes(&self) -> usize {
        self.sectors * SECTOR_BYTES
    }

    /// The track's sectors and its first sector number.
    fn row(&self, track: u8) -> Option<&(u8, u16)> {
        TABLE[..usize::from(self.tracks)].get(usize::from(track).wrapping_sub(1))
    }

    /// How many sectors a track has; 0 for a track that is off the disk.
    pub fn sectors_on(&self, track: u8) -> u8 {
        self.row(track).map_or(0, |&(sectors, _)| sectors)
    }

    /// The number of the sector at track/sector, or `None` off the disk.
    pub fn number(&self, track: u8, sector: u8) -> Option<usize> {
        match self.row(track) {
            Some(&(sectors, first)) if sector < sectors => {
                Some(usize::from(first) + usize::from(sector))
            }
            _ => None,
        }
    }

    /// Where the map entry of a track on the disk stands in 18/0.
    pub fn entry_at(&self, track: u8) -> usize {
        match track {
            0..=LAST_OF_35 => 4 * usize::from(track),
            _ => self.extra_entries + 4 * usize::from(track - LAST_OF_35 - 1),
        }
    }

    /// The tracks in the order in which store takes sectors: 17 down to 1, then
    /// 19 up to the last (01, What the calls do, Store).
    pub fn house_tracks(&self) -> impl Iterator<Item = u8> {
        (1..DIRECTORY_TRACK)
            .rev()
            .chain(DIRECTORY_TRACK + 1..=self.tracks)
    }
}

/// Number of the sector 18/`sector`; only sectors 0 to 18 are asked for.
pub fn on_track_18(sector: u8) -> usize {
    MAP_NUMBER + usize::from(sector) % TRACK_18_SECTORS
}
