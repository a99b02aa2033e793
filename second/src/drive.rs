//! What every drive has: heads, cylinders, and sixty places to a track. A place
//! carries an ID and a sector's data; either may be spoiled.

use crate::numbers::Number;

pub const CYLINDERS: u32 = 303;
pub const PLACES: u32 = 60;
pub const SECTOR: usize = 256;

pub type Data = [u8; SECTOR];

#[derive(Clone, Copy, PartialEq, Eq, Debug)]
pub struct Id {
    pub flag: u8,
    pub cylinder: u16,
    pub head: u8,
    pub sector: u8,
}

impl Id {
    pub fn from_bytes(bytes: &[u8]) -> Id {
        Id {
            flag: bytes[0],
            cylinder: u16::from_be_bytes([bytes[1], bytes[2]]),
            head: bytes[3],
            sector: bytes[4],
        }
    }

    pub fn to_bytes(self) -> [u8; 5] {
        let [high, low] = self.cylinder.to_be_bytes();
        [self.flag, high, low, self.head, self.sector]
    }
}

/// A place on a drive, or off it.
#[derive(Clone, Copy, PartialEq, Eq, Debug)]
pub struct Spot {
    pub cylinder: u32,
    pub head: u32,
    pub place: u32,
}

/// What a drive says about a place, its data aside.
#[derive(Clone, Copy, PartialEq, Eq, Debug)]
pub struct Label {
    pub id_good: bool,
    pub data_good: bool,
    pub id: Id,
}

/// The label of a place that is off the drive or was never recorded.
pub const NOTHING: Label =
    Label { id_good: false, data_good: false, id: Id { flag: 0, cylinder: 0, head: 0, sector: 0 } };

pub trait Drive {
    fn heads(&self) -> u32;

    fn label(&self, spot: Spot) -> Label;

    /// The data, spoiled or not, where the ID is good; else 28.
    fn read(&self, spot: Spot) -> Result<Data, Number>;

    /// Replaces the data and makes it good, where the ID is good; else 28.
    fn write(&mut self, spot: Spot, data: &Data) -> Result<(), Number>;

    fn holds(&self, spot: Spot) -> bool {
        spot.cylinder < CYLINDERS && spot.head < self.heads() && spot.place < PLACES
    }
}

/// The number of a track, counted by cylinder and then by head.
pub fn track_number(heads: u32, cylinder: u32, head: u32) -> u32 {
    cylinder * heads + head
}
