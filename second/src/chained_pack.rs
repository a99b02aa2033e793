//! The chained pack: a header, 64 first indexes, and records that are chained
//! by next index. The chain of a track is its number modulo 64.

use crate::drive::{track_number, Data, Drive, Id, Label, Spot, CYLINDERS, NOTHING, PLACES, SECTOR};
use crate::numbers::Number;

pub const TEXT: [u8; 4] = *b"4962";
pub const CHAINS: usize = 64;
pub const HEADER_BYTES: usize = 8 + 2 * CHAINS;
pub const RECORD_BYTES: usize = 268;

// Where a record keeps what.
pub const NEXT: usize = 0;
pub const TRACK: usize = 2;
pub const PLACE: usize = 4;
pub const ID_CONDITION: usize = 5;
pub const DATA_CONDITION: usize = 6;
pub const ID: usize = 7;
pub const DATA: usize = 12;

#[derive(Clone)]
pub struct ChainedPack {
    bytes: Vec<u8>,
}

impl ChainedPack {
    /// Each test goes over the whole pack before the next one is made.
    pub fn open(bytes: Vec<u8>) -> Result<ChainedPack, Number> {
        let pack = ChainedPack { bytes };
        pack.check_length()?;
        pack.check_header()?;
        pack.check_records()?;
        pack.check_chains()?;
        pack.check_doubles()?;
        Ok(pack)
    }

    pub fn bytes(&self) -> &[u8] {
        &self.bytes
    }

    fn pair(&self, at: usize) -> usize {
        usize::from(u16::from_be_bytes([self.bytes[at], self.bytes[at + 1]]))
    }

    /// How many records are in use.
    fn used(&self) -> usize {
        self.pair(6)
    }

    fn first(&self, chain: usize) -> usize {
        self.pair(8 + 2 * chain)
    }

    /// Where record `index` begins, the first being 1.
    fn start(index: usize) -> usize {
        HEADER_BYTES + (index - 1) * RECORD_BYTES
    }

    fn record(&self, index: usize) -> &[u8] {
        &self.bytes[Self::start(index)..Self::start(index + 1)]
    }

    fn next(&self, index: usize) -> usize {
        self.pair(Self::start(index) + NEXT)
    }

    fn track(&self, index: usize) -> usize {
        self.pair(Self::start(index) + TRACK)
    }

    fn check_length(&self) -> Result<(), Number> {
        let length = self.bytes.len();
        if length < HEADER_BYTES || !(length - HEADER_BYTES).is_multiple_of(RECORD_BYTES) {
            return Err(Number::Length);
        }
        let records = (length - HEADER_BYTES) / RECORD_BYTES;
        if records > 65_535 || self.used() > records {
            return Err(Number::Length);
        }
        Ok(())
    }

    fn check_header(&self) -> Result<(), Number> {
        let heads = self.bytes[4];
        if self.bytes[..4] != TEXT || !(heads == 2 || heads == 3) || self.bytes[5] != 0 {
            return Err(Number::Header);
        }
        Ok(())
    }

    fn check_records(&self) -> Result<(), Number> {
        let tracks = (CYLINDERS * self.heads()) as usize;
        for index in 1..=self.used() {
            let record = self.record(index);
            let conditions = record[ID_CONDITION] <= 1 && record[DATA_CONDITION] <= 1;
            if self.track(index) >= tracks || u32::from(record[PLACE]) >= PLACES || !conditions {
                return Err(Number::Record);
            }
        }
        Ok(())
    }

    fn check_chains(&self) -> Result<(), Number> {
        let mut reached = vec![false; self.used() + 1];
        for chain in 0..CHAINS {
            let mut index = self.first(chain);
            while index != 0 {
                if index > self.used() || reached[index] || self.track(index) % CHAINS != chain {
                    return Err(Number::Chain);
                }
                reached[index] = true;
                index = self.next(index);
            }
        }
        if reached[1..].contains(&false) {
            return Err(Number::Chain);
        }
        Ok(())
    }

    fn check_doubles(&self) -> Result<(), Number> {
        let tracks = (CYLINDERS * self.heads()) as usize;
        let mut recorded = vec![false; tracks * PLACES as usize];
        for index in 1..=self.used() {
            let place = usize::from(self.record(index)[PLACE]);
            let number = self.track(index) * PLACES as usize + place;
            if recorded[number] {
                return Err(Number::Double);
            }
            recorded[number] = true;
        }
        Ok(())
    }

    /// The record of a place, if it has one.
    fn find(&self, spot: Spot) -> Option<usize> {
        if !self.holds(spot) {
            return None;
        }
        let track = track_number(self.heads(), spot.cylinder, spot.head) as usize;
        let mut index = self.first(track % CHAINS);
        while index != 0 {
            if self.track(index) == track && u32::from(self.record(index)[PLACE]) == spot.place {
                return Some(index);
            }
            index = self.next(index);
        }
        None
    }
}

impl Drive for ChainedPack {
    fn heads(&self) -> u32 {
        u32::from(self.bytes[4])
    }

    fn label(&self, spot: Spot) -> Label {
        let Some(index) = self.find(spot) else {
            return NOTHING;
        };
        let record = self.record(index);
        Label {
            id_good: record[ID_CONDITION] == 0,
            data_good: record[DATA_CONDITION] == 0,
            id: Id::from_bytes(&record[ID..DATA]),
        }
    }

    fn read(&self, spot: Spot) -> Result<Data, Number> {
        let index = self.find(spot).ok_or(Number::NoSuchPlace)?;
        if !self.label(spot).id_good {
            return Err(Number::NoSuchPlace);
        }
        let mut data = [0; SECTOR];
        data.copy_from_slice(&self.record(index)[DATA..]);
        Ok(data)
    }

    fn write(&mut self, spot: Spot, data: &Data) -> Result<(), Number> {
        let index = self.find(spot).ok_or(Number::NoSuchPlace)?;
        if !self.label(spot).id_good {
            return Err(Number::NoSuchPlace);
        }
        let start = Self::start(index);
        self.bytes[start + DATA_CONDITION] = 0;
        self.bytes[start + DATA..start + RECORD_BYTES].copy_from_slice(data);
        Ok(())
    }
}
