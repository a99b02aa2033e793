//! The plain pack: one place after the other, by cylinder and then by head.

use crate::drive::{track_number, Data, Drive, Id, Label, Spot, CYLINDERS, NOTHING, PLACES, SECTOR};
use crate::numbers::Number;
use std::rc::Rc;

const PLACE_BYTES: usize = 264;
const ID_CONDITION: usize = 0;
const DATA_CONDITION: usize = 1;
const ID: usize = 2;
const ZERO: usize = 7;
const DATA: usize = 8;

#[derive(Clone)]
pub struct PlainPack {
    heads: u32,
    /// Shared until the first write, so that opening the same bytes again is quick.
    bytes: Rc<Vec<u8>>,
}

/// The sector carried by a place of a fresh track: even places count from 0, odd ones from 30.
pub fn fresh_sector(place: u32) -> u8 {
    let sector = if place.is_multiple_of(2) { place / 2 } else { 30 + place / 2 };
    sector as u8
}

pub fn length(heads: u32) -> usize {
    (CYLINDERS * heads * PLACES) as usize * PLACE_BYTES
}

impl PlainPack {
    /// A pack with every track fresh.
    pub fn fresh(heads: u32) -> Result<PlainPack, Number> {
        if heads != 2 && heads != 3 {
            return Err(Number::Length);
        }
        let mut pack = PlainPack { heads, bytes: Rc::new(vec![0; length(heads)]) };
        for cylinder in 0..CYLINDERS {
            for head in 0..heads {
                pack.fresh_track(cylinder, head)?;
            }
        }
        Ok(pack)
    }

    pub fn open(bytes: Vec<u8>) -> Result<PlainPack, Number> {
        let heads = match bytes.len() {
            found if found == length(2) => 2,
            found if found == length(3) => 3,
            _ => return Err(Number::Length),
        };
        if bytes.chunks(PLACE_BYTES).any(|place| place[ZERO] != 0) {
            return Err(Number::Header);
        }
        if bytes.chunks(PLACE_BYTES).any(|place| place[ID_CONDITION] > 1 || place[DATA_CONDITION] > 1) {
            return Err(Number::Record);
        }
        Ok(PlainPack { heads, bytes: Rc::new(bytes) })
    }

    pub fn bytes(&self) -> &[u8] {
        &self.bytes
    }

    /// Good IDs with flag zero, in the order of a fresh track, and good zero data.
    pub fn fresh_track(&mut self, cylinder: u32, head: u32) -> Result<(), Number> {
        for place in 0..PLACES {
            let spot = Spot { cylinder, head, place };
            if !self.holds(spot) {
                return Err(Number::NoSuchPlace);
            }
            let id = Id { flag: 0, cylinder: cylinder as u16, head: head as u8, sector: fresh_sector(place) };
            let record = self.place_mut(spot);
            record.fill(0);
            record[ID..ZERO].copy_from_slice(&id.to_bytes());
        }
        Ok(())
    }

    fn start(&self, spot: Spot) -> usize {
        let track = track_number(self.heads, spot.cylinder, spot.head);
        (track * PLACES + spot.place) as usize * PLACE_BYTES
    }

    fn place(&self, spot: Spot) -> &[u8] {
        let start = self.start(spot);
        &self.bytes[start..start + PLACE_BYTES]
    }

    fn place_mut(&mut self, spot: Spot) -> &mut [u8] {
        let start = self.start(spot);
        &mut Rc::make_mut(&mut self.bytes)[start..start + PLACE_BYTES]
    }
}

impl Drive for PlainPack {
    fn heads(&self) -> u32 {
        self.heads
    }

    fn label(&self, spot: Spot) -> Label {
        if !self.holds(spot) {
            return NOTHING;
        }
        let record = self.place(spot);
        Label {
            id_good: record[ID_CONDITION] == 0,
            data_good: record[DATA_CONDITION] == 0,
            id: Id::from_bytes(&record[ID..ZERO]),
        }
    }

    fn read(&self, spot: Spot) -> Result<Data, Number> {
        if !self.label(spot).id_good {
            return Err(Number::NoSuchPlace);
        }
        let mut data = [0; SECTOR];
        data.copy_from_slice(&self.place(spot)[DATA..]);
        Ok(data)
    }

    fn write(&mut self, spot: Spot, data: &Data) -> Result<(), Number> {
        if !self.label(spot).id_good {
            return Err(Number::NoSuchPlace);
        }
        let record = self.place_mut(spot);
        record[DATA_CONDITION] = 0;
        record[DATA..].copy_from_slice(data);
        Ok(())
    }
}

#[cfg(test)]
mod tests {
    use super::*;

    #[test]
    fn a_fresh_track_alternates() {
        let first: Vec<u8> = (0..6).map(fresh_sector).collect();
        assert_eq!(first, [0, 30, 1, 31, 2, 32]);
        assert_eq!((fresh_sector(58), fresh_sector(59)), (29, 59));
    }

    #[test]
    fn lengths_and_layout() {
        assert_eq!((length(2), length(3)), (9_599_040, 14_398_560));
        let pack = PlainPack::fresh(2).unwrap();
        let last = &pack.bytes()[length(2) - 264..length(2) - 256];
        assert_eq!(last, [0, 0, 0, 0x01, 0x2E, 1, 59, 0]);
    }

    #[test]
    fn opening_tests_length_then_zero_then_conditions() {
        let good = PlainPack::fresh(2).unwrap().bytes().to_vec();
        assert!(PlainPack::open(good[1..].to_vec()).is_err_and(|number| number == Number::Length));
        let mut bad = good.clone();
        bad[0] = 2;
        assert!(PlainPack::open(bad.clone()).is_err_and(|number| number == Number::Record));
        bad[length(2) - 264 + 7] = 1;
        assert!(PlainPack::open(bad).is_err_and(|number| number == Number::Header));
        assert!(PlainPack::open(good).is_ok());
    }

    #[test]
    fn spoiled_ids_close_the_data_and_a_write_makes_data_good() {
        let mut bytes = PlainPack::fresh(3).unwrap().bytes().to_vec();
        bytes[0] = 1;
        bytes[265] = 1;
        let mut pack = PlainPack::open(bytes).unwrap();
        let first = Spot { cylinder: 0, head: 0, place: 0 };
        let next = Spot { place: 1, ..first };
        assert_eq!(pack.read(first), Err(Number::NoSuchPlace));
        assert_eq!(pack.write(first, &[1; 256]), Err(Number::NoSuchPlace));
        assert!(!pack.label(next).data_good);
        assert_eq!(pack.read(next), Ok([0; 256]));
        assert_eq!(pack.write(next, &[9; 256]), Ok(()));
        assert!(pack.label(next).data_good);
        assert_eq!(pack.read(next), Ok([9; 256]));
    }
}
