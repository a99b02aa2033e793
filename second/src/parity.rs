//! The parity layer: up to 16 marked words over a storage. Reading a marked
//! word that the storage allows is a storage data check; storing is untouched.

use crate::numbers::Number;
use crate::storage::Storage;

pub const MOST_MARKS: usize = 16;

#[derive(Clone, Debug, PartialEq)]
pub struct Parity {
    below: Storage,
    marks: Vec<u32>,
}

impl Parity {
    pub fn over(below: Storage) -> Parity {
        Parity { below, marks: Vec::new() }
    }

    pub fn mark(&mut self, address: u32) -> Result<(), Number> {
        if !self.below.has_word(address) {
            return Err(Number::NoSuchPlace);
        }
        if self.marks.contains(&address) {
            return Ok(());
        }
        if self.marks.len() == MOST_MARKS {
            return Err(Number::MarksFull);
        }
        self.marks.push(address);
        Ok(())
    }

    pub fn lift(&mut self, address: u32) -> Result<(), Number> {
        if !self.below.has_word(address) {
            return Err(Number::NoSuchPlace);
        }
        self.marks.retain(|mark| *mark != address);
        Ok(())
    }

    pub fn read(&self, address: u32, key: u8) -> Result<u16, Number> {
        let word = self.below.read(address, key)?;
        if self.marks.contains(&address) {
            return Err(Number::StorageDataCheck);
        }
        Ok(word)
    }

    pub fn store(&mut self, address: u32, key: u8, word: u16) -> Result<(), Number> {
        self.below.store(address, key, word)
    }
}

#[cfg(test)]
mod tests {
    use super::*;

    #[test]
    fn protect_check_below_comes_before_the_mark() {
        let mut parity = Parity::over(Storage::keyed(&[3]).unwrap());
        parity.mark(4).unwrap();
        assert_eq!(parity.read(4, 2), Err(Number::ProtectCheck));
        assert_eq!(parity.read(4, 3), Err(Number::StorageDataCheck));
        assert_eq!(parity.read(4, 0), Err(Number::StorageDataCheck));
        assert_eq!(parity.read(6, 3), Ok(0));
    }

    #[test]
    fn a_store_leaves_the_mark_and_sets_the_word_below() {
        let mut parity = Parity::over(Storage::plain(8).unwrap());
        parity.mark(4).unwrap();
        parity.store(4, 1, 0x1234).unwrap();
        assert_eq!(parity.read(4, 1), Err(Number::StorageDataCheck));
        parity.lift(4).unwrap();
        assert_eq!(parity.read(4, 1), Ok(0x1234));
    }

    #[test]
    fn sixteen_entries_and_a_freed_one_serves_again() {
        let mut parity = Parity::over(Storage::plain(64).unwrap());
        for entry in 0..16 {
            assert_eq!(parity.mark(entry * 2), Ok(()));
        }
        assert_eq!(parity.mark(32), Err(Number::MarksFull));
        assert_eq!(parity.mark(64), Err(Number::NoSuchPlace));
        assert_eq!(parity.mark(30), Ok(()));
        assert_eq!(parity.lift(34), Ok(()));
        assert_eq!(parity.mark(32), Err(Number::MarksFull));
        assert_eq!(parity.lift(0), Ok(()));
        assert_eq!(parity.mark(32), Ok(()));
        assert_eq!(parity.lift(33), Err(Number::NoSuchPlace));
    }
}
