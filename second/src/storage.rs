//! Processor storage: plain, where every word is open, or keyed by blocks.

use crate::numbers::Number;

pub const LARGEST: usize = 65_536;
pub const BLOCK: usize = 2_048;

#[derive(Clone, Debug, PartialEq)]
pub struct Storage {
    words: Vec<u16>,
    /// One key a block of 2,048 bytes; `None` in plain storage.
    keys: Option<Vec<u8>>,
}

impl Storage {
    pub fn plain(size: usize) -> Result<Storage, Number> {
        if !(2..=LARGEST).contains(&size) || !size.is_multiple_of(2) {
            return Err(Number::Length);
        }
        Ok(Storage { words: vec![0; size / 2], keys: None })
    }

    pub fn keyed(keys: &[u8]) -> Result<Storage, Number> {
        let mut storage = Storage::plain(keys.len() * BLOCK)?;
        storage.keys = Some(keys.iter().map(|key| key % 8).collect());
        Ok(storage)
    }

    pub fn from_bytes(bytes: &[u8]) -> Result<Storage, Number> {
        let mut storage = Storage::plain(bytes.len())?;
        for (word, pair) in storage.words.iter_mut().zip(bytes.chunks(2)) {
            *word = u16::from_be_bytes([pair[0], pair[1]]);
        }
        Ok(storage)
    }

    pub fn has_word(&self, address: u32) -> bool {
        address.is_multiple_of(2) && (address as usize) < self.words.len() * 2
    }

    /// Is an access at this address with this key allowed? The same for both directions.
    fn check(&self, address: u32, key: u8) -> Result<(), Number> {
        if !self.has_word(address) {
            return Err(Number::InvalidAddress);
        }
        match &self.keys {
            Some(keys) if key != 0 && keys[address as usize / BLOCK] != key => Err(Number::ProtectCheck),
            _ => Ok(()),
        }
    }

    pub fn read(&self, address: u32, key: u8) -> Result<u16, Number> {
        self.check(address, key)?;
        Ok(self.words[address as usize / 2])
    }

    pub fn store(&mut self, address: u32, key: u8, word: u16) -> Result<(), Number> {
        self.check(address, key)?;
        self.words[address as usize / 2] = word;
        Ok(())
    }
}

#[cfg(test)]
mod tests {
    use super::*;

    #[test]
    fn sizes_are_even_from_2_to_65536() {
        for size in [0, 1, 3, 65_535, 65_537, 65_538] {
            assert_eq!(Storage::plain(size).unwrap_err(), Number::Length);
        }
        assert!(Storage::plain(2).is_ok() && Storage::plain(65_536).is_ok());
        assert_eq!(Storage::keyed(&[]).unwrap_err(), Number::Length);
        assert_eq!(Storage::keyed(&[1; 33]).unwrap_err(), Number::Length);
        assert!(Storage::keyed(&[1; 32]).is_ok());
    }

    #[test]
    fn every_key_against_every_block_key() {
        let storage = Storage::keyed(&[0, 1, 2, 3, 4, 5, 6, 7]).unwrap();
        for block in 0..8u8 {
            for key in 0..8u8 {
                let answer = storage.read(u32::from(block) * 2048 + 2046, key);
                let open = key == 0 || key == block;
                assert_eq!(answer, if open { Ok(0) } else { Err(Number::ProtectCheck) });
            }
        }
    }

    #[test]
    fn keys_count_modulo_eight_and_odd_comes_before_the_key() {
        let mut storage = Storage::keyed(&[0x0B]).unwrap();
        assert_eq!(storage.store(0, 3, 7), Ok(()));
        assert_eq!(storage.store(0, 2, 7), Err(Number::ProtectCheck));
        assert_eq!(storage.store(1, 2, 7), Err(Number::InvalidAddress));
        assert_eq!(storage.store(2048, 2, 7), Err(Number::InvalidAddress));
    }

    #[test]
    fn a_store_sets_one_word_alone() {
        let mut storage = Storage::from_bytes(&[1, 2, 3, 4, 5, 6]).unwrap();
        storage.store(2, 5, 0xABCD).unwrap();
        assert_eq!(storage.read(0, 1), Ok(0x0102));
        assert_eq!(storage.read(2, 2), Ok(0xABCD));
        assert_eq!(storage.read(4, 3), Ok(0x0506));
    }
}
