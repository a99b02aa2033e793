//! The device control block (DCB): eight words, checked and taken apart.

use crate::drive::{Id, PLACES};

pub type Words = [u16; 8];

// Word 0, the control word.
const CHAINING: u16 = 0x8000;
const INPUT: u16 = 0x2000;
const MUST_BE_CLEAR: u16 = 0x5800;
const KEY: u16 = 0x0700;
const MODIFIER: u16 = 0x00FF;

// Word 1, the seek control word.
const DOWNWARD: u16 = 0x0800;
const DIFFERENCE: u16 = 0x01FF;

#[derive(Clone, Copy, PartialEq, Eq, Debug)]
pub enum Transfer {
    Read,
    Write,
    Verify,
}

/// A data operation, and how far it has come.
#[derive(Clone, Copy, PartialEq, Eq, Debug)]
pub struct DataJob {
    pub transfer: Transfer,
    pub key: u8,
    /// The ID to search for; its sector rises by one for each sector done.
    pub argument: Id,
    /// Bytes still to be moved or verified.
    pub left: u32,
    /// Where the next word lies. Runs past XFFFE to X10000 and on.
    pub address: u32,
}

#[derive(Clone, Copy, PartialEq, Eq, Debug)]
pub enum Operation {
    Seek { downward: bool, difference: u32, head: u32 },
    Recalibrate,
    Data(DataJob),
}

/// A control block of a Start that passed the check.
#[derive(Clone, Copy, PartialEq, Eq, Debug)]
pub struct Block {
    pub chain: Option<u16>,
    pub operation: Operation,
}

/// A control block of a Start Cycle Steal Status that passed the check.
#[derive(Clone, Copy, PartialEq, Eq, Debug)]
pub struct StatusJob {
    pub key: u8,
    pub words: usize,
    pub address: u32,
}

fn key(words: &Words) -> u8 {
    ((words[0] & KEY) >> 8) as u8
}

fn odd(word: u16) -> bool {
    word % 2 == 1
}

fn argument(words: &Words) -> Id {
    let [_, flag] = words[2].to_be_bytes();
    let [head, sector] = words[4].to_be_bytes();
    Id { flag, cylinder: words[3], head, sector }
}

/// The block, or nothing if it meets the specification check.
pub fn check_start(words: &Words, heads: u32) -> Option<Block> {
    let control = words[0];
    let chaining = control & CHAINING != 0;
    if control & MUST_BE_CLEAR != 0 || (chaining && odd(words[5])) {
        return None;
    }
    let input = control & INPUT != 0;
    let operation = match (control & MODIFIER, input) {
        (0x05, false) => check_seek(words, heads)?,
        (0x07, false) => Operation::Recalibrate,
        (0x09, true) => check_data(words, Transfer::Read)?,
        (0x01, false) => check_data(words, Transfer::Write)?,
        (0x0C, false) => check_data(words, Transfer::Verify)?,
        _ => return None,
    };
    Some(Block { chain: chaining.then_some(words[5]), operation })
}

fn check_seek(words: &Words, heads: u32) -> Option<Operation> {
    let head = u32::from(argument(words).head);
    if words[1] & !(DOWNWARD | DIFFERENCE) != 0 || head >= heads {
        return None;
    }
    Some(Operation::Seek {
        downward: words[1] & DOWNWARD != 0,
        difference: u32::from(words[1] & DIFFERENCE),
        head,
    })
}

fn check_data(words: &Words, transfer: Transfer) -> Option<Operation> {
    let argument = argument(words);
    let (count, address) = (words[6], words[7]);
    let wrong = match transfer {
        Transfer::Verify => count == 0,
        Transfer::Read | Transfer::Write => odd(count) || odd(address),
    };
    if wrong || u32::from(argument.sector) >= PLACES {
        return None;
    }
    let job =
        DataJob { transfer, key: key(words), argument, left: u32::from(count), address: u32::from(address) };
    Some(Operation::Data(job))
}

/// The status block, or nothing if it meets the specification check.
pub fn check_status(words: &Words) -> Option<StatusJob> {
    let (count, address) = (words[6], words[7]);
    if words[0] & !KEY != INPUT || ![2, 4, 6, 8].contains(&count) || odd(address) {
        return None;
    }
    Some(StatusJob { key: key(words), words: usize::from(count) / 2, address: u32::from(address) })
}

#[cfg(test)]
mod tests {
    use super::*;

    /// A lawful block of each operation, named by its control word.
    const LAWFUL: [u16; 5] = [0x0005, 0x0007, 0x2009, 0x0001, 0x000C];

    fn block(control: u16) -> Words {
        [control, 0, 0, 0, 0, 0, 2, 0]
    }

    #[test]
    fn of_all_control_words_just_five_times_sixteen_are_lawful() {
        for control in 0..=0xFFFFu16 {
            let lawful = LAWFUL.contains(&(control & 0x78FF));
            assert_eq!(check_start(&block(control), 2).is_some(), lawful, "control word {control:04X}");
        }
    }

    #[test]
    fn of_all_status_control_words_eight_are_lawful() {
        let lawful: Vec<u16> = (0..=0xFFFFu16).filter(|word| check_status(&block(*word)).is_some()).collect();
        assert_eq!(lawful, [0x2000, 0x2100, 0x2200, 0x2300, 0x2400, 0x2500, 0x2600, 0x2700]);
    }

    #[test]
    fn status_counts() {
        for count in 0..=0xFFFFu16 {
            let words = [0x2000, 0, 0, 0, 0, 0, count, 0];
            assert_eq!(check_status(&words).is_some(), [2, 4, 6, 8].contains(&count));
        }
        assert_eq!(check_status(&[0x2000, 0, 0, 0, 0, 0, 2, 1]), None);
        assert!(check_status(&[0x2000, 1, 1, 1, 1, 1, 2, 2]).is_some());
    }

    #[test]
    fn of_all_seek_control_words_two_times_512_are_lawful() {
        for seek in 0..=0xFFFFu16 {
            let lawful = seek <= 0x01FF || (0x0800..=0x09FF).contains(&seek);
            assert_eq!(check_start(&[5, seek, 0, 0, 0, 0, 0, 0], 2).is_some(), lawful);
        }
    }

    #[test]
    fn a_head_off_the_drive_matters_in_seek_alone() {
        for control in LAWFUL {
            let mut words = block(control);
            words[4] = 0x0200;
            assert_eq!(check_start(&words, 2).is_some(), control != 5);
            assert!(check_start(&words, 3).is_some());
        }
    }

    #[test]
    fn sector_60_matters_in_the_data_operations_alone() {
        for control in LAWFUL {
            let mut words = block(control);
            words[4] = 59;
            assert!(check_start(&words, 2).is_some());
            words[4] = 60;
            assert_eq!(check_start(&words, 2).is_some(), control == 5 || control == 7);
        }
    }

    #[test]
    fn odd_counts_addresses_and_chains() {
        for control in LAWFUL {
            let moves = control == 0x2009 || control == 1;
            let mut words = block(control);
            words[6] = 3;
            assert_eq!(check_start(&words, 2).is_some(), !moves);
            words = block(control);
            words[7] = 3;
            assert_eq!(check_start(&words, 2).is_some(), !moves);
            words = block(control);
            words[5] = 3;
            assert!(check_start(&words, 2).is_some());
            words[0] |= 0x8000;
            assert_eq!(check_start(&words, 2), None);
            words = block(control);
            words[6] = 0;
            assert_eq!(check_start(&words, 2).is_some(), control != 0x000C);
        }
    }
}
