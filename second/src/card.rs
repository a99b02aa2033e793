//! The card: six calls over a drive and a storage.
//!
//! The work is done in steps: the fetch of a control block, a movement of the
//! heads, a sector, the sending of status.

use crate::control_block::{
    check_start, check_status, Block, DataJob, Operation, StatusJob, Transfer, Words,
};
use crate::drive::{Data, Drive, Spot, CYLINDERS, PLACES, SECTOR};
use crate::numbers::Number;
use crate::parity::Parity;

// Command bytes. Every other byte is an unknown command.
const READ_DEVICE_ID: u8 = 0x20;
const PREPARE: u8 = 0x60;
const DEVICE_RESET: u8 = 0x6F;
const START: u8 = 0x70;
const START_CYCLE_STEAL_STATUS: u8 = 0x7F;
const KNOWN: [u8; 5] = [READ_DEVICE_ID, PREPARE, DEVICE_RESET, START, START_CYCLE_STEAL_STATUS];

// Status word 1, why an operation did not end well.
const END_OF_TRACK: u16 = 0x8000;
const NO_RECORD_FOUND: u16 = 0x1000;
const FILE_DATA_CHECK: u16 = 0x0080;
const SEEK_CHECK: u16 = 0x0040;
const NOT_READY: u16 = 0x0001;
/// What an accepted Start clears: all but bits 7, 10 to 13 and 15.
const CLEARED_BY_START: u16 = 0xFEC2;

// Condition codes of interrupts.
const EXCEPTION: u8 = 2;
const DEVICE_END: u8 = 3;
const ATTENTION: u8 = 4;

const LAST_SECTOR: u8 = 59;

/// A waiting interrupt: what the processor gets by service.
#[derive(Clone, Copy, PartialEq, Eq, Debug)]
pub struct Interrupt {
    pub code: u8,
    pub id_word: u16,
}

/// What the next step does, with the address of the control block.
#[derive(Clone, Copy, PartialEq, Eq, Debug)]
pub enum Work {
    Nothing,
    Fetch { at: u16 },
    FetchStatus { at: u16 },
    Operate { at: u16, block: Block },
    SendStatus { at: u16, job: StatusJob },
}

#[derive(Clone, Copy, PartialEq, Eq, Debug)]
pub enum CommandAnswer {
    Accepted { word: u16 },
    Refused(Number),
}

/// What an exception tells besides its number and the control block.
#[derive(Clone, Copy, PartialEq, Eq, Debug)]
pub enum Detail {
    None,
    Word(u32),
    Sector(u8),
}

#[derive(Clone, Copy, PartialEq, Eq, Debug)]
pub enum StepAnswer {
    Done,
    Idle,
    Exception { number: Number, block: u16, detail: Detail },
}

/// Why a step went wrong; `bits` are added to status word 1.
struct Trouble {
    number: Number,
    bits: u16,
    detail: Detail,
}

fn drive_trouble(number: Number, bits: u16, detail: Detail) -> Trouble {
    Trouble { number, bits, detail }
}

fn storage_trouble(number: Number, address: u32) -> Trouble {
    Trouble { number, bits: 0, detail: Detail::Word(address) }
}

fn specification_check() -> Trouble {
    Trouble { number: Number::SpecificationCheck, bits: 0, detail: Detail::None }
}

#[derive(Clone, Debug, PartialEq)]
pub struct Card {
    pub device: u8,
    pub cylinder: u32,
    pub head: u32,
    pub level: u8,
    pub enabled: bool,
    pub ready: bool,
    pub waiting: Option<Interrupt>,
    pub work: Work,
    /// Status word 0: where an operation last fetched or stored a word.
    pub residual_address: u16,
    /// Status word 1: the reasons of exceptions.
    pub reasons: u16,
    /// Status word 2: the sector of the last write that ended.
    pub last_sector: u16,
}

impl Card {
    pub fn new(device: u8) -> Card {
        Card {
            device,
            cylinder: 0,
            head: 0,
            level: 0,
            enabled: false,
            ready: false,
            waiting: None,
            work: Work::Nothing,
            residual_address: 0,
            reasons: 0,
            last_sector: 0,
        }
    }

    pub fn busy(&self) -> bool {
        self.work != Work::Nothing || self.waiting.is_some()
    }

    pub fn status_words(&self) -> [u16; 4] {
        [self.residual_address, self.reasons, self.last_sector, 0]
    }

    // ---- the six calls ----

    /// A command: two words, and whether their parity was good.
    pub fn command(&mut self, words: [u16; 2], parity_good: bool, heads: u32) -> CommandAnswer {
        let [command, device] = words[0].to_be_bytes();
        let known = KNOWN.contains(&command);
        let starts = command == START || command == START_CYCLE_STEAL_STATUS;
        if device != self.device {
            return CommandAnswer::Refused(Number::NotAttached);
        }
        if !parity_good {
            return CommandAnswer::Refused(Number::InterfaceDataCheck);
        }
        if self.busy() && (starts || !known) {
            return CommandAnswer::Refused(Number::Busy);
        }
        if !known {
            return CommandAnswer::Refused(Number::CommandReject);
        }
        CommandAnswer::Accepted { word: self.accept(command, words[1], heads) }
    }

    fn accept(&mut self, command: u8, word: u16, heads: u32) -> u16 {
        match command {
            READ_DEVICE_ID => return if heads == 3 { 0x00CA } else { 0x00AA },
            PREPARE => {
                self.level = (word >> 1 & 0xF) as u8;
                self.enabled = word & 1 == 1;
            }
            DEVICE_RESET => self.reset(),
            START => {
                self.reasons &= !CLEARED_BY_START;
                self.work = Work::Fetch { at: word };
            }
            _ => self.work = Work::FetchStatus { at: word },
        }
        0
    }

    pub fn halt(&mut self) {
        self.reset();
    }

    fn reset(&mut self) {
        self.work = Work::Nothing;
        self.waiting = None;
        self.last_sector = 0;
        self.reasons = if self.ready { 0 } else { self.reasons & NOT_READY };
    }

    pub fn processor_store(
        &self,
        storage: &mut Parity,
        address: u32,
        key: u8,
        word: u16,
    ) -> Result<(), Number> {
        storage.store(address, key % 8, word)
    }

    pub fn readiness(&mut self, ready: bool) {
        let turns_ready = ready && !self.ready;
        self.ready = ready;
        if turns_ready && self.enabled && !self.busy() {
            self.interrupt(ATTENTION, 0);
        }
    }

    pub fn service(&mut self) -> Result<Interrupt, Number> {
        if !self.enabled {
            return Err(Number::NothingWaits);
        }
        self.waiting.take().ok_or(Number::NothingWaits)
    }

    pub fn step(&mut self, drive: &mut dyn Drive, storage: &mut Parity) -> StepAnswer {
        let (block, outcome) = match self.work {
            Work::Nothing => return StepAnswer::Idle,
            Work::Fetch { at } => (at, self.fetch(at, drive.heads(), storage)),
            Work::FetchStatus { at } => (at, fetch_status(at, storage)),
            Work::Operate { at, block } => (at, self.operate(at, block, drive, storage)),
            Work::SendStatus { at, job } => (at, self.send_status(job, storage)),
        };
        match outcome {
            Ok(Work::Nothing) => self.interrupt(DEVICE_END, 0),
            Ok(next) => self.work = next,
            Err(trouble) => {
                self.reasons |= trouble.bits;
                self.interrupt(EXCEPTION, trouble.number.status_byte());
                return StepAnswer::Exception { number: trouble.number, block, detail: trouble.detail };
            }
        }
        StepAnswer::Done
    }

    // ---- the things a step can do; each answers what comes next ----

    /// The work is over and an interrupt waits.
    fn interrupt(&mut self, code: u8, status_byte: u8) {
        self.work = Work::Nothing;
        self.waiting = Some(Interrupt { code, id_word: u16::from_be_bytes([status_byte, self.device]) });
    }

    fn fetch(&mut self, at: u16, heads: u32, storage: &Parity) -> Result<Work, Trouble> {
        let words = fetch_words(at, storage, |address| self.residual_address = address)?;
        let block = check_start(&words, heads).ok_or_else(specification_check)?;
        Ok(Work::Operate { at, block })
    }

    fn operate(
        &mut self,
        at: u16,
        block: Block,
        drive: &mut dyn Drive,
        storage: &mut Parity,
    ) -> Result<Work, Trouble> {
        let rest = match block.operation {
            Operation::Data(job) => self.data_step(job, drive, storage)?,
            movement => {
                self.test_ready()?;
                self.move_heads(movement)?;
                None
            }
        };
        Ok(match (rest, block.chain) {
            (Some(job), _) => Work::Operate { at, block: Block { operation: Operation::Data(job), ..block } },
            (None, Some(next)) => Work::Fetch { at: next },
            (None, None) => Work::Nothing,
        })
    }

    fn test_ready(&self) -> Result<(), Trouble> {
        if self.ready {
            Ok(())
        } else {
            Err(drive_trouble(Number::NotReady, NOT_READY, Detail::None))
        }
    }

    fn move_heads(&mut self, movement: Operation) -> Result<(), Trouble> {
        let (cylinder, head) = match movement {
            Operation::Seek { downward: true, difference, .. } if difference > self.cylinder => (0, 0),
            Operation::Seek { downward: true, difference, head } => (self.cylinder - difference, head),
            Operation::Seek { downward: false, difference, head } => (self.cylinder + difference, head),
            _ => (0, 0),
        };
        if cylinder >= CYLINDERS {
            return Err(drive_trouble(Number::SeekCheck, SEEK_CHECK, Detail::None));
        }
        self.cylinder = cylinder;
        self.head = head;
        Ok(())
    }

    /// One sector, or the whole of an operation with a count of zero.
    /// Answers the rest of the job, or nothing when it has ended well.
    fn data_step(
        &mut self,
        job: DataJob,
        drive: &mut dyn Drive,
        storage: &mut Parity,
    ) -> Result<Option<DataJob>, Trouble> {
        if job.left == 0 {
            self.test_ready()?;
            return Ok(None);
        }
        let sector = job.argument.sector;
        let outcome = self.sector(job, drive, storage);
        if job.transfer == Transfer::Write {
            match outcome {
                Ok(None) => self.last_sector = u16::from(sector) + 1,
                Ok(Some(_)) => {}
                Err(_) => self.last_sector = u16::from(sector),
            }
        }
        outcome
    }

    fn sector(
        &mut self,
        job: DataJob,
        drive: &mut dyn Drive,
        storage: &mut Parity,
    ) -> Result<Option<DataJob>, Trouble> {
        self.test_ready()?;
        let spot = self.search(&job, drive)?;
        let moved = job.left.min(SECTOR as u32);
        match job.transfer {
            Transfer::Read => self.read_sector(&job, moved, found_data(&job, spot, drive)?, storage)?,
            Transfer::Write => {
                let data = self.fetch_data(&job, moved, storage)?;
                drive.write(spot, &data).expect("the search found a good ID");
            }
            Transfer::Verify => drop(found_data(&job, spot, drive)?),
        }
        let mut rest = job;
        rest.left -= moved;
        rest.address += moved;
        rest.argument.sector += 1;
        if rest.left == 0 {
            return Ok(None);
        }
        if job.argument.sector == LAST_SECTOR {
            return Err(drive_trouble(Number::EndOfTrack, END_OF_TRACK, Detail::Sector(LAST_SECTOR)));
        }
        Ok(Some(rest))
    }

    /// The first place from index, under the heads, with a good ID equal to the argument.
    fn search(&self, job: &DataJob, drive: &dyn Drive) -> Result<Spot, Trouble> {
        let mut spoiled_passed = false;
        for place in 0..PLACES {
            let spot = Spot { cylinder: self.cylinder, head: self.head, place };
            let label = drive.label(spot);
            if label.id_good && label.id == job.argument {
                return Ok(spot);
            }
            spoiled_passed |= !label.id_good;
        }
        let bits = if spoiled_passed { NO_RECORD_FOUND | FILE_DATA_CHECK } else { NO_RECORD_FOUND };
        Err(drive_trouble(Number::NoRecordFound, bits, Detail::Sector(job.argument.sector)))
    }

    fn read_sector(
        &mut self,
        job: &DataJob,
        moved: u32,
        data: Data,
        storage: &mut Parity,
    ) -> Result<(), Trouble> {
        for offset in (0..moved).step_by(2) {
            let address = job.address + offset;
            let pair = [data[offset as usize], data[offset as usize + 1]];
            storage
                .store(address, job.key, u16::from_be_bytes(pair))
                .map_err(|number| storage_trouble(number, address))?;
            self.residual_address = address as u16;
        }
        Ok(())
    }

    /// The words of one sector, padded with zeros.
    fn fetch_data(&mut self, job: &DataJob, moved: u32, storage: &Parity) -> Result<Data, Trouble> {
        let mut data = [0; SECTOR];
        for offset in (0..moved).step_by(2) {
            let address = job.address + offset;
            let word = storage.read(address, job.key).map_err(|number| storage_trouble(number, address))?;
            data[offset as usize..offset as usize + 2].copy_from_slice(&word.to_be_bytes());
            self.residual_address = address as u16;
        }
        Ok(data)
    }

    fn send_status(&self, job: StatusJob, storage: &mut Parity) -> Result<Work, Trouble> {
        for (index, word) in self.status_words().into_iter().take(job.words).enumerate() {
            let address = job.address + 2 * index as u32;
            storage.store(address, job.key, word).map_err(|number| storage_trouble(number, address))?;
        }
        Ok(Work::Nothing)
    }
}

/// Found data that is good.
fn found_data(job: &DataJob, spot: Spot, drive: &dyn Drive) -> Result<Data, Trouble> {
    if !drive.label(spot).data_good {
        return Err(drive_trouble(
            Number::FileDataCheck,
            FILE_DATA_CHECK,
            Detail::Sector(job.argument.sector),
        ));
    }
    Ok(drive.read(spot).expect("the search found a good ID"))
}

/// Eight words, read with key 0; `good` hears the address of each one that was read.
fn fetch_words(at: u16, storage: &Parity, mut good: impl FnMut(u16)) -> Result<Words, Trouble> {
    if at % 2 == 1 {
        return Err(specification_check());
    }
    let mut words = [0; 8];
    for (index, word) in words.iter_mut().enumerate() {
        let address = u32::from(at) + 2 * index as u32;
        *word = storage.read(address, 0).map_err(|number| storage_trouble(number, address))?;
        good(address as u16);
    }
    Ok(words)
}

/// The status block's own fetches leave the residual address alone.
fn fetch_status(at: u16, storage: &Parity) -> Result<Work, Trouble> {
    let words = fetch_words(at, storage, |_| {})?;
    let job = check_status(&words).ok_or_else(specification_check)?;
    Ok(Work::SendStatus { at, job })
}
