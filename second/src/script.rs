//! The script: one call a line, one or more answer lines each.

use crate::card::{Card, CommandAnswer, Detail, StepAnswer};
use crate::chained_pack::ChainedPack;
use crate::defects::{Defects, Pack, Part};
use crate::drive::{Drive, Spot};
use crate::numbers::Number;
use crate::parity::Parity;
use crate::plain_pack::PlainPack;
use crate::show;
use crate::storage::Storage;
use crate::words::{address, decimal, hex_byte, hex_word, split, unreadable, Unreadable};
use std::cell::OnceCell;
use std::path::{Path, PathBuf};

/// A card with its storage and its drive, driven line by line.
pub struct Machine {
    /// File names of the script are relative to this folder.
    folder: PathBuf,
    line_number: u64,
    pub storage: Parity,
    pub drive: Defects,
    pub device: u8,
    pub card: Card,
}

/// What came of a line that could be read.
enum Answer {
    /// Lines of a call or a show.
    Lines(Vec<String>),
    /// A set-up line: a new run begins if it went well.
    SetUp(Result<(), Number>),
}

type Read<T> = Result<T, Unreadable>;

fn line(text: String) -> Read<Answer> {
    Ok(Answer::Lines(vec![text]))
}

/// A fresh pack of two heads is needed at every start; it is made once a thread.
fn fresh_pack(heads: u32) -> Result<PlainPack, Number> {
    thread_local!(static TWO: OnceCell<PlainPack> = const { OnceCell::new() });
    if heads == 2 {
        return Ok(TWO.with(|two| two.get_or_init(|| PlainPack::fresh(2).expect("two heads")).clone()));
    }
    PlainPack::fresh(heads)
}

fn spot(cylinder: &str, head: &str, place: &str) -> Read<Spot> {
    Ok(Spot { cylinder: decimal(cylinder)?, head: decimal(head)?, place: decimal(place)? })
}

fn part(word: &str) -> Read<Part> {
    match word {
        "id" => Ok(Part::Id),
        "data" => Ok(Part::Data),
        _ => unreadable("a mark is on id or data"),
    }
}

impl Machine {
    pub fn new(folder: &Path) -> Machine {
        Machine {
            folder: folder.to_path_buf(),
            line_number: 0,
            storage: Parity::over(Storage::plain(65_536).expect("a lawful size")),
            drive: Defects::over(Pack::Plain(fresh_pack(2).expect("two heads"))),
            device: 0,
            card: Card::new(0),
        }
    }

    /// Does one line of the script and gives the lines that answer it.
    pub fn line(&mut self, text: &str) -> Vec<String> {
        self.line_number += 1;
        let words = split(text);
        match words.first() {
            None => return Vec::new(),
            Some(first) if first.starts_with('#') => return Vec::new(),
            Some(_) => {}
        }
        match self.read_line(&words) {
            Err(Unreadable(reason)) => vec![format!("? line {}: {reason}", self.line_number)],
            Ok(Answer::Lines(lines)) => lines,
            Ok(Answer::SetUp(Err(number))) => {
                vec![format!("refused {} {}", number.number(), number.word())]
            }
            Ok(Answer::SetUp(Ok(()))) => {
                self.card = Card::new(self.device);
                vec!["ok".to_string()]
            }
        }
    }

    fn read_line(&mut self, words: &[&str]) -> Read<Answer> {
        match words[0] {
            "storage" | "pack" | "device" => self.change_machine(words),
            "parity" | "unparity" | "defect" | "undefect" | "fresh" => self.change_marks(words),
            "show" => self.show(words),
            "save" => self.save(words),
            _ => self.call(words),
        }
    }

    fn change_machine(&mut self, words: &[&str]) -> Read<Answer> {
        match words {
            ["storage", "plain", size] => {
                let size = decimal(size)?;
                Ok(self.use_storage(Storage::plain(size as usize)))
            }
            ["storage", "keyed", keys @ ..] => {
                let keys = keys.iter().map(|key| hex_byte(key)).collect::<Read<Vec<u8>>>()?;
                Ok(self.use_storage(Storage::keyed(&keys)))
            }
            ["storage", "file", name] => {
                let bytes = self.file(name)?;
                Ok(self.use_storage(Storage::from_bytes(&bytes)))
            }
            ["pack", "plain", name] => {
                let bytes = self.file(name)?;
                Ok(self.use_pack(PlainPack::open(bytes).map(Pack::Plain)))
            }
            ["pack", "chained", name] => {
                let bytes = self.file(name)?;
                Ok(self.use_pack(ChainedPack::open(bytes).map(Pack::Chained)))
            }
            ["pack", "fresh", heads] => {
                let heads = decimal(heads)?;
                Ok(self.use_pack(fresh_pack(heads).map(Pack::Plain)))
            }
            ["device", device] => {
                self.device = hex_byte(device)?;
                Ok(Answer::SetUp(Ok(())))
            }
            _ => unreadable("storage, pack or device with other words than theirs"),
        }
    }

    fn change_marks(&mut self, words: &[&str]) -> Read<Answer> {
        let outcome = match words {
            ["parity", at] => self.storage.mark(address(at)?),
            ["unparity", at] => self.storage.lift(address(at)?),
            ["defect", kind, cylinder, head, place] => {
                self.drive.mark(part(kind)?, spot(cylinder, head, place)?)
            }
            ["undefect", kind, cylinder, head, place] => {
                self.drive.lift(part(kind)?, spot(cylinder, head, place)?)
            }
            ["fresh", cylinder, head] => {
                let (cylinder, head) = (decimal(cylinder)?, decimal(head)?);
                match &mut self.drive.pack {
                    Pack::Plain(pack) => pack.fresh_track(cylinder, head),
                    Pack::Chained(_) => return unreadable("a chained pack has no fresh tracks"),
                }
            }
            _ => return unreadable("a mark or fresh track with other words than theirs"),
        };
        Ok(Answer::SetUp(outcome))
    }

    fn use_storage(&mut self, storage: Result<Storage, Number>) -> Answer {
        Answer::SetUp(storage.map(|storage| self.storage = Parity::over(storage)))
    }

    fn use_pack(&mut self, pack: Result<Pack, Number>) -> Answer {
        Answer::SetUp(pack.map(|pack| self.drive = Defects::over(pack)))
    }

    fn file(&self, name: &str) -> Read<Vec<u8>> {
        std::fs::read(self.folder.join(name)).or_else(|error| unreadable(format!("{name}: {error}")))
    }

    fn save(&self, words: &[&str]) -> Read<Answer> {
        let ["save", name] = words else {
            return unreadable("save takes one name");
        };
        match std::fs::write(self.folder.join(name), self.drive.pack.bytes()) {
            Ok(()) => line("ok".to_string()),
            Err(error) => unreadable(format!("{name}: {error}")),
        }
    }

    fn call(&mut self, words: &[&str]) -> Read<Answer> {
        match words {
            ["command", first, second] => self.command(first, second, true),
            ["command", first, second, "bad"] => self.command(first, second, false),
            ["step"] => line(self.step()),
            ["service"] => line(match self.card.service() {
                Ok(interrupt) => format!("service: code {} id {:04X}", interrupt.code, interrupt.id_word),
                Err(number) => format!("service: {}", refused(number)),
            }),
            ["ready"] => {
                self.card.readiness(true);
                line("ready: ok".to_string())
            }
            ["unready"] => {
                self.card.readiness(false);
                line("unready: ok".to_string())
            }
            ["halt"] => {
                self.card.halt();
                line("halt: ok".to_string())
            }
            ["store", at, key, word] => {
                let (at, key, word) = (address(at)?, hex_byte(key)?, hex_word(word)?);
                line(match self.card.processor_store(&mut self.storage, at, key, word) {
                    Ok(()) => "store: ok".to_string(),
                    Err(number) => format!("store: {}", refused(number)),
                })
            }
            _ => unreadable("no such line"),
        }
    }

    fn command(&mut self, first: &str, second: &str, parity_good: bool) -> Read<Answer> {
        let words = [hex_word(first)?, hex_word(second)?];
        line(match self.card.command(words, parity_good, self.drive.heads()) {
            CommandAnswer::Accepted { word } => format!("command: code 7 word {word:04X}"),
            CommandAnswer::Refused(number) => {
                format!("command: {} code {}", refused(number), number.command_code())
            }
        })
    }

    fn step(&mut self) -> String {
        match self.card.step(&mut self.drive, &mut self.storage) {
            StepAnswer::Done => "step: 0".to_string(),
            StepAnswer::Idle => format!("step: {}", refused(Number::Idle)),
            StepAnswer::Exception { number, block, detail } => {
                let detail = match detail {
                    Detail::None => String::new(),
                    Detail::Word(address) => format!(" word {address:05X}"),
                    Detail::Sector(sector) => format!(" sector {sector}"),
                };
                let (number, word, layer) = (number.number(), number.word(), layer(number));
                format!("step: {number} {word} layer {layer} dcb {block:04X}{detail}")
            }
        }
    }

    fn show(&self, words: &[&str]) -> Read<Answer> {
        match words {
            ["show", "card"] => line(show::card(&self.card)),
            ["show", "status"] => line(show::status(&self.card)),
            ["show", "words", at, count] => {
                let (at, count) = (address(at)?, decimal(count)?);
                if count > 65_536 {
                    return unreadable("more than 65536 words");
                }
                Ok(Answer::Lines(show::words(&self.storage, at, count)))
            }
            ["show", "track", cylinder, head] => {
                Ok(Answer::Lines(show::track(&self.drive, decimal(cylinder)?, decimal(head)?)))
            }
            ["show", "places"] => line(show::places(&self.drive)),
            _ => unreadable("no such show"),
        }
    }
}

fn refused(number: Number) -> String {
    format!("refused {} {}", number.number(), number.word())
}

/// Which layer an exception comes from.
fn layer(number: Number) -> &'static str {
    match number {
        Number::SpecificationCheck => "channel",
        Number::StorageDataCheck | Number::InvalidAddress | Number::ProtectCheck => "storage",
        _ => "drive",
    }
}

/// Runs a whole script in a folder and gives all answer lines.
pub fn run(script: &str, folder: &Path) -> Vec<String> {
    let mut machine = Machine::new(folder);
    script.split('\n').flat_map(|text| machine.line(text)).collect()
}
