//! Random scripts, the same for the same seed. The writer runs each line as it
//! writes it, so that it knows where the heads are, what the track holds and
//! when an operation has ended; the answers come with the script.

mod blocks;
mod scenes;
mod set_up;

use crate::card::Work;
use crate::random::Random;
use crate::script::Machine;
use crate::tally::Tally;
use std::path::Path;

/// Calls and other lines that a script has at least.
const LEAST_LINES: usize = 180;

pub struct Generated {
    pub script: Vec<String>,
    pub answers: Vec<String>,
}

pub struct Writer<'a> {
    random: Random,
    machine: Machine,
    tally: &'a mut Tally,
    script: Vec<String>,
    answers: Vec<String>,
    /// Size of the storage in bytes, and its keys if it is keyed.
    size: u32,
    keys: Vec<u8>,
    /// Words that were marked in the parity layer.
    marked: Vec<u32>,
}

/// The script of a seed. Its pack files are those under `folder/packs`.
pub fn generate(seed: u64, folder: &Path, tally: &mut Tally) -> Generated {
    let mut writer = Writer {
        random: Random::new(seed),
        machine: Machine::new(folder),
        tally,
        script: Vec::new(),
        answers: Vec::new(),
        size: 65_536,
        keys: Vec::new(),
        marked: Vec::new(),
    };
    writer.say(format!("# seed {seed}"));
    writer.set_up();
    while writer.script.len() < LEAST_LINES {
        writer.scene();
    }
    writer.last_look();
    Generated { script: writer.script, answers: writer.answers }
}

impl Writer<'_> {
    fn say(&mut self, line: impl Into<String>) {
        let line = line.into();
        let written = self.dressed(&line);
        let before = self.machine.card.clone();
        let answers = self.machine.line(&written);
        self.tally.count(&line, &answers, &before, &self.machine.card);
        self.answers.extend(answers);
        self.script.push(written);
    }

    /// The same line, now and then with small letters, more spaces or another end.
    fn dressed(&mut self, line: &str) -> String {
        match self.random.below(100) {
            0 => line.to_lowercase(),
            1 => format!("  {} ", line.replace(' ', "  ")),
            2 => format!("{line}\r"),
            _ => line.to_string(),
        }
    }

    fn answered_ok(&self) -> bool {
        self.answers.last().is_some_and(|answer| answer == "ok")
    }

    fn device(&self) -> u8 {
        self.machine.device
    }

    fn working(&self) -> bool {
        self.machine.card.work != Work::Nothing
    }

    /// An even address below the storage's end.
    fn even_address(&mut self) -> u32 {
        self.random.below(self.size / 2) * 2
    }
}
