//! Scenes of a script: chains with all that can come between their steps,
//! status commands, and loose calls.

use super::blocks::{Heads, Kind};
use super::Writer;
use crate::control_block::Words;
use crate::drive::Drive;

#[derive(Clone, Copy)]
enum Scene {
    Chain,
    Status,
    Loose,
    SetUp,
}

#[derive(Clone, Copy)]
enum Event {
    StoreIntoBlocks,
    StoreIntoData,
    Unready,
    Ready,
    Halt,
    Reset,
    BusyCommand,
    Prepare,
    ReadId,
    Service,
    Look,
    Oddity,
}

/// A chain is left alone after so many steps.
const MOST_STEPS: usize = 70;
/// Blocks lie this far apart.
const BLOCK_SPACE: u32 = 0x20;

impl Writer<'_> {
    pub fn scene(&mut self) {
        let scene = self.random.weighted(&[
            (70, Scene::Chain),
            (14, Scene::Status),
            (12, Scene::Loose),
            (4, Scene::SetUp),
        ]);
        match scene {
            Scene::Chain => self.chain_scene(),
            Scene::Status => self.status_scene(),
            Scene::Loose => {
                for _ in 0..1 + self.random.below(4) {
                    self.event(&[]);
                }
            }
            Scene::SetUp => match self.random.below(6) {
                0 => self.new_storage(),
                1 => self.new_pack(),
                2 | 3 => self.mark_some(),
                4 => self.save_and_open(),
                _ => self.oddity(),
            },
        }
    }

    /// Ready and enabled, mostly, with no attention left over.
    fn make_ready(&mut self) {
        if !self.machine.card.ready && self.random.chance(93) {
            self.say("ready");
        }
        if !self.machine.card.enabled && self.random.chance(93) {
            self.prepare(true);
        }
        let waiting = self.machine.card.waiting.is_some();
        let lost = waiting && self.random.chance(8);
        if lost {
            self.say("unready");
        }
        if waiting && self.random.chance(93) {
            self.say("service");
        }
        if lost {
            self.say("ready");
            self.say("service");
        }
    }

    fn prepare(&mut self, enable: bool) {
        let noise = if self.random.chance(20) { self.random.word() & 0xFFE0 } else { 0 };
        let level = self.random.below(16) as u16;
        let device = self.device();
        self.say(format!("command 60{device:02X} {:04X}", noise | level << 1 | u16::from(enable)));
    }

    /// Where a chain of some blocks begins: mostly low, now and then at the storage's end.
    fn chain_address(&mut self, blocks: u32) -> u32 {
        let room = blocks * BLOCK_SPACE;
        match self.random.below(25) {
            0 => self.size.saturating_sub(2 * self.random.below(12)).min(0xFFFE),
            1 => self.even_address(),
            _ if self.size > room + 0x100 => self.random.below(0x40) * 4,
            _ => 0,
        }
    }

    fn chain_scene(&mut self) {
        self.make_ready();
        let blocks = 1 + self.random.below(4);
        let base = self.chain_address(blocks);
        let mut heads = Heads { cylinder: self.machine.card.cylinder, head: self.machine.card.head };
        let mut written = Vec::new();
        for index in 0..blocks {
            let at = base + index * BLOCK_SPACE;
            let next = (index + 1 < blocks).then_some(at + BLOCK_SPACE);
            let next = if self.random.chance(1) { Some(base) } else { next };
            let kind = self.kind();
            let words = self.block(kind, &mut heads, next);
            self.store_block(at, &words);
            if kind == Kind::Write {
                self.store_data(words[7], words[6]);
            }
            written.push((at, words));
        }
        self.start(0x70, base);
        self.run_chain(&written);
        self.after_chain();
        // Once more, from where the heads and the data are now.
        while self.random.chance(45) {
            self.make_ready();
            self.start(0x70, base);
            self.run_chain(&written);
            self.after_chain();
        }
    }

    /// Stores the words of a block that are not there yet.
    fn store_block(&mut self, at: u32, words: &Words) {
        for (index, word) in words.iter().enumerate() {
            let address = at + 2 * index as u32;
            if self.machine.storage.read(address, 0) != Ok(*word) {
                self.say(format!("store {address:X} 0 {word:04X}"));
            }
        }
    }

    /// Some words of the data to be written.
    fn store_data(&mut self, address: u16, count: u16) {
        for _ in 0..self.random.below(4) {
            let offset = self.random.below(u32::from(count) / 2 + 1) * 2;
            let at = (u32::from(address) & !1) + offset;
            let (key, word) = (self.key_for(at), self.random.word());
            self.say(format!("store {at:X} {key} {word:04X}"));
        }
    }

    fn start(&mut self, command: u8, at: u32) {
        let device = self.device();
        let at = if self.random.chance(2) { at | 1 } else { at };
        match self.random.below(40) {
            0 => self.say(format!("command {command:02X}{device:02X} {at:04X} bad")),
            1 => self.say(format!("command {command:02X}{:02X} {at:04X}", device ^ 4)),
            _ => {}
        }
        self.say(format!("command {command:02X}{device:02X} {at:04X}"));
    }

    /// Steps until the work is over, with other calls between.
    fn run_chain(&mut self, blocks: &[(u32, Words)]) {
        let mut steps = 0;
        while self.working() && steps < MOST_STEPS {
            if self.random.chance(16) {
                self.event(blocks);
            }
            if !self.machine.card.ready && self.random.chance(40) {
                self.say("ready");
            }
            self.say("step");
            if self.random.chance(6) {
                self.say("show status");
            }
            steps += 1;
        }
    }

    fn after_chain(&mut self) {
        if self.random.chance(12) {
            self.say("step");
        }
        if self.random.chance(30) {
            self.say("show status");
        }
        match self.random.below(20) {
            0 => self.say("halt"),
            1 => self.reset(),
            2 => {}
            _ => self.say("service"),
        }
        if self.random.chance(25) {
            self.look();
        }
    }

    fn status_scene(&mut self) {
        if self.random.chance(80) {
            self.make_ready();
        }
        let at = self.chain_address(1);
        let address = if self.random.chance(15) { (self.size - 2).min(0xFFFE) } else { self.even_address() };
        let key = self.key_for(address);
        let mut count = *self.random.pick(&[2, 4, 6, 8, 8, 8]);
        if self.random.chance(6) {
            count = *self.random.pick(&[0, 1, 3, 10, 0xFFFE]);
        }
        let mut words = [0x2000 | u16::from(key) << 8, 0, 0, 0, 0, 0, count, address as u16];
        if self.random.chance(8) {
            words[self.random.below(8) as usize] ^= 1 << self.random.below(16);
        }
        self.store_block(at, &words);
        self.start(0x7F, at);
        self.run_chain(&[(at, words)]);
        self.after_chain();
        if self.random.chance(50) {
            self.say(format!("show words {address:X} 4"));
        }
    }

    fn reset(&mut self) {
        let (device, word) = (self.device(), self.random.word());
        self.say(format!("command 6F{device:02X} {word:04X}"));
    }

    /// Something that comes between two steps.
    fn event(&mut self, blocks: &[(u32, Words)]) {
        let event = self.random.weighted(&[
            (18, Event::StoreIntoBlocks),
            (18, Event::StoreIntoData),
            (9, Event::Unready),
            (7, Event::Ready),
            (3, Event::Halt),
            (3, Event::Reset),
            (10, Event::BusyCommand),
            (8, Event::Prepare),
            (4, Event::ReadId),
            (6, Event::Service),
            (14, Event::Look),
            (2, Event::Oddity),
        ]);
        match event {
            Event::StoreIntoBlocks => self.store_into_blocks(blocks),
            Event::StoreIntoData => self.store_into_data(blocks),
            Event::Unready => self.say("unready"),
            Event::Ready => self.say("ready"),
            Event::Halt => self.say("halt"),
            Event::Reset => self.reset(),
            Event::BusyCommand => self.any_command(),
            Event::Prepare => {
                let enable = self.random.chance(80);
                self.prepare(enable);
            }
            Event::ReadId => {
                let device = self.device();
                self.say(format!("command 20{device:02X} 0000"));
            }
            Event::Service => self.say("service"),
            Event::Look => self.look(),
            Event::Oddity => self.oddity(),
        }
    }

    /// A lawful change to a block: another count, sector or data address, mostly.
    fn store_into_blocks(&mut self, blocks: &[(u32, Words)]) {
        let Some((at, words)) = blocks.last() else {
            return;
        };
        let word = *self.random.pick(&[4, 6, 6, 7, 7, 1]);
        let value = match word {
            4 => words[4] & 0xFF00 | self.random.below(60) as u16,
            6 => (1 + self.random.below(200) as u16) * 2,
            7 => self.even_address() as u16,
            _ => words[word] ^ 1,
        };
        self.say(format!("store {:X} 0 {value:04X}", at + 2 * word as u32));
    }

    fn store_into_data(&mut self, blocks: &[(u32, Words)]) {
        let address = match blocks.first() {
            Some((_, words)) if self.random.chance(70) => {
                u32::from(words[7] & !1) + self.random.below(300) * 2
            }
            _ => self.even_address(),
        };
        let address = if self.random.chance(4) { address + 1 } else { address };
        // Keys count modulo 8.
        let wrap = if self.random.chance(10) { 8 * self.random.below(32) } else { 0 };
        let (key, word) = (u32::from(self.key_for(address)) + wrap, self.random.word());
        self.say(format!("store {address:X} {key:X} {word:04X}"));
    }

    fn any_command(&mut self) {
        let command = *self.random.pick(&[0x70, 0x70, 0x7F, 0x00, 0x40, 0xF0, 0x20, 0x61, 0x7E]);
        let (device, word) = (self.device(), self.random.below(0x80) * 2);
        let bad = if self.random.chance(8) { " bad" } else { "" };
        self.say(format!("command {command:02X}{device:02X} {word:04X}{bad}"));
    }

    fn look(&mut self) {
        let address = if self.random.chance(80) { self.even_address() } else { self.size.saturating_sub(16) };
        match self.random.below(5) {
            // Twenty words cross a line of sixteen.
            0 => self.say(format!("show words {address:X} 20")),
            1 | 2 => self.say("show status"),
            _ => self.say("show card"),
        }
    }

    fn save_and_open(&mut self) {
        // A plain pack is large: save it seldom.
        let bytes = self.machine.drive.pack.bytes().len();
        if bytes > 1_000_000 && !self.random.chance(5) {
            return self.look();
        }
        self.say("save saved.pack");
        if self.random.chance(60) {
            let kind = if bytes > 1_000_000 { "plain" } else { "chained" };
            self.say(format!("pack {kind} saved.pack"));
        }
    }

    /// What every script ends with.
    pub fn last_look(&mut self) {
        self.say("show card");
        self.say("show status");
        self.say(format!("show words 0 {}", (self.size / 2).min(160)));
        let address = self.even_address();
        self.say(format!("show words {address:X} 96"));
        let (cylinder, head) = (self.machine.card.cylinder, self.machine.card.head);
        self.say(format!("show track {cylinder} {head}"));
        if (cylinder, head) != (0, 0) {
            self.say("show track 0 0");
        }
        if self.random.chance(20) {
            let (cylinder, head) =
                (self.random.below(304), self.random.below(self.machine.drive.heads() + 1));
            self.say(format!("show track {cylinder} {head}"));
        }
        if self.random.chance(20) && self.machine.drive.pack.bytes().len() < 1_000_000 {
            self.say("save last.pack");
        }
        if self.random.chance(2) {
            self.say("show places");
        }
    }
}
