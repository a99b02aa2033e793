//! Set-up lines: storages, packs, marks, and lines that are refused or can't be read.

use super::Writer;
use crate::sample_packs::{damaged_name, DAMAGED};

#[derive(Clone, Copy)]
enum StorageKind {
    Full,
    Small,
    Keyed,
    File,
}

#[derive(Clone, Copy)]
enum PackKind {
    AsItIs,
    FreshThree,
    WornTwo,
    WornThree,
    WornPlain,
    Sample,
}

#[derive(Clone, Copy)]
enum Oddity {
    BadSize,
    BadPack,
    BadPlainPack,
    DamagedPack,
    OffDrive,
    NoWord,
    Unreadable,
}

const BAD_PACKS: [&str; 17] = [
    "chained packs/length-short",
    "chained packs/length-ragged",
    "chained packs/length-count",
    "chained packs/header-text",
    "chained packs/header-heads",
    "chained packs/header-zero",
    "chained packs/record-track",
    "chained packs/record-place",
    "chained packs/record-condition",
    "chained packs/chain-index",
    "chained packs/chain-loop",
    "chained packs/chain-wrong",
    "chained packs/chain-left-over",
    "chained packs/double",
    "plain packs/plain-length",
    "plain packs/worn-2",
    "chained packs/plain-length",
];

/// Plain packs are large, so they have an entry of their own.
const BAD_PLAIN_PACKS: [&str; 2] = ["plain packs/plain-zero", "plain packs/plain-condition"];

const BAD_SIZES: [&str; 6] = [
    "storage plain 0",
    "storage plain 7",
    "storage plain 65538",
    "storage keyed",
    "storage file packs/odd.bin",
    "pack fresh 1",
];

const OFF_DRIVE: [&str; 6] = [
    "defect id 303 0 0",
    "defect data 0 3 0",
    "undefect id 0 0 60",
    "fresh 303 1",
    "fresh 5 3",
    "undefect data 302 9 59",
];

const UNREADABLE: [&str; 16] = [
    "step 1",
    "command 7000",
    "command 70000 0",
    "store 0 0",
    "store 0 0 G",
    "storage plain",
    "storage plain -2",
    "pack plain packs/missing.pack",
    "pack chained",
    "device",
    "show words 0 65537",
    "parity 100000",
    "defect id 0 0",
    "readied",
    "step\t",
    "\tready",
];

impl Writer<'_> {
    pub fn set_up(&mut self) {
        if self.random.chance(50) {
            let device = self.random.below(256);
            self.say(format!("device {device:02X}"));
        }
        if self.random.chance(45) {
            self.oddity();
        }
        self.new_storage();
        self.new_pack();
        if self.random.chance(35) {
            self.mark_some();
        }
        if self.random.chance(3) {
            self.fill_marks();
        }
    }

    pub fn new_storage(&mut self) {
        self.marked.clear();
        let kind = self.random.weighted(&[
            (35, StorageKind::Full),
            (20, StorageKind::Small),
            (40, StorageKind::Keyed),
            (5, StorageKind::File),
        ]);
        match kind {
            StorageKind::Full => self.plain_storage(65_536),
            StorageKind::Small => {
                let size = if self.random.chance(6) {
                    2 + self.random.below(60) * 2
                } else {
                    512 + self.random.below(1500) * 2
                };
                self.plain_storage(size);
            }
            StorageKind::Keyed => self.keyed_storage(),
            StorageKind::File => {
                self.say("storage file packs/image.bin");
                (self.size, self.keys) = (4096, Vec::new());
            }
        }
    }

    fn plain_storage(&mut self, size: u32) {
        self.say(format!("storage plain {size}"));
        (self.size, self.keys) = (size, Vec::new());
    }

    fn keyed_storage(&mut self) {
        let blocks = if self.random.chance(10) { 32 } else { 1 + self.random.below(5) };
        let mut keys: Vec<u8> = (0..blocks).map(|_| self.random.below(10) as u8).collect();
        if self.random.chance(60) {
            keys[0] = 0;
        }
        let words: Vec<String> = keys.iter().map(|key| format!("{key:X}")).collect();
        self.say(format!("storage keyed {}", words.join(" ")));
        (self.size, self.keys) = (blocks * 2048, keys.iter().map(|key| key % 8).collect());
    }

    pub fn new_pack(&mut self) {
        let kind = self.random.weighted(&[
            (33, PackKind::AsItIs),
            (1, PackKind::FreshThree),
            (26, PackKind::WornTwo),
            (24, PackKind::WornThree),
            (4, PackKind::WornPlain),
            (12, PackKind::Sample),
        ]);
        match kind {
            PackKind::AsItIs => {}
            PackKind::FreshThree => self.say("pack fresh 3"),
            PackKind::WornTwo => self.say("pack chained packs/worn-2.pack"),
            PackKind::WornThree => self.say("pack chained packs/worn-3.pack"),
            PackKind::WornPlain => self.say("pack plain packs/plain-worn.pack"),
            PackKind::Sample => {
                let name =
                    *self.random.pick(&["two-sectors", "empty", "moved-aside", "twins", "spoiled-data"]);
                self.say(format!("pack chained packs/{name}.pack"));
            }
        }
    }

    /// Marks on the track under the heads and in the storage, some of them lifted again.
    pub fn mark_some(&mut self) {
        for _ in 0..1 + self.random.below(4) {
            let (cylinder, head) =
                if self.random.chance(80) { (0, 0) } else { (self.random.below(3), self.random.below(2)) };
            let place = self.random.below(60);
            let part = *self.random.pick(&["id", "data"]);
            self.say(format!("defect {part} {cylinder} {head} {place}"));
            if self.random.chance(10) {
                self.say(format!("undefect {part} {cylinder} {head} {place}"));
            }
        }
        for _ in 0..self.random.below(4) {
            let address = self.even_address();
            self.say(format!("parity {address:X}"));
            self.marked.push(address);
            if self.random.chance(10) {
                self.say(format!("unparity {address:X}"));
            }
        }
        if self.random.chance(5) {
            let (cylinder, head) = (self.random.below(3), self.random.below(2));
            self.say(format!("fresh {cylinder} {head}"));
        }
    }

    /// Fills one of the layers, so that a mark finds no free entry.
    fn fill_marks(&mut self) {
        if self.random.chance(60) {
            for entry in 0..17 {
                self.say(format!("parity {:X}", entry * 2));
            }
            self.say("unparity 4");
            self.say("parity 22");
            self.say("parity 24");
        } else {
            for place in 0..33 {
                let part = *self.random.pick(&["id", "data"]);
                self.say(format!("defect {part} 302 1 {place}"));
            }
            self.say("undefect id 302 1 7");
            self.say("undefect data 302 1 7");
            self.say("defect id 302 1 40");
            self.say("defect id 302 1 41");
        }
    }

    /// A line that is refused or can't be read, and so leaves the run as it is.
    /// Some damaged packs are lawful, by chance; then a new run begins.
    pub fn oddity(&mut self) {
        let kind = self.random.weighted(&[
            (10, Oddity::BadSize),
            (39, Oddity::BadPack),
            (1, Oddity::BadPlainPack),
            (25, Oddity::DamagedPack),
            (15, Oddity::OffDrive),
            (10, Oddity::NoWord),
            (20, Oddity::Unreadable),
        ]);
        let line = match kind {
            Oddity::BadSize => (*self.random.pick(&BAD_SIZES)).to_string(),
            Oddity::BadPack => format!("pack {}.pack", self.random.pick(&BAD_PACKS)),
            Oddity::BadPlainPack => format!("pack {}.pack", self.random.pick(&BAD_PLAIN_PACKS)),
            Oddity::DamagedPack => {
                format!("pack chained packs/{}.pack", damaged_name(self.random.below(DAMAGED)))
            }
            Oddity::OffDrive => (*self.random.pick(&OFF_DRIVE)).to_string(),
            Oddity::NoWord => {
                let address = *self.random.pick(&[self.size, self.size + 2, 1, 0xF_FFFF]);
                format!("{} {address:X}", self.random.pick(&["parity", "unparity"]))
            }
            Oddity::Unreadable => (*self.random.pick(&UNREADABLE)).to_string(),
        };
        self.say(line);
        if matches!(kind, Oddity::DamagedPack) && self.answered_ok() {
            self.new_pack();
        }
    }
}
