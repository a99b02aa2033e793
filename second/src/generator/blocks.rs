//! Control blocks: mostly lawful ones that find what they look for.

use super::Writer;
use crate::control_block::Words;
use crate::drive::{Drive, Id, Spot, CYLINDERS};

#[derive(Clone, Copy, PartialEq)]
pub enum Kind {
    Seek,
    Recalibrate,
    Read,
    Write,
    Verify,
}

/// Where the heads will be when a block of a chain is reached, if all goes well.
#[derive(Clone, Copy)]
pub struct Heads {
    pub cylinder: u32,
    pub head: u32,
}

const CHAINING: u16 = 0x8000;

impl Writer<'_> {
    pub fn kind(&mut self) -> Kind {
        self.random.weighted(&[
            (18, Kind::Seek),
            (6, Kind::Recalibrate),
            (30, Kind::Read),
            (32, Kind::Write),
            (16, Kind::Verify),
        ])
    }

    /// A block of this kind; `next` is the address of the block that follows.
    pub fn block(&mut self, kind: Kind, heads: &mut Heads, next: Option<u32>) -> Words {
        let mut words = match kind {
            Kind::Seek => self.seek_block(heads),
            Kind::Recalibrate => {
                *heads = Heads { cylinder: 0, head: 0 };
                [0x0007, 0, 0, 0, 0, 0, 0, 0]
            }
            _ => self.data_block(kind, *heads),
        };
        if let Some(next) = next {
            words[0] |= CHAINING;
            words[5] = next as u16;
        }
        if self.random.chance(4) {
            let word = self.random.below(8) as usize;
            words[word] ^= 1 << self.random.below(16);
        }
        words
    }

    fn seek_block(&mut self, heads: &mut Heads) -> Words {
        let target = self.seek_target(*heads);
        let (mut downward, mut difference) =
            (target.cylinder < heads.cylinder, target.cylinder.abs_diff(heads.cylinder));
        if self.random.chance(7) {
            // To the edge of the drive or a little past it.
            downward = self.random.chance(40);
            let to_edge = if downward { heads.cylinder } else { 302 - heads.cylinder };
            difference = to_edge + self.random.below(3);
        }
        *heads = match (downward, difference) {
            (true, down) if down > heads.cylinder => Heads { cylinder: 0, head: 0 },
            (true, down) => Heads { cylinder: heads.cylinder - down, head: target.head },
            (false, up) if heads.cylinder + up >= CYLINDERS => *heads,
            (false, up) => Heads { cylinder: heads.cylinder + up, head: target.head },
        };
        let control = difference as u16 & 0x1FF | if downward { 0x0800 } else { 0 };
        [0x0005, control, 0, 0, (target.head << 8) as u16, 0, 0, 0]
    }

    /// Mostly one of the tracks that the worn sample packs have.
    fn seek_target(&mut self, heads: Heads) -> Heads {
        let count = self.machine.drive.heads();
        let last = count - 1;
        let worn = [(0, 0), (0, 1), (1, 0), (2, last), (32, 0), (64, 0), (302, 0), (302, last)];
        let (cylinder, head) = match self.random.below(12) {
            0 => (self.random.below(CYLINDERS), self.random.below(count)),
            1 => (heads.cylinder, self.random.below(count)),
            _ => *self.random.pick(&worn),
        };
        Heads { cylinder, head }
    }

    fn data_block(&mut self, kind: Kind, heads: Heads) -> Words {
        let id = self.argument(heads);
        let count = self.count(kind, id.sector);
        let address = self.data_address(count);
        let modifier = match kind {
            Kind::Read => 0x2009,
            Kind::Write => 0x0001,
            _ => 0x000C,
        };
        let key = self.key_for(address);
        let noise = if self.random.chance(10) { self.random.word() & 0xFF00 } else { 0 };
        [
            modifier | u16::from(key) << 8,
            if self.random.chance(5) { self.random.word() } else { 0 },
            noise | u16::from(id.flag),
            id.cylinder,
            u16::from_be_bytes([id.head, id.sector]),
            0,
            count,
            address as u16,
        ]
    }

    /// An ID to look for: mostly one that is good on the track.
    fn argument(&mut self, heads: Heads) -> Id {
        let wish = if self.random.chance(25) { 50 + self.random.below(10) } else { self.random.below(60) };
        let wish = if self.random.chance(15) { 59 } else { wish };
        for turn in 0..60 {
            let place = (wish + turn) % 60;
            let label = self.machine.drive.label(Spot { cylinder: heads.cylinder, head: heads.head, place });
            if label.id_good && label.id.sector < 60 {
                let mut id = label.id;
                match self.random.below(60) {
                    0 => id.flag ^= 1,
                    1 => id.cylinder ^= 1,
                    2 => id.head ^= 1,
                    3 => id.sector = self.random.below(64) as u8,
                    _ => {}
                }
                return id;
            }
        }
        Id {
            flag: 0,
            cylinder: heads.cylinder as u16,
            head: heads.head as u8,
            sector: self.random.below(60) as u8,
        }
    }

    fn count(&mut self, kind: Kind, sector: u8) -> u16 {
        let to_end = (60 - u32::from(sector.min(59))) * 256;
        let count = match self.random.below(20) {
            0 => 0,
            1 if self.random.chance(50) => 1 + self.random.below(2000) * 2,
            2 => to_end,
            3 => to_end + 2 + self.random.below(600) * 2,
            4..=7 => 256,
            8 => 254,
            9 => 258,
            10..=13 => 258 + self.random.below(400) * 2,
            _ => 2 + self.random.below(30) * 2,
        };
        let odd = kind == Kind::Verify && self.random.chance(30);
        (count.min(0xFFFE) + u32::from(odd)).min(0xFFFF) as u16
    }

    /// Where data goes to or comes from: inside, over the end, or among control blocks.
    fn data_address(&mut self, count: u16) -> u32 {
        if !self.marked.is_empty() && self.random.chance(25) {
            let marked = *self.random.pick(&self.marked);
            return marked.saturating_sub(self.random.below(8) * 2);
        }
        let room = self.size.saturating_sub(u32::from(count)) & !1;
        let address = match self.random.below(20) {
            0 => self.size.saturating_sub(2 + self.random.below(200) * 2),
            1 => self.random.below(64) * 4,
            2 if self.random.chance(40) => self.even_address() + 1,
            3 if self.random.chance(40) => u32::from(self.random.word()) & 0xFFFE,
            _ if room > 0x200 => 0x180 + self.random.below((room - 0x180) / 2) * 2,
            _ => self.random.below(room / 2 + 1) * 2,
        };
        address.min(0xFFFF)
    }

    /// A key that opens the address, mostly.
    pub fn key_for(&mut self, address: u32) -> u8 {
        if self.random.chance(12) {
            return self.random.below(8) as u8;
        }
        match self.keys.get(address as usize / 2048) {
            Some(_) if self.marked.contains(&address) => self.random.below(8) as u8,
            Some(key) if self.random.chance(70) => *key,
            Some(_) => 0,
            None => self.random.below(8) as u8,
        }
    }
}
