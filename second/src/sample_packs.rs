//! The pack files that examples and random scripts open: small chained packs,
//! lawful and damaged, and a few plain ones.

use crate::chained_pack::{
    CHAINS, DATA_CONDITION, HEADER_BYTES, ID_CONDITION, NEXT, PLACE, RECORD_BYTES, TEXT, TRACK,
};
use crate::drive::{Data, Id, SECTOR};
use crate::plain_pack::{fresh_sector, length, PlainPack};
use crate::random::Random;
use std::io;
use std::path::Path;

pub const PLAIN_PLACE: usize = 264;
/// How many packs `damaged-00.pack` and so on there are.
pub const DAMAGED: u32 = 48;

#[derive(Clone)]
struct Record {
    track: u16,
    place: u8,
    conditions: [u8; 2],
    id: [u8; 5],
    data: Data,
}

fn id(flag: u8, cylinder: u16, head: u8, sector: u8) -> [u8; 5] {
    Id { flag, cylinder, head, sector }.to_bytes()
}

fn good(track: u16, place: u8, id: [u8; 5], byte: u8) -> Record {
    Record { track, place, conditions: [0, 0], id, data: [byte; SECTOR] }
}

/// The bytes of a chained pack; each chain goes by the order of the records.
fn chained(heads: u8, records: &[Record], spare: usize) -> Vec<u8> {
    let mut bytes = vec![0; HEADER_BYTES];
    bytes[..4].copy_from_slice(&TEXT);
    bytes[4] = heads;
    bytes[6..8].copy_from_slice(&(records.len() as u16).to_be_bytes());
    let mut ends: Vec<usize> = (0..CHAINS).map(|chain| 8 + 2 * chain).collect();
    for (index, record) in (1u16..).zip(records) {
        let chain = usize::from(record.track) % CHAINS;
        bytes[ends[chain]..ends[chain] + 2].copy_from_slice(&index.to_be_bytes());
        ends[chain] = bytes.len() + NEXT;
        bytes.extend([0, 0]);
        bytes.extend(record.track.to_be_bytes());
        bytes.push(record.place);
        bytes.extend(record.conditions);
        bytes.extend(record.id);
        bytes.extend(record.data);
    }
    bytes.extend(vec![0xFF; spare * RECORD_BYTES]);
    bytes
}

/// Two sectors of cylinder 0, head 0, and a spare record that nothing may look at.
fn two_sectors() -> Vec<u8> {
    chained(2, &[good(0, 0, id(0, 0, 0, 0), 0x11), good(0, 1, id(0, 0, 0, 5), 0x22)], 1)
}

/// Three heads. Sector 5 of cylinder 0 is moved aside to cylinder 1, place 7,
/// where it lies behind a spoiled ID; its old place carries the flag of a bad sector.
fn moved_aside() -> Vec<u8> {
    let mut spoiled = good(3, 6, id(1, 0, 0, 5), 0x66);
    spoiled.conditions = [1, 0];
    let moved = [good(0, 10, id(2, 1, 0, 5), 0x00), good(3, 7, id(1, 0, 0, 5), 0x55), spoiled];
    chained(3, &moved, 0)
}

/// Sector 5 twice on one track, at places 20 and 40, recorded in the other order.
fn twins() -> Vec<u8> {
    chained(2, &[good(0, 40, id(0, 0, 0, 5), 0x44), good(0, 20, id(0, 0, 0, 5), 0x22)], 0)
}

/// Sector 5 with spoiled data, on a track that is otherwise never recorded.
fn spoiled_data() -> Vec<u8> {
    let mut record = good(0, 5, id(0, 0, 0, 5), 0x77);
    record.conditions = [0, 1];
    chained(2, &[record], 0)
}

/// Where record `index` of a chained pack begins, the first being 1.
fn start(index: usize) -> usize {
    HEADER_BYTES + (index - 1) * RECORD_BYTES
}

fn changed(mut bytes: Vec<u8>, changes: &[(usize, u8)]) -> Vec<u8> {
    for (at, byte) in changes {
        bytes[*at] = *byte;
    }
    bytes
}

fn named(packs: Vec<(&str, Vec<u8>)>) -> Vec<(String, Vec<u8>)> {
    let named = |(name, bytes): (&str, Vec<u8>)| (name.to_string(), bytes);
    packs.into_iter().map(named).collect()
}

/// Chained packs with one thing wrong, made from `two-sectors.pack`.
fn wrong_packs() -> Vec<(String, Vec<u8>)> {
    let base = two_sectors;
    let mut ragged = base();
    ragged.push(0);
    let wrong = vec![
        ("length-short", base()[..HEADER_BYTES - 1].to_vec()),
        ("length-ragged", ragged),
        ("length-count", changed(base(), &[(7, 4)])),
        ("header-text", changed(base(), &[(0, b'5')])),
        ("header-heads", changed(base(), &[(4, 4)])),
        ("header-zero", changed(base(), &[(5, 1)])),
        // Track 606 is the first that two heads and 303 cylinders don't have.
        ("record-track", changed(base(), &[(start(1) + TRACK, 0x02), (start(1) + TRACK + 1, 0x5E)])),
        ("record-place", changed(base(), &[(start(2) + PLACE, 60)])),
        ("record-condition", changed(base(), &[(start(2) + DATA_CONDITION, 2)])),
        ("chain-index", changed(base(), &[(start(2) + NEXT + 1, 3)])),
        ("chain-loop", changed(base(), &[(start(2) + NEXT + 1, 1)])),
        ("chain-wrong", changed(base(), &[(start(2) + TRACK + 1, 1)])),
        ("chain-left-over", changed(base(), &[(start(1) + NEXT + 1, 0)])),
        ("double", changed(base(), &[(start(2) + PLACE, 0)])),
    ];
    named(wrong)
}

/// Two wrong things each, of which the one with the lower number counts.
fn twice_wrong_packs() -> Vec<(String, Vec<u8>)> {
    let base = two_sectors;
    let wrong = vec![
        ("length-and-header", changed(base(), &[(0, b'5'), (7, 4)])),
        ("header-and-record", changed(base(), &[(5, 1), (start(1) + PLACE, 60)])),
        ("record-and-chain", changed(base(), &[(start(1) + NEXT + 1, 3), (start(2) + ID_CONDITION, 2)])),
        ("chain-and-double", changed(base(), &[(start(2) + PLACE, 0), (start(2) + NEXT + 1, 1)])),
    ];
    named(wrong)
}

/// A worn track: sixty places, most good, some spoiled, missing, doubled or moved aside.
fn worn_track(random: &mut Random, heads: u8, cylinder: u16, head: u8) -> Vec<Record> {
    let track = cylinder * u16::from(heads) + u16::from(head);
    let mut records = Vec::new();
    for place in 0..60u8 {
        let sector = fresh_sector(u32::from(place));
        let (flag, cylinder, head, sector) = match random.below(40) {
            0 => (2, 1, 0, sector),
            1 => (1, random.below(3) as u16, head, sector),
            2 => (0, cylinder, head, random.below(60) as u8),
            3 => (random.word() as u8, random.word(), random.word() as u8, random.word() as u8),
            _ => (0, cylinder, head, sector),
        };
        let conditions = [u8::from(random.chance(4)), u8::from(random.chance(6))];
        let mut data = [0; SECTOR];
        data.iter_mut().for_each(|byte| *byte = random.draw() as u8);
        if !random.chance(4) {
            records.push(Record { track, place, conditions, id: id(flag, cylinder, head, sector), data });
        }
    }
    records
}

/// Some worn tracks, two of them in one chain, their records shuffled.
fn worn_chained(heads: u8, seed: u64) -> Vec<u8> {
    let mut random = Random::new(seed);
    let last = heads - 1;
    let tracks = [(0, 0), (0, 1), (1, 0), (2, last), (32, 0), (64, 0), (302, 0), (302, last)];
    let mut records = Vec::new();
    for (cylinder, head) in tracks {
        records.extend(worn_track(&mut random, heads, cylinder, head));
    }
    for index in (1..records.len()).rev() {
        records.swap(index, random.below(index as u32 + 1) as usize);
    }
    chained(heads, &records, 2)
}

/// A plain pack whose first cylinders and last cylinder are worn.
fn worn_plain() -> Vec<u8> {
    let mut bytes = PlainPack::fresh(2).expect("two heads").bytes().to_vec();
    let mut random = Random::new(4962);
    for cylinder in [0, 1, 2, 32, 302] {
        for head in 0..2 {
            for record in worn_track(&mut random, 2, cylinder, head) {
                let at = (usize::from(record.track) * 60 + usize::from(record.place)) * PLAIN_PLACE;
                bytes[at..at + 2].copy_from_slice(&record.conditions);
                bytes[at + 2..at + 7].copy_from_slice(&record.id);
                bytes[at + 8..at + PLAIN_PLACE].copy_from_slice(&record.data);
            }
        }
    }
    bytes
}

/// One random wound in a chained pack of six records.
fn wound(random: &mut Random, bytes: &mut Vec<u8>) {
    let record = start(1 + random.below(6) as usize);
    let small = random.below(9) as u8;
    match random.below(12) {
        0 => bytes.truncate(bytes.len() - 1 - random.below(300) as usize),
        1 => bytes[7] = 5 + small,
        2 => bytes[random.below(4) as usize] ^= 1 << (small % 8),
        3 => bytes[4] = small,
        4 => bytes[5] = small,
        5 => bytes[record + TRACK] = 2,
        6 => bytes[record + TRACK + 1] ^= small,
        7 => bytes[record + PLACE] = 55 + small,
        8 => bytes[record + ID_CONDITION] = small % 4,
        9 => bytes[record + DATA_CONDITION] = small % 4,
        10 => bytes[record + NEXT + 1] = small,
        _ => bytes[8 + 2 * random.below(4) as usize + 1] = small,
    }
}

/// One to three wounds, so that several numbers compete.
fn damaged(seed: u32) -> Vec<u8> {
    let mut random = Random::new(u64::from(seed));
    let records: Vec<Record> = (0..6u8)
        .map(|index| good(u16::from(index % 3), 55 + index % 5, id(0, 0, index % 3, index), index))
        .collect();
    let mut bytes = chained(2, &records, 2);
    if random.chance(30) {
        let (one, two) = (start(1), start(4));
        bytes[two + PLACE] = bytes[one + PLACE];
    }
    for _ in 0..random.below(4) {
        if bytes.len() > start(7) {
            wound(&mut random, &mut bytes);
        }
    }
    bytes
}

pub fn damaged_name(number: u32) -> String {
    format!("damaged-{number:02}")
}

/// All sample packs by name; the names tell which are plain.
fn samples() -> Vec<(String, Vec<u8>)> {
    let mut plain_zero = PlainPack::fresh(2).expect("two heads").bytes().to_vec();
    let mut plain_condition = plain_zero.clone();
    plain_zero[length(2) - PLAIN_PLACE + 7] = 1;
    plain_zero[0] = 2;
    plain_condition[length(2) - PLAIN_PLACE + 1] = 2;
    let mut all = wrong_packs();
    all.extend(twice_wrong_packs());
    all.extend(named(vec![
        ("two-sectors", two_sectors()),
        ("empty", chained(2, &[], 0)),
        ("moved-aside", moved_aside()),
        ("twins", twins()),
        ("spoiled-data", spoiled_data()),
        ("worn-2", worn_chained(2, 2)),
        ("worn-3", worn_chained(3, 3)),
        ("plain-worn", worn_plain()),
        ("plain-length", vec![0; PLAIN_PLACE]),
        ("plain-zero", plain_zero),
        ("plain-condition", plain_condition),
    ]));
    all.extend((0..DAMAGED).map(|number| (damaged_name(number), damaged(number))));
    all
}

/// Writes all sample packs to `FOLDER/packs`, and two small files for storages.
pub fn write_all(folder: &Path) -> io::Result<()> {
    let packs = folder.join("packs");
    std::fs::create_dir_all(&packs)?;
    for (name, bytes) in samples() {
        std::fs::write(packs.join(format!("{name}.pack")), bytes)?;
    }
    let image: Vec<u8> = (0..4096u32).map(|index| (index * 7 + index / 256) as u8).collect();
    std::fs::write(packs.join("image.bin"), &image)?;
    std::fs::write(packs.join("odd.bin"), &image[..5])
}

#[cfg(test)]
mod tests {
    use super::*;
    use crate::chained_pack::ChainedPack;
    use crate::drive::{Drive, Spot};
    use crate::numbers::Number;

    #[test]
    fn the_lawful_samples_open() {
        for bytes in [
            two_sectors(),
            chained(2, &[], 0),
            moved_aside(),
            twins(),
            spoiled_data(),
            worn_chained(2, 2),
            worn_chained(3, 3),
        ] {
            assert!(ChainedPack::open(bytes).is_ok());
        }
        assert!(PlainPack::open(worn_plain()).is_ok());
    }

    #[test]
    fn a_chained_pack_byte_for_byte() {
        let bytes = two_sectors();
        assert_eq!(bytes.len(), 136 + 3 * 268);
        assert_eq!(bytes[..10], [0x34, 0x39, 0x36, 0x32, 2, 0, 0, 2, 0, 1]);
        assert!(bytes[10..136].iter().all(|byte| *byte == 0));
        assert_eq!(bytes[136..149], [0, 2, 0, 0, 0, 0, 0, 0, 0, 0, 0, 0, 0x11]);
        assert_eq!(bytes[404..417], [0, 0, 0, 0, 1, 0, 0, 0, 0, 0, 0, 5, 0x22]);
    }

    #[test]
    fn places_without_a_record_are_spoiled_and_take_no_write() {
        let mut pack = ChainedPack::open(two_sectors()).unwrap();
        let before = pack.bytes().to_vec();
        let spot = Spot { cylinder: 0, head: 0, place: 2 };
        assert!(!pack.label(spot).id_good && !pack.label(spot).data_good);
        assert_eq!(pack.write(spot, &[1; 256]), Err(Number::NoSuchPlace));
        assert_eq!(pack.read(spot), Err(Number::NoSuchPlace));
        assert!(pack.bytes() == before);
    }

    #[test]
    fn a_write_changes_data_and_data_condition_alone() {
        let mut pack = ChainedPack::open(spoiled_data()).unwrap();
        let mut expected = pack.bytes().to_vec();
        expected[136 + 6] = 0;
        expected[136 + 12..136 + 268].fill(0xEE);
        pack.write(Spot { cylinder: 0, head: 0, place: 5 }, &[0xEE; 256]).unwrap();
        assert!(pack.bytes() == expected);
    }

    #[test]
    fn too_many_records_is_a_length() {
        let mut bytes = chained(2, &[], 0);
        bytes.resize(HEADER_BYTES + 65_535 * RECORD_BYTES, 0);
        assert!(ChainedPack::open(bytes.clone()).is_ok());
        bytes.resize(HEADER_BYTES + 65_536 * RECORD_BYTES, 0);
        assert!(ChainedPack::open(bytes).is_err_and(|number| number == Number::Length));
    }
}
