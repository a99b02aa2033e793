//! The lines that answer a `show`.

use crate::card::Card;
use crate::drive::{Drive, Label, Spot, CYLINDERS, PLACES};
use crate::parity::Parity;

pub fn card(card: &Card) -> String {
    let waiting = match card.waiting {
        Some(interrupt) => format!("{}:{:04X}", interrupt.code, interrupt.id_word),
        None => "none".to_string(),
    };
    format!(
        "card: device {:02X} at {} {} level {} {} {} {} waiting {waiting}",
        card.device,
        card.cylinder,
        card.head,
        card.level,
        if card.enabled { "enabled" } else { "disabled" },
        if card.ready { "ready" } else { "not-ready" },
        if card.busy() { "busy" } else { "free" },
    )
}

pub fn status(card: &Card) -> String {
    let [word_0, word_1, word_2, word_3] = card.status_words();
    format!("status: {word_0:04X} {word_1:04X} {word_2:04X} {word_3:04X}")
}

pub fn words(storage: &Parity, address: u32, count: u32) -> Vec<String> {
    let shown: Vec<String> = (0..count)
        .map(|index| match storage.read(address + 2 * index, 0) {
            Ok(word) => format!("{word:04X}"),
            Err(_) => "----".to_string(),
        })
        .collect();
    let line = |(index, row): (usize, &[String])| {
        format!("words {:05X}: {}", address as usize + 32 * index, row.join(" "))
    };
    shown.chunks(16).enumerate().map(line).collect()
}

fn condition(good: bool) -> &'static str {
    if good {
        "good"
    } else {
        "spoiled"
    }
}

/// Each byte times its index from 1, summed.
fn weighted_sum(bytes: &[u8]) -> u32 {
    bytes.iter().zip(1u32..).map(|(byte, index)| u32::from(*byte) * index).sum()
}

pub fn track(drive: &dyn Drive, cylinder: u32, head: u32) -> Vec<String> {
    (0..PLACES)
        .map(|place| {
            let spot = Spot { cylinder, head, place };
            let Label { id_good, data_good, id } = drive.label(spot);
            let sum = match drive.read(spot) {
                Ok(data) => format!("{:08X}", weighted_sum(&data)),
                Err(_) => "--------".to_string(),
            };
            format!(
                "place {place:02}: id {} {:02X} {:04X} {:02X} {:02X} data {} {sum}",
                condition(id_good),
                id.flag,
                id.cylinder,
                id.head,
                id.sector,
                condition(data_good),
            )
        })
        .collect()
}

/// One sum over all that the drive tells about all its places.
pub fn places(drive: &dyn Drive) -> String {
    let mut total: u32 = 0;
    let mut number: u32 = 0;
    for cylinder in 0..CYLINDERS {
        for head in 0..drive.heads() {
            for place in 0..PLACES {
                number += 1;
                let sum = place_sum(drive, Spot { cylinder, head, place });
                total = total.wrapping_add(sum.wrapping_mul(number));
            }
        }
    }
    format!("places: {total:08X}")
}

fn place_sum(drive: &dyn Drive, spot: Spot) -> u32 {
    let label = drive.label(spot);
    let mut bytes = [0; 264];
    bytes[0] = u8::from(!label.id_good);
    bytes[1] = u8::from(!label.data_good);
    bytes[2..7].copy_from_slice(&label.id.to_bytes());
    if let Ok(data) = drive.read(spot) {
        bytes[8..].copy_from_slice(&data);
    }
    weighted_sum(&bytes)
}
