//! A referee for the disk card: the obvious program for its rules.
//!
//! Data comes from a pack, through the defect layer, under the heads, by the
//! card, through the parity layer, into storage. `script` drives it all by text.
//! `generator` writes random scripts, `comparison` holds another program to ours.

pub mod card;
pub mod chained_pack;
pub mod comparison;
pub mod control_block;
pub mod defects;
pub mod drive;
pub mod generator;
pub mod numbers;
pub mod parity;
pub mod plain_pack;
pub mod random;
pub mod sample_packs;
pub mod script;
pub mod show;
pub mod storage;
pub mod tally;
pub mod words;
