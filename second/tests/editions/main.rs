//! Editions 2 and 3: their files, what they refuse, and the longer range.

#[path = "../common/mod.rs"]
mod common;
mod longer;
mod three;
mod two;

use common::*;
use second::edition::Edition;
use second::file::{write_record, write_trailer};
use second::record::Record;
use second::refusals::Refusal;

/// Numbers that are no edition's.
const NONE: [u8; 5] = [0, 4, 129, 254, 255];

/// Every field another number.
fn odd() -> Record {
    let mut odd = ee([[1, -2, 3], [-4, 5, -6], [7, -8, 9], [-10, 11, -12]], [[-M, M, 0]; 4]);
    odd.flags = 1;
    odd.id = 0x01020304;
    odd.separations = [400, 65_536, 3200];
    odd.tolerance = 80;
    odd.budget = 1_000_000;
    odd
}

/// Leading bytes, then these records, then the trailer, by the writers.
fn file(edition: Edition, leading: usize, records: &[Record]) -> Vec<u8> {
    let at = |n: usize| leading + edition.records_bytes(n as u32);
    let mut bytes = vec![0xA5; at(records.len()) + 16];
    for (n, record) in records.iter().enumerate() {
        write_record(&mut bytes, at(n), edition.number(), record).unwrap();
    }
    write_trailer(&mut bytes, at(records.len()), edition.number(), records.len() as u32).unwrap();
    bytes
}

/// The same of a trailer.
fn trailed(edition: u8, at: usize, count: u32, space: usize) -> u32 {
    let mut bytes = vec![0xFF; space];
    let result = write_trailer(&mut bytes, at, edition, count);
    assert_eq!(bytes == vec![0xFF; space], result.is_err());
    result.map_or_else(Refusal::number, |()| 0)
}
