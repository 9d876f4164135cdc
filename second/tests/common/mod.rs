//! Records in few words, for the tests.
#![allow(dead_code)]

use second::edition::Range;
use second::file::{open, record_at, write_record};
use second::gen::generate;
use second::record::{Point, Record, EDGE_EDGE, VERTEX_FACE};
use second::refusals::Refusal;
use second::search::{search, Answer, Corner};
use second::why::{Discarded, Parts, Searched};

/// The number that the sources' records call M.
pub const M: i32 = 1_048_576;
/// The end of edition 3's range.
pub const M3: i32 = 2_097_152;
/// Face T of the berth examples.
pub const T: [Point; 3] = [[-100, -100, 0], [300, -100, 0], [-100, 300, 0]];
/// Face G.
pub const G: [Point; 3] = [[0, 0, 0], [100, 0, 0], [0, 100, 0]];
/// A face of three equal points.
pub const O: [Point; 3] = [[0, 0, 0]; 3];

fn record(kind: u8, start: [Point; 4], end: [Point; 4]) -> Record {
    Record {
        kind,
        flags: 0,
        byte2: 0,
        byte3: 0,
        id: 1,
        separations: [0; 3],
        tolerance: 16,
        budget: 1000,
        cap: 0,
        start,
        end,
    }
}

/// Vertex-face: d 0, tolerance 16, budget 1,000.
pub fn vf(start: [Point; 4], end: [Point; 4]) -> Record {
    record(VERTEX_FACE, start, end)
}

/// Edge-edge: d 0, tolerance 16, budget 1,000.
pub fn ee(start: [Point; 4], end: [Point; 4]) -> Record {
    record(EDGE_EDGE, start, end)
}

/// A point that moves against a still face.
pub fn falls(from: Point, to: Point, face: [Point; 3]) -> Record {
    let [a, b, c] = face;
    vf([from, a, b, c], [to, a, b, c])
}

/// The first case of the berth examples: P, T, tolerance 999.
pub fn first_case() -> Record {
    Record { tolerance: 999, ..falls([0, 0, 1000], [0, 0, -1000], T) }
}

/// Every coordinate times a factor.
pub fn times(factor: i32, points: [Point; 4]) -> [Point; 4] {
    points.map(|point| point.map(|coordinate| factor * coordinate))
}

fn corner(numbers: [u32; 5]) -> Corner {
    let [t, u, v, excess, count] = numbers;
    Corner { t, u, v, excess, count }
}

/// MET with t, u, v, excess, count.
pub fn met(numbers: [u32; 5]) -> Answer {
    Answer::Met(corner(numbers))
}

pub fn spent(numbers: [u32; 5]) -> Answer {
    Answer::Spent(corner(numbers))
}

pub fn room(numbers: [u32; 5]) -> Answer {
    Answer::Room(corner(numbers))
}

pub fn clear(count: u32) -> Answer {
    Answer::Clear { count }
}

/// The answer with 4,096 words, in edition 1 or 2.
pub fn ask(record: Record) -> Answer {
    ask_with(record, 4096)
}

/// The answer with so many words, in edition 1 or 2.
pub fn ask_with(record: Record, words: usize) -> Answer {
    search(&record, Range::SHORTER, words)
}

/// The answer with 4,096 words, in edition 3.
pub fn ask3(record: Record) -> Answer {
    search(&record, Range::LONGER, 4096)
}

/// What writing a record into so many bytes gives; a refused write changes none of them.
pub fn written(edition: u8, record: &Record, space: usize) -> u32 {
    let mut bytes = vec![0xFF; space];
    let result = write_record(&mut bytes, 0, edition, record);
    assert_eq!(bytes == vec![0xFF; space], result.is_err());
    result.map_or_else(Refusal::number, |()| 0)
}

/// A record's answer, and at each of these points the box that rules it out or the refusal.
pub fn check_rows(searched: &Searched, answer: Answer, rows: &[(Parts, &str)]) {
    assert_eq!(searched.answer, answer);
    for (point, said) in rows {
        let is = searched.why(*point).map_or_else(refused, |discarded| row(&discarded));
        assert_eq!(is, *said, "at {point:?}");
    }
}

fn refused(refusal: Refusal) -> String {
    format!("REFUSED {}", refusal.number())
}

fn row(discarded: &Discarded) -> String {
    let [level, kt, ku, kv, t, u, v, axis, side] = discarded.told();
    let (axis, side) = (["x", "y", "z"][axis as usize], ["-", "+"][side as usize]);
    format!("level {level} depths {kt} {ku} {kv} box {t} {u} {v} axis {axis} side {side}")
}

/// The files of a flavour's first seeds.
pub fn files(flavour: &str, seeds: u64) -> Vec<Vec<u8>> {
    (0..seeds).map(|seed| generate(seed, flavour).unwrap()).collect()
}

/// The records of a file, refused ones too, each with its range; none of a refused file.
pub fn ranged(file: &[u8]) -> Vec<(Record, Range)> {
    let count = open(file).map_or(0, |opened| opened.count);
    (0..count).map(|n| record_at(file, n).unwrap()).collect()
}

/// The records alone.
pub fn records(file: &[u8]) -> Vec<Record> {
    ranged(file).into_iter().map(|(record, _)| record).collect()
}
