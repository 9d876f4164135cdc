//! An answer as plain numbers, in the order of the answer file's fields.

use crate::search::{Answer, Corner};

/// The words by their numbers, refused records first.
pub const WORDS: [&str; 6] = ["REFUSED", "MET", "CLEAR", "SPENT", "ROOM", "FLOOR"];

/// Id, word, t, u, v, excess, count, refusal number; any numbers, unchecked.
pub type Told = [u32; 8];

/// What is told of the record with this id.
pub fn told_of(id: u32, answer: &Answer) -> Told {
    let mut numbers = [id; 8];
    numbers[1..].copy_from_slice(&told(answer));
    numbers
}

/// Word (0 refused, 1 MET, 2 CLEAR, 3 SPENT, 4 ROOM, 5 FLOOR), t, u, v, excess, count, refusal number; unused ones zero.
pub fn told(answer: &Answer) -> [u32; 7] {
    let at = |word: u32, c: &Corner| [word, c.t, c.u, c.v, c.excess, c.count, 0];
    match answer {
        Answer::Refused(refusal) => [0, 0, 0, 0, 0, 0, refusal.number()],
        Answer::Met(corner) => at(1, corner),
        Answer::Clear { count } => [2, 0, 0, 0, 0, *count, 0],
        Answer::Spent(corner) => at(3, corner),
        Answer::Room(corner) => at(4, corner),
        Answer::Floor(corner) => at(5, corner),
    }
}
