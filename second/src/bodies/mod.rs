//! Two bodies of triangles: every pair is asked its fifteen queries, one after the other.

pub mod bounds;
pub mod replacing;

use crate::edition::{Edition, Range};
use crate::record::{Point, Record, EDGE_EDGE, VERTEX_FACE};
use crate::refusals::{check_record, check_words, Refusal};
use crate::search::{search, Answer, Corner};
use crate::told::told as told_of_query;

/// The most triangles of a body.
pub const MOST_TRIANGLES: usize = 256;
/// Numbers of a triangle at one moment: x, y, z of corners 1, 2, 3.
pub const NUMBERS: usize = 9;
/// Queries of a pair of triangles.
pub const QUERIES: u32 = 15;

/// A body as it is handed over; nothing here is checked.
#[derive(Clone, Copy, Debug, PartialEq, Eq)]
pub struct Body<'a> {
    /// How many triangles it is said to have.
    pub count: usize,
    /// Positions at t = 0, triangle after triangle.
    pub start: &'a [i32],
    /// Positions at t = 1.
    pub end: &'a [i32],
}

/// Two bodies and the numbers that all their queries share.
#[derive(Clone, Copy, Debug, PartialEq, Eq)]
pub struct Bodies<'a> {
    /// Whose range the queries have; any number, of which some are no edition's.
    pub edition: u8,
    pub a: Body<'a>,
    pub b: Body<'a>,
    /// On x, y, z.
    pub separations: [u32; 3],
    pub tolerance: u32,
    pub budget: u32,
}

/// A triangle's corners at the start and at the end.
pub type Triangle = [[Point; 3]; 2];

/// One query of the walk, and where it stands in it.
#[derive(Clone, Copy, Debug, PartialEq, Eq)]
pub struct Asked {
    /// Triangles of A and of B, from 0.
    pub a: u32,
    pub b: u32,
    /// From 1.
    pub query: u32,
    pub record: Record,
}

/// The least time, and the first pair and query that has it.
#[derive(Clone, Copy, Debug, PartialEq, Eq)]
pub struct Least {
    /// 1 MET, 3 SPENT, 4 ROOM, 5 FLOOR.
    pub word: u32,
    pub t: u32,
    pub a: u32,
    pub b: u32,
    pub query: u32,
    pub excess: u32,
    /// Of all queries asked.
    pub count: u64,
}

#[derive(Clone, Copy, Debug, PartialEq, Eq)]
pub enum BodiesAnswer {
    Clear { count: u64 },
    Least(Least),
    Refused(Refusal),
}

/// The answer to two bodies with a queue of so many words.
pub fn answer(bodies: &Bodies, words: usize) -> BodiesAnswer {
    match refusal(bodies, words) {
        Some(refusal) => BodiesAnswer::Refused(refusal),
        None => walk(bodies.queries(), |record| search(record, Range::of(bodies.edition), words)),
    }
}

/// 10, else 21, else the number of the first query in order that is refused.
pub fn refusal(bodies: &Bodies, words: usize) -> Option<Refusal> {
    let range = match Edition::of(bodies.edition) {
        Ok(edition) => edition.range(),
        Err(refusal) => return Some(refusal),
    };
    if !bodies.a.has_its_positions() || !bodies.b.has_its_positions() {
        return Some(Refusal::Body);
    }
    let of_query =
        |record: &Record| check_record(record, range).and_then(|()| check_words(words)).err();
    bodies.queries().find_map(|asked| of_query(&asked.record))
}

/// Asks one query after the other up to the least time so far, and keeps that time and the sum of counts; a time of 0 ends the walk.
pub fn walk(
    queries: impl Iterator<Item = Asked>,
    mut ask: impl FnMut(&Record) -> Answer,
) -> BodiesAnswer {
    let mut sum: u64 = 0;
    let mut least: Option<Least> = None;
    for asked in queries {
        // No time so far is no cap.
        let cap = least.map_or(0, |least| least.t);
        let answer = ask(&Record { cap, ..asked.record });
        sum += u64::from(answer.count());
        let Some(corner) = answer.corner() else { continue };
        // An equal time later on changes nothing.
        if least.is_none_or(|least| corner.t < least.t) {
            least = Some(Least::of(&asked, &answer, corner));
        }
        if corner.t == 0 {
            break;
        }
    }
    match least {
        Some(least) => BodiesAnswer::Least(Least { count: sum, ..least }),
        None => BodiesAnswer::Clear { count: sum },
    }
}

/// Word, t, triangle of A, triangle of B, query, excess, the sum's low 32 bits, its high 32 bits; or the refusal.
pub fn told(answer: &BodiesAnswer) -> Result<[u32; 8], Refusal> {
    let halves = |sum: u64| [sum as u32, (sum >> 32) as u32];
    match *answer {
        BodiesAnswer::Refused(refusal) => Err(refusal),
        BodiesAnswer::Clear { count } => {
            let [low, high] = halves(count);
            Ok([2, 0, 0, 0, 0, 0, low, high])
        }
        BodiesAnswer::Least(Least { word, t, a, b, query, excess, count }) => {
            let [low, high] = halves(count);
            Ok([word, t, a, b, query, excess, low, high])
        }
    }
}

impl Least {
    fn of(asked: &Asked, answer: &Answer, corner: &Corner) -> Least {
        let Asked { a, b, query, .. } = *asked;
        let word = told_of_query(answer)[0];
        Least { word, t: corner.t, a, b, query, excess: corner.excess, count: 0 }
    }
}

impl Body<'_> {
    /// 1 to 256 triangles, and exactly nine numbers for each at the start and at the end.
    pub(crate) fn has_its_positions(&self) -> bool {
        (1..=MOST_TRIANGLES).contains(&self.count)
            && self.start.len() == NUMBERS * self.count
            && self.end.len() == NUMBERS * self.count
    }

    /// Triangle n of a body that has its positions.
    pub(crate) fn triangle(&self, n: usize) -> Triangle {
        [self.start, self.end].map(|positions| {
            let coordinate =
                |corner: usize, axis: usize| positions[NUMBERS * n + 3 * corner + axis];
            [0, 1, 2].map(|corner| [0, 1, 2].map(|axis| coordinate(corner, axis)))
        })
    }
}

impl<'a> Bodies<'a> {
    /// Every query in order: by A's triangle, then B's, then 1 to 15. Both bodies must have their positions.
    pub fn queries(self) -> impl Iterator<Item = Asked> + 'a {
        let pairs = (0..self.a.count).flat_map(move |a| (0..self.b.count).map(move |b| (a, b)));
        pairs.flat_map(move |(a, b)| {
            let triangles = [self.a.triangle(a), self.b.triangle(b)];
            (1..=QUERIES).map(move |query| Asked {
                a: a as u32,
                b: b as u32,
                query,
                record: self.record(query, &triangles),
            })
        })
    }

    /// One query of a pair as a record.
    fn record(&self, query: u32, [a, b]: &[Triangle; 2]) -> Record {
        Record {
            kind: if query <= 6 { VERTEX_FACE } else { EDGE_EDGE },
            flags: 0,
            byte2: 0,
            byte3: 0,
            id: 0,
            separations: self.separations,
            tolerance: self.tolerance,
            budget: self.budget,
            cap: 0,
            start: points(query, &a[0], &b[0]),
            end: points(query, &a[1], &b[1]),
        }
    }
}

/// Queries 1 to 3: corners of A with face B; 4 to 6: corners of B with face A; 7 to 15: edges of A with edges of B.
fn points(query: u32, a: &[Point; 3], b: &[Point; 3]) -> [Point; 4] {
    let vertex_face = |p: Point, face: &[Point; 3]| [p, face[0], face[1], face[2]];
    let edge_edge = |a: [Point; 2], b: [Point; 2]| [a[0], a[1], b[0], b[1]];
    let (edges_of_a, edges_of_b) = (edges(a), edges(b));
    match query {
        1..=3 => vertex_face(a[query as usize - 1], b),
        4..=6 => vertex_face(b[query as usize - 4], a),
        7..=9 => edge_edge(edges_of_a[0], edges_of_b[query as usize - 7]),
        10..=12 => edge_edge(edges_of_a[1], edges_of_b[query as usize - 10]),
        _ => edge_edge(edges_of_a[2], edges_of_b[query as usize - 13]),
    }
}

/// Edges 12, 23, 31.
fn edges(corners: &[Point; 3]) -> [[Point; 2]; 3] {
    let [one, two, three] = *corners;
    [[one, two], [two, three], [three, one]]
}

#[cfg(test)]
mod tests;
