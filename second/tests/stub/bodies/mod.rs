//! Two bodies by the stub, right or with one fault.

pub mod refused;
mod walked;

use super::ranges::ranged;
use refused::refused;
use second::bodies::{told, Asked, Bodies, BodiesAnswer, Body, Least, NUMBERS};
use second::edition::Range;
use second::record::Record;
use second::search::{search, Answer};
use std::slice::{from_raw_parts, from_raw_parts_mut};
use walked::walked;

faults! {
    None
    EdgesExchanged EdgesOfBFirst CornersOfBFirst PairsByB LaterOfEqualNamed LastOfAForgotten LastOfBForgotten
    EndsAtTheFirstTime GoesOnAfterTimeZero SumOfTheHolder SumCutTo32Bits ExcessOfTheLast WordOfTheLast
    TrianglesFromOne QueriesFromZero TimeToldOfClear
    QueueLeftDirty QueueClearedThoughRefused WordBeyondQueue WordBeyondTold
    BodyAfterQueries LengthsUnchecked LengthsWrap LongerTaken CountCutTo32Bits Most255 Least257 EmptyTaken
    EndOfBUnchecked StartOfAUnchecked CommonBeforeCoordinates CoordinatesBeforeCommon QueueBeforeBudget
    SeparationOfX SpaceBeforeRefusal SpaceOfSeven ToldWrittenOnRefusal ToldWrittenThoughShort
    BodyBeforeEdition QueriesBeforeEdition EditionUnchecked EditionOneRefused EditionThreeRefused
    EditionZeroTaken EditionFourTaken EditionCutTo7Bits TimeNotDoubled
    WalkUncapped CapOfThePairBefore CapOfTheFirstTime CapAPartLess CapAPartMore EndsBehindThePair EndsWithTheTriangle
    TimeZeroNotCounted EqualTimeNotCounted QueueLeftAtTimeZero
}

/// Fault N over the second program's search, or over one that finds every query clear by a million boxes: a few thousand queries
/// then have a sum of more than 32 bits.
#[rustfmt::skip]
pub unsafe extern "C" fn bodies<const N: usize, const R: usize, const CROWDED: bool>(
    edition: u8, dx: u32, dy: u32, dz: u32, tolerance: u32, budget: u32,
    a_count: usize, a_start: *const i32, a_start_len: usize, a_end: *const i32, a_end_len: usize,
    b_count: usize, b_start: *const i32, b_start_len: usize, b_end: *const i32, b_end_len: usize,
    queue: *mut u64, queue_len: usize, told: *mut u32, told_len: usize,
) -> u32 {
    let list = |start: *const i32, length: usize| from_raw_parts(start, length);
    let a = Body { count: a_count, start: list(a_start, a_start_len), end: list(a_end, a_end_len) };
    let b = Body { count: b_count, start: list(b_start, b_start_len), end: list(b_end, b_end_len) };
    let bodies = Bodies { edition, a, b, separations: [dx, dy, dz], tolerance, budget };
    let range = ranged::<R>(Range::of(edition));
    let (queue, told) = (from_raw_parts_mut(queue, queue_len), from_raw_parts_mut(told, told_len));
    let ask = |record: &Record| if CROWDED { CROWD } else { search(record, range, queue_len) };
    called(FAULTS[N], &bodies, range, queue, told, ask)
}

/// What a query of a crowded walk is answered.
pub const CROWD: Answer = Answer::Clear { count: 1_000_000 };

fn called(
    fault: Fault,
    bodies: &Bodies,
    range: Range,
    queue: &mut [u64],
    lent: &mut [u32],
    ask: impl Fn(&Record) -> Answer,
) -> u32 {
    let room = if fault == Fault::SpaceOfSeven { 7 } else { 8 };
    if fault == Fault::SpaceBeforeRefusal && lent.len() < room {
        return 14;
    }
    let bodies = taken(fault, bodies);
    if let Some(refusal) = refused(fault, &bodies, range, queue.len()) {
        if fault == Fault::QueueClearedThoughRefused {
            queue.fill(0);
        }
        if fault == Fault::ToldWrittenOnRefusal && lent.len() >= 8 {
            lent[0] = 0;
        }
        return refusal.number();
    }
    if lent.len() < room {
        if fault == Fault::ToldWrittenThoughShort && !lent.is_empty() {
            lent[0] = 2;
        }
        return 14;
    }
    let numbers = answered(fault, &sound(fault, &bodies), ask);
    let room = lent.len().min(8);
    lent[..room].copy_from_slice(&numbers[..room]);
    leave(fault, queue, lent);
    0
}

/// The queue and what stands behind it and behind told, as an answer leaves them.
fn leave(fault: Fault, queue: &mut [u64], told: &mut [u32]) {
    // Both lie inside the words that stand around every lent buffer.
    match fault {
        Fault::WordBeyondQueue => unsafe { *queue.as_mut_ptr().add(queue.len()) = 0 },
        Fault::WordBeyondTold => unsafe { *told.as_mut_ptr().add(8) = 0 },
        _ => {}
    }
    let left = match fault {
        Fault::QueueLeftDirty => queue.len() % 2,
        // A time, and it is 0.
        Fault::QueueLeftAtTimeZero => usize::from(told[0] != 2 && told[1] == 0),
        _ => 0,
    };
    let clean = queue.len() - left;
    queue[..clean].fill(0);
}

/// The bodies as the faulty library takes them.
fn taken<'a>(fault: Fault, bodies: &Bodies<'a>) -> Bodies<'a> {
    let mut taken = *bodies;
    for body in [&mut taken.a, &mut taken.b] {
        match fault {
            Fault::CountCutTo32Bits => body.count = body.count as u32 as usize,
            Fault::LongerTaken => {
                let length = NUMBERS.saturating_mul(body.count);
                body.start = &body.start[..length.min(body.start.len())];
                body.end = &body.end[..length.min(body.end.len())];
            }
            _ => {}
        }
    }
    taken
}

/// Bodies that can be walked, where a fault let others pass.
fn sound<'a>(fault: Fault, bodies: &Bodies<'a>) -> Bodies<'a> {
    let mut sound = *bodies;
    for body in [&mut sound.a, &mut sound.b] {
        let whole = body.start.len().min(body.end.len()) / NUMBERS;
        body.count = body.count.min(whole);
    }
    match fault {
        Fault::LastOfAForgotten if sound.a.count > 1 => sound.a.count -= 1,
        Fault::LastOfBForgotten if sound.b.count > 1 => sound.b.count -= 1,
        Fault::SeparationOfX => sound.separations = [sound.separations[0]; 3],
        _ => {}
    }
    sound
}

/// The eight numbers of a walk with the fault.
fn answered(fault: Fault, bodies: &Bodies, ask: impl Fn(&Record) -> Answer) -> [u32; 8] {
    let mut queries: Vec<Asked> = bodies.queries().collect();
    reorder(fault, &mut queries);
    let (walked, answers) = walked(fault, &queries, ask);
    let mut numbers = told(&walked).expect("an answer");
    spoil(fault, bodies.edition, &mut numbers, &walked, &answers);
    numbers
}

fn time_and_excess(answer: &Answer) -> Option<(u32, u32)> {
    let numbers = second::told::told(answer);
    (numbers[0] != 2).then_some((numbers[1], numbers[4]))
}

/// Another order of the queries, with the numbers that this order gives them.
fn reorder(fault: Fault, queries: &mut [Asked]) {
    match fault {
        Fault::PairsByB => queries.sort_by_key(|asked| (asked.b, asked.a, asked.query)),
        Fault::EdgesOfBFirst => {
            for asked in queries.iter_mut().filter(|asked| asked.query > 6) {
                for points in [&mut asked.record.start, &mut asked.record.end] {
                    points.rotate_left(2);
                }
            }
        }
        _ => {}
    }
    for pair in queries.chunks_exact_mut(15) {
        match fault {
            Fault::CornersOfBFirst => exchange(pair, [0, 1, 2], [3, 4, 5]),
            Fault::EdgesExchanged => exchange(pair, [6, 7, 8], [12, 13, 14]),
            _ => {}
        }
    }
}

/// Exchanges what is asked at two places, three times.
fn exchange(pair: &mut [Asked], ones: [usize; 3], others: [usize; 3]) {
    for (one, other) in ones.into_iter().zip(others) {
        let record = pair[one].record;
        pair[one].record = pair[other].record;
        pair[other].record = record;
    }
}

/// Numbers that are told otherwise.
fn spoil(
    fault: Fault,
    edition: u8,
    numbers: &mut [u32; 8],
    walked: &BodiesAnswer,
    answers: &[Answer],
) {
    let last = answers.iter().rev().find(|answer| time_and_excess(answer).is_some());
    let least = match walked {
        BodiesAnswer::Least(least) => least,
        _ => {
            if fault == Fault::TimeToldOfClear {
                numbers[1] = 1 << 20;
            }
            if fault == Fault::SumCutTo32Bits {
                numbers[7] = 0;
            }
            return;
        }
    };
    let last = second::told::told(last.expect("the one that has the time"));
    match fault {
        Fault::ExcessOfTheLast => numbers[5] = last[4],
        Fault::WordOfTheLast => numbers[0] = last[0],
        Fault::TrianglesFromOne => (numbers[2], numbers[3]) = (least.a + 1, least.b + 1),
        Fault::QueriesFromZero => numbers[4] -= 1,
        Fault::TimeNotDoubled if edition == 3 => numbers[1] /= 2,
        Fault::SumOfTheHolder => numbers[6..].copy_from_slice(&holder(least, answers)),
        Fault::SumCutTo32Bits => numbers[7] = 0,
        _ => {}
    }
}

/// The count of the one that has the least time.
fn holder(least: &Least, answers: &[Answer]) -> [u32; 2] {
    let has = |answer: &&Answer| time_and_excess(answer).is_some_and(|(t, _)| t == least.t);
    [answers.iter().find(has).expect("the one that has the time").count(), 0]
}
