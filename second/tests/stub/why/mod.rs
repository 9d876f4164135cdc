//! `why` by the stub, right or with one fault.

mod named;

use super::ranges::ranged;
use named::{on_the_way, right, told};
use second::edition::{Edition, Range};
use second::file::{open, record_at, record_number};
use second::record::{Record, VERTEX_FACE};
use second::refusals::{check_record, check_words, Refusal, MOST_BUDGET, MOST_WORDS};
use second::why::{Parts, Searched, ONE, TOLD};
use std::cell::RefCell;
use std::rc::Rc;
use std::slice::{from_raw_parts, from_raw_parts_mut};

faults! {
    None
    LowerHalfOnABoundary UpperBoxAtOne YBeforeX ZFirst SidesExchanged
    SurvivorNamed FirstSurvivorNamed LevelOneMore LevelOneLess GoesOnPastTheDiscarded IndicesInParts IndicesOfUFirst
    AnsweredTimeRuledOut LaterMomentsRuledOut PartBeforeNotRuledOut ClearEndsAtOne ClearRulesNothingOut DeepBoxesNotFound
    MoreBudget MoreRoom FlagIgnored SeparationOfX EditionOneAlone RecordsFromOne IndexCutTo32Bits
    NotRuledOutBeforeOutside OutsideBeforeQueue OutsideBeforeRecord OutsideBeforeFile QueueBeforeRecord
    SpaceBeforeOutside SpaceBeforeRecord SpaceBeforeFile SpaceAfterNotRuledOut SpaceOfEight SpaceOfTen
    UAndVWrap EdgesAskedAsAFace FaceAskedAsEdges LongSideOutside OneOutside OneMoreInside HighBitIgnored
    OutsideClearsQueue SpaceClearsQueue NotRuledOutLeavesQueue AnswerLeavesQueue LastWordLeft WordBeyondQueue
    TenthNumberWritten ToldChangedByOutside ToldChangedByNotRuledOut ToldChangedThoughShort
    EditionThreeRefused OddPartsOutside HalvesAskedForOutside AnsweredTimeNotDoubled PartsNotHalved
    CapIgnored BeyondCapInside CapItselfOutside CapZeroOutside OneBeyondCapInside EqualToCapDropped NotRuledOutBeforeCap
    SpaceBeforeCap CapBeforeQueue
}

#[rustfmt::skip]
pub unsafe extern "C" fn why<const N: usize, const R: usize>(
    file: *const u8, file_len: usize, n: usize, t: u32, u: u32, v: u32,
    queue: *mut u64, queue_len: usize, told: *mut u32, told_len: usize,
) -> u32 {
    let (fault, file) = (FAULTS[N], from_raw_parts(file, file_len));
    let (queue, told) = (from_raw_parts_mut(queue, queue_len), from_raw_parts_mut(told, told_len));
    let asked = Asked { point: [t, u, v], words: queue.len(), lent: told.len() };
    let query = before_file(fault, &asked).and_then(|()| query::<R>(fault, file, n));
    let answer = query.and_then(|query| answer(fault, &query, &asked));
    let number = answer.map_or_else(Refusal::number, |_| 0);
    if let Ok(numbers) = answer {
        let room = told.len().min(TOLD);
        told[..room].copy_from_slice(&numbers[..room]);
    }
    leave_queue(fault, number, queue);
    leave_told(fault, number, told);
    number
}

/// The record that is asked about, and the range by which it is searched.
struct Query {
    record: Record,
    range: Range,
    /// Of edition 3.
    longer: bool,
}

struct Asked {
    point: Parts,
    words: usize,
    lent: usize,
}

/// The queue as the call leaves it.
fn leave_queue(fault: Fault, number: u32, queue: &mut [u64]) {
    let cleared = match number {
        0 => fault != Fault::AnswerLeavesQueue,
        14 => fault == Fault::SpaceClearsQueue,
        23 => fault == Fault::OutsideClearsQueue,
        24 => fault != Fault::NotRuledOutLeavesQueue,
        _ => false,
    };
    if !cleared {
        return;
    }
    if fault == Fault::WordBeyondQueue {
        // Inside the words that stand around every lent buffer.
        unsafe { *queue.as_mut_ptr().add(queue.len()) = 0 };
    }
    let left = usize::from(fault == Fault::LastWordLeft && queue.len() % 2 == 1);
    let clean = queue.len() - left;
    queue[..clean].fill(0);
}

/// Numbers that are changed beyond what is told.
fn leave_told(fault: Fault, number: u32, told: &mut [u32]) {
    let changed = match (fault, number) {
        (Fault::TenthNumberWritten, 0) => told.get_mut(TOLD),
        (Fault::ToldChangedByOutside, 23) => told.first_mut(),
        (Fault::ToldChangedByNotRuledOut, 24) => told.first_mut(),
        (Fault::ToldChangedThoughShort, 14) => told.first_mut(),
        _ => None,
    };
    if let Some(number) = changed {
        *number ^= 1;
    }
}

/// What a fault asks before it looks at the file.
fn before_file(fault: Fault, asked: &Asked) -> Result<(), Refusal> {
    match fault {
        Fault::OutsideBeforeFile => refused(asked.point[0] > ONE, Refusal::Outside),
        Fault::SpaceBeforeFile => refused(asked.lent < TOLD, Refusal::Space),
        _ => Ok(()),
    }
}

/// The record that is asked about and its range.
fn query<const R: usize>(fault: Fault, file: &[u8], n: usize) -> Result<Query, Refusal> {
    let edition = open(file)?.edition;
    let is_known = match fault {
        Fault::EditionOneAlone => edition == Edition::One,
        Fault::EditionThreeRefused => edition != Edition::Three,
        _ => true,
    };
    refused(!is_known, Refusal::Edition)?;
    let n = match fault {
        Fault::IndexCutTo32Bits => n as u32 as usize,
        Fault::RecordsFromOne => n.wrapping_sub(1),
        _ => n,
    };
    let (mut record, range) = record_at(file, record_number(n))?;
    match fault {
        Fault::FlagIgnored => record.flags &= 0xFE,
        Fault::SeparationOfX => record.separations = [record.separations[0]; 3],
        Fault::CapIgnored => record.cap = 0,
        _ => {}
    }
    Ok(Query { record, range: ranged::<R>(range), longer: range == Range::LONGER })
}

/// The nine numbers, or the first refusal in an order with the fault.
fn answer(fault: Fault, query: &Query, asked: &Asked) -> Result<[u32; TOLD], Refusal> {
    let searched = || search(fault, query, asked.words);
    let of_record = || check_record(&query.record, query.range);
    let queue = || check_words(asked.words);
    let off = || refused(is_outside(fault, query, asked.point), Refusal::Outside);
    let beyond = || refused(is_beyond_cap(fault, query, asked.point[0]), Refusal::Outside);
    let outside = || off().and_then(|()| beyond());
    let space = || refused(is_short(fault, asked.lent), Refusal::Space);
    let late = || refused(is_late(fault, query, &*searched()?, asked.point), Refusal::NotRuledOut);
    match fault {
        Fault::NotRuledOutBeforeOutside => first(&[&of_record, &queue, &late])?,
        Fault::OutsideBeforeQueue => first(&[&of_record, &outside])?,
        Fault::OutsideBeforeRecord => outside()?,
        Fault::QueueBeforeRecord => queue()?,
        Fault::SpaceBeforeOutside => first(&[&of_record, &queue, &space])?,
        // Only the cap is looked at late, or early.
        Fault::NotRuledOutBeforeCap => first(&[&of_record, &queue, &off, &space, &late])?,
        Fault::SpaceBeforeCap => first(&[&of_record, &queue, &off, &space])?,
        Fault::CapBeforeQueue => first(&[&of_record, &beyond])?,
        Fault::SpaceBeforeRecord => space()?,
        Fault::SpaceAfterNotRuledOut => first(&[&of_record, &queue, &outside, &late])?,
        _ => {}
    }
    first(&[&of_record, &queue, &outside, &space, &late])?;
    let halved = fault != Fault::PartsNotHalved || !query.longer;
    // As if the parts were those of a grid of depth 19.
    let point = if halved { asked.point } else { asked.point.map(|part| (2 * part).min(ONE)) };
    Ok(told(fault, &*searched()?, point))
}

/// The first of these that refuses.
fn first(checks: &[&dyn Fn() -> Result<(), Refusal>]) -> Result<(), Refusal> {
    checks.iter().try_for_each(|check| check())
}

fn refused(is: bool, refusal: Refusal) -> Result<(), Refusal> {
    if is {
        return Err(refusal);
    }
    Ok(())
}

/// The search with its log, longer than it may be where a fault gives it more.
fn search(fault: Fault, query: &Query, words: usize) -> Result<Rc<Searched>, Refusal> {
    let Query { record, range, .. } = *query;
    let budget = (4 * record.budget).min(MOST_BUDGET);
    match fault {
        Fault::MoreBudget => kept(Record { budget, ..record }, range, words),
        Fault::MoreRoom => kept(record, range, (4 * words).min(MOST_WORDS)),
        Fault::EqualToCapDropped if record.cap > 1 => {
            kept(Record { cap: record.cap - 1, ..record }, range, words)
        }
        _ => kept(record, range, words),
    }
}

/// The last search is kept, as many points are asked of one record.
fn kept(record: Record, range: Range, words: usize) -> Result<Rc<Searched>, Refusal> {
    type Last = Option<((Record, Range, usize), Rc<Searched>)>;
    thread_local! { static LAST: RefCell<Last> = const { RefCell::new(None) } }
    LAST.with_borrow_mut(|last| match last {
        Some((of, searched)) if *of == (record, range, words) => Ok(searched.clone()),
        _ => {
            let searched = Rc::new(Searched::of(&record, range, words)?);
            *last = Some(((record, range, words), searched.clone()));
            Ok(searched)
        }
    })
}

fn is_short(fault: Fault, lent: usize) -> bool {
    let room = match fault {
        Fault::SpaceOfEight => 8,
        Fault::SpaceOfTen => 10,
        _ => TOLD,
    };
    lent < room
}

fn is_outside(fault: Fault, query: &Query, point: Parts) -> bool {
    let [t, u, v] = point.map(|part| match fault {
        Fault::HighBitIgnored => part & 0x7FFF_FFFF,
        Fault::HalvesAskedForOutside if query.longer => part / 2 * 2,
        Fault::OddPartsOutside if query.longer && part % 2 == 1 => u32::MAX,
        _ => part,
    });
    let most = match fault {
        Fault::OneOutside => ONE - 1,
        Fault::OneMoreInside => ONE + 1,
        _ => ONE,
    };
    let face = query.record.kind == VERTEX_FACE;
    let sum = u64::from(u) + u64::from(v);
    let off_the_face = match fault {
        Fault::UAndVWrap if face => return t > most || u.wrapping_add(v) > most,
        Fault::EdgesAskedAsAFace => sum > u64::from(ONE),
        Fault::FaceAskedAsEdges => false,
        Fault::LongSideOutside => face && sum >= u64::from(ONE),
        _ => face && sum > u64::from(ONE),
    };
    t.max(u).max(v) > most || off_the_face
}

fn is_beyond_cap(fault: Fault, query: &Query, t: u32) -> bool {
    let cap = query.record.cap;
    match fault {
        Fault::BeyondCapInside => false,
        Fault::CapItselfOutside => cap != 0 && t >= cap,
        Fault::OneBeyondCapInside => cap != 0 && t > cap + 1,
        Fault::CapZeroOutside => t > cap,
        _ => cap != 0 && t > cap,
    }
}

fn is_late(fault: Fault, query: &Query, searched: &Searched, point: Parts) -> bool {
    let t = point[0];
    let Some(corner) = searched.answer.corner() else {
        return fault == Fault::ClearRulesNothingOut || fault == Fault::ClearEndsAtOne && t >= ONE;
    };
    let known = || on_the_way(searched, point, right).is_some();
    let deep = || on_the_way(searched, point, right).is_some_and(|named| named.level > 30);
    match fault {
        Fault::DeepBoxesNotFound => t >= corner.t || deep(),
        Fault::AnsweredTimeRuledOut if t == corner.t => !known(),
        Fault::LaterMomentsRuledOut => t >= corner.t && !known(),
        Fault::PartBeforeNotRuledOut => t + 1 >= corner.t,
        Fault::AnsweredTimeNotDoubled if query.longer => t >= corner.t / 2,
        _ => t >= corner.t,
    }
}
