//! A library with the proved one's functions, made from the second program, right or with one fault.
#![allow(dead_code)]

/// The faults of a stub, and a list of all of them.
macro_rules! faults {
    ($($name:ident)*) => {
        #[derive(Clone, Copy, Debug, PartialEq, Eq)]
        pub enum Fault { $($name),* }
        pub const FAULTS: &[Fault] = &[$(Fault::$name),*];
    };
}

/// What `reported` says of the libraries with these faults, in order.
macro_rules! each {
    ($library:ident, $cases:expr, $($n:literal)*) => { [$(reported($library::<$n>(), $cases)),*] };
}

pub mod bodies;
pub mod bounds;
pub mod caps;
pub mod given;
pub mod logs;
pub mod ranges;
pub mod why;
pub mod writing;

use second::beside::Library;
use second::edition::{Edition, Range};
use second::file::{record_at, Opened, TRAILER_BYTES};
use second::refusals::Refusal;
use second::told::told;
use std::borrow::Cow;
use std::fmt::Debug;
use std::slice::{from_raw_parts, from_raw_parts_mut};

faults! {
    None CountOneMore ExcessOneLess LastWordLeft ClearedThoughRefused BeyondTold
    BeyondQueue WrittenThoughShort WrongNumber StopsAtRefused IndexCutTo32Bits SpaceBeforeIndex
    IdOfTheFirst CountUnwritten SeparationOfX EditionOneAlone
    EditionThreeRefused EditionFourTaken PartsNotDoubled OnlyTDoubled
}

/// The library with fault number N of the list.
pub fn library<const N: usize>() -> Library {
    Library {
        answer: answer::<N, 0, 0>,
        answers: answers::<N, 0, 0>,
        count: count::<N>,
        ..ranged_library::<0>()
    }
}

/// The library with fault number R of the list of ranges.
pub fn ranged_library<const R: usize>() -> Library {
    Library {
        answer: answer::<0, R, 0>,
        answers: answers::<0, R, 0>,
        count: count::<0>,
        copy: writing::copy::<0, R>,
        trailer: writing::trailer::<0>,
        write: given::write::<0>,
        pair: given::pair::<0>,
        bodies: bodies::bodies::<0, R, false>,
        why: why::why::<0, R>,
        bounds: bounds::bounds::<0, R>,
        walk: bounds::walk::<0, R>,
        replace: bounds::replace::<0, R>,
        log_write: logs::log_write::<0>,
        log_trailer: logs::log_trailer::<0>,
        log_read: logs::log_read::<0>,
        log_count: logs::log_count::<0>,
        matched: logs::matched::<0>,
        log: logs::log::<0>,
    }
}

/// The library with fault number C of the list of caps.
pub fn capped_library<const C: usize>() -> Library {
    Library { answer: answer::<0, 0, C>, answers: answers::<0, 0, C>, ..library::<0>() }
}

/// The library with fault number N of the writers' list.
pub fn writing_library<const N: usize>() -> Library {
    Library { copy: writing::copy::<N, 0>, trailer: writing::trailer::<N>, ..library::<0>() }
}

/// The library with fault number N of the list of what is given in numbers.
pub fn given_library<const N: usize>() -> Library {
    Library { write: given::write::<N>, pair: given::pair::<N>, ..library::<0>() }
}

/// The library with fault number N of the bodies' list.
pub fn bodies_library<const N: usize>() -> Library {
    Library { bodies: bodies::bodies::<N, 0, false>, ..library::<0>() }
}

/// The library with fault number N of the list of bodies with bounds.
pub fn bounds_library<const N: usize>() -> Library {
    Library {
        bounds: bounds::bounds::<N, 0>,
        walk: bounds::walk::<N, 0>,
        replace: bounds::replace::<N, 0>,
        ..library::<0>()
    }
}

/// The library with fault number R of the list of ranges where bounds are worked out, and nowhere else.
pub fn ranged_bounds_library<const R: usize>() -> Library {
    Library { bounds: bounds::bounds::<0, R>, ..library::<0>() }
}

/// The same where a triangle is replaced.
pub fn ranged_replace_library<const R: usize>() -> Library {
    Library { replace: bounds::replace::<0, R>, ..library::<0>() }
}

/// The same where a walk is lent bounds.
pub fn ranged_walk_library<const R: usize>() -> Library {
    Library { walk: bounds::walk::<0, R>, ..library::<0>() }
}

/// The library with fault number N of the list of `why`.
pub fn why_library<const N: usize>() -> Library {
    Library { why: why::why::<N, 0>, ..library::<0>() }
}

/// The same where every query is clear by a million boxes.
pub fn crowded_library<const N: usize>() -> Library {
    Library { bodies: bodies::bodies::<N, 0, true>, ..library::<0>() }
}

/// A number of differing cases for every fault: none where it cannot be seen, else enough.
pub fn assert_reported<F>(faults: &[F], found: &[usize], unseen: &[F], enough: usize)
where
    F: PartialEq + Debug,
{
    assert_eq!(found.len(), faults.len());
    let must = |fault: &F| if unseen.contains(fault) { 0 } else { enough };
    let is_wrong = |(fault, number): &(&F, &usize)| **number != must(fault);
    let wrong: Vec<(&F, &usize)> = faults.iter().zip(found).filter(is_wrong).collect();
    assert!(wrong.is_empty(), "{wrong:?}");
}

/// The eight numbers of record n, with the fault.
fn record<const R: usize, const C: usize>(
    fault: Fault,
    file: &[u8],
    n: u32,
    words: usize,
) -> [u32; 8] {
    let (mut record, range) = record_at(file, n).unwrap();
    if fault == Fault::SeparationOfX {
        record.separations = [record.separations[0]; 3];
    }
    let mut numbers = [record.id; 8];
    let answer = caps::answered::<C>(&record, ranges::ranged::<R>(range), words);
    numbers[1..].copy_from_slice(&told(&answer));
    match fault {
        Fault::CountOneMore if numbers[6] > 5 => numbers[6] += 1,
        Fault::ExcessOneLess if numbers[5] > 1 => numbers[5] -= 1,
        Fault::IdOfTheFirst => numbers[0] = record_at(file, 0).unwrap().0.id,
        Fault::PartsNotDoubled if range == Range::LONGER => halve(&mut numbers[2..5]),
        Fault::OnlyTDoubled if range == Range::LONGER => halve(&mut numbers[3..5]),
        _ => {}
    }
    numbers
}

/// Parts as they are counted where the greatest depth is 19.
fn halve(parts: &mut [u32]) {
    parts.iter_mut().for_each(|part| *part /= 2);
}

/// The file as the faulty library reads it.
fn read(fault: Fault, file: &[u8]) -> Cow<'_, [u8]> {
    let place = file.len().checked_sub(TRAILER_BYTES - 4);
    match place.filter(|place| fault == Fault::EditionFourTaken && file[*place] == 4) {
        Some(place) => Cow::Owned([&file[..place], &[3], &file[place + 1..]].concat()),
        None => Cow::Borrowed(file),
    }
}

/// The file opened, with the fault.
fn open(fault: Fault, file: &[u8]) -> Result<Opened, Refusal> {
    let opened = second::file::open(file)?;
    match fault {
        Fault::EditionOneAlone if opened.edition != Edition::One => Err(Refusal::Edition),
        Fault::EditionThreeRefused if opened.edition == Edition::Three => Err(Refusal::Edition),
        _ => Ok(opened),
    }
}

fn number(fault: Fault, number: u32) -> u32 {
    if fault == Fault::WrongNumber && number == 12 {
        return 11;
    }
    number
}

/// Clears the queue as an answered record leaves it, with the fault.
fn clear(fault: Fault, queue: *mut u64, words: usize, any: bool) {
    let lent = unsafe { from_raw_parts_mut(queue, words) };
    if any || fault == Fault::ClearedThoughRefused {
        let left = usize::from(fault == Fault::LastWordLeft && words % 2 == 1);
        lent[..words - left].fill(0);
    }
    if any && fault == Fault::BeyondQueue {
        // Inside the words that stand around every lent buffer.
        unsafe { *queue.add(words) = 0 };
    }
}

unsafe extern "C" fn answers<const N: usize, const R: usize, const C: usize>(
    file: *const u8,
    file_len: usize,
    queue: *mut u64,
    words: usize,
    told: *mut u32,
    lent: usize,
) -> u32 {
    let fault = FAULTS[N];
    let file = read(fault, from_raw_parts(file, file_len));
    let told = from_raw_parts_mut(told, lent);
    let opened = match open(fault, &file) {
        Ok(opened) => opened,
        Err(refusal) => return number(fault, refusal.number()),
    };
    if lent < 8 * opened.count as usize {
        if fault == Fault::WrittenThoughShort && lent > 0 {
            told[0] = 0;
        }
        return 14;
    }
    let mut any = false;
    for n in 0..opened.count {
        let numbers = record::<R, C>(fault, &file, n, words);
        let at = 8 * n as usize;
        told[at..at + 8].copy_from_slice(&numbers);
        any |= numbers[1] != 0;
        if fault == Fault::StopsAtRefused && numbers[1] == 0 {
            break;
        }
    }
    let beyond = 8 * opened.count as usize;
    if fault == Fault::BeyondTold && beyond < lent {
        told[beyond] = 0;
    }
    clear(fault, queue, words, any);
    0
}

unsafe extern "C" fn answer<const N: usize, const R: usize, const C: usize>(
    file: *const u8,
    file_len: usize,
    n: usize,
    queue: *mut u64,
    words: usize,
    told: *mut u32,
    lent: usize,
) -> u32 {
    let fault = FAULTS[N];
    let file = read(fault, from_raw_parts(file, file_len));
    let opened = match open(fault, &file) {
        Ok(opened) => opened,
        Err(refusal) => return number(fault, refusal.number()),
    };
    let n = if fault == Fault::IndexCutTo32Bits { n as u32 as usize } else { n };
    if fault == Fault::SpaceBeforeIndex && lent < 8 {
        return 14;
    }
    if n >= opened.count as usize {
        return 13;
    }
    if lent < 8 {
        return 14;
    }
    let numbers = record::<R, C>(fault, &file, n as u32, words);
    from_raw_parts_mut(told, lent)[..8].copy_from_slice(&numbers);
    clear(fault, queue, words, numbers[1] != 0);
    0
}

unsafe extern "C" fn count<const N: usize>(
    file: *const u8,
    file_len: usize,
    count: *mut u32,
    lent: usize,
) -> u32 {
    let fault = FAULTS[N];
    match open(fault, &read(fault, from_raw_parts(file, file_len))) {
        Err(refusal) => number(fault, refusal.number()),
        Ok(_) if lent == 0 => 14,
        Ok(opened) => {
            if fault != Fault::CountUnwritten {
                *count = opened.count;
            }
            0
        }
    }
}
