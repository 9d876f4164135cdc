//! Answers read and counted by the stub.

use super::{check, in_order, refused, Fault};
use second::answer_file::{self, Opened, MARK};
use second::beside::functions::{LogCountArguments, LogReadArguments};
use second::record::word_at;
use second::refusals::Refusal;
use second::told::Told;
use std::slice::{from_raw_parts, from_raw_parts_mut};

/// Refusals 8 to 12, with the fault.
pub fn open(fault: Fault, log: &[u8]) -> Result<Opened, Refusal> {
    let Some(at) = log.len().checked_sub(16) else { return Err(Refusal::Short) };
    let mut trailer: Vec<u8> = log[at..].to_vec();
    let (back, count) = (word_at(&trailer, 8), word_at(&trailer, 12));
    match fault {
        Fault::MarkOfQueriesTaken if trailer[..4] == *b"QEND" => {
            trailer[..4].copy_from_slice(&MARK)
        }
        Fault::EditionTwoTaken if trailer[4] == 2 => trailer[4] = 1,
        Fault::ZeroBytesUnseen => trailer[5..8].fill(0),
        Fault::BackUnseen => trailer[8..12].copy_from_slice(&count.wrapping_mul(32).to_le_bytes()),
        Fault::EditionBeforeMark => refused(trailer[4..8] != [1, 0, 0, 0], Refusal::Edition)?,
        Fault::BackBeforeCount if trailer[..8] == *b"AEND\x01\0\0\0" => {
            refused(back != count.wrapping_mul(32), Refusal::Back)?;
        }
        Fault::OneMoreTaken if count == 4097 && back == 32 * count && at >= back as usize => {
            return Ok(Opened { first: at - back as usize, count });
        }
        _ => {}
    }
    let opened = answer_file::open(&[&log[..at], &trailer].concat())?;
    let first = if fault == Fault::LeadingBytesRead { 0 } else { opened.first };
    Ok(Opened { first, ..opened })
}

/// Record n as it stands.
pub fn told_at(fault: Fault, log: &[u8], opened: Opened, n: usize) -> Told {
    let at = opened.first + 32 * n;
    let told = [0, 4, 8, 12, 16, 20, 24, 28].map(|field| word_at(log, at + field));
    in_order(fault, told, Fault::FieldsExchangedInRead)
}

pub unsafe fn log_read(fault: Fault, lent: LogReadArguments) -> Result<(), Refusal> {
    let LogReadArguments { log, log_len, n, told, told_len } = lent;
    let (log, numbers) = (from_raw_parts(log, log_len), from_raw_parts_mut(told, told_len));
    let opened = open(fault, log)?;
    let count = opened.count as usize;
    let n = if fault == Fault::IndexCutTo32Bits { n as u32 as usize } else { n };
    let short = refused(told_len < 8, Refusal::Space);
    let every = || (0..count).try_for_each(|n| check(fault, &told_at(fault, log, opened, n)));
    match fault {
        Fault::SpaceBeforeIndex => short?,
        Fault::WordBeforeIndex if n >= count => every()?,
        _ => {}
    }
    refused(n >= count, Refusal::Index)?;
    if fault == Fault::EveryWordSeen {
        every()?;
    }
    let found = told_at(fault, log, opened, n);
    if fault == Fault::ToldWrittenThoughRefused && told_len > 0 {
        numbers[0] = found[0];
    }
    if fault == Fault::SpaceBeforeWordInRead {
        short?;
    }
    if fault != Fault::WordUnseenInRead {
        check(fault, &found)?;
    }
    short?;
    numbers[..8].copy_from_slice(&found);
    if fault == Fault::NinthNumberWritten && told_len > 8 {
        numbers[8] = 0;
    }
    Ok(())
}

pub unsafe fn log_count(fault: Fault, lent: LogCountArguments) -> Result<(), Refusal> {
    let LogCountArguments { log, log_len, told, told_len } = lent;
    let log = from_raw_parts(log, log_len);
    let short = refused(told_len == 0, Refusal::Space);
    if fault == Fault::CountSpaceFirst {
        short?;
    }
    let opened = open(fault, log)?;
    if fault == Fault::CountSeesWords {
        let told = |n: u32| told_at(fault, log, opened, n as usize);
        (0..opened.count).try_for_each(|n| check(fault, &told(n)))?;
    }
    short?;
    if fault != Fault::CountUnwritten {
        *told = opened.count;
    }
    Ok(())
}
