//! Answers and trailers written by the stub.

use super::{check, in_order, refused, Fault};
use second::answer_file::{bytes, EDITION, MARK};
use second::beside::functions::{LogTrailerArguments, LogWriteArguments};
use second::file::trailer;
use second::refusals::Refusal;
use std::slice::{from_raw_parts, from_raw_parts_mut};

/// Writes at the place without a look at the room: at most into the bytes that stand around every lent buffer.
unsafe fn put(out: *mut u8, at: usize, bytes: &[u8]) {
    from_raw_parts_mut(out.wrapping_add(at), bytes.len()).copy_from_slice(bytes);
}

pub unsafe fn log_write(fault: Fault, lent: LogWriteArguments) -> Result<(), Refusal> {
    let LogWriteArguments { out, out_len, at, told, told_len } = lent;
    let numbers = from_raw_parts(told, told_len);
    let at = if fault == Fault::PlaceCutTo32Bits { at as u32 as usize } else { at };
    refused(told_len < 8 && fault != Fault::FewNumbersTaken, Refusal::Space)?;
    refused(told_len > 8 && fault == Fault::MoreNumbersRefused, Refusal::Space)?;
    let mut told = [0; 8];
    told.iter_mut().zip(numbers).for_each(|(told, number)| *told = *number);
    let needed = match fault {
        Fault::SpaceOneByteLate => 31,
        Fault::SpaceOneByteEarly => 33,
        _ => 32,
    };
    let room = out_len.saturating_sub(at);
    let short = refused(room < needed, Refusal::Space);
    if fault == Fault::SpaceBeforeWord {
        short?;
    }
    if fault != Fault::WordUnseenInWrite {
        check(fault, &told)?;
    }
    let written = bytes(&in_order(fault, told, Fault::FieldsExchangedInWrite));
    if fault == Fault::WrittenThoughShort && short.is_err() && at <= out_len {
        put(out, at, &written[..room]);
    }
    short?;
    put(out, at, &written);
    if fault == Fault::ByteBeyond {
        put(out, at + 32, &[0]);
    }
    Ok(())
}

pub unsafe fn log_trailer(fault: Fault, lent: LogTrailerArguments) -> Result<(), Refusal> {
    let LogTrailerArguments { out, out_len, at, count } = lent;
    let size = if fault == Fault::TrailerBackOf116 { 116 } else { 32 };
    let back = count as usize * size;
    let most = match fault {
        Fault::TrailerMostRefused => 4095,
        Fault::TrailerOneMoreTaken => 4097,
        _ => 4096,
    };
    let nearer = usize::from(fault == Fault::TrailerOneByteBefore);
    let many = refused(count > most, Refusal::Count);
    let before = refused(at + nearer.min(usize::MAX - at) < back, Refusal::Back);
    let short = refused(out_len.saturating_sub(at) < 16, Refusal::Space);
    match fault {
        Fault::TrailerBackBeforeCount => before.and(many)?,
        Fault::TrailerSpaceBeforeBack => many.and(short)?,
        _ => {}
    }
    many.and(before).and(short)?;
    let mark = if fault == Fault::TrailerOfQueries { *b"QEND" } else { MARK };
    let edition = if fault == Fault::TrailerOfEditionTwo { 2 } else { EDITION };
    let bytes = trailer::bytes(mark, edition, back as u32, count);
    if fault == Fault::TrailerZeroBytesLeft {
        put(out, at, &bytes[..5]);
        put(out, at + 8, &bytes[8..]);
    } else {
        put(out, at, &bytes);
    }
    if fault == Fault::TrailerByteBeyond {
        put(out, at + 16, &[0]);
    }
    Ok(())
}
