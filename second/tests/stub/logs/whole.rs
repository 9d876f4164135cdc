//! Whole query files answered by the stub.

use super::{in_order, refused, Fault};
use second::answer_file::{bytes, EDITION, MARK};
use second::beside::functions::LogArguments;
use second::file::{open, record_at, trailer};
use second::refusals::Refusal;
use second::search::search;
use second::told::{told_of, Told};
use std::slice::{from_raw_parts, from_raw_parts_mut};

pub unsafe fn log(fault: Fault, lent: LogArguments) -> Result<(), Refusal> {
    let LogArguments { file, file_len, queue, queue_len, out, out_len } = lent;
    let (file, queue) = (from_raw_parts(file, file_len), from_raw_parts_mut(queue, queue_len));
    let out = from_raw_parts_mut(out, out_len);
    refused(fault == Fault::WholeSpaceFirst && out_len < 16, Refusal::Space)?;
    let opened = open(file)?;
    let records = 32 * opened.count as usize;
    // Room for the records alone is too little, and writing the trailer would then be given up.
    let needed = if fault == Fault::RoomForTrailerUnseen { records } else { records + 16 };
    if out_len < needed {
        if fault == Fault::WholeWrittenThoughShort && out_len > 0 {
            out[0] = !out[0];
        }
        return Err(Refusal::Space);
    }
    let answers: Vec<Told> = (0..opened.count)
        .map(|n| {
            let (record, range) = record_at(file, n).unwrap();
            told_of(record.id, &search(&record, range, queue_len))
        })
        .collect();
    let edition = if fault == Fault::EditionOfQueries { opened.edition.number() } else { EDITION };
    let mark = if fault == Fault::WholeTrailerOfQueries { *b"QEND" } else { MARK };
    let written = written(fault, &answers);
    let mut log: Vec<u8> = written.iter().flat_map(bytes).collect();
    log.extend(trailer::bytes(mark, edition, log.len() as u32, written.len() as u32));
    log.truncate(out_len);
    out[..log.len()].copy_from_slice(&log);
    if fault == Fault::WholeByteBeyond && log.len() < out_len {
        out[log.len()] = !out[log.len()];
    }
    let any = answers.iter().any(|told| told[1] != 0);
    if any && fault != Fault::QueueLeft || fault == Fault::QueueClearedThoughRefused {
        queue.fill(0);
    }
    Ok(())
}

/// The answers as they are written, with the fault.
fn written(fault: Fault, answers: &[Told]) -> Vec<Told> {
    let is_refused = |told: &Told| told[1] == 0;
    let first = answers.iter().position(is_refused).unwrap_or(answers.len());
    let mut written = match fault {
        Fault::RefusedLeftOut => answers.iter().copied().filter(|told| !is_refused(told)).collect(),
        Fault::StopsAtRefused => answers[..first].to_vec(),
        _ => answers.to_vec(),
    };
    for (n, told) in written.iter_mut().enumerate() {
        match fault {
            Fault::RefusedAsMet if is_refused(told) => told[1] = 1,
            Fault::NumberLost if is_refused(told) => told[7] = 0,
            Fault::IdsCounted => told[0] = n as u32 + 1,
            _ => {}
        }
        *told = in_order(fault, *told, Fault::FieldsExchangedInWrite);
    }
    written
}
