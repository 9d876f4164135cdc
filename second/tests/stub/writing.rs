//! The writers of the stub, right or with one fault.

use super::ranges::ranged;
use second::edition::{Edition, Range};
use second::file::{record_at, MOST_RECORDS, TRAILER_BYTES};
use second::record::Record;
use second::refusals::{check_record, check_within, Refusal, MOST_CAP};
use std::slice::{from_raw_parts, from_raw_parts_mut};

faults! {
    None
    ByteBeyond ByteBefore WrittenThoughShort SpaceOneByteLate SpaceOneByteEarly PlaceAndSizeWrap
    PlaceCutTo32Bits IndexCutTo32Bits LayoutOfEditionOne EditionFourTaken EditionBeforeRecord
    SpaceBeforeEdition SpaceBeforeRecord SeparationAfterSpace SeparationBeforeFetch
    UnequalWrittenAsX RecordUnchecked FlagCleared ZeroBytesLeft
    TrailerByteBeyond TrailerWrittenThoughShort TrailerSpaceOneByteLate TrailerPlaceAndSizeWrap
    TrailerOfAnotherCount TrailerOfEditionOne TrailerEditionFourTaken TrailerZeroBytesLeft
    BackOfEditionOne BackCutTo16Bits BackBeforeCount CountBeforeEdition SpaceBeforeBack
    BytesBeforeUpToTheEnd MostRecordsRefused OneRecordMoreTaken
    EditionThreeRefused SourceRangeKept TargetRangeAlone LongerRangeForNone
    TrailerEditionThreeRefused TrailerOfEditionTwo
    CapUnchecked CapWrittenAsZero CapDroppedInOne WholeStepTakenInOne CapRefusedByTwo CapRefusedByFour
    CapBeforeSeparation CapAfterSpace
}

fn number<T>(result: Result<T, Refusal>) -> u32 {
    result.map_or_else(Refusal::number, |_| 0)
}

/// The first that refuses.
fn first(refusals: [u32; 4]) -> u32 {
    refusals.into_iter().find(|number| *number != 0).unwrap_or(0)
}

/// Bytes of the edition's record; a number that is none's counts as edition 2.
fn size(edition: u8) -> usize {
    Edition::of(edition).unwrap_or(Edition::Two).record_bytes()
}

/// What is lent to a writer.
struct Room {
    out: *mut u8,
    lent: usize,
    at: usize,
}

impl Room {
    fn bytes(&self) -> usize {
        self.lent.saturating_sub(self.at)
    }

    fn space(&self, short: bool) -> u32 {
        if short {
            Refusal::Space.number()
        } else {
            0
        }
    }

    /// Writes at the place without a look at the room: at most into the bytes that stand around every lent buffer.
    unsafe fn put(&self, from: usize, bytes: &[u8]) {
        let place = self.out.wrapping_add(self.at).wrapping_add(from);
        from_raw_parts_mut(place, bytes.len()).copy_from_slice(bytes);
    }

    /// Turns a bit of a byte of the buffer, if there is such a byte.
    unsafe fn touch(&self, place: usize) {
        if let Some(byte) = from_raw_parts_mut(self.out, self.lent).get_mut(place) {
            *byte ^= 1;
        }
    }
}

pub unsafe extern "C" fn copy<const N: usize, const R: usize>(
    file: *const u8,
    file_len: usize,
    n: usize,
    edition: u8,
    out: *mut u8,
    lent: usize,
    at: usize,
) -> u32 {
    let (fault, file) = (FAULTS[N], from_raw_parts(file, file_len));
    let n = if fault == Fault::IndexCutTo32Bits { n as u32 as usize } else { n };
    let edition = if fault == Fault::EditionFourTaken && edition == 4 { 3 } else { edition };
    let at = if fault == Fault::PlaceCutTo32Bits { at as u32 as usize } else { at };
    let (record, source) = match record_at(file, u32::try_from(n).unwrap_or(u32::MAX)) {
        Ok((record, range)) => (changed(fault, edition, record), range),
        Err(refusal) => return refusal.number(),
    };
    let room = Room { out, lent, at };
    let ranges = ranges(fault, source, edition).map(ranged::<R>);
    let number = copy_refusal(fault, &record, ranges, edition, &room);
    let bytes = Edition::of(edition).map_or(Vec::new(), |edition| record.bytes(edition));
    if number == 0 {
        put_record(fault, &record, &bytes, &room);
    } else if fault == Fault::WrittenThoughShort && number == 14 {
        room.put(0, &bytes[..room.bytes()]);
    }
    number
}

/// The record that is written, with the fault.
fn changed(fault: Fault, edition: u8, record: Record) -> Record {
    let [x, _, _] = record.separations;
    match fault {
        Fault::FlagCleared => Record { flags: record.flags & 0xFE, ..record },
        Fault::UnequalWrittenAsX if edition == 1 => Record { separations: [x; 3], ..record },
        _ if loses_cap(fault, edition, record.cap) => Record { cap: 0, ..record },
        _ => record,
    }
}

/// True where a cap that is none to refuse, or only for want of room, is taken for 0.
fn loses_cap(fault: Fault, edition: u8, cap: u32) -> bool {
    match fault {
        Fault::CapDroppedInOne => edition == 1 && cap <= MOST_CAP,
        Fault::WholeStepTakenInOne => edition == 1 && cap == MOST_CAP,
        Fault::CapWrittenAsZero => edition != 1 && cap <= MOST_CAP,
        _ => false,
    }
}

/// By which a record is fetched and by which it is written.
fn ranges(fault: Fault, source: Range, edition: u8) -> [Range; 2] {
    let target = Range::of(edition);
    match fault {
        Fault::SourceRangeKept => [source; 2],
        Fault::TargetRangeAlone => [target; 2],
        Fault::LongerRangeForNone if Edition::of(edition).is_err() => [source, Range::LONGER],
        _ => [source, target],
    }
}

fn copy_refusal(
    fault: Fault,
    record: &Record,
    [source, target]: [Range; 2],
    edition: u8,
    room: &Room,
) -> u32 {
    let (size, bytes) = (size(edition), room.bytes());
    let space = room.space(match fault {
        Fault::SpaceOneByteLate => bytes + 1 < size,
        Fault::SpaceOneByteEarly => bytes <= size,
        Fault::PlaceAndSizeWrap => room.at.wrapping_add(size) > room.lent,
        _ => bytes < size,
    });
    let capless = Record { cap: 0, ..*record };
    let checked = if fault == Fault::CapUnchecked { &capless } else { record };
    let of_record = number(check_within(checked, target, edition == 1));
    let fetched = number(check_record(checked, source));
    let refused = fault == Fault::EditionThreeRefused && edition == 3;
    let edition = if refused { 10 } else { number(Edition::of(edition)) };
    match fault {
        Fault::EditionBeforeRecord => first([edition, fetched, of_record, space]),
        Fault::SpaceBeforeEdition => first([fetched, of_record, space, edition]),
        Fault::SpaceBeforeRecord => first([space, fetched, of_record, edition]),
        Fault::SeparationAfterSpace => first([fetched, edition, space, of_record]),
        Fault::SeparationBeforeFetch => first([of_record, fetched, edition, space]),
        Fault::RecordUnchecked => first([edition, space, 0, 0]),
        Fault::CapRefusedByTwo if record.cap != 0 => Refusal::Flags.number(),
        Fault::CapRefusedByFour if [fetched, of_record] == [0, 22] => 4,
        Fault::CapBeforeSeparation if [fetched, of_record] == [0, 4] && record.cap != 0 => 22,
        Fault::CapAfterSpace if of_record == 22 => first([fetched, edition, space, of_record]),
        _ => first([fetched, of_record, edition, space]),
    }
}

unsafe fn put_record(fault: Fault, record: &Record, bytes: &[u8], room: &Room) {
    match fault {
        Fault::LayoutOfEditionOne => room.put(0, &record.bytes(Edition::One)),
        Fault::ZeroBytesLeft => {
            room.put(0, &bytes[..2]);
            room.put(4, &bytes[4..]);
        }
        _ => room.put(0, bytes),
    }
    match fault {
        Fault::ByteBeyond => room.touch(room.at + bytes.len()),
        Fault::ByteBefore => room.touch(room.at.wrapping_sub(1)),
        _ => {}
    }
}

pub unsafe extern "C" fn trailer<const N: usize>(
    out: *mut u8,
    lent: usize,
    at: usize,
    edition: u8,
    count: u32,
) -> u32 {
    let (fault, room) = (FAULTS[N], Room { out, lent, at });
    let edition = match (fault, edition) {
        (Fault::TrailerEditionFourTaken, 4) => 3,
        (Fault::TrailerEditionThreeRefused, 3) => 4,
        _ => edition,
    };
    let number = trailer_refusal(fault, edition, count, &room);
    let bytes =
        Edition::of(edition).map_or([0; 16], |edition| trailer_bytes(fault, edition, count));
    if number == 0 && fault == Fault::TrailerZeroBytesLeft {
        room.put(0, &bytes[..5]);
        room.put(8, &bytes[8..]);
    } else if number == 0 {
        room.put(0, &bytes);
    } else if number == 14 && fault == Fault::TrailerWrittenThoughShort {
        room.put(0, &bytes[..room.bytes()]);
    }
    if number == 0 && fault == Fault::TrailerByteBeyond {
        room.touch(at + TRAILER_BYTES);
    }
    number
}

fn trailer_refusal(fault: Fault, edition: u8, count: u32, room: &Room) -> u32 {
    let Room { lent, at, .. } = *room;
    let short = match fault {
        Fault::TrailerSpaceOneByteLate => room.bytes() + 1 < TRAILER_BYTES,
        Fault::TrailerPlaceAndSizeWrap => at.wrapping_add(TRAILER_BYTES) > lent,
        _ => room.bytes() < TRAILER_BYTES,
    };
    let most = match fault {
        Fault::MostRecordsRefused => MOST_RECORDS - 1,
        Fault::OneRecordMoreTaken => MOST_RECORDS + 1,
        _ => MOST_RECORDS,
    };
    let before = if fault == Fault::BytesBeforeUpToTheEnd { at.min(lent) } else { at };
    let back = if before < count as usize * size(edition) { 12 } else { 0 };
    let (edition, space) = (number(Edition::of(edition)), room.space(short));
    let count = if count > most { 11 } else { 0 };
    match fault {
        Fault::BackBeforeCount => first([edition, back, count, space]),
        Fault::CountBeforeEdition => first([count, edition, back, space]),
        Fault::SpaceBeforeBack => first([edition, count, space, back]),
        _ => first([edition, count, back, space]),
    }
}

fn trailer_bytes(fault: Fault, edition: Edition, count: u32) -> [u8; TRAILER_BYTES] {
    let edition = match fault {
        Fault::TrailerOfEditionOne => Edition::One,
        Fault::TrailerOfEditionTwo if edition == Edition::Three => Edition::Two,
        _ => edition,
    };
    let back = (edition.record_bytes() as u32).wrapping_mul(count);
    let right = |back| second::file::trailer(edition, back, count);
    match fault {
        Fault::TrailerOfAnotherCount => second::file::trailer(edition, back, count ^ 1),
        Fault::BackOfEditionOne => right(count.wrapping_mul(116)),
        Fault::BackCutTo16Bits => right(back & 0xFFFF),
        _ => right(back),
    }
}
