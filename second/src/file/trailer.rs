//! The trailer that ends a file and points back: the query file's and the answer file's differ in the mark and the records' size.

use crate::record::word_at;
use crate::refusals::Refusal;

/// Bytes of the trailer that ends a file.
pub const TRAILER_BYTES: usize = 16;
pub const MOST_RECORDS: u32 = 4_096;

/// A trailer as it stands at a file's end.
pub struct Trailer {
    pub edition: u8,
    zeros: [u8; 3],
    back: u32,
    pub count: u32,
    /// Bytes of the file before it.
    before: usize,
}

impl Trailer {
    /// Refusals 8 and 9.
    pub fn of(file: &[u8], mark: [u8; 4]) -> Result<Trailer, Refusal> {
        let before = file.len().checked_sub(TRAILER_BYTES).ok_or(Refusal::Short)?;
        let bytes = &file[before..];
        if bytes[..4] != mark {
            return Err(Refusal::Mark);
        }
        Ok(Trailer {
            edition: bytes[4],
            zeros: [bytes[5], bytes[6], bytes[7]],
            back: word_at(bytes, 8),
            count: word_at(bytes, 12),
            before,
        })
    }

    /// Where the first of the records stands, of so many bytes each: 10 for bytes 5 to 7, then 11 and 12.
    pub fn first(&self, record_bytes: usize) -> Result<usize, Refusal> {
        if self.zeros != [0; 3] {
            return Err(Refusal::Edition);
        }
        if self.count > MOST_RECORDS {
            return Err(Refusal::Count);
        }
        let back = self.back as usize;
        if back != self.count as usize * record_bytes || back > self.before {
            return Err(Refusal::Back);
        }
        Ok(self.before - back)
    }
}

/// A trailer's bytes, unchecked: the generators also write wrong ones.
pub fn bytes(mark: [u8; 4], edition: u8, back: u32, count: u32) -> [u8; TRAILER_BYTES] {
    let mut bytes = mark.to_vec();
    bytes.extend([edition, 0, 0, 0]);
    bytes.extend(back.to_le_bytes());
    bytes.extend(count.to_le_bytes());
    bytes.try_into().expect("4 + 4 + 4 + 4 bytes")
}

/// Writes the trailer of so many records, of so many bytes each, at a place behind them: refusals 11, 12, 14.
pub fn write(
    buffer: &mut [u8],
    at: usize,
    (mark, edition): ([u8; 4], u8),
    record_bytes: usize,
    count: u32,
) -> Result<(), Refusal> {
    if count > MOST_RECORDS {
        return Err(Refusal::Count);
    }
    let back = count as usize * record_bytes;
    // The place itself is the number of bytes before it, even past the buffer's end.
    if at < back {
        return Err(Refusal::Back);
    }
    let room = room(buffer, at, TRAILER_BYTES)?;
    room.copy_from_slice(&bytes(mark, edition, back as u32, count));
    Ok(())
}

/// The bytes lent at a place, or 14.
pub fn room(buffer: &mut [u8], at: usize, size: usize) -> Result<&mut [u8], Refusal> {
    if buffer.len().saturating_sub(at) < size {
        return Err(Refusal::Space);
    }
    Ok(&mut buffer[at..at + size])
}
