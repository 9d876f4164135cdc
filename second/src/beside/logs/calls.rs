//! The library's functions on answer files, called with slices.

use crate::beside::functions::{
    LogArguments, LogCountArguments, LogReadArguments, LogTrailerArguments, LogWriteArguments,
    MatchedArguments,
};
use crate::beside::Library;

impl Library {
    pub fn log_write(&self, out: &mut [u8], at: usize, told: &[u32]) -> u32 {
        let (out_len, told_len) = (out.len(), told.len());
        let (out, told) = (out.as_mut_ptr(), told.as_ptr());
        // Sound: every pointer comes from a slice of the length beside it; the place may be any number.
        unsafe { LogWriteArguments { out, out_len, at, told, told_len }.call(self.log_write) }
    }

    pub fn log_trailer(&self, out: &mut [u8], at: usize, count: u32) -> u32 {
        let (out_len, out) = (out.len(), out.as_mut_ptr());
        // Sound: as above.
        unsafe { LogTrailerArguments { out, out_len, at, count }.call(self.log_trailer) }
    }

    pub fn log_read(&self, log: &[u8], n: usize, told: &mut [u32]) -> u32 {
        let (log_len, told_len) = (log.len(), told.len());
        let (log, told) = (log.as_ptr(), told.as_mut_ptr());
        // Sound: as above; so may the record's number.
        unsafe { LogReadArguments { log, log_len, n, told, told_len }.call(self.log_read) }
    }

    pub fn log_count(&self, log: &[u8], told: &mut [u32]) -> u32 {
        let (log_len, told_len) = (log.len(), told.len());
        let (log, told) = (log.as_ptr(), told.as_mut_ptr());
        // Sound: as above.
        unsafe { LogCountArguments { log, log_len, told, told_len }.call(self.log_count) }
    }

    pub fn matched(&self, file: &[u8], log: &[u8]) -> u32 {
        let (file_len, log_len) = (file.len(), log.len());
        let (file, log) = (file.as_ptr(), log.as_ptr());
        // Sound: as above.
        unsafe { MatchedArguments { file, file_len, log, log_len }.call(self.matched) }
    }

    pub fn log(&self, file: &[u8], queue: &mut [u64], out: &mut [u8]) -> u32 {
        let (file_len, queue_len, out_len) = (file.len(), queue.len(), out.len());
        let (file, queue, out) = (file.as_ptr(), queue.as_mut_ptr(), out.as_mut_ptr());
        let arguments = LogArguments { file, file_len, queue, queue_len, out, out_len };
        // Sound: as above.
        unsafe { arguments.call(self.log) }
    }
}
