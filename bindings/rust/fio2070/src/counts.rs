//! What is counted of the frames of a log.

use crate::logs::LogBatch;
use crate::raw::{self, LogCounts};
use core::mem::MaybeUninit;

// SAFETY of the calls below: slices are given with their lengths, all memory is initialised and,
// where it is written, borrowed by the call alone; the counts are numbers, of which all zeros are some.

impl LogCounts {
    /// The counts of no frame.
    pub fn new() -> LogCounts {
        let mut counts = unsafe { MaybeUninit::<LogCounts>::zeroed().assume_init() };
        unsafe { raw::fio2070_log_counts_start(&mut counts) };
        counts
    }

    /// A frame may be lost here: whether the latest poll and command were answered is not known.
    pub fn lose(&mut self) {
        unsafe { raw::fio2070_log_counts_lose(self) }
    }

    /// Counts a frame, by its time in microseconds, if it has one. Returns how long the module took for its answer, in
    /// microseconds, if that is known: of the answer that the latest command waits for, whose time is not before the command's.
    pub fn frame(&mut self, octets: &[u8], time: Option<u64>) -> Option<u64> {
        let (start, count, mut taken) = (octets.as_ptr(), octets.len(), 0);
        let (has_time, time) = (time.is_some().into(), time.unwrap_or(0));
        match unsafe {
            raw::fio2070_log_counts_frame(self, has_time, time, start, count, &mut taken)
        } {
            0 => None,
            _ => Some(taken),
        }
    }

    /// Counts the frames of a batch, in order, each by the time of its verdict, and takes the lines between them: a frame may be lost
    /// where `LogJudge` may lose its place. Returns how long the module took for its answers, of each of which that is known; they are
    /// written to the front of `taken`.
    pub fn batch<'a>(&mut self, batch: &LogBatch, taken: &'a mut [u64; 20480]) -> &'a [u64] {
        let count = unsafe { raw::fio2070_log_counts_batch(self, &batch.0, taken) };
        &taken[..count as usize]
    }
}
