//! Stretches of a log: where it records each transition once, and where not.

use crate::logs::LogBatch;
use crate::raw::{self, JudgeOutcome, LogSeam, LogStretches};
use core::mem::MaybeUninit;

// SAFETY of the calls below: all memory is initialised and, where it is written, borrowed by the call alone; the stretches are
// numbers, of which all zeros are some.

impl LogStretches {
    /// What is kept above the first frame.
    pub fn new() -> LogStretches {
        let mut stretches = unsafe { MaybeUninit::<LogStretches>::zeroed().assume_init() };
        unsafe { raw::fio2070_log_stretches_start(&mut stretches) };
        stretches
    }

    /// Takes the frames of a batch, in order, with the outcomes that `LogJudge::batch` wrote for it. Returns the places where a
    /// stretch ends or transitions are lost; they are written to the front of `seams`.
    pub fn batch<'a>(
        &mut self,
        batch: &LogBatch,
        outcomes: &[JudgeOutcome; 20480],
        seams: &'a mut [LogSeam; 20480],
    ) -> &'a [LogSeam] {
        let count =
            unsafe { raw::fio2070_log_stretches_batch(self, &batch.0, outcomes, seams) };
        &seams[..count as usize]
    }
}
