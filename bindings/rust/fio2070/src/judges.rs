//! The judges: of a link, by its frames and where they were logged; and of a log, by what a reader finds in it. And the signs that a log
//! is not the log of one link in order.

use crate::logs::LogBatch;
use crate::raw::{self, JudgeOutcome, RawJudge, RawLimits, RawLogJudge, RawLogSigns};

// SAFETY of the calls below: slices are given with their lengths, all memory is initialised and,
// where it is written, borrowed by the call alone; the structs are begun by `_start`.

/// The judge of a link: both checkers of a log in which lines may be lost, of a module that may be restarted and whose counter
/// may be loaded. A frame was logged at the CPU's end (`AT_CPU`), at the module (`AT_MODULE`) or on the bus (`AT_BUS`).
#[derive(Clone)]
pub struct LinkJudge(RawJudge);

impl LinkJudge {
    /// Above the first frame of a log that begins anywhere, of a module whose blocks have at most `per_block` entries, 1 to 255,
    /// and of which `waiting` may wait, 1 to 8,192. `None` where one is out of its range.
    pub fn anywhere(per_block: u8, waiting: u16) -> Option<LinkJudge> {
        LinkJudge::started_by(raw::fio2070_judge_start_anywhere, per_block, waiting)
    }

    /// As `anywhere`, above the first frame of a log that begins with the start of both ends: it finds more.
    pub fn begun(per_block: u8, waiting: u16) -> Option<LinkJudge> {
        LinkJudge::started_by(raw::fio2070_judge_start_begun, per_block, waiting)
    }

    fn started_by(
        start: unsafe extern "C" fn(&mut RawJudge, RawLimits) -> u8,
        per_block: u8,
        waiting: u16,
    ) -> Option<LinkJudge> {
        let mut judge = RawJudge::default();
        match unsafe { start(&mut judge, RawLimits::of(waiting, per_block)) } {
            0 => Some(LinkJudge(judge)),
            _ => None,
        }
    }

    /// Lines of the log are lost here, such as a damaged frame, or a part of it ends and another begins.
    pub fn lose(&mut self) {
        unsafe { raw::fio2070_judge_lose(&mut self.0) }
    }

    /// What a frame is that the CPU sent, logged there.
    pub fn sent(&mut self, at: u8, octets: &[u8]) -> JudgeOutcome {
        let mut outcome = JudgeOutcome::default();
        let (start, count) = (octets.as_ptr(), octets.len());
        unsafe { raw::fio2070_judge_sent(&mut self.0, at, start, count, &mut outcome) };
        outcome
    }

    /// What a frame is that the module sent.
    pub fn heard(&mut self, octets: &[u8]) -> JudgeOutcome {
        let mut outcome = JudgeOutcome::default();
        let (start, count) = (octets.as_ptr(), octets.len());
        unsafe { raw::fio2070_judge_heard(&mut self.0, start, count, &mut outcome) };
        outcome
    }
}

/// The judge of a log: it says what each frame is that a reader finds, by what the log says of the lines between them too.
///
/// ```
/// use fio2070::{constants::*, LogJudge};
///
/// let mut judge = LogJudge::new(LOG_TAKEN_AUTO, LOG_BEGINS_ANYWHERE, 255, 1024).unwrap();
/// assert_eq!(judge.frame(true, LOG_FROM_CPU, &[0x36, 5]).kind, OUTCOME_KEPT);
/// judge.miss();
/// assert_eq!(judge.frame(true, LOG_FROM_CPU, &[0x36, 6]).kind, OUTCOME_KEPT);
/// assert_eq!(judge.frame(true, LOG_FROM_CPU, &[0x36, 7]).kind, OUTCOME_BROKEN);
/// ```
#[derive(Clone)]
pub struct LogJudge(RawLogJudge);

impl LogJudge {
    /// Above the first line of a log, taken at `place`, one of `constants::LOG_TAKEN_AUTO` and those after it, that begins as
    /// `start` says, one of `constants::LOG_BEGINS_ANYWHERE` and those after it, or that plus `constants::LOG_NEVER_LOADS`, of a
    /// module whose blocks have at most `per_block` entries, 1 to 255, and of which `waiting` may wait, 1 to 8,192. `None` where
    /// one of these two is out of its range.
    pub fn new(place: u8, start: u8, per_block: u8, waiting: u16) -> Option<LogJudge> {
        let limits = RawLimits::of(waiting, per_block);
        let mut judge = RawLogJudge::default();
        match unsafe { raw::fio2070_log_judge_start(&mut judge, limits, place, start) } {
            0 => Some(LogJudge(judge)),
            _ => None,
        }
    }

    /// A line may have held a frame, such as a damaged one; or below a frame another part of the log begins.
    pub fn lose(&mut self) {
        unsafe { raw::fio2070_log_judge_lose(&mut self.0) }
    }

    /// A line says a message which nothing confirms: below a frame, or if the log begins with both ends, it is as for `lose`.
    pub fn possible(&mut self) {
        unsafe { raw::fio2070_log_judge_possible(&mut self.0) }
    }

    /// A line without octets speaks of loss: nobody is accused of what a frame explains that is missing here.
    pub fn miss(&mut self) {
        unsafe { raw::fio2070_log_judge_miss(&mut self.0) }
    }

    /// What a frame is that the CPU sent, or the module. `said` is who sent it as its line says: one of
    /// `constants::LOG_NO_SIDE` and those after it, as in `Verdict::said`.
    pub fn frame(&mut self, from_cpu: bool, said: u8, octets: &[u8]) -> JudgeOutcome {
        let mut outcome = JudgeOutcome::default();
        let (start, count) = (octets.as_ptr(), octets.len());
        unsafe {
            raw::fio2070_log_judge_frame(
                &mut self.0,
                from_cpu.into(),
                said,
                start,
                count,
                &mut outcome,
            )
        };
        outcome
    }

    /// Takes the lines of a batch, in order, and returns what each of its frames is; these outcomes are written to the front of
    /// `outcomes`. Who sent a frame is said by its type; if `as_said` by its line, if that says it.
    pub fn batch<'a>(
        &mut self,
        as_said: bool,
        batch: &LogBatch,
        outcomes: &'a mut [JudgeOutcome; 20480],
    ) -> &'a [JudgeOutcome] {
        let as_said = as_said.into();
        let count =
            unsafe { raw::fio2070_log_judge_batch(&mut self.0, as_said, &batch.0, outcomes) };
        &outcomes[..count as usize]
    }
}

/// Counts of the frames of a log, which tell whether it looks like another one than the log of one link in order. They change
/// nothing of what a judge says of a frame.
///
/// ```
/// use fio2070::{constants::*, LogSigns};
///
/// let mut signs = LogSigns::new();
/// for number in 0..4 {
///     signs.frame(false, LOG_NO_SIDE, &[0xb6, number, 0, 0, 0, 0, 0, number]);
///     signs.frame(false, LOG_NO_SIDE, &[0xb6, number, 0, 0, 0, 0, 0, number]);
/// }
/// assert_eq!(signs.sign(), LOG_SIGN_TWICE);
/// ```
#[derive(Clone)]
pub struct LogSigns(RawLogSigns);

impl LogSigns {
    /// Above the first frame of a log.
    pub fn new() -> LogSigns {
        let mut signs = RawLogSigns::default();
        unsafe { raw::fio2070_log_signs_start(&mut signs) };
        LogSigns(signs)
    }

    /// Takes a frame that the CPU sent, or the module. `said` is as for `LogJudge::frame`. Give it each frame, in the order of
    /// the log.
    pub fn frame(&mut self, from_cpu: bool, said: u8, octets: &[u8]) {
        let (start, count) = (octets.as_ptr(), octets.len());
        unsafe { raw::fio2070_log_signs_frame(&mut self.0, from_cpu.into(), said, start, count) };
    }

    /// Takes the frames of a batch, in order. `as_said` is as for `LogJudge::batch`.
    pub fn batch(&mut self, as_said: bool, batch: &LogBatch) {
        unsafe { raw::fio2070_log_signs_batch(&mut self.0, as_said.into(), &batch.0) };
    }

    /// What kind of log it looks like by the frames down to here: one of `constants::LOG_SIGN_NONE` and those after it.
    pub fn sign(&self) -> u8 {
        unsafe { raw::fio2070_log_signs_sign(&self.0) }
    }
}
