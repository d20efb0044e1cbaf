//! The calls and structs of include/fio2070.h that the safe ones use.

/// Why octets are no message: 1 empty, 2 too long, 3 unknown type, 4 wrong length.
#[derive(Clone, Copy, Debug, Default, PartialEq, Eq)]
#[repr(C)]
pub struct Fault {
    pub kind: u8,
    pub code: u8,
    pub needed: u16,
    pub reserved: [u8; 4],
    pub got: u64,
}

/// A transition.
#[derive(Clone, Copy, Debug, Default, PartialEq, Eq)]
#[repr(C)]
pub struct Entry {
    pub input: u8,
    pub state: u8,
    pub stamp: u16,
}

/// How one input is read.
#[derive(Clone, Copy, Debug, Default, PartialEq, Eq)]
#[repr(C)]
pub struct ConfigurationItem {
    pub input: u8,
    pub ignore: bool,
    pub leading: u8,
    pub trailing: u8,
}

/// A line between the two ends, and what may have to be reported over it: bits in 1,000 scans, the scans until the module begins
/// its answer, bits of other traffic in a round, rounds lost in a row, entries that wait and that a block takes, open inputs and
/// their shortest filter, and stop bits, 0 for a synchronous line.
#[derive(Clone, Copy, Debug, Default, PartialEq, Eq)]
#[repr(C)]
pub struct Line {
    pub rate: u32,
    pub answer: u32,
    pub other: u32,
    pub lost: u16,
    pub waiting: u16,
    pub per_block: u8,
    pub inputs: u8,
    pub filter: u8,
    pub stop_bits: u8,
    pub drift: u16,
    pub jitter: u16,
}

/// A pace of a line, in scans; the load in thousandths.
#[derive(Clone, Copy, Debug, Default, PartialEq, Eq)]
#[repr(C)]
pub struct Pace {
    pub scans: u64,
    pub round: u64,
    pub late: u64,
    pub load: u64,
}

/// A command: the fields of its type; the others are 0.
#[derive(Clone, Copy, Debug, Default, PartialEq, Eq)]
#[repr(C)]
pub struct Command {
    pub code: u8,
    pub clear: u8,
    pub block: u8,
    pub timeout: u8,
    pub count: u8,
    pub reserved: u8,
    pub body: u16,
    pub load: u32,
    pub levels: [u8; 8],
    pub controls: [u8; 8],
}

/// An answer: the fields of its type; the others are 0.
#[derive(Clone, Copy, Debug, Default, PartialEq, Eq)]
#[repr(C)]
pub struct Answer {
    pub code: u8,
    pub flags: u8,
    pub receive_errors: u8,
    pub transmit_errors: u8,
    pub status: u8,
    pub block: u8,
    pub count: u8,
    pub reserved: [u8; 3],
    pub body: u16,
    pub stamp: u32,
    pub inputs: u64,
}

/// An item of the record: an entry with its time, or a gap.
#[derive(Clone, Copy, Debug, Default, PartialEq, Eq)]
#[repr(C)]
pub struct RecordItem {
    pub gap: bool,
    pub input: u8,
    pub state: u8,
    pub reserved: [u8; 3],
    pub stamp: u16,
    pub wide: u32,
}

#[repr(C)]
pub(crate) struct RawPoller {
    pub number: u8,
}

#[derive(Default)]
#[repr(C)]
pub(crate) struct RawHeard {
    pub kind: u8,
    pub code: u8,
    pub number: u8,
    pub status: u8,
    pub stamp: u32,
    pub items: u16,
    pub entries: u8,
    pub reserved: [u8; 5],
    pub fault: Fault,
}

#[repr(C)]
pub(crate) struct RawConfigured {
    pub kind: u8,
    pub reserved: [u8; 7],
    pub place: u64,
}

/// The data and control octets.
#[derive(Clone, Copy, Debug, Default, PartialEq, Eq)]
#[repr(C)]
pub struct Outputs {
    pub levels: [u8; 8],
    pub controls: [u8; 8],
}

/// How many errors the firmware counted.
#[derive(Clone, Copy, Debug, Default, PartialEq, Eq)]
#[repr(C)]
pub struct ErrorCounts {
    pub receive: u8,
    pub transmit: u8,
}

/// What a module is at present.
#[derive(Clone, Copy, Debug, Default, PartialEq, Eq)]
#[repr(C)]
pub struct State {
    pub filtered: u64,
    pub raw: u64,
    pub outputs: Outputs,
    pub counter: u32,
    pub waiting: u16,
    pub flags: u8,
    pub watchdog_ms: u8,
    pub errors: ErrorCounts,
    pub reserved: [u8; 6],
}

#[derive(Clone, Default)]
#[repr(C)]
pub(crate) struct RawCounter {
    pub value: u32,
    pub load: u32,
    pub is_asked: u8,
    pub reserved: [u8; 3],
}

/// The first rule that a frame breaks, from 1, and what was due where `has_due` is 1.
#[derive(Clone, Copy, Debug, Default, PartialEq, Eq)]
#[repr(C)]
pub struct Breach {
    pub rule: u8,
    pub has_due: bool,
    pub due: u8,
    pub got: u8,
}

#[derive(Clone, Default)]
#[repr(C)]
pub(crate) struct RawChecker {
    pub has_awaited: u8,
    pub awaited: u8,
    pub absent_named: u8,
    pub has_polled: u8,
    pub polled: u8,
    pub answered: u8,
    pub advanced: u8,
    pub more: u8,
    pub skips: u8,
    pub per_block: u8,
    pub waiting: u16,
    pub reserved: [u8; 4],
}

/// The first rule on content that a frame breaks: its number, from 1; the input of the entry that breaks it, or that whose
/// state is another, `NO_INPUT` for an answer; and how many items of the frame's block are recorded above the breach.
#[derive(Clone, Copy, Debug, Default, PartialEq, Eq)]
#[repr(C)]
pub struct ContentBreach {
    pub rule: u8,
    pub input: u8,
    pub items: u16,
}

/// What a frame is by its kind, one of `OUTCOME_KEPT` and those after it, and why: the reason of one that is excused or not judged;
/// the rule that it breaks, with what was due and what came, the input, `NO_INPUT` for none, and how many items of its block are
/// recorded above the breach.
#[derive(Clone, Copy, Debug, Default, PartialEq, Eq)]
#[repr(C)]
pub struct JudgeOutcome {
    pub kind: u8,
    pub why: u8,
    pub rule: u8,
    pub has_due: bool,
    pub due: u8,
    pub got: u8,
    pub input: u8,
    pub reserved: u8,
    pub items: u16,
}

/// The limits of a module: the most entries that wait, 1 to 8,192, and the most of a block, 1 to 255.
#[derive(Clone, Copy, Debug, PartialEq, Eq)]
#[repr(C)]
pub struct RawLimits {
    pub waiting: u16,
    pub per_block: u8,
    pub reserved: u8,
}

impl RawLimits {
    pub fn of(waiting: u16, per_block: u8) -> RawLimits {
        RawLimits {
            waiting,
            per_block,
            reserved: 0,
        }
    }
}

/// What the reader of logs says of a line.
#[derive(Clone, Copy, Debug, Default, PartialEq, Eq)]
#[repr(C)]
pub struct LogVerdict {
    pub line: u64,
    pub time: u64,
    pub frames: u32,
    pub places: u32,
    pub kind: u8,
    pub reason: u8,
    pub time_kind: u8,
    pub said: u8,
    pub address: u8,
    pub control: u8,
    pub header: u8,
    pub foreign: u8,
}

/// Where octets are written in a log: a line, and the indexes of its characters.
#[derive(Clone, Copy, Debug, Default, PartialEq, Eq)]
#[repr(C)]
pub struct LogPlace {
    pub line: u64,
    pub start: u32,
    pub end: u32,
}

#[derive(Clone, Copy)]
#[repr(C)]
pub(crate) struct RawLogBatch {
    pub verdict_count: u32,
    pub frame_count: u32,
    pub octet_count: u32,
    pub place_count: u32,
    pub verdicts: [LogVerdict; 4096],
    pub places: [LogPlace; 20480],
    pub lengths: [u16; 20480],
    pub octets: [u8; 65536],
}

/// Lines of one form: the number of the first one, from 1, or 0 if there is none; how many there are, and how many of them give no
/// frame; whether its frames repeat those above them, and are no frames of their own; and the text before the octets of the first
/// line (`before`).
#[derive(Clone, Copy, Debug, PartialEq, Eq)]
#[repr(C)]
pub struct LogReadAs {
    pub from: u64,
    pub lines: u64,
    pub damaged: u64,
    pub is_echo: bool,
    pub front_length: u8,
    pub reserved: [u8; 6],
    pub front: [u8; 120],
}

#[derive(Clone, Copy, Debug)]
#[repr(C)]
pub(crate) struct RawLogFormList {
    pub count: u32,
    pub reserved: [u8; 4],
    pub forms: [LogReadAs; 16],
}

/// A place of a log where a stretch ends, or transitions are lost: above a block answer. `cause` is one of `constants::SEAM_NONE` and
/// those after it.
#[derive(Clone, Copy, Debug, Default, PartialEq, Eq)]
#[repr(C)]
pub struct LogSeam {
    pub pause: u64,
    pub frame: u32,
    pub cause: u8,
    pub is_lost: u8,
    pub has_pause: u8,
    pub missing: u8,
}

/// What a log records of the transitions of one module, modulo 2^64: begin with `LogStretches::new`. The fields from `pause` on are the
/// library's own.
#[derive(Clone, Copy, Debug, PartialEq, Eq)]
#[repr(C)]
pub struct LogStretches {
    pub blocks: u64,
    pub transitions: u64,
    pub lost: u64,
    pub missing: u64,
    pub missing_blocks: u64,
    pub passed_over: u64,
    pub unknown: u64,
    pub restarts: u64,
    pub disbelieved: u64,
    pub timed: u64,
    pub timed_whole: u64,
    pub stamped: u64,
    pub stamped_whole: u64,
    pub loads: u64,
    pub longest_pause: u64,
    pub pause: u64,
    pub polled_at: u64,
    pub block_at: u64,
    pub stamp: u32,
    pub length: u16,
    pub entries: u8,
    pub number: u8,
    pub status: u8,
    pub has_block: u8,
    pub has_block_at: u8,
    pub has_polled_at: u8,
    pub has_pause: u8,
    pub is_loaded: u8,
    pub items: [u8; 773],
    pub reserved: [u8; 5],
}

/// What is counted of the frames of a log, modulo 2^64: begin with `LogCounts::new`. `waits` is 1 where the latest poll is not
/// answered yet; it is not counted as unanswered before the next command.
///
/// ```
/// use fio2070::LogCounts;
///
/// let mut counts = LogCounts::new();
/// assert_eq!(counts.frame(&[0x36, 5], Some(1_000_000)), None);
/// let block = [0xb6, 5, 1, 0x8c, 3, 0xe7, 0, 0, 0, 3, 0xe8];
/// assert_eq!(counts.frame(&block, Some(1_003_200)), Some(3_200));
/// assert_eq!((counts.polls, counts.inputs[12]), (1, 1));
/// ```
#[derive(Clone, Copy, Debug, PartialEq, Eq)]
#[repr(C)]
pub struct LogCounts {
    pub frames: u64,
    pub polls: u64,
    pub repeats: u64,
    pub unanswered: u64,
    pub marks: u64,
    pub entries: u64,
    pub restarts: u64,
    pub types: [u64; 256],
    pub inputs: [u64; 128],
    pub fills: [u64; 256],
    pub sent_at: u64,
    pub has_sent_at: u8,
    pub command: u8,
    pub has_command: u8,
    pub polled: u8,
    pub has_polled: u8,
    pub waits: u8,
    pub block: u8,
    pub has_block: u8,
    pub reset: u8,
    pub first_reset: u8,
    pub has_reset: u8,
    pub reserved: [u8; 5],
}

#[derive(Clone)]
#[repr(C)]
pub(crate) struct RawWire {
    pub octets: [u8; 777],
    pub phase: u8,
    pub held: u16,
    pub check: u16,
    pub address: u16,
    pub control: u16,
}

#[derive(Clone)]
#[repr(C)]
pub(crate) struct RawWireBits {
    pub octets: [u8; 777],
    pub phase: u8,
    pub ones: u8,
    pub pending: u8,
    pub value: u8,
    pub count: u8,
    pub full: u8,
    pub reserved: u8,
    pub held: u16,
    pub check: u16,
    pub address: u16,
    pub control: u16,
}

/// Structs that the calls alone read, as words of 64 bits.
macro_rules! opaque {
    ($($name:ident: $words:literal,)*) => {$(
        #[derive(Clone)]
        #[repr(C)]
        pub(crate) struct $name([u64; $words]);

        impl Default for $name {
            fn default() -> $name {
                $name([0; $words])
            }
        }
    )*};
}

opaque! {
    RawContentChecker: 87,
    RawFilters: 27,
    RawJudge: 91,
    RawLogJudge: 94,
    RawLogReader: 65536,
    RawLogSigns: 105,
    RawSizedModule: 132,
}

// The calls: written by tools/generate-layouts. Not each is used here.
#[allow(dead_code)]
#[rustfmt::skip]
extern "C" {
    pub(crate) fn fio2070_encode_answer(answer: &Answer, entries: *const Entry,
        entries_count: usize, body: *const u8, body_count: usize, out: *mut u8,
        out_count: usize) -> usize;
    pub(crate) fn fio2070_decode_answer(octets: *const u8, octets_count: usize,
        answer: &mut Answer) -> Fault;
    pub(crate) fn fio2070_block_entries(octets: *const u8, octets_count: usize, entries: *mut Entry,
        entries_count: usize) -> usize;
    pub(crate) fn fio2070_checker_start(checker: &mut RawChecker);
    pub(crate) fn fio2070_checker_start_within(checker: &mut RawChecker, limits: RawLimits) -> u8;
    pub(crate) fn fio2070_checker_start_anywhere(checker: &mut RawChecker, limits: RawLimits) -> u8;
    pub(crate) fn fio2070_checker_sent(checker: &mut RawChecker, octets: *const u8,
        octets_count: usize, breach: &mut Breach) -> u8;
    pub(crate) fn fio2070_checker_heard(checker: &mut RawChecker, octets: *const u8,
        octets_count: usize, breach: &mut Breach) -> u8;
    pub(crate) fn fio2070_encode_command(command: &Command, items: *const ConfigurationItem,
        items_count: usize, body: *const u8, body_count: usize, out: *mut u8,
        out_count: usize) -> usize;
    pub(crate) fn fio2070_decode_command(octets: *const u8, octets_count: usize,
        command: &mut Command) -> Fault;
    pub(crate) fn fio2070_command_items(octets: *const u8, octets_count: usize,
        items: *mut ConfigurationItem, items_count: usize) -> usize;
    pub(crate) fn fio2070_content_start(content: &mut RawContentChecker);
    pub(crate) fn fio2070_content_start_begun(content: &mut RawContentChecker);
    pub(crate) fn fio2070_content_sent(content: &mut RawContentChecker, octets: *const u8,
        octets_count: usize);
    pub(crate) fn fio2070_content_heard(content: &mut RawContentChecker, octets: *const u8,
        octets_count: usize, breach: &mut ContentBreach) -> u8;
    pub(crate) fn fio2070_counter_start(counter: &mut RawCounter);
    pub(crate) fn fio2070_counter_tick(counter: &mut RawCounter);
    pub(crate) fn fio2070_counter_ask_load(counter: &mut RawCounter, number: u32);
    pub(crate) fn fio2070_counter_line_sync(counter: &mut RawCounter);
    pub(crate) fn fio2070_counter_now(counter: &RawCounter) -> u32;
    pub(crate) fn fio2070_widen(answer_stamp: u32, low: u16) -> u32;
    pub(crate) fn fio2070_filters_start(filters: &mut RawFilters);
    pub(crate) fn fio2070_filters_scan(filters: &mut RawFilters, raw: u64) -> u64;
    pub(crate) fn fio2070_filters_filtered(filters: &RawFilters) -> u64;
    pub(crate) fn fio2070_filters_raw(filters: &RawFilters) -> u64;
    pub(crate) fn fio2070_filters_configure(filters: &mut RawFilters,
        items: *const ConfigurationItem, items_count: usize) -> RawConfigured;
    pub(crate) fn fio2070_judge_start_anywhere(judge: &mut RawJudge, limits: RawLimits) -> u8;
    pub(crate) fn fio2070_judge_start_begun(judge: &mut RawJudge, limits: RawLimits) -> u8;
    pub(crate) fn fio2070_judge_lose(judge: &mut RawJudge);
    pub(crate) fn fio2070_judge_sent(judge: &mut RawJudge, at: u8, octets: *const u8,
        octets_count: usize, outcome: &mut JudgeOutcome) -> u8;
    pub(crate) fn fio2070_judge_heard(judge: &mut RawJudge, octets: *const u8, octets_count: usize,
        outcome: &mut JudgeOutcome) -> u8;
    pub(crate) fn fio2070_log_start(reader: &mut RawLogReader, form: u8);
    pub(crate) fn fio2070_log_read(reader: &mut RawLogReader, octets: *const u8,
        octets_count: usize, batch: &mut RawLogBatch) -> usize;
    pub(crate) fn fio2070_log_end(reader: &mut RawLogReader);
    pub(crate) fn fio2070_log_counts_start(counts: &mut LogCounts);
    pub(crate) fn fio2070_log_counts_lose(counts: &mut LogCounts);
    pub(crate) fn fio2070_log_counts_frame(counts: &mut LogCounts, has_time: u8, time: u64,
        octets: *const u8, octets_count: usize, taken: &mut u64) -> u8;
    pub(crate) fn fio2070_log_counts_batch(counts: &mut LogCounts, batch: &RawLogBatch,
        taken: &mut [u64; 20480]) -> u32;
    pub(crate) fn fio2070_log_forms(reader: &mut RawLogReader, forms: &mut RawLogFormList);
    pub(crate) fn fio2070_log_like(reader: &mut RawLogReader, octets: *const u8,
        octets_count: usize) -> u32;
    pub(crate) fn fio2070_log_judge_start(judge: &mut RawLogJudge, limits: RawLimits, place: u8,
        start: u8) -> u8;
    pub(crate) fn fio2070_log_judge_lose(judge: &mut RawLogJudge);
    pub(crate) fn fio2070_log_judge_possible(judge: &mut RawLogJudge);
    pub(crate) fn fio2070_log_judge_miss(judge: &mut RawLogJudge);
    pub(crate) fn fio2070_log_judge_frame(judge: &mut RawLogJudge, from_cpu: u8, said: u8,
        octets: *const u8, octets_count: usize, outcome: &mut JudgeOutcome) -> u8;
    pub(crate) fn fio2070_log_judge_batch(judge: &mut RawLogJudge, as_said: u8, batch: &RawLogBatch,
        outcomes: &mut [JudgeOutcome; 20480]) -> u32;
    pub(crate) fn fio2070_log_batch_part(batch: &RawLogBatch, mask: *const u8, mask_count: usize,
        part: &mut RawLogBatch) -> u32;
    pub(crate) fn fio2070_log_signs_start(signs: &mut RawLogSigns);
    pub(crate) fn fio2070_log_signs_frame(signs: &mut RawLogSigns, from_cpu: u8, said: u8,
        octets: *const u8, octets_count: usize);
    pub(crate) fn fio2070_log_signs_batch(signs: &mut RawLogSigns, as_said: u8,
        batch: &RawLogBatch);
    pub(crate) fn fio2070_log_signs_sign(signs: &RawLogSigns) -> u8;
    pub(crate) fn fio2070_log_stretches_start(stretches: &mut LogStretches);
    pub(crate) fn fio2070_log_stretches_batch(stretches: &mut LogStretches, batch: &RawLogBatch,
        outcomes: &[JudgeOutcome; 20480], seams: &mut [LogSeam; 20480]) -> u32;
    pub(crate) fn fio2070_sized_module_makers_command(device: &mut RawSizedModule,
        octets: *const u8, octets_count: usize) -> u8;
    pub(crate) fn fio2070_sized_module_answer_other(device: &mut RawSizedModule, command: u8,
        body: *const u8, body_count: usize, out: *mut u8, out_count: usize) -> usize;
    pub(crate) fn fio2070_plan(line: &Line, pace: &mut Pace) -> u8;
    pub(crate) fn fio2070_poller_start(poller: &mut RawPoller, number: u8);
    pub(crate) fn fio2070_poller_poll(poller: &RawPoller, out: *mut u8, out_count: usize) -> usize;
    pub(crate) fn fio2070_poller_hear(poller: &mut RawPoller, octets: *const u8,
        octets_count: usize, items: *mut RecordItem, items_count: usize) -> RawHeard;
    pub(crate) fn fio2070_show(octets: *const u8, octets_count: usize, text: *mut u8,
        text_count: usize) -> usize;
    pub(crate) fn fio2070_sized_module_start(device: &mut RawSizedModule, id: u8,
        limits: RawLimits) -> u8;
    pub(crate) fn fio2070_sized_module_restart(device: &mut RawSizedModule);
    pub(crate) fn fio2070_sized_module_scan(device: &mut RawSizedModule, ring: *mut [u8; 3],
        ring_count: usize, raw: u64);
    pub(crate) fn fio2070_sized_module_line_sync(device: &mut RawSizedModule);
    pub(crate) fn fio2070_sized_module_raise(device: &mut RawSizedModule, mask: u8);
    pub(crate) fn fio2070_sized_module_set_errors(device: &mut RawSizedModule, receive: u8,
        transmit: u8);
    pub(crate) fn fio2070_sized_module_count_receive_error(device: &mut RawSizedModule);
    pub(crate) fn fio2070_sized_module_count_transmit_error(device: &mut RawSizedModule);
    pub(crate) fn fio2070_sized_module_receive(device: &mut RawSizedModule, ring: *mut [u8; 3],
        ring_count: usize, octets: *const u8, octets_count: usize, out: *mut u8,
        out_count: usize) -> usize;
    pub(crate) fn fio2070_sized_module_state(device: &RawSizedModule) -> State;
    pub(crate) fn fio2070_fault_text(fault: &Fault, text: *mut u8, text_count: usize) -> usize;
    pub(crate) fn fio2070_rule_text(rule: u8, text: *mut u8, text_count: usize) -> usize;
    pub(crate) fn fio2070_content_rule_text(rule: u8, text: *mut u8, text_count: usize) -> usize;
    pub(crate) fn fio2070_heard_text(heard: &RawHeard, text: *mut u8, text_count: usize) -> usize;
    pub(crate) fn fio2070_version() -> u32;
    pub(crate) fn fio2070_wire_start(wire: &mut RawWire, address: u16, control: u16);
    pub(crate) fn fio2070_wire_read(wire: &mut RawWire, octets: *const u8, octets_count: usize,
        heard: &mut u8) -> usize;
    pub(crate) fn fio2070_wire_lose(wire: &mut RawWire);
    pub(crate) fn fio2070_wire_message_length(wire: &RawWire) -> usize;
    pub(crate) fn fio2070_wire_write(address: u8, control: u8, message: *const u8,
        message_count: usize, out: *mut u8, out_count: usize) -> usize;
    pub(crate) fn fio2070_wire_check(octets: *const u8, octets_count: usize) -> u16;
    pub(crate) fn fio2070_wire_bits_start(bits: &mut RawWireBits, address: u16, control: u16);
    pub(crate) fn fio2070_wire_bits_read(bits: &mut RawWireBits, octets: *const u8,
        octets_count: usize, heard: &mut u8) -> usize;
    pub(crate) fn fio2070_wire_bits_message_length(bits: &RawWireBits) -> usize;
}
