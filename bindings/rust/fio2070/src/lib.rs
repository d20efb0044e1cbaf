//! The field I/O transition link of the Model 2070, by the proved library libfio2070.a.
//!
//! Ranges, errors and sources are those of include/fio2070.h. Nothing here allocates. The feature `std`, which is on by
//! default, gives the types of errors `std::error::Error`: without it the crate is `no_std`.
//!
//! ```
//! use fio2070::{Heard, Module, Poller, RecordItem, LONGEST_FRAME, MOST_RECORD_ITEMS};
//!
//! let mut module = Module::new(2, 255).unwrap();
//! let mut poller = Poller::new(0);
//! let mut items = [RecordItem::default(); MOST_RECORD_ITEMS];
//! let (mut poll, mut answer) = ([0; 2], [0; LONGEST_FRAME]);
//! let frame = module.receive(poller.poll(&mut poll).unwrap(), &mut answer).unwrap();
//! match poller.hear(frame, &mut items) {
//!     Heard::Taken { items: count, .. } => println!("{:?}", &items[..count]),
//!     other => panic!("{other:?}"),
//! }
//! assert_eq!(poller.number(), 1);
//! ```
#![no_std]
#[cfg(feature = "std")]
extern crate std;

/// The example of the crate's page, as a test.
#[cfg(doctest)]
#[doc = include_str!("../README.md")]
struct Readme;

pub mod constants;
mod counts;
mod encode;
mod ends;
mod errors;
mod judges;
mod logs;
mod raw;
mod stretches;
mod wire;
mod written;

pub use encode::{encode_answer, encode_command};
pub use ends::{AnswerRefusal, Checker, ContentChecker, Counter, Filters, Heard, Module, Poller};
pub use errors::ConfigurationError;
pub use judges::{LinkJudge, LogJudge, LogSigns};
pub use logs::{Forms, Frames, LogBatch, LogReader, Verdict};
pub use raw::{
    Answer, Breach, Command, ConfigurationItem, ContentBreach, Entry, ErrorCounts, Fault,
    JudgeOutcome, Line, LogCounts, LogPlace, LogReadAs, LogSeam, LogStretches, Outputs, Pace,
    RecordItem, State,
};
pub use wire::{wire_check, wire_frame, Wire, WireBits, WireHeard};
pub use written::Unwritten;

use constants::LONGEST_TEXT;
use core::fmt;
use written::{front, text};

pub use constants::{LONGEST_FRAME, MOST_ENTRIES, MOST_RECORD_ITEMS};

/// What these are by default: new.
macro_rules! new_by_default {
    ($($name:ident),*) => {$(
        impl Default for $name {
            fn default() -> $name {
                $name::new()
            }
        }
    )*};
}

new_by_default! { Checker, ContentChecker, Counter, Filters, LogSigns, LogCounts, LogStretches, LogBatch }

impl fmt::Display for Fault {
    /// As `fio2070 show` writes it.
    fn fmt(&self, formatter: &mut fmt::Formatter<'_>) -> fmt::Result {
        // SAFETY: `out` is initialised and has as many octets as `room` says.
        let write = |out, room| unsafe { raw::fio2070_fault_text(self, out, room) };
        formatter.write_str(text(&mut [0; LONGEST_TEXT], write).unwrap_or(""))
    }
}

fn read<T>(fault: Fault, message: T) -> Result<T, Fault> {
    match fault.kind {
        0 => Ok(message),
        _ => Err(fault),
    }
}

/// Reads any command.
pub fn decode_command(octets: &[u8]) -> Result<Command, Fault> {
    let mut command = Command::default();
    // SAFETY: a slice is initialised memory of its length, and `command` is borrowed by this call alone.
    let fault = unsafe { raw::fio2070_decode_command(octets.as_ptr(), octets.len(), &mut command) };
    read(fault, command)
}

/// Reads any answer.
pub fn decode_answer(octets: &[u8]) -> Result<Answer, Fault> {
    let mut answer = Answer::default();
    // SAFETY: as in `decode_command`.
    let fault = unsafe { raw::fio2070_decode_answer(octets.as_ptr(), octets.len(), &mut answer) };
    read(fault, answer)
}

/// Copies the entries of a block answer to the front of `entries`.
pub fn block_entries<'a>(
    octets: &[u8],
    entries: &'a mut [Entry],
) -> Result<&'a [Entry], Unwritten> {
    // SAFETY: both slices are initialised memory of their lengths and do not overlap.
    front(entries, |out, room| unsafe {
        raw::fio2070_block_entries(octets.as_ptr(), octets.len(), out, room)
    })
}

/// Copies the items of a configuration to the front of `items`.
pub fn command_items<'a>(
    octets: &[u8],
    items: &'a mut [ConfigurationItem],
) -> Result<&'a [ConfigurationItem], Unwritten> {
    // SAFETY: both slices are initialised memory of their lengths and do not overlap.
    front(items, |out, room| unsafe {
        raw::fio2070_command_items(octets.as_ptr(), octets.len(), out, room)
    })
}

/// Writes what `fio2070 show` writes of a frame, and a zero octet after it, which needs room too.
pub fn show<'a>(octets: &[u8], out: &'a mut [u8]) -> Result<&'a str, Unwritten> {
    // SAFETY: both slices are initialised memory of their lengths and do not overlap.
    text(out, |out, room| unsafe {
        raw::fio2070_show(octets.as_ptr(), octets.len(), out, room)
    })
}

/// Writes the name of a rule, such as `advance`, and a zero octet after it, which needs room too; the empty
/// text for what is no rule.
pub fn rule_text(rule: u8, out: &mut [u8]) -> Result<&str, Unwritten> {
    // SAFETY: `out` is initialised and has as many octets as `room` says.
    text(out, |out, room| unsafe {
        raw::fio2070_rule_text(rule, out, room)
    })
}

/// The same of a rule on content, such as `order`.
pub fn content_rule_text(rule: u8, out: &mut [u8]) -> Result<&str, Unwritten> {
    // SAFETY: as in `rule_text`.
    text(out, |out, room| unsafe {
        raw::fio2070_content_rule_text(rule, out, room)
    })
}

/// The least pace at which a line can be polled, so that each round ends before the next one and nothing is lost; `None` if the
/// line has no pace, or its numbers are out of range.
pub fn plan(line: &Line) -> Option<Pace> {
    let mut pace = Pace::default();
    // SAFETY: references.
    let planned = unsafe { raw::fio2070_plan(line, &mut pace) };
    (planned == constants::PACE_FOUND).then_some(pace)
}

/// The time in milliseconds, modulo 2^32, of an entry with this stamp in an answer with that one.
pub fn widen(answer_stamp: u32, stamp: u16) -> u32 {
    // SAFETY: numbers alone.
    unsafe { raw::fio2070_widen(answer_stamp, stamp) }
}
