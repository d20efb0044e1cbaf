//! Both ends of the link, and the filters.

use crate::constants::{LONGEST_TEXT, NOT_AWAITED, OTHER_AWAITED, STANDARD_WAITING};
use crate::errors::ConfigurationError;
use crate::raw::{
    self, Breach, ConfigurationItem, ContentBreach, Fault, RawChecker, RawContentChecker,
    RawCounter, RawFilters, RawHeard, RawLimits, RawPoller, RawSizedModule, RecordItem, State,
};
use crate::written::{front, text, Unwritten};
use crate::LONGEST_FRAME;
use core::fmt;

// SAFETY of the calls below: slices are given with their lengths, all memory is initialised and,
// where it is written, borrowed by the call alone; the structs are begun by `_start`.

/// What a poller heard.
#[derive(Clone, Copy, Debug, PartialEq, Eq)]
pub enum Heard {
    /// A block was taken; this many items were written. The stamp is the module's millisecond counter when the block was
    /// made.
    Taken {
        number: u8,
        stamp: u32,
        entries: u8,
        status: u8,
        items: usize,
    },
    /// No answer.
    Unreadable(Fault),
    /// An answer of another type.
    Other(u8),
    /// A block with this number, another than the present one.
    Stale { number: u8, stamp: u32 },
    /// A block with the present number adds this many items, for which there is no room.
    NoRoom {
        number: u8,
        stamp: u32,
        items: usize,
    },
}

impl fmt::Display for Heard {
    /// As `fio2070 simulate` writes it.
    fn fmt(&self, formatter: &mut fmt::Formatter<'_>) -> fmt::Result {
        let mut heard = RawHeard::default();
        match *self {
            Heard::Taken {
                entries, status, ..
            } => (heard.kind, heard.entries, heard.status) = (0, entries, status),
            Heard::Unreadable(fault) => (heard.kind, heard.fault) = (1, fault),
            Heard::Other(code) => (heard.kind, heard.code) = (2, code),
            Heard::Stale { number, .. } => (heard.kind, heard.number) = (3, number),
            Heard::NoRoom { items, .. } => (heard.kind, heard.items) = (4, items as u16),
        }
        let write = |out, room| unsafe { raw::fio2070_heard_text(&heard, out, room) };
        formatter.write_str(text(&mut [0; LONGEST_TEXT], write).unwrap_or(""))
    }
}

/// The CPU's end.
pub struct Poller(RawPoller);

impl Poller {
    /// The first poll asks for the block with this number. A CPU that goes on with the number that it kept loses nothing
    /// and records nothing twice; one that starts anew with that of the module's last poll records its block again.
    pub fn new(number: u8) -> Poller {
        let mut poller = RawPoller { number: 0 };
        unsafe { raw::fio2070_poller_start(&mut poller, number) };
        Poller(poller)
    }

    /// The number of the block that the next poll asks for.
    pub fn number(&self) -> u8 {
        self.0.number
    }

    /// Writes a poll with the present number to the front of `out`.
    pub fn poll<'a>(&self, out: &'a mut [u8]) -> Result<&'a [u8], Unwritten> {
        // SAFETY: `room` is the length of the buffer at `out`, which the call alone borrows.
        front(out, |out, room| unsafe {
            raw::fio2070_poller_poll(&self.0, out, room)
        })
    }

    /// Takes a block with the present number whole, and writes what it adds to the record to the front
    /// of `items`; 256 are always enough. Anything else changes nothing.
    pub fn hear(&mut self, octets: &[u8], items: &mut [RecordItem]) -> Heard {
        let heard = unsafe {
            raw::fio2070_poller_hear(
                &mut self.0,
                octets.as_ptr(),
                octets.len(),
                items.as_mut_ptr(),
                items.len(),
            )
        };
        let (number, stamp, items) = (heard.number, heard.stamp, usize::from(heard.items));
        match heard.kind {
            0 => Heard::Taken {
                number,
                stamp,
                entries: heard.entries,
                status: heard.status,
                items,
            },
            1 => Heard::Unreadable(heard.fault),
            2 => Heard::Other(heard.code),
            3 => Heard::Stale { number, stamp },
            _ => Heard::NoRoom {
                number,
                stamp,
                items,
            },
        }
    }
}

/// A checker of what the CPU's end sends and hears. Below a breach it goes on as one that starts at
/// the next poll.
#[derive(Clone)]
pub struct Checker(RawChecker);

impl Checker {
    /// Above the first frame, of a module with the limits of TEES 2009.
    pub fn new() -> Checker {
        let mut checker = RawChecker::default();
        unsafe { raw::fio2070_checker_start(&mut checker) };
        Checker(checker)
    }

    /// As `new`, of a module whose blocks have at most `per_block` entries, 1 to 255, and of which `waiting` may wait,
    /// 1 to 8,192. `None` where one is out of its range.
    pub fn within(per_block: u8, waiting: u16) -> Option<Checker> {
        Checker::started_by(raw::fio2070_checker_start_within, per_block, waiting)
    }

    /// As `within`, above the first frame of a log that begins anywhere: what the CPU heard above the first frame that it sent
    /// is not judged.
    pub fn anywhere(per_block: u8, waiting: u16) -> Option<Checker> {
        Checker::started_by(raw::fio2070_checker_start_anywhere, per_block, waiting)
    }

    fn started_by(
        start: unsafe extern "C" fn(&mut RawChecker, RawLimits) -> u8,
        per_block: u8,
        waiting: u16,
    ) -> Option<Checker> {
        let mut checker = RawChecker::default();
        match unsafe { start(&mut checker, RawLimits::of(waiting, per_block)) } {
            0 => Some(Checker(checker)),
            _ => None,
        }
    }

    /// The breach of a frame that the CPU sent.
    pub fn sent(&mut self, octets: &[u8]) -> Option<Breach> {
        self.breach_by(raw::fio2070_checker_sent, octets)
    }

    /// The breach of a frame that the CPU heard.
    pub fn heard(&mut self, octets: &[u8]) -> Option<Breach> {
        self.breach_by(raw::fio2070_checker_heard, octets)
    }

    fn breach_by(
        &mut self,
        take: unsafe extern "C" fn(&mut RawChecker, *const u8, usize, &mut Breach) -> u8,
        octets: &[u8],
    ) -> Option<Breach> {
        let mut breach = Breach::default();
        let rule = unsafe { take(&mut self.0, octets.as_ptr(), octets.len(), &mut breach) };
        (rule != 0).then_some(breach)
    }
}

/// A checker of the rules on content, which judges answers, and the entries of each block that a poller takes
/// whose first number is that of the first poll sent.
#[derive(Clone)]
pub struct ContentChecker(RawContentChecker);

impl ContentChecker {
    /// Above the first frame of a log, which may begin anywhere: what the CPU heard above the first frame that it sent is
    /// not judged.
    pub fn new() -> ContentChecker {
        let mut content = RawContentChecker::default();
        unsafe { raw::fio2070_content_start(&mut content) };
        ContentChecker(content)
    }

    /// Above the first frame of a log that begins with the start of both ends: it finds more.
    pub fn begun() -> ContentChecker {
        let mut content = RawContentChecker::default();
        unsafe { raw::fio2070_content_start_begun(&mut content) };
        ContentChecker(content)
    }

    /// Takes a frame that the CPU sent.
    pub fn sent(&mut self, octets: &[u8]) {
        unsafe { raw::fio2070_content_sent(&mut self.0, octets.as_ptr(), octets.len()) }
    }

    /// The first rule that a frame breaks which the CPU heard. All of the frame is taken.
    pub fn heard(&mut self, octets: &[u8]) -> Option<ContentBreach> {
        let mut breach = ContentBreach::default();
        let rule = unsafe {
            raw::fio2070_content_heard(&mut self.0, octets.as_ptr(), octets.len(), &mut breach)
        };
        (rule != 0).then_some(breach)
    }
}

/// The millisecond counter.
#[derive(Clone)]
pub struct Counter(RawCounter);

impl Counter {
    /// At 0, with no load asked for.
    pub fn new() -> Counter {
        let mut counter = RawCounter::default();
        unsafe { raw::fio2070_counter_start(&mut counter) };
        Counter(counter)
    }

    /// One step, from 4,294,967,295 to 0.
    pub fn tick(&mut self) {
        unsafe { raw::fio2070_counter_tick(&mut self.0) }
    }

    /// The next line sync loads this number.
    pub fn ask_load(&mut self, number: u32) {
        unsafe { raw::fio2070_counter_ask_load(&mut self.0, number) }
    }

    /// LINESYNC goes from 0 to 1.
    pub fn line_sync(&mut self) {
        unsafe { raw::fio2070_counter_line_sync(&mut self.0) }
    }

    /// The milliseconds counted, modulo 2^32.
    pub fn now(&self) -> u32 {
        unsafe { raw::fio2070_counter_now(&self.0) }
    }
}

/// The filters of the 64 inputs. Bit i of a word is input i.
#[derive(Clone)]
pub struct Filters(RawFilters);

impl Filters {
    /// Each input is ignored, both its filters are 5, and its raw level and filtered state are 1.
    pub fn new() -> Filters {
        let mut filters = RawFilters::default();
        unsafe { raw::fio2070_filters_start(&mut filters) };
        Filters(filters)
    }

    /// Applies the items in order, or none.
    pub fn configure(&mut self, items: &[ConfigurationItem]) -> Result<(), ConfigurationError> {
        let done =
            unsafe { raw::fio2070_filters_configure(&mut self.0, items.as_ptr(), items.len()) };
        match done.kind {
            0 => Ok(()),
            1 => Err(ConfigurationError::AbsentInput {
                place: done.place as usize,
            }),
            _ => Err(ConfigurationError::TooManyItems),
        }
    }

    /// Samples each input. A one for each that is not ignored and whose filtered state changed.
    pub fn scan(&mut self, raw: u64) -> u64 {
        unsafe { raw::fio2070_filters_scan(&mut self.0, raw) }
    }

    /// The filtered states, also of ignored inputs.
    pub fn filtered(&self) -> u64 {
        unsafe { raw::fio2070_filters_filtered(&self.0) }
    }

    /// The levels of the last scan, all 1 before any.
    pub fn raw(&self) -> u64 {
        unsafe { raw::fio2070_filters_raw(&self.0) }
    }
}

/// Why an answer of the module's maker is refused.
#[derive(Clone, Copy, Debug, PartialEq, Eq)]
pub enum AnswerRefusal {
    /// None is awaited: it was given, or the octets asked about last are no command of the maker.
    NotAwaited,
    /// The answer to a command of another type is awaited.
    OtherAwaited,
    /// The body has more than 772 octets.
    TooLong,
}

impl fmt::Display for AnswerRefusal {
    fn fmt(&self, formatter: &mut fmt::Formatter<'_>) -> fmt::Result {
        formatter.write_str(match self {
            AnswerRefusal::NotAwaited => "no answer is awaited",
            AnswerRefusal::OtherAwaited => "the answer to another command is awaited",
            AnswerRefusal::TooLong => "the body has more than 772 octets",
        })
    }
}

#[cfg(feature = "std")]
impl std::error::Error for AnswerRefusal {}

/// A field I/O module of which `WAITING` entries may wait.
#[derive(Clone)]
pub struct Module<const WAITING: usize = STANDARD_WAITING> {
    raw: RawSizedModule,
    ring: [[u8; 3]; WAITING],
}

impl Module {
    /// As `sized`, for the 1,024 waiting entries of TEES 2009.
    pub fn new(id: u8, per_block: u8) -> Option<Module> {
        Module::sized(id, per_block)
    }
}

impl<const WAITING: usize> Module<WAITING> {
    /// It answers `id` to command 60; its blocks have at most `per_block` entries. `None` where that is 0, and
    /// where `WAITING` is not 1 to 8,192.
    pub fn sized(id: u8, per_block: u8) -> Option<Self> {
        let limits = RawLimits::of(u16::try_from(WAITING).ok()?, per_block);
        let mut raw = RawSizedModule::default();
        match unsafe { raw::fio2070_sized_module_start(&mut raw, id, limits) } {
            0 => Some(Module {
                raw,
                ring: [[0; 3]; WAITING],
            }),
            _ => None,
        }
    }

    /// Starts anew with the same id and limits; both error counts are 0.
    pub fn restart(&mut self) {
        unsafe { raw::fio2070_sized_module_restart(&mut self.raw) }
    }

    /// Steps the counter by one millisecond, and samples each input; bit i of `raw` is input i.
    pub fn scan(&mut self, raw: u64) {
        unsafe {
            raw::fio2070_sized_module_scan(&mut self.raw, self.ring.as_mut_ptr(), WAITING, raw)
        }
    }

    /// LINESYNC goes from 0 to 1: a load of the counter that was asked for happens now.
    pub fn line_sync(&mut self) {
        unsafe { raw::fio2070_sized_module_line_sync(&mut self.raw) }
    }

    /// Sets the flags whose bits are one.
    pub fn raise(&mut self, mask: u8) {
        unsafe { raw::fio2070_sized_module_raise(&mut self.raw, mask) }
    }

    /// Sets the error counts that the answer 177 has from now on.
    pub fn set_errors(&mut self, receive: u8, transmit: u8) {
        unsafe { raw::fio2070_sized_module_set_errors(&mut self.raw, receive, transmit) }
    }

    /// Counts one more error in receiving; 255 stays 255.
    pub fn count_receive_error(&mut self) {
        unsafe { raw::fio2070_sized_module_count_receive_error(&mut self.raw) }
    }

    /// Counts one more error in transmitting; 255 stays 255.
    pub fn count_transmit_error(&mut self) {
        unsafe { raw::fio2070_sized_module_count_transmit_error(&mut self.raw) }
    }

    /// The answer to a frame, written to the front of `out`; `None` where there is none, and where the octets
    /// spell no command.
    pub fn receive<'a>(
        &mut self,
        octets: &[u8],
        out: &'a mut [u8; LONGEST_FRAME],
    ) -> Option<&'a [u8]> {
        match unsafe {
            raw::fio2070_sized_module_receive(
                &mut self.raw,
                self.ring.as_mut_ptr(),
                WAITING,
                octets.as_ptr(),
                octets.len(),
                out.as_mut_ptr(),
                LONGEST_FRAME,
            )
        } {
            0 => None,
            count => out.get(..count),
        }
    }

    /// The type and the body of the command in a frame that was received, if the maker of the module answers it: 56, 57, 59 or
    /// 60. Its answer is awaited from then on.
    pub fn makers_command<'a>(&mut self, octets: &'a [u8]) -> Option<(u8, &'a [u8])> {
        match unsafe {
            raw::fio2070_sized_module_makers_command(&mut self.raw, octets.as_ptr(), octets.len())
        } {
            0 => None,
            command => Some((command, octets.get(1..)?)),
        }
    }

    /// The maker's answer to a command of this type with this body, written to the front of `out`, once for each
    /// `makers_command`. If it is refused nothing changes.
    pub fn answer_other<'a>(
        &mut self,
        command: u8,
        body: &[u8],
        out: &'a mut [u8; LONGEST_FRAME],
    ) -> Result<&'a [u8], AnswerRefusal> {
        match unsafe {
            raw::fio2070_sized_module_answer_other(
                &mut self.raw,
                command,
                body.as_ptr(),
                body.len(),
                out.as_mut_ptr(),
                LONGEST_FRAME,
            )
        } {
            NOT_AWAITED => Err(AnswerRefusal::NotAwaited),
            OTHER_AWAITED => Err(AnswerRefusal::OtherAwaited),
            count => out.get(..count).ok_or(AnswerRefusal::TooLong),
        }
    }

    /// What the module is at present.
    pub fn state(&self) -> State {
        unsafe { raw::fio2070_sized_module_state(&self.raw) }
    }
}
