//! The reader of logs.

use crate::raw::{
    self, LogPlace, LogReadAs, LogVerdict, RawLogBatch, RawLogFormList, RawLogReader,
};

/// A reader of a log, which takes its octets in pieces of any length. It has half a megabyte: keep it in a static or a box.
pub struct LogReader(RawLogReader);

impl LogReader {
    /// Above the first line. `form` is `constants::LOG_AUTO`, or by order `LOG_FRAMES` or `LOG_TRANSCRIPT`.
    pub fn new(form: u8) -> LogReader {
        let mut reader = RawLogReader::default();
        // SAFETY: `reader` is room for a reader, borrowed by this call alone.
        unsafe { raw::fio2070_log_start(&mut reader, form) };
        LogReader(reader)
    }

    /// Learns forms from sample lines, before octets of the log are read, and returns how many: 0 if they show none.
    pub fn like(&mut self, samples: &[u8]) -> usize {
        // SAFETY: a slice is initialised memory of its length; the reader was begun by `_start`.
        unsafe { raw::fio2070_log_like(&mut self.0, samples.as_ptr(), samples.len()) as usize }
    }

    /// By which forms the lines are read that have a verdict, in the order of the forms.
    pub fn forms(&mut self) -> Forms {
        let mut forms = RawLogFormList {
            count: 0,
            reserved: [0; 4],
            forms: [NO_LINES; 16],
        };
        // SAFETY: the reader was begun by `_start`.
        unsafe { raw::fio2070_log_forms(&mut self.0, &mut forms) };
        Forms(forms)
    }

    /// Takes octets until all are taken or the batch has no room for another verdict, and returns how many it took. The
    /// batch then has the verdicts that were due. After the end, once each verdict was given, octets begin a new log of the
    /// same form, whose lines are counted from 1.
    pub fn read(&mut self, octets: &[u8], batch: &mut LogBatch) -> usize {
        // SAFETY: a slice is initialised memory of its length; the reader was begun by `_start`.
        unsafe { raw::fio2070_log_read(&mut self.0, octets.as_ptr(), octets.len(), &mut batch.0) }
    }

    /// Ends the log. Read no octets then, until the batch has no verdicts.
    pub fn end(&mut self) {
        // SAFETY: the reader was begun by `_start`.
        unsafe { raw::fio2070_log_end(&mut self.0) };
    }
}

/// A form that no line has.
const NO_LINES: LogReadAs = LogReadAs {
    from: 0,
    lines: 0,
    damaged: 0,
    is_echo: false,
    front_length: 0,
    reserved: [0; 6],
    front: [0; 120],
};

/// The forms by which a log is read: a line is read by the first one that has it.
#[derive(Clone, Copy, Debug)]
pub struct Forms(RawLogFormList);

impl Forms {
    /// Each form: the text before its octets in the first line that it has, and how many lines it has.
    pub fn iter(&self) -> impl Iterator<Item = &LogReadAs> + '_ {
        self.0.forms[..self.0.count as usize].iter()
    }
}

impl LogReadAs {
    /// The text before the octets of the first line that was read by it, or its end.
    pub fn before(&self) -> &[u8] {
        &self.front[..usize::from(self.front_length)]
    }
}

/// Verdicts on lines of a log. It is some 600 KB.
pub struct LogBatch(pub(crate) RawLogBatch);

impl LogBatch {
    /// A batch without verdicts.
    pub const fn new() -> LogBatch {
        const NO_VERDICT: LogVerdict = LogVerdict {
            line: 0,
            time: 0,
            frames: 0,
            places: 0,
            kind: 0,
            reason: 0,
            time_kind: 0,
            said: 0,
            address: 0,
            control: 0,
            header: 0,
            foreign: 0,
        };
        const NO_PLACE: LogPlace = LogPlace {
            line: 0,
            start: 0,
            end: 0,
        };
        LogBatch(RawLogBatch {
            verdict_count: 0,
            frame_count: 0,
            octet_count: 0,
            place_count: 0,
            verdicts: [NO_VERDICT; 4096],
            places: [NO_PLACE; 20480],
            lengths: [0; 20480],
            octets: [0; 65536],
        })
    }

    /// Writes a part of a batch over this one, and returns how many frames it has: the lines that `mask` has 1 for, those that it has
    /// 2 for as damaged, and blank ones in place of the others. It has no places.
    pub fn take_part(&mut self, batch: &LogBatch, mask: &[u8]) -> usize {
        let (octets, count) = (mask.as_ptr(), mask.len());
        // SAFETY: a slice is initialised memory of its length.
        unsafe { raw::fio2070_log_batch_part(&batch.0, octets, count, &mut self.0) as usize }
    }

    /// The verdicts, in the order of the lines.
    pub fn verdicts(&self) -> impl Iterator<Item = Verdict<'_>> + '_ {
        let (mut lengths, mut octets) = (&self.0.lengths[..], &self.0.octets[..]);
        let mut places = &self.0.places[..];
        self.0.verdicts[..self.0.verdict_count as usize]
            .iter()
            .map(move |verdict| {
                let (counts, more) = lengths.split_at(verdict.frames as usize);
                let (said, rest) =
                    octets.split_at(counts.iter().map(|count| usize::from(*count)).sum());
                let (here, below) = places.split_at(verdict.places as usize);
                lengths = more;
                octets = rest;
                places = below;
                Verdict {
                    line: verdict.line,
                    kind: verdict.kind,
                    reason: verdict.reason,
                    time: Some(verdict.time).filter(|_| verdict.time_kind != 0),
                    time_kind: verdict.time_kind,
                    said: verdict.said,
                    address: Some(verdict.address).filter(|_| verdict.header > 0),
                    control: Some(verdict.control).filter(|_| verdict.header > 1),
                    foreign: Some(verdict.foreign).filter(|code| *code > 0),
                    size: Some(verdict.control).filter(|size| verdict.header == 0 && *size > 0),
                    frames: Frames {
                        lengths: counts,
                        octets: said,
                    },
                    places: here,
                }
            })
    }
}

/// What the reader says of a line of a log.
#[derive(Clone, Debug)]
pub struct Verdict<'a> {
    /// The number of the line, from 1.
    pub line: u64,
    /// One of `constants::LOG_BLANK` and those after it.
    pub kind: u8,
    /// Why it gives no frame: one of `constants::LOG_NO_REASON` and those after it.
    pub reason: u8,
    /// The time in microseconds, from what `time_kind` says.
    pub time: Option<u64>,
    /// What it counts from: one of `constants::LOG_NO_TIME` and those after it.
    pub time_kind: u8,
    /// Who sent its octets, as the line says: one of `constants::LOG_NO_SIDE` and those after it.
    pub said: u8,
    /// The address that stands before its messages, if all have one and the same.
    pub address: Option<u8>,
    /// The control octet behind the address.
    pub control: Option<u8>,
    /// The type of the message that the line has in place of frames, if this protocol has none of that type, or none of that size; or
    /// 183, if its only frame answers such a 55 in the line above. If such a line is passed over, no frame of it is one of the link.
    pub foreign: Option<u8>,
    /// How many octets of inputs or of outputs that message has, if it is a 55, 180 or 181 of a module of another size.
    pub size: Option<u8>,
    /// Its frames, each of which spells a message.
    pub frames: Frames<'a>,
    /// Where the octets of the frames are written.
    pub places: &'a [LogPlace],
}

/// The frames of a verdict, each as its octets.
#[derive(Clone, Debug)]
pub struct Frames<'a> {
    lengths: &'a [u16],
    octets: &'a [u8],
}

impl<'a> Iterator for Frames<'a> {
    type Item = &'a [u8];

    fn next(&mut self) -> Option<&'a [u8]> {
        let (length, lengths) = self.lengths.split_first()?;
        let (frame, octets) = self.octets.split_at(usize::from(*length));
        self.lengths = lengths;
        self.octets = octets;
        Some(frame)
    }
}
