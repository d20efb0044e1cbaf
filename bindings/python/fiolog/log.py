"""The files of a command line, read by the reader, with what is said of it on standard error."""

import bz2
import codecs
import errno
import itertools
import lzma
import os
import sys
import zlib
from collections import Counter

from . import captures
from .batch import made_of
from .event import BAD, BLANK, DAMAGED, DROPPED, FRAME, LOSSES, PASSED, POSSIBLE, text_of
from .counts import reasons_in_words
from .reader import Reader
from .terminal import say, shown, status

CHUNK = 1 << 16
# A file of fewer octets is read at once.
SHORT = 1 << 22
# How a file begins that a program packed, its name, and what unpacks it.
PACKERS = ((b'\x1f\x8b\x08', 'gzip', lambda: zlib.decompressobj(zlib.MAX_WBITS | 16)), (b'\xfd7zXZ\0', 'xz', lzma.LZMADecompressor),
           (tuple(b'BZh%d1AY&SY' % level for level in range(1, 10)), 'bzip2', bz2.BZ2Decompressor))
_MARKS = ((codecs.BOM_UTF8, 'utf-8'), (codecs.BOM_UTF16_LE, 'utf-16-le'), (codecs.BOM_UTF16_BE, 'utf-16-be'))


def decoded(chunks, is_text=True, begins=lambda first: None):
    """The octets as UTF-8, without a byte order mark if they are a text, and unpacked; of captured packets the lines. `begins`
    is called with the first octets."""
    first = next(chunks, b'')
    for beginning, name, begun in PACKERS:
        if first.startswith(beginning):
            chunks = _unpacked(name, begun, first, chunks)
            first = next(chunks, b'')
            break
    begins(first)
    mark, name = next((one for one in _MARKS if is_text and first.startswith(one[0])), (b'', ''))
    chunks = itertools.chain([first[len(mark):]], chunks)
    if is_text and captures.is_capture(first):
        return captures.lines_of(chunks)
    decode = name and codecs.getincrementaldecoder(name)('replace').decode
    return (decode(chunk).encode('utf-8', 'surrogatepass') for chunk in chunks) if name else chunks


def _unpacked(name, begun, packed, chunks):
    """The octets that a program packed, piece by piece; if the stream ends early or is damaged, what can be read of it."""
    stream = begun()
    try:
        while packed or _has_more(stream) or (packed := next(chunks, b'')):
            if stream.eof:
                stream = begun()
            piece = stream.decompress(packed, CHUNK)
            packed = stream.unused_data if stream.eof else getattr(stream, 'unconsumed_tail', b'')
            if piece:
                yield piece
        if not stream.eof:
            say('the file packed by %s ends early: what is there is read' % name)
    except (zlib.error, lzma.LZMAError, OSError) as fault:
        if getattr(fault, 'filename', None):
            raise
        say('the file packed by %s is damaged: what comes before is read (%s)' % (name, fault))


def _has_more(stream):
    """Whether what unpacks has more without further octets."""
    return not stream.eof and not getattr(stream, 'needs_input', True)


def _chunks_of(descriptor, name, seen, idle):
    """The octets of a file descriptor, piece by piece, each as soon as it comes. `seen` is called with the number of octets
    that were read, `idle` before each read. A fault has the name."""
    while True:
        idle()
        try:
            chunk = os.read(descriptor, CHUNK)
        except OSError as fault:
            fault.filename = 'standard input' if name == '-' else name
            raise
        if not chunk:
            return
        seen(len(chunk))
        yield chunk


def _opened(name):
    """The file descriptor of a file, or of standard input for `-`. A folder is an OSError."""
    if name != '-' and os.path.isdir(name):
        raise IsADirectoryError(errno.EISDIR, os.strerror(errno.EISDIR), name)
    return sys.stdin.fileno() if name == '-' else os.open(name, os.O_RDONLY)


def settings_of(option):
    """The reader's settings, by the options of the command line."""
    return {'form': option.format, 'pattern': option.pattern, 'line': option.line, 'address': option.address, 'like': option.like}


def has_several(option):
    """Whether the files of the command line are several logs."""
    return len(option.files) > 1 and not option.merge


class Log:
    """Goes through the lines of the files. `idle` is called before each read that may wait. If the command writes
    as it reads, `writes` is true: then a terminal has no progress bar beside what is written. If it `goes_on`, a file that cannot be read
    does not end it."""

    def __init__(self, option, idle=lambda: None, writes=True, goes_on=False):
        self.option, self.idle, self.writes = option, idle, writes
        self.readers, self.name = [Reader(**settings_of(option)) for _ in option.files], '-'
        self.has_several = has_several(option)
        self.balance = 0    # of how many more frames the log says another sender than that of their type: above 0 it is of the module's end
        self.judgements, self.unjudged = [], Counter()  # of each file that is judged, and what of them is not, by its reason
        self.others = Counter()     # of frames that are judged for no station, by what is said of them
        self.goes_on, self.faults = goes_on, {}     # why files cannot be read, by their names
        self.sign, self.is_shifted = '', False      # of files that are merged: what kind of log they are, and whether the times of one are shifted
        self._first = None      # the octets with which the first file begins
        self._unnamed = []      # lines of the present batch that are to be named, each with its index

    def total(self, name):
        """The sum of what the readers counted: `kinds`, `reasons` or `others`."""
        return sum((getattr(reader, name) for reader in self.readers), Counter())

    @property
    def kinds(self):
        """How many lines of each kind there are."""
        return self.total('kinds')

    @property
    def reasons(self):
        """How many lines are passed over for each reason."""
        return self.total('reasons')

    @property
    def damaged(self):
        """How many lines are damaged."""
        return self.kinds[DAMAGED]

    def logs(self):
        """Each log as what counts its lines, and its lines: file after file, or all files in the order of time. With -v lines that are skipped
        are named before the next batch, or as far as the command asks for it by `name_passed`."""
        if self.option.merge:
            self.name = self.option.files[0]
            yield self, self._named(self._merged())
        else:
            for self.name, reader in zip(self.option.files, self.readers):
                yield reader, self._named(self._of_file(self.name, reader))

    def batches(self):
        """All lines."""
        for _, batches in self.logs():
            yield from batches

    def _named(self, batches):
        for batch in self._readable(batches) if self.goes_on else batches:
            self._unnamed = [one for one in batch.others if one[1].kind in (PASSED, *LOSSES)] if self.option.verbose else []
            yield batch
            self.name_passed(len(batch.kinds))

    def _readable(self, batches):
        """These lines, to the end of what can be read."""
        try:
            yield from batches
        except OSError as fault:
            if fault.filename not in (self.name, 'standard input'):
                raise
            self.faults[self.name] = fault.strerror or str(fault)
            say('%s: %s' % (shown(self.name), self.faults[self.name]))

    def empty(self):
        """The names of several files, of those without a frame that could be read."""
        return [name for name, reader in zip(self.option.files, self.readers)
                if self.has_several and name not in self.faults and not reader.kinds[FRAME] + reader.kinds[BAD]]

    def name_passed(self, line):
        """Names the lines that are passed over above this one of the batch."""
        while self._unnamed and self._unnamed[0][0] < line:
            event = self._unnamed.pop(0)[1]
            say((shown(self.name) + ' ' if self.has_several else event.head) + event.words)

    def events(self):
        """The events of all lines."""
        for batch in self.batches():
            yield from self.events_of(batch)

    def events_of(self, batch):
        """The events of the lines of the present batch; lines that are skipped are named."""
        for line, event in batch.numbered():
            if self._unnamed:
                self.name_passed(line + 1)
            yield event

    def _merged(self):
        """The lines of all files as of one log."""
        from . import merge, shift
        streams = [self._octets_of(name) for name in self.option.files]
        firsts = [next(stream, b'') for stream in streams]
        if self.option.format == 'auto' and not (self.option.like or self.option.pattern or self.option.line):
            for reader, samples in zip(self.readers, merge.samples_of(firsts)):
                reader.learn(samples)
        both = merge.Merge([merge.File(name, (event for batch in reader.read(itertools.chain([first], stream)) for event in batch.events()))
                            for name, reader, first, stream in zip(self.option.files, self.readers, firsts, streams)])
        self.sign, self.is_shifted = both.sign, both.shifted is not None
        if self.is_shifted:
            say('the clocks of the files differ: the times of %s are taken as %s, so that each answer is below its command' % (
                shown(both.shifted.name), shift.in_words(both.shifted.shift)))
        yield from made_of(both, self.readers[0].as_said)
        if both.is_apart:
            say('one file ends before another begins: are they of the same link and the same time?')

    def _of_file(self, name, reader):
        return reader.read(self._octets_of(name))

    def _octets_of(self, name):
        """The octets of a file, decoded."""
        descriptor = _opened(name)
        if not self.option.quiet and os.isatty(descriptor):
            say('reading from the terminal: to read a log, name its file after the command')

        def begins(first):
            self._first = first if self._first is None else self._first
        yield from decoded(_chunks_of(descriptor, name, self._progress(descriptor), self.idle), not self.option.line, begins)
        status.clear()
        if descriptor != sys.stdin.fileno():
            os.close(descriptor)

    def _progress(self, descriptor):
        """A function that takes how many octets more of a file were read. On a terminal it shows how much of a long file that is, unless
        standard output is the terminal too and the command writes as it reads."""
        size, count = os.fstat(descriptor).st_size, 0
        if self.option.quiet or size < SHORT or self.writes and sys.stdout.isatty():
            return lambda octets: None

        def add(octets):
            nonlocal count
            shown_above, count = 100 * count // size, count + octets
            if 100 * count // size != shown_above:
                status.show('reading %d %%' % (100 * count // size))
        return add

    def summary(self, says_forms=False):
        """Says how many lines were passed over and why and, if the command `says_forms`, how the others were read; false without a
        frame."""
        kinds = self.kinds
        found = kinds[FRAME] + kinds[BAD]
        for words in () if self.option.quiet else [*(read_as_words(*self.read_as()) if says_forms else ()), *self._remarks(kinds)]:
            say(words)
        if not (self.option.quiet and found):
            say_others(self.total('others') + self.others)
        if not found:
            say(self._why())
            return False
        return True

    def read_as(self):
        """By which forms lines were read, and how many lines no form has."""
        read = [(reader.count - reader.kinds[BLANK], forms) for reader in self.readers if (forms := reader.forms())]
        forms = [one for _, some in read for one in some]
        return forms, sum(count for count, _ in read) - sum(one.lines for one in forms)

    def _why(self):
        """Why there is no frame."""
        from . import files
        kind, lines = files.kind_of(self._first or b''), self._lines()
        of_line = next(filter(None, (reader.words() for reader in self.readers)), '')
        return of_line or (files.words(kind) if kind else 'no frame in %d line%s: docs/CAPTURES.md says what is read' % (lines, 's' * (lines != 1)))

    def _lines(self):
        return sum(reader.count for reader in self.readers)

    def _remarks(self, kinds):
        """What is said of the lines that give no frame."""
        passed, possible, damaged, dropped, lines = kinds[PASSED], kinds[POSSIBLE], self.damaged, kinds[DROPPED], self._lines()
        reasons, names = self.reasons, '' if self.option.verbose else ' (-v names each)'
        if passed:
            yield '%d of %d line%s skipped: %s%s' % (passed, lines, 's' * (lines != 1), reasons_in_words(reasons), names)
        for reader in self.readers:
            yield from reader.sizes()
        if damaged:
            yield '%d damaged line%s may have held a frame: nobody is accused up to the next poll%s' % (damaged, 's' * (damaged > 1), names)
        if dropped:
            yield '%d line%s octets that are in no frame: nobody is accused up to the next poll%s' % (
                dropped, ' has' if dropped == 1 else 's have', names)
        if possible:
            yield '%d line%s may be a message, and ha%s no form of this log: to read such, give one by --like%s' % (
                possible, 's' * (possible > 1), 's' if possible == 1 else 've', names)


def read_as_words(forms, others):
    """How lines were read: a line for each form, and in the last one how many lines no form has."""
    ends = [''] * (len(forms) - 1) + ['; no form: %s' % lines_words(others) if others > 0 else '']
    for one, end in zip(forms, ends):
        damaged = ', {:,} damaged'.format(one.damaged) if one.damaged else ''
        copies = ', which repeat the frames above' if one.is_echo else ''
        yield 'read as "%s" <octets>: %s%s%s%s' % (shown(text_of(one.front)), lines_words(one.lines), damaged, copies, end)


def lines_words(count):
    """How many lines there are."""
    return '{:,} line{}'.format(count, 's' * (count != 1))


def forms_numbers(forms, others):
    """How lines were read, by name."""
    return {'read_as': [{'front': shown(text_of(one.front)), 'first_line': one.first, 'lines': one.lines, 'damaged': one.damaged,
                         'is_copy': one.is_echo} for one in forms], 'lines_of_no_form': max(others, 0)}


def say_others(others):
    """Says of which addresses frames are not judged."""
    for words, count in others.most_common():
        say('%d frame%s %s (--address)' % (count, 's' * (count > 1), words))
