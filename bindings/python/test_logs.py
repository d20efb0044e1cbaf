"""Logs by the package: what a reader says of lines, and that what takes a batch says what takes them one by one."""

import unittest
from unittest import mock

import fio2070

LOG = b'07:15:02.000 RX b6 05 01 8c 03 e7 00 00 00 03 e8\nno octets\n\n'


class Logs(unittest.TestCase):
    def test_many_lines(self):
        # More verdicts than a batch takes.
        reader = fio2070.LogReader()
        verdicts = reader.read(b'\n' * 10000) + reader.end()
        self.assertEqual([one.line for one in verdicts], list(range(1, 10001)))

    def test_large_piece(self):
        # The library gets a few times the octets of a piece, however large it is.
        text, counts, read = b'\n' * 2**18, [], fio2070.logs.c.library.fio2070_log_read

        def counted(reader, octets, length, batch):
            counts.append(length)
            return read(reader, octets, length, batch)
        with mock.patch.object(fio2070.logs.c.library, 'fio2070_log_read', counted):
            self.assertEqual(len(fio2070.LogReader().read(text)), len(text))
        self.assertLess(sum(counts), 10 * len(text))

    def test_next_log(self):
        # After the end octets begin a log of the same form.
        for form, text in (('auto', LOG + b'last'), ('frames', b'3605\n36'), ('transcript', b'> 3605\n3605')):
            reader = fio2070.LogReader(form)
            first = reader.read(text) + reader.end()
            for _ in range(3):
                self.assertEqual(reader.end(), [])
                self.assertEqual(reader.read(b''), [])
                self.assertEqual(reader.read(text) + reader.end(), first)

    def test_forms(self):
        self.assertRaises(ValueError, fio2070.LogReader, 'other')
        self.assertEqual(fio2070.LogReader().forms(), [])
        reader = fio2070.LogReader()
        reader.read(LOG + b'07:15:03.000 RX b6 06 00 00 00 00 00 01\n07:15:04.000 RX b6 05 01\n')
        reader.end()
        self.assertEqual(reader.forms(), [fio2070.ReadAs(b'07:15:02.000 RX ', 1, 3, 1, False)])

    def test_like(self):
        # By a sample a log is read from its first line on, whatever else it has. Once the log has begun nothing is learnt.
        for samples, form, count in ((LOG, 'auto', 1), (b'no octets\n', 'auto', 0), (b'', 'auto', 0), (LOG, 'frames', 0), (LOG, 'transcript', 0)):
            self.assertEqual(fio2070.LogReader(form).like(samples), count)
        reader = fio2070.LogReader()
        self.assertEqual(reader.like(LOG), 1)
        self.assertEqual([one.frames for one in reader.read(b'07:15:04.000 RX b3 00\nRX\n')], [(bytes([179, 0]),), ()])
        self.assertEqual(reader.like(LOG), 0)
        self.assertRaises(TypeError, reader.like, 'RX b3 00')

    def test_ended(self):
        # What waits is said as if the log ended here; the reader reads on.
        reader = fio2070.LogReader()
        for _ in range(2):
            other = reader.ended()
        reader.read(LOG)
        other = reader.ended()
        self.assertEqual([one.kind for one in other.end()], ['frames', 'passed over', 'blank'])
        self.assertEqual([one.kind for one in reader.read(LOG) + reader.end()], 2 * ['frames', 'passed over', 'blank'])

    def test_end(self):
        # The library is asked until a batch has no verdicts.
        reader, library = fio2070.LogReader(), fio2070.logs.c.library
        reader.read(b'last')
        with mock.patch.object(library, 'fio2070_log_read', wraps=library.fio2070_log_read) as read:
            self.assertEqual(len(reader.end()), 1)
        self.assertEqual(read.call_count, 2)

    def test_longest_frame_by_order(self):
        text = b'3b' * 773 + b'\n' + b'3b' * 774 + b'\n'
        self.assertEqual(fio2070.LogReader('frames').read(text), [
            (1, 'frames', '', (b';' * 773,), ((1, 0, 1546),), None, '', b'', 0, 0, ''), (2, 'damaged', 'no message', (), (), None, '', b'', 0, 0, '')])

    def test_long_line_by_order(self):
        for first, verdict in ((b'#', ('blank', '')), (b'3', ('damaged', 'too long'))):
            reader = fio2070.LogReader('frames')
            self.assertEqual(reader.read(first * 70000 + b'\n'), [(1, *verdict, (), (), None, '', b'', 0, 0, '')])


class LogBatches(unittest.TestCase):
    """What takes a batch says the same as what takes its lines one by one."""

    TEXT = LOG + b''.join(b'07:15:%02d TX 36 %02x\n07:15:%02d.004 RX b6 %02x 00 00 00 00 00 %02x\n' % (turn, turn + turn // 5, turn, turn, turn)
                          for turn in range(30)) + b'07:16:00.004 RX b6 0? 00\n3 messages lost\n07:16:01 TX 36 40\nfrom another log 36 41\n'

    @staticmethod
    def one_by_one(verdicts, as_said=False):
        judge, counts, signs, found, taken = fio2070.LogJudge(), fio2070.LogCounts(), fio2070.LogSigns(), [], []
        for one in verdicts:
            is_dropped = one.reason == 'broken' or one.kind == 'frames' and one.reason != ''
            if one.kind == 'possible':
                judge.possible()
            elif one.reason == 'heading' and found:
                judge.lose()
            elif one.reason == 'loss':
                judge.miss()
            elif one.kind == 'damaged' or is_dropped:
                judge.lose()
            if one.kind in ('possible', 'damaged') or one.reason in ('loss', 'heading') or is_dropped:
                counts.lose()
            for octets in one.frames if one.kind == 'frames' else ():
                from_cpu = one.said == '>' if as_said and one.said else octets[0] < 128
                found.append(judge.frame(octets, from_cpu, one.said))
                signs.frame(octets, from_cpu, one.said)
                taken.append(counts.frame(octets, one.time))
            if is_dropped and one.frames:
                judge.lose()
                counts.lose()
        return [one for one in found if one.kind], [one for one in taken if one is not None], counts, signs.sign

    def test_same(self):
        reader, judge, counts, signs = fio2070.LogReader(), fio2070.LogJudge(), fio2070.LogCounts(), fio2070.LogSigns()
        verdicts, found, taken = [], [], []
        for batches in (reader.batches(self.TEXT), reader.last_batches()):
            for batch in batches:
                verdicts += batch.verdicts()
                found += [outcome for _, outcome in judge.batch(batch)]
                taken += counts.batch(batch)
                signs.batch(batch)
        outcomes, times, single, sign = self.one_by_one(verdicts)
        self.assertEqual((found, taken, bytes(counts._counts), signs.sign), (outcomes, times, bytes(single._counts), sign))
        self.assertGreater(len(outcomes), 3)
        self.assertGreater(len(times), 20)
        self.assertEqual((counts.command, counts.polled), (None, 64))
        counts.frame(bytes([54, 5]))
        self.assertEqual((counts.command, counts.polled), (54, 5))

    def test_as_said(self):
        # Each answer is there twice, and its line says that the CPU sent it: that is no answer, so no sign.
        text, signs = ''.join(2 * ('TX b6 %02x 00 00 00 00 00 01\n' % number) for number in range(4)).encode(), {}
        reader = fio2070.LogReader()
        verdicts = reader.read(text) + reader.end()
        for as_said in (False, True):
            batch, judge, sign = fio2070.LogBatch(verdicts), fio2070.LogJudge(), fio2070.LogSigns()
            sign.batch(batch, as_said)
            outcomes, _, _, signs[as_said] = self.one_by_one(verdicts, as_said)
            self.assertEqual(([one for _, one in judge.batch(batch, as_said)], sign.sign), (outcomes, signs[as_said]))
            self.assertEqual(outcomes[0].breach is not None, as_said)
        self.assertEqual(signs, {False: 'twice', True: ''})

    def test_zero(self):
        # The time 0 is one; a frame without octets has the type 0.
        verdicts = [fio2070.Verdict(number, 'frames', '', frames, (), time, '', time_kind='' if time is None else 'start') for number, frames, time in (
            (1, (b'', bytes([54, 5]), b''), 0), (2, (bytes([54]),), None), (3, (b'',), 7))]
        batch = fio2070.LogBatch(verdicts)
        self.assertEqual(batch.verdicts(), verdicts)
        self.assertEqual([batch.told(index).time for index in range(3)], [0, None, 7])
        self.assertEqual((batch.time_kinds, batch.types()), (bytes([3, 0, 3]), bytes([0, 54, 0, 54, 0])))
        reader = fio2070.LogReader()
        self.assertEqual([one.time for one in reader.read(b'00:00:00 RX b6 05 00 00 00 00 00 01\n') + reader.end()], [0])
        self.assertRaises(ValueError, fio2070.LogBatch, [verdicts[0]._replace(time_kind='')])

    def test_kinds_of_times(self):
        times = {'1970-01-01 00:00:07': 'date', 'Jan  1 00:00:07': 'date', '2000-00-00 00:00:07': 'day', '00:00:07': 'day', '12:00:07 AM': 'day',
                 '1000000007': 'date', '7.000': 'start', '[    7.000000]': 'start', '7': ''}
        for time, kind in times.items():
            reader = fio2070.LogReader()
            line = ('%s RX b6 05 00 00 00 00 00 01\n' % time).encode()
            one, = reader.read(line) + reader.end()
            self.assertEqual((one.time_kind, one.time), (kind, (kind != '') * (7 + 10 ** 9 * (time[:2] == '10')) * 10 ** 6 or None), time)

    def test_counts(self):
        counts = fio2070.LogCounts()
        frames = (('3605', 10), ('b605018c03e704000003e8', 40), ('3606', None), ('3606', None), ('b180000000000001', None),
                  ('b100000000000002', None), ('b180000000000003', None))
        self.assertEqual([counts.frame(bytes.fromhex(octets), time) for octets, time in frames], [None, 30, *5 * [None]])
        self.assertEqual((counts.frames, counts.polls, counts.repeats, counts.unanswered, counts.waits), (7, 3, 1, 1, True))
        self.assertEqual((counts.marks, counts.entries, counts.restarts, counts.reset, counts.first_reset), (1, 1, 1, True, True))
        self.assertEqual((counts.types, counts.inputs, counts.fills), ({54: 3, 182: 1, 177: 3}, {12: 1}, {1: 1}))

    def test_limits(self):
        for kind in (fio2070.LinkJudge, fio2070.LogJudge):
            self.assertTrue(kind(255, 8192) and kind(1, 1))
            for limits in ((255, 8193), (256, 8192), (255, 0), (0, 8192)):
                self.assertRaises(ValueError, kind, *limits)

    def test_made(self):
        reader = fio2070.LogReader()
        verdicts = reader.read(self.TEXT) + reader.end()
        batch = fio2070.LogBatch(verdicts)
        self.assertEqual(batch.verdicts(), verdicts)
        self.assertEqual((len(batch), repr(batch)), (len(verdicts), '<LogBatch lines=%d frames=%d>' % (len(verdicts), batch.frame_count)))
        self.assertEqual((batch.numbers(), batch.frames()), ([one.line for one in verdicts], [octets for one in verdicts for octets in one.frames]))
        self.assertEqual(batch.types(), bytes(octets[0] for octets in batch.frames()))
        self.assertEqual(batch.times(), [one.time or 0 for one in verdicts])
        self.assertEqual((batch.frame_counts(), batch.place_count), ([len(one.frames) for one in verdicts], sum(len(one.places) for one in verdicts)))
        self.assertEqual([fio2070.LogJudge().batch(fio2070.LogBatch()), fio2070.LogBatch().types()], [[], b''])
        batch.set_side(0, fio2070.constants.LOG_FROM_CPU)
        self.assertEqual((batch.told(0).said, batch.sides[0]), ('>', 1))
        self.assertEqual(batch.reasons, bytes(fio2070.log_batches._REASONS.index(one.reason) for one in verdicts))
        self.assertRaises(ValueError, fio2070.LogBatch, verdicts * 100)

    def test_parts(self):
        frames = [[b'\x36\x05'], [], [b'\xb6\x05', b'\x36\x06'], [b'\x36\x07'], [b'']]
        verdicts = [fio2070.Verdict(line, 'frames' if some else 'possible', '' if some else 'no form', tuple(some), (), None, '')
                    for line, some in enumerate(frames, 1)]
        batch = fio2070.LogBatch(verdicts)
        for mask, kinds, lines in ((b'\1\1\1\1\1', [1, 3, 1, 1, 1], frames), (b'\1\0\0\1\0', [1, 0, 0, 1, 0], [frames[0], [], [], frames[3], []]),
                                   (b'\2\1\1\0\1', [4, 3, 1, 0, 1], [[], [], frames[2], [], frames[4]]), (bytes(5), [0] * 5, [[]] * 5)):
            own = [octets for some in lines for octets in some]
            for part in batch.parts([mask]):
                found = part.verdicts()
                self.assertEqual(([*part.kinds], [list(one.frames) for one in found]), (kinds, lines))
                self.assertEqual((part.frames(), part.frame_count, part.frame_counts()), (own, len(own), [len(some) for some in lines]))
                self.assertEqual((part.types(), part.last_frames(2)), (bytes(octets[0] if octets else 0 for octets in own), own[-2:]))
                self.assertEqual([one.reason for one in found], ['no message' if how == 2 else one.reason * how for how, one in zip(mask, verdicts)])
                counts, judge = fio2070.LogCounts(), fio2070.LogJudge()
                counts.batch(part)
                alone = [fio2070.LogBatch([one]) for one in found if one.kind != 'blank']
                self.assertEqual(counts.frames, len(own))
                expected = [one for part in alone for _, one in judge.batch(part)]
                self.assertEqual([one for _, one in fio2070.LogJudge().batch(part)], expected)
        self.assertEqual(batch.verdicts(), verdicts)

    # Polls with their answers, and below the later ones outputs of a module of 16, and the answer to these.
    OF_SIZES = ['> 36%02x\n< b6%02x0000%08x\n' % (number, number, number) + '> 37f0f0ffff\n< b70000000001\n' * (number > 19) for number in range(29)]

    def test_passed_over(self):
        """Messages of a module of another size, and the answers to them, are passed over, if more than three exchanges show that they are no
        damage, above and in their own batch; it gives no frames of those."""
        def told(pieces):
            reader = fio2070.LogReader()
            found = [one for piece in pieces for one in reader.read(piece.encode())] + reader.end()
            return [(one.kind, one.foreign, one.size, len(one.frames)) for one in found]
        polled = [('frames', 0, 0, 1)] * 2
        damaged = polled + [('damaged', 55, 2, 0), ('frames', 183, 0, 1)]
        passed = polled + [('passed over', 55, 2, 0), ('passed over', 183, 0, 0)]
        for count, expected in ((23, damaged * 3), (24, passed * 4), (29, passed * 9)):
            self.assertEqual(told([''.join(self.OF_SIZES[:count])]), polled * 20 + expected)
        self.assertEqual(told(''.join(self.OF_SIZES).splitlines(keepends=True)), polled * 20 + damaged * 4 + passed * 5)

    def test_made_of_sizes(self):
        verdicts = [fio2070.Verdict(1, 'damaged', 'no message', (), (), None, '', b'', 55, 15), fio2070.Verdict(2, 'frames', '', (b'\xb7\0', b'\x36\1'), (), 7, '<', b'\x14', time_kind='day')]
        batch = fio2070.LogBatch(verdicts)
        self.assertEqual((batch.verdicts(), batch.foreign, batch.sizes[0], batch.told(0).size), (verdicts, bytes([55, 0]), 15, 15))
        self.assertEqual((batch.last_frames(1), batch.last_frames(9)), ([b'\x36\1'], [b'\xb7\0', b'\x36\1']))

    def test_never_loads(self):
        """No lost line is a load of the counter, down to a load in the log."""
        def outcomes(*frames, **settings):
            judge = fio2070.LogJudge(never_loads=True, **settings)
            kinds = []
            for digits in frames:
                judge.lose() if not digits else kinds.append(judge.frame(bytes.fromhex(digits), digits < '8').kind)
            return kinds
        above, below = ('3605', 'b6050000000003e8', '', '3606'), ('b60600000000000a', '3607')
        restarted, excused = fio2070.constants.OUTCOME_RESTARTED, fio2070.constants.OUTCOME_EXCUSED
        for settings in {}, {'begun': True}, {'place': 'bus'}:
            self.assertEqual(outcomes(*above, *below, **settings)[3], restarted)
            self.assertEqual(outcomes('3200000000', 'b200', *above, *below, **settings)[5], excused)
            self.assertEqual(outcomes('3200000000', 'b200', *above, *below, 'b607000000000010', '', '3608', 'b608000000000001', **settings)[-1], excused)
        self.assertNotIn(excused, outcomes(*above, *below, late_answers=True))

    def test_words(self):
        judge = fio2070.LogJudge()
        self.assertEqual(repr(judge), '<LogJudge>')
        for call in [lambda: fio2070.LogJudge(place='bank'), lambda: fio2070.LogJudge(begun=True, late_answers=True),
                     lambda: fio2070.LogJudge(per_block=0), lambda: judge.frame(b'', False, 'module')]:
            self.assertRaises(ValueError, call)


def block(number, status=0, stamp=0, entries=()):
    """The octets of a block answer."""
    return bytes([182, number, len(entries)]) + b''.join(bytes(one) for one in entries) + bytes([status]) + stamp.to_bytes(4, 'big')


MORE, LOST, AGAIN, GAP = 8, 4, 2, 1


class Stretches(unittest.TestCase):
    """What is between two blocks of a log, one directly below the other."""

    # What is below block 5 with the stamp 1,000 and an entry, whether the counter is loaded between, and the place above it.
    ENTRY = ((0x8c, 3, 0xe7),)
    LAST = 2 ** 32 - 3_600_000
    ROWS = (
        (block(5, AGAIN, 1000, ENTRY), False, None),
        (block(5, AGAIN | GAP, 1000, ENTRY), False, None),
        (block(5, 0, 1000, ENTRY), False, ('restart', False, 0)),
        (block(5, AGAIN, 1001, ENTRY), False, ('restart', False, 0)),
        (block(5, AGAIN | MORE, 1000, ENTRY), False, ('restart', False, 0)),
        (block(5, AGAIN | LOST, 1000, ENTRY), False, ('restart', True, 0)),
        (block(5, AGAIN, 1000, ((0x0c, 3, 0xe7),)), False, ('restart', False, 0)),
        (block(5, AGAIN, 1000), False, ('restart', False, 0)),
        (block(6, 0, 1000), False, None),
        (block(6, MORE | AGAIN, 2000), False, None),
        (block(6, LOST, 2000), False, ('', True, 0)),
        (block(6, GAP, 2000), False, ('unknown', False, 0)),
        (block(6, GAP | LOST, 2000), False, ('unknown', True, 0)),
        (block(7, 0, 2000), False, ('missing', False, 1)),
        (block(9, LOST, 2000), False, ('missing', True, 3)),
        (block(4, 0, 2000), False, ('missing', False, 254)),
        (block(7, GAP, 2000), False, None),
        (block(8, GAP, 2000), False, ('passed over', False, 0)),
        (block(4, GAP, 2000), False, ('passed over', False, 0)),
        (block(7, AGAIN, 2000), False, ('unknown', False, 0)),
        (block(7, AGAIN | GAP, 2000), False, ('unknown', False, 0)),
        (block(6, 0, 999), False, ('restart', False, 0)),
        (block(6, 0, 999), True, ('unknown', False, 0)),
        (block(6, 0, 1000), True, None),
        (block(7, GAP, 999), False, ('restart', False, 0)),
    )

    def stretches(self, frames, text=lambda octets: octets.hex()):
        reader, judge, stretches = fio2070.LogReader('frames'), fio2070.LogJudge(), fio2070.LogStretches()
        self.assertRaises(ValueError, stretches.batch, fio2070.LogBatch([]), judge)
        found = []
        octets = ''.join(text(one) + '\n' for one in frames).encode()
        for batches in (reader.batches(octets), reader.last_batches()):
            for batch in batches:
                judge.batch(batch)
                found += stretches.batch(batch, judge)
        return stretches, found

    def test_rows(self):
        load = bytes([50, 0, 0, 0, 0])
        for below, is_loaded, expected in self.ROWS:
            frames = [block(5, 0, 1000, self.ENTRY), *[load] * is_loaded, below]
            stretches, found = self.stretches(frames)
            self.assertEqual([one[1:4] for one in found], [expected] if expected else [], below.hex())
            self.assertEqual([one.frame for one in found], [len(frames) - 1] * len(found))
            self.assertEqual((stretches.loads, stretches.lost), (is_loaded, bool(expected and expected[1])))
            causes = {'missing': stretches.missing, 'passed over': stretches.passed_over, 'unknown': stretches.unknown, 'restart': stretches.restarts}
            self.assertEqual({why: count for why, count in causes.items() if count}, {expected[0]: 1} if expected and expected[0] else {})
            self.assertEqual(stretches.missing_blocks, expected[2] if expected else 0)

    def test_end_of_the_counter(self):
        for above, below, why in ((self.LAST, 3_599_999, None), (self.LAST - 1, 3_599_999, 'restart'), (self.LAST, 3_600_000, 'restart')):
            stretches, found = self.stretches([block(5, 0, above), block(6, 0, below)])
            self.assertEqual([one.why for one in found], [why] if why else [])
            self.assertEqual(stretches.stamped, 0 if why else 7_199_999)

    def test_first(self):
        self.assertEqual([one[1:3] for one in self.stretches([block(5, LOST, 1000)])[1]], [('', True)])
        self.assertEqual(self.stretches([block(5, AGAIN | GAP, 1000)])[1], [])
        # A load above the first block says nothing of the next one.
        self.assertEqual([one.why for one in self.stretches([bytes([50, 0, 0, 0, 0]), block(5, 0, 1000), block(6, 0, 999)])[1]], ['restart'])

    def test_not_believed(self):
        # The second entry is before the first.
        turned = (0x8c, 3, 0xe7), (0x8d, 3, 0xe6)
        stretches, found = self.stretches([bytes([54, 4]), block(4, 0, 900), bytes([54, 5]), block(5, 0, 1000, turned), bytes([54, 6]), block(6, 0, 1100)])
        self.assertEqual([(one.frame, one.why) for one in found], [(3, 'disbelieved')])
        self.assertEqual((stretches.disbelieved, stretches.transitions), (1, 2))

    def test_times(self):
        frames = [(10_000_000, bytes([54, 5])), (10_004_000, block(5, 0, 1000)), (10_100_000, bytes([54, 6])), (10_104_000, block(6, 0, 1100)),
                  (13_300_000, bytes([54, 7])), (13_304_000, block(7, LOST, 4300, self.ENTRY))]
        reader, judge, stretches = fio2070.LogReader(), fio2070.LogJudge(), fio2070.LogStretches()
        text = ''.join('00:00:%09.6f %s %s\n' % (time / 1e6, 'TX' if octets[0] < 128 else 'RX', octets.hex(' ')) for time, octets in frames).encode()
        found = []
        for batches in (reader.batches(text), reader.last_batches()):
            for batch in batches:
                judge.batch(batch)
                found += stretches.batch(batch, judge)
        self.assertEqual(found, [fio2070.Seam(5, '', True, 0, 3_200_000)])
        self.assertEqual((stretches.timed, stretches.timed_whole, stretches.stamped, stretches.stamped_whole, stretches.longest_pause),
                         (3_300_000, 100_000, 3300, 100, 3_200_000))
