"""The tests of the package: `python3 test.py`, with FIO2070_LIBRARY naming the library. Here are the calls, each with a right result
and an error: those of the library below have their rows in tests/rows.json."""

import ctypes
import doctest
import os
import pickle
import re
import sys
import unittest

import fio2070
from fio2070 import Answer, Command, ConfigurationItem, Entry, encode, tester
from test_links import Links, Signs
from test_logs import LOG, LogBatches, Logs
from test_tester import Tester

BLOCK = bytes.fromhex('b605018c03e700000003e8')


class Calls(unittest.TestCase):
    def test_messages(self):
        for octets in ('31a5', '3200010000', '33020c0503830000', '3605', '37' + '01' * 16, '38010203', '3ac8', '3b0102', '3c'):
            self.assertEqual(encode.command(fio2070.decode_command(bytes.fromhex(octets))).hex(), octets)
        for octets in ('b1800201000003e8', 'b2fe', 'b4feffffffffffff7f00000100', BLOCK.hex(), 'b70000000005', 'ba01'):
            self.assertEqual(encode.answer(fio2070.decode_answer(bytes.fromhex(octets))).hex(), octets)
        self.assertEqual(fio2070.decode_command(bytes.fromhex('33020c0503830000')).items, [(12, False, 5, 3), (3, True, 0, 0)])
        self.assertEqual(fio2070.decode_answer(BLOCK)[:8], (182, 0, 0, 0, 0, 5, 1000, 0))
        self.assertEqual((fio2070.decode_answer(b'\xbc\xfe').body, encode.raw_inputs()), (b'\xfe', b'4'))
        for read, octets, why in ((fio2070.decode_command, b'', 'empty'), (fio2070.decode_command, bytes(774), 'too long got 774'),
                                  (fio2070.decode_answer, b'6\5', 'unknown type 54')):
            with self.assertRaisesRegex(fio2070.Fault, '^%s$' % why):
                read(octets)

    def test_texts_and_numbers(self):
        self.assertEqual((fio2070.show(b'6\5'), fio2070.show(b'\7')), ('poll block 5\n', 'unknown type 7\n'))
        self.assertEqual((fio2070.rule_text(2), fio2070.content_rule_text(2), fio2070.rule_text(255)), ('pair', 'fresh', ''))
        self.assertEqual((fio2070.widen(0x10002, 65534), fio2070.widen(0x10002, 2)), (65534, 0x10002))

    def test_checkers(self):
        for checker in (fio2070.Checker(255, 64), fio2070.Checker(anywhere=True)):
            self.assertIsNone(checker.sent(b'6\5'))
            self.assertEqual(checker.heard(b'\xb3\0'), (fio2070.constants.RULE_PAIR, True, 182, 179))
        content = fio2070.ContentChecker()
        content.sent(encode.load_counter(0))
        self.assertEqual(content.heard(b'\xb2\1'), (fio2070.constants.CONTENT_DONE, None, 0))

    def test_judge(self):
        judge, place = fio2070.LinkJudge(), fio2070.constants
        self.assertEqual(judge.sent(b'6\5'), (place.OUTCOME_KEPT, 0, None, None))
        self.assertEqual(judge.heard(BLOCK[:1] + b'\6' + BLOCK[2:])[:3], (place.OUTCOME_BROKEN, 0, (place.RULE_NUMBER, True, 5, 6)))
        judge.lose()
        self.assertEqual(judge.sent(b'4', place.AT_BUS).why, place.WHY_PLACE_LOST)
        found = fio2070.LinkJudge(begun=True).heard(b'\xb3\1')
        self.assertEqual((found.kind, found.breach.rule), (place.OUTCOME_BROKEN, place.RULE_PAIR))

    def test_lines(self):
        reader = fio2070.LogReader()
        found = reader.read(LOG) + reader.end()
        self.assertEqual(found[0], (1, 'frames', '', (BLOCK,), ((1, 16, 48),), 26102000000, '<', b'', 0, 0, 'day'))
        self.assertEqual([one[1:3] for one in found[1:]], [('passed over', 'no octets'), ('blank', '')])

    def test_types(self):
        # What the table does not say of a breach: a number that was not due is False, an input that is none is None.
        breach = fio2070.Checker().heard(b'\xb3\0')
        self.assertEqual(breach, (fio2070.constants.RULE_PAIR, False, 0, 0))
        self.assertIs(breach.has_due, False)
        self.assertIs(fio2070.ContentChecker(begun=True).heard(b'\xb3\1').input, None)
        self.assertRaises(ValueError, fio2070.Checker, 0)


class Wires(unittest.TestCase):
    FRAME = bytes.fromhex('7e14833605c41b7e')
    POLL = fio2070.WireHeard('message', 0x14, 0x83, b'\x36\5')

    def test_frames(self):
        self.assertEqual(fio2070.wire_frame(encode.poll(5)), self.FRAME)
        self.assertEqual(fio2070.wire_check(memoryview(b'123456789')), 0x906e)
        self.assertGreater(len(fio2070.wire_frame(b'\x7e' * 773)), 1550)
        for message in (b'', bytes(774)):
            self.assertRaises(ValueError, fio2070.wire_frame, message)

    def test_decoders(self):
        self.assertEqual(fio2070.Wire(0x15, 0x83).read(self.FRAME), [self.POLL._replace(kind='other')])
        bits = b'01111110' + b'001010001100000101101100101000000010001111011000'
        self.assertEqual(fio2070.WireBits(0x14).read(bits + bits[:8]), [self.POLL])
        wire = fio2070.Wire()
        self.assertEqual(wire.read(self.FRAME[:3]), [])
        wire.lose()
        self.assertEqual([one.kind for one in wire.read(self.FRAME[3:])], ['damaged'])

    def test_settings(self):
        for call in (fio2070.Wire, fio2070.WireBits, lambda **given: fio2070.wire_frame(b'6\5', **given)):
            for number in (-1, 256):
                self.assertRaises(ValueError, call, address=number)
                self.assertRaises(ValueError, call, control=number)

    def test_long_piece(self):
        # A piece that is longer than what the library gets at a time.
        self.assertEqual(fio2070.Wire().read(2000 * self.FRAME), 2000 * [self.POLL])
        self.assertEqual(fio2070.Wire().read(b''), [])


class Messages(unittest.TestCase):
    def test_bodies(self):
        self.assertEqual(fio2070.decode_command(b'\x3b\0\2').body, b'\0\2')

    def test_faults(self):
        for call in [lambda: encode.poll(256), lambda: encode.set_outputs(b'', b''), lambda: fio2070.Module(per_block=0)]:
            self.assertRaises(ValueError, call)

    def test_no_message(self):
        entry, item = Entry(12, 1, 999), ConfigurationItem(12, False, 5, 3)
        commands = [Command(48), Command(61), Command(182), Command(54, clear=1), Command(54, items=[item]), Command(54, body=b'1'),
                    Command(51, block=1), Command(51, items=[item] * 256), Command(51, items=[item._replace(input=128)]),
                    Command(57, body=b'0' * 773), Command(57, body=b'0' * 65536), Command(57, items=[item]), Command(55, levels=bytes(7))]
        answers = [Answer(176), Answer(189), Answer(54), Answer(178, stamp=1), Answer(179, entries=[entry]), Answer(186, body=b'1'),
                   Answer(182, inputs=1), Answer(182, entries=[entry] * 256), Answer(182, entries=[entry._replace(input=128)]),
                   Answer(184, body=b'0' * 773), Answer(184, status=1)]
        for write, messages in ((encode.command, commands), (encode.answer, answers)):
            for message in messages:
                with self.subTest(message=message):
                    self.assertRaises(ValueError, write, message)
        for write, message in ((encode.command, Answer(182)), (encode.answer, Command(54)), (encode.command, b'65')):
            self.assertRaises(TypeError, write, message)

    def test_kinds_of_octets(self):
        wide = memoryview(BLOCK + BLOCK)[::1]
        for octets in (bytearray(BLOCK), memoryview(BLOCK), wide[:len(BLOCK)], memoryview(bytes(2 * BLOCK))[11:]):
            self.assertEqual(fio2070.decode_answer(octets), fio2070.decode_answer(BLOCK))
            self.assertEqual(fio2070.Poller(5).hear(octets).kind, 'taken')
        every_second = memoryview(bytes.fromhex('36ff05ff'))[::2]
        self.assertEqual(fio2070.decode_command(every_second).block, 5)
        self.assertEqual(fio2070.Module().receive(bytearray(b'\x3c')), b'\xbc\2')
        self.assertEqual(encode.command(Command(59, body=memoryview(b'\1\2'))), b'\x3b\1\2')
        self.assertEqual(encode.set_outputs(bytearray(8), memoryview(bytes(8))), b'\x37' + bytes(16))

    def test_what_is_no_octets(self):
        # A number is not octets, of which `bytes` would make as many zeros.
        calls = [fio2070.show, fio2070.decode_command, fio2070.decode_answer, fio2070.Poller(5).hear, fio2070.Checker().sent, fio2070.Checker().heard,
                 fio2070.ContentChecker().sent, fio2070.ContentChecker().heard, fio2070.Module().receive,
                 lambda octets: fio2070.LogJudge().frame(octets, True),
                 fio2070.LogReader().read, fio2070.LogCounts().frame, fio2070.Wire().read, fio2070.WireBits().read, fio2070.wire_frame, fio2070.wire_check,
                 lambda octets: encode.set_outputs(octets, bytes(8)),
                 lambda octets: encode.set_outputs(bytes(8), octets), lambda octets: encode.command(Command(56, body=octets)),
                 lambda octets: encode.answer(Answer(183, body=octets))]
        for call in calls:
            for given in (0, 5, 8, 2**31, 2**70, True, 1.5, None, '3605'):
                with self.subTest(call=call, given=given):
                    self.assertRaises(TypeError, call, given)

    def test_what_is_no_list(self):
        calls = [encode.configure_inputs, fio2070.Filters().configure, lambda entries: encode.answer(Answer(182, entries=entries))]
        for call in calls:
            for given in ([300], [None], 'ab', 5, None, [(1, 2)], [ConfigurationItem('a', False, 0, 0)], [Entry(1, 1.5, 0)]):
                with self.subTest(call=call, given=given):
                    self.assertRaises(TypeError, call, given)

    def test_what_is_no_number(self):
        calls = [encode.poll, encode.status, encode.load_counter, encode.watchdog,
                 lambda number: encode.answer(Answer(178, status=number)), fio2070.Poller, fio2070.rule_text,
                 fio2070.content_rule_text, fio2070.Counter().ask_load, fio2070.Filters().scan, fio2070.Module().scan,
                 fio2070.Module().raise_flags, lambda number: encode.answer(Answer(180, stamp=number)),
                 lambda number: fio2070.widen(number, 0), lambda number: fio2070.Module(waiting=number),
                 lambda number: fio2070.Checker(number), lambda number: fio2070.Module(id=number),
                 lambda number: fio2070.wire_frame(b'5', number), lambda number: fio2070.wire_frame(b'5', 0, number)]
        for call in calls:
            for given in (1.5, '5', None, b'5', [5]):
                with self.subTest(call=call, given=given):
                    self.assertRaises(TypeError, call, given)
        for given in (1.5, '5', b'5', [5], [], ''):
            self.assertRaises(TypeError, fio2070.LogCounts().frame, b'', given)
            self.assertRaises(TypeError, fio2070.Wire, given)
            self.assertRaises(TypeError, fio2070.WireBits, None, given)

    def test_times(self):
        for time in (-1, 2**64):
            self.assertRaises(ValueError, fio2070.LogCounts().frame, b'', time)

    def test_texts_of_objects(self):
        checker, counter = fio2070.Checker(), fio2070.Counter()
        self.assertEqual(repr(checker), '<Checker polled=None awaited=None skips=False>')
        checker.sent(encode.poll(5))
        counter.tick()
        for one, text in [(fio2070.Poller(5), '<Poller number=5 items=0>'), (counter, '<Counter now=1>'),
                          (checker, '<Checker polled=5 awaited=182 skips=False>'),
                          (fio2070.ContentChecker(), '<ContentChecker>'), (fio2070.LogCounts(), '<LogCounts frames=0>'),
                          (fio2070.Filters(), '<Filters filtered=%s raw=%s>' % ('f' * 16, 'f' * 16)),
                          (fio2070.Module(), '<Module counter=0 waiting=0 flags=80>')]:
            self.assertEqual(repr(one), text)
        self.assertEqual(repr(tester.CpuMix(1, 2)), 'CpuMix(lost_polls=1, lost_answers=2, late_answers=0, repeats=0, '
                         'others=0, hostile=0, overflows=0, orderly=0)')

    def test_faults_pickle(self):
        with self.assertRaises(fio2070.Fault) as caught:
            fio2070.decode_command(b'\x33')
        copy = pickle.loads(pickle.dumps(caught.exception))
        self.assertEqual((copy.kind, copy.code, copy.needed, copy.got, str(copy)),
                         (fio2070.constants.FAULT_WRONG_LENGTH, 0, 2, 1, 'wrong length needed 2 got 1'))

    def test_constants(self):
        header = os.path.join(os.path.dirname(os.path.abspath(__file__)), '../../include/fio2070.h')
        with open(header, encoding='ascii') as text:
            declared = text.read()
        given = {name: int(number, 0) for name, number in re.findall(
            r'^(?: +|enum \{ |#define )FIO2070_([A-Z0-9_]+)(?: =)? (0x[0-9a-f]+|\d+)\b', declared, re.M)}
        self.assertGreater(len(given), 30)
        given['NO_MESSAGE'] = ctypes.c_size_t(-1).value
        for name, less in re.findall(r'^#define FIO2070_(\w+) \(SIZE_MAX - (\d)\)', declared, re.M):
            given[name] = ctypes.c_size_t(-1).value - int(less)
        ours = {name: number for name, number in vars(fio2070.constants).items() if name.isupper()}
        self.assertEqual(ours, given)
        self.assertEqual(fio2070.version(), fio2070.constants.VERSION)

    def test_documentation(self):
        self.assertEqual(doctest.testmod(fio2070).failed, 0)


class Ends(unittest.TestCase):
    def test_module_and_poller(self):
        for module in [fio2070.Module(id=2), fio2070.Module(id=2, waiting=1)]:
            with self.subTest(module):
                self.answer_a_poller(module)

    def test_answers_of_the_maker(self):
        module = fio2070.Module(id=7)
        self.assertEqual((module.receive(b'\x39\1\2'), module.makers_command(b'\x39\1\2')), (b'', (57, b'\1\2')))
        for command, body, count in [(59, b'', fio2070.constants.OTHER_AWAITED), (57, bytes(773), fio2070.constants.BODY_TOO_LONG)]:
            with self.assertRaises(fio2070.AnswerRefused) as refused:
                module.answer_other(command, body)
            self.assertEqual(refused.exception.count, count)
        self.assertEqual(module.answer_other(57, b'\4'), b'\xb9\4')
        self.assertRaisesRegex(fio2070.AnswerRefused, 'no answer is awaited', module.answer_other, 57, b'\4')
        self.assertEqual((module.makers_command(encode.identify()), module.answer_other(60, b'four')), ((60, b''), b'\xbcfour'))
        self.assertIsNone(module.makers_command(encode.poll(0)))

    def test_first_number(self):
        # The module's last poll was for block 5: who asks for it anew records its entry again, who goes on does not.
        module, first = fio2070.Module(), fio2070.Poller(5)
        module.receive(encode.configure_inputs([ConfigurationItem(12, False, 1, 1)]))
        module.scan(2**64 - 1 - 2**12)
        first.hear(module.receive(first.poll()))
        anew, on = fio2070.Poller(5), fio2070.Poller(first.number)
        self.assertEqual(anew.hear(module.receive(anew.poll())).status, fio2070.constants.BIT_AGAIN)
        self.assertEqual((anew.record, len(anew.record)), (first.record, 1))
        self.assertEqual(on.hear(module.receive(on.poll())).status, 0)
        self.assertEqual(on.record, [])

    def test_waiting(self):
        # Four transitions of inputs 0 and 1 where three may wait: the first is pushed out.
        module = fio2070.Module(waiting=3)
        module.receive(encode.configure_inputs([ConfigurationItem(input, False, 1, 1) for input in (0, 1)]))
        module.scan(2**64 - 4)
        module.scan(2**64 - 1)
        self.assertEqual(module.waiting, 3)
        self.assertEqual(module.receive(encode.poll(7)).hex(), 'b607030100018000028100020400000002')
        for waiting in (-1, 0, 8193):
            self.assertRaises(ValueError, fio2070.Module, waiting=waiting)
        self.assertEqual(fio2070.Module(waiting=8192).waiting, 0)
        self.assertIsNone(module.receive(b'\6'))
        module.count_receive_error()
        module.count_transmit_error()
        self.assertEqual(module.errors, (1, 1))

    def answer_a_poller(self, module):
        poller = fio2070.Poller(5)
        self.assertEqual(module.receive(encode.identify()), b'\xbc\2')
        self.assertEqual(module.receive(b'\x38'), b'')
        self.assertEqual(module.receive(encode.configure_inputs([ConfigurationItem(12, False, 1, 1)])), b'\xb3\0')
        module.receive(encode.load_counter(998))
        module.line_sync()
        module.scan(2**64 - 1 - 2**12)
        self.assertEqual((module.counter, module.waiting, module.watchdog_ms), (999, 1, None))
        answer = module.receive(poller.poll())
        self.assertEqual(answer.hex(), 'b605010c03e700000003e7')
        self.assertEqual(poller.hear(answer), fio2070.Heard('taken', entries=1, number=5, stamp=999))
        self.assertEqual(poller.record, [(False, 12, 0, 999, 999)])
        self.assertEqual(poller.hear(answer), fio2070.Heard('stale', number=5, stamp=999))
        lost = fio2070.Poller(255)
        self.assertEqual(lost.hear(encode.answer(Answer(182, block=255, entries=[Entry(12, 1, 999)], status=0x0c, stamp=1000))),
                         fio2070.Heard('taken', entries=1, status=0x0c, number=255, stamp=1000))
        self.assertEqual((lost.number, lost.record), (0, [(True, 0, 0, 0, 0), (False, 12, 1, 999, 999)]))
        self.assertEqual(poller.hear(b'\xb3\0'), fio2070.Heard('other', code=179))
        self.assertEqual(str(poller.hear(b'').fault), 'empty')
        self.assertEqual(poller.number, 6)
        module.receive(encode.set_outputs(b'01234567', b'89abcdef'))
        module.receive(encode.watchdog(200))
        self.assertEqual((module.outputs, module.watchdog_ms), ((b'01234567', b'89abcdef'), 100))
        module.raise_flags(1)
        module.set_errors(3, 4)
        self.assertEqual(module.receive(encode.status(0))[1:4], b'\x81\3\4')
        self.assertEqual((module.errors, module.flags, module.raw), ((3, 4), 0x81, 2**64 - 1 - 2**12))
        module.restart()
        self.assertEqual((module.counter, module.filtered), (0, 2**64 - 1))

    def test_filters_and_counter(self):
        filters, counter = fio2070.Filters(), fio2070.Counter()
        filters.configure([ConfigurationItem(2, False, 3, 2)])
        changes = [filters.scan(level << 2) for level in [1, 0, 0, 1, 0, 0, 0, 1, 0, 1, 1]]
        self.assertEqual([place + 1 for place, change in enumerate(changes) if change == 4], [7, 11])
        self.assertEqual((filters.raw, filters.filtered), (4, 4))
        self.assertRaises(ValueError, filters.configure, [ConfigurationItem(64, False, 1, 1)])
        counter.ask_load(2**32 - 1)
        counter.line_sync()
        counter.tick()
        self.assertEqual(counter.now(), 0)


class Package(unittest.TestCase):
    def test_version(self):
        with open(os.path.join(os.path.dirname(__file__), 'pyproject.toml'), encoding='utf-8') as file:
            self.assertIn('\nversion = "%s"\n' % fio2070.__version__, file.read())
        self.assertEqual(fio2070.version(), fio2070.constants.VERSION)

    def test_public_names(self):
        names = {}
        exec('from fio2070 import *', names)
        self.assertEqual(set(fio2070.__all__), set(names) - {'__builtins__'})
        self.assertIs(names['tester'], tester)


if __name__ == '__main__':
    ran = unittest.main(exit=False).result
    # With a word after `-k` that no test has, nothing ran.
    sys.exit(0 if ran.wasSuccessful() and ran.testsRun else 1)
