"""The tester by the package: the proved ends, and ends with a fault."""

import unittest

import fio2070
from fio2070 import tester


class Proved(tester.Maker):
    """The proved module."""

    def reset(self):
        self.module = fio2070.Module(self.id, self.per_block)

    def step(self, inputs):
        self.module.scan(inputs)

    def line_sync(self):
        self.module.line_sync()

    def exchange(self, octets):
        return self.module.receive(octets)


class ProvedCpu(tester.CpuMaker):
    """The proved CPU's end."""

    def reset(self, number):
        self.poller = fio2070.Poller(number)

    def poll(self):
        return self.poller.poll()

    def hear(self, octets):
        before = len(self.poller.record)
        self.poller.hear(octets)
        return self.poller.record[before:]

    def number(self):
        return self.poller.number


class Gapless(ProvedCpu):
    """It keeps no gap marks."""

    def hear(self, octets):
        return [item for item in super().hear(octets) if not item.gap]


class Forgetful(Proved):
    """It does not set E in a block that it sends again."""

    def exchange(self, octets):
        answer = super().exchange(octets)
        if not answer or answer[0] != 182:
            return answer
        return answer[:-5] + bytes([answer[-5] & ~2]) + answer[-4:]


class TwoIds(Proved):
    """Its identification has two octets."""

    def exchange(self, octets):
        answer = super().exchange(octets)
        return answer + b'\0' if answer and answer[0] == 188 else answer


class Slow(Proved):
    """Its watchdog takes a millisecond more."""

    def watchdog_ms(self):
        return (self.module.watchdog_ms or -1) + 1


class Unfinished(Proved):
    """Its answer to an identification is still to be written."""

    def exchange(self, octets):
        if octets[:1] == b'\x3c':
            raise NotImplementedError('identification')
        return super().exchange(octets)


class Deaf(ProvedCpu):
    """It hears nothing yet."""

    def hear(self, octets):
        raise NotImplementedError('hear')


class Tester(unittest.TestCase):
    def test_rules(self):
        self.assertIsNone(tester.run(TwoIds(), events=20_000, excepted=['identification']))
        report = tester.run(TwoIds(), events=20_000, goes_on=True)
        self.assertIn('# the first rule that this breaks: identification, own profile', report)
        self.assertIn('# the first rule that this breaks: watchdog-timeout, TEES 2009', tester.run(Slow(), events=20_000))
        for name in ('sent-again', 'none-such'):
            self.assertRaises(ValueError, tester.run, Proved(), excepted=[name])

    def test_calls_that_raise(self):
        with self.assertRaisesRegex(NotImplementedError, 'identification'):
            tester.run(Unfinished(), events=20_000)
        with self.assertRaisesRegex(NotImplementedError, 'hear'):
            tester.run_cpu(Deaf(), events=20_000)

    def test_modules(self):
        self.assertIsNone(tester.run(Proved(), events=20_000))
        report = tester.run(Forgetful(), events=20_000)
        self.assertRegex(report, '(?s)^# expected: .*sent again with E set.*\nfio2070 script 1 2 0\npoll\nto-module 1\npoll\n')

    def test_settings_by_name(self):
        for run, maker in ((tester.run, Proved()), (tester.run_cpu, ProvedCpu())):
            with self.assertRaises(TypeError):
                run(maker, 20_000)

    def test_cpu(self):
        self.assertIsNone(tester.run_cpu(ProvedCpu(), events=20_000))
        script = tester.run_cpu(Gapless(), events=20_000)
        self.assertIn('one gap mark if F is set', script)
        self.assertIn('\n# transcript:\n', script)
