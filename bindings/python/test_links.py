"""Right links, by the package: whatever is lost or late, and where the module restarts, no checker, judge or sign accuses one."""

import random
import unittest

import fio2070
from fio2070 import ConfigurationItem, encode

ACCUSED = (fio2070.constants.OUTCOME_BROKEN, fio2070.constants.OUTCOME_BROKEN_CONTENT, fio2070.constants.OUTCOME_RESTARTED)


def link_with_restarts(draw, polls=80, inputs=4):
    """What a CPU's end sends and hears of a module that restarts, as (whether it is sent, octets), and the place of the last
    restart."""
    module, poller, log, commands, reached, restart = fio2070.Module(2), fio2070.Poller(draw.randrange(256)), [], [], 0, 0
    levels = 2**64 - 1
    for _ in range(polls):
        for _ in range(draw.randrange(6)):
            levels ^= draw.getrandbits(inputs) & draw.getrandbits(inputs)
            module.scan(levels)
        items = [ConfigurationItem(number, draw.random() < 0.2, draw.randrange(4), draw.randrange(4)) for number in range(inputs)]
        other = draw.choice((encode.configure_inputs(items), encode.filtered_inputs(), encode.status(255), encode.watchdog(9)))
        commands.append(poller.poll() if draw.random() < 0.7 else other)
        log.append((True, commands[-1]))
        while reached < len(commands) - 1 and draw.random() < 0.4:
            module.receive(commands[reached])
            reached += 1
        answer = None
        if draw.random() < 0.75:
            reached, answer = len(commands), module.receive(commands[-1])
        if draw.random() < 0.05:
            module.restart()
            restart = len(log)
        if answer and draw.random() < 0.8:
            log.append((False, answer))
            poller.hear(answer)
    return log, restart


class Links(unittest.TestCase):
    def test_right_modules(self):
        # Modules with rings and blocks of their own, which overflow now and then: no checker with their limits accuses one.
        draw = random.Random(7)
        for per_block, waiting in ((255, 64), (64, 64), (8, 64), (1, 1), (3, 2), (255, 1024)):
            module, poller = fio2070.Module(2, per_block, waiting), fio2070.Poller(0)
            checker, standard = fio2070.Checker(per_block, waiting), fio2070.Checker()
            module.receive(encode.configure_inputs([ConfigurationItem(number, False, 1, 1) for number in range(4)]))
            levels, accused = 2**64 - 1, 0
            for _ in range(400):
                for _ in range(draw.choice((0, 1, 3, 40))):
                    levels ^= draw.randrange(16)
                    module.scan(levels)
                poll = poller.poll()
                answer = module.receive(poll)
                self.assertIsNone(checker.sent(poll), (per_block, waiting))
                accused += standard.sent(poll) is not None
                if draw.random() < 0.8:
                    self.assertIsNone(checker.heard(answer), (per_block, waiting))
                    accused += standard.heard(answer) is not None
                    poller.hear(answer)
            self.assertEqual(accused == 0, (per_block, waiting) == (255, 1024))

    def test_logs_after_a_restart(self):
        # Commands are lost or late, and an answer comes directly after its command or never; the module restarts whatever is
        # under way. Checkers that start anywhere below the last restart accuse nobody.
        draw = random.Random(11)
        for turn in range(60):
            log, restart = link_with_restarts(draw)
            for start in (restart, draw.randrange(restart, len(log) + 1)):
                checker, content = fio2070.Checker(anywhere=True), fio2070.ContentChecker()
                for is_sent, octets in log[start:]:
                    self.assertIsNone((checker.sent if is_sent else checker.heard)(octets), (turn, start))
                    self.assertIsNone((content.sent if is_sent else content.heard)(octets), (turn, start))

    def test_lost_lines(self):
        # Any frames are lost from a log at the CPU's end, each at a line that may have held a frame.
        draw = random.Random(2)
        for turn in range(20):
            log, restart = link_with_restarts(draw)
            judge = fio2070.LogJudge(place='cpu')
            for is_sent, octets in log[restart:]:
                if draw.random() < 0.1:
                    judge.lose()
                    continue
                self.assertNotIn(judge.frame(octets, is_sent).kind, ACCUSED, turn)


class Signs(unittest.TestCase):
    """What kind of log a log looks like, of logs of right links in which commands are lost or late and the module restarts."""

    def sign(self, log):
        signs = fio2070.LogSigns()
        for is_sent, octets, *said in log:
            signs.frame(octets, is_sent, *said)
        return signs.sign

    def logs(self):
        draw = random.Random(13)
        for _ in range(20):
            yield draw, link_with_restarts(draw)[0]

    def test_right_links(self):
        for draw, log in self.logs():
            for part in (log, log + log, [frame for frame in log if draw.random() > .1], [frame for frame in log if frame[0]],
                         [frame for frame in log if not frame[0]]):
                self.assertEqual(self.sign(part), '')

    def test_each_frame_twice(self):
        for _, log in self.logs():
            self.assertEqual(self.sign(frame for frame in log for _ in range(2)), 'twice')

    def test_both_ends(self):
        for _, log in self.logs():
            merged = [(is_sent, octets, said) for is_sent, octets in log for said in '><']
            self.assertEqual(self.sign(merged), 'both ends')

    def test_last_line_first(self):
        for _, log in self.logs():
            self.assertEqual(self.sign(log[::-1]), 'reversed')

    def test_two_links(self):
        for draw, log in self.logs():
            other = link_with_restarts(draw)[0]
            # Up to six frames of one link, then of the other.
            parts, lists = [], [log[::-1], other[::-1]]
            while all(lists):
                for frames in lists:
                    parts += [frames.pop() for _ in range(min(len(frames), draw.randint(2, 6)))]
            self.assertEqual(self.sign(parts), 'two links')
