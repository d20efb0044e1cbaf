"""Lines that wait for the lines below: `fiolog live` shows after a while what they say if the log ends there."""

import time

from .event import FRAME, WAITING

# Seconds that a line waits before it is shown.
PATIENCE = 1.0


class Waiting:
    """Which lines wait, since when, and what of them was shown."""

    def __init__(self):
        self._since, self._shown = {}, {}

    def due(self, reader):
        """The messages of lines that have waited long enough, each once."""
        now, lines = time.monotonic(), reader.waiting()
        self._since = {number: self._since.get(number, now) for number in lines}
        self._shown = {number: shown for number, shown in self._shown.items() if number in self._since}
        old = {number for number, since in self._since.items() if now - since >= PATIENCE}
        if old <= self._shown.keys():
            return
        self._shown.update({number: [] for number in old - self._shown.keys()})
        for event in reader.ended():
            if event.kind == FRAME and event.number in old and event.octets not in self._shown[event.number]:
                self._shown[event.number].append(event.octets)
                yield event._replace(kind=WAITING)

    def was_shown(self, event):
        """Whether a message that is sure now was shown."""
        return event.octets in self._shown.get(event.number, ())
