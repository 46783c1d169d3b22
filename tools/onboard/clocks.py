"""Moments in microseconds: times of day, and a clock that never goes back."""

import time

MICROSECONDS = 1_000_000
# a clock that was set on by more than this is followed
STEP_US = MICROSECONDS


def time_of_day_us(parts):
    """The microseconds of a day, of its hours, minutes, seconds and thousandths as digits."""
    hours, minutes, seconds, thousandths = map(int, parts)
    return ((hours * 60 + minutes) * 60 + seconds) * MICROSECONDS + thousandths * 1000


class SteadyClock:
    """The time since 1970. It follows the system's clock where that is set on, and goes on by itself where that is set back."""

    def __init__(self):
        self.offset_us = self._offset_us()

    @staticmethod
    def _offset_us():
        return (time.time_ns() - time.monotonic_ns()) // 1000

    def now_us(self):
        offset_us = self._offset_us()
        if offset_us - self.offset_us > STEP_US:
            self.offset_us = offset_us
        return time.monotonic_ns() // 1000 + self.offset_us
