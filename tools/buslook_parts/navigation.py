"""Where plotters go, which of them the gateway follows, and why nothing is said of the others."""

import collections
from typing import NamedTuple, Optional

from configuration.keys import is_matched
from configuration.messages import leg_of_page
from onboard.fast_packets import Joiner, Message

from .unsaid import IGNORED, IN_PART, OWN, TOO_SHORT, UNCLAIMED, UNLISTED

# the navigation of a plotter by its words, and how long a plotter counts after its last leg with a bearing
NAVIGATION, TIMEOUT_MS = "navigation", 2500
NAMED_ONCE, IDLE, BEHIND = "named the destination for the first time", "had no bearing, beside another plotter", "said it beside a better plotter"
# what stands in for the row's list of devices
OF_NO_LIST = {UNLISTED: "not in nav.sources"}
# the sentence that says all of a leg but the distance, and the one that says that
COURSE, DISTANCE = "APB", "RMB"
DISTANCE_FIELD = 10
MOST_LEGS = 200


class Course(NamedTuple):
    """What the gateway said of a leg, as texts: whether a pilot can follow it, the destination, its bearing, and the error."""

    is_good: bool
    destination: str
    bearing: str
    letter: str
    error: str

    def words(self):
        """Where it leads, and what is missing for a pilot."""
        words = f"leads to {self.destination or 'a point without a number'}"
        lacks = "no bearing" if not self.bearing else "no fresh error of its own" if not self.error else "no bearing of the leg"
        return words if self.is_good else f"{words}, and no pilot can follow: {lacks}"


def course_of(fields):
    """What APB says, by its fields, the address first."""
    return Course(fields[1] == "A", fields[10], fields[11], fields[12], fields[3])


class Leg:
    """A destination that one plotter led to without another between: from when to when, how often that was said, and how often a pilot couldn't follow."""

    def __init__(self, moment, device, destination):
        self.begin, self.device, self.destination, self.said, self.unfit = moment, device, destination, 0, 0

    def say(self, moment, is_good):
        self.end, self.said, self.unfit = moment, self.said + 1, self.unfit + (not is_good)


class Told(NamedTuple):
    """A whole message of a plotter: its address, and why nothing was said of it, if nothing was."""

    source: int
    why: Optional[str]


class Navigation:
    """The messages of plotters, in their order."""

    def __init__(self, config):
        self.keys, self.ignored = config.get("nav", {}), config.get("bus", {}).get("ignore", [])
        self.group, self.own_name = self.keys.get("group"), int(config["gateway"]["name"], 16)
        self.page, self.joiner = leg_of_page(), Joiner()
        # of each address the NAME and the goal of its last leg
        self.last = {}

    def is_of_plotter(self, pgn):
        return self.group is not None and pgn == self.page.source.pgn

    def take(self, frame, name, is_said, is_refused):
        """A frame of a plotter, by the NAME that holds its address; what is told of the message that is whole with it, if one is."""
        message = self.joiner.message_of(frame)
        if message is None:
            return None
        why = None if is_said else IN_PART if is_refused and name is not None and self.is_long(message) else self.why_not(message, name)
        if name is not None and self.is_long(message):
            self.last[message.parts.source] = name, message.data[self.page.goal]
        return Told(message.parts.source, why)

    def is_long(self, message: Message):
        return len(message.data) >= self.page.least

    def why_not(self, message, name):
        """Why nothing was said of a whole message."""
        if name is None:
            return UNCLAIMED
        if name == self.own_name:
            return OWN
        if any(is_matched(pattern, name) for pattern in self.ignored):
            return IGNORED
        if not self.keys.get("others", True) and not any(is_matched(pattern, name) for pattern in self.keys.get("sources", [])):
            return OF_NO_LIST[UNLISTED]
        if not self.is_long(message):
            return TOO_SHORT
        if not self.page.is_usable(message.data):
            return IDLE
        return BEHIND if self.last.get(message.parts.source) == (name, message.data[self.page.goal]) else NAMED_ONCE


class Followed:
    """What a recording has of navigation: the legs that were said, and how often and why nothing was."""

    def __init__(self, config):
        self.navigation, self.legs, self.leg, self.more_legs = Navigation(config), [], None, 0
        self.messages, self.unsaid = 0, collections.Counter()

    def say(self, moment, device, course):
        if self.leg is None or (self.leg.device, self.leg.destination) != (device, course.destination):
            self.leg = Leg(moment, device, course.destination)
            if len(self.legs) < MOST_LEGS:
                self.legs.append(self.leg)
            else:
                self.more_legs += 1
        self.leg.say(moment, course.is_good)

    def take(self, frame, name, is_said, is_refused):
        told = self.navigation.take(frame, name, is_said, is_refused)
        if told is not None:
            self.messages += 1
            if told.why is not None:
                self.unsaid[told] += 1

    def not_said(self):
        """How many messages of each plotter weren't said, by their reasons, in the order of addresses."""
        return sorted((told.source, told.why, count) for told, count in self.unsaid.items())
