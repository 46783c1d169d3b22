"""Sources of sentences for the gateway: what of their lines goes on, in which datagrams, and how much of what was left out."""

import collections

from .sentences import NoSentence, Wrapper, read_line
from .silence import Silence
from .words import LeftOut

ECHO_SECONDS = 2.0
MOST_SAID = 65536
# of one source: several receivers and compasses together say less, and a bus of 250 kbit/s has room for less than four times as many frames
MOST_A_SECOND = 500
# a source may say any number of formatters; those beyond are counted together
MOST_KINDS, OTHER_KINDS = 32, "others"
SHOWN_BYTES = 80
ECHO = "a sentence that the gateway itself said"
TOO_MANY = f"what is more than {MOST_A_SECOND} sentences a second"


class Said:
    """What the gateway said in the last seconds, and a program may send back."""

    def __init__(self):
        self.moments = collections.OrderedDict()

    def add(self, sentence, now):
        self.moments[sentence] = now
        self.moments.move_to_end(sentence)
        while len(self.moments) > MOST_SAID or next(iter(self.moments.values())) < now - ECHO_SECONDS:
            self.moments.popitem(last=False)

    def has(self, sentence, now):
        return sentence in self.moments and self.moments[sentence] >= now - ECHO_SECONDS


class Rate:
    """How many sentences a source may say: MOST_A_SECOND, and as many at once after a pause."""

    def __init__(self):
        self.left, self.last = MOST_A_SECOND, 0.0

    def takes(self, now):
        self.left = min(MOST_A_SECOND, self.left + (now - self.last) * MOST_A_SECOND)
        self.last = now
        if self.left < 1:
            return False
        self.left -= 1
        return True


def listed(counts):
    return ", ".join(f"{kind} {count}" for kind, count in sorted(counts.items()))


class SentenceCounts:
    """What became of the sentences of a source: which went to the gateway, which aren't wanted there, and what was left out besides."""

    def __init__(self, teller):
        self.teller, self.left_out = teller, LeftOut(teller)
        self.went, self.unwanted = collections.Counter(), collections.Counter()
        self.told = self._copies()

    def _copies(self):
        return tuple(counts.copy() for counts in (self.went, self.unwanted, self.left_out.counts))

    def add_unwanted(self, kind, why):
        if kind not in self.unwanted:
            kind = kind if len(self.unwanted) < MOST_KINDS else OTHER_KINDS
        if kind not in self.unwanted:
            self.teller.tell(f"left out: {kind}, {why}")
        self.unwanted[kind] += 1

    def tell_since(self, when):
        """Tells what came to the counts since they were told; nothing where nothing came."""
        (went, unwanted, left_out), self.told = self.told, self._copies()
        if self.told != (went, unwanted, left_out):
            self._tell(when, self.went - went, self.unwanted - unwanted, self.left_out.since(left_out))

    def tell_all(self, when):
        self._tell(when, self.went, self.unwanted, self.left_out.since(collections.Counter()))

    def _tell(self, when, went, unwanted, left_out):
        parts = [f"{when} {sum(went.values())} went to the gateway" + (f" ({listed(went)})" if went else "")]
        parts += [f"left out {sum(unwanted.values())}: {listed(unwanted)}"] if unwanted else []
        self.teller.tell("; ".join(parts + left_out))


class Choice:
    """Which formatters of a source go on: those that the gateway reads, and of these the ones that are asked for."""

    def __init__(self, read, asked):
        self.read, self.asked = read, asked

    def reason_against(self, kind):
        if kind not in self.read:
            return "which the gateway doesn't read"
        return None if kind in self.asked else "which --only doesn't name"


class Source:
    """A source of sentences: the way on which they come, and the datagrams in which they go."""

    def __init__(self, way, identifier, choice, needs_sum, counts):
        self.way, self.choice, self.needs_sum = way, choice, needs_sum
        self.counts, self.left_out = counts, counts.left_out
        self.silence = Silence(way.told, "from it", "sentences")
        self.rate, self.wrapper = Rate(), Wrapper(identifier)

    def tend(self, now):
        self.way.tend(now)
        if not self.way.is_open:
            self.silence.pause()
        elif self.silence.since is None:
            self.silence.begin(now)
        self.silence.tend(now)

    def sentences_of(self, lines, now):
        """The sentences of lines that the gateway is to hear."""
        found = (self._sentence_of(line, now) for line in b"\n".join(lines).splitlines() if line.strip())
        return [sentence for sentence in found if sentence is not None]

    def _sentence_of(self, line, now):
        try:
            sentence = read_line(line, self.needs_sum)
        except NoSentence as reason:
            self.left_out.add(reason, example=repr(line[:SHOWN_BYTES])[2:-1])
            return None
        self.silence.heard(now)
        why = self.choice.reason_against(sentence.kind)
        if why is not None:
            self.counts.add_unwanted(sentence.kind, why)
            return None
        return sentence

    def datagrams_of(self, sentences, said, now):
        """The datagrams of sentences, but for those that the gateway said, and for what is too many besides these."""
        due = []
        for sentence in sentences:
            if said.has(sentence, now):
                self.left_out.add(ECHO, example=sentence.text.decode().strip())
            elif self.rate.takes(now):
                due.append(sentence)
            else:
                self.left_out.add(TOO_MANY)
        self.counts.went.update(sentence.kind for sentence in due)
        return self.wrapper.datagrams_of(due)
