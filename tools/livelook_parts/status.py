"""What is known of a run, as /status.json, /metrics and /health say it."""

import json
import time

from buslook_parts.rules import known_rules

from onboard.bus_load import BITS_A_SECOND
from onboard.identifiers import NULL_ADDRESS

from .gathered import SECOND_US, named

# a difference between the run's moments and the machine's date that is worth a word
DATE_SECONDS = 2
METRICS = (
    ("shipgate_up", "gauge", "1 while a run is followed, and the program computes what it does"),
    ("shipgate_reports", "counter", "reports of each rule"),
    ("shipgate_row_age_seconds", "gauge", "how long ago a row or a further quantity was said"),
    ("shipgate_row_value", "gauge", "its value"),
    ("shipgate_frames", "counter", "frames from each address of the bus"),
    ("shipgate_datagrams", "counter", "datagrams to each transmission group"),
    ("shipgate_bus_load_ratio", "gauge", "the share of 250 kbit/s that the bus carried in ten seconds"),
    ("shipgate_send_failures", "counter", "what could not be sent on each link"),
)
NOT_SENT, NOT_RECEIVED = 50, 51
FAILURES = {NOT_SENT: "not sent", NOT_RECEIVED: "not received"}
MOST_DEVICES, MOST_REFUSED, MOST_PLOTTERS = 100, 25, 10
LINKS = ("bus", "net")


def encoded(values):
    return json.dumps(values, ensure_ascii=False, separators=(",", ":")).encode("utf-8", "backslashreplace")


def seconds(moment):
    return None if moment is None else moment / SECOND_US


class Status:
    """Says what `looking` knows. Whoever calls it holds the lock."""

    def __init__(self, looking):
        self.looking, self.rules = looking, known_rules()

    def since_line(self):
        """For how long nothing was written, by the steady clock."""
        return time.monotonic() - self.looking.last_line_at

    def age(self, moment):
        """How long ago something was, in seconds: by the run's moments up to its last line, and from then on by the steady clock."""
        return (self.looking.gathered.moment - moment) / SECOND_US + self.since_line()

    def second(self):
        """The second of the run that it is now."""
        return int(self.looking.gathered.moment / SECOND_US + self.since_line())

    def all_said(self):
        gathered = self.looking.gathered
        return [*gathered.rows.values(), *gathered.further.values()]

    def is_silent(self, said):
        """Whether a row isn't said in time: one that was said before, or one that has to be there."""
        if said.is_missed:
            return True
        if said.moment is None:
            return said.is_watched and self.age(self.looking.gathered.begin) * SECOND_US > said.timeout_us
        return self.age(said.moment) * SECOND_US > said.timeout_us

    def has_ended(self):
        """Whether the gateway's sign of life is missing: nothing was written for twice the time between two."""
        beat = self.looking.gathered.beat_seconds
        return beat is not None and self.since_line() > 2 * beat

    def is_live(self):
        """Whether something of a run is known, up to now."""
        return self.is_followed() and self.looking.percent is None

    def is_followed(self):
        """Whether a run is there, and the program computes what it does."""
        looking = self.looking
        return looking.gathered is not None and looking.gathered.moment is not None and not looking.trouble

    def load_ratio(self):
        """The share of the bus that is used."""
        return self.looking.gathered.bits.a_second(self.second()) / BITS_A_SECOND

    # what is worth a word at the top

    def lacks(self):
        """Why what is shown isn't what took place."""
        looking, found = self.looking, []
        if looking.comparing is not None and looking.comparing.differences:
            differences = f"reports that the run and this configuration don't share: {looking.comparing.differences}"
            found.append(f"{differences}, at first {looking.comparing.first}; the run may have another configuration")
        found += [words for words in (looking.lacks, *looking.gaps) if words]
        if looking.no_events:
            found.append(f"{looking.no_events} lines of the file are neither of a recording nor reports")
        return found

    def date_difference(self):
        """How far the run's clock and the machine's date lie apart, in seconds."""
        return time.time() - self.looking.gathered.moment / SECOND_US - self.since_line()

    def warnings(self):
        looking = self.looking
        found = [looking.trouble] if looking.trouble else []
        found += [f"This isn't what took place: {words}." for words in self.lacks()]
        if looking.percent is not None:
            found.append(f"Still reading what the run wrote before: {looking.percent} %.")
        elif self.is_live() and abs(self.date_difference()) > DATE_SECONDS:
            difference = f"{abs(self.date_difference()):.0f} seconds"
            found.append(f"The run's clock and this machine's date differ by {difference}, or nothing was written for so long.")
        return found if self.is_followed() else found + self.missing_keys()

    def missing_keys(self):
        """Which keys of the configuration are missing, and what isn't shown without them."""
        return [f"The configuration has no {line} under {table}: {without}." for line, table, without in self.looking.missing_keys]

    # the pages for machines

    def json(self, most_bytes):
        """All that the page has; without the lines of ten minutes if that would be more than so many bytes."""
        values = self.values()
        text = encoded(values)
        if len(text) > most_bytes:
            for row in values["rows"]:
                row["line"] = []
            text = encoded(values)
        return text

    def values(self):
        looking, gathered = self.looking, self.looking.gathered
        found = {"warnings": self.warnings(), "notes": self.missing_keys(), "since": looking.since, "percent": looking.percent, "silent_for": round(self.since_line(), 3)}
        found["moment"] = None
        if gathered is None or gathered.moment is None:
            return found
        own = gathered.addresses.own
        reported = sorted(gathered.reported.values(), key=lambda one: -one.moment)[:MOST_REFUSED]
        found.update(
            moment=seconds(gathered.moment), heard=seconds(gathered.heard), beat=gathered.beat_seconds, begin=seconds(gathered.begin), own=None if own == NULL_ADDRESS else own,
            rows=[self.row(said) for said in self.all_said() if self.is_shown(said)], others=[self.row(said) for said in gathered.others.values()],
            devices=[self.speaker(address) for address in sorted(gathered.speakers)[:MOST_DEVICES]],
            more_devices=max(0, len(gathered.speakers) - MOST_DEVICES), refused=[self.refused(one) for one in reported],
            changes=[self.change(*one) for one in gathered.changes.newest()], to_bus=[self.carried(*one) for one in gathered.to_bus.items()],
            plotters=[self.plotter(address) for address in sorted(gathered.plotters)[:MOST_PLOTTERS]],
            rates=self.rates(), failures=[self.failure(*one) for one in sorted(gathered.failures.items())])
        return found

    def rates(self):
        gathered, second = self.looking.gathered, self.second()
        return {"frames": gathered.frames.a_second(second), "frames_to_bus": gathered.frames_out.a_second(second), "load": round(self.load_ratio(), 4),
                "datagrams": gathered.datagrams_out.a_second(second), "datagrams_from_network": gathered.datagrams.a_second(second)}

    @staticmethod
    def failure(key, count):
        rule, link = key
        return {"link": link, "what": FAILURES.get(rule, "refused"), "count": count}

    @staticmethod
    def is_shown(said):
        return said.moment is not None or said.is_watched

    def row(self, said):
        gathered = self.looking.gathered
        source = None if said.source is None else gathered.device(said.source)
        return {"name": said.name, "words": said.words, "source": source, "values": [[value.words, value.text, value.unit] for value in said.values],
                "moment": seconds(said.moment), "timeout": said.timeout_us / SECOND_US, "must": said.is_watched, "missed": said.is_missed,
                "silent": self.is_live() and self.is_silent(said), "count": said.count, "line": [[cell - said.line[-1][0], number] for cell, number in said.line if number is not None]}

    @staticmethod
    def carried(name, one):
        values = [[value.words, value.text, value.unit] for value in one.values]
        return {"name": name, "words": one.words, "values": values, "source": one.source, "moment": seconds(one.moment), "count": one.count}

    def plotter(self, address):
        plotter = self.looking.gathered.plotters[address]
        return {**self.looking.gathered.device(address), "what": plotter.words, "leads": plotter.leads, "moment": seconds(plotter.moment)}

    def change(self, change, moment, times):
        row = self.looking.gathered.rows.get(change.row)
        address = None if change.address == NULL_ADDRESS else change.address
        return {"what": change.what, "row": row.words if row else "", "address": address, **named(change.name), "moment": seconds(moment), "count": times}

    def speaker(self, address):
        gathered = self.looking.gathered
        speaker = gathered.speakers[address]
        return {**gathered.device(address), "product": speaker.product, "moment": seconds(speaker.moment), "frames": speaker.rate.total,
                "rate": speaker.rate.a_second(self.second())}

    def refused(self, one):
        name, cause, cure = self.rules.get(one.rule, ("", "", ""))
        return {"rule": one.rule, "name": name, "cause": cause, "cure": cure, "sender": one.sender, "count": one.count, "moment": seconds(one.moment)}

    def silent_rows(self):
        """The watched rows that aren't said, by their words."""
        return [said.words for said in self.all_said() if said.is_watched and self.is_silent(said)]

    def health(self):
        """Whether all is well, and words for it."""
        looking = self.looking
        if not self.is_followed():
            return False, f"no run is followed: {looking.trouble or 'none has begun'}"
        if not self.is_live():
            return True, f"still reading: {looking.percent} %"
        if self.has_ended():
            return False, f"the gateway has ended: nothing was written for {self.since_line():.0f} seconds"
        silent = self.silent_rows()
        return not silent, "silent: " + ", ".join(silent) if silent else "ok"

    def metrics(self):
        samples = self.samples()
        lines = []
        for name, kind, words in METRICS:
            lines += [f"# TYPE {name} {kind}", f"# HELP {name} {words}"]
            suffix = "_total" if kind == "counter" else ""
            for labels, value in samples.get(name, ()):
                shown = ",".join(f'{label}="{text}"' for label, text in labels)
                lines.append(f"{name}{suffix}{{{shown}}} {value}" if shown else f"{name}{suffix} {value}")
        return "\n".join([*lines, "# EOF", ""]).encode()

    def samples(self):
        """Of each metric its samples: their labels, whose texts are the gateway's own words and numbers alone, and the value."""
        gathered = self.looking.gathered
        if not self.is_followed():
            return {"shipgate_up": [((), 0)]}
        said = [one for one in self.all_said() if one.moment is not None]
        values = [((("row", one.name), ("unit", value.unit)), value.number) for one in said for value in one.values if value.number is not None]
        return {
            "shipgate_up": [((), 1)],
            "shipgate_reports": [((("rule", rule),), count) for rule, count in sorted(gathered.rules.items())],
            "shipgate_row_age_seconds": [((("row", one.name),), f"{max(0.0, self.age(one.moment)):.3f}") for one in said],
            "shipgate_row_value": values,
            "shipgate_frames": [((("source", address),), speaker.rate.total) for address, speaker in sorted(gathered.speakers.items())],
            "shipgate_datagrams": [((("group", group),), count) for group, count in sorted(gathered.sent_groups.items())],
            "shipgate_bus_load_ratio": [((), f"{self.load_ratio():.4f}")],
            "shipgate_send_failures": [((("link", link),), gathered.failures[NOT_SENT, link]) for link in LINKS],
        }
