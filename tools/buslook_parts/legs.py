"""The part of the page on navigation: which plotter led where, and why nothing was said of another one's messages."""

from .drawing import counted, rows_folded, table, text
from .speakers import claimed_addresses
from .unsaid import NEVER_CLAIMED, UNCLAIMED, few

SHOWN_LEGS = 40


def where_it_went(recording, scale):
    """Nothing unless navigation is asked for."""
    followed = recording.followed
    if followed.navigation.group is None:
        return ""
    legs = [leg_row(leg, scale) for leg in followed.legs]
    told = rows_folded(("Plotter", "NAME", "Rank", "Destination", "From", "To", "Said", "Of these for no pilot"), legs, SHOWN_LEGS)
    told = told if legs else "<p>No plotter was followed.</p>"
    told += f"<p>and {counted(followed.more_legs, 'more leg')}</p>" if followed.more_legs else ""
    claimed = claimed_addresses(recording.addresses)
    rows = [(f"address {source}", f"{count:,}", text(worded(why, source, claimed))) for source, why, count in followed.not_said()]
    told += table(("Plotter", "Messages", "Why none of it was said"), rows) if rows else ""
    words = "The plotter that the gateway followed, by its destinations. A pilot follows none that has no bearing, or no error of its own that is fresh."
    return f"<h3>Where plotters led</h3><p>{words}</p>{told}"


def leg_row(leg, scale):
    device = leg.device
    return (text(device.label), f"<code>{device.name}</code>", text(device.rank_text), text(leg.destination), scale.at(leg.begin), scale.at(leg.end), leg.said, leg.unfit)


def worded(why, source, claimed):
    return NEVER_CLAIMED if why == UNCLAIMED and source not in claimed else why


def at_navigation(recording):
    """A line for the top of the page, if navigation is asked for and nothing was said of it, or nothing that a pilot follows."""
    followed, claimed = recording.followed, claimed_addresses(recording.addresses)
    if followed.navigation.group is None:
        return []
    if not followed.messages:
        return ["nobody says where it goes (PGN 129284)"]
    if not followed.legs:
        reasons = {}
        for source, why, _ in followed.not_said():
            reasons.setdefault(worded(why, source, claimed), []).append(source)
        words = ", ".join(f"{few(sources)} {why}" for why, sources in reasons.items())
        return [f"navigation: {counted(followed.messages, 'message')}, none said: {text(words)}"]
    if followed.more_legs == 0 and all(leg.said == leg.unfit for leg in followed.legs):
        return ["navigation was said, and no pilot could follow it: there was no bearing, or no error of the same plotter that was fresh"]
    return []
