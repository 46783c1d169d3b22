"""The rules that a report names, by what docs/reports.md says of them."""

import re

from configuration.pages import REPORTS, PageChanged, text_of


def known_rules():
    """Name, cause and cure of each rule, as the page of reports has them; what stands there by reference is written out."""
    found, above = {}, ""
    for line in text_of(REPORTS).splitlines():
        cells = [re.sub(r"\[([^]]*)\]\([^)]*\)", r"\1", cell.strip()).replace("`", "") for cell in line.strip().strip("|").split(" | ")]
        rule = re.fullmatch(r"(\d+), (.+)", cells[0])
        if len(cells) == 3 and rule is not None:
            cure = re.sub("^the same", above, cells[2])
            above = cure if cells[2] == cure else above
            found[int(rule.group(1))] = (rule.group(2), cells[1], cure)
    referred = {int(number) for _, _, cure in found.values() for number in re.findall(r"as for rule (\d+)", cure)}
    if not found or not referred <= found.keys():
        raise PageChanged(REPORTS, "the rules aren't where they were")
    return {rule: (name, cause, re.sub(r"as for rule (\d+)", lambda match: found[int(match.group(1))][2], cure)) for rule, (name, cause, cure) in found.items()}


def rule_named(name):
    """The number of the rule that the page of reports calls so, where it has one."""
    return next((rule for rule, (known, _, _) in known_rules().items() if known == name), None)
