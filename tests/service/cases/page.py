"""The page of what the gateway does now, beside a gateway that records."""

import json
import os
import urllib.error
import urllib.request

from cases import wanted
from cases.recording import UNIT
from cases.system import RECORDS, RECORDS_NOT, BusLink, alone, configuration, done, is_active, number_of, run, until

PAGE, FOLDER = "shipgate-look.service", "/var/lib/shipgate"
ADDRESS = "http://127.0.0.1:8450"


def status():
    """What the page knows, or nothing while it doesn't answer."""
    try:
        with urllib.request.urlopen(f"{ADDRESS}/status.json", timeout=10) as answer:
            return json.load(answer)
    except (OSError, urllib.error.URLError):
        return {}


def user_of(unit):
    return os.stat(f"/proc/{number_of('MainPID', unit)}").st_uid


def may_write(unit):
    """Whether the files of a service may be written there, by anyone."""
    place = os.path.join(FOLDER, "written")
    ended = run("nsenter", "--target", str(number_of("MainPID", unit)), "--mount", "--", "touch", place)
    run("rm", "--force", place)
    return ended.returncode == 0


def before_and_beside_the_gateway():
    """It starts before the gateway, whose files come later; it has the gateway's user, and its folder for reading alone."""
    with configuration(RECORDS_NOT, RECORDS), alone(UNIT), BusLink() as bus:
        try:
            done("systemctl", "start", PAGE)
            until("the page", status)
            done("systemctl", "start", UNIT)
            bus.claim()
            until("the run on the page", lambda: status().get("moment") and status().get("since") == "since its start")
            # nothing comes from a bus, so what is written may be old when the page reads it
            warnings = [words for words in status()["warnings"] if "nothing was written for so long" not in words]
            wanted(f"the page warns: {warnings}", warnings == [])
            users = user_of(PAGE), user_of(UNIT)
            wanted(f"users {users}", users[0] == users[1] != 0)
            wanted("the page may write", not may_write(PAGE))
            wanted("the gateway may not write", may_write(UNIT))
            return beside_a_new_run(bus)
        finally:
            run("systemctl", "stop", PAGE)


def beside_a_new_run(bus):
    """The next run is on the page, and the page's restart doesn't touch the gateway."""
    moment = status()["begin"]
    bus.forget()
    done("systemctl", "restart", UNIT)
    bus.claim()
    until("the next run on the page", lambda: status().get("begin", moment) > moment)
    before = number_of("MainPID", UNIT)
    done("systemctl", "restart", PAGE)
    until("the page again", lambda: status().get("moment"))
    wanted("the gateway was touched", number_of("MainPID", UNIT) == before and is_active(UNIT) and may_write(UNIT))
    return "it shows both runs, has the gateway's user, and may only read its files"


CASES = (before_and_beside_the_gateway,)
