"""The package while systemd runs: an upgrade, a removal, a purge and a first install; and the removal of an install without a package."""

import os

from cases import wanted
from cases.system import CONFIG, GATEWAY, alone, done, is_active, number_of, property_of, run, until, write
from cases.variants import LOCAL

INSTANCE = "shipgate-bus@case.service"
# a way to the bus that needs no interface: nobody speaks at these ports
INSTANCE_WORDS = "BUS=--yd udp:127.0.0.1:2001 --local 127.0.0.1:2000 --record bus.log\n"
RECORDINGS = "/var/lib/private/shipgate-bus/case"
SERVICES = (GATEWAY, INSTANCE)


def is_enabled(unit):
    """Whether its link is there, of a service that isn't there too."""
    return os.path.lexists(f"/etc/systemd/system/multi-user.target.wants/{unit}")


def an_uninstall():
    """Of an install of which a service runs it removes nothing, and says what to do; once that is done, it removes it."""
    place = f"/usr/local/lib/systemd/system/{LOCAL}"
    with alone(LOCAL):
        done("systemctl", "start", LOCAL)
        refused = run("/shared/uninstall", "/usr/local")
        says = f"systemctl disable --now {LOCAL}"
        wanted(f"it ended with {refused.returncode}: {refused.stdout}", refused.returncode == 1 and says in refused.stdout and os.path.exists(place))
        done("systemctl", "disable", "--now", LOCAL)
        done("/shared/uninstall", "/usr/local")
    wanted(f"{place} is there", not os.path.exists(place))
    return "it left what runs, and removed it once it was stopped"


def an_upgrade():
    """What was enabled stays so, and what ran is the new program."""
    write(os.path.join(os.path.dirname(CONFIG), "bus-case"), INSTANCE_WORDS)
    done("systemctl", "enable", "--now", *SERVICES)
    before = {unit: number_of("MainPID", unit) for unit in SERVICES}
    done("dpkg", "--install", "next.deb")
    for unit in SERVICES:
        until(unit, lambda unit=unit: is_active(unit))
        wanted(f"{unit} isn't enabled any more", is_enabled(unit))
        wanted(f"{unit} goes on with the old program", number_of("MainPID", unit) != before[unit])
    running = os.readlink(f"/proc/{number_of('MainPID')}/exe")
    wanted(f"the gateway is {running}", running == "/usr/bin/shipgate")
    return f"{' and '.join(SERVICES)} are enabled and were started anew"


def a_removal():
    """Services end and are disabled, instances too; configuration and recordings stay."""
    done("dpkg", "--remove", "shipgate")
    for unit in SERVICES:
        wanted(f"{unit} is {property_of('ActiveState', unit)}", property_of("ActiveState", unit) == "inactive")
        wanted(f"{unit} is enabled", not is_enabled(unit))
    wanted("the configuration or the recordings are gone", os.path.exists(CONFIG) and os.listdir(RECORDINGS))
    return "both ended and are disabled"


def a_purge():
    told = done("dpkg", "--purge", "shipgate")
    for path in ("/etc/shipgate", "/var/lib/private/shipgate-bus"):
        wanted(f"{path} is there", not os.path.lexists(path))
        wanted(f"it isn't told that {path} goes: {told}", f"removing {path}," in told)
    left = done("find", "/etc", "/var/lib", "-xdev", "-name", "*shipgate*", "-not", "-path", "/etc/systemd/system/shipgate-*").split()
    wanted(f"there is {left}", not left)
    return "nothing is left but what the check itself put there"


def a_first_install():
    told = done("dpkg", "--install", "first.deb")
    for unit in SERVICES:
        wanted(f"{unit} is {property_of('ActiveState', unit)}", property_of("ActiveState", unit) == "inactive")
        wanted(f"{unit} is enabled", not is_enabled(unit))
    wanted(f"it isn't told what to do next: {told}", "systemctl enable --now shipgate" in told)
    return "nothing is enabled or runs, and it is told what to do next"


CASES = (an_uninstall, an_upgrade, a_removal, a_purge, a_first_install)
