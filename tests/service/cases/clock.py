"""The gateway and the clock of a machine that has no network, and on which the unit that waits for the clock is enabled."""

from cases import wanted
from cases.system import GATEWAY, is_active, number_of, property_of, until

WAIT = "systemd-time-wait-sync.service"
MOST_SECONDS = 30


def the_gateway_starts_without_a_network():
    until("the gateway", is_active)
    began = number_of("InactiveExitTimestampMonotonic", WAIT) / 1e6
    waited = number_of("ExecMainStartTimestampMonotonic") / 1e6 - began
    state = property_of("ActiveState", WAIT)
    wanted(f"{WAIT} is {state}, so nothing was waited for", state == "failed")
    limit = property_of("TimeoutStartUSec", WAIT)
    wanted(f"{WAIT} may wait for {limit}", limit == "25s")
    return f"{WAIT} began {began:.1f} s after the kernel, the gateway {waited:.1f} s later"


CASES = (the_gateway_starts_without_a_network,)
