"""The priority that the gateway has on a busy machine."""

import os

from cases import wanted
from cases.system import GATEWAY, done, is_active, number_of

NICE = -10


def it_comes_before_others():
    if not is_active():
        done("systemctl", "start", GATEWAY)
    nice = os.getpriority(os.PRIO_PROCESS, number_of("MainPID"))
    wanted(f"the gateway has the priority {nice}", nice == NICE)
    return f"the gateway has the priority {nice}"


CASES = (it_comes_before_others,)
