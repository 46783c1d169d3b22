"""The gateway's service once more under other names, each with a drop-in of its own. They are there before systemd: an emulated one takes long to reload."""

from cases.system import CONFIG, PROGRAM

FULL_DISK = "/run/full"


def serving(turns):
    return f"[Service]\nExecStart=\nExecStart={PROGRAM} serve {CONFIG} {turns}\n"


DROP_INS = {
    "few_turns": serving(300),
    "wrong_words": serving(0),
    "full_disk": f"[Service]\nStandardOutput=append:{FULL_DISK}/night.log\n",
    # too little for the gateway, and enough for the shell beside it
    "little_memory": "[Service]\nLimitDATA=400K\n",
    # tests/service/boot gives it the drop-in that the package has
    "recorded": "",
}


# one that stands below /usr/local, as ./shipgate install puts it there
LOCAL = "shipgate-local.service"


def unit_of(name):
    return f"shipgate-{name}.service"
