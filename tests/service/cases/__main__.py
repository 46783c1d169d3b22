"""Runs all cases, one after the other, and writes what each saw as a line of JSON."""

import importlib
import json
import sys
import time
import traceback

from cases import MODULES, Failed
from cases.system import journal

RESULTS = "results"


def outcome(case):
    """Whether a case holds, and what it saw."""
    began = time.monotonic()
    try:
        said, holds = case(), True
    except Failed as failed:
        said, holds = f"{failed}\n{journal()}", False
    except Exception:
        said, holds = f"{traceback.format_exc()}\n{journal()}", False
    return {"holds": holds, "said": f"{said} (after {time.monotonic() - began:.0f} s)"}


def main():
    cases = [case for name in sys.argv[1:] or MODULES for case in importlib.import_module("cases." + name).CASES]
    for case in cases:
        result = {"case": f"{case.__module__.rpartition('.')[2]}.{case.__name__}", **outcome(case), "last": case is cases[-1]}
        with open(RESULTS, "a", encoding="utf-8") as file:
            file.write(json.dumps(result) + "\n")


if __name__ == "__main__":
    main()
