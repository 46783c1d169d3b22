"""What livelook makes of files: that come late, are cut, replaced or hold what they shouldn't, and of folders of keep."""

import contextlib
import os
import socket
import subprocess
import sys
import tempfile
import time

from livelook_boat import COMPASS, DEPTH, NAMES, TOP, WIND, Boat, Look, speak, until, wanted

from keep_parts.run_lines import head_of_part

KEEP = os.path.join(TOP, "tools", "keep")
CLAIM, HEADING = "can0 18EEFF17#0500C0FF008C78C0", "can0 09F11217#005C3DFF7FFF7FFC"
CHANGE = "rule 28 row=heading_true src=23"
# how far back it looks for the start of a run
LOOKS_BACK, HOLE_BYTES = 200_000_000, 5_000_000


def lines(*texts, since=None):
    """Lines of a run, a hundredth of a second apart, up to now."""
    since = time.time() - 0.01 * len(texts) if since is None else since
    return "".join(f"({since + 0.01 * place:.6f}) {text}\n" for place, text in enumerate(texts)).encode()


def run_lines():
    """A run with what it reports, at the moment of its event."""
    text = lines("tick start", CLAIM, HEADING)
    return text + text.splitlines(True)[-1].split(b" ")[0] + b" " + CHANGE.encode() + b"\n"


def append(path, text):
    with open(path, "ab") as file:
        file.write(text)


def try_files():
    """Files that come late, are cut, replaced or hold what they shouldn't; another configuration; gaps; the program that ends."""
    with tempfile.TemporaryDirectory() as folder:
        boat, run = Boat(folder), os.path.join(folder, "run.log")
        with Look(boat.config, run) as look:
            until("a file that isn't there", lambda: look.warns("run.log"))
            wanted("health without a run", look.get("/health")[0] == 503 and look.metrics().get(("shipgate_up", None)) == 0)
            whole = run_lines()
            append(run, whole + b"(1700000000.0")
            until("a heading", lambda: "heading_true" in look.rows() and look.rows()["heading_true"]["values"])
            wanted(f"warnings: {look.faults()}", look.faults() == [])
            append(run, b"00000) neither\nnothing\n")
            until("lines that are nothing", lambda: look.warns("2 lines of the file are neither"))
            append(run, run_lines())
            until("a new run", lambda: look.faults() == [] and look.rows()["heading_true"]["count"] == 1)
            append(run, lines("tick", "rule 10 src=99 pgn=127250"))
            until("a report that the program doesn't give", lambda: look.warns("the run alone has"))
            with open(run, "wb") as file:
                file.write(run_lines())
            until("a file that was cut", lambda: look.faults() == [] and look.rows())
            os.unlink(run)
            append(run, lines("tick start", CLAIM, HEADING, "tick"))
            until("a report that the run doesn't have", lambda: look.warns("the run lacks"))
            append(run, lines("tick lost 7"))
            until("a gap", lambda: look.warns("keep dropped 7 lines"))
            children = [child for task in os.listdir(f"/proc/{look.run.pid}/task") for child in children_of(look.run.pid, task)]
            wanted(f"the program that runs along: {children}", len(children) == 1)
            os.kill(int(children[0]), 9)
            append(run, lines("tick"))
            until("the program ended", lambda: look.warns("before it had read all"))
            until("the program anew", lambda: look.rows())
        begun = time.time() - 5
        part = head_of_part(b"%.6f" % begun, b"1700000000.000000", 3, [CLAIM.encode()])
        append(os.path.join(folder, "keep-000007-20231114T221320Z-3.log"), part + lines(HEADING, since=begun + 0.1))
        with Look(boat.config, folder) as look:
            until("a part of a run", lambda: look.rows().get("heading_true", {}).get("values") and "part 3" in look.status()["since"])
            part = head_of_part(b"%.6f" % (begun + 1), b"1700000000.000000", 4, [CLAIM.encode()])
            append(os.path.join(folder, "keep-000008-20231114T221320Z-4.log"), part + lines(HEADING, since=begun + 1.1))
            until("the next part", lambda: look.rows()["heading_true"]["count"] == 2)
            wanted("claims at the head of the next part", look.metrics()["shipgate_frames_total", 'source="23"'] == 3)


def try_pipe():
    """A pipe isn't read, so the gateway waits for nobody; a file in its place is."""
    with tempfile.TemporaryDirectory() as folder:
        boat, run = Boat(folder), os.path.join(folder, "run.log")
        os.mkfifo(run)
        with Look(boat.config, run) as look:
            until("a pipe", lambda: look.warns("neither a file nor the folder of keep"))
            with contextlib.suppress(OSError):
                os.close(os.open(run, os.O_WRONLY | os.O_NONBLOCK))
                wanted("somebody reads the pipe", False)
            os.unlink(run)
            append(run, run_lines())
            until("a file in its place", lambda: look.faults() == [] and look.rows())


def children_of(process, task):
    # a thread may have ended meanwhile
    with contextlib.suppress(FileNotFoundError), open(f"/proc/{process}/task/{task}/children", encoding="ascii") as file:
        return file.read().split()
    return []


def try_one_moment():
    """Of several events of one moment each value has the source of its own."""
    with tempfile.TemporaryDirectory() as folder:
        boat, run, now = Boat(folder), os.path.join(folder, "run.log"), f"({time.time():.6f}) can0 "
        claims = [f"can0 18EEFF{address:02X}#{NAMES[address].to_bytes(8, 'little').hex().upper()}" for address in (COMPASS, WIND, DEPTH)]
        append(run, lines("tick start", *claims, since=time.time() - 5))
        said = ((COMPASS, "09F112", "005C3DFF7FFF7FFC"), (WIND, "09FD02", "00E7035C3DFAFFFF"), (COMPASS, "09F113", "00C0BDF0FFFFFFFF"),
                (DEPTH, "0DF50B", "00D2040000CEFFFF"))
        append(run, "".join(f"{now}{identifier}{address:02X}#{data}\n" for address, identifier, data in said).encode())
        with Look(boat.config, run) as look:
            until("the last event", lambda: "depth" in look.rows())
            found = {name: row["source"]["address"] for name, row in look.rows().items() if row["source"]}
            wanted(f"sources: {found}", found == {"heading_true": COMPASS, "wind_apparent": WIND, "rate_of_turn": COMPASS, "depth": DEPTH})


def try_keep():
    """The folder of keep, over several parts."""
    with tempfile.TemporaryDirectory() as folder:
        boat, kept = Boat(folder), os.path.join(folder, "kept")
        os.mkdir(kept)
        keep = [sys.executable, KEEP, "--folder", kept, "--size", "20K", "--"]
        with boat.serving(subprocess.DEVNULL, keep), Look(boat.config, kept) as look:
            until("the start of the run", lambda: look.status()["moment"])
            boat.claim()
            until("three parts", lambda: (speak(boat, 5, pause=0.02), len(os.listdir(kept)) > 3)[1])
            sent = sum(boat.sent.values())
            until("all frames", lambda: look.total("shipgate_frames_total") == sent - boat.lost())
            wanted(f"warnings: {look.faults()}", look.faults() == [])


def try_middle():
    """A start of a run further back than it looks, in a file and in the folder of keep; holes make the files long."""
    with tempfile.TemporaryDirectory() as folder:
        boat, run = Boat(folder), os.path.join(folder, "run.log")
        write_far(run, LOOKS_BACK + HOLE_BYTES)
        with Look(boat.config, run) as look:
            until("the middle of a run", lambda: look.status()["moment"])
            wanted("a start too far back", look.status()["since"] == "since the middle of a run" and look.warns("devices that claimed before"))
            until("the claim after it", lambda: look.rows()["heading_true"]["count"] == 1)
        write_far(run, LOOKS_BACK - HOLE_BYTES)
        with Look(boat.config, run) as look:
            until("a start within reach", lambda: look.status()["since"] == "since its start" and look.rows().get("heading_true", {}).get("count") == 1)
        kept = os.path.join(folder, "kept")
        os.mkdir(kept)
        begun = time.time() - 5
        write_far(os.path.join(kept, "keep-000001-20231114T221320Z-1.log"), LOOKS_BACK)
        part = head_of_part(b"%.6f" % begun, b"1700000000.000000", 2, [CLAIM.encode()])
        append(os.path.join(kept, "keep-000002-20231114T221320Z-2.log"), part + lines(HEADING, since=begun + 0.1))
        with Look(boat.config, kept) as look:
            until("the last part", lambda: look.status()["since"] == "since part 2 of its recording" and look.rows().get("heading_true", {}).get("count") == 1)
            wanted(f"warnings: {look.faults()}", look.faults() == [])


def write_far(path, size):
    """A run whose start stands so many bytes before its end."""
    with open(path, "wb") as file:
        file.write(lines("tick start", since=time.time() - 60))
        file.truncate(size)
        file.seek(size)
        file.write(b"\n" + run_lines().split(b"\n", 1)[1])


def try_behind():
    """While it reads what was written before, it answers, says how far it is, and doesn't take that for now."""
    count, since = 60_000, time.time() - 700
    with tempfile.TemporaryDirectory() as folder:
        boat, run = Boat(folder), os.path.join(folder, "run.log")
        append(run, lines("tick start", CLAIM, *[HEADING] * count, since=since))
        with Look(boat.config, run) as look:
            told, slowest = [], 0.0
            while not told or told[-1] is not None:
                begun = time.monotonic()
                status = look.status()
                slowest = max(slowest, time.monotonic() - begun)
                if status["moment"]:
                    told.append(status["percent"])
                    wanted("it doesn't say how far it is", (status["percent"] is None) != any("Still reading" in words for words in status["warnings"]))
                time.sleep(0.05)
            percents = told[:-1]
            wanted(f"how far it is: {percents}", len(set(percents)) > 3 and percents == sorted(percents))
            wanted(f"an answer took {slowest:.1f} s", slowest < 10)
            until("all frames", lambda: look.metrics()["shipgate_frames_total", 'source="23"'] == count + 1)


def try_half_lines():
    """A gateway that ends within a line, and another one that goes on in the same file."""
    with tempfile.TemporaryDirectory() as folder:
        boat, run = Boat(folder), os.path.join(folder, "run.log")
        append(run, run_lines()[:-20])
        with Look(boat.config, run) as look:
            until("a run in half a line", lambda: look.status()["moment"])
            append(run, run_lines())
            until("the next run behind it", lambda: look.status()["since"] == "since its start" and look.faults() == [])
            wanted("the next run alone", look.rows()["heading_true"]["count"] == 1)
        with Look(boat.config, run) as look:
            until("the same from the beginning", lambda: look.rows().get("heading_true", {}).get("count") == 1)


def try_clocks():
    """The run's clock beside the machine's, and moments that jump: ages are those of the run."""
    with tempfile.TemporaryDirectory() as folder:
        boat, run = Boat(folder), os.path.join(folder, "run.log")
        append(run, lines("tick start", CLAIM, since=time.time() - 3600))
        with Look(boat.config, run) as look:
            until("a clock that is late", lambda: look.warns("differ by 36"))
            append(run, lines(HEADING, HEADING, since=time.time() - 3599))
            until("a heading", lambda: look.rows()["heading_true"]["count"] == 2)
            wanted("an age by the run", look.metrics()["shipgate_row_age_seconds", 'row="heading_true"'] < 2)
            # rule 3: it has no other effect
            append(run, lines(HEADING, since=time.time() - 7200))
            until("a moment that falls back", lambda: look.metrics().get(("shipgate_reports_total", 'rule="3"')) == 1)
            wanted("what is said at it", look.rows()["heading_true"]["count"] == 2)
            append(run, lines("tick", since=time.time() + 3600))
            until("a moment that jumps ahead", lambda: look.metrics()["shipgate_row_age_seconds", 'row="heading_true"'] > 7000)
            wanted("it fell silent", look.rows()["heading_true"]["silent"])
            until("a clock that is early", lambda: look.warns("differ by 36"))


def try_no_claims():
    """A bus whose devices claim nothing: all is refused, and who they are isn't known."""
    with tempfile.TemporaryDirectory() as folder:
        boat, run = Boat(folder), os.path.join(folder, "run.log")
        text = lines("tick start", HEADING)
        append(run, text + text.splitlines(True)[-1].split(b" ")[0] + b" rule 10 src=23 pgn=127250\n")
        with Look(boat.config, run) as look:
            until("a refused heading", lambda: any((one["rule"], one["sender"]) == (10, "address 23") for one in look.status().get("refused", [])))
            status = look.status()
            wanted("a device without a claim", [(one["address"], one["claimed"], one["name"]) for one in status["devices"]] == [(COMPASS, False, "")])
            wanted(f"rows: {look.rows()}", all(row["moment"] is None for row in status["rows"]) and look.faults() == [])


def try_receives():
    """A receive that failed, of which `replay` knows nothing, is no difference."""
    with tempfile.TemporaryDirectory() as folder:
        boat, run = Boat(folder), os.path.join(folder, "run.log")
        append(run, run_lines() + lines("tick", "rule 51 link=bus"))
        with Look(boat.config, run) as look:
            until("a receive that failed", lambda: look.status().get("failures") == [{"link": "bus", "what": "not received", "count": 1}])
            wanted(f"warnings: {look.faults()}", look.faults() == [])


def try_folder():
    """A folder of keep that is empty, and one whose files are removed."""
    with tempfile.TemporaryDirectory() as folder:
        boat, kept = Boat(folder), os.path.join(folder, "kept")
        os.mkdir(kept)
        with Look(boat.config, kept) as look:
            until("an empty folder", lambda: look.warns("keep has no file there yet"))
            first = os.path.join(kept, "keep-000009-20231114T221320Z-1.log")
            append(first, run_lines())
            until("the first file", lambda: look.faults() == [] and look.rows()["heading_true"]["count"] == 1)
            os.unlink(first)
            until("a folder that was cleared", lambda: look.warns("keep has no file there yet"))
            wanted("health of a run that is gone", look.get("/health")[0] == 503 and look.metrics() == {("shipgate_up", None): 0})
            append(os.path.join(kept, "keep-000001-20231114T221320Z-1.log"), run_lines())
            until("a file of a lower number", lambda: look.faults() == [] and look.rows()["heading_true"]["count"] == 1)


def try_configuration():
    """A configuration that is refused and then mended, and keys that are missing; a program that isn't there."""
    with tempfile.TemporaryDirectory() as folder:
        boat, run = Boat(folder), os.path.join(folder, "run.log")
        append(run, run_lines())
        with open(boat.config, encoding="ascii") as file:
            text = file.read()
        with open(boat.config, "w", encoding="ascii") as file:
            file.write(text.replace("address = 251", "address = 252"))
        with Look(boat.config, run) as look:
            until("a refused configuration", lambda: look.warns("is refused: config: range gateway.address"))
            with open(boat.config, "w", encoding="ascii") as file:
                file.write(text.replace("sources = true\n", ""))
            append(run, run_lines())
            until("a mended configuration", lambda: look.rows() and not look.warns("refused"))
            wanted("a key that is missing", "sources = true under [report]" in look.status()["notes"][0])
            wanted("what the configuration doesn't give", look.warns("the run alone has"))
            until("what it says", lambda: "is refused" in look.said())
        with Look(boat.config, run, "--program", os.path.join(folder, "shipgate")) as look:
            until("a program that isn't there", lambda: look.warns("can't be run"))


FILES = (try_files, try_pipe, try_one_moment, try_keep, try_middle, try_behind, try_half_lines, try_clocks, try_no_claims, try_receives, try_folder,
         try_configuration)
