"""The page as one file: its template, its look, its script, the module, the examples and the rules."""

import base64
import hashlib
import html
import json
import os
import re
import subprocess

from .building import Built, Missing, Refused

HERE = os.path.dirname(os.path.realpath(__file__))
# the examples, the first of which is open at the beginning
EXAMPLES = (
    ("sensors.log", "Sensors", "Eight instruments, one message each."),
    ("heading.log", "A compass", "A gyro compass, and lines with faults."),
    ("network.log", "Bus and network", "A frame, datagrams, a tick and broken lines."),
    ("machinery.log", "A motor yacht", "Engines, tanks and batteries."),
    ("harbour.log", "A whole bus", "Forty seconds of a boat that leaves a harbour."),
)
# how many lines of each example a browser gets that can't run the code
STORED_LINES = 200
# the sections of docs/reports.md on what convert and show write
SECTIONS = ("Rules of a capture's lines", "Rules of a datagram")
RULES = {1, 2, 4, 5, 22, *range(30, 37), 46, 47}
WIDTH_OF_MODULE = 160


def read(*path):
    with open(os.path.join(*path), encoding="utf-8") as file:
        return file.read()


def plain(cell):
    """A cell of a table without its marks: links by their words, code by itself."""
    return re.sub(r"\[([^]]*)\]\([^)]*\)", r"\1", cell.strip()).replace("`", "")


def rules_of(page):
    """Name, cause and cure of each rule of the two sections."""
    found, above = {}, ""
    for title in SECTIONS:
        section = page.partition(f"## {title}\n")[2].partition("\n## ")[0]
        for line in section.splitlines():
            cells = [plain(cell) for cell in line.strip("|").split(" | ")]
            rule = re.fullmatch(r"(\d+), (.+)", cells[0])
            if rule is None or len(cells) != 3:
                continue
            above = re.sub("^the same", above, cells[2])
            found[int(rule.group(1))] = {"name": rule.group(2), "cause": cells[1], "cure": above}
    if set(found) != RULES:
        raise Refused(f"docs/reports.md has no rows, or has too many, of the rules {sorted(RULES ^ set(found))}")
    return found


def written(program, command, capture):
    """What the proved program writes for a capture."""
    try:
        return subprocess.run([program, command], input=capture, stdout=subprocess.PIPE, check=True).stdout
    except OSError as fault:
        raise Missing(f"the proved program can't be run: {fault}") from fault
    except subprocess.CalledProcessError as fault:
        raise Refused(f"{program} {command} ended with status {fault.returncode}") from fault


def example(top, program, name, title, about):
    """An example, and what convert and show write for its first lines; for convert with a line of no form behind each, as the script asks for it."""
    capture = read(top, "examples", name)
    lines = capture.encode().split(b"\n")[:STORED_LINES]
    marked = b"".join(line + b"\n-\n" for line in (lines if capture.count("\n") >= STORED_LINES else lines[:-1]))
    return {
        "name": name, "title": title, "about": about, "capture": capture,
        "convert": written(program, "convert", marked).decode(), "show": written(program, "show", b"\n".join(lines)).decode(),
    }


def version_of(program):
    said = subprocess.run([program, "--version"], stdout=subprocess.DEVNULL, stderr=subprocess.PIPE, stdin=subprocess.DEVNULL, check=False).stderr.decode()
    found = re.match(r"shipgate ([\d.]+)", said)
    if found is None:
        raise Refused(f"{program} doesn't say its version")
    return found.group(1)


def sum_of(text):
    return base64.b64encode(hashlib.sha256(text.encode()).digest()).decode()


def data(value):
    """A value as JSON that can stand in a page."""
    return json.dumps(value, sort_keys=True, separators=(",", ":")).replace("<", "\\u003c")


def folded(module):
    text = base64.b64encode(module).decode()
    return "\n".join(text[place : place + WIDTH_OF_MODULE] for place in range(0, len(text), WIDTH_OF_MODULE))


def built_in(page):
    """The module of a page, its verdict and the kit that built it, or nothing where it is no such page."""
    page = page.decode(errors="replace")
    module = re.search(r'<script type="text/plain" id="module">([^<]*)<', page)
    kit = re.search(r"built with (rattle-kit-[^<]*)<", page)
    verdict = re.search(r"<dt>Verdict</dt><dd><code>([^<]*)<", page)
    if module is None or kit is None or verdict is None:
        return None
    return Built(base64.b64decode(module.group(1)), html.unescape(verdict.group(1)), html.unescape(kit.group(1)))


def document(top, built, program):
    """The page, as bytes."""
    examples = [example(top, program, *one) for one in EXAMPLES]
    style, script = read(HERE, "look.css"), read(HERE, "page.js")
    first = examples[0]["capture"]
    sentences = written(program, "convert", first.encode()).decode().replace("\r", "")
    parts = {
        "STYLE": style, "SCRIPT": script, "STYLE_SUM": sum_of(style), "SCRIPT_SUM": sum_of(script), "MODULE": folded(built.module),
        "FACTS": data({"rules": rules_of(read(top, "docs", "reports.md")), "examples": examples, "stored": STORED_LINES}),
        "VERSION": version_of(program), "KIT": html.escape(built.kit), "VERDICT": html.escape(built.verdict),
        "MODULE_SIZE": f"{len(built.module):,}", "MODULE_SUM": hashlib.sha256(built.module).hexdigest(), "SCRIPT_LINES": str(script.count("\n")),
        "PLAIN_CAPTURE": html.escape(first), "PLAIN_SENTENCES": html.escape(sentences),
    }
    template = read(HERE, "template.html")
    return re.sub(r"@([A-Z_]+)@", lambda place: parts[place.group(1)], template).encode()
