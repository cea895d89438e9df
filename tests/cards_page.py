#!/usr/bin/env python3
"""docs/CARDS.md tells the truth: its scripts and commands, run in order as a user runs them, in a copy of the folders that they use, print
what the page shows; and the bits that it shows of bench card A are those of the example."""

import os
import pathlib
import re
import shutil
import subprocess
import tempfile

from paths import root

import cards
import programs
import report

PAGE = root / "docs" / "CARDS.md"
SCRIPT = "loader.py"
# A part of the script, or a command and the lines under it.
STEP = re.compile(r"^```python\n(?P<code>(?s:.*?))^```$|^    \$ (?P<command>.*)\n(?P<lines>(?:    (?!\$ ).*\n)*)", re.M)


def printed(command, folder):
    """What a command prints in the copy, as a user sees it. The programs are those that are built."""
    done = subprocess.run(["bash", "-c", command], cwd=folder, env={**os.environ, "PROGRAMS": str(programs.folder)},
                          stdout=subprocess.PIPE, stderr=subprocess.STDOUT, text=True)
    return done.stdout


def tests(page):
    """Each command of the page, what it prints, and what the page shows."""
    with tempfile.TemporaryDirectory() as name:
        folder = pathlib.Path(name)
        shutil.copytree(root / "tools", folder / "tools")
        (folder / "examples").mkdir()
        shutil.copy(root / "examples" / "run", folder / "examples")
        (folder / "target").mkdir()
        (folder / "target" / "bin").symlink_to(programs.folder)
        script = ""
        for step in STEP.finditer(page):
            if step["code"] is not None:
                script += step["code"]
                (folder / SCRIPT).write_text(script)
            else:
                yield f"$ {step['command']}", printed(step["command"], folder), re.sub(r"^    ", "", step["lines"], flags=re.M)


def bench_tests(page):
    """Bench card A as the page has it, field by field and in bytes."""
    data = (root / "examples" / "bench" / "net.card").read_bytes()
    rows = re.findall(r"^\| \d+ \| .* \| `([01 ]+)` \|", page, re.M)
    yield "bench card A in bits", "".join(rows).replace(" ", ""), cards.unpack(data)
    lines = re.findall(r"^    byte +\d+ +((?:[0-9a-f]{2} )+) +([01 ]+)$", page, re.M)
    yield "bench card A in bytes", bytes.fromhex("".join(line[0] for line in lines)), data
    yield "bench card A's bytes in bits", "".join(line[1] for line in lines).replace(" ", ""), cards.unpack(data)


def main():
    programs.need("run", "flatten")
    page = PAGE.read_text()
    found = list(tests(page))
    # Each script and each command is found, so that none is left out because of how it is written.
    counts = [("scripts", page.count("```python"), sum(step["code"] is not None for step in STEP.finditer(page))),
              ("commands", page.count("    $ "), len(found))]
    report.compare([*found, *counts, *bench_tests(page)])


main()
