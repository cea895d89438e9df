#!/usr/bin/env python3
"""The examples' files are those that their generator writes now, and the run program and the command examples/run print their lines."""

import subprocess

import paths

import generated
import make_examples
import programs
import report


def tests():
    """What is looked at, what is there, and what must be."""
    files = make_examples.files()
    yield "the files of the examples", generated.stale(make_examples.folder, files), []
    for name in make_examples.EXAMPLES:
        expected = files[f"{name}/expected"]
        yield f"run in examples/{name}", programs.run(files[f"{name}/net.card"], files[f"{name}/rows"]), expected
        script = subprocess.run([make_examples.folder / "run", name], capture_output=True)
        yield f"examples/run {name}", script.stdout, expected


programs.need("run")
report.compare(tests())
