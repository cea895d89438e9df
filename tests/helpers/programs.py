"""The proved programs, as tools/build built them."""

import contextlib
import os
import pathlib
import subprocess
import tempfile
import threading

import report
from paths import root

# Another folder of programs may be named, as for a trial.
folder = pathlib.Path(os.environ.get("PROGRAMS", root / "target" / "bin")).resolve()


def need(*names):
    """Ends the script if one of these programs is not built."""
    for name in names:
        report.need_built(folder / name, f"tools/build {name}")


def printed(program, stdin, where="/"):
    """What a program writes; None where it fails."""
    done = subprocess.run([folder / program], input=stdin, stdout=subprocess.PIPE, cwd=where)
    return done.stdout if done.returncode == 0 else None


def run(card, rows):
    """What the run program writes for a card and the bytes of rows; None for the card: no such file."""
    with tempfile.TemporaryDirectory() as where:
        if card is not None:
            (pathlib.Path(where) / "net.card").write_bytes(card)
        return printed("run", rows, where)


def run_in_pieces(card, pieces):
    """What the run program writes while its input stays open: a piece is some bytes and how many lines they complete. The last answer is
    what comes once the input ends. A program that keeps a line back is ended after 10 seconds, and its further answers are empty."""
    with tempfile.TemporaryDirectory() as where:
        (pathlib.Path(where) / "net.card").write_bytes(card)
        program = subprocess.Popen([folder / "run"], bufsize=0, stdin=subprocess.PIPE, stdout=subprocess.PIPE, cwd=where)
        timer = threading.Timer(10, program.kill)
        timer.start()
        answers = []
        for data, lines in pieces:
            with contextlib.suppress(BrokenPipeError):
                program.stdin.write(data)
            answers.append(b"".join(program.stdout.readline() for _ in range(lines)))
        program.stdin.close()
        answers.append(program.stdout.read())
        program.stdout.close()
        program.wait()
        timer.cancel()
        return answers


def ends_unread(card):
    """The run program on an input without end, of zeros: its first line, and the status with which it ends, and whether it says why, once nobody
    reads on; no status if it does not end."""
    with tempfile.TemporaryDirectory() as where, open("/dev/zero", "rb") as zeros:
        (pathlib.Path(where) / "net.card").write_bytes(card)
        program = subprocess.Popen([folder / "run"], stdin=zeros, stdout=subprocess.PIPE, stderr=subprocess.PIPE, cwd=where)
        line = program.stdout.readline()
        program.stdout.close()
        try:
            status = program.wait(10)
        except subprocess.TimeoutExpired:
            status = None
            program.kill()
            program.wait()
        with program.stderr as said:
            return line, status, said.read() != b""


def unwritten(program, card):
    """The status with which a program ends whose output, the answer to that input, cannot be written, and whether it says why."""
    with open("/dev/full", "wb") as full:
        ended = subprocess.run([folder / program], input=card, stdout=full, stderr=subprocess.PIPE, timeout=10)
        return ended.returncode, ended.stderr != b""


def flatten(card):
    return printed("flatten", card)
