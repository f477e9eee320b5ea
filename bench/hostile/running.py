"""Runs of the program, and the forms of what `table` writes."""
import fcntl
import importlib.util
import os
import re
import select
import subprocess
import sys
import tempfile
import time
from collections import namedtuple
from contextlib import contextmanager
from pathlib import Path

ROOT = Path(__file__).resolve().parent.parent.parent
PROGRAM = ROOT / "crates" / "ddfarm" / "out" / "ddfarm"
HANGS = "hangs"
# Modules of bench/answers are found by name. Other folders have modules with the same names: see module_of.
sys.path.append(str(ROOT / "bench" / "answers"))

# How a run ended: its status (below zero the number of a signal, or HANGS), and what it wrote.
Outcome = namedtuple("Outcome", "status out err")

# What stands between the boards of a text of tables. No name of a board has a line feed.
BETWEEN = b"\n\n"
LACKS = re.compile(rb"; table incomplete: (1?[0-9]) of 20")
HEADING = rb'\[OptimumResultTable "Declarer;Denomination\\2R;Result\\2R"\]'
TABLE = re.compile(HEADING + rb"(?:\n[NSEW] (?:NT| [SHDC]) [ 1][0-9]){20}")
# So many bytes a pipe takes at least before anyone reads.
PIPE = 60_000


def module_of(folder, name):
    """A module of a folder of bench, whatever other has its name."""
    spec = importlib.util.spec_from_file_location(f"{folder}_{name}", ROOT / "bench" / folder / f"{name}.py")
    module = importlib.util.module_from_spec(spec)
    spec.loader.exec_module(module)
    return module


def run(words, text=b"", seconds=120, limits=None, environment=None):
    """The outcome of the program on these words and this input; `limits` is called in the new process before it
    starts."""
    command = [str(PROGRAM), *words]
    try:
        done = subprocess.run(command, input=text, capture_output=True, timeout=seconds, preexec_fn=limits,
                              env=environment)
    except subprocess.TimeoutExpired as stopped:
        return Outcome(HANGS, stopped.stdout or b"", stopped.stderr or b"")
    return Outcome(done.returncode, done.stdout, done.stderr)


@contextmanager
def file_of(text=b""):
    """A file with this text, open at its beginning."""
    with tempfile.TemporaryFile() as file:
        file.write(text)
        file.seek(0)
        yield file


def contents_of(file):
    file.seek(0)
    return file.read()


def status_of(process, seconds):
    """The status with which a process ends; one that takes longer is killed."""
    try:
        return process.wait(seconds)
    except subprocess.TimeoutExpired:
        process.kill()
        process.wait()
        return HANGS


def run_in_pieces(words, pieces, seconds):
    """The outcome on an input that comes through a pipe, piece by piece, of PIPE bytes at most."""
    with file_of() as output, file_of() as errors:
        process = subprocess.Popen([str(PROGRAM), *words], stdin=subprocess.PIPE, stdout=output, stderr=errors,
                                   bufsize=0)
        for piece in pieces:
            process.stdin.write(piece)
            time.sleep(0.001)
        process.stdin.close()
        return Outcome(status_of(process, seconds), contents_of(output), contents_of(errors))


def read_from(end, count, seconds):
    """The first bytes that come from a pipe: so many, or fewer where it ends or nothing comes for so long."""
    read = b""
    while len(read) < count and select.select([end], [], [], seconds)[0]:
        piece = os.read(end, count - len(read))
        if not piece:
            break
        read += piece
    return read


def run_unread(words, text, count, room, signals, seconds):
    """The outcome where so many bytes of the output are read, and then its pipe, with so much room, is closed; with
    `signals` the signal of a closed pipe is as it is by default, else ignored."""
    end, other_end = os.pipe()
    fcntl.fcntl(end, fcntl.F_SETPIPE_SZ, room)
    with file_of(text) as source, file_of() as errors:
        command = [str(PROGRAM), *words]
        process = subprocess.Popen(command, stdin=source, stdout=other_end, stderr=errors, restore_signals=signals)
        os.close(other_end)
        written = read_from(end, count, seconds)
        os.close(end)
        return Outcome(status_of(process, seconds), written, contents_of(errors))
