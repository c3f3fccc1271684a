"""The programs under test, and how each is started: a program is the list of its words.
"""

import array
import fcntl
import os
import pathlib
import shutil
import subprocess
import tempfile
import termios

TESTS = pathlib.Path(__file__).resolve().parent
ROOT = TESTS.parent


def compiler():
    """A C compiler."""
    if shutil.which("gcc") is None:
        raise SystemExit("no gcc here: apt-get install -y gcc")
    return "gcc"


def compiled(name):
    path = ROOT / "target" / "bin" / name
    if not path.exists():
        raise SystemExit(f"target/bin/{name} is not there: ./tray builds it")
    return [str(path)]


def peer(*words, build="peer/peer"):
    return [str(ROOT / build), *words]


def run(program, recording, **options):
    """Exit status, output and errors, with the recording in a file as standard input."""
    with tempfile.TemporaryFile() as source:
        source.write(recording)
        source.seek(0)
        done = subprocess.run(program, stdin=source, stdout=subprocess.PIPE,
                              stderr=subprocess.PIPE, **options)
    return done.returncode, done.stdout, done.stderr


def in_pieces(program, recording, size):
    """The same through a pipe. Each piece is written only when the one before has left the pipe, so
    no read sees two of them."""
    with tempfile.TemporaryFile() as sink, tempfile.TemporaryFile() as errors:
        process = subprocess.Popen(program, stdin=subprocess.PIPE, stdout=sink, stderr=errors)
        descriptor = process.stdin.fileno()
        waiting = array.array("i", [0])
        view = memoryview(recording)
        try:
            for start in range(0, len(recording), size):
                piece = view[start:start + size]
                while piece:
                    piece = piece[os.write(descriptor, piece):]
                while True:
                    fcntl.ioctl(descriptor, termios.FIONREAD, waiting)
                    if waiting[0] == 0 or process.poll() is not None:
                        break
                    os.sched_yield()
        except BrokenPipeError:
            pass                                       # a refusal ended the run
        process.stdin.close()
        code = process.wait()
        sink.seek(0)
        errors.seek(0)
        return code, sink.read(), errors.read()
