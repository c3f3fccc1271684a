#!/usr/bin/env python3
"""The compiled programs on the stored recordings; leaves 1 on a difference.

Stored are examples/ and tests/recordings/: NAME.txt, what is to be printed in NAME.lines and
NAME.cells, and in examples/ the bytes in NAME.bin too. A recording that begins with tag 0A is the
controller's, every other one the tray's. Each is run whole, in pieces, cut at each byte and with
each byte damaged. What a cut or damaged one is to print comes from the peer. Then outputs that
fail, and inputs that do, at once or after some bytes.
"""

import concurrent.futures
import os
import pty
import re
import resource
import signal
import subprocess
import sys
import tempfile
import tty

import generate
import generate_controller
import programs

LAUNCHER = str(programs.ROOT / "tray")
PIECES = (1, 2, 3, 7, 133, 4096, 65537)
EVERY_BIT = "tray"            # document 01's recording: flipped bit by bit; the others a bit a byte
SECONDS = 60                  # a run that takes longer hangs
BROKE_OFF = b"tray: the run broke off: what is printed stops before its end\n"


class Kind:
    """A kind of recordings: the programs for lines and for cells, ours and the peer's, the
    launcher's words for them, a long recording, and one that is cut off while it is read."""

    def __init__(self, name, peer, generator, words, broken):
        self.run = programs.compiled(f"{name}_run")
        self.cells = programs.compiled(f"{name}_cells")
        self.peer = programs.peer(build=f"peer/{peer}")
        self.peer_cells = programs.peer("cells", build=f"peer/{peer}")
        self.long = generator.recording(2, fields=20000, well_formed=True)
        self.words = words
        self.broken = bytes_of(programs.ROOT / "examples" / f"{broken}.txt")

    def ours(self):
        return self.run, self.cells

    def pairs(self):
        return (self.run, self.peer), (self.cells, self.peer_cells)


def bytes_of(text):
    return bytes.fromhex(re.sub(r"#.*|[;\s]", "", text.read_text()))


TRAY = Kind("tray", "peer", generate, ("run", "cells"), "tray")
CONTROLLER = Kind("controller", "controller", generate_controller, ("control", "control-cells"),
                  "silent")
KINDS = (TRAY, CONTROLLER)


def kind_of(recording):
    return CONTROLLER if recording.startswith(b"\x0A") else TRAY


def stored_recordings():
    folders = (programs.ROOT / "examples", programs.TESTS / "recordings")
    for text in sorted(path for folder in folders for path in folder.glob("*.txt")):
        yield text.with_suffix(""), bytes_of(text)


def last_line(prefix):
    """END or refusal 5, by the lengths in the recording alone, where it holds no other refusal."""
    at = fields = 0
    while at < len(prefix):
        size = 3 + int.from_bytes(prefix[at + 1:at + 3], "big")
        if len(prefix) < at + 3 or len(prefix) < at + size:
            return f"! 5 {at}\n"
        at += size
        fields += 1
    return f"END {fields}\n"


def masks(name, at):
    return [1 << bit for bit in range(8)] if name.name == EVERY_BIT else [1 << at % 8]


# ---- one check each: the answer is what went wrong, or None

def whole(name, recording):
    lines = name.with_suffix(".lines").read_bytes()
    cells = name.with_suffix(".cells").read_bytes()
    pairs = zip(kind_of(recording).pairs(), (lines, cells))
    if any(programs.run(program, recording) != (0, output, b"")
           for pair, output in pairs for program in pair):
        return f"{name.name}: not as stored"
    binary = name.with_suffix(".bin")
    if binary.exists() and binary.read_bytes() != recording:
        return f"{name.name}: its text and its bytes differ"
    return None


def pieces(program, name, recording, output, size):
    if programs.in_pieces(program, recording, size) != (0, output, b""):
        return f"{name}: pieces of {size}"
    return None


def cut(kind, name, prefix, is_sound):
    wanted = programs.run(kind.peer, prefix)
    if programs.run(kind.run, prefix) != wanted:
        return f"{name}: cut after {len(prefix)} bytes"
    if is_sound and not wanted[1].endswith(last_line(prefix).encode()):
        return f"{name}: cut after {len(prefix)} bytes, the last line is {wanted[1][-20:]}"
    return None


def damaged(name, recording, at, mask):
    kind = kind_of(recording)
    changed = bytearray(recording)
    changed[at] ^= mask
    if programs.run(kind.cells, changed) != programs.run(kind.peer_cells, changed):
        return f"{name}: byte {at} changed by {mask:02X}"
    return None


def closed_output(program, recording, handler):
    """Nobody reads: the signal ends the run or, where it is ignored, the failed write does."""
    reader, writer = os.pipe()
    os.close(reader)
    try:
        done = subprocess.run(program, input=recording, stdout=writer, stderr=subprocess.PIPE,
                              timeout=SECONDS,
                              preexec_fn=lambda: signal.signal(signal.SIGPIPE, handler))
    finally:
        os.close(writer)
    if done.returncode not in (0, 1, -signal.SIGPIPE) or done.stderr:
        return f"closed output: left {done.returncode} {done.stderr!r}"
    return None


def full_output(program, recording, output, room):
    """A file with room for so many bytes: those are written, and the failed write ends the run."""
    def limit():
        signal.signal(signal.SIGXFSZ, signal.SIG_IGN)
        resource.setrlimit(resource.RLIMIT_FSIZE, (room, room))

    with tempfile.TemporaryFile() as sink:
        done = subprocess.run(program, input=recording, stdout=sink, stderr=subprocess.PIPE,
                              timeout=SECONDS, preexec_fn=limit)
        sink.seek(0)
        written = sink.read()
    if done.returncode != 0 or done.stderr or written != output[:room]:
        return f"room for {room} bytes: left {done.returncode}, {len(written)} bytes {done.stderr!r}"
    return None


def failed_input(program, output, status=0, words=b"", **options):
    """A read that fails is no end: the lines so far are printed, and neither END nor a refusal."""
    done = subprocess.run(program, stdout=subprocess.PIPE, stderr=subprocess.PIPE, timeout=SECONDS,
                          **options)
    if (done.returncode, done.stdout, done.stderr) != (status, output, words):
        return f"failed read: left {done.returncode} {done.stdout!r} {done.stderr!r}"
    return None


def closed_input(program):
    return failed_input(program, b"", preexec_fn=lambda: os.close(0))


def unreadable_input(program):
    """Every read of a directory fails."""
    folder = os.open("/", os.O_RDONLY)
    try:
        return failed_input(program, b"", stdin=folder)
    finally:
        os.close(folder)


def broken_input(kind, program, recording, *told):
    """A terminal whose other side is closed hands over what came from there, and then fails. The
    lines are those of the whole fields: all that the peer prints of these bytes but the last."""
    lines = programs.run(kind.peer, recording)[1].splitlines(keepends=True)[:-1]
    near, far = pty.openpty()
    try:
        tty.setraw(far)
        os.write(far, recording)
        os.close(far)
        return failed_input(program, b"".join(lines), *told, stdin=near)
    finally:
        os.close(near)


def launcher_without_room(word, recording):
    """./tray says that a line could not be written: first the system's reason, then its own."""
    with open("/dev/full", "wb") as sink:
        done = subprocess.run([LAUNCHER, word], input=recording, stdout=sink,
                              stderr=subprocess.PIPE, timeout=SECONDS)
    if done.returncode != 1 or not done.stderr.endswith(b"\n" + BROKE_OFF):
        return f"no room: {word} left {done.returncode} {done.stderr!r}"
    return None


def main():
    stored = list(stored_recordings())
    checks = {"whole": [(whole, name, recording) for name, recording in stored]}
    checks["pieces"] = [(pieces, program, name.name, recording, output.read_bytes(), size)
                        for name, recording in stored
                        for program, output in zip(kind_of(recording).ours(),
                                                   (name.with_suffix(".lines"),
                                                    name.with_suffix(".cells")))
                        for size in PIECES if size < 2 * len(recording)]
    checks["pieces of a long one"] = [(pieces, ours, "long", kind.long, output, size)
                                      for kind in KINDS for ours, other in kind.pairs()
                                      for output in (programs.run(other, kind.long)[1],)
                                      for size in PIECES if size > 100]
    # many recordings begin alike: each beginning is run once
    cuts = {(kind_of(recording), recording[:end]):
            (name.name, not name.name.startswith("refused"))
            for name, recording in stored for end in range(len(recording))}
    checks["cuts"] = [(cut, kind, name, prefix, is_sound)
                      for (kind, prefix), (name, is_sound) in cuts.items()]
    checks["damaged bytes"] = [(damaged, name.name, recording, at, mask)
                               for name, recording in stored for at in range(len(recording))
                               for mask in masks(name, at)]
    checks["closed output"] = [(closed_output, program, recording, handler)
                               for kind in KINDS for program in kind.ours()
                               for recording in (kind.broken, kind.long)
                               for handler in (signal.SIG_DFL, signal.SIG_IGN)]
    # inside the lines, at the end of a write, and inside state and cells
    checks["full output"] = [(full_output, ours, recording, output, room)
                             for kind in KINDS for recording in (kind.broken, kind.long)
                             for ours, other in kind.pairs()
                             for output in (programs.run(other, recording)[1],)
                             for room in (0, 1, 50, 65535, 65536, 65537, len(output) - 1)
                             if room < len(output)]
    checks["failed input"] = [(check, program) for check in (closed_input, unreadable_input)
                              for kind in KINDS for program in kind.ours()]
    # at each byte, with whole fields and inside one
    checks["input that breaks off"] = [(broken_input, kind, program, kind.broken[:end])
                                       for kind in KINDS for end in range(len(kind.broken) + 1)
                                       for program in kind.ours()]
    checks["launcher, broken off"] = [(broken_input, kind, [LAUNCHER, word], kind.broken[:end], 1,
                                       BROKE_OFF)
                                      for kind in KINDS for word in kind.words
                                      for end in (0, len(kind.broken) - 1, len(kind.broken))]
    checks["launcher, no room"] = [(launcher_without_room, word, kind.broken)
                                   for kind in KINDS for word in kind.words]
    failures = 0
    with concurrent.futures.ThreadPoolExecutor(os.cpu_count()) as pool:
        for kind, calls in checks.items():
            wrong = [found for found in pool.map(lambda call: call[0](*call[1:]), calls) if found]
            for line in wrong:
                print("FAILED", line)
            failures += len(wrong)
            print(f"{kind}: {len(calls) - len(wrong)} of {len(calls)}", flush=True)
    return 1 if failures or not stored else 0


if __name__ == "__main__":
    sys.exit(main())
