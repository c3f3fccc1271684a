#!/usr/bin/env python3
"""The library for other programs, built and run from C; leaves 1 on a difference.

examples/embed.c is to print what docs/EMBEDDING.md shows. tests/library.c, which looks at sizes and
at the bytes around what it lends, is run on the stored recordings, on the same cut short, on
generated ones and on noise; text and cells are to be the peer's.
"""

import concurrent.futures
import os
import random
import re
import shutil
import subprocess
import sys

import examples
import generate
import programs

ROOM = programs.ROOT / "target" / "library"
ARCHIVE = programs.ROOT / "target" / "staticlib" / "liblistrabor.a"
STRICT = ("-std=c11", "-Wall", "-Wextra", "-Wpedantic", "-Werror", "-O2")
CELL = re.compile(rb"[0-9A-F]{4} [0-9A-F]{4}\n")
SEEDS = range(1, 101)
NOISES = range(1, 51)


def built(source):
    program = ROOM / source.stem
    subprocess.run([programs.compiler(), *STRICT, "-I", programs.ROOT / "include", "-o", program,
                    source, ARCHIVE], check=True)
    return [str(program)]


def shown_output():
    """What the document shows under the command that runs the example."""
    text = (programs.ROOT / "docs" / "EMBEDDING.md").read_text()
    return re.search(r"^    \$ \./embed\n((?:    .*\n)+)", text, re.MULTILINE)[1].replace("    ", "")


def recordings():
    chance = random.Random(1)
    yield "nothing", b""
    for name, recording in examples.stored_recordings():
        yield name.name, recording
        yield f"{name.name}, cut", recording[:chance.randrange(len(recording))]
    for seed in SEEDS:
        yield f"seed {seed}", generate.recording(seed)
    for seed in NOISES:
        noise = random.Random(seed)
        yield f"noise {seed}", noise.randbytes(noise.randrange(1, 200))


def wanted(recording):
    """The peer's lines and cells, without the terminal's state between them."""
    lines = programs.run(programs.peer(), recording)[1]
    cells = programs.run(programs.peer("cells"), recording)[1][len(lines):]
    return lines + b"".join(line for line in cells.splitlines(True) if CELL.fullmatch(line))


def main():
    crate = programs.ROOT / "crates" / "listrabor_c"
    archive = subprocess.run(["rt", "lib"], cwd=crate, text=True,
                             stdout=subprocess.PIPE, stderr=subprocess.STDOUT)
    if archive.returncode != 0:
        print(f"FAILED rt lib in {crate}:\n{archive.stdout}")
        return 1
    ROOM.mkdir(parents=True, exist_ok=True)
    ARCHIVE.parent.mkdir(exist_ok=True)
    shutil.copy(crate / "out" / "liblistrabor_c.a", ARCHIVE)
    example = subprocess.run(built(programs.ROOT / "examples" / "embed.c"), stdout=subprocess.PIPE)
    failures = []
    if (example.returncode, example.stdout.decode()) != (0, shown_output()):
        failures.append(f"examples/embed.c left {example.returncode}: {example.stdout!r}")

    program = built(programs.TESTS / "library.c")
    chosen = list(recordings())
    with concurrent.futures.ThreadPoolExecutor(os.cpu_count()) as pool:
        for (name, recording), done in zip(chosen, pool.map(
                lambda pair: programs.run(program, pair[1]), chosen)):
            if done != (0, wanted(recording), b""):
                failures.append(f"{name}: left {done[0]}, {done[2].decode().strip() or 'differs'}")
    for failure in failures:
        print(f"FAILED {failure}")
    print(f"library: examples/embed.c and {len(chosen)} recordings, {len(failures)} fail")
    return 1 if failures else 0


if __name__ == "__main__":
    sys.exit(main())
