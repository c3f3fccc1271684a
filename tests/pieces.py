#!/usr/bin/env python3
"""The peer's programs on generated recordings, in pieces and under the sanitizers; leaves 1 on a
difference.

Needs `make -C peer all sanitized`.
"""

import os
import sys

import generate
import generate_controller
import programs

# The peer allocates nothing; the leak scan at exit would only cost seconds a run.
os.environ.setdefault("ASAN_OPTIONS", "detect_leaks=0")


def compare(name, generator, seeds, fields, sizes):
    """Each seed whole under the sanitizers and, by either build, in pieces of each size."""
    plain = programs.peer("cells", build=f"peer/{name}")
    sanitized = programs.peer("cells", build=f"peer/sanitized_{name}")
    failures = 0
    for seed in seeds:
        recording = generator.recording(seed, fields)
        wanted = programs.run(plain, recording)
        runs = [("sanitizers", programs.run(sanitized, recording))]
        runs += [(f"{program[0]}, pieces of {size}", programs.in_pieces(program, recording, size))
                 for program in (plain, sanitized) for size in sizes]
        for how, found in runs:
            if found != wanted or wanted[0] != 0:
                failures += 1
                print(f"FAILED {name}, seed {seed}: {how}, left {found[0]} "
                      f"{found[2].decode()[:2000]}")
    print(f"{name}: {len(seeds)} seeds, {fields or 'any number of'} fields, whole and in pieces of "
          f"{sizes}: {failures} failures", flush=True)
    return failures


def main():
    failures = 0
    for name, generator in (("peer", generate), ("controller", generate_controller)):
        failures += compare(name, generator, range(1, 201), None, (133,))
        failures += compare(name, generator, range(1, 9), 700, (1, 2, 3, 7))
        failures += compare(name, generator, range(1, 4), 30000, (4096, 65535, 65536, 65537))
    return 1 if failures else 0


if __name__ == "__main__":
    sys.exit(main())
