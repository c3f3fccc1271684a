#!/usr/bin/env python3
"""The proved programs against the peer's, on generated recordings of the tray and of the
controller: every line, every item of the state, every cell. Leaves 1 on a difference.

    differential.py                     seeds 1 to 300 of either kind; a rule, code or refusal that
                                        none of them reaches counts as a failure too
    differential.py FIRST LAST          any seeds
"""

import concurrent.futures
import os
import sys

import coverage
import generate
import generate_controller
import programs


class Kind:
    """A kind of recordings: what writes them, the pairs of programs that run them."""

    def __init__(self, name, generator, peer):
        self.name = name
        self.generator = generator
        self.peer = peer
        build = f"peer/{peer}"
        self.pairs = ((programs.compiled(f"{name}_run"), programs.peer(build=build)),
                      (programs.compiled(f"{name}_cells"), programs.peer("cells", build=build)))

    def outputs(self, seed):
        """The recording, and ours beside the peer's for each pair."""
        recording = self.generator.recording(seed)
        pairs = [[programs.run(program, recording) for program in pair] for pair in self.pairs]
        return seed, recording, pairs


def first_difference(ours, theirs):
    if (ours[0], ours[2]) != (theirs[0], theirs[2]):
        return f"left {ours[0]} and said {ours[2]!r}, the peer {theirs[0]} and {theirs[2]!r}"
    pair = ours[1].decode().splitlines(), theirs[1].decode().splitlines()
    for number, (our, their) in enumerate(zip(*pair), 1):
        if our != their:
            return f"line {number} is {our!r}, the peer's {their!r}"
    return f"{len(pair[0])} lines, the peer's {len(pair[1])}"


def compare(kind, seeds):
    """How many runs differ, and which counters none of the seeds reaches."""
    reached = coverage.Coverage(kind.peer)
    differences = size = lines = 0
    with concurrent.futures.ThreadPoolExecutor(os.cpu_count()) as pool:
        for seed, recording, pairs in pool.map(kind.outputs, seeds):
            reached.add(recording)
            size += len(recording)
            for ours, theirs in pairs:
                lines += ours[1].count(b"\n")
                if ours != theirs:
                    differences += 1
                    print(f"FAILED {kind.name}, seed {seed}: {first_difference(ours, theirs)}")
    missing = reached.report()
    print(f"{kind.name}, seeds {seeds[0]} to {seeds[-1]}: {size} bytes, {lines} lines, items and "
          f"cells compared, {differences} runs differ")
    return differences, missing


def main():
    chosen = [int(seed) for seed in sys.argv[1:3]]
    first, last = chosen or (1, 300)
    failed = False
    for kind in (Kind("tray", generate, "peer"),
                 Kind("controller", generate_controller, "controller")):
        differences, missing = compare(kind, range(first, last + 1))
        failed = failed or differences > 0 or (len(missing) > 0 and not chosen)
    return 1 if failed else 0


if __name__ == "__main__":
    sys.exit(main())
