"""How often recordings reach each rule, fault code, mode or format code and refusal, by the peer's
builds with counters (`make -C peer coverage`)."""

import os
import tempfile

import programs


class Coverage:
    def __init__(self, name):
        """Of the peer's program of this name."""
        self.counting = programs.peer(build=f"tests/coverage/{name}")
        self.totals = {}
        self.reached = {}

    def add(self, recording):
        with tempfile.TemporaryDirectory() as folder:
            counters = os.path.join(folder, "counters")
            programs.run(self.counting, recording, check=True,
                         env=dict(os.environ, PEER_COVERAGE=counters))
            with open(counters) as lines:
                for line in lines:
                    name, count = line.split()
                    self.totals[name] = self.totals.get(name, 0) + int(count)
                    self.reached[name] = self.reached.get(name, 0) + (count != "0")

    def report(self):
        """Prints every counter; answers the names of those that were never reached."""
        print("counter: count (recordings that reached it)")
        shown = [f"{name}: {total} ({self.reached[name]})" for name, total in self.totals.items()]
        for start in range(0, len(shown), 3):
            print("".join(f"{counter:48}" for counter in shown[start:start + 3]).rstrip())
        missing = [name for name, total in self.totals.items() if total == 0]
        print(f"{len(self.totals)} counters, {len(missing)} never reached", *missing)
        return missing if self.totals else ["every counter"]
