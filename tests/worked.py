"""What the cases worked by hand share: the programs that they are run on, and their count."""

import sys

import programs


class Cases:
    """Of the proved programs NAME_run and NAME_cells where the argument is `compiled`, else of the
    peer's program."""

    def __init__(self, name, peer):
        if sys.argv[1:] == ["compiled"]:
            self.run = programs.compiled(f"{name}_run")
            self.cells = programs.compiled(f"{name}_cells")
        else:
            self.run = programs.peer(build=f"peer/{peer}")
            self.cells = programs.peer("cells", build=f"peer/{peer}")
        self.count = self.failures = 0

    def outputs(self, recording):
        """The lines, and those with state and cells behind them."""
        return [programs.run(program, recording, check=True)[1].decode()
                for program in (self.run, self.cells)]

    def close(self, name, wrong):
        """One case is done, and this is wrong with it."""
        self.count += 1
        if wrong:
            self.failures += 1
            print(f"FAILED {name}: " + "; ".join(wrong))

    def report(self):
        print(f"{self.count - self.failures} of {self.count} cases as worked by hand")
        return 1 if self.failures else 0
