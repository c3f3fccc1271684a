#!/usr/bin/env python3
"""The documents' own commands: each line `$ COMMAND` is run, and what stands under it is to come
out. Leaves 1 on a difference."""

import re
import subprocess
import sys

import programs

DOCUMENTS = ("README.md", "docs/GUIDE.md")
INDENT = "    "


def commands(document):
    """Commands with their output: indented blocks that begin with a dollar sign."""
    text = (programs.ROOT / document).read_text()
    for block in re.findall(rf"(?:^{INDENT}.*\n)+", text, re.MULTILINE):
        command, *output = (line[len(INDENT):] for line in block.splitlines())
        if command.startswith("$ "):
            yield command[2:], "".join(line + "\n" for line in output)


def main():
    tried = failures = 0
    for document in DOCUMENTS:
        for command, wanted in commands(document):
            tried += 1
            done = subprocess.run(["sh", "-c", command], cwd=programs.ROOT, text=True,
                                  stdout=subprocess.PIPE, stderr=subprocess.STDOUT)
            if done.stdout.rstrip("\n") != wanted.rstrip("\n"):
                failures += 1
                print(f"FAILED {document}: {command}\n{done.stdout}")
    print(f"documents: {tried - failures} of {tried} commands as printed")
    return 1 if failures or not tried else 0


if __name__ == "__main__":
    sys.exit(main())
