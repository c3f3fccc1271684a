#!/usr/bin/env python3
"""The mode codes of docs/GUIDE.md against the compiled program, and against the tables of the crate
`bus`: every code, in both directions, at both subaddresses, to the station and to all, with and
without a data word, behind a sound message and a broken one, on a fresh card and on one with a shut
line and the terminal flag inhibited. Leaves 1 on a difference."""

import collections
import itertools
import re
import struct
import sys

import programs

GUIDE = programs.ROOT / "docs" / "GUIDE.md"
CODE = programs.ROOT / "crates" / "bus" / "src" / "mode.rt"
DEFINITION = programs.ROOT / "crates" / "bus" / "specs" / "Mode.antt"
CELLS = programs.compiled("tray_cells")

STATION, ALL = 5, 31
COMMAND, DATA = 6, 12             # marks: a sound command, a sound joined data word, both on line A
BEFORE, WORD = 0x2C01, 0xD00D     # the command before, and the data word that is taken
TIME = 7                          # the stamp of the command that is tried; the others have 0
TABLE = {"31": 2, "32": 3, "63": 4}    # the block of each table cell, which is its own next
HELD = {3: 0xBEE3, 4: 0xBEE4}     # what cell 0 holds of the blocks that send

# what the guide says that the card does. Whether line B is shut and the terminal flag inhibited
# after the command, by how both were before it:
SWITCHES = {
    "replies, then shuts the other line": lambda shut, inhibit: (1, inhibit),
    "replies, then opens the other line": lambda shut, inhibit: (0, inhibit),
    "replies, then inhibits the terminal flag": lambda shut, inhibit: (shut, 1),
    "replies, then allows the terminal flag": lambda shut, inhibit: (shut, 0),
    "replies, then opens both lines and allows the terminal flag": lambda shut, inhibit: (0, 0),
}
# .. the word that it sends, by its block; whether it keeps the status
SENDS = {
    "sends cell 0 of its block": HELD.get,
    "sends the command before, with its status": lambda block: BEFORE,
}
STORES = "stores it in cell 0 of its block"
KEEPS = {
    "replies with the status of the message before",
    "sends the command before, with its status",
}

Row = collections.namedtuple("Row", "name command word broadcast cell does")
RESERVED = Row("reserved", "", "", "", "", "replies message error")
KNOWN = {"replies", RESERVED.does, STORES, *SWITCHES, *SENDS, *KEEPS}


# ---- the tables

def table_of_guide():
    rows = {}
    section = GUIDE.read_text().split("## Mode commands\n")[1].split("\n## ")[0]
    for first, last, cells in re.findall(r"^\| (\d+)(?: to (\d+))? \| (.*) \|$", section, re.M):
        for code in range(int(first), int(last or first) + 1):
            rows[code] = Row(*(cell.strip() for cell in cells.split("|")))
    return rows


def columns(name, direction="", word="", broadcast=""):
    """A row of the crate in the guide's words, None where it is reserved."""
    if not direction:
        return None
    words = {"without": "none", "sent": "sent", "taken": "taken"}
    allowed = {"broadcast": "yes", "alone": "no"}
    return name, direction.lower(), words[word.lower()], allowed[broadcast.lower()]


def tables_of_bus():
    """The table of the code and that of the definition, code by code as they stand there."""
    coded = re.findall(r"^ +(\d+) => (?:row\((\w+), (\w+), (\w+)\)|RESERVED), "
                       r"// ([01]{5})(?: (.*))?$", CODE.read_text(), re.M)
    stated = re.findall(r"^ +(?:∷ )?(?:row (\w+) (\w+) (\w+)|reserved)  -- +(\d+)(?:  (.*))?$",
                        DEFINITION.read_text(), re.M)
    yield CODE, [(int(code), columns(name, *row)) for code, *row, bits, name in coded
                 if int(bits, 2) == int(code)]
    yield DEFINITION, [(int(code), columns(name, *row)) for *row, code, name in stated]


def direction(row):
    return "transmit" if int(row.command, 16) & 0x400 else "receive"


def differences(rows):
    """Between the guide's table and those of the crate; the definition ends at code 21."""
    guide = [(code, None if row == RESERVED else (row.name, direction(row), *row[2:4]))
             for code, row in sorted(rows.items())]
    for path, found in tables_of_bus():
        if found != guide[:32 if path is CODE else 22]:
            yield f"{path.name} has another table"
    for code, row in rows.items():
        if row != RESERVED and int(row.command, 16) & ~0x400 != STATION << 11 | code:
            yield f"{row.command} is not the command of code {code}"


# ---- the program

def message(command, *words, time=0):
    """A command with data words, and the silence behind it."""
    fields = [struct.pack(">BHBHI", 2, 7, COMMAND, command, time)]
    fields += [struct.pack(">BHBHI", 2, 7, DATA, word, time) for word in words]
    return b"".join(fields) + struct.pack(">BHBI", 3, 5, 0, time)


def host_write(address, word):
    return struct.pack(">BHHH", 5, 4, address, word)


def recording(command, words, broken, shut):
    """The command behind another; then code 2 asks for the status."""
    fields = bytes([1, 0, 3, STATION, 1, 1])
    for cell, block in TABLE.items():
        fields += host_write(64 + int(cell), 0x4000 | block)
        fields += host_write(64 * block + 63, 0x4000 | block)
    fields += b"".join(host_write(64 * block, word) for block, word in HELD.items())
    if shut:
        fields += message(0x2C04) + message(0x2C06)
    fields += message(BEFORE, *[WORD] * broken)
    return fields + message(command, *words, time=TIME) + message(0x2C02)


def wanted(row, transmit, station, words, broken, shut):
    """What the guide's row has for it: the lines, whether line B is shut and the terminal flag
    inhibited, the blocks that wait in the queue, the cells with the data word and the closing
    time."""
    legal = (row != RESERVED and (direction(row) == "transmit") == transmit
             and (station == STATION or row.broadcast == "yes"))
    sound = legal and len(words) == (row.word == "taken")
    block = TABLE.get(row.cell) if legal else None
    error = broken if sound and row.does in KEEPS else not sound
    status = f"S {0x2800 + 0x400 * error + 0x10 * (station == ALL):04X}"
    lines = ["S 2800"] * (2 * shut + (not broken))
    if station == STATION and (sound or not legal):
        sent = f" {SENDS[row.does](block):04X}" if sound and row.word == "sent" else ""
        lines.append(status + sent)
    marks = SWITCHES[row.does](shut, shut) if sound and row.does in SWITCHES else (shut, shut)
    cells = [f"{64 * block:04X} {WORD:04X}"] if sound and row.does == STORES else []
    cells += [f"{64 * block + 60:04X} {TIME:04X}"] if block else []
    waiting = f"waiting {TABLE['31']}" + (f" {block}" if block else "")
    return lines + [status], marks, [waiting, *cells]


def found(fields):
    """The same of the program."""
    printed = programs.run(CELLS, fields)[1].decode().splitlines()
    state = dict(line.rsplit(" ", 1) for line in printed)
    return ([line for line in printed if line.startswith("S ")],
            (int(state["shut B"]), int(state["inhibit"])),
            [line for line in printed if line.startswith("waiting ")
             or line.endswith((f" {WORD:04X}", f" {TIME:04X}"))])


def main():
    rows = table_of_guide()
    if sorted(rows) != list(range(32)) or any(row.does not in KNOWN for row in rows.values()):
        print("FAILED: the guide has not each code once, or says what is not tested")
        return 1
    failures = list(differences(rows))
    tried = 0
    for code, transmit, station, subaddress, words, broken, shut in itertools.product(
            range(32), (0, 1), (STATION, ALL), (0, 31), ((), (WORD,)), (0, 1), (0, 1)):
        tried += 1
        command = station << 11 | transmit << 10 | subaddress << 5 | code
        if (found(recording(command, words, broken, shut))
                != wanted(rows[code], transmit, station, words, broken, shut)):
            failures.append(f"{command:04X}, data words {len(words)}, behind a broken message "
                            f"{broken}, line shut and flag inhibited {shut}")
    for failure in failures:
        print(f"FAILED {failure}")
    print(f"mode codes: {tried} commands tried, {len(failures)} differences")
    return 1 if failures else 0


if __name__ == "__main__":
    sys.exit(main())
