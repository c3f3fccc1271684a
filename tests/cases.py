#!/usr/bin/env python3
"""Cases worked by hand from document 01 and its readings; leaves 1 where one fails.

    cases.py            the peer
    cases.py compiled   the proved programs
"""

import struct
import sys

import fields
import worked
from fields import word

cases = worked.Cases("tray", "peer")


def setup(station=5, table=1, flags=0):
    return struct.pack(">BHBBB", 1, 3, station, table, flags)


def command(value, time, line=0, joined=0):
    return word(2 | 4 | line | 8 * joined, value, time)


def data(value, time, line=0):
    return word(4 | 8 | line, value, time)


def silence(time, line=0):
    return fields.silence(line, time)


def write(address, *words):
    return fields.write(address, words)


def table(block):
    return struct.pack(">BHB", 6, 1, block)


def flags(value):
    return struct.pack(">BHB", 7, 1, value)


READ = b"\x04\x00\x00"


def receive(subaddress, count, address=5):
    return address << 11 | subaddress << 5 | count


def transmit(subaddress, count, address=5):
    return address << 11 | 1 << 10 | subaddress << 5 | count


def mode(code, address=5, direction=None, subaddress=0):
    if direction is None:
        direction = 0 if code in (17, 20, 21) else 1
    return address << 11 | direction << 10 | subaddress << 5 | code


def check(name, recording, lines, state=(), cells=None, only=None):
    """lines: all lines printed; state: lines that must be among the state's; cells:
    every nonzero cell, or with only the cells named."""
    plain, shown = cases.outputs(recording)
    wrong = []
    wanted = "".join(line + "\n" for line in lines)
    if plain != wanted:
        wrong.append(f"printed {plain.split(chr(10))}, wanted {wanted.split(chr(10))}")
    if not shown.startswith(plain):
        wrong.append("`cells` begins otherwise")
    rest = shown[len(plain):].split("\n")
    if rest[-1] != "":
        wrong.append("no newline at the end")
    for line in state:
        if line not in rest:
            wrong.append(f"no line {line!r} in {[x for x in rest if not x[:1] in '0123']}")
    found = {}
    for line in rest[:-1]:
        first = line.split(" ")[0]
        if len(first) == 4 and all(digit in "0123456789ABCDEF" for digit in first):
            found[int(first, 16)] = int(line.split(" ")[1], 16)
    if cells is not None and found != cells:
        wrong.append(f"cells {found}, wanted {cells}")
    for address, value in (only or {}).items():
        if found.get(address, 0) != value:
            wrong.append(f"cell {address} = {found.get(address, 0):04X}, wanted {value:04X}")
    cases.close(name, wrong)


def hexes(text):
    return bytes.fromhex(text.replace(";", " "))


# ---- document 01's own --------------------------------------------------------

EXAMPLE = hexes("01 0003 05 01 00; 05 0004 0043 4002; 05 0004 00BF 4003; 02 0007 06 2862 00000028;"
                "02 0007 0C 1111 0000003C; 02 0007 0C 2222 00000050; 03 0005 00 00000064; 04 0000")
check("example, (a)", EXAMPLE, ["S 2800", "Q 8002", "END 8"],
      ["station 5", "table 1", "flags 00", "status 2800", "last 2862", "shut A 0", "shut B 0", "inhibit 0",
       "overflow 0", "waiting none", "open none"],
      {67: 0x4003, 128: 0x1111, 129: 0x2222, 186: 2, 188: 0x64, 189: 0x3C, 191: 0x4003})
check("empty", b"", ["END 0"], ["terminal none"], {})
check("(b)", hexes("01 0003 05 01 00; 05 0004 0043 4002; 05 0004 00BF 4003; 02 0007 06 2862 00000028;"
                   "02 0007 0C 1111 0000003C; 02 0007 08 2222 00000050; 03 0005 00 00000064; 04 0000"),
      ["Q 8002", "END 8"], ["status 2C00", "waiting none", "open none"],
      {67: 0x4003, 128: 0x1111, 186: 0x4101, 188: 0x50, 189: 0x28, 191: 0x4003})
check("open line", EXAMPLE[:EXAMPLE.index(bytes.fromhex("0200070C2222"))], ["END 5"],
      ["open 2862 line A block 2 table 1 moved 0 busy 0 queued 1 opened 00000028 taken 1 second none stage data"])
BUSY = setup() + write(64 + 3, 0x8002) + command(receive(3, 12), 0x00ABCDEF, line=1)
check("open line, second command", BUSY + command(transmit(9, 12, 6), 0x00ABCDF0, line=1, joined=1)
      + silence(0x00ABCDF1, line=1), ["END 5"],
      ["open 286C line B block 2 table 1 moved 0 busy 1 queued 0 opened 00ABCDEF "
       "taken 0 second 352C stage awaiting"])
check("open line, ten words", BUSY + 10 * data(0x1111, 0x00ABCDF0, line=1), ["END 13"],
      ["open 286C line B block 2 table 1 moved 0 busy 1 queued 0 opened 00ABCDEF "
       "taken 10 second none stage data"], {67: 0x8002})
BASE = setup() + write(64 + 3, 0x4002) + write(2 * 64 + 63, 0x4003)
check("(c) over the top", BASE + command(receive(3, 1), 0xFFFFFFF0) + data(7, 0) + silence(0x10), ["S 2800", "END 6"],
      only={186: 1, 187: 0, 188: 0x10, 189: 32})
check("(d) equal stamps", BASE + command(receive(3, 1), 9) + data(7, 9) + silence(9), ["S 2800", "END 6"], only={189: 0})
check("elapsed 65535", BASE + command(receive(3, 1), 9) + data(7, 9) + silence(9 + 65535), ["S 2800", "END 6"],
      only={187: 1, 188: 8, 189: 65535})
check("elapsed capped", BASE + command(receive(3, 1), 9) + data(7, 9) + silence(8), ["S 2800", "END 6"],
      only={187: 0, 188: 8, 189: 65535})
check("(e) count 0 wants 32", BASE + command(receive(3, 0), 9) + b"".join(data(i + 1, 9) for i in range(32)) + silence(9),
      ["S 2800", "END 37"], only={128: 1, 159: 32, 160: 0, 186: 0x20})
check("(e) 31 are short", BASE + command(receive(3, 0), 9) + b"".join(data(i + 1, 9) for i in range(31)) + silence(9),
      ["END 36"], ["status 2C00"], only={186: 0x4300 | 31})
check("(f) station 30", setup(30), ["END 1"], ["station 30", "status F000"])
check("(f) station 31", setup(31), ["! 2 0"], ["terminal none"], {})
check("(f) station 31, spare flags", setup(31, 1, 255), ["! 2 0"], ["terminal none"], {})
check("setup flags", setup(30, 1, 64), ["! 8 0"], ["terminal none"], {})
check("(g) k 1", setup() + write(16383, 0xABCD), ["END 2"], cells={16383: 0xABCD})
check("(g) k 2", setup() + write(16383, 1, 2), ["! 8 6"], ["station 5"], {})
NOD = command(transmit(3, 1), 0) + silence(0)
check("(h) queue at 256", setup() + write(64 + 35, 0x4002) + write(191, 0x4002) + NOD * 257 + READ * 258,
      ["S 2800 0000"] * 257 + ["Q 8402"] * 256 + ["Q 0400"] * 2 + [f"END {3 + 514 + 258}"], ["overflow 1", "waiting none"])
check("(h) 256 fit", setup() + write(64 + 35, 0x4002) + write(191, 0x4002) + NOD * 256 + READ,
      ["S 2800 0000"] * 256 + ["Q 8002"] + [f"END {3 + 512 + 1}"], ["overflow 0", "waiting" + " 2" * 255])
check("freed places", setup() + write(64 + 35, 0x4002) + write(191, 0x4003) + write(255, 0x4002) + NOD * 256 + READ * 3 + NOD * 3
      + READ * 2, ["S 2800 0000"] * 256 + ["Q 8002", "Q 8003", "Q 8002"] + ["S 2800 0000"] * 3 + ["Q 8003", "Q 8002"]
      + [f"END {4 + 512 + 3 + 6 + 2}"], ["overflow 0", "waiting" + " 3 2" * 127])
check("(i) empty queue", setup() + READ, ["Q 0000", "END 2"])
check("(j) link 0103", setup() + write(67, 2) + write(191, 0x0103) + (command(receive(3, 1), 0) + data(7, 0) + silence(0)) * 2,
      ["S 2800"] * 2 + ["END 9"], only={67: 0, 128: 7, 192: 7, 250: 1})

# ---- opening and status ---------------------------------------------------------

PROBE = command(mode(2), 0) + silence(0)
check("1: code 2 keeps the status, sets last", setup(flags=0x20) + command(mode(0), 0) + silence(0) + flags(0) + PROBE,
      ["S 2801", "S 2801", "END 6"], ["status 2801", f"last {mode(2):04X}"])
check("1: code 18 keeps both", setup() + command(transmit(3, 2), 0) + silence(0) + (command(mode(18), 0) + silence(0)) * 2,
      ["S 2800 0000 0000"] + [f"S 2800 {transmit(3, 2):04X}"] * 2 + ["END 7"], [f"last {transmit(3, 2):04X}"])
check("18 after 2", setup() + PROBE + command(mode(18), 0) + silence(0), ["S 2800", f"S 2800 {mode(2):04X}", "END 5"])
check("18 first", setup() + command(mode(18, subaddress=31), 0) + silence(0), ["S 2800 0000", "END 3"])
check("2: illegal", setup(flags=4) + command(mode(9), 0) + silence(0) + PROBE, ["S 2D00"] * 2 + ["END 5"], cells={})
check("2: illegal code 2 (direction 0)", setup(flags=4) + command(mode(2, direction=0), 0) + silence(0),
      ["S 2D00", "END 3"], [f"last {mode(2, direction=0):04X}", "status 2D00"], {})
check("2: illegal code 18 (broadcast)", setup(flags=1) + command(mode(18, address=31), 0) + silence(0) + PROBE,
      ["S 2C10", "END 5"], cells={})
check("broadcast transmit is illegal", setup(flags=1) + command(transmit(3, 1, 31), 0) + silence(0) + PROBE,
      ["S 2C10", "END 5"], cells={})
check("broadcast off", setup() + command(receive(3, 1, 31), 0) + silence(0), ["END 3"], ["open none", "last 0000"], {})
check("3: busy by table bit", setup() + write(64 + 35, 0x8002) + write(128, 0x1234) + command(transmit(3, 1), 0) + silence(0),
      ["S 2808", "END 5"], cells={128: 0x1234, 186: 0x0800})
check("3: busy by flag, internal code", setup(flags=2) + command(mode(6), 0) + silence(0), ["S 2808", "END 3"], ["inhibit 1"], {})
check("3: busy code 16 sends", setup(flags=2) + write(64 + 32, 0x4002) + write(128, 0x1234) + command(mode(16), 0) + silence(0) + READ,
      ["S 2808 1234", "Q 8002", "END 6"], cells={128: 0x1234, 186: 0x0801})
check("3: busy code 17 stores", setup(flags=2) + write(64 + 31, 2) + command(mode(17), 0) + data(0xBEEF, 1) + silence(2),
      ["S 2808", "END 5"], cells={128: 0xBEEF, 186: 0x0801, 188: 2, 189: 2})
check("3: code 18 keeps the status under busy", setup() + command(mode(1), 0) + silence(0) + flags(2) + command(mode(18), 0) + silence(0),
      ["S 2800", f"S 2800 {mode(1):04X}", "END 6"], ["flags 02", "status 2800", f"last {mode(1):04X}"], {})
check("3: code 18 sends the status that busy made", setup(flags=2) + command(mode(1), 0) + silence(0) + flags(0) + command(mode(18), 0)
      + silence(0), ["S 2808", f"S 2808 {mode(1):04X}", "END 6"], ["status 2808", f"last {mode(1):04X}"], {58: 0x0800})
check("3: code 18 looks at no table bit", setup() + write(64 + 31, 0xC002) + command(mode(18), 0) + silence(0) + READ,
      ["S 2800 0000", "Q 0000", "END 5"], ["status 2800", "last 0000"], {95: 0xC002})
for by, busy, bit in (("flag", 2, 0), ("table bit", 0, 0x8000)):
    check(f"3: busy code 19 sends, by {by}", setup(flags=busy) + write(64 + 63, 0x4002 | bit) + write(191, 0x4003) + write(128, 0x1234)
          + command(mode(19), 0) + silence(2) + READ, ["S 2808 1234", "Q 8002", "END 7"], ["status 2808", f"last {mode(19):04X}"],
          {127: 0x4003, 128: 0x1234, 186: 0x0801, 188: 2, 189: 2, 191: 0x4003})
    for code in (20, 21):
        check(f"3: busy code {code} stores, by {by}", setup(flags=busy) + write(64 + 31, 0x4002 | bit) + write(191, 0x4003)
              + command(mode(code), 0) + data(0xBEEF, 1) + silence(2) + READ, ["S 2808", "Q 8002", "END 7"],
              ["status 2808", f"last {mode(code):04X}", "shut A 0", "shut B 0"],
              {95: 0x4003, 128: 0xBEEF, 186: 0x0801, 188: 2, 189: 2, 191: 0x4003})
    check(f"17: busy code 21 without its word, by {by}", setup(flags=busy) + write(64 + 31, 0x4002 | bit) + write(191, 0x4003)
          + command(mode(21), 0) + silence(2) + READ, ["Q 8002", "END 6"], ["status 2C08", f"last {mode(21):04X}"],
          {95: 0x4003, 186: 0x4B00, 188: 2, 189: 2, 191: 0x4003})
check("3: illegal looks at no table bit", setup() + write(64 + 31, 0x8002) + command(mode(9), 0) + silence(0), ["S 2C00", "END 4"])
check("4: broadcast cleared inside", setup(flags=1) + write(67, 2) + command(receive(3, 1, 31), 0) + flags(0) + data(7, 0)
      + silence(0) + PROBE, ["S 2810", "END 8"], cells={128: 7, 186: 0x2001})
check("5: bus control only for code 0", setup(flags=0x10) + command(mode(0), 0) + silence(0) + command(mode(1), 0) + silence(0),
      ["S 2802", "S 2800", "END 5"])
check("5: remembered after code 6", setup(flags=0x20) + command(mode(6), 0) + silence(0) + PROBE + command(mode(1), 0) + silence(0)
      + command(mode(7), 0) + silence(0) + command(mode(1), 0) + silence(0),
      ["S 2801", "S 2801", "S 2800", "S 2800", "S 2801", "END 11"])
check("6: code 19 by cell 63", setup() + write(64 + 63, 0x4002) + write(128, 0x4321) + command(mode(19, subaddress=31), 0) + silence(0) + READ,
      ["S 2800 4321", "Q 8002", "END 6"], cells={128: 0x4321, 186: 1})
check("6: code 8 has a block", setup() + write(64 + 31, 0x4002) + command(mode(8), 0) + silence(0) + READ, ["S 2800", "Q 8002", "END 5"])
check("7: other line supersedes, joined", setup() + write(67, 2) + command(receive(3, 2), 1) + data(7, 2)
      + command(transmit(4, 1), 5, line=1, joined=1) + silence(9, 1), ["S 2800 0000", "END 6"],
      only={128: 7, 186: 0x4701, 188: 5, 189: 4, 58: 0x8001})
check("7: same line joined does not", setup() + write(67, 2) + command(receive(3, 2), 1) + data(7, 2)
      + command(transmit(4, 1), 5, joined=1) + silence(9), ["END 6"], ["status 2C00", "open none"], only={186: 0x4601})
check("7: all words in, superseded", setup() + write(67, 2) + command(receive(3, 1), 1) + data(7, 2) + command(mode(2), 5)
      + silence(9), ["S 2C00", "END 6"], only={186: 0x4701})
check("8: code 18 shows it", setup() + write(67, 2) + command(receive(3, 1), 1) + command(mode(18), 5) + silence(9),
      [f"S 2C00 {receive(3, 1):04X}", "END 5"])
check("8: skipping superseded", setup() + command(mode(9), 1) + command(mode(1), 2) + silence(3), ["S 2800", "END 4"])
check("9: fault in code 2", setup() + command(mode(2), 1) + data(1, 2) + PROBE, ["S 2C00", "END 5"], cells={})
check("10: strange commands", setup() + command(receive(3, 1, 6), 1), ["END 2"], ["last 0000", "open none"])
check("unsound own command does not open", setup() + word(2, transmit(3, 1), 0) + silence(0), ["END 3"], ["open none"])
check("data sync does not open", setup() + word(4, transmit(3, 1), 0) + silence(0), ["END 3"], ["open none"])

# ---- words ------------------------------------------------------------------------

check("11: closing word does not open", setup() + write(67, 2) + command(receive(3, 1), 1) + word(2 | 8, transmit(3, 1), 2)
      + silence(3), ["END 5"], ["open none"], only={186: 0x4100})
check("11: then a joined own command opens", setup() + write(67, 2) + command(receive(3, 2), 1) + data(1, 1)
      + command(transmit(3, 1), 2, joined=1) + command(transmit(3, 1), 3, joined=1) + silence(3), ["S 2800 0000", "END 7"])
SECOND = setup(flags=1) + write(67, 2) + command(receive(3, 2), 1) + command(transmit(9, 2, 6), 2, joined=1)
check("12: second command", SECOND, ["END 4"],
      ["open 2862 line A block 2 table 1 moved 0 busy 0 queued 0 opened 00000001 taken 0 second 3522 stage second"])
check("12: awaiting", SECOND + silence(3), ["END 5"],
      ["open 2862 line A block 2 table 1 moved 0 busy 0 queued 0 opened 00000001 taken 0 second 3522 stage awaiting"])
ANSWERED = SECOND + silence(3) + command(6 << 11 | 0x7FF, 4)
check("12: answered", ANSWERED + data(1, 5), ["END 7"],
      ["open 2862 line A block 2 table 1 moved 0 busy 0 queued 0 opened 00000001 taken 1 second 3522 stage data"])
check("12: whole", ANSWERED + data(1, 5) + data(2, 6) + silence(7), ["S 2800", "END 9"], only={128: 1, 129: 2, 186: 0x1002, 189: 6})
check("12: joined answer", SECOND + silence(3) + command(6 << 11, 4, joined=1) + data(1, 5) + data(2, 6) + silence(7), ["S 2800", "END 9"])
check("12: joined own while awaiting", SECOND + silence(3) + command(transmit(3, 1), 4, joined=1) + silence(5), ["END 7"],
      ["open none"], only={186: 0x5500})
check("12: own not joined while awaiting", SECOND + silence(3) + command(mode(2), 4) + silence(5), ["S 2C00", "END 7"], only={186: 0x5700})
check("rule 2: data sync", SECOND + silence(3) + word(4, 6 << 11, 4), ["END 6"], only={186: 0x5600})
check("rule 2: wrong address", SECOND + silence(3) + command(7 << 11, 4), ["END 6"], only={186: 0x5500})
check("rule 1 before 2", SECOND + silence(3) + word(2, 6 << 11, 4), ["END 6"], only={186: 0x5100})
check("rule 3 before 4", SECOND + word(4, 1, 3), ["END 5"], only={186: 0x5300})
check("rule 4", SECOND + data(1, 3), ["END 5"], only={186: 0x5700})
check("13: not joined, all in", setup() + write(67, 2) + command(receive(3, 1), 1) + data(7, 2) + word(4, 1, 3), ["END 5"], only={186: 0x4301})
check("13: not joined, none wanted", setup() + write(64 + 35, 2) + command(transmit(3, 1), 1) + word(4, 1, 3), ["END 4"], only={186: 0x4300})
check("rule 6: wrong count", setup() + write(67, 2) + command(receive(3, 2), 1) + command(transmit(9, 3, 6), 2, joined=1), ["END 4"],
      only={186: 0x4700})
check("rule 6: count 0 is 0", setup() + write(67, 2) + command(receive(3, 0), 1) + command(transmit(9, 0, 6), 2, joined=1), ["END 4"],
      ["open 2860 line A block 2 table 1 moved 0 busy 0 queued 0 opened 00000001 taken 0 second 3520 stage second"])
check("rule 6: address 31", setup(flags=1) + write(67, 2) + command(receive(3, 2), 1) + command(transmit(9, 2, 31), 2, joined=1), ["END 4"],
      only={186: 0x4700})
check("rule 6: own, message not broadcast", setup() + write(67, 2) + command(receive(3, 2), 1) + command(transmit(9, 2), 2, joined=1),
      ["END 4"], ["open none"], only={186: 0x4700})
check("rule 6: not as second word", setup() + write(67, 2) + command(receive(3, 2), 1) + data(1, 1) + command(transmit(9, 2, 6), 2, joined=1),
      ["END 5"], only={186: 0x4601})
check("rule 6: dropped", setup(flags=1) + write(67, 0x4002) + write(64 + 36, 0x4003) + write(192, 0xAAAA)
      + command(receive(3, 2, 31), 1) + command(transmit(4, 1), 2, joined=1) + silence(4) + READ * 2,
      ["S 2800 AAAA", "Q 8003", "Q 0000", "END 9"], [f"last {transmit(4, 1):04X}", "status 2800"],
      {67: 0x4002, 192: 0xAAAA, 250: 1, 252: 4, 253: 2})
check("rule 6: not dropped unjoined", setup(flags=1) + write(67, 0x4002) + command(receive(3, 2, 31), 1)
      + command(transmit(4, 1), 2) + silence(4) + READ, ["S 2800 0000", "Q 8002", "END 6"], only={186: 0x6700})
check("rule 6: own receive does not drop", setup(flags=1) + write(67, 2) + command(receive(3, 2, 31), 1)
      + command(receive(4, 2), 2, joined=1), ["END 4"], ["open none"], only={186: 0x6700})
check("rule 6: broadcast second", setup(flags=1) + write(67, 2) + command(receive(3, 1, 31), 1)
      + command(transmit(4, 1, 6), 2, joined=1) + silence(3) + command(6 << 11, 4) + data(9, 5) + silence(6), ["END 8"],
      ["status 2810"], only={128: 9, 186: 0x3001})
check("rule 6: after the answer 6", ANSWERED + command(transmit(3, 2, 6), 5, joined=1), ["END 7"], only={186: 0x5600})
check("14: code 17 gets rule 7", setup() + write(64 + 31, 2) + command(mode(17), 1) + command(transmit(3, 17, 6), 2, joined=1), ["END 4"],
      only={186: 0x4600})
check("14: busy receive counts checked words", setup(flags=2) + write(67, 2) + command(receive(3, 2), 1) + data(1, 1)
      + command(transmit(9, 2, 6), 2, joined=1), ["END 5"], only={186: 0x4E00})
check("15: word after a transmit", setup() + write(64 + 35, 0x4002) + write(191, 0x4003) + command(transmit(3, 1), 1) + data(1, 2)
      + silence(3) + READ, ["Q 8002", "END 7"], ["status 2C00"], only={99: 0x4003, 186: 0x4400})
check("15: code 6 does not act", setup() + command(mode(6), 1) + data(1, 2) + silence(3), ["END 4"], ["inhibit 0", "status 2C00"])
check("16: words of an illegal message", setup() + command(mode(9), 1) + word(0, 1, 2) + command(transmit(3, 1), 3, joined=1)
      + silence(4), ["S 2C00", "END 5"], [f"last {mode(9):04X}"], {})
check("16: unjoined own supersedes it", setup() + command(mode(9), 1) + command(mode(2), 3) + silence(4), ["S 2C00", "END 4"],
      [f"last {mode(2):04X}"])
check("17: busy receive", setup(flags=2) + write(67, 2) + write(128, 5) + command(receive(3, 2), 1) + data(1, 1) + data(2, 2) + silence(3),
      ["S 2808", "END 7"], cells={128: 5, 186: 0x0800, 188: 3, 189: 2})
check("17: busy receive short", setup(flags=2) + write(67, 2) + command(receive(3, 2), 1) + data(1, 1) + silence(3), ["END 5"],
      only={128: 0, 186: 0x4B00})
check("17: busy, too many", setup(flags=2) + write(67, 2) + command(receive(3, 1), 1) + data(1, 1) + data(1, 1), ["END 5"], only={186: 0x4C00})
check("other line's words do nothing", setup() + write(67, 2) + command(receive(3, 1), 1) + data(9, 1, line=1) + word(1, 9, 1)
      + command(receive(3, 1, 6), 1, line=1) + silence(2, 1) + data(7, 3) + silence(4), ["S 2800", "END 9"], only={128: 7, 186: 1})

# ---- silence, ends, shut lines -------------------------------------------------------

check("18: further silence", SECOND + silence(3) + silence(4), ["END 6"], ["status 2C00"], only={186: 0x5200, 189: 3})
check("18: short after the answer", ANSWERED + data(1, 5) + silence(6), ["END 8"], only={186: 0x5301})
SHUT_B = command(mode(4), 0) + silence(0)
check("19: shut line", setup() + write(64 + 35, 0x4002) + SHUT_B + command(transmit(3, 3), 1, line=1) + silence(2, 1) + READ,
      ["S 2800", "Q 8002", "END 7"], ["shut A 0", "shut B 1"], only={186: 0x8000})
check("19: illegal on a shut line", setup() + SHUT_B + command(mode(9), 1, line=1) + silence(2, 1), ["S 2800", "END 5"], ["status 2C00"])
check("20: code 8 on a shut line", setup() + SHUT_B + command(mode(8), 1, line=1) + silence(2, 1), ["S 2800", "END 5"],
      ["shut A 0", "shut B 0"])
check("20: code 5", setup() + SHUT_B + command(mode(5), 1) + silence(2), ["S 2800"] * 2 + ["END 5"], ["shut B 0"])
check("20: code 5 on the shut line", setup() + SHUT_B + command(mode(5), 1, line=1) + silence(2, 1), ["S 2800", "END 5"], ["shut B 1"])
check("20: broadcast acts", setup(flags=1) + command(mode(4, 31), 0, line=1) + silence(0, 1) + PROBE, ["END 5"],
      ["shut A 1", "shut B 0", "status 2810"])
check("20: codes 20 and 21 shut nothing", setup() + command(mode(20), 0) + data(1, 1) + silence(1) + command(mode(21), 0) + data(1, 1)
      + silence(1), ["S 2800"] * 2 + ["END 7"], ["shut A 0", "shut B 0"])
check("21: code 16 on a shut line", setup() + write(64 + 32, 2) + SHUT_B + command(mode(16), 1, line=1) + silence(2, 1), ["S 2800", "END 6"],
      only={186: 0x8000})

# ---- closing, queue, time -------------------------------------------------------------

MOVED = setup() + write(67, 0x4002) + write(191, 0x4009) + command(receive(3, 1), 1)
check("22: table moved", MOVED + table(7) + data(7, 2) + silence(3) + READ, ["S 2800", "Q 8002", "END 8"], ["table 7"],
      only={67: 0x4002, 7 * 64 + 3: 0, 186: 1})
check("22: same number", MOVED + table(1) + data(7, 2) + silence(3), ["S 2800", "END 7"], only={67: 0x4002, 186: 1})
check("22: the line", MOVED + table(1), ["END 5"],
      ["open 2861 line A block 2 table 1 moved 1 busy 0 queued 1 opened 00000001 taken 0 second none stage data"])
check("22: host write overwritten", MOVED + write(67, 0x8005) + data(7, 2) + silence(3), ["S 2800", "END 7"], only={67: 0x4009})
check("22: not a move before the opening", setup() + write(67, 0x4002) + write(191, 0x4009) + table(1) + command(receive(3, 1), 1)
      + data(7, 2) + silence(3), ["S 2800", "END 7"], only={67: 0x4009})
check("23: link read at closing", MOVED + write(191, 0x7EEE) + data(7, 2) + silence(3), ["S 2800", "END 7"], only={67: 0x7EEE})
check("24: block is the table", setup() + write(64 + 2, 1) + write(64 + 63, 0x4005) + command(receive(2, 4), 1)
      + b"".join(data(0x1111 * i, 2) for i in range(1, 5)) + silence(3), ["S 2800", "END 9"],
      cells={64: 0x1111, 65: 0x2222, 66: 0x4005, 67: 0x4444, 64 + 58: 4, 64 + 60: 3, 64 + 61: 2, 64 + 63: 0x4005})
check("24: link over a service word", setup() + write(64 + 32 + 26, 1) + write(64 + 63, 0x0005) + command(transmit(26, 1), 1) + silence(3),
      ["S 2800 0000", "END 5"], cells={64 + 58: 5, 64 + 60: 3, 64 + 61: 2, 64 + 63: 5})
check("24: service word over a table cell", setup() + write(64 + 33, 1, 6) + write(64 + 63, 1) + command(transmit(1, 1), 1)
      + silence(0x30001), ["S 2800 0000", "END 5"], only={64 + 33: 1, 64 + 58: 1, 64 + 59: 3, 64 + 60: 1, 64 + 61: 65535})
check("26: host write after the command", setup() + write(64 + 35, 2) + command(transmit(3, 2), 1) + write(128, 0xAB, 0xCD) + silence(2),
      ["S 2800 00AB 00CD", "END 5"])
check("27: broken broadcast joins", setup(flags=1) + write(67, 0x4002) + command(receive(3, 1, 31), 1) + silence(2) + READ,
      ["Q 8002", "END 5"], only={186: 0x6300})
check("bit 14 fixed at opening", setup() + write(67, 2) + command(receive(3, 1), 1) + write(67, 0xC003) + data(7, 1) + silence(2) + READ,
      ["S 2800", "Q 0000", "END 7"], only={128: 7, 186: 1})
check("flags inside a message", setup() + write(67, 2) + command(receive(3, 1), 1) + flags(0x3F) + data(7, 1) + silence(2), ["S 2800", "END 6"],
      ["flags 3F", "status 2800"], only={128: 7, 186: 1})
check("state word of line B", setup() + write(67, 2) + command(receive(3, 1), 1, line=1) + data(7, 1, line=1) + silence(2, 1), ["S 2800", "END 5"],
      only={186: 0x8001})
check("all status bits", setup(flags=0x3F) + command(mode(0), 1) + silence(2), ["S 290F", "END 3"], only={58: 0x0800})

# ---- the reader -----------------------------------------------------------------------

check("unknown tag as the last byte", setup() + b"\x08", ["! 6 6"])
check("unknown tag first", b"\x00", ["! 6 0"], ["terminal none"])
check("no length byte", setup() + b"\x04", ["! 5 6"])
check("one length byte", setup() + b"\x04\x00", ["! 5 6"])
check("wrong length, value cut", setup() + b"\x02\x00\x08", ["! 7 6"])
check("wrong length of a first field", b"\x04\x00\x01\x00", ["! 7 0"])
check("host write lengths", setup() + b"\x05\x00\x02\x00\x00", ["! 7 6"])
check("host write odd", setup() + b"\x05\x00\x05\x00\x00\x00\x00\x00", ["! 7 6"])
check("host write of 65", setup() + b"\x05\x00\x84" + bytes(132), ["! 7 6"])
check("host write of 64", setup() + write(0, *range(64)), ["END 2"], cells={i: i for i in range(1, 64)})
check("value cut", setup() + b"\x07\x00\x01", ["! 5 6"])
check("value cut before 9", b"\x07\x00\x01", ["! 5 0"])
check("setup missing, spare bits", flags(255), ["! 9 0"], ["terminal none"])
check("setup again, station 31", setup() + setup(31, 0, 255), ["! 9 6"], ["station 5"])
check("spare marks", setup() + word(0x16, transmit(3, 1), 0), ["! 8 6"], ["open none"])
check("line 2", setup() + command(transmit(3, 1), 0) + silence(0, 2), ["! 8 16"],
      ["open 2C61 line A block 0 table 1 moved 0 busy 0 queued 0 opened 00000000 taken 0 second none stage data"])
check("flags 64", setup() + flags(64), ["! 8 6"], ["flags 00"])
check("lines before a refusal stand", EXAMPLE + b"\xFF", ["S 2800", "Q 8002", f"! 6 {len(EXAMPLE)}"])
check("33: a status on the tape", setup() + command(0x2800, 1), ["END 2"],
      ["open 2800 line A block 0 table 1 moved 0 busy 0 queued 0 opened 00000001 taken 0 second none stage skipping"])

sys.exit(cases.report())
