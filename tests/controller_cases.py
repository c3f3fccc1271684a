#!/usr/bin/env python3
"""Cases worked by hand from request K10's reading; leaves 1 where one fails.

    controller_cases.py            the peer
    controller_cases.py compiled   the proved programs

The number in front of a case is that of the reading's point. Where nothing else is said, the
message stands in block 2, cells 0080 to 00BF, station 5 is C's and station 9 the second command's.
"""

import struct
import sys

import fields
import worked

cases = worked.Cases("controller", "controller")

START = b"\x0B\x00\x00"
BLOCK_2, LINK_2, BLOCK_3, LINK_3 = 0x80, 0xBF, 0xC0, 0xFF

# commands: receive and transmit of two words, mode codes 1, 17 and 16, to station 5; of two words
# from station 9; the first four to all
RECEIVE, TRANSMIT, MODE, MODE_WITH_WORD, MODE_FOR_WORD = 0x2862, 0x2C62, 0x2C01, 0x2811, 0x2C10
SECOND = 0x4C62
ALL_RECEIVE, ALL_MODE, ALL_MODE_WITH_WORD = 0xF862, 0xFC01, 0xF811
CLEAR, OTHER_CLEAR = 0x2800, 0x4800            # the stations' statuses with no bit set


def setup(control, count=1):
    return struct.pack(">BHHH", 0x0A, 4, control, count)


def write(address, *words):
    return fields.write(address, words)


def word(marks, value, line=0):
    return fields.word(marks | line, value, 0)


def status(value, line=0, joined=0):
    return word(fields.COMMAND | fields.SOUND | fields.JOINED * joined, value, line)


def data(value, line=0):
    return word(fields.SOUND | fields.JOINED, value, line)


def unjoined(value, line=0):
    return word(fields.SOUND, value, line)


def unsound(value, line=0):
    return word(fields.JOINED, value, line)


def silence(line=0):
    return fields.silence(line, 0)


def check(name, recording, lines, rest):
    """lines: all lines printed; rest: all behind them, state and nonzero cells."""
    plain, shown = cases.outputs(recording)
    wrong = []
    for what, found, text in (("printed", plain, lines), ("with cells", shown, f"{lines}; {rest}")):
        wanted = "".join(line + "\n" for line in text.split("; "))
        if found != wanted:
            wrong.append(f"{what} {found!r}, wanted {wanted!r}")
    cases.close(name, wrong)


def ended(control, result, count=0):
    """The state after a message behind which nothing is due."""
    return f"control {control}; count {count}; due 0; result {result}; open none"


def cells(start, *words):
    """The lines of cells that follow each other; the words as they are in hex."""
    return "; ".join(f"{start + index:04X} {word}" for index,
                     word in enumerate(" ".join(words).split()))


# ---- the rows of the table, X and the count -----------------------------------------------------

ROW_0 = setup(0x0080) + write(BLOCK_2, RECEIVE, 0x1111, 0x2222) + START
check("row 0", ROW_0 + silence() + status(CLEAR) + silence(), "G 2862 1111 2222; R 0 0; END 6",
      ended("0080", "0 0") + "; 0080 2862; 0081 1111; 0082 2222; 0083 2800")
check("row 0, X", setup(0x0088) + write(BLOCK_2, ALL_RECEIVE, 0x1111, 0x2222) + START + silence(),
      "G F862 1111 2222; R 0 0; END 4",
      ended("0088", "0 0") + "; 0080 F862; 0081 1111; 0082 2222")
ROW_1 = setup(0x0081) + write(BLOCK_2, TRANSMIT) + START
check("row 1", ROW_1 + silence() + status(CLEAR) + data(0xAAAA) + data(0xBBBB) + silence(),
      "G 2C62; R 0 0; END 8", ended("0081", "0 0") + "; 0080 2C62; 0081 2800; 0082 AAAA; 0083 BBBB")
ROW_2 = setup(0x0082) + write(BLOCK_2, RECEIVE, SECOND) + START
ROW_2_REPLY = silence() + status(OTHER_CLEAR) + data(0xAAAA) + data(0xBBBB) + silence()
check("row 2", ROW_2 + ROW_2_REPLY + status(CLEAR) + silence(), "G 2862 4C62; R 0 0; END 10",
      ended("0082", "0 0") + "; 0080 2862; 0081 4C62; 0082 4800; 0083 AAAA; 0084 BBBB; 0085 2800")
check("row 2, X: no last status", setup(0x008A) + write(BLOCK_2, ALL_RECEIVE, SECOND) + START
      + ROW_2_REPLY, "G F862 4C62; R 0 0; END 8", ended("008A", "0 0")
      + "; 0080 F862; 0081 4C62; 0082 4800; 0083 AAAA; 0084 BBBB")
ROW_3 = setup(0x0083) + write(BLOCK_2, MODE) + START
check("row 3", ROW_3 + silence() + status(CLEAR) + silence(), "G 2C01; R 0 0; END 6",
      ended("0083", "0 0") + "; 0080 2C01; 0081 2800")
check("row 3, X", setup(0x008B) + write(BLOCK_2, ALL_MODE) + START + silence(),
      "G FC01; R 0 0; END 4", ended("008B", "0 0") + "; 0080 FC01")
ROW_4 = setup(0x0084) + write(BLOCK_2, MODE_WITH_WORD, 0xBEEF) + START
check("row 4", ROW_4 + silence() + status(CLEAR) + silence(), "G 2811 BEEF; R 0 0; END 6",
      ended("0084", "0 0") + "; 0080 2811; 0081 BEEF; 0082 2800")
check("row 4, X", setup(0x008C) + write(BLOCK_2, ALL_MODE_WITH_WORD, 0xBEEF) + START + silence(),
      "G F811 BEEF; R 0 0; END 4", ended("008C", "0 0") + "; 0080 F811; 0081 BEEF")
ROW_5 = setup(0x0085) + write(BLOCK_2, MODE_FOR_WORD) + START
check("row 5", ROW_5 + silence() + status(CLEAR) + data(0x1234) + silence(), "G 2C10; R 0 0; END 7",
      ended("0085", "0 0") + "; 0080 2C10; 0081 2800; 0082 1234")

WORDS = [f"{number:04X}" for number in range(1, 33)]
NUMBERED = b"".join(data(number) for number in range(1, 33))
check("row 0, count 0 gives 32", setup(0x0080) + write(BLOCK_2, 0x2860, *range(1, 33)) + START
      + silence() + status(CLEAR) + silence(), f"G 2860 {' '.join(WORDS)}; R 0 0; END 6",
      ended("0080", "0 0") + "; " + cells(BLOCK_2, "2860", *WORDS, "2800"))
check("row 1, count 0 wants 32", setup(0x0081) + write(BLOCK_2, 0x2C60) + START + silence()
      + status(CLEAR) + NUMBERED + silence(), "G 2C60; R 0 0; END 38", ended("0081", "0 0") + "; "
      + cells(BLOCK_2, "2C60 2800", *WORDS))
check("row 1, count 0, 31 are short", setup(0x0081) + write(BLOCK_2, 0x2C60) + START + silence()
      + status(CLEAR) + NUMBERED[:31 * 10] + silence(), "G 2C60; R 3 0; END 37",
      ended("0081", "3 0") + "; " + cells(BLOCK_2, "2C60 2800", *WORDS[:31]))
check("row 1, count 0, 33 are too many", setup(0x0081) + write(BLOCK_2, 0x2C60) + START + silence()
      + status(CLEAR) + NUMBERED + data(0x3333), "G 2C60; R 4 0; END 38",
      ended("0081", "4 0") + "; " + cells(BLOCK_2, "2C60 2800", *WORDS))
check("row 2, count 0: the last status in cell 35", setup(0x0082) + write(BLOCK_2, 0x2860, 0x4C60)
      + START + silence() + status(OTHER_CLEAR) + NUMBERED + silence() + status(CLEAR) + silence(),
      "G 2860 4C60; R 0 0; END 40", ended("0082", "0 0") + "; "
      + cells(BLOCK_2, "2860 4C60 4800", *WORDS, "2800"))
check("rows 4 and 5: a mode code is no count", setup(0x0085) + write(BLOCK_2, 0x2C13) + START
      + silence() + status(CLEAR) + data(0x1234) + silence(), "G 2C13; R 0 0; END 7",
      ended("0085", "0 0") + "; 0080 2C13; 0081 2800; 0082 1234")
check("row 4 gives two words whatever the code", setup(0x0084) + write(BLOCK_2, 0x2815, 7, 8, 9)
      + START, "G 2815 0007; END 3", "control 0084; count 0; due 0; result none; "
      "open row 4 group 0 first 2815 second 0007 stage given taken 0 mark 0; "
      "0080 2815; 0081 0007; 0082 0008; 0083 0009")

# ---- faults, stage by stage ---------------------------------------------------------------------

AT_0 = "; 0080 2862; 0081 1111; 0082 2222"
AT_1 = "; 0080 2C62"
AT_2 = "; 0080 2862; 0081 4C62"
check("4.1: given, unsound", ROW_0 + unsound(CLEAR) + silence(), "G 2862 1111 2222; R 1 0; END 5",
      ended("0080", "1 0") + AT_0)
check("4.2: given, the status before the silence", ROW_0 + status(CLEAR),
      "G 2862 1111 2222; R 7 0; END 4", ended("0080", "7 0") + AT_0)
check("4.2: given, data, joined", ROW_1 + data(1), "G 2C62; R 7 0; END 4", ended("0081", "7 0")
      + AT_1)
check("4.2: given, not joined", ROW_1 + unjoined(1), "G 2C62; R 7 0; END 4", ended("0081", "7 0")
      + AT_1)
check("4.2: given, X", setup(0x0088) + write(BLOCK_2, ALL_RECEIVE, 1, 2) + START + data(3),
      "G F862 0001 0002; R 7 0; END 4", ended("0088", "7 0") + "; 0080 F862; 0081 0001; 0082 0002")
check("4.1: awaiting, unsound", ROW_0 + silence() + word(2, CLEAR),
      "G 2862 1111 2222; R 1 0; END 5", ended("0080", "1 0") + AT_0)
check("4.3: awaiting, data sync", ROW_0 + silence() + unjoined(CLEAR),
      "G 2862 1111 2222; R 6 0; END 5", ended("0080", "6 0") + AT_0)
check("4.3: data sync before the address", ROW_0 + silence() + data(0x5555),
      "G 2862 1111 2222; R 6 0; END 5", ended("0080", "6 0") + AT_0)
check("4.3: awaiting, another address, its bits set no mark", ROW_0 + silence() + status(0x37FF),
      "G 2862 1111 2222; R 5 0; END 5", ended("0080", "5 0") + AT_0)
check("4.3: rows 3 and 4 await C's address", ROW_4 + silence() + status(OTHER_CLEAR),
      "G 2811 BEEF; R 5 0; END 5", ended("0084", "5 0") + "; 0080 2811; 0081 BEEF")
check("4.3: row 2 awaits C2's address first", ROW_2 + silence() + status(CLEAR),
      "G 2862 4C62; R 5 0; END 5", ended("0082", "5 0") + AT_2)
check("4.3: row 1 looks at no second word", setup(0x0081) + write(BLOCK_2, TRANSMIT, SECOND) + START
      + silence() + status(OTHER_CLEAR), "G 2C62; R 5 0; END 5", ended("0081", "5 0")
      + "; 0080 2C62; 0081 4C62")
check("4.3: a joined status is taken", ROW_0 + silence() + status(CLEAR, joined=1) + silence(),
      "G 2862 1111 2222; R 0 0; END 6", ended("0080", "0 0") + AT_0 + "; 0083 2800")
check("5: awaiting, a further silence", ROW_0 + silence() + silence(),
      "G 2862 1111 2222; R 2 0; END 5", ended("0080", "2 0") + AT_0)
check("5: row 2, no transmitter", ROW_2 + silence() + silence(), "G 2862 4C62; R 2 0; END 5",
      ended("0082", "2 0") + AT_2)
check("4.1: reply, the second word unsound", ROW_1 + silence() + status(CLEAR) + data(0xAAAA)
      + unsound(0xBBBB) + silence(), "G 2C62; R 1 0; END 8", ended("0081", "1 0")
      + "; 0080 2C62; 0081 2800; 0082 AAAA")
check("4.4: reply, not joined", ROW_1 + silence() + status(CLEAR) + data(0xAAAA) + unjoined(0xBBBB),
      "G 2C62; R 3 0; END 7", ended("0081", "3 0") + "; 0080 2C62; 0081 2800; 0082 AAAA")
check("4.4: reply, a status not joined behind the status", ROW_1 + silence() + status(CLEAR)
      + status(CLEAR), "G 2C62; R 3 0; END 6", ended("0081", "3 0") + "; 0080 2C62; 0081 2800")
check("4.4 before 4.5: not joined, all in", ROW_0 + silence() + status(CLEAR) + unjoined(1),
      "G 2862 1111 2222; R 3 0; END 6", ended("0080", "3 0") + AT_0 + "; 0083 2800")
check("4.5: reply, none wanted", ROW_3 + silence() + status(CLEAR) + data(1),
      "G 2C01; R 4 0; END 6", ended("0083", "4 0") + "; 0080 2C01; 0081 2800")
check("4.5: reply, a third word", ROW_1 + silence() + status(CLEAR) + data(0xAAAA) + data(0xBBBB)
      + data(0xCCCC), "G 2C62; R 4 0; END 8", ended("0081", "4 0")
      + "; 0080 2C62; 0081 2800; 0082 AAAA; 0083 BBBB")
check("4.5 before 4.6: command sync, all in", ROW_5 + silence() + status(CLEAR) + data(0x1234)
      + status(CLEAR, joined=1), "G 2C10; R 4 0; END 7",
      ended("0085", "4 0") + "; 0080 2C10; 0081 2800; 0082 1234")
check("4.6: reply, command sync as first word", ROW_1 + silence() + status(CLEAR)
      + status(CLEAR, joined=1), "G 2C62; R 6 0; END 6", ended("0081", "6 0")
      + "; 0080 2C62; 0081 2800")
check("4.6: reply, command sync as second word", ROW_2 + silence() + status(OTHER_CLEAR)
      + data(0xAAAA) + status(OTHER_CLEAR, joined=1), "G 2862 4C62; R 6 0; END 7",
      ended("0082", "6 0") + AT_2 + "; 0082 4800; 0083 AAAA")
check("5: reply, silence with no word", ROW_5 + silence() + status(CLEAR) + silence(),
      "G 2C10; R 3 0; END 6", ended("0085", "3 0") + "; 0080 2C10; 0081 2800")
check("5: reply, silence with one of two", ROW_1 + silence() + status(CLEAR) + data(0xAAAA)
      + silence(), "G 2C62; R 3 0; END 7", ended("0081", "3 0")
      + "; 0080 2C62; 0081 2800; 0082 AAAA")
check("5: row 2, X, short", setup(0x008A) + write(BLOCK_2, ALL_RECEIVE, SECOND) + START + silence()
      + status(OTHER_CLEAR) + data(0xAAAA) + silence(), "G F862 4C62; R 3 0; END 7",
      ended("008A", "3 0") + "; 0080 F862; 0081 4C62; 0082 4800; 0083 AAAA")
AT_2_REPLY = AT_2 + "; 0082 4800; 0083 AAAA; 0084 BBBB"
check("4.1: last, unsound", ROW_2 + ROW_2_REPLY + word(2, CLEAR), "G 2862 4C62; R 1 0; END 9",
      ended("0082", "1 0") + AT_2_REPLY)
check("4.3: last, data sync", ROW_2 + ROW_2_REPLY + data(CLEAR), "G 2862 4C62; R 6 0; END 9",
      ended("0082", "6 0") + AT_2_REPLY)
check("4.3: last, the transmitter once more", ROW_2 + ROW_2_REPLY + status(OTHER_CLEAR),
      "G 2862 4C62; R 5 0; END 9", ended("0082", "5 0") + AT_2_REPLY)
check("5: last, no receiver", ROW_2 + ROW_2_REPLY + silence(), "G 2862 4C62; R 2 0; END 9",
      ended("0082", "2 0") + AT_2_REPLY)
AT_2_ENDED = AT_2_REPLY + "; 0085 2800"
check("4.1: ended, unsound", ROW_2 + ROW_2_REPLY + status(CLEAR) + unsound(1),
      "G 2862 4C62; R 1 0; END 10", ended("0082", "1 0") + AT_2_ENDED)
check("4.4: ended, not joined", ROW_2 + ROW_2_REPLY + status(CLEAR) + unjoined(1),
      "G 2862 4C62; R 3 0; END 10", ended("0082", "3 0") + AT_2_ENDED)
check("4.5: ended, a word", ROW_2 + ROW_2_REPLY + status(CLEAR) + data(1),
      "G 2862 4C62; R 4 0; END 10", ended("0082", "4 0") + AT_2_ENDED)
check("4.5: ended, a command", ROW_2 + ROW_2_REPLY + status(CLEAR) + status(CLEAR, joined=1),
      "G 2862 4C62; R 4 0; END 10", ended("0082", "4 0") + AT_2_ENDED)
check("the fault ends it: what follows does nothing", ROW_1 + unsound(1) + silence() + status(CLEAR)
      + data(0xAAAA) + data(0xBBBB) + silence(), "G 2C62; R 1 0; END 9", ended("0081", "1 0")
      + AT_1)

# ---- the open message's line in each stage ------------------------------------------------------

OPEN_2 = "control 0082; count 0; due 0; result none; open row 2 group 0 first 2862 second 4C62 "
check("3: given", ROW_2, "G 2862 4C62; END 3", OPEN_2 + "stage given taken 0 mark 0" + AT_2)
check("3: awaiting", ROW_2 + silence(), "G 2862 4C62; END 4", OPEN_2
      + "stage awaiting taken 0 mark 0" + AT_2)
check("3: reply, marked", ROW_2 + silence() + status(0x4808) + data(0xAAAA), "G 2862 4C62; END 6",
      OPEN_2 + "stage reply taken 1 mark 1" + AT_2 + "; 0082 4808; 0083 AAAA")
check("3: last", ROW_2 + ROW_2_REPLY, "G 2862 4C62; END 8", OPEN_2 + "stage last taken 2 mark 0"
      + AT_2_REPLY)
check("3: ended", ROW_2 + ROW_2_REPLY + status(CLEAR), "G 2862 4C62; END 9",
      OPEN_2 + "stage ended taken 2 mark 0" + AT_2_ENDED)
check("3: X, and cell 1 of a row without a second command", setup(0x008B, 7)
      + write(BLOCK_2, ALL_MODE, 0xABCD) + START, "G FC01; END 3",
      "control 008B; count 6; due 0; result none; "
      "open row 3 group 1 first FC01 second ABCD stage given taken 0 mark 0; 0080 FC01; 0081 ABCD")

# ---- marks --------------------------------------------------------------------------------------

GO_ON_0 = setup(0x0090, 9) + write(BLOCK_2, RECEIVE, 0x1111, 0x2222) + write(LINK_2, 0x00D3) + START
check("7, 14: a set bit stops the chain", GO_ON_0 + silence() + status(0x2801) + silence(),
      "G 2862 1111 2222; R 0 1; END 7", ended("0090", "0 1", 8) + AT_0 + "; 0083 2801; 00BF 00D3")
check("4.3: bit 10 is one of them", ROW_3 + silence() + status(0x2C00) + silence(),
      "G 2C01; R 0 1; END 6", ended("0083", "0 1") + "; 0080 2C01; 0081 2C00")
check("20: busy, data to come", ROW_1 + silence() + status(0x2808) + silence(),
      "G 2C62; R 3 1; END 6", ended("0081", "3 1") + "; 0080 2C62; 0081 2808")
check("the mark beside a later fault", ROW_1 + silence() + status(0x2900) + data(0xAAAA)
      + unsound(1), "G 2C62; R 1 1; END 7", ended("0081", "1 1")
      + "; 0080 2C62; 0081 2900; 0082 AAAA")
check("a set bit does not stop the checking", ROW_2 + silence() + status(0x4800 | 4) + data(0xAAAA)
      + data(0xBBBB) + silence() + status(CLEAR) + silence(), "G 2862 4C62; R 0 1; END 10",
      ended("0082", "0 1") + AT_2 + "; 0082 4804; 0083 AAAA; 0084 BBBB; 0085 2800")
check("the last status sets it too", ROW_2 + ROW_2_REPLY + status(0x2810) + silence(),
      "G 2862 4C62; R 0 1; END 10", ended("0082", "0 1") + AT_2_REPLY + "; 0085 2810")

# ---- going on -----------------------------------------------------------------------------------

AT_GO_ON = AT_0 + "; 0083 2800; 00BF 00D3"
SOUND = silence() + status(CLEAR) + silence()
check("7: goes on by cell 63", GO_ON_0 + SOUND, "G 2862 1111 2222; R 0 0; END 7",
      "control 00D3; count 8; due 1; result 0 0; open none" + AT_GO_ON)
check("7: the second message goes on by its own cell 63", GO_ON_0 + write(BLOCK_3, MODE) + SOUND
      + START + SOUND, "G 2862 1111 2222; R 0 0; G 2C01; R 0 0; END 12",
      "control 0000; count 7; due 1; result 0 0; open none" + AT_GO_ON + "; 00C0 2C01; 00C1 2800")
check("7: a start drops the result", GO_ON_0 + SOUND + write(BLOCK_3, MODE) + START,
      "G 2862 1111 2222; R 0 0; G 2C01; END 9", "control 00D3; count 7; due 0; result none; "
      "open row 3 group 0 first 2C01 second 0000 stage given taken 0 mark 0" + AT_GO_ON
      + "; 00C0 2C01")
check("7: bit 4 clear, cell 63 is not looked at", setup(0x0080, 9)
      + write(BLOCK_2, RECEIVE, 0x1111, 0x2222) + write(LINK_2, 0x00D3) + START + SOUND,
      "G 2862 1111 2222; R 0 0; END 7", ended("0080", "0 0", 8) + AT_GO_ON)
check("7: a fault stops", GO_ON_0 + silence() + silence(), "G 2862 1111 2222; R 2 0; END 6",
      ended("0090", "2 0", 8) + AT_0 + "; 00BF 00D3")
check("21: cell 63 is read at the end", GO_ON_0 + silence() + write(LINK_2, 0x3FF5) + status(CLEAR)
      + silence(), "G 2862 1111 2222; R 0 0; END 8",
      "control 3FF5; count 8; due 1; result 0 0; open none" + AT_0 + "; 0083 2800; 00BF 3FF5")
check("a change of cell 63 after the end changes nothing", GO_ON_0 + SOUND + write(LINK_2, 0x3FF5),
      "G 2862 1111 2222; R 0 0; END 8", "control 00D3; count 8; due 1; result 0 0; open none" + AT_0
      + "; 0083 2800; 00BF 3FF5")
ITSELF = setup(0x0093, 2) + write(BLOCK_2, MODE) + write(LINK_2, 0x0093)
check("a message that names itself, until no start is left", ITSELF + (START + SOUND) * 3,
      "G 2C01; R 0 0; G 2C01; R 0 0; END 15",
      "control 0093; count 0; due 1; result 0 0; open none; 0080 2C01; 0081 2800; 00BF 0093")
check("X goes on at its silence", setup(0x0098, 1) + write(BLOCK_2, ALL_RECEIVE, 1, 2)
      + write(LINK_2, 0x00D3) + START + silence(), "G F862 0001 0002; R 0 0; END 5",
      "control 00D3; count 0; due 1; result 0 0; open none; "
      "0080 F862; 0081 0001; 0082 0002; 00BF 00D3")
check("1: bits 15 and 14 are not looked at", setup(0xC080) + write(BLOCK_2, RECEIVE, 0x1111, 0x2222)
      + START + SOUND, "G 2862 1111 2222; R 0 0; END 6", ended("C080", "0 0") + AT_0
      + "; 0083 2800")
check("block 255", setup(0x3FD2) + write(0x3FC0, RECEIVE, SECOND) + write(0x3FFF, 0x1234) + START
      + ROW_2_REPLY + status(CLEAR) + silence(), "G 2862 4C62; R 0 0; END 11",
      "control 1234; count 0; due 1; result 0 0; open none; 3FC0 2862; 3FC1 4C62; 3FC2 4800; "
      "3FC3 AAAA; 3FC4 BBBB; 3FC5 2800; 3FFF 1234")
check("block 0, an empty memory", setup(0) + START + silence() + status(0) + silence(),
      "G " + " ".join(["0000"] * 33) + "; R 0 0; END 5", ended("0000", "0 0"))

# ---- lines --------------------------------------------------------------------------------------

check("4: words and silences of line B do nothing", setup(0x0081) + write(BLOCK_2, TRANSMIT) + START
      + silence(1) + data(1, 1) + silence() + silence(1) + status(OTHER_CLEAR, 1) + unsound(1, 1)
      + status(CLEAR) + data(9, 1) + data(0xAAAA) + status(CLEAR, 1) + data(0xBBBB) + silence(1)
      + silence(), "G 2C62; R 0 0; END 16", ended("0081", "0 0")
      + "; 0080 2C62; 0081 2800; 0082 AAAA; 0083 BBBB")
check("bit 5: line B, what is on A does nothing", setup(0x00A1) + write(BLOCK_2, TRANSMIT) + START
      + silence() + silence(1) + status(CLEAR, 1) + data(9) + data(0xAAAA, 1) + silence()
      + data(0xBBBB, 1) + silence(1), "G 2C62; R 0 0; END 11", ended("00A1", "0 0")
      + "; 0080 2C62; 0081 2800; 0082 AAAA; 0083 BBBB")
check("the next message on the other line", setup(0x0093, 2) + write(BLOCK_2, MODE)
      + write(LINK_2, 0x00E3) + write(BLOCK_3, MODE) + START + SOUND + START + silence()
      + status(CLEAR) + silence(1) + status(CLEAR, 1) + silence(1),
      "G 2C01; R 0 0; G 2C01; R 0 0; END 14", ended("00E3", "0 0")
      + "; 0080 2C01; 0081 2800; 00BF 00E3; 00C0 2C01; 00C1 2800")
check("4: nothing open", setup(0x0083) + silence() + status(CLEAR) + unsound(1, 1) + silence(1)
      + write(BLOCK_2, MODE) + START + SOUND + status(0x2FFF) + data(1) + silence(),
      "G 2C01; R 0 0; END 13", ended("0083", "0 0") + "; 0080 2C01; 0081 2800")

# ---- what the start catches ---------------------------------------------------------------------

check("21: another cell 0 while open, row 1", ROW_1 + write(BLOCK_2, 0x4C65) + silence()
      + status(CLEAR) + data(0xAAAA) + data(0xBBBB) + silence(), "G 2C62; R 0 0; END 9",
      ended("0081", "0 0") + "; 0080 4C65; 0081 2800; 0082 AAAA; 0083 BBBB")
check("21: another cell 0 while open, row 0: the status behind the words given", ROW_0 + silence()
      + write(BLOCK_2, 0x4861) + status(CLEAR) + silence(), "G 2862 1111 2222; R 0 0; END 7",
      ended("0080", "0 0") + "; 0080 4861; 0081 1111; 0082 2222; 0083 2800")
check("21: another cell 1 while open, row 2", ROW_2 + write(BLOCK_2, 0x3861, 0x3C61) + ROW_2_REPLY
      + status(CLEAR) + silence(), "G 2862 4C62; R 0 0; END 11", ended("0082", "0 0")
      + "; 0080 3861; 0081 3C61; 0082 4800; 0083 AAAA; 0084 BBBB; 0085 2800")
check("21: the open line has the commands of the start", ROW_2 + write(BLOCK_2, 1, 2),
      "G 2862 4C62; END 4", OPEN_2 + "stage given taken 0 mark 0; 0080 0001; 0081 0002")
check("21: another data cell after the start", ROW_0 + write(BLOCK_2 + 1, 0x7777) + SOUND,
      "G 2862 1111 2222; R 0 0; END 7", ended("0080", "0 0")
      + "; 0080 2862; 0081 7777; 0082 2222; 0083 2800")
check("host writes where the reply goes: the later one stays", ROW_1 + write(BLOCK_2 + 2, 5, 6)
      + silence() + status(CLEAR) + data(0xAAAA) + write(BLOCK_2 + 2, 7) + data(0xBBBB) + silence(),
      "G 2C62; R 0 0; END 10", ended("0081", "0 0")
      + "; 0080 2C62; 0081 2800; 0082 0007; 0083 BBBB")
check("6: what is behind the reply stays", setup(0x0085) + write(BLOCK_2, MODE_FOR_WORD, 1, 2, 3)
      + START + silence() + status(CLEAR) + data(0x1234) + silence(), "G 2C10; R 0 0; END 7",
      ended("0085", "0 0") + "; 0080 2C10; 0081 2800; 0082 1234; 0083 0003")

# ---- commands that do not fit -------------------------------------------------------------------

OTHER_COUNT = setup(0x0082) + write(BLOCK_2, RECEIVE,
                    0x4C63) + START + silence() + status(OTHER_CLEAR)
AT_COUNT = "; 0080 2862; 0081 4C63; 0082 4800; 0083 0001; 0084 0002"
check("19: row 2 by the second command's count", OTHER_COUNT + data(1) + data(2) + data(3)
      + silence() + status(CLEAR) + silence(), "G 2862 4C63; R 0 0; END 11", ended("0082", "0 0")
      + AT_COUNT + "; 0085 0003; 0086 2800")
check("19: two of three are short", OTHER_COUNT + data(1) + data(2) + silence(),
      "G 2862 4C63; R 3 0; END 8", ended("0082", "3 0") + AT_COUNT)
check("19: the receiver has closed", OTHER_COUNT + data(1) + data(2) + data(3) + silence()
      + silence(), "G 2862 4C63; R 2 0; END 10", ended("0082", "2 0") + AT_COUNT + "; 0085 0003")
check("15: X missing", setup(0x0080) + write(BLOCK_2, ALL_RECEIVE, 1, 2) + START + silence()
      + silence(), "G F862 0001 0002; R 2 0; END 5", ended("0080", "2 0")
      + "; 0080 F862; 0081 0001; 0082 0002")
check("15: X missing, a status from address 31 would do", setup(0x0080)
      + write(BLOCK_2, ALL_RECEIVE, 1, 2) + START + silence() + status(0xF800) + silence(),
      "G F862 0001 0002; R 0 0; END 6", ended("0080", "0 0")
      + "; 0080 F862; 0081 0001; 0082 0002; 0083 F800")
check("15: X too much", setup(0x0088) + write(BLOCK_2, RECEIVE, 1, 2) + START + silence()
      + status(CLEAR), "G 2862 0001 0002; R 0 0; END 5", ended("0088", "0 0")
      + "; 0080 2862; 0081 0001; 0082 0002")
check("2: the code decides, a receive in row 1", setup(0x0081) + write(BLOCK_2, RECEIVE) + START
      + silence() + status(CLEAR) + data(0xAAAA) + data(0xBBBB) + silence(), "G 2862; R 0 0; END 8",
      ended("0081", "0 0") + "; 0080 2862; 0081 2800; 0082 AAAA; 0083 BBBB")
check("2: the code decides, a mode command in row 0", setup(0x0080) + write(BLOCK_2, MODE, 7, 8)
      + START + SOUND, "G 2C01 0007; R 0 0; END 6", ended("0080", "0 0")
      + "; 0080 2C01; 0081 0007; 0082 2800")
check("2: a row 2 whose two stations are one", setup(0x0082) + write(BLOCK_2, RECEIVE, TRANSMIT)
      + START + silence() + status(CLEAR) + data(1) + data(2) + silence() + status(CLEAR)
      + silence(), "G 2862 2C62; R 0 0; END 10", ended("0082", "0 0")
      + "; 0080 2862; 0081 2C62; 0082 2800; 0083 0001; 0084 0002; 0085 2800")

# ---- starts that give nothing, and 14 -----------------------------------------------------------

check("setup", setup(0xFFFF, 0xFFFF), "END 1",
      "control FFFF; count 65535; due 1; result none; open none")
check("2: no start left", setup(0x0083, 0) + write(BLOCK_2, MODE) + START + SOUND, "END 6",
      "control 0083; count 0; due 1; result none; open none; 0080 2C01")
check("2: one open", setup(0x0093, 5) + write(BLOCK_2, MODE) + START + START + silence() + START
      + status(CLEAR) + START + silence(), "G 2C01; R 0 0; END 9",
      "control 0000; count 4; due 1; result 0 0; open none; 0080 2C01; 0081 2800")
check("7: nothing due, the result is kept", setup(0x0083, 5) + write(BLOCK_2, MODE) + START
      + silence() + silence() + START * 2, "G 2C01; R 2 0; END 7", ended("0083", "2 0", 4)
      + "; 0080 2C01")
check("7: no start left, the result is kept", setup(0x0093) + write(BLOCK_2, MODE)
      + write(LINK_2, 0x00C0) + START + SOUND + START, "G 2C01; R 0 0; END 8",
      "control 00C0; count 0; due 1; result 0 0; open none; 0080 2C01; 0081 2800; 00BF 00C0")
for code in (6, 7, 9, 13, 14, 15):
    control = f"{0x0090 | code:04X}"
    check(f"14: code {code}", setup(0x0090 | code, 3) + write(BLOCK_2, RECEIVE) + START + START,
          "! 14 14", f"control {control}; count 3; due 1; result none; open none; 0080 2862")
    check(f"16: code {code}, no start left", setup(0x0090 | code, 0) + START + silence(), "END 3",
          f"control {control}; count 0; due 1; result none; open none")
check("16: 14 behind a sound message undoes nothing", setup(0x0093, 4) + write(BLOCK_2, MODE)
      + write(LINK_2, 0x00D6) + START + SOUND + START + SOUND, "G 2C01; R 0 0; ! 14 50",
      "control 00D6; count 3; due 1; result 0 0; open none; 0080 2C01; 0081 2800; 00BF 00D6")
check("16: no start left behind a sound message", setup(0x0093) + write(BLOCK_2, MODE)
      + write(LINK_2, 0x00D6) + START + SOUND + START, "G 2C01; R 0 0; END 8",
      "control 00D6; count 0; due 1; result 0 0; open none; 0080 2C01; 0081 2800; 00BF 00D6")
check("16: a message behind a fault never starts, whatever its code", setup(0x0093, 4)
      + write(BLOCK_2, MODE) + write(LINK_2, 0x00D6) + START + silence() + silence() + START,
      "G 2C01; R 2 0; END 7", ended("0093", "2 0", 3) + "; 0080 2C01; 00BF 00D6")
check("16: a code in cell 63 is looked at when it is started", setup(0x0093, 4)
      + write(BLOCK_2, MODE) + write(LINK_2, 0x00D6) + START + SOUND + write(LINK_2, 0x00D3),
      "G 2C01; R 0 0; END 8",
      "control 00D6; count 3; due 1; result 0 0; open none; 0080 2C01; 0081 2800; 00BF 00D3")

# ---- the reader ---------------------------------------------------------------------------------

NONE = "control none"
DUE = "control 0083; count 1; due 1; result none; open none"
check("empty", b"", "END 0", NONE)
for tag in (0x00, 0x01, 0x04, 0x06, 0x07, 0x08, 0x09, 0x0C, 0x12, 0x13, 0xFF):
    check(f"6: tag {tag:02X}, the last byte", setup(0x0083) + bytes([tag]), "! 6 7", DUE)
check("6: a tray's setup is none here", bytes.fromhex("0100030501 00"), "! 6 0", NONE)
check("6 before 5 and 9", b"\x04", "! 6 0", NONE)
check("5: no length byte", setup(0x0083) + b"\x0B", "! 5 7", DUE)
check("5: one length byte", setup(0x0083) + b"\x0B\x00", "! 5 7", DUE)
check("5: a first field's length is cut", b"\x02", "! 5 0", NONE)
for tag, length in ((0x0A, 3), (0x0A, 5), (0x0B, 1), (0x02, 6), (0x03, 4), (0x05, 0), (0x05, 2),
                    (0x05, 5), (0x05, 132)):
    check(f"7: tag {tag:02X}, length {length}", setup(0x0083) + struct.pack(">BH", tag, length)
          + bytes(length), "! 7 7", DUE)
check("7 before 5: the value is cut", setup(0x0083) + b"\x02\x00\x08", "! 7 7", DUE)
check("7 before 9: a first field", b"\x0B\x00\x01\x00", "! 7 0", NONE)
check("5: the value is cut", setup(0x0083) + b"\x03\x00\x05\x00\x00\x00\x00", "! 5 7", DUE)
check("5 before 9: the value of a second setup is cut", setup(0x0083) + setup(0x0083)[:6], "! 5 7",
      DUE)
check("5 before 8: spare marks, the value is cut", setup(0x0083) + b"\x02\x00\x07\xFF", "! 5 7",
      DUE)
check("5: the setup is cut", setup(0x0083)[:6], "! 5 0", NONE)
check("9: a start first", START + setup(0x0083), "! 9 0", NONE)
check("9: a write first", write(0, 1) + setup(0x0083), "! 9 0", NONE)
check("9 before 8: spare marks first", word(0x16, CLEAR), "! 9 0", NONE)
check("9 before 8: line 2 first", silence(2), "! 9 0", NONE)
check("9 before 8: cells past the end first", write(16383, 1, 2), "! 9 0", NONE)
check("9: setup again", setup(0x0083) + setup(0x0096), "! 9 7", DUE)
check("9: setup again while one is open", ROW_3 + setup(0x0083), "G 2C01; ! 9 17",
      "control 0083; count 0; due 0; result none; open row 3 group 0 first 2C01 second 0000 "
      "stage given taken 0 mark 0; 0080 2C01")
check("8: spare marks, nothing open", setup(0x0083) + word(0x10, 0), "! 8 7", DUE)
check("8: spare marks of the other line's word", ROW_3 + word(0x8F, CLEAR), "G 2C01; ! 8 17",
      "control 0083; count 0; due 0; result none; open row 3 group 0 first 2C01 second 0000 "
      "stage given taken 0 mark 0; 0080 2C01")
check("8: line 2, nothing open", setup(0x0083) + silence(2), "! 8 7", DUE)
check("8: line 255 while one is open", ROW_3 + silence() + silence(255), "G 2C01; ! 8 25",
      "control 0083; count 0; due 0; result none; open row 3 group 0 first 2C01 second 0000 "
      "stage awaiting taken 0 mark 0; 0080 2C01")
check("8: a write past the memory", setup(0x0083) + write(16383, 1, 2), "! 8 7", DUE)
check("8: a write at 16384", setup(0x0083) + write(16384, 1), "! 8 7", DUE)
check("a write to the last cell", setup(0x0083) + write(16383, 0xABCD), "END 2", DUE
      + "; 3FFF ABCD")
check("a write of 64", setup(0x0083) + write(16320, *range(64)), "END 2",
      DUE + "; " + cells(0x3FC1, *[f"{number:04X}" for number in range(1, 64)]))
check("lines before a refusal stand, what follows is not read", ROW_3 + silence() + b"\x01" + SOUND,
      "G 2C01; ! 6 25",
      "control 0083; count 0; due 0; result none; open row 3 group 0 first 2C01 second 0000 "
      "stage awaiting taken 0 mark 0; 0080 2C01")
check("stamps are not used", ROW_1 + fields.silence(0, 0xFFFFFFFF) + fields.word(6, CLEAR, 5)
      + fields.word(12, 0xAAAA, 0x80000000) + fields.word(12, 0xBBBB, 0) + fields.silence(0, 7),
      "G 2C62; R 0 0; END 8", ended("0081", "0 0") + "; 0080 2C62; 0081 2800; 0082 AAAA; 0083 BBBB")
check("all marks 0 to 15 are taken", setup(0x0083)
      + b"".join(word(marks, 0) for marks in range(16)), "END 17", DUE)

sys.exit(cases.report())
