#!/usr/bin/env python3
"""Cases worked by hand from request K3's reading; leaves 1 where one fails.

    monitor_cases.py            the peer
    monitor_cases.py compiled   the proved programs

The number in front of a case is that of the reading's point. A tape is written as the reading
writes one: words, and `/` for a silence. The first word behind a silence has command sync and is
not joined, the others have data sync and are joined; a sign in front says otherwise:

    !  command sync, not joined      +  command sync, joined      ?  command sync, unsound
    -  data sync, not joined         =  data sync, joined         ~  data sync, joined, unsound

`A:` and `B:` name the line of what follows. Where nothing else is said our terminal is station 30
and hears nothing of its own: 2862 and 2C62 are two words to and from station 5, 3462 two words from
station 6, 3C01 mode code 1 to station 7, and 2800, 3000 and 3800 the three stations' statuses.
"""

import struct
import sys

import fields
import worked
from fields import COMMAND, JOINED, SOUND

cases = worked.Cases("monitor", "monitor")

SIGNS = {"!": COMMAND | SOUND, "+": COMMAND | SOUND | JOINED, "-": SOUND, "=": SOUND | JOINED,
         "?": COMMAND, "~": JOINED}
BLOCKS, LINK, STATE = 256, 63, 62


def setup(station=30, table=1, flags=0):
    return [struct.pack(">BHBBB", 1, 3, station, table, flags)]


def write(address, *words):
    return [fields.write(address, words)]


def tape(text, time=0):
    """The fields of a tape."""
    line, is_first, found = 0, True, []
    for step in text.split():
        if step in ("A:", "B:"):
            line, is_first = int(step == "B:"), True
        elif step == "/":
            found.append(fields.silence(line, time))
            is_first = True
        else:
            sign = step[0] if step[0] in SIGNS else "!" if is_first else "="
            found.append(fields.word(SIGNS[sign] | line, int(step[-4:], 16), time))
            is_first = False
    return found


def links():
    """Cell 63 of block b is 64 * ((b + 1) mod 256) + 0030."""
    return {64 * block + LINK: 64 * ((block + 1) % BLOCKS) + 0x30 for block in range(BLOCKS)}


def compare(name, recording, lines, state, memory):
    """Everything that the two programs print."""
    plain, shown = cases.outputs(recording)
    cells = [f"{address:04X} {memory[address]:04X}" for address in sorted(memory)
             if memory[address] != 0]
    wrong = []
    for what, found, wanted in (("printed", plain, lines),
                                ("with cells", shown, lines + state + cells)):
        if found != "".join(line + "\n" for line in wanted):
            found = [line for line in found.splitlines() if line not in wanted]
            wrong.append(f"{what} {found!r}, which is not of {wanted[:len(lines) + 3]!r}")
    cases.close(name, wrong)


def check(name, start, text, closed, open_line="none", stored="", end=None):
    """start: the fields before the tape. closed: what follows W for each message that closes, the
    n-th of which is in block n, modulo 256, with its state word in cell 62. open_line and stored:
    what is open at the end, and its words. end: END and the number of fields, or this."""
    recording = start + tape(text)
    messages = [message.split() for message in closed.split("; ") if message]
    memory = links()
    for number, (state, *words) in enumerate(messages + [["0000", *stored.split()]]):
        block = 64 * (number % BLOCKS)
        memory.update({block + cell: int(word, 16) for cell, word in enumerate(words)})
        if number < len(messages):
            memory[block + STATE] = int(state, 16)
    control = 64 * (len(messages) % BLOCKS) + 0x30
    compare(name, b"".join(recording),
            [f"W {' '.join(message)}" for message in messages] + [end or f"END {len(recording)}"],
            [f"control {control:04X}", "running 1", f"open {open_line}"], memory)


def heard(name, text, closed, open_line="none", stored=""):
    """A tape on which our own station has no part."""
    check(name, setup(), text, closed, open_line, stored)


# ---- the rows of the table, X, lines and counts -------------------------------------------------

ROW_2 = "2862 +3462 / 3000 AAAA BBBB"
AT_2 = "2862 3462 3000 AAAA BBBB"
ROW_2_X = "F862 +3462 / 3000 AAAA BBBB"
AT_2_X = "F862 3462 3000 AAAA BBBB"
heard("format 0", "2862 1111 2222 / 2800 /", "0000 2862 1111 2222 2800")
heard("format 1", "2C62 / 2800 AAAA BBBB /", "0400 2C62 2800 AAAA BBBB")
heard("format 2", f"{ROW_2} / 2800 /", f"0800 {AT_2} 2800")
heard("format 3", "2C01 / 2800 /", "0C00 2C01 2800")
heard("format 4", "2811 BEEF / 2800 /", "1000 2811 BEEF 2800")
heard("format 5", "2C10 / 2800 1234 /", "1400 2C10 2800 1234")
heard("format 8", "F862 1111 2222 /", "2000 F862 1111 2222")
heard("format 10: no last status", f"{ROW_2_X} /", f"2800 {AT_2_X}")
heard("format 11", "FC01 /", "2C00 FC01")
heard("format 12", "F811 BEEF /", "3000 F811 BEEF")
heard("11: line B, each format", "B: 2862 1111 2222 / 2800 / 2C62 / 2800 AAAA BBBB / "
      f"{ROW_2} / 2800 / 2C01 / 2800 / 2811 BEEF / 2800 / 2C10 / 2800 1234 / F862 1111 2222 / "
      f"{ROW_2_X} / FC01 / F811 BEEF /", "8000 2862 1111 2222 2800; 8400 2C62 2800 AAAA BBBB; "
      f"8800 {AT_2} 2800; 8C00 2C01 2800; 9000 2811 BEEF 2800; 9400 2C10 2800 1234; "
      f"A000 F862 1111 2222; A800 {AT_2_X}; AC00 FC01; B000 F811 BEEF")
heard("4: subaddress 31 is a mode command too", "2FE1 / 2800 /", "0C00 2FE1 2800")
heard("4: a mode code is no count", "2C13 / 2800 1234 /", "1400 2C13 2800 1234")
heard("4: subaddresses 1 and 30", "2822 1111 2222 / 2800 / 2FC1 / 2800 AAAA /",
      "0000 2822 1111 2222 2800; 0400 2FC1 2800 AAAA")
heard("6: every station, 0 and our own too", "0421 / 0000 0001 / F021 0002 /",
      "0400 0421 0000 0001; 0000 F021 0002 F000")

NUMBERED = " ".join(f"{number:04X}" for number in range(1, 33))
heard("row 0, count 0: 32 words, the status in cell 33", f"2860 {NUMBERED} / 2800 /",
      f"0000 2860 {NUMBERED} 2800")
heard("row 1, count 0: 32 words", f"2C60 / 2800 {NUMBERED} /", f"0400 2C60 2800 {NUMBERED}")
heard("row 2, count 0: the last status in cell 35", f"2860 +3460 / 3000 {NUMBERED} / 2800 /",
      f"0800 2860 3460 3000 {NUMBERED} 2800")
heard("row 0, count 0, 31 are short", f"2860 {NUMBERED[:-5]} /", f"4003 2860 {NUMBERED[:-5]}")
heard("row 0, count 0, 33 are too many", f"2860 {NUMBERED} 3333", f"4004 2860 {NUMBERED}")
heard("words of zeros are words", "2862 0000 0000 / 2800 /", "0000 2862 0000 0000 2800")

# ---- illegal commands: bit 9, and broadcasts in rows 1 and 5 ------------------------------------

heard("9: reserved mode code, answered with message error", "2C09 / 2C00 /", "4E08 2C09 2C00")
heard("9: mode code 1 with direction 0", "2801 / 2800 /", "4E00 2801 2800")
heard("9: code 16 with direction 0 has row 4", "2810 1234 / 2C00 /", "5208 2810 1234 2C00")
heard("9: code 17 with direction 1 has row 5", "2C11 / 2800 1234 /", "5600 2C11 2800 1234")
heard("9: illegal codes with a word", "2816 1234 / 2C00 / 2C1F / 2800 5678 /",
      "5208 2816 1234 2C00; 5600 2C1F 2800 5678")
heard("9: codes 2 and 0 to all", "FC02 / FC00 /", "6E00 FC02; 6E00 FC00")
heard("9: code 1 to all is legal", "FC01 / FFE8 /", "2C00 FC01; 2C00 FFE8")
heard("21: a broadcast in row 1 has no X and ends at the silence", "FC62 /", "4600 FC62")
heard("21: a broadcast in row 5", "FC10 /", "5600 FC10")
heard("21: it awaits nothing: a status behind it opens", "FC62 / 2800 /", "4600 FC62",
      "line A row 3 group 0 first 2800 second none stage awaiting taken 0 mark 0", "2800")
heard("21: its words are too many", "FC62 1111 / FC10 1111 /", "4604 FC62; 5604 FC10")
heard("9 is no fault: the message is followed to its fault", "2C09 / / 2C09 / 2C00 1111",
      "4E02 2C09; 4E0C 2C09 2C00")
heard("9: a wrong command to all, row 4", "F810 1234 / F816 /", "7200 F810 1234; 7203 F816")

# ---- opening: 6, 10 and 19 ----------------------------------------------------------------------

heard("6: with nothing open nothing else has an effect",
      "=1111 -1111 ~2862 ?2862 / / B: =1111 ?2862 /", "")
heard("6: a joined command opens", "+2C01 / 2800 /", "0C00 2C01 2800")
heard("6: a word of zeros opens", "0000 / 0000 /", "4E00 0000 0000")
heard("19: behind a fault words pass up to the next command",
      "2862 ~1111 2222 ?3C01 -3333 / 3C01 / 3800 /", "4001 2862; 0C00 3C01 3800")
heard("19: which opens though it is joined", "2862 ~1111 +3C01 / 3800 /",
      "4001 2862; 0C00 3C01 3800")
heard("19: after an unsound first command the second opens", "?2862 +3462 / 3000 AAAA BBBB /",
      "0400 3462 3000 AAAA BBBB")

# ---- 7.1, unsound, in each stage ----------------------------------------------------------------

heard("7.1: command segment", "2862 1111 ~2222", "4001 2862 1111")
heard("7.1: command segment, all in", "2862 1111 2222 ~3333", "4001 2862 1111 2222")
heard("20: an unsound second command is code 1 alone", "2862 ?3463", "4001 2862")
heard("7.1: second command", "2862 +3462 ~1111", "4801 2862 3462")
heard("7.1: awaiting", "2862 1111 2222 / ?2800", "4001 2862 1111 2222")
heard("7.1: reply", "2C62 / 2800 AAAA ~BBBB", "4401 2C62 2800 AAAA")
heard("7.1: awaiting last", f"{ROW_2} / ?2800", f"4801 {AT_2}")
heard("7.1: ended", f"{ROW_2} / 2800 ~1111", f"4801 {AT_2} 2800")
heard("7.1: X, line B", "B: F862 ~1111", "E001 F862")

# ---- 7.2, a status is due -----------------------------------------------------------------------

heard("7.2: awaiting, data sync", "2862 1111 2222 / -2800", "4006 2862 1111 2222")
heard("7.2: awaiting, data sync, joined", "2862 1111 2222 / =2800", "4006 2862 1111 2222")
heard("7.2: data sync before the address", "2C01 / -5555", "4C06 2C01")
heard("7.2: awaiting last, data sync", f"{ROW_2} / -2800", f"4806 {AT_2}")
heard("16: another address opens, in the next block", "2862 1111 2222 / 3C01 / 3800 /",
      "4005 2862 1111 2222; 0C00 3C01 3800")
heard("16: joined it does not", "2862 1111 2222 / +3C01 / /", "4005 2862 1111 2222")
heard("7.2: a wrong status sets no mark, and is a stray message", "2862 1111 2222 / 37FF",
      "4005 2862 1111 2222", "line A row 5 group 0 first 37FF second none stage command taken 0 "
      "mark 0", "37FF")
heard("7.2: row 2 awaits the transmitter first", "2862 +3462 / 2800", "4805 2862 3462",
      "line A row 3 group 0 first 2800 second none stage command taken 0 mark 0", "2800")
heard("7.2: and the receiver last", f"{ROW_2} / 3000", f"4805 {AT_2}",
      "line A row 3 group 0 first 3000 second none stage command taken 0 mark 0", "3000")
heard("7.2: awaiting last, another address, joined", f"{ROW_2} / +3C01", f"4805 {AT_2}")
heard("7.2: X, row 2 awaits the transmitter", "F862 +3462 / +F800", "6805 F862 3462")
heard("7.2: a joined status is taken", "2862 1111 2222 / +2800 /", "0000 2862 1111 2222 2800")
heard("7.2: a joined last status is taken", f"{ROW_2} / +2800 /", f"0800 {AT_2} 2800")
for bit in range(11):
    heard(f"7.2: bit {bit} sets the mark", f"2C01 / {0x2800 | 1 << bit:04X} /",
          f"0C08 2C01 {0x2800 | 1 << bit:04X}")
heard("22: the mark of the first status stays", "2862 +3462 / 3001 AAAA BBBB / 2800 /",
      "0808 2862 3462 3001 AAAA BBBB 2800")
heard("22: the mark of the last status", f"{ROW_2} / 2804 /", f"0808 {AT_2} 2804")
heard("22: busy transmit", "2C62 / 2808 /", "440B 2C62 2808")
heard("22: illegal transmit of one word", "2C1F / 2C00 /", "560B 2C1F 2C00")
heard("22: the mark stays when a fault follows", "2C62 / 2808 AAAA ~BBBB", "4409 2C62 2808 AAAA")
heard("22: and when no last status comes", "2862 +3462 / 3001 AAAA BBBB / /",
      "480A 2862 3462 3001 AAAA BBBB")
heard("22: and when a wrong one does", "2862 +3462 / 3001 AAAA BBBB / +3800",
      "480D 2862 3462 3001 AAAA BBBB")
heard("22: and when it is superseded, complete or not", "2C01 / 2808 !2C62 / 2808 !3C01",
      "0C08 2C01 2808; 440F 2C62 2808",
      "line A row 3 group 0 first 3C01 second none stage command taken 0 mark 0", "3C01")
heard("17: a command repeated after one silence is taken as status",
      "2862 1111 2222 / 2862 1111 2222 / 2800 /", "400C 2862 1111 2222 2862",
      "line A row 3 group 0 first 2800 second none stage awaiting taken 0 mark 0", "2800")
heard("17: a transmit repeated after one silence", "2C62 / 2C62 / 2800 AAAA BBBB /",
      "440B 2C62 2C62; 4E04 2800")
heard("24: repeated after two silences", "2862 1111 2222 / / 2862 1111 2222 / 2800 /",
      "4002 2862 1111 2222; 0000 2862 1111 2222 2800")

# ---- 7.3 and 8, not joined: a gap, or superseded ------------------------------------------------

heard("7.3: command segment, data", "2862 1111 -2222", "4003 2862 1111")
heard("7.3 before 7.5: command segment, all in", "2862 1111 2222 -3333", "4003 2862 1111 2222")
heard("7.3 before 7.4: second command", "2862 +3462 -1111", "4803 2862 3462")
heard("7.3: reply", "2C62 / 2800 AAAA -BBBB", "4403 2C62 2800 AAAA")
heard("7.3: reply, all in", "2C01 / 2800 -1111", "4C03 2C01 2800")
heard("7.3: ended", f"{ROW_2} / 2800 -1111", f"4803 {AT_2} 2800")

NEXT, CLOSED_NEXT = "!3C01 / 3800 /", "0C00 3C01 3800"
OTHER, CLOSED_OTHER = "B: 3C01 / 3800 /", "8C00 3C01 3800"
for steps, message in (
        ("2862 1111", "4007 2862 1111"),               # words are missing
        ("2862 1111 2222", "4007 2862 1111 2222"),     # the status is
        ("2C62", "4407 2C62"),
        ("F862 1111", "6007 F862 1111"),
        ("F862 1111 2222", "2000 F862 1111 2222"),     # complete
        ("FC01", "2C00 FC01"),
        ("FC62", "4600 FC62"),
        ("FC10", "5600 FC10"),
        ("2862 +3462", "4807 2862 3462"),
        ("F862 +3462", "6807 F862 3462"),
        ("2862 1111 2222 / 2800", "0000 2862 1111 2222 2800"),
        ("2C62 / 2800 AAAA", "4407 2C62 2800 AAAA"),
        ("2C62 / 2800 AAAA BBBB", "0400 2C62 2800 AAAA BBBB"),
        ("2C01 / 2800", "0C00 2C01 2800"),
        ("2C10 / 2800", "5407 2C10 2800"),
        (ROW_2, f"4807 {AT_2}"),                       # the last status is missing
        (ROW_2_X, f"2800 {AT_2_X}"),
        (f"{ROW_2} / 2800", f"0800 {AT_2} 2800")):
    heard(f"8: {steps}, superseded", f"{steps} {NEXT}", f"{message}; {CLOSED_NEXT}")
    heard(f"8: {steps}, superseded on the other line", f"{steps} {OTHER}",
          f"{message}; {CLOSED_OTHER}")
heard("8: awaiting, superseded on the other line", f"2862 1111 2222 / {OTHER}",
      f"4007 2862 1111 2222; {CLOSED_OTHER}")
heard("8: awaiting the transmitter, superseded on the other line", f"2862 +3462 / {OTHER}",
      f"4807 2862 3462; {CLOSED_OTHER}")
heard("8: awaiting last, superseded on the other line", f"{ROW_2} / {OTHER}",
      f"4807 {AT_2}; {CLOSED_OTHER}")
heard("7: a joined command on the other line supersedes", "2862 1111 B: +3C01 / 3800 /",
      f"4007 2862 1111; {CLOSED_OTHER}")
heard("7: from line B to line A", "B: 2862 1111 A: 3C01 / 3800 /", f"C007 2862 1111; {CLOSED_NEXT}")
heard("15: what looks like the status does so too", "2862 1111 2222 / B: 2800",
      "4007 2862 1111 2222",
      "line B row 3 group 0 first 2800 second none stage command taken 0 mark 0", "2800")
heard("7: nothing else on the other line has an effect, stage by stage",
      "2862 B: ~1111 ?3C01 =1111 -1111 / A: +3462 B: ~1111 =1111 / A: / B: =1111 ?2800 / "
      "A: 3000 B: -1111 / A: =AAAA =BBBB / B: / =2800 A: 2800 B: ~2800 / A: /", f"0800 {AT_2} 2800")

# ---- 7.4 to 7.8 ---------------------------------------------------------------------------------

heard("7.4: a word behind the second command", "2862 +3462 1111", "4807 2862 3462")
heard("7.4: a third command, joined, does not open", "2862 +3462 +3C01 /", "4807 2862 3462")
heard("7.5: command segment, a word too many", "2862 1111 2222 3333", "4004 2862 1111 2222")
heard("7.5: none wanted", "2C62 1111", "4404 2C62")
heard("7.5 before 7.7: a joined command where none is wanted", "2C01 +3C01 /", "4C04 2C01")
heard("7.5: the mode command's word", "2811 BEEF 1111", "5004 2811 BEEF")
heard("7.5: X", "F862 1111 2222 3333", "6004 F862 1111 2222")
heard("7.5: reply, a word too many", "2C62 / 2800 AAAA BBBB CCCC", "4404 2C62 2800 AAAA BBBB")
heard("7.5: reply, none wanted", "2862 1111 2222 / 2800 3333", "4004 2862 1111 2222 2800")
heard("7.5: reply, a joined command", "2862 1111 2222 / 2800 +3C01 /", "4004 2862 1111 2222 2800")
heard("7.5: ended", f"{ROW_2} / 2800 1111", f"4804 {AT_2} 2800")
heard("7.5: ended, a joined command", f"{ROW_2} / 2800 +3C01", f"4804 {AT_2} 2800")
for second, why in (("3463", "another count"), ("2C62", "the same station"), ("FC62", "address 31"),
                    ("3062", "direction 0"), ("3402", "subaddress 0"), ("37E2", "subaddress 31")):
    heard(f"7.6: a second command that does not fit: {why}", f"2862 +{second} /", "4907 2862")
heard("7.6: X, another count", "F862 +3463 /", "6907 F862")
heard("7.6: X, address 31", "F862 +FC62 /", "6907 F862")
heard("7.6: line B", "B: 2862 +3463 /", "C907 2862")
heard("7.7: no second command behind a word", "2862 1111 +3462", "4006 2862 1111")
heard("7.7: nor behind a mode command", "2811 +3462", "5006 2811")
heard("7.7: reply, first word", "2C62 / 2800 +3462", "4406 2C62 2800")
heard("7.7: reply, later word", "2C62 / 2800 AAAA +2800", "4406 2C62 2800 AAAA")
heard("7.7: reply of row 2", "2862 +3462 / 3000 +3462", "4806 2862 3462 3000")
heard("7.7: reply of row 5", "2C10 / 2800 +1234", "5406 2C10 2800")

# ---- 9, silences --------------------------------------------------------------------------------

heard("9: command segment, words missing", "2862 / 2862 1111 / 2811 / F862 1111 / F811 /",
      "4003 2862; 4003 2862 1111; 5003 2811; 6003 F862 1111; 7003 F811")
heard("9: no answer, row by row",
      "2862 1111 2222 / / 2C62 / / 2862 +3462 / / 2C01 / / 2811 BEEF / / 2C10 / / F862 +3462 / /",
      "4002 2862 1111 2222; 4402 2C62; 4802 2862 3462; 4C02 2C01; 5002 2811 BEEF; 5402 2C10; "
      "6802 F862 3462")
heard("9: reply, words missing",
      "2C62 / 2800 / 2C62 / 2800 AAAA / 2862 +3462 / 3000 AAAA / F862 +3462 / 3000 / 2C10 / 2800 /",
      "4403 2C62 2800; 4403 2C62 2800 AAAA; 4803 2862 3462 3000 AAAA; 6803 F862 3462 3000; "
      "5403 2C10 2800")
heard("9: no last status", f"{ROW_2} / /", f"4802 {AT_2}")
heard("9: silences of the other line, and with nothing open",
      "/ B: / A: 2862 B: / A: =1111 =2222 / B: / A: 2800 B: / A: / / /", "0000 2862 1111 2222 2800")

# ---- the open message, stage by stage -----------------------------------------------------------

heard("3: command", "2862 1111", "",
      "line A row 0 group 0 first 2862 second none stage command taken 1 mark 0", "2862 1111")
heard("3: second", "2862 +3462", "",
      "line A row 2 group 0 first 2862 second 3462 stage second taken 0 mark 0", "2862 3462")
heard("3: awaiting", "2862 +3462 /", "",
      "line A row 2 group 0 first 2862 second 3462 stage awaiting taken 0 mark 0", "2862 3462")
heard("3: reply", "2862 +3462 / 3001 AAAA", "",
      "line A row 2 group 0 first 2862 second 3462 stage reply taken 1 mark 1",
      "2862 3462 3001 AAAA")
heard("3: last", f"{ROW_2} /", "",
      "line A row 2 group 0 first 2862 second 3462 stage last taken 2 mark 0", AT_2)
heard("3: ended", f"{ROW_2} / 2801", "",
      "line A row 2 group 0 first 2862 second 3462 stage ended taken 2 mark 1", f"{AT_2} 2801")
heard("3: words of the command segment count in the reply", "2862 1111 2222 / 2800", "",
      "line A row 0 group 0 first 2862 second none stage reply taken 2 mark 0",
      "2862 1111 2222 2800")
heard("4: address 31, line B", "B: F862 +3462 /", "",
      "line B row 2 group 1 first F862 second 3462 stage awaiting taken 0 mark 0", "F862 3462")
heard("4: address 31 in a row without X", "FC62", "",
      "line A row 1 group 1 first FC62 second none stage command taken 0 mark 0", "FC62")
heard("4: a mode command with a word", "2811", "",
      "line A row 4 group 0 first 2811 second none stage command taken 0 mark 0", "2811")

# ---- 10 and 11, blocks: the chain, and what stays -----------------------------------------------

FILLING = "FC01 / " * 254
FILLED = "; 2C00 FC01" * 254
heard("11: the last block", f"2862 1111 2222 / 2800 / {FILLING} 2C62", "0000 2862 1111 2222 2800"
      + FILLED, "line A row 1 group 0 first 2C62 second none stage command taken 0 mark 0", "2C62")
heard("11: block 0 follows block 255; what a message does not write stays",
      f"2862 1111 2222 / 2800 / {FILLING} 2C62 / / 2C01 / 2800 /", "0000 2862 1111 2222 2800"
      + FILLED + "; 4402 2C62; 0C00 2C01 2800")
heard("10: the word that supersedes in block 255 opens in block 0",
      f"2862 1111 2222 / 2800 / {FILLING} 2C62 !3C01", "0000 2862 1111 2222 2800" + FILLED
      + "; 4407 2C62", "line A row 3 group 0 first 3C01 second none stage command taken 0 mark 0",
      "3C01")

# ---- 14, our own terminal: station 5, table in block 1 ------------------------------------------
# Two words to send stand in block 2, which table cell 35 (transmit, subaddress 3) names.

OWN_WRITES = write(0x0063, 0x0002) + write(0x0080, 0xAAAA, 0xBBBB)
OWN = setup(5) + OWN_WRITES
OWN_BROADCAST = setup(5, flags=1) + OWN_WRITES
OWN_BUSY = setup(5, flags=2) + OWN_WRITES
OWN_REQUEST = setup(5, flags=4) + OWN_WRITES
OWN_ALL = setup(5, flags=0x3D) + OWN_WRITES
STRAY = "line A row 3 group 0 first 2C00 second none stage awaiting taken 0 mark 0"

TRAY = bytes.fromhex("010003050100 050004 0043 4002 050004 00BF 4003 020007 06 2862 00000028"
                     "020007 0C 1111 0000003C 020007 0C 2222 00000050 030005 00 00000064 040000")
compare("25: document 01's own run", TRAY, ["W 0000 2862 1111 2222 2800", "END 8"],
        ["control 0070", "running 1", "open none"],
        {**links(), 0: 0x2862, 1: 0x1111, 2: 0x2222, 3: 0x2800, 62: 0x0000})

check("14: a transmit, answered behind the silence", OWN, "2C62 /", "0400 2C62 2800 AAAA BBBB")
check("14: on line B", OWN, "B: 2C62 /", "8400 2C62 2800 AAAA BBBB")
check("14: mode commands", OWN, "2C01 / 2C12 / 2811 1234 /",
      "0C00 2C01 2800; 1400 2C12 2800 2C01; 1000 2811 1234 2800")
check("25: a silence behind our reply meets nothing open", OWN, "2C62 / / 3C01 / 3800 /",
      "0400 2C62 2800 AAAA BBBB; 0C00 3C01 3800")
check("14: a transfer to us", OWN, "2862 +3462 / 3000 AAAA BBBB /", f"0800 {AT_2} 2800")
check("14: a transfer from us", OWN, "3062 +2C62 / 3000 /", "0800 3062 2C62 2800 AAAA BBBB 3000")
check("25: a transfer from us, with the silence behind our reply", OWN, "3062 +2C62 / / 3000",
      "4802 3062 2C62 2800 AAAA BBBB",
      "line A row 3 group 0 first 3000 second none stage command taken 0 mark 0", "3000")
check("14: a transfer from us to all", OWN_BROADCAST, "F862 +2C62 /",
      "2800 F862 2C62 2800 AAAA BBBB")
check("14: a transfer between others", OWN, "3062 +3C62 / 3800 AAAA BBBB / 3000 /",
      "0800 3062 3C62 3800 AAAA BBBB 3000")
check("14: to all, we do not reply", OWN_BROADCAST, "F862 1111 2222 / F811 BEEF / FC01 /",
      "2000 F862 1111 2222; 3000 F811 BEEF; 2C00 FC01")
check("22: we are busy", OWN_BUSY, "2C62 / 2862 1111 2222 /",
      "440B 2C62 2808; 0008 2862 1111 2222 2808")
check("22: our status with every flag", OWN_ALL, "2C62 /", "0408 2C62 2905 AAAA BBBB")
check("21: illegal to us", OWN, "2C09 / 2816 1234 /", "4E08 2C09 2C00; 5208 2816 1234 2C00")
check("15: our reply opens where nothing is open", OWN, "2C09 1111 /", "4E04 2C09", STRAY, "2C00")
check("9, 14: a silence closes, our reply behind it opens", OWN, "2816 /", "5203 2816", STRAY,
      "2C00")
check("7.2: our reply where another's status is due", OWN, "2C09 !3462 /", "4E07 2C09; 4405 3462",
      STRAY, "2C00")
check("14: broken, we do not reply", OWN, "2862 ~1111 / 2C02 /", "4001 2862; 0C08 2C02 2C00")
check("14: nor on a line that is shut", OWN, "2C04 / B: 2C01 / /", "0C00 2C04 2800; CC02 2C01")
check("7.6: we drop a broadcast for another count, the monitor sees a misfit", OWN_BROADCAST,
      "F863 +2C62 /", "6907 F863; 4E04 2800")
check("18: complete and superseded, though our terminal calls it broken", OWN_BROADCAST,
      "F862 1111 2222 !2C02 /", "2000 F862 1111 2222; 0C08 2C02 2C10")
check("7, 14: one field closes two: our reply supersedes, its word is too many", OWN,
      "2C62 B: 3462 A: /", "4407 2C62; C407 3462; 4E04 2800")
check("9, 14: one field closes two: its silence, and the silence behind our reply", OWN_REQUEST,
      "2862 B: 3462 A: +1C62 / 1800 AAAA BBBB /",
      "4007 2862; C407 3462; 0400 1C62 1800 AAAA BBBB; 4003 2900")
check("14: our reply as first words of a receive", OWN_REQUEST, "2C62 B: 3462 A: /",
      "4407 2C62; C407 3462; 4003 2900 AAAA BBBB")
check("1: the host's fields are the terminal's alone", OWN, "", "")
check("1: inside a message too",
      OWN + tape("2862 1111") + write(0, 0x1234) + [b"\x04\x00\x00", b"\x06\x00\x01\x07",
                                                    b"\x07\x00\x01\x3F"],
      "=2222 /", "0000 2862 1111 2222 2800")
check("1: stamps are not used", setup() + tape("2C62 /", 0xFFFFFFFF) + tape("2800 AAAA", 5)
      + tape("=BBBB", 0x80000000), "/", "0400 2C62 2800 AAAA BBBB")

# ---- the reader ---------------------------------------------------------------------------------

OPEN = "line A row 0 group 0 first 2862 second none stage command taken 0 mark 0"
check("before the setup: the links", [], "", "")
check("setup alone", setup(), "", "")
check("2: a station above 30", setup(31), "", "", end="! 2 0")
check("9: a word first", [], "2862", "", end="! 9 0")
check("9: a second setup while one is open", setup() + tape("2862") + setup(), "", "", OPEN, "2862",
      end="! 9 16")
check("6: the controller's setup", [b"\x0A\x00\x04\x00\x00\x00\x00"], "", "", end="! 6 0")
check("6: a message closed before stands, one open prints nothing", setup()
      + tape("FC01 / 2862") + [b"\xFF"], "=1111", "2C00 FC01", OPEN, "2862", end="! 6 34")
check("5: a word that is cut is not heard", setup() + tape("2862") + [tape("=1111")[0][:9]], "", "",
      OPEN, "2862", end="! 5 16")
check("7: a silence of another length is not heard", setup() + tape("2862")
      + [b"\x03\x00\x04\x00\x00\x00\x00"], "", "", OPEN, "2862", end="! 7 16")
check("8: spare marks, a command", setup() + tape("2862") + [fields.word(0x16, 0x3C01, 0)], "", "",
      OPEN, "2862", end="! 8 16")
check("8: spare marks, nothing open", setup() + [fields.word(0x86, 0x3C01, 0)], "", "", end="! 8 6")
check("8: line 2", setup() + tape("2862") + [fields.silence(2, 0)], "", "", OPEN, "2862",
      end="! 8 16")
check("8: cells past the end", setup() + tape("2862") + write(16383, 1, 2), "", "", OPEN, "2862",
      end="! 8 16")
check("8: spare flags", setup() + tape("2862") + [b"\x07\x00\x01\x40"], "", "", OPEN, "2862",
      end="! 8 16")

sys.exit(cases.report())
