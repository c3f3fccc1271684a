#!/usr/bin/env python3
"""share/watch.awk, which shows the monitor's lines for people, line by line: lines made by hand for
every row, fault code, bit and kind, then counts and ends. With each awk that is there. Its names of
mode codes and failures are held against docs/GUIDE.md. Needs no compiled program. Leaves 1 on a
difference."""

import os
import re
import shutil
import subprocess
import sys

import programs

SCRIPT = programs.ROOT / "share" / "watch.awk"
GUIDE = (programs.ROOT / "docs" / "GUIDE.md").read_text()
AWKS = (["awk"], ["mawk"], ["gawk", "--posix"], ["original-awk"], ["busybox", "awk"])

HEAD = "message bus         what                     words outcome        data"
WORDS = " ".join(f"{word:04X}" for word in range(0xD001, 0xD021))       # 32 of them
LONG = "override selected transmitter shutdown"

# the monitor's line without its W; under it mark, bus, what, words, outcome and data
MESSAGES = f"""
# sound, row by row, to one and to all, on either line
0000 2823 C101 C102 C103 2800
    |A to 5|subaddress 1|3 of 3|sound|C101 C102 C103
8000 2823 C101 C102 C103 2800
    |B to 5|subaddress 1|3 of 3|sound|C101 C102 C103
0000 F3C1 1111 F000
    |A to 30|subaddress 30|1 of 1|sound|1111
0000 0020 {WORDS} 0000
    |A to 0|subaddress 1|32 of 32|sound|D001 D002 D003
2000 F862 1111 2222
    |A to all|subaddress 3|2 of 2|sound|1111 2222
0400 2C62 2800 AAAA BBBB
    |A from 5|subaddress 3|2 of 2|sound|AAAA BBBB
8400 2C60 2800 {WORDS}
    |B from 5|subaddress 3|32 of 32|sound|D001 D002 D003
0800 2862 3482 3000 AAAA BBBB 2800
    |A 6 to 5|subaddress 4 to 3|2 of 2|sound|AAAA BBBB
8800 F3C2 EFC2 E800 AAAA BBBB F000
    |B 29 to 30|subaddress 30 to 30|2 of 2|sound|AAAA BBBB
2800 F862 3482 3000 AAAA BBBB
    |A 6 to all|subaddress 4 to 3|2 of 2|sound|AAAA BBBB
0C00 2C01 2800
    |A to 5|synchronize||sound|
0C00 2FE1 2800
    |A to 5|synchronize||sound|
2C00 FC07
    |A to all|override inhibit terminal flag||sound|
1000 2811 BEEF 2800
    |A to 5|synchronize with data word|1 of 1|sound|BEEF
3000 F815 BEEF
    |A to all|{LONG}|1 of 1|sound|BEEF
1400 2C10 2800 BEEF
    |A from 5|transmit vector word|1 of 1|sound|BEEF
9400 2C12 2800 2823
    |B from 5|transmit last command|1 of 1|sound|2823
# 1
4001 2862
    !!|A to 5|subaddress 3|0 of 2|UNSOUND WORD|
4001 2862 1111
    !!|A to 5|subaddress 3|1 of 2|UNSOUND WORD|1111
C001 2862 1111 2222
    !!|B to 5|subaddress 3|2 of 2|UNSOUND WORD|1111 2222
6001 F862 1111
    !!|A to all|subaddress 3|1 of 2|UNSOUND WORD|1111
4401 2C62 2800 AAAA
    !!|A from 5|subaddress 3|1 of 2|UNSOUND WORD|AAAA
4801 2862 3462
    !!|A 6 to 5|subaddress 3 to 3|0 of 2|UNSOUND WORD|
4C01 2C01
    !!|A to 5|synchronize||UNSOUND WORD|
5001 2811
    !!|A to 5|synchronize with data word|0 of 1|UNSOUND WORD|
5401 2C10 2800
    !!|A from 5|transmit vector word|0 of 1|UNSOUND WORD|
# 2
4002 2862 1111 2222
    !!|A to 5|subaddress 3|2 of 2|NO ANSWER|1111 2222
4402 2C62
    !!|A from 5|subaddress 3|0 of 2|NO ANSWER|
4802 2862 3462
    !!|A 6 to 5|subaddress 3 to 3|0 of 2|NO ANSWER FROM 6|
4802 2862 3462 3000 AAAA BBBB
    !!|A 6 to 5|subaddress 3 to 3|2 of 2|NO ANSWER FROM 5|AAAA BBBB
6802 F862 3462
    !!|A 6 to all|subaddress 3 to 3|0 of 2|NO ANSWER FROM 6|
4C02 2C01
    !!|A to 5|synchronize||NO ANSWER|
5002 2811 BEEF
    !!|A to 5|synchronize with data word|1 of 1|NO ANSWER|BEEF
5402 2C10
    !!|A from 5|transmit vector word|0 of 1|NO ANSWER|
# 3
4003 2862
    !!|A to 5|subaddress 3|0 of 2|WORDS MISSING|
4003 2823 C301
    !!|A to 5|subaddress 1|1 of 3|WORDS MISSING|C301
4003 2862 1111 2222
    !!|A to 5|subaddress 3|2 of 2|WORD AFTER A GAP|1111 2222
6003 F862 1111
    !!|A to all|subaddress 3|1 of 2|WORDS MISSING|1111
4403 2C62 2800
    !!|A from 5|subaddress 3|0 of 2|WORDS MISSING|
4403 2C62 2800 AAAA BBBB
    !!|A from 5|subaddress 3|2 of 2|WORD AFTER A GAP|AAAA BBBB
4803 2862 3462 3000 AAAA
    !!|A 6 to 5|subaddress 3 to 3|1 of 2|WORDS MISSING|AAAA
4803 2862 3462 3000 AAAA BBBB 2800
    !!|A 6 to 5|subaddress 3 to 3|2 of 2|WORD AFTER A GAP|AAAA BBBB
4C03 2C01 2800
    !!|A to 5|synchronize||WORD AFTER A GAP|
7003 F811
    !!|A to all|synchronize with data word|0 of 1|WORDS MISSING|
5403 2C10 2800
    !!|A from 5|transmit vector word|0 of 1|WORDS MISSING|
# 4
4004 2862 1111 2222
    !!|A to 5|subaddress 3|2 of 2|WORD TOO MANY|1111 2222
4004 2862 1111 2222 2800
    !!|A to 5|subaddress 3|2 of 2|WORD TOO MANY|1111 2222
6004 F862 1111 2222
    !!|A to all|subaddress 3|2 of 2|WORD TOO MANY|1111 2222
4404 2C62
    !!|A from 5|subaddress 3|0 of 2|WORD TOO MANY|
4404 2C62 2800 AAAA BBBB
    !!|A from 5|subaddress 3|2 of 2|WORD TOO MANY|AAAA BBBB
4804 2862 3462 3000 AAAA BBBB 2800
    !!|A 6 to 5|subaddress 3 to 3|2 of 2|WORD TOO MANY|AAAA BBBB
4C04 2C01
    !!|A to 5|synchronize||WORD TOO MANY|
5004 2811 BEEF
    !!|A to 5|synchronize with data word|1 of 1|WORD TOO MANY|BEEF
5404 2C10 2800 BEEF
    !!|A from 5|transmit vector word|1 of 1|WORD TOO MANY|BEEF
# 5
4005 2862 1111 2222
    !!|A to 5|subaddress 3|2 of 2|OTHER STATION ANSWERED|1111
4405 2C62
    !!|A from 5|subaddress 3|0 of 2|OTHER STATION ANSWERED|
4805 2862 3462
    !!|A 6 to 5|subaddress 3 to 3|0 of 2|OTHER STATION ANSWERED|
4805 2862 3462 3000 AAAA BBBB
    !!|A 6 to 5|subaddress 3 to 3|2 of 2|OTHER STATION ANSWERED|AAAA
4C05 2C01
    !!|A to 5|synchronize||OTHER STATION ANSWERED|
5005 2811 BEEF
    !!|A to 5|synchronize with data word|1 of 1|OTHER STATION ANSWERED|BEEF
5405 2C10
    !!|A from 5|transmit vector word|0 of 1|OTHER STATION ANSWERED|
# 6: a status was due, or data were
4006 2862 1111 2222
    !!|A to 5|subaddress 3|2 of 2|DATA INSTEAD OF STATUS|1111
4006 2862 1111
    !!|A to 5|subaddress 3|1 of 2|COMMAND AMONG DATA|1111
4406 2C62
    !!|A from 5|subaddress 3|0 of 2|DATA INSTEAD OF STATUS|
4406 2C62 2800
    !!|A from 5|subaddress 3|0 of 2|COMMAND AMONG DATA|
4406 2C62 2800 AAAA
    !!|A from 5|subaddress 3|1 of 2|COMMAND AMONG DATA|AAAA
4806 2862 3462
    !!|A 6 to 5|subaddress 3 to 3|0 of 2|DATA INSTEAD OF STATUS|
4806 2862 3462 3000
    !!|A 6 to 5|subaddress 3 to 3|0 of 2|COMMAND AMONG DATA|
4806 2862 3462 3000 AAAA BBBB
    !!|A 6 to 5|subaddress 3 to 3|2 of 2|DATA INSTEAD OF STATUS|AAAA
6806 F862 3462 3000 AAAA
    !!|A 6 to all|subaddress 3 to 3|1 of 2|COMMAND AMONG DATA|AAAA
4C06 2C01
    !!|A to 5|synchronize||DATA INSTEAD OF STATUS|
5006 2811 BEEF
    !!|A to 5|synchronize with data word|1 of 1|DATA INSTEAD OF STATUS|BEEF
5006 2811
    !!|A to 5|synchronize with data word|0 of 1|COMMAND AMONG DATA|
5406 2C10
    !!|A from 5|transmit vector word|0 of 1|DATA INSTEAD OF STATUS|
5406 2C10 2800
    !!|A from 5|transmit vector word|0 of 1|COMMAND AMONG DATA|
# 7, and bit 8
4007 2862 1111
    !!|A to 5|subaddress 3|1 of 2|BROKEN OFF|1111
4007 2862 1111 2222
    !!|A to 5|subaddress 3|2 of 2|BROKEN OFF|1111 2222
6007 F862 1111
    !!|A to all|subaddress 3|1 of 2|BROKEN OFF|1111
4407 2C62 2800 AAAA
    !!|A from 5|subaddress 3|1 of 2|BROKEN OFF|AAAA
4807 2862 3462
    !!|A 6 to 5|subaddress 3 to 3|0 of 2|BROKEN OFF|
4C07 2C01
    !!|A to 5|synchronize||BROKEN OFF|
5007 2811 BEEF
    !!|A to 5|synchronize with data word|1 of 1|BROKEN OFF|BEEF
5407 2C10 2800
    !!|A from 5|transmit vector word|0 of 1|BROKEN OFF|
4907 2862
    !!|A ? to 5|subaddress 3|0 of 2|SECOND COMMAND DOES NOT FIT|
E907 F862
    !!|B ? to all|subaddress 3|0 of 2|SECOND COMMAND DOES NOT FIT|
# bit 9, alone and with more; a command that may be a status
4E00 2C09 2800
    !!|A to 5|reserved mode code 9||ILLEGAL COMMAND|
5600 2C1F 2800 1234
    !!|A from 5|reserved mode code 31|1 of 1|ILLEGAL COMMAND|1234
4600 FC62
    !!|A from all|subaddress 3|0 of 2|ILLEGAL COMMAND|
6E00 FC00
    !!|A to all|dynamic bus control||ILLEGAL COMMAND|
5600 FC10
    !!|A from all|transmit vector word|0 of 1|ILLEGAL COMMAND|
7200 F810 1234
    !!|A to all|transmit vector word|1 of 1|ILLEGAL COMMAND|1234
4E08 2C09 2C00
    !!|A to 5|reserved mode code 9||ILLEGAL, MESSAGE ERROR|
5208 2816 1234 2C00
    !!|A to 5|reserved mode code 22|1 of 1|ILLEGAL, MESSAGE ERROR|1234
4E08 2802 2C00
    !!|A to 5|transmit status word||ILLEGAL, MESSAGE ERROR|
4E08 2C09 2900
    !!|A to 5|reserved mode code 9||ILLEGAL COMMAND, service request|
4E02 3800
    !!|A to 7|dynamic bus control, or status||ILLEGAL, NO ANSWER|
4E04 2800
    !!|A to 5|dynamic bus control, or status||ILLEGAL, WORD TOO MANY|
4E00 2800 2800
    !!|A to 5|dynamic bus control, or status||ILLEGAL COMMAND|
# the mark: each bit of a status, where data move and in a mode command
0008 2861 1111 2C00
    !!|A to 5|subaddress 3|1 of 1|MESSAGE ERROR|1111
0008 2861 1111 2A00
    *|A to 5|subaddress 3|1 of 1|sound, instrumentation|1111
0008 2861 1111 2900
    *|A to 5|subaddress 3|1 of 1|sound, service request|1111
0008 2861 1111 2880
    *|A to 5|subaddress 3|1 of 1|sound, reserved bit 7|1111
0008 2861 1111 2840
    *|A to 5|subaddress 3|1 of 1|sound, reserved bit 6|1111
0008 2861 1111 2820
    *|A to 5|subaddress 3|1 of 1|sound, reserved bit 5|1111
0008 2861 1111 2810
    *|A to 5|subaddress 3|1 of 1|sound, broadcast received|1111
0008 2861 1111 2808
    !!|A to 5|subaddress 3|1 of 1|BUSY|1111
0008 2861 1111 2804
    *|A to 5|subaddress 3|1 of 1|sound, subsystem flag|1111
0008 2861 1111 2802
    *|A to 5|subaddress 3|1 of 1|sound, bus control accepted|1111
0008 2861 1111 2801
    *|A to 5|subaddress 3|1 of 1|sound, terminal flag|1111
0008 2861 1111 2C0D
    !!|A to 5|subaddress 3|1 of 1|MESSAGE ERROR, BUSY, subsystem flag, terminal flag|1111
0408 2C62 2808 AAAA BBBB
    !!|A from 5|subaddress 3|2 of 2|BUSY|AAAA BBBB
440B 2C62 2808
    !!|A from 5|subaddress 3|0 of 2|WORDS MISSING, BUSY|
440B 2C62 2C00
    !!|A from 5|subaddress 3|0 of 2|WORDS MISSING, MESSAGE ERROR|
440B 2C62 2801 AAAA
    !!|A from 5|subaddress 3|1 of 2|WORDS MISSING, terminal flag|AAAA
0C08 2C01 2808
    *|A to 5|synchronize||sound, busy|
0C08 2C00 2802
    *|A to 5|dynamic bus control||sound, bus control accepted|
1008 2811 BEEF 2808
    *|A to 5|synchronize with data word|1 of 1|sound, busy|BEEF
1408 2C10 2C08 BEEF
    !!|A from 5|transmit vector word|1 of 1|MESSAGE ERROR, busy|BEEF
# .. in a transfer, whose
0808 2862 3462 3100 AAAA BBBB 2801
    *|A 6 to 5|subaddress 3 to 3|2 of 2|sound, service request at 6, terminal flag at 5|AAAA
0808 2862 3462 3000 AAAA BBBB 2808
    !!|A 6 to 5|subaddress 3 to 3|2 of 2|BUSY AT 5|AAAA BBBB
480B 2862 3462 3008
    !!|A 6 to 5|subaddress 3 to 3|0 of 2|WORDS MISSING, BUSY AT 6|
480D 2862 3462 3001 AAAA BBBB
    !!|A 6 to 5|subaddress 3 to 3|2 of 2|OTHER STATION ANSWERED, terminal flag at 6|AAAA
2808 F862 3462 3400 AAAA BBBB
    !!|A 6 to all|subaddress 3 to 3|2 of 2|MESSAGE ERROR AT 6|AAAA BBBB
# .. of codes 2 and 18, which bring an earlier one
0C08 2C02 2C00
    *|A to 5|transmit status word||sound, earlier message error|
1408 2C12 2C08 2862
    *|A from 5|transmit last command|1 of 1|sound, earlier message error, earlier busy|2862
# .. that is the command over again
400C 2862 1111 2222 2862
    !!|A to 5|subaddress 3|2 of 2|WORD TOO MANY, COMMAND AS STATUS|1111
440B 2C62 2C62
    !!|A from 5|subaddress 3|0 of 2|WORDS MISSING, COMMAND AS STATUS|
0C08 2C01 2C01
    !!|A to 5|synchronize||COMMAND AS STATUS|
480B 2862 3462 3462
    !!|A 6 to 5|subaddress 3 to 3|0 of 2|WORDS MISSING, COMMAND AS STATUS AT 6|
0808 2862 3462 3000 AAAA BBBB 2862
    !!|A 6 to 5|subaddress 3 to 3|2 of 2|COMMAND AS STATUS AT 5|AAAA
"""

# the monitor's lines, and what is shown behind the messages: the count, and how the run ended
NOTHING = "0 messages: 0 sound, 0 failed"
SOUND, SHORT, QUIET = "W 2C00 FC01", "W 4003 2862", "W 0C08 2C01 2900"
ENDS = (
    (["END 0"], [NOTHING, "END of the recording: 0 fields taken"]),
    (["END 1"], [NOTHING, "END of the recording: 1 field taken"]),
    (["END 18446744073709551615"],
     [NOTHING, "END of the recording: 18446744073709551615 fields taken"]),
    ([SOUND, "END 3"], ["1 message: 1 sound, 0 failed", "END of the recording: 3 fields taken"]),
    ([QUIET, SOUND, "END 5"],
     ["2 messages: 2 sound (1 with a remark), 0 failed", "END of the recording: 5 fields taken"]),
    ([SHORT, SOUND, QUIET, SHORT, "W 4E02 3800", "W 4402 2C62", "END 9"],
     ["6 messages: 2 sound (1 with a remark), 4 failed", "      2 words missing",
      "      1 no answer", "      1 illegal command", "END of the recording: 9 fields taken"]),
    ([SOUND, "! 4 6"],
     ["1 message: 1 sound, 0 failed", "! REFUSED at byte 6, number 4",
      "  its bytes: od -A d -t x1 -j 6 FILE; nothing from there on was looked at"]),
)

# refusals, and the two lines that say what is wrong and where to look
REFUSALS = {
    "! 2 0": ("a station above 30", "the first value byte of the setup; 31 is for all stations"),
    "! 5 71": ("it ends inside a field", "the copy: is it as long as its source?"),
    "! 6 0": ("a tag that is none of 01 to 07",
              "what it is: text that ./tray bytes has to turn? A controller's recording?"),
    "! 6 34": ("a tag that is none of 01 to 07",
               "the length of the field before, where that is a host write"),
    "! 7 24": ("a length that is not the tag's", "the two bytes behind the tag, high byte first"),
    "! 8 16": ("spare bits, a line above 1, or a write past cell 3FFF",
               "the value's first byte; in a setup the third; in a write address and length"),
    "! 9 6": ("a setup that is not the first field, or a first field that is no setup",
              "its two ends: is it two recordings put together, or one without its beginning?"),
}

# lines that stop before their end, or are none of the monitor's: how many messages are shown, and
# neither count nor end
BROKEN = (([], 0), ([SOUND], 1), ([SHORT, SOUND], 2), ([SOUND, "W 0000"], 1),
          ([SOUND, "W 2C00 FC0"], 1), ([SOUND, "W 2C00 fc01"], 1), ([SOUND, "S 2800"], 1),
          ([SOUND, ""], 1), ([SOUND, "END"], 1), ([SOUND, "! 6"], 1))


def shown(number, mark, bus, what, words, outcome, data):
    """A message's line, column by column. A long name of a mode code takes the words' column, or
    pushes them to the right."""
    name = f"{what:21} {words:>8}" if len(what) <= 21 else f"{what} {words}".rstrip()
    return f"{mark:2}{number:5} {bus:11} {f'{name:30} {outcome}':45} {data}".rstrip()


def show(awk, lines):
    """Exit status and lines."""
    done = subprocess.run([*awk, "-f", str(SCRIPT)], input="".join(line + "\n" for line in lines),
                          text=True, stdout=subprocess.PIPE, stderr=subprocess.STDOUT,
                          env=dict(os.environ, LC_ALL="C"))
    return done.returncode, done.stdout.splitlines()


# ---- one check each: what went wrong

def messages(awk):
    given = re.findall(r"^(\w.*)\n    (.*)$", MESSAGES, re.M)
    wanted = [shown(number, *columns.split("|")) for number, (_, columns) in enumerate(given, 1)]
    status, lines = show(awk, [f"W {words}" for words, _ in given] + ["END 7"])
    if status != 0 or lines[:1] != [HEAD]:
        yield f"left {status}, head {lines[:1]}"
    for (words, _), line, found in zip(given, wanted, lines[1:]):
        if line != found:
            yield f"W {words}\n    wanted {line}\n    found  {found}"
    failed = sum(columns.startswith("!!") for _, columns in given)
    kinds = sum(int(line.split()[0]) for line in lines[len(given) + 2:-1])
    if f"{len(given)} messages:" not in lines[len(given) + 1] or kinds != failed:
        yield f"{failed} failed, counted are {kinds}"


def modes(awk):
    """Every mode code by the guide's name."""
    table = GUIDE.split("## Mode commands\n")[1].split("\n## ")[0]
    rows = re.findall(r"^\| (\d+) \| ([^|]*) \| (\w{4}) \| (\w+) \|", table, re.M)
    lines = {"none": "W 0C00 {} 2800", "taken": "W 1000 {} 1234 2800",
             "sent": "W 1400 {} 2800 1234"}
    _, found = show(awk, [lines[word].format(command) for _, _, command, word in rows] + ["END 7"])
    if len(rows) != 15:
        yield f"{len(rows)} mode codes in the guide"
    for (code, name, _, _), line in zip(rows, found[1:]):
        if not re.search(rf" 5 +{name} ", line):
            yield f"mode code {code}: {line}"


def ends(awk):
    for lines, wanted in ENDS:
        status, found = show(awk, lines)
        if status != 0 or found[-len(wanted):] != wanted:
            yield f"{lines}: left {status} {found}"
    for line, (wrong, look_at) in REFUSALS.items():
        _, number, offset = line.split()
        status, found = show(awk, [line])
        if status != 0 or found[:3] != [NOTHING, f"! REFUSED at byte {offset}, number {number}: "
                                        + wrong, f"  look at {look_at}"] or len(found) != 4:
            yield f"{line}: left {status} {found}"


def breaks(awk):
    for lines, count in BROKEN:
        status, found = show(awk, lines)
        if status != 1 or len(found) != (count and count + 1):
            yield f"{lines}: left {status} {found}"
    status, _ = show(awk, [SOUND, "END 3", SOUND])
    if status != 1:
        yield f"a line behind the end: left {status}"


def guide():
    """Every kind of failure stands in the guide."""
    chapter = GUIDE.split("## Who got what\n")[-1].split("\n## ")[0]
    kinds = re.search(r"kinds = split\((.*?), kind", SCRIPT.read_text(), re.S)[1]
    kinds = "".join(re.findall(r'"(.*?)"', kinds)).split(",")
    for kind in kinds:
        if kind.upper() not in chapter:
            yield f"the guide has no {kind}"
    if len(kinds) != 14:
        yield f"{len(kinds)} kinds"


def main():
    failures = list(guide())
    tried = [awk for awk in AWKS if shutil.which(awk[0])]
    for awk in tried:
        for check in (messages, modes, ends, breaks):
            failures += [f"{' '.join(awk)}, {check.__name__}: {wrong}" for wrong in check(awk)]
    for failure in failures:
        print(f"FAILED {failure}")
    print(f"watch: {len(failures)} differences, by {len(tried)} awks")
    return 1 if failures or not tried else 0


if __name__ == "__main__":
    sys.exit(main())
