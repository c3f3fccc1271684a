#!/usr/bin/env python3
"""Writes one seeded controller recording to standard output: what comes back to the controller.

    generate_controller.py SEED [--fields N] [--well-formed]

The first fault, set status bit or clear go-on bit ends a chain for good: no second setup is taken.
So what is written follows the protocol, a chain of messages with sound replies, up to one message
whose ending the seed picks from ENDINGS, in turn. Between the steps stand words and silences of the
other line, starts of what is open and host writes into the block. A share of the recordings holds a
malformed field at the end; --well-formed keeps those out. --fields sets how many fields are
written.
"""

import struct

import fields as common
from fields import BROADCAST, COMMAND, JOINED, SOUND, command_word

START = b"\x0B\x00\x00"
GO_ON, LINE = 0x10, 0x20                       # bits of the control word
FORMATS = (0, 1, 2, 3, 4, 5, 8, 10, 11, 12)
LACKING = (6, 7, 9, 13, 14, 15)
REPLYING = (0, 1, 2, 3, 4, 5, 10)              # a status comes
SENDING = (1, 2, 5, 10)                        # data come
BETWEEN = (2,)                                 # a last status comes
MODES = (0, 1, 2, 3, 4, 5, 6, 7, 8)
MODES_WITH_WORD = (17, 20, 21)
MODES_FOR_WORD = (16, 18, 19)

# What becomes of the target message: the formats that can have it, and what is done. A fault is
# named by its stage and kind; "open" leaves the recording there, in that stage.
ENDINGS = (
    (FORMATS, ("fault", "given", "unsound")),
    (FORMATS, ("fault", "given", "word")),
    (FORMATS, ("fault", "given", "word")),
    (REPLYING, ("fault", "awaiting", "unsound")),
    (REPLYING, ("fault", "awaiting", "data sync")),
    (REPLYING, ("fault", "awaiting", "address")),
    (REPLYING, ("fault", "awaiting", "address")),
    (REPLYING, ("fault", "awaiting", "silence")),
    (REPLYING, ("fault", "awaiting", "silence")),
    (REPLYING, ("fault", "reply", "unsound")),
    (REPLYING, ("fault", "reply", "not joined")),
    (REPLYING, ("fault", "reply", "too many")),
    (REPLYING, ("fault", "reply", "too many")),
    (SENDING, ("fault", "reply", "silence")),
    (SENDING, ("fault", "reply", "silence")),
    (SENDING, ("fault", "reply", "command sync")),
    (SENDING, ("fault", "reply", "command sync")),
    (BETWEEN, ("fault", "last", "unsound")),
    (BETWEEN, ("fault", "last", "data sync")),
    (BETWEEN, ("fault", "last", "address")),
    (BETWEEN, ("fault", "last", "silence")),
    (BETWEEN, ("fault", "ended", "unsound")),
    (BETWEEN, ("fault", "ended", "not joined")),
    (BETWEEN, ("fault", "ended", "too many")),
    (REPLYING, ("mark", "awaiting")),
    (BETWEEN, ("mark", "last")),
    (BETWEEN, ("mark", "awaiting")),
    (SENDING, ("marked fault",)),
    (FORMATS, ("stop",)),
    (LACKING, ("go on",)),
    (LACKING, ("go on",)),
    (LACKING, ("go on",)),
    (LACKING, ("none left",)),
    (FORMATS, ("none left",)),
    (FORMATS, ("none left",)),
    (FORMATS, ("go on",)),
    (FORMATS, ("open", "given")),
    (REPLYING, ("open", "awaiting")),
    (SENDING, ("open", "reply")),
    (BETWEEN, ("open", "last")),
    (BETWEEN, ("open", "ended")),
)


def setup_field(control, count):
    return struct.pack(">BHHH", 0x0A, 4, control, count)


def count_of(command):
    return command & 31 or 32


class Generator(common.Writer):
    def __init__(self, seed, fields, well_formed, sink):
        super().__init__(seed, sink)
        self.seed = seed
        chance = self.random

        # The character of this recording.
        turn, place = divmod(seed, len(ENDINGS))
        formats, self.ending = ENDINGS[place]
        self.target_code = formats[turn % len(formats)]
        self.layout = chance.choice(("chain", "chain", "chain", "itself", "random"))
        self.pace = chance.choice(("small", "small", "small", "large", "wild", "still"))
        self.time = chance.choice((0, 40, 0xFFFFFF00, chance.getrandbits(32)))
        self.other_line_rate = chance.choice((0.0, 0.02, 0.1, 0.3))
        self.inside_rate = chance.choice((0.0, 0.02, 0.1, 0.3))
        self.start_rate = chance.choice((0.0, 0.02, 0.1))
        self.idle_rate = chance.choice((0.0, 0.1, 0.4))
        self.odd_rate = chance.choice((0.0, 0.1, 0.3))
        self.line_b_rate = chance.choice((0.0, 0.1, 0.5, 0.9))
        self.malformed = None
        if not well_formed and (turn + place) % 2 == 1:
            kinds = MALFORMED_OPEN if self.ending[0] == "open" else MALFORMED
            self.malformed = kinds[(seed // 2 + turn) % len(kinds)]
        if fields is None:
            # the target's turn comes with this field; few recordings are cut off by a limit
            self.ripe = chance.choice((0, 0, chance.randrange(60), chance.randrange(300),
                                       chance.randrange(1500)))
            self.limit = self.ripe + 3000
            self.tail = chance.choice((0, 0, chance.randrange(1, 6), chance.randrange(1, 40)))
        else:
            self.ripe = fields * 4 // 5
            self.limit = self.tail = fields

        # What the controller is known to hold.
        self.control = 0
        self.left = 0
        self.is_due = True
        self.target = 0                        # the block of the target message
        self.blocks = [0]

    # ---- the host: blocks and links ----------------------------------------

    def some_count(self):
        chance = self.random
        return chance.choice((1, 1, 2, 2, 3, 5, 0, 31, chance.randrange(32)))

    def data_subaddress(self):
        return self.random.choice((1, 2, 30, self.random.randrange(1, 31)))

    def some_block(self):
        return self.random.choice((0, 1, 2, 254, 255, self.random.randrange(256),
                                   self.random.randrange(256), self.random.randrange(256)))

    def control_word(self, block, code, goes_on=True):
        chance = self.random
        word = block << 6 | code
        if goes_on:
            word |= GO_ON
        if chance.random() < self.line_b_rate:
            word |= LINE
        if chance.random() < 0.15:
            word |= chance.getrandbits(2) << 14        # bits that are not looked at
        return word

    def commands(self, code):
        """The first two words of a block for this format: commands that fit, at times odd ones."""
        chance = self.random
        row, group = code & 7, code >> 3
        station = BROADCAST if group else chance.randrange(31)
        other = (station + chance.randrange(1, 30)) % 31
        count = self.some_count()
        mode = chance.choice({4: MODES_WITH_WORD, 5: MODES_FOR_WORD}.get(row, MODES))
        if row <= 2:
            first = command_word(station, 1 if row == 1 else 0, self.data_subaddress(), count)
        else:
            first = command_word(station, 0 if row == 4 else 1, chance.choice((0, 31)), mode)
        second = chance.getrandbits(16)
        if row == 2:
            second = command_word(other, 1, self.data_subaddress(), count)
        if chance.random() < self.odd_rate:
            draw = chance.random()
            if draw < 0.3:                             # X and address 31 apart
                first = first & 0x7FF | (chance.randrange(31) if group else BROADCAST) << 11
            elif draw < 0.7:                           # row 2: another count
                second = second & ~31 | self.some_count()
            elif draw < 0.85:
                first = chance.getrandbits(16)
            else:
                second = chance.getrandbits(16)
        return [first, second]

    def write_block(self, block, code, link):
        """Commands and data, as long as the format gives or longer, then the link."""
        chance = self.random
        words = self.commands(code)
        given = 1 + count_of(words[0]) if code & 7 == 0 else 2
        length = chance.choice((given, given, 33, 36, 63))
        words += [chance.getrandbits(16) for _ in range(max(given, length) - 2)]
        if chance.random() < 0.3:
            words = (words + [chance.getrandbits(16) for _ in range(63)])[:63] + [link]
            self.put(self.write_field(64 * block, words))
        else:
            self.put(self.write_field(64 * block, words))
            self.put(self.write_field(64 * block + 63, [link]))

    def lay_out(self):
        """Setup and the chain: it ends in a loop, with the target on it."""
        chance = self.random
        length = 1 if self.layout == "itself" else chance.choice((1, 2, 3, 5, 8))
        blocks = []
        while len(blocks) < length:
            block = self.some_block()
            if block not in blocks:
                blocks.append(block)
        codes = [chance.choice(FORMATS) for _ in blocks]
        back = chance.randrange(length)                # where the loop begins
        place = chance.randrange(back, length)
        self.blocks = blocks
        self.target = blocks[place]
        if self.target_code not in LACKING:
            codes[place] = self.target_code
        self.controls = [self.control_word(block, code) for block, code in zip(blocks, codes)]
        self.control = self.controls[0]
        self.left = chance.choice((65535, 65535, self.limit, chance.randrange(100, 3000)))
        if self.ending[0] == "none left":
            self.left = chance.choice((0, 0, 1, 2, 3, 4, 5))
        if self.left == 0 or (place == 0 and self.ripe == 0):
            self.control = self.target_control(self.control)   # the setup itself names the target
        self.put(setup_field(self.control, self.left))
        if self.layout == "random":
            for _ in range(chance.randrange(1, 5)):
                words = [chance.getrandbits(16) for _ in range(64)]
                self.put(self.write_field(chance.randrange(16321), words))
        for index, block in enumerate(blocks):
            link = self.controls[index + 1 if index + 1 < length else back]
            self.write_block(block, codes[index], link)
        if chance.random() < 0.1:                      # up to the memory's last cell
            count = chance.choice((1, 2, 64))
            self.put(self.write_field(16384 - count, self.shadow[16384 - count:]))

    def target_control(self, control):
        """The control word by which the target message is started."""
        control = control & ~15 | self.target_code
        if self.ending[0] == "stop":
            control &= ~GO_ON
        return control

    def aim(self):
        """Once the time has come, the links that lead to the target lead to its ending; the link of
        the last message that may be started does."""
        if self.ending[0] == "none left" and self.left == 1:
            address = (self.control & 0x3FC0) + 63
            self.put(self.write_field(address, [self.target_control(self.shadow[address])]))
        if self.count < self.ripe or self.ending[0] not in ("stop", "go on"):
            return
        for block in self.blocks:
            link = self.shadow[64 * block + 63]
            if link >> 6 & 255 == self.target and link != self.target_control(link):
                self.put(self.write_field(64 * block + 63, [self.target_control(link)]))

    # ---- what is not of the message ------------------------------------------

    def likely_word(self):
        chance = self.random
        first, second = self.shadow[64 * self.target:64 * self.target + 2]
        statuses = first & 0xF800, second & 0xF800
        return chance.choice((*statuses, first, second, chance.getrandbits(16)))

    def any_marks(self):
        return self.random.choice((COMMAND | SOUND, COMMAND | SOUND | JOINED, SOUND | JOINED, SOUND,
                                   JOINED, 0, self.random.getrandbits(3) << 1))

    def other_line(self, line):
        if self.random.random() < 0.4:
            self.put(self.silence_field(line ^ 1))
        else:
            self.put(self.word_field(self.any_marks() | line ^ 1, self.likely_word()))

    def host_write_inside(self, block):
        """Into the block of the open message."""
        chance = self.random
        start = 64 * block
        draw = chance.random()
        if draw < 0.2:
            words = self.commands(chance.choice(FORMATS))
            self.put(self.write_field(start, words[:chance.choice((1, 2))]))
        elif draw < 0.3:
            self.put(self.write_field(start + 1, [chance.getrandbits(16)]))
        elif draw < 0.6:                               # the chain goes on elsewhere
            self.put(self.write_field(start + 63, [chance.choice(self.controls)]))
        elif draw < 0.85:
            cell = chance.randrange(1, 36)
            words = [chance.getrandbits(16) for _ in range(chance.randrange(1, 37 - cell))]
            self.put(self.write_field(start + cell, words))
        else:
            self.put(self.write_field(64 * chance.choice(self.blocks) + chance.randrange(36, 62),
                                      [chance.getrandbits(16)]))

    def noise(self, line, block):
        """Between two steps of an open message."""
        chance = self.random
        if chance.random() < self.other_line_rate:
            self.other_line(line)
        if chance.random() < self.inside_rate:
            self.host_write_inside(block)
        if chance.random() < self.start_rate:
            self.put(START)

    def idle(self):
        """With nothing open."""
        chance = self.random
        draw = chance.random()
        if draw < 0.35:
            self.put(self.word_field(self.any_marks() | chance.randrange(2), self.likely_word()))
        elif draw < 0.65:
            self.put(self.silence_field(chance.randrange(2)))
        elif draw < 0.8:
            self.put(self.write_field(64 * chance.choice(self.blocks) + chance.randrange(2, 63),
                                      [chance.getrandbits(16)]))
        elif not self.is_due or self.left == 0:
            self.put(START)

    # ---- messages: lists of steps ----------------------------------------------
    # A step is (stage, marks, value) for a word heard in that stage, (stage, None, None) for a
    # silence.

    def status(self, address, bits=0):
        joined = JOINED if self.random.random() < 0.1 else 0
        return COMMAND | SOUND | joined, address << 11 | bits

    def reply_steps(self, code, first, second):
        """What a sound reply brings."""
        row, group = code & 7, code >> 3
        steps = [("given", None, None)]
        if group and row != 2:
            return steps
        wanted = {1: count_of(first), 2: count_of(second), 5: 1}.get(row, 0)
        steps.append(("awaiting", *self.status((second if row == 2 else first) >> 11)))
        steps += [("reply", SOUND | JOINED, self.random.getrandbits(16)) for _ in range(wanted)]
        steps.append(("reply", None, None))
        if row == 2 and not group:
            steps.append(("last", *self.status(first >> 11)))
            steps.append(("ended", None, None))
        return steps

    def set_bits(self, steps, stage):
        """A status of this stage with some bit set; the other status may have one too."""
        chance = self.random
        for place, (found, marks, value) in enumerate(steps):
            if found == stage and marks is not None:
                one, some = 1 << self.seed % 11, chance.randrange(1, 2048)
                bits = chance.choice((one, one, one, some))
                steps[place] = (found, marks, value | bits)
            elif found == "last" and chance.random() < 0.3:
                steps[place] = (found, marks, value | chance.getrandbits(11))

    def wrong_address(self, value):
        chance = self.random
        draw = chance.random()
        first, second = self.shadow[64 * self.target], self.shadow[64 * self.target + 1]
        for likely in (first, second):                 # the other command's
            if draw < 0.5 and likely >> 11 != value >> 11:
                return likely & 0xF800
        return (value ^ 1 << chance.randrange(11, 16)) & (0xFFFF if draw < 0.8 else 0xF800)

    def breaking_step(self, stage, kind, awaited):
        chance = self.random
        joined = chance.choice((0, JOINED))
        if kind == "silence":
            return (stage, None, None)
        if kind == "unsound":
            return (stage, self.any_marks() & ~SOUND, self.likely_word())
        if kind == "word":                             # before the first silence
            return (stage, self.any_marks() | SOUND, self.likely_word())
        if kind == "data sync":
            return (stage, SOUND | joined, chance.choice((awaited, self.wrong_address(awaited))))
        if kind == "address":
            return (stage, COMMAND | SOUND | joined, self.wrong_address(awaited))
        if kind == "not joined":
            return (stage, SOUND | chance.choice((0, 0, COMMAND)), self.likely_word())
        if kind == "too many":
            return (stage, SOUND | JOINED | chance.choice((0, 0, COMMAND)), self.likely_word())
        return (stage, COMMAND | SOUND | JOINED, self.likely_word())     # command sync

    def break_steps(self, steps, stage, kind):
        """One step that breaks the message in this stage, then what is left of it."""
        chance = self.random
        places = [place for place, step in enumerate(steps) if step[0] == stage]
        if not places:
            return
        place = chance.choice(places)
        if kind == "too many":
            place = places[-1]                         # behind all words
        elif kind in ("silence", "command sync") and len(places) > 1:
            place = chance.choice(places[:-1])         # before the last word
        steps.insert(place, self.breaking_step(stage, kind, steps[place][2] or 0))

    def end_steps(self, steps):
        """The target's ending; true where the recording ends inside it."""
        kind, *rest = self.ending
        if kind == "fault":
            self.break_steps(steps, *rest)
        elif kind == "mark":
            self.set_bits(steps, *rest)
        elif kind == "marked fault":
            faults = ("silence", "not joined", "too many", "command sync", "unsound")
            self.set_bits(steps, "awaiting")
            self.break_steps(steps, "reply", self.random.choice(faults))
        elif kind == "open":
            places = [place for place, step in enumerate(steps) if step[0] == rest[0]]
            if places:
                del steps[self.random.choice(places):]
                return True
        return False

    def store(self, block, code, first, second, steps):
        """What the steps leave in the block, as far as they are sound: statuses and data."""
        cell = 1 + count_of(first) if code & 7 == 0 else 2 if code & 7 in (2, 4) else 1
        for _, marks, value in steps:
            if marks is not None:
                self.shadow[64 * block + cell] = value
                cell += 1

    def message(self):
        """Starts what is due and lets it come back; true where the recording ends inside it."""
        chance = self.random
        control, code, block = self.control, self.control & 15, self.control >> 6 & 255
        line = control >> 5 & 1
        self.put(START)
        if self.left == 0 or code in LACKING:          # nothing, or a refusal
            self.is_due = False
            return code in LACKING and self.left > 0
        self.left -= 1
        first, second = self.shadow[64 * block:64 * block + 2]
        steps = self.reply_steps(code, first, second)
        sound = len(steps)
        is_cut = False
        if block == self.target and self.count >= self.ripe:
            is_cut = self.end_steps(steps)
        for _, marks, value in steps:
            self.noise(line, block)
            if marks is None:
                self.put(self.silence_field(line))
            else:
                self.put(self.word_field(marks | line, value))
        if is_cut:
            self.noise(line, block)
            return True
        if len(steps) == sound:
            self.store(block, code, first, second, steps)
        is_marked = any(marks is not None and stage in ("awaiting", "last") and value & 0x7FF
                        for stage, marks, value in steps)
        self.is_due = len(steps) == sound and not is_marked and control & GO_ON != 0
        if self.is_due:
            self.control = self.shadow[64 * block + 63]
        return False

    # ---- the recording -----------------------------------------------------------

    def body(self):
        chance = self.random
        self.lay_out()
        while self.is_due:
            self.aim()
            while chance.random() < self.idle_rate:
                self.idle()
            if self.message():
                return
        while self.tail > 0:
            self.tail -= 1
            self.idle()

    def emit_unread(self):
        self.out += START + self.word_field(COMMAND | SOUND, self.likely_word())
        self.out += self.silence_field(0)


# ---- malformed fields, beside those of every kind of recording

def unknown_tag(generator, at_end=False):
    if at_end:
        chance = generator.random
        trays = chance.choice((1, 4, 6, 7))            # a tag that tray recordings alone have
        tag = chance.choice((trays, trays, 0, 8, 9, 0x0C, 0x12, 0x13, chance.randrange(0x0C, 256)))
        if chance.random() < 0.4:                      # the last byte of all
            generator.out.append(tag)
            generator.emit_unread = lambda: None
        else:
            generator.out += bytes([tag]) + chance.choice((b"\x00", b"\x00\x00", b"\x00\x01\x00"))
    return False


def cut_length(generator, at_end=False):
    if at_end:
        chance = generator.random
        generator.out.append(chance.choice((2, 3, 5, 0x0A, 0x0B)))
        generator.out += chance.choice((b"", b"\x00", b"\xFF"))
        generator.emit_unread = lambda: None
    return False


def wrong_length(generator, at_end=False):
    if at_end:
        chance = generator.random
        right = {2: 7, 3: 5, 0x0A: 4, 0x0B: 0}
        tag = chance.choice((5, *right))
        lengths = (common.WRONG_WRITE_LENGTHS if tag == 5 else
                   [length for length in (0, 1, 2, 3, 4, 5, 6, 7, 8, 256 + right[tag], 0xFFFF)
                    if length != right[tag]])
        common.unread_wrong_length(generator, tag, chance.choice(lengths))
    return False


def cut_value(generator, at_end=False):
    if at_end:
        chance = generator.random
        field = chance.choice((
            lambda: setup_field(chance.getrandbits(16), chance.getrandbits(16)),
            lambda: generator.word_field(chance.getrandbits(8), chance.getrandbits(16)),
            lambda: generator.silence_field(chance.getrandbits(8)),
            lambda: generator.write_field(chance.getrandbits(16), [1] * chance.randrange(1, 65))))()
        generator.out += field[:chance.randrange(3, len(field))]
        generator.emit_unread = lambda: None
    return False


def setup_missing(generator, at_end=False):
    """Something else first, or a setup of another length."""
    chance = generator.random
    length = chance.choice((0, 3, 5, 6, 7))
    generator.out += chance.choice((
        lambda: struct.pack(">BH", 0x0A, length) + bytes(length),
        lambda: generator.word_field(chance.getrandbits(8), chance.getrandbits(16)),
        lambda: generator.silence_field(chance.getrandbits(8)),
        lambda: START,
        lambda: generator.write_field(chance.getrandbits(16), [1])))()
    if chance.random() < 0.5:
        generator.out += setup_field(0, 1)
    return True


def setup_repeated(generator, at_end=False):
    if at_end:
        chance = generator.random
        generator.out += setup_field(chance.choice((generator.control, chance.getrandbits(16))),
                                     chance.choice((0, 1, 65535)))
    return False


def damaged_byte(generator, at_end=False):
    if at_end and generator.out:
        place = generator.random.randrange(len(generator.out))
        generator.out[place] ^= 1 << generator.random.randrange(8)
    return False


# In turn, by the seed; the first ones where the ending leaves a message open.
MALFORMED_OPEN = (common.spare_marks, common.line_above_1, common.cells_past_end, unknown_tag,
                  setup_repeated)
MALFORMED = (unknown_tag, unknown_tag, cut_length, wrong_length, wrong_length, wrong_length,
             cut_value, cut_value, common.cut_anywhere, setup_missing, setup_missing,
             setup_repeated, damaged_byte, damaged_byte, common.spare_marks, common.spare_marks,
             common.line_above_1, common.line_above_1, common.cells_past_end,
             common.nothing_at_all)


def recording(seed, fields=None, well_formed=False):
    """A recording's bytes."""
    return common.recording(Generator, seed, fields, well_formed)


if __name__ == "__main__":
    common.main(Generator, __doc__)
