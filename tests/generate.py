#!/usr/bin/env python3
"""Writes one seeded tray recording to standard output.

    generate.py SEED [--fields N] [--well-formed]

Most of what is written follows the protocol (a message with all its words and
a silence), so that deep states are reached; it is broken at random places. A
share of the recordings holds a malformed field, usually near the end;
--well-formed keeps those out. --fields sets how many fields are written.
"""

import struct

import fields as common
from fields import BROADCAST, COMMAND, JOINED, SOUND, Enough, command_word

MODE_CODES_KNOWN = (0, 1, 2, 3, 4, 5, 6, 7, 8, 16, 17, 18, 19, 20, 21)
MODE_CODES_TAKING = (17, 20, 21)


class Generator(common.Writer):
    def __init__(self, seed, fields, well_formed, sink):
        super().__init__(seed, sink)
        chance = self.random

        # The character of this recording.
        self.is_flood = chance.random() < 0.15     # never reads the queue: overflow
        self.break_rate = chance.choice((0.0, 0.02, 0.05, 0.15, 0.4))
        self.inside_rate = chance.choice((0.0, 0.01, 0.05, 0.15))
        self.layout = chance.choice(("chains", "chains", "chains", "random", "tight", "self", "bare"))
        self.pace = chance.choice(("small", "small", "small", "large", "wild", "still"))
        self.busy_rate = chance.choice((0.0, 0.1, 0.1, 0.5))
        self.queue_rate = 1.0 if self.is_flood else chance.choice((0.0, 0.3, 0.7, 0.9, 1.0))
        self.probe_rate = chance.choice((0.0, 0.1, 0.3))
        self.read_rate = 0.0 if self.is_flood else chance.choice((0.02, 0.1, 0.3))
        self.line_b_rate = chance.choice((0.0, 0.1, 0.5, 0.9))

        self.station = chance.choice((0, 1, 5, 30, chance.randrange(31), chance.randrange(31)))
        self.table = chance.choice((0, 1, 255, chance.randrange(256), chance.randrange(256)))
        self.flags = self.random_flags()
        self.time = chance.choice((0, 40, 0xFFFFFF00, 0xFFFFFFF0, chance.getrandbits(32)))
        self.cell = 1                # table cell of the message under way
        self.malformed = None
        if not well_formed and chance.random() < 0.5:
            self.malformed = chance.choice(MALFORMED)
        if fields is None:
            if self.is_flood:
                fields = chance.randrange(1500, 4000)
            else:
                fields = chance.choice((chance.randrange(1, 60), chance.randrange(60, 500),
                                        chance.randrange(60, 500), chance.randrange(500, 2500),
                                        chance.randrange(500, 5000)))
        self.limit = fields

    # ---- fields ----------------------------------------------------------

    def setup_field(self, station, table, flags):
        return struct.pack(">BHBBB", 1, 3, station, table, flags)

    # ---- the host --------------------------------------------------------

    def random_flags(self):
        chance = self.random
        flags = chance.getrandbits(6) & ~3
        if chance.random() < 0.5:
            flags &= chance.getrandbits(6)
        if chance.random() < 0.8:
            flags |= 1
        if chance.random() < self.busy_rate:
            flags |= 2
        return flags

    def table_word(self, block=None):
        """A table word or link."""
        chance = self.random
        if block is None:
            draw = chance.random()
            if self.layout == "tight":
                block = chance.choice((self.table, 2, 3, self.table))
            elif self.layout == "self" and draw < 0.5:
                block = self.table
            elif draw < 0.06:
                block = self.table
            else:
                block = chance.randrange(256)
        word = block
        if chance.random() < 0.15:
            word |= chance.getrandbits(6) << 8        # bits 13 to 8: two count, modulo 256
        if chance.random() < self.queue_rate:
            word |= 0x4000
        if chance.random() < self.busy_rate * 0.4:
            word |= 0x8000
        return word

    def lay_out(self):
        """Table and chains, as a host would prepare them."""
        chance = self.random
        if self.layout == "bare":
            return
        words = [self.table_word() for _ in range(64)]
        self.put(self.write_field(64 * self.table, words))
        if self.layout == "random":
            for _ in range(chance.randrange(1, 12)):
                words = [chance.getrandbits(16) for _ in range(chance.randrange(1, 65))]
                self.put(self.write_field(chance.randrange(16385 - len(words)), words))
            return
        # Links: short chains, chains that loop, chains that end in zero.
        for _ in range(chance.randrange(2, 40)):
            length = chance.choice((1, 1, 2, 3, 8))
            blocks = [chance.choice(words) & 255 for _ in range(length)]
            for place, block in enumerate(blocks):
                following = blocks[(place + 1) % length]
                if chance.random() < 0.1:
                    following = 0
                self.put(self.write_field(64 * block + 63, [self.table_word(following)]))
        for _ in range(chance.randrange(6)):
            count = chance.choice((1, 2, 32, 64, chance.randrange(1, 65)))
            block = chance.choice(words) & 255
            self.put(self.write_field(64 * block, [chance.getrandbits(16) for _ in range(min(count, 64))]))

    def host_action(self, is_inside=False):
        chance = self.random
        draw = chance.random()
        if draw < 0.25:
            if not self.is_flood or self.count > self.limit * 4 // 5:
                self.put(b"\x04\x00\x00")
        elif draw < 0.6:
            if is_inside and chance.random() < 0.6:
                self.host_write_at_message()
            else:
                self.host_write()
        elif draw < 0.78:
            if chance.random() > 0.4:                  # else the same number again
                self.table = chance.choice((self.table, 0, 1, 255, chance.randrange(256)))
            self.put(struct.pack(">BHB", 6, 1, self.table))
        else:
            self.flags = self.random_flags()
            self.put(struct.pack(">BHB", 7, 1, self.flags))

    def host_write(self):
        chance = self.random
        draw = chance.random()
        if draw < 0.35:                                # a table word
            self.put(self.write_field(64 * self.table + chance.randrange(64), [self.table_word()]))
        elif draw < 0.55:                              # a link
            self.put(self.write_field(64 * chance.randrange(256) + 63, [self.table_word()]))
        elif draw < 0.65:                              # the whole table
            self.put(self.write_field(64 * self.table, [self.table_word() for _ in range(64)]))
        elif draw < 0.72:                              # the last cells
            count = chance.choice((1, 1, 2, 64))
            self.put(self.write_field(16384 - count, [chance.getrandbits(16) for _ in range(count)]))
        else:                                          # data
            count = chance.choice((1, 2, 5, 32, chance.randrange(1, 65)))
            address = min(64 * chance.randrange(256), 16384 - count)
            self.put(self.write_field(address, [chance.getrandbits(16) for _ in range(count)]))

    def host_write_at_message(self):
        """Into the table cell or the block of the message under way, as far as known."""
        chance = self.random
        table_cell = 64 * self.table + self.cell
        block = 64 * (self.shadow[table_cell] & 255)
        draw = chance.random()
        if draw < 0.3:
            self.put(self.write_field(table_cell, [self.table_word()]))
        elif draw < 0.6:
            self.put(self.write_field(block + 63, [self.table_word()]))
        elif draw < 0.8:
            count = chance.choice((1, 2, 32))
            self.put(self.write_field(block, [chance.getrandbits(16) for _ in range(count)]))
        else:
            words = [chance.getrandbits(16) for _ in range(63)] + [self.table_word()]
            self.put(self.write_field(block, words))

    def read_all(self):
        for _ in range(self.random.choice((1, 2, 3, 10, 40, 270))):
            self.put(b"\x04\x00\x00")

    # ---- messages: lists of steps ------------------------------------------
    # A step is (line, marks, value) for a word, (line, None, None) for a silence.

    def strange_address(self):
        address = self.random.randrange(30)
        return address + 1 if address >= self.station else address

    def some_count(self):
        chance = self.random
        return chance.choice((1, 1, 2, 2, 3, 5, 0, 31, chance.randrange(32)))

    def data_subaddress(self):
        chance = self.random
        return chance.choice((1, 2, 3, 30, chance.randrange(26, 30), chance.randrange(1, 31),
                              chance.randrange(1, 31)))

    def data_words(self, line, count):
        bits = self.random.getrandbits
        return [(line, SOUND | JOINED, bits(16)) for _ in range(count or 32)]

    def open_step(self, line, value):
        joined = JOINED if self.random.random() < 0.1 else 0
        return (line, COMMAND | SOUND | joined, value)

    def receive(self, line, address):
        count = self.some_count()
        steps = [self.open_step(line, command_word(address, 0, self.data_subaddress(), count))]
        steps += self.data_words(line, count)
        steps.append((line, None, None))
        return steps

    def transmit(self, line, address):
        value = command_word(address, 1, self.data_subaddress(), self.some_count())
        return [self.open_step(line, value), (line, None, None)]

    def terminal_to_terminal(self, line, address):
        """A receive with a second command; each part is at times the wrong one."""
        chance = self.random
        count = self.some_count()
        answering = self.strange_address()
        second = command_word(answering, 1, self.data_subaddress(), count)
        draw = chance.random()
        if draw < 0.07:
            second = command_word(answering, 1, self.data_subaddress(), count + chance.randrange(1, 32))
        elif draw < 0.10:
            second = command_word(answering, 0, self.data_subaddress(), count)
        elif draw < 0.13:
            second = command_word(answering, 1, chance.choice((0, 31)), count)
        elif draw < 0.16:
            second = command_word(BROADCAST, 1, self.data_subaddress(), count)
        elif draw < (0.40 if address == BROADCAST else 0.22):
            second = command_word(self.station, 1, self.data_subaddress(),
                                  chance.choice((count, chance.randrange(32))))
        elif draw < 0.43:
            second = command_word(self.station, chance.randrange(2), chance.choice((0, 31, 4)), count)
        steps = [self.open_step(line, command_word(address, 0, self.data_subaddress(), count)),
                 (line, COMMAND | SOUND | JOINED, second)]
        draw = chance.random()
        if draw < 0.06:                                # a word before the silence
            steps.append((line, SOUND | JOINED | chance.choice((0, COMMAND)), chance.getrandbits(16)))
        elif draw < 0.09:
            steps.append((line, SOUND | chance.choice((0, COMMAND)), chance.getrandbits(16)))
        steps.append((line, None, None))
        draw = chance.random()
        status = answering << 11 | (chance.getrandbits(11) if chance.random() < 0.3 else 0)
        marks = COMMAND | SOUND | (JOINED if chance.random() < 0.15 else 0)
        if draw < 0.06:
            status = self.strange_address() << 11
        elif draw < 0.10:
            status = command_word(self.station, 1, self.data_subaddress(), count)
            marks |= JOINED                            # own, joined: 5
        elif draw < 0.14:
            marks &= ~COMMAND
            if chance.random() < 0.5:                  # data sync is judged before the address
                status = chance.getrandbits(16)
        elif draw < 0.18:
            steps.append((line, None, None))           # a further silence
        steps.append((line, marks, status))
        if chance.random() < 0.06:                     # a command after the answer
            value = command_word(chance.choice((answering, self.station, 31, self.strange_address())),
                                 1, self.data_subaddress(), count)
            steps.append((line, COMMAND | SOUND | JOINED, value))
        data = self.data_words(line, count)
        if chance.random() < 0.05:
            data.pop()
        steps += data
        steps.append((line, None, None))
        if chance.random() < 0.1:                      # superseded before the data
            del steps[chance.randrange(2, 5):]
            other = line ^ chance.randrange(2)
            joined = JOINED if other != line and chance.random() < 0.4 else 0
            steps.append((other, COMMAND | SOUND | joined, self.own_command()))
            steps.append((other, None, None))
        return steps

    def answering_side(self, line):
        """The other terminal receives, we transmit."""
        count = self.some_count()
        receiver = self.strange_address()
        return [(line, COMMAND | SOUND, command_word(receiver, 0, self.data_subaddress(), count)),
                (line, COMMAND | SOUND | JOINED,
                 command_word(self.station, 1, self.data_subaddress(), count)),
                (line, None, None),
                (line, COMMAND | SOUND, receiver << 11),
                (line, None, None)]

    def strange(self, line):
        """Somebody else's message."""
        chance = self.random
        address = self.strange_address()
        count = self.some_count()
        direction = chance.randrange(2)
        steps = [(line, COMMAND | SOUND, command_word(address, direction, self.data_subaddress(), count))]
        if direction:
            steps += [(line, None, None), (line, COMMAND | SOUND, address << 11)]
            steps += self.data_words(line, count)
        else:
            steps += self.data_words(line, count)
            steps += [(line, None, None), (line, COMMAND | SOUND, address << 11)]
        steps.append((line, None, None))
        return steps

    def mode(self, line, address):
        chance = self.random
        if chance.random() < 0.7:
            code = chance.choice(MODE_CODES_KNOWN)
            direction = 0 if code in MODE_CODES_TAKING else 1
            if chance.random() < 0.1:
                direction ^= 1
        else:
            code = chance.randrange(32)
            direction = chance.randrange(2)
        value = command_word(address, direction, chance.choice((0, 31)), code)
        steps = [self.open_step(line, value)]
        if code >= 16 and not direction:
            steps += self.data_words(line, 1)
            if chance.random() < 0.04:
                steps[-1] = (line, COMMAND | SOUND | JOINED, chance.getrandbits(16))
        if chance.random() < 0.03:
            steps += self.data_words(line, 1)          # one too many, or skipped
        steps.append((line, None, None))
        return steps

    def illegal(self, line):
        """An illegal message and words that nobody judges."""
        chance = self.random
        address = chance.choice((self.station, BROADCAST))
        if address == BROADCAST and chance.random() < 0.5:
            value = command_word(BROADCAST, 1, self.data_subaddress(), self.some_count())
        else:
            value = command_word(address, chance.randrange(2), chance.choice((0, 31)),
                                 chance.choice((9, 12, 15, 22, 25, 31, chance.randrange(32))))
        steps = [self.open_step(line, value)]
        for _ in range(chance.randrange(4)):
            draw = chance.random()
            if draw < 0.3:
                steps.append((line, JOINED, chance.getrandbits(16)))
            elif draw < 0.6:
                steps.append((line, COMMAND | SOUND | JOINED, self.own_command()))
            else:
                steps.append((line, chance.getrandbits(3) << 1, chance.getrandbits(16)))
        steps.append((line, None, None))
        return steps

    def own_command(self):
        chance = self.random
        address = BROADCAST if chance.random() < 0.2 else self.station
        draw = chance.random()
        if draw < 0.5:
            return command_word(address, chance.randrange(2), self.data_subaddress(), self.some_count())
        if draw < 0.7:
            return command_word(address, 1, chance.choice((0, 31)), chance.choice((2, 18)))
        return command_word(address, chance.randrange(2), chance.choice((0, 31)), chance.randrange(32))

    def any_word(self):
        chance = self.random
        draw = chance.random()
        if draw < 0.35:
            return self.own_command()
        if draw < 0.5:
            return command_word(self.strange_address(), 1, self.data_subaddress(), self.some_count())
        return chance.getrandbits(16)

    # ---- breaking a message -------------------------------------------------

    def break_steps(self, steps):
        chance = self.random
        draw = chance.random()
        place = chance.randrange(len(steps))
        line, marks, value = steps[place]
        if draw < 0.14:                                # one flipped mark
            if marks is None:
                steps[place] = (line ^ 1, None, None)
            else:
                flipped = chance.choice((1, COMMAND, SOUND, SOUND, JOINED, JOINED))
                if flipped == 1:
                    steps[place] = (line ^ 1, marks, value)
                else:
                    steps[place] = (line, marks ^ flipped, value)
        elif draw < 0.24:                              # one step missing
            del steps[place]
        elif draw < 0.31:                              # one step twice
            steps.insert(place, steps[place])
        elif draw < 0.38:                              # cut off
            del steps[place + 1:]
        elif draw < 0.42:                              # an own command, joined: not a command here
            steps.insert(place + 1, (line, COMMAND | SOUND | JOINED, self.own_command()))
        elif draw < 0.52:                              # a word in between, same line
            marks = chance.choice((COMMAND | SOUND, COMMAND | SOUND, COMMAND | SOUND | JOINED,
                                   SOUND | JOINED, SOUND, JOINED, 0, chance.getrandbits(3) << 1))
            steps.insert(place + 1, (line, marks, self.any_word()))
        elif draw < 0.66:                              # a word in between, other line
            marks = chance.choice((COMMAND | SOUND, COMMAND | SOUND | JOINED,
                                   SOUND | JOINED, JOINED, chance.getrandbits(3) << 1))
            steps.insert(place + 1, (line ^ 1, marks, self.any_word()))
        elif draw < 0.74:                              # a silence in between
            steps.insert(place + 1, (line ^ chance.randrange(2), None, None))
        elif draw < 0.82:                              # another value
            if marks is not None:
                steps[place] = (line, marks, self.any_word())
        elif draw < 0.90:                              # the rest on the other line
            for later in range(place, len(steps)):
                old_line, old_marks, old_value = steps[later]
                steps[later] = (old_line ^ 1, old_marks, old_value)
        else:                                          # superseded in mid-message
            del steps[place + 1:]
            other = line ^ chance.randrange(2)
            joined = JOINED if other != line and chance.random() < 0.4 else 0
            steps.append((other, COMMAND | SOUND | joined, self.own_command()))
            if chance.random() < 0.6:
                steps.append((other, None, None))

    # ---- the recording -----------------------------------------------------

    def message(self):
        chance = self.random
        line = 1 if chance.random() < self.line_b_rate else 0
        address = BROADCAST if chance.random() < 0.22 else self.station
        draw = chance.random()
        if draw < 0.25:
            steps = self.receive(line, address)
        elif draw < 0.43:
            steps = self.transmit(line, self.station if chance.random() < 0.9 else BROADCAST)
        elif draw < 0.60:
            steps = self.terminal_to_terminal(line, address)
        elif draw < 0.65:
            steps = self.answering_side(line)
        elif draw < 0.90:
            steps = self.mode(line, address)
        elif draw < 0.95:
            steps = self.illegal(line)
        else:
            steps = self.strange(line)
        return steps

    def short_message(self):
        """For floods: few fields to a closing."""
        chance = self.random
        line = 1 if chance.random() < self.line_b_rate else 0
        draw = chance.random()
        if draw < 0.5:
            return self.transmit(line, self.station)
        if draw < 0.8:
            value = command_word(self.station, 0, self.data_subaddress(), 1)
            return [self.open_step(line, value)] + self.data_words(line, 1) + [(line, None, None)]
        return self.mode(line, self.station)

    def emit(self, steps):
        chance = self.random
        if steps and steps[0][1] is not None:
            self.cell = self.cell_of(steps[0][2])
        for line, marks, value in steps:
            if marks is None:
                self.put(self.silence_field(line))
            else:
                self.put(self.word_field(marks | line, value))
            if self.inside_rate and chance.random() < self.inside_rate:
                self.host_action(is_inside=True)
        if steps and steps[0][1] is not None and steps[0][2] >> 11 in (self.station, BROADCAST):
            table_cell = 64 * self.table + self.cell   # the chain has moved on
            self.shadow[table_cell] = self.shadow[64 * (self.shadow[table_cell] & 255) + 63]

    @staticmethod
    def cell_of(command):
        subaddress = command >> 5 & 31
        if subaddress in (0, 31):
            return {16: 32, 19: 63}.get(command & 31, 31)
        return 32 * (command >> 10 & 1) + subaddress

    likely_word = own_command

    def body(self):
        chance = self.random
        self.put(self.setup_field(self.station, self.table, self.flags))
        self.lay_out()
        while True:
            if self.is_flood and chance.random() < 0.8:
                steps = self.short_message()
            else:
                steps = self.message()
            if chance.random() < self.break_rate:
                self.break_steps(steps)
                while steps and chance.random() < 0.2:
                    self.break_steps(steps)
            self.emit(steps)
            if chance.random() < self.probe_rate:      # what is remembered?
                line = 1 if chance.random() < self.line_b_rate else 0
                value = command_word(self.station, 1, chance.choice((0, 31)), chance.choice((2, 18)))
                self.emit([self.open_step(line, value), (line, None, None)])
            draw = chance.random()
            if draw < self.read_rate:
                self.read_all() if chance.random() < 0.1 else self.put(b"\x04\x00\x00")
            elif draw < self.read_rate + 0.08:
                self.host_action()
            elif self.is_flood and self.count > self.limit * 4 // 5 and draw > 0.9:
                self.read_all()

    def emit_unread(self):
        try:
            self.emit(self.message())
        except Enough:
            pass


# ---- malformed fields, beside those of every kind of recording

def unknown_tag(generator, at_end=False):
    if at_end:
        tag = generator.random.choice((0, 8, 9, 0x80, 0xFF, generator.random.randrange(8, 256)))
        if generator.random.random() < 0.4:            # the last byte of all
            generator.out.append(tag)
            generator.emit_unread = lambda: None
        else:
            generator.out += bytes([tag]) + generator.random.choice((b"\x00", b"\x00\x00", b"\x00\x01\x00"))
    return False


def cut_length(generator, at_end=False):
    if at_end:
        generator.out += bytes([generator.random.randrange(1, 8)]) + generator.random.choice((b"", b"\x00", b"\xFF"))
        generator.emit_unread = lambda: None
    return False


def wrong_length(generator, at_end=False):
    if not at_end:
        return False
    chance = generator.random
    tag = chance.randrange(1, 8)
    right = {1: 3, 2: 7, 3: 5, 4: 0, 6: 1, 7: 1}
    if tag == 5:
        length = chance.choice(common.WRONG_WRITE_LENGTHS)
    else:
        length = chance.choice([length for length in (0, 1, 2, 3, 4, 5, 6, 7, 8, 256 + right[tag], 0xFFFF)
                                if length != right[tag]])
    common.unread_wrong_length(generator, tag, length)
    return False


def cut_value(generator, at_end=False):
    if not at_end:
        return False
    chance = generator.random
    field = chance.choice((
        lambda: generator.setup_field(40, 0, 0xFF),
        lambda: generator.word_field(chance.getrandbits(8), chance.getrandbits(16)),
        lambda: generator.silence_field(chance.getrandbits(8)),
        lambda: generator.write_field(chance.getrandbits(16), [chance.getrandbits(16) for _ in range(chance.randrange(1, 65))]),
        lambda: struct.pack(">BHB", 6, 1, 9),
        lambda: struct.pack(">BHB", 7, 1, 0xFF)))()
    generator.out += field[:chance.randrange(3, len(field))]
    generator.emit_unread = lambda: None
    return False


def setup_missing(generator, at_end=False):
    chance = generator.random
    chance.choice((
        lambda: generator.out.extend(generator.word_field(chance.getrandbits(8), chance.getrandbits(16))),
        lambda: generator.out.extend(generator.silence_field(chance.getrandbits(8))),
        lambda: generator.out.extend(b"\x04\x00\x00"),
        lambda: generator.out.extend(generator.write_field(chance.getrandbits(16), [1])),
        lambda: generator.out.extend(struct.pack(">BHB", 6, 1, 9)),
        lambda: generator.out.extend(struct.pack(">BHB", 7, 1, chance.getrandbits(8)))))()
    if chance.random() < 0.5:
        generator.out += generator.setup_field(5, 1, 0)
    return True


def setup_repeated(generator, at_end=False):
    if at_end:
        chance = generator.random
        generator.out += generator.setup_field(chance.choice((generator.station, 31, 255)), generator.table,
                                               chance.choice((0, generator.flags, 64, 255)))
    return False


def setup_unfit(generator, at_end=False):
    chance = generator.random
    station, flags = chance.choice(((31, 0), (31, 0xFF), (32, 0), (255, 63), (chance.randrange(31, 256), 0),
                                    (30, 64), (0, 128), (generator.station, 255)))
    generator.out += generator.setup_field(station, chance.randrange(256), flags)
    if chance.random() < 0.5:
        generator.out += generator.setup_field(5, 1, 0)
    return True


def spare_flags(generator, at_end=False):
    if at_end:
        generator.out += struct.pack(">BHB", 7, 1, generator.random.choice((64, 65, 128, 255)))
    return False


MALFORMED = (unknown_tag, unknown_tag, cut_length, wrong_length, wrong_length, wrong_length, cut_value,
             cut_value, common.cut_anywhere, setup_missing, setup_repeated, setup_unfit, setup_unfit,
             setup_unfit, common.spare_marks, spare_flags, common.line_above_1, common.line_above_1,
             common.cells_past_end, common.nothing_at_all)


def recording(seed, fields=None, well_formed=False):
    """A recording's bytes."""
    return common.recording(Generator, seed, fields, well_formed)


if __name__ == "__main__":
    common.main(Generator, __doc__)
