"""Fields of recordings as bytes, and what the generators of recordings share."""

import argparse
import io
import random
import struct
import sys

LINE_B, COMMAND, SOUND, JOINED = 1, 2, 4, 8        # the marks of a word
BROADCAST = 31
CARD_CELLS = 16384
FLUSH_BYTES = 1 << 20


def word(marks, value, time):
    return struct.pack(">BHBHI", 2, 7, marks, value, time)


def silence(line, time):
    return struct.pack(">BHBI", 3, 5, line, time)


def write(address, words):
    return struct.pack(f">BHH{len(words)}H", 5, 2 + 2 * len(words), address, *words)


def command_word(address, direction, subaddress, low_five):
    return address << 11 | direction << 10 | subaddress << 5 | (low_five & 31)


class Enough(Exception):
    """The wanted number of fields is written."""


class Writer:
    """Writes one seeded recording, field by field. The generator of a kind says what, by `body`,
    `likely_word` and `emit_unread`, and sets `pace`, `time`, `limit` and `malformed`."""

    def __init__(self, seed, sink):
        self.random = random.Random(seed)
        self.sink = sink
        self.out = bytearray()
        self.count = 0
        self.shadow = [0] * CARD_CELLS         # the memory, as far as it is easily known

    def put(self, field):
        if self.count >= self.limit:
            raise Enough
        self.out += field
        self.count += 1
        if len(self.out) >= FLUSH_BYTES:
            self.sink.write(self.out)
            self.out = bytearray()

    def tick(self):
        chance = self.random
        draw = chance.random()
        if self.pace == "still" and draw < 0.9:
            step = 0
        elif self.pace == "wild" and draw < 0.5:
            step = chance.getrandbits(32)
        elif self.pace == "large" and draw < 0.7:
            step = chance.choice((65535, 65536, 65534, 30000, 32768, 70000, chance.getrandbits(20)))
        elif draw < 0.004:
            step = chance.choice((-1, -20, -65535, -65536, 1 << 31, 65535, 65536, 0,
                                  0xFFFFFFFF - self.time, 0x100000000 - self.time))
        else:
            step = 20 if draw < 0.8 else int(draw * 100)
        self.time = (self.time + step) & 0xFFFFFFFF
        return self.time

    def word_field(self, marks, value):
        return word(marks, value, self.tick())

    def silence_field(self, line):
        return silence(line, self.tick())

    def write_field(self, address, words):
        if address + len(words) <= CARD_CELLS:
            self.shadow[address:address + len(words)] = words
        return write(address, words)

    def write(self):
        if self.malformed is not None and self.malformed(self):
            return self.finish()
        try:
            self.body()
        except Enough:
            pass
        if self.malformed is not None:
            self.limit += 10                           # what follows is not looked at
            self.malformed(self, at_end=True)
            if self.random.random() < 0.3:
                self.emit_unread()
        return self.finish()

    def finish(self):
        self.sink.write(self.out)
        self.sink.flush()


# ---- malformed fields: called first at the start (true: the recording is done),
# ---- then, where that was false, at the end

def cut_anywhere(generator, at_end=False):
    if at_end:
        keep = generator.random.randrange(len(generator.out) + 1)
        del generator.out[keep:]
        generator.emit_unread = lambda: None
    return False


def spare_marks(generator, at_end=False):
    if at_end:
        marks = generator.random.choice((16, 32, 64, 128, 255, 16 + COMMAND + SOUND))
        generator.out += generator.word_field(marks, generator.likely_word())
    return False


def line_above_1(generator, at_end=False):
    if at_end:
        generator.out += generator.silence_field(generator.random.choice((2, 3, 128, 255)))
    return False


def cells_past_end(generator, at_end=False):
    if at_end:
        chance = generator.random
        address, count = chance.choice((
            (16383, 2), (16384, 1), (65535, 1), (16321, 64), (65472, 64), (16384 - 5, 6),
            (chance.randrange(16384, 65536), 3)))
        words = [chance.getrandbits(16) for _ in range(count)]
        generator.out += generator.write_field(address, words)
    return False


def nothing_at_all(generator, at_end=False):
    return True


def unread_wrong_length(generator, tag, length):
    """A field of another length than its tag's, its value whole, half or missing."""
    value = bytes(min(length, 200))
    kept = generator.random.choice((len(value), 0, len(value) // 2))
    generator.out += struct.pack(">BH", tag, length) + value[:kept]


WRONG_WRITE_LENGTHS = (0, 1, 2, 3, 5, 7, 129, 131, 132, 133, 256, 0xFFFF)


# ---- a generator's bytes, and its program

def recording(kind, seed, fields=None, well_formed=False):
    """A recording's bytes."""
    sink = io.BytesIO()
    kind(seed, fields, well_formed, sink).write()
    return sink.getvalue()


def main(kind, description):
    parser = argparse.ArgumentParser(description=description.split("\n")[0])
    parser.add_argument("seed", type=int)
    parser.add_argument("--fields", type=int, default=None)
    parser.add_argument("--well-formed", action="store_true")
    arguments = parser.parse_args()
    kind(arguments.seed, arguments.fields, arguments.well_formed, sys.stdout.buffer).write()
