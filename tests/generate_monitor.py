#!/usr/bin/env python3
"""Writes one seeded tray recording for the monitor to standard output: the tape of a whole rack.

    generate_monitor.py SEED [--fields N] [--well-formed]

Between messages to our own station, those of generate.py, stand the others' with all that comes
back: sound ones in each format on both lines, stations that are dead, busy or answer for another,
commands repeated, messages of both lines crossed. They are broken in every stage, at random
places. A share of the recordings holds a malformed field, usually near the end; --well-formed keeps
those out. --fields sets how many fields are written.
"""

import fields as common
import generate
from fields import BROADCAST, COMMAND, JOINED, SOUND, command_word

MODES = {3: range(9), 4: generate.MODE_CODES_TAKING, 5: (16, 18, 19)}      # by row
STAGES = ("command", "second", "awaiting", "reply", "last", "ended")


class Exchange:
    """A message with what comes back: steps as generate.py has them, and for each the stage that a
    monitor is in behind it."""

    def __init__(self, line):
        self.line = line
        self.steps = []
        self.stages = []

    def add(self, stage, marks, value=None):
        self.steps.append((self.line, marks, value))
        self.stages.append(stage)

    def silence(self, stage):
        self.add(stage, None)

    def behind(self, stage):
        """The places behind the steps that lead to this stage or keep it."""
        return [place + 1 for place, found in enumerate(self.stages) if found == stage]


class Generator(generate.Generator):
    def __init__(self, seed, fields, well_formed, sink):
        super().__init__(seed, fields, well_formed, sink)
        chance = self.random
        self.own_rate = chance.choice((0.1, 0.3, 0.6))
        self.fault_rate = chance.choice((0.0, 0.1, 0.3, 0.6))
        self.odd_rate = chance.choice((0.0, 0.1, 0.3))         # retries, crossed lines
        self.mark_rate = chance.choice((0.0, 0.05, 0.3))       # bits in the others' statuses
        self.unended_rate = chance.choice((0.0, 0.0, 0.1, 0.5))    # no silence behind a reply
        self.dead = {chance.randrange(31) for _ in range(chance.choice((0, 1, 3, 12)))}
        # the tape ends inside this stage; where their number is given, after so many fields
        self.last_stage = chance.choice((None, None, *STAGES)) if fields is None else None
        if self.malformed is not None and chance.random() < 0.2:
            self.malformed = common.damaged_byte

    # ---- the others' messages, with what comes back --------------------------

    def status(self, station):
        chance = self.random
        bits = 0
        if chance.random() < self.mark_rate:
            bits = chance.choice((1 << chance.randrange(11), chance.getrandbits(11)))
        joined = JOINED if chance.random() < 0.05 else 0
        return COMMAND | SOUND | joined, station << 11 | bits

    def mode_command(self, row, address):
        """Of the row that K3.4 gives it; at times illegal."""
        chance = self.random
        direction = 0 if row == 4 else 1
        code = chance.choice(MODES[row])
        if chance.random() < 0.15:
            code = chance.randrange(16) if row == 3 else chance.randrange(16, 32)
            direction = chance.randrange(2) if row == 3 else direction
        return command_word(address, direction, chance.choice((0, 31)), code)

    def exchange(self, line, row=None, to_all=None):
        """A message between others, sound to its end."""
        chance = self.random
        if row is None:
            row = chance.choice((0, 0, 1, 1, 2, 2, 3, 4, 5))
        if to_all is None:
            to_all = chance.random() < 0.2
        station = BROADCAST if to_all else self.strange_address()
        sender, count = self.strange_address(), self.some_count()
        while sender == station:
            sender = self.strange_address()
        if row <= 2:
            first = command_word(station, int(row == 1), self.data_subaddress(), count)
        else:
            first = self.mode_command(row, station)
        found = Exchange(line)
        found.add("command", *self.open_step(line, first)[1:])
        if row == 2:
            second = command_word(sender, 1, self.data_subaddress(), count)
            found.add("second", COMMAND | SOUND | JOINED, second)
        elif row in (0, 4):
            self.add_data(found, "command", count if row == 0 else 1)
        self.add_reply(found, row, station, sender, 1 if row == 5 else count)
        return found

    def add_data(self, found, stage, count):
        for _, marks, value in self.data_words(found.line, count):
            found.add(stage, marks, value)

    def add_reply(self, found, row, station, sender, count):
        if station == BROADCAST and row != 2:
            found.silence("closed")
            return
        found.silence("awaiting")
        if (sender if row == 2 else station) in self.dead:
            self.no_answer(found)
            return
        marks, status = self.status(sender if row == 2 else station)
        found.add("reply", marks, status)
        is_busy = status & 8 and self.random.random() < 0.8            # and sends it alone
        if row in (1, 2, 5) and not is_busy:
            self.add_data(found, "reply", count)
        if row != 2 or station == BROADCAST:
            self.end(found)
            return
        found.silence("last")
        if station in self.dead:
            self.no_answer(found)
        else:
            found.add("ended", *self.status(station))
            self.end(found)

    def no_answer(self, found):
        """A further silence, or the next message at once."""
        if self.random.random() < 0.6:
            found.silence("closed")

    def end(self, found):
        """A tape need not hold the silence behind a reply."""
        if self.random.random() >= self.unended_rate:
            found.silence("closed")

    # ---- and what becomes of them ---------------------------------------------

    def any_command(self):
        chance = self.random
        address = chance.choice((self.station, self.strange_address(), self.strange_address(),
                                 BROADCAST))
        if chance.random() < 0.6:
            return command_word(address, chance.randrange(2), self.data_subaddress(),
                                self.some_count())
        return self.mode_command(chance.choice((3, 4, 5)), address)

    def fault_step(self, line):
        """A step that is out of place in nearly every stage."""
        chance = self.random
        if chance.random() < 0.4:
            line ^= 1
        marks = chance.choice((None, COMMAND | SOUND, COMMAND | SOUND, COMMAND | SOUND | JOINED,
                               SOUND, SOUND | JOINED, JOINED, COMMAND, COMMAND | JOINED, 0))
        if marks is None:
            return line, None, None
        value = self.any_command() if marks & COMMAND else chance.getrandbits(16)
        return line, marks, value

    def break_exchange(self, found):
        """In one of its stages, so that each of them is broken often."""
        chance = self.random
        stage = chance.choice(sorted(set(found.stages) - {"closed"}))
        place = chance.choice(found.behind(stage))
        draw = chance.random()
        if draw < 0.6:
            found.steps.insert(place, self.fault_step(found.line))
        elif draw < 0.7:                               # what follows is missing, the silence too
            del found.steps[place:]
        elif draw < 0.8:                               # one step is
            del found.steps[place:place + 1]
        elif draw < 0.9 and stage in ("awaiting", "last"):
            joined = chance.choice((0, 0, JOINED))     # another answers
            found.steps[place:place + 1] = [(found.line, COMMAND | SOUND | joined,
                                             self.strange_address() << 11)]
        else:
            line, marks, value = found.steps[place - 1]
            if marks is not None:                      # another second command, or status
                found.steps[place - 1] = (line, marks, value ^ 1 << chance.randrange(16))

    def repeated(self, line):
        """The command again after one or two silences, then the reply."""
        chance = self.random
        found = self.exchange(line, to_all=False)
        head = found.steps[:found.behind("awaiting")[0]]       # up to its silence
        again = head + [head[-1]] * chance.choice((0, 0, 1))
        return again * chance.choice((1, 1, 2)) + found.steps

    def crossed(self, line):
        """A message to us, whose silence comes while another runs on the other line."""
        chance = self.random
        own = chance.choice((self.transmit, self.transmit, self.receive, self.mode))(
            line, self.station)
        other = self.exchange(line ^ 1)
        stage = chance.choice(sorted(set(other.stages) - {"closed"}))
        place = chance.choice(other.behind(stage))
        return own[:-1] + other.steps[:place] + own[-1:] + other.steps[place:]

    def crossed_transfer(self, line):
        """A transfer to us, of which a monitor sees the second half as another's message."""
        count, sender = self.some_count(), self.strange_address()
        steps = [self.open_step(line, command_word(self.station, 0, self.data_subaddress(), count)),
                 (line ^ 1, COMMAND | SOUND, self.any_command() & 0x07FF | sender << 11),
                 (line, COMMAND | SOUND | JOINED,
                  command_word(sender, 1, self.data_subaddress(), count)),
                 (line, None, None), (line, COMMAND | SOUND, sender << 11)]
        return steps + self.data_words(line, count) + [(line, None, None)]

    def skipped_over(self, line):
        """A command that is illegal for us, and another's behind it without a silence."""
        found = self.exchange(line)
        return self.illegal(line)[:1] + found.steps

    # ---- the recording ----------------------------------------------------------

    def others_message(self):
        chance = self.random
        line = 1 if chance.random() < self.line_b_rate else 0
        if chance.random() < self.odd_rate:
            return chance.choice((self.repeated, self.repeated, self.crossed, self.crossed,
                                  self.crossed_transfer, self.skipped_over))(line)
        found = self.exchange(line)
        if chance.random() < self.fault_rate:
            self.break_exchange(found)
        return found.steps

    def last_message(self):
        """Leaves the recording in the stage that was picked for it."""
        found = self.exchange(self.random.randrange(2), row=2, to_all=False)
        places = found.behind(self.last_stage)
        if places:
            del found.steps[self.random.choice(places):]
        self.limit = self.count + len(found.steps)
        self.inside_rate = 0.0
        self.emit(found.steps)

    def body(self):
        chance = self.random
        self.put(self.setup_field(self.station, self.table, self.flags))
        self.lay_out()
        while self.last_stage is None or self.count < self.limit * 9 // 10:
            is_own = chance.random() < self.own_rate
            steps = self.message() if is_own else self.others_message()
            if chance.random() < self.break_rate:
                self.break_steps(steps)
            self.emit(steps)
            draw = chance.random()
            if draw < self.read_rate:
                self.put(b"\x04\x00\x00")
            elif draw < self.read_rate + 0.08:
                self.host_action()
        self.last_message()


def recording(seed, fields=None, well_formed=False):
    """A recording's bytes."""
    return common.recording(Generator, seed, fields, well_formed)


if __name__ == "__main__":
    common.main(Generator, __doc__)
