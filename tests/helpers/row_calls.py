"""Row calls of both runners: the second implementation's answers to them, and cases of the program row_cases with the lines for them.

A case is led by its kind, a byte, and its length, two bytes.
"""

import struct

import net

CARD, CALL, SET, FLATTEN, ROWS = range(5)
MARKING, TRANSFER, DEGREE, PLACES, TRANSITIONS, SIGNALS = range(6)
IDLE = 65535
GUARD = b"\xa5"
LONGEST = 300   # numbers of a call

# How calls are counted in which a transition starts: one with a loop whose weights add to just the capacity; on a version 2 card, one whose
# signal was up before, so that version 1 would move it less, and one that ends in the same row.
FULL_START, FROM_ZERO, ACROSS = "full loop start", "start from zero", "starts and ends"


def led(kind, data):
    return bytes([kind]) + len(data).to_bytes(2, "big") + data


def numbers(*values):
    return struct.pack(f">{len(values)}H", *values)


def line(*words):
    return " ".join(map(str, words)).encode() + b"\n"


def named(row, reply, before, after):
    """How an answer is counted: ok or the refusal's number; for an empty row that is stepped: empty ok, empty start or empty 22."""
    answer = "ok" if reply[0] == "ok" else reply[1]
    if row or answer not in ("ok", 22):
        return answer
    return f"empty {answer}" if before == after else "empty start"


def starts(flat, full, row, reply, before, after):
    """Which of FULL_START, FROM_ZERO and ACROSS a call of the flat runner is, with the transitions that have a full loop."""
    if reply[0] != "ok":
        return []
    degrees = net.new_degrees(row, before.degrees)
    started = net.candidates(flat, before, degrees, *net.claims(flat, before.progress))
    second = started if flat.version == 2 else []
    return [name for name, found in (
        (FULL_START, any(number in full for number in started)),
        (FROM_ZERO, any(before.degrees[flat.transitions[number].signal] > 0 for number in second)),
        (ACROSS, any(after.progress[number] is None for number in second))) if found]


class Lent:
    """A lent state: arrays of the most entries there can be, and how many are in use."""

    def __init__(self, state):
        self.entries = [list(state.markings) + [0] * 255, list(state.progress) + [None] * 255,
                        list(state.degrees) + [0] * 63]
        self.entries = [entries[:most] for entries, most in zip(self.entries, (255, 255, 63))]
        self.counts = [len(state.markings), len(state.progress), len(state.degrees)]

    def used(self):
        """The entries in use, as far as the arrays go."""
        return [entries[:count] for entries, count in zip(self.entries, self.counts)]

    def view(self):
        """As many entries as the counts say, so that a count past an array's end is no card's."""
        return net.State(*(tuple(entries) + (count - len(entries)) * (0,) for entries, count in zip(self.used(), self.counts)))

    def store(self, state):
        for entries, new in zip(self.entries, state):
            entries[:len(new)] = new[:len(entries)]

    def set(self, field, at, value):
        if field >= PLACES:
            self.counts[min(field, SIGNALS) - PLACES] = value
        elif at < len(self.entries[field]):
            low = value % 65536
            self.entries[field][at] = (value, None if low == IDLE else low, low)[field]

    def lines(self, number):
        markings, progress, degrees = self.used()
        progress = ["-" if c is None else c for c in progress]
        return line(number, "ok", *markings, "|", *progress) + line(number, "ok", *degrees, "|")


class Answers:
    """The answers to row calls with one card. The state of a refused one is not looked at."""

    def __init__(self, data):
        self.data = data
        self.flat = net.load_flat(data)
        self.refused = isinstance(self.flat, net.Refusal)
        if not self.refused:
            self.parts = net.load_subnets(data)

    def sized(self, state):
        """Whether a state has the card's counts."""
        return ([len(entries) for entries in state]
                == [len(self.flat.capacities), len(self.flat.transitions), self.flat.signals])

    def flat_call(self, state, row):
        if self.refused:
            return ("refused", self.flat.number, self.flat.bit), state
        if not net.state_valid(self.flat, state):
            return ("refused", 25), state
        return net.row_step(self.flat, state, row)

    def subnet_call(self, state, order, row):
        if self.refused:
            return ("refused", self.flat.number, self.flat.bit), state
        if not self.sized(state):
            return ("refused", 25), state
        own = net.split_state(self.parts, state)
        if not net.subnet_state_valid(self.parts, own):
            return ("refused", 25), state
        reply, after = net.subnet_row_step(self.parts, own, order, row)
        return reply, net.join_state(after)


class Cases(Answers):
    """Cases with one card, and the lines that the program must print."""

    def __init__(self, data):
        super().__init__(data)
        self.sent = [led(CARD, data)]
        self.number = 1
        if self.refused:
            self.lent = [Lent(net.State((), (), ())) for _ in range(2)]
            self.lines = [net.refused_card_line(self.flat)]
        else:
            self.lent = [Lent(net.fresh(self.flat)), Lent(net.join_state(net.fresh_subnets(self.parts)))]
            self.lines = [self.lent[0].lines(0)]

    def call(self, order, row):
        """A row call of both runners; their replies."""
        assert 1 + len(order) + len(row) <= LONGEST
        self.sent.append(led(CALL, numbers(len(order), *order, *row)))
        flat, subnet = self.lent
        answers = [(flat, *self.flat_call(flat.view(), row)), (subnet, *self.subnet_call(subnet.view(), order, row))]
        for lent, reply, after in answers:
            if reply[0] != "ok":
                self.lines.append(line(self.number, "no", *reply[1:]))
            lent.store(after)
            self.lines.append(lent.lines(self.number))
        self.number += 1
        return [reply for _, reply, _ in answers]

    def set(self, field, at, value):
        self.sent.append(led(SET, numbers(field, at, value >> 16, value % 65536)))
        for lent in self.lent:
            lent.set(field, at, value)

    def flatten(self, room):
        self.sent.append(led(FLATTEN, numbers(room)))
        answer, *values = net.flatten_call(self.data, room)
        written = b""
        if answer == "wrote":
            written = values[0]
            self.lines.append(line("flat ok 0", len(written)))
        else:
            self.lines.append(line("flat no", *([24] if answer == "short" else []), *values))
        self.lines.append(written + GUARD * (room - len(written)) + b"\n")

    def rows(self, data):
        self.sent.append(led(ROWS, data))
        self.lines.append(net.run_program(self.data, data))

    def stdin(self):
        return b"".join(self.sent)

    def stdout(self):
        return b"".join(self.lines)
