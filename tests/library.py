#!/usr/bin/env python3
"""The library beside the second implementation: each refusal of each function, lent buffers of many lengths, and random cards with rows, states
and visiting orders; then the Rust program that calls it, and the example for users. Needs gcc and rustc.

    library.py [SEED]

The seed is printed. The environment variable LIBRARY may name an archive to be tested in place of the one that tools/build makes.
"""

import collections
import itertools
import os
import pathlib
import random
import re
import struct
import subprocess
import sys
import tempfile
from typing import NamedTuple

from paths import root

import cards
import hierarchies
import make_card_cases
import make_examples
import make_row_cases
import net
import random_input
import report
import row_calls
import samples
from cards import DRAW, FILL

folder = root / "target" / "library"
CARDS = 3000
ROWS_A_CARD = 16
BATCH = 4000        # calls
SHOWN = 10          # differences
SECONDS = 120       # for a batch, so that a call without end is seen

NAMES = ("net_check", "net_flatten", "net_write", "net_fresh", "net_flat_row", "net_subnet_row")
CHECK, FLATTEN, WRITE, FRESH, FLAT_ROW, SUBNET_ROW = range(6)

# What each function can refuse. A card that is written ends with its last field and zeros, so that it is never 1 or 9.
CARD_REFUSALS = {*net.PASS_ONE, *net.PASS_TWO}
REFUSALS = {
    CHECK: CARD_REFUSALS,
    FLATTEN: CARD_REFUSALS | {24},
    WRITE: CARD_REFUSALS - {1, 9} | {17, 24},
    FRESH: CARD_REFUSALS | {25},
    FLAT_ROW: CARD_REFUSALS | {20, 21, 22, 25},
    SUBNET_ROW: CARD_REFUSALS | {20, 21, 22, 23, 25},
}
EACH = 3            # calls for each of them, at least

BENCH = cards.encode(samples.bench_card())
ROBOT = cards.encode(make_examples.robot())
# Two takers of one token, and the same with a loop above the capacity.
TAKERS = cards.encode(make_row_cases.TAKERS)
LOOP = cards.encode(cards.change(make_row_cases.TAKERS, "arcs", 1, place=0))
# A full card of 32 subnets.
FULL = samples.full_card((0, 0, 7), *31 * [(0, 1, 8)])


def both(*cards_bytes):
    """Each of these cards in both versions."""
    return [cards.with_field(data, 0, 4, version) for data in cards_bytes for version in net.VERSIONS]


class Call(NamedTuple):
    """A call, and the line that the harness must print for it."""
    function: int
    lent: list      # the bytes of each buffer
    answer: int
    line: str


def called(function, lent, answer, value=0, after=None):
    """A call with its outcome; without buffers after it, it leaves what it was lent."""
    left = (data.hex() or "-" for data in (after or lent))
    return Call(function, lent, answer, " ".join((str(answer), str(value), *left)))


# What the second implementation says about a call


def halves(values):
    return struct.pack(f"{len(values)}H", *values)


def lent_state(state):
    """The three buffers of a state."""
    return [struct.pack(f"{len(state.markings)}I", *state.markings),
            halves([row_calls.IDLE if c is None else c for c in state.progress]), halves(state.degrees)]


class Card(row_calls.Answers):
    """The calls with one card."""

    def __init__(self, data, rng):
        super().__init__(data)
        self.rng = rng
        if self.refused:
            # A call gets a state and an order of some size all the same.
            sizes = [rng.randrange(6) for _ in range(4)]
            self.state = net.State(sizes[0] * (0,), sizes[1] * (None,), sizes[2] * (0,))
            self.order = list(range(sizes[3]))
        else:
            self.state = net.fresh(self.flat)
            self.order = list(range(len(self.parts.parts)))

    def check(self):
        lent = [self.data, self.rng.randbytes(4 * struct.calcsize("N"))]
        if self.refused:
            return called(CHECK, lent, *self.flat)
        counts = len(self.order), len(self.flat.capacities), len(self.flat.transitions), self.flat.signals
        return called(CHECK, lent, 0, 0, [self.data, struct.pack("4N", *counts)])

    def flatten(self, room):
        lent = [self.data, self.rng.randbytes(room)]
        answer, *values = net.flatten_call(self.data, room)
        return written(FLATTEN, lent, answer, values)

    def fresh(self, places, transitions, signals):
        """Into buffers of so many entries, whatever stands there."""
        lent = [self.data, *map(self.rng.randbytes, (4 * places, 2 * transitions, 2 * signals))]
        if self.refused:
            return called(FRESH, lent, *self.flat)
        if (places, transitions, signals) != self.sizes():
            return called(FRESH, lent, 25)
        return called(FRESH, lent, 0, 0, [self.data, *lent_state(self.state)])

    def flat_row(self, state, row):
        """The call, its reply and the next state."""
        reply, after = self.flat_call(state, row)
        return row_called(FLAT_ROW, self.data, state, [halves(row)], reply, after), reply, after

    def subnet_row(self, state, order, row):
        reply, after = self.subnet_call(state, order, row)
        return row_called(SUBNET_ROW, self.data, state, [halves(order), halves(row)], reply, after), reply, after

    def rows(self, state, order, row):
        """The calls of both runners."""
        return self.flat_row(state, row)[0], self.subnet_row(state, order, row)[0]

    def sizes(self):
        return tuple(map(len, self.state))

    def every_function(self, room=64):
        """A call of each function that takes a card."""
        yield self.check()
        yield self.flatten(room)
        yield self.fresh(*self.sizes())
        yield from self.rows(self.state, self.order, len(self.state.degrees) * (500,))


def row_called(function, data, state, inputs, reply, after):
    lent = [data, *lent_state(state), *inputs]
    if reply[0] == "ok":
        return called(function, lent, 0, 0, [data, *lent_state(after), *inputs])
    return called(function, lent, *reply[1:])


def written(function, lent, answer, values):
    """A call that writes a card into its last buffer."""
    if answer == "wrote":
        data, = values
        return called(function, lent, 0, len(data), [*lent[:-1], data + lent[-1][len(data):]])
    return called(function, lent, *([24] if answer == "short" else []), *values)


def write(rng, tables):
    lent = [*map(halves, (tables.header, *tables.slices)), rng.randbytes(tables.room)]
    answer, *values = make_card_cases.written(tables)
    return written(WRITE, lent, answer, values)


# Each refusal of each function


def refused_cards():
    """Cards of each number, and accepted ones."""
    for bench in make_card_cases.BENCHES:
        yield from make_card_cases.bench_cards(bench)
    yield from (cards.with_field(BENCH, 21, 5, type_) for type_ in (2, 16))
    yield from make_card_cases.checked_cards()
    longest = hierarchies.longest_card()
    yield cards.encode(cards.change(longest, "arcs", len(longest.arcs) - 1, weight=0))


def refused_tables():
    yield from make_card_cases.refused_tables()
    for bench in make_card_cases.BENCHES:
        yield make_card_cases.given(make_card_cases.changed(bench, "subnets", 0, "type", 2))
        yield from make_card_cases.uneven_tables(bench)
    yield from make_card_cases.edge_tables()
    yield from make_card_cases.later_edge_tables()
    yield from (make_card_cases.given(card, 64) for _, card in hierarchies.numbered())
    yield from make_card_cases.hierarchy_tables()


def refusals(rng):
    for data in refused_cards():
        yield from Card(data, rng).every_function()
    for tables in refused_tables():
        yield write(rng, tables)


def in_turn(rng):
    """Calls with each selection of faults: of several, the first in the paper's order counts."""
    for data in (*both(TAKERS, LOOP), TAKERS[:-1], cards.with_field(TAKERS, 0, 4, 3)):
        card = Card(data, rng)
        fresh = net.State((1000, 0, 0), (None, None), (0, 0))
        states = [fresh, fresh._replace(markings=(1000, 0)), fresh._replace(markings=256 * (0,)), fresh._replace(degrees=64 * (0,)),
                  fresh._replace(markings=(1001, 0, 0)), fresh._replace(markings=(999, 0, 0), progress=(0, None))]
        for state, order, row in itertools.product(states, ([0], [1], []), ((500, 500), (500, 1001), (1001,), (1, 2, 3), (500, 0), ())):
            yield from card.rows(state, order, row)
        yield from (card.flatten(room) for room in (0, 26, 300))
        yield from (card.fresh(places, 2, 2) for places in (0, 2, 3, 256))


# Lengths


def around(size):
    """Lengths near the right one, at the ends of what a card has, and those that are the right one in 8 or 16 bits."""
    return sorted({0, 1, max(size - 1, 0), size, size + 1, size + 7, 32, 33, 63, 64, 255, 256, 256 + size, 65536 + size})


def resized(values, size, more):
    return (tuple(values) + size * (more,))[:size]


def lengths_of(card):
    """Each buffer of a row call, and of a fresh state, with other lengths."""
    state = card.state
    row = card.flat.signals * (300,)
    for field, more in zip(net.State._fields, (0, None, 0)):
        for size in around(len(getattr(state, field))):
            other = state._replace(**{field: resized(getattr(state, field), size, more)})
            yield card.fresh(*map(len, other))
            yield from card.rows(other, card.order, row)
    for size in around(len(card.order)):
        yield card.subnet_row(state, resized(card.order, size, 0), row)[0]
    for size in around(card.flat.signals):
        yield from card.rows(state, card.order, resized(row, size, 300))


def rooms(length):
    return 0, 1, length - 1, length, length + 1, length + 7, length + 256, 65536, 65536 + length - 1


def lengths(rng):
    for tables in (*make_card_cases.BENCHES, make_examples.robot(), FULL, hierarchies.longest_card(), hierarchies.random_family(rng)):
        data = cards.encode(tables)
        card = Card(data, rng)
        flat = cards.encode(net.flatten(tables))
        yield from (card.flatten(room) for room in rooms(len(flat)))
        yield from (Card(flat, rng).flatten(room) for room in (len(flat) - 1, len(flat)))
        yield from (write(rng, make_card_cases.given(tables, room)) for room in rooms(len(data)))
    for tables in (*make_card_cases.BENCHES, make_examples.robot(), FULL):
        yield from lengths_of(Card(cards.encode(tables), rng))
    # Tables that have the right length in 16 bits, tables without rows, and cards that do.
    for index, row in enumerate(make_card_cases.SLICES.values()):
        tables = make_card_cases.given(samples.bench_card(), 64)
        for numbers in (tables.slices[index] + len(row._fields) * 65536 * [0], []):
            slices = [*tables.slices[:index], numbers, *tables.slices[index + 1:]]
            yield write(rng, tables._replace(slices=slices))
    for data in (*both(BENCH + bytes(256)), BENCH + bytes(65536), bytes(70000), cards.encode(FULL) + bytes(65536)):
        yield from Card(data, rng).every_function()


# States, orders and rows


def entries(card, state):
    """The state with each of its entries changed: markings about the claims on them, and numbers at the ends of their ranges."""
    owed, due = net.claims(card.flat, state.progress)
    for place, capacity in enumerate(card.flat.capacities):
        most = 1000 * capacity
        least, limit = owed[place], most - due[place]
        edges = {0, max(least - 1, 0), least, least + 1, limit, limit + 1, most, most + 1, (1 << 32) - 1}
        yield from (changed(state, "markings", place, m) for m in sorted(edges))
    for transition in range(len(state.progress)):
        yield from (changed(state, "progress", transition, c) for c in (None, 0, 1, 999, 1000, 1001, 32768, 65534))
    for signal in range(len(state.degrees)):
        yield from (changed(state, "degrees", signal, degree) for degree in (0, 999, 1000, 1001, 65535))


def changed(state, field, at, value):
    values = list(getattr(state, field))
    values[at] = value
    return state._replace(**{field: tuple(values)})


def states(rng):
    """Before and between the rows of a run, the state as it is and with each entry changed."""
    robot_rows = make_examples.ROBOT_ROWS[:7]
    for data, run in (*((data, make_row_cases.BENCH_ROWS) for data in both(BENCH)), *((data, robot_rows) for data in both(ROBOT))):
        card = Card(data, rng)
        state = card.state
        for row in run:
            for other, given in itertools.product(entries(card, state), (row, ())):
                yield from card.rows(other, rng.sample(card.order, len(card.order)), given)
            call, _, state = card.flat_row(state, row)
            yield call


def orders(rng):
    bench = Card(BENCH, rng)
    for length in range(4):
        for order in itertools.product((0, 1, 2, 65535), repeat=length):
            yield bench.subnet_row(bench.state, order, (500, 500))[0]
    card = Card(cards.encode(FULL), rng)
    row = 63 * (500,)
    for _ in range(10):
        yield card.subnet_row(card.state, rng.sample(card.order, 32), row)[0]
    # A number that is another one's in 5, 6, 8 bits, and one that stands twice.
    for at in (0, 1, 30, 31):
        for number in (at + 32, at + 64, at + 256, at ^ 1, 65535):
            order = list(card.order)
            order[at] = number
            yield card.subnet_row(card.state, order, row)[0]


def high_degrees(rng):
    for card in (Card(BENCH, rng), Card(cards.encode(samples.full_card((0, 0, 255))), rng)):
        signals = card.flat.signals
        for signal in range(signals):
            for degree in (1001, 1024, 65535):
                row = [1000] * signal + [degree] + [rng.choice((0, 65535)) for _ in range(signals - signal - 1)]
                yield from card.rows(card.state, card.order, row)
        yield from card.rows(card.state, card.order, cards.empty_row(signals))


def conflicts(rng):
    far = samples.one_subnet(2, 252 * [(1, 0)] + [(1, 1), (1, 0), (1, 0)],
                           [(signal, [(DRAW, 252, 1), (FILL, 253 + signal, 1)]) for signal in (0, 1)])
    for tables in (make_row_cases.TAKERS, make_row_cases.three(2, 1), make_row_cases.three(2, 2), make_row_cases.FILLERS, far):
        for card in (Card(data, rng) for data in both(cards.encode(tables))):
            for row in ((500, 500), (1, 1), (1000, 1000), (500, 0), (0, 500)):
                yield from card.rows(card.state, card.order, row)
    for _, tables, run in samples.telling_cards():
        card = Card(cards.encode(tables), rng)
        state = card.state
        for row in run:
            yield card.subnet_row(state, card.order, row)[0]
            call, _, state = card.flat_row(state, row)
            yield call


def empty_rows(rng):
    """An empty row for transitions that are all idle, with each selection of signals up."""
    nets = samples.bench_card(), make_row_cases.TAKERS, make_row_cases.three(2, 1), make_row_cases.three(2, 2), make_row_cases.FILLERS
    for card in (Card(data, rng) for data in both(*map(cards.encode, nets))):
        for degrees in itertools.product((0, 1, 999, 1000), repeat=2):
            yield from card.rows(card.state._replace(degrees=degrees), card.order, ())


def starts(rng):
    """Bench card A with the token at place 1: transition 1 idle or carrying 0, from each last degree to each new one, on both versions."""
    for card in (Card(data, rng) for data in both(BENCH)):
        for last, degree, c in itertools.product((0, 1, 500, 999, 1000), (0, 1, 500, 999, 1000), (None, 0)):
            yield from card.rows(net.State((0, 1000, 0), (None, c), (0, last)), card.order, (0, degree))


FIXED = (refusals, in_turn, lengths, states, orders, high_degrees, conflicts, empty_rows, starts)


# Random cards


def tampered(rng, card, state):
    """The state with some entries or a length changed."""
    for _ in range(rng.choice((1, 1, 1, 2, 5))):
        field = rng.choice(net.State._fields)
        values = getattr(state, field)
        if rng.randrange(8) == 0 or not values:
            size = rng.choice((0, 63, 64, 255, 256, 300, max(len(values) - 1, 0), len(values) + 1))
            state = state._replace(**{field: resized(values, size, None if field == "progress" else 0)})
            continue
        at = rng.randrange(len(values))
        if field == "markings":
            value = random_marking(rng, card, state, at)
        elif field == "progress":
            value = rng.choice((None, 0, 1, 500, 999, 1000, 1001, 65534, rng.randrange(65535)))
        else:
            value = rng.choice((0, 500, 1000, 1001, 65535, rng.randrange(65536)))
        state = changed(state, field, at, value)
    return state


def random_marking(rng, card, state, at):
    """About the claims or the capacity of the place, or anything."""
    if card.sizes() != tuple(map(len, state)):
        return rng.randrange(3000)
    owed, due = net.claims(card.flat, [None if c is None else min(c, 1000) for c in state.progress])
    most = 1000 * card.flat.capacities[at]
    edge = rng.choice((owed[at], most - due[at], most)) + rng.choice((-1, 0, 1))
    return rng.choice((max(edge, 0), max(edge, 0), rng.randrange(most + 1), rng.randrange(1 << 32), (1 << 32) - 1))


def random_rows(rng, card):
    """Row calls of both runners on one state, from the fresh one on, with some signals up in one of four; some on a state that was tampered
    with."""
    state = card.state
    if rng.randrange(4) == 0:
        state = state._replace(degrees=samples.some_up(rng, card.flat.signals))
    for _ in range(ROWS_A_CARD):
        given = tampered(rng, card, state) if rng.randrange(4) == 0 else state
        row = random_input.next_row(rng, state.degrees)
        order = random_input.order(rng, len(card.order))
        flat, reply, after = card.flat_row(given, row)
        subnets, other, after_subnets = card.subnet_row(given, order, row)
        assert (reply, after) == (other, after_subnets) or other == ("refused", 23), "the second implementation's runners part"
        yield flat
        yield subnets
        if reply[0] == "ok":
            state = after


def random_calls(rng):
    """Calls with one card."""
    data = random_input.card(rng)
    card = Card(data, rng)
    yield card.check()
    yield write(rng, make_card_cases.random_tables(rng))
    if card.refused:
        yield from card.every_function()
        return
    tables = net.read_card(data)
    needed = len(cards.encode(net.flatten(tables)))
    room = rng.choice((0, needed - 1, needed, needed + 1, needed + 7))
    yield card.flatten(room)
    yield write(rng, make_card_cases.given(tables, len(data) + rng.choice((-1, 0, 1, 7))))
    yield card.fresh(*card.sizes())
    yield card.fresh(*(max(size + rng.choice((-1, 0, 0, 1)), 0) for size in card.sizes()))
    yield from random_rows(rng, card)


# The harness


def packed(call):
    return bytes([call.function]) + b"".join(struct.pack("I", len(data)) + data for data in call.lent)


class Harness:
    """What was called, and what differed."""

    def __init__(self, program):
        self.program = program
        self.calls = self.wrong = 0
        self.answers = collections.Counter()

    def compare(self, calls):
        """Calls in one process: each has its line, and its errors before it."""
        try:
            done = subprocess.run([self.program], input=b"".join(map(packed, calls)), stdout=subprocess.PIPE, timeout=SECONDS)
            output, end = done.stdout, f"it ended with {done.returncode}"
        except subprocess.TimeoutExpired as late:
            output, end = late.stdout or b"", f"it did not end in {SECONDS} seconds"
        texts = by_call(output.decode())
        for number, call in enumerate(calls):
            self.calls += 1
            self.answers[call.function, call.answer] += 1
            text = texts[number] if number < len(texts) else None
            if text != call.line:
                self.wrong += 1
                # All calls behind a crash are wrong; one of them says it.
                if self.wrong <= SHOWN and number <= len(texts):
                    show(call, end if text is None else text)

    def compare_all(self, calls):
        """Calls in batches."""
        calls = iter(calls)
        while batch := list(itertools.islice(calls, BATCH)):
            self.compare(batch)


def by_call(output):
    texts = []
    errors = ""
    for line in output.splitlines():
        if line.startswith("error"):
            errors += line + "\n"
        else:
            texts.append(errors + line)
            errors = ""
    return texts


def show(call, text):
    what = f"tables {' '.join(data.hex() for data in call.lent[:-1])}" if call.function == WRITE else f"card {call.lent[0].hex() or 'empty'}"
    print(f"{NAMES[call.function]} differs: {what}")
    print(f"    lent:                  {' '.join(data.hex() or '-' for data in call.lent[call.function != WRITE:])}")
    print(f"    second implementation: {call.line}\n    library:               {text}", flush=True)


# Programs


def command(*words, **more):
    """What a command prints, if it succeeds."""
    done = subprocess.run(words, cwd=root, capture_output=True, text=True, **more)
    if done.returncode != 0:
        print(f"{' '.join(map(str, words))} ends with {done.returncode}\n{done.stdout}{done.stderr}\n0 passed, 1 failed")
        sys.exit(1)
    return done.stdout


def built():
    """The archive, and a folder for the programs that call it."""
    report.need_commands("gcc", "rustc")
    archive = root / "target" / "staticlib" / "libnet_runner.a"
    if "LIBRARY" in os.environ:
        archive = pathlib.Path(os.environ["LIBRARY"]).resolve()
    else:
        report.need_commands("rt")
        command(root / "tools" / "build", "net_runner")
    report.need_built(archive, "tools/build net_runner")
    folder.mkdir(parents=True, exist_ok=True)
    return archive


def compiled_harness(archive):
    program = folder / "harness"
    command("gcc", "-O2", "-Wall", "-Wextra", "-Werror", "-pthread", "-I", "crates/net_runner", "tests/library/harness.c", archive,
            "-o", program)
    return program


def rust_calls(archive):
    """How many tests of the Rust program passed and failed."""
    program = folder / "calls"
    command("rustc", "-O", "--edition", "2021", "-D", "warnings", "tests/library/calls.rs", "-C", f"link-arg={archive}", "-o", program)
    done = subprocess.run([program], capture_output=True, text=True)
    output = done.stdout + done.stderr
    count = re.search(r"^(\d+) passed, (\d+) failed\n\Z", output, re.M)
    passed, failed = map(int, count.groups()) if count else (0, 1)
    if failed or done.returncode != 0:
        print(f"tests/library/calls.rs ends with {done.returncode}:\n{output}")
        return passed, max(failed, 1)
    return passed, 0


def embed_tests(archive):
    """The example for users: what is looked at, what it prints and its status, and what must be."""
    def run(*words):
        done = subprocess.run([root / "examples" / "embed" / "run", *words], env={**os.environ, "LIBRARY": str(archive)}, capture_output=True)
        return done.stdout + done.stderr, done.returncode

    expected = (root / "examples" / "embed" / "expected").read_bytes()
    yield "examples/embed/run", run(), (expected, 0)
    yield "examples/embed/run examples/bench/net.card", run(root / "examples" / "bench" / "net.card"), (expected, 0)
    with tempfile.TemporaryDirectory() as where:
        cut = pathlib.Path(where) / "net.card"
        cut.write_bytes(BENCH[:28])
        yield "examples/embed/run, 28 bytes", run(cut), (b"the card: refused, 1: the card ends inside a field, bit 224\n", 1)
        loop = pathlib.Path(where) / "loop.card"
        loop.write_bytes(cards.with_field(BENCH, 94, 5, 0))
        third = pathlib.Path(where) / "third.card"
        third.write_bytes(cards.with_field(BENCH, 0, 4, 3))
        yield "examples/embed/run, version 3", run(third), (b"the card: refused, 2: version, bit 0\n", 1)
        yield "examples/embed/run, a loop", run(loop), (b"the card: refused, 26: a loop above the capacity of its place, bit 93\n", 1)


def size_tests():
    """The most bytes of a card, which the code, the definitions, the header and the functions for Rust each have once; a call's stack."""
    def number(file, pattern):
        return re.search(pattern, (root / "crates" / file).read_text(), re.M).group(1)

    code = number("card/src/lib.rt", r"^pub const CARD_BYTES: usize = (\d+);$")
    yield "card_bytes", number("card/specs/Tables.antt", r"^card_bytes = (\d+)$"), code
    yield "NET_CARD_BYTES", number("net_runner/net_runner.h", r"^#define NET_CARD_BYTES (\d+)$"), code
    yield "CARD_BYTES for Rust", number("net_runner/net_runner.rs", r"^pub const CARD_BYTES: usize = (\d+);$"), code
    stack = number("net_runner/net_runner.h", r"^#define NET_STACK_BYTES (\d+)$")
    yield "STACK_BYTES for Rust", number("net_runner/net_runner.rs", r"^pub const STACK_BYTES: usize = (\d+);$"), stack


def main():
    seed = int(sys.argv[1]) if len(sys.argv) > 1 else random.SystemRandom().randrange(1 << 32)
    print(f"seed {seed}", flush=True)
    rng = random.Random(seed)
    archive = built()
    harness = Harness(compiled_harness(archive))
    for cases in FIXED:
        harness.compare_all(cases(rng))
    missing = [(function, number) for function, numbers in REFUSALS.items() for number in numbers
               if harness.answers[function, number] < EACH]
    for function, number in missing:
        print(f"{NAMES[function]}: fewer than {EACH} calls with refusal {number}")
    fixed = harness.calls
    harness.compare_all(call for _ in range(CARDS) for call in random_calls(rng))
    print(f"{fixed} fixed calls; {harness.calls - fixed} with {CARDS} random cards; row calls by answer: "
          + ", ".join(f"{number or 'ok'} {harness.answers[FLAT_ROW, number] + harness.answers[SUBNET_ROW, number]}"
                      for number in (0, 20, 21, 22, 23, 25)))
    passed, failed = rust_calls(archive)
    for name, got, expected in itertools.chain(embed_tests(archive), size_tests()):
        if got != expected:
            failed += 1
            print(f"{name}: {got!r} is not {expected!r}")
        else:
            passed += 1
    failed += harness.wrong + len(missing)
    passed += harness.calls - harness.wrong
    print(f"{passed} passed, {failed} failed")
    sys.exit(1 if failed else 0)


if __name__ == "__main__":
    main()
