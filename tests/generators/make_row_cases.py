"""Makes the input of the program row_cases and the lines that it must print for it.

The answers are the second implementation's; the paper's own are asserted here.
"""

import itertools
import random
from dataclasses import replace

import cards
import hierarchies
import net
import row_calls
import samples
from cards import DRAW, FILL
from paths import root

folder = root / "crates" / "row_cases"

BENCH_ROWS = [(400, 0), (300, 500), (1000, 500), (1000, 500), (1000, 900), (0, 1001)]
BENCH_LINES = b"""1 ok 600 400 0 | 400 -
2 ok 600 400 0 | 400 -
3 ok 0 1000 0 | - -
4 ok 0 1000 0 | - 0
5 ok 0 600 400 | - 400
6 no 21 1
"""

# Card B and its kin: two transitions, on signals 0 and 1.
TAKERS = samples.one_subnet(2, [(1, 1), (1, 0), (1, 0)],
                          [(signal, [(DRAW, 0, 1), (FILL, signal + 1, 1)]) for signal in (0, 1)])
LOOP = samples.one_subnet(2, [(3, 1), (1, 0), (1, 0)],
                        [(0, [(DRAW, 0, 1), (FILL, 0, 1), (FILL, 1, 1)]), (1, [(DRAW, 0, 1), (FILL, 2, 1)])])


def three(tokens, weight):
    """Capacity 3, so many tokens, and two takers."""
    return samples.one_subnet(2, [(3, tokens), (1, 0), (1, 0)],
                            [(signal, [(DRAW, 0, weight), (FILL, signal + 1, 1)]) for signal in (0, 1)])


FILLERS = samples.one_subnet(2, [(2, 1), (1, 1), (1, 1)],
                           [(signal, [(DRAW, signal + 1, 1), (FILL, 0, 1)]) for signal in (0, 1)])


def of(card):
    return row_calls.Cases(cards.encode(card))


def both(card):
    """A card in both versions."""
    return [replace(card, version=version) for version in net.VERSIONS]


def orders(cases):
    """Each subnet once, in turn."""
    return list(range(1 if cases.refused else len(cases.parts.parts)))


def run(card, rows, replies):
    """Both runners on rows, with the replies that they must give."""
    cases = of(card)
    further(cases, rows, replies)
    return cases


def further(cases, rows, replies):
    """More rows for both runners."""
    order = orders(cases)
    for row, reply in zip(rows, replies, strict=True):
        order = order[1:] + order[:1]
        assert cases.call(order, row) == [reply, reply], (row, reply)


def paper():
    """The paper's cases of rows."""
    ok = ("ok",)
    bench = run(samples.bench_card(), BENCH_ROWS, 5 * [ok] + [("refused", 21, 1)])
    data = cards.encode_rows(BENCH_ROWS)
    bench.rows(data)
    assert bench.lines[-1] == BENCH_LINES
    bench.rows(data[:-1])
    assert bench.lines[-1].endswith(b"\n6 no 20\n")
    bench.rows(data[:2] + b"\x01" + data[3:6])
    assert bench.lines[-1] == b"1 no 20\n2 ok 700 300 0 | 300 -\n"
    yield bench
    for card, rows, replies in [
            (TAKERS, [(500, 500)], [("refused", 22, 0)]),
            (TAKERS, [(500, 0), (500, 500)], [ok, ok]),
            (three(2, 1), [(500, 500)], [ok]),
            (three(2, 2), [(500, 500)], [("refused", 22, 0)]),
            (FILLERS, [(500, 500)], [("refused", 22, 0)])]:
        yield from (run(other, rows, replies) for other in both(card))
    loop = run(LOOP, [(500, 0), (500, 500), (700, 600)], [ok, ok, ok])
    assert all(b" ok 1000 " in text.split(b"\n")[0] for text in loop.lines), "the place stays at 1000"
    yield loop


def telling():
    for _, card, rows in samples.telling_cards():
        cases = of(card)
        for row in rows:
            cases.call(orders(cases), row)
        cases.rows(samples.file_bytes(rows, card.signals))
        yield cases


def first_versions():
    """The version 2 cards among the telling ones as version 1, on the same rows."""
    for _, card, rows, lines in samples.from_zero_runs():
        data = samples.file_bytes(rows, card.signals)
        assert net.run_program(cards.encode(card), data) == lines.encode(), lines
        first = of(replace(card, version=1))
        first.rows(data)
        yield first


def lent_starts():
    """Bench card A, lent with the token at place 1 and signal 1 up: what an idle transition 1, and one that carries 0, moves by."""
    rows = (), (0, 1), (0, 300), (0, 600), (0, 999), (0, 1000)
    for card, row, c in itertools.product(both(samples.bench_card()), rows, (row_calls.IDLE, 0)):
        cases = of(card)
        for entry in ((row_calls.MARKING, 0, 0), (row_calls.MARKING, 1, 1000), (row_calls.TRANSFER, 1, c), (row_calls.DEGREE, 1, 600)):
            cases.set(*entry)
        further(cases, [row, (0, 700)], 2 * [("ok",)])
        yield cases


def flattened():
    """The flat card of a card, and of that one again: the same bytes."""
    for card in both(samples.bench_card()):
        bench = of(card)
        length = len(cards.encode(net.flatten(card)))
        for room in (0, length - 1, length, length + 5):
            bench.flatten(room)
        yield bench
        flat = of(net.flatten(card))
        flat.flatten(length)
        assert flat.lines[-1] == bench.lines[-3], "flattened again"
        yield flat
    sound = cards.encode(samples.bench_card())
    loops = [cards.encode(card) for card in (*both(samples.bench_card((FILL, 0, 0, 1))), hierarchies.far_loop(2))]
    versions = [cards.with_field(sound, 0, 4, version) for version in (0, 3, 15)]
    for data in (b"", sound[:28], sound + b"\0", *loops, *versions):
        refused = row_calls.Cases(data)
        refused.flatten(10)
        refused.call([0], (1, 2))
        refused.rows(b"\0\0\0")
        yield refused


# What is set in bench card A's state after its first row (600 400 0, transition 0 at 400, degrees 400 0), and whether that is 25.
LENT = [
    ((row_calls.MARKING, 0, 600), False),
    ((row_calls.MARKING, 0, 599), True),           # owed is 600
    ((row_calls.MARKING, 0, 601), False),
    ((row_calls.MARKING, 0, 1001), True),
    ((row_calls.MARKING, 1, 401), True),           # due is 600
    ((row_calls.MARKING, 2, 2000), False),
    ((row_calls.MARKING, 2, 2001), True),
    ((row_calls.MARKING, 2, 4294967295), True),
    ((row_calls.MARKING, 3, 4294967295), False),   # past the places
    ((row_calls.TRANSFER, 0, 399), True),
    ((row_calls.TRANSFER, 0, 999), False),
    ((row_calls.TRANSFER, 0, 1000), True),
    ((row_calls.TRANSFER, 0, row_calls.IDLE), False),
    ((row_calls.TRANSFER, 1, 0), True),
    ((row_calls.TRANSFER, 2, 65534), False),       # past the transitions
    ((row_calls.DEGREE, 1, 1000), False),
    ((row_calls.DEGREE, 1, 1001), True),
    ((row_calls.DEGREE, 2, 65535), False),         # past the signals
    ((row_calls.PLACES, 0, 2), True),
    ((row_calls.PLACES, 0, 4), True),
    ((row_calls.TRANSITIONS, 0, 1), True),
    ((row_calls.TRANSITIONS, 0, 300), True),
    ((row_calls.SIGNALS, 0, 3), True),
    ((row_calls.SIGNALS, 0, 0), True),
]


def lent():
    """25, and states that are not: they come before the order and the row."""
    for (entry, bad), card in itertools.product(LENT, both(samples.bench_card())):
        cases = run(card, [(400, 0)], [("ok",)])
        cases.set(*entry)
        replies = cases.call([0], (1, 1, 1))
        assert replies == (2 * [("refused", 25)] if bad else [("refused", 20), ("refused", 23)]), (entry, replies)
        cases.call([1, 0], (900, 100))
        yield cases


def full():
    """25 for a count past the end of an array that the card's own signals fill."""
    card = samples.one_subnet(63, [(1, 1), (1, 0)], [(62, [(DRAW, 0, 1), (FILL, 1, 1)])])
    for count in (64, 255, 70000):
        cases = run(card, [63 * (400,)], [("ok",)])
        cases.set(row_calls.SIGNALS, 0, count)
        assert cases.call([0], 63 * (500,)) == 2 * [("refused", 25)], count
        cases.set(row_calls.SIGNALS, 0, 63)
        assert cases.call([0], 63 * (500,)) == 2 * [("ok",)], count
        yield cases


# Visiting orders of bench card A, and whether they are 23.
ORDERS = [([0, 1], False), ([1, 0], False), ([], True), ([0], True), ([1], True), ([0, 0], True), ([1, 1], True), ([0, 2], True),
          ([1, 65535], True), ([0, 32], True), ([0, 33], True), ([0, 1, 0], True), ([0, 1, 2], True), (40 * [0, 1], True)]


def ordered():
    for (order, bad), card in itertools.product(ORDERS, both(samples.bench_card())):
        cases = of(card)
        replies = cases.call(order, (500, 500))
        assert replies == [("ok",), ("refused", 23) if bad else ("ok",)], order
        # The order comes before the row.
        replies = cases.call(order, (500, 1001))
        assert replies == [("refused", 21, 1), ("refused", 23) if bad else ("refused", 21, 1)], order
        cases.call([1, 0], (600, 600))
        yield cases


def rows():
    """20 and 21."""
    for card in both(samples.bench_card()):
        cases = of(card)
        for row, reply in [((1,), 20), ((1, 2, 3), 20), ((2000, 2, 3), 20), (200 * (0,), 20), ((1023,), 20), (3 * (1023,), 20), ((1001, 0), 21),
                           ((65535, 1001), 21), ((1000, 65535), 21), ((1023, 1023), 21)]:
            answers = cases.call([0, 1], row)
            assert [answer[1] for answer in answers] == [reply, reply], row
        yield cases


def empty_files():
    """Rows files of bench card A with empty rows and rows that are nearly so, and the lines for each."""
    empty = cards.encode_row(cards.empty_row(2))
    filled, short = empty[:2] + bytes([empty[2] | 1]), empty[:2]
    up = cards.encode_row((1000, 500))
    fresh, full, started = "ok 1000 0 0 | - -", "ok 0 1000 0 | - -", "ok 0 1000 0 | - 0"
    nearly = cards.encode_rows([(1023, 1022), (1000, 1023), (0, 1023), (1023, 500)])
    files = [
        (empty, [fresh]),
        (up + empty + empty, [full, started, started]),
        (up + filled + empty + short, [full, "no 20", started, "no 20"]),
        (filled + short, ["no 20", "no 20"]),
        (up + nearly + empty, [full, "no 21 0", "no 21 1", "no 21 1", "no 21 0", started]),
    ]
    return [(data, b"".join(row_calls.line(number, text) for number, text in enumerate(texts, start=1))) for data, texts in files]


def empty_rows():
    """Empty rows, in calls and in files."""
    ok, high = ("ok",), ("refused", 21, 0)
    bench = run(samples.bench_card(), [(), (1000, 500), (1023, 1023), (), (1000, 900), (), (1000, 1000)], [ok, ok, high, ok, ok, ok, ok])
    assert bench.lent[0].view() == net.State((0, 500, 500), (None, 500), (1000, 1000))
    for data, lines in empty_files():
        bench.rows(data)
        assert bench.lines[-1] == lines, lines
    yield bench
    yield from empty_conflict()
    yield empty_lent()
    # The most signals, and as many as leave no fill bits.
    for signals in (63, 60):
        cases = run(samples.one_subnet(signals, [(1, 1), (1, 0)], [(signals - 1, [(DRAW, 0, 1), (FILL, 1, 1)])]),
                    [(), signals * (400,), (), cards.empty_row(signals), signals * (700,)], [ok, ok, ok, high, ok])
        cases.rows(samples.file_bytes([(), signals * (400,), (), signals * (700,)], signals))
        yield cases


def empty_conflict():
    """Card B, lent with both degrees up: an empty row is a conflict that changes nothing, until one of the degrees is down."""
    for card, after in zip(both(TAKERS), (net.State((1000, 0, 0), (0, None), (500, 0)), net.State((500, 500, 0), (500, None), (500, 0)))):
        cases = of(card)
        for signal in (0, 1):
            cases.set(row_calls.DEGREE, signal, 500)
        further(cases, [(), (), (500, 0), ()], 2 * [("refused", 22, 0)] + 2 * [("ok",)])
        assert cases.lent[0].view() == after
        yield cases


def empty_lent():
    """The state and the order come before an empty row."""
    cases = run(samples.bench_card(), [(400, 0)], [("ok",)])
    assert cases.call([1, 1], ()) == [("ok",), ("refused", 23)]
    cases.set(row_calls.DEGREE, 1, 1001)
    assert cases.call([1, 1], ()) == 2 * [("refused", 25)]
    cases.set(row_calls.DEGREE, 1, 1000)
    further(cases, [(), (700, 1000), ()], 3 * [("ok",)])
    assert cases.lent[0].view() == net.State((300, 700, 0), (700, None), (700, 1000))
    return cases


def random_cases(rng):
    """Cards of many subnets, each in both versions but for the longest, on the same rows in random orders."""
    drawn = [*(hierarchies.random_family(rng) for _ in range(12)), samples.full_card((0, 0, 3), *31 * [(0, 1, 2)])]
    for versions in [*map(both, drawn), [replace(hierarchies.longest_card(), version=2)]]:
        twins = list(map(of, versions))
        order = orders(twins[0])
        for _ in range(6):
            rng.shuffle(order)
            row = samples.empty_or(rng, samples.random_row(rng, twins[0].flat.signals))
            for cases in twins:
                cases.call(order, row)
        for cases in twins:
            cases.flatten(len(cases.data))
            yield cases


def made():
    rng = random.Random(1)
    return [*paper(), *telling(), *first_versions(), *lent_starts(), *flattened(), *lent(), *full(), *ordered(), *rows(), *empty_rows(),
            *random_cases(rng)]


def files():
    """The two files' contents by name. The last case of the input is not all there: no line."""
    cases = made()
    return {"stdin": b"".join(case.stdin() for case in cases) + cases[0].stdin()[:-1],
            "stdout": b"".join(case.stdout() for case in cases) + b"".join(cases[0].lines[:-1])}
