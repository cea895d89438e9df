"""Makes the input of the program card_cases and the lines that it must print for it.

The answers are the second implementation's. Each case is led by its kind, a byte, and its length, two bytes.
"""

import dataclasses
import itertools
import random
import struct
import zlib
from typing import NamedTuple

import cards
import hierarchies
import net
import samples
from paths import root

folder = root / "crates" / "card_cases"

CARD, TABLES = 0, 1
GUARD = b"\xa5"

# The header's numbers, and the four slices with their rows.
HEADER = ("version", "signals", "limit", "scale")
SLICES = {"subnets": cards.Subnet, "places": cards.Place, "transitions": cards.Transition, "arcs": cards.Arc}

# The fields that later versions bring, and versions without and with them.
LATER = ("limit", "scale", "rank")
VERSIONS = (1, 2, 3, 4, 5, 15)

# What pass one and the writer refuse in bench card A: the number, the field's first bit, its row and its values.
WRONG = [
    (2, 0, "header", 0, "version", (0, 3, 5, 6, 9, 10, 15)),
    (3, 10, "header", 0, "signals", (0,)),
    (4, 16, "subnets", 0, "parent", (1, 31)),
    (4, 115, "subnets", 1, "parent", (1, 2, 31)),
    (5, 21, "subnets", 0, "type", (1, 31)),
    (7, 42, "places", 0, "kind", (1, 2, 3)),
    (7, 44, "places", 0, "capacity", (0,)),
    (7, 161, "places", 2, "capacity", (0,)),
    (7, 52, "places", 0, "tokens", (2, 255)),
    (7, 169, "places", 2, "tokens", (3, 255)),
    (8, 60, "transitions", 0, "signal", (2, 63)),
    (8, 177, "transitions", 1, "signal", (2, 63)),
]

# Counts that pass one refuses there: the number, the field's first bit and width, its values. To the writer they would be 17.
WRONG_COUNTS = [
    (3, 4, 6, (0, 33, 63)),     # subnets
    (6, 26, 8, (0,)),           # places of subnet 0
    (6, 34, 8, (0,)),           # transitions of subnet 0
    (6, 125, 8, (0, 255)),      # places of subnet 1, 256 in all
    (6, 133, 8, (0, 255)),      # transitions of subnet 1, 256 in all
    (8, 66, 5, (0,)),           # arcs
    (8, 183, 5, (0,)),
]

# The writer's refusals of counts: the number, the bit, and for each subnet its places, its transitions and the arcs of each.
WRONG_SIZES = [
    (3, 4, []),
    (3, 4, 33 * [(1, 1, 1)]),
    (3, 4, 63 * [(1, 1, 1)]),
    (17, 0, 64 * [(1, 1, 1)]),
    (6, 26, [(0, 1, 1)]),
    (6, 34, [(1, 0, 0)]),
    (6, 103, [(1, 1, 1), (0, 1, 1)]),
    (6, 103, [(1, 1, 1), (255, 1, 1)]),
    (6, 111, [(1, 1, 1), (1, 0, 0)]),
    (6, 111, [(1, 1, 1), (1, 255, 1)]),
    (6, 176793, [(1, 255, 31), (254, 1, 31)]),      # more numbers than any card has
    (8, 66, [(1, 1, 0)]),
    (8, 143, [(1, 1, 1), (1, 1, 0)]),
    (17, 0, [(256, 1, 1)]),
    (17, 0, [(1, 256, 1)]),
    (17, 0, [(1, 1, 32)]),
]

# The most subnets, and the most places and transitions, that pass one takes.
RIGHT_SIZES = [
    32 * [(1, 1, 1)],
    [(255, 255, 1)],
    [(1, 1, 31), (254, 254, 1)],
]

# What pass one takes in bench card A: values at the ends of their ranges, and any arc.
RIGHT = [
    (10, 6, (63,)),
    (120, 5, (31,)),
    (44, 8, (255,)),
    (141, 2, (0, 2, 3)),
    (169, 8, (0, 2)),
    (60, 6, (1,)),
    (71, 1, (1,)),
    (72, 5, (31,)),
    (77, 8, (255,)),
    (224, 8, (0, 255)),
]

# What the check refuses at subnet 0's second arc there: the number, and a field's first bit, width and value.
SECOND_ARC = [
    (10, 99, 8, 1),
    (11, 93, 1, 0),
    (12, 107, 8, 2),
    (26, 94, 5, 0),         # a loop at place (0,0)
    (10, 141, 2, 0),        # the place is normal, so that nobody else sees it; not 15
]

# The card that all these are changes of, in both versions.
BENCHES = [samples.bench_card(version=version) for version in net.VERSIONS]


class Tables(NamedTuple):
    """What the writer is given: the header's numbers, four slices, and a buffer of so many bytes."""
    header: list
    slices: list
    room: int


def changed(card, table, index, field, value):
    if table == "header":
        return dataclasses.replace(card, **{field: value})
    return cards.change(card, table, index, **{field: value})


def misversioned(card):
    """Tables that are refused at their first field, unless they are 17, which comes before."""
    return changed(card, "header", 0, "version", 0)


def sized(subnets):
    """Tables of so many rows. The arcs are zeros."""
    return cards.tables(63, *((0, 0, places * [(cards.NORMAL, 1, 0)],
                               transitions * [(0, arcs * [(0, 0, 0, 0)])])
                              for places, transitions, arcs in subnets))


def given(card, room=32):
    header = [getattr(card, name) for name in HEADER]
    slices = [[value for row in getattr(card, name) for value in row] for name in SLICES]
    return Tables(header, slices, room)


# Cards that are read


def whole(data):
    return not isinstance(net.read_card(data), net.Refusal)


def wrong_cards(bench):
    widths = cards.widths(bench.version)
    wrong = [(number, bit, getattr(getattr(widths, table), field), values)
             for number, bit, table, _, field, values in WRONG]
    for number, bit, width, values in wrong + WRONG_COUNTS:
        for value in values:
            yield number, bit, cards.with_field(cards.encode(bench), bit, width, value)


def refused_cards(bench):
    for number, bit, data in wrong_cards(bench):
        assert net.read_card(data) == net.Refusal(number, bit), (number, bit)
        yield data
    # The first fault counts, and an earlier fault counts before the end of the card.
    data = cards.encode(bench)
    yield cards.with_field(cards.with_field(data, 177, 6, 2), 52, 8, 2)
    yield cards.with_field(data, 0, 4, 3)[:1]


def right_cards(data):
    for bit, width, values in RIGHT:
        for value in values:
            right = cards.with_field(data, bit, width, value)
            assert whole(right), (bit, value)
            yield right


def filled_cards(data, end):
    """A card that ends before bit end, with each fill bit set in turn, then with further bytes."""
    for bit in range(end, 8 * len(data)):
        yield cards.with_field(data, bit, 1, 1)
    yield data + b"\0"
    yield cards.with_field(data, 8 * len(data) - 1, 1, 1) + b"\0"
    yield data + b"\xff\xff"


def second_arcs(bench):
    for number, *field in SECOND_ARC:
        data = cards.with_field(bench, *field)
        assert net.check(data) == ("refused", number, 93), field
        yield data


def bench_cards(card):
    """Bench card A and its flat card: whole, cut short, filled otherwise, and with fields changed."""
    bench, flat = cards.encode(card), cards.encode(net.flatten(card))
    return [
        bench, b"", bench[:28], bench + b"\0",
        *(bench[:length] for length in range(1, 28)),
        flat, flat[:-1], *filled_cards(flat, 206),
        *refused_cards(card),
        *right_cards(bench),
        *second_arcs(bench),
    ]


def checked_cards():
    for number, card in hierarchies.numbered():
        data = cards.encode(card)
        assert refusal_number(net.check(data)) == number, (number, net.check(data))
        yield data


def random_families(rng):
    for bends in (*20 * [0], *80 * [1], *60 * [2]):
        card = hierarchies.random_family(rng)
        for _ in range(bends):
            card = hierarchies.bent(rng, card)
        yield cards.encode(card)


def card_cases(rng):
    largest = cards.encode(samples.largest_card(rng))
    assert len(largest) == 22770 and whole(largest)
    return [
        *(data for bench in BENCHES for data in bench_cards(bench)),
        largest, cards.with_field(largest, 182159, 1, 1),
        *checked_cards(),
        *(samples.random_bytes(rng) for _ in range(200)),
        *random_families(rng),
    ]


# Tables that are written


def wrong_sizes():
    for number, bit, subnets in WRONG_SIZES:
        yield number, bit, given(sized(subnets))
        if number == 17:
            yield number, bit, given(misversioned(sized(subnets)))


def wrong_tables(bench):
    for number, bit, *place, values in WRONG:
        for value in values:
            yield number, bit, given(changed(bench, *place, value))
    # The first fault counts.
    yield 3, 10, given(changed(changed(bench, "header", 0, "signals", 0), "places", 0, "kind", 1))
    # The counts add up, but give subnet 0 an interface place.
    yield 7, 60, given(changed(changed(bench, "subnets", 0, "places", 2), "subnets", 1, "places", 1))


def refused_tables():
    """Into a buffer with room for the card, and into one with none, in turn."""
    wrong = itertools.chain(wrong_sizes(), *map(wrong_tables, BENCHES))
    for (number, bit, tables), room in zip(wrong, itertools.cycle((32, 0))):
        assert spelt(tables) == net.Refusal(number, bit), (number, bit)
        assert written(tables) == ("refused", number, bit), (number, bit)
        yield tables._replace(room=room)


def fields(card):
    """The header's fields, and those of the first and the last row of each table, with their widths."""
    widths = cards.widths(card.version)
    for field in HEADER:
        yield "header", 0, field, getattr(widths.header, field)
    for name, row in SLICES.items():
        for index in (0, len(getattr(card, name)) - 1):
            for field, width in zip(row._fields, getattr(widths, name)):
                yield name, index, field, width


def edge_tables():
    """Each field with the largest number that fits, in both versions, the one after it, and the largest of all."""
    first, second = BENCHES
    for *place, width in fields(first):
        if place[-1] not in LATER:
            yield from (given(changed(bench, *place, (1 << width) - 1)) for bench in BENCHES)
            yield misfit(misversioned(first), *place, 1 << width)
            yield misfit(second, *place, 65535)


def later_edge_tables():
    """The same for the fields of later versions. Where a number fits, the version is refused."""
    for version in VERSIONS:
        card = samples.bench_card(version=version)
        for *place, width in fields(card):
            if place[-1] not in LATER:
                continue
            if width > 0:
                tables = given(changed(card, *place, (1 << width) - 1))
                assert spelt(tables) == net.Refusal(2, 0), (version, place)
                yield tables
            yield misfit(card, *place, 1 << width)
            yield misfit(card, *place, 65535)


def misfit(card, *change):
    """Tables with a number that does not fit its field."""
    tables = given(changed(card, *change))
    assert spelt(tables) == net.Refusal(17, 0), (card.version, change)
    return tables


def uneven_tables(card):
    """A number and a row more and fewer in each slice."""
    for index, row in enumerate(SLICES.values()):
        size = len(row._fields)
        numbers = given(card).slices[index]
        for other in (numbers[:-1], numbers + [0], numbers[:-size], numbers + numbers[-size:]):
            tables = given(card)
            tables.slices[index] = other
            assert spelt(tables) == net.Refusal(17, 0), (index, len(other))
            yield tables


def hierarchy_tables():
    """For each number of the check a card of each version, into a buffer that is too short, just long enough and longer."""
    for number in (0, *net.PASS_TWO):
        found = [card for other, card in hierarchies.drawn() if other == number]
        for card in (dataclasses.replace(card, version=version) for version, card in zip(net.VERSIONS, found)):
            length = len(cards.encode(card))
            yield from (given(card, room) for room in (0, length - 1, length, length + 3))


def random_tables(rng):
    card = samples.any_card(rng) if rng.randrange(3) else hierarchies.random_family(rng)
    length = len(cards.encode(card))
    return given(samples.given_tables(rng, card), length + rng.choice((-1, 0, 1, 20)))


def tables_cases(rng):
    largest = sized(31 * [(8, 8, 31)] + [(7, 7, 31)])
    return [
        *(given(bench, room) for bench in BENCHES for room in (29, 28, 30, 0, 64, 65)),
        *refused_tables(),
        *(given(sized(subnets), 2000) for subnets in RIGHT_SIZES),
        *edge_tables(), *later_edge_tables(),
        *(tables for card in (*BENCHES, misversioned(BENCHES[0])) for tables in uneven_tables(card)),
        *(given(largest, room) for room in (22769, 22770, 22771)),
        *hierarchy_tables(),
        *(random_tables(rng) for _ in range(60)),
    ]


# The answers


def rows_of(tables):
    """The tables' rows as a card; None where a slice ends inside a row."""
    rows = []
    for numbers, row in zip(tables.slices, SLICES.values()):
        size = len(row._fields)
        if len(numbers) % size != 0:
            return None
        rows.append([row(*numbers[at:at + size]) for at in range(0, len(numbers), size)])
    version, signals, limit, scale = tables.header
    return cards.Card(signals, *rows, version, limit, scale)


def spelt(tables):
    """Layer 1's writer: the bytes of the card that the tables make, or a Refusal."""
    card = rows_of(tables)
    if card is None or not cards.fits(card):
        return net.Refusal(17, 0)
    data = cards.encode(card)
    return data if whole(data) else net.read_card(data)


def written(tables):
    """Layer 2's writer."""
    card = rows_of(tables)
    return ("refused", 17, 0) if card is None else net.write_card(card, tables.room)


def refusal_number(answer):
    """The number of a check's answer, 0 if it is accepted."""
    return answer[1] if answer[0] == "refused" else 0


# What the program reads, and what it prints


def led(kind, data):
    return bytes([kind]) + len(data).to_bytes(2, "big") + data


def packed(tables):
    """The tables as numbers of two bytes. Zeros at the end are left out."""
    numbers = [*tables.header, *map(len, tables.slices), tables.room]
    numbers += sum(tables.slices, [])
    while numbers[-1] == 0:
        numbers.pop()
    return struct.pack(f">{len(numbers)}H", *numbers)


def line(*words):
    return " ".join(map(str, words)) + "\n"


def shown(data, room):
    """All of a buffer that the data was written into: in hexadecimal, or as a checksum."""
    after = data + GUARD * (room - len(data))
    return after.hex() if room <= 64 else zlib.adler32(after)


def check_line(data):
    answer, *numbers = net.check(data)
    return line("check", "ok" if answer == "accepted" else "no", *numbers)


def read_line(data):
    card = net.read_card(data)
    if isinstance(card, net.Refusal):
        return line("read no", *card)
    return line("read ok", len(card.subnets), len(card.places), len(card.transitions))


def spell_line(tables):
    data = spelt(tables)
    if isinstance(data, net.Refusal):
        return line("spell no", *data)
    if tables.room < len(data):
        return line("spell short", len(data), shown(b"", tables.room))
    return line("spell ok", len(data), shown(data, tables.room))


def write_line(tables):
    answer, *values = written(tables)
    if answer == "wrote":
        return line("write ok", len(values[0]), shown(values[0], tables.room))
    if answer == "short":
        values = 24, *values
    return line("write no", *values, shown(b"", tables.room))


def tables_lines(tables):
    return spell_line(tables) + write_line(tables)


def card_lines(data):
    """A card that is read whole is written back into a buffer of its length."""
    lines = check_line(data) + read_line(data)
    return lines + tables_lines(given(net.read_card(data), len(data))) if whole(data) else lines


def cases():
    """Each case's bytes and lines: the cards, then the tables. One that is made twice stands there once."""
    rng = random.Random(1)
    made = [(led(CARD, data), card_lines(data)) for data in card_cases(rng)]
    made += [(led(TABLES, packed(tables)), tables_lines(tables)) for tables in tables_cases(rng)]
    return list(dict.fromkeys(made))


def files():
    """The two files' contents by name. The last case of the input is not all there: no line."""
    made = cases()
    stdin = b"".join(data for data, _ in made) + made[0][0][:-1]
    assert len(stdin) <= 262144, len(stdin)
    return {"stdin": stdin, "stdout": "".join(lines for _, lines in made).encode()}
