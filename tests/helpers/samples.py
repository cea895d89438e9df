"""Cards and rows for the tests: random ones, sound and damaged, large ones, and the paper's own."""

from dataclasses import replace
from typing import NamedTuple

from cards import DRAW, FILL, IN, IN_OUT, NORMAL, change, empty_row, encode, encode_row, encode_rows, fits, tables, widths
from net import MOST, VERSIONS, starts

# The directions that a parent may use at a place, by kind.
PARENT_MAY = ((), (FILL,), (DRAW,), (DRAW, FILL))


class Loop(NamedTuple):
    """Two arcs of a transition at one place, all by their numbers on the card; the sum of their weights, and the place's capacity."""
    transition: int
    arcs: tuple
    weight: int
    capacity: int


def loops(card):
    """The loops of tables whose arcs are at places that are there."""
    first_place = starts(row.places for row in card.subnets)
    first_arc = starts(row.arcs for row in card.transitions)
    found = []
    for transition in range(len(card.transitions)):
        earlier = {}
        for number in range(first_arc[transition], first_arc[transition + 1]):
            direction, subnet, place, weight = card.arcs[number]
            earlier[direction, subnet, place] = number
            other = earlier.get((1 - direction, subnet, place))
            if other is not None:
                capacity = card.places[first_place[subnet] + place].capacity
                found.append(Loop(transition, (other, number), card.arcs[other].weight + weight, capacity))
    return found


def full_loops(card):
    """The transitions that have a loop whose weights add to just the capacity of its place."""
    return {loop.transition for loop in loops(card) if loop.weight == loop.capacity}


def loop_weights(rng, capacity):
    """The weights of a loop: they add to the capacity, and in half of the cases to any number up to it."""
    total = rng.choice((capacity, rng.randint(2, capacity)))
    weight = rng.randint(1, total - 1)
    return weight, total - weight


def random_arcs(rng, ends):
    """Arcs at different ends (direction, subnet, place, capacity), in a random order. Two at one place get the weights of a loop; at
    capacity 1 the second of them is left out."""
    directions = {}
    for direction, *place in ends:
        directions.setdefault(tuple(place), []).append(direction)
    arcs = []
    for (*place, capacity), both in directions.items():
        weights = loop_weights(rng, capacity) if len(both) == 2 and capacity > 1 else [rng.randint(1, capacity)]
        arcs += [(direction, *place, weight) for direction, weight in zip(both, weights)]
    rng.shuffle(arcs)
    return arcs


def random_transition(rng, number, ends, signals):
    """An arc at the capacity-1 place 0 of its subnet, then others that are allowed; in one of four a loop with the last of them."""
    chosen = [(rng.randrange(2), number, 0, 1), *rng.sample(ends, rng.randint(0, min(3, len(ends))))]
    if rng.randrange(4) == 0:
        direction, *place = chosen[-1]
        chosen += [end for end in ends if end == (1 - direction, *place)]
    return (rng.randrange(signals), random_arcs(rng, list(dict.fromkeys(chosen))))


def random_card(rng, most_subnets=5, most_rows=4, most_signals=4):
    """The tables of a random accepted card of either version, every type 0. Place 0 of each subnet has capacity 1."""
    subnets = rng.randint(1, most_subnets)
    parents = [0] + [rng.randrange(number) for number in range(1, subnets)]
    places = []
    for number in range(subnets):
        rows = []
        for local in range(rng.randint(1, most_rows)):
            capacity = 1 if local == 0 else rng.randint(1, 4)
            kind = NORMAL if number == 0 else rng.randrange(4) if local else rng.randint(1, 3)
            rows.append((kind, capacity, rng.randint(0, capacity)))
        places.append(rows)
    signals = rng.randint(1, most_signals)
    rows = []
    for number in range(subnets):
        ends = [(direction, owner, local, place[1])
                for owner in range(subnets) for local, place in enumerate(places[owner])
                for direction in (DRAW, FILL)
                if owner == number or owner != 0 and parents[owner] == number
                and direction in PARENT_MAY[place[0]]]
        transitions = [random_transition(rng, number, ends, signals)
                       for _ in range(rng.randint(1, most_rows))]
        rows.append((parents[number], 0, places[number], transitions))
    return tables(signals, *rows, version=rng.choice(VERSIONS))


def twin_card(rng):
    """The tables of an accepted card with two alike subnets of type 3, each with a child of type 5."""
    place = (rng.randint(1, 3), 1, 0)
    other = (rng.randrange(4), rng.randint(1, 3), 0)
    gate = (3, 1, 0)
    weight = rng.randint(1, other[1])

    def drive(number, child):
        arcs = [(DRAW, number, 0, 1), (FILL, number, 1, weight), (FILL, child, 0, 1)]
        return (0, 3, [place[:2] + (rng.randrange(2),), other], [(rng.randrange(2), arcs)])

    def inner(number, parent):
        return (parent, 5, [gate], [(rng.randrange(2), [(DRAW, number, 0, 1)])])

    main = (0, 0, [(NORMAL, 1, 1)], [(0, [(DRAW, 0, 0, 1)])])
    return tables(2, main, drive(1, 3), drive(2, 4), inner(3, 1), inner(4, 2), version=rng.choice(VERSIONS))


def raised(rng, card, loop):
    """Tables with a loop's weights one above the capacity together."""
    number, other = rng.sample(loop.arcs, 2)
    return change(card, "arcs", number, weight=loop.capacity + 1 - card.arcs[other].weight)


def damaged(rng, card):
    """Tables with one field changed, of those that have bits, so that they may be refused."""
    found = loops(card)
    if found and rng.randrange(4) == 0:
        return raised(rng, card, rng.choice(found))
    table = rng.choice(("header", "subnets", "places", "transitions", "arcs"))
    if table == "header":
        version, signals = rng.choice(((0, 1), (3, 1), (1, 0), (2, 0), (1, 1), (2, 1)))
        return replace(card, version=version, signals=signals)
    index = rng.randrange(len(getattr(card, table)))
    row = getattr(card, table)[index]
    bits = getattr(widths(card.version), table)
    name = rng.choice([name for name, width in zip(row._fields, bits) if width])
    return change(card, table, index, **{name: rng.choice((0, 1, 2, 3, getattr(row, name) + 1))})


def later_fields(rng, card):
    """Tables of some version, with numbers in the fields that only later ones have."""
    index = rng.randrange(len(card.transitions))
    card = change(card, "transitions", index, rank=rng.choice((0, 0, 1, 255, 256)))
    return replace(card, version=rng.randint(1, 6), limit=rng.choice((0, 0, 1, 255, 256)),
                   scale=rng.choice((0, 0, 1, 16383, 16384)))


def given_tables(rng, card):
    """The tables of a card for the writer: as they are in half of the cases, and otherwise changed."""
    if rng.randrange(2):
        return card
    return later_fields(rng, card) if rng.randrange(2) else damaged(rng, card)


def sealed(card):
    """Tables whose places are all normal."""
    for index in range(len(card.places)):
        card = change(card, "places", index, kind=NORMAL)
    return card


def largest_card(rng):
    """Random tables of the most bytes that pass one takes: 255 transitions of 31 arcs."""
    bits = widths(1)

    def place(number):
        capacity = rng.randint(1, MOST)
        return (rng.randrange(4) if number else NORMAL, capacity, rng.randint(0, capacity))

    def transition():
        arcs = [tuple(rng.randrange(1 << width) for width in bits.arcs) for _ in range(31)]
        return (rng.randrange(63), arcs)

    rows = []
    for number in range(32):
        count = 8 if number < 31 else 7
        rows.append((rng.randrange(max(number, 1)), rng.randrange(32) if number else 0,
                     [place(number) for _ in range(count)], [transition() for _ in range(count)]))
    return tables(63, *rows)


def full_card(*subnets):
    """An accepted card of subnets (parent, type, places), with as many transitions as places.

    Each transition has as many arcs as the places that its subnet sees allow, 31 at most. The last is
    at the subnet's place 0. Only places 0 have capacity 1; elsewhere the two directions are a loop,
    whose weights add to the capacity.
    """
    def capacity(local):
        return 2 + 37 * local % 254 if local else 1

    def weight(direction, local):
        return (capacity(local) + (direction == DRAW)) // 2

    def transition(number, turn):
        owners = [number] + [child for child, row in enumerate(subnets) if child and row[0] == number]
        ends = [(direction, owner, local) for owner in owners for local in range(subnets[owner][2])
                for direction in ((DRAW, FILL) if local else (DRAW,))][1:]
        chosen = (ends[turn:] + ends[:turn])[:30] + [(DRAW, number, 0)]
        return (turn % 63, [(*end, weight(end[0], end[2])) for end in chosen])

    rows = []
    for number, (parent, type_, count) in enumerate(subnets):
        kind = IN_OUT if number else NORMAL
        places = [(kind, capacity(local), local % 2) for local in range(count)]
        rows.append((parent, type_, places, [transition(number, turn) for turn in range(count)]))
    return tables(63, *rows)


def busy_card(*subnets):
    """An accepted card of subnets (parent, type, places), on which many transfers are under way at any time.

    It has as many transitions as places, in pairs that undo each other: one draws from a place of capacity 1
    of its own, the other fills it, and each moves one token where the other moves it back.
    """
    def singles(owner):
        return (subnets[owner][2] + 1) // 2

    def transition(number, turn):
        owners = [number] + [child for child, row in enumerate(subnets) if child and row[0] == number]
        ends = [(direction, owner, local) for owner in owners for local in range(singles(owner), subnets[owner][2])
                for direction in (DRAW, FILL)]
        pair, back = divmod(turn, 2)
        from_here = 7 * pair % len(ends)
        chosen = (ends[from_here:] + ends[:from_here])[:30]
        return (5 * turn % 63, [(abs(direction - back), owner, local, 1) for direction, owner, local in chosen]
                + [(back, number, pair, 1)])

    rows = []
    for number, (parent, type_, count) in enumerate(subnets):
        kind = IN_OUT if number else NORMAL
        places = [(kind, 1, 1) if local < singles(number) else (kind, MOST, 128) for local in range(count)]
        rows.append((parent, type_, places, [transition(number, turn) for turn in range(count)]))
    return tables(63, *rows)


def torn(rng, data):
    """Bytes with a bit turned, cut short, or with a further byte."""
    kind = rng.randrange(3)
    if kind == 0 and data:
        at = rng.randrange(8 * len(data))
        turned = bytearray(data)
        turned[at // 8] ^= 0x80 >> at % 8
        return bytes(turned)
    if kind == 1:
        return data[:rng.randrange(len(data) + 1)]
    return data + bytes([rng.choice((0, 1, 128))])


def random_row(rng, signals):
    return tuple(rng.choice((0, 250, 500, 1000, rng.randint(0, 1001))) for _ in range(signals))


def some_up(rng, signals):
    """Last degrees with some signals up, so that an empty row starts transitions more often."""
    return tuple(rng.choice((0, 500, 1000)) for _ in range(signals))


def empty_or(rng, row):
    """An empty row in one of six cases, and otherwise this one."""
    return () if rng.randrange(6) == 0 else row


def in_file(row, signals):
    """A row's degrees as they stand in a rows file."""
    return row or empty_row(signals)


def file_bytes(rows, signals):
    """The bytes of a rows file with these rows, an empty one where there are no degrees."""
    return encode_rows(in_file(row, signals) for row in rows)


def nearly_empty(rng, signals):
    """An empty row's degrees in a rows file, but for one."""
    row = list(empty_row(signals))
    row[rng.randrange(signals)] = rng.choice((0, 500, 1000, 1001, 1022))
    return tuple(row)


def random_file_row(rng, signals, row):
    """This row as it stands in a rows file; now and then an empty one, or nearly so, in its place."""
    if rng.randrange(16) == 0:
        return nearly_empty(rng, signals)
    return in_file(empty_or(rng, row), signals)


def torn_file(rng, rows):
    """The bytes of a rows file, now and then with a nonzero fill bit or cut short."""
    rows = [bytearray(encode_row(row)) for row in rows]
    if rng.randrange(4) == 0:
        rows[rng.randrange(len(rows))][-1] |= 1
    data = b"".join(rows)
    return data[:-1] if rng.randrange(6) == 0 else data


def random_rows(rng, signals, most):
    """A rows file of a few rows, some of them empty, damaged or cut short."""
    return torn_file(rng, [random_file_row(rng, signals, random_row(rng, signals)) for _ in range(rng.randint(1, most))])


def any_card(rng, **sizes):
    return twin_card(rng) if rng.randrange(4) == 0 else random_card(rng, **sizes)


def random_bytes(rng, **sizes):
    """The bytes of a card: sound in half of the cases, damaged in the others."""
    card = any_card(rng, **sizes)
    if rng.randrange(20) == 0:
        card = sealed(card)
    kind = rng.randrange(4)
    if kind == 2:
        return torn(rng, encode(card))
    if kind == 3:
        changed = damaged(rng, card)
        return encode(changed if fits(changed) else card)
    return encode(card)


def bench_card(second=(FILL, 1, 0, 1), version=1):
    """Bench card A, with another second arc of subnet 0 or of another version if given."""
    return tables(2, (0, 0, [(NORMAL, 1, 1)], [(0, [(DRAW, 0, 0, 1), second])]),
                  (0, 0, [(1, 1, 0), (NORMAL, 2, 0)], [(1, [(DRAW, 1, 0, 1), (FILL, 1, 1, 1)])]), version=version)


def one_subnet(signals, places, transitions, version=1):
    return tables(signals, (0, 0, [(NORMAL, *place) for place in places],
                            [(signal, [(direction, 0, place, weight)
                                       for direction, place, weight in arcs])
                             for signal, arcs in transitions]), version=version)


def waiting(version=1):
    """One token comes to place 1, and two takers of it wait there."""
    return one_subnet(3, [(1, 1), (1, 0), (1, 0), (1, 0)],
                      [(0, [(DRAW, 0, 1), (FILL, 1, 1)]), (1, [(DRAW, 1, 1), (FILL, 2, 1)]), (2, [(DRAW, 1, 1), (FILL, 3, 1)])], version)


def twins(first, second):
    """Two subnets of type 3 with two children each, whose arcs to the children are ranked so."""
    gate = [(3, 1, 0)]
    main = (0, 0, [(NORMAL, 1, 1)], [(0, [(DRAW, 0, 0, 1)])])

    def drive(ranked):
        return (0, 3, gate, [(0, [(DRAW, child, 0, 1) for child in ranked])])

    def inner(number, parent):
        return (parent, 5, gate, [(0, [(DRAW, number, 0, 1)])])

    return tables(1, main, drive(first), drive(second), inner(3, 1), inner(4, 1), inner(5, 2),
                  inner(6, 2))


def telling_cards():
    """Cards with rows, each of which shows one sentence of the paper that random ones seldom reach."""
    loop = one_subnet(2, [(3, 1), (1, 0), (1, 0)],
                      [(0, [(DRAW, 0, 1), (FILL, 0, 1), (FILL, 1, 1)]),
                       (1, [(DRAW, 0, 1), (FILL, 2, 1)])])
    fillers = one_subnet(2, [(3, 0), (1, 1), (1, 1)],
                         [(0, [(DRAW, 1, 1), (FILL, 0, 2)]), (1, [(DRAW, 2, 1), (FILL, 0, 2)])])
    takers = one_subnet(2, [(1, 1), (1, 0), (1, 0)],
                        [(signal, [(DRAW, 0, 1), (FILL, signal + 1, 1)]) for signal in (0, 1)])
    one = one_subnet(1, [(1, 1), (1, 0)], [(0, [(DRAW, 0, 1), (FILL, 1, 1)])])
    grandchild = tables(1, (0, 0, [(NORMAL, 1, 0)], [(0, [(DRAW, 0, 0, 1), (FILL, 2, 0, 1)])]),
                        (0, 0, [(3, 1, 0)], [(0, [(DRAW, 1, 0, 1)])]),
                        (1, 0, [(3, 1, 0)], [(0, [(DRAW, 2, 0, 1)])]))
    return [
        ("no second taker starts while a loop carries", loop, [(500, 0), (500, 500), (1000, 500)]),
        ("what is due counts for a filler", fillers, [(100, 0), (100, 500), (1000, 500), (0, 900)]),
        ("a refused row's degrees are not stored", takers, [(500, 500), (500, 0), (900, 0)]),
        ("degrees do not add up past 1000", one, [(600,), (0,), (600,), (0,), (100,)]),
        ("a signal at 1000 moves nothing on version 1 until it falls and rises", one, [(1000,), (1000,), (0,)]),
        ("a transition starts in an empty row", bench_card(), [(), (1000, 500), (), (), (1000, 900), ()]),
        ("an empty row moves nothing that carries, and keeps the degrees", bench_card(), [(400, 0), (), (300, 0), (), (700, 0)]),
        ("a conflict in an empty row", waiting(), [(1000, 600, 600), (), (1000, 0, 600), (), (0, 600, 900)]),
        ("weight up to the capacity", bench_card((FILL, 1, 0, 1)), [(1000, 1000)]),
        ("weight past the capacity", bench_card((FILL, 1, 0, 2)), []),
        ("the k-th children of both", twins((3, 4), (5, 6)), [(700,)]),
        ("not the other children", twins((3, 4), (6, 5)), []),
        ("a grandchild is not seen", grandchild, []),
        ("a loop above the capacity", bench_card((FILL, 0, 0, 1)), []),
        *(entry[:3] for entry in loop_runs() + from_zero_runs()),
    ]


def loop_runs():
    """Cards with rows for loops whose weights add to just the capacity of their place, and the lines that a run prints, worked out by hand."""
    even = one_subnet(2, [(2, 1), (1, 1), (1, 0)],
                      [(0, [(DRAW, 0, 1), (DRAW, 1, 1), (FILL, 0, 1)]), (1, [(DRAW, 0, 1), (FILL, 2, 1)])])
    uneven = one_subnet(2, [(3, 3), (1, 0), (1, 1)],
                        [(0, [(FILL, 0, 1), (DRAW, 0, 2), (FILL, 1, 1)]), (1, [(DRAW, 0, 1), (DRAW, 2, 1)])])
    child = tables(2, (0, 0, [(NORMAL, 1, 1)], [(0, [(FILL, 1, 0, 2), (DRAW, 0, 0, 1), (DRAW, 1, 0, 1)])]),
                   (0, 0, [(IN_OUT, 3, 1), (NORMAL, 1, 0)], [(1, [(DRAW, 1, 0, 1), (FILL, 1, 1, 1)])]))
    return [
        ("no taker starts while a loop of the whole capacity carries", even, [(400, 0), (400, 500), (1000, 500), (), (1000, 900)],
         "1 ok 1000 600 0 | 400 -\n2 ok 1000 600 0 | 400 -\n3 ok 1000 0 0 | - -\n4 ok 1000 0 0 | - 0\n5 ok 600 0 400 | - 400\n"),
        ("a loop of 2 and 1 starts with two tokens of three", uneven, [(500, 0), (500, 1000), (700, 1000), (900, 0), (1000, 0)],
         "1 ok 3000 0 1000 | - -\n2 ok 2000 0 0 | - -\n3 ok 1800 200 0 | 200 -\n4 ok 1600 400 0 | 400 -\n5 ok 1500 500 0 | 500 -\n"),
        ("a loop of 1 and 2 at a child's place", child, [(300, 500), (300, 0), (600, 500), (1000, 500), (1000, 900)],
         "1 no 22 1\n2 ok 700 1300 0 | 300 -\n3 ok 400 1600 0 | 600 -\n4 ok 0 2000 0 | - 0\n5 ok 0 1600 400 | - 400\n"),
    ]


def from_zero_runs():
    """Version 2 cards with rows, and the lines that a run prints, worked out by hand."""
    bench = bench_card(version=2)
    takers = one_subnet(2, [(1, 1), (1, 0), (1, 0)],
                        [(signal, [(DRAW, 0, 1), (FILL, signal + 1, 1)]) for signal in (0, 1)], version=2)
    fillers = one_subnet(2, [(2, 1), (1, 1), (1, 1)],
                         [(signal, [(DRAW, signal + 1, 1), (FILL, 0, 1)]) for signal in (0, 1)], version=2)
    swing = one_subnet(1, [(1, 1), (1, 0)], [(0, [(DRAW, 0, 1), (FILL, 1, 1)]), (0, [(DRAW, 1, 1), (FILL, 0, 1)])], version=2)
    # Transitions 0 and 1 are on one signal, and transition 2 brings the token of transition 1.
    shared = one_subnet(2, [(1, 1), (1, 0), (1, 0), (1, 0), (1, 1)],
                        [(0, [(DRAW, 0, 1), (FILL, 1, 1)]), (0, [(DRAW, 2, 1), (FILL, 3, 1)]), (1, [(DRAW, 4, 1), (FILL, 2, 1)])], version=2)
    # The same with transition 2 and its places, 3 and 4, in a child, and its token brought by transition 1.
    parted = tables(2, (0, 0, [(NORMAL, 1, 1), (NORMAL, 1, 0), (NORMAL, 1, 1)],
                        [(0, [(DRAW, 0, 0, 1), (FILL, 0, 1, 1)]), (1, [(DRAW, 0, 2, 1), (FILL, 1, 0, 1)])]),
                    (0, 0, [(IN, 1, 0), (NORMAL, 1, 0)], [(0, [(DRAW, 1, 0, 1), (FILL, 1, 1, 1)])]), version=2)
    # Transition 1 makes room at place 2.
    heavy = one_subnet(2, [(5, 4), (7, 1), (1, 1)], [(0, [(DRAW, 0, 2), (FILL, 1, 3), (FILL, 2, 1)]), (1, [(DRAW, 2, 1)])], version=2)
    loop = one_subnet(2, [(2, 1), (1, 1), (1, 0)],
                      [(0, [(DRAW, 0, 1), (DRAW, 1, 1), (FILL, 0, 1)]), (1, [(DRAW, 0, 1), (FILL, 2, 1)])], version=2)
    return [
        ("a switch that is on already carries its transition across", bench, [(1000, 1000), (1000, 1000), (1000, 1000)],
         "1 ok 0 1000 0 | - -\n2 ok 0 0 1000 | - -\n3 ok 0 0 1000 | - -\n"),
        ("a start counts from zero, later rows from the last degree", bench, [(1000, 300), (1000, 300), (1000, 700), (1000, 600), (1000, 1000)],
         "1 ok 0 1000 0 | - -\n2 ok 0 700 300 | - 300\n3 ok 0 300 700 | - 700\n4 ok 0 300 700 | - 700\n5 ok 0 0 1000 | - -\n"),
        ("a start while the signal falls", bench, [(1000, 800), (1000, 500), (1000, 500), (1000, 900), (1000, 0)],
         "1 ok 0 1000 0 | - -\n2 ok 0 500 500 | - 500\n3 ok 0 500 500 | - 500\n4 ok 0 100 900 | - 900\n5 ok 0 100 900 | - 900\n"),
        ("a start while the signal rises", bench, [(1000, 200), (1000, 500), (1000, 1), (1000, 400)],
         "1 ok 0 1000 0 | - -\n2 ok 0 500 500 | - 500\n3 ok 0 500 500 | - 500\n4 ok 0 101 899 | - 899\n"),
        ("a start in an empty row", bench, [(1000, 600), (), (), (1000, 900), (1000, 1000)],
         "1 ok 0 1000 0 | - -\n2 ok 0 400 600 | - 600\n3 ok 0 400 600 | - 600\n4 ok 0 100 900 | - 900\n5 ok 0 0 1000 | - -\n"),
        ("a transfer that starts and ends in an empty row", bench, [(1000, 1000), (), ()],
         "1 ok 0 1000 0 | - -\n2 ok 0 0 1000 | - -\n3 ok 0 0 1000 | - -\n"),
        ("999 does not end a transfer", bench, [(1000, 999), (1000, 999), (1000, 0), (1000, 1)],
         "1 ok 0 1000 0 | - -\n2 ok 0 1 999 | - 999\n3 ok 0 1 999 | - 999\n4 ok 0 0 1000 | - -\n"),
        ("a switch that stays on starts its transitions again and again", swing, [(1000,), (), (400,), (), (1000,), ()],
         "1 ok 0 1000 | - -\n2 ok 1000 0 | - -\n3 ok 600 400 | 400 -\n4 ok 600 400 | 400 -\n5 ok 0 1000 | - -\n6 ok 1000 0 | - -\n"),
        ("one transition starts while another of its signal carries on", shared, [(300, 1000), (700, 1000), (1000, 0)],
         "1 ok 700 300 1000 0 0 | 300 - -\n2 ok 300 700 300 700 0 | 700 700 -\n3 ok 0 1000 0 1000 0 | - - -\n"),
        ("one transition starts while another of its signal, in another subnet, carries on", parted, [(300, 1000), (700, 1000), (1000, 0)],
         "1 ok 700 300 0 1000 0 | 300 - -\n2 ok 300 700 0 300 700 | 700 - 700\n3 ok 0 1000 0 0 1000 | - - -\n"),
        ("weights at a start", heavy, [(250, 1000), (250, 1000), (1000, 0)],
         "1 ok 4000 1000 0 | - -\n2 ok 3500 1750 250 | 250 -\n3 ok 2000 4000 1000 | - -\n"),
        ("takers claim all that they will move, though they end in the row", takers, [(1000, 1000), (500, 500), (1000, 0), (1000, 1000)],
         "1 no 22 0\n2 no 22 0\n3 ok 0 1000 0 | - -\n4 ok 0 1000 0 | - -\n"),
        ("fillers claim all that they will move, though they end in the row", fillers,
         [(1000, 1000), (500, 500), (500, 0), (500, 1000), (1000, 1000), ()],
         "1 no 22 0\n2 no 22 0\n3 ok 1500 500 1000 | 500 -\n4 ok 1500 500 1000 | 500 -\n5 ok 2000 0 1000 | - -\n6 ok 2000 0 1000 | - -\n"),
        ("a loop starts and ends in one row", loop, [(1000, 500), (1000, 0), (1000, 500), (), (0, 900)],
         "1 no 22 0\n2 ok 1000 0 0 | - -\n3 ok 500 0 500 | - 500\n4 ok 500 0 500 | - 500\n5 ok 100 0 900 | - 900\n"),
        ("refused rows start nothing and store no degrees", waiting(version=2),
         [(1000, 600, 600), (), (1000, 0, 600), (1000, 1001, 900), (1000, 0, 800), ()],
         "1 ok 0 1000 0 0 | - - -\n2 no 22 1\n3 ok 0 400 0 600 | - - 600\n4 no 21 1\n5 ok 0 200 0 800 | - - 800\n6 ok 0 200 0 800 | - - 800\n"),
    ]
