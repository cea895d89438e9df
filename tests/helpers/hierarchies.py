"""Cards for the check, each with the number of its refusal, or 0 if it is accepted.

A change is a table, an index in it, and the fields of that row which get other values.
"""

import itertools
from dataclasses import replace
from typing import NamedTuple

import cards
import net
import samples
from cards import DRAW, FILL, IN, IN_OUT, NORMAL, OUT


def changed(card, *changes):
    for table, index, values in changes:
        card = cards.change(card, table, index, **values)
    return card


def arc(index, *row):
    return "arcs", index, dict(zip(("direction", "subnet", "place", "weight"), row))


def field(table, index, name, value):
    return table, index, {name: value}


# Arcs, units and interface places


def tree():
    """Subnet 0 with children 1 and 3, subnet 1 with child 2.

    The places are 0 and 1 of subnet 0, 2 to 5 of subnet 1, 6 of subnet 2, 7 of subnet 3. The arcs
    are 0 to 4 and 5, 6 of subnet 0, 7 to 9 of subnet 1, 10 and 11 of subnet 2, 12 of subnet 3.
    """
    return cards.tables(
        2,
        (0, 0, [(NORMAL, 1, 1), (NORMAL, 2, 0)],
         [(0, [(DRAW, 0, 0, 1), (FILL, 1, 0, 1), (DRAW, 1, 1, 2), (DRAW, 1, 2, 2),
               (FILL, 1, 2, 1)]),
          (1, [(DRAW, 0, 0, 1), (FILL, 0, 1, 1)])]),
        (0, 0, [(IN, 1, 0), (OUT, 2, 0), (IN_OUT, 3, 0), (NORMAL, 1, 0)],
         [(1, [(DRAW, 1, 0, 1), (FILL, 1, 1, 1), (FILL, 2, 0, 1)])]),
        (1, 0, [(IN_OUT, 1, 0)], [(0, [(DRAW, 2, 0, 1)]), (0, [(FILL, 2, 0, 1)])]),
        (0, 0, [(IN_OUT, 1, 0)], [(0, [(DRAW, 3, 0, 1)])]))


def no_subnet():
    """An arc to a subnet that is not there; the card's first numbers look like a child's row."""
    return cards.tables(3, (0, 0, [(NORMAL, 1, 1)], [(1, [(DRAW, 0, 0, 1)])]),
                        (0, 0, [(IN_OUT, 1, 0)], [(0, [(DRAW, 1, 0, 1), (FILL, 31, 2, 1)])]))


TOKEN_LOOP = arc(6, FILL, 0, 0, 1)          # 2 in all at a place of capacity 1
CHILD_LOOP = arc(4, FILL, 1, 2, 2)          # 4 in all at a child's place of capacity 3
NO_UNIT = arc(5, DRAW, 0, 1, 1)             # subnet 0's second transition is at place 1 only
NO_INNER = arc(9, FILL, 1, 3, 1), field("places", 6, "kind", NORMAL)    # subnet 2 is sealed
NO_LAST = field("places", 7, "kind", NORMAL)                            # subnet 3 is sealed
SAME_TYPE = field("subnets", 1, "type", 3), field("subnets", 3, "type", 3)

# The number, and what is changed in the tree.
ARCS = [
    (0,),
    (0, arc(6, FILL, 1, 0, 1)),             # two transitions have one arc
    (0, arc(8, DRAW, 1, 2, 1)),             # within the owner every direction is free
    (0, arc(7, FILL, 1, 0, 1), arc(8, DRAW, 1, 1, 2)),
    (0, arc(7, DRAW, 1, 1, 1)),             # the child's place is the only one of capacity 1
    (0, arc(9, DRAW, 2, 0, 1)),
    (10, arc(0, DRAW, 0, 2, 1)),            # no such place
    (10, arc(0, DRAW, 0, 255, 1)),
    (10, arc(1, FILL, 1, 4, 1)),
    (10, arc(1, FILL, 4, 0, 1)),            # no such subnet
    (10, arc(1, FILL, 31, 0, 1)),
    (10, arc(9, FILL, 31, 0, 1)),
    (10, arc(1, FILL, 1, 3, 1)),            # a child's normal place
    (10, arc(1, FILL, 2, 0, 1)),            # a grandchild's
    (10, arc(9, FILL, 3, 0, 1)),            # a sibling's
    (10, arc(9, FILL, 0, 0, 1)),            # the parent's
    (10, arc(11, FILL, 1, 0, 1)),
    (10, arc(12, DRAW, 2, 0, 1)),           # a sibling's child's
    (10, arc(1, DRAW, 1, 3, 0)),            # also a wrong weight
    (10, arc(1, DRAW, 2, 0, 2)),
    (10, arc(6, DRAW, 0, 2, 0), NO_UNIT),
    (11, arc(1, DRAW, 1, 0, 1)),            # draws from in
    (11, arc(2, FILL, 1, 1, 2)),            # fills out
    (11, arc(1, DRAW, 1, 0, 2)),            # also a wrong weight
    (11, arc(2, FILL, 1, 1, 0)),
    (11, arc(4, DRAW, 1, 0, 0)),
    (12, arc(0, DRAW, 0, 0, 0)),
    (12, arc(0, DRAW, 0, 0, 2)),
    (12, arc(1, FILL, 1, 0, 255)),
    (12, arc(2, DRAW, 1, 1, 3)),
    (12, arc(4, FILL, 1, 2, 4)),
    (12, arc(12, DRAW, 3, 0, 0)),
    (12, arc(6, DRAW, 0, 0, 2)),            # also repeated
    (12, arc(4, DRAW, 1, 2, 0)),
    (12, NO_UNIT, arc(6, FILL, 0, 1, 3)),   # also no place of capacity 1
    (13, arc(6, DRAW, 0, 0, 1)),
    (13, arc(4, DRAW, 1, 2, 2)),
    (13, arc(4, DRAW, 1, 2, 1)),            # with another weight
    (13, arc(4, DRAW, 0, 0, 1)),            # four arcs on
    (13, arc(3, FILL, 1, 0, 1)),
    (13, NO_UNIT, arc(6, DRAW, 0, 1, 2)),   # also no place of capacity 1
    (26, TOKEN_LOOP),
    (26, CHILD_LOOP),
    (14, NO_UNIT),
    (14, arc(7, DRAW, 1, 1, 1), arc(9, DRAW, 1, 2, 1)),
    (14, field("places", 0, "capacity", 2)),
    (14, field("places", 0, "capacity", 2), field("places", 2, "capacity", 2)),
    (14, field("places", 7, "capacity", 2)),
    (15, NO_LAST),
    (15, *NO_INNER),
    (15, *NO_INNER, NO_LAST),
    (16, *SAME_TYPE),
    # Of two faults the earlier arc's counts, whatever the numbers.
    (10, arc(0, DRAW, 0, 2, 1), arc(1, DRAW, 1, 0, 1)),
    (12, arc(0, DRAW, 0, 0, 0), arc(1, FILL, 1, 3, 1)),
    (11, arc(1, DRAW, 1, 0, 1), arc(2, DRAW, 1, 3, 1)),
    (13, arc(3, FILL, 1, 0, 1), arc(4, FILL, 2, 0, 1)),
    (10, arc(2, FILL, 2, 0, 1), arc(4, DRAW, 1, 2, 3)),
    (10, arc(2, FILL, 2, 0, 1), CHILD_LOOP),
    (26, arc(2, FILL, 0, 0, 1), arc(3, DRAW, 1, 3, 1)),
    # A transition's 14 comes before a later one's arcs, and after an earlier one's.
    (14, NO_UNIT, arc(7, DRAW, 1, 4, 1)),
    (14, NO_UNIT, arc(7, DRAW, 1, 0, 0)),
    (10, NO_UNIT, arc(1, FILL, 1, 3, 1)),
    (13, NO_UNIT, arc(4, DRAW, 0, 0, 1)),
    (26, NO_UNIT, CHILD_LOOP),
    (14, NO_UNIT, arc(7, DRAW, 1, 1, 2)),
    # 15 and 16 come after all arcs, and 16 after all of 15.
    (10, *NO_INNER, arc(12, DRAW, 3, 1, 1)),
    (12, *NO_INNER, NO_LAST, arc(12, DRAW, 3, 0, 2)),
    (14, *NO_INNER, field("places", 7, "capacity", 2)),
    (26, *NO_INNER, NO_LAST, arc(8, DRAW, 1, 3, 1)),
    (12, *SAME_TYPE, arc(12, DRAW, 3, 0, 2)),
    (26, *SAME_TYPE, TOKEN_LOOP),
    (15, *SAME_TYPE, *NO_INNER),
    (15, *SAME_TYPE, NO_LAST),
]


# Loops

UNIT = DRAW, 0, 4, 1      # at a place of capacity 1, which a transition needs


def looping(*transitions, inner=((DRAW, 1, 0, 1),)):
    """Subnet 0 with these transitions, lists of arcs, and its child 1 with one.

    Places 0 to 3 of both have capacities 1, 2, 3 and 255. Those of the child are in-out, but for an in place 3. Place 4 of subnet 0 has
    capacity 1 as well.
    """
    capacities = 1, 2, 3, 255
    kinds = IN_OUT, IN_OUT, IN_OUT, IN
    return cards.tables(1, (0, 0, [(NORMAL, capacity, 0) for capacity in (*capacities, 1)], [(0, arcs) for arcs in transitions]),
                        (0, 0, [(kind, capacity, 0) for kind, capacity in zip(kinds, capacities)], [(0, inner)]))


# The number, a place of looping(), and two weights.
LOOP_WEIGHTS = [
    (26, 0, 1, 1),
    (0, 1, 1, 1), (26, 1, 1, 2), (26, 1, 2, 2),
    (0, 2, 1, 1), (0, 2, 1, 2), (26, 2, 2, 2), (26, 2, 1, 3), (26, 2, 3, 3),
    (0, 3, 127, 128), (0, 3, 1, 254), (26, 3, 128, 128), (26, 3, 1, 255), (26, 3, 255, 255),
]


def weighed_loops():
    """A loop of each two weights, with either direction first and either weight first; and a further arc before, between or behind, in turn."""
    at = itertools.cycle(range(3))
    for number, place, *two in LOOP_WEIGHTS:
        for directions, weights in itertools.product(itertools.permutations((DRAW, FILL)), itertools.permutations(two)):
            arcs = [(direction, 0, place, weight) for direction, weight in zip(directions, weights)]
            arcs.insert(next(at), UNIT)
            yield number, looping(arcs)


# The number, and the transitions of looping().
LOOPS = [
    # At a child's place.
    (26, [UNIT, (DRAW, 1, 0, 1), (FILL, 1, 0, 1)]),
    (0, [(FILL, 1, 1, 1), UNIT, (DRAW, 1, 1, 1)]),
    (26, [(FILL, 1, 1, 1), UNIT, (DRAW, 1, 1, 2)]),
    (0, [(FILL, 1, 2, 2), (DRAW, 1, 2, 1), UNIT]),
    (26, [(FILL, 1, 2, 2), (DRAW, 1, 2, 2), UNIT]),
    # No loop: two transitions, two subnets, two places.
    (0, [UNIT, (DRAW, 0, 2, 3)], [(FILL, 0, 2, 3), UNIT]),
    (0, [UNIT, (DRAW, 1, 2, 3)], [(FILL, 1, 2, 3), UNIT]),
    (0, [(DRAW, 0, 2, 3), (FILL, 1, 2, 3), UNIT]),
    (0, [(FILL, 0, 0, 1), (DRAW, 1, 0, 1)]),
    (0, [UNIT, (FILL, 0, 0, 1), (DRAW, 0, 2, 3), (FILL, 0, 3, 255)]),
    # One arc that has another fault too.
    (12, [UNIT, (DRAW, 0, 2, 1), (FILL, 0, 2, 4)]),
    (12, [UNIT, (DRAW, 0, 2, 3), (FILL, 0, 2, 0)]),
    (11, [UNIT, (FILL, 1, 3, 255), (DRAW, 1, 3, 255)]),
    (13, [UNIT, (DRAW, 0, 2, 1), (FILL, 0, 2, 1), (FILL, 0, 2, 3)]),
    (13, [UNIT, (FILL, 0, 2, 2), (DRAW, 0, 2, 1), (DRAW, 0, 2, 2)]),
    # The earlier of two arcs with faults.
    (13, [UNIT, (DRAW, 0, 2, 1), (DRAW, 0, 2, 1), (FILL, 0, 2, 3)]),
    (26, [UNIT, (DRAW, 0, 2, 1), (FILL, 0, 2, 3), (DRAW, 0, 2, 1)]),
    (26, [UNIT, (DRAW, 0, 2, 1), (FILL, 0, 2, 3), (DRAW, 0, 5, 1)]),
    (10, [UNIT, (DRAW, 0, 2, 1), (DRAW, 0, 5, 1), (FILL, 0, 2, 3)]),
    (26, [(DRAW, 0, 2, 2), (FILL, 0, 2, 2)]),
    (14, [(DRAW, 0, 2, 2), (FILL, 0, 2, 1)]),
    (14, [(DRAW, 0, 2, 2)], [(DRAW, 0, 0, 1), (FILL, 0, 0, 1)]),
    (26, [UNIT], [UNIT], [(FILL, 0, 2, 2), UNIT, (DRAW, 0, 2, 2)], [(DRAW, 0, 2, 2)]),
    # Two loops: the first that is complete, of those above the capacity.
    (26, [UNIT, (DRAW, 0, 2, 1), (DRAW, 0, 1, 1), (FILL, 0, 1, 2), (FILL, 0, 2, 3)]),
    (26, [UNIT, (DRAW, 0, 2, 1), (DRAW, 0, 1, 1), (FILL, 0, 1, 1), (FILL, 0, 2, 3)]),
    (26, [UNIT, (DRAW, 0, 2, 1), (DRAW, 0, 1, 1), (FILL, 0, 2, 2), (FILL, 0, 1, 2)]),
    (0, [UNIT, (DRAW, 0, 2, 1), (DRAW, 0, 1, 1), (FILL, 0, 2, 2), (FILL, 0, 1, 1)]),
]


def inner_loops():
    """Loops in the child: at an in place, where both directions are free to it, and with the parent at an in-out place."""
    return [
        (0, looping([UNIT], inner=[(DRAW, 1, 0, 1), (FILL, 1, 3, 127), (DRAW, 1, 3, 128)])),
        (26, looping([UNIT], inner=[(DRAW, 1, 0, 1), (FILL, 1, 3, 128), (DRAW, 1, 3, 128)])),
        (0, looping([UNIT, (DRAW, 1, 2, 3)], inner=[(FILL, 1, 2, 3), (DRAW, 1, 0, 1)])),
    ]


def far_loop(weight):
    """A loop of the first and the last of 31 arcs, at a place of capacity 2."""
    arcs = [(DRAW, 0, 0, 1), *((DRAW, 0, place, 1) for place in range(1, 30)), (FILL, 0, 0, weight)]
    return cards.tables(1, (0, 0, [(NORMAL, 2, 0), *29 * [(NORMAL, 1, 0)]], [(0, arcs)]))


# Alike subnets

GATE, HATCH = (IN_OUT, 1, 0), (OUT, 2, 0)
DRIVE = [(IN_OUT, 1, 0), (NORMAL, 3, 1)]
MAIN = (0, 0, [(NORMAL, 1, 1)], [(0, [(DRAW, 0, 0, 1)])])


def strokes(own, arm, hand):
    """The transitions of a drive, with the numbers of its two children."""
    return [(0, [(DRAW, own, 0, 1), (FILL, own, 1, 2)]),
            (1, [(DRAW, own, 1, 1), (FILL, arm, 0, 1), (DRAW, hand, 0, 1)])]


def gate(number, parent, type_):
    return parent, type_, [GATE], [(0, [(DRAW, number, 0, 1)])]


def hand(number, parent):
    return parent, 6, [GATE, HATCH], [(1, [(FILL, number, 0, 1), (FILL, number, 1, 2)])]


def pair(places=DRIVE, transitions=strokes(2, 4, 6), more=()):
    """Drives 1 and 2 of type 3, the second one as given; arms 3 and 4 and hands 5 and 6.

    The second drive has places 3 and 4 and arcs 6 to 10. Arms have places 5 and 6 and arcs 11 and
    12, hands places 7 to 10 and arcs 13 to 16.
    """
    return cards.tables(2, MAIN, (0, 3, DRIVE, strokes(1, 3, 5)), (0, 3, places, transitions),
                        gate(3, 1, 5), gate(4, 2, 5), hand(5, 1), hand(6, 2), *more)


# The number, and what is changed in the pair.
PAIR = [
    (0,),
    (0, field("places", 4, "tokens", 3)),
    (0, field("transitions", 4, "signal", 0)),
    (0, field("subnets", 2, "type", 0), arc(7, FILL, 2, 1, 1)),
    (0, field("subnets", 2, "type", 31), arc(7, FILL, 2, 1, 1)),
    (0, field("subnets", 3, "type", 7), field("subnets", 4, "type", 7)),
    (0, field("subnets", 1, "type", 0), field("subnets", 2, "type", 0),
     field("subnets", 3, "type", 0)),
    (16, field("places", 3, "kind", OUT)),
    (16, field("places", 4, "kind", IN)),
    (16, field("places", 4, "capacity", 4)),
    (16, arc(6, FILL, 2, 0, 1)),
    (16, arc(7, FILL, 2, 1, 1)),
    (16, arc(7, DRAW, 2, 1, 2)),
    (16, arc(8, DRAW, 2, 0, 1)),
    (26, arc(9, FILL, 6, 0, 1)),            # the other child, from which arc 10 draws
    (16, arc(9, FILL, 2, 0, 1)),            # the own place of that number
    (16, arc(4, FILL, 1, 0, 1)),
    (16, arc(10, DRAW, 2, 0, 1)),
    (16, arc(9, FILL, 6, 0, 1), arc(10, DRAW, 4, 0, 1)),
    (16, arc(10, FILL, 6, 0, 1)),
    (16, arc(10, DRAW, 6, 1, 1)),
    (16, field("subnets", 4, "type", 7)),   # the first two children, the last two
    (16, field("subnets", 6, "type", 7)),
    (16, field("subnets", 5, "type", 7)),
    (16, field("subnets", 4, "type", 0)),
    (16, field("subnets", 3, "type", 0), field("subnets", 4, "type", 0)),
    (16, field("subnets", 5, "type", 0), field("subnets", 6, "type", 0)),
    (16, field("places", 6, "kind", IN)),   # the drives are alike, their children are not
    (16, field("places", 10, "capacity", 3)),
    (16, field("places", 10, "kind", IN_OUT)),
    (16, arc(16, FILL, 6, 1, 1)),
    (16, field("places", 10, "kind", IN_OUT), arc(7, FILL, 2, 1, 1)),
    (10, field("subnets", 6, "parent", 1)),
    (15, field("subnets", 4, "type", 7), field("places", 9, "kind", NORMAL),
     field("places", 10, "kind", NORMAL), arc(10, DRAW, 2, 0, 1)),
]


def uneven_pairs():
    """Counts and orders that differ in the second drive."""
    own, other = strokes(2, 4, 6)
    turned = [(0, [(DRAW, 2, 1, 1), (FILL, 2, 0, 2)]),
              (1, [(DRAW, 2, 0, 1), (FILL, 4, 0, 1), (DRAW, 6, 0, 1)])]
    return [
        (16, pair(places=DRIVE + [GATE])),
        (16, pair(places=DRIVE[::-1], transitions=turned)),
        (16, pair(transitions=[own])),
        (16, pair(transitions=[own, other, own])),
        (16, pair(transitions=[other, own])),
        (16, pair(transitions=[own, (1, other[1][:2])])),
        (16, pair(transitions=[own, (1, other[1] + [(FILL, 2, 0, 1)])])),
        (16, pair(transitions=[own, (1, other[1][::-1])])),
        (16, pair(transitions=[(0, own[1] + other[1][2:]), (1, other[1][:2])])),
    ]


def larger_families():
    """The pair with further subnets, from number 7 on."""
    third = 0, 3, DRIVE, strokes(7, 8, 9)
    return [(number, pair(more=more)) for number, more in [
        (0, [gate(7, 0, 5)]),
        (0, [gate(7, 1, 7), gate(8, 2, 7)]),                # a third child of both
        (16, [gate(7, 1, 7)]),
        (16, [gate(7, 2, 7)]),
        (16, [gate(7, 1, 7), gate(8, 2, 8)]),
        (16, [gate(7, 1, 0), gate(8, 2, 0)]),
        (0, [gate(7, 3, 7), gate(8, 4, 7)]),                # a child's child of both
        (16, [gate(7, 3, 7)]),
        (16, [gate(7, 4, 7)]),
        (16, [gate(7, 3, 7), gate(8, 4, 8)]),
        (0, [third, gate(8, 7, 5), hand(9, 7)]),            # a third drive
        (10, [third, gate(8, 7, 5), hand(9, 1)]),
        (16, [(0, 3, DRIVE, strokes(7, 8, 7)), gate(8, 7, 5)]),
        (26, [(0, 3, DRIVE, strokes(7, 8, 8)), gate(8, 7, 5)]),
        (16, [third, gate(8, 7, 5), gate(9, 7, 6)]),
        (16, [third, hand(8, 7), gate(9, 7, 5)]),
        (16, [(0, 3, DRIVE, strokes(7, 9, 8)), hand(8, 7), gate(9, 7, 5)]),
        (16, [(0, 3, DRIVE, strokes(7, 7, 7)[:1])]),
        (0, [(0, 3, DRIVE, strokes(7, 30, 31)),             # its children are the last of 32
             *(gate(number, 0, 0) for number in range(8, 30)), gate(30, 7, 5), hand(31, 7)]),
        (16, [gate(7, 0, 9), gate(8, 7, 9)]),               # a child of its parent's type
        (0, [(0, 9, DRIVE, strokes(7, 8, 8)[:1]), gate(8, 7, 5)]),
    ]]


def crowd(kind):
    """31 children of subnet 0 of one type, the last of them with a place of this kind."""
    rows = [gate(number, 0, 31) for number in range(1, 31)]
    return cards.tables(1, MAIN, *rows, (0, 31, [(kind, 1, 0)], [(0, [(DRAW, 31, 0, 1)])]))


def longest_card():
    """A chain of 32 subnets, 255 places and 255 transitions, these with all arcs there can be.

    Place 0 of each odd subnet has capacity 1, so that it and its parent see just one such place. The others have 2, the weights of a loop.
    """
    sizes = 31 * [8] + [7, 0]

    def capacity(number, place):
        return 1 if number % 2 and place == 0 else 2

    def ends(number):
        return [(direction, number, place, 1) for direction in (DRAW, FILL) for place in range(sizes[number])
                if direction == DRAW or capacity(number, place) == 2]

    rows = []
    for number in range(32):
        places = [(IN_OUT if number else NORMAL, capacity(number, place), 0) for place in range(sizes[number])]
        rows.append((max(number - 1, 0), 0, places, sizes[number] * [(0, ends(number) + ends(number + 1))]))
    return cards.tables(1, *rows)


def numbered():
    """Every card with its number, of either version in turn: the check is the same for both."""
    for version, (number, card) in zip(itertools.cycle(net.VERSIONS), drawn()):
        yield number, replace(card, version=version)


def drawn():
    """Every card with its number, as it is drawn above."""
    longest = longest_card()
    yield from ((number, changed(tree(), *changes)) for number, *changes in ARCS)
    yield from weighed_loops()
    yield from ((number, looping(*transitions)) for number, *transitions in LOOPS)
    yield from ((number, changed(pair(), *changes)) for number, *changes in PAIR)
    yield from uneven_pairs() + larger_families()
    yield from [
        (10, no_subnet()), (0, far_loop(1)), (26, far_loop(2)), *inner_loops(),
        (0, samples.twins((3, 4), (5, 6))), (16, samples.twins((3, 4), (6, 5))),
        (0, samples.twins((4,), (6,))), (16, samples.twins((4,), (5,))),
        (0, crowd(IN_OUT)), (16, crowd(OUT)), (15, crowd(NORMAL)),
        (0, longest), (26, changed(longest, field("arcs", len(longest.arcs) - 1, "weight", 2))),
    ]


# Random families


class Drawing(NamedTuple):
    """A subnet of some type, wherever it stands."""
    type: int
    children: list
    places: list        # kind and capacity
    transitions: list   # lists of arcs: direction, child's rank or None for the own, place, weight


def random_drawing(rng, type_, children):
    places = [(rng.randint(1, 3), 1)]
    places += [(rng.randrange(4), rng.randint(1, 3)) for _ in range(rng.randrange(3))]
    ends = [(direction, None, place, capacity)
            for place, (_, capacity) in enumerate(places) for direction in (DRAW, FILL)]
    ends += [(direction, rank, place, capacity) for rank, child in enumerate(children)
             for place, (kind, capacity) in enumerate(child.places)
             for direction in samples.PARENT_MAY[kind]]
    transitions = []
    for _ in range(rng.randint(1, 2)):
        chosen = [ends[0], *rng.sample(ends[1:], rng.randint(0, min(4, len(ends) - 1)))]
        transitions.append(samples.random_arcs(rng, chosen))
    return Drawing(type_, children, places, transitions)


def placed(rng, roots):
    """Drawings with their parents, in a random order: a parent before its children, these in turn."""
    rows, waiting = [], [(0, list(roots))]
    while waiting:
        parent, row = waiting[rng.randrange(len(waiting))]
        rows.append((parent, row.pop(0)))
        waiting.append((len(rows), list(rows[-1][1].children)))
        waiting = [entry for entry in waiting if entry[1]]
    return rows


def random_family(rng):
    """The tables of an accepted card of either version, of alike subnets, some within others."""
    leaves = [random_drawing(rng, type_, []) for type_ in (5, 6)]
    drive = random_drawing(rng, 3, rng.choices(leaves, k=rng.randrange(4)))
    frame = random_drawing(rng, 4, [drive, leaves[0]])
    rows = placed(rng, rng.sample([drive, drive, frame, frame, leaves[1]], rng.randint(2, 4)))
    subnets = [MAIN]
    for number, (parent, drawing) in enumerate(rows, start=1):
        children = [child for child, row in enumerate(rows, start=1) if row[0] == number]
        numbers = {None: number, **dict(enumerate(children))}
        places = [(kind, capacity, rng.randint(0, capacity)) for kind, capacity in drawing.places]
        transitions = [(rng.randrange(2), [(direction, numbers[owner], place, weight)
                                           for direction, owner, place, weight in arcs])
                       for arcs in drawing.transitions]
        subnets.append((parent, drawing.type, places, transitions))
    return cards.tables(2, *subnets, version=rng.choice(net.VERSIONS))


# Fields that matter to pass two, and how many values each gets.
BENT = [("subnets", "type", 8), ("places", "kind", 4), ("places", "capacity", 5),
        ("arcs", "direction", 2), ("arcs", "subnet", 12), ("arcs", "place", 3), ("arcs", "weight", 4)]


def bent(rng, card):
    """Tables with one of these fields changed."""
    table, name, values = rng.choice(BENT)
    index = rng.randrange(len(getattr(card, table)))
    return cards.change(card, table, index, **{name: rng.randrange(values)})
