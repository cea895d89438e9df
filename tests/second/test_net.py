"""Cases of the paper and further ones, each expectation worked out by hand."""

import itertools
import random
import unittest
from dataclasses import replace

import cards
import net
from cards import DRAW, FILL, IN, IN_OUT, NORMAL, OUT, Subnet, change, tables, with_field
from net import State, SubnetState
from samples import empty_or, file_bytes, from_zero_runs, loop_runs, random_card, random_row


def card_bytes(signals, *subnets):
    return cards.encode(tables(signals, *subnets))


def second_version(data):
    """The same card as one of version 2."""
    return with_field(data, 0, 4, 2)


def row_bit(data, name):
    """The first bit of a row of a card, by its name in tools/cards.py."""
    return next(field.bit for field in cards.fields(data) if field.row == name)


TABLES_A = tables(
    2,
    (0, 0, [(NORMAL, 1, 1)], [(0, [(DRAW, 0, 0, 1), (FILL, 1, 0, 1)])]),
    (0, 0, [(IN, 1, 0), (NORMAL, 2, 0)], [(1, [(DRAW, 1, 0, 1), (FILL, 1, 1, 1)])]),
)
CARD_A = cards.encode(TABLES_A)

# The fields of bench card A: first bit and width.
FIELDS_A = [
    (0, 4), (4, 6), (10, 6),
    (16, 5), (21, 5), (26, 8), (34, 8),
    (42, 2), (44, 8), (52, 8),
    (60, 6), (66, 5),
    (71, 1), (72, 5), (77, 8), (85, 8),
    (93, 1), (94, 5), (99, 8), (107, 8),
    (115, 5), (120, 5), (125, 8), (133, 8),
    (141, 2), (143, 8), (151, 8),
    (159, 2), (161, 8), (169, 8),
    (177, 6), (183, 5),
    (188, 1), (189, 5), (194, 8), (202, 8),
    (210, 1), (211, 5), (216, 8), (224, 8),
]

# 16 + 26 + 3 x 18 + 2 x (11 + 2 x 22) = 206 bits, 26 bytes, two fill bits.
TABLES_B = tables(
    2,
    (0, 0, [(NORMAL, 1, 1), (NORMAL, 1, 0), (NORMAL, 1, 0)],
     [(0, [(DRAW, 0, 0, 1), (FILL, 0, 1, 1)]), (1, [(DRAW, 0, 0, 1), (FILL, 0, 2, 1)])]),
)
CARD_B = cards.encode(TABLES_B)


def takers(weight):
    """Capacity 3, two tokens, two takers."""
    return card_bytes(
        2,
        (0, 0, [(NORMAL, 3, 2), (NORMAL, 1, 0), (NORMAL, 1, 0)],
         [(0, [(DRAW, 0, 0, weight), (FILL, 0, 1, 1)]),
          (1, [(DRAW, 0, 0, weight), (FILL, 0, 2, 1)])]),
    )


FILLERS = card_bytes(
    2,
    (0, 0, [(NORMAL, 2, 1), (NORMAL, 1, 1), (NORMAL, 1, 1)],
     [(0, [(DRAW, 0, 1, 1), (FILL, 0, 0, 1)]), (1, [(DRAW, 0, 2, 1), (FILL, 0, 0, 1)])]),
)

# Transition 0 draws 1 from and fills 1 into place 0; transition 1 is a second taker.
LOOP = card_bytes(
    2,
    (0, 0, [(NORMAL, 3, 1), (NORMAL, 1, 0), (NORMAL, 1, 0)],
     [(0, [(DRAW, 0, 0, 1), (FILL, 0, 0, 1), (FILL, 0, 1, 1)]),
      (1, [(DRAW, 0, 0, 1), (FILL, 0, 2, 1)])]),
)

# Transition 0 brings a token to place 1; transitions 1 and 2 are takers of it.
WAITING = card_bytes(
    3,
    (0, 0, [(NORMAL, 1, 1), (NORMAL, 1, 0), (NORMAL, 1, 0), (NORMAL, 1, 0)],
     [(0, [(DRAW, 0, 0, 1), (FILL, 0, 1, 1)]),
      (1, [(DRAW, 0, 1, 1), (FILL, 0, 2, 1)]),
      (2, [(DRAW, 0, 1, 1), (FILL, 0, 3, 1)])]),
)


def both_runners(data, rows, seed=1):
    """Replies and states of the flat runner, checked against those of the subnet runner."""
    flat_state = net.fresh(net.load_flat(data))
    parts = net.load_subnets(data)
    subnet_state = net.fresh_subnets(parts)
    order = list(range(len(parts.parts)))
    shuffle = random.Random(seed).shuffle
    results = []
    for row in rows:
        shuffle(order)
        reply, flat_state = net.row_call(data, flat_state, row)
        other, subnet_state = net.subnet_row_call(data, subnet_state, order, row)
        if reply != other or flat_state != net.join_state(subnet_state):
            raise AssertionError((data.hex(), row, order, reply, other))
        results.append((reply, flat_state))
    return results


def run(data, rows):
    """What the run program prints; a row of no degrees is an empty one of the file."""
    return net.run_program(data, file_bytes(rows, net.load_flat(data).signals)).decode()


class Cases(unittest.TestCase):

    def refused(self, data, number, bit):
        self.assertEqual(net.check(data), ("refused", number, bit))

    def accepted(self, data, *counts):
        self.assertEqual(net.check(data), ("accepted", *counts))


class BenchCardA(Cases):

    def test_bytes(self):
        bits = ("0001" "000010" "000010"
                "00000" "00000" "00000001" "00000001"
                "00" "00000001" "00000001"
                "000000" "00010"
                "0" "00000" "00000000" "00000001"
                "1" "00001" "00000000" "00000001"
                "00000" "00000" "00000010" "00000001"
                "01" "00000001" "00000000"
                "00" "00000010" "00000000"
                "000001" "00010"
                "0" "00001" "00000000" "00000001"
                "1" "00001" "00000001" "00000001")
        self.assertEqual(len(bits), 232)
        self.assertEqual(len(CARD_A), 29)
        self.assertEqual(CARD_A[:2].hex(), "1082")
        self.assertEqual(CARD_A, bytes(int(bits[i:i + 8], 2) for i in range(0, 232, 8)))

    def test_reading(self):
        card = net.read_card(CARD_A)
        self.assertEqual(card, TABLES_A)
        self.assertEqual(card.subnet_bits, [16, 115])
        self.assertEqual(card.transition_bits, [60, 177])
        self.assertEqual(card.arc_bits, [71, 93, 188, 210])

    def test_first_list(self):
        self.accepted(CARD_A, 2, 3, 2)
        self.refused(b"", 1, 0)
        self.refused(CARD_A[:28], 1, 224)
        self.refused(CARD_A + b"\0", 9, 232)
        self.refused(with_field(CARD_A, 115, 5, 1), 4, 115)

    def test_second_arc(self):
        self.refused(with_field(CARD_A, 99, 8, 1), 10, 93)
        self.refused(with_field(CARD_A, 93, 1, DRAW), 11, 93)
        self.refused(with_field(CARD_A, 107, 8, 2), 12, 93)
        self.refused(with_field(CARD_A, 141, 2, NORMAL), 10, 93)

    def test_run(self):
        rows = [(400, 0), (300, 500), (1000, 500), (1000, 500), (1000, 900), (0, 1001)]
        self.assertEqual(run(CARD_A, rows),
                         "1 ok 600 400 0 | 400 -\n"
                         "2 ok 600 400 0 | 400 -\n"
                         "3 ok 0 1000 0 | - -\n"
                         "4 ok 0 1000 0 | - 0\n"
                         "5 ok 0 600 400 | - 400\n"
                         "6 no 21 1\n")
        replies = [reply for reply, _ in both_runners(CARD_A, rows)]
        self.assertEqual(replies, [("ok",)] * 5 + [("refused", 21, 1)])

    def test_card_b(self):
        self.assertEqual(run(CARD_B, [(500, 500)]), "1 no 22 0\n")
        self.assertEqual(run(CARD_B, [(500, 0), (500, 500)]),
                         "1 ok 500 500 0 | 500 -\n2 ok 500 500 0 | 500 -\n")
        both_runners(CARD_B, [(500, 500), (500, 0), (500, 500)])

    def test_takers(self):
        self.assertEqual(run(takers(1), [(500, 500)]), "1 ok 1000 500 500 | 500 500\n")
        self.assertEqual(run(takers(2), [(500, 500)]), "1 no 22 0\n")
        both_runners(takers(1), [(500, 500)])
        both_runners(takers(2), [(500, 500)])

    def test_fillers(self):
        self.assertEqual(run(FILLERS, [(500, 500)]), "1 no 22 0\n")
        both_runners(FILLERS, [(500, 500)])

    def test_loop(self):
        rows = [(300, 0), (600, 500), (1000, 900), (1000, 1000), (1000, 0), (1000, 250)]
        self.assertEqual(run(LOOP, rows),
                         "1 ok 1000 300 0 | 300 -\n"
                         "2 ok 1000 600 0 | 600 -\n"
                         "3 ok 1000 1000 0 | - -\n"
                         "4 ok 900 1000 100 | - 100\n"
                         "5 ok 900 1000 100 | - 100\n"
                         "6 ok 650 1000 350 | - 350\n")
        both_runners(LOOP, rows)


class PassOne(Cases):

    def test_1_every_length(self):
        for length in range(29):
            bit = next(start for start, width in FIELDS_A if start + width > 8 * length)
            self.refused(CARD_A[:length], 1, bit)
        self.refused(CARD_A[:1], 1, 4)
        self.refused(CARD_A[:2], 1, 16)
        self.refused(CARD_A[:5], 1, 34)

    def test_1_comes_after_an_earlier_field(self):
        self.refused(b"\x30", 2, 0)
        self.refused(with_field(CARD_A, 42, 2, IN)[:6], 7, 42)

    def test_2(self):
        for version in (0, *range(3, 16)):
            self.refused(with_field(CARD_A, 0, 4, version), 2, 0)
        for version in (1, 2):
            self.accepted(with_field(CARD_A, 0, 4, version), 2, 3, 2)

    def test_3(self):
        for subnets in (0, 33, 63):
            self.refused(with_field(CARD_A, 4, 6, subnets), 3, 4)
        self.refused(with_field(CARD_A, 10, 6, 0), 3, 10)
        self.accepted(with_field(CARD_A, 10, 6, 63), 2, 3, 2)
        self.refused(with_field(CARD_A, 4, 6, 32), 1, 232)

    def test_4(self):
        self.refused(with_field(CARD_A, 16, 5, 1), 4, 16)
        self.refused(with_field(CARD_A, 115, 5, 31), 4, 115)

    def test_5(self):
        self.refused(with_field(CARD_A, 21, 5, 1), 5, 21)
        self.accepted(with_field(CARD_A, 120, 5, 31), 2, 3, 2)

    def test_6(self):
        for bit in (26, 34, 125, 133):
            self.refused(with_field(CARD_A, bit, 8, 0), 6, bit)
        self.refused(with_field(CARD_A, 125, 8, 255), 6, 125)
        self.refused(with_field(CARD_A, 133, 8, 255), 6, 133)

    def test_6_total_255(self):
        places = [(NORMAL, 1, 0)] * 200
        take = (0, [(DRAW, 0, 0, 1)])
        own = (0, [(DRAW, 1, 0, 1)])
        self.accepted(card_bytes(1, (0, 0, places, [take] * 200),
                                 (0, 0, [(IN, 1, 0)] * 55, [own] * 55)), 2, 255, 255)
        # 16 + 26 + 200 x 18 + 11 + 22 = 3675 is subnet 1's first bit.
        self.refused(card_bytes(1, (0, 0, places, [take]), (0, 0, [(IN, 1, 0)] * 56, [own])),
                     6, 3675 + 10)
        # 16 + 26 + 18 + 200 x 33 = 6660 is subnet 1's first bit.
        self.refused(card_bytes(1, (0, 0, places[:1], [take] * 200),
                                (0, 0, [(IN, 1, 0)], [own] * 56)), 6, 6660 + 18)

    def test_7(self):
        for kind in (IN, OUT, IN_OUT):
            self.refused(with_field(CARD_A, 42, 2, kind), 7, 42)
        self.refused(with_field(CARD_A, 44, 8, 0), 7, 44)
        self.refused(with_field(CARD_A, 52, 8, 2), 7, 52)
        self.refused(with_field(CARD_A, 143, 8, 0), 7, 143)
        self.refused(with_field(CARD_A, 169, 8, 3), 7, 169)
        self.accepted(with_field(CARD_A, 169, 8, 2), 2, 3, 2)

    def test_8(self):
        self.refused(with_field(CARD_A, 60, 6, 2), 8, 60)
        self.refused(with_field(CARD_A, 66, 5, 0), 8, 66)
        self.refused(with_field(CARD_A, 177, 6, 63), 8, 177)
        self.refused(with_field(CARD_A, 183, 5, 0), 8, 183)

    def test_9(self):
        self.assertEqual(len(CARD_B), 26)
        self.accepted(CARD_B, 1, 3, 2)
        self.refused(with_field(CARD_B, 207, 1, 1), 9, 207)
        self.refused(with_field(CARD_B, 206, 2, 3), 9, 206)
        self.refused(with_field(CARD_B, 207, 1, 1) + b"\xff", 9, 207)
        self.refused(CARD_B + b"\0\0", 9, 208)

    def test_9_beats_pass_two(self):
        self.refused(with_field(CARD_A, 107, 8, 2) + b"\0", 9, 232)


def chain(kind=IN_OUT):
    """Subnet 0, its children 1 and 3, and 2 below 1; each has one place and one transition."""
    return tables(
        1,
        (0, 0, [(NORMAL, 1, 0)], [(0, [(DRAW, 0, 0, 1)])]),
        (0, 0, [(kind, 1, 0)], [(0, [(DRAW, 1, 0, 1)])]),
        (1, 0, [(kind, 1, 0)], [(0, [(DRAW, 2, 0, 1)])]),
        (0, 0, [(kind, 1, 0)], [(0, [(DRAW, 3, 0, 1)])]),
    )


def chain_arc(subnet):
    """In chain() subnet n starts at 16 + 77 n, its transition 44 bits on, its arc 55 bits on."""
    return 16 + 77 * subnet + 55


class PassTwo(Cases):

    def arc_refused(self, card, arc, number, **values):
        self.refused(cards.encode(change(card, "arcs", arc, **values)), number, chain_arc(arc))

    def arc_accepted(self, card, arc, **values):
        self.accepted(cards.encode(change(card, "arcs", arc, **values)), 4, 4, 4)

    def test_10_not_there(self):
        self.refused(with_field(CARD_A, 94, 5, 5), 10, 93)
        self.refused(with_field(CARD_A, 77, 8, 1), 10, 71)
        self.refused(with_field(CARD_A, 99, 8, 2), 10, 93)
        self.refused(with_field(CARD_A, 194, 8, 2), 10, 188)
        self.refused(with_field(CARD_A, 94, 5, 31), 10, 93)

    def test_10_who_sees(self):
        self.accepted(cards.encode(chain()), 4, 4, 4)
        seen = {(0, 0), (0, 1), (0, 3), (1, 1), (1, 2), (2, 2), (3, 3)}
        for subnet in range(4):
            for owner in range(4):
                if (subnet, owner) in seen:
                    self.arc_accepted(chain(), subnet, subnet=owner)
                else:
                    self.arc_refused(chain(), subnet, 10, subnet=owner)

    def test_10_comes_first(self):
        card = with_field(with_field(CARD_A, 94, 5, 3), 107, 8, 0)
        self.refused(with_field(card, 93, 1, DRAW), 10, 93)

    def test_11(self):
        for kind, direction, allowed in [(IN, DRAW, False), (IN, FILL, True), (OUT, DRAW, True),
                                         (OUT, FILL, False), (IN_OUT, DRAW, True),
                                         (IN_OUT, FILL, True)]:
            card = chain(kind)
            if allowed:
                self.arc_accepted(card, 1, subnet=2, direction=direction)
            else:
                self.arc_refused(card, 1, 11, subnet=2, direction=direction)
            self.arc_accepted(card, 2, direction=direction)

    def test_11_before_12(self):
        self.arc_refused(chain(IN), 0, 11, subnet=3, weight=0)

    def test_12(self):
        self.refused(with_field(CARD_A, 85, 8, 0), 12, 71)
        self.refused(with_field(CARD_A, 85, 8, 2), 12, 71)
        self.refused(with_field(CARD_A, 224, 8, 3), 12, 210)
        self.accepted(with_field(CARD_A, 224, 8, 2), 2, 3, 2)

    def repeated(self, *arcs):
        return card_bytes(1, (0, 0, [(NORMAL, 2, 0), (NORMAL, 1, 0)], [(0, list(arcs))]))

    def test_13(self):
        # Arcs start at 16 + 26 + 36 + 11 = 89, 111 and 133.
        first = (DRAW, 0, 0, 1)
        self.refused(self.repeated(first, first), 13, 111)
        self.refused(self.repeated(first, (FILL, 0, 1, 1), (DRAW, 0, 0, 2)), 13, 133)
        self.refused(self.repeated(first, (DRAW, 0, 0, 3)), 12, 111)
        self.accepted(self.repeated(first, (FILL, 0, 0, 1), (DRAW, 0, 1, 1)), 1, 2, 1)

    def test_13_before_14(self):
        self.refused(self.repeated((FILL, 0, 0, 1), (FILL, 0, 0, 1)), 13, 111)

    def test_13_is_for_one_transition(self):
        take = (0, [(DRAW, 0, 0, 1)])
        self.accepted(card_bytes(1, (0, 0, [(NORMAL, 1, 0)], [take, take])), 1, 1, 2)

    def test_14(self):
        self.refused(self.repeated((DRAW, 0, 0, 1)), 14, 78)
        self.accepted(self.repeated((FILL, 0, 1, 1)), 1, 2, 1)
        # Both transitions of card B then lack one: the lower at 96.
        wide = change(TABLES_B, "places", 0, capacity=2)
        self.accepted(cards.encode(wide), 1, 3, 2)
        wide = change(change(wide, "places", 1, capacity=2), "places", 2, capacity=2)
        self.refused(cards.encode(wide), 14, 96)
        # Only transition 1 lacks one: at 96 + 55.
        wide = change(wide, "places", 1, capacity=1)
        self.refused(cards.encode(wide), 14, 151)

    def test_14_at_a_child_place(self):
        data = card_bytes(1, (0, 0, [(NORMAL, 2, 0)], [(0, [(DRAW, 0, 0, 1), (FILL, 1, 0, 1)])]),
                          (0, 0, [(IN, 1, 0)], [(0, [(DRAW, 1, 0, 1)])]))
        self.accepted(data, 2, 2, 2)

    def test_14_before_a_later_10(self):
        data = with_field(with_field(CARD_A, 44, 8, 2), 143, 8, 2)
        self.refused(with_field(data, 194, 8, 7), 14, 60)

    def test_15(self):
        card = change(chain(), "places", 3, kind=NORMAL)
        self.refused(cards.encode(card), 15, 16 + 77 * 3)
        card = change(card, "places", 1, kind=NORMAL)
        self.refused(cards.encode(card), 15, 16 + 77)

    def test_15_after_all_arcs(self):
        card = change(chain(), "places", 1, kind=NORMAL)
        self.arc_refused(card, 3, 12, weight=2)


UNIT = (DRAW, 0, 1, 1)      # at a place of capacity 1, which a transition needs


def looped(capacity, *transitions):
    """Place 0 of this capacity, place 1 of capacity 1, and transitions with these arcs."""
    return card_bytes(1, (0, 0, [(NORMAL, capacity, 0), (NORMAL, 1, 0)],
                          [(0, list(arcs)) for arcs in transitions]))


def pair(draw, fill, subnet=0, place=0):
    """The arcs of a loop, of these weights."""
    return [(DRAW, subnet, place, draw), (FILL, subnet, place, fill)]


class Loops(Cases):
    """Refusal 26, of CR 2."""

    def refused_at(self, data, number, name):
        self.refused(data, number, row_bit(data, name))

    def test_weights(self):
        for capacity, draw, fill, number in [
                (1, 1, 1, 26), (2, 1, 1, 0), (2, 2, 1, 26), (3, 2, 2, 26), (3, 2, 1, 0), (3, 1, 2, 0),
                (3, 1, 1, 0), (3, 3, 1, 26), (3, 1, 3, 26), (255, 128, 127, 0), (255, 254, 1, 0),
                (255, 128, 128, 26), (255, 255, 1, 26), (255, 255, 255, 26)]:
            for arcs in itertools.permutations(pair(draw, fill)):
                data = looped(capacity, [*arcs, UNIT])
                if number:
                    self.refused_at(data, 26, "transition 0, arc 1")
                else:
                    self.accepted(data, 1, 2, 1)

    def test_bit(self):
        # Arcs start at 16 + 26 + 36 + 11 = 89, 111 and 133.
        self.refused(looped(2, [*pair(2, 1), UNIT]), 26, 111)
        self.refused(looped(2, [UNIT, *pair(2, 1)]), 26, 133)
        # Bench card A's second arc, filling (0,0) again.
        self.refused(with_field(CARD_A, 94, 5, 0), 26, 93)

    def test_refused_are_those_that_never_start(self):
        """The two enabling conditions of document 000, tried on markings in quarters of a token."""
        for capacity in range(1, 5):
            for draw, fill in itertools.product(range(1, capacity + 1), repeat=2):
                data = looped(capacity, [*pair(draw, fill), UNIT])
                loaded = net.flat_net(net.read_card(data))
                starting = [m for m in range(0, 1000 * capacity + 1, 250)
                            if net.is_candidate(loaded, State((m, 1000), (None,), (0,)),
                                                loaded.transitions[0], (1,), (0, 0), (0, 0))]
                self.assertEqual(net.check(data)[0] == "accepted", starting != [])

    def test_arcs_between(self):
        draw, fill = pair(2, 2)
        between = [(FILL, 0, place, 1) for place in range(1, 30)]
        places = [(NORMAL, 3, 0)] + 29 * [(NORMAL, 1, 0)]
        for first, second in ((draw, fill), (fill, draw)):
            data = card_bytes(1, (0, 0, places, [(0, [first, *between, second])]))
            self.refused_at(data, 26, "transition 0, arc 30")
            data = card_bytes(1, (0, 0, places, [(0, [first, *between, second[:3] + (1,)])]))
            self.accepted(data, 1, 30, 1)

    def test_two_loops(self):
        # The first that is complete and above the capacity, not the one that begins first.
        def card(outer, inner):
            return card_bytes(1, (0, 0, [(NORMAL, 3, 0), (NORMAL, 1, 0), (NORMAL, 2, 0)],
                                  [(0, [UNIT, (DRAW, 0, 0, 1), (DRAW, 0, 2, 1), (FILL, 0, 2, inner),
                                        (FILL, 0, 0, outer)])]))

        self.refused_at(card(3, 2), 26, "transition 0, arc 3")
        self.refused_at(card(3, 1), 26, "transition 0, arc 4")
        self.accepted(card(2, 1), 1, 3, 1)

    def test_no_loop(self):
        # Two transitions with one direction each.
        self.accepted(looped(2, [UNIT, (DRAW, 0, 0, 2)], [(FILL, 0, 0, 2), UNIT]), 1, 2, 2)
        self.accepted(looped(1, [(DRAW, 0, 0, 1)], [(FILL, 0, 0, 1)]), 1, 2, 2)
        # One number of a place in two subnets.
        for arcs in ([(DRAW, 0, 0, 1), (FILL, 1, 0, 1)], [(FILL, 0, 0, 1), (DRAW, 1, 0, 1)]):
            self.accepted(card_bytes(1, (0, 0, [(NORMAL, 1, 0)], [(0, arcs)]),
                                     (0, 0, [(IN_OUT, 1, 0)], [(0, [(DRAW, 1, 0, 1)])])), 2, 2, 2)

    def family(self, arcs, inner=((DRAW, 1, 0, 1),), kind=IN_OUT):
        """Subnet 0 with these arcs, and its child with places of capacity 1 and 3."""
        return card_bytes(1, (0, 0, [(NORMAL, 1, 0), (NORMAL, 1, 0)], [(0, list(arcs))]),
                          (0, 0, [(IN_OUT, 1, 0), (kind, 3, 0)], [(0, list(inner))]))

    def test_at_a_child_place(self):
        for arcs in itertools.permutations(pair(1, 1, 1, 0)):
            self.refused_at(self.family([UNIT, *arcs]), 26, "transition 0, arc 2")
        for arcs in itertools.permutations(pair(2, 2, 1, 1)):
            self.refused_at(self.family([UNIT, *arcs]), 26, "transition 0, arc 2")
        for arcs in itertools.permutations(pair(1, 2, 1, 1)):
            self.accepted(self.family([UNIT, *arcs]), 2, 4, 2)

    def test_in_a_child(self):
        # Within the owner both directions are free.
        for kind in (NORMAL, IN, OUT, IN_OUT):
            inner = [(DRAW, 1, 0, 1), *pair(2, 1, 1, 1)]
            self.accepted(self.family([UNIT], inner, kind), 2, 4, 2)
            inner = [(DRAW, 1, 0, 1), *pair(2, 2, 1, 1)]
            self.refused_at(self.family([UNIT], inner, kind), 26, "transition 1, arc 2")
        # The parent and the child each with one direction.
        self.accepted(self.family([UNIT, (DRAW, 1, 1, 3)], [(DRAW, 1, 0, 1), (FILL, 1, 1, 3)]), 2, 4, 2)

    def test_10_to_13_come_first_at_an_arc(self):
        for weight in (0, 4):
            self.refused_at(looped(3, [UNIT, *pair(1, weight)]), 12, "transition 0, arc 2")
        data = self.family([UNIT, *pair(2, 2, 1, 1)[::-1]], kind=IN)
        self.refused_at(data, 11, "transition 0, arc 2")
        self.refused_at(self.family([UNIT, *pair(2, 2, 1, 1)], kind=NORMAL), 10, "transition 0, arc 1")
        # The third arc repeats the second, and is a loop with the first.
        self.refused_at(looped(3, [*pair(1, 2), (FILL, 0, 0, 3), UNIT]), 13, "transition 0, arc 2")

    def test_the_earlier_arc_counts(self):
        draw, fill = pair(2, 2)
        self.refused_at(looped(3, [draw, draw, fill, UNIT]), 13, "transition 0, arc 1")
        self.refused_at(looped(3, [draw, fill, draw, UNIT]), 26, "transition 0, arc 1")
        self.refused_at(looped(3, [draw, fill, (DRAW, 0, 2, 1)]), 26, "transition 0, arc 1")
        self.refused_at(looped(3, [draw, (DRAW, 0, 2, 1), fill]), 10, "transition 0, arc 1")
        self.refused_at(looped(3, [UNIT], [draw, fill], [(DRAW, 0, 2, 1)]), 26, "transition 1, arc 1")

    def test_14(self):
        # After the arcs of its transition, before those of the next one.
        self.refused_at(looped(3, pair(2, 2)), 26, "transition 0, arc 1")
        self.refused_at(looped(3, pair(2, 1)), 14, "transition 0")
        self.refused_at(looped(3, [(DRAW, 0, 0, 1)], pair(2, 2)), 14, "transition 0")
        self.refused_at(looped(3, [UNIT], pair(2, 2), [(DRAW, 0, 0, 1)]), 26, "transition 1, arc 1")

    def test_15_and_16_come_later(self):
        # Subnet 1 has no interface place, subnet 2 is unlike it, and the loop is in subnet 2.
        def card(kind, *arcs):
            return card_bytes(1, (0, 0, [(NORMAL, 1, 0)], [(0, [(DRAW, 0, 0, 1)])]),
                              (0, 3, [(kind, 1, 0)], [(0, [(DRAW, 1, 0, 1)])]),
                              (0, 3, [(IN, 1, 0)], [(0, arcs)]))

        for kind, number, subnet in ((NORMAL, 15, "subnet 1"), (IN, 16, "subnet 2")):
            self.refused_at(card(kind, *pair(1, 1, 2)), 26, "transition 2, arc 1")
            self.refused_at(card(kind, *pair(1, 1, 2)[1:]), number, subnet)

    def test_pass_one_comes_first(self):
        data = looped(1, pair(1, 1))
        self.refused_at(data, 26, "transition 0, arc 1")
        self.refused(data + b"\0", 9, 8 * len(data))

    def test_every_call(self):
        # Before 24; before 25, 23 and 20.
        data = with_field(CARD_A, 94, 5, 0)
        state = State((1001, 0, 0), (None, None), (0, 0))
        self.assertEqual(net.flatten_call(data, 0), ("refused", 26, 93))
        self.assertEqual(net.flatten_program(data), b"no 26 93\n")
        self.assertEqual(net.run_program(data, b"\x64\0\0"), b"no 26 93\n")
        self.assertEqual(net.row_call(data, state, (1, 2, 3)), (("refused", 26, 93), state))
        split = net.split_state(net.load_subnets(CARD_A), state)
        self.assertEqual(net.subnet_row_call(data, split, [], (1, 2, 3)), (("refused", 26, 93), split))

    def test_runs(self):
        for _, card, rows, lines in loop_runs():
            data = cards.encode(card)
            self.assertEqual(run(data, rows), lines)
            both_runners(data, rows)
            both_runners(net.flatten_program(data), rows)


def twins():
    """Two alike subnets 1 and 2 of type 7. The children of 1 are 3 and 5, those of 2 are 4 and 6;
    3 and 4 are of type 8, 5 and 6 of type 9.
    """
    def twin(number, low, high, signal, tokens):
        return (0, 7, [(IN_OUT, 1, 0), (NORMAL, 2, tokens)],
                [(signal, [(DRAW, number, 0, 1), (FILL, number, 1, 2), (FILL, low, 0, 1)]),
                 (0, [(DRAW, high, 1, 1)])])

    def leaf(parent, number, type_):
        return (parent, type_, [(IN_OUT, 1, 1), (IN_OUT, 1, 0)], [(0, [(DRAW, number, 0, 1)])])

    return tables(
        2,
        (0, 0, [(NORMAL, 1, 0)], [(0, [(DRAW, 0, 0, 1)])]),
        twin(1, 3, 5, 0, 0),
        twin(2, 4, 6, 1, 2),
        leaf(1, 3, 8),
        leaf(2, 4, 8),
        leaf(1, 5, 9),
        leaf(2, 6, 9),
    )


# Subnet 0 takes 77 bits; a twin 26 + 36 + 11 + 66 + 11 + 22 = 172; a leaf 26 + 36 + 33 = 95.
TWIN_BITS = [16, 93, 265, 437, 532, 627, 722]


class Types(Cases):
    """Refusal 16, on twins() with one thing changed."""

    def unlike(self, card, subnet):
        self.refused(cards.encode(card), 16, TWIN_BITS[subnet])

    def alike(self, card):
        self.assertEqual(net.check(cards.encode(card))[0], "accepted")

    def test_alike(self):
        self.accepted(cards.encode(twins()), 7, 13, 9)
        self.assertEqual(net.read_card(cards.encode(twins())).subnet_bits, TWIN_BITS)

    def test_kinds_and_capacities(self):
        self.unlike(change(twins(), "places", 3, kind=IN), 2)
        self.unlike(change(twins(), "places", 4, capacity=3), 2)
        self.unlike(change(twins(), "places", 11, kind=IN), 6)

    def test_signals_and_tokens_may_differ(self):
        self.alike(change(twins(), "places", 4, tokens=1))
        self.alike(change(twins(), "transitions", 4, signal=1))

    def test_arcs(self):
        # Subnet 2's arcs are 5 to 8, subnet 1's 1 to 4.
        self.unlike(change(twins(), "arcs", 5, direction=FILL), 2)
        self.unlike(change(twins(), "arcs", 6, weight=1), 2)
        self.unlike(change(twins(), "arcs", 7, place=1), 2)
        self.unlike(change(twins(), "arcs", 7, subnet=6), 2)
        # The own place of the same number, where both draw from a child's place 0.
        card = change(change(twins(), "arcs", 4, place=0), "arcs", 8, place=0)
        self.alike(card)
        self.unlike(change(card, "arcs", 8, subnet=2), 2)

    def test_arc_order(self):
        card = twins()
        card.arcs[5], card.arcs[6] = card.arcs[6], card.arcs[5]
        self.unlike(card, 2)

    def test_children_types(self):
        # Zero types are never equal for children; the leaves of type 0 compare nothing.
        zero = change(change(twins(), "subnets", 3, type=0), "subnets", 4, type=0)
        self.unlike(zero, 2)
        self.unlike(change(twins(), "subnets", 6, type=10), 2)
        # The types of the k-th two differ if two of them trade types.
        traded = change(change(twins(), "subnets", 4, type=9), "subnets", 6, type=8)
        self.unlike(traded, 2)

    def test_type_zero_compares_nothing(self):
        card = twins()
        for subnet in (1, 2):
            card = change(card, "subnets", subnet, type=0)
        card = change(card, "arcs", 5, direction=FILL)
        self.alike(change(card, "subnets", 6, type=0))
        self.alike(change(change(card, "subnets", 6, type=10), "places", 11, kind=IN))

    def leaves(self, *rows):
        """Subnet 0 and children of type 3, each with its places and transitions."""
        return card_bytes(1, (0, 0, [(NORMAL, 1, 0)], [(0, [(DRAW, 0, 0, 1)])]),
                          *[(0, 3, places, transitions) for places, transitions in rows])

    def test_counts(self):
        one, two = [(IN, 1, 0)], [(IN, 1, 0), (IN, 1, 0)]

        def take(subnet, places=1):
            return (0, [(DRAW, subnet, place, 1) for place in range(places)])

        self.accepted(self.leaves((one, [take(1)]), (one, [take(2)])), 3, 3, 3)
        # Subnet 2 starts at 93 + 26 + 18 + 33 = 170.
        self.refused(self.leaves((one, [take(1)]), (two, [take(2)])), 16, 170)
        self.refused(self.leaves((one, [take(1)]), (one, [take(2), take(2)])), 16, 170)
        # The arc counts differ: subnet 2 starts at 93 + 26 + 36 + 33 = 188.
        self.refused(self.leaves((two, [take(1)]), (two, [take(2, 2)])), 16, 188)

    def test_third_of_a_type(self):
        one = [(IN, 1, 0)]
        rows = [(one, [(0, [(DRAW, subnet, 0, 1)])]) for subnet in (1, 2, 3)]
        self.accepted(self.leaves(*rows), 4, 4, 4)
        rows[2] = (one, [(0, [(FILL, 3, 0, 1)])])
        self.refused(self.leaves(*rows), 16, 16 + 77 * 3)

    def test_number_of_children(self):
        # Subnet 2 of type 3 is a child of subnet 1 of type 3, and has no child.
        row = [(IN, 1, 0)]
        data = card_bytes(1, (0, 0, [(NORMAL, 1, 0)], [(0, [(DRAW, 0, 0, 1)])]),
                          (0, 3, row, [(0, [(DRAW, 1, 0, 1)])]),
                          (1, 3, row, [(0, [(DRAW, 2, 0, 1)])]))
        self.refused(data, 16, 16 + 77 * 2)

    def test_15_before_16(self):
        card = change(twins(), "arcs", 5, direction=FILL)
        card = change(change(card, "places", 11, kind=NORMAL), "places", 12, kind=NORMAL)
        card = change(card, "arcs", 8, place=1, subnet=2)
        self.refused(cards.encode(card), 14, TWIN_BITS[2] + 62 + 77)
        card = change(card, "arcs", 8, place=0, subnet=2)
        self.refused(cards.encode(card), 15, TWIN_BITS[6])


def later_field(card, name, value):
    """Tables with a rank, limit or scale."""
    if name == "rank":
        return change(card, "transitions", 1, rank=value)
    return replace(card, **{name: value})


class LaterFields(Cases):
    """Where rank, limit and scale stand on a card. Cards of versions 1 and 2 have no bits for them."""

    def test_no_bits_in_versions_1_and_2(self):
        for data in (CARD_A, second_version(CARD_A)):
            card = net.read_card(data)
            self.assertEqual((card.limit, card.scale), (0, 0))
            self.assertEqual([row.rank for row in card.transitions], [0, 0])

    def test_bits(self):
        card = tables(1, (0, 0, [(NORMAL, 1, 1)], [(0, [(DRAW, 0, 0, 1)])]))
        for version, limit, scale, rank in [
                ("0010", "", "", ""),
                ("0011", "", "", "10000001"),
                ("0100", "11000011", "", "10000001"),
                ("0101", "11000011", "10000000000111", "10000001")]:
            card = change(card, "transitions", 0, rank=int("0" + rank, 2))
            card = replace(card, version=int(version, 2), limit=int("0" + limit, 2),
                           scale=int("0" + scale, 2))
            bits = (version + "000001" "000001" + limit + scale
                    + "00000" "00000" "00000001" "00000001" "00" "00000001" "00000001"
                    "000000" "00001" + rank + "0" "00000" "00000000" "00000001")
            self.assertTrue(cards.fits(card))
            self.assertEqual(cards.encode(card), cards.pack(bits))

    def test_reading_a_field(self):
        reader = net.BitReader(bytes([0b00000001, 0b00000000, 0b00011100]))
        self.assertEqual([reader.field(width) for width in (7, 0, 14, 3, 0)],
                         [0, 0, 0b10000000000011, 0b100, 0])

    def test_flattening_keeps_them(self):
        card = replace(change(TABLES_A, "transitions", 1, rank=7), version=5, limit=2, scale=10000)
        flat = net.flatten(card)
        self.assertEqual((flat.version, flat.limit, flat.scale), (5, 2, 10000))
        self.assertEqual([row.rank for row in flat.transitions], [0, 7])


class Writing(Cases):

    def writes(self, card, answer, length=10000):
        self.assertEqual(net.write_card(card, length), answer)

    def test_writes(self):
        self.writes(TABLES_A, ("wrote", CARD_A))
        self.writes(TABLES_A, ("wrote", CARD_A), 29)
        self.writes(twins(), ("wrote", cards.encode(twins())))

    def test_17_values(self):
        for table, index, name, limit in [
                ("subnets", 0, "parent", 32), ("subnets", 1, "type", 32),
                ("subnets", 0, "places", 256), ("subnets", 0, "transitions", 256),
                ("places", 0, "kind", 4), ("places", 2, "capacity", 256),
                ("places", 1, "tokens", 256), ("transitions", 1, "signal", 64),
                ("transitions", 0, "arcs", 32), ("arcs", 3, "direction", 2),
                ("arcs", 0, "subnet", 32), ("arcs", 0, "place", 256), ("arcs", 2, "weight", 256)]:
            for value in (limit, -1, 65536):
                card = change(TABLES_A, table, index, **{name: value})
                self.writes(card, ("refused", 17, 0))
        for version in (16, -1):
            card = tables(1, version=version)
            self.writes(card, ("refused", 17, 0))
        self.writes(tables(64), ("refused", 17, 0))

    def test_17_fields_of_later_versions(self):
        # Rank has 8 bits from version 3 on, limit 8 from 4 on, scale 14 from 5 on; below they have none.
        for version, name, largest in [
                (0, "rank", 0), (1, "rank", 0), (2, "rank", 0), (3, "rank", 255), (15, "rank", 255),
                (1, "limit", 0), (2, "limit", 0), (3, "limit", 0), (4, "limit", 255), (15, "limit", 255),
                (1, "scale", 0), (2, "scale", 0), (4, "scale", 0), (5, "scale", 16383), (15, "scale", 16383)]:
            fitting = ("wrote", with_field(CARD_A, 0, 4, version)) if version in (1, 2) else ("refused", 2, 0)
            for value, answer in [(largest, fitting), (largest + 1, ("refused", 17, 0)),
                                  (-1, ("refused", 17, 0)), (65535, ("refused", 17, 0))]:
                self.writes(later_field(replace(TABLES_A, version=version), name, value), answer)

    def test_17_one_later_field_of_several(self):
        card = replace(TABLES_A, version=4, limit=255, scale=1)
        self.writes(card, ("refused", 17, 0))
        card = change(replace(card, version=5), "transitions", 1, rank=255)
        self.writes(card, ("refused", 2, 0), 0)
        self.writes(replace(card, limit=256), ("refused", 17, 0))

    def test_17_comes_before_all(self):
        for version in (0, 2, 3):
            card = replace(change(TABLES_A, "arcs", 3, weight=256), version=version)
            self.writes(card, ("refused", 17, 0), 0)

    def test_17_entries(self):
        for table in ("places", "transitions", "arcs"):
            card = change(TABLES_A, table, 0)
            getattr(card, table).pop()
            self.writes(card, ("refused", 17, 0))
            card = change(TABLES_A, table, 0)
            getattr(card, table).append(getattr(card, table)[0])
            self.writes(card, ("refused", 17, 0))

    def test_17_subnets(self):
        leaf = (0, 0, [(NORMAL, 1, 0)], [(0, [(DRAW, 0, 0, 1)])])
        self.writes(tables(1, *[leaf] * 64), ("refused", 17, 0))
        self.writes(tables(1, *[leaf] * 63), ("refused", 3, 4))
        self.writes(tables(1, *[leaf] * 33), ("refused", 3, 4))
        self.writes(tables(1), ("refused", 3, 4))

    def test_numbers_of_a_card(self):
        for number, bit, card in [
                (2, 0, tables(1, version=0)),
                (2, 0, replace(TABLES_A, version=3)),
                (3, 10, tables(0, *[(0, 0, [(NORMAL, 1, 0)], [(0, [(DRAW, 0, 0, 1)])])])),
                (4, 115, change(TABLES_A, "subnets", 1, parent=1)),
                (5, 21, change(TABLES_A, "subnets", 0, type=1)),
                (6, 26, tables(1, (0, 0, [], [(0, [(DRAW, 0, 0, 1)])]))),
                (7, 52, change(TABLES_A, "places", 0, tokens=2)),
                (8, 60, change(TABLES_A, "transitions", 0, signal=2)),
                (8, 66, tables(1, (0, 0, [(NORMAL, 1, 0)], [(0, [])]))),
                (10, 93, change(TABLES_A, "arcs", 1, place=1)),
                (11, 93, change(TABLES_A, "arcs", 1, direction=DRAW)),
                (12, 93, change(TABLES_A, "arcs", 1, weight=2)),
                (13, 93, change(TABLES_A, "arcs", 1, direction=DRAW, subnet=0)),
                (26, 93, change(TABLES_A, "arcs", 1, subnet=0)),
                (14, 177, change(TABLES_A, "places", 1, capacity=2)),
                (15, 16 + 77, change(chain(), "places", 1, kind=NORMAL)),
                (16, TWIN_BITS[2], change(twins(), "arcs", 6, weight=1))]:
            self.writes(card, ("refused", number, bit), 0)

    def test_24(self):
        self.writes(TABLES_A, ("short", 29), 28)
        self.writes(TABLES_A, ("short", 29), 0)
        self.writes(TABLES_B, ("short", 26), 25)
        self.writes(TABLES_B, ("wrote", CARD_B), 26)


class Flattening(Cases):

    def test_bench_card_a(self):
        flat = tables(2, (0, 0, [(NORMAL, 1, 1), (NORMAL, 1, 0), (NORMAL, 2, 0)],
                          [(0, [(DRAW, 0, 0, 1), (FILL, 0, 1, 1)]),
                           (1, [(DRAW, 0, 1, 1), (FILL, 0, 2, 1)])]))
        self.assertEqual(net.flatten(net.read_card(CARD_A)), flat)
        data = net.flatten_program(CARD_A)
        self.assertEqual(data, cards.encode(flat))
        # 16 + 26 + 3 x 18 + 2 x 55 = 206 bits.
        self.assertEqual(len(data), 26)
        self.accepted(data, 1, 3, 2)
        self.assertEqual(net.flatten_program(data), data)

    def test_flat_places(self):
        # Places of twins() start at 0, 1, 3, 5, 7, 9, 11.
        card = net.flatten(twins())
        self.assertEqual([arc.place for arc in card.arcs], [0, 1, 2, 5, 10, 3, 4, 7, 12,
                                                            5, 7, 9, 11])
        self.assertEqual({arc.subnet for arc in card.arcs}, {0})
        self.assertEqual(card.subnets, [Subnet(0, 0, 13, 9)])
        self.accepted(cards.encode(card), 1, 13, 9)

    def test_refused(self):
        self.assertEqual(net.flatten_program(b""), b"no 1 0\n")
        self.assertEqual(net.flatten_program(with_field(CARD_A, 107, 8, 2)), b"no 12 93\n")

    def test_24(self):
        flat = net.flatten_program(CARD_A)
        self.assertEqual(net.flatten_call(CARD_A, 25), ("short", 26))
        self.assertEqual(net.flatten_call(CARD_A, 26), ("wrote", flat))
        self.assertEqual(net.flatten_call(CARD_A[:28], 0), ("refused", 1, 224))


class Rows(unittest.TestCase):

    def test_encoding(self):
        # 0110010000 0000000000 0000
        self.assertEqual(cards.encode_row((400, 0)), bytes([0b01100100, 0, 0]))
        self.assertEqual(cards.encode_row((0, 1001)), bytes([0, 0b00111110, 0b10010000]))
        self.assertEqual(net.read_row(bytes([0, 0b00111110, 0b10010000]), 2), (0, 1001))

    def test_lengths(self):
        self.assertEqual([net.row_length(signals) for signals in (1, 2, 3, 4, 5, 63)],
                         [2, 3, 4, 5, 7, 79])
        self.assertEqual(net.split_rows(b"", 2), [])
        self.assertEqual(net.split_rows(b"abcdefg", 2), [b"abc", b"def", b"g"])

    def test_no_fill(self):
        row = (1, 2, 3, 1023)
        self.assertEqual(net.read_row(cards.encode_row(row), 4), row)

    def test_20_fill_bit(self):
        good = cards.encode_row((400, 0))
        output = net.run_program(CARD_A, b"\x64\0\x01" + b"\x64\0\x08" + good)
        self.assertEqual(output, b"1 no 20\n2 no 20\n3 ok 600 400 0 | 400 -\n")

    def test_20_before_21(self):
        self.assertEqual(net.run_program(CARD_A, b"\xff\xff\xef"), b"1 no 20\n")
        self.assertEqual(net.run_program(CARD_A, b"\xff\xff\xe0"), b"1 no 21 0\n")

    def test_20_short_last_row(self):
        good = cards.encode_row((400, 0))
        self.assertEqual(net.run_program(CARD_A, good + good[:2]),
                         b"1 ok 600 400 0 | 400 -\n2 no 20\n")
        self.assertEqual(net.run_program(CARD_A, b"\xff"), b"1 no 20\n")

    def test_empty_and_refused(self):
        self.assertEqual(net.run_program(CARD_A, b""), b"")
        self.assertEqual(net.run_program(b"", b"\x64\0\0"), b"no 1 0\n")
        self.assertEqual(net.run_program(CARD_A[:28], b""), b"no 1 224\n")

    def test_refused_rows_do_not_end_the_run(self):
        self.assertEqual(run(CARD_B, [(1, 1), (1001, 0), (1, 1023), (250, 0)]),
                         "1 no 22 0\n2 no 21 0\n3 no 21 1\n4 ok 750 250 0 | 250 -\n")


class Steps(unittest.TestCase):

    def test_fresh(self):
        fresh = State((1000, 0, 0), (None, None), (0, 0))
        self.assertEqual(net.fresh(net.load_flat(CARD_A)), fresh)
        parts = net.load_subnets(CARD_A)
        split = SubnetState(((1000,), (0, 0)), ((None,), (None,)), (0, 0))
        self.assertEqual(net.fresh_subnets(parts), split)
        self.assertEqual(net.join_state(split), fresh)
        self.assertEqual(net.split_state(parts, fresh), split)

    def test_judged_before_the_row(self):
        # Transition 0 fills (1,0) in one row; transition 1 starts in the next one only.
        self.assertEqual(run(CARD_A, [(1000, 1000), (1000, 1000)]),
                         "1 ok 0 1000 0 | - -\n2 ok 0 1000 0 | - 0\n")
        both_runners(CARD_A, [(1000, 1000), (1000, 1000)])

    def test_degree_0_starts_nothing(self):
        self.assertEqual(run(CARD_A, [(0, 0), (0, 1000)]),
                         "1 ok 1000 0 0 | - -\n2 ok 1000 0 0 | - -\n")

    def test_at_1000_moves_nothing_until_it_rises_again(self):
        rows = [(1000, 1000), (0, 1000), (0, 1000), (0, 300), (0, 700), (0, 300), (0, 1000)]
        self.assertEqual(run(CARD_A, rows),
                         "1 ok 0 1000 0 | - -\n"
                         "2 ok 0 1000 0 | - 0\n"
                         "3 ok 0 1000 0 | - 0\n"
                         "4 ok 0 1000 0 | - 0\n"
                         "5 ok 0 600 400 | - 400\n"
                         "6 ok 0 600 400 | - 400\n"
                         "7 ok 0 0 1000 | - -\n")
        both_runners(CARD_A, rows)

    def test_refused_row_leaves_the_degrees(self):
        # The rise of the third row is 500 - 400.
        self.assertEqual(run(CARD_A, [(400, 0), (900, 1001), (500, 0)]),
                         "1 ok 600 400 0 | 400 -\n2 no 21 1\n3 ok 500 500 0 | 500 -\n")
        # 22 leaves them too: the rise of the second row is 100 - 0.
        self.assertEqual(run(CARD_B, [(500, 500), (100, 0)]),
                         "1 no 22 0\n2 ok 900 100 0 | 100 -\n")

    def test_carrying_0_claims(self):
        # One token, both signals at 1000 before it comes; transition 1 starts with c = 0 and
        # its standing claims keep transition 2 from the token.
        rows = [(1000, 1000, 0), (1000, 1000, 0), (1000, 1000, 500), (1000, 1000, 1000)]
        self.assertEqual(run(WAITING, rows),
                         "1 ok 0 1000 0 0 | - - -\n"
                         "2 ok 0 1000 0 0 | - 0 -\n"
                         "3 ok 0 1000 0 0 | - 0 -\n"
                         "4 ok 0 1000 0 0 | - 0 -\n")
        both_runners(WAITING, rows)

    def test_weights(self):
        # 2 for each d from a place of 5 with 4 tokens; 3 for each d into a place of 7 with 1.
        data = card_bytes(
            1,
            (0, 0, [(NORMAL, 5, 4), (NORMAL, 7, 1), (NORMAL, 1, 0)],
             [(0, [(DRAW, 0, 0, 2), (FILL, 0, 1, 3), (FILL, 0, 2, 1)])]),
        )
        self.assertEqual(run(data, [(250,), (1000,), (1000,)]),
                         "1 ok 3500 1750 250 | 250\n"
                         "2 ok 2000 4000 1000 | -\n"
                         "3 ok 2000 4000 1000 | -\n")

    def test_due_keeps_a_filler_out(self):
        # Capacity 2, one token: the second filler finds 1000 + due 500 + 1000 above 2000.
        rows = [(500, 0), (500, 500)]
        self.assertEqual(run(FILLERS, rows),
                         "1 ok 1500 500 1000 | 500 -\n2 ok 1500 500 1000 | 500 -\n")
        both_runners(FILLERS, rows)

    def test_22_lowest_place(self):
        # The two fillers clash at place 1, the two takers at place 3.
        data = card_bytes(
            1,
            (0, 0, [(NORMAL, 1, 1), (NORMAL, 1, 0), (NORMAL, 1, 1), (NORMAL, 1, 1)],
             [(0, [(DRAW, 0, 3, 1)]), (0, [(DRAW, 0, 3, 1)]),
              (0, [(DRAW, 0, 2, 1), (FILL, 0, 1, 1)]), (0, [(DRAW, 0, 0, 1), (FILL, 0, 1, 1)])]),
        )
        self.assertEqual(run(data, [(5,)]), "1 no 22 1\n")
        both_runners(data, [(5,)])

    def test_22_between_parent_and_child(self):
        # Transition 0 of subnet 0 and that of subnet 1 both draw from (1,0), flat place 1.
        data = card_bytes(
            2,
            (0, 0, [(NORMAL, 1, 0)], [(0, [(DRAW, 1, 0, 1), (FILL, 0, 0, 1)])]),
            (0, 0, [(OUT, 1, 1), (NORMAL, 1, 0)], [(1, [(DRAW, 1, 0, 1), (FILL, 1, 1, 1)])]),
        )
        self.assertEqual(run(data, [(700, 1), (0, 250), (500, 250)]),
                         "1 no 22 1\n2 ok 0 750 250 | - 250\n3 ok 0 750 250 | - 250\n")
        both_runners(data, [(700, 1), (0, 250), (500, 250)])


class EmptyRows(unittest.TestCase):

    def lent(self, data, state, reply, after):
        """Both runners on a lent state and a row of no degrees."""
        self.assertEqual(net.row_call(data, state, ()), (reply, after))
        parts = net.load_subnets(data)
        order = range(len(parts.parts))
        self.assertEqual(net.subnet_row_call(data, net.split_state(parts, state), order, []),
                         (reply, net.split_state(parts, after)))

    def test_reading(self):
        # Fill bits: 4, none, 6.
        self.assertEqual(net.read_row(b"\xff\xff\xf0", 2), ())
        self.assertEqual(net.read_row(5 * b"\xff", 4), ())
        self.assertEqual(net.read_row(b"\xff\xc0", 1), ())
        self.assertEqual(net.read_row(b"\xff\xff\xe0", 2), (1023, 1022))
        self.assertEqual(net.read_row(b"\xff\xbf\xf0", 2), (1022, 1023))

    def test_20_comes_first(self):
        for chunk in (b"\xff\xff\xf1", b"\xff\xff\xf8", b"\xff\xff\xff", b"\xff\xff", b"\xff"):
            self.assertIsNone(net.read_row(chunk, 2))
            self.assertEqual(net.run_program(CARD_A, chunk), b"1 no 20\n")

    def test_21_unless_all_are_1023(self):
        self.assertEqual(run(CARD_A, [(1023, 1000), (1000, 1023), (1023, 1022), (1022, 1023), (0, 1023)]),
                         "1 no 21 0\n2 no 21 1\n3 no 21 0\n4 no 21 0\n5 no 21 1\n")
        self.assertEqual(run(WAITING, [(1023, 1023, 0), (5, 1023, 1023)]), "1 no 21 0\n2 no 21 1\n")
        self.assertEqual(run(WAITING, [(1023, 1023, 1023)]), "1 ok 1000 0 0 0 | - - -\n")

    def test_first_row(self):
        self.assertEqual(net.run_program(CARD_A, b"\xff\xff\xf0"), b"1 ok 1000 0 0 | - -\n")
        fresh = net.fresh(net.load_flat(CARD_A))
        self.assertEqual(both_runners(CARD_A, [(), ()]), 2 * [(("ok",), fresh)])

    def test_starts(self):
        # The token is at place 1 only after row 1, and signal 1 is up by then.
        rows = [(1000, 500), (), (), (1000, 900), (), (1000, 1000)]
        self.assertEqual(run(CARD_A, rows),
                         "1 ok 0 1000 0 | - -\n"
                         "2 ok 0 1000 0 | - 0\n"
                         "3 ok 0 1000 0 | - 0\n"
                         "4 ok 0 600 400 | - 400\n"
                         "5 ok 0 600 400 | - 400\n"
                         "6 ok 0 500 500 | - 500\n")
        results = both_runners(CARD_A, rows)
        self.assertEqual(results[1], (("ok",), State((0, 1000, 0), (None, 0), (1000, 500))))
        self.lent(CARD_A, results[0][1], *results[1])

    def test_one_stands_and_another_starts(self):
        # Two tokens less 300, of which 700 are owed: 1000 are left for the second taker.
        before = State((1700, 300, 0), (300, None), (300, 500))
        self.lent(takers(1), before, ("ok",), before._replace(progress=(300, 0)))

    def test_degrees_stay(self):
        # The rise of row 4 is 700 - 400, that of row 7 is 300 - 100.
        rows = [(400, 0), (), (), (700, 0), (100, 0), (), (300, 0)]
        self.assertEqual(run(CARD_A, rows),
                         "1 ok 600 400 0 | 400 -\n"
                         "2 ok 600 400 0 | 400 -\n"
                         "3 ok 600 400 0 | 400 -\n"
                         "4 ok 300 700 0 | 700 -\n"
                         "5 ok 300 700 0 | 700 -\n"
                         "6 ok 300 700 0 | 700 -\n"
                         "7 ok 100 900 0 | 900 -\n")
        degrees = [state.degrees for _, state in both_runners(CARD_A, rows)]
        self.assertEqual(degrees, [(400, 0)] * 3 + [(700, 0)] + [(100, 0)] * 2 + [(300, 0)])

    def test_last_accepted_degrees(self):
        # Those of a refused row are not the last ones: nothing is up in row 2, and signal 0 stands at 100 in row 5.
        rows = [(500, 500), (), (100, 0), (900, 1001), (), (300, 0)]
        self.assertEqual(run(CARD_B, rows),
                         "1 no 22 0\n"
                         "2 ok 1000 0 0 | - -\n"
                         "3 ok 900 100 0 | 100 -\n"
                         "4 no 21 1\n"
                         "5 ok 900 100 0 | 100 -\n"
                         "6 ok 700 300 0 | 300 -\n")
        both_runners(CARD_B, rows)

    def test_22(self):
        state = State((1000, 0, 0), (None, None), (500, 500))
        self.lent(CARD_B, state, ("refused", 22, 0), state)
        state = state._replace(degrees=(500, 0))
        self.lent(CARD_B, state, ("ok",), state._replace(progress=(0, None)))

    def test_22_in_a_run(self):
        rows = [(1000, 600, 600), (), (), (1000, 0, 600), (), (0, 600, 900)]
        self.assertEqual(run(WAITING, rows),
                         "1 ok 0 1000 0 0 | - - -\n"
                         "2 no 22 1\n"
                         "3 no 22 1\n"
                         "4 ok 0 1000 0 0 | - - 0\n"
                         "5 ok 0 1000 0 0 | - - 0\n"
                         "6 ok 0 700 0 300 | - - 300\n")
        both_runners(WAITING, rows)


class Version2(Cases):
    """CR 3."""

    SECOND_A = second_version(CARD_A)

    def lent(self, data, state, row, reply, after):
        """Both runners on a lent state."""
        self.assertEqual(net.row_call(data, state, row), (reply, after))
        parts = net.load_subnets(data)
        order = range(len(parts.parts))
        self.assertEqual(net.subnet_row_call(data, net.split_state(parts, state), order, row),
                         (reply, net.split_state(parts, after)))

    def test_reading_and_writing(self):
        self.assertEqual(self.SECOND_A[:2].hex(), "2082")
        self.assertEqual(self.SECOND_A[2:], CARD_A[2:])
        card = net.read_card(self.SECOND_A)
        self.assertEqual(card, replace(TABLES_A, version=2))
        self.assertEqual(net.write_card(card, 29), ("wrote", self.SECOND_A))
        self.assertEqual(net.write_card(card, 28), ("short", 29))

    def test_refusals_are_those_of_version_1(self):
        self.refused(self.SECOND_A[:28], 1, 224)
        self.refused(self.SECOND_A + b"\0", 9, 232)
        self.refused(with_field(self.SECOND_A, 115, 5, 1), 4, 115)
        self.refused(with_field(self.SECOND_A, 107, 8, 2), 12, 93)
        self.refused(with_field(self.SECOND_A, 94, 5, 0), 26, 93)
        for length in range(29):
            self.assertEqual(net.check(self.SECOND_A[:length]), net.check(CARD_A[:length]))
        for start, width in FIELDS_A[1:]:
            for value in {0, 1, 2, 3, (1 << width) - 1} & set(range(1 << width)):
                self.assertEqual(net.check(with_field(self.SECOND_A, start, width, value)),
                                 net.check(with_field(CARD_A, start, width, value)))

    def test_flattening_keeps_the_version(self):
        flat = net.flatten_program(self.SECOND_A)
        self.assertEqual(flat, second_version(net.flatten_program(CARD_A)))
        self.assertEqual(net.flatten_program(flat), flat)
        self.assertEqual(net.load_flat(flat), net.load_flat(self.SECOND_A))

    def test_runs(self):
        for name, card, rows, lines in from_zero_runs():
            data = cards.encode(card)
            self.assertEqual(run(data, rows), lines, name)
            both_runners(data, rows)
            both_runners(net.flatten_program(data), rows)

    def test_bench_card_a(self):
        rows = [(1000, 0), (1000, 1000)]
        self.assertEqual(run(self.SECOND_A, rows), "1 ok 0 1000 0 | - -\n2 ok 0 0 1000 | - -\n")
        both_runners(self.SECOND_A, rows)

    def test_the_papers_rows(self):
        # Transition 1 starts in row 4, at 500.
        rows = [(400, 0), (300, 500), (1000, 500), (1000, 500), (1000, 900), (0, 1001)]
        self.assertEqual(run(self.SECOND_A, rows),
                         "1 ok 600 400 0 | 400 -\n"
                         "2 ok 600 400 0 | 400 -\n"
                         "3 ok 0 1000 0 | - -\n"
                         "4 ok 0 500 500 | - 500\n"
                         "5 ok 0 100 900 | - 900\n"
                         "6 no 21 1\n")
        both_runners(self.SECOND_A, rows)

    def test_started_at_300(self):
        # The rise of row 2 is 700 - 300; on both versions, since signal 0 starts at 0.
        rows = [(300, 0), (700, 0), (1000, 0)]
        lines = "1 ok 700 300 0 | 300 -\n2 ok 300 700 0 | 700 -\n3 ok 0 1000 0 | - -\n"
        self.assertEqual(run(CARD_A, rows), lines)
        self.assertEqual(run(self.SECOND_A, rows), lines)

    def test_every_degree_at_the_start(self):
        before = State((0, 1000, 0), (None, None), (1000, 1000))
        for degree in (1, 2, 500, 998, 999):
            after = State((0, 1000 - degree, degree), (None, degree), (0, degree))
            self.lent(self.SECOND_A, before, (0, degree), ("ok",), after)
            self.lent(self.SECOND_A, before._replace(degrees=(0, degree)), (), ("ok",), after)
        after = State((0, 0, 1000), (None, None), (1000, 1000))
        for row in ((1000, 1000), ()):
            self.lent(self.SECOND_A, before, row, ("ok",), after)

    def test_carrying_0_has_started(self):
        # No run comes to it on version 2, but a state may be lent so.
        before = State((0, 1000, 0), (None, 0), (1000, 500))
        self.lent(self.SECOND_A, before, (), ("ok",), before)
        self.lent(self.SECOND_A, before, (1000, 900), ("ok",), State((0, 600, 400), (None, 400), (1000, 900)))
        self.lent(self.SECOND_A, before, (1000, 300), ("ok",), before._replace(degrees=(1000, 300)))

    def test_claims_are_those_of_0(self):
        # 500 and 500 would leave just the token, and 1000 and 1000 nothing to claim.
        for row in ((500, 500), (1000, 1000), (1, 1000)):
            for data in (CARD_B, takers(2), FILLERS):
                state = net.fresh(net.load_flat(data))
                self.lent(second_version(data), state, row, ("refused", 22, 0), state)
        state = State((2000, 0, 0), (None, None), (0, 0))
        self.lent(second_version(takers(1)), state, (1000, 1000), ("ok",), State((0, 1000, 1000), (None, None), (1000, 1000)))

    def test_judged_before_the_row(self):
        # Transition 0 empties place 0 and fills place 1 in row 1; neither counts in it.
        self.assertEqual(run(second_version(WAITING), [(1000, 1000, 0), (1000, 1000, 0)]),
                         "1 ok 0 1000 0 0 | - - -\n2 ok 0 0 1000 0 | - - -\n")
        both_runners(second_version(WAITING), [(1000, 1000, 0), (1000, 1000, 0)])

    def test_version_1_keeps_its_rule(self):
        rows = [(1000, 1000), (1000, 1000), (), (1000, 500), (1000, 800)]
        self.assertEqual(run(CARD_A, rows),
                         "1 ok 0 1000 0 | - -\n2 ok 0 1000 0 | - 0\n3 ok 0 1000 0 | - 0\n4 ok 0 1000 0 | - 0\n5 ok 0 700 300 | - 300\n")

    def test_every_call_refuses_another_version(self):
        # Before 24; before 25, 23 and 20.
        state = State((1001, 0, 0), (None, None), (0, 0))
        split = net.split_state(net.load_subnets(CARD_A), state)
        for version in (0, 3, 15):
            data = with_field(CARD_A, 0, 4, version)
            self.assertEqual(net.flatten_call(data, 0), ("refused", 2, 0))
            self.assertEqual(net.flatten_program(data), b"no 2 0\n")
            self.assertEqual(net.run_program(data, b"\x64\0\0"), b"no 2 0\n")
            self.assertEqual(net.row_call(data, state, (1, 2, 3)), (("refused", 2, 0), state))
            self.assertEqual(net.subnet_row_call(data, split, [], (1, 2, 3)), (("refused", 2, 0), split))


class Calls(unittest.TestCase):

    def setUp(self):
        self.state = net.fresh(net.load_flat(CARD_A))
        self.subnet_state = net.fresh_subnets(net.load_subnets(CARD_A))

    def calls(self, state, order, row, flat_reply, subnet_reply, data=CARD_A):
        reply, left = net.row_call(data, state, row)
        self.assertEqual(reply, flat_reply)
        self.assertIs(left, state)
        state = net.split_state(net.load_subnets(CARD_A), state)
        reply, left = net.subnet_row_call(data, state, order, row)
        self.assertEqual(reply, subnet_reply)
        self.assertIs(left, state)

    def test_order_of_tests(self):
        bad_state = self.state._replace(markings=(1001, 0, 0))
        bad_card = with_field(CARD_A, 107, 8, 2)
        self.calls(bad_state, [0, 0], (1, 2, 3), ("refused", 12, 93), ("refused", 12, 93),
                   bad_card)
        self.calls(bad_state, [0, 0], (1, 2, 3), ("refused", 25), ("refused", 25))
        self.calls(self.state, [0, 0], (1, 2, 3), ("refused", 20), ("refused", 23))
        self.calls(self.state, [0, 1], (1, 2, 1001), ("refused", 20), ("refused", 20))
        self.calls(self.state, [0, 1], (1001, 2000), ("refused", 21, 0), ("refused", 21, 0))

    def test_order_of_tests_with_an_empty_row(self):
        bad_state = self.state._replace(degrees=(0, 1001))
        self.calls(bad_state, [0, 0], (), ("refused", 1, 224), ("refused", 1, 224), CARD_A[:28])
        self.calls(bad_state, [0, 0], (), ("refused", 25), ("refused", 25))
        self.assertEqual(net.row_call(CARD_A, self.state, ()), (("ok",), self.state))
        for order in ([], [0, 0]):
            self.assertEqual(net.subnet_row_call(CARD_A, self.subnet_state, order, ()),
                             (("refused", 23), self.subnet_state))

    def test_20_and_21(self):
        for row in ((1,), (1, 2, 3), 64 * (0,), (1023,), (1023, 1023, 1023)):
            self.calls(self.state, [1, 0], row, ("refused", 20), ("refused", 20))
        self.calls(self.state, [1, 0], (1000, 1001), ("refused", 21, 1), ("refused", 21, 1))
        # 1023 is for files.
        self.calls(self.state, [1, 0], (1023, 1023), ("refused", 21, 0), ("refused", 21, 0))
        self.calls(self.state, [1, 0], (0, 1023), ("refused", 21, 1), ("refused", 21, 1))

    def test_21_before_22(self):
        state = net.fresh(net.load_flat(CARD_B))
        self.assertEqual(net.row_call(CARD_B, state, (500, 1001)), (("refused", 21, 1), state))
        self.assertEqual(net.row_call(CARD_B, state, (500, 1000)), (("refused", 22, 0), state))

    def test_23(self):
        for order in ([], [0], [1], [0, 0], [1, 1], [0, 2], [0, 1, 0], [0, 1, 2], [31, 0]):
            reply, left = net.subnet_row_call(CARD_A, self.subnet_state, order, (400, 0))
            self.assertEqual(reply, ("refused", 23))
            self.assertIs(left, self.subnet_state)
        for order in ([0, 1], [1, 0]):
            reply, left = net.subnet_row_call(CARD_A, self.subnet_state, order, (400, 0))
            self.assertEqual(reply, ("ok",))
            self.assertEqual(left, SubnetState(((600,), (400, 0)), ((400,), (None,)), (400, 0)))

    def lent(self, valid, state, data=CARD_A):
        """Both runners on a lent state and a row that moves nothing."""
        row = (0,) * net.load_flat(data).signals
        reply, _ = net.row_call(data, state, row)
        self.assertEqual(reply, ("ok",) if valid else ("refused", 25))
        parts = net.load_subnets(data)
        split = net.split_state(parts, state)
        order = range(len(parts.parts))
        reply, _ = net.subnet_row_call(data, split, order, row)
        self.assertEqual(reply, ("ok",) if valid else ("refused", 25))

    def test_25_lengths(self):
        for state in [State((1000, 0), (None, None), (0, 0)),
                      State((1000, 0, 0, 0), (None, None), (0, 0)),
                      State((1000, 0, 0), (None,), (0, 0)),
                      State((1000, 0, 0), (None, None, None), (0, 0)),
                      State((1000, 0, 0), (None, None), (0,)),
                      State((1000, 0, 0), (None, None), (0, 0, 0))]:
            self.assertEqual(net.row_call(CARD_A, state, (0, 0)), (("refused", 25), state))
        for state in [SubnetState(((1000,),), ((None,), (None,)), (0, 0)),
                      SubnetState(((1000,), (0, 0)), ((None,),), (0, 0)),
                      SubnetState(((1000, 0), (0,)), ((None,), (None,)), (0, 0)),
                      SubnetState(((1000,), (0, 0)), ((None, None), ()), (0, 0)),
                      SubnetState(((1000,), (0, 0)), ((None,), (None,)), (0,))]:
            self.assertEqual(net.subnet_row_call(CARD_A, state, [0, 1], (0, 0)),
                             (("refused", 25), state))

    def test_25_ranges(self):
        self.lent(True, State((1000, 1000, 2000), (None, None), (1000, 1000)))
        self.lent(True, State((0, 0, 0), (None, None), (0, 0)))
        self.lent(False, State((1001, 0, 0), (None, None), (0, 0)))
        self.lent(False, State((0, 0, 2001), (None, None), (0, 0)))
        self.lent(False, State((-1, 0, 0), (None, None), (0, 0)))
        self.lent(False, State((0, 0, 0), (None, None), (0, 1001)))
        self.lent(True, State((1000, 0, 0), (0, None), (0, 0)))
        self.lent(True, State((1, 999, 0), (999, None), (0, 0)))
        self.lent(False, State((1000, 0, 0), (1000, None), (0, 0)))

    def test_25_owed(self):
        # Transition 0 carrying 400 owes 600 at place 0 and is due 600 at place 1.
        self.lent(True, State((600, 400, 0), (400, None), (0, 0)))
        self.lent(True, State((601, 0, 0), (400, None), (0, 0)))
        self.lent(False, State((599, 400, 0), (400, None), (0, 0)))

    def test_25_due(self):
        self.lent(False, State((600, 401, 0), (400, None), (0, 0)))
        # Transition 1 carrying 0 owes 1000 at place 1, is due 1000 at place 2.
        self.lent(True, State((0, 1000, 1000), (None, 0), (0, 0)))
        self.lent(False, State((0, 1000, 1001), (None, 0), (0, 0)))

    def test_25_sums(self):
        # Two takers of weight 1 on capacity 3: owed 700 + 400 at place 0.
        self.lent(True, State((1100, 300, 600), (300, 600), (0, 0)), takers(1))
        self.lent(False, State((1099, 300, 600), (300, 600), (0, 0)), takers(1))
        # Of weight 2: owed 1400 + 800.
        self.lent(True, State((2200, 300, 600), (300, 600), (0, 0)), takers(2))
        self.lent(False, State((2199, 300, 600), (300, 600), (0, 0)), takers(2))


class RandomCards(unittest.TestCase):

    def test_two_views(self):
        rng = random.Random(7)
        for _ in range(300):
            card = random_card(rng)
            answer, data = net.write_card(card, 10000)
            self.assertEqual(answer, "wrote")
            self.assertEqual(net.read_card(data), card)
            flat = net.flatten_program(data)
            self.assertEqual(net.check(flat),
                             ("accepted", 1, len(card.places), len(card.transitions)))
            self.assertEqual(net.flatten_program(flat), flat)
            rows = [empty_or(rng, random_row(rng, card.signals)) for _ in range(12)]
            results = both_runners(data, rows, rng.random())
            self.assertEqual(results, both_runners(flat, rows))
            loaded = net.load_flat(data)
            for _, state in results:
                self.assertTrue(net.state_valid(loaded, state))
            self.assertEqual(net.run_program(data, file_bytes(rows, card.signals)),
                             "".join(net.row_line(number, *result) for number, result
                                     in enumerate(results, start=1)).encode())
