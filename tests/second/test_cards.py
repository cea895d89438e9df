"""Cases of tools/cards.py: what it shows of a card, and what it says of tables that no card can hold."""

import random
import unittest
from dataclasses import replace

import cards
import net
import samples
from test_net import CARD_A, FIELDS_A, TABLES_A


class Fields(unittest.TestCase):
    def test_bench_card(self):
        found = cards.fields(CARD_A)
        self.assertEqual([(field.bit, field.width) for field in found], FIELDS_A)
        self.assertEqual(found[0], (0, 4, "header", "version", 1))
        self.assertEqual(found[-1], (224, 8, "transition 1, arc 1", "weight", 1))
        self.assertEqual([field[2:] for field in cards.row_at(CARD_A, 150)],
                         [("place (1,0)", "kind", 1), ("place (1,0)", "capacity", 1), ("place (1,0)", "tokens", 0)])

    def test_version_2(self):
        found = cards.fields(cards.encode(replace(TABLES_A, version=2)))
        self.assertEqual(found[0], (0, 4, "header", "version", 2))
        self.assertEqual(found[1:], cards.fields(CARD_A)[1:])

    def test_ends(self):
        self.assertEqual(cards.fields(b""), [(0, 4, "header", "version", None)])
        self.assertEqual(cards.fields(CARD_A[:28])[-1], (224, 8, "transition 1, arc 1", "weight", None))
        self.assertEqual(cards.fields(CARD_A + b"ab")[-1], (232, 16, "behind the card", "bytes", 2))
        self.assertEqual(cards.fields(cards.encode(net.flatten(TABLES_A)))[-1], (206, 2, "fill", "bits", 0))
        self.assertEqual(cards.row_at(CARD_A, 232), [])

    def test_random_cards(self):
        rng = random.Random(1)
        for _ in range(300):
            data = samples.random_bytes(rng)
            found = cards.fields(data)
            spelt = "".join(format(field.value, f"0{field.width}b") for field in found
                            if field.value is not None and field.row != "behind the card")
            self.assertTrue(cards.unpack(data).startswith(spelt))
            self.assertEqual([field.bit for field in found[1:]], [field.bit + field.width for field in found[:-1]])

    def test_refused_cards(self):
        """Where a refusal's bit is the first of a field, that field is in the row shown; a fault of pass two is that of the row."""
        rng = random.Random(2)
        numbers = set()
        for _ in range(3000):
            data = samples.random_bytes(rng)
            answer, number, bit, *_ = net.check(data)
            if answer == "refused":
                numbers.add(number)
                row = cards.row_at(data, bit)
                self.assertIn(bit, [row[0].bit] if number in net.PASS_TWO else [field.bit for field in row] if number != 9 else [bit])
        self.assertTrue({1, 4, 7, 8, 9, 10, 12, 15, 26} <= numbers, numbers)


class Misfits(unittest.TestCase):
    def test_value(self):
        for value in (-1, 256):
            with self.assertRaisesRegex(ValueError, f"^places, row 2: capacity {value} does not fit in 8 bits$"):
                cards.encode(cards.change(TABLES_A, "places", 2, capacity=value))

    def test_counts(self):
        with self.assertRaisesRegex(ValueError, "^arcs: 3 rows, and the counts say 4$"):
            cards.encode(replace(TABLES_A, arcs=TABLES_A.arcs[1:]))

    def test_row(self):
        with self.assertRaises(ValueError):
            cards.encode_row((0, 1024))

    def test_row_of_no_degrees(self):
        for row in ((), []):
            with self.assertRaisesRegex(ValueError, "^a row of no degrees has no bytes; empty_row gives the degrees that stand for it$"):
                cards.encode_rows([(1, 2), row])


class EmptyRows(unittest.TestCase):
    def test_bytes(self):
        # Fill bits: 6, 4, none, 2.
        self.assertEqual(cards.EMPTY_MARK, 1023)
        self.assertEqual(cards.empty_row(3), (1023, 1023, 1023))
        for signals, data in ((1, b"\xff\xc0"), (2, b"\xff\xff\xf0"), (4, 5 * b"\xff"), (63, 78 * b"\xff" + b"\xfc")):
            self.assertEqual(cards.encode_row(cards.empty_row(signals)), data)
            self.assertEqual(net.read_row(data, signals), ())

    def test_among_others(self):
        rows = [(400, 0), cards.empty_row(2), (700, 0)]
        self.assertEqual(net.run_program(CARD_A, cards.encode_rows(rows)),
                         b"1 ok 600 400 0 | 400 -\n2 ok 600 400 0 | 400 -\n3 ok 300 700 0 | 700 -\n")
