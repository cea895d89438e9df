#!/usr/bin/env python3
"""The paper's cases of bench card A and the others, starred or not, and cases of the requests, as the programs print them. Each line here is
the paper's own, or worked out by hand from it or from a request."""

import paths

import cards
import net
import programs
import report
import samples
from cards import DRAW, FILL
from make_row_cases import BENCH_LINES, BENCH_ROWS, FILLERS, LOOP, TAKERS, empty_files, three

BENCH = cards.encode(samples.bench_card())
SECOND = cards.encode(samples.bench_card(version=2))

# Place 0 feeds place 1 on signal 1; place 1 is drained on signal 0.
FED = samples.one_subnet(2, [(1, 1), (1, 1), (2, 0)], [(0, [(DRAW, 1, 1), (FILL, 2, 1)]), (1, [(DRAW, 0, 1), (FILL, 1, 1)])])

# Bench card A's fields, and refused cards: what is wrong, the bytes, the line.
REFUSED = [
    ("no bytes", b"", "no 1 0"),
    ("no such file", None, "no 1 0"),
    ("first 28 bytes", BENCH[:28], "no 1 224"),
    ("one more byte", BENCH + b"\0", "no 9 232"),
    ("subnet 1's parent 1", cards.with_field(BENCH, 115, 5, 1), "no 4 115"),
    ("second arc to place 1 of subnet 1", cards.with_field(BENCH, 99, 8, 1), "no 10 93"),
    ("second arc of direction 0", cards.with_field(BENCH, 93, 1, 0), "no 11 93"),
    ("second arc of weight 2", cards.with_field(BENCH, 107, 8, 2), "no 12 93"),
    ("place (1,0) made normal", cards.with_field(BENCH, 141, 2, 0), "no 10 93"),
    ("second arc back to place (0,0)", cards.with_field(BENCH, 94, 5, 0), "no 26 93"),
    *((f"version {version}", cards.with_field(BENCH, 0, 4, version), "no 2 0") for version in (0, 3, 15)),
    ("version 2, first 28 bytes", SECOND[:28], "no 1 224"),
    ("version 2, second arc of weight 2", cards.with_field(SECOND, 107, 8, 2), "no 12 93"),
]

# Cards that are run: the rows, with () for an empty one, and the lines.
RUN = [
    ("bench card A", samples.bench_card(), BENCH_ROWS, BENCH_LINES.decode()),
    ("card B, both at once", TAKERS, [(500, 500)], "1 no 22 0\n"),
    ("card B, one after the other", TAKERS, [(500, 0), (500, 500)], "1 ok 500 500 0 | 500 -\n2 ok 500 500 0 | 500 -\n"),
    ("two takers of 1", three(2, 1), [(500, 500)], "1 ok 1000 500 500 | 500 500\n"),
    ("two takers of 2", three(2, 2), [(500, 500)], "1 no 22 0\n"),
    ("two fillers", FILLERS, [(500, 500)], "1 no 22 0\n"),
    ("draws from and fills one place", LOOP, [(500, 0), (500, 500), (700, 600), (1000, 600), (1000, 700)],
     "1 ok 1000 500 0 | 500 -\n2 ok 1000 500 0 | 500 -\n3 ok 1000 700 0 | 700 -\n4 ok 1000 1000 0 | - -\n5 ok 900 1000 100 | - 100\n"),
    ("a signal at 1000 moves nothing on version 1 until it falls and rises", FED,
     [(1000, 0), (1000, 1000), (1000, 1000), (1000, 1000), (0, 1000), (600, 1000)],
     "1 ok 1000 0 1000 | - -\n2 ok 0 1000 1000 | - -\n3 ok 0 1000 1000 | 0 -\n4 ok 0 1000 1000 | 0 -\n5 ok 0 1000 1000 | 0 -\n"
     "6 ok 0 400 1600 | 600 -\n"),
    ("a refused row does not end the run, and its degrees are not stored", TAKERS, [(500, 500), (1001, 0), (500, 0)],
     "1 no 22 0\n2 no 21 0\n3 ok 500 500 0 | 500 -\n"),
    ("a transition of version 1 starts in an empty row and moves by the next rise", FED, [(1000, 600), (), (), (0, 900), (), (0, 1000)],
     "1 ok 1000 0 1000 | - -\n2 ok 1000 0 1000 | - 0\n3 ok 1000 0 1000 | - 0\n4 ok 700 300 1000 | - 300\n5 ok 700 300 1000 | - 300\n"
     "6 ok 600 400 1000 | - 400\n"),
    ("empty rows move nothing that carries, and a rise is from the last degrees", samples.bench_card(), [(), (400, 0), (), (), (700, 0)],
     "1 ok 1000 0 0 | - -\n2 ok 600 400 0 | 400 -\n3 ok 600 400 0 | 400 -\n4 ok 600 400 0 | 400 -\n5 ok 300 700 0 | 700 -\n"),
    ("bench card A as version 2", samples.bench_card(version=2), BENCH_ROWS,
     "1 ok 600 400 0 | 400 -\n2 ok 600 400 0 | 400 -\n3 ok 0 1000 0 | - -\n4 ok 0 500 500 | - 500\n5 ok 0 100 900 | - 900\n6 no 21 1\n"),
    *samples.loop_runs(),
    *samples.from_zero_runs(),
]


def tests():
    """Each case's name, what is printed, and what must be."""
    rows = cards.encode_rows(BENCH_ROWS)
    for name, data, text in REFUSED:
        expected = text.encode() + b"\n"
        yield f"run, {name}", programs.run(data, rows), expected
        if data is not None:
            yield f"flatten, {name}", programs.flatten(data), expected
    for name, card, given, text in RUN:
        yield f"run, {name}", programs.run(cards.encode(card), samples.file_bytes(given, card.signals)), text.encode()
    for data, text in empty_files():
        yield f"run, empty rows {data.hex()}", programs.run(BENCH, data), text
    yield "run, no rows", programs.run(BENCH, b""), b""
    yield "run, a short row", programs.run(BENCH, rows[:2]), b"1 no 20\n"
    yield "run, a short last row", programs.run(BENCH, rows[:5]), b"1 ok 600 400 0 | 400 -\n2 no 20\n"
    yield "run, a fill bit", programs.run(BENCH, rows[:2] + bytes([rows[2] | 1]) + rows[:3]), b"1 no 20\n2 ok 600 400 0 | 400 -\n"
    lines = BENCH_LINES.splitlines(keepends=True)
    pieces = [(rows[:2], 0), (rows[2:4], 1), (rows[4:9], 2), (rows[9:10], 0), (rows[10:17], 2)]
    yield ("run, rows in pieces while the input stays open", programs.run_in_pieces(BENCH, pieces),
           [b"", lines[0], lines[1] + lines[2], b"", lines[3] + lines[4], b"6 no 20\n"])
    yield "run, a row behind those", programs.run_in_pieces(BENCH, [*pieces, (rows[17:], 1)])[-2:], [lines[5], b""]
    yield "run, lines that nobody reads", programs.ends_unread(BENCH), (b"1 ok 1000 0 0 | - -\n", 1, True)
    yield "flatten, a card that cannot be written", programs.unwritten("flatten", BENCH), (1, True)
    flat = programs.flatten(BENCH)
    yield "flatten, bench card A", flat, cards.encode(net.flatten(samples.bench_card()))
    yield "flatten, again", programs.flatten(flat), flat
    yield "run, the flat card", programs.run(flat, rows), BENCH_LINES
    second = programs.flatten(SECOND)
    yield "flatten, version 2", second, cards.with_field(flat, 0, 4, 2)
    yield "flatten, version 2, again", programs.flatten(second), second
    yield "run, the flat card of version 2", programs.run(second, rows), programs.run(SECOND, rows)


programs.need("run", "flatten")
report.compare(tests())
