"""Makes the examples: for each a card, the rows of a run and the lines that it prints. examples/README.md says what they show."""

import cards
import net
import samples
from cards import DRAW, FILL, IN, NORMAL, OUT
from make_row_cases import BENCH_ROWS
from paths import root

folder = root / "examples"

MAIN, ARM, GRIPPER, DRIVE = range(4)
WHEELS, SHOULDER, FINGERS, TRAY = range(4)      # signals


def robot():
    """A robot that drives to a shelf, takes a tape and hands it over. The gripper is a part of the arm."""
    return cards.tables(
        4,
        (0, 0, [(NORMAL, 1, 1), (NORMAL, 1, 0)],
         [(WHEELS, [(DRAW, MAIN, 0, 1), (FILL, DRIVE, 0, 1)]),
          (SHOULDER, [(DRAW, DRIVE, 1, 1), (FILL, ARM, 0, 1)]),
          (TRAY, [(DRAW, ARM, 1, 1), (FILL, MAIN, 1, 1)])]),
        (MAIN, 0, [(IN, 1, 0), (OUT, 1, 0), (NORMAL, 1, 0)],
         [(SHOULDER, [(DRAW, ARM, 0, 1), (FILL, ARM, 2, 1)]),
          (FINGERS, [(DRAW, ARM, 2, 1), (FILL, GRIPPER, 0, 1)]),
          (FINGERS, [(DRAW, GRIPPER, 1, 1), (FILL, ARM, 1, 1)])]),
        (ARM, 0, [(IN, 1, 0), (OUT, 1, 0), (NORMAL, 2, 2), (NORMAL, 1, 0)],
         [(FINGERS, [(DRAW, GRIPPER, 0, 1), (DRAW, GRIPPER, 2, 2), (FILL, GRIPPER, 1, 1), (FILL, GRIPPER, 3, 1)]),
          (TRAY, [(DRAW, GRIPPER, 3, 1), (FILL, GRIPPER, 2, 2)])]),
        (MAIN, 0, [(IN, 1, 0), (OUT, 1, 0), (NORMAL, 3, 3)],
         [(WHEELS, [(DRAW, DRIVE, 0, 1), (DRAW, DRIVE, 2, 1), (FILL, DRIVE, 1, 1)])]))


ROBOT_ROWS = [
    (400, 0, 0, 0),         # the order goes to the drive,
    (1000, 0, 0, 0),        # all of it
    (0, 0, 0, 0),
    (600, 0, 0, 0),         # the drive moves, on a third of its charge
    (1000, 0, 0, 0),
    (1000, 500, 0, 0),      # at the shelf the arm takes over
    (0, 1000, 0, 0),
    (0, 0, 0, 0),
    (0, 700, 0, 0),         # and reaches out
    (0, 1000, 0, 0),
    (0, 1000, 300, 0),      # the gripper's turn
    (0, 1000, 1000, 0),
    (0, 0, 0, 0),
    (0, 0, 450, 0),         # both fingers close
    (0, 0, 450, 1001),      # a sensor out of range: the row is refused
    (0, 0, 1000, 0),
    (0, 0, 0, 0),
    (0, 0, 1000, 0),        # the arm has the tape
    (0, 0, 1000, 250),      # hands it over, and the fingers open
    (0, 0, 1000, 1000),
]

EXAMPLES = {"bench": (samples.bench_card(), BENCH_ROWS), "robot": (robot(), ROBOT_ROWS)}


def files():
    """The contents of each file, by folder and name, as robot/rows."""
    made = {}
    for name, (card, rows) in EXAMPLES.items():
        data, given = cards.encode(card), cards.encode_rows(rows)
        assert net.check(data)[0] == "accepted", net.check(data)
        made |= {f"{name}/net.card": data, f"{name}/rows": given, f"{name}/expected": net.run_program(data, given)}
    return made
