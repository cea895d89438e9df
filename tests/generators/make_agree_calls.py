"""Makes the files of the program agree: a card of several subnets, a file of calls, and the line that it must print.

The second implementation answers each call in both views, and the answers are asserted to be equal here too.
"""

import random

import cards
import hierarchies
import net
import row_calls
import samples
from paths import root

folder = root / "crates" / "agree"

CALLS = 60
SEED = 1802    # a version 2 card of 16 subnets; most rows are taken, and each answer of TOLD is there
TOLD = {"ok", "empty ok", "empty start", 20, 21, 22, row_calls.FULL_START, row_calls.FROM_ZERO, row_calls.ACROSS}


def row_bytes(rng, signals):
    """A row's bytes, now and then with a nonzero fill bit."""
    data = bytearray(cards.encode_row(samples.random_file_row(rng, signals, samples.random_row(rng, signals))))
    if rng.randrange(12) == 0:
        data[-1] |= 1
    return bytes(data)


def answered(cases, full, order, chunk):
    """The answer of both runners to a row's bytes, and which starts it has. Bytes that are no row are 20 without a call: as a list of no degrees
    they would be an empty row, which is taken."""
    row = net.read_row(chunk, cases.flat.signals)
    if row is None:
        return [20]
    before = cases.lent[0].view()
    flat, subnet = cases.call(order, row)
    after = cases.lent[0].view()
    assert flat == subnet and after == cases.lent[1].view(), (order, chunk)
    return [row_calls.named(row, flat, before, after), *row_calls.starts(cases.flat, full, row, flat, before, after)]


def made(seed):
    """A card's bytes, its calls, and the answers to them."""
    rng = random.Random(seed)
    card = hierarchies.random_family(rng)
    data, full = cards.encode(card), samples.full_loops(card)
    cases = row_calls.Cases(data)
    order = list(range(len(cases.parts.parts)))
    calls, answers = [], []
    for _ in range(CALLS):
        rng.shuffle(order)
        chunk = row_bytes(rng, cases.flat.signals)
        calls.append(chunk + bytes(order))
        answers += answered(cases, full, order, chunk)
    return data, calls, answers


def files():
    """The files' contents by name. The last call is not all there, so it is none."""
    data, calls, answers = made(SEED)
    assert TOLD <= set(answers), TOLD - set(answers)
    return {"data/net.card": data, "stdin": b"".join(calls) + calls[0][:-1], "stdout": b"yes\n"}
