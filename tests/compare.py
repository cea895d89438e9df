#!/usr/bin/env python3
"""The proved programs beside the second implementation: random cards, damaged cards, random rows, states and visiting orders.

    compare.py [SEED [CARDS]]

Each worker has a seed of its own, which is printed, and prints each
difference with the card in hexadecimal; where a batch differs, its cards are run again one by one, so that every difference is shown.
"""

import collections
import multiprocessing
import random
import sys
from typing import NamedTuple

import paths

import cards
import hierarchies
import net
import programs
import random_input
import row_calls
import samples

WORKERS = 2
CARDS = 20000
BATCH = 250
ROWS_A_CARD = 40    # rows of a file, at most

# What must come up among as many cards as CARDS: answers to calls of both runners, and empty rows of files; refusals of cards; accepted cards
# of each version, with a loop, with one whose weights add to just the capacity; and calls that row_calls.starts names.
IN_FILE = "empty in a file"
LOOP, FULL_LOOP = "loop", "full loop"
ANSWERS = ("ok", "empty ok", "empty start", "empty 22", IN_FILE, 20, 21, 22, 23, 25, *net.PASS_ONE, *net.PASS_TWO,
           *map("version {}".format, net.VERSIONS), LOOP, FULL_LOOP, row_calls.FULL_START, row_calls.FROM_ZERO, row_calls.ACROSS)


class Tally(NamedTuple):
    """What was compared: cards, rows, differences; and how often each of ANSWERS came up."""
    cards: int
    rows: int
    wrong: int
    answers: collections.Counter


# Random cases


def random_entry(rng, state):
    """An entry of a state, or a count, and a value that may be out of range."""
    field = rng.choice((row_calls.MARKING, row_calls.TRANSFER, row_calls.DEGREE, rng.randint(row_calls.PLACES, row_calls.SIGNALS)))
    if field >= row_calls.PLACES:
        size = len(state[field - row_calls.PLACES])
        return field, 0, rng.choice((size, size + 1, max(size - 1, 0), 255, 70000))
    at = rng.randrange(len(state[field]) + 1)
    return field, at, rng.choice((0, 1, 500, 999, 1000, 1001, 2000, 65535, rng.randrange(3001)))


def call_both(rng, cases, full, answers):
    """Row calls of both runners, from the fresh state on, with some signals up in one of four; towards the end some with states that were tampered
    with."""
    if rng.randrange(4) == 0:
        for signal, degree in enumerate(samples.some_up(rng, cases.flat.signals)):
            cases.set(row_calls.DEGREE, signal, degree)
    for turn in range(4):
        last = cases.lent[0].view().degrees
        if turn == 3 and rng.randrange(3) == 0:
            cases.set(*random_entry(rng, cases.lent[0].used()))
        row = random_input.next_row(rng, last)
        before = [lent.view() for lent in cases.lent]
        replies = cases.call(random_input.order(rng, len(cases.parts.parts)), row)
        answers.update(row_calls.named(row, reply, old, lent.view()) for reply, old, lent in zip(replies, before, cases.lent))
        answers.update(row_calls.starts(cases.flat, full, row, replies[0], before[0], cases.lent[0].view()))
    return 4


def rows_file(rng, signals):
    """Rows that rise and fall, now and then empty or with a degree above 1000 or a fill bit; the last may be short."""
    last = signals * (0,)
    rows = []
    for _ in range(rng.randint(1, ROWS_A_CARD)):
        row = random_input.rising_row(rng, last) if rng.randrange(4) else samples.random_row(rng, signals)
        if rng.randrange(20) == 0:
            row = random_input.too_high(rng, row, (1001, 1023))
        rows.append(samples.random_file_row(rng, signals, row))
        if max(rows[-1]) <= 1000:
            last = rows[-1]
    return samples.torn_file(rng, rows)


def random_cases(rng, answers):
    """Cases with one card, and how many rows they have."""
    cases = row_calls.Cases(random_input.card(rng))
    length = len(cases.data)
    cases.flatten(rng.choice((0, length, length, max(length - rng.randrange(12), 0), length + 3)))
    if cases.refused:
        answers[cases.flat.number] += 1
        cases.call([0], (1, 2))
        cases.rows(b"\0\0")
        return cases, 2
    card = net.read_card(cases.data)
    full = samples.full_loops(card)
    answers[f"version {card.version}"] += 1
    answers[LOOP] += bool(samples.loops(card))
    answers[FULL_LOOP] += bool(full)
    calls = call_both(rng, cases, full, answers) if rng.randrange(2) else 0
    signals = cases.flat.signals
    data = rows_file(rng, signals)
    cases.rows(data)
    rows = net.split_rows(data, signals)
    answers[IN_FILE] += rows.count(cards.encode_row(cards.empty_row(signals)))
    return cases, calls + len(rows)


# The programs


def show(what, data, stdin, expected, got):
    lines = [(expected or b"").split(b"\n"), (got or b"").split(b"\n")]
    at = next((i for i, pair in enumerate(zip(*lines)) if pair[0] != pair[1]), min(map(len, lines)) - 1)
    print(f"{what} differs, line {at + 1}: card {data.hex() or 'empty'}, input {stdin.hex()}")
    print(f"    second implementation: {lines[0][at]!r}\n    program:               {lines[1][at]!r}", flush=True)


def compare_batch(batch):
    """The cards whose lines differ."""
    stdin = b"".join(cases.stdin() for cases in batch)
    expected = b"".join(cases.stdout() for cases in batch)
    if programs.printed("row_cases", stdin) == expected:
        return 0
    wrong = 0
    for cases in batch:
        got = programs.printed("row_cases", cases.stdin())
        if got != cases.stdout():
            show("row_cases", cases.data, cases.stdin(), cases.stdout(), got)
            wrong += 1
    if wrong == 0:
        print(f"cards that differ together and not one by one: input {stdin.hex()}", flush=True)
    return wrong or 1


def compare_programs(data, rows):
    """The programs run and flatten on a card; one of no bytes is a file that is not there."""
    wrong = 0
    for program, stdin, expected, got in (
            ("run", rows, net.run_program(data, rows), programs.run(data or None, rows)),
            ("flatten", data, net.flatten_program(data), programs.flatten(data))):
        if got != expected:
            show(program, data, stdin, expected, got)
            wrong += 1
    return wrong


def work(job):
    """One worker's part."""
    seed, count = job
    rng = random.Random(seed)
    answers = collections.Counter()
    rows = wrong = done = 0
    while done < count:
        batch = []
        for _ in range(min(BATCH, count - done)):
            cases, more = random_cases(rng, answers)
            batch.append(cases)
            rows += more
        wrong += compare_batch(batch)
        done += len(batch)
        for cases in batch[:4]:
            wrong += compare_programs(cases.data, rows_file(rng, 1 if cases.refused else cases.flat.signals))
    return Tally(done, rows, wrong, answers)


# Long inputs


def long_inputs():
    """Cards longer than the largest, and many rows: the differences."""
    bench = cards.encode(samples.bench_card())
    longest = cards.encode(hierarchies.longest_card())
    second = cards.with_field(longest, 0, 4, 2)
    wrong = 0
    for data in (b"", bench + bytes(40000), longest + bytes(40000), longest + b"\1" + bytes(40000), bytes(70000), longest, second):
        wrong += compare_programs(data, cards.encode_row((1000,)))
    rows = [cards.empty_row(2) if i % 7 == 0 else (1000 * (i % 2), 500 * (i % 3)) for i in range(30000)]
    for version in net.VERSIONS:
        wrong += compare_programs(cards.encode(samples.bench_card(version=version)), cards.encode_rows(rows) + b"\0")
    return wrong


def main():
    programs.need("run", "flatten", "row_cases")
    words = sys.argv[1:]
    seed = int(words[0]) if words else random.SystemRandom().randrange(1 << 32)
    count = int(words[1]) if len(words) > 1 else CARDS
    jobs = [(seed + worker, count // WORKERS) for worker in range(WORKERS)]
    print(f"seeds {', '.join(str(job[0]) for job in jobs)}", flush=True)
    with multiprocessing.Pool(WORKERS) as pool:
        tallies = pool.map(work, jobs)
    wrong = sum(tally.wrong for tally in tallies) + long_inputs()
    answers = sum((tally.answers for tally in tallies), collections.Counter())
    tested = sum(tally.cards for tally in tallies)
    missing = [answer for answer in ANSWERS if tested >= CARDS and not answers[answer]]
    for answer in missing:
        print(f"never came up: {answer}")
    print(f"{tested} cards, {sum(tally.rows for tally in tallies)} rows; among them "
          + ", ".join(f"{key} {times}" for key, times in sorted(answers.items(), key=str)))
    print(f"{tested - wrong} passed, {wrong + len(missing)} failed")
    sys.exit(1 if wrong or missing else 0)


if __name__ == "__main__":
    main()
