#!/usr/bin/env python3
"""The definitions beside the second implementation: random cards, rows, states and orders, each a theorem by computation.

The theorems stand in a crate of their own, in a copy of the repository outside it. An argument, if given, is the seed.
"""

import pathlib
import random
import re
import shutil
import subprocess
import sys
import tempfile

from paths import root

import cards
import make_card_cases
import make_row_cases
import net
import random_input
import report
import row_calls
import samples

SIZES = {"most_subnets": 3, "most_rows": 3, "most_signals": 3}

# How many cases of each outcome.
CARDS = {"accepted": 12, **{number: 2 for number in (*net.PASS_ONE, *net.PASS_TWO)}}
CALLS = {"ok": 12, "empty ok": 4, "empty start": 4, "empty 22": 2, row_calls.FROM_ZERO: 4, 20: 3, 21: 3, 22: 6, 23: 3, 25: 8}
TABLES = {"wrote": 3, 17: 6, 24: 3, **{number: 1 for number in (2, 3, 4, 5, 7, 8, 10, 12, 26, 14)}}
TRIES = 100000


def layers():
    """The crates that the definitions stand in: `programs` and those that crates.txt puts below it."""
    below = re.search(r"^programs: (.*)$", (root / "crates.txt").read_text(), re.M).group(1)
    return [*below.split(), "programs"]


def listed(items):
    return " ∷ ".join([*map(str, items), "[]"])


def bytes_(data):
    return f"({listed(data)})"


def option(value):
    return "none" if value is None else f"(some {value})"


def check_outcome(answer):
    return f"checks.CheckOutcome.{answer[0]} " + " ".join(map(str, answer[1:]))


def row_outcome(reply):
    if reply == ("ok",):
        return "replies.RowOutcome.ok"
    return f"replies.RowOutcome.refused {reply[1]} {option(reply[2] if len(reply) == 3 else None)}"


def transfers(progress):
    return listed("Idle" if c is None else f"Carrying {c}" for c in progress)


def state(s):
    return (f"record {{ markings = {listed(s.markings)}; transfers = {transfers(s.progress)};"
            f" degrees = {listed(s.degrees)} }}")


def lent(s, counts):
    names = dict(zip(("places", "transitions", "signals"), counts))
    return (f"record {{ markings = {listed(s.markings)}; transfers = {transfers(s.progress)};"
            f" degrees = {listed(s.degrees)}; "
            + " ".join(f"{name} = {count};" for name, count in names.items()) + " }")


def slices(card):
    """The writer's header and four slices."""
    tables = make_card_cases.given(card)
    header = "; ".join(f"{name} = {value}" for name, value in zip(make_card_cases.HEADER, tables.header))
    return f"(record {{ {header} }}) " + " ".join(map(bytes_, tables.slices))


def programs(data, rows):
    """The check, the flatten program and the run program on a card's bytes and a rows file."""
    return [
        f"answer {bytes_(data)} ≡ {check_outcome(net.check(data))}",
        f"flatten_program {bytes_(data)} ≡ {bytes_(net.flatten_program(data))}",
        f"run_program {bytes_(data)} {bytes_(rows)} ≡ {bytes_(net.run_program(data, rows))}",
    ]


def telling_cases():
    return [statement for _, card, rows in samples.telling_cards()
            for statement in programs(cards.encode(card), samples.file_bytes(rows, card.signals))]


def empty_cases():
    """Rows files of bench card A, of empty rows and rows that are nearly so."""
    card = cards.encode(samples.bench_card())
    return [statement for data, _ in make_row_cases.empty_files() for statement in programs(card, data)[-1:]]


def card_case(rng):
    data = samples.random_bytes(rng, **SIZES)
    card = net.accept(data)
    refused = isinstance(card, net.Refusal)
    rows = samples.random_rows(rng, 1 if refused else card.signals, 4)
    return card.number if refused else "accepted", programs(data, rows)


def reached(rng, loaded, row_count):
    """A state that a few rows reach; in one of four, other signals are up in it."""
    s = net.fresh(loaded)
    for _ in range(row_count):
        s = net.row_step(loaded, s, samples.random_row(rng, loaded.signals))[1]
    return s._replace(degrees=samples.some_up(rng, loaded.signals)) if rng.randrange(4) == 0 else s


def spoiled(rng, s):
    """A state with an entry that may be out of range."""
    kind = rng.choice(("markings", "progress", "degrees"))
    values = list(getattr(s, kind))
    values[rng.randrange(len(values))] = rng.choice((0, 999, 1000, 1001, 5000))
    return s._replace(**{kind: tuple(values)})


def call_case(rng):
    """Both row calls: states reached and spoiled, counts right and wrong, orders and rows of all kinds."""
    data = cards.encode(samples.any_card(rng, **SIZES))
    loaded, parts = net.load_flat(data), net.load_subnets(data)
    s = reached(rng, loaded, rng.randrange(4))
    if rng.randrange(3) == 0:
        s = spoiled(rng, s)
    counts = [len(s.markings), len(s.progress), len(s.degrees)]
    if rng.randrange(8) == 0:
        counts[rng.randrange(3)] += 1
    right = counts == [len(loaded.capacities), len(loaded.transitions), loaded.signals]
    order = rng.sample(range(len(parts.parts)), len(parts.parts))
    if rng.randrange(4) == 0:
        order[rng.randrange(len(order))] = rng.randrange(len(order) + 1)
    row = random_input.next_row(rng, s.degrees)
    if right and net.state_valid(loaded, s):
        flat, after = net.row_call(data, s, row)
        sub, sub_after = net.subnet_row_call(data, net.split_state(parts, s), order, row)
        sub_after = net.join_state(sub_after)
    else:
        flat, after, sub, sub_after = ("refused", 25), s, ("refused", 25), s
    l = lent(s, counts)
    from_zero = row_calls.FROM_ZERO in row_calls.starts(loaded, (), row, sub, s, sub_after)
    return row_calls.FROM_ZERO if from_zero else row_calls.named(row, sub, s, sub_after), [
        f"flat_call {bytes_(data)} ({l}) {bytes_(row)} ≡ ({row_outcome(flat)}, {lent(after, counts)})",
        f"subnet_call {bytes_(data)} {bytes_(order)} ({l}) {bytes_(row)}"
        f" ≡ ({row_outcome(sub)}, {lent(sub_after, counts)})",
    ]


def write_case(rng):
    """The writer: tables that fit or not, counts right or wrong, buffers long and short."""
    card = samples.given_tables(rng, samples.any_card(rng, **SIZES))
    if rng.randrange(6) == 0:
        card.arcs.append(cards.Arc(0, 0, 0, 1))
    length = rng.choice((0, 20, 60, 200))
    buffer = [rng.randrange(256) for _ in range(length)]
    answer = net.write_card(card, length)
    after = buffer
    if answer[0] == "wrote":
        after = list(answer[1]) + buffer[len(answer[1]):]
        key, outcome = "wrote", f"checks.WriteOutcome.wrote {len(answer[1])}"
    else:
        key, value = (24, answer[1]) if answer[0] == "short" else answer[1:]
        outcome = f"checks.WriteOutcome.refused {key} {value}"
    return key, [f"write_rows {slices(card)} {bytes_(buffer)} ≡ ({outcome}, {bytes_(after)})"]


def sample(rng, make, wanted):
    """Cases of each wanted outcome, as many as wanted."""
    missing = dict(wanted)
    statements = []
    for _ in range(TRIES):
        key, case = make(rng)
        if missing.get(key, 0) > 0:
            missing[key] -= 1
            statements += case
        if not any(missing.values()):
            return statements
    sys.exit(f"no cases found for {[key for key, count in missing.items() if count]}")


def unfolded():
    """The definitions that the starred theorem computes with: its `use` lines and its `unfolding` lines."""
    text = (root / "crates/programs/proofs/Starred.antt").read_text()
    uses = re.findall(r"^use .*$", text, re.M)
    lines = re.search(r"^unfolding (.*?)\nstarred =", text, re.M | re.S).group(1)
    return "\n".join(uses), lines


def theorems(statements):
    uses, names = unfolded()
    parts = ["""use Rattle.std.proofs.Common.{ℕ, List, [], ◌∷◌}
use Rattle.std.proofs.Math.Option.{Option, none, some}
use Rattle.card.specs.Writing.{all_fit, counted, read_tables}
use Rattle.card.specs.Rows.{tables_in, whole_rows, read_rows}
use Rattle.card.specs.Spelling.{put_into}
use Rattle.hierarchy.specs.Numbers as checks
use Rattle.hierarchy.specs.Judgement.{answer}
use Rattle.hierarchy.specs.Output.{write_rows}
use Rattle.runners.specs.Numbers as replies
use Rattle.programs.specs.Programs.{flatten_program}
use Rattle.runners.specs.declared.Transfer.TheVariants.{Idle, Carrying}""", uses]
    text = "\n".join(dict.fromkeys("\n".join(parts).split("\n"))) + "\n"
    more = "all_fit counted read_tables tables_in whole_rows read_rows put_into write_rows flatten_program"
    for number, statement in enumerate(statements, start=1):
        text += f"\ncase-{number} : {statement}\nunfolding {names} {more}\ncase-{number} = refl\n"
    return text


def copied(folder, statements):
    """A copy of the layers, with what checks have kept of them, and the crate of the theorems over them."""
    for layer in layers():
        shutil.copytree(root / "crates" / layer, folder / "crates" / layer)
    lines = re.findall(rf"^(?:{'|'.join(layers())}):.*\n", (root / "crates.txt").read_text(), re.M)
    (folder / "crates.txt").write_text("".join(lines) + f"computed: {' '.join(layers())}\n")
    for part in ("src", "specs", "proofs"):
        (folder / "crates/computed" / part).mkdir(parents=True)
    (folder / "crates/computed/src/lib.rt").write_text("#![tactic(auto)]\n\npub enum Computed {\n    Case,\n}\n")
    (folder / "crates/computed/specs/Lib.antt").write_text("\n")
    (folder / "crates/computed/proofs/Lib.antt").write_text("mod Cases\n")
    (folder / "crates/computed/proofs/Cases.antt").write_text(theorems(statements))


def main():
    report.need_commands("rt")
    seed = int(sys.argv[1]) if len(sys.argv) > 1 else 1
    print(f"seed {seed}", flush=True)
    rng = random.Random(seed)
    statements = telling_cases() + empty_cases()
    for make, wanted in ((card_case, CARDS), (call_case, CALLS), (write_case, TABLES)):
        statements += sample(rng, make, wanted)
    with tempfile.TemporaryDirectory() as folder:
        copied(pathlib.Path(folder), statements)
        run = subprocess.run(["rt", "check"], cwd=pathlib.Path(folder) / "crates" / "computed", capture_output=True, text=True)
    output = run.stdout + run.stderr
    wrong = sorted(set(map(int, re.findall(r"`case-(\d+)`", output))))
    if run.returncode != 0 and not wrong:
        report.close(0, [output[-4000:]])
    report.close(len(statements) - len(wrong), [f"case {number} does not hold:\n    {statements[number - 1]}" for number in wrong])


if __name__ == "__main__":
    main()
