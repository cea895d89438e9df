"""Random cards, visiting orders and rows, as the programs and the library are given them."""

import cards
import hierarchies
import samples


def card(rng):
    """The bytes of a card: random, of a family, bent, or large."""
    kind = rng.randrange(100)
    if kind < 70:
        return samples.random_bytes(rng)
    if kind < 98:
        tables = hierarchies.random_family(rng)
        for _ in range(rng.choice((0, 0, 0, 1, 2))):
            tables = hierarchies.bent(rng, tables)
        return cards.encode(tables)
    count = rng.randint(1, 32)
    tables = samples.random_card(rng, most_subnets=count, most_rows=min(7, 254 // count), most_signals=63)
    return cards.encode(tables)


def order(rng, subnets):
    """Each subnet once; in one of four, a bad one."""
    numbers = rng.sample(range(subnets), subnets)
    kind = rng.randrange(16)
    if kind == 0:
        numbers[rng.randrange(subnets)] = rng.choice((0, subnets - 1, subnets, 31, 32, 65535))
    elif kind == 1:
        numbers.pop()
    elif kind == 2:
        numbers.insert(rng.randrange(subnets + 1), rng.randrange(subnets + 1))
    elif kind == 3:
        numbers = rng.choices(range(subnets), k=subnets)
    return numbers


def rising_row(rng, last):
    """Some signals rise, others stay or fall: transfers go on for several rows."""
    return tuple(min(1000, degree + rng.randrange(500)) if rng.randrange(3) else rng.choice((0, degree))
                 for degree in last)


def too_high(rng, row, degrees):
    """The row with some degrees above 1000."""
    return tuple(rng.choice(degrees) if rng.randrange(2) else degree for degree in row)


def row(rng, signals):
    """A row of a call; some of another length, or with degrees above 1000, all of them the mark of a file's empty row among them."""
    kind = rng.randrange(12)
    if kind == 0:
        return cards.empty_row(signals)
    row = samples.random_row(rng, signals + (kind == 1) - (kind == 2))
    return too_high(rng, row, (1001, 1023, 65535)) if kind == 3 else row


def next_row(rng, last):
    """A row of a call after these degrees: empty in one of six, rising in half of the others."""
    return samples.empty_or(rng, rising_row(rng, last) if rng.randrange(2) else row(rng, len(last)))
