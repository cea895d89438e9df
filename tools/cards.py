"""Making cards and rows, and looking at the fields of a card. docs/CARDS.md shows how.

Whether a card is accepted is not said here: the programs in target/bin say it.
"""

import dataclasses
import pathlib
from typing import NamedTuple

NORMAL, IN, OUT, IN_OUT = range(4)      # kinds of places
DRAW, FILL = range(2)                   # directions of arcs

VERSION_BITS = 4
DEGREE_BITS = 10
EMPTY_MARK = (1 << DEGREE_BITS) - 1     # each degree of an empty row in a rows file


# Tables: what a card says, row by row


class Header(NamedTuple):
    version: int
    subnets: int
    signals: int
    limit: int
    scale: int


class Subnet(NamedTuple):
    parent: int
    type: int
    places: int
    transitions: int


class Place(NamedTuple):
    kind: int
    capacity: int
    tokens: int


class Transition(NamedTuple):
    signal: int
    arcs: int
    rank: int = 0


class Arc(NamedTuple):
    direction: int
    subnet: int
    place: int
    weight: int


@dataclasses.dataclass
class Card:
    """The rows of a card, each list in card order. A reader may note the first bits of rows."""
    signals: int
    subnets: list
    places: list
    transitions: list
    arcs: list
    version: int = 1
    limit: int = 0
    scale: int = 0
    subnet_bits: list = dataclasses.field(default_factory=list, compare=False)
    transition_bits: list = dataclasses.field(default_factory=list, compare=False)
    arc_bits: list = dataclasses.field(default_factory=list, compare=False)

    def header(self):
        return Header(self.version, len(self.subnets), self.signals, self.limit, self.scale)


def tables(signals, *subnets, version=1):
    """Tables of this version, from subnets (parent, type, places, transitions), places (kind, capacity, first tokens), transitions (signal,
    arcs) and arcs (direction, subnet, place, weight). They are counted here."""
    card = Card(signals, [], [], [], [], version)
    for parent, type_, places, transitions in subnets:
        card.subnets.append(Subnet(parent, type_, len(places), len(transitions)))
        card.places.extend(Place(*place) for place in places)
        for signal, arcs in transitions:
            card.transitions.append(Transition(signal, len(arcs)))
            card.arcs.extend(Arc(*arc) for arc in arcs)
    return card


def change(card, table, index, **values):
    """Tables with one row changed, as change(card, "places", 2, capacity=4)."""
    rows = list(getattr(card, table))
    rows[index] = rows[index]._replace(**values)
    return dataclasses.replace(card, **{table: rows})


# The format: the width of each field, and the order of the rows


class Widths(NamedTuple):
    """How many bits each field has, in the form of the rows themselves."""
    header: Header
    subnets: Subnet
    places: Place
    transitions: Transition
    arcs: Arc


def widths(version):
    """The widths on a card of this version: a field that a later one brings has no bits."""
    def since(first, bits):
        return bits if version >= first else 0

    return Widths(
        header=Header(VERSION_BITS, subnets=6, signals=6, limit=since(4, 8), scale=since(5, 14)),
        subnets=Subnet(parent=5, type=5, places=8, transitions=8),
        places=Place(kind=2, capacity=8, tokens=8),
        transitions=Transition(signal=6, arcs=5, rank=since(3, 8)),
        arcs=Arc(direction=1, subnet=5, place=8, weight=8),
    )


def in_order(row):
    """Calls row(table, name) for each row of a card, in the order in which they stand there. It answers with the row, whose counts say what
    follows."""
    transition = 0
    for subnet in range(row("header", "header").subnets):
        own = row("subnets", f"subnet {subnet}")
        for place in range(own.places):
            row("places", f"place ({subnet},{place})")
        for _ in range(own.transitions):
            for arc in range(row("transitions", f"transition {transition}").arcs):
                row("arcs", f"transition {transition}, arc {arc}")
            transition += 1


# Writing


def misfit(card):
    """What of the tables no card can hold, in words: a value too large for its field, or other counts than there are rows. Else None."""
    for table, bits in widths(card.version)._asdict().items():
        for index, row in enumerate([card.header()] if table == "header" else getattr(card, table)):
            for name, value, width in zip(bits._fields, row, bits):
                if not 0 <= value < 1 << width:
                    return f"{table}, row {index}: {name} {value} does not fit in {width} bits"
    counted = (("places", card.subnets, 2), ("transitions", card.subnets, 3), ("arcs", card.transitions, 1))
    for table, rows, column in counted:
        if sum(row[column] for row in rows) != len(getattr(card, table)):
            return f"{table}: {len(getattr(card, table))} rows, and the counts say {sum(row[column] for row in rows)}"
    return None


def fits(card):
    return misfit(card) is None


def pack(bits):
    """A text of zeros and ones as bytes, zeros to the byte."""
    length = (len(bits) + 7) // 8
    return int(bits.ljust(8 * length, "0") or "0", 2).to_bytes(length, "big")


def unpack(data):
    return "".join(format(byte, "08b") for byte in data)


def encode(card):
    """The bytes of tables."""
    fault = misfit(card)
    if fault is not None:
        raise ValueError(fault)
    bits = widths(card.version)
    left = {table: iter(getattr(card, table)) for table in bits._fields[1:]} | {"header": iter([card.header()])}
    digits = []

    def row(table, name):
        values = next(left[table])
        # A field of no bits is left out: its 0 would still be printed as one digit.
        digits.extend(format(value, f"0{width}b") for value, width in zip(values, getattr(bits, table)) if width)
        return values

    in_order(row)
    return pack("".join(digits))


def empty_row(signals):
    """The degrees that stand in a rows file for an empty row: each signal stands at its last degree."""
    return signals * (EMPTY_MARK,)


def encode_row(degrees):
    """The bytes of a row: each degree in 10 bits, zeros to the byte."""
    if not degrees:
        raise ValueError("a row of no degrees has no bytes; empty_row gives the degrees that stand for it")
    if not all(0 <= degree < 1 << DEGREE_BITS for degree in degrees):
        raise ValueError(f"row {tuple(degrees)}: a degree does not fit in {DEGREE_BITS} bits")
    return pack("".join(format(degree, f"0{DEGREE_BITS}b") for degree in degrees))


def encode_rows(rows):
    """The bytes of a rows file."""
    return b"".join(map(encode_row, rows))


def with_field(data, bit, width, value):
    """A card's bytes with the field of this width at this bit changed."""
    bits = unpack(data)
    return pack(bits[:bit] + format(value, f"0{width}b") + bits[bit + width:])


def save(folder, data, rows=()):
    """Writes a card's bytes and rows as the files net.card and rows of a folder, for the run program."""
    folder = pathlib.Path(folder)
    folder.mkdir(parents=True, exist_ok=True)
    (folder / "net.card").write_bytes(data)
    (folder / "rows").write_bytes(encode_rows(rows))


# Looking at a card's bytes


class Field(NamedTuple):
    """A field: its first bit and its width, the row that it stands in, and its value, None where the card ends inside it."""
    bit: int
    width: int
    row: str
    name: str
    value: int | None


class CardEnds(Exception):
    """The card's bytes end inside a field."""


def fields(data):
    """The fields of a card's bytes as its counts lead to them, right or wrong, then the fill bits and the bytes behind them."""
    bits, found = unpack(data), []
    layout = widths(int(bits[:VERSION_BITS] or "0", 2))

    def row(table, name):
        values = []
        for field, width in zip(getattr(layout, table)._fields, getattr(layout, table)):
            at = found[-1].bit + found[-1].width if found else 0
            value = int(bits[at:at + width] or "0", 2) if at + width <= len(bits) else None
            found.extend([Field(at, width, name, field, value)] if width else [])
            if value is None:
                raise CardEnds
            values.append(value)
        return type(getattr(layout, table))(*values)

    try:
        in_order(row)
    except CardEnds:
        return found
    return found + behind(bits, found[-1].bit + found[-1].width)


def behind(bits, end):
    """What stands behind the last field: the fill bits of its byte, and how many bytes follow."""
    whole = end + -end % 8
    fill = [Field(end, whole - end, "fill", "bits", int(bits[end:whole], 2))] if whole > end else []
    return fill + ([Field(whole, len(bits) - whole, "behind the card", "bytes", (len(bits) - whole) // 8)] if len(bits) > whole else [])


def row_at(data, bit):
    """The fields of the row in which a bit stands."""
    found = fields(data)
    names = {field.row for field in found if field.bit <= bit < field.bit + field.width}
    return [field for field in found if field.row in names]
