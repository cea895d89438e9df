"""A second implementation of the bench net runner: cards, steps and two views.

Comments name the paragraph of the paper, or the request, that a function follows. The layout of a card, and how one is written, are in tools/cards.py.
"""

from itertools import accumulate
from typing import NamedTuple

from cards import (DEGREE_BITS, DRAW, EMPTY_MARK, FILL, IN, IN_OUT, NORMAL, OUT, VERSION_BITS, Arc, Card, Place, Subnet, Transition, encode,
                   fits, widths)

THOUSAND = 1000
MOST = 255
VERSIONS = (1, 2)       # 2 is CR 3's

# The numbers of a refused card by pass. 26 is CR 2's, straight after 13.
PASS_ONE = tuple(range(1, 10))
PASS_TWO = (10, 11, 12, 13, 26, 14, 15, 16)


class Refusal(NamedTuple):
    """Why a card is turned back: number and bit position."""
    number: int
    bit: int


class CardRefused(Exception):
    """Carries a refusal's number and bit out of pass one."""


def starts(counts):
    """Where the entries of each row begin, and at the end their total."""
    return list(accumulate(counts, initial=0))


# The card: reading (pass one)


class BitReader:
    """Fields, most significant bit first. One of no bits reads as 0."""

    def __init__(self, data):
        self.padded = bytes(data) + b"\0\0"
        self.length = 8 * len(data)
        self.start = 0
        self.bit = 0

    def field(self, width):
        self.start = self.bit
        if self.start + width > self.length:
            raise CardRefused(1, self.start)
        self.bit = self.start + width
        byte = self.start >> 3
        three = int.from_bytes(self.padded[byte:byte + 3], "big")
        return three >> (24 - (self.start & 7) - width) & ((1 << width) - 1)

    def require(self, condition, number):
        """A test of the field just read."""
        if not condition:
            raise CardRefused(number, self.start)


def read_card(data):
    """Why a card is turned back, PASS_ONE. A Card, or a Refusal."""
    try:
        return read_fields(BitReader(data))
    except CardRefused as refused:
        return Refusal(*refused.args)


def read_fields(reader):
    version = reader.field(VERSION_BITS)
    reader.require(version in VERSIONS, 2)
    bits = widths(version)
    subnets = reader.field(bits.header.subnets)
    reader.require(1 <= subnets <= 32, 3)
    signals = reader.field(bits.header.signals)
    reader.require(1 <= signals <= 63, 3)
    limit = reader.field(bits.header.limit)
    scale = reader.field(bits.header.scale)
    card = Card(signals, [], [], [], [], version, limit, scale)
    for number in range(subnets):
        read_subnet(reader, bits, card, number)
    read_fill(reader)
    return card


def read_subnet(reader, bits, card, number):
    card.subnet_bits.append(reader.bit)
    parent = reader.field(bits.subnets.parent)
    reader.require(parent < number or parent == number == 0, 4)
    type_ = reader.field(bits.subnets.type)
    reader.require(number != 0 or type_ == 0, 5)
    places = reader.field(bits.subnets.places)
    reader.require(places >= 1 and len(card.places) + places <= MOST, 6)
    transitions = reader.field(bits.subnets.transitions)
    reader.require(transitions >= 1 and len(card.transitions) + transitions <= MOST, 6)
    card.subnets.append(Subnet(parent, type_, places, transitions))
    for _ in range(places):
        read_place(reader, bits, card, number)
    for _ in range(transitions):
        read_transition(reader, bits, card)


def read_place(reader, bits, card, subnet):
    kind = reader.field(bits.places.kind)
    reader.require(subnet != 0 or kind == NORMAL, 7)
    capacity = reader.field(bits.places.capacity)
    reader.require(capacity >= 1, 7)
    tokens = reader.field(bits.places.tokens)
    reader.require(tokens <= capacity, 7)
    card.places.append(Place(kind, capacity, tokens))


def read_transition(reader, bits, card):
    card.transition_bits.append(reader.bit)
    signal = reader.field(bits.transitions.signal)
    reader.require(signal < card.signals, 8)
    arcs = reader.field(bits.transitions.arcs)
    reader.require(arcs >= 1, 8)
    rank = reader.field(bits.transitions.rank)
    card.transitions.append(Transition(signal, arcs, rank))
    for _ in range(arcs):
        card.arc_bits.append(reader.bit)
        card.arcs.append(Arc(*map(reader.field, bits.arcs)))


def read_fill(reader):
    """Zero bits fill the last byte; nothing follows (9)."""
    while reader.bit % 8 != 0:
        reader.require(reader.field(1) == 0, 9)
    if reader.bit < reader.length:
        raise CardRefused(9, reader.bit)


# Conditions on the hierarchy (pass two)


def check_hierarchy(card):
    """Why a card is turned back, PASS_TWO. None, or a Refusal."""
    return check_arcs(card) or check_interfaces(card) or check_types(card)


def check_arcs(card):
    first_place = starts(row.places for row in card.subnets)
    transition = 0
    arc = 0
    for subnet, row in enumerate(card.subnets):
        for _ in range(row.transitions):
            earlier = {}
            single = False
            for _ in range(card.transitions[transition].arcs):
                number, place = check_arc(card, first_place, subnet, card.arcs[arc], earlier)
                if number is not None:
                    return Refusal(number, card.arc_bits[arc])
                single = single or place.capacity == 1
                arc += 1
            if not single:
                return Refusal(14, card.transition_bits[transition])
            transition += 1
    return None


def check_arc(card, first_place, subnet, arc, earlier):
    """10 to 13 and 26 in turn, beside the weights of the transition's earlier arcs. The number or None, and the arc's place."""
    place = seen_place(card, first_place, subnet, arc)
    if place is None:
        return 10, None
    if arc.subnet != subnet and not parent_may(arc.direction, place.kind):
        return 11, place
    if not 1 <= arc.weight <= place.capacity:
        return 12, place
    end = (arc.direction, arc.subnet, arc.place)
    if end in earlier:
        return 13, place
    earlier[end] = arc.weight
    if never_starts(arc, place.capacity, earlier):
        return 26, place
    return None, place


def never_starts(arc, capacity, earlier):
    """CR 2: an earlier arc has the other direction at the same place, and the two weights together are above its capacity."""
    back = (FILL if arc.direction == DRAW else DRAW, arc.subnet, arc.place)
    return back in earlier and earlier[back] + arc.weight > capacity


def seen_place(card, first_place, subnet, arc):
    """A place of the own subnet, or an interface place of a direct child."""
    if arc.subnet >= len(card.subnets):
        return None
    owner = card.subnets[arc.subnet]
    if arc.place >= owner.places:
        return None
    place = card.places[first_place[arc.subnet] + arc.place]
    if arc.subnet == subnet:
        return place
    if arc.subnet != 0 and owner.parent == subnet and place.kind != NORMAL:
        return place
    return None


def parent_may(direction, kind):
    """At a child's place, in takes direction 1 only, out direction 0 only, in-out both."""
    if kind == IN:
        return direction == FILL
    if kind == OUT:
        return direction == DRAW
    return kind == IN_OUT


def check_interfaces(card):
    """Every subnet but 0 owns an interface place (15)."""
    first_place = starts(row.places for row in card.subnets)
    for subnet in range(1, len(card.subnets)):
        owned = card.places[first_place[subnet]:first_place[subnet + 1]]
        if all(place.kind == NORMAL for place in owned):
            return Refusal(15, card.subnet_bits[subnet])
    return None


def check_types(card):
    """Two subnets of one nonzero type are alike (16)."""
    shapes = subnet_shapes(card)
    for subnet, row in enumerate(card.subnets):
        for lower in range(subnet):
            if row.type != 0 and card.subnets[lower].type == row.type:
                if not alike(shapes[lower], shapes[subnet]):
                    return Refusal(16, card.subnet_bits[subnet])
    return None


class Shape(NamedTuple):
    """What alike subnets have in common."""
    places: list        # kind and capacity
    children: list      # types, in number order
    transitions: list   # lists of arcs: direction, child's rank or "own", place, weight


def alike(one, other):
    return one == other and 0 not in one.children


def subnet_shapes(card):
    first_place = starts(row.places for row in card.subnets)
    first_transition = starts(row.transitions for row in card.subnets)
    first_arc = starts(row.arcs for row in card.transitions)
    children = [[] for _ in card.subnets]
    for number in range(1, len(card.subnets)):
        children[card.subnets[number].parent].append(number)
    shapes = []
    for subnet in range(len(card.subnets)):
        name = {child: rank for rank, child in enumerate(children[subnet])}
        name[subnet] = "own"
        places = [(place.kind, place.capacity)
                  for place in card.places[first_place[subnet]:first_place[subnet + 1]]]
        transitions = []
        for number in range(first_transition[subnet], first_transition[subnet + 1]):
            arcs = card.arcs[first_arc[number]:first_arc[number + 1]]
            transitions.append([(arc.direction, name[arc.subnet], arc.place, arc.weight)
                                for arc in arcs])
        types = [card.subnets[child].type for child in children[subnet]]
        shapes.append(Shape(places, types, transitions))
    return shapes


def accept(data):
    """Both passes. The accepted Card, or a Refusal."""
    card = read_card(data)
    if isinstance(card, Refusal):
        return card
    return check_hierarchy(card) or card


def check(data):
    """Why a card is turned back: the counts, or number and bit position."""
    card = accept(data)
    if isinstance(card, Refusal):
        return ("refused", card.number, card.bit)
    return ("accepted", len(card.subnets), len(card.places), len(card.transitions))


# The card: writing


def write_card(tables, buffer_length):
    """17 first, then the card's own as for the card it would write, 24 last."""
    if not fits(tables):
        return ("refused", 17, 0)
    data = encode(tables)
    answer = check(data)
    if answer[0] == "refused":
        return answer
    return into_buffer(data, buffer_length)


def into_buffer(data, buffer_length):
    """24, with the length needed."""
    if buffer_length < len(data):
        return ("short", len(data))
    return ("wrote", data)


# Flattening


def flatten(card):
    """The flat card of an accepted card."""
    first_place = starts(row.places for row in card.subnets)
    return Card(
        signals=card.signals,
        subnets=[Subnet(0, 0, len(card.places), len(card.transitions))],
        places=[Place(NORMAL, place.capacity, place.tokens) for place in card.places],
        transitions=list(card.transitions),
        arcs=[Arc(arc.direction, 0, first_place[arc.subnet] + arc.place, arc.weight)
              for arc in card.arcs],
        version=card.version,
        limit=card.limit,
        scale=card.scale,
    )


def flatten_call(data, buffer_length):
    """Flattening into a lent buffer: the card's own, and 24 last."""
    card = accept(data)
    if isinstance(card, Refusal):
        return ("refused", card.number, card.bit)
    return into_buffer(encode(flatten(card)), buffer_length)


def flatten_program(data):
    """What the flatten program writes to standard output."""
    card = accept(data)
    if isinstance(card, Refusal):
        return refused_card_line(card)
    return encode(flatten(card))


def refused_card_line(refusal):
    return f"no {refusal.number} {refusal.bit}\n".encode()


# State and step: the flat runner


class State(NamedTuple):
    """By flat place, by flat transition (None idle, else c), by signal."""
    markings: tuple
    progress: tuple
    degrees: tuple


class FlatTransition(NamedTuple):
    signal: int
    draws: list     # (flat place, weight)
    fills: list     # (flat place, weight)


class FlatNet(NamedTuple):
    version: int
    signals: int
    capacities: list
    tokens: list
    transitions: list


def load_flat(data):
    """The flat net of a card, to be stepped row by row; or a Refusal."""
    card = accept(data)
    return card if isinstance(card, Refusal) else flat_net(card)


def flat_net(card):
    """The flat runner works on the flat card of an accepted card."""
    flat = flatten(card)
    transitions = []
    arcs = iter(flat.arcs)
    for row in flat.transitions:
        ends = ([], [])
        for _ in range(row.arcs):
            arc = next(arcs)
            ends[arc.direction].append((arc.place, arc.weight))
        transitions.append(FlatTransition(row.signal, ends[DRAW], ends[FILL]))
    return FlatNet(
        version=flat.version,
        signals=flat.signals,
        capacities=[place.capacity for place in flat.places],
        tokens=[place.tokens for place in flat.places],
        transitions=transitions,
    )


def fresh(net):
    """Fresh: m = 1000 x first tokens, all idle, all degrees 0."""
    return State(
        markings=tuple(THOUSAND * tokens for tokens in net.tokens),
        progress=(None,) * len(net.transitions),
        degrees=(0,) * net.signals,
    )


def claims(net, progress):
    """owed and due, by flat place."""
    owed = [0] * len(net.capacities)
    due = [0] * len(net.capacities)
    for transition, c in zip(net.transitions, progress):
        if c is not None:
            claim(transition, c, owed, due)
    return owed, due


def claim(transition, c, owed, due):
    for place, weight in transition.draws:
        owed[place] += weight * (THOUSAND - c)
    for place, weight in transition.fills:
        due[place] += weight * (THOUSAND - c)


def overclaimed(net, markings, owed, due):
    """The lowest flat place with owed > m or m + due > 1000 x K, or None."""
    for place, capacity in enumerate(net.capacities):
        m = markings[place]
        if owed[place] > m or m + due[place] > THOUSAND * capacity:
            return place
    return None


def state_valid(net, state):
    """25: lengths, ranges, claims."""
    if (len(state.markings) != len(net.capacities)
            or len(state.progress) != len(net.transitions)
            or len(state.degrees) != net.signals):
        return False
    if not all(marking_in_range(m, capacity)
               for m, capacity in zip(state.markings, net.capacities)):
        return False
    if not all(map(progress_in_range, state.progress)):
        return False
    if not all(map(degree_in_range, state.degrees)):
        return False
    owed, due = claims(net, state.progress)
    return overclaimed(net, state.markings, owed, due) is None


def marking_in_range(m, capacity):
    return 0 <= m <= THOUSAND * capacity


def progress_in_range(c):
    return c is None or 0 <= c < THOUSAND


def degree_in_range(degree):
    return 0 <= degree <= THOUSAND


def is_empty(row):
    """CR 1: a row with nothing in it, in which every signal stands at its last degree."""
    return len(row) == 0


def row_refusal(signals, row):
    """20, then 21 with the lowest such signal; None if neither, as for an empty row."""
    if len(row) != signals and not is_empty(row):
        return ("refused", 20)
    for signal, degree in enumerate(row):
        if degree > THOUSAND:
            return ("refused", 21, signal)
    return None


def new_degrees(row, last):
    """The degrees that a row of neither 20 nor 21 gives, one for each signal."""
    return last if is_empty(row) else row


def is_candidate(net, state, transition, row, owed, due):
    """Step 1, for an idle transition."""
    return (row[transition.signal] > 0
            and all(state.markings[place] - owed[place] >= THOUSAND * weight
                    for place, weight in transition.draws)
            and all(state.markings[place] + due[place] + THOUSAND * weight
                    <= THOUSAND * net.capacities[place]
                    for place, weight in transition.fills))


def candidates(net, state, row, owed, due):
    """The flat numbers of step 1's candidates."""
    return [number for number, c in enumerate(state.progress) if c is None
            and is_candidate(net, state, net.transitions[number], row, owed, due)]


def way(version, starts, c, degree, last):
    """Step 3's d, from a signal's new degree and its last one. CR 3: where a transition starts, a version 2 card counts from zero."""
    from_zero = starts and version != 1
    return min(degree if from_zero else max(0, degree - last), THOUSAND - c)


def step(net, state, row):
    """Steps 1 to 4 on a valid state and the new degrees. The reply, and the next state."""
    owed, due = claims(net, state.progress)
    started = candidates(net, state, row, owed, due)
    for number in started:
        claim(net.transitions[number], 0, owed, due)
    place = overclaimed(net, state.markings, owed, due)
    if place is not None:
        return ("refused", 22, place), state
    markings = list(state.markings)
    progress = list(state.progress)
    for number in started:
        progress[number] = 0
    for number, c in enumerate(progress):
        if c is not None:
            transition = net.transitions[number]
            d = way(net.version, number in started, c, row[transition.signal], state.degrees[transition.signal])
            for place, weight in transition.draws:
                markings[place] -= weight * d
            for place, weight in transition.fills:
                markings[place] += weight * d
            progress[number] = c + d if c + d < THOUSAND else None
    return ("ok",), State(tuple(markings), tuple(progress), tuple(row))


def row_step(net, state, row):
    """Tests 20 and 21, then the step, on a loaded net and a state known to be valid."""
    refusal = row_refusal(net.signals, row)
    if refusal is not None:
        return refusal, state
    return step(net, state, new_degrees(row, state.degrees))


def row_call(card_bytes, state, row):
    """The flat runner's row call: the card, 25, 20, 21, 22."""
    net = load_flat(card_bytes)
    if isinstance(net, Refusal):
        return ("refused", net.number, net.bit), state
    if not state_valid(net, state):
        return ("refused", 25), state
    return row_step(net, state, row)


# The two runners: the subnet runner


class SubnetState(NamedTuple):
    """For each subnet the markings it owns and its transitions; the last degrees."""
    markings: tuple     # a tuple for each subnet
    progress: tuple     # a tuple for each subnet
    degrees: tuple


class Seen(NamedTuple):
    """A place as a subnet sees it."""
    owner: int
    local: int
    flat: int
    capacity: int


class OwnTransition(NamedTuple):
    flat: int
    signal: int
    draws: list     # (Seen, weight)
    fills: list     # (Seen, weight)


class Part(NamedTuple):
    """One subnet's part of the card."""
    number: int
    first_place: int
    capacities: list
    tokens: list
    transitions: list


class SubnetNet(NamedTuple):
    version: int
    signals: int
    parts: list


class Board:
    """The claims board for all 255 places, zero at the start of a row."""

    def __init__(self):
        self.standing_owed = [0] * MOST
        self.standing_due = [0] * MOST
        self.candidates_owed = [0] * MOST
        self.candidates_due = [0] * MOST


def load_subnets(data):
    """The parts of a card, to be stepped row by row; or a Refusal."""
    card = accept(data)
    return card if isinstance(card, Refusal) else subnet_net(card)


def subnet_net(card):
    """The parts of an accepted card."""
    first_place = starts(row.places for row in card.subnets)
    rows = enumerate(card.transitions)
    arcs = iter(card.arcs)
    parts = []
    for number, subnet in enumerate(card.subnets):
        owned = card.places[first_place[number]:first_place[number + 1]]
        transitions = []
        for _ in range(subnet.transitions):
            flat, row = next(rows)
            ends = ([], [])
            for _ in range(row.arcs):
                arc = next(arcs)
                at = first_place[arc.subnet] + arc.place
                seen = Seen(arc.subnet, arc.place, at, card.places[at].capacity)
                ends[arc.direction].append((seen, arc.weight))
            transitions.append(OwnTransition(flat, row.signal, ends[DRAW], ends[FILL]))
        parts.append(Part(
            number=number,
            first_place=first_place[number],
            capacities=[place.capacity for place in owned],
            tokens=[place.tokens for place in owned],
            transitions=transitions,
        ))
    return SubnetNet(card.version, card.signals, parts)


def fresh_subnets(net):
    """Fresh, subnet by subnet."""
    return SubnetState(
        markings=tuple(tuple(THOUSAND * tokens for tokens in part.tokens) for part in net.parts),
        progress=tuple((None,) * len(part.transitions) for part in net.parts),
        degrees=(0,) * net.signals,
    )


def join_state(state):
    """A subnet state as a State: by flat place and flat transition."""
    return State(
        markings=tuple(m for owned in state.markings for m in owned),
        progress=tuple(c for own in state.progress for c in own),
        degrees=tuple(state.degrees),
    )


def split_state(net, state):
    """A State of the card's lengths as a subnet state."""
    markings, progress = iter(state.markings), iter(state.progress)
    return SubnetState(
        markings=tuple(tuple(next(markings) for _ in part.capacities) for part in net.parts),
        progress=tuple(tuple(next(progress) for _ in part.transitions) for part in net.parts),
        degrees=tuple(state.degrees),
    )


def first_visit(part, progress, board):
    """Post the standing claims of the subnet's carrying transitions."""
    for transition, c in zip(part.transitions, progress):
        if c is not None:
            left = THOUSAND - c
            for seen, weight in transition.draws:
                board.standing_owed[seen.flat] += weight * left
            for seen, weight in transition.fills:
                board.standing_due[seen.flat] += weight * left


def second_visit(part, progress, markings, row, board):
    """Find the subnet's candidates and post their claims. The candidates' flat numbers."""
    found = set()
    for transition, c in zip(part.transitions, progress):
        if c is None and row[transition.signal] > 0 and has_room(transition, markings, board):
            found.add(transition.flat)
            for seen, weight in transition.draws:
                board.candidates_owed[seen.flat] += weight * THOUSAND
            for seen, weight in transition.fills:
                board.candidates_due[seen.flat] += weight * THOUSAND
    return found


def has_room(transition, markings, board):
    """Step 1 at the places a transition draws from and fills, on the standing claims alone."""
    for seen, weight in transition.draws:
        if markings[seen.owner][seen.local] - board.standing_owed[seen.flat] < THOUSAND * weight:
            return False
    for seen, weight in transition.fills:
        full = markings[seen.owner][seen.local] + board.standing_due[seen.flat]
        if full + THOUSAND * weight > THOUSAND * seen.capacity:
            return False
    return True


def third_visit(version, part, progress, markings, row, degrees, started):
    """Start the subnet's candidates and move its carrying transitions, in place."""
    for local, transition in enumerate(part.transitions):
        if transition.flat in started:
            progress[local] = 0
        c = progress[local]
        if c is not None:
            d = way(version, transition.flat in started, c, row[transition.signal], degrees[transition.signal])
            for seen, weight in transition.draws:
                markings[seen.owner][seen.local] -= weight * d
            for seen, weight in transition.fills:
                markings[seen.owner][seen.local] += weight * d
            progress[local] = None if c + d == THOUSAND else c + d


def verdict(net, markings, board):
    """The lowest flat place in conflict on the board, or None."""
    for part in net.parts:
        for local, capacity in enumerate(part.capacities):
            flat = part.first_place + local
            m = markings[part.number][local]
            owed = board.standing_owed[flat] + board.candidates_owed[flat]
            due = board.standing_due[flat] + board.candidates_due[flat]
            if owed > m or m + due > THOUSAND * capacity:
                return flat
    return None


def subnet_state_valid(net, state):
    """25, subnet by subnet."""
    if (len(state.markings) != len(net.parts) or len(state.progress) != len(net.parts)
            or len(state.degrees) != net.signals):
        return False
    board = Board()
    for part, owned, own in zip(net.parts, state.markings, state.progress):
        if len(owned) != len(part.capacities) or len(own) != len(part.transitions):
            return False
        if not all(map(marking_in_range, owned, part.capacities)):
            return False
        if not all(map(progress_in_range, own)):
            return False
        first_visit(part, own, board)
    if not all(map(degree_in_range, state.degrees)):
        return False
    return verdict(net, state.markings, board) is None


def order_valid(net, order):
    """23: a list of S numbers naming each subnet once."""
    subnets = len(net.parts)
    if len(order) != subnets or any(not 0 <= number < subnets for number in order):
        return False
    return len(set(order)) == subnets


def subnet_step(net, state, order, row):
    """Three rounds of visits on a valid state and order and the new degrees. The reply, and the next state."""
    board = Board()
    markings = [list(owned) for owned in state.markings]
    progress = [list(own) for own in state.progress]
    started = {}
    for number in order:
        first_visit(net.parts[number], progress[number], board)
    for number in order:
        started[number] = second_visit(net.parts[number], progress[number], markings, row, board)
    conflict = verdict(net, markings, board)
    if conflict is not None:
        return ("refused", 22, conflict), state
    for number in order:
        third_visit(net.version, net.parts[number], progress[number], markings, row, state.degrees,
                    started[number])
    return ("ok",), SubnetState(tuple(map(tuple, markings)), tuple(map(tuple, progress)),
                                tuple(row))


def subnet_row_step(net, state, order, row):
    """Tests 23, 20 and 21, then the visits, on loaded parts and a state known to be valid."""
    if not order_valid(net, order):
        return ("refused", 23), state
    refusal = row_refusal(net.signals, row)
    if refusal is not None:
        return refusal, state
    return subnet_step(net, state, order, new_degrees(row, state.degrees))


def subnet_row_call(card_bytes, state, order, row):
    """The subnet runner's row call: the card, 25, 23, 20, 21, 22."""
    net = load_subnets(card_bytes)
    if isinstance(net, Refusal):
        return ("refused", net.number, net.bit), state
    if not subnet_state_valid(net, state):
        return ("refused", 25), state
    return subnet_row_step(net, state, order, row)


# The run program


def row_length(signals):
    """Bytes of a row: 10 bits a degree, zeros to the byte."""
    return (DEGREE_BITS * signals + 7) // 8


def split_rows(data, signals):
    """The bytes of each row; the last may be short."""
    length = row_length(signals)
    return [data[start:start + length] for start in range(0, len(data), length)]


def read_row(chunk, signals):
    """The degrees of a row, none for an empty one; None if bytes are missing or a fill bit is not zero (20)."""
    length = row_length(signals)
    if len(chunk) != length:
        return None
    value = int.from_bytes(chunk, "big")
    fill = 8 * length - DEGREE_BITS * signals
    if value & ((1 << fill) - 1):
        return None
    value >>= fill
    degrees = tuple(value >> DEGREE_BITS * (signals - 1 - signal) & ((1 << DEGREE_BITS) - 1)
                    for signal in range(signals))
    return () if all(degree == EMPTY_MARK for degree in degrees) else degrees


def row_line(number, reply, state):
    if reply[0] == "ok":
        markings = " ".join(map(str, state.markings))
        progress = " ".join("-" if c is None else str(c) for c in state.progress)
        return f"{number} ok {markings} | {progress}\n"
    return f"{number} no {' '.join(map(str, reply[1:]))}\n"


def run_program(card_bytes, rows_bytes):
    """What the run program prints."""
    net = load_flat(card_bytes)
    if isinstance(net, Refusal):
        return refused_card_line(net)
    state = fresh(net)
    lines = []
    for number, chunk in enumerate(split_rows(rows_bytes, net.signals), start=1):
        row = read_row(chunk, net.signals)
        if row is None:
            reply = ("refused", 20)
        else:
            reply, state = row_step(net, state, row)
        lines.append(row_line(number, reply, state))
    return "".join(lines).encode()
