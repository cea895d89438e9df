//! Pass two in plain Rust: the conditions on a card's hierarchy, over the tables that pass one fills.

use crate::reader::{read, Arc, Card, Place, Refusal};

const HEADER_BITS: usize = 16;
const SUBNET_BITS: usize = 26;
const PLACE_BITS: usize = 18;
const TRANSITION_BITS: usize = 11;
const ARC_BITS: usize = 22;

/// A subnet with what it lists: its places, and the arcs of each of its transitions.
struct Subnet<'a> {
    parent: usize,
    kind: u8,
    places: &'a [Place],
    transitions: &'a [&'a [Arc]],
}

/// The subnets, the children of each, and the rank of each among the children of its parent.
struct Net<'a> {
    subnets: Vec<Subnet<'a>>,
    children: Vec<Vec<usize>>,
    ranks: Vec<usize>,
}

pub fn check(data: &[u8]) -> Result<[usize; 3], Refusal> {
    accept(data).map(|card| card.counts())
}

/// The card, where both passes accept it.
pub fn accept(data: &[u8]) -> Result<Card, Refusal> {
    let card = read(data)?;
    let transitions = arcs_by_transition(&card);
    let net = net_of(&card, &transitions);
    check_arcs(&net)?;
    check_interfaces(&net)?;
    check_types(&net)?;
    Ok(card)
}

fn arcs_by_transition(card: &Card) -> Vec<&[Arc]> {
    let mut rest = &card.arcs[..];
    let mut all = Vec::with_capacity(card.transitions.len());
    for t in &card.transitions {
        let (arcs, others) = rest.split_at(t.arcs.into());
        all.push(arcs);
        rest = others;
    }
    all
}

fn net_of<'a>(card: &'a Card, transitions: &'a [&'a [Arc]]) -> Net<'a> {
    let mut net = Net {
        subnets: Vec::with_capacity(card.subnets.len()),
        children: vec![Vec::new(); card.subnets.len()],
        ranks: Vec::with_capacity(card.subnets.len()),
    };
    let mut places = &card.places[..];
    let mut transitions = transitions;
    for (number, row) in card.subnets.iter().enumerate() {
        let (own_places, other_places) = places.split_at(row.places.into());
        let (own_transitions, other_transitions) = transitions.split_at(row.transitions.into());
        (places, transitions) = (other_places, other_transitions);
        let parent = usize::from(row.parent);
        net.subnets.push(Subnet {
            parent,
            kind: row.kind,
            places: own_places,
            transitions: own_transitions,
        });
        net.ranks.push(net.children[parent].len());
        if number != 0 {
            net.children[parent].push(number);
        }
    }
    net
}

/// The first bit of a subnet's row.
fn subnet_bit(net: &Net, number: usize) -> usize {
    let bits = |s: &Subnet| {
        let arcs: usize = s.transitions.iter().map(|arcs| arcs.len()).sum();
        SUBNET_BITS
            + PLACE_BITS * s.places.len()
            + TRANSITION_BITS * s.transitions.len()
            + ARC_BITS * arcs
    };
    HEADER_BITS + net.subnets[..number].iter().map(bits).sum::<usize>()
}

/// The first bit of a transition of a subnet.
fn transition_bit(net: &Net, number: usize, transition: usize) -> usize {
    let subnet = &net.subnets[number];
    let lower = &subnet.transitions[..transition];
    subnet_bit(net, number)
        + SUBNET_BITS
        + PLACE_BITS * subnet.places.len()
        + TRANSITION_BITS * transition
        + ARC_BITS * lower.iter().map(|arcs| arcs.len()).sum::<usize>()
}

/// 10 to 14, and 26.
fn check_arcs(net: &Net) -> Result<(), Refusal> {
    for (number, subnet) in net.subnets.iter().enumerate() {
        for (t, arcs) in subnet.transitions.iter().enumerate() {
            let refused = |fault, bit| {
                let bit = transition_bit(net, number, t) + bit;
                Err(Refusal { number: fault, bit })
            };
            for (j, arc) in arcs.iter().enumerate() {
                if let Err(fault) = check_arc(net, number, arc, &arcs[..j]) {
                    return refused(fault, TRANSITION_BITS + ARC_BITS * j);
                }
            }
            if !arcs.iter().any(|arc| place_of(net, arc).capacity == 1) {
                return refused(14, 0);
            }
        }
    }
    Ok(())
}

fn place_of<'a>(net: &Net<'a>, arc: &Arc) -> &'a Place {
    &net.subnets[usize::from(arc.subnet)].places[usize::from(arc.place)]
}

/// 10 to 13 and 26 at an arc of a subnet, beside the lower arcs of its transition.
fn check_arc(net: &Net, number: usize, arc: &Arc, lower: &[Arc]) -> Result<(), u8> {
    let owner = net.subnets.get(usize::from(arc.subnet)).ok_or(10)?;
    let place = owner.places.get(usize::from(arc.place)).ok_or(10)?;
    if usize::from(arc.subnet) != number {
        if owner.parent != number || place.kind == 0 {
            return Err(10);
        }
        if place.kind == 1 && arc.direction == 0 || place.kind == 2 && arc.direction == 1 {
            return Err(11);
        }
    }
    if !(1..=place.capacity).contains(&arc.weight) {
        return Err(12);
    }
    let mut together = u16::from(arc.weight);
    for other in lower {
        if (other.subnet, other.place) == (arc.subnet, arc.place) {
            if other.direction == arc.direction {
                return Err(13);
            }
            together += u16::from(other.weight);
        }
    }
    if together > place.capacity.into() {
        return Err(26);
    }
    Ok(())
}

/// 15.
fn check_interfaces(net: &Net) -> Result<(), Refusal> {
    for (number, subnet) in net.subnets.iter().enumerate().skip(1) {
        if subnet.places.iter().all(|place| place.kind == 0) {
            let bit = subnet_bit(net, number);
            return Err(Refusal { number: 15, bit });
        }
    }
    Ok(())
}

/// 16.
fn check_types(net: &Net) -> Result<(), Refusal> {
    for s in 0..net.subnets.len() {
        for r in 0..s {
            if same_type(net, r, s) && !alike(net, r, s) {
                let bit = subnet_bit(net, s);
                return Err(Refusal { number: 16, bit });
            }
        }
    }
    Ok(())
}

fn same_type(net: &Net, r: usize, s: usize) -> bool {
    net.subnets[s].kind != 0 && net.subnets[r].kind == net.subnets[s].kind
}

/// Whether two lists are as long as each other, and each two of their entries pass a test.
fn each_two<T>(one: &[T], other: &[T], test: impl Fn(&T, &T) -> bool) -> bool {
    one.len() == other.len() && one.iter().zip(other).all(|(a, b)| test(a, b))
}

fn alike(net: &Net, r: usize, s: usize) -> bool {
    let (lower, upper) = (&net.subnets[r], &net.subnets[s]);
    each_two(lower.places, upper.places, |p, q| {
        p.kind == q.kind && p.capacity == q.capacity
    }) && each_two(&net.children[r], &net.children[s], |&a, &b| {
        same_type(net, a, b)
    }) && each_two(lower.transitions, upper.transitions, |t, u| {
        each_two(t, u, |a, b| alike_arcs(net, r, s, a, b))
    })
}

/// Whether arcs a of subnet r and b of subnet s are alike. Each is at its own subnet or at a child of it, since 10 is tested before.
fn alike_arcs(net: &Net, r: usize, s: usize, a: &Arc, b: &Arc) -> bool {
    let child = |owner: usize, arc: &Arc| {
        let subnet = usize::from(arc.subnet);
        (subnet != owner).then(|| net.ranks[subnet])
    };
    a.direction == b.direction
        && a.weight == b.weight
        && a.place == b.place
        && child(r, a) == child(s, b)
}
