//! Flattening in plain Rust: the bytes of a card to those of its flat card.

use crate::check::accept;
use crate::reader::{Arc, Card, Place, Refusal, Subnet};

pub fn flatten(data: &[u8]) -> Result<Vec<u8>, Refusal> {
    let card = accept(data)?;
    // The flat card lacks rows of subnets, so that it is no longer than the card.
    let mut bits = Bits {
        bytes: Vec::with_capacity(data.len()),
        pending: 0,
        waiting: 0,
    };
    each_field(&flat(&card), |value, width| bits.put(value, width));
    Ok(bits.filled())
}

/// The flat card of an accepted card.
fn flat(card: &Card) -> Card {
    let first = card.first_places();
    let flat_arc = |arc: &Arc| Arc {
        subnet: 0,
        place: (first[usize::from(arc.subnet)] + usize::from(arc.place)) as u8,
        ..*arc
    };
    Card {
        version: card.version,
        signals: card.signals,
        limit: card.limit,
        scale: card.scale,
        subnets: vec![Subnet {
            parent: 0,
            kind: 0,
            places: card.places.len() as u8,
            transitions: card.transitions.len() as u8,
        }],
        places: card.places.iter().map(|place| Place { kind: 0, ..*place }).collect(),
        transitions: card.transitions.clone(),
        arcs: card.arcs.iter().map(flat_arc).collect(),
    }
}

/// Hands on the number and the width of each field of a card, in versions 1 and 2.
pub fn each_field(card: &Card, mut put: impl FnMut(u16, u32)) {
    put(card.version.into(), 4);
    put(card.subnets.len() as u16, 6);
    put(card.signals.into(), 6);
    put(card.limit.into(), 0);
    put(card.scale, 0);
    let mut put = |value: u8, width| put(value.into(), width);
    let mut places = card.places.iter();
    let mut transitions = card.transitions.iter();
    let mut arcs = card.arcs.iter();
    for s in &card.subnets {
        put(s.parent, 5);
        put(s.kind, 5);
        put(s.places, 8);
        put(s.transitions, 8);
        for p in places.by_ref().take(s.places.into()) {
            put(p.kind, 2);
            put(p.capacity, 8);
            put(p.tokens, 8);
        }
        for t in transitions.by_ref().take(s.transitions.into()) {
            put(t.signal, 6);
            put(t.arcs, 5);
            put(t.rank, 0);
            for a in arcs.by_ref().take(t.arcs.into()) {
                put(a.direction, 1);
                put(a.subnet, 5);
                put(a.place, 8);
                put(a.weight, 8);
            }
        }
    }
}

/// Whole bytes, and the bits that wait for more, lowest in a number.
struct Bits {
    bytes: Vec<u8>,
    pending: u32,
    waiting: u32,
}

impl Bits {
    /// Appends a field, most significant bit first.
    fn put(&mut self, value: u16, width: u32) {
        self.pending = self.pending << width | u32::from(value);
        self.waiting += width;
        if self.waiting >= 8 {
            self.waiting -= 8;
            self.bytes.push((self.pending >> self.waiting) as u8);
        }
    }

    /// The bytes, the last one filled with zeros.
    fn filled(mut self) -> Vec<u8> {
        if self.waiting > 0 {
            self.put(0, 8 - self.waiting);
        }
        self.bytes
    }
}
