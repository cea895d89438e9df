//! A flat runner as one would write it in Rust: transitions with their arcs, a state in vectors.

use crate::check::accept;
use crate::reader::Card;

struct Arc {
    fills: bool,
    place: usize,
    weight: u32,
}

struct Transition {
    signal: usize,
    arcs: Vec<Arc>,
}

pub struct Net {
    pub signals: usize,
    /// Whether a transition moves by its signal's whole degree in the row in which it starts.
    from_zero: bool,
    limits: Vec<u32>,
    tokens: Vec<u32>,
    transitions: Vec<Transition>,
}

pub struct State {
    pub markings: Vec<u32>,
    pub carried: Vec<Option<u32>>,
    pub degrees: Vec<u16>,
}

/// What each place owes, and what is due to it.
#[derive(Clone)]
struct Claims {
    owed: Vec<u32>,
    due: Vec<u32>,
}

/// Posts a part of what a transition moves. The columns are slices, so that they stay where they are from arc to arc.
fn post(transition: &Transition, part: u32, owed: &mut [u32], due: &mut [u32]) {
    for a in &transition.arcs {
        let column = if a.fills { &mut *due } else { &mut *owed };
        column[a.place] += part * a.weight;
    }
}

impl Net {
    /// The flat net of an accepted card.
    pub fn load(card: &Card) -> Net {
        let first = card.first_places();
        let mut arcs = card.arcs.iter();
        let transitions = card.transitions.iter().map(|t| Transition {
            signal: t.signal.into(),
            arcs: arcs
                .by_ref()
                .take(t.arcs.into())
                .map(|a| Arc {
                    fills: a.direction == 1,
                    place: first[usize::from(a.subnet)] + usize::from(a.place),
                    weight: a.weight.into(),
                })
                .collect(),
        });
        Net {
            signals: card.signals.into(),
            from_zero: card.version != 1,
            transitions: transitions.collect(),
            limits: card.places.iter().map(|p| 1000 * u32::from(p.capacity)).collect(),
            tokens: card.places.iter().map(|p| 1000 * u32::from(p.tokens)).collect(),
        }
    }

    pub fn fresh(&self) -> State {
        State {
            markings: self.tokens.clone(),
            carried: vec![None; self.transitions.len()],
            degrees: vec![0; self.signals],
        }
    }

    /// A row from a valid state; false where it is refused. In an empty row every signal stands at its last degree.
    pub fn row(&self, state: &mut State, row: &[u16]) -> bool {
        if row.is_empty() {
            let last = state.degrees.clone();
            return self.row(state, &last);
        }
        if row.len() != self.signals || row.iter().any(|&d| d > 1000) {
            return false;
        }
        let standing = self.standing(state);
        let Claims { mut owed, mut due } = standing.clone();
        let mut carried = state.carried.clone();
        for (t, carried) in self.transitions.iter().zip(&mut carried) {
            if carried.is_none() && row[t.signal] > 0 && self.is_candidate(t, state, &standing) {
                post(t, 1000, &mut owed, &mut due);
                *carried = Some(0);
            }
        }
        if !self.covers(state, &Claims { owed, due }) {
            return false;
        }
        self.carry(state, &carried, row);
        state.degrees.copy_from_slice(row);
        true
    }

    /// Whether a state is one of this net.
    fn is_valid(&self, state: &State) -> bool {
        state.markings.len() == self.limits.len()
            && state.carried.len() == self.transitions.len()
            && state.degrees.len() == self.signals
            && state.carried.iter().flatten().all(|&c| c < 1000)
            && state.degrees.iter().all(|&d| d <= 1000)
            && self.covers(state, &self.standing(state))
    }

    /// The claims of the transfers that are under way. Compiled into the row, which is a tenth faster for it.
    #[inline(always)]
    fn standing(&self, state: &State) -> Claims {
        let (mut owed, mut due) = (vec![0; self.limits.len()], vec![0; self.limits.len()]);
        for (t, carried) in self.transitions.iter().zip(&state.carried) {
            if let Some(c) = carried {
                post(t, 1000 - c, &mut owed, &mut due);
            }
        }
        Claims { owed, due }
    }

    fn is_candidate(&self, t: &Transition, state: &State, standing: &Claims) -> bool {
        t.arcs.iter().all(|a| {
            let m = state.markings[a.place];
            if a.fills {
                m + standing.due[a.place] + 1000 * a.weight <= self.limits[a.place]
            } else {
                standing.owed[a.place] + 1000 * a.weight <= m
            }
        })
    }

    /// Whether each place has what it owes, and room for what is due to it.
    #[inline(always)]
    fn covers(&self, state: &State, claims: &Claims) -> bool {
        (0..self.limits.len()).all(|p| {
            let m = state.markings[p];
            claims.owed[p] <= m && m + claims.due[p] <= self.limits[p]
        })
    }

    /// Moves every transfer on as far as its signal rose, those that start among them.
    fn carry(&self, state: &mut State, carried: &[Option<u32>], row: &[u16]) {
        for ((t, before), carried) in self.transitions.iter().zip(&mut state.carried).zip(carried) {
            if let Some(c) = *carried {
                let starts = before.is_none();
                let last = if self.from_zero && starts { 0 } else { state.degrees[t.signal] };
                let d = u32::from(row[t.signal].saturating_sub(last)).min(1000 - c);
                if d > 0 {
                    for a in &t.arcs {
                        if a.fills {
                            state.markings[a.place] += a.weight * d;
                        } else {
                            state.markings[a.place] -= a.weight * d;
                        }
                    }
                }
                *before = if c + d == 1000 { None } else { Some(c + d) };
            }
        }
    }
}

/// A row on the net of a card's bytes; false where card, state or row is refused.
pub fn row_call(data: &[u8], state: &mut State, row: &[u16]) -> bool {
    let Ok(card) = accept(data) else {
        return false;
    };
    let net = Net::load(&card);
    net.is_valid(state) && net.row(state, row)
}
