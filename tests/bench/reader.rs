//! Pass one in plain Rust: a card's bytes into four tables. Cards of versions 1 and 2 have no bits for limit, scale and rank, which are 0.

pub struct Refusal {
    pub number: u8,
    pub bit: usize,
}

pub struct Subnet {
    pub parent: u8,
    pub kind: u8,
    pub places: u8,
    pub transitions: u8,
}

#[derive(Clone, Copy)]
pub struct Place {
    pub kind: u8,
    pub capacity: u8,
    pub tokens: u8,
}

#[derive(Clone, Copy)]
pub struct Transition {
    pub signal: u8,
    pub arcs: u8,
    pub rank: u8,
}

#[derive(Clone, Copy)]
pub struct Arc {
    pub direction: u8,
    pub subnet: u8,
    pub place: u8,
    pub weight: u8,
}

pub struct Card {
    pub version: u8,
    pub signals: u8,
    pub limit: u8,
    pub scale: u16,
    pub subnets: Vec<Subnet>,
    pub places: Vec<Place>,
    pub transitions: Vec<Transition>,
    pub arcs: Vec<Arc>,
}

impl Card {
    /// How many subnets, places and transitions there are.
    pub fn counts(&self) -> [usize; 3] {
        [self.subnets.len(), self.places.len(), self.transitions.len()]
    }

    /// The flat number of each subnet's first place.
    pub fn first_places(&self) -> Vec<usize> {
        let mut places = 0;
        let mut first = Vec::with_capacity(self.subnets.len());
        for subnet in &self.subnets {
            first.push(places);
            places += usize::from(subnet.places);
        }
        first
    }
}

struct Bits<'a> {
    data: &'a [u8],
    bit: usize,
}

impl Bits<'_> {
    /// The next field, most significant bit first, if it passes its test.
    fn field(
        &mut self,
        width: usize,
        number: u8,
        test: impl FnOnce(u8) -> bool,
    ) -> Result<u8, Refusal> {
        let bit = self.bit;
        if bit + width > 8 * self.data.len() {
            return Err(Refusal { number: 1, bit });
        }
        let high = u16::from(self.data[bit / 8]);
        let low = u16::from(self.data.get(bit / 8 + 1).copied().unwrap_or(0));
        let pair = high << 8 | low;
        let value = (pair >> (16 - bit % 8 - width) & ((1 << width) - 1)) as u8;
        if !test(value) {
            return Err(Refusal { number, bit });
        }
        self.bit += width;
        Ok(value)
    }

    fn any(&mut self, width: usize) -> Result<u8, Refusal> {
        self.field(width, 0, |_| true)
    }
}

pub fn read(data: &[u8]) -> Result<Card, Refusal> {
    let mut bits = Bits { data, bit: 0 };
    let version = bits.field(4, 2, |v| v == 1 || v == 2)?;
    let subnets = bits.field(6, 3, |v| (1..=32).contains(&v))?;
    let signals = bits.field(6, 3, |v| v >= 1)?;
    let mut card = Card {
        version,
        signals,
        limit: 0,
        scale: 0,
        subnets: Vec::with_capacity(subnets.into()),
        places: Vec::new(),
        transitions: Vec::new(),
        arcs: Vec::new(),
    };
    for number in 0..subnets {
        read_subnet(&mut bits, &mut card, number)?;
    }
    while bits.bit % 8 != 0 {
        bits.field(1, 9, |v| v == 0)?;
    }
    if bits.bit < 8 * data.len() {
        return Err(Refusal {
            number: 9,
            bit: bits.bit,
        });
    }
    Ok(card)
}

fn read_subnet(bits: &mut Bits, card: &mut Card, number: u8) -> Result<(), Refusal> {
    let parent = bits.field(5, 4, |v| v < number || number == 0 && v == 0)?;
    let kind = bits.field(5, 5, |v| number != 0 || v == 0)?;
    let places = bits.field(8, 6, |v| {
        v >= 1 && card.places.len() + usize::from(v) <= 255
    })?;
    let transitions = bits.field(8, 6, |v| {
        v >= 1 && card.transitions.len() + usize::from(v) <= 255
    })?;
    card.subnets.push(Subnet {
        parent,
        kind,
        places,
        transitions,
    });
    for _ in 0..places {
        let kind = bits.field(2, 7, |v| number != 0 || v == 0)?;
        let capacity = bits.field(8, 7, |v| v >= 1)?;
        let tokens = bits.field(8, 7, |v| v <= capacity)?;
        card.places.push(Place {
            kind,
            capacity,
            tokens,
        });
    }
    for _ in 0..transitions {
        let signal = bits.field(6, 8, |v| v < card.signals)?;
        let arcs = bits.field(5, 8, |v| v >= 1)?;
        card.transitions.push(Transition { signal, arcs, rank: 0 });
        for _ in 0..arcs {
            let direction = bits.any(1)?;
            let subnet = bits.any(5)?;
            let place = bits.any(8)?;
            let weight = bits.any(8)?;
            card.arcs.push(Arc {
                direction,
                subnet,
                place,
                weight,
            });
        }
    }
    Ok(())
}
