//! Rows on an accepted card: on loaded tables, and as whole calls on the card's bytes.

use crate::proved;
use crate::reader::Card;
use crate::runner::{row_call, Net};
use crate::timing::{medians, used, Pair};
use std::hint::black_box;

pub const ROWS: usize = 200;
/// How many of them a sample of whole calls has.
pub const CALLED: usize = 20;

/// An accepted card, loaded, with a visiting order and rows.
pub struct Run<'a> {
    data: &'a [u8],
    net: Net,
    order: Vec<u16>,
    pub rows: Vec<u16>,
}

impl Run<'_> {
    /// So many rows on a card, whose subnets are visited in reverse.
    pub fn new<'a>(data: &'a [u8], card: &Card, rows: usize) -> Run<'a> {
        Run {
            data,
            net: Net::load(card),
            order: (0..card.subnets.len() as u16).rev().collect(),
            rows: random_degrees(rows * usize::from(card.signals)),
        }
    }

    /// Checks that all runners end each row alike, and says how many rows are taken.
    pub fn compare(&self) -> usize {
        let (mut loaded, mut plain) = (self.net.fresh(), self.net.fresh());
        let (mut flat, mut subnets) = (self.lent(), self.lent());
        let mut taken = 0;
        for row in self.rows.chunks(self.net.signals) {
            let is_taken = self.net.row(&mut loaded, row);
            assert_eq!(row_call(self.data, &mut plain, row), is_taken, "plain call");
            assert_eq!(proved::flat_row(self.data, &mut flat, row).is_ok(), is_taken, "flat call");
            assert_eq!(proved::subnet_row(self.data, &mut subnets, &self.order, row).is_ok(), is_taken, "subnet call");
            assert_eq!(flat, proved::State::from(&loaded), "flat state");
            assert_eq!(subnets, flat, "subnet state");
            assert_eq!(plain.markings, loaded.markings, "plain state");
            taken += usize::from(is_taken);
        }
        let end = sum(&loaded.markings);
        assert_eq!(self.loaded_flat(&self.rows), end, "flat rows");
        assert_eq!(self.loaded_subnets(&self.rows), end, "subnet rows");
        taken
    }

    /// Runs the first rows from a state.
    fn each_row<S>(&self, rows: usize, mut state: S, call: impl Fn(&mut S, &[u16]) -> bool) -> S {
        for row in black_box(&self.rows).chunks(self.net.signals).take(rows) {
            black_box(call(&mut state, row));
        }
        state
    }

    /// The proved rows on the flat card's tables, with the loading in front of them.
    pub fn loaded_flat(&self, rows: &[u16]) -> u64 {
        proved::loaded_flat(black_box(self.data), rows)
    }

    /// The same on the card's own tables.
    pub fn loaded_subnets(&self, rows: &[u16]) -> u64 {
        proved::loaded_subnets(black_box(self.data), &self.order, rows)
    }

    /// A row on loaded tables, flat and by subnets. What the proved calls take to load is taken away.
    pub fn time_loaded(&self) -> [Pair; 2] {
        let [flat, flat_load, subnets, subnets_load, plain] = medians([
            &used(|| self.loaded_flat(&self.rows)),
            &used(|| self.loaded_flat(&[])),
            &used(|| self.loaded_subnets(&self.rows)),
            &used(|| self.loaded_subnets(&[])),
            &used(|| self.each_row(ROWS, self.net.fresh(), |state, row| self.net.row(state, row))),
        ]);
        [flat - flat_load, subnets - subnets_load].map(|proved| per_row(proved, plain, ROWS))
    }

    /// Whole proved calls on the flat net.
    pub fn flat_calls(&self) -> proved::State {
        self.each_row(CALLED, self.lent(), |state, row| proved::flat_row(self.data, state, row).is_ok())
    }

    /// The same subnet by subnet.
    pub fn subnet_calls(&self) -> proved::State {
        self.each_row(CALLED, self.lent(), |state, row| proved::subnet_row(self.data, state, &self.order, row).is_ok())
    }

    /// The fresh state, as it is lent to a proved call.
    fn lent(&self) -> proved::State {
        proved::State::from(&self.net.fresh())
    }

    /// A whole row call, flat and by subnets.
    pub fn time_calls(&self) -> [Pair; 2] {
        let [flat, subnets, plain] = medians([
            &used(|| self.flat_calls()),
            &used(|| self.subnet_calls()),
            &used(|| self.each_row(CALLED, self.net.fresh(), |state, row| row_call(self.data, state, row))),
        ]);
        [flat, subnets].map(|proved| per_row(proved, plain, CALLED))
    }
}

fn per_row(proved: f64, plain: f64, rows: usize) -> Pair {
    Pair {
        proved: proved / rows as f64,
        plain: plain / rows as f64,
    }
}

/// Degrees that rise and fall, most of them above 0.
fn random_degrees(count: usize) -> Vec<u16> {
    let mut seed = 1u32;
    let mut next = || {
        seed = seed.wrapping_mul(1664525).wrapping_add(1013904223);
        (seed >> 16) as u16 % 1001
    };
    (0..count).map(|_| next()).collect()
}

/// The markings as one number, as the proved rows give it.
fn sum(markings: &[u32]) -> u64 {
    let at = |p: usize| u64::from(markings.get(p).copied().unwrap_or(0));
    (0..255).fold(0, |n, p| (n * 31 + at(p)) % 4294967291)
}
