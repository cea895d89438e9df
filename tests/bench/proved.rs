//! The proved functions of the two libraries, as functions on slices.

use crate::runner;
pub use net_runner::{flat_row, flatten, subnet_row, Refusal, State, CARD_BYTES};
use net_runner::IDLE;

#[allow(dead_code)]
#[path = "../../crates/net_runner/net_runner.rs"]
mod net_runner;

#[link(name = "bench", kind = "static")]
extern "C" {
    fn read_field(card: *const u8, length: usize, i: usize) -> u64;
    fn check_card(card: *const u8, length: usize) -> u64;
    fn flat_rows(card: *const u8, length: usize, rows: *const u16, degrees: usize) -> u64;
    fn subnet_rows(
        card: *const u8,
        length: usize,
        order: *const u16,
        subnets: usize,
        rows: *const u16,
        degrees: usize,
    ) -> u64;
}

impl From<&runner::State> for State {
    fn from(state: &runner::State) -> State {
        State {
            markings: state.markings.clone(),
            transfers: state.carried.iter().map(|c| c.map_or(IDLE, |c| c as u16)).collect(),
            degrees: state.degrees.clone(),
        }
    }
}

/// The reader's answer, below the number of field i.
pub fn read(data: &[u8], i: usize) -> u64 {
    unsafe { read_field(data.as_ptr(), data.len(), i) }
}

pub fn check(data: &[u8]) -> u64 {
    unsafe { check_card(data.as_ptr(), data.len()) }
}

/// How the markings end after these rows on the flat card's tables.
pub fn loaded_flat(data: &[u8], rows: &[u16]) -> u64 {
    unsafe { flat_rows(data.as_ptr(), data.len(), rows.as_ptr(), rows.len()) }
}

/// The same on the card's own tables.
pub fn loaded_subnets(data: &[u8], order: &[u16], rows: &[u16]) -> u64 {
    unsafe {
        subnet_rows(
            data.as_ptr(),
            data.len(),
            order.as_ptr(),
            order.len(),
            rows.as_ptr(),
            rows.len(),
        )
    }
}
