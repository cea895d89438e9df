//! The library's functions for Rust: declared as net_runner.h has them, which says what they do, and wrapped into safe ones on slices. A
//! program that takes this file as a module links libnet_runner.a. A call needs up to STACK_BYTES of stack: no thread that makes calls is
//! started with less.

extern "C" {
    fn net_check(card: *const u8, card_bytes: usize, counts: *mut usize, value: *mut usize) -> u64;
    fn net_flatten(card: *const u8, card_bytes: usize, out: *mut u8, out_bytes: usize, value: *mut usize) -> u64;
    fn net_write(
        header: *const u16,
        subnets: *const u16,
        subnets_size: usize,
        places: *const u16,
        places_size: usize,
        transitions: *const u16,
        transitions_size: usize,
        arcs: *const u16,
        arcs_size: usize,
        out: *mut u8,
        out_bytes: usize,
        value: *mut usize,
    ) -> u64;
    fn net_fresh(
        card: *const u8,
        card_bytes: usize,
        markings: *mut u32,
        places: usize,
        transfers: *mut u16,
        transitions: usize,
        degrees: *mut u16,
        signals: usize,
        value: *mut usize,
    ) -> u64;
    fn net_flat_row(
        card: *const u8,
        card_bytes: usize,
        markings: *mut u32,
        places: usize,
        transfers: *mut u16,
        transitions: usize,
        degrees: *mut u16,
        signals: usize,
        row: *const u16,
        row_size: usize,
        value: *mut usize,
    ) -> u64;
    fn net_subnet_row(
        card: *const u8,
        card_bytes: usize,
        markings: *mut u32,
        places: usize,
        transfers: *mut u16,
        transitions: usize,
        degrees: *mut u16,
        signals: usize,
        order: *const u16,
        order_size: usize,
        row: *const u16,
        row_size: usize,
        value: *mut usize,
    ) -> u64;
}

/// The most bytes that a card has.
pub const CARD_BYTES: usize = 22770;

/// The stack that a call needs, at most.
pub const STACK_BYTES: usize = 524288;

/// An idle transition, among transfers.
pub const IDLE: u16 = 65535;

/// A refusal's number, and its bit, signal, place or length; 0 where it has none.
#[derive(Clone, Copy, Debug, PartialEq)]
pub struct Refusal(pub u64, pub usize);

#[derive(Clone, Debug, PartialEq)]
pub struct State {
    pub markings: Vec<u32>,
    pub transfers: Vec<u16>,
    pub degrees: Vec<u16>,
}

/// Each table is its rows, number after number. Limit, scale and the ranks of transitions are 0 on cards of versions 1 and 2.
pub struct Tables {
    pub version: u16,
    pub signals: u16,
    pub limit: u16,
    pub scale: u16,
    pub subnets: Vec<u16>,
    pub places: Vec<u16>,
    pub transitions: Vec<u16>,
    pub arcs: Vec<u16>,
}

/// The value that a call wrote, or its refusal.
fn answer(number: u64, value: usize) -> Result<usize, Refusal> {
    if number == 0 {
        Ok(value)
    } else {
        Err(Refusal(number, value))
    }
}

// A slice is lent as its pointer and length, a mutable one borrows no other argument, and an empty one has a pointer too: all that the header
// asks for. So the wrappers are safe for every argument.

pub fn check(card: &[u8], counts: &mut [usize; 4]) -> Result<usize, Refusal> {
    let mut value = usize::MAX;
    let number = unsafe { net_check(card.as_ptr(), card.len(), counts.as_mut_ptr(), &mut value) };
    answer(number, value)
}

pub fn flatten(card: &[u8], out: &mut [u8]) -> Result<usize, Refusal> {
    let mut value = usize::MAX;
    let number = unsafe { net_flatten(card.as_ptr(), card.len(), out.as_mut_ptr(), out.len(), &mut value) };
    answer(number, value)
}

/// Tables row after row, as net_runner.h has them.
pub fn write(tables: &Tables, out: &mut [u8]) -> Result<usize, Refusal> {
    let header = [tables.version, tables.signals, tables.limit, tables.scale];
    let mut value = usize::MAX;
    let number = unsafe {
        net_write(
            header.as_ptr(),
            tables.subnets.as_ptr(),
            tables.subnets.len(),
            tables.places.as_ptr(),
            tables.places.len(),
            tables.transitions.as_ptr(),
            tables.transitions.len(),
            tables.arcs.as_ptr(),
            tables.arcs.len(),
            out.as_mut_ptr(),
            out.len(),
            &mut value,
        )
    };
    answer(number, value)
}

pub fn fresh(card: &[u8], state: &mut State) -> Result<usize, Refusal> {
    let mut value = usize::MAX;
    let number = unsafe {
        net_fresh(
            card.as_ptr(),
            card.len(),
            state.markings.as_mut_ptr(),
            state.markings.len(),
            state.transfers.as_mut_ptr(),
            state.transfers.len(),
            state.degrees.as_mut_ptr(),
            state.degrees.len(),
            &mut value,
        )
    };
    answer(number, value)
}

/// A row of no degrees is an empty row: every signal stands at its last degree.
pub fn flat_row(card: &[u8], state: &mut State, row: &[u16]) -> Result<usize, Refusal> {
    let mut value = usize::MAX;
    let number = unsafe {
        net_flat_row(
            card.as_ptr(),
            card.len(),
            state.markings.as_mut_ptr(),
            state.markings.len(),
            state.transfers.as_mut_ptr(),
            state.transfers.len(),
            state.degrees.as_mut_ptr(),
            state.degrees.len(),
            row.as_ptr(),
            row.len(),
            &mut value,
        )
    };
    answer(number, value)
}

/// The same subnet by subnet, in an order that names each once.
pub fn subnet_row(card: &[u8], state: &mut State, order: &[u16], row: &[u16]) -> Result<usize, Refusal> {
    let mut value = usize::MAX;
    let number = unsafe {
        net_subnet_row(
            card.as_ptr(),
            card.len(),
            state.markings.as_mut_ptr(),
            state.markings.len(),
            state.transfers.as_mut_ptr(),
            state.transfers.len(),
            state.degrees.as_mut_ptr(),
            state.degrees.len(),
            order.as_ptr(),
            order.len(),
            row.as_ptr(),
            row.len(),
            &mut value,
        )
    };
    answer(number, value)
}
