//! The library called from Rust, through its safe functions on slices: bench card A, refusals of each function, and the round trip.

#[allow(dead_code)]
#[path = "../../crates/net_runner/net_runner.rs"]
mod net_runner;

use net_runner::{check, flat_row, flatten, fresh, subnet_row, write, Refusal, State, Tables, IDLE};

/// Bench card A of the paper.
const BENCH: [u8; 29] = [
    0x10, 0x82, 0x00, 0x00, 0x40, 0x40, 0x10, 0x10, 0x04, 0x00, 0x00, 0x0c, 0x20, 0x00, 0x20, 0x00, 0x10, 0x0a, 0x02, 0x00, 0x01, 0x00,
    0x02, 0x20, 0x40, 0x00, 0x61, 0x01, 0x01,
];

/// The same card of another version.
fn versioned(version: u8) -> [u8; 29] {
    let mut card = BENCH;
    card[0] = version << 4 | card[0] & 15;
    card
}

fn bench_tables() -> Tables {
    Tables {
        version: 1,
        signals: 2,
        limit: 0,
        scale: 0,
        subnets: vec![0, 0, 1, 1, 0, 0, 2, 1],
        places: vec![0, 1, 1, 1, 1, 0, 0, 2, 0],
        transitions: vec![0, 2, 0, 1, 2, 0],
        arcs: vec![0, 0, 0, 1, 1, 1, 0, 1, 0, 1, 0, 1, 1, 1, 1, 1],
    }
}

/// A row, and what it gives: markings and transfers, or a refusal.
type Answered = ([u16; 2], Result<([u32; 3], [u16; 2]), Refusal>);

/// The paper's six rows.
const ROWS: [Answered; 6] = [
    ([400, 0], Ok(([600, 400, 0], [400, IDLE]))),
    ([300, 500], Ok(([600, 400, 0], [400, IDLE]))),
    ([1000, 500], Ok(([0, 1000, 0], [IDLE, IDLE]))),
    ([1000, 500], Ok(([0, 1000, 0], [IDLE, 0]))),
    ([1000, 900], Ok(([0, 600, 400], [IDLE, 400]))),
    ([0, 1001], Err(Refusal(21, 1))),
];

/// Rows on version 2: transition 1 starts at 500, which its signal has been at; transition 0 starts and ends in one row.
const SECOND_ROWS: [Answered; 5] = [
    ([1000, 500], Ok(([0, 1000, 0], [IDLE, IDLE]))),
    ([1000, 500], Ok(([0, 500, 500], [IDLE, 500]))),
    ([1000, 1001], Err(Refusal(21, 1))),
    ([1000, 900], Ok(([0, 100, 900], [IDLE, 900]))),
    ([0, 1000], Ok(([0, 0, 1000], [IDLE, IDLE]))),
];

/// Numbers that no call writes, to see which ones it did.
fn blank_state(places: usize, transitions: usize, signals: usize) -> State {
    State {
        markings: vec![77_777; places],
        transfers: vec![7_777; transitions],
        degrees: vec![7_007; signals],
    }
}

fn fresh_bench() -> State {
    let mut state = blank_state(3, 2, 2);
    fresh(&BENCH, &mut state).expect("bench card A");
    state
}

struct Tests {
    passed: usize,
    failed: usize,
}

impl Tests {
    fn same<T: std::fmt::Debug + PartialEq>(&mut self, what: &str, got: T, expected: T) {
        if got == expected {
            self.passed += 1;
        } else {
            self.failed += 1;
            println!("{what}: {got:?} is not {expected:?}");
        }
    }

    /// Rows by a runner, from the fresh state on.
    fn rows(&mut self, runner: &str, rows: &[Answered], call: impl Fn(&mut State, &[u16]) -> Result<usize, Refusal>) {
        let mut state = fresh_bench();
        for (number, (row, expected)) in rows.iter().enumerate() {
            let before = state.clone();
            let reply = call(&mut state, row);
            let (reply_due, state_due) = match expected {
                Ok((markings, transfers)) => (
                    Ok(0),
                    State {
                        markings: markings.to_vec(),
                        transfers: transfers.to_vec(),
                        degrees: row.to_vec(),
                    },
                ),
                Err(Refusal(refusal, value)) => (Err(Refusal(*refusal, *value)), before),
            };
            self.same(&format!("{runner}, row {}", number + 1), (reply, &state), (reply_due, &state_due));
        }
    }

    /// A row of no degrees starts what may start, moves nothing on a version 1 card, and leaves the degrees.
    fn empty_rows(&mut self, runner: &str, call: impl Fn(&mut State, &[u16]) -> Result<usize, Refusal>) {
        let mut state = State { markings: vec![0, 1000, 0], transfers: vec![IDLE; 2], degrees: vec![1000, 500] };
        let started = State { transfers: vec![IDLE, 0], ..state.clone() };
        self.same(&format!("{runner}, an empty row"), (call(&mut state, &[]), &state), (Ok(0), &started));
        self.same(&format!("{runner}, another"), (call(&mut state, &[]), &state), (Ok(0), &started));
        let moved = State { markings: vec![0, 600, 400], transfers: vec![IDLE, 400], degrees: vec![1000, 900] };
        self.same(&format!("{runner}, a row behind them"), (call(&mut state, &[1000, 900]), &state), (Ok(0), &moved));
        self.same(&format!("{runner}, an empty row midway"), (call(&mut state, &[]), &state), (Ok(0), &moved));
    }

    /// On version 2 what starts in a row of no degrees moves by its signal's last degree.
    fn second_empty_rows(&mut self, runner: &str, call: impl Fn(&mut State, &[u16]) -> Result<usize, Refusal>) {
        let mut state = State { markings: vec![0, 1000, 0], transfers: vec![IDLE; 2], degrees: vec![1000, 500] };
        let started = State { markings: vec![0, 500, 500], transfers: vec![IDLE, 500], ..state.clone() };
        self.same(&format!("{runner}, an empty row"), (call(&mut state, &[]), &state), (Ok(0), &started));
        self.same(&format!("{runner}, another"), (call(&mut state, &[]), &state), (Ok(0), &started));
        let mut up = State { markings: vec![0, 1000, 0], transfers: vec![IDLE; 2], degrees: vec![1000, 1000] };
        let across = State { markings: vec![0, 0, 1000], ..up.clone() };
        self.same(&format!("{runner}, an empty row across"), (call(&mut up, &[]), &up), (Ok(0), &across));
    }

    /// A call that is refused and leaves what it was lent.
    fn refused<L: Clone + std::fmt::Debug + PartialEq>(
        &mut self,
        what: &str,
        mut lent: L,
        call: impl FnOnce(&mut L) -> Result<usize, Refusal>,
        number: u64,
        value: usize,
    ) {
        let before = lent.clone();
        let reply = call(&mut lent);
        self.same(what, (reply, lent), (Err(Refusal(number, value)), before));
    }

    fn refusals(&mut self) {
        let cut = &BENCH[..28];
        self.refused("check, no bytes", [7; 4], |counts| check(&[], counts), 1, 0);
        self.refused("check, 28 bytes", [7; 4], |counts| check(cut, counts), 1, 224);
        self.refused("flatten, 28 bytes", [7; 64], |out| flatten(cut, out), 1, 224);
        self.refused("flatten, a short buffer", [7; 25], |out| flatten(&BENCH, out), 24, 26);
        let wide = Tables { version: 16, ..bench_tables() };
        self.refused("write, a number that does not fit", [7; 64], |out| write(&wide, out), 17, 0);
        let limited = Tables { limit: 1, ..bench_tables() };
        self.refused("write, a limit in version 1", [7; 64], |out| write(&limited, out), 17, 0);
        let scaled = Tables { scale: 1000, ..bench_tables() };
        self.refused("write, a scale in version 1", [7; 64], |out| write(&scaled, out), 17, 0);
        let ranked = |version| Tables { version, transitions: vec![0, 2, 0, 1, 2, 255], ..bench_tables() };
        self.refused("write, a rank in version 1", [7; 64], |out| write(&ranked(1), out), 17, 0);
        self.refused("write, a rank in version 2", [7; 64], |out| write(&ranked(2), out), 17, 0);
        self.refused("write, a rank in version 3", [7; 64], |out| write(&ranked(3), out), 2, 0);
        self.refused("write, a short buffer", [7; 28], |out| write(&bench_tables(), out), 24, 29);
        self.refused("fresh, 28 bytes", blank_state(3, 2, 2), |state| fresh(cut, state), 1, 224);
        self.refused("fresh, a place too many", blank_state(4, 2, 2), |state| fresh(&BENCH, state), 25, 0);
        let full = State { markings: vec![1000, 0, 2001], ..fresh_bench() };
        self.refused("flat row, 28 bytes", fresh_bench(), |state| flat_row(cut, state, &[0, 0]), 1, 224);
        self.refused("flat row, a marking", full.clone(), |state| flat_row(&BENCH, state, &[0, 0]), 25, 0);
        self.refused("flat row, an empty row on a marking", full.clone(), |state| flat_row(&BENCH, state, &[]), 25, 0);
        self.refused("flat row, one degree", fresh_bench(), |state| flat_row(&BENCH, state, &[0]), 20, 0);
        self.refused("flat row, 1023", fresh_bench(), |state| flat_row(&BENCH, state, &[1023, 1023]), 21, 0);
        self.refused("subnet row, 28 bytes", fresh_bench(), |state| subnet_row(cut, state, &[0, 1], &[0, 0]), 1, 224);
        self.refused("subnet row, a marking", full, |state| subnet_row(&BENCH, state, &[0, 1], &[0, 0]), 25, 0);
        self.refused("subnet row, an order", fresh_bench(), |state| subnet_row(&BENCH, state, &[1, 1], &[0, 0]), 23, 0);
        self.refused("subnet row, an empty row in an order", fresh_bench(), |state| subnet_row(&BENCH, state, &[1, 1], &[]), 23, 0);
        self.refused("subnet row, one degree", fresh_bench(), |state| subnet_row(&BENCH, state, &[1, 0], &[0]), 20, 0);
        self.refused("subnet row, 1023", fresh_bench(), |state| subnet_row(&BENCH, state, &[1, 0], &[1023, 1023]), 21, 0);
    }

    /// A card, as bytes and as tables, that every call which tests a card refuses before all else.
    fn refused_by_all(&mut self, what: &str, card: &[u8], tables: &Tables, number: u64, bit: usize) {
        let call = |name: &str| format!("{name}, {what}");
        self.refused(&call("check"), [7; 4], |counts| check(card, counts), number, bit);
        self.refused(&call("flatten"), [7; 1], |out| flatten(card, out), number, bit);
        self.refused(&call("write"), [7; 1], |out| write(tables, out), number, bit);
        self.refused(&call("fresh"), blank_state(4, 2, 2), |state| fresh(card, state), number, bit);
        self.refused(&call("flat row"), blank_state(3, 2, 2), |state| flat_row(card, state, &[0]), number, bit);
        self.refused(&call("subnet row"), blank_state(3, 2, 2), |state| subnet_row(card, state, &[1, 1], &[0]), number, bit);
    }

    /// Bench card A with its second arc back to place (0,0).
    fn loops(&mut self) {
        for version in [1, 2] {
            let mut card = versioned(version);
            card[12] = 0; // bit 98, the last of the arc's subnet
            let mut tables = Tables { version: version.into(), ..bench_tables() };
            tables.arcs[5] = 0;
            self.refused_by_all(&format!("a loop, version {version}"), &card, &tables, 26, 93);
        }
    }

    /// Bench card A of versions that are neither 1 nor 2.
    fn versions(&mut self) {
        for version in [0, 3, 15] {
            let tables = Tables { version: version.into(), ..bench_tables() };
            self.refused_by_all(&format!("version {version}"), &versioned(version), &tables, 2, 0);
        }
    }

    /// Tables to a card, to its counts, to the flat card, and that one again. All are of one version.
    fn round_trip(&mut self, version: u8) {
        let tables = Tables { version: version.into(), ..bench_tables() };
        let mut card = [0xa5; 64];
        let length = write(&tables, &mut card);
        self.same("write", (length, &card[..29], &card[29..]), (Ok(29), &versioned(version)[..], &[0xa5; 35][..]));
        let mut counts = [0; 4];
        self.same("check", (check(&card[..29], &mut counts), counts), (Ok(0), [2, 3, 2, 2]));
        let (mut flat, mut again) = ([0xa5; 64], [0x5a; 64]);
        self.same("flatten", (flatten(&card[..29], &mut flat), flat[0] >> 4), (Ok(26), version));
        self.same("check, the flat card", (check(&flat[..26], &mut counts), counts), (Ok(0), [1, 3, 2, 2]));
        self.same("flatten, again", flatten(&flat[..26], &mut again), Ok(26));
        self.same("the flat cards", &flat[..26], &again[..26]);
        self.same("behind the flat cards", (&flat[26..], &again[26..]), (&[0xa5; 38][..], &[0x5a; 38][..]));
    }
}

fn main() {
    let mut tests = Tests { passed: 0, failed: 0 };
    let new = State { markings: vec![1000, 0, 0], transfers: vec![IDLE; 2], degrees: vec![0; 2] };
    tests.same("fresh", fresh_bench(), new);
    tests.rows("flat rows", &ROWS, |state, row| flat_row(&BENCH, state, row));
    tests.rows("subnet rows, 0 1", &ROWS, |state, row| subnet_row(&BENCH, state, &[0, 1], row));
    tests.rows("subnet rows, 1 0", &ROWS, |state, row| subnet_row(&BENCH, state, &[1, 0], row));
    tests.empty_rows("flat row", |state, row| flat_row(&BENCH, state, row));
    tests.empty_rows("subnet row", |state, row| subnet_row(&BENCH, state, &[1, 0], row));
    let second = versioned(2);
    tests.rows("flat rows, version 2", &SECOND_ROWS, |state, row| flat_row(&second, state, row));
    tests.rows("subnet rows, version 2", &SECOND_ROWS, |state, row| subnet_row(&second, state, &[1, 0], row));
    tests.second_empty_rows("flat row, version 2", |state, row| flat_row(&second, state, row));
    tests.second_empty_rows("subnet row, version 2", |state, row| subnet_row(&second, state, &[1, 0], row));
    tests.refusals();
    tests.loops();
    tests.versions();
    tests.round_trip(1);
    tests.round_trip(2);
    println!("{} passed, {} failed", tests.passed, tests.failed);
    std::process::exit(if tests.failed > 0 { 1 } else { 0 });
}
