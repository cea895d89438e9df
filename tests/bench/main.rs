//! Times the proved functions beside plain ones, in turn, on cards, and compares their answers.
//!
//! The first argument names a file of cards on which answers are only compared. Cards follow: first those that show how cost grows, from the
//! smallest to the largest, then `--`, then others. With `repeat`, a measure and a card, only that proved call is run, for a profiler.

mod check;
mod compare;
mod flatten;
mod proved;
mod reader;
mod repeat;
mod rows;
mod runner;
mod table;
mod timing;

use rows::Run;
use std::hint::black_box;
use table::Measured;
use timing::{pair, Pair};

/// Reading, and the check.
fn time_passes(data: &[u8]) -> [Pair; 2] {
    [
        pair(
            || proved::read(black_box(data), black_box(0)),
            || reader::read(black_box(data)),
        ),
        pair(
            || proved::check(black_box(data)),
            || check::check(black_box(data)),
        ),
    ]
}

/// Flattening: the proved one into a buffer that is lent again and again, the plain one into a new vector.
fn time_flatten(data: &[u8]) -> Pair {
    let out = std::cell::RefCell::new([0; proved::CARD_BYTES]);
    pair(
        || proved::flatten(black_box(data), &mut out.borrow_mut()[..]),
        || flatten::flatten(black_box(data)),
    )
}

/// Compares and times all that a card is good for.
fn measure(path: &str) -> Measured {
    let data = std::fs::read(path).expect("a card");
    let name = path.rsplit('/').next().unwrap_or(path).to_string();
    let fields = compare::compare_reads(&data);
    compare::compare_checks(&data);
    compare::compare_damaged(&data);
    let mut times = time_passes(&data).to_vec();
    let (mut arcs, mut word) = (0, "refused".to_string());
    if let Ok(card) = check::accept(&data) {
        let run = Run::new(&data, &card, rows::ROWS);
        arcs = card.arcs.len();
        word = format!("accepted, {} of {} rows taken", run.compare(), rows::ROWS);
        times.push(time_flatten(&data));
        times.extend(run.time_loaded());
        times.extend(run.time_calls());
    }
    println!("{name}: {} bytes, {fields} fields, {arcs} arcs, {word}", data.len());
    Measured {
        name,
        bytes: data.len(),
        fields,
        arcs,
        times,
    }
}

fn main() {
    let mut paths = std::env::args().skip(1);
    let first = paths.next().expect("a file of cards, or repeat");
    if first == "repeat" {
        let [measure, path] = [(); 2].map(|_| paths.next().expect("a measure and a card"));
        return repeat::repeat(&measure, &path);
    }
    compare::compare_all(&first);
    let mut cards: Vec<Measured> = paths.by_ref().take_while(|path| path != "--").map(|path| measure(&path)).collect();
    let growing = cards.len();
    cards.extend(paths.map(|path| measure(&path)));
    println!("medians of {} samples or more, as many as {:?} hold", timing::FEWEST, timing::BUDGET);
    table::print_ratios(&cards);
    table::print_times(&cards);
    table::print_growth(&cards[..growing]);
}
