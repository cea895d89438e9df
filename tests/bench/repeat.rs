//! A proved call again and again, for a profiler.

use crate::check::accept;
use crate::proved;
use crate::rows::Run;
use crate::table::MEASURES;
use crate::timing::used;
use std::cell::RefCell;
use std::time::{Duration, Instant};

const TIME: Duration = Duration::from_secs(2);
/// So many that the loading in front of them hardly counts.
const ROWS: usize = 20_000;

/// Runs the proved call of a measure on an accepted card.
pub fn repeat(measure: &str, path: &str) {
    let data = std::fs::read(path).expect("a card");
    let Ok(card) = accept(&data) else {
        panic!("an accepted card");
    };
    let run = Run::new(&data, &card, ROWS);
    let out = RefCell::new([0; proved::CARD_BYTES]);
    let calls: [&dyn Fn(); 7] = [
        &used(|| proved::read(&data, 0)),
        &used(|| proved::check(&data)),
        &used(|| proved::flatten(&data, &mut out.borrow_mut()[..])),
        &used(|| run.loaded_flat(&run.rows)),
        &used(|| run.loaded_subnets(&run.rows)),
        &used(|| run.flat_calls()),
        &used(|| run.subnet_calls()),
    ];
    let which = MEASURES.iter().position(|name| *name == measure).expect("a measure");
    let start = Instant::now();
    while start.elapsed() < TIME {
        calls[which]();
    }
}
