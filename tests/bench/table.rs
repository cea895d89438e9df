//! What was measured, as tables.

use crate::timing::Pair;

/// What is timed on a card; a card that is refused has the first two.
pub const MEASURES: [&str; 7] = [
    "read",
    "check",
    "flatten",
    "flat row",
    "subnet row",
    "flat call",
    "subnet call",
];
const CHECK: usize = 1;
const FLAT_ROW: usize = 3;

pub struct Measured {
    pub name: String,
    pub bytes: usize,
    pub fields: usize,
    pub arcs: usize,
    pub times: Vec<Pair>,
}

/// A number with three digits that count.
fn short(number: f64) -> String {
    let digits = if number < 10.0 { 2 } else { usize::from(number < 100.0) };
    format!("{number:.digits$}")
}

fn print_row(cells: impl IntoIterator<Item = String>) {
    let cells: Vec<String> = cells.into_iter().collect();
    println!("| {} |", cells.join(" | "));
}

fn print_head(cells: &[&str]) {
    println!();
    print_row(cells.iter().map(|cell| cell.to_string()));
    println!("|{}", "---|".repeat(cells.len()));
}

/// A table with a row for each card and a cell for each measure.
fn print_measures(cards: &[Measured], cell: impl Fn(&Pair) -> String) {
    print_head(&[&["card"], &MEASURES[..]].concat());
    for card in cards {
        let cells = MEASURES.iter().enumerate().map(|(i, _)| card.times.get(i).map_or("-".into(), &cell));
        print_row([card.name.clone()].into_iter().chain(cells));
    }
}

pub fn print_ratios(cards: &[Measured]) {
    println!("\nProved time divided by plain time:");
    print_measures(cards, |pair| short(pair.ratio()));
}

pub fn print_times(cards: &[Measured]) {
    println!("\nMicroseconds, proved / plain:");
    print_measures(cards, |pair| {
        format!("{} / {}", short(pair.proved / 1000.0), short(pair.plain / 1000.0))
    });
}

/// How the check grows by fields and the loaded flat row by arcs, from card to card.
pub fn print_growth(cards: &[Measured]) {
    println!("\nNanoseconds a field and an arc, proved / plain; 'further' is what each one more than on the card above costs:");
    print_head(&["card", "bytes", "fields", "check, a field", "further", "arcs", "flat row, an arc", "further"]);
    for (i, card) in cards.iter().enumerate() {
        let lower = i.checked_sub(1).map(|i| &cards[i]);
        let [field, further_field] = per(card, lower, CHECK, |card| card.fields);
        let [arc, further_arc] = per(card, lower, FLAT_ROW, |card| card.arcs);
        let counts = [card.bytes, card.fields, card.arcs].map(|count| count.to_string());
        let [bytes, fields, arcs] = counts;
        print_row([card.name.clone(), bytes, fields, field, further_field, arcs, arc, further_arc]);
    }
}

/// A time by a count; and the same of what a card has more than a lower one.
fn per(card: &Measured, lower: Option<&Measured>, measure: usize, count: impl Fn(&Measured) -> usize) -> [String; 2] {
    let each = |base: Option<&Measured>| {
        let of = |time: fn(&Pair) -> f64| {
            let below = base.map_or((0.0, 0), |base| (time(&base.times[measure]), count(base)));
            short((time(&card.times[measure]) - below.0) / (count(card) - below.1) as f64)
        };
        format!("{} / {}", of(|pair| pair.proved), of(|pair| pair.plain))
    };
    [each(None), lower.map_or("-".into(), |lower| each(Some(lower)))]
}
