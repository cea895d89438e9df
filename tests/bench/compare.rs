//! The proved answers compared with the plain ones.

use crate::check::{accept, check};
use crate::flatten::{each_field, flatten};
use crate::proved;
use crate::reader::{read, Card, Refusal};
use crate::rows::Run;

/// How many fields of a card, and how many turned bits, are looked at, about.
const FIELDS: usize = 4000;
const TURNED_BITS: usize = 1000;
/// How many rows are run on each card of a file.
const FEW_ROWS: usize = 3;

/// A card's numbers, field after field, those of no bits among them.
fn numbers(card: &Card) -> Vec<u16> {
    let mut all = Vec::new();
    each_field(card, |value, _| all.push(value));
    all
}

/// An answer as the proved check packs it.
fn packed(answer: Result<[usize; 3], &Refusal>) -> u64 {
    match answer {
        Ok(counts) => counts.iter().fold(0, |sum, &count| sum << 16 | count as u64),
        Err(refusal) => 1 << 47 | u64::from(refusal.number) << 40 | refusal.bit as u64,
    }
}

/// Checks that both readers give the same answer and numbers, in some fields of a large card, and counts the fields.
pub fn compare_reads(data: &[u8]) -> usize {
    let answer = read(data);
    let counts = packed(answer.as_ref().map(Card::counts));
    let all = answer.as_ref().map_or(Vec::new(), numbers);
    for i in (0..=all.len()).step_by(all.len() / FIELDS + 1) {
        let number = u64::from(all.get(i).copied().unwrap_or(0));
        assert_eq!(proved::read(data, i), number << 48 | counts, "field {i}");
    }
    all.len()
}

/// Checks that both checks and both flattenings give the same answer, and the same flat card.
pub fn compare_checks(data: &[u8]) {
    let expected = packed(check(data).as_ref().map(|&counts| counts));
    assert_eq!(proved::check(data), expected, "card {data:?}");
    let mut out = [0; proved::CARD_BYTES];
    match (proved::flatten(data, &mut out), flatten(data)) {
        (Ok(length), Ok(flat)) => assert!(out[..length] == flat, "flat card of {data:?}"),
        (proved, plain) => {
            let plain = plain.map(|flat| flat.len());
            let refused = plain.map_err(|refusal| proved::Refusal(refusal.number.into(), refusal.bit));
            assert_eq!(proved, refused, "flattening {data:?}");
        }
    }
}

/// The same on the card cut short, and with each of some bits turned, from the first one to the last.
pub fn compare_damaged(data: &[u8]) {
    for cut in [0, 1, data.len() / 2, data.len() - 1] {
        compare_reads(&data[..cut]);
        compare_checks(&data[..cut]);
    }
    let mut turned = data.to_vec();
    for bit in (0..8 * data.len()).step_by(8 * data.len() / TURNED_BITS + 1) {
        turned[bit / 8] ^= 0x80 >> bit % 8;
        compare_checks(&turned);
        turned[bit / 8] ^= 0x80 >> bit % 8;
    }
}

/// Compares all answers on each card of a file, in which each stands after its length in four bytes.
pub fn compare_all(path: &str) {
    let file = std::fs::read(path).expect("a file of cards");
    let (mut rest, mut cards, mut accepted, mut taken) = (&file[..], 0, 0, 0);
    while let Some((length, others)) = rest.split_first_chunk() {
        let (data, others) = others.split_at(u32::from_be_bytes(*length) as usize);
        compare_checks(data);
        if let Ok(card) = accept(data) {
            accepted += 1;
            taken += Run::new(data, &card, FEW_ROWS).compare();
        }
        cards += 1;
        rest = others;
    }
    println!("{cards} cards with equal answers, {accepted} of them accepted; {FEW_ROWS} rows on each, {taken} of them taken");
}
