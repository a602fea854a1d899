//! Histories made from a seed.

use super::{History, PLACES, Step, letter};
use crate::Ledger;
use crate::dealing::{Dealer, Style, fault_of_cases};
use crate::samples::{ANY, CORPORATE, DOMESTIC, PERIODS, Random, Shape, valuation_date};
use margin_host::Head;

const SEED: u64 = 0x0D01;

/// First maturities, and values that add up to the limit.
const NEAR: Shape = Shape {
    name: "first periods and high values",
    terms: &[PERIODS[0], PERIODS[1]],
    values: &[(1, 100), (1, 100_000_000_000)],
    ..ANY
};

/// Shapes, how many descriptions, how many whole takings of ten, and how many moves of a hundred orders.
const STYLES: [(Shape, usize, u64, u64); 5] = [
    (ANY, 5, 5, 5),
    (NEAR, 6, 4, 30),
    (CORPORATE, 12, 3, 10),
    (DOMESTIC, 30, 1, 10),
    (ANY, 40, 0, 15),
];

pub(super) fn add_to(list: &mut Vec<History>) {
    let mut random = Random::new(SEED);
    for turn in 0..20 {
        let (shape, different, whole, moves) = STYLES[turn % STYLES.len()];
        let style = Style {
            shape,
            different,
            whole,
            moves,
            fault: fault_of_cases,
        };
        let head = Head {
            date: valuation_date(&mut random),
            letter: letter(turn),
        };
        let title = format!("dealt {turn}: {}", shape.name);
        let steps = dealt(&mut random, style, head, 60);
        list.push(History { title, steps });
    }
}

/// So many orders to an empty book, and its list.
fn dealt(random: &mut Random, style: Style, head: Head, orders: usize) -> Vec<Step> {
    let mut ledger = Ledger::new(head, PLACES);
    let mut dealer = Dealer::new(random, style, &ledger);
    let mut steps = vec![Step::New(head)];
    for _ in 0..orders {
        let order = dealer.order(random, &ledger);
        // What is refused changes nothing, in the ledger either.
        let _ = ledger.order(&order);
        steps.push(Step::Order(order));
    }
    steps.push(Step::Show);
    steps
}
