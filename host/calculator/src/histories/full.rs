//! A book of 256 holdings, which fills the list.

use super::{BLANK, History, PLACES, Step};
use crate::calendar::days_after;
use crate::{Order, Row, VALUED, participant};

/// A coupon that matures so many days after the valuation date.
fn coupon(days: usize) -> Row {
    Row {
        kind: 1,
        maturity: days_after(VALUED, days as i64),
        value: 1 + days as u64,
        ..BLANK
    }
}

pub(super) fn add_to(list: &mut Vec<History>) {
    let rows: Vec<Row> = (1..=PLACES).map(|number| coupon(20 * number)).collect();
    let adds = rows.iter().map(|row| Step::Order(Order::Add(*row)));
    let start = [Step::New(participant(VALUED))];
    let steps = start.into_iter().chain(adds).chain(at_the_limit(&rows));
    list.push(History {
        title: "256 holdings".into(),
        steps: steps.chain([Step::Show]).collect(),
    });
}

/// A 257th holding, one more after one has left, and a move that the last holding alone bears.
fn at_the_limit(rows: &[Row]) -> Vec<Step> {
    let another = coupon(7);
    let of = |value| Row { value, ..another };
    let orders = [
        Order::Add(another),
        Order::Add(of(0)),
        Order::Add(of(100_000_000_001)),
        Order::Take(another),
        Order::Add(rows[PLACES - 1]),
        Order::Take(rows[PLACES - 1]),
        Order::Take(rows[100]),
        Order::Add(another),
        Order::Add(another),
        Order::Add(rows[100]),
        Order::Take(of(1)),
        Order::Move(another.maturity),
        Order::Move(days_after(VALUED, 6)),
        Order::Move(rows[0].maturity),
    ];
    orders.map(Step::Order).to_vec()
}
