//! A history of bookings, kept as a map and not as a list.

use std::collections::HashMap;

use margin_host::{Head, Refusal, Row};

use crate::article::{Account, Position};
use crate::booking::Order;
use crate::dates::is_date;
use crate::plain::{HIGHEST_VALUE, MOST_HOLDINGS, in_range};

/// Side, kind, issuer, maturity, currency and rating.
type Description = [u64; 6];

/// What a description has: more was added than was taken, by this value, and it last joined at this turn.
#[derive(Clone, Copy, Debug)]
struct Balance {
    value: u64,
    joined: u64,
}

/// What accepted orders to a book that was empty come to.
#[derive(Clone, Debug)]
pub struct Ledger {
    head: Head,
    /// How many holdings the list has places for.
    room: usize,
    balances: HashMap<Description, Balance>,
    /// How often a description has joined.
    joinings: u64,
}

impl Ledger {
    /// An empty book under this head, with a list of so many places.
    #[must_use]
    pub fn new(head: Head, room: usize) -> Ledger {
        Ledger {
            head,
            room,
            balances: HashMap::new(),
            joinings: 0,
        }
    }

    /// Follows an order, and gives the new number of holdings.
    ///
    /// # Errors
    ///
    /// The first refusal in booking's order; nothing is then changed.
    pub fn order(&mut self, order: &Order) -> Result<usize, Refusal> {
        let account = Account::of(self.head)?;
        match order {
            Order::Add(trade) => {
                described(&account, trade)?;
                self.add(trade)?;
            }
            Order::Take(trade) => {
                described(&account, trade)?;
                self.take(trade)?;
            }
            Order::Move(to) => self.move_to(*to)?,
        }
        Ok(self.balances.len())
    }

    /// The head: moving changes its date.
    #[must_use]
    pub fn head(&self) -> Head {
        self.head
    }

    /// The holdings: each description with more added than taken, once, with the difference, in order of last joining.
    #[must_use]
    pub fn holdings(&self) -> Vec<Row> {
        let mut balances: Vec<(&Description, &Balance)> = self.balances.iter().collect();
        balances.sort_unstable_by_key(|(_, balance)| balance.joined);
        let holding = |(description, balance): (&Description, &Balance)| {
            let [side, kind, issuer, maturity, currency, rating] = *description;
            let value = balance.value;
            Row {
                side,
                kind,
                issuer,
                maturity,
                value,
                currency,
                rating,
            }
        };
        balances.into_iter().map(holding).collect()
    }

    /// The totals of the holdings, worked out afresh.
    ///
    /// # Panics
    ///
    /// If the head is outside its ranges and there are holdings.
    #[must_use]
    pub fn totals(&self) -> [u64; 5] {
        totals_of(self.head, &self.holdings())
    }

    fn add(&mut self, trade: &Row) -> Result<(), Refusal> {
        let description = description_of(trade);
        let held = self.balances.get(&description);
        let value = held.map_or(0, |balance| balance.value);
        let sum = u128::from(value) + u128::from(trade.value);
        if trade.value == 0 || sum > u128::from(HIGHEST_VALUE) {
            return Err(Refusal::ValueOutOfRange { holding: 0 });
        }
        let value = sum as u64;
        if let Some(balance) = self.balances.get_mut(&description) {
            balance.value = value;
            return Ok(());
        }
        if self.balances.len() == MOST_HOLDINGS {
            return Err(Refusal::TooManyHoldings);
        }
        if self.balances.len() == self.room {
            return Err(Refusal::ListTooShort);
        }
        let joined = self.joinings;
        self.joinings += 1;
        self.balances.insert(description, Balance { value, joined });
        Ok(())
    }

    fn take(&mut self, trade: &Row) -> Result<(), Refusal> {
        let description = description_of(trade);
        let Some(balance) = self.balances.get_mut(&description) else {
            return Err(Refusal::TakenOutOfRange);
        };
        if !(1..=balance.value).contains(&trade.value) {
            return Err(Refusal::TakenOutOfRange);
        }
        balance.value -= trade.value;
        if balance.value == 0 {
            self.balances.remove(&description);
        }
        Ok(())
    }

    fn move_to(&mut self, to: u64) -> Result<(), Refusal> {
        if !is_date(to) {
            return Err(Refusal::DateInvalid { holding: 0 });
        }
        if to <= self.head.date {
            return Err(Refusal::DateNotLater);
        }
        let holdings = self.holdings();
        if let Some(place) = holdings.iter().position(|row| row.maturity <= to) {
            let holding = place as u64;
            return Err(Refusal::MaturityOutOfRange { holding });
        }
        self.head.date = to;
        Ok(())
    }
}

/// Five totals of the margins alone of holdings without fault, in units, one for each period.
///
/// # Panics
///
/// If the head is outside its ranges and there are holdings.
#[must_use]
pub fn totals_of(head: Head, holdings: &[Row]) -> [u64; 5] {
    let mut totals = [0; 5];
    for row in holdings {
        let account = Account::of(head).expect("a date and a letter");
        let position = Position::of(&account, row);
        totals[usize::from(position.period)] += position.rate * row.value;
    }
    totals
}

fn description_of(row: &Row) -> Description {
    let Row {
        side,
        kind,
        issuer,
        maturity,
        currency,
        rating,
        ..
    } = *row;
    [side, kind, issuer, maturity, currency, rating]
}

/// A trade's description is refused as that of a holding is; its value is not asked for yet.
fn described(account: &Account, trade: &Row) -> Result<(), Refusal> {
    in_range(account, 0, &Row { value: 1, ..*trade }, 0)
}

#[cfg(test)]
mod tests {
    use margin_host::Refusal;

    use super::Ledger;
    use crate::{NOT_RATED, Order, Row, VALUED, participant};

    const BOND: Row = Row {
        side: 0,
        kind: 0,
        issuer: 7,
        maturity: 2030_06_24,
        value: 1_000,
        currency: 0,
        rating: NOT_RATED,
    };
    const COUPON: Row = Row { kind: 1, ..BOND };

    fn value(row: Row, value: u64) -> Row {
        Row { value, ..row }
    }

    #[test]
    fn one_that_left_joins_at_the_end() {
        let mut ledger = Ledger::new(participant(VALUED), 256);
        for (order, count) in [
            (Order::Add(BOND), 1),
            (Order::Add(COUPON), 2),
            (Order::Add(value(BOND, 500)), 2),
            (Order::Take(value(BOND, 1_500)), 1),
            (Order::Add(value(BOND, 1)), 2),
        ] {
            assert_eq!(ledger.order(&order), Ok(count), "{order:?}");
        }
        assert_eq!(ledger.holdings(), [COUPON, value(BOND, 1)]);
        assert_eq!(ledger.totals(), [0, 0, 8_760_000 + 5_840, 0, 0]);
    }

    #[test]
    fn the_totals_of_a_later_date() {
        let mut ledger = Ledger::new(participant(VALUED), 256);
        assert_eq!(ledger.order(&Order::Add(BOND)), Ok(1));
        for (to, totals) in [
            (2027_06_23, [0, 0, 5_840, 0, 0]),
            (2027_06_24, [0, 4_380, 0, 0, 0]),
            (2029_06_24, [8 * 365, 0, 0, 0, 0]),
            (2030_06_23, [8, 0, 0, 0, 0]),
        ] {
            assert_eq!(ledger.order(&Order::Move(to)), Ok(1));
            assert_eq!(ledger.totals(), totals.map(|rate| 1_000 * rate), "{to}");
        }
        let matured = Refusal::MaturityOutOfRange { holding: 0 };
        assert_eq!(ledger.order(&Order::Move(2030_06_24)), Err(matured));
    }

    #[test]
    fn what_is_refused_changes_nothing() {
        let mut ledger = Ledger::new(participant(VALUED), 1);
        assert_eq!(ledger.order(&Order::Add(BOND)), Ok(1));
        for (order, number) in [
            (Order::Add(value(BOND, 0)), 8),
            (Order::Add(value(BOND, 100_000_000_000)), 8),
            (Order::Add(value(BOND, u64::MAX)), 8),
            (Order::Add(COUPON), 2),
            (Order::Add(value(COUPON, 0)), 8),
            (Order::Add(Row { side: 2, ..BOND }), 4),
            (Order::Take(value(BOND, 0)), 27),
            (Order::Take(value(BOND, 1_001)), 27),
            (Order::Take(COUPON), 27),
            (Order::Take(Row { rating: 0, ..BOND }), 25),
            (Order::Move(2025_02_29), 24),
            (Order::Move(VALUED), 27),
        ] {
            let refused = ledger.order(&order).map_err(|refusal| refusal.number());
            assert_eq!(refused, Err(number), "{order:?}");
        }
        assert_eq!(ledger.holdings(), [BOND]);
        assert_eq!(ledger.order(&Order::Take(BOND)), Ok(0));
    }
}
