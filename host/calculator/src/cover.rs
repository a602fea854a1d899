//! Refusal 16: prices that do not cover the book.

use std::hint::select_unpredictable;

use margin_host::Refusal;

use crate::article::{Class, Market, Position, corporate_pair_rate};
use crate::plain::Entry;

/// A short, as far as cover asks, side by side with the others of its group.
#[derive(Clone, Copy)]
struct Short {
    rate: u64,
    price: u64,
    number: u16,
    issuer: u16,
    class: Class,
    bond: bool,
}

/// Stands where no short has been put yet.
const NOBODY: Short = Short {
    rate: 0,
    price: 0,
    number: 0,
    issuer: 0,
    class: Class::National,
    bond: false,
};

impl Short {
    fn of(number: usize, position: &Position, price: u64) -> Short {
        Short {
            rate: position.rate,
            price,
            number: number as u16,
            issuer: position.issuer,
            class: position.class,
            bond: position.bond,
        }
    }
}

const PERIODS: usize = 5;

/// The group of the shorts in this position's market and period. For paragraph 2 there is one in each period;
/// for paragraph 4 one of bonds and one of strips for each government and currency, and for paragraph 3 for
/// each corporation.
fn group(position: &Position, bonds: bool) -> Option<usize> {
    let kinds = match position.market {
        Market::Domestic => 0,
        Market::Foreign(number) => 1 + 2 * usize::from(number) + usize::from(bonds),
        Market::Corporate(number) => {
            1 + 2 * (Market::FOREIGN + usize::from(number)) + usize::from(bonds)
        }
        Market::Unpaired => return None,
    };
    Some(PERIODS * kinds + usize::from(position.period))
}

/// Looks at every allowed pair, lowest long first and its shorts from the lowest.
pub(super) fn cover(entries: &[Entry]) -> Result<(), Refusal> {
    if !entries.iter().any(|entry| entry.short) {
        return Ok(());
    }
    let shorts = Shorts::of(entries);
    for (number, long) in entries.iter().enumerate().filter(|(_, entry)| !entry.short) {
        let partners = shorts.partners(&long.position);
        let uncovered = |short: &&Short| long.price + short.price < needed(&long.position, short);
        if let Some(short) = partners.iter().find(uncovered) {
            return Err(Refusal::PairNotCovered {
                long: number as u64,
                short: u64::from(short.number),
            });
        }
    }
    Ok(())
}

/// What the two prices must add up to: the saving rate, or nothing for two bonds and for a bond and a strip of
/// two provinces. Classes, issuers and kinds come in no order, so the cases are chosen without a jump.
#[inline]
fn needed(long: &Position, short: &Short) -> u64 {
    let sum = long.rate + short.rate;
    if long.class == Class::Corporation {
        return sum - corporate_pair_rate(long.rate, short.rate);
    }
    let one_class = long.class == short.class;
    let two_provinces = one_class & (long.issuer != short.issuer);
    let difference = long.rate.abs_diff(short.rate);
    let pair = select_unpredictable(one_class, difference, sum / 2);
    let apart = (long.bond & short.bond) | (two_provinces & (long.bond | short.bond));
    select_unpredictable(apart, 0, sum - pair)
}

/// The shorts by group and in order within each, and where each group starts and ends, up to the last in use.
struct Shorts {
    shorts: Vec<Short>,
    bounds: Vec<(u16, u16)>,
}

impl Shorts {
    fn of(entries: &[Entry]) -> Shorts {
        let used = grouped(entries).map(|(_, _, group)| group + 1).max();
        let mut bounds = vec![(0, 0); used.unwrap_or(0)];
        for (_, _, group) in grouped(entries) {
            bounds[group].1 += 1;
        }
        let mut count = 0;
        for (start, end) in &mut bounds {
            *start = count;
            count += std::mem::replace(end, count);
        }
        let mut shorts = vec![NOBODY; usize::from(count)];
        for (number, entry, group) in grouped(entries) {
            let end = &mut bounds[group].1;
            shorts[usize::from(*end)] = Short::of(number, &entry.position, entry.price);
            *end += 1;
        }
        Shorts { shorts, bounds }
    }

    /// The shorts that a long may be paired with; by paragraph 2 all of its period, among them bonds beside a bond
    /// and, beside a province's, what other provinces have.
    fn partners(&self, long: &Position) -> &[Short] {
        let bounds = group(long, !long.bond).and_then(|group| self.bounds.get(group));
        let (start, end) = bounds.copied().unwrap_or_default();
        &self.shorts[usize::from(start)..usize::from(end)]
    }
}

/// The shorts that can be paired, with their numbers and groups.
fn grouped(entries: &[Entry]) -> impl Iterator<Item = (usize, &Entry, usize)> {
    let shorts = entries.iter().enumerate().filter(|(_, entry)| entry.short);
    shorts.filter_map(|(number, entry)| {
        let position = &entry.position;
        group(position, position.bond).map(|group| (number, entry, group))
    })
}

#[cfg(test)]
mod tests {
    use margin_host::Head;

    use super::{Short, group, needed};
    use crate::{Account, Position, Row, VALUED, client, participant, saving_rate};

    /// Issuers, each with a rating.
    const ISSUERS: [(u64, u64); 10] = [
        (0, 2),
        (1, 2),
        (5, 2),
        (10, 2),
        (11, 2),
        (12, 2),
        (100, 0),
        (100, 1),
        (101, 0),
        (355, 0),
    ];

    fn positions(head: Head) -> Vec<Position> {
        let account = Account::of(head).expect("an account");
        let mut positions = Vec::new();
        for maturity in [
            2025_01_02, 2025_01_03, 2025_12_31, 2026_01_01, 2026_01_02, 2028_01_01, 2032_01_01,
            2036_01_01, 2038_09_10, 2045_01_01,
        ] {
            for kind in 0..3 {
                for (issuer, rating) in ISSUERS {
                    for currency in 0..3 {
                        let (side, value) = (0, 1);
                        let holding = Row {
                            side,
                            kind,
                            issuer,
                            maturity,
                            value,
                            currency,
                            rating,
                        };
                        positions.push(Position::of(&account, &holding));
                    }
                }
            }
        }
        positions
    }

    #[test]
    fn needed_of_a_group_is_the_saving_rate() {
        for positions in [participant, client].map(|head| positions(head(VALUED))) {
            for long in &positions {
                let partners = group(long, !long.bond);
                for short in &positions {
                    let together = partners.is_some() && partners == group(short, short.bond);
                    let needed = if together {
                        needed(long, &Short::of(0, short, 0))
                    } else {
                        0
                    };
                    assert_eq!(needed, saving_rate(long, short).unwrap_or(0));
                }
            }
        }
    }
}
