//! Faults to plant in a proposal that is accepted, and the paper's order between them.

use margin_calculator::{NOT_RATED, Row, Sheet, VALUED, participant};
use margin_host::Line;

use super::Run;
use super::lent::Lent;

/// The longs with lines of the sound sheet are 0 to 5, the shorts 6 to 11.
pub const PAIRS: u64 = 6;
/// A long bond in a period of its own, which may be paired with nobody.
pub const LONE_LONG: u64 = 12;
/// All holdings of the sound sheet: after the lone long comes a lone short.
pub const HOLDINGS: u64 = 14;
/// Stands for 24 of the valuation date among the numbers of faults.
pub const VALUATION: u64 = 1_024;
/// The numbers that the check can give.
pub const NUMBERS: [u64; 22] = [
    1, 2, 3, 4, 5, 6, 7, 8, 9, 10, 11, 12, 13, 14, 15, 16, 17, 23, 24, 25, 26, VALUATION,
];
/// The numbers of a holding's faults, in their order.
const OF_A_HOLDING: [u64; 9] = [4, 5, 6, 24, 7, 8, 23, 25, 10];
/// The saving rate of a pair of the sound sheet is twice this, and this the price on each leg.
const RATE: u64 = 8_760;

/// A fault, where it is planted.
#[derive(Clone, Copy, Debug, PartialEq, Eq)]
pub struct Fault {
    pub number: u64,
    pub place: u64,
    pub second: u64,
}

impl Fault {
    /// A fault at this holding or line; the second place is for 16 only.
    pub fn at(number: u64, place: u64, second: u64) -> Fault {
        let (place, second) = match number {
            4..=8 | 10..=15 | 23..=25 => (place, 0),
            16 => (place, second),
            _ => (0, 0),
        };
        Fault {
            number,
            place,
            second,
        }
    }

    /// How many places there are for a fault of this number.
    pub fn places(number: u64) -> u64 {
        match number {
            4..=8 | 10 | 23..=25 => HOLDINGS,
            11..=16 => PAIRS,
            _ => 1,
        }
    }

    /// The papers' order: 1, 3, 9, 2; 24 of the valuation date; 26; each holding in turn; each line in turn; 16;
    /// 17.
    pub fn turn(&self) -> (u64, u64, u64) {
        let group = match self.number {
            1 => 0,
            3 => 1,
            9 => 2,
            2 => 3,
            VALUATION => 4,
            26 => 5,
            4..=8 | 10 | 23..=25 => 6,
            11..=15 => 7,
            16 => 8,
            _ => 9,
        };
        let of_a_holding = OF_A_HOLDING
            .iter()
            .position(|number| *number == self.number);
        let number = of_a_holding.map_or(self.number, |place| place as u64);
        (group, self.place, number)
    }

    /// What the check must say to it.
    pub fn answer(&self) -> (u64, u64, u64) {
        let number = if self.number == VALUATION {
            24
        } else {
            self.number
        };
        (number, self.place, self.second)
    }
}

/// Six longs and six shorts, ON coupons of one maturity, paired one with one; and two lone bonds.
pub fn sound() -> Sheet {
    let coupon = |side| Row {
        side,
        kind: 1,
        issuer: 7,
        maturity: 2030_06_24,
        value: 1_000,
        currency: 0,
        rating: NOT_RATED,
    };
    let bond = |side| Row {
        side,
        kind: 0,
        issuer: 7,
        maturity: 2033_03_20,
        value: 500,
        currency: 0,
        rating: NOT_RATED,
    };
    let mut sheet = Sheet::empty(participant(VALUED));
    for side in [0, 1] {
        for _ in 0..PAIRS {
            sheet.add_holding(coupon(side), RATE);
        }
    }
    sheet.add_holding(bond(0), 0);
    sheet.add_holding(bond(1), 0);
    for long in 0..PAIRS {
        sheet.add_line(Line {
            long,
            short: PAIRS + long,
            amount: 1_000,
        });
    }
    sheet
}

/// Plants faults in the sound sheet, which must not need the same entry; but a maturity that is no date also
/// comes before the valuation date.
pub fn plant(faults: &[Fault]) -> Lent {
    let mut sheet = sound();
    let mut planted = faults.to_vec();
    // From the latest to the earliest: 16 sets many prices, of which 10 then sets one.
    planted.sort_by_key(|fault| std::cmp::Reverse(fault.turn()));
    for fault in &planted {
        plant_in_sheet(&mut sheet, fault, faults);
    }
    let mut lent = Lent::of(&sheet);
    for fault in &planted {
        match fault.number {
            1 => lent.columns[3].extend([0; 8]),
            2 => lent.lists(lent.remainder.len(), lent.ranking.len() - 1),
            _ => {}
        }
    }
    lent
}

fn plant_in_sheet(sheet: &mut Sheet, fault: &Fault, all: &[Fault]) {
    let at = fault.place as usize;
    match fault.number {
        3 => lengthen_book(sheet),
        4 => sheet.side[at] = 2,
        5 => sheet.kind[at] = 3,
        6 => sheet.issuer[at] = 13,
        7 => {
            sheet.maturity[at] = if at.is_multiple_of(2) {
                VALUED
            } else {
                2125_01_02
            }
        }
        8 => {
            sheet.value[at] = if at.is_multiple_of(2) {
                100_000_000_001
            } else {
                0
            }
        }
        9 => lengthen_lines(sheet),
        10 => sheet.price[at] = 43_801,
        23 => sheet.currency[at] = if at.is_multiple_of(2) { 3 } else { u64::MAX },
        24 => {
            sheet.maturity[at] = if at.is_multiple_of(2) {
                2024_02_30
            } else {
                1899_12_31
            }
        }
        25 => sheet.rating[at] = [0, 1, 3, u64::MAX][at % 4],
        26 => sheet.head.letter = 2,
        VALUATION => sheet.head.date = 2025_02_29,
        // The leg that a wrong side on the same line leaves free.
        11 if all.contains(&Fault::at(12, fault.place, 0)) => sheet.long[at] = 1_000,
        11 => sheet.short[at] = 1_000,
        12 => sheet.short[at] = 0,
        13 => sheet.long[at] = LONE_LONG,
        14 => sheet.amount[at] = 0,
        15 => sheet.amount[at] = 1_001,
        16 => uncover(sheet, at, fault.second as usize),
        17 => sheet.price[LONE_LONG as usize] = 1,
        _ => {}
    }
}

/// Demands that a fault of the head is named with each other one, but for those of these numbers.
pub fn comes_after(run: &mut Run, own: u64, earlier: &[u64]) {
    let own = Fault::at(own, 0, 0);
    for number in NUMBERS {
        for place in 0..Fault::places(number) {
            let fault = Fault::at(number, place, PAIRS);
            let first = if earlier.contains(&number) {
                fault
            } else {
                own
            };
            let what = format_args!("{fault:?}");
            run.refused(&plant(&[fault, own]), first.answer(), what);
        }
    }
}

/// Leaves one pair alone uncovered: its long is priced one lower, all other shorts one higher.
fn uncover(sheet: &mut Sheet, long: usize, short: usize) {
    sheet.price[long] -= 1;
    for other in PAIRS..2 * PAIRS {
        if other as usize != short {
            sheet.price[other as usize] += 1;
        }
    }
}

fn lengthen_book(sheet: &mut Sheet) {
    let bond = Row {
        side: 0,
        kind: 0,
        issuer: 7,
        maturity: 2033_03_20,
        value: 500,
        currency: 0,
        rating: NOT_RATED,
    };
    while sheet.side.len() < 257 {
        sheet.add_holding(bond, 0);
    }
}

fn lengthen_lines(sheet: &mut Sheet) {
    while sheet.long.len() < 513 {
        sheet.add_line(Line {
            long: 0,
            short: PAIRS,
            amount: 1,
        });
    }
}
