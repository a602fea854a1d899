//! Books made from a seed, for the tests, the cases and the benchmark.

use margin_host::{Head, Line};

use crate::{
    CLIENT, FIRST_CORPORATION, NOT_RATED, PARTICIPANT, Row, Sheet, VALUED, calendar, optimise,
};

/// `SplitMix64`: the same numbers from the same seed everywhere.
#[derive(Clone, Debug)]
pub struct Random(u64);

impl Random {
    /// Starts at a seed.
    #[must_use]
    pub fn new(seed: u64) -> Random {
        Random(seed)
    }

    /// The next 64 bits.
    pub fn bits(&mut self) -> u64 {
        self.0 = self.0.wrapping_add(0x9E37_79B9_7F4A_7C15);
        let mut mixed = self.0;
        mixed = (mixed ^ (mixed >> 30)).wrapping_mul(0xBF58_476D_1CE4_E5B9);
        mixed = (mixed ^ (mixed >> 27)).wrapping_mul(0x94D0_49BB_1331_11EB);
        mixed ^ (mixed >> 31)
    }

    /// A number below `limit`.
    ///
    /// # Panics
    ///
    /// If `limit` is 0.
    pub fn below(&mut self, limit: u64) -> u64 {
        self.bits() % limit
    }

    /// A place in a list of this length.
    ///
    /// # Panics
    ///
    /// If the length is 0.
    pub fn place(&mut self, length: usize) -> usize {
        self.below(length as u64) as usize
    }

    /// One of a list.
    ///
    /// # Panics
    ///
    /// If the list is empty.
    pub fn pick<T: Copy>(&mut self, list: &[T]) -> T {
        list[self.place(list.len())]
    }

    /// A number of one of several ranges, both ends included.
    ///
    /// # Panics
    ///
    /// If there is no range, or one whose ends are exchanged.
    pub fn within(&mut self, ranges: &[(u64, u64)]) -> u64 {
        let (low, high) = self.pick(ranges);
        low + self.below(high - low + 1)
    }
}

/// A day counted from a valuation date: an anniversary of it by its years, and days after that or before.
pub type Day = (u64, i64);

/// A range of such days, both ends included.
pub type Term = (Day, Day);

/// The first period, and the others in order; the fifth in two parts, of which the second has 20 years or more.
pub const PERIODS: [Term; 6] = [
    ((0, 1), (1, 0)),
    ((1, 1), (3, 0)),
    ((3, 1), (7, 0)),
    ((7, 1), (11, 0)),
    ((11, 1), (20, -1)),
    ((20, 0), (100, 0)),
];

/// What the account and the holdings of a book are drawn from.
#[derive(Clone, Copy, Debug)]
pub struct Shape {
    /// A name for messages.
    pub name: &'static str,
    /// The letters of accounts.
    pub letters: &'static [u64],
    /// The sides.
    pub sides: &'static [u64],
    /// The kinds.
    pub kinds: &'static [u64],
    /// The issuers.
    pub issuers: &'static [u64],
    /// Ranges of maturities.
    pub terms: &'static [Term],
    /// Ranges of values.
    pub values: &'static [(u64, u64)],
    /// The currencies.
    pub currencies: &'static [u64],
    /// The ratings of corporations; governments have none.
    pub ratings: &'static [u64],
    /// How many holdings are drawn before the rest repeats them.
    pub different: usize,
}

/// A shape with everything in it, what is paired by any paragraph and what is not; the others narrow it.
pub const ANY: Shape = Shape {
    name: "any issuer and currency",
    letters: &[PARTICIPANT, PARTICIPANT, PARTICIPANT, CLIENT],
    sides: &[0, 1],
    kinds: &[0, 1, 2],
    issuers: &[0, 0, 1, 7, 10, 11, 12, 100, 100, 100, 101, 102, 103],
    terms: &PERIODS,
    values: &[(1, 10), (1, 10_000), (1, 100_000_000_000)],
    currencies: &[0, 0, 0, 0, 1, 1, 2],
    ratings: &[0, 0, 1],
    different: usize::MAX,
};

/// What a client may pair, and what a participant alone may.
pub const CLIENTS: Shape = Shape {
    name: "a client's of any issuer and currency",
    letters: &[CLIENT],
    ..ANY
};

/// What paragraphs 2 and 4 pair, and what of governments is not paired.
pub const GOVERNMENTS: Shape = Shape {
    name: "any currency",
    issuers: &[0, 0, 0, 0, 1, 4, 7, 10, 11, 11, 12, 12],
    currencies: &[0, 0, 1, 1, 2],
    ..ANY
};

/// What paragraph 3 pairs, and bonds of lower ratings: a few corporations in CAD.
pub const CORPORATE: Shape = Shape {
    name: "corporations",
    issuers: &[100, 101, 102, 103],
    currencies: &[0],
    ..ANY
};

/// The numbers of all corporations that a book may have.
pub const CORPORATIONS: [u64; 256] = corporations();

const fn corporations() -> [u64; 256] {
    let mut numbers = [FIRST_CORPORATION; 256];
    let mut place = 0;
    while place < numbers.len() {
        numbers[place] += place as u64;
        place += 1;
    }
    numbers
}

/// What paragraph 2 pairs: Canada and the provinces in CAD.
pub const DOMESTIC: Shape = Shape {
    name: "any",
    issuers: &[0, 0, 0, 1, 2, 3, 4, 5, 6, 7, 8, 9, 10],
    currencies: &[0],
    ..ANY
};

/// What paragraph 2 pairs within one province and across provinces: bonds and strips of them all, in CAD.
pub const PROVINCES: Shape = Shape {
    name: "provinces",
    issuers: &[1, 2, 3, 4, 5, 6, 7, 8, 9, 10],
    ..DOMESTIC
};

/// What paragraph 4 pairs: Canada, US and GB in USD and GBP.
pub const FOREIGN: Shape = Shape {
    name: "foreign",
    issuers: &[0, 11, 12],
    currencies: &[1, 2],
    ..ANY
};

const HIGHEST_VALUE: u64 = 100_000_000_000;
const FIFTH: Term = (PERIODS[4].0, PERIODS[5].1);
const ABOUT_20_YEARS: Term = ((20, -2), (20, 1));
const ENDS: &[Term] = &[
    ((0, 1), (0, 1)),
    ((1, 0), (1, 1)),
    ((3, 0), (3, 1)),
    ((7, 0), (7, 1)),
    ((11, 0), (11, 1)),
    ((20, -1), (20, 0)),
    ((100, 0), (100, 0)),
];

/// Books of many kinds.
pub const SHAPES: [Shape; 50] = [
    DOMESTIC,
    Shape {
        name: "ends of periods",
        terms: ENDS,
        ..DOMESTIC
    },
    Shape {
        name: "first period",
        terms: &[PERIODS[0]],
        ..DOMESTIC
    },
    Shape {
        name: "second period",
        terms: &[PERIODS[1]],
        ..DOMESTIC
    },
    Shape {
        name: "third period",
        terms: &[PERIODS[2]],
        ..DOMESTIC
    },
    Shape {
        name: "fourth period",
        terms: &[PERIODS[3]],
        ..DOMESTIC
    },
    Shape {
        name: "fifth period",
        terms: &[FIFTH],
        ..DOMESTIC
    },
    Shape {
        name: "about 20 years",
        terms: &[ABOUT_20_YEARS],
        ..DOMESTIC
    },
    Shape {
        name: "Canada",
        issuers: &[0],
        ..DOMESTIC
    },
    PROVINCES,
    Shape {
        name: "provinces, third period",
        terms: &[PERIODS[2]],
        ..PROVINCES
    },
    Shape {
        name: "provinces about 20 years",
        terms: &[ABOUT_20_YEARS],
        ..PROVINCES
    },
    Shape {
        name: "two provinces, fourth period",
        issuers: &[7, 9],
        terms: &[PERIODS[3]],
        ..PROVINCES
    },
    Shape {
        name: "two provinces and Canada, first period",
        issuers: &[0, 7, 9],
        terms: &[PERIODS[0]],
        ..PROVINCES
    },
    Shape {
        name: "strips",
        kinds: &[1, 2],
        terms: &[PERIODS[0], FIFTH],
        ..DOMESTIC
    },
    Shape {
        name: "bonds",
        kinds: &[0],
        ..DOMESTIC
    },
    Shape {
        name: "one cent",
        values: &[(1, 1)],
        terms: &[((0, 1), (1, 35))],
        ..DOMESTIC
    },
    Shape {
        name: "highest value",
        values: &[(HIGHEST_VALUE, HIGHEST_VALUE)],
        terms: ENDS,
        ..DOMESTIC
    },
    Shape {
        name: "three different",
        different: 3,
        terms: &[FIFTH],
        ..DOMESTIC
    },
    Shape {
        name: "all long",
        sides: &[0],
        ..DOMESTIC
    },
    Shape {
        name: "all short",
        sides: &[1],
        ..DOMESTIC
    },
    Shape {
        name: "few shorts",
        sides: &[0, 0, 0, 0, 1],
        terms: &[PERIODS[0]],
        ..DOMESTIC
    },
    GOVERNMENTS,
    Shape {
        name: "any currency, third period",
        terms: &[PERIODS[2]],
        ..GOVERNMENTS
    },
    Shape {
        name: "any currency, about 20 years",
        terms: &[ABOUT_20_YEARS],
        ..GOVERNMENTS
    },
    Shape {
        name: "any currency, highest value",
        values: &[(HIGHEST_VALUE, HIGHEST_VALUE)],
        terms: ENDS,
        ..GOVERNMENTS
    },
    FOREIGN,
    Shape {
        name: "US in USD",
        issuers: &[11],
        currencies: &[1],
        terms: &[PERIODS[0], FIFTH],
        ..ANY
    },
    Shape {
        name: "fifth period in GBP",
        issuers: &[0, 12],
        currencies: &[2],
        terms: &[FIFTH],
        ..ANY
    },
    Shape {
        name: "Canada and US in CAD and USD",
        issuers: &[0, 0, 11],
        currencies: &[0, 1],
        terms: &[FIFTH],
        ..ANY
    },
    Shape {
        name: "Canada in any currency",
        issuers: &[0],
        currencies: &[0, 1, 2],
        terms: &[PERIODS[0]],
        ..ANY
    },
    Shape {
        name: "provinces in any currency",
        issuers: &[1, 7, 10],
        currencies: &[0, 1, 2],
        terms: &[PERIODS[1]],
        ..ANY
    },
    Shape {
        name: "US and GB in any currency",
        issuers: &[11, 12],
        currencies: &[0, 1, 2],
        terms: &[PERIODS[3]],
        ..ANY
    },
    ANY,
    Shape {
        name: "any issuer and currency, fifth period",
        terms: &[FIFTH],
        ..ANY
    },
    Shape {
        name: "any issuer and currency, highest value",
        values: &[(HIGHEST_VALUE, HIGHEST_VALUE)],
        terms: ENDS,
        ..ANY
    },
    CORPORATE,
    Shape {
        name: "corporations at the ends of periods",
        terms: ENDS,
        ..CORPORATE
    },
    Shape {
        name: "corporations about 20 years",
        terms: &[ABOUT_20_YEARS],
        ..CORPORATE
    },
    Shape {
        name: "one corporation",
        issuers: &[355],
        terms: &[FIFTH],
        ..CORPORATE
    },
    Shape {
        name: "one corporation, first period",
        issuers: &[100],
        terms: &[PERIODS[0]],
        ratings: &[0],
        ..CORPORATE
    },
    Shape {
        name: "a corporation and governments in CAD",
        issuers: &[0, 7, 9, 100, 100, 100],
        terms: &[PERIODS[2], PERIODS[3]],
        ..CORPORATE
    },
    Shape {
        name: "corporations in any currency",
        issuers: &[100, 101],
        currencies: &[0, 0, 1, 2],
        terms: &[PERIODS[1]],
        ..ANY
    },
    Shape {
        name: "many corporations",
        issuers: &CORPORATIONS,
        terms: &[FIFTH],
        ..CORPORATE
    },
    CLIENTS,
    Shape {
        name: "a client's, fifth period",
        terms: &[FIFTH],
        ..CLIENTS
    },
    Shape {
        name: "a client's, highest value",
        values: &[(HIGHEST_VALUE, HIGHEST_VALUE)],
        terms: ENDS,
        ..CLIENTS
    },
    Shape {
        name: "a client's, three provinces, fifth period",
        issuers: &[1, 6, 10],
        currencies: &[0],
        terms: &[FIFTH],
        ..CLIENTS
    },
    Shape {
        name: "a client's, Canada in any currency",
        issuers: &[0],
        currencies: &[0, 1, 2],
        terms: &[PERIODS[0]],
        ..CLIENTS
    },
    Shape {
        name: "a client's, a corporation and governments in CAD",
        issuers: &[0, 7, 9, 100, 100, 100],
        currencies: &[0],
        terms: &[PERIODS[2], PERIODS[3]],
        ..CLIENTS
    },
];

/// Draws a valuation date: document 01's, a leap day or any other, so early that each has its 100th
/// anniversary among the dates.
pub fn valuation_date(random: &mut Random) -> u64 {
    let dates = calendar::dates();
    let early = &dates[..dates.partition_point(|date| *date < 2200_01_01)];
    match random.below(4) {
        0 => VALUED,
        // Every fourth year from 1904 to 2196; 2100 has none, and 28 February in its place.
        1 => calendar::anniversary(1904_02_29 + 4 * 10_000 * random.below(74), 0),
        _ => random.pick(early),
    }
}

/// Draws a maturity of one of several ranges.
fn maturity(random: &mut Random, date: u64, terms: &[Term]) -> u64 {
    let (first, last) = random.pick(terms);
    let [first, last] = [first, last].map(|(years, days)| {
        let day = calendar::days_after(calendar::anniversary(date, years), days);
        calendar::place(day).expect("an early valuation date")
    });
    random.pick(&calendar::dates()[first..=last])
}

/// Draws a book without lines, each holding at price 0.
pub fn book(random: &mut Random, shape: &Shape, size: usize) -> Sheet {
    let date = valuation_date(random);
    let letter = random.pick(shape.letters);
    Sheet::of_rows(
        Head { date, letter },
        &holdings(random, shape, date, size),
        0,
    )
}

/// Draws the holdings of a book on a valuation date.
pub fn holdings(random: &mut Random, shape: &Shape, date: u64, size: usize) -> Vec<Row> {
    let mut book: Vec<Row> = Vec::with_capacity(size);
    for number in 0..size {
        let holding = if number < shape.different {
            holding(random, shape, date)
        } else {
            random.pick(&book[..shape.different])
        };
        book.push(holding);
    }
    book
}

fn holding(random: &mut Random, shape: &Shape, date: u64) -> Row {
    let issuer = random.pick(shape.issuers);
    Row {
        side: random.pick(shape.sides),
        kind: random.pick(shape.kinds),
        issuer,
        maturity: maturity(random, date, shape.terms),
        value: random.within(shape.values),
        currency: random.pick(shape.currencies),
        rating: if issuer < FIRST_CORPORATION {
            NOT_RATED
        } else {
            random.pick(shape.ratings)
        },
    }
}

/// The book of a sheet with a best proposal on it.
///
/// # Panics
///
/// If the head or a holding is outside its ranges, or there are more than 256.
#[must_use]
pub fn best_sheet(book: &Sheet) -> Sheet {
    let mut sheet = book.clone();
    let best = optimise(&sheet).expect("the book is within its ranges");
    best.put_on(&mut sheet);
    sheet
}

/// Splits the largest lines in two until there are `count`, or until no line is above one cent.
pub fn split_lines(sheet: &mut Sheet, count: usize) {
    while sheet.amount.len() < count {
        let lines = sheet.amount.iter().enumerate();
        let Some((line, &amount)) = lines.max_by_key(|(_, amount)| **amount) else {
            return;
        };
        if amount < 2 {
            return;
        }
        sheet.amount[line] = amount / 2;
        sheet.add_line(Line {
            long: sheet.long[line],
            short: sheet.short[line],
            amount: amount - amount / 2,
        });
    }
}

#[cfg(test)]
mod tests {
    use super::Random;

    #[test]
    fn numbers_are_those_of_splitmix64() {
        let mut random = Random::new(1_234_567);
        assert_eq!(random.bits(), 6_457_827_717_110_365_317);
        assert_eq!(random.bits(), 3_203_168_211_198_807_973);
        assert_eq!(random.bits(), 9_817_491_932_198_370_423);
    }
}
