//! Document 02 g): provincial bonds pair within their province, strips across provinces, and the least margin is over
//! these fewer pairs.

mod support;

use margin_calculator::Sheet;
use margin_calculator::samples::{DOMESTIC, PERIODS, PROVINCES, Shape, best_sheet, book};
use margin_host::Head;
use support::Run;
use support::lent::Lent;
use support::sheets::{
    BOND, CA, CAD, COUPON, HEADS, LONG, Leg, ON, QC, RESIDUAL, SHORT, US, USD, holding, one_cent,
    one_pair, pair_under, paper_pair, paper_rate, sheet_under, unpaired_legs, unrated,
};

/// A maturity of each period, and one of 20 years or more.
const MATURITIES: [u64; 6] = [
    2025_07_20, 2027_06_20, 2030_06_24, 2033_03_20, 2038_09_10, 2046_11_27,
];

/// The numbers of the first and the last province.
const AB: u64 = 1;
const SK: u64 = 10;

/// Whether a number is a province's.
fn is_provincial(issuer: u64) -> bool {
    (AB..=SK).contains(&issuer)
}

/// Bonds, coupons and residuals of Canada and every province, at this maturity.
fn every_leg(maturity: u64) -> Vec<Leg> {
    let mut legs = Vec::new();
    for kind in [BOND, COUPON, RESIDUAL] {
        legs.extend((CA..=SK).map(|issuer| (kind, issuer, maturity, CAD)));
    }
    legs
}

/// Two legs, what they save as a pair, and the pair's rate; nothing where it is not allowed. Typed from the papers.
type Pair = (Leg, Leg, Option<(u64, u64)>);

#[rustfmt::skip]
const PAIRS: [Pair; 17] = [
    ((BOND, ON, 2030_06_24, CAD), (COUPON, ON, 2030_06_24, CAD), Some((11_680, 2_920))),
    ((BOND, QC, 2030_06_24, CAD), (RESIDUAL, QC, 2028_01_02, CAD), Some((11_680, 2_920))),
    ((BOND, AB, 2026_01_01, CAD), (COUPON, AB, 2025_01_02, CAD), Some((24, 2_908))),
    ((BOND, SK, 2038_09_10, CAD), (RESIDUAL, SK, 2046_11_27, CAD), Some((14_600, 14_600))),
    ((BOND, ON, 2030_06_24, CAD), (COUPON, QC, 2030_06_24, CAD), None),
    ((BOND, QC, 2030_06_24, CAD), (RESIDUAL, ON, 2028_01_02, CAD), None),
    ((BOND, AB, 2026_01_01, CAD), (COUPON, 2, 2025_01_02, CAD), None),
    ((BOND, SK, 2038_09_10, CAD), (RESIDUAL, AB, 2046_11_27, CAD), None),
    ((BOND, 2, 2033_03_20, CAD), (COUPON, SK, 2033_03_20, CAD), None),
    ((COUPON, ON, 2030_06_24, CAD), (RESIDUAL, QC, 2030_06_24, CAD), Some((17_520, 0))),
    ((COUPON, AB, 2038_09_10, CAD), (COUPON, SK, 2046_11_27, CAD), Some((21_900, 10_950))),
    ((BOND, ON, 2030_06_24, CAD), (COUPON, CA, 2030_06_24, CAD), Some((5_110, 5_110))),
    ((BOND, CA, 2030_06_24, CAD), (RESIDUAL, ON, 2030_06_24, CAD), Some((5_840, 5_840))),
    ((BOND, CA, 2030_06_24, CAD), (COUPON, CA, 2030_06_24, CAD), Some((5_840, 1_460))),
    ((BOND, ON, 2030_06_24, CAD), (BOND, ON, 2030_06_24, CAD), None),
    ((BOND, ON, 2030_06_24, CAD), (BOND, QC, 2030_06_24, CAD), None),
    ((BOND, ON, 2032_01_01, CAD), (COUPON, ON, 2032_01_02, CAD), None),
];

#[test]
fn pairs_within_and_across_provinces() {
    let mut run = Run::fixed("pairs within and across provinces");
    for (one, other, wanted) in PAIRS {
        for (long, short) in [(one, other), (other, one)] {
            let [long_rate, short_rate] = [long, short].map(rate_of);
            for head in HEADS {
                let paired = wanted.map(|(saving, rate)| (rate, saving));
                pair_under(&mut run, head, unrated(long), unrated(short), paired);
                let what = format_args!("{long:?} without {short:?}, {head:?}");
                let alone = |price| unpaired_legs(head, unrated(long), price, unrated(short));
                match wanted {
                    Some((saving, _)) => run.refused(&alone(saving - 1), (16, 0, 1), what),
                    // No cover is asked, and without a line each stands alone.
                    None => run.accepted(&alone(0), long_rate + short_rate, what),
                }
            }
        }
    }
}

fn rate_of((kind, issuer, maturity, _): Leg) -> u64 {
    paper_rate(kind, issuer, maturity)
}

#[test]
fn every_two_legs_of_every_period() {
    let mut run = Run::fixed("every two legs of every period");
    for maturity in MATURITIES {
        let legs = every_leg(maturity);
        for &long in &legs {
            for &short in &legs {
                one_pair(&mut run, long, short);
            }
        }
    }
}

#[test]
fn how_many_pairs_there_are() {
    // Of two holdings at price 0 just an allowed pair is uncovered.
    let mut run = Run::fixed("how many pairs there are");
    let legs = every_leg(2030_06_24);
    for head in HEADS {
        let mut allowed = 0;
        for &long in &legs {
            for &short in &legs {
                let alone = unpaired_legs(head, unrated(long), 0, unrated(short));
                let left = run.compare(&alone, format_args!("{long:?}, {short:?}, {head:?}"));
                allowed += usize::from(left.number == 16);
            }
        }
        // Every two kinds but two bonds of Canada with itself and, either way round, with each province; a bond and a
        // strip of each province, either way round; and strips of any two provinces.
        let of_canada = (1 + 2 * 10) * (3 * 3 - 1);
        let within = 10 * (2 + 2);
        let strips = 10 * 10 * (2 * 2);
        assert_eq!(allowed, of_canada + within + strips, "{head:?}");
    }
}

#[test]
fn a_partner_among_those_that_are_none() {
    // A long and shorts at price 0 that it may not be paired with are accepted, and one partner among these is found.
    let mut run = Run::fixed("a partner among those that are none");
    let legs = every_leg(2038_09_10);
    for &long in &legs {
        let allowed = |short: &Leg| paper_pair(long, *short).is_some();
        let (partners, others): (Vec<Leg>, Vec<Leg>) = legs.iter().partition(|leg| allowed(leg));
        // A long of Canada that is a strip may be paired with all.
        let others = if others.is_empty() {
            vec![(COUPON, US, 2038_09_10, USD)]
        } else {
            others
        };
        for size in [3, 8, 9, 33, 64, 65, 66, 150] {
            let mut shorts: Vec<Leg> = others.iter().copied().cycle().take(size - 1).collect();
            for head in HEADS {
                let alone: u64 = shorts.iter().copied().map(rate_of).sum();
                let what = format_args!("{long:?} with none of {size}, {head:?}");
                let sheet = Lent::of(&among(head, long, 0, &shorts));
                run.accepted(&sheet, rate_of(long) + alone, what);
            }
            for (number, &partner) in partners.iter().enumerate() {
                let (_, saving) = paper_pair(long, partner).expect("a partner");
                let place = [0, shorts.len() / 2, shorts.len() - 1][number % 3];
                let other = std::mem::replace(&mut shorts[place], partner);
                let what = format_args!("{long:?} with {partner:?} at {place} of {size}");
                let head = HEADS[number % 2];
                let short = 1 + place as u64;
                for (price, wanted) in [
                    (0, (16, 0, short)),
                    (saving - 1, (16, 0, short)),
                    (saving, (17, 0, 0)),
                ] {
                    let sheet = among(head, long, price, &shorts);
                    run.refused(&Lent::of(&sheet), wanted, what);
                }
                shorts[place] = other;
            }
        }
    }
}

/// A long with its price and then shorts at price 0, each of one cent.
fn among(head: Head, long: Leg, price: u64, shorts: &[Leg]) -> Sheet {
    let mut holdings = vec![(one_cent(LONG, long), price)];
    holdings.extend(shorts.iter().map(|short| (one_cent(SHORT, *short), 0)));
    sheet_under(head, &holdings, &[])
}

#[test]
fn a_short_bond_among_long_strips() {
    // The same with the bond on the other side and strips of every province: the lowest of its own is named, and without
    // these all are accepted.
    let mut run = Run::fixed("a short bond among long strips");
    for province in AB..=SK {
        let bond = (holding(SHORT, BOND, province, 2030_06_24, 1), 0);
        for count in [10, 20, 60, 70, 140] {
            let strips = (0..count).map(|number| {
                let (kind, issuer) = (COUPON + number % 2, AB + number % 10);
                (holding(LONG, kind, issuer, 2030_06_24, 1), 0)
            });
            let (own, others): (Vec<_>, Vec<_>) =
                strips.partition(|(row, _)| row.issuer == province);
            let (before, after) = others.split_at(others.len() / 2);
            let alone = [before, &[bond], after].concat();
            let among = [before, &[bond], after, &own].concat();
            let (first, short) = (alone.len() as u64, before.len() as u64);
            for head in HEADS {
                let what = format_args!("{province}, {count} strips, {head:?}");
                let units = 5_840 + 8_760 * others.len() as u64;
                run.accepted(&Lent::of(&sheet_under(head, &alone, &[])), units, what);
                let wanted = (16, first, short);
                run.refused(&Lent::of(&sheet_under(head, &among, &[])), wanted, what);
            }
        }
    }
}

/// Hands on random books of several provinces in either account. Of every fourth the bonds are on one side and the
/// strips on the other.
fn each_book(run: &mut Run, mut each: impl FnMut(&mut Run, &Sheet)) {
    let two = Shape {
        name: "two provinces, first period",
        issuers: &[ON, QC],
        terms: &[PERIODS[0]],
        ..PROVINCES
    };
    let equal = Shape {
        name: "two provinces, equal values",
        terms: &[PERIODS[3]],
        values: &[(1_000, 1_000)],
        ..two
    };
    let third = Shape {
        name: "provinces, third period",
        terms: &[PERIODS[2]],
        ..PROVINCES
    };
    for shape in [PROVINCES, third, two, equal, DOMESTIC] {
        for size in [2, 3, 5, 8, 9, 13, 21, 34, 64, 65, 120] {
            for round in 0..16 {
                let mut book = book(&mut run.random, &shape, size);
                book.head.letter = round % 2;
                if round % 4 == 3 {
                    let of_bonds = run.random.below(2);
                    for number in 0..size {
                        let bond = u64::from(book.kind[number] == BOND);
                        book.side[number] = bond ^ of_bonds;
                    }
                }
                each(run, &book);
            }
        }
    }
}

/// The same holdings with other numbers for the provinces.
fn renamed(sheet: &Sheet, name: impl Fn(u64) -> u64) -> Sheet {
    let mut sheet = sheet.clone();
    for issuer in &mut sheet.issuer {
        if is_provincial(*issuer) {
            *issuer = name(*issuer);
        }
    }
    sheet
}

/// A proposal on the holdings of a book with the issuers of another.
fn with_issuers_of(book: &Sheet, proposal: &Sheet) -> Sheet {
    let mut sheet = proposal.clone();
    sheet.issuer.clone_from(&book.issuer);
    sheet
}

/// The long and the short of each line.
fn lines(sheet: &Sheet) -> impl Iterator<Item = (u64, u64)> {
    let longs = sheet.long.iter().copied();
    longs.zip(sheet.short.iter().copied())
}

/// Whether two holdings of a sheet are of two provinces.
fn two_provinces(sheet: &Sheet, (one, other): (u64, u64)) -> bool {
    let [one, other] = [one, other].map(|number| sheet.issuer[number as usize]);
    is_provincial(one) && is_provincial(other) && one != other
}

/// Whether they are a bond and a strip of two provinces.
fn apart(sheet: &Sheet, (one, other): (u64, u64)) -> bool {
    let bonds = [one, other].map(|number| sheet.kind[number as usize] == BOND);
    two_provinces(sheet, (one, other)) && bonds[0] != bonds[1]
}

#[test]
fn as_many_provinces_and_as_one() {
    // What is best as one province is refused as many at its first line of a bond and a strip of two, and is otherwise
    // the best of many. What is best as many is the best as one too, or it leaves such a pair uncovered.
    let mut run = Run::new("as many provinces and as one", 0x1301);
    let mut seen = [[0; 2]; 2];
    each_book(&mut run, |run, book| {
        let many = best_sheet(book);
        let one = best_sheet(&renamed(book, |_| SK));
        let [most, least] = [&many, &one].map(|best| run.units(best, format_args!("its own")));
        assert!(least <= most, "{book:?}");
        let as_many = with_issuers_of(book, &one);
        let what = format_args!("the best as one, as many");
        match lines(&as_many).position(|line| apart(&as_many, line)) {
            Some(line) => {
                run.refused(&Lent::of(&as_many), (13, line as u64, 0), what);
                seen[0][1] += 1;
            }
            None => {
                run.accepted(&Lent::of(&as_many), least, what);
                assert_eq!(least, most, "{book:?}");
                seen[0][0] += 1;
            }
        }
        let as_one = with_issuers_of(&one, &many);
        let what = format_args!("the best as many, as one");
        let left = run.compare(&Lent::of(&as_one), what);
        if left.number == 0 {
            assert_eq!((left.figures().0, most), (least, least), "{what}\n{many:?}");
        } else {
            assert_eq!(left.number, 16, "{what}\n{many:?}");
            assert!(apart(&many, left.figures()), "{what}\n{many:?}");
        }
        seen[1][usize::from(least < most)] += 1;
    });
    assert!(
        seen.as_flattened().iter().all(|count| *count >= 200),
        "{seen:?}"
    );
}

#[test]
fn the_names_of_provinces_do_not_matter() {
    // Only which holdings are of one province counts: with other numbers all that is left behind is the same.
    let mut run = Run::new("the names of provinces", 0x1302);
    each_book(&mut run, |run, book| {
        let best = best_sheet(book);
        let left = run.compare(&Lent::of(&best), format_args!("as drawn"));
        assert_eq!(left.number, 0, "{book:?}");
        let shift = 1 + run.random.below(9);
        let turned = renamed(&best, |issuer| (issuer + shift - 1) % 10 + 1);
        let mirrored = renamed(&best, |issuer| 11 - issuer);
        for sheet in [turned, mirrored] {
            let again = run.compare(&Lent::of(&sheet), format_args!("renamed"));
            assert_eq!(left, again, "{book:?}");
        }
    });
}

#[test]
fn strips_do_not_ask_for_the_province() {
    // Without a provincial bond the province counts for nothing: the best as one province is the best as many, and one
    // unit less on a price leaves a pair uncovered.
    let mut run = Run::new("strips of any province", 0x1303);
    let (mut across, mut uncovered) = (0, 0);
    for issuers in [PROVINCES.issuers, DOMESTIC.issuers] {
        let shape = Shape {
            kinds: &[COUPON, RESIDUAL],
            issuers,
            ..PROVINCES
        };
        for size in [2, 5, 8, 9, 30, 64, 65, 100] {
            for _ in 0..24 {
                let mut book = book(&mut run.random, &shape, size);
                for number in 0..size {
                    // Canada's may be bonds.
                    if book.issuer[number] == CA && run.random.below(3) == 0 {
                        book.kind[number] = BOND;
                    }
                }
                let one = best_sheet(&renamed(&book, |_| ON));
                let units = run.units(&one, format_args!("as one"));
                let many = with_issuers_of(&book, &one);
                run.accepted(&Lent::of(&many), units, format_args!("as many"));
                for holding in 0..size {
                    if many.price[holding] > 0 {
                        let mut cheap = many.clone();
                        cheap.price[holding] -= 1;
                        let what = format_args!("price of {holding} down");
                        let left = run.compare(&Lent::of(&cheap), what);
                        assert_eq!(left.number, 16, "{what}\n{cheap:?}");
                        uncovered += usize::from(two_provinces(&many, left.figures()));
                    }
                }
                across += lines(&many)
                    .filter(|line| two_provinces(&many, *line))
                    .count();
            }
        }
    }
    assert!(across >= 1_000, "{across} lines across provinces");
    assert!(uncovered >= 1_000, "{uncovered} pairs across provinces");
}
