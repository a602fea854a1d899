//! Document 02 d): issuers 100 to 355, ratings, Group V's rates, and the pairs of paragraph 3 beside the others.

mod support;

use margin_calculator::samples::{
    ANY, CORPORATE, CORPORATIONS, Random, SHAPES, Shape, best_sheet, book,
};
use margin_calculator::texts::{dated, issuer_text, joined, rated_in, records, text_of};
use margin_calculator::{
    CURRENCIES, KINDS, NOT_RATED, PARTICIPANT, RATINGS, Row, Sheet, VALUED, participant, read,
};
use margin_host::{Head, Line};
use support::faults::{HOLDINGS, sound};
use support::file::{File, Files};
use support::lent::{Left, Lent, NAMES, OF_HOLDINGS};
use support::sheets::{
    BOND, CAD, COUPON, GBP, HEADS, LONG, LOWER, RESIDUAL, RatedLeg as Leg, SHORT, SINGLE_A, USD,
    corporate_legs, government_legs, maturities, pair_under, paper_pair, paper_rate, rated_cent,
    sheet, sheet_under,
};
use support::{Run, column};

const FIRST: u64 = 100;
const LAST: u64 = 355;

/// Group V as the request prints it, typed from it: the first day, the last day, and the rates of bond and strip.
const TABLE: [(u64, u64, [u64; 2]); 6] = [
    (2025_01_02, 2026_01_01, [4_380, 6_570]),
    (2026_01_02, 2028_01_01, [8_760, 13_140]),
    (2028_01_02, 2032_01_01, [10_220, 15_330]),
    (2032_01_02, 2036_01_01, [14_600, 21_900]),
    (2036_01_02, 2044_12_31, [14_600, 21_900]),
    (2045_01_01, 2125_01_01, [14_600, 43_800]),
];

/// A day in each row of the table.
const ROWS: [u64; 6] = [
    2025_04_11, 2026_05_16, 2030_06_24, 2033_03_20, 2038_09_10, 2046_11_27,
];

/// The first and the last day of each row.
const ENDS: [u64; 12] = [
    2025_01_02, 2026_01_01, 2026_01_02, 2028_01_01, 2028_01_02, 2032_01_01, 2032_01_02, 2036_01_01,
    2036_01_02, 2044_12_31, 2045_01_01, 2125_01_01,
];

/// The papers' rate of a holding.
fn rate((kind, issuer, maturity, _, _): Leg) -> u64 {
    if issuer < FIRST {
        return paper_rate(kind, issuer, maturity);
    }
    let row = TABLE
        .iter()
        .find(|(first, last, _)| (*first..=*last).contains(&maturity));
    row.expect("a maturity that is held").2[usize::from(kind != BOND)]
}

/// The papers' period of a maturity: 20 years are no end of one.
fn period(maturity: u64) -> usize {
    let row = TABLE.iter().position(|(_, last, _)| maturity <= *last);
    row.expect("a maturity that is held").min(4)
}

/// The papers' rate of a pair and what it saves, where it is allowed.
fn pair(long: Leg, short: Leg) -> Option<(u64, u64)> {
    let governments = [long, short].map(|leg| leg.1 < FIRST);
    if governments == [true; 2] {
        let [long, short] = [long, short].map(|(a, b, c, d, _)| (a, b, c, d));
        return paper_pair(long, short);
    }
    let (bond, strip) = if long.0 == BOND {
        (long, short)
    } else {
        (short, long)
    };
    let allowed = bond.0 == BOND
        && strip.0 != BOND
        && bond.1 == strip.1
        && period(bond.2) == period(strip.2)
        && [bond.3, strip.3] == [CAD; 2]
        && bond.4 == SINGLE_A;
    let [one, other] = [long, short].map(rate);
    let rate = one.max(other).min(29_200);
    allowed.then_some((rate, one + other - rate))
}

/// The same under a head: a client has paragraph 2 alone.
fn pair_in(head: Head, long: Leg, short: Leg) -> Option<(u64, u64)> {
    let domestic = long.1 < FIRST && long.3 == CAD;
    pair(long, short).filter(|_| head.letter == PARTICIPANT || domestic)
}

/// Two legs with a line, in either account: judged as the papers say. Says whether a participant has the pair.
fn one_pair(run: &mut Run, long: Leg, short: Leg) -> bool {
    for head in HEADS {
        pair_under(run, head, long, short, pair_in(head, long, short));
    }
    pair(long, short).is_some()
}

#[test]
fn rates_as_the_request_prints_them() {
    let mut run = Run::fixed("rates of corporations");
    for (first, last, [bond, strip]) in TABLE {
        for maturity in [first, last] {
            for (kind, rate) in [(BOND, bond), (COUPON, strip), (RESIDUAL, strip)] {
                for issuer in [FIRST, FIRST + 1, LAST] {
                    for (currency, rating) in [(CAD, SINGLE_A), (USD, LOWER), (GBP, SINGLE_A)] {
                        let leg = (kind, issuer, maturity, currency, rating);
                        let one = sheet(&[(rated_cent(maturity % 2, leg), 0)], &[]);
                        run.accepted(&Lent::of(&one), rate, format_args!("{leg:?}"));
                    }
                }
            }
        }
    }
}

#[test]
fn every_rate_of_every_maturity() {
    let mut run = Run::fixed("every rate of a corporation");
    for (days, maturity) in (0..).zip(maturities()) {
        for kind in [BOND, COUPON, RESIDUAL] {
            let leg = (kind, FIRST + days % 256, maturity, days % 3, days % 2);
            let one = sheet(&[(rated_cent(days % 2, leg), 0)], &[]);
            run.accepted(&Lent::of(&one), rate(leg), format_args!("{leg:?}"));
        }
    }
}

#[test]
fn pairs_of_paragraph_3() {
    let mut run = Run::fixed("pairs of paragraph 3");
    // The maturities of the bond and of the strip, what the pair saves, and its rate.
    for (bond, strip, saving, rate) in [
        (2025_01_02, 2026_01_01, 4_380, 6_570),
        (2026_05_16, 2027_09_28, 8_760, 13_140),
        (2030_06_24, 2030_06_24, 10_220, 15_330),
        (2033_03_20, 2033_03_20, 14_600, 21_900),
        (2046_11_27, 2038_09_10, 14_600, 21_900),
        (2038_09_10, 2044_12_31, 14_600, 21_900),
        (2038_09_10, 2045_01_01, 29_200, 29_200),
        (2046_11_27, 2046_11_27, 29_200, 29_200),
        (2036_01_02, 2125_01_01, 29_200, 29_200),
    ] {
        for kind in [COUPON, RESIDUAL] {
            for rating in [SINGLE_A, LOWER] {
                for issuer in [FIRST, 228, LAST] {
                    let bond = (BOND, issuer, bond, CAD, SINGLE_A);
                    let strip = (kind, issuer, strip, CAD, rating);
                    for (long, short) in [(bond, strip), (strip, bond)] {
                        pair_under(&mut run, HEADS[0], long, short, Some((rate, saving)));
                        pair_under(&mut run, HEADS[1], long, short, None);
                    }
                }
            }
        }
    }
}

#[test]
fn every_pair_of_corporations_and_governments() {
    let mut run = Run::fixed("corporations and governments");
    let mut allowed = 0;
    for maturities in [[2038_09_10, 2046_11_27], [2025_01_02, 2025_07_20]] {
        let mut legs = Vec::new();
        for maturity in maturities {
            legs.extend(corporate_legs(&[FIRST, 101, LAST], maturity));
            legs.extend(government_legs(maturity));
        }
        for &long in &legs {
            for &short in &legs {
                let corporate = long.1.max(short.1) >= FIRST;
                allowed += usize::from(corporate && one_pair(&mut run, long, short));
            }
        }
    }
    // A bond with each of two strips of two ratings and two maturities, on either side, for three corporations.
    assert_eq!(allowed, 2 * 3 * 2 * 2 * (2 * 2 * 2));
}

#[test]
fn every_pair_of_a_corporation_at_the_ends_of_periods() {
    let mut run = Run::fixed("paragraph 3 at the ends of periods");
    let mut legs = Vec::new();
    for maturity in ENDS {
        for kind in [BOND, COUPON, RESIDUAL] {
            legs.extend([SINGLE_A, LOWER].map(|rating| (kind, 227, maturity, CAD, rating)));
        }
    }
    for &long in &legs {
        for &short in &legs {
            one_pair(&mut run, long, short);
        }
    }
}

#[test]
fn only_the_same_of_all_corporations() {
    // A bond with the strip of every corporation: a number cut to its low bits would be another's.
    let mut run = Run::fixed("every two corporations");
    for one in FIRST..=LAST {
        for other in FIRST..=LAST {
            let (long, short) = (
                (BOND, one, 2030_06_24, CAD, SINGLE_A),
                (COUPON, other, 2030_06_24, CAD, LOWER),
            );
            let found = one_pair(&mut run, long, short);
            assert_eq!(found, one == other, "{one} and {other}");
        }
    }
}

#[test]
fn a_corporation_with_every_government() {
    let mut run = Run::fixed("a corporation with every government");
    for issuer in 0..=12 {
        for currency in [CAD, USD, GBP] {
            for maturity in ROWS {
                let corporate = corporate_legs(&[FIRST + issuer], maturity);
                let of_government =
                    [BOND, COUPON].map(|kind| (kind, issuer, maturity, currency, NOT_RATED));
                for leg in corporate {
                    for government in of_government {
                        assert!(!one_pair(&mut run, leg, government));
                        assert!(!one_pair(&mut run, government, leg));
                    }
                }
            }
        }
    }
}

#[test]
fn the_lowest_uncovered_short_of_corporate_legs() {
    // Every price covers everything but that of one long: the lowest short that it saves with is named.
    let mut run = Run::fixed("the lowest uncovered short");
    for maturity in ROWS {
        let mut legs = corporate_legs(&[FIRST, LAST], maturity);
        legs.splice(9..9, government_legs(maturity));
        for (number, &long) in legs.iter().enumerate() {
            let mut priced: Vec<(Row, u64)> = Vec::new();
            priced.extend(legs.iter().map(|leg| (rated_cent(LONG, *leg), 43_800)));
            priced.extend(legs.iter().map(|leg| (rated_cent(SHORT, *leg), 0)));
            priced[number].1 = 0;
            for head in HEADS {
                let allowed = |short: &Leg| pair_in(head, long, *short).is_some();
                let wanted = match legs.iter().position(allowed) {
                    Some(short) => (16, number as u64, (legs.len() + short) as u64),
                    None => (17, 0, 0),
                };
                let lent = Lent::of(&sheet_under(head, &priced, &[]));
                run.refused(&lent, wanted, format_args!("{long:?}, {head:?}"));
            }
        }
    }
}

#[test]
fn the_least_margin_is_over_all_paragraphs() {
    let mut run = Run::fixed("all paragraphs together");
    for maturity in ROWS {
        let mut legs = corporate_legs(&[FIRST, 101], maturity);
        legs.extend(government_legs(maturity));
        let longs = legs.iter().map(|leg| rated_cent(LONG, *leg));
        let shorts = legs.iter().map(|leg| rated_cent(SHORT, *leg));
        let rows: Vec<Row> = longs.chain(shorts).collect();
        let best = best_sheet(&Sheet::of_rows(participant(VALUED), &rows, 0));
        let units = run.units(&best, format_args!("{maturity}"));
        let corporate = |long: &&u64| best.issuer[**long as usize] >= FIRST;
        let pairs = best.long.iter().filter(corporate).count();
        // Each corporation has a bond of either side that may be paired.
        assert_eq!(pairs, 4, "{maturity}");
        for holding in 0..rows.len() {
            let what = format_args!("{maturity}, {units} units, price of {holding}");
            let mut dear = best.clone();
            dear.price[holding] += 1;
            run.refused(&Lent::of(&dear), (17, 0, 0), what);
            if best.price[holding] > 0 {
                let mut cheap = best.clone();
                cheap.price[holding] -= 1;
                assert_eq!(run.compare(&Lent::of(&cheap), what).number, 16, "{what}");
            }
        }
    }
}

/// One bond of a corporation, with one number changed.
fn changed(name: &str, number: u64) -> Lent {
    let leg = (BOND, FIRST, 2030_06_24, CAD, SINGLE_A);
    let mut sheet = sheet(&[(rated_cent(LONG, leg), 0)], &[]);
    let at = NAMES.iter().position(|known| *known == name);
    column(&mut sheet, at.expect("a column"))[0] = number;
    Lent::of(&sheet)
}

#[test]
fn issuers_that_there_are() {
    let mut run = Run::fixed("issuers of corporations");
    for number in 0..=1_000 {
        let what = format_args!("issuer {number}");
        match number {
            100..=355 => run.accepted(&changed("issuer", number), 10_220, what),
            0..=12 => run.refused(&changed("issuer", number), (25, 0, 0), what),
            _ => run.refused(&changed("issuer", number), (6, 0, 0), what),
        }
    }
    for power in 10..64 {
        for number in [0, 12, 99, 100, 355, 356].map(|low| (1 << power) + low) {
            let what = format_args!("issuer {number}");
            run.refused(&changed("issuer", number), (6, 0, 0), what);
        }
    }
    for less in [1, 100, 256, 356] {
        let number = u64::MAX - less + 1;
        run.refused(
            &changed("issuer", number),
            (6, 0, 0),
            format_args!("{number}"),
        );
    }
}

#[test]
fn ratings_that_there_are() {
    let mut run = Run::fixed("ratings");
    let mut numbers: Vec<u64> = (2..40).collect();
    numbers.extend((5..64).flat_map(|power| [0, 1, 2].map(|low| (1 << power) + low)));
    numbers.extend([u64::MAX - 1, u64::MAX]);
    for rating in [SINGLE_A, LOWER] {
        run.accepted(&changed("rating", rating), 10_220, format_args!("{rating}"));
    }
    for &number in &numbers {
        run.refused(
            &changed("rating", number),
            (25, 0, 0),
            format_args!("{number}"),
        );
    }
    // On a government of each number, all but none.
    for issuer in 0..=12 {
        for &number in [0, 1].iter().chain(&numbers) {
            let one = sheet(
                &[(
                    rated_cent(SHORT, (COUPON, issuer, 2030_06_24, CAD, number)),
                    0,
                )],
                &[],
            );
            let what = format_args!("{number} on {issuer}");
            match number {
                NOT_RATED => {
                    let rate = paper_rate(COUPON, issuer, 2030_06_24);
                    run.accepted(&Lent::of(&one), rate, what);
                }
                _ => run.refused(&Lent::of(&one), (25, 0, 0), what),
            }
        }
    }
}

#[test]
fn the_turn_of_25() {
    // The column, the number there and the refusal of another fault: of one holding 25 comes after 23 and before
    // 10, each holding is finished before the next, and all come before the first line.
    let mut run = Run::fixed("the turn of 25");
    let faults = [
        (0, 2, 4),
        (1, 3, 5),
        (2, 13, 6),
        (2, 99, 6),
        (2, 356, 6),
        (3, 2025_02_29, 24),
        (3, 2025_01_01, 7),
        (4, 100_000_000_001, 8),
        (6, 3, 23),
        (5, 43_801, 10),
    ];
    for (at, number, refusal) in faults {
        for (holding, other) in [(0, 0), (3, 3), (3, 2), (3, 4), (13, 13), (13, 0), (0, 13)] {
            for corporation in [false, true] {
                let mut sheet = sound();
                // A government with a rating, or a corporation without one; 6 leaves no corporation.
                if corporation {
                    sheet.issuer[holding] = FIRST;
                } else {
                    sheet.rating[holding] = LOWER;
                }
                column(&mut sheet, at)[other] = number;
                let wanted = if other < holding || other == holding && refusal != 10 {
                    (refusal, other as u64, 0)
                } else {
                    (25, holding as u64, 0)
                };
                let what = format_args!("25 at {holding}, {refusal} at {other}, {corporation}");
                run.refused(&Lent::of(&sheet), wanted, what);
            }
        }
    }
    for (at, name) in NAMES.iter().enumerate().skip(OF_HOLDINGS) {
        let mut sheet = sound();
        sheet.rating[13] = 3;
        column(&mut sheet, at)[0] = u64::MAX;
        let what = format_args!("{name} at fault");
        run.refused(&Lent::of(&sheet), (25, 13, 0), what);
    }
    for holding in 0..HOLDINGS {
        let mut sheet = sound();
        sheet.rating[holding as usize] = u64::MAX;
        let what = format_args!("holding {holding}");
        run.refused(&Lent::of(&sheet), (25, holding, 0), what);
    }
}

#[test]
fn as_many_corporations_as_there_may_be() {
    // The strips of 128 corporations with their bonds, in order and with the shorts turned around.
    let mut run = Run::fixed("128 corporations in pairs");
    for (turned, first) in [(false, FIRST), (true, 228)] {
        let mut sheet = Sheet::empty(participant(VALUED));
        for number in 0..128 {
            let strip = (RESIDUAL, first + number, 2046_11_27, CAD, number % 2);
            sheet.add_holding(rated_cent(LONG, strip), 29_200);
        }
        for number in 0..128 {
            let place = if turned { 127 - number } else { number };
            let bond = (BOND, first + place, 2038_09_10, CAD, SINGLE_A);
            sheet.add_holding(rated_cent(SHORT, bond), 0);
        }
        for number in 0..128 {
            let place = if turned { 127 - number } else { number };
            sheet.add_line(Line {
                long: number,
                short: 128 + place,
                amount: 1,
            });
        }
        run.accepted(&Lent::of(&sheet), 128 * 29_200, format_args!("{turned}"));
        for long in [0, 1, 63, 127] {
            let mut cheap = sheet.clone();
            cheap.price[long as usize] -= 1;
            let short = 128 + if turned { 127 - long } else { long };
            run.refused(
                &Lent::of(&cheap),
                (16, long, short),
                format_args!("{turned}"),
            );
            let mut wrong = sheet.clone();
            wrong.short[long as usize] = 128 + (short - 128 + 1) % 128;
            let what = format_args!("{turned}, line {long}");
            run.refused(&Lent::of(&wrong), (13, long, 0), what);
        }
    }
    // 256 corporations, each alone.
    let rows = CORPORATIONS.map(|issuer| rated_cent(LONG, (BOND, issuer, 2030_06_24, CAD, LOWER)));
    let all = Sheet::of_rows(participant(VALUED), &rows, 0);
    run.accepted(
        &Lent::of(&all),
        256 * 10_220,
        format_args!("256 corporations"),
    );
}

#[test]
fn the_largest_totals_of_a_corporation() {
    // 256 strips of the highest value and the highest rate of all, and half of them with bonds.
    let mut run = Run::fixed("the largest totals of a corporation");
    let value = 100_000_000_000;
    let of = |side, kind| Row {
        value,
        ..rated_cent(side, (kind, LAST, 2125_01_01, CAD, SINGLE_A))
    };
    for side in [LONG, SHORT] {
        let strips = Sheet::of_rows(participant(VALUED), &[of(side, RESIDUAL); 256], 0);
        let left = run.compare(&Lent::of(&strips), format_args!("side {side}"));
        let units = 256 * value * 43_800;
        assert_eq!((left.number, left.figures()), (0, (units, units / 146_000)));
        assert!(Left::entries(&left.ranking).into_iter().eq(0..256));
        let dear = Sheet::of_rows(participant(VALUED), &[of(side, COUPON); 256], 43_800);
        run.refused(&Lent::of(&dear), (17, 0, 0), format_args!("side {side}"));
    }
    let mut sheet = Sheet::of_rows(participant(VALUED), &[of(LONG, COUPON); 128], 29_200);
    for long in 0..128 {
        sheet.add_holding(of(SHORT, BOND), 0);
        sheet.add_line(Line {
            long,
            short: 128 + long,
            amount: value,
        });
    }
    let units = 128 * value * 29_200;
    run.accepted(&Lent::of(&sheet), units, format_args!("all paired"));
    sheet.price[127] = 29_199;
    run.refused(&Lent::of(&sheet), (16, 127, 128), format_args!("uncovered"));
}

#[test]
fn corporations_by_other_numbers() {
    // Which numbers the corporations of a book have does not matter.
    let mut run = Run::new("corporations by other numbers", 0x1001);
    for shape in [CORPORATE, ANY] {
        for size in [2, 5, 12, 40, 256] {
            for _ in 0..20 {
                let best = best_sheet(&book(&mut run.random, &shape, size));
                let left = run.compare(&Lent::of(&best), format_args!("{}", shape.name));
                let shift = run.random.below(252);
                let mut moved = best.clone();
                for issuer in moved.issuer.iter_mut().filter(|issuer| **issuer >= FIRST) {
                    *issuer = LAST - (*issuer - FIRST) - shift;
                }
                for other in [best.renumbered(), moved] {
                    let again = run.compare(&Lent::of(&other), format_args!("moved by {shift}"));
                    assert_eq!((left.number, &left.answer), (again.number, &again.answer));
                    assert_eq!(left.ranking, again.ranking);
                }
            }
        }
    }
}

/// What a file of a sheet is read as.
fn read_back(files: &mut Files, sheet: &Sheet, what: &str) {
    let file = File::exact(&text_of(sheet), sheet.side.len(), sheet.long.len());
    files.accepted(&file, &sheet.renumbered(), format_args!("{what}"));
}

#[test]
fn files_of_random_books() {
    let mut files = Files::new("files of random books", 0x1002);
    let corporate = |shape: &&Shape| shape.issuers.iter().any(|issuer| *issuer >= FIRST);
    for shape in SHAPES.iter().filter(corporate) {
        for size in [1, 2, 3, 10, 60, 256] {
            for _ in 0..10 {
                let sheet = best_sheet(&book(&mut files.random, shape, size));
                read_back(&mut files, &sheet, shape.name);
            }
        }
    }
}

#[test]
fn every_corporation_in_a_file() {
    let mut files = Files::fixed("every corporation in a file");
    for (kind, kind_text) in (0..).zip(KINDS) {
        for (currency, currency_text) in (0..).zip(CURRENCIES) {
            for (rating, rating_text) in (0..).zip(RATINGS).take(2) {
                for lei in ["5493001KJTIIGC8Y1R12", "\"7ZW8QJWVPR4P1J1KQY45\""] {
                    let fields = format!("S,{kind_text},{lei},2030-06-24,1000,7");
                    let record = rated_in(currency_text, rating_text, &fields);
                    let row = Row {
                        value: 1_000,
                        ..rated_cent(SHORT, (kind, FIRST, 2030_06_24, currency, rating))
                    };
                    let file = File::exact(&dated(&[&record]), 1, 0);
                    let sheet = Sheet::of_rows(participant(VALUED), &[row], 7);
                    files.accepted(&file, &sheet, format_args!("{record}"));
                }
            }
        }
    }
    // All numbers, in order, turned around, and each twice.
    let one = |issuer| rated_cent(LONG, (COUPON, issuer, 2030_06_24, CAD, LOWER));
    let mut rows = CORPORATIONS.map(one);
    let ordered = Sheet::of_rows(participant(VALUED), &rows, 0);
    assert_eq!(ordered.renumbered(), ordered);
    read_back(&mut files, &ordered, "in order");
    rows.reverse();
    let reversed = Sheet::of_rows(participant(VALUED), &rows, 0);
    assert_eq!(reversed.renumbered(), ordered);
    read_back(&mut files, &reversed, "turned around");
    let twice = std::array::from_fn::<Row, 256, _>(|at| one(FIRST + (at as u64 * 37) % 128));
    read_back(
        &mut files,
        &Sheet::of_rows(participant(VALUED), &twice, 0),
        "each twice",
    );
}

#[test]
fn a_257th_corporation_is_a_257th_holding() {
    let mut files = Files::fixed("a 257th corporation");
    let record = |number| {
        let fields = format!("L,B,{},2030-06-24,1,0", issuer_text(number));
        rated_in("CAD", "Y", &fields)
    };
    let mut all: Vec<String> = (100..357).map(record).collect();
    files.refused(
        &File::of(&dated(&all)),
        (3, 0),
        format_args!("257 corporations"),
    );
    all[256] = all[256].replace(",Y", ",");
    files.refused(
        &File::of(&dated(&all)),
        (25, 257),
        format_args!("the last without a rating"),
    );
    all.truncate(256);
    let read = files.compare(&File::exact(&dated(&all), 256, 0), format_args!("256"));
    assert!(read.sheet().issuer.iter().copied().eq(100..356));
}

#[test]
fn a_file_and_its_check() {
    // What is read from a file is judged as the book that it was written from.
    let mut run = Run::new("a file and its check", 0x1003);
    let mut random = Random::new(0x1004);
    for shape in [CORPORATE, ANY] {
        for size in [2, 8, 30, 120] {
            for _ in 0..10 {
                let mut sheet = best_sheet(&book(&mut run.random, &shape, size));
                if random.below(2) == 0 {
                    sheet.price[random.place(size)] ^= 1;
                }
                let again = read(&joined(&records(&sheet))).expect("it is read");
                let what = format_args!("{}", shape.name);
                let [one, other] =
                    [&sheet, &again].map(|sheet| run.compare(&Lent::of(sheet), what));
                assert_eq!(one, other, "{what}");
            }
        }
    }
}
