//! Document 02 e): who may have which pairs, the least margin of each, and the turn of 26.

mod support;

use margin_calculator::samples::{SHAPES, best_sheet, book};
use margin_calculator::{CLIENT, NOT_RATED, PARTICIPANT, Row, Sheet, VALUED, participant};
use margin_host::Head;
use support::Run;
use support::faults::{VALUATION, comes_after, sound};
use support::lent::{Left, Lent};
use support::sheets::{
    BOND, CA, CAD, COUPON, GB, GBP, HEADS, LOWER, ON, QC, RESIDUAL, RatedLeg, SINGLE_A, US, USD,
    corporate_legs, government_legs, pair_under, rated_legs, unpaired_legs,
};

/// Whether paragraph 2 can have a holding: of Canada or a province, in CAD.
fn is_domestic(row: &Row) -> bool {
    row.issuer <= 10 && row.currency == CAD
}

/// The holdings of a sheet in the account of another letter.
fn in_account(sheet: &Sheet, letter: u64) -> Sheet {
    let mut sheet = sheet.clone();
    sheet.head.letter = letter;
    sheet
}

/// Two legs that may be paired, what that saves, which is the price of the long, and the rate of the pair.
type Pair = (RatedLeg, RatedLeg, u64, u64);

/// Pairs of paragraphs 3 and 4, typed from the papers.
#[rustfmt::skip]
const OF_PARTICIPANTS: [Pair; 8] = [
    ((BOND, US, 2030_06_24, USD, NOT_RATED), (COUPON, US, 2030_06_24, USD, NOT_RATED), 5_840, 1_460),
    ((BOND, US, 2030_06_24, GBP, NOT_RATED), (RESIDUAL, US, 2028_01_02, GBP, NOT_RATED), 5_840, 1_460),
    ((BOND, GB, 2038_09_10, GBP, NOT_RATED), (RESIDUAL, GB, 2046_11_27, GBP, NOT_RATED), 11_680, 11_680),
    ((BOND, CA, 2025_07_20, USD, NOT_RATED), (COUPON, CA, 2025_04_11, USD, NOT_RATED), 1_200, 200),
    ((BOND, 100, 2030_06_24, CAD, SINGLE_A), (COUPON, 100, 2030_06_24, CAD, LOWER), 10_220, 15_330),
    ((BOND, 100, 2025_01_02, CAD, SINGLE_A), (RESIDUAL, 100, 2026_01_01, CAD, SINGLE_A), 4_380, 6_570),
    ((BOND, 355, 2038_09_10, CAD, SINGLE_A), (COUPON, 355, 2044_12_31, CAD, LOWER), 14_600, 21_900),
    ((BOND, 355, 2038_09_10, CAD, SINGLE_A), (RESIDUAL, 355, 2046_11_27, CAD, LOWER), 29_200, 29_200),
];

/// Pairs of paragraph 2, typed from the papers.
#[rustfmt::skip]
const OF_BOTH: [Pair; 6] = [
    ((COUPON, ON, 2030_06_24, CAD, NOT_RATED), (RESIDUAL, QC, 2030_06_24, CAD, NOT_RATED), 17_520, 0),
    ((COUPON, CA, 2030_06_24, CAD, NOT_RATED), (RESIDUAL, ON, 2030_06_24, CAD, NOT_RATED), 6_570, 6_570),
    ((BOND, CA, 2030_06_24, CAD, NOT_RATED), (COUPON, CA, 2030_06_24, CAD, NOT_RATED), 5_840, 1_460),
    ((BOND, QC, 2030_06_24, CAD, NOT_RATED), (COUPON, QC, 2030_06_24, CAD, NOT_RATED), 11_680, 2_920),
    ((BOND, CA, 2030_06_24, CAD, NOT_RATED), (RESIDUAL, ON, 2030_06_24, CAD, NOT_RATED), 5_840, 5_840),
    ((RESIDUAL, 1, 2125_01_01, CAD, NOT_RATED), (COUPON, 10, 2045_01_01, CAD, NOT_RATED), 43_800, 0),
];

#[test]
fn pairs_of_participants_alone() {
    let mut run = Run::fixed("pairs of participants alone");
    let [of_participant, of_client] = HEADS;
    for (one, other, saving, rate) in OF_PARTICIPANTS {
        for (long, short) in [(one, other), (other, one)] {
            let what = format_args!("{long:?} with {short:?}");
            pair_under(&mut run, of_participant, long, short, Some((rate, saving)));
            pair_under(&mut run, of_client, long, short, None);
            // Unpaired they are covered for a client at prices of 0, and priced for nothing at any other.
            let alone = |head, price| unpaired_legs(head, long, price, short);
            run.refused(&alone(of_participant, 0), (16, 0, 1), what);
            run.accepted(&alone(of_client, 0), rate + saving, what);
            run.refused(&alone(of_client, saving), (17, 0, 0), what);
        }
    }
}

#[test]
fn pairs_of_both() {
    let mut run = Run::fixed("pairs of both");
    for (one, other, saving, rate) in OF_BOTH {
        for (long, short) in [(one, other), (other, one)] {
            for head in HEADS {
                pair_under(&mut run, head, long, short, Some((rate, saving)));
                let alone = unpaired_legs(head, long, saving - 1, short);
                let what = format_args!("{long:?} without {short:?}, {head:?}");
                run.refused(&alone, (16, 0, 1), what);
            }
        }
    }
}

#[test]
fn a_client_has_a_participants_pairs_of_paragraph_2() {
    // With and without a line the client's answer is the participant's, where paragraph 2 can have both legs.
    // Otherwise the line is refused, and without it nothing is uncovered.
    let mut run = Run::fixed("a participant's pairs and a client's");
    let mut taken = [0; 2];
    for maturities in [[2030_06_24, 2032_01_01], [2044_12_31, 2046_11_27]] {
        let mut legs = Vec::new();
        for maturity in maturities {
            legs.extend(government_legs(maturity));
            legs.extend(corporate_legs(&[100, 355], maturity));
        }
        for &long in &legs {
            for &short in &legs {
                let domestic = [long, short].map(|leg| leg.1 <= 10 && leg.3 == CAD) == [true; 2];
                let what = format_args!("{long:?} with {short:?}");
                let paired = |head| rated_legs(head, long, 43_800, short);
                let alone = |head| unpaired_legs(head, long, 0, short);
                let [theirs, ours] = HEADS.map(|head| run.compare(&paired(head), what));
                taken[0] += usize::from(theirs.number != 13);
                taken[1] += usize::from(ours.number != 13);
                let [theirs_alone, ours_alone] = HEADS.map(|head| run.compare(&alone(head), what));
                if domestic {
                    assert_eq!([ours, ours_alone], [theirs, theirs_alone], "{what}");
                } else {
                    assert_eq!([ours.number, ours_alone.number], [13, 0], "{what}");
                }
            }
        }
    }
    // Of Canada, ON and QC in CAD, of each two maturities, every two but two bonds, and of ON with QC strips alone; and
    // a bond with a strip, either way round, of three governments in two currencies and of two corporations, whose
    // strip may have either rating.
    let domestic = 2 * 2 * (7 * (3 * 3 - 1) + 2 * (2 * 2));
    let foreign = 2 * 2 * (3 * 2) * 2 * 2;
    let corporate = 2 * 2 * 2 * 2 * 2 * 2;
    assert_eq!(taken[1], 2 * domestic);
    assert_eq!(taken[0], 2 * (domestic + foreign + corporate));
}

#[test]
fn numbers_that_are_no_letter() {
    // Among them numbers that are 0 or 1 in fewer bits, and the letters as characters.
    let mut run = Run::fixed("numbers that are no letter");
    let (one, other, saving, _) = OF_PARTICIPANTS[0];
    let characters = [b'P', b'C'].map(u64::from);
    let shifted = (1..64).flat_map(|power| [0, 1].map(|low| (1 << power) + low));
    let others = [255, u64::MAX - 1, u64::MAX];
    for letter in shifted.chain(others).chain(characters) {
        let what = format_args!("letter {letter}");
        let head = Head {
            date: VALUED,
            letter,
        };
        let books = [in_account(&sound(), letter), Sheet::empty(head)];
        for book in books.each_ref().map(Lent::of) {
            run.refused(&book, (26, 0, 0), what);
        }
        let pair = rated_legs(head, one, saving, other);
        run.refused(&pair, (26, 0, 0), what);
    }
    for letter in [PARTICIPANT, CLIENT] {
        let what = format_args!("letter {letter}");
        run.accepted(&Lent::of(&in_account(&sound(), letter)), 7_300_000, what);
    }
}

#[test]
fn the_turn_of_the_account() {
    let mut run = Run::fixed("the turn of the account");
    comes_after(&mut run, 26, &[1, 3, 9, 2, VALUATION]);
}

/// Hands on random books of every shape.
fn each_book(run: &mut Run, mut each: impl FnMut(&mut Run, &Sheet)) {
    for shape in &SHAPES {
        for size in [0, 1, 2, 3, 5, 8, 13, 21, 34, 80] {
            for _ in 0..6 {
                let book = book(&mut run.random, shape, size);
                each(run, &book);
            }
        }
    }
}

#[test]
fn a_client_needs_no_less_than_a_participant() {
    // And what it needs is what a participant needs for the holdings that paragraph 2 can have, with the margins of
    // the others alone, of which nothing is paired.
    let mut run = Run::new("a client's least and a participant's", 0x1201);
    let (mut alike, mut more) = (0, 0);
    each_book(&mut run, |run, book| {
        let [theirs, ours] = [PARTICIPANT, CLIENT].map(|letter| {
            let best = best_sheet(&in_account(book, letter));
            run.compare(&Lent::of(&best), format_args!("the best of {letter}"))
        });
        assert_eq!((theirs.number, ours.number), (0, 0), "{book:?}");
        let [theirs, units] = [&theirs, &ours].map(|left| left.figures().0);
        assert!(theirs <= units, "{book:?}");
        let numbers = 0..book.side.len();
        let rows: Vec<Row> = numbers.clone().map(|number| book.row(number)).collect();
        let domestic: Vec<Row> = rows.iter().copied().filter(is_domestic).collect();
        let part = Sheet::of_rows(participant(book.head.date), &domestic, 0);
        let paired = run.units(&best_sheet(&part), format_args!("paragraph 2 alone"));
        let remainder = Left::entries(&ours.remainder);
        let mut alone = 0;
        for number in numbers.filter(|number| !is_domestic(&rows[*number])) {
            assert_eq!(remainder[number], rows[number].value, "{book:?}");
            alone += book.position(number).rate * rows[number].value;
        }
        assert_eq!(units, paired + alone, "{book:?}");
        if domestic.len() == rows.len() {
            assert_eq!(theirs, units, "{book:?}");
            alike += 1;
        }
        more += usize::from(theirs < units);
    });
    assert!(alike >= 700, "{alike} books are of paragraph 2 alone");
    assert!(more >= 500, "a client needs more for {more} books");
}

#[test]
fn a_proposal_for_the_other_account() {
    // A participant's best is refused for a client at its first line of another paragraph than 2, and otherwise it is
    // the client's best. A client's best leaves a pair uncovered exactly where a participant needs less.
    let mut run = Run::new("proposals for the other account", 0x1202);
    let mut seen = [[0; 2]; 2];
    each_book(&mut run, |run, book| {
        let [theirs, ours] =
            [PARTICIPANT, CLIENT].map(|letter| best_sheet(&in_account(book, letter)));
        let [least, most] = [&theirs, &ours].map(|best| run.units(best, format_args!("its own")));
        let mut legs = theirs.long.iter().map(|long| theirs.row(*long as usize));
        let for_a_client = Lent::of(&in_account(&theirs, CLIENT));
        let what = format_args!("a participant's best for a client");
        match legs.position(|long| !is_domestic(&long)) {
            Some(line) => {
                run.refused(&for_a_client, (13, line as u64, 0), what);
                seen[0][1] += 1;
            }
            None => {
                run.accepted(&for_a_client, least, what);
                seen[0][0] += 1;
            }
        }
        let for_a_participant = Lent::of(&in_account(&ours, PARTICIPANT));
        let what = format_args!("a client's best for a participant");
        if least < most {
            let left = run.compare(&for_a_participant, what);
            assert_eq!(left.number, 16, "{what}\n{ours:?}");
            let (long, short) = left.figures();
            let legs = [long, short].map(|leg| is_domestic(&ours.row(leg as usize)));
            assert_eq!(legs, [false; 2], "{what}\n{ours:?}");
        } else {
            run.accepted(&for_a_participant, most, what);
        }
        seen[1][usize::from(least < most)] += 1;
    });
    assert!(
        seen.as_flattened().iter().all(|count| *count >= 500),
        "{seen:?}"
    );
}
