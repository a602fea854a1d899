//! Each refusal of an order at each place, and every two of them together.

mod support;

use margin_calculator::{NOT_RATED, Order, Row, VALUED, participant};
use support::booking::{ANSWER, LentBook, Orders, TOTALS};

/// The holdings of the sound book, and the places of its list.
const HOLDINGS: usize = 6;
const ROOM: usize = 8;
const MOST: u64 = 100_000_000_000;
/// The numbers of a holding's faults, and of those of a trade's description, in their order.
const OF_A_HOLDING: [u64; 8] = [4, 5, 6, 24, 7, 8, 23, 25];
const OF_A_TRADE: [u64; 7] = [4, 5, 6, 24, 7, 23, 25];

/// A sort of order.
#[derive(Clone, Copy, Debug, PartialEq, Eq)]
enum Sort {
    Add,
    Take,
    Move,
}

/// A fault, in the order in which they are refused.
#[derive(Clone, Copy, Debug, PartialEq, Eq, PartialOrd, Ord)]
enum Fault {
    /// 3: a count above 256.
    Count,
    /// 2: a list shorter than its count, totals below 40 bytes, an answer below 16.
    ShortList,
    ShortTotals,
    ShortAnswer,
    /// 24 and 26 of the head.
    Date,
    Letter,
    /// A holding's own, by its place and by its turn in their order.
    Holding(usize, usize),
    /// 27: one of the totals.
    Total(usize),
    /// A description's own, by its turn in their order.
    Trade(usize),
    /// 24: a new date that is none.
    NewDate,
    /// 8: the value, or the sum with what is held.
    AddedNothing,
    AddedTooMuch,
    AddedToTheLimit,
    /// 27: zero, more than is held, and what none is equal to.
    TakenNothing,
    TakenTooMuch,
    TakenOfNone,
    /// 27: a date that is not later.
    NotLater,
    /// 7: a holding matured by the new date.
    Matured(usize),
    /// 3 and 2 of one that joins.
    Full,
    NoPlace,
}

use Fault::{
    AddedNothing, AddedToTheLimit, AddedTooMuch, Count, Date, Full, Holding, Letter, Matured,
    NewDate, NoPlace, NotLater, ShortAnswer, ShortList, ShortTotals, TakenNothing, TakenOfNone,
    TakenTooMuch, Total, Trade,
};

impl Fault {
    /// What an order with this fault gets.
    fn answer(self) -> (u64, u64) {
        match self {
            Count | Full => (3, 0),
            ShortList | ShortTotals | ShortAnswer | NoPlace => (2, 0),
            Date | NewDate => (24, 0),
            Letter => (26, 0),
            Holding(place, turn) => (OF_A_HOLDING[turn], place as u64),
            Trade(turn) => (OF_A_TRADE[turn], 0),
            AddedNothing | AddedTooMuch | AddedToTheLimit => (8, 0),
            Total(_) | TakenNothing | TakenTooMuch | TakenOfNone | NotLater => (27, 0),
            Matured(place) => (7, place as u64),
        }
    }
}

/// The faults that an order of a sort can have.
fn faults(sort: Sort) -> Vec<Fault> {
    let mut faults = vec![Count, ShortList, ShortTotals, ShortAnswer, Date, Letter];
    for place in 0..HOLDINGS {
        faults.extend((0..OF_A_HOLDING.len()).map(|turn| Holding(place, turn)));
    }
    faults.extend((0..5).map(Total));
    let trade = (0..OF_A_TRADE.len()).map(Trade);
    match sort {
        Sort::Add => {
            faults.extend(trade);
            faults.extend([AddedNothing, AddedTooMuch, AddedToTheLimit, Full, NoPlace]);
        }
        Sort::Take => {
            faults.extend(trade);
            faults.extend([TakenNothing, TakenTooMuch, TakenOfNone]);
        }
        Sort::Move => {
            faults.extend([NewDate, NotLater]);
            faults.extend((0..HOLDINGS).map(Matured));
        }
    }
    faults
}

/// Corporate strips, of which each matures in another year and no two are alike.
fn rows(count: usize) -> Vec<Row> {
    let row = |at: usize| Row {
        side: at as u64 % 2,
        kind: 1,
        issuer: 100 + at as u64,
        maturity: 2026_02_28 + 10_000 * (at as u64 % 70),
        value: 1_000 + at as u64,
        currency: at as u64 % 3,
        rating: at as u64 % 2,
    };
    (0..count).map(row).collect()
}

/// A date that all holdings outlive.
const LATER: u64 = 2025_06_30;

fn damage(row: &mut Row, number: u64) {
    match number {
        4 => row.side = 2,
        5 => row.kind = 3,
        6 => row.issuer = 99,
        7 => row.maturity = if row.side == 0 { VALUED } else { 2125_01_02 },
        8 => row.value = if row.side == 0 { 0 } else { MOST + 1 },
        23 => row.currency = 3,
        24 => row.maturity = 2024_02_30,
        _ => row.rating = if row.side == 0 { NOT_RATED } else { 3 },
    }
}

/// An order and a book with these faults, or nothing where two of them need the same.
fn plant(sort: Sort, planted: &[Fault]) -> Option<(LentBook, Order)> {
    let has = |fault| planted.contains(&fault);
    let count = if has(Full) { 256 } else { HOLDINGS };
    let held = rows(count);
    let room = if has(NoPlace) { count } else { count.max(ROOM) };
    let mut book = LentBook::of(participant(VALUED), &held, room);
    // It equals the second holding, or none where it joins or nothing is held of it.
    let equal = held[1];
    let alone = Row {
        issuer: 355,
        ..equal
    };
    let joins = [Full, NoPlace, TakenOfNone].into_iter().any(has);
    let mut trade = Row {
        value: 10,
        ..if joins { alone } else { equal }
    };
    let mut to = LATER;
    let mut used = Vec::new();
    for fault in planted {
        // What a fault sets; two that set the same cannot both be planted.
        let sets = match *fault {
            Holding(place, turn) => match OF_A_HOLDING[turn] {
                7 | 24 => Holding(place, 4),
                _ => *fault,
            },
            Trade(turn) => match OF_A_TRADE[turn] {
                7 | 24 => Trade(4),
                _ => *fault,
            },
            AddedNothing | AddedTooMuch | AddedToTheLimit => AddedNothing,
            TakenNothing | TakenTooMuch => TakenNothing,
            NewDate | NotLater | Matured(_) => NewDate,
            _ => *fault,
        };
        if used.contains(&sets) {
            return None;
        }
        used.push(sets);
        match *fault {
            Count => book.count = 257,
            ShortAnswer => book.answer = ANSWER - 1,
            Date => book.head.date = 2025_02_29,
            Letter => book.head.letter = 2,
            Holding(place, turn) => book.change(place, |row| damage(row, OF_A_HOLDING[turn])),
            Total(period) => book.totals[8 * period] ^= 1,
            Trade(turn) => damage(&mut trade, OF_A_TRADE[turn]),
            NewDate => to = 2025_02_29,
            AddedNothing | TakenNothing => trade.value = 0,
            AddedTooMuch => trade.value = u64::MAX,
            AddedToTheLimit => trade.value = MOST + 1 - if joins { 0 } else { equal.value },
            TakenTooMuch => trade.value = equal.value + 1,
            NotLater => to = VALUED,
            Matured(place) => to = held[place].maturity,
            ShortList | ShortTotals | TakenOfNone | Full | NoPlace => {}
        }
    }
    if has(ShortList) {
        book.list.truncate(Row::LENGTH * count - 1);
    }
    if has(ShortTotals) {
        book.totals.truncate(TOTALS - 1);
    }
    let order = match sort {
        Sort::Add => Order::Add(trade),
        Sort::Take => Order::Take(trade),
        Sort::Move => Order::Move(to),
    };
    Some((book, order))
}

/// Where one fault brings others with it, these are named if they come earlier.
fn brought(fault: Fault) -> Fault {
    match fault {
        // The holdings mature from year to year.
        Matured(_) => Matured(0),
        _ => fault,
    }
}

#[test]
fn the_sound_orders_are_accepted() {
    let mut orders = Orders::fixed("sound orders");
    for sort in [Sort::Add, Sort::Take, Sort::Move] {
        let (book, order) = plant(sort, &[]).expect("no fault");
        let mut wanted = rows(HOLDINGS);
        match sort {
            Sort::Add => wanted[1].value += 10,
            Sort::Take => wanted[1].value -= 10,
            Sort::Move => {}
        }
        orders.accepted(&book, &order, &wanted, format_args!("{sort:?}"));
    }
}

#[test]
fn each_refusal_at_each_place() {
    let mut orders = Orders::fixed("each refusal of an order");
    for sort in [Sort::Add, Sort::Take, Sort::Move] {
        for fault in faults(sort) {
            let (book, order) = plant(sort, &[fault]).expect("one fault");
            let wanted = brought(fault).answer();
            orders.refused(&book, &order, wanted, format_args!("{sort:?}, {fault:?}"));
        }
    }
    orders.has_seen(&[2, 3, 4, 5, 6, 7, 8, 23, 24, 25, 26, 27], 3);
}

#[test]
fn of_two_faults_the_earlier_wins() {
    let mut orders = Orders::fixed("every two refusals of an order");
    let mut pairs = 0;
    for sort in [Sort::Add, Sort::Take, Sort::Move] {
        let all = faults(sort);
        for (at, one) in all.iter().enumerate() {
            for other in &all[at + 1..] {
                assert!(one < other, "{one:?} before {other:?}");
                if let Some((book, order)) = plant(sort, &[*one, *other]) {
                    let wanted = brought(*one).answer();
                    orders.refused(&book, &order, wanted, format_args!("{one:?} and {other:?}"));
                    pairs += 1;
                }
            }
        }
    }
    assert!(pairs > 6_900, "{pairs} pairs");
}

#[test]
fn of_three_faults_the_earliest_wins() {
    let mut orders = Orders::new("three refusals of an order", 0x0E11);
    for sort in [Sort::Add, Sort::Take, Sort::Move] {
        let all = faults(sort);
        for _ in 0..6_000 {
            let mut three = [(); 3].map(|()| orders.random.pick(&all));
            three.sort_unstable();
            if let Some((book, order)) = plant(sort, &three) {
                let wanted = brought(three[0]).answer();
                orders.refused(&book, &order, wanted, format_args!("{three:?}"));
            }
        }
    }
}

#[test]
fn the_order_is_the_papers() {
    // Typed from the papers: two faults, and the number and place that are named.
    let mut orders = Orders::fixed("orders from the papers");
    let number = |list: &[u64], number| {
        list.iter()
            .position(|known| *known == number)
            .expect("a number")
    };
    let holding = |place, of| Holding(place, number(&OF_A_HOLDING, of));
    let trade = |of| Trade(number(&OF_A_TRADE, of));
    let cases = [
        (Sort::Add, Count, ShortList, (3, 0)),
        (Sort::Add, ShortTotals, Date, (2, 0)),
        (Sort::Add, ShortAnswer, Letter, (2, 0)),
        (Sort::Move, Letter, Date, (24, 0)),
        (Sort::Move, Letter, holding(0, 4), (26, 0)),
        (Sort::Take, holding(2, 25), holding(3, 4), (25, 2)),
        (Sort::Take, holding(2, 8), holding(2, 23), (8, 2)),
        (Sort::Take, holding(2, 7), holding(2, 8), (7, 2)),
        (Sort::Take, holding(2, 24), holding(2, 6), (6, 2)),
        (Sort::Take, holding(5, 25), Total(0), (25, 5)),
        (Sort::Add, holding(5, 8), trade(4), (8, 5)),
        (Sort::Add, Total(4), trade(4), (27, 0)),
        (Sort::Move, Total(4), NewDate, (27, 0)),
        (Sort::Move, Total(4), Matured(0), (27, 0)),
        (Sort::Add, AddedNothing, trade(25), (25, 0)),
        (Sort::Add, AddedTooMuch, trade(23), (23, 0)),
        (Sort::Take, TakenNothing, trade(25), (25, 0)),
        (Sort::Take, TakenOfNone, trade(4), (4, 0)),
        (Sort::Add, AddedNothing, Full, (8, 0)),
        (Sort::Add, AddedToTheLimit, NoPlace, (8, 0)),
        (Sort::Add, Full, NoPlace, (3, 0)),
        (Sort::Add, Full, trade(25), (25, 0)),
    ];
    for (sort, one, other, wanted) in cases {
        let (book, order) = plant(sort, &[one, other]).expect("two faults that stand together");
        orders.refused(&book, &order, wanted, format_args!("{one:?} and {other:?}"));
    }
}
