//! Each refusal of the file at the first, a middle and the last record, and faults that compete.

mod support;

use margin_calculator::FIELDS;
use margin_calculator::texts::{
    PRINTED, dated, holding, holding_in, joined, line, of_width, rated,
};
use support::file::{File, Files};

/// A holding and a line, by their fields.
const HOLDING: &str = "L,C,ON,2030-06-24,1000,8760";
const LINE: &str = "0,3,1000";
/// Faults of one record, from the first in the reader's order.
const OF_A_RECORD: [u64; 5] = [19, 20, 21, 25, 22];
/// Where 3, 9 and 2 stand among the faults of a record: after all of its own.
const LAST: usize = OF_A_RECORD.len();

/// A file to be made: holdings and lines after a date, faults of records by number and record, the number of
/// bytes to which it is filled up, and whether a list is too short.
#[derive(Clone, Debug, Default)]
struct Plan {
    holdings: usize,
    lines: usize,
    faults: Vec<(u64, usize)>,
    bytes: usize,
    short_list: bool,
}

impl Plan {
    fn records(&self) -> Vec<String> {
        let mut records = vec![PRINTED[0].to_string()];
        records.resize(1 + self.holdings, holding(HOLDING));
        records.resize(1 + self.holdings + self.lines, line(LINE));
        // From the last in order to the first: each leaves room for those before it.
        for number in OF_A_RECORD.into_iter().rev() {
            for (_, at) in self.faults.iter().filter(|fault| fault.0 == number) {
                match number {
                    22 => records[*at] = self.out_of_order(*at),
                    25 => records[*at] = rated("Y", HOLDING),
                    21 => records[*at].insert(2, 'x'),
                    20 => records[*at].push(','),
                    _ => records[*at].push('\t'),
                }
            }
        }
        records
    }

    /// A holding instead of the date, and in the place of every second line after the first; otherwise another
    /// date.
    fn out_of_order(&self, at: usize) -> String {
        let after_line = at > 1 + self.holdings;
        if at == 0 || after_line && at.is_multiple_of(2) {
            holding(HOLDING)
        } else {
            PRINTED[0].to_string()
        }
    }

    fn file(&self) -> File {
        let mut text = joined(&self.records());
        let length = text.len().max(self.bytes);
        text.resize(length, b'x');
        let mut file = File::exact(&text, self.holdings, self.lines);
        if self.short_list {
            let list = file.lists.iter_mut().rfind(|length| **length > 0);
            *list.expect("a list is written") -= 1;
        }
        file
    }

    /// The reader's order: 18; each record in turn 19, 20, 21, 25, 22, then 3 or 9; after all records 2.
    fn first(&self) -> (u64, u64) {
        if self.bytes > 65_536 {
            return (18, 0);
        }
        let mut events: Vec<(usize, usize, (u64, u64))> = Vec::new();
        for &(number, at) in &self.faults {
            let turn = OF_A_RECORD.iter().position(|other| *other == number);
            let turn = turn.expect("a fault of a record");
            events.push((at, turn, (number, at as u64)));
        }
        if self.holdings > 256 {
            events.push((1 + 256, LAST, (3, 0)));
        }
        if self.lines > 512 {
            events.push((1 + self.holdings + 512, LAST, (9, 0)));
        }
        if self.short_list {
            events.push((usize::MAX, LAST, (2, 0)));
        }
        events.into_iter().min().expect("there is a fault").2
    }

    fn refused(&self, files: &mut Files) {
        files.refused(&self.file(), self.first(), format_args!("{self:?}"));
    }
}

fn plan(holdings: usize, lines: usize, faults: &[(u64, usize)]) -> Plan {
    Plan {
        holdings,
        lines,
        faults: faults.to_vec(),
        ..Plan::default()
    }
}

#[test]
fn each_refusal_at_each_record() {
    let mut files = Files::fixed("each refusal at each record");
    for number in OF_A_RECORD {
        for (holdings, lines) in [(4, 4), (0, 2), (5, 3), (0, 0), (256, 512)] {
            for at in 0..1 + holdings + lines {
                if at < 20 || at % 17 == 0 || (250..260).contains(&at) || at == 768 {
                    plan(holdings, lines, &[(number, at)]).refused(&mut files);
                }
            }
        }
    }
}

#[test]
fn every_two_refusals() {
    let mut files = Files::fixed("every two refusals");
    for one in OF_A_RECORD {
        for other in OF_A_RECORD {
            for at in 0..12 {
                for second in 0..12 {
                    plan(5, 6, &[(one, at), (other, second)]).refused(&mut files);
                }
            }
        }
    }
}

#[test]
fn one_record_too_many_and_another_fault() {
    let mut files = Files::fixed("one record too many");
    for number in OF_A_RECORD {
        for at in [0, 1, 2, 129, 256, 257, 258, 301, 501, 769, 770] {
            plan(257, 513, &[(number, at)]).refused(&mut files);
            plan(256, 514, &[(number, at)]).refused(&mut files);
            plan(3, 800, &[(number, at)]).refused(&mut files);
        }
        for at in [515, 516, 517] {
            plan(3, 800, &[(number, at)]).refused(&mut files);
        }
    }
    files.has_seen(&[3, 9], 10);
    // The 257th holding after a line is 22, and the 513th line after it is not reached.
    for at in [257, 400, 768] {
        let mut records = vec![holding(HOLDING); 256];
        records.resize(770, line(LINE));
        records[at] = holding(HOLDING);
        let what = format_args!("a 257th holding at {at}");
        files.refused(&File::of(&dated(&records)), (22, 1 + at as u64), what);
    }
}

#[test]
fn a_file_that_is_too_long_and_another_fault() {
    let mut files = Files::fixed("too long and another fault");
    for bytes in [65_536, 65_537, 70_000] {
        for number in OF_A_RECORD {
            for at in [0, 1, 7, 11] {
                let mut plan = plan(5, 6, &[(number, at)]);
                plan.bytes = bytes;
                plan.refused(&mut files);
            }
        }
        for (holdings, lines) in [(257, 1), (1, 513)] {
            let mut plan = plan(holdings, lines, &[]);
            plan.bytes = bytes;
            plan.refused(&mut files);
            plan.short_list = true;
            plan.refused(&mut files);
        }
    }
}

#[test]
fn a_short_list_comes_last() {
    let mut files = Files::fixed("a short list and another fault");
    for (holdings, lines) in [(5, 6), (1, 0), (0, 1), (256, 512)] {
        let mut short = plan(holdings, lines, &[]);
        short.short_list = true;
        short.refused(&mut files);
        for number in OF_A_RECORD {
            for at in 0..1 + holdings + lines {
                if at < 20 || at % 97 == 0 {
                    short.faults = vec![(number, at)];
                    short.refused(&mut files);
                }
            }
        }
    }
    for (holdings, lines) in [(257, 0), (256, 513), (257, 513)] {
        let mut short = plan(holdings, lines, &[]);
        short.short_list = true;
        short.refused(&mut files);
    }
    files.has_seen(&[2], 4);
}

#[test]
fn the_grammar_is_judged_on_the_whole_record() {
    let mut files = Files::fixed("the whole record");
    let good = &holding(HOLDING);
    for record in [
        "D,2025-01-01,P,,,,,,,\t",
        "H,L,C,CA,1,1,0,CAD,,,\t",
        "x,\u{7F}",
        "a,b,c,\"d\"e",
        "H,L,C,CA,007,1,0,\"",
        "P,0,1,1,,,,\u{80}",
        ",,,,,,,,,,,\n",
        "H,L,C,CA,1,1,0,CAD,\"\r\n",
    ] {
        for before in 0..3 {
            let mut records = vec![good.as_str(); before];
            records.extend([record, good]);
            let what = format_args!("{record:?} after {before}");
            files.refused(&File::of(&dated(&records)), (19, 1 + before as u64), what);
        }
    }
    // A record is finished before the next is looked at.
    let unknown = &of_width("h", FIELDS);
    for (record, number) in [(good.as_str(), 19), ("H", 20), ("", 20), (unknown, 21)] {
        let records = [record, "\"", "\t"];
        let at = 1 + u64::from(number == 19);
        let what = format_args!("{record:?} before an ill-formed record");
        files.refused(&File::of(&dated(&records)), (number, at), what);
    }
}

#[test]
fn records_of_other_widths() {
    let mut files = Files::fixed("records of other widths");
    for record in [holding(HOLDING), line(LINE)] {
        for count in 1..=20 {
            let text = dated(&[of_width(&record, count)]);
            if count == FIELDS {
                let read = files.compare(&File::of(&text), format_args!("as many as it has"));
                assert_eq!(read.number, 0);
            } else {
                files.refused(&File::of(&text), (20, 1), format_args!("{count} fields"));
            }
        }
    }
    for count in (1..=20).filter(|count| *count != FIELDS) {
        let text = joined(&[of_width(PRINTED[0], count)]);
        files.refused(&File::of(&text), (20, 0), format_args!("{count} fields"));
    }
}

#[test]
fn eight_and_ten_fields() {
    let mut files = Files::fixed("eight and ten fields");
    for record in [
        "D,2025-01-01,P,,,,,",
        "D,2025-01-01,P,,,,,,,",
        "H,L,C,ON,2030-06-24,1000,8760,CAD",
        "H,L,C,ON,2030-06-24,1000,8760,CAD,,",
        "H,L,C,5493001KJTIIGC8Y1R12,2030-06-24,1000,8760,CAD",
        "H,L,C,5493001KJTIIGC8Y1R12,2030-06-24,1000,8760,CAD,Y,",
        "P,0,3,1000,,,,",
        "P,0,3,1000,,,,,,",
    ] {
        for before in 0..3 {
            let mut records = vec![holding(HOLDING); before];
            records.push(record.to_string());
            let what = format_args!("{record} after {before}");
            files.refused(&File::of(&dated(&records)), (20, 1 + before as u64), what);
        }
    }
}

#[test]
fn a_currency_that_is_none_in_its_turn() {
    let mut files = Files::fixed("the turn of a currency that is none");
    for currency in ["", "EUR", "cad", "USDX"] {
        let bad = holding_in(currency, HOLDING);
        let what = format_args!("{currency:?}");
        for at in [0, 1, 255, 256] {
            // The 257th holding comes after what is wrong with it.
            let mut records = vec![holding(HOLDING); 257];
            records[at] = bad.clone();
            files.refused(&File::of(&dated(&records)), (21, 1 + at as u64), what);
        }
        let late = dated(&[holding(HOLDING), line(LINE), bad.clone()]);
        files.refused(&File::of(&late), (21, 3), what);
        let wide = dated(&[bad.clone() + ","]);
        files.refused(&File::of(&wide), (20, 1), what);
        let quote = dated(&[bad + "\""]);
        files.refused(&File::of(&quote), (19, 1), what);
    }
}

#[test]
fn a_date_in_its_place_alone() {
    let mut files = Files::fixed("a date in its place alone");
    let sound = [PRINTED[0], PRINTED[1], PRINTED[2], PRINTED[4]];
    for (records, wanted) in [
        // None, in another place, twice.
        (&sound[1..], (22, 0)),
        (&sound[3..], (22, 0)),
        (&[sound[1], sound[0]], (22, 0)),
        (&[sound[0]; 2], (22, 1)),
        (&[sound[0]; 9], (22, 1)),
        (&[sound[0], sound[1], sound[0], sound[2]], (22, 2)),
        (&[sound[0], sound[1], sound[3], sound[0]], (22, 3)),
        (&[sound[0], sound[3], sound[0], sound[1]], (22, 2)),
        // A first record that is none has its own faults first, and so has a second date.
        (&["H,L\t", sound[0]], (19, 0)),
        (&["H,L", sound[0]], (20, 0)),
        (&["H,,,,,,,,", sound[0]], (21, 0)),
        (&[sound[0], "D,2025-01-01,P,,,,,,\t"], (19, 1)),
        (&[sound[0], "D,2025-01-01,P,,,,,"], (20, 1)),
        (&[sound[0], "D,2025-1-1,P,,,,,,"], (21, 1)),
        (&[sound[0], "D,2025-01-01,,,,,,,"], (21, 1)),
        (&[sound[0], "D,2025-01-01,P,,,,,,0"], (21, 1)),
        // 22 whatever the date and the account are.
        (&[sound[0], "D,9999-99-99,P,,,,,,"], (22, 1)),
        (&[sound[0], "D,2025-01-01,C,,,,,,"], (22, 1)),
        // A record that is out of order comes before faults of later ones.
        (&[sound[1], "\""], (22, 0)),
        (&[sound[0], sound[0], "\""], (22, 1)),
    ] {
        let what = format_args!("{records:?}");
        let text = joined(records);
        files.refused(&File::of(&text), wanted, what);
        files.refused(&File::of(&text[..text.len() - 2]), wanted, what);
    }
    files.refused(&File::of(b""), (22, 0), format_args!("no record"));
}

#[test]
fn random_plans() {
    let mut files = Files::new("random plans", 0x0901);
    for _ in 0..15_000 {
        let random = &mut files.random;
        let (holdings, lines) = match random.below(20) {
            0 => (254 + random.place(4), 510 + random.place(4)),
            _ => (random.place(9), random.place(9)),
        };
        let mut plan = plan(holdings, lines, &[]);
        for _ in 0..random.below(4) {
            let number = random.pick(&OF_A_RECORD);
            let at = random.place(1 + holdings + lines);
            plan.faults.push((number, at));
        }
        plan.short_list = random.below(3) == 0 && holdings + lines > 0;
        if random.below(200) == 0 {
            plan.bytes = 65_535 + random.place(4);
            // What fills the file up is a record of one field.
            let filled = 1 + holdings + lines;
            plan.faults.push((20, filled));
            let (mut file, wanted) = (plan.clone(), plan.first());
            file.faults.pop();
            files.refused(&file.file(), wanted, format_args!("{plan:?}"));
        } else if plan.faults.is_empty() && !plan.short_list && holdings < 257 && lines < 513 {
            let read = files.compare(&plan.file(), format_args!("{plan:?}"));
            assert_eq!(read.number, 0, "{plan:?}");
        } else {
            plan.refused(&mut files);
        }
    }
    files.has_seen(&[0, 2, 3, 9, 18, 19, 20, 21, 22, 25], 10);
}
