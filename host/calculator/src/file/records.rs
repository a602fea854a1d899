//! RFC 4180's records: a machine of a few states that copies the fields of one record after another.
//!
//! It takes a run of TEXTDATA at once, and then one byte of another sort.

/// What the grammar makes of a byte.
#[derive(Clone, Copy, PartialEq, Eq)]
enum Sort {
    Quote,
    Comma,
    Return,
    Feed,
    /// The grammar's TEXTDATA.
    Text,
    /// A control, DEL or a byte from 128 on, which stands nowhere.
    Foreign,
}

const SORTS: [Sort; 256] = sorts();

const fn sorts() -> [Sort; 256] {
    let mut sorts = [Sort::Foreign; 256];
    let mut byte = 0x20;
    while byte <= 0x7E {
        sorts[byte] = Sort::Text;
        byte += 1;
    }
    sorts[b'"' as usize] = Sort::Quote;
    sorts[b',' as usize] = Sort::Comma;
    sorts[b'\r' as usize] = Sort::Return;
    sorts[b'\n' as usize] = Sort::Feed;
    sorts
}

/// Where the machine is.
#[derive(Clone, Copy, PartialEq, Eq)]
enum State {
    /// At the beginning of a field.
    Begin,
    /// In a field without quotes.
    Bare,
    /// Between the quotes of a field.
    Quoted,
    /// After a quote that closes its field unless another follows at once.
    Closed,
    /// After a CR that must be followed by an LF.
    Returned,
    /// At the end of the record.
    Ended,
}

/// The fields of a record without their enclosing quotes. A doubled quote stays doubled.
#[derive(Debug, Default)]
pub(super) struct Record {
    text: Vec<u8>,
    ends: Vec<usize>,
}

impl Record {
    fn clear(&mut self) {
        self.text.clear();
        self.ends.clear();
    }

    fn end_field(&mut self) {
        self.ends.push(self.text.len());
    }

    /// The fields, if there are as many as asked for.
    pub(super) fn fields<const COUNT: usize>(&self) -> Option<[&[u8]; COUNT]> {
        let ends: &[usize; COUNT] = self.ends.as_slice().try_into().ok()?;
        let mut start = 0;
        Some(ends.map(|end| {
            let field = &self.text[start..end];
            start = end;
            field
        }))
    }
}

/// A record that is outside the grammar.
#[derive(Debug, PartialEq, Eq)]
pub(super) struct IllFormed;

/// The records of a text in turn, up to the first that is outside the grammar.
pub(super) struct Records<'a> {
    rest: &'a [u8],
    record: Record,
}

impl<'a> Records<'a> {
    pub(super) fn of(text: &'a [u8]) -> Records<'a> {
        Records {
            rest: text,
            record: Record::default(),
        }
    }

    /// The next record, if there is one.
    pub(super) fn next(&mut self) -> Option<Result<&Record, IllFormed>> {
        if self.rest.is_empty() {
            return None;
        }
        self.record.clear();
        Some(self.copy_record().map(|()| &self.record))
    }

    fn copy_record(&mut self) -> Result<(), IllFormed> {
        let mut state = State::Begin;
        while state != State::Ended {
            let run = self.take_run();
            state = if run.is_empty() {
                self.take_other(state)?
            } else {
                self.record.text.extend_from_slice(run);
                after_text(state)?
            };
        }
        Ok(())
    }

    /// Takes a byte that is no text, or finds that the file has ended.
    fn take_other(&mut self, state: State) -> Result<State, IllFormed> {
        let byte = self.rest.split_off_first();
        let sort = byte.map(|byte| SORTS[usize::from(*byte)]);
        Ok(match (state, sort) {
            (State::Begin, Some(Sort::Quote)) => State::Quoted,
            (State::Begin | State::Bare | State::Closed, Some(Sort::Comma)) => {
                self.record.end_field();
                State::Begin
            }
            (State::Begin | State::Bare | State::Closed, Some(Sort::Return)) => State::Returned,
            (State::Begin | State::Bare | State::Closed, None)
            | (State::Returned, Some(Sort::Feed)) => {
                self.record.end_field();
                State::Ended
            }
            (State::Quoted, Some(Sort::Quote)) => State::Closed,
            (State::Quoted, Some(Sort::Comma | Sort::Return | Sort::Feed)) => {
                self.record.text.extend(byte);
                State::Quoted
            }
            (State::Closed, Some(Sort::Quote)) => {
                self.record.text.extend(b"\"\"");
                State::Quoted
            }
            _ => return Err(IllFormed),
        })
    }

    fn take_run(&mut self) -> &'a [u8] {
        let text = |byte: &u8| SORTS[usize::from(*byte)] == Sort::Text;
        let length = self.rest.iter().take_while(|byte| text(byte)).count();
        let (run, rest) = self.rest.split_at(length);
        self.rest = rest;
        run
    }
}

fn after_text(state: State) -> Result<State, IllFormed> {
    match state {
        State::Begin | State::Bare => Ok(State::Bare),
        State::Quoted => Ok(State::Quoted),
        State::Closed | State::Returned | State::Ended => Err(IllFormed),
    }
}

#[cfg(test)]
mod tests {
    use super::Records;

    /// The fields of each record as text, and `None` for one outside the grammar.
    fn split(text: &str) -> Vec<Option<Vec<String>>> {
        let mut records = Records::of(text.as_bytes());
        let mut found = Vec::new();
        while let Some(record) = records.next() {
            let Ok(record) = record else {
                found.push(None);
                break;
            };
            let mut start = 0;
            let mut fields = Vec::new();
            for end in &record.ends {
                fields.push(String::from_utf8_lossy(&record.text[start..*end]).into_owned());
                start = *end;
            }
            found.push(Some(fields));
        }
        found
    }

    fn all(records: &[&[&str]]) -> Vec<Option<Vec<String>>> {
        let owned = |fields: &&[&str]| Some(fields.iter().map(|field| field.to_string()).collect());
        records.iter().map(owned).collect()
    }

    #[test]
    fn texts_within_the_grammar() {
        assert_eq!(split(""), all(&[]));
        assert_eq!(split("\r\n"), all(&[&[""]]));
        assert_eq!(split("a"), all(&[&["a"]]));
        assert_eq!(split("a\r\n"), all(&[&["a"]]));
        assert_eq!(split("a\r\nb"), all(&[&["a"], &["b"]]));
        assert_eq!(split("a\r\n\r\nb"), all(&[&["a"], &[""], &["b"]]));
        assert_eq!(split(","), all(&[&["", ""]]));
        assert_eq!(split("\"\""), all(&[&[""]]));
        assert_eq!(split("\"a,\r\nb\",c"), all(&[&["a,\r\nb", "c"]]));
        assert_eq!(split("\"a\"\"b\"\r\n"), all(&[&["a\"\"b"]]));
        assert_eq!(split("\"\"\"\""), all(&[&["\"\""]]));
        assert_eq!(split(" ~!+,-"), all(&[&[" ~!+", "-"]]));
    }

    #[test]
    fn texts_outside_the_grammar() {
        let outside = [
            "\"",
            "a\"",
            "a\"b\"",
            "\"a\"b",
            "\"a\" ",
            "\"\"\"",
            "\n",
            "\r",
            "\r\r\n",
            "a\rb",
            "a\nb",
            "\0",
            "a\tb",
            "\"\t\"",
            "\u{7F}",
            "\"\u{7F}\"",
            "\u{80}",
            "\"\u{FEFF}\"",
            "\"a\"\n",
            "\"a\"\r",
        ];
        for text in outside {
            assert_eq!(split(text), [None], "{text:?}");
            let second = format!("a\r\n{text}");
            assert_eq!(split(&second).last(), Some(&None), "{second:?}");
        }
    }
}
