//! What the program `margin` prints for a file.

use margin_host::{Head, Refusal};

use super::reader::read;
use crate::{Sheet, margin_check};

/// The lines M and R of an accepted file, or the line X of a refused one, each with its CRLF.
#[must_use]
pub fn print(text: &[u8]) -> Vec<u8> {
    let lines = read(text).and_then(|sheet| report(&sheet));
    let lines = lines.unwrap_or_else(|refusal| {
        let (number, place, second) = (refusal.number(), refusal.place(), refusal.second());
        vec![format!("X,{number},{place},{second}")]
    });
    let printed: Vec<String> = lines.into_iter().map(|line| line + "\r\n").collect();
    printed.concat().into_bytes()
}

/// The lines of a sheet that the check accepts: the figures, then each holding in ranking order.
fn report(sheet: &Sheet) -> Result<Vec<String>, Refusal> {
    let bytes = 8 * sheet.side.len();
    let (mut remainder, mut ranking, mut answer) = (vec![0; bytes], vec![0; bytes], [0; 16]);
    let columns = sheet.bytes();
    let columns = columns.each_ref().map(Vec::as_slice);
    let Head { date, letter } = sheet.head;
    let number = margin_check(
        date,
        letter,
        &columns,
        &mut remainder,
        &mut ranking,
        &mut answer,
    );
    let [first, second] = [0, 1].map(|at| entry(&answer, at));
    if number != 0 {
        let refusal = Refusal::from_parts(number, first, second);
        return Err(refusal.expect("the plain check gives its refusals their places"));
    }
    let mut lines = vec![format!("M,{first},{second}")];
    for rank in 0..sheet.side.len() {
        let holding = entry(&ranking, rank) as usize;
        let left = entry(&remainder, holding);
        let units = sheet.position(holding).rate * left;
        lines.push(format!("R,{holding},{left},{units}"));
    }
    Ok(lines)
}

fn entry(list: &[u8], at: usize) -> u64 {
    u64::from_le_bytes(list.as_chunks::<8>().0[at])
}

#[cfg(test)]
mod tests {
    use super::print;
    use crate::texts::{PRINTED, joined};

    /// What is printed for the printed file with one text for another.
    fn print_with(old: &str, new: &str) -> Vec<u8> {
        print(&joined(&PRINTED.map(|record| record.replace(old, new))))
    }

    #[test]
    fn the_printed_file() {
        let printed = "M,3285000000,22500\r\n\
                       R,0,100000,438000000\r\n\
                       R,1,0,0\r\n\
                       R,2,0,0\r\n";
        assert_eq!(print(&joined(&PRINTED)), printed.as_bytes());
    }

    #[test]
    fn refused_files() {
        assert_eq!(print_with("6570", "6569"), b"X,16,0,2\r\n");
        assert_eq!(print_with("6570,CAD,", "6570,CAD,Y"), b"X,25,3,0\r\n");
        assert_eq!(print_with("P,0,2", "P,0,\"2"), b"X,19,5,0\r\n");
        assert_eq!(print_with("2025-01-01", "2025-02-29"), b"X,24,0,0\r\n");
        assert_eq!(print_with("2025-01-01", "2030-06-24"), b"X,7,0,0\r\n");
        assert_eq!(
            print_with("D,2025-01-01,P", "D,2025-01-01,"),
            b"X,21,0,0\r\n"
        );
        assert_eq!(print(&[b','; 65_537]), b"X,18,0,0\r\n");
    }

    #[test]
    fn files_without_a_holding() {
        assert_eq!(print(b""), b"X,22,0,0\r\n");
        assert_eq!(print(&joined(&PRINTED[..1])), b"M,0,0\r\n");
        assert_eq!(print(&joined(&PRINTED[1..])), b"X,22,0,0\r\n");
        assert_eq!(print(&joined(&[PRINTED[0]; 2])), b"X,22,1,0\r\n");
    }
}
