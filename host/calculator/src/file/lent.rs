//! The reader and the LEIs of a file on the same lent bytes as the exported ones.

use margin_host::{Columns, Refusal};

use super::reader::{read, read_with_leis};
use crate::Sheet;
use crate::lei::LEI_LENGTH;

/// Returns the refusal number, 0 for accepted, and leaves in the lists what the reader must leave there.
#[must_use]
pub fn margin_read(
    text: &[u8],
    head: &mut [u8],
    columns: &mut Columns<&mut [u8]>,
    answer: &mut [u8],
) -> u64 {
    let fitting = read(text).and_then(|sheet| {
        let fits = head.len() >= 16 && fits(&sheet, columns) && answer.len() >= 16;
        fits.then_some(sheet).ok_or(Refusal::ListTooShort)
    });
    let (number, first, second) = match &fitting {
        Ok(sheet) => {
            write_two(head, sheet.head.date, sheet.head.letter);
            write_columns(sheet, columns);
            (0, sheet.side.len() as u64, sheet.long.len() as u64)
        }
        Err(refusal) => (refusal.number(), refusal.place(), 0),
    };
    write_two(answer, first, second);
    number
}

/// Returns the refusal number, 0 for a file that is read, and leaves in the lists what must be left there: the
/// LEIs of its corporations one after the other, and how many they are.
#[must_use]
pub fn margin_leis(text: &[u8], leis: &mut [u8], answer: &mut [u8]) -> u64 {
    let fitting = read_with_leis(text).and_then(|(_, found)| {
        let fits = leis.len() >= LEI_LENGTH * found.len() && answer.len() >= 16;
        fits.then_some(found).ok_or(Refusal::ListTooShort)
    });
    let (number, first) = match &fitting {
        Ok(found) => {
            for (slot, lei) in leis.chunks_mut(LEI_LENGTH).zip(found) {
                slot.copy_from_slice(lei);
            }
            (0, found.len() as u64)
        }
        Err(refusal) => (refusal.number(), refusal.place()),
    };
    write_two(answer, first, 0);
    number
}

/// Writes two numbers at the front of a list. One that is too short for both is kept.
fn write_two(list: &mut [u8], first: u64, second: u64) {
    if let ([low, high, ..], _) = list.as_chunks_mut::<8>() {
        *low = first.to_le_bytes();
        *high = second.to_le_bytes();
    }
}

/// Whether each column has room for what it must hold.
fn fits(sheet: &Sheet, columns: &Columns<&mut [u8]>) -> bool {
    let wanted = sheet.each_ref().map(Vec::len).into_array();
    let lent = columns.each_ref().map(|list| list.len()).into_array();
    wanted
        .iter()
        .zip(lent)
        .all(|(entries, bytes)| 8 * entries <= bytes)
}

fn write_columns(sheet: &Sheet, columns: &mut Columns<&mut [u8]>) {
    let lists = columns.each_mut().into_array();
    for (numbers, list) in sheet.each_ref().into_array().into_iter().zip(lists) {
        let slots = list.as_chunks_mut::<8>().0;
        for (slot, number) in slots.iter_mut().zip(numbers) {
            *slot = number.to_le_bytes();
        }
    }
}
