//! The file: its records read into a sheet, and the lines that the program prints for it.

mod lent;
mod printer;
mod reader;
mod records;

pub use lent::{margin_leis, margin_read};
pub use printer::print;
pub use reader::{ACCOUNTS, CURRENCIES, FIELDS, ISSUERS, KINDS, MOST_BYTES, RATINGS, SIDES, read};
