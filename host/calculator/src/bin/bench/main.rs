//! How fast the exported check, the exported reader and the exported bookings are beside the calculator's, and the
//! program.
//!
//! Both get the same bytes and must leave the same bytes. Batches of both alternate, so that whatever
//! else the machine does meets both; the figure is the median batch.

mod booking;
mod check;
mod program;
mod read;
mod timing;

const SEED: u64 = 0x0801;

fn main() {
    check::run();
    println!();
    read::run();
    println!();
    booking::run();
    println!();
    program::run();
}
