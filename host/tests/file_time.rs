//! How the time of a file grows with its records.

mod support;

use std::hint::black_box;
use std::time::{Duration, Instant};

use margin_calculator::texts::{equal_lines, last_lines};
use margin_host::{Columns, raw};
use support::file::{File, Files};

/// Calls on each text, of which the fastest counts: whatever else the machine does makes none faster.
const RUNS: usize = 1_000;

#[test]
fn ten_times_the_lines_take_at_most_twenty_times_as_long() {
    let mut files = Files::fixed("files of equal lines");
    for (name, last, number) in last_lines() {
        let texts = [50, 500].map(|count| {
            let text = equal_lines(count, &last);
            let file = File::exact(&text, 0, count);
            let what = format_args!("{count} lines, the last with {name}");
            if number > 0 {
                files.refused(&file, (number, count as u64), what);
            } else {
                let read = files.compare(&file, what);
                let counts = Some((0, count as u64));
                assert_eq!((read.number, read.figures()), (0, counts), "{what}");
            }
            text
        });
        let [short, long] = fastest(&texts);
        let times = long.as_secs_f64() / short.as_secs_f64();
        assert!(times <= 20.0, "{name}: {times:.1} times as long");
    }
}

/// The time of the fastest call on each of two texts, which are read in turn.
fn fastest(texts: &[Vec<u8>; 2]) -> [Duration; 2] {
    let (mut head, mut answer) = ([0; 8], [0; 16]);
    let mut lists = Columns::by_group(vec![0; 8 * 256], vec![0; 8 * 512]);
    let mut columns = lists.each_mut().map(Vec::as_mut_slice);
    let mut fastest = [Duration::MAX; 2];
    for _ in 0..RUNS {
        for (text, least) in texts.iter().zip(&mut fastest) {
            let start = Instant::now();
            let number = raw::margin_read(black_box(text), &mut head, &mut columns, &mut answer);
            *least = start.elapsed().min(*least);
            black_box(number);
        }
    }
    fastest
}
