//! Times each call on our sets and on upstream's in turn, and prints the least times in ns. `run` builds it.

mod ours;
mod theirs;
#[path = "../../bench/turns.rs"]
mod turns;

use std::array;
use std::time::{Duration, Instant};
use turns::turns;

/// How often each side is timed, and for how long at least.
const TURNS: usize = 31;
const LEAST: Duration = Duration::from_micros(100);

const LENGTHS: [usize; 4] = [100, 1_000, 30_000, 1_000_000];

/// Something that is timed, and how many items one round of it has.
pub struct Row {
    name: &'static str,
    items: usize,
    run: Box<dyn FnMut(usize)>,
}

impl Row {
    pub fn new(name: &'static str, items: usize, run: impl FnMut(usize) + 'static) -> Self {
        let run = Box::new(run);
        Row { name, items, run }
    }

    fn time(&mut self, rounds: usize) -> Duration {
        let begun = Instant::now();
        (self.run)(rounds);
        begun.elapsed()
    }

    /// As many rounds as take long enough to be timed.
    fn rounds(&mut self) -> usize {
        let mut rounds = 1;
        while self.time(rounds) < LEAST {
            rounds *= 2;
        }
        rounds
    }
}

/// The least times of an item on both sides, in ns. Each side makes as many rounds as it needs by itself.
fn least(mut sides: [Row; 2]) -> [f64; 2] {
    let rounds = sides.each_mut().map(Row::rounds);
    let mut least = [Duration::MAX; 2];
    for () in turns(TURNS) {
        for ((row, rounds), least) in sides.iter_mut().zip(rounds).zip(&mut least) {
            *least = row.time(rounds).min(*least);
        }
    }
    array::from_fn(|side| {
        let items = rounds[side] * sides[side].items.max(1);
        least[side].as_nanos() as f64 / items as f64
    })
}

/// The least times on both sides at each length, in ns.
type Times = [[f64; 2]; LENGTHS.len()];

/// Times each row.
fn timed() -> Vec<(&'static str, Times)> {
    let mut rows = Vec::new();
    for (column, bits) in LENGTHS.into_iter().enumerate() {
        let sides = ours::rows::rows(bits)
            .into_iter()
            .zip(theirs::rows::rows(bits));
        for (index, (one, other)) in sides.enumerate() {
            assert_eq!(one.items, other.items);
            if column == 0 {
                rows.push((one.name, [[f64::NAN; 2]; LENGTHS.len()]));
            }
            rows[index].1[column] = least([one, other]);
        }
    }
    rows
}

/// Keeps the less of each time and the one that stands in the line.
fn take_less(times: &mut Times, line: &str) {
    let earlier = line
        .split_whitespace()
        .map(|it| it.parse().expect("a time"));
    times
        .as_flattened_mut()
        .iter_mut()
        .zip(earlier)
        .for_each(|(time, it)| *time = time.min(it));
}

/// Prints the rows of times.csv, but for the processor, and then what is to be said of them.
fn print_rows(rows: &[(&str, Times)]) {
    for (name, times) in rows {
        for (bits, [ours, theirs]) in LENGTHS.iter().zip(times) {
            println!("\"{name}\",{bits},{ours:.3},{theirs:.3}");
        }
    }
    println!("# {}", turns::said());
}

/// How many rounds of each row are counted.
const COUNTED: usize = 64;

/// Does nothing. `count` has the instructions before each call of it and behind it counted by themselves.
#[unsafe(no_mangle)]
#[inline(never)]
extern "C" fn count_apart() {
    std::hint::black_box(());
}

/// Runs the rows of both sides at the two lower lengths, and prints for each how many items are counted.
fn run_counted() {
    for bits in &LENGTHS[..2] {
        for (one, other) in ours::rows::rows(*bits)
            .into_iter()
            .zip(theirs::rows::rows(*bits))
        {
            println!("{}|{bits}|{}", one.name, COUNTED * one.items.max(1));
            for mut row in [one, other] {
                (row.run)(COUNTED);
                count_apart();
                (row.run)(COUNTED);
                count_apart();
            }
        }
    }
}

/// Prints the times alone, or with files of such times rows with the least of all. With `count` it prints what
/// `count` reads.
fn main() {
    let files: Vec<String> = std::env::args().skip(1).collect();
    if files == ["count"] {
        return run_counted();
    }
    let mut rows = timed();
    if files.is_empty() {
        for (_, times) in &rows {
            let line: Vec<_> = times.as_flattened().iter().map(f64::to_string).collect();
            println!("{}", line.join(" "));
        }
        return;
    }
    for file in files {
        let text = std::fs::read_to_string(file).expect("the times of another program");
        for ((_, times), line) in rows.iter_mut().zip(text.lines()) {
            take_less(times, line);
        }
    }
    print_rows(&rows);
}
