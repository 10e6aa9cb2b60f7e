//! The groupings of `groups/src/main.rt.txt` in plain Rust: the same columns and batches over the standard library's
//! `HashMap`, once with its own hasher and once with a fast one.

mod common;

use common::{Cell, Column, Fast, scattered};
use std::collections::HashMap;
use std::hash::{BuildHasher, BuildHasherDefault, RandomState};
use std::time::{Duration, Instant};

const BATCHES: u32 = 4_883;
const BATCH: u32 = 1_024;

// The key column, and one of values.
struct Batch {
    keys: Column,
    values: Vec<Option<i64>>,
}

// The groups in the order of their first rows: a sum and a number of rows for each.
struct Grouper<S> {
    numbers: HashMap<Vec<Cell>, usize, S>,
    states: Vec<(i128, u64)>,
}

impl<S: BuildHasher + Default> Grouper<S> {
    fn new() -> Grouper<S> {
        Grouper {
            numbers: HashMap::default(),
            states: Vec::new(),
        }
    }

    fn take(&mut self, batch: &Batch) {
        let mut key = vec![Cell::Null];
        for row in 0..batch.keys.len() {
            batch.keys.read(row, &mut key[0]);
            let number = match self.numbers.get(&key) {
                Some(number) => *number,
                None => {
                    let number = self.states.len();
                    self.numbers.insert(key.clone(), number);
                    self.states.push((0, 0));
                    number
                }
            };
            let state = &mut self.states[number];
            state.0 += i128::from(batch.values[row].unwrap_or(0));
            state.1 += 1;
        }
    }

    fn finish(self) -> (Vec<Cell>, Vec<i64>, Vec<i64>) {
        let mut keys = vec![Cell::Null; self.states.len()];
        for (key, number) in self.numbers {
            keys[number] = key.into_iter().next().unwrap();
        }
        let sums = self.states.iter().map(|s| i64::try_from(s.0).unwrap()).collect();
        let counts = self.states.iter().map(|s| s.1 as i64).collect();
        (keys, sums, counts)
    }
}

fn batch_of(texts: bool, start: u32, groups: u32) -> Batch {
    let keys = (0..BATCH).map(|i| scattered(start.wrapping_add(i)) % groups);
    Batch {
        keys: Column::of_keys(texts, keys),
        values: (0..BATCH).map(|i| Some(i64::from(start.wrapping_add(i)))).collect(),
    }
}

fn time<S: BuildHasher + Default>(name: &str, texts: bool, groups: u32) {
    let mut grouper = Grouper::<S>::new();
    let mut taken = Duration::ZERO;
    let mut rows = 0;
    for i in 0..BATCHES {
        let batch = batch_of(texts, i.wrapping_mul(BATCH), groups);
        let clock = Instant::now();
        grouper.take(&batch);
        taken += clock.elapsed();
        rows += batch.keys.len();
    }
    let clock = Instant::now();
    let (keys, sums, counts) = grouper.finish();
    let finished = clock.elapsed();
    println!(
        "{name}: take {} ms, finish {} ms, {rows} rows, {} groups, sum {}, len {}",
        taken.as_millis(),
        finished.as_millis(),
        keys.len(),
        sums.iter().sum::<i64>(),
        counts.iter().sum::<i64>()
    );
}

fn main() {
    for _ in 0..3 {
        time::<RandomState>("std hasher, 100 text keys", true, 100);
        time::<RandomState>("std hasher, 200,000 whole keys", false, 200_000);
        time::<RandomState>("std hasher, 2,000,000 whole keys", false, 2_000_000);
        time::<BuildHasherDefault<Fast>>("fast hasher, 100 text keys", true, 100);
        time::<BuildHasherDefault<Fast>>("fast hasher, 200,000 whole keys", false, 200_000);
        time::<BuildHasherDefault<Fast>>("fast hasher, 2,000,000 whole keys", false, 2_000_000);
    }
}
