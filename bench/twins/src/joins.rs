//! The joins of `joins/src/main.rt.txt` in plain Rust: the same columns and batches over the standard library's `HashMap`,
//! once with its own hasher and once with a fast one.

mod common;

use common::{Cell, Column, Fast, scattered};
use std::collections::HashMap;
use std::hash::{BuildHasher, BuildHasherDefault, RandomState};
use std::time::Instant;

const LEFT_ROWS: u32 = 1_000_000;
const RIGHT_ROWS: u32 = 100_000;
const BATCH: u32 = 1_024;

impl Column {
    fn gather(&self, places: &[usize]) -> Column {
        match self {
            Column::Whole(values) => Column::Whole(places.iter().map(|p| values[*p]).collect()),
            Column::Text(values) => {
                Column::Text(places.iter().map(|p| values[*p].clone()).collect())
            }
        }
    }

    fn gather_optional(&self, places: &[Option<usize>]) -> Column {
        match self {
            Column::Whole(values) => {
                Column::Whole(places.iter().map(|p| p.and_then(|p| values[p])).collect())
            }
            Column::Text(values) => Column::Text(
                places.iter().map(|p| p.and_then(|p| values[p].clone())).collect(),
            ),
        }
    }
}

// The key column, then the others.
struct Batch {
    columns: Vec<Column>,
}

struct Table<S> {
    right: Batch,
    places: HashMap<Vec<Cell>, Vec<usize>, S>,
}

impl<S: BuildHasher + Default> Table<S> {
    fn build(right: Batch) -> Table<S> {
        let mut places: HashMap<Vec<Cell>, Vec<usize>, S> = HashMap::default();
        let mut key = vec![Cell::Null];
        for row in 0..right.columns[0].len() {
            right.columns[0].read(row, &mut key[0]);
            if matches!(key[0], Cell::Null) {
                continue;
            }
            match places.get_mut(&key) {
                Some(rows) => rows.push(row),
                None => {
                    places.insert(key.clone(), vec![row]);
                }
            }
        }
        Table { right, places }
    }

    fn probe(&self, left: &Batch) -> Batch {
        let mut key = vec![Cell::Null];
        let mut left_places = Vec::new();
        let mut right_places = Vec::new();
        for row in 0..left.columns[0].len() {
            left.columns[0].read(row, &mut key[0]);
            match self.places.get(&key) {
                Some(rows) => {
                    for place in rows {
                        left_places.push(row);
                        right_places.push(Some(*place));
                    }
                }
                None => {
                    left_places.push(row);
                    right_places.push(None);
                }
            }
        }
        let mut columns = Vec::new();
        for column in &left.columns {
            columns.push(column.gather(&left_places));
        }
        for column in &self.right.columns[1..] {
            columns.push(column.gather_optional(&right_places));
        }
        Batch { columns }
    }
}

fn batch(texts: bool, keys: impl Iterator<Item = u32>, values: std::ops::Range<u32>) -> Batch {
    let values = values.map(|value| Some(i64::from(value))).collect();
    Batch {
        columns: vec![Column::of_keys(texts, keys), Column::Whole(values)],
    }
}

fn time<S: BuildHasher + Default>(name: &str, texts: bool, distinct: u32) {
    let mut left = Vec::new();
    let mut start = 0;
    while start < LEFT_ROWS {
        let end = LEFT_ROWS.min(start + BATCH);
        left.push(batch(texts, (start..end).map(|i| scattered(i) % RIGHT_ROWS), start..end));
        start = end;
    }
    let keys = (0..RIGHT_ROWS).map(|i| i.wrapping_mul(7919) % distinct);
    let right = batch(texts, keys, 0..RIGHT_ROWS);
    let clock = Instant::now();
    let table = Table::<S>::build(right);
    let built = clock.elapsed();
    let clock = Instant::now();
    let mut rows = 0;
    let mut sum = 0i64;
    for batch in &left {
        let joined = table.probe(batch);
        if let Some(Column::Whole(values)) = joined.columns.last() {
            rows += values.len();
            for value in values {
                sum = sum.wrapping_add(value.unwrap_or(0));
            }
        }
    }
    let probed = clock.elapsed();
    println!(
        "{name}: build {} us, probe {} us, {rows} rows, sum {sum}",
        built.as_micros(),
        probed.as_micros()
    );
}

fn main() {
    for _ in 0..3 {
        time::<RandomState>("std hasher, whole keys", false, RIGHT_ROWS);
        time::<RandomState>("std hasher, text keys", true, RIGHT_ROWS);
        time::<RandomState>("std hasher, whole keys of 4 rows", false, RIGHT_ROWS / 4);
        time::<BuildHasherDefault<Fast>>("fast hasher, whole keys", false, RIGHT_ROWS);
        time::<BuildHasherDefault<Fast>>("fast hasher, text keys", true, RIGHT_ROWS);
        time::<BuildHasherDefault<Fast>>("fast hasher, whole keys of 4 rows", false, RIGHT_ROWS / 4);
    }
}
