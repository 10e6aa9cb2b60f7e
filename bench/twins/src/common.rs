//! What the twins share: cells and columns, a fast hasher, and scattered numbers.

use std::hash::Hasher;

#[derive(Clone, PartialEq, Eq, Hash)]
pub enum Cell {
    Null,
    Whole(i64),
    Text(String),
}

pub enum Column {
    Whole(Vec<Option<i64>>),
    Text(Vec<Option<String>>),
}

impl Column {
    /// The texts or the whole numbers of these keys.
    pub fn of_keys(texts: bool, keys: impl Iterator<Item = u32>) -> Column {
        if texts {
            Column::Text(keys.map(|key| Some(format!("customer-{key}"))).collect())
        } else {
            Column::Whole(keys.map(|key| Some(i64::from(key))).collect())
        }
    }

    pub fn len(&self) -> usize {
        match self {
            Column::Whole(values) => values.len(),
            Column::Text(values) => values.len(),
        }
    }

    /// Copies a cell, into its own memory if both are texts.
    pub fn read(&self, row: usize, cell: &mut Cell) {
        match (self, &mut *cell) {
            (Column::Text(values), Cell::Text(own)) if values[row].is_some() => {
                own.clear();
                own.push_str(values[row].as_ref().unwrap());
            }
            (Column::Whole(values), _) => *cell = values[row].map_or(Cell::Null, Cell::Whole),
            (Column::Text(values), _) => *cell = values[row].clone().map_or(Cell::Null, Cell::Text),
        }
    }
}

/// A fast hasher of words, as in `rustc-hash`.
#[derive(Default)]
pub struct Fast(u64);

impl Hasher for Fast {
    fn finish(&self) -> u64 {
        self.0.rotate_left(26)
    }

    fn write(&mut self, bytes: &[u8]) {
        for word in bytes.chunks(8) {
            let mut whole = [0; 8];
            whole[..word.len()].copy_from_slice(word);
            self.write_u64(u64::from_le_bytes(whole));
        }
    }

    fn write_u64(&mut self, word: u64) {
        self.0 = (self.0.wrapping_add(word)).wrapping_mul(0xf135_7aea_2e62_a9c5);
    }

    fn write_usize(&mut self, word: usize) {
        self.write_u64(word as u64);
    }

    fn write_isize(&mut self, word: isize) {
        self.write_u64(word as u64);
    }

    fn write_i64(&mut self, word: i64) {
        self.write_u64(word as u64);
    }
}

pub fn scattered(i: u32) -> u32 {
    let x = i.wrapping_mul(0x9E37_79B1);
    x ^ (x >> 15)
}
