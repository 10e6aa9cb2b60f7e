//! The plain Rust twin: splits records and fields of bytes itself, with quotes read as RFC 4180 has them, and keeps the
//! same columns in batches of 1,024 rows that are appended to one.
use std::io::{BufRead, BufReader, Read};

#[derive(Default)]
struct Columns {
    ids: Vec<i64>,
    values: Vec<i64>,
    names: Vec<String>,
    validity: [Vec<bool>; 2],
}

impl Columns {
    fn append(&mut self, other: &mut Columns) {
        self.ids.append(&mut other.ids);
        self.values.append(&mut other.values);
        self.names.append(&mut other.names);
        for (mine, theirs) in self.validity.iter_mut().zip(&mut other.validity) {
            mine.append(theirs);
        }
    }
}

// A record's fields, unquoted, one after the other, and where each ends.
#[derive(Default)]
struct Record {
    bytes: Vec<u8>,
    ends: Vec<usize>,
}

impl Record {
    fn field(&self, i: usize) -> &[u8] {
        let start = if i == 0 { 0 } else { self.ends[i - 1] };
        &self.bytes[start..self.ends[i]]
    }

    fn read(&mut self, reader: &mut impl BufRead) -> std::io::Result<bool> {
        self.bytes.clear();
        self.ends.clear();
        let (mut quoted, mut any) = (false, false);
        loop {
            let chunk = reader.fill_buf()?;
            if chunk.is_empty() {
                if any {
                    self.ends.push(self.bytes.len());
                }
                return Ok(any);
            }
            let mut used = 0;
            let mut ended = false;
            for &byte in chunk {
                used += 1;
                match byte {
                    b'"' => {
                        quoted = !quoted;
                        any = true;
                    }
                    b',' if !quoted => {
                        self.ends.push(self.bytes.len());
                        any = true;
                    }
                    b'\n' | b'\r' if !quoted => {
                        if any {
                            ended = true;
                            break;
                        }
                    }
                    byte => {
                        self.bytes.push(byte);
                        any = true;
                    }
                }
            }
            reader.consume(used);
            if ended {
                self.ends.push(self.bytes.len());
                return Ok(true);
            }
        }
    }
}

fn whole(field: &[u8]) -> Option<i64> {
    std::str::from_utf8(field).ok()?.parse().ok()
}

fn push(batch: &mut Columns, record: &Record, has_text: bool) -> Option<()> {
    let id = record.field(0);
    batch.validity[0].push(!id.is_empty());
    batch.ids.push(if id.is_empty() { 0 } else { whole(id)? });
    let value = record.field(1);
    batch.validity[1].push(!value.is_empty());
    if has_text {
        batch.names.push(std::str::from_utf8(value).ok()?.to_owned());
    } else {
        batch.values.push(if value.is_empty() { 0 } else { whole(value)? });
    }
    Some(())
}

fn rows(input: impl Read, has_text: bool) -> Option<usize> {
    let mut reader = BufReader::with_capacity(8192, input);
    let mut record = Record::default();
    let (mut all, mut batch) = (Columns::default(), Columns::default());
    record.read(&mut reader).ok()?;
    while record.read(&mut reader).ok()? {
        if record.ends.len() != 2 {
            return None;
        }
        push(&mut batch, &record, has_text)?;
        if batch.ids.len() == 1024 {
            all.append(&mut batch);
        }
    }
    all.append(&mut batch);
    Some(all.ids.len())
}

fn main() {
    let has_text = std::env::args().count() > 1;
    match rows(std::io::stdin().lock(), has_text) {
        Some(rows) => println!("{rows}"),
        None => std::process::exit(1),
    }
}
