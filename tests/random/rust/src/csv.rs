//! What frameq has to answer for CSV files, by the crate `csv`.
//!
//! For each file that is named, a line of JSON has a plan whose columns are the names of the file's header, all texts, and the answer to it:
//! the status, the output and the line on standard error. If no plan can have the first record as its header, the plan has another one.
use csv::{ByteRecord, ReaderBuilder, Writer};
use serde_json::json;
use std::collections::HashSet;
use std::str::from_utf8;

const MOST_COLUMNS: usize = 64;

/// An exit status, the output and the line on standard error.
type Answer = (u8, String, String);

fn main() {
    for path in std::env::args_os().skip(1) {
        let text = std::fs::read(path).expect("a file that can be read");
        let records = records(&text);
        let names = records.first().and_then(names);
        let columns: Vec<_> = names
            .as_deref()
            .unwrap_or(&["a"])
            .iter()
            .map(|name| json!([name, "text"]))
            .collect();
        let plan =
            json!({"version": 1, "sources": [{"files": 1, "columns": columns}], "steps": []});
        let (status, output, error) = if names.is_some() {
            answer(&records)
        } else {
            fault("file 0: header differs")
        };
        println!(
            "{}",
            json!({"plan": plan.to_string(), "status": status, "output": output, "error": error})
        );
    }
}

/// The records of a text, of any width.
fn records(text: &[u8]) -> Vec<ByteRecord> {
    let reader = ReaderBuilder::new()
        .has_headers(false)
        .flexible(true)
        .from_reader(text);
    reader
        .into_byte_records()
        .collect::<Result<_, _>>()
        .expect("a text in memory")
}

/// The names of a header, if a plan can have them.
fn names(header: &ByteRecord) -> Option<Vec<&str>> {
    let names: Vec<_> = header
        .iter()
        .map(|name| from_utf8(name).ok())
        .collect::<Option<_>>()?;
    let has_doubles = names.iter().collect::<HashSet<_>>().len() < names.len();
    (names.len() <= MOST_COLUMNS && !has_doubles).then_some(names)
}

/// The answer for a header and the rows after it: these as the crate prints them, or the first fault.
fn answer(records: &[ByteRecord]) -> Answer {
    let mut writer = Writer::from_writer(Vec::new());
    for (number, record) in records.iter().enumerate() {
        if record.len() != records[0].len() {
            return fault(&format!("file 0, row {number}: wrong number of fields"));
        }
        if let Some(column) = record.iter().position(|field| from_utf8(field).is_err()) {
            return fault(&format!("file 0, row {number}, column {column}: bad cell"));
        }
        writer.write_byte_record(record).expect("room in memory");
    }
    let printed = writer.into_inner().expect("room in memory");
    (
        0,
        String::from_utf8(printed).expect("fields in UTF-8"),
        String::new(),
    )
}

fn fault(line: &str) -> Answer {
    (4, String::new(), format!("frameq: {line}\n"))
}
