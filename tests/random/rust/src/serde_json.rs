//! Which files are JSON, and of which value, by the crate `serde_json`.
//!
//! For each file that is named, a line of JSON: a string with the value as the crate writes it, or `null` where the crate refuses the file.
use serde_json::{json, Value};

fn main() {
    for path in std::env::args_os().skip(1) {
        let text = std::fs::read(path).expect("a file that can be read");
        let written = serde_json::from_slice::<Value>(&text)
            .ok()
            .map(|value| value.to_string());
        println!("{}", json!(written));
    }
}
