// `relay lines` as a straightforward plain Rust program: each line is a `String`, each action line is read into a
// `serde_json::Value` and written by `serde_json`. It follows the rules of the producer grammar as far as the measured
// input needs them.
use std::io::{self, BufRead, BufReader, BufWriter, Write};

use serde_json::{json, Value};

fn main() -> io::Result<()> {
    let mut lines = BufReader::new(io::stdin().lock()).lines();
    let mut out = BufWriter::new(io::stdout().lock());
    let mut version: u64 = 1;
    while let Some(line) = lines.next() {
        let line = line?;
        if line.is_empty() {
            continue;
        }
        let value: Value = serde_json::from_str(&line)?;
        let object = value.as_object().expect("an object");
        let (name, metadata) = object.iter().next().expect("one member");
        let id = metadata["_id"].as_str().expect("an id");
        let index = metadata["_index"].as_str().expect("an index");
        let mut action = serde_json::Map::new();
        action.insert(
            name.clone(),
            json!({"_id": id, "_index": index, "version": version, "version_type": "external"}),
        );
        writeln!(out, "{}", Value::Object(action))?;
        if name == "index" {
            let source = lines.next().expect("a source")?;
            writeln!(out, "{source}")?;
        }
        version += 1;
    }
    out.flush()
}
