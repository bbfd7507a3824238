// Reads one reply again and again in plain Rust, each time into a `serde_json::Value`, and takes from it the fields that
// `read_reply` takes: the action's name, `_id`, `status` and the error's type.
use serde_json::Value;
use std::hint::black_box;
use std::io::{self, Read};
use std::time::Instant;

#[allow(dead_code)]
enum Kind {
    Index,
    Delete,
}

#[allow(dead_code)]
struct Outcome {
    kind: Kind,
    id: String,
    status: u16,
    error: Option<String>,
}

fn read_entry(value: &Value) -> Option<Outcome> {
    let object = value.as_object()?;
    if object.len() != 1 {
        return None;
    }
    let (name, fields) = object.iter().next()?;
    let kind = match name.as_str() {
        "index" => Kind::Index,
        "delete" => Kind::Delete,
        _ => return None,
    };
    let id = fields.get("_id")?.as_str()?.to_string();
    let status = fields.get("status")?.as_u64()?;
    if !(100..=599).contains(&status) {
        return None;
    }
    let error = match fields.get("error") {
        Some(error) if !error.is_null() => {
            let text = error.get("type").and_then(Value::as_str).unwrap_or("");
            let mut end = text.len().min(64);
            while !text.is_char_boundary(end) {
                end -= 1;
            }
            Some(text[..end].to_string())
        }
        _ => None,
    };
    Some(Outcome { kind, id, status: status as u16, error })
}

fn read_reply(body: &[u8]) -> Option<Vec<Outcome>> {
    let value: Value = serde_json::from_slice(body).ok()?;
    value.get("items")?.as_array()?.iter().map(read_entry).collect()
}

fn main() {
    let turns: u64 = std::env::args().nth(1).and_then(|word| word.parse().ok()).expect("usage: replies TURNS < BODY");
    let mut body = Vec::new();
    io::stdin().read_to_end(&mut body).expect("a body");
    let mut last = (0, 0, 0u64);
    let start = Instant::now();
    for _ in 0..turns {
        let outcomes = read_reply(black_box(&body)).expect("a reply");
        let errors = outcomes.iter().filter(|outcome| outcome.error.is_some()).count();
        last = (outcomes.len(), errors, outcomes.iter().map(|outcome| u64::from(outcome.status)).sum());
        black_box(&outcomes);
    }
    let nanoseconds = start.elapsed().as_nanos();
    let (items, errors, statuses) = last;
    println!("{items} items, {errors} errors, statuses {statuses}, {:.1} ns an item", nanoseconds as f64 / (items as u64 * turns) as f64);
}
