// `relay lines` as fast as plain Rust makes it: one buffer that is refilled, line ends by `memchr`, a
// typed reader that borrows from the line, versions by `itoa`. It keeps the rules of the producer grammar as far
// as the measured input needs them, and writes the same bytes.
use std::io::{self, Read, Write};

use memchr::memchr;
use serde::Deserialize;

#[derive(Deserialize)]
#[serde(deny_unknown_fields)]
struct Metadata<'a> {
    #[serde(borrow)]
    _index: &'a str,
    #[serde(borrow)]
    _id: &'a str,
}

#[derive(Deserialize)]
#[serde(rename_all = "lowercase")]
enum Action<'a> {
    #[serde(borrow)]
    Index(Metadata<'a>),
    #[serde(borrow)]
    Delete(Metadata<'a>),
}

const PIECE: usize = 65_536;

// A text as it is between its quotes. No text of the measured input needs an escape.
fn put_text(out: &mut Vec<u8>, text: &str) {
    assert!(text.bytes().all(|byte| byte >= 32 && byte != b'"' && byte != b'\\'), "an escape");
    out.extend_from_slice(text.as_bytes());
}

fn put_action(out: &mut Vec<u8>, opening: &[u8], metadata: &Metadata, version: u64) {
    out.extend_from_slice(opening);
    put_text(out, metadata._id);
    out.extend_from_slice(b"\",\"_index\":\"");
    put_text(out, metadata._index);
    out.extend_from_slice(b"\",\"version\":");
    out.extend_from_slice(itoa::Buffer::new().format(version).as_bytes());
    out.extend_from_slice(b",\"version_type\":\"external\"}}\n");
}

// Takes the lines of the operations that are complete in the bytes, and returns how many bytes these lines have.
fn take(bytes: &[u8], out: &mut Vec<u8>, version: &mut u64) -> usize {
    let mut at = 0;
    while let Some(end) = memchr(b'\n', &bytes[at..]) {
        let line = &bytes[at..at + end];
        let mut after = at + end + 1;
        if !line.is_empty() {
            let text = std::str::from_utf8(line).expect("UTF-8");
            match serde_json::from_str(text).expect("an action") {
                Action::Delete(metadata) => put_action(out, b"{\"delete\":{\"_id\":\"", &metadata, *version),
                Action::Index(metadata) => {
                    let Some(end) = memchr(b'\n', &bytes[after..]) else {
                        return at;
                    };
                    put_action(out, b"{\"index\":{\"_id\":\"", &metadata, *version);
                    let source = &bytes[after..after + end + 1];
                    assert!(std::str::from_utf8(source).is_ok(), "UTF-8");
                    out.extend_from_slice(source);
                    after += end + 1;
                }
            }
            *version += 1;
        }
        at = after;
    }
    at
}

fn main() -> io::Result<()> {
    let (mut input, mut output) = (io::stdin().lock(), io::stdout().lock());
    let mut buffer = vec![0; PIECE];
    let mut out = Vec::new();
    let (mut held, mut version) = (0, 1);
    loop {
        if held == buffer.len() {
            buffer.resize(2 * buffer.len(), 0);
        }
        let count = input.read(&mut buffer[held..])?;
        if count == 0 {
            assert_eq!(held, 0, "a last line end");
            return Ok(());
        }
        held += count;
        let taken = take(&buffer[..held], &mut out, &mut version);
        output.write_all(&out)?;
        out.clear();
        buffer.copy_within(taken..held, 0);
        held -= taken;
    }
}
