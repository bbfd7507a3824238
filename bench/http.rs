// Reads one HTTP reply again and again in plain Rust, with httparse and a vector, or writes one request again and again:
// `http read TURNS < REPLY`, `http write WRITES BYTES TURNS`.
use std::hint::black_box;
use std::io::{self, BufWriter, Read, Write};
use std::time::Instant;

// What a head says: the status, the size of the head, the length of the body, and whether the body is chunked.
fn parse_head(bytes: &[u8]) -> Option<(u16, usize, usize, bool)> {
    let mut headers = [httparse::EMPTY_HEADER; 64];
    let mut head = httparse::Response::new(&mut headers);
    let size = match head.parse(bytes).expect("a head") {
        httparse::Status::Complete(size) => size,
        httparse::Status::Partial => return None,
    };
    let (mut length, mut chunked) = (0, false);
    for header in head.headers.iter() {
        if header.name.eq_ignore_ascii_case("content-length") {
            length = std::str::from_utf8(header.value).expect("digits").trim().parse().expect("a length");
        }
        if header.name.eq_ignore_ascii_case("transfer-encoding") {
            chunked = header.value.eq_ignore_ascii_case(b"chunked");
        }
    }
    Some((head.code.expect("a status"), size, length, chunked))
}

// A stream, and what was read from it and not used yet.
struct Conn<R> {
    stream: R,
    held: Vec<u8>,
    at: usize,
}

impl<R: Read> Conn<R> {
    fn fill(&mut self) {
        if self.at == self.held.len() {
            self.held.clear();
            self.at = 0;
        }
        let old = self.held.len();
        self.held.resize(old + 16_384, 0);
        let count = self.stream.read(&mut self.held[old..]).expect("a read");
        assert!(count > 0, "the stream ended");
        self.held.truncate(old + count);
    }

    // Appends `count` bytes of the stream to a body.
    fn take(&mut self, count: usize, body: &mut Vec<u8>) {
        let front = count.min(self.held.len() - self.at);
        body.extend_from_slice(&self.held[self.at..self.at + front]);
        self.at += front;
        let old = body.len();
        body.resize(old + count - front, 0);
        self.stream.read_exact(&mut body[old..]).expect("a body");
    }

    fn chunk_size(&mut self) -> usize {
        loop {
            match httparse::parse_chunk_size(&self.held[self.at..]).expect("a size") {
                httparse::Status::Complete((used, size)) => {
                    self.at += used;
                    return size as usize;
                }
                httparse::Status::Partial => self.fill(),
            }
        }
    }

    fn skip_line_end(&mut self) {
        while self.held.len() - self.at < 2 {
            self.fill();
        }
        assert_eq!(&self.held[self.at..self.at + 2], b"\r\n");
        self.at += 2;
    }

    fn read_reply(&mut self) -> (u16, Vec<u8>) {
        let (status, size, length, chunked) = loop {
            self.fill();
            if let Some(head) = parse_head(&self.held) {
                break head;
            }
        };
        self.at = size;
        let mut body = Vec::new();
        if !chunked {
            self.take(length, &mut body);
            return (status, body);
        }
        loop {
            let size = self.chunk_size();
            if size == 0 {
                self.skip_line_end();
                return (status, body);
            }
            self.take(size, &mut body);
            self.skip_line_end();
        }
    }
}

fn read(turns: u64) {
    let mut bytes = Vec::new();
    io::stdin().read_to_end(&mut bytes).expect("a reply");
    let (mut last, mut nanoseconds) = ((0, 0), 0);
    for _ in 0..turns {
        let input = bytes.clone();
        let start = Instant::now();
        let mut conn = Conn { stream: black_box(input.as_slice()), held: Vec::new(), at: 0 };
        let (status, body) = conn.read_reply();
        nanoseconds += start.elapsed().as_nanos();
        last = (status, black_box(body).len());
    }
    println!("status {}, {} bytes, {:.1} ns a reading", last.0, last.1, nanoseconds as f64 / turns as f64);
}

struct Document {
    index: String,
    id: String,
    version: u64,
    source: String,
}

// The length of a text as a JSON string.
fn quoted_len(text: &str) -> usize {
    let escaped = |byte| match byte {
        b'"' | b'\\' | 8 | 9 | 10 | 12 | 13 => 2,
        0..=31 => 6,
        _ => 1,
    };
    2 + text.bytes().map(escaped).sum::<usize>()
}

// The length of the lines of a document.
fn lines_len(document: &Document) -> usize {
    let marks = "{\"index\":{\"_id\":,\"_index\":,\"version\":,\"version_type\":\"external\"}}\n\n".len();
    let digits = document.version.ilog10() as usize + 1;
    marks + quoted_len(&document.id) + quoted_len(&document.index) + digits + document.source.len()
}

fn append(out: &mut impl Write, document: &Document) -> io::Result<()> {
    out.write_all(b"{\"index\":{\"_id\":")?;
    serde_json::to_writer(&mut *out, &document.id)?;
    out.write_all(b",\"_index\":")?;
    serde_json::to_writer(&mut *out, &document.index)?;
    write!(out, ",\"version\":{},\"version_type\":\"external\"}}}}\n", document.version)?;
    out.write_all(document.source.as_bytes())?;
    out.write_all(b"\n")
}

// Writes the head, with the length that the lines will have, and then line by line.
fn write_request(stream: &mut Vec<u8>, documents: &[Document]) -> io::Result<usize> {
    let size = documents.iter().map(lines_len).sum();
    let mut out = BufWriter::with_capacity(65536, stream);
    write!(out, "POST /_bulk HTTP/1.1\r\nHost: {}\r\nContent-Type: application/x-ndjson\r\nContent-Length: {}\r\n\r\n", "127.0.0.1:9200", size)?;
    for document in documents {
        append(&mut out, document)?;
    }
    out.flush()?;
    Ok(size)
}

fn write(count: u64, size: usize, turns: u64) {
    let documents: Vec<Document> = (1..=count)
        .map(|version| Document { index: "books".to_string(), id: version.to_string(), version, source: "x".repeat(size) })
        .collect();
    let (mut bytes, mut nanoseconds) = (0, 0);
    for _ in 0..turns {
        let mut stream = Vec::with_capacity(bytes + 1024);
        let start = Instant::now();
        bytes = write_request(&mut stream, black_box(&documents)).expect("a request");
        nanoseconds += start.elapsed().as_nanos();
        black_box(&stream);
    }
    println!("{count} writes, {bytes} bytes, {:.1} ns a request", nanoseconds as f64 / turns as f64);
}

fn main() {
    let words: Vec<String> = std::env::args().collect();
    let number = |at: usize| -> u64 { words[at].parse().expect("a number") };
    match words[1].as_str() {
        "read" => read(number(2)),
        _ => write(number(2), number(3) as usize, number(4)),
    }
}
