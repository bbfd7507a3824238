// What the relays in plain Rust share: the lines of operations, what a reply says of them, and a connection to the index.
use std::borrow::Cow;
use std::io::{self, BufRead, BufReader, Read, Write};
use std::net::TcpStream;

use serde::Deserialize;

#[derive(Deserialize)]
pub struct Metadata {
    pub _index: String,
    pub _id: String,
}

#[derive(Deserialize)]
#[serde(rename_all = "lowercase")]
pub enum Action {
    Index(Metadata),
    Delete(Metadata),
}

#[derive(Deserialize)]
pub struct Item<'a> {
    #[serde(borrow)]
    pub _id: Cow<'a, str>,
    pub status: u16,
}

#[derive(Deserialize)]
#[serde(rename_all = "lowercase")]
pub enum Outcome<'a> {
    #[serde(borrow)]
    Index(Item<'a>),
    #[serde(borrow)]
    Delete(Item<'a>),
}

#[derive(Deserialize)]
pub struct Reply<'a> {
    #[serde(borrow)]
    pub items: Vec<Outcome<'a>>,
}

#[derive(Default)]
pub struct Counts {
    pub applied: u64,
    pub already: u64,
    pub reported: u64,
}

impl Counts {
    pub fn add(&mut self, other: &Counts) {
        self.applied += other.applied;
        self.already += other.already;
        self.reported += other.reported;
    }
}

pub fn invalid(text: &str) -> io::Error {
    io::Error::new(io::ErrorKind::InvalidData, text)
}

// Appends the lines of an operation: an index action if it has a source, otherwise a delete.
pub fn append(body: &mut Vec<u8>, index: &str, id: &str, version: u64, source: Option<&str>) -> io::Result<()> {
    let name = if source.is_some() { "index" } else { "delete" };
    write!(body, "{{\"{name}\":{{\"_id\":")?;
    serde_json::to_writer(&mut *body, id)?;
    body.extend_from_slice(b",\"_index\":");
    serde_json::to_writer(&mut *body, index)?;
    writeln!(body, ",\"version\":{},\"version_type\":\"external\"}}}}", version)?;
    if let Some(source) = source {
        body.extend_from_slice(source.as_bytes());
        body.push(b'\n');
    }
    Ok(())
}

// A connection to the index, with the buffers that requests reuse.
pub struct Index {
    pub address: String,
    pub stream: Option<BufReader<TcpStream>>,
    pub body: Vec<u8>,
    pub reply: Vec<u8>,
}

impl Index {
    pub fn new(address: String) -> Index {
        Index { address, stream: None, body: Vec::new(), reply: Vec::new() }
    }

    // Sends the request in `body`.
    pub fn send(&mut self) -> io::Result<()> {
        if self.stream.is_none() {
            let stream = TcpStream::connect(&self.address)?;
            stream.set_nodelay(true)?;
            self.stream = Some(BufReader::with_capacity(65_536, stream));
        }
        let stream = self.stream.as_mut().expect("a stream").get_mut();
        let head = format!("POST /_bulk HTTP/1.1\r\nHost: {}\r\nContent-Type: application/x-ndjson\r\nContent-Length: {}\r\n\r\n", self.address, self.body.len());
        stream.write_all(head.as_bytes())?;
        stream.write_all(&self.body)
    }

    // Reads a reply. Returns the status; the body is in `reply`.
    pub fn receive(&mut self) -> io::Result<u16> {
        let stream = self.stream.as_mut().ok_or_else(|| invalid("no connection"))?;
        let (mut line, mut status, mut length) = (String::new(), 0, 0);
        loop {
            line.clear();
            if stream.read_line(&mut line)? == 0 {
                return Err(invalid("no reply"));
            }
            if line == "\r\n" {
                break;
            }
            if let Some(rest) = line.strip_prefix("HTTP/1.1 ") {
                status = rest.split(' ').next().and_then(|word| word.parse().ok()).ok_or_else(|| invalid("no status"))?;
            } else if let Some((name, value)) = line.split_once(':') {
                if name.eq_ignore_ascii_case("content-length") {
                    length = value.trim().parse().map_err(|_| invalid("no length"))?;
                }
            }
        }
        self.reply.resize(length, 0);
        stream.read_exact(&mut self.reply)?;
        Ok(status)
    }
}
