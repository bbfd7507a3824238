// `relay run` as a good programmer would write it in plain Rust in an afternoon, without its promise: a document that is in two
// files is written in no particular order. `forward PORT FILE..` has two threads per file: one reads and parses it, and one sends
// requests of 500 operations with increasing external versions over its own connection, and reads the replies. An item that gets
// 429 or 503 is sent again, and so is a request whose reply is lost, before any later one; what cannot be settled is printed.
use std::fs::File;
use std::io::{self, BufRead, BufReader};
use std::sync::mpsc::{sync_channel, Receiver, SyncSender};
use std::thread;
use std::time::Duration;

mod client;
use client::{append, invalid, Action, Counts, Index, Outcome, Reply};

const COUNT: usize = 500;
const ATTEMPTS: u32 = 8;

// An operation: an index action if it has a source, otherwise a delete.
struct Operation {
    index: String,
    id: String,
    source: Option<String>,
    version: u64,
    attempts: u32,
}

// Reads a file, and passes its operations on in batches of COUNT.
fn read_file(path: &str, batches: SyncSender<Vec<Operation>>) -> io::Result<()> {
    let mut lines = BufReader::with_capacity(65_536, File::open(path)?).lines();
    let mut batch = Vec::with_capacity(COUNT);
    let mut version = 0;
    while let Some(line) = lines.next() {
        let line = line?;
        if line.is_empty() {
            continue;
        }
        let (metadata, source) = match serde_json::from_str(&line)? {
            Action::Index(metadata) => (metadata, Some(lines.next().ok_or_else(|| invalid("no source"))??)),
            Action::Delete(metadata) => (metadata, None),
        };
        version += 1;
        batch.push(Operation { index: metadata._index, id: metadata._id, source, version, attempts: 0 });
        if batch.len() == COUNT {
            batches.send(std::mem::replace(&mut batch, Vec::with_capacity(COUNT))).expect("a sender");
        }
    }
    if !batch.is_empty() {
        batches.send(batch).expect("a sender");
    }
    Ok(())
}

struct Sending {
    index: Index,
    counts: Counts,
}

impl Sending {
    // The statuses of the items of a batch, or None if there is no reply that states them.
    fn statuses(&mut self, batch: &[Operation]) -> Option<Vec<u16>> {
        let status = match self.index.send().and_then(|()| self.index.receive()) {
            Ok(status) => status,
            Err(_) => {
                self.index.stream = None;
                return None;
            }
        };
        if status != 200 {
            return Some(vec![status; batch.len()]);
        }
        let reply: Reply = serde_json::from_slice(&self.index.reply).ok()?;
        if reply.items.len() != batch.len() {
            return None;
        }
        let mut statuses = Vec::with_capacity(batch.len());
        for (outcome, operation) in reply.items.iter().zip(batch) {
            match (outcome, &operation.source) {
                (Outcome::Index(item), Some(_)) | (Outcome::Delete(item), None) if item._id == operation.id => statuses.push(item.status),
                _ => return None,
            }
        }
        Some(statuses)
    }

    // Sends a batch until each of its operations is settled.
    fn settle(&mut self, mut batch: Vec<Operation>) -> io::Result<()> {
        loop {
            self.index.body.clear();
            for operation in &mut batch {
                operation.attempts += 1;
                append(&mut self.index.body, &operation.index, &operation.id, operation.version, operation.source.as_deref())?;
            }
            let statuses = self.statuses(&batch).unwrap_or_else(|| vec![503; batch.len()]);
            let mut again = Vec::new();
            for (operation, status) in batch.into_iter().zip(statuses) {
                match status {
                    200..=299 => self.counts.applied += 1,
                    404 if operation.source.is_none() => self.counts.applied += 1,
                    409 if operation.attempts > 1 => self.counts.already += 1,
                    429 | 503 if operation.attempts < ATTEMPTS => again.push(operation),
                    _ => {
                        println!("report {}/{} {status}", operation.index, operation.id);
                        self.counts.reported += 1;
                    }
                }
            }
            if again.is_empty() {
                return Ok(());
            }
            thread::sleep(Duration::from_millis(100));
            batch = again;
        }
    }
}

fn send_batches(address: String, batches: Receiver<Vec<Operation>>) -> io::Result<Counts> {
    let mut sending = Sending { index: Index::new(address), counts: Counts::default() };
    for batch in batches {
        sending.settle(batch)?;
    }
    Ok(sending.counts)
}

fn main() -> io::Result<()> {
    let words: Vec<String> = std::env::args().skip(1).collect();
    let (port, paths) = words.split_first().expect("usage: forward PORT FILE..");
    let mut threads = Vec::new();
    for path in paths {
        let (batches, received) = sync_channel(2);
        let (address, path) = (format!("127.0.0.1:{port}"), path.clone());
        let reader = thread::spawn(move || read_file(&path, batches));
        threads.push((reader, thread::spawn(move || send_batches(address, received))));
    }
    let mut all = Counts::default();
    for (reader, sender) in threads {
        reader.join().expect("a thread that ended")?;
        all.add(&sender.join().expect("a thread that ended")?);
    }
    println!("applied {} already {} reported {}", all.applied, all.already, all.reported);
    Ok(())
}
