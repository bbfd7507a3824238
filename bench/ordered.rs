// `relay run` with its promise, as a good programmer would write it in plain Rust: what is sent for a document is applied in the
// order in which it was put. `ordered PORT LANES FILE..` has a thread per file, which reads and parses it and passes each operation
// to the lane of its document, and a thread per lane, which holds the operations by document, gives each an increasing external
// version, and sends requests of 500, each on another document, one at a time, over its own connection. While a request is out the
// lane takes what comes. Each item is settled on its own: one that gets 429 or 503, or whose reply is lost, is sent again under
// its version, before the next operation on its document. It makes no request smaller that a server finds too large.
use std::collections::hash_map::Entry;
use std::collections::{HashMap, VecDeque};
use std::fs::File;
use std::io::{self, BufRead, BufReader, Read};
use std::rc::Rc;
use std::thread;
use std::time::{Duration, Instant};

use crossbeam_channel::{bounded, Receiver, RecvTimeoutError, Sender};

mod client;
use client::{append, invalid, Action, Counts, Index, Outcome, Reply};

const COUNT: usize = 500;
// The room in a lane's channel, and how many operations a lane holds at most.
const CAPACITY: usize = 2 * COUNT;
const HELD: usize = 1024;
const ATTEMPTS: u32 = 8;
// How long a lane waits for a full request, and before an item is sent again.
const LINGER: Duration = Duration::from_millis(100);

#[derive(PartialEq, Eq, Hash)]
struct Document {
    index: String,
    id: String,
}

impl Document {
    // The lane of the document: 64-bit FNV-1a of its index, a byte 255 and its id.
    fn lane(&self, lanes: usize) -> usize {
        let bytes = self.index.bytes().chain([255]).chain(self.id.bytes());
        let hash = bytes.fold(0xcbf2_9ce4_8422_2325_u64, |hash, byte| (hash ^ u64::from(byte)).wrapping_mul(0x100_0000_01b3));
        (hash % lanes as u64) as usize
    }
}

// An operation as it is put: an index action if it has a source, otherwise a delete.
struct Put {
    document: Document,
    source: Option<String>,
}

// An operation that a lane holds.
struct Held {
    source: Option<String>,
    version: u64,
    attempts: u32,
}

// Reads a file, and passes each operation to its lane.
fn read_file(path: &str, lanes: &[Sender<Put>]) -> io::Result<()> {
    let mut file = BufReader::with_capacity(65_536, File::open(path)?);
    let mut line = String::new();
    while file.read_line(&mut line)? > 0 {
        if line.trim_end().is_empty() {
            line.clear();
            continue;
        }
        let (metadata, source) = match serde_json::from_str(&line)? {
            Action::Index(metadata) => (metadata, Some(file.by_ref().lines().next().ok_or_else(|| invalid("no source"))??)),
            Action::Delete(metadata) => (metadata, None),
        };
        line.clear();
        let document = Document { index: metadata._index, id: metadata._id };
        lanes[document.lane(lanes.len())].send(Put { document, source }).expect("a lane");
    }
    Ok(())
}

// A document on which a lane holds operations, in order.
struct Slot {
    document: Rc<Document>,
    waiting: VecDeque<Held>,
}

// A lane: the slots of its documents, those that are free, and those whose first operation may be sent.
struct Lane {
    puts: Receiver<Put>,
    open: bool,
    places: HashMap<Rc<Document>, usize>,
    slots: Vec<Slot>,
    free: Vec<usize>,
    ready: VecDeque<usize>,
    count: usize,
    version: u64,
    counts: Counts,
    index: Index,
}

impl Lane {
    fn take(&mut self, put: Put) {
        self.version += 1;
        self.count += 1;
        let held = Held { source: put.source, version: self.version, attempts: 0 };
        match self.places.entry(Rc::new(put.document)) {
            Entry::Occupied(place) => self.slots[*place.get()].waiting.push_back(held),
            Entry::Vacant(vacant) => {
                let document = vacant.key().clone();
                let place = match self.free.pop() {
                    Some(place) => place,
                    None => {
                        self.slots.push(Slot { document: document.clone(), waiting: VecDeque::new() });
                        self.slots.len() - 1
                    }
                };
                let slot = &mut self.slots[place];
                slot.document = document;
                slot.waiting.push_back(held);
                vacant.insert(place);
                self.ready.push_back(place);
            }
        }
    }

    // Takes what comes until a request is full, nothing comes for a while, or there is no room.
    fn gather(&mut self) {
        let until = Instant::now() + LINGER;
        while self.open && self.ready.len() < COUNT && self.count < HELD {
            match self.puts.recv_deadline(until) {
                Ok(put) => self.take(put),
                Err(RecvTimeoutError::Timeout) => return,
                Err(RecvTimeoutError::Disconnected) => self.open = false,
            }
        }
    }

    // Takes what has come, while a request is out.
    fn take_waiting(&mut self) {
        while self.ready.len() < COUNT && self.count < HELD {
            match self.puts.try_recv() {
                Ok(put) => self.take(put),
                Err(_) => return,
            }
        }
    }

    // Writes the next request. Returns the slots of its documents.
    fn form(&mut self) -> io::Result<Vec<usize>> {
        let places: Vec<usize> = self.ready.drain(..self.ready.len().min(COUNT)).collect();
        self.index.body.clear();
        for place in &places {
            let slot = &mut self.slots[*place];
            slot.waiting[0].attempts += 1;
            let (document, held) = (&slot.document, &slot.waiting[0]);
            append(&mut self.index.body, &document.index, &document.id, held.version, held.source.as_deref())?;
        }
        Ok(places)
    }

    // The statuses of the items of a request, or None if there is no reply that states them.
    fn statuses(&mut self, places: &[usize]) -> Option<Vec<u16>> {
        let sent = self.index.send();
        if sent.is_ok() {
            self.take_waiting();
        }
        let status = match sent.and_then(|()| self.index.receive()) {
            Ok(status) => status,
            Err(_) => {
                self.index.stream = None;
                return None;
            }
        };
        if status != 200 {
            return Some(vec![status; places.len()]);
        }
        let reply: Reply = serde_json::from_slice(&self.index.reply).ok()?;
        if reply.items.len() != places.len() {
            return None;
        }
        let mut statuses = Vec::with_capacity(places.len());
        for (outcome, place) in reply.items.iter().zip(places) {
            let slot = &self.slots[*place];
            match (outcome, &slot.waiting[0].source) {
                (Outcome::Index(item), Some(_)) | (Outcome::Delete(item), None) if item._id == slot.document.id => statuses.push(item.status),
                _ => return None,
            }
        }
        Some(statuses)
    }

    // Settles the first operation of a document. Returns whether it is to be sent again.
    fn settle(&mut self, place: usize, status: u16) -> bool {
        let Slot { document, waiting } = &mut self.slots[place];
        let first = &waiting[0];
        match status {
            200..=299 => self.counts.applied += 1,
            404 if first.source.is_none() => self.counts.applied += 1,
            409 if first.attempts > 1 => self.counts.already += 1,
            429 | 503 if first.attempts < ATTEMPTS => return true,
            _ => {
                println!("report {}/{} {status}", document.index, document.id);
                self.counts.reported += 1;
            }
        }
        waiting.pop_front();
        self.count -= 1;
        if waiting.is_empty() {
            self.places.remove(document);
            self.free.push(place);
        } else {
            self.ready.push_back(place);
        }
        false
    }

    fn run(mut self) -> io::Result<Counts> {
        while self.open || self.count > 0 {
            self.gather();
            if self.ready.is_empty() {
                continue;
            }
            let places = self.form()?;
            let statuses = self.statuses(&places).unwrap_or_else(|| vec![503; places.len()]);
            let mut again = Vec::new();
            for (place, status) in places.into_iter().zip(statuses) {
                if self.settle(place, status) {
                    again.push(place);
                }
            }
            if !again.is_empty() {
                thread::sleep(LINGER);
                again.into_iter().rev().for_each(|place| self.ready.push_front(place));
            }
        }
        Ok(self.counts)
    }
}

fn main() -> io::Result<()> {
    let words: Vec<String> = std::env::args().skip(1).collect();
    let [port, lanes, paths @ ..] = words.as_slice() else {
        panic!("usage: ordered PORT LANES FILE..");
    };
    let (mut senders, mut threads) = (Vec::new(), Vec::new());
    for _ in 0..lanes.parse().expect("a number of lanes") {
        let (sender, puts) = bounded(CAPACITY);
        senders.push(sender);
        let address = format!("127.0.0.1:{port}");
        threads.push(thread::spawn(move || {
            let index = Index::new(address);
            let (places, slots, free, ready) = (HashMap::new(), Vec::new(), Vec::new(), VecDeque::new());
            Lane { puts, open: true, places, slots, free, ready, count: 0, version: 0, counts: Counts::default(), index }.run()
        }));
    }
    let mut readers = Vec::new();
    for path in paths {
        let (path, lanes) = (path.clone(), senders.clone());
        readers.push(thread::spawn(move || read_file(&path, &lanes)));
    }
    drop(senders);
    for reader in readers {
        reader.join().expect("a thread that ended")?;
    }
    let mut all = Counts::default();
    for lane in threads {
        all.add(&lane.join().expect("a thread that ended")?);
    }
    println!("applied {} already {} reported {}", all.applied, all.already, all.reported);
    Ok(())
}
