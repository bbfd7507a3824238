// Messages through one bounded channel in plain Rust: the thread of each sender puts COUNT ticks and then Done, and one
// taker takes them all and checks that each is the next one of its sender. The messages have the layout of the Rattle
// program's, 120 bytes each.
use crossbeam_channel::{bounded, Receiver, Sender};
use std::time::Instant;

#[allow(dead_code)]
#[repr(C)]
enum Action {
    Index(String),
    Delete,
}

#[allow(dead_code)]
#[repr(C)]
struct Operation {
    producer: u32,
    number: u64,
    index: String,
    id: String,
    action: Action,
}

#[allow(dead_code)]
#[repr(C)]
enum Body {
    Put(Operation),
    Tick,
    Flush,
    Done,
}

#[repr(C)]
struct Mail {
    sender: u32,
    number: u64,
    body: Body,
}

const _: () = assert!(std::mem::size_of::<Mail>() == 120);

fn send_all(sends: &Sender<Mail>, sender: u32, count: u64) {
    for number in 1..=count {
        sends.send(Mail { sender, number, body: Body::Tick }).expect("a taker");
    }
    sends.send(Mail { sender, number: count + 1, body: Body::Done }).expect("a taker");
}

fn take_all(takes: &Receiver<Mail>, next: &mut [u64]) {
    let mut open = next.len();
    while open > 0 {
        let mail = takes.recv().expect("a sender");
        let number = &mut next[mail.sender as usize];
        assert_eq!(mail.number, *number, "in order");
        if let Body::Done = mail.body {
            open -= 1;
        }
        *number += 1;
    }
}

fn main() {
    let numbers: Vec<u64> = std::env::args().skip(1).map(|word| word.parse().expect("a number")).collect();
    let [senders, capacity, count] = numbers[..] else {
        panic!("usage: queue SENDERS CAPACITY COUNT");
    };
    let (sends, takes) = bounded(capacity as usize);
    let mut next = vec![1; senders as usize];
    let start = Instant::now();
    let threads: Vec<_> = (0..senders as u32)
        .map(|sender| {
            let sends = sends.clone();
            std::thread::spawn(move || send_all(&sends, sender, count))
        })
        .collect();
    take_all(&takes, &mut next);
    let nanoseconds = start.elapsed().as_nanos();
    for thread in threads {
        thread.join().expect("a thread that ended");
    }
    let messages = senders * (count + 1);
    println!("{messages} messages in order, {:.1} ns a message", nanoseconds as f64 / messages as f64);
}
