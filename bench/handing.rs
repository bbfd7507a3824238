// A relay in plain Rust that only hands on: `handing PORT LANES`. The thread of a connection passes each request as it came to the thread of a
// lane, which sends it to the index on that port and passes the reply back. Of a message it reads the length alone, and it keeps no promise:
// it is what a relay costs whose lanes have threads of their own.
use std::io::{self, BufRead, BufReader, Read, Write};
use std::net::{TcpListener, TcpStream};
use std::thread;

use crossbeam_channel::{bounded, Receiver, Sender};

// A request, and who waits for its reply.
struct Job {
    request: Vec<u8>,
    reply: Sender<Vec<u8>>,
}

// Reads one message as it is on the wire. `None`: the stream has ended.
fn read_message(input: &mut BufReader<TcpStream>) -> io::Result<Option<Vec<u8>>> {
    let (mut message, mut length) = (Vec::new(), 0);
    loop {
        let start = message.len();
        if input.read_until(b'\n', &mut message)? == 0 {
            return Ok(None);
        }
        let line = std::str::from_utf8(&message[start..]).expect("a text").to_ascii_lowercase();
        if let Some(digits) = line.strip_prefix("content-length:") {
            length = digits.trim().parse().expect("a length");
        }
        if line == "\r\n" {
            break;
        }
    }
    let head = message.len();
    message.resize(head + length, 0);
    input.read_exact(&mut message[head..])?;
    Ok(Some(message))
}

fn connect(stream: TcpStream) -> io::Result<(BufReader<TcpStream>, TcpStream)> {
    stream.set_nodelay(true)?;
    Ok((BufReader::with_capacity(262_144, stream.try_clone()?), stream))
}

fn run_lane(port: &str, jobs: Receiver<Job>) -> io::Result<()> {
    let (mut input, mut output) = connect(TcpStream::connect(format!("127.0.0.1:{port}"))?)?;
    for job in jobs {
        output.write_all(&job.request)?;
        let _ = job.reply.send(read_message(&mut input)?.expect("a reply"));
    }
    Ok(())
}

fn serve(stream: TcpStream, lanes: &[Sender<Job>], first: usize) -> io::Result<()> {
    let (mut input, mut output) = connect(stream)?;
    let (reply, replies) = bounded(1);
    let mut turns = first..;
    while let Some(request) = read_message(&mut input)? {
        let lane = &lanes[turns.next().expect("a turn") % lanes.len()];
        lane.send(Job { request, reply: reply.clone() }).expect("a lane");
        output.write_all(&replies.recv().expect("a reply"))?;
    }
    Ok(())
}

fn main() -> io::Result<()> {
    let [port, count] = std::env::args().skip(1).collect::<Vec<_>>().try_into().expect("a port and a number of lanes");
    let mut lanes = Vec::new();
    for _ in 0..count.parse::<usize>().expect("a number") {
        let (jobs, taken) = bounded(4096);
        let port = port.clone();
        thread::spawn(move || run_lane(&port, taken));
        lanes.push(jobs);
    }
    let listener = TcpListener::bind("127.0.0.1:0")?;
    println!("{}", listener.local_addr()?.port());
    for (number, stream) in listener.incoming().enumerate() {
        let (stream, lanes) = (stream?, lanes.clone());
        thread::spawn(move || serve(stream, &lanes, number));
    }
    Ok(())
}
