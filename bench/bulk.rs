// The two ends that every relay is measured with, in plain Rust. `bulk serve NANOSECONDS [MOST [MICROSECONDS [THREADS]]]` is an
// index that answers each bulk request, and each PUT of a document, with success, after NANOSECONDS per operation and
// MICROSECONDS per request, or with 413 if its body has more than MOST bytes. It runs THREADS requests at a time, first come,
// first served; without THREADS, or with 0, it runs those of all connections at once. `bulk ready PORT FILE..` sends requests
// that were prepared in files, with one connection per file, and reads each reply to its end. `bulk single PORT COUNT` sends
// COUNT requests of one write, one after another, and prints the median of the times until the reply has come. `bulk clients
// PORT CLIENTS SECONDS` does so from CLIENTS connections for SECONDS, with a PUT of a document for each write, and prints how
// many writes there were, and of those that count how many a second, and the median and the 99th percentile of their times.
// `bulk soak PORT CLIENTS REQUESTS` sends REQUESTS of 500 operations from each of CLIENTS connections, each with ids that no
// other has; of each request the index refuses 5 operations, those whose ids begin with `refused`. Each client opens its
// connection again from time to time. It prints how many operations were written, and how many refused.
use std::fs::File;
use std::io::{self, BufRead, BufReader, Write};
use std::net::{TcpListener, TcpStream};
use std::sync::atomic::{AtomicU64, Ordering};
use std::sync::mpsc::{channel, Sender};
use std::sync::{Arc, Mutex};
use std::thread;
use std::time::{Duration, Instant};

// How many operations were answered, over all connections.
static ANSWERED: AtomicU64 = AtomicU64::new(0);
// How long a reply is waited for.
const PATIENCE: Duration = Duration::from_secs(60);
// For how long `clients` writes before its writes count.
const WARMING: Duration = Duration::from_millis(300);
// What the id of an operation begins with that the index refuses.
const REFUSED: &[u8] = b"refused";
// How many operations a request of `soak` has, how many of them are refused, and after how many requests a client connects again.
const SOAKING: usize = 500;
const SOAKING_REFUSED: usize = 5;
const SOAKING_REOPENS: usize = 50;

// The length of the body, if this line of a head states it.
fn length_of(line: &[u8]) -> Option<usize> {
    let text = std::str::from_utf8(line).ok()?;
    let (name, value) = text.split_once(':')?;
    if name.eq_ignore_ascii_case("content-length") {
        value.trim().parse().ok()
    } else {
        None
    }
}

// Reads a whole message, the head and then the body. Returns where the body begins, or None if the stream ends before
// the end of the head.
fn read_message<R: BufRead>(stream: &mut R, message: &mut Vec<u8>) -> io::Result<Option<usize>> {
    message.clear();
    let mut length = 0;
    loop {
        let start = message.len();
        if stream.read_until(b'\n', message)? == 0 {
            return Ok(None);
        }
        let line = &message[start..];
        if line == b"\r\n" {
            break;
        }
        length = length_of(line).unwrap_or(length);
    }
    let head = message.len();
    message.resize(head + length, 0);
    stream.read_exact(&mut message[head..])?;
    Ok(Some(head))
}

// The id in an action line. The ids of the benchmark need no escapes.
fn id_of(line: &[u8]) -> &[u8] {
    const NAME: &[u8] = b"\"_id\":\"";
    let start = line.windows(NAME.len()).position(|it| it == NAME).expect("an id") + NAME.len();
    let end = line[start..].iter().position(|byte| *byte == b'"').expect("its end");
    &line[start..start + end]
}

fn append_item(reply: &mut Vec<u8>, kind: &str, id: &[u8], result: &str, status: &str) {
    for part in [b"{\"", kind.as_bytes(), b"\":{\"_index\":\"books\",\"_type\":\"_doc\",\"_id\":\"", id, b"\",\"_version\":1,\"result\":\"", result.as_bytes(),
        b"\",\"_shards\":{\"total\":2,\"successful\":1,\"failed\":0},\"_seq_no\":0,\"_primary_term\":1,\"status\":", status.as_bytes(), b"}},"] {
        reply.extend_from_slice(part);
    }
}

fn append_refusal(reply: &mut Vec<u8>, id: &[u8]) {
    for part in [b"{\"index\":{\"_index\":\"books\",\"_type\":\"_doc\",\"_id\":\"", id, b"\",\"status\":400,\"error\":{\"type\":\"mapper_parsing_exception\",\"reason\":\"failed to parse field [year] of type [long]\"}}},"] {
        reply.extend_from_slice(part);
    }
}

// Writes the reply of an index that has applied every operation of a body but those that it refuses, and returns how many there are.
fn answer(mut body: &[u8], line: &mut Vec<u8>, reply: &mut Vec<u8>) -> io::Result<u64> {
    reply.clear();
    reply.extend_from_slice(b"{\"took\":1,\"errors\":");
    let errors = reply.len();
    reply.extend_from_slice(b"false,\"items\":[");
    let mut count = 0;
    loop {
        line.clear();
        if body.read_until(b'\n', line)? == 0 {
            break;
        }
        let id = id_of(line);
        if line.starts_with(b"{\"delete\"") {
            append_item(reply, "delete", id, "deleted", "200");
        } else {
            if id.starts_with(REFUSED) {
                append_refusal(reply, id);
                reply[errors..errors + 5].copy_from_slice(b" true");
            } else {
                append_item(reply, "index", id, "created", "201");
            }
            line.clear();
            body.read_until(b'\n', line)?;
        }
        count += 1;
    }
    if count > 0 {
        reply.pop();
    }
    reply.extend_from_slice(b"]}");
    Ok(count)
}

// Writes the reply of an index that has stored the document that the request line of a PUT names.
fn store(request: &[u8], reply: &mut Vec<u8>) {
    let target = request.split(|byte| *byte == b' ').nth(1).expect("a target");
    let id = target.rsplit(|byte| *byte == b'/').next().expect("an id");
    reply.clear();
    for part in [b"{\"_index\":\"books\",\"_id\":\"", id, b"\",\"_version\":1,\"result\":\"created\",\"_shards\":{\"total\":2,\"successful\":1,\"failed\":0},\"_seq_no\":0,\"_primary_term\":1}"] {
        reply.extend_from_slice(part);
    }
}

// The answer to a GET: the version, which a client asks for first, and how many operations were answered so far.
fn about(reply: &mut Vec<u8>) -> io::Result<()> {
    reply.clear();
    let count = ANSWERED.load(Ordering::SeqCst);
    write!(reply, "{{\"version\":{{\"number\":\"7.17.6\",\"build_flavor\":\"default\"}},\"tagline\":\"You Know, for Search\",\"answered\":{count}}}")
}

// How long the server takes.
#[derive(Clone, Copy)]
struct Pace {
    // Per operation.
    nanoseconds: u64,
    // Per request, in addition.
    microseconds: u64,
}

// How long a connection still has to wait, in nanoseconds. If one sleep takes too long, the next is shorter, so the server
// takes the right time on average, however coarse the system's timers are.
#[derive(Default)]
struct Debt(i64);

impl Debt {
    fn pay(&mut self, nanoseconds: u64, start: Instant) {
        self.0 += nanoseconds as i64 - start.elapsed().as_nanos() as i64;
        if self.0 > 0 {
            let now = Instant::now();
            thread::sleep(Duration::from_nanos(self.0 as u64));
            self.0 -= now.elapsed().as_nanos() as i64;
        } else if nanoseconds == 0 {
            self.0 = 0;
        }
    }
}

// A request that waits for a thread: how long it takes, in nanoseconds, and who is told that it has been run.
struct Job {
    nanoseconds: u64,
    done: Sender<()>,
}

// Starts the threads of an index that runs so many requests at a time, and returns where requests wait for them, in order.
fn start_pool(threads: u64) -> Sender<Job> {
    let (waiting, next) = channel::<Job>();
    let next = Arc::new(Mutex::new(next));
    for _ in 0..threads {
        let next = next.clone();
        thread::spawn(move || {
            let mut debt = Debt::default();
            loop {
                let taken = next.lock().expect("the lock").recv();
                let Ok(job) = taken else { return };
                debt.pay(job.nanoseconds, Instant::now());
                let _ = job.done.send(());
            }
        });
    }
    waiting
}

fn serve_connection(stream: TcpStream, pace: Pace, most: usize, pool: Option<Sender<Job>>) -> io::Result<()> {
    stream.set_nodelay(true)?;
    let mut input = BufReader::with_capacity(262_144, stream.try_clone()?);
    let mut output = stream;
    let (mut message, mut line, mut reply) = (Vec::new(), Vec::new(), Vec::new());
    let mut debt = Debt::default();
    let (done, finished) = channel();
    while let Some(head) = read_message(&mut input, &mut message)? {
        let start = Instant::now();
        let mut status = "200 OK";
        if message.starts_with(b"GET ") {
            about(&mut reply)?;
        } else if message.len() - head > most {
            status = "413 Content Too Large";
            reply.clear();
        } else {
            let count = if message.starts_with(b"PUT ") {
                status = "201 Created";
                store(&message[..head], &mut reply);
                1
            } else {
                answer(&message[head..], &mut line, &mut reply)?
            };
            let nanoseconds = count * pace.nanoseconds + pace.microseconds * 1000;
            if let Some(pool) = &pool {
                let job = Job { nanoseconds, done: done.clone() };
                pool.send(job).expect("a thread that takes it");
                finished.recv().expect("its end");
            } else {
                debt.pay(nanoseconds, start);
            }
            ANSWERED.fetch_add(count, Ordering::SeqCst);
        }
        let mut text = format!("HTTP/1.1 {status}\r\nX-Elastic-Product: Elasticsearch\r\nContent-Type: application/json\r\nContent-Length: {}\r\n\r\n", reply.len()).into_bytes();
        text.extend_from_slice(&reply);
        output.write_all(&text)?;
    }
    Ok(())
}

// Serves until it is stopped. The one line that it prints is its port.
fn serve(pace: Pace, most: usize, threads: u64) -> io::Result<()> {
    let pool = (threads > 0).then(|| start_pool(threads));
    let listener = TcpListener::bind("127.0.0.1:0")?;
    println!("{}", listener.local_addr()?.port());
    for stream in listener.incoming() {
        let (stream, pool) = (stream?, pool.clone());
        thread::spawn(move || serve_connection(stream, pace, most, pool));
    }
    Ok(())
}

// A connection that is kept, and the last reply on it.
struct Connection {
    output: TcpStream,
    input: BufReader<TcpStream>,
    reply: Vec<u8>,
}

impl Connection {
    fn open(port: &str) -> io::Result<Self> {
        let output = TcpStream::connect(format!("127.0.0.1:{port}"))?;
        output.set_nodelay(true)?;
        output.set_read_timeout(Some(PATIENCE))?;
        let input = BufReader::with_capacity(262_144, output.try_clone()?);
        Ok(Connection { output, input, reply: Vec::new() })
    }

    // Sends a request and waits for the reply. Returns where its body begins.
    fn ask(&mut self, request: &[u8]) -> io::Result<usize> {
        self.output.write_all(request)?;
        Ok(read_message(&mut self.input, &mut self.reply)?.expect("a reply"))
    }
}

// Sends the requests of a file, and returns how many bytes the bodies of the replies had.
fn send_file(port: &str, path: &str) -> io::Result<usize> {
    let mut file = BufReader::with_capacity(262_144, File::open(path)?);
    let mut connection = Connection::open(port)?;
    let (mut request, mut bytes) = (Vec::new(), 0);
    while read_message(&mut file, &mut request)?.is_some() {
        let head = connection.ask(&request)?;
        bytes += connection.reply.len() - head;
    }
    Ok(bytes)
}

fn ready(port: &str, paths: &[String]) -> io::Result<()> {
    let threads: Vec<_> = paths
        .iter()
        .map(|path| {
            let (port, path) = (port.to_string(), path.clone());
            thread::spawn(move || send_file(&port, &path))
        })
        .collect();
    let mut bytes = 0;
    for thread in threads {
        bytes += thread.join().expect("a thread that ended")?;
    }
    println!("{bytes} bytes of replies");
    Ok(())
}

// Sends requests of one write, each once the reply to the one before has come.
fn single(port: &str, count: usize) -> io::Result<()> {
    let mut connection = Connection::open(port)?;
    let mut times = Vec::with_capacity(count);
    for number in 0..count {
        let body = format!("{{\"index\":{{\"_index\":\"books\",\"_id\":\"{}\"}}}}\n{{\"title\":\"{number}\"}}\n", number % 1000);
        let request = format!("POST /_bulk HTTP/1.1\r\nHost: 127.0.0.1\r\nContent-Type: application/x-ndjson\r\nContent-Length: {}\r\n\r\n{body}", body.len());
        let start = Instant::now();
        let head = connection.ask(request.as_bytes())?;
        times.push(start.elapsed().as_nanos());
        let text = std::str::from_utf8(&connection.reply[head..]).expect("a text");
        assert!(text.contains("\"errors\":false"), "{text}");
    }
    times.sort_unstable();
    println!("{count} writes, {:.1} us", times[count / 2] as f64 / 1000.0);
    Ok(())
}

// Writes one document after another, each once the reply to the one before has come. Returns how many writes there were until
// `end`, and the nanoseconds of each that began at `begin` or later.
fn write_until(mut connection: Connection, client: usize, begin: Instant, end: Instant) -> io::Result<(u64, Vec<u128>)> {
    let (mut count, mut times) = (0, Vec::new());
    loop {
        let body = format!("{{\"title\":\"{count}\"}}");
        let request = format!("PUT /books/_doc/{client}-{} HTTP/1.1\r\nHost: 127.0.0.1\r\nContent-Type: application/json\r\nContent-Length: {}\r\n\r\n{body}", count % 1000, body.len());
        let start = Instant::now();
        if start >= end {
            return Ok((count, times));
        }
        connection.ask(request.as_bytes())?;
        if start >= begin {
            times.push(start.elapsed().as_nanos());
        }
        let head = String::from_utf8_lossy(&connection.reply);
        assert!(head.starts_with("HTTP/1.1 200 ") || head.starts_with("HTTP/1.1 201 "), "{head}");
        count += 1;
    }
}

// Writes from so many connections at once, for the time that does not count yet and then for so long.
fn clients(port: &str, count: usize, time: Duration) -> io::Result<()> {
    let connections = (0..count).map(|_| Connection::open(port)).collect::<io::Result<Vec<_>>>()?;
    let begin = Instant::now() + WARMING;
    let threads: Vec<_> = connections
        .into_iter()
        .enumerate()
        .map(|(client, connection)| thread::spawn(move || write_until(connection, client, begin, begin + time)))
        .collect();
    let (mut writes, mut times) = (0, Vec::new());
    for thread in threads {
        let (own, its) = thread.join().expect("a thread that ended")?;
        writes += own;
        times.extend(its);
    }
    times.sort_unstable();
    let rate = times.len() as f64 / time.as_secs_f64();
    let [median, late] = [50, 99].map(|part| times[times.len() * part / 100] as f64 / 1000.0);
    println!("{writes} writes, {rate:.1} a second, median {median:.1} us, p99 {late:.1} us");
    Ok(())
}

// How often a text stands in a message.
fn occurrences(text: &[u8], message: &[u8]) -> usize {
    message.windows(text.len()).filter(|it| *it == text).count()
}

// Sends so many requests, each once the reply to the one before has come. Returns how many operations were written, and how many
// refused.
fn soak_client(port: &str, client: usize, requests: usize) -> io::Result<(usize, usize)> {
    let mut connection = Connection::open(port)?;
    let (mut written, mut refused) = (0, 0);
    for turn in 0..requests {
        if turn % SOAKING_REOPENS == SOAKING_REOPENS - 1 {
            connection = Connection::open(port)?;
        }
        let mut body = Vec::new();
        for at in 0..SOAKING {
            let start = if at < SOAKING_REFUSED { "refused-" } else { "" };
            write!(body, "{{\"index\":{{\"_index\":\"books\",\"_id\":\"{start}{client}-{turn}-{at}\"}}}}\n{{\"title\":\"{at:080}\"}}\n")?;
        }
        let mut request = format!("POST /_bulk HTTP/1.1\r\nHost: 127.0.0.1\r\nContent-Type: application/x-ndjson\r\nContent-Length: {}\r\n\r\n", body.len()).into_bytes();
        request.extend_from_slice(&body);
        let head = connection.ask(&request)?;
        let text = &connection.reply[head..];
        written += occurrences(b"\"status\":201", text);
        refused += occurrences(b"\"status\":400", text);
        assert!(written + refused == (turn + 1) * SOAKING, "{}", String::from_utf8_lossy(text));
    }
    Ok((written, refused))
}

fn soak(port: &str, clients: usize, requests: usize) -> io::Result<()> {
    let threads: Vec<_> = (0..clients)
        .map(|client| {
            let port = port.to_string();
            thread::spawn(move || soak_client(&port, client, requests))
        })
        .collect();
    let (mut written, mut refused) = (0, 0);
    for thread in threads {
        let (own, its) = thread.join().expect("a thread that ended")?;
        written += own;
        refused += its;
    }
    println!("{written} written, {refused} refused");
    Ok(())
}

fn main() -> io::Result<()> {
    let words: Vec<String> = std::env::args().skip(1).collect();
    match words.split_first().map(|(command, rest)| (command.as_str(), rest)) {
        Some(("serve", [nanoseconds, more @ ..])) if more.len() <= 3 => {
            let number = |at: usize, default: u64| more.get(at).map_or(default, |word| word.parse().expect("a number"));
            let pace = Pace {
                nanoseconds: nanoseconds.parse().expect("nanoseconds"),
                microseconds: number(1, 0),
            };
            serve(pace, number(0, u64::MAX) as usize, number(2, 0))
        }
        Some(("ready", [port, paths @ ..])) => ready(port, paths),
        Some(("single", [port, count])) => single(port, count.parse().expect("a number")),
        Some(("clients", [port, count, seconds])) => {
            let time = Duration::from_secs_f64(seconds.parse().expect("seconds"));
            clients(port, count.parse().expect("a number"), time)
        }
        Some(("soak", [port, clients, requests])) => soak(port, clients.parse().expect("a number"), requests.parse().expect("a number")),
        _ => panic!("usage: bulk serve NANOSECONDS [MOST [MICROSECONDS [THREADS]]], bulk ready PORT FILE.., bulk single PORT COUNT, bulk clients PORT CLIENTS SECONDS, bulk soak PORT CLIENTS REQUESTS"),
    }
}
