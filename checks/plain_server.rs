//! A plain program beside the server, with std alone and no proof: what a server's speed is measured with, and beside.
//! `plain_server serve PORT FILE THREADS` answers each request on a port of this machine with the bytes of FILE, 100 on a connection.
//! `plain_server load PORT SECONDS CONNECTIONS TARGET` asks for TARGET over so many connections at once, each anew where it is closed,
//! and prints how many replies came.
//! `plain_server calls PORT` reads lines `METHOD TARGET BODY`, makes each call over one connection, anew where it is closed, and
//! prints the code of its reply and its nanoseconds.
//! `plain_server append FILE BYTES COUNT` appends so many times so many bytes behind a gate, syncs, opens the gate and syncs, and
//! prints the nanoseconds of each.
//! It panics where anything fails.
use std::fs::OpenOptions;
use std::io::{BufRead, Read, Write};
use std::net::{TcpListener, TcpStream};
use std::os::unix::fs::FileExt;
use std::sync::atomic::{AtomicU64, Ordering};
use std::thread;
use std::time::{Duration, Instant};

const MOST: usize = 100;

/// Where a head ends, and the number in its Content-Length field.
fn head_of(bytes: &[u8]) -> Option<(usize, usize)> {
    let end = bytes.windows(4).position(|four| four == b"\r\n\r\n")? + 4;
    let head = std::str::from_utf8(&bytes[..end]).expect("a head is text");
    let length = head.lines().find_map(|line| line.strip_prefix("Content-Length: "));
    Some((end, length.map_or(0, |text| text.parse().expect("a length"))))
}

/// Reads what begins with a head and goes on with its body off the front of what comes; none at the end.
fn message(stream: &mut TcpStream, kept: &mut Vec<u8>) -> Option<Vec<u8>> {
    let mut piece = [0; 65536];
    loop {
        if let Some((end, length)) = head_of(kept) {
            if kept.len() >= end + length {
                let rest = kept.split_off(end + length);
                return Some(std::mem::replace(kept, rest));
            }
        }
        match stream.read(&mut piece) {
            Ok(count) if count > 0 => kept.extend_from_slice(&piece[..count]),
            _ => return None,
        }
    }
}

fn serve(port: &str, body: &[u8], threads: usize) {
    let listener = TcpListener::bind(format!("127.0.0.1:{port}")).expect("a port");
    let reply = |close: &str| {
        let mut text = format!("HTTP/1.1 200 OK\r\n{close}Content-Length: {}\r\nContent-Type: application/json\r\n\r\n", body.len()).into_bytes();
        text.extend_from_slice(body);
        text
    };
    let (stays, closes) = (reply(""), reply("Connection: close\r\n"));
    thread::scope(|scope| {
        for _ in 0..threads {
            scope.spawn(|| loop {
                let (mut stream, _) = listener.accept().expect("a connection");
                let mut kept = Vec::new();
                for number in 1..=MOST {
                    let Some(_) = message(&mut stream, &mut kept) else { break };
                    let reply = if number == MOST { &closes } else { &stays };
                    if stream.write_all(reply).is_err() {
                        break;
                    }
                }
            });
        }
    });
}

/// A connection that is made anew where it is closed.
struct Client {
    port: String,
    link: Option<(TcpStream, Vec<u8>)>,
}

impl Client {
    fn connected(&mut self) -> (TcpStream, Vec<u8>) {
        self.link.take().unwrap_or_else(|| {
            let stream = TcpStream::connect(format!("127.0.0.1:{}", self.port)).expect("a server");
            stream.set_nodelay(true).expect("a socket");
            (stream, Vec::new())
        })
    }

    /// The code of the reply to a request, and how long it took, without the time for a new connection.
    fn call(&mut self, request: &[u8]) -> (u32, Duration) {
        let (mut stream, mut kept) = self.connected();
        let began = Instant::now();
        stream.write_all(request).expect("a request is sent");
        let reply = message(&mut stream, &mut kept).expect("a reply");
        let took = began.elapsed();
        let head = String::from_utf8_lossy(&reply[..head_of(&reply).expect("a head").0]).into_owned();
        if !head.contains("Connection: close\r\n") {
            self.link = Some((stream, kept));
        }
        (head[9..12].parse().expect("a code"), took)
    }
}

fn request(line: &str) -> Vec<u8> {
    let mut words = line.splitn(3, ' ');
    let (method, target, body) = (words.next().unwrap(), words.next().expect("a target"), words.next().unwrap_or(""));
    format!("{method} {target} HTTP/1.1\r\nHost: localhost\r\nContent-Length: {}\r\n\r\n{body}", body.len()).into_bytes()
}

fn load(port: &str, seconds: u64, connections: usize, target: &str) {
    let count = AtomicU64::new(0);
    let end = Instant::now() + Duration::from_secs(seconds);
    let asked = format!("GET {target} HTTP/1.1\r\nHost: localhost\r\n\r\n").into_bytes();
    thread::scope(|scope| {
        for _ in 0..connections {
            scope.spawn(|| {
                let mut client = Client { port: port.to_string(), link: None };
                while Instant::now() < end {
                    assert_eq!(client.call(&asked).0, 200);
                    count.fetch_add(1, Ordering::Relaxed);
                }
            });
        }
    });
    println!("{}", count.into_inner());
}

fn calls(port: &str) {
    let mut client = Client { port: port.to_string(), link: None };
    for line in std::io::stdin().lock().lines() {
        let (code, took) = client.call(&request(&line.expect("a line")));
        println!("{code} {}", took.as_nanos());
        std::io::stdout().flush().expect("a reader");
    }
}

fn append(path: &str, bytes: usize, count: usize) {
    let file = OpenOptions::new().write(true).create(true).truncate(false).open(path).expect("a file");
    let mut at = file.metadata().expect("a length").len();
    let mut frame = vec![7; bytes];
    frame[bytes - 1] = 0;
    for _ in 0..count {
        let began = Instant::now();
        file.write_all_at(&frame, at + 1).expect("a write");
        file.sync_data().expect("a sync");
        file.write_all_at(&[1], at).expect("a write");
        file.sync_data().expect("a sync");
        println!("{}", began.elapsed().as_nanos());
        at += bytes as u64;
    }
}

fn main() {
    let words: Vec<String> = std::env::args().skip(1).collect();
    let words: Vec<&str> = words.iter().map(String::as_str).collect();
    let number = |text: &str| text.parse().expect("a number");
    match words[..] {
        ["serve", port, file, threads] => serve(port, &std::fs::read(file).expect("a file"), number(threads)),
        ["load", port, seconds, connections, target] => load(port, number(seconds) as u64, number(connections), target),
        ["calls", port] => calls(port),
        ["append", file, bytes, count] => append(file, number(bytes), number(count)),
        _ => panic!("plain_server takes serve, load, calls or append"),
    }
}
