//! What `serve PORT N` and `run PORT` do, as one writes it in Rust with std alone: a thread for each connection, and the frames of
//! bench/plain. `serve PORT N` answers N connections to their ends; `call PORT CONNECTIONS CALLS SIZE` calls Echo.Echo so often on
//! each, and reads the replies behind its last call; `join` in its place waits for each reply before the next call.
#[allow(dead_code)]
#[path = "../../../plain/src/frames.rs"]
mod frames;

use frames::{encode_request, encode_response, Cutter, Request};
use std::io::{Read, Result, Write};
use std::net::{Shutdown, TcpListener, TcpStream};
use std::{env, thread};

const ROOM: usize = 65_536;

/// Answers what comes until the other end ends its half: how many frames had replies.
fn serve_one(mut stream: TcpStream) -> Result<u64> {
    let (mut room, mut cutter, mut replies) = (vec![0; ROOM], Cutter::default(), Vec::new());
    let mut count = 0;
    loop {
        let more = stream.read(&mut room)?;
        if more == 0 {
            return Ok(count);
        }
        cutter.feed(&room[..more]);
        while let Some((meta, payload, attachment)) = cutter.next() {
            let request = meta.request.unwrap();
            assert!(request.service == b"Echo" && request.method == b"Echo");
            encode_response(&mut replies, meta.id, payload, attachment);
            count += 1;
        }
        stream.write_all(&replies)?;
        replies.clear();
    }
}

fn serve(port: u16, connections: usize) -> Result<u64> {
    let listener = TcpListener::bind(("127.0.0.1", port))?;
    thread::scope(|scope| {
        let mut threads = Vec::new();
        for _ in 0..connections {
            let (stream, _) = listener.accept()?;
            stream.set_nodelay(true)?;
            threads.push(scope.spawn(|| serve_one(stream)));
        }
        threads.into_iter().map(|thread| thread.join().unwrap()).sum()
    })
}

/// A connection, and the replies that came of it so far.
struct Client {
    stream: TcpStream,
    room: Vec<u8>,
    cutter: Cutter,
    answered: u64,
}

impl Client {
    /// Reads until so many replies came, each the payload that was sent.
    fn read_to(&mut self, count: u64, payload: &[u8]) -> Result<()> {
        while self.answered < count {
            let more = self.stream.read(&mut self.room)?;
            assert!(more > 0);
            self.cutter.feed(&self.room[..more]);
            while let Some((id, echo)) = self.cutter.next_response() {
                self.answered += 1;
                assert!(id == self.answered && echo == payload);
            }
        }
        Ok(())
    }
}

/// Calls so often over a connection of its own: how many replies came.
fn call(port: u16, calls: u64, payload: &[u8], joins: bool) -> Result<u64> {
    let stream = TcpStream::connect(("127.0.0.1", port))?;
    stream.set_nodelay(true)?;
    let mut client = Client { stream, room: vec![0; ROOM], cutter: Cutter::default(), answered: 0 };
    let request = Request { service: b"Echo".to_vec(), method: b"Echo".to_vec() };
    let mut frame = Vec::new();
    for id in 1..=calls {
        frame.clear();
        encode_request(&mut frame, &request, id, payload);
        client.stream.write_all(&frame)?;
        if joins {
            client.read_to(id, payload)?;
        }
    }
    client.stream.shutdown(Shutdown::Write)?;
    client.read_to(calls, payload)?;
    Ok(client.answered)
}

fn call_all(port: u16, connections: usize, calls: u64, payload: &[u8], joins: bool) -> Result<u64> {
    thread::scope(|scope| {
        let threads: Vec<_> = (0..connections).map(|_| scope.spawn(|| call(port, calls, payload, joins))).collect();
        threads.into_iter().map(|thread| thread.join().unwrap()).sum()
    })
}

fn main() -> Result<()> {
    let words: Vec<String> = env::args().skip(1).collect();
    let number = |place: usize| words[place].parse::<usize>().unwrap();
    let (port, connections) = (number(1) as u16, number(2));
    match words[0].as_str() {
        "serve" => println!("served {connections} frames {}", serve(port, connections)?),
        way => {
            let payload = vec![0x61; number(4)];
            println!("answered {}", call_all(port, connections, number(3) as u64, &payload, way == "join")?);
        }
    }
    Ok(())
}
