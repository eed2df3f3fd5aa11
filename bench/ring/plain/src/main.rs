//! What `ring_bench` does, as one writes it in Rust with std alone: WAY bytes|calls SIZE COUNT LINKS. Bytes go from one thread to
//! another through room for 65,536 of them, and are taken 1,024 at a time. The way `ring` has two atomic indexes, of which each end
//! keeps what it last saw; `mutex` has a `Mutex<VecDeque<u8>>`. `calls` has one of them there and one back, with a server of the
//! frames of bench/plain between.
#[allow(dead_code)]
#[path = "../../../plain/src/frames.rs"]
mod frames;

use frames::{encode_request, encode_response, Cutter, Request};
use std::cell::UnsafeCell;
use std::collections::VecDeque;
use std::hint::black_box;
use std::sync::atomic::{AtomicBool, AtomicUsize, Ordering::*};
use std::sync::Mutex;
use std::{env, thread};

const PLACES: usize = 65_536;

/// How many bytes are taken at a time.
const ROOM: usize = 1_024;

/// One way for bytes to go from one thread to another.
trait Way: Sync {
    /// Where each end stands.
    type End: Default + Send;

    /// Puts a front part of the piece, and answers how many bytes that is.
    fn put(&self, end: &mut Self::End, piece: &[u8]) -> usize;

    fn finish(&self);

    /// Takes bytes into the front of the room: how many; nothing once all were taken.
    fn take(&self, end: &mut Self::End, room: &mut [u8]) -> Option<usize>;
}

/// An index on a cache line of its own.
#[repr(align(64))]
struct Index(AtomicUsize);

/// The bytes from `took` to `put`, which count on and on, are those that wait.
struct Ring {
    bytes: Box<[UnsafeCell<u8>]>,
    put: Index,
    took: Index,
    finished: AtomicBool,
}

/// Only the end that puts writes places, and only those that are free; only the other end reads those that aren't.
unsafe impl Sync for Ring {}

/// Its own index, and what it last saw of the other's.
#[derive(Default)]
struct Stands {
    own: usize,
    other: usize,
}

impl Ring {
    fn new() -> Ring {
        let bytes = (0..PLACES).map(|_| UnsafeCell::new(0)).collect();
        let index = || Index(AtomicUsize::new(0));
        Ring { bytes, put: index(), took: index(), finished: AtomicBool::new(false) }
    }

    fn place(&self, index: usize) -> *mut u8 {
        self.bytes[index % PLACES].get()
    }
}

impl Way for Ring {
    type End = Stands;

    fn put(&self, end: &mut Stands, piece: &[u8]) -> usize {
        if PLACES - (end.own - end.other) < piece.len() {
            end.other = self.took.0.load(Acquire);
        }
        let count = piece.len().min(PLACES - (end.own - end.other));
        let first = count.min(PLACES - end.own % PLACES);
        unsafe {
            self.place(end.own).copy_from_nonoverlapping(piece.as_ptr(), first);
            self.place(0).copy_from_nonoverlapping(piece.as_ptr().add(first), count - first);
        }
        end.own += count;
        self.put.0.store(end.own, Release);
        count
    }

    fn finish(&self) {
        self.finished.store(true, Release);
    }

    fn take(&self, end: &mut Stands, room: &mut [u8]) -> Option<usize> {
        if end.other - end.own < room.len() {
            let finished = self.finished.load(Acquire);
            end.other = self.put.0.load(Acquire);
            if finished && end.other == end.own {
                return None;
            }
        }
        let count = room.len().min(end.other - end.own);
        let first = count.min(PLACES - end.own % PLACES);
        unsafe {
            self.place(end.own).copy_to_nonoverlapping(room.as_mut_ptr(), first);
            self.place(0).copy_to_nonoverlapping(room.as_mut_ptr().add(first), count - first);
        }
        end.own += count;
        self.took.0.store(end.own, Release);
        Some(count)
    }
}

/// The bytes that wait, and whether no more come.
struct Queue(Mutex<(VecDeque<u8>, bool)>);

impl Queue {
    fn new() -> Queue {
        Queue(Mutex::new((VecDeque::with_capacity(PLACES), false)))
    }
}

impl Way for Queue {
    type End = ();

    fn put(&self, _: &mut (), piece: &[u8]) -> usize {
        let mut queue = self.0.lock().unwrap();
        let count = piece.len().min(PLACES - queue.0.len());
        queue.0.extend(&piece[..count]);
        count
    }

    fn finish(&self) {
        self.0.lock().unwrap().1 = true;
    }

    fn take(&self, _: &mut (), room: &mut [u8]) -> Option<usize> {
        let mut queue = self.0.lock().unwrap();
        let count = room.len().min(queue.0.len());
        if count == 0 && queue.1 {
            return None;
        }
        for (place, byte) in room.iter_mut().zip(queue.0.drain(..count)) {
            *place = byte;
        }
        Some(count)
    }
}

fn put_whole<W: Way>(way: &W, end: &mut W::End, piece: &[u8]) {
    let mut at = 0;
    while at < piece.len() {
        match way.put(end, &piece[at..]) {
            0 => thread::yield_now(),
            more => at += more,
        }
    }
}

fn put_often<W: Way>(way: &W, piece: &[u8], count: u64) {
    let mut end = W::End::default();
    for _ in 0..count {
        put_whole(way, &mut end, piece);
    }
    way.finish();
}

/// Takes until nothing more comes, and hands on each piece that came.
fn take_all<W: Way>(way: &W, mut came: impl FnMut(&[u8])) {
    let (mut end, mut room) = (W::End::default(), [0; ROOM]);
    while let Some(count) = way.take(&mut end, &mut room) {
        came(&room[..count]);
        if count == 0 {
            thread::yield_now();
        }
    }
}

/// How many bytes come.
fn count_all<W: Way>(way: &W) -> u64 {
    let mut bytes = 0;
    take_all(way, |piece| bytes += black_box(piece).len() as u64);
    bytes
}

/// Answers the calls that come.
fn serve_all<W: Way>(there: &W, back: &W) {
    let (mut end, mut cutter, mut replies) = (W::End::default(), Cutter::default(), Vec::new());
    take_all(there, |piece| {
        cutter.feed(piece);
        while let Some((meta, payload, attachment)) = cutter.next() {
            let request = meta.request.unwrap();
            assert!(request.service == b"Echo" && request.method == b"Echo");
            encode_response(&mut replies, meta.id, payload, attachment);
        }
        put_whole(back, &mut end, &replies);
        replies.clear();
    });
    back.finish();
}

/// Puts so many pieces of so many bytes on one thread and takes them on another: how many bytes came.
fn carried<W: Way>(way: &W, size: usize, count: u64) -> u64 {
    let piece = vec![97; size];
    thread::scope(|scope| {
        scope.spawn(|| put_often(way, &piece, count));
        count_all(way)
    })
}

/// Makes so many calls with so many bytes on one thread, serves them on another, and takes the replies on a third: how many bytes
/// these have.
fn called<W: Way>(there: &W, back: &W, size: usize, count: u64) -> u64 {
    let request = Request { service: b"Echo".to_vec(), method: b"Echo".to_vec() };
    let mut frame = Vec::new();
    encode_request(&mut frame, &request, 2, &vec![97; size]);
    thread::scope(|scope| {
        scope.spawn(|| put_often(there, &frame, count));
        scope.spawn(|| serve_all(there, back));
        count_all(back)
    })
}

fn on_threads<W: Way>(new: fn() -> W, calls: bool, size: usize, count: u64) -> u64 {
    if calls {
        called(&new(), &new(), size, count)
    } else {
        carried(&new(), size, count)
    }
}

fn main() {
    let words: Vec<String> = env::args().skip(1).collect();
    let number = |place: usize| words[place].parse::<u64>().unwrap();
    let (calls, size, count, links) = (words[1] == "calls", number(2), number(3), number(4));
    let over_one = || match words[0].as_str() {
        "ring" => on_threads(Ring::new, calls, size as usize, count),
        _ => on_threads(Queue::new, calls, size as usize, count),
    };
    let bytes: u64 = (0..links).map(|_| over_one()).sum();
    println!("{size} {count} {links}: {bytes} bytes");
}
