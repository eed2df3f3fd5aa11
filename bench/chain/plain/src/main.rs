//! Threads that send messages of 32 bytes through one link in memory, in Rust with std alone: WAY THREADS COUNT PUT_NANOS [latency].
//! `mutex`: a `Mutex<VecDeque>`; who finds nobody writing writes, until the queue is empty. `mpsc`: a thread writes what comes over
//! std's channel. `chain`: the steps of the write chain on bare words, as `write_chain` makes them: an exchange of the head, the link
//! to the request before, one put, and the walk over what came in the meantime.
//! A put takes all of a message, and so many turns of a loop as take PUT_NANOS nanoseconds, as in chain_bench. With `latency` it prints
//! how long sends took, at p50, p99 and p99.9.
use std::cell::UnsafeCell;
use std::collections::VecDeque;
use std::ptr::null_mut;
use std::sync::atomic::{AtomicPtr, AtomicUsize, Ordering::SeqCst};
use std::sync::{mpsc, Mutex};
use std::time::Instant;
use std::{env, hint, thread};

const SIZE: usize = 32;

type Message = [u8; SIZE];

struct Link {
    taken: Vec<u8>,
    turns: u64,
}

fn spin(turns: u64) {
    for _ in 0..turns {
        hint::spin_loop();
    }
}

/// How many turns take so long.
fn turns_for(nanos: u64) -> u64 {
    const SAMPLE: u64 = 1_000_000;
    if nanos == 0 {
        return 0;
    }
    let begun = Instant::now();
    spin(SAMPLE);
    nanos * SAMPLE / (begun.elapsed().as_nanos() as u64).max(1)
}

impl Link {
    fn put(&mut self, message: &Message) {
        spin(self.turns);
        self.taken.extend_from_slice(message);
    }
}

struct Queued {
    waiting: VecDeque<Message>,
    writing: bool,
}

struct Locked {
    queue: Mutex<Queued>,
    link: Mutex<Link>,
}

impl Locked {
    fn send(&self, message: Message) {
        {
            let mut queue = self.queue.lock().unwrap();
            if queue.writing {
                queue.waiting.push_back(message);
                return;
            }
            queue.writing = true;
        }
        let mut link = self.link.lock().unwrap();
        link.put(&message);
        loop {
            let next = {
                let mut queue = self.queue.lock().unwrap();
                let next = queue.waiting.pop_front();
                queue.writing = next.is_some();
                next
            };
            match next {
                Some(message) => link.put(&message),
                None => return,
            }
        }
    }
}

/// What a request's `next` is before the request behind it was told.
const UNCONNECTED: *mut Request = usize::MAX as *mut Request;

struct Request {
    message: Message,
    next: AtomicPtr<Request>,
}

struct Chain {
    head: AtomicPtr<Request>,
    link: UnsafeCell<Link>,
}

unsafe impl Sync for Chain {}

impl Chain {
    fn send(&self, message: Message) {
        let new = Box::into_raw(Box::new(Request { message, next: AtomicPtr::new(UNCONNECTED) }));
        let before = self.head.swap(new, SeqCst);
        unsafe {
            (*new).next.store(before, SeqCst);
            if before.is_null() {
                self.write(new);
            }
        }
    }

    /// The request in hand is written, and each that came behind it.
    unsafe fn write(&self, first: *mut Request) {
        let link = &mut *self.link.get();
        let mut last = first;
        link.put(&(*first).message);
        loop {
            if self.head.compare_exchange(last, null_mut(), SeqCst, SeqCst).is_ok() {
                drop(Box::from_raw(last));
                return;
            }
            let newest = self.head.load(SeqCst);
            let mut order = vec![];
            let mut at = newest;
            while at != last {
                order.push(at);
                at = loop {
                    let next = (*at).next.load(SeqCst);
                    if next != UNCONNECTED {
                        break next;
                    }
                    hint::spin_loop();
                };
            }
            drop(Box::from_raw(last));
            for &request in order.iter().rev() {
                link.put(&(*request).message);
                if request != newest {
                    drop(Box::from_raw(request));
                }
            }
            last = newest;
        }
    }
}

/// Each thread makes so many sends: how long each took, where that is wanted.
fn on_threads<S: Fn(Message) + Clone + Send>(threads: usize, count: usize, latency: bool, send: S) -> Vec<u64> {
    let begun = AtomicUsize::new(0);
    let run = |thread: usize, send: S| {
        let mut took = vec![];
        begun.fetch_add(1, SeqCst);
        while begun.load(SeqCst) < threads {
            hint::spin_loop();
        }
        for number in 0..count {
            let mut message = [thread as u8; SIZE];
            message[..8].copy_from_slice(&(number as u64).to_be_bytes());
            if latency {
                let from = Instant::now();
                send(message);
                took.push(from.elapsed().as_nanos() as u64);
            } else {
                send(message);
            }
        }
        took
    };
    let run = &run;
    thread::scope(|scope| {
        let all: Vec<_> = (0..threads).map(|thread| { let send = send.clone(); scope.spawn(move || run(thread, send)) }).collect();
        drop(send);
        all.into_iter().flat_map(|one| one.join().unwrap()).collect()
    })
}

/// How many messages were taken: whole, and each thread's in rising order.
fn checked(taken: &[u8], threads: usize) -> usize {
    let mut next = vec![0u64; threads];
    for message in taken.chunks(SIZE) {
        let thread = message[8] as usize;
        assert_eq!(message[..8], next[thread].to_be_bytes());
        next[thread] += 1;
    }
    taken.len() / SIZE
}

fn main() {
    let words: Vec<String> = env::args().skip(1).collect();
    let (threads, count): (usize, usize) = (words[1].parse().unwrap(), words[2].parse().unwrap());
    let latency = words.len() > 4;
    let link = Link { taken: Vec::with_capacity(threads * count * SIZE), turns: turns_for(words[3].parse().unwrap()) };
    let from = Instant::now();
    let (mut took, taken) = match words[0].as_str() {
        "mutex" => {
            let queue = Mutex::new(Queued { waiting: VecDeque::new(), writing: false });
            let locked = Locked { queue, link: Mutex::new(link) };
            (on_threads(threads, count, latency, |message| locked.send(message)), locked.link.into_inner().unwrap().taken)
        }
        "mpsc" => {
            let (sender, receiver) = mpsc::channel::<Message>();
            let writer = thread::spawn(move || {
                let mut link = link;
                receiver.iter().for_each(|message| link.put(&message));
                link.taken
            });
            (on_threads(threads, count, latency, move |message| sender.send(message).unwrap()), writer.join().unwrap())
        }
        _ => {
            let chain = Chain { head: AtomicPtr::new(null_mut()), link: UnsafeCell::new(link) };
            (on_threads(threads, count, latency, |message| chain.send(message)), chain.link.into_inner().taken)
        }
    };
    let seconds = from.elapsed().as_secs_f64();
    let got = checked(&taken, threads);
    assert_eq!(got, threads * count);
    print!("{threads} {count}: {got} messages {:.0} a second", got as f64 / seconds);
    if latency {
        took.sort();
        let at = |share: f64| took[((took.len() - 1) as f64 * share) as usize];
        print!(", a send {} {} {} ns", at(0.5), at(0.99), at(0.999));
    }
    println!();
}
