//! What `table_bench` does, as one writes it in Rust with std alone, so many times by each thread:
//! `table` the same steps on the same words, `add` a bare `fetch_add` with `fetch_sub`, `arc` an `Arc` cloned and dropped.
use std::hint::black_box;
use std::sync::atomic::{AtomicU64, Ordering::SeqCst};
use std::sync::Arc;
use std::{env, thread};

/// A slot's words: its tag, its reference word (version and number of references), its link, its head, its code, a spare one.
const WORDS: usize = 6;

struct Table {
    words: Vec<AtomicU64>,
    slots: u32,
}

struct Sock {
    id: u64,
}

impl Table {
    fn address(&self, id: u64) -> Result<Sock, u64> {
        let slot = id as u32;
        assert!(slot < self.slots);
        let found = self.words[WORDS * slot as usize + 1].fetch_add(1, SeqCst);
        if found >> 32 == id >> 32 {
            return Ok(Sock { id });
        }
        self.give_back(slot);
        Err(found)
    }

    fn release(&self, sock: Sock) -> bool {
        self.give_back(sock.id as u32)
    }

    fn give_back(&self, slot: u32) -> bool {
        let left = self.words[WORDS * slot as usize + 1].fetch_sub(1, SeqCst) - 1;
        if left as u32 != 0 || (left >> 32) % 2 == 0 {
            return false;
        }
        self.end_life(slot, left)
    }

    /// The last reference of a failed socket: whoever wins the exchange gives the slot free.
    #[cold]
    fn end_life(&self, slot: u32, left: u64) -> bool {
        let words = &self.words[WORDS * slot as usize..];
        if words[1].compare_exchange(left, left + (1 << 32), SeqCst, SeqCst).is_err() {
            return false;
        }
        words[0].store(0, SeqCst);
        true
    }
}

/// Runs the loop on so many threads, and adds up what each answers.
fn on_threads(threads: u64, run: impl Fn() -> u64 + Sync) -> u64 {
    thread::scope(|scope| {
        let others: Vec<_> = (1..threads).map(|_| scope.spawn(&run)).collect();
        run() + others.into_iter().map(|other| other.join().unwrap()).sum::<u64>()
    })
}

fn main() {
    let words: Vec<String> = env::args().skip(1).collect();
    let threads: u64 = words[1].parse().unwrap();
    let count: u64 = words[2].parse().unwrap();
    let got = match words[0].as_str() {
        "table" => {
            let table = Table { words: (0..WORDS as u64).map(|_| AtomicU64::new(0)).collect(), slots: 1 };
            table.words[0].store(1, SeqCst);
            table.words[1].store(1, SeqCst);
            let id = black_box(0u64);
            on_threads(threads, || {
                let mut got = 0;
                for _ in 0..count {
                    let Ok(sock) = table.address(id) else { continue };
                    table.release(sock);
                    got += 1;
                }
                got
            })
        }
        "add" => {
            let word = AtomicU64::new(0);
            on_threads(threads, || {
                for _ in 0..count {
                    word.fetch_add(1, SeqCst);
                    word.fetch_sub(1, SeqCst);
                }
                count
            })
        }
        _ => {
            let value = Arc::new(0u64);
            on_threads(threads, || {
                for _ in 0..count {
                    drop(black_box(Arc::clone(&value)));
                }
                count
            })
        }
    };
    println!("{threads} {count}: {got} pairs");
}
