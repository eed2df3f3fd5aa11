//! What `id_bench` does, as one writes it in Rust with std alone: so many ids by each thread are made, locked and ended.
//! `steps` takes the same steps on the same words; `mutex` has a `Mutex` for each slot and one for the list of the free
//! slots, as bRPC's bthread_id has a lock in each id and a pool of them.
use std::cell::UnsafeCell;
use std::hint::spin_loop;
use std::sync::atomic::{AtomicU64, Ordering::SeqCst};
use std::sync::{Condvar, Mutex};
use std::{env, thread};

const SLOTS: u64 = 256;

/// The versions that a slot has.
const LAST: u64 = 67_108_848;

/// Ids that are made, locked and ended with a content of their own.
trait Ids: Sync {
    type Lock;

    fn create(&self, range: u64, content: u32) -> Result<u64, u32>;

    fn lock(&self, version: u64) -> Result<Self::Lock, u64>;

    fn destroy(&self, lock: Self::Lock) -> u32;
}

/// A word of a slot: its first version, its state, how many versions the range has.
const FREE: u64 = 0;
const OPEN: u64 = 1;
const LOCKED: u64 = 2;

fn pack(first: u64, state: u64, range: u64) -> u64 {
    (first << 38) + (state << 36) + ((range - 1) << 33)
}

fn state_of(word: u64) -> u64 {
    (word >> 36) & 3
}

fn range_of(word: u64) -> u64 {
    ((word >> 33) & 7) + 1
}

/// A tag and a word for each slot, and its content.
struct Steps {
    words: Vec<AtomicU64>,
    contents: Vec<UnsafeCell<Option<u32>>>,
}

/// Only who claimed a slot or locked its id looks at its content.
unsafe impl Sync for Steps {}

struct StepLock {
    content: u32,
    slot: usize,
    word: u64,
}

impl Steps {
    fn new() -> Steps {
        let words = (0..2 * SLOTS).map(|k| AtomicU64::new(if k % 2 == 0 { 0 } else { pack(1, FREE, 1) }));
        Steps { words: words.collect(), contents: (0..SLOTS).map(|_| UnsafeCell::new(None)).collect() }
    }
}

impl Ids for Steps {
    type Lock = StepLock;

    fn create(&self, range: u64, content: u32) -> Result<u64, u32> {
        for (slot, cell) in self.contents.iter().enumerate() {
            if self.words[2 * slot].swap(1, SeqCst) != 0 {
                continue;
            }
            let first = self.words[2 * slot + 1].load(SeqCst) >> 38;
            unsafe { *cell.get() = Some(content) };
            self.words[2 * slot + 1].store(pack(first, OPEN, range), SeqCst);
            return Ok(((slot as u64) << 32) + first);
        }
        Err(content)
    }

    fn lock(&self, version: u64) -> Result<StepLock, u64> {
        let (slot, own) = ((version >> 32) as usize, version & 0xffff_ffff);
        if slot >= self.contents.len() {
            return Err(0);
        }
        loop {
            let found = self.words[2 * slot + 1].load(SeqCst);
            let first = found >> 38;
            if state_of(found) == FREE || own < first || own >= first + range_of(found) {
                return Err(found);
            }
            if state_of(found) != OPEN {
                spin_loop();
                continue;
            }
            let next = found + ((LOCKED - OPEN) << 36);
            if self.words[2 * slot + 1].compare_exchange(found, next, SeqCst, SeqCst).is_ok() {
                let content = unsafe { (*self.contents[slot].get()).take() };
                return Ok(StepLock { content: content.unwrap(), slot, word: next });
            }
        }
    }

    fn destroy(&self, lock: StepLock) -> u32 {
        let next = (lock.word >> 38) + range_of(lock.word);
        self.words[2 * lock.slot + 1].swap(pack(next, FREE, 1), SeqCst);
        if next <= LAST {
            self.words[2 * lock.slot].store(0, SeqCst);
        }
        lock.content
    }
}

struct Slot {
    first: u64,
    range: u64,
    locked: bool,
    waiting: u32,
    content: Option<u32>,
}

struct Mutexes {
    slots: Vec<(Mutex<Slot>, Condvar)>,
    free: Mutex<Vec<usize>>,
}

struct MutexLock {
    content: u32,
    slot: usize,
}

impl Mutexes {
    fn new() -> Mutexes {
        let slot = || Mutex::new(Slot { first: 1, range: 0, locked: false, waiting: 0, content: None });
        let slots = (0..SLOTS).map(|_| (slot(), Condvar::new())).collect();
        Mutexes { slots, free: Mutex::new((0..SLOTS as usize).rev().collect()) }
    }
}

impl Ids for Mutexes {
    type Lock = MutexLock;

    fn create(&self, range: u64, content: u32) -> Result<u64, u32> {
        let Some(at) = self.free.lock().unwrap().pop() else { return Err(content) };
        let mut slot = self.slots[at].0.lock().unwrap();
        slot.range = range;
        slot.content = Some(content);
        Ok(((at as u64) << 32) + slot.first)
    }

    fn lock(&self, version: u64) -> Result<MutexLock, u64> {
        let (at, own) = ((version >> 32) as usize, version & 0xffff_ffff);
        let Some((mutex, opened)) = self.slots.get(at) else { return Err(0) };
        let mut slot = mutex.lock().unwrap();
        loop {
            if own < slot.first || own >= slot.first + slot.range {
                return Err(slot.first);
            }
            if !slot.locked {
                slot.locked = true;
                return Ok(MutexLock { content: slot.content.take().unwrap(), slot: at });
            }
            slot.waiting += 1;
            slot = opened.wait(slot).unwrap();
            slot.waiting -= 1;
        }
    }

    fn destroy(&self, lock: MutexLock) -> u32 {
        let (mutex, opened) = &self.slots[lock.slot];
        let mut slot = mutex.lock().unwrap();
        slot.first += slot.range;
        slot.range = 0;
        slot.locked = false;
        let (first, waiting) = (slot.first, slot.waiting);
        drop(slot);
        if waiting > 0 {
            opened.notify_all();
        }
        if first <= LAST {
            self.free.lock().unwrap().push(lock.slot);
        }
        lock.content
    }
}

/// Makes an id of two versions, locks it and ends it: whether its content came back.
fn cycle(ids: &impl Ids, content: u32) -> bool {
    let Ok(id) = ids.create(2, content) else { return false };
    let Ok(lock) = ids.lock(id) else { return false };
    ids.destroy(lock) == content
}

/// So many of them on each of so many threads: how many brought their content back.
fn on_threads(ids: &impl Ids, threads: u64, count: u32) -> u64 {
    let cycles = || (0..count).filter(|&content| cycle(ids, content)).count() as u64;
    thread::scope(|scope| {
        let others: Vec<_> = (1..threads).map(|_| scope.spawn(&cycles)).collect();
        cycles() + others.into_iter().map(|other| other.join().unwrap()).sum::<u64>()
    })
}

fn main() {
    let words: Vec<String> = env::args().skip(1).collect();
    let threads: u64 = words[1].parse().unwrap();
    let count: u32 = words[2].parse().unwrap();
    let done = match words[0].as_str() {
        "steps" => on_threads(&Steps::new(), threads, count),
        _ => on_threads(&Mutexes::new(), threads, count),
    };
    println!("{threads} {count}: {done} ids");
}
