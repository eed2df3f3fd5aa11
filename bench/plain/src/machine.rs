//! A script on one thread, a tick at a time, without proofs: by turns, or by a schedule that is drawn.
use crate::client::Client;
use crate::reader::Reader;
use crate::script::{Script, Task};
use crate::table::Table;
use crate::Tick;

pub struct Machine<'s> {
    pub table: Table,
    /// The setup's first.
    clients: Vec<Client>,
    readers: Vec<Reader>,
    script: &'s Script<'s>,
    /// How many ticks were made, and how many of them moved.
    pub ticks: u64,
    pub moved: u64,
}

impl<'s> Machine<'s> {
    /// The setup has run when it is made.
    pub fn new(script: &'s Script<'s>, tasks: Vec<Vec<Task>>) -> Self {
        let readers = script.links.iter().enumerate().map(|(link, spec)| Reader::new(link as u16, spec.open));
        let mut machine = Machine {
            table: Table::new(script),
            clients: tasks.into_iter().map(Client::new).collect(),
            readers: readers.collect(),
            script,
            ticks: 0,
            moved: 0,
        };
        machine.run_first();
        machine
    }

    /// A tick of a seat: the clients in order, the setup being 0, and behind them the readers.
    fn tick(&mut self, seat: usize) -> bool {
        let tick = match self.clients.get_mut(seat) {
            Some(client) => client.tick(&mut self.table),
            None => self.readers[seat - self.clients.len()].tick(&mut self.table, &self.script.calls),
        };
        self.ticks += 1;
        let moved = matches!(tick, Tick::Moved);
        self.moved += u64::from(moved);
        moved
    }

    fn run_first(&mut self) {
        while self.tick(0) {}
    }

    fn seats(&self) -> usize {
        self.clients.len() + self.readers.len()
    }

    pub fn play_drawn(&mut self, seed: u64) {
        let (mut state, others) = (seed, self.seats() as u64 - 1);
        let count = if others == 0 { 0 } else { 64 * self.script.operations.len() + 256 };
        for _ in 0..count {
            state = state.wrapping_mul(6_364_136_223_846_793_005).wrapping_add(1_442_695_040_888_963_407);
            self.tick(1 + ((state >> 33) % others) as usize);
        }
    }

    /// Rounds of all seats but the setup's, until none moves.
    fn play_on(&mut self) {
        loop {
            let before = self.moved;
            for seat in 1..self.seats() {
                self.tick(seat);
            }
            if self.moved == before {
                return;
            }
        }
    }

    /// All runs to its end; then the sockets are ended, and the readers see it.
    pub fn settle(&mut self) {
        self.play_on();
        self.clients[0].end(self.script.links.iter().map(|link| link.open).collect());
        self.run_first();
        self.play_on();
    }
}
