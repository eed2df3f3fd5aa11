//! The steps of whoever writes a link: all messages up to the newest that it knows of, then the head is emptied, or the
//! messages that came meanwhile are turned round.
use crate::client::{Client, Point};
use crate::links::Put;
use crate::sockets::ReleaseStep;
use crate::table::*;
use crate::Tick;

#[derive(Clone, Copy)]
pub struct Writer {
    socket: u64,
    link: u16,
    /// The ticket of the newest message that it knows of.
    last: u64,
    /// How many messages have places on the link.
    placed: u32,
}

/// The first ticket in these is that of the message that is written.
#[derive(Clone, Copy)]
pub enum WriteStep {
    TakeMessage(u64),
    Look(u64),
    Put(u64),
    Ask(u64),
    StorePlace(u64),
    ReadNext(u64),
    Free(u64, Option<u64>),
}

#[derive(Clone, Copy)]
pub enum HoldStep {
    FindLink,
    TakeFirstHome,
    PutHome,
    EmptyHead,
    TakeHome(u64),
    Walk(Walk),
    Turn(Walk, u64),
}

/// A walk from the newest ticket towards the last one that was written: where it is, and what it passed before.
#[derive(Clone, Copy)]
pub struct Walk {
    newest: u64,
    at: u64,
    after: u64,
}

impl Client {
    /// The head was idle: the link is taken for the seat's own message.
    pub fn hold_first(&mut self, socket: u64, own: u64) {
        self.point = Point::Hold(Writer { socket, link: 0, last: own, placed: 0 }, HoldStep::FindLink);
    }

    pub fn write(&mut self, table: &mut Table, mut writer: Writer, step: WriteStep) {
        let next = match step {
            WriteStep::TakeMessage(now) => {
                self.out = table.letter(now).take();
                WriteStep::Look(now)
            }
            WriteStep::Look(now) => {
                table.look(writer.socket);
                WriteStep::Put(now)
            }
            WriteStep::Put(now) => self.put(table, writer.link, now),
            // A link in memory is always ready.
            WriteStep::Ask(now) => WriteStep::Look(now),
            WriteStep::StorePlace(now) => {
                let out = self.out.take().unwrap();
                *table.place(out.operation) = place_word(writer.link, writer.placed);
                writer.placed += 1;
                if now == writer.last {
                    WriteStep::Free(now, None)
                } else {
                    WriteStep::ReadNext(now)
                }
            }
            WriteStep::ReadNext(now) => WriteStep::Free(now, Some(*table.next(now))),
            WriteStep::Free(now, next) => {
                *table.request(request_of(now)) = (generation_of(now) + 1) << 1;
                match next {
                    Some(next) => WriteStep::TakeMessage(next),
                    None => {
                        self.point = Point::Hold(writer, HoldStep::PutHome);
                        return;
                    }
                }
            }
        };
        self.point = Point::Write(writer, next);
    }

    fn put(&mut self, table: &mut Table, link: u16, now: u64) -> WriteStep {
        let out = self.out.as_mut().unwrap();
        match table.home(link).link.put(out.piece()) {
            Put::Took(count) => {
                out.taken += count;
                if out.taken == out.bytes.len() {
                    WriteStep::StorePlace(now)
                } else {
                    WriteStep::Look(now)
                }
            }
            Put::Again => WriteStep::Ask(now),
        }
    }

    pub fn hold(&mut self, table: &mut Table, mut writer: Writer, step: HoldStep) -> Tick {
        let slot = slot_of(writer.socket);
        let next = match step {
            HoldStep::FindLink => {
                writer.link = *table.slot(slot, Part::Link) as u16;
                HoldStep::TakeFirstHome
            }
            HoldStep::TakeFirstHome => {
                writer.placed = table.take_home(writer.link);
                return self.write_from(writer, writer.last);
            }
            HoldStep::PutHome => {
                table.put_home(writer.link, writer.placed);
                HoldStep::EmptyHead
            }
            HoldStep::EmptyHead => {
                match compare_exchange(table.slot(slot, Part::Head), writer.last, IDLE | writer.last) {
                    found if found == writer.last => return self.give_back(slot),
                    newest => HoldStep::TakeHome(newest),
                }
            }
            HoldStep::TakeHome(newest) => {
                writer.placed = table.take_home(writer.link);
                HoldStep::Walk(Walk { newest, at: newest, after: 0 })
            }
            HoldStep::Walk(walk) => match *table.next(walk.at) {
                UNCONNECTED => return Tick::Waits,
                before => HoldStep::Turn(walk, before),
            },
            HoldStep::Turn(Walk { newest, at, after }, before) => {
                *table.next(at) = after;
                if before == writer.last {
                    writer.last = newest;
                    return self.write_from(writer, at);
                }
                HoldStep::Walk(Walk { newest, at: before, after: at })
            }
        };
        self.point = Point::Hold(writer, next);
        Tick::Moved
    }

    pub fn give_back(&mut self, slot: usize) -> Tick {
        self.point = Point::Release(slot, ReleaseStep::SubRef);
        Tick::Moved
    }

    fn write_from(&mut self, writer: Writer, first: u64) -> Tick {
        self.point = Point::Write(writer, WriteStep::TakeMessage(first));
        Tick::Moved
    }
}
