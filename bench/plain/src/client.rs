//! A client's seat, and that of the setup: one atomic step a tick. What no generated script comes to is left out: a
//! socket that fails before the ending, a put that fails, a message that is dropped, slots or requests that run out,
//! retries, `hold`, `drop`, `fail`, `expire`, `join`, and the lines of a schedule.
use crate::frames::encode_request;
use crate::script::{Call, Task};
use crate::sockets::{EndStep, OpenStep, Opening, ReleaseStep};
use crate::table::*;
use crate::writing::{HoldStep, WriteStep, Writer};
use crate::Tick;
use std::rc::Rc;

/// The steps of a call before the look with which a send of its frame begins.
#[derive(Clone, Copy)]
pub enum CallStep {
    LoadName,
    ClaimId(usize),
    PutCall(usize),
    MakeId(usize),
    StoreCall(u64),
    AddRef(u64),
    FindLink(u64),
    StoreAt(u64, u16),
}

/// The first ticket in these is the seat's own.
#[derive(Clone, Copy)]
pub enum SendStep {
    LoadName(u16),
    AddRef,
    Look,
    Claim(usize),
    PutMessage(u64),
    Unconnect(u64),
    SwapHead(u64),
    Connect(u64, u64),
}

/// Where a seat stands: its next step, and what it needs for it, such as the id of its socket.
#[derive(Clone, Copy)]
pub enum Point {
    Rest,
    Open(Opening, OpenStep),
    Call(u64, CallStep),
    Send(u64, SendStep),
    Write(Writer, WriteStep),
    Hold(Writer, HoldStep),
    Release(usize, ReleaseStep),
    End(EndStep),
}

pub struct Client {
    tasks: std::vec::IntoIter<Task>,
    /// The `open`s that it has still to end.
    ending: std::vec::IntoIter<u16>,
    pub point: Point,
    call: Option<Rc<Call>>,
    /// What it sends, until it lies at the home of a request.
    message: Option<Letter>,
    /// What it writes.
    pub out: Option<Letter>,
}

impl Client {
    pub fn new(tasks: Vec<Task>) -> Self {
        let (tasks, ending) = (tasks.into_iter(), vec![].into_iter());
        let mut client = Client { tasks, ending, point: Point::Rest, call: None, message: None, out: None };
        client.go_on();
        client
    }

    /// The sockets of these `open`s are ended next.
    pub fn end(&mut self, opens: Vec<u16>) {
        self.ending = opens.into_iter();
        self.go_on();
    }

    pub fn go_on(&mut self) {
        self.point = match self.tasks.next() {
            Some(Task::Open { operation, name, link }) => {
                Point::Open(Opening { operation, name, link, slot: 0, version: 0 }, OpenStep::Claim)
            }
            Some(Task::Send { operation, name, bytes }) => {
                self.message = Some(Letter { operation, bytes, head: 0, taken: 0 });
                Point::Send(0, SendStep::LoadName(name))
            }
            Some(Task::Call(call)) => {
                self.call = Some(call);
                Point::Call(0, CallStep::LoadName)
            }
            None => match self.ending.next() {
                Some(open) => Point::End(EndStep::LoadOpen(open)),
                None => Point::Rest,
            },
        };
    }

    pub fn tick(&mut self, table: &mut Table) -> Tick {
        match self.point {
            Point::Rest => return Tick::Idle,
            Point::Open(opening, step) => self.open(table, opening, step),
            Point::Call(socket, step) => self.call(table, socket, step),
            Point::Send(socket, step) => self.send(table, socket, step),
            Point::Write(writer, step) => self.write(table, writer, step),
            Point::Hold(writer, step) => return self.hold(table, writer, step),
            Point::Release(slot, step) => self.release(table, slot, step),
            Point::End(step) => self.end_socket(table, step),
        }
        Tick::Moved
    }

    fn call(&mut self, table: &mut Table, mut socket: u64, step: CallStep) {
        let call = self.call.as_ref().unwrap();
        let next = match step {
            CallStep::LoadName => {
                socket = *table.name(call.name) - 1;
                CallStep::ClaimId(0)
            }
            CallStep::ClaimId(slot) if swap(&mut table.ids.tags[slot], 1) != 0 => CallStep::ClaimId(slot + 1),
            CallStep::ClaimId(slot) => CallStep::PutCall(slot),
            CallStep::PutCall(slot) => {
                table.ids.homes[slot] = Some(call.clone());
                CallStep::MakeId(slot)
            }
            CallStep::MakeId(slot) => {
                let first = first_of(table.ids.words[slot]);
                table.ids.words[slot] = id_word(first, OPEN, call.range);
                CallStep::StoreCall((slot as u64) << 32 | first)
            }
            CallStep::StoreCall(id) => {
                table.ids.calls[usize::from(call.operation)] = id;
                self.message = Some(frame_of(call, id));
                CallStep::AddRef(id)
            }
            CallStep::AddRef(id) => {
                table.reach(socket);
                CallStep::FindLink(id)
            }
            CallStep::FindLink(id) => CallStep::StoreAt(id, *table.slot(slot_of(socket), Part::Link) as u16),
            CallStep::StoreAt(id, link) => {
                table.ids.ats[usize::from(call.operation)] = at_word(id, link);
                self.point = Point::Send(socket, SendStep::Look);
                return;
            }
        };
        self.point = Point::Call(socket, next);
    }

    fn send(&mut self, table: &mut Table, mut socket: u64, step: SendStep) {
        let slot = slot_of(socket);
        let next = match step {
            SendStep::LoadName(name) => {
                socket = *table.name(name) - 1;
                SendStep::AddRef
            }
            SendStep::AddRef => {
                table.reach(socket);
                SendStep::Look
            }
            SendStep::Look => {
                table.look(socket);
                SendStep::Claim(0)
            }
            SendStep::Claim(request) => match fetch_or(table.request(request), 1) {
                found if found % 2 == 0 => SendStep::PutMessage(ticket(found / 2, request)),
                _ => SendStep::Claim(request + 1),
            },
            SendStep::PutMessage(own) => {
                *table.letter(own) = self.message.take();
                SendStep::Unconnect(own)
            }
            SendStep::Unconnect(own) => {
                *table.next(own) = UNCONNECTED;
                SendStep::SwapHead(own)
            }
            SendStep::SwapHead(own) => match swap(table.slot(slot, Part::Head), own) {
                found if found & IDLE == 0 => SendStep::Connect(own, found),
                _ => return self.hold_first(socket, own),
            },
            SendStep::Connect(own, before) => {
                *table.next(own) = before;
                self.point = Point::Release(slot, ReleaseStep::SubRef);
                return;
            }
        };
        self.point = Point::Send(socket, next);
    }
}

/// The frame of a call's first attempt, whose version is the one behind the id's own.
fn frame_of(call: &Call, id: u64) -> Letter {
    let mut bytes = vec![];
    encode_request(&mut bytes, &call.request, id + 1, &call.payload);
    let head = bytes.len() - call.payload.len();
    Letter { operation: call.operation, bytes, head, taken: 0 }
}
