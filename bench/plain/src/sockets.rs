//! The steps by which a socket is made, a reference given back, and a socket ended when all else is done.
use crate::client::{Client, Point};
use crate::table::*;

const EEOF: u64 = 1_014;
const LAST_VERSION: u64 = 4_294_967_292;

#[derive(Clone, Copy)]
pub struct Opening {
    pub operation: u16,
    pub name: u16,
    pub link: u16,
    pub slot: usize,
    /// The version that it was born with.
    pub version: u64,
}

#[derive(Clone, Copy)]
pub enum OpenStep {
    Claim,
    StoreLink,
    ResetHead,
    WipeCode,
    GiveBirth,
    StoreOpen,
    StoreName,
}

/// The version in these is the one that the slot was recycled to.
#[derive(Clone, Copy)]
pub enum ReleaseStep {
    SubRef,
    Recycle(u64),
    LoadLink(u64),
    TakeLink(u64, u16),
    FinishLink(u64, u16),
    PutLink(u64, u16),
    FreeSlot,
}

#[derive(Clone, Copy)]
pub enum EndStep {
    LoadOpen(u16),
    AddRef(u64),
    SetOdd(u64),
    StoreCode(u64),
    SubRef(u64),
}

impl Client {
    pub fn open(&mut self, table: &mut Table, mut opening: Opening, step: OpenStep) {
        let Opening { operation, name, link, slot, version } = opening;
        let word = (version << 32 | slot as u64) + 1;
        let next = match step {
            OpenStep::Claim if swap(table.slot(slot, Part::Tag), 1) != 0 => {
                opening.slot += 1;
                OpenStep::Claim
            }
            OpenStep::Claim => OpenStep::StoreLink,
            OpenStep::StoreLink => {
                *table.slot(slot, Part::Link) = u64::from(link);
                OpenStep::ResetHead
            }
            OpenStep::ResetHead => {
                *table.slot(slot, Part::Head) = IDLE;
                OpenStep::WipeCode
            }
            OpenStep::WipeCode => {
                *table.slot(slot, Part::Code) = 0;
                OpenStep::GiveBirth
            }
            OpenStep::GiveBirth => {
                opening.version = version_of(fetch_add(table.slot(slot, Part::Vref), 1));
                OpenStep::StoreOpen
            }
            OpenStep::StoreOpen => {
                *table.open(operation) = word;
                OpenStep::StoreName
            }
            OpenStep::StoreName => {
                *table.name(name) = word;
                table.tell(operation, Outcome::Opened { slot, version, link });
                return self.go_on();
            }
        };
        self.point = Point::Open(opening, next);
    }

    /// Who gives the last reference of a failed socket back ends its link and frees its slot.
    pub fn release(&mut self, table: &mut Table, slot: usize, step: ReleaseStep) {
        let next = match step {
            ReleaseStep::SubRef => match fetch_sub(table.slot(slot, Part::Vref), 1) {
                found if version_of(found) % 2 == 1 && found as u32 == 1 => ReleaseStep::Recycle(version_of(found) + 1),
                _ => return self.go_on(),
            },
            ReleaseStep::Recycle(version) => {
                let from = (version - 1) << 32;
                if compare_exchange(table.slot(slot, Part::Vref), from, version << 32) != from {
                    return self.go_on();
                }
                ReleaseStep::LoadLink(version)
            }
            ReleaseStep::LoadLink(version) => ReleaseStep::TakeLink(version, *table.slot(slot, Part::Link) as u16),
            ReleaseStep::TakeLink(version, link) => {
                table.take_home(link);
                ReleaseStep::FinishLink(version, link)
            }
            ReleaseStep::FinishLink(version, link) => {
                table.home(link).link.finish();
                ReleaseStep::PutLink(version, link)
            }
            ReleaseStep::PutLink(version, link) => {
                let placed = table.home(link).placed;
                table.put_home(link, placed);
                if version > LAST_VERSION {
                    return self.go_on();
                }
                ReleaseStep::FreeSlot
            }
            ReleaseStep::FreeSlot => {
                *table.slot(slot, Part::Tag) = 0;
                return self.go_on();
            }
        };
        self.point = Point::Release(slot, next);
    }

    /// A socket is set failed when all clients are at rest; the setup opened each, and nothing else has failed it.
    pub fn end_socket(&mut self, table: &mut Table, step: EndStep) {
        let next = match step {
            EndStep::LoadOpen(open) => EndStep::AddRef(*table.open(open) - 1),
            EndStep::AddRef(socket) => {
                table.reach(socket);
                EndStep::SetOdd(socket)
            }
            EndStep::SetOdd(socket) => {
                fetch_or(table.slot(slot_of(socket), Part::Vref), 1 << 32);
                EndStep::StoreCode(socket)
            }
            EndStep::StoreCode(socket) => {
                *table.slot(slot_of(socket), Part::Code) = EEOF;
                EndStep::SubRef(socket)
            }
            EndStep::SubRef(socket) => {
                fetch_sub(table.slot(slot_of(socket), Part::Vref), 1);
                self.point = Point::Release(slot_of(socket), ReleaseStep::SubRef);
                return;
            }
        };
        self.point = Point::End(next);
    }
}
