//! The stamps of an entry: what was asked for, and what is chosen where nothing was.
use crate::fault::{said, Fault};
use crate::ids::{self, Id};
use crate::{system, times};
use wrapper::Request;

/// What was asked for; the rest is chosen here.
#[derive(Clone, Copy, Default)]
pub struct Wished {
    pub seqnum: Option<u64>,
    pub realtime: Option<u64>,
    pub monotonic: Option<u64>,
    pub machine: Option<Id>,
    pub boot: Option<Id>,
    /// Whether stamps are taken that are hardly meant.
    pub anyway: bool,
}

pub struct Stamps {
    pub machine: Id,
    pub boot: Id,
    pub seqnum: u64,
    pub realtime: u64,
    pub monotonic: u64,
}

impl Wished {
    /// Those of an entry that comes after one with this sequence number, or 0.
    pub fn after(&self, last: u64) -> Result<Stamps, Fault> {
        Ok(Stamps {
            machine: self.machine.map_or_else(ids::machine, Ok)?,
            boot: self.boot.map_or_else(ids::boot, Ok)?,
            // After the greatest number there is none: 17.
            seqnum: self.seqnum.unwrap_or(last.saturating_add(1)),
            // The present, also where the last entry lies after it: its clock may have been set since.
            realtime: self.realtime.map_or_else(now, Ok)?,
            monotonic: self.monotonic.map_or_else(monotonic, Ok)?,
        })
    }
}

impl Stamps {
    /// An append with these stamps.
    pub fn request<'a>(&'a self, fields: &'a [u8]) -> Request<'a> {
        Request {
            machine: &self.machine,
            boot: &self.boot,
            seqnum: self.seqnum,
            realtime: self.realtime,
            monotonic: self.monotonic,
            fields,
        }
    }
}

fn now() -> Result<u64, Fault> {
    times::now().map_err(|said| Fault::usage(format!("{said}: give --time")))
}

fn monotonic() -> Result<u64, Fault> {
    system::monotonic().map_err(|error| {
        let said = said(&error);
        Fault::usage(format!("no monotonic clock, {said}: give --monotonic"))
    })
}
