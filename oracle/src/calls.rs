//! The calls that a line can ask for, and what an implementation must offer to
//! be driven by lines. No line is read or printed here.

use crate::state::{Path, Table};

/// How the due instant is found.
#[derive(Clone, Copy, Debug, PartialEq, Eq)]
pub enum KeepAlive {
    Default,
    Icd,
}

/// What a new subscription asks for, at add and at resume.
#[derive(Clone, Copy, Debug, PartialEq, Eq)]
pub struct Request {
    pub fabric: u8,
    pub peer: u64,
    pub min: u16,
    pub max: u16,
    pub events: u64,
    pub rx: u16,
}

/// The settings of a report or a round.
#[derive(Clone, Copy, Debug, PartialEq, Eq)]
pub struct Settings {
    pub now: u64,
    pub events: u64,
    pub keep_alive: KeepAlive,
    pub all: bool,
}

#[derive(Clone, Copy, Debug, PartialEq, Eq)]
pub enum Choice {
    All,
    Fabric(u8),
    Peer(u8, u64),
    Id(u32),
    Expired(u64),
}

/// A subscription that stands in no table, for the questions about one alone.
#[derive(Clone, Copy, Debug, PartialEq, Eq)]
pub struct Single {
    pub min: u16,
    pub max: u16,
    pub reported: u64,
    pub retry: u64,
    pub fails: u8,
    pub seen: u64,
    pub seen_events: u64,
}

#[derive(Clone, Debug, PartialEq, Eq)]
pub enum Call {
    New {
        capacity: u8,
    },
    Add {
        now: u64,
        request: Request,
    },
    Resume {
        id: u32,
        request: Request,
    },
    Note(Path),
    Report(Settings),
    Done {
        id: u32,
        outcome: u8,
    },
    Remove {
        choice: Choice,
        reason: u8,
    },
    Clear,
    Purge,
    Attr {
        id: u32,
        path: Path,
    },
    SendEmpty {
        id: u32,
        keep_alive: KeepAlive,
    },
    Wake {
        events: u64,
        keep_alive: KeepAlive,
    },
    Any {
        now: u64,
        events: u64,
        keep_alive: KeepAlive,
    },
    NextKeepAlive,
    Stats {
        fabric: u8,
    },
    Has {
        fabric: u8,
        peer: u64,
    },
    Round {
        settings: Settings,
        slots: u8,
        outcomes: Vec<u8>,
    },
    Backoff {
        fails: u8,
        max: u16,
    },
    DueAfter {
        max: u16,
        keep_alive: KeepAlive,
    },
    IcdMax {
        idle: u32,
        floor: u16,
    },
    SubMax {
        request: u16,
        floor: u16,
        lower: u16,
        upper: u16,
    },
    Expired {
        reported: u64,
        max: u16,
        now: u64,
    },
    Single {
        single: Single,
        settings: Settings,
    },
    Changed {
        path: Path,
        since: u64,
    },
    AnySince {
        since: u64,
    },
    SetIdentity {
        next: u64,
    },
    LogPurge {
        upto: u64,
    },
    Watermark,
    LogEmpty,
}

/// The values of an acting call, or the number of its refusal.
pub type Answer = Result<Vec<u64>, u8>;

/// The place of a round's id slice before the round, counted from 0.
pub fn unwritten_id(place: usize) -> u64 {
    900_000_000 + place as u64
}

/// An implementation that lines can drive.
pub trait Engine {
    fn call(&mut self, call: &Call) -> Answer;
    fn state(&self) -> Table;
}
