//! The records of a state as the lines show it: plain data, no behaviour of the
//! module. Both implementations are read into these, so that they print alike.

/// An instant is a number of milliseconds; the last one marks "never reported".
pub const LAST: u64 = u64::MAX;

/// The cancel reason that only a clear gives.
pub const CLEARED: u8 = 255;

#[derive(Clone, Copy, Debug, PartialEq, Eq)]
pub struct Path {
    pub endpoint: u16,
    pub cluster: u32,
    pub attribute: u32,
}

#[derive(Clone, Copy, Debug, PartialEq, Eq)]
pub struct Entry {
    pub path: Path,
    pub identity: u64,
}

#[derive(Clone, Debug, PartialEq, Eq)]
pub struct Log {
    pub next: u64,
    pub entries: Vec<Entry>,
}

#[derive(Clone, Copy, Debug, PartialEq, Eq)]
pub struct Subscription {
    pub id: u32,
    pub fabric: u8,
    pub peer: u64,
    pub min: u16,
    pub max: u16,
    pub reported: u64,
    pub retry: u64,
    pub fails: u8,
    pub seen: u64,
    pub seen_events: u64,
    pub rx: u16,
}

/// A subscription out of the table, with the values it was opened with.
#[derive(Clone, Copy, Debug, PartialEq, Eq)]
pub struct Open {
    pub subscription: Subscription,
    pub watermark: u64,
    pub events: u64,
    pub now: u64,
}

#[derive(Clone, Debug, PartialEq, Eq)]
pub struct Table {
    pub capacity: u8,
    /// The implementation's own count of places, which stored and open should equal.
    pub counted: u64,
    pub next_id: u32,
    /// 0 for none.
    pub cancel: u8,
    pub log: Log,
    pub stored: Vec<Subscription>,
    pub report: Option<Open>,
    pub primings: Vec<Open>,
}
