//! `replay` with its notes entered in a lent log: a host in Rust keeps the log in
//! place and lends it to the port's `note_lent`. Everything else, the purges too,
//! is the second implementation's.

use oracle::calls::{Answer, Call, Engine};
use oracle::lines::replay;
use oracle::second::Second;
use oracle::state::{Entry, Log, Path, Table};

const PLACES: usize = 16;

/// The refusal of a log that isn't well kept.
const NOT_WELL_KEPT: u8 = 7;

#[repr(C)]
#[derive(Clone, Copy, Debug, Default, PartialEq, Eq)]
struct ChangedAttr {
    identity: u64,
    cluster: u32,
    attr: u32,
    endpoint: u16,
}

#[repr(C)]
#[derive(Clone, Copy, Debug, PartialEq, Eq)]
struct Held {
    entries: [ChangedAttr; PLACES],
    len: usize,
}

#[repr(C)]
#[derive(Clone, Copy, Debug, PartialEq, Eq)]
struct ChangedAttrs {
    held: Held,
    next: u64,
}

#[repr(C)]
struct LentAnswer {
    identity: u64,
    code: u8,
}

extern "C" {
    fn note_lent(log: &mut ChangedAttrs, endpoint: u16, cluster: u32, attr: u32) -> LentAnswer;
}

/// The note in the log that is lent.
fn note(log: &mut ChangedAttrs, path: &Path) -> Result<u64, u8> {
    // Safety: the archive's function takes every log, and holds none of it when it returns.
    let answer = unsafe { note_lent(log, path.endpoint, path.cluster, path.attribute) };
    match answer.code {
        0 => Ok(answer.identity),
        code => Err(code),
    }
}

struct Lent {
    rest: Second,
    log: ChangedAttrs,
}

impl Lent {
    fn new() -> Self {
        let rest = Second::new();
        let log = placed(&rest.table().log);
        Lent { rest, log }
    }
}

impl Engine for Lent {
    fn call(&mut self, call: &Call) -> Answer {
        let before = self.rest.table().log.clone();
        let answer = self.rest.call(call);
        if let Call::Note(path) = call {
            // A note that was entered wakes.
            return note(&mut self.log, path).map(|identity| vec![identity, 1]);
        }
        let after = &self.rest.table().log;
        if *after != before {
            self.log = placed(after);
        }
        answer
    }

    fn state(&self) -> Table {
        Table {
            log: listed(&self.log),
            ..self.rest.state()
        }
    }
}

fn placed(log: &Log) -> ChangedAttrs {
    let mut entries = [ChangedAttr::default(); PLACES];
    for (place, entry) in entries.iter_mut().zip(&log.entries) {
        *place = ChangedAttr {
            identity: entry.identity,
            cluster: entry.path.cluster,
            attr: entry.path.attribute,
            endpoint: entry.path.endpoint,
        };
    }
    let held = Held {
        entries,
        len: log.entries.len(),
    };
    ChangedAttrs {
        held,
        next: log.next,
    }
}

fn listed(log: &ChangedAttrs) -> Log {
    let entries = log.held.entries[..log.held.len].iter().map(|place| Entry {
        path: Path {
            endpoint: place.endpoint,
            cluster: place.cluster,
            attribute: place.attr,
        },
        identity: place.identity,
    });
    Log {
        next: log.next,
        entries: entries.collect(),
    }
}

/// A log that isn't well kept, which no history has, is refused and left as it was.
fn refuses(len: usize, next: u64) {
    let entry = ChangedAttr {
        identity: 5,
        cluster: 6,
        attr: 7,
        endpoint: 8,
    };
    let held = Held {
        entries: [entry; PLACES],
        len,
    };
    let given = ChangedAttrs { held, next };
    let mut log = given;
    let path = Path {
        endpoint: 1,
        cluster: 2,
        attribute: 3,
    };
    assert_eq!(note(&mut log, &path), Err(NOT_WELL_KEPT));
    assert_eq!(log, given);
}

fn main() -> std::io::Result<()> {
    refuses(PLACES + 1, 9);
    refuses(usize::MAX, 9);
    refuses(0, 0);
    replay(
        &mut Lent::new(),
        std::io::stdin().lock(),
        std::io::stdout().lock(),
    )
}
