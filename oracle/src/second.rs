//! A second implementation of document 01's rules, sentence by sentence, on growing
//! lists. Its author had read the original too, so the two are not independent
//! readings. No part of the proof; it answers where the original cannot (the
//! refusals) and is compared with it everywhere else.

use crate::calls::{unwritten_id, Answer, Call, Choice, Engine, KeepAlive, Request, Settings};
use crate::state::{Entry, Log, Open, Path, Subscription, Table, CLEARED, LAST};

const PLACES: u8 = 80;
const LOG_PLACES: usize = 16;
const WILD_ENDPOINT: u16 = 65_535;
const WILD: u32 = 4_294_967_295;
const SENT: u8 = 0;
const UNSENT: u8 = 1;
const RETRY: u8 = 2;
const FAILED: u8 = 3;
const ABANDONED: u8 = 4;

pub struct Second {
    table: Table,
}

impl Second {
    pub fn new() -> Self {
        Second {
            table: fresh(PLACES),
        }
    }

    pub fn table(&self) -> &Table {
        &self.table
    }
}

impl Default for Second {
    fn default() -> Self {
        Self::new()
    }
}

impl Engine for Second {
    fn call(&mut self, call: &Call) -> Answer {
        match refusal(&self.table, call) {
            Some(number) => Err(number),
            None => Ok(act(&mut self.table, call)),
        }
    }

    fn state(&self) -> Table {
        self.table.clone()
    }
}

fn fresh(capacity: u8) -> Table {
    Table {
        capacity,
        counted: 0,
        next_id: 1,
        cancel: 0,
        log: Log {
            next: 1,
            entries: Vec::new(),
        },
        stored: Vec::new(),
        report: None,
        primings: Vec::new(),
    }
}

// Time

fn seconds_after(instant: u64, seconds: u16) -> Option<u64> {
    instant.checked_add(u64::from(seconds) * 1_000)
}

fn backoff(fails: u8, max: u16) -> u16 {
    let shift = fails.saturating_sub(1).min(15);
    let doubled = 2_u32 << shift;
    doubled.min(u32::from(max.max(2))) as u16
}

fn due_after(max: u16, keep_alive: KeepAlive) -> u16 {
    match keep_alive {
        KeepAlive::Default => max - max / 2,
        KeepAlive::Icd => max - (max / 2).min(3),
    }
}

fn negotiated(request: u16, floor: u16, lower: u16, upper: u16) -> u16 {
    let bounded = request.min(upper).max(lower);
    bounded.max(floor.saturating_add(10))
}

fn negotiated_icd(idle: u32, floor: u16) -> u16 {
    idle.max(u32::from(floor) + 3).min(65_535) as u16
}

fn expired(reported: u64, max: u16, now: u64) -> bool {
    match seconds_after(reported, max) {
        Some(end) => end <= now,
        None => false,
    }
}

// One subscription

pub fn due(sub: &Subscription, keep_alive: KeepAlive) -> u64 {
    if sub.reported == LAST {
        return 0;
    }
    seconds_after(sub.reported, due_after(sub.max, keep_alive)).unwrap_or(0)
}

fn gate(sub: &Subscription) -> u64 {
    if sub.reported == LAST {
        return 0;
    }
    seconds_after(sub.reported, sub.min).unwrap_or(0)
}

pub fn allowed(sub: &Subscription) -> u64 {
    gate(sub).max(sub.retry)
}

fn change_pending(sub: &Subscription, log: &Log) -> bool {
    any_since(log, sub.seen)
}

fn event_pending(sub: &Subscription, events: u64) -> bool {
    sub.seen_events < events
}

fn reportable(sub: &Subscription, log: &Log, at: &Settings) -> bool {
    allowed(sub) <= at.now
        && ((at.all && sub.reported < at.now)
            || due(sub, at.keep_alive) <= at.now
            || change_pending(sub, log)
            || event_pending(sub, at.events))
}

fn next_instant(sub: &Subscription, log: &Log, events: u64, keep_alive: KeepAlive) -> u64 {
    if change_pending(sub, log) || event_pending(sub, events) {
        allowed(sub)
    } else {
        allowed(sub).max(due(sub, keep_alive))
    }
}

// Change log

fn watermark(log: &Log) -> u64 {
    log.next.wrapping_sub(1)
}

fn field_covers<T: PartialEq>(field: T, other: T, wild: T) -> bool {
    field == wild || (other != wild && field == other)
}

fn covers(path: &Path, other: &Path) -> bool {
    field_covers(path.endpoint, other.endpoint, WILD_ENDPOINT)
        && field_covers(path.cluster, other.cluster, WILD)
        && field_covers(path.attribute, other.attribute, WILD)
}

fn matches(path: &Path, asked: &Path) -> bool {
    (path.endpoint == WILD_ENDPOINT || path.endpoint == asked.endpoint)
        && (path.cluster == WILD || path.cluster == asked.cluster)
        && (path.attribute == WILD || path.attribute == asked.attribute)
}

fn changed_since(log: &Log, path: &Path, since: u64) -> bool {
    let mut entries = log.entries.iter();
    entries.any(|entry| entry.identity > since && matches(&entry.path, path))
}

fn any_since(log: &Log, since: u64) -> bool {
    log.entries.iter().any(|entry| entry.identity > since)
}

/// Swap removal of all that are unwanted, from the front: the last one fills the
/// hole and is looked at next.
fn swap_remove_all<T>(list: &mut Vec<T>, unwanted: impl Fn(&T) -> bool) {
    let mut place = 0;
    while place < list.len() {
        if unwanted(&list[place]) {
            list.swap_remove(place);
        } else {
            place += 1;
        }
    }
}

fn note(log: &mut Log, path: Path) -> u64 {
    let identity = log.next;
    log.next = if identity == u64::MAX {
        1
    } else {
        identity + 1
    };
    if !place_note(log, path, identity) {
        if fold(log) {
            place_note(log, path, identity);
        } else {
            log.entries = vec![all_wild(identity)];
        }
    }
    identity
}

/// Whether the note found a place.
fn place_note(log: &mut Log, path: Path, identity: u64) -> bool {
    let covering = log.entries.iter_mut().find(|old| covers(&old.path, &path));
    if let Some(entry) = covering {
        entry.identity = identity;
        return true;
    }
    swap_remove_all(&mut log.entries, |entry| covers(&path, &entry.path));
    let free = log.entries.len() < LOG_PLACES;
    if free {
        log.entries.push(Entry { path, identity });
    }
    free
}

fn all_wild(identity: u64) -> Entry {
    let path = Path {
        endpoint: WILD_ENDPOINT,
        cluster: WILD,
        attribute: WILD,
    };
    Entry { path, identity }
}

/// Whether a group was found at level 1 or, failing that, at level 2.
fn fold(log: &mut Log) -> bool {
    fold_with(log, cluster_candidate) || fold_with(log, endpoint_candidate)
}

fn cluster_candidate(path: &Path) -> Option<Path> {
    let tame = path.endpoint != WILD_ENDPOINT && path.cluster != WILD;
    tame.then_some(Path {
        attribute: WILD,
        ..*path
    })
}

fn endpoint_candidate(path: &Path) -> Option<Path> {
    let tame = path.endpoint != WILD_ENDPOINT;
    tame.then_some(Path {
        cluster: WILD,
        attribute: WILD,
        ..*path
    })
}

fn fold_with(log: &mut Log, candidate: fn(&Path) -> Option<Path>) -> bool {
    let Some(winner) = winning_candidate(log, candidate) else {
        return false;
    };
    let covered = log.entries.iter().filter(|old| covers(&winner, &old.path));
    let identity = covered.map(|entry| entry.identity).max().unwrap_or(0);
    swap_remove_all(&mut log.entries, |entry| covers(&winner, &entry.path));
    log.entries.push(Entry {
        path: winner,
        identity,
    });
    true
}

fn winning_candidate(log: &Log, candidate: fn(&Path) -> Option<Path>) -> Option<Path> {
    let mut winner = None;
    let mut most = 1;
    for entry in &log.entries {
        let Some(path) = candidate(&entry.path) else {
            continue;
        };
        let covered = log.entries.iter().filter(|old| covers(&path, &old.path));
        let count = covered.count();
        if count > most {
            most = count;
            winner = Some(path);
        }
    }
    winner
}

fn purge_log(log: &mut Log, upto: u64) {
    if upto != 0 {
        swap_remove_all(&mut log.entries, |entry| entry.identity <= upto);
    }
}

// Table: what is refused

fn counted(table: &Table) -> usize {
    table.stored.len() + table.report.iter().len() + table.primings.len()
}

fn live(table: &Table) -> impl Iterator<Item = &Subscription> {
    let open = table.report.iter().chain(&table.primings);
    table
        .stored
        .iter()
        .chain(open.map(|open| &open.subscription))
}

fn is_live(table: &Table, id: u32) -> bool {
    live(table).any(|sub| sub.id == id)
}

fn open_with(table: &Table, id: u32) -> Option<&Open> {
    let mut open = table.report.iter().chain(&table.primings);
    open.find(|open| open.subscription.id == id)
}

fn ids_distinct(table: &Table) -> bool {
    let mut ids: Vec<u32> = live(table).map(|sub| sub.id).collect();
    ids.sort_unstable();
    ids.windows(2).all(|pair| pair[0] != pair[1])
}

fn well_kept(table: &Table) -> bool {
    (1..=PLACES).contains(&table.capacity)
        && counted(table) <= usize::from(table.capacity)
        && table.log.entries.len() <= LOG_PLACES
        && table.log.next != 0
        && ids_distinct(table)
        && live(table).all(|sub| sub.fabric != 0)
        && (table.cancel == 0 || table.report.is_some())
}

/// Whether an argument alone is reason to refuse, whatever the state.
fn bad_argument(call: &Call) -> bool {
    match call {
        Call::New { capacity } => !(1..=PLACES).contains(capacity),
        Call::Add { request, .. } | Call::Resume { request, .. } => request.fabric == 0,
        Call::Remove { reason, .. } => *reason == 0 || *reason == 255,
        Call::Done { outcome, .. } => *outcome > ABANDONED,
        Call::Round {
            slots, outcomes, ..
        } => usize::from(*slots) != outcomes.len() || outcomes.iter().any(|o| *o > ABANDONED),
        _ => false,
    }
}

/// The id that an admission would use.
fn id_to_use(table: &Table, call: &Call) -> Option<u32> {
    match call {
        Call::Add { .. } => Some(table.next_id),
        Call::Resume { id, .. } => Some(*id),
        _ => None,
    }
}

/// The id that must belong to an open report or priming.
fn id_to_be_open(call: &Call) -> Option<u32> {
    match call {
        Call::Done { id, .. } | Call::Attr { id, .. } | Call::SendEmpty { id, .. } => Some(*id),
        _ => None,
    }
}

/// The number of the refusal, in document 01's order, or none.
pub fn refusal(table: &Table, call: &Call) -> Option<u8> {
    let admitted = id_to_use(table, call);
    let reports = matches!(call, Call::Report(_) | Call::Round { .. });
    if !well_kept(table) || *call == (Call::SetIdentity { next: 0 }) {
        Some(7)
    } else if bad_argument(call) {
        Some(5)
    } else if reports && table.report.is_some() {
        Some(3)
    } else if admitted.is_some() && counted(table) >= usize::from(table.capacity) {
        Some(1)
    } else if admitted.is_some_and(|id| is_live(table, id)) {
        Some(4)
    } else if *call == Call::Clear && !table.primings.is_empty() {
        Some(6)
    } else if id_to_be_open(call).is_some_and(|id| open_with(table, id).is_none()) {
        Some(2)
    } else {
        None
    }
}

// Table: what is done

fn act(table: &mut Table, call: &Call) -> Vec<u64> {
    let values = match call {
        Call::New { capacity } => {
            *table = fresh(*capacity);
            vec![u64::from(*capacity)]
        }
        Call::Add { now, request } => vec![u64::from(add(table, *now, request))],
        Call::Resume { id, request } => vec![u64::from(resume(table, *id, request))],
        Call::Note(path) => vec![note(&mut table.log, *path), 1],
        Call::Report(settings) => match report(table, settings) {
            Some(sub) => vec![1, u64::from(sub.id), u64::from(sub.rx)],
            None => vec![0, 0, 0],
        },
        Call::Done { id, outcome } => {
            let (kept, failed) = complete(table, *id, *outcome);
            vec![u64::from(kept), u64::from(failed)]
        }
        Call::Remove { choice, reason } => vec![u64::from(remove(table, choice, *reason))],
        Call::Clear => {
            clear(table);
            vec![0]
        }
        Call::Purge => {
            purge(table);
            vec![]
        }
        Call::Round {
            settings, outcomes, ..
        } => round(table, settings, outcomes),
        Call::SetIdentity { next } => {
            table.log.next = *next;
            vec![]
        }
        Call::LogPurge { upto } => {
            purge_log(&mut table.log, *upto);
            vec![]
        }
        Call::LogEmpty => {
            table.log.entries.clear();
            vec![]
        }
        question => answer(table, question),
    };
    table.counted = counted(table) as u64;
    values
}

fn take_id(table: &mut Table, id: u32) {
    table.next_id = table.next_id.max(id.wrapping_add(1));
}

fn never_reported(table: &Table, id: u32, request: &Request) -> Subscription {
    Subscription {
        id,
        fabric: request.fabric,
        peer: request.peer,
        min: request.min,
        max: request.max,
        reported: LAST,
        retry: 0,
        fails: 0,
        seen: watermark(&table.log),
        seen_events: 0,
        rx: request.rx,
    }
}

fn opened(table: &Table, subscription: Subscription, events: u64, now: u64) -> Open {
    Open {
        subscription,
        watermark: watermark(&table.log),
        events,
        now,
    }
}

fn add(table: &mut Table, now: u64, request: &Request) -> u32 {
    let id = table.next_id;
    take_id(table, id);
    let subscription = never_reported(table, id, request);
    let priming = opened(table, subscription, request.events, now);
    table.primings.push(priming);
    id
}

fn resume(table: &mut Table, id: u32, request: &Request) -> u32 {
    take_id(table, id);
    let mut subscription = never_reported(table, id, request);
    subscription.seen_events = request.events;
    table.stored.push(subscription);
    id
}

fn first_reportable(table: &Table, at: &Settings) -> Option<usize> {
    let mut stored = table.stored.iter();
    stored.position(|sub| reportable(sub, &table.log, at))
}

fn report(table: &mut Table, at: &Settings) -> Option<Subscription> {
    let place = first_reportable(table, at)?;
    let subscription = table.stored.swap_remove(place);
    table.report = Some(opened(table, subscription, at.events, at.now));
    Some(subscription)
}

/// Takes out the open report or priming, with the report's cancel reason.
fn close(table: &mut Table, id: u32) -> (Open, u8) {
    if let Some(open) = table.report.take_if(|open| open.subscription.id == id) {
        return (open, std::mem::take(&mut table.cancel));
    }
    let mut primings = table.primings.iter();
    let place = primings.position(|open| open.subscription.id == id);
    (
        table.primings.swap_remove(place.expect("refused before")),
        0,
    )
}

/// Whether it was kept, and the failed flag.
fn complete(table: &mut Table, id: u32, outcome: u8) -> (bool, bool) {
    let (open, cancel) = close(table, id);
    let after = ended(&open, outcome);
    let gave_up = outcome == RETRY && after.is_none();
    let failed = outcome == FAILED || (outcome == RETRY && !gave_up);
    let kept = after.filter(|_| cancel == 0);
    table.stored.extend(kept);
    (kept.is_some(), failed)
}

/// The subscription as this outcome stores it, or none where it drops it.
fn ended(open: &Open, outcome: u8) -> Option<Subscription> {
    let old = open.subscription;
    match outcome {
        SENT => Some(Subscription {
            reported: open.now,
            ..caught_up(open)
        }),
        UNSENT => Some(caught_up(open)),
        RETRY if old.reported != LAST => Some(backed_off(open)),
        _ => None,
    }
}

fn caught_up(open: &Open) -> Subscription {
    Subscription {
        seen: open.watermark,
        seen_events: open.events,
        retry: 0,
        fails: 0,
        ..open.subscription
    }
}

fn backed_off(open: &Open) -> Subscription {
    let old = open.subscription;
    let fails = old.fails.saturating_add(1);
    let retry = seconds_after(open.now, backoff(fails, old.max)).unwrap_or(LAST);
    Subscription {
        fails,
        retry,
        ..old
    }
}

fn chosen(choice: &Choice, sub: &Subscription) -> bool {
    match *choice {
        Choice::All => true,
        Choice::Fabric(fabric) => sub.fabric == fabric,
        Choice::Peer(fabric, peer) => sub.fabric == fabric && sub.peer == peer,
        Choice::Id(id) => sub.id == id,
        Choice::Expired(now) => expired(sub.reported, sub.max, now),
    }
}

/// Whether it wakes.
fn remove(table: &mut Table, choice: &Choice, reason: u8) -> bool {
    let before = table.stored.len();
    while let Some(place) = table.stored.iter().position(|sub| chosen(choice, sub)) {
        table.stored.swap_remove(place);
    }
    let removed = table.stored.len() < before;
    let mut report = table.report.iter();
    let cancels = table.cancel == 0 && report.any(|open| chosen(choice, &open.subscription));
    if cancels {
        table.cancel = reason;
    }
    removed || cancels
}

fn clear(table: &mut Table) {
    table.stored.clear();
    if table.report.is_some() {
        table.cancel = CLEARED;
    }
}

fn purge(table: &mut Table) {
    if table.report.is_some() || !table.primings.is_empty() {
        return;
    }
    match table.stored.iter().map(|sub| sub.seen).min() {
        Some(least) => purge_log(&mut table.log, least),
        None => table.log.entries.clear(),
    }
}

fn round(table: &mut Table, at: &Settings, outcomes: &[u8]) -> Vec<u64> {
    let mut ids: Vec<u64> = (0..outcomes.len()).map(unwritten_id).collect();
    let mut handed_out = 0;
    for outcome in outcomes {
        let Some(sub) = report(table, at) else {
            break;
        };
        ids[handed_out] = u64::from(sub.id);
        complete(table, sub.id, *outcome);
        handed_out += 1;
    }
    let silent = first_reportable(table, at).is_none();
    let mut values = vec![handed_out as u64, u64::from(silent)];
    values.extend(ids);
    values
}

// Table: what is only asked

fn answer(table: &Table, question: &Call) -> Vec<u64> {
    match question {
        Call::Attr { id, path } => vec![u64::from(attribute(table, *id, path))],
        Call::SendEmpty { id, keep_alive } => {
            let open = open_with(table, *id).expect("refused before");
            vec![u64::from(due(&open.subscription, *keep_alive) <= open.now)]
        }
        Call::Wake { events, keep_alive } => vec![next(table, *events, *keep_alive)],
        Call::Any {
            now,
            events,
            keep_alive,
        } => {
            let at = Settings {
                now: *now,
                events: *events,
                keep_alive: *keep_alive,
                all: false,
            };
            vec![u64::from(first_reportable(table, &at).is_some())]
        }
        Call::NextKeepAlive => next_keep_alive(table),
        Call::Stats { fabric } => statistics(table, *fabric),
        Call::Has { fabric, peer } => vec![u64::from(has(table, *fabric, *peer))],
        Call::Changed { path, since } => {
            vec![u64::from(changed_since(&table.log, path, *since))]
        }
        Call::AnySince { since } => vec![u64::from(any_since(&table.log, *since))],
        Call::Watermark => vec![watermark(&table.log)],
        Call::Single { single, settings } => single_answers(table, single, settings),
        stateless => vec![time_answer(stateless)],
    }
}

fn attribute(table: &Table, id: u32, path: &Path) -> bool {
    let open = open_with(table, id).expect("refused before");
    let sub = &open.subscription;
    sub.reported == LAST || changed_since(&table.log, path, sub.seen)
}

fn next(table: &Table, events: u64, keep_alive: KeepAlive) -> u64 {
    let stored = table.stored.iter();
    let instants = stored.map(|sub| next_instant(sub, &table.log, events, keep_alive));
    instants.min().unwrap_or(LAST)
}

fn next_keep_alive(table: &Table) -> Vec<u64> {
    let dues = table.stored.iter().map(|sub| due(sub, KeepAlive::Icd));
    match dues.min() {
        Some(least) => vec![1, least],
        None => vec![0, 0],
    }
}

fn statistics(table: &Table, fabric: u8) -> Vec<u64> {
    let of_fabric = table.stored.iter().filter(|sub| sub.fabric == fabric);
    let stored = if fabric == 0 { 0 } else { of_fabric.count() };
    let established = table.next_id.saturating_sub(1);
    vec![counted(table) as u64, stored as u64, u64::from(established)]
}

fn has(table: &Table, fabric: u8, peer: u64) -> bool {
    let mut stored = table.stored.iter();
    stored.any(|sub| sub.fabric == fabric && sub.peer == peer && sub.fails == 0)
}

fn single_answers(table: &Table, single: &crate::calls::Single, at: &Settings) -> Vec<u64> {
    let sub = Subscription {
        id: 1,
        fabric: 1,
        peer: 0,
        min: single.min,
        max: single.max,
        reported: single.reported,
        retry: single.retry,
        fails: single.fails,
        seen: single.seen,
        seen_events: single.seen_events,
        rx: 0,
    };
    vec![
        allowed(&sub),
        due(&sub, at.keep_alive),
        u64::from(change_pending(&sub, &table.log)),
        u64::from(event_pending(&sub, at.events)),
        u64::from(reportable(&sub, &table.log, at)),
        next_instant(&sub, &table.log, at.events, at.keep_alive),
    ]
}

fn time_answer(call: &Call) -> u64 {
    match *call {
        Call::Backoff { fails, max } => u64::from(backoff(fails, max)),
        Call::DueAfter { max, keep_alive } => u64::from(due_after(max, keep_alive)),
        Call::IcdMax { idle, floor } => u64::from(negotiated_icd(idle, floor)),
        Call::SubMax {
            request,
            floor,
            lower,
            upper,
        } => u64::from(negotiated(request, floor, lower, upper)),
        Call::Expired { reported, max, now } => u64::from(expired(reported, max, now)),
        _ => unreachable!("every other call is acted on or answered from the table"),
    }
}
