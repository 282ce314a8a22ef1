//! Drives the original by calls and reads its private state. The original
//! decides every answer; only refusals other than 1, which it does not know, are
//! asked of the second implementation first, and then it is left alone.

use std::num::NonZeroU8;
use std::ops::{Deref, DerefMut};

use super::*;
use crate::calls::{self, unwritten_id, Answer, Call, Choice, Engine, Request, Settings};
use crate::second;
use crate::state::{self, Entry, Open, Path, Table, CLEARED};

/// The request of a subscription: its number, in two bytes.
pub struct Rx(IMBuffer);

impl Rx {
    fn of(number: u16) -> Self {
        let mut bytes = IMBuffer::new();
        for byte in number.to_be_bytes() {
            bytes.push(byte).expect("two bytes fit");
        }
        Rx(bytes)
    }
}

impl Deref for Rx {
    type Target = IMBuffer;

    fn deref(&self) -> &IMBuffer {
        &self.0
    }
}

impl DerefMut for Rx {
    fn deref_mut(&mut self) -> &mut IMBuffer {
        &mut self.0
    }
}

fn rx_number(bytes: &[u8]) -> u16 {
    u16::from_be_bytes([bytes[0], bytes[1]])
}

pub struct Pool;

impl Buffers<IMBuffer> for Pool {
    type Buffer<'a> = Rx;
}

type Context<const N: usize> = ReportContext<'static, 'static, Pool, N>;

/// The original's table of one capacity, with the contexts that are out of it.
struct Machine<const N: usize> {
    table: &'static Subscriptions<N>,
    buffers: &'static SubscriptionsBuffers<'static, Pool, N>,
    report: Option<Context<N>>,
    primings: std::vec::Vec<Context<N>>,
}

/// A machine of whatever capacity.
trait AnyMachine {
    fn make_fresh(&mut self);
    fn act_and_check(&mut self, call: &Call, by_value: bool) -> Answer;
    fn read(&self) -> Table;
}

/// The original as an engine: one machine for each capacity that was asked for.
pub struct Original {
    machines: [Option<Box<dyn AnyMachine>>; 80],
    capacity: u8,
    /// Notes of a wild path go in by the wild value and by the functions for a
    /// cluster, an endpoint and all, in turn.
    by_value: bool,
}

impl Original {
    pub fn new() -> Self {
        let mut original = Original {
            machines: [const { None }; 80],
            capacity: 80,
            by_value: false,
        };
        original.begin(80);
        original
    }

    fn begin(&mut self, capacity: u8) {
        self.capacity = capacity;
        let place = usize::from(capacity) - 1;
        let machine = self.machines[place].get_or_insert_with(|| machine_of(capacity));
        machine.make_fresh();
    }

    fn machine(&self) -> &dyn AnyMachine {
        let machine = &self.machines[usize::from(self.capacity) - 1];
        machine.as_deref().expect("begun before")
    }

    fn machine_mut(&mut self) -> &mut dyn AnyMachine {
        let machine = &mut self.machines[usize::from(self.capacity) - 1];
        machine.as_deref_mut().expect("begun before")
    }
}

impl Default for Original {
    fn default() -> Self {
        Self::new()
    }
}

impl Engine for Original {
    fn call(&mut self, call: &Call) -> Answer {
        match second::refusal(&self.state(), call) {
            None | Some(1) => {}
            Some(number) => return Err(number),
        }
        if let Call::New { capacity } = call {
            self.begin(*capacity);
            return Ok(vec![u64::from(*capacity)]);
        }
        self.by_value = !self.by_value;
        let by_value = self.by_value;
        self.machine_mut().act_and_check(call, by_value)
    }

    fn state(&self) -> Table {
        self.machine().read()
    }
}

/// The original with nobody asked before it, as a device runs it: for histories in
/// which nothing is refused but a full table.
#[derive(Default)]
pub struct Bare(Original);

impl Engine for Bare {
    fn call(&mut self, call: &Call) -> Answer {
        if let Call::New { capacity } = call {
            self.0.begin(*capacity);
            return Ok(vec![u64::from(*capacity)]);
        }
        self.0.machine_mut().act_and_check(call, true)
    }

    fn state(&self) -> Table {
        self.0.state()
    }
}

macro_rules! machine_by_capacity {
    ($capacity:expr; $($n:literal)*) => {
        match $capacity {
            $($n => Box::new(Machine::<$n>::new()),)*
            _ => unreachable!("refused before"),
        }
    };
}

fn machine_of(capacity: u8) -> Box<dyn AnyMachine> {
    machine_by_capacity!(capacity;
        1 2 3 4 5 6 7 8 9 10 11 12 13 14 15 16 17 18 19 20
        21 22 23 24 25 26 27 28 29 30 31 32 33 34 35 36 37 38 39 40
        41 42 43 44 45 46 47 48 49 50 51 52 53 54 55 56 57 58 59 60
        61 62 63 64 65 66 67 68 69 70 71 72 73 74 75 76 77 78 79 80)
}

fn instant(ms: u64) -> Instant {
    Instant { ms }
}

fn keep_alive(asked: calls::KeepAlive) -> KeepAlive {
    match asked {
        calls::KeepAlive::Default => KeepAlive::Default,
        calls::KeepAlive::Icd => KeepAlive::Icd,
    }
}

/// The original's reasons are texts: the number's own digits stand for it.
fn reason_text(reason: u8) -> &'static str {
    const DIGITS: [[u8; 3]; 256] = all_digits();
    std::str::from_utf8(&DIGITS[usize::from(reason)]).expect("digits")
}

const fn all_digits() -> [[u8; 3]; 256] {
    let mut digits = [[b'0'; 3]; 256];
    let mut n = 0;
    while n < 256 {
        digits[n] = [
            b'0' + (n / 100) as u8,
            b'0' + (n / 10 % 10) as u8,
            b'0' + (n % 10) as u8,
        ];
        n += 1;
    }
    digits
}

fn reason_number(reason: Option<&'static str>) -> u8 {
    match reason {
        None => 0,
        Some("subscriptions cleared") => CLEARED,
        Some(digits) => digits.parse().expect("a reason of ours"),
    }
}

fn chosen(choice: &Choice, sub: &Subscription) -> bool {
    let ids = sub.ids();
    match *choice {
        Choice::All => true,
        Choice::Fabric(fabric) => ids.fab_idx.get() == fabric,
        Choice::Peer(fabric, peer) => ids.fab_idx.get() == fabric && ids.peer_node_id == peer,
        Choice::Id(id) => ids.id == id,
        Choice::Expired(now) => sub.is_expired(instant(now)),
    }
}

fn shown(sub: &Subscription, rx: &[u8]) -> state::Subscription {
    state::Subscription {
        id: sub.ids.id,
        fabric: sub.ids.fab_idx.get(),
        peer: sub.ids.peer_node_id,
        min: sub.min_int_secs,
        max: sub.max_int_secs,
        reported: sub.reported_at.ms,
        retry: sub.retry_at.ms,
        fails: sub.fail_count,
        seen: sub.max_seen_attr_change_id,
        seen_events: sub.max_seen_event_number,
        rx: rx_number(rx),
    }
}

fn shown_open<const N: usize>(context: &Context<N>) -> Open {
    Open {
        subscription: shown(context.subscription(), context.rx()),
        watermark: context.next_max_seen_attr_change_id,
        events: context.next_max_seen_event_number,
        now: context.next_reported_at.ms,
    }
}

fn shown_log(log: &ChangedAttrs) -> state::Log {
    let entries = log.entries.iter().map(|entry| Entry {
        path: Path {
            endpoint: entry.endpoint,
            cluster: entry.cluster,
            attribute: entry.attr,
        },
        identity: entry.change_id,
    });
    state::Log {
        next: log.next_change_id,
        entries: entries.collect(),
    }
}

/// A subscription that stands in no table.
fn alone(single: &calls::Single) -> Subscription {
    Subscription {
        ids: SubscriptionIds {
            id: 1,
            fab_idx: NonZeroU8::MIN,
            peer_node_id: 0,
        },
        min_int_secs: single.min,
        max_int_secs: single.max,
        reported_at: instant(single.reported),
        retry_at: instant(single.retry),
        fail_count: single.fails,
        max_seen_attr_change_id: single.seen,
        max_seen_event_number: single.seen_events,
    }
}

fn single_answers(log: &ChangedAttrs, single: &calls::Single, at: &Settings) -> [u64; 6] {
    let sub = alone(single);
    let keep_alive = keep_alive(at.keep_alive);
    let rx = &[][..];
    let reportable = sub.is_reportable(instant(at.now), rx, log, at.events, keep_alive, at.all);
    [
        sub.report_allowed_at().ms,
        sub.report_due_at(keep_alive).ms,
        u64::from(sub.is_affected_by_attr_changes(rx, log)),
        u64::from(sub.is_affected_by_new_events(rx, at.events)),
        u64::from(reportable),
        sub.next_report_at(rx, log, at.events, keep_alive).ms,
    ]
}

fn is_expired(reported: u64, max: u16, now: u64) -> bool {
    let sub = alone(&calls::Single {
        min: 0,
        max,
        reported,
        retry: 0,
        fails: 0,
        seen: 0,
        seen_events: 0,
    });
    sub.is_expired(instant(now))
}

impl<const N: usize> Machine<N> {
    /// The tables live as long as the program: one for each capacity.
    fn new() -> Self {
        Machine {
            table: Box::leak(Box::new(Subscriptions::new())),
            buffers: Box::leak(Box::new(SubscriptionsBuffers::new())),
            report: None,
            primings: std::vec::Vec::new(),
        }
    }

    fn with_state<R>(&self, f: impl FnOnce(&mut SubscriptionsInner<N>) -> R) -> R {
        self.table.state.lock(|state| f(&mut state.borrow_mut()))
    }

    fn with_log<R>(&self, f: impl FnOnce(&mut ChangedAttrs) -> R) -> R {
        self.with_state(|state| f(&mut state.changed_attrs))
    }

    fn stored(&self) -> usize {
        self.with_state(|state| state.subscriptions.len())
    }

    /// How often the table woke its reporter during `f`.
    fn woken(&mut self, f: impl FnOnce(&mut Self)) -> u64 {
        let before = self.table.notification.count();
        f(self);
        self.table.notification.count() - before
    }

    fn add(&mut self, now: u64, request: &Request) -> Answer {
        let context = self.table.add(
            instant(now),
            NonZeroU8::new(request.fabric).expect("refused before"),
            request.peer,
            request.min,
            request.max,
            request.events,
            Rx::of(request.rx),
            self.buffers,
        );
        let context = context.ok_or(1)?;
        let id = context.subscription().ids().id;
        self.primings.push(context);
        Ok(vec![u64::from(id)])
    }

    /// What `load_persist` does with one record.
    fn resume(&mut self, id: u32, request: &Request) -> Answer {
        let context = self.table.add_with_id(
            Some(id),
            Instant::MIN,
            NonZeroU8::new(request.fabric).expect("refused before"),
            request.peer,
            request.min,
            request.max,
            request.events,
            Rx::of(request.rx),
            self.buffers,
        );
        let mut context = context.ok_or(1)?;
        context.next_reported_at = Instant::MAX;
        context.set_keep();
        Ok(vec![u64::from(context.subscription().ids().id)])
    }

    fn note(&mut self, path: &Path, by_value: bool) -> std::vec::Vec<u64> {
        let identity = self.with_log(|log| log.next_change_id);
        let Path {
            endpoint,
            cluster,
            attribute,
        } = *path;
        let woke = self.woken(|machine| {
            if by_value || attribute != WILDCARD_ATTR {
                machine
                    .table
                    .notify_attr_changed(endpoint, cluster, attribute);
            } else if cluster != WILDCARD_CLUSTER {
                machine.table.notify_cluster_changed(endpoint, cluster);
            } else if endpoint != WILDCARD_ENDPOINT {
                machine.table.notify_endpoint_changed(endpoint);
            } else {
                machine.table.notify_all_changed();
            }
        });
        vec![identity, woke]
    }

    fn open_report(&self, at: &Settings) -> Option<Context<N>> {
        self.table.report(
            instant(at.now),
            at.events,
            keep_alive(at.keep_alive),
            at.all,
            self.buffers,
        )
    }

    fn report(&mut self, at: &Settings) -> std::vec::Vec<u64> {
        self.report = self.open_report(at);
        match &self.report {
            None => vec![0, 0, 0],
            Some(context) => {
                let id = context.subscription().ids().id;
                vec![1, u64::from(id), u64::from(rx_number(context.rx()))]
            }
        }
    }

    fn open_with(&self, id: u32) -> &Context<N> {
        let mut open = self.report.iter().chain(&self.primings);
        open.find(|open| open.subscription().ids().id == id)
            .expect("refused before")
    }

    fn take_open(&mut self, id: u32) -> Context<N> {
        let asked = |open: &Context<N>| open.subscription().ids().id == id;
        if self.report.as_ref().is_some_and(asked) {
            return self.report.take().expect("just seen");
        }
        let place = self.primings.iter().position(asked);
        self.primings.swap_remove(place.expect("refused before"))
    }

    fn complete(&mut self, mut context: Context<N>, outcome: u8) -> [u64; 2] {
        let stored = self.stored();
        let failures = self.table.report_failed.count();
        match outcome {
            0 => context.set_keep(),
            1 => {
                context.set_unsent();
                context.set_keep();
            }
            2 => context.set_keep_retry(),
            3 => context.set_drop_failed(),
            _ => {}
        }
        drop(context);
        let kept = self.stored() - stored;
        [kept as u64, self.table.report_failed.count() - failures]
    }

    fn remove(&mut self, choice: &Choice, reason: u8) -> u64 {
        let reason = reason_text(reason);
        let mut removed = false;
        let woke = self.woken(|machine| {
            let chosen = |sub: &Subscription| chosen(choice, sub).then_some(reason);
            removed = machine.table.remove(machine.buffers, chosen);
        });
        assert_eq!(woke, u64::from(removed), "it answers whether it woke");
        woke
    }

    /// The original leaves its buffers as they are; the caller must empty them.
    fn clear(&mut self) -> u64 {
        self.woken(|machine| {
            machine.table.clear();
            machine.buffers.with(|buffers| buffers.clear());
        })
    }

    fn round(&mut self, at: &Settings, outcomes: &[u8]) -> std::vec::Vec<u64> {
        let mut ids: std::vec::Vec<u64> = (0..outcomes.len()).map(unwritten_id).collect();
        let mut handed_out = 0;
        for outcome in outcomes {
            let Some(context) = self.open_report(at) else {
                break;
            };
            ids[handed_out] = u64::from(context.subscription().ids().id);
            self.complete(context, *outcome);
            handed_out += 1;
        }
        let mut values = vec![handed_out as u64, u64::from(self.is_silent(at))];
        values.extend(ids);
        values
    }

    fn is_silent(&self, at: &Settings) -> bool {
        let keep_alive = keep_alive(at.keep_alive);
        let found = self.table.with(self.buffers, |state, buffers| {
            state.find_reportable::<Pool>(instant(at.now), at.events, keep_alive, at.all, buffers)
        });
        found.is_none()
    }

    fn statistics(&self, fabric: u8) -> std::vec::Vec<u64> {
        let load = self.table.load_stats(NonZeroU8::new(fabric));
        vec![
            u64::from(load.current_subscriptions),
            u64::from(load.current_subscriptions_for_fabric),
            u64::from(load.total_subscriptions_established),
        ]
    }

    fn has(&self, fabric: u8, peer: u64) -> bool {
        let fabric = NonZeroU8::new(fabric);
        fabric.is_some_and(|fabric| self.table.has_subscription_for(fabric, peer))
    }

    /// The original keeps a copy of the subscription being reported on; it and
    /// the context must be of the same one.
    fn check_report(&self, state: &SubscriptionsInner<N>) {
        let copy = state.reporting.as_ref().map(|sub| sub.ids.id);
        let context = self.report.as_ref().map(|open| open.subscription().ids.id);
        assert_eq!(copy, context, "the open report");
    }
}

impl<const N: usize> AnyMachine for Machine<N> {
    fn make_fresh(&mut self) {
        self.report = None;
        self.primings.clear();
        self.with_state(|state| *state = SubscriptionsInner::new());
        self.buffers.with(|buffers| buffers.clear());
    }

    /// The lines show the waking of notes, removals and clears, and the failed flag
    /// of a completion; no other call may wake or fail.
    fn act_and_check(&mut self, call: &Call, by_value: bool) -> Answer {
        let shows_waking = matches!(call, Call::Note(_) | Call::Remove { .. } | Call::Clear);
        let shows_failing = matches!(call, Call::Done { .. } | Call::Round { .. });
        let woken = self.table.notification.count();
        let failed = self.table.report_failed.count();
        let answer = self.act(call, by_value);
        assert!(shows_waking || self.table.notification.count() == woken);
        assert!(shows_failing || self.table.report_failed.count() == failed);
        answer
    }

    fn read(&self) -> Table {
        self.table.with(self.buffers, |state, buffers| {
            self.check_report(state);
            assert_eq!(state.subscriptions.len(), buffers.len(), "one buffer each");
            let stored = state.subscriptions.iter().zip(buffers.iter());
            Table {
                capacity: N as u8,
                counted: state.subscriptions_count as u64,
                next_id: state.next_subscription_id,
                cancel: reason_number(state.reporting_cancelled),
                log: shown_log(&state.changed_attrs),
                stored: stored.map(|(sub, rx)| shown(sub, rx)).collect(),
                report: self.report.as_ref().map(shown_open),
                primings: self.primings.iter().map(shown_open).collect(),
            }
        })
    }
}

impl<const N: usize> Machine<N> {
    fn act(&mut self, call: &Call, by_value: bool) -> Answer {
        Ok(match call {
            Call::New { .. } => unreachable!("a new table is begun above the machines"),
            Call::Add { now, request } => self.add(*now, request)?,
            Call::Resume { id, request } => self.resume(*id, request)?,
            Call::Note(path) => self.note(path, by_value),
            Call::Report(settings) => self.report(settings),
            Call::Done { id, outcome } => {
                let context = self.take_open(*id);
                self.complete(context, *outcome).to_vec()
            }
            Call::Remove { choice, reason } => vec![self.remove(choice, *reason)],
            Call::Clear => vec![self.clear()],
            Call::Purge => {
                self.table.purge_reported_changes();
                vec![]
            }
            Call::Round {
                settings, outcomes, ..
            } => self.round(settings, outcomes),
            Call::SetIdentity { next } => {
                self.with_log(|log| log.next_change_id = *next);
                vec![]
            }
            Call::LogPurge { upto } => {
                self.with_log(|log| log.purge_up_to(*upto));
                vec![]
            }
            Call::LogEmpty => {
                self.with_log(|log| log.clear());
                vec![]
            }
            question => self.answer(question),
        })
    }

    fn answer(&self, question: &Call) -> std::vec::Vec<u64> {
        match question {
            Call::Attr { id, path } => {
                let open = self.open_with(*id);
                let asked = open.should_report_attr(path.endpoint, path.cluster, path.attribute);
                vec![u64::from(asked)]
            }
            Call::SendEmpty { id, keep_alive: by } => {
                let open = self.open_with(*id);
                vec![u64::from(open.should_send_if_empty(keep_alive(*by)))]
            }
            Call::Wake {
                events,
                keep_alive: by,
            } => {
                let next = self
                    .table
                    .next_report_at(*events, keep_alive(*by), self.buffers);
                vec![next.ms]
            }
            Call::Any {
                now,
                events,
                keep_alive: by,
            } => {
                let (now, by) = (instant(*now), keep_alive(*by));
                let any = self.table.any_reportable(now, *events, by, self.buffers);
                vec![u64::from(any)]
            }
            Call::NextKeepAlive => match self.table.next_keep_alive_at() {
                Some(at) => vec![1, at.ms],
                None => vec![0, 0],
            },
            Call::Stats { fabric } => self.statistics(*fabric),
            Call::Has { fabric, peer } => vec![u64::from(self.has(*fabric, *peer))],
            Call::Changed { path, since } => {
                let Path {
                    endpoint,
                    cluster,
                    attribute,
                } = *path;
                let changed =
                    self.with_log(|log| log.contains_since(endpoint, cluster, attribute, *since));
                vec![u64::from(changed)]
            }
            Call::AnySince { since } => {
                vec![u64::from(self.with_log(|log| log.any_since(*since)))]
            }
            Call::Watermark => vec![self.with_log(|log| log.watermark())],
            Call::Single { single, settings } => {
                self.with_log(|log| single_answers(log, single, settings).to_vec())
            }
            stateless => vec![time_answer(stateless)],
        }
    }
}

fn time_answer(call: &Call) -> u64 {
    match *call {
        Call::Backoff { fails, max } => u64::from(Subscription::retry_backoff_secs(fails, max)),
        Call::DueAfter {
            max,
            keep_alive: by,
        } => u64::from(keep_alive(by).due_after_secs(max)),
        Call::IcdMax { idle, floor } => u64::from(icd_max_int_secs(idle, floor)),
        Call::SubMax {
            request,
            floor,
            lower,
            upper,
        } => u64::from(subscription_max_int_secs(request, floor, lower, upper)),
        Call::Expired { reported, max, now } => u64::from(is_expired(reported, max, now)),
        _ => unreachable!("every other call is acted on or answered from the table"),
    }
}
