//! Calls written as lines: what the generators put out and the reader reads
//! back. Nothing is decided here.

use crate::calls::{Call, Choice, KeepAlive, Request, Settings, Single};
use crate::lines::print_number;
use crate::state::Path;

/// The line of a call, without its CRLF: what `read_call` reads back.
pub fn print_call(text: &mut Vec<u8>, call: &Call) {
    let (word, numbers) = written(call);
    text.extend_from_slice(word.as_bytes());
    for number in numbers {
        text.push(b',');
        print_number(text, number);
    }
}

/// The words that a line of this call begins with, and the numbers after them.
fn written(call: &Call) -> (&'static str, Vec<u64>) {
    match call {
        Call::New { capacity } => ("new", vec![u64::from(*capacity)]),
        Call::Add { now, request } => ("add", with_request(*now, request)),
        Call::Resume { id, request } => ("resume", with_request(u64::from(*id), request)),
        Call::Note(path) => ("note", path_numbers(path).to_vec()),
        Call::Report(settings) => ("report", settings_numbers(settings).to_vec()),
        Call::Done { id, outcome } => ("done", vec![u64::from(*id), u64::from(*outcome)]),
        Call::Remove { choice, reason } => written_remove(choice, u64::from(*reason)),
        Call::Clear => ("clear", vec![]),
        Call::Purge => ("purge", vec![]),
        Call::Attr { id, path } => {
            let [endpoint, cluster, attribute] = path_numbers(path);
            ("attr", vec![u64::from(*id), endpoint, cluster, attribute])
        }
        Call::SendEmpty { id, keep_alive } => ("sendempty", vec![u64::from(*id), icd(*keep_alive)]),
        Call::Wake { events, keep_alive } => ("wake", vec![*events, icd(*keep_alive)]),
        Call::Any {
            now,
            events,
            keep_alive,
        } => ("any", vec![*now, *events, icd(*keep_alive)]),
        Call::NextKeepAlive => ("keepalive", vec![]),
        Call::Stats { fabric } => ("stats", vec![u64::from(*fabric)]),
        Call::Has { fabric, peer } => ("has", vec![u64::from(*fabric), *peer]),
        Call::Round {
            settings,
            slots,
            outcomes,
        } => {
            let mut numbers = settings_numbers(settings).to_vec();
            numbers.push(u64::from(*slots));
            numbers.extend(outcomes.iter().map(|outcome| u64::from(*outcome)));
            ("round", numbers)
        }
        lower => written_lower(lower),
    }
}

fn written_lower(call: &Call) -> (&'static str, Vec<u64>) {
    match call {
        Call::Backoff { fails, max } => ("backoff", vec![u64::from(*fails), u64::from(*max)]),
        Call::DueAfter { max, keep_alive } => ("dueafter", vec![u64::from(*max), icd(*keep_alive)]),
        Call::IcdMax { idle, floor } => ("icdmax", vec![u64::from(*idle), u64::from(*floor)]),
        Call::SubMax {
            request,
            floor,
            lower,
            upper,
        } => (
            "submax",
            [*request, *floor, *lower, *upper].map(u64::from).to_vec(),
        ),
        Call::Expired { reported, max, now } => ("expired", vec![*reported, u64::from(*max), *now]),
        Call::Single { single, settings } => ("single", single_numbers(single, settings)),
        Call::Changed { path, since } => {
            let [endpoint, cluster, attribute] = path_numbers(path);
            ("changed", vec![endpoint, cluster, attribute, *since])
        }
        Call::AnySince { since } => ("anysince", vec![*since]),
        Call::SetIdentity { next } => ("setidentity", vec![*next]),
        Call::LogPurge { upto } => ("logpurge", vec![*upto]),
        Call::Watermark => ("watermark", vec![]),
        Call::LogEmpty => ("logempty", vec![]),
        _ => unreachable!("the calls of the table are written above"),
    }
}

fn written_remove(choice: &Choice, reason: u64) -> (&'static str, Vec<u64>) {
    match *choice {
        Choice::All => ("remove,all", vec![reason]),
        Choice::Fabric(fabric) => ("remove,fabric", vec![u64::from(fabric), reason]),
        Choice::Peer(fabric, peer) => ("remove,peer", vec![u64::from(fabric), peer, reason]),
        Choice::Id(id) => ("remove,id", vec![u64::from(id), reason]),
        Choice::Expired(now) => ("remove,expired", vec![now, reason]),
    }
}

/// What the counts of compared lines are kept under.
pub fn kind_of(call: &Call) -> &'static str {
    written(call).0
}

fn icd(keep_alive: KeepAlive) -> u64 {
    u64::from(keep_alive == KeepAlive::Icd)
}

fn path_numbers(path: &Path) -> [u64; 3] {
    [
        u64::from(path.endpoint),
        u64::from(path.cluster),
        u64::from(path.attribute),
    ]
}

fn with_request(first: u64, request: &Request) -> Vec<u64> {
    vec![
        first,
        u64::from(request.fabric),
        request.peer,
        u64::from(request.min),
        u64::from(request.max),
        request.events,
        u64::from(request.rx),
    ]
}

fn settings_numbers(settings: &Settings) -> [u64; 4] {
    [
        settings.now,
        settings.events,
        icd(settings.keep_alive),
        u64::from(settings.all),
    ]
}

fn single_numbers(single: &Single, settings: &Settings) -> Vec<u64> {
    let mut numbers = vec![
        u64::from(single.min),
        u64::from(single.max),
        single.reported,
        single.retry,
        u64::from(single.fails),
        single.seen,
        single.seen_events,
    ];
    numbers.extend(settings_numbers(settings));
    numbers
}
