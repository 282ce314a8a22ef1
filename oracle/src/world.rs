//! One history being drawn, call by call. A guide (the second implementation) runs
//! along, so that live ids, full logs and the instants that matter are met often;
//! it decides nothing about what is right.

use crate::calls::{Call, Choice, Engine, KeepAlive, Request, Settings, Single};
use crate::histories::{capacity, Drawn, Kind, Language, Style};
use crate::lines::read_call;
use crate::malformed::spoil;
use crate::random::Random;
use crate::second::{allowed, due, refusal, Second};
use crate::state::{Open, Path, Subscription, Table, LAST};
use crate::written::{kind_of, print_call};

const WILD_ENDPOINT: u16 = u16::MAX;
const WILD: u32 = u32::MAX;

/// Lines that stand in no history of the domain.
const IN_NO_HISTORY: [&str; 3] = ["setidentity", "logpurge", "logempty"];

/// Of the calls that would be refused by another number than 1, one in so many
/// stays in a history that may hold them.
const REFUSED_ONCE_IN: u64 = 3;

/// A table that is to hold so many is filled before anything else.
const LARGE: usize = 18;

/// The clock follows a step up to this without question: a far leap makes
/// everybody due, and then nobody is reported on for a change.
const SHORT_LEAP: u64 = 100_000;

pub struct World<'a> {
    random: &'a mut Random,
    kind: Kind,
    style: &'a Style,
    guide: Second,
    clock: u64,
    events: u64,
    requests: u16,
    /// So many notes come at once.
    burst: u64,
}

impl<'a> World<'a> {
    pub fn new(random: &'a mut Random, kind: Kind, style: &'a Style) -> Self {
        let clock = match kind {
            Kind::Edges => random.pick(&[0, LAST - 70_000_000, LAST - 200_000, LAST - 3_000, LAST]),
            _ => random.pick(&[0, 1_000, 1_700_000_000_000]),
        };
        World {
            random,
            kind,
            style,
            guide: Second::new(),
            clock,
            events: 0,
            requests: 0,
            burst: 0,
        }
    }

    fn table(&self) -> &Table {
        self.guide.table()
    }

    /// The first lines: a new table, a large one already full, and at the edges
    /// counters near their wrap.
    pub fn opening(&mut self, language: Language) -> Vec<Call> {
        let capacity = self.style.capacity;
        let mut calls = vec![Call::New { capacity }];
        if language == Language::Trace {
            return calls;
        }
        if self.kind == Kind::Edges && self.random.once_in(3) {
            let next = LAST - self.random.below(40);
            calls.push(Call::SetIdentity { next });
        }
        if self.style.mostly_retry && self.random.flag() {
            calls.extend(self.many_fails());
        }
        if self.style.population >= LARGE {
            calls.extend((1..=capacity).map(|id| self.resumed(u32::from(id))));
        } else if self.kind == Kind::Edges && self.random.once_in(3) {
            let below_last = self.random.from_to(1, 5) as u32;
            calls.push(self.resumed(u32::MAX - below_last));
        }
        calls
    }

    /// A subscription that has failed nearly 255 times: at the last instant every
    /// retry is allowed at once.
    fn many_fails(&mut self) -> [Call; 3] {
        let (now, mut request) = (LAST - 10_000_000, self.request());
        (request.fabric, request.min, request.max) = (1, 1, 60);
        let settings = Settings {
            now: LAST,
            events: self.events,
            keep_alive: KeepAlive::Default,
            all: false,
        };
        let slots = self.random.from_to(240, 254) as u8;
        let outcomes = vec![2; usize::from(slots)];
        [
            Call::Add { now, request },
            Call::Done { id: 1, outcome: 0 },
            Call::Round {
                settings,
                slots,
                outcomes,
            },
        ]
    }

    fn resumed(&mut self, id: u32) -> Call {
        let request = self.request();
        Call::Resume { id, request }
    }

    /// Adds the call's line to the text and lets the guide follow.
    pub fn write(&mut self, call: &Call, text: &mut Vec<u8>, drawn: &mut Drawn) {
        let mut line = Vec::new();
        print_call(&mut line, call);
        if self.kind == Kind::Malformed && self.random.flag() {
            spoil(self.random, &mut line);
        } else {
            drawn.count(kind_of(call));
        }
        if let Some(call) = read_call(&line) {
            let _ = self.guide.call(&call);
        }
        text.extend_from_slice(&line);
        text.extend_from_slice(b"\r\n");
    }

    /// A call that this kind of history may hold; none if none is found soon.
    pub fn next_call(&mut self, drawn: &Drawn) -> Option<Call> {
        for _ in 0..50 {
            let word = self.word(drawn);
            let call = self.draw(word);
            if self.may_hold(&call) {
                return Some(call);
            }
        }
        None
    }

    fn may_hold(&mut self, call: &Call) -> bool {
        let refused = !matches!(refusal(self.table(), call), None | Some(1));
        if self.kind == Kind::Domain {
            !refused && !IN_NO_HISTORY.contains(&kind_of(call))
        } else {
            !refused || self.random.once_in(REFUSED_ONCE_IN)
        }
    }

    /// Mostly what the mix says; but the table is filled up, primings are ended and
    /// the log is filled by many notes at once. While lines are lacking, less so.
    fn word(&mut self, drawn: &Drawn) -> &'static str {
        let hurried = drawn.any_lags(self.style.mix);
        if self.burst > 0 {
            self.burst -= 1;
            return "note";
        }
        if self.random.once_in(if hurried { 400 } else { 80 }) {
            self.burst = self.random.from_to(4, 20);
        }
        let few = live(self.table()).len() < self.style.population;
        if few && self.random.once_in(if hurried { 6 } else { 3 }) {
            let resumes = self.mix_has("resume") && self.random.flag();
            return if resumes { "resume" } else { "add" };
        }
        let primes = !self.table().primings.is_empty();
        if primes && self.random.once_in(if hurried { 10 } else { 5 }) {
            return "done";
        }
        self.word_of_mix(drawn)
    }

    fn mix_has(&self, word: &str) -> bool {
        self.style.mix.iter().any(|(name, _)| *name == word)
    }

    fn word_of_mix(&mut self, drawn: &Drawn) -> &'static str {
        let weight = |word: &str, share: u64| share * if drawn.lags(word) { 12 } else { 1 };
        let mix = self.style.mix;
        let total = mix.iter().map(|(word, share)| weight(word, *share)).sum();
        let mut left = self.random.below(total);
        for (word, share) in mix {
            let weight = weight(word, *share);
            if left < weight {
                return word;
            }
            left -= weight;
        }
        unreachable!("the weights sum up to the total")
    }

    fn draw(&mut self, word: &str) -> Call {
        match word {
            "new" => Call::New {
                capacity: self.new_capacity(),
            },
            "add" => Call::Add {
                now: self.instant(),
                request: self.request(),
            },
            "resume" => Call::Resume {
                id: self.id_to_resume(),
                request: self.request(),
            },
            "note" => Call::Note(self.path()),
            "report" => Call::Report(self.settings()),
            "done" => Call::Done {
                id: self.open_id(),
                outcome: self.outcome(),
            },
            "remove,all" => self.remove(Choice::All),
            "remove,fabric" => {
                let fabric = self.fabric();
                self.remove(Choice::Fabric(fabric))
            }
            "remove,peer" => {
                let (fabric, peer) = (self.fabric(), self.peer());
                self.remove(Choice::Peer(fabric, peer))
            }
            "remove,id" => {
                let id = self.live_id();
                self.remove(Choice::Id(id))
            }
            "remove,expired" => {
                let now = self.instant();
                self.remove(Choice::Expired(now))
            }
            "clear" => Call::Clear,
            "purge" => Call::Purge,
            "round" => self.round(),
            question => self.draw_question(question),
        }
    }

    fn draw_question(&mut self, word: &str) -> Call {
        match word {
            "attr" => Call::Attr {
                id: self.open_id(),
                path: self.path(),
            },
            "sendempty" => Call::SendEmpty {
                id: self.open_id(),
                keep_alive: self.keep_alive(),
            },
            "wake" => Call::Wake {
                events: self.events(),
                keep_alive: self.keep_alive(),
            },
            "any" => Call::Any {
                now: self.instant(),
                events: self.events(),
                keep_alive: self.keep_alive(),
            },
            "keepalive" => Call::NextKeepAlive,
            "stats" => Call::Stats {
                fabric: if self.random.once_in(5) {
                    0
                } else {
                    self.fabric()
                },
            },
            "has" => Call::Has {
                fabric: self.fabric(),
                peer: self.peer(),
            },
            lower => self.draw_lower(lower),
        }
    }

    fn draw_lower(&mut self, word: &str) -> Call {
        match word {
            "backoff" => Call::Backoff {
                fails: self.fails(),
                max: self.backoff_limit(),
            },
            "dueafter" => Call::DueAfter {
                max: self.interval(),
                keep_alive: self.keep_alive(),
            },
            "icdmax" => self.icd_max(),
            "submax" => Call::SubMax {
                request: self.interval(),
                floor: self.interval(),
                lower: self.interval(),
                upper: self.interval(),
            },
            "expired" => self.expired(),
            "single" => self.single(),
            "changed" => Call::Changed {
                path: self.path(),
                since: self.identity(),
            },
            "anysince" => Call::AnySince {
                since: self.identity(),
            },
            "setidentity" => Call::SetIdentity {
                next: self.next_identity(),
            },
            "logpurge" => Call::LogPurge {
                upto: self.identity(),
            },
            "watermark" => Call::Watermark,
            "logempty" => Call::LogEmpty,
            _ => unreachable!("no mix names {word}"),
        }
    }

    fn strays(&mut self, once_in: u64) -> bool {
        self.kind != Kind::Domain && self.random.once_in(once_in)
    }

    fn new_capacity(&mut self) -> u8 {
        if self.strays(2) {
            self.random.pick(&[0, 81, 82, 255])
        } else {
            capacity(self.random)
        }
    }

    // Instants, events and intervals

    /// Mostly the clock, moved on; often an instant at which something turns.
    fn instant(&mut self) -> u64 {
        let instant = match self.random.below(40) {
            0..=34 if self.style.mostly_retry => self.next_wake(),
            0..=17 => self.stepped(),
            18..=22 => self.clock,
            23..=29 => self.turning_instant(),
            30..=35 => self.next_wake(),
            36..=37 if self.kind == Kind::Edges => self.random.pick(&[0, 1, LAST - 1, LAST]),
            36 if self.strays(2) => self.random.number(),
            36..=38 => self.clock.saturating_sub(self.random.below(100_000)),
            _ => self.clock.saturating_add(self.random.below(70_000_000)),
        };
        self.follow(instant);
        instant
    }

    fn stepped(&mut self) -> u64 {
        let step = self.random.below(self.style.step + 1);
        self.clock.saturating_add(step)
    }

    /// The clock mostly moves on to an instant that was used.
    fn follow(&mut self, instant: u64) {
        let leap = instant.saturating_sub(self.clock);
        let too_late = self.kind != Kind::Edges && instant > LAST / 2;
        let leaps = leap <= SHORT_LEAP || self.style.mostly_retry || self.random.once_in(6);
        if leap > 0 && leaps && !too_late {
            self.clock = instant;
        }
    }

    /// An instant of some live subscription, or a millisecond beside it.
    fn turning_instant(&mut self) -> u64 {
        let live = live(self.table());
        let Some(sub) = self.random.pick_any(&live) else {
            return self.clock;
        };
        let instants = [
            allowed(&sub),
            due(&sub, KeepAlive::Default),
            due(&sub, KeepAlive::Icd),
            sub.reported.saturating_add(u64::from(sub.max) * 1_000),
            sub.reported.saturating_add(u64::from(sub.min) * 1_000),
            sub.reported,
        ];
        let instant = self.random.pick(&instants);
        self.beside(instant)
    }

    /// When something stored will next be reportable.
    fn next_wake(&mut self) -> u64 {
        let call = Call::Wake {
            events: self.events,
            keep_alive: self.keep_alive(),
        };
        let wake = self.guide.call(&call).expect("never refused")[0];
        if wake == LAST && self.kind != Kind::Edges && !self.style.mostly_retry {
            self.clock
        } else {
            self.beside(wake)
        }
    }

    fn beside(&mut self, number: u64) -> u64 {
        match self.random.below(4) {
            0 => number.saturating_sub(1),
            1 => number.saturating_add(1),
            _ => number,
        }
    }

    fn events(&mut self) -> u64 {
        match self.random.below(16) {
            0 => {
                self.events = self.events.saturating_add(1);
                self.events
            }
            1 => {
                let live = live(self.table());
                let seen = self.random.pick_any(&live).map_or(0, |sub| sub.seen_events);
                self.beside(seen)
            }
            2 if self.kind == Kind::Edges => self.random.pick(&[0, 1, u64::MAX - 1, u64::MAX]),
            2 if self.random.once_in(8) => self.random.number(),
            _ => self.events,
        }
    }

    fn interval(&mut self) -> u16 {
        match self.kind {
            Kind::Edges => self
                .random
                .pick(&[0, 1, 2, 3, 6, 60, 65_524, 65_525, 65_526, 65_534, 65_535]),
            _ => match self.random.below(8) {
                0 => self.random.number() as u16,
                1 => self.random.pick(&[65_525, 65_534, 65_535]),
                2..=4 => self.random.pick(&[0, 1, 2, 3, 4, 5, 6, 7, 8, 10]),
                _ => self.random.pick(&[30, 60, 61, 600, 3_600]),
            },
        }
    }

    fn min_interval(&mut self) -> u16 {
        match self.random.below(3) {
            0 => self.interval(),
            _ => self.random.pick(&[0, 1, 2, 5]),
        }
    }

    fn keep_alive(&mut self) -> KeepAlive {
        match self.random.below(3) {
            0 => KeepAlive::Icd,
            _ => KeepAlive::Default,
        }
    }

    fn settings(&mut self) -> Settings {
        Settings {
            now: self.instant(),
            events: self.events(),
            keep_alive: self.keep_alive(),
            all: self.random.once_in(4),
        }
    }

    // Subscriptions

    fn fabric(&mut self) -> u8 {
        if self.strays(16) {
            return 0;
        }
        match self.random.below(16) {
            0 => 255,
            _ => self.random.from_to(1, 3) as u8,
        }
    }

    fn peer(&mut self) -> u64 {
        match self.random.below(16) {
            0 => self.random.pick(&[0, u64::MAX - 1, u64::MAX]),
            1 => self.random.number(),
            _ => self.random.from_to(1, 2),
        }
    }

    fn request(&mut self) -> Request {
        self.requests = self.requests.wrapping_add(1);
        let rx = match self.random.below(8) {
            0 => self.random.pick(&[0, 255, 256, 65_535]),
            1 => self.random.number() as u16,
            _ => self.requests,
        };
        Request {
            fabric: self.fabric(),
            peer: self.peer(),
            min: self.min_interval(),
            max: self.interval(),
            events: self.events(),
            rx,
        }
    }

    fn open_id(&mut self) -> u32 {
        let open = open(self.table());
        let primings = self.table().primings.len() as u64;
        if self.strays(12) || open.is_empty() {
            return self.live_id();
        }
        let report_first = self.table().report.is_some() && self.random.below(3) != 0;
        let place = if report_first || primings == 0 {
            0
        } else {
            self.random.below(open.len() as u64) as usize
        };
        open[place].subscription.id
    }

    /// The id of a live subscription, or sometimes of none.
    fn live_id(&mut self) -> u32 {
        let live = live(self.table());
        match self.random.pick_any(&live) {
            Some(sub) if self.random.below(10) != 0 => sub.id,
            _ => self.unused_id(),
        }
    }

    fn unused_id(&mut self) -> u32 {
        let next = self.table().next_id;
        match self.random.below(6) {
            0 => self.random.pick(&[0, next]),
            1 if self.random.once_in(4) => self.random.number() as u32,
            1 | 2 => next.saturating_add(self.random.below(3) as u32),
            3 if self.kind == Kind::Edges => u32::MAX - self.random.below(4) as u32,
            _ => self.random.below(u64::from(next.clamp(1, 1_000))) as u32,
        }
    }

    fn id_to_resume(&mut self) -> u32 {
        if self.strays(6) {
            self.live_id()
        } else {
            self.unused_id()
        }
    }

    fn outcome(&mut self) -> u8 {
        if self.strays(20) {
            return self.random.pick(&[5, 6, 254, 255]);
        }
        if self.style.mostly_retry && self.random.below(500) != 0 {
            let primes = self.table().report.is_none();
            return if primes { 0 } else { 2 };
        }
        self.random
            .pick(&[0, 0, 0, 0, 0, 0, 1, 1, 2, 2, 2, 2, 3, 4])
    }

    fn remove(&mut self, choice: Choice) -> Call {
        let reason = if self.strays(12) {
            self.random.pick(&[0, 255])
        } else {
            self.random.pick(&[1, 2, 3, 99, 100, 253, 254])
        };
        Call::Remove { choice, reason }
    }

    fn round(&mut self) -> Call {
        let settings = self.settings();
        let slots = match self.random.below(30) {
            0..=9 if self.style.mostly_retry => 255,
            0 => 255,
            1 => self.random.from_to(0, 254),
            2..=9 => self.table().stored.len() as u64,
            _ => self.random.from_to(0, 6),
        };
        let outcomes: Vec<u8> = (0..slots).map(|_| self.outcome_in_round()).collect();
        let slots = if self.strays(12) {
            self.random.pick(&[0, 1, 2, 3, 255])
        } else {
            slots as u8
        };
        Call::Round {
            settings,
            slots,
            outcomes,
        }
    }

    fn outcome_in_round(&mut self) -> u8 {
        if self.strays(100) {
            return self.random.pick(&[5, 255]);
        }
        if self.style.mostly_retry {
            return 2;
        }
        self.random
            .pick(&[0, 0, 0, 0, 0, 0, 1, 1, 1, 2, 2, 2, 2, 3, 4])
    }

    // The log

    /// Often a path of the log or one beside it.
    fn path(&mut self) -> Path {
        let entries = &self.guide.table().log.entries;
        match self.random.pick_any(entries) {
            Some(entry) if self.random.below(3) == 0 => self.varied(entry.path),
            _ => self.fresh_path(),
        }
    }

    fn fresh_path(&mut self) -> Path {
        let paths = self.style.paths;
        if self.random.once_in(40) {
            return self.far_path();
        }
        let path = Path {
            endpoint: self.random.below(paths.endpoints) as u16,
            cluster: self.random.below(paths.clusters) as u32,
            attribute: self.random.below(paths.attributes) as u32,
        };
        self.made_wilder(path)
    }

    /// A path with numbers of the whole width.
    fn far_path(&mut self) -> Path {
        Path {
            endpoint: self.random.number() as u16,
            cluster: self.random.number() as u32,
            attribute: self.random.number() as u32,
        }
    }

    fn made_wilder(&mut self, path: Path) -> Path {
        let once_in = self.style.paths.wild_once_in;
        let beside = self.kind == Kind::Edges && self.random.once_in(8);
        let (endpoint, number) = if beside {
            (WILD_ENDPOINT - 1, WILD - 1)
        } else {
            (WILD_ENDPOINT, WILD)
        };
        let mut path = path;
        if self.random.once_in(once_in) {
            path.attribute = number;
        }
        if self.random.once_in(once_in) {
            path.cluster = number;
        }
        if self.random.once_in(once_in) {
            path.endpoint = endpoint;
        }
        path
    }

    /// The path itself, or with one field of another.
    fn varied(&mut self, path: Path) -> Path {
        let other = self.fresh_path();
        let mut varied = path;
        match self.random.below(6) {
            0 => varied.endpoint = other.endpoint,
            1 => varied.cluster = other.cluster,
            2 => varied.attribute = other.attribute,
            _ => {}
        }
        varied
    }

    /// An identity that is met in the log or by a subscription, or one beside it.
    fn identity(&mut self) -> u64 {
        let table = self.guide.table();
        let mut known: Vec<u64> = table.log.entries.iter().map(|e| e.identity).collect();
        known.extend(live(table).iter().map(|sub| sub.seen));
        known.extend([0, table.log.next, u64::MAX]);
        let identity = self.random.pick(&known);
        self.beside(identity)
    }

    fn next_identity(&mut self) -> u64 {
        match self.random.below(10) {
            0 => 0,
            1 => self.random.from_to(1, 30),
            2..=6 => LAST - self.random.below(30),
            _ => self.table().log.next.saturating_add(self.random.below(100)),
        }
    }

    // Questions without a table

    fn fails(&mut self) -> u8 {
        match self.random.below(4) {
            0 => self.random.number() as u8,
            1 => self.random.pick(&[0, 1, 15, 16, 17, 254, 255]),
            _ => self.random.from_to(0, 18) as u8,
        }
    }

    /// Intervals at and beside the powers of two.
    fn backoff_limit(&mut self) -> u16 {
        if self.random.flag() {
            return self.interval();
        }
        let power = 1_u64 << self.random.from_to(0, 16);
        self.beside(power).min(65_535) as u16
    }

    fn icd_max(&mut self) -> Call {
        let floor = self.interval();
        let lead = u64::from(floor) + self.random.from_to(2, 4);
        let idle = match self.random.below(6) {
            0 => self.random.number() as u32,
            1 => self.random.pick(&[0, 65_534, 65_535, 65_536, u32::MAX]),
            2 => u32::from(self.interval()),
            _ => lead as u32,
        };
        Call::IcdMax { idle, floor }
    }

    /// Instants near the clock, the first and the last.
    fn some_instant(&mut self) -> u64 {
        match self.random.below(6) {
            0 => self.random.pick(&[0, 1, LAST - 1, LAST]),
            1 => LAST - u64::from(self.interval()) * 1_000,
            2 => LAST - self.random.below(70_000_000),
            _ => self.instant(),
        }
    }

    fn expired(&mut self) -> Call {
        let reported = self.some_instant();
        let max = self.interval();
        let now = match self.random.below(4) {
            0 => self.some_instant(),
            _ => {
                let end = reported.saturating_add(u64::from(max) * 1_000);
                self.beside(end)
            }
        };
        Call::Expired { reported, max, now }
    }

    fn single(&mut self) -> Call {
        let single = Single {
            min: self.interval(),
            max: self.interval(),
            reported: self.some_instant(),
            retry: match self.random.below(3) {
                0 => self.some_instant(),
                _ => 0,
            },
            fails: self.fails(),
            seen: self.identity(),
            seen_events: self.events(),
        };
        let mut settings = self.settings();
        let turn = u64::from(self.random.pick(&[
            single.min,
            single.max,
            single.max - single.max / 2,
            single.max - (single.max / 2).min(3),
            0,
        ]));
        if self.random.below(4) != 0 {
            let instant = single.reported.saturating_add(turn * 1_000);
            settings.now = self.beside(instant.max(single.retry));
        }
        Call::Single { single, settings }
    }
}

/// The open ones, the report before the primings.
fn open(table: &Table) -> Vec<Open> {
    let open = table.report.iter().chain(&table.primings);
    open.copied().collect()
}

fn live(table: &Table) -> Vec<Subscription> {
    let open = open(table).into_iter().map(|open| open.subscription);
    table.stored.iter().copied().chain(open).collect()
}
