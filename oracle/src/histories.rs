//! Histories with a seed: which kinds there are, how often each call is drawn and
//! in what surroundings. The calls themselves are drawn in `world`.

use crate::random::Random;
use crate::world::World;

/// What a history may hold.
#[derive(Clone, Copy, Debug, PartialEq, Eq)]
pub enum Kind {
    /// Demand 2's domain: no call refused by another number than 1.
    Domain,
    /// Any arguments, refused calls too.
    Any,
    /// Values at the ends of their widths, counters near their wrap.
    Edges,
    /// Lines of a wrong shape between good ones.
    Malformed,
}

pub const KINDS: [Kind; 4] = [Kind::Domain, Kind::Any, Kind::Edges, Kind::Malformed];

impl Kind {
    pub fn name(self) -> &'static str {
        match self {
            Kind::Domain => "domain",
            Kind::Any => "any",
            Kind::Edges => "edges",
            Kind::Malformed => "malformed",
        }
    }
}

/// Which of the two line languages.
#[derive(Clone, Copy, Debug, PartialEq, Eq)]
pub enum Language {
    Replay,
    Trace,
}

/// How often each kind of line is drawn in a history.
pub type Mix = &'static [(&'static str, u64)];

/// Subscriptions come, are reported on and go.
const STEADY: Mix = &[
    ("add", 9),
    ("resume", 4),
    ("note", 18),
    ("report", 16),
    ("done", 20),
    ("attr", 8),
    ("sendempty", 3),
    ("wake", 4),
    ("any", 3),
    ("keepalive", 1),
    ("stats", 1),
    ("has", 2),
    ("round", 5),
    ("purge", 3),
    ("remove,id", 1),
    ("remove,expired", 1),
    ("remove,peer", 1),
];

/// The log fills, folds and is purged.
const NOTING: Mix = &[
    ("add", 3),
    ("note", 50),
    ("report", 8),
    ("done", 10),
    ("attr", 6),
    ("changed", 6),
    ("purge", 3),
    ("round", 2),
    ("logpurge", 2),
    ("setidentity", 1),
];

/// The table fills, and much of it is removed again.
const WIPING: Mix = &[
    ("new", 2),
    ("add", 14),
    ("resume", 14),
    ("note", 8),
    ("report", 10),
    ("done", 14),
    ("remove,all", 6),
    ("remove,fabric", 6),
    ("remove,peer", 6),
    ("remove,id", 5),
    ("remove,expired", 5),
    ("clear", 7),
    ("purge", 3),
    ("attr", 3),
    ("sendempty", 12),
    ("keepalive", 3),
    ("stats", 3),
    ("has", 3),
    ("round", 4),
    ("any", 2),
    ("wake", 2),
];

/// Nobody answers: reports are retried again and again.
const UNREACHABLE: Mix = &[
    ("report", 40),
    ("done", 40),
    ("note", 5),
    ("wake", 5),
    ("has", 3),
    ("round", 2),
    ("add", 1),
    ("resume", 1),
];

/// Questions about time, one subscription and the log.
const ASKING: Mix = &[
    ("note", 10),
    ("add", 3),
    ("done", 3),
    ("backoff", 5),
    ("dueafter", 5),
    ("icdmax", 5),
    ("submax", 5),
    ("expired", 5),
    ("single", 6),
    ("changed", 6),
    ("anysince", 5),
    ("setidentity", 9),
    ("logpurge", 8),
    ("watermark", 5),
    ("logempty", 9),
    ("keepalive", 3),
    ("stats", 3),
    ("has", 2),
    ("any", 2),
    ("wake", 2),
];

const TRACED: Mix = &[
    ("new", 1),
    ("add", 12),
    ("note", 20),
    ("report", 22),
    ("done", 24),
    ("attr", 12),
    ("wake", 8),
];

/// A kind of line that was drawn less often than this is preferred, so that a
/// short comparison has enough of each.
const ENOUGH: u64 = 2_100;

/// Once in so many times is not at all.
const NEVER: u64 = u64::MAX;

/// Where the paths of a history lie, so that each level of folding is met.
#[derive(Clone, Copy)]
pub struct Paths {
    pub endpoints: u64,
    pub clusters: u64,
    pub attributes: u64,
    /// A field is wild once in so many times.
    pub wild_once_in: u64,
}

/// The surroundings of one history.
pub struct Style {
    pub mix: Mix,
    pub length: u64,
    pub capacity: u8,
    /// With fewer live subscriptions than this, admissions are preferred.
    pub population: usize,
    pub paths: Paths,
    /// The longest step of the clock in milliseconds.
    pub step: u64,
    pub mostly_retry: bool,
}

/// How often each kind of line was drawn so far.
#[derive(Default)]
pub struct Drawn {
    lines: Vec<(&'static str, u64)>,
}

impl Drawn {
    pub fn count(&mut self, kind: &'static str) {
        match self.lines.iter_mut().find(|(name, _)| *name == kind) {
            Some((_, count)) => *count += 1,
            None => self.lines.push((kind, 1)),
        }
    }

    pub fn lags(&self, kind: &str) -> bool {
        let found = self.lines.iter().find(|(name, _)| *name == kind);
        found.map_or(0, |(_, count)| *count) < ENOUGH
    }

    pub fn any_lags(&self, mix: Mix) -> bool {
        mix.iter().any(|(word, _)| self.lags(word))
    }
}

pub struct Histories {
    random: Random,
    replayed: Drawn,
    traced: Drawn,
}

impl Histories {
    pub fn new(seed: u64) -> Self {
        Histories {
            random: Random::new(seed),
            replayed: Drawn::default(),
            traced: Drawn::default(),
        }
    }

    /// Histories one after another, each begun by a `new`, of so many lines or few more.
    pub fn batch(&mut self, language: Language, kind: Kind, lines: usize) -> Vec<u8> {
        let mut text = Vec::new();
        let mut count = 0;
        while count < lines {
            count += self.history(language, kind, &mut text);
        }
        if kind == Kind::Malformed {
            self.cut_the_end(&mut text);
        }
        text
    }

    /// A last line may lack its CRLF, or half of it.
    fn cut_the_end(&mut self, text: &mut Vec<u8>) {
        let lost = self.random.below(4) as usize;
        text.truncate(text.len() - lost.min(2));
    }

    /// Adds a history to the text; its number of lines.
    fn history(&mut self, language: Language, kind: Kind, text: &mut Vec<u8>) -> usize {
        let (style, drawn) = match language {
            Language::Replay => (
                replay_style(&mut self.random, kind, &self.replayed),
                &mut self.replayed,
            ),
            Language::Trace => (
                trace_style(&mut self.random, kind, &self.traced),
                &mut self.traced,
            ),
        };
        let mut world = World::new(&mut self.random, kind, &style);
        let mut lines = 0;
        for call in world.opening(language) {
            world.write(&call, text, drawn);
            lines += 1;
        }
        for _ in 0..style.length {
            let Some(call) = world.next_call(drawn) else {
                break;
            };
            world.write(&call, text, drawn);
            lines += 1;
        }
        lines
    }
}

fn replay_style(random: &mut Random, kind: Kind, drawn: &Drawn) -> Style {
    let (wipes, asks) = (drawn.any_lags(WIPING), drawn.any_lags(ASKING));
    let (mix, length) = match random.below(100) {
        0..=64 if wipes => (WIPING, random.from_to(4, 30)),
        65..=95 if asks => (ASKING, random.from_to(20, 60)),
        0..=9 | 96..=97 => (STEADY, random.from_to(60, 500)),
        10..=19 | 98 => (NOTING, random.from_to(60, 300)),
        20..=21 | 99 => (UNREACHABLE, random.from_to(100, 900)),
        22..=29 => (ASKING, random.from_to(20, 60)),
        _ => (WIPING, random.from_to(4, 50)),
    };
    style(random, kind, mix, length)
}

fn trace_style(random: &mut Random, kind: Kind, drawn: &Drawn) -> Style {
    let longest = if drawn.lags("new") { 14 } else { 200 };
    let length = random.from_to(6, longest);
    style(random, kind, TRACED, length)
}

fn style(random: &mut Random, kind: Kind, mix: Mix, length: u64) -> Style {
    let unreachable = mix == UNREACHABLE;
    let capacity = if unreachable { 2 } else { capacity(random) };
    // A short history would hardly use a large table that is filled first.
    let most = if length < 60 {
        capacity.min(17)
    } else {
        capacity
    };
    Style {
        mix,
        length,
        capacity,
        population: random.from_to(0, u64::from(most)) as usize,
        paths: paths(random, kind),
        step: random.pick(&[0, 10, 1_500, 4_000, 40_000, 4_000_000]),
        mostly_retry: unreachable,
    }
}

/// Mostly small, so that full tables are met; now and then all 80.
pub fn capacity(random: &mut Random) -> u8 {
    match random.below(20) {
        0..=13 => random.from_to(1, 6) as u8,
        14..=17 => random.from_to(7, 17) as u8,
        18 => random.from_to(18, 78) as u8,
        _ => random.from_to(79, 80) as u8,
    }
}

fn paths(random: &mut Random, kind: Kind) -> Paths {
    let (endpoints, clusters, attributes) = random.pick(&[
        (2, 2, 20),
        (2, 25, 2),
        (40, 1, 1),
        (3, 3, 4),
        (3, 9, 1),
        (20, 2, 2),
        (1, 1, 1),
    ]);
    let wild_once_in = match kind {
        Kind::Edges => random.pick(&[3, 12, 60]),
        _ => random.pick(&[5, 30, 200, NEVER]),
    };
    Paths {
        endpoints,
        clusters,
        attributes,
        wild_once_in,
    }
}
