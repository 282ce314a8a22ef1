//! Compares the original with the second implementation, and with the programs of
//! the port given by path, on histories with a seed: every answer and every state.

use std::time::Instant;

use oracle::arguments::Arguments;
use oracle::comparison::{printable, Difference, Driver, Pair, Tally};
use oracle::histories::{Histories, Kind, Language};

const USAGE: &str =
    "compare [--calls N] [--seed S] [--kind K] [--least N] [--port REPLAY] [--trace-port TRACE]";

/// After so many differences the rest would say the same again.
const ENOUGH: u64 = 5;

const LARGEST_BATCH: u64 = 50_000;

/// What comes after what, over and over.
const TURNS: [(Language, Kind); 18] = [
    (Language::Replay, Kind::Domain),
    (Language::Replay, Kind::Edges),
    (Language::Replay, Kind::Any),
    (Language::Trace, Kind::Domain),
    (Language::Replay, Kind::Domain),
    (Language::Replay, Kind::Edges),
    (Language::Replay, Kind::Malformed),
    (Language::Trace, Kind::Any),
    (Language::Replay, Kind::Any),
    (Language::Replay, Kind::Domain),
    (Language::Replay, Kind::Edges),
    (Language::Replay, Kind::Any),
    (Language::Trace, Kind::Edges),
    (Language::Replay, Kind::Domain),
    (Language::Replay, Kind::Any),
    (Language::Replay, Kind::Edges),
    (Language::Trace, Kind::Malformed),
    (Language::Replay, Kind::Domain),
];

fn main() {
    let known = [
        "--calls",
        "--seed",
        "--kind",
        "--least",
        "--port",
        "--trace-port",
    ];
    let arguments = Arguments::read(USAGE, &known);
    let turns = turns(&arguments);
    let calls: u64 = arguments.number("--calls", 100_000);
    let seed: u64 = arguments.number("--seed", 1);
    let replay_pairs = pairs("replay", arguments.text("--port"));
    let trace_pairs = pairs("trace", arguments.text("--trace-port"));

    let begun = Instant::now();
    let mut histories = Histories::new(seed);
    let mut tally = Tally::default();
    let mut differences = 0;
    let batch = (calls / 64).clamp(1, LARGEST_BATCH);
    for (language, kind) in turns.iter().cycle() {
        if tally.total() >= calls || differences >= ENOUGH {
            break;
        }
        // The trace has fewer kinds of lines, so fewer of them do.
        let (pairs, lines) = match language {
            Language::Replay => (&replay_pairs, batch),
            Language::Trace => (&trace_pairs, batch * 7 / 8),
        };
        let input = histories.batch(*language, *kind, lines as usize);
        // Each pair is given the same lines, which are counted with the first.
        let mut uncounted = Tally::default();
        for (place, pair) in pairs.iter().enumerate() {
            let counts = if place == 0 {
                &mut tally
            } else {
                &mut uncounted
            };
            if let Some(difference) = pair.compare(*language, *kind, &input, counts) {
                differences += 1;
                print_difference(*kind, &pair.right, &difference);
            }
        }
    }

    tally.print();
    println!();
    println!("least of a kind of line: {}", tally.least());
    println!(
        "answered by the original itself: {}",
        tally.by_the_original()
    );
    println!(
        "{} calls compared in {:.1} s, seed {seed}: {differences} differences",
        tally.total(),
        begun.elapsed().as_secs_f64()
    );
    let too_few = tally.least() < arguments.number("--least", 0);
    if too_few {
        println!("too few lines of a kind");
    }
    std::process::exit(i32::from(differences > 0 || too_few));
}

/// All turns, or those of the kind that was asked for.
fn turns(arguments: &Arguments) -> Vec<(Language, Kind)> {
    let asked = arguments.text("--kind");
    let mut turns = TURNS.to_vec();
    turns.retain(|(_, kind)| asked.is_none_or(|name| name == kind.name()));
    if turns.is_empty() {
        arguments.fail();
    }
    turns
}

/// The original beside the port's program, if there is one, and beside the second implementation.
fn pairs(language: &str, port: Option<&str>) -> Vec<Pair> {
    let program = port.map(|path| Driver::Program {
        path: path.into(),
        arguments: Vec::new(),
    });
    let others = program.into_iter().chain([Driver::Second]);
    let pairs = others.map(|right| {
        println!("{language}: {} and {}", Driver::Original, right);
        Pair {
            left: Driver::Original,
            right,
        }
    });
    pairs.collect()
}

fn print_difference(kind: Kind, other: &Driver, difference: &Difference) {
    println!("difference in a history of kind {}:", kind.name());
    for line in &difference.history {
        println!("    {}", printable(line));
    }
    println!("  {} answers", Driver::Original);
    println!("    {}", printable(&difference.left));
    println!("  {other} answers");
    println!("    {}", printable(&difference.right));
    println!();
}
