//! Plants errors in copies of the second implementation, under `target`, and
//! shows what history of the comparison saw each. One that is not seen fails.

use std::fmt::Write as _;
use std::path::{Path, PathBuf};
use std::process::Command;

use oracle::arguments::Arguments;
use oracle::comparison::{printable, Difference, Driver, Pair, Tally};
use oracle::histories::{Histories, Kind, Language, KINDS};
use oracle::plants::{Plant, PLANTS};

const USAGE: &str = "planted [--calls N] [--seed S]";

/// What is copied for each planted error; the rest is shared.
const COPIED: [&str; 2] = ["second.rs", "lines.rs"];
const SHARED: [&str; 2] = ["state.rs", "calls.rs"];

const BATCH: usize = 4_000;

fn main() {
    let arguments = Arguments::read(USAGE, &["--calls", "--seed"]);
    let calls: usize = arguments.number("--calls", 160_000);
    let program = build();
    let inputs = inputs(arguments.number("--seed", 1), calls);

    let mut unseen = 0;
    for (place, plant) in PLANTS.iter().enumerate() {
        let wrong = Driver::Program {
            path: program.clone(),
            arguments: vec![place.to_string()],
        };
        match seen_by(wrong, &inputs) {
            Some((kind, difference)) => print_seen(plant, kind, &difference),
            None => {
                unseen += 1;
                println!("{}: not seen", plant.mistake);
            }
        }
    }
    println!("{} errors planted, {unseen} not seen", PLANTS.len());
    std::process::exit(i32::from(unseen > 0));
}

/// The same histories for every planted error, one kind after another.
fn inputs(seed: u64, calls: usize) -> Vec<(Kind, Vec<u8>)> {
    let mut histories = Histories::new(seed);
    let kinds = KINDS.into_iter().cycle().take(calls.div_ceil(BATCH));
    kinds
        .map(|kind| (kind, histories.batch(Language::Replay, kind, BATCH)))
        .collect()
}

fn seen_by(wrong: Driver, inputs: &[(Kind, Vec<u8>)]) -> Option<(Kind, Difference)> {
    let pair = Pair {
        left: Driver::Original,
        right: wrong,
    };
    inputs.iter().find_map(|(kind, input)| {
        let difference = pair.compare(Language::Replay, *kind, input, &mut Tally::default());
        Some((*kind, difference?))
    })
}

fn print_seen(plant: &Plant, kind: Kind, difference: &Difference) {
    let last = difference.history.last().map(|line| printable(line));
    let last = last.unwrap_or("(empty input)".to_string());
    let shown: String = last.chars().take(60).collect();
    println!(
        "{}: {}, {} lines, {shown}",
        plant.mistake,
        kind.name(),
        difference.history.len(),
    );
}

/// Compiles all wrong versions into one program, each called by its number.
fn build() -> PathBuf {
    let root = Path::new(env!("CARGO_MANIFEST_DIR"));
    let place = root.join("target/planted");
    std::fs::create_dir_all(&place).expect("target can be written");
    for file in SHARED {
        std::fs::copy(root.join("src").join(file), place.join(file)).expect("a source is there");
    }
    for (number, plant) in PLANTS.iter().enumerate() {
        copy_with(plant, root, &place.join(format!("p{number}")));
    }
    std::fs::write(place.join("main.rs"), main_file()).expect("target can be written");
    compile(&place)
}

fn copy_with(plant: &Plant, root: &Path, place: &Path) {
    std::fs::create_dir_all(place).expect("target can be written");
    for file in COPIED {
        let mut text = std::fs::read_to_string(root.join("src").join(file)).expect("a source");
        if file == plant.file {
            text = planted(plant, &text);
        }
        std::fs::write(place.join(file), text).expect("target can be written");
    }
}

fn planted(plant: &Plant, text: &str) -> String {
    let Some(start) = text.find(plant.after) else {
        panic!("no place for: {}", plant.mistake);
    };
    let (before, after) = text.split_at(start);
    assert!(
        after.contains(plant.right),
        "no line for: {}",
        plant.mistake
    );
    before.to_string() + &after.replacen(plant.right, plant.wrong, 1)
}

fn main_file() -> String {
    let mut text = "#![allow(warnings)]\nmod state;\nmod calls;\n".to_string();
    for number in 0..PLANTS.len() {
        let _ = writeln!(text, "mod p{number} {{ pub mod second; pub mod lines; }}");
    }
    text += "fn main() -> std::io::Result<()> {\n";
    text += "    let (input, output) = (std::io::stdin().lock(), std::io::stdout().lock());\n";
    text += "    match std::env::args().nth(1).unwrap().parse::<usize>().unwrap() {\n";
    for n in 0..PLANTS.len() {
        let engine = format!("&mut p{n}::second::Second::new()");
        let _ = writeln!(
            text,
            "        {n} => p{n}::lines::replay({engine}, input, output),"
        );
    }
    text + "        _ => unreachable!(),\n    }\n}\n"
}

fn compile(place: &Path) -> PathBuf {
    let program = place.join("planted");
    let status = Command::new("rustc")
        .args(["--edition", "2021", "--crate-name", "planted", "-o"])
        .arg(&program)
        .arg(place.join("main.rs"))
        .status()
        .expect("rustc starts");
    assert!(status.success(), "a planted error does not compile");
    program
}
