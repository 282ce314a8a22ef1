//! Prints histories with a seed, for recorded samples and for looking at them.

use std::io::Write;

use oracle::arguments::Arguments;
use oracle::histories::{Histories, Language, KINDS};

const USAGE: &str =
    "histories --kind domain|any|edges|malformed [--language replay|trace] [--calls N] [--seed S]";

fn main() -> std::io::Result<()> {
    let known = ["--kind", "--language", "--calls", "--seed"];
    let arguments = Arguments::read(USAGE, &known);
    let name = arguments.text("--kind").unwrap_or("domain");
    let kind = KINDS.into_iter().find(|kind| kind.name() == name);
    let language = match arguments.text("--language") {
        None | Some("replay") => Some(Language::Replay),
        Some("trace") => Some(Language::Trace),
        Some(_) => None,
    };
    let (Some(kind), Some(language)) = (kind, language) else {
        arguments.fail()
    };
    let mut histories = Histories::new(arguments.number("--seed", 1));
    let text = histories.batch(language, kind, arguments.number("--calls", 1_000));
    std::io::stdout().write_all(&text)
}
