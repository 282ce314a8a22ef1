//! Document 01's trace program by the original; by the second implementation when
//! called as `trace second`; by the original with nobody asked before it when called
//! as `trace bare`.

use std::io::{stdin, stdout, Result};

use oracle::calls::Engine;
use oracle::original::machine::{Bare, Original};
use oracle::{second::Second, trace::trace};

fn main() -> Result<()> {
    match std::env::args().nth(1).as_deref() {
        None | Some("rust") => run(Original::new()),
        Some("second") => run(Second::new()),
        Some("bare") => run(Bare::default()),
        Some(_) => {
            eprintln!("usage: trace [rust|second|bare] < lines");
            std::process::exit(2)
        }
    }
}

fn run(mut engine: impl Engine) -> Result<()> {
    trace(&mut engine, stdin().lock(), stdout().lock())
}
