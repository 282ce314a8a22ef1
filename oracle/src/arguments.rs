//! The programs' arguments: `--name value` pairs, each known by its name.

use std::str::FromStr;

pub struct Arguments {
    usage: &'static str,
    pairs: Vec<(String, String)>,
}

impl Arguments {
    /// Ends the program with its usage if the arguments are none of these pairs.
    pub fn read(usage: &'static str, known: &[&str]) -> Self {
        let mut given = std::env::args().skip(1);
        let mut pairs = Vec::new();
        while let Some(name) = given.next() {
            match given.next() {
                Some(value) if known.contains(&name.as_str()) => pairs.push((name, value)),
                _ => fail(usage),
            }
        }
        Arguments { usage, pairs }
    }

    pub fn text(&self, name: &str) -> Option<&str> {
        let found = self.pairs.iter().rfind(|(given, _)| given == name);
        found.map(|(_, value)| value.as_str())
    }

    pub fn number<T: FromStr>(&self, name: &str, otherwise: T) -> T {
        match self.text(name) {
            None => otherwise,
            Some(text) => text.parse().unwrap_or_else(|_| self.fail()),
        }
    }

    /// Ends the program with its usage.
    pub fn fail(&self) -> ! {
        fail(self.usage)
    }
}

fn fail(usage: &str) -> ! {
    eprintln!("usage: {usage}");
    std::process::exit(2)
}
