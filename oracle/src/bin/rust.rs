//! `replay` by the original: lines in, answers and whole states out.

use oracle::{lines::replay, original::machine::Original};

fn main() -> std::io::Result<()> {
    replay(
        &mut Original::new(),
        std::io::stdin().lock(),
        std::io::stdout().lock(),
    )
}
