//! `replay` by the second implementation: lines in, answers and whole states out.

use oracle::{lines::replay, second::Second};

fn main() -> std::io::Result<()> {
    replay(
        &mut Second::new(),
        std::io::stdin().lock(),
        std::io::stdout().lock(),
    )
}
