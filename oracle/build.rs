//! Finds the original `subscriptions.rs` and hands its absolute path on.
//! The file is the customer's and is not kept in this repository.

use std::path::PathBuf;

const BESIDE_THE_PROJECT: &str = "../../shared/docs/src/rs-matter-im/src/subscriptions.rs";

fn main() {
    println!("cargo:rerun-if-env-changed=SUBSCRIPTIONS_RS");
    let given = std::env::var_os("SUBSCRIPTIONS_RS").map(PathBuf::from);
    let path = given.unwrap_or_else(beside_the_project);
    let Ok(path) = path.canonicalize() else {
        panic!(
            "no subscriptions.rs at {}; give its path in SUBSCRIPTIONS_RS",
            path.display()
        );
    };
    println!("cargo:rerun-if-changed={}", path.display());
    println!("cargo:rustc-env=SUBSCRIPTIONS_RS={}", path.display());
}

fn beside_the_project() -> PathBuf {
    let root = std::env::var_os("CARGO_MANIFEST_DIR").expect("cargo sets it");
    PathBuf::from(root).join(BESIDE_THE_PROJECT)
}
