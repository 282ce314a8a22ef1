//! Links the port's archive, which oracle/lent/compare makes of crate lent_c.

fn main() {
    let root = std::env::var("CARGO_MANIFEST_DIR").expect("cargo sets it");
    let archives = format!("{root}/../../target/staticlib");
    println!("cargo:rerun-if-changed={archives}/liblent.a");
    println!("cargo:rustc-link-search=native={archives}");
    println!("cargo:rustc-link-lib=static=lent");
}
