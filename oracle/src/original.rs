//! The customer's `subscriptions.rs`, compiled unchanged. `machine`, below it,
//! sees its private parts, and drives it.

#![allow(dead_code, unused_macros, clippy::all)]

macro_rules! info { ($($words:tt)*) => { discard!($($words)*) }; }
macro_rules! warn { ($($words:tt)*) => { discard!($($words)*) }; }
macro_rules! debug { ($($words:tt)*) => { discard!($($words)*) }; }

include!(env!("SUBSCRIPTIONS_RS"));

pub mod machine;
