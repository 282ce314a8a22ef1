//! The Rust side of the comparison: the original module behind stand-ins, a
//! second implementation of document 01, and the lines that drive both. No part
//! of the proof.

#![forbid(unsafe_code)]

pub mod arguments;
pub mod calls;
pub mod comparison;
pub mod histories;
pub mod lines;
mod malformed;
pub mod plants;
mod random;
pub mod second;
pub mod state;
pub mod trace;
mod world;
pub mod written;

#[macro_use]
mod standins;
// The original finds what it imports at the root of its crate.
pub(crate) use standins::{dm, fabric, utils};
pub(crate) use standins::{AttrId, ClusterId, EndptId, EventId, EventNumber, NodeId};

pub mod original;
