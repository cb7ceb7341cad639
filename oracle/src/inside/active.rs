// Part of the module of the given active.rs (see build.sh): what the given text leans on, and what is opened for the comparison.
use crate::stand_in::{futures, rand, thingbuf, tracing};
pub use opened::{sample, Inbound, Rig, Timing};

// A module of its own, so that what nothing uses is told here: in the given text it is allowed.
#[path = "opened.rs"]
#[warn(unused)]
mod opened;
