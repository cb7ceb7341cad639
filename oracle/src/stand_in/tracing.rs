//! Stand-in for the crate `tracing`: log lines are dropped, and their arguments not looked at.

macro_rules! dropped {
    ($($any:tt)*) => {};
}

pub(crate) use {dropped as debug, dropped as info, dropped as trace, dropped as warn};
