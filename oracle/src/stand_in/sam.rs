//! Stand-in for `crate::sam`, with the given `packet` where the given `active` looks for it.

pub mod protocol {
    pub mod streaming {
        pub const LOG_TARGET: &str = "streaming";
        pub(crate) use crate::packet;

        pub mod config {
            pub struct StreamConfig;
        }
    }
}
