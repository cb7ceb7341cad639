//! What the given Rust leans on and was not given with it, as small as it can be. Nothing here is an oracle: where a
//! result rests on a stand-in (the form of a destination, an offline block, a signature), the comparison says so.
pub mod bytes;
pub mod crypto;
pub mod destination;
pub mod error;
pub mod futures;
pub mod nom;
pub mod primitives;
pub mod rand;
pub mod runtime;
pub mod sam;
pub mod thingbuf;
pub mod tracing;
