//! Document 01 once more, in plain Rust: written from its words and from nothing of our program, so that the two can be held
//! against each other on any bytes, numbers and states. Where document 01 leaves a choice, docs/DECISIONS.md says which.
//!
//! | file | document 01 |
//! |---|---|
//! | `packet.rs` | "Packet on the wire", reading |
//! | `write.rs` | the same, writing |
//! | `receiver.rs`, `ack.rs` | "Receiver", "Acknowledgement" |
//! | `why.rs` | document 02, request [6] |
//! | `timer.rs` | "Sender": timer and window |
//! | `sender.rs`, `sending.rs` | "Sender": the state and its rules; the calls |
//! | `serial.rs` | document 02, [7]: packets over a serial line |
//! | `answer.rs`, `script.rs` | no part of it: the lines and scripts of docs/DRIVE.md |
//! | `hand.rs` | "Numbers to check by hand" |
//!
//! Each call first lists its refusals in document 01's order, each with when it is given; the first that applies is the answer,
//! and then nothing has changed. What a run met of all this is counted outside, in `crate::met`.
pub mod ack;
pub mod answer;
pub mod hand;
pub mod packet;
pub mod receiver;
pub mod script;
pub mod sender;
pub mod sending;
pub mod serial;
pub mod timer;
pub mod why;
pub mod write;

/// A refusal: its number in document 01's table, and the bits of the later ones in the call's list that applied too.
#[derive(Clone, Copy, Debug, PartialEq)]
pub struct Refusal {
    pub call: &'static str,
    pub number: u64,
    pub also: u64,
}

/// The largest number of 32 bits, which no packet may have.
pub const TOP: u32 = 4_294_967_295;

/// The first refusal that applies, of those that a call lists in document 01's order.
pub fn refuse(call: &'static str, ladder: &[(u64, bool)]) -> Result<(), Refusal> {
    let mut applying = ladder.iter().filter(|(_, applies)| *applies).map(|(number, _)| *number);
    let Some(number) = applying.next() else { return Ok(()) };
    Err(Refusal { call, number, also: applying.fold(0, |bits, later| bits | 1 << later) })
}
