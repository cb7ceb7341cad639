//! Calls on any bytes, numbers and states, answered by our program and by the model of document 01: every line must be the same.
//! `oracle model check` ends with a table of what was met, and fails where a refusal or a rule was not.
//!
//! | file | draws |
//! |---|---|
//! | `packets.rs` | packets, destinations, fields to write, samples and windows |
//! | `receivers.rs` | a receiver's states, valid or with one rule broken, and calls on them |
//! | `senders.rs` | a sender's states, valid or with one rule broken |
//! | `sending.rs` | calls on a sender |
//! | `lines.rs` | the reader of a serial line: its states, valid or with one rule broken, and calls on them |
//!
//! A state is drawn near its limits, and each call near the limits of the state that it meets.
mod lines;
mod packets;
mod receivers;
mod senders;
mod sending;

use crate::{
    calls::{Buffer, Call},
    common::{Answer, Case, Random, Verdict},
    met,
    model::answer::World,
};

pub struct Run {
    script: Vec<u8>,
    /// The model's lines.
    lines: Vec<String>,
}

impl Case for Run {
    const LISTED: &'static [&'static str] = &[];

    fn make(seed: u64, index: usize) -> Self {
        let mut draft =
            Draft { random: Random::of(seed, index), world: World::default(), script: vec![], lines: vec![] };
        match draft.random.below(18) {
            // The registers as they are at first: only the first case can ask.
            _ if index == 0 => draft.untouched(),
            0 => draft.read(),
            1 => draft.judge_destination(),
            2 | 3 => draft.write(),
            4 => draft.timer(),
            5..=8 => draft.receiver(),
            9 | 10 => draft.line(),
            _ => draft.sender(),
        }
        Self { script: draft.script, lines: draft.lines }
    }

    fn script(&self) -> Vec<u8> {
        self.script.clone()
    }

    fn answers(&self) -> usize {
        self.lines.len()
    }

    fn compare(&self, ours: &[Answer]) -> Vec<Verdict> {
        let mut verdicts = vec![];
        for (at, (line, ours)) in self.lines.iter().zip(ours).enumerate() {
            if ours.to_string() != *line {
                verdicts.push(Verdict::Unlisted(format!("call {at}: the model `{line}`, ours `{ours}`")));
                // After a difference the two are no longer in the same state.
                break;
            }
            verdicts.push(Verdict::Equal);
        }
        verdicts
    }
}

/// A case as it is drawn: the model answers each call at once, so that the next can be drawn near the limits of its state.
struct Draft {
    random: Random,
    world: World,
    script: Vec<u8>,
    lines: Vec<String>,
}

impl Draft {
    fn ask(&mut self, call: Call) {
        self.script.extend(call.script());
        self.lines.push(met::answer(&mut self.world, &call));
    }

    /// Every call that uses a register, on the registers as they are at first.
    fn untouched(&mut self) {
        let output = || Buffer::of(9, 7);
        self.ask(Call::Accept { number: 1, payload: vec![] });
        self.ask(Call::Take(output()));
        self.ask(Call::Acknowledge { ids: [1, 2], output: output() });
        self.ask(Call::Valid);
        self.ask(Call::Submit { ids: [1, 2], bytes: vec![3] });
        self.ask(Call::Send { clock: 0, output: output() });
        self.ask(Call::Acks { through: 0, nacks: vec![], clock: 0 });
        self.ask(Call::Resend { clock: 0, path: 1 });
        self.ask(Call::Fetch { rank: 0, output: output() });
        self.ask(Call::Feed(vec![0]));
    }

    /// A length around the one that is needed.
    fn around(&mut self, needed: usize) -> usize {
        match self.random.below(8) {
            0 => needed.saturating_sub(1),
            1 => 0,
            2 => self.random.below(needed + 1),
            3 => needed + 1,
            4 => needed + self.random.below(50),
            _ => needed,
        }
    }

    /// An output of about this length, at most what a script may ask.
    fn output(&mut self, needed: usize) -> Buffer {
        let length = self.around(needed).min(70_000);
        self.random.buffer(length)
    }

    /// A store, at most as long as a script may ask: mostly of random bytes, so that no part of it looks like another.
    fn store(&mut self, length: usize) -> Buffer {
        let length = length.min(930_000);
        let front = if self.random.one_in(8) { 0 } else { length.min(20_000) };
        Buffer { length, fill: self.random.byte(), front: self.random.bytes(front) }
    }

    /// The length that is wanted, or now and then another.
    fn store_length(&mut self, wanted: u128) -> usize {
        let wanted = wanted.min(930_000) as usize;
        match self.random.below(40) {
            0 => wanted + 1,
            1 => wanted.saturating_sub(1),
            2 => self.random.below(6_000),
            _ => wanted,
        }
    }
}
