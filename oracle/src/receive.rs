//! `InboundContext::handle_packet` and `pop_message`, through whole sequences of calls inside document 01's domain: no
//! repeats, nonempty payloads, at most 255 missing, a span below 512 from the next number to take.
//!
//! The Rust has no store, so the sum of ours is not compared.
use crate::{
    active::Inbound,
    calls::{Buffer, Call},
    common::{checksum, Answer, Case, Random, Verdict, LAST},
};
use std::collections::BTreeMap;

const OUTPUT: &str = "output too short";

pub struct Sequence(Vec<Call>);

impl Case for Sequence {
    const LISTED: &'static [&'static str] = &[OUTPUT];

    fn make(seed: u64, index: usize) -> Self {
        Draft::sequence(&mut Random::of(seed, index))
    }

    fn script(&self) -> Vec<u8> {
        self.0.iter().flat_map(Call::script).collect()
    }

    fn answers(&self) -> usize {
        self.0.len()
    }

    fn compare(&self, ours: &[Answer]) -> Vec<Verdict> {
        let mut rust = Rust { inbound: Inbound::start(0), slot: 1, s: 0, next: 1 };
        let mut verdicts = vec![];
        for (at, (call, ours)) in self.0.iter().zip(ours).enumerate() {
            let (expected, listed) = rust.answer(call);
            let same = ours.word == expected.word
                && match call {
                    Call::Accept { .. } => {
                        ours.numbers.split_last().is_some_and(|(_, shown)| shown == expected.numbers)
                    }
                    _ => ours.numbers == expected.numbers,
                };
            verdicts.push(match (same, listed) {
                (true, None) => Verdict::Equal,
                (true, Some(name)) => Verdict::Listed(name),
                (false, _) => Verdict::Unlisted(format!("call {at}: expected `{expected}`, ours `{ours}`")),
            });
            // After a difference the two are no longer in the same state.
            if !same {
                break;
            }
        }
        verdicts
    }
}

/// The Rust's receiver, with the next number to take, which it does not know: each nonempty payload is one number.
struct Rust {
    inbound: Inbound,
    slot: u32,
    s: u32,
    next: u64,
}

impl Rust {
    fn answer(&mut self, call: &Call) -> (Answer, Option<&'static str>) {
        match call {
            Call::Start { s, slot, .. } => {
                *self = Self { inbound: Inbound::start(*s), slot: *slot, s: *s, next: u64::from(*s) + 1 };
                (Answer::new("start", &[&[0], &self.state()[..]].concat()), None)
            }
            Call::Accept { number, payload } => {
                let code = match self.inbound.accept(*number, payload) {
                    Ok(()) => 0,
                    Err(_) => 14,
                };
                (Answer::new("accept", &[&[code], &self.state()[..]].concat()), None)
            }
            Call::Take(output) => {
                let mut output = output.bytes();
                // The Rust hands out a buffer of its own, so an output that is too short is ours alone: the payload stays.
                let (code, length, listed) = match self.inbound.next() {
                    None => (17, 0, None),
                    Some(payload) if payload.len() > output.len() => (7, 0, Some(OUTPUT)),
                    Some(_) => {
                        let payload = self.inbound.take().expect("it was there");
                        output[..payload.len()].copy_from_slice(&payload);
                        self.next += 1;
                        (0, payload.len() as u64, None)
                    }
                };
                let numbers = [&[code, length], &self.state()[..], &[checksum(&output)]].concat();
                (Answer::new("take", &numbers), listed)
            }
            _ => unreachable!("no call of a sequence"),
        }
    }

    /// The state as ours shows it, the held payloads by slot. All that the Rust misses must be free there.
    fn state(&self) -> Vec<u64> {
        let held = self.inbound.held(self.next);
        assert_eq!(self.next + (held.len() + self.inbound.missing()) as u64, u64::from(self.inbound.highest()) + 1);
        let mut marks: Vec<[u64; 2]> =
            held.into_iter().map(|(number, length)| [number % 512, length as u64 + 1]).collect();
        marks.sort();
        let head = [self.slot.into(), self.s.into(), self.next, self.inbound.highest().into(), marks.len() as u64];
        head.into_iter().chain(marks.into_iter().flatten()).collect()
    }
}

/// A sequence as it is drawn, with as much of the receiver's state as keeps it inside the domain.
struct Draft {
    calls: Vec<Call>,
    slot: usize,
    next: u64,
    highest: u64,
    /// The length of each payload that is not taken yet.
    held: BTreeMap<u64, usize>,
}

impl Draft {
    fn sequence(random: &mut Random) -> Sequence {
        let s = match random.below(8) {
            0 => LAST - random.below(40) as u32,
            1 => LAST - random.below(700) as u32,
            2 | 3 => 0,
            _ => random.word().min(LAST),
        };
        // Our program sums the whole store after each accept, so large slots are rare.
        let slot = match random.below(400) {
            0 => random.from_to(1, 1812),
            1..=9 => random.from_to(1, 40),
            _ => random.from_to(1, 3),
        };
        let start = Call::Start { s, slot: slot as u32, store: Buffer::of(512 * slot, random.byte()) };
        let (next, highest) = (u64::from(s) + 1, s.into());
        let mut draft = Self { calls: vec![start], slot, next, highest, held: BTreeMap::new() };
        let calls = if random.one_in(100) { random.from_to(300, 900) } else { random.from_to(1, 40) };
        // Some sequences are mostly in order, some mostly gaps, some seldom taken from.
        let [jumps, fills, takes] = [random.from_to(1, 12), random.from_to(1, 12), random.from_to(1, 12)];
        for _ in 0..calls {
            match random.below(8 + jumps + fills + takes) {
                roll if roll < takes => draft.take(random),
                roll if roll < takes + fills => draft.fill(random),
                roll if roll < takes + fills + jumps => draft.jump(random),
                _ => draft.accept(random, draft.highest + 1),
            }
        }
        if random.one_in(2) {
            while draft.held.contains_key(&draft.next) {
                draft.take(random);
            }
        }
        Sequence(draft.calls)
    }

    fn missing(&self) -> Vec<u64> {
        (self.next..=self.highest).filter(|number| !self.held.contains_key(number)).collect()
    }

    fn accept(&mut self, random: &mut Random, number: u64) {
        if number > LAST.into() || number - self.next >= 512 {
            return;
        }
        let length = if random.one_in(2) { self.slot } else { random.from_to(1, self.slot) };
        self.calls.push(Call::Accept { number: number as u32, payload: random.bytes(length) });
        self.held.insert(number, length);
        self.highest = self.highest.max(number);
    }

    /// Fills a gap: at its start, at its end, or anywhere.
    fn fill(&mut self, random: &mut Random) {
        let missing = self.missing();
        if let Some(last) = missing.len().checked_sub(1) {
            let rank = [0, last, random.below(missing.len())][random.below(3)];
            self.accept(random, missing[rank]);
        }
    }

    /// Leaves a gap, of a few numbers or as many as the domain has room for.
    fn jump(&mut self, random: &mut Random) {
        let most = (255 - self.missing().len() as u64).min((self.next + 510).saturating_sub(self.highest));
        let gap = match random.below(16) {
            0 => most,
            1 => random.below(most as usize + 1) as u64,
            _ => most.min(random.from_to(1, 4) as u64),
        };
        self.accept(random, self.highest + 1 + gap);
    }

    fn take(&mut self, random: &mut Random) {
        let held = self.held.get(&self.next).copied();
        let needed = held.unwrap_or(0);
        let output = match random.below(8) {
            0 => random.below(needed + 1),
            1..=3 => needed,
            _ => needed + random.below(4),
        };
        self.calls.push(Call::Take(random.buffer(output)));
        if held.is_some_and(|length| length <= output) {
            self.held.remove(&self.next);
            self.next += 1;
        }
    }
}
