//! The Rust's `packetize`, its sending loop, `handle_acks` and `resend`, through whole runs inside document 01's domain. Packets
//! come in between, so that the ack fields of submitted packets vary.
//!
//! The script starts a receiver and a sender ('S', 'Z') and then does what the Rust did: 'a' accept, 'u' submit, 's' send until
//! it gives 17 or 22, 'c' acks, 'e' resend, 'h' fetch. host.rs notes them; here the runs are drawn.
use crate::{
    ack::MISSING,
    calls::{Buffer, Call},
    common::{Answer, Case, Random, Verdict, LAST},
    host::{Host, CHUNK, OUTPUT},
    runtime::Bench,
    step::Step,
    timer::{DEVIATION, FIRST, HIGH, LOW, RESENT, ROUNDED},
};
use std::{
    collections::BTreeSet,
    panic::{catch_unwind, set_hook, take_hook, AssertUnwindSafe},
};

const SLOTS: &str = "fewer free slots than packets";
const NUMBERS: &str = "numbers used up";
const NACKS: &str = "more than 255 NACKs";
/// Clocks and timers stay below 2^32.
const LATEST: u64 = (1 << 32) - 100_000;

pub struct Run(Vec<Step>);

impl Case for Run {
    const LISTED: &'static [&'static str] = &[LOW, HIGH, FIRST, ROUNDED, DEVIATION, RESENT, OUTPUT, MISSING, SLOTS, NUMBERS, NACKS];

    fn make(seed: u64, index: usize) -> Self {
        let mut random = Random::of(seed, index);
        Self(smallest(&mut random, index).unwrap_or_else(|| Draft::new(&mut random, index).run(&mut random)))
    }

    fn script(&self) -> Vec<u8> {
        self.0.iter().flat_map(|step| step.call.script()).collect()
    }

    fn answers(&self) -> usize {
        self.0.len()
    }

    fn compare(&self, ours: &[Answer]) -> Vec<Verdict> {
        let mut verdicts = vec![];
        for (at, (step, ours)) in self.0.iter().zip(ours).enumerate() {
            match step.verdict(ours) {
                // After a difference the two are no longer in the same state.
                Verdict::Unlisted(why) => {
                    verdicts.push(Verdict::Unlisted(format!("call {at}: {why}")));
                    break;
                }
                verdict => verdicts.push(verdict),
            }
        }
        verdicts
    }
}

/// The smallest input of each difference that is not in the timer's topic, beside a run that just passes.
fn smallest(random: &mut Random, index: usize) -> Option<Vec<Step>> {
    // The first number, our places, the number that comes in, and how many bytes the client writes.
    let (first, places, accepted, length) = match index {
        0 => (1, 1, 256, CHUNK),
        1 => (1, 1, 257, 1),
        2 => (1, 1, 1, CHUNK + 1),
        3 => (LAST, 1, 1, 1),
        4 => (LAST + 1, 1, 1, 1),
        5 | 6 => (1, 1, 1, 1),
        _ => return None,
    };
    Bench::set_clock(0);
    let host = Host::new([0x0102_0304, 0x0a0b_0c0d], 0, first, places, 0);
    let mut draft = Draft { host, accepted: BTreeSet::new(), large: false, events: 0 };
    draft.host.accept(accepted);
    draft.write(random, vec![0; length]);
    match index {
        5 => draft.many_nacks(),
        // Sent at 0, sent again at 9,001, and acknowledged at 9,002: the ack may be for the first copy.
        6 => {
            Bench::set_clock(9_001);
            draft.host.resend_by(random, true);
            Bench::set_clock(9_002);
            draft.host.acks(1, vec![]);
        }
        _ => {}
    }
    Some(draft.host.steps)
}

/// A run as it is drawn.
struct Draft {
    host: Host,
    /// How far above s each accepted number is.
    accepted: BTreeSet<u32>,
    large: bool,
    events: usize,
}

impl Draft {
    fn new(random: &mut Random, index: usize) -> Self {
        // Our program sums the whole store after each submit, so many places are rare.
        let large = index == 7 || random.one_in(1_000);
        let places = match random.below(8) {
            _ if large => [192, random.from_to(100, 192)][random.below(2)],
            0 => random.from_to(9, 24),
            1 => 1,
            _ => random.from_to(2, 8),
        };
        let first = match random.below(8) {
            0 => LAST + 1 - random.below(4) as u32,
            1 => LAST - random.below(300) as u32,
            2 | 3 => 1,
            _ => random.word().clamp(1, LAST),
        };
        let s = random.word().min(LAST - 512);
        let clock = [0, 0, random.below(10_000), random.below(1 << 31)][random.below(4)] as u64;
        Bench::set_clock(clock);
        let host = Host::new([random.word(), random.word()], s, first, places, random.byte());
        let events = if large { random.from_to(40, 120) } else { random.from_to(3, 20) };
        Self { host, accepted: BTreeSet::new(), large, events }
    }

    fn run(mut self, random: &mut Random) -> Vec<Step> {
        for _ in 0..self.events {
            match random.below(16) {
                0..=4 => {
                    if self.submit(random) {
                        return self.host.steps;
                    }
                }
                5..=8 => self.acks(random),
                9..=10 => self.accept(random),
                11 => self.refused(random),
                12 if self.host.due() => self.host.resend(random),
                _ => self.host.poll(random),
            }
            if random.one_in(2) {
                self.wait(random);
            }
        }
        if random.one_in(100) {
            self.many_nacks();
        }
        self.host.steps
    }

    /// Time passes: a little, or to about when the timer is due, or to about when a packet expires.
    fn wait(&mut self, random: &mut Random) {
        let now = Bench::clock();
        let near = |random: &mut Random, time: u64| (time + random.below(3) as u64).saturating_sub(1);
        let oldest = self.host.rig.unacked().first().map_or(now, |(_, sent)| *sent);
        let rto = self.host.rig.timing().rto;
        let then = match random.below(8) {
            0 => near(random, oldest + rto),
            1 | 2 => near(random, self.host.rig.timer().unwrap_or(now)),
            3 => now + random.below(20_000) as u64,
            4 if random.one_in(8) => now + random.below(1 << 28) as u64,
            4 => now + random.below(100_000) as u64,
            _ => now + random.below(700) as u64,
        };
        Bench::set_clock(then.clamp(now, LATEST.max(now)));
    }

    /// The client writes, and the host polls. True if the run ends, since the Rust can do what ours cannot.
    fn submit(&mut self, random: &mut Random) -> bool {
        let length = match random.below(16) {
            _ if self.large => random.from_to(1, 65_535),
            0 => CHUNK * random.from_to(1, 5) + random.below(3) - 1,
            1 => random.from_to(1, 5 * CHUNK),
            _ => random.from_to(1, 60),
        };
        let bytes = random.bytes(length);
        if self.refusal(&bytes).is_some() && !random.one_in(8) {
            return false;
        }
        self.write(random, bytes)
    }

    /// Why ours refuses the client's bytes and the Rust does not.
    fn refusal(&self, bytes: &[u8]) -> Option<(u64, &'static str)> {
        let messages = self.host.client.iter().map(Vec::len).chain([bytes.len()]);
        let packets: usize = messages.map(|length| length.div_ceil(CHUNK)).sum();
        if u64::from(self.host.rig.next_number()) + packets as u64 > u64::from(LAST) + 1 {
            Some((20, NUMBERS))
        } else if packets > self.host.free() {
            Some((18, SLOTS))
        } else {
            None
        }
    }

    fn write(&mut self, random: &mut Random, bytes: Vec<u8>) -> bool {
        let call = Call::Submit { ids: self.host.ids, bytes: bytes.clone() };
        let waits = !self.host.rig.pending().is_empty();
        if let Some((number, name)) = self.refusal(&bytes) {
            let alone = !waits && self.host.client.is_empty();
            if alone {
                self.host.refused_alone(call, "submit", number, name);
                self.rust_goes_on(&bytes, name == NUMBERS);
            }
            return alone;
        }
        if waits && random.one_in(2) {
            self.host.refused(call, "submit", 21);
        }
        self.host.rig.submit(&bytes);
        self.host.client.push_back(bytes);
        self.host.poll(random);
        false
    }

    /// The Rust has no slots to run out of; a number too many leaves 32 bits, and this build stops there.
    fn rust_goes_on(&mut self, bytes: &[u8], stops: bool) {
        let next = self.host.rig.next_number();
        self.host.rig.submit(bytes);
        let hook = take_hook();
        set_hook(Box::new(|_| {}));
        let went = catch_unwind(AssertUnwindSafe(|| self.host.rig.poll()));
        set_hook(hook);
        assert_eq!(went.is_err(), stops, "the sum leaves 32 bits, or the packets are made");
        assert!(stops || self.host.rig.next_number() - next == bytes.len().div_ceil(CHUNK) as u32);
    }

    fn acks(&mut self, random: &mut Random) {
        let (next, in_flight) = (self.host.rig.next_number(), self.host.rig.unacked());
        let through = match (random.below(8), in_flight.len()) {
            (0, _) | (_, 0) => [0, next - 1, next, random.below(next as usize) as u32][random.below(4)],
            (1..=3, count) => in_flight[random.below(count)].0,
            (_, count) => in_flight[count - 1].0,
        };
        let often = random.from_to(1, 6);
        let mut nacks: Vec<u32> =
            in_flight.iter().map(|(number, _)| *number).filter(|_| random.one_in(often)).collect();
        if random.one_in(2) {
            nacks.clear();
        }
        if random.one_in(8) {
            let more = random.from_to(1, 255 - nacks.len());
            nacks.extend((0..more).map(|_| random.word()));
        }
        self.host.acks(through, nacks);
    }

    /// Some packets come in: the next, in a gap, or after one, which may be just long enough for the delay option.
    fn accept(&mut self, random: &mut Random) {
        for _ in 0..random.from_to(1, 4) {
            let highest = self.accepted.last().copied().unwrap_or(0);
            let missing = highest - self.accepted.len() as u32;
            let above = match random.below(8) {
                0 => highest + 1 + 255_u32.saturating_sub(missing) + random.below(3) as u32 - 1,
                1 | 2 => highest + 2 + random.below(4) as u32,
                3..=5 => random.from_to(1, highest as usize + 1) as u32,
                _ => highest + 1,
            };
            if above <= 512 && self.accepted.insert(above) {
                self.host.accept(above);
            }
        }
    }

    /// Calls that ours refuses and the Rust does not make, or ignores.
    fn refused(&mut self, random: &mut Random) {
        let (clock, next) = (Bench::clock(), self.host.rig.next_number());
        let in_flight = self.host.rig.unacked().len() as u32;
        match random.below(3) {
            0 if !self.host.due() => self.host.refused(Call::Resend { clock, path: 1 }, "resend", 25),
            1 if next < u32::MAX => {
                let through = next + 1 + random.below((u32::MAX - next) as usize) as u32;
                self.host.rig.handle_acks(through, &[]);
                self.host.refused(Call::Acks { through, nacks: vec![], clock }, "acks", 23);
            }
            _ => {
                let rank = in_flight.saturating_add([0, random.word()][random.below(2)]);
                self.host.no_such_rank(rank, Buffer::of(random.below(40), random.byte()));
            }
        }
    }

    /// No packet carries more than 255 NACKs; the Rust's function acts on any number.
    fn many_nacks(&mut self) {
        let (through, nacks) = (self.host.rig.next_number(), vec![0; 256]);
        let call = Call::Acks { through, nacks: nacks.clone(), clock: Bench::clock() };
        self.host.refused_alone(call, "acks", 8, NACKS);
        self.host.rig.handle_acks(through, &nacks);
        assert!(self.host.rig.unacked().is_empty(), "the Rust takes all of them out of flight");
    }
}
