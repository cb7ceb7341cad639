//! `Rtt::calculate_rtt`, `Rto::calculate_rto`, and the window in `handle_acks` and `resend`, in whole milliseconds below 2^32.
use crate::{
    active::{sample, Rig, Timing},
    calls::Call,
    common::{self, Answer, Random, Verdict},
    model::timer as model,
    runtime::Bench,
};

pub const LOW: &str = "RTO held to 1,000";
pub const HIGH: &str = "RTO held to 60,000";
pub const FIRST: &str = "first RTO";
pub const ROUNDED: &str = "deviation rounded before it is multiplied";
pub const DEVIATION: &str = "deviation against the time before its update";
pub const RESENT: &str = "resent packets not timed";

/// RTT and deviation before a sample; none before the first.
pub type Before = Option<(u32, u32)>;

pub struct Case(Call);

impl common::Case for Case {
    const LISTED: &'static [&'static str] = &[LOW, HIGH, FIRST, ROUNDED, DEVIATION];

    fn make(seed: u64, index: usize) -> Self {
        // Every window first.
        Self(match index {
            0..=127 => Call::Grown(index as u32 + 1),
            128..=255 => Call::Fallen(index as u32 - 127),
            _ => {
                let smallest = SMALLEST.get(index - 256).copied();
                let (before, sample) = smallest.unwrap_or_else(|| any(&mut Random::of(seed, index)));
                Call::Sample { before, sample }
            }
        })
    }

    fn script(&self) -> Vec<u8> {
        self.0.script()
    }

    fn compare(&self, ours: &[Answer]) -> Vec<Verdict> {
        let (expected, listed) = match self.0 {
            Call::Sample { before, sample } => sampled(before, sample),
            Call::Grown(window) => (Answer::new("window", &[grown(window)]), None),
            Call::Fallen(window) => (Answer::new("window", &[fallen(window)]), None),
            _ => unreachable!("no call of a timer"),
        };
        vec![Verdict::of(&ours[0], &expected, listed)]
    }
}

/// The smallest input of each listed difference, in the order of `LISTED`: a first sample where one can show it.
const SMALLEST: [(Before, u32); 5] =
    [(None, 0), (None, 30_001), (None, 334), (Some((0, 334)), 0), (Some((1, 1)), 0)];

/// Half are drawn until the RTO lies strictly between its bounds, where its formula is compared; the others are of every size.
fn any(random: &mut Random) -> (Before, u32) {
    if random.one_in(2) {
        return drawn(random, any_size);
    }
    loop {
        let (before, taken) = drawn(random, |random| random.below(60_000) as u32 >> random.below(8));
        let rto = model::rto(model::sampled(before, taken));
        if 1_000 < rto && rto < 60_000 {
            return (before, taken);
        }
    }
}

/// Samples near the RTT are among them.
fn drawn(random: &mut Random, time: impl Fn(&mut Random) -> u32) -> (Before, u32) {
    let (rtt, deviation) = (time(random), time(random));
    let sample = match random.below(4) {
        0 => rtt.saturating_add(random.below(20) as u32).saturating_sub(10),
        _ => time(random),
    };
    ((!random.one_in(8)).then_some((rtt, deviation)), sample)
}

fn any_size(random: &mut Random) -> u32 {
    match random.below(8) {
        0 => random.word(),
        1..=3 => random.word() >> random.below(32),
        _ => random.below(20_000) as u32,
    }
}

/// The RTT is the Rust's, the deviation and the RTO are mended.
fn sampled(before: Before, taken: u32) -> (Answer, Option<&'static str>) {
    let rust = unmended(before, taken);
    let ours = mended(before, taken, &rust);
    (Answer::new("sample", &[ours.rtt, ours.deviation, ours.rto]), reason(&ours, &rust, before.is_none()))
}

/// After a sample: the Rust's RTT, the deviation that RFC 6298's formula makes of the Rust's RTT and deviation before it, and document
/// 01's RTO over both. A first deviation is the Rust's own.
pub fn mended(before: Before, taken: u32, rust: &Timing) -> Timing {
    let deviation = before.map_or(rust.deviation, |(rtt, deviation)| weighed(deviation, rtt.into(), taken));
    Timing { rtt: rust.rtt, deviation, rto: (rust.rtt + 4 * deviation).clamp(1_000, 60_000) }
}

/// A quarter of how far the sample lies from a time, and three of the deviation before it.
fn weighed(deviation: u32, rtt: u64, taken: u32) -> u64 {
    (3 * u64::from(deviation) + rtt.abs_diff(taken.into())) / 4
}

/// What the Rust's own order makes of a sample: the deviation is measured against the RTT after its update.
pub fn unmended(before: Before, taken: u32) -> Timing {
    let rust = sample(before, taken);
    if let Some((_, deviation)) = before {
        assert_eq!(rust.deviation, weighed(deviation, rust.rtt, taken));
    }
    rust
}

/// Why the Rust has another deviation or RTO than ours, where it has.
pub fn reason(ours: &Timing, rust: &Timing, first: bool) -> Option<&'static str> {
    assert_eq!(ours.rtt, rust.rtt);
    if ours.deviation != rust.deviation {
        assert!(!first, "a first deviation is the same");
        return Some(DEVIATION);
    }
    let held = |rto: u64| rto.clamp(1_000, 60_000);
    let listed = match rust.rto {
        rto if rto == ours.rto => None,
        rto if held(rto) == ours.rto => Some(if rto < 1_000 { LOW } else { HIGH }),
        _ if first => Some(FIRST),
        _ => Some(ROUNDED),
    };
    if listed == Some(FIRST) {
        assert_eq!(rust.rto, 2 * rust.rtt);
    }
    if listed == Some(ROUNDED) {
        assert!((1..4).contains(&(rust.rto - rust.rtt - 4 * rust.deviation)), "less than one whole deviation");
    }
    listed
}

/// A stream with this window and one packet in flight.
fn rig(window: u32) -> Rig {
    Bench::set_clock(0);
    let mut rig = Rig::new([1, 2], 0, 1, 1);
    rig.submit(&[0]);
    rig.poll();
    rig.set_window(window as usize);
    rig
}

fn grown(window: u32) -> u64 {
    let mut rig = rig(window);
    rig.handle_acks(1, &[]);
    rig.window() as u64
}

fn fallen(window: u32) -> u64 {
    let mut rig = rig(window);
    Bench::set_clock(9_001);
    rig.resend();
    rig.window() as u64
}
