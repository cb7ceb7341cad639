//! The smoothed time by both of our engines, whole numbers and f64, and by the Rust's own expression in `Rtt::calculate_rtt`: one result for every pair of times.
use crate::{
    active::sample,
    calls::Call,
    common::{self, Answer, Random, Verdict},
    model::TOP,
};

/// The limits and their neighbours, among them times that are refused.
const LIMITS: [u64; 8] = [0, 1, 2, TOP as u64 - 1, TOP as u64, TOP as u64 + 1, TOP as u64 + 2, u64::MAX];
/// Document 02's own pairs.
const WORKED: [(u64, u64, u64); 2] = [(800, 1_600, 900), (1, 0, 0)];
const FIXED: usize = LIMITS.len() * LIMITS.len() + WORKED.len();

pub struct Case {
    old: u64,
    sample: u64,
}

impl Case {
    /// Both times, where neither is refused.
    fn times(&self) -> Option<(u32, u32)> {
        Some((self.old.try_into().ok()?, self.sample.try_into().ok()?))
    }
}

impl common::Case for Case {
    const LISTED: &'static [&'static str] = &[];

    fn make(seed: u64, index: usize) -> Self {
        let (old, sample) = match index {
            _ if index < WORKED.len() => (WORKED[index].0, WORKED[index].1),
            _ if index < FIXED => {
                let index = index - WORKED.len();
                (LIMITS[index / LIMITS.len()], LIMITS[index % LIMITS.len()])
            }
            _ => {
                let mut random = Random::of(seed, index);
                let mut time = || u64::from(random.word()) >> random.pick(&[0, 0, 0, 8, 16, 20]);
                (time(), time())
            }
        };
        Self { old, sample }
    }

    fn script(&self) -> Vec<u8> {
        let whole = self.times().map(|(old, sample)| Call::Sample { before: Some((old, 0)), sample }.script());
        let float = Call::Smooth { old: self.old, sample: self.sample }.script();
        [whole.unwrap_or_default(), float].concat()
    }

    fn answers(&self) -> usize {
        1 + usize::from(self.times().is_some())
    }

    fn compare(&self, ours: &[Answer]) -> Vec<Verdict> {
        let Some((old, taken)) = self.times() else {
            return vec![Verdict::of(&ours[0], &Answer::new("smooth", &[31, 0]), None)];
        };
        let rust = sample(Some((old, 0)), taken).rtt;
        if let Some((.., worked)) = WORKED.iter().find(|(old, sample, _)| (*old, *sample) == (self.old, self.sample)) {
            assert_eq!(rust, *worked);
        }
        let whole = Answer::new("sample", &[rust, ours[0].numbers[1], ours[0].numbers[2]]);
        vec![Verdict::of(&ours[0], &whole, None), Verdict::of(&ours[1], &Answer::new("smooth", &[0, rust]), None)]
    }
}

/// The calls of one engine alone, for `bench/smooth`: so many random pairs of times.
pub fn calls(engine: &str, count: usize) -> Vec<u8> {
    let call = |index: usize| {
        let Case { old, sample } = <Case as common::Case>::make(1, FIXED + index);
        match engine {
            "whole" => Call::Sample { before: Some((old as u32, 0)), sample: sample as u32 },
            "float" => Call::Smooth { old, sample },
            _ => Call::Grown(old as u32),
        }
    };
    (0..count).flat_map(|index| call(index).script()).collect()
}
