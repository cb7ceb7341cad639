//! What every topic shares: the last number, seeded numbers, our program's answer lines, and the tally of a comparison.
use crate::calls::Buffer;
use std::{
    fmt::{Display, Write as _},
    io::{BufRead, Lines, StdinLock},
};

/// The last number that a packet may have.
pub const LAST: u32 = 4_294_967_294;

/// The checksum in which both sides speak of bytes: for each byte, sum × 1,000,003 + byte + 1, mod 4,294,967,291.
pub fn checksum(bytes: &[u8]) -> u64 {
    const MODULUS: u64 = 4_294_967_291;
    /// 1,000,003 to the powers 0 to 8. Eight bytes are summed at once, since stores are long; no sum leaves 64 bits.
    const POWERS: [u64; 9] = {
        let mut powers = [1; 9];
        let mut k = 1;
        while k < 9 {
            powers[k] = powers[k - 1] * 1_000_003 % MODULUS;
            k += 1;
        }
        powers
    };
    const { assert!(POWERS[8] < (1 << 32) - (1 << 11)) };
    let eights = bytes.chunks_exact(8);
    let rest = eights.remainder();
    let sum = eights.fold(0, |sum, eight| {
        let words: u64 = (0..8).map(|k| (u64::from(eight[k]) + 1) * POWERS[7 - k]).sum();
        (sum * POWERS[8] + words) % MODULUS
    });
    rest.iter().fold(sum, |sum, byte| (sum * POWERS[1] + u64::from(*byte) + 1) % MODULUS)
}

/// splitmix64. Each case draws from numbers of its own, made of the seed and the case's index, so that a case stays the
/// same whatever stands before it.
pub struct Random(u64);

impl Random {
    pub fn of(seed: u64, index: usize) -> Self {
        Self(Random(seed ^ (index as u64) << 20).next())
    }

    fn next(&mut self) -> u64 {
        self.0 = self.0.wrapping_add(0x9e37_79b9_7f4a_7c15);
        let mixed = (self.0 ^ self.0 >> 30).wrapping_mul(0xbf58_476d_1ce4_e5b9);
        let mixed = (mixed ^ mixed >> 27).wrapping_mul(0x94d0_49bb_1331_11eb);
        mixed ^ mixed >> 31
    }

    /// From 0 up to, not including, `end`.
    pub fn below(&mut self, end: usize) -> usize {
        (self.next() >> 16) as usize % end
    }
    pub fn from_to(&mut self, first: usize, last: usize) -> usize {
        first + self.below(last - first + 1)
    }
    pub fn one_in(&mut self, count: usize) -> bool {
        self.below(count) == 0
    }
    pub fn pick<T: Clone>(&mut self, of: &[T]) -> T {
        of[self.below(of.len())].clone()
    }
    pub fn byte(&mut self) -> u8 {
        self.next() as u8
    }
    pub fn bytes(&mut self, count: usize) -> Vec<u8> {
        (0..count).map(|_| self.byte()).collect()
    }
    /// A buffer of this length: mostly one byte throughout, sometimes with other bytes in front.
    pub fn buffer(&mut self, length: usize) -> Buffer {
        let front = if self.one_in(6) { self.below(length.min(40) + 1) } else { 0 };
        Buffer { length, fill: self.byte(), front: self.bytes(front) }
    }
    /// A number of 32 bits: at an end of the range one time in eight, small one time in four, else any.
    pub fn word(&mut self) -> u32 {
        match self.below(8) {
            0 => [0, 1, u32::MAX - 1, u32::MAX][self.below(4)],
            1 | 2 => self.next() as u32 >> 16,
            _ => self.next() as u32,
        }
    }
}

/// An answer line: a word, then decimal numbers.
#[derive(PartialEq)]
pub struct Answer {
    pub word: String,
    pub numbers: Vec<u64>,
}

impl Answer {
    pub fn new(word: &str, numbers: &[u64]) -> Self {
        Self { word: word.into(), numbers: numbers.into() }
    }

    fn parse(line: &str) -> Option<Self> {
        let mut words = line.split(' ');
        let word = words.next()?.into();
        let answer = Self { word, numbers: words.map(|word| word.parse().ok()).collect::<Option<_>>()? };
        // A number has no sign and no zero in front.
        (answer.to_string() == line).then_some(answer)
    }
}

impl Display for Answer {
    fn fmt(&self, f: &mut std::fmt::Formatter<'_>) -> std::fmt::Result {
        write!(f, "{}", self.word)?;
        self.numbers.iter().try_for_each(|number| write!(f, " {number}"))
    }
}

/// Our program's answers, from standard input.
pub struct Answers(Lines<StdinLock<'static>>);

impl Answers {
    pub fn of_stdin() -> Self {
        Self(std::io::stdin().lock().lines())
    }

    /// The next line. One that is no answer stands as its own word and so equals nothing that is expected.
    pub fn next(&mut self) -> Option<Answer> {
        let line = self.0.next()?.ok()?;
        Some(Answer::parse(&line).unwrap_or(Answer { word: format!("[{line}]"), numbers: vec![] }))
    }
}

/// What the comparison of one case came to.
pub enum Verdict {
    Equal,
    /// A difference of docs/DIFFERENCES.md, by its name there: ours answered exactly as it says; NOTES.md says where the Rust's
    /// half is checked too.
    Listed(&'static str),
    Unlisted(String),
}

impl Verdict {
    /// Of an answer that must be `expected`, be it by equality of the two sides or by a listed difference.
    pub fn of(ours: &Answer, expected: &Answer, listed: Option<&'static str>) -> Self {
        match (ours == expected, listed) {
            (true, None) => Self::Equal,
            (true, Some(name)) => Self::Listed(name),
            (false, _) => Self::Unlisted(format!("expected `{expected}`, ours `{ours}`")),
        }
    }
}

/// A case of a topic: calls for our program, and how its answers compare with the Rust's.
pub trait Case: Sized {
    /// The differences that are listed for this topic.
    const LISTED: &'static [&'static str];

    /// The case of this index: first those at the limits, which do not depend on the seed, then random ones.
    fn make(seed: u64, index: usize) -> Self;
    fn script(&self) -> Vec<u8>;
    /// How many answer lines it has.
    fn answers(&self) -> usize {
        1
    }
    fn compare(&self, ours: &[Answer]) -> Vec<Verdict>;
}

/// Counts verdicts. Each listed difference must occur at least once, so that the list cannot outlive its cause.
pub struct Tally {
    title: String,
    listed: Vec<(&'static str, usize)>,
    compared: usize,
    equal: usize,
    unlisted: usize,
}

impl Tally {
    pub fn new(title: String, listed: &[&'static str]) -> Self {
        Self { title, listed: listed.iter().map(|name| (*name, 0)).collect(), compared: 0, equal: 0, unlisted: 0 }
    }

    /// Notes a verdict; the first ten unlisted differences are printed with their input.
    pub fn note(&mut self, index: usize, verdict: Verdict, input: impl FnOnce() -> Vec<u8>) {
        self.compared += 1;
        match verdict {
            Verdict::Equal => self.equal += 1,
            Verdict::Listed(name) => match self.listed.iter_mut().find(|(listed, _)| *listed == name) {
                Some((_, count)) => *count += 1,
                None => unreachable!("{name} is on no list"),
            },
            Verdict::Unlisted(why) => {
                self.unlisted += 1;
                if self.unlisted <= 10 {
                    println!("{}: case {index}: {why}\n  input {}", self.title, hex(&input()));
                }
            }
        }
    }

    /// Prints the summary; true if the comparison passes.
    pub fn finish(self, answers: &mut Answers, missing: usize) -> bool {
        let mut line = format!("{}: {} compared, {} equal", self.title, self.compared, self.equal);
        for (name, count) in &self.listed {
            write!(line, ", {count} {name}").unwrap();
        }
        println!("{line}, {} unlisted", self.unlisted);
        let never: Vec<_> = self.listed.iter().filter(|(_, count)| *count == 0).map(|(name, _)| *name).collect();
        if !never.is_empty() {
            println!("{}: never seen: {}", self.title, never.join(", "));
        }
        if missing > 0 {
            println!("{}: answers to {missing} cases did not come", self.title);
        }
        let more = answers.next();
        if let Some(answer) = &more {
            println!("{}: an answer too many: {answer}", self.title);
        }
        self.unlisted == 0 && never.is_empty() && missing == 0 && more.is_none()
    }
}

/// In hexadecimal, a long input cut: the seed and the index make it again.
fn hex(bytes: &[u8]) -> String {
    let mut text: String = bytes.iter().take(512).map(|byte| format!("{byte:02x}")).collect();
    if bytes.len() > 512 {
        write!(text, ".. ({} bytes in all)", bytes.len()).unwrap();
    }
    text
}
