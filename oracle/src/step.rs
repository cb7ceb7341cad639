//! A call of ours beside a step of the Rust's stream, and what it must answer.
use crate::{
    calls::Call,
    common::{Answer, Verdict},
};

/// The answer has the numbers after its word, then the state, then the sum of a store or an output.
pub struct Step {
    pub call: Call,
    pub word: &'static str,
    pub head: Vec<u64>,
    /// None in the middle of a `poll` of the Rust.
    pub state: Option<Vec<u64>>,
    pub sum: Option<u64>,
    pub listed: Option<&'static str>,
}

impl Step {
    pub fn verdict(&self, ours: &Answer) -> Verdict {
        let numbers = &ours.numbers[..];
        let state = self.state.as_deref().unwrap_or(&[]);
        let whole = [&self.head, state, self.sum.as_slice()].concat();
        let same = ours.word == self.word
            && match self.state {
                Some(_) => numbers == whole,
                None => numbers.starts_with(&self.head) && self.sum.map_or(true, |sum| numbers.last() == Some(&sum)),
            };
        match (same, self.listed) {
            (true, None) => Verdict::Equal,
            (true, Some(name)) => Verdict::Listed(name),
            (false, _) => Verdict::Unlisted(format!("expected `{}`, ours `{ours}`", Answer::new(self.word, &whole))),
        }
    }
}
