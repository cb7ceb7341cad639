//! What a run met: how often each call gave each answer, which refusals applied together, and which rules were broken alone. It
//! looks at the model's registers and lines from outside.
mod shapes;
mod wrong;

use crate::{
    calls::Call,
    model::{
        answer::{Line, World},
        receiver, sender, sending, serial, timer,
    },
};
use shapes::SHAPES;
use std::{cell::RefCell, collections::BTreeMap};

/// Every number that a call can give, in document 01's order. Of `destination` and `valid` these are the answers.
const CALLS: [(&str, &[u64]); 17] = [
    ("read", &[2, 1, 3, 4, 5, 6, 0]),
    ("destination", &[0, 40, 64, 96, 132]),
    ("write", &[8, 5, 6, 9, 4, 9, 2, 7, 0]),
    ("start", &[10, 12, 0]),
    ("accept", &[11, 10, 12, 13, 14, 15, 16, 0]),
    ("take", &[11, 10, 17, 7, 0]),
    ("ack", &[11, 10, 7, 0]),
    ("why", &[11, 10, 0]),
    ("begin", &[10, 20, 0]),
    ("valid", &[0, 1]),
    ("submit", &[11, 10, 21, 19, 20, 18, 0]),
    ("send", &[11, 10, 24, 17, 22, 7, 0]),
    ("acks", &[11, 10, 24, 8, 23, 0]),
    ("resend", &[11, 10, 24, 25, 0]),
    ("fetch", &[11, 10, 17, 7, 0]),
    ("feed", &[11, 10, 30, 0]),
    ("smooth", &[31, 0]),
];

/// Two refusals that cannot apply together, or of which the model does not ask the second where the first applies.
const APART: [(&str, u64, u64); 11] = [
    ("write", 5, 6),
    ("write", 5, 4),
    ("accept", 12, 13),
    ("accept", 12, 15),
    ("accept", 13, 14),
    ("accept", 13, 15),
    ("accept", 14, 15),
    ("take", 17, 7),
    ("ack", 11, 7),
    ("send", 17, 7),
    ("fetch", 17, 7),
];

/// What can be wrong, and the refusal that it gives: with a receiver, a sender or its clock, which state of a submit, a line's reader or the length
/// that comes to it.
const WRONG: [(&str, u64, &[&str]); 11] = [
    ("receiver", 11, &receiver::RULES),
    ("receiver", 10, &receiver::SIZES),
    ("sender", 11, &sender::RULES),
    ("sender", 10, &sender::SIZES),
    ("sender", 24, &sender::CLOCKS),
    ("submit", 11, &sending::STATES),
    ("submit", 10, &sending::SIZES),
    ("line", 11, &serial::RULES),
    ("line", 10, &serial::SIZES),
    ("line", 30, &serial::LENGTHS),
    ("smooth", 31, &timer::TIMES),
];

/// Every earlier and later refusal of a call that can apply together. Reading goes step by step and is left out.
fn pairs(call: &'static str, numbers: &'static [u64]) -> Vec<(u64, u64)> {
    let refusals = if ["read", "destination", "valid"].contains(&call) { &[] } else { &numbers[..numbers.len() - 1] };
    let later = |i: usize| refusals[i + 1..].iter().map(move |later| (refusals[i], *later));
    let mut pairs: Vec<_> =
        (0..refusals.len()).flat_map(later).filter(|(a, b)| !APART.contains(&(call, *a, *b))).collect();
    pairs.sort();
    pairs.dedup();
    pairs
}

#[derive(Default)]
struct Seen {
    answers: BTreeMap<(&'static str, u64), usize>,
    together: BTreeMap<(&'static str, u64, u64), usize>,
    shapes: BTreeMap<&'static str, usize>,
    wrong: BTreeMap<(&'static str, &'static str), usize>,
}

thread_local!(static SEEN: RefCell<Seen> = RefCell::default());

pub fn forget() {
    SEEN.take();
}

/// The model's line for a call, which is counted.
pub fn answer(world: &mut World, call: &Call) -> String {
    let (wrong, shapes) = (wrong::of(world, call), shapes::of(world, call));
    let line = world.answer(call);
    SEEN.with_borrow_mut(|seen| {
        seen.line(&line);
        if let Some(wrong) = wrong {
            *seen.wrong.entry(wrong).or_default() += 1;
        }
        if line.text.split(' ').nth(1) == Some("0") {
            shapes.into_iter().for_each(|shape| *seen.shapes.entry(shape).or_default() += 1);
        }
    });
    line.text
}

impl Seen {
    /// The number behind a call's word; and of a refused call the refusals that applied at once, of which the first was given.
    fn line(&mut self, line: &Line) {
        let mut words = line.text.split(' ');
        let (word, number) = (words.next(), words.next().and_then(|number| number.parse().ok()));
        if let (Some((call, _)), Some(number)) = (CALLS.iter().find(|(call, _)| word == Some(*call)), number) {
            *self.answers.entry((call, number)).or_default() += 1;
        }
        let Some(refusal) = line.refusal else { return };
        for later in (0..u64::BITS.into()).filter(|later| refusal.also >> later & 1 == 1) {
            *self.together.entry((refusal.call, refusal.number, later)).or_default() += 1;
        }
    }
}

/// Prints the table; true if nothing in it is zero.
pub fn table() -> bool {
    SEEN.with_borrow(|seen| {
        let mut zeros = 0;
        let mut counted = |count: Option<&usize>| {
            zeros += usize::from(count.is_none());
            count.copied().unwrap_or(0)
        };
        println!("how often each call gave each number (0: not refused; of `destination` and `valid`: the answer)");
        for (call, numbers) in CALLS {
            let mut told = |number: &u64| format!("{number}: {}", counted(seen.answers.get(&(call, *number))));
            // Writing has two places for 9.
            let numbers = numbers.iter().enumerate().filter(|(i, number)| !numbers[..*i].contains(number));
            println!("  {call:<12}{}", numbers.map(|(_, number)| told(number)).collect::<Vec<_>>().join("   "));
        }
        println!("how often an earlier refusal was given and a later one applied too");
        for (call, numbers) in CALLS {
            let told = |(a, b)| format!("{a}, {b}: {}", counted(seen.together.get(&(call, a, b))));
            let pairs: Vec<_> = pairs(call, numbers).into_iter().map(told).collect();
            pairs.chunks(9).for_each(|some| println!("  {call:<12}{}", some.join("   ")));
        }
        println!("how often a call that was not refused was of this kind");
        for name in SHAPES {
            println!("  {name}: {}", counted(seen.shapes.get(name)));
        }
        println!("how often a call met this rule, size, clock or state wrong, and no other of its kind");
        for (state, refusal, rules) in WRONG {
            for rule in rules {
                println!("  {state} {refusal}: {rule}: {}", counted(seen.wrong.get(&(state, *rule))));
            }
        }
        if zeros > 0 {
            println!("never seen: {zeros} of these");
        }
        zeros == 0
    })
}
