//! Document 01, "Receiver".
use super::{refuse, Refusal, TOP};

#[derive(Clone)]
pub struct Receiver {
    /// S.
    pub slot: u32,
    /// The number that the start came after (request [6]).
    pub start: u32,
    /// Next to take.
    pub next: u32,
    pub highest: u32,
    /// Of the slot that starts at i × S: 0 where nothing is held, else the payload's length and one (D14).
    pub marks: [u16; 512],
}

/// What the registers hold at first, and what a refused start leaves (D9).
pub const UNUSABLE: Receiver = Receiver { slot: 0, start: 0, next: 0, highest: 0, marks: [0; 512] };

/// The state rules, in document 01's order, and request [6]'s, without which next could not be broken alone. That a length is 0 where nothing is held cannot be broken, by how a mark is written.
pub const RULES: [&str; 7] = [
    "next at least 1, and the start below it",
    "highest at least next - 1",
    "highest at most next + 511",
    "highest held unless it is next - 1",
    "highest at most 4,294,967,294",
    "nothing held outside next to highest",
    "lengths at most S",
];

/// What 10 is about.
pub const SIZES: [&str; 2] = ["slot size 1 to 1,812", "store exactly 512 x S bytes"];

impl Receiver {
    /// The mark of a number from next to next + 511.
    fn mark(&self, number: i64) -> u16 {
        self.marks[number.rem_euclid(512) as usize]
    }

    /// Which rules do not hold.
    pub fn broken(&self) -> Vec<&'static str> {
        let (next, highest) = (i64::from(self.next), i64::from(self.highest));
        let span = next..=next + 511;
        let held: Vec<i64> = span.clone().filter(|number| self.mark(*number) != 0).collect();
        let holds = [
            next >= 1 && i64::from(self.start) < next,
            highest >= next - 1,
            highest <= next + 511,
            // A highest outside the span is next - 1, or breaks one of the two rules before.
            !span.contains(&highest) || held.contains(&highest),
            highest <= 4_294_967_294,
            held.iter().all(|number| *number <= highest),
            held.iter().all(|number| u32::from(self.mark(*number)) - 1 <= self.slot),
        ];
        RULES.into_iter().zip(holds).filter(|(_, holds)| !holds).map(|(rule, _)| rule).collect()
    }

    /// Which sizes are wrong; a call that is lent no store looks at S alone.
    pub fn wrong(&self, store: Option<&[u8]>) -> Vec<&'static str> {
        let right = [
            (1..=1_812).contains(&self.slot),
            store.map_or(true, |store| store.len() as u64 == 512 * u64::from(self.slot)),
        ];
        SIZES.into_iter().zip(right).filter(|(_, right)| !right).map(|(size, _)| size).collect()
    }

    /// The payload's length, where this number is held.
    pub fn held(&self, number: u32) -> Option<usize> {
        let span = i64::from(self.next)..=i64::from(self.next) + 511;
        let mark = if span.contains(&number.into()) { self.mark(number.into()) } else { 0 };
        usize::from(mark).checked_sub(1)
    }

    /// Ascending.
    pub fn missing(&self) -> Vec<u32> {
        (self.next..=self.highest).filter(|number| self.held(*number).is_none()).collect()
    }

    /// Where the slot of this number starts.
    fn place(&self, number: u32) -> usize {
        number as usize % 512 * self.slot as usize
    }
}

pub fn start(s: u32, slot: u32, store: &[u8]) -> Result<Receiver, Refusal> {
    let fresh = Receiver { slot, start: s, next: s.wrapping_add(1), highest: s, marks: [0; 512] };
    refuse("start", &[(10, !fresh.wrong(Some(store)).is_empty()), (12, s == TOP)])?;
    Ok(fresh)
}

pub fn accept(receiver: &mut Receiver, number: u32, payload: &[u8], store: &mut [u8]) -> Result<(), Refusal> {
    let ahead = i64::from(number) - i64::from(receiver.next);
    refuse(
        "accept",
        &[
            (11, !receiver.broken().is_empty()),
            (10, !receiver.wrong(Some(store)).is_empty()),
            (12, number == TOP),
            (13, ahead < 0),
            (14, ahead >= 512),
            (15, receiver.held(number).is_some()),
            (16, payload.len() > receiver.slot as usize),
        ],
    )?;
    let place = receiver.place(number);
    store[place..place + payload.len()].copy_from_slice(payload);
    receiver.marks[number as usize % 512] = payload.len() as u16 + 1;
    receiver.highest = receiver.highest.max(number);
    Ok(())
}

/// The length of the payload taken.
pub fn take(receiver: &mut Receiver, store: &[u8], output: &mut [u8]) -> Result<usize, Refusal> {
    let held = receiver.held(receiver.next);
    refuse(
        "take",
        &[
            (11, !receiver.broken().is_empty()),
            (10, !receiver.wrong(Some(store)).is_empty()),
            (17, held.is_none()),
            (7, held.is_some_and(|length| length > output.len())),
        ],
    )?;
    let (place, length) = (receiver.place(receiver.next), held.unwrap_or(0));
    output[..length].copy_from_slice(&store[place..place + length]);
    receiver.marks[receiver.next as usize % 512] = 0;
    receiver.next += 1;
    Ok(length)
}
