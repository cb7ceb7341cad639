//! A receiver's states, and calls on them.
use super::Draft;
use crate::{
    calls::Call,
    common::Random,
    model::{
        receiver::{Receiver, RULES, UNUSABLE},
        TOP,
    },
};

/// A state that keeps every rule.
pub fn valid(random: &mut Random) -> Receiver {
    let slot = match random.below(80) {
        0 => [1_811, 1_812][random.below(2)],
        1 => random.from_to(5, 60) as u32,
        _ => random.from_to(1, 4) as u32,
    };
    let next = match random.below(8) {
        0 => 1,
        1 => TOP - random.below(3) as u32,
        2 => TOP - random.below(600) as u32,
        3 => random.from_to(1, 600) as u32,
        _ => random.word().max(1),
    };
    // As many numbers as may be from next to highest.
    let room = (TOP - next).min(512) as usize;
    let span = match random.below(32) {
        0 => room,
        1 => random.below(room + 1),
        2 | 3 => 0,
        // With the highest alone held, 254 to 257 are missing.
        4..=8 => random.from_to(255, 258).min(room),
        _ => random.from_to(1, 8).min(room),
    };
    let start = match random.below(4) {
        0 => next - 1,
        1 => (next - 1) - random.below(600).min(next as usize - 1) as u32,
        _ => random.word() % next,
    };
    let mut receiver = Receiver { slot, start, next, highest: (next - 1) + span as u32, marks: [0; 512] };
    let often = if (255..=258).contains(&span) && random.one_in(2) { 0 } else { random.below(5) };
    for above in 0..span {
        if above + 1 == span || random.below(4) < often {
            hold(&mut receiver, random, above);
        }
    }
    receiver
}

/// Holds the number that is so far above next.
fn hold(receiver: &mut Receiver, random: &mut Random, above: usize) {
    let length = [0, receiver.slot as usize, random.below(receiver.slot as usize + 1)][random.below(3)];
    receiver.marks[(receiver.next as usize + above) % 512] = length as u16 + 1;
}

/// A state that breaks this rule and no other.
pub fn broken(random: &mut Random, rule: &str) -> Receiver {
    loop {
        let mut receiver = valid(random);
        break_rule(&mut receiver, random, rule);
        if receiver.broken() == [rule] {
            return receiver;
        }
    }
}

fn break_rule(receiver: &mut Receiver, random: &mut Random, rule: &str) {
    let last_mark = |receiver: &Receiver| receiver.highest as usize % 512;
    match RULES.iter().position(|name| *name == rule) {
        Some(0) if random.one_in(2) => {
            receiver.start = receiver.next.saturating_add([0, 1, random.word()][random.below(3)]);
        }
        Some(0) => {
            *receiver = Receiver { next: 0, highest: random.below(512) as u32, ..UNUSABLE };
            receiver.marks[last_mark(receiver)] = 1;
        }
        Some(1) => {
            let below = [2, 3, 512, 513, random.word().max(2)][random.below(5)];
            *receiver = Receiver { highest: receiver.next.saturating_sub(below), marks: [0; 512], ..receiver.clone() };
        }
        Some(2) => {
            let above = [512, 513, 1024, 512 + random.word() / 2][random.below(4)];
            receiver.highest = receiver.next.saturating_add(above).min(TOP - 1);
        }
        Some(3) => receiver.marks[last_mark(receiver)] = 0,
        Some(4) => {
            receiver.next = TOP - random.below(512) as u32;
            receiver.start = random.word() % receiver.next;
            receiver.highest = TOP;
            receiver.marks = [0; 512];
            receiver.marks[last_mark(receiver)] = 1;
        }
        Some(5) => {
            let above = random.below(512);
            hold(receiver, random, above);
        }
        Some(6) => {
            let longer = [receiver.slot + 2, 65_535][random.below(2)];
            receiver.marks[last_mark(receiver)] = longer as u16;
        }
        _ => unreachable!("no such rule"),
    }
}

/// Any state at all: fields that have nothing to do with each other.
fn noise(random: &mut Random) -> Receiver {
    let [slot, start, next, highest] = [(); 4].map(|()| random.word());
    let mut receiver = Receiver { slot, start, next, highest, marks: [0; 512] };
    for _ in 0..random.below(8) {
        receiver.marks[random.below(512)] = random.word() as u16;
    }
    receiver
}

/// A slot size out of range, with every rule of 11 kept.
fn size_wrong(random: &mut Random) -> Receiver {
    let mut receiver = valid(random);
    receiver.slot = [0, 0, 1_813, 65_535, TOP][random.below(5)];
    for mark in &mut receiver.marks {
        *mark = (*mark).min(1 + receiver.slot.min(1_812) as u16);
    }
    receiver
}

pub fn any(random: &mut Random) -> Receiver {
    match random.below(16) {
        0 => noise(random),
        1 => size_wrong(random),
        2..=4 => {
            let rule = random.pick(&RULES);
            broken(random, rule)
        }
        _ => valid(random),
    }
}

impl Draft {
    pub fn receiver(&mut self) {
        match self.random.one_in(5) {
            true => self.start_receiver(),
            false => {
                let receiver = any(&mut self.random);
                let length = self.store_length(512 * u128::from(receiver.slot));
                self.ask(Call::SetReceiver(receiver));
                let store = self.store(length);
                self.ask(Call::SetReceiverStore(store));
            }
        }
        for _ in 0..self.random.from_to(1, 6) {
            match self.random.below(9) {
                0..=3 => self.accept(),
                4 | 5 => self.take(),
                6 => self.why(),
                _ => self.acknowledge(),
            }
        }
    }

    fn start_receiver(&mut self) {
        let random = &mut self.random;
        let s = match random.below(6) {
            0 => TOP - random.below(2) as u32,
            1 => 0,
            _ => random.word(),
        };
        let slot = match random.below(200) {
            0 => 1_812,
            1 => 1_813,
            2..=9 => 0,
            10..=19 => random.word(),
            _ => random.from_to(1, 4) as u32,
        };
        let length = self.store_length(512 * u128::from(slot));
        let store = self.store(length);
        self.ask(Call::Start { s, slot, store });
    }

    fn accept(&mut self) {
        let (random, receiver) = (&mut self.random, &self.world.receiver);
        let around = |random: &mut Random, number: u32| number.wrapping_add(random.below(3) as u32).wrapping_sub(1);
        let number = match random.below(10) {
            0 => around(random, receiver.next),
            1 => around(random, receiver.next.wrapping_add(511)),
            2 => random.word(),
            3 => TOP - random.below(2) as u32,
            4 | 5 => receiver.next.wrapping_add(random.below(8) as u32),
            _ => around(random, receiver.highest),
        };
        let slot = receiver.slot.min(1_900) as usize;
        let longest = self.random.pick(&[8, 8, 8, slot]);
        let length = self.around(slot.min(longest));
        let payload = self.random.bytes(length);
        self.ask(Call::Accept { number, payload });
    }

    fn take(&mut self) {
        let needed = self.world.receiver.held(self.world.receiver.next).unwrap_or(0);
        let output = self.output(needed);
        self.ask(Call::Take(output));
    }

    fn why(&mut self) {
        let (random, receiver) = (&mut self.random, &self.world.receiver);
        let around = |random: &mut Random, number: u32| number.wrapping_add(random.below(3) as u32).wrapping_sub(1);
        let number = match random.below(8) {
            0 => around(random, receiver.start),
            1 => around(random, receiver.next),
            2 => around(random, receiver.next.wrapping_add(511)),
            3 => TOP - random.below(2) as u32,
            4 => random.word(),
            5 => around(random, receiver.highest),
            _ => receiver.next.wrapping_add(random.below(8) as u32),
        };
        self.ask(Call::Why(number));
    }

    fn acknowledge(&mut self) {
        let receiver = &self.world.receiver;
        let needed = match receiver.broken().is_empty() {
            true => 22 + 4 * receiver.missing().len().min(255) + 2 * usize::from(receiver.missing().len() >= 255),
            false => 22,
        };
        let output = self.output(needed);
        let ids = [self.random.word(), self.random.word()];
        self.ask(Call::Acknowledge { ids, output });
    }
}
