//! Calls on a sender.
use super::{receivers, senders, Draft};
use crate::{
    calls::Call,
    common::Random,
    model::{
        sender::{FREE, IN_FLIGHT, LATEST, WAITING},
        timer::rto,
        TOP,
    },
};

impl Draft {
    pub fn sender(&mut self) {
        match self.random.one_in(8) {
            true => self.start_sender(),
            false => {
                let sender = senders::any(&mut self.random);
                self.set_sender(&sender);
                let length = self.store_length(u128::from(sender.count) * (u128::from(sender.chunk) + 1_044));
                let store = self.store(length);
                self.ask(Call::SetSenderStore(store));
            }
        }
        let submits = self.random.one_in(2);
        if submits {
            let receiver = match self.random.below(3) {
                0 => receivers::any(&mut self.random),
                _ => receivers::valid(&mut self.random),
            };
            self.ask(Call::SetReceiver(receiver));
        }
        for _ in 0..self.random.from_to(1, 7) {
            match self.random.below(12) {
                0..=2 if submits => self.submit(),
                0 => self.ask(Call::Valid),
                1..=5 if self.waits() || self.random.one_in(6) => self.send(),
                0..=3 | 6 | 7 => self.acks(),
                4 | 5 | 8 | 9 => self.resend(),
                _ => self.fetch(),
            }
        }
    }

    fn waits(&self) -> bool {
        !self.world.sender.marked(WAITING).is_empty()
    }

    fn start_sender(&mut self) {
        let random = &mut self.random;
        let first = match random.below(6) {
            0 => 0,
            1 => TOP - random.below(3) as u32,
            _ => random.word().max(1),
        };
        let chunk = match random.below(40) {
            0 | 1 => random.pick(&[0, 0, 1_812, 1_813]),
            2 => random.word(),
            _ => random.from_to(1, 4) as u32,
        };
        let count = match random.below(40) {
            0 | 1 => random.pick(&[0, 0, 192, 193]),
            2 => random.word(),
            _ => random.from_to(1, 6) as u32,
        };
        let length = self.store_length(u128::from(count) * (u128::from(chunk) + 1_044));
        let store = self.store(length);
        self.ask(Call::Begin { first, chunk, count, store });
    }

    /// As many bytes as fit the free places, or about so many, or a length at the ends.
    fn submit(&mut self) {
        // Submit while packets wait is refused: as often as not one is sent first.
        if self.waits() && self.random.one_in(2) {
            return self.send();
        }
        let (random, sender) = (&mut self.random, &self.world.sender);
        let free = sender.marked(FREE).into_iter().filter(|i| *i < sender.count as usize).count();
        let chunk = sender.chunk.min(70_000) as usize;
        let length = match random.below(40) {
            0 => 65_535 + random.below(2),
            1 => random.from_to(65_537, 70_000),
            2 | 3 => 0,
            4..=9 => (chunk * free + random.below(3)).saturating_sub(1),
            _ => random.from_to(1, (chunk * free).clamp(1, 2_000)),
        };
        let bytes = random.bytes(length.min(70_000));
        let ids = [random.word(), random.word()];
        self.ask(Call::Submit { ids, bytes });
    }

    /// A clock from the last one on: about when the timer is due or a packet expires, and at the ends.
    fn clock(&mut self) -> u64 {
        let (random, sender) = (&mut self.random, &self.world.sender);
        let around = |random: &mut Random, clock: u64| clock.saturating_add(random.below(3) as u64).saturating_sub(1);
        let oldest = sender.marked(IN_FLIGHT).first().map_or(0, |i| sender.places[*i].sent);
        let expired = oldest.saturating_add(rto(sender.timing) + 1);
        match random.below(24) {
            0 => random.below(sender.clock.min(LATEST) as usize + 1) as u64,
            1 => around(random, sender.clock),
            2 => around(random, LATEST),
            3 => [u64::MAX, u64::from(random.word()) << 32][random.below(2)],
            4..=6 => around(random, sender.timer.unwrap_or(0)),
            7..=11 => around(random, expired).max(sender.timer.unwrap_or(0)).max(sender.clock),
            12 => sender.clock.saturating_add(u64::from(random.word())),
            13..=15 => sender.clock,
            _ => sender.clock.saturating_add(random.below(2_000) as u64),
        }
    }

    fn send(&mut self) {
        let lowest = self.world.sender.marked(WAITING).first().copied();
        let output = self.output(lowest.map_or(22, |i| self.world.sender.places[i].length.min(70_000) as usize));
        let clock = self.clock();
        self.ask(Call::Send { clock, output });
    }

    /// Ack-through at a number in flight, between two, or around next; NACKs of some, of all, and of others.
    fn acks(&mut self) {
        let clock = self.clock();
        let (random, sender) = (&mut self.random, &self.world.sender);
        let numbers: Vec<u32> = sender.marked(IN_FLIGHT).iter().map(|i| sender.places[*i].number).collect();
        let through = match random.below(8) {
            0 => random.word(),
            1 => sender.next.wrapping_add(random.below(3) as u32).wrapping_sub(1),
            2 if !numbers.is_empty() => random.pick(&numbers).wrapping_sub(1),
            3 | 4 if !numbers.is_empty() => random.pick(&numbers),
            _ => numbers.last().copied().unwrap_or(0),
        };
        let often = random.below(4);
        let mut nacks: Vec<u32> = numbers.into_iter().filter(|_| random.below(8) < often).collect();
        if random.one_in(8) {
            let more = [random.below(8), 255 - nacks.len(), 256 - nacks.len(), 300 - nacks.len()][random.below(4)];
            nacks.extend((0..more).map(|_| random.word()));
        }
        arrange(random, &mut nacks);
        self.ask(Call::Acks { through, nacks, clock });
    }

    fn resend(&mut self) {
        let clock = self.clock();
        let path = self.random.pick(&[0, 1, 1, 1, 255]);
        self.ask(Call::Resend { clock, path });
    }

    fn fetch(&mut self) {
        let in_flight = self.world.sender.marked(IN_FLIGHT);
        let rank = match self.random.below(8) {
            0 => self.random.word(),
            1 => in_flight.len() as u32,
            2 => in_flight.len().saturating_sub(1) as u32,
            _ => self.random.below(in_flight.len() + 1) as u32,
        };
        let place = in_flight.get(rank as usize).map_or(22, |i| self.world.sender.places[*i].length.min(70_000));
        let output = self.output(place as usize);
        self.ask(Call::Fetch { rank, output });
    }
}

/// Honest peers send NACKs ascending; here they come so, descending, with repeats, and in no order.
fn arrange(random: &mut Random, nacks: &mut Vec<u32>) {
    nacks.sort();
    match random.below(4) {
        0 => {}
        1 => nacks.reverse(),
        2 if !nacks.is_empty() && nacks.len() < 300 => {
            let again = random.below(nacks.len());
            nacks.insert(again, nacks[again]);
        }
        _ => (1..nacks.len()).for_each(|i| nacks.swap(i, random.below(i + 1))),
    }
}
