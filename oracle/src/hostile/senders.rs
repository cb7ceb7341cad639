//! A sender's states.
use super::Draft;
use crate::{
    calls::{Call, SenderRecord},
    common::Random,
    model::{
        sender::{Place, Sender, FREE, IN_FLIGHT, LATEST, RULES, UNUSABLE, WAITING},
        timer::rto,
        TOP,
    },
};

/// A state that keeps every rule.
pub fn valid(random: &mut Random) -> Sender {
    let chunk = match random.below(40) {
        0 => [1_811, 1_812][random.below(2)],
        1 => random.from_to(5, 300) as u32,
        _ => random.from_to(1, 4) as u32,
    };
    let count = match random.below(60) {
        0 => 192,
        1 => random.from_to(100, 192),
        _ => random.from_to(1, 6),
    };
    let mut sender = Sender { chunk, count: count as u32, window: window(random), clock: clock(random), ..UNUSABLE };
    sender.timing = random.one_in(2).then_some((random.word() >> 18, random.word() >> 20));
    sender.timer = random.one_in(2).then(|| match random.below(4) {
        0 => random.below(sender.clock as usize + 1) as u64,
        1 => sender.clock,
        _ => sender.clock + [60_000, 1, random.below(60_001) as u64][random.below(3)],
    });
    let in_flight = if random.one_in(4) { count.min(128) } else { random.below(count.min(128) + 1) };
    let waiting = match random.below(4) {
        0 => 0,
        1 => count - in_flight,
        _ => random.below(count - in_flight + 1),
    };
    store(&mut sender, random, in_flight, waiting);
    sender
}

fn window(random: &mut Random) -> u32 {
    match random.below(4) {
        0 => random.pick(&[1, 63, 64, 127, 128]),
        1 => random.from_to(1, 128) as u32,
        _ => random.from_to(1, 6) as u32,
    }
}

fn clock(random: &mut Random) -> u64 {
    match random.below(6) {
        0 => 0,
        1 => LATEST - random.below(2) as u64,
        2 => LATEST - random.below(100_000) as u64,
        3 => random.below(LATEST as usize) as u64,
        _ => random.below(200_000) as u64,
    }
}

/// So many packets, in any of the places.
fn store(sender: &mut Sender, random: &mut Random, in_flight: usize, waiting: usize) {
    let stored = in_flight + waiting;
    let least = stored as u32 + 1;
    sender.next = match random.below(5) {
        0 => least,
        1 => TOP - random.below(300) as u32,
        2 => TOP - random.below(4) as u32,
        _ => random.word().max(least),
    };
    // Numbers downward from below next, with gaps where there is room.
    let gaps = ((sender.next - least) as usize / (stored + 1)).min([1, 1, 5, usize::MAX][random.below(4)]);
    let mut places: Vec<usize> = (0..sender.count.min(192) as usize).collect();
    let mut number = sender.next;
    for rank in (0..stored).rev() {
        number -= 1 + random.below(gaps + 1) as u32;
        let i = places.swap_remove(random.below(places.len()));
        let length = [22, sender.chunk.saturating_add(1_044), 22 + random.below(40) as u32][random.below(3)];
        let length = length.min(sender.chunk.saturating_add(1_044));
        sender.places[i] = match rank < in_flight {
            true => {
                let resent = random.one_in(3).into();
                Place { number, length, sent: sent(sender, random), mark: IN_FLIGHT, resent }
            }
            false => Place { number, length, sent: 0, mark: WAITING, resent: 0 },
        };
    }
}

/// A send time at most the last clock: about as old as expires now, or soon.
fn sent(sender: &Sender, random: &mut Random) -> u64 {
    let age = match random.below(8) {
        0 => 0,
        1 => random.below(sender.clock as usize + 1) as u64,
        2 => u64::MAX,
        3 => (1 << 32) - 2 + random.below(4) as u64,
        _ => rto(sender.timing) + random.below(4) as u64 - 2,
    };
    sender.clock.saturating_sub(age)
}

/// A state that breaks this rule and no other.
pub fn broken(random: &mut Random, rule: &str) -> Sender {
    loop {
        let mut sender = valid(random);
        break_rule(&mut sender, random, rule);
        if sender.broken() == [rule] {
            return sender;
        }
    }
}

/// Tries to: where the state has no packet of the kind that the rule speaks of, another state is drawn.
fn break_rule(sender: &mut Sender, random: &mut Random, rule: &str) -> Option<()> {
    let (waiting, in_flight) = (sender.marked(WAITING), sender.marked(IN_FLIGHT));
    let stored = [in_flight.clone(), waiting.clone()].concat();
    let free: Vec<usize> = (0..192).filter(|i| sender.places[*i].mark == FREE).collect();
    let any = |random: &mut Random, places: &[usize]| (!places.is_empty()).then(|| random.pick(places));
    let more = 1 + [0, 0, random.word() >> 1][random.below(3)];
    match RULES.iter().position(|name| *name == rule)? {
        0 => {
            let (one, other) = (any(random, &stored)?, any(random, &stored)?);
            sender.places[one].number = sender.places[other].number;
        }
        1 => sender.places[*stored.last()?].number = sender.next.saturating_add(more - 1),
        2 => {
            let (one, other) = (any(random, &in_flight)?, any(random, &waiting)?);
            let (low, high) = (sender.places[one].number, sender.places[other].number);
            (sender.places[one].number, sender.places[other].number) = (high, low);
        }
        3 => sender.places[*stored.first()?].number = 0,
        4 => {
            sender.next = 0;
            sender.places = UNUSABLE.places;
        }
        5 => {
            let beyond = free.iter().copied().filter(|i| *i >= sender.count as usize).collect::<Vec<_>>();
            let (one, other) = (any(random, &stored)?, any(random, &beyond)?);
            sender.places.swap(one, other);
        }
        6 => sender.places[any(random, &free)?].number = more,
        7 => sender.places[any(random, &free)?].length = more,
        8 => sender.places[any(random, &free)?].sent = more.into(),
        9 => sender.places[any(random, &waiting)?].sent = more.into(),
        10 => {
            sender.count = 192;
            sender.places = UNUSABLE.places;
            let in_flight = random.from_to(129, 192);
            store(sender, random, in_flight, 0);
        }
        11 => sender.places[any(random, &in_flight)?].sent = sender.clock + u64::from(more),
        12 => sender.timer = Some(random.pick(&[sender.clock + 60_000 + u64::from(more), u64::MAX])),
        13 => sender.window = 0,
        14 => sender.window = 128 + more,
        15 => sender.places[any(random, &stored)?].length = random.below(22) as u32,
        16 => sender.places[any(random, &stored)?].length = sender.chunk + 1_044 + more,
        17 => sender.clock = random.pick(&[LATEST + u64::from(more), u64::MAX]),
        18 => sender.places[any(random, &stored)?].mark = 2 + more,
        19 => sender.places[any(random, &free)?].resent = more,
        20 => sender.places[any(random, &waiting)?].resent = more,
        21 => sender.places[any(random, &in_flight)?].resent = 1 + more,
        _ => unreachable!("no such rule"),
    }
    Some(())
}

/// Sizes out of range, with every rule of 11 kept.
fn sizes_wrong(random: &mut Random) -> Sender {
    let mut sender = valid(random);
    match random.one_in(2) {
        true => {
            sender.chunk = [0, 1_813, TOP, random.word()][random.below(4)];
            let (in_flight, waiting) = (sender.marked(IN_FLIGHT).len(), sender.marked(WAITING).len());
            sender.places = UNUSABLE.places;
            store(&mut sender, random, in_flight, waiting);
        }
        // No place may be in use where there is none.
        false => {
            sender.count = [0, 193, TOP, random.word().max(193)][random.below(4)];
            if sender.count == 0 {
                sender.places = UNUSABLE.places;
            }
        }
    }
    sender
}

/// Any state at all: fields that have nothing to do with each other.
fn noise(random: &mut Random) -> Sender {
    let mut sender = valid(random);
    let long = |random: &mut Random| u64::from(random.word()) << random.below(33) | u64::from(random.word());
    sender.next = random.word();
    sender.clock = long(random);
    sender.timer = random.one_in(2).then(|| long(random));
    for _ in 0..random.below(8) {
        let (number, length, mark) = (random.word(), random.word(), random.word() >> random.below(32));
        let resent = random.word() >> random.below(32);
        sender.places[random.below(192)] = Place { number, length, sent: long(random), mark, resent };
    }
    sender
}

pub fn any(random: &mut Random) -> Sender {
    match random.below(16) {
        0 => noise(random),
        1 => sizes_wrong(random),
        2..=5 => {
            let rule = random.pick(&RULES);
            broken(random, rule)
        }
        _ => valid(random),
    }
}

impl Draft {
    /// Sets a sender's state, with any numbers where none are used.
    pub fn set_sender(&mut self, sender: &Sender) {
        let random = &mut self.random;
        let places = (0..192).filter(|i| sender.places[*i] != Place::default());
        let (rtt, deviation) = sender.timing.unwrap_or((random.word(), random.word()));
        let mut flag = |set: bool| if set { [1, 1, 2, 255][random.below(4)] } else { 0 };
        let record = SenderRecord {
            chunk: sender.chunk,
            count: sender.count,
            next: sender.next,
            window: sender.window,
            sampled: flag(sender.timing.is_some()),
            rtt,
            deviation,
            armed: flag(sender.timer.is_some()),
            at: sender.timer.unwrap_or(random.word().into()),
            clock: sender.clock,
            places: places.map(|i| (i as u8, sender.places[i])).collect(),
        };
        self.ask(Call::SetSender(record));
    }
}
