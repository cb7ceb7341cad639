//! The reader of a serial line: its states, and calls on them.
use super::Draft;
use crate::{
    calls::{Buffer, Call},
    common::Random,
    model::serial::{LineReader, RULES},
};

/// A state that keeps every rule.
fn valid(random: &mut Random) -> LineReader {
    let long = random.one_in(6);
    let room = random.pick(if long { &[65_534, 65_535, 65_536, 70_000] } else { &[0, 1, 21, 22, 23, 30, 60, 300] });
    let nothing = LineReader { room, ..LineReader::default() };
    match random.below(8) {
        0 | 1 => nothing,
        2 | 3 => {
            let high = [0, 0, room as u32 / 256 % 256, u32::from(random.byte())][random.below(4)];
            LineReader { phase: 1, high, ..nothing }
        }
        4..=6 if room >= 22 => {
            let most = room.min(65_535);
            let size = [22, most, random.from_to(22, most as usize) as u64][random.below(3)];
            let there = [0, size - 1, random.below(size as usize) as u64][random.below(3)];
            LineReader { phase: 2, size, there, ..nothing }
        }
        _ => LineReader { phase: 3, ..nothing },
    }
}

/// A state that breaks this rule and no other.
fn broken(random: &mut Random, rule: &str) -> LineReader {
    loop {
        let mut reader = valid(random);
        let (word, long) = (random.word(), u64::from(random.word()) << random.pick(&[0, 0, 32]));
        match RULES.iter().position(|name| *name == rule) {
            Some(0) => reader.phase = word,
            Some(1 | 2) => reader.high = random.pick(&[1, 256, word]),
            Some(3) => reader.size = random.pick(&[1, 22, long]),
            Some(4) => (reader.size, reader.there) = (random.pick(&[1, 21]), 0),
            Some(5) => reader.size = reader.room + 1,
            Some(6) => reader.size = random.pick(&[65_536, 70_000]),
            Some(7) => reader.there = random.pick(&[1, 22, long]),
            Some(8) => reader.there = random.pick(&[reader.size, reader.size + 1, long]),
            _ => unreachable!("no such rule"),
        }
        if reader.broken() == [rule] {
            return reader;
        }
    }
}

/// Any state at all.
fn noise(random: &mut Random) -> LineReader {
    let (room, size, there) = (random.word().into(), random.word().into(), random.word().into());
    LineReader { room, phase: random.below(5) as u32, high: random.word(), size, there }
}

impl Draft {
    pub fn line(&mut self) {
        let random = &mut self.random;
        let reader = match random.below(16) {
            0 => noise(random),
            1..=5 => {
                let rule = random.pick(&RULES);
                broken(random, rule)
            }
            _ => valid(random),
        };
        let length = match random.below(12) {
            0 => reader.room + 1,
            1 => reader.room.saturating_sub(1),
            2 => random.below(100) as u64,
            _ => reader.room,
        };
        let buffer = self.line_buffer(length.min(70_000) as usize);
        match self.random.one_in(4) {
            true => self.ask(Call::StartLine(buffer)),
            false => {
                self.ask(Call::SetLine(reader));
                self.ask(Call::SetLineBuffer(buffer));
            }
        }
        for _ in 0..self.random.from_to(1, 6) {
            self.feed();
        }
    }

    fn line_buffer(&mut self, length: usize) -> Buffer {
        let front = if self.random.one_in(8) { 0 } else { length.min(2_000) };
        Buffer { length, fill: self.random.byte(), front: self.random.bytes(front) }
    }

    /// A portion near the limits of the reader that it meets: the bytes of a length, or about what a packet lacks, and now and then more behind it.
    fn feed(&mut self) {
        let (random, reader) = (&mut self.random, self.world.line);
        let length = [0, 21, 22, 23, 40, reader.room, reader.room + 1, 65_535, random.below(70_000) as u64][random.below(9)].min(65_535) as u16;
        let mut portion = match (reader.phase, random.below(6)) {
            (_, 0) => vec![],
            (0, 1) => vec![length.to_be_bytes()[0]],
            (0, _) => length.to_be_bytes().to_vec(),
            (1, _) => vec![length.to_be_bytes()[1]],
            _ => vec![],
        };
        if reader.phase <= 2 && !random.one_in(4) {
            let lacks = if reader.phase == 2 { reader.size.saturating_sub(reader.there) } else { u64::from(length) };
            let lacks = lacks.min(if random.one_in(8) { 65_535 } else { 400 }) as usize;
            let count = [lacks, lacks.saturating_sub(1), lacks + 1, lacks + 30, random.below(lacks + 1)][random.below(5)];
            portion.extend(random.bytes(count.min(66_000)));
        }
        self.ask(Call::Feed(portion));
    }
}
