//! Document 02, [7]: packets over a serial line, each behind its length, 16 bits, big-endian.
use super::{refuse, Refusal};

/// The bytes that are there of an unfinished packet stand at the front of the lent buffer. Numbers without a meaning are 0 (D90).
#[derive(Clone, Copy, Default, PartialEq)]
pub struct LineReader {
    /// The buffer's length at the start.
    pub room: u64,
    /// 0: nothing is there; 1: half a length; 2: a length; 3: stopped.
    pub phase: u32,
    pub high: u32,
    pub size: u64,
    pub there: u64,
}

/// What every state that a start and calls leave has in common.
pub const RULES: [&str; 9] = [
    "a phase from 0 to 3",
    "high 0 but for half a length",
    "half a length is one byte",
    "size 0 without a length",
    "a length of 22 at least",
    "a length of the buffer's at most",
    "a length of 65,535 at most",
    "nothing there without a length",
    "less there than the length",
];

/// What 10 and 30 are about.
pub const SIZES: [&str; 1] = ["the buffer's length as at the start"];
pub const LENGTHS: [&str; 3] = ["a length under 22", "a length above the buffer", "stopped before"];

/// What is heard: a packet of this length at the buffer's front, or nothing; and how many bytes were used.
pub struct Heard {
    pub packet: usize,
    pub used: usize,
}

impl LineReader {
    pub fn start(buffer: &[u8]) -> Self {
        Self { room: buffer.len() as u64, ..Self::default() }
    }

    /// Which rules do not hold.
    pub fn broken(&self) -> Vec<&'static str> {
        let (half, sized) = (self.phase == 1, self.phase == 2);
        let holds = [
            self.phase <= 3,
            half || self.high == 0,
            !half || self.high <= 255,
            sized || self.size == 0,
            !sized || self.size >= 22,
            !sized || self.size <= self.room,
            !sized || self.size <= 65_535,
            sized || self.there == 0,
            !sized || self.there < self.size,
        ];
        RULES.into_iter().zip(holds).filter(|(_, holds)| !holds).map(|(rule, _)| rule).collect()
    }

    pub fn wrong(&self, buffer: &[u8]) -> Vec<&'static str> {
        SIZES.into_iter().filter(|_| buffer.len() as u64 != self.room).collect()
    }

    /// Why a call with this portion is refused 30.
    pub fn unfit(&self, portion: &[u8]) -> Vec<&'static str> {
        let length = match (self.phase, portion) {
            (0, [high, low, ..]) => Some(u64::from(*high) * 256 + u64::from(*low)),
            (1, [low, ..]) => Some(u64::from(self.high) * 256 + u64::from(*low)),
            _ => None,
        };
        let refused = [
            length.is_some_and(|length| length < 22),
            length.is_some_and(|length| length >= 22 && length > self.room),
            self.phase == 3,
        ];
        LENGTHS.into_iter().zip(refused).filter(|(_, refused)| *refused).map(|(why, _)| why).collect()
    }
}

pub fn feed(reader: &mut LineReader, portion: &[u8], buffer: &mut [u8]) -> Result<Heard, Refusal> {
    let ladder = [
        (11, !reader.broken().is_empty()),
        (10, !reader.wrong(buffer).is_empty()),
        (30, !reader.unfit(portion).is_empty()),
    ];
    if let Err(refusal) = refuse("feed", &ladder) {
        // The one refusal that does change the reader.
        if refusal.number == 30 {
            *reader = LineReader { room: reader.room, phase: 3, ..LineReader::default() };
        }
        return Err(refusal);
    }
    for (i, byte) in portion.iter().enumerate() {
        match reader.phase {
            0 => *reader = LineReader { phase: 1, high: u32::from(*byte), ..*reader },
            1 => {
                let size = u64::from(reader.high) * 256 + u64::from(*byte);
                *reader = LineReader { phase: 2, high: 0, size, ..*reader };
            }
            _ => {
                buffer[reader.there as usize] = *byte;
                reader.there += 1;
            }
        }
        if reader.phase == 2 && reader.there == reader.size {
            let packet = reader.size as usize;
            *reader = LineReader::start(buffer);
            return Ok(Heard { packet, used: i + 1 });
        }
    }
    Ok(Heard { packet: 0, used: portion.len() })
}

/// The packets of a whole line, and whether a length in it is refused.
pub fn frames(mut line: &[u8], room: usize) -> (Vec<Vec<u8>>, bool) {
    let mut packets = vec![];
    while let [high, low, rest @ ..] = line {
        let length = usize::from(*high) * 256 + usize::from(*low);
        if length < 22 || length > room {
            return (packets, true);
        }
        let Some((packet, rest)) = rest.split_at_checked(length) else { break };
        packets.push(packet.to_vec());
        line = rest;
    }
    (packets, false)
}
