//! Calls that leave the registers alone.
use super::Draft;
use crate::{
    calls::Call,
    model::{
        packet::{DELAY, FROM, MAX_SIZE, OFFLINE, SIGNATURE},
        write::Fields,
    },
    read, samples,
};
use std::sync::OnceLock;

impl Draft {
    pub fn read(&mut self) {
        static LIMITS: OnceLock<Vec<Vec<u8>>> = OnceLock::new();
        let packet = match self.random.below(64) {
            0..=15 => self.random.pick(LIMITS.get_or_init(samples::limits)),
            16 => {
                let length = self.random.from_to(65_534, 65_540);
                self.random.bytes(length)
            }
            _ => read::random(&mut self.random),
        };
        self.ask(Call::Read(packet));
    }

    /// A destination of any listed type with at most one thing wrong, another length, type, L or key type; and how long its signatures
    /// were before.
    fn destination(&mut self) -> (Vec<u8>, usize) {
        let (mut bytes, signs) = samples::destination(&mut self.random);
        let random = &mut self.random;
        match random.below(12) {
            0 => bytes.truncate(random.below(bytes.len())),
            1 => bytes.truncate(384 + random.below(8)),
            2 => bytes.push(random.byte()),
            3 => bytes[384] = random.byte(),
            4 => bytes[386] = bytes[386].wrapping_add([1, 255][random.below(2)]),
            5 => {
                // L itself too small, and the bytes as long as it says.
                let length = random.below(4);
                bytes[386] = length as u8;
                bytes.truncate(387 + length);
            }
            // The key type, where there is one; or another byte of it.
            6 if bytes.len() > 388 => bytes[388] = random.below(14) as u8,
            7 => {
                let last = bytes.len() - 1;
                bytes[388.min(last)] = random.byte();
            }
            _ => {}
        }
        (bytes, signs)
    }

    pub fn judge_destination(&mut self) {
        let (bytes, _) = self.destination();
        self.ask(Call::Destination(bytes));
    }

    /// Fields that fit their flags, but for a thing or two.
    pub fn write(&mut self) {
        let flags = self.random.word() as u16 & self.random.word() as u16;
        let flags = if self.random.one_in(4) { flags | FROM | SIGNATURE } else { flags };
        let flags = if self.random.one_in(8) { flags | OFFLINE } else { flags & !OFFLINE };
        let nacks = match self.random.below(16) {
            0 => self.random.from_to(254, 258),
            1 => self.random.from_to(250, 300),
            _ => self.random.below(5),
        };
        let given = |draft: &mut Self, bit: u16| flags & bit != 0 || draft.random.one_in(16);
        let (destination, signs) = self.destination();
        let fields = Fields {
            send: self.random.word(),
            recv: self.random.word(),
            seq: self.random.word(),
            ack: self.random.word(),
            nacks: (0..nacks).map(|_| self.random.word()).collect(),
            resend: self.random.byte(),
            flags,
            delay: if given(self, DELAY) { self.random.word() as u16 } else { 0 },
            destination: if given(self, FROM) { destination } else { vec![] },
            max: if given(self, MAX_SIZE) { self.random.word() as u16 } else { 0 },
            signature: if given(self, SIGNATURE) { self.signature(signs) } else { vec![] },
            payload: vec![],
        };
        let payload = match self.random.below(if flags & OFFLINE != 0 { 8 } else { 40 }) {
            0 => (65_537 - self.random.below(5)).saturating_sub(fields.packet().0.len()),
            1 => self.random.from_to(60_000, 70_000),
            _ => self.random.below(60),
        };
        let fields = Fields { payload: self.random.bytes(payload), ..fields };
        let output = self.output(fields.packet().0.len());
        self.ask(Call::Write { fields, output });
    }

    /// A signature of `signs` bytes, or of another length.
    fn signature(&mut self, signs: usize) -> Vec<u8> {
        let length = [0, signs - 1, signs + 1, self.random.below(140), 64, signs, signs, signs][self.random.below(8)];
        self.random.bytes(length)
    }

    pub fn timer(&mut self) {
        let random = &mut self.random;
        let mut time = || random.word() >> [0, 12, 18, 20, 22][random.below(5)];
        let (rtt, deviation, sample) = (time(), time(), time());
        let before = (!random.one_in(6)).then_some((rtt, deviation));
        let window = [random.below(130) as u32, random.word()][random.below(2)];
        self.ask(Call::Sample { before, sample });
        self.ask(Call::Grown(window));
        self.ask(Call::Fallen(window));
        let mut time = || u64::from(self.random.word()) << self.random.pick(&[0, 0, 1, 32]);
        let (old, sample) = (time(), time());
        self.ask(Call::Smooth { old, sample });
    }
}
