//! A script read back into its calls (docs/DRIVE.md), so that `oracle model answer` can stand where our program does.
use super::{answer::World, receiver::Receiver, sender::Place, serial::LineReader, write::Fields};
use crate::calls::{Buffer, Call, SenderRecord};

/// The lines for a whole script.
pub fn answers(script: &[u8]) -> String {
    let (mut rest, mut world, mut lines) = (Rest(script), World::default(), String::new());
    while !rest.0.is_empty() {
        match rest.call() {
            Some(call) => lines += &world.answer(&call).text,
            None => return lines + "bad script\n",
        }
        lines.push('\n');
    }
    lines
}

/// What is not read yet. Each reading is none where the script is cut or a length is above its limit.
struct Rest<'a>(&'a [u8]);

impl Rest<'_> {
    fn take(&mut self, count: usize) -> Option<&[u8]> {
        let (taken, rest) = self.0.split_at_checked(count)?;
        self.0 = rest;
        Some(taken)
    }
    fn number(&mut self, width: usize) -> Option<u64> {
        Some(self.take(width)?.iter().fold(0, |number, byte| number << 8 | u64::from(*byte)))
    }
    fn u8(&mut self) -> Option<u8> {
        self.number(1).map(|number| number as u8)
    }
    fn u16(&mut self) -> Option<u16> {
        self.number(2).map(|number| number as u16)
    }
    fn u32(&mut self) -> Option<u32> {
        self.number(4).map(|number| number as u32)
    }
    fn ids(&mut self) -> Option<[u32; 2]> {
        Some([self.u32()?, self.u32()?])
    }
    /// A count of 16 bits that is at most `most`.
    fn count(&mut self, most: u16) -> Option<u16> {
        self.u16().filter(|count| *count <= most)
    }
    fn bytes(&mut self, most: usize) -> Option<Vec<u8>> {
        let length = self.u32()? as usize;
        (length <= most).then_some(())?;
        self.take(length).map(<[u8]>::to_vec)
    }
    fn buffer(&mut self, most: usize) -> Option<Buffer> {
        let (length, fill) = (self.u32()? as usize, self.u8()?);
        (length <= most).then_some(())?;
        Some(Buffer { length, fill, front: self.bytes(length)? })
    }
    fn output(&mut self) -> Option<Buffer> {
        self.buffer(70_000)
    }
    fn store(&mut self) -> Option<Buffer> {
        self.buffer(930_000)
    }

    fn call(&mut self) -> Option<Call> {
        Some(match self.u8()? {
            b'r' => Call::Read(self.bytes(70_000)?),
            b'd' => Call::Destination(self.bytes(70_000)?),
            b'w' => Call::Write { fields: self.fields()?, output: self.output()? },
            b'x' => {
                let (sampled, timing) = (self.u8()? != 0, (self.u32()?, self.u32()?));
                Call::Sample { before: sampled.then_some(timing), sample: self.u32()? }
            }
            b'g' => Call::Grown(self.u32()?),
            b'm' => Call::Smooth { old: self.number(8)?, sample: self.number(8)? },
            b'f' => Call::Fallen(self.u32()?),
            b'S' => Call::Start { s: self.u32()?, slot: self.u32()?, store: self.store()? },
            b'R' => Call::SetReceiver(self.receiver()?),
            b'B' => Call::SetReceiverStore(self.store()?),
            b'a' => Call::Accept { number: self.u32()?, payload: self.bytes(70_000)? },
            b't' => Call::Take(self.output()?),
            b'y' => Call::Why(self.u32()?),
            b'k' => Call::Acknowledge { ids: self.ids()?, output: self.output()? },
            b'Z' => Call::Begin { first: self.u32()?, chunk: self.u32()?, count: self.u32()?, store: self.store()? },
            b'P' => Call::SetSender(self.sender()?),
            b'D' => Call::SetSenderStore(self.store()?),
            b'v' => Call::Valid,
            b'u' => Call::Submit { ids: self.ids()?, bytes: self.bytes(70_000)? },
            b's' => Call::Send { clock: self.number(8)?, output: self.output()? },
            b'c' => Call::Acks { through: self.u32()?, nacks: self.numbers()?, clock: self.number(8)? },
            b'e' => Call::Resend { clock: self.number(8)?, path: self.u8()? },
            b'h' => Call::Fetch { rank: self.u32()?, output: self.output()? },
            b'L' => Call::StartLine(self.output()?),
            b'I' => Call::SetLine(self.line()?),
            b'F' => Call::SetLineBuffer(self.output()?),
            b'i' => Call::Feed(self.bytes(70_000)?),
            _ => return None,
        })
    }

    fn line(&mut self) -> Option<LineReader> {
        let (room, phase, high) = (self.number(8)?, self.u32()?, self.u32()?);
        Some(LineReader { room, phase, high, size: self.number(8)?, there: self.number(8)? })
    }

    fn numbers(&mut self) -> Option<Vec<u32>> {
        let count = self.count(300)?;
        (0..count).map(|_| self.u32()).collect()
    }

    fn fields(&mut self) -> Option<Fields> {
        Some(Fields {
            send: self.u32()?,
            recv: self.u32()?,
            seq: self.u32()?,
            ack: self.u32()?,
            nacks: self.numbers()?,
            resend: self.u8()?,
            flags: self.u16()?,
            delay: self.u16()?,
            destination: self.bytes(70_000)?,
            max: self.u16()?,
            signature: self.bytes(70_000)?,
            payload: self.bytes(70_000)?,
        })
    }

    fn receiver(&mut self) -> Option<Receiver> {
        let (slot, start, next, highest) = (self.u32()?, self.u32()?, self.u32()?, self.u32()?);
        let mut receiver = Receiver { slot, start, next, highest, marks: [0; 512] };
        for _ in 0..self.count(512)? {
            let i = self.count(511)?;
            receiver.marks[usize::from(i)] = self.u16()?;
        }
        Some(receiver)
    }

    fn sender(&mut self) -> Option<SenderRecord> {
        let mut record = SenderRecord {
            chunk: self.u32()?,
            count: self.u32()?,
            next: self.u32()?,
            window: self.u32()?,
            sampled: self.u8()?,
            rtt: self.u32()?,
            deviation: self.u32()?,
            armed: self.u8()?,
            at: self.number(8)?,
            clock: self.number(8)?,
            places: vec![],
        };
        for _ in 0..self.count(192)? {
            let i = self.u8().filter(|i| *i < 192)?;
            let (number, length) = (self.u32()?, self.u32()?);
            record.places.push((i, Place { number, length, sent: self.number(8)?, mark: self.u32()?, resent: self.u32()? }));
        }
        Some(record)
    }
}
