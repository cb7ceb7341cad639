//! The calls of a script, and how each is written: the table of docs/DRIVE.md.
use crate::model::{receiver::Receiver, sender::Place, serial::LineReader, write::Fields};

/// `length` bytes: `front`, and behind it `fill` in every byte.
#[derive(Clone, Default)]
pub struct Buffer {
    pub length: usize,
    pub fill: u8,
    pub front: Vec<u8>,
}

impl Buffer {
    pub fn of(length: usize, fill: u8) -> Self {
        Self { length, fill, front: vec![] }
    }

    pub fn bytes(&self) -> Vec<u8> {
        let mut bytes = self.front.clone();
        bytes.resize(self.length, self.fill);
        bytes
    }
}

/// The record of 'P': a sender's state with the numbers that it does not use.
#[derive(Clone, Default)]
pub struct SenderRecord {
    pub chunk: u32,
    pub count: u32,
    pub next: u32,
    pub window: u32,
    pub sampled: u8,
    pub rtt: u32,
    pub deviation: u32,
    pub armed: u8,
    pub at: u64,
    pub clock: u64,
    pub places: Vec<(u8, Place)>,
}

/// Stream ids stand in wire order: send, receive.
pub enum Call {
    Read(Vec<u8>),
    Destination(Vec<u8>),
    Write { fields: Fields, output: Buffer },
    Sample { before: Option<(u32, u32)>, sample: u32 },
    Grown(u32),
    Smooth { old: u64, sample: u64 },
    Fallen(u32),
    Start { s: u32, slot: u32, store: Buffer },
    SetReceiver(Receiver),
    SetReceiverStore(Buffer),
    Accept { number: u32, payload: Vec<u8> },
    Take(Buffer),
    Acknowledge { ids: [u32; 2], output: Buffer },
    Why(u32),
    Begin { first: u32, chunk: u32, count: u32, store: Buffer },
    SetSender(SenderRecord),
    SetSenderStore(Buffer),
    Valid,
    Submit { ids: [u32; 2], bytes: Vec<u8> },
    Send { clock: u64, output: Buffer },
    Acks { through: u32, nacks: Vec<u32>, clock: u64 },
    Resend { clock: u64, path: u8 },
    Fetch { rank: u32, output: Buffer },
    StartLine(Buffer),
    SetLine(LineReader),
    SetLineBuffer(Buffer),
    Feed(Vec<u8>),
}

impl Call {
    pub fn script(&self) -> Vec<u8> {
        let call = |letter: u8| Script::default().u8(letter);
        match self {
            Self::Read(packet) => call(b'r').bytes(packet),
            Self::Destination(bytes) => call(b'd').bytes(bytes),
            Self::Write { fields, output } => fields_of(fields).buffer(output),
            Self::Sample { before, sample } => {
                let (rtt, deviation) = before.unwrap_or((0, 0));
                call(b'x').u8(before.is_some().into()).u32(rtt).u32(deviation).u32(*sample)
            }
            Self::Grown(window) => call(b'g').u32(*window),
            Self::Smooth { old, sample } => call(b'm').u64(*old).u64(*sample),
            Self::Fallen(window) => call(b'f').u32(*window),
            Self::Start { s, slot, store } => call(b'S').u32(*s).u32(*slot).buffer(store),
            Self::SetReceiver(receiver) => receiver_of(receiver),
            Self::SetReceiverStore(store) => call(b'B').buffer(store),
            Self::Accept { number, payload } => call(b'a').u32(*number).bytes(payload),
            Self::Take(output) => call(b't').buffer(output),
            Self::Why(number) => call(b'y').u32(*number),
            Self::Acknowledge { ids, output } => call(b'k').u32(ids[0]).u32(ids[1]).buffer(output),
            Self::Begin { first, chunk, count, store } => call(b'Z').u32(*first).u32(*chunk).u32(*count).buffer(store),
            Self::SetSender(record) => sender_of(record),
            Self::SetSenderStore(store) => call(b'D').buffer(store),
            Self::Valid => call(b'v'),
            Self::Submit { ids, bytes } => call(b'u').u32(ids[0]).u32(ids[1]).bytes(bytes),
            Self::Send { clock, output } => call(b's').u64(*clock).buffer(output),
            Self::Acks { through, nacks, clock } => call(b'c').u32(*through).numbers(nacks).u64(*clock),
            Self::Resend { clock, path } => call(b'e').u64(*clock).u8(*path),
            Self::Fetch { rank, output } => call(b'h').u32(*rank).buffer(output),
            Self::StartLine(buffer) => call(b'L').buffer(buffer),
            Self::SetLine(reader) => {
                call(b'I').u64(reader.room).u32(reader.phase).u32(reader.high).u64(reader.size).u64(reader.there)
            }
            Self::SetLineBuffer(buffer) => call(b'F').buffer(buffer),
            Self::Feed(portion) => call(b'i').bytes(portion),
        }
        .0
    }
}

/// What a call asks: numbers big-endian, `bytes` led by their length in 32 bits.
#[derive(Default)]
struct Script(Vec<u8>);

impl Script {
    fn u8(mut self, number: u8) -> Self {
        self.0.push(number);
        self
    }
    fn u16(mut self, number: u16) -> Self {
        self.0.extend(number.to_be_bytes());
        self
    }
    fn u32(mut self, number: u32) -> Self {
        self.0.extend(number.to_be_bytes());
        self
    }
    fn u64(mut self, number: u64) -> Self {
        self.0.extend(number.to_be_bytes());
        self
    }
    fn bytes(mut self, bytes: &[u8]) -> Self {
        self.0.extend((bytes.len() as u32).to_be_bytes());
        self.0.extend(bytes);
        self
    }
    fn buffer(self, buffer: &Buffer) -> Self {
        self.u32(buffer.length as u32).u8(buffer.fill).bytes(&buffer.front)
    }
    /// A count of 16 bits, then the numbers.
    fn numbers(self, numbers: &[u32]) -> Self {
        numbers.iter().fold(self.u16(numbers.len() as u16), |script, number| script.u32(*number))
    }
}

fn fields_of(fields: &Fields) -> Script {
    Script::default()
        .u8(b'w')
        .u32(fields.send)
        .u32(fields.recv)
        .u32(fields.seq)
        .u32(fields.ack)
        .numbers(&fields.nacks)
        .u8(fields.resend)
        .u16(fields.flags)
        .u16(fields.delay)
        .bytes(&fields.destination)
        .u16(fields.max)
        .bytes(&fields.signature)
        .bytes(&fields.payload)
}

fn receiver_of(receiver: &Receiver) -> Script {
    let marks: Vec<_> = (0..512).filter(|i| receiver.marks[*i] != 0).collect();
    let script = Script::default().u8(b'R').u32(receiver.slot).u32(receiver.start);
    let script = script.u32(receiver.next).u32(receiver.highest);
    let mark = |script: Script, i: &usize| script.u16(*i as u16).u16(receiver.marks[*i]);
    marks.iter().fold(script.u16(marks.len() as u16), mark)
}

fn sender_of(record: &SenderRecord) -> Script {
    let script = Script::default().u8(b'P').u32(record.chunk).u32(record.count).u32(record.next).u32(record.window);
    let script = script.u8(record.sampled).u32(record.rtt).u32(record.deviation);
    let script = script.u8(record.armed).u64(record.at).u64(record.clock).u16(record.places.len() as u16);
    let place = |script: Script, (i, place): &(u8, Place)| {
        script.u8(*i).u32(place.number).u32(place.length).u64(place.sent).u32(place.mark).u32(place.resent)
    };
    record.places.iter().fold(script, place)
}
