//! The line for each call (docs/DRIVE.md), and the registers that are kept from call to call.
use super::{
    ack::acknowledge,
    packet::{self, signature_length},
    receiver::{self, Receiver},
    sender::{self, Place, Sender},
    sending,
    serial::{self, LineReader},
    timer,
    why,
    write::write,
    Refusal,
};
use crate::{
    calls::{Call, SenderRecord},
    common::checksum,
};
use std::fmt::Write;

/// The registers.
pub struct World {
    pub receiver: Receiver,
    pub receiver_store: Vec<u8>,
    pub sender: Sender,
    pub sender_store: Vec<u8>,
    pub line: LineReader,
    pub line_buffer: Vec<u8>,
}

impl Default for World {
    fn default() -> Self {
        Self {
            receiver: receiver::UNUSABLE,
            receiver_store: vec![],
            sender: sender::UNUSABLE,
            sender_store: vec![],
            line: LineReader::default(),
            line_buffer: vec![],
        }
    }
}

/// A call's line, and the refusal where it was refused.
pub struct Line {
    pub text: String,
    pub refusal: Option<Refusal>,
}

/// The line of a call that refuses nothing.
fn plain(text: String) -> Line {
    Line { text, refusal: None }
}

impl World {
    pub fn answer(&mut self, call: &Call) -> Line {
        match call {
            Call::Read(packet) => read(packet),
            Call::Destination(bytes) => plain(format!("destination {}", signature_length(bytes))),
            Call::Write { fields, output } => {
                let mut output = output.bytes();
                let result = write(fields, &mut output);
                let (length, signature_at) = result.unwrap_or((0, 0));
                told("write", &result, &format!("{length} {signature_at} {}", checksum(&output)))
            }
            Call::Sample { before, sample } => {
                let after = timer::sampled(*before, *sample);
                let (rtt, deviation) = after.expect("sampled");
                plain(format!("sample {rtt} {deviation} {}", timer::rto(after)))
            }
            Call::Smooth { old, sample } => {
                let result = timer::smooth(*old, *sample);
                told("smooth", &result, &result.unwrap_or(0).to_string())
            }
            Call::Grown(window) => plain(format!("window {}", timer::grown(*window))),
            Call::Fallen(window) => plain(format!("window {}", timer::fallen(*window))),
            Call::Valid => plain(format!("valid {}", u8::from(self.sender.broken().is_empty()))),
            Call::Start { .. } | Call::SetReceiver(_) | Call::SetReceiverStore(_) => self.receiver_set(call),
            Call::Accept { .. } | Call::Take(_) | Call::Acknowledge { .. } | Call::Why(_) => self.receiver_call(call),
            Call::Begin { .. } | Call::SetSender(_) | Call::SetSenderStore(_) => self.sender_set(call),
            Call::Submit { .. } => self.submit(call),
            Call::StartLine(_) | Call::SetLine(_) | Call::SetLineBuffer(_) | Call::Feed(_) => self.line_call(call),
            _ => self.sender_call(call),
        }
    }

    fn receiver_set(&mut self, call: &Call) -> Line {
        match call {
            Call::Start { s, slot, store } => {
                self.receiver_store = store.bytes();
                let result = receiver::start(*s, *slot, &self.receiver_store);
                self.receiver = result.clone().unwrap_or(receiver::UNUSABLE);
                told("start", &result, &receiver_line(&self.receiver))
            }
            Call::SetReceiver(receiver) => {
                self.receiver = receiver.clone();
                plain(format!("receiver {}", receiver_line(receiver)))
            }
            Call::SetReceiverStore(store) => {
                self.receiver_store = store.bytes();
                plain(format!("store {} {}", store.length, checksum(&self.receiver_store)))
            }
            _ => unreachable!("no setting of a receiver"),
        }
    }

    fn receiver_call(&mut self, call: &Call) -> Line {
        let (receiver, store) = (&mut self.receiver, &mut self.receiver_store);
        match call {
            Call::Accept { number, payload } => {
                let result = receiver::accept(receiver, *number, payload, store);
                told("accept", &result, &format!("{} {}", receiver_line(receiver), checksum(store)))
            }
            Call::Take(output) => {
                let mut output = output.bytes();
                let result = receiver::take(receiver, store, &mut output);
                let length = result.unwrap_or(0);
                told("take", &result, &format!("{length} {} {}", receiver_line(receiver), checksum(&output)))
            }
            Call::Acknowledge { ids, output } => {
                let mut output = output.bytes();
                let result = acknowledge(receiver, *ids, &mut output);
                told("ack", &result, &format!("{} {}", result.unwrap_or(0), checksum(&output)))
            }
            Call::Why(number) => {
                let result = why::why(receiver, *number);
                let (case, smallest) = result.unwrap_or((0, 0));
                told("why", &result, &format!("{case} {smallest}"))
            }
            _ => unreachable!("no call of a receiver"),
        }
    }

    fn sender_set(&mut self, call: &Call) -> Line {
        match call {
            Call::Begin { first, chunk, count, store } => {
                self.sender_store = store.bytes();
                let result = sender::start(*first, *chunk, *count, &self.sender_store);
                self.sender = result.clone().unwrap_or(sender::REFUSED);
                told("begin", &result, &sender_line(&self.sender))
            }
            Call::SetSender(record) => {
                self.sender = state_of(record);
                plain(format!("sender {}", sender_line(&self.sender)))
            }
            Call::SetSenderStore(store) => {
                self.sender_store = store.bytes();
                plain(format!("store {} {}", store.length, checksum(&self.sender_store)))
            }
            _ => unreachable!("no setting of a sender"),
        }
    }

    fn submit(&mut self, call: &Call) -> Line {
        let Call::Submit { ids, bytes } = call else { unreachable!("no submit") };
        let result = sending::submit(&mut self.sender, &self.receiver, *ids, bytes, &mut self.sender_store);
        let state = format!("{} {}", sender_line(&self.sender), checksum(&self.sender_store));
        told("submit", &result, &format!("{} {state}", result.unwrap_or(0)))
    }

    fn line_call(&mut self, call: &Call) -> Line {
        let (reader, buffer) = (&mut self.line, &mut self.line_buffer);
        match call {
            Call::StartLine(lent) => {
                *buffer = lent.bytes();
                *reader = LineReader::start(buffer);
                plain(format!("line {}", line_line(reader)))
            }
            Call::SetLine(given) => {
                *reader = *given;
                plain(format!("reader {}", line_line(reader)))
            }
            Call::SetLineBuffer(lent) => {
                *buffer = lent.bytes();
                plain(format!("buffer {} {}", lent.length, checksum(buffer)))
            }
            Call::Feed(portion) => {
                let result = serial::feed(reader, portion, buffer);
                let (packet, used) = result.as_ref().map_or((0, 0), |heard| (heard.packet, heard.used));
                told("feed", &result, &format!("{packet} {used} {} {}", line_line(reader), checksum(buffer)))
            }
            _ => unreachable!("no call of a line"),
        }
    }

    fn sender_call(&mut self, call: &Call) -> Line {
        let (sender, store) = (&mut self.sender, &self.sender_store);
        match call {
            Call::Send { clock, output } => {
                let mut output = output.bytes();
                let result = sending::send(sender, *clock, store, &mut output);
                let (number, length) = result.unwrap_or((0, 0));
                let state = format!("{} {}", sender_line(sender), checksum(&output));
                told("send", &result, &format!("{number} {length} {state}"))
            }
            Call::Acks { through, nacks, clock } => {
                let result = sending::acks(sender, *through, nacks, *clock);
                told("acks", &result, &format!("{} {}", result.unwrap_or(0), sender_line(sender)))
            }
            Call::Resend { clock, path } => {
                let result = sending::resend(sender, *clock, *path != 0);
                told("resend", &result, &format!("{} {}", result.unwrap_or(0), sender_line(sender)))
            }
            Call::Fetch { rank, output } => {
                let mut output = output.bytes();
                let result = sending::fetch(sender, *rank, store, &mut output);
                told("fetch", &result, &format!("{} {}", result.unwrap_or(0), checksum(&output)))
            }
            _ => unreachable!("no call of a sender"),
        }
    }
}

fn told<T>(word: &'static str, result: &Result<T, Refusal>, rest: &str) -> Line {
    let refusal = result.as_ref().err().copied();
    Line { text: format!("{word} {} {rest}", refusal.map_or(0, |refusal| refusal.number)), refusal }
}

fn read(bytes: &[u8]) -> Line {
    let packet = match packet::read(bytes) {
        Err(refusal) => return Line { text: format!("read {}", refusal.number), refusal: Some(refusal) },
        Ok(packet) => packet,
    };
    let mut line = format!("read 0 {} {} {} {}", packet.send, packet.recv, packet.seq, packet.ack);
    write!(line, " {} {} {} {}", packet.resend, packet.flags, packet.delay, packet.max).unwrap();
    let parts = [packet.nacks, packet.destination, packet.signature, packet.payload];
    for part in &parts {
        write!(line, " {} {}", part.start, part.len()).unwrap();
    }
    write!(line, " {}", packet.leftover).unwrap();
    for part in parts {
        write!(line, " {}", checksum(&bytes[part])).unwrap();
    }
    plain(line)
}

/// SLOT START NEXT HIGHEST N I MARK ..
fn receiver_line(receiver: &Receiver) -> String {
    let marks: Vec<usize> = (0..512).filter(|i| receiver.marks[*i] != 0).collect();
    let mut line = format!("{} {} {} {}", receiver.slot, receiver.start, receiver.next, receiver.highest);
    write!(line, " {}", marks.len()).unwrap();
    for i in marks {
        write!(line, " {i} {}", receiver.marks[i]).unwrap();
    }
    line
}

/// ROOM PHASE HIGH SIZE THERE
fn line_line(reader: &LineReader) -> String {
    format!("{} {} {} {} {}", reader.room, reader.phase, reader.high, reader.size, reader.there)
}

/// CHUNK COUNT NEXT WINDOW SAMPLED RTT DEVIATION ARMED AT CLOCK N I NUMBER LENGTH SENT MARK RESENT ..
fn sender_line(sender: &Sender) -> String {
    let mut line = format!("{} {} {} {}", sender.chunk, sender.count, sender.next, sender.window);
    let (rtt, deviation) = sender.timing.unwrap_or((0, 0));
    write!(line, " {} {rtt} {deviation}", u8::from(sender.timing.is_some())).unwrap();
    write!(line, " {} {} {}", u8::from(sender.timer.is_some()), sender.timer.unwrap_or(0), sender.clock).unwrap();
    let places: Vec<usize> = (0..192).filter(|i| sender.places[*i] != Place::default()).collect();
    write!(line, " {}", places.len()).unwrap();
    for i in places {
        let Place { number, length, sent, mark, resent } = sender.places[i];
        write!(line, " {i} {number} {length} {sent} {mark} {resent}").unwrap();
    }
    line
}

fn state_of(record: &SenderRecord) -> Sender {
    let mut sender = Sender {
        chunk: record.chunk,
        count: record.count,
        next: record.next,
        window: record.window,
        timing: (record.sampled != 0).then_some((record.rtt, record.deviation)),
        timer: (record.armed != 0).then_some(record.at),
        clock: record.clock,
        ..sender::UNUSABLE
    };
    for (i, place) in &record.places {
        sender.places[usize::from(*i)] = *place;
    }
    sender
}
