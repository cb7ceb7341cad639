//! `Packet::parse` on any bytes.
use crate::{
    calls::Call,
    common::{self, checksum, Answer, Random, Verdict},
    packet::{Packet, Part},
    runtime::Bench,
    samples::{self, Sample},
};
use std::sync::OnceLock;

const LONG: &str = "longer than 65,535";
const BARE_SIGNATURE: &str = "signature without destination";
const OFFLINE: &str = "offline block (stand-in)";

pub struct Case(Vec<u8>);

impl common::Case for Case {
    const LISTED: &'static [&'static str] = &[LONG, BARE_SIGNATURE, OFFLINE];

    fn make(seed: u64, index: usize) -> Self {
        static LIMITS: OnceLock<Vec<Vec<u8>>> = OnceLock::new();
        Self(match LIMITS.get_or_init(samples::limits).get(index) {
            Some(packet) => packet.clone(),
            None => random(&mut Random::of(seed, index)),
        })
    }

    fn script(&self) -> Vec<u8> {
        Call::Read(self.0.clone()).script()
    }

    fn compare(&self, ours: &[Answer]) -> Vec<Verdict> {
        let packet = &self.0[..];
        let (expected, listed) = match Packet::parse::<Bench>(packet) {
            _ if packet.len() > 65_535 => (vec![2], Some(LONG)),
            Err(error) => (vec![error.number()], (error.number() == 6).then_some(OFFLINE)),
            Ok(read) => {
                let (signature, listed) = signature(&read, packet);
                (fields(&read, packet, signature), listed)
            }
        };
        vec![Verdict::of(&ours[0], &Answer::new("read", &expected), listed)]
    }
}

pub fn random(random: &mut Random) -> Vec<u8> {
    match random.below(8) {
        0 => noise(random),
        1 => framed_noise(random),
        2..=4 => Sample::any(random).packet(),
        _ => samples::damaged(random),
    }
}

fn noise(random: &mut Random) -> Vec<u8> {
    let longest = [30, 300, 1500][random.below(3)];
    let length = random.below(longest);
    random.bytes(length)
}

/// Random bytes whose two lengths mostly fit, so that random options are read.
fn framed_noise(random: &mut Random) -> Vec<u8> {
    let mut sample = Sample::any(random);
    sample.flags = random.word() as u16;
    let length = random.below(600);
    sample.options = random.bytes(length);
    sample.packet()
}

/// What the Rust found, in the order of the answer line (docs/DRIVE.md).
fn fields(read: &Packet<'_>, packet: &[u8], signature: Part<'_>) -> Vec<u64> {
    let nacks: Vec<u8> = read.nacks.iter().flat_map(|nack| nack.to_be_bytes()).collect();
    let nacks = Part { at: 17, bytes: &nacks };
    let destination = destination(read, packet);
    let payload = read.payload_part(packet);
    let mut numbers = vec![
        0,
        read.send_stream_id.into(),
        read.recv_stream_id.into(),
        read.seq_nro.into(),
        read.ack_through.into(),
        read.resend_delay.into(),
        read.flag_bits().into(),
        read.flags.delay_requested().unwrap_or(0).into(),
        read.flags.max_packet_size().unwrap_or(0).into(),
    ];
    let parts = [nacks, destination, signature, payload];
    numbers.extend(parts.iter().flat_map(|part| [part.at as u64, part.bytes.len() as u64]));
    numbers.push(read.leftover::<Bench>(packet) as u64);
    numbers.extend(parts.iter().map(|part| checksum(part.bytes)));
    numbers
}

/// The destination; of an absent one the Rust has no place, and document 01's order of options gives it.
fn destination<'a>(read: &'a Packet<'_>, packet: &[u8]) -> Part<'a> {
    let options_at = 22 + 4 * read.nacks.len();
    let delay = 2 * usize::from(read.flags.delay_requested().is_some());
    read.destination_part(packet).unwrap_or(Part { at: options_at + delay, bytes: &[] })
}

/// The signature as document 01 wants it, and the name of the difference where the Rust has another: without a
/// destination it hands out the empty rest behind the bytes that it took.
fn signature<'a>(read: &Packet<'_>, packet: &'a [u8]) -> (Part<'a>, Option<&'static str>) {
    let destination = destination(read, packet);
    let maximum = 2 * usize::from(read.flags.max_packet_size().is_some());
    let at = destination.at + destination.bytes.len() + maximum;
    let options_end = packet.len() - read.payload.len();
    match read.signature_part(packet) {
        None => (Part { at, bytes: &[] }, None),
        Some(rust) if read.flags.from_included().is_none() && at < options_end => {
            assert!(rust.at == options_end && rust.bytes.is_empty(), "the Rust's signature without a destination");
            (Part { at, bytes: &packet[at..options_end] }, Some(BARE_SIGNATURE))
        }
        Some(rust) => (Part { at: rust.at, bytes: &packet[rust.at..rust.at + rust.bytes.len()] }, None),
    }
}
