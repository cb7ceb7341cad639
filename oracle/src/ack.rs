//! The plain ack that `poll` sends, for receivers that accepted any numbers of a span, one byte each, none taken: inside document
//! 01's domain, at most 255 missing, byte for byte; above it the slip that document 01 lists. Ours is set to that state.
use crate::{
    active::Rig,
    calls::{Buffer, Call},
    common::{checksum, Answer, Case, Random, Verdict, LAST},
    model::receiver::Receiver,
    packet::{Packet, PacketBuilder},
    runtime::Bench,
};

pub const MISSING: &str = "more than 255 missing";
const OUTPUT: &str = "output too short";
/// The most NACKs, and the delay that asks the other side to stop.
const MOST: usize = 255;
const CHOKING: u16 = 60_001;

pub struct Acks {
    s: u32,
    /// How far above s each accepted number is, ascending.
    accepted: Vec<u32>,
    ids: [u32; 2],
    output: Buffer,
}

impl Case for Acks {
    const LISTED: &'static [&'static str] = &[MISSING, OUTPUT];

    fn make(seed: u64, index: usize) -> Self {
        let mut random = Random::of(seed, index);
        // Document 01's own numbers first.
        let limits: [&[u32]; 8] = [&[], &[1, 2, 5], &[2, 3], &[255], &[256], &[257], &[511], &[512]];
        if let Some(accepted) = limits.get(index) {
            let ids = [0x0102_0304, 0x0a0b_0c0d];
            return Self { s: 0, accepted: accepted.to_vec(), ids, output: Buffer::of(1_044, 0) };
        }
        let highest = random.from_to(0, 512) as u32;
        let dense = random.from_to(1, 12);
        let accepted = (1..=highest).filter(|number| *number == highest || random.below(12) >= dense).collect();
        let output = if random.one_in(8) { random.below(1_044) } else { random.from_to(1_044, 1_100) };
        let s = random.word().min(LAST - 512);
        Self { s, accepted, ids: [random.word(), random.word()], output: random.buffer(output) }
    }

    fn script(&self) -> Vec<u8> {
        let mut receiver = Receiver { slot: 1, start: self.s, next: self.s + 1, highest: self.s, marks: [0; 512] };
        for above in &self.accepted {
            receiver.highest = self.s + above;
            receiver.marks[receiver.highest as usize % 512] = 2;
        }
        let ack = Call::Acknowledge { ids: self.ids, output: self.output.clone() };
        [Call::SetReceiver(receiver), ack].iter().flat_map(Call::script).collect()
    }

    fn answers(&self) -> usize {
        2
    }

    fn compare(&self, ours: &[Answer]) -> Vec<Verdict> {
        Bench::set_clock(0);
        let mut rig = Rig::new(self.ids, self.s, 1, 1);
        for above in &self.accepted {
            rig.accept(self.s + above, &[0]).expect("inside the lookahead");
        }
        let rust = rig.plain_ack();
        let (packet, mut listed) = mended(&rig, rust);
        let mut output = self.output.bytes();
        let expected = if packet.len() > output.len() {
            listed = Some(OUTPUT);
            [7, 0, checksum(&output)]
        } else {
            output[..packet.len()].copy_from_slice(&packet);
            [0, packet.len() as u64, checksum(&output)]
        };
        vec![Verdict::of(&ours[1], &Answer::new("ack", &expected), listed)]
    }
}

/// Document 01's packet beside one that the Rust made now, and the name of the difference: with more than 255 missing the Rust
/// claims some of them, which is looked at too. All but the ack fields is the Rust's.
pub fn mended(rig: &Rig, rust: Vec<u8>) -> (Vec<u8>, Option<&'static str>) {
    let missing = rig.missing();
    if missing.len() <= MOST {
        return (rust, None);
    }
    let packet = Packet::parse::<Bench>(&rust).expect("the Rust's own packet");
    assert!(packet.ack_through == rig.highest() && packet.nacks == missing[..MOST], "the slip is another one");
    let mended = PacketBuilder::new(packet.recv_stream_id)
        .with_send_stream_id(packet.send_stream_id)
        .with_seq_nro(packet.seq_nro)
        .with_ack_through(missing[MOST] - 1)
        .with_nacks(missing[..MOST].to_vec())
        .with_delay_requested(CHOKING)
        .with_payload(packet.payload)
        .build();
    (mended.to_vec(), Some(MISSING))
}
