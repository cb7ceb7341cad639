//! `PacketBuilder::build` and `build_and_sign`, with the signer's stand-in.
use crate::{
    calls::{Buffer, Call},
    common::{self, checksum, Answer, Random, Verdict},
    crypto::SigningPrivateKey,
    model::write::Fields,
    packet::PacketBuilder,
    primitives::{Destination, DestinationId},
    samples,
};
use std::sync::OnceLock;

const NACKS: &str = "more than 255 NACKs";
const LONG: &str = "longer than 65,535";
const OUTPUT: &str = "output too short";

const SIGNATURE: u16 = 1 << 3;
const FROM: u16 = 1 << 5;
const DELAY: u16 = 1 << 6;
const MAX_SIZE: u16 = 1 << 7;
/// Bits 4, 8 and 12 to 15, for which the Rust has no call.
const OTHER_BITS: u16 = 0xf110;
/// All that a packet of the Rust can carry: every bit but 11, since it builds no offline block.
const BITS: u16 = !(1 << 11);

#[derive(Clone, Default)]
pub struct Case {
    fields: Fields,
    output: Buffer,
}

impl common::Case for Case {
    const LISTED: &'static [&'static str] = &[NACKS, LONG, OUTPUT];

    fn make(seed: u64, index: usize) -> Self {
        static LIMITS: OnceLock<Vec<Case>> = OnceLock::new();
        match LIMITS.get_or_init(limits).get(index) {
            Some(case) => case.clone(),
            None => any(&mut Random::of(seed, index)),
        }
    }

    fn script(&self) -> Vec<u8> {
        Call::Write { fields: self.fields.clone(), output: self.output.clone() }.script()
    }

    fn compare(&self, ours: &[Answer]) -> Vec<Verdict> {
        let rust = self.built(&self.fields.signature);
        let mut output = self.output.bytes();
        // The Rust makes its own output and cuts its counts to their width; where it does, ours refuses and writes nothing.
        let refusal = if self.fields.nacks.len() > 255 {
            Some((8, NACKS))
        } else if rust.len() > 65_535 {
            Some((2, LONG))
        } else if rust.len() > output.len() {
            Some((7, OUTPUT))
        } else {
            None
        };
        let head = match refusal {
            Some((number, _)) => [number, 0, 0],
            None => {
                output[..rust.len()].copy_from_slice(&rust);
                [0, rust.len() as u64, self.signature_at() as u64]
            }
        };
        let expected = Answer::new("write", &[head[0], head[1], head[2], checksum(&output)]);
        vec![Verdict::of(&ours[0], &expected, refusal.map(|(_, name)| name))]
    }
}

/// The smallest inputs of the listed differences, each beside the call that just passes.
fn limits() -> Vec<Case> {
    let short = |missing: usize| fitting(Fields::default(), missing);
    let nacks = |count: usize| fitting(Fields { nacks: vec![0; count], ..Fields::default() }, 0);
    let payload = |count: usize| fitting(Fields { payload: vec![0; count], ..Fields::default() }, 0);
    // The option length has 16 bits, which the Rust cuts: a destination with the longest certificate overruns them.
    let mut longest = vec![0; 384];
    longest.extend([5, 255, 255, 0, 7]);
    longest.resize(387 + 65_535, 0);
    let options = fitting(Fields { flags: FROM, destination: longest, ..Fields::default() }, 0);
    vec![short(0), short(1), short(22), nacks(255), nacks(256), nacks(257), payload(65_513), payload(65_514), options]
}

/// With an output that is `missing` bytes too short.
fn fitting(fields: Fields, missing: usize) -> Case {
    let mut case = Case { fields, output: Buffer::default() };
    case.output.length = case.length() - missing;
    case
}

fn any(random: &mut Random) -> Case {
    let flags = random.word() as u16 & random.word() as u16 & BITS;
    let nacks = match random.below(64) {
        0 => random.from_to(256, 300),
        1..=3 => random.from_to(250, 255),
        4..=8 => random.below(256),
        _ => random.below(9),
    };
    let fields = Fields {
        send: random.word(),
        recv: random.word(),
        seq: random.word(),
        ack: random.word(),
        nacks: (0..nacks).map(|_| random.word()).collect(),
        resend: random.byte(),
        flags,
        delay: if flags & DELAY != 0 { random.word() as u16 } else { 0 },
        destination: if flags & FROM != 0 { signing_with_64(random) } else { vec![] },
        max: if flags & MAX_SIZE != 0 { random.word() as u16 } else { 0 },
        signature: if flags & SIGNATURE == 0 {
            vec![]
        } else if random.one_in(2) {
            vec![0; 64]
        } else {
            random.bytes(64)
        },
        payload: vec![],
    };
    let mut case = Case { fields, output: Buffer::default() };
    let payload = match random.below(400) {
        // Around the longest packet that can be written.
        0 => (65_535 + 2 - random.below(5)).saturating_sub(case.length()),
        1..=9 => random.below(2000),
        10..=99 => 0,
        _ => random.below(60),
    };
    case.fields.payload = random.bytes(payload);
    let output = match random.below(20) {
        0 => random.below(case.length()),
        1 => case.length() - 1,
        2..=5 => case.length() + random.below(100),
        6 => case.length() + 1,
        _ => case.length(),
    };
    case.output = random.buffer(output);
    case
}

/// A destination whose signatures have 64 bytes, as every signature that the Rust writes has.
fn signing_with_64(random: &mut Random) -> Vec<u8> {
    let kinds: Vec<_> = samples::KINDS.into_iter().filter(|kind| kind.signs == 64).collect();
    let kind = random.pick(&kinds);
    samples::destination_of(random, kind)
}

impl Case {
    fn has(&self, bit: u16) -> bool {
        self.fields.flags & bit != 0
    }

    fn length(&self) -> usize {
        let fields = &self.fields;
        let numbers = 2 * usize::from(self.has(DELAY)) + 2 * usize::from(self.has(MAX_SIZE));
        let parts = fields.destination.len() + fields.signature.len() + fields.payload.len();
        22 + 4 * fields.nacks.len() + numbers + parts
    }

    /// The packet as the Rust builds it, signed with `signature` if that flag is set.
    fn built(&self, signature: &[u8]) -> Vec<u8> {
        let mut builder = PacketBuilder::new(self.fields.recv)
            .with_send_stream_id(self.fields.send)
            .with_seq_nro(self.fields.seq)
            .with_ack_through(self.fields.ack)
            .with_resend_delay(self.fields.resend)
            .with_flag_bits(self.fields.flags & OTHER_BITS);
        // Eight NACKs are also how the Rust carries a destination's hash; no NACKs and no payload have two spellings.
        builder = match self.fields.nacks.len() {
            0 if self.output.fill % 2 == 0 => builder,
            8 if self.output.fill % 2 == 0 => builder.with_replay_protection(&self.nacks_as_id()),
            _ => builder.with_nacks(self.fields.nacks.clone()),
        };
        if !self.fields.payload.is_empty() || self.output.fill % 4 < 2 {
            builder = builder.with_payload(&self.fields.payload);
        }
        if self.has(1 << 0) {
            builder = builder.with_synchronize();
        }
        if self.has(1 << 1) {
            builder = builder.with_close();
        }
        if self.has(1 << 2) {
            builder = builder.with_reset();
        }
        if self.has(1 << 9) {
            builder = builder.with_echo();
        }
        if self.has(1 << 10) {
            builder = builder.with_no_ack();
        }
        if self.has(DELAY) {
            builder = builder.with_delay_requested(self.fields.delay);
        }
        if self.has(FROM) {
            builder = builder.with_from_included(&Destination::new(&self.fields.destination));
        }
        if self.has(MAX_SIZE) {
            builder = builder.with_max_packet_size(self.fields.max);
        }
        match self.has(SIGNATURE) {
            true => builder.with_signature().build_and_sign(&SigningPrivateKey(signature.to_vec())).to_vec(),
            false => builder.build().to_vec(),
        }
    }

    fn nacks_as_id(&self) -> DestinationId {
        let bytes: Vec<u8> = self.fields.nacks.iter().flat_map(|nack| nack.to_be_bytes()).collect();
        DestinationId(bytes.try_into().expect("eight NACKs"))
    }

    /// Where the Rust puts the signature: two signers that agree in no byte show it. 0 without a signature.
    fn signature_at(&self) -> usize {
        let (zeros, ones) = (self.built(&[0; 64]), self.built(&[255; 64]));
        let differ: Vec<_> = (0..zeros.len()).filter(|at| zeros[*at] != ones[*at]).collect();
        assert!(differ.is_empty() || differ.len() == 64 && differ[0] + 63 == differ[63], "64 bytes on end");
        differ.first().copied().unwrap_or(0)
    }
}
