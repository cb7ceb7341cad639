//! Packets that another router made, and packets made by hand at every limit (oracle/vectors/README.md). Our program reads each, and writes again each
//! that is read without leftover option bytes. What it must answer is what the lines say; neither the model nor the Rust is asked.
use crate::{
    calls::{Buffer, Call},
    common::{checksum, Answer, Answers, Tally, Verdict},
    model::write::Fields,
};
use std::{collections::BTreeMap, ops::Range};

const I2PD: &str = include_str!("../vectors/i2pd-packets.txt");
const LIMITS: &str = include_str!("../vectors/limits.txt");

/// The flags of a signature, a destination, the delay and the maximum size.
const SIGNATURE: u64 = 8;
const FROM: u64 = 32;
const DELAY: u64 = 64;
const MAX_SIZE: u64 = 128;

/// A packet, and what its line says of it: how it is read, or the refusal.
struct Vector {
    packet: Vec<u8>,
    said: Result<Said, u64>,
}

struct Said {
    /// Send id, receive id, sequence number, ack-through, resend delay, flags, delay, maximum size.
    numbers: [u64; 8],
    /// NACKs, destination, signature, payload.
    parts: [Range<usize>; 4],
    leftover: u64,
}

pub fn script() -> Vec<u8> {
    all().iter().flat_map(Vector::calls).flat_map(|call| call.script()).collect()
}

/// Compares our answers with what the lines say; true if all are the same.
pub fn check() -> bool {
    let (mut answers, vectors) = (Answers::of_stdin(), all());
    let refused = |number: u64| vectors.iter().filter(|vector| vector.said.as_ref().err() == Some(&number)).count();
    let refusals: Vec<_> = (1..=6).map(|number| format!("{} refused {number}", refused(number))).collect();
    let read = vectors.iter().filter(|vector| vector.said.is_ok()).count();
    println!("packets of i2pd and at every limit: {read} read, {}", refusals.join(", "));
    let mut tally = Tally::new("vectors".into(), &[]);
    for (index, vector) in vectors.iter().enumerate() {
        for expected in vector.answers() {
            let Some(ours) = answers.next() else { return tally.finish(&mut answers, vectors.len() - index) };
            tally.note(index, Verdict::of(&ours, &expected, None), || vector.packet.clone());
        }
    }
    tally.finish(&mut answers, 0)
}

fn all() -> Vec<Vector> {
    let limits = LIMITS.lines().filter(|line| !line.is_empty() && !line.starts_with('#'));
    I2PD.lines().map(|line| i2pd(&Words::of(line))).chain(limits.map(|line| limit(&Words::of(line)))).collect()
}

impl Vector {
    fn again(&self) -> Option<&Said> {
        self.said.as_ref().ok().filter(|said| said.leftover == 0)
    }

    fn calls(&self) -> Vec<Call> {
        let write = self.again().map(|said| {
            let [send, recv, seq, ack, resend, flags, delay, max] = said.numbers;
            let [nacks, destination, signature, payload] = said.parts.clone().map(|part| self.packet[part].to_vec());
            let nacks = nacks.chunks_exact(4).map(|four| u32::from_be_bytes(four.try_into().expect("four"))).collect();
            let [send, recv, seq, ack] = [send, recv, seq, ack].map(|number| number as u32);
            let [flags, delay, max] = [flags, delay, max].map(|number| number as u16);
            let resend = resend as u8;
            let fields =
                Fields { send, recv, seq, ack, nacks, resend, flags, delay, destination, max, signature, payload };
            Call::Write { fields, output: Buffer::of(self.packet.len(), 0) }
        });
        [Call::Read(self.packet.clone())].into_iter().chain(write).collect()
    }

    fn answers(&self) -> Vec<Answer> {
        let said = match &self.said {
            Err(number) => return vec![Answer::new("read", &[*number])],
            Ok(said) => said,
        };
        let mut numbers = vec![0];
        numbers.extend(said.numbers);
        numbers.extend(said.parts.iter().flat_map(|part| [part.start as u64, part.len() as u64]));
        numbers.push(said.leftover);
        numbers.extend(said.parts.iter().map(|part| checksum(&self.packet[part.clone()])));
        let write = self.again().map(|said| {
            // The writer says where the signature begins, and 0 where there is none.
            let signature_at = if said.numbers[5] & SIGNATURE != 0 { said.parts[2].start as u64 } else { 0 };
            let length = self.packet.len() as u64;
            Answer::new("write", &[0, length, signature_at, checksum(&self.packet)])
        });
        [Answer::new("read", &numbers)].into_iter().chain(write).collect()
    }
}

/// The words `name=value` of a line.
struct Words<'a>(BTreeMap<&'a str, &'a str>);

impl<'a> Words<'a> {
    fn of(line: &'a str) -> Self {
        Self(line.split(' ').filter_map(|word| word.split_once('=')).collect())
    }
    fn text(&self, name: &str) -> &str {
        self.0.get(name).unwrap_or_else(|| panic!("a line without {name}"))
    }
    fn number(&self, name: &str) -> u64 {
        self.text(name).parse().unwrap_or_else(|_| panic!("a line whose {name} is no number"))
    }
    fn size(&self, name: &str) -> usize {
        self.number(name) as usize
    }
    /// 2 where the flag is set, for the two bytes of its option.
    fn two_if(&self, flag: u64) -> usize {
        if self.number("flags") & flag != 0 {
            2
        } else {
            0
        }
    }
}

/// A packet that i2pd made. The answer goes by the destination's signing type, and then by the offline block.
fn i2pd(words: &Words) -> Vector {
    let hex = words.text("packet");
    let packet: Vec<u8> =
        (0..hex.len() / 2).map(|i| u8::from_str_radix(&hex[2 * i..2 * i + 2], 16).expect("hexadecimal")).collect();
    let refusal = match (words.number("dest_len"), words.number("type"), words.number("off_len")) {
        (0, ..) => None,
        (_, 7, 1..) => Some(6),
        (_, 0..=3 | 7 | 11, _) => None,
        _ => Some(4),
    };
    if let Some(number) = refusal {
        return Vector { packet, said: Err(number) };
    }
    // i2pd says 0 of a part that is absent; document 01 says where it would begin.
    let behind = 17 + 4 * words.size("nacks");
    let part = |at, len, absent: usize| match words.size(len) {
        0 => absent..absent,
        length => words.size(at)..words.size(at) + length,
    };
    let destination = part("dest_at", "dest_len", behind + 5 + words.two_if(DELAY));
    let signature = part("sig_at", "sig_len", destination.end + words.two_if(MAX_SIZE));
    let payload = words.size("payload_at")..words.size("payload_at") + words.size("payload_len");
    assert_eq!(
        words.size("payload_at"),
        behind + 5 + words.size("optsize"),
        "the option area ends where the payload begins"
    );
    let [send, recv, seq, ack] = ["send", "recv", "seq", "ack"].map(|name| words.number(name));
    let resend = packet[behind].into();
    let numbers = [send, recv, seq, ack, resend, words.number("flags"), words.number("delay"), words.number("max")];
    Vector { packet, said: Ok(Said { numbers, parts: [17..behind, destination, signature, payload], leftover: 0 }) }
}

/// A packet made by hand: its header's numbers are always the same, and every byte that no field names tells its place, so that no two parts are alike.
fn limit(words: &Words) -> Vector {
    let mut packet: Vec<u8> = (0..70_000).map(|i: usize| (i % 251) as u8).collect();
    let mut put = |at: usize, bytes: &[u8]| packet[at..at + bytes.len()].copy_from_slice(bytes);
    let put_word = |name| (words.number(name) as u16).to_be_bytes();
    let behind = 17 + 4 * words.size("n");
    let options = behind + 5;
    put(0, &[1, 2, 3, 4, 10, 11, 12, 13, 0, 0, 0, 7, 0, 0, 0, 5, words.number("n") as u8]);
    put(behind, &[9]);
    put(behind + 1, &put_word("flags"));
    put(behind + 3, &put_word("o"));
    if words.two_if(DELAY) > 0 {
        put(options, &4_660_u16.to_be_bytes());
    }
    let destination = options + words.two_if(DELAY);
    let mut max = destination;
    if words.two_if(FROM) > 0 {
        put(destination + 384, &[words.number("type") as u8]);
        put(destination + 385, &put_word("L"));
        put(destination + 387, &put_word("key"));
        max += 387 + words.size("L");
    }
    if words.two_if(MAX_SIZE) > 0 {
        put(max, &1_400_u16.to_be_bytes());
    }
    let payload = options + words.size("o");
    packet.truncate(payload + words.size("payload") - words.size("cut"));
    if words.number("refusal") != 0 {
        return Vector { packet, said: Err(words.number("refusal")) };
    }
    let signature = max + words.two_if(MAX_SIZE);
    let (flags, delay, max) = (words.number("flags"), words.number("delay"), words.number("max"));
    let numbers = [0x0102_0304, 0x0a0b_0c0d, 7, 5, 9, flags, delay, max];
    let parts = [
        17..behind,
        destination..destination + words.size("dest"),
        signature..signature + words.size("sig"),
        payload..packet.len(),
    ];
    Vector { packet, said: Ok(Said { numbers, parts, leftover: words.number("left") }) }
}
