//! One line of bytes, cut in many ways: whatever the cuts, our program must tell the same packets and the same refusal, those of the line as a
//! whole. The Rust has no serial line; the lines of single calls are the model's.
use crate::{
    calls::{Buffer, Call},
    common::{checksum, Answer, Case, Random, Verdict},
    model::{answer::World, packet, serial::frames},
};

/// Each way to cut the line is a start and then portions; what was not used is offered again with the bytes that come next.
pub struct Cuts {
    calls: Vec<Call>,
    /// The model's line for each call, and of which cut it is.
    lines: Vec<(usize, String)>,
    /// What every cut must tell.
    whole: Told,
}

/// Each packet's length with the checksum of the buffer that has it at its front, and whether a call was refused.
#[derive(Default, PartialEq)]
struct Told {
    packets: Vec<(u64, u64)>,
    refused: bool,
}

/// What stands in the line behind honest packets: nothing, a length that is refused, or an unfinished packet.
const ENDS: [&[u8]; 8] = [&[], &[0], &[0, 0], &[0, 21], &[255, 255], &[0, 22], &[0, 22, 1, 2, 3], &[0, 41, 9]];

impl Case for Cuts {
    const LISTED: &'static [&'static str] = &[];

    /// First a line of packets of 22 and 40 bytes over a buffer of 40, cut in two at each of its places, then with each end, byte by byte;
    /// then random lines over random buffers, each cut in ways of its own.
    fn make(seed: u64, index: usize) -> Self {
        let mut random = Random::of(seed, index);
        let honest = [framed(&random.bytes(22)), framed(&random.bytes(40))].concat();
        let places = honest.len() + 1;
        match index {
            _ if index < places => Self::of(&honest, &random.buffer(40), &[vec![index, honest.len() - index]]),
            _ if index < places + ENDS.len() => {
                let line = [&honest, ENDS[index - places], &[1, 2, 3]].concat();
                Self::of(&line, &random.buffer(40), &[vec![1; line.len()], vec![line.len()], vec![0, 2, 0, line.len()]])
            }
            _ => {
                let long = random.one_in(32);
                let room = random.pick(if long { &[65_535, 65_536] } else { &[0, 21, 22, 23, 40, 300] });
                let line = line(&mut random, room);
                let cuts: Vec<_> = (0..random.from_to(2, 4)).map(|_| cut(&mut random, line.len())).collect();
                Self::of(&line, &random.buffer(room), &cuts)
            }
        }
    }

    fn script(&self) -> Vec<u8> {
        self.calls.iter().flat_map(Call::script).collect()
    }

    fn answers(&self) -> usize {
        self.lines.len()
    }

    fn compare(&self, ours: &[Answer]) -> Vec<Verdict> {
        let mut verdicts = vec![];
        let mut told = Told::default();
        for (at, ((cut, line), ours)) in self.lines.iter().zip(ours).enumerate() {
            if ours.to_string() != *line {
                verdicts.push(Verdict::Unlisted(format!("call {at}: the model `{line}`, ours `{ours}`")));
                return verdicts;
            }
            told.hear(ours);
            let last = self.lines.get(at + 1).map_or(true, |(next, _)| next != cut);
            if last && std::mem::take(&mut told) != self.whole {
                verdicts.push(Verdict::Unlisted(format!("cut {cut}: other packets or another refusal than in the whole line")));
                return verdicts;
            }
            verdicts.push(Verdict::Equal);
        }
        verdicts
    }
}

impl Told {
    /// `feed CODE LENGTH USED ROOM PHASE HIGH SIZE THERE SUM`.
    fn hear(&mut self, answer: &Answer) {
        let [code, length, .., sum] = answer.numbers[..] else { return };
        if answer.word == "feed" {
            self.refused |= code != 0;
            self.packets.extend((length > 0).then_some((length, sum)));
        }
    }
}

impl Cuts {
    fn of(line: &[u8], buffer: &Buffer, cuts: &[Vec<usize>]) -> Self {
        let mut made = Self { calls: vec![], lines: vec![], whole: whole(line, &mut buffer.bytes()) };
        for (index, sizes) in cuts.iter().enumerate() {
            let mut world = World::default();
            made.ask(index, &mut world, Call::StartLine(buffer.clone()));
            let (mut come, mut used) = (0, 0);
            for size in sizes {
                come = line.len().min(come + size);
                // The rest of what has come is offered until no packet is answered: at least one call a portion.
                loop {
                    let before = used;
                    used += made.ask(index, &mut world, Call::Feed(line[used..come].to_vec()));
                    if used == before || used == come {
                        break;
                    }
                }
            }
        }
        made
    }

    /// How many bytes the call used.
    fn ask(&mut self, cut: usize, world: &mut World, call: Call) -> usize {
        let line = world.answer(&call).text;
        let used = line.split(' ').nth(3).and_then(|word| word.parse().ok()).unwrap_or(0);
        let used = if matches!(call, Call::Feed(_)) { used } else { 0 };
        self.lines.push((cut, line));
        self.calls.push(call);
        used
    }
}

fn whole(line: &[u8], buffer: &mut [u8]) -> Told {
    let (packets, refused) = frames(line, buffer.len());
    let told = |packet: Vec<u8>| {
        buffer[..packet.len()].copy_from_slice(&packet);
        (packet.len() as u64, checksum(buffer))
    };
    Told { packets: packets.into_iter().map(told).collect(), refused }
}

fn framed(packet: &[u8]) -> Vec<u8> {
    [&(packet.len() as u16).to_be_bytes()[..], packet].concat()
}

/// Honest packets, a long one last, and an end.
fn line(random: &mut Random, room: usize) -> Vec<u8> {
    let mut line = vec![];
    let mut packet = |random: &mut Random, most: usize| {
        if most >= 22 {
            let length = [22, most, random.from_to(22, most)][random.below(3)];
            line.extend(framed(&random.bytes(length)));
        }
    };
    for _ in 0..random.below(6) {
        packet(random, room.min(60));
    }
    if random.one_in(2) {
        packet(random, room.min(65_535));
    }
    match random.below(4) {
        0 => line.extend(((room + 1).min(65_535) as u16).to_be_bytes()),
        1 => line.extend(random.pick(&ENDS)),
        2 => line.extend(random.bytes(5)),
        _ => {}
    }
    line
}

/// Portions that make up the length, portions of nothing among them.
fn cut(random: &mut Random, length: usize) -> Vec<usize> {
    let most = random.pick(&[2, 3, 30, 200, length + 1]).max(length / 50);
    let (mut sizes, mut sum) = (vec![], 0);
    while sum < length {
        let size = random.below(most + 1);
        sizes.push(size);
        sum += size;
    }
    sizes.push(0);
    sizes
}

/// What our program `serial` is to tell of this line, with its buffer of 2,048 bytes.
pub fn told(line: &[u8]) -> String {
    let (packets, refused) = frames(line, 2_048);
    let mut text: String = packets.iter().map(|packet| packet_told(packet)).collect();
    let read: usize = packets.iter().map(|packet| 2 + packet.len()).sum();
    text += &match line[read..] {
        _ if refused => "refused 30\nthe line is not read on\n".into(),
        [] => "the line ends behind a packet\n".to_string(),
        [_] => "the line ends inside a length\n".into(),
        [high, low, ref rest @ ..] => {
            let length = usize::from(high) * 256 + usize::from(low);
            format!("the line ends inside a packet of {length}, of which there are {}\n", rest.len())
        }
    };
    text
}

fn packet_told(bytes: &[u8]) -> String {
    let told = match packet::read(bytes) {
        Err(refusal) => format!("refused {}", refusal.number),
        Ok(p) => format!(
            "send {}, receive {}, number {}, ack-through {}, NACKs {}, resend delay {}, flags {}, delay {}, maximum size {}, payload {}",
            p.send, p.recv, p.seq, p.ack, p.nacks.len() / 4, p.resend, p.flags, p.delay, p.max, p.payload.len()
        ),
    };
    format!("packet of {}: {told}\n", bytes.len())
}
