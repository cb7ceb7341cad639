//! Document 02, request [13]: one sender and one receiver of the model, joined. Packets go one way and plain acks the
//! other, over a channel that loses, repeats, delays and reorders them and alters none. After every move both statements
//! are asserted, and at a run's end that all that was submitted is taken.
use crate::{
    common::Random,
    model::{
        ack, packet,
        receiver::{self, Receiver},
        sender::{self, Sender, FREE, IN_FLIGHT, WAITING},
        sending, Refusal,
    },
};
use std::{collections::BTreeMap, ops::Range};

/// Both ends, what each wrote, and what was submitted, acknowledged and taken so far.
struct Joined {
    first: u32,
    sender: Sender,
    sent: Vec<u8>,
    receiver: Receiver,
    held: Vec<u8>,
    clock: u64,
    /// Whether takes are rare, so that the receiver fills up.
    slow: bool,
    /// What left each end and may yet arrive, once, often or never. The oldest are lost for good.
    packets: Vec<Vec<u8>>,
    acks: Vec<Vec<u8>>,
    /// The bytes submitted under each number, from the first number on.
    chunks: Vec<Vec<u8>>,
    acknowledged: usize,
    taken: Vec<u8>,
    moves: usize,
    met: Met,
}

/// How often each kind of move was met.
type Met = BTreeMap<String, u64>;

/// What must have been met: each call done and refused, and what a channel does to packets and acks.
const LISTED: [&str; 21] = [
    "submit done",
    "submit 18",
    "submit 19",
    "submit 20",
    "submit 21",
    "send done",
    "send 7",
    "send 17",
    "send 22",
    "resend done",
    "resend 25",
    "fetch done",
    "fetch 17",
    "take done",
    "take 17",
    "accept done",
    "accept 13",
    "accept 14",
    "accept 15",
    "acks done",
    "acks that name nothing in flight",
];

const OLDEST: usize = 400;

/// So many moves, in runs of their own; then what was met.
pub fn simulate(seed: u64, moves: usize) -> bool {
    let (mut made, mut runs, mut met) = (0, 0, Met::new());
    while made < moves {
        let mut random = Random::of(seed, runs);
        let mut joined = Joined::start(&mut random, met);
        for _ in 0..random.from_to(1, 8_000) {
            joined.step(&mut random);
        }
        joined.finish();
        (made, met, runs) = (made + joined.moves, joined.met, runs + 1);
    }
    println!("joined (seed {seed}): {made} moves in {runs} runs, both statements held after each");
    met.iter().for_each(|(kind, count)| println!("  {count:>9}  {kind}"));
    let missing: Vec<_> = LISTED.iter().filter(|kind| !met.contains_key(**kind)).collect();
    missing.iter().for_each(|kind| println!("never met: {kind}"));
    missing.is_empty()
}

impl Joined {
    /// The receiver starts after the first number less one, and a slot holds a chunk.
    fn start(random: &mut Random, met: Met) -> Self {
        let first = if random.one_in(4) {
            random.from_to(4_294_966_000, 4_294_967_294) as u32
        } else {
            random.from_to(1, 1_000) as u32
        };
        let chunk = if random.one_in(8) { random.from_to(1, 1_812) } else { random.from_to(1, 20) } as u32;
        let slot = chunk + random.below(3).min(1_812 - chunk as usize) as u32;
        let count = random.from_to(1, 192) as u32;
        let (sent, held) = (random.bytes(count as usize * (chunk as usize + 1_044)), random.bytes(512 * slot as usize));
        Self {
            first,
            sender: sender::start(first, chunk, count, &sent).expect("a sender's start"),
            sent,
            receiver: receiver::start(first - 1, slot, &held).expect("a receiver's start"),
            held,
            clock: random.below(1_000) as u64,
            slow: random.one_in(4),
            packets: vec![],
            acks: vec![],
            chunks: vec![],
            acknowledged: 0,
            taken: vec![],
            moves: 0,
            met,
        }
    }

    /// A move was made: it is counted, and both statements hold.
    fn made<T>(&mut self, call: &str, answer: &Result<T, Refusal>) {
        let refused = |refusal: &Refusal| format!("{call} {}", refusal.number);
        let kind = answer.as_ref().map_or_else(refused, |_| format!("{call} done"));
        *self.met.entry(kind).or_default() += 1;
        self.moves += 1;
        self.holds();
    }

    /// One move at either end.
    fn step(&mut self, random: &mut Random) {
        self.clock += random.pick(&[0, 1, 50, 700, 9_100]);
        match random.below(16) {
            0 | 1 => self.submit(random),
            2..=5 => self.send(random.pick(&[3_000, 3_000, 3_000, 22])),
            6 => self.resend(random.one_in(2)),
            7 => self.fetch(random.below(4) as u32, 3_000),
            8..=10 => self.arrive(random),
            11 | 12 => self.come_back(random),
            13 => self.acknowledge(random.pick(&[1_044, 1_044, 25]), [random.word(), random.word()]),
            _ if self.slow && !random.one_in(200) => self.arrive(random),
            _ => self.take(random.pick(&[1_812, 1_812, 0])),
        }
    }

    fn submit(&mut self, random: &mut Random) {
        let chunk = self.sender.chunk as usize;
        let most = (chunk * random.pick(&[1, 3, 40, 200])).min(70_000);
        let length = if random.one_in(20) { random.pick(&[0, 65_536]) } else { random.from_to(1, most) };
        let bytes = random.bytes(length);
        // The receiving half of the sender's own end is any that keeps its rules; what it holds is not asked here.
        let own = receiver::start(random.word() / 2, 7, &[0; 512 * 7]).expect("a start");
        let answer = sending::submit(&mut self.sender, &own, [random.word(), random.word()], &bytes, &mut self.sent);
        if answer.is_ok() {
            self.chunks.extend(bytes.chunks(chunk).map(<[u8]>::to_vec));
        }
        self.made("submit", &answer);
    }

    fn send(&mut self, room: usize) {
        let mut output = vec![0; room];
        let answer = sending::send(&mut self.sender, self.clock, &self.sent, &mut output);
        if let Ok((_, size)) = answer {
            written(&mut self.packets, &output[..size]);
        }
        self.made("send", &answer);
    }

    fn resend(&mut self, new_path: bool) {
        let answer = sending::resend(&mut self.sender, self.clock, new_path);
        self.made("resend", &answer);
    }

    fn fetch(&mut self, rank: u32, room: usize) {
        let mut output = vec![0; room];
        let answer = sending::fetch(&self.sender, rank, &self.sent, &mut output);
        if let Ok(size) = answer {
            written(&mut self.packets, &output[..size]);
        }
        self.made("fetch", &answer);
    }

    fn acknowledge(&mut self, room: usize, ids: [u32; 2]) {
        let mut output = vec![0; room];
        let answer = ack::acknowledge(&self.receiver, ids, &mut output);
        if let Ok(size) = answer {
            written(&mut self.acks, &output[..size]);
        }
        self.made("acknowledge", &answer);
    }

    fn arrive(&mut self, random: &mut Random) {
        if let Some(packet) = drawn(random, &self.packets) {
            self.accept(&packet);
        }
    }

    /// A packet arrives: it is read, and its number and payload are given to accept.
    fn accept(&mut self, packet: &[u8]) {
        let read = packet::read(packet).expect("what was written reads");
        let answer = receiver::accept(&mut self.receiver, read.seq, &packet[read.payload], &mut self.held);
        self.made("accept", &answer);
    }

    fn come_back(&mut self, random: &mut Random) {
        if let Some(packet) = drawn(random, &self.acks) {
            self.acks(&packet);
        }
    }

    /// An ack arrives: it is read, and its ack-through and NACKs are given to acks.
    fn acks(&mut self, packet: &[u8]) {
        let read = packet::read(packet).expect("what was written reads");
        let nacks: Vec<u32> =
            packet[read.nacks].chunks(4).map(|four| u32::from_be_bytes(four.try_into().expect("four"))).collect();
        let named =
            |i: &usize| self.sender.places[*i].number <= read.ack && !nacks.contains(&self.sender.places[*i].number);
        let bytes: usize =
            self.sender.marked(IN_FLIGHT).iter().filter(|i| named(i)).map(|i| self.payload(*i).len()).sum();
        let answer = sending::acks(&mut self.sender, read.ack, &nacks, self.clock);
        match answer {
            Ok(0) => *self.met.entry("acks that name nothing in flight".into()).or_default() += 1,
            Ok(_) => self.acknowledged += bytes,
            Err(_) => {}
        }
        self.made("acks", &answer);
    }

    fn take(&mut self, room: usize) {
        let mut output = vec![0; room];
        let answer = receiver::take(&mut self.receiver, &self.held, &mut output);
        if let Ok(size) = answer {
            let chunk = &self.chunks[(self.receiver.next - 1 - self.first) as usize];
            assert_eq!(&output[..size], chunk, "what is taken was submitted under its number");
            self.taken.extend(&output[..size]);
        }
        self.made("take", &answer);
    }

    /// The bytes of the packet at this place of the sender, without its head.
    fn payload(&self, i: usize) -> &[u8] {
        let packet = &self.sent[self.sender.packet_at(i)];
        let at: Range<usize> = packet::read(packet).expect("what was made reads").payload;
        &packet[at]
    }

    /// Both statements.
    fn holds(&self) {
        // 1. Every number that the sender has dropped is held or taken, with the bytes submitted. What was taken was
        // asserted when it was taken.
        let stored: Vec<u32> =
            self.sender.places.iter().filter(|place| place.mark != FREE).map(|place| place.number).collect();
        for number in self.receiver.next.max(self.first)..self.sender.next {
            if !stored.contains(&number) {
                let length = self
                    .receiver
                    .held(number)
                    .unwrap_or_else(|| panic!("{number} is dropped and neither held nor taken"));
                let at = number as usize % 512 * self.receiver.slot as usize;
                assert_eq!(
                    self.held[at..at + length],
                    self.chunks[(number - self.first) as usize],
                    "{number} is held with other bytes"
                );
            }
        }
        // 2. The bytes submitted equal those waiting, in flight and acknowledged.
        let bytes = |mark: u32| self.sender.marked(mark).iter().map(|i| self.payload(*i).len()).sum::<usize>();
        let submitted: usize = self.chunks.iter().map(Vec::len).sum();
        assert_eq!(submitted, bytes(WAITING) + bytes(IN_FLIGHT) + self.acknowledged, "a byte is lost or counted twice");
    }

    /// A channel that loses nothing more: every byte arrives, and is taken.
    fn finish(&mut self) {
        let most = self.moves + 100_000;
        while self.receiver.next < self.sender.next || !self.sender.marked(IN_FLIGHT).is_empty() {
            self.clock += 1;
            self.send(3_000);
            self.fetch(0, 3_000);
            let last = self.packets.last().cloned().expect("something flies");
            self.accept(&last);
            self.take(1_812);
            self.acknowledge(1_044, [1, 2]);
            let last = self.acks.last().cloned().expect("an ack");
            self.acks(&last);
            assert!(self.moves < most, "a whole channel does not end");
        }
        assert_eq!(self.taken, self.chunks.concat(), "the image taken is the image submitted");
    }
}

/// What was written may arrive from now on.
fn written(channel: &mut Vec<Vec<u8>>, packet: &[u8]) {
    if channel.len() == OLDEST {
        channel.remove(0);
    }
    channel.push(packet.to_vec());
}

/// Mostly one of the last few, in any order; sometimes one that is long past.
fn drawn(random: &mut Random, channel: &[Vec<u8>]) -> Option<Vec<u8>> {
    let recent = if random.one_in(5) { channel.len() } else { channel.len().min(6) };
    (recent > 0).then(|| channel[channel.len() - 1 - random.below(recent)].clone())
}
