//! A host that drives the Rust's stream and notes, for each thing that the Rust did, the calls of ours that do the same and what
//! they must answer. The Rust does several things in one `poll`; the state is compared where the Rust shows it, at the end.
use crate::{
    ack::{self, MISSING},
    active::{Rig, Timing},
    calls::{Buffer, Call},
    common::{checksum, Random},
    model::timer as model,
    packet::Packet,
    runtime::Bench,
    step::Step,
    timer,
};
use std::collections::{BTreeMap, BTreeSet, VecDeque};

pub const OUTPUT: &str = "output too short";

/// What the Rust cuts at.
pub const CHUNK: usize = 1_812;
const PLACE: usize = CHUNK + 1_044;

pub struct Host {
    pub rig: Rig,
    pub steps: Vec<Step>,
    pub ids: [u32; 2],
    s: u32,
    /// The number that each of our places holds, by document 01's rule: the lowest free ones, ascending.
    places: Vec<Option<u32>>,
    store: Vec<u8>,
    /// What ours must have stored under each number, and the numbers where that is not what the Rust has.
    packets: BTreeMap<u32, Vec<u8>>,
    mended: BTreeSet<u32>,
    /// The numbers in flight that were sent more than once, which the Rust does not remember.
    resent: BTreeSet<u32>,
    /// The client's messages that the Rust did not read yet.
    pub client: VecDeque<Vec<u8>>,
    /// The last clock that a call of ours accepted.
    clock: u64,
}

impl Host {
    pub fn new(ids: [u32; 2], s: u32, first: u32, places: usize, fill: u8) -> Self {
        let mut host = Self {
            rig: Rig::new(ids, s, first, usize::MAX),
            steps: vec![],
            ids,
            s,
            places: vec![None; places],
            store: vec![fill; places * PLACE],
            packets: BTreeMap::new(),
            mended: BTreeSet::new(),
            resent: BTreeSet::new(),
            client: VecDeque::new(),
            clock: 0,
        };
        host.note(
            Call::Start { s, slot: 1, store: Buffer::of(512, 0) },
            "start",
            vec![0, 1, s.into(), u64::from(s) + 1, s.into(), 0],
        );
        let store = Buffer::of(host.store.len(), fill);
        host.note(Call::Begin { first, chunk: CHUNK as u32, count: places as u32, store }, "begin", vec![0]);
        host.show();
        host
    }

    fn note(&mut self, call: Call, word: &'static str, head: Vec<u64>) -> &mut Step {
        self.steps.push(Step { call, word, head, state: None, sum: None, listed: None });
        self.steps.last_mut().expect("just noted")
    }

    /// The last answer must show the state that the Rust has now.
    pub fn show(&mut self) {
        let state = self.state();
        self.steps.last_mut().expect("a call").state = Some(state);
    }

    fn state(&self) -> Vec<u64> {
        let (timing, timer, sampled) = (self.rig.timing(), self.rig.timer(), self.rig.sampled());
        let (rtt, deviation) = if sampled { (timing.rtt, timing.deviation) } else { (0, 0) };
        let in_flight: BTreeMap<u32, u64> = self.rig.unacked().into_iter().collect();
        let stored: Vec<_> = self.places.iter().enumerate().filter_map(|(i, number)| Some((i, (*number)?))).collect();
        let mut state =
            vec![CHUNK as u64, self.places.len() as u64, self.rig.next_number().into(), self.rig.window() as u64];
        state.extend([sampled.into(), rtt, deviation]);
        state.extend([timer.is_some().into(), timer.unwrap_or(0), self.clock, stored.len() as u64]);
        for (i, number) in stored {
            let (sent, mark) = in_flight.get(&number).map_or((0, 1), |sent| (*sent, 2));
            let resent = self.resent.contains(&number).into();
            state.extend([i as u64, number.into(), self.packets[&number].len() as u64, sent, mark, resent]);
        }
        state
    }

    pub fn free(&self) -> usize {
        self.places.iter().filter(|place| place.is_none()).count()
    }

    pub fn accept(&mut self, above: u32) {
        let number = self.s + above;
        self.rig.accept(number, &[1]).expect("inside the lookahead");
        let held = (self.rig.highest() - self.s) as usize - self.rig.missing().len();
        let head = vec![0, 1, self.s.into(), u64::from(self.s) + 1, self.rig.highest().into(), held as u64];
        self.note(Call::Accept { number, payload: vec![1] }, "accept", head);
    }

    /// One `poll`: the sending loop and the client's messages, then resending if the timer is due.
    pub fn poll(&mut self, random: &mut Random) {
        let (due, new_path) = (self.due(), !random.one_in(3));
        let mut waiting: VecDeque<u32> = self.rig.pending().into();
        let unread = self.rig.unread();
        self.rig.set_new_path(new_path);
        assert!(!self.rig.poll(), "nothing ends the stream");
        let (again, sent) = self.sent();
        let mut sent = sent.into_iter().peekable();
        for message in self.client.drain(..unread - self.rig.unread()).map(Some).chain([None]).collect::<Vec<_>>() {
            while let Some((number, packet)) = sent.next_if(|(number, _)| waiting.front() == Some(number)) {
                assert_eq!(self.rig.packet(number), Some(&packet[..]), "sent as it is kept");
                waiting.pop_front();
                self.send(random, number);
            }
            let output = Buffer::of(random.below(4), random.byte());
            let sum = checksum(&output.bytes());
            let refusal = if waiting.is_empty() { 17 } else { 22 };
            self.note(Call::Send { clock: Bench::clock(), output }, "send", vec![refusal, 0, 0]).sum = Some(sum);
            if let Some(message) = message {
                waiting = self.submitted(message).into();
            }
        }
        assert!(sent.next().is_none(), "sent in the order of the numbers");
        match due {
            true => self.resent(random, new_path, again),
            false => self.show(),
        }
    }

    pub fn due(&self) -> bool {
        self.rig.timer().is_some_and(|at| at <= Bench::clock())
    }

    /// The packets that the Rust sent again, and those that it sent first; its plain acks are another topic.
    fn sent(&mut self) -> (Vec<(u32, Vec<u8>)>, Vec<(u32, Vec<u8>)>) {
        let number = |packet: &[u8]| Packet::peek(packet).expect("the Rust's own packet").seq_nro();
        let sent = self.rig.sent().into_iter().map(|(packet, again)| (number(&packet), packet, again));
        let (again, first): (Vec<_>, Vec<_>) = sent.filter(|(number, ..)| *number != 0).partition(|(.., again)| *again);
        let plain = |(number, packet, _)| (number, packet);
        (again.into_iter().map(plain).collect(), first.into_iter().map(plain).collect())
    }

    /// Our submit of a message that the Rust read, and the numbers of its packets.
    fn submitted(&mut self, message: Vec<u8>) -> Vec<u32> {
        let first = self.packets.last_key_value().map_or(self.first(), |(number, _)| number + 1);
        let numbers: Vec<u32> = (first..).take(message.len().div_ceil(CHUNK)).collect();
        for number in &numbers {
            let rust = self.rig.packet(*number).expect("it was just made").to_vec();
            let (packet, listed) = ack::mended(&self.rig, rust);
            self.mended.extend(listed.map(|_| *number));
            let i = self.places.iter().position(Option::is_none).expect("the run keeps places free");
            self.places[i] = Some(*number);
            self.store[i * PLACE..i * PLACE + packet.len()].copy_from_slice(&packet);
            self.packets.insert(*number, packet);
        }
        let (ids, sum) = (self.ids, checksum(&self.store));
        let listed = self.mended.contains(&first).then_some(MISSING);
        let step = self.note(Call::Submit { ids, bytes: message }, "submit", vec![0, numbers.len() as u64]);
        (step.sum, step.listed) = (Some(sum), listed);
        numbers
    }

    /// The first number of all: no packet was made before.
    fn first(&self) -> u32 {
        match self.steps[1].call {
            Call::Begin { first, .. } => first,
            _ => unreachable!("the second call starts the sender"),
        }
    }

    /// Writes a packet into an output of some length, after one that is too short now and then.
    fn write_out(
        &mut self,
        random: &mut Random,
        number: u32,
        call: impl Fn(Buffer) -> Call,
        word: &'static str,
        head: &[u64],
    ) {
        let packet = self.packets[&number].clone();
        if random.one_in(16) {
            let short = [0, random.below(packet.len()), packet.len() - 1][random.below(3)];
            let output = random.buffer(short);
            let sum = checksum(&output.bytes());
            let step = self.note(call(output), word, [&[7], &vec![0; head.len()][..]].concat());
            (step.sum, step.listed) = (Some(sum), Some(OUTPUT));
        }
        let more = [0, 0, 1, random.below(60)][random.below(4)];
        let output = random.buffer(packet.len() + more);
        let mut bytes = output.bytes();
        bytes[..packet.len()].copy_from_slice(&packet);
        let listed = self.mended.contains(&number).then_some(MISSING);
        let step = self.note(call(output), word, [&[0], head].concat());
        (step.sum, step.listed) = (Some(checksum(&bytes)), listed);
    }

    fn send(&mut self, random: &mut Random, number: u32) {
        let (clock, length) = (Bench::clock(), self.packets[&number].len() as u64);
        self.write_out(random, number, |output| Call::Send { clock, output }, "send", &[number.into(), length]);
        self.clock = clock;
    }

    /// The packet of this rank in flight.
    pub fn fetch(&mut self, random: &mut Random, rank: usize) {
        let number = self.rig.unacked()[rank].0;
        let length = self.packets[&number].len() as u64;
        self.write_out(random, number, |output| Call::Fetch { rank: rank as u32, output }, "fetch", &[length]);
    }

    pub fn no_such_rank(&mut self, rank: u32, output: Buffer) {
        let sum = checksum(&output.bytes());
        self.note(Call::Fetch { rank, output }, "fetch", vec![17, 0]).sum = Some(sum);
    }

    /// `resend` alone, where the timer is due.
    pub fn resend(&mut self, random: &mut Random) {
        let new_path = !random.one_in(3);
        self.resend_by(random, new_path);
    }

    pub fn resend_by(&mut self, random: &mut Random, new_path: bool) {
        self.rig.set_new_path(new_path);
        self.rig.resend();
        let (again, first) = self.sent();
        assert!(first.is_empty());
        self.resent(random, new_path, again);
    }

    /// Our resend after the Rust's, which sends inside the call: the packets are those of the first ranks.
    fn resent(&mut self, random: &mut Random, new_path: bool, again: Vec<(u32, Vec<u8>)>) {
        let clock = Bench::clock();
        self.clock = clock;
        let path = if new_path { [1, 255][random.below(2)] } else { 0 };
        self.note(Call::Resend { clock, path }, "resend", vec![0, again.len() as u64]);
        self.resent.extend(again.iter().map(|(number, _)| *number));
        self.show();
        for (rank, (number, packet)) in again.into_iter().enumerate() {
            assert!(
                self.rig.unacked()[rank].0 == number && self.rig.packet(number) == Some(&packet[..]),
                "the first ranks"
            );
            self.fetch(random, rank);
        }
    }

    /// A call of ours that is refused where the Rust, too, does nothing.
    pub fn refused(&mut self, call: Call, word: &'static str, refusal: u64) {
        self.note(call, word, vec![refusal, 0]);
        self.show();
        if word == "submit" {
            self.steps.last_mut().expect("just noted").sum = Some(checksum(&self.store));
        }
    }

    /// The same, and the Rust goes on in another way, which ends the run.
    pub fn refused_alone(&mut self, call: Call, word: &'static str, refusal: u64, listed: &'static str) {
        self.refused(call, word, refusal);
        self.steps.last_mut().expect("just noted").listed = Some(listed);
    }

    pub fn acks(&mut self, through: u32, nacks: Vec<u32>) {
        let (flying, before, clock) = (self.rig.unacked(), self.before(), Bench::clock());
        self.rig.handle_acks(through, &nacks);
        let left = self.rig.unacked();
        let acked: Vec<_> = flying.into_iter().filter(|packet| !left.contains(packet)).collect();
        let count = acked.len();
        self.clock = clock;
        for place in &mut self.places {
            *place = place.filter(|number| self.rig.packet(*number).is_some());
        }
        let listed = self.measured(before, acked);
        self.note(Call::Acks { through, nacks, clock }, "acks", vec![0, count as u64]).listed = listed;
        self.show();
    }

    /// The Rust's timing: RTT and deviation.
    fn before(&self) -> timer::Before {
        let timing = self.rig.timing();
        self.rig.sampled().then_some((timing.rtt as u32, timing.deviation as u32))
    }

    /// The Rust took a sample of each of these packets, one after the other. Its timing must be what its own functions make of them; then ours is set in
    /// its place, which takes none of a packet that was sent more than once, and the reason is told where the two are others.
    fn measured(&mut self, before: timer::Before, acked: Vec<(u32, u64)>) -> Option<&'static str> {
        let whole = |timing: &Timing| Some((timing.rtt as u32, timing.deviation as u32));
        let (first, mut again) = (before.is_none() && acked.len() == 1, false);
        let (mut rust, mut ours, mut last) = (before, before, None);
        for (number, sent) in acked {
            let age = (Bench::clock() - sent) as u32;
            rust = whole(&timer::unmended(rust, age));
            if self.resent.remove(&number) {
                again = true;
                continue;
            }
            let mended = timer::mended(ours, age, &timer::unmended(ours, age));
            (ours, last) = (whole(&mended), Some(mended));
        }
        assert_eq!(self.before(), rust, "the Rust's own samples");
        if again {
            let rto = model::rto(ours);
            let kept = ours.map(|(rtt, deviation)| Timing { rtt: rtt.into(), deviation: deviation.into(), rto });
            self.rig.set_timing(kept.as_ref());
            return Some(timer::RESENT);
        }
        let mended = last?;
        let listed = timer::reason(&mended, &self.rig.timing(), first);
        self.rig.set_timing(Some(&mended));
        listed
    }
}
