//! Inside the module of the given active.rs, and so among its private items, which are opened here for the comparison.
use super::*;
use crate::runtime::Bench;

/// The Rust's receiver. It moves packets to `ready` as soon as it may, ours when they are taken.
pub struct Inbound(InboundContext<Bench>);

impl Inbound {
    pub fn start(seq_nro: u32) -> Self {
        Self(InboundContext::new(seq_nro))
    }
    pub fn accept(&mut self, seq_nro: u32, payload: &[u8]) -> Result<(), StreamingError> {
        self.0.handle_packet(seq_nro, payload)
    }
    pub fn take(&mut self) -> Option<Vec<u8>> {
        self.0.pop_message()
    }
    /// The payload that `take` would give.
    pub fn next(&self) -> Option<&[u8]> {
        self.0.ready.front().map(Vec::as_slice)
    }
    pub fn highest(&self) -> u32 {
        self.0.seq_nro
    }
    pub fn missing(&self) -> usize {
        self.0.missing.len()
    }
    pub fn first_missing(&self) -> Option<u32> {
        self.0.missing.first().copied()
    }
    /// Number and length of each payload that is not handed out, `next` being the number of the first that is ready.
    pub fn held(&self, next: u64) -> Vec<(u64, usize)> {
        let ready = (next..).zip(self.0.ready.iter().map(Vec::len));
        ready.chain(self.0.pending.iter().map(|(number, payload)| ((*number).into(), payload.len()))).collect()
    }
    /// How many payloads wait behind a gap.
    pub fn kept(&self) -> usize {
        self.0.pending.len()
    }
    /// Whether a payload waits under this number.
    pub fn keeps(&self, number: u32) -> bool {
        self.0.pending.contains_key(&number)
    }
}

/// RTT, deviation and RTO in whole milliseconds.
pub struct Timing {
    pub rtt: u64,
    pub deviation: u64,
    pub rto: u64,
}

/// One sample, as `handle_acks` takes it; `before` is RTT and deviation, none before the first sample.
pub fn sample(before: Option<(u32, u32)>, sample: u32) -> Timing {
    let milliseconds = |number: u32| Duration::from_millis(number.into());
    let (mut rtt, mut rto) = match before {
        None => (Rtt::new(), Rto::new()),
        // The RTO before plays no part in the one after.
        Some((rtt, deviation)) => {
            (Rtt::Sampled(milliseconds(rtt)), Rto::Sampled((Duration::ZERO, milliseconds(deviation), 1)))
        }
    };
    rtt.calculate_rtt(milliseconds(sample));
    rto.calculate_rto(&rtt, milliseconds(sample));
    timing(&rtt, &rto)
}

fn timing(rtt: &Rtt, rto: &Rto) -> Timing {
    let deviation = match rto {
        Rto::Unsampled(_) => Duration::ZERO,
        Rto::Sampled((_, deviation, _)) => *deviation,
    };
    let [rtt, deviation, rto] = [**rtt, deviation, **rto].map(|duration| duration.as_millis() as u64);
    Timing { rtt, deviation, rto }
}

/// A whole stream of the Rust with stand-ins all round, driven step by step. Time is `Bench::set_clock`.
pub struct Rig {
    stream: Stream<Bench>,
    sent: Receiver<(DeliveryStyle, Vec<u8>, u16, u16)>,
}

impl Rig {
    /// Ids in wire order, the receiver started after `s`, the first number to send, and how many packets the channel
    /// takes before it refuses (refusing makes the Rust's sending loop spin for ever).
    pub fn new(ids: [u32; 2], s: u32, first: u32, room: usize) -> Self {
        let (event_tx, sent) = thingbuf::mpsc::channel(room);
        // Nothing comes from the network: `accept` and `handle_acks` are called as `on_packet` would.
        let (_, cmd_rx) = thingbuf::mpsc::channel(0);
        let context = StreamContext {
            destination: Destination::new(&[]),
            cmd_rx,
            event_tx,
            local: DestinationId([0; 32]),
            recv_stream_id: ids[0],
            remote: DestinationId([0; 32]),
            signing_key: SigningPrivateKey(vec![0; 64]),
        };
        // The one kind of stream that starts after any number, with nothing sent and no timer.
        let kind = StreamKind::InboundPending { send_stream_id: ids[1], seq_nro: s, packets: VecDeque::new() };
        let path = RoutingPathHandle { new_path: true, runtime: core::marker::PhantomData };
        let mut stream = Stream::new(Default::default(), None, context, StreamConfig, kind, path);
        stream.next_seq_nro = first;
        Self { stream, sent }
    }

    /// One `poll`: the sending loop and the client's bytes, resending, and the plain ack, in this order. True if the stream
    /// ended.
    pub fn poll(&mut self) -> bool {
        let mut context = Context::from_waker(core::task::Waker::noop());
        Pin::new(&mut self.stream).poll(&mut context).is_ready()
    }

    /// The plain ack that the Rust would send now, its timer brought forward.
    pub fn plain_ack(&mut self) -> Vec<u8> {
        self.stream.inbound_context.ack_timer = Some(Bench::timer(Duration::ZERO));
        self.poll();
        self.sent().pop().expect("the ack is the last thing that `poll` sends").0
    }

    /// The client's bytes, read by the next `poll` that finds nothing pending.
    pub fn submit(&mut self, bytes: &[u8]) {
        self.stream.stream.written.push_back(bytes.to_vec());
    }
    /// What the host answers when a new path is asked for.
    pub fn set_new_path(&mut self, new_path: bool) {
        self.stream.routing_path_handle.new_path = new_path;
    }

    // Single steps.
    pub fn accept(&mut self, seq_nro: u32, payload: &[u8]) -> Result<(), StreamingError> {
        self.stream.inbound_context.handle_packet(seq_nro, payload)
    }
    pub fn handle_acks(&mut self, ack_through: u32, nacks: &[u32]) {
        self.stream.handle_acks(ack_through, nacks);
    }
    pub fn resend(&mut self) {
        self.stream.resend();
    }
    pub fn set_window(&mut self, window: usize) {
        self.stream.window_size = window;
    }
    /// Replaces RTT, deviation and RTO, so that a run can go on under our rules after a listed difference.
    pub fn set_timing(&mut self, timing: Option<&Timing>) {
        let Some(timing) = timing else {
            (self.stream.rtt, self.stream.rto) = (Rtt::new(), Rto::new());
            return;
        };
        let [rtt, deviation, rto] = [timing.rtt, timing.deviation, timing.rto].map(Duration::from_millis);
        // What `exponential_backoff` counts plays no part: `resend` resets the RTO just before it.
        (self.stream.rtt, self.stream.rto) = (Rtt::Sampled(rtt), Rto::Sampled((rto, deviation, 1)));
    }

    // What can be seen.
    /// The packets that went to the network since the last look, each with whether it had a path of its own.
    pub fn sent(&mut self) -> Vec<(Vec<u8>, bool)> {
        let sent = self.sent.drain().into_iter();
        sent.map(|(style, packet, _, _)| (packet, core::matches!(style, DeliveryStyle::ViaRoute { .. }))).collect()
    }
    /// How many messages of the client are not read yet.
    pub fn unread(&self) -> usize {
        self.stream.stream.written.len()
    }
    /// The highest number that was accepted.
    pub fn highest(&self) -> u32 {
        self.stream.inbound_context.seq_nro
    }
    /// The bytes of a packet that waits or is in flight.
    pub fn packet(&self, number: u32) -> Option<&[u8]> {
        let stored = self.stream.pending.get(&number).or(self.stream.unacked.get(&number));
        stored.map(|packet| &packet.packet[..])
    }
    /// In flight, ascending: number and send time.
    pub fn unacked(&self) -> Vec<(u32, u64)> {
        self.stream.unacked.iter().map(|(number, packet)| (*number, packet.sent.0)).collect()
    }
    /// Waiting, ascending.
    pub fn pending(&self) -> Vec<u32> {
        self.stream.pending.keys().copied().collect()
    }
    pub fn next_number(&self) -> u32 {
        self.stream.next_seq_nro
    }
    pub fn window(&self) -> usize {
        self.stream.window_size
    }
    /// When the RTO timer is due.
    pub fn timer(&self) -> Option<u64> {
        self.stream.rto_timer.as_ref().map(|alarm| alarm.0)
    }
    /// Whether RTT and RTO come from samples.
    pub fn sampled(&self) -> bool {
        core::matches!(self.stream.rtt, Rtt::Sampled(_))
    }
    /// 8,000 and 9,000 stand for RTT and RTO before the first sample.
    pub fn timing(&self) -> Timing {
        timing(&self.stream.rtt, &self.stream.rto)
    }
    pub fn missing(&self) -> Vec<u32> {
        self.stream.inbound_context.missing.iter().copied().collect()
    }
}
