//! Document 01, "Sender", with document 02's request [5]: submit, send, acks, resend, fetch.
use super::{
    ack,
    receiver::Receiver,
    refuse,
    sender::{Place, Sender, FREE, IN_FLIGHT, WAITING},
    timer::{fallen, grown, rto, sampled},
    write::Fields,
    Refusal, TOP,
};

/// What 11 and 10 of a submit are about: it tests both states.
pub const STATES: [&str; 2] = ["the sender's state", "the receiver's state"];
pub const SIZES: [&str; 2] = ["the sender's sizes", "the receiver's slot size"];

/// How many packets were made.
pub fn submit(
    sender: &mut Sender,
    receiver: &Receiver,
    ids: [u32; 2],
    bytes: &[u8],
    store: &mut [u8],
) -> Result<usize, Refusal> {
    let count = bytes.len().div_ceil((sender.chunk as usize).max(1));
    let behind_last = u64::from(sender.next) + count as u64;
    let free: Vec<usize> = (0..192).filter(|i| *i < sender.count as usize && sender.places[*i].mark == FREE).collect();
    refuse(
        "submit",
        &[
            (11, !sender.broken().is_empty() || !receiver.broken().is_empty()),
            (10, !sender.wrong(Some(store)).is_empty() || !receiver.wrong(None).is_empty()),
            (21, !sender.marked(WAITING).is_empty()),
            (19, bytes.is_empty() || bytes.len() > 65_535),
            (20, behind_last > TOP.into()),
            (18, free.len() < count),
        ],
    )?;
    let head = ack::fields(receiver, ids);
    for (chunk, i) in bytes.chunks(sender.chunk as usize).zip(free) {
        let fields = Fields { seq: sender.next, payload: chunk.to_vec(), ..head.clone() };
        let packet = fields.packet().0;
        sender.places[i] = Place { number: sender.next, length: packet.len() as u32, sent: 0, mark: WAITING, resent: 0 };
        store[sender.packet_at(i)].copy_from_slice(&packet);
        sender.next += 1;
    }
    Ok(count)
}

/// The number and the length of the packet sent.
pub fn send(sender: &mut Sender, clock: u64, store: &[u8], output: &mut [u8]) -> Result<(u32, usize), Refusal> {
    let lowest = sender.marked(WAITING).first().copied();
    refuse(
        "send",
        &[
            (11, !sender.broken().is_empty()),
            (10, !sender.wrong(Some(store)).is_empty()),
            (24, !sender.clock_wrong(clock).is_empty()),
            (17, lowest.is_none()),
            (22, sender.marked(IN_FLIGHT).len() >= sender.window as usize),
            (7, lowest.is_some_and(|i| sender.places[i].length as usize > output.len())),
        ],
    )?;
    let i = lowest.expect("not 17");
    let packet = &store[sender.packet_at(i)];
    output[..packet.len()].copy_from_slice(packet);
    sender.places[i].mark = IN_FLIGHT;
    sender.places[i].sent = clock;
    sender.timer = sender.timer.or(Some(clock + rto(sender.timing)));
    sender.clock = clock;
    Ok((sender.places[i].number, packet.len()))
}

/// How many numbers went out of flight.
pub fn acks(sender: &mut Sender, through: u32, nacks: &[u32], clock: u64) -> Result<usize, Refusal> {
    refuse(
        "acks",
        &[
            (11, !sender.broken().is_empty()),
            (10, !sender.wrong(None).is_empty()),
            (24, !sender.clock_wrong(clock).is_empty()),
            (8, nacks.len() > 255),
            (23, through > sender.next),
        ],
    )?;
    let mut acked = sender.marked(IN_FLIGHT);
    acked.retain(|i| sender.places[*i].number <= through && !nacks.contains(&sender.places[*i].number));
    for i in &acked {
        // Karn's rule: an ack of a packet that was sent more than once may be for its first copy.
        if sender.places[*i].resent == 0 {
            let sample = (clock - sender.places[*i].sent).min(4_294_967_295);
            sender.timing = sampled(sender.timing, sample as u32);
        }
        sender.window = grown(sender.window);
        sender.places[*i] = Place::default();
    }
    sender.clock = clock;
    Ok(acked.len())
}

/// How many packets are to be sent again: the first so many ranks of `fetch`.
pub fn resend(sender: &mut Sender, clock: u64, new_path: bool) -> Result<usize, Refusal> {
    refuse(
        "resend",
        &[
            (11, !sender.broken().is_empty()),
            (10, !sender.wrong(None).is_empty()),
            (24, !sender.clock_wrong(clock).is_empty()),
            (25, sender.timer.map_or(true, |at| clock < at)),
        ],
    )?;
    sender.clock = clock;
    let timeout = rto(sender.timing);
    let in_flight = sender.marked(IN_FLIGHT);
    if in_flight.is_empty() {
        sender.timer = None;
        return Ok(0);
    }
    let old = |i: &usize| clock - sender.places[*i].sent > timeout;
    let expired: Vec<usize> = in_flight.into_iter().take_while(old).take(sender.window as usize).collect();
    if expired.is_empty() || !new_path {
        sender.timer = Some(clock + timeout);
        return Ok(0);
    }
    sender.timing = None;
    sender.timer = Some(clock + 9_000);
    sender.window = fallen(sender.window);
    for i in &expired {
        sender.places[*i].sent = clock;
        sender.places[*i].resent = 1;
    }
    Ok(expired.len())
}

/// The length of the packet of this rank among those in flight; 0 is the lowest number.
pub fn fetch(sender: &Sender, rank: u32, store: &[u8], output: &mut [u8]) -> Result<usize, Refusal> {
    let ranked = sender.marked(IN_FLIGHT).get(rank as usize).copied();
    refuse(
        "fetch",
        &[
            (11, !sender.broken().is_empty()),
            (10, !sender.wrong(Some(store)).is_empty()),
            (17, ranked.is_none()),
            (7, ranked.is_some_and(|i| sender.places[i].length as usize > output.len())),
        ],
    )?;
    let packet = &store[sender.packet_at(ranked.expect("not 17"))];
    output[..packet.len()].copy_from_slice(packet);
    Ok(packet.len())
}
