//! What a call that is not refused comes to, where document 01 tells cases apart that have no number: they must all occur.
use crate::{
    calls::Call,
    model::{
        answer::World,
        sender::{IN_FLIGHT, WAITING},
        serial::LineReader,
        timer::rto,
        why::why,
    },
};

pub const SHAPES: [&str; 44] = [
    "accept: the next to take",
    "accept: in a gap behind it",
    "accept: above highest",
    "accept: an empty payload",
    "accept: a full slot",
    "take: an empty payload",
    "ack: nothing missing",
    "ack: 1 to 254 missing",
    "ack: 255 missing",
    "ack: more than 255 missing",
    "why: the unusable last number",
    "why: at or below the start",
    "why: taken",
    "why: ready",
    "why: held behind a gap",
    "why: missing",
    "why: not yet seen",
    "why: beyond the span",
    "submit: nothing stored before",
    "submit: among packets in flight",
    "submit: 255 missing",
    "submit: more than 255 missing",
    "send: arms the timer",
    "send: with the timer armed",
    "acks: NACKs ascending",
    "acks: NACKs descending",
    "acks: NACKs with repeats",
    "acks: NACKs in no order",
    "acks: none",
    "acks: all sent more than once",
    "acks: some sent more than once",
    "acks: a first sample",
    "acks: samples after others",
    "acks: a sample above 2^32 - 1",
    "resend: nothing in flight",
    "resend: none expired",
    "resend: expired, no new path",
    "resend: fewer than the window",
    "resend: as many as the window",
    "feed: nothing",
    "feed: half a length",
    "feed: not all of a packet",
    "feed: a packet and no more",
    "feed: bytes behind a packet",
];

const WHY: [(u8, &str); 8] = [
    (1, "why: the unusable last number"),
    (2, "why: at or below the start"),
    (3, "why: taken"),
    (4, "why: ready"),
    (5, "why: held behind a gap"),
    (6, "why: missing"),
    (7, "why: not yet seen"),
    (8, "why: beyond the span"),
];

/// The cases that this call falls under, if it is not refused.
pub fn of(world: &World, call: &Call) -> Vec<&'static str> {
    let (receiver, sender) = (&world.receiver, &world.sender);
    let in_flight = sender.marked(IN_FLIGHT);
    let mut shapes = vec![];
    match call {
        Call::Accept { number, payload } => {
            shapes.push(match *number {
                number if number == receiver.next => "accept: the next to take",
                number if number < receiver.highest => "accept: in a gap behind it",
                _ => "accept: above highest",
            });
            match payload.len() {
                0 => shapes.push("accept: an empty payload"),
                length if length == receiver.slot as usize => shapes.push("accept: a full slot"),
                _ => {}
            }
        }
        Call::Take(_) if receiver.held(receiver.next) == Some(0) => shapes.push("take: an empty payload"),
        Call::Acknowledge { .. } if receiver.broken().is_empty() => shapes.push(match receiver.missing().len() {
            0 => "ack: nothing missing",
            1..=254 => "ack: 1 to 254 missing",
            255 => "ack: 255 missing",
            _ => "ack: more than 255 missing",
        }),
        Call::Why(number) => {
            let case = why(receiver, *number).map_or(0, |(case, _)| case);
            shapes.extend(WHY.iter().find(|(number, _)| *number == case).map(|(_, name)| *name));
        }
        Call::Submit { .. } => {
            shapes.push(match in_flight.len() {
                0 => "submit: nothing stored before",
                _ => "submit: among packets in flight",
            });
            match receiver.broken().is_empty().then(|| receiver.missing().len()) {
                None | Some(0..=254) => {}
                Some(255) => shapes.push("submit: 255 missing"),
                Some(_) => shapes.push("submit: more than 255 missing"),
            }
        }
        Call::Send { .. } if sender.timer.is_none() => shapes.push("send: arms the timer"),
        Call::Send { .. } if !sender.marked(WAITING).is_empty() => shapes.push("send: with the timer armed"),
        Call::Acks { through, nacks, clock } => {
            if nacks.len() > 1 {
                shapes.push(order(nacks));
            }
            let places = in_flight.iter().map(|i| sender.places[*i]);
            let acked = places.filter(|place| place.number <= *through && !nacks.contains(&place.number));
            let (again, once): (Vec<_>, Vec<_>) = acked.partition(|place| place.resent == 1);
            let ages: Vec<u64> = once.iter().map(|place| clock.saturating_sub(place.sent)).collect();
            shapes.push(match (ages.len(), sender.timing) {
                (0, _) if again.is_empty() => "acks: none",
                (0, _) => "acks: all sent more than once",
                (_, None) => "acks: a first sample",
                _ => "acks: samples after others",
            });
            if !again.is_empty() && !ages.is_empty() {
                shapes.push("acks: some sent more than once");
            }
            if ages.iter().any(|age| *age > 4_294_967_295) {
                shapes.push("acks: a sample above 2^32 - 1");
            }
        }
        Call::Resend { clock, path } => {
            let old = |i: &&usize| clock.saturating_sub(sender.places[**i].sent) > rto(sender.timing);
            shapes.push(match in_flight.iter().take_while(old).count() {
                _ if in_flight.is_empty() => "resend: nothing in flight",
                0 => "resend: none expired",
                _ if *path == 0 => "resend: expired, no new path",
                count if count < sender.window as usize => "resend: fewer than the window",
                _ => "resend: as many as the window",
            });
        }
        Call::Feed(portion) => shapes.push(fed(&world.line, portion)),
        _ => {}
    }
    shapes
}

/// What a portion that is not refused comes to.
fn fed(reader: &LineReader, portion: &[u8]) -> &'static str {
    let (length, rest) = match (reader.phase, portion) {
        (_, []) => return "feed: nothing",
        (0, [_]) => return "feed: half a length",
        (0, [high, low, rest @ ..]) => (u64::from(*high) * 256 + u64::from(*low), rest.len() as u64),
        (1, [low, rest @ ..]) => (u64::from(reader.high) * 256 + u64::from(*low), rest.len() as u64),
        _ => (reader.size.saturating_sub(reader.there), portion.len() as u64),
    };
    match rest {
        rest if rest < length => "feed: not all of a packet",
        rest if rest == length => "feed: a packet and no more",
        _ => "feed: bytes behind a packet",
    }
}

/// How two NACKs or more stand.
fn order(nacks: &[u32]) -> &'static str {
    let every = |test: fn(u32, u32) -> bool| nacks.windows(2).all(|pair| test(pair[0], pair[1]));
    match () {
        () if every(|a, b| a < b) => "acks: NACKs ascending",
        () if every(|a, b| a > b) => "acks: NACKs descending",
        () if every(|a, b| a <= b) => "acks: NACKs with repeats",
        () => "acks: NACKs in no order",
    }
}
