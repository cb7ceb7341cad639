//! Document 01, "Acknowledgement".
use super::{packet::DELAY, receiver::Receiver, refuse, write::Fields, Refusal};

/// Ids in wire order, ack-through, NACKs and the delay option, all else 0 or empty: a plain ack, and the head of a submitted
/// packet.
pub fn fields(receiver: &Receiver, ids: [u32; 2]) -> Fields {
    let missing = receiver.missing();
    let ack = match missing.get(255) {
        None => receiver.highest,
        Some(number) => number - 1,
    };
    let choking = missing.len() >= 255;
    Fields {
        send: ids[0],
        recv: ids[1],
        ack,
        nacks: missing.into_iter().take(255).collect(),
        flags: if choking { DELAY } else { 0 },
        delay: if choking { 60_001 } else { 0 },
        ..Fields::default()
    }
}

/// The length of the plain ack.
pub fn acknowledge(receiver: &Receiver, ids: [u32; 2], output: &mut [u8]) -> Result<usize, Refusal> {
    let broken = !receiver.broken().is_empty();
    let packet = if broken { vec![] } else { fields(receiver, ids).packet().0 };
    refuse("ack", &[(11, broken), (10, !receiver.wrong(None).is_empty()), (7, packet.len() > output.len())])?;
    output[..packet.len()].copy_from_slice(&packet);
    Ok(packet.len())
}
