//! Document 01, "Packet on the wire": writing.
use super::{
    packet::{signature_length, DELAY, FROM, MAX_SIZE, OFFLINE, SIGNATURE},
    refuse, Refusal,
};

/// What the writer is given.
#[derive(Clone, Default)]
pub struct Fields {
    pub send: u32,
    pub recv: u32,
    pub seq: u32,
    pub ack: u32,
    pub nacks: Vec<u32>,
    pub resend: u8,
    pub flags: u16,
    pub delay: u16,
    pub destination: Vec<u8>,
    pub max: u16,
    pub signature: Vec<u8>,
    pub payload: Vec<u8>,
}

impl Fields {
    fn has(&self, bit: u16) -> bool {
        self.flags & bit != 0
    }

    /// A part or number that is given for a clear bit.
    fn given_for_a_clear_bit(&self) -> bool {
        !self.has(DELAY) && self.delay != 0
            || !self.has(FROM) && !self.destination.is_empty()
            || !self.has(MAX_SIZE) && self.max != 0
            || !self.has(SIGNATURE) && !self.signature.is_empty()
    }

    /// The options in their order, and where in them the signature begins.
    fn options(&self) -> (Vec<u8>, usize) {
        let mut options = vec![];
        if self.has(DELAY) {
            options.extend(self.delay.to_be_bytes());
        }
        options.extend(&self.destination);
        if self.has(MAX_SIZE) {
            options.extend(self.max.to_be_bytes());
        }
        let signature_at = options.len();
        options.extend(&self.signature);
        (options, signature_at)
    }

    /// The whole packet, and where its signature begins. Numbers that do not fit are cut; `write` refuses those.
    pub fn packet(&self) -> (Vec<u8>, usize) {
        let (options, signature_at) = self.options();
        let mut packet = vec![];
        for word in [self.send, self.recv, self.seq, self.ack] {
            packet.extend(word.to_be_bytes());
        }
        packet.push(self.nacks.len() as u8);
        for nack in &self.nacks {
            packet.extend(nack.to_be_bytes());
        }
        packet.push(self.resend);
        packet.extend(self.flags.to_be_bytes());
        packet.extend((options.len() as u16).to_be_bytes());
        let signature_at = packet.len() + signature_at;
        packet.extend(options);
        packet.extend(&self.payload);
        (packet, signature_at)
    }
}

/// The packet's length, and where the signature begins: 0 without bit 3.
pub fn write(fields: &Fields, output: &mut [u8]) -> Result<(usize, usize), Refusal> {
    let (packet, signature_at) = fields.packet();
    let has = |bit: u16| fields.has(bit);
    let signs = signature_length(&fields.destination);
    refuse(
        "write",
        &[
            (8, fields.nacks.len() > 255),
            (5, has(OFFLINE) && !has(FROM)),
            (6, has(OFFLINE) && has(FROM)),
            (9, fields.given_for_a_clear_bit()),
            (4, has(FROM) && signs == 0),
            (9, has(SIGNATURE) && has(FROM) && fields.signature.len() != signs),
            (2, packet.len() > 65_535),
            (7, packet.len() > output.len()),
        ],
    )?;
    output[..packet.len()].copy_from_slice(&packet);
    Ok((packet.len(), if has(SIGNATURE) { signature_at } else { 0 }))
}
