//! Document 01, "Packet on the wire": reading; destinations as document 02, request [4], has them.
use super::{refuse, Refusal};
use std::ops::Range;

pub const SIGNATURE: u16 = 1 << 3;
pub const FROM: u16 = 1 << 5;
pub const DELAY: u16 = 1 << 6;
pub const MAX_SIZE: u16 = 1 << 7;
pub const OFFLINE: u16 = 1 << 11;

/// The fields of a packet; a part is where it stands in the packet.
pub struct Packet {
    pub send: u32,
    pub recv: u32,
    pub seq: u32,
    pub ack: u32,
    pub nacks: Range<usize>,
    pub resend: u8,
    pub flags: u16,
    pub delay: u16,
    pub destination: Range<usize>,
    pub max: u16,
    pub signature: Range<usize>,
    pub leftover: usize,
    pub payload: Range<usize>,
}

/// The number that stands big-endian in these bytes.
fn number(bytes: &[u8]) -> u32 {
    bytes.iter().fold(0, |number, byte| number << 8 | u32::from(*byte))
}

pub fn read(packet: &[u8]) -> Result<Packet, Refusal> {
    let length = packet.len();
    refuse("read", &[(2, length > 65_535), (1, length < 22)])?;
    let n = usize::from(packet[16]);
    refuse("read", &[(1, length < 22 + 4 * n)])?;
    let behind_nacks = 17 + 4 * n;
    let o = number(&packet[behind_nacks + 3..behind_nacks + 5]) as usize;
    refuse("read", &[(1, length < 22 + 4 * n + o)])?;

    let flags = number(&packet[behind_nacks + 1..behind_nacks + 3]) as u16;
    let has = |bit: u16| flags & bit != 0;
    let mut options = Options { packet, at: 22 + 4 * n, end: 22 + 4 * n + o };
    let delay = if has(DELAY) { number(&packet[options.next(2)?]) } else { 0 };
    let (destination, signs) = if has(FROM) { options.destination()? } else { (options.next(0)?, 0) };
    let max = if has(MAX_SIZE) { number(&packet[options.next(2)?]) } else { 0 };
    refuse("read", &[(5, has(OFFLINE) && !has(FROM)), (6, has(OFFLINE) && has(FROM))])?;
    let signature = match (has(SIGNATURE), has(FROM)) {
        (false, _) => options.next(0)?,
        (true, true) => options.next(signs)?,
        // Without a destination: all that remain, none included.
        (true, false) => options.next(options.end - options.at)?,
    };
    Ok(Packet {
        send: number(&packet[0..4]),
        recv: number(&packet[4..8]),
        seq: number(&packet[8..12]),
        ack: number(&packet[12..16]),
        nacks: 17..behind_nacks,
        resend: packet[behind_nacks],
        flags,
        delay: delay as u16,
        destination,
        max: max as u16,
        signature,
        leftover: options.end - options.at,
        payload: options.end..length,
    })
}

/// The option area: what is not read yet.
struct Options<'a> {
    packet: &'a [u8],
    at: usize,
    end: usize,
}

impl Options<'_> {
    fn next(&mut self, count: usize) -> Result<Range<usize>, Refusal> {
        refuse("read", &[(3, self.end - self.at < count)])?;
        self.at += count;
        Ok(self.at - count..self.at)
    }

    /// 3 under 387 bytes, 4 for type or L, 3 for its end, 4 for the key type. Beside it the length of its signatures.
    fn destination(&mut self) -> Result<(Range<usize>, usize), Refusal> {
        let rest = &self.packet[self.at..self.end];
        refuse("read", &[(3, rest.len() < 387)])?;
        let certificate = number(&rest[385..387]) as usize;
        let taken = match rest[384] {
            0 => certificate == 0,
            5 => certificate >= 4,
            _ => false,
        };
        refuse("read", &[(4, !taken), (3, rest.len() < 387 + certificate)])?;
        let kind = if rest[384] == 0 { 0 } else { number(&rest[387..389]) };
        let (signs, _) = lengths(kind).unwrap_or((0, 0));
        refuse("read", &[(4, signs == 0 || kind == 3 && certificate < 8)])?;
        Ok((self.next(387 + certificate)?, signs))
    }
}

/// The fixed list of signing types: how long a signature and a key are, where the type is listed.
pub fn lengths(kind: u32) -> Option<(usize, usize)> {
    Some(match kind {
        0 => (40, 128),
        1 => (64, 64),
        2 => (96, 96),
        3 => (132, 132),
        7 | 11 => (64, 32),
        _ => return None,
    })
}

/// How long the signatures of these bytes are, where they are one destination and nothing more; else 0.
pub fn signature_length(bytes: &[u8]) -> usize {
    let mut options = Options { packet: bytes, at: 0, end: bytes.len() };
    match options.destination() {
        Ok((whole, signs)) if whole.len() == bytes.len() => signs,
        _ => 0,
    }
}
