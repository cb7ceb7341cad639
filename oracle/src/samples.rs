//! Packets to read: laid out by hand from document 01's table, so that a wrong one can be made as easily as a right one.
use crate::common::Random;

const SIGNATURE: u16 = 1 << 3;
const FROM: u16 = 1 << 5;
const DELAY: u16 = 1 << 6;
const MAX_SIZE: u16 = 1 << 7;
const OFFLINE: u16 = 1 << 11;

/// A packet in pieces. The two counts on the wire follow from `nacks` and `options`.
pub struct Sample {
    head: Vec<u8>,
    nacks: Vec<u8>,
    resend_delay: u8,
    pub flags: u16,
    pub options: Vec<u8>,
    payload: Vec<u8>,
}

impl Sample {
    fn plain(flags: u16, options: Vec<u8>) -> Self {
        Self { head: vec![0; 16], nacks: vec![], resend_delay: 0, flags, options, payload: vec![] }
    }

    /// A packet that reads, but for a size above 65,535 now and then.
    pub fn any(random: &mut Random) -> Self {
        // Bit 11 is left to the damaged ones.
        let mut flags = random.word() as u16 & !OFFLINE;
        if random.one_in(2) {
            flags &= !FROM;
        }
        let mut options = options(random, flags);
        if random.one_in(4) {
            let leftover = random.from_to(1, 80);
            options.extend(random.bytes(leftover));
        }
        let nacks = [0, 0, random.below(4), random.below(256), 255][random.below(5)];
        let payload = [0, 1, random.below(40), random.below(400)][random.below(4)];
        let mut sample = Self {
            head: [random.word(), random.word(), random.word(), random.word()]
                .iter()
                .flat_map(|word| word.to_be_bytes())
                .collect(),
            nacks: random.bytes(4 * nacks),
            resend_delay: random.byte(),
            flags,
            options,
            payload: random.bytes(payload),
        };
        if random.one_in(400) {
            let length = random.from_to(65_530, 65_540);
            sample.stretch(random, length);
        }
        sample
    }

    /// Lengthens payload or options so that the whole packet has `length` bytes.
    fn stretch(&mut self, random: &mut Random, length: usize) {
        let more = random.bytes(length - self.packet().len());
        match random.one_in(2) && self.options.len() + more.len() <= 65_535 {
            true => self.options.extend(more),
            false => self.payload.extend(more),
        }
    }

    fn options_at(&self) -> usize {
        22 + self.nacks.len()
    }

    pub fn packet(&self) -> Vec<u8> {
        let mut packet = self.head.clone();
        packet.push((self.nacks.len() / 4) as u8);
        packet.extend(&self.nacks);
        packet.push(self.resend_delay);
        packet.extend(self.flags.to_be_bytes());
        packet.extend((self.options.len() as u16).to_be_bytes());
        packet.extend(&self.options);
        packet.extend(&self.payload);
        packet
    }
}

/// The flagged options in wire order; a signature without a destination has any length.
fn options(random: &mut Random, flags: u16) -> Vec<u8> {
    let kind = random.pick(&KINDS);
    options_of(random, flags, kind)
}

/// The same, with a destination of this kind.
fn options_of(random: &mut Random, flags: u16, kind: Kind) -> Vec<u8> {
    let mut options = vec![];
    if flags & DELAY != 0 {
        options.extend(random.bytes(2));
    }
    if flags & FROM != 0 {
        options.extend(destination_of(random, kind));
    }
    if flags & MAX_SIZE != 0 {
        options.extend(random.bytes(2));
    }
    if flags & SIGNATURE != 0 {
        let length = if flags & FROM != 0 { kind.signs } else { [0, 40, 64, random.below(140)][random.below(4)] };
        options.extend(random.bytes(length));
    }
    options
}

/// A kind of destination: certificate type, the least L, key type, and how long its signatures are.
#[derive(Clone, Copy)]
pub struct Kind {
    certificate: u8,
    least: usize,
    key: u16,
    pub signs: usize,
}

const fn kind(certificate: u8, least: usize, key: u16, signs: usize) -> Kind {
    Kind { certificate, least, key, signs }
}

/// Every kind that document 02's list takes.
pub const KINDS: [Kind; 7] = [
    kind(0, 0, 0, 40),
    kind(5, 4, 0, 40),
    kind(5, 4, 1, 64),
    kind(5, 4, 2, 96),
    kind(5, 8, 3, 132),
    kind(5, 4, 7, 64),
    kind(5, 4, 11, 64),
];

/// A destination of any of them, and how long its signatures are.
pub fn destination(random: &mut Random) -> (Vec<u8>, usize) {
    let kind = random.pick(&KINDS);
    (destination_of(random, kind), kind.signs)
}

/// 384 key bytes, certificate type, L, and in type 5 the key type.
pub fn destination_of(random: &mut Random, kind: Kind) -> Vec<u8> {
    let length = if kind.certificate == 0 || random.one_in(2) { kind.least } else { random.from_to(kind.least, 90) };
    formed(random, kind.certificate, length, kind.key)
}

/// Bytes of this form, whether it is taken or not.
fn formed(random: &mut Random, certificate: u8, length: usize, key: u16) -> Vec<u8> {
    let mut destination = random.bytes(384);
    destination.push(certificate);
    destination.extend((length as u16).to_be_bytes());
    let mut inside = random.bytes(length);
    key.to_be_bytes().iter().zip(&mut inside).for_each(|(byte, place)| *place = *byte);
    destination.extend(inside);
    destination
}

/// A good packet with one thing wrong.
pub fn damaged(random: &mut Random) -> Vec<u8> {
    let mut sample = Sample::any(random);
    let kind = random.below(8);
    if (3..=6).contains(&kind) {
        sample.flags |= FROM;
        sample.options = options(random, sample.flags);
    }
    let at = sample.options_at();
    let certificate = at + 384 + 2 * usize::from(sample.flags & DELAY != 0);
    let mut packet = sample.packet();
    match kind {
        0 => packet.truncate(random.below(packet.len())),
        1 => {
            let changed = random.below(packet.len());
            packet[changed] ^= 1 << random.below(8);
        }
        2 => off_by_one(&mut packet[16..17], random),
        3 => packet[certificate] = random.byte(),
        4 => {
            let length = random.below(6) as u8;
            packet[certificate + 1..certificate + 3].copy_from_slice(&[0, length]);
        }
        5 => off_by_one(&mut packet[certificate + 1..certificate + 3], random),
        6 => {
            // The key type, where there is one.
            let place = certificate + 3 + random.below(2);
            packet.get_mut(place).map(|byte| *byte = random.below(14) as u8);
        }
        _ if random.one_in(2) => off_by_one(&mut packet[at - 2..at], random),
        _ => packet[at - 4] |= (OFFLINE >> 8) as u8,
    }
    packet
}

/// One more or one less in the last byte of a count, around the end.
fn off_by_one(count: &mut [u8], random: &mut Random) {
    let last = count.last_mut().unwrap();
    *last = last.wrapping_add([1, 255][random.below(2)]);
}

/// Packets at each limit of document 01, the smallest inputs of the listed differences among them.
pub fn limits() -> Vec<Vec<u8>> {
    let mut packets: Vec<_> = (0..=23).map(|length| vec![0; length]).collect();
    packets.extend([65_534, 65_535, 65_536, 65_540].map(|length| vec![0; length]));
    packets.push(Sample::plain(SIGNATURE, vec![0]).packet());

    let mut random = Random::of(0, 0);
    let parts = [SIGNATURE, FROM, DELAY, MAX_SIZE];
    for flags in
        (0..16).map(|subset| (0..4).filter(|bit| subset >> bit & 1 == 1).fold(0, |flags, bit| flags | parts[bit]))
    {
        // Every length of the option area around its own, and, where there is a destination, around its two ends.
        let whole = options(&mut random, flags);
        for cut in (0..=whole.len()).filter(|cut| *cut < 8 || (383..396).contains(cut) || cut + 140 > whole.len()) {
            packets.push(Sample::plain(flags, whole[..cut].to_vec()).packet());
            packets.push(Sample::plain(flags | OFFLINE, whole[..cut].to_vec()).packet());
        }
        packets.push(Sample::plain(flags, [whole, vec![9]].concat()).packet());
    }
    packets.extend((0..16).map(|bit| Sample::plain(1 << bit, vec![1; 3]).packet()));
    packets.extend(key_types(&mut random));

    for count in [1, 254, 255] {
        let mut sample = Sample::plain(0, vec![]);
        sample.nacks = random.bytes(4 * count);
        let packet = sample.packet();
        packets.extend([packet[..packet.len() - 1].to_vec(), packet[..17 + 4 * count - 1].to_vec(), packet]);
    }
    // The longest option area that fits, and one byte too many.
    packets.extend([65_513, 65_514].map(|length| Sample::plain(DELAY, vec![3; length]).packet()));
    packets
}

/// Destinations at each limit of document 02's list: each type with its end and its signature one short, whole and one long, and every type
/// from 0 to 13 at L 0, 3, 4, 7 and 8.
fn key_types(random: &mut Random) -> Vec<Vec<u8>> {
    let mut packets = vec![];
    for kind in KINDS {
        let whole = options_of(random, FROM | SIGNATURE, kind);
        for cut in [386, whole.len() - kind.signs - 1, whole.len() - kind.signs, whole.len() - 1, whole.len()] {
            packets.push(Sample::plain(FROM, whole[..cut].to_vec()).packet());
            packets.push(Sample::plain(FROM | SIGNATURE, whole[..cut].to_vec()).packet());
        }
        packets.push(Sample::plain(FROM | SIGNATURE, [whole, vec![9]].concat()).packet());
    }
    for certificate in [0, 1, 4, 5, 6] {
        for (length, key) in [0, 3, 4, 7, 8].into_iter().flat_map(|length| (0..14).map(move |key| (length, key))) {
            let options = [formed(random, certificate, length, key), vec![7; 132]].concat();
            packets.push(Sample::plain(FROM | SIGNATURE, options).packet());
        }
    }
    packets
}
