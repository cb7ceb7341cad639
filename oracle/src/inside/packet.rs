// Part of the module of the given packet.rs (see build.sh): its private items, opened for the comparison.
use crate::stand_in::{bytes, nom};

/// A part of the packet as the Rust found it: where it stands, and its bytes.
pub struct Part<'a> {
    pub at: usize,
    pub bytes: &'a [u8],
}

impl<'a> Packet<'a> {
    pub fn flag_bits(&self) -> u16 {
        self.flags.flags
    }

    /// How many option bytes `Flags::new` leaves; `parse_frame` drops that rest, so it is asked again.
    pub fn leftover<R: Runtime>(&self, packet: &'a [u8]) -> usize {
        let options = &packet[MIN_HEADER_SIZE + 4 * self.nacks.len()..packet.len() - self.payload.len()];
        match Flags::new::<R>(self.flags.flags, options) {
            Ok((rest, _)) => rest.len(),
            Result::Err(_) => unreachable!("the same options were read before"),
        }
    }

    pub fn destination_part(&self, packet: &[u8]) -> Option<Part<'_>> {
        let destination = self.flags.destination.as_ref()?;
        Some(Part { at: destination.address() - packet.as_ptr() as usize, bytes: destination.bytes() })
    }

    pub fn signature_part(&self, packet: &[u8]) -> Option<Part<'a>> {
        self.flags.signature.map(|bytes| part_of(packet, bytes))
    }

    pub fn payload_part(&self, packet: &[u8]) -> Part<'a> {
        part_of(packet, self.payload)
    }
}

fn part_of<'a>(packet: &[u8], bytes: &'a [u8]) -> Part<'a> {
    Part { at: bytes.as_ptr() as usize - packet.as_ptr() as usize, bytes }
}

impl PacketBuilder<'_> {
    /// Sets flag bits for which the Rust has no call (4, 8 and 12 to 15); it writes whatever bits are there.
    pub fn with_flag_bits(mut self, bits: u16) -> Self {
        self.flags_builder.flags |= bits;
        self
    }
}
