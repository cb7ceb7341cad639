//! Stand-in for `crate::primitives`. `Destination::parse_frame` was not given: this one follows the rules of documents 01 and 02,
//! so what it says of a destination's form is no oracle. That it is called at the right place of the options is the Rust's.
use super::{
    bytes::Bytes,
    crypto::SigningPublicKey,
    error::parser::{DestinationParseError, OfflineSignatureParseError},
    nom::{bytes::complete::take, Err, IResult, Input},
};

#[derive(Clone)]
pub struct Destination {
    bytes: Vec<u8>,
    /// The address at which it was read, from which the comparison tells its place in the packet.
    address: usize,
    key: SigningPublicKey,
}

/// How long a signature of this type is, 0 where the type is not listed.
fn signature_length(kind: u64) -> usize {
    match kind {
        0 => 40,
        1 | 7 | 11 => 64,
        2 => 96,
        3 => 132,
        _ => 0,
    }
}

impl Destination {
    pub fn new(bytes: &[u8]) -> Self {
        Self::signing(bytes, 0)
    }

    fn signing(bytes: &[u8], length: usize) -> Self {
        Self { bytes: bytes.to_vec(), address: bytes.as_ptr() as usize, key: SigningPublicKey(length) }
    }

    /// 384 key bytes, certificate type (1), length L (2), L bytes: type 0 with L 0, or type 5 with L at least 4 and a listed key type.
    pub fn parse_frame(input: &[u8]) -> IResult<&[u8], Self, DestinationParseError> {
        let other_form = || Result::Err(Err::Error(DestinationParseError::OtherForm));
        let (_, head) = take(387usize)(input)?;
        let length = head[385..].number() as usize;
        if !(head[384] == 0 && length == 0 || head[384] == 5 && length >= 4) {
            return other_form();
        }
        let (rest, whole): (&[u8], &[u8]) = take(387 + length)(input)?;
        let kind = if head[384] == 0 { 0 } else { u64::from(whole[387]) * 256 + u64::from(whole[388]) };
        let signs = signature_length(kind);
        if signs == 0 || kind == 3 && length < 8 {
            return other_form();
        }
        Ok((rest, Self::signing(whole, signs)))
    }

    pub fn verifying_key(&self) -> &SigningPublicKey {
        &self.key
    }
    pub fn serialized_len(&self) -> usize {
        self.bytes.len()
    }
    pub fn serialize(&self) -> Bytes {
        Bytes(self.bytes.clone())
    }

    pub fn bytes(&self) -> &[u8] {
        &self.bytes
    }
    pub fn address(&self) -> usize {
        self.address
    }
}

#[derive(Clone)]
pub struct DestinationId(pub [u8; 32]);

impl DestinationId {
    pub fn to_vec(&self) -> Vec<u8> {
        self.0.to_vec()
    }
}

pub struct OfflineSignature;

impl OfflineSignature {
    /// Offline blocks are refused by this edition of document 01, and how the Rust reads them was not given.
    pub fn parse_frame<'a, R>(
        _input: &'a [u8],
        _key: &SigningPublicKey,
    ) -> IResult<&'a [u8], SigningPublicKey, OfflineSignatureParseError> {
        Result::Err(Err::Error(OfflineSignatureParseError))
    }
}
