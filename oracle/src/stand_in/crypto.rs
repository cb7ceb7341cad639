//! Stand-in for `crate::crypto`: a key that is only a length, and a signer that signs with the bytes it was made with.

#[derive(Clone)]
pub struct SigningPublicKey(pub usize);

impl SigningPublicKey {
    pub fn signature_len(&self) -> usize {
        self.0
    }
}

pub struct SigningPrivateKey(pub Vec<u8>);

impl SigningPrivateKey {
    pub fn sign(&self, _message: &[u8]) -> Vec<u8> {
        self.0.clone()
    }
}
