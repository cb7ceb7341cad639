//! Stand-in for the crate `bytes`: growing buffers that are written at their end, numbers big-endian.
use std::ops::{Deref, DerefMut};

pub struct Bytes(pub Vec<u8>);

impl Deref for Bytes {
    type Target = [u8];
    fn deref(&self) -> &[u8] {
        &self.0
    }
}

pub struct BytesMut(Vec<u8>);

impl BytesMut {
    pub fn with_capacity(capacity: usize) -> Self {
        Self(Vec::with_capacity(capacity))
    }
}

impl Deref for BytesMut {
    type Target = [u8];
    fn deref(&self) -> &[u8] {
        &self.0
    }
}

impl DerefMut for BytesMut {
    fn deref_mut(&mut self) -> &mut [u8] {
        &mut self.0
    }
}

pub trait BufMut {
    fn put_slice(&mut self, bytes: &[u8]);

    fn put_u8(&mut self, number: u8) {
        self.put_slice(&[number]);
    }
    fn put_u16(&mut self, number: u16) {
        self.put_slice(&number.to_be_bytes());
    }
    fn put_u32(&mut self, number: u32) {
        self.put_slice(&number.to_be_bytes());
    }
}

impl BufMut for BytesMut {
    fn put_slice(&mut self, bytes: &[u8]) {
        self.0.extend_from_slice(bytes);
    }
}
