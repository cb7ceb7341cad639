//! Stand-in for the crate `rand`: the given text draws one stream id, in a kind of stream that the comparison does not make.

pub trait Rng {
    fn next_u32(&mut self) -> u32;
}

pub struct Always(pub u32);

impl Rng for Always {
    fn next_u32(&mut self) -> u32 {
        self.0
    }
}
