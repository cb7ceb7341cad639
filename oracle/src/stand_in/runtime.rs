//! Stand-in for `crate::runtime`: a clock that is set, timers that look at it, and a client's socket that is
//! a plain queue. One clock a thread.
use super::rand::Rng;
use std::{
    cell::Cell,
    collections::VecDeque,
    fmt::Debug,
    future::Future,
    pin::Pin,
    task::{Context, Poll},
    time::Duration,
};

pub trait Instant: Copy + Debug {
    fn elapsed(&self) -> Duration;
}

pub trait AsyncRead {
    fn poll_read(self: Pin<&mut Self>, cx: &mut Context<'_>, buffer: &mut [u8]) -> Poll<Result<usize, ()>>;
}

pub trait AsyncWrite {
    fn poll_write(self: Pin<&mut Self>, cx: &mut Context<'_>, bytes: &[u8]) -> Poll<Result<usize, ()>>;
}

pub trait Runtime: Clone + Debug + Unpin {
    type Instant: Instant + Unpin;
    type Timer: Future<Output = ()> + Unpin;
    type TcpStream: AsyncRead + AsyncWrite + Unpin;

    fn now() -> Self::Instant;
    fn timer(duration: Duration) -> Self::Timer;
    fn rng() -> impl Rng;
}

thread_local!(static CLOCK: Cell<u64> = const { Cell::new(0) });

/// The runtime of the comparison, in whole milliseconds.
#[derive(Clone, Debug)]
pub struct Bench;

impl Bench {
    pub fn set_clock(milliseconds: u64) {
        CLOCK.set(milliseconds);
    }
    pub fn clock() -> u64 {
        CLOCK.get()
    }
}

impl Runtime for Bench {
    type Instant = Moment;
    type Timer = Alarm;
    type TcpStream = Client;

    fn now() -> Moment {
        Moment(Bench::clock())
    }
    fn timer(duration: Duration) -> Alarm {
        Alarm(Bench::clock() + duration.as_millis() as u64)
    }
    fn rng() -> impl Rng {
        super::rand::Always(7)
    }
}

#[derive(Clone, Copy, Debug)]
pub struct Moment(pub u64);

impl Instant for Moment {
    fn elapsed(&self) -> Duration {
        Duration::from_millis(Bench::clock() - self.0)
    }
}

/// A timer is due when the clock is at or past it.
pub struct Alarm(pub u64);

impl Future for Alarm {
    type Output = ();

    fn poll(self: Pin<&mut Self>, _: &mut Context<'_>) -> Poll<()> {
        match self.0 <= Bench::clock() {
            true => Poll::Ready(()),
            false => Poll::Pending,
        }
    }
}

/// The client's side of the socket: what it wrote and is not read yet. What is delivered to it is not looked at.
#[derive(Default)]
pub struct Client {
    pub written: VecDeque<Vec<u8>>,
}

impl AsyncRead for Client {
    /// One message a read. An open socket with nothing to read is pending; nothing here closes it.
    fn poll_read(mut self: Pin<&mut Self>, _: &mut Context<'_>, buffer: &mut [u8]) -> Poll<Result<usize, ()>> {
        let Some(message) = self.written.pop_front() else { return Poll::Pending };
        buffer[..message.len()].copy_from_slice(&message);
        Poll::Ready(Ok(message.len()))
    }
}

impl AsyncWrite for Client {
    fn poll_write(self: Pin<&mut Self>, _: &mut Context<'_>, bytes: &[u8]) -> Poll<Result<usize, ()>> {
        Poll::Ready(Ok(bytes.len()))
    }
}
