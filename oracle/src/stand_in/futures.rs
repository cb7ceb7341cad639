//! Stand-in for the crate `futures`.
use std::{
    future::Future,
    pin::Pin,
    task::{Context, Poll},
};

pub trait FutureExt: Future + Unpin {
    fn poll_unpin(&mut self, cx: &mut Context<'_>) -> Poll<Self::Output> {
        Pin::new(self).poll(cx)
    }
}

impl<F: Future + Unpin> FutureExt for F {}
