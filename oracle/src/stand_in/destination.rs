//! Stand-in for `crate::destination`: a route that is there or not, as it was told.
use super::{primitives::DestinationId, runtime::Runtime};

/// The given text fills in where a packet goes to. That is not looked at, only which of the two it is.
#[allow(dead_code)]
pub enum DeliveryStyle {
    Unspecified { destination_id: DestinationId },
    ViaRoute { routing_path: routing_path::RoutingPath },
}

pub mod routing_path {
    use super::Runtime;
    use std::{
        future::Future,
        marker::PhantomData,
        pin::Pin,
        task::{Context, Poll},
    };

    #[derive(Clone)]
    pub struct RoutingPath;

    /// What the host answers when the Rust asks for a path after a loss.
    pub struct RoutingPathHandle<R: Runtime> {
        pub new_path: bool,
        pub runtime: PhantomData<R>,
    }

    impl<R: Runtime> RoutingPathHandle<R> {
        pub fn routing_path(&mut self) -> Option<RoutingPath> {
            None
        }
        pub fn recreate_routing_path(&mut self) -> Option<RoutingPath> {
            self.new_path.then_some(RoutingPath)
        }
    }

    impl<R: Runtime> Future for RoutingPathHandle<R> {
        type Output = ();

        /// A handle that is done ends the stream; this one never is.
        fn poll(self: Pin<&mut Self>, _: &mut Context<'_>) -> Poll<()> {
            Poll::Pending
        }
    }
}
