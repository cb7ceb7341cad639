//! Stand-in for the crate `thingbuf`: a channel that collects, and refuses when it holds as many as it was made for.

pub mod mpsc {
    use std::{
        cell::RefCell,
        collections::VecDeque,
        rc::Rc,
        task::{Context, Poll},
    };

    pub struct Sender<T> {
        queue: Rc<RefCell<VecDeque<T>>>,
        capacity: usize,
    }

    pub struct Receiver<T>(Rc<RefCell<VecDeque<T>>>);

    pub fn channel<T>(capacity: usize) -> (Sender<T>, Receiver<T>) {
        let queue = Rc::new(RefCell::new(VecDeque::new()));
        (Sender { queue: queue.clone(), capacity }, Receiver(queue))
    }

    #[derive(Debug)]
    pub struct Full;

    impl<T> Sender<T> {
        pub fn try_send(&self, item: T) -> Result<(), Full> {
            let mut queue = self.queue.borrow_mut();
            if queue.len() >= self.capacity {
                return Err(Full);
            }
            queue.push_back(item);
            Ok(())
        }
    }

    impl<T> Receiver<T> {
        /// An empty channel is pending; the comparison never closes one.
        pub fn poll_recv(&self, _: &mut Context<'_>) -> Poll<Option<T>> {
            match self.0.borrow_mut().pop_front() {
                Some(item) => Poll::Ready(Some(item)),
                None => Poll::Pending,
            }
        }

        pub fn drain(&self) -> Vec<T> {
            self.0.borrow_mut().drain(..).collect()
        }
    }
}
