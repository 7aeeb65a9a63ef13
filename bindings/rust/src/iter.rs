//! Iterators over messages.

use crate::error::Error;
use crate::holder::Holder;
use crate::options::Message;
use crate::queue::Queue;

impl<'q, P: Holder> IntoIterator for &'q Queue<P> {
    type Item = Result<Message, Error>;
    type IntoIter = Iter<'q, P>;

    fn into_iter(self) -> Iter<'q, P> {
        self.iter()
    }
}

/// The messages that arrive at a queue ([`Queue::iter`]).
///
/// ```
/// use yakyrombe::{OpenOptions, System};
///
/// # fn main() -> Result<(), yakyrombe::Error> {
/// let (_, [process]) = System::builder().build_array()?;
/// let queue = process.open("/q", OpenOptions::read_write().create().limits(2, 8))?;
/// queue.send(b"one", 0)?;
/// assert_eq!(&*queue.iter().next().unwrap()?, b"one");
/// # Ok(())
/// # }
/// ```
#[derive(Debug)]
pub struct Iter<'q, P: Holder> {
    queue: &'q Queue<P>,
    is_over: bool,
}

impl<'q, P: Holder> Iter<'q, P> {
    pub(crate) fn new(queue: &'q Queue<P>) -> Iter<'q, P> {
        Iter { queue, is_over: false }
    }
}

impl<P: Holder> Iterator for Iter<'_, P> {
    type Item = Result<Message, Error>;

    fn next(&mut self) -> Option<Result<Message, Error>> {
        if self.is_over {
            return None;
        }
        let received = self.queue.receive_vec();
        self.is_over = received.is_err();
        match received {
            Err(Error::Disconnected) => None,
            received => Some(received),
        }
    }
}

/// The messages that are in a queue ([`Queue::try_iter`]).
///
/// ```
/// use yakyrombe::{OpenOptions, System};
///
/// # fn main() -> Result<(), yakyrombe::Error> {
/// let (_, [process]) = System::builder().build_array()?;
/// let queue = process.open("/q", OpenOptions::read_write().create().limits(2, 8))?;
/// queue.send(b"one", 0)?;
/// assert_eq!(queue.try_iter().count(), 1);
/// # Ok(())
/// # }
/// ```
#[derive(Debug)]
pub struct TryIter<'q, P: Holder> {
    queue: &'q Queue<P>,
    is_over: bool,
}

impl<'q, P: Holder> TryIter<'q, P> {
    pub(crate) fn new(queue: &'q Queue<P>) -> TryIter<'q, P> {
        TryIter { queue, is_over: false }
    }
}

impl<P: Holder> Iterator for TryIter<'_, P> {
    type Item = Result<Message, Error>;

    fn next(&mut self) -> Option<Result<Message, Error>> {
        if self.is_over {
            return None;
        }
        let received = self.queue.try_receive_vec();
        self.is_over = received.is_err();
        match received {
            Err(Error::Again | Error::Disconnected) => None,
            received => Some(received),
        }
    }
}
