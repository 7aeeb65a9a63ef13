//! Waits for a message of one of several queues.

use crate::error::Error;
use crate::holder::Holder;
use crate::options::{Message, Received};
use crate::queue::Queue;
use crate::wakers::Sleeper;
use std::sync::Arc;
use std::task::{Poll, Waker};
use std::time::{Duration, Instant};

/// Receives a message from one of several queues, and waits while none has one. Returns the place
/// of the queue in the slice, and the message. If several queues have messages, it is the first of
/// them.
///
/// The queues belong to different processes, because a process waits for one thing at a time. So a
/// thread that selects has a process for each queue.
///
/// ```
/// use std::thread;
/// use yakyrombe::{select, Error, OpenOptions, System};
///
/// # fn main() -> Result<(), Error> {
/// let (_, [one, two, three]) = System::builder().build_array()?;
/// let options = OpenOptions::read_write().create().limits(4, 16);
/// let (jobs, stops) = (one.open("/jobs", options)?, two.open("/stops", options)?);
/// let sender = thread::spawn(move || {
///     three.open("/jobs", options)?.send(b"a job", 0)?;
///     three.open("/stops", options)?.send(b"stop", 0)
/// });
/// let mut done = 0;
/// loop {
///     match select(&[&jobs, &stops])? {
///         (0, _job) => done += 1,
///         _ => break,
///     }
/// }
/// assert_eq!(done, 1);
/// sender.join().unwrap()
/// # }
/// ```
///
/// It starts a wait on each queue ([waits in two parts](Queue#waits-in-two-parts)), and cancels the
/// others when one is answered. A message that was handed to another queue by then is what
/// the next receive by that queue returns, also in the next `select`. A queue without senders
/// ([`OpenOptions::disconnecting`](crate::OpenOptions::disconnecting)) is left out.
///
/// # Errors
/// [`Waiting`](Error::Waiting) if two queues have the same process, or one has an open wait;
/// [`Disconnected`](Error::Disconnected) if no queue is left; those of [`Queue::receive_vec`].
pub fn select<P: Holder>(queues: &[&Queue<P>]) -> Result<(usize, Message), Error> {
    select_until(queues, None)
}

/// Like [`select`], but waits for at most this long in real time, whatever the clock of the system
/// is.
///
/// ```
/// use std::time::Duration;
/// use yakyrombe::{select_timeout, Error, OpenOptions, System};
///
/// # fn main() -> Result<(), Error> {
/// let (_, [process]) = System::builder().build_array()?;
/// let queue = process.open("/q", OpenOptions::read().create())?;
/// assert_eq!(select_timeout(&[&queue], Duration::from_millis(2)), Err(Error::TimedOut));
/// # Ok(())
/// # }
/// ```
///
/// # Errors
/// Those of `select`, and [`TimedOut`](Error::TimedOut).
pub fn select_timeout<P: Holder>(
    queues: &[&Queue<P>],
    timeout: Duration,
) -> Result<(usize, Message), Error> {
    select_until(queues, Instant::now().checked_add(timeout))
}

fn select_until<P: Holder>(
    queues: &[&Queue<P>],
    end: Option<Instant>,
) -> Result<(usize, Message), Error> {
    for (place, queue) in queues.iter().enumerate() {
        if queue.process().is_waiting() || queues[..place].iter().any(|it| it.is_beside(queue)) {
            return Err(Error::Waiting);
        }
    }
    let sleeper = Arc::<Sleeper>::default();
    let mut waits = Vec::with_capacity(queues.len());
    for (place, queue) in queues.iter().enumerate() {
        let mut buf = vec![0; queue.msgsize()?];
        match queue.start_receive(&mut buf) {
            Poll::Ready(Err(Error::Disconnected)) => {}
            Poll::Ready(received) => return Ok((place, message(buf, received?))),
            Poll::Pending => waits.push(Wait { queue, place, buf }),
        }
    }
    loop {
        for wait in &waits {
            wait.queue.set_waker(Some(Waker::from(Arc::clone(&sleeper))));
        }
        // An answer before this is seen here; a later one finds the waker.
        let mut place = 0;
        while let Some(wait) = waits.get_mut(place) {
            match wait.collect() {
                Poll::Pending => place += 1,
                Poll::Ready(Err(Error::Disconnected)) => drop(waits.remove(place)),
                Poll::Ready(received) => {
                    let (place, buf) = (wait.place, std::mem::take(&mut wait.buf));
                    return Ok((place, message(buf, received?)));
                }
            }
        }
        if waits.is_empty() {
            return Err(Error::Disconnected);
        }
        let left = end.map(|end| end.saturating_duration_since(Instant::now()));
        if left.is_some_and(|left| left.is_zero()) {
            return Err(Error::TimedOut);
        }
        sleeper.sleep(left);
    }
}

fn message(mut buf: Vec<u8>, received: Received) -> Message {
    buf.truncate(received.len);
    Message::new(received.priority, buf)
}

/// A queue that waits for a message. The drop cancels its wait, if it is still open.
struct Wait<'q, P: Holder> {
    queue: &'q Queue<P>,
    place: usize,
    buf: Vec<u8>,
}

impl<P: Holder> Wait<'_, P> {
    fn collect(&mut self) -> Poll<Result<Received, Error>> {
        if self.queue.is_answered() {
            self.queue.collect_receive(&mut self.buf)
        } else {
            Poll::Pending
        }
    }
}

impl<P: Holder> Drop for Wait<'_, P> {
    fn drop(&mut self) {
        self.queue.set_waker(None);
        self.queue.cancel();
    }
}

impl<P: Holder> Queue<P> {
    /// Whether both belong to one process.
    fn is_beside(&self, other: &Queue<P>) -> bool {
        std::ptr::eq(self.process().handle(), other.process().handle())
    }

    fn set_waker(&self, waker: Option<Waker>) {
        self.process().system().shared.wakers.set(self.process(), waker);
    }
}
