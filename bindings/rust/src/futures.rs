//! Sends and receives as futures.

use crate::error::Error;
use crate::holder::Holder;
use crate::options::{Message, Received};
use crate::queue::Queue;
use std::future::Future;
use std::pin::Pin;
use std::task::{Context, Poll};

/// Futures, with the feature `futures`. They need no runtime: the call of another process that
/// answers the wait wakes them. A future of a queue that owns its process is `Send`.
///
/// A process has one open wait at a time, so futures that wait concurrently must belong to
/// different processes; otherwise the later one fails with [`Waiting`](Error::Waiting). The
/// compiler rejects two futures of one queue at once:
///
/// ```compile_fail,E0499
/// use yakyrombe::{OpenOptions, System};
/// let (_, [process]) = System::builder().build_array().unwrap();
/// let mut queue = process.open("/q", OpenOptions::read_write().create()).unwrap();
/// let first = queue.send_async(b"one", 0);
/// let second = queue.send_async(b"two", 0);
/// drop(first);
/// ```
///
/// A future of a queue that borrows its process stays in its thread:
///
/// ```compile_fail,E0277
/// use yakyrombe::{OpenOptions, System};
/// fn is_send<T: Send>(_: T) {}
/// let (_, [process]) = System::builder().build_array().unwrap();
/// let mut queue = process.open("/q", OpenOptions::read_write().create()).unwrap();
/// is_send(queue.send_async(b"one", 0));
/// ```
impl<P: Holder> Queue<P> {
    /// Like [`send`](Queue::send), as a future. If it is dropped before it is ready, the send is
    /// withdrawn, unless it is already done.
    pub fn send_async<'q>(&'q mut self, message: &'q [u8], priority: u32) -> SendFuture<'q, P> {
        SendFuture { queue: self, message, priority, stage: Stage::Begins }
    }

    /// Like [`receive`](Queue::receive), as a future. If it is dropped before it is ready, no
    /// message is lost: the next receive by this queue returns one that was already handed to it.
    pub fn receive_async<'q>(&'q mut self, buf: &'q mut [u8]) -> ReceiveFuture<'q, P> {
        ReceiveFuture { queue: self, buf, stage: Stage::Begins }
    }

    /// Like [`receive_async`](Queue::receive_async), into a vector, like
    /// [`receive_vec`](Queue::receive_vec).
    ///
    /// # Errors
    /// Those of `receive`.
    pub async fn receive_vec_async(&mut self) -> Result<Message, Error> {
        let mut bytes = vec![0; self.msgsize()?];
        let Received { len, priority } = self.receive_async(&mut bytes).await?;
        bytes.truncate(len);
        Ok(Message::new(priority, bytes))
    }

    /// Registers the task to be woken when the open wait of this queue is answered, and returns
    /// whether it is already answered.
    fn is_answered_or_wakes(&self, context: &Context<'_>) -> bool {
        let process = self.process();
        process.system().shared.wakers.set(process, Some(context.waker().clone()));
        // An answer before this load is seen here; a later one finds the waker.
        self.is_answered()
    }

    fn wake_no_more(&self) {
        self.process().system().shared.wakers.set(self.process(), None);
    }

    /// One step of a future: it starts its call, or collects it if its wait is answered.
    fn step<T>(
        &self,
        stage: &mut Stage,
        context: &Context<'_>,
        start_or_collect: impl FnOnce(bool) -> Poll<T>,
    ) -> Poll<T> {
        let polled = match *stage {
            Stage::Begins => start_or_collect(true),
            Stage::Waits if self.is_answered() => start_or_collect(false),
            Stage::Waits => Poll::Pending,
            Stage::IsOver => panic!("it was polled after it was ready"),
        };
        if polled.is_ready() {
            if *stage == Stage::Waits {
                self.wake_no_more();
            }
            *stage = Stage::IsOver;
        } else {
            *stage = Stage::Waits;
            if self.is_answered_or_wakes(context) {
                context.waker().wake_by_ref();
            }
        }
        polled
    }

    /// Ends a future that is dropped.
    fn leave(&self, stage: Stage) {
        if stage == Stage::Waits {
            self.cancel();
            self.wake_no_more();
        }
    }
}

#[derive(Clone, Copy, Debug, PartialEq, Eq)]
enum Stage {
    Begins,
    Waits,
    IsOver,
}

/// A send in progress ([`Queue::send_async`]).
///
/// ```
/// use std::future::Future;
/// use std::pin::Pin;
/// use yakyrombe::{Error, OpenOptions, System};
///
/// # fn main() -> Result<(), Error> {
/// let (_, [process]) = System::builder().build_array()?;
/// let mut queue = process.open("/q", OpenOptions::write().create())?;
/// let future: Pin<Box<dyn Future<Output = Result<(), Error>> + '_>> =
///     Box::pin(queue.send_async(b"hello", 3));
/// # drop(future);
/// # Ok(())
/// # }
/// ```
#[derive(Debug)]
#[must_use = "a future does nothing until it is awaited"]
pub struct SendFuture<'q, P: Holder> {
    queue: &'q mut Queue<P>,
    message: &'q [u8],
    priority: u32,
    stage: Stage,
}

impl<P: Holder> Future for SendFuture<'_, P> {
    type Output = Result<(), Error>;

    fn poll(self: Pin<&mut Self>, context: &mut Context<'_>) -> Poll<Result<(), Error>> {
        let SendFuture { queue, message, priority, stage } = self.get_mut();
        queue.step(stage, context, |starts| {
            if starts {
                queue.start_send(message, *priority)
            } else {
                queue.collect_send()
            }
        })
    }
}

impl<P: Holder> Drop for SendFuture<'_, P> {
    fn drop(&mut self) {
        self.queue.leave(self.stage);
    }
}

/// A receive in progress ([`Queue::receive_async`]).
///
/// ```
/// use std::future::Future;
/// use std::pin::pin;
/// use std::sync::Arc;
/// use std::task::{Context, Poll, Wake};
/// use std::thread::{self, Thread};
/// use yakyrombe::{Error, OpenOptions, Queue, System};
///
/// /// Wakes the thread that polls.
/// struct Unparks(Thread);
///
/// impl Wake for Unparks {
///     fn wake(self: Arc<Self>) {
///         self.0.unpark();
///     }
/// }
///
/// fn block_on<F: Future>(future: F) -> F::Output {
///     let mut future = pin!(future);
///     let waker = Arc::new(Unparks(thread::current())).into();
///     loop {
///         match future.as_mut().poll(&mut Context::from_waker(&waker)) {
///             Poll::Ready(output) => return output,
///             Poll::Pending => thread::park(),
///         }
///     }
/// }
///
/// # fn main() -> Result<(), Error> {
/// let (_, [here, there]) = System::builder().build_array()?;
/// let options = OpenOptions::read_write().create().limits(1, 8);
/// let mut queue = Queue::open(here, "/q", options)?;
/// let sender = thread::spawn(move || there.open("/q", options)?.send(b"late", 2));
/// let mut buf = [0; 8];
/// let received = block_on(queue.receive_async(&mut buf))?;
/// assert_eq!((&buf[..received.len], received.priority), (&b"late"[..], 2));
/// sender.join().unwrap()
/// # }
/// ```
#[derive(Debug)]
#[must_use = "a future does nothing until it is awaited"]
pub struct ReceiveFuture<'q, P: Holder> {
    queue: &'q mut Queue<P>,
    buf: &'q mut [u8],
    stage: Stage,
}

impl<P: Holder> Future for ReceiveFuture<'_, P> {
    type Output = Result<Received, Error>;

    fn poll(self: Pin<&mut Self>, context: &mut Context<'_>) -> Poll<Result<Received, Error>> {
        let ReceiveFuture { queue, buf, stage } = self.get_mut();
        queue.step(stage, context, |starts| {
            if starts {
                queue.start_receive(buf)
            } else {
                queue.collect_receive(buf)
            }
        })
    }
}

impl<P: Holder> Drop for ReceiveFuture<'_, P> {
    fn drop(&mut self) {
        self.queue.leave(self.stage);
    }
}
