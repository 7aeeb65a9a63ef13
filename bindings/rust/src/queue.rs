//! Open queues, and the calls on them.

use crate::error::{Error, Invalid, Refused};
use crate::holder::Holder;
use crate::iter::{Iter, TryIter};
use crate::options::{Attr, Message, OpenOptions, Received};
use crate::process::{done, refusal, OpenWait, Process};
use crate::raw::{self, answer, Attributes};
use crate::senders::Part;
use crate::time::{Deadline, Limit};
use crate::Handle;
use std::cell::Cell;
use std::fmt;
use std::mem::take;
use std::task::Poll;
use std::time::Duration;

mod waits;

pub(crate) use waits::Cancels;

/// A queue that a process has open. Calls on it are calls of that process, so it can't be used with
/// another process or system. It is closed when it is dropped.
///
/// ```
/// use yakyrombe::{Error, OpenOptions, System};
///
/// # fn main() -> Result<(), Error> {
/// let (_, [process]) = System::builder().build_array()?;
/// let jobs = process.open("/jobs", OpenOptions::read_write().create().limits(8, 64))?;
/// let urgent =
///     process.open("/urgent", OpenOptions::read_write().create().limits(8, 64))?;
/// jobs.send(b"sweep the floor", 1)?;
/// urgent.send(b"put out the fire", 1)?;
/// let mut buf = [0; 64];
/// let received = urgent.receive(&mut buf)?;
/// assert_eq!(&buf[..received.len], b"put out the fire");
/// # Ok(())
/// # }
/// ```
///
/// A queue that owns its process can move to another thread with it:
///
/// ```
/// use std::thread;
/// use yakyrombe::{Error, OpenOptions, Process, Queue, System};
///
/// # fn main() -> Result<(), Error> {
/// let (_, [one, two]) = System::builder().build_array()?;
/// let options = OpenOptions::read_write().create().limits(8, 64);
/// let (there, here): (Queue<Process>, Queue<Process>) =
///     (Queue::open(one, "/q", options)?, Queue::open(two, "/q", options)?);
/// let sender = thread::spawn(move || there.send(b"from another thread", 0));
/// assert_eq!(&*here.receive_vec()?, b"from another thread");
/// sender.join().unwrap()
/// # }
/// ```
///
/// # Waits in two parts
///
/// [`start_send`](Queue::start_send) and [`start_receive`](Queue::start_receive) never block. If
/// they would wait, they leave an *open wait*; a process has at most one. Until it ends, every
/// other call of the process on queues fails with [`Waiting`](Error::Waiting), and a close is
/// deferred. [`is_answered`](Queue::is_answered) is one load. [`collect_send`](Queue::collect_send)
/// and [`collect_receive`](Queue::collect_receive) end the wait if it is answered or its deadline
/// has passed, and [`cancel`](Queue::cancel) ends it in any case.
///
/// ```
/// use std::task::Poll;
/// use yakyrombe::{Error, OpenOptions, Received, System};
///
/// # fn main() -> Result<(), Error> {
/// let (_, [one, two]) = System::builder().build_array()?;
/// let options = OpenOptions::read_write().create().limits(1, 8);
/// let (here, there) = (one.open("/q", options)?, two.open("/q", options)?);
///
/// let mut buf = [0; 8];
/// assert!(here.start_receive(&mut buf)?.is_pending());
/// assert!(!here.is_answered());
/// there.send(b"now", 4)?;
/// assert!(here.is_answered());
/// assert_eq!(
///     here.collect_receive(&mut buf)?,
///     Poll::Ready(Received::new(3, 4))
/// );
/// # Ok(())
/// # }
/// ```
///
/// When a queue with an open wait is dropped, it withdraws the wait first. A message that was
/// handed to the wait by then is lost, like one that was received and not used. `cancel` keeps such
/// a message: the next receive by this queue returns it.
pub struct Queue<P: Holder> {
    /// `None` once the queue is closed.
    holder: Option<P>,
    d: u32,
    /// The longest message that the queue takes; 0 until the first call that asks for it.
    msgsize: Cell<usize>,
    /// A buffer for `receive_vec`.
    scratch: Cell<Vec<u8>>,
    /// A message that was handed to a wait before it was cancelled.
    kept: Cell<Option<Box<Message>>>,
    /// Its part in the senders of the queue.
    part: Part,
}

/// An open queue without its process.
#[derive(Default)]
pub(crate) struct Open {
    d: u32,
    msgsize: usize,
    kept: Option<Box<Message>>,
    part: Part,
}

impl Open {
    pub fn take(&mut self) -> Open {
        take(self)
    }

    pub fn in_process(self, process: &Process) -> Queue<&Process> {
        let queue = Queue::of(process, self.d, self.part);
        queue.msgsize.set(self.msgsize);
        queue.kept.set(self.kept);
        queue
    }
}

impl<P: Holder> Queue<P> {
    /// Opens a queue that holds its process by `holder`, as [`Process::open`] does by a reference.
    ///
    /// # Errors
    /// Those of `Process::open`, with the holder.
    pub fn open(
        holder: P,
        name: impl AsRef<[u8]>,
        options: OpenOptions,
    ) -> Result<Queue<P>, Refused<P>> {
        let (name, mut d) = (name.as_ref(), 0);
        let process: &Process = holder.borrow();
        let open = || process.handle().open(name, &options.opening, &mut d);
        let (answer, part) = process.system().shared.names.open(name, &options, open);
        if let Err(error) = done(answer) {
            let error = error.naming(|| Invalid::of_open(name, &options.opening));
            return Err(Refused { holder, error });
        }
        Ok(Queue::of(holder, d, part))
    }

    /// The queue that the resumed journal left open under this descriptor, as [`Process::resumed`]
    /// returns it for a reference.
    ///
    /// # Errors
    /// [`BadDescriptor`](Error::BadDescriptor) if there is none, with the holder.
    pub fn resumed(holder: P, descriptor: u32) -> Result<Queue<P>, Refused<P>> {
        if !holder.borrow().take_left(descriptor) {
            return Err(Refused { holder, error: Error::BadDescriptor });
        }
        Ok(Queue::of(holder, descriptor, Part::default()))
    }

    /// Takes the open queue out of this value, which then closes nothing.
    pub(crate) fn take_open(&mut self) -> Open {
        self.holder = None;
        let (msgsize, kept) = (self.msgsize.get(), self.kept.take());
        Open { d: self.d, msgsize, kept, part: take(&mut self.part) }
    }

    fn of(holder: P, d: u32, part: Part) -> Queue<P> {
        let (msgsize, scratch, kept) = (Cell::default(), Cell::default(), Cell::default());
        Queue { holder: Some(holder), d, msgsize, scratch, kept, part }
    }

    /// Closes the queue (`mq_close`), and returns what held its process. Unlike a drop, it reports
    /// a failure. If another queue of the process has an open wait, this queue is closed as soon as
    /// that wait has ended.
    ///
    /// # Errors
    /// [`JournalFull`](Error::JournalFull), [`NoMemory`](Error::NoMemory): the queue then stays
    /// open until the process exits.
    pub fn close(mut self) -> Result<P, Refused<P>> {
        self.end_wait_for_ever();
        let Some(holder) = self.holder.take() else { unreachable!("it is open") };
        match holder.borrow().close(self.d) {
            Err(error) => Err(Refused { holder, error }),
            Ok(()) => Ok(holder),
        }
    }

    /// The process that has the queue open.
    #[inline]
    #[must_use]
    pub fn process(&self) -> &Process {
        match &self.holder {
            Some(holder) => holder.borrow(),
            None => unreachable!("it is open"),
        }
    }

    /// Its descriptor, 0 to 15, which the journal uses. An open takes the lowest free one.
    #[must_use]
    pub fn descriptor(&self) -> u32 {
        self.d
    }

    fn handle(&self) -> &Handle {
        self.process().handle()
    }

    /// Its attributes (`mq_getattr`).
    ///
    /// # Errors
    /// [`Waiting`](Error::Waiting).
    pub fn attr(&self) -> Result<Attr, Error> {
        let mut found = Attributes::default();
        done(self.handle().getattr(self.d, &mut found))?;
        Ok(Attr::of(&found))
    }

    /// Sets whether calls by this descriptor fail if they would wait, and returns the attributes
    /// from before (`mq_setattr`).
    ///
    /// # Errors
    /// [`Waiting`](Error::Waiting).
    pub fn set_nonblocking(&self, nonblocking: bool) -> Result<Attr, Error> {
        let mut before = Attributes::default();
        done(self.handle().setattr(self.d, nonblocking, &mut before))?;
        Ok(Attr::of(&before))
    }

    /// Registers for a notice, a number, of the next message that arrives while the queue is empty
    /// and no receive waits (`mq_notify`). [`Process::next_notice`] returns the notice.
    ///
    /// # Errors
    /// [`Busy`](Error::Busy) if a process is registered; [`Waiting`](Error::Waiting).
    pub fn notify(&self, notice: u64) -> Result<(), Error> {
        done(self.handle().notify(self.d, Some(notice)))
    }

    /// Ends the registration of this process.
    ///
    /// # Errors
    /// [`Invalid::NotRegistered`]; [`Waiting`](Error::Waiting).
    pub fn unnotify(&self) -> Result<(), Error> {
        done(self.handle().notify(self.d, None))
            .map_err(|error| error.naming(|| Invalid::NotRegistered))
    }
}

/// Sends.
impl<P: Holder> Queue<P> {
    /// Sends a message, and waits while the queue is full (`mq_send`).
    ///
    /// # Errors
    /// [`BadDescriptor`](Error::BadDescriptor) if the queue is open only to receive;
    /// [`Invalid::Priority`] if the priority is above 32,767; [`MessageSize`](Error::MessageSize);
    /// [`Again`](Error::Again) if the queue is nonblocking; [`Waiting`](Error::Waiting).
    #[inline]
    pub fn send(&self, message: &[u8], priority: u32) -> Result<(), Error> {
        let process = self.process();
        let answer = process.handle().send(self.d, message, priority);
        process.wake_answered();
        sent(answer, priority)
    }

    /// Like [`send`](Queue::send), but waits for at most this long, by the clock of the system.
    ///
    /// # Errors
    /// Those of `send`, and [`TimedOut`](Error::TimedOut).
    pub fn send_timeout(
        &self,
        message: &[u8],
        priority: u32,
        timeout: Duration,
    ) -> Result<(), Error> {
        self.send_by(message, priority, self.limit_after(timeout))
    }

    /// Like [`send`](Queue::send), but waits at most until a moment (`mq_timedsend`): an
    /// [`Instant`](std::time::Instant), or another [`Deadline`].
    ///
    /// # Errors
    /// Those of `send`, and [`TimedOut`](Error::TimedOut).
    pub fn send_deadline(
        &self,
        message: &[u8],
        priority: u32,
        deadline: impl Into<Deadline>,
    ) -> Result<(), Error> {
        self.send_by(message, priority, Limit::of(deadline.into()))
    }

    fn send_by(&self, message: &[u8], priority: u32, limit: Limit) -> Result<(), Error> {
        if self.is_library_clock(&limit) {
            let answer = self.handle().send_until(self.d, message, priority, limit.until);
            self.process().wake_answered();
            return sent(answer, priority);
        }
        let mut answer = self.begin_send(message, priority, Some(limit));
        if answer == answer::WAITS {
            answer = self.await_end(&mut [], &mut raw::Message::default());
        }
        sent(answer, priority)
    }

    /// Like [`send`](Queue::send), but never waits, whatever the flag of the queue is. It is a
    /// timed call whose deadline has passed: its entry in the journal has the reply `ETIMEDOUT` if
    /// it would wait.
    ///
    /// # Errors
    /// Those of `send`, and [`Again`](Error::Again) if it would wait.
    pub fn try_send(&self, message: &[u8], priority: u32) -> Result<(), Error> {
        let now = self.limit_after(Duration::ZERO);
        let answer = self.handle().start_send(self.d, message, priority, now.until, now.until);
        self.process().wake_answered();
        sent(answer, priority).map_err(would_wait)
    }

    /// Starts a send, and never blocks. It returns `Ready` if the send is done or failed, and
    /// `Pending` if the process has an open wait now. So that the wait can be cancelled, its entry
    /// in the journal has a deadline: the last moment that there is.
    ///
    /// # Errors
    /// Those of [`send`](Queue::send).
    pub fn start_send(&self, message: &[u8], priority: u32) -> Poll<Result<(), Error>> {
        pending_or(self.begin_send(message, priority, None)).map(|answer| sent(answer, priority))
    }

    /// Like [`start_send`](Queue::start_send), for a wait of at most this long, by the clock of the
    /// system. The program has to collect it by then: nothing else reads the clock.
    ///
    /// # Errors
    /// Those of [`send_timeout`](Queue::send_timeout).
    pub fn start_send_timeout(
        &self,
        message: &[u8],
        priority: u32,
        timeout: Duration,
    ) -> Poll<Result<(), Error>> {
        self.start_send_by(message, priority, self.limit_after(timeout))
    }

    /// Like [`start_send`](Queue::start_send), with a deadline for the wait. The program has to
    /// collect it at the deadline: nothing else reads the clock.
    ///
    /// # Errors
    /// Those of [`send_deadline`](Queue::send_deadline).
    pub fn start_send_deadline(
        &self,
        message: &[u8],
        priority: u32,
        deadline: impl Into<Deadline>,
    ) -> Poll<Result<(), Error>> {
        self.start_send_by(message, priority, Limit::of(deadline.into()))
    }

    fn start_send_by(
        &self,
        message: &[u8],
        priority: u32,
        limit: Limit,
    ) -> Poll<Result<(), Error>> {
        pending_or(self.begin_send(message, priority, Some(limit)))
            .map(|answer| sent(answer, priority))
    }

    /// Ends the open wait of a send if it is answered or its deadline has passed. Otherwise the
    /// wait stays open.
    ///
    /// # Errors
    /// [`NotWaiting`](Error::NotWaiting) if this queue has no send that waits;
    /// [`TimedOut`](Error::TimedOut).
    pub fn collect_send(&self) -> Poll<Result<(), Error>> {
        let mut message = raw::Message::default();
        self.collect(true, &mut [], &mut message).map(done)
    }

    fn begin_send(&self, message: &[u8], priority: u32, limit: Option<Limit>) -> u32 {
        let wait = OpenWait { d: self.d, is_send: true, len: 0, limit };
        self.process().start(wait, |handle, until, now| {
            handle.start_send(self.d, message, priority, until, now)
        })
    }
}

/// Receives.
impl<P: Holder> Queue<P> {
    /// Receives the oldest message of the highest priority into the start of the buffer, and waits
    /// while there is none (`mq_receive`).
    ///
    /// # Errors
    /// [`BadDescriptor`](Error::BadDescriptor) if the queue is open only to send;
    /// [`MessageSize`](Error::MessageSize) if the buffer is shorter than the queue's messages may
    /// be; [`Again`](Error::Again) if the queue is nonblocking; [`Waiting`](Error::Waiting);
    /// [`Disconnected`](Error::Disconnected) if that was asked for.
    #[inline]
    pub fn receive(&self, buf: &mut [u8]) -> Result<Received, Error> {
        if self.part.disconnects() {
            return self.receive_or_disconnect(buf, None);
        }
        if let Some(kept) = self.take_kept(buf) {
            return kept;
        }
        let process = self.process();
        let mut message = raw::Message::default();
        let answer = process.handle().receive(self.d, buf, &mut message);
        process.wake_answered();
        received(answer, &message)
    }

    /// Like [`receive`](Queue::receive), but waits for at most this long, by the clock of the
    /// system.
    ///
    /// # Errors
    /// Those of `receive`, and [`TimedOut`](Error::TimedOut).
    pub fn receive_timeout(&self, buf: &mut [u8], timeout: Duration) -> Result<Received, Error> {
        self.receive_by(buf, || self.limit_after(timeout))
    }

    /// Like [`receive`](Queue::receive), but waits at most until a moment (`mq_timedreceive`): an
    /// [`Instant`](std::time::Instant), or another [`Deadline`].
    ///
    /// # Errors
    /// Those of `receive`, and [`TimedOut`](Error::TimedOut).
    pub fn receive_deadline(
        &self,
        buf: &mut [u8],
        deadline: impl Into<Deadline>,
    ) -> Result<Received, Error> {
        self.receive_by(buf, || Limit::of(deadline.into()))
    }

    fn receive_by(&self, buf: &mut [u8], limit: impl FnOnce() -> Limit) -> Result<Received, Error> {
        if let Some(kept) = self.take_kept(buf) {
            return kept;
        }
        let limit = limit();
        if self.part.disconnects() {
            return self.receive_or_disconnect(buf, Some(limit));
        }
        let mut message = raw::Message::default();
        if self.is_library_clock(&limit) {
            let answer = self.handle().receive_until(self.d, buf, &mut message, limit.until);
            self.process().wake_answered();
            return received(answer, &message);
        }
        let mut answer = self.begin_receive(buf, &mut message, Some(limit));
        if answer == answer::WAITS {
            answer = self.await_end(buf, &mut message);
        }
        received(answer, &message)
    }

    /// Like [`receive`](Queue::receive), but never waits, like [`try_send`](Queue::try_send).
    ///
    /// # Errors
    /// Those of `receive`, and [`Again`](Error::Again) if it would wait.
    pub fn try_receive(&self, buf: &mut [u8]) -> Result<Received, Error> {
        if let Some(kept) = self.take_kept(buf) {
            return kept;
        }
        let is_disconnected = self.part.is_disconnected();
        let now = self.limit_after(Duration::ZERO);
        let mut message = raw::Message::default();
        let answer = self.handle().start_receive(self.d, buf, &mut message, now.until, now.until);
        self.process().wake_answered();
        received(answer, &message).map_err(|error| match error {
            Error::TimedOut | Error::Again if is_disconnected => Error::Disconnected,
            error => would_wait(error),
        })
    }

    /// Starts a receive, and never blocks, like [`start_send`](Queue::start_send). If it is
    /// pending, its message is written to the buffer of the collect.
    ///
    /// # Errors
    /// Those of [`receive`](Queue::receive).
    pub fn start_receive(&self, buf: &mut [u8]) -> Poll<Result<Received, Error>> {
        self.start_receive_by(buf, None)
    }

    /// Like [`start_receive`](Queue::start_receive), for a wait of at most this long, by the clock
    /// of the system. The program has to collect it by then: nothing else reads the clock.
    ///
    /// # Errors
    /// Those of [`receive_timeout`](Queue::receive_timeout).
    pub fn start_receive_timeout(
        &self,
        buf: &mut [u8],
        timeout: Duration,
    ) -> Poll<Result<Received, Error>> {
        self.start_receive_by(buf, Some(self.limit_after(timeout)))
    }

    /// Like [`start_receive`](Queue::start_receive), with a deadline for the wait. The program has
    /// to collect it at the deadline: nothing else reads the clock.
    ///
    /// # Errors
    /// Those of [`receive_deadline`](Queue::receive_deadline).
    pub fn start_receive_deadline(
        &self,
        buf: &mut [u8],
        deadline: impl Into<Deadline>,
    ) -> Poll<Result<Received, Error>> {
        self.start_receive_by(buf, Some(Limit::of(deadline.into())))
    }

    /// Ends the open wait of a receive if it is answered or its deadline has passed. Otherwise the
    /// wait stays open.
    ///
    /// # Errors
    /// [`NotWaiting`](Error::NotWaiting) if this queue has no receive that waits;
    /// [`MessageSize`](Error::MessageSize) if the buffer is shorter than that of the start; the
    /// wait then stays open; [`TimedOut`](Error::TimedOut).
    pub fn collect_receive(&self, buf: &mut [u8]) -> Poll<Result<Received, Error>> {
        if self.part.is_disconnected() {
            if let Some(wait) = self.process().wait_of(self.d).filter(|wait| !wait.is_send) {
                return Poll::Ready(self.disconnect(&wait, buf));
            }
        }
        let mut message = raw::Message::default();
        self.collect(false, buf, &mut message).map(|answer| received(answer, &message))
    }

    /// Like [`receive`](Queue::receive), into a vector of the length of the message. The first such
    /// call also makes the call [`attr`](Queue::attr), which has its own entry in the journal.
    ///
    /// # Errors
    /// Those of `receive`.
    pub fn receive_vec(&self) -> Result<Message, Error> {
        self.with_buffer(|buf| self.receive(buf))
    }

    /// Like [`receive_timeout`](Queue::receive_timeout), into a vector, like
    /// [`receive_vec`](Queue::receive_vec).
    ///
    /// # Errors
    /// Those of `receive_timeout`.
    pub fn receive_vec_timeout(&self, timeout: Duration) -> Result<Message, Error> {
        self.with_buffer(|buf| self.receive_timeout(buf, timeout))
    }

    /// Like [`receive_deadline`](Queue::receive_deadline), into a vector, like
    /// [`receive_vec`](Queue::receive_vec).
    ///
    /// # Errors
    /// Those of `receive_deadline`.
    pub fn receive_vec_deadline(&self, deadline: impl Into<Deadline>) -> Result<Message, Error> {
        self.with_buffer(|buf| self.receive_deadline(buf, deadline))
    }

    /// Like [`try_receive`](Queue::try_receive), into a vector, like
    /// [`receive_vec`](Queue::receive_vec).
    ///
    /// # Errors
    /// Those of `try_receive`.
    pub fn try_receive_vec(&self) -> Result<Message, Error> {
        self.with_buffer(|buf| self.try_receive(buf))
    }

    /// An endless iterator over the messages: each step waits for the next. It ends after an error,
    /// and instead of the error [`Disconnected`](Error::Disconnected).
    ///
    /// ```
    /// use yakyrombe::{Error, OpenOptions, System};
    ///
    /// # fn main() -> Result<(), Error> {
    /// let (_, [process]) = System::builder().build_array()?;
    /// let queue = process.open("/q", OpenOptions::read_write().create().limits(8, 64))?;
    /// queue.send(b"one", 0)?;
    /// queue.send(b"two", 0)?;
    /// for message in queue.iter() {
    ///     if &*message? == b"two" {
    ///         break;
    ///     }
    /// }
    /// # Ok(())
    /// # }
    /// ```
    pub fn iter(&self) -> Iter<'_, P> {
        Iter::new(self)
    }

    /// An iterator over the messages that are present; it never waits. It ends after an error.
    ///
    /// ```
    /// use yakyrombe::{Error, Message, OpenOptions, System};
    ///
    /// # fn main() -> Result<(), Error> {
    /// let (_, [process]) = System::builder().build_array()?;
    /// let queue = process.open("/q", OpenOptions::read_write().create().limits(8, 64))?;
    /// queue.send(b"one", 0)?;
    /// queue.send(b"two", 9)?;
    /// let messages = queue.try_iter().collect::<Result<Vec<Message>, Error>>()?;
    /// assert_eq!(messages.iter().map(|message| message.priority).collect::<Vec<_>>(), [9, 0]);
    /// # Ok(())
    /// # }
    /// ```
    pub fn try_iter(&self) -> TryIter<'_, P> {
        TryIter::new(self)
    }

    pub(crate) fn start_receive_by(
        &self,
        buf: &mut [u8],
        limit: Option<Limit>,
    ) -> Poll<Result<Received, Error>> {
        if let Some(kept) = self.take_kept(buf) {
            return Poll::Ready(kept);
        }
        let is_disconnected = self.part.is_disconnected();
        let mut message = raw::Message::default();
        match pending_or(self.begin_receive(buf, &mut message, limit)) {
            Poll::Pending if is_disconnected => self.collect_receive(buf),
            Poll::Pending => Poll::Pending,
            Poll::Ready(answer) => Poll::Ready(match received(answer, &message) {
                Err(Error::Again | Error::TimedOut) if is_disconnected => Err(Error::Disconnected),
                received => received,
            }),
        }
    }

    fn begin_receive(
        &self,
        buf: &mut [u8],
        message: &mut raw::Message,
        limit: Option<Limit>,
    ) -> u32 {
        let wait = OpenWait { d: self.d, is_send: false, len: buf.len(), limit };
        self.process().start(wait, |handle, until, now| {
            handle.start_receive(self.d, buf, message, until, now)
        })
    }

    /// The message of a cancelled wait, if there is one.
    #[inline]
    fn take_kept(&self, buf: &mut [u8]) -> Option<Result<Received, Error>> {
        let kept = self.kept.take()?;
        Some(self.give_kept(kept, buf))
    }

    #[cold]
    fn give_kept(&self, kept: Box<Message>, buf: &mut [u8]) -> Result<Received, Error> {
        let received = Received::new(kept.len(), kept.priority);
        if let Some(front) = buf.get_mut(..received.len) {
            front.copy_from_slice(&kept);
            Ok(received)
        } else {
            self.kept.set(Some(kept));
            Err(Error::MessageSize)
        }
    }

    /// Receives into a buffer that is long enough, and returns a copy of just the message.
    fn with_buffer(
        &self,
        receive: impl FnOnce(&mut [u8]) -> Result<Received, Error>,
    ) -> Result<Message, Error> {
        let mut buf = self.scratch.take();
        buf.resize(self.msgsize()?, 0);
        let received = receive(&mut buf);
        let message =
            received.map(|Received { len, priority }| Message::new(priority, buf[..len].to_vec()));
        self.scratch.set(buf);
        message
    }

    /// The longest message that the queue takes.
    pub(crate) fn msgsize(&self) -> Result<usize, Error> {
        if self.msgsize.get() == 0 {
            let mut found = Attributes::default();
            done(self.handle().limits(self.d, &mut found))?;
            self.msgsize.set(Attr::of(&found).msgsize);
        }
        Ok(self.msgsize.get())
    }
}

impl<P: Holder> Drop for Queue<P> {
    fn drop(&mut self) {
        if self.holder.is_some() {
            self.end_wait_for_ever();
            // If the close fails, the queue stays open until the process exits.
            let _ = self.process().close(self.d);
        }
    }
}

impl<P: Holder> fmt::Debug for Queue<P> {
    fn fmt(&self, to: &mut fmt::Formatter<'_>) -> fmt::Result {
        let process = self.holder.as_ref().map(|holder| holder.borrow().number());
        to.debug_struct("Queue")
            .field("process", &process)
            .field("descriptor", &self.d)
            .finish_non_exhaustive()
    }
}

/// The return code of a start, or pending if the process has an open wait now.
fn pending_or(answer: u32) -> Poll<u32> {
    if answer == answer::WAITS {
        Poll::Pending
    } else {
        Poll::Ready(answer)
    }
}

fn would_wait(error: Error) -> Error {
    match error {
        Error::TimedOut => Error::Again,
        other => other,
    }
}

#[inline]
fn sent(answer: u32, priority: u32) -> Result<(), Error> {
    done(answer).map_err(|error| error.naming(|| Invalid::Priority(priority)))
}

#[inline]
pub(crate) fn received(answer: u32, message: &raw::Message) -> Result<Received, Error> {
    if answer == answer::DONE {
        Ok(Received::new(message.len, message.prio))
    } else {
        Err(refusal(answer))
    }
}
