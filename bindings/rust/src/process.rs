//! Processes and their calls.

use crate::error::{Error, Invalid};
use crate::journal::{push_entry, string_of, text_of, Journal, Left};
use crate::options::{OpenOptions, Room};
use crate::queue::Queue;
use crate::raw::{answer, Message, Moment, RoomLeft};
use crate::system::System;
use crate::time::Limit;
use crate::Handle;
use std::cell::Cell;
use std::fmt;
use std::time::Duration;

/// One process of a system. It opens queues, and makes one call at a time.
///
/// It can move from thread to thread, and no two threads have it at once:
///
/// ```
/// use std::thread;
/// use yakyrombe::{Error, OpenOptions, System};
///
/// # fn main() -> Result<(), Error> {
/// let (_, [here, there]) = System::builder().build_array()?;
/// let options = OpenOptions::read_write().create().limits(1, 8);
/// let queue = here.open("/q", options)?;
/// let sender = thread::spawn(move || there.open("/q", options)?.send(b"moved", 0));
/// assert_eq!(&*queue.receive_vec()?, b"moved");
/// sender.join().unwrap()
/// # }
/// ```
///
/// It can't be cloned, and two threads can't share it:
///
/// ```compile_fail,E0599
/// let (_, [process]) = yakyrombe::System::builder().build_array().unwrap();
/// let twin = process.clone();
/// ```
///
/// ```compile_fail,E0277
/// let (_, [process]) = yakyrombe::System::builder().build_array().unwrap();
/// std::thread::scope(|scope| {
///     scope.spawn(|| process.unlink("/q"));
/// });
/// ```
///
/// [`exit`](Process::exit) can't be called while a queue that borrows the process is in use:
///
/// ```compile_fail,E0502
/// use yakyrombe::{OpenOptions, System};
/// let (_, [mut process]) = System::builder().build_array().unwrap();
/// let queue = process.open("/q", OpenOptions::write().create()).unwrap();
/// process.exit().unwrap();
/// queue.send(b"late", 0).unwrap();
/// ```
///
/// A process that is dropped closes its queues first, unless its journal has no room for that.
pub struct Process(Box<Inner>);

/// It has its own box, so that moving a process moves only a pointer, and no two processes share a
/// cache line.
#[repr(align(128))]
struct Inner {
    handle: Handle,
    system: System,
    wait: Cell<Option<OpenWait>>,
    /// The descriptors, as bits, to close as soon as the open wait has ended.
    unclosed: Cell<u32>,
    /// The descriptors that a journal left open and that no queue has taken yet.
    left: Cell<u32>,
}

/// An open wait of a process.
#[derive(Clone, Copy)]
pub(crate) struct OpenWait {
    /// The descriptor by which it was started.
    pub d: u32,
    pub is_send: bool,
    /// The length of its buffer.
    pub len: usize,
    /// Its deadline, if it has one.
    pub limit: Option<Limit>,
}

impl OpenWait {
    /// Its deadline in the library: from then on it can be withdrawn.
    pub fn until(&self) -> Moment {
        self.limit.unwrap_or(Limit::NONE).until
    }
}

impl Process {
    pub(crate) fn new(handle: Handle, system: System, left: Left) -> Process {
        Process(Box::new(Inner {
            handle,
            system,
            wait: Cell::new(left.wait),
            unclosed: Cell::new(0),
            left: Cell::new(left.held),
        }))
    }

    #[inline]
    pub(crate) fn handle(&self) -> &Handle {
        &self.0.handle
    }

    /// Its number in the journal, from 1.
    #[must_use]
    pub fn number(&self) -> u32 {
        self.handle().number()
    }

    /// The system that it belongs to.
    #[must_use]
    pub fn system(&self) -> &System {
        &self.0.system
    }

    /// Tells the calls of the system that wait by its clock ([`Builder::clock`]) that the clock has
    /// moved, so that they read it at once. Otherwise they read it every 80 milliseconds. Any process
    /// of the system can tell it.
    ///
    /// [`Builder::clock`]: crate::Builder::clock
    pub fn time_has_moved(&self) {
        self.handle().time_has_moved();
    }

    /// Opens a queue by its name, a slash and 1 to 255 bytes without a slash or 0 (`mq_open`). The
    /// queue borrows the process; [`Queue::open`] returns one that owns it.
    ///
    /// # Errors
    /// [`Exists`](Error::Exists), [`NoEntry`](Error::NoEntry), [`Invalid::Name`],
    /// [`Invalid::Messages`], [`Invalid::Bytes`], [`NameTooLong`](Error::NameTooLong),
    /// [`TooManyOpen`](Error::TooManyOpen), [`NoSpace`](Error::NoSpace);
    /// [`Waiting`](Error::Waiting).
    pub fn open(
        &self,
        name: impl AsRef<[u8]>,
        options: OpenOptions,
    ) -> Result<Queue<&Process>, Error> {
        Ok(Queue::open(self, name, options)?)
    }

    /// The queue that the resumed journal left open under this descriptor ([`System::resume`]).
    /// Each is returned once. [`Queue::resumed`] returns one that owns the process.
    ///
    /// ```
    /// use std::task::Poll;
    /// use yakyrombe::{Error, OpenOptions, System};
    ///
    /// # fn main() -> Result<(), Error> {
    /// let (_, [one, two]) = System::builder().journal(true).build_array()?;
    /// let options = OpenOptions::read_write().create().limits(1, 8);
    /// let (here, there) = (one.open("/q", options)?, two.open("/q", options)?);
    /// assert!(here.start_receive(&mut [0; 8])?.is_pending());
    /// let saved = two.journal()?;
    ///
    /// let (_, processes) = System::resume(&saved)?;
    /// let (here, there) = (processes[0].resumed(0)?, processes[1].resumed(0)?);
    /// assert_eq!(processes[0].resumed(0).unwrap_err(), Error::BadDescriptor);
    /// there.send(b"now", 0)?;
    /// let mut buf = [0; 8];
    /// assert!(matches!(here.collect_receive(&mut buf)?, Poll::Ready(_)));
    /// assert_eq!(&buf[..3], b"now");
    /// # Ok(())
    /// # }
    /// ```
    ///
    /// # Errors
    /// [`BadDescriptor`](Error::BadDescriptor) if there is none.
    pub fn resumed(&self, descriptor: u32) -> Result<Queue<&Process>, Error> {
        Ok(Queue::resumed(self, descriptor)?)
    }

    /// Whether a journal left the descriptor open, and this is the first call for it.
    pub(crate) fn take_left(&self, d: u32) -> bool {
        let left = self.0.left.get();
        let bit = 1_u32.checked_shl(d).unwrap_or(0);
        self.0.left.set(left & !bit);
        left & bit != 0
    }

    /// Removes the name of a queue, which exists until no process has it open (`mq_unlink`).
    ///
    /// # Errors
    /// [`NoEntry`](Error::NoEntry), [`Invalid::Name`], [`NameTooLong`](Error::NameTooLong);
    /// [`Waiting`](Error::Waiting).
    pub fn unlink(&self, name: impl AsRef<[u8]>) -> Result<(), Error> {
        let name = name.as_ref();
        let answer = self.0.system.shared.names.unlink(name, || self.handle().unlink(name));
        done(answer).map_err(|error| error.naming(|| Invalid::Name(name.into())))
    }

    /// Takes the oldest notice of this process ([`Queue::notify`]).
    ///
    /// # Errors
    /// [`Waiting`](Error::Waiting).
    pub fn next_notice(&self) -> Result<Option<u64>, Error> {
        let mut value = 0;
        match self.handle().next_notice(&mut value) {
            answer::NO_NOTICE => Ok(None),
            answer => done(answer).map(|()| Some(value)),
        }
    }

    /// Closes all queues of the process, the lowest descriptor first. It has some if a `Queue` was
    /// forgotten ([`std::mem::forget`]), or if its close failed.
    ///
    /// # Errors
    /// [`JournalFull`](Error::JournalFull) if the journal has no room for a close; the queues
    /// before it are closed. [`Waiting`](Error::Waiting).
    pub fn exit(&mut self) -> Result<(), Error> {
        done(self.handle().exit())?;
        self.0.left.set(0);
        Ok(())
    }

    /// Whether the process has an open wait, started by one of its queues.
    #[must_use]
    pub fn is_waiting(&self) -> bool {
        self.0.wait.get().is_some()
    }

    /// Whether the open wait is answered, by one load. If so, a collect by the queue that started
    /// it ends it.
    #[inline]
    #[must_use]
    pub fn is_answered(&self) -> bool {
        self.handle().is_answered()
    }

    /// How much room is left in the journal; without bounds, it is unlimited.
    #[must_use]
    pub fn room(&self) -> Room {
        let mut left = RoomLeft::default();
        self.handle().room(&mut left);
        Room { entries: left.entries, bytes: left.bytes }
    }

    /// Whether no process of the system can make a call any more; if so, that is permanent. An open
    /// wait that was started can be cancelled, so while there is one this is false.
    #[must_use]
    pub fn nobody_can_call(&self) -> bool {
        self.handle().nobody_can_call() == answer::DONE
    }

    /// Checks the whole stored journal, which is proved always to be legal.
    ///
    /// # Errors
    /// [`Unstored`](Error::Unstored).
    pub fn check(&self) -> Result<(), Error> {
        done(self.handle().check())
    }

    /// The line of the entry of the stored journal with a sequence number, from 0, or `None` if the
    /// journal is shorter.
    ///
    /// # Errors
    /// [`Unstored`](Error::Unstored); [`NoMemory`](Error::NoMemory), also in a system with bounds.
    pub fn entry(&self, place: u64) -> Result<Option<String>, Error> {
        let mut line = Vec::new();
        let is_there = push_entry(self.handle(), place, &mut line)?;
        Ok(is_there.then(|| string_of(line)))
    }

    /// The stored journal as text, up to the last entry at the moment of the last read.
    ///
    /// # Errors
    /// Those of [`entry`](Process::entry).
    pub fn journal(&self) -> Result<Journal, Error> {
        text_of(self.handle())
    }
}

/// Waits in two parts.
impl Process {
    /// The open wait that was started by a descriptor.
    pub(crate) fn wait_of(&self, d: u32) -> Option<OpenWait> {
        self.0.wait.get().filter(|wait| wait.d == d)
    }

    /// Starts a send or a receive, and records the open wait if there is one now.
    pub(crate) fn start(
        &self,
        wait: OpenWait,
        call: impl FnOnce(&Handle, Moment, Moment) -> u32,
    ) -> u32 {
        let now = self.0.system.moment_now(wait.limit.is_some_and(|limit| limit.is_real));
        let answer = call(self.handle(), wait.until(), now);
        if answer == answer::WAITS {
            self.0.wait.set(Some(wait));
        }
        self.wake_answered();
        answer
    }

    /// Ends the open wait if it is answered, or if its deadline has passed, and returns its result.
    pub(crate) fn try_end(
        &self,
        wait: &OpenWait,
        buf: &mut [u8],
        message: &mut Message,
    ) -> Option<u32> {
        let answer = if self.handle().is_answered() {
            self.handle().collect(buf, message)
        } else {
            let limit = wait.limit?;
            let now = self.0.system.moment_now(limit.is_real);
            if !limit.has_passed(now) {
                return None;
            }
            self.handle().end_wait(buf, message, now)
        };
        // A wait is still open only if the program's clock has started another one meanwhile.
        let is_open = answer == answer::WAITS || answer == answer::EARLY;
        (!is_open).then(|| self.ended(answer))
    }

    /// Ends the open wait: if it is not answered it is withdrawn, and this returns `TIMED_OUT`.
    pub(crate) fn withdraw(&self, wait: &OpenWait, buf: &mut [u8], message: &mut Message) -> u32 {
        // A wait without a deadline, which only a journal leaves, ends only if it is answered.
        let answer = match self.handle().end_wait(buf, message, wait.until()) {
            answer::EARLY => self.handle().collect(buf, message),
            answer => answer,
        };
        self.ended(answer)
    }

    /// Waits until the open wait is answered, or its deadline has passed by the program's clock,
    /// and ends it. Meanwhile no other call can end it: the clock could make one.
    pub(crate) fn await_end(&self, wait: &OpenWait, buf: &mut [u8], message: &mut Message) -> u32 {
        const FIRST: Duration = Duration::from_millis(10);
        const LONGEST: Duration = Duration::from_millis(80);
        let mut delay = FIRST;
        let mut taken = Taken { from: &self.0.wait, wait: self.0.wait.take() };
        loop {
            if let Some(answer) = self.try_end(wait, buf, message) {
                taken.wait = None;
                return answer;
            }
            if !self.skips_to(wait.until()) {
                self.handle().await_answered(delay);
                delay = LONGEST.min(2 * delay);
            }
        }
    }

    pub(crate) fn skips_to(&self, until: Moment) -> bool {
        self.0.system.shared.clock.as_ref().is_some_and(|clock| clock.skip_to(until.time()))
    }

    /// Records that the open wait has ended. It stays open if the answer is that the buffer is too
    /// short, or that it has no deadline, which only a wait from a journal lacks.
    fn ended(&self, answer: u32) -> u32 {
        if answer != answer::SHORT && answer != answer::WAITS {
            self.0.wait.set(None);
            let unclosed = self.0.unclosed.take();
            for d in (0..u32::BITS).filter(|d| unclosed & 1 << d != 0) {
                // If the close fails, the queue stays open until the process exits.
                let _ = self.close(d);
            }
        }
        answer
    }

    /// Closes a descriptor, now or as soon as the open wait has ended.
    pub(crate) fn close(&self, d: u32) -> Result<(), Error> {
        match self.handle().close(d) {
            answer::WAITING => {
                self.0.unclosed.set(self.0.unclosed.get() | 1 << d);
                Ok(())
            }
            answer => done(answer),
        }
    }

    /// Wakes those whose waits the last call has answered, if they are not threads that the library
    /// wakes.
    #[inline]
    pub(crate) fn wake_answered(&self) {
        let others = self.handle().answered_others();
        if others != 0 {
            self.0.system.shared.wakers.wake(others);
        }
    }
}

/// An open wait, taken out of its process; the drop puts it back, unless it has ended.
struct Taken<'p> {
    from: &'p Cell<Option<OpenWait>>,
    wait: Option<OpenWait>,
}

impl Drop for Taken<'_> {
    fn drop(&mut self) {
        self.from.set(self.wait);
    }
}

impl Drop for Process {
    fn drop(&mut self) {
        // A wait is still open only if its queue was forgotten.
        if let Some(wait) = self.0.wait.get() {
            self.withdraw(&wait, &mut vec![0; wait.len], &mut Message::default());
        }
        // This fails only if the journal is full or an allocation fails. Then the queues stay open.
        self.handle().exit();
    }
}

impl fmt::Debug for Process {
    fn fmt(&self, to: &mut fmt::Formatter<'_>) -> fmt::Result {
        to.debug_struct("Process").field("number", &self.number()).finish_non_exhaustive()
    }
}

#[inline]
pub(crate) fn done(answer: u32) -> Result<(), Error> {
    if answer == answer::DONE {
        Ok(())
    } else {
        Err(refusal(answer))
    }
}

#[cold]
pub(crate) fn refusal(answer: u32) -> Error {
    Error::of_answer(answer).unwrap_or_else(|| unreachable!("the library returned {answer}"))
}
