//! Receives that fail when no sender is left ([`OpenOptions::disconnecting`]).

use crate::error::Error;
use crate::holder::Holder;
use crate::options::{OpenOptions, Received};
use crate::process::{OpenWait, Process};
use crate::queue::{received, Cancels, Queue};
use crate::raw::{self, answer, Moment};
use crate::time::Limit;
use crate::wakers::Sleeper;
use std::collections::HashMap;
use std::sync::atomic::{AtomicBool, AtomicUsize, Ordering::SeqCst};
use std::sync::{Arc, Mutex, PoisonError};
use std::task::{Poll, Waker};
use std::time::{Duration, Instant};

/// How many values of [`Queue`] can send to a queue of the system.
#[derive(Default)]
pub(crate) struct Senders {
    count: AtomicUsize,
    had_one: AtomicBool,
}

impl Senders {
    /// Whether there were senders and none is left.
    fn are_gone(&self) -> bool {
        self.had_one.load(SeqCst) && self.count.load(SeqCst) == 0
    }
}

/// The queues of a system by their names; `None` if their senders are not counted.
pub(crate) struct Names(Option<Mutex<HashMap<Vec<u8>, Arc<Senders>>>>);

impl Names {
    pub fn new(are_counted: bool) -> Names {
        Names(are_counted.then(Mutex::default))
    }

    /// Makes an open, and returns the part in the senders of the queue. The lock keeps any other
    /// open or unlink away, so the name means one queue.
    pub fn open(
        &self,
        name: &[u8],
        options: &OpenOptions,
        open: impl FnOnce() -> u32,
    ) -> (u32, Part) {
        let (can_send, disconnects) = (options.can_send(), options.disconnects);
        let Some(names) = &self.0 else { return (open(), Part::default()) };
        let mut names = names.lock().unwrap_or_else(PoisonError::into_inner);
        let answer = open();
        if answer != answer::DONE {
            return (answer, Part::default());
        }
        if !names.contains_key(name) {
            names.insert(name.to_vec(), Arc::default());
        }
        let senders = names.get(name).cloned();
        if let Some(senders) = senders.as_ref().filter(|_| can_send) {
            senders.count.fetch_add(1, SeqCst);
            senders.had_one.store(true, SeqCst);
        }
        (answer, Part { senders, can_send, disconnects })
    }

    /// Makes an unlink, after which the name means no queue.
    pub fn unlink(&self, name: &[u8], unlink: impl FnOnce() -> u32) -> u32 {
        let Some(names) = &self.0 else { return unlink() };
        let mut names = names.lock().unwrap_or_else(PoisonError::into_inner);
        let answer = unlink();
        if answer == answer::DONE {
            names.remove(name);
        }
        answer
    }
}

/// The part of one `Queue` in the senders of its queue.
#[derive(Default)]
pub(crate) struct Part {
    /// `None` if they are not counted.
    senders: Option<Arc<Senders>>,
    can_send: bool,
    disconnects: bool,
}

impl Part {
    /// Whether receives by this queue fail when no sender is left.
    #[inline]
    pub fn disconnects(&self) -> bool {
        self.disconnects
    }

    /// Whether a receive fails that finds no message. This is read before the queue is, because a
    /// sender sends before it is dropped.
    pub fn is_disconnected(&self) -> bool {
        self.disconnects && self.senders.as_ref().is_some_and(|senders| senders.are_gone())
    }

    /// Ends this part, at the end of its `Queue`.
    pub fn leave(&self, process: &Process) {
        if let Some(senders) = self.senders.as_ref().filter(|_| self.can_send) {
            if senders.count.fetch_sub(1, SeqCst) == 1 {
                process.system().shared.wakers.wake_all();
            }
        }
    }
}

/// Receives by a queue that disconnects.
impl<P: Holder> Queue<P> {
    /// Like the receives that wait, in two parts.
    #[cold]
    pub(crate) fn receive_or_disconnect(
        &self,
        buf: &mut [u8],
        limit: Option<Limit>,
    ) -> Result<Received, Error> {
        if let Poll::Ready(received) = self.start_receive_by(buf, limit) {
            return received;
        }
        let cancels = Cancels(self);
        let mut delay = Duration::from_millis(10);
        let received = loop {
            if let Poll::Ready(received) = self.collect_receive(buf) {
                break received;
            }
            match limit {
                None => drop(self.sleep_until_answered(None)),
                Some(limit) if self.is_library_clock(&limit) => {
                    let left = limit.until.time().saturating_sub(Moment::now().time());
                    self.sleep_until_answered(Instant::now().checked_add(left));
                }
                // Nobody tells when the clock of the program has moved.
                Some(limit) if !self.process().skips_to(limit.until) => {
                    self.sleep_until_answered(Instant::now().checked_add(delay));
                    delay = (2 * delay).min(Duration::from_millis(80));
                }
                Some(_) => {}
            }
        };
        drop(cancels);
        received
    }

    /// Sleeps until the next collect ends the open wait, or a moment has come, and returns whether
    /// it does.
    pub(crate) fn sleep_until_answered(&self, end: Option<Instant>) -> bool {
        let (process, sleeper) = (self.process(), Arc::<Sleeper>::default());
        let wakers = &process.system().shared.wakers;
        loop {
            wakers.set(process, Some(Waker::from(Arc::clone(&sleeper))));
            let left = end.map(|end| end.saturating_duration_since(Instant::now()));
            // An answer before this load is seen here; a later one finds the waker.
            if self.is_answered() || left.is_some_and(|left| left.is_zero()) {
                break;
            }
            sleeper.sleep(left);
        }
        wakers.set(process, None);
        self.is_answered()
    }

    /// The result of an open wait if no sender is left: it is withdrawn, unless it is answered.
    pub(crate) fn disconnect(&self, wait: &OpenWait, buf: &mut [u8]) -> Result<Received, Error> {
        let mut message = raw::Message::default();
        match self.process().withdraw(wait, buf, &mut message) {
            answer::TIMED_OUT => Err(Error::Disconnected),
            answer => received(answer, &message),
        }
    }
}
