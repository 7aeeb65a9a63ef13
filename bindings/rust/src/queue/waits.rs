//! The open waits of a queue.

use super::Queue;
use crate::holder::Holder;
use crate::options::Message;
use crate::raw::{self, answer};
use crate::time::Limit;
use std::task::Poll;
use std::time::{Duration, Instant};

/// Open waits.
impl<P: Holder> Queue<P> {
    /// Whether the open wait of this queue is answered, by one load, or is a receive that found no
    /// sender left ([`OpenOptions::disconnecting`](crate::OpenOptions::disconnecting)). If so, the
    /// next collect ends it.
    #[inline]
    #[must_use]
    pub fn is_answered(&self) -> bool {
        self.process().wait_of(self.d).is_some_and(|wait| {
            self.process().is_answered() || (!wait.is_send && self.part.is_disconnected())
        })
    }

    /// Sleeps until the open wait of this queue is answered, for at most this long in real time,
    /// and returns whether it is answered.
    pub fn wait_timeout(&self, timeout: Duration) -> bool {
        let end = Instant::now().checked_add(timeout);
        if self.part.disconnects() && self.process().wait_of(self.d).is_some() {
            return self.sleep_until_answered(end);
        }
        while self.process().wait_of(self.d).is_some() && !self.process().is_answered() {
            let left = end.map_or(timeout, |end| end.saturating_duration_since(Instant::now()));
            if left.is_zero() {
                return false;
            }
            self.handle().await_answered(left);
        }
        self.is_answered()
    }

    /// Ends the open wait of this queue in any case: it is withdrawn, unless it is already
    /// answered. Returns true if it was withdrawn; then a send has sent nothing. Returns false if
    /// no wait was open, or if it was answered: then a send is done, and the next receive by this
    /// queue returns the message of a receive. It also returns false, and the wait stays open, if
    /// the wait comes from a journal and has no deadline, as a C program can leave it.
    pub fn cancel(&self) -> bool {
        let Some(wait) = self.process().wait_of(self.d) else { return false };
        let (mut bytes, mut message) = (vec![0; wait.len], raw::Message::default());
        let answer = self.process().withdraw(&wait, &mut bytes, &mut message);
        if answer == answer::DONE && !wait.is_send {
            bytes.truncate(message.len);
            self.kept.set(Some(Box::new(Message::new(message.prio, bytes))));
        }
        answer == answer::TIMED_OUT
    }

    pub(super) fn limit_after(&self, timeout: Duration) -> Limit {
        Limit::after(timeout, &self.process().system().shared.clock)
    }

    /// Whether the library reads the clock of the deadline itself.
    pub(crate) fn is_library_clock(&self, limit: &Limit) -> bool {
        limit.is_real || self.process().system().shared.clock.is_none()
    }

    /// The result of the open wait of this kind, if it has ended.
    pub(super) fn collect(
        &self,
        is_send: bool,
        buf: &mut [u8],
        message: &mut raw::Message,
    ) -> Poll<u32> {
        match self.process().wait_of(self.d).filter(|wait| wait.is_send == is_send) {
            None => Poll::Ready(answer::NOT_WAITING),
            Some(wait) => {
                self.process().try_end(&wait, buf, message).map_or(Poll::Pending, Poll::Ready)
            }
        }
    }

    /// Waits for the end of the open wait by the program's clock. If that clock panics, the wait is
    /// cancelled.
    pub(super) fn await_end(&self, buf: &mut [u8], message: &mut raw::Message) -> u32 {
        let Some(wait) = self.process().wait_of(self.d) else { return answer::NOT_WAITING };
        let cancels = Cancels(self);
        let answer = self.process().await_end(&wait, buf, message);
        drop(cancels);
        answer
    }

    /// Withdraws the open wait of this queue, which is about to be closed.
    pub(super) fn end_wait_for_ever(&self) {
        self.cancel();
        self.kept.take();
        self.part.leave(self.process());
    }
}

/// Cancels the open wait of a queue, if there is one, when it is dropped.
pub(crate) struct Cancels<'q, P: Holder>(pub &'q Queue<P>);

impl<P: Holder> Drop for Cancels<'_, P> {
    fn drop(&mut self) {
        self.0.cancel();
    }
}
