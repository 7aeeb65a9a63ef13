//! Handles whose calls are steps of an exploration ([`crate::model()`]). Outside of one, each call
//! is that of the library.
//!
//! A call on a queue waits for its turn before it reaches the library's lock. Then its thread makes
//! it while no other runs. So it never waits inside the library: a send or a receive gets its turn
//! when it can be made, or when its deadline passes.

use crate::options::MOST_PRIORITY;
use crate::raw::machine::{self, Queue, NEVER_BLOCKS, TRY};
use crate::raw::{
    self, answer, errno_of, Attributes, Kept, Message, Moment, Opening, RoomLeft, Storage,
};
use std::cell::RefCell;
use std::collections::HashMap;
use std::sync::atomic::{AtomicBool, Ordering};
use std::sync::{Arc, Mutex, MutexGuard, PoisonError};
use std::time::Duration;

const ACCESS_READ: u32 = 0;
const ACCESS_WRITE: u32 = 1;
/// The limits of a queue that is created without any.
const MAXMSG: i64 = 10;
const MSGSIZE: i64 = 8_192;

/// A queue of the system.
struct Known {
    queue: Queue,
    msgsize: usize,
    /// Whether a name is bound to it.
    is_bound: AtomicBool,
}

impl Known {
    fn new(name: &[u8], opening: &Opening) -> Known {
        let (room, msgsize) =
            if opening.limited { (opening.maxmsg, opening.msgsize) } else { (MAXMSG, MSGSIZE) };
        let msgsize = usize::try_from(msgsize).expect("a queue was created with it");
        Known { queue: Queue::new(name, room), msgsize, is_bound: AtomicBool::new(true) }
    }
}

/// A queue that a process has open.
#[derive(Clone)]
struct Open {
    known: Arc<Known>,
    access: u32,
    is_nonblocking: bool,
}

impl Open {
    /// Waits until the send or the receive may be made, or its deadline has passed.
    fn await_turn(&self, is_send: bool, len: usize, priority: u32, until: Option<Moment>) {
        let is_wrong = if is_send {
            self.access == ACCESS_READ || len > self.known.msgsize || priority > MOST_PRIORITY
        } else {
            self.access == ACCESS_WRITE || len < self.known.msgsize
        };
        let flags = match (is_wrong, self.is_nonblocking) {
            (true, _) => NEVER_BLOCKS,
            (false, true) => TRY,
            (false, false) => 0,
        };
        self.known.queue.transfer(is_send, priority, flags, until);
    }

    fn moved(&self, is_send: bool, answer: u32, bytes: &[u8]) {
        self.known.queue.moved(is_send, error_of(answer), bytes);
    }
}

/// The queues of a system by their names.
type Names = Mutex<HashMap<Vec<u8>, Arc<Known>>>;

/// What the exploration knows of the calls of a process.
struct Told {
    names: Arc<Names>,
    /// By their descriptors.
    open: RefCell<HashMap<u32, Open>>,
    /// The queues on which the process has registered.
    registered: RefCell<Vec<Arc<Known>>>,
}

/// A process, or empty, like the handle of the library.
pub struct Handle {
    raw: raw::Handle,
    /// Present if the system was made in an exploration.
    told: Option<Told>,
}

fn error_of(answer: u32) -> i32 {
    if answer == answer::DONE {
        0
    } else {
        errno_of(answer)
    }
}

impl Told {
    fn names(&self) -> MutexGuard<'_, HashMap<Vec<u8>, Arc<Known>>> {
        // No thread waits for it: one thread runs at a time, and none stops while it holds this.
        self.names.lock().unwrap_or_else(PoisonError::into_inner)
    }

    fn open_as(&self, d: u32) -> Option<Open> {
        self.open.borrow().get(&d).cloned()
    }

    fn is_registered(&self, known: &Arc<Known>) -> bool {
        self.registered.borrow().iter().any(|it| Arc::ptr_eq(it, known))
    }

    /// Waits for the turn of a close, if other processes could notice the close: it may end a
    /// registration, or destroy the queue.
    fn await_close(&self, open: &Open) {
        if self.is_registered(&open.known) {
            machine::call(b"notify\0", Some(&open.known.queue));
        } else if !open.known.is_bound.load(Ordering::Relaxed) {
            machine::call(b"close\0", None);
        }
    }
}

/// Calls that are steps.
impl Handle {
    pub fn of_system(count: usize, storage: Storage) -> Result<Vec<Handle>, u32> {
        let names = machine::decides().then(|| Arc::new(Names::default()));
        let told = |names: &Arc<Names>| Told {
            names: Arc::clone(names),
            open: RefCell::default(),
            registered: RefCell::default(),
        };
        let handles = raw::Handle::of_system(count, storage)?;
        Ok(handles.into_iter().map(|raw| Handle { raw, told: names.as_ref().map(told) }).collect())
    }

    /// Like `of_system`, for a system that continues from a journal. The exploration would not
    /// know what that system has, so a model can't make one.
    pub fn resumed(count: usize, journal: &[u8], kept: Kept) -> Result<Vec<Handle>, (u32, u64)> {
        assert!(!machine::decides(), "a model resumes no system, and makes no journal short");
        let handles = raw::Handle::resumed(count, journal, kept)?;
        Ok(handles.into_iter().map(|raw| Handle { raw, told: None }).collect())
    }

    /// Empties handles of one system.
    pub fn finish(handles: Vec<Handle>) {
        raw::Handle::finish(handles.into_iter().map(|it| it.raw).collect());
    }

    /// What the exploration knows of the calls; `None` outside of one.
    fn told(&self) -> Option<&Told> {
        match &self.told {
            Some(told) => machine::decides().then_some(told),
            None if machine::decides() => {
                panic!("a model calls on a system that was made outside of it")
            }
            None => None,
        }
    }

    /// Whether the calls of a system that is made now are steps of an exploration.
    pub fn are_steps() -> bool {
        machine::decides()
    }

    fn open_as(&self, d: u32) -> Option<Open> {
        self.told().and_then(|told| told.open_as(d))
    }

    pub fn open(&self, name: &[u8], opening: &Opening, d: &mut u32) -> u32 {
        let Some(told) = self.told() else { return self.raw.open(name, opening, d) };
        machine::call(b"open\0", None);
        let answer = self.raw.open(name, opening, d);
        if answer == answer::DONE {
            let made = || Arc::new(Known::new(name, opening));
            let known = Arc::clone(told.names().entry(name.to_vec()).or_insert_with(made));
            let open = Open { known, access: opening.access, is_nonblocking: opening.nonblock };
            told.open.borrow_mut().insert(*d, open);
        }
        machine::gave(error_of(answer), 0);
        answer
    }

    pub fn close(&self, d: u32) -> u32 {
        if let Some(told) = self.told() {
            if let Some(open) = told.open_as(d) {
                told.await_close(&open);
            }
            told.open.borrow_mut().remove(&d);
        }
        self.raw.close(d)
    }

    pub fn unlink(&self, name: &[u8]) -> u32 {
        let Some(told) = self.told() else { return self.raw.unlink(name) };
        machine::call(b"unlink\0", None);
        let answer = self.raw.unlink(name);
        if answer == answer::DONE {
            if let Some(known) = told.names().remove(name) {
                known.is_bound.store(false, Ordering::Relaxed);
            }
        }
        machine::gave(error_of(answer), 0);
        answer
    }

    pub fn notify(&self, d: u32, notice: Option<u64>) -> u32 {
        let open = self.open_as(d);
        if let (Some(told), Some(open)) = (self.told(), &open) {
            machine::call(b"notify\0", Some(&open.known.queue));
            if !told.is_registered(&open.known) {
                told.registered.borrow_mut().push(Arc::clone(&open.known));
            }
        }
        let answer = self.raw.notify(d, notice);
        if open.is_some() {
            machine::gave(error_of(answer), 0);
        }
        answer
    }

    pub fn next_notice(&self, value: &mut u64) -> u32 {
        // A notice is from a queue on which the process has registered.
        let registered = self.told().map(|told| told.registered.borrow().clone());
        if let Some((first, others)) = registered.as_deref().and_then(<[_]>::split_first) {
            machine::call(b"notify\0", Some(&first.queue));
            for other in others {
                other.queue.also(b"notify\0");
            }
        }
        self.raw.next_notice(value)
    }

    pub fn getattr(&self, d: u32, attributes: &mut Attributes) -> u32 {
        let open = self.open_as(d);
        if let Some(open) = &open {
            machine::call(b"getattr\0", Some(&open.known.queue));
        }
        let answer = self.raw.getattr(d, attributes);
        if open.is_some() {
            machine::gave(error_of(answer), u32::try_from(attributes.curmsgs).unwrap_or(0));
        }
        answer
    }

    /// Like `getattr`, for the limits only. They never change, so it is not a step.
    pub fn limits(&self, d: u32, attributes: &mut Attributes) -> u32 {
        self.raw.limits(d, attributes)
    }

    pub fn setattr(&self, d: u32, nonblock: bool, before: &mut Attributes) -> u32 {
        // The flag belongs to this process, so other processes do not notice the change.
        if let Some(told) = self.told() {
            if let Some(open) = told.open_as(d) {
                machine::call(b"getattr\0", Some(&open.known.queue));
            }
            if let Some(open) = told.open.borrow_mut().get_mut(&d) {
                open.is_nonblocking = nonblock;
            }
        }
        self.raw.setattr(d, nonblock, before)
    }

    pub fn exit(&self) -> u32 {
        if let Some(told) = self.told() {
            let mut open: Vec<_> = told.open.take().into_iter().collect();
            open.sort_unstable_by_key(|(d, _)| *d);
            for (_, open) in &open {
                told.await_close(open);
            }
        }
        self.raw.exit()
    }

    #[inline]
    pub fn send(&self, d: u32, bytes: &[u8], prio: u32) -> u32 {
        self.send_by(d, bytes, prio, None, |raw| raw.send(d, bytes, prio))
    }

    pub fn send_until(&self, d: u32, bytes: &[u8], prio: u32, until: Moment) -> u32 {
        self.send_by(d, bytes, prio, Some(until), |raw| raw.send_until(d, bytes, prio, until))
    }

    pub fn start_send(&self, d: u32, bytes: &[u8], prio: u32, until: Moment, now: Moment) -> u32 {
        self.refuse_wait(until, now);
        self.send_by(d, bytes, prio, Some(now), |raw| raw.start_send(d, bytes, prio, until, now))
    }

    fn send_by(
        &self,
        d: u32,
        bytes: &[u8],
        prio: u32,
        until: Option<Moment>,
        call: impl FnOnce(&raw::Handle) -> u32,
    ) -> u32 {
        let Some(open) = self.open_as(d) else { return call(&self.raw) };
        open.await_turn(true, bytes.len(), prio, until);
        let answer = call(&self.raw);
        open.moved(true, answer, bytes);
        answer
    }

    #[inline]
    pub fn receive(&self, d: u32, buf: &mut [u8], message: &mut Message) -> u32 {
        self.receive_by(d, buf, message, None, |raw, buf, message| raw.receive(d, buf, message))
    }

    pub fn receive_until(
        &self,
        d: u32,
        buf: &mut [u8],
        message: &mut Message,
        until: Moment,
    ) -> u32 {
        self.receive_by(d, buf, message, Some(until), |raw, buf, message| {
            raw.receive_until(d, buf, message, until)
        })
    }

    pub fn start_receive(
        &self,
        d: u32,
        buf: &mut [u8],
        message: &mut Message,
        until: Moment,
        now: Moment,
    ) -> u32 {
        self.refuse_wait(until, now);
        self.receive_by(d, buf, message, Some(now), |raw, buf, message| {
            raw.start_receive(d, buf, message, until, now)
        })
    }

    fn receive_by(
        &self,
        d: u32,
        buf: &mut [u8],
        message: &mut Message,
        until: Option<Moment>,
        call: impl FnOnce(&raw::Handle, &mut [u8], &mut Message) -> u32,
    ) -> u32 {
        let Some(open) = self.open_as(d) else { return call(&self.raw, buf, message) };
        open.await_turn(false, buf.len(), 0, until);
        let answer = call(&self.raw, buf, message);
        let received = if answer == answer::DONE { &buf[..message.len] } else { &[] };
        open.moved(false, answer, received);
        answer
    }

    /// Panics if the call could leave an open wait, which would be answered while its thread
    /// continues.
    fn refuse_wait(&self, until: Moment, now: Moment) {
        assert!(
            until <= now || self.told().is_none(),
            "a model has no waits in two parts, no futures, and no clocks of the program"
        );
    }
}

/// Calls that are not steps: they concern only the process, or the journal.
impl Handle {
    pub fn number(&self) -> u32 {
        self.raw.number()
    }

    #[inline]
    pub fn answered_others(&self) -> u32 {
        self.raw.answered_others()
    }

    #[inline]
    pub fn is_answered(&self) -> bool {
        self.raw.is_answered()
    }

    pub fn await_answered(&self, most: Duration) -> bool {
        self.raw.await_answered(most)
    }

    pub fn time_has_moved(&self) {
        self.raw.time_has_moved();
    }

    pub fn collect(&self, buf: &mut [u8], message: &mut Message) -> u32 {
        self.raw.collect(buf, message)
    }

    pub fn end_wait(&self, buf: &mut [u8], message: &mut Message, now: Moment) -> u32 {
        self.raw.end_wait(buf, message, now)
    }

    pub fn check(&self) -> u32 {
        self.raw.check()
    }

    pub fn entry(&self, place: u64, text: &mut [u8], len: &mut usize) -> u32 {
        self.raw.entry(place, text, len)
    }

    pub fn room(&self, room: &mut RoomLeft) -> u32 {
        self.raw.room(room)
    }

    pub fn nobody_can_call(&self) -> u32 {
        self.raw.nobody_can_call()
    }
}
