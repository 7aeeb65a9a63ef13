//! POSIX message queues inside one program, over a library of proved calls.
//!
//! A [`System`] has 1 to 32 processes that share queues. A [`Process`] is a value: it moves to
//! another thread, and one thread at a time makes its calls. A [`Queue`] is a queue that a process
//! has open. A message has a priority; a receive takes the oldest message of the highest priority.
//!
//! ```
//! use yakyrombe::{OpenOptions, System};
//!
//! # fn main() -> Result<(), yakyrombe::Error> {
//! let (_, [process]) = System::builder().build_array()?;
//! let orders =
//!     process.open("/orders", OpenOptions::read_write().create().limits(10, 64))?;
//! orders.send(b"sweep the floor", 1)?;
//! orders.send(b"put out the fire", 9)?;
//!
//! let mut buf = [0; 64];
//! let received = orders.receive(&mut buf)?;
//! assert_eq!(&buf[..received.len], b"put out the fire");
//! assert_eq!(received.priority, 9);
//! # Ok(())
//! # }
//! ```
//!
//! # Threads
//!
//! Each thread has a process of its own. A pool of workers is a set of threads that receive from
//! one queue. A call that waits sleeps until a call of another thread answers it.
//!
//! ```
//! use std::thread;
//! use yakyrombe::{Error, OpenOptions, Process, System};
//!
//! const JOBS: OpenOptions = OpenOptions::read_write().create().limits(64, 16);
//!
//! fn work(process: Process) -> Result<usize, Error> {
//!     let jobs = process.open("/jobs", JOBS)?;
//!     let mut done = 0;
//!     for job in &jobs {
//!         if job?.is_empty() {
//!             break;
//!         }
//!         done += 1;
//!     }
//!     Ok(done)
//! }
//!
//! # fn main() -> Result<(), Error> {
//! let (_, mut processes) = System::builder().processes(4).build()?;
//! let first = processes.remove(0);
//! let jobs = first.open("/jobs", JOBS)?;
//! let workers: Vec<_> =
//!     processes.into_iter().map(|process| thread::spawn(|| work(process))).collect();
//! for job in 0..100 {
//!     jobs.send(format!("job {job}").as_bytes(), 1)?;
//! }
//! // An empty job of a lower priority for each worker: they are received last.
//! for _ in &workers {
//!     jobs.send(b"", 0)?;
//! }
//! let done: usize =
//!     workers.into_iter().map(|worker| worker.join().unwrap()).sum::<Result<_, _>>()?;
//! assert_eq!(done, 100);
//! # Ok(())
//! # }
//! ```
//!
//! # Time
//!
//! [`send_timeout`](Queue::send_timeout) and [`receive_timeout`](Queue::receive_timeout) take a
//! [`Duration`](std::time::Duration), [`send_deadline`](Queue::send_deadline) and
//! [`receive_deadline`](Queue::receive_deadline) an [`Instant`](std::time::Instant) or another
//! [`Deadline`]. Durations are measured by the clock of the system, which is a monotonic clock
//! unless [`Builder::clock`] names another [`Clock`]. With a [`VirtualClock`] the same calls run a
//! simulation in one thread: a call that would wait moves the clock to its deadline. Here three
//! tasks report every 10, 20 and 50 milliseconds:
//!
//! ```
//! use std::time::Duration;
//! use yakyrombe::{Clock, Deadline, Error, OpenOptions, System, VirtualClock};
//!
//! # fn main() -> Result<(), Error> {
//! let clock = VirtualClock::new();
//! let (_, [one, two, three, monitor]) =
//!     System::builder().clock(clock.clone()).build_array()?;
//! let options = OpenOptions::read_write().create().limits(4, 16);
//! let reports = monitor.open("/reports", options)?;
//! let millis = Duration::from_millis;
//! // The queue of each task, its name, its period, and when it runs next.
//! let mut tasks = [
//!     (one.open("/reports", options)?, "sensor", millis(10), millis(10)),
//!     (two.open("/reports", options)?, "control", millis(20), millis(20)),
//!     (three.open("/reports", options)?, "logger", millis(50), millis(50)),
//! ];
//! let mut count = 0;
//! while clock.now() < millis(100) {
//!     let next = tasks.iter().map(|task| task.3).min().unwrap();
//!     // No report arrives before a task runs again, so the clock jumps to that moment.
//!     while reports.receive_vec_deadline(Deadline::Moment(next)) != Err(Error::TimedOut) {
//!         count += 1;
//!     }
//!     for (queue, name, period, next) in &mut tasks {
//!         if *next == clock.now() {
//!             queue.send(name.as_bytes(), 0)?;
//!             *next += *period;
//!         }
//!     }
//! }
//! assert_eq!(count + reports.try_iter().count(), 10 + 5 + 2);
//! # Ok(())
//! # }
//! ```
//!
//! # Several queues
//!
//! [`select`] waits for a message of one of several queues, each of a process of its own.
//!
//! # Without blocking
//!
//! [`try_send`](Queue::try_send) and [`try_receive`](Queue::try_receive) fail if they would wait.
//! [`start_send`](Queue::start_send) and [`start_receive`](Queue::start_receive) leave an open
//! wait that is collected later ([waits in two parts](Queue#waits-in-two-parts)).
//!
//! With the feature `futures`, `Queue` also has `send_async`, `receive_async` and
//! `receive_vec_async`. They need only [`std::future`], so any executor can run them: the one in
//! the documentation of `ReceiveFuture` has ten lines.
//!
//! # The journal
//!
//! The *journal* lists all calls with their replies. By default it is not stored, so a program can
//! run indefinitely in constant memory. [`Builder::journal`] stores it for a program that reads
//! it. [`Builder::bounded`] stores it in memory that is allocated when the system is built:
//!
//! ```
//! use yakyrombe::{Error, OpenOptions, System};
//!
//! # fn main() -> Result<(), Error> {
//! let (_, [process]) = System::builder().journal(true).build_array()?;
//! let orders = process.open("/orders", OpenOptions::read().create())?;
//! assert_eq!(process.journal()?.as_str(), "0 1 open rc \"/orders\" -> fd 0 created\n");
//!
//! let (_, [other]) = System::builder().build_array()?;
//! assert_eq!(other.journal(), Err(Error::Unstored));
//! # drop(orders);
//! # Ok(())
//! # }
//! ```
//!
//! A system can continue from the journal of another ([`System::resume`]), or from a shorter
//! equivalent one ([`Journal::compacted`]): to return to a state, or to try several continuations
//! of it.
//!
//! # Errors
//!
//! Any call can also fail with [`NoMemory`](Error::NoMemory) in a system without bounds, and with
//! [`JournalFull`](Error::JournalFull) in one with bounds. Such a call changes nothing and has no
//! entry in the journal. A call that fails with [`Waiting`](Error::Waiting), or has a malformed
//! name, has no entry either. Every other call on queues has one.
//!
//! # What to keep in mind
//!
//! - A wait without a deadline that no other call answers never ends, as POSIX has it: unlike that
//!   of a channel, a `receive` does not fail when no sender is left. Open the queue with
//!   [`OpenOptions::disconnecting`], and it does. A send does not fail when no receiver is left.
//! - The library allocates with C's `malloc`.
//! - No call may be made from a signal handler, or in a forked child of a program with threads.
#![deny(missing_docs)]

mod error;
#[cfg(feature = "model")]
mod explored;
#[cfg(feature = "futures")]
mod futures;
mod holder;
mod iter;
mod journal;
#[cfg(feature = "model")]
mod model;
mod options;
mod payload;
mod process;
mod queue;
#[allow(missing_docs)]
mod raw;
mod select;
mod senders;
mod shared;
#[cfg(feature = "model")]
pub mod sync;
mod system;
mod time;
mod wakers;

/// The same as [`std::thread`]: the starts, ends, joins, parks and sleeps of its threads are steps
/// of a [`model`](crate::model()).
#[cfg(feature = "model")]
pub mod thread {
    pub use std::thread::*;
}

pub use error::{Error, Invalid, Refused, ResumeError};
#[cfg(feature = "futures")]
pub use futures::{ReceiveFuture, SendFuture};
pub use holder::Holder;
pub use iter::{Iter, TryIter};
pub use journal::Journal;
#[cfg(feature = "model")]
pub use model::{model, Model};
pub use options::{Attr, Message, OpenOptions, Received, Room};
pub use payload::Payload;
pub use process::Process;
pub use queue::Queue;
pub use select::{select, select_timeout};
pub use shared::{SharedProcess, SharedQueue};
pub use system::{Builder, System, MOST_PROCESSES};
pub use time::{Clock, Deadline, Monotonic, VirtualClock};

#[cfg(feature = "model")]
use explored::Handle;
#[cfg(not(feature = "model"))]
use raw::Handle;
