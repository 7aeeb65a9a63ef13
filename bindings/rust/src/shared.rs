//! Processes that several threads share, and their queues.

use crate::error::Error;
use crate::options::OpenOptions;
use crate::process::Process;
use crate::queue::{Open, Queue};
use std::fmt;
use std::sync::{Arc, Mutex, MutexGuard, PoisonError};

/// A process behind a lock. It moves to other threads with all its queues, and several threads can
/// share it. A clone is the same process.
///
/// A process makes one call at a time. So [`with`](SharedProcess::with) waits while another thread
/// is in a `with` of this process, also while a call there waits for a message. Threads that should
/// wait at the same time need processes of their own. A model does not see the lock.
///
/// ```
/// use std::thread;
/// use yakyrombe::{Error, OpenOptions, Process, SharedProcess, SharedQueue, System};
///
/// /// Passes messages on. Both queues belong to one process.
/// struct Relay {
///     from: SharedQueue,
///     to: SharedQueue,
/// }
///
/// impl Relay {
///     fn new(process: Process) -> Result<Relay, Error> {
///         let options = OpenOptions::read_write().create().limits(4, 16);
///         let process = SharedProcess::new(process);
///         Ok(Relay { from: process.open("/from", options)?, to: process.open("/to", options)? })
///     }
///
///     fn pass_on(&self) -> Result<(), Error> {
///         let message = self.from.with(|from| from.receive_vec())?;
///         self.to.with(|to| to.send(&message, message.priority))
///     }
/// }
///
/// # fn main() -> Result<(), Error> {
/// let (_, [one, two]) = System::builder().build_array()?;
/// let relay = Relay::new(one)?;
/// let passes = thread::spawn(move || relay.pass_on());
/// two.open("/from", OpenOptions::write())?.send(b"hello", 3)?;
/// passes.join().unwrap()?;
/// # Ok(())
/// # }
/// ```
#[derive(Clone)]
pub struct SharedProcess(Arc<Mutex<Process>>);

impl SharedProcess {
    /// Puts a process behind a lock.
    #[must_use]
    pub fn new(process: Process) -> SharedProcess {
        SharedProcess(Arc::new(Mutex::new(process)))
    }

    /// Opens a queue, as [`Process::open`] does.
    ///
    /// # Errors
    /// Those of `Process::open`.
    pub fn open(&self, name: impl AsRef<[u8]>, options: OpenOptions) -> Result<SharedQueue, Error> {
        let open = self.with(|process| Ok::<_, Error>(process.open(name, options)?.take_open()))?;
        Ok(SharedQueue { process: self.clone(), open: Mutex::new(open) })
    }

    /// Makes calls of the process. Other threads wait until the function returns, so a `with` of
    /// the same process inside it, or the drop of a queue of it, would wait for ever.
    pub fn with<R>(&self, calls: impl FnOnce(&Process) -> R) -> R {
        calls(&locked(&self.0))
    }
}

impl fmt::Debug for SharedProcess {
    fn fmt(&self, to: &mut fmt::Formatter<'_>) -> fmt::Result {
        to.debug_struct("SharedProcess").finish_non_exhaustive()
    }
}

/// A queue that a [`SharedProcess`] has open. It is `Send` and `Sync`, and owns its process
/// together with the other queues. It is closed when it is dropped.
pub struct SharedQueue {
    process: SharedProcess,
    open: Mutex<Open>,
}

impl SharedQueue {
    /// Makes calls on the queue. Like [`SharedProcess::with`], it locks the process.
    ///
    /// An open wait ([waits in two parts](Queue#waits-in-two-parts)) stays open behind it, and a
    /// later `with` collects it.
    pub fn with<R>(&self, calls: impl FnOnce(&Queue<&Process>) -> R) -> R {
        self.process.with(|process| {
            let mut open = locked(&self.open);
            let back = GivesBack { queue: open.take().in_process(process), open: &mut open };
            calls(&back.queue)
        })
    }

    /// The process that has the queue open.
    #[must_use]
    pub fn process(&self) -> &SharedProcess {
        &self.process
    }
}

impl Drop for SharedQueue {
    fn drop(&mut self) {
        let SharedQueue { process, open } = self;
        let open = open.get_mut().unwrap_or_else(PoisonError::into_inner).take();
        process.with(|process| drop(open.in_process(process)));
    }
}

impl fmt::Debug for SharedQueue {
    fn fmt(&self, to: &mut fmt::Formatter<'_>) -> fmt::Result {
        to.debug_struct("SharedQueue").finish_non_exhaustive()
    }
}

/// Gives the state of a queue back, also if the calls panic.
struct GivesBack<'q> {
    queue: Queue<&'q Process>,
    open: &'q mut Open,
}

impl Drop for GivesBack<'_> {
    fn drop(&mut self) {
        *self.open = self.queue.take_open();
    }
}

// A panic while one of these is locked leaves nothing half done.
fn locked<T>(mutex: &Mutex<T>) -> MutexGuard<'_, T> {
    mutex.lock().unwrap_or_else(PoisonError::into_inner)
}
