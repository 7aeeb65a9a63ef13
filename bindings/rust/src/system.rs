//! Systems, and how they are made.

use crate::error::{Error, Invalid, ResumeError};
use crate::journal::{Journal, Left};
use crate::process::{refusal, Process};
use crate::raw::{Kept, Moment, Storage};
use crate::senders::Names;
use crate::time::{moment_now, Clock, OwnClock};
use crate::wakers::Wakers;
use crate::Handle;
use std::fmt;
use std::hash::{Hash, Hasher};
use std::sync::Arc;
use std::time::Duration;

/// How many processes a system has at most.
pub const MOST_PROCESSES: usize = 32;

/// A system of processes that share queues. Queues of two systems are independent, even if they
/// have the same name.
///
/// This value identifies a system and has its clock; its processes make the calls. A clone is the
/// same system. The memory of a system is freed with its last process.
///
/// ```
/// use yakyrombe::System;
///
/// # fn main() -> Result<(), yakyrombe::Error> {
/// let (system, processes) = System::builder().processes(3).build()?;
/// assert_eq!(system.process_count(), 3);
/// assert!(processes.iter().all(|process| process.system() == &system));
/// let (other, _) = System::builder().build()?;
/// assert_ne!(system, other);
/// # Ok(())
/// # }
/// ```
#[derive(Clone)]
pub struct System {
    pub(crate) shared: Arc<Shared>,
}

/// What the processes of a system share outside of the library.
pub(crate) struct Shared {
    count: usize,
    is_stored: bool,
    pub(crate) clock: OwnClock,
    pub(crate) names: Names,
    pub(crate) wakers: Wakers,
}

impl System {
    /// Starts to build a system. By default it has one process, no stored journal, and a monotonic
    /// clock.
    pub fn builder() -> Builder {
        Builder::default()
    }

    /// A system that continues from a journal, with as many processes as the journal has, and with
    /// a stored journal. Its queues, notices and open waits are as the calls of the journal left
    /// them. [`Process::resumed`] returns the queues that a process has open.
    ///
    /// ```
    /// use yakyrombe::{Error, OpenOptions, System};
    ///
    /// # fn main() -> Result<(), Error> {
    /// let (_, [process]) = System::builder().journal(true).build_array()?;
    /// let queue = process.open("/q", OpenOptions::read_write().create().limits(8, 8))?;
    /// queue.send(b"saved", 0)?;
    /// let saved = process.journal()?;
    /// // Two continuations of it:
    /// for answer in [b"yes", b"no!"] {
    ///     let (_, processes) = System::resume(&saved)?;
    ///     let queue = processes[0].resumed(0)?;
    ///     queue.send(answer, 1)?;
    ///     assert_eq!(&*queue.receive_vec()?, answer);
    ///     assert_eq!(&*queue.receive_vec()?, b"saved");
    /// }
    /// # Ok(())
    /// # }
    /// ```
    ///
    /// # Errors
    /// The line at fault; [`NoMemory`](Error::NoMemory).
    pub fn resume(journal: &Journal) -> Result<(System, Vec<Process>), ResumeError> {
        let count = journal.process_count().clamp(1, MOST_PROCESSES);
        System::builder().processes(count).resume(journal)
    }

    /// How many processes it was built with.
    #[must_use]
    pub fn process_count(&self) -> usize {
        self.shared.count
    }

    /// Whether its journal is stored, with bounds or without.
    #[must_use]
    pub fn is_journal_stored(&self) -> bool {
        self.shared.is_stored
    }

    /// The moment now by its clock ([`Builder::clock`]), for
    /// [`Deadline::Moment`](crate::Deadline::Moment).
    #[must_use]
    pub fn now(&self) -> Duration {
        match &self.shared.clock {
            Some(clock) => clock.now(),
            None => Moment::now().time(),
        }
    }

    pub(crate) fn moment_now(&self, is_real: bool) -> Moment {
        moment_now(&self.shared.clock, is_real)
    }
}

/// Two values are equal if they are the same system.
impl PartialEq for System {
    fn eq(&self, other: &System) -> bool {
        Arc::ptr_eq(&self.shared, &other.shared)
    }
}

impl Eq for System {}

impl Hash for System {
    fn hash<H: Hasher>(&self, state: &mut H) {
        Arc::as_ptr(&self.shared).cast::<()>().hash(state);
    }
}

impl fmt::Debug for System {
    fn fmt(&self, to: &mut fmt::Formatter<'_>) -> fmt::Result {
        to.debug_struct("System")
            .field("process_count", &self.process_count())
            .field("is_journal_stored", &self.is_journal_stored())
            .finish_non_exhaustive()
    }
}

/// The options of a new system.
///
/// ```
/// use yakyrombe::{Error, System, VirtualClock};
///
/// # fn main() -> Result<(), Error> {
/// // Runs indefinitely in constant memory:
/// let (_, processes) = System::builder().processes(8).build()?;
/// assert_eq!(processes[0].check(), Err(Error::Unstored));
/// // With a journal that can be read, in virtual time:
/// let (_, [one, two]) =
///     System::builder().journal(true).clock(VirtualClock::new()).build_array()?;
/// assert_eq!(one.check(), Ok(()));
/// # drop(two);
/// # Ok(())
/// # }
/// ```
#[must_use]
pub struct Builder {
    processes: usize,
    storage: Storage,
    clock: OwnClock,
}

impl Default for Builder {
    fn default() -> Builder {
        Builder { processes: 1, storage: Storage::default(), clock: None }
    }
}

impl Builder {
    /// The number of processes, 1 to 32; the default is 1.
    pub fn processes(mut self, count: usize) -> Builder {
        self.processes = count;
        self
    }

    /// Sets whether the journal is stored and can be read; by default it is not. A stored journal
    /// grows with each call: an entry takes 64 to 120 bytes, and the name or message. Without it,
    /// the system allocates only if more messages, or longer ones, are present than before, when a
    /// queue is opened, and for pending notices; so it can run indefinitely.
    ///
    /// This replaces an earlier [`bounded`](Builder::bounded).
    pub fn journal(mut self, is_stored: bool) -> Builder {
        self.storage = if is_stored { Storage::All } else { Storage::Nothing };
        self
    }

    /// Stores the journal, with at most this many entries, and this many bytes of names and
    /// messages. All memory that the calls of the system need is allocated when it is built. A call
    /// that finds the journal full fails with [`JournalFull`](Error::JournalFull). Then no call
    /// serves a wait, and an unserved one without a deadline never ends: wait with a deadline, or
    /// check the [`room`](Process::room) first.
    ///
    /// This replaces an earlier [`journal`](Builder::journal).
    pub fn bounded(mut self, entries: u64, bytes: u64) -> Builder {
        self.storage = Storage::Bounded { entries, bytes };
        self
    }

    /// Does not store the journal, for real-time use. An open that creates a queue also allocates
    /// memory for all its messages, each of the greatest size, and for one of each process; or it
    /// fails with [`NoMemory`](Error::NoMemory). No other call of the library allocates, as long as
    /// each process has at most 64 notices. A [`Message`](crate::Message), which owns its bytes,
    /// still does.
    ///
    /// ```
    /// use yakyrombe::{OpenOptions, System};
    ///
    /// # fn main() -> Result<(), yakyrombe::Error> {
    /// let (_, [process]) = System::builder().prepaid().build_array()?;
    /// let queue = process.open("/q", OpenOptions::read_write().create().limits(8, 64))?;
    /// let mut buf = [0; 64];
    /// for round in 0..1_000u32 {
    ///     queue.send(&[7; 64], round % 4)?;
    ///     assert_eq!(queue.receive(&mut buf)?.len, 64);
    /// }
    /// # Ok(())
    /// # }
    /// ```
    ///
    /// This replaces an earlier [`journal`](Builder::journal) or [`bounded`](Builder::bounded).
    pub fn prepaid(mut self) -> Builder {
        self.storage = Storage::Prepaid;
        self
    }

    /// Uses a clock of the program. It measures the deadlines of calls, except those that are an
    /// [`Instant`](std::time::Instant), which are in real time.
    pub fn clock(mut self, clock: impl Clock + 'static) -> Builder {
        self.clock = Some(Box::new(clock));
        self
    }

    /// Builds the system, and returns it and its processes, process 1 first.
    ///
    /// # Errors
    /// [`Invalid::Processes`] if their number is not 1 to 32; [`NoMemory`](Error::NoMemory).
    pub fn build(self) -> Result<(System, Vec<Process>), Error> {
        self.check_count()?;
        let handles = Handle::of_system(self.processes, self.storage).map_err(refusal)?;
        let left = vec![Left::default(); self.processes];
        // In an exploration no thread may wait for a lock that is not a step.
        Ok(self.with(handles, left, !Handle::are_steps()))
    }

    /// Like [`build`](Builder::build), for a system that continues from a journal
    /// ([`System::resume`]), with as many processes as the builder says. Its journal is stored.
    /// Bounds ([`bounded`](Builder::bounded)) hold for the whole journal. The clock should not be
    /// before the moments of the journal.
    ///
    /// ```
    /// use yakyrombe::{Error, Journal, ResumeError, System};
    ///
    /// let saved = Journal::from("0 1 unlink \"/q\" -> ENOENT\n");
    /// assert!(System::builder().bounded(1, 2).resume(&saved).is_ok());
    /// let refused = System::builder().bounded(1, 1).resume(&saved).unwrap_err();
    /// assert_eq!(refused, ResumeError::Refused(Error::JournalFull));
    /// ```
    ///
    /// # Errors
    /// The line at fault; [`JournalFull`](Error::JournalFull) if the journal, with an entry for the
    /// end of each open wait, is too long for the bounds; [`Invalid::Processes`] if their number is
    /// not 1 to 32; [`NoMemory`](Error::NoMemory).
    pub fn resume(self, journal: &Journal) -> Result<(System, Vec<Process>), ResumeError> {
        self.check_count()?;
        let (kept, storage) = match self.storage {
            Storage::Bounded { entries, bytes } => (Kept::Bounded { entries, bytes }, self.storage),
            _ => (Kept::Whole, Storage::All),
        };
        let handles = Handle::resumed(self.processes, journal.as_str().as_bytes(), kept)
            .map_err(|(answer, line)| ResumeError::of_answer(answer, line))?;
        let left = journal.left(self.processes);
        // The journal does not say which descriptors can send to the same queue.
        Ok(Builder { storage, ..self }.with(handles, left, false))
    }

    fn check_count(&self) -> Result<(), Error> {
        if (1..=MOST_PROCESSES).contains(&self.processes) {
            Ok(())
        } else {
            Err(Invalid::Processes(self.processes).into())
        }
    }

    fn with(
        self,
        handles: Vec<Handle>,
        left: Vec<Left>,
        are_counted: bool,
    ) -> (System, Vec<Process>) {
        let shared = Shared {
            count: self.processes,
            is_stored: self.storage.is_stored(),
            clock: self.clock,
            names: Names::new(are_counted),
            wakers: Wakers::default(),
        };
        let system = System { shared: Arc::new(shared) };
        let new = |(handle, left)| Process::new(handle, system.clone(), left);
        let processes = handles.into_iter().zip(left).map(new).collect();
        (system, processes)
    }

    /// Like [`build`](Builder::build), with as many processes as the array has.
    ///
    /// ```
    /// # fn main() -> Result<(), yakyrombe::Error> {
    /// let (system, [first, second]) = yakyrombe::System::builder().build_array()?;
    /// assert_eq!((first.number(), second.number()), (1, 2));
    /// # drop(system);
    /// # Ok(())
    /// # }
    /// ```
    ///
    /// # Errors
    /// Those of `build`.
    pub fn build_array<const N: usize>(self) -> Result<(System, [Process; N]), Error> {
        let (system, processes) = self.processes(N).build()?;
        // The vector has exactly N processes.
        let processes = processes.try_into().map_err(|_| Invalid::Processes(N))?;
        Ok((system, processes))
    }
}

impl fmt::Debug for Builder {
    fn fmt(&self, to: &mut fmt::Formatter<'_>) -> fmt::Result {
        to.debug_struct("Builder")
            .field("processes", &self.processes)
            .field("storage", &self.storage)
            .finish_non_exhaustive()
    }
}
