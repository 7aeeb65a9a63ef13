//! The options of an open, and what calls return about queues and messages.

use crate::raw::{Attributes, Opening};
use std::ops::Deref;

/// How many messages a queue holds at most, and how many bytes its messages can have.
pub(crate) const MOST_MESSAGES: usize = 4_096;
pub(crate) const MOST_BYTES: usize = 65_536;
pub(crate) const MOST_PRIORITY: u32 = 32_767;

/// What an open asks for: the access, whether it may create the queue, and the limits of a new one.
///
/// The default is [`read_write`](OpenOptions::read_write).
///
/// ```
/// use yakyrombe::OpenOptions;
///
/// const JOBS: OpenOptions = OpenOptions::read_write().create().limits(8, 64);
/// # assert_ne!(JOBS, OpenOptions::default());
/// ```
#[derive(Clone, Copy, Debug, PartialEq, Eq, Hash)]
#[must_use]
pub struct OpenOptions {
    pub(crate) opening: Opening,
    pub(crate) disconnects: bool,
}

impl OpenOptions {
    const fn with(access: u32) -> OpenOptions {
        let (create, exclusive, nonblock, limited) = (false, false, false, false);
        let opening =
            Opening { maxmsg: 0, msgsize: 0, access, create, exclusive, nonblock, limited };
        OpenOptions { opening, disconnects: false }
    }

    /// To receive (`O_RDONLY`).
    pub const fn read() -> OpenOptions {
        OpenOptions::with(0)
    }

    /// To send (`O_WRONLY`).
    pub const fn write() -> OpenOptions {
        OpenOptions::with(1)
    }

    /// To receive and to send (`O_RDWR`).
    pub const fn read_write() -> OpenOptions {
        OpenOptions::with(2)
    }

    /// Creates the queue if it does not exist (`O_CREAT`), for 10 messages of 8,192 bytes unless
    /// there are [`limits`](OpenOptions::limits).
    pub const fn create(mut self) -> OpenOptions {
        self.opening.create = true;
        self
    }

    /// If the queue exists, the open fails with [`Exists`](crate::Error::Exists) (`O_EXCL`). This
    /// has an effect only together with [`create`](OpenOptions::create).
    pub const fn exclusive(mut self) -> OpenOptions {
        self.opening.exclusive = true;
        self
    }

    /// A send or a receive that would wait fails with [`Again`](crate::Error::Again)
    /// (`O_NONBLOCK`).
    pub const fn nonblocking(mut self) -> OpenOptions {
        self.opening.nonblock = true;
        self
    }

    /// A receive that finds no message fails with [`Disconnected`](crate::Error::Disconnected) if
    /// every [`Queue`](crate::Queue) that could send to this queue is closed or dropped, also if
    /// that happens while it waits. Iterators end then. As long as no process has opened the queue
    /// to send, a receive waits for one. A queue that is open to send and receive can send itself,
    /// so it does not disconnect.
    ///
    /// ```
    /// use std::thread;
    /// use yakyrombe::{Error, OpenOptions, System};
    ///
    /// # fn main() -> Result<(), Error> {
    /// let (_, [here, there]) = System::builder().build_array()?;
    /// let jobs = there.open("/jobs", OpenOptions::read().create().disconnecting())?;
    /// let sender = thread::spawn(move || -> Result<(), Error> {
    ///     let jobs = here.open("/jobs", OpenOptions::write())?;
    ///     jobs.send(b"first", 0)?;
    ///     jobs.send(b"last", 0)
    /// });
    /// assert_eq!(jobs.iter().count(), 2);
    /// assert_eq!(jobs.receive_vec(), Err(Error::Disconnected));
    /// sender.join().unwrap()
    /// # }
    /// ```
    ///
    /// In the journal, a receive that waits has a deadline, the last moment that there is, and is
    /// withdrawn. The option has no effect in a system that continues from a journal
    /// ([`System::resume`](crate::System::resume)), or in a model.
    pub const fn disconnecting(mut self) -> OpenOptions {
        self.disconnects = true;
        self
    }

    pub(crate) const fn can_send(&self) -> bool {
        self.opening.access != OpenOptions::read().opening.access
    }

    /// A new queue holds at most this number of messages (1 to 4,096), each of at most this number
    /// of bytes (1 to 65,536).
    pub const fn limits(mut self, messages: usize, bytes: usize) -> OpenOptions {
        self.opening.maxmsg = saturated(messages);
        self.opening.msgsize = saturated(bytes);
        self.opening.limited = true;
        self
    }
}

/// The number, or the largest one that the library can be given, which no queue allows.
// The cast is exact: the number is not above it.
#[allow(clippy::cast_possible_truncation, clippy::cast_possible_wrap, clippy::cast_sign_loss)]
const fn saturated(number: usize) -> i64 {
    if number < i64::MAX as usize {
        number as i64
    } else {
        i64::MAX
    }
}

impl Default for OpenOptions {
    fn default() -> OpenOptions {
        OpenOptions::read_write()
    }
}

/// The attributes of a queue, and the flag of the descriptor through which they were read.
///
/// ```
/// use yakyrombe::{OpenOptions, System};
///
/// # fn main() -> Result<(), yakyrombe::Error> {
/// let (_, [process]) = System::builder().build_array()?;
/// let queue = process.open("/q", OpenOptions::write().create().limits(8, 64))?;
/// queue.send(b"one", 0)?;
/// let attr = queue.attr()?;
/// assert_eq!(
///     (attr.maxmsg, attr.msgsize, attr.curmsgs, attr.nonblocking),
///     (8, 64, 1, false)
/// );
/// # Ok(())
/// # }
/// ```
///
/// Only the library makes one, so that it can have more fields later:
///
/// ```compile_fail,E0639
/// use yakyrombe::Attr;
/// let attr = Attr { maxmsg: 1, msgsize: 8, curmsgs: 0, nonblocking: false };
/// ```
#[derive(Clone, Copy, Debug, Default, PartialEq, Eq, PartialOrd, Ord, Hash)]
#[non_exhaustive]
pub struct Attr {
    /// How many messages the queue holds at most.
    pub maxmsg: usize,
    /// How many bytes a message has at most.
    pub msgsize: usize,
    /// How many messages are present.
    pub curmsgs: usize,
    /// Whether a call by this descriptor fails if it would wait.
    pub nonblocking: bool,
}

impl Attr {
    pub(crate) fn of(found: &Attributes) -> Attr {
        let size = |number: i64| usize::try_from(number).unwrap_or(0);
        Attr {
            maxmsg: size(found.maxmsg),
            msgsize: size(found.msgsize),
            curmsgs: size(found.curmsgs),
            nonblocking: found.nonblock,
        }
    }
}

/// A received message: it is at the start of the buffer.
///
/// ```
/// use yakyrombe::{OpenOptions, Received, System};
///
/// # fn main() -> Result<(), yakyrombe::Error> {
/// let (_, [process]) = System::builder().build_array()?;
/// let queue = process.open("/q", OpenOptions::read_write().create().limits(8, 64))?;
/// queue.send(b"one", 5)?;
/// let mut buf = [0; 64];
/// assert_eq!(queue.receive(&mut buf)?, Received::new(3, 5));
/// # Ok(())
/// # }
/// ```
///
/// It can have more fields later, so a pattern ends with `..`:
///
/// ```compile_fail,E0638
/// let yakyrombe::Received { len, priority } = yakyrombe::Received::new(3, 5);
/// ```
#[derive(Clone, Copy, Debug, Default, PartialEq, Eq, PartialOrd, Ord, Hash)]
#[non_exhaustive]
pub struct Received {
    /// How many bytes of the buffer it takes.
    pub len: usize,
    /// Its priority, 0 to 32,767.
    pub priority: u32,
}

impl Received {
    /// A message of this many bytes with this priority, to compare with.
    #[must_use]
    pub const fn new(len: usize, priority: u32) -> Received {
        Received { len, priority }
    }
}

/// A received message that owns its bytes. Messages are ordered by priority first.
///
/// ```
/// use yakyrombe::{Message, OpenOptions, System};
///
/// # fn main() -> Result<(), yakyrombe::Error> {
/// let (_, [process]) = System::builder().build_array()?;
/// let queue = process.open("/q", OpenOptions::read_write().create().limits(8, 64))?;
/// queue.send(b"one", 5)?;
/// let message: Message = queue.receive_vec()?;
/// assert_eq!((&*message, message.priority), (&b"one"[..], 5));
/// assert_eq!(message, Message::new(5, b"one".to_vec()));
/// # Ok(())
/// # }
/// ```
///
/// It can have more fields later, so a pattern ends with `..`:
///
/// ```compile_fail,E0638
/// let yakyrombe::Message { priority, bytes } = yakyrombe::Message::default();
/// ```
#[derive(Clone, Debug, Default, PartialEq, Eq, PartialOrd, Ord, Hash)]
#[non_exhaustive]
pub struct Message {
    /// Its priority, 0 to 32,767.
    pub priority: u32,
    /// Its bytes.
    pub bytes: Vec<u8>,
}

impl Message {
    /// A message of these bytes with this priority, as a receive returns it.
    #[must_use]
    pub const fn new(priority: u32, bytes: Vec<u8>) -> Message {
        Message { priority, bytes }
    }
}

impl Deref for Message {
    type Target = [u8];

    fn deref(&self) -> &[u8] {
        &self.bytes
    }
}

impl AsRef<[u8]> for Message {
    fn as_ref(&self) -> &[u8] {
        &self.bytes
    }
}

impl From<Message> for Vec<u8> {
    fn from(message: Message) -> Vec<u8> {
        message.bytes
    }
}

/// How much room is left in a journal; without bounds both fields are `u64::MAX`.
///
/// ```
/// use yakyrombe::System;
///
/// # fn main() -> Result<(), yakyrombe::Error> {
/// let (_, [process]) = System::builder().bounded(100, 1_000).build_array()?;
/// assert_eq!(process.room().entries, 100);
/// # Ok(())
/// # }
/// ```
#[derive(Clone, Copy, Debug, Default, PartialEq, Eq, PartialOrd, Ord, Hash)]
#[non_exhaustive]
pub struct Room {
    /// Entries, not counting those reserved to end the open waits. A send or a receive needs two,
    /// because it may wait; any other call needs one.
    pub entries: u64,
    /// Bytes of names and messages.
    pub bytes: u64,
}
