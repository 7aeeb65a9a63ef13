//! Why calls fail.

use crate::options::{MOST_BYTES, MOST_MESSAGES, MOST_PRIORITY};
use crate::process::refusal;
use crate::raw::{answer, errno_of, Opening};
use crate::system::MOST_PROCESSES;
use std::fmt;
use std::io;

/// Why a call failed. It prints as a sentence; [`name`](Error::name) is its POSIX name.
///
/// ```
/// use std::io;
/// use yakyrombe::{Error, System};
///
/// let error = System::builder().processes(33).build().unwrap_err();
/// assert_eq!(error.to_string(), "a system has 1 to 32 processes, not 33");
/// assert_eq!(error.name(), "EINVAL");
///
/// // An error of `std` has its kind, prints the same, and converts back.
/// let converted = io::Error::from(error.clone());
/// assert_eq!(converted.kind(), io::ErrorKind::InvalidInput);
/// assert_eq!(converted.to_string(), error.to_string());
/// assert_eq!(Error::try_from(converted).unwrap(), error);
/// ```
#[derive(Clone, Debug, PartialEq, Eq, PartialOrd, Ord, Hash)]
#[non_exhaustive]
pub enum Error {
    /// `EAGAIN`: the call would wait, but its queue is nonblocking, or it is a `try_` call.
    Again,
    /// `EBADF`: the queue is not open with the access that the call needs.
    BadDescriptor,
    /// `EBUSY`: a process is already registered on the queue.
    Busy,
    /// `EEXIST`: the name exists, and the open asks for a new queue.
    Exists,
    /// `EINVAL`: this value is invalid.
    Invalid(Invalid),
    /// `EMFILE`: the process has 16 queues open.
    TooManyOpen,
    /// `EMSGSIZE`: the message is longer, or the buffer shorter, than the longest message that the
    /// queue takes.
    MessageSize,
    /// `ENAMETOOLONG`: the name has more than 255 bytes after its slash.
    NameTooLong,
    /// `ENOENT`: no queue has the name.
    NoEntry,
    /// `ENOSPC`: 64 queues exist.
    NoSpace,
    /// `NOMEMORY`: an allocation failed. Nothing has changed.
    NoMemory,
    /// `ETIMEDOUT`: the deadline of the call has passed.
    TimedOut,
    /// `JOURNALFULL`: the journal is bounded and has no room for what the call needs. Nothing has
    /// changed.
    JournalFull,
    /// `WAITING`: the process has an open wait, and can make no other call on queues until it is
    /// collected or cancelled.
    Waiting,
    /// `NOTWAITING`: this queue has no open wait of the kind that the call collects.
    NotWaiting,
    /// `UNSTORED`: the call reads the journal, but the system does not store it
    /// ([`Builder::journal`](crate::Builder::journal) does).
    Unstored,
    /// `DISCONNECTED`: no message is there, and no sender is left
    /// ([`OpenOptions::disconnecting`](crate::OpenOptions::disconnecting)).
    Disconnected,
}

/// The value that a call can't use ([`Error::Invalid`]).
///
/// ```
/// use yakyrombe::{Error, Invalid, OpenOptions, System};
///
/// # fn main() -> Result<(), Error> {
/// let (_, [process]) = System::builder().build_array()?;
/// let options = OpenOptions::read_write().create();
/// let why = |options, name| process.open(name, options).unwrap_err().to_string();
/// assert_eq!(why(options, "q"), "the name \"q\" does not begin with a slash");
/// assert_eq!(why(options.limits(0, 8), "/q"), "a queue holds 1 to 4096 messages, not 0");
/// let queue = process.open("/q", options)?;
/// assert_eq!(queue.send(b"now", 40_000), Err(Error::Invalid(Invalid::Priority(40_000))));
/// # Ok(())
/// # }
/// ```
#[derive(Clone, Debug, PartialEq, Eq, PartialOrd, Ord, Hash)]
#[non_exhaustive]
pub enum Invalid {
    /// The number of processes of a new system is not 1 to 32.
    Processes(usize),
    /// The name of a queue is not a slash and then at least one byte, without a slash or 0.
    Name(Box<[u8]>),
    /// The number of messages that a new queue should hold is not 1 to 4,096.
    Messages(usize),
    /// The length in bytes that a message of a new queue should have at most is not 1 to 65,536.
    Bytes(usize),
    /// The priority of a message is above 32,767.
    Priority(u32),
    /// The process is not registered on the queue, so its registration can't end.
    NotRegistered,
    /// This line of a journal, from 1, can't be resumed. [`ResumeError`] says why.
    Line(u64),
    /// The value is not known: the error comes from an [`io::Error`] with the number `EINVAL`.
    Unknown,
}

impl Invalid {
    /// The value that is at fault if an open fails with `EINVAL`.
    pub(crate) fn of_open(name: &[u8], opening: &Opening) -> Invalid {
        let size = |number: i64| usize::try_from(number).unwrap_or(0);
        if fault_of_name(name).is_some() {
            Invalid::Name(name.into())
        } else if (1..=MOST_MESSAGES).contains(&size(opening.maxmsg)) {
            Invalid::Bytes(size(opening.msgsize))
        } else {
            Invalid::Messages(size(opening.maxmsg))
        }
    }
}

/// What is wrong with the name of a queue, apart from its length.
fn fault_of_name(name: &[u8]) -> Option<&'static str> {
    match name.split_first() {
        Some((b'/', [])) => Some("has nothing after its slash"),
        Some((b'/', rest)) if rest.contains(&b'/') => Some("has a second slash"),
        Some((b'/', rest)) => rest.contains(&0).then_some("has a byte 0"),
        _ => Some("does not begin with a slash"),
    }
}

impl fmt::Display for Invalid {
    fn fmt(&self, to: &mut fmt::Formatter<'_>) -> fmt::Result {
        match self {
            Invalid::Processes(count) => {
                write!(to, "a system has 1 to {MOST_PROCESSES} processes, not {count}")
            }
            Invalid::Name(name) => {
                let fault = fault_of_name(name).unwrap_or("is invalid");
                write!(to, "the name \"{}\" {fault}", name.escape_ascii())
            }
            Invalid::Messages(count) => {
                write!(to, "a queue holds 1 to {MOST_MESSAGES} messages, not {count}")
            }
            Invalid::Bytes(len) => {
                write!(to, "the longest message of a queue has 1 to {MOST_BYTES} bytes, not {len}")
            }
            Invalid::Priority(priority) => {
                write!(to, "the priority {priority} is above {MOST_PRIORITY}")
            }
            Invalid::NotRegistered => to.write_str("the process is not registered on the queue"),
            Invalid::Line(line) => write!(to, "line {line} of the journal can't be resumed"),
            Invalid::Unknown => to.write_str("a value is invalid"),
        }
    }
}

impl From<Invalid> for Error {
    fn from(invalid: Invalid) -> Error {
        Error::Invalid(invalid)
    }
}

impl Error {
    /// All errors, those of POSIX first.
    const ALL: [Error; 17] = [
        Error::Again,
        Error::BadDescriptor,
        Error::Busy,
        Error::Exists,
        Error::Invalid(Invalid::Unknown),
        Error::TooManyOpen,
        Error::MessageSize,
        Error::NameTooLong,
        Error::NoEntry,
        Error::NoSpace,
        Error::NoMemory,
        Error::TimedOut,
        Error::JournalFull,
        Error::Waiting,
        Error::NotWaiting,
        Error::Unstored,
        Error::Disconnected,
    ];

    /// The POSIX name of the error, such as `EAGAIN`. `NOMEMORY`, `JOURNALFULL`, `UNSTORED`,
    /// `WAITING`, `NOTWAITING` and `DISCONNECTED` are the library's own.
    #[must_use]
    pub const fn name(&self) -> &'static str {
        match self {
            Error::Again => "EAGAIN",
            Error::BadDescriptor => "EBADF",
            Error::Busy => "EBUSY",
            Error::Exists => "EEXIST",
            Error::Invalid(_) => "EINVAL",
            Error::TooManyOpen => "EMFILE",
            Error::MessageSize => "EMSGSIZE",
            Error::NameTooLong => "ENAMETOOLONG",
            Error::NoEntry => "ENOENT",
            Error::NoSpace => "ENOSPC",
            Error::NoMemory => "NOMEMORY",
            Error::TimedOut => "ETIMEDOUT",
            Error::JournalFull => "JOURNALFULL",
            Error::Waiting => "WAITING",
            Error::NotWaiting => "NOTWAITING",
            Error::Unstored => "UNSTORED",
            Error::Disconnected => "DISCONNECTED",
        }
    }

    /// The number of the error in `errno.h` of this system. `NoMemory` has that of `ENOMEM`,
    /// `JournalFull` of `ENOSPC`, `Waiting` of `EBUSY`, `NotWaiting` of `EINVAL`, `Unstored` of
    /// `ENOTSUP`, and `Disconnected` of `EPIPE`.
    #[must_use]
    pub fn errno(&self) -> i32 {
        const EPIPE: i32 = 32;
        match self {
            Error::Disconnected => EPIPE,
            _ => errno_of(self.answer()),
        }
    }

    /// The number that the library returns for the error.
    const fn answer(&self) -> u32 {
        match self {
            Error::Again => 1,
            Error::BadDescriptor => 2,
            Error::Busy => 3,
            Error::Exists => 4,
            Error::Invalid(_) => 5,
            Error::TooManyOpen => 6,
            Error::MessageSize => 7,
            Error::NameTooLong => 8,
            Error::NoEntry => 9,
            Error::NoSpace => 10,
            Error::NoMemory => 11,
            Error::TimedOut => answer::TIMED_OUT,
            Error::JournalFull => 13,
            Error::Waiting => answer::WAITING,
            Error::NotWaiting => answer::NOT_WAITING,
            Error::Unstored => answer::UNSTORED,
            // It is an error of the crate.
            Error::Disconnected => u32::MAX,
        }
    }

    /// The error whose number the library returned. It does not say which value is invalid.
    pub(crate) fn of_answer(number: u32) -> Option<Error> {
        match number {
            answer::SHORT => Some(Error::MessageSize),
            _ => Error::ALL.into_iter().find(|error| error.answer() == number),
        }
    }

    /// The same error; if a value is invalid, it is this one.
    pub(crate) fn naming(self, invalid: impl FnOnce() -> Invalid) -> Error {
        match self {
            Error::Invalid(_) => Error::Invalid(invalid()),
            other => other,
        }
    }
}

impl fmt::Display for Error {
    fn fmt(&self, to: &mut fmt::Formatter<'_>) -> fmt::Result {
        to.write_str(match self {
            Error::Again => "the call would wait, and it must not",
            Error::BadDescriptor => "the queue is not open with the access that the call needs",
            Error::Busy => "a process is already registered on the queue",
            Error::Exists => "a queue with this name exists",
            Error::Invalid(invalid) => return invalid.fmt(to),
            Error::TooManyOpen => "the process has 16 queues open, and can't have more",
            Error::MessageSize => {
                "the message is longer, or the buffer shorter, than the queue's longest message"
            }
            Error::NameTooLong => "the name has more than 255 bytes after its slash",
            Error::NoEntry => "no queue has this name",
            Error::NoSpace => "64 queues exist, and there can't be more",
            Error::NoMemory => "an allocation failed",
            Error::TimedOut => "the deadline of the call has passed",
            Error::JournalFull => "the journal has no room for the call",
            Error::Waiting => "the process has an open wait, and can't make this call",
            Error::NotWaiting => "the queue has no open wait that the call could end",
            Error::Unstored => "the system does not store its journal",
            Error::Disconnected => "the queue is empty, and no sender is left",
        })
    }
}

impl std::error::Error for Error {}

impl From<Error> for io::Error {
    /// An error that contains this one. Its kind is that of the system's error with the same
    /// number ([`Error::errno`]); it has no number itself.
    fn from(error: Error) -> io::Error {
        io::Error::new(io::Error::from_raw_os_error(error.errno()).kind(), error)
    }
}

impl TryFrom<&io::Error> for Error {
    type Error = ();

    /// The error that the argument contains, or else the one with the same number. If several have
    /// it, it is the one that POSIX defines.
    fn try_from(error: &io::Error) -> Result<Error, ()> {
        if let Some(own) = error.get_ref().and_then(|it| it.downcast_ref::<Error>()) {
            return Ok(own.clone());
        }
        let number = error.raw_os_error().ok_or(())?;
        Error::ALL.into_iter().find(|it| it.errno() == number).ok_or(())
    }
}

impl TryFrom<io::Error> for Error {
    type Error = io::Error;

    /// The error that the argument contains, or else the one with the same number, or the argument
    /// if no call fails with that.
    fn try_from(error: io::Error) -> Result<Error, io::Error> {
        Error::try_from(&error).map_err(|()| error)
    }
}

/// Why a journal can't be resumed ([`System::resume`](crate::System::resume)). Lines are numbered
/// from 1.
///
/// `?` converts it into an [`Error`]: [`Invalid::Line`] if a line is at fault.
///
/// ```
/// use yakyrombe::{Error, Invalid, Journal, ResumeError, System};
///
/// let never = Journal::from("0 1 close 0 -> ok\n");
/// let refused = System::resume(&never).unwrap_err();
/// assert_eq!(refused, ResumeError::Illegal(1));
/// assert_eq!(refused.to_string(), "line 1 is not legal");
/// assert_eq!(Error::from(refused), Error::Invalid(Invalid::Line(1)));
/// ```
#[derive(Clone, Debug, PartialEq, Eq, PartialOrd, Ord, Hash)]
#[non_exhaustive]
pub enum ResumeError {
    /// This line is malformed: it is not the line of an entry.
    BadLine(u64),
    /// The entry of this line is not legal after the entries before it.
    Illegal(u64),
    /// The entry of this line has a process number above the number of processes.
    Foreign(u64),
    /// No line is at fault: [`JournalFull`](Error::JournalFull) if the journal is too long for the
    /// bounds, [`Invalid::Processes`], or [`NoMemory`](Error::NoMemory).
    Refused(Error),
}

impl ResumeError {
    /// What the library returned, with the line that it wrote.
    pub(crate) fn of_answer(number: u32, line: u64) -> ResumeError {
        match number {
            answer::BAD_LINE => ResumeError::BadLine(line),
            answer::ILLEGAL => ResumeError::Illegal(line),
            answer::FOREIGN => ResumeError::Foreign(line),
            number => ResumeError::Refused(refusal(number)),
        }
    }
}

impl fmt::Display for ResumeError {
    fn fmt(&self, to: &mut fmt::Formatter<'_>) -> fmt::Result {
        match self {
            ResumeError::BadLine(line) => write!(to, "line {line} is not that of an entry"),
            ResumeError::Illegal(line) => write!(to, "line {line} is not legal"),
            ResumeError::Foreign(line) => write!(to, "line {line} is of a process too many"),
            ResumeError::Refused(error) => error.fmt(to),
        }
    }
}

impl std::error::Error for ResumeError {
    fn source(&self) -> Option<&(dyn std::error::Error + 'static)> {
        match self {
            ResumeError::Refused(error) => Some(error),
            _ => None,
        }
    }
}

impl From<Error> for ResumeError {
    fn from(error: Error) -> ResumeError {
        ResumeError::Refused(error)
    }
}

impl From<ResumeError> for Error {
    fn from(error: ResumeError) -> Error {
        match error {
            ResumeError::Refused(error) => error,
            ResumeError::BadLine(line)
            | ResumeError::Illegal(line)
            | ResumeError::Foreign(line) => Error::Invalid(Invalid::Line(line)),
        }
    }
}

/// The error of a call that takes its process by value; it returns the process.
///
/// `?` converts it into an [`Error`], and then the process is dropped.
///
/// ```
/// use yakyrombe::{Error, OpenOptions, Queue, System};
///
/// # fn main() -> Result<(), Error> {
/// let (_, [process]) = System::builder().build_array()?;
/// let failed = Queue::open(process, "/missing", OpenOptions::read()).unwrap_err();
/// assert_eq!(failed.error(), &Error::NoEntry);
/// let queue = Queue::open(failed.into_holder(), "/made", OpenOptions::read().create())?;
/// # drop(queue);
/// # Ok(())
/// # }
/// ```
#[derive(Clone, Debug, PartialEq, Eq, PartialOrd, Ord, Hash)]
pub struct Refused<P> {
    pub(crate) holder: P,
    pub(crate) error: Error,
}

impl<P> Refused<P> {
    /// Why the call failed.
    #[must_use]
    pub fn error(&self) -> &Error {
        &self.error
    }

    /// Returns the holder that the call was given.
    #[must_use]
    pub fn into_holder(self) -> P {
        self.holder
    }
}

impl<P> fmt::Display for Refused<P> {
    fn fmt(&self, to: &mut fmt::Formatter<'_>) -> fmt::Result {
        self.error.fmt(to)
    }
}

impl<P: fmt::Debug> std::error::Error for Refused<P> {
    fn source(&self) -> Option<&(dyn std::error::Error + 'static)> {
        Some(&self.error)
    }
}

impl<P> From<Refused<P>> for Error {
    fn from(refused: Refused<P>) -> Error {
        refused.error
    }
}
