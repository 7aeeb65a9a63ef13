//! What the values of the crate can be used for besides calls.

use std::collections::HashSet;
use std::fmt::Debug;
use std::hash::Hash;
use std::io;
use std::time::Instant;
use yakyrombe::Error::{self, *};
use yakyrombe::Invalid as Value;
use yakyrombe::{
    Attr, Deadline, Journal, Message, Monotonic, OpenOptions, Payload, Process, Queue, Received,
    Refused, Room, System, VirtualClock,
};

const ALL: [(Error, &str); 17] = [
    (Again, "EAGAIN"),
    (BadDescriptor, "EBADF"),
    (Busy, "EBUSY"),
    (Exists, "EEXIST"),
    (Invalid(Value::Unknown), "EINVAL"),
    (TooManyOpen, "EMFILE"),
    (MessageSize, "EMSGSIZE"),
    (NameTooLong, "ENAMETOOLONG"),
    (NoEntry, "ENOENT"),
    (NoSpace, "ENOSPC"),
    (NoMemory, "NOMEMORY"),
    (TimedOut, "ETIMEDOUT"),
    (JournalFull, "JOURNALFULL"),
    (Waiting, "WAITING"),
    (NotWaiting, "NOTWAITING"),
    (Unstored, "UNSTORED"),
    (Disconnected, "DISCONNECTED"),
];

#[test]
fn errors_have_the_names_and_numbers_of_posix() {
    let kind = |error: Error| io::Error::from(error).kind();
    for (error, name) in ALL {
        assert_eq!(error.name(), name);
        let system = io::Error::from_raw_os_error(error.errno());
        assert_eq!(kind(error), system.kind());
    }
    assert_eq!(kind(Again), io::ErrorKind::WouldBlock);
    assert_eq!(kind(Exists), io::ErrorKind::AlreadyExists);
    assert_eq!(kind(Invalid(Value::Priority(32_768))), io::ErrorKind::InvalidInput);
    assert_eq!(kind(NoEntry), io::ErrorKind::NotFound);
    assert_eq!(kind(NoMemory), io::ErrorKind::OutOfMemory);
    assert_eq!(kind(TimedOut), io::ErrorKind::TimedOut);
}

#[test]
fn errors_come_back_from_those_of_std() {
    for (error, _) in ALL {
        let converted = io::Error::from(error.clone());
        assert_eq!(converted.to_string(), error.to_string());
        assert_eq!(Error::try_from(&converted), Ok(error.clone()));
        assert_eq!(Error::try_from(converted).ok(), Some(error.clone()));
        let by_number = match error {
            JournalFull => NoSpace,
            Waiting => Busy,
            NotWaiting => Invalid(Value::Unknown),
            ref other => other.clone(),
        };
        let system = io::Error::from_raw_os_error(error.errno());
        assert_eq!(Error::try_from(system).ok(), Some(by_number));
    }
    let foreign = io::Error::other("of the program");
    assert_eq!(Error::try_from(&foreign), Err(()));
    assert_eq!(Error::try_from(foreign).unwrap_err().to_string(), "of the program");
    assert!(Error::try_from(io::Error::from_raw_os_error(1)).is_err());
}

/// What is wrong, and with which value.
#[test]
fn an_invalid_value_is_named() {
    let says = |value: Value| Error::from(value).to_string();
    let name = |bytes: &[u8]| says(Value::Name(bytes.into()));
    assert_eq!(says(Value::Processes(33)), "a system has 1 to 32 processes, not 33");
    assert_eq!(name(b"q"), "the name \"q\" does not begin with a slash");
    assert_eq!(name(b""), "the name \"\" does not begin with a slash");
    assert_eq!(name(b"/"), "the name \"/\" has nothing after its slash");
    assert_eq!(name(b"/a/b"), "the name \"/a/b\" has a second slash");
    assert_eq!(name(b"/\xff\0"), "the name \"/\\xff\\x00\" has a byte 0");
    assert_eq!(says(Value::Messages(0)), "a queue holds 1 to 4096 messages, not 0");
    assert_eq!(
        says(Value::Bytes(65_537)),
        "the longest message of a queue has 1 to 65536 bytes, not 65537"
    );
    assert_eq!(says(Value::Priority(40_000)), "the priority 40000 is above 32767");
    assert_eq!(says(Value::Line(3)), "line 3 of the journal can't be resumed");
    let mut sentences: Vec<String> = ALL.iter().map(|(error, _)| error.to_string()).collect();
    sentences.sort_unstable();
    sentences.dedup();
    assert_eq!(sentences.len(), ALL.len());
}

fn is_value<T: Clone + Debug + Eq + Ord + Hash>() {}
fn is_default<T: Default>() {}
fn is_send<T: Send>() {}
fn is_shared<T: Send + Sync>() {}

#[test]
fn types_have_the_traits_that_users_expect() {
    is_value::<Error>();
    is_value::<Value>();
    is_value::<Attr>();
    is_value::<Received>();
    is_value::<Message>();
    is_value::<Room>();
    is_value::<Journal>();
    is_value::<Deadline>();
    is_value::<Monotonic>();
    is_value::<Refused<u32>>();
    is_default::<Attr>();
    is_default::<Received>();
    is_default::<Message>();
    is_default::<Room>();
    is_default::<Journal>();
    is_default::<OpenOptions>();
    is_default::<yakyrombe::Builder>();
    is_default::<VirtualClock>();
    is_send::<Process>();
    is_send::<Queue<Process>>();
    is_shared::<System>();
    is_shared::<Error>();
    is_shared::<VirtualClock>();
}

#[test]
fn values_are_compared_hashed_and_printed() {
    assert_eq!(OpenOptions::default(), OpenOptions::read_write());
    assert_eq!(Received::default(), Received::new(0, 0));
    let low = Message::new(1, vec![9]);
    let high = Message::new(2, vec![]);
    assert!(low < high);
    assert_eq!(low.as_ref(), [9]);
    let now = Instant::now();
    assert_eq!(Deadline::from(now), Deadline::Instant(now));
    assert_eq!(Journal::default().to_string(), "");
    assert_eq!(String::from(Journal::default()), Journal::default().as_ref());

    let (system, [process]) = System::builder().build_array().unwrap();
    let (other, _) = System::builder().build().unwrap();
    assert_eq!(HashSet::from([system.clone(), other, system.clone()]).len(), 2);
    assert_eq!(format!("{system:?}"), "System { process_count: 1, is_journal_stored: false, .. }");
    assert_eq!(format!("{process:?}"), "Process { number: 1, .. }");
    let queue = process.open("/q", OpenOptions::read().create()).unwrap();
    assert_eq!(format!("{queue:?}"), "Queue { process: Some(1), descriptor: 0, .. }");
    assert!(format!("{:?} {:?}", System::builder(), queue.iter()).contains("Nothing"));
    assert_eq!(format!("{:?}", VirtualClock::new()), "VirtualClock(0ns)");
}

#[test]
fn payloads_are_decoded_from_their_own_bytes_alone() {
    fn comes_back<T: Payload + PartialEq + Debug>(value: T, bytes: &[u8]) {
        let message = Message::new(0, value.encode().into_owned());
        assert_eq!(&*message, bytes);
        assert_eq!(message.decode(), Some(value));
    }
    comes_back(0x1234_u16, &[0x34, 0x12]);
    comes_back(-2_i64, &[0xfe, 255, 255, 255, 255, 255, 255, 255]);
    comes_back(7_u8, &[7]);
    comes_back(u128::MAX, &[255; 16]);
    comes_back(vec![1_u8, 0, 255], &[1, 0, 255]);
    comes_back(String::from("gr\u{fc}n"), "gr\u{fc}n".as_bytes());
    comes_back(String::new(), b"");
    let message = Message::new(0, vec![0xff, 0xff, 0xff]);
    assert_eq!(message.decode::<u16>(), None);
    assert_eq!(message.decode::<u32>(), None);
    assert_eq!(message.decode::<String>(), None);
}
