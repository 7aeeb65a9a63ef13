//! Each call with each of its errors.

use std::task::Poll;
use std::time::Duration;
use yakyrombe::Error::{self, *};
use yakyrombe::{Invalid, OpenOptions, Process, Queue, Received, Room, System};

const BOTH: OpenOptions = OpenOptions::read_write();
const NEW: OpenOptions = BOTH.create().limits(2, 4);
const SOON: Duration = Duration::from_millis(5);

fn alone() -> Process {
    let (_, [process]) = System::builder().build_array().unwrap();
    process
}

fn with_queue(options: OpenOptions) -> Queue<Process> {
    Queue::open(alone(), "/q", options).unwrap()
}

/// Maximum, message size, present messages, flag.
fn attr(queue: &Queue<Process>) -> (usize, usize, usize, bool) {
    let told = queue.attr().unwrap();
    (told.maxmsg, told.msgsize, told.curmsgs, told.nonblocking)
}

#[test]
fn a_system_has_1_to_32_processes() {
    let wrong = |count| Some(Error::Invalid(Invalid::Processes(count)));
    for count in [0, 33, usize::MAX] {
        let builder = || System::builder().processes(count);
        assert_eq!(builder().build().err(), wrong(count));
        assert_eq!(builder().journal(true).build().err(), wrong(count));
        assert_eq!(builder().bounded(1, 1).build().err(), wrong(count));
    }
    assert_eq!(System::builder().build_array::<0>().err(), wrong(0));
    assert_eq!(System::builder().build_array::<33>().err(), wrong(33));
    assert_eq!(System::builder().bounded(u64::MAX, 0).build().err(), Some(NoMemory));
    assert_eq!(System::builder().build().unwrap().1.len(), 1);
    let (system, processes) =
        System::builder().processes(yakyrombe::MOST_PROCESSES).build().unwrap();
    assert_eq!(system.process_count(), 32);
    assert_eq!(
        processes.iter().map(Process::number).collect::<Vec<u32>>(),
        (1..=32).collect::<Vec<u32>>()
    );
}

#[test]
fn the_last_word_on_the_journal_counts() {
    let is_stored = |builder: yakyrombe::Builder| {
        let (system, [process]) = builder.build_array().unwrap();
        assert_eq!(process.check().is_ok(), system.is_journal_stored());
        (system.is_journal_stored(), process.room().entries)
    };
    assert_eq!(is_stored(System::builder()), (false, u64::MAX));
    assert_eq!(is_stored(System::builder().journal(true)), (true, u64::MAX));
    assert_eq!(is_stored(System::builder().bounded(7, 7)), (true, 7));
    assert_eq!(is_stored(System::builder().bounded(7, 7).journal(true)), (true, u64::MAX));
    assert_eq!(is_stored(System::builder().bounded(7, 7).journal(false)), (false, u64::MAX));
    assert_eq!(is_stored(System::builder().bounded(7, 7).prepaid()), (false, u64::MAX));
    assert_eq!(is_stored(System::builder().prepaid().journal(true)), (true, u64::MAX));
    assert_eq!(is_stored(System::builder().journal(false).bounded(7, 7)), (true, 7));
}

#[test]
fn open_fails_for_names_and_limits() {
    let process = alone();
    let number = |opened: Result<Queue<&Process>, Error>| opened.map(|queue| queue.descriptor());
    let longest = format!("/{}", "a".repeat(255));
    let longer = format!("/{}", "a".repeat(256));
    for name in ["q", "/", "", "/a/b", "/a\0"] {
        let wrong = Invalid::Name(name.as_bytes().into());
        assert_eq!(number(process.open(name, NEW)), Err(Error::Invalid(wrong)), "{name:?}");
    }
    let most = usize::try_from(i64::MAX).unwrap();
    for (messages, bytes, wrong) in [
        (0, 8, Invalid::Messages(0)),
        (4097, 8, Invalid::Messages(4097)),
        (1, 0, Invalid::Bytes(0)),
        (1, 65537, Invalid::Bytes(65537)),
        (0, 0, Invalid::Messages(0)),
        (1 << 32, 8, Invalid::Messages(1 << 32)),
        (usize::MAX, 8, Invalid::Messages(most)),
        (8, usize::MAX, Invalid::Bytes(most)),
    ] {
        let opened = process.open("/q", BOTH.create().limits(messages, bytes));
        assert_eq!(number(opened), Err(Error::Invalid(wrong)));
    }
    assert_eq!(number(process.open("/q", BOTH)), Err(NoEntry));
    assert_eq!(number(process.open(&longer, NEW)), Err(NameTooLong));
    let _first = process.open(&longest, NEW).unwrap();
    let _second = process.open("/q", BOTH.create()).unwrap();
    assert_eq!(number(process.open("/q", NEW.exclusive())), Err(Exists));
    assert_eq!(number(process.open(b"/\xff", NEW.exclusive())), Ok(2));
    assert_eq!(number(process.open("/largest", BOTH.create().limits(4096, 65536))), Ok(2));
}

#[test]
fn a_process_holds_16_descriptors() {
    let process = alone();
    let mut queues: Vec<_> = (0..16).map(|_| process.open("/q", NEW).unwrap()).collect();
    assert_eq!(
        queues.iter().map(Queue::descriptor).collect::<Vec<_>>(),
        (0..16).collect::<Vec<_>>()
    );
    assert_eq!(process.open("/q", BOTH).err(), Some(TooManyOpen));
    queues.remove(3).close().unwrap();
    assert_eq!(process.open("/q", BOTH).unwrap().descriptor(), 3);
}

#[test]
fn there_are_64_queues() {
    let process = alone();
    for number in 0..64 {
        process.open(format!("/n{number}"), NEW).unwrap();
    }
    assert_eq!(process.open("/n64", NEW).err(), Some(NoSpace));
    assert_eq!(process.unlink("/n0"), Ok(()));
    assert!(process.open("/n64", NEW).is_ok());
}

#[test]
fn unlink_takes_the_name_and_not_the_queue() {
    let queue = with_queue(NEW);
    let process = queue.process();
    assert_eq!(process.unlink("q"), Err(Error::Invalid(Invalid::Name((*b"q").into()))));
    assert_eq!(process.unlink(format!("/{}", "a".repeat(256))), Err(NameTooLong));
    assert_eq!(process.unlink("/q"), Ok(()));
    assert_eq!(process.unlink("/q"), Err(NoEntry));
    assert_eq!(process.open("/q", BOTH).err(), Some(NoEntry));
    assert_eq!(queue.send(b"a", 0), Ok(()));
}

#[test]
fn send_and_receive_fail() {
    let both = with_queue(NEW);
    let reader = both.process().open("/q", OpenOptions::read()).unwrap();
    let writer = both.process().open("/q", OpenOptions::write().nonblocking()).unwrap();
    let mut buf = [0xee; 6];

    assert_eq!(reader.send(b"a", 0), Err(BadDescriptor));
    assert_eq!(reader.try_send(b"a", 0), Err(BadDescriptor));
    assert_eq!(reader.send_timeout(b"a", 0, SOON), Err(BadDescriptor));
    let too_high = Error::Invalid(Invalid::Priority(32768));
    assert_eq!(both.send(b"a", 32768), Err(too_high.clone()));
    assert_eq!(both.try_send(b"a", 32768), Err(too_high.clone()));
    assert_eq!(both.send_timeout(b"a", 32768, SOON), Err(too_high.clone()));
    assert_eq!(both.start_send(b"a", 32768), Poll::Ready(Err(too_high)));
    assert_eq!(both.send(b"abcde", 0), Err(MessageSize));
    assert_eq!(writer.receive(&mut buf), Err(BadDescriptor));
    assert_eq!(writer.receive_vec(), Err(BadDescriptor));
    assert_eq!(both.receive(&mut buf[..3]), Err(MessageSize));
    assert_eq!(both.receive(&mut []), Err(MessageSize));
    assert_eq!(both.receive_timeout(&mut buf, SOON), Err(TimedOut));
    assert_eq!(both.receive_vec_timeout(SOON), Err(TimedOut));
    assert_eq!(both.try_receive(&mut buf), Err(Again));
    assert_eq!(both.try_receive_vec(), Err(Again));
    assert_eq!(buf, [0xee; 6]);

    assert_eq!(both.send(b"low", 0), Ok(()));
    assert_eq!(both.try_send(b"", 32767), Ok(()));
    assert_eq!(both.try_send(b"c", 0), Err(Again));
    assert_eq!(writer.try_send(b"c", 0), Err(Again));
    assert_eq!(writer.send(b"c", 0), Err(Again));
    assert_eq!(writer.send_timeout(b"c", 0, SOON), Err(Again));
    assert_eq!(both.send_timeout(b"c", 0, SOON), Err(TimedOut));
    assert_eq!(reader.receive(&mut buf), Ok(Received::new(0, 32767)));
    assert_eq!(reader.receive_timeout(&mut buf, SOON), Ok(Received::new(3, 0)));
    assert_eq!(&buf, b"low\xee\xee\xee");
}

#[test]
fn a_deadline_may_be_later_than_any_time() {
    let queue = with_queue(NEW);
    queue.send_timeout(b"a", 1, Duration::MAX).unwrap();
    let mut buf = [0; 4];
    assert_eq!(queue.receive_timeout(&mut buf, Duration::MAX), Ok(Received::new(1, 1)));
}

#[test]
fn a_received_vector_has_the_message_alone() {
    let queue = with_queue(NEW);
    for message in [b"abcd".as_slice(), b"", b"ab"] {
        queue.send(message, 3).unwrap();
        let received = queue.receive_vec().unwrap();
        assert_eq!((&*received, received.priority), (message, 3));
        queue.send(message, 3).unwrap();
        assert_eq!(queue.try_receive_vec().as_deref(), Ok(message));
        queue.send(message, 3).unwrap();
        assert_eq!(queue.receive_vec_timeout(SOON).as_deref(), Ok(message));
    }
}

#[test]
fn messages_are_iterated_over() {
    let queue = with_queue(NEW);
    queue.send(b"low", 1).unwrap();
    queue.send(b"high", 2).unwrap();
    let messages: Vec<Vec<u8>> = queue.try_iter().map(|message| message.unwrap().into()).collect();
    assert_eq!(messages, [b"high".to_vec(), b"low".to_vec()]);
    assert_eq!(queue.try_iter().next(), None);

    queue.send(b"one", 0).unwrap();
    assert_eq!(queue.iter().next().unwrap().as_deref(), Ok(b"one".as_slice()));
    queue.send(b"two", 0).unwrap();
    assert_eq!((&queue).into_iter().next().unwrap().as_deref(), Ok(b"two".as_slice()));

    queue.set_nonblocking(true).unwrap();
    let mut iter = queue.iter();
    assert_eq!(iter.next(), Some(Err(Again)));
    assert_eq!(iter.next(), None);
    let writer = queue.process().open("/q", OpenOptions::write()).unwrap();
    let mut iter = writer.try_iter();
    assert_eq!(iter.next(), Some(Err(BadDescriptor)));
    assert_eq!(iter.next(), None);
}

#[test]
fn the_flag_of_a_descriptor_is_set_and_told() {
    let queue = with_queue(NEW.nonblocking());
    queue.send(b"abcd", 0).unwrap();
    assert_eq!(attr(&queue), (2, 4, 1, true));
    let before = queue.set_nonblocking(false).unwrap();
    assert_eq!((before.curmsgs, before.nonblocking), (1, true));
    assert_eq!(attr(&queue), (2, 4, 1, false));
    let by_default = Queue::open(alone(), "/new", BOTH.create()).unwrap();
    assert_eq!(attr(&by_default), (10, 8192, 0, false));
}

#[test]
fn a_notice_comes_once_and_to_the_process_that_registered() {
    let (_, [first, second]) = System::builder().build_array().unwrap();
    let queue = first.open("/q", NEW).unwrap();
    let same = second.open("/q", BOTH).unwrap();
    let not_registered = Error::Invalid(Invalid::NotRegistered);
    assert_eq!(queue.unnotify(), Err(not_registered.clone()));
    assert_eq!(queue.notify(u64::MAX), Ok(()));
    assert_eq!(queue.notify(1), Err(Busy));
    assert_eq!(same.notify(2), Err(Busy));
    assert_eq!(same.unnotify(), Err(not_registered));
    assert_eq!(first.next_notice(), Ok(None));
    same.send(b"a", 0).unwrap();
    same.send(b"b", 0).unwrap();
    assert_eq!(second.next_notice(), Ok(None));
    assert_eq!(first.next_notice(), Ok(Some(u64::MAX)));
    assert_eq!(first.next_notice(), Ok(None));
    assert_eq!(queue.notify(0), Ok(()));
    assert_eq!(queue.unnotify(), Ok(()));
}

#[test]
fn a_full_journal_refuses_each_call_and_changes_nothing() {
    let (_, [mut process]) = System::builder().bounded(3, 16).build_array().unwrap();
    assert_eq!((process.room().entries, process.room().bytes), (3, 16));
    let queue = process.open("/q", NEW).unwrap();
    queue.notify(1).unwrap();
    assert!(!process.nobody_can_call());
    assert_eq!(
        queue.send(b"a", 0),
        Err(JournalFull),
        "it may wait, and needs room for two entries"
    );
    assert!(queue.attr().is_ok());
    let mut buf = [0; 4];
    let full: [(&str, Result<(), Error>); 15] = [
        ("open", process.open("/r", NEW).map(drop)),
        ("unlink", process.unlink("/q")),
        ("send", queue.send(b"a", 0)),
        ("send_timeout", queue.send_timeout(b"a", 0, SOON)),
        ("try_send", queue.try_send(b"a", 0)),
        ("receive", queue.receive(&mut buf).map(drop)),
        ("receive_timeout", queue.receive_timeout(&mut buf, SOON).map(drop)),
        ("try_receive", queue.try_receive(&mut buf).map(drop)),
        ("receive_vec", queue.receive_vec().map(drop)),
        ("attr", queue.attr().map(drop)),
        ("set_nonblocking", queue.set_nonblocking(true).map(drop)),
        ("notify", queue.notify(2)),
        ("unnotify", queue.unnotify()),
        ("next_notice", process.next_notice().map(drop)),
        ("close", queue.close().map(drop).map_err(Error::from)),
    ];
    for (call, result) in full {
        assert_eq!(result, Err(JournalFull), "{call}");
    }
    assert_eq!(process.room().entries, 0);
    assert!(process.nobody_can_call());
    assert_eq!(process.journal().unwrap().lines().count(), 3);
    assert_eq!(process.check(), Ok(()));
    assert_eq!(process.exit(), Err(JournalFull));
}

#[test]
fn without_bounds_there_is_room_without_end() {
    let endless = |room: Room| (room.entries, room.bytes) == (u64::MAX, u64::MAX);
    assert!(endless(alone().room()));
    let (_, [process]) = System::builder().journal(true).build_array().unwrap();
    assert!(endless(process.room()));
}

#[test]
fn what_reads_a_journal_that_is_not_stored_fails() {
    let queue = with_queue(NEW);
    queue.send(b"a", 0).unwrap();
    let process = queue.process();
    assert_eq!(process.check(), Err(Unstored));
    assert_eq!(process.entry(0), Err(Unstored));
    assert_eq!(process.entry(u64::MAX), Err(Unstored));
    assert_eq!(process.journal(), Err(Unstored));
    assert!(!process.nobody_can_call());
    assert_eq!(queue.receive(&mut [0; 4]), Ok(Received::new(1, 0)));
}
