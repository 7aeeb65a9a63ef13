//! Waits in two parts: how they end, which calls fail meanwhile, and what happens to waits that are
//! never collected.

use std::mem::forget;
use std::task::Poll;
use std::thread;
use std::time::{Duration, Instant};
use yakyrombe::Error::{self, *};
use yakyrombe::{OpenOptions, Process, Queue, Received, System};

const ONE: OpenOptions = OpenOptions::read_write().create().limits(1, 8);
const SOON: Duration = Duration::from_millis(20);

/// One queue, open in two processes.
fn two() -> [Queue<Process>; 2] {
    let (_, processes): (_, [Process; 2]) = System::builder().journal(true).build_array().unwrap();
    processes.map(|process| Queue::open(process, "/q", ONE).unwrap())
}

fn got(len: usize, priority: u32) -> Poll<Result<Received, Error>> {
    Poll::Ready(Ok(Received::new(len, priority)))
}

#[test]
fn what_need_not_wait_is_done_at_once() {
    let [here, there] = two();
    let mut buf = [0; 8];
    assert_eq!(here.start_send(b"one", 3), Poll::Ready(Ok(())));
    assert_eq!(there.start_receive(&mut buf), got(3, 3));
    assert_eq!(&buf, b"one\0\0\0\0\0");
    assert_eq!(here.start_send_timeout(b"two", 4, SOON), Poll::Ready(Ok(())));
    assert_eq!(there.start_receive_timeout(&mut buf, SOON), got(3, 4));
    assert!(!here.process().is_waiting());
    assert_eq!(here.start_send(b"longer than it may be", 0), Poll::Ready(Err(MessageSize)));
    assert_eq!(here.start_receive(&mut [0; 7]), Poll::Ready(Err(MessageSize)));
    here.set_nonblocking(true).unwrap();
    assert_eq!(here.start_receive(&mut buf), Poll::Ready(Err(Again)));
}

#[test]
fn a_receive_is_collected_once_it_is_answered() {
    let [here, there] = two();
    let mut buf = [0; 8];
    assert!(!here.is_answered());
    assert_eq!(here.start_receive(&mut buf), Poll::Pending);
    assert!(here.process().is_waiting());
    assert!(!here.is_answered() && !here.process().is_answered());
    assert_eq!(here.collect_receive(&mut buf), Poll::Pending);
    there.send(b"now", 7).unwrap();
    assert!(here.is_answered() && here.process().is_answered());
    assert_eq!(here.collect_receive(&mut buf[..7]), Poll::Ready(Err(MessageSize)), "it stays open");
    assert_eq!(here.collect_receive(&mut buf), got(3, 7));
    assert_eq!(&buf, b"now\0\0\0\0\0");
    assert!(!here.process().is_waiting() && !here.is_answered());
    assert_eq!(here.collect_receive(&mut buf), Poll::Ready(Err(NotWaiting)));
    assert_eq!(here.process().check(), Ok(()));
}

#[test]
fn a_send_is_collected_once_it_is_answered() {
    let [here, there] = two();
    here.send(b"first", 0).unwrap();
    assert_eq!(here.start_send(b"second", 1), Poll::Pending);
    assert_eq!(here.collect_send(), Poll::Pending);
    assert_eq!(&*there.receive_vec().unwrap(), b"first");
    assert!(here.is_answered());
    assert_eq!(here.collect_send(), Poll::Ready(Ok(())));
    assert_eq!(here.collect_send(), Poll::Ready(Err(NotWaiting)));
    assert_eq!(&*there.receive_vec().unwrap(), b"second");
}

#[test]
fn every_other_call_fails_while_a_wait_is_open() {
    let [here, _there] = two();
    let process = here.process();
    let other = process.open("/other", ONE).unwrap();
    let mut buf = [0; 8];
    assert_eq!(here.start_receive(&mut buf), Poll::Pending);
    let refused: [(&str, Result<(), Error>); 16] = [
        ("open", process.open("/r", ONE).map(drop)),
        ("unlink", process.unlink("/q")),
        ("next_notice", process.next_notice().map(drop)),
        ("send", other.send(b"a", 0)),
        ("send_timeout", other.send_timeout(b"a", 0, SOON)),
        ("try_send", other.try_send(b"a", 0)),
        ("receive", here.receive(&mut buf).map(drop)),
        ("receive_timeout", other.receive_timeout(&mut buf, SOON).map(drop)),
        ("try_receive", here.try_receive(&mut buf).map(drop)),
        ("receive_vec", here.receive_vec().map(drop)),
        ("attr", other.attr().map(drop)),
        ("set_nonblocking", here.set_nonblocking(true).map(drop)),
        ("notify", here.notify(1)),
        ("unnotify", here.unnotify()),
        ("iter", other.iter().next().unwrap().map(drop)),
        ("try_iter", other.try_iter().next().unwrap().map(drop)),
    ];
    for (call, result) in refused {
        assert_eq!(result, Err(Waiting), "{call}");
    }
    assert_eq!(here.start_receive(&mut buf), Poll::Ready(Err(Waiting)));
    assert_eq!(other.start_send(b"a", 0), Poll::Ready(Err(Waiting)));
    assert_eq!(
        other.collect_receive(&mut buf),
        Poll::Ready(Err(NotWaiting)),
        "that of another queue"
    );
    assert_eq!(here.collect_send(), Poll::Ready(Err(NotWaiting)), "that of a receive");
    assert!(!other.cancel() && !other.is_answered() && !other.wait_timeout(SOON));
    // Calls that read the journal are not calls on queues.
    assert_eq!(process.check(), Ok(()));
    assert!(process.journal().is_ok() && process.entry(0).is_ok());
    assert!(!process.nobody_can_call());
    assert!(here.cancel());
    assert_eq!(other.send(b"a", 0), Ok(()));
}

#[test]
fn a_deadline_ends_a_wait_when_it_is_collected() {
    let [here, _there] = two();
    let mut buf = [0; 8];
    let start = Instant::now();
    assert_eq!(here.start_receive_timeout(&mut buf, SOON), Poll::Pending);
    assert!(!here.wait_timeout(2 * SOON));
    assert!(start.elapsed() >= 2 * SOON);
    assert_eq!(here.collect_receive(&mut buf), Poll::Ready(Err(TimedOut)));
    assert_eq!(here.start_receive_deadline(&mut buf, Instant::now()), Poll::Ready(Err(TimedOut)));
}

#[test]
fn a_wait_sleeps_until_it_is_answered() {
    let [here, there] = two();
    let mut buf = [0; 8];
    assert_eq!(here.start_receive(&mut buf), Poll::Pending);
    assert!(!here.wait_timeout(Duration::ZERO));
    let sender = thread::spawn(move || {
        thread::sleep(3 * SOON);
        there.send(b"late", 0)
    });
    assert!(here.wait_timeout(Duration::MAX));
    assert_eq!(here.collect_receive(&mut buf), got(4, 0));
    sender.join().unwrap().unwrap();
}

#[test]
fn a_cancelled_wait_is_withdrawn() {
    let [here, there] = two();
    assert!(!here.cancel(), "there is none");
    assert_eq!(here.start_receive(&mut [0; 8]), Poll::Pending);
    assert!(here.cancel());
    assert!(!here.cancel());
    there.send(b"kept", 0).unwrap();
    assert_eq!(here.start_send(b"lost", 0), Poll::Pending);
    assert!(here.cancel());
    assert_eq!(&*there.receive_vec().unwrap(), b"kept");
    assert_eq!(there.try_receive_vec(), Err(Again));
    assert_eq!(here.process().check(), Ok(()));
}

#[test]
fn a_wait_ends_also_if_the_journal_is_full() {
    for is_answered in [false, true] {
        let (_, [first, second]) = System::builder().bounded(7, 100).build_array().unwrap();
        let here = first.open("/q", ONE).unwrap();
        let there = second.open("/q", ONE).unwrap();
        assert_eq!(here.start_receive(&mut [0; 8]), Poll::Pending);
        if is_answered {
            there.send(b"last", 0).unwrap();
        }
        while second.room().entries > 0 {
            there.attr().unwrap();
        }
        assert_eq!(there.attr(), Err(JournalFull));
        assert_eq!(here.cancel(), !is_answered);
        // A message that was kept needs no call of the library.
        let received = here.receive(&mut [0; 8]).map(|received| received.len);
        assert_eq!(received, if is_answered { Ok(4) } else { Err(JournalFull) });
        assert_eq!(second.check(), Ok(()));
    }
}

#[test]
fn a_cancelled_send_that_was_answered_is_done() {
    let [here, there] = two();
    here.send(b"first", 0).unwrap();
    assert_eq!(here.start_send(b"second", 0), Poll::Pending);
    there.receive_vec().unwrap();
    assert!(!here.cancel());
    assert_eq!(&*there.receive_vec().unwrap(), b"second");
}

type Receive = fn(&Queue<Process>, &mut [u8]) -> Result<Received, Error>;

#[test]
fn a_cancelled_receive_that_was_answered_keeps_the_message_for_the_next() {
    let receives: [Receive; 5] = [
        |queue, buf| queue.receive(buf),
        |queue, buf| queue.receive_timeout(buf, SOON),
        |queue, buf| queue.try_receive(buf),
        |queue, buf| match queue.start_receive(buf) {
            Poll::Ready(result) => result,
            Poll::Pending => panic!("it is there"),
        },
        |queue, buf| {
            let message = queue.receive_vec()?;
            buf[..message.len()].copy_from_slice(&message);
            Ok(Received::new(message.len(), message.priority))
        },
    ];
    for receive in receives {
        let [here, there] = two();
        assert_eq!(here.start_receive(&mut [0; 8]), Poll::Pending);
        there.send(b"kept", 5).unwrap();
        there.send(b"later", 9).unwrap();
        assert!(!here.cancel());
        let mut buf = [0; 8];
        assert_eq!(here.receive(&mut buf[..3]), Err(MessageSize));
        assert_eq!(receive(&here, &mut buf), Ok(Received::new(4, 5)));
        assert_eq!(&buf, b"kept\0\0\0\0");
        assert_eq!(receive(&here, &mut buf), Ok(Received::new(5, 9)));
        assert_eq!(here.process().check(), Ok(()));
    }
}

#[test]
fn a_queue_with_an_open_wait_that_is_dropped_withdraws_it() {
    let (_, [first, second]) = System::builder().journal(true).build_array().unwrap();
    let there = second.open("/q", ONE).unwrap();
    let here = first.open("/q", ONE).unwrap();
    assert_eq!(here.start_receive(&mut [0; 8]), Poll::Pending);
    drop(here);
    assert!(!first.is_waiting());
    there.send(b"for all", 0).unwrap();
    let here = first.open("/q", ONE).unwrap();
    assert_eq!((here.descriptor(), &*here.try_receive_vec().unwrap()), (0, b"for all".as_slice()));
    assert_eq!(here.start_receive(&mut [0; 8]), Poll::Pending);
    here.close().unwrap();
    assert!(!first.is_waiting());
    let lines =
        second.journal().unwrap().lines().filter(|line| line.contains(" withdraw ")).count();
    assert_eq!((lines, second.check()), (2, Ok(())));
}

#[test]
fn a_message_that_was_handed_to_a_dropped_queue_is_lost_with_it() {
    let [here, there] = two();
    assert_eq!(here.start_receive(&mut [0; 8]), Poll::Pending);
    there.send(b"lost", 0).unwrap();
    drop(here);
    assert_eq!(there.try_receive_vec(), Err(Again));
    assert_eq!(there.process().check(), Ok(()));
}

#[test]
fn a_queue_that_is_dropped_while_another_waits_is_closed_after_that() {
    let (_, [first, second]) = System::builder().journal(true).build_array().unwrap();
    let here = first.open("/q", ONE).unwrap();
    let others = [first.open("/r", ONE).unwrap(), first.open("/s", ONE).unwrap()];
    let there = second.open("/q", ONE).unwrap();
    let closes =
        || second.journal().unwrap().lines().filter(|line| line.contains(" close ")).count();
    assert_eq!(here.start_receive(&mut [0; 8]), Poll::Pending);
    drop(others);
    assert_eq!(closes(), 0);
    there.send(b"end", 0).unwrap();
    assert_eq!(here.collect_receive(&mut [0; 8]), got(3, 0));
    assert_eq!(closes(), 2);
    let other = first.open("/r", ONE).unwrap();
    assert_eq!(other.descriptor(), 1);
    assert_eq!(here.start_receive(&mut [0; 8]), Poll::Pending);
    assert_eq!(other.close().unwrap().number(), 1);
    assert_eq!(closes(), 2);
    assert!(here.cancel());
    assert_eq!(closes(), 3);
}

#[test]
fn a_process_with_an_open_wait_that_is_dropped_withdraws_it() {
    let (_, [mut first, second]) = System::builder().journal(true).build_array().unwrap();
    let queue = first.open("/q", ONE).unwrap();
    assert_eq!(queue.start_receive(&mut [0; 8]), Poll::Pending);
    forget(queue);
    assert_eq!(first.exit(), Err(Waiting));
    drop(first);
    let there = second.open("/q", ONE).unwrap();
    there.send(b"free", 0).unwrap();
    assert_eq!(&*there.try_receive_vec().unwrap(), b"free");
    let journal = second.journal().unwrap();
    assert!(
        journal.lines().any(|line| line.contains(" 1 withdraw "))
            && journal.lines().any(|line| line.contains(" 1 close "))
    );
}

#[test]
fn a_panic_ends_an_open_wait() {
    let [here, there] = two();
    let ended = thread::spawn(move || {
        let _ = here.start_receive(&mut [0; 8]);
        panic!("on purpose");
    })
    .join();
    assert!(ended.is_err());
    there.send(b"free", 0).unwrap();
    assert_eq!(&*there.receive_vec().unwrap(), b"free");
}

#[test]
fn many_waits_are_open_in_one_thread() {
    let (_, processes) = System::builder().processes(32).build().unwrap();
    let queues: Vec<_> =
        processes.into_iter().map(|process| Queue::open(process, "/q", ONE).unwrap()).collect();
    let (sender, receivers) = queues.split_first().unwrap();
    for receiver in receivers {
        assert!(receiver.start_receive(&mut [0; 8]).is_pending());
    }
    // In the order in which they began.
    for (number, receiver) in (0..).zip(receivers) {
        sender.send(&[number], 0).unwrap();
        let answered: Vec<bool> = receivers.iter().map(Queue::is_answered).collect();
        assert_eq!(answered.iter().filter(|it| **it).count(), 1);
        let mut buf = [0; 8];
        assert_eq!(receiver.collect_receive(&mut buf), got(1, 0));
        assert_eq!(buf[0], number);
    }
}
