//! Systems that continue from a journal: queues, waits and notices are as they were, in each of
//! several systems; the error for a bad journal has its line; a short journal has the same results.

use std::task::Poll;
use std::thread;
use std::time::Duration;
use yakyrombe::{
    Clock, Error, Invalid, Journal, OpenOptions, Process, Queue, Received, ResumeError, System,
    VirtualClock,
};

const OPTIONS: OpenOptions = OpenOptions::read_write().create().limits(2, 8);
const SECOND: Duration = Duration::from_secs(1);

/// The journal of three processes. An unlinked queue has a message. The first process has a gap
/// before a descriptor, and a notice. The second has a wait without a deadline, the third a wait
/// until second 5.
fn saved() -> Journal {
    let clock = VirtualClock::new();
    let (_, [one, two, three]) =
        System::builder().journal(true).clock(clock).build_array().unwrap();
    let (gap, gone) = (one.open("/q", OPTIONS).unwrap(), one.open("/gone", OPTIONS).unwrap());
    gone.send(b"kept", 3).unwrap();
    one.unlink("/gone").unwrap();
    let told = two.open("/told", OPTIONS).unwrap();
    let tells = one.open("/told", OPTIONS).unwrap();
    tells.notify(7).unwrap();
    told.send(b"now", 0).unwrap();
    drop(gap);
    let here = two.open("/q", OPTIONS).unwrap();
    assert!(here.start_receive(&mut [0; 8]).is_pending());
    let there = three.open("/q", OPTIONS).unwrap();
    assert!(there.start_receive_timeout(&mut [0; 8], 5 * SECOND).is_pending());
    one.journal().unwrap()
}

fn of(journal: &Journal, clock: &VirtualClock) -> [Process; 3] {
    let builder = System::builder().processes(3).clock(clock.clone());
    let (system, processes) = builder.resume(journal).unwrap();
    assert!(system.is_journal_stored());
    processes.try_into().unwrap()
}

/// Everything is there, and the waits continue.
fn goes_on(journal: &Journal) {
    let clock = VirtualClock::new();
    let [one, two, three] = of(journal, &clock);
    let gone = one.resumed(1).unwrap();
    assert_eq!(gone.try_receive(&mut [0; 8]), Ok(Received::new(4, 3)));
    assert_eq!(one.open("/gone", OpenOptions::read()).unwrap_err(), Error::NoEntry);
    assert_eq!((one.next_notice(), one.next_notice()), (Ok(Some(7)), Ok(None)));
    let queue = one.open("/q", OPTIONS).unwrap();
    assert_eq!(queue.descriptor(), 0);
    assert_eq!(one.resumed(0).unwrap_err(), Error::BadDescriptor);
    assert_eq!(one.resumed(1).unwrap_err(), Error::BadDescriptor);
    assert_eq!(one.resumed(99).unwrap_err(), Error::BadDescriptor);

    // The queue is closed as soon as the wait has ended.
    drop(two.resumed(0).unwrap());
    let here = Queue::resumed(two, 1).unwrap();
    assert!(here.process().is_waiting() && !here.is_answered());
    assert_eq!(here.send(b"", 0), Err(Error::Waiting));
    queue.send(b"second", 1).unwrap();
    let mut buf = [0; 8];
    assert_eq!(here.collect_receive(&mut buf), Poll::Ready(Ok(Received::new(6, 1))));

    let there = three.resumed(0).unwrap();
    assert_eq!(there.collect_receive(&mut buf), Poll::Pending);
    clock.advance_to(5 * SECOND);
    assert_eq!(there.collect_receive(&mut buf), Poll::Ready(Err(Error::TimedOut)));
    assert_eq!(clock.now(), 5 * SECOND);
    assert_eq!(one.check(), Ok(()));
    assert!(one.journal().unwrap().as_str().starts_with(journal.as_str()));
}

#[test]
fn several_systems_go_on_from_one_journal() {
    let journal = saved();
    for _ in 0..3 {
        goes_on(&journal);
    }
    goes_on(&Journal::from(String::from(journal)));
}

#[test]
fn a_short_journal_has_the_same_results() {
    let journal = saved();
    let short = journal.compacted().unwrap();
    goes_on(&short);
    assert_eq!(short.compacted().unwrap(), short);
    assert_eq!(Journal::default().compacted().unwrap(), Journal::default());
}

#[test]
fn an_answered_wait_stays_until_it_is_collected() {
    let (_, [one, two]) = System::builder().journal(true).build_array().unwrap();
    let (here, there) = (one.open("/q", OPTIONS).unwrap(), two.open("/q", OPTIONS).unwrap());
    assert!(here.start_receive(&mut [0; 8]).is_pending());
    there.send(b"now", 1).unwrap();
    let journal = two.journal().unwrap();
    assert_eq!(journal.compacted().unwrap(), journal);
    let (_, processes) = System::resume(&journal).unwrap();
    let here = processes[0].resumed(0).unwrap();
    assert!(here.is_answered());
    let mut buf = [0; 8];
    assert_eq!(here.collect_receive(&mut buf), Poll::Ready(Ok(Received::new(3, 1))));
    let journal = processes[0].journal().unwrap();
    assert_eq!(journal.lines().count(), 5);
    assert_eq!(journal.compacted().unwrap().lines().count(), 4);
}

#[test]
fn a_wait_goes_on_in_a_thread() {
    let (_, mut processes) = System::resume(&saved()).unwrap();
    let waits = Queue::resumed(processes.remove(1), 1).unwrap();
    let queue = processes[0].open("/q", OPTIONS).unwrap();
    let waiter = thread::spawn(move || waits.wait_timeout(Duration::from_secs(60)));
    queue.send(b"woken", 0).unwrap();
    assert!(waiter.join().unwrap());
}

#[test]
fn what_is_refused_names_its_line() {
    let journal = saved();
    let lines = journal.lines().count() as u64;
    let refused = |text: &str| System::resume(&Journal::from(text)).map(|_| ()).unwrap_err();
    assert_eq!(refused("\n"), ResumeError::BadLine(1));
    assert_eq!(refused("0 1 notice -> notice none\n1 1 not"), ResumeError::BadLine(2));
    assert_eq!(refused(journal.as_str().trim_end()), ResumeError::BadLine(lines));
    assert_eq!(refused("0 1 close 0 -> ok\n"), ResumeError::Illegal(1));
    assert_eq!(refused("0 33 notice -> notice none\n"), ResumeError::BadLine(1));
    assert_eq!(refused("0 1.65 notice -> notice none\n"), ResumeError::Illegal(1));
    assert_eq!(refused("0 1.2 notice -> notice none\n"), ResumeError::Foreign(1));
    assert_eq!(Journal::from("0 1 close 0 -> ok\n").compacted(), Err(ResumeError::Illegal(1)));
    let few = System::builder().processes(2).resume(&journal).unwrap_err();
    assert!(matches!(few, ResumeError::Foreign(line) if line < lines));
    for count in [0, 33] {
        let refused = System::builder().processes(count).resume(&journal).unwrap_err();
        assert_eq!(refused, ResumeError::Refused(Invalid::Processes(count).into()));
    }
    let ResumeError::Foreign(line) = few else { unreachable!("it is") };
    assert_eq!(Error::from(few), Error::Invalid(Invalid::Line(line)));
}

/// A wait without a deadline in the journal, as C and `mqlog` write it, can't be cancelled. Its
/// process can be dropped with it.
#[test]
fn a_wait_without_a_deadline_stays() {
    let text = "0 1 open bc limits 2 8 \"/q\" -> fd 0 created\n1 1 recv 0 8 -> waits\n";
    for _ in 0..100 {
        let (_, processes) = System::builder().processes(2).resume(&Journal::from(text)).unwrap();
        let queue = processes[0].resumed(0).unwrap();
        assert!(!queue.cancel() && processes[0].is_waiting());
        processes[1].open("/q", OPTIONS).unwrap().send(b"late", 0).unwrap();
        assert!(queue.is_answered() && !queue.cancel());
        assert_eq!(queue.receive(&mut [0; 8]), Ok(Received::new(4, 0)));
    }
    let (_, processes) = System::resume(&Journal::from(text)).unwrap();
    drop(processes);
}

#[test]
fn an_exit_closes_what_the_journal_left_open() {
    let (_, mut processes) = System::resume(&saved()).unwrap();
    let first = &mut processes[0];
    first.exit().unwrap();
    assert_eq!(first.resumed(1).unwrap_err(), Error::BadDescriptor);
    let queue = first.open("/other", OPTIONS).unwrap();
    assert_eq!(queue.descriptor(), 0);
}
