//! Which process and system a queue belongs to, and in which order they end.

use std::mem::forget;
use std::rc::Rc;
use std::thread;
use yakyrombe::{Error, Invalid, OpenOptions, Process, Queue, System};

const NEW: OpenOptions = OpenOptions::read_write().create().limits(2, 4);

/// A process, and another of its system that observes what is closed.
fn two() -> [Process; 2] {
    System::builder().journal(true).build_array().unwrap().1
}

/// The journal lines of the closes by process 1.
fn closes(observer: &Process) -> Vec<String> {
    let journal = observer.journal().unwrap();
    journal
        .lines()
        .filter_map(|line| line.split_once(" 1 close ").map(|(_, it)| it.to_string()))
        .collect()
}

#[test]
fn a_dropped_queue_is_closed() {
    let [process, observer] = two();
    let first = process.open("/q", NEW).unwrap();
    let second = process.open("/r", NEW).unwrap();
    drop(first);
    assert_eq!(closes(&observer), ["0 -> ok"]);
    assert_eq!(process.open("/q", NEW).unwrap().descriptor(), 0);
    drop(second);
    assert_eq!(closes(&observer), ["0 -> ok", "0 -> ok", "1 -> ok"]);
    drop(process);
    assert_eq!(closes(&observer).len(), 3, "nothing was left to close");
}

#[test]
fn a_closed_queue_is_closed_once_and_gives_its_process_back() {
    let [process, observer] = two();
    let queue = Queue::open(process, "/q", NEW).unwrap();
    let process = queue.close().unwrap();
    assert_eq!(closes(&observer), ["0 -> ok"]);
    assert_eq!(process.number(), 1);
    drop(process);
    assert_eq!(closes(&observer).len(), 1);
}

#[test]
fn an_open_that_fails_gives_the_process_back() {
    let [process, _observer] = two();
    let refused = Queue::open(process, "/missing", OpenOptions::read()).unwrap_err();
    assert_eq!(refused.error(), &Error::NoEntry);
    assert_eq!(refused.to_string(), "no queue has this name");
    assert_eq!(std::error::Error::source(&refused).unwrap().to_string(), refused.to_string());
    let process = refused.into_holder();
    assert_eq!(process.open("/q", NEW).unwrap().descriptor(), 0);
    let malformed = Error::from(Queue::open(process, "q", NEW).unwrap_err());
    assert_eq!(malformed, Error::Invalid(Invalid::Name((*b"q").into())));
}

#[test]
fn an_owned_queue_ends_with_its_process() {
    let [process, observer] = two();
    let queue = Queue::open(process, "/q", NEW).unwrap();
    let other = queue.process().open("/r", NEW).unwrap();
    assert_eq!(other.descriptor(), 1);
    drop(other);
    drop(queue);
    assert_eq!(closes(&observer), ["1 -> ok", "0 -> ok"]);
}

#[test]
fn a_shared_process_ends_with_its_last_queue() {
    for order in [[0, 1, 2], [0, 2, 1], [1, 0, 2], [1, 2, 0], [2, 0, 1], [2, 1, 0]] {
        let [process, observer] = two();
        let process = Rc::new(process);
        let first = Queue::open(Rc::clone(&process), "/q", NEW).unwrap();
        let second = Queue::open(Rc::clone(&process), "/r", NEW).unwrap();
        let mut parts: [Option<Box<dyn std::any::Any>>; 3] =
            [Some(Box::new(process)), Some(Box::new(first)), Some(Box::new(second))];
        for place in order {
            parts[place].take();
            let open = parts[1].iter().count() + parts[2].iter().count();
            assert_eq!(closes(&observer).len(), 2 - open, "{order:?}");
        }
    }
}

#[test]
fn a_system_ends_with_its_last_process_and_may_be_dropped_before() {
    let (system, mut processes) = System::builder().processes(4).build().unwrap();
    let twin = system.clone();
    assert_eq!(system, twin);
    drop(system);
    drop(processes.remove(2));
    let last = processes.pop().unwrap();
    drop(processes);
    assert_eq!(last.system(), &twin);
    let queue = last.open("/q", NEW).unwrap();
    queue.send(b"here", 0).unwrap();
    assert_eq!(&*queue.receive_vec().unwrap(), b"here");
}

#[test]
fn a_forgotten_queue_is_closed_by_exit_and_by_the_end_of_its_process() {
    let [mut process, observer] = two();
    forget(process.open("/q", NEW).unwrap());
    forget(process.open("/r", NEW).unwrap());
    process.exit().unwrap();
    assert_eq!(closes(&observer), ["0 -> ok", "1 -> ok"]);
    forget(process.open("/q", NEW).unwrap());
    drop(process);
    assert_eq!(closes(&observer).len(), 3);
}

#[test]
fn queues_of_two_systems_are_apart() {
    let (one, [first]) = System::builder().build_array().unwrap();
    let (two, [second]) = System::builder().build_array().unwrap();
    assert_ne!(one, two);
    assert_eq!((first.system(), second.system()), (&one, &two));
    let here = first.open("/q", NEW).unwrap();
    let there = second.open("/q", NEW).unwrap();
    here.send(b"here", 0).unwrap();
    assert_eq!(here.descriptor(), there.descriptor());
    assert_eq!(there.try_receive_vec(), Err(Error::Again));
    assert_eq!(&*here.try_receive_vec().unwrap(), b"here");
}

#[test]
fn a_queue_whose_close_is_refused_stays_open_until_the_process_exits() {
    let (_, [process]) = System::builder().bounded(1, 9).build_array().unwrap();
    let queue = process.open("/q", NEW).unwrap();
    let refused = queue.close().unwrap_err();
    assert_eq!(refused.error(), &Error::JournalFull);
    assert_eq!(process.journal().unwrap().lines().count(), 1);
}

fn opened_in_a_thread_that_panics(process: Process) {
    let ended = thread::spawn(move || {
        let queue = process.open("/q", NEW).unwrap();
        let _other = process.open("/own", NEW).unwrap();
        queue.notify(1).unwrap();
        panic!("on purpose");
    })
    .join();
    assert!(ended.is_err());
}

#[test]
fn a_panic_closes_what_the_thread_has_open_and_the_others_go_on() {
    let [process, observer] = two();
    let queue = observer.open("/q", NEW).unwrap();
    opened_in_a_thread_that_panics(process);
    assert_eq!(closes(&observer), ["1 -> ok", "0 -> ok"]);
    queue.notify(2).unwrap();
    queue.send(b"on", 0).unwrap();
    assert_eq!(observer.next_notice(), Ok(Some(2)));
    assert_eq!(observer.check(), Ok(()));
}

#[test]
fn an_owned_queue_moves_between_threads() {
    let [process, observer] = two();
    let queue = Queue::open(process, "/q", NEW).unwrap();
    let queue =
        thread::spawn(move || queue.send(b"one", 0).map(|()| queue)).join().unwrap().unwrap();
    let process = thread::spawn(move || queue.send(b"two", 0).and_then(|()| Ok(queue.close()?)))
        .join()
        .unwrap()
        .unwrap();
    let same = observer.open("/q", NEW).unwrap();
    assert_eq!(same.try_iter().count(), 2);
    assert_eq!(process.number(), 1);
}
