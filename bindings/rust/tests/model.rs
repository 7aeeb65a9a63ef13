//! Closures under every order of their steps. This needs yak-explore and its engine.

use std::panic::{catch_unwind, AssertUnwindSafe};
use std::process::Command;
use std::time::Duration;
use yakyrombe::sync::{Arc, Condvar, Mutex, TryLockError};
use yakyrombe::{model, thread, Error, Model, OpenOptions, Process, Queue, System};

const OPTIONS: OpenOptions = OpenOptions::read_write().create().limits(2, 8);

fn processes<const N: usize>() -> [Process; N] {
    System::builder().build_array().unwrap().1
}

fn open(process: Process, name: &str) -> Queue<Process> {
    Queue::open(process, name, OPTIONS).unwrap()
}

fn get(queue: &Queue<Process>) -> u8 {
    queue.receive_vec().unwrap()[0]
}

fn put(queue: &Queue<Process>, byte: u8) {
    queue.send(&[byte], 0).unwrap();
}

/// The message of a model that fails.
fn failure(run: impl FnOnce()) -> String {
    let panicked = catch_unwind(AssertUnwindSafe(run)).expect_err("some schedule fails");
    panicked.downcast_ref::<String>().expect("a report").clone()
}

fn takes_turns_and_counts(last: u8) {
    let [purse, one, two] = processes().map(|it| open(it, "/purse"));
    put(&purse, 0);
    let adds = |purse: Queue<Process>, more| thread::spawn(move || put(&purse, get(&purse) + more));
    let threads = [adds(one, 1), adds(two, 2)];
    for thread in threads {
        thread.join().unwrap();
    }
    assert_eq!(get(&purse), last);
}

#[test]
fn who_holds_a_message_may_change_it() {
    model(|| takes_turns_and_counts(3));
}

/// Two threads receive from two queues, in the same order or in opposite orders.
fn takes_two(is_right: bool) {
    let [one, two] = processes();
    let (left, right) = (one.open("/left", OPTIONS).unwrap(), one.open("/right", OPTIONS).unwrap());
    left.send(b"l", 0).unwrap();
    right.send(b"r", 0).unwrap();
    let other = thread::spawn(move || {
        let names = if is_right { ["/left", "/right"] } else { ["/right", "/left"] };
        let [first, second] = names.map(|name| two.open(name, OPTIONS).unwrap());
        let taken = [first.receive_vec().unwrap(), second.receive_vec().unwrap()];
        first.send(&taken[0], 0).unwrap();
        second.send(&taken[1], 0).unwrap();
    });
    let taken = [left.receive_vec().unwrap(), right.receive_vec().unwrap()];
    left.send(&taken[0], 0).unwrap();
    right.send(&taken[1], 0).unwrap();
    other.join().unwrap();
}

#[test]
fn two_queues_in_one_order() {
    model(|| takes_two(true));
}

#[test]
#[should_panic(expected = "failure: deadlock")]
fn two_queues_in_two_orders() {
    model(|| takes_two(false));
}

/// The reply to the first question can arrive after its deadline.
fn asks_twice(looks: bool) {
    let [one, two, three, four] = processes();
    let (asks, replies) = (open(one, "/asks"), open(two, "/replies"));
    let (from, to) = (open(three, "/asks"), open(four, "/replies"));
    let server = thread::spawn(move || loop {
        match get(&from) {
            b'.' => return,
            question => put(&to, question + 1),
        }
    });
    let mut buf = [0; 8];
    for question in [10, 20] {
        put(&asks, question);
        while replies.receive_timeout(&mut buf, Duration::from_secs(1)).is_ok() {
            if !looks {
                assert_eq!(buf[0], question + 1, "the reply to another question");
            }
            if buf[0] == question + 1 {
                break;
            }
        }
    }
    put(&asks, b'.');
    server.join().unwrap();
}

#[test]
fn a_late_reply_is_thrown_away() {
    model(|| asks_twice(true));
}

#[test]
#[should_panic(expected = "the reply to another question")]
fn a_late_reply_is_taken_for_another() {
    model(|| asks_twice(false));
}

/// Two threads lock two mutexes, in the same order or in opposite orders.
fn locks_two(is_right: bool) {
    let locks = Arc::new([Mutex::new(1), Mutex::new(2)]);
    let there = Arc::clone(&locks);
    let other = thread::spawn(move || {
        let (first, second) = if is_right { (0, 1) } else { (1, 0) };
        let first = there[first].lock().unwrap();
        *there[second].lock().unwrap() += *first;
    });
    {
        let first = locks[0].lock().unwrap();
        *locks[1].lock().unwrap() += *first;
    }
    other.join().unwrap();
}

#[test]
fn two_mutexes_in_one_order() {
    model(|| locks_two(true));
}

#[test]
#[should_panic(expected = "pthread_mutex_lock on mutex 1, and thread 1 holds mutex 1")]
fn two_mutexes_in_two_orders() {
    model(|| locks_two(false));
}

/// A thread waits for a flag that another sets: a wake-up before the wait is lost.
fn waits_for_a_flag(looks: bool) {
    let shared = Arc::new((Mutex::new(false), Condvar::new()));
    let there = Arc::clone(&shared);
    let waiter = thread::spawn(move || {
        let (is_set, changed) = &*there;
        let mut guard = is_set.lock().unwrap();
        if looks {
            guard = changed.wait_while(guard, |is_set| !*is_set).unwrap();
        } else {
            guard = changed.wait(guard).unwrap();
        }
        assert!(*guard);
    });
    *shared.0.lock().unwrap() = true;
    shared.1.notify_one();
    waiter.join().unwrap();
}

#[test]
fn a_wait_looks_first() {
    model(|| waits_for_a_flag(true));
}

#[test]
#[should_panic(expected = "waits in pthread_cond_wait")]
fn a_wake_before_the_wait_is_lost() {
    model(|| waits_for_a_flag(false));
}

/// Whether a wait with a deadline was needed and timed out.
fn waits_until_a_deadline() -> bool {
    let shared = Arc::new((Mutex::new(0), Condvar::new()));
    let there = Arc::clone(&shared);
    let waker = thread::spawn(move || {
        *there.0.lock().unwrap() = 1;
        there.1.notify_all();
    });
    let guard = shared.0.lock().unwrap();
    let is_late =
        *guard == 0 && shared.1.wait_timeout(guard, Duration::from_secs(1)).unwrap().1.timed_out();
    waker.join().unwrap();
    is_late
}

#[test]
#[should_panic(expected = "its deadline has passed")]
fn a_wait_for_a_condition_may_end_by_its_deadline() {
    model(|| assert!(!waits_until_a_deadline(), "its deadline has passed"));
}

#[test]
#[should_panic(expected = "it was woken")]
fn a_wait_for_a_condition_may_end_by_a_wake() {
    model(|| assert!(waits_until_a_deadline(), "it was woken"));
}

/// Whether `try_lock` found the mutex locked.
fn tries() -> bool {
    let lock = Arc::new(Mutex::new(()));
    let there = Arc::clone(&lock);
    let other = thread::spawn(move || drop(there.lock().unwrap()));
    let is_locked = lock.try_lock().is_err();
    other.join().unwrap();
    is_locked
}

#[test]
#[should_panic(expected = "it was locked")]
fn a_try_may_meet_a_locked_mutex() {
    model(|| assert!(!tries(), "it was locked"));
}

#[test]
#[should_panic(expected = "it was free")]
fn a_try_may_meet_a_free_mutex() {
    model(|| assert!(tries(), "it was free"));
}

/// The registration can come after the message.
fn awaits_a_notice(looks: bool) {
    let [one, two] = processes();
    let (here, there) = (open(one, "/q"), open(two, "/q"));
    let sender = thread::spawn(move || put(&there, 1));
    here.notify(7).unwrap();
    if looks && here.attr().unwrap().curmsgs != 0 {
        return sender.join().unwrap();
    }
    sender.join().unwrap();
    assert_eq!(here.process().next_notice(), Ok(Some(7)), "no notice came");
}

#[test]
fn a_late_registration_looks_for_messages() {
    model(|| awaits_a_notice(true));
}

#[test]
#[should_panic(expected = "no notice came")]
fn a_late_registration_does_not_look() {
    model(|| awaits_a_notice(false));
}

/// What another process finds under a name that one queue loses and a new one gets.
fn finds_by_a_name(wanted: &[Result<usize, Error>; 2]) {
    let [one, two] = processes();
    drop(one.open("/q", OPTIONS).unwrap());
    let other = thread::spawn(move || {
        let queue = two.open("/q", OpenOptions::read_write())?;
        queue.attr().map(|it| it.curmsgs)
    });
    one.unlink("/q").unwrap();
    let queue = one.open("/q", OPTIONS).unwrap();
    queue.send(b"new", 0).unwrap();
    let found = other.join().unwrap();
    assert!(wanted.contains(&found), "found {found:?}");
}

#[test]
#[should_panic(expected = "found Err(NoEntry)")]
fn a_name_may_be_taken_off() {
    model(|| finds_by_a_name(&[Ok(1), Ok(0)]));
}

#[test]
#[should_panic(expected = "found Ok(1)")]
fn a_name_may_be_that_of_the_new_queue() {
    model(|| finds_by_a_name(&[Ok(0), Err(Error::NoEntry)]));
}

#[test]
fn a_nonblocking_queue_and_a_try_fail_at_once() {
    model(|| {
        let [one, two] = processes();
        let (here, there) = (open(one, "/q"), open(two, "/q"));
        assert_eq!(here.try_receive(&mut [0; 8]), Err(Error::Again));
        here.set_nonblocking(true).unwrap();
        assert_eq!(here.receive(&mut [0; 8]), Err(Error::Again));
        assert_eq!(here.send(&[0; 9], 0), Err(Error::MessageSize));
        let sender = thread::spawn(move || put(&there, 1));
        let received = here.receive_vec();
        assert!(received.is_err() || *received.unwrap() == [1]);
        sender.join().unwrap();
    });
}

#[test]
fn one_test_may_have_two_models() {
    model(|| takes_turns_and_counts(3));
    let said = failure(|| model(|| takes_turns_and_counts(2)));
    assert!(said.contains("left: 3"), "{said}");
}

#[test]
fn parks_and_scopes_end() {
    model(|| {
        let here = thread::current();
        thread::scope(|scope| {
            scope.spawn(|| here.unpark());
            thread::park();
        });
        thread::sleep(Duration::from_secs(100));
    });
}

#[test]
fn a_failure_is_repeated_by_its_command() {
    let said = failure(|| model(|| takes_turns_and_counts(4)));
    let command = said.lines().find_map(|line| line.strip_prefix("  repeat it: ")).unwrap();
    let ran = Command::new("sh").args(["-c", command]).output().unwrap();
    let printed = String::from_utf8_lossy(&ran.stderr);
    assert_eq!(ran.status.code(), Some(101), "{printed}");
    for text in ["left: 3", "right: 4", "tests/model.rs"] {
        assert!(said.contains(text) && printed.contains(text), "{said}{printed}");
    }
}

#[test]
fn a_panic_of_a_thread_fails_by_its_join() {
    let said = failure(|| model(|| thread::spawn(|| panic!("a thread panics")).join().unwrap()));
    assert!(said.contains("a thread panics") && said.contains("status 101"), "{said}");
}

#[test]
#[should_panic(expected = "a system that was made outside")]
fn a_system_from_outside_is_not_explored() {
    let [process] = processes();
    model(move || drop(process.open("/q", OPTIONS)));
}

#[test]
#[should_panic(expected = "no waits in two parts")]
fn a_wait_in_two_parts_is_not_explored() {
    model(|| {
        let [process] = processes();
        let _ = open(process, "/q").start_receive(&mut [0; 8]);
    });
}

#[test]
#[should_panic(expected = "the budget is used up")]
fn orders_that_are_left_out_are_a_failure() {
    Model::new().runs(1).check(|| takes_turns_and_counts(3));
}

#[test]
fn orders_may_be_left_out() {
    let model = Model::new().runs(1).seconds(60).deadlines_last().may_leave_out();
    model.check(|| takes_turns_and_counts(3));
}

#[test]
fn outside_of_a_model_they_are_those_of_std() {
    let shared = Arc::new((Mutex::new(0), Condvar::new()));
    let guard = shared.0.lock().unwrap();
    assert!(matches!(shared.0.try_lock(), Err(TryLockError::WouldBlock)));
    let (guard, ended) = shared.1.wait_timeout(guard, Duration::from_millis(1)).unwrap();
    assert!(ended.timed_out());
    drop(guard);
    let there = Arc::clone(&shared);
    let other = thread::spawn(move || {
        *there.0.lock().unwrap() = 1;
        there.1.notify_all();
    });
    let guard = shared.1.wait_while(shared.0.lock().unwrap(), |it| *it == 0).unwrap();
    drop(guard);
    other.join().unwrap();
    let there = Arc::clone(&shared);
    let panics = thread::spawn(move || {
        let _guard = there.0.lock();
        panic!("it holds the mutex");
    });
    assert!(panics.join().is_err());
    assert!(shared.0.is_poisoned());
    assert_eq!(*shared.0.lock().unwrap_err().into_inner(), 1);
    assert!(matches!(shared.0.try_lock(), Err(TryLockError::Poisoned(_))));
}
