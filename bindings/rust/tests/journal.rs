//! The journal as text: its lines, and that `mqlog check` accepts it, if that program is built.

use std::io::Write;
use std::path::Path;
use std::process::{Command, Stdio};
use std::thread;
use std::time::Duration;
use yakyrombe::{OpenOptions, Process, Queue, System};

const OPTIONS: OpenOptions = OpenOptions::read_write().create().limits(1, 300);

fn alone() -> Process {
    let (_, [process]) = System::builder().journal(true).build_array().unwrap();
    process
}

fn with_queue() -> Queue<Process> {
    Queue::open(alone(), "/q", OPTIONS).unwrap()
}

#[test]
fn each_call_has_its_line() {
    let process = alone();
    let queue = process.open("/q", OPTIONS).unwrap();
    queue.send(b"a b", 7).unwrap();
    queue.attr().unwrap();
    queue.receive(&mut [0; 300]).unwrap();
    queue.notify(5).unwrap();
    queue.send(b"", 0).unwrap();
    process.next_notice().unwrap();
    process.unlink("/q").unwrap();
    queue.close().unwrap();
    let expected = "\
0 1 open bc limits 1 300 \"/q\" -> fd 0 created
1 1 send 0 7 3 \"a%20b\" -> queued
2 1 getattr 0 -> attr 0 1 300 1
3 1 recv 0 300 -> got 1
4 1 notify 0 5 -> ok
5 1 send 0 0 0 -> queued notified 4
6 1 notice -> notice 5
7 1 unlink \"/q\" -> ok
8 1 close 0 -> ok
";
    let journal = process.journal().unwrap();
    assert_eq!(journal.as_str(), expected);
    assert_eq!(journal.to_string(), expected);
    assert_eq!(
        process.entry(8).unwrap().as_deref(),
        expected.lines().last().map(|line| format!("{line}\n")).as_deref()
    );
    assert_eq!(process.entry(9), Ok(None));
    assert_eq!(process.entry(u64::MAX), Ok(None));
}

#[test]
fn a_try_is_a_call_whose_deadline_has_passed() {
    let queue = with_queue();
    queue.try_receive(&mut [0; 300]).unwrap_err();
    let line = queue.process().entry(1).unwrap().unwrap();
    let words: Vec<&str> = line.split_whitespace().collect();
    let (until, at) = ([words[6], words[7]], [words[9], words[10]]);
    assert_eq!(until, at);
    assert_eq!(words[12], "ETIMEDOUT");
}

#[test]
fn a_long_message_has_a_whole_line() {
    let queue = with_queue();
    queue.send(&[0; 300], 0).unwrap();
    let line = queue.process().entry(1).unwrap().unwrap();
    assert_eq!(line, format!("1 1 send 0 0 300 \"{}\" -> queued\n", "%00".repeat(300)));
}

#[test]
fn a_vector_asks_for_the_attributes_once() {
    let queue = with_queue();
    for _ in 0..3 {
        queue.send(b"a", 0).unwrap();
        queue.receive_vec().unwrap();
    }
    let journal = queue.process().journal().unwrap();
    assert_eq!(journal.lines().filter(|line| line.contains(" getattr ")).count(), 1);
}

fn hammer(process: Process) -> Process {
    let queue = Queue::open(process, "/q", OPTIONS).unwrap();
    for i in 0..100_u8 {
        let timeout = Duration::from_micros(u64::from(i) % 5 * 100);
        let _ = queue.send_timeout(&[i; 9], u32::from(i % 3), timeout);
        let _ = queue.notify(u64::from(i));
        let _ = queue.receive_timeout(&mut [0; 300], timeout);
        if queue.start_receive(&mut [0; 300]).is_pending() && i % 2 == 0 {
            queue.wait_timeout(timeout);
        }
        queue.cancel();
        queue.process().next_notice().unwrap();
    }
    queue.close().unwrap()
}

#[test]
fn the_journal_of_threads_is_legal() {
    let (_, processes) = System::builder().processes(6).journal(true).build().unwrap();
    let members: Vec<_> =
        processes.into_iter().map(|process| thread::spawn(move || hammer(process))).collect();
    let ended: Vec<Process> = members.into_iter().map(|member| member.join().unwrap()).collect();
    let last = &ended[3];
    let journal = last.journal().unwrap();
    assert_eq!(journal.lines().filter(|line| line.contains(" close ")).count(), 6);
    assert_eq!(last.check(), Ok(()));
    let mqlog = Path::new(env!("CARGO_MANIFEST_DIR")).join("../../crates/mqlog/out/mqlog");
    if mqlog.is_file() {
        assert!(verdict(&mqlog, journal.as_str()).starts_with("legal: "));
        let turned = journal.as_str().replacen("fd 0 created", "fd 1 created", 1);
        assert!(verdict(&mqlog, &turned).starts_with("entry 0: expected "));
    } else {
        eprintln!("mqlog is not built: only the library checked the journal");
    }
}

fn verdict(mqlog: &Path, journal: &str) -> String {
    let mut started = Command::new(mqlog)
        .arg("check")
        .stdin(Stdio::piped())
        .stdout(Stdio::piped())
        .spawn()
        .unwrap();
    started.stdin.take().unwrap().write_all(journal.as_bytes()).unwrap();
    String::from_utf8(started.wait_with_output().unwrap().stdout).unwrap()
}
