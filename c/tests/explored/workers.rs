//! workers [right]: two of Rust's own threads take a job each from a queue, count it under a mutex
//! of std, and wake the first thread by a condition of std. That waits until both are counted; if
//! it does not look again after a wait, it goes on too early, which takes no preemption.
use std::ffi::{c_char, c_int, c_long, c_uint};
use std::process::exit;
use std::sync::{Arc, Condvar, Mutex};
use std::thread;

extern "C" {
    fn mq_open(name: *const c_char, flags: c_int, ...) -> c_int;
    fn mq_send(queue: c_int, bytes: *const u8, len: usize, priority: c_uint) -> c_int;
    fn mq_receive(queue: c_int, buf: *mut u8, len: usize, priority: *mut c_uint) -> isize;
}

const READ_WRITE_CREATE: c_int = 0o102;
const JOBS: usize = 2;

fn open(name: &'static [u8]) -> c_int {
    let attributes: [c_long; 8] = [0, 4, 8, 0, 0, 0, 0, 0];
    // SAFETY: the name ends with a zero, and the attributes are as long as a struct mq_attr.
    unsafe {
        mq_open(name.as_ptr().cast(), READ_WRITE_CREATE, 0o600 as c_uint, attributes.as_ptr())
    }
}

fn put(queue: c_int, byte: u8) {
    // SAFETY: it is one byte.
    assert_eq!(unsafe { mq_send(queue, &byte, 1, 0) }, 0);
}

fn get(queue: c_int) -> u8 {
    let mut buf = [0; 8];
    // SAFETY: the buffer has so many bytes.
    assert!(unsafe { mq_receive(queue, buf.as_mut_ptr(), buf.len(), std::ptr::null_mut()) } > 0);
    buf[0]
}

fn main() {
    let looks_again = std::env::args().len() > 1;
    let jobs = open(b"/jobs\0");
    let shared = Arc::new((Mutex::new(0), Condvar::new()));
    let workers: Vec<_> = (0..JOBS)
        .map(|_| {
            let shared = Arc::clone(&shared);
            thread::spawn(move || {
                get(jobs);
                *shared.0.lock().unwrap() += 1;
                shared.1.notify_one();
            })
        })
        .collect();
    for _ in 0..JOBS {
        put(jobs, b'j');
    }
    let mut done = shared.0.lock().unwrap();
    while *done < JOBS {
        done = shared.1.wait(done).unwrap();
        if !looks_again {
            break;
        }
    }
    if *done < JOBS {
        println!("{done} of {JOBS} done");
        exit(1);
    }
    drop(done);
    for worker in workers {
        worker.join().unwrap();
    }
    println!("all done");
}
