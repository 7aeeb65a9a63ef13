//! The machine that `yak-explore` preloads into a program, as `c/machine.h` declares it, and the
//! primitives that threads wait on and the machine sees.
//!
//! - The functions of the machine are looked up by name. Whether they exist does not change while
//!   the program runs. They have the types declared here.
//! - A queue, a lock or a condition does not move during a call on it, because the call borrows it.
//!   While the machine decides, one thread runs at a time, and only the machine touches a queue.
//! - A lock or a condition of zeros is initialized and unused, as with the initializers of glibc
//!   and musl. Both are at most 48 bytes long.

use super::Moment;
use std::cell::UnsafeCell;
use std::ffi::{c_char, c_int, c_void};
use std::mem::{size_of, transmute_copy};
use std::ptr::{null, null_mut};
use std::sync::OnceLock;

/// The flag of a send or a receive that does not wait, or that fails whatever the queue holds.
pub const TRY: u32 = 2;
pub const NEVER_BLOCKS: u32 = 4;

/// `machine_queue`.
#[allow(dead_code)]
#[repr(C)]
#[derive(Default)]
struct Fields {
    object: u32,
    room: i64,
    msgsize: i64,
    current: i64,
}

/// What the machine knows of a queue.
#[derive(Default)]
pub struct Queue(UnsafeCell<Fields>);

// SAFETY: only the machine touches the fields, for one thread at a time.
unsafe impl Send for Queue {}
// SAFETY: the same.
unsafe impl Sync for Queue {}

/// The functions of the machine.
struct Machine {
    begin: unsafe extern "C" fn() -> bool,
    decides: unsafe extern "C" fn() -> bool,
    queue: unsafe extern "C" fn(*mut Fields, *const u8, usize, i64),
    call: unsafe extern "C" fn(*const c_char, *const Fields),
    transfer: unsafe extern "C" fn(bool, *mut Fields, u32, u32, *const Moment),
    also: unsafe extern "C" fn(*const c_char, *const Fields),
    gave: unsafe extern "C" fn(c_int, u32),
    moved: unsafe extern "C" fn(bool, *mut Fields, c_int, *const u8, usize),
}

extern "C" {
    fn dlsym(library: *mut c_void, name: *const c_char) -> *mut c_void;
    fn pthread_mutex_lock(lock: *mut c_void) -> c_int;
    fn pthread_mutex_trylock(lock: *mut c_void) -> c_int;
    fn pthread_mutex_unlock(lock: *mut c_void) -> c_int;
    fn pthread_cond_wait(cond: *mut c_void, lock: *mut c_void) -> c_int;
    fn pthread_cond_timedwait(cond: *mut c_void, lock: *mut c_void, until: *const Moment) -> c_int;
    fn pthread_cond_signal(cond: *mut c_void) -> c_int;
    fn pthread_cond_broadcast(cond: *mut c_void) -> c_int;
}

/// The pointer to a C string, which ends with a zero.
fn c_string(text: &'static [u8]) -> *const c_char {
    debug_assert_eq!(text.last(), Some(&0));
    text.as_ptr().cast()
}

/// The function with this name, which ends with a zero, if any library of the program has it.
///
/// # Safety
/// F must be the type of a pointer to that function.
unsafe fn find<F: Copy>(name: &'static [u8]) -> Option<F> {
    assert_eq!(size_of::<F>(), size_of::<*mut c_void>());
    // SAFETY: null stands for all libraries, and the name is a C string.
    let found = unsafe { dlsym(null_mut(), c_string(name)) };
    // SAFETY: a pointer to a function has the same size, and is not null.
    (!found.is_null()).then(|| unsafe { transmute_copy(&found) })
}

fn find_machine() -> Option<Machine> {
    // SAFETY: each is the function with that name in `c/machine.h`, and the field has its type.
    unsafe {
        Some(Machine {
            begin: find(b"yak_explored_begin\0")?,
            decides: find(b"yak_explored_decides\0")?,
            queue: find(b"yak_explored_queue\0")?,
            call: find(b"yak_explored_call\0")?,
            transfer: find(b"yak_explored_transfer\0")?,
            also: find(b"yak_explored_also\0")?,
            gave: find(b"yak_explored_gave\0")?,
            moved: find(b"yak_explored_moved\0")?,
        })
    }
}

fn machine() -> Option<&'static Machine> {
    static FOUND: OnceLock<Option<Machine>> = OnceLock::new();
    FOUND.get_or_init(find_machine).as_ref()
}

/// Whether the machine is loaded into the program.
pub fn is_there() -> bool {
    machine().is_some()
}

/// Starts the machine with this thread, and returns once in each run. False if no machine was
/// waiting for this.
pub fn begin() -> bool {
    // SAFETY: it takes nothing.
    machine().is_some_and(|it| unsafe { (it.begin)() })
}

/// The machine, if it decides when this thread continues.
fn deciding() -> Option<&'static Machine> {
    // SAFETY: it takes nothing.
    machine().filter(|it| unsafe { (it.decides)() })
}

/// Whether the machine decides when this thread continues.
pub fn decides() -> bool {
    deciding().is_some()
}

/// Waits until a call on a queue or a name may be made. The word is one of `c/explore.h`, and ends
/// with a zero.
pub fn call(word: &'static [u8], queue: Option<&Queue>) {
    let at = queue.map_or(null(), |it| it.0.get().cast_const());
    if let Some(it) = deciding() {
        // SAFETY: the word is a C string, and the queue is borrowed or null.
        unsafe { (it.call)(c_string(word), at) }
    }
}

/// Reports what the call returned: the number of an error or 0, and a value that others can see.
pub fn gave(error: i32, value: u32) {
    if let Some(it) = deciding() {
        // SAFETY: all numbers are allowed.
        unsafe { (it.gave)(error, value) }
    }
}

impl Queue {
    /// Reports a new queue.
    pub fn new(name: &[u8], room: i64) -> Queue {
        let made = Queue::default();
        if let Some(it) = deciding() {
            // SAFETY: the name has `name.len()` bytes, and the queue is borrowed.
            unsafe { (it.queue)(made.0.get(), name.as_ptr(), name.len(), room) }
        }
        made
    }

    /// Waits until a send or a receive may be made, or its deadline has passed.
    pub fn transfer(&self, is_send: bool, priority: u32, flags: u32, until: Option<Moment>) {
        let at = until.as_ref().map_or(null(), |it| it as *const Moment);
        if let Some(it) = deciding() {
            // SAFETY: the queue and the moment, if there is one, are borrowed.
            unsafe { (it.transfer)(is_send, self.0.get(), priority, flags, at) }
        }
    }

    /// Reports that the current step also affected this queue.
    pub fn also(&self, word: &'static [u8]) {
        if let Some(it) = deciding() {
            // SAFETY: the word is a C string, and the queue is borrowed.
            unsafe { (it.also)(c_string(word), self.0.get()) }
        }
    }

    /// Reports the result of a send or a receive: the number of an error, or 0 and the message.
    pub fn moved(&self, is_send: bool, error: i32, bytes: &[u8]) {
        if let Some(it) = deciding() {
            // SAFETY: the queue is borrowed, and there are `bytes.len()` bytes.
            unsafe { (it.moved)(is_send, self.0.get(), error, bytes.as_ptr(), bytes.len()) }
        }
    }
}

/// A mutex of the C library, `pthread_mutex_t`.
#[derive(Debug)]
#[repr(C, align(16))]
pub struct Lock(UnsafeCell<[u64; 8]>);

// SAFETY: threads may share a lock.
unsafe impl Send for Lock {}
// SAFETY: the same.
unsafe impl Sync for Lock {}

impl Lock {
    pub const fn new() -> Lock {
        Lock(UnsafeCell::new([0; 8]))
    }

    fn at(&self) -> *mut c_void {
        self.0.get().cast()
    }

    pub fn lock(&self) {
        // SAFETY: the lock is borrowed.
        unsafe { pthread_mutex_lock(self.at()) };
    }

    pub fn try_lock(&self) -> bool {
        // SAFETY: the lock is borrowed.
        unsafe { pthread_mutex_trylock(self.at()) == 0 }
    }

    /// Unlocks it; this thread must hold it.
    pub fn unlock(&self) {
        // SAFETY: the lock is borrowed. If another thread held it, it would be free too early, but
        // what it guards also has a lock of its own.
        unsafe { pthread_mutex_unlock(self.at()) };
    }
}

/// A condition variable of the C library, `pthread_cond_t`.
#[derive(Debug)]
#[repr(C, align(16))]
pub struct Condition(UnsafeCell<[u64; 8]>);

// SAFETY: threads may share a condition.
unsafe impl Send for Condition {}
// SAFETY: the same.
unsafe impl Sync for Condition {}

impl Condition {
    pub const fn new() -> Condition {
        Condition(UnsafeCell::new([0; 8]))
    }

    fn at(&self) -> *mut c_void {
        self.0.get().cast()
    }

    /// Waits; this thread must hold the lock. Returns whether it was woken before the deadline.
    pub fn wait(&self, lock: &Lock, until: Option<Moment>) -> bool {
        match until {
            // SAFETY: the condition and the lock are borrowed.
            None => unsafe { pthread_cond_wait(self.at(), lock.at()) == 0 },
            // SAFETY: the same, and the moment lives through the call.
            Some(until) => unsafe { pthread_cond_timedwait(self.at(), lock.at(), &until) == 0 },
        }
    }

    pub fn wake_one(&self) {
        // SAFETY: the condition is borrowed.
        unsafe { pthread_cond_signal(self.at()) };
    }

    pub fn wake_all(&self) {
        // SAFETY: the condition is borrowed.
        unsafe { pthread_cond_broadcast(self.at()) };
    }
}
