//! The functions of the library, as `include/yakyrombe.h` declares them. All `unsafe` of the crate
//! is here, and in `machine` below.
//!
//! This is how the crate keeps the rules of the header:
//! - A [`Handle`] starts as zeros, its fields are private to this module, and it is neither `Clone`
//!   nor `Copy`.
//! - A handle is not `Sync`, so one thread at a time uses it, and no call of the library that takes
//!   a handle calls Rust. So there is one call at a time on it. Another thread gets it by a move,
//!   and what happened before a move happens before what comes after it.
//! - Each pointer comes from a reference or a slice that lives through the call, with that slice's
//!   length, and is never null. What is written is borrowed mutably, so it overlaps nothing else.
//!   The fields of a handle are reached only through a pointer to them.
#![allow(unsafe_code)]

#[cfg(feature = "model")]
pub mod machine;

use std::cell::UnsafeCell;
use std::ffi::c_void;
use std::ptr::null_mut;
use std::time::Duration;

/// The return codes other than the numbers of errors, which are 1 to 13.
pub mod answer {
    pub const DONE: u32 = 0;
    pub const TIMED_OUT: u32 = 12;
    pub const WAITS: u32 = 17;
    pub const WAITING: u32 = 19;
    pub const NOT_WAITING: u32 = 20;
    pub const SHORT: u32 = 21;
    pub const EARLY: u32 = 22;
    pub const NO_NOTICE: u32 = 23;
    pub const NO_ENTRY: u32 = 25;
    pub const UNSTORED: u32 = 27;
    pub const BAD_LINE: u32 = 29;
    pub const ILLEGAL: u32 = 30;
    pub const FOREIGN: u32 = 31;
}

/// What a system stores of its journal.
#[derive(Clone, Copy, Debug, Default, PartialEq, Eq)]
pub enum Storage {
    #[default]
    Nothing,
    /// Nothing, and an open allocates what later calls need.
    Prepaid,
    All,
    Bounded {
        entries: u64,
        bytes: u64,
    },
}

/// What a system that continues from a journal stores of it.
#[derive(Clone, Copy, Debug, PartialEq, Eq)]
pub enum Kept {
    Whole,
    /// A short equivalent journal.
    Short,
    Bounded {
        entries: u64,
        bytes: u64,
    },
}

impl Storage {
    pub fn is_stored(self) -> bool {
        matches!(self, Storage::All | Storage::Bounded { .. })
    }
}

/// `yak_opening`.
#[repr(C)]
#[derive(Clone, Copy, Debug, PartialEq, Eq, Hash)]
pub struct Opening {
    pub maxmsg: i64,
    pub msgsize: i64,
    pub access: u32,
    pub create: bool,
    pub exclusive: bool,
    pub nonblock: bool,
    pub limited: bool,
}

/// `yak_attributes`.
#[repr(C)]
#[derive(Default)]
pub struct Attributes {
    pub maxmsg: i64,
    pub msgsize: i64,
    pub curmsgs: i64,
    pub nonblock: bool,
}

/// `yak_message`.
#[repr(C)]
#[derive(Default)]
pub struct Message {
    pub len: usize,
    pub prio: u32,
}

/// `yak_room_left`.
#[repr(C)]
#[derive(Default)]
pub struct RoomLeft {
    pub entries: u64,
    pub bytes: u64,
}

/// `yak_moment`.
#[repr(C)]
#[derive(Clone, Copy, Debug, PartialEq, Eq, PartialOrd, Ord)]
pub struct Moment {
    pub sec: i64,
    pub nsec: i64,
}

/// `yak_clock`.
type Clock = unsafe extern "C" fn() -> Moment;

/// `yak_process`: a process as the library keeps it for its caller.
#[allow(dead_code)]
#[repr(C)]
struct Fields {
    at: *mut c_void,
    full: bool,
    answered: u32,
    number: u32,
    futex_words: *mut u64,
    apart: [u64; 12],
}

// The size that the library assumes.
const _: () = assert!(std::mem::size_of::<Fields>() == 128);

/// A process; empty before [`Handle::of_system`] and after its drop.
#[repr(transparent)]
pub struct Handle(UnsafeCell<Fields>);

// SAFETY: the header lets a handle pass from thread to thread if that is synchronized, as a move
// is. Nothing ties it to a thread.
unsafe impl Send for Handle {}

extern "C" {
    fn yak_new(processes: *mut Fields, count: usize) -> u32;
    fn yak_bounded(processes: *mut Fields, count: usize, entries: u64, bytes: u64) -> u32;
    fn yak_unstored(processes: *mut Fields, count: usize) -> u32;
    fn yak_prepaid(processes: *mut Fields, count: usize) -> u32;
    fn yak_resume(
        processes: *mut Fields,
        count: usize,
        journal: *const u8,
        len: usize,
        line: *mut u64,
    ) -> u32;
    fn yak_resume_bounded(
        processes: *mut Fields,
        count: usize,
        entries: u64,
        bytes: u64,
        journal: *const u8,
        len: usize,
        line: *mut u64,
    ) -> u32;
    fn yak_resume_short(
        processes: *mut Fields,
        count: usize,
        journal: *const u8,
        len: usize,
        line: *mut u64,
    ) -> u32;
    fn yak_finish(processes: *mut Fields, count: usize) -> u32;
    fn yak_free(process: *mut Fields) -> u32;
    fn yak_open(
        process: *mut Fields,
        name: *const u8,
        len: usize,
        opening: *const Opening,
        d: *mut u32,
    ) -> u32;
    fn yak_close(process: *mut Fields, d: u32) -> u32;
    fn yak_unlink(process: *mut Fields, name: *const u8, len: usize) -> u32;
    fn yak_notify(process: *mut Fields, d: u32, registers: bool, value: u64) -> u32;
    fn yak_next_notice(process: *mut Fields, value: *mut u64) -> u32;
    fn yak_getattr(process: *mut Fields, d: u32, attributes: *mut Attributes) -> u32;
    fn yak_setattr(process: *mut Fields, d: u32, nonblock: bool, before: *mut Attributes) -> u32;
    fn yak_exit(process: *mut Fields) -> u32;
    fn yak_send(process: *mut Fields, d: u32, bytes: *const u8, len: usize, prio: u32) -> u32;
    fn yak_receive(
        process: *mut Fields,
        d: u32,
        buf: *mut u8,
        len: usize,
        message: *mut Message,
    ) -> u32;
    fn yak_clock_send(
        process: *mut Fields,
        d: u32,
        bytes: *const u8,
        len: usize,
        prio: u32,
        until: *const Moment,
        clock: Clock,
    ) -> u32;
    fn yak_clock_receive(
        process: *mut Fields,
        d: u32,
        buf: *mut u8,
        len: usize,
        message: *mut Message,
        until: *const Moment,
        clock: Clock,
    ) -> u32;
    fn yak_start_timed_send(
        process: *mut Fields,
        d: u32,
        bytes: *const u8,
        len: usize,
        prio: u32,
        until: *const Moment,
        now: *const Moment,
    ) -> u32;
    fn yak_start_timed_receive(
        process: *mut Fields,
        d: u32,
        buf: *mut u8,
        len: usize,
        message: *mut Message,
        until: *const Moment,
        now: *const Moment,
    ) -> u32;
    fn yak_answered(process: *mut Fields) -> u32;
    fn yak_await_answered(process: *mut Fields, nanos: i64) -> u32;
    fn yak_time_has_moved(process: *const Fields);
    fn yak_collect(process: *mut Fields, buf: *mut u8, len: usize, message: *mut Message) -> u32;
    fn yak_end_wait(
        process: *mut Fields,
        buf: *mut u8,
        len: usize,
        message: *mut Message,
        now: *const Moment,
    ) -> u32;
    fn yak_monotonic_now() -> Moment;
    fn yak_errno(answer: u32) -> i32;
    fn yak_check(process: *mut Fields) -> u32;
    fn yak_entry(
        process: *mut Fields,
        place: u64,
        text: *mut u8,
        size: usize,
        len: *mut usize,
    ) -> u32;
    fn yak_room(process: *mut Fields, room: *mut RoomLeft) -> u32;
    fn yak_nobody_can_call(process: *mut Fields) -> u32;
}

impl Handle {
    const fn empty() -> Handle {
        Handle(UnsafeCell::new(Fields {
            at: null_mut(),
            full: false,
            answered: 0,
            number: 0,
            futex_words: null_mut(),
            apart: [0; 12],
        }))
    }

    /// `count` empty handles, and a pointer to the first. A handle is its fields and nothing else.
    fn some(count: usize) -> (Vec<Handle>, *mut Fields) {
        let mut handles = Vec::new();
        handles.resize_with(count, Handle::empty);
        let first = handles.as_mut_ptr().cast::<Fields>();
        (handles, first)
    }

    /// Handles of the processes of a new system, process 1 first, or the number of the error.
    pub fn of_system(count: usize, storage: Storage) -> Result<Vec<Handle>, u32> {
        let (handles, first) = Handle::some(count);
        let made = match storage {
            // SAFETY: `first` points to `count` handles, each empty. If `count` is 0, it is
            // dangling, aligned, and not used.
            Storage::Nothing => unsafe { yak_unstored(first, count) },
            // SAFETY: the same.
            Storage::Prepaid => unsafe { yak_prepaid(first, count) },
            // SAFETY: the same.
            Storage::All => unsafe { yak_new(first, count) },
            // SAFETY: the same.
            Storage::Bounded { entries, bytes } => unsafe {
                yak_bounded(first, count, entries, bytes)
            },
        };
        if made == answer::DONE {
            Ok(handles)
        } else {
            Err(made)
        }
    }

    /// The same for a system that continues from a journal; the error has its number and the line
    /// at fault.
    pub fn resumed(count: usize, journal: &[u8], kept: Kept) -> Result<Vec<Handle>, (u32, u64)> {
        let (handles, first) = Handle::some(count);
        let (text, len) = (journal.as_ptr(), journal.len());
        let mut line = 0;
        let made = match kept {
            // SAFETY: as in `of_system`; the text has `len` bytes, and `line` is borrowed.
            Kept::Whole => unsafe { yak_resume(first, count, text, len, &mut line) },
            // SAFETY: the same.
            Kept::Short => unsafe { yak_resume_short(first, count, text, len, &mut line) },
            // SAFETY: the same.
            Kept::Bounded { entries, bytes } => unsafe {
                yak_resume_bounded(first, count, entries, bytes, text, len, &mut line)
            },
        };
        if made == answer::DONE {
            Ok(handles)
        } else {
            Err((made, line))
        }
    }

    /// Empties all handles of one system, even if their processes have open waits.
    pub fn finish(mut handles: Vec<Handle>) {
        let (first, count) = (handles.as_mut_ptr().cast::<Fields>(), handles.len());
        // SAFETY: `first` points to `count` handles.
        unsafe { yak_finish(first, count) };
    }

    /// Whether the calls of a system that is made now are steps of an exploration.
    #[cfg(not(feature = "model"))]
    pub fn are_steps() -> bool {
        false
    }

    /// The number of its process, from 1.
    pub fn number(&self) -> u32 {
        // SAFETY: no other code writes the fields meanwhile.
        unsafe { (*self.0.get()).number }
    }

    /// The processes whose waits its last call answered: process p has bit p - 1.
    #[inline]
    pub fn answered_others(&self) -> u32 {
        // SAFETY: no other code writes the fields meanwhile.
        unsafe { (*self.0.get()).answered }
    }

    pub fn open(&self, name: &[u8], opening: &Opening, d: &mut u32) -> u32 {
        // SAFETY: `name` has `name.len()` bytes; all else points to what was borrowed.
        unsafe { yak_open(self.0.get(), name.as_ptr(), name.len(), opening, d) }
    }

    pub fn close(&self, d: u32) -> u32 {
        // SAFETY: any number is allowed as a descriptor.
        unsafe { yak_close(self.0.get(), d) }
    }

    pub fn unlink(&self, name: &[u8]) -> u32 {
        // SAFETY: `name` has `name.len()` bytes.
        unsafe { yak_unlink(self.0.get(), name.as_ptr(), name.len()) }
    }

    pub fn notify(&self, d: u32, notice: Option<u64>) -> u32 {
        // SAFETY: any numbers are allowed as a descriptor and a value.
        unsafe { yak_notify(self.0.get(), d, notice.is_some(), notice.unwrap_or(0)) }
    }

    pub fn next_notice(&self, value: &mut u64) -> u32 {
        // SAFETY: `value` was borrowed.
        unsafe { yak_next_notice(self.0.get(), value) }
    }

    pub fn getattr(&self, d: u32, attributes: &mut Attributes) -> u32 {
        // SAFETY: `attributes` was borrowed.
        unsafe { yak_getattr(self.0.get(), d, attributes) }
    }

    /// Like `getattr`, for the limits only.
    pub fn limits(&self, d: u32, attributes: &mut Attributes) -> u32 {
        self.getattr(d, attributes)
    }

    pub fn setattr(&self, d: u32, nonblock: bool, before: &mut Attributes) -> u32 {
        // SAFETY: `before` was borrowed.
        unsafe { yak_setattr(self.0.get(), d, nonblock, before) }
    }

    pub fn exit(&self) -> u32 {
        // SAFETY: the handle was borrowed.
        unsafe { yak_exit(self.0.get()) }
    }

    #[inline]
    pub fn send(&self, d: u32, bytes: &[u8], prio: u32) -> u32 {
        // SAFETY: `bytes` has `bytes.len()` bytes.
        unsafe { yak_send(self.0.get(), d, bytes.as_ptr(), bytes.len(), prio) }
    }

    #[inline]
    pub fn receive(&self, d: u32, buf: &mut [u8], message: &mut Message) -> u32 {
        // SAFETY: `buf` has `buf.len()` bytes, and no other borrow overlaps it. If it is empty, the
        // pointer is dangling, but not null.
        unsafe { yak_receive(self.0.get(), d, buf.as_mut_ptr(), buf.len(), message) }
    }

    /// Waits until a moment of the monotonic clock.
    pub fn send_until(&self, d: u32, bytes: &[u8], prio: u32, until: Moment) -> u32 {
        // SAFETY: `bytes` has `bytes.len()` bytes, and the moment lives through the call.
        unsafe {
            yak_clock_send(
                self.0.get(),
                d,
                bytes.as_ptr(),
                bytes.len(),
                prio,
                &until,
                yak_monotonic_now,
            )
        }
    }

    /// Waits until a moment of the monotonic clock.
    pub fn receive_until(
        &self,
        d: u32,
        buf: &mut [u8],
        message: &mut Message,
        until: Moment,
    ) -> u32 {
        // SAFETY: as for `receive`, and the moment lives through the call.
        unsafe {
            yak_clock_receive(
                self.0.get(),
                d,
                buf.as_mut_ptr(),
                buf.len(),
                message,
                &until,
                yak_monotonic_now,
            )
        }
    }

    /// Does not wait for room in the queue: if it would, it returns `WAITS`, and the process has an
    /// open wait.
    pub fn start_send(&self, d: u32, bytes: &[u8], prio: u32, until: Moment, now: Moment) -> u32 {
        // SAFETY: `bytes` has `bytes.len()` bytes, and the moments live through the call.
        unsafe {
            yak_start_timed_send(self.0.get(), d, bytes.as_ptr(), bytes.len(), prio, &until, &now)
        }
    }

    /// Does not wait for a message, like `start_send`.
    pub fn start_receive(
        &self,
        d: u32,
        buf: &mut [u8],
        message: &mut Message,
        until: Moment,
        now: Moment,
    ) -> u32 {
        // SAFETY: as for `receive`, and the moments live through the call.
        unsafe {
            yak_start_timed_receive(
                self.0.get(),
                d,
                buf.as_mut_ptr(),
                buf.len(),
                message,
                &until,
                &now,
            )
        }
    }

    /// Whether the open wait is answered, by one load.
    #[inline]
    pub fn is_answered(&self) -> bool {
        // SAFETY: the handle was borrowed.
        unsafe { yak_answered(self.0.get()) == answer::DONE }
    }

    /// Sleeps until the open wait is answered, for at most `most`.
    pub fn await_answered(&self, most: Duration) -> bool {
        let nanos = i64::try_from(most.as_nanos()).unwrap_or(i64::MAX);
        // SAFETY: the handle was borrowed.
        unsafe { yak_await_answered(self.0.get(), nanos) == answer::DONE }
    }

    /// Wakes the calls of the system that wait by a clock of the program.
    pub fn time_has_moved(&self) {
        // SAFETY: the handle was borrowed.
        unsafe { yak_time_has_moved(self.0.get()) }
    }

    pub fn collect(&self, buf: &mut [u8], message: &mut Message) -> u32 {
        // SAFETY: as for `receive`.
        unsafe { yak_collect(self.0.get(), buf.as_mut_ptr(), buf.len(), message) }
    }

    pub fn end_wait(&self, buf: &mut [u8], message: &mut Message, now: Moment) -> u32 {
        // SAFETY: as for `receive`, and the moment lives through the call.
        unsafe { yak_end_wait(self.0.get(), buf.as_mut_ptr(), buf.len(), message, &now) }
    }

    pub fn check(&self) -> u32 {
        // SAFETY: the handle was borrowed.
        unsafe { yak_check(self.0.get()) }
    }

    pub fn entry(&self, place: u64, text: &mut [u8], len: &mut usize) -> u32 {
        // SAFETY: `text` has `text.len()` bytes, and no other borrow overlaps it. If it is empty,
        // the pointer is dangling, but not null.
        unsafe { yak_entry(self.0.get(), place, text.as_mut_ptr(), text.len(), len) }
    }

    pub fn room(&self, room: &mut RoomLeft) -> u32 {
        // SAFETY: `room` was borrowed.
        unsafe { yak_room(self.0.get(), room) }
    }

    pub fn nobody_can_call(&self) -> u32 {
        // SAFETY: the handle was borrowed.
        unsafe { yak_nobody_can_call(self.0.get()) }
    }
}

impl Drop for Handle {
    fn drop(&mut self) {
        // A `Process` ends its wait before it is dropped, except one without a deadline, from a
        // journal. Then the library refuses to free it, and `yak_finish` ends it.
        // SAFETY: the handle was borrowed, and an empty one stays unchanged.
        unsafe {
            if yak_free(self.0.get()) == answer::WAITING {
                yak_finish(self.0.get(), 1);
            }
        }
    }
}

/// The number in `errno.h` of this system for what a call returned.
pub fn errno_of(answer: u32) -> i32 {
    // SAFETY: any number may be an answer.
    unsafe { yak_errno(answer) }
}

impl Moment {
    /// The last moment that there is.
    pub const LAST: Moment = Moment { sec: i64::MAX, nsec: 999_999_999 };

    /// The moment now, by the monotonic clock.
    pub fn now() -> Moment {
        // SAFETY: the clock takes nothing.
        unsafe { yak_monotonic_now() }
    }

    /// The moment this long after the origin of a clock, or the last one that there is.
    pub fn since_origin(time: Duration) -> Moment {
        match i64::try_from(time.as_secs()) {
            Ok(sec) => Moment { sec, nsec: i64::from(time.subsec_nanos()) },
            Err(_) => Moment::LAST,
        }
    }

    /// The time since the origin of its clock.
    pub fn time(self) -> Duration {
        Duration::new(u64::try_from(self.sec).unwrap_or(0), u32::try_from(self.nsec).unwrap_or(0))
    }
}
