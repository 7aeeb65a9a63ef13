//! The journal of a system as text, and what a system that continues from one finds.

use crate::error::{Error, ResumeError};
use crate::process::{done, OpenWait};
use crate::raw::{answer, Kept, Moment};
use crate::system::MOST_PROCESSES;
use crate::time::Limit;
use crate::Handle;
use std::fmt;

/// The journal of a system as text: one line for each entry, the oldest first.
///
/// ```
/// use yakyrombe::{OpenOptions, System};
///
/// # fn main() -> Result<(), yakyrombe::Error> {
/// let (_, [process]) = System::builder().journal(true).build_array()?;
/// let queue = process.open("/q", OpenOptions::write().create())?;
/// queue.close()?;
/// assert_eq!(
///     process.journal()?.lines().collect::<Vec<_>>(),
///     ["0 1 open wc \"/q\" -> fd 0 created", "1 1 close 0 -> ok"]
/// );
/// # Ok(())
/// # }
/// ```
///
/// [`From`] converts a text without checking it; [`System::resume`](crate::System::resume) and
/// [`compacted`](Journal::compacted) check it.
#[derive(Clone, Debug, Default, PartialEq, Eq, PartialOrd, Ord, Hash)]
pub struct Journal(String);

impl Journal {
    /// The text, which `mqlog check` and `mqlog draw` read.
    #[must_use]
    pub fn as_str(&self) -> &str {
        &self.0
    }

    /// The lines of the entries, such as `0 1 open bc "/q" -> fd 0 created`.
    pub fn lines(&self) -> std::str::Lines<'_> {
        self.0.lines()
    }

    /// A short journal after which the same calls have the same results. Its length depends on the
    /// state at the end, not on the number of calls.
    ///
    /// If an answered wait is not yet collected, the result is this journal unchanged.
    ///
    /// ```
    /// use yakyrombe::{OpenOptions, System};
    ///
    /// # fn main() -> Result<(), yakyrombe::Error> {
    /// let (_, [process]) = System::builder().journal(true).build_array()?;
    /// let queue = process.open("/q", OpenOptions::read_write().create().limits(2, 8))?;
    /// for number in 0..100_u8 {
    ///     queue.send(&[number], 0)?;
    ///     queue.receive(&mut [0; 8])?;
    /// }
    /// let journal = process.journal()?;
    /// assert_eq!(journal.lines().count(), 201);
    /// assert_eq!(journal.compacted()?.lines().count(), 3);
    /// # Ok(())
    /// # }
    /// ```
    ///
    /// # Errors
    /// The line at fault, if the journal is not legal; [`NoMemory`](Error::NoMemory).
    pub fn compacted(&self) -> Result<Journal, ResumeError> {
        let handles = Handle::resumed(MOST_PROCESSES, self.0.as_bytes(), Kept::Short)
            .map_err(|(answer, line)| ResumeError::of_answer(answer, line))?;
        let short = text_of(&handles[0]);
        Handle::finish(handles);
        Ok(short?)
    }

    /// The greatest process number of any entry; 0 if there are no entries.
    pub(crate) fn process_count(&self) -> usize {
        let process_of = |line: &str| line.split(' ').nth(1)?.parse().ok();
        self.lines().filter_map(process_of).max().unwrap_or(0)
    }

    /// What each of `count` processes has after the calls of the journal, which must be legal.
    pub(crate) fn left(&self, count: usize) -> Vec<Left> {
        let mut left = vec![Left::default(); count];
        for line in self.lines() {
            let words: Vec<&str> = line.split(' ').collect();
            let process = words.get(1).and_then(|word| word.parse::<usize>().ok());
            if let Some(left) = process.and_then(|number| left.get_mut(number.wrapping_sub(1))) {
                left.note(&words);
            }
        }
        left
    }
}

/// What a process has when a system continues from a journal.
#[derive(Clone, Copy, Default)]
pub(crate) struct Left {
    /// Its descriptors, as bits.
    pub held: u32,
    pub wait: Option<OpenWait>,
}

impl Left {
    /// Applies an entry of the process whose line has these words.
    fn note(&mut self, words: &[&str]) {
        let number = |at: usize| words.get(at).and_then(|word| word.parse::<u32>().ok());
        let (call, reply) = match words.iter().position(|word| *word == "->") {
            Some(arrow) if words.len() > arrow + 1 => (words[2], arrow + 1),
            _ => return,
        };
        self.wait = None;
        match (call, words[reply]) {
            ("open", "fd") => self.held |= number(reply + 1).map_or(0, bit),
            ("close", "ok") => self.held &= !number(3).map_or(0, bit),
            (_, "waits") => self.wait = number(3).map(|d| wait_of(d, words)),
            _ => {}
        }
    }
}

fn bit(d: u32) -> u32 {
    1_u32.checked_shl(d).unwrap_or(0)
}

/// The open wait of a send or a receive whose line has these words.
fn wait_of(d: u32, words: &[&str]) -> OpenWait {
    let is_send = matches!(words[2], "send" | "tsend");
    let len = if is_send { 0 } else { words.get(4).and_then(|it| it.parse().ok()).unwrap_or(0) };
    let integer = |at: usize| words.get(at).and_then(|it| it.parse::<i64>().ok());
    let limit = words.iter().position(|word| *word == "until").and_then(|at| {
        let until = Moment { sec: integer(at + 1)?, nsec: integer(at + 2)? };
        // `Moment::LAST` stands for no deadline.
        (until != Moment::LAST).then_some(Limit { until, is_real: false })
    });
    OpenWait { d, is_send, len, limit }
}

/// The journal of the system of a handle, up to the last entry at the moment of the last read.
pub(crate) fn text_of(handle: &Handle) -> Result<Journal, Error> {
    let mut text = Vec::new();
    let mut place = 0;
    while push_entry(handle, place, &mut text)? {
        place += 1;
    }
    Ok(Journal(string_of(text)))
}

/// Appends the line of an entry to the text; false if there is no such entry.
pub(crate) fn push_entry(handle: &Handle, place: u64, text: &mut Vec<u8>) -> Result<bool, Error> {
    let front = text.len();
    let mut len = 64;
    loop {
        text.try_reserve(len).map_err(|_| Error::NoMemory)?;
        text.resize(front + len, 0);
        let answer = handle.entry(place, &mut text[front..], &mut len);
        text.truncate(front + len);
        match answer {
            answer::SHORT => {}
            answer::NO_ENTRY => {
                text.truncate(front);
                return Ok(false);
            }
            answer => return done(answer).map(|()| true),
        }
    }
}

pub(crate) fn string_of(line: Vec<u8>) -> String {
    String::from_utf8(line).expect("the text of a journal is ASCII")
}

impl AsRef<str> for Journal {
    fn as_ref(&self) -> &str {
        &self.0
    }
}

impl From<Journal> for String {
    fn from(journal: Journal) -> String {
        journal.0
    }
}

impl From<String> for Journal {
    fn from(text: String) -> Journal {
        Journal(text)
    }
}

impl From<&str> for Journal {
    fn from(text: &str) -> Journal {
        Journal(text.to_owned())
    }
}

impl fmt::Display for Journal {
    fn fmt(&self, to: &mut fmt::Formatter<'_>) -> fmt::Result {
        to.write_str(&self.0)
    }
}
