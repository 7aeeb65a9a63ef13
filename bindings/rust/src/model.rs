//! Runs a test under every order of its threads' steps.

use crate::raw::machine;
use std::cell::Cell;
use std::env;
use std::ffi::OsString;
use std::panic::{self, AssertUnwindSafe};
use std::path::{Path, PathBuf};
use std::process::{exit, Command, Output, Stdio};
use std::thread;

/// The variable that says which model of a test to run, in the runs that `yak-explore` makes.
const WHICH: &str = "YAK_MODEL";
/// The variable that names the path of `yak-explore`.
const EXPLORER: &str = "YAKYROMBE_EXPLORER";
/// The exit status of a run in which the closure panicked.
const PANICKED: i32 = 101;

/// Runs the closure under every order of its threads' steps that can matter, like [`Model::check`]
/// without options.
///
/// ```no_run
/// use yakyrombe::{model, thread, OpenOptions, System};
///
/// // #[test]
/// fn takes_turns() {
///     model(|| {
///         let options = OpenOptions::read_write().create().limits(1, 8);
///         let (_, [here, there]) = System::builder().build_array().unwrap();
///         let (purse, hers) = (here.open("/purse", options).unwrap(), there);
///         purse.send(&[1], 0).unwrap();
///         let other = thread::spawn(move || {
///             let purse = hers.open("/purse", options).unwrap();
///             let held = purse.receive_vec().unwrap();
///             purse.send(&[held[0] + 1], 0).unwrap();
///         });
///         let held = purse.receive_vec().unwrap();
///         purse.send(&[held[0] + 1], 0).unwrap();
///         other.join().unwrap();
///         assert_eq!(purse.receive_vec().unwrap()[0], 3);
///     });
/// }
/// ```
///
/// # Panics
/// As `Model::check`.
pub fn model(run: impl FnOnce()) {
    Model::new().check(run);
}

/// How a closure is explored.
#[derive(Clone, Debug)]
#[must_use]
pub struct Model {
    options: Vec<String>,
    may_leave_out: bool,
}

impl Default for Model {
    fn default() -> Model {
        Model::new()
    }
}

thread_local! {
    /// How many models the test of this thread has reached.
    static MODELS: Cell<usize> = const { Cell::new(0) };
}

impl Model {
    /// Every order that can matter, in at most 100,000 runs.
    pub fn new() -> Model {
        Model { options: vec!["--stop".into()], may_leave_out: false }
    }

    /// Makes at most this many runs.
    pub fn runs(self, most: u64) -> Model {
        self.option("--budget", &most.to_string())
    }

    /// Explores for at most this many seconds.
    pub fn seconds(self, most: u64) -> Model {
        self.option("--seconds", &most.to_string())
    }

    /// A deadline passes only if no thread can run. Without this option, it may pass at any moment.
    pub fn deadlines_last(self) -> Model {
        self.option("--time", "last")
    }

    /// Does not panic if some orders are left out, because the runs or the seconds are used up, or
    /// because the closure shares data that an exploration does not see.
    pub fn may_leave_out(mut self) -> Model {
        self.may_leave_out = true;
        self
    }

    fn option(mut self, name: &str, value: &str) -> Model {
        self.options.extend([name.into(), value.into()]);
        self
    }

    /// Runs the closure repeatedly, each time under another order of its threads' steps, until
    /// every order that can matter has been tried.
    ///
    /// For that, `yak-explore` runs the test's own executable, for this test only. It is the file
    /// that `YAKYROMBE_EXPLORER` names, or the one next to the library of the crate, or the one on
    /// the `PATH`. Each run repeats what the test does before this call, and not what follows it.
    ///
    /// Steps are the calls on queues, those of [`sync`](crate::sync), and starts, ends, joins,
    /// parks and sleeps of threads. The closure makes its systems itself.
    /// [Waits in two parts](crate::Queue#waits-in-two-parts), futures and a
    /// [`Clock`](crate::Clock) panic in it. Reads of a journal are not steps.
    ///
    /// To see a failing run as a page, store the journal ([`Builder::journal`]) and let the closure
    /// write it to a file before it fails. Then repeat the run by the command that the failure
    /// names: `mqlog view run.journal > page.html` shows each call with the state before and after.
    ///
    /// ```no_run
    /// use std::fs;
    /// use yakyrombe::{Model, OpenOptions, System};
    ///
    /// Model::new().check(|| {
    ///     let (_, [process]) = System::builder().journal(true).build_array().unwrap();
    ///     let queue = process.open("/q", OpenOptions::read_write().create()).unwrap();
    ///     // More calls, in this thread and others.
    ///     fs::write("run.journal", process.journal().unwrap().as_str()).unwrap();
    ///     assert_eq!(queue.attr().unwrap().curmsgs, 0);
    /// });
    /// ```
    ///
    /// [`Builder::journal`]: crate::Builder::journal
    ///
    /// # Panics
    /// If the closure panics, deadlocks or crashes in some order: the message has the schedule and
    /// the command that repeats it. If some orders were left out. If `yak-explore` can't be run.
    pub fn check(&self, run: impl FnOnce()) {
        let place = MODELS.with(|it| it.replace(it.get() + 1));
        match env::var(WHICH) {
            Ok(wanted) if machine::is_there() => {
                if wanted == place.to_string() {
                    run_once(run);
                }
            }
            _ => self.explore(place),
        }
    }

    fn explore(&self, place: usize) {
        let explorer = find_explorer();
        let ran = Command::new(&explorer)
            .args(&self.options)
            .arg(env::current_exe().expect("the executable has a name"))
            .args(own_arguments())
            .env(WHICH, place.to_string())
            .stdin(Stdio::null())
            .output();
        match ran {
            Ok(output) => self.judge(&output, place),
            Err(error) => panic!(
                "a model needs yak-explore, and {} can't be run ({error}): install Yakyrombe, or \
                 name it by {EXPLORER}",
                explorer.display()
            ),
        }
    }

    fn judge(&self, output: &Output, place: usize) {
        let report = String::from_utf8_lossy(&output.stdout);
        let last = report.lines().last().unwrap_or_default();
        let is_well = match output.status.code() {
            // The test itself never reached this model.
            Some(0) => !last.contains("ended before its first thread"),
            Some(6) => self.may_leave_out,
            _ => false,
        };
        if is_well {
            println!("{last}");
            return;
        }
        match first_failure(&report, place) {
            Some(failure) => panic!("{failure}{last}"),
            None => panic!("{last}{}", String::from_utf8_lossy(&output.stderr)),
        }
    }
}

/// Makes one run of the closure, and ends the program.
fn run_once(run: impl FnOnce()) -> ! {
    // The report leaves out the number of the thread, which differs from run to run.
    panic::set_hook(Box::new(|info| {
        eprintln!("thread '{}' {info}", thread::current().name().unwrap_or("without a name"));
    }));
    assert!(machine::begin(), "a model begins in a model");
    let panicked = panic::catch_unwind(AssertUnwindSafe(run)).is_err();
    exit(if panicked { PANICKED } else { 0 })
}

/// The arguments with which the executable reaches this model again: the name of the test, or its
/// own arguments.
fn own_arguments() -> Vec<OsString> {
    match thread::current().name() {
        Some(test) if test != "main" => [test, "--exact", "--nocapture", "--quiet"]
            .into_iter()
            .chain(["--include-ignored", "--test-threads=1"])
            .map(OsString::from)
            .collect(),
        _ => env::args_os().skip(1).collect(),
    }
}

fn find_explorer() -> PathBuf {
    let folder = Path::new(env!("YAKYROMBE_FOLDER"));
    let near = [folder.join("yak-explore"), folder.join("../bin/yak-explore")];
    env::var_os(EXPLORER)
        .map(PathBuf::from)
        .or_else(|| near.into_iter().find(|it| it.is_file()))
        .unwrap_or_else(|| "yak-explore".into())
}

/// The first failure of a report, with the command that repeats it in a shell.
fn first_failure(report: &str, place: usize) -> Option<String> {
    let mut lines = report.lines().skip_while(|line| !line.starts_with("failure: "));
    let mut kept = vec![lines.next()?.to_string()];
    for line in lines {
        if let Some(command) = line.strip_prefix("  repeat it: ") {
            kept.push(format!("  repeat it: {WHICH}={place} {command}\n"));
            break;
        }
        // The test harness prints that before the run.
        if !line.trim().is_empty() && line.trim() != "running 1 test" {
            kept.push(line.to_string());
        }
    }
    Some(kept.join("\n"))
}
