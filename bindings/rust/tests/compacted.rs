//! A compacted journal is as short as the state allows: after random calls it has at most the
//! entries that recreate the notices, queues, messages, descriptors, registrations and waits.

use std::collections::HashMap;
use std::rc::Rc;
use yakyrombe::{Journal, OpenOptions, Process, Queue, System};

const PROCESSES: usize = 5;
const JOURNALS: u64 = 2_000;
const CALLS: u32 = 60;

/// Pseudo-random numbers from a seed.
struct Random(u64);

impl Random {
    fn below(&mut self, bound: u64) -> usize {
        self.0 =
            self.0.wrapping_mul(6_364_136_223_846_793_005).wrapping_add(1_442_695_040_888_963_407);
        usize::try_from((self.0 >> 33) % bound).unwrap()
    }
}

/// A process with the queues that it has open.
struct Caller {
    process: Rc<Process>,
    queues: Vec<Queue<Rc<Process>>>,
}

impl Caller {
    /// Makes a random call, and ignores its result.
    fn call(&mut self, random: &mut Random) {
        let name = ["/a", "/b", "/c"][random.below(3)];
        let options = OpenOptions::read_write().create().limits(1 + random.below(3), 8);
        let at = random.below(1 + self.queues.len() as u64);
        match (random.below(12), self.queues.get(at)) {
            (0, _) => _ = self.process.unlink(name),
            (1, _) => _ = self.process.next_notice(),
            (2, Some(_)) => _ = self.queues.remove(at).close(),
            (3, Some(queue)) => _ = queue.notify(9),
            (4..=6, Some(queue)) => _ = queue.start_send(b"message", 0),
            (7..=9, Some(queue)) => _ = queue.start_receive(&mut [0; 8]),
            (10, Some(queue)) => _ = queue.try_receive(&mut [0; 8]),
            _ => self.queues.extend(Queue::open(Rc::clone(&self.process), name, options)),
        }
        self.collect();
    }

    /// Ends the open wait if it is answered.
    fn collect(&self) {
        for queue in &self.queues {
            _ = (queue.collect_send(), queue.collect_receive(&mut [0; 8]));
        }
    }
}

/// What a process has.
#[derive(Default)]
struct Owner {
    held: HashMap<usize, usize>,
    notices: usize,
    wait: Option<(usize, usize)>,
}

/// The state after the calls of a journal; the sequence number of its creation identifies a queue.
#[derive(Default)]
struct Found {
    owners: Vec<Owner>,
    names: HashMap<String, usize>,
    messages: HashMap<usize, Vec<usize>>,
    registered: HashMap<usize, (usize, usize)>,
}

impl Found {
    fn note(&mut self, line: &str) {
        let words: Vec<&str> = line.split(' ').collect();
        let number = |at: usize| words.get(at).and_then(|word| word.parse::<usize>().ok());
        let after = |label: &str| number(words.iter().position(|it| *it == label)? + 1);
        let (place, p) = (number(0).unwrap(), number(1).unwrap() - 1);
        let arrow = words.iter().position(|it| *it == "->").unwrap();
        let quoted = words[arrow - 1].to_owned();
        let queue = number(3).and_then(|d| self.owners[p].held.get(&d).copied());
        match (words[2], words[arrow + 1]) {
            ("open", "fd") => {
                let q = *self.names.entry(quoted).or_insert(place);
                self.messages.entry(q).or_default();
                self.owners[p].held.insert(number(arrow + 2).unwrap(), q);
            }
            ("close", "ok") => {
                let d = number(3).unwrap();
                let q = self.owners[p].held.remove(&d).unwrap();
                self.registered.retain(|_, by| *by != (p, d));
                self.drop_unused(q);
            }
            ("unlink", "ok") => {
                let q = self.names.remove(&quoted).unwrap();
                self.drop_unused(q);
            }
            ("notify", "ok") => {
                _ = self.registered.insert(queue.unwrap(), (p, number(3).unwrap()));
            }
            ("notice", _) if words[arrow + 2] != "none" => self.owners[p].notices -= 1,
            (_, "queued") => self.messages.get_mut(&queue.unwrap()).unwrap().push(place),
            (_, "got") => {
                let (got, q) = (number(arrow + 2).unwrap(), queue.unwrap());
                self.messages.get_mut(&q).unwrap().retain(|sent| *sent != got);
                self.messages.get_mut(&q).unwrap().extend(after("admitted"));
            }
            (_, "waits") => self.owners[p].wait = Some((place, queue.unwrap())),
            (_, "collected" | "withdrawn") => self.owners[p].wait = None,
            _ => {}
        }
        if after("notified").is_some() {
            let (by, _) = self.registered.remove(&queue.unwrap()).unwrap();
            self.owners[by].notices += 1;
        }
    }

    fn drop_unused(&mut self, q: usize) {
        let is_named = self.names.values().any(|it| *it == q);
        if !is_named && !self.owners.iter().any(|owner| owner.held.values().any(|it| *it == q)) {
            self.messages.remove(&q);
        }
    }

    /// How many entries at most recreate the state.
    fn most_entries(&self) -> usize {
        let told = self.owners.iter().filter(|owner| owner.notices > 0).count();
        let notices: usize = self.owners.iter().map(|owner| owner.notices).sum();
        let descriptors =
            |owner: &Owner| owner.held.keys().max().map_or(0, |top| 2 * top + 2 - owner.held.len());
        let full = self.messages.values().filter(|sent| !sent.is_empty()).count();
        3 * notices
            + 2 * told
            + 1
            + 2 * self.messages.len()
            + 2 * full
            + self.messages.values().map(Vec::len).sum::<usize>()
            + self.owners.iter().map(descriptors).sum::<usize>()
            + self.registered.len()
            + (self.messages.len() - self.names.len())
            + self.owners.iter().filter(|owner| owner.wait.is_some()).count()
    }
}

fn random_journal(seed: u64) -> Journal {
    let mut random = Random(seed);
    let (_, processes) = System::builder().processes(PROCESSES).journal(true).build().unwrap();
    let mut callers: Vec<Caller> = processes
        .into_iter()
        .map(|process| Caller { process: Rc::new(process), queues: Vec::new() })
        .collect();
    for _ in 0..CALLS {
        let p = random.below(PROCESSES as u64);
        callers[p].call(&mut random);
    }
    for caller in &callers {
        caller.collect();
    }
    callers[0].process.journal().unwrap()
}

#[test]
fn a_short_journal_is_short() {
    let (mut entries, mut most, mut waits) = (0, 0, 0);
    for seed in 0..JOURNALS {
        let journal = random_journal(seed);
        let short = journal.compacted().unwrap();
        let mut found = Found::default();
        found.owners.resize_with(PROCESSES, Owner::default);
        journal.lines().for_each(|line| found.note(line));
        let bound = found.most_entries();
        assert!(short.lines().count() <= bound, "{bound} of seed {seed}:\n{journal}\n{short}");
        entries += short.lines().count();
        most += bound;
        waits += found.owners.iter().filter(|owner| owner.wait.is_some()).count();
    }
    // The bound is close, and the states were not trivial.
    assert!(
        most < 2 * entries && entries > 10 * 2_000 && waits > 2_000,
        "{entries} of {most}, {waits}"
    );
}
