//! Calls of both implementations, compared in what they return and in every byte of every buffer, and counted.

use crate::library::{self, Lent, Program};
use second::entries::{self, Answer};
use second::report;
use std::fmt::Write;
use std::sync::atomic::{AtomicU64, Ordering};

/// After so many disagreements a group says no more about further ones.
const SHOWN: usize = 3;

#[derive(Default)]
pub struct Tally {
    /// Buffers are allocations of their own, without guards.
    pub exact: bool,
    pub checks: u64,
    pub wrong: u64,
    /// How often each number came back; 0 is success.
    pub numbers: [u64; 16],
    shown: Vec<String>,
}

impl Tally {
    pub fn new(exact: bool) -> Tally {
        Tally { exact, ..Tally::default() }
    }

    fn guard(&self) -> usize {
        if self.exact {
            0
        } else {
            32 + (self.checks % 8) as usize
        }
    }

    /// Counts a check and, if it failed, keeps what it has to say.
    pub fn check(&mut self, holds: bool, say: impl FnOnce() -> String) {
        self.checks += 1;
        if !holds {
            self.wrong += 1;
            if self.shown.len() < SHOWN {
                self.shown.push(say());
            }
        }
    }

    /// List to message by both; the answer and the message buffer afterwards, as the library gave them.
    pub fn sketch(&mut self, plan: u32, list: &[u8], buffer: &[u8]) -> (Answer, Vec<u8>) {
        let guard = self.guard();
        let (lent_list, mut lent_buffer) = (Lent::new(list, guard), Lent::new(buffer, guard));
        let given = library::sketch(plan, &lent_list, &mut lent_buffer);

        let mut after = buffer.to_vec();
        let due = entries::sketch_entry(plan, list, &mut after);
        let same = given == due && lent_list == Lent::new(list, guard) && lent_buffer == Lent::new(&after, guard);
        self.check(same, || {
            let call = format!("sketch: plan {plan}, list {}, message buffer {}", hex(list), hex(buffer));
            told(&call, given, due, &[("list", &lent_list, list), ("message", &lent_buffer, &after)])
        });
        self.count(given);
        (Answer::of(given), lent_buffer.contents().to_vec())
    }

    /// Message and home to two lists by both; the answer and the two buffers afterwards, as the library gave them.
    pub fn reconcile(&mut self, message: &[u8], home: &[u8], theirs: &[u8], ours: &[u8]) -> (Answer, Vec<u8>, Vec<u8>) {
        let guard = self.guard();
        let lent = |contents: &[u8]| Lent::new(contents, guard);
        let (lent_message, lent_home, mut lent_theirs, mut lent_ours) = (lent(message), lent(home), lent(theirs), lent(ours));
        let given = library::reconcile(&lent_message, &lent_home, &mut lent_theirs, &mut lent_ours);

        let (mut theirs_after, mut ours_after) = (theirs.to_vec(), ours.to_vec());
        let due = entries::reconcile_entry(message, home, &mut theirs_after, &mut ours_after);
        let same = given == due
            && lent_message == lent(message)
            && lent_home == lent(home)
            && lent_theirs == lent(&theirs_after)
            && lent_ours == lent(&ours_after);
        self.check(same, || {
            let call = format!("reconcile: message {}, home {}, theirs buffer {}, ours buffer {}", hex(message), hex(home), hex(theirs), hex(ours));
            let buffers = [("message", &lent_message, message), ("home", &lent_home, home), ("theirs", &lent_theirs, &theirs_after[..]), ("ours", &lent_ours, &ours_after[..])];
            told(&call, given, due, &buffers)
        });
        self.count(given);
        (Answer::of(given), lent_theirs.contents().to_vec(), lent_ours.contents().to_vec())
    }

    /// The report by the program and by the second implementation; what the latter says.
    pub fn report(&mut self, program: &Program, input: &[u8], piece: usize) -> String {
        let due = report::report(input);
        let given = program.run(input, piece);
        self.check(given.as_deref() == Ok(due.as_bytes()), || {
            let given = given.map(|text| String::from_utf8_lossy(&text).into_owned());
            format!("report of {:?}\n  the program: {given:?}\n  due: {due:?}", String::from_utf8_lossy(input))
        });
        due
    }

    fn count(&mut self, packed: u64) {
        self.numbers[(packed & 15) as usize] += 1;
    }

    pub fn add(&mut self, other: Tally) {
        self.checks += other.checks;
        self.wrong += other.wrong;
        for (sum, more) in self.numbers.iter_mut().zip(other.numbers) {
            *sum += more;
        }
        self.shown.extend(other.shown);
        self.shown.truncate(SHOWN);
    }

    /// Prints a group's line, after what it has to say of disagreements; true if there were none.
    pub fn close(self, group: &str) -> bool {
        self.shown.iter().for_each(|text| println!("{text}"));
        let mut line = format!("{group}: {} checks, {} disagreements", self.checks, self.wrong);
        if self.numbers.iter().any(|&n| n > 0) {
            let refusals: Vec<String> = (1..16).filter(|&n| self.numbers[n] > 0).map(|n| format!("{n}: {}", self.numbers[n])).collect();
            write!(line, " (answers {}; refusals {})", self.numbers[0], if refusals.is_empty() { "none".into() } else { refusals.join(", ") }).unwrap();
        }
        println!("{line}");
        self.wrong == 0
    }
}

pub fn hex(bytes: &[u8]) -> String {
    let digits: String = bytes.iter().map(|byte| format!("{byte:02x}")).collect();
    format!("[{}] {digits}", bytes.len())
}

fn told(call: &str, given: u64, due: u64, buffers: &[(&str, &Lent, &[u8])]) -> String {
    let mut text = format!("{call}\n  the library: {:?}\n  due: {:?}", Answer::of(given), Answer::of(due));
    for (name, lent, due) in buffers {
        if lent.contents() != *due {
            write!(text, "\n  {name} afterwards: {}\n  due: {}", hex(lent.contents()), hex(due)).unwrap();
        }
    }
    text
}

/// Runs the items 0 to count − 1 on all cores and adds up.
pub fn in_parallel(count: u64, item: impl Fn(u64, &mut Tally) + Sync) -> Tally {
    let next = AtomicU64::new(0);
    let work = || {
        let mut tally = Tally::default();
        loop {
            let index = next.fetch_add(1, Ordering::Relaxed);
            if index >= count {
                return tally;
            }
            item(index, &mut tally);
        }
    };
    let cores = std::thread::available_parallelism().map_or(1, usize::from);
    let mut sum = Tally::default();
    std::thread::scope(|scope| {
        let workers: Vec<_> = (0..cores).map(|_| scope.spawn(work)).collect();
        for worker in workers {
            sum.add(worker.join().expect("a worker stopped"));
        }
    });
    sum
}
