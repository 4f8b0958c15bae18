//! How often each verb gave each number.

use crate::list::{Line, Said};
use model::{Call, LONGEST_LINE, MOST_PAIRS};
use std::fmt;
use std::sync::atomic::{AtomicU64, Ordering::Relaxed};

const VERBS: [&str; 15] = [
    "fresh",
    "put",
    "get",
    "head",
    "delete",
    "copy",
    "list",
    "initiate",
    "part",
    "commit",
    "abort",
    "sweep",
    "uploads",
    "delete_objects",
    "carry_over",
];

/// The numbers that documents 01 and 02 allow each verb, in the order of VERBS.
const ALLOWED: [&[usize]; 15] = [
    &[0, 1, 2],
    &[0, 1, 2, 4, 5],
    &[0, 1, 2, 3, 7],
    &[0, 1, 2, 3, 7],
    &[0, 1, 2, 3],
    &[0, 1, 2, 3, 4, 5],
    &[0, 1, 7],
    &[0, 1, 2, 4, 5, 6],
    &[0, 1, 2, 4, 5],
    &[0, 1, 2, 4],
    &[0, 1, 2],
    &[0, 1, 2],
    &[0, 1, 7],
    &[0, 1, 2, 7, 8],
    &[0, 1],
];
const CARRY_OVER: usize = 14;
/// The verbs from "put" to "uploads": those of the record, and "sweep", which has no line.
const FIRST_SAID: usize = 1;
const LAST_SAID: usize = 12;

/// Those of a place of DELETE_OBJECTS.
const ALLOWED_PLACE: [usize; 3] = [0, 2, 3];

/// Which buffer of a GET was short.
const SHORT: [&str; 3] = ["first", "second", "both"];

/// What became of a part above 10,000, which an older store holds: UPLOADS counted it, COMMIT joined
/// it, ABORT removed it, PART refused it.
const OLDER: [&str; 4] = ["counted", "committed", "aborted", "refused"];

/// Shared between processes; zeroed memory is an empty one.
pub struct Tally {
    pub lists: AtomicU64,
    /// The step under way in the list under way.
    pub step: AtomicU64,
    pub calls: AtomicU64,
    answers: [[AtomicU64; 9]; 15],
    /// The same of the calls that lines said.
    said: [[AtomicU64; 9]; 15],
    /// Lines that say no call: no forms, and forms that are too wide for their call; and how many of
    /// both were answered by 1.
    no_forms: AtomicU64,
    wide: AtomicU64,
    not_whole: AtomicU64,
    /// Lines of the greatest length that say a call, and lines of a byte more.
    longest: AtomicU64,
    too_long: AtomicU64,
    places: [AtomicU64; 4],
    /// Sweeps that aborted none and that aborted some, each without and with more due.
    sweeps: [[AtomicU64; 2]; 2],
    /// GETs and HEADs that answered so many pairs.
    pairs: [AtomicU64; MOST_PAIRS + 1],
    short: [AtomicU64; 3],
    older: [AtomicU64; 4],
    /// Damaged memory that was no longer whole, and that still was.
    pub broken: AtomicU64,
    pub whole: AtomicU64,
}

fn verb(call: Option<&Call>) -> usize {
    match call {
        None => 0,
        Some(Call::Put { .. }) => 1,
        Some(Call::Get { .. }) => 2,
        Some(Call::Head { .. }) => 3,
        Some(Call::Delete { .. }) => 4,
        Some(Call::Copy { .. }) => 5,
        Some(Call::List { .. }) => 6,
        Some(Call::Initiate { .. }) => 7,
        Some(Call::Part { .. }) => 8,
        Some(Call::Commit { .. }) => 9,
        Some(Call::Abort { .. }) => 10,
        Some(Call::Sweep { .. }) => 11,
        Some(Call::Uploads { .. }) => 12,
        Some(Call::DeleteObjects { .. }) => 13,
    }
}

impl Tally {
    /// A call, or FRESH where there is none, was answered by this number.
    pub fn count(&self, call: Option<&Call>, number: u32) {
        self.calls.fetch_add(1, Relaxed);
        self.answers[verb(call)][number as usize].fetch_add(1, Relaxed);
    }

    /// A line was answered by this number: of a call, of a form that is too wide, or of no form.
    pub fn count_line(&self, line: &Line, said: &Said, number: u32) {
        self.calls.fetch_add(1, Relaxed);
        let length = line.text.len();
        match said {
            Said::Call(call) => {
                self.said[verb(Some(call))][number as usize].fetch_add(1, Relaxed);
                self.longest.fetch_add(u64::from(length == LONGEST_LINE), Relaxed);
            }
            _ if number == 1 => drop(self.not_whole.fetch_add(1, Relaxed)),
            Said::Wide => drop(self.wide.fetch_add(1, Relaxed)),
            Said::Nothing => {
                self.no_forms.fetch_add(1, Relaxed);
                self.too_long.fetch_add(u64::from(length == LONGEST_LINE + 1), Relaxed);
            }
        }
    }

    /// How many lines were driven.
    pub fn lines(&self) -> u64 {
        let said: u64 = self.said.iter().flatten().map(|count| count.load(Relaxed)).sum();
        let others = [&self.no_forms, &self.wide, &self.not_whole];
        said + others.iter().map(|count| count.load(Relaxed)).sum::<u64>()
    }

    /// What did not occur among lines: numbers that a verb may give, forms that are too wide, lines about
    /// the greatest length, a quarter of lines that are no forms.
    pub fn missing_lines(&self) -> Vec<String> {
        let mut missing = Vec::new();
        for verb in FIRST_SAID..=LAST_SAID {
            if VERBS[verb] == "sweep" {
                continue;
            }
            for number in ALLOWED[verb] {
                if self.said[verb][*number].load(Relaxed) == 0 {
                    missing.push(format!("a line of {} {number}", VERBS[verb]));
                }
            }
        }
        for (what, count) in [
            ("a form that is too wide", &self.wide),
            ("a form of the greatest length", &self.longest),
            ("a line of a byte more", &self.too_long),
        ] {
            if count.load(Relaxed) == 0 {
                missing.push(what.to_string());
            }
        }
        if 4 * self.no_forms.load(Relaxed) < self.lines() {
            missing.push("9 by a quarter of the lines".to_string());
        }
        missing
    }

    /// Former tables were carried over or not.
    pub fn count_carry_over(&self, number: u32) {
        self.calls.fetch_add(1, Relaxed);
        self.answers[CARRY_OVER][number as usize].fetch_add(1, Relaxed);
    }

    /// The places of a DELETE_OBJECTS had these results.
    pub fn count_places(&self, results: &[u8]) {
        for result in results {
            self.places[usize::from(*result)].fetch_add(1, Relaxed);
        }
    }

    /// A SWEEP aborted so many, and more are due or not.
    pub fn count_sweep(&self, count: u32, more: bool) {
        self.sweeps[usize::from(count > 0)][usize::from(more)].fetch_add(1, Relaxed);
    }

    /// A GET or a HEAD answered so many pairs.
    pub fn count_pairs(&self, count: u16) {
        self.pairs[usize::from(count)].fetch_add(1, Relaxed);
    }

    /// One buffer of a GET was short, or both.
    pub fn count_short(&self, first: bool, second: bool) {
        let kind = if first && second { 2 } else { usize::from(second) };
        self.short[kind].fetch_add(1, Relaxed);
    }

    /// A call that concerns a part above 10,000 was answered by this number.
    pub fn count_older(&self, call: &Call, number: u32) {
        let kind = match (call, number) {
            (Call::Uploads { .. }, 0) => 0,
            (Call::Commit { .. }, 0) => 1,
            (Call::Abort { .. }, 0) => 2,
            (Call::Part { .. }, 2) => 3,
            _ => return,
        };
        self.older[kind].fetch_add(1, Relaxed);
    }

    /// What did not occur: numbers that a verb or a place may give, kinds of sweeps, counts of pairs,
    /// short buffers, what becomes of older parts.
    pub fn missing(&self) -> Vec<String> {
        let mut missing = Vec::new();
        for (verb, numbers) in ALLOWED.iter().enumerate() {
            for number in numbers.iter() {
                if self.answers[verb][*number].load(Relaxed) == 0 {
                    missing.push(format!("{} {number}", VERBS[verb]));
                }
            }
        }
        for number in ALLOWED_PLACE {
            if self.places[number].load(Relaxed) == 0 {
                missing.push(format!("place {number}"));
            }
        }
        for (aborted, counts) in ["none", "some"].iter().zip(&self.sweeps) {
            for (more, count) in ["no more", "more"].iter().zip(counts) {
                if count.load(Relaxed) == 0 {
                    missing.push(format!("sweep of {aborted} with {more} due"));
                }
            }
        }
        for (count, times) in self.pairs.iter().enumerate() {
            if times.load(Relaxed) == 0 {
                missing.push(format!("{count} pairs"));
            }
        }
        for (kind, times) in SHORT.iter().zip(&self.short) {
            if times.load(Relaxed) == 0 {
                missing.push(format!("get with a short buffer: {kind}"));
            }
        }
        for (kind, times) in OLDER.iter().zip(&self.older) {
            if times.load(Relaxed) == 0 {
                missing.push(format!("an older part {kind}"));
            }
        }
        missing
    }
}

impl fmt::Display for Tally {
    fn fmt(&self, f: &mut fmt::Formatter) -> fmt::Result {
        write!(f, "{:<14}", "answered")?;
        for number in 0..9 {
            write!(f, "{number:>9}")?;
        }
        let mut row = |name: &str, counts: &[AtomicU64]| {
            write!(f, "\n{name:<14}")?;
            counts.iter().try_for_each(|count| write!(f, "{:>9}", count.load(Relaxed)))
        };
        for (verb, counts) in VERBS.iter().zip(&self.answers) {
            row(verb, counts)?;
        }
        row("its places", &self.places)?;
        if self.lines() > 0 {
            for verb in (FIRST_SAID..=LAST_SAID).filter(|verb| VERBS[*verb] != "sweep") {
                row(&format!("({})", VERBS[verb]), &self.said[verb])?;
            }
        }
        if self.lines() > 0 {
            let count = |count: &AtomicU64| count.load(Relaxed);
            let (no_forms, wide) = (count(&self.no_forms), count(&self.wide));
            let (longest, too_long) = (count(&self.longest), count(&self.too_long));
            write!(f, "\nlines: {}, by 9: {no_forms}, too wide: {wide}", self.lines())?;
            write!(f, ", of 4,096 bytes, calls: {longest}, of 4,097: {too_long}")?;
        }
        for (aborted, [no_more, more]) in ["none", "some"].iter().zip(&self.sweeps) {
            let (no_more, more) = (no_more.load(Relaxed), more.load(Relaxed));
            write!(f, "\nsweeps of {aborted}: {no_more} with no more due, {more} with more due")?;
        }
        let numbers = |counts: &[AtomicU64]| {
            let texts: Vec<String> = counts.iter().map(|n| n.load(Relaxed).to_string()).collect();
            texts.join(" ")
        };
        write!(f, "\nget and head by pairs, 0 to 8: {}", numbers(&self.pairs))?;
        write!(f, "\nget with a short buffer, first, second, both: {}", numbers(&self.short))?;
        write!(f, "\nolder parts {}: {}", OLDER.join(", "), numbers(&self.older))?;
        write!(
            f,
            "\ndamaged memory: {} times no longer whole, {} times whole",
            self.broken.load(Relaxed),
            self.whole.load(Relaxed)
        )
    }
}
