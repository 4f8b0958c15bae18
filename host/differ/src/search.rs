//! A run: many lists in a process of their own, and what is said of the first that differs.

use crate::apart::{apart, within, End};
use crate::generate;
use crate::guard::shared;
use crate::library::Library;
use crate::lines;
use crate::list::List;
use crate::rig::{Difference, Rig};
use crate::shrink::shrink;
use crate::tally::Tally;
use std::sync::atomic::Ordering::Relaxed;

/// A list that takes longer has not ended.
const SECONDS: u32 = 60;

/// Makes the library that is run.
pub type Make<'a> = &'a dyn Fn() -> Box<dyn Library>;

/// What a run found.
pub struct Found {
    pub index: u64,
    pub list: List,
    pub end: String,
}

/// The differences of one list, in this process.
fn run_list(rig: &mut Rig, list: &List) -> Result<(), Difference> {
    within(SECONDS);
    let outcome = rig.run(list);
    within(0);
    outcome
}

/// Lists of calls, or of lines, by the run's seed and their number; and how many were made.
pub struct Lists {
    pub list: fn(u64, u64) -> List,
    pub made: fn(&Tally) -> u64,
}

pub const CALLS: Lists = Lists { list: generate::list, made: |tally| tally.calls.load(Relaxed) };
pub const LINES: Lists = Lists { list: lines::list, made: Tally::lines };

/// Runs lists until so many calls or lines are made or one differs, which is then made smaller.
pub fn search(
    library: Make,
    lists: &Lists,
    seed: u64,
    most: u64,
    tally: &'static Tally,
) -> Result<(), Box<Found>> {
    let end = apart(|| {
        let mut rig = Rig::new(library(), tally);
        while (lists.made)(tally) < most {
            let list = (lists.list)(seed, tally.lists.load(Relaxed));
            if run_list(&mut rig, &list).is_err() {
                return 1;
            }
            tally.lists.fetch_add(1, Relaxed);
        }
        0
    });
    if end == End::Code(0) {
        return Ok(());
    }
    let index = tally.lists.load(Relaxed);
    let trial = shared::<Tally>();
    let fails = |list: &List| {
        let run = || run_list(&mut Rig::new(library(), trial), list);
        let end = apart(|| if run().is_ok() { 0 } else { 1 });
        (end != End::Code(0)).then(|| trial.step.load(Relaxed) as usize)
    };
    let list = shrink(&(lists.list)(seed, index), fails);
    let end = describe(library, &list);
    Err(Box::new(Found { index, list, end }))
}

/// How a list ends, in words.
pub fn describe(library: Make, list: &List) -> String {
    let tally = shared::<Tally>();
    let run = || run_list(&mut Rig::new(library(), tally), list);
    let step = || tally.step.load(Relaxed);
    match apart(|| if run().is_ok() { 0 } else { 1 }) {
        End::Code(0) => "no difference".to_string(),
        End::Code(1) => match run() {
            Err(Difference { step, what }) => format!("step {step}: {what}"),
            Ok(()) => "no difference when run again".to_string(),
        },
        End::Code(code) => format!("step {}: the driver ended with {code}", step()),
        End::Signal(14) => format!("step {}: no answer in {SECONDS} seconds", step()),
        End::Signal(signal) => format!("step {}: a crash, signal {signal}", step()),
    }
}
