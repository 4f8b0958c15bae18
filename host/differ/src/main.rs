//! differ [--calls N | --lines N] [--seed S] [--list I]

use differ::guard::shared;
use differ::library::Proved;
use differ::search::{describe, search, Lists, CALLS, LINES};
use differ::tally::Tally;
use std::process::exit;
use std::sync::atomic::Ordering::Relaxed;
use std::time::Instant;

/// What the gate runs.
const MOST: u64 = 200_000;
const SEED: u64 = 1;

const USAGE: &str = "usage: differ [--calls N | --lines N] [--seed S] [--list I]
  runs random lists of calls until N calls are made, and compares the proved store with the model;
  with --lines, most calls are lines of a recording, until there are N lines, among them such as are
  no forms;
  with --list, runs list I of the seed alone and prints it";

fn main() {
    let (mut lists, mut most, mut seed, mut list) = (CALLS, MOST, SEED, None);
    let mut words = std::env::args().skip(1);
    while let Some(word) = words.next() {
        let number = words.next().and_then(|number| number.parse::<u64>().ok());
        match (word.as_str(), number) {
            ("--calls", Some(number)) => (lists, most) = (CALLS, number),
            ("--lines", Some(number)) => (lists, most) = (LINES, number),
            ("--seed", Some(number)) => seed = number,
            ("--list", Some(number)) => list = Some(number),
            _ => {
                eprintln!("{USAGE}");
                exit(2)
            }
        }
    }
    match list {
        Some(index) => one_list(&lists, seed, index),
        None => run(&lists, seed, most),
    }
}

fn one_list(lists: &Lists, seed: u64, index: u64) {
    let list = (lists.list)(seed, index);
    print!("{list}");
    println!("{}", describe(&|| Box::new(Proved), &list));
}

fn run(lists: &Lists, seed: u64, most: u64) {
    let (tally, start) = (shared::<Tally>(), Instant::now());
    if let Err(found) = search(&|| Box::new(Proved), lists, seed, most, tally) {
        println!("DIFFERENCE in list {} of seed {seed}; made smaller:", found.index);
        print!("{}", found.list);
        println!("{}", found.end);
        exit(1);
    }
    println!("{tally}");
    let (calls, lists_run) = (tally.calls.load(Relaxed), tally.lists.load(Relaxed));
    let lines = tally.lines();
    let seconds = start.elapsed().as_secs_f64();
    let missing = if lines > 0 { tally.missing_lines() } else { tally.missing() };
    if most >= MOST && !missing.is_empty() {
        println!("never answered: {}", missing.join(", "));
        exit(1);
    }
    let among = if lines > 0 { format!(", {lines} of them lines,") } else { String::new() };
    println!(
        "differ: {calls} calls{among} in {lists_run} lists, seed {seed}, {seconds:.1} s: no difference"
    );
}
