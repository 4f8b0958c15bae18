//! bench [--rounds N] [--chart FOLDER]
//!
//! Each call on an empty, a half-full and a full store, and how each cost grows, for the proved
//! store, the independent one and SQLite in memory, in one run, beside the least that a call does.
//! A figure is a median.

mod chart;
mod contestant;
mod floor;
mod shelf;
mod sqlite;
mod sweep;
mod whole;

use chart::{svg, Curve};
use contestant::{listing, Contestant, Proved};
use floor::Floor;
use model::Model;
use sqlite::Sqlite;
use std::collections::BTreeMap;
use std::time::Instant;

const ARENA: usize = 1_048_576;
/// The measured object's bytes, and the parts of a measured upload.
const SIZE: usize = 1024;
const PARTS: u16 = 16;

/// What stands in the store beside what is measured.
#[derive(Clone, Copy)]
struct State {
    objects: usize,
    /// Bytes of each of them.
    size: usize,
    /// Parts of a measured upload, and bytes of each.
    parts: u16,
    part_size: usize,
}

const NAMES: [&str; 3] = ["proved", "model", "SQLite"];

const CALLS: [&str; 13] = [
    "PUT, new",
    "PUT, again",
    "HEAD",
    "GET",
    "LIST, one",
    "LIST, all",
    "DELETE",
    "COPY, new",
    "COPY, again",
    "INITIATE",
    "PART",
    "COMMIT, ascending",
    "COMMIT, reversed",
];

/// Samples in nanoseconds by call.
#[derive(Default)]
struct Samples(BTreeMap<&'static str, Vec<f64>>);

impl Samples {
    /// One sample: the mean time of so many calls.
    fn time(&mut self, call: &'static str, times: u32, mut work: impl FnMut()) {
        let start = Instant::now();
        for _ in 0..times {
            work();
        }
        let nanoseconds = start.elapsed().as_nanos() as f64 / f64::from(times);
        self.0.entry(call).or_default().push(nanoseconds);
    }

    fn median(&self, call: &str) -> f64 {
        let mut sorted = self.0[call].clone();
        sorted.sort_by(f64::total_cmp);
        sorted[sorted.len() / 2]
    }
}

/// Bytes that no store can foresee.
fn data(length: usize, seed: usize) -> Vec<u8> {
    (0..length).map(|i| ((i * 31 + seed * 17) >> 3) as u8).collect()
}

/// Resident objects have even names, measured ones odd names in between.
fn name(i: usize) -> Vec<u8> {
    format!("recipe/{i:04}").into_bytes()
}

fn filled(mut store: Box<dyn Contestant>, state: &State) -> Box<dyn Contestant> {
    for i in 0..state.objects {
        store.put(1, &name(2 * i), &data(state.size, i));
    }
    store
}

/// How many resident objects stand before the measured one; it moves through the store from round to round.
fn place(state: &State, i: usize) -> usize {
    i * 37 % (state.objects + 1)
}

/// The object that COPY reads: a resident one, or on an empty store one that is there for COPY alone.
fn source(state: &State, i: usize) -> Vec<u8> {
    name(2 * ((place(state, i) + state.objects / 2) % state.objects.max(1)))
}

fn round(store: &mut dyn Contestant, state: &State, i: usize, samples: &mut Samples) {
    let mut answer = vec![0; 65_536.max(PARTS as usize * 4096)];
    let path = name(2 * place(state, i) + 1);
    let (new, again) = (data(SIZE, i), data(SIZE, i + 1));
    samples.time("PUT, new", 1, || store.put(5, &path, &new));
    samples.time("PUT, again", 1, || store.put(6, &path, &again));
    samples.time("HEAD", 8, || assert_eq!(store.head(&path), 6));
    samples.time("GET", 8, || assert_eq!(store.get(&path, &mut answer), SIZE));
    assert!(answer[..SIZE] == again);
    samples.time("LIST, one", 8, || assert!(store.list(&path, &mut answer) > 0));
    samples.time("LIST, all", 2, || assert!(store.list(b"", &mut answer) > 0));
    samples.time("DELETE", 1, || store.delete(&path));
    let source = source(state, i);
    if state.objects == 0 {
        store.put(4, &source, &data(state.size, i));
    }
    samples.time("COPY, new", 1, || store.copy(8, &source, &path));
    samples.time("COPY, again", 1, || store.copy(9, &source, &path));
    assert_eq!(store.get(&path, &mut answer), state.size);
    store.delete(&path);
    if state.objects == 0 {
        store.delete(&source);
    }
    let ascending: Vec<u8> = (1..=state.parts).flat_map(u16::to_le_bytes).collect();
    let reversed: Vec<u8> = (1..=state.parts).rev().flat_map(u16::to_le_bytes).collect();
    for (call, list) in [("COMMIT, ascending", &ascending), ("COMMIT, reversed", &reversed)] {
        let mut upload = 0;
        samples.time("INITIATE", 1, || upload = store.initiate(7, &path));
        for part in 1..=state.parts {
            let bytes = data(state.part_size, i + part as usize);
            samples.time("PART", 1, || store.part(upload, part, &bytes));
        }
        samples.time(call, 1, || store.commit(upload, list));
        store.delete(&path);
    }
}

/// Samples by store, and those of the floor. All take turns, so that a slow moment meets each of them.
fn measure(state: &State, rounds: usize) -> ([Samples; 3], Samples) {
    let stores: [Box<dyn Contestant>; 3] =
        [Box::new(Proved::fresh(ARENA)), Box::new(Model::fresh(ARENA)), Box::new(Sqlite::fresh())];
    let mut stores = stores.map(|store| filled(store, state));
    let mut samples: [Samples; 3] = Default::default();
    let (mut floor, mut least) = (Floor::of(state), Samples::default());
    for i in 0..rounds {
        for (store, samples) in stores.iter_mut().zip(&mut samples) {
            round(store.as_mut(), state, i, samples);
        }
        floor.round(state, i, &mut least);
    }
    let listings = stores.map(|mut store| {
        store.initiate(9, b"joined");
        let upload = store.initiate(9, b"joined");
        store.part(upload, 2, b"B");
        store.part(upload, 1, b"A");
        store.commit(upload, &[2, 0, 1, 0]);
        listing(store.as_mut())
    });
    assert!(listings[0] == listings[1] && listings[1] == listings[2], "the stores differ");
    (samples, least)
}

fn time(nanoseconds: f64) -> String {
    match nanoseconds {
        n if n >= 1e6 => format!("{:.2} ms", n / 1e6),
        n if n >= 1e3 => format!("{:.2} µs", n / 1e3),
        n => format!("{n:.0} ns"),
    }
}

fn table(title: &str, state: &State, rounds: usize) {
    let (samples, least) = measure(state, rounds);
    println!("\n### {title}\n");
    println!(
        "| call | {} | proved / model | proved / SQLite | floor | proved / floor |",
        NAMES.join(" | ")
    );
    println!("|---|---|---|---|---|---|---|---|");
    for call in CALLS {
        let [proved, model, sqlite] = [0, 1, 2].map(|i| samples[i].median(call));
        let floor = least.0.contains_key(call).then(|| least.median(call));
        println!(
            "| {call} | {} | {} | {} | {:.2} | {:.2} | {} | {} |",
            time(proved),
            time(model),
            time(sqlite),
            proved / model,
            proved / sqlite,
            floor.map_or(String::new(), time),
            floor.map_or(String::new(), |floor| format!("{:.2}", proved / floor))
        );
    }
}

/// How the proved store's costs grow; `across` picks what grows.
fn growth(
    title: &str,
    across: &str,
    steps: &[(usize, State)],
    calls: &[&'static str],
    rounds: usize,
) -> String {
    println!("\n### {title}\n");
    println!("| {across} | {} |", calls.join(" | "));
    println!("|---{}|", "|---".repeat(calls.len()));
    let mut curves: Vec<Curve> =
        calls.iter().map(|call| Curve { name: call.to_string(), points: Vec::new() }).collect();
    for (value, state) in steps {
        let mut store = filled(Box::new(Proved::fresh(ARENA)), state);
        let mut samples = Samples::default();
        for i in 0..rounds {
            round(store.as_mut(), state, i, &mut samples);
        }
        let medians: Vec<f64> = calls.iter().map(|call| samples.median(call)).collect();
        let cells: Vec<String> = medians.iter().map(|median| time(*median)).collect();
        println!("| {value} | {} |", cells.join(" | "));
        for (curve, median) in curves.iter_mut().zip(medians) {
            curve.points.push((*value as f64, median));
        }
    }
    svg(title, across, &curves)
}

fn main() {
    let (mut rounds, mut folder) = (400, None);
    let mut words = std::env::args().skip(1);
    while let Some(word) = words.next() {
        match (word.as_str(), words.next()) {
            ("--rounds", Some(number)) => rounds = number.parse().expect("a number of rounds"),
            ("--chart", Some(name)) => folder = Some(name),
            _ => panic!("usage: bench [--rounds N] [--chart FOLDER]"),
        }
    }
    println!("Medians of {rounds} rounds; objects of {SIZE} bytes are measured, uploads of {PARTS} parts of {SIZE} bytes.");
    let state = |objects| State { objects, size: 3840, parts: PARTS, part_size: SIZE };
    table("An empty store", &state(0), rounds);
    table("A half-full store: 128 objects of 3,840 bytes", &state(128), rounds);
    table("A full store: 255 objects of 3,840 bytes", &state(255), rounds);

    shelf::table(rounds / 4 + 1);
    sweep::table(rounds / 4 + 1);
    whole::table();
    whole::by_rows();

    let calls = ["PUT, new", "GET", "HEAD", "LIST, all", "DELETE", "COMMIT, ascending"];
    let small = |objects| (objects, State { size: 64, ..state(objects) });
    let by_objects = growth(
        "The proved store by objects, 64 bytes each",
        "objects",
        &[1, 2, 4, 8, 16, 32, 64, 128, 192, 255].map(small),
        &calls,
        rounds,
    );
    let sized = |size| (64 * size, State { size, ..state(64) });
    let by_bytes = growth(
        "The proved store by bytes held, 64 objects",
        "bytes held",
        &[16, 64, 256, 1024, 4096, 8192, 14_000].map(sized),
        &calls,
        rounds,
    );
    let parted = |parts| (parts as usize, State { parts, part_size: 64, ..state(64) });
    let by_parts = growth(
        "The proved store by parts of 64 bytes",
        "parts",
        &[1, 2, 4, 8, 16, 32, 64, 128, 256].map(parted),
        &["PART", "COMMIT, ascending", "COMMIT, reversed"],
        rounds / 8 + 1,
    );
    if let Some(folder) = folder {
        for (name, chart) in [("objects", by_objects), ("bytes", by_bytes), ("parts", by_parts)] {
            std::fs::write(format!("{folder}/by-{name}.svg"), chart).expect("a chart is written");
        }
    }
}
