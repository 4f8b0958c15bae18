//! What a scale left open: 16 uploads with 256 parts, ended by one sweep and by as many ABORT calls.

use crate::contestant::{listing, Contestant, Proved};
use crate::{data, name, time, Samples, ARENA};

const UPLOADS: usize = 16;
const PARTS: u16 = 16;
const PART_SIZE: usize = 1024;
const OBJECT_SIZE: usize = 3072;

/// As many uploads as there can be, with as many parts; their numbers.
fn open(store: &mut Proved) -> Vec<u32> {
    let opened = |i| {
        let upload = store.initiate(1, &name(i));
        (1..=PARTS).for_each(|part| store.part(upload, part, &data(PART_SIZE, i)));
        upload
    };
    (0..UPLOADS).map(opened).collect()
}

/// The store's listing, with no upload left.
fn left(store: &mut Proved) -> Vec<u8> {
    assert_eq!(store.uploads(), 0, "uploads are left");
    listing(store)
}

/// Medians of a sweep and of single calls, which take turns over the same memory.
fn measure(objects: usize, rounds: usize) -> [f64; 2] {
    let mut store = Proved::fresh(ARENA);
    for i in 0..objects {
        store.put(1, &name(i), &data(OBJECT_SIZE, i));
    }
    let before = left(&mut store);
    let mut samples = Samples::default();
    for _ in 0..rounds {
        open(&mut store);
        samples.time("sweep", 1, || assert_eq!(store.sweep(2, u32::MAX), UPLOADS));
        assert!(left(&mut store) == before, "the sweep changed an object");
        let uploads = open(&mut store);
        samples.time("ABORT", 1, || uploads.iter().for_each(|upload| store.abort(*upload)));
        assert!(left(&mut store) == before, "the ABORT calls changed an object");
    }
    ["sweep", "ABORT"].map(|way| samples.median(way))
}

pub fn table(rounds: usize) {
    println!("\n### {UPLOADS} uploads with 256 parts of 1,024 bytes aborted; medians of {rounds} rounds\n");
    println!("| beside them | one sweep | {UPLOADS} ABORT calls | sweep / ABORT calls |");
    println!("|---|---|---|---|");
    for (beside, objects) in [("no object", 0), ("256 objects of 3,072 bytes", 256)] {
        let [sweep, aborts] = measure(objects, rounds);
        println!("| {beside} | {} | {} | {:.2} |", time(sweep), time(aborts), sweep / aborts);
    }
}
