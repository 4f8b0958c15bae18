//! Clearing a shelf: 200 of 256 objects of a full store, by one call, by as many DELETE calls, and
//! by SQLite in one transaction.

use crate::contestant::{listing, Contestant, Proved};
use crate::sqlite::Sqlite;
use crate::{data, name, time, Samples, ARENA};

const OBJECTS: usize = 256;
const SIZE: usize = 3840;

fn put(store: &mut dyn Contestant, objects: &[usize]) {
    for i in objects {
        store.put(1, &name(*i), &data(SIZE, *i));
    }
}

/// What is left of the store, to which the shelf is then put back.
fn left(store: &mut dyn Contestant, shelf: &[usize]) -> Vec<u8> {
    let records = listing(store);
    put(store, shelf);
    records
}

/// Medians of one call, of single calls and of SQLite, which take turns; the two ways of the proved
/// store go over the same memory.
fn measure(shelf: &[usize], rounds: usize) -> [f64; 3] {
    let (mut proved, mut sqlite) = (Proved::fresh(ARENA), Sqlite::fresh());
    let all: Vec<usize> = (0..OBJECTS).collect();
    put(&mut proved, &all);
    put(&mut sqlite, &all);
    let paths: Vec<Vec<u8>> = shelf.iter().map(|i| name(*i)).collect();
    let place = |(i, path): (usize, &Vec<u8>)| [i * path.len(), path.len()].map(|n| n as u32);
    let places = paths.iter().enumerate().flat_map(place).flat_map(u32::to_le_bytes);
    let (names, places): (_, Vec<u8>) = (paths.concat(), places.collect());
    let mut results = vec![0; paths.len()];
    let mut samples = Samples::default();
    for _ in 0..rounds {
        samples.time("at once", 1, || proved.delete_objects(&names, &places, &mut results));
        let by_one_call = left(&mut proved, shelf);
        samples.time("one by one", 1, || paths.iter().for_each(|path| proved.delete(path)));
        let by_single_calls = left(&mut proved, shelf);
        samples.time("SQLite", 1, || sqlite.delete_all(&paths));
        let by_sqlite = left(&mut sqlite, shelf);
        assert!(by_one_call == by_single_calls && by_single_calls == by_sqlite, "they differ");
    }
    ["at once", "one by one", "SQLite"].map(|way| samples.median(way))
}

pub fn table(rounds: usize) {
    let ascending: Vec<usize> = (0..OBJECTS).filter(|i| i % 32 < 25).collect();
    let descending: Vec<usize> = ascending.iter().rev().copied().collect();
    let count = ascending.len();
    println!(
        "\n### {count} of {OBJECTS} objects of 3,840 bytes deleted; medians of {rounds} rounds\n"
    );
    println!("| order | one call | {count} DELETE calls | SQLite, one transaction | one call / DELETE calls | one call / SQLite |");
    println!("|---|---|---|---|---|---|");
    for (order, shelf) in [("ascending", ascending), ("descending", descending)] {
        let [at_once, one_by_one, sqlite] = measure(&shelf, rounds);
        println!(
            "| {order} | {} | {} | {} | {:.2} | {:.2} |",
            time(at_once),
            time(one_by_one),
            time(sqlite),
            at_once / one_by_one,
            at_once / sqlite
        );
    }
}
