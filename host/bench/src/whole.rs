//! The test "whole", which runs before every call, over a full store: 256 objects, 16 uploads, 256 parts.

use rathnodi::{slices, REPLY_LEN, TABLES_LEN};
use std::hint::black_box;
use std::time::Instant;

struct Full {
    tables: Vec<u8>,
    arena: Vec<u8>,
    /// Bytes of header and rows.
    used: usize,
}

fn path(i: usize, length: usize) -> Vec<u8> {
    let mut path = format!("{i:03}").into_bytes();
    path.resize(length, b'p');
    path
}

fn full(length: usize) -> Full {
    let mut tables = vec![0; TABLES_LEN];
    let mut arena = vec![0; 65_536];
    let mut reply = [0; REPLY_LEN];
    assert_eq!(slices::fresh(&mut tables, &mut arena), 0);
    for i in 0..256 {
        assert_eq!(slices::put(&mut tables, &mut arena, 1, &path(i, length), b"weighing", &[]), 0);
    }
    for i in 0..16 {
        let opened =
            slices::initiate(&mut tables, &mut arena, 1, &path(i, length), &[], &mut reply);
        assert_eq!(opened, 0);
        for part in 1..=16 {
            let upload = i as u32 + 1;
            let set = slices::part(&mut tables, &mut arena, upload, part, b"part", &mut reply);
            assert_eq!(set, 0);
        }
    }
    Full { tables, arena, used: 18 + 272 * (36 + length) + 256 * 36 }
}

/// The best of many turns of each, in microseconds; the works take turns.
fn best<const N: usize>(mut works: [&mut dyn FnMut(); N]) -> [f64; N] {
    let mut best = [f64::MAX; N];
    for _ in 0..2000 {
        for (work, best) in works.iter_mut().zip(&mut best) {
            let start = Instant::now();
            work();
            *best = best.min(start.elapsed().as_nanos() as f64 / 1e3);
        }
    }
    best
}

/// A byte at a time, as a checksum reads.
fn byte_loop(bytes: &[u8]) -> u32 {
    bytes.iter().fold(0, |sum: u32, byte| (sum ^ u32::from(*byte)).wrapping_mul(16_777_619))
}

/// A search through all of the bytes.
fn search(bytes: &[u8]) -> usize {
    bytes.iter().filter(|byte| **byte == 255).count()
}

pub fn table() {
    println!("\n### The test \"whole\" on a full store, and what GET and HEAD add\n");
    println!("256 objects, 16 uploads and 256 parts; the best of 2,000 turns, in microseconds. A HEAD of a bad path is refused right after");
    println!("\"whole\", so it stands for that test. The plain passes go over the same header and rows.\n");
    println!("| bytes of each path | whole | HEAD, last object | GET, last object | UPLOADS | byte loop | search | HEAD / whole | GET / whole |");
    println!("|---|---|---|---|---|---|---|---|---|");
    for length in [4, 24, 31, 32, 64, 128] {
        let store = full(length);
        let last = path(255, length);
        let [mut a, mut b, mut c, mut d] = [[0; REPLY_LEN]; 4];
        let (mut answer, mut uploads) = ([0; 8], [0; 4096]);
        let rows = &store.tables[..store.used];
        let (t, m) = (&store.tables[..], &store.arena[..]);
        let [whole, head, get, open, bytes, searched] = best([
            &mut || assert_eq!(slices::head(t, m, b"/", &mut [], &mut a), 2),
            &mut || assert_eq!(slices::head(t, m, &last, &mut [], &mut b), 0),
            &mut || assert_eq!(slices::get(t, m, &last, &mut answer, &mut [], &mut c), 0),
            &mut || assert_eq!(slices::uploads(t, m, b"", &mut uploads, &mut d), 0),
            &mut || _ = black_box(byte_loop(black_box(rows))),
            &mut || _ = black_box(search(black_box(rows))),
        ]);
        println!(
            "| {length} | {whole:.1} | {head:.1} | {get:.1} | {open:.1} | {bytes:.1} | {searched:.1} | {:.2} | {:.2} |",
            head / whole,
            get / whole
        );
    }
}

/// The key "lot" with a value of four bytes.
const PAIR: &[u8] = b"\x03lot\x041234";

/// 256 objects with paths of 16 bytes. Every `paired`-th has a pair, and every `wide`-th a path with a letter outside ASCII; 0
/// stands for none.
fn objects(paired: usize, wide: usize) -> [Vec<u8>; 2] {
    let mut tables = vec![0; TABLES_LEN];
    let mut arena = vec![0; 65_536];
    let each = |many: usize, i: usize| many > 0 && i % many == 0;
    assert_eq!(slices::fresh(&mut tables, &mut arena), 0);
    for i in 0..256 {
        let mut path = path(i, 16);
        if each(wide, i) {
            path[14..].copy_from_slice("ü".as_bytes());
        }
        let pairs = if each(paired, i) { PAIR } else { &[] };
        assert_eq!(slices::put(&mut tables, &mut arena, 1, &path, b"weighing", pairs), 0);
    }
    [tables, arena]
}

pub fn by_rows() {
    println!("\n### The test \"whole\" by what rows hold\n");
    println!("256 objects with paths of 16 bytes; the best of 2,000 turns, in microseconds.\n");
    println!("| the objects | whole |");
    println!("|---|---|");
    let stores = [(0, 0), (4, 0), (1, 0), (0, 4)].map(|(paired, wide)| objects(paired, wide));
    let whole = |[tables, arena]: &[Vec<u8>; 2]| {
        let refused = slices::head(tables, arena, b"/", &mut [], &mut [0; REPLY_LEN]);
        assert_eq!(refused, 2);
    };
    let times = best([
        &mut || whole(&stores[0]),
        &mut || whole(&stores[1]),
        &mut || whole(&stores[2]),
        &mut || whole(&stores[3]),
    ]);
    let names = [
        "without pairs, paths in ASCII",
        "every fourth has a pair",
        "each has a pair",
        "every fourth path has a letter outside ASCII",
    ];
    for (name, time) in names.iter().zip(times) {
        println!("| {name} | {time:.2} |");
    }
}
