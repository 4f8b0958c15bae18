//! The driver finds faults: each store here is the proved one with one thing wrong.

use differ::guard::shared;
use differ::layout::{bytes_of, state_of};
use differ::library::{Library, Proved};
use differ::search::{self, search, Lists};
use differ::tally::Tally;
use model::{bytes_held, name_at, pair_bytes, pair_ok, Entry, Etag, Model, Object, SYSTEM_KEYS};
use rathnodi::{slices, FORMER_TABLES_LEN, TABLES_LEN};
use std::collections::BTreeMap;

/// Calls in which a fault must show.
const CALLS: u64 = 60_000;

/// The fault shows, in a list of at most 12 steps.
fn finds<L: Library + 'static>(name: &str, library: fn() -> L) {
    finds_within(12, name, library);
}

fn finds_within<L: Library + 'static>(steps: usize, name: &str, library: fn() -> L) {
    finds_in(&search::CALLS, steps, name, library);
}

fn finds_in<L: Library + 'static>(lists: &Lists, steps: usize, name: &str, library: fn() -> L) {
    let found = search(&|| Box::new(library()), lists, 5, CALLS, shared::<Tally>());
    let Err(found) = found else { panic!("{name}: no difference in {CALLS} calls") };
    println!("{name}: list {}\n{}{}", found.index, found.list, found.end);
    assert!(found.list.steps.len() <= steps, "{name}: the list is still long\n{}", found.list);
}

/// A store with some calls replaced.
macro_rules! faulty {
    ($name:ident { $($call:item)* }) => {
        #[test]
        fn $name() {
            struct Faulty;
            impl Library for Faulty { $($call)* }
            finds(stringify!($name), || Faulty);
        }
    };
}

/// A macro of stores with another such call, whose arguments a closure names. `$d` is a dollar, for
/// that macro's own names.
macro_rules! faulty_calls {
    ($d:tt $stores:ident: $call:ident($($arg:ident: $type:ty),*)) => {
        macro_rules! $stores {
            ($d name:ident, |$($d $arg:ident),*| $d body:block) => {
                faulty!($d name { fn $call(&mut self, $($d $arg: $type),*) -> u32 $d body });
            };
        }
    };
}

faulty_calls!($ faulty_puts: put(
    t: &mut [u8], a: &mut [u8], stamp: u64, path: &[u8], data: &[u8], pairs: &[u8]
));
faulty_calls!($ faulty_gets: get(
    t: &[u8], a: &[u8], path: &[u8], answer: &mut [u8], pairs: &mut [u8], reply: &mut [u8]
));
faulty_calls!($ faulty_heads: head(
    t: &[u8], a: &[u8], path: &[u8], pairs: &mut [u8], reply: &mut [u8]
));
faulty_calls!($ faulty_initiates: initiate(
    t: &mut [u8], a: &mut [u8], stamp: u64, path: &[u8], pairs: &[u8], reply: &mut [u8]
));
faulty_calls!($ faulty_copies: copy(
    t: &mut [u8], a: &mut [u8], stamp: u64, source: &[u8], destination: &[u8]
));
faulty_calls!($ faulty_carries: carry_over(former: &[u8], a: &[u8], t: &mut [u8]));
faulty_calls!($ faulty_deletes: delete_objects(
    t: &mut [u8], a: &mut [u8], names: &[u8], places: &[u8], results: &mut [u8]
));
faulty_calls!($ faulty_sweeps: sweep(
    t: &mut [u8], a: &mut [u8], stamp: u64, most: u32, reply: &mut [u8]
));

/// A store whose PUT and INITIATE see other pairs: two faults, one of each call.
macro_rules! faulty_pairs {
    ($put:ident, $initiate:ident, $change:expr) => {
        faulty_puts!($put, |t, a, stamp, path, data, pairs| {
            slices::put(t, a, stamp, path, data, &changed_pairs(pairs, $change))
        });
        faulty_initiates!($initiate, |t, a, stamp, path, pairs, reply| {
            slices::initiate(t, a, stamp, path, &changed_pairs(pairs, $change), reply)
        });
    };
}

type PairList = Vec<(Vec<u8>, Vec<u8>)>;

/// The object at a path, where the memory is whole.
fn object_at(t: &[u8], a: &[u8], path: &[u8]) -> Option<Object> {
    state_of(t, a)?.objects.remove(path)
}

/// Another state in the memory, where it fits.
fn rewrite(t: &mut [u8], a: &mut [u8], change: impl FnOnce(&mut Model)) {
    let Some(mut state) = state_of(t, a) else { return };
    change(&mut state);
    if state.held() <= a.len() {
        let bytes = bytes_of(&state);
        t[..bytes.tables.len()].copy_from_slice(&bytes.tables);
        a[..bytes.arena.len()].copy_from_slice(&bytes.arena);
    }
}

/// A length of one byte and as many bytes, from the front.
fn take_counted(bytes: &[u8]) -> Option<(&[u8], &[u8])> {
    let (length, rest) = bytes.split_first()?;
    rest.split_at_checked(usize::from(*length))
}

/// The pairs in these bytes, and what is cut off after them.
fn listed(mut bytes: &[u8]) -> (PairList, &[u8]) {
    let mut pairs = PairList::new();
    while let Some((key, rest)) = take_counted(bytes) {
        let Some((value, rest)) = take_counted(rest) else { break };
        pairs.push((key.to_vec(), value.to_vec()));
        bytes = rest;
    }
    (pairs, bytes)
}

fn encoded(pairs: &PairList) -> Vec<u8> {
    let counted = |bytes: &[u8]| [&[bytes.len() as u8], bytes].concat();
    pairs.iter().flat_map(|(key, value)| [counted(key), counted(value)].concat()).collect()
}

/// The pairs with a change; what is cut off stays.
fn changed_pairs(bytes: &[u8], change: impl Fn(&mut PairList)) -> Vec<u8> {
    let (mut pairs, cut) = listed(bytes);
    change(&mut pairs);
    [&encoded(&pairs), cut].concat()
}

fn is_system(key: &[u8]) -> bool {
    SYSTEM_KEYS.contains(&key)
}

/// A pair that breaks the rules.
fn no_pair() -> (Vec<u8>, Vec<u8>) {
    (Vec::new(), Vec::new())
}

/// Keys and values of a request's pairs.
fn held_of(pairs: &[u8]) -> usize {
    let kept = listed(pairs).0.into_iter().filter(|(key, _)| !is_system(key));
    kept.map(|(key, value)| key.len() + value.len()).sum()
}

/// The arena with other keys, of the same lengths and ascending, in each row where all keys and
/// values pass.
fn other_keys(t: &[u8], a: &[u8], passes: impl Fn(&[u8], &[u8]) -> bool) -> Vec<u8> {
    let mut arena = a.to_vec();
    let mut row = || -> Option<()> {
        let (mut at, mut block) = (18, 0);
        loop {
            let size = u32::from_le_bytes(t.get(at..at + 4)?.try_into().ok()?) as usize;
            let (count, path) = (usize::from(*t.get(at + 16)? / 4), usize::from(*t.get(at + 17)?));
            let lengths = t.get(at + 36 + path..)?.get(..2 * count)?;
            let mut places = Vec::new();
            let mut place = block;
            for pair in lengths.chunks(2) {
                let (key, value) = (usize::from(pair[0]), usize::from(pair[1]));
                places.push((place, place + key, place + key + value));
                place += key + value;
            }
            let good = |(key, value, end): &(usize, usize, usize)| {
                a.get(*key..*end).is_some_and(|_| passes(&a[*key..*value], &a[*value..*end]))
            };
            if places.iter().all(good) {
                for (i, (key, value, _)) in places.into_iter().enumerate() {
                    arena[key..value].fill(b'a' + i as u8);
                }
            }
            at += 36 + path + 2 * count;
            block += size;
        }
    };
    row();
    arena
}

/// The open uploads: number and start.
fn open(t: &[u8], a: &[u8]) -> Vec<(u32, u64)> {
    let uploads = state_of(t, a).map(|state| state.uploads).unwrap_or_default();
    uploads.iter().map(|(number, upload)| (*number, upload.started)).collect()
}

/// The upload has a part above 10,000.
fn holds_older(t: &[u8], a: &[u8], upload: u32) -> bool {
    let upload = state_of(t, a).and_then(|mut state| state.uploads.remove(&upload));
    upload.is_some_and(|upload| upload.parts.keys().any(|part| *part > 10_000))
}

/// How many uploads a sweep aborted, by its reply.
fn swept(r: &[u8]) -> u32 {
    u32::from_le_bytes(r[16..20].try_into().unwrap())
}

/// A sweep that aborts as many uploads as it should, but the first of all by this key.
fn sweep_by(
    key: impl Fn(&(u32, u64)) -> u64,
    (t, a): (&mut [u8], &mut [u8]),
    s: u64,
    m: u32,
    r: &mut [u8],
) -> u32 {
    let number = slices::sweep(&mut t.to_vec(), &mut a.to_vec(), s, m, r);
    if number == 0 {
        let mut uploads = open(t, a);
        uploads.sort_by_key(key);
        for (upload, _) in &uploads[..swept(r) as usize] {
            assert_eq!(slices::abort(t, a, *upload), 0);
        }
    }
    number
}

/// Places with another start and length each; bytes left over stay.
fn changed(places: &[u8], change: impl Fn(u32, u32) -> (u32, u32)) -> Vec<u8> {
    let number = |bytes: &[u8]| u32::from_le_bytes(bytes.try_into().unwrap());
    let each = places.chunks_exact(8);
    let left_over = each.remainder();
    let changed = |place: &[u8]| {
        let (start, length) = change(number(&place[..4]), number(&place[4..]));
        [start.to_le_bytes(), length.to_le_bytes()].concat()
    };
    [each.map(changed).collect::<Vec<_>>().concat(), left_over.to_vec()].concat()
}

#[test]
fn nothing_is_found_in_the_proved_store() {
    if let Err(found) =
        search(&|| Box::new(Proved), &search::CALLS, 5, CALLS / 4, shared::<Tally>())
    {
        panic!("list {}\n{}{}", found.index, found.list, found.end);
    }
}

faulty!(joins_by_ascending_number {
    fn commit(&mut self, t: &mut [u8], a: &mut [u8], upload: u32, list: &[u8]) -> u32 {
        let mut pairs: Vec<&[u8]> = list.chunks(2).collect();
        pairs.sort_by_key(|pair| (pair.get(1).copied(), pair[0]));
        slices::commit(t, a, upload, &pairs.concat())
    }
});

faulty!(commit_does_nothing {
    fn commit(&mut self, t: &mut [u8], a: &mut [u8], upload: u32, list: &[u8]) -> u32 {
        slices::commit(&mut t.to_vec(), &mut a.to_vec(), upload, list)
    }
});

faulty!(commit_takes_an_odd_byte {
    fn commit(&mut self, t: &mut [u8], a: &mut [u8], upload: u32, list: &[u8]) -> u32 {
        slices::commit(t, a, upload, &list[..list.len() / 2 * 2])
    }
});

faulty!(commit_takes_a_part_twice {
    fn commit(&mut self, t: &mut [u8], a: &mut [u8], upload: u32, list: &[u8]) -> u32 {
        let mut pairs: Vec<&[u8]> = list.chunks(2).collect();
        pairs.dedup();
        slices::commit(t, a, upload, &pairs.concat())
    }
});

faulty_puts!(put_keeps_the_first, |t, a, stamp, path, data, pairs| {
    match object_at(t, a, path) {
        Some(_) => slices::put(&mut t.to_vec(), &mut a.to_vec(), stamp, path, data, pairs),
        None => slices::put(t, a, stamp, path, data, pairs),
    }
});

faulty_puts!(put_takes_stamp_0, |t, a, stamp, path, data, pairs| {
    slices::put(t, a, stamp.max(1), path, data, pairs)
});

faulty_puts!(put_counts_old_bytes, |t, a, stamp, path, data, pairs| {
    let there = object_at(t, a, path).is_some();
    match slices::put(&mut t.to_vec(), &mut a.to_vec(), stamp, b"no-such-path", data, pairs) {
        5 if there => 5,
        _ => slices::put(t, a, stamp, path, data, pairs),
    }
});

faulty_gets!(get_gives_zeros, |t, a, path, answer, pairs, reply| {
    let number = slices::get(t, a, path, answer, pairs, reply);
    if number == 0 {
        let length = u32::from_le_bytes(reply[8..12].try_into().unwrap()) as usize;
        answer[..length].fill(0);
    }
    number
});

faulty_gets!(get_changes_the_rest_of_the_answer, |t, a, path, answer, pairs, reply| {
    let number = slices::get(t, a, path, answer, pairs, reply);
    if number == 0 {
        let length = u32::from_le_bytes(reply[8..12].try_into().unwrap()) as usize;
        answer[length..].fill(0);
    }
    number
});

faulty_heads!(head_takes_a_longer_reply, |t, a, path, pairs, reply| {
    let length = reply.len().min(48);
    slices::head(t, a, path, pairs, &mut reply[..length])
});

faulty_heads!(head_writes_its_reply_when_refused, |t, a, path, pairs, reply| {
    let number = slices::head(t, a, path, pairs, reply);
    if number == 3 {
        reply[8] = 0;
    }
    number
});

faulty!(list_counts_a_record_more {
    fn list(&mut self, t: &[u8], a: &[u8], p: &[u8], s: &[u8], b: &mut [u8], r: &mut [u8]) -> u32 {
        let number = slices::list(t, a, p, s, b, r);
        if number == 0 {
            r[16] = r[16].wrapping_add(1);
        }
        number
    }
});

faulty!(list_wants_a_byte_too_many {
    fn list(&mut self, t: &[u8], a: &[u8], p: &[u8], s: &[u8], b: &mut [u8], r: &mut [u8]) -> u32 {
        match slices::list(t, a, p, s, &mut b.to_vec(), &mut r.to_vec()) {
            0 => match b.split_last_mut() {
                Some((_, b)) => slices::list(t, a, p, s, b, r),
                None => slices::list(t, a, p, s, b, r),
            },
            number => number,
        }
    }
});

faulty!(a_refusal_touches_the_tables {
    fn delete(&mut self, t: &mut [u8], a: &mut [u8], path: &[u8]) -> u32 {
        let number = slices::delete(t, a, path);
        if number == 3 {
            *t.last_mut().unwrap() ^= 1;
        }
        number
    }
});

faulty!(a_refusal_touches_the_arena {
    fn part(&mut self, t: &mut [u8], a: &mut [u8], u: u32, p: u16, d: &[u8], r: &mut [u8]) -> u32 {
        let number = slices::part(t, a, u, p, d, r);
        if number == 5 && !a.is_empty() {
            a[0] ^= 1;
        }
        number
    }
});

faulty!(a_reader_writes {
    fn uploads(&mut self, t: &[u8], a: &[u8], p: &[u8], b: &mut [u8], r: &mut [u8]) -> u32 {
        let byte = unsafe { t.as_ptr().add(t.len() / 2).cast_mut() };
        unsafe { byte.write_volatile(byte.read_volatile() ^ 1) };
        slices::uploads(t, a, p, b, r)
    }
});

faulty_initiates!(reads_past_the_path, |t, a, stamp, path, pairs, reply| {
    std::hint::black_box(unsafe { path.as_ptr().add(path.len()).read_volatile() });
    slices::initiate(t, a, stamp, path, pairs, reply)
});

faulty_puts!(writes_past_the_arena, |t, a, stamp, path, data, pairs| {
    let number = slices::put(t, a, stamp, path, data, pairs);
    if number == 0 {
        unsafe { a.as_mut_ptr().add(a.len()).write_volatile(0) };
    }
    number
});

faulty_gets!(writes_before_the_answer, |t, a, path, answer, pairs, reply| {
    unsafe { answer.as_mut_ptr().sub(1).write_volatile(0) };
    slices::get(t, a, path, answer, pairs, reply)
});

faulty_initiates!(never_ends_its_numbers, |t, a, stamp, path, pairs, reply| {
    match slices::initiate(t, a, stamp, path, pairs, reply) {
        6 => 4,
        number => number,
    }
});

faulty!(part_takes_a_higher_number_for_10000 {
    fn part(&mut self, t: &mut [u8], a: &mut [u8], u: u32, p: u16, d: &[u8], r: &mut [u8]) -> u32 {
        slices::part(t, a, u, p.min(10_000), d, r)
    }
});

faulty!(part_refuses_10000 {
    fn part(&mut self, t: &mut [u8], a: &mut [u8], u: u32, p: u16, d: &[u8], r: &mut [u8]) -> u32 {
        slices::part(t, a, u, if p == 10_000 { 0 } else { p }, d, r)
    }
});

faulty!(part_takes_an_older_part_that_is_there {
    fn part(&mut self, t: &mut [u8], a: &mut [u8], u: u32, p: u16, d: &[u8], r: &mut [u8]) -> u32 {
        let upload = state_of(t, a).and_then(|mut state| state.uploads.remove(&u));
        match upload.and_then(|mut upload| upload.parts.remove(&p)) {
            Some(_) if p > 10_000 => {
                slices::part(&mut t.to_vec(), &mut a.to_vec(), u, 1, d, r)
            }
            _ => slices::part(t, a, u, p, d, r),
        }
    }
});

faulty!(commit_judges_its_list_by_the_rule_of_part {
    fn commit(&mut self, t: &mut [u8], a: &mut [u8], upload: u32, list: &[u8]) -> u32 {
        let mut numbers = list.chunks_exact(2).map(|pair| u16::from_le_bytes([pair[0], pair[1]]));
        let odd = if numbers.any(|number| number > 10_000) { list.len() / 2 * 2 - 1 } else { list.len() };
        slices::commit(t, a, upload, &list[..odd])
    }
});

faulty!(abort_refuses_an_upload_with_an_older_part {
    fn abort(&mut self, t: &mut [u8], a: &mut [u8], upload: u32) -> u32 {
        slices::abort(t, a, if holds_older(t, a, upload) { 0 } else { upload })
    }
});

faulty!(uploads_counts_no_older_part {
    fn uploads(&mut self, t: &[u8], a: &[u8], p: &[u8], b: &mut [u8], r: &mut [u8]) -> u32 {
        let (mut tables, mut arena) = (t.to_vec(), a.to_vec());
        rewrite(&mut tables, &mut arena, |state| {
            state.uploads.values_mut().for_each(|upload| upload.parts.retain(|n, _| *n <= 10_000))
        });
        slices::uploads(&tables, &arena, p, b, r)
    }
});

faulty_heads!(an_older_part_makes_no_store, |t, a, path, pairs, reply| {
    let open = open(t, a);
    match open.iter().any(|(upload, _)| holds_older(t, a, *upload)) {
        true => slices::head(&[], a, path, pairs, reply),
        false => slices::head(t, a, path, pairs, reply),
    }
});

faulty!(part_overlooks_a_bit_of_a_small_upload_number {
    fn part(&mut self, t: &mut [u8], a: &mut [u8], u: u32, p: u16, d: &[u8], r: &mut [u8]) -> u32 {
        let seen = if u < 1 << 31 { u & !(1 << 16) } else { u };
        slices::part(t, a, seen, p, d, r)
    }
});

faulty_heads!(trusts_damaged_tables, |t, a, path, pairs, reply| {
    match slices::head(t, a, path, pairs, reply) {
        1 if reply.len() == 48 && t.len() == TABLES_LEN && path.is_empty() => {
            reply.fill(0);
            0
        }
        number => number,
    }
});

faulty_heads!(takes_any_next_number, |t, a, path, pairs, reply| {
    let number = slices::head(t, a, path, pairs, reply);
    if number != 1 || t.len() < 12 {
        return number;
    }
    let mut mended = t.to_vec();
    mended[4..12].copy_from_slice(&(1u64 << 32).to_le_bytes());
    slices::head(&mended, a, path, pairs, reply)
});

faulty!(fresh_takes_a_longer_arena {
    fn fresh(&mut self, t: &mut [u8], a: &mut [u8]) -> u32 {
        let length = a.len().min(1_048_576);
        slices::fresh(t, &mut a[..length])
    }
});

faulty!(reuses_an_aborted_number {
    fn abort(&mut self, t: &mut [u8], a: &mut [u8], upload: u32) -> u32 {
        // An empty store starts its numbers again.
        let number = slices::abort(t, a, upload);
        let no_objects = slices::list(t, a, b"", b"", &mut [], &mut [0; 48]) == 0;
        let no_uploads = slices::uploads(t, a, b"", &mut [], &mut [0; 48]) == 0;
        if number == 0 && no_objects && no_uploads {
            slices::fresh(t, a);
        }
        number
    }
});

faulty_deletes!(gives_results_in_another_order, |t, a, n, p, r| {
    let number = slices::delete_objects(t, a, n, p, r);
    if number == 0 {
        r[..p.len() / 8].reverse();
    }
    number
});

faulty_deletes!(a_name_listed_twice_has_0_twice, |t, a, n, p, r| {
    let number = slices::delete_objects(t, a, n, p, r);
    if number == 0 {
        let names: Vec<_> = p.chunks(8).map(|place| name_at(n, place)).collect();
        for i in 0..names.len() {
            if (0..i).any(|j| names[j] == names[i] && r[j] == 0) {
                r[i] = 0;
            }
        }
    }
    number
});

faulty_deletes!(cuts_the_places_at_1000, |t, a, n, p, r| {
    slices::delete_objects(t, a, n, &p[..p.len().min(8000)], r)
});

faulty_deletes!(a_place_at_the_end_is_outside, |t, a, n, p, r| {
    slices::delete_objects(t, a, &n[..n.len().saturating_sub(1)], p, r)
});

faulty_deletes!(a_place_one_past_the_end_is_cut, |t, a, n, p, r| {
    let cut = |start: u32, length: u32| match u64::from(start) + u64::from(length) {
        end if end == n.len() as u64 + 1 => (start, length.saturating_sub(1)),
        _ => (start, length),
    };
    slices::delete_objects(t, a, n, &changed(p, cut), r)
});

faulty_deletes!(a_place_ends_modulo_32_bits, |t, a, n, p, r| {
    let wrapped = |start: u32, length: u32| match start.overflowing_add(length) {
        (end, true) => (0, end),
        _ => (start, length),
    };
    slices::delete_objects(t, a, n, &changed(p, wrapped), r)
});

faulty_deletes!(writes_results_before_a_refusal_by_7, |t, a, n, p, r| {
    let number = slices::delete_objects(t, a, n, p, r);
    if number == 7 {
        let (mut results, room) = (vec![0; p.len() / 8], r.len());
        slices::delete_objects(&mut t.to_vec(), &mut a.to_vec(), n, p, &mut results);
        r.copy_from_slice(&results[..room]);
    }
    number
});

faulty_deletes!(deletes_before_a_refusal_by_7, |t, a, n, p, r| {
    let number = slices::delete_objects(t, a, n, p, r);
    if number == 7 {
        slices::delete_objects(t, a, n, &p[..8 * r.len()], &mut r.to_vec());
    }
    number
});

faulty_deletes!(changes_the_rest_of_the_results, |t, a, n, p, r| {
    let number = slices::delete_objects(t, a, n, p, r);
    if number == 0 {
        r[p.len() / 8..].fill(0);
    }
    number
});

faulty_deletes!(takes_places_with_bytes_left_over, |t, a, n, p, r| {
    slices::delete_objects(t, a, n, &p[..p.len() / 8 * 8], r)
});

faulty_deletes!(bytes_left_over_are_seen_before_too_many_places, |t, a, n, p, r| {
    match slices::delete_objects(t, a, n, p, r) {
        8 if p.len() % 8 != 0 => 2,
        number => number,
    }
});

faulty_sweeps!(sweeps_what_started_at_the_stamp, |t, a, s, m, r| {
    slices::sweep(t, a, s.saturating_add(s.min(1)), m, r)
});

faulty_sweeps!(says_more_where_just_as_many_were_due, |t, a, s, m, r| {
    let number = slices::sweep(t, a, s, m, r);
    if number == 0 && m > 0 && swept(r) == m {
        r[25] = 1;
    }
    number
});

faulty_sweeps!(says_more_where_younger_uploads_are_open, |t, a, s, m, r| {
    let number = slices::sweep(t, a, s, m, r);
    if number == 0 && !open(t, a).is_empty() {
        r[25] = 1;
    }
    number
});

faulty_sweeps!(sweeps_a_younger_upload_with_a_lower_number_first, |t, a, s, m, r| {
    sweep_by(|(number, _)| u64::from(*number), (t, a), s, m, r)
});

faulty_sweeps!(sweeps_the_oldest_first, |t, a, s, m, r| {
    sweep_by(|(_, started)| *started, (t, a), s, m, r)
});

faulty_sweeps!(counts_as_many_as_it_might_have_swept, |t, a, s, m, r| {
    let number = slices::sweep(t, a, s, m, r);
    if number == 0 {
        r[16..20].copy_from_slice(&m.to_le_bytes());
    }
    number
});

faulty_sweeps!(sweeps_all_where_at_most_0_are_asked, |t, a, s, m, r| {
    slices::sweep(t, a, s, if m == 0 { u32::MAX } else { m }, r)
});

faulty_sweeps!(sweep_overlooks_all_but_8_bits_of_most, |t, a, s, m, r| {
    slices::sweep(t, a, s, m & 255, r)
});

faulty_sweeps!(sweep_compares_stamps_as_if_signed, |t, a, s, m, r| {
    slices::sweep(t, a, if s > i64::MAX as u64 { 1 } else { s }, m, r)
});

faulty_sweeps!(sweep_takes_stamp_0, |t, a, s, m, r| { slices::sweep(t, a, s.max(1), m, r) });

faulty_sweeps!(sweep_writes_its_reply_when_refused, |t, a, s, m, r| {
    let number = slices::sweep(t, a, s, m, r);
    if number == 2 {
        r.fill(0);
    }
    number
});

faulty_sweeps!(sweep_leaves_the_rest_of_its_reply, |t, a, s, m, r| {
    let before = r.to_vec();
    let number = slices::sweep(t, a, s, m, r);
    if number == 0 {
        r[28..].copy_from_slice(&before[28..]);
    }
    number
});

/// Until the next FRESH there is that much less room for PUT.
#[test]
fn holds_the_parts_of_swept_uploads() {
    #[derive(Default)]
    struct Faulty {
        kept: usize,
    }
    fn held(t: &[u8], a: &[u8]) -> usize {
        state_of(t, a).map_or(0, |state| state.held())
    }
    impl Library for Faulty {
        fn fresh(&mut self, t: &mut [u8], a: &mut [u8]) -> u32 {
            self.kept = 0;
            slices::fresh(t, a)
        }

        fn sweep(&mut self, t: &mut [u8], a: &mut [u8], s: u64, m: u32, r: &mut [u8]) -> u32 {
            let before = held(t, a);
            let number = slices::sweep(t, a, s, m, r);
            self.kept += before - held(t, a);
            number
        }

        fn put(
            &mut self,
            t: &mut [u8],
            a: &mut [u8],
            stamp: u64,
            path: &[u8],
            data: &[u8],
            pairs: &[u8],
        ) -> u32 {
            let with_kept = [data, &vec![0; self.kept]].concat();
            match slices::put(&mut t.to_vec(), &mut a.to_vec(), stamp, path, &with_kept, pairs) {
                5 => 5,
                _ => slices::put(t, a, stamp, path, data, pairs),
            }
        }
    }
    finds("holds_the_parts_of_swept_uploads", Faulty::default);
}

faulty_pairs!(
    put_counts_pairs_before_system_keys_are_dropped,
    initiate_counts_pairs_before_system_keys_are_dropped,
    |pairs| {
        if pairs.len() > 8 {
            pairs.push(no_pair());
        }
    }
);

faulty_pairs!(put_compares_system_keys, initiate_compares_system_keys, |pairs| {
    let system = |name: &[u8]| pairs.iter().filter(|(key, _)| *key == name).count();
    if SYSTEM_KEYS.iter().any(|name| system(name) > 1) {
        pairs.push(no_pair());
    }
});

faulty_pairs!(put_drops_system_keys_unjudged, initiate_drops_system_keys_unjudged, |pairs| {
    pairs.retain(|(key, _)| !is_system(key))
});

faulty_pairs!(put_takes_the_last_of_equal_keys, initiate_takes_the_last_of_equal_keys, |pairs| {
    let by_key: BTreeMap<_, _> = pairs.drain(..).collect();
    pairs.extend(by_key);
});

faulty_pairs!(put_takes_the_first_eight_pairs, initiate_takes_the_first_eight_pairs, |pairs| {
    let mut count = 0;
    pairs.retain(|(key, value)| {
        count += usize::from(!is_system(key));
        count <= 8 || !pair_ok(key, value)
    });
});

faulty_pairs!(put_takes_capitals_in_a_key, initiate_takes_capitals_in_a_key, |pairs| {
    pairs.iter_mut().for_each(|(key, _)| key.make_ascii_lowercase())
});

faulty_pairs!(put_takes_a_value_of_65_bytes, initiate_takes_a_value_of_65_bytes, |pairs| {
    pairs
        .iter_mut()
        .filter(|(_, value)| value.len() == 65)
        .for_each(|(_, value)| value.truncate(64))
});

faulty_pairs!(put_takes_byte_127_in_a_value, initiate_takes_byte_127_in_a_value, |pairs| {
    for (_, value) in pairs.iter_mut() {
        value.iter_mut().filter(|byte| **byte == 127).for_each(|byte| *byte = b'~');
    }
});

faulty_pairs!(put_takes_a_key_of_33_bytes, initiate_takes_a_key_of_33_bytes, |pairs| {
    pairs.iter_mut().filter(|(key, _)| key.len() == 33).for_each(|(key, _)| key.truncate(32))
});

faulty_pairs!(put_drops_a_pair_without_a_key, initiate_drops_a_pair_without_a_key, |pairs| {
    pairs.retain(|(key, _)| !key.is_empty())
});

faulty_puts!(put_takes_pairs_that_are_cut_off, |t, a, stamp, path, data, pairs| {
    slices::put(t, a, stamp, path, data, &encoded(&listed(pairs).0))
});

faulty_initiates!(initiate_takes_pairs_that_are_cut_off, |t, a, stamp, path, pairs, reply| {
    slices::initiate(t, a, stamp, path, &encoded(&listed(pairs).0), reply)
});

faulty_puts!(put_holds_no_pairs, |t, a, stamp, path, data, pairs| {
    match slices::put(t, a, stamp, path, data, pairs) {
        5 => slices::put(t, a, stamp, path, data, &[]),
        number => number,
    }
});

faulty_initiates!(initiate_holds_no_pairs, |t, a, stamp, path, pairs, reply| {
    match slices::initiate(t, a, stamp, path, pairs, reply) {
        5 => slices::initiate(t, a, stamp, path, &[], reply),
        number => number,
    }
});

faulty_puts!(put_holds_the_lengths_of_pairs, |t, a, stamp, path, data, pairs| {
    let lengths = vec![0; 2 * listed(pairs).0.len()];
    let longer = [data, &lengths].concat();
    match slices::put(&mut t.to_vec(), &mut a.to_vec(), stamp, path, &longer, pairs) {
        5 => 5,
        _ => slices::put(t, a, stamp, path, data, pairs),
    }
});

faulty_puts!(put_holds_what_is_dropped, |t, a, stamp, path, data, pairs| {
    let dropped = listed(pairs).0.into_iter().filter(|(key, _)| is_system(key));
    let dropped = vec![0; dropped.map(|(key, value)| key.len() + value.len()).sum()];
    let longer = [data, &dropped].concat();
    match slices::put(&mut t.to_vec(), &mut a.to_vec(), stamp, path, &longer, pairs) {
        5 => 5,
        _ => slices::put(t, a, stamp, path, data, pairs),
    }
});

faulty_puts!(put_counts_old_pairs, |t, a, stamp, path, data, pairs| {
    let old = object_at(t, a, path).map_or(0, |object| bytes_held(&object.pairs));
    let longer = [data, &vec![0; old]].concat();
    match slices::put(&mut t.to_vec(), &mut a.to_vec(), stamp, path, &longer, pairs) {
        5 => 5,
        _ => slices::put(t, a, stamp, path, data, pairs),
    }
});

faulty_puts!(put_keeps_old_pairs, |t, a, stamp, path, data, pairs| {
    let old = object_at(t, a, path).map(|object| pair_bytes(&object.pairs)).unwrap_or_default();
    let room = slices::put(&mut t.to_vec(), &mut a.to_vec(), stamp, path, data, &old) == 0;
    let pairs = if pairs.is_empty() && room { &old } else { pairs };
    slices::put(t, a, stamp, path, data, pairs)
});

faulty_puts!(put_sees_a_full_store_before_bad_pairs, |t, a, stamp, path, data, pairs| {
    match slices::put(t, a, stamp, path, data, pairs) {
        2 => match slices::put(&mut t.to_vec(), &mut a.to_vec(), stamp, path, data, &[]) {
            0 => 2,
            number => number,
        },
        number => number,
    }
});

/// 16 uploads are open then.
#[test]
fn initiate_sees_a_full_arena_before_a_full_table() {
    struct Faulty;
    impl Library for Faulty {
        fn initiate(
            &mut self,
            t: &mut [u8],
            a: &mut [u8],
            stamp: u64,
            path: &[u8],
            pairs: &[u8],
            reply: &mut [u8],
        ) -> u32 {
            let free = state_of(t, a).map_or(0, |state| state.arena - state.held());
            match slices::initiate(t, a, stamp, path, pairs, reply) {
                4 if held_of(pairs) > free => 5,
                number => number,
            }
        }
    }
    finds_within(17, "initiate_sees_a_full_arena_before_a_full_table", || Faulty);
}

faulty_initiates!(
    initiate_sees_used_up_numbers_before_a_full_arena,
    |t, a, stamp, path, pairs, reply| {
        match slices::initiate(t, a, stamp, path, pairs, reply) {
            5 => match slices::initiate(
                &mut t.to_vec(),
                &mut a.to_vec(),
                stamp,
                path,
                &[],
                &mut [0; 48],
            ) {
                6 => 6,
                _ => 5,
            },
            number => number,
        }
    }
);

faulty_puts!(the_etag_is_of_the_pairs_too, |t, a, stamp, path, data, pairs| {
    let number = slices::put(t, a, stamp, path, data, pairs);
    if number == 0 && !pairs.is_empty() {
        rewrite(t, a, |state| {
            let object = state.objects.get_mut(path).unwrap();
            let mut block = pair_bytes(&object.pairs);
            block.extend(data);
            object.etag = Etag::of_data(&block);
        });
    }
    number
});

faulty_copies!(copies_without_pairs, |t, a, stamp, source, destination| {
    let number = slices::copy(t, a, stamp, source, destination);
    if number == 0 {
        rewrite(t, a, |state| state.objects.get_mut(destination).unwrap().pairs.clear());
    }
    number
});

faulty_copies!(copy_keeps_the_destinations_pairs, |t, a, stamp, source, destination| {
    let old = object_at(t, a, destination);
    let number = slices::copy(t, a, stamp, source, destination);
    if let (0, Some(old)) = (number, old) {
        rewrite(t, a, |state| state.objects.get_mut(destination).unwrap().pairs = old.pairs);
    }
    number
});

faulty_copies!(copy_needs_no_room_for_pairs, |t, a, stamp, source, destination| {
    match slices::copy(t, a, stamp, source, destination) {
        5 => {
            let data = object_at(t, a, source).unwrap().data;
            slices::put(t, a, stamp, destination, &data, &[])
        }
        number => number,
    }
});

faulty!(commit_keeps_the_replaced_objects_pairs {
    fn commit(&mut self, t: &mut [u8], a: &mut [u8], upload: u32, list: &[u8]) -> u32 {
        let before = state_of(t, a);
        let number = slices::commit(t, a, upload, list);
        if let (0, Some(before)) = (number, before) {
            let path = &before.uploads[&upload].path;
            if let Some(old) = before.objects.get(path) {
                rewrite(t, a, |state| {
                    state.objects.get_mut(path).unwrap().pairs = old.pairs.clone()
                });
            }
        }
        number
    }
});

faulty!(commits_without_pairs {
    fn commit(&mut self, t: &mut [u8], a: &mut [u8], upload: u32, list: &[u8]) -> u32 {
        let before = state_of(t, a);
        let number = slices::commit(t, a, upload, list);
        if let (0, Some(before)) = (number, before) {
            let path = &before.uploads[&upload].path;
            rewrite(t, a, |state| state.objects.get_mut(path).unwrap().pairs.clear());
        }
        number
    }
});

/// What GET and HEAD answer where the pairs of the last PUT to the path are still there.
#[test]
fn answers_pairs_in_the_order_given() {
    #[derive(Default)]
    struct Faulty {
        given: BTreeMap<Vec<u8>, Vec<u8>>,
    }
    impl Library for Faulty {
        fn put(
            &mut self,
            t: &mut [u8],
            a: &mut [u8],
            stamp: u64,
            path: &[u8],
            data: &[u8],
            pairs: &[u8],
        ) -> u32 {
            let number = slices::put(t, a, stamp, path, data, pairs);
            if number == 0 {
                let kept = changed_pairs(pairs, |pairs| pairs.retain(|(key, _)| !is_system(key)));
                self.given.insert(path.to_vec(), kept);
            }
            number
        }

        fn get(
            &mut self,
            t: &[u8],
            a: &[u8],
            path: &[u8],
            answer: &mut [u8],
            pairs: &mut [u8],
            reply: &mut [u8],
        ) -> u32 {
            let number = slices::get(t, a, path, answer, pairs, reply);
            if let (0, Some(given)) = (number, self.given.get(path)) {
                let length = usize::from(reply[46]) + 256 * usize::from(reply[47]);
                let (mut kept, mut sorted) = (listed(&pairs[..length]).0, listed(given).0);
                kept.sort();
                sorted.sort();
                if kept == sorted {
                    pairs[..length].copy_from_slice(given);
                }
            }
            number
        }
    }
    finds("answers_pairs_in_the_order_given", Faulty::default);
}

/// The pairs of an object, as they are answered.
fn pairs_at(t: &[u8], a: &[u8], path: &[u8]) -> Vec<u8> {
    object_at(t, a, path).map(|object| pair_bytes(&object.pairs)).unwrap_or_default()
}

faulty_gets!(writes_pairs_though_the_answer_is_short, |t, a, path, answer, pairs, reply| {
    let number = slices::get(t, a, path, answer, pairs, reply);
    let bytes = pairs_at(t, a, path);
    if number == 7 && bytes.len() <= pairs.len() {
        pairs[..bytes.len()].copy_from_slice(&bytes);
    }
    number
});

faulty_gets!(writes_the_answer_though_the_pairs_are_short, |t, a, path, answer, pairs, reply| {
    let number = slices::get(t, a, path, answer, pairs, reply);
    if number == 7 {
        let data = object_at(t, a, path).unwrap().data;
        if data.len() <= answer.len() {
            answer[..data.len()].copy_from_slice(&data);
        }
    }
    number
});

faulty_gets!(get_overlooks_the_room_for_pairs, |t, a, path, answer, pairs, reply| {
    match slices::get(t, a, path, answer, pairs, reply) {
        7 => slices::get(t, a, path, answer, &mut [0; 784], reply),
        number => number,
    }
});

faulty_heads!(head_overlooks_the_room_for_pairs, |t, a, path, pairs, reply| {
    match slices::head(t, a, path, pairs, reply) {
        7 => slices::head(t, a, path, &mut [0; 784], reply),
        number => number,
    }
});

faulty_heads!(head_writes_no_pairs, |t, a, path, pairs, reply| {
    slices::head(t, a, path, &mut pairs.to_vec(), reply)
});

faulty_heads!(head_wants_a_byte_too_many, |t, a, path, pairs, reply| {
    match slices::head(t, a, path, &mut pairs.to_vec(), &mut reply.to_vec()) {
        0 if pairs.len() == pairs_at(t, a, path).len() && !pairs.is_empty() => 7,
        _ => slices::head(t, a, path, pairs, reply),
    }
});

faulty_heads!(head_changes_the_rest_of_its_answer, |t, a, path, pairs, reply| {
    let number = slices::head(t, a, path, pairs, reply);
    if number == 0 {
        pairs[pairs_at(t, a, path).len()..].fill(0);
    }
    number
});

faulty_heads!(head_counts_the_bytes_of_pairs_without_lengths, |t, a, path, pairs, reply| {
    let number = slices::head(t, a, path, pairs, reply);
    if number == 0 {
        let held = object_at(t, a, path).map_or(0, |object| bytes_held(&object.pairs));
        reply[46..48].copy_from_slice(&(held as u16).to_le_bytes());
    }
    number
});

faulty_gets!(get_counts_no_pairs, |t, a, path, answer, pairs, reply| {
    let number = slices::get(t, a, path, answer, pairs, reply);
    if number == 0 {
        reply[44..48].fill(0);
    }
    number
});

faulty_heads!(the_length_is_of_the_pairs_too, |t, a, path, pairs, reply| {
    let number = slices::head(t, a, path, pairs, reply);
    if number == 0 {
        let held = object_at(t, a, path).map_or(0, |object| bytes_held(&object.pairs));
        let length = u32::from_le_bytes(reply[8..12].try_into().unwrap()) + held as u32;
        reply[8..12].copy_from_slice(&length.to_le_bytes());
    }
    number
});

faulty_gets!(writes_before_the_second_answer, |t, a, path, answer, pairs, reply| {
    unsafe { pairs.as_mut_ptr().sub(1).write_volatile(0) };
    slices::get(t, a, path, answer, pairs, reply)
});

faulty_puts!(reads_past_the_pairs, |t, a, stamp, path, data, pairs| {
    std::hint::black_box(unsafe { pairs.as_ptr().add(pairs.len()).read_volatile() });
    slices::put(t, a, stamp, path, data, pairs)
});

/// A store that takes what it finds in the memory, where only stored keys or values are at fault.
macro_rules! faulty_tests {
    ($name:ident, $passes:expr) => {
        faulty_heads!($name, |t, a, path, pairs, reply| {
            match slices::head(t, a, path, pairs, reply) {
                1 if path.is_empty() => {
                    slices::head(t, &other_keys(t, a, $passes), path, pairs, reply)
                }
                number => number,
            }
        });
    };
}

faulty_tests!(takes_stored_keys_out_of_order, |key, value| pair_ok(key, value) && !is_system(key));
faulty_tests!(takes_a_stored_system_key, pair_ok);
faulty_tests!(takes_any_byte_in_a_stored_key, |_, _| true);

faulty_heads!(takes_any_byte_in_a_stored_value, |t, a, path, pairs, reply| {
    match slices::head(t, a, path, pairs, reply) {
        1 if path.is_empty() => {
            let other = a.iter().map(|byte| if (32..=126).contains(byte) { *byte } else { b'a' });
            slices::head(t, &other.collect::<Vec<_>>(), path, pairs, reply)
        }
        number => number,
    }
});

faulty_carries!(carry_over_trusts_the_former_tables, |f, a, t| {
    if f.len() == FORMER_TABLES_LEN && t.len() == TABLES_LEN {
        t[..f.len()].copy_from_slice(f);
        return 0;
    }
    slices::carry_over(f, a, t)
});

faulty_carries!(carry_over_clears_the_rest, |f, a, t| {
    let number = slices::carry_over(f, a, t);
    if number == 0 {
        t[f.len()..].fill(0);
    }
    number
});

faulty_carries!(carry_over_writes_before_it_refuses, |f, a, t| {
    let number = slices::carry_over(f, a, t);
    if number == 1 && f.len() <= t.len() {
        t[..f.len()].copy_from_slice(f);
    }
    number
});

faulty_carries!(carry_over_takes_longer_tables, |f, a, t| {
    slices::carry_over(&f[..f.len().min(FORMER_TABLES_LEN)], a, t)
});

faulty_carries!(carry_over_fills_shorter_tables, |f, a, t| {
    match slices::carry_over(f, a, t) {
        1 if t.len() >= f.len() => {
            let number = slices::carry_over(f, a, &mut [0; TABLES_LEN]);
            if number == 0 {
                t[..f.len()].copy_from_slice(f);
            }
            number
        }
        number => number,
    }
});

faulty_carries!(carry_over_overlooks_the_arenas_length, |f, a, t| {
    let length =
        f.get(..4).map_or(0, |bytes| u32::from_le_bytes(bytes.try_into().unwrap()) as usize);
    let mut arena = a.to_vec();
    arena.resize(length.min(1_048_576), 0);
    slices::carry_over(f, &arena, t)
});

faulty_carries!(carry_over_does_nothing, |f, a, t| { slices::carry_over(f, a, &mut t.to_vec()) });

faulty_carries!(carry_over_writes_the_arena, |f, a, t| {
    if let Some(last) = a.last() {
        let byte = (last as *const u8).cast_mut();
        unsafe { byte.write_volatile(byte.read_volatile() ^ 1) };
    }
    slices::carry_over(f, a, t)
});

faulty_carries!(carry_over_starts_its_numbers_again, |f, a, t| {
    let number = slices::carry_over(f, a, t);
    if number == 0 && f[14..16] == [0, 0] {
        t[4..12].copy_from_slice(&1u64.to_le_bytes());
    }
    number
});

/// A store that reads lines otherwise. The fault shows among lines, in a list of at most 12 steps.
macro_rules! faulty_lines {
    ($name:ident, |$t:ident, $a:ident, $line:ident, $answer:ident, $pairs:ident, $reply:ident| $body:block) => {
        #[test]
        fn $name() {
            struct Faulty;
            impl Library for Faulty {
                fn replay_line(
                    &mut self,
                    $t: &mut [u8],
                    $a: &mut [u8],
                    $line: &[u8],
                    $answer: &mut [u8],
                    $pairs: &mut [u8],
                    $reply: &mut [u8],
                ) -> u32 {
                    $body
                }
            }
            finds_in(&search::LINES, 12, stringify!($name), || Faulty);
        }
    };
}

/// A store that takes another line in a line's place.
macro_rules! lines_taken_for {
    ($name:ident, |$line:ident| $other:expr) => {
        faulty_lines!($name, |t, a, line, answer, pairs, reply| {
            let $line = line;
            slices::replay_line(t, a, &$other, answer, pairs, reply)
        });
    };
}

/// The bytes with each run of some changed.
fn replaced(line: &[u8], old: &str, new: &str) -> Vec<u8> {
    let mut bytes = Vec::new();
    let mut rest = line;
    while let Some(first) = rest.first() {
        match rest.strip_prefix(old.as_bytes()) {
            Some(after) => {
                bytes.extend(new.as_bytes());
                rest = after;
            }
            None => {
                bytes.push(*first);
                rest = &rest[1..];
            }
        }
    }
    bytes
}

/// The line of a changed entry.
fn reworded(line: &[u8], change: impl Fn(&mut Entry)) -> Vec<u8> {
    match Entry::read(line) {
        Some(mut entry) => {
            change(&mut entry);
            entry.to_string().into_bytes()
        }
        None => line.to_vec(),
    }
}

#[test]
fn nothing_is_found_in_the_proved_store_among_lines() {
    let tally = shared::<Tally>();
    if let Err(found) = search(&|| Box::new(Proved), &search::LINES, 5, CALLS / 4, tally) {
        panic!("list {}\n{}{}", found.index, found.list, found.end);
    }
}

lines_taken_for!(line_in_capitals, |line| line.to_ascii_lowercase());
lines_taken_for!(line_of_an_odd_digit, |line| {
    let odd = line.ends_with(b"\")") && Entry::read(line).is_none();
    if odd {
        [&line[..line.len() - 3], b"\")"].concat()
    } else {
        line.to_vec()
    }
});
lines_taken_for!(line_with_two_spaces, |line| replaced(line, "  ", " "));
lines_taken_for!(line_with_a_space_before_its_bracket, |line| replaced(line, " )", ")"));
lines_taken_for!(line_with_a_tab, |line| replaced(line, "\t", " "));
lines_taken_for!(line_with_a_carriage_return, |line| line.strip_suffix(b"\r").unwrap_or(line));
lines_taken_for!(line_with_a_line_feed, |line| line.strip_suffix(b"\n").unwrap_or(line));
lines_taken_for!(line_up_to_a_line_feed, |line| {
    let end = line.iter().position(|byte| *byte == b'\n').unwrap_or(line.len());
    line[..end].to_vec()
});
lines_taken_for!(line_up_to_a_nul, |line| {
    let end = line.iter().position(|byte| *byte == 0).unwrap_or(line.len());
    line[..end].to_vec()
});
lines_taken_for!(line_with_zeros_before_a_number, |line| replaced(line, " 0", " "));
lines_taken_for!(line_with_zero_of_two_digits, |line| replaced(line, " 00", " 0"));
lines_taken_for!(line_with_a_number_of_2_64, |line| {
    replaced(line, "18446744073709551616", "18446744073709551615")
});
lines_taken_for!(line_with_pairs_for_every_verb, |line| {
    let start = replaced(line, " (\"", "\n").iter().position(|byte| *byte == b'\n');
    match start {
        Some(start) if Entry::read(line).is_none() => [&line[..start], b")"].concat(),
        _ => line.to_vec(),
    }
});
lines_taken_for!(line_with_bytes_after_it, |line| {
    let end = line.iter().rposition(|byte| *byte == b')').map_or(line.len(), |end| end + 1);
    line[..end].to_vec()
});
lines_taken_for!(line_with_a_number_cut_to_32_bits, |line| {
    reworded(line, |entry| match entry {
        Entry::Part { upload, .. } | Entry::Commit { upload, .. } | Entry::Abort { upload } => {
            *upload %= 1 << 32;
        }
        _ => (),
    })
});
lines_taken_for!(line_with_a_part_cut_to_16_bits, |line| {
    reworded(line, |entry| match entry {
        Entry::Part { part, .. } => *part %= 1 << 16,
        Entry::Commit { list, .. } => list.iter_mut().for_each(|part| *part %= 1 << 16),
        _ => (),
    })
});
lines_taken_for!(line_of_a_list_in_order, |line| {
    reworded(line, |entry| match entry {
        Entry::Commit { list, .. } => list.sort(),
        _ => (),
    })
});
lines_taken_for!(line_of_suffix_and_prefix, |line| {
    reworded(line, |entry| match entry {
        Entry::List { prefix, suffix } => std::mem::swap(prefix, suffix),
        _ => (),
    })
});
lines_taken_for!(line_without_its_last_pair, |line| {
    reworded(line, |entry| match entry {
        Entry::Put { pairs, .. } | Entry::Initiate { pairs, .. } => drop(pairs.pop()),
        _ => (),
    })
});
lines_taken_for!(line_with_a_long_key_cut, |line| {
    reworded(line, |entry| match entry {
        Entry::Put { pairs, .. } | Entry::Initiate { pairs, .. } => {
            pairs.iter_mut().for_each(|(key, _)| key.truncate(32));
        }
        _ => (),
    })
});
faulty_lines!(line_of_4097_bytes, |t, a, line, answer, pairs, reply| {
    match (slices::replay_line(t, a, line, answer, pairs, reply), line.len()) {
        (9, 4097) => 2,
        (number, _) => number,
    }
});
faulty_lines!(line_of_4096_bytes_refused, |t, a, line, answer, pairs, reply| {
    let line = if line.len() == 4096 { b"" } else { line };
    slices::replay_line(t, a, line, answer, pairs, reply)
});
faulty_lines!(line_judged_before_the_memory, |t, a, line, answer, pairs, reply| {
    if Entry::read(line).is_none() {
        return 9;
    }
    slices::replay_line(t, a, line, answer, pairs, reply)
});
faulty_lines!(line_judged_before_the_reply, |t, a, line, answer, pairs, reply| {
    match slices::replay_line(t, a, line, answer, pairs, reply) {
        1 if reply.len() != 48 && Entry::read(line).is_none() && state_of(t, a).is_some() => 9,
        number => number,
    }
});
faulty_lines!(empty_line_accepted, |t, a, line, answer, pairs, reply| {
    match slices::replay_line(t, a, line, answer, pairs, reply) {
        9 if line.is_empty() => 0,
        number => number,
    }
});
faulty_lines!(reply_left_where_the_call_has_none, |t, a, line, answer, pairs, reply| {
    let before = reply.to_vec();
    let number = slices::replay_line(t, a, line, answer, pairs, reply);
    if line.starts_with(b"(put") {
        reply.copy_from_slice(&before);
    }
    number
});
faulty_lines!(reply_written_for_no_line, |t, a, line, answer, pairs, reply| {
    let number = slices::replay_line(t, a, line, answer, pairs, reply);
    if number == 9 {
        reply.fill(0);
    }
    number
});
faulty_lines!(answer_written_for_no_line, |t, a, line, answer, pairs, reply| {
    let number = slices::replay_line(t, a, line, answer, pairs, reply);
    if let (9, Some(byte)) = (number, answer.first_mut()) {
        *byte = !*byte;
    }
    number
});
faulty_lines!(second_answer_written_by_list, |t, a, line, answer, pairs, reply| {
    let number = slices::replay_line(t, a, line, answer, pairs, reply);
    if let (true, 0, Some(byte)) = (line.starts_with(b"(list"), number, pairs.first_mut()) {
        *byte = !*byte;
    }
    number
});
faulty_lines!(free_byte_written_for_no_line, |t, a, line, answer, pairs, reply| {
    let number = slices::replay_line(t, a, line, answer, pairs, reply);
    if let (9, Some(byte)) = (number, t.last_mut()) {
        *byte = !*byte;
    }
    number
});
faulty_lines!(get_by_head, |t, a, line, answer, pairs, reply| {
    slices::replay_line(t, a, &replaced(line, "(get", "(head"), answer, pairs, reply)
});
