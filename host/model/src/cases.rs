//! Document 01's cases as a table: the marked orders of the day, the unmarked ones and the slips.
//! Then document 02's. Each starts from FRESH; what is expected is written out, not computed by a
//! store.

use crate::call::{Answer, Call, Reply};
use crate::etag::Etag;
use crate::md5::Digest;

/// Calls in order, each with the reply that the documents ask for.
pub struct Case {
    pub name: &'static str,
    pub arena: usize,
    pub steps: Vec<(Call, Reply)>,
}

impl Case {
    /// Runs the case over a store that is fresh; says the first call with another reply.
    pub fn check(&self, mut call: impl FnMut(&Call) -> Reply) -> Result<(), String> {
        for (i, (made, expected)) in self.steps.iter().enumerate() {
            let reply = call(made);
            if reply != *expected {
                let at = format!("{}, call {}: {made}", self.name, i + 1);
                return Err(format!("{at}\n  expected {expected:?}\n  answered {reply:?}"));
            }
        }
        Ok(())
    }
}

/// What an untouched byte of an answer buffer holds.
const UNTOUCHED: u8 = 0xee;

// Digests by md5sum(1).
const OF_NOTHING: &str = "d41d8cd98f00b204e9800998ecf8427e";
const OF_A: &str = "7fc56270e7a70fa81a5935b72eacbe29";
const OF_B: &str = "9d5ed678fe57bcca610140957afab571";
const OF_XYZ: &str = "d16fb36f0911f878998c136191af705e";
const OF_AB: &str = "b86fc6b051f63d73de262d4c34e3a0a9";
const OF_BA: &str = "5fc810cf62601df84b7923b9964c53e6";
const OF_THE_DIGESTS_OF_B_AND_A: &str = "e010117c9617553bf0b9556c0f5b541f";

fn digest(text: &str) -> Digest {
    std::array::from_fn(|i| u8::from_str_radix(&text[2 * i..2 * i + 2], 16).expect("hexadecimal"))
}

fn plain(text: &str) -> Etag {
    Etag::Plain(digest(text))
}

fn joined(text: &str, count: u16) -> Etag {
    Etag::Joined(digest(text), count)
}

/// Pairs as a call takes and writes them.
fn pairs(list: &[(&str, &str)]) -> Vec<u8> {
    let counted = |text: &str| [&[text.len() as u8], text.as_bytes()].concat();
    list.iter().flat_map(|(key, value)| [counted(key), counted(value)].concat()).collect()
}

fn put(stamp: u64, path: &str, data: &str) -> Call {
    put_with(stamp, path, data, &[])
}

fn put_with(stamp: u64, path: &str, data: &str, pairs: &[u8]) -> Call {
    Call::Put { stamp, path: path.into(), data: data.into(), pairs: pairs.into() }
}

fn get(path: &str) -> Call {
    get_into(path, 8, 5)
}

fn get_into(path: &str, room: usize, pairs_room: usize) -> Call {
    let (buffer, pairs_buffer) = (vec![UNTOUCHED; room], vec![UNTOUCHED; pairs_room]);
    Call::Get { path: path.into(), buffer, pairs_buffer }
}

fn head(path: &str) -> Call {
    head_into(path, 5)
}

fn head_into(path: &str, pairs_room: usize) -> Call {
    Call::Head { path: path.into(), pairs_buffer: vec![UNTOUCHED; pairs_room] }
}

fn delete(path: &str) -> Call {
    Call::Delete { path: path.into() }
}

fn delete_objects(names: &str, places: &[(u32, u32)], room: usize) -> Call {
    let place = |(start, length): &(u32, u32)| [start.to_le_bytes(), length.to_le_bytes()].concat();
    let places = places.iter().flat_map(place).collect();
    Call::DeleteObjects { names: names.into(), places, buffer: vec![UNTOUCHED; room] }
}

fn copy(stamp: u64, source: &str, destination: &str) -> Call {
    Call::Copy { stamp, source: source.into(), destination: destination.into() }
}

fn list(prefix: &str, suffix: &str, room: usize) -> Call {
    Call::List { prefix: prefix.into(), suffix: suffix.into(), buffer: vec![UNTOUCHED; room] }
}

fn initiate(stamp: u64, path: &str) -> Call {
    initiate_with(stamp, path, &[])
}

fn initiate_with(stamp: u64, path: &str, pairs: &[u8]) -> Call {
    Call::Initiate { stamp, path: path.into(), pairs: pairs.into() }
}

fn part(upload: u32, part: u16, data: &str) -> Call {
    Call::Part { upload, part, data: data.into() }
}

fn commit(upload: u32, parts: &[u16]) -> Call {
    Call::Commit { upload, list: parts.iter().flat_map(|part| part.to_le_bytes()).collect() }
}

fn abort(upload: u32) -> Call {
    Call::Abort { upload }
}

fn sweep(stamp: u64, most: u32) -> Call {
    Call::Sweep { stamp, most }
}

fn uploads(room: usize) -> Call {
    Call::Uploads { prefix: Vec::new(), buffer: vec![UNTOUCHED; room] }
}

/// The call is accepted with this answer.
fn answers(call: Call, answer: Answer) -> (Call, Reply) {
    writes(call, answer, &[])
}

/// The call is accepted with this answer and these bytes at the front of its buffer.
fn writes(call: Call, answer: Answer, bytes: &[u8]) -> (Call, Reply) {
    writes_both(call, answer, bytes, &[])
}

/// The same, and these at the front of its second buffer.
fn writes_both(call: Call, answer: Answer, bytes: &[u8], pairs: &[u8]) -> (Call, Reply) {
    let reply = Reply::accepted(answer, &call, bytes, pairs);
    (call, reply)
}

fn done(call: Call) -> (Call, Reply) {
    answers(call, Answer::Nothing)
}

fn refused(call: Call, number: u32) -> (Call, Reply) {
    let reply = Reply::refused(number, &call);
    (call, reply)
}

/// The call is accepted with these results, for which there is just room.
fn deletes(names: &str, places: &[(u32, u32)], results: &[u8]) -> (Call, Reply) {
    writes(delete_objects(names, places, results.len()), Answer::Nothing, results)
}

fn metadata(length: u32, created: u64, etag: Etag) -> Answer {
    Answer::Metadata { length, created, etag, pairs: 0, pairs_bytes: 0 }
}

/// The object has these pairs, in this order, for which there is just room.
fn has_pairs(path: &str, found: Answer, list: &[(&str, &str)]) -> (Call, Reply) {
    let (bytes, mut found) = (pairs(list), found);
    if let Answer::Metadata { pairs, pairs_bytes, .. } = &mut found {
        (*pairs, *pairs_bytes) = (list.len() as u16, bytes.len() as u16);
    }
    writes_both(head_into(path, bytes.len()), found, &[], &bytes)
}

fn gets(path: &str, data: &str, created: u64, etag: Etag) -> (Call, Reply) {
    writes(get(path), metadata(data.len() as u32, created, etag), data.as_bytes())
}

fn stores(upload: u32, number: u16, data: &str, etag: &str) -> (Call, Reply) {
    answers(part(upload, number, data), Answer::Etag(plain(etag)))
}

fn opens(stamp: u64, path: &str, upload: u32) -> (Call, Reply) {
    answers(initiate(stamp, path), Answer::Upload(upload))
}

/// So many are aborted, and more are due or not.
fn sweeps(stamp: u64, most: u32, count: u32, more: bool) -> (Call, Reply) {
    answers(sweep(stamp, most), Answer::Swept { count, more })
}

/// UPLOADS has these records: number, path, started, count of parts.
fn are_open(open: &[(u8, &str, u8, u8)]) -> (Call, Reply) {
    let mut bytes = Vec::new();
    for (number, path, started, parts) in open {
        bytes.extend([*number, 0, 0, 0, path.len() as u8]);
        bytes.extend(path.as_bytes());
        bytes.extend([*started, 0, 0, 0, 0, 0, 0, 0, *parts, 0]);
    }
    let counts = Answer::Written { records: open.len() as u32, bytes: bytes.len() as u32 };
    writes(uploads(bytes.len() + 3), counts, &bytes)
}

/// UPLOADS has one record.
fn one_upload(number: u8, path: &str, started: u8, parts: u8) -> (Call, Reply) {
    are_open(&[(number, path, started, parts)])
}

fn no_records(call: Call) -> (Call, Reply) {
    answers(call, Answer::Written { records: 0, bytes: 0 })
}

/// A record of LIST for a path with no data.
fn empty_record(path: &str, created: u8) -> Vec<u8> {
    let mut record = vec![path.len() as u8];
    record.extend(path.as_bytes());
    record.extend([0, 0, 0, 0, created, 0, 0, 0, 0, 0, 0, 0, 32]);
    record.extend(OF_NOTHING.as_bytes());
    record
}

pub fn all() -> Vec<Case> {
    let mut cases = marked();
    cases.extend(unmarked());
    cases.extend(slips());
    cases.extend(ceilings());
    cases.extend(many_deleted());
    cases.extend(swept());
    cases.extend(paired());
    cases
}

/// "A = 64 where none is given."
fn day(name: &'static str, steps: Vec<(Call, Reply)>) -> Case {
    Case { name, arena: 64, steps }
}

/// "Marked orders of the day".
pub fn marked() -> Vec<Case> {
    let m5 = || done(put(5, "a", "xyz"));
    let m7 = || vec![opens(7, "r", 1), stores(1, 2, "B", OF_B), stores(1, 1, "A", OF_A)];
    let m8 = |list: &[u16]| {
        let mut steps = m7();
        steps.extend([refused(commit(1, list), 2), one_upload(1, "r", 7, 2), refused(get("r"), 3)]);
        steps
    };
    let with_four = |name, steps| Case { name, arena: 4, steps };
    vec![
        day("M1", vec![refused(get("a"), 3)]),
        day("M2", vec![answers(get(""), metadata(0, 0, Etag::Absent))]),
        day("M3", vec![refused(delete(""), 2)]),
        day("M4", vec![refused(put(0, "a", "xyz"), 2), refused(get("a"), 3)]),
        day("M5", vec![m5(), answers(head("a"), metadata(3, 5, plain(OF_XYZ)))]),
        day("M6", vec![m5(), done(copy(9, "a", "a")), gets("a", "xyz", 9, plain(OF_XYZ))]),
        day("M7", {
            let mut steps = m7();
            let etag = joined(OF_THE_DIGESTS_OF_B_AND_A, 2);
            steps.extend([done(commit(1, &[2, 1])), gets("r", "BA", 7, etag)]);
            steps.extend([no_records(uploads(0))]);
            steps
        }),
        day("M8, a part missing", m8(&[1])),
        day("M8, a part twice", m8(&[1, 1, 2])),
        day("M9", {
            let etag = joined(OF_NOTHING, 0);
            vec![opens(7, "r", 1), done(commit(1, &[])), gets("r", "", 7, etag)]
        }),
        day(
            "M10",
            vec![opens(7, "r", 1), done(abort(1)), opens(7, "r", 2), refused(part(1, 1, "A"), 2)],
        ),
        with_four(
            "M11",
            vec![
                done(put(5, "a", "xyz")),
                refused(put(5, "b", "AB"), 5),
                done(put(5, "a", "xyzx")),
                refused(head("b"), 3),
            ],
        ),
        with_four(
            "M12",
            vec![
                opens(7, "r", 1),
                stores(1, 1, "AB", OF_AB),
                stores(1, 2, "BA", OF_BA),
                done(commit(1, &[1, 2])),
            ],
        ),
    ]
}

/// The sentences after "Unmarked".
pub fn unmarked() -> Vec<Case> {
    let long = "p".repeat(128);
    let too_long = "p".repeat(129);
    let m5 = || done(put(5, "a", "xyz"));
    let mut listing = vec![1, 97, 3, 0, 0, 0, 5, 0, 0, 0, 0, 0, 0, 0, 32];
    listing.extend(OF_XYZ.as_bytes());
    let one = Answer::Written { records: 1, bytes: 47 };
    vec![
        day(
            "the length of a path",
            vec![
                done(put(1, &long, "")),
                answers(head(&long), metadata(0, 1, plain(OF_NOTHING))),
                refused(put(1, &too_long, ""), 2),
                refused(get(&too_long), 2),
                refused(initiate(1, &too_long), 2),
                refused(copy(1, &long, &too_long), 2),
                opens(1, &long, 1),
            ],
        ),
        day(
            "slashes",
            vec![
                done(put(1, "a/", "")),
                gets("a/", "", 1, plain(OF_NOTHING)),
                refused(put(1, "/a", ""), 2),
                refused(put(1, "a//b", ""), 2),
                refused(put(1, "a//", ""), 2),
                refused(put(1, "/", ""), 2),
                refused(head("/"), 2),
                done(put(1, "a/b/", "")),
            ],
        ),
        day(
            "the bytes of a path",
            vec![
                done(put(1, "!", "")),
                done(put(1, "~", "")),
                refused(put(1, "a b", ""), 2),
                refused(put(1, "a\u{7f}", ""), 2),
                refused(put(1, "a\0", ""), 2),
            ],
        ),
        day("letters outside ASCII", {
            let of_three = format!("{}€", "p".repeat(125));
            vec![
                done(put(1, "Käsestange", "")),
                done(put(2, "pain-au-levain-épicé", "")),
                gets("Käsestange", "", 1, plain(OF_NOTHING)),
                done(put(1, "\u{a0}", "")),
                refused(put(1, "\u{9f}", ""), 2),
                refused(put(1, "\u{80}", ""), 2),
                done(put(1, "\u{10ffff}", "")),
                done(put(1, &of_three, "")),
                refused(put(1, &format!("p{of_three}"), ""), 2),
                opens(1, "épicé", 1),
                done(copy(3, "Käsestange", "ä/ö")),
                done(delete("Käsestange")),
                refused(head("Käsestange"), 3),
            ]
        }),
        day("no UTF-8", {
            let put = |path: &[u8]| {
                let (data, pairs) = (Vec::new(), Vec::new());
                Call::Put { stamp: 1, path: path.into(), data, pairs }
            };
            let cut = |letter: &[u8]| [&[b'p'; 128][..128 - letter.len()], letter].concat();
            let bad: [&[u8]; 12] = [
                b"\x80",
                b"a\xbf",
                b"a\xc0\xafb",
                b"\xe0\x80\xaf",
                b"\xf0\x80\x80\xaf",
                b"\xed\xa0\xbd\xed\xb8\x80",
                b"\xed\xbf\xbf",
                b"\xf4\x90\x80\x80",
                b"\xf5\x80\x80\x80",
                b"\xc2\x9f",
                &cut(b"\xc3"),
                &cut(b"\xe2\x82"),
            ];
            bad.iter().map(|path| refused(put(path), 2)).collect()
        }),
        day(
            "part numbers",
            vec![
                opens(7, "r", 1),
                stores(1, 10_000, "A", OF_A),
                refused(part(1, 0, "A"), 2),
                refused(part(1, 10_001, "A"), 2),
                refused(part(1, 11_000, "A"), 2),
                refused(part(1, 65_535, "A"), 2),
                refused(commit(1, &[10_000, 0]), 2),
                refused(commit(1, &[10_000, 11_000]), 2),
                done(commit(1, &[10_000])),
            ],
        ),
        day("a prefix and a suffix do not overlap", {
            let record = empty_record("abbc", 2);
            let counts = Answer::Written { records: 1, bytes: record.len() as u32 };
            let made = list("ab", "bc", record.len());
            vec![
                done(put(1, "abc", "")),
                done(put(2, "abbc", "")),
                writes(made, counts, &record),
                no_records(list("abb", "bc", 0)),
                no_records(list("abbcd", "", 0)),
            ]
        }),
        day("a shorter path comes before its extensions", {
            let records: Vec<u8> = ["a", "a!", "a/", "aa", "b"]
                .iter()
                .flat_map(|path| empty_record(path, 1))
                .collect();
            let counts = Answer::Written { records: 5, bytes: records.len() as u32 };
            let mut steps: Vec<(Call, Reply)> =
                ["b", "aa", "a/", "a", "a!"].iter().map(|path| done(put(1, path, ""))).collect();
            steps.push(writes(list("", "", records.len() + 1), counts, &records));
            steps
        }),
        day("LIST after M5, 47 bytes", vec![m5(), writes(list("", "", 47), one.clone(), &listing)]),
        day("LIST after M5, more", vec![m5(), writes(list("", "", 50), one, &listing)]),
        day("LIST after M5, 46 bytes", vec![m5(), refused(list("", "", 46), 7)]),
        day("GET into a buffer one byte short", {
            let found = metadata(3, 5, plain(OF_XYZ));
            let (short, fits) = (get_into("a", 2, 0), get_into("a", 3, 0));
            vec![m5(), refused(short, 7), writes(fits, found, b"xyz")]
        }),
        day("UPLOADS into a buffer one byte short", {
            vec![opens(7, "r", 1), refused(uploads(15), 7), one_upload(1, "r", 7, 0)]
        }),
        day("an odd byte in a part list", {
            let odd = |bytes: &[u8]| Call::Commit { upload: 1, list: bytes.to_vec() };
            vec![
                opens(7, "r", 1),
                refused(odd(&[0]), 2),
                stores(1, 1, "A", OF_A),
                refused(odd(&[1]), 2),
                refused(odd(&[1, 0, 0]), 2),
                done(odd(&[1, 0])),
            ]
        }),
    ]
}

/// "Slips to shut out", where the marked cases leave them open.
pub fn slips() -> Vec<Case> {
    let joined_a = || {
        vec![opens(7, "r", 1), stores(1, 2, "B", OF_B), stores(1, 1, "A", OF_A)]
            .into_iter()
            .chain([done(commit(1, &[2, 1]))])
    };
    vec![
        day("COPY of a joined object has a plain etag", {
            let mut steps: Vec<(Call, Reply)> = joined_a().collect();
            steps.extend([done(copy(9, "r", "s")), gets("s", "BA", 9, plain(OF_BA))]);
            steps.extend([done(copy(9, "r", "r")), gets("r", "BA", 9, plain(OF_BA))]);
            steps
        }),
        day("LIST sees no parts", {
            vec![
                opens(7, "r", 1),
                stores(1, 1, "A", OF_A),
                no_records(list("", "", 0)),
                refused(get("r"), 3),
                refused(head("r"), 3),
                refused(delete("r"), 3),
            ]
        }),
        Case {
            name: "a part's old bytes are free for its replacement",
            arena: 2,
            steps: vec![
                opens(7, "r", 1),
                stores(1, 1, "AB", OF_AB),
                stores(1, 1, "BA", OF_BA),
                refused(part(1, 1, "xyz"), 5),
                refused(part(1, 2, "A"), 5),
                done(commit(1, &[1])),
                refused(put(1, "a", "A"), 5),
                done(copy(8, "r", "r")),
                refused(copy(8, "r", "s"), 5),
                done(put(1, "r", "B")),
                done(put(1, "a", "A")),
            ],
        },
        day("an aborted upload leaves nothing", {
            vec![
                opens(7, "r", 1),
                stores(1, 1, "A", OF_A),
                done(abort(1)),
                refused(commit(1, &[1]), 2),
                refused(abort(1), 2),
                opens(8, "r", 2),
                refused(commit(2, &[1]), 2),
                done(commit(2, &[])),
                gets("r", "", 8, joined(OF_NOTHING, 0)),
            ]
        }),
        day("an upload's start is its object's stamp, though stamps go back", {
            vec![
                opens(9, "r", 1),
                done(put(3, "r", "xyz")),
                stores(1, 1, "A", OF_A),
                stores(1, 1, "B", OF_B),
                done(put(2, "s", "")),
                one_upload(1, "r", 9, 1),
                gets("r", "xyz", 3, plain(OF_XYZ)),
            ]
        }),
    ]
}

/// 256 paths, 16 uploads, 256 parts; none of them needs the arena.
pub fn ceilings() -> Vec<Case> {
    let name = |i: usize| format!("p{i:03}");
    let full = || (0..256).map(|i| done(put(1, &name(i), ""))).collect::<Vec<_>>();
    let none = |name, steps| Case { name, arena: 0, steps };
    vec![
        none("256 objects", {
            let mut steps = vec![opens(7, "new", 1), opens(8, "p007", 2)];
            steps.extend(full());
            steps.extend([
                refused(put(1, "new", ""), 4),
                refused(put(1, "new", "A"), 4),
                refused(put(1, "p000", "A"), 5),
                done(put(2, "p000", "")),
                refused(copy(1, "p000", "new"), 4),
                refused(copy(1, "new", "newer"), 3),
                done(copy(3, "p000", "p255")),
                refused(commit(1, &[]), 4),
                done(commit(2, &[])),
                gets("p007", "", 8, joined(OF_NOTHING, 0)),
                one_upload(1, "new", 7, 0),
                done(delete("p128")),
                done(commit(1, &[])),
                refused(put(1, "p128", ""), 4),
            ]);
            steps
        }),
        none("16 uploads", {
            let mut steps: Vec<(Call, Reply)> = (1..=16).map(|i| opens(i as u64, "r", i)).collect();
            steps.extend([
                refused(initiate(1, "r"), 4),
                refused(initiate(0, "r"), 2),
                done(abort(5)),
                opens(1, "r", 17),
                refused(initiate(1, "s"), 4),
                done(commit(17, &[])),
                opens(1, "s", 18),
            ]);
            steps
        }),
        none("256 parts over all uploads", {
            let mut steps = vec![opens(7, "r", 1), opens(8, "s", 2)];
            steps.extend((1..=200).map(|i| stores(1, i, "", OF_NOTHING)));
            steps.extend((1..=56).map(|i| stores(2, i, "", OF_NOTHING)));
            steps.extend([
                refused(part(1, 201, ""), 4),
                refused(part(2, 57, "A"), 4),
                stores(2, 56, "", OF_NOTHING),
                refused(part(2, 56, "A"), 5),
                refused(part(2, 0, ""), 2),
                done(abort(1)),
                stores(2, 57, "", OF_NOTHING),
                one_upload(2, "s", 8, 57),
            ]);
            steps
        }),
    ]
}

/// Document 02's E1.
pub fn many_deleted() -> Vec<Case> {
    let puts = |paths: &[&str]| paths.iter().map(|path| done(put(1, path, ""))).collect::<Vec<_>>();
    let with = |paths: &[&str], steps: Vec<(Call, Reply)>| [puts(paths), steps].concat();
    let there = |path: &str| answers(head(path), metadata(0, 1, plain(OF_NOTHING)));
    let nothing_left = || no_records(list("", "", 0));
    let left_over = |mut call: Call, count: usize| {
        if let Call::DeleteObjects { places, .. } = &mut call {
            places.extend(vec![0; count]);
        }
        call
    };
    let of_a = |count: usize, room: usize| delete_objects("a", &vec![(0, 1); count], room);
    vec![
        Case {
            name: "200 of 256 objects",
            arena: 0,
            steps: {
                let names: Vec<String> = (0..256).map(|i| format!("p{i:03}")).collect();
                let places: Vec<(u32, u32)> = (0..200).rev().map(|i| (4 * i, 4)).collect();
                let mut steps = puts(&names.iter().map(String::as_str).collect::<Vec<_>>());
                steps.extend([refused(put(1, "new", ""), 4)]);
                steps.extend([deletes(&names.concat(), &places, &[0; 200])]);
                steps.extend(names[..200].iter().map(|path| refused(head(path), 3)));
                steps.extend(names[200..].iter().map(|path| there(path)));
                steps.extend((0..200).map(|i| done(put(1, &format!("new/{i}"), ""))));
                steps.extend([refused(put(1, "new", ""), 4)]);
                steps
            },
        },
        day("the end of the name buffer", {
            let (ends, past) = ((0, 2), (1, 2));
            let places = [past, (0, 3), (2, 1), ends, (2, 0), (3, 0), ends];
            with(&["ab", "b"], vec![deletes("ab", &places, &[2, 2, 2, 0, 2, 2, 3]), there("b")])
        }),
        day("a start and a length whose sum passes 32 bits", {
            let last = u32::MAX;
            let places = [(last, last), (last, 2), (last, 1), (0, last), (1, last), (last, 0)];
            with(&["a", "b"], vec![deletes("ab", &places, &[2; 6]), there("a"), there("b")])
        }),
        day("places that overlap", {
            let all = deletes("ab", &[(0, 1), (0, 2), (1, 1)], &[0, 0, 0]);
            with(&["a", "ab", "b"], vec![all, nothing_left()])
        }),
        day("a name listed twice", {
            let twice = deletes("aba", &[(0, 1), (1, 1), (2, 1), (1, 1)], &[0, 0, 3, 3]);
            with(&["a", "b"], vec![twice, nothing_left()])
        }),
        day("an empty name, bad names, an absent one", {
            let places = [(0, 0), (0, 2), (1, 4), (4, 3), (7, 1), (6, 1), (1, 1)];
            with(
                &["a"],
                vec![deletes("/a//b c\0", &places, &[2, 2, 2, 2, 2, 3, 0]), nothing_left()],
            )
        }),
        day("the length of a listed name", {
            let names = "p".repeat(129);
            with(&[&names[1..]], vec![deletes(&names, &[(0, 129), (1, 128)], &[2, 0])])
        }),
        day("no places", {
            let none = |names: &str, room| done(delete_objects(names, &[], room));
            with(&["a"], vec![none("", 0), none("a", 0), none("a", 3), there("a")])
        }),
        day("1,000 places", {
            let mut results = [3; 1000];
            results[0] = 0;
            with(&["a"], vec![writes(of_a(1000, 1000), Answer::Nothing, &results), nothing_left()])
        }),
        day("1,001 places", {
            let calls = [of_a(1001, 1001), left_over(of_a(1001, 1001), 1), of_a(1001, 0)];
            let mut steps: Vec<(Call, Reply)> = calls.map(|call| refused(call, 8)).into();
            steps.extend([refused(left_over(of_a(1001, 1000), 7), 8), there("a")]);
            with(&["a"], steps)
        }),
        day("bytes left over", {
            let calls = [of_a(0, 0), of_a(1, 1), of_a(1000, 1000), of_a(1, 0), of_a(1000, 999)];
            let mut steps = Vec::new();
            for call in calls {
                steps.extend([1, 4, 7].map(|count| refused(left_over(call.clone(), count), 2)));
            }
            steps.push(there("a"));
            with(&["a"], steps)
        }),
        day("room for the results", {
            let call = |room| delete_objects("abc", &[(0, 1), (1, 1), (2, 1)], room);
            let mut steps = vec![refused(call(2), 7), refused(call(0), 7), there("a"), there("c")];
            steps.push(writes(call(3), Answer::Nothing, &[0, 3, 0]));
            steps.push(writes(call(9), Answer::Nothing, &[3, 3, 3]));
            steps.push(refused(of_a(1000, 999), 7));
            with(&["a", "c"], steps)
        }),
        day("an upload is no object", {
            let steps = vec![opens(7, "r", 1), stores(1, 1, "A", OF_A)];
            [steps, vec![deletes("r", &[(0, 1)], &[3]), one_upload(1, "r", 7, 1)]].concat()
        }),
        Case {
            name: "freed bytes serve again",
            arena: 4,
            steps: vec![
                done(put(5, "a", "xy")),
                done(put(5, "b", "AB")),
                refused(put(5, "c", "xyz"), 5),
                deletes("ba", &[(0, 1), (1, 1)], &[0, 0]),
                done(put(5, "c", "xyzx")),
            ],
        },
    ]
}

/// Document 02's E3.
pub fn swept() -> Vec<Case> {
    let last = u32::MAX;
    // Three uploads: the second is the youngest, the third is younger than the first.
    let (first, second, third) = ((1, "r", 5, 0), (2, "s", 9, 0), (3, "t", 7, 0));
    let three = || vec![opens(5, "r", 1), opens(9, "s", 2), opens(7, "t", 3)];
    let mut cases = Vec::new();
    for (name, stamp, count, left) in [
        ("one below the first start", 4, 0, vec![first, second, third]),
        ("at the first start", 5, 0, vec![first, second, third]),
        ("one above the first start", 6, 1, vec![second, third]),
        ("at the third start", 7, 1, vec![second, third]),
        ("one above the third start", 8, 2, vec![second]),
        ("at the second start", 9, 2, vec![second]),
        ("one above the second start", 10, 3, vec![]),
        ("stamp 1 has nothing before it", 1, 0, vec![first, second, third]),
        ("the last stamp", u64::MAX, 3, vec![]),
    ] {
        let sweep = vec![sweeps(stamp, 16, count, false), are_open(&left)];
        cases.push(day(name, [three(), sweep].concat()));
    }
    // The first and the third are due.
    for (name, most, count, more, left) in [
        ("at most 0", 0, 0, true, vec![first, second, third]),
        ("at most 1", 1, 1, true, vec![second, third]),
        ("at most as many as are due", 2, 2, false, vec![second]),
        ("at most one more than are due", 3, 2, false, vec![second]),
        ("at most 256", 256, 2, false, vec![second]),
        ("at most 65,536", 65_536, 2, false, vec![second]),
        ("at most 2^32 - 1", last, 2, false, vec![second]),
    ] {
        let sweep = vec![sweeps(8, most, count, more), are_open(&left)];
        cases.push(day(name, [three(), sweep].concat()));
    }
    let none_due = [0, 1, last].map(|most| sweeps(5, most, 0, false));
    let at_zero = || [0, 1, last].map(|most| refused(sweep(0, most), 2));
    cases.extend([
        day(
            "none is due",
            [three(), none_due.into(), vec![are_open(&[first, second, third])]].concat(),
        ),
        day("none is open", [0, 1, last].map(|most| sweeps(u64::MAX, most, 0, false)).into()),
        day("stamp 0", {
            let steps: Vec<_> = at_zero().into_iter().chain(three()).chain(at_zero()).collect();
            [steps, vec![are_open(&[first, second, third])]].concat()
        }),
        day("a younger upload with a lower number stays", {
            vec![
                opens(9, "r", 1),
                opens(3, "s", 2),
                opens(5, "t", 3),
                sweeps(6, 1, 1, true),
                are_open(&[(1, "r", 9, 0), (3, "t", 5, 0)]),
                sweeps(6, 1, 1, false),
                one_upload(1, "r", 9, 0),
            ]
        }),
        day("the lower number goes first, though its upload is younger", {
            let opened = vec![opens(5, "r", 1), opens(3, "s", 2)];
            [opened, vec![sweeps(6, 1, 1, true), one_upload(2, "s", 3, 0)]].concat()
        }),
        day("two at a time until no more are due", {
            let opened = (1..=5).map(|number| opens(number.into(), "r", number));
            let sweeps = [(2, true), (2, true), (1, false), (0, false)]
                .map(|(count, more)| sweeps(6, 2, count, more));
            opened.chain(sweeps).chain([no_records(uploads(0))]).collect()
        }),
        day("starts far apart", {
            let opened =
                vec![opens(u64::MAX, "r", 1), opens(1 << 63, "s", 2), opens(1 << 32, "t", 3)];
            let swept = vec![
                sweeps(1 << 32, 16, 0, false),
                sweeps((1 << 32) + 1, 0, 0, true),
                sweeps((1 << 32) + 1, 16, 1, false),
                sweeps(1 << 63, 16, 0, false),
                sweeps(u64::MAX, 16, 1, false),
                sweeps(u64::MAX, 16, 0, false),
                refused(commit(2, &[]), 2),
                done(commit(1, &[])),
            ];
            [opened, swept].concat()
        }),
        day("a swept upload is not open", {
            vec![
                opens(7, "r", 1),
                stores(1, 1, "A", OF_A),
                sweeps(8, 1, 1, false),
                refused(part(1, 1, "A"), 2),
                refused(part(1, 2, "B"), 2),
                refused(commit(1, &[1]), 2),
                refused(commit(1, &[]), 2),
                refused(abort(1), 2),
                refused(get("r"), 3),
                no_records(uploads(0)),
            ]
        }),
        day("its number is not given again", {
            vec![
                opens(7, "r", 1),
                opens(7, "r", 2),
                sweeps(8, 2, 2, false),
                opens(7, "r", 3),
                refused(part(1, 1, "A"), 2),
                refused(part(2, 1, "A"), 2),
                done(commit(3, &[])),
            ]
        }),
        day("what is left can be committed", {
            vec![
                opens(7, "r", 1),
                opens(9, "s", 2),
                stores(1, 1, "xyz", OF_XYZ),
                stores(2, 2, "B", OF_B),
                stores(2, 1, "A", OF_A),
                sweeps(9, 16, 1, false),
                one_upload(2, "s", 9, 2),
                done(commit(2, &[2, 1])),
                gets("s", "BA", 9, joined(OF_THE_DIGESTS_OF_B_AND_A, 2)),
            ]
        }),
        day("no object changes", {
            let mut listing = vec![1, 97, 3, 0, 0, 0, 5, 0, 0, 0, 0, 0, 0, 0, 32];
            listing.extend(OF_XYZ.as_bytes());
            listing.extend([1, 114, 2, 0, 0, 0, 7, 0, 0, 0, 0, 0, 0, 0, 34]);
            listing.extend(OF_THE_DIGESTS_OF_B_AND_A.as_bytes());
            listing.extend(b"-2");
            let etag = joined(OF_THE_DIGESTS_OF_B_AND_A, 2);
            let read = || {
                vec![
                    gets("a", "xyz", 5, plain(OF_XYZ)),
                    gets("r", "BA", 7, etag),
                    answers(head("a"), metadata(3, 5, plain(OF_XYZ))),
                    answers(head("r"), metadata(2, 7, etag)),
                    refused(head("s"), 3),
                    writes(list("", "", 96), Answer::Written { records: 2, bytes: 96 }, &listing),
                ]
            };
            let objects = vec![done(put(5, "a", "xyz")), opens(7, "r", 1)];
            let parts = vec![stores(1, 2, "B", OF_B), stores(1, 1, "A", OF_A)];
            let left = vec![done(commit(1, &[2, 1])), opens(1, "r", 2), opens(1, "s", 3)];
            let dead = vec![stores(2, 1, "AB", OF_AB), stores(3, 1, "BA", OF_BA)];
            let sweep = vec![sweeps(u64::MAX, last, 2, false)];
            [objects, parts, left, dead, read(), sweep, read()].concat()
        }),
        Case {
            name: "a swept upload's bytes serve again",
            arena: 4,
            steps: vec![
                opens(7, "r", 1),
                opens(7, "s", 2),
                stores(1, 1, "AB", OF_AB),
                stores(2, 1, "BA", OF_BA),
                refused(put(5, "a", "A"), 5),
                sweeps(8, 1, 1, true),
                refused(put(5, "a", "xyz"), 5),
                done(put(5, "a", "xy")),
                sweeps(8, 1, 1, false),
                done(put(5, "a", "xyzx")),
            ],
        },
        Case {
            name: "16 uploads with 256 parts",
            arena: 0,
            steps: {
                let opened = (1..=16).map(|number| opens(number.into(), "r", number));
                let parts = (0..256).map(|i| stores(i / 16 + 1, i as u16 % 16 + 1, "", OF_NOTHING));
                let mut steps: Vec<(Call, Reply)> = opened.chain(parts).collect();
                steps.extend([
                    refused(initiate(1, "r"), 4),
                    refused(part(1, 17, ""), 4),
                    sweeps(17, 15, 15, true),
                    one_upload(16, "r", 16, 16),
                    opens(1, "r", 17),
                    stores(17, 1, "", OF_NOTHING),
                    sweeps(17, 16, 2, false),
                    no_records(uploads(0)),
                ]);
                steps
            },
        },
    ]);
    cases
}

/// Two pairs beside a record: 24 bytes of keys and values, 28 with the lengths.
const RECORD: [(&str, &str); 2] = [("baker", "Ayla"), ("flour-lot", "R-4711")];
const RECORD_BYTES: &[u8] = b"\x05baker\x04Ayla\x09flour-lot\x06R-4711";

/// Document 02's E6.
pub fn paired() -> Vec<Case> {
    let mut cases = pairs_judged();
    cases.extend(pairs_kept());
    cases.extend(pairs_held());
    cases
}

/// Both calls that take pairs are refused by 2.
fn both_refused(pairs: &[u8]) -> [(Call, Reply); 2] {
    [put_with(5, "a", "xyz", pairs), initiate_with(5, "a", pairs)].map(|call| refused(call, 2))
}

/// PUT takes the pairs and keeps these.
fn keeps(taken: &[u8], kept: &[(&str, &str)]) -> [(Call, Reply); 2] {
    let found = metadata(3, 5, plain(OF_XYZ));
    [done(put_with(5, "a", "xyz", taken)), has_pairs("a", found, kept)]
}

/// Which pairs a request may have.
fn pairs_judged() -> Vec<Case> {
    let with_room = |name, steps| Case { name, arena: 4096, steps };
    let letters = ["a", "b", "c", "d", "e", "f", "g", "h", "i", "j"];
    let first = |count: usize| letters[..count].iter().map(|key| (*key, "v")).collect::<Vec<_>>();
    // The first so many letters, and these pairs after so many of them.
    let among = |count: usize, at: usize, more: &[(&str, &str)]| {
        let mut list = first(count);
        list.splice(at..at, more.iter().copied());
        pairs(&list)
    };
    let system = [("size", "3"), ("created", "5"), ("etag", "")];
    let long = "k".repeat(33);
    let text = "v".repeat(255);
    vec![
        with_room("up to 8 pairs", {
            let mut steps = Vec::new();
            for count in 0..=8 {
                steps.extend(keeps(&pairs(&first(count)), &first(count)));
            }
            steps.extend(both_refused(&pairs(&first(9))));
            steps.extend(both_refused(&pairs(&first(10))));
            steps.push(has_pairs("a", metadata(3, 5, plain(OF_XYZ)), &first(8)));
            steps.push(answers(initiate_with(7, "r", &pairs(&first(8))), Answer::Upload(1)));
            steps
        }),
        with_room("nine pairs, one of them with a system key", {
            let mut steps = Vec::new();
            for (i, dropped) in system.iter().enumerate() {
                steps.extend(keeps(&among(8, 4 * i, &[*dropped]), &first(8)));
                steps.extend(both_refused(&among(9, 3 * i, &[*dropped])));
            }
            steps.extend(keeps(&among(8, 3, &system), &first(8)));
            steps.extend(keeps(&pairs(&system), &[]));
            let opened = initiate_with(7, "r", &among(8, 8, &system));
            steps.push(answers(opened, Answer::Upload(1)));
            steps
        }),
        with_room("a system key twice", {
            let twice = [("size", "3"), ("size", "4"), ("size", "3")];
            let mut steps: Vec<(Call, Reply)> = keeps(&pairs(&twice), &[]).into();
            steps.extend(keeps(&among(8, 2, &twice), &first(8)));
            steps
        }),
        with_room("a system key with a bad value", {
            let bad = ["\u{1f}", "\u{7f}", "a\nb", &text[..65]];
            let mut steps = Vec::new();
            for value in bad {
                for (key, _) in system {
                    steps.extend(both_refused(&pairs(&[(key, value)])));
                    steps.extend(both_refused(&among(2, 1, &[(key, value)])));
                }
            }
            steps
        }),
        with_room("keys that are much like a system key", {
            let like = [("created-at", "1"), ("e-tag", "2"), ("etags", "3"), ("siz", "4")];
            let mut steps: Vec<(Call, Reply)> = keeps(&pairs(&like), &like).into();
            steps.extend(both_refused(&pairs(&[("Size", "3")])));
            steps.extend(both_refused(&pairs(&[("size ", "3")])));
            steps
        }),
        with_room("the length of a key", {
            let mut steps = Vec::new();
            for length in [1, 2, 31, 32] {
                let one = [(&long[..length], "v")];
                steps.extend(keeps(&pairs(&one), &one));
            }
            steps.extend(both_refused(&pairs(&[("", "v")])));
            steps.extend(both_refused(&pairs(&[("", "")])));
            steps.extend(both_refused(&pairs(&[(&long, "v")])));
            steps.extend(both_refused(&pairs(&[(&text, "v")])));
            steps
        }),
        with_room("the length of a value", {
            let mut steps = Vec::new();
            for length in [0, 1, 63, 64] {
                let one = [("k", &text[..length])];
                steps.extend(keeps(&pairs(&one), &one));
            }
            steps.extend(both_refused(&pairs(&[("k", &text[..65])])));
            steps.extend(both_refused(&pairs(&[("k", &text)])));
            steps
        }),
        with_room("the bytes of a key", {
            let one = [("-az09", "v")];
            let mut steps: Vec<(Call, Reply)> = keeps(&pairs(&one), &one).into();
            for byte in *b"\0\x1f ,./:@AZ[_`{~\x7f\x80\xe4\xff" {
                for key in [[byte, b'k'], [b'k', byte]] {
                    steps.extend(both_refused(&[[2].as_slice(), &key, &[1, b'v']].concat()));
                }
            }
            steps
        }),
        with_room("the bytes of a value", {
            let one = [("k", " !Az09_~ ")];
            let mut steps: Vec<(Call, Reply)> = keeps(&pairs(&one), &one).into();
            for byte in *b"\0\t\n\x1f\x7f\x80\xe4\xff" {
                for value in [[byte, b'v'], [b'v', byte]] {
                    steps.extend(both_refused(&[[1, b'k', 2].as_slice(), &value].concat()));
                }
            }
            steps
        }),
        with_room("equal keys", {
            let mut steps = Vec::new();
            for at in 0..=2 {
                steps.extend(both_refused(&among(2, at, &[("a", "v")])));
                steps.extend(both_refused(&among(7, 7 - at, &[("b", "")])));
            }
            let unequal = [("a", ""), ("a-", ""), ("aa", ""), ("b", "")];
            steps.extend(keeps(&pairs(&unequal), &unequal));
            steps
        }),
        with_room("malformed pairs", {
            let mut steps = Vec::new();
            for length in 0..=RECORD_BYTES.len() {
                let cut = &RECORD_BYTES[..length];
                match length {
                    0 => steps.extend(keeps(cut, &[])),
                    11 => steps.extend(keeps(cut, &RECORD[..1])),
                    28 => steps.extend(keeps(cut, &RECORD)),
                    _ => steps.extend(both_refused(cut)),
                }
            }
            let left_over: [&[u8]; 7] = [
                &[0],
                &[0, 0],
                &[255],
                &[1, b'k'],
                &[1, b'k', 1],
                &[2, b'k', 0],
                &[1, b'k', 2, b'v'],
            ];
            for bytes in left_over {
                steps.extend(both_refused(bytes));
                steps.extend(both_refused(&[RECORD_BYTES, bytes].concat()));
            }
            steps
        }),
        with_room("bad pairs go before a full arena and a full table", {
            let bad = pairs(&[("K", "v")]);
            let large = "d".repeat(4097);
            let mut steps = vec![
                refused(put_with(5, "a", &large, &bad), 2),
                refused(put_with(5, "a", &large, &[]), 5),
                refused(put_with(0, "a", "", &bad), 2),
                refused(put_with(0, "a", "", RECORD_BYTES), 2),
                refused(put_with(5, "a//b", "", RECORD_BYTES), 2),
                refused(initiate_with(0, "a", RECORD_BYTES), 2),
                refused(initiate_with(5, "", RECORD_BYTES), 2),
            ];
            steps.extend((0..256).map(|i| done(put(1, &format!("p{i:03}"), ""))));
            steps.extend((1..=16).map(|i| opens(1, "r", i)));
            steps.extend(both_refused(&bad));
            steps.extend([
                refused(put_with(5, "a", "", RECORD_BYTES), 4),
                refused(put_with(5, "a", &large, RECORD_BYTES), 4),
                refused(put_with(5, "p000", &large, RECORD_BYTES), 5),
                refused(initiate_with(5, "a", RECORD_BYTES), 4),
                done(put_with(5, "p000", "", RECORD_BYTES)),
            ]);
            steps
        }),
    ]
}

/// What becomes of the pairs that are taken, and how they are answered.
fn pairs_kept() -> Vec<Case> {
    let of_xyz = |created| metadata(3, created, plain(OF_XYZ));
    let given = || pairs(&[RECORD[1], RECORD[0]]);
    let put_record = || done(put_with(5, "a", "xyz", &given()));
    let found = || Answer::Metadata {
        length: 3,
        created: 5,
        etag: plain(OF_XYZ),
        pairs: 2,
        pairs_bytes: 28,
    };
    let shift = [("shift", "early")];
    let with_room = |name, steps| Case { name, arena: 4096, steps };
    vec![
        day("flour lot and baker beside the record", {
            let mut listing = vec![1, 97, 3, 0, 0, 0, 5, 0, 0, 0, 0, 0, 0, 0, 32];
            listing.extend(OF_XYZ.as_bytes());
            vec![
                put_record(),
                writes_both(get_into("a", 3, 28), found(), b"xyz", RECORD_BYTES),
                writes_both(get_into("a", 9, 40), found(), b"xyz", RECORD_BYTES),
                writes_both(head_into("a", 28), found(), &[], RECORD_BYTES),
                writes_both(head_into("a", 29), found(), &[], RECORD_BYTES),
                writes(list("", "", 47), Answer::Written { records: 1, bytes: 47 }, &listing),
            ]
        }),
        day("room for the pairs", {
            vec![
                put_record(),
                refused(get_into("a", 3, 27), 7),
                refused(get_into("a", 9, 0), 7),
                refused(get_into("a", 2, 28), 7),
                refused(get_into("a", 2, 27), 7),
                refused(get_into("a", 0, 784), 7),
                refused(head_into("a", 27), 7),
                refused(head_into("a", 0), 7),
                refused(get_into("b", 0, 0), 3),
                refused(head_into("b", 0), 3),
                refused(head_into("b//", 0), 2),
                done(put(6, "a", "xyz")),
                writes(get_into("a", 3, 0), of_xyz(6), b"xyz"),
                answers(head_into("a", 0), of_xyz(6)),
            ]
        }),
        day("the root has no pairs", {
            let root = || metadata(0, 0, Etag::Absent);
            let mut steps = vec![put_record()];
            steps.extend([0, 3].map(|room| answers(get_into("", room, room), root())));
            steps.extend([0, 3].map(|room| answers(head_into("", room), root())));
            steps
        }),
        day("pairs are kept ascending by key", {
            let ascending = [("-", ""), ("0", "z"), ("a", "y"), ("a-", "x"), ("aa", ""), ("b", "")];
            let mut list = ascending.to_vec();
            let mut steps = Vec::new();
            for turn in 0..list.len() {
                list.rotate_left(1);
                steps.extend(keeps(&pairs(&list), &ascending));
                list.reverse();
                steps.extend(keeps(&pairs(&list), &ascending));
                list.swap(0, turn);
            }
            steps
        }),
        day("PUT replaces the pairs", {
            vec![
                put_record(),
                done(put_with(6, "a", "xyz", &pairs(&shift))),
                has_pairs("a", of_xyz(6), &shift),
                refused(put_with(7, "a", "xyz", &[1]), 2),
                has_pairs("a", of_xyz(6), &shift),
                done(put(8, "a", "xyz")),
                has_pairs("a", of_xyz(8), &[]),
            ]
        }),
        with_room("COPY carries the source's", {
            vec![
                put_record(),
                done(put_with(6, "b", "", &pairs(&shift))),
                done(put(6, "c", "xyz")),
                done(copy(7, "a", "b")),
                has_pairs("b", of_xyz(7), &RECORD),
                has_pairs("a", of_xyz(5), &RECORD),
                done(copy(8, "a", "a")),
                has_pairs("a", of_xyz(8), &RECORD),
                done(copy(9, "c", "a")),
                has_pairs("a", of_xyz(9), &[]),
                done(copy(9, "b", "new")),
                has_pairs("new", of_xyz(9), &RECORD),
            ]
        }),
        with_room("COMMIT carries the upload's", {
            let etag = joined(OF_THE_DIGESTS_OF_B_AND_A, 2);
            vec![
                done(put_with(5, "r", "xyz", &pairs(&shift))),
                answers(initiate_with(7, "r", &given()), Answer::Upload(1)),
                stores(1, 2, "B", OF_B),
                stores(1, 1, "A", OF_A),
                has_pairs("r", of_xyz(5), &shift),
                done(commit(1, &[2, 1])),
                has_pairs("r", metadata(2, 7, etag), &RECORD),
                done(copy(9, "r", "s")),
                has_pairs("s", metadata(2, 9, plain(OF_BA)), &RECORD),
                opens(8, "r", 2),
                done(commit(2, &[])),
                has_pairs("r", metadata(0, 8, joined(OF_NOTHING, 0)), &[]),
                answers(initiate_with(9, "new", &pairs(&shift)), Answer::Upload(3)),
                refused(head("new"), 3),
                done(commit(3, &[])),
                has_pairs("new", metadata(0, 9, joined(OF_NOTHING, 0)), &shift),
            ]
        }),
        day("an upload's pairs are not among its parts", {
            vec![
                answers(initiate_with(7, "r", &given()), Answer::Upload(1)),
                one_upload(1, "r", 7, 0),
                refused(commit(1, &[1]), 2),
                stores(1, 1, "A", OF_A),
                one_upload(1, "r", 7, 1),
                done(abort(1)),
                opens(7, "r", 2),
                done(commit(2, &[])),
                has_pairs("r", metadata(0, 7, joined(OF_NOTHING, 0)), &[]),
            ]
        }),
    ]
}

/// "Key and value bytes count as held."
fn pairs_held() -> Vec<Case> {
    let of = |name, arena, steps| Case { name, arena, steps };
    // Three bytes of key and value, and four.
    let (three, four) = (pairs(&[("k", "vw")]), pairs(&[("k", "vwx")]));
    vec![
        of("PUT fills the arena to its last byte", 10, {
            vec![
                refused(put_with(5, "a", "12345678", &three), 5),
                refused(put_with(5, "a", "1234567", &four), 5),
                done(put_with(5, "a", "1234567", &three)),
                refused(put_with(5, "b", "", &pairs(&[("k", "")])), 5),
                refused(put(5, "b", "1"), 5),
                refused(initiate_with(5, "r", &pairs(&[("k", "")])), 5),
                opens(5, "r", 1),
                refused(part(1, 1, "1"), 5),
                done(put(5, "b", "")),
            ]
        }),
        of("what is dropped is not held", 4, {
            let dropped = [("size", "123456789"), ("created", "5"), ("k", "v"), ("etag", "")];
            vec![
                done(put_with(5, "a", "12", &pairs(&dropped))),
                refused(put(5, "b", "1"), 5),
                done(put(5, "a", "1234")),
            ]
        }),
        of("old pairs are free for what replaces them", 6, {
            vec![
                done(put_with(5, "a", "123", &three)),
                done(put(6, "a", "123456")),
                done(put_with(7, "a", "", &pairs(&[("key", "val")]))),
                done(put_with(8, "a", "12", &four)),
                refused(put_with(9, "a", "123", &four), 5),
                done(delete("a")),
                done(put_with(9, "a", "123", &three)),
            ]
        }),
        of("COPY needs room for the pairs", 12, {
            vec![
                done(put_with(5, "a", "123", &four)),
                refused(copy(6, "a", "b"), 5),
                done(put(5, "b", "12345")),
                done(copy(6, "a", "a")),
                refused(copy(6, "a", "b"), 5),
                done(put_with(5, "a", "12", &four)),
                done(copy(6, "a", "b")),
                refused(put(5, "c", "1"), 5),
            ]
        }),
        of("INITIATE needs room for the pairs", 4, {
            vec![
                refused(initiate_with(7, "r", &pairs(&[("k", "vwxy")])), 5),
                answers(initiate_with(7, "r", &three), Answer::Upload(1)),
                refused(initiate_with(7, "s", &pairs(&[("k", "v")])), 5),
                answers(initiate_with(7, "s", &pairs(&[("k", "")])), Answer::Upload(2)),
                refused(part(1, 1, "A"), 5),
                opens(7, "t", 3),
                done(abort(2)),
                stores(1, 1, "A", OF_A),
                sweeps(8, 1, 1, true),
                done(put(5, "a", "1234")),
            ]
        }),
        of("COMMIT never needs room", 8, {
            vec![
                done(put(5, "r", "123")),
                answers(initiate_with(7, "r", &three), Answer::Upload(1)),
                stores(1, 2, "B", OF_B),
                stores(1, 1, "A", OF_A),
                refused(put(5, "a", "1"), 5),
                done(commit(1, &[2, 1])),
                refused(put(5, "a", "1234"), 5),
                done(put(5, "a", "123")),
            ]
        }),
        of("no arena", 0, {
            vec![
                refused(put_with(5, "a", "", &pairs(&[("k", "")])), 5),
                refused(initiate_with(5, "a", &pairs(&[("k", "")])), 5),
                done(put_with(5, "a", "", &pairs(&[("size", "1"), ("etag", "2")]))),
                has_pairs("a", metadata(0, 5, plain(OF_NOTHING)), &[]),
            ]
        }),
        of("eight pairs of the longest keys and values", 768, {
            let keys: Vec<String> = ('a'..='h').map(|key| key.to_string().repeat(32)).collect();
            let value = "~".repeat(64);
            let list: Vec<(&str, &str)> = keys.iter().map(|key| (&key[..], &value[..])).collect();
            vec![
                refused(put_with(5, "a", "1", &pairs(&list)), 5),
                done(put_with(5, "a", "", &pairs(&list))),
                has_pairs("a", metadata(0, 5, plain(OF_NOTHING)), &list),
                refused(head_into("a", 783), 7),
                refused(get_into("a", 0, 783), 7),
                done(delete("a")),
                answers(initiate_with(7, "r", &pairs(&list)), Answer::Upload(1)),
                refused(part(1, 1, "1"), 5),
                done(commit(1, &[])),
                has_pairs("r", metadata(0, 7, joined(OF_NOTHING, 0)), &list),
            ]
        }),
    ]
}
