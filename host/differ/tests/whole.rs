//! The test "whole" at the edge of each rule: the bytes of states that keep it, and of states that
//! break it.

use differ::layout::{bytes_of, former_state_of, state_of, without_pairs};
use model::{Call, Etag, Model, Object, Pairs, Upload, LARGEST_ARENA, NUMBERS_END};
use rathnodi::{slices, FORMER_TABLES_LEN, REPLY_LEN, TABLES_LEN};
use std::collections::BTreeMap;

/// Objects "a", plain, and "j", joined, and upload 2 to "r" with part 1; 7 bytes are held.
fn usual() -> Model {
    with_pairs(8, &[], &[], &[])
}

/// The usual state with these pairs beside the two objects and the upload.
fn with_pairs(arena: usize, of_a: &[u8], of_j: &[u8], of_r: &[u8]) -> Model {
    let mut state = Model::fresh(arena);
    let initiate = |stamp, path: &[u8], pairs: &[u8]| {
        let (path, pairs) = (path.to_vec(), pairs.to_vec());
        Call::Initiate { stamp, path, pairs }
    };
    for call in [
        Call::Put { stamp: 5, path: b"a".to_vec(), data: b"xyz".to_vec(), pairs: of_a.to_vec() },
        initiate(6, b"j", of_j),
        Call::Part { upload: 1, part: 1, data: b"AB".to_vec() },
        Call::Commit { upload: 1, list: vec![1, 0] },
        initiate(7, b"r", of_r),
        Call::Part { upload: 2, part: 1, data: b"BA".to_vec() },
    ] {
        assert_eq!(state.call(&call).number, 0);
    }
    state
}

/// The usual state with two pairs beside each object and the upload: 12 bytes more are held.
fn paired() -> Model {
    let pairs = b"\x01a\x01v\x02ab\0";
    with_pairs(19, pairs, pairs, pairs)
}

/// The usual state with as many objects, uploads and parts as are said.
fn filled(objects: usize, uploads: u32, parts: u16) -> Model {
    let mut state = usual();
    state.arena = 4096;
    state.next = 100;
    let object = plain(&mut state).clone();
    for i in 2..objects {
        state.objects.insert(format!("p{i:03}").into_bytes(), object.clone());
    }
    let first = upload(&mut state).clone();
    for i in 1..uploads {
        state.uploads.insert(2 + i, Upload { parts: BTreeMap::new(), ..first.clone() });
    }
    for i in 1..parts {
        upload(&mut state).parts.insert(1 + i, first.parts[&1].clone());
    }
    state
}

/// The pairs of the plain object, and of the upload.
fn pairs_of(state: &mut Model) -> [&mut Pairs; 2] {
    let object = state.objects.get_mut(b"a".as_slice()).expect("the plain object");
    let upload = state.uploads.get_mut(&2).expect("the upload");
    [&mut object.pairs, &mut upload.pairs]
}

/// The state with one pair more beside the plain object or the upload, and room for it.
fn more(state: &mut Model, at: usize, key: &[u8], value: &[u8]) {
    pairs_of(state)[at].insert(key.to_vec(), value.to_vec());
    state.arena += key.len() + value.len();
}

/// So many pairs beside each object and upload, in as many bytes.
fn count_pairs(state: &mut Model, count: u8) {
    let pairs: Pairs = (0..count).map(|i| (vec![b'a' + i], Vec::new())).collect();
    state.objects.values_mut().for_each(|object| object.pairs = pairs.clone());
    state.uploads.values_mut().for_each(|upload| upload.pairs = pairs.clone());
    state.arena = LARGEST_ARENA;
}

/// Each path lengthened to 128 bytes.
fn lengthen(state: &mut Model) {
    let longest = |path: &[u8]| [path, &[b'~'; 128][path.len()..]].concat();
    let objects = std::mem::take(&mut state.objects);
    state.objects = objects.into_iter().map(|(path, object)| (longest(&path), object)).collect();
    for upload in state.uploads.values_mut() {
        upload.path = longest(&upload.path);
    }
}

fn plain(state: &mut Model) -> &mut Object {
    state.objects.get_mut(b"a".as_slice()).expect("the plain object")
}

fn upload(state: &mut Model) -> &mut Upload {
    state.uploads.get_mut(&2).expect("the upload")
}

fn count_parts(state: &mut Model, count: u16) {
    let object = state.objects.get_mut(b"j".as_slice()).expect("the joined object");
    object.etag = Etag::Joined([7; 16], count);
}

fn rename(state: &mut Model, path: &[u8]) {
    let object = state.objects.remove(b"a".as_slice()).expect("the plain object");
    state.objects.insert(path.to_vec(), object);
}

fn number_upload(state: &mut Model, number: u32, next: u64) {
    let upload = state.uploads.remove(&2).expect("the upload");
    state.uploads.insert(number, upload);
    state.next = next;
}

fn number_part(state: &mut Model, number: u16) {
    let part = upload(state).parts.remove(&1).expect("the part");
    upload(state).parts.insert(number, part);
}

/// Tables and arena with a state's bytes, the tables of this length.
fn memory_of(state: &Model, length: usize) -> (Vec<u8>, Vec<u8>) {
    let bytes = bytes_of(state);
    let (mut tables, mut arena) = (bytes.tables, bytes.arena);
    tables.resize(length, 0xa7);
    arena.resize(state.arena, 0xa7);
    (tables, arena)
}

/// What memory stands for by docs/LAYOUT.md, which the proved store takes as whole just then.
fn stands_for(tables: &[u8], arena: &[u8]) -> Option<Model> {
    let number = slices::head(tables, arena, b"", &mut [], &mut [0; REPLY_LEN]);
    let state = state_of(tables, arena);
    assert_eq!(number, if state.is_some() { 0 } else { 1 });
    state
}

/// The proved store takes the state's bytes as whole; docs/LAYOUT.md says the same.
fn whole(state: &Model) -> bool {
    let (tables, arena) = memory_of(state, TABLES_LEN);
    stands_for(&tables, &arena).as_ref() == Some(state)
}

/// The same of the former layout; what is carried over is whole then.
fn former_whole(former: &[u8], arena: &[u8]) -> Option<Model> {
    let mut tables = [0x5a; TABLES_LEN];
    let number = slices::carry_over(former, arena, &mut tables);
    let state = former_state_of(former, arena);
    let (front, rest) = tables.split_at(FORMER_TABLES_LEN);
    assert!(rest.iter().all(|byte| *byte == 0x5a));
    match number {
        0 => {
            assert!(front == former);
            assert_eq!(stands_for(&tables, arena), state);
        }
        _ => assert!(front.iter().all(|byte| *byte == 0x5a)),
    }
    assert_eq!(number, if state.is_some() { 0 } else { 1 });
    state
}

#[test]
fn states_that_keep_the_rules() {
    let changes: [(&str, fn(&mut Model)); 15] = [
        ("as it is", |_| ()),
        ("no byte is free", |state| state.arena = 7),
        ("the longest arena", |state| state.arena = LARGEST_ARENA),
        ("the last N", |state| state.next = NUMBERS_END),
        ("the first stamp", |state| plain(state).created = 1),
        ("the last stamp", |state| upload(state).started = u64::MAX),
        ("a count of 0", |state| count_parts(state, 0)),
        ("a count of 256", |state| count_parts(state, 256)),
        ("a path of 128 bytes", |state| rename(state, &[b'~'; 128])),
        ("the first upload", |state| number_upload(state, 1, 2)),
        ("the last upload", |state| number_upload(state, u32::MAX, NUMBERS_END)),
        ("the last part that PART takes", |state| number_part(state, 10_000)),
        ("the first part that it took before", |state| number_part(state, 10_001)),
        ("the last part", |state| number_part(state, 11_000)),
        ("256 objects, 16 uploads, 256 parts", |state| *state = filled(256, 16, 256)),
    ];
    for (name, change) in changes {
        let mut state = usual();
        change(&mut state);
        assert!(whole(&state), "{name}");
        let (former, arena) = memory_of(&state, FORMER_TABLES_LEN);
        assert_eq!(former_whole(&former, &arena), Some(state), "{name}");
        let mut state = paired();
        change(&mut state);
        // What is free in the usual state is not enough here.
        state.arena = state.arena.max(state.held());
        assert!(whole(&state), "{name}, with pairs");
    }
}

/// The most that there can be: of the former layout without pairs, and with eight pairs each.
#[test]
fn tables_without_a_free_byte() {
    let mut state = filled(256, 16, 256);
    lengthen(&mut state);
    let (former, arena) = memory_of(&state, FORMER_TABLES_LEN);
    assert_eq!(bytes_of(&state).tables.len(), FORMER_TABLES_LEN);
    assert_eq!(former_whole(&former, &arena), Some(state.clone()));
    assert!(whole(&state));
    count_pairs(&mut state, 8);
    assert_eq!(bytes_of(&state).tables.len(), TABLES_LEN);
    assert!(whole(&state));
}

#[test]
fn states_that_break_a_rule() {
    let changes: [(&str, fn(&mut Model)); 19] = [
        ("a byte more than the arena has", |state| state.arena = 6),
        ("a longer arena", |state| state.arena = LARGEST_ARENA + 1),
        ("no N", |state| *state = Model { next: 0, ..Model::fresh(8) }),
        ("N too large", |state| state.next = NUMBERS_END + 1),
        ("an upload not below N", |state| state.next = 2),
        ("upload 0", |state| number_upload(state, 0, 3)),
        ("an object's stamp 0", |state| plain(state).created = 0),
        ("an upload's stamp 0", |state| upload(state).started = 0),
        ("a count of 257", |state| count_parts(state, 257)),
        ("an empty path", |state| rename(state, b"")),
        ("a path of 129 bytes", |state| rename(state, &[b'~'; 129])),
        ("a slash first", |state| rename(state, b"/a")),
        ("two slashes", |state| rename(state, b"a//b")),
        ("an upload to a bad path", |state| upload(state).path = b"a b".to_vec()),
        ("part 0", |state| number_part(state, 0)),
        ("part 11,001", |state| number_part(state, 11_001)),
        ("257 objects", |state| *state = filled(257, 16, 256)),
        ("17 uploads", |state| *state = filled(256, 17, 256)),
        ("257 parts", |state| *state = filled(256, 16, 257)),
    ];
    for (name, change) in changes {
        let mut state = usual();
        change(&mut state);
        assert!(!whole(&state), "{name}");
        if bytes_of(&state).tables.len() <= FORMER_TABLES_LEN {
            let (former, arena) = memory_of(&state, FORMER_TABLES_LEN);
            assert_ne!(former_whole(&former, &arena), Some(state), "{name}");
        }
    }
}

#[test]
fn pairs_that_keep_the_rules() {
    let changes: [(&str, fn(&mut Model, usize)); 11] = [
        ("as they are", |_, _| ()),
        ("none", |state, at| pairs_of(state)[at].clear()),
        ("eight", |state, _| count_pairs(state, 8)),
        ("a key of 32 bytes", |state, at| more(state, at, &[b'k'; 32], b"v")),
        ("a value of 64 bytes", |state, at| more(state, at, b"k", &[b'v'; 64])),
        ("no value", |state, at| more(state, at, b"k", b"")),
        ("the edges of a key's bytes", |state, at| more(state, at, b"-09az", b"v")),
        ("the edges of a value's bytes", |state, at| more(state, at, b"k", b" ~")),
        ("a key beside \"a\"", |state, at| more(state, at, b"a-", b"")),
        ("keys much like \"size\"", |state, at| {
            more(state, at, b"siz", b"");
            more(state, at, b"sizes", b"");
        }),
        ("keys much like \"created\" and \"etag\"", |state, at| {
            more(state, at, b"create", b"");
            more(state, at, b"etags", b"");
        }),
    ];
    for at in 0..2 {
        for (name, change) in changes {
            let mut state = paired();
            change(&mut state, at);
            assert!(whole(&state), "{name}, {at}");
            let (former, arena) = memory_of(&state, FORMER_TABLES_LEN);
            assert_eq!(former_whole(&former, &arena), None, "{name}, {at}");
            let plain = without_pairs(&state);
            let (former, arena) = memory_of(&plain, FORMER_TABLES_LEN);
            assert_eq!(former_whole(&former, &arena), Some(plain), "{name}, {at}");
        }
    }
}

#[test]
fn pairs_that_break_a_rule() {
    let changes: [(&str, fn(&mut Model, usize)); 18] = [
        ("a byte more than the arena has", |state, _| state.arena -= 1),
        ("nine pairs", |state, at| {
            for key in [b"b", b"c", b"d", b"e", b"f", b"g", b"h"] {
                more(state, at, key, b"");
            }
        }),
        ("63 pairs", |state, at| {
            for i in 0..61 {
                more(state, at, &[b'b' + i / 10, b'0' + i % 10], b"");
            }
        }),
        ("an empty key", |state, at| more(state, at, b"", b"v")),
        ("an empty pair", |state, at| more(state, at, b"", b"")),
        ("a key of 33 bytes", |state, at| more(state, at, &[b'k'; 33], b"v")),
        ("a value of 65 bytes", |state, at| more(state, at, b"k", &[b'v'; 65])),
        ("a capital in a key", |state, at| more(state, at, b"kA", b"v")),
        ("below the letters", |state, at| more(state, at, b"k`", b"v")),
        ("above the letters", |state, at| more(state, at, b"k{", b"v")),
        ("below the digits", |state, at| more(state, at, b"k/", b"v")),
        ("above the digits", |state, at| more(state, at, b"k:", b"v")),
        ("beside the hyphen", |state, at| more(state, at, b"k.", b"v")),
        ("below a value's bytes", |state, at| more(state, at, b"k", b"v\x1f")),
        ("above a value's bytes", |state, at| more(state, at, b"k", b"\x7fv")),
        ("the key size", |state, at| more(state, at, b"size", b"1")),
        ("the key created", |state, at| more(state, at, b"created", b"1")),
        ("the key etag", |state, at| more(state, at, b"etag", b"")),
    ];
    for at in 0..2 {
        for (name, change) in changes {
            let mut state = paired();
            change(&mut state, at);
            assert!(!whole(&state), "{name}, {at}");
        }
    }
}

/// Bytes of the paired state that no state has: rows by their number, from 0, and fields by offset.
#[test]
fn pairs_that_no_state_has() {
    let state = paired();
    let rows = bytes_of(&state).rows;
    let (tables, arena) = memory_of(&state, TABLES_LEN);
    assert_eq!(stands_for(&tables, &arena), Some(state.clone()));
    // The kind, and after a path of one byte the lengths of "a", "v", "ab" and "".
    let (size, kind, lengths) = (0, 16, 37);
    let [plain, joined, upload, part] = [0, 1, 2, 3].map(|i| rows[i].0);
    let table_changes: [(&str, &[(usize, u8)]); 14] = [
        ("an object of kind 2", &[(plain + kind, 4 * 2 + 2)]),
        ("an object of kind 3", &[(joined + kind, 4 * 2 + 3)]),
        ("an upload of kind 0", &[(upload + kind, 4 * 2)]),
        ("an upload of kind 1", &[(upload + kind, 4 * 2 + 1)]),
        ("an upload of kind 3", &[(upload + kind, 4 * 2 + 3)]),
        ("a part with a pair", &[(part + kind, 4 + 3)]),
        ("a pair fewer beside an upload", &[(upload + kind, 4 + 2)]),
        ("an upload with data", &[(upload + size, 5), (part + size, 1)]),
        ("an upload of a smaller size", &[(upload + size, 3), (part + size, 3)]),
        ("an object of a smaller size than its pairs", &[(plain + size, 3), (joined + size, 10)]),
        ("a longer value, beyond the object", &[(plain + lengths + 3, 4)]),
        ("a longer key, beyond the upload", &[(upload + lengths + 2, 3)]),
        ("an empty key", &[(plain + lengths, 0), (plain + lengths + 1, 2)]),
        (
            "a key of two bytes, no lower than the next",
            &[(plain + lengths, 2), (plain + lengths + 1, 0)],
        ),
    ];
    for (name, changes) in table_changes {
        let mut changed = tables.clone();
        for (at, byte) in changes {
            assert_ne!(changed[*at], *byte, "{name}");
            changed[*at] = *byte;
        }
        assert_eq!(stands_for(&changed, &arena), None, "{name}");
    }
    for (row, (_, block)) in rows[..3].iter().enumerate() {
        // The block begins with "a", "v", "ab".
        for (name, bytes, good) in [
            ("keys that fall", b"bvab", false),
            ("equal beginnings", b"avaa", true),
            ("a later key that is lower", b"avAb", false),
            ("a space in a key", b"av a", false),
            ("a bad byte in a value", b"a\x7fab", false),
            ("another value", b"a~ab", true),
        ] {
            let mut changed = arena.clone();
            changed[*block..block + 4].copy_from_slice(bytes);
            assert_eq!(stands_for(&tables, &changed).is_some(), good, "{name}, row {row}");
        }
    }
    // Two keys of one length that are equal, or change places.
    let (tables, arena) = memory_of(&with_pairs(19, b"\x02ka\0\x02kb\0", b"", b""), TABLES_LEN);
    for (keys, good) in [(b"kakb", true), (b"kaka", false), (b"kbka", false), (b"kbkc", true)] {
        let mut changed = arena.clone();
        changed[..4].copy_from_slice(keys);
        assert_eq!(stands_for(&tables, &changed).is_some(), good, "{keys:?}");
    }
}
