//! The documents' cases over the proved store.

use differ::layout::{state_of, HEADER_LEN, NEXT_AT};
use differ::list::Line;
use differ::reply::{bytes_of, etag, number, REPLY_LEN};
use model::cases::all;
use model::{Answer, Call, Etag, Model, Reply, LONGEST_LINE, NUMBERS_END};
use rathnodi::{slices, FORMER_TABLES_LEN, TABLES_LEN};
use std::fs;
use std::process::Command;

struct Memory {
    tables: Vec<u8>,
    arena: Vec<u8>,
}

impl Memory {
    fn fresh(arena: usize) -> Memory {
        let mut memory = Memory { tables: vec![0x5a; TABLES_LEN], arena: vec![0x5a; arena] };
        assert_eq!(slices::fresh(&mut memory.tables, &mut memory.arena), 0);
        memory
    }

    /// The call's number, and its reply slice read as an answer.
    fn call(&mut self, call: &Call) -> Reply {
        let (t, a) = (&mut self.tables, &mut self.arena);
        let mut buffer = call.buffer().to_vec();
        let mut pairs_buffer = call.pairs_buffer().to_vec();
        let mut reply = [0xa5; REPLY_LEN];
        let (b, p, r) = (&mut buffer, &mut pairs_buffer, &mut reply);
        let result = match call {
            Call::Put { stamp, path, data, pairs } => slices::put(t, a, *stamp, path, data, pairs),
            Call::Get { path, .. } => slices::get(t, a, path, b, p, r),
            Call::Head { path, .. } => slices::head(t, a, path, p, r),
            Call::Delete { path } => slices::delete(t, a, path),
            Call::DeleteObjects { names, places, .. } => {
                slices::delete_objects(t, a, names, places, b)
            }
            Call::Copy { stamp, source, destination } => {
                slices::copy(t, a, *stamp, source, destination)
            }
            Call::List { prefix, suffix, .. } => slices::list(t, a, prefix, suffix, b, r),
            Call::Initiate { stamp, path, pairs } => slices::initiate(t, a, *stamp, path, pairs, r),
            Call::Part { upload, part, data } => slices::part(t, a, *upload, *part, data, r),
            Call::Commit { upload, list } => slices::commit(t, a, *upload, list),
            Call::Abort { upload } => slices::abort(t, a, *upload),
            Call::Sweep { stamp, most } => slices::sweep(t, a, *stamp, *most, r),
            Call::Uploads { prefix, .. } => slices::uploads(t, a, prefix, b, r),
        };
        let answer = match call {
            _ if result != 0 => Answer::Nothing,
            Call::Get { .. } | Call::Head { .. } => Answer::Metadata {
                length: number(&reply, 8, 4) as u32,
                created: number(&reply, 0, 8),
                etag: etag(&reply),
                pairs: number(&reply, 44, 2) as u16,
                pairs_bytes: number(&reply, 46, 2) as u16,
            },
            Call::Initiate { .. } => Answer::Upload(number(&reply, 12, 4) as u32),
            Call::Part { .. } => Answer::Etag(etag(&reply)),
            Call::List { .. } | Call::Uploads { .. } => Answer::Written {
                records: number(&reply, 16, 4) as u32,
                bytes: number(&reply, 20, 4) as u32,
            },
            Call::Sweep { .. } => {
                Answer::Swept { count: number(&reply, 16, 4) as u32, more: reply[25] == 1 }
            }
            _ => Answer::Nothing,
        };
        Reply { number: result, answer, buffer, pairs_buffer }
    }
}

#[test]
fn cases_of_the_documents() {
    for case in all() {
        let mut memory = Memory::fresh(case.arena);
        case.check(|call| memory.call(call)).unwrap_or_else(|difference| panic!("{difference}"));
    }
}

/// The same, with each call that the record has a verb for made by its line.
#[test]
fn cases_of_the_documents_by_lines() {
    let mut lines = 0;
    for case in all() {
        let (mut memory, mut state) = (Memory::fresh(case.arena), Model::fresh(case.arena));
        case.check(|call| {
            let expected = state.call(call);
            let Some(line) = Line::of(call).filter(|line| line.text.len() <= LONGEST_LINE) else {
                return memory.call(call);
            };
            lines += 1;
            let (mut buffer, mut pairs_buffer) = (line.buffer.clone(), line.pairs_buffer.clone());
            let mut reply = [0xa5; REPLY_LEN];
            let number = slices::replay_line(
                &mut memory.tables,
                &mut memory.arena,
                &line.text,
                &mut buffer,
                &mut pairs_buffer,
                &mut reply,
            );
            let written = if number == 0 { bytes_of(&expected.answer) } else { [0xa5; REPLY_LEN] };
            assert_eq!(reply, written, "{}: {call}", case.name);
            buffer.truncate(call.buffer().len());
            pairs_buffer.truncate(call.pairs_buffer().len());
            Reply { number, answer: expected.answer, buffer, pairs_buffer }
        })
        .unwrap_or_else(|difference| panic!("{difference}"));
    }
    assert!(lines > 100, "{lines} lines");
}

/// Parts 1 and 11,000 of upload 1 to "r", as a store from before E7 can hold them: PART takes 10,000, and another hand writes the number
/// (docs/LAYOUT.md: after the header the upload's row of 37 bytes and the first part's of 36, the number 4 bytes into the next row).
fn older() -> (Memory, Model) {
    let (mut memory, mut state) = (Memory::fresh(64), Model::fresh(64));
    let part = |part, data: &[u8]| Call::Part { upload: 1, part, data: data.to_vec() };
    let initiate = Call::Initiate { stamp: 7, path: b"r".to_vec(), pairs: Vec::new() };
    for call in [initiate, part(1, b"A"), part(10_000, b"B")] {
        assert_eq!(memory.call(&call).number, 0);
        assert_eq!(state.call(&call).number, 0);
    }
    let number = HEADER_LEN + 37 + 36 + 4;
    assert_eq!(memory.tables[number..number + 4], 10_000u32.to_le_bytes());
    memory.tables[number..number + 4].copy_from_slice(&11_000u32.to_le_bytes());
    let parts = &mut state.uploads.get_mut(&1).expect("open").parts;
    let last = parts.remove(&10_000).expect("the part");
    parts.insert(11_000, last);
    assert_eq!(state_of(&memory.tables, &memory.arena).as_ref(), Some(&state));
    (memory, state)
}

/// A higher part that an older store holds is counted, committed and aborted; PART refuses it.
#[test]
fn a_part_above_10000_of_an_older_store() {
    let part = |part, data: &[u8]| Call::Part { upload: 1, part, data: data.to_vec() };
    let commit = |parts: &[u16]| {
        let list = parts.iter().flat_map(|part| part.to_le_bytes()).collect();
        Call::Commit { upload: 1, list }
    };
    let uploads = || Call::Uploads { prefix: b"r".to_vec(), buffer: vec![9; 16] };
    let get = |length| {
        let (path, buffer, pairs_buffer) = (b"r".to_vec(), vec![0; length], Vec::new());
        Call::Get { path, buffer, pairs_buffer }
    };
    let counted = b"\x01\0\0\0\x01r\x07\0\0\0\0\0\0\0\x02\0";
    let committed: Vec<(Call, u32, &[u8])> = vec![
        (uploads(), 0, counted),
        (part(11_000, b"C"), 2, b""),
        (part(10_001, b"C"), 2, b""),
        (commit(&[11_000]), 2, b""),
        (commit(&[10_000, 1]), 2, b""),
        (commit(&[11_001, 1]), 2, b""),
        (commit(&[11_000, 1]), 0, b""),
        (get(2), 0, b"BA"),
        (uploads(), 0, &[9; 16]),
    ];
    let beside: Vec<(Call, u32, &[u8])> = vec![
        (part(10_000, b"C"), 0, b""),
        (commit(&[10_000, 11_000, 1]), 0, b""),
        (get(3), 0, b"CBA"),
    ];
    let aborted: Vec<(Call, u32, &[u8])> =
        vec![(Call::Abort { upload: 1 }, 0, b""), (uploads(), 0, &[9; 16])];
    let swept: Vec<(Call, u32, &[u8])> =
        vec![(Call::Sweep { stamp: 8, most: 1 }, 0, b""), (uploads(), 0, &[9; 16])];
    for list in [committed, beside, aborted, swept] {
        // As it is, and carried over from tables of the former layout, whose rows are the same.
        for former in [false, true] {
            let (mut memory, mut state) = older();
            if former {
                let rows = memory.tables[..FORMER_TABLES_LEN].to_vec();
                memory.tables.fill(0x5a);
                assert_eq!(slices::carry_over(&rows, &memory.arena, &mut memory.tables), 0);
            }
            for (call, number, buffer) in &list {
                let reply = memory.call(call);
                assert_eq!((reply.number, reply.buffer.as_slice()), (*number, *buffer), "{call}");
                assert_eq!(reply, state.call(call), "{call}");
                assert_eq!(
                    state_of(&memory.tables, &memory.arena).as_ref(),
                    Some(&state),
                    "{call}"
                );
            }
        }
    }
}

/// The last numbers; 4 where 16 uploads are open, 6 where fewer are, and 5 for pairs in no arena.
#[test]
fn numbers_are_used_up() {
    let mut memory = Memory::fresh(0);
    let first = NUMBERS_END - 16;
    memory.tables[NEXT_AT..NEXT_AT + 8].copy_from_slice(&first.to_le_bytes());
    let with = |pairs: &[u8]| Call::Initiate { stamp: 1, path: b"r".to_vec(), pairs: pairs.into() };
    let initiate = with(&[]);
    for number in first..NUMBERS_END {
        assert_eq!(memory.call(&initiate).answer, Answer::Upload(number as u32));
    }
    assert_eq!(memory.call(&initiate).number, 4);
    assert_eq!(memory.call(&with(b"\x01k\0")).number, 4);
    assert_eq!(memory.call(&Call::Abort { upload: u32::MAX }).number, 0);
    assert_eq!(memory.call(&initiate).number, 6);
    assert_eq!(memory.call(&with(b"\x01k\0")).number, 5);
    assert_eq!(memory.call(&with(b"\x01K\0")).number, 2);
}

/// Etags of PUT, PART and COPY against md5sum(1), around the edges of MD5's blocks.
#[test]
fn digests_as_md5sum_says() {
    let lengths = (0..=130).chain([191, 192, 255, 256, 1000, 4096, 65_536, 1_048_576]);
    let folder = std::env::temp_dir().join(format!("rathnodi-differ-md5-{}", std::process::id()));
    fs::create_dir(&folder).expect("a new folder");
    let messages: Vec<Vec<u8>> = lengths
        .map(|length: usize| (0..length).map(|i| ((i * i + 3 * length) % 253) as u8).collect())
        .collect();
    let files: Vec<_> = (0..messages.len()).map(|i| folder.join(format!("{i:04}"))).collect();
    for (file, message) in files.iter().zip(&messages) {
        fs::write(file, message).expect("a written file");
    }
    let output = Command::new("md5sum").args(&files).output().expect("md5sum runs");
    fs::remove_dir_all(&folder).expect("the folder is removed");
    let text = String::from_utf8(output.stdout).expect("text");
    let sums: Vec<&str> = text.lines().map(|line| &line[..32]).collect();
    assert_eq!(sums.len(), messages.len());

    let text_of = |answer: Answer| match answer {
        Answer::Metadata { etag: etag @ Etag::Plain(_), .. } => etag.text(),
        Answer::Etag(etag @ Etag::Plain(_)) => etag.text(),
        other => panic!("{other:?}"),
    };
    let head = |path: &[u8]| Call::Head { path: path.to_vec(), pairs_buffer: Vec::new() };
    for (data, sum) in messages.iter().zip(sums) {
        let mut memory = Memory::fresh(2 * data.len().min(524_288));
        let (path, pairs) = (b"a".to_vec(), Vec::new());
        let initiate = Call::Initiate { stamp: 1, path: path.clone(), pairs: pairs.clone() };
        let put = Call::Put { stamp: 1, path, data: data.clone(), pairs };
        assert_eq!(memory.call(&put).number, 0);
        assert_eq!(text_of(memory.call(&head(b"a")).answer), sum, "put of {}", data.len());
        let copy = Call::Copy { stamp: 1, source: b"a".to_vec(), destination: b"a".to_vec() };
        assert_eq!(memory.call(&copy).number, 0);
        assert_eq!(text_of(memory.call(&head(b"a")).answer), sum, "copy of {}", data.len());
        assert_eq!(memory.call(&Call::Delete { path: b"a".to_vec() }).number, 0);
        assert_eq!(memory.call(&initiate).number, 0);
        let part = memory.call(&Call::Part { upload: 1, part: 1, data: data.clone() });
        assert_eq!(text_of(part.answer), sum, "part of {}", data.len());
    }
}
