//! docs/LAYOUT.md, written out once more: the bytes of a state, and the test "whole".

use model::{bytes_held, pair_ok, path_ok, Digest, Etag, Model, Object, Pairs, Part, Upload};
use model::{LARGEST_ARENA, LAST_HELD_PART, MOST_OBJECTS, MOST_PAIRS, MOST_PARTS, MOST_UPLOADS};
use model::{NUMBERS_END, SYSTEM_KEYS};
use std::collections::BTreeMap;

/// The tables, and those of the former layout, whose rows have no pairs.
const TABLES_LEN: usize = 58_194;
const FORMER_LEN: usize = 53_842;
pub const HEADER_LEN: usize = 18;
/// Where N stands in the header, in eight bytes.
pub const NEXT_AT: usize = 4;

const PLAIN: u8 = 0;
const JOINED: u8 = 1;
const UPLOAD: u8 = 2;
const PART: u8 = 3;
/// The kind byte is the kind and this many times the pairs.
const PAIR: u8 = 4;
const NO_DIGEST: Digest = [0; 16];

/// What the tables and the arena begin with; the rest of both is free.
#[derive(Default)]
pub struct Bytes {
    pub tables: Vec<u8>,
    pub arena: Vec<u8>,
    /// Where each row starts in the tables, and its block in the arena.
    pub rows: Vec<(usize, usize)>,
}

struct Row {
    number: u32,
    stamp: u64,
    kind: u8,
    count: u16,
    digest: Digest,
    path: Vec<u8>,
}

impl Bytes {
    /// A row, and its block: keys and values, then the data.
    fn row(&mut self, row: &Row, pairs: &Pairs, data: &[u8]) {
        self.rows.push((self.tables.len(), self.arena.len()));
        let size = bytes_held(pairs) + data.len();
        self.tables.extend((size as u32).to_le_bytes());
        self.tables.extend(row.number.to_le_bytes());
        self.tables.extend(row.stamp.to_le_bytes());
        self.tables.push(row.kind + PAIR * pairs.len() as u8);
        self.tables.push(row.path.len() as u8);
        self.tables.extend(row.count.to_le_bytes());
        self.tables.extend(row.digest);
        self.tables.extend(&row.path);
        for (key, value) in pairs {
            self.tables.extend([key.len() as u8, value.len() as u8]);
            self.arena.extend(key);
            self.arena.extend(value);
        }
        self.arena.extend(data);
    }
}

/// The bytes of a state.
pub fn bytes_of(model: &Model) -> Bytes {
    let mut bytes = Bytes::default();
    bytes.tables.extend((model.arena as u32).to_le_bytes());
    bytes.tables.extend(model.next.to_le_bytes());
    for count in [model.objects.len(), model.uploads.len(), model.parts()] {
        bytes.tables.extend((count as u16).to_le_bytes());
    }
    for (path, Object { data, created, etag, pairs }) in &model.objects {
        let (kind, count, digest) = match *etag {
            Etag::Plain(digest) => (PLAIN, 0, digest),
            Etag::Joined(digest, count) => (JOINED, count, digest),
            Etag::Absent => panic!("an object has an etag"),
        };
        let (stamp, path) = (*created, path.clone());
        bytes.row(&Row { number: 0, stamp, kind, count, digest, path }, pairs, data);
    }
    for (number, Upload { path, started, pairs, parts }) in &model.uploads {
        let (number, stamp, path, digest) = (*number, *started, path.clone(), NO_DIGEST);
        bytes.row(&Row { number, stamp, kind: UPLOAD, count: 0, digest, path }, pairs, &[]);
        for (number, Part { data, digest }) in parts {
            let (number, digest, path) = (u32::from(*number), *digest, Vec::new());
            let row = Row { number, stamp: 0, kind: PART, count: 0, digest, path };
            bytes.row(&row, &Pairs::new(), data);
        }
    }
    bytes
}

/// The state without its pairs.
pub fn without_pairs(model: &Model) -> Model {
    let mut model = model.clone();
    model.objects.values_mut().for_each(|object| object.pairs.clear());
    model.uploads.values_mut().for_each(|upload| upload.pairs.clear());
    model
}

/// Bytes read from the front.
struct Front<'a>(&'a [u8]);

impl<'a> Front<'a> {
    fn take(&mut self, count: usize) -> Option<&'a [u8]> {
        let (front, rest) = self.0.split_at_checked(count)?;
        self.0 = rest;
        Some(front)
    }

    fn number(&mut self, width: usize) -> Option<u64> {
        Some(self.take(width)?.iter().rev().fold(0, |number, byte| number << 8 | u64::from(*byte)))
    }

    /// A row with its block: pairs and data. At most so many pairs, each by its rules, none with a
    /// system key, and keys ascending.
    fn row(&mut self, arena: &mut Front, most_pairs: usize) -> Option<(Row, Pairs, Vec<u8>)> {
        let (size, number) = (self.number(4)? as usize, self.number(4)? as u32);
        let (stamp, kind) = (self.number(8)?, self.number(1)? as u8);
        let (length, count) = (self.number(1)? as usize, self.number(2)? as u16);
        let digest = self.take(16)?.try_into().ok()?;
        let path = self.take(length)?.to_vec();
        let pair_count = usize::from(kind / PAIR);
        must(pair_count <= most_pairs)?;
        let mut block = Front(arena.take(size)?);
        let mut pairs = Pairs::new();
        for _ in 0..pair_count {
            let (key_length, value_length) = (self.number(1)? as usize, self.number(1)? as usize);
            let (key, value) = (block.take(key_length)?, block.take(value_length)?);
            must(pair_ok(key, value) && !SYSTEM_KEYS.contains(&key))?;
            must(pairs.last_key_value().is_none_or(|(before, _)| before.as_slice() < key))?;
            pairs.insert(key.to_vec(), value.to_vec());
        }
        let row = Row { number, stamp, kind: kind % PAIR, count, digest, path };
        Some((row, pairs, block.0.to_vec()))
    }
}

fn must(rule: bool) -> Option<()> {
    rule.then_some(())
}

/// The state that whole memory stands for; nothing where it is not whole.
pub fn state_of(tables: &[u8], arena: &[u8]) -> Option<Model> {
    must(tables.len() == TABLES_LEN)?;
    state_in(tables, arena, MOST_PAIRS)
}

/// The same of memory of the former layout.
pub fn former_state_of(tables: &[u8], arena: &[u8]) -> Option<Model> {
    must(tables.len() == FORMER_LEN)?;
    state_in(tables, arena, 0)
}

/// The state of tables and arena in which a row may have so many pairs.
fn state_in(tables: &[u8], arena: &[u8], most_pairs: usize) -> Option<Model> {
    must(arena.len() <= LARGEST_ARENA)?;
    let (mut rows, mut blocks) = (Front(tables), Front(arena));
    must(rows.number(4)? == arena.len() as u64)?;
    let next = rows.number(8)?;
    must((1..=NUMBERS_END).contains(&next))?;
    let counts = [rows.number(2)?, rows.number(2)?, rows.number(2)?].map(|count| count as usize);
    must(counts[0] <= MOST_OBJECTS && counts[1] <= MOST_UPLOADS && counts[2] <= MOST_PARTS)?;

    let mut objects: BTreeMap<Vec<u8>, Object> = BTreeMap::new();
    for _ in 0..counts[0] {
        let (row, pairs, data) = rows.row(&mut blocks, most_pairs)?;
        must(row.number == 0 && row.stamp >= 1 && path_ok(&row.path))?;
        must(objects.last_key_value().is_none_or(|(before, _)| *before < row.path))?;
        let etag = match (row.kind, row.count) {
            (PLAIN, 0) => Etag::Plain(row.digest),
            (JOINED, 0..=256) => Etag::Joined(row.digest, row.count),
            _ => return None,
        };
        objects.insert(row.path, Object { data, created: row.stamp, etag, pairs });
    }
    let mut uploads: BTreeMap<u32, Upload> = BTreeMap::new();
    for _ in 0..counts[1] + counts[2] {
        let (row, pairs, data) = rows.row(&mut blocks, most_pairs)?;
        must(row.count == 0)?;
        let before = uploads.last_key_value().map_or(0, |(number, _)| *number);
        if row.kind == UPLOAD {
            must(data.is_empty() && row.stamp >= 1 && row.digest == NO_DIGEST)?;
            must(row.number > before && u64::from(row.number) < next && path_ok(&row.path))?;
            let (path, started, parts) = (row.path, row.stamp, BTreeMap::new());
            uploads.insert(row.number, Upload { path, started, pairs, parts });
        } else {
            must(row.kind == PART && pairs.is_empty() && row.stamp == 0 && row.path.is_empty())?;
            let parts = &mut uploads.get_mut(&before)?.parts;
            let last = parts.last_key_value().map_or(0, |(number, _)| *number);
            must(row.number > u32::from(last) && row.number <= u32::from(LAST_HELD_PART))?;
            parts.insert(row.number as u16, Part { data, digest: row.digest });
        }
    }
    must(uploads.len() == counts[1])?;
    Some(Model { arena: arena.len(), objects, uploads, next })
}

#[cfg(test)]
mod tests {
    use super::*;
    use crate::generate;
    use crate::list::Step;

    /// The states of random lists: their bytes are whole and stand for them, whatever the free
    /// bytes are, and in an arena of another length they are not. They are whole by the former
    /// layout just where they have no pairs.
    #[test]
    fn bytes_stand_for_their_state() {
        for index in 0..300 {
            let list = generate::list(3, index);
            let mut model = Model::fresh(list.arena);
            for step in &list.steps {
                if let Step::Call(call, _) = step {
                    model.call(call);
                }
            }
            let memory_of = |model: &Model, length: usize| {
                let Bytes { mut tables, mut arena, .. } = bytes_of(model);
                tables.resize(length, 0xa7);
                arena.resize(list.arena, 0xa7);
                (tables, arena)
            };
            let (tables, mut arena) = memory_of(&model, TABLES_LEN);
            assert_eq!(state_of(&tables, &arena).as_ref(), Some(&model));
            assert_eq!(former_state_of(&tables, &arena), None);
            let plain = without_pairs(&model);
            let former = former_state_of(&tables[..FORMER_LEN], &arena);
            assert_eq!(former, (model == plain).then_some(model));
            arena.push(0);
            assert_eq!(state_of(&tables, &arena), None);

            let (former, arena) = memory_of(&plain, FORMER_LEN);
            assert_eq!(former_state_of(&former, &arena), Some(plain));
            assert_eq!(state_of(&former, &arena), None);
        }
    }
}
