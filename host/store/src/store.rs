//! A store that owns its tables and its arena.

use crate::{slices, PAIRS_BYTES_MAX, REPLY_LEN, TABLES_LEN};
use std::fmt;

/// Why a call was refused; its number is `self as u32`.
#[derive(Clone, Copy, Debug, PartialEq, Eq)]
pub enum Refusal {
    NotAStore = 1,
    BadRequest = 2,
    NotFound = 3,
    TableFull = 4,
    ArenaFull = 5,
    NumbersUsedUp = 6,
    BufferShort = 7,
    TooMany = 8,
    NotALine = 9,
}

impl Refusal {
    fn of(number: u32) -> Result<(), Refusal> {
        Err(match number {
            0 => return Ok(()),
            1 => Refusal::NotAStore,
            2 => Refusal::BadRequest,
            3 => Refusal::NotFound,
            4 => Refusal::TableFull,
            5 => Refusal::ArenaFull,
            6 => Refusal::NumbersUsedUp,
            7 => Refusal::BufferShort,
            8 => Refusal::TooMany,
            9 => Refusal::NotALine,
            _ => panic!("the library answered {number}"),
        })
    }
}

impl fmt::Display for Refusal {
    fn fmt(&self, f: &mut fmt::Formatter) -> fmt::Result {
        f.write_str(match self {
            Refusal::NotAStore => "not a store",
            Refusal::BadRequest => "bad request",
            Refusal::NotFound => "not found",
            Refusal::TableFull => "table full",
            Refusal::ArenaFull => "arena full",
            Refusal::NumbersUsedUp => "numbers used up",
            Refusal::BufferShort => "buffer short",
            Refusal::TooMany => "too many",
            Refusal::NotALine => "not a line",
        })
    }
}

impl std::error::Error for Refusal {}

#[derive(Clone, Copy, Debug, PartialEq, Eq)]
pub enum Etag {
    Absent,
    Plain([u8; 16]),
    Joined([u8; 16], u16),
}

/// A pair of key and value, as a caller lends it.
pub type Pair<'a> = (&'a [u8], &'a [u8]);

/// With the pairs, ascending by key.
#[derive(Clone, Debug, PartialEq, Eq)]
pub struct Metadata {
    pub length: u32,
    pub created: u64,
    pub etag: Etag,
    pub pairs: Vec<(Vec<u8>, Vec<u8>)>,
}

/// A record of LIST; the etag is as text.
#[derive(Clone, Debug, PartialEq, Eq)]
pub struct Object {
    pub path: Vec<u8>,
    pub length: u32,
    pub created: u64,
    pub etag: String,
}

/// A record of UPLOADS.
#[derive(Clone, Debug, PartialEq, Eq)]
pub struct Upload {
    pub number: u32,
    pub path: Vec<u8>,
    pub started: u64,
    pub parts: u16,
}

/// What a sweep did: how many uploads it aborted, and whether more are due.
#[derive(Clone, Copy, Debug, PartialEq, Eq)]
pub struct Sweep {
    pub count: u32,
    pub more: bool,
}

/// A reply, read at the offsets of include/rathnodi.h.
struct Reply([u8; REPLY_LEN]);

impl Reply {
    fn new() -> Reply {
        Reply([0; REPLY_LEN])
    }

    fn number(&self, at: usize) -> u32 {
        u32::from_le_bytes(self.0[at..at + 4].try_into().expect("4 bytes"))
    }

    fn etag(&self) -> Etag {
        let digest = self.0[28..44].try_into().expect("16 bytes");
        match self.0[24] {
            0 => Etag::Absent,
            1 => Etag::Plain(digest),
            2 => Etag::Joined(digest, u16::from_le_bytes([self.0[26], self.0[27]])),
            kind => panic!("the library answered an etag of kind {kind}"),
        }
    }

    /// The metadata, with the pairs of a second answer.
    fn metadata(&self, pairs_answer: &[u8]) -> Metadata {
        let created = u64::from_le_bytes(self.0[..8].try_into().expect("8 bytes"));
        let [count, bytes] = [44, 46].map(|at| u16::from_le_bytes([self.0[at], self.0[at + 1]]));
        let mut records = Records(&pairs_answer[..bytes.into()]);
        let pairs = (0..count).map(|_| (records.counted().to_vec(), records.counted().to_vec()));
        let pairs = pairs.collect();
        Metadata { length: self.number(8), created, etag: self.etag(), pairs }
    }
}

/// Records in an answer, front to back.
struct Records<'a>(&'a [u8]);

impl<'a> Records<'a> {
    fn take(&mut self, count: usize) -> &'a [u8] {
        let (front, rest) = self.0.split_at(count);
        self.0 = rest;
        front
    }

    fn number(&mut self, width: usize) -> u64 {
        self.take(width).iter().rev().fold(0, |number, byte| number << 8 | u64::from(*byte))
    }

    /// A length of one byte, then as many bytes.
    fn counted(&mut self) -> &'a [u8] {
        let length = self.number(1) as usize;
        self.take(length)
    }
}

/// Pairs as the calls take them. A length that its byte cannot hold leaves an empty key, which is a
/// bad request too.
fn pair_bytes(pairs: &[Pair]) -> Vec<u8> {
    let mut bytes = Vec::new();
    for (key, value) in pairs {
        match (u8::try_from(key.len()), u8::try_from(value.len())) {
            (Ok(key_len), Ok(value_len)) => {
                bytes.push(key_len);
                bytes.extend(*key);
                bytes.push(value_len);
                bytes.extend(*value);
            }
            _ => bytes.extend([0, 0]),
        }
    }
    bytes
}

pub struct Store {
    tables: Box<[u8]>,
    arena: Box<[u8]>,
}

/// The longest listing: 256 records of 178 bytes.
const LISTING: usize = 256 * 178;

impl Store {
    /// An empty store over an arena of this length.
    pub fn fresh(arena_len: usize) -> Result<Store, Refusal> {
        let mut store =
            Store { tables: vec![0; TABLES_LEN].into(), arena: vec![0; arena_len].into() };
        Refusal::of(slices::fresh(&mut store.tables, &mut store.arena))?;
        Ok(store)
    }

    /// A store that was saved before pairs, with its arena; refused where it is none.
    pub fn carry_over(former: &[u8], arena: Box<[u8]>) -> Result<Store, Refusal> {
        let mut store = Store { tables: vec![0; TABLES_LEN].into(), arena };
        Refusal::of(slices::carry_over(former, &store.arena, &mut store.tables))?;
        Ok(store)
    }

    /// A store in memory that was saved; refused where it is none.
    pub fn from_memory(tables: Box<[u8]>, arena: Box<[u8]>) -> Result<Store, Refusal> {
        let store = Store { tables, arena };
        store.head(b"")?;
        Ok(store)
    }

    /// The tables and the arena, to be saved.
    pub fn memory(&self) -> (&[u8], &[u8]) {
        (&self.tables, &self.arena)
    }

    pub fn put(
        &mut self,
        stamp: u64,
        path: &[u8],
        data: &[u8],
        pairs: &[Pair],
    ) -> Result<(), Refusal> {
        let (tables, arena, pairs) = (&mut self.tables, &mut self.arena, pair_bytes(pairs));
        Refusal::of(slices::put(tables, arena, stamp, path, data, &pairs))
    }

    /// The data goes to the front of the answer.
    pub fn get_into(&self, path: &[u8], answer: &mut [u8]) -> Result<Metadata, Refusal> {
        let (tables, arena, mut reply) = (&self.tables, &self.arena, Reply::new());
        let mut pairs = [0; PAIRS_BYTES_MAX];
        Refusal::of(slices::get(tables, arena, path, answer, &mut pairs, &mut reply.0))?;
        Ok(reply.metadata(&pairs))
    }

    pub fn get(&self, path: &[u8]) -> Result<(Metadata, Vec<u8>), Refusal> {
        let mut data = vec![0; self.head(path)?.length as usize];
        Ok((self.get_into(path, &mut data)?, data))
    }

    pub fn head(&self, path: &[u8]) -> Result<Metadata, Refusal> {
        let (mut pairs, mut reply) = ([0; PAIRS_BYTES_MAX], Reply::new());
        Refusal::of(slices::head(&self.tables, &self.arena, path, &mut pairs, &mut reply.0))?;
        Ok(reply.metadata(&pairs))
    }

    pub fn delete(&mut self, path: &[u8]) -> Result<(), Refusal> {
        Refusal::of(slices::delete(&mut self.tables, &mut self.arena, path))
    }

    /// A delete for each place, in their order, and what each answers. A place is the start and the
    /// length of a path in the names.
    pub fn delete_objects(
        &mut self,
        names: &[u8],
        places: &[(u32, u32)],
    ) -> Result<Vec<Result<(), Refusal>>, Refusal> {
        let place = |(start, length): &(u32, u32)| [start.to_le_bytes(), length.to_le_bytes()];
        let list = places.iter().flat_map(place).collect::<Vec<_>>().concat();
        let (tables, arena) = (&mut self.tables, &mut self.arena);
        let mut results = vec![0; places.len()];
        Refusal::of(slices::delete_objects(tables, arena, names, &list, &mut results))?;
        Ok(results.into_iter().map(|result| Refusal::of(result.into())).collect())
    }

    pub fn copy(&mut self, stamp: u64, source: &[u8], destination: &[u8]) -> Result<(), Refusal> {
        Refusal::of(slices::copy(&mut self.tables, &mut self.arena, stamp, source, destination))
    }

    /// Records in the answer: how many, and how many bytes they are.
    pub fn list_into(
        &self,
        prefix: &[u8],
        suffix: &[u8],
        answer: &mut [u8],
    ) -> Result<(usize, usize), Refusal> {
        let (tables, arena, mut reply) = (&self.tables, &self.arena, Reply::new());
        Refusal::of(slices::list(tables, arena, prefix, suffix, answer, &mut reply.0))?;
        Ok((reply.number(16) as usize, reply.number(20) as usize))
    }

    pub fn list(&self, prefix: &[u8], suffix: &[u8]) -> Result<Vec<Object>, Refusal> {
        let mut answer = vec![0; LISTING];
        let (count, bytes) = self.list_into(prefix, suffix, &mut answer)?;
        let mut records = Records(&answer[..bytes]);
        let record = |_| Object {
            path: records.counted().to_vec(),
            length: records.number(4) as u32,
            created: records.number(8),
            etag: String::from_utf8_lossy(records.counted()).into_owned(),
        };
        Ok((0..count).map(record).collect())
    }

    pub fn initiate(&mut self, stamp: u64, path: &[u8], pairs: &[Pair]) -> Result<u32, Refusal> {
        let (tables, arena, mut reply) = (&mut self.tables, &mut self.arena, Reply::new());
        let pairs = pair_bytes(pairs);
        Refusal::of(slices::initiate(tables, arena, stamp, path, &pairs, &mut reply.0))?;
        Ok(reply.number(12))
    }

    /// Sets a part; its number is 1 to 10,000.
    pub fn part(&mut self, upload: u32, part: u16, data: &[u8]) -> Result<Etag, Refusal> {
        let (tables, arena, mut reply) = (&mut self.tables, &mut self.arena, Reply::new());
        Refusal::of(slices::part(tables, arena, upload, part, data, &mut reply.0))?;
        Ok(reply.etag())
    }

    /// The list names each part that the upload holds, one above 10,000 from an older store too.
    pub fn commit(&mut self, upload: u32, parts: &[u16]) -> Result<(), Refusal> {
        let list: Vec<u8> = parts.iter().flat_map(|part| part.to_le_bytes()).collect();
        Refusal::of(slices::commit(&mut self.tables, &mut self.arena, upload, &list))
    }

    pub fn abort(&mut self, upload: u32) -> Result<(), Refusal> {
        Refusal::of(slices::abort(&mut self.tables, &mut self.arena, upload))
    }

    /// Aborts the open uploads that were started before the stamp, by ascending number, at most so
    /// many of them.
    pub fn sweep(&mut self, stamp: u64, most: u32) -> Result<Sweep, Refusal> {
        let (tables, arena, mut reply) = (&mut self.tables, &mut self.arena, Reply::new());
        Refusal::of(slices::sweep(tables, arena, stamp, most, &mut reply.0))?;
        Ok(Sweep { count: reply.number(16), more: reply.0[25] == 1 })
    }

    /// The call that a line of a recording says; what it answers besides is not kept.
    pub fn replay_line(&mut self, line: &[u8]) -> Result<(), Refusal> {
        let (tables, arena, mut reply) = (&mut self.tables, &mut self.arena, Reply::new());
        let (mut answer, mut pairs) = (vec![0; LISTING.max(arena.len())], [0; PAIRS_BYTES_MAX]);
        Refusal::of(slices::replay_line(tables, arena, line, &mut answer, &mut pairs, &mut reply.0))
    }

    pub fn uploads(&self, prefix: &[u8]) -> Result<Vec<Upload>, Refusal> {
        let (mut answer, mut reply) = (vec![0; LISTING], Reply::new());
        let (tables, arena) = (&self.tables, &self.arena);
        Refusal::of(slices::uploads(tables, arena, prefix, &mut answer, &mut reply.0))?;
        let mut records = Records(&answer[..reply.number(20) as usize]);
        let record = |_| Upload {
            number: records.number(4) as u32,
            path: records.counted().to_vec(),
            started: records.number(8),
            parts: records.number(2) as u16,
        };
        Ok((0..reply.number(16)).map(record).collect())
    }
}
