//! The stores that are measured, by one set of calls. Each call must succeed.

use model::{Answer, Call, Model};
use rathnodi::{slices, REPLY_LEN, TABLES_LEN};

/// A store with document 01's calls, as far as they are measured, without pairs. LIST and GET write
/// into the answer and give the count of bytes.
pub trait Contestant {
    fn put(&mut self, stamp: u64, path: &[u8], data: &[u8]);
    fn get(&mut self, path: &[u8], answer: &mut [u8]) -> usize;
    /// The stamp.
    fn head(&mut self, path: &[u8]) -> u64;
    fn delete(&mut self, path: &[u8]);
    /// The source has a plain etag.
    fn copy(&mut self, stamp: u64, source: &[u8], destination: &[u8]);
    fn list(&mut self, prefix: &[u8], answer: &mut [u8]) -> usize;
    fn initiate(&mut self, stamp: u64, path: &[u8]) -> u32;
    fn part(&mut self, upload: u32, part: u16, data: &[u8]);
    /// The list as 16-bit numbers, low byte first.
    fn commit(&mut self, upload: u32, list: &[u8]);
}

/// All records of LIST.
pub fn listing(store: &mut dyn Contestant) -> Vec<u8> {
    let mut answer = vec![0; 65_536];
    let length = store.list(b"", &mut answer);
    answer.truncate(length);
    answer
}

pub struct Proved {
    tables: Vec<u8>,
    arena: Vec<u8>,
}

impl Proved {
    pub fn fresh(arena: usize) -> Proved {
        let mut store = Proved { tables: vec![0; TABLES_LEN], arena: vec![0; arena] };
        done(slices::fresh(&mut store.tables, &mut store.arena));
        store
    }

    /// Each of the objects is there.
    pub fn delete_objects(&mut self, names: &[u8], places: &[u8], results: &mut [u8]) {
        done(slices::delete_objects(&mut self.tables, &mut self.arena, names, places, results));
        results.iter().for_each(|result| done(u32::from(*result)));
    }

    /// The test "whole": a HEAD of a bad path is refused right after it.
    pub fn whole(&self) {
        assert_eq!(slices::head(&self.tables, &self.arena, b"/", &mut [], &mut [0; REPLY_LEN]), 2);
    }

    pub fn abort(&mut self, upload: u32) {
        done(slices::abort(&mut self.tables, &mut self.arena, upload));
    }

    /// How many uploads were aborted.
    pub fn sweep(&mut self, stamp: u64, most: u32) -> usize {
        let mut reply = [0; REPLY_LEN];
        done(slices::sweep(&mut self.tables, &mut self.arena, stamp, most, &mut reply));
        number(&reply, 16) as usize
    }

    /// How many uploads are open.
    pub fn uploads(&self) -> usize {
        let (mut answer, mut reply) = ([0; 4096], [0; REPLY_LEN]);
        done(slices::uploads(&self.tables, &self.arena, b"", &mut answer, &mut reply));
        number(&reply, 16) as usize
    }
}

fn done(number: u32) {
    assert_eq!(number, 0, "a call was refused");
}

fn number(reply: &[u8; REPLY_LEN], at: usize) -> u32 {
    u32::from_le_bytes(reply[at..at + 4].try_into().expect("4 bytes"))
}

impl Contestant for Proved {
    fn put(&mut self, stamp: u64, path: &[u8], data: &[u8]) {
        done(slices::put(&mut self.tables, &mut self.arena, stamp, path, data, &[]));
    }

    fn get(&mut self, path: &[u8], answer: &mut [u8]) -> usize {
        let mut reply = [0; REPLY_LEN];
        done(slices::get(&self.tables, &self.arena, path, answer, &mut [], &mut reply));
        number(&reply, 8) as usize
    }

    fn head(&mut self, path: &[u8]) -> u64 {
        let mut reply = [0; REPLY_LEN];
        done(slices::head(&self.tables, &self.arena, path, &mut [], &mut reply));
        u64::from_le_bytes(reply[..8].try_into().expect("8 bytes"))
    }

    fn delete(&mut self, path: &[u8]) {
        done(slices::delete(&mut self.tables, &mut self.arena, path));
    }

    fn copy(&mut self, stamp: u64, source: &[u8], destination: &[u8]) {
        done(slices::copy(&mut self.tables, &mut self.arena, stamp, source, destination));
    }

    fn list(&mut self, prefix: &[u8], answer: &mut [u8]) -> usize {
        let mut reply = [0; REPLY_LEN];
        done(slices::list(&self.tables, &self.arena, prefix, b"", answer, &mut reply));
        number(&reply, 20) as usize
    }

    fn initiate(&mut self, stamp: u64, path: &[u8]) -> u32 {
        let mut reply = [0; REPLY_LEN];
        done(slices::initiate(&mut self.tables, &mut self.arena, stamp, path, &[], &mut reply));
        number(&reply, 12)
    }

    fn part(&mut self, upload: u32, part: u16, data: &[u8]) {
        let mut reply = [0; REPLY_LEN];
        done(slices::part(&mut self.tables, &mut self.arena, upload, part, data, &mut reply));
    }

    fn commit(&mut self, upload: u32, list: &[u8]) {
        done(slices::commit(&mut self.tables, &mut self.arena, upload, list));
    }
}

/// The model's calls take their arguments as values; making these is part of its cost.
impl Contestant for Model {
    fn put(&mut self, stamp: u64, path: &[u8], data: &[u8]) {
        let (path, data, pairs) = (path.into(), data.into(), Vec::new());
        done(self.call(&Call::Put { stamp, path, data, pairs }).number);
    }

    fn get(&mut self, path: &[u8], answer: &mut [u8]) -> usize {
        let length = self.objects[path].data.len();
        let (buffer, pairs_buffer) = (vec![0; length], Vec::new());
        let reply = self.call(&Call::Get { path: path.into(), buffer, pairs_buffer });
        done(reply.number);
        answer[..length].copy_from_slice(&reply.buffer);
        length
    }

    fn head(&mut self, path: &[u8]) -> u64 {
        let call = Call::Head { path: path.into(), pairs_buffer: Vec::new() };
        match self.call(&call).answer {
            Answer::Metadata { created, .. } => created,
            other => panic!("{other:?}"),
        }
    }

    fn delete(&mut self, path: &[u8]) {
        done(self.call(&Call::Delete { path: path.into() }).number);
    }

    fn copy(&mut self, stamp: u64, source: &[u8], destination: &[u8]) {
        let (source, destination) = (source.into(), destination.into());
        done(self.call(&Call::Copy { stamp, source, destination }).number);
    }

    fn list(&mut self, prefix: &[u8], answer: &mut [u8]) -> usize {
        let buffer = vec![0; answer.len()];
        let reply = self.call(&Call::List { prefix: prefix.into(), suffix: vec![], buffer });
        match reply.answer {
            Answer::Written { bytes, .. } => {
                let bytes = bytes as usize;
                answer[..bytes].copy_from_slice(&reply.buffer[..bytes]);
                bytes
            }
            other => panic!("{other:?}"),
        }
    }

    fn initiate(&mut self, stamp: u64, path: &[u8]) -> u32 {
        let call = Call::Initiate { stamp, path: path.into(), pairs: Vec::new() };
        match self.call(&call).answer {
            Answer::Upload(number) => number,
            other => panic!("{other:?}"),
        }
    }

    fn part(&mut self, upload: u32, part: u16, data: &[u8]) {
        done(self.call(&Call::Part { upload, part, data: data.into() }).number);
    }

    fn commit(&mut self, upload: u32, list: &[u8]) {
        done(self.call(&Call::Commit { upload, list: list.into() }).number);
    }
}
