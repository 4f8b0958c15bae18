//! The machine of documents 01 and 02: O, U, N and the steps.

use crate::call::{Answer, Call, Reply};
use crate::etag::Etag;
use crate::md5::{md5, Digest};
use crate::pairs::{bytes_held, kept, pair_bytes, Pairs};
use crate::{LAST_PART, LONGEST_PATH, NUMBERS_END};
use crate::{MOST_OBJECTS, MOST_PARTS, MOST_PLACES, MOST_UPLOADS};
use std::collections::BTreeMap;

/// The refusals that a list of calls can meet; 1, "not a store", is about memory alone.
#[derive(Clone, Copy, Debug, PartialEq, Eq)]
pub enum Refusal {
    BadRequest = 2,
    NotFound = 3,
    TableFull = 4,
    ArenaFull = 5,
    NumbersUsedUp = 6,
    BufferShort = 7,
    TooMany = 8,
}

use Refusal::*;

#[derive(Clone, Debug, PartialEq, Eq)]
pub struct Object {
    pub data: Vec<u8>,
    pub created: u64,
    pub etag: Etag,
    pub pairs: Pairs,
}

#[derive(Clone, Debug, PartialEq, Eq)]
pub struct Part {
    pub data: Vec<u8>,
    pub digest: Digest,
}

#[derive(Clone, Debug, PartialEq, Eq)]
pub struct Upload {
    pub path: Vec<u8>,
    pub started: u64,
    pub pairs: Pairs,
    pub parts: BTreeMap<u16, Part>,
}

/// O, U and N over an arena of a length. The fields are open, so that a test can start anywhere.
#[derive(Clone, Debug, PartialEq, Eq)]
pub struct Model {
    pub arena: usize,
    pub objects: BTreeMap<Vec<u8>, Object>,
    pub uploads: BTreeMap<u32, Upload>,
    pub next: u64,
}

/// 1 to 128 bytes of UTF-8, by Rust's own decoder, for code points from 33 to 126 and from 160 on;
/// no "/" first, no two adjacent "/".
pub fn path_ok(path: &[u8]) -> bool {
    let Ok(text) = std::str::from_utf8(path) else { return false };
    (1..=LONGEST_PATH).contains(&path.len())
        && text.chars().all(|letter| matches!(letter as u32, 33..=126 | 160..))
        && path[0] != b'/'
        && !path.windows(2).any(|pair| pair == b"//")
}

fn stamp_ok(stamp: u64) -> bool {
    stamp >= 1
}

fn part_ok(part: u16) -> bool {
    (1..=LAST_PART).contains(&part)
}

/// The numbers of a part list; an odd byte left over makes it unfit.
fn part_numbers(list: &[u8]) -> Option<Vec<u16>> {
    (list.len() % 2 == 0)
        .then(|| list.chunks_exact(2).map(|pair| u16::from_le_bytes([pair[0], pair[1]])).collect())
}

/// The name at a place, which is a start and a length of 4 bytes each; none where it is outside.
pub fn name_at<'a>(names: &'a [u8], place: &[u8]) -> Option<&'a [u8]> {
    let number = |bytes: &[u8]| bytes.iter().rev().fold(0, |n, byte| n << 8 | usize::from(*byte));
    let (start, length) = (number(&place[..4]), number(&place[4..]));
    names.get(start..)?.get(..length)
}

impl Model {
    /// FRESH.
    pub fn fresh(arena: usize) -> Model {
        Model { arena, objects: BTreeMap::new(), uploads: BTreeMap::new(), next: 1 }
    }

    /// The sum of the lengths of all data in O and in all parts of U, and of all keys and values.
    pub fn held(&self) -> usize {
        let objects = self.objects.values().map(|object| object.data.len());
        let parts = self.uploads.values().flat_map(|upload| upload.parts.values());
        let of_objects = self.objects.values().map(|object| &object.pairs);
        let of_uploads = self.uploads.values().map(|upload| &upload.pairs);
        let data = objects.chain(parts.map(|part| part.data.len()));
        data.chain(of_objects.chain(of_uploads).map(bytes_held)).sum()
    }

    /// The parts over all uploads.
    pub fn parts(&self) -> usize {
        self.uploads.values().map(|upload| upload.parts.len()).sum()
    }

    /// One call: a refusal keeps the state and the buffers.
    pub fn call(&mut self, call: &Call) -> Reply {
        match self.step(call) {
            Ok(Told { answer, bytes, pairs }) => Reply::accepted(answer, call, &bytes, &pairs),
            Err(refusal) => Reply::refused(refusal as u32, call),
        }
    }

    fn step(&mut self, call: &Call) -> Result<Told, Refusal> {
        let silent = |answer| Told { answer, bytes: Vec::new(), pairs: Vec::new() };
        match call {
            Call::Put { stamp, path, data, pairs } => {
                self.put(*stamp, path, data, pairs).map(|()| silent(Answer::Nothing))
            }
            Call::Get { path, buffer, pairs_buffer } => {
                let found = self.get(path)?;
                found.fits(buffer.len(), pairs_buffer.len())
            }
            Call::Head { path, pairs_buffer } => {
                let found = self.get(path)?;
                Told { bytes: Vec::new(), ..found }.fits(0, pairs_buffer.len())
            }
            Call::Delete { path } => self.delete(path).map(|()| silent(Answer::Nothing)),
            Call::DeleteObjects { names, places, buffer } => self
                .delete_objects(names, places, buffer.len())
                .map(|results| Told { bytes: results, ..silent(Answer::Nothing) }),
            Call::Copy { stamp, source, destination } => {
                self.copy(*stamp, source, destination).map(|()| silent(Answer::Nothing))
            }
            Call::List { prefix, suffix, buffer } => {
                written(self.list(prefix, suffix), buffer.len())
            }
            Call::Initiate { stamp, path, pairs } => {
                self.initiate(*stamp, path, pairs).map(|number| silent(Answer::Upload(number)))
            }
            Call::Part { upload, part, data } => {
                self.part(*upload, *part, data).map(|etag| silent(Answer::Etag(etag)))
            }
            Call::Commit { upload, list } => {
                self.commit(*upload, list).map(|()| silent(Answer::Nothing))
            }
            Call::Abort { upload } => self.abort(*upload).map(|()| silent(Answer::Nothing)),
            Call::Sweep { stamp, most } => self.sweep(*stamp, *most).map(silent),
            Call::Uploads { prefix, buffer } => written(self.list_uploads(prefix), buffer.len()),
        }
    }

    fn put(&mut self, stamp: u64, path: &[u8], data: &[u8], pairs: &[u8]) -> Result<(), Refusal> {
        let pairs = kept(pairs).ok_or(BadRequest)?;
        if !stamp_ok(stamp) || !path_ok(path) {
            return Err(BadRequest);
        }
        self.put_kept(stamp, path, data, pairs)
    }

    fn put_kept(
        &mut self,
        stamp: u64,
        path: &[u8],
        data: &[u8],
        pairs: Pairs,
    ) -> Result<(), Refusal> {
        let (data, etag) = (data.to_vec(), Etag::of_data(data));
        self.set_object(path, Object { data, created: stamp, etag, pairs })
    }

    /// Sets O at path, or leaves it as it was where the state after the call passes a ceiling.
    fn set_object(&mut self, path: &[u8], object: Object) -> Result<(), Refusal> {
        let before = self.objects.insert(path.to_vec(), object);
        let refusal = if self.objects.len() > MOST_OBJECTS {
            TableFull
        } else if self.held() > self.arena {
            ArenaFull
        } else {
            return Ok(());
        };
        match before {
            Some(object) => self.objects.insert(path.to_vec(), object),
            None => self.objects.remove(path),
        };
        Err(refusal)
    }

    /// The data, the pairs and the metadata; the root has none of them.
    fn get(&self, path: &[u8]) -> Result<Told, Refusal> {
        let root = Object { data: vec![], created: 0, etag: Etag::Absent, pairs: Pairs::new() };
        let object = match path {
            [] => &root,
            _ if !path_ok(path) => return Err(BadRequest),
            _ => self.objects.get(path).ok_or(NotFound)?,
        };
        let pairs = pair_bytes(&object.pairs);
        let answer = Answer::Metadata {
            length: object.data.len() as u32,
            created: object.created,
            etag: object.etag,
            pairs: object.pairs.len() as u16,
            pairs_bytes: pairs.len() as u16,
        };
        Ok(Told { answer, bytes: object.data.clone(), pairs })
    }

    fn delete(&mut self, path: &[u8]) -> Result<(), Refusal> {
        if !path_ok(path) {
            return Err(BadRequest);
        }
        self.objects.remove(path).map(|_| ()).ok_or(NotFound)
    }

    /// DELETE of the name at each place in turn, and the number that each gives.
    fn delete_objects(
        &mut self,
        names: &[u8],
        places: &[u8],
        room: usize,
    ) -> Result<Vec<u8>, Refusal> {
        let each = places.chunks_exact(8);
        if each.len() > MOST_PLACES {
            return Err(TooMany);
        }
        if !each.remainder().is_empty() {
            return Err(BadRequest);
        }
        if each.len() > room {
            return Err(BufferShort);
        }
        let mut results = Vec::new();
        for place in each {
            let deleted = match name_at(names, place) {
                Some(name) => self.delete(name),
                None => Err(BadRequest),
            };
            results.push(deleted.map_or_else(|refusal| refusal as u8, |()| 0));
        }
        Ok(results)
    }

    fn copy(&mut self, stamp: u64, source: &[u8], destination: &[u8]) -> Result<(), Refusal> {
        if !stamp_ok(stamp) || !path_ok(source) || !path_ok(destination) {
            return Err(BadRequest);
        }
        let Object { data, pairs, .. } = self.objects.get(source).ok_or(NotFound)?.clone();
        self.put_kept(stamp, destination, &data, pairs)
    }

    fn list(&self, prefix: &[u8], suffix: &[u8]) -> Vec<Vec<u8>> {
        let mut records = Vec::new();
        for (path, object) in &self.objects {
            let Some(rest) = path.strip_prefix(prefix) else { continue };
            if rest.ends_with(suffix) {
                let text = object.etag.text();
                let mut record = vec![path.len() as u8];
                record.extend(path);
                record.extend((object.data.len() as u32).to_le_bytes());
                record.extend(object.created.to_le_bytes());
                record.push(text.len() as u8);
                record.extend(text.as_bytes());
                records.push(record);
            }
        }
        records
    }

    fn initiate(&mut self, stamp: u64, path: &[u8], pairs: &[u8]) -> Result<u32, Refusal> {
        let pairs = kept(pairs).ok_or(BadRequest)?;
        if !stamp_ok(stamp) || !path_ok(path) {
            return Err(BadRequest);
        }
        if self.uploads.len() + 1 > MOST_UPLOADS {
            return Err(TableFull);
        }
        if self.held() + bytes_held(&pairs) > self.arena {
            return Err(ArenaFull);
        }
        if self.next == NUMBERS_END {
            return Err(NumbersUsedUp);
        }
        let number = self.next as u32;
        self.next += 1;
        let (path, parts) = (path.to_vec(), BTreeMap::new());
        self.uploads.insert(number, Upload { path, started: stamp, pairs, parts });
        Ok(number)
    }

    fn part(&mut self, upload: u32, number: u16, data: &[u8]) -> Result<Etag, Refusal> {
        if !self.uploads.contains_key(&upload) || !part_ok(number) {
            return Err(BadRequest);
        }
        let digest = md5(data);
        let before = self.set_part(upload, number, Some(Part { data: data.to_vec(), digest }));
        let refusal = if self.parts() > MOST_PARTS {
            TableFull
        } else if self.held() > self.arena {
            ArenaFull
        } else {
            return Ok(Etag::Plain(digest));
        };
        self.set_part(upload, number, before);
        Err(refusal)
    }

    /// Sets or removes a part of an open upload; gives what was there.
    fn set_part(&mut self, upload: u32, number: u16, part: Option<Part>) -> Option<Part> {
        let parts = &mut self.uploads.get_mut(&upload).expect("open").parts;
        match part {
            Some(part) => parts.insert(number, part),
            None => parts.remove(&number),
        }
    }

    fn commit(&mut self, number: u32, list: &[u8]) -> Result<(), Refusal> {
        let upload = self.uploads.get(&number).ok_or(BadRequest)?;
        let listed = part_numbers(list).ok_or(BadRequest)?;
        let mut sorted = listed.clone();
        sorted.sort();
        if !sorted.iter().eq(upload.parts.keys()) {
            return Err(BadRequest);
        }
        let parts: Vec<&Part> = listed.iter().map(|part| &upload.parts[part]).collect();
        let data: Vec<&[u8]> = parts.iter().map(|part| part.data.as_slice()).collect();
        let digests: Vec<Digest> = parts.iter().map(|part| part.digest).collect();
        let (data, etag, pairs) = (data.concat(), Etag::of_parts(&digests), upload.pairs.clone());
        let object = Object { data, created: upload.started, etag, pairs };
        if !self.objects.contains_key(&upload.path) && self.objects.len() + 1 > MOST_OBJECTS {
            return Err(TableFull);
        }
        let upload = self.uploads.remove(&number).expect("open");
        self.objects.insert(upload.path, object);
        Ok(())
    }

    fn abort(&mut self, upload: u32) -> Result<(), Refusal> {
        self.uploads.remove(&upload).map(|_| ()).ok_or(BadRequest)
    }

    /// ABORT of the first so many of the open uploads that were started before the stamp, by
    /// ascending number.
    fn sweep(&mut self, stamp: u64, most: u32) -> Result<Answer, Refusal> {
        if !stamp_ok(stamp) {
            return Err(BadRequest);
        }
        let started_before = |number: &u32| self.uploads[number].started < stamp;
        let due: Vec<u32> = self.uploads.keys().copied().filter(started_before).collect();
        let count = due.len().min(most as usize);
        for number in &due[..count] {
            self.abort(*number)?;
        }
        Ok(Answer::Swept { count: count as u32, more: due.len() > count })
    }

    fn list_uploads(&self, prefix: &[u8]) -> Vec<Vec<u8>> {
        let mut records = Vec::new();
        for (number, upload) in &self.uploads {
            if upload.path.starts_with(prefix) {
                let mut record = number.to_le_bytes().to_vec();
                record.push(upload.path.len() as u8);
                record.extend(&upload.path);
                record.extend(upload.started.to_le_bytes());
                record.extend((upload.parts.len() as u16).to_le_bytes());
                records.push(record);
            }
        }
        records
    }
}

/// The answer, and the bytes for the front of each buffer.
struct Told {
    answer: Answer,
    bytes: Vec<u8>,
    pairs: Vec<u8>,
}

impl Told {
    fn fits(self, room: usize, pairs_room: usize) -> Result<Told, Refusal> {
        let short = self.bytes.len() > room || self.pairs.len() > pairs_room;
        if short {
            Err(BufferShort)
        } else {
            Ok(self)
        }
    }
}

/// The count of records and of bytes, and the bytes themselves where they fit.
fn written(records: Vec<Vec<u8>>, room: usize) -> Result<Told, Refusal> {
    let bytes = records.concat();
    let answer = Answer::Written { records: records.len() as u32, bytes: bytes.len() as u32 };
    Told { answer, bytes, pairs: Vec::new() }.fits(room, 0)
}
