//! The calls of the C interface, so that a faulty store can be put in the proved one's place.

use rathnodi::slices;

pub trait Library {
    fn fresh(&mut self, tables: &mut [u8], arena: &mut [u8]) -> u32 {
        slices::fresh(tables, arena)
    }

    fn carry_over(&mut self, former: &[u8], arena: &[u8], tables: &mut [u8]) -> u32 {
        slices::carry_over(former, arena, tables)
    }

    fn put(
        &mut self,
        tables: &mut [u8],
        arena: &mut [u8],
        stamp: u64,
        path: &[u8],
        data: &[u8],
        pairs: &[u8],
    ) -> u32 {
        slices::put(tables, arena, stamp, path, data, pairs)
    }

    fn get(
        &mut self,
        tables: &[u8],
        arena: &[u8],
        path: &[u8],
        answer: &mut [u8],
        pairs_answer: &mut [u8],
        reply: &mut [u8],
    ) -> u32 {
        slices::get(tables, arena, path, answer, pairs_answer, reply)
    }

    fn head(
        &mut self,
        tables: &[u8],
        arena: &[u8],
        path: &[u8],
        pairs_answer: &mut [u8],
        reply: &mut [u8],
    ) -> u32 {
        slices::head(tables, arena, path, pairs_answer, reply)
    }

    fn delete(&mut self, tables: &mut [u8], arena: &mut [u8], path: &[u8]) -> u32 {
        slices::delete(tables, arena, path)
    }

    fn delete_objects(
        &mut self,
        tables: &mut [u8],
        arena: &mut [u8],
        names: &[u8],
        places: &[u8],
        results: &mut [u8],
    ) -> u32 {
        slices::delete_objects(tables, arena, names, places, results)
    }

    fn copy(
        &mut self,
        tables: &mut [u8],
        arena: &mut [u8],
        stamp: u64,
        source: &[u8],
        destination: &[u8],
    ) -> u32 {
        slices::copy(tables, arena, stamp, source, destination)
    }

    fn list(
        &mut self,
        tables: &[u8],
        arena: &[u8],
        prefix: &[u8],
        suffix: &[u8],
        answer: &mut [u8],
        reply: &mut [u8],
    ) -> u32 {
        slices::list(tables, arena, prefix, suffix, answer, reply)
    }

    fn initiate(
        &mut self,
        tables: &mut [u8],
        arena: &mut [u8],
        stamp: u64,
        path: &[u8],
        pairs: &[u8],
        reply: &mut [u8],
    ) -> u32 {
        slices::initiate(tables, arena, stamp, path, pairs, reply)
    }

    fn part(
        &mut self,
        tables: &mut [u8],
        arena: &mut [u8],
        upload: u32,
        part: u16,
        data: &[u8],
        reply: &mut [u8],
    ) -> u32 {
        slices::part(tables, arena, upload, part, data, reply)
    }

    fn commit(&mut self, tables: &mut [u8], arena: &mut [u8], upload: u32, list: &[u8]) -> u32 {
        slices::commit(tables, arena, upload, list)
    }

    fn abort(&mut self, tables: &mut [u8], arena: &mut [u8], upload: u32) -> u32 {
        slices::abort(tables, arena, upload)
    }

    fn sweep(
        &mut self,
        tables: &mut [u8],
        arena: &mut [u8],
        stamp: u64,
        most: u32,
        reply: &mut [u8],
    ) -> u32 {
        slices::sweep(tables, arena, stamp, most, reply)
    }

    fn uploads(
        &mut self,
        tables: &[u8],
        arena: &[u8],
        prefix: &[u8],
        answer: &mut [u8],
        reply: &mut [u8],
    ) -> u32 {
        slices::uploads(tables, arena, prefix, answer, reply)
    }

    fn replay_line(
        &mut self,
        tables: &mut [u8],
        arena: &mut [u8],
        line: &[u8],
        answer: &mut [u8],
        pairs_answer: &mut [u8],
        reply: &mut [u8],
    ) -> u32 {
        slices::replay_line(tables, arena, line, answer, pairs_answer, reply)
    }
}

/// The linked library itself.
pub struct Proved;

impl Library for Proved {}
