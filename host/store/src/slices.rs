//! The calls over slices, each with the number that it returns. A slice is never null, and a slice
//! lent by `&mut` overlaps no other, which is all that the C interface asks of its caller.

use crate::c;

pub fn tables_len() -> usize {
    unsafe { c::rathnodi_tables_len() }
}

pub fn fresh(tables: &mut [u8], arena: &mut [u8]) -> u32 {
    unsafe { c::rathnodi_fresh(tables.as_mut_ptr(), tables.len(), arena.as_mut_ptr(), arena.len()) }
}

pub fn carry_over(former: &[u8], arena: &[u8], tables: &mut [u8]) -> u32 {
    unsafe {
        c::rathnodi_carry_over(
            former.as_ptr(),
            former.len(),
            arena.as_ptr(),
            arena.len(),
            tables.as_mut_ptr(),
            tables.len(),
        )
    }
}

pub fn put(
    tables: &mut [u8],
    arena: &mut [u8],
    stamp: u64,
    path: &[u8],
    data: &[u8],
    pairs: &[u8],
) -> u32 {
    unsafe {
        c::rathnodi_put(
            tables.as_mut_ptr(),
            tables.len(),
            arena.as_mut_ptr(),
            arena.len(),
            stamp,
            path.as_ptr(),
            path.len(),
            data.as_ptr(),
            data.len(),
            pairs.as_ptr(),
            pairs.len(),
        )
    }
}

pub fn get(
    tables: &[u8],
    arena: &[u8],
    path: &[u8],
    answer: &mut [u8],
    pairs_answer: &mut [u8],
    reply: &mut [u8],
) -> u32 {
    unsafe {
        c::rathnodi_get(
            tables.as_ptr(),
            tables.len(),
            arena.as_ptr(),
            arena.len(),
            path.as_ptr(),
            path.len(),
            answer.as_mut_ptr(),
            answer.len(),
            pairs_answer.as_mut_ptr(),
            pairs_answer.len(),
            reply.as_mut_ptr(),
            reply.len(),
        )
    }
}

pub fn head(
    tables: &[u8],
    arena: &[u8],
    path: &[u8],
    pairs_answer: &mut [u8],
    reply: &mut [u8],
) -> u32 {
    unsafe {
        c::rathnodi_head(
            tables.as_ptr(),
            tables.len(),
            arena.as_ptr(),
            arena.len(),
            path.as_ptr(),
            path.len(),
            pairs_answer.as_mut_ptr(),
            pairs_answer.len(),
            reply.as_mut_ptr(),
            reply.len(),
        )
    }
}

pub fn delete(tables: &mut [u8], arena: &mut [u8], path: &[u8]) -> u32 {
    unsafe {
        c::rathnodi_delete(
            tables.as_mut_ptr(),
            tables.len(),
            arena.as_mut_ptr(),
            arena.len(),
            path.as_ptr(),
            path.len(),
        )
    }
}

pub fn delete_objects(
    tables: &mut [u8],
    arena: &mut [u8],
    names: &[u8],
    places: &[u8],
    results: &mut [u8],
) -> u32 {
    unsafe {
        c::rathnodi_delete_objects(
            tables.as_mut_ptr(),
            tables.len(),
            arena.as_mut_ptr(),
            arena.len(),
            names.as_ptr(),
            names.len(),
            places.as_ptr(),
            places.len(),
            results.as_mut_ptr(),
            results.len(),
        )
    }
}

pub fn copy(
    tables: &mut [u8],
    arena: &mut [u8],
    stamp: u64,
    source: &[u8],
    destination: &[u8],
) -> u32 {
    unsafe {
        c::rathnodi_copy(
            tables.as_mut_ptr(),
            tables.len(),
            arena.as_mut_ptr(),
            arena.len(),
            stamp,
            source.as_ptr(),
            source.len(),
            destination.as_ptr(),
            destination.len(),
        )
    }
}

pub fn list(
    tables: &[u8],
    arena: &[u8],
    prefix: &[u8],
    suffix: &[u8],
    answer: &mut [u8],
    reply: &mut [u8],
) -> u32 {
    unsafe {
        c::rathnodi_list(
            tables.as_ptr(),
            tables.len(),
            arena.as_ptr(),
            arena.len(),
            prefix.as_ptr(),
            prefix.len(),
            suffix.as_ptr(),
            suffix.len(),
            answer.as_mut_ptr(),
            answer.len(),
            reply.as_mut_ptr(),
            reply.len(),
        )
    }
}

pub fn initiate(
    tables: &mut [u8],
    arena: &mut [u8],
    stamp: u64,
    path: &[u8],
    pairs: &[u8],
    reply: &mut [u8],
) -> u32 {
    unsafe {
        c::rathnodi_initiate(
            tables.as_mut_ptr(),
            tables.len(),
            arena.as_mut_ptr(),
            arena.len(),
            stamp,
            path.as_ptr(),
            path.len(),
            pairs.as_ptr(),
            pairs.len(),
            reply.as_mut_ptr(),
            reply.len(),
        )
    }
}

pub fn part(
    tables: &mut [u8],
    arena: &mut [u8],
    upload: u32,
    part: u16,
    data: &[u8],
    reply: &mut [u8],
) -> u32 {
    unsafe {
        c::rathnodi_part(
            tables.as_mut_ptr(),
            tables.len(),
            arena.as_mut_ptr(),
            arena.len(),
            upload,
            part,
            data.as_ptr(),
            data.len(),
            reply.as_mut_ptr(),
            reply.len(),
        )
    }
}

pub fn commit(tables: &mut [u8], arena: &mut [u8], upload: u32, part_list: &[u8]) -> u32 {
    unsafe {
        c::rathnodi_commit(
            tables.as_mut_ptr(),
            tables.len(),
            arena.as_mut_ptr(),
            arena.len(),
            upload,
            part_list.as_ptr(),
            part_list.len(),
        )
    }
}

pub fn abort(tables: &mut [u8], arena: &mut [u8], upload: u32) -> u32 {
    unsafe {
        c::rathnodi_abort(
            tables.as_mut_ptr(),
            tables.len(),
            arena.as_mut_ptr(),
            arena.len(),
            upload,
        )
    }
}

pub fn sweep(tables: &mut [u8], arena: &mut [u8], stamp: u64, most: u32, reply: &mut [u8]) -> u32 {
    unsafe {
        c::rathnodi_sweep(
            tables.as_mut_ptr(),
            tables.len(),
            arena.as_mut_ptr(),
            arena.len(),
            stamp,
            most,
            reply.as_mut_ptr(),
            reply.len(),
        )
    }
}

pub fn uploads(
    tables: &[u8],
    arena: &[u8],
    prefix: &[u8],
    answer: &mut [u8],
    reply: &mut [u8],
) -> u32 {
    unsafe {
        c::rathnodi_uploads(
            tables.as_ptr(),
            tables.len(),
            arena.as_ptr(),
            arena.len(),
            prefix.as_ptr(),
            prefix.len(),
            answer.as_mut_ptr(),
            answer.len(),
            reply.as_mut_ptr(),
            reply.len(),
        )
    }
}

pub fn replay_line(
    tables: &mut [u8],
    arena: &mut [u8],
    line: &[u8],
    answer: &mut [u8],
    pairs_answer: &mut [u8],
    reply: &mut [u8],
) -> u32 {
    unsafe {
        c::rathnodi_replay_line(
            tables.as_mut_ptr(),
            tables.len(),
            arena.as_mut_ptr(),
            arena.len(),
            line.as_ptr(),
            line.len(),
            answer.as_mut_ptr(),
            answer.len(),
            pairs_answer.as_mut_ptr(),
            pairs_answer.len(),
            reply.as_mut_ptr(),
            reply.len(),
        )
    }
}
