//! The exported functions, as include/rathnodi.h declares them.

extern "C" {
    pub fn rathnodi_tables_len() -> usize;
    pub fn rathnodi_fresh(
        tables: *mut u8,
        tables_len: usize,
        arena: *mut u8,
        arena_len: usize,
    ) -> u32;
    pub fn rathnodi_carry_over(
        former: *const u8,
        former_len: usize,
        arena: *const u8,
        arena_len: usize,
        tables: *mut u8,
        tables_len: usize,
    ) -> u32;
    pub fn rathnodi_put(
        tables: *mut u8,
        tables_len: usize,
        arena: *mut u8,
        arena_len: usize,
        stamp: u64,
        path: *const u8,
        path_len: usize,
        data: *const u8,
        data_len: usize,
        pairs: *const u8,
        pairs_len: usize,
    ) -> u32;
    pub fn rathnodi_get(
        tables: *const u8,
        tables_len: usize,
        arena: *const u8,
        arena_len: usize,
        path: *const u8,
        path_len: usize,
        answer: *mut u8,
        answer_len: usize,
        pairs_answer: *mut u8,
        pairs_answer_len: usize,
        reply: *mut u8,
        reply_len: usize,
    ) -> u32;
    pub fn rathnodi_head(
        tables: *const u8,
        tables_len: usize,
        arena: *const u8,
        arena_len: usize,
        path: *const u8,
        path_len: usize,
        pairs_answer: *mut u8,
        pairs_answer_len: usize,
        reply: *mut u8,
        reply_len: usize,
    ) -> u32;
    pub fn rathnodi_delete(
        tables: *mut u8,
        tables_len: usize,
        arena: *mut u8,
        arena_len: usize,
        path: *const u8,
        path_len: usize,
    ) -> u32;
    pub fn rathnodi_delete_objects(
        tables: *mut u8,
        tables_len: usize,
        arena: *mut u8,
        arena_len: usize,
        names: *const u8,
        names_len: usize,
        places: *const u8,
        places_len: usize,
        results: *mut u8,
        results_len: usize,
    ) -> u32;
    pub fn rathnodi_copy(
        tables: *mut u8,
        tables_len: usize,
        arena: *mut u8,
        arena_len: usize,
        stamp: u64,
        source: *const u8,
        source_len: usize,
        destination: *const u8,
        destination_len: usize,
    ) -> u32;
    pub fn rathnodi_list(
        tables: *const u8,
        tables_len: usize,
        arena: *const u8,
        arena_len: usize,
        prefix: *const u8,
        prefix_len: usize,
        suffix: *const u8,
        suffix_len: usize,
        answer: *mut u8,
        answer_len: usize,
        reply: *mut u8,
        reply_len: usize,
    ) -> u32;
    pub fn rathnodi_initiate(
        tables: *mut u8,
        tables_len: usize,
        arena: *mut u8,
        arena_len: usize,
        stamp: u64,
        path: *const u8,
        path_len: usize,
        pairs: *const u8,
        pairs_len: usize,
        reply: *mut u8,
        reply_len: usize,
    ) -> u32;
    pub fn rathnodi_part(
        tables: *mut u8,
        tables_len: usize,
        arena: *mut u8,
        arena_len: usize,
        upload: u32,
        part: u16,
        data: *const u8,
        data_len: usize,
        reply: *mut u8,
        reply_len: usize,
    ) -> u32;
    pub fn rathnodi_commit(
        tables: *mut u8,
        tables_len: usize,
        arena: *mut u8,
        arena_len: usize,
        upload: u32,
        part_list: *const u8,
        part_list_len: usize,
    ) -> u32;
    pub fn rathnodi_abort(
        tables: *mut u8,
        tables_len: usize,
        arena: *mut u8,
        arena_len: usize,
        upload: u32,
    ) -> u32;
    pub fn rathnodi_sweep(
        tables: *mut u8,
        tables_len: usize,
        arena: *mut u8,
        arena_len: usize,
        stamp: u64,
        most: u32,
        reply: *mut u8,
        reply_len: usize,
    ) -> u32;
    pub fn rathnodi_uploads(
        tables: *const u8,
        tables_len: usize,
        arena: *const u8,
        arena_len: usize,
        prefix: *const u8,
        prefix_len: usize,
        answer: *mut u8,
        answer_len: usize,
        reply: *mut u8,
        reply_len: usize,
    ) -> u32;
    pub fn rathnodi_replay_line(
        tables: *mut u8,
        tables_len: usize,
        arena: *mut u8,
        arena_len: usize,
        line: *const u8,
        line_len: usize,
        answer: *mut u8,
        answer_len: usize,
        pairs_answer: *mut u8,
        pairs_answer_len: usize,
        reply: *mut u8,
        reply_len: usize,
    ) -> u32;
}
