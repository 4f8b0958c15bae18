/*
 * Rathnodi: a store of objects by path, in memory that the caller lends.
 *
 * Link librathnodi.a (x86-64, little-endian). The library keeps nothing between calls, allocates nothing and calls
 * nothing of its host but what a C compiler itself may call (memcpy and its like). All that a store holds is in two
 * byte slices, the tables and the arena, which the caller owns and lends at each call.
 *
 * What a caller must know:
 *
 * - A slice is a pointer and a length in bytes. It must point to that many bytes. A null pointer is never allowed, not
 *   even with length 0: pass the address of any byte then.
 * - A call may write the slices whose pointer is not to const. No such slice may overlap another slice of the same
 *   call. Slices that are only read may overlap each other. No alignment is needed.
 * - While a call runs, nobody else may write the slices lent to it, nor read those that it may write. So calls that
 *   only read the store (get, head, list, uploads) may run side by side over one store, each with its own answer and
 *   reply, while no call that writes the store runs. Calls over different stores never disturb each other.
 * - A call over a store needs the tables and the arena as the call before left them, both with the lengths that
 *   rathnodi_fresh was lent. They may move in memory. A store from before version 2 has shorter tables:
 *   rathnodi_carry_over makes new ones of them.
 * - Bad input is answered, never trusted: every argument and all of the lent memory is judged before a byte is written
 *   (delete_objects judges each name when its turn comes). Memory that is not a store is answered by
 *   RATHNODI_NOT_A_STORE.
 * - Each call returns one of the results below: the first that applies, in the order given there. At its declaration
 *   stands which ones it can return. A refusal leaves every lent byte as it was, in what the call would write too. So
 *   look at the result before you read any of that.
 * - Bytes of an answer past those written do not change, nor do such bytes of delete_objects' results.
 * - To ask "is this a store?", call head with the empty path. It answers 0 or 1, and does nothing but the test that
 *   every call except fresh and carry_over begins with. To learn how long an answer get needs, call head first: its
 *   reply has the length. For the pairs, lend RATHNODI_PAIRS_BYTES_MAX bytes to both.
 * - A call uses about 10 kilobytes of stack (measured; the tests fail above 16), and always ends.
 *
 * Paths are 1 to 128 bytes, with no '/' first and no two adjacent: well-formed UTF-8 (RFC 3629) of the characters 33 to
 * 126 and from 160 (U+00A0) on. The limit counts bytes, not characters, and a character that the end of a path cuts off
 * makes it bad. Paths are compared and listed by bytes, as they come: the two ways to write an accented letter, as one
 * character or as two, are two paths. Prefixes and suffixes are any bytes. The empty path is the root, which only get
 * and head take. Paths are not C strings: no zero byte ends them. A stamp is a count of seconds since the start of 1970,
 * at least 1. Stamps may go back: only sweep compares them. Part numbers are 1 to 10,000. Before version 3 they went to
 * 11,000: a store from then may hold a higher part, which uploads counts, commit's list names and abort removes.
 *
 * Pairs of key and value may stand beside an object's data: a flour lot, a baker. A key is 1 to 32 bytes of 'a' to
 * 'z', '0' to '9' and '-'; a value is 0 to 64 bytes from 32 to 126. put and initiate take up to 8 pairs, in any order
 * and with no key twice. The keys size, created and etag are the store's own: pairs with these keys must be well
 * formed too, but are dropped, and neither counted nor compared. get and head write an object's pairs, ascending by
 * key (by bytes, a shorter key before its extensions), to the front of a second answer; copy carries the source's
 * pairs, commit the upload's. Going in and out, each pair is: key length (1 byte), key, value length (1), value. The
 * next follows at once, and nothing may follow the last. Where there are no pairs to pass, pass the address of any
 * byte with length 0. The bytes of keys and values take room in the arena, their lengths do not.
 *
 * Saving: save all bytes of the tables and the arena together, while no call writes them. Write both to a new file,
 * fsync it, rename it to the name of the saves, and keep the last good save. After bringing both back, ask whether they
 * are a store. Tables of one moment with the arena of another can be a store too, with objects whose bytes no call
 * wrote, since the test takes stored digests as they stand. So save a checksum of your own over both slices with them.
 * For an object with a plain etag, the MD5 of its data shows whether they are as they were; a joined etag does not.
 * docs/LAYOUT.md of the sources says more ("Saving and bringing back").
 */
#ifndef RATHNODI_H
#define RATHNODI_H

#include <stddef.h>
#include <stdint.h>

#ifdef __cplusplus
extern "C" {
#endif

/* The version. MAJOR grows where a caller or a saved store has to change, MINOR where something is added. */
#define RATHNODI_VERSION_MAJOR 3
#define RATHNODI_VERSION_MINOR 1
#define RATHNODI_VERSION_PATCH 0
/* The same as a text, "3.1.0" for example. */
#define RATHNODI_VERSION RATHNODI_DOTTED(RATHNODI_VERSION_MAJOR, RATHNODI_VERSION_MINOR, RATHNODI_VERSION_PATCH)
#define RATHNODI_DOTTED(major, minor, patch) \
    RATHNODI_QUOTED(major) "." RATHNODI_QUOTED(minor) "." RATHNODI_QUOTED(patch)
#define RATHNODI_QUOTED(number) #number

/* gcc and clang warn of a null pointer, and of a result that is not looked at: a refused call did nothing. */
#if defined(__GNUC__)
#define RATHNODI_NONNULL __attribute__((nonnull))
#define RATHNODI_CALL __attribute__((nonnull, warn_unused_result))
#else
#define RATHNODI_NONNULL
#define RATHNODI_CALL
#endif

/* A condition that the compiler tests; the name tells it from the others in C99. */
#if defined(__cplusplus) && __cplusplus >= 201103L
#define RATHNODI_ASSERT(name, condition) static_assert(condition, #name)
#elif defined(__STDC_VERSION__) && __STDC_VERSION__ >= 201112L
#define RATHNODI_ASSERT(name, condition) _Static_assert(condition, #name)
#else
#define RATHNODI_ASSERT(name, condition) typedef char rathnodi_assert_##name[(condition) ? 1 : -1]
#endif

/* The one right length of the tables. */
#define RATHNODI_TABLES_LEN 58194
/* That of the tables before version 2, which carry_over takes. */
#define RATHNODI_FORMER_TABLES_LEN 53842
/* The one right length of a reply. */
#define RATHNODI_REPLY_LEN 48
/* The greatest length of an arena; 0 is the least. */
#define RATHNODI_ARENA_MAX 1048576

#define RATHNODI_PATH_MAX 128
/* The last part number that part takes. */
#define RATHNODI_PART_MAX 10000
/* Ceilings: paths, open uploads, parts over all uploads. */
#define RATHNODI_OBJECTS_MAX 256
#define RATHNODI_UPLOADS_MAX 16
#define RATHNODI_PARTS_MAX 256
/* Pairs of an object or an upload, bytes of a key and of a value. */
#define RATHNODI_PAIRS_MAX 8
#define RATHNODI_KEY_MAX 32
#define RATHNODI_VALUE_MAX 64
/* Room for this many bytes suffices for the pairs of every object. */
#define RATHNODI_PAIRS_BYTES_MAX 784
/* The most places that delete_objects takes. */
#define RATHNODI_PLACES_MAX 1000

/* The most bytes of a line of a recording before the line feed that closes it. One byte more is room for every line. */
#define RATHNODI_LINE_MAX 4096

/* The longest record of list and of uploads. Room for RATHNODI_OBJECTS_MAX or RATHNODI_UPLOADS_MAX of them suffices for
 * every answer. */
#define RATHNODI_LIST_RECORD_MAX 178
#define RATHNODI_UPLOADS_RECORD_MAX 143

/* What a call returns. They apply in the order of their numbers, but RATHNODI_TOO_MANY and RATHNODI_NOT_A_LINE come
 * right after RATHNODI_NOT_A_STORE. */
enum {
    RATHNODI_OK = 0,
    RATHNODI_NOT_A_STORE = 1,     /* tables or reply of the wrong length; memory that is not a store */
    RATHNODI_BAD_REQUEST = 2,     /* a bad path, stamp, part number or part list; a pair that is malformed or cut off,
                                   * two equal keys, more than RATHNODI_PAIRS_MAX pairs; an upload that is not open;
                                   * bytes left over after the last place; fresh: an arena over RATHNODI_ARENA_MAX */
    RATHNODI_NOT_FOUND = 3,       /* no object at that path */
    RATHNODI_TABLE_FULL = 4,      /* a ceiling of paths, uploads or parts */
    RATHNODI_ARENA_FULL = 5,      /* more data, keys and values than the arena has bytes: put, copy, initiate, part */
    RATHNODI_NUMBERS_USED_UP = 6, /* upload number 4,294,967,295 has been given out */
    RATHNODI_BUFFER_SHORT = 7,    /* the bytes to write exceed the answer, the second answer or the results */
    RATHNODI_TOO_MANY = 8,        /* more than RATHNODI_PLACES_MAX places */
    RATHNODI_NOT_A_LINE = 9       /* replay_line: bytes that are no line of a recording */
};

/* A result as a text of a few words. */
static inline const char *rathnodi_result_text(uint32_t result)
{
    switch (result) {
    case RATHNODI_OK: return "ok";
    case RATHNODI_NOT_A_STORE: return "not a store";
    case RATHNODI_BAD_REQUEST: return "bad request";
    case RATHNODI_NOT_FOUND: return "not found";
    case RATHNODI_TABLE_FULL: return "table full";
    case RATHNODI_ARENA_FULL: return "arena full";
    case RATHNODI_NUMBERS_USED_UP: return "numbers used up";
    case RATHNODI_BUFFER_SHORT: return "buffer short";
    case RATHNODI_TOO_MANY: return "too many";
    case RATHNODI_NOT_A_LINE: return "not a line";
    default: return "unknown result";
    }
}

/* The kind of an etag. As text, a plain one is the digest's 16 bytes in lower-case hexadecimal; a joined one adds "-"
 * and its count in decimal; an absent one is no bytes. */
enum {
    RATHNODI_ETAG_ABSENT = 0, /* the root's */
    RATHNODI_ETAG_PLAIN = 1,  /* the MD5 of the data */
    RATHNODI_ETAG_JOINED = 2  /* the MD5 of the parts' MD5s in listed order */
};

/* A reply, by offset; numbers are low byte first. On success a call that has a reply writes all of it, with 0 in the
 * fields that are not its own. */
enum {
    RATHNODI_REPLY_CREATED = 0,      /* 8 bytes: get, head */
    RATHNODI_REPLY_LENGTH = 8,       /* 4 bytes: get, head */
    RATHNODI_REPLY_UPLOAD = 12,      /* 4 bytes: initiate */
    RATHNODI_REPLY_RECORDS = 16,     /* 4 bytes: list, uploads; how many records were written
                                      *          sweep; how many uploads were aborted */
    RATHNODI_REPLY_BYTES = 20,       /* 4 bytes: list, uploads; how many bytes they are */
    RATHNODI_REPLY_ETAG_KIND = 24,   /* 1 byte:  get, head, part */
    RATHNODI_REPLY_MORE = 25,        /* 1 byte:  sweep; 1 where more uploads are due, else 0 */
    RATHNODI_REPLY_ETAG_COUNT = 26,  /* 2 bytes: get, head; a joined etag's count */
    RATHNODI_REPLY_ETAG_DIGEST = 28, /* 16 bytes: get, head, part */
    RATHNODI_REPLY_PAIRS = 44,       /* 2 bytes: get, head; how many pairs were written */
    RATHNODI_REPLY_PAIRS_BYTES = 46  /* 2 bytes: get, head; how many bytes they are */
};

/* The same as a struct, to be lent as (uint8_t *)&reply, sizeof reply. */
#if !defined(__BYTE_ORDER__) || __BYTE_ORDER__ == __ORDER_LITTLE_ENDIAN__
struct rathnodi_reply {
    uint64_t created;
    uint32_t length;
    uint32_t upload;
    uint32_t records;
    uint32_t bytes;
    uint8_t etag_kind;
    uint8_t more;
    uint16_t etag_count;
    uint8_t etag_digest[16];
    uint16_t pairs;
    uint16_t pairs_bytes;
};
#define RATHNODI_REPLY_AT(field, offset) \
    RATHNODI_ASSERT(reply_##field, offsetof(struct rathnodi_reply, field) == (offset))
RATHNODI_REPLY_AT(created, RATHNODI_REPLY_CREATED);
RATHNODI_REPLY_AT(length, RATHNODI_REPLY_LENGTH);
RATHNODI_REPLY_AT(upload, RATHNODI_REPLY_UPLOAD);
RATHNODI_REPLY_AT(records, RATHNODI_REPLY_RECORDS);
RATHNODI_REPLY_AT(bytes, RATHNODI_REPLY_BYTES);
RATHNODI_REPLY_AT(etag_kind, RATHNODI_REPLY_ETAG_KIND);
RATHNODI_REPLY_AT(more, RATHNODI_REPLY_MORE);
RATHNODI_REPLY_AT(etag_count, RATHNODI_REPLY_ETAG_COUNT);
RATHNODI_REPLY_AT(etag_digest, RATHNODI_REPLY_ETAG_DIGEST);
RATHNODI_REPLY_AT(pairs, RATHNODI_REPLY_PAIRS);
RATHNODI_REPLY_AT(pairs_bytes, RATHNODI_REPLY_PAIRS_BYTES);
RATHNODI_ASSERT(reply_len, sizeof(struct rathnodi_reply) == RATHNODI_REPLY_LEN);
#endif

/* RATHNODI_TABLES_LEN, as the library has it. */
size_t rathnodi_tables_len(void);

/* An empty store, whatever the slices hold. It looks at their lengths only.
 * Returns 0, 1 or 2. */
uint32_t rathnodi_fresh(uint8_t *tables, size_t tables_len, uint8_t *arena, size_t arena_len)
    RATHNODI_CALL;

/* A store from before version 2 gets tables of today: `former` are its tables, and the arena is its arena, which is not
 * written. It returns RATHNODI_NOT_A_STORE where these two are no such store, or a length is wrong. Else it returns
 * RATHNODI_OK, and the new tables and the arena are that store, without pairs: the former tables are their first bytes,
 * and the bytes after these do not change. Every call from then on takes the new tables; the former ones are no longer
 * of use, since calls change the arena.
 * Returns 0 or 1. */
uint32_t rathnodi_carry_over(const uint8_t *former, size_t former_len, const uint8_t *arena, size_t arena_len,
                             uint8_t *tables, size_t tables_len)
    RATHNODI_CALL;

/* The object at path becomes the data, with this stamp and these pairs.
 * Returns 0, 1, 2, 4 or 5. */
uint32_t rathnodi_put(uint8_t *tables, size_t tables_len, uint8_t *arena, size_t arena_len, uint64_t stamp,
                      const uint8_t *path, size_t path_len, const uint8_t *data, size_t data_len, const uint8_t *pairs,
                      size_t pairs_len)
    RATHNODI_CALL;

/* The object's data, at the front of the answer, its pairs, at the front of the second answer, and its metadata. Where
 * one of the two is short, neither is written.
 * Returns 0, 1, 2, 3 or 7. */
uint32_t rathnodi_get(const uint8_t *tables, size_t tables_len, const uint8_t *arena, size_t arena_len,
                      const uint8_t *path, size_t path_len, uint8_t *answer, size_t answer_len, uint8_t *pairs_answer,
                      size_t pairs_answer_len, uint8_t *reply, size_t reply_len)
    RATHNODI_CALL;

/* The object's pairs and its metadata.
 * Returns 0, 1, 2, 3 or 7. */
uint32_t rathnodi_head(const uint8_t *tables, size_t tables_len, const uint8_t *arena, size_t arena_len,
                       const uint8_t *path, size_t path_len, uint8_t *pairs_answer, size_t pairs_answer_len,
                       uint8_t *reply, size_t reply_len)
    RATHNODI_CALL;

/* Removes the object.
 * Returns 0, 1, 2 or 3. */
uint32_t rathnodi_delete(uint8_t *tables, size_t tables_len, uint8_t *arena, size_t arena_len, const uint8_t *path,
                         size_t path_len)
    RATHNODI_CALL;

/* Removes many objects, as one rathnodi_delete for each place, in their order, would. A place says where a path stands
 * in names: start (4 bytes) and length (4), low byte first. What each delete returns, 0, 2 or 3, goes to the front of
 * results, a byte for each place. A place outside names has 2; a path that is named twice has 3 the second time.
 * places_len is in bytes; results needs an eighth of it.
 * Returns 0, 1, 2, 7 or 8. */
uint32_t rathnodi_delete_objects(uint8_t *tables, size_t tables_len, uint8_t *arena, size_t arena_len,
                                 const uint8_t *names, size_t names_len, const uint8_t *places, size_t places_len,
                                 uint8_t *results, size_t results_len)
    RATHNODI_CALL;

/* As a put of the source's data and pairs at the destination, which may be the source.
 * Returns 0, 1, 2, 3, 4 or 5. */
uint32_t rathnodi_copy(uint8_t *tables, size_t tables_len, uint8_t *arena, size_t arena_len, uint64_t stamp,
                       const uint8_t *source, size_t source_len, const uint8_t *destination, size_t destination_len)
    RATHNODI_CALL;

/* The paths that begin with the prefix and whose rest ends with the suffix, ascending by bytes. A record is: path
 * length (1 byte), path, data length (4), created (8), length of the etag's text (1), that text.
 * Returns 0, 1 or 7. */
uint32_t rathnodi_list(const uint8_t *tables, size_t tables_len, const uint8_t *arena, size_t arena_len,
                       const uint8_t *prefix, size_t prefix_len, const uint8_t *suffix, size_t suffix_len,
                       uint8_t *answer, size_t answer_len, uint8_t *reply, size_t reply_len)
    RATHNODI_CALL;

/* Opens an upload to the path, with the pairs that its object is to have; the reply has its number.
 * Returns 0, 1, 2, 4, 5 or 6. */
uint32_t rathnodi_initiate(uint8_t *tables, size_t tables_len, uint8_t *arena, size_t arena_len, uint64_t stamp,
                           const uint8_t *path, size_t path_len, const uint8_t *pairs, size_t pairs_len,
                           uint8_t *reply, size_t reply_len)
    RATHNODI_CALL;

/* Sets a part of an open upload; the reply has the part's etag.
 * Returns 0, 1, 2, 4 or 5. */
uint32_t rathnodi_part(uint8_t *tables, size_t tables_len, uint8_t *arena, size_t arena_len, uint32_t upload,
                       uint16_t part, const uint8_t *data, size_t data_len, uint8_t *reply, size_t reply_len)
    RATHNODI_CALL;

/* The parts, joined in listed order, become the object at the upload's path, with the upload's stamp and pairs. The
 * list has 16-bit part numbers, low byte first, and names every part of the upload one time. part_list_len is in
 * bytes.
 * Returns 0, 1, 2 or 4. */
uint32_t rathnodi_commit(uint8_t *tables, size_t tables_len, uint8_t *arena, size_t arena_len, uint32_t upload,
                         const uint8_t *part_list, size_t part_list_len)
    RATHNODI_CALL;

/* Removes an open upload and its parts.
 * Returns 0, 1 or 2. */
uint32_t rathnodi_abort(uint8_t *tables, size_t tables_len, uint8_t *arena, size_t arena_len, uint32_t upload)
    RATHNODI_CALL;

/* Aborts open uploads that were started before the stamp, by ascending number, at most `most` of them. The reply has in
 * `records` how many it aborted, and in `more` whether uploads that were started before the stamp are left.
 * Returns 0, 1 or 2. */
uint32_t rathnodi_sweep(uint8_t *tables, size_t tables_len, uint8_t *arena, size_t arena_len, uint64_t stamp,
                        uint32_t most, uint8_t *reply, size_t reply_len)
    RATHNODI_CALL;

/* The open uploads whose path begins with the prefix, ascending by number. A record is: number (4 bytes), path length
 * (1), path, started (8), count of parts (2).
 * Returns 0, 1 or 7. */
uint32_t rathnodi_uploads(const uint8_t *tables, size_t tables_len, const uint8_t *arena, size_t arena_len,
                          const uint8_t *prefix, size_t prefix_len, uint8_t *answer, size_t answer_len,
                          uint8_t *reply, size_t reply_len)
    RATHNODI_CALL;

/* Makes the call that a line of a recording says: the line as the functions at the end print it, without its line feed.
 * It returns RATHNODI_NOT_A_LINE where the bytes are no such line or are more than RATHNODI_LINE_MAX. Else it does and
 * returns what that call would with these answers and this reply: RATHNODI_BAD_REQUEST too where a number is too wide
 * for its argument. A call without an answer leaves the answers as they were; one without a reply, accepted, writes a
 * reply of zeros.
 * Returns 0, 1, 2, 3, 4, 5, 6, 7 or 9. */
uint32_t rathnodi_replay_line(uint8_t *tables, size_t tables_len, uint8_t *arena, size_t arena_len, const uint8_t *line,
                              size_t line_len, uint8_t *answer, size_t answer_len, uint8_t *pairs_answer,
                              size_t pairs_answer_len, uint8_t *reply, size_t reply_len)
    RATHNODI_CALL;

/* A number of so many bytes, low byte first. */
RATHNODI_NONNULL static inline uint64_t rathnodi_number(const uint8_t *from, size_t width)
{
    uint64_t number = 0;
    for (size_t i = width; i > 0; i--) {
        number = number << 8 | from[i - 1];
    }
    return number;
}

/* A record of list. Path and etag point into the answer; no zero byte ends them. */
struct rathnodi_list_record {
    const uint8_t *path;
    size_t path_len;
    uint32_t length; /* of the data */
    uint64_t created;
    const char *etag; /* as text */
    size_t etag_len;
};

/* Reads the record at *at, which starts at 0, in list's answer, of which `bytes` are written (as the reply says). It
 * returns 1 and moves *at past the record; or it returns 0 and changes nothing, where no whole record follows: then *at
 * is `bytes` unless the answer was cut off. */
RATHNODI_CALL static inline int rathnodi_list_next(const uint8_t *answer, size_t bytes, size_t *at,
                                                   struct rathnodi_list_record *record)
{
    size_t left = *at < bytes ? bytes - *at : 0;
    size_t path_len = left > 0 ? answer[*at] : 0;
    if (left < 1 + path_len + 13) {
        return 0;
    }
    const uint8_t *path = answer + *at + 1;
    const uint8_t *rest = path + path_len; /* data length (4), created (8), length of the etag's text (1), that text */
    size_t etag_len = rest[12];
    if (left < 1 + path_len + 13 + etag_len) {
        return 0;
    }
    record->path = path;
    record->path_len = path_len;
    record->length = (uint32_t)rathnodi_number(rest, 4);
    record->created = rathnodi_number(rest + 4, 8);
    record->etag = (const char *)(rest + 13);
    record->etag_len = etag_len;
    *at += 1 + path_len + 13 + etag_len;
    return 1;
}

/* A record of uploads. Its path points into the answer; no zero byte ends it. */
struct rathnodi_uploads_record {
    uint32_t upload;
    const uint8_t *path;
    size_t path_len;
    uint64_t started;
    uint16_t parts; /* how many */
};

/* As rathnodi_list_next, of uploads' answer. */
RATHNODI_CALL static inline int rathnodi_uploads_next(const uint8_t *answer, size_t bytes, size_t *at,
                                                      struct rathnodi_uploads_record *record)
{
    size_t left = *at < bytes ? bytes - *at : 0;
    size_t path_len = left > 4 ? answer[*at + 4] : 0;
    if (left < 5 + path_len + 10) {
        return 0;
    }
    const uint8_t *path = answer + *at + 5;
    const uint8_t *rest = path + path_len; /* started (8), count of parts (2) */
    record->upload = (uint32_t)rathnodi_number(answer + *at, 4);
    record->path = path;
    record->path_len = path_len;
    record->started = rathnodi_number(rest, 8);
    record->parts = (uint16_t)rathnodi_number(rest + 8, 2);
    *at += 5 + path_len + 10;
    return 1;
}

/* A pair. Key and value point into the answer; no zero byte ends them. */
struct rathnodi_pair {
    const uint8_t *key;
    size_t key_len;
    const uint8_t *value;
    size_t value_len;
};

/* As rathnodi_list_next, of the pairs in the second answer of get and head: the reply has how many bytes they are in
 * `pairs_bytes`. */
RATHNODI_CALL static inline int rathnodi_pairs_next(const uint8_t *pairs_answer, size_t bytes, size_t *at,
                                                    struct rathnodi_pair *pair)
{
    size_t left = *at < bytes ? bytes - *at : 0;
    size_t key_len = left > 0 ? pairs_answer[*at] : 0;
    if (left < 1 + key_len + 1) {
        return 0;
    }
    const uint8_t *key = pairs_answer + *at + 1;
    size_t value_len = key[key_len];
    if (left < 1 + key_len + 1 + value_len) {
        return 0;
    }
    pair->key = key;
    pair->key_len = key_len;
    pair->value = key + key_len + 1;
    pair->value_len = value_len;
    *at += 1 + key_len + 1 + value_len;
    return 1;
}

/* Adds a pair for put or initiate at *at, which starts at 0, of `pairs`, which has so many bytes of room. It returns 1
 * and moves *at, the length of all pairs so far, past the pair; or it returns 0 and changes nothing, where there is no
 * room, or a length is over 255. All other judging is left to the call. */
RATHNODI_CALL static inline int rathnodi_pairs_add(uint8_t *pairs, size_t room, size_t *at, const uint8_t *key,
                                                   size_t key_len, const uint8_t *value, size_t value_len)
{
    size_t left = *at < room ? room - *at : 0;
    if (key_len > 255 || value_len > 255 || left < 1 + key_len + 1 + value_len) {
        return 0;
    }
    uint8_t *to = pairs + *at;
    to[0] = (uint8_t)key_len;
    for (size_t i = 0; i < key_len; i++) {
        to[1 + i] = key[i];
    }
    to[1 + key_len] = (uint8_t)value_len;
    for (size_t i = 0; i < value_len; i++) {
        to[1 + key_len + 1 + i] = value[i];
    }
    *at += 1 + key_len + 1 + value_len;
    return 1;
}

/* Sets the number at this place, from 0, of a part list, which has two bytes for each number. */
RATHNODI_NONNULL static inline void rathnodi_part_list_set(uint8_t *part_list, size_t place, uint16_t part)
{
    part_list[2 * place] = (uint8_t)(part & 255);
    part_list[2 * place + 1] = (uint8_t)(part >> 8);
}

/* Sets the place with this number, from 0, of delete_objects' places, which have eight bytes each. */
RATHNODI_NONNULL static inline void rathnodi_place_set(uint8_t *places, size_t place, uint32_t start, uint32_t length)
{
    for (size_t i = 0; i < 4; i++) {
        places[8 * place + i] = (uint8_t)(start >> 8 * i & 255);
        places[8 * place + 4 + i] = (uint8_t)(length >> 8 * i & 255);
    }
}

/* Recording: each of the eleven functions at the end prints one call as a line of a recording, with its line feed, to
 * the front of `out` and returns how many bytes it wrote. It returns 0 and writes nothing where the line has more than
 * RATHNODI_LINE_MAX bytes before its line feed, where `out` is short, where the last of the pairs is cut off, and where
 * a part list has an odd byte left over. All other judging is left to the replay: a call that the store refuses is
 * recorded too. The arguments are those of the call, in its order, without store, answers and reply; they may overlap
 * `out`. About 4 kilobytes of stack are used.
 *
 * A line is a bracket of fields with one space between them: the verb, numbers in decimal, bytes as lower-case
 * hexadecimal digits in double quotes, a part list in its own bracket, and each pair as a bracket of key and value:
 *
 *     (put 5 "61" "78797a" ("6c6f74" "5237"))
 *     (commit 1 (2 1))
 *
 * delete_objects and sweep have no line: record a delete for each place, and an abort for each upload that the sweep
 * aborted. */

/* A line as it is printed: count is past RATHNODI_LINE_MAX once it is too long or cannot be printed. */
struct rathnodi_line {
    size_t count;
    uint8_t bytes[RATHNODI_LINE_MAX + 1];
};

RATHNODI_NONNULL static inline void rathnodi_line_byte(struct rathnodi_line *line, char byte)
{
    if (line->count <= RATHNODI_LINE_MAX) {
        line->bytes[line->count] = (uint8_t)byte;
        line->count++;
    }
}

/* Begins a line with its bracket and its verb. */
RATHNODI_NONNULL static inline void rathnodi_line_begin(struct rathnodi_line *line, const char *verb)
{
    line->count = 0;
    rathnodi_line_byte(line, '(');
    for (; *verb != '\0'; verb++) {
        rathnodi_line_byte(line, *verb);
    }
}

RATHNODI_NONNULL static inline void rathnodi_line_digits(struct rathnodi_line *line, uint64_t number)
{
    char digits[20];
    size_t count = 0;
    do {
        digits[count] = (char)('0' + (int)(number % 10));
        number /= 10;
        count++;
    } while (number > 0);
    for (; count > 0; count--) {
        rathnodi_line_byte(line, digits[count - 1]);
    }
}

RATHNODI_NONNULL static inline void rathnodi_line_quoted(struct rathnodi_line *line, const uint8_t *bytes, size_t len)
{
    rathnodi_line_byte(line, '"');
    for (size_t i = 0; i < len && line->count <= RATHNODI_LINE_MAX; i++) {
        rathnodi_line_byte(line, "0123456789abcdef"[bytes[i] >> 4]);
        rathnodi_line_byte(line, "0123456789abcdef"[bytes[i] & 15]);
    }
    rathnodi_line_byte(line, '"');
}

/* A field that is a number. */
RATHNODI_NONNULL static inline void rathnodi_line_number(struct rathnodi_line *line, uint64_t number)
{
    rathnodi_line_byte(line, ' ');
    rathnodi_line_digits(line, number);
}

/* A field that is bytes. */
RATHNODI_NONNULL static inline void rathnodi_line_bytes(struct rathnodi_line *line, const uint8_t *bytes, size_t len)
{
    rathnodi_line_byte(line, ' ');
    rathnodi_line_quoted(line, bytes, len);
}

/* The field that is a part list. */
RATHNODI_NONNULL static inline void rathnodi_line_part_list(struct rathnodi_line *line, const uint8_t *part_list,
                                                            size_t part_list_len)
{
    rathnodi_line_byte(line, ' ');
    rathnodi_line_byte(line, '(');
    for (size_t at = 0; at + 1 < part_list_len && line->count <= RATHNODI_LINE_MAX; at += 2) {
        if (at > 0) {
            rathnodi_line_byte(line, ' ');
        }
        rathnodi_line_digits(line, rathnodi_number(part_list + at, 2));
    }
    rathnodi_line_byte(line, ')');
    if (part_list_len % 2 != 0) {
        line->count = RATHNODI_LINE_MAX + 1;
    }
}

/* A field for each pair. */
RATHNODI_NONNULL static inline void rathnodi_line_pairs(struct rathnodi_line *line, const uint8_t *pairs,
                                                        size_t pairs_len)
{
    struct rathnodi_pair pair;
    size_t at = 0;
    while (line->count <= RATHNODI_LINE_MAX && rathnodi_pairs_next(pairs, pairs_len, &at, &pair)) {
        rathnodi_line_byte(line, ' ');
        rathnodi_line_byte(line, '(');
        rathnodi_line_quoted(line, pair.key, pair.key_len);
        rathnodi_line_bytes(line, pair.value, pair.value_len);
        rathnodi_line_byte(line, ')');
    }
    if (at != pairs_len) {
        line->count = RATHNODI_LINE_MAX + 1;
    }
}

/* Closes a line and writes it. */
RATHNODI_CALL static inline size_t rathnodi_line_end(struct rathnodi_line *line, uint8_t *out, size_t out_len)
{
    rathnodi_line_byte(line, ')');
    if (line->count > RATHNODI_LINE_MAX || line->count >= out_len) {
        return 0;
    }
    for (size_t i = 0; i < line->count; i++) {
        out[i] = line->bytes[i];
    }
    out[line->count] = '\n';
    return line->count + 1;
}

RATHNODI_CALL static inline size_t rathnodi_line_put(uint8_t *out, size_t out_len, uint64_t stamp, const uint8_t *path,
                                                     size_t path_len, const uint8_t *data, size_t data_len,
                                                     const uint8_t *pairs, size_t pairs_len)
{
    struct rathnodi_line line;
    rathnodi_line_begin(&line, "put");
    rathnodi_line_number(&line, stamp);
    rathnodi_line_bytes(&line, path, path_len);
    rathnodi_line_bytes(&line, data, data_len);
    rathnodi_line_pairs(&line, pairs, pairs_len);
    return rathnodi_line_end(&line, out, out_len);
}

RATHNODI_CALL static inline size_t rathnodi_line_get(uint8_t *out, size_t out_len, const uint8_t *path, size_t path_len)
{
    struct rathnodi_line line;
    rathnodi_line_begin(&line, "get");
    rathnodi_line_bytes(&line, path, path_len);
    return rathnodi_line_end(&line, out, out_len);
}

RATHNODI_CALL static inline size_t rathnodi_line_head(uint8_t *out, size_t out_len, const uint8_t *path,
                                                      size_t path_len)
{
    struct rathnodi_line line;
    rathnodi_line_begin(&line, "head");
    rathnodi_line_bytes(&line, path, path_len);
    return rathnodi_line_end(&line, out, out_len);
}

RATHNODI_CALL static inline size_t rathnodi_line_delete(uint8_t *out, size_t out_len, const uint8_t *path,
                                                        size_t path_len)
{
    struct rathnodi_line line;
    rathnodi_line_begin(&line, "delete");
    rathnodi_line_bytes(&line, path, path_len);
    return rathnodi_line_end(&line, out, out_len);
}

RATHNODI_CALL static inline size_t rathnodi_line_copy(uint8_t *out, size_t out_len, uint64_t stamp,
                                                      const uint8_t *source, size_t source_len,
                                                      const uint8_t *destination, size_t destination_len)
{
    struct rathnodi_line line;
    rathnodi_line_begin(&line, "copy");
    rathnodi_line_number(&line, stamp);
    rathnodi_line_bytes(&line, source, source_len);
    rathnodi_line_bytes(&line, destination, destination_len);
    return rathnodi_line_end(&line, out, out_len);
}

RATHNODI_CALL static inline size_t rathnodi_line_list(uint8_t *out, size_t out_len, const uint8_t *prefix,
                                                      size_t prefix_len, const uint8_t *suffix, size_t suffix_len)
{
    struct rathnodi_line line;
    rathnodi_line_begin(&line, "list");
    rathnodi_line_bytes(&line, prefix, prefix_len);
    rathnodi_line_bytes(&line, suffix, suffix_len);
    return rathnodi_line_end(&line, out, out_len);
}

RATHNODI_CALL static inline size_t rathnodi_line_initiate(uint8_t *out, size_t out_len, uint64_t stamp,
                                                          const uint8_t *path, size_t path_len, const uint8_t *pairs,
                                                          size_t pairs_len)
{
    struct rathnodi_line line;
    rathnodi_line_begin(&line, "initiate");
    rathnodi_line_number(&line, stamp);
    rathnodi_line_bytes(&line, path, path_len);
    rathnodi_line_pairs(&line, pairs, pairs_len);
    return rathnodi_line_end(&line, out, out_len);
}

RATHNODI_CALL static inline size_t rathnodi_line_part(uint8_t *out, size_t out_len, uint32_t upload, uint16_t part,
                                                      const uint8_t *data, size_t data_len)
{
    struct rathnodi_line line;
    rathnodi_line_begin(&line, "part");
    rathnodi_line_number(&line, upload);
    rathnodi_line_number(&line, part);
    rathnodi_line_bytes(&line, data, data_len);
    return rathnodi_line_end(&line, out, out_len);
}

RATHNODI_CALL static inline size_t rathnodi_line_commit(uint8_t *out, size_t out_len, uint32_t upload,
                                                        const uint8_t *part_list, size_t part_list_len)
{
    struct rathnodi_line line;
    rathnodi_line_begin(&line, "commit");
    rathnodi_line_number(&line, upload);
    rathnodi_line_part_list(&line, part_list, part_list_len);
    return rathnodi_line_end(&line, out, out_len);
}

RATHNODI_CALL static inline size_t rathnodi_line_abort(uint8_t *out, size_t out_len, uint32_t upload)
{
    struct rathnodi_line line;
    rathnodi_line_begin(&line, "abort");
    rathnodi_line_number(&line, upload);
    return rathnodi_line_end(&line, out, out_len);
}

RATHNODI_CALL static inline size_t rathnodi_line_uploads(uint8_t *out, size_t out_len, const uint8_t *prefix,
                                                         size_t prefix_len)
{
    struct rathnodi_line line;
    rathnodi_line_begin(&line, "uploads");
    rathnodi_line_bytes(&line, prefix, prefix_len);
    return rathnodi_line_end(&line, out, out_len);
}

#ifdef __cplusplus
}
#endif

#endif
