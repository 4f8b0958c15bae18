/*
 * Bad input from C, answered as documents 01 and 02 say: wrong lengths, memory that is no store, bad arguments, places
 * outside the names, short answers, sweeps at the edge of what is due, pairs at the edge of each of their rules, former
 * tables that are no store, a part of an older store, lines of a recording that are none. After each refusal every lent
 * byte is compared. The last line counts.
 */
#include <inttypes.h>
#include <string.h>

#include "check.h"
#include "rathnodi.h"

enum { ARENA_LEN = 64, ANSWER_LEN = 200, ROOM = 1024 };

/* All that is lent. Slices start one byte in, so that none is aligned and a byte stands free on either side. */
struct lent {
    uint8_t tables[RATHNODI_TABLES_LEN + 3];
    uint8_t arena[RATHNODI_ARENA_MAX + 3];
    uint8_t answer[ROOM + 2];
    uint8_t pairs_answer[ROOM + 2];
    uint8_t reply[ROOM + 2];
    uint8_t names[ROOM + 2];
    uint8_t places[8 * ROOM + 2];
    uint8_t pairs[ROOM + 2];
    uint8_t former[RATHNODI_TABLES_LEN + 2];
};

static struct lent now, before;
static size_t tables_len, arena_len, answer_len, pairs_answer_len, reply_len, names_len, places_len, pairs_len,
    former_len;

#define STORE now.tables + 1, tables_len, now.arena + 1, arena_len
#define ANSWER now.answer + 1, answer_len
#define PAIRS_ANSWER now.pairs_answer + 1, pairs_answer_len
#define REPLY now.reply + 1, reply_len
#define NAMES now.names + 1, names_len
#define PLACES now.places + 1, places_len
#define PAIRS now.pairs + 1, pairs_len
#define NO_PAIRS now.pairs, 0
#define FORMER now.former + 1, former_len
#define BYTES(text) (const uint8_t *)(text), sizeof(text) - 1
#define FIELD(type, offset) (*(type *)memcpy(&(type){0}, now.reply + 1 + (offset), sizeof(type)))

static void mark(void)
{
    memcpy(&before, &now, sizeof now);
}

/* The call was refused by this number, and every byte is as it was. */
static void refused(const char *what, uint32_t number, uint32_t expected)
{
    check(what, number == expected && memcmp(&before, &now, sizeof now) == 0);
    if (number != expected) {
        printf("  answered %" PRIu32 ", expected %" PRIu32 "\n", number, expected);
    }
    mark();
}

/* The call was accepted, and the bytes around the slices and of those that it reads are as they were. */
static void accepted(const char *what, uint32_t number)
{
    int kept = now.tables[0] == before.tables[0] && now.arena[0] == before.arena[0] &&
               now.answer[0] == before.answer[0] && now.reply[0] == before.reply[0] &&
               now.pairs_answer[0] == before.pairs_answer[0] &&
               now.tables[tables_len + 1] == before.tables[tables_len + 1] &&
               now.arena[arena_len + 1] == before.arena[arena_len + 1] &&
               now.answer[answer_len + 1] == before.answer[answer_len + 1] &&
               now.pairs_answer[pairs_answer_len + 1] == before.pairs_answer[pairs_answer_len + 1] &&
               now.reply[reply_len + 1] == before.reply[reply_len + 1] &&
               memcmp(now.names, before.names, sizeof now.names) == 0 &&
               memcmp(now.places, before.places, sizeof now.places) == 0 &&
               memcmp(now.pairs, before.pairs, sizeof now.pairs) == 0 &&
               memcmp(now.former, before.former, sizeof now.former) == 0;
    check(what, number == RATHNODI_OK && kept);
    if (number != RATHNODI_OK) {
        printf("  answered %" PRIu32 "\n", number);
    }
    mark();
}

enum {
    FRESH, PUT, GET, HEAD, DELETE, DELETE_OBJECTS, COPY, LIST, INITIATE, PART, COMMIT, ABORT, SWEEP, UPLOADS,
    CARRY_OVER, REPLAY_LINE, CALLS
};

static const char *const CALL_NAMES[CALLS] = {"fresh", "put",      "get",  "head",   "delete", "delete_objects", "copy",
                                              "list",  "initiate", "part", "commit", "abort",  "sweep", "uploads",
                                              "carry_over", "replay_line"};

/* A call with good arguments, over what is lent now. */
static uint32_t good(int call)
{
    switch (call) {
    case FRESH: return rathnodi_fresh(STORE);
    case PUT: return rathnodi_put(STORE, 5, BYTES("a"), BYTES("xyz"), PAIRS);
    case GET: return rathnodi_get(STORE, BYTES("a"), ANSWER, PAIRS_ANSWER, REPLY);
    case HEAD: return rathnodi_head(STORE, BYTES("a"), PAIRS_ANSWER, REPLY);
    case DELETE: return rathnodi_delete(STORE, BYTES("a"));
    case DELETE_OBJECTS: return rathnodi_delete_objects(STORE, NAMES, PLACES, ANSWER);
    case COPY: return rathnodi_copy(STORE, 6, BYTES("a"), BYTES("b"));
    case LIST: return rathnodi_list(STORE, BYTES(""), BYTES(""), ANSWER, REPLY);
    case INITIATE: return rathnodi_initiate(STORE, 7, BYTES("r"), PAIRS, REPLY);
    case PART: return rathnodi_part(STORE, 1, 1, BYTES("A"), REPLY);
    case COMMIT: return rathnodi_commit(STORE, 1, BYTES("\1\0"));
    case ABORT: return rathnodi_abort(STORE, 1);
    case SWEEP: return rathnodi_sweep(STORE, 8, 1, REPLY);
    case UPLOADS: return rathnodi_uploads(STORE, BYTES(""), ANSWER, REPLY);
    case REPLAY_LINE: return rathnodi_replay_line(STORE, BYTES("(get \"61\")"), ANSWER, PAIRS_ANSWER, REPLY);
    default: return rathnodi_carry_over(FORMER, now.arena + 1, arena_len, now.tables + 1, tables_len);
    }
}

static int has_reply(int call)
{
    return call == GET || call == HEAD || call == LIST || call == INITIATE || call == PART || call == SWEEP ||
           call == UPLOADS || call == REPLAY_LINE;
}

/* Lends names, and no place yet. */
static void lend_names(const uint8_t *names, size_t len)
{
    memcpy(now.names + 1, names, len);
    names_len = len;
    places_len = 0;
}

/* Lends one more place. */
static void lend_place(uint32_t start, uint32_t length)
{
    rathnodi_place_set(now.places + 1, places_len / 8, start, length);
    places_len += 8;
}

/* Lends these pairs. */
static void lend_pairs(const uint8_t *pairs, size_t len)
{
    memcpy(now.pairs + 1, pairs, len);
    pairs_len = len;
    mark();
}

/* Lends one more pair. */
static void lend_pair(const char *key, const char *value)
{
    check("room for a pair", rathnodi_pairs_add(now.pairs + 1, ROOM, &pairs_len, (const uint8_t *)key, strlen(key),
                                                (const uint8_t *)value, strlen(value)));
    mark();
}

/* A store with object "a" and upload 1 to "r" with part 1, and the same as former tables. */
static void start(void)
{
    tables_len = RATHNODI_TABLES_LEN;
    arena_len = ARENA_LEN;
    answer_len = ANSWER_LEN;
    pairs_answer_len = RATHNODI_PAIRS_BYTES_MAX;
    reply_len = RATHNODI_REPLY_LEN;
    former_len = RATHNODI_FORMER_TABLES_LEN;
    pairs_len = 0;
    memset(&now, 0xa5, sizeof now);
    lend_names(BYTES("a"));
    lend_place(0, 1);
    mark();
    accepted("fresh", good(FRESH));
    accepted("put", good(PUT));
    accepted("initiate", good(INITIATE));
    accepted("part", good(PART));
    memcpy(now.former + 1, now.tables + 1, former_len);
    /* No zeros in what a refusal must leave. */
    memset(now.reply, 0xa5, sizeof now.reply);
    mark();
}

static void wrong_lengths(void)
{
    const size_t tables_lens[] = {0, 1, RATHNODI_TABLES_LEN - 1, RATHNODI_TABLES_LEN + 1};
    const size_t arena_lens[] = {0, 1, ARENA_LEN - 1, ARENA_LEN + 1, RATHNODI_ARENA_MAX, RATHNODI_ARENA_MAX + 1};
    const size_t reply_lens[] = {0, 1, RATHNODI_REPLY_LEN - 1, RATHNODI_REPLY_LEN + 1, 2 * RATHNODI_REPLY_LEN};
    start();
    for (int call = FRESH; call < CALLS; call++) {
        for (size_t i = 0; i < sizeof tables_lens / sizeof *tables_lens; i++) {
            tables_len = tables_lens[i];
            refused(CALL_NAMES[call], good(call), RATHNODI_NOT_A_STORE);
        }
        tables_len = RATHNODI_TABLES_LEN;
        for (size_t i = 0; call != FRESH && i < sizeof arena_lens / sizeof *arena_lens; i++) {
            arena_len = arena_lens[i];
            refused(CALL_NAMES[call], good(call), RATHNODI_NOT_A_STORE);
        }
        arena_len = ARENA_LEN;
        for (size_t i = 0; has_reply(call) && i < sizeof reply_lens / sizeof *reply_lens; i++) {
            reply_len = reply_lens[i];
            refused(CALL_NAMES[call], good(call), RATHNODI_NOT_A_STORE);
        }
        reply_len = RATHNODI_REPLY_LEN;
    }
    arena_len = RATHNODI_ARENA_MAX + 1;
    refused("fresh, an arena too long", good(FRESH), RATHNODI_BAD_REQUEST);
    tables_len = RATHNODI_TABLES_LEN - 1;
    refused("fresh, tables too short are seen first", good(FRESH), RATHNODI_NOT_A_STORE);
    tables_len = RATHNODI_TABLES_LEN;
    arena_len = RATHNODI_ARENA_MAX;
    accepted("fresh, the longest arena", good(FRESH));
    accepted("put, the longest arena",
             rathnodi_put(STORE, 5, BYTES("a"), before.arena, RATHNODI_ARENA_MAX, NO_PAIRS));
    refused("put, one byte more", rathnodi_put(STORE, 5, BYTES("b"), BYTES("A"), NO_PAIRS), RATHNODI_ARENA_FULL);
    arena_len = 0;
    accepted("fresh, no arena", good(FRESH));
    refused("put, no arena", good(PUT), RATHNODI_ARENA_FULL);
    accepted("put of nothing, no arena", rathnodi_put(STORE, 5, BYTES("a"), BYTES(""), NO_PAIRS));
    accepted("initiate, no arena", good(INITIATE));
    accepted("commit of an empty list", rathnodi_commit(STORE, 1, BYTES("")));
}

static void no_store(void)
{
    const int fills[] = {0x00, 0x01, 0x7f, 0xff};
    start();
    for (size_t i = 0; i < sizeof fills / sizeof *fills; i++) {
        memset(now.tables, fills[i], sizeof now.tables);
        memset(now.former, fills[i], sizeof now.former);
        mark();
        for (int call = PUT; call < CALLS; call++) {
            refused(CALL_NAMES[call], good(call), RATHNODI_NOT_A_STORE);
        }
    }
    accepted("fresh over anything", good(FRESH));
}

static void bad_arguments(void)
{
    static uint8_t over[RATHNODI_PATH_MAX + 1];
    static const struct {
        const uint8_t *bytes;
        size_t len;
    } bad_paths[] = {{BYTES("/a")}, {BYTES("a//b")}, {BYTES("/")},      {BYTES("a b")},
                     {BYTES("a\0")}, {BYTES("\x7f")}, {BYTES("\xc2\x9f")}, {BYTES("a\xc3")}, {BYTES("\xed\xa0\x80")},
                     {BYTES("\xc0\xaf")}, {BYTES("\xf4\x90\x80\x80")}, {over, sizeof over}};
    memset(over, 'p', sizeof over);
    start();
    for (size_t i = 0; i < sizeof bad_paths / sizeof *bad_paths; i++) {
        const uint8_t *path = bad_paths[i].bytes;
        size_t len = bad_paths[i].len;
        refused("put, a bad path", rathnodi_put(STORE, 5, path, len, BYTES("xyz"), NO_PAIRS), RATHNODI_BAD_REQUEST);
        refused("get, a bad path", rathnodi_get(STORE, path, len, ANSWER, PAIRS_ANSWER, REPLY), RATHNODI_BAD_REQUEST);
        refused("head, a bad path", rathnodi_head(STORE, path, len, PAIRS_ANSWER, REPLY), RATHNODI_BAD_REQUEST);
        refused("delete, a bad path", rathnodi_delete(STORE, path, len), RATHNODI_BAD_REQUEST);
        refused("copy from a bad path", rathnodi_copy(STORE, 5, path, len, BYTES("b")), RATHNODI_BAD_REQUEST);
        refused("copy to a bad path", rathnodi_copy(STORE, 5, BYTES("a"), path, len), RATHNODI_BAD_REQUEST);
        refused("initiate, a bad path", rathnodi_initiate(STORE, 5, path, len, NO_PAIRS, REPLY), RATHNODI_BAD_REQUEST);
    }
    refused("put to the root", rathnodi_put(STORE, 5, BYTES(""), BYTES("xyz"), NO_PAIRS), RATHNODI_BAD_REQUEST);
    refused("delete the root", rathnodi_delete(STORE, BYTES("")), RATHNODI_BAD_REQUEST);
    refused("copy the root", rathnodi_copy(STORE, 5, BYTES(""), BYTES("b")), RATHNODI_BAD_REQUEST);
    refused("initiate to the root", rathnodi_initiate(STORE, 5, BYTES(""), NO_PAIRS, REPLY), RATHNODI_BAD_REQUEST);
    refused("put at 0", rathnodi_put(STORE, 0, BYTES("a"), BYTES("xyz"), NO_PAIRS), RATHNODI_BAD_REQUEST);
    refused("copy at 0", rathnodi_copy(STORE, 0, BYTES("a"), BYTES("b")), RATHNODI_BAD_REQUEST);
    refused("initiate at 0", rathnodi_initiate(STORE, 0, BYTES("a"), NO_PAIRS, REPLY), RATHNODI_BAD_REQUEST);
    refused("part of upload 0", rathnodi_part(STORE, 0, 1, BYTES("A"), REPLY), RATHNODI_BAD_REQUEST);
    refused("part of upload 2", rathnodi_part(STORE, 2, 1, BYTES("A"), REPLY), RATHNODI_BAD_REQUEST);
    refused("part 0", rathnodi_part(STORE, 1, 0, BYTES("A"), REPLY), RATHNODI_BAD_REQUEST);
    refused("part 10001", rathnodi_part(STORE, 1, 10001, BYTES("A"), REPLY), RATHNODI_BAD_REQUEST);
    refused("part 11000", rathnodi_part(STORE, 1, 11000, BYTES("A"), REPLY), RATHNODI_BAD_REQUEST);
    refused("part 65535", rathnodi_part(STORE, 1, 65535, BYTES("A"), REPLY), RATHNODI_BAD_REQUEST);
    refused("commit of upload 2", rathnodi_commit(STORE, 2, BYTES("\1\0")), RATHNODI_BAD_REQUEST);
    refused("commit, none listed", rathnodi_commit(STORE, 1, BYTES("")), RATHNODI_BAD_REQUEST);
    refused("commit, half a number", rathnodi_commit(STORE, 1, BYTES("\1")), RATHNODI_BAD_REQUEST);
    refused("commit, an odd byte", rathnodi_commit(STORE, 1, BYTES("\1\0\0")), RATHNODI_BAD_REQUEST);
    refused("commit, a part twice", rathnodi_commit(STORE, 1, BYTES("\1\0\1\0")), RATHNODI_BAD_REQUEST);
    refused("commit, high byte first", rathnodi_commit(STORE, 1, BYTES("\0\1")), RATHNODI_BAD_REQUEST);
    refused("abort of upload 2", rathnodi_abort(STORE, 2), RATHNODI_BAD_REQUEST);
    refused("sweep at 0", rathnodi_sweep(STORE, 0, 1, REPLY), RATHNODI_BAD_REQUEST);
    refused("sweep at 0, at most 0", rathnodi_sweep(STORE, 0, 0, REPLY), RATHNODI_BAD_REQUEST);
    refused("sweep at 0, any number", rathnodi_sweep(STORE, 0, UINT32_MAX, REPLY), RATHNODI_BAD_REQUEST);
    refused("get, not there", rathnodi_get(STORE, BYTES("b"), ANSWER, PAIRS_ANSWER, REPLY), RATHNODI_NOT_FOUND);
    refused("head, not there", rathnodi_head(STORE, BYTES("b"), PAIRS_ANSWER, REPLY), RATHNODI_NOT_FOUND);
    refused("delete, not there", rathnodi_delete(STORE, BYTES("b")), RATHNODI_NOT_FOUND);
    refused("copy, not there", rathnodi_copy(STORE, 5, BYTES("b"), BYTES("c")), RATHNODI_NOT_FOUND);
    reply_len = RATHNODI_REPLY_LEN - 1;
    refused("a reply of another length is seen before a bad path",
            rathnodi_head(STORE, BYTES("//"), PAIRS_ANSWER, REPLY), RATHNODI_NOT_A_STORE);
    refused("a reply of another length is seen before stamp 0", rathnodi_sweep(STORE, 0, 1, REPLY),
            RATHNODI_NOT_A_STORE);
}

/* The call writes so many bytes of its answer and leaves the rest. */
static void rest_keeps(const char *what, int call, int written)
{
    memset(now.answer, 0x5a, sizeof now.answer);
    mark();
    accepted(what, good(call));
    int kept = 1;
    for (int i = written; i < ANSWER_LEN; i++) {
        kept &= now.answer[1 + i] == 0x5a;
    }
    check(what, kept);
}

static void short_answers(void)
{
    start();
    answer_len = 2;
    refused("get, a byte short", good(GET), RATHNODI_BUFFER_SHORT);
    answer_len = 3;
    accepted("get, just room", good(GET));
    check("get wrote the data", memcmp(now.answer + 1, "xyz", 3) == 0);
    answer_len = 46;
    refused("list, a byte short", good(LIST), RATHNODI_BUFFER_SHORT);
    answer_len = 47;
    accepted("list, just room", good(LIST));
    answer_len = 15;
    refused("uploads, a byte short", good(UPLOADS), RATHNODI_BUFFER_SHORT);
    answer_len = 16;
    accepted("uploads, just room", good(UPLOADS));
    check("uploads wrote its record",
          memcmp(now.answer + 1, "\1\0\0\0\1r\7\0\0\0\0\0\0\0\1\0", 16) == 0);
    answer_len = 0;
    accepted("get of the root needs no room", rathnodi_get(STORE, BYTES(""), ANSWER, PAIRS_ANSWER, REPLY));
    accepted("a list of nothing needs no room",
             rathnodi_list(STORE, BYTES("\xff no path"), BYTES(""), ANSWER, REPLY));
    answer_len = ANSWER_LEN;
    rest_keeps("get, more room", GET, 3);
    rest_keeps("list, more room", LIST, 47);
    rest_keeps("uploads, more room", UPLOADS, 16);
}

/* delete_objects, over what is lent, has these results and leaves the rest of its answer. */
static void deleted(const char *what, const char *results)
{
    size_t count = strlen(results);
    memset(now.answer, 0x5a, sizeof now.answer);
    mark();
    accepted(what, good(DELETE_OBJECTS));
    int as_expected = count == places_len / 8;
    for (size_t i = 0; i < answer_len; i++) {
        as_expected &= now.answer[1 + i] == (i < count ? results[i] - '0' : 0x5a);
    }
    check(what, as_expected);
}

static void places(void)
{
    static uint8_t tables[sizeof now.tables], arena[sizeof now.arena];
    start();
    accepted("put", rathnodi_put(STORE, 5, BYTES("ab"), BYTES("12"), NO_PAIRS));
    accepted("put", rathnodi_put(STORE, 5, BYTES("b"), BYTES("1"), NO_PAIRS));
    memcpy(tables, now.tables, sizeof tables);
    memcpy(arena, now.arena, sizeof arena);

    lend_names(BYTES(""));
    deleted("no place", "");
    answer_len = 0;
    deleted("no place and no room", "");
    lend_place(0, 0);
    answer_len = 1;
    deleted("an empty name in no names", "2");

    answer_len = ANSWER_LEN;
    lend_names(BYTES("ab"));
    lend_place(0, 3);
    lend_place(1, 2);
    lend_place(2, 1);
    lend_place(3, 0);
    lend_place(UINT32_MAX, UINT32_MAX);
    lend_place(UINT32_MAX, 2);
    lend_place(UINT32_MAX, 1);
    lend_place(UINT32_MAX, 0);
    lend_place(0, UINT32_MAX);
    lend_place(1, UINT32_MAX);
    deleted("places outside the names", "2222222222");

    lend_names(BYTES("/a//b c\0\x7f"));
    lend_place(0, 2);
    lend_place(1, 4);
    lend_place(4, 3);
    lend_place(6, 2);
    lend_place(8, 1);
    lend_place(9, 0);
    lend_place(6, 1);
    deleted("bad names, then an absent one", "2222223");
    lend_names(BYTES("r"));
    lend_place(0, 1);
    deleted("an upload is no object", "3");
    check("nothing was deleted", memcmp(tables, now.tables, sizeof tables) == 0 &&
                                     memcmp(arena, now.arena, sizeof arena) == 0);

    lend_names(BYTES("ab"));
    lend_place(0, 1);
    lend_place(0, 3);
    lend_place(0, 2);
    lend_place(0, 1);
    lend_place(1, 1);
    answer_len = 5;
    deleted("places that overlap, to the end of the names, one listed twice", "02030");
    answer_len = 0;
    accepted("list of nothing left", good(LIST));
}

static void refused_places(void)
{
    start();
    lend_names(BYTES("a"));
    while (places_len < 8 * RATHNODI_PLACES_MAX) {
        lend_place(0, 1);
    }
    mark();
    answer_len = RATHNODI_PLACES_MAX - 1;
    refused("1,000 places, a byte short", good(DELETE_OBJECTS), RATHNODI_BUFFER_SHORT);
    answer_len = 0;
    refused("1,000 places, no room", good(DELETE_OBJECTS), RATHNODI_BUFFER_SHORT);
    for (size_t left_over = 1; left_over < 8; left_over++) {
        answer_len = left_over % 2 == 0 ? 0 : ROOM;
        places_len = left_over;
        refused("bytes left over alone", good(DELETE_OBJECTS), RATHNODI_BAD_REQUEST);
        places_len = 8 + left_over;
        refused("a place and bytes left over", good(DELETE_OBJECTS), RATHNODI_BAD_REQUEST);
        places_len = 8 * RATHNODI_PLACES_MAX + left_over;
        refused("1,000 places and bytes left over", good(DELETE_OBJECTS), RATHNODI_BAD_REQUEST);
        places_len += 8;
        refused("1,001 places and bytes left over", good(DELETE_OBJECTS), RATHNODI_TOO_MANY);
    }
    places_len = 8 * RATHNODI_PLACES_MAX;
    lend_place(0, 1);
    mark();
    answer_len = ROOM;
    refused("1,001 places", good(DELETE_OBJECTS), RATHNODI_TOO_MANY);
    answer_len = 0;
    refused("1,001 places, no room", good(DELETE_OBJECTS), RATHNODI_TOO_MANY);
    tables_len = RATHNODI_TABLES_LEN - 1;
    refused("tables too short are seen before 1,001 places", good(DELETE_OBJECTS), RATHNODI_NOT_A_STORE);
    tables_len = RATHNODI_TABLES_LEN;
    places_len = 8 * RATHNODI_PLACES_MAX;
    answer_len = RATHNODI_PLACES_MAX;
    accepted("1,000 places, just room", good(DELETE_OBJECTS));
    int as_expected = now.answer[1] == RATHNODI_OK;
    for (int i = 1; i < RATHNODI_PLACES_MAX; i++) {
        as_expected &= now.answer[1 + i] == RATHNODI_NOT_FOUND;
    }
    check("one name 1,000 times", as_expected);
}

/* The sweep aborts so many, says whether more are due, and leaves 0 in the rest of its reply. */
static void swept(const char *what, uint64_t stamp, uint32_t most, uint8_t count, uint8_t more)
{
    uint8_t expected[RATHNODI_REPLY_LEN] = {0};
    expected[RATHNODI_REPLY_RECORDS] = count;
    expected[RATHNODI_REPLY_MORE] = more;
    memset(now.reply, 0xa5, sizeof now.reply);
    mark();
    accepted(what, rathnodi_sweep(STORE, stamp, most, REPLY));
    check(what, memcmp(now.reply + 1, expected, sizeof expected) == 0);
}

/* The same, and it leaves the store as it was. */
static void swept_none(const char *what, uint64_t stamp, uint32_t most, uint8_t more)
{
    static uint8_t tables[sizeof now.tables], arena[sizeof now.arena];
    memcpy(tables, now.tables, sizeof tables);
    memcpy(arena, now.arena, sizeof arena);
    swept(what, stamp, most, 0, more);
    check(what, memcmp(tables, now.tables, sizeof tables) == 0 && memcmp(arena, now.arena, sizeof arena) == 0);
}

static void sweeps(void)
{
    struct rathnodi_reply reply;
    start();
    swept_none("none before stamp 1", 1, UINT32_MAX, 0);
    swept_none("one below the start", 6, 1, 0);
    swept_none("at the start", 7, 1, 0);
    swept_none("one above the start, at most 0", 8, 0, 1);
    accepted("initiate, younger", rathnodi_initiate(STORE, UINT64_MAX, BYTES("s"), NO_PAIRS, REPLY));
    accepted("initiate, older", rathnodi_initiate(STORE, 3, BYTES("t"), NO_PAIRS, REPLY));
    accepted("initiate, older", rathnodi_initiate(STORE, 5, BYTES("u"), NO_PAIRS, REPLY));
    swept("the lowest number, not the oldest", 8, 1, 1, 1);
    refused("part, swept", good(PART), RATHNODI_BAD_REQUEST);
    refused("commit, swept", good(COMMIT), RATHNODI_BAD_REQUEST);
    refused("abort, swept", good(ABORT), RATHNODI_BAD_REQUEST);
    swept_none("none older", 3, 2, 0);
    swept_none("some older, at most 0", UINT64_MAX, 0, 1);
    swept("as many as are due", UINT64_MAX, 2, 2, 0);
    refused("abort, swept", rathnodi_abort(STORE, 3), RATHNODI_BAD_REQUEST);
    refused("abort, swept", rathnodi_abort(STORE, 4), RATHNODI_BAD_REQUEST);
    swept_none("none before the last stamp", UINT64_MAX, UINT32_MAX, 0);
    accepted("initiate", rathnodi_initiate(STORE, 9, BYTES("r"), NO_PAIRS, REPLY));
    check("no number again", FIELD(uint32_t, RATHNODI_REPLY_UPLOAD) == 5);
    accepted("commit of a younger one", rathnodi_commit(STORE, 2, BYTES("")));
    swept("as many as there are", 10, UINT32_MAX, 1, 0);
    memcpy(&reply, now.reply + 1, sizeof reply);
    check("the struct", reply.records == 1 && reply.more == 0);
    accepted("get of an object", good(GET));
    check("its data", memcmp(now.answer + 1, "xyz", 3) == 0);
    for (uint32_t i = 0; i < RATHNODI_UPLOADS_MAX; i++) {
        accepted("initiate", good(INITIATE));
    }
    refused("initiate, table full", good(INITIATE), RATHNODI_TABLE_FULL);
    swept("all but one", 8, RATHNODI_UPLOADS_MAX - 1, RATHNODI_UPLOADS_MAX - 1, 1);
    memcpy(&reply, now.reply + 1, sizeof reply);
    check("the struct", reply.records == RATHNODI_UPLOADS_MAX - 1 && reply.more == 1);
    accepted("abort of the last", rathnodi_abort(STORE, 5 + RATHNODI_UPLOADS_MAX));
}

/* The flour lot before the baker, as they may be given, and as they are kept: 24 bytes of keys and values. */
#define GIVEN "\11flour-lot\6R-4711\5baker\4Ayla"
#define KEPT "\5baker\4Ayla\11flour-lot\6R-4711"

/* A store with nothing in it and much room. */
static void start_empty(void)
{
    start();
    arena_len = ROOM;
    accepted("fresh", good(FRESH));
}

/* Put and initiate refuse what is lent as pairs. */
static void bad_pairs(const char *what)
{
    refused(what, good(PUT), RATHNODI_BAD_REQUEST);
    refused(what, good(INITIATE), RATHNODI_BAD_REQUEST);
}

/* Put and initiate take what is lent as pairs. The object "a", and then that of the upload, has just these pairs. */
static void good_pairs(const char *what, uint16_t count, const uint8_t *pairs, uint16_t bytes)
{
    accepted(what, good(PUT));
    for (int turn = 0; turn < 2; turn++) {
        memset(now.pairs_answer, 0x5a, sizeof now.pairs_answer);
        mark();
        accepted(what, good(HEAD));
        int kept = 1;
        for (size_t i = bytes; i < pairs_answer_len; i++) {
            kept &= now.pairs_answer[1 + i] == 0x5a;
        }
        check(what, kept && memcmp(now.pairs_answer + 1, pairs, bytes) == 0 &&
                        FIELD(uint16_t, RATHNODI_REPLY_PAIRS) == count &&
                        FIELD(uint16_t, RATHNODI_REPLY_PAIRS_BYTES) == bytes);
        if (turn == 0) {
            accepted(what, rathnodi_initiate(STORE, 7, BYTES("a"), PAIRS, REPLY));
            accepted(what, rathnodi_commit(STORE, FIELD(uint32_t, RATHNODI_REPLY_UPLOAD), BYTES("")));
        }
    }
}

/* One pair with a key and a value of such lengths. */
static void lend_lengths(uint8_t key_len, uint8_t value_len)
{
    uint8_t bytes[2 + 255 + 255];
    memset(bytes, 'k', sizeof bytes);
    bytes[0] = key_len;
    bytes[1 + key_len] = value_len;
    lend_pairs(bytes, 2u + key_len + value_len);
}

static void forms_of_pairs(void)
{
    start_empty();
    for (unsigned byte = 0; byte < 256; byte++) {
        const uint8_t in_key[] = {2, 'k', (uint8_t)byte, 0}, in_value[] = {1, 'k', 2, 'v', (uint8_t)byte};
        lend_pairs(in_key, sizeof in_key);
        if ((byte >= 'a' && byte <= 'z') || (byte >= '0' && byte <= '9') || byte == '-') {
            good_pairs("a byte of a key", 1, in_key, sizeof in_key);
        } else {
            bad_pairs("no byte of a key");
        }
        lend_pairs(in_value, sizeof in_value);
        if (byte >= 32 && byte <= 126) {
            good_pairs("a byte of a value", 1, in_value, sizeof in_value);
        } else {
            bad_pairs("no byte of a value");
        }
        lend_lengths((uint8_t)byte, 1);
        if (byte >= 1 && byte <= RATHNODI_KEY_MAX) {
            good_pairs("a key's length", 1, before.pairs + 1, (uint16_t)pairs_len);
        } else {
            bad_pairs("no key's length");
        }
        lend_lengths(1, (uint8_t)byte);
        if (byte <= RATHNODI_VALUE_MAX) {
            good_pairs("a value's length", 1, before.pairs + 1, (uint16_t)pairs_len);
        } else {
            bad_pairs("no value's length");
        }
    }
    for (size_t len = 0; len < sizeof GIVEN; len++) {
        lend_pairs((const uint8_t *)GIVEN, len);
        if (len == 0) {
            good_pairs("no pairs", 0, now.pairs, 0);
        } else if (len == 17) {
            good_pairs("the first pair", 1, before.pairs + 1, 17);
        } else if (len == 28) {
            good_pairs("both pairs", 2, (const uint8_t *)KEPT, 28);
        } else {
            bad_pairs("pairs that are cut off");
        }
    }
    for (unsigned byte = 0; byte < 256; byte++) {
        const uint8_t left_over[] = {1, 'k', 1, 'v', (uint8_t)byte};
        lend_pairs(left_over, 5);
        bad_pairs("a byte left over");
        lend_pairs(left_over + 4, 1);
        bad_pairs("one byte");
    }
}

static void many_pairs(void)
{
    static const char *const keys[] = {"i", "h", "g", "f", "e", "d", "c", "b", "a"};
    static const uint8_t eight[] = "\1a\0\1b\0\1c\0\1d\0\1e\0\1f\0\1g\0\1h";
    static const char *const system[] = {"size", "created", "etag"};
    start_empty();
    for (int i = 1; i < 9; i++) {
        lend_pair(keys[i], "");
    }
    good_pairs("eight pairs", 8, eight, 24);
    for (int i = 0; i < 3; i++) {
        lend_pair(system[i], "any");
        good_pairs("eight pairs and a system key", 8, eight, 24);
        lend_pair(system[i], "");
        good_pairs("a system key twice", 8, eight, 24);
    }
    lend_pair(keys[0], "");
    bad_pairs("nine pairs");
    for (int i = 0; i < 3; i++) {
        pairs_len = 0;
        lend_pair(system[i], "any");
        good_pairs("a system key alone", 0, now.pairs, 0);
        lend_pair("k", "v");
        lend_pair(system[i], "\177");
        bad_pairs("a system key with a bad value");
    }
    pairs_len = 0;
    lend_pair("size", "");
    lend_pair("sizes", "");
    lend_pair("siz", "");
    good_pairs("much like a system key", 2, (const uint8_t *)"\3siz\0\5sizes", 12);
    lend_pair("siz", "v");
    bad_pairs("equal keys");
    pairs_len = 0;
    lend_pair("k", "v");
    lend_pair("k", "v");
    bad_pairs("equal pairs");

    pairs_len = 0;
    lend_pair("k", "v");
    refused("put at 0", rathnodi_put(STORE, 0, BYTES("a"), BYTES("xyz"), PAIRS), RATHNODI_BAD_REQUEST);
    refused("initiate to the root", rathnodi_initiate(STORE, 5, BYTES(""), PAIRS, REPLY), RATHNODI_BAD_REQUEST);
    lend_pair("K", "v");
    refused("bad pairs are seen before a full arena", rathnodi_put(STORE, 5, BYTES("b"), before.arena, ROOM + 1, PAIRS),
            RATHNODI_BAD_REQUEST);
    reply_len = RATHNODI_REPLY_LEN - 1;
    refused("a reply of another length is seen before bad pairs", good(INITIATE), RATHNODI_NOT_A_STORE);
    tables_len = RATHNODI_TABLES_LEN - 1;
    refused("tables too short are seen before bad pairs", good(PUT), RATHNODI_NOT_A_STORE);
}

/* The pairs' bytes count as held: 60 of 64 bytes are free, or 63 where the data of "a" are replaced. */
static void room_for_pairs(void)
{
    start();
    lend_lengths(1, 60);
    refused("initiate, a byte too many", good(INITIATE), RATHNODI_ARENA_FULL);
    refused("put, a byte too many",
            rathnodi_put(STORE, 5, BYTES("b"), BYTES(""), PAIRS), RATHNODI_ARENA_FULL);
    lend_lengths(1, 59);
    accepted("initiate, just room", good(INITIATE));
    refused("part, no room", rathnodi_part(STORE, 2, 1, BYTES("A"), REPLY), RATHNODI_ARENA_FULL);
    accepted("sweep", rathnodi_sweep(STORE, 8, 1, REPLY));
    accepted("part", rathnodi_part(STORE, 2, 1, BYTES("A"), REPLY));
    accepted("commit", rathnodi_commit(STORE, 2, BYTES("\1\0")));
    refused("copy, no room", rathnodi_copy(STORE, 6, BYTES("r"), BYTES("b")), RATHNODI_ARENA_FULL);
    refused("put, no room", rathnodi_put(STORE, 5, BYTES("b"), BYTES("x"), NO_PAIRS), RATHNODI_ARENA_FULL);
    accepted("copy onto itself", rathnodi_copy(STORE, 6, BYTES("r"), BYTES("r")));
    accepted("copy over the other", rathnodi_copy(STORE, 6, BYTES("a"), BYTES("r")));
    lend_lengths(1, 57);
    accepted("put, just room", rathnodi_put(STORE, 5, BYTES("r"), BYTES("xyz"), PAIRS));
}

/* The two answers are written together or not at all. */
static void second_answers(void)
{
    start();
    lend_pairs(BYTES(GIVEN));
    accepted("put", good(PUT));
    for (answer_len = 0; answer_len <= 4; answer_len++) {
        for (pairs_answer_len = 26; pairs_answer_len <= 29; pairs_answer_len++) {
            memset(now.answer, 0x5a, sizeof now.answer);
            memset(now.pairs_answer, 0x5a, sizeof now.pairs_answer);
            mark();
            if (answer_len < 3 || pairs_answer_len < 28) {
                refused("get, a buffer short", good(GET), RATHNODI_BUFFER_SHORT);
            } else {
                accepted("get, just room", good(GET));
                check("both are written", memcmp(now.answer + 1, "xyz", 3) == 0 &&
                                              memcmp(now.pairs_answer + 1, KEPT "\x5a", pairs_answer_len) == 0);
            }
        }
    }
    pairs_answer_len = 27;
    refused("head, a byte short", good(HEAD), RATHNODI_BUFFER_SHORT);
    pairs_answer_len = 0;
    refused("head, no room", good(HEAD), RATHNODI_BUFFER_SHORT);
    refused("head, not there", rathnodi_head(STORE, BYTES("b"), PAIRS_ANSWER, REPLY), RATHNODI_NOT_FOUND);
    accepted("head of the root needs no room", rathnodi_head(STORE, BYTES(""), PAIRS_ANSWER, REPLY));
    lend_pairs(BYTES(""));
    accepted("put without pairs", good(PUT));
    accepted("head without pairs needs no room", good(HEAD));
}

/* Carry_over writes the former tables to the front of the new ones, and nothing else. */
static void carried(const char *what)
{
    accepted(what, good(CARRY_OVER));
    check(what, memcmp(now.tables + 1, before.former + 1, former_len) == 0);
}

static void former_tables(void)
{
    const size_t former_lens[] = {0, 1, RATHNODI_FORMER_TABLES_LEN - 1, RATHNODI_FORMER_TABLES_LEN + 1,
                                  RATHNODI_TABLES_LEN};
    static uint8_t arena[sizeof now.arena];
    start();
    memcpy(arena, now.arena, sizeof arena);
    memset(now.tables, 0x5a, sizeof now.tables);
    mark();
    refused("head before", good(HEAD), RATHNODI_NOT_A_STORE);
    carried("former tables");
    int kept = memcmp(now.arena, arena, sizeof arena) == 0;
    for (size_t i = former_len; i < tables_len; i++) {
        kept &= now.tables[1 + i] == 0x5a;
    }
    check("the rest keeps", kept);
    carried("the same again");
    accepted("get", good(GET));
    check("its data", memcmp(now.answer + 1, "xyz", 3) == 0 && FIELD(uint16_t, RATHNODI_REPLY_PAIRS) == 0);
    accepted("commit of its upload", good(COMMIT));
    refused("a part to it", good(PART), RATHNODI_BAD_REQUEST);

    start();
    for (size_t i = 0; i < sizeof former_lens / sizeof *former_lens; i++) {
        former_len = former_lens[i];
        refused("former tables of another length", good(CARRY_OVER), RATHNODI_NOT_A_STORE);
    }
    former_len = RATHNODI_FORMER_TABLES_LEN;
    tables_len = RATHNODI_FORMER_TABLES_LEN;
    refused("new tables of the former length", good(CARRY_OVER), RATHNODI_NOT_A_STORE);
    tables_len = RATHNODI_TABLES_LEN;
    /* The header's length of the arena, N, counts; the kind and the size of the object. */
    const size_t fields[] = {0, 4, 12, 14, 16, 34, 18};
    for (size_t i = 0; i < sizeof fields / sizeof *fields; i++) {
        const uint8_t was = now.former[1 + fields[i]];
        now.former[1 + fields[i]] = (uint8_t)(fields[i] == 34 ? 4 : fields[i] == 4 ? 0 : 255);
        mark();
        refused("former tables that are no store", good(CARRY_OVER), RATHNODI_NOT_A_STORE);
        now.former[1 + fields[i]] = was;
        mark();
    }
    lend_pairs(BYTES(GIVEN));
    accepted("put", good(PUT));
    memcpy(now.former + 1, now.tables + 1, former_len);
    mark();
    refused("former tables with pairs", good(CARRY_OVER), RATHNODI_NOT_A_STORE);
    accepted("head", good(HEAD));
}

/* The reply's bytes, by offset and through the struct. */
static void replies(void)
{
    static const uint8_t of_xyz[16] = {0xd1, 0x6f, 0xb3, 0x6f, 0x09, 0x11, 0xf8, 0x78,
                                       0x99, 0x8c, 0x13, 0x61, 0x91, 0xaf, 0x70, 0x5e};
    struct rathnodi_reply reply;
    uint8_t expected[RATHNODI_REPLY_LEN];
    start();
    check("the tables' length", rathnodi_tables_len() == RATHNODI_TABLES_LEN);

    accepted("head", good(HEAD));
    memset(expected, 0, sizeof expected);
    expected[RATHNODI_REPLY_CREATED] = 5;
    expected[RATHNODI_REPLY_LENGTH] = 3;
    expected[RATHNODI_REPLY_ETAG_KIND] = RATHNODI_ETAG_PLAIN;
    memcpy(expected + RATHNODI_REPLY_ETAG_DIGEST, of_xyz, 16);
    check("head's reply", memcmp(now.reply + 1, expected, sizeof expected) == 0);
    memcpy(&reply, now.reply + 1, sizeof reply);
    check("the struct", reply.created == 5 && reply.length == 3 && reply.etag_kind == RATHNODI_ETAG_PLAIN &&
                            reply.etag_count == 0 && memcmp(reply.etag_digest, of_xyz, 16) == 0);

    accepted("part", rathnodi_part(STORE, 1, 2, BYTES("xyz"), REPLY));
    expected[RATHNODI_REPLY_CREATED] = 0;
    expected[RATHNODI_REPLY_LENGTH] = 0;
    check("part's reply", memcmp(now.reply + 1, expected, sizeof expected) == 0);

    memset(expected, 0, sizeof expected);
    expected[RATHNODI_REPLY_UPLOAD] = 2;
    accepted("initiate", good(INITIATE));
    check("initiate's reply", memcmp(now.reply + 1, expected, sizeof expected) == 0);

    expected[RATHNODI_REPLY_UPLOAD] = 0;
    expected[RATHNODI_REPLY_RECORDS] = 1;
    expected[RATHNODI_REPLY_BYTES] = 47;
    accepted("list", good(LIST));
    check("list's reply", memcmp(now.reply + 1, expected, sizeof expected) == 0);

    expected[RATHNODI_REPLY_RECORDS] = 2;
    expected[RATHNODI_REPLY_BYTES] = 32;
    accepted("uploads", good(UPLOADS));
    check("uploads' reply", memcmp(now.reply + 1, expected, sizeof expected) == 0);

    memset(expected, 0, sizeof expected);
    accepted("head of the root", rathnodi_head(STORE, BYTES(""), PAIRS_ANSWER, REPLY));
    check("the root's reply", memcmp(now.reply + 1, expected, sizeof expected) == 0);

    accepted("commit", rathnodi_commit(STORE, 1, BYTES("\2\0\1\0")));
    accepted("head of a joined object", rathnodi_head(STORE, BYTES("r"), PAIRS_ANSWER, REPLY));
    check("a joined object's reply", FIELD(uint64_t, RATHNODI_REPLY_CREATED) == 7 &&
                                         FIELD(uint32_t, RATHNODI_REPLY_LENGTH) == 4 &&
                                         FIELD(uint8_t, RATHNODI_REPLY_ETAG_KIND) == RATHNODI_ETAG_JOINED &&
                                         FIELD(uint16_t, RATHNODI_REPLY_ETAG_COUNT) == 2);

    lend_pairs(BYTES(GIVEN));
    accepted("put with pairs", good(PUT));
    accepted("head", good(HEAD));
    memset(expected, 0, sizeof expected);
    expected[RATHNODI_REPLY_CREATED] = 5;
    expected[RATHNODI_REPLY_LENGTH] = 3;
    expected[RATHNODI_REPLY_ETAG_KIND] = RATHNODI_ETAG_PLAIN;
    memcpy(expected + RATHNODI_REPLY_ETAG_DIGEST, of_xyz, 16);
    expected[RATHNODI_REPLY_PAIRS] = 2;
    expected[RATHNODI_REPLY_PAIRS_BYTES] = 28;
    check("head's reply with pairs", memcmp(now.reply + 1, expected, sizeof expected) == 0);
    memcpy(&reply, now.reply + 1, sizeof reply);
    check("the struct", reply.pairs == 2 && reply.pairs_bytes == 28);
    accepted("get", good(GET));
    check("get's reply with pairs", memcmp(now.reply + 1, expected, sizeof expected) == 0);
}

/* Slices that a call only reads may be one and the same. */
static void shared_arguments(void)
{
    static const uint8_t both[] = {'p', 'a', 't', 'h'};
    start();
    accepted("put, the path as data", rathnodi_put(STORE, 5, both, 4, both, 4, both, 0));
    accepted("copy onto itself", rathnodi_copy(STORE, 6, both, 4, both, 4));
    accepted("get", rathnodi_get(STORE, both, 4, ANSWER, PAIRS_ANSWER, REPLY));
    check("the path is the data", memcmp(now.answer + 1, both, 4) == 0);
    static const uint8_t place[] = {8, 0, 0, 0, 1, 0, 0, 0, 'a'};
    accepted("delete_objects, names with the places in them",
             rathnodi_delete_objects(STORE, place, sizeof place, place, 8, ANSWER));
    check("the name after the place", now.answer[1] == RATHNODI_OK);
    static const uint8_t pair[] = {1, 'k', 1, 'v'};
    accepted("put, the pairs as data, the key as path",
             rathnodi_put(STORE, 5, pair + 1, 1, pair, sizeof pair, pair, sizeof pair));
    accepted("get", rathnodi_get(STORE, pair + 1, 1, ANSWER, PAIRS_ANSWER, REPLY));
    check("the pairs are the data", memcmp(now.answer + 1, pair, 4) == 0 && memcmp(now.pairs_answer + 1, pair, 4) == 0);
}

/* Part 11000 of upload 1, as a store from before version 3 can hold it: its row is the first after the upload's, of 37
 * bytes, and has its number 4 bytes in (docs/LAYOUT.md). */
static void lend_older_part(void)
{
    uint8_t *number = now.tables + 1 + 18 + 37 + 4;
    start_empty();
    accepted("initiate", good(INITIATE));
    accepted("part 10000", rathnodi_part(STORE, 1, RATHNODI_PART_MAX, BYTES("A"), REPLY));
    check("its number", number[0] == (10000 & 255) && number[1] == 10000 >> 8 && number[2] == 0 && number[3] == 0);
    number[0] = 11000 & 255;
    number[1] = 11000 >> 8;
    mark();
}

static void older_parts(void)
{
    static const uint8_t of_10000[] = {10000 & 255, 10000 >> 8}, of_11000[] = {11000 & 255, 11000 >> 8};
    lend_older_part();
    accepted("uploads, part 11000 there", good(UPLOADS));
    check("part 11000 is counted", now.answer[1 + 14] == 1 && now.answer[1 + 15] == 0);
    mark();
    refused("part 11000, which is there", rathnodi_part(STORE, 1, 11000, BYTES("B"), REPLY), RATHNODI_BAD_REQUEST);
    refused("commit, part 10000 for 11000", rathnodi_commit(STORE, 1, of_10000, 2), RATHNODI_BAD_REQUEST);
    accepted("commit, part 11000", rathnodi_commit(STORE, 1, of_11000, 2));
    accepted("get, what part 11000 was", rathnodi_get(STORE, BYTES("r"), ANSWER, PAIRS_ANSWER, REPLY));
    check("its data", FIELD(uint32_t, 8) == 1 && now.answer[1] == 'A');
    lend_older_part();
    accepted("abort, part 11000 there", good(ABORT));
    refused("abort, gone", good(ABORT), RATHNODI_BAD_REQUEST);
}

static uint32_t replay(const char *line, size_t len)
{
    return rathnodi_replay_line(STORE, (const uint8_t *)line, len, ANSWER, PAIRS_ANSWER, REPLY);
}

/* Whether every byte of the reply is 0. */
static int no_reply(void)
{
    int sum = 0;
    for (size_t i = 0; i < reply_len; i++) {
        sum |= now.reply[1 + i];
    }
    return sum == 0;
}

#define REPLAY(line) replay(line, sizeof(line) - 1)

/* Lines that are no forms, beside those that are: 9 leaves every byte, and the next line is as it would be. */
static void lines(void)
{
    static const struct {
        const char *text;
        size_t len;
    } no_forms[] = {
#define LINE(text) {text, sizeof(text) - 1}
        LINE(""), LINE("\n"), LINE("\0"), LINE("()"), LINE("(get \"61\""), LINE("get \"61\""), LINE("(get \"61\")\n"),
        LINE("(get \"61\")\r"), LINE("(get \"61\") "), LINE(" (get \"61\")"), LINE("(get \"61\"))"),
        LINE("(get \"61\")\0"), LINE("(get  \"61\")"), LINE("(get\t\"61\")"), LINE("(get \"61\" )"), LINE("(get 61)"),
        LINE("(get \"6A\")"), LINE("(get \"6\")"), LINE("(get \"611\")"), LINE("(GET \"61\")"), LINE("(got \"61\")"),
        LINE("(get \"61\" (\"6b\" \"76\"))"), LINE("(put 05 \"61\" \"\")"), LINE("(put 00 \"61\" \"\")"),
        LINE("(put 18446744073709551616 \"61\" \"\")"), LINE("(put -5 \"61\" \"\")"), LINE("(put 5 \"61\")"),
        LINE("(put 5 \"61\" \"\" ())"), LINE("(put 5 \"61\" \"\" (\"6b\"))"), LINE("(commit 1 (1 ))"),
        LINE("(commit 1 ( ))"), LINE("(commit 1 (01))"), LINE("(commit 1 1)"), LINE("(commit 1)"), LINE("(sweep 8 1)"),
        LINE("(fresh)"), LINE("(get \"61\")(get \"61\")"), LINE("(get \"61\")\n(get \"61\")"),
#undef LINE
    };
    start();
    for (size_t i = 0; i < sizeof no_forms / sizeof *no_forms; i++) {
        refused(no_forms[i].text, replay(no_forms[i].text, no_forms[i].len), RATHNODI_NOT_A_LINE);
    }
    accepted("a line after lines that are none", good(REPLAY_LINE));
    check("what it read", FIELD(uint32_t, RATHNODI_REPLY_LENGTH) == 3 && memcmp(now.answer + 1, "xyz", 3) == 0);
    accepted("part", REPLAY("(part 1 2 \"42\")"));
    check("part's reply", now.reply[1 + RATHNODI_REPLY_ETAG_KIND] == RATHNODI_ETAG_PLAIN);
    refused("an upload number that is too wide", REPLAY("(part 4294967297 1 \"\")"), RATHNODI_BAD_REQUEST);
    refused("a part number that is too wide", REPLAY("(part 1 65537 \"\")"), RATHNODI_BAD_REQUEST);
    refused("a listed number that is too wide", REPLAY("(commit 1 (65537 2))"), RATHNODI_BAD_REQUEST);
    refused("a list that names too few", REPLAY("(commit 1 (2))"), RATHNODI_BAD_REQUEST);
    refused("no parts", REPLAY("(commit 1 ())"), RATHNODI_BAD_REQUEST);
    accepted("commit", REPLAY("(commit 1 (2 1))"));
    check("no reply of commit", no_reply());
    refused("a bad path", REPLAY("(get \"2f\")"), RATHNODI_BAD_REQUEST);
    refused("no such path", REPLAY("(get \"62\")"), RATHNODI_NOT_FOUND);
    refused("stamp 0", REPLAY("(put 0 \"61\" \"\")"), RATHNODI_BAD_REQUEST);
    accepted("the last stamp, no data, a pair", REPLAY("(put 18446744073709551615 \"61\" \"\" (\"6b\" \"76\"))"));
    check("no reply of put", no_reply());
    accepted("head", REPLAY("(head \"61\")"));
    check("the stamp and the pair", FIELD(uint64_t, RATHNODI_REPLY_CREATED) == UINT64_MAX &&
                                        FIELD(uint16_t, RATHNODI_REPLY_PAIRS_BYTES) == 4 &&
                                        memcmp(now.pairs_answer + 1, "\1k\1v", 4) == 0);
    accepted("get of the root", REPLAY("(get \"\")"));
    answer_len = 1;
    refused("a short answer", REPLAY("(get \"72\")"), RATHNODI_BUFFER_SHORT);
    pairs_answer_len = 3;
    refused("a short second answer", REPLAY("(head \"61\")"), RATHNODI_BUFFER_SHORT);
    now.tables[1 + 4] = 0;
    mark();
    refused("no store, before no line", REPLAY("(get"), RATHNODI_NOT_A_STORE);
}

/* Lines of 4,096 bytes and of 4,097, and keys that are too long for a byte. */
static void long_lines(void)
{
    static uint8_t line[RATHNODI_LINE_MAX + 2];
    static uint8_t data[2100];
    start();
    size_t len = rathnodi_line_get(line, sizeof line, data, 2044);
    check("a line of 4,096 bytes and a line feed", len == RATHNODI_LINE_MAX + 1);
    refused("4,096 bytes", replay((char *)line, len - 1), RATHNODI_BAD_REQUEST);
    refused("4,097 bytes", replay((char *)line, len), RATHNODI_NOT_A_LINE);
    line[RATHNODI_LINE_MAX - 2] = '0';
    line[RATHNODI_LINE_MAX - 1] = '"';
    line[RATHNODI_LINE_MAX] = ')';
    refused("an odd digit more", replay((char *)line, RATHNODI_LINE_MAX + 1), RATHNODI_NOT_A_LINE);
    for (size_t len_of_key = 254; len_of_key <= 257; len_of_key++) {
        char text[1024];
        int at = snprintf(text, sizeof text, "(initiate 5 \"61\" (\"");
        for (size_t i = 0; i < len_of_key; i++) {
            at += snprintf(text + at, sizeof text - (size_t)at, "6b");
        }
        at += snprintf(text + at, sizeof text - (size_t)at, "\" \"\"))");
        refused("a long key", replay(text, (size_t)at), RATHNODI_BAD_REQUEST);
    }
    accepted("a line after them", good(REPLAY_LINE));
}

int main(void)
{
    wrong_lengths();
    no_store();
    bad_arguments();
    short_answers();
    places();
    refused_places();
    sweeps();
    forms_of_pairs();
    many_pairs();
    room_for_pairs();
    second_answers();
    former_tables();
    older_parts();
    replies();
    shared_arguments();
    lines();
    long_lines();
    return counted("edges");
}
