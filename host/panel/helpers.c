/*
 * The header's own functions: the text of a result, part lists, places, pairs, and the readers of records. These read
 * answers that are cut at every length and answers of any bytes, each right before a page that may not be touched. The
 * last line counts.
 */
#define _DEFAULT_SOURCE
#include <string.h>
#include <sys/mman.h>
#include <unistd.h>

#include "check.h"
#include "rathnodi.h"

enum { ROOM = 4096 };

static uint8_t tables[RATHNODI_TABLES_LEN], arena[64], answer[ROOM];
static struct rathnodi_reply reply;

#define STORE tables, sizeof tables, arena, sizeof arena
#define REPLY (uint8_t *)&reply, sizeof reply
#define BYTES(text) (const uint8_t *)(text), sizeof(text) - 1

/* So many bytes, copied to where the last of them stands before a page that may not be touched. */
static const uint8_t *before_guard(const uint8_t *bytes, size_t count)
{
    static uint8_t *guard;
    if (guard == NULL) {
        size_t page = (size_t)sysconf(_SC_PAGESIZE);
        uint8_t *room = mmap(NULL, ROOM + page, PROT_READ | PROT_WRITE, MAP_PRIVATE | MAP_ANONYMOUS, -1, 0);
        if (room == MAP_FAILED || ROOM % page != 0 || mprotect(room + ROOM, page, PROT_NONE) != 0) {
            perror("a page that may not be touched");
            _exit(1);
        }
        guard = room + ROOM;
    }
    return memcpy(guard - count, bytes, count);
}

static int same(const void *bytes, size_t count, const char *text)
{
    return count == strlen(text) && memcmp(bytes, text, count) == 0;
}

static void result_texts(void)
{
    static const char *const texts[] = {"ok",         "not a store", "bad request",     "not found",
                                        "table full", "arena full",  "numbers used up", "buffer short",
                                        "too many",   "not a line"};
    for (uint32_t result = 0; result < 10; result++) {
        check("a result's text", strcmp(rathnodi_result_text(result), texts[result]) == 0);
    }
    check("no result", strcmp(rathnodi_result_text(10), "unknown result") == 0);
    check("no result", strcmp(rathnodi_result_text(UINT32_MAX), "unknown result") == 0);
}

static void places(void)
{
    uint8_t list[24], before[24];
    memset(before, 0xa5, sizeof before);
    memcpy(list, before, sizeof list);
    rathnodi_place_set(list, 1, 0x01020304, 0xfffefdfc);
    check("a place, low byte first", memcmp(list + 8, "\4\3\2\1\xfc\xfd\xfe\xff", 8) == 0);
    check("the places beside it", memcmp(list, before, 8) == 0 && memcmp(list + 16, before, 8) == 0);
    rathnodi_place_set(list, 0, 0, 1);
    rathnodi_place_set(list, 1, 1, 2);
    check("the first places", memcmp(list, "\0\0\0\0\1\0\0\0\1\0\0\0\2\0\0\0", 16) == 0);
}

/* Objects "a", plain, with two pairs, and "joined", of parts 300 and 2; uploads 2 to "r" without a part and 3 to
 * "scale/3" with one. */
static void start(void)
{
    uint8_t list[4];
    rathnodi_part_list_set(list, 0, 300);
    rathnodi_part_list_set(list, 1, 2);
    check("a part list, low byte first", memcmp(list, "\x2c\1\2\0", 4) == 0);
    uint32_t refusals = rathnodi_fresh(STORE);
    refusals += rathnodi_put(STORE, 0x0102030405060708, BYTES("a"), BYTES("xyz"), BYTES("\4lot2\0\3lot\2R7"));
    refusals += rathnodi_initiate(STORE, 6, BYTES("joined"), BYTES(""), REPLY);
    refusals += rathnodi_part(STORE, 1, 2, BYTES("A"), REPLY);
    refusals += rathnodi_part(STORE, 1, 300, BYTES("B"), REPLY);
    refusals += rathnodi_commit(STORE, 1, list, sizeof list);
    refusals += rathnodi_initiate(STORE, 7, BYTES("r"), BYTES(""), REPLY);
    refusals += rathnodi_initiate(STORE, 8, BYTES("scale/3"), BYTES(""), REPLY);
    refusals += rathnodi_part(STORE, 3, 1, BYTES("C"), REPLY);
    check("the store to list", refusals == 0);
}

static void list_records(void)
{
    struct rathnodi_list_record record, kept;
    size_t at = 0;
    check("list", rathnodi_list(STORE, BYTES(""), BYTES(""), answer, sizeof answer, REPLY) == RATHNODI_OK);
    check("the first object", rathnodi_list_next(answer, reply.bytes, &at, &record) && at == 47 &&
                                  same(record.path, record.path_len, "a") && record.length == 3 &&
                                  record.created == 0x0102030405060708 &&
                                  same(record.etag, record.etag_len, "d16fb36f0911f878998c136191af705e"));
    check("the second object", rathnodi_list_next(answer, reply.bytes, &at, &record) && at == reply.bytes &&
                                   same(record.path, record.path_len, "joined") && record.length == 2 &&
                                   record.created == 6 &&
                                   same(record.etag, record.etag_len, "e010117c9617553bf0b9556c0f5b541f-2"));
    for (size_t bytes = 0; bytes <= reply.bytes; bytes++) {
        const uint8_t *cut = before_guard(answer, bytes);
        int records = 0;
        at = 0;
        while (rathnodi_list_next(cut, bytes, &at, &record)) {
            records++;
        }
        check("a list that is cut", records == (bytes >= 47) + (bytes == reply.bytes) &&
                                        at == (bytes == reply.bytes ? bytes : bytes >= 47 ? 47u : 0u));
    }
    memset(&record, 0x5a, sizeof record);
    kept = record;
    check("past the end", !rathnodi_list_next(answer, reply.bytes, &(size_t){reply.bytes + 1}, &record) &&
                              memcmp(&record, &kept, sizeof record) == 0);
}

static void uploads_records(void)
{
    struct rathnodi_uploads_record record, kept;
    size_t at = 0;
    check("uploads", rathnodi_uploads(STORE, BYTES(""), answer, sizeof answer, REPLY) == RATHNODI_OK);
    check("the first upload", rathnodi_uploads_next(answer, reply.bytes, &at, &record) && at == 16 &&
                                  record.upload == 2 && same(record.path, record.path_len, "r") &&
                                  record.started == 7 && record.parts == 0);
    check("the second upload", rathnodi_uploads_next(answer, reply.bytes, &at, &record) && at == reply.bytes &&
                                   record.upload == 3 && same(record.path, record.path_len, "scale/3") &&
                                   record.started == 8 && record.parts == 1);
    for (size_t bytes = 0; bytes <= reply.bytes; bytes++) {
        const uint8_t *cut = before_guard(answer, bytes);
        int records = 0;
        at = 0;
        while (rathnodi_uploads_next(cut, bytes, &at, &record)) {
            records++;
        }
        check("uploads that are cut", records == (bytes >= 16) + (bytes == reply.bytes) &&
                                          at == (bytes == reply.bytes ? bytes : bytes >= 16 ? 16u : 0u));
    }
    memset(&record, 0x5a, sizeof record);
    kept = record;
    check("past the end", !rathnodi_uploads_next(answer, reply.bytes, &(size_t){reply.bytes + 1}, &record) &&
                              memcmp(&record, &kept, sizeof record) == 0);
}

static void pairs(void)
{
    struct rathnodi_pair pair, kept;
    size_t at = 0;
    check("head", rathnodi_head(STORE, BYTES("a"), answer, sizeof answer, REPLY) == RATHNODI_OK &&
                      reply.pairs == 2 && reply.pairs_bytes == 13);
    check("the first pair", rathnodi_pairs_next(answer, reply.pairs_bytes, &at, &pair) && at == 7 &&
                                same(pair.key, pair.key_len, "lot") && same(pair.value, pair.value_len, "R7"));
    check("the second pair", rathnodi_pairs_next(answer, reply.pairs_bytes, &at, &pair) && at == 13 &&
                                 same(pair.key, pair.key_len, "lot2") && pair.value_len == 0);
    for (size_t bytes = 0; bytes <= 13; bytes++) {
        const uint8_t *cut = before_guard(answer, bytes);
        int count = 0;
        at = 0;
        while (rathnodi_pairs_next(cut, bytes, &at, &pair)) {
            count++;
        }
        check("pairs that are cut", count == (bytes >= 7) + (bytes == 13) &&
                                        at == (bytes == 13 ? bytes : bytes >= 7 ? 7u : 0u));
    }
    memset(&pair, 0x5a, sizeof pair);
    kept = pair;
    check("past the end",
          !rathnodi_pairs_next(answer, 13, &(size_t){14}, &pair) && memcmp(&pair, &kept, sizeof pair) == 0);
}

/* Pairs are added up to the last byte of room, each whole or not at all. */
static void pairs_added(void)
{
    static uint8_t bytes[1024], before[sizeof bytes], long_text[256];
    size_t at = 0;
    memset(long_text, 'v', sizeof long_text);
    memset(bytes, 0xa5, sizeof bytes);
    memcpy(before, bytes, sizeof before);
    check("a pair", rathnodi_pairs_add(bytes, 13, &at, BYTES("lot"), BYTES("R7")) && at == 7 &&
                        memcmp(bytes, "\3lot\2R7", 7) == 0);
    memcpy(before, bytes, 7);
    check("a byte short", !rathnodi_pairs_add(bytes, 12, &at, BYTES("lot2"), BYTES("")) && at == 7 &&
                              memcmp(bytes, before, sizeof bytes) == 0);
    check("past the room", !rathnodi_pairs_add(bytes, 6, &at, BYTES(""), BYTES("")) && at == 7 &&
                               memcmp(bytes, before, sizeof bytes) == 0);
    check("just room", rathnodi_pairs_add(bytes, 13, &at, BYTES("lot2"), BYTES("")) && at == 13 &&
                           memcmp(bytes, "\3lot\2R7\4lot2", 13) == 0 && bytes[13] == 0xa5);
    check("no room", !rathnodi_pairs_add(bytes, 13, &at, BYTES(""), BYTES("")) && at == 13);
    memcpy(before, bytes, sizeof before);
    check("a key of 256 bytes", !rathnodi_pairs_add(bytes, sizeof bytes, &at, long_text, 256, BYTES("")) && at == 13 &&
                                    memcmp(bytes, before, sizeof bytes) == 0);
    check("a value of 256 bytes", !rathnodi_pairs_add(bytes, sizeof bytes, &at, BYTES("k"), long_text, 256) &&
                                      at == 13 && memcmp(bytes, before, sizeof bytes) == 0);
    check("the longest lengths", rathnodi_pairs_add(bytes, sizeof bytes, &at, long_text, 255, long_text, 255) &&
                                     at == 13 + 512 && bytes[13] == 255 && bytes[13 + 256] == 255 &&
                                     memcmp(bytes + 13 + 257, long_text, 255) == 0 && bytes[13 + 512] == 0xa5);
    struct rathnodi_pair pair;
    size_t from = 13;
    check("read again", rathnodi_pairs_next(bytes, at, &from, &pair) && from == at && pair.key_len == 255 &&
                            pair.value_len == 255 && pair.value == bytes + 13 + 257);
}

/* Over bytes that no call wrote the readers end, inside them. */
static void any_bytes(void)
{
    uint32_t draw = 1;
    for (int turn = 0; turn < 2000; turn++) {
        size_t bytes = (size_t)turn % 700;
        for (size_t i = 0; i < bytes; i++) {
            draw = draw * 1664525 + 1013904223;
            answer[i] = (uint8_t)(turn % 3 == 0 ? 255 : turn % 3 == 1 ? draw >> 24 : draw >> 28);
        }
        const uint8_t *any = before_guard(answer, bytes);
        struct rathnodi_list_record listed;
        struct rathnodi_uploads_record upload;
        size_t at = 0;
        int inside = 1;
        while (rathnodi_list_next(any, bytes, &at, &listed)) {
            inside &= at <= bytes && (const uint8_t *)listed.etag + listed.etag_len == any + at;
        }
        at = 0;
        while (rathnodi_uploads_next(any, bytes, &at, &upload)) {
            inside &= at <= bytes && upload.path + upload.path_len + 10 == any + at;
        }
        at = 0;
        struct rathnodi_pair pair;
        while (rathnodi_pairs_next(any, bytes, &at, &pair)) {
            inside &= at <= bytes && pair.value + pair.value_len == any + at;
        }
        check("any bytes", inside);
    }
}

int main(void)
{
    result_texts();
    places();
    start();
    list_records();
    uploads_records();
    pairs();
    pairs_added();
    any_bytes();
    return counted("helpers");
}
