/*
 * Writes a save with what a store can hold at the edges of its rules, by the library that it is linked with: version 1.1
 * (paths of ASCII), 1.2 (paths in UTF-8) or 2.0 (pairs), each of which takes part numbers to 11,000. README.md has the
 * format and how to run it.
 */
#include <stdio.h>
#include <stdlib.h>
#include <string.h>

#include "rathnodi.h"

#define UTF8 (RATHNODI_VERSION_MAJOR > 1 || RATHNODI_VERSION_MINOR >= 2)
#define PAIRS (RATHNODI_VERSION_MAJOR >= 2)
#define BYTES(text) (const uint8_t *)(text), sizeof(text) - 1
#define STORE tables, sizeof tables, arena, sizeof arena

static uint8_t tables[RATHNODI_TABLES_LEN], arena[4096], answer[16384];
static uint8_t every_byte[256], mixed[128], folder[128];
static struct rathnodi_reply reply;
#if PAIRS
static uint8_t pairs[1024];
static size_t pairs_len;
#endif

static void need(const char *what, int holds)
{
    if (!holds) {
        fprintf(stderr, "write_save: %s\n", what);
        exit(1);
    }
}

/* Put and initiate with the pairs that are lent, by a library that takes some. */
static void put(uint64_t stamp, const uint8_t *path, size_t path_len, const uint8_t *data, size_t data_len)
{
#if PAIRS
    need("put", rathnodi_put(STORE, stamp, path, path_len, data, data_len, pairs, pairs_len) == RATHNODI_OK);
#else
    need("put", rathnodi_put(STORE, stamp, path, path_len, data, data_len) == RATHNODI_OK);
#endif
}

static void initiate(uint32_t number, uint64_t stamp, const uint8_t *path, size_t path_len)
{
#if PAIRS
    uint32_t result =
        rathnodi_initiate(STORE, stamp, path, path_len, pairs, pairs_len, (uint8_t *)&reply, sizeof reply);
#else
    uint32_t result = rathnodi_initiate(STORE, stamp, path, path_len, (uint8_t *)&reply, sizeof reply);
#endif
    need("initiate", result == RATHNODI_OK && reply.upload == number);
}

static void part(uint32_t upload, uint16_t number, const uint8_t *data, size_t data_len)
{
    need("part", rathnodi_part(STORE, upload, number, data, data_len, (uint8_t *)&reply, sizeof reply) == RATHNODI_OK);
}

static void commit(uint32_t upload, const uint8_t *part_list, size_t part_list_len)
{
    need("commit", rathnodi_commit(STORE, upload, part_list, part_list_len) == RATHNODI_OK);
}

/* Paths of 1 and 128 bytes, of the bytes 33 and 126, with "/" last; the least and the greatest stamp; no data, and every
 * byte; joined of three parts and of none; copied; deleted. */
static void objects(void)
{
    put(1, BYTES("!"), BYTES(""));
    put(UINT64_MAX, BYTES("~"), BYTES("x"));
    put(UINT64_MAX, mixed, sizeof mixed, every_byte, sizeof every_byte);
    put(1, folder, sizeof folder, BYTES(""));
    put(5, BYTES("recipe/"), BYTES("rye flour 60 kg"));
    put(5, BYTES("gone"), BYTES("deleted"));
    initiate(1, 7, BYTES("joined/three"));
    part(1, 1, BYTES("one "));
    part(1, 10000, BYTES("ten thousand "));
    part(1, 11000, BYTES("eleven thousand "));
    commit(1, BYTES("\xf8\x2a\1\0\x10\x27"));
    initiate(2, UINT64_MAX, BYTES("joined/none"));
    commit(2, BYTES(""));
    need("copy", rathnodi_copy(STORE, 9, BYTES("joined/three"), BYTES("copy")) == RATHNODI_OK);
    need("delete", rathnodi_delete(STORE, BYTES("gone")) == RATHNODI_OK);
}

/* Upload 3 is aborted, and so is 7, the last; 4 has parts 1, 10,000, 10,001 and 11,000, 5 has none, 6 has 11,000. */
static void uploads(void)
{
    initiate(3, 7, BYTES("aborted"));
    part(3, 11000, every_byte, sizeof every_byte);
    initiate(4, 1, mixed, sizeof mixed);
    part(4, 11000, every_byte, sizeof every_byte);
    part(4, 10001, BYTES("10001"));
    part(4, 10000, BYTES(""));
    part(4, 1, BYTES("1"));
    need("abort", rathnodi_abort(STORE, 3) == RATHNODI_OK);
    initiate(5, UINT64_MAX, BYTES("!"));
    initiate(6, 5, BYTES("recipe/"));
    part(6, 11000, BYTES("last"));
    initiate(7, 5, BYTES("recipe/"));
    part(7, 1, BYTES("aborted"));
    need("abort", rathnodi_abort(STORE, 7) == RATHNODI_OK);
}

#if UTF8
/* Characters of 2, 3 and 4 bytes at the ends of their ranges, and a path of 128 bytes of such. */
static void letters(void)
{
    uint8_t pretzels[128];
    for (size_t i = 0; i < sizeof pretzels; i += 4) {
        memcpy(pretzels + i, "\xf0\x9f\xa5\xa8", 4);
    }
    put(6, BYTES("\xc2\xa0"), BYTES("U+00A0"));
    put(6, BYTES("\xdf\xbf/\xe0\xa0\x80"), BYTES("U+07FF, U+0800"));
    put(6, BYTES("\xed\x9f\xbf\xee\x80\x80"), BYTES("U+D7FF, U+E000"));
    put(6, BYTES("\xef\xbf\xbf\xf0\x90\x80\x80"), BYTES("U+FFFF, U+10000"));
    put(6, BYTES("\xf4\x8f\xbf\xbf/"), BYTES("U+10FFFF"));
    put(6, pretzels, sizeof pretzels, BYTES("U+1F968"));
    initiate(8, 6, BYTES("K\xc3\xa4sestange"));
    part(8, 10001, BYTES("cheese"));
}
#endif

#if PAIRS
static void lend(const uint8_t *key, size_t key_len, const uint8_t *value, size_t value_len)
{
    need("a pair", rathnodi_pairs_add(pairs, sizeof pairs, &pairs_len, key, key_len, value, value_len));
}

/* Eight of the longest pairs, given in descending order, and a short one beside a key of the store's own. */
static void with_pairs(void)
{
    uint8_t key[RATHNODI_KEY_MAX], value[RATHNODI_VALUE_MAX];
    for (int letter = 'h'; letter >= 'a'; letter--) {
        memset(key, letter, sizeof key);
        memset(value, letter % 2 == 0 ? '~' : ' ', sizeof value);
        lend(key, sizeof key, value, sizeof value);
    }
    put(8, BYTES("pairs/eight"), BYTES("x"));
    initiate(9, 8, BYTES("pairs/upload"));
    part(9, 10001, BYTES("after "));
    part(9, 10000, BYTES("before "));
    pairs_len = 0;
    lend(BYTES("size"), BYTES("dropped"));
    lend(BYTES("k"), BYTES(""));
    put(8, BYTES("pairs/one"), BYTES(""));
    initiate(10, 8, BYTES("pairs/joined"));
    part(10, 11000, BYTES("joined"));
    commit(10, BYTES("\xf8\x2a"));
    pairs_len = 0;
    put(8, BYTES("pairs/none"), BYTES("y"));
}
#endif

/* A section: its name, its length, how many bytes there are up to the last that is not 0, and these. */
static void section(const char *name, const uint8_t *bytes, size_t len)
{
    size_t front = len;
    while (front > 0 && bytes[front - 1] == 0) {
        front--;
    }
    printf("%s %zu %zu", name, len, front);
    for (size_t i = 0; i < front; i++) {
        printf("%s%02x", i % 32 == 0 ? "\n" : " ", bytes[i]);
    }
    printf("\n");
}

int main(int argc, char **argv)
{
    need("usage: write_save COMMIT", argc == 2);
    for (size_t i = 0; i < sizeof every_byte; i++) {
        every_byte[i] = (uint8_t)i;
    }
    for (size_t i = 0; i < sizeof mixed; i++) {
        mixed[i] = i % 2 == 0 ? '!' : '~';
    }
    memset(folder, 'p', sizeof folder - 1);
    folder[sizeof folder - 1] = '/';

    need("fresh", rathnodi_fresh(STORE) == RATHNODI_OK);
    objects();
    uploads();
#if UTF8
    letters();
#endif
#if PAIRS
    with_pairs();
#endif
    printf("# Written by version %s, commit %s.\n", RATHNODI_VERSION, argv[1]);
    section("tables", tables, sizeof tables);
    section("arena", arena, sizeof arena);
    need("list", rathnodi_list(STORE, BYTES(""), BYTES(""), answer, sizeof answer, (uint8_t *)&reply,
                               sizeof reply) == RATHNODI_OK);
    section("list", answer, reply.bytes);
    need("uploads", rathnodi_uploads(STORE, BYTES(""), answer, sizeof answer, (uint8_t *)&reply,
                                     sizeof reply) == RATHNODI_OK);
    section("uploads", answer, reply.bytes);
    return 0;
}
