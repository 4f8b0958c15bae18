/*
 * saves FOLDER: the saves of former versions in this folder (host/saves, whose README.md says what they are) are
 * brought back. All that they hold is compared with what stands here, and with what the library that wrote them
 * answered to list and uploads. Then calls go on: uploads are aborted or, with parts of high numbers, committed, and
 * objects are deleted. The last line counts.
 */
#include <string.h>

#include "check.h"
#include "rathnodi.h"

enum { VERSION_1_1, VERSION_1_2, VERSION_2_0, VERSIONS };

static const struct {
    const char *file;
    size_t tables_len;
    uint32_t next; /* upload number */
} SAVES[VERSIONS] = {{"version-1.1.txt", RATHNODI_FORMER_TABLES_LEN, 8},
                     {"version-1.2.txt", RATHNODI_FORMER_TABLES_LEN, 9},
                     {"version-2.0.txt", RATHNODI_TABLES_LEN, 11}};

#define BYTES(text) (const uint8_t *)(text), sizeof(text) - 1
#define X4(text) text text text text
#define X16(text) X4(X4(text))
#define MIXED X16(X4("!~"))
#define FOLDER X16("ppppppp") "ppppppppppppppp/"
#define PRETZELS X16("\xf0\x9f\xa5\xa8\xf0\x9f\xa5\xa8")
#define NONE BYTES("")
#define ONE BYTES("\1k\0")
#define PAIR(key, value) "\40" X16(key key) "\100" X16(X4(value))
#define EIGHT                                                                                                     \
    BYTES(PAIR("a", " ") PAIR("b", "~") PAIR("c", " ") PAIR("d", "~") PAIR("e", " ") PAIR("f", "~") PAIR("g", " ") \
              PAIR("h", "~"))

static uint8_t every_byte[256];

/* The objects that each save from this version on holds. */
static const struct object {
    int since;
    const uint8_t *path;
    size_t path_len;
    uint64_t created;
    const uint8_t *data;
    size_t data_len;
    const char *etag;
    uint16_t pairs;
    const uint8_t *pair_bytes;
    size_t pairs_bytes;
} OBJECTS[] = {
    {VERSION_1_1, BYTES("!"), 1, BYTES(""), "d41d8cd98f00b204e9800998ecf8427e", 0, NONE},
    {VERSION_1_1, BYTES("~"), UINT64_MAX, BYTES("x"), "9dd4e461268c8034f5c8564e155c67a6", 0, NONE},
    {VERSION_1_1, BYTES(MIXED), UINT64_MAX, every_byte, 256, "e2c865db4162bed963bfaa9ef6ac18f0", 0, NONE},
    {VERSION_1_1, BYTES(FOLDER), 1, BYTES(""), "d41d8cd98f00b204e9800998ecf8427e", 0, NONE},
    {VERSION_1_1, BYTES("recipe/"), 5, BYTES("rye flour 60 kg"), "ffc379de075b7462e05fc7c88091e39d", 0, NONE},
    {VERSION_1_1, BYTES("joined/three"), 7, BYTES("eleven thousand one ten thousand "),
     "8f94b7e6b75ebbaf1b07be37af87e16c-3", 0, NONE},
    {VERSION_1_1, BYTES("joined/none"), UINT64_MAX, BYTES(""), "d41d8cd98f00b204e9800998ecf8427e-0", 0, NONE},
    {VERSION_1_1, BYTES("copy"), 9, BYTES("eleven thousand one ten thousand "), "e7019888bac8a84d43c927de3dc8d91d", 0,
     NONE},
    {VERSION_1_2, BYTES("\xc2\xa0"), 6, BYTES("U+00A0"), "291238a0285879f2b4b00bf3bdf9fcb7", 0, NONE},
    {VERSION_1_2, BYTES("\xdf\xbf/\xe0\xa0\x80"), 6, BYTES("U+07FF, U+0800"), "d38093bbcfd17618a5cce52acbf3b699", 0,
     NONE},
    {VERSION_1_2, BYTES("\xed\x9f\xbf\xee\x80\x80"), 6, BYTES("U+D7FF, U+E000"), "922256fa5725efe78d17076bdc800924", 0,
     NONE},
    {VERSION_1_2, BYTES("\xef\xbf\xbf\xf0\x90\x80\x80"), 6, BYTES("U+FFFF, U+10000"),
     "9d08410b25d3cc6885f22e45fe74bc10", 0, NONE},
    {VERSION_1_2, BYTES("\xf4\x8f\xbf\xbf/"), 6, BYTES("U+10FFFF"), "85d3a02b05c4a7f2b3568e359673e4b9", 0, NONE},
    {VERSION_1_2, BYTES(PRETZELS), 6, BYTES("U+1F968"), "d47dc809cd016bf91febbee4894bcd9c", 0, NONE},
    {VERSION_2_0, BYTES("pairs/eight"), 8, BYTES("x"), "9dd4e461268c8034f5c8564e155c67a6", 8, EIGHT},
    {VERSION_2_0, BYTES("pairs/one"), 8, BYTES(""), "d41d8cd98f00b204e9800998ecf8427e", 1, ONE},
    {VERSION_2_0, BYTES("pairs/joined"), 8, BYTES("joined"), "54a8be73b13ffd9f5c6643126c30c865-1", 1, ONE},
    {VERSION_2_0, BYTES("pairs/none"), 8, BYTES("y"), "415290769594460e2e485922904f345d", 0, NONE},
};

/* Its open uploads, by number. */
static const struct upload {
    int since;
    uint32_t number;
    const uint8_t *path;
    size_t path_len;
    uint64_t started;
    uint16_t parts;
} UPLOADS[] = {
    {VERSION_1_1, 4, BYTES(MIXED), 1, 4},      {VERSION_1_1, 5, BYTES("!"), UINT64_MAX, 0},
    {VERSION_1_1, 6, BYTES("recipe/"), 5, 1},  {VERSION_1_2, 8, BYTES("K\xc3\xa4sestange"), 6, 1},
    {VERSION_2_0, 9, BYTES("pairs/upload"), 8, 2},
};

/* The objects that the uploads become. Upload 4 gets part 2 before. */
static uint8_t every_byte_and_more[256 + 7];
static const struct object BY_4 = {0, BYTES(MIXED), 1, every_byte_and_more, sizeof every_byte_and_more,
                                   "8c8ec28baa645e51c647daa046a30666-5", 0, NONE},
                           BY_5 = {0, BYTES("!"), UINT64_MAX, BYTES(""), "d41d8cd98f00b204e9800998ecf8427e-0", 0, NONE},
                           BY_6 = {0, BYTES("recipe/"), 5, BYTES("last"), "52f9800dff8537824fe1c62525796ed4-1", 0,
                                   NONE},
                           BY_8 = {0, BYTES("K\xc3\xa4sestange"), 6, BYTES("cheese"),
                                   "e860ea2ad86437085e9592f74e6778e2-1", 0, NONE},
                           BY_9 = {0, BYTES("pairs/upload"), 8, BYTES("after before "),
                                   "a0572bc8297281e528462b0ad0a3d7db-2", 8, EIGHT};

/* What a file has: tables and arena, and what list and uploads answered. */
struct section {
    const char *name;
    size_t len;
    uint8_t bytes[RATHNODI_TABLES_LEN];
};

static struct section saved_tables = {"tables", 0, {0}}, saved_arena = {"arena", 0, {0}},
                      saved_list = {"list", 0, {0}}, saved_uploads = {"uploads", 0, {0}};

static uint8_t tables[RATHNODI_TABLES_LEN], arena[4096], answer[16384], pairs_answer[RATHNODI_PAIRS_BYTES_MAX];
static struct rathnodi_reply reply;
static int version;

#define STORE tables, sizeof tables, arena, sizeof arena
#define ANSWER answer, sizeof answer
#define PAIRS_ANSWER pairs_answer, sizeof pairs_answer
#define REPLY (uint8_t *)&reply, sizeof reply

/* A check that says which save it is of. */
static void holds(const char *what, int it_does)
{
    char text[200];
    snprintf(text, sizeof text, "%s: %s", SAVES[version].file, what);
    check(text, it_does);
}

/* Reads a section: its name, its length, how many bytes there are up to the last that is not 0, and these. */
static int read_section(FILE *file, struct section *to)
{
    char name[16];
    size_t front;
    if (fscanf(file, "%15s %zu %zu", name, &to->len, &front) != 3 || strcmp(name, to->name) != 0 ||
        to->len > sizeof to->bytes || front > to->len) {
        return 0;
    }
    memset(to->bytes, 0, sizeof to->bytes);
    for (size_t i = 0; i < front; i++) {
        unsigned byte;
        if (fscanf(file, "%2x", &byte) != 1) {
            return 0;
        }
        to->bytes[i] = (uint8_t)byte;
    }
    return 1;
}

/* Reads a file: one line of comment, then the sections. */
static int read_save(const char *folder)
{
    char path[4096];
    snprintf(path, sizeof path, "%s/%s", folder, SAVES[version].file);
    FILE *file = fopen(path, "r");
    if (file == NULL) {
        return 0;
    }
    int whole = fscanf(file, "#%*[^\n]") == 0 && read_section(file, &saved_tables) &&
                read_section(file, &saved_arena) && read_section(file, &saved_list) &&
                read_section(file, &saved_uploads);
    fclose(file);
    return whole && saved_tables.len == SAVES[version].tables_len && saved_arena.len == sizeof arena;
}

/* Brings the save back, as a program of today does: former tables are carried over. */
static uint32_t bring_back(void)
{
    memcpy(arena, saved_arena.bytes, sizeof arena);
    if (saved_tables.len == RATHNODI_FORMER_TABLES_LEN) {
        memset(tables, 0xa5, sizeof tables);
        return rathnodi_carry_over(saved_tables.bytes, saved_tables.len, arena, sizeof arena, tables, sizeof tables);
    }
    memcpy(tables, saved_tables.bytes, sizeof tables);
    return rathnodi_head(STORE, BYTES(""), PAIRS_ANSWER, REPLY);
}

/* Tables and arena are those that were saved, and after former tables the bytes are as they were. */
static int as_saved(void)
{
    int same = memcmp(tables, saved_tables.bytes, saved_tables.len) == 0 &&
               memcmp(arena, saved_arena.bytes, sizeof arena) == 0;
    for (size_t i = saved_tables.len; i < sizeof tables; i++) {
        same &= tables[i] == 0xa5;
    }
    return same;
}

/* With a bit of the header's 18 bytes flipped the save is no store. But in bytes 4 to 7 the number of the coming upload
 * gets higher, which is allowed. */
static void flipped(void)
{
    for (size_t i = 0; i < 18; i++) {
        saved_tables.bytes[i] ^= 0x80;
        holds("a bit flipped", bring_back() == (i >= 4 && i < 8 ? RATHNODI_OK : RATHNODI_NOT_A_STORE));
        saved_tables.bytes[i] ^= 0x80;
    }
}

/* The reply's etag is the one with this text. */
static int has_etag(const char *etag)
{
    char text[40] = "";
    for (size_t i = 0; i < 16; i++) {
        snprintf(text + 2 * i, 3, "%02x", reply.etag_digest[i]);
    }
    if (reply.etag_kind == RATHNODI_ETAG_JOINED) {
        snprintf(text + 32, sizeof text - 32, "-%u", reply.etag_count);
    }
    return reply.etag_kind != RATHNODI_ETAG_ABSENT && strcmp(text, etag) == 0;
}

/* The reply and the second answer say what the object is. */
static int described(const struct object *object)
{
    return reply.created == object->created && reply.length == object->data_len && has_etag(object->etag) &&
           reply.pairs == object->pairs && reply.pairs_bytes == object->pairs_bytes &&
           memcmp(pairs_answer, object->pair_bytes, object->pairs_bytes) == 0;
}

/* Get and head of the object. */
static void is_read(const char *what, const struct object *object)
{
    memset(pairs_answer, 0xa5, sizeof pairs_answer);
    holds(what, rathnodi_get(STORE, object->path, object->path_len, ANSWER, PAIRS_ANSWER, REPLY) == RATHNODI_OK &&
                    described(object) && memcmp(answer, object->data, object->data_len) == 0);
    memset(pairs_answer, 0xa5, sizeof pairs_answer);
    memset(&reply, 0xa5, sizeof reply);
    holds(what, rathnodi_head(STORE, object->path, object->path_len, PAIRS_ANSWER, REPLY) == RATHNODI_OK &&
                    described(object));
}

static void objects_are_read(void)
{
    uint32_t count = 0;
    for (size_t i = 0; i < sizeof OBJECTS / sizeof *OBJECTS; i++) {
        if (OBJECTS[i].since <= version) {
            is_read("an object", &OBJECTS[i]);
            count++;
        }
    }
    holds("list", rathnodi_list(STORE, BYTES(""), BYTES(""), ANSWER, REPLY) == RATHNODI_OK &&
                      reply.records == count && reply.bytes == saved_list.len &&
                      memcmp(answer, saved_list.bytes, saved_list.len) == 0);
    holds("a deleted object",
          rathnodi_get(STORE, BYTES("gone"), ANSWER, PAIRS_ANSWER, REPLY) == RATHNODI_NOT_FOUND);
}

static void uploads_are_read(void)
{
    struct rathnodi_uploads_record record;
    size_t at = 0;
    reply.bytes = 0;
    holds("uploads", rathnodi_uploads(STORE, BYTES(""), ANSWER, REPLY) == RATHNODI_OK &&
                         reply.bytes == saved_uploads.len &&
                         memcmp(answer, saved_uploads.bytes, saved_uploads.len) == 0);
    for (size_t i = 0; i < sizeof UPLOADS / sizeof *UPLOADS; i++) {
        if (UPLOADS[i].since <= version) {
            holds("an upload", rathnodi_uploads_next(answer, reply.bytes, &at, &record) &&
                                   record.upload == UPLOADS[i].number && record.path_len == UPLOADS[i].path_len &&
                                   memcmp(record.path, UPLOADS[i].path, record.path_len) == 0 &&
                                   record.started == UPLOADS[i].started && record.parts == UPLOADS[i].parts);
        }
    }
    holds("no other upload", at == reply.bytes);
}

/* The upload is not open. */
static void is_closed(uint32_t upload)
{
    holds("a closed upload", rathnodi_part(STORE, upload, 1, BYTES(""), REPLY) == RATHNODI_BAD_REQUEST &&
                                 rathnodi_commit(STORE, upload, BYTES("")) == RATHNODI_BAD_REQUEST &&
                                 rathnodi_abort(STORE, upload) == RATHNODI_BAD_REQUEST);
}

/* Every upload is aborted, and the objects are as they were. */
static void uploads_are_aborted(void)
{
    for (size_t i = 0; i < sizeof UPLOADS / sizeof *UPLOADS; i++) {
        if (UPLOADS[i].since <= version) {
            holds("abort", rathnodi_abort(STORE, UPLOADS[i].number) == RATHNODI_OK);
            is_closed(UPLOADS[i].number);
        }
    }
    holds("no upload is left",
          rathnodi_uploads(STORE, BYTES(""), ANSWER, REPLY) == RATHNODI_OK && reply.records == 0);
    objects_are_read();
}

/* Part numbers as a list has them. */
#define PART_1 "\1\0"
#define PART_2 "\2\0"
#define PART_10000 "\x10\x27"
#define PART_10001 "\x11\x27"
#define PART_11000 "\xf8\x2a"

/* Parts that no call sets any more are committed by their numbers, in any order, and beside new ones. */
static void uploads_are_committed(void)
{
    const uint32_t closed[] = {0, 1, 2, 3, 7, SAVES[version].next, UINT32_MAX};
    for (size_t i = 0; i < sizeof closed / sizeof *closed; i++) {
        is_closed(closed[i]);
    }
    holds("part 10,001", rathnodi_part(STORE, 4, 10001, BYTES("new"), REPLY) == RATHNODI_BAD_REQUEST);
    holds("part 11,000", rathnodi_part(STORE, 4, 11000, BYTES("new"), REPLY) == RATHNODI_BAD_REQUEST);
    holds("a list without the high parts",
          rathnodi_commit(STORE, 4, BYTES(PART_1 PART_10000)) == RATHNODI_BAD_REQUEST);
    holds("nothing was written", as_saved());
    holds("part 2", rathnodi_part(STORE, 4, 2, BYTES("2"), REPLY) == RATHNODI_OK);
    holds("commit", rathnodi_commit(STORE, 4, BYTES(PART_11000 PART_1 PART_10001 PART_10000 PART_2)) == RATHNODI_OK);
    is_read("committed", &BY_4);
    holds("commit", rathnodi_commit(STORE, 5, BYTES("")) == RATHNODI_OK);
    is_read("committed", &BY_5);
    holds("commit", rathnodi_commit(STORE, 6, BYTES(PART_11000)) == RATHNODI_OK);
    is_read("committed", &BY_6);
    if (version >= VERSION_1_2) {
        holds("commit", rathnodi_commit(STORE, 8, BYTES(PART_10001)) == RATHNODI_OK);
        is_read("committed", &BY_8);
    }
    if (version >= VERSION_2_0) {
        holds("commit", rathnodi_commit(STORE, 9, BYTES(PART_10001 PART_10000)) == RATHNODI_OK);
        is_read("committed", &BY_9);
    }
    holds("a number that was never given",
          rathnodi_initiate(STORE, 1, BYTES("a"), ONE, REPLY) == RATHNODI_OK && reply.upload == SAVES[version].next);
    holds("sweep", rathnodi_sweep(STORE, 2, 1, REPLY) == RATHNODI_OK && reply.records == 1);
}

/* Old objects take pairs, and are deleted as they are listed. Then every byte is free again. */
static void objects_are_deleted(void)
{
    static uint8_t names[sizeof answer], full[sizeof arena + 1];
    struct object paired = {0, BYTES("recipe/"), 6, BYTES("x"), "9dd4e461268c8034f5c8564e155c67a6", 1, ONE};
    holds("put with a pair", rathnodi_put(STORE, 6, BYTES("recipe/"), BYTES("x"), ONE) == RATHNODI_OK);
    is_read("put with a pair", &paired);
    reply.bytes = 0;
    holds("list", rathnodi_list(STORE, BYTES(""), BYTES(""), ANSWER, REPLY) == RATHNODI_OK && reply.bytes > 0);
    memcpy(names, answer, reply.bytes);
    struct rathnodi_list_record record;
    for (size_t at = 0, bytes = reply.bytes; rathnodi_list_next(names, bytes, &at, &record);) {
        holds("delete", rathnodi_delete(STORE, record.path, record.path_len) == RATHNODI_OK);
    }
    holds("no object is left",
          rathnodi_list(STORE, BYTES(""), BYTES(""), ANSWER, REPLY) == RATHNODI_OK && reply.records == 0);
    holds("too much", rathnodi_put(STORE, 6, BYTES("a"), full, sizeof arena + 1, NONE) == RATHNODI_ARENA_FULL);
    holds("as much as fits", rathnodi_put(STORE, 6, BYTES("a"), full, sizeof arena, NONE) == RATHNODI_OK);
}

int main(int argc, char **argv)
{
    for (size_t i = 0; i < sizeof every_byte; i++) {
        every_byte[i] = (uint8_t)i;
    }
    memcpy(every_byte_and_more, every_byte, 256);
    memcpy(every_byte_and_more + 256, "1100012", 7);
    for (version = 0; version < VERSIONS; version++) {
        int is_there = argc == 2 && read_save(argv[1]);
        holds("the file", is_there);
        if (is_there) {
            flipped();
            holds("it is a store", bring_back() == RATHNODI_OK && as_saved());
            objects_are_read();
            uploads_are_read();
            uploads_are_aborted();
            holds("once more", bring_back() == RATHNODI_OK && as_saved());
            uploads_are_committed();
            objects_are_deleted();
        }
    }
    return counted("saves");
}
