/*
 * A short shift at a bakery terminal, as the panel's program would make it: recipes and a label picture are put, and a
 * batch record with its flour lot and baker beside it; a scale sends its weighings as parts while the panel lists, the
 * upload is committed; another scale is given up and its upload aborted; a shelf of old recipes is cleared in one call;
 * uploads that a scale left open are swept. Each call is printed with its answer.
 *
 *     panel [RECORDING RESULTS]
 *
 * With two paths, the calls are recorded too, and what each line of the recording was answered: a replay of the one
 * prints the other.
 */
#include <inttypes.h>
#include <stdio.h>
#include <string.h>

#include "rathnodi.h"

/* A replay lends as much for the arena and for an answer. A shift that is recorded has as much, so that a replay of it
 * answers as the panel's store did; else the arena is a small one, and an answer has room for the longest list. */
enum { LENT = 65536, SMALL_ARENA = 4096, LONGEST_LIST = RATHNODI_OBJECTS_MAX * RATHNODI_LIST_RECORD_MAX };

/* The store, and what the panel lends for answers. */
static uint8_t tables[RATHNODI_TABLES_LEN];
static uint8_t arena[LENT];
static uint8_t answer[LENT];
static size_t arena_len = SMALL_ARENA, answer_len = LONGEST_LIST;
static uint8_t pairs_answer[RATHNODI_PAIRS_BYTES_MAX];
static struct rathnodi_reply reply;

/* The pairs for the next put or initiate. */
static uint8_t pairs[RATHNODI_PAIRS_BYTES_MAX];
static size_t pairs_len;

#define STORE tables, sizeof tables, arena, arena_len
#define PAIRS_ANSWER pairs_answer, sizeof pairs_answer
#define REPLY (uint8_t *)&reply, sizeof reply
#define TEXT(text) (const uint8_t *)(text), strlen(text)

/* Seconds since 1970 at the start of the shift, 3 in the morning of 14 November 2023. */
static const uint64_t SHIFT = 1699930800;

/* How often the store answered otherwise than the shift expects. */
static int surprises;

/* Where the shift is recorded; null where it is not. */
static FILE *recording, *recorded_results;
static uint8_t line[RATHNODI_LINE_MAX + 1];
static int without_line;

#define LINE line, sizeof line

/* Records a call whose line was printed to `line`, with what it was answered. One that is too long has no line. */
static void record(size_t line_len, uint32_t number)
{
    if (line_len == 0) {
        without_line++;
    } else if (recording != NULL) {
        fwrite(line, 1, line_len, recording);
        fprintf(recorded_results, "%" PRIu32 "\n", number);
    }
}

/* Ends the line of a call with its answer. */
static int answered(uint32_t number, uint32_t expected)
{
    if (number == RATHNODI_OK) {
        printf("-> ok");
    } else {
        printf("-> refused, %" PRIu32 ": %s", number, rathnodi_result_text(number));
    }
    if (number != expected) {
        printf("  (expected %" PRIu32 ": %s)", expected, rathnodi_result_text(expected));
        surprises++;
    }
    return number == RATHNODI_OK;
}

static void print_etag(uint8_t kind, const uint8_t *digest, unsigned count)
{
    if (kind == RATHNODI_ETAG_ABSENT) {
        printf("no etag");
        return;
    }
    for (int i = 0; i < 16; i++) {
        printf("%02x", digest[i]);
    }
    if (kind == RATHNODI_ETAG_JOINED) {
        printf("-%u", count);
    }
}

static void say(const char *line)
{
    printf("\n%s\n", line);
}

/* Gives the next put or initiate one more pair. */
static void with(const char *key, const char *value)
{
    printf("  pair      %s: %s\n", key, value);
    surprises += !rathnodi_pairs_add(pairs, sizeof pairs, &pairs_len, TEXT(key), TEXT(value));
}

/* The pairs that head or get has written. */
static void print_pairs(void)
{
    struct rathnodi_pair pair;
    uint16_t count = 0;
    for (size_t at = 0; rathnodi_pairs_next(pairs_answer, reply.pairs_bytes, &at, &pair); count++) {
        printf("              %.*s: %.*s\n", (int)pair.key_len, (const char *)pair.key, (int)pair.value_len,
               (const char *)pair.value);
    }
    surprises += count != reply.pairs;
}

static void put(uint64_t stamp, const char *path, const uint8_t *data, size_t data_len, uint32_t expected)
{
    printf("  put       \"%s\", %zu bytes, at %" PRIu64 " ", path, data_len, stamp);
    uint32_t number = rathnodi_put(STORE, stamp, TEXT(path), data, data_len, pairs, pairs_len);
    record(rathnodi_line_put(LINE, stamp, TEXT(path), data, data_len, pairs, pairs_len), number);
    answered(number, expected);
    printf("\n");
    pairs_len = 0;
}

static void put_text(uint64_t stamp, const char *path, const char *text, uint32_t expected)
{
    put(stamp, path, TEXT(text), expected);
}

static void head(const char *path, uint32_t expected)
{
    printf("  head      \"%s\" ", path);
    uint32_t number = rathnodi_head(STORE, TEXT(path), PAIRS_ANSWER, REPLY);
    record(rathnodi_line_head(LINE, TEXT(path)), number);
    if (!answered(number, expected)) {
        printf("\n");
        return;
    }
    printf(", %" PRIu32 " bytes, created %" PRIu64 ", ", reply.length, reply.created);
    print_etag(reply.etag_kind, reply.etag_digest, reply.etag_count);
    printf("\n");
    print_pairs();
}

/* The data of the object is left in answer, its pairs in pairs_answer. */
static size_t get(const char *path, uint32_t expected)
{
    printf("  get       \"%s\" ", path);
    uint32_t number = rathnodi_get(STORE, TEXT(path), answer, answer_len, PAIRS_ANSWER, REPLY);
    record(rathnodi_line_get(LINE, TEXT(path)), number);
    if (!answered(number, expected)) {
        printf("\n");
        return 0;
    }
    printf(", %" PRIu32 " bytes\n", reply.length);
    print_pairs();
    return reply.length;
}

static void copy(uint64_t stamp, const char *source, const char *destination, uint32_t expected)
{
    printf("  copy      \"%s\" to \"%s\", at %" PRIu64 " ", source, destination, stamp);
    uint32_t number = rathnodi_copy(STORE, stamp, TEXT(source), TEXT(destination));
    record(rathnodi_line_copy(LINE, stamp, TEXT(source), TEXT(destination)), number);
    answered(number, expected);
    printf("\n");
}

static void delete(const char *path, uint32_t expected)
{
    printf("  delete    \"%s\" ", path);
    uint32_t number = rathnodi_delete(STORE, TEXT(path));
    record(rathnodi_line_delete(LINE, TEXT(path)), number);
    answered(number, expected);
    printf("\n");
}

/* A list into less room than a replay lends is not recorded. */
static void list(const char *prefix, const char *suffix, size_t room, uint32_t expected)
{
    printf("  list      prefix \"%s\", suffix \"%s\", into %zu bytes ", prefix, suffix, room);
    uint32_t number = rathnodi_list(STORE, TEXT(prefix), TEXT(suffix), answer, room, REPLY);
    if (room == answer_len) {
        record(rathnodi_line_list(LINE, TEXT(prefix), TEXT(suffix)), number);
    }
    if (!answered(number, expected)) {
        printf("\n");
        return;
    }
    printf(", records %" PRIu32 ", bytes %" PRIu32 "\n", reply.records, reply.bytes);
    struct rathnodi_list_record object;
    uint32_t records = 0;
    for (size_t at = 0; rathnodi_list_next(answer, reply.bytes, &at, &object); records++) {
        printf("              %-24.*s %5" PRIu32 " bytes  %" PRIu64 "  %.*s\n", (int)object.path_len,
               (const char *)object.path, object.length, object.created, (int)object.etag_len, object.etag);
    }
    surprises += records != reply.records;
}

/* Deletes what the last list found in one call: the paths stand in its answer, which is lent as the names. A recording
 * has a delete for each. */
static void delete_listed(uint32_t expected, uint32_t expected_each)
{
    static uint8_t places[8 * RATHNODI_OBJECTS_MAX], results[RATHNODI_OBJECTS_MAX];
    struct rathnodi_list_record object;
    size_t count = 0;
    for (size_t at = 0; rathnodi_list_next(answer, reply.bytes, &at, &object); count++) {
        rathnodi_place_set(places, count, (uint32_t)(object.path - answer), (uint32_t)object.path_len);
    }
    printf("  delete    all %zu that were listed ", count);
    uint32_t number = rathnodi_delete_objects(STORE, answer, reply.bytes, places, 8 * count, results, count);
    int deleted = answered(number, expected);
    printf("\n");
    for (size_t i = 0, at = 0; deleted && rathnodi_list_next(answer, reply.bytes, &at, &object); i++) {
        record(rathnodi_line_delete(LINE, object.path, object.path_len), results[i]);
        printf("              %-24.*s %s\n", (int)object.path_len, (const char *)object.path,
               rathnodi_result_text(results[i]));
        surprises += results[i] != expected_each;
    }
}

/* The number of the upload, 0 if none was opened. */
static uint32_t initiate(uint64_t stamp, const char *path, uint32_t expected)
{
    uint32_t upload = 0;
    printf("  initiate  \"%s\", at %" PRIu64 " ", path, stamp);
    uint32_t number = rathnodi_initiate(STORE, stamp, TEXT(path), pairs, pairs_len, REPLY);
    record(rathnodi_line_initiate(LINE, stamp, TEXT(path), pairs, pairs_len), number);
    if (answered(number, expected)) {
        printf(", upload %" PRIu32, reply.upload);
        upload = reply.upload;
    }
    printf("\n");
    pairs_len = 0;
    return upload;
}

static void part(uint32_t upload, uint16_t part_number, const char *text, uint32_t expected)
{
    printf("  part      %" PRIu32 ", number %" PRIu16 ", %zu bytes ", upload, part_number, strlen(text));
    uint32_t number = rathnodi_part(STORE, upload, part_number, TEXT(text), REPLY);
    record(rathnodi_line_part(LINE, upload, part_number, TEXT(text)), number);
    if (answered(number, expected)) {
        printf(", ");
        print_etag(reply.etag_kind, reply.etag_digest, reply.etag_count);
    }
    printf("\n");
}

static void commit(uint32_t upload, const uint16_t *numbers, size_t count, uint32_t expected)
{
    uint8_t part_list[2 * RATHNODI_PARTS_MAX];
    printf("  commit    %" PRIu32 ", parts", upload);
    for (size_t i = 0; i < count; i++) {
        printf(" %" PRIu16, numbers[i]);
        rathnodi_part_list_set(part_list, i, numbers[i]);
    }
    printf(" ");
    uint32_t number = rathnodi_commit(STORE, upload, part_list, 2 * count);
    record(rathnodi_line_commit(LINE, upload, part_list, 2 * count), number);
    answered(number, expected);
    printf("\n");
}

static void abort_upload(uint32_t upload, uint32_t expected)
{
    printf("  abort     %" PRIu32 " ", upload);
    uint32_t number = rathnodi_abort(STORE, upload);
    record(rathnodi_line_abort(LINE, upload), number);
    answered(number, expected);
    printf("\n");
}

/* Records a sweep as the aborts that it made: so many, of the first uploads that were started before the stamp. They
 * are listed here as they were before it. */
static void record_aborts(const uint8_t *open, size_t open_len, uint64_t stamp, uint32_t count)
{
    struct rathnodi_uploads_record upload;
    for (size_t at = 0; count > 0 && rathnodi_uploads_next(open, open_len, &at, &upload);) {
        if (upload.started < stamp) {
            record(rathnodi_line_abort(LINE, upload.upload), RATHNODI_OK);
            count--;
        }
    }
}

/* Aborts uploads that were started before the stamp; count and more are expected of a sweep that is accepted. */
static void sweep(uint64_t stamp, uint32_t most, uint32_t expected, uint32_t expected_count, uint8_t expected_more)
{
    static uint8_t open[RATHNODI_UPLOADS_MAX * RATHNODI_UPLOADS_RECORD_MAX];
    surprises += rathnodi_uploads(STORE, TEXT(""), open, sizeof open, REPLY) != RATHNODI_OK;
    size_t open_len = reply.bytes;
    printf("  sweep     before %" PRIu64 ", at most %" PRIu32 " ", stamp, most);
    if (answered(rathnodi_sweep(STORE, stamp, most, REPLY), expected)) {
        record_aborts(open, open_len, stamp, reply.records);
        printf(", aborted %" PRIu32 ", %s", reply.records, reply.more ? "more are due" : "no more are due");
        surprises += reply.records != expected_count || reply.more != expected_more;
    }
    printf("\n");
}

static void uploads(const char *prefix, uint32_t expected)
{
    printf("  uploads   prefix \"%s\", into %zu bytes ", prefix, answer_len);
    uint32_t number = rathnodi_uploads(STORE, TEXT(prefix), answer, answer_len, REPLY);
    record(rathnodi_line_uploads(LINE, TEXT(prefix)), number);
    if (!answered(number, expected)) {
        printf("\n");
        return;
    }
    printf(", records %" PRIu32 ", bytes %" PRIu32 "\n", reply.records, reply.bytes);
    struct rathnodi_uploads_record upload;
    uint32_t records = 0;
    for (size_t at = 0; rathnodi_uploads_next(answer, reply.bytes, &at, &upload); records++) {
        printf("              upload %" PRIu32 " to %.*s, started %" PRIu64 ", parts %" PRIu16 "\n", upload.upload,
               (int)upload.path_len, (const char *)upload.path, upload.started, upload.parts);
    }
    surprises += records != reply.records;
}

/* A label of 96 by 32 dots as a portable bitmap: a frame and bars. */
static size_t draw_label(uint8_t *picture, size_t room)
{
    int head_len = snprintf((char *)picture, room, "P4\n96 32\n");
    uint8_t *dots = picture + head_len;
    for (int y = 0; y < 32; y++) {
        for (int x = 0; x < 12; x++) {
            uint8_t bars = (uint8_t)(y > 5 && y < 26 && x > 0 && x < 11 ? 0xb5 >> (x % 3) : 0);
            uint8_t frame = (uint8_t)(y == 0 || y == 31 ? 0xff : x == 0 ? 0x80 : x == 11 ? 0x01 : 0);
            dots[12 * y + x] = bars | frame;
        }
    }
    return (size_t)head_len + 12 * 32;
}

static void shift(void)
{
    say("The terminal starts with an empty store.");
    printf("  tables    %zu bytes, arena %zu bytes\n", rathnodi_tables_len(), arena_len);
    printf("  fresh     ");
    answered(rathnodi_fresh(STORE), RATHNODI_OK);
    printf("\n");
    head("", RATHNODI_OK);
    list("", "", answer_len, RATHNODI_OK);

    say("Recipes are put; one of them twice.");
    put_text(SHIFT, "recipe/rye", "rye flour 60 kg\nwater 42 kg\nsalt 1.2 kg\nsour 9 kg\n", RATHNODI_OK);
    put_text(SHIFT + 5, "recipe/roll", "wheat flour 50 kg\nwater 29 kg\nyeast 1.5 kg\n", RATHNODI_OK);
    put_text(SHIFT + 9, "recipe/rye", "rye flour 60 kg\nwater 43 kg\nsalt 1.2 kg\nsour 9 kg\n", RATHNODI_OK);
    head("recipe/rye", RATHNODI_OK);
    copy(SHIFT + 12, "recipe/roll", "recipe/roll-sunday", RATHNODI_OK);
    get("recipe/baguette", RATHNODI_NOT_FOUND);
    put_text(0, "recipe/baguette", "no clock", RATHNODI_BAD_REQUEST);
    put_text(SHIFT + 15, "recipe//baguette", "two slashes", RATHNODI_BAD_REQUEST);

    say("A label picture is stored and read back.");
    uint8_t picture[512];
    size_t picture_len = draw_label(picture, sizeof picture);
    put(SHIFT + 20, "label/rye.pbm", picture, picture_len, RATHNODI_OK);
    size_t length = get("label/rye.pbm", RATHNODI_OK);
    int same = length == picture_len && memcmp(answer, picture, picture_len) == 0;
    printf("              %s\n", same ? "the same bytes" : "OTHER BYTES");
    surprises += !same;

    say("A batch record is put with its flour lot and its baker; the store's own keys are dropped.");
    with("flour-lot", "R-4711");
    with("baker", "Ayla");
    with("size", "48 loaves");
    put_text(SHIFT + 30, "batch/rye", "rye, oven 2, 240 degrees\n", RATHNODI_OK);
    length = get("batch/rye", RATHNODI_OK);
    printf("%.*s", (int)length, (const char *)answer);
    static const char record_pairs[] = "\5baker\4Ayla\11flour-lot\6R-4711";
    surprises += reply.pairs_bytes != 28 || memcmp(pairs_answer, record_pairs, 28) != 0;
    copy(SHIFT + 31, "batch/rye", "batch/sent/rye", RATHNODI_OK);
    head("batch/sent/rye", RATHNODI_OK);
    with("flour-lot", "R-4711");
    with("flour-lot", "R-4712");
    put_text(SHIFT + 32, "batch/rye", "two lots\n", RATHNODI_BAD_REQUEST);
    with("baker", "J\303\266rg");
    put_text(SHIFT + 32, "batch/rye", "a letter outside ASCII\n", RATHNODI_BAD_REQUEST);

    say("Scale 1 sends its weighings as parts; the panel lists meanwhile and sees none of them.");
    with("scale", "1");
    uint32_t scale_1 = initiate(SHIFT + 60, "weighing/scale-1", RATHNODI_OK);
    part(scale_1, 1, "03:01 rye flour 59.98 kg\n03:03 water 43.02 kg\n", RATHNODI_OK);
    list("weighing/", "", answer_len, RATHNODI_OK);
    uploads("weighing/", RATHNODI_OK);
    part(scale_1, 3, "03:09 sour 9.00 kg\n", RATHNODI_OK);
    uint32_t scale_2 = initiate(SHIFT + 300, "weighing/scale-2", RATHNODI_OK);
    part(scale_2, 1, "03:05 wheat flour 5", RATHNODI_OK);
    part(scale_1, 2, "03:06 salt 1.19 kg\n", RATHNODI_OK);
    get("weighing/scale-1", RATHNODI_NOT_FOUND);
    uploads("", RATHNODI_OK);

    say("A part is forgotten in the first list; then the upload is committed.");
    commit(scale_1, (const uint16_t[]){1, 2}, 2, RATHNODI_BAD_REQUEST);
    commit(scale_1, (const uint16_t[]){1, 2, 3}, 3, RATHNODI_OK);
    head("weighing/scale-1", RATHNODI_OK);
    length = get("weighing/scale-1", RATHNODI_OK);
    printf("%.*s", (int)length, (const char *)answer);

    say("Scale 2 is swapped out: its upload is aborted, and a late part finds no upload.");
    abort_upload(scale_2, RATHNODI_OK);
    part(scale_2, 2, "0.01 kg\n", RATHNODI_BAD_REQUEST);
    scale_2 = initiate(SHIFT + 900, "weighing/scale-2", RATHNODI_OK);

    say("What does not fit is refused, and changes nothing.");
    static uint8_t poster[LENT];
    put(SHIFT + 950, "label/poster.pbm", poster, arena_len, RATHNODI_ARENA_FULL);
    list("", "", 46, RATHNODI_BUFFER_SHORT);

    say("A shelf of old recipes is cleared in one call; a second one finds none of them.");
    copy(SHIFT + 960, "recipe/rye", "recipe/old/rye-1", RATHNODI_OK);
    copy(SHIFT + 961, "recipe/rye", "recipe/old/rye-2", RATHNODI_OK);
    copy(SHIFT + 962, "recipe/roll", "recipe/old/roll", RATHNODI_OK);
    list("recipe/old/", "", answer_len, RATHNODI_OK);
    delete_listed(RATHNODI_OK, RATHNODI_OK);
    delete_listed(RATHNODI_OK, RATHNODI_NOT_FOUND);

    say("Scale 2 is swapped out again and leaves uploads open: those from before the swap are swept, one at a time.");
    part(scale_2, 1, "03:16 wheat flour 49.97 kg\n", RATHNODI_OK);
    initiate(SHIFT + 970, "weighing/scale-2-late", RATHNODI_OK);
    initiate(SHIFT + 1000, "weighing/scale-2", RATHNODI_OK);
    uploads("", RATHNODI_OK);
    sweep(SHIFT + 1000, 1, RATHNODI_OK, 1, 1);
    sweep(SHIFT + 1000, 1, RATHNODI_OK, 1, 0);
    sweep(0, 1, RATHNODI_BAD_REQUEST, 0, 0);
    part(scale_2, 2, "03:17 water 29.01 kg\n", RATHNODI_BAD_REQUEST);

    say("The end of the shift.");
    delete("recipe/roll-sunday", RATHNODI_OK);
    list("recipe/", "", answer_len, RATHNODI_OK);
    list("", "", answer_len, RATHNODI_OK);
    uploads("", RATHNODI_OK);
}

/* Both files are written. */
static int closed(void)
{
    int failed = ferror(recording) | ferror(recorded_results);
    failed |= fclose(recording) | fclose(recorded_results);
    return !failed;
}

int main(int count, char **words)
{
    if (count != 1 && count != 3) {
        fprintf(stderr, "usage: panel [RECORDING RESULTS]\n");
        return 2;
    }
    if (count == 3) {
        recording = fopen(words[1], "wb");
        recorded_results = fopen(words[2], "w");
        if (recording == NULL || recorded_results == NULL) {
            perror("panel: the recording");
            return 1;
        }
        arena_len = answer_len = LENT;
    }
    shift();
    surprises += without_line != 1; /* the poster's */
    if (surprises > 0) {
        printf("\n%d surprises\n", surprises);
        return 1;
    }
    if (recording != NULL && !closed()) {
        perror("panel: the recording");
        return 1;
    }
    return 0;
}
