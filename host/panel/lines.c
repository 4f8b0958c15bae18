/*
 * The header's functions that print a call as a line of a recording: every verb, the edges of a line and of its room,
 * and random calls beside the same text made by printf. With a path, the lines are written there too, for a reader of
 * other make. The last line counts.
 */
#include <inttypes.h>
#include <stdarg.h>
#include <string.h>

#include "check.h"
#include "rathnodi.h"

enum { BEFORE = 0xa5 };

static uint8_t out[RATHNODI_LINE_MAX + 64];
static FILE *recording;

#define BYTES(text) (const uint8_t *)(text), sizeof(text) - 1

/* The text that is expected, without its line feed. */
static char text[1 << 16];
static size_t text_len;

static void say(const char *format, ...)
{
    va_list arguments;
    va_start(arguments, format);
    text_len += (size_t)vsnprintf(text + text_len, sizeof text - text_len, format, arguments);
    va_end(arguments);
}

static void say_bytes(const uint8_t *bytes, size_t count)
{
    say("\"");
    for (size_t i = 0; i < count; i++) {
        say("%02x", bytes[i]);
    }
    say("\"");
}

static void expect(const char *whole)
{
    text_len = 0;
    say("%s", whole);
}

/* The bytes of `out` from this one on are as before. */
static int kept_from(size_t start)
{
    for (size_t i = start; i < sizeof out; i++) {
        if (out[i] != BEFORE) {
            return 0;
        }
    }
    return 1;
}

/* The expected text stands in `out` with a line feed, and nothing more. */
static int printed(size_t count)
{
    return count == text_len + 1 && memcmp(out, text, text_len) == 0 && out[text_len] == '\n' && kept_from(count);
}

/* What `out` begins with is a line of the recording. */
static void record(size_t count)
{
    if (recording != NULL) {
        check("the line is written", fwrite(out, 1, count, recording) == count);
    }
}

/* The call has the expected text in just its room and in more, and none in a byte less. */
#define PRINTS(what, function, ...)                                                                                \
    do {                                                                                                           \
        memset(out, BEFORE, sizeof out);                                                                           \
        check(what ": its room", printed(function(out, text_len + 1, __VA_ARGS__)));                               \
        memset(out, BEFORE, sizeof out);                                                                           \
        check(what ": more room", printed(function(out, sizeof out, __VA_ARGS__)));                                \
        record(text_len + 1);                                                                                      \
        memset(out, BEFORE, sizeof out);                                                                           \
        check(what ": a byte short", function(out, text_len, __VA_ARGS__) == 0 && kept_from(0));                   \
        check(what ": no room", function(out, 0, __VA_ARGS__) == 0 && kept_from(0));                               \
    } while (0)

/* The call has no line, however much room there is. */
#define NO_LINE(what, function, ...)                                                                               \
    do {                                                                                                           \
        memset(out, BEFORE, sizeof out);                                                                           \
        check(what, function(out, sizeof out, __VA_ARGS__) == 0 && kept_from(0));                                  \
    } while (0)

static void every_verb(void)
{
    expect("(put 5 \"61\" \"78797a\")");
    PRINTS("put", rathnodi_line_put, 5, BYTES("a"), BYTES("xyz"), BYTES(""));
    expect("(get \"61\")");
    PRINTS("get", rathnodi_line_get, BYTES("a"));
    expect("(head \"61\")");
    PRINTS("head", rathnodi_line_head, BYTES("a"));
    expect("(delete \"61\")");
    PRINTS("delete", rathnodi_line_delete, BYTES("a"));
    expect("(copy 9 \"61\" \"62\")");
    PRINTS("copy", rathnodi_line_copy, 9, BYTES("a"), BYTES("b"));
    expect("(list \"6162\" \"6263\")");
    PRINTS("list", rathnodi_line_list, BYTES("ab"), BYTES("bc"));
    expect("(initiate 7 \"72\")");
    PRINTS("initiate", rathnodi_line_initiate, 7, BYTES("r"), BYTES(""));
    expect("(part 1 2 \"42\")");
    PRINTS("part", rathnodi_line_part, 1, 2, BYTES("B"));
    expect("(commit 1 (2 1))");
    PRINTS("commit", rathnodi_line_commit, 1, BYTES("\2\0\1\0"));
    expect("(abort 1)");
    PRINTS("abort", rathnodi_line_abort, 1);
    expect("(uploads \"72\")");
    PRINTS("uploads", rathnodi_line_uploads, BYTES("r"));
}

static void edges(void)
{
    expect("(put 18446744073709551615 \"\" \"\")");
    PRINTS("the last stamp, and no bytes", rathnodi_line_put, UINT64_MAX, BYTES(""), BYTES(""), BYTES(""));
    expect("(put 0 \"00\" \"ff0a0d2229\")");
    PRINTS("stamp 0, and bytes of every kind", rathnodi_line_put, 0, BYTES("\0"), BYTES("\xff\n\r\")"), BYTES(""));
    expect("(part 4294967295 65535 \"\")");
    PRINTS("the last numbers", rathnodi_line_part, UINT32_MAX, UINT16_MAX, BYTES(""));
    expect("(part 10 100 \"\")");
    PRINTS("zeros inside numbers", rathnodi_line_part, 10, 100, BYTES(""));
    expect("(list \"\" \"\")");
    PRINTS("list of no bytes", rathnodi_line_list, BYTES(""), BYTES(""));
    expect("(get \"\")");
    PRINTS("the root", rathnodi_line_get, BYTES(""));

    expect("(commit 0 ())");
    PRINTS("no parts", rathnodi_line_commit, 0, BYTES(""));
    expect("(commit 3 (65535))");
    PRINTS("one part", rathnodi_line_commit, 3, BYTES("\xff\xff"));
    expect("(commit 3 (0 258 7))");
    PRINTS("three parts", rathnodi_line_commit, 3, BYTES("\0\0\2\1\7\0"));
    NO_LINE("an odd byte", rathnodi_line_commit, 3, BYTES("\1"));
    NO_LINE("an odd byte after a number", rathnodi_line_commit, 3, BYTES("\1\0\1"));

    expect("(put 5 \"61\" \"\" (\"6b\" \"76\"))");
    PRINTS("a pair", rathnodi_line_put, 5, BYTES("a"), BYTES(""), BYTES("\1k\1v"));
    expect("(initiate 5 \"61\" (\"6c6f74\" \"5237\") (\"\" \"\") (\"6b\" \"\"))");
    PRINTS("pairs", rathnodi_line_initiate, 5, BYTES("a"), BYTES("\3lot\2R7\0\0\1k\0"));
    static const uint8_t cut[] = "\1k\1v\3lot\2R7";
    for (size_t len = 0; len < sizeof cut - 1; len++) {
        if (len != 0 && len != 4) {
            NO_LINE("put with pairs that are cut off", rathnodi_line_put, 5, BYTES("a"), BYTES(""), cut, len);
            NO_LINE("initiate with pairs that are cut off", rathnodi_line_initiate, 5, BYTES("a"), cut, len);
        }
    }
}

/* Arguments that stand where the line goes. */
static void overlap(void)
{
    memset(out, BEFORE, sizeof out);
    memcpy(out, "recipe/rye\3lot\2R7", 17);
    expect("(put 5 \"7265636970652f727965\" \"727965\" (\"6c6f74\" \"5237\"))");
    check("overlap", printed(rathnodi_line_put(out, sizeof out, 5, out, 10, out + 7, 3, out + 10, 7)));
}

/* Lines of 4,096 bytes and of 4,097: by an even and an odd rest, by parts, by pairs. */
static void longest(void)
{
    static uint8_t data[5000];
    for (size_t i = 0; i < sizeof data; i++) {
        data[i] = (uint8_t)(i * 7);
    }
    for (size_t digits = 1; digits <= 2; digits++) {
        uint32_t upload = digits == 1 ? 1 : 10;
        for (size_t len = 2036; len <= 2046; len++) {
            expect(digits == 1 ? "(part 1 2 " : "(part 10 2 ");
            say_bytes(data, len);
            say(")");
            if (text_len <= RATHNODI_LINE_MAX) {
                PRINTS("a long part", rathnodi_line_part, upload, 2, data, len);
            } else {
                NO_LINE("a part that is too long", rathnodi_line_part, upload, 2, data, len);
            }
        }
    }
    /* (get "..") has 8 bytes beside its digits, (delete "..") 11. */
    expect("(get ");
    say_bytes(data, 2044);
    say(")");
    check("4,096 bytes", text_len == RATHNODI_LINE_MAX);
    PRINTS("4,096 bytes", rathnodi_line_get, data, 2044);
    NO_LINE("4,098 bytes", rathnodi_line_get, data, 2045);
    NO_LINE("4,097 bytes", rathnodi_line_delete, data, 2043);
    NO_LINE("a slice that is much too long", rathnodi_line_put, 5, BYTES("a"), data, sizeof data, BYTES(""));
    NO_LINE("two such slices", rathnodi_line_copy, 5, data, sizeof data, data, sizeof data);

    /* (commit 1 (..)) has 13 bytes beside the list. One list has 4,083 bytes, the other 4,084. */
    static uint8_t list[2 * 3000];
    for (size_t i = 0; i < 2042; i++) {
        rathnodi_part_list_set(list, i, 7);
    }
    expect("(commit 1 (7");
    for (size_t i = 1; i < 2042; i++) {
        say(" 7");
    }
    say("))");
    check("4,096 bytes", text_len == RATHNODI_LINE_MAX);
    PRINTS("4,096 bytes of parts", rathnodi_line_commit, 1, list, 2 * 2042);
    rathnodi_part_list_set(list, 2041, 10);
    NO_LINE("4,097 bytes of parts", rathnodi_line_commit, 1, list, 2 * 2042);
    NO_LINE("too many parts", rathnodi_line_commit, 1, list, sizeof list);

    /* A pair of no bytes has 8. */
    static uint8_t pairs[2 * 600];
    expect("(initiate 10 \"\"");
    for (size_t i = 0; i < 510; i++) {
        say(" (\"\" \"\")");
    }
    say(")");
    check("4,096 bytes", text_len == RATHNODI_LINE_MAX);
    PRINTS("4,096 bytes of pairs", rathnodi_line_initiate, 10, BYTES(""), pairs, 2 * 510);
    NO_LINE("4,097 bytes of pairs", rathnodi_line_initiate, 100, BYTES(""), pairs, 2 * 510);
    NO_LINE("too many pairs", rathnodi_line_initiate, 1, BYTES(""), pairs, sizeof pairs);
}

static uint32_t draw(uint32_t bound)
{
    static uint32_t state = 1;
    state = state * 1664525 + 1013904223;
    return (uint32_t)((uint64_t)(state >> 8) * bound >> 24);
}

static uint64_t any_number(void)
{
    uint64_t number = (uint64_t)draw(1 << 24) << 48 ^ (uint64_t)draw(1 << 24) << 24 ^ draw(1 << 24);
    return number >> draw(64);
}

struct bytes {
    uint8_t at[3000];
    size_t len;
};

static void any_bytes(struct bytes *bytes)
{
    bytes->len = draw(40) == 0 ? draw(sizeof bytes->at) : draw(40);
    for (size_t i = 0; i < bytes->len; i++) {
        bytes->at[i] = (uint8_t)draw(256);
    }
}

static void any_pairs(struct bytes *pairs)
{
    pairs->len = 0;
    for (uint32_t count = draw(2) * draw(12); count > 0; count--) {
        uint8_t key[255], value[255];
        size_t key_len = draw(20) == 0 ? draw(256) : draw(10), value_len = draw(20) == 0 ? draw(256) : draw(10);
        for (size_t i = 0; i < 255; i++) {
            key[i] = (uint8_t)draw(256);
            value[i] = (uint8_t)draw(256);
        }
        size_t before = pairs->len;
        if (rathnodi_pairs_add(pairs->at, sizeof pairs->at, &pairs->len, key, key_len, value, value_len)) {
            say(" (");
            say_bytes(pairs->at + before + 1, key_len);
            say(" ");
            say_bytes(pairs->at + before + 1 + key_len + 1, value_len);
            say(")");
        }
    }
}

/* The text has an end of its own; then the call has this text, or none where that is too long. */
#define SAID(function, ...)                                                                                        \
    do {                                                                                                           \
        say(")");                                                                                                  \
        if (text_len <= RATHNODI_LINE_MAX) {                                                                       \
            PRINTS("a random call", function, __VA_ARGS__);                                                        \
        } else {                                                                                                   \
            NO_LINE("a random call that is too long", function, __VA_ARGS__);                                      \
        }                                                                                                          \
    } while (0)

static void random_call(void)
{
    static struct bytes first, second, third;
    uint64_t stamp = any_number();
    uint32_t upload = (uint32_t)any_number();
    uint16_t part = (uint16_t)any_number();
    any_bytes(&first);
    any_bytes(&second);
    switch (draw(11)) {
    case 0:
        expect("(put");
        say(" %" PRIu64 " ", stamp);
        say_bytes(first.at, first.len);
        say(" ");
        say_bytes(second.at, second.len);
        any_pairs(&third);
        SAID(rathnodi_line_put, stamp, first.at, first.len, second.at, second.len, third.at, third.len);
        break;
    case 1:
        expect("(get ");
        say_bytes(first.at, first.len);
        SAID(rathnodi_line_get, first.at, first.len);
        break;
    case 2:
        expect("(head ");
        say_bytes(first.at, first.len);
        SAID(rathnodi_line_head, first.at, first.len);
        break;
    case 3:
        expect("(delete ");
        say_bytes(first.at, first.len);
        SAID(rathnodi_line_delete, first.at, first.len);
        break;
    case 4:
        expect("(copy");
        say(" %" PRIu64 " ", stamp);
        say_bytes(first.at, first.len);
        say(" ");
        say_bytes(second.at, second.len);
        SAID(rathnodi_line_copy, stamp, first.at, first.len, second.at, second.len);
        break;
    case 5:
        expect("(list ");
        say_bytes(first.at, first.len);
        say(" ");
        say_bytes(second.at, second.len);
        SAID(rathnodi_line_list, first.at, first.len, second.at, second.len);
        break;
    case 6:
        expect("(initiate");
        say(" %" PRIu64 " ", stamp);
        say_bytes(first.at, first.len);
        any_pairs(&third);
        SAID(rathnodi_line_initiate, stamp, first.at, first.len, third.at, third.len);
        break;
    case 7:
        expect("(part");
        say(" %" PRIu32 " %" PRIu16 " ", upload, part);
        say_bytes(first.at, first.len);
        SAID(rathnodi_line_part, upload, part, first.at, first.len);
        break;
    case 8:
        first.len -= first.len % 2;
        expect("(commit");
        say(" %" PRIu32 " (", upload);
        for (size_t i = 0; i < first.len; i += 2) {
            say(i == 0 ? "%u" : " %u", first.at[i] + 256u * first.at[i + 1]);
        }
        say(")");
        SAID(rathnodi_line_commit, upload, first.at, first.len);
        break;
    case 9:
        expect("(abort");
        say(" %" PRIu32, upload);
        SAID(rathnodi_line_abort, upload);
        break;
    default:
        expect("(uploads ");
        say_bytes(first.at, first.len);
        SAID(rathnodi_line_uploads, first.at, first.len);
    }
}

int main(int count, char **words)
{
    if (count > 1) {
        recording = fopen(words[1], "w");
        if (recording == NULL) {
            perror(words[1]);
            return 1;
        }
    }
    every_verb();
    edges();
    overlap();
    longest();
    for (int turn = 0; turn < 3000; turn++) {
        random_call();
    }
    if (recording != NULL) {
        check("the recording is written", fclose(recording) == 0);
    }
    return counted("lines");
}
