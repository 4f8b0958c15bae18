/*
 * How much stack the calls use: they run on a stack of their own, painted beforehand, over a store with many objects,
 * pairs and parts; delete_objects, with as many places as it takes, and lines of recordings run on one more each. The
 * header has the figure; more than LIMIT fails.
 */
#define _XOPEN_SOURCE 600
#include <stdio.h>
#include <string.h>
#include <ucontext.h>

#include "rathnodi.h"

enum { LIMIT = 16384, PAINT = 0xc7, OBJECTS = 100 };

static uint8_t tables[RATHNODI_TABLES_LEN];
static uint8_t arena[65536];
static uint8_t answer[65536];
static uint8_t pairs[RATHNODI_PAIRS_BYTES_MAX], pairs_answer[RATHNODI_PAIRS_BYTES_MAX];
static uint8_t former[RATHNODI_FORMER_TABLES_LEN];
static uint8_t reply[RATHNODI_REPLY_LEN];
static uint8_t data[4096];
static uint8_t names[10 * OBJECTS];
static uint8_t places[8 * RATHNODI_PLACES_MAX];
static uint8_t results[RATHNODI_PLACES_MAX];
static uint8_t stack[1 << 20];
static uint32_t refusals;

#define STORE tables, sizeof tables, arena, sizeof arena
#define PAIRS pairs, sizeof pairs
#define PAIRS_ANSWER pairs_answer, sizeof pairs_answer
#define BYTES(text) (const uint8_t *)(text), sizeof(text) - 1

/* As many pairs as there can be, with the longest keys and values, in descending order. */
static void fill_pairs(void)
{
    uint8_t key[RATHNODI_KEY_MAX], value[RATHNODI_VALUE_MAX];
    size_t len = 0;
    memset(value, '~', sizeof value);
    for (int i = RATHNODI_PAIRS_MAX; i > 0; i--) {
        memset(key, 'a' + i, sizeof key);
        refusals += !rathnodi_pairs_add(PAIRS, &len, key, sizeof key, value, sizeof value);
    }
}

static void calls(void)
{
    uint8_t path[] = "object/000";
    uint8_t forward[64], backward[64];
    refusals += rathnodi_fresh(STORE);
    for (int i = 0; i < OBJECTS; i++) {
        path[8] = (uint8_t)('0' + i / 10);
        path[9] = (uint8_t)('0' + i % 10);
        memcpy(names + 10 * i, path, 10);
        refusals += rathnodi_put(STORE, 1, path, 10, data, (size_t)(3 * i), pairs, 0);
        refusals += rathnodi_copy(STORE, 2, path, 10, BYTES("copy"));
    }
    memcpy(former, tables, sizeof former);
    refusals += rathnodi_carry_over(former, sizeof former, arena, sizeof arena, tables, sizeof tables);
    for (int i = 0; i < OBJECTS; i += 5) {
        refusals += rathnodi_put(STORE, 1, names + 10 * i, 10, data, (size_t)(3 * i), PAIRS);
        refusals += rathnodi_copy(STORE, 2, names + 10 * i, 10, BYTES("copy"));
    }
    for (uint32_t upload = 1; upload <= 2; upload++) {
        refusals += rathnodi_initiate(STORE, 3, BYTES("joined"), PAIRS, reply, sizeof reply);
        for (uint16_t part = 1; part <= 32; part++) {
            refusals += rathnodi_part(STORE, upload, part, data, 11u * part, reply, sizeof reply);
            forward[2 * part - 2] = (uint8_t)part;
            forward[2 * part - 1] = 0;
            backward[64 - 2 * part] = (uint8_t)part;
            backward[65 - 2 * part] = 0;
        }
    }
    refusals += rathnodi_uploads(STORE, BYTES(""), answer, sizeof answer, reply, sizeof reply);
    refusals += rathnodi_commit(STORE, 1, backward, sizeof backward);
    refusals += rathnodi_commit(STORE, 2, forward, sizeof forward);
    refusals += rathnodi_get(STORE, BYTES("joined"), answer, sizeof answer, PAIRS_ANSWER, reply, sizeof reply);
    refusals += rathnodi_head(STORE, BYTES("copy"), PAIRS_ANSWER, reply, sizeof reply);
    refusals += rathnodi_list(STORE, BYTES("object/"), BYTES("7"), answer, sizeof answer, reply, sizeof reply);
    for (uint32_t upload = 3; upload < 3 + RATHNODI_UPLOADS_MAX; upload++) {
        refusals += rathnodi_initiate(STORE, 3, BYTES("joined"), pairs, 0, reply, sizeof reply);
        refusals += rathnodi_part(STORE, upload, 1, data, 11, reply, sizeof reply);
    }
    refusals += rathnodi_sweep(STORE, 4, RATHNODI_UPLOADS_MAX, reply, sizeof reply);
    refusals += rathnodi_initiate(STORE, 3, BYTES("joined"), pairs, 0, reply, sizeof reply);
    refusals += rathnodi_abort(STORE, 3 + RATHNODI_UPLOADS_MAX);
    refusals += rathnodi_put(STORE, 9, BYTES("large"), data, sizeof data, PAIRS);
    refusals += rathnodi_delete(STORE, BYTES("joined"));
}

static void delete_objects(void)
{
    refusals += rathnodi_delete_objects(STORE, names, sizeof names, places, sizeof places, results, sizeof results);
}

static uint8_t line[RATHNODI_LINE_MAX + 1];

/* Replays the line that was printed to `line`, without its line feed. */
static void replay(size_t line_len)
{
    if (line_len == 0) {
        refusals++;
    } else {
        refusals += rathnodi_replay_line(STORE, line, line_len - 1, answer, sizeof answer, PAIRS_ANSWER, reply,
                                         sizeof reply);
    }
}

/* Long lines, of every verb. */
static void lines(void)
{
    uint8_t list[64];
    for (uint16_t part = 1; part <= 32; part++) {
        rathnodi_part_list_set(list, 32u - part, part);
    }
    refusals += rathnodi_fresh(STORE);
    replay(rathnodi_line_put(line, sizeof line, 1, BYTES("a"), data, 1200, PAIRS));
    replay(rathnodi_line_put(line, sizeof line, 1, BYTES("a"), data, 2000, pairs, 0));
    replay(rathnodi_line_copy(line, sizeof line, 2, BYTES("a"), BYTES("b")));
    replay(rathnodi_line_initiate(line, sizeof line, 3, BYTES("joined"), PAIRS));
    for (uint16_t part = 1; part <= 32; part++) {
        replay(rathnodi_line_part(line, sizeof line, 1, part, data, 60u * part));
    }
    replay(rathnodi_line_uploads(line, sizeof line, BYTES("")));
    replay(rathnodi_line_commit(line, sizeof line, 1, list, sizeof list));
    replay(rathnodi_line_initiate(line, sizeof line, 3, BYTES("joined"), pairs, 0));
    replay(rathnodi_line_abort(line, sizeof line, 2));
    replay(rathnodi_line_get(line, sizeof line, BYTES("joined")));
    replay(rathnodi_line_head(line, sizeof line, BYTES("joined")));
    replay(rathnodi_line_list(line, sizeof line, BYTES(""), BYTES("")));
    replay(rathnodi_line_delete(line, sizeof line, BYTES("joined")));
}

/* The bytes of stack that the work uses. */
static size_t used_by(void (*work)(void))
{
    static ucontext_t here, there;
    memset(stack, PAINT, sizeof stack);
    getcontext(&there);
    there.uc_stack.ss_sp = stack;
    there.uc_stack.ss_size = sizeof stack;
    there.uc_link = &here;
    makecontext(&there, work, 0);
    swapcontext(&here, &there);
    size_t untouched = 0;
    while (untouched < sizeof stack && stack[untouched] == PAINT) {
        untouched++;
    }
    return sizeof stack - untouched;
}

int main(void)
{
    fill_pairs();
    size_t by_lines = used_by(lines);
    size_t by_calls = used_by(calls);
    for (uint32_t i = 0; i < RATHNODI_PLACES_MAX; i++) {
        rathnodi_place_set(places, i, 10 * (i % OBJECTS), 10);
    }
    size_t by_delete_objects = used_by(delete_objects);
    for (size_t i = 0; i < OBJECTS; i++) {
        refusals += results[i];
    }
    printf("stack: the calls used %zu bytes, delete_objects %zu, replay_line %zu, %u refused\n", by_calls,
           by_delete_objects, by_lines, refusals);
    return by_calls > LIMIT || by_delete_objects > LIMIT || by_lines > LIMIT || refusals != 0;
}
