/*
 * The test "whole" by the length of paths, with two archives side by side: HEAD of the empty path over a full store (256
 * objects and 16 uploads whose paths differ in their last two letters; 70 objects where a path is one byte). With "calls",
 * that test, HEAD, GET, PUT and COMMIT of 16 parts at an object amid them instead, at some lengths, and that test where
 * each upload has 16 parts. No object has pairs, so archives from before and after pairs take the same memory, the former
 * the front of its tables. bench/paths builds and runs it. Microseconds, the smallest of many rounds, the two archives in
 * turn.
 */
#include <stdint.h>
#include <stdio.h>
#include <stdlib.h>
#include <string.h>
#include <time.h>

/* The version of each archive's interface: 2 has pairs. bench/paths says which it is. */
#ifndef BEFORE
#define BEFORE 1
#endif
#ifndef AFTER
#define AFTER 2
#endif

static uint8_t tables[58194], arena[65536], answer[16], reply[48], none[1];

/* The calls of an archive over this memory. */
struct calls {
    uint32_t (*fresh)(void);
    uint32_t (*put)(const uint8_t *path, size_t n);
    uint32_t (*initiate)(const uint8_t *path, size_t n);
    uint32_t (*get)(const uint8_t *path, size_t n);
    uint32_t (*head)(const uint8_t *path, size_t n);
    uint32_t (*part)(uint32_t upload, uint16_t part);
    uint32_t (*commit)(uint32_t upload, const uint8_t *list, size_t n);
    uint32_t (*abort)(uint32_t upload);
};

#define SLICES uint8_t *, size_t, uint8_t *, size_t
#define READ_SLICES const uint8_t *, size_t, const uint8_t *, size_t
#define STORE(len) tables, len, arena, sizeof arena
#define REPLY reply, sizeof reply

/* `in` is what version 2 adds to a call's slices to read, `out` to those to write; `len` is the length of the tables. */
#define CALLS(side, len, in_type, in, out_type, out)                                                                   \
    uint32_t side##_rathnodi_fresh(SLICES);                                                                            \
    uint32_t side##_rathnodi_put(SLICES, uint64_t, READ_SLICES in_type);                                               \
    uint32_t side##_rathnodi_initiate(SLICES, uint64_t, const uint8_t *, size_t in_type, uint8_t *, size_t);           \
    uint32_t side##_rathnodi_get(READ_SLICES, const uint8_t *, size_t, uint8_t *, size_t out_type, uint8_t *, size_t); \
    uint32_t side##_rathnodi_head(READ_SLICES, const uint8_t *, size_t out_type, uint8_t *, size_t);                   \
    uint32_t side##_rathnodi_part(SLICES, uint32_t, uint16_t, const uint8_t *, size_t, uint8_t *, size_t);             \
    uint32_t side##_rathnodi_commit(SLICES, uint32_t, const uint8_t *, size_t);                                        \
    uint32_t side##_rathnodi_abort(SLICES, uint32_t);                                                                  \
    static uint32_t side##_fresh(void) { return side##_rathnodi_fresh(STORE(len)); }                                   \
    static uint32_t side##_put(const uint8_t *path, size_t n)                                                          \
    {                                                                                                                  \
        return side##_rathnodi_put(STORE(len), 1, path, n, (const uint8_t *)"weighing", 8 in);                         \
    }                                                                                                                  \
    static uint32_t side##_initiate(const uint8_t *path, size_t n)                                                     \
    {                                                                                                                  \
        return side##_rathnodi_initiate(STORE(len), 1, path, n in, REPLY);                                             \
    }                                                                                                                  \
    static uint32_t side##_get(const uint8_t *path, size_t n)                                                          \
    {                                                                                                                  \
        return side##_rathnodi_get(STORE(len), path, n, answer, sizeof answer out, REPLY);                             \
    }                                                                                                                  \
    static uint32_t side##_head(const uint8_t *path, size_t n)                                                         \
    {                                                                                                                  \
        return side##_rathnodi_head(STORE(len), path, n out, REPLY);                                                   \
    }                                                                                                                  \
    static uint32_t side##_part(uint32_t upload, uint16_t part)                                                        \
    {                                                                                                                  \
        return side##_rathnodi_part(STORE(len), upload, part, (const uint8_t *)"weighing", 8, REPLY);                  \
    }                                                                                                                  \
    static uint32_t side##_commit(uint32_t upload, const uint8_t *list, size_t n)                                      \
    {                                                                                                                  \
        return side##_rathnodi_commit(STORE(len), upload, list, n);                                                    \
    }                                                                                                                  \
    static uint32_t side##_abort(uint32_t upload) { return side##_rathnodi_abort(STORE(len), upload); }                \
    static const struct calls side = {side##_fresh, side##_put,  side##_initiate, side##_get,                          \
                                      side##_head,  side##_part, side##_commit,   side##_abort};

#define COMMA ,
#define CALLS_1(side) CALLS(side, 53842, , , , )
#define CALLS_2(side) CALLS(side, 58194, COMMA const uint8_t * COMMA size_t, COMMA none COMMA 0,                        \
                            COMMA uint8_t * COMMA size_t, COMMA none COMMA 0)
#if BEFORE == 1
CALLS_1(before)
#else
CALLS_2(before)
#endif
#if AFTER == 1
CALLS_1(after)
#else
CALLS_2(after)
#endif

static double now(void)
{
    struct timespec t;
    clock_gettime(CLOCK_MONOTONIC, &t);
    return t.tv_sec * 1e6 + t.tv_nsec * 1e-3;
}

/* The path with number i: n bytes of "a", or of letters of two bytes, but for the last two letters. */
static void path(uint8_t *p, size_t n, int i, int wide)
{
    size_t step = wide ? 2 : 1;
    for (size_t k = 0; k + step <= n; k += step) {
        if (wide) p[k] = 0xC3;
        p[k + step - 1] = wide ? 0xA0 : 'a';
    }
    if (n == step) p[n - 1] = (uint8_t)((wide ? 0x80 : '0') + i);
    else {
        p[n - step - 1] = (uint8_t)(p[n - step - 1] + i / 16);
        p[n - 1] = (uint8_t)(p[n - 1] + i % 16);
    }
}

static int fill(size_t n, int wide)
{
    uint8_t p[128];
    int objects = n <= (wide ? 2u : 1u) ? (wide ? 60 : 70) : 256;
    uint32_t result = after.fresh();
    for (int i = 0; i < objects; i++) {
        path(p, n, i, wide);
        result |= after.put(p, n);
    }
    for (int i = 0; i < 16; i++) {
        path(p, n, i, wide);
        result |= after.initiate(p, n);
    }
    if (result) {
        fprintf(stderr, "a store with paths of %zu bytes is refused\n", n);
        exit(1);
    }
    return objects;
}

/* 16 parts of each upload of a store that was filled. */
static void fill_parts(void)
{
    for (uint32_t upload = 1; upload <= 16; upload++) {
        for (uint16_t i = 1; i <= 16; i++) {
            if (after.part(upload, i)) exit(1);
        }
    }
}

static double once(uint32_t (*call)(const uint8_t *, size_t), const uint8_t *p, size_t n)
{
    double start = now();
    uint32_t result = 0;
    for (int i = 0; i < 40; i++) result |= call(p, n);
    if (result) exit(1);
    return (now() - start) / 40;
}

/* The time of a COMMIT of 16 parts in ascending order, after the upload was opened at the path and its parts were set. */
static double commit_once(const struct calls *calls, const uint8_t *p, size_t n)
{
    uint8_t list[32];
    uint32_t upload, result = calls->initiate(p, n);
    memcpy(&upload, reply + 12, 4);
    for (uint16_t i = 0; i < 16; i++) {
        result |= calls->part(upload, (uint16_t)(i + 1));
        list[2 * i] = (uint8_t)(i + 1);
        list[2 * i + 1] = 0;
    }
    double start = now();
    result |= calls->commit(upload, list, sizeof list);
    double time = now() - start;
    if (result) exit(1);
    return time;
}

static double least(double a, double b) { return a < b ? a : b; }

static void by_length(int rounds)
{
    printf("bytes\tbefore\tafter\ttwo-byte letters\n");
    for (size_t n = 1; n <= 128; n++) {
        double x = 1e9, y = 1e9, z = 1e9;
        fill(n, 0);
        for (int i = 0; i < rounds; i++) {
            x = least(x, once(before.head, none, 0));
            y = least(y, once(after.head, none, 0));
        }
        printf("%zu\t%.2f\t%.2f\t", n, x, y);
        if (n % 2 == 0) {
            fill(n, 1);
            for (int i = 0; i < rounds; i++) z = least(z, once(after.head, none, 0));
            printf("%.2f", z);
        }
        printf("\n");
        fflush(stdout);
    }
}

static void print_row(size_t n, const char *name, double x, double y)
{
    printf("| %zu | %s | %.2f | %.2f | %.2f |\n", n, name, x, y, y / x);
    fflush(stdout);
}

/* The row of a call that both archives make, with the first `given` bytes of a path of n. */
static void time_row(size_t n, const char *name, uint32_t (*x_call)(const uint8_t *, size_t),
                     uint32_t (*y_call)(const uint8_t *, size_t), const uint8_t *p, size_t given, int rounds)
{
    double x = 1e9, y = 1e9;
    for (int round = 0; round < rounds; round++) {
        x = least(x, once(x_call, p, given));
        y = least(y, once(y_call, p, given));
    }
    print_row(n, name, x, y);
}

static void by_call(int rounds)
{
    static const size_t lengths[] = {4, 24, 64, 128};
    printf("| bytes of each path | call | before | after | after / before |\n|---|---|---|---|---|\n");
    for (size_t k = 0; k < sizeof lengths / sizeof *lengths; k++) {
        uint8_t p[128];
        size_t n = lengths[k];
        path(p, n, fill(n, 0) / 2, 0);
        time_row(n, "whole", before.head, after.head, p, 0, rounds);
        time_row(n, "HEAD", before.head, after.head, p, n, rounds);
        time_row(n, "GET", before.get, after.get, p, n, rounds);
        time_row(n, "PUT, again", before.put, after.put, p, n, rounds);
        double x = 1e9, y = 1e9;
        if (after.abort(16)) exit(1);
        for (int round = 0; round < 20 * rounds; round++) {
            x = least(x, commit_once(&before, p, n));
            y = least(y, commit_once(&after, p, n));
        }
        print_row(n, "COMMIT", x, y);
        fill(n, 0);
        fill_parts();
        time_row(n, "whole, 256 parts", before.head, after.head, p, 0, rounds);
    }
}

int main(int count, char **words)
{
    int rounds = count > 1 ? atoi(words[1]) : 200;
    if (count > 2 && strcmp(words[2], "calls") == 0) by_call(rounds);
    else by_length(rounds);
    return 0;
}
