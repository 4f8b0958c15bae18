/*
 * The bytes under the store, measured: moves within a buffer against the C library's, the digest against OpenSSL's.
 * Run by `make bench-foundation`.
 */
#include <stdbool.h>
#include <stdint.h>
#include <stdio.h>
#include <stdlib.h>
#include <string.h>
#include <time.h>

#include <openssl/evp.h>

/* crate bench_probe */
uint32_t probe_copy_within(uint8_t *b, size_t len, size_t from, size_t to, size_t n);
uint32_t probe_splice(uint8_t *b, size_t len, size_t at, size_t n, size_t used, const uint8_t *src, size_t src_len);
uint32_t probe_rotate(uint8_t *b, size_t len, size_t at, size_t left, size_t right);
uint32_t probe_digest(const uint8_t *data, size_t len, uint8_t *out, size_t out_len);
uint32_t probe_digest_bytes(const uint8_t *data, size_t len, uint8_t *out, size_t out_len);
uint32_t probe_compare(const uint8_t *a, size_t a_len, const uint8_t *b, size_t b_len);

enum { MIB = 1 << 20, ROOM = MIB + 4096, DIGESTED = 65536 };

/* called through volatile pointers, so that the compiler can neither drop nor merge the calls */
static void *(*volatile move)(void *, const void *, size_t) = memmove;
static void *(*volatile copy)(void *, const void *, size_t) = memcpy;
static int (*volatile order)(const void *, const void *, size_t) = memcmp;

static uint8_t ours[ROOM], theirs[ROOM], held[ROOM];
static volatile uint32_t sink;
static unsigned wrong;

static double seconds(void)
{
    struct timespec t;
    clock_gettime(CLOCK_MONOTONIC, &t);
    return (double)t.tv_sec + 1e-9 * (double)t.tv_nsec;
}

/* The best time of each side. The sides take turns, so that both meet the machine's quiet moments, and work on the same bytes. */
#define TIMES(our, their, our_code, their_code)          \
    double our = 1e9, their = 1e9;                       \
    for (int run = 0; run < 400; run++) {                \
        double start = seconds();                        \
        for (int k = 0; k < 5; k++) {                    \
            our_code;                                    \
        }                                                \
        double middle = seconds();                       \
        for (int k = 0; k < 5; k++) {                    \
            their_code;                                  \
        }                                                \
        double end = seconds();                          \
        our = middle - start < our ? middle - start : our; \
        their = end - middle < their ? end - middle : their; \
    }                                                    \
    our /= 5;                                            \
    their /= 5

/* our time over theirs, for one thing done */
static void time_ratio(const char *name, double our, double their, double want)
{
    double ratio = our / their;
    printf("%-34s %9.1f us %9.1f us   time  %5.2f   want at most  %.1f   %s\n", name, our * 1e6, their * 1e6, ratio, want,
           ratio <= want ? "met" : "not met");
}

static void expect(bool right, const char *what)
{
    if (!right) {
        printf("wrong: %s\n", what);
        wrong++;
    }
}

static void fill(uint8_t *b, size_t n)
{
    uint32_t x = 1;
    for (size_t i = 0; i < n; i++) {
        x = x * 1664525 + 1013904223;
        b[i] = (uint8_t)(x >> 24);
    }
}

static void openssl_digest(const uint8_t *data, size_t n, uint8_t *out)
{
    EVP_Digest(data, n, out, NULL, EVP_md5(), NULL);
}

static void measure_copy_within(const char *name, size_t from, size_t to, size_t n)
{
    fill(ours, ROOM);
    fill(theirs, ROOM);
    expect(probe_copy_within(ours, ROOM, from, to, n) == 0, name);
    move(theirs + to, theirs + from, n);
    expect(memcmp(ours, theirs, ROOM) == 0, name);
    TIMES(our, their, sink = probe_copy_within(ours, ROOM, from, to, n), move(ours + to, ours + from, n));
    time_ratio(name, our, their, 1.3);
}

/* `gone` bytes at the front of a mebibyte give way to `come` others */
static void measure_splice(const char *name, size_t gone, size_t come)
{
    fill(ours, ROOM);
    fill(theirs, ROOM);
    expect(probe_splice(ours, ROOM, 64, gone, 64 + gone + MIB, held, come) == 0, name);
    move(theirs + 64 + come, theirs + 64 + gone, MIB);
    copy(theirs + 64, held, come);
    expect(memcmp(ours, theirs, ROOM) == 0, name);
    TIMES(our, their, sink = probe_splice(ours, ROOM, 64, gone, 64 + gone + MIB, held, come),
          move(ours + 64 + come, ours + 64 + gone, MIB); copy(ours + 64, held, come));
    time_ratio(name, our, their, 1.6);
}

/* Two measures of a rotation: against the same change in C, through a second buffer, and against one move in place of as many bytes, which
 * does less, since no byte has to be kept aside. */
static void measure_rotate(const char *same_change, const char *one_move, size_t left)
{
    size_t right = MIB - left;
    fill(ours, ROOM);
    fill(theirs, ROOM);
    expect(probe_rotate(ours, ROOM, 7, left, right) == 0, same_change);
    copy(held, theirs + 7, left);
    move(theirs + 7, theirs + 7 + left, right);
    copy(theirs + 7 + right, held, left);
    expect(memcmp(ours, theirs, ROOM) == 0, same_change);
    TIMES(our, their, sink = probe_rotate(ours, ROOM, 7, left, right),
          copy(held, ours + 7, left); move(ours + 7, ours + 7 + left, right); copy(ours + 7 + right, held, left));
    time_ratio(same_change, our, their, 1.6);
    TIMES(again, one, sink = probe_rotate(ours, ROOM, 7, left, right), move(ours + 7, ours + 107, MIB));
    time_ratio(one_move, again, one, 1.6);
}

/* strings of n bytes that differ at one place */
static void measure_compare(size_t n, size_t place)
{
    char name[64];
    snprintf(name, sizeof name, "compare, %zu bytes, %s differs", n, place == 0 ? "first" : "last");
    fill(ours, ROOM);
    fill(theirs, ROOM);
    ours[place] = 1;
    theirs[place] = 2;
    expect(probe_compare(ours, n, theirs, n) == 0 && probe_compare(theirs, n, ours, n) == 2 && probe_compare(ours, n, ours, n) == 1, name);
    TIMES(our, their, for (int i = 0; i < 1000; i++) sink = probe_compare(ours, n, theirs, n),
          for (int i = 0; i < 1000; i++) sink = (uint32_t)order(ours, theirs, n));
    printf("%-34s %9.2f ns %9.2f ns   time  %5.2f\n", name, our * 1e6, their * 1e6, our / their);
}

static int by_size(const void *a, const void *b)
{
    double x = *(const double *)a, y = *(const double *)b;
    return x < y ? -1 : x > y;
}

static double median(double *of, int n)
{
    qsort(of, (size_t)n, sizeof *of, by_size);
    return of[n / 2];
}

/* A digest whose steps take words, the one before, whose steps read bytes, and OpenSSL's. */
enum way { WORDS, BYTES, OPENSSL, WAYS };
enum { RUNS = 15, TURNS = 60 };

static void digest(enum way way, size_t n, uint8_t *out)
{
    switch (way) {
    case WORDS: sink = probe_digest(ours, n, out, 16); break;
    case BYTES: sink = probe_digest_bytes(ours, n, out, 16); break;
    default: openssl_digest(ours, n, out);
    }
}

/* The speed of one way over another's: the median of the runs' ratios, beside the medians of their times. */
static void speed_ratio(const char *name, double times[WAYS][RUNS], enum way one, enum way other, double want)
{
    double ratios[RUNS], one_times[RUNS], other_times[RUNS];
    for (int run = 0; run < RUNS; run++) {
        one_times[run] = times[one][run];
        other_times[run] = times[other][run];
        ratios[run] = other_times[run] / one_times[run];
    }
    double ratio = median(ratios, RUNS);
    printf("%-34s %9.1f us %9.1f us   speed %5.2f", name, median(one_times, RUNS) * 1e6, median(other_times, RUNS) * 1e6, ratio);
    if (want > 0) {
        printf("   want at least %.2f   %s", want, ratio >= want ? "met" : "not met");
    }
    printf("\n");
}

/* The three take turns; a run has the best time of each. */
static void measure_digest(void)
{
    uint8_t out[WAYS][16];
    fill(ours, ROOM);
    for (size_t n = 0; n < 300; n++) {
        for (enum way way = 0; way < WAYS; way++) {
            digest(way, n, out[way]);
            expect(memcmp(out[way], out[WORDS], 16) == 0, "digest");
        }
    }
    double times[WAYS][RUNS];
    for (int run = 0; run < RUNS; run++) {
        for (int turn = 0; turn < TURNS; turn++) {
            for (enum way way = 0; way < WAYS; way++) {
                double start = seconds();
                digest(way, DIGESTED, out[way]);
                double time = seconds() - start;
                times[way][run] = turn == 0 || time < times[way][run] ? time : times[way][run];
            }
        }
    }
    speed_ratio("digest, 65536 bytes", times, WORDS, OPENSSL, 1.0);
    speed_ratio("digest, against steps on bytes", times, WORDS, BYTES, 1.15);
    speed_ratio("steps on bytes, 65536 bytes", times, BYTES, OPENSSL, 0);
}

int main(void)
{
    printf("%-34s %12s %12s\n", "", "ours", "theirs");
    measure_copy_within("copy_within left, 1 MiB", 100, 0, MIB);
    measure_copy_within("copy_within right, 1 MiB", 0, 100, MIB);
    measure_copy_within("copy_within left by 33, 500 KB", 1033, 1000, 500000);
    measure_copy_within("copy_within left by 1024, 500 KB", 2024, 1000, 500000);
    measure_copy_within("copy_within right by 33, 500 KB", 1000, 1033, 500000);
    measure_copy_within("copy_within right by 1024, 500 KB", 1000, 2024, 500000);
    measure_splice("splice that inserts 33, 1 MiB", 0, 33);
    measure_splice("splice that removes 33, 1 MiB", 33, 0);
    measure_rotate("rotate 1 MiB at 100, same change", "rotate 1 MiB at 100, one move", 100);
    measure_rotate("rotate 1 MiB at 1/3, same change", "rotate 1 MiB at 1/3, one move", MIB / 3);
    measure_rotate("rotate 1 MiB at 1/2, same change", "rotate 1 MiB at 1/2, one move", MIB / 2);
    static const size_t compared[] = {4, 8, 16, 24, 32, 64, 128};
    for (size_t i = 0; i < sizeof compared / sizeof *compared; i++) {
        measure_compare(compared[i], 0);
        measure_compare(compared[i], compared[i] - 1);
    }
    measure_digest();
    return wrong != 0;
}
