/*
 * A replay beside the same calls made directly: 100,000 puts of 1 KiB and 100,000 heads, over a store with 32 objects.
 * Three ways, in turn, in one run: the calls, replay_line with their lines, and the program with the recording as its
 * input. The best of ROUNDS each.
 *
 *     replay PROGRAM
 */
#define _DEFAULT_SOURCE
#include <fcntl.h>
#include <stdio.h>
#include <stdlib.h>
#include <string.h>
#include <sys/wait.h>
#include <time.h>
#include <unistd.h>

#include "rathnodi.h"

enum { CALLS = 100000, ROUNDS = 7, PATHS = 32, DATA = 1024, LENT = 65536 };

static uint8_t tables[RATHNODI_TABLES_LEN], arena[LENT], answer[LENT], pairs_answer[LENT], reply[RATHNODI_REPLY_LEN];
static uint8_t data[DATA];

/* Room for all lines: a put's has two digits for each byte of data, and less than 100 more. */
#define RECORDING ((size_t)(PATHS + CALLS) * (2 * DATA + 100))

/* The recording: the puts that fill the store, then the calls that are timed. */
static uint8_t *recording;
static size_t recording_len, timed_from;

#define STORE tables, sizeof tables, arena, sizeof arena
#define REPLY reply, sizeof reply

static double now(void)
{
    struct timespec time;
    clock_gettime(CLOCK_MONOTONIC, &time);
    return (double)time.tv_sec + 1e-9 * (double)time.tv_nsec;
}

static const uint8_t *path_of(int call)
{
    static uint8_t path[] = "object/00";
    path[7] = (uint8_t)('0' + call % PATHS / 10);
    path[8] = (uint8_t)('0' + call % PATHS % 10);
    return path;
}

static uint32_t put(int call)
{
    memcpy(data, &call, sizeof call);
    return rathnodi_put(STORE, (uint64_t)call + 1, path_of(call), 9, data, DATA, data, 0);
}

static uint32_t head(int call)
{
    return rathnodi_head(STORE, path_of(call), 9, pairs_answer, sizeof pairs_answer, REPLY);
}

static size_t put_line(uint8_t *out, size_t room, int call)
{
    memcpy(data, &call, sizeof call);
    return rathnodi_line_put(out, room, (uint64_t)call + 1, path_of(call), 9, data, DATA, data, 0);
}

static size_t head_line(uint8_t *out, size_t room, int call)
{
    return rathnodi_line_head(out, room, path_of(call), 9);
}

static uint32_t refusals;

static void fill(void)
{
    refusals += rathnodi_fresh(STORE);
    for (int call = 0; call < PATHS; call++) {
        refusals += put(call);
    }
}

static double by_calls(uint32_t (*make)(int))
{
    fill();
    double start = now();
    for (int call = 0; call < CALLS; call++) {
        refusals += make(call);
    }
    return now() - start;
}

static double by_lines(void)
{
    fill();
    double start = now();
    for (size_t at = timed_from; at < recording_len;) {
        size_t len = (size_t)((uint8_t *)memchr(recording + at, '\n', recording_len - at) - (recording + at));
        refusals += rathnodi_replay_line(STORE, recording + at, len, answer, sizeof answer, pairs_answer,
                                         sizeof pairs_answer, REPLY);
        at += len + 1;
    }
    return now() - start;
}

/* The program, with the first so many bytes of the recording in a file as its input. */
static double by_program(char *program, size_t len)
{
    char name[] = "/tmp/rathnodi-bench-XXXXXX";
    int input = mkstemp(name), output = open("/dev/null", O_WRONLY), status = 0;
    unlink(name);
    for (size_t at = 0; at < len;) {
        ssize_t written = write(input, recording + at, len - at);
        if (written <= 0) {
            perror("the recording");
            exit(1);
        }
        at += (size_t)written;
    }
    lseek(input, 0, SEEK_SET);
    double start = now();
    pid_t child = fork();
    if (child == 0) {
        dup2(input, 0);
        dup2(output, 1);
        execv(program, (char *[]){program, NULL});
        _exit(127);
    }
    waitpid(child, &status, 0);
    double seconds = now() - start;
    refusals += status != 0;
    close(input);
    close(output);
    return seconds;
}

static void best(double *least, double seconds)
{
    *least = *least == 0 || seconds < *least ? seconds : *least;
}

static void measure(const char *what, char *program, uint32_t (*make)(int), size_t (*print)(uint8_t *, size_t, int))
{
    recording_len = 0;
    for (int call = 0; call < PATHS + CALLS; call++) {
        size_t room = RECORDING - recording_len;
        size_t len = call < PATHS ? put_line(recording + recording_len, room, call)
                                  : print(recording + recording_len, room, call - PATHS);
        refusals += len == 0;
        recording_len += len;
        timed_from = call == PATHS - 1 ? recording_len : timed_from;
    }
    double calls = 0, lines = 0, whole = 0, start = 0;
    for (int round = 0; round < ROUNDS; round++) {
        best(&calls, by_calls(make));
        best(&lines, by_lines());
        best(&whole, by_program(program, recording_len));
        best(&start, by_program(program, timed_from));
    }
    printf("%-6s %12.3f %12.3f %12.3f %9.2f %9.2f\n", what, 1e6 * calls / CALLS, 1e6 * lines / CALLS,
           1e6 * (whole - start) / CALLS, lines / calls, (whole - start) / calls);
}

int main(int count, char **words)
{
    recording = malloc(RECORDING);
    if (count != 2 || recording == NULL) {
        fprintf(stderr, "usage: replay PROGRAM\n");
        return 2;
    }
    printf("microseconds a call      direct  replay_line      program   (of direct: line, program)\n");
    measure("put", words[1], put, put_line);
    measure("head", words[1], head, head_line);
    if (refusals != 0) {
        printf("%u refusals\n", refusals);
    }
    return refusals != 0;
}
