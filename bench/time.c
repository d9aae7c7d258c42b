/*
 * Times the library beside plain C (plain.c) in one run on one machine, and prints the table. Arguments: the texts of A4096
 * and FULL. Both sides get the same input and a buffer that is large enough and not cleared in between; each first has to
 * give the same answer and the same bytes. A time is the least of several rounds.
 *
 * With a third argument, and under callgrind, it counts instead: each side makes one call, and callgrind writes down the
 * instructions of that call alone, under the name of the side and the job. bench/run makes a table of them.
 */
#define _POSIX_C_SOURCE 199309L
#include "plain.h"

#include <stdio.h>
#include <stdlib.h>
#include <string.h>
#include <time.h>
#include <valgrind/callgrind.h>

enum { ROUNDS = 15, ROOM = 8192 };
#define ROUND_SECONDS 0.02

static int counting;

struct bytes {
    uint8_t at[ROOM];
    size_t length;
};

/* One job with its input; `number` is the way or the start state. */
struct job {
    uint64_t (*library)(const struct job *, struct bytes *, struct shim_answer *);
    uint64_t (*plain)(const struct job *, struct bytes *, struct shim_answer *);
    uint64_t number;
    struct bytes first, second, stream;
};

static uint64_t library_model(const struct job *j, struct bytes *out, struct shim_answer *a)
{
    return shim_model(j->first.at, j->first.length, out->at, ROOM, a);
}

static uint64_t plain_model_(const struct job *j, struct bytes *out, struct shim_answer *a)
{
    return plain_model(j->first.at, j->first.length, out->at, ROOM, a);
}

static uint64_t library_run(const struct job *j, struct bytes *out, struct shim_answer *a)
{
    return shim_run(j->number, j->first.at, j->first.length, j->second.at, j->second.length, j->stream.at, j->stream.length,
                    out->at, ROOM, a);
}

static uint64_t plain_run_(const struct job *j, struct bytes *out, struct shim_answer *a)
{
    return plain_run(j->number, j->first.at, j->first.length, j->second.at, j->second.length, j->stream.at,
                     j->stream.length, out->at, ROOM, a);
}

static uint64_t library_generate(const struct job *j, struct bytes *out, struct shim_answer *a)
{
    return shim_generate(j->number, j->first.at, j->first.length, j->second.at, j->second.length, out->at, ROOM, a);
}

static uint64_t plain_generate_(const struct job *j, struct bytes *out, struct shim_answer *a)
{
    return plain_generate(j->number, j->first.at, j->first.length, j->second.at, j->second.length, out->at, ROOM, a);
}

static uint64_t library_image_run(const struct job *j, struct bytes *out, struct shim_answer *a)
{
    return shim_image_run(j->first.at, j->first.length, j->number, j->stream.at, j->stream.length, out->at, ROOM, a);
}

static uint64_t plain_image_run_(const struct job *j, struct bytes *out, struct shim_answer *a)
{
    return plain_image_run(j->first.at, j->first.length, j->number, j->stream.at, j->stream.length, out->at, ROOM, a);
}

static void stop(const char *why)
{
    fprintf(stderr, "bench: %s\n", why);
    exit(1);
}

/* ---- input */

static struct bytes builtin(uint64_t number)
{
    struct bytes b;
    struct shim_answer a;
    if (shim_builtin(number, b.at, ROOM, &a) != 0)
        stop("a built-in text was refused");
    b.length = (size_t)a.written;
    return b;
}

static struct bytes file(const char *path)
{
    struct bytes b;
    FILE *f = fopen(path, "rb");
    if (f == NULL)
        stop("a model's file cannot be read");
    b.length = fread(b.at, 1, ROOM, f);
    fclose(f);
    return b;
}

/* A text's first lines, so many, then `end`. */
static struct bytes with_lines(const struct bytes *text, int lines)
{
    struct bytes b = {{0}, 0};
    while (lines > 0 && b.length < text->length) {
        b.at[b.length] = text->at[b.length];
        lines -= b.at[b.length++] == '\n';
    }
    memcpy(b.at + b.length, "end\n", 4);
    b.length += 4;
    return b;
}

/* Operations drawn evenly from l, L, s, S and the upstream fences. */
static struct bytes stream_of(size_t length, unsigned fences)
{
    struct bytes b;
    uint64_t drawn = 1;
    for (b.length = 0; b.length < length; b.length++) {
        drawn = drawn * 6364136223846793005u + 1442695040888963407u;
        b.at[b.length] = (uint8_t) "lLsS0123456789ABCDEF"[(drawn >> 33) % (4 + fences)];
    }
    return b;
}

static struct bytes image_of(uint64_t way, const struct bytes *up, const struct bytes *target)
{
    struct bytes b;
    struct shim_answer a;
    if (plain_generate(way, up->at, up->length, target->at, target->length, b.at, ROOM, &a) != 0)
        stop("no machine");
    b.length = (size_t)a.written;
    return b;
}

/* ---- timing */

/* The program's own time, so that others on the machine count less. */
static double now(void)
{
    struct timespec t;
    clock_gettime(CLOCK_PROCESS_CPUTIME_ID, &t);
    return (double)t.tv_sec + 1e-9 * (double)t.tv_nsec;
}

typedef uint64_t call(const struct job *, struct bytes *, struct shim_answer *);

/* Seconds for so many calls. */
static double seconds(call *made, const struct job *j, long calls)
{
    static struct bytes out;
    struct shim_answer a;
    double began = now();
    for (long i = 0; i < calls; i++)
        made(j, &out, &a);
    return now() - began;
}

static long calls_for_a_round(call *made, const struct job *j)
{
    long calls = 1;
    while (seconds(made, j, calls) < ROUND_SECONDS)
        calls *= 2;
    return calls;
}

static void same_answers(const struct job *j)
{
    static struct bytes outs[2];
    struct shim_answer answers[2];
    memset(outs, 0x5A, sizeof outs);
    j->library(j, &outs[0], &answers[0]);
    j->plain(j, &outs[1], &answers[1]);
    if (memcmp(&answers[0], &answers[1], sizeof answers[0]) != 0 || memcmp(outs[0].at, outs[1].at, ROOM) != 0)
        stop("the library and plain C differ");
}

struct times {
    double library, plain; /* nanoseconds for a call */
};

/* The two sides take turns, so that a change in the machine's pace meets both. */
static struct times timed(const struct job *j)
{
    struct times least = {1e30, 1e30};
    long library_calls, plain_calls;
    same_answers(j);
    library_calls = calls_for_a_round(j->library, j);
    plain_calls = calls_for_a_round(j->plain, j);
    for (int round = 0; round < ROUNDS; round++) {
        double library = 1e9 * seconds(j->library, j, library_calls) / (double)library_calls;
        double plain = 1e9 * seconds(j->plain, j, plain_calls) / (double)plain_calls;
        least.library = library < least.library ? library : least.library;
        least.plain = plain < least.plain ? plain : least.plain;
    }
    return least;
}

static void count(const char *side, call *made, const struct job *j, const char *name, double parts, const char *part)
{
    static struct bytes out;
    struct shim_answer a;
    char words[200];
    snprintf(words, sizeof words, "%s | %s | %.0f %s", side, name, parts, part);
    CALLGRIND_ZERO_STATS;
    made(j, &out, &a);
    CALLGRIND_DUMP_STATS_AT(words);
}

/* A line of the table; `parts` is how many operations, situations or bytes the job has. */
static struct times line(const char *name, double parts, const char *part, const struct job *j)
{
    struct times t = {0, 0};
    if (counting) {
        count("library", j->library, j, name, parts, part);
        count("plain C", j->plain, j, name, parts, part);
        return t;
    }
    t = timed(j);
    printf("| %s | %.0f %s | %.0f | %.0f | %.2f | %.2f | %.2f |\n", name, parts, part, t.library, t.plain,
           t.library / t.plain, t.library / parts, t.plain / parts);
    fflush(stdout);
    return t;
}

/* How many times as much the last takes as the first. */
static void growth(const char *name, double first, double last, struct times a, struct times b)
{
    if (counting)
        return;
    printf("| %s, %.0f to %.0f: times as long | %.0f times as many | %.1f | %.1f | | | |\n", name, first, last, last / first,
           b.library / a.library, b.plain / a.plain);
}

static void runs(const char *names, uint64_t up, uint64_t target, uint64_t way, unsigned fences)
{
    static const size_t lengths[] = {64, 512, SHIM_STREAM_LIMIT};
    struct job j = {library_run, plain_run_, way, builtin(up), builtin(target), {{0}, 0}};
    struct job k = {library_image_run, plain_image_run_, 0, image_of(way, &j.first, &j.second), {{0}, 0}, {{0}, 0}};
    struct times direct[3], by_image[3];
    char name[100];
    for (int i = 0; i < 3; i++) {
        j.stream = k.stream = stream_of(lengths[i], fences);
        snprintf(name, sizeof name, "direct run, %s", names);
        direct[i] = line(name, (double)lengths[i], "operations", &j);
        snprintf(name, sizeof name, "image run, %s", names);
        by_image[i] = line(name, (double)lengths[i], "operations", &k);
    }
    growth("direct run", 64, SHIM_STREAM_LIMIT, direct[0], direct[2]);
    growth("image run", 64, SHIM_STREAM_LIMIT, by_image[0], by_image[2]);
}

static void generation(const struct bytes *a4096, const struct bytes *full)
{
    /* A4096 without its last fences reaches fewer situations; TSO on ARM has eight. */
    static const struct { int lines; double situations; } sizes[] = {{5, 64}, {8, 256}, {11, 1024}, {14, 4096}};
    struct job j = {library_generate, plain_generate_, SHIM_FULL, builtin(1), builtin(15), {{0}, 0}};
    struct times least = line("generate, TSO on ARM, full", 8, "situations", &j), most = least;
    j.first = builtin(7), j.second = builtin(14), j.number = SHIM_SPARING;
    line("generate, POWER on POWER, sparing", 109, "situations", &j);
    j.number = SHIM_FULL, j.second = *full;
    for (size_t i = 0; i < sizeof sizes / sizeof *sizes; i++) {
        j.first = with_lines(a4096, sizes[i].lines);
        most = line("generate, A4096's first fences on FULL, full", sizes[i].situations, "situations", &j);
    }
    growth("generate", 8, 4096, least, most);
    plain_linear = 1;
    line("generate, A4096 on FULL, full; plain C by linear search", 4096, "situations", &j);
    plain_linear = 0;
}

/* All built-in pairs both ways, as one sum. */
static void built_in_pairs(void)
{
    struct times sum = {0, 0};
    for (uint64_t up = 0; up < SHIM_BUILTINS; up++)
        for (uint64_t target = 0; target < SHIM_BUILTINS; target++)
            for (uint64_t way = 0; way < 2; way++) {
                struct job j = {library_generate, plain_generate_, way, builtin(up), builtin(target), {{0}, 0}};
                same_answers(&j);
                sum.library += 1e9 * seconds(j.library, &j, 20) / 20;
                sum.plain += 1e9 * seconds(j.plain, &j, 20) / 20;
            }
    printf("| generate, every built-in pair both ways | 512 machines | %.0f | %.0f | %.2f | %.2f | %.2f |\n", sum.library,
           sum.plain, sum.library / sum.plain, sum.library / 512, sum.plain / 512);
}

int main(int given, char **words)
{
    struct bytes a4096, full;
    struct job j = {library_model, plain_model_, 0, {{0}, 0}, {{0}, 0}, {{0}, 0}};
    if (given != 3 && given != 4)
        stop("usage: time A4096 FULL [count]");
    counting = given == 4;
    a4096 = file(words[1]);
    full = file(words[2]);
    if (!counting)
        printf("| job | size | library ns | plain C ns | ratio | library ns each | plain C ns each |\n|---|---|---|---|---|---|---|\n");
    runs("TSO on ARM, full", 1, 15, SHIM_FULL, 1);
    runs("POWER on POWER, sparing", 7, 14, SHIM_SPARING, 2);
    generation(&a4096, &full);
    if (!counting)
        built_in_pairs();
    j.first = builtin(1);
    line("model reading, TSO", (double)j.first.length, "bytes", &j);
    j.first = a4096;
    line("model reading, A4096", (double)j.first.length, "bytes", &j);
    return 0;
}
