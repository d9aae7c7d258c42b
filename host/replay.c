/*
 * Makes the calls of a record again, on whatever processor this is compiled for, and holds each answer and each whole buffer
 * to the model's. `shim-compare brief FILE` writes the record; its layout is told at `entry` in host/compare/src/held.rs.
 *
 *     replay < FILE
 */
#include "shim.h"

#include <inttypes.h>
#include <stdio.h>
#include <stdlib.h>
#include <string.h>

enum { GUARD = 64, ROOM = 1 << 19 };

struct region {
    uint8_t *at; /* null where it is empty */
    size_t length;
};

static void stop(const char *why, const char *name, unsigned long calls)
{
    fprintf(stderr, "replay: %s: shim_%s, call %lu\n", why, name, calls);
    exit(1);
}

static int number(uint64_t *into)
{
    *into = 0;
    for (int i = 0; i < 8; i++) {
        int byte = getchar();
        if (byte == EOF)
            return 0;
        *into = *into << 8 | (uint64_t)byte;
    }
    return 1;
}

/* Each region has memory of its own, without room to spare. */
static struct region region(void)
{
    struct region r = {NULL, 0};
    uint64_t length;
    if (!number(&length) || length > ROOM)
        stop("the record is broken", "", 0);
    r.length = (size_t)length;
    if (length == 0)
        return r;
    r.at = malloc(r.length);
    if (r.at == NULL || fread(r.at, 1, r.length, stdin) != r.length)
        stop("the record is broken", "", 0);
    return r;
}

/* What a buffer holds before a call: the same as on the model's side. */
static uint8_t fill(size_t place)
{
    return (uint8_t)((place * 167) ^ (place >> 8) ^ 0x5A);
}

/* How many numbers and regions go in, and how many further numbers come out. */
static const struct shape {
    const char *name;
    int numbers, regions, further;
} shapes[] = {{"builtin", 1, 0, 0}, {"model", 0, 1, 0},      {"compare", 0, 2, 1},   {"run", 1, 3, 0},
              {"generate", 1, 2, 0}, {"image_read", 0, 1, 4}, {"image_run", 1, 2, 0}, {"list", 0, 1, 0},
              {"draw", 0, 1, 0},     {"undraw", 0, 1, 0}};

static const struct shape *shape_of(const struct region *name)
{
    for (size_t i = 0; i < sizeof shapes / sizeof *shapes; i++)
        if (strlen(shapes[i].name) == name->length && memcmp(shapes[i].name, name->at, name->length) == 0)
            return &shapes[i];
    stop("the record is broken", "", 0);
    return NULL;
}

static uint64_t call(const struct shape *shape, uint64_t n, const struct region *r, uint8_t *out, size_t room,
                     uint64_t *further, struct shim_answer *a)
{
    switch (shape - shapes) {
    case 0: return shim_builtin(n, out, room, a);
    case 1: return shim_model(r[0].at, r[0].length, out, room, a);
    case 2: return shim_compare(r[0].at, r[0].length, r[1].at, r[1].length, further, a);
    case 3:
        return shim_run(n, r[0].at, r[0].length, r[1].at, r[1].length, r[2].at, r[2].length, out, room, a);
    case 4: return shim_generate(n, r[0].at, r[0].length, r[1].at, r[1].length, out, room, a);
    case 5: return shim_image_read(r[0].at, r[0].length, out, room, further, a);
    case 6: return shim_image_run(r[0].at, r[0].length, n, r[1].at, r[1].length, out, room, a);
    case 7: return shim_list(r[0].at, r[0].length, out, room, a);
    case 8: return shim_draw(r[0].at, r[0].length, out, room, a);
    default: return shim_undraw(r[0].at, r[0].length, out, room, a);
    }
}

/* Makes the next call of the record; 0 at its end. */
static int replayed(unsigned long calls)
{
    static uint8_t bytes[GUARD + ROOM + GUARD];
    const struct shape *shape;
    struct region name, r[3] = {{NULL, 0}, {NULL, 0}, {NULL, 0}}, written;
    struct shim_answer a = {99, 99, 99, 99, 99};
    uint64_t n = 0, room, wanted[9], further[4] = {99, 99, 99, 99}, returned;
    int first = getchar();
    if (first == EOF)
        return 0;
    ungetc(first, stdin);

    name = region();
    shape = shape_of(&name);
    if ((shape->numbers == 1 && !number(&n)) || !number(&room) || room > ROOM)
        stop("the record is broken", shape->name, calls);
    for (int i = 0; i < shape->regions; i++)
        r[i] = region();
    for (int i = 0; i < 5 + shape->further; i++)
        if (!number(&wanted[i]))
            stop("the record is broken", shape->name, calls);
    written = region();

    memset(bytes, 0xA5, GUARD + (size_t)room + GUARD);
    for (size_t i = 0; i < room; i++)
        bytes[GUARD + i] = fill(i);
    returned = call(shape, n, r, room == 0 ? NULL : bytes + GUARD, (size_t)room, further, &a);

    if (returned != wanted[0] || a.number != wanted[0] || a.place != wanted[1] || a.written != wanted[2] ||
        a.fences != wanted[3] || a.state != wanted[4] || memcmp(further, wanted + 5, 8 * (size_t)shape->further) != 0)
        stop("another answer", shape->name, calls);
    for (size_t i = 0; i < GUARD + room + GUARD; i++) {
        size_t at = i - GUARD;
        uint8_t byte = i < GUARD || at >= room ? 0xA5 : at < written.length ? written.at[at] : fill(at);
        if (bytes[i] != byte)
            stop("another buffer", shape->name, calls);
    }
    free(name.at);
    free(written.at);
    for (int i = 0; i < 3; i++)
        free(r[i].at);
    return 1;
}

int main(void)
{
    unsigned long calls = 0;
    while (replayed(calls))
        calls++;
    if (calls == 0)
        stop("the record is empty", "", 0);
    printf("replay: %lu calls agree\n", calls);
    return 0;
}
