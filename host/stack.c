/*
 * Measures how much stack each call uses at most on large input, and holds it to the numbers of shim.h.
 *
 *     stack UPSTREAM TARGET      (the texts of A4096 and FULL, whose machine has as many situations as there may be)
 */
#define _DEFAULT_SOURCE
#include "shim.h"

#include <pthread.h>
#include <stdio.h>
#include <stdlib.h>
#include <string.h>
#include <sys/mman.h>

enum { STACK = 8 << 20, MARK = 0xA5 };

static uint8_t upstream[SHIM_TEXT_LIMIT], target[SHIM_TEXT_LIMIT], image[SHIM_IMAGE_LIMIT], input[SHIM_LIST_INPUT_LIMIT];
static uint8_t stream[SHIM_STREAM_LIMIT], out[SHIM_LIST_OUT], drawing[SHIM_DRAWING_OUT];
static size_t upstream_length, target_length, image_length, input_length, drawing_length;
static struct shim_answer answer;
static uint64_t numbers[4];

static void nothing(void) {}
static void builtin(void) { shim_builtin(9, out, sizeof out, &answer); }
static void model(void) { shim_model(upstream, upstream_length, out, sizeof out, &answer); }
static void compare(void) { shim_compare(upstream, upstream_length, target, target_length, numbers, &answer); }
static void run(void)
{
    shim_run(SHIM_FULL, upstream, upstream_length, target, target_length, stream, sizeof stream, out, sizeof out, &answer);
}
static void generate(void)
{
    shim_generate(SHIM_FULL, upstream, upstream_length, target, target_length, image, sizeof image, &answer);
    image_length = (size_t)answer.written;
}
static void image_read(void) { shim_image_read(image, image_length, out, sizeof out, numbers, &answer); }
static void image_run(void)
{
    shim_image_run(image, image_length, 0, stream, sizeof stream, out, sizeof out, &answer);
}
static void list(void) { shim_list(input, input_length, out, sizeof out, &answer); }
static void draw(void)
{
    shim_draw(image, image_length, drawing, sizeof drawing, &answer);
    drawing_length = (size_t)answer.written;
}
static void undraw(void) { shim_undraw(drawing, drawing_length, out, sizeof out, &answer); }

static const struct {
    const char *name;
    void (*made)(void);
    size_t most;
} calls[] = {{"builtin", builtin, SHIM_STACK_OTHERS},      {"model", model, SHIM_STACK_OTHERS},
             {"compare", compare, SHIM_STACK_OTHERS},      {"run", run, SHIM_STACK_OTHERS},
             {"generate", generate, SHIM_STACK_GENERATE},  {"image_read", image_read, SHIM_STACK_OTHERS},
             {"image_run", image_run, SHIM_STACK_OTHERS},  {"list", list, SHIM_STACK_GENERATE},
             {"draw", draw, SHIM_STACK_GENERATE},          {"undraw", undraw, SHIM_STACK_OTHERS}};

static void stop(const char *why)
{
    fprintf(stderr, "stack: %s\n", why);
    exit(1);
}

static void *begin(void *made)
{
    (*(void (**)(void))made)();
    return NULL;
}

/* The call in a thread of its own, on a stack full of marks; how deep they are gone. */
static size_t depth(void (*made)(void))
{
    pthread_t thread;
    pthread_attr_t attributes;
    size_t untouched = 0;
    uint8_t *stack = mmap(NULL, STACK, PROT_READ | PROT_WRITE, MAP_PRIVATE | MAP_ANONYMOUS, -1, 0);
    if (stack == MAP_FAILED)
        stop("no memory for a stack");
    memset(stack, MARK, STACK);
    pthread_attr_init(&attributes);
    if (pthread_attr_setstack(&attributes, stack, STACK) != 0 ||
        pthread_create(&thread, &attributes, begin, &made) != 0)
        stop("no thread");
    pthread_join(thread, NULL);
    pthread_attr_destroy(&attributes);
    while (untouched < STACK && stack[untouched] == MARK)
        untouched++;
    munmap(stack, STACK);
    return STACK - untouched;
}

static size_t file(const char *path, uint8_t *into)
{
    size_t length;
    FILE *f = fopen(path, "rb");
    if (f == NULL)
        stop("a model's file cannot be read");
    length = fread(into, 1, SHIM_TEXT_LIMIT, f);
    fclose(f);
    return length;
}

static void put(const void *bytes, size_t length)
{
    memcpy(input + input_length, bytes, length);
    input_length += length;
}

int main(int count, char **words)
{
    size_t bare, failed = 0;
    if (count != 3)
        stop("usage: stack UPSTREAM TARGET");
    upstream_length = file(words[1], upstream);
    target_length = file(words[2], target);
    memset(stream, 'l', sizeof stream);
    put(upstream, upstream_length);
    put(target, target_length);
    put("way full\nrun ", 13);
    put(stream, sizeof stream);
    put("\n", 1);

    bare = depth(nothing);
    for (size_t i = 0; i < sizeof calls / sizeof *calls; i++) {
        size_t used = depth(calls[i].made) - bare;
        printf("shim_%s: %zu bytes of stack\n", calls[i].name, used);
        if (answer.number != SHIM_DONE)
            stop("a call was refused");
        if (used > calls[i].most) {
            fprintf(stderr, "stack: shim_%s uses more than shim.h says, %zu\n", calls[i].name, calls[i].most);
            failed = 1;
        }
    }
    return (int)failed;
}
