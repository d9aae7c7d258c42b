/*
 * A translator's loop in small: reads the guest's model from standard input, generates the shim for a POWER processor once,
 * then passes the guest's operations through it block by block, keeping nothing between blocks but the state's number.
 *
 *     cc -Iinclude host/example.c target/archive/PROCESSOR/libshim.a -o example
 *     ./example < host/example.model
 */
#include "shim.h"

#include <inttypes.h>
#include <stdio.h>
#include <string.h>

#define POWER 14

/* What a translator would meet: blocks of one guest thread, the last of them damaged. */
static const char *const blocks[] = {"ss", "", "l1l0s", "LS", "sl0l", "1s0s1l", "s9"};

static int refused(const char *what, const struct shim_answer *answer)
{
    printf("%s: refused %" PRIu64 " at %" PRIu64 "\n", what, answer->number, answer->place);
    return 1;
}

int main(void)
{
    static uint8_t guest[SHIM_TEXT_LIMIT + 1], text[SHIM_TEXT_OUT], processor[SHIM_TEXT_OUT];
    static uint8_t image[SHIM_IMAGE_LIMIT], copy[SHIM_IMAGE_LIMIT], out[SHIM_IMAGE_RUN_OUT];
    struct shim_answer answer;
    uint64_t header[4], state = 0;
    size_t guest_length = fread(guest, 1, sizeof guest, stdin), processor_length, image_length;

    /* Trying the model alone tells whose text is at fault if one is. */
    if (shim_model(guest, guest_length, text, sizeof text, &answer) != SHIM_DONE)
        return refused("guest's model", &answer);
    if (shim_builtin(POWER, processor, sizeof processor, &answer) != SHIM_DONE)
        return refused("processor's model", &answer);
    processor_length = (size_t)answer.written;

    if (shim_generate(SHIM_SPARING, guest, guest_length, processor, processor_length, image, sizeof image, &answer) !=
        SHIM_DONE)
        return refused("generate", &answer);
    image_length = (size_t)answer.written;

    if (shim_image_read(image, image_length, copy, sizeof copy, header, &answer) != SHIM_DONE)
        return refused("image", &answer);
    printf("%" PRIu64 " states, %" PRIu64 " fences upstream, %" PRIu64 " of the target\n", header[1], header[2], header[3]);

    for (size_t i = 0; i < sizeof blocks / sizeof *blocks; i++) {
        const uint8_t *block = (const uint8_t *)blocks[i];
        if (shim_image_run(image, image_length, state, block, strlen(blocks[i]), out, sizeof out, &answer) != SHIM_DONE) {
            refused(blocks[i], &answer); /* the thread stays where it was */
            continue;
        }
        printf("%s: %.*s, %" PRIu64 " fences, state %" PRIu64 "\n", blocks[i], (int)answer.written, (const char *)out,
               answer.fences, answer.state);
        state = answer.state;
    }
    return 0;
}
