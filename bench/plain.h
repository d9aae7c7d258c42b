/* The jobs of four calls as plain C, to be timed beside the library. Arguments and answers are those of shim.h. */
#ifndef PLAIN_H
#define PLAIN_H

#include "shim.h"

uint64_t plain_model(const uint8_t *text, size_t text_length, uint8_t *out, size_t out_length, struct shim_answer *answer);

uint64_t plain_run(uint64_t way, const uint8_t *upstream, size_t upstream_length, const uint8_t *target,
                   size_t target_length, const uint8_t *stream, size_t stream_length, uint8_t *out, size_t out_length,
                   struct shim_answer *answer);

uint64_t plain_generate(uint64_t way, const uint8_t *upstream, size_t upstream_length, const uint8_t *target,
                        size_t target_length, uint8_t *out, size_t out_length, struct shim_answer *answer);

/* Set, plain_generate keeps all situations in one chain and looks each up from its front. */
extern int plain_linear;

uint64_t plain_image_run(const uint8_t *image, size_t image_length, uint64_t start, const uint8_t *stream,
                         size_t stream_length, uint8_t *out, size_t out_length, struct shim_answer *answer);

#endif
