/*
 * shim.h: the shim library for a translator written in C.
 *
 * A shim receives the memory operations of one guest thread under an upstream model and passes them to a processor with a
 * target model, adding fences. These calls read models, run shims, generate a shim's state machine, store it and draw it.
 *
 * Every call
 * - takes every input. What is wrong with it is told by a refusal, with a number (SHIM_REFUSED_...) and a place;
 * - sets all five numbers of *answer and returns the first of them, 0 where nothing was refused;
 * - when refused, gives 0 for written, fences and state and leaves every byte of `out` as it was;
 * - when it succeeds, changes exactly the first `written` bytes of `out`;
 * - allocates nothing, keeps nothing between calls and may be made from any thread.
 *
 * A region is a pointer and its length in bytes. A length of nought is always legal, and its pointer may then be null.
 * Regions of one call, with *answer, *relation and `header`, must not overlap each other, and a region must be all there.
 *
 * Refusals are tried in the order that each call lists; the first that holds is given. "text: 1, 2, 3" below means the
 * refusals of reading a model's text in that order.
 *
 * A model's text, one line feed after each line and nothing else:
 *
 *     model NAME
 *     ppo TABLE
 *     fence NAME TABLE      (0 to 16 such lines)
 *     end
 *
 * A name is 1 to 16 ASCII letters, digits or underscores. A table is four words of four cells, each `-`, `N`, `M` or `S` in
 * rising strength: a word for each earlier access (cld, cst, ld, st), a cell for each later one (ld, cld, st, cst).
 *
 * A stream is one byte for each operation: `l` ld, `L` cld, `s` st, `S` cst, and `0` to `9`, `A` to `F` for fences 0 to 15:
 * the upstream model's fences in a stream that goes in, the target model's in one that comes out.
 *
 * A drawing is a machine as a graph in the DOT language, for Graphviz and for people. One line feed after each line and
 * nothing else; what stands in capitals is filled in:
 *
 *     digraph shim {
 *     label="UPSTREAM TARGET WAY UPSTREAM_FENCES TARGET_FENCES";
 *     STATE;                                 (one such line for each state, from 0 up)
 *     STATE -> NEXT [label="OPERATION MARK"];
 *     STATE -> refused [label="OPERATION !"];
 *     }
 *
 * In the label stand both models' names, `full` or `sparing` and the two numbers of fences, 0 to 16. After the states comes
 * one edge for each state and each operation, state by state, the operations in the order l, L, s, S, then the upstream
 * model's fences from 0 up. MARK is the byte of the target's fence that is inserted, or `-` for none, as it always is for an
 * upstream fence. An access that is refused has an edge to `refused`. Numbers are decimal, without leading zeros.
 */
#ifndef SHIM_H
#define SHIM_H

#include <stddef.h>
#include <stdint.h>

#ifdef __cplusplus
extern "C" {
#endif

/* The version of the library, and of the command `shim` over it. */
#define SHIM_VERSION "0.1.0"

/* The ways of choosing a fence. */
#define SHIM_SPARING 0 /* the lowest-numbered fence that will do */
#define SHIM_FULL 1    /* the highest-numbered fence, or none */

/* What may go in, at most. */
#define SHIM_TEXT_LIMIT 1024        /* bytes of a model's text */
#define SHIM_STREAM_LIMIT 4096      /* operations of a stream */
#define SHIM_IMAGE_LIMIT 7168       /* bytes of an image, 14 blocks of 512 */
#define SHIM_LIST_INPUT_LIMIT 32768 /* bytes that shim_list takes */
#define SHIM_DRAWING_LIMIT 262144   /* bytes of a drawing */
#define SHIM_SITUATION_LIMIT 4096   /* situations that a shim may reach */
#define SHIM_STATE_LIMIT 255        /* states of a machine */
#define SHIM_BUILTINS 16            /* built-in models are numbered from 0 to 15 */
#define SHIM_MODEL_FENCES 16        /* fences of a model */

/* What may come out, at most: a buffer of this size is never too small. */
#define SHIM_TEXT_OUT 739        /* shim_builtin, shim_model */
#define SHIM_RUN_OUT 8191        /* shim_run: nothing stands before the first access */
#define SHIM_IMAGE_RUN_OUT 8192  /* shim_image_run: a state may put a fence there */
#define SHIM_LIST_OUT 67261      /* shim_list */
#define SHIM_DRAWING_OUT 135719  /* shim_draw */
/* shim_generate, shim_image_read and shim_undraw: SHIM_IMAGE_LIMIT */

/*
 * Stack that a thread must have left when it calls shim_generate, shim_list or shim_draw. Every other call does with
 * SHIM_STACK_OTHERS. The proofs speak of a machine with endless stack, so these two numbers are not proved but measured, on
 * all three processors, and rounded up: shim_generate uses some 431,000 bytes, shim_list 514,000, shim_draw 147,000, no other
 * more than 19,000.
 */
#define SHIM_STACK_GENERATE 655360
#define SHIM_STACK_OTHERS 65536

/* Refusals, with their places. */
#define SHIM_DONE 0
#define SHIM_REFUSED_OVER_LIMIT 1       /* a text, stream, image or drawing is over its limit; 0 */
#define SHIM_REFUSED_TEXT 2             /* a text or drawing is not of the form; how much of it can begin one that is */
#define SHIM_REFUSED_NAME_REPEATS 3     /* a fence name repeats; the first byte of the earliest that does */
#define SHIM_REFUSED_NO_OPERATION 4     /* a byte is no operation; its index */
#define SHIM_REFUSED_NO_SUCH_FENCE 5    /* the upstream model has no such fence; its index */
#define SHIM_REFUSED_NO_FENCE_WILL_DO 6 /* no fence will do for the way; the access's index */
#define SHIM_REFUSED_BUFFER 7           /* what must be written exceeds `out`; 0 */
#define SHIM_REFUSED_SITUATIONS 8       /* more situations than the limit are reached; 0 */
#define SHIM_REFUSED_STATES 9           /* the machine has more states than the limit; 0 */
#define SHIM_REFUSED_BLOCK 10           /* an image is empty, or a block is broken or has a wrong number or check; the block */
#define SHIM_REFUSED_IMAGE_VALUE 11     /* an image holds a value that its layout bars; the lowest such byte */
#define SHIM_REFUSED_OUT_OF_RANGE 12    /* a way, start state or built-in number is out of range; 0 */

/* How two models compare by their default tables. */
#define SHIM_EQUAL 0
#define SHIM_FIRST_STRONGER 1
#define SHIM_SECOND_STRONGER 2
#define SHIM_NEITHER 3

/* What every call sets, whole. */
struct shim_answer {
    uint64_t number;  /* 0, or the refusal */
    uint64_t place;   /* of the refusal, 0 where it has none */
    uint64_t written; /* bytes written at the front of `out` */
    uint64_t fences;  /* fences inserted: fence bytes in what a run gave */
    uint64_t state;   /* the end state of shim_image_run */
};

/*
 * Writes the text of a built-in model.
 *   number           0 to 15: SC, TSO, PLO, PSO, LSO, RMO, POWERA, POWER, ARM as upstream models (also usable as targets);
 *                    TSO, PLO, PSO, LSO, RMO, POWER, ARM as targets
 *   out, out_length  for the text; SHIM_TEXT_OUT is enough
 * Refusals: 12 number; 7.
 */
uint64_t shim_builtin(uint64_t number, uint8_t *out, size_t out_length, struct shim_answer *answer);

/*
 * Reads a model's text and writes it back, so that a model can be tried without being used.
 *   text, text_length  at most SHIM_TEXT_LIMIT
 *   out, out_length    for the same text
 * Refusals: text: 1, 2, 3; 7.
 */
uint64_t shim_model(const uint8_t *text, size_t text_length, uint8_t *out, size_t out_length, struct shim_answer *answer);

/*
 * Compares two models by their default tables; stronger means no cell lower and some cell higher.
 *   first, second  two models' texts
 *   relation       set to SHIM_EQUAL, SHIM_FIRST_STRONGER, SHIM_SECOND_STRONGER or SHIM_NEITHER; to 0 when refused
 * Refusals: first text: 1, 2, 3; second text: 1, 2, 3.
 */
uint64_t shim_compare(const uint8_t *first, size_t first_length, const uint8_t *second, size_t second_length,
                      uint64_t *relation, struct shim_answer *answer);

/*
 * Runs a fresh shim over a stream. The answer has the bytes written and the fences inserted.
 *   way               SHIM_SPARING or SHIM_FULL
 *   upstream, target  two models' texts
 *   stream            at most SHIM_STREAM_LIMIT operations
 *   out, out_length   for the output; SHIM_RUN_OUT is enough
 * Refusals: 12 way; upstream text: 1, 2, 3; target text: 1, 2, 3; stream: 1, then the earliest of 4, 5, 6; 7.
 */
uint64_t shim_run(uint64_t way, const uint8_t *upstream, size_t upstream_length, const uint8_t *target,
                  size_t target_length, const uint8_t *stream, size_t stream_length, uint8_t *out, size_t out_length,
                  struct shim_answer *answer);

/*
 * Generates the shim's state machine, the one with the fewest states, and writes its image. State 0 is the fresh shim.
 * Wants SHIM_STACK_GENERATE bytes of stack.
 *   way               SHIM_SPARING or SHIM_FULL
 *   upstream, target  two models' texts
 *   out, out_length   for the image; SHIM_IMAGE_LIMIT is enough
 * Refusals: 12 way; upstream text: 1, 2, 3; target text: 1, 2, 3; 8; 9; 7.
 */
uint64_t shim_generate(uint64_t way, const uint8_t *upstream, size_t upstream_length, const uint8_t *target,
                       size_t target_length, uint8_t *out, size_t out_length, struct shim_answer *answer);

/*
 * Reads an image and writes it back, so that a stored image can be tried before it is used.
 *   image, image_length  at most SHIM_IMAGE_LIMIT
 *   out, out_length      for the same image
 *   header               set to the way, the states, the upstream fences and the target fences; all 0 when refused
 * Refusals: image: 1, 10, 11; 7.
 */
uint64_t shim_image_read(const uint8_t *image, size_t image_length, uint8_t *out, size_t out_length, uint64_t header[4],
                         struct shim_answer *answer);

/*
 * Runs an image's machine over a stream from a state, and tells the state at its end: give that as `start` with the next
 * part of the thread's stream. The answer has the bytes written, the fences inserted and the end state.
 *   image            at most SHIM_IMAGE_LIMIT bytes
 *   start            0 for a fresh shim, or the state that an earlier run ended in
 *   stream           at most SHIM_STREAM_LIMIT operations
 *   out, out_length  for the output; SHIM_IMAGE_RUN_OUT is enough
 * Refusals: image: 1, 10, 11; 12 start; stream: 1, then the earliest of 4, 5, 6; 7.
 */
uint64_t shim_image_run(const uint8_t *image, size_t image_length, uint64_t start, const uint8_t *stream,
                        size_t stream_length, uint8_t *out, size_t out_length, struct shim_answer *answer);

/*
 * Writes what the program `shimlist` prints for an input that is accepted: two models' texts, a line `way full` or
 * `way sparing`, and a line of `run `, then a stream. Wants SHIM_STACK_GENERATE bytes of stack.
 *   input            at most SHIM_LIST_INPUT_LIMIT bytes
 *   out, out_length  for the listing; SHIM_LIST_OUT is enough
 * Refusals: 1 input; 2 at 0 if the input has another shape; upstream text: 1, 2, 3; target text: 1, 2, 3; stream: 1, then
 * the earliest of 4, 5, 6; 8; 9; 7. A refusal's line is the caller's to print. The answer has the bytes written and the
 * fences of the listing's run.
 */
uint64_t shim_list(const uint8_t *input, size_t input_length, uint8_t *out, size_t out_length, struct shim_answer *answer);

/*
 * Writes the drawing of an image's machine. Wants SHIM_STACK_GENERATE bytes of stack.
 *   image, image_length  at most SHIM_IMAGE_LIMIT
 *   out, out_length      for the drawing; SHIM_DRAWING_OUT is enough
 * Refusals: image: 1, 10, 11; 7.
 */
uint64_t shim_draw(const uint8_t *image, size_t image_length, uint8_t *out, size_t out_length, struct shim_answer *answer);

/*
 * Reads a drawing and writes its machine's image: the one that was drawn, with the names that the label has now. A text is
 * accepted exactly where shim_draw writes it for some image.
 *   drawing, drawing_length  at most SHIM_DRAWING_LIMIT
 *   out, out_length          for the image; SHIM_IMAGE_LIMIT is enough
 * Refusals: 1; 2; 7.
 */
uint64_t shim_undraw(const uint8_t *drawing, size_t drawing_length, uint8_t *out, size_t out_length,
                     struct shim_answer *answer);

#ifdef __cplusplus
}
#endif

#endif
