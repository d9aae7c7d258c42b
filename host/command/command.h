/*
 * What the parts of the command `shim` share: inputs (inputs.c), outputs (outputs.c), places in a text (places.c) and
 * refusals (refusals.c).
 */
#ifndef COMMAND_H
#define COMMAND_H

#include "shim.h"

/* The exit statuses: done, an input was refused, the command was misused or a file cannot be read or written. */
enum { DONE, REFUSED, TROUBLE };

/* Of a function that ends the command. */
#define ENDS __attribute__((noreturn))

/*
 * An input or a part of one: the name that a person knows it by, its bytes, and the whole file, whose lines and columns
 * are told.
 */
struct input {
    const char *name;
    const uint8_t *at;
    size_t length;
    const uint8_t *file;
    size_t file_length;
};

/* The layout of an image, document 01's, where the command speaks of an image's bytes. */
enum {
    BLOCK = 512,
    CONTENTS_AT = 2,
    CONTENTS_END = 506,
    CHECK_AT = 510,
    FORM_AT = 2,
    WAY_AT = 3,
    STATES_AT = 4,
    FENCES_AT = 5,
    UPSTREAM_AT = 7,
    TARGET_AT = 23,
    NAME = 16,
    STATES_OF_A_BLOCK = 21,
    STATE = 24
};

/* ---- shim.c */

/* Ends the command with a sentence and the usage of its subcommand. */
ENDS void misuse(const char *format, ...);

/* ---- inputs.c */

/* Is the word a decimal number? If so it is told; one of more than 64 bits is told as the largest of 64. */
int is_number(const char *word, uint64_t *number);

/* A file's bytes, or those of standard input for `-`: so many that the library sees whether they are over the limit. */
struct input file_input(const char *word, size_t limit);

/* A file, or a built-in model by its number or name; of two that share a name the later one as a target. */
struct input model_input(const char *word, int as_target);

/* The word itself, the file behind an `@`, or standard input for `-` and where there is no word. */
struct input stream_input(const char *word);

/* Does the word, or that there is none, mean standard input as a stream? */
int is_standard_stream(const char *word);

/* What a sentence about two models calls them. */
const char *pair_name(const struct input *upstream, const struct input *target);

/* The parts of an input of shimlist. */
struct parts {
    struct input upstream, target, stream;
    uint64_t way;
};

/* Takes an input of shimlist apart. If it has another shape, the answer is what it lacks, and the place is told. */
const char *take_apart(const struct input *whole, struct parts *parts, size_t *place);

/* ---- outputs.c */

/* Does this output go to standard output; does it go to a terminal? */
int is_standard_output(const char *path);
int is_terminal(const char *path);

/* Writes to the file, whole or not at all, or to standard output for `-` and where no file is named. */
void write_output(const char *path, const void *at, size_t length);

/* Ends the command where not all that went to standard output has arrived there. */
void flush_standard_output(void);

/* Ends the command with the system's words for what just went wrong with a file, and a hint behind them. */
ENDS void cannot(const char *name, const char *done, const char *hint);

/* ---- places.c: where in a text something is, and what could stand there */

/* Prints `line L, column C: `. */
void tell_place(const struct input *text, size_t place);

/* Prints the line of the text with a caret under the place. */
void show_place(const struct input *text, size_t place);

/* Prints a byte as it is shown in a line and in quotes. */
void show_byte(uint8_t byte);

/* A call that reads a text, into a buffer of its own. */
typedef void reader(const uint8_t *text, size_t length, struct shim_answer *answer);

/* Prints what could stand where a text stops being of the form: what some text that is accepted has there. */
void tell_expected(reader *read, const struct input *text, size_t place);

/* ---- refusals.c: what the library refused, as a sentence; then the command ends */

/* What a refusal of a stream speaks of. */
struct sides {
    uint64_t way, upstream_fences, target_fences;
};

/* The number of fences in a model's text that is accepted. */
uint64_t fences_of(const struct input *text);

/* These return where the input by itself is accepted; of an image its header is then told. */
void judge_model(const struct input *text);
void judge_drawing(const struct input *drawing);
void judge_image(const struct input *image, uint64_t header[4]);

/* This returns where the answer is none of a stream's refusals. */
void refuse_stream(const struct input *stream, const struct sides *sides, const struct shim_answer *answer);

/*
 * These end the command. `word` is a number as it was typed, `last` the highest there is. What is left for refuse_rest
 * is a machine that is too large, or 7, against which every buffer of the command is large enough.
 */
ENDS void refuse_number(const char *name, const char *what, const char *word, uint64_t last,
                        const struct shim_answer *answer);
ENDS void refuse_input_length(const struct input *input, const struct shim_answer *answer);
ENDS void refuse_shape(const struct input *input, const char *missing, size_t place, const struct shim_answer *answer);
ENDS void refuse_rest(const char *name, const struct shim_answer *answer);

#endif
