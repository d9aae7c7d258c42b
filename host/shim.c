/*
 * The command `shim`: each subcommand makes one call of the library, from files and pipes. docs/shim.1 is its manual
 * page.
 *
 * A subcommand reads its inputs, makes its call and writes what the call wrote. Only if the call is refused does it
 * look which input it was: they are judged one by one, in the order of the call's refusals (command/refusals.c). An
 * input of shimlist that `generate` gets is taken apart before the call.
 */
#define _XOPEN_SOURCE 700
#include "command/command.h"

#include <getopt.h>
#include <signal.h>
#include <stdarg.h>
#include <stdio.h>
#include <stdlib.h>
#include <string.h>
#include <sys/resource.h>

/* The options: what getopt tells for each, a number where it has no letter, and what was given behind it. */
enum { WAY = 1, START, VERSION, OUTPUT = 'o', QUIET = 'q', HELP = 'h', HIGHEST = 'z' };
static const char *given[HIGHEST];

struct subcommand {
    const char *name, *words, *does;
    void (*make)(char **operands); /* behind the last stands NULL */
    const char *options;           /* those that it takes, beside help and version */
    int least, most;               /* operands */
    int stream;                    /* is the last operand, which may be missing, a stream? */
};

static const struct subcommand *current;
static struct shim_answer answer;
static uint64_t header[4];

/* ---- what several subcommands do */

static uint64_t way_given(void)
{
    if (given[WAY] == NULL)
        misuse("--way full or --way sparing is missing");
    int full = strcmp(given[WAY], "full") == 0;
    if (!full && strcmp(given[WAY], "sparing") != 0)
        misuse("%s: there is no such way", given[WAY]);
    return full ? SHIM_FULL : SHIM_SPARING;
}

static void no_image_to_terminal(void)
{
    if (is_terminal(given[OUTPUT]))
        misuse("an image is not for a terminal; name a file with -o");
}

static void write_answered(const uint8_t *out)
{
    write_output(given[OUTPUT], out, (size_t)answer.written);
}

static void tell_numbers(int with_state)
{
    if (given[QUIET] != NULL)
        return;
    printf("fences %d\n", (int)answer.fences);
    if (with_state)
        printf("state %d\n", (int)answer.state);
    flush_standard_output();
}

/* An output stream is a line; `out` has room for its line feed. A file is written last, when nothing can go wrong. */
static void write_stream(uint8_t *out, int with_state)
{
    out[answer.written++] = '\n';
    if (!is_standard_output(given[OUTPUT]))
        tell_numbers(with_state);
    write_answered(out);
    if (is_standard_output(given[OUTPUT]))
        tell_numbers(with_state);
}

/* The parts of an input of shimlist, which is judged as shim_list judges it. */
static struct parts parts_of(const struct input *input)
{
    static const struct shim_answer too_long = {SHIM_REFUSED_OVER_LIMIT, 0, 0, 0, 0};
    static const struct shim_answer no_input = {SHIM_REFUSED_TEXT, 0, 0, 0, 0};
    struct parts parts;
    size_t place;
    if (input->length > SHIM_LIST_INPUT_LIMIT)
        refuse_input_length(input, &too_long);
    const char *missing = take_apart(input, &parts, &place);
    if (missing != NULL)
        refuse_shape(input, missing, place, &no_input);
    return parts;
}

/* Three calls want more stack than a small limit leaves, and would end by a signal. */
static void need_stack(void)
{
    enum { NEEDED = SHIM_STACK_GENERATE + SHIM_STACK_OTHERS };
    struct rlimit stack;
    if (getrlimit(RLIMIT_STACK, &stack) != 0 || stack.rlim_cur >= NEEDED)
        return;
    stack.rlim_cur = NEEDED;
    if (setrlimit(RLIMIT_STACK, &stack) != 0)
        cannot("the stack", "made as large as the call wants", "; see ulimit -s");
}

/* ---- the subcommands, in the order of shim.h */

static void make_builtin(char **operands)
{
    static uint8_t out[SHIM_TEXT_OUT];
    uint64_t number;
    if (!is_number(operands[0], &number))
        misuse("%s: is no number", operands[0]);
    if (shim_builtin(number, out, sizeof out, &answer) != SHIM_DONE)
        refuse_number(NULL, "built-in model", operands[0], SHIM_BUILTINS - 1, &answer);
    write_answered(out);
}

static void make_model(char **operands)
{
    static uint8_t out[SHIM_TEXT_OUT];
    struct input text = model_input(operands[0], 0);
    if (shim_model(text.at, text.length, out, sizeof out, &answer) != SHIM_DONE) {
        judge_model(&text);
        refuse_rest(text.name, &answer);
    }
    write_answered(out);
}

static void make_compare(char **operands)
{
    static const char *const relations[] = {
        [SHIM_EQUAL] = "equal\n",
        [SHIM_FIRST_STRONGER] = "first stronger\n",
        [SHIM_SECOND_STRONGER] = "second stronger\n",
        [SHIM_NEITHER] = "neither\n",
    };
    struct input first = model_input(operands[0], 0), second = model_input(operands[1], 0);
    uint64_t relation;
    if (shim_compare(first.at, first.length, second.at, second.length, &relation, &answer) != SHIM_DONE) {
        judge_model(&first);
        judge_model(&second);
        refuse_rest(NULL, &answer);
    }
    write_output(NULL, relations[relation], strlen(relations[relation]));
}

static void make_run(char **operands)
{
    static uint8_t out[SHIM_RUN_OUT + 1];
    uint64_t way = way_given();
    struct input upstream = model_input(operands[0], 0), target = model_input(operands[1], 1);
    struct input stream = stream_input(operands[2]);
    if (shim_run(way, upstream.at, upstream.length, target.at, target.length, stream.at, stream.length, out,
                 SHIM_RUN_OUT, &answer) != SHIM_DONE) {
        judge_model(&upstream);
        judge_model(&target);
        struct sides sides = {way, fences_of(&upstream), fences_of(&target)};
        refuse_stream(&stream, &sides, &answer);
        refuse_rest(stream.name, &answer);
    }
    write_stream(out, 0);
}

static void generate(const char *name, uint64_t way, const struct input *upstream, const struct input *target)
{
    static uint8_t out[SHIM_IMAGE_LIMIT];
    need_stack();
    if (shim_generate(way, upstream->at, upstream->length, target->at, target->length, out, sizeof out, &answer) !=
        SHIM_DONE) {
        judge_model(upstream);
        judge_model(target);
        refuse_rest(name, &answer);
    }
    write_answered(out);
}

static void make_generate(char **operands)
{
    int one = operands[1] == NULL;
    if (one && given[WAY] != NULL)
        misuse("with --way two models are wanted; an input has its own way");
    no_image_to_terminal();
    if (one) {
        struct input input = file_input(operands[0], SHIM_LIST_INPUT_LIMIT);
        struct parts parts = parts_of(&input);
        generate(input.name, parts.way, &parts.upstream, &parts.target);
        return;
    }
    uint64_t way = way_given();
    struct input upstream = model_input(operands[0], 0), target = model_input(operands[1], 1);
    generate(pair_name(&upstream, &target), way, &upstream, &target);
}

/* How many there are of something, as `1 fence` and `2 fences`. */
static void tell_count(uint64_t count, const char *what)
{
    printf("%d %s%s", (int)count, what, count == 1 ? "" : "s");
}

/* A side's name, which an image fills up with zeros, and its fences. */
static void tell_side(const char *side, const uint8_t *name, uint64_t fences)
{
    printf("%s%.*s, ", side, NAME, (const char *)name);
    tell_count(fences, "fence");
}

static void make_image(char **operands)
{
    struct input image = file_input(operands[0], SHIM_IMAGE_LIMIT);
    judge_image(&image, header);
    printf("form      %d\nway       %s\n", image.at[FORM_AT], header[0] == SHIM_FULL ? "full" : "sparing");
    printf("states    %d\n", (int)header[1]);
    tell_side("upstream  ", image.at + UPSTREAM_AT, header[2]);
    tell_side("\ntarget    ", image.at + TARGET_AT, header[3]);
    printf("\nsize      %zu bytes, ", image.length);
    tell_count(image.length / BLOCK, "block");
    printf("\nchecks   ");
    for (size_t check = CHECK_AT; check < image.length; check += BLOCK)
        printf(" %02X%02X", image.at[check], image.at[check + 1]);
    printf(", all right\n");
}

static void make_image_run(char **operands)
{
    static uint8_t out[SHIM_IMAGE_RUN_OUT + 1];
    uint64_t start;
    if (given[START] == NULL)
        misuse("--start with a state is missing");
    if (!is_number(given[START], &start))
        misuse("%s: is no number", given[START]);
    struct input image = file_input(operands[0], SHIM_IMAGE_LIMIT);
    struct input stream = stream_input(operands[1]);
    if (shim_image_run(image.at, image.length, start, stream.at, stream.length, out, SHIM_IMAGE_RUN_OUT, &answer) !=
        SHIM_DONE) {
        judge_image(&image, header);
        if (answer.number == SHIM_REFUSED_OUT_OF_RANGE)
            refuse_number(image.name, "state", given[START], header[1] - 1, &answer);
        struct sides sides = {header[0], header[2], header[3]};
        refuse_stream(&stream, &sides, &answer);
        refuse_rest(stream.name, &answer);
    }
    write_stream(out, 1);
}

static void make_list(char **operands)
{
    static uint8_t out[SHIM_LIST_OUT];
    struct input input = file_input(operands[0], SHIM_LIST_INPUT_LIMIT);
    need_stack();
    if (shim_list(input.at, input.length, out, sizeof out, &answer) != SHIM_DONE) {
        struct parts parts = parts_of(&input);
        judge_model(&parts.upstream);
        judge_model(&parts.target);
        struct sides sides = {parts.way, fences_of(&parts.upstream), fences_of(&parts.target)};
        refuse_stream(&parts.stream, &sides, &answer);
        refuse_rest(input.name, &answer);
    }
    write_answered(out);
}

static void make_draw(char **operands)
{
    static uint8_t out[SHIM_DRAWING_OUT];
    struct input image = file_input(operands[0], SHIM_IMAGE_LIMIT);
    need_stack();
    if (shim_draw(image.at, image.length, out, sizeof out, &answer) != SHIM_DONE) {
        judge_image(&image, header);
        refuse_rest(image.name, &answer);
    }
    write_answered(out);
}

static void make_undraw(char **operands)
{
    static uint8_t out[SHIM_IMAGE_LIMIT];
    no_image_to_terminal();
    struct input drawing = file_input(operands[0], SHIM_DRAWING_LIMIT);
    if (shim_undraw(drawing.at, drawing.length, out, sizeof out, &answer) != SHIM_DONE) {
        judge_drawing(&drawing);
        refuse_rest(drawing.name, &answer);
    }
    write_answered(out);
}

/* ---- the words of the command */

#define RUN "--way full|sparing [-q] [-o FILE] UPSTREAM TARGET [STREAM]"
#define GENERATE "--way full|sparing [-o FILE] UPSTREAM TARGET\n       shim generate [-o FILE] INPUT"
#define IMAGE_RUN "--start STATE [-q] [-o FILE] IMAGE [STREAM]"

static const struct subcommand subcommands[] = {
    {"builtin", "[-o FILE] NUMBER", "the text of a built-in model", make_builtin, "o", 1, 1, 0},
    {"model", "[-o FILE] MODEL", "a model's text, read and written back", make_model, "o", 1, 1, 0},
    {"compare", "MODEL MODEL", "which of two models is stronger", make_compare, "", 2, 2, 0},
    {"run", RUN, "a stream with its fences", make_run, (const char[]){WAY, OUTPUT, QUIET, 0}, 2, 3, 1},
    {"generate", GENERATE, "the image of the smallest machine", make_generate, (const char[]){WAY, OUTPUT, 0}, 1, 2, 0},
    {"image", "IMAGE", "an image's header, size and checks", make_image, "", 1, 1, 0},
    {"image-run", IMAGE_RUN, "a stream's run over an image", make_image_run, (const char[]){START, OUTPUT, QUIET, 0},
     1, 2, 1},
    {"list", "[-o FILE] INPUT", "the machine and the run of an input", make_list, "o", 1, 1, 0},
    {"draw", "[-o FILE] IMAGE", "an image's drawing, for Graphviz", make_draw, "o", 1, 1, 0},
    {"undraw", "[-o FILE] DRAWING", "a drawing's image", make_undraw, "o", 1, 1, 0},
};

enum { SUBCOMMANDS = sizeof subcommands / sizeof *subcommands };

static void tell_usage(FILE *to)
{
    if (current != NULL) {
        fprintf(to, "usage: shim %s %s\n", current->name, current->words);
        return;
    }
    fprintf(to, "usage: shim SUBCOMMAND [OPTION...] OPERAND...\n");
    for (int i = 0; i < SUBCOMMANDS; i++)
        fprintf(to, "       shim %s %s\n", subcommands[i].name, subcommands[i].words);
}

void misuse(const char *format, ...)
{
    va_list words;
    va_start(words, format);
    fprintf(stderr, "shim: ");
    vfprintf(stderr, format, words);
    fprintf(stderr, "\n");
    va_end(words);
    tell_usage(stderr);
    exit(TROUBLE);
}

ENDS static void tell_help(void)
{
    tell_usage(stdout);
    printf("\n");
    for (int i = 0; i < SUBCOMMANDS; i++)
        if (current == NULL || current == &subcommands[i])
            printf("  %-9s  %s\n", subcommands[i].name, subcommands[i].does);
    printf("\n"
           "A model is a file, a built-in model's number (0 to 15) or builtin:NAME, as builtin:TSO. A stream is the\n"
           "stream itself or @FILE. - is standard input, which is also the stream where none is given.\n"
           "\n"
           "  --way full|sparing   take the target's last fence alone, or the first that will do\n"
           "  --start STATE        begin in this state; 0 is the fresh shim\n"
           "  -o, --output FILE    write to this file, whole or not at all\n"
           "  -q, --quiet          leave out the numbers that follow an output stream\n"
           "  -h, --help           print this\n"
           "  --version            print the version\n"
           "\n"
           "Status 1: an input was refused. Status 2: misuse, or a file cannot be read or written. See shim(1).\n");
    flush_standard_output();
    exit(DONE);
}

ENDS static void tell_version(void)
{
    printf("shim %s\n", SHIM_VERSION);
    flush_standard_output();
    exit(DONE);
}

static const struct option names[] = {
    {"way", required_argument, NULL, WAY},
    {"start", required_argument, NULL, START},
    {"output", required_argument, NULL, OUTPUT},
    {"quiet", no_argument, NULL, QUIET},
    {"help", no_argument, NULL, HELP},
    {"version", no_argument, NULL, VERSION},
    {NULL, 0, NULL, 0},
};

/* The long name of an option, NULL if there is none. */
static const char *name_of(int option)
{
    const struct option *known = names;
    while (known->name != NULL && known->val != option)
        known++;
    return known->name;
}

/* `word` is the one that getopt has passed last. It stopped at a letter that it does not know, or else in that word. */
ENDS static void refuse_option(int letter, const char *word)
{
    int known = letter == 0 || name_of(letter) != NULL;
    if (!known && letter > ' ' && letter <= '~')
        misuse("-%c: there is no such option", letter);
    if (!known)
        misuse("-\\x%02X: there is no such option", letter & 0xFF);
    misuse("%s: there is no such option", word);
}

static void take_option(int option, const char *word)
{
    if (option == HELP)
        tell_help();
    if (option == VERSION)
        tell_version();
    if (option == ':')
        misuse("--%s wants a word behind it", name_of(optopt));
    if (option == '?')
        refuse_option(optopt, word);
    if (strchr(current->options, option) == NULL)
        misuse("%s has no option --%s", current->name, name_of(option));
    given[option] = option == QUIET ? "" : optarg;
}

static void take_options(int count, char **words)
{
    int option;
    opterr = 0;
    while ((option = getopt_long(count, words, ":o:qh", names, NULL)) != -1)
        take_option(option, words[optind - 1]);
}

/* Standard input can be read once, and is also meant where a stream is missing. */
static void count_operands(char **operands, int count)
{
    if (count < current->least)
        misuse("an operand is missing");
    if (count > current->most)
        misuse("%s: is an operand too many", operands[current->most]);
    int missing = current->stream && count < current->most;
    int standard = missing || (current->stream && is_standard_stream(operands[count - 1]));
    for (int i = 0; i < current->most - current->stream && i < count; i++)
        standard += strcmp(operands[i], "-") == 0;
    if (standard > 1)
        misuse("standard input can be only one of the inputs%s",
               missing ? ", and is the stream where none is given" : "");
}

int main(int count, char **words)
{
    signal(SIGXFSZ, SIG_IGN); /* a limit of a file's size is told like any other fault */
    if (count < 2)
        misuse("a subcommand is missing");
    for (int i = 0; i < SUBCOMMANDS; i++)
        if (strcmp(words[1], subcommands[i].name) == 0)
            current = &subcommands[i];
    if (current == NULL && (strcmp(words[1], "--help") == 0 || strcmp(words[1], "-h") == 0))
        tell_help();
    if (current == NULL && strcmp(words[1], "--version") == 0)
        tell_version();
    if (current == NULL)
        misuse("%s: there is no such subcommand", words[1]);
    take_options(count - 1, words + 1);
    char **operands = words + 1 + optind;
    count_operands(operands, count - 1 - optind);
    current->make(operands);
    flush_standard_output();
    return DONE;
}
