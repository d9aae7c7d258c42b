/* What goes in: files, standard input, built-in models, streams, and the parts of an input of shimlist. */
#include "command.h"

#include <stdio.h>
#include <stdlib.h>
#include <string.h>

/* A region for each input, of exactly its length, so that a tool that watches memory sees every step beyond it. */
static uint8_t *reserved(void *former, size_t length)
{
    uint8_t *region = realloc(former, length > 0 ? length : 1);
    if (region == NULL)
        cannot("memory", "reserved", "");
    return region;
}

static struct input whole_input(const char *name, const uint8_t *at, size_t length)
{
    struct input input = {name, at, length, at, length};
    return input;
}

/* One byte over the limit is enough for the library to refuse; a stream may have a line feed more. */
static struct input read_bytes(const char *name, FILE *file, size_t limit)
{
    uint8_t *at = reserved(NULL, limit + 2);
    size_t length = fread(at, 1, limit + 2, file);
    if (ferror(file))
        cannot(name, "read", "");
    return whole_input(name, reserved(at, length), length);
}

/* Where the file cannot be opened, the hint says what may have been meant. */
static struct input hinted_input(const char *word, size_t limit, const char *hint)
{
    if (strcmp(word, "-") == 0)
        return read_bytes("standard input", stdin, limit);
    FILE *file = fopen(word, "rb");
    if (file == NULL)
        cannot(word, "read", hint);
    struct input input = read_bytes(word, file, limit);
    fclose(file);
    return input;
}

struct input file_input(const char *word, size_t limit)
{
    return hinted_input(word, limit, "");
}

int is_number(const char *word, uint64_t *number)
{
    *number = 0;
    for (const char *digit = word; *digit != '\0'; digit++) {
        if (*digit < '0' || *digit > '9')
            return 0;
        uint64_t value = (uint64_t)(*digit - '0');
        *number = *number > (UINT64_MAX - value) / 10 ? UINT64_MAX : *number * 10 + value;
    }
    return *word != '\0';
}

/* The text of a built-in model. `word` is what was typed for its number. */
static struct input built_in(const char *name, const char *word, uint64_t number)
{
    uint8_t text[SHIM_TEXT_OUT];
    struct shim_answer answer;
    if (shim_builtin(number, text, sizeof text, &answer) != SHIM_DONE)
        refuse_number(NULL, "built-in model", word, SHIM_BUILTINS - 1, &answer);
    uint8_t *at = reserved(NULL, (size_t)answer.written);
    memcpy(at, text, (size_t)answer.written);
    return whole_input(name, at, (size_t)answer.written);
}

/* Is this the built-in model's name? It stands in its text's first line, behind `model `. */
static int is_named(uint64_t number, const char *name)
{
    uint8_t text[SHIM_TEXT_OUT];
    struct shim_answer answer;
    shim_builtin(number, text, sizeof text, &answer);
    const uint8_t *own = text + strlen("model "), *end = memchr(text, '\n', (size_t)answer.written);
    return strlen(name) == (size_t)(end - own) && memcmp(own, name, strlen(name)) == 0;
}

/* The number of the built-in model that has this name, SHIM_BUILTINS if none has. */
static uint64_t number_named(const char *name, int as_target)
{
    for (uint64_t i = 0; i < SHIM_BUILTINS; i++) {
        uint64_t number = as_target ? SHIM_BUILTINS - 1 - i : i;
        if (is_named(number, name))
            return number;
    }
    return SHIM_BUILTINS;
}

struct input model_input(const char *word, int as_target)
{
    static const char mark[] = "builtin:";
    int marked = strncmp(word, mark, strlen(mark)) == 0;
    const char *meant = marked ? word + strlen(mark) : word;
    uint64_t number;
    if (is_number(meant, &number))
        return built_in(word, meant, number);
    number = number_named(meant, as_target);
    if (marked && number == SHIM_BUILTINS)
        misuse("%s: there is no built-in model of that name", word);
    if (marked)
        return built_in(word, meant, number);
    char hint[64] = "";
    if (number < SHIM_BUILTINS)
        snprintf(hint, sizeof hint, "; the built-in model is %s%s", mark, word);
    return hinted_input(word, SHIM_TEXT_LIMIT, hint);
}

const char *pair_name(const struct input *upstream, const struct input *target)
{
    static const char on[] = " on ";
    char *name = (char *)reserved(NULL, strlen(upstream->name) + strlen(on) + strlen(target->name) + 1);
    return strcat(strcat(strcpy(name, upstream->name), on), target->name);
}

int is_standard_stream(const char *word)
{
    return word == NULL || strcmp(word, "-") == 0 || strcmp(word, "@-") == 0;
}

struct input stream_input(const char *word)
{
    if (!is_standard_stream(word) && word[0] != '@')
        return whole_input("the stream", (const uint8_t *)word, strlen(word));
    struct input stream = file_input(is_standard_stream(word) ? "-" : word + 1, SHIM_STREAM_LIMIT);
    if (stream.length > 0 && stream.at[stream.length - 1] == '\n')
        stream.length--;
    stream.file_length = stream.length;
    return stream;
}

static struct input part_of(const struct input *whole, size_t from, size_t length)
{
    struct input part = {whole->name, whole->at + from, length, whole->file, whole->file_length};
    return part;
}

/* The place behind the next line feed, or the input's end. */
static size_t line_end(const struct input *whole, size_t from)
{
    while (from < whole->length && whole->at[from] != '\n')
        from++;
    return from < whole->length ? from + 1 : from;
}

static int line_is(const struct input *whole, size_t from, const char *line)
{
    return line_end(whole, from) - from == strlen(line) && memcmp(whole->at + from, line, strlen(line)) == 0;
}

/* The place behind the first line that is exactly `end`, or the input's end with 0 told. */
static size_t text_end(const struct input *whole, size_t from, int *ended)
{
    for (*ended = 0; !*ended && from < whole->length; from = line_end(whole, from))
        *ended = line_is(whole, from, "end\n");
    return from;
}

/* The first byte of the last line. */
static size_t last_line(const struct input *whole)
{
    size_t start = whole->length;
    while (start > 0 && whole->at[start - 1] != '\n')
        start--;
    return start;
}

const char *take_apart(const struct input *whole, struct parts *parts, size_t *place)
{
    static const char run[] = "run ", unended[] = "the line must end in a line feed";
    int ended;
    size_t target = text_end(whole, 0, &ended), way = text_end(whole, target, &ended);
    *place = way;
    if (!ended && !line_is(whole, last_line(whole), "end"))
        return "a model's text ends with a line 'end', and there must be two texts";
    int full = line_is(whole, way, "way full\n"), sparing = line_is(whole, way, "way sparing\n");
    int cut = !ended || line_is(whole, way, "way full") || line_is(whole, way, "way sparing");
    *place = cut ? whole->length : way;
    if (cut)
        return unended;
    if (!full && !sparing)
        return "a line 'way full' or 'way sparing' must stand here";
    size_t stream = line_end(whole, way) + strlen(run), end = line_end(whole, line_end(whole, way));
    *place = line_end(whole, way);
    if (end < stream || memcmp(whole->at + *place, run, strlen(run)) != 0)
        return "a line of 'run ' and a stream must stand here";
    *place = end;
    if (whole->at[end - 1] != '\n')
        return unended;
    if (end < whole->length)
        return "nothing may follow here";
    parts->upstream = part_of(whole, 0, target);
    parts->target = part_of(whole, target, way - target);
    parts->stream = part_of(whole, stream, end - 1 - stream);
    parts->way = full ? SHIM_FULL : SHIM_SPARING;
    return NULL;
}
