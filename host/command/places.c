/* Where in a text something is, and what could stand there. */
#include "command.h"

#include <stdio.h>
#include <string.h>

/* As much of a line is shown, and as much of that before the place. */
enum { SHOWN = 70, BEFORE = 50 };

/* Where a place is in its file: the line's first byte and its end, and the line's number. */
struct line {
    size_t start, end, number;
};

static size_t in_file(const struct input *text, size_t place)
{
    return (size_t)(text->at - text->file) + place;
}

static struct line line_of(const struct input *text, size_t place)
{
    struct line line = {0, in_file(text, place), 1};
    for (size_t i = 0; i < in_file(text, place); i++)
        if (text->file[i] == '\n') {
            line.start = i + 1;
            line.number++;
        }
    while (line.end < text->file_length && text->file[line.end] != '\n')
        line.end++;
    return line;
}

void tell_place(const struct input *text, size_t place)
{
    struct line line = line_of(text, place);
    fprintf(stderr, "line %zu, column %zu: ", line.number, in_file(text, place) - line.start + 1);
}

/* How many characters a byte takes where it is shown. */
static size_t width(uint8_t byte)
{
    return byte >= ' ' && byte <= '~' ? 1 : byte == '\t' || byte == '\n' || byte == '\r' ? 2 : 4;
}

void show_byte(uint8_t byte)
{
    if (width(byte) == 1)
        fprintf(stderr, "%c", byte);
    else if (width(byte) == 2)
        fprintf(stderr, "\\%c", byte == '\t' ? 't' : byte == '\n' ? 'n' : 'r');
    else
        fprintf(stderr, "\\x%02X", byte);
}

/* How many bytes before the place take no more than this room, and how many characters these take. */
static size_t bytes_before(const struct input *text, struct line line, size_t here, size_t *room)
{
    size_t from = here, left = *room;
    while (from > line.start && width(text->file[from - 1]) <= left)
        left -= width(text->file[--from]);
    *room -= left;
    return here - from;
}

/* Shows bytes until the line's end or until they take more than this room. */
static size_t show_bytes(const struct input *text, struct line line, size_t from, size_t room)
{
    while (from < line.end && width(text->file[from]) <= room) {
        room -= width(text->file[from]);
        show_byte(text->file[from++]);
    }
    return from;
}

void show_place(const struct input *text, size_t place)
{
    struct line line = line_of(text, place);
    size_t here = in_file(text, place), before = BEFORE, all = SHOWN;
    size_t from = here - bytes_before(text, line, here, &before);
    /* A line that has room is shown whole. */
    if (line.end - line.start <= SHOWN && bytes_before(text, line, line.end, &all) == line.end - line.start) {
        from = line.start;
        before = SHOWN;
        bytes_before(text, line, here, &before);
    }
    fprintf(stderr, "    %s", from > line.start ? "..." : "");
    size_t to = show_bytes(text, line, from, SHOWN);
    fprintf(stderr, "%s\n    %*s^\n", to < line.end ? "..." : "", (int)before + (from > line.start ? 3 : 0), "");
}

/* Can these bytes begin a text that the call accepts, fence names' equality aside? */
static int begins(reader *read, const uint8_t *text, size_t length)
{
    struct shim_answer answer;
    read(text, length, &answer);
    return answer.number == SHIM_DONE || answer.number == SHIM_REFUSED_NAME_REPEATS ||
           (answer.number == SHIM_REFUSED_TEXT && answer.place == length);
}

/* The bytes that can stand behind a beginning. All texts of our forms are ASCII. */
struct followers {
    unsigned char can[128];
    int count;
};

/* `text` has room for one byte more. */
static struct followers followers_of(reader *read, uint8_t *text, size_t length)
{
    struct followers next = {{0}, 0};
    for (uint8_t byte = '\n'; byte <= '~'; byte++) {
        text[length] = byte;
        next.can[byte] = (unsigned char)begins(read, text, length + 1);
        next.count += next.can[byte];
    }
    return next;
}

/* The lowest that is left, which is taken out. */
static uint8_t lowest(struct followers *next)
{
    uint8_t byte = 0;
    while (!next->can[byte])
        byte++;
    next->can[byte] = 0;
    next->count--;
    return byte;
}

/* Takes out all bytes of the ranges if they are all there. */
static int taken(struct followers *next, const char *ranges)
{
    struct followers rest = *next;
    for (const char *range = ranges; *range != '\0'; range += 2)
        for (char byte = range[0]; byte <= range[1]; byte++) {
            if (!rest.can[(int)byte])
                return 0;
            rest.can[(int)byte] = 0;
            rest.count--;
        }
    *next = rest;
    return 1;
}

/* Where one byte alone can follow, and then one alone again, a whole word is told; a long text is not read so often. */
enum { LONGEST_WORD = 40, LONG_TEXT = 8192 };

/* The word of those that begin with this byte, put behind the text, which has room for it; the answer is its length. */
static size_t word_of(reader *read, uint8_t *text, size_t length, uint8_t first)
{
    size_t word = 0;
    while (first != '\n' && word < LONGEST_WORD) {
        text[length + word++] = first;
        struct followers next = followers_of(read, text, length + word);
        if (next.count != 1)
            break;
        first = lowest(&next);
    }
    return word;
}

static void tell_word(const uint8_t *word, size_t length)
{
    if (length == 0)
        fprintf(stderr, "the end of the line");
    else if (length == 1 && word[0] == ' ')
        fprintf(stderr, "a space");
    else
        fprintf(stderr, "'%.*s'", (int)length, (const char *)word);
}

/* Prints what is left of the followers behind `told` others, as words where few are left or the first is lower case. */
static void tell_followers(reader *read, uint8_t *text, size_t length, struct followers next, int told)
{
    int few = told == 0 && next.count <= 2;
    while (next.count > 0) {
        uint8_t byte = lowest(&next);
        size_t word = length < LONG_TEXT && (few || byte >= 'a') ? word_of(read, text, length, byte) : byte != '\n';
        text[length] = byte;
        fprintf(stderr, "%s", told == 0 ? "" : next.count > 0 ? ", " : " or ");
        tell_word(text + length, word);
        told++;
    }
}

void tell_expected(reader *read, const struct input *text, size_t place)
{
    static uint8_t begun[SHIM_DRAWING_LIMIT + LONGEST_WORD + 1]; /* a drawing is the longest text */
    memcpy(begun, text->at, place);
    struct followers next = followers_of(read, begun, place);
    int ends = place == text->length, letters = taken(&next, "AZaz"), digits = taken(&next, "09");
    if (next.count + letters + digits == 0) {
        fprintf(stderr, "nothing may follow here");
    } else {
        fprintf(stderr, "%s%s%s%s", ends ? "the text ends here, where " : "", letters ? "a letter" : "",
                letters && digits ? next.count > 0 ? ", " : " or " : "", digits ? "a digit" : "");
        tell_followers(read, begun, place, next, letters + digits);
        fprintf(stderr, "%s", ends ? " must follow" : " must stand here");
    }
    if (!ends && text->at[place] == '\r')
        fprintf(stderr, "; lines end in a line feed alone");
}
