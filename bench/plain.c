/* Plain C for four of the library's calls. A table is sixteen bytes, one for each cell, and loops go over them. */
#include "plain.h"

#include <string.h>

enum { CELLS = 16, FENCES = SHIM_MODEL_FENCES, NAME = 16, ACCESSES = 4, LETTERS = ACCESSES + FENCES };
enum { NO_FENCE = 0xFF, REFUSED = 0xFE };
enum { BLOCK = 512, CHECK_AT = 510, CONTENTS = 2, CONTENTS_END = 506, STATE_BYTES = 24, STATES_IN_BLOCK = 21 };

/* ---- answers */

static uint64_t answered(struct shim_answer *answer, uint64_t number, uint64_t place, uint64_t written, uint64_t fences,
                         uint64_t state)
{
    answer->number = number;
    answer->place = place;
    answer->written = written;
    answer->fences = fences;
    answer->state = state;
    return number;
}

static uint64_t refused(struct shim_answer *answer, uint64_t number, uint64_t place)
{
    return answered(answer, number, place, 0, 0, 0);
}

/* Copies what was made to the front of `out`, if it fits. */
static uint64_t delivered(const uint8_t *bytes, size_t length, uint64_t fences, uint64_t state, uint8_t *out,
                          size_t out_length, struct shim_answer *answer)
{
    if (length > out_length)
        return refused(answer, SHIM_REFUSED_BUFFER, 0);
    if (length > 0)
        memcpy(out, bytes, length);
    return answered(answer, SHIM_DONE, 0, length, fences, state);
}

/* ---- models */

struct model {
    uint8_t name[NAME];
    uint8_t ppo[CELLS];
    size_t fences;
    uint8_t fence_names[FENCES][NAME];
    uint8_t fence[FENCES][CELLS];
};

struct cursor {
    const uint8_t *text;
    size_t length, at;
};

static int literal(struct cursor *c, const char *word)
{
    for (; *word != 0; word++, c->at++)
        if (c->at == c->length || c->text[c->at] != (uint8_t)*word)
            return 0;
    return 1;
}

static int is_name_byte(uint8_t b)
{
    return (b >= 'a' && b <= 'z') || (b >= 'A' && b <= 'Z') || (b >= '0' && b <= '9') || b == '_';
}

static int name(struct cursor *c, uint8_t *into)
{
    size_t n = 0;
    memset(into, 0, NAME);
    while (n < NAME && c->at < c->length && is_name_byte(c->text[c->at]))
        into[n++] = c->text[c->at++];
    return n > 0;
}

static int table(struct cursor *c, uint8_t *into)
{
    for (int i = 0; i < CELLS; i++) {
        if (i > 0 && i % 4 == 0 && !literal(c, " "))
            return 0;
        if (c->at == c->length)
            return 0;
        switch (c->text[c->at]) {
        case '-': into[i] = 0; break;
        case 'N': into[i] = 1; break;
        case 'M': into[i] = 2; break;
        case 'S': into[i] = 3; break;
        default: return 0;
        }
        c->at++;
    }
    return 1;
}

static int formed(struct cursor *c, struct model *m, size_t *name_at)
{
    m->fences = 0;
    if (!literal(c, "model ") || !name(c, m->name) || !literal(c, "\nppo ") || !table(c, m->ppo) || !literal(c, "\n"))
        return 0;
    while (m->fences < FENCES && c->at < c->length && c->text[c->at] == 'f') {
        if (!literal(c, "fence "))
            return 0;
        name_at[m->fences] = c->at;
        if (!name(c, m->fence_names[m->fences]) || !literal(c, " ") || !table(c, m->fence[m->fences]) || !literal(c, "\n"))
            return 0;
        m->fences++;
    }
    return literal(c, "end\n") && c->at == c->length;
}

/* The refusal of a text, or 0 with the model read. */
static uint64_t read_model(const uint8_t *text, size_t length, struct model *m, uint64_t *place)
{
    struct cursor c = {text, length, 0};
    size_t name_at[FENCES];
    *place = 0;
    if (length > SHIM_TEXT_LIMIT)
        return SHIM_REFUSED_OVER_LIMIT;
    if (!formed(&c, m, name_at)) {
        *place = c.at;
        return SHIM_REFUSED_TEXT;
    }
    for (size_t i = 1; i < m->fences; i++)
        for (size_t j = 0; j < i; j++)
            if (memcmp(m->fence_names[i], m->fence_names[j], NAME) == 0) {
                *place = name_at[i];
                return SHIM_REFUSED_NAME_REPEATS;
            }
    return 0;
}

static uint8_t *put(uint8_t *to, const char *word)
{
    size_t n = strlen(word);
    memcpy(to, word, n);
    return to + n;
}

static uint8_t *put_name(uint8_t *to, const uint8_t *from)
{
    for (int i = 0; i < NAME && from[i] != 0; i++)
        *to++ = from[i];
    return to;
}

static uint8_t *put_table(uint8_t *to, const uint8_t *cells)
{
    for (int i = 0; i < CELLS; i++) {
        if (i % 4 == 0)
            *to++ = ' ';
        *to++ = (uint8_t)"-NMS"[cells[i]];
    }
    *to++ = '\n';
    return to;
}

static size_t write_model(const struct model *m, uint8_t *text)
{
    uint8_t *to = put_name(put(text, "model "), m->name);
    to = put_table(put(to, "\nppo"), m->ppo);
    for (size_t i = 0; i < m->fences; i++)
        to = put_table(put_name(put(to, "fence "), m->fence_names[i]), m->fence[i]);
    return (size_t)(put(to, "end\n") - text);
}

uint64_t plain_model(const uint8_t *text, size_t text_length, uint8_t *out, size_t out_length, struct shim_answer *answer)
{
    struct model m;
    uint64_t place, number = read_model(text, text_length, &m, &place);
    uint8_t written[SHIM_TEXT_LIMIT];
    if (number != 0)
        return refused(answer, number, place);
    return delivered(written, write_model(&m, written), 0, 0, out, out_length, answer);
}

/* ---- the rule */

struct shim {
    uint64_t way;
    struct model up, target;
};

/* The refusals of a way and two texts, or 0 with the shim read. */
static uint64_t read_shim(uint64_t way, const uint8_t *up, size_t up_length, const uint8_t *target, size_t target_length,
                          struct shim *s, uint64_t *place)
{
    uint64_t number;
    *place = 0;
    if (way > SHIM_FULL)
        return SHIM_REFUSED_OUT_OF_RANGE;
    s->way = way;
    number = read_model(up, up_length, &s->up, place);
    return number != 0 ? number : read_model(target, target_length, &s->target, place);
}

/* For every pair of kinds: the highest asked among pairs still short, and the least offered. */
struct situation {
    uint8_t need[CELLS], low[CELLS];
};

static const struct situation fresh = {{0}, {3, 3, 3, 3, 3, 3, 3, 3, 3, 3, 3, 3, 3, 3, 3, 3}};

/* Letters are 0 to 3 for l, L, s, S and 4 upwards for fences; -1 is no operation. */
static int letter_of(uint8_t byte)
{
    switch (byte) {
    case 'l': return 0;
    case 'L': return 1;
    case 's': return 2;
    case 'S': return 3;
    }
    if (byte >= '0' && byte <= '9')
        return ACCESSES + byte - '0';
    if (byte >= 'A' && byte <= 'F')
        return ACCESSES + 10 + byte - 'A';
    return -1;
}

static uint8_t fence_byte(unsigned fence)
{
    return (uint8_t)"0123456789ABCDEF"[fence];
}

/* An access's letter is its column; this is its row. */
static const int row_of[ACCESSES] = {2, 0, 3, 1};

static void pass_upstream_fence(struct situation *s, const uint8_t *fence)
{
    for (int i = 0; i < CELLS; i++) {
        uint8_t asked = fence[i] > s->low[i] ? fence[i] : 0;
        s->need[i] = asked > s->need[i] ? asked : s->need[i];
    }
}

static int will_do(const struct situation *s, const uint8_t *fence, int column)
{
    int does = 1;
    for (int row = 0; row < 4; row++)
        does &= fence[4 * row + column] >= s->need[4 * row + column];
    return does;
}

/* The fence to put before an access, NO_FENCE or REFUSED. */
static unsigned choice(const struct shim *shim, const struct situation *s, int column)
{
    unsigned fences = (unsigned)shim->target.fences;
    if ((s->need[column] | s->need[4 + column] | s->need[8 + column] | s->need[12 + column]) == 0)
        return NO_FENCE;
    for (unsigned f = shim->way == SHIM_FULL && fences > 0 ? fences - 1 : 0; f < fences; f++)
        if (will_do(s, shim->target.fence[f], column))
            return f;
    return REFUSED;
}

static void put_target_fence(struct situation *s, const uint8_t *fence)
{
    for (int i = 0; i < CELLS; i++) {
        s->need[i] = s->need[i] > fence[i] ? s->need[i] : 0;
        s->low[i] = fence[i] > s->low[i] ? fence[i] : s->low[i];
    }
}

static void join_access(const struct shim *shim, struct situation *s, int letter)
{
    for (int i = 4 * row_of[letter]; i < 4 * row_of[letter] + 4; i++) {
        uint8_t up = shim->up.ppo[i], target = shim->target.ppo[i];
        uint8_t asked = up > target ? up : 0;
        s->need[i] = asked > s->need[i] ? asked : s->need[i];
        s->low[i] = target < s->low[i] ? target : s->low[i];
    }
}

/* Takes one letter that the upstream model has; gives the fence put before it, NO_FENCE or REFUSED. */
static unsigned step(const struct shim *shim, struct situation *s, int letter)
{
    unsigned fence;
    if (letter >= ACCESSES) {
        pass_upstream_fence(s, shim->up.fence[letter - ACCESSES]);
        return NO_FENCE;
    }
    fence = choice(shim, s, letter);
    if (fence == REFUSED)
        return fence;
    if (fence != NO_FENCE)
        put_target_fence(s, shim->target.fence[fence]);
    join_access(shim, s, letter);
    return fence;
}

uint64_t plain_run(uint64_t way, const uint8_t *upstream, size_t upstream_length, const uint8_t *target,
                   size_t target_length, const uint8_t *stream, size_t stream_length, uint8_t *out, size_t out_length,
                   struct shim_answer *answer)
{
    struct shim shim;
    struct situation s = fresh;
    uint64_t place, number = read_shim(way, upstream, upstream_length, target, target_length, &shim, &place);
    uint8_t made[SHIM_IMAGE_RUN_OUT];
    size_t length = 0, fences = 0;
    if (number != 0)
        return refused(answer, number, place);
    if (stream_length > SHIM_STREAM_LIMIT)
        return refused(answer, SHIM_REFUSED_OVER_LIMIT, 0);
    for (size_t i = 0; i < stream_length; i++) {
        int letter = letter_of(stream[i]);
        unsigned fence;
        if (letter < 0)
            return refused(answer, SHIM_REFUSED_NO_OPERATION, i);
        if (letter >= ACCESSES + (int)shim.up.fences)
            return refused(answer, SHIM_REFUSED_NO_SUCH_FENCE, i);
        fence = step(&shim, &s, letter);
        if (fence == REFUSED)
            return refused(answer, SHIM_REFUSED_NO_FENCE_WILL_DO, i);
        if (fence != NO_FENCE) {
            made[length++] = fence_byte(fence);
            fences++;
        }
        if (letter < ACCESSES)
            made[length++] = stream[i];
    }
    return delivered(made, length, fences, 0, out, out_length, answer);
}

/* ---- generation */

enum { BUCKETS = 8192, SLOTS = 1024 };

/* The situations reached, in order of first arrival, with the answer to each letter: fence byte and where it leads. */
struct explored {
    size_t count;
    struct situation at[SHIM_SITUATION_LIMIT];
    uint16_t leads[SHIM_SITUATION_LIMIT * LETTERS];
    uint8_t fence[SHIM_SITUATION_LIMIT * LETTERS];
    uint16_t head[BUCKETS], next[SHIM_SITUATION_LIMIT]; /* chains of indices, one up, 0 for the end */
};

int plain_linear;

static size_t bucket_of(const struct situation *s)
{
    uint64_t hash = 0, word;
    if (plain_linear)
        return 0;
    for (size_t i = 0; i < sizeof *s; i += sizeof word) {
        memcpy(&word, (const uint8_t *)s + i, sizeof word);
        hash = (hash ^ word) * 0x9E3779B97F4A7C15u;
        hash ^= hash >> 29;
    }
    return hash % BUCKETS;
}

/* The index of a situation, appended if unseen; SHIM_SITUATION_LIMIT where there is no room for it. */
static size_t index_of(struct explored *e, const struct situation *s)
{
    size_t bucket = bucket_of(s);
    for (size_t i = e->head[bucket]; i != 0; i = e->next[i - 1])
        if (memcmp(&e->at[i - 1], s, sizeof *s) == 0)
            return i - 1;
    if (e->count == SHIM_SITUATION_LIMIT)
        return SHIM_SITUATION_LIMIT;
    e->at[e->count] = *s;
    e->next[e->count] = e->head[bucket];
    e->head[bucket] = (uint16_t)(e->count + 1);
    return e->count++;
}

static int explore(const struct shim *shim, struct explored *e)
{
    int letters = ACCESSES + (int)shim->up.fences;
    e->count = 0;
    memset(e->head, 0, sizeof e->head);
    index_of(e, &fresh);
    for (size_t i = 0; i < e->count; i++)
        for (int letter = 0; letter < letters; letter++) {
            struct situation s = e->at[i];
            unsigned fence = step(shim, &s, letter);
            size_t to = fence == REFUSED ? 0 : index_of(e, &s);
            if (to == SHIM_SITUATION_LIMIT)
                return 0;
            e->fence[i * LETTERS + (size_t)letter] = (uint8_t)fence;
            e->leads[i * LETTERS + (size_t)letter] = (uint16_t)to;
        }
    return 1;
}

/* Pairs of a class and an answer, numbered in the order in which they are first met. */
struct numbers {
    size_t count;
    uint32_t key[SLOTS]; /* one up, 0 for an empty slot */
    uint8_t number[SLOTS];
};

/* The number of a pair, or SHIM_STATE_LIMIT where that many have been met before it. */
static size_t number_of(struct numbers *n, uint32_t key)
{
    size_t slot = key * 2654435761u >> 22;
    while (n->key[slot] != 0 && n->key[slot] != key + 1)
        slot = (slot + 1) % SLOTS;
    if (n->key[slot] != 0)
        return n->number[slot];
    if (n->count == SHIM_STATE_LIMIT)
        return SHIM_STATE_LIMIT;
    n->key[slot] = key + 1;
    n->number[slot] = (uint8_t)n->count;
    return n->count++;
}

/* Splits the classes by their answers to one letter; the count of classes, or 0 where there are too many. */
static size_t split(const struct explored *e, int letter, uint8_t *class)
{
    struct numbers n;
    uint8_t next[SHIM_SITUATION_LIMIT];
    n.count = 0;
    memset(n.key, 0, sizeof n.key);
    for (size_t i = 0; i < e->count; i++) {
        size_t at = i * LETTERS + (size_t)letter;
        uint32_t to = e->fence[at] == REFUSED ? 0 : class[e->leads[at]];
        size_t number = number_of(&n, (uint32_t)class[i] << 16 | (uint32_t)e->fence[at] << 8 | to);
        if (number == SHIM_STATE_LIMIT)
            return 0;
        next[i] = (uint8_t)number;
    }
    memcpy(class, next, e->count);
    return n.count;
}

/* The class of each situation, numbered by first member; the count of classes, or 0 where there are too many. */
static size_t refine(const struct explored *e, int letters, uint8_t *class)
{
    size_t count = 0, before;
    memset(class, 0, e->count);
    do {
        before = count;
        for (int letter = 0; letter < letters; letter++) {
            count = split(e, letter, class);
            if (count == 0)
                return 0;
        }
    } while (count != before);
    return count;
}

static unsigned check_of(const uint8_t *block)
{
    uint32_t sum = 0;
    for (int i = 0; i < CHECK_AT; i += 2)
        sum += (uint32_t)block[i] << 8 | block[i + 1];
    sum = (sum & 0xFFFF) + (sum >> 16);
    sum = (sum & 0xFFFF) + (sum >> 16);
    return ~sum & 0xFFFF;
}

static void put_state(const struct explored *e, size_t i, int letters, const uint8_t *class, uint8_t *entry)
{
    for (int letter = 0; letter < letters; letter++) {
        size_t at = i * LETTERS + (size_t)letter;
        uint8_t to = e->fence[at] == REFUSED ? 0 : class[e->leads[at]];
        if (letter < ACCESSES) {
            *entry++ = e->fence[at];
            *entry++ = to;
        } else
            *entry++ = to;
    }
}

static size_t state_at(size_t state)
{
    return BLOCK * (1 + state / STATES_IN_BLOCK) + CONTENTS + STATE_BYTES * (state % STATES_IN_BLOCK);
}

static size_t blocks_for(size_t states)
{
    return 1 + (states + STATES_IN_BLOCK - 1) / STATES_IN_BLOCK;
}

static size_t write_image(const struct shim *shim, const struct explored *e, const uint8_t *class, size_t states,
                          uint8_t *image)
{
    size_t blocks = blocks_for(states), put = 0;
    memset(image, 0, blocks * BLOCK);
    image[2] = 1;
    image[3] = (uint8_t)shim->way;
    image[4] = (uint8_t)states;
    image[5] = (uint8_t)shim->up.fences;
    image[6] = (uint8_t)shim->target.fences;
    memcpy(image + 7, shim->up.name, NAME);
    memcpy(image + 23, shim->target.name, NAME);
    for (size_t i = 0; i < e->count && put < states; i++)
        if (class[i] == put)
            put_state(e, i, ACCESSES + (int)shim->up.fences, class, image + state_at(put++));
    for (size_t b = 0; b < blocks; b++) {
        unsigned check;
        image[b * BLOCK + 1] = (uint8_t)b;
        check = check_of(image + b * BLOCK);
        image[b * BLOCK + CHECK_AT] = (uint8_t)(check >> 8);
        image[b * BLOCK + CHECK_AT + 1] = (uint8_t)check;
    }
    return blocks * BLOCK;
}

uint64_t plain_generate(uint64_t way, const uint8_t *upstream, size_t upstream_length, const uint8_t *target,
                        size_t target_length, uint8_t *out, size_t out_length, struct shim_answer *answer)
{
    struct shim shim;
    struct explored e;
    uint8_t class[SHIM_SITUATION_LIMIT], image[SHIM_IMAGE_LIMIT];
    size_t states;
    uint64_t place, number = read_shim(way, upstream, upstream_length, target, target_length, &shim, &place);
    if (number != 0)
        return refused(answer, number, place);
    if (!explore(&shim, &e))
        return refused(answer, SHIM_REFUSED_SITUATIONS, 0);
    states = refine(&e, ACCESSES + (int)shim.up.fences, class);
    if (states == 0)
        return refused(answer, SHIM_REFUSED_STATES, 0);
    return delivered(image, write_image(&shim, &e, class, states, image), 0, 0, out, out_length, answer);
}

/* ---- the image */

static int bad_block(const uint8_t *image, size_t b)
{
    const uint8_t *block = image + b * BLOCK;
    unsigned check = check_of(block);
    return block[0] != 0 || block[1] != b || block[CHECK_AT] != check >> 8 || block[CHECK_AT + 1] != (check & 0xFF);
}

/* The first byte of a range that is not zero, or its end. */
static size_t nonzero_in(const uint8_t *image, size_t from, size_t to)
{
    while (from < to && image[from] == 0)
        from++;
    return from;
}

static size_t barred_in_name(const uint8_t *field)
{
    size_t n = 0;
    while (n < NAME && field[n] != 0 && is_name_byte(field[n]))
        n++;
    if (n == 0 || (n < NAME && field[n] != 0))
        return n;
    return nonzero_in(field, n, NAME);
}

/* The first barred byte of an entry, or STATE_BYTES. */
static size_t barred_in_state(const uint8_t *image, const uint8_t *entry)
{
    unsigned states = image[4], ups = image[5], targets = image[6];
    for (size_t i = 0; i < 2 * ACCESSES; i += 2) {
        if (entry[i] != NO_FENCE && entry[i] != REFUSED && entry[i] >= targets)
            return i;
        if (entry[i] == REFUSED ? entry[i + 1] != 0 : entry[i + 1] >= states)
            return i + 1;
    }
    for (size_t f = 0; f < FENCES; f++)
        if (f < ups ? entry[2 * ACCESSES + f] >= states : entry[2 * ACCESSES + f] != 0)
            return 2 * ACCESSES + f;
    return STATE_BYTES;
}

static size_t barred_in_header(const uint8_t *image, size_t blocks)
{
    size_t n;
    if (image[2] != 1)
        return 2;
    if (image[3] > SHIM_FULL)
        return 3;
    if (image[4] == 0 || blocks != blocks_for(image[4]))
        return 4;
    if (image[5] > FENCES)
        return 5;
    if (image[6] > FENCES)
        return 6;
    n = barred_in_name(image + 7);
    if (n < NAME)
        return 7 + n;
    n = barred_in_name(image + 23);
    if (n < NAME)
        return 23 + n;
    return nonzero_in(image, 39, CHECK_AT);
}

/* The lowest barred byte of an image, or its length. */
static size_t barred(const uint8_t *image, size_t length)
{
    size_t blocks = length / BLOCK, at = barred_in_header(image, blocks);
    if (at < CHECK_AT)
        return at;
    for (size_t b = 1; b < blocks; b++) {
        for (size_t k = 0; k < STATES_IN_BLOCK; k++) {
            size_t entry = b * BLOCK + CONTENTS + k * STATE_BYTES;
            size_t n = (b - 1) * STATES_IN_BLOCK + k < image[4] ? barred_in_state(image, image + entry)
                                                               : nonzero_in(image + entry, 0, STATE_BYTES);
            if (n < STATE_BYTES)
                return entry + n;
        }
        at = nonzero_in(image, b * BLOCK + CONTENTS_END, b * BLOCK + CHECK_AT);
        if (at < b * BLOCK + CHECK_AT)
            return at;
    }
    return length;
}

/* The refusal of an image, or 0. */
static uint64_t read_image(const uint8_t *image, size_t length, uint64_t *place)
{
    size_t blocks = length / BLOCK;
    *place = 0;
    if (length > SHIM_IMAGE_LIMIT)
        return SHIM_REFUSED_OVER_LIMIT;
    for (size_t b = 0; b < blocks; b++)
        if (bad_block(image, b)) {
            *place = b;
            return SHIM_REFUSED_BLOCK;
        }
    if (length % BLOCK != 0 || length == 0) {
        *place = blocks;
        return SHIM_REFUSED_BLOCK;
    }
    *place = barred(image, length);
    if (*place < length)
        return SHIM_REFUSED_IMAGE_VALUE;
    *place = 0;
    return 0;
}

uint64_t plain_image_run(const uint8_t *image, size_t image_length, uint64_t start, const uint8_t *stream,
                         size_t stream_length, uint8_t *out, size_t out_length, struct shim_answer *answer)
{
    uint64_t place, number = read_image(image, image_length, &place);
    uint8_t made[SHIM_IMAGE_RUN_OUT];
    size_t length = 0, fences = 0, state;
    if (number != 0)
        return refused(answer, number, place);
    if (start >= image[4])
        return refused(answer, SHIM_REFUSED_OUT_OF_RANGE, 0);
    if (stream_length > SHIM_STREAM_LIMIT)
        return refused(answer, SHIM_REFUSED_OVER_LIMIT, 0);
    state = (size_t)start;
    for (size_t i = 0; i < stream_length; i++) {
        int letter = letter_of(stream[i]);
        const uint8_t *entry = image + state_at(state);
        if (letter < 0)
            return refused(answer, SHIM_REFUSED_NO_OPERATION, i);
        if (letter >= ACCESSES + image[5])
            return refused(answer, SHIM_REFUSED_NO_SUCH_FENCE, i);
        if (letter >= ACCESSES) {
            state = entry[ACCESSES + letter];
            continue;
        }
        if (entry[2 * letter] == REFUSED)
            return refused(answer, SHIM_REFUSED_NO_FENCE_WILL_DO, i);
        if (entry[2 * letter] != NO_FENCE) {
            made[length++] = fence_byte(entry[2 * letter]);
            fences++;
        }
        made[length++] = stream[i];
        state = entry[2 * letter + 1];
    }
    return delivered(made, length, fences, state, out, out_length, answer);
}
