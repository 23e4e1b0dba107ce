/* Replays recorded runs against the calls of station.h.

     replay [-l] [-d SEED] FILE..

   With -l the stores are large ones, else small.
   A run is lines `fresh N D OWN`, `tick`, `step HEX`, `offer HEX`, `display`, each followed by `= NUMBER HEX`, the refusal
   number and the bytes written (`-` for none), or `certified VIEW HEIGHT HEX`, followed by `= NUMBER COUNT`. Every call is made twice, on equal stores and on out buffers of other lengths and
   contents; looked at are the answer, the bytes written, that nothing else is written, and that a refusal but 6, 7 and 8
   leaves the store, as a question does. With -d every call is made first on a copy of the store with some bytes damaged: the answer must be 2
   and change nothing, or keep the same rules. The last line is 'N inputs, M differ'; the exit is 0 exactly when M is 0. */
#include <stdint.h>
#include <stdio.h>
#include <stdlib.h>
#include <string.h>

#include "rows.h"

enum { MARGIN = 64, LONGER = 1000, LINE = 1 << 18 };

struct input {
    char what; /* f t s o d c */
    uint64_t n, d, own, view, height;
    uint8_t bytes[LINE / 2];
    size_t length;
};

struct place { /* a store and an out buffer, with margins that nobody may write */
    uint8_t store[STATION_STORE_LENGTH_LARGE + MARGIN];
    uint8_t out[STATION_OUT_LENGTH_LARGE + LONGER + MARGIN];
    size_t out_length;
};

static const struct row *row = rows;
static struct place first, second;
static uint8_t before[STATION_STORE_LENGTH_LARGE], wanted[LINE / 2];
static unsigned long inputs, differ, damaged, refused;
static uint64_t seed;

static uint64_t draw(void)
{
    seed ^= seed << 13;
    seed ^= seed >> 7;
    seed ^= seed << 17;
    return seed;
}

static int hex(int c)
{
    return c <= '9' ? c - '0' : (c | 32) - 'a' + 10;
}

static size_t unhex(const char *text, uint8_t *bytes)
{
    size_t n = 0;
    if (*text == '-')
        return 0;
    while (text[2 * n] > ' ') {
        bytes[n] = (uint8_t)(hex(text[2 * n]) * 16 + hex(text[2 * n + 1]));
        n++;
    }
    return n;
}

static uint64_t call(struct place *p, const struct input *in)
{
    switch (in->what) {
    case 'f': return station_fresh(p->store, row->store, in->n, in->d, in->own);
    case 't': return station_tick(p->store, row->store, p->out, p->out_length);
    case 's': return station_step(p->store, row->store, in->bytes, in->length, p->out, p->out_length);
    case 'c': return station_certified(p->store, row->store, in->view, in->height, in->bytes, in->length);
    case 'd': return station_display(p->store, row->store, p->out, p->out_length);
    default: return station_offer(p->store, row->store, in->bytes, in->length, p->out, p->out_length);
    }
}

static int all(const uint8_t *p, size_t n, uint8_t value)
{
    for (size_t i = 0; i < n; i++)
        if (p[i] != value)
            return 0;
    return 1;
}

/* One call on a place whose out buffer is filled with a value: what is wrong with it, or none. */
static const char *made(struct place *p, const struct input *in, size_t out_length, uint8_t fill, uint64_t *answer)
{
    static uint8_t stored[STATION_STORE_LENGTH_LARGE];
    memcpy(stored, p->store, row->store);
    p->out_length = out_length;
    memset(p->out, fill, sizeof p->out);
    memset(p->store + row->store, fill, MARGIN);
    *answer = call(p, in);
    uint64_t number = *answer >> 32, count = *answer & 0xffffffff;
    if (number != 0 && count != 0)
        return "a refusal with a count";
    if (in->what == 'f' && count != 0)
        return "a fresh store with a count";
    if (in->what == 'c')
        count = 0; /* a number, and no bytes written */
    if (count > row->out)
        return "too many bytes";
    if (!all(p->out + count, sizeof p->out - count, fill))
        return "bytes written past the count";
    if (!all(p->store + row->store, MARGIN, fill))
        return "bytes written past the store";
    int same = memcmp(stored, p->store, row->store) == 0;
    if (number != 0 && (number < 6 || number > 8) && !same)
        return "a refusal that changes the store";
    if ((in->what == 'd' || in->what == 'c') && !same)
        return "a question that changes the store";
    if (number >= 6 && number <= 8 && same)
        return "a stop that leaves the store";
    return NULL;
}

static const char *on_damaged(const struct input *in)
{
    uint64_t answer;
    unsigned bits = 1 + draw() % 3;
    memcpy(first.store, before, row->store);
    for (unsigned i = 0; i < bits; i++) {
        size_t where = draw() % 4 == 0 ? draw() % row->store : draw() % 400;
        first.store[where] ^= (uint8_t)(1u << draw() % 8);
    }
    const char *wrong = made(&first, in, row->out, 0x5a, &answer);
    damaged++;
    refused += answer >> 32 == 2;
    return wrong;
}

/* Whether a call answers this number and count, and writes so many bytes. */
static const char *checked(const struct input *in, uint64_t number, uint64_t count, size_t written)
{
    uint64_t one, two;
    const char *wrong;
    memcpy(before, first.store, row->store);
    if (seed != 0 && in->what != 'f' && (wrong = on_damaged(in)))
        return wrong;
    memcpy(first.store, before, row->store);
    memcpy(second.store, before, row->store);
    if ((wrong = made(&second, in, row->out + LONGER, 0xa5, &two)) || (wrong = made(&first, in, row->out, 0x00, &one)))
        return wrong;
    if (one != two || memcmp(first.store, second.store, row->store) != 0)
        return "two calls, two answers";
    if (one >> 32 != number)
        return "another number";
    if ((one & 0xffffffff) != count)
        return "another count";
    if (memcmp(first.out, wanted, written) != 0 || memcmp(second.out, wanted, written) != 0)
        return "other bytes";
    return NULL;
}

static int replay(const char *name)
{
    static char line[LINE];
    static struct input in;
    unsigned long number = 0;
    FILE *file = fopen(name, "r");
    if (!file) {
        perror(name);
        return 1;
    }
    while (fgets(line, sizeof line, file)) {
        number++;
        if (line[0] == 'f')
            sscanf(line, "fresh %lu %lu %lu", &in.n, &in.d, &in.own);
        else if (line[0] == 's' || line[0] == 'o')
            in.length = unhex(strchr(line, ' ') + 1, in.bytes);
        else if (line[0] == 'c' && sscanf(line, "certified %lu %lu", &in.view, &in.height) == 2)
            in.length = unhex(strrchr(line, ' ') + 1, in.bytes);
        if (strchr("ftsodc", line[0])) {
            in.what = line[0];
            continue;
        }
        if (line[0] != '=')
            continue;
        char *rest;
        uint64_t want = strtoull(line + 2, &rest, 10);
        size_t written = in.what == 'c' ? 0 : unhex(rest + 1, wanted);
        const char *wrong = checked(&in, want, in.what == 'c' ? strtoull(rest + 1, NULL, 10) : written, written);
        inputs++;
        if (wrong) {
            printf("%s:%lu: %s\n", name, number, wrong);
            differ++;
            break;
        }
    }
    fclose(file);
    return 0;
}

int main(int count, char **words)
{
    int i = 1, failed = 0;
    if (i < count && strcmp(words[i], "-l") == 0) {
        row = rows + 1;
        i++;
    }
    if (i + 1 < count && strcmp(words[i], "-d") == 0) {
        seed = strtoull(words[i + 1], NULL, 10);
        i += 2;
    }
    for (; i < count; i++)
        failed |= replay(words[i]);
    if (seed)
        printf("%lu damaged stores, %lu refused with 2\n", damaged, refused);
    printf("%lu inputs, %lu differ\n", inputs, differ);
    return failed || differ || inputs == 0;
}
