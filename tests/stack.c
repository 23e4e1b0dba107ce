/* How much stack the calls take: each kind of call is made from a thread whose stack was painted before, and what is no
   longer paint was in use.

     stack FILE..

   The runs are those of tests/replay.c, for small stores; the large ones take their inputs too. docs/HOST.md says how much a
   host must have: a call that takes more is a failure. The last line is 'N kinds of call, M take more than is said'. */
#define _GNU_SOURCE
#include <pthread.h>
#include <stdint.h>
#include <stdio.h>
#include <stdlib.h>
#include <string.h>

#include "rows.h"

enum { STACK = 16 << 20, LINE = 1 << 18, INPUTS = 1 << 14, PAINT = 0xa5, SLOTS = 200 };

/* what docs/HOST.md says, in bytes */
enum { OF_A_STATION = 32 << 10, OF_THE_PLAIN_ENGINE = 2 << 20 };

struct input {
    char what; /* f t s o */
    uint64_t n, d, own;
    uint8_t *bytes;
    size_t length;
};

static struct input inputs[INPUTS];
static size_t count;
static const struct row *row;
static uint8_t store[STATION_STORE_LENGTH_LARGE], out[STATION_OUT_LENGTH_LARGE];
static uint8_t list[PLAIN_LIST_LENGTH(SLOTS)], journal[SLOTS * 128], report[12 + 4 * SLOTS];
static uint8_t envelope[8192], parts[4096], name[32], slip[1 << 17];
static unsigned kinds, over;

/* ---- the kinds of call */

static void nothing(void) {}

static void steps(void)
{
    for (size_t i = 0; i < count; i++) {
        struct input *in = &inputs[i];
        if (in->what == 'f')
            station_fresh(store, row->store, in->n, in->d, in->own);
        else if (in->what == 't')
            station_tick(store, row->store, out, row->out);
        else if (in->what == 's')
            station_step(store, row->store, in->bytes, in->length, out, row->out);
        else
            station_offer(store, row->store, in->bytes, in->length, out, row->out);
    }
}

/* what only reads a store, and slips, envelopes and reports, which need none */
static void looks(void)
{
    station_display(store, row->store, out, row->out);
    station_certified(store, row->store, 1, 1, name, sizeof name);
    memcpy(name, store + row->log, sizeof name);
    uint64_t length = slip_write(store, row->store, name, sizeof name, slip, row->out);
    slip_check(row == rows ? 0 : 4, 3, slip, STATION_REFUSAL(length) ? 0 : (size_t)length);
    for (size_t i = 0; i + 1 < count; i++)
        if (inputs[i].what == 's' && inputs[i + 1].what == 's')
            status_choose(0, 3, inputs[i].bytes, inputs[i].length, inputs[i + 1].bytes, inputs[i + 1].length);
    /* an envelope of a message within envelopes, to depth 4 */
    for (size_t i = 0; i < count; i++) {
        uint8_t place[8] = { 0 };
        size_t n = inputs[i].length;
        if (inputs[i].what != 's' || n > 0xff)
            continue;
        place[7] = (uint8_t)n;
        uint64_t wrote = envelope_write(inputs[i].bytes, n, place, sizeof place, envelope, sizeof envelope);
        if (STATION_REFUSAL(wrote))
            continue;
        n = (size_t)wrote;
        for (int depth = 1; depth < 4; depth++) {
            memmove(envelope + 3, envelope, n);
            envelope[0] = 0x30;
            envelope[1] = (uint8_t)(n >> 8);
            envelope[2] = (uint8_t)n;
            n += 3;
        }
        envelope_read(envelope, n, parts, sizeof parts);
    }
}

static void journals(void)
{
    memset(journal, 0, sizeof journal);
    station_fresh(store, row->store, inputs[0].n, inputs[0].d, inputs[0].own);
    for (size_t i = 1; i < count && inputs[i].what != 'f'; i++)
        journal_write(journal, sizeof journal, inputs[i].what == 't' ? 1 : inputs[i].what == 'o' ? 2 : 3, inputs[i].bytes, inputs[i].length);
    journal_replay(journal, sizeof journal, store, row->store, out, row->out, report, sizeof report);
}

static void plain(void)
{
    size_t kept = 0;
    for (size_t i = 0; i < count; i++) {
        struct input *in = &inputs[i];
        if (in->what == 'f')
            kept = plain_fresh(list, sizeof list, in->n, in->d, in->own) ? SLOTS : 0;
        else if (kept++ >= 40) /* each call works its whole list through */
            continue;
        else if (in->what == 't')
            plain_tick(list, sizeof list, out, row->out);
        else if (in->what == 's')
            plain_step(list, sizeof list, in->bytes, in->length, out, row->out);
        else
            plain_offer(list, sizeof list, in->bytes, in->length, out, row->out);
    }
    plain_log(list, sizeof list, out, row->out);
}

/* ---- the paint */

static void *run(void *deed)
{
    (*(void (**)(void))deed)();
    return NULL;
}

/* How far down a deed's thread wrote its stack. */
static size_t deepest(void (*deed)(void))
{
    static uint8_t stack[STACK] __attribute__((aligned(4096)));
    pthread_attr_t how;
    pthread_t thread;
    size_t paint = 0;
    memset(stack, PAINT, sizeof stack);
    if (pthread_attr_init(&how) || pthread_attr_setstack(&how, stack, sizeof stack) || pthread_create(&thread, &how, run, &deed)
        || pthread_join(thread, NULL)) {
        fprintf(stderr, "stack: no thread\n");
        exit(2);
    }
    pthread_attr_destroy(&how);
    while (paint < sizeof stack && stack[paint] == PAINT)
        paint++;
    return sizeof stack - paint;
}

static void measure(const char *what, void (*deed)(void), size_t most)
{
    size_t took = deepest(deed) - deepest(nothing);
    printf("%s, %s stores: %zu bytes\n", what, row->name, took);
    kinds++;
    if (took > most) {
        over++;
        fprintf(stderr, "stack: more than %zu bytes\n", most);
    }
}

/* ---- the runs */

static int hex(int c)
{
    return c <= '9' ? c - '0' : (c | 32) - 'a' + 10;
}

static void read_run(const char *path)
{
    static char line[LINE];
    FILE *file = fopen(path, "r");
    if (!file) {
        perror(path);
        exit(2);
    }
    while (fgets(line, sizeof line, file) && count < INPUTS) {
        struct input *in = &inputs[count];
        const char *text = strchr(line, ' ');
        if (strncmp(line, "tick", 4) == 0) {
            in->what = 't';
        } else if (strncmp(line, "fresh ", 6) == 0) {
            in->what = 'f';
            if (sscanf(line, "fresh %lu %lu %lu", &in->n, &in->d, &in->own) != 3)
                continue;
        } else if (strncmp(line, "step ", 5) == 0 || strncmp(line, "offer ", 6) == 0) {
            in->what = line[0];
            in->bytes = malloc(strlen(text) / 2 + 1);
            for (text++; text[0] != '-' && text[0] > ' '; text += 2)
                in->bytes[in->length++] = (uint8_t)(hex(text[0]) * 16 + hex(text[1]));
        } else {
            continue;
        }
        count++;
    }
    fclose(file);
}

int main(int argc, char **argv)
{
    for (int i = 1; i < argc; i++)
        read_run(argv[i]);
    for (int i = 0; i < ROWS; i++) {
        row = &rows[i];
        measure("messages, ticks and offers", steps, OF_A_STATION);
        measure("what only looks, slips, envelopes and reports", looks, OF_A_STATION);
        measure("journals", journals, OF_A_STATION);
    }
    row = rows;
    measure("the plain engine", plain, OF_THE_PLAIN_ENGINE);
    printf("%u kinds of call, %u take more than is said\n", kinds, over);
    return over != 0;
}
