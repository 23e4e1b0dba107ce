/* The calls on a store (station_*), and each of their refusal numbers, 1 to 12, with what it leaves, for stores of both
   lengths. */
#include <stdio.h>
#include <stdlib.h>
#include <string.h>

#include "rows.h"

/* The stores and out buffers of both rows lie in these, one byte longer than the longest. */
static uint8_t store[STATION_STORE_LENGTH_LARGE + 1], kept[sizeof store], out[STATION_OUT_LENGTH_LARGE + 1];
static const struct row *row;
static unsigned looked, failed;

static void expect(int holds, const char *what, int line)
{
    looked++;
    if (!holds) {
        failed++;
        printf("tests/calls.c:%d: %s: %s\n", line, row->name, what);
    }
}
#define EXPECT(fact) expect((fact) != 0, #fact, __LINE__)

static uint64_t refusal(uint64_t number) { return number << 32; }

/* A message: its kind, then pairs of a tag and a number (names have the number in their last four bytes). */
static size_t message(uint8_t *to, int kind, int fields, const uint32_t (*field)[2])
{
    static const uint8_t width[] = { 0, 1, 4, 4, 32, 32, 4, 2, 1 };
    size_t at = 0;
    for (int i = -1; i < fields; i++) {
        uint32_t tag = i < 0 ? 1 : field[i][0], value = i < 0 ? (uint32_t)kind : field[i][1];
        to[at++] = (uint8_t)tag;
        to[at++] = 0;
        to[at++] = width[tag];
        for (int k = width[tag]; k-- > 0;)
            to[at++] = k < 4 ? (uint8_t)(value >> 8 * k) : 0;
    }
    return at;
}

static uint8_t sent[128];

static uint64_t propose(uint32_t view, uint32_t height, uint32_t name, uint32_t parent, uint32_t author)
{
    const uint32_t f[][2] = { { 2, view }, { 3, height }, { 4, name }, { 5, parent }, { 7, 3 }, { 8, author } };
    return station_step(store, row->store, sent, message(sent, 2, 6, f), out, row->out);
}

static uint64_t vote(uint32_t view, uint32_t height, uint32_t name, uint32_t author)
{
    const uint32_t f[][2] = { { 2, view }, { 3, height }, { 4, name }, { 8, author } };
    return station_step(store, row->store, sent, message(sent, 3, 4, f), out, row->out);
}

static uint64_t status(uint32_t view, uint32_t height, uint32_t name, uint32_t mask)
{
    const uint32_t f[][2] = { { 3, height }, { 4, name }, { 6, view }, { 7, mask } };
    return station_step(store, row->store, sent, message(sent, 6, 4, f), out, row->out);
}

static uint64_t blame_set(uint32_t view, uint32_t mask)
{
    const uint32_t f[][2] = { { 2, view }, { 7, mask } };
    return station_step(store, row->store, sent, message(sent, 5, 2, f), out, row->out);
}

static uint64_t tick(void) { return station_tick(store, row->store, out, row->out); }

static uint64_t ticks(int count)
{
    uint64_t answer = 0;
    while (count-- > 0)
        answer = tick();
    return answer;
}

static uint64_t display(void) { return station_display(store, row->store, out, row->out); }

/* When a block was certified: its name has the number in its last four bytes. */
static uint64_t certified(uint64_t view, uint64_t height, uint32_t name)
{
    uint8_t bytes[32] = { 0 };
    for (int k = 0; k < 4; k++)
        bytes[31 - k] = (uint8_t)(name >> 8 * k);
    return station_certified(store, row->store, view, height, bytes, 32);
}

static int64_t left(size_t i) /* the ticks left of a propose on the display */
{
    uint64_t value = 0;
    for (size_t k = 39; k < 47; k++)
        value = value << 8 | out[47 * i + k];
    return (int64_t)value;
}

static void fresh(uint64_t own) { EXPECT(station_fresh(store, row->store, 3, 2, own) == 0); }

static void keep(void)
{
    memcpy(kept, store, sizeof store);
    memset(out, 0x77, sizeof out);
}

static int untouched(void)
{
    for (size_t i = 0; i < sizeof out; i++)
        if (out[i] != 0x77)
            return 0;
    return memcmp(kept, store, sizeof store) == 0;
}

/* 1, for a store of any length but the two; the out buffer is long enough for both. */
static void store_lengths(void)
{
    uint8_t name[32] = { 1 };
    unsigned wrong = 0;
    memset(store, 0x5a, sizeof store);
    keep();
    for (size_t length = 0; length <= sizeof store; length++) {
        if (length == rows[0].store || length == rows[1].store)
            continue;
        wrong += station_fresh(store, length, 3, 2, 0) != refusal(1);
        wrong += station_tick(store, length, out, sizeof out) != refusal(1);
        wrong += station_step(store, length, name, 0, out, sizeof out) != refusal(1);
        wrong += station_offer(store, length, name, 32, out, sizeof out) != refusal(1);
        wrong += station_display(store, length, out, sizeof out) != refusal(1);
        wrong += station_certified(store, length, 1, 1, name, 32) != refusal(1);
    }
    EXPECT(wrong == 0 && untouched());
}

static void lengths(void) /* 1 */
{
    uint8_t name[33] = { 1 };
    unsigned wrong = 0;
    fresh(1);
    keep();
    EXPECT(station_fresh(store, row->store - 1, 3, 2, 0) == refusal(1));
    EXPECT(station_fresh(store, row->store + 1, 3, 2, 0) == refusal(1));
    EXPECT(station_tick(store, row->store - 1, out, row->out) == refusal(1));
    EXPECT(station_step(store, row->store + 1, name, 0, out, row->out) == refusal(1));
    EXPECT(station_tick(store, row->store, out, row->out - 1) == refusal(1));
    for (size_t length = 0; length < row->out; length++) {
        wrong += station_tick(store, row->store, out, length) != refusal(1);
        wrong += station_step(store, row->store, name, 0, out, length) != refusal(1);
        wrong += station_offer(store, row->store, name, 32, out, length) != refusal(1);
        wrong += station_display(store, row->store, out, length) != refusal(1);
    }
    EXPECT(wrong == 0);
    EXPECT(station_offer(store, row->store, name, 31, out, row->out) == refusal(1));
    EXPECT(station_offer(store, row->store, name, 33, out, row->out) == refusal(1));
    for (size_t length = 0; length <= 33; length++)
        EXPECT(station_certified(store, row->store, 1, 1, name, length) == (length == 32 ? 0 : refusal(1)));
    EXPECT(station_certified(store, row->old, 1, 1, name, 32) == refusal(1));
    EXPECT(station_tick(store, row->old, out, row->out) == refusal(1));
    EXPECT(untouched());
    EXPECT(station_tick(store, row->store, out, sizeof out) == 0);
}

static void not_well_formed(void) /* 2 */
{
    uint8_t name[32] = { 1 };
    for (int fill = 0; fill < 256; fill += 255) {
        memset(store, fill, row->store);
        keep();
        EXPECT(tick() == refusal(2));
        EXPECT(station_step(store, row->store, name, 32, out, row->out) == refusal(2));
        EXPECT(station_offer(store, row->store, name, 32, out, row->out) == refusal(2));
        EXPECT(station_display(store, row->store, out, row->out) == refusal(2));
        EXPECT(station_certified(store, row->store, 1, 1, name, 32) == refusal(2));
        EXPECT(station_certified(store, row->store, UINT64_MAX, UINT64_MAX, name, 32) == refusal(2));
        EXPECT(station_certified(store, row->store, 1, 1, name, 31) == refusal(1));
        EXPECT(untouched());
    }
}

static void authors(void) /* 12: an author's seventeenth tally, after 5 and 11 and before 6 */
{
    fresh(2);
    for (uint32_t i = 0; i < 16; i++)
        EXPECT(vote(1, 1, i + 1, 0) == 0);
    keep();
    EXPECT(vote(1, 1, 17, 0) == refusal(12) && vote(2, 1, 17, 0) == refusal(12));
    EXPECT(vote(3, 1, 17, 0) == refusal(11) && vote(0, 1, 17, 0) == refusal(5));
    EXPECT(untouched());
    EXPECT(vote(1, 1, 16, 0) == 0 && vote(1, 1, 17, 1) == 0 && vote(1, 1, 17, 0) == 0);
    for (uint32_t i = 17; i < row->tallies; i++)
        EXPECT(status(1, 1, i + 1, 3) == 0);
    keep();
    EXPECT(vote(1, 1, row->tallies + 1, 0) == refusal(12));
    EXPECT(untouched());
    EXPECT(vote(1, 1, row->tallies + 1, 1) == refusal(6));
}

static void messages(void) /* 4, 5, 11, then 0 */
{
    fresh(2);
    keep();
    EXPECT(station_step(store, row->store, sent, 0, out, row->out) == refusal(4));
    EXPECT(vote(row->views + 1, 1, 77, 0) == refusal(5));
    EXPECT(vote(0, 1, 77, 0) == refusal(5));
    EXPECT(blame_set(1, 11) == refusal(5));
    EXPECT(vote(row->views, 1, 77, 0) == refusal(11));
    EXPECT(vote(3, 1, 77, 0) == refusal(11) && blame_set(3, 3) == refusal(11) && propose(3, 1, 77, 0, 0) == refusal(11));
    EXPECT(untouched());
    EXPECT(vote(2, 1, 77, 0) == 0);
    EXPECT(ticks(7) == 0);
    EXPECT(propose(1, 1, 77, 0, 1) == 160);
    EXPECT(ticks(4) == 0);
    EXPECT(tick() == 39);
}

/* 6, then 3: what has no record free leaves all but the phase, which is the store's first four bytes. */
static void stops_full(uint64_t answer)
{
    EXPECT(answer == refusal(6));
    EXPECT(memcmp(kept, store, sizeof store) != 0 && memcmp(kept + 4, store + 4, sizeof store - 4) == 0);
    keep();
    EXPECT(vote(1, 1, 1, 1) == refusal(3) && tick() == refusal(3));
    EXPECT(station_step(store, row->store, sent, 0, out, row->out) == refusal(3));
    EXPECT(untouched());
}

static void full_tallies(void)
{
    fresh(0);
    for (uint32_t i = 0; i < row->tallies; i++)
        EXPECT(status(1, 1, i + 1, 3) == 0);
    EXPECT(vote(1, 1, row->tallies, 1) == 0);
    keep();
    stops_full(vote(1, 1, row->tallies + 1, 0));
}

static void full_statements(void)
{
    fresh(2);
    for (uint32_t i = 0; i < row->statements; i++)
        EXPECT(propose(1, i + 1, i + 1, i, 1) == 160);
    EXPECT(propose(1, 1, 1, 0, 1) == 0);
    EXPECT(display() == 47 * row->statements);
    keep();
    stops_full(propose(1, row->statements + 1, row->statements + 1, row->statements, 1));
    EXPECT(display() == 0 && untouched());
}

/* From view to view by blame sets; nothing is entered after the last. */
static void last_view(void)
{
    fresh(0);
    for (uint32_t view = 1; view <= row->views; view++) {
        EXPECT(STATION_REFUSAL(blame_set(view, 6)) == 0 && STATION_REFUSAL(ticks(3)) == 0);
        EXPECT(((uint32_t)store[10] << 8 | store[11]) == (view < row->views ? view + 1 : view));
    }
    EXPECT(blame_set(row->views + 1, 6) == refusal(5));
    EXPECT(ticks(30) == 0);
}

static void split(void) /* 7 */
{
    fresh(0);
    EXPECT(propose(1, 1, 77, 0, 1) == 160);
    EXPECT(ticks(5) == 39);
    EXPECT(blame_set(1, 3) == 19);
    EXPECT(ticks(3) == 62);
    EXPECT(propose(2, 1, 78, 0, 2) == 160);
    EXPECT(ticks(4) == 0);
    EXPECT(tick() == refusal(7) && tick() == refusal(3));
}

static void clock_end(void) /* 8 */
{
    fresh(2);
    memcpy(store + 16, "\xee\x6b\x28\x00", 4);
    EXPECT(tick() == refusal(8) && tick() == refusal(3));
}

static void offers(void) /* 9, then 0 */
{
    uint8_t name[32] = { 0 };
    name[31] = 77;
    fresh(1);
    keep();
    EXPECT(station_offer(store, row->store, name, 32, out, row->out) == refusal(9));
    EXPECT(untouched());
    EXPECT(ticks(5) == 132);
    EXPECT(vote(1, 0, 0, 0) == 0);
    EXPECT(station_offer(store, row->store, name, 32, out, row->out) == 160);
}

/* From 5 ticks left to 2 overdue, while the parent is missing; by place; none once committed, none while waiting. */
static void shown(void)
{
    fresh(2);
    keep();
    EXPECT(display() == 0 && untouched());
    EXPECT(propose(1, 2, 79, 77, 1) == 160);
    for (int k = 0; k < 7; k++) {
        keep();
        EXPECT(display() == 47 && memcmp(kept, store, sizeof store) == 0 && out[47] == 0x77);
        EXPECT(memcmp(out, "\x13\x00\x2c\x00\x00\x00\x02", 7) == 0 && out[38] == 79 && left(0) == 5 - k);
        EXPECT(tick() == 0);
    }
    EXPECT(propose(1, 1, 77, 0, 1) == 160);
    EXPECT(display() == 94 && out[38] == 79 && left(0) == -2 && out[47 + 38] == 77 && left(1) == 5);
    EXPECT(tick() == 78 && display() == 0);
    EXPECT(propose(1, 3, 80, 79, 1) == 160 && display() == 47);
    EXPECT(blame_set(1, 3) == 19 && display() == 0);
}

/* One more than the clock at which f+1 voters were first there, whatever brought them; 0 for all else. The store is only read. */
static void when(void)
{
    fresh(0);
    EXPECT(certified(1, 0, 0) == 0 && certified(0, 0, 0) == 0);
    EXPECT(vote(1, 1, 77, 1) == 0 && certified(1, 1, 77) == 0);
    EXPECT(status(1, 5, 99, 6) == 0 && certified(1, 5, 99) == 1);
    EXPECT(status(0, 0, 0, 0) == 0 && certified(0, 0, 0) == 0);
    EXPECT(ticks(3) == 0);
    EXPECT(propose(1, 2, 79, 78, 1) == 160 && certified(1, 1, 78) == 4 && certified(1, 2, 79) == 0);
    EXPECT(vote(1, 1, 77, 1) == 0 && certified(1, 1, 77) == 0);
    EXPECT(ticks(1) == 0 && vote(1, 1, 77, 2) == 0 && certified(1, 1, 77) == 5);
    EXPECT(vote(1, 2, 79, 2) == 0 && certified(1, 2, 79) == 5);
    EXPECT(ticks(1) == 0 && vote(1, 1, 77, 0) == 0 && vote(1, 2, 79, 1) == 0 && status(1, 5, 99, 7) == 0);
    keep();
    EXPECT(certified(1, 1, 77) == 5 && certified(1, 1, 78) == 4 && certified(1, 2, 79) == 5 && certified(1, 5, 99) == 1);
    EXPECT(certified(2, 1, 77) == 0 && certified(1, 2, 77) == 0 && certified(1, 1, 79) == 0 && certified(0, 1, 77) == 0);
    EXPECT(certified(1 + ((uint64_t)1 << 32), 1, 77) == 0 && certified(1, 1 + ((uint64_t)1 << 32), 77) == 0);
    EXPECT(certified(UINT64_MAX, 1, 77) == 0 && certified(1, UINT64_MAX, 77) == 0);
    EXPECT(untouched());
    /* what a tick joins has the new clock: the own votes of an entry, and that of a leader */
    EXPECT(propose(2, 1, 80, 0, 2) == 0 && vote(2, 1, 80, 2) == 0 && blame_set(1, 6) == 19);
    EXPECT(ticks(2) == 0 && certified(2, 1, 80) == 0 && STATION_REFUSAL(tick()) == 0 && certified(2, 1, 80) == 9);
    fresh(1);
    EXPECT(vote(1, 0, 0, 0) == 0 && ticks(4) == 0 && certified(1, 0, 0) == 0 && tick() == 132 && certified(1, 0, 0) == 6);
    /* a stopped station tells it too */
    memcpy(store + 16, "\xee\x6b\x28\x00", 4);
    EXPECT(tick() == refusal(8) && certified(1, 0, 0) == 6);
    /* at the last clock */
    fresh(2);
    memcpy(store + 16, "\xee\x6b\x28\x00", 4);
    EXPECT(status(1, 1, 77, 3) == 0 && certified(1, 1, 77) == 4000000001);
}

static void settings(void) /* 10 */
{
    fresh(0);
    keep();
    EXPECT(station_fresh(store, row->store, 4, 2, 0) == refusal(10));
    EXPECT(station_fresh(store, row->store, 3, 0, 0) == refusal(10));
    EXPECT(station_fresh(store, row->store, 3, 10001, 0) == refusal(10));
    EXPECT(station_fresh(store, row->store, 3, 2, 3) == refusal(10));
    EXPECT(station_fresh(store, row->store, 17, 2, 0) == refusal(10));
    EXPECT(station_fresh(store, row->store, UINT64_MAX, UINT64_MAX, UINT64_MAX) == refusal(10));
    EXPECT(untouched());
    EXPECT(station_fresh(store, row->store, 15, 10000, 14) == 0);
}

static void every(void)
{
    lengths();
    not_well_formed();
    messages();
    full_tallies();
    authors();
    full_statements();
    last_view();
    split();
    clock_end();
    offers();
    shown();
    when();
    settings();
}

int main(void)
{
    row = rows;
    store_lengths();
    for (; row < rows + ROWS; row++)
        every();
    printf("%u looked at, %u failed\n", looked, failed);
    return failed != 0;
}
