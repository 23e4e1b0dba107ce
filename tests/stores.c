/* Stores that are not well formed, of both lengths: each gets its number and keeps every byte. To a station that runs an empty message
   is unreadable, 4, exactly where the store is well formed, so the answer shows the check alone. */
#include <stdio.h>
#include <string.h>

#include "rows.h"

enum { STATEMENTS = 68, STATEMENT = 80, TALLY = 47, MASK = 2, NAME = 32 };

static uint8_t good[STATION_STORE_LENGTH_LARGE + 1], store[sizeof good], kept[sizeof good];
static uint8_t out[STATION_OUT_LENGTH_LARGE];
static const struct row *row;
static size_t tallies, blames, names; /* where these tables of the row begin */
static unsigned looked, failed;

static void answers(uint64_t number, size_t length, const char *what)
{
    memcpy(kept, store, sizeof store);
    memset(out, 0x77, sizeof out);
    uint64_t answer = station_step(store, length, store, 0, out, row->out);
    int same = memcmp(kept, store, sizeof store) == 0;
    for (size_t i = 0; i < sizeof out; i++)
        same &= out[i] == 0x77;
    looked++;
    if (answer != number << 32 || !same) {
        failed++;
        printf("tests/stores.c: %s, %s: answered %llu, %s\n", row->name, what, (unsigned long long)(answer >> 32), same ? "unchanged" : "changed");
    }
    memcpy(store, good, sizeof good);
}

static void bad(const char *what) { answers(2, row->store, what); }

static void put(size_t at, size_t width, uint64_t value)
{
    while (width-- > 0) {
        store[at + width] = (uint8_t)value;
        value >>= 8;
    }
}

static void statement(int i, uint64_t view, uint64_t height, uint64_t name, int kind, int author, int mask, uint64_t link, uint64_t vote)
{
    size_t at = STATEMENTS + STATEMENT * (size_t)i;
    put(at, 4, view);
    put(at + 4, 4, height);
    put(at + 32, 8, name);
    put(at + 40, 1, (uint64_t)kind);
    put(at + 41, 1, (uint64_t)author);
    put(at + 42, 2, (uint64_t)mask);
    put(at + 68, 8, link);
    put(at + 76, 4, vote);
}

static int count(int mask) { return (mask & 1) + (mask >> 1 & 1) + (mask >> 2 & 1); }

/* One that first had two of three voters at clock 3, if it has them. */
static void tally(int i, uint64_t view, uint64_t height, uint64_t name, int mask)
{
    size_t at = tallies + TALLY * (size_t)i;
    put(at, 4, view);
    put(at + 4, 4, height);
    put(at + 32, 8, name);
    put(at + 40, 2, (uint64_t)mask);
    put(at + 43, 4, count(mask) >= 2 ? 4 : 0);
}

/* tallies 3 to 2 + count, each opened by station 0 */
static void opened(int count)
{
    for (int i = 3; i < 3 + count; i++) {
        tally(i, 1, 1, 1000 + (uint64_t)i, 1);
        put(tallies + TALLY * (size_t)i + 42, 1, 1);
    }
}

static void counts(uint64_t statements, uint64_t tallied, uint64_t logged)
{
    put(62, 2, statements);
    put(64, 2, tallied);
    put(66, 2, logged);
}

/* Station 2 of three at clock 9, in view 1: two blocks, the first of them logged. */
static void build(void)
{
    tallies = STATEMENTS + STATEMENT * row->statements;
    blames = tallies + TALLY * row->tallies;
    names = blames + MASK * row->views;
    memset(store, 0x5a, sizeof store);
    if (station_fresh(store, row->store, 3, 2, 2) != 0 || names != row->log || names + NAME * row->statements != row->store)
        failed++;
    put(16, 4, 9);
    statement(0, 1, 1, 77, 2, 1, 3, 0, 3);
    statement(1, 1, 2, 79, 2, 1, 6, 77, 9);
    tally(0, 1, 0, 0, 3);
    tally(1, 1, 1, 77, 7);
    tally(2, 1, 2, 79, 4);
    put(names + 24, 8, 77);
    counts(2, 3, 1);
    memcpy(good, store, sizeof good);
}

static void every(void)
{
    build();
    answers(4, row->store, "a good store");
    answers(1, row->store - 1, "one byte short");
    answers(1, row->store + 1, "one byte long");
    answers(1, row->old, "of the length before tallies kept a clock");
    answers(1, 0, "no byte");
    memset(store, 0, row->store), bad("all zero");
    memset(store, 0xff, row->store), bad("all FF");
    put(62, 2, row->statements + 1), bad("one statement too many");
    put(64, 2, row->tallies + 1), bad("one tally too many");
    put(66, 2, row->statements + 1), bad("one logged name too many");
    put(4, 1, 4), bad("n of 4");
    put(5, 2, 0), bad("D of 0");
    put(7, 1, 3), bad("own number n");
    put(8, 4, row->views + 1), bad("a view too high");
    put(8, 4, row->views), answers(4, row->store, "the last view");
    put(12, 4, 10), bad("entry after the clock");
    put(16, 4, 4000000001), bad("clock past its end");
    put(0, 4, 14), bad("quit after the clock");
    put(0, 4, 0xffffffff), bad("phase out of range");
    put(20, 4, 1), put(24, 4, 1), put(52, 8, 77), put(60, 2, 3), bad("lock of the view itself");
    put(60, 2, 1), bad("lock on genesis with a mask");
    put(tallies + 40, 2, 0xb), bad("tally with a mask bit at n");
    put(tallies + 42, 1, 2), answers(4, row->store, "a tally opened by one of its voters");
    put(tallies + 42, 1, 3), bad("a tally opened by a station that is no voter of it");
    put(tallies + 42, 1, 4), bad("a tally opened by station n");
    put(tallies + 43, 4, 0), bad("a quorum without a clock");
    put(tallies + 43, 4, 10), answers(4, row->store, "a quorum at the present clock");
    put(tallies + 43, 4, 11), bad("a quorum after the present clock");
    put(tallies + 43, 4, 0xffffffff), bad("a quorum at no clock");
    put(tallies + 43, 4, 1), answers(4, row->store, "a quorum at clock 0");
    put(tallies + 2 * TALLY + 43, 4, 1), bad("a clock without a quorum");
    put(tallies + 2 * TALLY + 40, 2, 6), bad("one voter more and no clock");
    opened(16), counts(2, 19, 1), answers(4, row->store, "sixteen tallies of one author");
    opened(17), counts(2, 20, 1), bad("seventeen tallies of one author");
    put(blames, 2, 8), bad("blame mask with a bit at n");
    put(names - 2, 2, 8), bad("blame mask of the last view with a bit at n");
    statement(2, 1, 1, 77, 2, 1, 5, 0, 0), counts(3, 3, 1), bad("a statement twice");
    tally(3, 1, 1, 77, 0), counts(2, 4, 1), bad("a tally twice");
    tally(3, row->views, 1, 99, 0), counts(2, 4, 1), answers(4, row->store, "a tally of the last view");
    tally(3, row->views + 1, 1, 99, 0), counts(2, 4, 1), bad("a tally of a view too high");
    memset(store + tallies + 2 * TALLY, 0, TALLY), counts(2, 2, 1), bad("no tally for an own block");
    tally(0, 1, 3, 99, 3), bad("no tally for a certified block");
    put(STATEMENTS + 40, 1, 3), bad("kind 3");
    put(STATEMENTS + 41, 1, 2), bad("a statement not of the leader");
    put(STATEMENTS + 42, 2, 1), bad("a statement without a quorum");
    put(STATEMENTS + 76, 4, 11), bad("a vote after the clock");
    put(names + 24, 8, 78), bad("a logged name without its propose");
    put(names + NAME + 24, 8, 79), counts(2, 3, 2), answers(4, row->store, "both blocks logged");
    statement(1, 1, 2, 79, 2, 1, 6, 70, 9), tally(3, 1, 1, 70, 0), put(names + NAME + 24, 8, 79), counts(2, 4, 2), bad("a broken link");
    put(tallies - 1, 1, 1), bad("a byte behind the statements");
    put(blames - 1, 1, 1), bad("the last byte behind the tallies");
    put(tallies + TALLY * 3, 1, 1), bad("a byte behind the tallies");
    put(row->store - 1, 1, 1), bad("the last byte");
}

int main(void)
{
    for (row = rows; row < rows + ROWS; row++)
        every();
    printf("%u looked at, %u failed\n", looked, failed);
    return failed != 0;
}
