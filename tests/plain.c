/* The plain engine beside the working station: recorded runs are handed to both, call by call from fresh.

     plain FILE..

   A run's lines are those of tests/replay.c. What both answer, the bytes that they write, and the log at a run's end must be
   the same; a list grows by one record exactly where the answer is 0, 6, 7 or 8. Every call works its list through from the
   start, so that a run is cut at so many inputs. Besides: each refusal of the lists' own. The last line is 'N inputs,
   M differ'; the exit is 0 exactly when M is 0. */
#include <stdint.h>
#include <stdio.h>
#include <stdlib.h>
#include <string.h>

#include "rows.h"

enum { SLOTS = 250, LENGTH = PLAIN_LIST_LENGTH(SLOTS), LINE = 1 << 18 };

static uint8_t store[STATION_STORE_LENGTH], list[LENGTH], kept[LENGTH];
static uint8_t out[2][STATION_OUT_LENGTH + 8], bytes[LINE / 2];
static unsigned long inputs, differ;

static void expect(int good, const char *what)
{
    inputs++;
    if (!good) {
        differ++;
        fprintf(stderr, "plain: %s\n", what);
    }
}

static int hex(int c)
{
    return c <= '9' ? c - '0' : (c | 32) - 'a' + 10;
}

static size_t unhex(const char *text)
{
    size_t n = 0;
    while (*text != '-' && text[2 * n] > ' ') {
        bytes[n] = (uint8_t)(hex(text[2 * n]) * 16 + hex(text[2 * n + 1]));
        n++;
    }
    return n;
}

static uint32_t records(void)
{
    return (uint32_t)list[4] << 24 | (uint32_t)list[5] << 16 | (uint32_t)list[6] << 8 | list[7];
}

/* One input to both. */
static void input(char what, size_t length)
{
    uint64_t a, b;
    memset(out[0], 0x5a, sizeof out[0]);
    memset(out[1], 0x5a, sizeof out[1]);
    memcpy(kept, list, LENGTH);
    uint32_t before = records();
    if (what == 't') {
        a = station_tick(store, sizeof store, out[0], STATION_OUT_LENGTH);
        b = plain_tick(list, LENGTH, out[1], STATION_OUT_LENGTH);
    } else if (what == 's') {
        a = station_step(store, sizeof store, bytes, length, out[0], STATION_OUT_LENGTH);
        b = plain_step(list, LENGTH, bytes, length, out[1], STATION_OUT_LENGTH);
    } else {
        a = station_offer(store, sizeof store, bytes, length, out[0], STATION_OUT_LENGTH);
        b = plain_offer(list, LENGTH, bytes, length, out[1], STATION_OUT_LENGTH);
    }
    uint32_t number = STATION_REFUSAL(b);
    int grows = number == 0 || (number >= 6 && number <= 8);
    expect(a == b && memcmp(out[0], out[1], sizeof out[0]) == 0, "another answer, or other bytes");
    expect(grows ? records() == before + 1 : memcmp(kept, list, LENGTH) == 0, "a list that should have grown, or not");
}

/* The log that the list gives is that of the store. */
static void logs(void)
{
    size_t count = (size_t)store[66] << 8 | store[67];
    uint64_t b = plain_log(list, LENGTH, out[0], STATION_OUT_LENGTH);
    expect(b == 32 * count && memcmp(out[0], store + STATION_LOG, 32 * count) == 0, "another log");
}

static void run(const char *path)
{
    static char line[LINE];
    FILE *file = fopen(path, "r");
    unsigned long n, d, own;
    int good = 0;
    if (!file) {
        perror(path);
        exit(2);
    }
    while (fgets(line, sizeof line, file)) {
        if (sscanf(line, "fresh %lu %lu %lu", &n, &d, &own) == 3) {
            if (good)
                logs();
            uint64_t a = station_fresh(store, sizeof store, n, d, own);
            uint64_t b = plain_fresh(list, LENGTH, n, d, own);
            expect(a == b, "another answer to fresh");
            good = a == 0;
        } else if (good && records() < SLOTS) {
            if (strncmp(line, "tick", 4) == 0)
                input('t', 0);
            else if (strncmp(line, "step ", 5) == 0)
                input('s', unhex(line + 5));
            else if (strncmp(line, "offer ", 6) == 0)
                input('o', unhex(line + 6));
        }
    }
    if (good)
        logs();
    fclose(file);
}

/* 1, 2, 10 and 13, which change nothing. */
static void refusals(void)
{
    uint8_t name[32] = { 1 };
    size_t one = PLAIN_LIST_LENGTH(1);
    memset(list, 7, LENGTH);
    memcpy(kept, list, LENGTH);
    expect(STATION_REFUSAL(plain_fresh(list, one - 1, 3, 2, 2)) == 1, "a list a byte short");
    expect(STATION_REFUSAL(plain_fresh(list, PLAIN_LIST_LENGTH(0), 3, 2, 2)) == 1, "a list without a slot");
    expect(STATION_REFUSAL(plain_fresh(list, one, 4, 2, 2)) == 10, "settings that are bad");
    expect(STATION_REFUSAL(plain_tick(list, one, out[0], STATION_OUT_LENGTH)) == 2, "a list that is none");
    expect(memcmp(list, kept, LENGTH) == 0, "a refusal that changes a list");
    expect(plain_fresh(list, one, 3, 2, 2) == 0 && list[one] == 7, "a fresh list");
    expect(STATION_REFUSAL(plain_tick(list, one, out[0], STATION_OUT_LENGTH - 1)) == 1, "an out buffer a byte short");
    expect(STATION_REFUSAL(plain_log(list, one, out[0], STATION_OUT_LENGTH - 1)) == 1, "an out buffer for the log");
    expect(STATION_REFUSAL(plain_offer(list, one, name, 31, out[0], STATION_OUT_LENGTH)) == 1, "a name of 31 bytes");
    expect(STATION_REFUSAL(plain_offer(list, one, name, 32, out[0], STATION_OUT_LENGTH)) == 9, "an offer to no leader");
    expect(plain_tick(list, one, out[0], STATION_OUT_LENGTH) == 0 && list[7] == 1, "a tick");
    memcpy(kept, list, LENGTH);
    expect(STATION_REFUSAL(plain_tick(list, one, out[0], STATION_OUT_LENGTH)) == 13, "a list without a slot left");
    expect(STATION_REFUSAL(plain_step(list, one, name, 1, out[0], STATION_OUT_LENGTH)) == 4, "4 before 13");
    expect(memcmp(list, kept, LENGTH) == 0, "a refusal that changes a list");
    list[16 + 6] ^= 1;
    expect(STATION_REFUSAL(plain_tick(list, one, out[0], STATION_OUT_LENGTH)) == 2, "a record with another number");
    expect(STATION_REFUSAL(plain_log(list, one, out[0], STATION_OUT_LENGTH)) == 2, "the log of such a list");
}

int main(int argc, char **argv)
{
    refusals();
    for (int i = 1; i < argc; i++)
        run(argv[i]);
    printf("%lu inputs, %lu differ\n", inputs, differ);
    return differ != 0;
}
