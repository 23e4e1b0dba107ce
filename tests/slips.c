/* The calls for slips behind the C ABI: a chain is committed, its slips are written and checked, and every refusal is met.
 * No byte of a shared buffer changes, nor any byte behind what was written. */
#include "../include/station.h"

#include <inttypes.h>
#include <stdio.h>
#include <string.h>

enum { N = 3, D = 2, HEIGHT = 20, NAME = 35, ENTRY = 100, LONG = NAME + ENTRY * HEIGHT };

static uint8_t store[STATION_STORE_LENGTH], was[STATION_STORE_LENGTH], out[STATION_OUT_LENGTH], name[33];
static unsigned long checks, wrong;

static void same(const char *what, uint64_t said, uint64_t meant)
{
    checks++;
    if (said != meant) {
        wrong++;
        printf("%s: %" PRIu64 " %" PRIu64 ", not %" PRIu64 " %" PRIu64 "\n", what, said >> 32, said & 0xffffffff, meant >> 32, meant & 0xffffffff);
    }
}

static uint64_t refusal(uint64_t number, uint64_t count)
{
    return number << 32 | count;
}

static void name_of(uint8_t *to, unsigned height)
{
    memset(to, height ? (int)(0x40 + height) : 0, 32);
}

/* The propose of a height, in view 1 by its leader, certified by stations 0 and 1. */
static void propose(uint8_t *m, unsigned height)
{
    static const uint8_t head[] = {1, 0, 1, 2, 2, 0, 4, 0, 0, 0, 1, 3, 0, 4, 0, 0, 0};
    memcpy(m, head, sizeof head);
    m[17] = (uint8_t)height;
    m[18] = 4, m[19] = 0, m[20] = 32;
    name_of(m + 21, height);
    m[53] = 5, m[54] = 0, m[55] = 32;
    name_of(m + 56, height - 1);
    memcpy(m + 88, "\7\0\2\0\3\10\0\1\1", 9);
}

/* What is written for a name: the answer, and that nothing else changes. */
static uint64_t write(size_t store_len, size_t name_len, size_t out_len)
{
    uint64_t said;
    size_t i, count;
    memcpy(was, store, sizeof store);
    memset(out, 0xEE, sizeof out);
    said = slip_write(store, store_len, name, name_len, out, out_len);
    count = STATION_REFUSAL(said) ? 0 : STATION_COUNT(said);
    same("the store is only read", (uint64_t)memcmp(store, was, sizeof store), 0);
    for (i = count; i < sizeof out; i++)
        if (out[i] != 0xEE)
            break;
    same("the rest of the out buffer", i, sizeof out);
    return said;
}

int main(void)
{
    uint8_t message[97], slip[LONG + 1], meant[LONG];
    unsigned height, i;

    same("fresh", station_fresh(store, sizeof store, N, D, 2), 0);
    for (height = 1; height <= HEIGHT; height++) {
        propose(message, height);
        same("propose", STATION_REFUSAL(station_step(store, sizeof store, message, 97, out, sizeof out)), 0);
    }
    name_of(name, 1);
    same("not logged yet", write(sizeof store, 32, sizeof out), refusal(15, 0));
    for (i = 0; i < 2 * D + 1; i++)
        same("tick", STATION_REFUSAL(station_tick(store, sizeof store, out, sizeof out)), 0);

    /* the slip of each block, to the byte, and the checker takes it */
    for (height = 1; height <= HEIGHT; height++) {
        size_t length = NAME + ENTRY * (size_t)height;
        memcpy(meant, "\x40\0\x20", 3);
        name_of(meant + 3, height);
        for (i = 0; i < height; i++) {
            memcpy(meant + NAME + ENTRY * i, "\x41\0\x61", 3);
            propose(meant + NAME + ENTRY * i + 3, height - i);
        }
        name_of(name, height);
        same("written", write(sizeof store, 32, sizeof out), length);
        same("its bytes", (uint64_t)memcmp(out, meant, length), 0);
        same("accepted", slip_check(0, N, out, length), height);
        same("accepted with the large limits", slip_check(4, N, out, length), height);
    }
    memcpy(slip, out, LONG);
    slip[LONG] = 0x41;

    /* refusals of the writer */
    name_of(name, 0);
    same("genesis is not logged", write(sizeof store, 32, sizeof out), refusal(15, 0));
    memset(name, 0x77, 32);
    same("another name", write(sizeof store, 32, sizeof out), refusal(15, 0));
    name_of(name, 1);
    same("a short store", write(sizeof store - 1, 32, sizeof out), refusal(1, 0));
    same("a short name", write(sizeof store, 31, sizeof out), refusal(1, 0));
    same("a long name", write(sizeof store, 33, sizeof out), refusal(1, 0));
    same("a short out buffer", write(sizeof store, 32, sizeof out - 1), refusal(1, 0));
    store[4] = 4;
    same("a damaged store", write(sizeof store, 32, sizeof out), refusal(2, 0));
    same("lengths come first", write(sizeof store, 31, sizeof out), refusal(1, 0));
    store[4] = N;

    /* refusals of the checker: cut after every byte, one byte more, each byte of the heads changed, groups that are none */
    for (i = 0; i < LONG; i++)
        same("cut", slip_check(0, N, slip, i), refusal(15, i < NAME ? 0 : (i - NAME) / ENTRY));
    same("one byte more", slip_check(0, N, slip, LONG + 1), refusal(15, HEIGHT));
    for (i = 0; i < LONG; i++) {
        unsigned place = i < NAME ? 0 : (i - NAME) / ENTRY, at = i < NAME ? 0 : (i - NAME) % ENTRY;
        slip[i] ^= 0x80;
        /* the parent's name tells at the entry below, and so does the top's height, where that is allowed */
        if ((at >= 59 && at < 91 && place + 1 < HEIGHT) || (place == 0 && (at == 19 || at == 20)))
            place++;
        same("a byte changed", slip_check(0, N, slip, LONG), refusal(15, place));
        slip[i] ^= 0x80;
    }
    for (i = 0; i < 20; i++) {
        int good = i % 2 == 1 && i >= 3 && i <= 15;
        if (!good)
            same("an n that isn't good", slip_check(0, i, slip, LONG), refusal(10, 0));
        if (i != 0 && i != 4)
            same("a kind that isn't good", slip_check(i, N, slip, LONG), refusal(10, 0));
    }
    same("as it was", slip_check(0, N, slip, LONG), HEIGHT);
    printf("slips: %lu checks, %lu wrong\n", checks, wrong);
    return wrong != 0;
}
