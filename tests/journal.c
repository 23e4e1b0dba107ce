/* The journal's calls: a station that writes a journal while the power is cut after any byte, again and again, comes back
 * each time as it was; and each refusal of the three calls, with what it leaves. */
#include <stdio.h>
#include <stdlib.h>
#include <string.h>

#include "../include/station.h"

enum { SLOTS = 64, SLOT = JOURNAL_SLOT_LENGTH };

static uint8_t journal[SLOTS * SLOT], store[STATION_STORE_LENGTH], before[STATION_STORE_LENGTH], again[STATION_STORE_LENGTH];
static uint8_t out[STATION_OUT_LENGTH], report[JOURNAL_REPORT_LENGTH(SLOTS)], wanted[JOURNAL_REPORT_LENGTH(SLOTS)];
static unsigned looked, failed;

static void expect(int holds, const char *what, int line)
{
    looked++;
    if (!holds) {
        failed++;
        printf("tests/journal.c:%d: %s\n", line, what);
    }
}
#define EXPECT(fact) expect((fact) != 0, #fact, __LINE__)

static uint64_t refusal(uint64_t number) { return number << 32; }

static uint32_t state = 1;

static uint32_t random_below(uint32_t bound)
{
    state = state * 1664525 + 1013904223;
    return (state >> 8) % bound;
}

static void number_at(uint8_t *to, uint32_t value)
{
    for (int k = 4; k-- > 0;)
        *to++ = (uint8_t)(value >> 8 * k);
}

/* An input: a tick, an offer, or a blame. */
static uint64_t made_kind(uint8_t *input, size_t *len)
{
    static const uint8_t blame[15] = { 1, 0, 1, 4, 2, 0, 4, 0, 0, 0, 1, 8, 0, 1, 0 };
    uint32_t choice = random_below(8);
    if (choice == 0) {
        memcpy(input, blame, *len = sizeof blame);
        input[10] = (uint8_t)(1 + random_below(3));
        input[14] = (uint8_t)random_below(3);
        return 3;
    }
    if (choice == 1) {
        memset(input, 0, *len = 32);
        number_at(input + 28, 1 + random_below(1000));
        return 2;
    }
    *len = 0;
    return 1;
}

static uint64_t handed(uint8_t *to, uint64_t kind, const uint8_t *input, size_t len)
{
    if (kind == 1)
        return station_tick(to, STATION_STORE_LENGTH, out, sizeof out);
    if (kind == 2)
        return station_offer(to, STATION_STORE_LENGTH, input, len, out, sizeof out);
    return station_step(to, STATION_STORE_LENGTH, input, len, out, sizeof out);
}

static int is_taken(uint64_t answer)
{
    uint32_t number = STATION_REFUSAL(answer);
    return number == 0 || (number >= 6 && number <= 8);
}

static uint64_t replay(uint8_t *to)
{
    memset(report, 0x77, sizeof report);
    return journal_replay(journal, sizeof journal, to, STATION_STORE_LENGTH, out, sizeof out, report, sizeof report);
}

/* One run from zeroed slots to the last one: each input that the station takes is stored up to a cut, or whole. */
static void run(uint64_t own)
{
    uint32_t place = 0, records = 0, torn = 0;
    memset(journal, 0, sizeof journal);
    memset(wanted, 0x77, sizeof wanted);
    EXPECT(station_fresh(store, sizeof store, 3, 2, own) == 0);
    while (place < SLOTS) {
        uint8_t input[128], slot[SLOT] = { 0 };
        size_t len, stored = random_below(2) ? SLOT : random_below(SLOT);
        uint64_t kind = made_kind(input, &len);
        memcpy(before, store, sizeof store);
        if (!is_taken(handed(store, kind, input, len)))
            continue;
        EXPECT(journal_put(slot, SLOT, records, kind, input, len) == SLOT);
        memcpy(journal + place * SLOT, slot, stored);
        if (stored == SLOT) {
            records++;
            place++;
            continue;
        }
        memcpy(store, before, sizeof store);
        if (stored != 0)
            number_at(wanted + 12 + 4 * torn++, place++);
        number_at(wanted, records);
        number_at(wanted + 4, place);
        number_at(wanted + 8, torn);
        EXPECT(station_fresh(again, sizeof again, 3, 2, own) == 0);
        EXPECT(replay(again) == records);
        EXPECT(memcmp(again, store, sizeof store) == 0);
        EXPECT(memcmp(report, wanted, sizeof report) == 0);
    }
    EXPECT(journal_write(journal, sizeof journal, 1, NULL, 0) == refusal(13));
}

/* The call that finds its slot, against slots made one by one; and what stops a replay. */
static void refusals(void)
{
    uint8_t slot[SLOT] = { 0 }, other[2 * SLOT + 5] = { 0 }, name[32] = { 1 };
    EXPECT(journal_put(slot, SLOT - 1, 0, 1, NULL, 0) == refusal(1));
    EXPECT(journal_put(slot, SLOT, 1ull << 32, 1, NULL, 0) == refusal(13));
    EXPECT(journal_put(slot, SLOT, 0, 1, name, 1) == refusal(13));
    EXPECT(journal_put(slot, SLOT, 0, 2, name, 31) == refusal(13));
    EXPECT(journal_put(slot, SLOT, 0, 3, name, 32) == refusal(13));
    EXPECT(journal_put(slot, SLOT, 0, 4, NULL, 0) == refusal(13));
    for (int i = 0; i < SLOT; i++)
        EXPECT(slot[i] == 0);
    EXPECT(journal_put(slot, SLOT, 0, 2, name, 32) == SLOT);
    EXPECT(journal_put(slot, SLOT, 0, 2, name, 32) == refusal(13));

    EXPECT(journal_write(other, sizeof other, 2, name, 32) == 0);
    EXPECT(memcmp(other, slot, SLOT) == 0);
    EXPECT(journal_write(other, sizeof other, 1, NULL, 0) == 1);
    EXPECT(journal_write(other, sizeof other, 1, NULL, 0) == refusal(13));
    EXPECT(journal_write(other, SLOT - 1, 1, NULL, 0) == refusal(13));

    memset(journal, 0, sizeof journal);
    for (uint64_t place = 0; place < 5; place++)
        EXPECT(journal_write(journal, sizeof journal, 1, NULL, 0) == place);
    EXPECT(station_fresh(store, sizeof store, 3, 2, 2) == 0);
    for (int i = 0; i < 3; i++)
        EXPECT(STATION_REFUSAL(handed(store, 1, NULL, 0)) == 0);
    static const struct {
        size_t at;
        uint8_t byte;
    } wrong[] = { { 3 * SLOT + 6, 2 }, { 3 * SLOT + 6, 4 }, { 3 * SLOT + 60, 1 }, { 3 * SLOT + 10, 2 }, { 3 * SLOT, 0x21 } };
    for (size_t i = 0; i < sizeof wrong / sizeof *wrong; i++) {
        uint8_t was = journal[wrong[i].at];
        journal[wrong[i].at] = wrong[i].byte;
        EXPECT(station_fresh(again, sizeof again, 3, 2, 2) == 0);
        EXPECT(replay(again) == refusal(13) + 3);
        EXPECT(memcmp(again, store, sizeof store) == 0);
        EXPECT(report[3] == 3 && report[7] == 3 && report[11] == 0 && report[12] == 0x77);
        EXPECT(journal_write(journal, sizeof journal, 1, NULL, 0) == refusal(13));
        journal[wrong[i].at] = was;
    }
    EXPECT(station_fresh(again, sizeof again, 3, 2, 2) == 0);
    EXPECT(replay(again) == 5);
    EXPECT(journal_replay(journal, sizeof journal, again, sizeof again - 1, out, sizeof out, report, sizeof report) == refusal(1));
    EXPECT(journal_replay(journal, sizeof journal, again, sizeof again, out, sizeof out - 1, report, sizeof report) == refusal(1));
    EXPECT(journal_replay(journal, sizeof journal, again, sizeof again, out, sizeof out, report, sizeof report - 1) == refusal(1));
    again[0] = 0xFF;
    EXPECT(replay(again) == refusal(2));
    EXPECT(report[0] == 0x77);
}

int main(void)
{
    refusals();
    for (uint64_t i = 0; i < 300; i++)
        run(i % 3);
    printf("journal: %u facts, %u failed\n", looked, failed);
    return failed != 0;
}
