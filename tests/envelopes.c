/* The calls for relay envelopes: what is listed of good ones, to the byte; every kind of bad one, with the list as it was; and
 * random messages, which the writer bundles and the reader lists again, flat and nested. */
#include <stdio.h>
#include <string.h>

#include "../include/station.h"

enum { MOST = ENVELOPE_MOST_BYTES, LIST = ENVELOPE_LIST_LENGTH, GUARD = 64 };

static uint8_t list[LIST + GUARD], out[MOST + GUARD], wanted[MOST + GUARD];
static unsigned looked, failed;

static void expect(int holds, const char *what, int line)
{
    looked++;
    if (!holds) {
        failed++;
        printf("tests/envelopes.c:%d: %s\n", line, what);
    }
}
#define EXPECT(fact) expect((fact) != 0, #fact, __LINE__)

static uint64_t refusal(uint64_t number) { return number << 32; }

static uint32_t state = 8;

static uint32_t random_below(uint32_t bound)
{
    state = state * 1664525 + 1013904223;
    return (state >> 8) % bound;
}

static void number_at(uint8_t *to, uint32_t value)
{
    for (int k = 4; k-- > 0;)
        *to++ = (uint8_t)(value >> 8 * k);
}

/* Bytes under way: envelopes are built at the end of them. */
struct bytes {
    uint8_t of[2 * MOST];
    size_t len;
};

static void add(struct bytes *to, const uint8_t *bytes, size_t len)
{
    memcpy(to->of + to->len, bytes, len);
    to->len += len;
}

/* A field's tag, and its length when what it spans is there. */
static size_t begin(struct bytes *to, uint8_t tag)
{
    const uint8_t head[3] = { tag, 0, 0 };
    add(to, head, 3);
    return to->len;
}

static void end(struct bytes *to, size_t from)
{
    to->of[from - 2] = (uint8_t)((to->len - from) >> 8);
    to->of[from - 1] = (uint8_t)(to->len - from);
}

static const uint8_t blame[15] = { 1, 0, 1, 4, 2, 0, 4, 0, 0, 0, 1, 8, 0, 1, 0 };
static const uint8_t blame_set[16] = { 1, 0, 1, 5, 2, 0, 4, 0, 0, 0, 1, 7, 0, 2, 0, 3 };

static void add_item(struct bytes *to, const uint8_t *message, size_t len)
{
    size_t from = begin(to, 0x31);
    add(to, message, len);
    end(to, from);
}

/* The same read twice, over lists of other bytes: the answer, the places, and not a byte more. */
static void reads(const uint8_t *envelope, size_t len, uint64_t answer, const uint8_t *places, size_t list_len, int line)
{
    for (int fill = 0x55; fill <= 0xaa; fill += 0x55) {
        memset(list, fill, sizeof list);
        memset(wanted, fill, sizeof list);
        if (answer < refusal(1))
            memcpy(wanted, places, 8 * (size_t)answer);
        expect(envelope_read(envelope, len, list, list_len) == answer, "the answer of a read", line);
        expect(!memcmp(list, wanted, sizeof list), "the list of a read", line);
    }
}
#define READS(bytes, answer, places) reads((bytes)->of, (bytes)->len, answer, places, LIST, __LINE__)
#define BAD(bytes) READS(bytes, refusal(14), NULL)

static void writes(const uint8_t *bytes, size_t len, const uint8_t *places, size_t list_len, size_t out_len, uint64_t answer, const struct bytes *envelope, int line)
{
    for (int fill = 0x55; fill <= 0xaa; fill += 0x55) {
        memset(out, fill, sizeof out);
        memset(wanted, fill, sizeof out);
        if (answer < refusal(1))
            memcpy(wanted, envelope->of, envelope->len);
        expect(envelope_write(bytes, len, places, list_len, out, out_len) == answer, "the answer of a write", line);
        expect(!memcmp(out, wanted, sizeof out), "the buffer of a write", line);
    }
}

/* One blame below so many envelopes. */
static struct bytes deep(int depth)
{
    struct bytes made = { { 0 }, 0 };
    size_t from[8];
    for (int k = 0; k < depth; k++)
        from[k] = begin(&made, 0x30);
    add_item(&made, blame, sizeof blame);
    while (depth-- > 0)
        end(&made, from[depth]);
    return made;
}

static void good_ones(void)
{
    struct bytes none = { { 0x30, 0, 0 }, 3 }, two = { { 0 }, 0 };
    uint8_t places[8 * 3] = { 0 };
    READS(&none, 0, places);
    for (int depth = 1; depth <= 4; depth++) {
        struct bytes made = deep(depth);
        number_at(places, (uint32_t)(3 * depth + 3));
        number_at(places + 4, sizeof blame);
        READS(&made, 1, places);
    }
    /* a message, an envelope with one, and an empty one */
    size_t from = begin(&two, 0x30);
    add_item(&two, blame_set, sizeof blame_set);
    size_t inner = begin(&two, 0x30);
    add_item(&two, blame, sizeof blame);
    end(&two, inner);
    end(&two, begin(&two, 0x30));
    end(&two, from);
    number_at(places, 6);
    number_at(places + 4, sizeof blame_set);
    number_at(places + 8, 6 + sizeof blame_set + 6);
    number_at(places + 12, sizeof blame);
    READS(&two, 2, places);
}

static void bad_ones(void)
{
    struct bytes made = deep(5);
    BAD(&made);
    /* a stray byte before, between and behind, outside and inside */
    for (int depth = 1; depth <= 4; depth++)
        for (size_t place = 0, len = deep(depth).len; place <= len; place += 3) {
            made = deep(depth);
            if (place > (size_t)(3 * depth + 3) && place < len)
                continue;
            memmove(made.of + place + 1, made.of + place, made.len++ - place);
            made.of[place] = 0;
            BAD(&made);
            for (int k = 0; k < depth && (size_t)(3 * k + 3) <= place; k++)
                made.of[3 * k + 2]++;
            BAD(&made);
        }
    /* every length too short, and too long: past the parent's end, or the bytes' */
    for (int depth = 1; depth <= 4; depth++)
        for (int k = 0; k <= depth; k++)
            for (int by = 0; by < 2; by++) {
                made = deep(depth);
                made.of[3 * k + 2] = (uint8_t)(made.of[3 * k + 2] + (by ? 1 : -1));
                BAD(&made);
                made.of[3 * k + 1] = 0xff;
                BAD(&made);
            }
    /* cut off anywhere */
    made = deep(4);
    for (size_t len = 0; len < made.len; len++)
        reads(made.of, len, refusal(14), NULL, LIST, __LINE__);
    /* an item that is no message, an empty one, another tag, no envelope outside */
    for (size_t place = 0; place < 4; place++) {
        made = deep(1);
        made.of[6 + place] ^= 0x80;
        BAD(&made);
    }
    made.len = 0;
    size_t from = begin(&made, 0x30);
    end(&made, begin(&made, 0x31));
    end(&made, from);
    BAD(&made);
    for (int tag = 0; tag < 256; tag++)
        if (tag != 0x30 && tag != 0x31) {
            made = deep(1);
            made.of[0] = (uint8_t)tag;
            BAD(&made);
            made = deep(2);
            made.of[3] = (uint8_t)tag;
            BAD(&made);
        }
    made.len = 0;
    add_item(&made, blame, sizeof blame);
    BAD(&made);
    /* a list too short, before all else */
    made = deep(1);
    for (size_t len = 0; len < LIST; len += 455)
        reads(made.of, made.len, refusal(1), NULL, len, __LINE__);
    reads(made.of, 5, refusal(1), NULL, LIST - 1, __LINE__);
}

/* So many blames and blame sets, by one place each. */
static void bundled(unsigned blames, unsigned sets, uint64_t answer)
{
    uint8_t memory[31], places[8 * 600];
    struct bytes made = { { 0 }, 0 };
    unsigned count = blames + sets;
    memcpy(memory, blame, 15);
    memcpy(memory + 15, blame_set, 16);
    size_t from = begin(&made, 0x30);
    for (unsigned k = 0; k < count; k++) {
        number_at(places + 8 * k, k < blames ? 0 : 15);
        number_at(places + 8 * k + 4, k < blames ? 15 : 16);
        add_item(&made, k < blames ? blame : blame_set, k < blames ? 15 : 16);
    }
    end(&made, from);
    writes(memory, sizeof memory, places, 8 * count, MOST, answer, &made, __LINE__);
    if (answer < refusal(1))
        EXPECT(envelope_read(made.of, made.len, list, LIST) == count);
    else
        BAD(&made);
}

static void written(void)
{
    uint8_t memory[31], places[16];
    struct bytes made = deep(1);
    memcpy(memory, blame, 15);
    memcpy(memory + 15, blame_set, 16);
    bundled(0, 0, 3);
    bundled(1, 0, 21);
    bundled(437, 17, 8192);
    bundled(455, 0, refusal(14));
    bundled(436, 18, refusal(14));
    bundled(500, 100, refusal(14));
    /* a place outside the bytes, or of no message: the first or the last of two */
    static const uint32_t bad[][2] = { { 0, 14 }, { 0, 16 }, { 1, 15 }, { 0, 0 }, { 31, 0 }, { 15, 17 }, { 16, 16 }, { 32, 0 }, { 0, 32 },
        { 0xffffffff, 15 }, { 15, 0xffffffff }, { 0xffffffff, 0xffffffff }, { 0x80000000, 0x80000000 } };
    for (size_t k = 0; k < sizeof bad / sizeof *bad; k++)
        for (int at = 0; at < 2; at++) {
            number_at(places, 0);
            number_at(places + 4, 15);
            memcpy(places + 8, places, 8);
            number_at(places + 8 * at, bad[k][0]);
            number_at(places + 8 * at + 4, bad[k][1]);
            writes(memory, sizeof memory, places, 16, MOST, refusal(14), NULL, __LINE__);
        }
    /* a list not of eights, a buffer too short: before all else */
    number_at(places, 0);
    number_at(places + 4, 15);
    for (size_t len = 1; len < 16; len++)
        if (len != 8)
            writes(memory, sizeof memory, places, len, MOST, refusal(1), NULL, __LINE__);
    writes(memory, sizeof memory, places, 8, MOST - 1, refusal(1), NULL, __LINE__);
    writes(memory, sizeof memory, places, 16, 0, refusal(1), NULL, __LINE__);
    writes(memory, sizeof memory, places, 8, MOST + 1, 21, &made, __LINE__);
}

/* Random items to a depth, with the places of the messages in them. */
static size_t grow(struct bytes *to, int depth, uint8_t *places, size_t count)
{
    for (uint32_t left = random_below(5); left > 0 && count < 400; left--) {
        int chosen = depth > 1 ? (int)random_below(3) : 1 + (int)random_below(2);
        const uint8_t *message = chosen == 1 ? blame : blame_set;
        size_t len = chosen == 1 ? sizeof blame : sizeof blame_set;
        if (chosen == 0) {
            size_t from = begin(to, 0x30);
            count = grow(to, depth - 1, places, count);
            end(to, from);
            continue;
        }
        add_item(to, message, len);
        number_at(places + 8 * count, (uint32_t)(to->len - len));
        number_at(places + 8 * count++ + 4, (uint32_t)len);
    }
    return count;
}

static void random_ones(void)
{
    static uint8_t places[LIST], again[LIST];
    for (int run = 0; run < 20000; run++) {
        struct bytes made = { { 0 }, 0 }, flat = { { 0 }, 0 };
        size_t from = begin(&made, 0x30), count = grow(&made, 4, places, 0);
        end(&made, from);
        if (made.len > MOST)
            continue;
        EXPECT(envelope_read(made.of, made.len, list, LIST) == count);
        EXPECT(!memcmp(list, places, 8 * count));
        /* its flattening has the same messages */
        from = begin(&flat, 0x30);
        for (size_t k = 0; k < count; k++)
            add_item(&flat, made.of + (places[8 * k + 2] << 8 | places[8 * k + 3]), places[8 * k + 7]);
        end(&flat, from);
        EXPECT(envelope_write(made.of, made.len, list, 8 * count, out, MOST) == flat.len);
        EXPECT(!memcmp(out, flat.of, flat.len));
        EXPECT(envelope_read(out, flat.len, again, LIST) == count);
        for (size_t k = 0; k < count; k++)
            EXPECT(!memcmp(out + (again[8 * k + 2] << 8 | again[8 * k + 3]), made.of + (places[8 * k + 2] << 8 | places[8 * k + 3]), places[8 * k + 7]));
        /* one changed bit that is read tells no other story than its own bytes do */
        uint32_t bit = random_below((uint32_t)(8 * made.len));
        made.of[bit / 8] ^= (uint8_t)(1 << bit % 8);
        memset(list, 0x55, sizeof list);
        uint64_t answer = envelope_read(made.of, made.len, list, LIST);
        if (STATION_REFUSAL(answer)) {
            memset(wanted, 0x55, sizeof list);
            EXPECT(answer == refusal(14) && !memcmp(list, wanted, sizeof list));
        } else
            EXPECT(answer <= count);
    }
}

int main(void)
{
    good_ones();
    bad_ones();
    written();
    random_ones();
    printf("envelopes: %u facts, %u failed\n", looked, failed);
    return failed != 0;
}
