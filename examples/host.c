/* A complete small host: three stations in one process, with a network that takes one tick.

     cc -o host examples/host.c target/archive/libstation.a && ./host DIRECTORY

   Shown is all that a host has to do: seals (in place of signatures) for every claim of a message, names that fix a
   block's height, parent and text, a journal that has each input before anything is sent, its replay after a power cut,
   offers by the leader, and an answer to every refusal. host/station/examples/host.rs is the same host in Rust. */
#define _POSIX_C_SOURCE 200809L
#include <stdio.h>
#include <stdlib.h>
#include <string.h>
#include <unistd.h>

#include "../include/station.h"

enum { STATIONS = 3, DELAY = 2, TICKS = 24, CARDS = 3, LONGEST = 97, CLAIMS = 17, BOOK = 512, POST = 4096, SLOTS = 256 };
enum kind { NEW_VIEW = 1, PROPOSE, VOTE, BLAME, BLAME_SET, STATUS };
enum { TICK = 1, OFFER, MESSAGE }; /* kinds of inputs, in a journal */

static const char *const card[CARDS] = { "card for Ada", "card for Bela", "card for Chandra" };

/* ---- messages: each kind has one length, and its values stand at fixed places */

static const size_t length_of[] = { 0, 69, 97, 57, 15, 16, 58 };

struct message {
    uint8_t bytes[LONGEST];
    size_t length;
};

static enum kind kind_of(const struct message *m) { return (enum kind)m->bytes[3]; }

/* Where a mask stands; 0 in the kinds that have none. */
static size_t mask_at(enum kind kind)
{
    static const size_t at[] = { 0, 63, 91, 0, 0, 14, 56 };
    return at[kind];
}

/* Whether the length is that of the kind, so that its values may be looked at. The station itself looks at all else. */
static int has_length(const struct message *m)
{
    return m->length >= 4 && kind_of(m) >= NEW_VIEW && kind_of(m) <= STATUS && m->length == length_of[kind_of(m)];
}

static void field(struct message *m, uint8_t tag, const uint8_t *value, uint8_t length)
{
    const uint8_t head[] = { tag, 0, length };
    memcpy(m->bytes + m->length, head, 3);
    memcpy(m->bytes + m->length + 3, value, length);
    m->length += 3u + length;
}

static struct message vote_of(const uint8_t *view, const uint8_t *height, const uint8_t *name, uint8_t author)
{
    struct message m = { .length = 0 };
    field(&m, 1, (const uint8_t[]){ VOTE }, 1);
    field(&m, 2, view, 4);
    field(&m, 3, height, 4);
    field(&m, 4, name, 32);
    field(&m, 8, &author, 1);
    return m;
}

static struct message blame_of(const uint8_t *view, uint8_t author)
{
    struct message m = { .length = 0 };
    field(&m, 1, (const uint8_t[]){ BLAME }, 1);
    field(&m, 2, view, 4);
    field(&m, 8, &author, 1);
    return m;
}

/* ---- seals and names */

/* 64 bits of FNV-1a, which is no cryptographic hash: a real host takes SHA-256 or better. */
static uint64_t hash(uint64_t h, const void *bytes, size_t length)
{
    for (size_t i = 0; i < length; i++)
        h = (h ^ ((const uint8_t *)bytes)[i]) * 0x100000001b3u;
    return h;
}

/* Stands where a signature belongs. It protects nothing: a real host signs, with a key that no other host has. */
static uint64_t seal_of(uint8_t station, const struct message *claim)
{
    return hash((0x5ea1u + station) ^ 0xcbf29ce484222325u, claim->bytes, claim->length);
}

static void put(uint8_t *to, uint64_t number, int width)
{
    for (int i = 0; i < width; i++)
        to[i] = (uint8_t)(number >> 8 * (width - 1 - i));
}

static uint32_t number(const uint8_t *from)
{
    return (uint32_t)from[0] << 24 | (uint32_t)from[1] << 16 | (uint32_t)from[2] << 8 | from[3];
}

/* A block's name: it fixes the height, the parent and the text, so that no name is of two blocks. */
static void name_of(uint8_t name[32], uint32_t height, const uint8_t parent[32], const char *text)
{
    uint8_t bytes[4];
    put(bytes, height, 4);
    for (uint64_t word = 0; word < 4; word++) {
        uint64_t h = hash(word ^ 0xcbf29ce484222325u, bytes, 4);
        h = hash(h, parent, 32);
        put(name + 8 * word, hash(h, text, strlen(text)), 8);
    }
}

/* What single stations must have said for a message to be true: a vote or blame for each bit of its mask, and its
   author's own word. A statement comes with mask 0, since its mask is no part of what its leader says. */
static int claims_of(const struct message *m, struct message claim[CLAIMS])
{
    const uint8_t *b = m->bytes;
    enum kind kind = kind_of(m);
    int count = 0;
    uint8_t below[4];
    unsigned mask = mask_at(kind) ? (unsigned)b[mask_at(kind)] << 8 | b[mask_at(kind) + 1] : 0;
    for (uint8_t i = 0; i < 16; i++) {
        if (!(mask >> i & 1))
            continue;
        if (kind == NEW_VIEW)
            claim[count++] = vote_of(b + 56, b + 14, b + 21, i);
        else if (kind == PROPOSE)
            put(below, number(b + 14) - 1, 4), claim[count++] = vote_of(b + 7, below, b + 56, i);
        else if (kind == BLAME_SET)
            claim[count++] = blame_of(b + 7, i);
        else
            claim[count++] = vote_of(b + 49, b + 7, b + 14, i);
    }
    if (kind != BLAME_SET && kind != STATUS) {
        claim[count] = *m;
        if (mask_at(kind))
            memset(claim[count].bytes + mask_at(kind), 0, 2);
        count++;
    }
    return count;
}

static uint8_t author_of(const struct message *claim) { return claim->bytes[claim->length - 1]; }

/* ---- hosts */

/* What travels between hosts: a message, the seals of its claims, and a propose's text. */
struct letter {
    uint32_t due;
    uint8_t to;
    struct message message;
    uint64_t seal[CLAIMS];
    const char *text;
};

/* One station with its host. What stands here besides the station a real host keeps on the disk as well. */
struct host {
    uint8_t own;
    uint8_t store[STATION_STORE_LENGTH];
    uint8_t out[STATION_OUT_LENGTH];
    FILE *journal;
    uint32_t next, records; /* the journal's first blank slot, and the whole records before it */
    struct { /* seals of claims, made here or received: a certificate that is sent needs them again */
        struct message claim;
        uint64_t seal;
    } book[BOOK];
    int sealed;
    struct {
        uint8_t name[32];
        const char *text;
    } text[16];
    int texts;
    uint32_t top_height; /* the block that the next one is put upon, while this station leads */
    uint8_t top_name[32];
    int offered;
};

static struct host hosts[STATIONS];
static struct letter post[POST];
static int letters;
static uint32_t now;

static void fail(const char *what)
{
    fprintf(stderr, "host: %s\n", what);
    exit(1);
}

/* A new journal, of blank slots. */
static void begin(struct host *h, const char *directory)
{
    char path[200];
    snprintf(path, sizeof path, "%s/station-%u.journal", directory, h->own);
    h->journal = fopen(path, "w+b");
    if (!h->journal || ftruncate(fileno(h->journal), SLOTS * JOURNAL_SLOT_LENGTH) || fsync(fileno(h->journal)))
        fail("the journal could not be made");
    if (station_fresh(h->store, sizeof h->store, STATIONS, DELAY, h->own))
        fail("bad settings");
}

/* Writes bytes at the first blank slot, and has the disk take them. */
static void write_slot(struct host *h, const uint8_t *bytes, size_t length)
{
    if (fseek(h->journal, (long)h->next * JOURNAL_SLOT_LENGTH, SEEK_SET) || fwrite(bytes, 1, length, h->journal) != length
        || fflush(h->journal) || fdatasync(fileno(h->journal)))
        fail("the journal could not be written");
}

/* Keeps one input. Should that fail the host ends here, and nothing has gone out. */
static void keep(struct host *h, uint64_t kind, const uint8_t *input, size_t length)
{
    uint8_t slot[JOURNAL_SLOT_LENGTH] = { 0 };
    if (h->next == SLOTS)
        fail("the journal is full");
    if (journal_put(slot, sizeof slot, h->records, kind, input, length) != sizeof slot)
        fail("no input for a journal");
    write_slot(h, slot, sizeof slot);
    h->next++;
    h->records++;
}

/* Power is cut half way into a record, and the store in memory is gone. */
static void cut(struct host *h)
{
    uint8_t slot[JOURNAL_SLOT_LENGTH] = { 0 };
    journal_put(slot, sizeof slot, h->records, TICK, NULL, 0);
    write_slot(h, slot, 50);
    memset(h->store, 0, sizeof h->store);
    h->next = h->records = 0;
    printf("tick %u: the power is cut at station %u\n", now, h->own);
}

/* Takes the station up again: fresh, with every input of its journal. */
static void resume(struct host *h)
{
    static uint8_t journal[SLOTS * JOURNAL_SLOT_LENGTH], report[JOURNAL_REPORT_LENGTH(SLOTS)];
    rewind(h->journal);
    if (fread(journal, 1, sizeof journal, h->journal) != sizeof journal)
        fail("the journal could not be read");
    station_fresh(h->store, sizeof h->store, STATIONS, DELAY, h->own);
    uint64_t result = journal_replay(journal, sizeof journal, h->store, sizeof h->store, h->out, sizeof h->out, report,
                                     sizeof report);
    if (STATION_REFUSAL(result)) { /* somebody has to look; nothing is written to such a journal */
        fprintf(stderr, "host: station %u's journal answers %u at slot %u\n", h->own, STATION_REFUSAL(result),
                STATION_COUNT(result));
        exit(1);
    }
    h->records = number(report);
    h->next = number(report + 4);
    printf("tick %u: station %u goes on from its journal: %u records, %u torn\n", now, h->own, h->records,
           number(report + 8));
}

static uint64_t *find_seal(struct host *h, const struct message *claim)
{
    for (int i = 0; i < h->sealed; i++)
        if (h->book[i].claim.length == claim->length && !memcmp(h->book[i].claim.bytes, claim->bytes, claim->length))
            return &h->book[i].seal;
    return NULL;
}

static void note_seal(struct host *h, const struct message *claim, uint64_t seal)
{
    if (find_seal(h, claim))
        return;
    if (h->sealed == BOOK)
        fail("no room for seals");
    h->book[h->sealed].claim = *claim;
    h->book[h->sealed++].seal = seal;
}

static const char *find_text(const struct host *h, const uint8_t *name)
{
    for (int i = 0; i < h->texts; i++)
        if (!memcmp(h->text[i].name, name, 32))
            return h->text[i].text;
    return NULL;
}

static void note_text(struct host *h, const uint8_t *name, const char *text)
{
    if (find_text(h, name))
        return;
    if (h->texts == 16)
        fail("no room for texts");
    memcpy(h->text[h->texts].name, name, 32);
    h->text[h->texts++].text = text;
}

/* Sends a message with the seals of its claims; the own claim is sealed here. */
static void send_one(struct host *h, uint8_t to, const struct message *m)
{
    struct message claim[CLAIMS];
    if (letters == POST)
        fail("no room for letters");
    struct letter *l = &post[letters++];
    *l = (struct letter){ .due = now + 1, .to = to, .message = *m };
    int count = claims_of(m, claim);
    for (int i = 0; i < count; i++) {
        if (author_of(&claim[i]) == h->own)
            note_seal(h, &claim[i], seal_of(h->own, &claim[i]));
        uint64_t *seal = find_seal(h, &claim[i]);
        l->seal[i] = seal ? *seal : 0;
    }
    if (kind_of(m) == PROPOSE)
        l->text = find_text(h, m->bytes + 21);
    if ((kind_of(m) == PROPOSE || kind_of(m) == NEW_VIEW) && author_of(m) == h->own) {
        h->top_height = number(m->bytes + 14);
        memcpy(h->top_name, m->bytes + 21, 32);
    }
}

/* One outgoing field: to all (10), to one (11), committed (12). */
static void effect(struct host *h, uint8_t tag, const uint8_t *value, size_t length)
{
    struct message m = { .length = 0 };
    if (tag == 0x12) {
        const char *text = find_text(h, value + 4);
        printf("tick %u: station %u commits %u: %s\n", now, h->own, number(value), text ? text : "?");
        return;
    }
    size_t skip = tag == 0x11;
    m.length = length - skip;
    memcpy(m.bytes, value + skip, m.length);
    for (uint8_t to = 0; to < STATIONS; to++)
        if (tag == 0x11 ? to == value[0] : to != h->own)
            send_one(h, to, &m);
}

/* What every call ends with: first the input is kept, then letters go out. Gives back whether it was done. */
static int done(struct host *h, uint64_t result, uint64_t kind, const uint8_t *input, size_t length)
{
    switch (STATION_REFUSAL(result)) {
    case 0:
    case 6: /* the station is now stopped, and remembers it */
    case 7:
    case 8:
        keep(h, kind, input, length);
        break;
    case 4: /* the message is dropped: no sound station's is refused so */
    case 5:
    case 11:
    case 9: /* the offer is made again after the next input */
        return 0;
    }
    if (STATION_REFUSAL(result)) { /* it is stopped, or its buffers are wrong: somebody has to look */
        fprintf(stderr, "host: station %u answers %u\n", h->own, STATION_REFUSAL(result));
        exit(1);
    }
    for (size_t at = 0; at < STATION_COUNT(result);) {
        size_t length = (size_t)h->out[at + 1] << 8 | h->out[at + 2];
        effect(h, h->out[at], h->out + at + 3, length);
        at += 3 + length;
    }
    return 1;
}

/* A letter: its message goes to the station only if every claim has a good seal, and a propose only if its name is that
   of its block. */
static void receive(struct host *h, const struct letter *l)
{
    struct message claim[CLAIMS];
    const uint8_t *b = l->message.bytes;
    if (!has_length(&l->message))
        return;
    int count = claims_of(&l->message, claim);
    for (int i = 0; i < count; i++)
        if (seal_of(author_of(&claim[i]), &claim[i]) != l->seal[i]) {
            printf("tick %u: station %u drops a message with a bad seal\n", now, h->own);
            return;
        }
    if (kind_of(&l->message) == PROPOSE) {
        uint8_t name[32];
        if (!l->text)
            return;
        name_of(name, number(b + 14), b + 56, l->text);
        if (memcmp(name, b + 21, 32))
            return;
        note_text(h, name, l->text);
    }
    for (int i = 0; i < count; i++)
        note_seal(h, &claim[i], l->seal[i]);
    uint64_t result = station_step(h->store, sizeof h->store, b, l->message.length, h->out, sizeof h->out);
    done(h, result, MESSAGE, b, l->message.length);
}

static void tick(struct host *h)
{
    done(h, station_tick(h->store, sizeof h->store, h->out, sizeof h->out), TICK, NULL, 0);
}

/* Offers the next card, if this station leads and is ready for it. The view is at bytes 8 to 11 of the store. */
static void offer(struct host *h)
{
    uint8_t name[32];
    if (h->offered == CARDS || number(h->store + 8) % STATIONS != h->own)
        return;
    name_of(name, h->top_height + 1, h->top_name, card[h->offered]);
    note_text(h, name, card[h->offered]);
    uint64_t result = station_offer(h->store, sizeof h->store, name, 32, h->out, sizeof h->out);
    h->offered += done(h, result, OFFER, name, 32);
}

/* ---- the network */

static void deliver(void)
{
    static struct letter due[POST];
    int count = 0, later = 0;
    for (int i = 0; i < letters; i++)
        if (post[i].due <= now)
            due[count++] = post[i];
        else
            post[later++] = post[i];
    letters = later;
    for (int i = 0; i < count; i++)
        receive(&hosts[due[i].to], &due[i]);
}

/* A vote in the name of station 0, by somebody who has not its key. */
static void forge(uint32_t due)
{
    static const uint8_t view[4] = { 0, 0, 0, 1 }, height[4] = { 0, 0, 0, 1 };
    uint8_t name[32];
    memset(name, 7, 32);
    post[letters++] = (struct letter){ .due = due, .to = 2, .message = vote_of(view, height, name, 0), .seal = { 0xbad } };
}

int main(int argc, char **argv)
{
    for (uint8_t own = 0; own < STATIONS; own++) {
        hosts[own].own = own;
        begin(&hosts[own], argc > 1 ? argv[1] : ".");
    }
    forge(9);
    for (now = 1; now <= TICKS; now++) {
        for (int i = 0; i < STATIONS; i++)
            tick(&hosts[i]);
        deliver();
        for (int i = 0; i < STATIONS; i++)
            offer(&hosts[i]);
        if (now == 10) {
            cut(&hosts[2]);
            resume(&hosts[2]);
        }
    }
    /* The log's count is at 66: docs/STORE.md. */
    unsigned entries = (unsigned)hosts[0].store[66] << 8 | hosts[0].store[67];
    int alike = 1;
    for (int i = 1; i < STATIONS; i++)
        alike = alike && !memcmp(hosts[i].store + 66, hosts[0].store + 66, 2)
            && !memcmp(hosts[i].store + STATION_LOG, hosts[0].store + STATION_LOG, 32 * entries);
    printf("%u entries in each log, %s\n", entries, alike ? "alike" : "not alike");
    return 0;
}
