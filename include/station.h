/* One station of a Sync HotStuff group, proved. Link with libstation.a.
 *
 * The host lends every call its buffers and keeps them between calls. A station has no other memory, allocates nothing,
 * and makes no call back. The buffers of one call must not overlap.
 *
 * Each call answers refusal * 2^32 + count. A result below 2^32 is done: the count of bytes written to the front of the
 * out buffer, with the rest of it as it was. A refusal's count is 0 and the out buffer stays as it was. Where that is
 * otherwise a call says so below. STATION_REFUSAL and STATION_COUNT take a result apart.
 *
 *    1  store of neither length, offered name not 32 bytes, or out buffer too short          nothing changes
 *    2  store not well formed (docs/STORE.md)                                                nothing changes
 *    3  already stopped                                                                      nothing changes
 *    4  unreadable message                                                                   nothing changes
 *    5  message not allowed                                                                  nothing changes
 *    6  no record free for what this input must add                                          phase: stopped, full
 *    7  a due commit differs from the log at a height                                        phase: stopped, split
 *    8  tick at clock 4,000,000,000                                                          phase: stopped, clock
 *    9  offer not to be taken                                                                nothing changes
 *   10  bad settings for a fresh store                                                       nothing changes
 *   11  message more than one view ahead of the view held or last quit                       nothing changes
 *   12  vote that would open a tally, by an author who has opened 16                         nothing changes
 *   13  journal: no slot left, no input, or a slot that stops a replay                       see the journal's calls
 *       plain engine: no slot left in its list                                               nothing changes
 *   14  envelope: no good one, or one that can't be made                                     nothing changes
 *   15  slip: the first bad place as count; or a name that is not logged                     nothing changes
 *
 * Order: 1, 2, 3, then 4, 5, 11, 12, 6 for messages; 9, 6 for offers; 8, 7, 6 for ticks. A fresh store: 1, then 10. The display
 * and when a block was certified: 1, then 2.
 */
#ifndef STATION_H
#define STATION_H

#include <stddef.h>
#include <stdint.h>

/* A store has one of two exact lengths, and its length says which limits its station goes by; the out buffer lent with it
 * has at least the length beside it. The small store has room for 32 views, 128 statements and 512 tallies, the large one
 * for 256 views, 512 statements and 1,024 tallies. Take the small one where that is enough for a group's life: each call
 * looks at the whole store. All stations of one group have the same length. */
#define STATION_STORE_LENGTH 38532
#define STATION_OUT_LENGTH 32768
#define STATION_STORE_LENGTH_LARGE 106052
#define STATION_OUT_LENGTH_LARGE 131072

/* Where the log's names begin in a store, 32 bytes each, from height 1 on; bytes 66 and 67 say how many there are. */
#define STATION_LOG 34436
#define STATION_LOG_LARGE 89668

/* The length of a journal's slot, and the least length of a replay's report for so many slots. */
#define JOURNAL_SLOT_LENGTH 128
#define JOURNAL_REPORT_LENGTH(slots) (12 + 4 * (size_t)(slots))

/* The most bytes of a relay envelope, which is the least length of the buffer for one, and the least length of its list. */
#define ENVELOPE_MOST_BYTES 8192
#define ENVELOPE_LIST_LENGTH 4096

/* The length of a plain engine's list with room for so many inputs, from 1 to 2^20. */
#define PLAIN_LIST_LENGTH(inputs) (16 + 128 * (size_t)(inputs))

#define STATION_REFUSAL(result) ((uint32_t)((uint64_t)(result) >> 32))
#define STATION_COUNT(result) ((uint32_t)(result))

#ifdef __cplusplus
extern "C" {
#endif

/* Makes a fresh store, of the length that is lent, of whatever was in it: n stations, odd, 3 to 15; d, the delay bound in
 * ticks, 1 to 10,000; own, this station's number, below n. Answers 0, or refusal 1 or 10. */
uint64_t station_fresh(uint8_t *store, size_t store_len, uint64_t n, uint64_t d, uint64_t own);

/* Hands the station one message whose signatures the host has checked. Refusals 1 to 6, 11 and 12. */
uint64_t station_step(uint8_t *store, size_t store_len, const uint8_t *message, size_t message_len, uint8_t *out, size_t out_len);

/* One tick of the clock. Refusals 1, 2, 3, 6, 7 and 8. */
uint64_t station_tick(uint8_t *store, size_t store_len, uint8_t *out, size_t out_len);

/* Offers the station, should it be the leader, a block name of 32 bytes to propose. Refusals 1, 2, 3, 6 and 9. */
uint64_t station_offer(uint8_t *store, size_t store_len, const uint8_t *name, size_t name_len, uint8_t *out, size_t out_len);

/* The journal (docs/JOURNAL.md). An input's kind is 1 for a tick, with no bytes; 2 for an offer, with the name's 32; 3 for a
 * message, with the message's. */

/* Writes the record of an input into one slot that is blank, under a number. Done: count 128. Refusal 1 for a slot not of
 * 128 bytes; 13, with nothing written, for a slot not blank, a number of 2^32 or more, or what is no input. */
uint64_t journal_put(uint8_t *slot, size_t slot_len, uint64_t sequence, uint64_t kind, const uint8_t *input, size_t input_len);

/* Writes the record of an input into a journal's first blank slot. Done: the count is the slot's place. Refusal 13, with
 * nothing written: no slot is blank, a slot before it stops a replay, it is no input, or there are 2^32 slots or more. */
uint64_t journal_write(uint8_t *journal, size_t journal_len, uint64_t kind, const uint8_t *input, size_t input_len);

/* Hands the input of each whole record to the station. Done: the count is the number of records. Refusals 1 (also for a report
 * below 12 + 4 bytes for each slot, and for 2^32 slots or more) and 2; 13 with the place as count where a slot stops it. Store
 * and out buffer are then as the calls of the records leave them, with 13 of those before the place. On 0 and 13 the report has
 * the number of records, the place where reading ended, the number of torn slots before it and their places, 4 bytes each,
 * big-endian; the rest of it stays as it was. */
uint64_t journal_replay(const uint8_t *journal, size_t journal_len, uint8_t *store, size_t store_len, uint8_t *out, size_t out_len, uint8_t *report, size_t report_len);

/* A number for a wall display. For each propose voted for in the view now held and not yet in the log, by place in the
 * store, a field of 47 bytes: 13 00 2C (hex), height (4), name (32), and the ticks left until its commit is due (8, two's
 * complement). 0 is due on the tick just given, below 0 is overdue. A waiting or stopped station shows none. The store is
 * only read. Refusals 1 and 2. */
uint64_t station_display(const uint8_t *store, size_t store_len, uint8_t *out, size_t out_len);

/* When was it certified? Done: the count is one more than the clock at which the tally of this block (view, height, name of 32
 * bytes) first had f+1 voters in this store; 0 where it has fewer, where there is no such tally, for genesis in view 0, and for
 * numbers out of range. A stopped station is answered as any. The store is only read. Refusals 1 (also for a name not of 32
 * bytes) and 2. */
uint64_t station_certified(const uint8_t *store, size_t store_len, uint64_t view, uint64_t height, const uint8_t *name, size_t name_len);

/* Two status messages, of which a new leader's host often holds two: whose certificate part to take, in a group of this
 * kind (0 with the small limits, 4 with the large ones) with n stations. Answers 1 for the first's part, 2 for the
 * second's, and 0 where neither is readable and allowed; equal rank gives the first. A part is bytes 4 to 58 of its
 * message, from the height field to the end. Nothing is written, and nothing is refused: with any other kind, or an n
 * that isn't good, nothing is allowed. */
uint64_t status_choose(uint64_t kind, uint64_t n, const uint8_t *first, size_t first_len, const uint8_t *second, size_t second_len);

/* Relay envelopes (docs/WIRE.md), which bundle messages on a shared link: tag 30 (hex) with items, each a message in tag 31 or
 * another envelope, to depth 4 and 8,192 bytes in all. A list has 8 bytes for each message, its offset (4) and its length (4),
 * big-endian. */

/* Lists the messages inside an envelope, left to right, by their places in it; none is copied. Done: the count is the number of
 * messages, and 8 bytes of the list have changed for each. Refusal 1 for a list below ENVELOPE_LIST_LENGTH; 14, with nothing
 * listed, for bytes that are no envelope to the last one. */
uint64_t envelope_read(const uint8_t *envelope, size_t envelope_len, uint8_t *list, size_t list_len);

/* Writes the messages at the listed places of some bytes as one flat envelope; places may repeat and overlap. Done: the count is
 * the envelope's length. Refusal 1 for a list whose length isn't a multiple of 8, or an out buffer below ENVELOPE_MOST_BYTES; 14,
 * with nothing written, for a place outside the bytes, one without a readable message, or more than 8,192 bytes in all. */
uint64_t envelope_write(const uint8_t *bytes, size_t bytes_len, const uint8_t *list, size_t list_len, uint8_t *out, size_t out_len);

/* Slips (docs/SLIPS.md): a block name, 40 00 20 (hex) and its 32 bytes, then the proposes from that block down to height 1,
 * each 41 00 61 and its 97 bytes. A slip shows a chain, it doesn't show a commit. */

/* Checks a slip in a group of this kind (0 with the small limits, 4 with the large ones) with n stations. Done: the count is
 * the number of entries. Refusal 10 for a kind or an n that isn't good; 15 with the first bad place as count, counted from
 * the top, which is place 0. Nothing is written. */
uint64_t slip_check(uint64_t kind, uint64_t n, const uint8_t *slip, size_t slip_len);

/* Writes the slip of a logged block of this name of 32 bytes. Done: the count of bytes written. Refusals 1 (also for a name
 * not of 32 bytes) and 2; 15 with count 0, and nothing written, for a name that is not logged. The store is only read. */
uint64_t slip_write(const uint8_t *store, size_t store_len, const uint8_t *name, size_t name_len, uint8_t *out, size_t out_len);

/* The plain engine, which answers as a station with the small limits does and keeps no state but its inputs: each call works
 * its answer out from the whole list, so that a call takes longer the more the list holds. It is a referee to hold a station
 * to. A list is a head of 16 bytes (n 1, d 2, own 1, records 4, zeros 8) and records as a journal's slots hold them, of the
 * inputs that were answered 0, 6, 7 or 8, numbered from 0; all else is zero. Its length is PLAIN_LIST_LENGTH(1) to
 * PLAIN_LIST_LENGTH(2^20). */

/* Makes a fresh list, of the length that is lent, of whatever was in it. Answers 0, or refusal 1 or 10. */
uint64_t plain_fresh(uint8_t *list, size_t list_len, uint64_t n, uint64_t d, uint64_t own);

/* A message, a tick, an offered name: answered as station_step, station_tick and station_offer do, in their order, and the input
 * joins the list where the answer is 0, 6, 7 or 8. Besides, 1 for a list of no good length; 2 for one that isn't of its form or
 * holds an input that was not answered so where it stands; and, after all other refusals, 13 where no slot is left. */
uint64_t plain_step(uint8_t *list, size_t list_len, const uint8_t *message, size_t message_len, uint8_t *out, size_t out_len);
uint64_t plain_tick(uint8_t *list, size_t list_len, uint8_t *out, size_t out_len);
uint64_t plain_offer(uint8_t *list, size_t list_len, const uint8_t *name, size_t name_len, uint8_t *out, size_t out_len);

/* Writes the names of the log, 32 bytes each, from height 1 on. Done: the count of bytes written. The list is only read.
 * Refusals 1 and 2. */
uint64_t plain_log(const uint8_t *list, size_t list_len, uint8_t *out, size_t out_len);

#ifdef __cplusplus
}
#endif

#endif
