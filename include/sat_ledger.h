/* Satellite access table bodies, their plain and kept bodies, their ledgers, in either edition, with covariance and
 * without it, the ids of their entries, and the order of clocks.
 *
 * sat_ledger_write files a body: it stores the ledger, in edition 1, at the start of `out`. sat_ledger_write_edition_2
 * does so in edition 2, which also keeps each plan's length and filler as they came (table id 3; under other ids the
 * editions differ in their version byte alone). sat_ledger_read takes a ledger of either edition back to a body: the
 * plain body in edition 1, the kept body in edition 2. sat_plain_body and sat_kept_body give these of a body without
 * its ledger. sat_ledger_to_edition_1 and sat_ledger_to_edition_2 move a ledger of either edition to the one that they
 * name. sat_ledger_without_covariance copies a ledger of either edition without the covariance of its satellites (table
 * id 4). sat_entry_ids lists the ids of a body's entries, each different one once, in the order of their first entries;
 * bodies of table id 2 and of ids from 5 on have none. All nine return 0, or the number of the refusal. On 0 what
 * stands in `out` behind the result keeps its value; after a refusal all of it does.
 *
 * The plain body has every field as it was read, plan lengths exact, padding zero, and nothing behind a plan's fields
 * or the last entry. The kept body has plan lengths and filler as they came: filler is what stands between a plan's
 * fields and padding and its end, or the body's end if that comes first.
 *
 * A moved ledger has the same fields under the same table id, and gives back the same body; the way back gives the
 * first bytes again. To edition 2 every ledger goes that sat_ledger_read takes, given room. To edition 1 one goes
 * exactly if its plain body is its kept body, so that nothing is lost. A ledger that is in the wanted edition already
 * is tested as any other, and copied.
 *
 * In a copy without covariance the covariance flag of each satellite is 0 and its covariance is gone, epoch and values;
 * all else is as it was, but for the length in front. It is a ledger of the same table id and edition. Of two ledgers
 * that are taken, and that differ in nothing but covariance, and so in length, the copies are the same bytes, and so is
 * the length that 22 names: nothing of a covariance can be learnt from a copy. Ledgers of other table ids are copied as
 * they are.
 *
 * The further calls are given the same bytes and the length of the buffer, not the buffer. They write nothing, keep
 * nothing between calls, and may be made before, after or without the call that fills the buffer:
 *   _need, _have       the two values of the refusal; 0 where nothing is refused
 *   _length, _table_id the length of the result and its table id; 0 after a refusal
 * Lengths of `out` and of results are in its units: bytes, and for sat_entry_ids ids of 32 bits.
 *
 * Buffers that always suffice: 6 + 2 * body_len bytes for a ledger in either edition, so never more than
 * SAT_LEDGER_MAX, which also holds every moved ledger and every copy without covariance; for the latter ledger_len
 * bytes do; for a plain or kept body body_len bytes, or SAT_BODY_MAX where it comes from a ledger; body_len / 4 ids, so
 * never more than SAT_ENTRY_IDS_MAX. The sat_plain_body and sat_kept_body calls take some 10,000 bytes of stack, the
 * sat_entry_ids calls 5,000, the others 2,000.
 *
 * Pointers: (NULL, 0) is nothing, an empty body, an empty ledger or no buffer, and is answered as any other pointer
 * with length 0; tests/c/pages.c tries it for each pointer of each call. With a length above 0 a pointer leads to that
 * many bytes or ids. `out` must not overlap the input: no promise holds then, though nothing stops such a call.
 *
 * Number  Refused since                                               need, have
 *  1      one field goes past the end of the body                     bits up to the field's end, bits in the body
 *  2      the body is empty (table ids 2 and 4)                       1, 0
 *  3      no room for an orbital position                             24, bits that remain (so in all to 13)
 *  4      no room for the orbital elements                            344
 *  5      no room for a cell's centre                                 76
 *  6      no room for the list of delivery system ids                 32 each
 *  7      no room for the list of new delivery systems                80 each
 *  8      no room for the list of obsolescent delivery systems        80 each
 *  9      no room for the time association                            152
 * 10      no room for the clocks of a mode 0 plan                     96
 * 11      no room for the head of a bitmap                            32
 * 12      no room for a bitmap                                        its slots
 * 13      no room for the clocks of a mode 2 plan                     192
 * 14      a plan's fields end behind the end that its length gives    bits behind it, 0
 * 15      no room for the header of table id 4                        64, bits that remain (so in all to 20)
 * 16      no room for the metadata                                    120
 * 17      no room for the usable start time                           56
 * 18      no room for the usable stop time                            56
 * 19      no room for an ephemeris entry                              248, or 344 with acceleration
 * 20      no room for the covariance                                  728
 * 21      the body has more than 4,096 bytes                          its length, 4096
 * 22      the result is longer than the buffer                        its length, the buffer's, in the buffer's units
 * 23      ledger: too short, wrong length in front, a field missing,  byte place, 0
 *         or bytes over
 * 24      ledger: the version is neither 1 nor 2                      2, 0
 * 25      ledger: a value is too wide for its field, a flag is not    byte place, 0
 *         0 or 1, or an unused slot bit is set
 * 26      ledger: its plain or kept body has more than 4,096 bytes    that length, 4096
 * 28      ledger of edition 2: no body has a plan with this length,   byte place behind the filler's count, 0
 *         these raw bytes and this filler
 * 29      ledger going to edition 1: a plan has filler, or a length   the plan's index, 0
 *         that is not what its fields take
 * 30      the extension of a clock in the body is above 299           the extension, 299
 *
 * The calls that take a body refuse by 1 to 22 and 30, the same bodies by the same numbers but for 22; sat_ledger_read
 * refuses by 22 to 26 and 28, and the calls that move a ledger the same ledgers by the same numbers but for 22,
 * whatever edition is wanted, and behind these by 29, with the index, from 0, of the first such plan. The copy without
 * covariance refuses the ledgers that sat_ledger_read refuses, by the same numbers but for 22: so 26 is of the ledger
 * with its covariance, whatever the copy would have. A refusal by 22 comes last. A ledger that holds an extension above
 * 299, as ledgers from before 30 may, is read, moved and copied as any other; the calls that take a body refuse the
 * body that comes back by 30.
 *
 * sat_clock_order refuses nothing, whatever the extensions. It tells how a clock reading, base and extension, stands to
 * another: 0 the same instant, 1 earlier, 2 later, 3 opposite. A reading has 300 * base + ext ticks, of the low 33 bits
 * of the base and the low 9 of the extension; the clock turns over after 300 * 2^33 ticks, and full turns do not count.
 * The first reading is earlier if the other follows it by 1 tick or more, but by less than half a turn; later if it
 * follows the other so; opposite if just half a turn lies between them. This is no order to sort by: of three readings
 * each may be earlier than the next, all round.
 */
#ifndef SAT_LEDGER_H
#define SAT_LEDGER_H

#include <stddef.h>
#include <stdint.h>

#define SAT_BODY_MAX 4096
#define SAT_LEDGER_MAX 8198
#define SAT_ENTRY_IDS_MAX 1024

/* what sat_clock_order returns */
#define SAT_CLOCK_SAME 0
#define SAT_CLOCK_EARLIER 1
#define SAT_CLOCK_LATER 2
#define SAT_CLOCK_OPPOSITE 3

#ifdef __cplusplus
extern "C" {
#endif

uint32_t sat_ledger_write(uint8_t table_id, const uint8_t *body, size_t body_len, uint8_t *out, size_t out_len);
size_t sat_ledger_write_need(uint8_t table_id, const uint8_t *body, size_t body_len, size_t out_len);
size_t sat_ledger_write_have(uint8_t table_id, const uint8_t *body, size_t body_len, size_t out_len);
size_t sat_ledger_write_length(uint8_t table_id, const uint8_t *body, size_t body_len, size_t out_len);
uint8_t sat_ledger_write_table_id(uint8_t table_id, const uint8_t *body, size_t body_len, size_t out_len);

uint32_t sat_ledger_write_edition_2(uint8_t table_id, const uint8_t *body, size_t body_len, uint8_t *out,
                                    size_t out_len);
size_t sat_ledger_write_edition_2_need(uint8_t table_id, const uint8_t *body, size_t body_len, size_t out_len);
size_t sat_ledger_write_edition_2_have(uint8_t table_id, const uint8_t *body, size_t body_len, size_t out_len);
size_t sat_ledger_write_edition_2_length(uint8_t table_id, const uint8_t *body, size_t body_len, size_t out_len);
uint8_t sat_ledger_write_edition_2_table_id(uint8_t table_id, const uint8_t *body, size_t body_len, size_t out_len);

uint32_t sat_ledger_read(const uint8_t *ledger, size_t ledger_len, uint8_t *out, size_t out_len);
size_t sat_ledger_read_need(const uint8_t *ledger, size_t ledger_len, size_t out_len);
size_t sat_ledger_read_have(const uint8_t *ledger, size_t ledger_len, size_t out_len);
size_t sat_ledger_read_length(const uint8_t *ledger, size_t ledger_len, size_t out_len);
uint8_t sat_ledger_read_table_id(const uint8_t *ledger, size_t ledger_len, size_t out_len);

uint32_t sat_ledger_to_edition_1(const uint8_t *ledger, size_t ledger_len, uint8_t *out, size_t out_len);
size_t sat_ledger_to_edition_1_need(const uint8_t *ledger, size_t ledger_len, size_t out_len);
size_t sat_ledger_to_edition_1_have(const uint8_t *ledger, size_t ledger_len, size_t out_len);
size_t sat_ledger_to_edition_1_length(const uint8_t *ledger, size_t ledger_len, size_t out_len);
uint8_t sat_ledger_to_edition_1_table_id(const uint8_t *ledger, size_t ledger_len, size_t out_len);

uint32_t sat_ledger_to_edition_2(const uint8_t *ledger, size_t ledger_len, uint8_t *out, size_t out_len);
size_t sat_ledger_to_edition_2_need(const uint8_t *ledger, size_t ledger_len, size_t out_len);
size_t sat_ledger_to_edition_2_have(const uint8_t *ledger, size_t ledger_len, size_t out_len);
size_t sat_ledger_to_edition_2_length(const uint8_t *ledger, size_t ledger_len, size_t out_len);
uint8_t sat_ledger_to_edition_2_table_id(const uint8_t *ledger, size_t ledger_len, size_t out_len);

uint32_t sat_ledger_without_covariance(const uint8_t *ledger, size_t ledger_len, uint8_t *out, size_t out_len);
size_t sat_ledger_without_covariance_need(const uint8_t *ledger, size_t ledger_len, size_t out_len);
size_t sat_ledger_without_covariance_have(const uint8_t *ledger, size_t ledger_len, size_t out_len);
size_t sat_ledger_without_covariance_length(const uint8_t *ledger, size_t ledger_len, size_t out_len);
uint8_t sat_ledger_without_covariance_table_id(const uint8_t *ledger, size_t ledger_len, size_t out_len);

uint32_t sat_plain_body(uint8_t table_id, const uint8_t *body, size_t body_len, uint8_t *out, size_t out_len);
size_t sat_plain_body_need(uint8_t table_id, const uint8_t *body, size_t body_len, size_t out_len);
size_t sat_plain_body_have(uint8_t table_id, const uint8_t *body, size_t body_len, size_t out_len);
size_t sat_plain_body_length(uint8_t table_id, const uint8_t *body, size_t body_len, size_t out_len);
uint8_t sat_plain_body_table_id(uint8_t table_id, const uint8_t *body, size_t body_len, size_t out_len);

uint32_t sat_kept_body(uint8_t table_id, const uint8_t *body, size_t body_len, uint8_t *out, size_t out_len);
size_t sat_kept_body_need(uint8_t table_id, const uint8_t *body, size_t body_len, size_t out_len);
size_t sat_kept_body_have(uint8_t table_id, const uint8_t *body, size_t body_len, size_t out_len);
size_t sat_kept_body_length(uint8_t table_id, const uint8_t *body, size_t body_len, size_t out_len);
uint8_t sat_kept_body_table_id(uint8_t table_id, const uint8_t *body, size_t body_len, size_t out_len);

uint32_t sat_entry_ids(uint8_t table_id, const uint8_t *body, size_t body_len, uint32_t *out, size_t out_len);
size_t sat_entry_ids_need(uint8_t table_id, const uint8_t *body, size_t body_len, size_t out_len);
size_t sat_entry_ids_have(uint8_t table_id, const uint8_t *body, size_t body_len, size_t out_len);
size_t sat_entry_ids_length(uint8_t table_id, const uint8_t *body, size_t body_len, size_t out_len);

uint32_t sat_clock_order(uint64_t base, uint16_t ext, uint64_t other_base, uint16_t other_ext);

#ifdef __cplusplus
}
#endif

#endif
