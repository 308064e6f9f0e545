/* Ledgers made here, with what is wanted of them worked out by hand: damaged ones that every call which takes a
 * ledger refuses by the same numbers, and long ones. For pages.c, which defines _DEFAULT_SOURCE in front of it. */
#ifndef MADE_H
#define MADE_H

#include "tried.h"

/* ---- ledgers that no body has; the places are counted on document 01's widths */

#define CLOCK "0000000000000000" "00" "0000"
#define LISTS "00" "0000" "00" "0000"
static const struct {
    const char *ledger;
    size_t number, place;
} damaged[] = {
    /* id 0: count 4, satellite_id 6, reserved 10, position_system 11, orbital_position 12, west_east_flag 14,
     * reserved 15 */
    {"000e0100" "0001" "01000007" "00" "00" "0120" "01" "00", 25, 6},
    {"000e0100" "0001" "00000007" "80" "00" "0120" "01" "00", 25, 10},
    {"000e0100" "0001" "00000007" "00" "02" "0120" "01" "00", 25, 11},
    {"000e0100" "0001" "00000007" "00" "00" "0120" "02" "00", 25, 14},
    {"000e0100" "0001" "00000007" "00" "00" "0120" "01" "ff", 25, 15},
    /* a field is there before it is wide; what is wide is met before what is missing behind it */
    {"000d0100" "0001" "00000007" "00" "00" "0120" "01", 23, 15},
    {"000d0100" "0001" "00000007" "00" "00" "0120" "02", 25, 14},
    {"000f0100" "0001" "00000007" "00" "00" "0120" "01" "00" "00", 23, 16},
    /* id 1: id 6, first 10, last 11, reserved 12, latitude 13, reserved 17, longitude 18, max_distance 22, reserved 26,
     * count 27 */
    {"00210101" "0001" "00000007" "01" "00" "00" "00020000" "00" "00000000" "00000000" "00" "0000" LISTS, 25, 13},
    {"00210101" "0001" "00000007" "01" "00" "00" "fffdffff" "00" "00000000" "00000000" "00" "0000" LISTS, 25, 13},
    {"00210101" "0001" "00000007" "01" "00" "00" "00000000" "00" "fffbffff" "00000000" "00" "0000" LISTS, 25, 18},
    {"00210101" "0001" "00000007" "01" "00" "00" "00000000" "00" "00000000" "01000000" "00" "0000" LISTS, 25, 22},
    {"00210101" "0001" "00000007" "01" "00" "00" "00000000" "00" "00000000" "00000000" "00" "0400" LISTS, 25, 27},
    /* id 2: type 4, four leap flags 5 to 8, base 9, reserved 17, extension 18, seconds 20, nanoseconds 28 */
    {"001e0102" "01" "00" "00" "02" "00" CLOCK "0000000000000000" "00000000", 25, 7},
    {"001e0102" "01" "00" "00" "00" "00" "0000000200000000" "00" "0000" "0000000000000000" "00000000", 25, 9},
    /* id 3: id 6, reserved 10 and 11, mode 12, clocks 13 and 24, reserved 35, bit_map_size 36, reserved 38,
     * current_slot 39, slots 41 */
    {"00290103" "0001" "00000007" "00" "00" "04" CLOCK CLOCK "00" "0009" "00" "0000" "ff80", 25, 12},
    {"00290103" "0001" "00000007" "00" "00" "01" "0000000000000000" "00" "0200" CLOCK "00" "0009" "00" "0000" "ff80",
     25, 22},
    {"00290103" "0001" "00000007" "00" "00" "01" CLOCK CLOCK "00" "8009" "00" "0000" "ff80", 25, 36},
    {"00290103" "0001" "00000007" "00" "00" "01" CLOCK CLOCK "00" "0009" "00" "0000" "ff81", 25, 41},
    {"00290103" "0001" "00000007" "00" "00" "01" CLOCK CLOCK "00" "0009" "00" "0000" "ffc0", 25, 41},
    /* id 4: versions 4 and 5, year 6, reserved 7, day 8, fraction 10, count 14, satellite_id 16, reserved 20,
     * flags 21 to 25, count 26 */
    {"001a0104" "01" "00" "00" "00" "0200" "00000000" "0001" "00000007" "00" "00" "00" "00" "00" "00" "0000", 25, 8},
    {"001a0104" "01" "00" "00" "00" "0000" "00000000" "0001" "00000007" "00" "00" "00" "00" "00" "02" "0000", 25, 25},
};

/* a fault of a ledger's own: the reader gives it, and so do the calls for either edition, and for the copy */
static void own_fault(const uint8_t *ledger, size_t n, Want w)
{
    rooms(&READ, 0, ledger, n, w);
    rooms(&TO_1, 0, ledger, n, w);
    rooms(&TO_2, 0, ledger, n, w);
    rooms(&WITHOUT, 0, ledger, n, w);
}

/* under every id but 4 the copy without covariance is the ledger */
static void unaltered(uint8_t id, const uint8_t *ledger, size_t n)
{
    if (id != 4)
        rooms(&WITHOUT, id, ledger, n, result(ledger, n));
}

static void damaged_ledgers(void)
{
    static uint8_t ledger[SPAN];
    for (size_t i = 0; i < sizeof damaged / sizeof *damaged; i++) {
        line = i;
        size_t n = unhex(damaged[i].ledger, ledger);
        own_fault(ledger, n, refusal(damaged[i].number, damaged[i].place, 0));
    }
}

/* the ledgers that a table has in edition 1 and in edition 2, with nothing lost by either way */
static void both_ways(uint8_t id, const uint8_t *first, size_t n, const uint8_t *second, size_t m)
{
    rooms(&TO_2, id, first, n, result(second, m));
    rooms(&TO_1, id, second, m, result(first, n));
    rooms(&TO_1, id, first, n, result(first, n));
    rooms(&TO_2, id, second, m, result(second, m));
    unaltered(id, first, n);
    unaltered(id, second, m);
}

/* a ledger's front: its length, edition, id, and number of entries, which stands behind the header of id 4 */
static void front(uint8_t *ledger, size_t n, uint8_t edition, uint8_t id, size_t count)
{
    uint8_t *number = ledger + (id == 4 ? 14 : 4);
    memset(ledger, 0, n);
    ledger[0] = (uint8_t)((n - 2) >> 8), ledger[1] = (uint8_t)(n - 2), ledger[2] = edition, ledger[3] = id;
    number[0] = (uint8_t)(count >> 8), number[1] = (uint8_t)count;
}

/* so many plans of mode 0 and zeros: 31 bytes each in the plain body, where plan_length is 25, 51 in the ledger, and 55
 * in that of edition 2. With a plan_length of 26 the last one ends past the data there, and 29 has its index */
static void plans(size_t count)
{
    static uint8_t ledger[SPAN], second[SPAN], plain[SPAN];
    size_t n = 6 + 51 * count, m = 6 + 55 * count, k = 31 * count;
    Want too_long = refusal(26, k, 4096);
    front(ledger, n, 1, 3, count);
    front(second, m, 2, 3, count);
    memset(plain, 0, k);
    for (size_t i = 0; i < count; i++)
        second[55 * i + 12] = plain[31 * i + 5] = 25;
    if (k > 4096) {
        own_fault(ledger, n, too_long);
        own_fault(second, m, too_long);
    } else {
        rooms(&READ, 3, ledger, n, result(plain, k));
        rooms(&READ, 3, second, m, result(plain, k));
        both_ways(3, ledger, n, second, m);
    }
    second[55 * (count - 1) + 12] = 26;
    rooms(&TO_1, 3, second, m, k > 4096 ? too_long : refusal(29, count - 1, 0));
    rooms(&TO_2, 3, second, m, k > 4096 ? too_long : result(second, m));
    rooms(&WITHOUT, 3, second, m, k > 4096 ? too_long : result(second, m));
}

/* so many satellites of zeros: 6 bytes each in the body, 12 in the ledger. The last of every so many has a covariance
 * of ones, 91 bytes more in the body and 92 in the ledger, which the copy does not have */
static void satellites_with(size_t count, size_t every, uint8_t edition)
{
    static uint8_t ledger[SPAN], copy[SPAN];
    size_t some = count / every, m = 16 + 12 * count, n = m + 92 * some, k = 8 + 6 * count + 91 * some, at = 16;
    front(ledger, n, edition, 4, count);
    front(copy, m, edition, 4, count);
    for (size_t i = 1; i <= count; i++, at += 12)
        if (i % every == 0) {
            ledger[at + 9] = 1;
            memset(ledger + at + 12, 1, 92);
            at += 92;
        }
    if (k > 4096) {
        own_fault(ledger, n, refusal(26, k, 4096));
        return;
    }
    rooms(&WITHOUT, 4, ledger, n, result(copy, m));
    rooms(&WITHOUT, 4, copy, m, result(copy, m));
}

/* plain bodies of 4,096 bytes and of one more; of 4,092 and 4,123; and with satellites of 4,094 at most, and more */
static void long_ledgers(void)
{
    static uint8_t ledger[4 + 4097] = {0x10, 0x02, 1, 9}, second[4 + 4096] = {0x10, 0x02, 2, 9};
    rooms(&READ, 9, ledger, 4 + 4096, result(ledger + 4, 4096));
    both_ways(9, ledger, 4 + 4096, second, 4 + 4096);
    ledger[1] = 3;
    own_fault(ledger, 4 + 4097, refusal(26, 4097, 4096));
    ledger[2] = 2;
    own_fault(ledger, 4 + 4097, refusal(26, 4097, 4096));
    plans(1);
    plans(132);
    plans(133);
    for (uint8_t edition = 1; edition < 3; edition++) {
        satellites_with(681, 682, edition);
        satellites_with(42, 1, edition);
        satellites_with(43, 1, edition);
        satellites_with(529, 53, edition);
        satellites_with(530, 53, edition);
    }
}

#endif
