/* Buffers against unreadable pages: pages BODIES LEDGERS PLAINS IDS CASES_2 LEDGERS_2 STORED CONVERTED REDACTED, files
 * with one case a line. BODIES and LEDGERS are the replay list with its answers, the Rust's but for those refused by 30
 * (S-23), which are tests/replay/read.py's; PLAINS is what tests/replay/decode.py makes of the ledgers, IDS what
 * tests/replay/ids.py lists of the bodies; every tenth case, the first 130 and all refused by 30 are tried. CASES_2,
 * LEDGERS_2, STORED, CONVERTED and REDACTED are tests/replay/edition_2.txt, damaged_2.txt, stored.txt, converted.txt
 * and redacted.txt, tried whole. None comes from the code under test. A byte touched outside a buffer ends the program.
 */
#define _DEFAULT_SOURCE
#include <inttypes.h>
#include "made.h"

static void nothings(void)
{
    static const uint8_t empty0[] = {0, 4, 1, 0, 0, 0}, empty3[] = {0, 4, 1, 3, 0, 0}, raw5[] = {0, 2, 1, 5};
    static const uint8_t seven[] = {7}, satellite7[] = {0, 0, 7, 0, 1, 0x20, 0x80};
    static const uint32_t id7[] = {7};
    nothing(&WRITE, 0, NULL, 0, result(empty0, 6));
    nothing(&WRITE, 2, NULL, 0, refusal(2, 1, 0));
    nothing(&WRITE, 3, NULL, 0, result(empty3, 6));
    nothing(&WRITE, 4, NULL, 0, refusal(2, 1, 0));
    nothing(&WRITE, 5, NULL, 0, result(raw5, 4));
    nothing(&WRITE_2, 0, NULL, 0, result((const uint8_t[]){0, 4, 2, 0, 0, 0}, 6));
    nothing(&WRITE_2, 2, NULL, 0, refusal(2, 1, 0));
    nothing(&WRITE_2, 3, NULL, 0, result((const uint8_t[]){0, 4, 2, 3, 0, 0}, 6));
    nothing(&WRITE_2, 5, NULL, 0, result((const uint8_t[]){0, 2, 2, 5}, 4));
    nothing(&KEPT, 3, NULL, 0, result(seven, 0));
    nothing(&KEPT, 4, NULL, 0, refusal(2, 1, 0));
    nothing(&KEPT, 9, seven, 1, result(seven, 1));
    nothing(&PLAIN, 0, NULL, 0, result(seven, 0));
    nothing(&PLAIN, 2, NULL, 0, refusal(2, 1, 0));
    nothing(&PLAIN, 5, NULL, 0, result(seven, 0));
    nothing(&READ, 0, NULL, 0, refusal(23, 0, 0));
    nothing(&IDS, 0, NULL, 0, result(id7, 0));
    nothing(&IDS, 2, NULL, 0, refusal(2, 1, 0));
    nothing(&IDS, 4, NULL, 0, refusal(2, 1, 0));
    nothing(&IDS, 5, NULL, 0, result(id7, 0));
    nothing(&WRITE, 1, seven, 1, result((const uint8_t[]){0, 4, 1, 1, 0, 0}, 6));
    nothing(&PLAIN, 9, seven, 1, result(seven, 1));
    nothing(&PLAIN, 4, seven, 1, refusal(15, 64, 8));
    nothing(&IDS, 0, satellite7, 7, result(id7, 1));
    nothing(&IDS, 0, satellite7, 6, refusal(3, 24, 16));
    nothing(&IDS, 9, seven, 1, result(id7, 0));
    nothing(&READ, 0, empty0, 6, result(seven, 0));
    nothing(&READ, 5, raw5, 4, result(seven, 0));
    nothing(&READ, 3, (const uint8_t[]){0, 4, 2, 3, 0, 0}, 6, result(seven, 0));
    nothing(&TO_1, 0, NULL, 0, refusal(23, 0, 0));
    nothing(&TO_2, 0, NULL, 0, refusal(23, 0, 0));
    nothing(&TO_1, 0, empty0, 6, result(empty0, 6));
    nothing(&TO_2, 0, empty0, 6, result((const uint8_t[]){0, 4, 2, 0, 0, 0}, 6));
    nothing(&TO_1, 5, (const uint8_t[]){0, 2, 2, 5}, 4, result(raw5, 4));
    nothing(&TO_2, 5, (const uint8_t[]){0, 2, 2, 5}, 4, result((const uint8_t[]){0, 2, 2, 5}, 4));
    nothing(&WITHOUT, 0, NULL, 0, refusal(23, 0, 0));
    nothing(&WITHOUT, 0, empty0, 6, result(empty0, 6));
    nothing(&WITHOUT, 5, raw5, 4, result(raw5, 4));
    nothing(&WITHOUT, 5, (const uint8_t[]){0, 2, 2, 5}, 4, result((const uint8_t[]){0, 2, 2, 5}, 4));
}

/* ---- as many ids as a body can have: table id 4, a header of 8 bytes, 681 satellites of 6 */

#define MOST 681
static uint8_t satellites[8 + 6 * MOST];

static void name_satellite(size_t i, uint32_t id)
{
    uint8_t *at = satellites + 8 + 6 * i;
    at[0] = (uint8_t)(id >> 16), at[1] = (uint8_t)(id >> 8), at[2] = (uint8_t)id;
}

/* all different, and in no order of their own; then five, where 0 comes first and also last */
static void many_ids(void)
{
    static uint32_t all[MOST];
    static const uint32_t five[] = {0, 4, 3, 2, 1};
    for (size_t i = 0; i < MOST; i++)
        name_satellite(i, all[i] = (uint32_t)(7 * i % MOST * 24000));
    rooms(&IDS, 4, satellites, sizeof satellites, result(all, MOST));
    for (size_t i = 0; i < MOST; i++)
        name_satellite(i, (uint32_t)((MOST - 1 - i) % 5));
    rooms(&IDS, 4, satellites, sizeof satellites, result(five, 5));
}

/* ---- the replay list */

static Want refusal_of(const char *text)
{
    Want w = {NULL, 0, 0, 0, 0};
    return sscanf(text, "R %zu %zu %zu", &w.number, &w.need, &w.have) == 3 ? w : refusal(0, 0, 0);
}

/* a body with the line of its ids: the word, and then each in decimal */
static void listed(uint8_t id, const uint8_t *body, size_t n, const char *ids_line)
{
    static uint32_t given[SAT_ENTRY_IDS_MAX];
    Want w = refusal_of(ids_line);
    if (w.number == 0) {
        size_t count = 0;
        int more = 0;
        const char *p = ids_line + 3;
        check(strncmp(ids_line, "ids", 3) == 0, "the fourth file's line");
        for (; count < SAT_ENTRY_IDS_MAX && sscanf(p, "%" SCNu32 "%n", &given[count], &more) == 1; p += more)
            count++;
        check(strcmp(p, "\n") == 0, "the fourth file's line");
        w = result(given, count);
    }
    rooms(&IDS, id, body, n, w);
}

/* a body with the line of its ledger, that of its plain body and that of its ids */
static void stored(const char *body_line, const char *ledger_line, const char *plain_line, const char *ids_line)
{
    static uint8_t body[10000], ledger[10000], plain[10000];
    size_t n = unhex(body_line, body);
    uint8_t id = body[0];
    listed(id, body + 1, n - 1, ids_line);
    Want w = refusal_of(ledger_line);
    if (w.number != 0) {
        rooms(&WRITE, id, body + 1, n - 1, w);
        rooms(&PLAIN, id, body + 1, n - 1, w);
        return;
    }
    unsigned named;
    int at = 0;
    check(sscanf(plain_line, "%u %n", &named, &at) == 1 && named == id, "the third file's table id");
    size_t m = unhex(ledger_line, ledger), k = unhex(plain_line + at, plain);
    rooms(&WRITE, id, body + 1, n - 1, result(ledger, m));
    rooms(&PLAIN, id, body + 1, n - 1, result(plain, k));
    rooms(&READ, id, ledger, m, result(plain, k));
    one(&WRITE, id, plain, k, m, 1, result(ledger, m));
    one(&PLAIN, id, plain, k, k, 1, result(plain, k));
    rooms(&READ, id, ledger, m - 1, refusal(23, 0, 0));
    ledger[2] = 9;
    rooms(&READ, id, ledger, m, refusal(24, 2, 0));
}

/* ---- edition 2 */

/* a body, its ledger in edition 2, and its kept body */
static void edition_2(const char *text)
{
    static uint8_t body[10000], ledger[10000], kept[10000];
    size_t n = unhex(text, body);
    uint8_t id = body[0];
    Want written = answer_of(behind(text), ledger), keeps = answer_of(behind(behind(text)), kept);
    rooms(&WRITE_2, id, body + 1, n - 1, written);
    rooms(&KEPT, id, body + 1, n - 1, keeps);
    if (written.bytes == NULL)
        return;
    rooms(&READ, id, ledger, written.size, keeps);
    one(&WRITE_2, id, kept, keeps.size, written.size, 1, written);
    one(&KEPT, id, kept, keeps.size, keeps.size, 1, keeps);
}

/* a ledger of either edition or of none, and the table id with the body that it gives */
static void ledger_2(const char *text)
{
    static uint8_t ledger[10000], given[10000];
    size_t n = unhex(text, ledger);
    Want w = answer_of(behind(text), given);
    if (w.bytes == NULL) {
        own_fault(ledger, n, w);
        return;
    }
    rooms(&READ, given[0], ledger, n, result(given + 1, w.size - 1));
    rooms(ledger[2] == 1 ? &TO_1 : &TO_2, given[0], ledger, n, result(ledger, n));
    unaltered(given[0], ledger, n);
}

/* a ledger from before S-23, the table id with the body that it gives, and how every call refuses that body now */
static void stored_before(const char *text)
{
    static const Call *const calls[] = {&WRITE, &WRITE_2, &PLAIN, &KEPT, &IDS};
    static uint8_t given[10000], none[1];
    Want body = answer_of(behind(text), given), w = answer_of(behind(behind(text)), none);
    check(body.bytes != NULL && w.number == 30 && w.need > 299 && w.need < 512 && w.have == 299, "a refusal by 30");
    ledger_2(text);
    for (size_t i = 0; i < sizeof calls / sizeof *calls; i++)
        rooms(calls[i], given[0], given + 1, body.size - 1, w);
}

/* ---- S-19: a ledger, or none, with what it gives in edition 1, and what in edition 2 */

static void converted(const char *text)
{
    static uint8_t ledger[10000], first[10000], second[10000];
    size_t n = unhex(text, ledger);
    Want w1 = answer_of(behind(text), first), w2 = answer_of(behind(behind(text)), second);
    if (w1.bytes != NULL && w2.bytes != NULL) {
        /* the ledger itself is one of the two; each is tried, so the other goes back to it */
        check(memcmp(ledger, ledger[2] == 1 ? first : second, n) == 0, "a ledger of a list is not copied");
        both_ways(ledger[3], first, w1.size, second, w2.size);
    } else if (w2.bytes != NULL) {
        check(w1.number == 29 && w2.size == n && memcmp(ledger, second, n) == 0, "a refusal by 29");
        rooms(&TO_1, ledger[3], ledger, n, w1);
        rooms(&TO_2, ledger[3], ledger, n, w2);
        unaltered(ledger[3], ledger, n);
    } else {
        check(w1.number == w2.number && w1.need == w2.need && w1.have == w2.have, "a fault of a ledger's own");
        own_fault(ledger, n, w1);
    }
}

/* ---- S-31: a ledger, or none, with its copy without covariance, which is its own copy */

static void redacted(const char *text)
{
    static uint8_t ledger[10000], copy[10000];
    size_t n = unhex(text, ledger);
    Want w = answer_of(behind(text), copy);
    if (w.bytes == NULL) {
        own_fault(ledger, n, w);
        return;
    }
    rooms(&WITHOUT, ledger[3], ledger, n, w);
    rooms(&WITHOUT, ledger[3], copy, w.size, w);
    if (w.size < n)
        one(&WITHOUT, ledger[3], ledger, n, n - 1, 1, w);
}

int main(int argc, char **argv)
{
    static char text[4][20000];
    FILE *file[9];
    for (int i = 0; i < 9; i++)
        if (argc != 10 || (file[i] = fopen(argv[i + 1], "r")) == NULL)
            return 2;
    in_area = fenced(SPAN);
    out_area = fenced(SPAN);
    nothings();
    damaged_ledgers();
    long_ledgers();
    many_ids();
    lines_of(file[4], edition_2, 400);
    lines_of(file[5], ledger_2, 700);
    lines_of(file[6], stored_before, 300);
    lines_of(file[7], converted, 600);
    lines_of(file[8], redacted, 400);
    line = 0;
    while (fgets(text[0], sizeof text[0], file[0])) {
        for (int i = 1; i < 4; i++)
            check(fgets(text[i], sizeof text[i], file[i]) != NULL, "a line is missing");
        if (++line <= 130 || line % 10 == 0 || strncmp(text[1], "R 30 ", 5) == 0)
            stored(text[0], text[1], text[2], text[3]);
    }
    printf("%lu checks\n", checks);
    return line > 3000 ? 0 : 1;
}
