/* The calls from C on many cases: one line of hexadecimal each on standard input, one answer line each on standard
 * output.
 *
 * batch write     a line is a table id and a body; the answer is the ledger in edition 1
 * batch write-2   the same in edition 2
 * batch plain     a line is a table id and a body; the answer is the plain body, '-' for an empty one
 * batch kept      the same for the kept body
 * batch back      a line is a table id and a body; its ledger in edition 1 is read back, the answer is as that of plain
 * batch back-2    the same in edition 2; the answer is as that of kept
 * batch read      a line is a ledger; the answer is the table id (two digits) and its body
 * batch to-1      a line is a ledger; the answer is the ledger in edition 1
 * batch to-2      the same in edition 2
 * batch to-1-2    a line is a ledger; it goes to edition 1, and the result to edition 2
 * batch to-2-1    the same the other way round
 * batch ids [N]   a line is a table id and a body; the answer is 'ids' and the entries' ids, in a buffer of N (4,096)
 * batch without-covariance [N]     a line is a ledger; the answer is its copy, in a buffer of N bytes (8,198)
 * batch without-covariance-twice   the same, and the copy is copied in turn
 *
 * A refusal is 'R number need have'; an empty line gives 'no input', but is an empty ledger where a line is a ledger.
 * Input and buffer end at unreadable pages. A result is asked for with just enough room, and with a unit less, which 22
 * must refuse; what stands outside the result, and all of the buffer after a refusal, must be kept. Exit 1 where a call
 * does not hold to this or its further calls do not fit it, 2 on bad hexadecimal or a bad argument. */
#define _DEFAULT_SOURCE
#include "../c/calls.h"

enum { LONGEST = 1 << 17 };

static uint8_t *in_area, *out_area;
static char line[2 * LONGEST + 2];

static int digit(char c) {
    if (c >= '0' && c <= '9') return c - '0';
    if (c >= 'a' && c <= 'f') return c - 'a' + 10;
    if (c >= 'A' && c <= 'F') return c - 'A' + 10;
    return -1;
}

/* The bytes of a line, at the end of the area for input; their number. */
static size_t bytes_of(void) {
    size_t n = strcspn(line, "\n") / 2;
    uint8_t *to = in_area + LONGEST - n;
    for (size_t i = 0; i < n; i++) {
        int high = digit(line[2 * i]), low = digit(line[2 * i + 1]);
        if (high < 0 || low < 0) {
            fputs("batch: a line is not hexadecimal\n", stderr);
            exit(2);
        }
        to[i] = (uint8_t)(high * 16 + low);
    }
    return n;
}

static void check(int holds, const Call *f, const char *what) {
    if (holds) return;
    fflush(stdout);
    fprintf(stderr, "batch: %s: %s: %s", f->name, what, line);
    exit(1);
}

/* Fills a buffer of so many units that ends at an unreadable page: its number, and that all but the result is kept. */
static uint32_t filled(const Call *f, uint8_t id, const uint8_t *in, size_t n, size_t room, size_t size) {
    static uint8_t old[SPAN];
    uint8_t *out = out_area + SPAN - f->unit * room;
    size_t front = (size_t)(out - out_area), behind = front + f->unit * size;
    memset(old, 0xa5, SPAN);
    memset(out_area, 0xa5, SPAN);
    uint32_t r = f->fill(id, in, n, out, room);
    check(memcmp(out_area, old, front) == 0, f, "written in front of the buffer");
    check(memcmp(out_area + behind, old, SPAN - behind) == 0, f, "written behind the result");
    return r;
}

/* The result of a call in a buffer of so many units, where it stands; or NULL after its refusal, which is shown. A
 * result is then asked for with a unit less than it takes, and at last with just as much. */
static const uint8_t *result_of(const Call *f, uint8_t id, const uint8_t *in, size_t n, size_t room, size_t *size) {
    size_t need = f->need(id, in, n, room), have = f->have(id, in, n, room);
    *size = f->length(id, in, n, room);
    uint32_t r = filled(f, id, in, n, room, *size);
    if (f->table_id != NULL)
        check(f->table_id(id, in, n, room) == (r == 0 ? id : 0), f, "another table id");
    if (r != 0) {
        check(*size == 0, f, "a length after a refusal");
        printf("R %u %zu %zu\n", r, need, have);
        return NULL;
    }
    check(need == 0 && have == 0, f, "need or have without a refusal");
    if (*size > 0) {
        check(filled(f, id, in, n, *size - 1, 0) == 22, f, "no 22 in a buffer that is too short");
        check(f->need(id, in, n, *size - 1) == *size && f->have(id, in, n, *size - 1) == *size - 1, f, "values of 22");
    }
    check(filled(f, id, in, n, *size, *size) == 0, f, "refused with room for the result");
    return out_area + SPAN - f->unit * *size;
}

static void show(const char *front, const uint8_t *bytes, size_t n) {
    static const char digits[] = "0123456789abcdef";
    static char text[2 * SPAN + 1];
    size_t k = 0;
    for (size_t i = 0; i < n; i++) {
        text[k++] = digits[bytes[i] >> 4];
        text[k++] = digits[bytes[i] & 15];
    }
    text[k++] = '\n';
    fputs(front, stdout);
    fwrite(text, 1, k, stdout);
}

static void show_ids(const uint8_t *bytes, size_t count) {
    fputs("ids", stdout);
    for (size_t i = 0; i < count; i++) {
        uint32_t id;
        memcpy(&id, bytes + sizeof id * i, sizeof id);
        printf(" %lu", (unsigned long)id);
    }
    putchar('\n');
}

/* A ledger stands where a line's bytes did, and is handed to a second call under the id that it had. */
static const uint8_t *handed_on(const Call *f, uint8_t id, const uint8_t *ledger, size_t *size) {
    size_t n = *size;
    memcpy(in_area + LONGEST - n, ledger, n);
    return result_of(f, id, in_area + LONGEST - n, n, f->most, size);
}

/* What a word asks for: a call, and one that takes its result, or none. */
typedef struct {
    const char *word;
    const Call *call, *then;
} Way;

static const Way WAYS[] = {{"write", &WRITE, NULL}, {"write-2", &WRITE_2, NULL}, {"plain", &PLAIN, NULL},
                           {"kept", &KEPT, NULL}, {"back", &WRITE, &READ}, {"back-2", &WRITE_2, &READ},
                           {"read", &READ, NULL}, {"ids", &IDS, NULL}, {"to-1", &TO_1, NULL}, {"to-2", &TO_2, NULL},
                           {"to-1-2", &TO_1, &TO_2}, {"to-2-1", &TO_2, &TO_1},
                           {"without-covariance", &WITHOUT, NULL}, {"without-covariance-twice", &WITHOUT, &WITHOUT}};

/* Whether a line is a ledger, not a table id and a body. */
static int of_ledgers(const Call *f) {
    return f == &READ || f == &TO_1 || f == &TO_2 || f == &WITHOUT;
}

static void one_case(const Way *way, size_t n, size_t room) {
    const Call *f = way->call;
    const uint8_t *in = in_area + LONGEST - n;
    size_t size, front = !of_ledgers(f);
    if (front && n == 0) {
        puts("no input");
        return;
    }
    uint8_t id = front ? in[0] : n > 3 ? in[3] : 0;
    const uint8_t *bytes = result_of(f, id, in + front, n - front, room, &size);
    if (bytes != NULL && way->then != NULL)
        bytes = handed_on(way->then, id, bytes, &size);
    if (bytes == NULL) return;
    char head[4] = "";
    if (f == &READ)
        snprintf(head, sizeof head, "%02x", id);
    else if (size == 0 && (way->then == &READ || f == &PLAIN || f == &KEPT))
        strcpy(head, "-");
    if (f == &IDS) show_ids(bytes, size);
    else show(head, bytes, size);
}

int main(int argc, char **argv) {
    const Way *way = NULL;
    for (size_t i = 0; argc >= 2 && i < sizeof WAYS / sizeof *WAYS; i++)
        if (strcmp(argv[1], WAYS[i].word) == 0)
            way = &WAYS[i];
    char *end = "";
    size_t room = argc == 3 ? strtoul(argv[2], &end, 10) : way != NULL ? way->call->most : 0;
    int with_room = way != NULL && way->then == NULL && (way->call == &IDS || way->call == &WITHOUT);
    if (way == NULL || argc > 2 + with_room || *end != '\0' || end == argv[argc - 1] || room > way->call->most) {
        fputs("use: batch WAY [N] < cases, with N for ids and without-covariance alone; the ways are", stderr);
        for (size_t i = 0; i < sizeof WAYS / sizeof *WAYS; i++)
            fprintf(stderr, " %s", WAYS[i].word);
        fputc('\n', stderr);
        return 2;
    }
    in_area = fenced(LONGEST);
    out_area = fenced(SPAN);
    while (fgets(line, sizeof line, stdin) != NULL)
        one_case(way, bytes_of(), room);
    return fflush(stdout) == 0 ? 0 : 1;
}
