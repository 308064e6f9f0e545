/* A call tried with buffers at unreadable pages, and held to what is wanted of it: a result in whole and in part of its
 * room, or a refusal, with the further calls and all that is to be kept. For pages.c, which defines _DEFAULT_SOURCE in
 * front of it. The first difference ends the program with exit 1; a byte touched outside a buffer ends it too. */
#ifndef TRIED_H
#define TRIED_H

#include <ctype.h>
#include "calls.h"

static unsigned long checks, line;
static const char *about = "";

static void check(int holds, const char *what)
{
    checks++;
    if (!holds) {
        printf("line %lu %s: %s\n", line, about, what);
        exit(1);
    }
}

/* the bytes of a word of hexadecimal digits */
static size_t unhex(const char *s, uint8_t *to)
{
    size_t n = 0;
    unsigned v;
    while (isxdigit((unsigned char)s[2 * n]) && sscanf(s + 2 * n, "%2x", &v) == 1)
        to[n++] = (uint8_t)v;
    return n;
}

/* ---- what is wanted of a call: the result's bytes and its size in units, or a refusal where bytes is NULL */

typedef struct {
    const uint8_t *bytes;
    size_t size, number, need, have;
} Want;

static Want result(const void *bytes, size_t size)
{
    return (Want){bytes, size, 0, 0, 0};
}

static Want refusal(size_t number, size_t need, size_t have)
{
    return (Want){NULL, 0, number, need, have};
}

static void numbers(const Call *f, uint8_t id, const uint8_t *in, size_t n, size_t room, Want w)
{
    check(f->need(id, in, n, room) == w.need, "need");
    check(f->have(id, in, n, room) == w.have, "have");
    check(f->length(id, in, n, room) == (w.bytes ? w.size : 0), "length");
    if (f->table_id != NULL)
        check(f->table_id(id, in, n, room) == (w.bytes ? id : 0), "table id");
}

static uint8_t *in_area, *out_area;

/* n bytes of input and room units of output, at the areas' ends or starts */
static void one(const Call *f, uint8_t id, const uint8_t *in, size_t n, size_t room, int at_end, Want w)
{
    uint8_t *src = at_end ? in_area + SPAN - n : in_area;
    uint8_t *out = at_end ? out_area + SPAN - f->unit * room : out_area;
    about = f->name;
    memcpy(src, in, n);
    memset(out_area, 0xa5, SPAN);
    if (w.bytes != NULL && room < w.size)
        w = refusal(22, w.size, room);
    check(f->fill(id, src, n, out, room) == w.number, "number");
    numbers(f, id, src, n, room, w);
    check(memcmp(src, in, n) == 0, "input changed");
    size_t from = (size_t)(out - out_area);
    for (size_t i = 0; i < SPAN; i++)
        if (out_area[i] != (w.bytes && i >= from && i - from < f->unit * w.size ? w.bytes[i - from] : 0xa5))
            check(0, "bytes left");
    checks++;
}

static void rooms(const Call *f, uint8_t id, const uint8_t *in, size_t n, Want w)
{
    size_t tried[] = {0, w.size > 0 ? w.size - 1 : 0, w.size, w.size + 1, f->most};
    for (int at_end = 0; at_end < 2; at_end++)
        for (size_t i = 0; i < sizeof tried / sizeof *tried; i++)
            one(f, id, in, n, tried[i], at_end, w);
}

/* ---- NULL with length 0 is nothing: as a pointer that is not NULL, and of length 0 */

static void nothing(const Call *f, uint8_t id, const uint8_t *in, size_t n, Want w)
{
    uint8_t *src = in_area + SPAN - n;
    about = f->name;
    if (n > 0)
        memcpy(src, in, n);
    memset(out_area, 0xa5, SPAN);
    for (int i = 0; i < (n == 0 ? 2 : 1); i++, src = NULL) {
        Want short_of = w.bytes != NULL && w.size > 0 ? refusal(22, w.size, 0) : w;
        check(f->fill(id, src, n, out_area + SPAN, 0) == short_of.number, "number, no room");
        check(f->fill(id, src, n, NULL, 0) == short_of.number, "number, NULL for the buffer");
        numbers(f, id, src, n, 0, short_of);
        check(f->fill(id, src, n, out_area, SPAN / f->unit) == w.number, "number, NULL for the input");
        numbers(f, id, src, n, SPAN / f->unit, w);
        if (w.bytes != NULL)
            check(memcmp(out_area, w.bytes, f->unit * w.size) == 0, "bytes, NULL for the input");
    }
}

/* ---- lists: answers stand behind a space, a refusal with commas, `-` for no bytes */

static Want answer_of(const char *text, uint8_t *bytes)
{
    Want w = {NULL, 0, 0, 0, 0};
    if (sscanf(text, "R,%zu,%zu,%zu", &w.number, &w.need, &w.have) == 3)
        return w;
    check(*text != 'R', "a refusal of a list of edition 2");
    return result(bytes, unhex(text, bytes));
}

/* the word behind a space */
static const char *behind(const char *text)
{
    const char *p = strchr(text, ' ');
    check(p != NULL, "a word is missing");
    return p == NULL ? "" : p + 1;
}

static void lines_of(FILE *file, void (*tried)(const char *), unsigned long least)
{
    static char text[40000];
    for (line = 0; fgets(text, sizeof text, file) != NULL; tried(text))
        line++;
    check(line >= least, "fewer lines than there were");
}

#endif
