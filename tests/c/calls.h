/* The calls of include/sat_ledger.h that fill a buffer, each with its further calls, under one form; and areas between
 * unreadable pages, so that a byte touched outside a buffer ends the program. For tried.h and ../ledger/batch.c, in
 * front of which _DEFAULT_SOURCE is defined. */
#ifndef CALLS_H
#define CALLS_H

#include <stdint.h>
#include <stdio.h>
#include <stdlib.h>
#include <string.h>
#include <sys/mman.h>
#include "sat_ledger.h"

/* room for every result, and a whole number of pages */
#define SPAN 16384

/* so many bytes, whole pages, between two unreadable parts */
static uint8_t *fenced(size_t size)
{
    uint8_t *p = mmap(NULL, size + 2 * SPAN, PROT_NONE, MAP_PRIVATE | MAP_ANONYMOUS, -1, 0);
    if (p == MAP_FAILED || mprotect(p + SPAN, size, PROT_READ | PROT_WRITE) != 0)
        exit(2);
    return p + SPAN;
}

/* the calls that take a ledger take no table id: a ledger names its own */
#define OF_A_LEDGER(call)                                                                        \
    static uint32_t call##_(uint8_t id, const uint8_t *in, size_t n, uint8_t *out, size_t room)  \
    {                                                                                            \
        (void)id;                                                                                \
        return call(in, n, out, room);                                                           \
    }                                                                                            \
    static size_t call##_need_(uint8_t id, const uint8_t *in, size_t n, size_t room)             \
    {                                                                                            \
        (void)id;                                                                                \
        return call##_need(in, n, room);                                                         \
    }                                                                                            \
    static size_t call##_have_(uint8_t id, const uint8_t *in, size_t n, size_t room)             \
    {                                                                                            \
        (void)id;                                                                                \
        return call##_have(in, n, room);                                                         \
    }                                                                                            \
    static size_t call##_length_(uint8_t id, const uint8_t *in, size_t n, size_t room)           \
    {                                                                                            \
        (void)id;                                                                                \
        return call##_length(in, n, room);                                                       \
    }                                                                                            \
    static uint8_t call##_table_id_(uint8_t id, const uint8_t *in, size_t n, size_t room)        \
    {                                                                                            \
        (void)id;                                                                                \
        return call##_table_id(in, n, room);                                                     \
    }

OF_A_LEDGER(sat_ledger_read)
OF_A_LEDGER(sat_ledger_to_edition_1)
OF_A_LEDGER(sat_ledger_to_edition_2)
OF_A_LEDGER(sat_ledger_without_covariance)

/* the ids are 32-bit units; 22, and the lengths, count these */
static uint32_t ids(uint8_t id, const uint8_t *in, size_t n, uint8_t *out, size_t room)
{
    return sat_entry_ids(id, in, n, (uint32_t *)(void *)out, room);
}

/* a unit's bytes, and a room in units that holds every result; table_id is NULL where there is no such call */
typedef struct {
    const char *name;
    size_t unit, most;
    uint32_t (*fill)(uint8_t, const uint8_t *, size_t, uint8_t *, size_t);
    size_t (*need)(uint8_t, const uint8_t *, size_t, size_t);
    size_t (*have)(uint8_t, const uint8_t *, size_t, size_t);
    size_t (*length)(uint8_t, const uint8_t *, size_t, size_t);
    uint8_t (*table_id)(uint8_t, const uint8_t *, size_t, size_t);
} Call;

static const Call
    WRITE = {"sat_ledger_write", 1, SAT_LEDGER_MAX, sat_ledger_write, sat_ledger_write_need, sat_ledger_write_have,
             sat_ledger_write_length, sat_ledger_write_table_id},
    WRITE_2 = {"sat_ledger_write_edition_2", 1, SAT_LEDGER_MAX, sat_ledger_write_edition_2,
               sat_ledger_write_edition_2_need, sat_ledger_write_edition_2_have, sat_ledger_write_edition_2_length,
               sat_ledger_write_edition_2_table_id},
    READ = {"sat_ledger_read", 1, SAT_LEDGER_MAX, sat_ledger_read_, sat_ledger_read_need_, sat_ledger_read_have_,
            sat_ledger_read_length_, sat_ledger_read_table_id_},
    TO_1 = {"sat_ledger_to_edition_1", 1, SAT_LEDGER_MAX, sat_ledger_to_edition_1_, sat_ledger_to_edition_1_need_,
            sat_ledger_to_edition_1_have_, sat_ledger_to_edition_1_length_, sat_ledger_to_edition_1_table_id_},
    TO_2 = {"sat_ledger_to_edition_2", 1, SAT_LEDGER_MAX, sat_ledger_to_edition_2_, sat_ledger_to_edition_2_need_,
            sat_ledger_to_edition_2_have_, sat_ledger_to_edition_2_length_, sat_ledger_to_edition_2_table_id_},
    WITHOUT = {"sat_ledger_without_covariance", 1, SAT_LEDGER_MAX, sat_ledger_without_covariance_,
               sat_ledger_without_covariance_need_, sat_ledger_without_covariance_have_,
               sat_ledger_without_covariance_length_, sat_ledger_without_covariance_table_id_},
    PLAIN = {"sat_plain_body", 1, SAT_LEDGER_MAX, sat_plain_body, sat_plain_body_need, sat_plain_body_have,
             sat_plain_body_length, sat_plain_body_table_id},
    KEPT = {"sat_kept_body", 1, SAT_LEDGER_MAX, sat_kept_body, sat_kept_body_need, sat_kept_body_have,
            sat_kept_body_length, sat_kept_body_table_id},
    IDS = {"sat_entry_ids", sizeof(uint32_t), SPAN / sizeof(uint32_t), ids, sat_entry_ids_need, sat_entry_ids_have,
           sat_entry_ids_length, NULL};

#endif
