/* Files a body and reads it back. Arguments: a table id and the body in hexadecimal; without them, a built-in body of id 0. */
#include <ctype.h>
#include <stdio.h>
#include <stdlib.h>
#include "sat_ledger.h"

static void show(const char *what, const uint8_t *bytes, size_t n)
{
    printf("%s ", what);
    for (size_t i = 0; i < n; i++)
        printf("%02x", bytes[i]);
    printf("\n");
}

/* The bytes of a text of pairs of digits, and how many they are; 0 where the text is not that, or has too many. */
static int read_hex(const char *hex, uint8_t *bytes, size_t most, size_t *n)
{
    for (*n = 0; *hex != 0; hex += 2, ++*n) {
        if (!isxdigit((unsigned char)hex[0]) || !isxdigit((unsigned char)hex[1]) || *n == most)
            return 0;
        char two[3] = {hex[0], hex[1], 0};
        bytes[*n] = (uint8_t)strtoul(two, NULL, 16);
    }
    return 1;
}

int main(int argc, char **argv)
{
    static uint8_t body[SAT_BODY_MAX + 1], ledger[SAT_LEDGER_MAX], plain[SAT_BODY_MAX];
    unsigned long id = 0;
    const char *hex = "00000700012080ff";
    size_t n = 0;
    if (argc == 3) {
        char *end;
        id = strtoul(argv[1], &end, 10);
        hex = argv[2];
        if (*end != 0 || end == argv[1])
            id = 256;
    }
    if ((argc != 1 && argc != 3) || id > 255 || !read_hex(hex, body, sizeof body, &n)) {
        fprintf(stderr, "use: file_a_body [TABLE-ID BODY-IN-HEXADECIMAL]\n");
        return 2;
    }
    show("body", body, n);
    uint32_t no = sat_ledger_write((uint8_t)id, body, n, ledger, sizeof ledger);
    if (no != 0) {
        printf("refused %u need %zu have %zu\n", (unsigned)no, sat_ledger_write_need((uint8_t)id, body, n, sizeof ledger),
               sat_ledger_write_have((uint8_t)id, body, n, sizeof ledger));
        return 1;
    }
    size_t len = sat_ledger_write_length((uint8_t)id, body, n, sizeof ledger);
    show("ledger", ledger, len);
    no = sat_ledger_read(ledger, len, plain, sizeof plain);
    if (no != 0)
        return 1;
    printf("table id %u\n", (unsigned)sat_ledger_read_table_id(ledger, len, sizeof plain));
    show("plain body", plain, sat_ledger_read_length(ledger, len, sizeof plain));
    no = sat_ledger_read(ledger, len - 1, plain, sizeof plain);
    printf("one byte short: refused %u need %zu have %zu\n", (unsigned)no, sat_ledger_read_need(ledger, len - 1, sizeof plain),
           sat_ledger_read_have(ledger, len - 1, sizeof plain));
    return 0;
}
