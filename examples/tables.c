/* tools/archive && cc -Iinclude examples/tables.c target/staticlib/libgolavimes.a -o target/tables && target/tables */

/*
 * Prints a table both ways: as digits, and as a header with rows. Then it reads both texts again and compares.
 * The table is given in digits as the argument; without one a table of the program's own is taken.
 */
#include <stdio.h>
#include <string.h>

#include "golavimes.h"

static int refused(const char *what, const uint64_t *answer)
{
    printf("%s: refusal %lu, carrying %lu\n", what, (unsigned long)answer[0], (unsigned long)answer[2]);
    return 1;
}

static int same(const char *what, const uint8_t *a, const uint8_t *b)
{
    int equal = memcmp(a, b, GOLAVIMES_TABLE) == 0;
    printf("%s read again: %s\n", what, equal ? "the same table" : "another table");
    return equal;
}

int main(int argc, char **argv)
{
    const char *given = argc > 1 ? argv[1] : "43344433449aa999aa99";
    uint8_t table[GOLAVIMES_TABLE], again[GOLAVIMES_TABLE];
    uint8_t digits[GOLAVIMES_DIGITS_PAGE], header[GOLAVIMES_HEADER_PAGE], rows[GOLAVIMES_ROWS_PAGE];
    uint64_t read[3], written[4];
    int equal;

    if (golavimes_dd_table_from_pbn((const uint8_t *)given, strlen(given), table, read) != 0)
        return refused("the digits given", read);

    if (golavimes_dd_table_to_pbn(table, digits, sizeof digits, written) != 0)
        return refused("digits", written);
    printf("[DoubleDummyTricks \"%.*s\"]\n", (int)written[3], (const char *)digits);

    if (golavimes_optimum_result_table_header(table, header, sizeof header, written) != 0)
        return refused("header", written);
    printf("[OptimumResultTable \"%.*s\"]\n", (int)written[3], (const char *)header);

    if (golavimes_optimum_result_table_rows(table, rows, sizeof rows, written) != 0)
        return refused("rows", written);
    printf("%.*s", (int)written[3], (const char *)rows);

    if (golavimes_optimum_result_table_from_rows(rows, written[3], again, read) != 0)
        return refused("the rows written", read);
    equal = same("rows", table, again);

    if (golavimes_dd_table_from_pbn(digits, sizeof digits, again, read) != 0)
        return refused("the digits written", read);
    equal = same("digits", table, again) && equal;
    return equal ? 0 : 1;
}
