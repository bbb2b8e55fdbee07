/* A listing in C: a mirror printed, loaded into a second one, and a text that is sent back.
 *
 *     gcc -std=c99 -Wall -Wextra -Iinclude examples/listing.c target/staticlib/libwing_c.a -o target/listing
 *
 * Prints the records and the bad line. Status 1 where the second mirror has not the first one's records, each as the console's, or a
 * refused text has changed it.
 */
#include "wing.h"

#include <stdio.h>
#include <stdlib.h>
#include <string.h>

enum { PLACES = 3 };

static void check(bool good, const char *what)
{
    if (!good) {
        fprintf(stderr, "%s: not as it should be\n", what);
        exit(1);
    }
}

static WingLoaded load(const char *text, uint8_t *table)
{
    return wing_load((const uint8_t *)text, strlen(text), table, PLACES * WING_PLACE_WIDTH);
}

/* Whether a record of the second table is the first's: the same node and value, but the console's, since no listing says who gave it. */
static bool is_loaded(const uint8_t *table, const uint8_t *second, size_t count, size_t number)
{
    WingRecord a = wing_record(table, PLACES * WING_PLACE_WIDTH, count, number);
    WingRecord b = wing_record(second, PLACES * WING_PLACE_WIDTH, count, number);
    return a.status == 0 && b.status == 0 && b.id == a.id && b.kind == a.kind && b.value == a.value && b.len == a.len &&
           memcmp(b.string, a.string, sizeof a.string) == 0 && a.origin == WING_ORIGIN_SET_ORDER && b.origin == WING_ORIGIN_CONSOLE;
}

int main(void)
{
    static uint8_t table[PLACES * WING_PLACE_WIDTH], second[sizeof table], before[sizeof table], state[WING_STATE_SIZE];
    uint8_t order[WING_SET_STRING_MAX], text[WING_PRINT_MAX(PLACES)];
    size_t count = 0;
    count = wing_set_int(table, sizeof table, count, order, sizeof order, 1, 5).count;
    count = wing_set_float(table, sizeof table, count, order, sizeof order, -2, 0x3f800000).count;
    count = wing_set_string(table, sizeof table, count, order, sizeof order, 2, (const uint8_t *)"AB", 2).count;
    WingWritten printed = wing_print(table, sizeof table, count, text, sizeof text);
    check(printed.status == 0, "wing_print");

    memset(second, 0xaa, sizeof second);
    WingLoaded loaded = wing_load(text, printed.len, second, sizeof second);
    check(loaded.status == 0 && loaded.count == count, "wing_load");
    check(wing_state_fresh(state, sizeof state).status == 0, "wing_state_fresh");
    for (size_t number = 0; number < count; number++)
        check(is_loaded(table, second, count, number), "a record that was loaded");
    check(wing_same(table, sizeof table, count, second, sizeof second, count) == 0, "wing_same of set orders and a listing");
    wing_load(text, printed.len, table, sizeof table);
    check(wing_same(table, sizeof table, count, second, sizeof second, count) == 1, "wing_same of two that were loaded");

    memcpy(before, second, sizeof second);
    WingLoaded refused = load("id,kind,value\n7,i,1\n7,i,2\n", second);
    check(refused.status == -WING_REFUSED_ID_ORDER && refused.count == 0, "an id twice");
    check(memcmp(before, second, sizeof second) == 0, "a refused text");
    printf("%zu records in %zu bytes, line %zu is bad\n", loaded.count, printed.len, refused.line);
    return 0;
}
