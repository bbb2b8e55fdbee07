/* The good in C: a strip's name that was cut inside a character, through every call that refuses it with 1 or 5.
 *
 *     gcc -std=c99 -Wall -Wextra -Iinclude bindings/good.c target/staticlib/libwing_c.a -o target/good
 *
 * Prints what can be shown of the name. Status 1 where an answer's status, its good or a field after them is not as it should be.
 */
#include "wing.h"

#include <stdio.h>
#include <stdlib.h>
#include <string.h>

/* B, two bytes of a u with dots, and two of the three bytes of a euro sign. */
static const uint8_t NAME[] = {'B', 0xc3, 0xbc, 0xe2, 0x82};
enum { GOOD = 3 };

static void check(bool good, const char *what)
{
    if (!good) {
        fprintf(stderr, "%s: not as it should be\n", what);
        exit(1);
    }
}

/* The same of an answer: its status and its good. */
static void told(int32_t status, uint16_t good, int32_t want, uint16_t want_good, const char *what)
{
    check(status == want && good == want_good, what);
}

static void orders(void)
{
    uint8_t table[WING_PLACE_WIDTH] = {0}, order[WING_SET_STRING_MAX];
    WingWritten sent = wing_order_string(order, sizeof order, 7, NAME, sizeof NAME);
    told(sent.status, sent.good, -WING_REFUSED_STRING, GOOD, "wing_order_string");
    WingSet set = wing_set_string(table, sizeof table, 0, order, sizeof order, 7, NAME, sizeof NAME);
    told(set.status, set.good, -WING_REFUSED_STRING, GOOD, "wing_set_string");
    set = wing_set_string(table, sizeof table, set.count, order, sizeof order, 7, NAME, set.good);
    told(set.status, set.good, 0, 0, "wing_set_string of what is good");
    check(set.len == 9 && set.count == 1, "wing_set_string's order and count");
}

static void events(void)
{
    static uint8_t state[WING_STATE_SIZE], out[WING_BODY_LIMIT];
    const uint8_t bytes[] = {0xd7, 0, 0, 0, 7, 0x84, 'B', 0xc3, 0xbc, 0xe2, 0x82, 0x05};
    check(wing_state_fresh(state, sizeof state).status == 0, "wing_state_fresh");
    WingEvent event = wing_next(state, sizeof state, bytes, sizeof bytes, out, sizeof out);
    told(event.status, event.good, -WING_REFUSED_STRING, GOOD, "wing_next");
    check(event.node == 7 && event.value == 0 && event.len == 0 && event.kind == 0 && event.taken == 11, "wing_next's refusal");
    event = wing_next(state, sizeof state, bytes + 11, 1, out, sizeof out);
    told(event.status, event.good, 1, 0, "wing_next after it");
    check(event.node == 7 && event.value == 5 && event.kind == WING_KIND_INTEGER && event.taken == 1, "wing_next's event");
}

static void listing(void)
{
    uint8_t table[WING_PLACE_WIDTH];
    const char text[] = "id,kind,value\n7,s,42c3bce282\n";
    WingLoaded loaded = wing_load((const uint8_t *)text, sizeof text - 1, table, sizeof table);
    told(loaded.status, loaded.good, -WING_REFUSED_STRING, GOOD, "wing_load");
    check(loaded.count == 0 && loaded.line == 2, "wing_load's line");
}

/* A string enum of one item, whose first string is the name. */
static void definitions(void)
{
    const uint8_t body[] = {0, 0, 0, 1, 0, 0, 0, 2, 0, 3, 1, 'n', 0, 0, 0x50, 0, 1, 5, 'B', 0xc3, 0xbc, 0xe2, 0x82, 0};
    const int32_t refused = -WING_REFUSED_DEFINITION_STRING;
    uint8_t out[64];
    WingDefinition read = wing_definition(body, sizeof body);
    told(read.status, read.good, refused, GOOD, "wing_definition");
    check(read.id == 0 && read.count == 0 && read.first_item == 0, "wing_definition's fields");
    WingWalk walk = wing_items_begin(body, sizeof body);
    told(walk.status, walk.good, refused, GOOD, "wing_items_begin");
    WingItem item = wing_item(body, sizeof body, 0);
    told(item.status, item.good, refused, GOOD, "wing_item");
    WingStep step = wing_item_step(body, sizeof body, 17, 1, WING_TYPE_STRING_ENUM);
    told(step.item.status, step.item.good, refused, GOOD, "wing_item_step");
    told(step.walk.status, step.walk.good, 0, 0, "wing_item_step's walk");
    check(step.walk.at == 17 && step.walk.left == 1 && step.walk.node_type == WING_TYPE_STRING_ENUM, "the walk as it was");
    WingWritten put = wing_write_anew(body, sizeof body, out, sizeof out);
    told(put.status, put.good, refused, GOOD, "wing_write_anew");
    WingFields fields = {.node_type = WING_TYPE_STRING_ENUM, .count = 1};
    put = wing_write_definition(fields, NAME, 1, NAME, GOOD, body + 17, sizeof body - 17, out, sizeof out);
    told(put.status, put.good, refused, GOOD, "wing_write_definition");
    put = wing_write_definition(fields, NAME, 1, NAME, GOOD, NAME, sizeof NAME, out, sizeof out);
    told(put.status, put.good, -WING_REFUSED_FIELDS, 0, "wing_write_definition of other items");
}

int main(void)
{
    orders();
    events();
    listing();
    definitions();
    check(!wing_is_utf8(NAME, sizeof NAME) && wing_utf8_good(NAME, sizeof NAME) == GOOD, "wing_utf8_good");
    check(wing_is_utf8(NAME, GOOD) && wing_utf8_good(NAME, GOOD) == GOOD && wing_utf8_good(NAME, 0) == 0, "what is good");
    printf("%d of %zu bytes are good: %.*s\n", GOOD, sizeof NAME, GOOD, (const char *)NAME);
    return 0;
}
