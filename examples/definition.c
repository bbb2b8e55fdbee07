/* A definition in C: written of its fields as a simulated console answers, read back, written anew.
 *
 *     gcc -std=c99 -Wall -Wextra -Iinclude examples/definition.c target/staticlib/libwing_c.a -o target/definition
 *
 * Prints the body's length and its items. Status 1 where what is read or written anew is not what was given.
 */
#include "wing.h"

#include <stdio.h>
#include <stdlib.h>
#include <string.h>

static void check(bool good, const char *what)
{
    if (!good) {
        fprintf(stderr, "%s: not as it was given\n", what);
        exit(1);
    }
}

/* A limit's 32 bits. */
static uint32_t bits(float x)
{
    uint32_t b;
    memcpy(&b, &x, sizeof b);
    return b;
}

/* An item of a string enum has two strings, each with its length in one byte. */
static const uint8_t ITEMS[] = "\003off\003Off\002on\002On";
static const size_t ITEMS_LEN = sizeof ITEMS - 1;

/* So many bytes of the items. */
static WingWritten write_it(WingFields fields, const char *name, const char *long_name, size_t items_len, uint8_t *out, size_t room)
{
    return wing_write_definition(fields, (const uint8_t *)name, strlen(name), (const uint8_t *)long_name, strlen(long_name), ITEMS,
                                 items_len, out, room);
}

static void list_items(const uint8_t *body, size_t len)
{
    WingWalk walk = wing_items_begin(body, len);
    while (walk.left > 0) {
        WingStep step = wing_item_step(body, len, walk.at, walk.left, walk.node_type);
        check(step.item.status == 1, "item");
        printf(" %.*s (%.*s)", (int)step.item.len, body + step.item.start, (int)step.item.long_len, body + step.item.long_start);
        walk = step.walk;
    }
    printf("\n");
}

static void string_enum(void)
{
    uint8_t body[WING_BODY_LIMIT], anew[WING_BODY_LIMIT];
    WingFields fields = {.parent_id = 1, .id = -2, .index = 7, .node_type = WING_TYPE_STRING_ENUM, .read_only = true, .count = 2};
    WingWritten put = write_it(fields, "mute", "Mute", ITEMS_LEN, body, sizeof body);
    check(put.status == 0, "wing_write_definition");
    WingDefinition read = wing_definition(body, put.len);
    check(read.status == 0 && read.id == -2 && read.index == 7 && read.read_only && read.count == 2, "wing_definition");
    WingWritten again = wing_write_anew(body, put.len, anew, sizeof anew);
    check(again.status == 0 && again.len == put.len && memcmp(anew, body, put.len) == 0, "wing_write_anew");
    printf("%zu bytes:", put.len);
    list_items(body, put.len);
    fields.count = 3;
    put = write_it(fields, "mute", "", ITEMS_LEN, anew, sizeof anew);
    check(put.status == -WING_REFUSED_FIELDS && memcmp(anew, body, again.len) == 0, "a count that is not the items'");
}

/* The limits of floats and of integers are the same 32 bits, in and out. */
static void limits(void)
{
    uint8_t body[64];
    WingFields fields = {.id = 3, .node_type = WING_TYPE_LINEAR_FLOAT, .min = bits(-90), .max = bits(10), .steps = -1};
    for (int turn = 0; turn < 2; turn++) {
        WingWritten put = write_it(fields, "lvl", "", 0, body, sizeof body);
        WingDefinition read = wing_definition(body, put.len);
        check(put.status == 0 && read.status == 0 && read.node_type == fields.node_type, "limits");
        check(read.min == fields.min && read.max == fields.max && read.steps == fields.steps, "limits");
        fields = (WingFields){.id = 4, .node_type = WING_TYPE_INTEGER, .min = (uint32_t)-5, .max = 7};
    }
}

int main(void)
{
    string_enum();
    limits();
    return 0;
}
