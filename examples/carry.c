/* A decoder state that an earlier release kept (version 1), carried over in C.
 *
 *     gcc -std=c99 -Wall -Wextra -Iinclude examples/carry.c target/staticlib/libwing_c.a -o target/carry
 *
 * Prints the string that was half read then and is whole now. Status 1 where anything is not as it should be.
 */
#include "wing.h"

#include <stdio.h>
#include <stdlib.h>
#include <string.h>

static void check(bool good, const char *what)
{
    if (!good) {
        fprintf(stderr, "%s: not as it should be\n", what);
        exit(1);
    }
}

int main(void)
{
    /* After d7 00 00 00 07 83 41 42: node 7, a string of four bytes, of which two had come. */
    static const uint8_t fields[27] = {1, 0, 0xff, 0, 0, 0, 0, 0, 7, 2, 0, 0, 0, 0, 4, 0, 0, 0, 2};
    static uint8_t earlier[WING_STATE_SIZE], state[WING_STATE_SIZE], before[WING_STATE_SIZE], out[WING_BODY_LIMIT];
    memcpy(earlier, fields, sizeof fields);
    memcpy(earlier + sizeof fields, "AB", 2);
    check(wing_state_check(earlier, sizeof earlier) == -WING_REFUSED_STATE, "a state of version 1 as today's");

    WingWritten over = wing_state_carry_over(earlier, sizeof earlier, state, sizeof state);
    check(over.status == 0 && over.len == WING_STATE_SIZE, "wing_state_carry_over");
    check(wing_state_check(state, sizeof state) == 0, "wing_state_check");
    WingEvent event = wing_next(state, sizeof state, (const uint8_t *)"CD", 2, out, sizeof out);
    check(event.status == 1 && event.kind == WING_KIND_STRING && event.len == 4, "wing_next");

    /* One that has taken a unit after a count of 0 is refused, and the output is as it was. */
    memset(earlier, 0, sizeof earlier);
    earlier[0] = 1;
    earlier[2] = 0xff;
    earlier[9] = 1;
    earlier[10] = 10;
    earlier[18] = 3;
    memcpy(before, state, sizeof state);
    check(wing_state_carry_over(earlier, sizeof earlier, state, sizeof state).status == -WING_REFUSED_STATE, "a started count");
    check(memcmp(before, state, sizeof state) == 0, "a refused state");
    printf("node %d: %.4s\n", (int)event.node, (const char *)out);
    return 0;
}
