/* How long a definition's body is skipped that is too long to be kept: count 0, a 32-bit count, and as many units, in feeds of 65,536 bytes.
 *
 *     tools/build wing_c && gcc -O2 -Iinclude bench/skip.c target/staticlib/libwing_c.a -o target/skip && target/skip 4294967295
 *
 * The count is over 4,096: the last unit must give one refused definition, and none before it may give anything. Prints the seconds.
 */
#include "wing.h"

#include <stdio.h>
#include <stdlib.h>
#include <string.h>
#include <time.h>

static uint8_t state[WING_STATE_SIZE], table[WING_PLACE_WIDTH], units[WING_FEED_MAX];

static WingFed feed(const uint8_t *bytes, size_t n)
{
    WingFed fed = wing_feed(state, sizeof state, table, sizeof table, 0, bytes, n);
    if (fed.status != 0) {
        fprintf(stderr, "a feed was refused: %d\n", (int)fed.status);
        exit(1);
    }
    return fed;
}

int main(int argc, char **argv)
{
    uint32_t count = argc > 1 ? (uint32_t)strtoul(argv[1], NULL, 10) : UINT32_MAX;
    uint8_t front[14] = {0xdf, 0xd1, 0xdf, 0xde, 0, 0};
    size_t len = 6;
    for (int shift = 24; shift >= 0; shift -= 8) {
        front[len++] = (uint8_t)(count >> shift);
        if (front[len - 1] == 0xdf)
            front[len++] = 0xde;
    }
    memset(units, 0x41, sizeof units);
    wing_state_fresh(state, sizeof state);
    feed(front, len);
    struct timespec begun, done;
    clock_gettime(CLOCK_MONOTONIC, &begun);
    for (uint32_t left = count; left > 0;) {
        size_t piece = left < sizeof units ? left : sizeof units;
        WingFed fed = feed(units, piece);
        left -= (uint32_t)piece;
        if (fed.definitions_refused != (left == 0) || fed.stored != 0) {
            fprintf(stderr, "with %lu units left: definitions refused %u, values stored %u\n", (unsigned long)left,
                    (unsigned)fed.definitions_refused, (unsigned)fed.stored);
            return 1;
        }
    }
    clock_gettime(CLOCK_MONOTONIC, &done);
    double seconds = (double)(done.tv_sec - begun.tv_sec) + (double)(done.tv_nsec - begun.tv_nsec) / 1e9;
    printf("%lu units in %.2f s, %.2f ns each; the next value is %s\n", (unsigned long)count, seconds, seconds * 1e9 / count,
           feed((const uint8_t[]){5}, 1).stored == 1 ? "stored" : "lost");
    return 0;
}
