/* A window over a strip's last readings, in C: readings one by one and at once, and what is refused.
 *
 *     gcc -std=c99 -Wall -Wextra -Iinclude examples/window.c target/staticlib/libwing_c.a -o target/window
 *
 * Prints what the window tells after the last reading. Status 1 where anything is not as it should be.
 */
#include "wing.h"

#include <stdio.h>
#include <stdlib.h>
#include <string.h>

enum { READINGS = 4 };

static const int16_t readings[READINGS] = {-1, 0, 5, -6};

static void check(bool good, const char *what)
{
    if (!good) {
        fprintf(stderr, "%s: not as it should be\n", what);
        exit(1);
    }
}

static WingWindow made(uint32_t width)
{
    WingMade m = wing_window_make(width);
    check(m.status == 0 && wing_window_figures(m.window).status == 0, "wing_window_make");
    return m.window;
}

/* The figures in the order of a row. */
static bool is_row(WingFigures f, const int32_t *row)
{
    return f.held == row[0] && f.sum == row[1] && f.mean == row[2] && f.rest == row[3] && f.top == row[4];
}

int main(void)
{
    int32_t rows[READINGS * WING_ROW_FIGURES], before[READINGS * WING_ROW_FIGURES];
    WingFollowed all = wing_window_readings(made(3), readings, READINGS, rows, READINGS * WING_ROW_FIGURES);
    check(all.status == 0 && all.rows == READINGS, "wing_window_readings");

    WingWindow window = made(3);
    for (size_t i = 0; i < READINGS; i++) {
        WingTaken taken = wing_window_reading(window, readings[i]);
        check(taken.figures.status == 1 && is_row(taken.figures, rows + i * WING_ROW_FIGURES), "wing_window_reading");
        window = taken.window;
    }
    check(memcmp(&window, &all.window, sizeof window) == 0, "the windows after the readings");
    WingFigures told = wing_window_figures(window);
    check(told.status == 1 && is_row(told, rows + (READINGS - 1) * WING_ROW_FIGURES), "wing_window_figures");

    /* A width that is none, an output that is one too short, and a window that no list of readings leaves. */
    check(wing_window_make(WING_WINDOW_MAX + 1).status == -WING_REFUSED_WIDTH, "a width of 257");
    memcpy(before, rows, sizeof rows);
    all = wing_window_readings(window, readings, READINGS, rows, READINGS * WING_ROW_FIGURES - 1);
    check(all.status == -WING_REFUSED_OUTPUT_SHORT && memcmp(&window, &all.window, sizeof window) == 0, "a short output");
    window.sum++;
    check(wing_window_reading(window, 0).figures.status == -WING_REFUSED_STATE, "a sum that is not the readings'");
    check(memcmp(before, rows, sizeof rows) == 0, "a refused call");
    printf("%u readings: sum %d, mean %d, rest %u, top %d\n", told.held, (int)told.sum, told.mean, told.rest, told.top);
    return 0;
}
