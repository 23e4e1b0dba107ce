/* Both rows of limits, as the tests have them: a store's length says by which one its station goes. */
#ifndef ROWS_H
#define ROWS_H

#include "../include/station.h"

struct row {
    const char *name;
    size_t store, out, log; /* the exact length of a store, the least of an out buffer, where the log begins */
    size_t old;             /* the length of a store before tallies kept a clock */
    uint32_t views, statements, tallies;
};

static const struct row rows[] = {
    { "small", STATION_STORE_LENGTH, STATION_OUT_LENGTH, STATION_LOG, 36484, 32, 128, 512 },
    { "large", STATION_STORE_LENGTH_LARGE, STATION_OUT_LENGTH_LARGE, STATION_LOG_LARGE, 101956, 256, 512, 1024 },
};

enum { ROWS = sizeof rows / sizeof rows[0] };

#endif
