/* Tables that the tests of the C side start from. */
#ifndef CABINET_H
#define CABINET_H

#include <stdio.h>
#include <stdlib.h>
#include <string.h>

#include "fiervalun.h"

#define CHECK(holds)                                                             \
    do {                                                                         \
        if (!(holds)) {                                                          \
            fprintf(stderr, "%s:%d: %s does not hold\n", __FILE__, __LINE__, #holds); \
            exit(1);                                                             \
        }                                                                        \
    } while (0)

static const fiervalun_options usual = {2, 3, 3, 4.0f};

static inline fiervalun_ulid id_of(uint64_t low)
{
    fiervalun_ulid id;
    id.high = 0;
    id.low = low;
    return id;
}

/* Document 01's cabinet: the root with L0 rows 1 to 4 of size 1 and runs 12, 11 of size 100, segment 7 with runs 10, 9 of
 * size 50. Places that are not in use hold `filler`, so that a stray write shows. */
static inline void fill_trees(fiervalun_trees *t, int filler)
{
    size_t row;
    static const uint32_t counts[] = {0, 4, 2, 7, 0, 2}, ids[] = {12, 11, 10, 9};
    static const uint64_t sizes[] = {100, 100, 50, 50};
    memset(t, filler, sizeof *t);
    t->count = 2;
    memcpy(t->trees, counts, sizeof counts);
    memset(t->watermark_marks, 0, 4);
    memset(t->watermarks, 0, 64);
    memcpy(t->run_ids, ids, sizeof ids);
    memcpy(t->run_sizes, sizes, sizeof sizes);
    for (row = 0; row < 4; row++) {
        uint64_t *r = t->l0_ids + 4 * row;
        r[0] = r[2] = 0;
        r[1] = row + 1;
        r[3] = row + 101;
        t->l0_sizes[row] = 1;
    }
}

static inline void fill_jobs(fiervalun_jobs *j, int filler)
{
    memset(j, filler, sizeof *j);
    j->count = 0;
}

/* A spec of runs alone. */
static inline fiervalun_spec runs_spec(
    uint32_t prefix, uint32_t destination, const uint8_t *marks, const uint32_t *runs, const uint64_t *views,
    size_t count)
{
    fiervalun_spec s;
    s.drain = 0;
    s.prefix = prefix;
    s.destination = destination;
    s.count = count;
    s.marks = marks;
    s.runs = runs;
    s.views = views;
    return s;
}

#endif
