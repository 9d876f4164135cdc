/* Query files without a text and pairs without a file: two pairs written into a
 * query file, asked and read; then one of them asked by itself.
 *
 *   tools/install target/installed
 *   export PKG_CONFIG_PATH=$PWD/target/installed/lib/pkgconfig
 *   gcc -O2 examples/c/from-numbers.c $(pkg-config --cflags --libs taperhive) \
 *       -o target/from-numbers-example
 *   target/from-numbers-example
 *
 * Ends with 1 where something is refused. Lengths count 1/8 mm. */
#include <stdio.h>
#include "taperhive.h"
#include "reading.h"

enum { METRE = 8000, EDITION = 2, PAIRS = 2, QUEUE_WORDS = 4096 };
enum { RECORDS = PAIRS * TAPERHIVE_RECORD_BYTES, FILE_BYTES = RECORDS + TAPERHIVE_TRAILER_BYTES };

/* 5 cm sideways and 40 cm in height; 4 cm of tolerance; boxes. */
enum { SIDEWAYS = METRE / 20, HEIGHT = 2 * METRE / 5, TOLERANCE = METRE / 25, BUDGET = 1000 };

struct pair {
    uint8_t kind;
    uint32_t id;
    int32_t points[TAPERHIVE_POINTS];
};

/* A gangway's tip that comes down from 1 m over a deck of 2 m by 2 m, and its
 * lower edge that passes 3 m beside a rail. Four points at the start of the step,
 * then the same four at its end; x, y, z each. */
static const struct pair pairs[PAIRS] = {
    {TAPERHIVE_VERTEX_FACE, 7,
     {0, 0, METRE, -METRE, -METRE, 0, METRE, -METRE, 0, -METRE, METRE, 0,
      0, 0, 0,     -METRE, -METRE, 0, METRE, -METRE, 0, -METRE, METRE, 0}},
    {TAPERHIVE_EDGE_EDGE, 8,
     {0, 0, METRE, METRE, 0, METRE, 0, 3 * METRE, 0, METRE, 3 * METRE, 0,
      0, 0, 0,     METRE, 0, 0,     0, 3 * METRE, 0, METRE, 3 * METRE, 0}},
};

static uint8_t file[FILE_BYTES];
static uint64_t queue[QUEUE_WORDS];
static uint32_t told[PAIRS * TAPERHIVE_TOLD];

/* The file: a record for each pair, and the trailer behind them. */
static uint32_t build(void)
{
    for (size_t n = 0; n < PAIRS; n++) {
        uint32_t refused = taperhive_write(file, FILE_BYTES, n * TAPERHIVE_RECORD_BYTES, EDITION,
                                           pairs[n].kind, 0, pairs[n].id, SIDEWAYS, SIDEWAYS,
                                           HEIGHT, TOLERANCE, BUDGET, 0, pairs[n].points,
                                           TAPERHIVE_POINTS);
        if (refused)
            return refused;
    }
    return taperhive_trailer(file, FILE_BYTES, RECORDS, EDITION, PAIRS);
}

static void print_told(const uint32_t *row)
{
    printf("id %u: ", row[TAPERHIVE_ID]);
    if (row[TAPERHIVE_WORD] == TAPERHIVE_REFUSED)
        printf("refused with number %u: do not move\n", row[TAPERHIVE_NUMBER]);
    else if (row[TAPERHIVE_WORD] == TAPERHIVE_CLEAR)
        printf("clear: move the whole step\n");
    else {
        print_move(row[TAPERHIVE_T]);
        print_nearness(row[TAPERHIVE_WORD], row[TAPERHIVE_EXCESS]);
    }
}

int main(void)
{
    uint32_t refused = build();
    if (!refused)
        refused = taperhive_answers(file, FILE_BYTES, queue, QUEUE_WORDS, told,
                                    PAIRS * TAPERHIVE_TOLD);
    if (refused) {
        printf("refused with number %u: do not move\n", refused);
        return 1;
    }
    printf("a file of %d pairs, by taperhive %s\n", PAIRS, TAPERHIVE_VERSION);
    for (size_t n = 0; n < PAIRS; n++)
        print_told(told + n * TAPERHIVE_TOLD);

    /* The first pair by itself, with twice the room in height. */
    refused = taperhive_pair(EDITION, pairs[0].kind, 0, pairs[0].id, SIDEWAYS, SIDEWAYS,
                             2 * HEIGHT, TOLERANCE, BUDGET, 0, pairs[0].points,
                             TAPERHIVE_POINTS, queue, QUEUE_WORDS, told, TAPERHIVE_TOLD);
    if (refused) {
        printf("refused with number %u: do not move\n", refused);
        return 1;
    }
    printf("one pair without a file, 80 cm in height\n");
    print_told(told);
    return 0;
}
