/* A whole gangway against a hull, in one call: a box of twelve triangles comes
 * down on a deck that heaves towards it.
 *
 *   tools/library target/libtaperhive.a
 *   gcc -O2 -Iinclude examples/c/gangway.c target/libtaperhive.a \
 *       -o target/gangway-example
 *   target/gangway-example
 *
 * Positions count 1/8 mm: 8,000 are a metre. */
#include <inttypes.h>
#include <stdio.h>
#include "taperhive.h"
#include "reading.h"

enum { METRE = 8000, QUEUE_WORDS = 4096, GANGWAY = 12, HULL = 4 };

/* Coordinates up to 131 m from the origin. With 3 they may be up to 262 m, and
 * the tolerance is 8 mm or more. */
enum { EDITION = 2 };

static uint64_t queue[QUEUE_WORDS];

/* The box's corners by three bits: 1 far in x, 2 far in y, 4 far in z; two
 * triangles a side. */
static const int box[GANGWAY][3] = {{0, 1, 3}, {0, 3, 2}, {4, 5, 7}, {4, 7, 6},
                                    {0, 1, 5}, {0, 5, 4}, {2, 3, 7}, {2, 7, 6},
                                    {0, 2, 6}, {0, 6, 4}, {1, 3, 7}, {1, 7, 5}};

/* A gangway of 4 m by 1 m by 30 cm whose near lower corner is at x, y, z. */
static void gangway(int32_t x, int32_t y, int32_t z, int32_t positions[GANGWAY * 9])
{
    for (int i = 0; i < GANGWAY * 3; i++) {
        int corner = box[i / 3][i % 3];
        positions[3 * i] = x + (corner & 1 ? 4 * METRE : 0);
        positions[3 * i + 1] = y + (corner & 2 ? METRE : 0);
        positions[3 * i + 2] = z + (corner & 4 ? 3 * METRE / 10 : 0);
    }
}

/* A deck of 10 m by 8 m at a height, and a bulwark of 1 m along its far side. */
static void hull(int32_t height, int32_t positions[HULL * 9])
{
    static const int32_t metres[HULL * 9] = {-2, -4, 0, 8, -4, 0, 8,  4, 0, /* deck */
                                             -2, -4, 0, 8,  4, 0, -2, 4, 0,
                                             8,  -4, 0, 8,  4, 0, 8,  4, 1, /* bulwark */
                                             8,  -4, 0, 8,  4, 1, 8, -4, 1};
    for (int i = 0; i < HULL * 9; i++)
        positions[i] = metres[i] * METRE + (i % 3 == 2 ? height : 0);
}

/* The step of this example. Sideways 1 cm is contact, in height 5 cm; a tolerance
 * of 2 cm; 10,000 boxes a query. */
static uint32_t ask(uint32_t told[TAPERHIVE_TOLD])
{
    int32_t a_start[GANGWAY * 9], a_end[GANGWAY * 9], b_start[HULL * 9], b_end[HULL * 9];
    gangway(-METRE, -METRE / 2, 3 * METRE / 2, a_start);
    gangway(-METRE / 2, -METRE / 2, METRE / 4, a_end);
    hull(0, b_start);
    hull(METRE / 2, b_end);
    return taperhive_bodies(EDITION, 80, 80, 400, 160, 10000,
                            GANGWAY, a_start, GANGWAY * 9, a_end, GANGWAY * 9,
                            HULL, b_start, HULL * 9, b_end, HULL * 9,
                            queue, QUEUE_WORDS, told, TAPERHIVE_TOLD);
}

/* An answer with a moment in the library's own numbers, for a log. */
static void print_numbers(const uint32_t told[TAPERHIVE_TOLD])
{
    static const char *const words[] = {"REFUSED", "MET", "CLEAR", "SPENT", "ROOM", "FLOOR"};
    printf("%s at %u/1048576, triangle %u of the gangway with %u of the hull, query %u, "
           "excess %u, %" PRIu64 " boxes\n",
           words[told[TAPERHIVE_BODIES_WORD]], told[TAPERHIVE_BODIES_T], told[TAPERHIVE_BODIES_A],
           told[TAPERHIVE_BODIES_B], told[TAPERHIVE_BODIES_QUERY], told[TAPERHIVE_BODIES_EXCESS],
           boxes_of(told));
}

int main(void)
{
    uint32_t told[TAPERHIVE_TOLD];
    uint32_t refused = ask(told);
    if (refused) {
        printf("do not move: refused and not checked, number %u\n", refused);
        return 1;
    }
    print_bodies(told);
    if (told[TAPERHIVE_BODIES_WORD] != TAPERHIVE_CLEAR)
        print_numbers(told);
    return 0;
}
