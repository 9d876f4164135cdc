/* Bounds kept beside two bodies: a long gangway follows a ship down in the swell;
 * then a flap hangs from its tip, and the same step is asked again.
 *
 *   tools/library target/libtaperhive.a
 *   gcc -O2 -Iinclude examples/c/keeps-bounds.c target/libtaperhive.a \
 *       -o target/keeps-bounds-example
 *   target/keeps-bounds-example
 *
 * Ends with 1 where something is refused. Positions count 1/8 mm: 8,000 are a
 * metre. */
#include <stdio.h>
#include "taperhive.h"
#include "reading.h"

enum { METRE = 8000, EDITION = 2, QUEUE_WORDS = 4096 };

/* Each body is a row of 40 cells of 50 cm along x, two triangles a cell: 20 m in
 * three blocks. */
enum { TRIANGLES = 80, LAST = TRIANGLES - 1, POSITIONS = TRIANGLES * TAPERHIVE_TRIANGLE };
enum { BOUNDS = TAPERHIVE_BOUND * 3 };

/* Where a body is at the start and at the end of the step, and its bounds. */
struct body {
    int32_t start[POSITIONS], end[POSITIONS], bounds[BOUNDS];
};

static struct body gangway, hull;
static uint64_t queue[QUEUE_WORDS];

/* A row that begins at x, so wide, at a height. */
static void row(int32_t x, int32_t width, int32_t height, int32_t positions[POSITIONS])
{
    static const int corner[6] = {0, 1, 2, 3, 2, 1}; /* 1 is far in x, 2 in y */
    for (int i = 0; i < TRIANGLES * 3; i++) {
        int here = corner[i % 6];
        positions[3 * i] = x + (i / 6 + (here & 1)) * METRE / 2;
        positions[3 * i + 1] = here & 2 ? width / 2 : -width / 2;
        positions[3 * i + 2] = height;
    }
}

/* The gangway, 1 m wide, reaches 1 m over the deck and keeps from 50 cm to 20 cm
 * above it. Most of both is so far away that it is passed over. */
static void place_both(void)
{
    row(-19 * METRE, METRE, METRE, gangway.start);
    row(-19 * METRE, METRE, METRE / 5, gangway.end);
    row(0, 8 * METRE, METRE / 2, hull.start);
    row(0, 8 * METRE, 0, hull.end);
}

/* Once for a body and a step. */
static uint32_t work_out_bounds(struct body *body)
{
    return taperhive_bounds(EDITION, TRIANGLES, body->start, POSITIONS, body->end, POSITIONS,
                            body->bounds, BOUNDS);
}

/* Sideways 1 cm is contact, in height 5 cm; a tolerance of 2 cm; 10,000 boxes a
 * query. */
static uint32_t ask(const char *what)
{
    uint32_t told[TAPERHIVE_BODIES_TOLD];
    uint32_t refused = taperhive_walk(EDITION, 80, 80, 400, 160, 10000,
                                      TRIANGLES, gangway.start, POSITIONS, gangway.end, POSITIONS,
                                      gangway.bounds, BOUNDS,
                                      TRIANGLES, hull.start, POSITIONS, hull.end, POSITIONS,
                                      hull.bounds, BOUNDS,
                                      queue, QUEUE_WORDS, told, TAPERHIVE_BODIES_TOLD);
    if (refused == 0) {
        printf("%s: ", what);
        print_bodies(told);
    }
    return refused;
}

/* The gangway's last triangle, its first corner 30 cm lower at both moments; only
 * the bound of its block is worked out again. */
static uint32_t hang_the_flap(void)
{
    int32_t corners[2 * TAPERHIVE_TRIANGLE];
    for (int i = 0; i < TAPERHIVE_TRIANGLE; i++) {
        corners[i] = gangway.start[LAST * TAPERHIVE_TRIANGLE + i];
        corners[TAPERHIVE_TRIANGLE + i] = gangway.end[LAST * TAPERHIVE_TRIANGLE + i];
    }
    corners[2] -= 3 * METRE / 10;
    corners[TAPERHIVE_TRIANGLE + 2] -= 3 * METRE / 10;
    return taperhive_replace(EDITION, TRIANGLES, gangway.start, POSITIONS, gangway.end, POSITIONS,
                             gangway.bounds, BOUNDS, LAST, corners, 2 * TAPERHIVE_TRIANGLE);
}

int main(void)
{
    uint32_t refused;
    place_both();
    if ((refused = work_out_bounds(&gangway)) || (refused = work_out_bounds(&hull)) ||
        (refused = ask("as it is")) || (refused = hang_the_flap()) ||
        (refused = ask("with the flap"))) {
        printf("do not move: refused and not checked, number %u\n", refused);
        return 1;
    }
    return 0;
}
