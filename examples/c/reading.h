/* The numbers of an answer as a person reads them: for the examples. */
#ifndef READING_H
#define READING_H

#include <inttypes.h>
#include <stdio.h>
#include "taperhive.h"

/* Parts of the step as percent, cut off behind two digits: never more than was
 * answered. */
static inline double percent(uint32_t parts)
{
    return (double)((uint64_t)parts * 10000 / 1048576) / 100;
}

/* Units of 1/8 mm as millimetres, exactly. */
static inline double millimetres(uint32_t units)
{
    return units / 8.0;
}

/* What ended a search that answers a moment. */
static inline const char *ended_by(uint32_t word)
{
    switch (word) {
    case TAPERHIVE_MET:
        return "MET, as near as the tolerance asks";
    case TAPERHIVE_SPENT:
        return "SPENT, the budget ended";
    case TAPERHIVE_ROOM:
        return "ROOM, the queue was full";
    default:
        return "FLOOR, boxes cannot be split further";
    }
}

/* How far to move: before the moment t there is no contact. */
static inline void print_move(uint32_t t)
{
    if (t == 0)
        printf("do not move: no part of the step is known to be clear\n");
    else
        printf("move %.2f %% of the step\n", percent(t));
}

/* What ended the search, and how near the bodies are at the moment answered. */
static inline void print_nearness(uint32_t word, uint32_t excess)
{
    if (excess == 0)
        printf("%s: in contact then\n", ended_by(word));
    else
        printf("%s: %.3f mm beyond the separation then\n", ended_by(word),
               millimetres(excess));
}

/* What of each of two bodies' triangles a query is about. */
struct parts {
    const char *a, *b;
};

static inline struct parts parts_of(uint32_t query)
{
    static const char *const corner[] = {"corner 1", "corner 2", "corner 3"};
    static const char *const edge[] = {"edge 12", "edge 23", "edge 31"};
    if (query <= 3)
        return (struct parts){corner[query - 1], "face"};
    if (query <= 6)
        return (struct parts){"face", corner[query - 4]};
    return (struct parts){edge[(query - 7) / 3], edge[(query - 7) % 3]};
}

/* The sum of all counts, told in two halves. */
static inline uint64_t boxes_of(const uint32_t told[TAPERHIVE_BODIES_TOLD])
{
    return (uint64_t)told[TAPERHIVE_BODIES_COUNT_HIGH] << 32 | told[TAPERHIVE_BODIES_COUNT];
}

/* What two bodies are answered: a gangway and a hull. */
static inline void print_bodies(const uint32_t told[TAPERHIVE_BODIES_TOLD])
{
    if (told[TAPERHIVE_BODIES_WORD] == TAPERHIVE_CLEAR) {
        printf("move the whole step: clear, %" PRIu64 " boxes\n", boxes_of(told));
        return;
    }
    struct parts of = parts_of(told[TAPERHIVE_BODIES_QUERY]);
    print_move(told[TAPERHIVE_BODIES_T]);
    printf("decided by triangle %u of the gangway (%s) and %u of the hull (%s)\n",
           told[TAPERHIVE_BODIES_A], of.a, told[TAPERHIVE_BODIES_B], of.b);
    print_nearness(told[TAPERHIVE_BODIES_WORD], told[TAPERHIVE_BODIES_EXCESS]);
}

#endif
