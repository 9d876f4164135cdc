/* A shift's log: a query file answered into an answer file, and later, beside its
 * queries, the answer file told as a person reads it.
 *
 *   tools/library target/libtaperhive.a
 *   gcc -O2 -Iinclude examples/c/shift-log.c target/libtaperhive.a \
 *       -o target/shift-log-example
 *   target/shift-log-example keep examples/berth.query target/berth.answers
 *   target/shift-log-example tell examples/berth.query target/berth.answers
 *
 * Ends with 1 where a file is refused or the answers are not of these queries,
 * with 2 where a file cannot be read or written. */
#include <stdio.h>
#include <string.h>
#include "taperhive.h"
#include "files.h"
#include "reading.h"

/* As many records and answers as a file may have, and its trailer. */
enum {
    QUERY_BYTES = TAPERHIVE_MOST_RECORDS * TAPERHIVE_RECORD_BYTES + TAPERHIVE_TRAILER_BYTES,
    ANSWER_BYTES = TAPERHIVE_MOST_RECORDS * TAPERHIVE_ANSWER_BYTES + TAPERHIVE_TRAILER_BYTES,
    QUEUE_WORDS = 4096
};

/* The last byte is for telling a longer file. */
static uint8_t queries[QUERY_BYTES + 1], answers[ANSWER_BYTES + 1];
static uint64_t queue[QUEUE_WORDS];

static int say_refused(const char *what, uint32_t number)
{
    printf("%s: refused with number %u\n", what, number);
    return 1;
}

/* The queries answered into a file of that name: 32 bytes each and the trailer. */
static int keep(size_t queries_len, const char *name)
{
    uint32_t count = 0, refused = taperhive_count(queries, queries_len, &count, 1);
    if (refused == 0)
        refused = taperhive_log(queries, queries_len, queue, QUEUE_WORDS, answers, ANSWER_BYTES);
    if (refused)
        return say_refused("the queries", refused);
    size_t length = (size_t)count * TAPERHIVE_ANSWER_BYTES + TAPERHIVE_TRAILER_BYTES;
    return write_file(name, answers, length) ? 0 : 2;
}

/* The log does not have the query's cap, so CLEAR says that there may be one. */
static void print_answer(const uint32_t told[TAPERHIVE_TOLD])
{
    static const char *const words[] = {"REFUSED", "MET", "CLEAR", "SPENT", "ROOM", "FLOOR"};
    printf("id %u %s: ", told[TAPERHIVE_ID], words[told[TAPERHIVE_WORD]]);
    if (told[TAPERHIVE_WORD] == TAPERHIVE_REFUSED)
        printf("do not move: not checked, number %u\n", told[TAPERHIVE_NUMBER]);
    else if (told[TAPERHIVE_WORD] == TAPERHIVE_CLEAR)
        printf("move to the query's cap, or the whole step where it has none\n");
    else
        print_move(told[TAPERHIVE_T]);
}

/* The answers, where they go with the queries. */
static int tell(size_t queries_len, size_t answers_len)
{
    uint32_t count = 0, told[TAPERHIVE_TOLD];
    uint32_t refused = taperhive_match(queries, queries_len, answers, answers_len);
    if (refused == 0)
        refused = taperhive_log_count(answers, answers_len, &count, 1);
    if (refused)
        return say_refused("no log of these queries", refused);
    printf("%u answers, as many as queries, with the same ids\n", count);
    for (uint32_t n = 0; n < count; n++) {
        refused = taperhive_log_read(answers, answers_len, n, told, TAPERHIVE_TOLD);
        if (refused)
            return say_refused("an answer of the log", refused);
        print_answer(told);
    }
    return 0;
}

int main(int argc, char **argv)
{
    int keeps = argc == 4 && strcmp(argv[1], "keep") == 0;
    int tells = argc == 4 && strcmp(argv[1], "tell") == 0;
    size_t queries_len = 0, answers_len = 0;
    if (!keeps && !tells)
        fprintf(stderr, "write %s keep|tell QUERIES ANSWERS\n", argv[0]);
    if ((!keeps && !tells) || !read_file(argv[2], queries, QUERY_BYTES, &queries_len) ||
        (tells && !read_file(argv[3], answers, ANSWER_BYTES, &answers_len)))
        return 2;
    return keeps ? keep(queries_len, argv[3]) : tell(queries_len, answers_len);
}
