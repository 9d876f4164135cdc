/* What a controller does each step: it asks every pair of a query file, and
 * scales its move by the smallest moment answered.
 *
 *   tools/library target/libtaperhive.a
 *   gcc -O2 -Iinclude examples/c/controller.c target/libtaperhive.a \
 *       -o target/controller-example
 *   target/controller-example examples/berth.query
 *
 * Ends with 0 where every pair was checked, with 1 where the file or a record is
 * refused or there is no record, with 2 where the file cannot be read. */
#include <stdio.h>
#include "taperhive.h"
#include "files.h"
#include "reading.h"

/* As many records as a file may have, of 128 bytes as in editions 2 and 3, and
 * the trailer. */
enum { RECORDS = 4096, FILE_BYTES = RECORDS * 128 + 16, QUEUE_WORDS = 4096 };

static uint8_t file[FILE_BYTES + 1]; /* the last byte is for telling a longer file */
static uint64_t queue[QUEUE_WORDS];
static uint32_t told[RECORDS * TAPERHIVE_TOLD];

static const uint32_t *record(uint32_t n)
{
    return told + n * TAPERHIVE_TOLD;
}

/* Every record answered into `told`, how many into *count; or the refusal. */
static uint32_t ask(size_t length, uint32_t *count)
{
    uint32_t refused = taperhive_count(file, length, count, 1);
    if (refused)
        return refused;
    return taperhive_answers(file, length, queue, QUEUE_WORDS, told,
                             RECORDS * TAPERHIVE_TOLD);
}

/* Says how many records are refused and which is the first; 0 where none is. */
static int print_refused(uint32_t count)
{
    uint32_t refused = 0, first = 0;
    for (uint32_t n = count; n-- > 0;)
        if (record(n)[TAPERHIVE_WORD] == TAPERHIVE_REFUSED) {
            first = n;
            refused++;
        }
    if (refused == 0)
        return 0;
    printf("do not move: %u of %u records refused and not checked\n", refused, count);
    printf("the first is id %u: record %u, counted from 0, refused with number %u\n",
           record(first)[TAPERHIVE_ID], first, record(first)[TAPERHIVE_NUMBER]);
    return 1;
}

/* The first record with the smallest moment; `count` where all are clear. */
static uint32_t deciding(uint32_t count)
{
    uint32_t holder = count;
    for (uint32_t n = 0; n < count; n++)
        if (record(n)[TAPERHIVE_WORD] != TAPERHIVE_CLEAR &&
            (holder == count || record(n)[TAPERHIVE_T] < record(holder)[TAPERHIVE_T]))
            holder = n;
    return holder;
}

/* What to do about records that were all checked. */
static void print_answer(uint32_t count)
{
    uint32_t n = deciding(count);
    if (n == count) {
        printf("move the whole step: clear, %u records\n", count);
        return;
    }
    const uint32_t *row = record(n);
    print_move(row[TAPERHIVE_T]);
    printf("decided by id %u: record %u of %u, counted from 0\n", row[TAPERHIVE_ID], n, count);
    print_nearness(row[TAPERHIVE_WORD], row[TAPERHIVE_EXCESS]);
}

int main(int argc, char **argv)
{
    size_t length = 0;
    if (argc != 2)
        fprintf(stderr, "write %s FILE\n", argv[0]);
    if (argc != 2 || !read_file(argv[1], file, FILE_BYTES, &length))
        return 2;

    uint32_t count = 0, refused = ask(length, &count);
    if (refused)
        printf("do not move: the file is refused with number %u\n", refused);
    else if (count == 0)
        printf("do not move: the file has no records\n");
    if (refused || count == 0 || print_refused(count))
        return 1;
    print_answer(count);
    return 0;
}
