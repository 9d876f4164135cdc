/* Every function of taperhive.h, called by the names of its parameters: what it returns and what it
 * leaves is printed, and compared with the file stdout beside this one. No two parameters that could stand in
 * each other's place have one value, and exchanging them prints something else.
 *
 * tools/every-function makes by-name.h out of the header. CALL(f) hands over the local variables that
 * are named as f's parameters are, in the header's order: so a name in another's place is seen, also
 * where both have one type. Buffers are far longer than what is lent of them, so that most lengths in
 * another's place do no harm. */
#include <stdio.h>
#include <string.h>
#include "taperhive.h"
#include "by-name.h"

enum { LENT = 0xA5, LONG = 1 << 20 };

static uint8_t made[LONG], kept[LONG], bytes[LONG];
static uint64_t words[LONG];
static uint32_t numbers[LONG];
static int32_t starts[LONG], ends[LONG], bounds_a[LONG], bounds_b[LONG];

/* A falling edge across one that stands askew; more numbers than a pair needs. */
static const int32_t edges[LONG] = {-100, 5,   1000, 110, -7, 900, 3,  -100, 20, -9, 120, -30,
                                    -90,  15, -1000, 130, 9, -800, 40, -110, 10, 5,  150, 60};

/* A triangle of A and two of B, at the start and at the end of the step. */
static const int32_t a0[LONG] = {0, 0, 900, 300, 10, 700, 20, 280, 800};
static const int32_t a1[LONG] = {50, 20, -300, 340, 60, -500, 10, 330, -450};
static const int32_t b0[LONG] = {-100, -90, 3, 290, -80, -5, -70, 310, 9,
                                 900,  0,   0, 999, 7,   0,  900, 99,  4};
static const int32_t b1[LONG] = {-90, -70, 50, 310, -60, 30, -60, 300, 40,
                                 800, 5,   0,  890, 9,   8,  820, 90,  0};

static void paint(void)
{
    memset(bytes, LENT, sizeof bytes);
    memset(words, LENT, sizeof words);
    memset(numbers, LENT, sizeof numbers);
    memset(starts, LENT, sizeof starts);
    memset(ends, LENT, sizeof ends);
    memset(bounds_a, LENT, sizeof bounds_a);
    memset(bounds_b, LENT, sizeof bounds_b);
}

/* From which element to which a buffer is not as it was lent, and a sum that its order tells. */
static void print_changed(const char *name, const void *buffer, size_t size)
{
    const uint8_t *byte = buffer;
    size_t first = LONG, last = 0;
    uint64_t sum = 0;
    for (size_t i = 0; i < LONG; i++) {
        int same = 1;
        for (size_t k = 0; k < size; k++)
            same &= byte[i * size + k] == LENT;
        if (same)
            continue;
        first = first == LONG ? i : first;
        last = i;
        for (size_t k = 0; k < size; k++)
            sum = sum * 31 + byte[i * size + k];
    }
    if (first < LONG)
        printf("; %s %zu to %zu, sum %llu", name, first, last, (unsigned long long)sum);
}

static void print_outcome(const char *name, uint32_t number, size_t told)
{
    printf("%s %u", name, number);
    for (size_t i = 0; i < told; i++)
        printf(" %u", numbers[i]);
    print_changed("bytes", bytes, sizeof *bytes);
    print_changed("words", words, sizeof *words);
    print_changed("numbers", numbers, sizeof *numbers);
    print_changed("starts", starts, sizeof *starts);
    print_changed("ends", ends, sizeof *ends);
    print_changed("A's bounds", bounds_a, sizeof *bounds_a);
    print_changed("B's bounds", bounds_b, sizeof *bounds_b);
    printf("\n");
}

/* Two records and their trailer, for the functions that read a file: FILE_BYTES, and others behind. */
enum { FILE_BYTES = 2 * TAPERHIVE_RECORD_BYTES + TAPERHIVE_TRAILER_BYTES };

static void make_file(void)
{
    size_t at = TAPERHIVE_RECORD_BYTES;
    taperhive_write(made, LONG, 0, 3, 2, 0, 81, 12, 15, 17, 67, 900, 0, edges, 24);
    taperhive_write(made, LONG, at, 3, 2, 1, 82, 18, 11, 14, 71, 800, 0, edges, 24);
    taperhive_trailer(made, LONG, 2 * at, 3, 2);
}

/* Their answers and the trailer behind them, for the functions that read an answer file. */
enum { LOG_BYTES = 2 * TAPERHIVE_ANSWER_BYTES + TAPERHIVE_TRAILER_BYTES };

static void make_log(void)
{
    taperhive_log(made, FILE_BYTES, words, 64, kept, LONG);
}

static void written(void)
{
    uint8_t *out = bytes, edition = 3, kind = 2, flags = 1;
    size_t out_len = 300, at = 5, points_len = 24;
    uint32_t id = 70, dx = 12, dy = 15, dz = 17, tolerance = 67, budget = 1000, cap = 900001;
    const int32_t *points = edges;
    paint();
    print_outcome("taperhive_write", CALL(taperhive_write), 0);
}

static void trailed(void)
{
    uint8_t *out = bytes, edition = 2;
    size_t out_len = 300, at = 261;
    uint32_t count = 1;
    paint();
    print_outcome("taperhive_trailer", CALL(taperhive_trailer), 0);
}

static void copied(void)
{
    const uint8_t *file = made;
    uint8_t *out = bytes, edition = 2;
    size_t file_len = FILE_BYTES, n = 1, out_len = 200, at = 7;
    paint();
    print_outcome("taperhive_copy", CALL(taperhive_copy), 0);
}

static void counted(void)
{
    const uint8_t *file = made;
    uint32_t *told = numbers;
    size_t file_len = FILE_BYTES, told_len = 1;
    paint();
    print_outcome("taperhive_count", CALL(taperhive_count), 1);
}

static void answered(void)
{
    const uint8_t *file = made;
    uint64_t *queue = words;
    uint32_t *told = numbers;
    size_t file_len = FILE_BYTES, n = 1, queue_len = 64, told_len = 9;
    paint();
    print_outcome("taperhive_answer", CALL(taperhive_answer), 8);
}

static void all_answered(void)
{
    const uint8_t *file = made;
    uint64_t *queue = words;
    uint32_t *told = numbers;
    size_t file_len = FILE_BYTES, queue_len = 64, told_len = 17;
    paint();
    print_outcome("taperhive_answers", CALL(taperhive_answers), 16);
}

static void paired(void)
{
    uint8_t edition = 3, kind = 2, flags = 1;
    uint32_t id = 70, dx = 12, dy = 15, dz = 17, tolerance = 67, budget = 1000, cap = 600001;
    const int32_t *points = edges;
    uint64_t *queue = words;
    uint32_t *told = numbers;
    size_t points_len = 24, queue_len = 64, told_len = 9;
    paint();
    print_outcome("taperhive_pair", CALL(taperhive_pair), 8);
}

static void ruled_out(void)
{
    const uint8_t *file = made;
    uint64_t *queue = words;
    uint32_t *told = numbers;
    size_t file_len = FILE_BYTES, n = 1, queue_len = 64, told_len = 9;
    uint32_t t = 507903, u = 700001, v = 400003;
    paint();
    print_outcome("taperhive_why", CALL(taperhive_why), 9);
}

static void walked(void)
{
    uint8_t edition = 3;
    uint32_t dx = 12, dy = 35, dz = 58, tolerance = 77, budget = 1000;
    size_t a_count = 1, a_start_len = 9, a_end_len = 9, b_count = 2, b_start_len = 18, b_end_len = 18;
    const int32_t *a_start = a0, *a_end = a1, *b_start = b0, *b_end = b1;
    uint64_t *queue = words;
    uint32_t *told = numbers;
    size_t queue_len = 64, told_len = 10;
    paint();
    print_outcome("taperhive_bodies", CALL(taperhive_bodies), 8);
}

/* B with so many more triangles that it has two blocks; all of those are the origin. */
enum { BLOCKS_2 = TAPERHIVE_BLOCK + 1, LENGTH_2 = TAPERHIVE_TRIANGLE * BLOCKS_2 };

static void bounded(void)
{
    uint8_t edition = 3;
    size_t count = BLOCKS_2, start_len = LENGTH_2, end_len = LENGTH_2, bounds_len = 13;
    const int32_t *start = b0, *end = b1;
    int32_t *bounds = bounds_b;
    paint();
    print_outcome("taperhive_bounds", CALL(taperhive_bounds), 0);
}

static void walked_by_bounds(void)
{
    uint8_t edition = 3;
    uint32_t dx = 13, dy = 35, dz = 58, tolerance = 77, budget = 1000;
    size_t a_count = 1, a_start_len = 9, a_end_len = 9, a_bounds_len = 6;
    size_t b_count = BLOCKS_2, b_start_len = LENGTH_2, b_end_len = LENGTH_2, b_bounds_len = 12;
    const int32_t *a_start = a0, *a_end = a1, *b_start = b0, *b_end = b1;
    const int32_t *a_bounds = bounds_a, *b_bounds = bounds_b;
    uint64_t *queue = words;
    uint32_t *told = numbers;
    size_t queue_len = 64, told_len = 10;
    paint();
    taperhive_bounds(3, 1, a0, 9, a1, 9, bounds_a, LONG);
    taperhive_bounds(3, BLOCKS_2, b0, LENGTH_2, b1, LENGTH_2, bounds_b, LONG);
    print_outcome("taperhive_walk", CALL(taperhive_walk), 8);
}

static void replaced(void)
{
    uint8_t edition = 3;
    size_t count = BLOCKS_2, start_len = LENGTH_2, end_len = LENGTH_2, bounds_len = 12;
    size_t n = BLOCKS_2 - 1, corners_len = 18;
    int32_t *start = starts, *end = ends, *bounds = bounds_b;
    const int32_t *corners = edges;
    paint();
    memcpy(starts, b0, sizeof *b0 * LENGTH_2);
    memcpy(ends, b1, sizeof *b1 * LENGTH_2);
    taperhive_bounds(3, BLOCKS_2, b0, LENGTH_2, b1, LENGTH_2, bounds_b, LONG);
    print_outcome("taperhive_replace", CALL(taperhive_replace), 0);
}

static void logged(void)
{
    const uint8_t *file = made;
    uint64_t *queue = words;
    uint8_t *out = bytes;
    size_t file_len = FILE_BYTES, queue_len = 64, out_len = 100;
    paint();
    print_outcome("taperhive_log", CALL(taperhive_log), 0);
}

static void log_written(void)
{
    static const uint32_t refused[TAPERHIVE_TOLD] = {83, 0, 0, 0, 0, 0, 0, 5};
    const uint32_t *told = refused;
    uint8_t *out = bytes;
    size_t out_len = 100, at = 5, told_len = 8;
    paint();
    print_outcome("taperhive_log_write", CALL(taperhive_log_write), 0);
}

static void log_trailed(void)
{
    uint8_t *out = bytes;
    size_t out_len = 200, at = 70;
    uint32_t count = 2;
    paint();
    print_outcome("taperhive_log_trailer", CALL(taperhive_log_trailer), 0);
}

static void log_read(void)
{
    const uint8_t *log = kept;
    uint32_t *told = numbers;
    size_t log_len = LOG_BYTES, n = 1, told_len = 9;
    paint();
    print_outcome("taperhive_log_read", CALL(taperhive_log_read), 8);
}

static void log_counted(void)
{
    const uint8_t *log = kept;
    uint32_t *told = numbers;
    size_t log_len = LOG_BYTES, told_len = 1;
    paint();
    print_outcome("taperhive_log_count", CALL(taperhive_log_count), 1);
}

static void matched(void)
{
    const uint8_t *file = made, *log = kept;
    size_t file_len = FILE_BYTES, log_len = LOG_BYTES;
    paint();
    print_outcome("taperhive_match", CALL(taperhive_match), 0);
}

/* With length 0 a pointer may be NULL: each function once with nothing lent. */
static void nothing_lent(void)
{
    printf("nothing lent: %u", taperhive_write(0, 0, 0, 2, 1, 0, 0, 0, 0, 0, 16, 1, 0, 0, 0));
    printf(" %u", taperhive_trailer(0, 0, 0, 2, 0));
    printf(" %u", taperhive_copy(0, 0, 0, 2, 0, 0, 0));
    printf(" %u", taperhive_count(0, 0, 0, 0));
    printf(" %u", taperhive_answer(0, 0, 0, 0, 0, 0, 0));
    printf(" %u", taperhive_answers(0, 0, 0, 0, 0, 0));
    printf(" %u", taperhive_pair(2, 1, 0, 0, 0, 0, 0, 16, 1, 0, 0, 0, 0, 0, 0, 0));
    printf(" %u", taperhive_why(0, 0, 0, 0, 0, 0, 0, 0, 0, 0));
    printf(" %u", taperhive_bodies(2, 0, 0, 0, 16, 1, 0, 0, 0, 0, 0, 0, 0, 0, 0, 0, 0, 0, 0, 0));
    printf(" %u", taperhive_bounds(2, 0, 0, 0, 0, 0, 0, 0));
    printf(" %u", taperhive_walk(2, 0, 0, 0, 16, 1, 0, 0, 0, 0, 0, 0, 0, 0, 0, 0, 0, 0, 0, 0, 0, 0, 0, 0));
    printf(" %u", taperhive_replace(2, 0, 0, 0, 0, 0, 0, 0, 0, 0, 0));
    printf(" %u", taperhive_log(0, 0, 0, 0, 0, 0));
    printf(" %u", taperhive_log_write(0, 0, 0, 0, 0));
    printf(" %u", taperhive_log_trailer(0, 0, 0, 0));
    printf(" %u", taperhive_log_read(0, 0, 0, 0, 0));
    printf(" %u", taperhive_log_count(0, 0, 0, 0));
    printf(" %u\n", taperhive_match(0, 0, 0, 0));
    paint();
    printf("no queue: %u", taperhive_pair(2, 2, 0, 5, 1, 2, 3, 16, 9, 0, edges, 24, 0, 0, numbers, 8));
    printf(", refused %u\n", numbers[TAPERHIVE_NUMBER]);
}

int main(void)
{
    make_file();
    make_log();
    written();
    trailed();
    copied();
    counted();
    answered();
    all_answered();
    paired();
    ruled_out();
    walked();
    bounded();
    walked_by_bounds();
    replaced();
    logged();
    log_written();
    log_trailed();
    log_read();
    log_counted();
    matched();
    nothing_lent();
    return 0;
}
