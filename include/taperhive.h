/* Taperhive for a controller: pairs of a file, single pairs or two bodies of triangles, searched and
 * told in numbers, bodies with bounds kept beside them too; why a pair was safe at a moment and place;
 * query files, written; and answer files, written, read and matched with their queries.
 *
 * Build: tools/install PREFIX, then cc `pkg-config --cflags --libs taperhive`. README.md says more.
 *
 * Every function may be called with any bytes, any numbers and any lengths; nothing is left for the
 * caller to check first. Each returns 0, or the number of a refusal, and fails in no other way.
 *
 * MEMORY
 *   Lengths count elements, not bytes, and stand right behind their pointer. A pointer must reach as
 *   many elements. With length 0 nothing is read or written there, and it may be NULL.
 *   Pointers are aligned as C asks of their type; bytes stand anywhere.
 *   A buffer that a call may write must overlap no other of that call: the proofs assume it. Lists
 *   that are only read may be one and the same, as the two of a body that stands still.
 *   No function allocates, opens a file or keeps anything between calls.
 *   Stack: taperhive_why takes up to 46,000 bytes on x86-64 and 40,000 on Arm, the others 3,000 at
 *   most. (The frames that the library's code makes room for, taperhive_why's times its 61 levels.)
 *
 * THREADS
 *   Functions are reentrant: threads may call them at the same time, each with buffers of its own that
 *   are written. What is only read may be shared.
 *
 * BYTE ORDER
 *   Files are little-endian on every machine. Numbers handed over are the machine's own. The library
 *   is for x86-64 and 64-bit Arm Linux, both little-endian. On x86-64 it needs a processor of level
 *   x86-64-v2 (SSE4.2, POPCNT), and does not look whether it has one.
 *
 * TIME
 *   A query checks at most `budget` boxes, so a call at most that times its queries (the records of a
 *   file; fifteen for each two triangles), and a search clears the queue that it was lent. About 11 ns
 *   a box were measured on an Arm Neoverse-V1 (docs/BENCH.md). That is not promised.
 *
 * UNITS
 *   Lengths: 1/8 mm. t, u, v and a cap: 1/1,048,576 parts of the step and of the bodies.
 *
 * CAP
 *   How much of the step a pair is checked for: 0 the whole step, 1 to 1,048,576 a last moment. A
 *   record of editions 2 and 3 has it at byte 28; one of edition 1 has none, and is for the whole step.
 *
 * WHAT IS TOLD of a pair are eight numbers: id, word, t, u, v, excess, count, refusal number.
 *   word     TAPERHIVE_REFUSED, _MET, _CLEAR, _SPENT, _ROOM or _FLOOR. After _CLEAR there is no contact
 *            up to and including the cap; after the last four there is none before t, and t is not
 *            beyond the cap
 *   t, u, v  the recorded moment and place (0 for CLEAR and a refused pair)
 *   excess   how far F is beyond the separation there, on the axis where that is most, rounded up
 *   count    boxes checked
 *   refusal  1 to 7 or 22 for a refused pair, else 0
 * Numbers that an answer does not carry are 0.
 *
 * EDITIONS
 *   A file is of edition 1, 2 or 3, and says so itself; a call that reads one does not ask which.
 *     edition   a record    separation          coordinate                tolerance
 *     1         116 bytes   one for all axes    -1,048,576 to 1,048,576   16 to 1,048,576
 *     2         128 bytes   one for each axis   -1,048,576 to 1,048,576   16 to 1,048,576
 *     3         128 bytes   one for each axis   -2,097,152 to 2,097,152   64 to 1,048,576
 *   So 1 and 2 have the shorter range, 131 m each way from the origin, and 3 the longer, 262 m. 3 COORD
 *   and 5 TOLERANCE go by the edition of the record's file. Separation (0 to 65,536), budget (1 to
 *   1,000,000), cap (0 to 1,048,576) and queue (2 to 1,048,576 words) have one range in all editions.
 *   t, u and v that are told of edition 3 are even; a cap may be odd.
 *
 * REFUSALS OF A RECORD: the first that is due of 1, 2, 3, 4, 5, 6, 22 and, where it is searched, 7. So
 * 22 CAP, a cap above 1,048,576, stands behind 6 BUDGET and before 7 QUEUE. 2 FLAGS has no part in it.
 *
 * REFUSALS OF A FILE: 8 to 12, and 13 of the record number; 14 where fewer numbers are lent than are to
 * be told; the lowest. Then nothing that was lent is changed. taperhive_why gives more, said there. 10
 * is given where a file names none of the three editions, or one of the three bytes behind is not 0.
 */
#ifndef TAPERHIVE_H
#define TAPERHIVE_H

#include <stddef.h>
#include <stdint.h>

#define TAPERHIVE_VERSION "0.3.0"

#ifdef __cplusplus
extern "C" {
#endif

/* The words, and where a pair's numbers stand. */
enum {
    TAPERHIVE_REFUSED, TAPERHIVE_MET, TAPERHIVE_CLEAR, TAPERHIVE_SPENT, TAPERHIVE_ROOM,
    TAPERHIVE_FLOOR
};
enum {
    TAPERHIVE_ID, TAPERHIVE_WORD, TAPERHIVE_T, TAPERHIVE_U, TAPERHIVE_V, TAPERHIVE_EXCESS,
    TAPERHIVE_COUNT, TAPERHIVE_NUMBER, TAPERHIVE_TOLD
};

/* The refusals. docs/FORMAT.md says what to do about each. */
enum {
    TAPERHIVE_REFUSAL_KIND = 1, TAPERHIVE_REFUSAL_FLAGS, TAPERHIVE_REFUSAL_COORD,
    TAPERHIVE_REFUSAL_SEPARATION, TAPERHIVE_REFUSAL_TOLERANCE, TAPERHIVE_REFUSAL_BUDGET,
    TAPERHIVE_REFUSAL_QUEUE, TAPERHIVE_REFUSAL_SHORT, TAPERHIVE_REFUSAL_MARK,
    TAPERHIVE_REFUSAL_EDITION, TAPERHIVE_REFUSAL_COUNT, TAPERHIVE_REFUSAL_BACK,
    TAPERHIVE_REFUSAL_INDEX, TAPERHIVE_REFUSAL_SPACE,
    TAPERHIVE_REFUSAL_WORD = 16, TAPERHIVE_REFUSAL_MATCH = 17,
    TAPERHIVE_REFUSAL_BODY = 21, TAPERHIVE_REFUSAL_CAP = 22, TAPERHIVE_REFUSAL_OUTSIDE = 23,
    TAPERHIVE_REFUSAL_NOT_RULED_OUT = 24, TAPERHIVE_REFUSAL_BOUNDS = 27
};

/* Kinds of pairs, and the flag that negates y of the second body's points. */
enum { TAPERHIVE_VERTEX_FACE = 1, TAPERHIVE_EDGE_EDGE = 2 };
enum { TAPERHIVE_FLAG_TURNED = 1 };

/* The limits; those with a number are an edition's own. */
enum {
    TAPERHIVE_PARTS = 1048576,
    TAPERHIVE_MOST_COORDINATE = 1048576, TAPERHIVE_MOST_COORDINATE_3 = 2097152,
    TAPERHIVE_LEAST_TOLERANCE = 16, TAPERHIVE_LEAST_TOLERANCE_3 = 64,
    TAPERHIVE_MOST_TOLERANCE = 1048576,
    TAPERHIVE_MOST_SEPARATION = 65536,
    TAPERHIVE_MOST_BUDGET = 1000000,
    TAPERHIVE_MOST_CAP = 1048576,
    TAPERHIVE_LEAST_WORDS = 2, TAPERHIVE_MOST_WORDS = 1048576,
    TAPERHIVE_MOST_RECORDS = 4096,
    TAPERHIVE_MOST_TRIANGLES = 256
};

/* Sizes: a record's bytes, an answer's, a trailer's, a pair's points and a triangle's corners in
 * numbers. */
enum {
    TAPERHIVE_RECORD_BYTES_1 = 116, TAPERHIVE_RECORD_BYTES = 128, TAPERHIVE_ANSWER_BYTES = 32,
    TAPERHIVE_TRAILER_BYTES = 16, TAPERHIVE_POINTS = 24, TAPERHIVE_TRIANGLE = 9
};

/* Triangles of a block, numbers of its bound, and those of all bounds of a body: at most 48. */
enum { TAPERHIVE_BLOCK = 32, TAPERHIVE_BOUND = 6 };
#define TAPERHIVE_BOUNDS_LEN(count) ((size_t)6 * (((count) + 31) / 32))

/* Where taperhive_why tells what, its axes and its sides. */
enum {
    TAPERHIVE_WHY_LEVEL, TAPERHIVE_WHY_DEPTH_T, TAPERHIVE_WHY_DEPTH_U, TAPERHIVE_WHY_DEPTH_V,
    TAPERHIVE_WHY_BOX_T, TAPERHIVE_WHY_BOX_U, TAPERHIVE_WHY_BOX_V, TAPERHIVE_WHY_AXIS,
    TAPERHIVE_WHY_SIDE, TAPERHIVE_WHY_TOLD
};
enum { TAPERHIVE_X, TAPERHIVE_Y, TAPERHIVE_Z };
enum { TAPERHIVE_BELOW, TAPERHIVE_ABOVE };

/* Where taperhive_bodies and taperhive_walk tell what; the sum's high half stands behind its low half. */
enum {
    TAPERHIVE_BODIES_WORD, TAPERHIVE_BODIES_T, TAPERHIVE_BODIES_A, TAPERHIVE_BODIES_B,
    TAPERHIVE_BODIES_QUERY, TAPERHIVE_BODIES_EXCESS, TAPERHIVE_BODIES_COUNT,
    TAPERHIVE_BODIES_COUNT_HIGH, TAPERHIVE_BODIES_TOLD
};

/* Record n of the file. told's first eight numbers are written. The lent queue is as it was where the
 * record is refused, and all zero where it is answered; what it holds before does not matter. */
uint32_t taperhive_answer(const uint8_t *file, size_t file_len, size_t n,
                          uint64_t *queue, size_t queue_len, uint32_t *told, size_t told_len);

/* Every record of the file in order, eight numbers each, each as taperhive_answer tells it; a refused
 * record takes its eight numbers and the walk goes on. The queue is cleared once, not once a record: it
 * is all zero afterwards where some record was answered, and as it was where none was. */
uint32_t taperhive_answers(const uint8_t *file, size_t file_len,
                           uint64_t *queue, size_t queue_len, uint32_t *told, size_t told_len);

/* How many records the file has, into told[0]. */
uint32_t taperhive_count(const uint8_t *file, size_t file_len, uint32_t *told, size_t told_len);

/* One pair without a file, told as taperhive_answer tells a record, and the queue left as it does. The
 * edition says which range coordinates and tolerance have, and nothing else: with 1 too there are three
 * separations and a cap. points are 24 numbers: x, y, z of p, v1, v2, v3 or of p1, p2, p3, p4 at the
 * start, then of the same four at the end; of more the first 24 are read. Returns 0 for a refused pair
 * too, which is told with its 1 to 7 or 22. Else 10 where the edition is not 1, 2 or 3; then 14 where
 * there are fewer than 24 points' numbers or told has fewer than eight; and nothing lent is changed. */
uint32_t taperhive_pair(uint8_t edition, uint8_t kind, uint8_t flags, uint32_t id,
                        uint32_t dx, uint32_t dy, uint32_t dz,
                        uint32_t tolerance, uint32_t budget, uint32_t cap,
                        const int32_t *points, size_t points_len,
                        uint64_t *queue, size_t queue_len, uint32_t *told, size_t told_len);

/* Why record n of the file is safe at the moment t and the place u, v: the first box that the search
 * discarded on the way from the whole domain down to that point, one level at a time, always into the
 * half that holds it (the upper one on a boundary, except at 1). told's first nine numbers are written:
 * level, depths of t, u, v, indices of t, u, v, axis, side.
 *   A box of depth k and index i goes from i to i + 1 times 2^(20-k) parts, in each of t, u, v, in
 *   every edition; the level is the sum of the depths.
 *   Depths go to 20 and levels to 60 in editions 1 and 2, depths to 19 and levels to 57 in edition 3:
 *   there a box begins and ends at even parts. t, u, v asked for may be odd.
 *   axis    0 x, 1 y, 2 z: the first, x before y before z, on which the bodies are further apart than
 *           the separation all over the box
 *   side    0 below, 1 above: the side of the second body on which the first one is then
 * The lent queue is all zero then. Returns 0, or why nothing was told: 8 to 13 of the file and the
 * number, 1 to 6 and 22 of the record, 7 QUEUE, 23 OUTSIDE where the point is not in the domain (t, u,
 * v at most 1,048,576, and for vertex-face u + v too) or t is beyond the record's cap, 14 where told
 * has fewer than nine numbers, and then nothing lent is changed; last, 24 NOT RULED OUT where the
 * search answers that moment or an earlier one: told is as it was, and the queue is all zero, since the
 * search has used it. After CLEAR every point of the domain up to the cap has its box. */
uint32_t taperhive_why(const uint8_t *file, size_t file_len, size_t n,
                       uint32_t t, uint32_t u, uint32_t v,
                       uint64_t *queue, size_t queue_len, uint32_t *told, size_t told_len);

/* Two bodies of triangles, a gangway and a hull, in one call: fifteen queries for each triangle of A
 * with each of B (corners 1, 2, 3 of A with face B, those of B with face A, then edges 12, 23, 31 of A
 * each with 12, 23, 31 of B), pairs by A's triangle, then B's. Positions are nine numbers a triangle:
 * x, y, z of its corners 1, 2, 3, once at the start and once at the end of the step. Separations,
 * tolerance and budget are those of every query; there is no flag. The edition says which range
 * coordinates and tolerance have, as for taperhive_pair.
 * Each query takes the least time answered so far as its cap; until there is one it is asked for the
 * whole step. A time of 0 ends the walk at once: no query behind the one that answers it is asked.
 * told's first eight numbers are written: word, t, triangle of A, triangle of B, query, excess, and the
 * sum of the counts of the queries that were asked, with those caps, in two numbers, the low 32 bits
 * first.
 *   word CLEAR where all are clear; else the word of the least time's holder: the first query in order
 *   to answer that time. One behind it that answers it too does not take over
 *   t, excess    its own; triangles count from 0, queries from 1; all of them 0 for CLEAR
 *   in edition 3 t is even
 * No query has a contact before t, or at all after CLEAR. With a larger budget or queue a walk that was
 * SPENT or ROOM has other caps, and may answer an earlier t then.
 * The lent queue is all zero then. Returns 0, or why nothing was done and nothing lent was changed:
 * first 10 where the edition is not 1, 2 or 3; then 21 BODY where a body has not 1 to 256 triangles, or
 * some list not nine numbers a triangle; then the number 3 to 7 of the first refused query in order;
 * then 14 where told has fewer than eight numbers. */
uint32_t taperhive_bodies(uint8_t edition, uint32_t dx, uint32_t dy, uint32_t dz,
                          uint32_t tolerance, uint32_t budget,
                          size_t a_count, const int32_t *a_start, size_t a_start_len,
                          const int32_t *a_end, size_t a_end_len,
                          size_t b_count, const int32_t *b_start, size_t b_start_len,
                          const int32_t *b_end, size_t b_end_len,
                          uint64_t *queue, size_t queue_len, uint32_t *told, size_t told_len);

/* The bounds of a body, to be kept beside it for taperhive_walk: six numbers for every 32 triangles (0
 * to 31, 32 to 63 and so on; the last block may be short), least x, y, z, then greatest x, y, z, over
 * the corners of its triangles and a fourth one of each, corner 2 + corner 3 - corner 1, at the start
 * and at the end of the step. Positions and edition are those of taperhive_bodies. A bound may be three
 * times as far from the origin as a coordinate. Of bounds the first TAPERHIVE_BOUNDS_LEN(count) numbers
 * are written. Returns 0, or why nothing lent was changed: 10 where the edition is not 1, 2 or 3; 21
 * BODY where there are not 1 to 256 triangles, or some list has not nine numbers a triangle; 3 COORD
 * where some coordinate is outside the edition's range; 14 where fewer numbers are lent for bounds. */
uint32_t taperhive_bounds(uint8_t edition, size_t count, const int32_t *start, size_t start_len,
                          const int32_t *end, size_t end_len, int32_t *bounds, size_t bounds_len);

/* taperhive_bodies with the bounds of both bodies: what it tells is the same, number for number, the
 * sum of the counts too, and what it leaves of the queue. Where the bounds of two blocks are further
 * apart on some axis than that axis's separation, their triangles are passed over: they are not asked,
 * and counts one box for each query, as asking it would. So a far end of the hull costs next to
 * nothing, and what is near costs what it did.
 * Every call compares the bounds with the positions first. Returns 0, or why nothing was done and
 * nothing lent was changed: 10, 21 and 3 to 7 as taperhive_bodies gives them; then 27 BOUNDS where a
 * list of bounds is not exactly what taperhive_bounds writes for its body, and nothing behind it; then
 * 14 where told has fewer than eight numbers. */
uint32_t taperhive_walk(uint8_t edition, uint32_t dx, uint32_t dy, uint32_t dz,
                        uint32_t tolerance, uint32_t budget,
                        size_t a_count, const int32_t *a_start, size_t a_start_len,
                        const int32_t *a_end, size_t a_end_len,
                        const int32_t *a_bounds, size_t a_bounds_len,
                        size_t b_count, const int32_t *b_start, size_t b_start_len,
                        const int32_t *b_end, size_t b_end_len,
                        const int32_t *b_bounds, size_t b_bounds_len,
                        uint64_t *queue, size_t queue_len, uint32_t *told, size_t told_len);

/* Triangle n of a body, counted from 0, replaced by another: corners are eighteen numbers, its nine at
 * the start and its nine at the end. The bound of its block is worked out again. Nothing else is
 * changed, and no other block is looked at: bounds that were exact are exact afterwards, and one of
 * another block that was not stays as it was. Returns 0, or why nothing was changed: 10 where the
 * edition is not 1, 2 or 3; 21 BODY as taperhive_bounds gives it, and where corners are not eighteen
 * numbers; 13 INDEX where n is not below the count; 3 COORD where a coordinate of the new triangle, or
 * of another one of its block, is outside the edition's range; 27 BOUNDS where bounds has not
 * TAPERHIVE_BOUNDS_LEN(count) numbers.
 * start, end and bounds are three lists of their own, also of a body that stands still, and corners
 * stand in none of them. */
uint32_t taperhive_replace(uint8_t edition, size_t count, int32_t *start, size_t start_len,
                           int32_t *end, size_t end_len, int32_t *bounds, size_t bounds_len,
                           size_t n, const int32_t *corners, size_t corners_len);

/* A record from numbers, written from place `at` of out on, in edition 1, 2 or 3: 116, 128, 128 bytes,
 * and no other byte is changed. points and cap are those of taperhive_pair. Returns 0, or why nothing
 * was done and no byte was changed: first 14 where there are fewer than 24 points' numbers; then 1 to 6
 * and 22 of the record in that edition (4 for edition 1 also where the three separations differ, 22 for
 * edition 1 also where the cap is not 0, since its record has no place for one); 10 for another edition
 * (up to there it has the shorter range); 14 where fewer bytes than the record's stand from that place
 * on, a place past the end included. */
uint32_t taperhive_write(uint8_t *out, size_t out_len, size_t at, uint8_t edition,
                         uint8_t kind, uint8_t flags, uint32_t id,
                         uint32_t dx, uint32_t dy, uint32_t dz,
                         uint32_t tolerance, uint32_t budget, uint32_t cap,
                         const int32_t *points, size_t points_len);

/* Record n of a file, written into another buffer from place `at` on, in edition 1, 2 or 3. Returns 0,
 * or why nothing was done and no byte was changed: 8 to 13 of the file and the number, 1 to 6 and 22 of
 * the record in the file's edition, then 1 to 6 and 22 of it in the edition to write (3 and 5 by that
 * range; for edition 1 also 4 where the three separations differ and 22 where the cap is not 0), then
 * 10 and 14 as taperhive_write gives them. */
uint32_t taperhive_copy(const uint8_t *file, size_t file_len, size_t n, uint8_t edition,
                        uint8_t *out, size_t out_len, size_t at);

/* The 16 bytes of a query file's trailer from place `at` on, behind so many records of that edition.
 * Returns 0, or 10, 11, 12 (fewer bytes before the place than the records take), 14, and no byte is
 * changed. */
uint32_t taperhive_trailer(uint8_t *out, size_t out_len, size_t at, uint8_t edition, uint32_t count);

/* THE ANSWER FILE keeps what the records of a query file were answered: an answer is 32 bytes, the
 * eight numbers that are told of a pair, and a trailer with the mark AEND ends the file
 * (docs/FORMAT.md). What is written reads back as it was; every answer that this library tells can be
 * written. The refusals of a file are 8 to 13, as of a query file, with 32 bytes a record and edition 1.
 *   16 WORD    eight numbers that are no answer: the word is above 5; t, u or v is above 1,048,575; the
 *              count of a word other than 0 is 0 or above 1,000,000; word 0 has refusal number 0; or a
 *              number that the word does not use is not 0. Word 0 uses its refusal number alone, CLEAR
 *              its count alone, the others all but the refusal number
 *   17 MATCH   counts or ids differ */

/* The records of a query file in order, answered into a whole answer file from out's first byte on: 32
 * bytes for each and 16 behind them, and no other byte is changed. A refused record takes its 32 bytes
 * too. The queue is left as taperhive_answers leaves it. Returns 0, or 8 to 12 of the query file, then
 * 14 where out has too few bytes, and nothing lent is changed. */
uint32_t taperhive_log(const uint8_t *file, size_t file_len,
                       uint64_t *queue, size_t queue_len, uint8_t *out, size_t out_len);

/* An answer from told's first eight numbers, written from place `at` of out on. Returns 0, or why no
 * byte was changed: 14 where told has fewer than eight numbers, then 16, then 14 where fewer than 32
 * bytes stand from that place on, a place past the end included. */
uint32_t taperhive_log_write(uint8_t *out, size_t out_len, size_t at,
                             const uint32_t *told, size_t told_len);

/* The 16 bytes of an answer file's trailer from place `at` on, behind so many answers. Returns 0, or
 * 11, 12 (fewer bytes before the place than the answers take), 14, and no byte is changed. */
uint32_t taperhive_log_trailer(uint8_t *out, size_t out_len, size_t at, uint32_t count);

/* Answer n of an answer file, from 0 on, into told's first eight numbers. Returns 0, or 8 to 13, then
 * 16, then 14 where told has fewer than eight numbers, and nothing is told. */
uint32_t taperhive_log_read(const uint8_t *log, size_t log_len, size_t n,
                            uint32_t *told, size_t told_len);

/* How many answers an answer file has, into told[0]. Returns 0, or 8 to 12, then 14. */
uint32_t taperhive_log_count(const uint8_t *log, size_t log_len, uint32_t *told, size_t told_len);

/* Whether an answer file goes with a query file: as many answers as records, and the same ids in order.
 * Nothing else of them is looked at, so a query that is refused, or an answer that reading refuses,
 * matches by its id too. Returns 0 where they match; else 8 to 12 of the query file, 8 to 12 of the
 * answer file, then 17. */
uint32_t taperhive_match(const uint8_t *file, size_t file_len, const uint8_t *log, size_t log_len);

#ifdef __cplusplus
}
#endif
#endif
