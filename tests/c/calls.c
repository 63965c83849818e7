/*
 * Calls the library from C: what each status leaves, texts, arrays that are NULL, refused allocations, threads, and many calls. Prints a line
 * for each test that fails, and last 'N passed, M failed'.
 *
 * It is linked with --wrap for malloc, realloc and free, so that it can count blocks and refuse them. With an argument N it makes N calls of
 * two squares more.
 */
#include "polygon_c64.h"

#include <pthread.h>
#include <stdio.h>
#include <stdlib.h>
#include <string.h>

#define LENGTH(array) (sizeof(array) / sizeof(array)[0])

static int passed, failed;

static void test(int holds, const char *name) {
    if (holds) {
        passed++;
    } else {
        failed++;
        printf("not as it must be: %s\n", name);
    }
}

/* ---- the heap, which can refuse */

void *__real_malloc(size_t size);
void *__real_realloc(void *block, size_t size);
void __real_free(void *block);
void *__wrap_malloc(size_t size);
void *__wrap_realloc(void *block, size_t size);
void __wrap_free(void *block);

static long blocks, asked, refused;
static int is_counting;

/* Whether this request is to be refused. */
static int is_refused(void) { return is_counting && ++asked == refused; }

void *__wrap_malloc(size_t size) {
    void *block = is_refused() ? NULL : __real_malloc(size);
    blocks += is_counting && block != NULL;
    return block;
}

void *__wrap_realloc(void *block, size_t size) {
    void *new;
    if (is_refused()) {
        return NULL;
    }
    new = __real_realloc(block, size);
    blocks += is_counting && block == NULL && new != NULL;
    return new;
}

void __wrap_free(void *block) {
    blocks -= is_counting && block != NULL;
    __real_free(block);
}

/* ---- what is given, and where the answer goes */

static const polygon_c_point SQUARES[] = {{0, 0}, {10, 0}, {10, 10}, {0, 10}, {20, 0}, {30, 0}, {30, 10}, {20, 10}};
static const polygon_c_point POND[] = {{3, 3}, {7, 3}, {7, 7}, {3, 7}};
static const size_t FOURS[] = {4, 4};

static const polygon_c_contours ONE = {SQUARES, 4, FOURS, 1}, TWO = {SQUARES, 8, FOURS, 2}, HOLE = {POND, 4, FOURS, 1};
static const polygon_c_contours NONE = {NULL, 0, NULL, 0};

/* The numbers of the edges of such squares, a bit for each edge: below, right, above, left. */
static const uint64_t BITS[] = {1, 2, 4, 8, 16, 32, 64, 128};

typedef struct {
    polygon_c_point points[24];
    size_t contours[6], shapes[5];
    polygon_c_link links[4];
} Room;

/* Room of this size, each byte of it told by where it stands. */
static polygon_c_shapes with_room(Room *room, size_t points, size_t contours, size_t shapes) {
    polygon_c_shapes answer;
    size_t at;
    for (at = 0; at < sizeof *room; at++) {
        ((unsigned char *)room)[at] = (unsigned char)(at * 7 + 1);
    }
    answer.points = room->points;
    answer.points_room = points;
    answer.contours = room->contours;
    answer.contours_room = contours;
    answer.shapes = room->shapes;
    answer.shapes_room = shapes;
    answer.sizes.points = answer.sizes.contours = answer.sizes.shapes = 12345;
    return answer;
}

/* Whether nothing of the room was written from these places on. */
static int is_left(const Room *room, size_t points, size_t contours, size_t shapes, size_t links) {
    Room before;
    with_room(&before, 0, 0, 0);
    return !memcmp(room->points + points, before.points + points, sizeof before.points - points * sizeof *before.points) &&
           !memcmp(room->contours + contours, before.contours + contours, sizeof before.contours - contours * sizeof *before.contours) &&
           !memcmp(room->shapes + shapes, before.shapes + shapes, sizeof before.shapes - shapes * sizeof *before.shapes) &&
           !memcmp(room->links + links, before.links + links, sizeof before.links - links * sizeof *before.links);
}

static int are_sizes(polygon_c_sizes sizes, size_t points, size_t contours, size_t shapes) {
    return sizes.points == points && sizes.contours == contours && sizes.shapes == shapes;
}

/* Whether the answer is the square without the pond. */
static int is_holed(const polygon_c_shapes *answer) {
    static const polygon_c_point WANTED[] = {{0, 10}, {0, 0}, {10, 0}, {10, 10}, {3, 3}, {3, 7}, {7, 7}, {7, 3}};
    return are_sizes(answer->sizes, 8, 2, 1) && !memcmp(answer->points, WANTED, sizeof WANTED) && answer->contours[0] == 4 &&
           answer->contours[1] == 4 && answer->shapes[0] == 2;
}

static polygon_c_query query_of(uint32_t rule, uint32_t fill) {
    polygon_c_query query;
    memset(&query, 0, sizeof query);
    query.rule = rule;
    query.fill = fill;
    return query;
}

/* ---- statuses */

/* Arrays for paths in the room. */
static polygon_c_paths for_paths(Room *room, size_t points, size_t lengths) {
    polygon_c_paths answer;
    answer.points = room->points;
    answer.points_room = points;
    answer.lengths = room->contours;
    answer.lengths_room = lengths;
    answer.sizes.points = answer.sizes.contours = answer.sizes.shapes = 12345;
    return answer;
}

/* Whether this is refused so, by each of seven calls, and everything left as it was. */
static int refuses(uint32_t status, polygon_c_contours subject, polygon_c_contours clip, polygon_c_query query) {
    Room room;
    polygon_c_shapes answer = with_room(&room, LENGTH(room.points), LENGTH(room.contours), LENGTH(room.shapes));
    polygon_c_paths paths = for_paths(&room, LENGTH(room.points), LENGTH(room.contours));
    polygon_c_link_sizes sizes = {1, 2, 3, 4};
    polygon_c_many_sizes many = {9, 9, 9, 9};
    polygon_c_relations relations;
    size_t groups = clip.lengths_len;
    uint64_t numbers[2] = {9, 9};
    int is_so = polygon_overlay(&subject, &clip, &query, &answer) == status;
    is_so = is_so && polygon_hierarchy(&subject, &clip, &query, &answer, room.links, LENGTH(room.links), &sizes) == status;
    is_so = is_so && sizes.points == 1 && sizes.contours == 2 && sizes.shapes == 3 && sizes.links == 4;
    memset(&relations, 9, sizeof relations);
    is_so = is_so && polygon_relate(&subject, &clip, &query, &relations) == status && relations.intersects == 9 && relations.covers == 9;
    is_so = is_so && polygon_slice(&subject, &clip, &query, &answer) == status && polygon_clip(&subject, &clip, &query, &paths) == status;
    is_so = is_so && polygon_overlays(&subject, &clip, &groups, 1, &query, &answer, room.shapes, 0, &many) == status && many.overlays == 9;
    is_so = is_so && polygon_overlay_edges(&subject, BITS, &clip, BITS, POLYGON_C_JOIN_OR, &query, &answer, numbers, 2) == status && numbers[0] == 9;
    return is_so && are_sizes(answer.sizes, 12345, 12345, 12345) && are_sizes(paths.sizes, 12345, 12345, 12345) && is_left(&room, 0, 0, 0, 0);
}

static void statuses(void) {
    polygon_c_query query = query_of(POLYGON_C_DIFFERENCE, POLYGON_C_NONZERO), other;
    polygon_c_contours bad;
    polygon_c_point far[4];
    size_t odd[2];
    int32_t ends[4] = {-524289, 524288, -524288, 524287};
    int at;

    other = query, other.rule = 7;
    test(refuses(POLYGON_C_RULE, ONE, HOLE, other), "rule 7");
    other.fill = 9, other.strategy = 9, other.precision = 9;
    bad = ONE, bad.points_len = 3;
    test(refuses(POLYGON_C_RULE, bad, HOLE, other), "a rule before all else");
    other.rule = 6;
    test(refuses(POLYGON_C_FILL, bad, HOLE, other), "a fill before a strategy");
    other.fill = 0;
    test(refuses(POLYGON_C_STRATEGY, bad, HOLE, other), "a strategy before a precision");
    other.strategy = 3;
    test(refuses(POLYGON_C_PRECISION, bad, HOLE, other), "a precision before lengths");
    other.precision = 5;
    test(refuses(POLYGON_C_LENGTHS, bad, HOLE, other), "lengths of the subject");
    test(refuses(POLYGON_C_LENGTHS, HOLE, bad, other), "lengths of the clip");
    other = query, other.fill = 5;
    test(refuses(POLYGON_C_FILL, ONE, HOLE, other), "fill 5");
    other.fill = POLYGON_C_ATLEAST, other.depth = 0;
    test(refuses(POLYGON_C_FILL, ONE, HOLE, other), "depth 0");
    other.depth = -2147483647 - 1;
    test(refuses(POLYGON_C_FILL, ONE, HOLE, other), "the least depth");
    other = query, other.strategy = 4;
    test(refuses(POLYGON_C_STRATEGY, ONE, HOLE, other), "strategy 4");
    other = query, other.precision = 6;
    test(refuses(POLYGON_C_PRECISION, ONE, HOLE, other), "precision 6");

    odd[0] = (size_t)-1, odd[1] = 5;
    bad = ONE, bad.lengths = odd, bad.lengths_len = 2;
    test(refuses(POLYGON_C_LENGTHS, bad, HOLE, query), "lengths that wrap to the number of points");
    odd[0] = 3, bad.lengths_len = 1;
    test(refuses(POLYGON_C_LENGTHS, bad, HOLE, query), "a length too short");
    bad = ONE, bad.lengths_len = 0;
    test(refuses(POLYGON_C_LENGTHS, bad, HOLE, query), "no lengths");
    bad = ONE, bad.points = NULL;
    test(refuses(POLYGON_C_LENGTHS, bad, HOLE, query), "points at NULL");
    bad = ONE, bad.lengths = NULL;
    test(refuses(POLYGON_C_LENGTHS, HOLE, bad, query), "lengths at NULL");
    other = query, other.rule = 7;
    test(refuses(POLYGON_C_LENGTHS, bad, HOLE, other) && refuses(POLYGON_C_LENGTHS, HOLE, bad, other), "lengths at NULL before a rule");
    bad = ONE, bad.points = NULL;
    test(refuses(POLYGON_C_LENGTHS, bad, HOLE, other) && refuses(POLYGON_C_LENGTHS, HOLE, bad, other), "points at NULL before a rule");

    for (at = 0; at < 8; at++) {
        memcpy(far, POND, sizeof far);
        if (at % 2) {
            far[at / 2].x = ends[at / 4];
        } else {
            far[at / 2].y = ends[at / 4];
        }
        bad = HOLE, bad.points = far;
        test(refuses(POLYGON_C_RANGE, bad, ONE, query), "a subject out of range");
        test(refuses(POLYGON_C_RANGE, ONE, bad, query), "a clip out of range");
    }
}

/* ---- answers */

static void answers(void) {
    polygon_c_query query = query_of(POLYGON_C_DIFFERENCE, POLYGON_C_NONZERO);
    polygon_c_link_sizes sizes;
    polygon_c_shapes answer;
    Room room;
    size_t points, contours, shapes, links;
    polygon_c_point whole[4] = {{-524288, -524288}, {524287, -524288}, {524287, 524287}, {-524288, 524287}};
    polygon_c_contours largest = {NULL, 4, FOURS, 1};

    answer = with_room(&room, LENGTH(room.points), LENGTH(room.contours), LENGTH(room.shapes));
    test(polygon_overlay(&ONE, &HOLE, &query, &answer) == POLYGON_C_OK && is_holed(&answer), "a square without a pond");
    test(is_left(&room, 8, 2, 1, 0), "what lies behind an answer");
    answer = with_room(&room, 8, 2, 1);
    test(polygon_overlay(&ONE, &HOLE, &query, &answer) == POLYGON_C_OK && is_holed(&answer) && is_left(&room, 8, 2, 1, 0), "just enough room");
    for (points = 7; points <= 8; points++) {
        for (contours = 1; contours <= 2; contours++) {
            for (shapes = 0; shapes <= 1; shapes++) {
                if (points < 8 || contours < 2 || shapes < 1) {
                    answer = with_room(&room, points, contours, shapes);
                    test(polygon_overlay(&ONE, &HOLE, &query, &answer) == POLYGON_C_ROOM && are_sizes(answer.sizes, 8, 2, 1) &&
                             is_left(&room, 0, 0, 0, 0),
                         "one element too few");
                }
            }
        }
    }
    answer = with_room(&room, 0, 0, 0);
    answer.points = NULL, answer.contours = NULL, answer.shapes = NULL;
    test(polygon_overlay(&ONE, &HOLE, &query, &answer) == POLYGON_C_ROOM && are_sizes(answer.sizes, 8, 2, 1), "no room at NULL");
    test(polygon_overlay(&NONE, &NONE, &query, &answer) == POLYGON_C_OK && are_sizes(answer.sizes, 0, 0, 0), "nothing at NULL");
    answer.points_room = 1;
    test(polygon_overlay(&ONE, &HOLE, &query, &answer) == POLYGON_C_LENGTHS, "room at NULL");

    answer = with_room(&room, LENGTH(room.points), LENGTH(room.contours), LENGTH(room.shapes));
    query.rule = POLYGON_C_UNION;
    test(polygon_overlay(&TWO, &NONE, &query, &answer) == POLYGON_C_OK && are_sizes(answer.sizes, 8, 2, 2), "two squares");
    query.rule = POLYGON_C_SUBJECT, query.clockwise = 1;
    test(polygon_overlay(&ONE, &NONE, &query, &answer) == POLYGON_C_OK && are_sizes(answer.sizes, 4, 1, 1) && answer.points[0].x == 0 &&
             answer.points[0].y == 0 && answer.points[1].x == 0 && answer.points[1].y == 10,
         "clockwise");
    query.clockwise = 0, query.least_area = 101;
    test(polygon_overlay(&ONE, &NONE, &query, &answer) == POLYGON_C_OK && are_sizes(answer.sizes, 0, 0, 0), "no square of area 101");
    query.least_area = 100;
    test(polygon_overlay(&ONE, &NONE, &query, &answer) == POLYGON_C_OK && are_sizes(answer.sizes, 4, 1, 1), "a square of area 100");
    largest.points = whole, query.least_area = 0;
    test(polygon_overlay(&largest, &ONE, &query, &answer) == POLYGON_C_OK && are_sizes(answer.sizes, 4, 1, 1) &&
             answer.points[3].x == 524287,
         "the ends of the range");

    /* (an island in the pond) */
    {
        static const polygon_c_point ISLAND[] = {{0, 0}, {10, 0}, {10, 10}, {0, 10}, {2, 2}, {2, 8}, {8, 8}, {8, 2}, {4, 4}, {6, 4}, {6, 6}, {4, 6}};
        static const size_t LENGTHS[] = {4, 4, 4};
        const polygon_c_contours islands = {ISLAND, 12, LENGTHS, 3};
        query.rule = POLYGON_C_SUBJECT, query.fill = POLYGON_C_EVENODD;
        for (links = 0; links <= 1; links++) {
            answer = with_room(&room, 12, 3, 2);
            memset(&sizes, 0, sizeof sizes);
            test(polygon_hierarchy(&islands, &NONE, &query, &answer, room.links, links, &sizes) == (links ? POLYGON_C_OK : POLYGON_C_ROOM) &&
                     sizes.points == 12 && sizes.contours == 3 && sizes.shapes == 2 && sizes.links == 1 && are_sizes(answer.sizes, 12, 3, 2),
                 "an island in a pond");
            test(links ? room.links[0].parent_shape == 0 && room.links[0].parent_contour == 1 && room.links[0].child_shape == 1 &&
                             room.shapes[0] == 2 && room.shapes[1] == 1 && is_left(&room, 12, 3, 2, 1)
                       : is_left(&room, 0, 0, 0, 0),
                 "the link of an island");
        }
    }
}

static void tiles(void) {
    static const size_t GROUPS[] = {1, 0, 1}, SHORT[] = {1, 0};
    static const size_t COUNTS[] = {1, 0, 1};
    polygon_c_query query = query_of(POLYGON_C_INTERSECT, POLYGON_C_NONZERO);
    polygon_c_many_sizes sizes;
    polygon_c_shapes answer;
    Room room;
    size_t overlays[4] = {7, 7, 7, 7};

    answer = with_room(&room, LENGTH(room.points), LENGTH(room.contours), LENGTH(room.shapes));
    test(polygon_overlays(&HOLE, &TWO, SHORT, 2, &query, &answer, overlays, 4, &sizes) == POLYGON_C_LENGTHS && is_left(&room, 0, 0, 0, 0),
         "a clip of no group");
    test(polygon_overlays(&TWO, &TWO, GROUPS, 3, &query, &answer, overlays, 2, &sizes) == POLYGON_C_ROOM && sizes.overlays == 3 &&
             sizes.points == 8 && sizes.contours == 2 && sizes.shapes == 2 && overlays[0] == 7 && is_left(&room, 0, 0, 0, 0),
         "no room for an overlay");
    test(polygon_overlays(&TWO, &TWO, GROUPS, 3, &query, &answer, overlays, 4, &sizes) == POLYGON_C_OK && sizes.overlays == 3 &&
             !memcmp(overlays, COUNTS, sizeof COUNTS) && overlays[3] == 7 && are_sizes(answer.sizes, 8, 2, 2) && room.points[0].x == 0 &&
             room.points[4].x == 20 && is_left(&room, 8, 2, 2, 0),
         "three tiles");
    test(polygon_overlays(&TWO, &NONE, NULL, 0, &query, &answer, NULL, 0, &sizes) == POLYGON_C_OK && sizes.overlays == 0, "no tiles");
}

/* Whether contours of edges with numbers are answered as this one contour, with these numbers. */
static int is_carried(const polygon_c_contours *subject, const polygon_c_contours *clip, const uint64_t *clip_numbers, uint32_t join, uint32_t rule,
                      const polygon_c_point *points, const uint64_t *wanted, size_t length) {
    polygon_c_query query = query_of(rule, POLYGON_C_NONZERO);
    uint64_t numbers[24] = {0};
    Room room;
    polygon_c_shapes answer = with_room(&room, LENGTH(room.points), LENGTH(room.contours), LENGTH(room.shapes));
    numbers[length] = 77;
    return polygon_overlay_edges(subject, BITS, clip, clip_numbers, join, &query, &answer, numbers, LENGTH(numbers)) == POLYGON_C_OK &&
           are_sizes(answer.sizes, length, 1, 1) && room.contours[0] == length && room.shapes[0] == 1 && is_left(&room, length, 1, 1, 0) &&
           !memcmp(room.points, points, length * sizeof *points) && !memcmp(numbers, wanted, length * sizeof *wanted) && numbers[length] == 77;
}

/* Edges with numbers: a square, another over its right half, the same square once more, and one beside it. */
static void edges(void) {
    static const polygon_c_point OVER[] = {{5, 0}, {15, 0}, {15, 10}, {5, 10}};
    static const polygon_c_point BESIDE[] = {{0, 0}, {10, 0}, {10, 10}, {0, 10}, {10, 0}, {20, 0}, {20, 10}, {10, 10}};
    static const polygon_c_point LONG[] = {{0, 10}, {0, 0}, {5, 0}, {10, 0}, {15, 0}, {15, 10}, {10, 10}, {5, 10}};
    static const polygon_c_point LEFT[] = {{0, 10}, {0, 0}, {5, 0}, {5, 10}}, SAME[] = {{0, 10}, {0, 0}, {10, 0}, {10, 10}};
    static const polygon_c_point BOTH[] = {{0, 0}, {20, 0}, {20, 10}, {0, 10}};
    static const uint64_t OTHER[] = {16, 32, 64, 128}, NEAR[] = {5, 2, 6, 9};
    static const uint64_t LONG_BITS[] = {8, 1, 17, 16, 32, 64, 68, 4}, LONG_LEAST[] = {8, 1, 1, 16, 32, 64, 4, 4}, LEFT_BITS[] = {8, 1, 128, 4};
    static const uint64_t SAME_BITS[] = {9, 5, 2, 6}, SAME_LEAST[] = {8, 1, 2, 4};
    static const uint64_t TOUCHING[] = {1, 2, 4, 8, 1, 32, 4, 128}, BOTH_BITS[] = {1, 32, 4, 8};
    static const uint64_t WHOLE[] = {8, 1, 2, 4, 128, 64, 32, 16};
    const polygon_c_contours over = {OVER, 4, FOURS, 1}, beside = {BESIDE, 8, FOURS, 2};
    polygon_c_query query = query_of(POLYGON_C_DIFFERENCE, POLYGON_C_NONZERO);
    polygon_c_contours bad = ONE;
    polygon_c_point far[4] = {{0, 0}, {524288, 0}, {1, 1}, {0, 1}};
    uint64_t numbers[24], wide[24], high[4] = {0, UINT64_MAX, 1, 0};
    Room room;
    polygon_c_words words;
    polygon_c_shapes answer = with_room(&room, 8, 2, 1);

    test(polygon_overlay_edges(&ONE, BITS, &HOLE, OTHER, POLYGON_C_JOIN_KEPT, &query, &answer, numbers, 8) == POLYGON_C_OK && is_holed(&answer) &&
             is_left(&room, 8, 2, 1, 0) && !memcmp(numbers, WHOLE, sizeof WHOLE),
         "the edges of a square without a pond");
    test(is_carried(&ONE, &over, OTHER, POLYGON_C_JOIN_OR, POLYGON_C_UNION, LONG, LONG_BITS, 8), "bits of two edges on a line");
    test(is_carried(&ONE, &over, OTHER, POLYGON_C_JOIN_LEAST, POLYGON_C_UNION, LONG, LONG_LEAST, 8), "the least of two edges on a line");
    test(is_carried(&ONE, &over, OTHER, POLYGON_C_JOIN_KEPT, POLYGON_C_DIFFERENCE, LEFT, LEFT_BITS, 4), "numbers that differ where nothing is answered");
    test(is_carried(&ONE, &ONE, NEAR, POLYGON_C_JOIN_OR, POLYGON_C_INTERSECT, SAME, SAME_BITS, 4), "bits of equal squares");
    test(is_carried(&ONE, &ONE, NEAR, POLYGON_C_JOIN_LEAST, POLYGON_C_UNION, SAME, SAME_LEAST, 4), "the least of equal squares");
    test(is_carried(&ONE, &ONE, BITS, POLYGON_C_JOIN_KEPT, POLYGON_C_UNION, SAME, SAME_LEAST, 4), "numbers that are alike");
    query.rule = POLYGON_C_SUBJECT;
    answer = with_room(&room, 24, 6, 5);
    test(polygon_overlay_edges(&beside, TOUCHING, &NONE, NULL, POLYGON_C_JOIN_KEPT, &query, &answer, numbers, 24) == POLYGON_C_OK &&
             are_sizes(answer.sizes, 4, 1, 1) && !memcmp(room.points, BOTH, sizeof BOTH) && !memcmp(numbers, BOTH_BITS, sizeof BOTH_BITS),
         "edges on a line whose numbers are alike");

    query.rule = POLYGON_C_UNION;
    memset(wide, 9, sizeof wide);
    memcpy(numbers, wide, sizeof numbers);
    answer = with_room(&room, 24, 6, 5);
    test(polygon_overlay_edges(&ONE, BITS, &over, OTHER, POLYGON_C_JOIN_KEPT, &query, &answer, numbers, 24) == POLYGON_C_JOIN, "numbers that differ");
    test(polygon_overlay_edges(&ONE, BITS, &over, OTHER, 3, &query, &answer, numbers, 24) == POLYGON_C_JOIN, "join 3");
    bad.points = far, words = polygon_c_words_of(&query);
    test(polygon_overlay_edges(&bad, BITS, &over, OTHER, 3, &query, &answer, numbers, 24) == POLYGON_C_RANGE, "a far point before a join");
    test(polygon_overlay_edges(&ONE, NULL, &over, OTHER, 0, &query, &answer, numbers, 24) == POLYGON_C_LENGTHS &&
             polygon_overlay_edges(&ONE, BITS, &over, NULL, 0, &query, &answer, numbers, 24) == POLYGON_C_LENGTHS &&
             polygon_overlay_edges(&ONE, BITS, &over, OTHER, 0, &query, &answer, NULL, 24) == POLYGON_C_LENGTHS,
         "numbers at NULL");
    test(polygon_c_overlay_edges(SQUARES, 4, FOURS, 1, BITS, 3, OVER, 4, FOURS, 1, OTHER, 4, 3, words.all, 13, room.points, 24, room.contours, 6,
                                 room.shapes, 5, numbers, 24, &answer.sizes) == POLYGON_C_LENGTHS,
         "a number too few, before a join");
    test(polygon_c_overlay_edges(SQUARES, 4, FOURS, 1, BITS, 4, OVER, 4, FOURS, 1, OTHER, 3, 0, words.all, 13, room.points, 24, room.contours, 6,
                                 room.shapes, 5, numbers, 24, &answer.sizes) == POLYGON_C_LENGTHS,
         "a number of the clip too few");
    test(are_sizes(answer.sizes, 12345, 12345, 12345) && is_left(&room, 0, 0, 0, 0) && !memcmp(numbers, wide, sizeof numbers), "refused edges");
    test(polygon_overlay_edges(&ONE, BITS, &over, OTHER, 0, &query, &answer, numbers, 7) == POLYGON_C_ROOM && are_sizes(answer.sizes, 8, 1, 1) &&
             is_left(&room, 0, 0, 0, 0) && !memcmp(numbers, wide, sizeof numbers),
         "no room for a number");
    test(polygon_overlay_edges(&ONE, high, &NONE, NULL, POLYGON_C_JOIN_LEAST, &query, &answer, numbers, 4) == POLYGON_C_OK && numbers[2] == UINT64_MAX,
         "the greatest number");
    test(polygon_overlay_edges(&NONE, NULL, &NONE, NULL, 0, &query, &answer, NULL, 0) == POLYGON_C_OK && are_sizes(answer.sizes, 0, 0, 0), "no edges");
}

static void lines(void) {
    static const polygon_c_point ROADS[] = {{5, -1}, {5, 11}, {-5, 5}, {15, 5}};
    static const size_t TWOS[] = {2, 2};
    static const polygon_c_point HALVES[] = {{0, 10}, {0, 0}, {5, 0}, {5, 10}, {5, 10}, {5, 0}, {10, 0}, {10, 10}};
    static const polygon_c_point INSIDE[] = {{0, 5}, {10, 5}};
    const polygon_c_contours across = {ROADS, 2, TWOS, 1}, along = {ROADS + 2, 2, TWOS, 1};
    polygon_c_query query = query_of(POLYGON_C_SUBJECT, POLYGON_C_NONZERO);
    polygon_c_shapes answer;
    polygon_c_paths paths;
    Room room;

    answer = with_room(&room, 8, 2, 2);
    test(polygon_slice(&ONE, &across, &query, &answer) == POLYGON_C_OK && are_sizes(answer.sizes, 8, 2, 2) &&
             !memcmp(room.points, HALVES, sizeof HALVES) && room.contours[0] == 4 && room.contours[1] == 4 && room.shapes[0] == 1 &&
             room.shapes[1] == 1 && is_left(&room, 8, 2, 2, 0),
         "two halves");
    answer = with_room(&room, 8, 2, 1);
    test(polygon_slice(&ONE, &across, &query, &answer) == POLYGON_C_ROOM && are_sizes(answer.sizes, 8, 2, 2) && is_left(&room, 0, 0, 0, 0),
         "no room for a half");
    with_room(&room, 0, 0, 0);
    paths = for_paths(&room, 2, 1);
    test(polygon_clip(&ONE, &along, &query, &paths) == POLYGON_C_OK && are_sizes(paths.sizes, 2, 1, 0) &&
             !memcmp(room.points, INSIDE, sizeof INSIDE) && room.contours[0] == 2 && is_left(&room, 2, 1, 0, 0),
         "a road inside");
    query.clip_outside = 1;
    with_room(&room, 0, 0, 0);
    paths = for_paths(&room, 4, 1);
    test(polygon_clip(&ONE, &along, &query, &paths) == POLYGON_C_ROOM && are_sizes(paths.sizes, 4, 2, 0) && is_left(&room, 0, 0, 0, 0),
         "no room for what is outside");
    paths = for_paths(&room, 4, 2);
    test(polygon_clip(&ONE, &along, &query, &paths) == POLYGON_C_OK && are_sizes(paths.sizes, 4, 2, 0) && room.points[0].x == -5 &&
             room.points[3].x == 15,
         "a road outside");
    paths.points = NULL, paths.points_room = 0, paths.lengths = NULL, paths.lengths_room = 0;
    test(polygon_clip(&ONE, &NONE, &query, &paths) == POLYGON_C_OK && are_sizes(paths.sizes, 0, 0, 0), "no road");
}

static void relations(void) {
    polygon_c_query query = query_of(POLYGON_C_SUBJECT, POLYGON_C_NONZERO);
    polygon_c_relations told;
    test(polygon_relate(&HOLE, &ONE, &query, &told) == POLYGON_C_OK && told.within == 1 && told.covers == 0 && told.intersects == 1 &&
             told.interiors_intersect == 1 && told.touches == 0 && told.point_intersects == 0 && told.disjoint == 0,
         "a pond within a square");
    test(polygon_relate(&ONE, &HOLE, &query, &told) == POLYGON_C_OK && told.within == 0 && told.covers == 1, "a square round a pond");
    test(polygon_relate(&ONE, &NONE, &query, &told) == POLYGON_C_OK && told.disjoint == 1 && told.intersects == 0, "nothing beside a square");
}

static void places(void) {
    static const polygon_c_point ASKED[] = {{5, 5}, {1, 1}, {25, 5}, {-1, 5}, {524287, -524288}};
    static const size_t ONES[] = {1, 1}, HOLED[] = {2};
    static const polygon_c_point HOLED_POINTS[] = {{0, 0}, {10, 0}, {10, 10}, {0, 10}, {3, 3}, {7, 3}, {7, 7}, {3, 7}};
    const polygon_c_contours holed = {HOLED_POINTS, 8, FOURS, 2};
    polygon_c_contours bad = TWO;
    polygon_c_point far = {0, 524288};
    uint8_t inside[8];

    memset(inside, 9, sizeof inside);
    test(polygon_contains_points(&TWO, ONES, 2, ASKED, 5, inside, 8) == POLYGON_C_OK && !memcmp(inside, "\1\1\1\0\0\11\11\11", 8), "points in two squares");
    test(polygon_contains_points(&holed, HOLED, 1, ASKED, 5, inside, 5) == POLYGON_C_OK && !memcmp(inside, "\0\1\0\0\0\11", 6), "points beside a pond");
    memset(inside, 9, sizeof inside);
    test(polygon_contains_points(&TWO, ONES, 2, ASKED, 5, inside, 4) == POLYGON_C_ROOM, "no room for a point");
    test(polygon_contains_points(&TWO, ONES, 1, ASKED, 5, inside, 8) == POLYGON_C_LENGTHS, "a contour of no shape");
    test(polygon_contains_points(&TWO, HOLED, 1, &far, 1, inside, 0) == POLYGON_C_RANGE, "a far point before room");
    bad.points_len = 7;
    test(polygon_contains_points(&bad, ONES, 2, &far, 1, inside, 0) == POLYGON_C_LENGTHS, "lengths before range");
    test(polygon_contains_points(&TWO, ONES, 2, NULL, 1, inside, 8) == POLYGON_C_LENGTHS, "points to ask for at NULL");
    test(polygon_contains_points(&TWO, ONES, 2, &far, 1, NULL, 1) == POLYGON_C_LENGTHS, "flags at NULL before a far point");
    test(!memcmp(inside, "\11\11\11\11\11\11\11\11", 8), "refused points");
    test(polygon_contains_points(&NONE, NULL, 0, NULL, 0, NULL, 0) == POLYGON_C_OK, "no points at all");
    test(polygon_contains_points(&NONE, NULL, 0, ASKED, 5, inside, 5) == POLYGON_C_OK && !memcmp(inside, "\0\0\0\0\0\11", 6), "points in nothing");
}

/* Queries of other sizes: one of an older header has fewer words, and one of a newer header more. */
static void sizes_of_queries(void) {
    static const uint32_t WORDS[POLYGON_C_QUERY_WORDS + 1] = {0, 0, POLYGON_C_DIFFERENCE, POLYGON_C_NONZERO};
    polygon_c_query query = query_of(POLYGON_C_DIFFERENCE, POLYGON_C_NONZERO);
    polygon_c_shapes answer;
    polygon_c_relations told;
    Room room;
    size_t words;
    uint32_t status;
    test(offsetof(polygon_c_query, clip_border) + sizeof query.clip_border == POLYGON_C_QUERY_WORDS * sizeof(uint32_t), "words of a query");
    test(polygon_c_version() == POLYGON_C_VERSION, "the version");
    for (words = 0; words <= POLYGON_C_QUERY_WORDS + 1; words++) {
        answer = with_room(&room, LENGTH(room.points), LENGTH(room.contours), LENGTH(room.shapes));
        status = polygon_c_overlay(ONE.points, 4, ONE.lengths, 1, HOLE.points, 4, HOLE.lengths, 1, WORDS, words, answer.points, answer.points_room,
                                   answer.contours, answer.contours_room, answer.shapes, answer.shapes_room, &answer.sizes);
        if (words > POLYGON_C_QUERY_WORDS) {
            test(status == POLYGON_C_SIZE && are_sizes(answer.sizes, 12345, 12345, 12345) && is_left(&room, 0, 0, 0, 0), "a word too many");
        } else if (words >= 4) {
            test(status == POLYGON_C_OK && is_holed(&answer), "words of a difference");
        } else {
            /* (words that are missing are 0: the subject, and EvenOdd) */
            test(status == POLYGON_C_OK && are_sizes(answer.sizes, words == 3 ? 8 : 4, words == 3 ? 2 : 1, 1), "few words");
        }
    }
    memset(&told, 9, sizeof told);
    test(polygon_c_relate(ONE.points, 3, ONE.lengths, 1, HOLE.points, 4, HOLE.lengths, 1, WORDS, 14, &told) == POLYGON_C_SIZE && told.within == 9,
         "a word too many before lengths");
    /* (numbers of two words, and below 0) */
    query.rule = POLYGON_C_SUBJECT, query.least_area = (uint64_t)1 << 32;
    answer = with_room(&room, LENGTH(room.points), LENGTH(room.contours), LENGTH(room.shapes));
    test(polygon_overlay(&TWO, &NONE, &query, &answer) == POLYGON_C_OK && are_sizes(answer.sizes, 0, 0, 0), "a least area of two words");
    query.least_area = 0, query.fill = POLYGON_C_ATLEAST, query.depth = -1;
    test(refuses(POLYGON_C_FILL, ONE, HOLE, query), "a depth of -1");
    query.depth = INT32_MIN;
    test(refuses(POLYGON_C_FILL, ONE, HOLE, query), "the least depth");
    query.depth = INT32_MAX;
    test(polygon_overlay(&TWO, &NONE, &query, &answer) == POLYGON_C_OK && are_sizes(answer.sizes, 0, 0, 0), "the greatest depth");
}

static void located(void) {
    static const polygon_c_point ASKED[] = {{5, 5}, {1, 1}, {3, 5}, {10, 10}, {25, 5}, {-1, 5}, {524287, -524288}};
    static const size_t HOLED[] = {2};
    static const polygon_c_point HOLED_POINTS[] = {{0, 0}, {10, 0}, {10, 10}, {0, 10}, {3, 3}, {7, 3}, {7, 7}, {3, 7}};
    const polygon_c_contours holed = {HOLED_POINTS, 8, FOURS, 2};
    polygon_c_point far = {0, 524288};
    uint8_t found[9];
    memset(found, 9, sizeof found);
    test(polygon_locate(&holed, HOLED, 1, ASKED, 7, found, 9) == POLYGON_C_OK && !memcmp(found, "\0\1\2\2\0\0\0\11\11", 9), "places beside a pond");
    memset(found, 9, sizeof found);
    test(polygon_locate(&holed, HOLED, 1, ASKED, 7, found, 6) == POLYGON_C_ROOM, "no room for a place");
    test(polygon_locate(&holed, FOURS, 1, &far, 1, found, 0) == POLYGON_C_LENGTHS, "contours of no shape, before a far place");
    test(polygon_locate(&holed, HOLED, 1, &far, 1, found, 0) == POLYGON_C_RANGE, "a far place before room");
    test(polygon_locate(&holed, HOLED, 1, NULL, 1, found, 9) == POLYGON_C_LENGTHS, "places at NULL");
    test(!memcmp(found, "\11\11\11\11\11\11\11\11\11", 9), "refused places");
    test(polygon_locate(&NONE, NULL, 0, ASKED, 7, found, 9) == POLYGON_C_OK && !memcmp(found, "\0\0\0\0\0\0\0\11", 8), "places in nothing");
}

static int is_wide(polygon_c_wide area, int64_t high, uint64_t low) { return area.high == high && area.low == low; }

static void areas(void) {
    static const polygon_c_point WHOLE[] = {{-524288, -524288}, {524287, -524288}, {524287, 524287}, {-524288, 524287}}, TURNED[] = {{0, 0}, {0, 10}, {10, 0}};
    static const size_t ODD[] = {4, 3}, THREE[] = {3};
    const polygon_c_contours whole = {WHOLE, 4, FOURS, 1}, turned = {TURNED, 3, THREE, 1};
    polygon_c_contours bad = TWO;
    polygon_c_point many[64];
    polygon_c_wide area = {7, 7};
    size_t at;
    test(polygon_area(&TWO, &area) == POLYGON_C_OK && is_wide(area, 0, 400), "the area of two squares");
    test(polygon_area(&turned, &area) == POLYGON_C_OK && is_wide(area, -1, (uint64_t)-100), "a clockwise area");
    test(polygon_area(&whole, &area) == POLYGON_C_OK && is_wide(area, 0, 2u * 1048575u * (uint64_t)1048575u), "the greatest square");
    test(polygon_area(&NONE, &area) == POLYGON_C_OK && is_wide(area, 0, 0), "no area");
    for (at = 0; at < LENGTH(many); at++) {
        many[at] = WHOLE[3 - at % 4];
    }
    test(polygon_c_area(many, 64, &area) == POLYGON_C_OK && is_wide(area, -1, (uint64_t)0 - 32u * 1048575u * (uint64_t)1048575u), "sixteen times round");
    area.low = 7, area.high = 7, many[63].x = 524288;
    test(polygon_c_area(many, 64, &area) == POLYGON_C_RANGE && is_wide(area, 7, 7), "the area of a far point");
    bad.lengths = ODD;
    test(polygon_area(&bad, &area) == POLYGON_C_LENGTHS && is_wide(area, 7, 7), "a length too short for an area");
    bad.lengths_len = 3, bad.points_len = 3;
    test(polygon_area(&bad, &area) == POLYGON_C_LENGTHS && is_wide(area, 7, 7), "a length too long for an area");
}

/* ---- coordinates of 64 bits */

#define LEAST (-68719476735 - 1)
#define GREATEST 68719476735

static const polygon_c_point64 EARTH[] = {{LEAST, LEAST}, {GREATEST, LEAST}, {GREATEST, GREATEST}, {LEAST, GREATEST}};
static const polygon_c_point64 WELL[] = {{3, 3}, {7, 3}, {7, 7}, {3, 7}};
static const polygon_c_contours64 ALL = {EARTH, 4, FOURS, 1}, SMALL = {WELL, 4, FOURS, 1}, NOTHING = {NULL, 0, NULL, 0};

typedef struct {
    polygon_c_point64 points[24];
    size_t contours[6], shapes[5];
} Room64;

static polygon_c_shapes64 in_room(Room64 *room) {
    polygon_c_shapes64 answer = {NULL, 24, NULL, 6, NULL, 5, {12345, 12345, 12345}};
    memset(room, 7, sizeof *room);
    answer.points = room->points, answer.contours = room->contours, answer.shapes = room->shapes;
    return answer;
}

static int is_untouched(const Room64 *room) {
    const unsigned char *bytes = (const unsigned char *)room;
    size_t at;
    for (at = 0; at < sizeof *room && bytes[at] == 7; at++) {
    }
    return at == sizeof *room;
}

static int is_at(polygon_c_point64 point, int64_t x, int64_t y) { return point.x == x && point.y == y; }

static void far_overlays(void) {
    static const size_t GROUPS[] = {0, 1};
    polygon_c_query query = query_of(POLYGON_C_DIFFERENCE, POLYGON_C_NONZERO);
    polygon_c_point64 far[4];
    polygon_c_contours64 wrong = {NULL, 4, FOURS, 1};
    polygon_c_many_sizes many;
    polygon_c_link_sizes linked;
    polygon_c_link links[4];
    uint64_t numbers[24];
    size_t overlays[2];
    Room64 room;
    polygon_c_shapes64 answer = in_room(&room);
    test(polygon_overlay64(&ALL, &SMALL, &query, &answer) == POLYGON_C_OK && are_sizes(answer.sizes, 8, 2, 1), "the earth without a well");
    test(is_at(room.points[0], LEAST, GREATEST) && is_at(room.points[1], LEAST, LEAST) && is_at(room.points[2], GREATEST, LEAST) &&
             is_at(room.points[3], GREATEST, GREATEST) && is_at(room.points[4], 3, 3) && is_at(room.points[7], 7, 3),
         "its corners");
    answer = in_room(&room), answer.points_room = 7;
    test(polygon_overlay64(&ALL, &SMALL, &query, &answer) == POLYGON_C_ROOM && are_sizes(answer.sizes, 8, 2, 1) && is_untouched(&room),
         "no room for a far point");
    answer = in_room(&room);
    test(polygon_simplify64(&ALL, &query, &answer) == POLYGON_C_OK && are_sizes(answer.sizes, 4, 1, 1), "the earth simplified");
    memcpy(far, EARTH, sizeof far);
    wrong.points = far, far[2].y = GREATEST + 1, answer = in_room(&room);
    test(polygon_overlay64(&wrong, &NOTHING, &query, &answer) == POLYGON_C_RANGE64 && are_sizes(answer.sizes, 12345, 12345, 12345), "a subject too far");
    test(is_untouched(&room), "what is refused leaves arrays");
    far[2].y = LEAST - 1;
    test(polygon_overlay64(&NOTHING, &wrong, &query, &answer) == POLYGON_C_RANGE64, "a clip too far");
    far[2].y = INT64_MIN;
    test(polygon_overlay64(&NOTHING, &wrong, &query, &answer) == POLYGON_C_RANGE64, "a clip at the end of 64 bits");
    wrong.points_len = 3;
    test(polygon_overlay64(&wrong, &NOTHING, &query, &answer) == POLYGON_C_LENGTHS, "lengths before a far point");
    query.rule = 7;
    test(polygon_overlay64(&wrong, &NOTHING, &query, &answer) == POLYGON_C_RULE, "a rule before lengths");
    query.rule = POLYGON_C_DIFFERENCE, answer = in_room(&room);
    test(polygon_overlays64(&ALL, &SMALL, GROUPS, 2, &query, &answer, overlays, 2, &many) == POLYGON_C_OK && are_sizes(answer.sizes, 12, 3, 2) &&
             many.overlays == 2 && overlays[0] == 1 && overlays[1] == 1,
         "two overlays of the earth");
    answer = in_room(&room);
    test(polygon_overlay_edges64(&ALL, BITS, &SMALL, BITS + 4, 0, &query, &answer, numbers, 24) == POLYGON_C_OK && are_sizes(answer.sizes, 8, 2, 1) &&
             is_at(room.points[2], GREATEST, LEAST) && numbers[2] == 2 && numbers[7] == 16,
         "the edges of the earth");
    wrong.points_len = 4;
    test(polygon_overlay_edges64(&wrong, BITS, &NOTHING, NULL, 0, &query, &answer, numbers, 24) == POLYGON_C_RANGE64, "an edge too far");
    answer = in_room(&room);
    test(polygon_hierarchy64(&ALL, &SMALL, &query, &answer, links, 4, &linked) == POLYGON_C_OK && are_sizes(answer.sizes, 8, 2, 1) && linked.links == 0,
         "the hierarchy of the earth");
}

static void far_lines(void) {
    static const polygon_c_point64 MERIDIAN[] = {{0, LEAST}, {0, GREATEST}};
    static const size_t TWO_POINTS[] = {2};
    const polygon_c_contours64 line = {MERIDIAN, 2, TWO_POINTS, 1};
    polygon_c_query query = query_of(POLYGON_C_SUBJECT, POLYGON_C_NONZERO);
    polygon_c_paths64 paths = {NULL, 24, NULL, 6, {0, 0, 0}};
    Room64 room;
    polygon_c_shapes64 answer = in_room(&room);
    test(polygon_slice64(&ALL, &line, &query, &answer) == POLYGON_C_OK && are_sizes(answer.sizes, 8, 2, 2), "the earth halved");
    in_room(&room), paths.points = room.points, paths.lengths = room.contours;
    test(polygon_clip64(&SMALL, &line, &query, &paths) == POLYGON_C_OK && are_sizes(paths.sizes, 0, 0, 0), "a meridian beside a well");
    test(polygon_clip64(&ALL, &line, &query, &paths) == POLYGON_C_OK && are_sizes(paths.sizes, 2, 1, 0) && is_at(room.points[0], 0, LEAST) &&
             is_at(room.points[1], 0, GREATEST),
         "a meridian");
}

static void far_places(void) {
    static const polygon_c_point64 ASKED[] = {{LEAST, LEAST}, {0, GREATEST}, {GREATEST - 1, 0}, {5, 5}}, FAR[] = {{0, GREATEST + 1}};
    static const size_t ONES[] = {1};
    polygon_c_query query = query_of(POLYGON_C_SUBJECT, POLYGON_C_NONZERO);
    polygon_c_relations told;
    polygon_c_wide area = {7, 7};
    uint8_t found[4] = {9, 9, 9, 9};
    test(polygon_relate64(&SMALL, &ALL, &query, &told) == POLYGON_C_OK && told.within && !told.covers && !told.disjoint, "a well within the earth");
    test(polygon_locate64(&ALL, ONES, 1, ASKED, 4, found, 4) == POLYGON_C_OK && !memcmp(found, "\2\2\1\1", 4), "places of the earth");
    test(polygon_contains_points64(&SMALL, ONES, 1, ASKED, 4, found, 4) == POLYGON_C_OK && !memcmp(found, "\0\0\0\1", 4), "points in a well");
    test(polygon_contains_points64(&SMALL, ONES, 1, FAR, 1, found, 0) == POLYGON_C_RANGE64, "a point too far");
    test(polygon_locate64(&SMALL, ONES, 1, FAR, 1, found, 0) == POLYGON_C_RANGE64, "a place too far");
    test(polygon_area64(&ALL, &area) == POLYGON_C_OK && is_wide(area, 2047, (uint64_t)0 - ((uint64_t)1 << 39) + 2), "the area of the earth");
    test(polygon_c_area64(FAR, 1, &area) == POLYGON_C_RANGE64, "the area of a point too far");
}

/* ---- sized regions */

/* Whether contours are sized so: to one contour, or to none. */
static int is_sized(const polygon_c_contours *contours, polygon_c_sizing by, const polygon_c_point *wanted, size_t points) {
    polygon_c_query query = query_of(POLYGON_C_CLIP, POLYGON_C_NONZERO);
    const size_t one = points != 0;
    Room room;
    polygon_c_shapes answer = with_room(&room, LENGTH(room.points), LENGTH(room.contours), LENGTH(room.shapes));
    return polygon_sized(contours, &by, &query, &answer) == POLYGON_C_OK && are_sizes(answer.sizes, points, one, one) &&
           !memcmp(room.points, wanted, points * sizeof *wanted) && is_left(&room, points, one, one, 0);
}

/* Whether sizing is refused so, and everything left as it was. */
static int is_unsized(uint32_t status, polygon_c_contours contours, polygon_c_sizing by, polygon_c_query query) {
    Room room;
    polygon_c_shapes answer = with_room(&room, LENGTH(room.points), LENGTH(room.contours), LENGTH(room.shapes));
    return polygon_sized(&contours, &by, &query, &answer) == status && are_sizes(answer.sizes, 12345, 12345, 12345) && is_left(&room, 0, 0, 0, 0);
}

static void sized(void) {
    static const polygon_c_point BAR[] = {{0, 0}, {4, 0}, {4, 20}, {0, 20}}, THIN[] = {{1, 20}, {1, 0}, {3, 0}, {3, 20}};
    static const polygon_c_point HOLED[] = {{0, 0}, {10, 0}, {10, 10}, {0, 10}, {4, 4}, {4, 5}, {5, 5}, {5, 4}};
    static const polygon_c_point NEAR[] = {{0, 0}, {10, 0}, {10, 10}, {0, 10}, {14, 0}, {24, 0}, {24, 10}, {14, 10}};
    static const polygon_c_point GROWN[] = {{-1, 11}, {-1, -1}, {11, -1}, {11, 11}}, JOINED[] = {{-2, 12}, {-2, -2}, {26, -2}, {26, 12}};
    static const polygon_c_point APART[] = {{-1, 14}, {-1, -3}, {12, -3}, {12, 14}}, FAR[] = {{0, 10}, {0, 0}, {524287, 0}, {524287, 10}};
    static const polygon_c_point KITE[] = {{0, 0}, {10, 0}, {11, 10}, {0, 10}};
    const polygon_c_contours bar = {BAR, 4, FOURS, 1}, holed = {HOLED, 8, FOURS, 2}, near = {NEAR, 8, FOURS, 2}, kite = {KITE, 4, FOURS, 1};
    const polygon_c_sizing ones = {1, 1, 1, 1}, twos = {2, 2, 2, 2}, four = {1, 2, 3, 4}, thin = {-1, -1, 0, 0}, gone = {-2, -2, 0, 0};
    const polygon_c_sizing most = {0, 524277, 0, 0}, more = {0, 524278, 0, 0}, least = {INT32_MIN, 0, 0, 0}, greatest = {0, 0, 0, INT32_MAX};
    polygon_c_query query = query_of(POLYGON_C_SUBJECT, POLYGON_C_NONZERO), other = query;
    polygon_c_contours wrong = kite;
    polygon_c_shapes answer;
    Room room;

    test(is_sized(&bar, thin, THIN, 4) && is_sized(&bar, gone, THIN, 0), "a bar shrunk, and as much as it is wide");
    test(is_sized(&holed, ones, GROWN, 4), "a square grown over its hole");
    test(is_sized(&near, twos, JOINED, 4), "two squares that are joined");
    test(is_sized(&ONE, four, APART, 4), "four amounts");
    test(is_sized(&NONE, greatest, THIN, 0), "nothing sized");
    test(is_sized(&ONE, most, FAR, 4) && is_unsized(POLYGON_C_RANGE, ONE, more, query), "a square up to the end of the range, and farther");
    test(is_unsized(POLYGON_C_RANGE, ONE, least, query) && is_unsized(POLYGON_C_RANGE, ONE, greatest, query), "amounts at the ends of 32 bits");
    test(is_unsized(POLYGON_C_SLANT, kite, ones, query) && is_unsized(POLYGON_C_SLANT, kite, greatest, query), "an edge that slants, before a far move");
    wrong.points_len = 3;
    test(is_unsized(POLYGON_C_LENGTHS, wrong, ones, query), "lengths before an edge that slants");
    wrong.points = NULL, other.precision = 9;
    test(is_unsized(POLYGON_C_LENGTHS, wrong, ones, query) && is_unsized(POLYGON_C_PRECISION, kite, ones, other), "points at NULL, and a precision");
    answer = with_room(&room, 3, 6, 5);
    test(polygon_sized(&bar, &ones, &query, &answer) == POLYGON_C_ROOM && are_sizes(answer.sizes, 4, 1, 1) && is_left(&room, 0, 0, 0, 0), "no room for a bar");
}

/* Whether contours are sized so twice: to these shapes of one contour each. */
static int is_sized_in_turn(const polygon_c_contours *contours, polygon_c_sizing first, polygon_c_sizing second, const polygon_c_point *wanted, size_t shapes) {
    polygon_c_query query = query_of(POLYGON_C_CLIP, POLYGON_C_NONZERO);
    const size_t points = 4 * shapes;
    Room room;
    polygon_c_shapes answer = with_room(&room, LENGTH(room.points), LENGTH(room.contours), LENGTH(room.shapes));
    return polygon_sized_in_turn(contours, &first, &second, &query, &answer) == POLYGON_C_OK && are_sizes(answer.sizes, points, shapes, shapes) &&
           !memcmp(room.points, wanted, points * sizeof *wanted) && is_left(&room, points, shapes, shapes, 0);
}

static int is_unsized_in_turn(uint32_t status, polygon_c_contours contours, polygon_c_sizing first, polygon_c_sizing second, polygon_c_query query) {
    Room room;
    polygon_c_shapes answer = with_room(&room, LENGTH(room.points), LENGTH(room.contours), LENGTH(room.shapes));
    return polygon_sized_in_turn(&contours, &first, &second, &query, &answer) == status && are_sizes(answer.sizes, 12345, 12345, 12345) &&
           is_left(&room, 0, 0, 0, 0);
}

static void sized_in_turn(void) {
    static const polygon_c_point NEAR[] = {{0, 0}, {10, 0}, {10, 10}, {0, 10}, {14, 0}, {24, 0}, {24, 10}, {14, 10}};
    static const polygon_c_point CLOSED[] = {{0, 10}, {0, 0}, {24, 0}, {24, 10}}, MOVED[] = {{1, 12}, {1, 3}, {12, 3}, {12, 12}};
    static const polygon_c_point APART[] = {{0, 10}, {0, 0}, {10, 0}, {10, 10}, {14, 10}, {14, 0}, {24, 0}, {24, 10}};
    static const polygon_c_point KITE[] = {{0, 0}, {10, 0}, {11, 10}, {0, 10}};
    const polygon_c_contours near = {NEAR, 8, FOURS, 2}, kite = {KITE, 4, FOURS, 1};
    const polygon_c_sizing ones = {1, 1, 1, 1}, twos = {2, 2, 2, 2}, less = {-1, -1, -1, -1}, least = {-2, -2, -2, -2}, five = {-5, -5, -5, -5};
    const polygon_c_sizing four = {1, 2, 0, 4}, back = {-2, 0, -3, -2}, most = {0, 524276, 0, 0}, gone = {0, 524277, 0, 0}, wide = {0, 0, INT32_MIN, 0};
    polygon_c_query query = query_of(POLYGON_C_SUBJECT, POLYGON_C_NONZERO), other = query;
    polygon_c_shapes answer;
    Room room;

    test(is_sized_in_turn(&near, twos, least, CLOSED, 1) && is_sized_in_turn(&near, ones, less, APART, 2), "a gap that is closed, and one that isn't");
    test(is_sized_in_turn(&near, less, ones, APART, 2) && is_sized_in_turn(&near, five, twos, CLOSED, 0), "squares that are opened, and gone");
    test(is_sized_in_turn(&ONE, four, back, MOVED, 1) && is_sized_in_turn(&NONE, gone, wide, MOVED, 0), "four amounts each, and nothing sized");
    test(is_unsized_in_turn(POLYGON_C_RANGE, ONE, gone, ones, query) && is_unsized_in_turn(POLYGON_C_RANGE, ONE, ones, gone, query),
         "a square that leaves the range at last");
    test(is_unsized_in_turn(POLYGON_C_RANGE, ONE, wide, wide, query) && is_unsized_in_turn(POLYGON_C_RANGE, ONE, ones, wide, query),
         "amounts at the ends of 32 bits, twice");
    test(is_unsized_in_turn(POLYGON_C_SLANT, kite, ones, wide, query), "an edge that slants, before a far second move");
    other.precision = 9;
    test(is_unsized_in_turn(POLYGON_C_PRECISION, kite, ones, ones, other), "a precision, before an edge that slants");
    answer = with_room(&room, 7, 6, 5);
    test(polygon_sized_in_turn(&near, &ones, &less, &query, &answer) == POLYGON_C_ROOM && are_sizes(answer.sizes, 8, 2, 2) && is_left(&room, 0, 0, 0, 0),
         "no room for two squares");
    answer = with_room(&room, 24, 6, 5);
    test(polygon_sized_in_turn(&ONE, &most, &ones, &query, &answer) == POLYGON_C_OK && room.points[2].x == 524287,
         "a square up to the end of the range in turn");
}

static void far_sized_in_turn(void) {
    static const polygon_c_point64 KITE[] = {{0, 0}, {GREATEST, 0}, {GREATEST, 10}, {1, 10}};
    const polygon_c_contours64 kite = {KITE, 4, FOURS, 1};
    const polygon_c_sizing64 grown = {1, 2, 3, 4}, shrunk = {-1, -2, -3, -4}, most = {INT64_MIN, 0, 0, INT64_MAX}, far = {0, GREATEST - 7, 0, 0};
    polygon_c_query query = query_of(POLYGON_C_SUBJECT, POLYGON_C_NONZERO);
    Room64 room;
    polygon_c_shapes64 answer = in_room(&room);
    test(polygon_sized_in_turn64(&SMALL, &grown, &shrunk, &query, &answer) == POLYGON_C_OK && are_sizes(answer.sizes, 4, 1, 1) &&
             is_at(room.points[0], 3, 7) && is_at(room.points[1], 3, 3) && is_at(room.points[2], 7, 3),
         "a well grown and shrunk");
    answer = in_room(&room);
    test(polygon_sized_in_turn64(&SMALL, &grown, &far, &query, &answer) == POLYGON_C_RANGE64 &&
             polygon_sized_in_turn64(&SMALL, &most, &most, &query, &answer) == POLYGON_C_RANGE64 && is_untouched(&room),
         "a well grown by too much in turn");
    answer = in_room(&room);
    test(polygon_sized_in_turn64(&kite, &grown, &shrunk, &query, &answer) == POLYGON_C_SLANT && is_untouched(&room), "a far edge that slants, sized twice");
}

static void far_sized(void) {
    static const polygon_c_point64 KITE[] = {{0, 0}, {GREATEST, 0}, {GREATEST, 10}, {1, 10}};
    const polygon_c_contours64 kite = {KITE, 4, FOURS, 1};
    const polygon_c_sizing64 grown = {1, 2, 3, 4}, shrunk = {-1, -2, -3, -4}, most = {INT64_MIN, 0, 0, INT64_MAX};
    polygon_c_query query = query_of(POLYGON_C_SUBJECT, POLYGON_C_NONZERO);
    Room64 room;
    polygon_c_shapes64 answer = in_room(&room);
    test(polygon_sized64(&ALL, &shrunk, &query, &answer) == POLYGON_C_RANGE64 && is_untouched(&room), "the earth shrunk, which amounts would move out of the range");
    answer = in_room(&room);
    test(polygon_sized64(&SMALL, &grown, &query, &answer) == POLYGON_C_OK && are_sizes(answer.sizes, 4, 1, 1) && is_at(room.points[0], 2, 11) &&
             is_at(room.points[1], 2, 0) && is_at(room.points[2], 9, 0),
         "a well grown");
    answer = in_room(&room);
    test(polygon_sized64(&ALL, &grown, &query, &answer) == POLYGON_C_RANGE64 && polygon_sized64(&SMALL, &most, &query, &answer) == POLYGON_C_RANGE64,
         "the earth grown, and a well by too much");
    test(polygon_sized64(&kite, &grown, &query, &answer) == POLYGON_C_SLANT && is_untouched(&room), "a far edge that slants");
}

/* ---- masks that are checked */

typedef uint32_t Check(const polygon_c_contours *contours, int32_t side, const polygon_c_query *query, polygon_c_shapes *answer);

/* Whether contours have these errors: one contour, or none. */
static int has_errors(Check *check, const polygon_c_contours *contours, int32_t side, const polygon_c_point *wanted, size_t points) {
    polygon_c_query query = query_of(POLYGON_C_CLIP, POLYGON_C_NONZERO);
    const size_t one = points != 0;
    Room room;
    polygon_c_shapes answer = with_room(&room, LENGTH(room.points), LENGTH(room.contours), LENGTH(room.shapes));
    return check(contours, side, &query, &answer) == POLYGON_C_OK && are_sizes(answer.sizes, points, one, one) &&
           !memcmp(room.points, wanted, points * sizeof *wanted) && is_left(&room, points, one, one, 0);
}

/* Whether a check is refused so, and everything left as it was. */
static int is_unchecked(Check *check, uint32_t status, polygon_c_contours contours, int32_t side) {
    polygon_c_query query = query_of(POLYGON_C_SUBJECT, POLYGON_C_NONZERO);
    Room room;
    polygon_c_shapes answer = with_room(&room, LENGTH(room.points), LENGTH(room.contours), LENGTH(room.shapes));
    return check(&contours, side, &query, &answer) == status && are_sizes(answer.sizes, 12345, 12345, 12345) && is_left(&room, 0, 0, 0, 0);
}

static void checked(void) {
    static const polygon_c_point BAR[] = {{0, 0}, {4, 0}, {4, 20}, {0, 20}}, WHOLE[] = {{0, 20}, {0, 0}, {4, 0}, {4, 20}};
    static const polygon_c_point NEAR[] = {{0, 0}, {10, 0}, {10, 10}, {0, 10}, {14, 0}, {24, 0}, {24, 10}, {14, 10}};
    static const polygon_c_point GAP[] = {{10, 10}, {10, 0}, {14, 0}, {14, 10}};
    static const polygon_c_point KITE[] = {{0, 0}, {10, 0}, {11, 10}, {0, 10}};
    const polygon_c_contours bar = {BAR, 4, FOURS, 1}, near = {NEAR, 8, FOURS, 2}, kite = {KITE, 4, FOURS, 1};
    Check *const checks[] = {polygon_width, polygon_space};
    size_t at;

    test(has_errors(polygon_width, &bar, 4, WHOLE, 0) && has_errors(polygon_width, &bar, 5, WHOLE, 4), "the width of a bar");
    test(has_errors(polygon_space, &near, 4, GAP, 0) && has_errors(polygon_space, &near, 5, GAP, 4), "the space between two masks");
    for (at = 0; at < LENGTH(checks); at++) {
        test(has_errors(checks[at], &NONE, 1, WHOLE, 0) && has_errors(checks[at], &bar, 1, WHOLE, 0), "nothing checked, and a side of 1");
        test(is_unchecked(checks[at], POLYGON_C_RANGE, ONE, 0) && is_unchecked(checks[at], POLYGON_C_RANGE, ONE, -1), "a side below 1");
        test(is_unchecked(checks[at], POLYGON_C_RANGE, ONE, INT32_MIN) && is_unchecked(checks[at], POLYGON_C_RANGE, ONE, INT32_MAX), "sides out of range");
        test(is_unchecked(checks[at], POLYGON_C_RANGE, ONE, 524278), "a square that is moved too far");
        test(is_unchecked(checks[at], POLYGON_C_SLANT, kite, 1) && is_unchecked(checks[at], POLYGON_C_SLANT, kite, 0), "an edge that slants, before a side");
    }
}

static void far_checked(void) {
    static const polygon_c_point64 KITE[] = {{0, 0}, {GREATEST, 0}, {GREATEST, 10}, {1, 10}};
    const polygon_c_contours64 kite = {KITE, 4, FOURS, 1};
    polygon_c_query query = query_of(POLYGON_C_SUBJECT, POLYGON_C_NONZERO);
    Room64 room;
    polygon_c_shapes64 answer = in_room(&room);
    test(polygon_width64(&SMALL, 5, &query, &answer) == POLYGON_C_OK && are_sizes(answer.sizes, 4, 1, 1) && is_at(room.points[0], 3, 7) &&
             is_at(room.points[1], 3, 3) && is_at(room.points[2], 7, 3),
         "the width of a well");
    answer = in_room(&room);
    test(polygon_width64(&SMALL, 4, &query, &answer) == POLYGON_C_OK && are_sizes(answer.sizes, 0, 0, 0), "its width, and no more");
    answer = in_room(&room);
    test(polygon_space64(&SMALL, 1000, &query, &answer) == POLYGON_C_OK && are_sizes(answer.sizes, 0, 0, 0), "the space round a well");
    answer = in_room(&room);
    test(polygon_width64(&SMALL, 0, &query, &answer) == POLYGON_C_RANGE64 && polygon_space64(&SMALL, INT64_MIN, &query, &answer) == POLYGON_C_RANGE64 &&
             polygon_space64(&ALL, 1, &query, &answer) == POLYGON_C_RANGE64 && is_untouched(&room),
         "sides out of range, of 64 bits");
    test(polygon_width64(&kite, 1, &query, &answer) == POLYGON_C_SLANT && is_untouched(&room), "a far edge that slants, checked");
}

static void simplified(void) {
    static const polygon_c_point BOW[] = {{0, 0}, {10, 10}, {10, 0}, {0, 10}};
    const polygon_c_contours bow = {BOW, 4, FOURS, 1};
    polygon_c_query query = query_of(POLYGON_C_CLIP, POLYGON_C_NONZERO);
    Room room;
    polygon_c_shapes answer = with_room(&room, LENGTH(room.points), LENGTH(room.contours), LENGTH(room.shapes));
    test(polygon_simplify(&bow, &query, &answer) == POLYGON_C_OK && are_sizes(answer.sizes, 6, 2, 2) && query.rule == POLYGON_C_CLIP, "a bow tie");
}

static void texts(void) {
    static const char *const SAID[] = {
        "answered",
        "memory was refused",
        "too many contours run along an edge or wind round a point",
        "there would be 2147483648 edges or more",
        "no overlay rule has this number",
        "no fill rule has this number, or its depth is below 1",
        "no strategy has this number",
        "no precision has this number",
        "the lengths don't sum to what they cut",
        "a coordinate is not from -524288 to 524287",
        "an array is too small for the answer",
        "the query has more words than are known",
        "a coordinate is not from -68719476736 to 68719476735",
        "no join has this number, or numbers that are to be kept differ",
        "an edge is neither horizontal nor vertical",
        "no status has this number",
    };
    char text[128];
    unsigned char bytes[128];
    uint32_t status;
    for (status = 0; status < LENGTH(SAID); status++) {
        size_t length = strlen(SAID[status]);
        test(!strcmp(polygon_text(status, text, sizeof text), SAID[status]), "a text");
        memset(bytes, 1, sizeof bytes);
        test(polygon_c_text(status, bytes, length) == length && !memcmp(bytes, SAID[status], length) && bytes[length] == 1, "just enough room for a text");
        memset(bytes, 1, sizeof bytes);
        test(polygon_c_text(status, bytes, length - 1) == length && bytes[0] == 1, "no room for a text");
    }
    test(!strcmp(polygon_text(UINT32_MAX, text, 4), "no "), "a text cut short");
}

/* ---- refused allocations */

typedef uint32_t Call(Room *room);

static uint32_t by_overlay(Room *room) {
    polygon_c_query query = query_of(POLYGON_C_DIFFERENCE, POLYGON_C_NONZERO);
    polygon_c_shapes answer = with_room(room, 24, 6, 5);
    return polygon_overlay(&TWO, &HOLE, &query, &answer);
}

static uint32_t by_hierarchy(Room *room) {
    polygon_c_query query = query_of(POLYGON_C_DIFFERENCE, POLYGON_C_NONZERO);
    polygon_c_shapes answer = with_room(room, 24, 6, 5);
    polygon_c_link_sizes sizes;
    return polygon_hierarchy(&TWO, &HOLE, &query, &answer, room->links, 4, &sizes);
}

static uint32_t by_edges(Room *room) {
    polygon_c_query query = query_of(POLYGON_C_DIFFERENCE, POLYGON_C_NONZERO);
    polygon_c_shapes answer = with_room(room, 24, 6, 5);
    uint64_t numbers[24] = {9};
    uint32_t status = polygon_overlay_edges(&TWO, BITS, &HOLE, BITS, POLYGON_C_JOIN_OR, &query, &answer, numbers, 24);
    return status != POLYGON_C_OK && numbers[0] != 9 ? 99 : status;
}

static uint32_t by_overlays(Room *room) {
    static const size_t ONES[] = {1, 1};
    polygon_c_query query = query_of(POLYGON_C_INTERSECT, POLYGON_C_NONZERO);
    polygon_c_shapes answer = with_room(room, 24, 6, 5);
    polygon_c_many_sizes sizes;
    size_t overlays[2];
    return polygon_overlays(&TWO, &TWO, ONES, 2, &query, &answer, overlays, 2, &sizes);
}

static const polygon_c_point ROAD[] = {{-5, 5}, {15, 5}};
static const size_t ENDS[] = {2};
static const polygon_c_contours LINE = {ROAD, 2, ENDS, 1};

static uint32_t by_slice(Room *room) {
    polygon_c_query query = query_of(POLYGON_C_SUBJECT, POLYGON_C_NONZERO);
    polygon_c_shapes answer = with_room(room, 24, 6, 5);
    return polygon_slice(&TWO, &LINE, &query, &answer);
}

static uint32_t by_clip(Room *room) {
    polygon_c_query query = query_of(POLYGON_C_SUBJECT, POLYGON_C_NONZERO);
    polygon_c_paths answer;
    with_room(room, 0, 0, 0);
    answer = for_paths(room, 24, 6);
    return polygon_clip(&TWO, &LINE, &query, &answer);
}

static uint32_t by_sized(Room *room) {
    const polygon_c_sizing ones = {1, 1, 1, 1};
    polygon_c_query query = query_of(POLYGON_C_SUBJECT, POLYGON_C_NONZERO);
    polygon_c_shapes answer = with_room(room, 24, 6, 5);
    return polygon_sized(&TWO, &ones, &query, &answer);
}

static uint32_t by_sized_in_turn(Room *room) {
    const polygon_c_sizing ones = {1, 1, 1, 1}, less = {-1, -1, -1, -1};
    polygon_c_query query = query_of(POLYGON_C_SUBJECT, POLYGON_C_NONZERO);
    polygon_c_shapes answer = with_room(room, 24, 6, 5);
    return polygon_sized_in_turn(&TWO, &ones, &less, &query, &answer);
}

static uint32_t by_width(Room *room) {
    polygon_c_query query = query_of(POLYGON_C_SUBJECT, POLYGON_C_NONZERO);
    polygon_c_shapes answer = with_room(room, 24, 6, 5);
    return polygon_width(&TWO, 11, &query, &answer);
}

static uint32_t by_relate(Room *room) {
    polygon_c_query query = query_of(POLYGON_C_SUBJECT, POLYGON_C_NONZERO);
    polygon_c_relations told;
    with_room(room, 0, 0, 0);
    return polygon_relate(&TWO, &HOLE, &query, &told);
}

static uint32_t by_places(Room *room) {
    static const size_t ONES[] = {1, 1};
    uint8_t inside[4] = {9, 9, 9, 9};
    uint32_t status;
    with_room(room, 0, 0, 0);
    status = polygon_contains_points(&TWO, ONES, 2, POND, 4, inside, 4);
    return status != POLYGON_C_OK && memcmp(inside, "\11\11\11\11", 4) ? 99 : status;
}

static uint32_t by_located(Room *room) {
    static const size_t ONES[] = {1, 1};
    uint8_t found[4] = {9, 9, 9, 9};
    uint32_t status;
    with_room(room, 0, 0, 0);
    status = polygon_locate(&TWO, ONES, 2, POND, 4, found, 4);
    return status != POLYGON_C_OK && memcmp(found, "\11\11\11\11", 4) ? 99 : status;
}

static uint32_t by_area(Room *room) {
    polygon_c_wide area = {7, 7};
    uint32_t status = polygon_area(&TWO, &area);
    with_room(room, 0, 0, 0);
    return is_wide(area, status == POLYGON_C_OK ? 0 : 7, status == POLYGON_C_OK ? 400 : 7) ? status : 99;
}

/* Refuses each allocation of a call in turn: it answers all the same, or says that memory was refused, and leaves nothing behind. */
static void refusals(Call *call, const char *name) {
    long last, met = 0;
    Room room;
    uint32_t status;
    is_counting = 1, asked = refused = blocks = 0;
    status = call(&room);
    is_counting = 0, last = asked;
    test(status == POLYGON_C_OK && blocks == 0 && last > 0, name);
    for (refused = 1; refused <= last; refused++) {
        is_counting = 1, asked = blocks = 0;
        status = call(&room);
        is_counting = 0;
        met += status == POLYGON_C_MEMORY;
        if (blocks != 0 || (status != POLYGON_C_OK && (status != POLYGON_C_MEMORY || !is_left(&room, 0, 0, 0, 0)))) {
            test(0, name);
            return;
        }
    }
    test(met > 0, name);
}

/* ---- memory that is kept */

/* Answers and refusals are the same by a heap that keeps what it has. */
static void kept(void) {
    polygon_keep_memory();
    answers();
    refusals(by_overlay, "an overlay without memory by a heap that keeps what it has");
}

/* ---- threads */

static void *in_thread(void *wrong) {
    int round;
    for (round = 0; round < 20000; round++) {
        polygon_c_query query = query_of(round % 2 ? POLYGON_C_DIFFERENCE : POLYGON_C_UNION, POLYGON_C_NONZERO);
        Room room;
        polygon_c_shapes answer = with_room(&room, LENGTH(room.points), LENGTH(room.contours), LENGTH(room.shapes));
        uint32_t status = polygon_overlay(&ONE, &HOLE, &query, &answer);
        if (status != POLYGON_C_OK || !(round % 2 ? is_holed(&answer) : are_sizes(answer.sizes, 4, 1, 1))) {
            ++*(int *)wrong;
        }
    }
    return NULL;
}

static void threads(void) {
    pthread_t each[2];
    int wrong[2] = {0, 0}, at;
    for (at = 0; at < 2; at++) {
        if (pthread_create(&each[at], NULL, in_thread, &wrong[at])) {
            test(0, "a thread");
            return;
        }
    }
    for (at = 0; at < 2; at++) {
        pthread_join(each[at], NULL);
        test(wrong[at] == 0, "two threads at once");
    }
}

int main(int count, char **words) {
    long calls = count > 1 ? strtol(words[1], NULL, 10) : 0, call, wrong = 0;
    statuses();
    answers();
    tiles();
    edges();
    lines();
    relations();
    places();
    sizes_of_queries();
    located();
    areas();
    far_overlays();
    far_lines();
    far_places();
    sized();
    far_sized();
    sized_in_turn();
    far_sized_in_turn();
    checked();
    far_checked();
    simplified();
    texts();
    refusals(by_overlay, "an overlay without memory");
    refusals(by_hierarchy, "a hierarchy without memory");
    refusals(by_edges, "edges without memory");
    refusals(by_overlays, "many overlays without memory");
    refusals(by_slice, "a slice without memory");
    refusals(by_clip, "a clip without memory");
    refusals(by_sized, "sizing without memory");
    refusals(by_sized_in_turn, "sizing twice without memory");
    refusals(by_width, "a check without memory");
    refusals(by_relate, "relations without memory");
    refusals(by_places, "points without memory");
    refusals(by_located, "places without memory");
    refusals(by_area, "areas without memory");
    threads();
    for (call = 0; call < calls; call++) {
        polygon_c_query query = query_of(POLYGON_C_DIFFERENCE, POLYGON_C_NONZERO);
        polygon_c_point points[8];
        size_t contours[2], shapes[1];
        polygon_c_shapes answer = {points, 8, contours, 2, shapes, 1, {0, 0, 0}};
        wrong += polygon_overlay(&ONE, &HOLE, &query, &answer) != POLYGON_C_OK || !is_holed(&answer);
    }
    test(wrong == 0, "many calls");
    kept();
    printf("%d passed, %d failed\n", passed, failed);
    return failed != 0;
}
