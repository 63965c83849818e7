/*
 * The overlay engine for C and C++.
 *
 * Coordinates are whole numbers from -524288 to 524287. A contour is a list of points; the last leads back to the first. Contours are
 * given as the points of all of them in one array, and how many points each has in another; shapes as how many contours each has too,
 * the outline before its holes.
 *
 * Each call answers a status: 0 where it answered, else why it didn't (POLYGON_C_MEMORY and so on). Then what it would have written is
 * unchanged, but for sizes, which POLYGON_C_ROOM tells too. The functions polygon_* look for arrays that are NULL first, and answer
 * POLYGON_C_LENGTHS; then the library tests POLYGON_C_SIZE, and in the order of the numbers from POLYGON_C_RULE on. POLYGON_C_ROOM comes
 * last, after an answer was found.
 *
 * The functions polygon_*, at the end, are those to call. They take structs, in which an array that is NULL has to have the length 0.
 * The functions polygon_c_* are what the library exports: a pointer there is never NULL, not even with the length 0, and is aligned and
 * leads to as many elements as its length says. No array that is written overlaps another argument. Nothing checks that.
 *
 * No call leaves anything behind, so any number of threads may call at once. Memory is taken by malloc, realloc and free; none is kept, but by
 * the heap itself where polygon_keep_memory tells it to. Don't call from a signal handler, or in the forked child of a process with threads.
 */
#ifndef POLYGON_C_H
#define POLYGON_C_H

#include <stddef.h>
#include <stdint.h>
#include <string.h>

#ifdef __GLIBC__
#include <malloc.h>
#endif

#ifdef __cplusplus
extern "C" {
#endif

/* Statuses. */
enum {
    POLYGON_C_OK = 0,
    POLYGON_C_MEMORY = 1,    /* memory was refused */
    POLYGON_C_COUNT = 2,     /* too many contours run along an edge, or wind round a point */
    POLYGON_C_EDGES = 3,     /* there would be 2147483648 edges or more */
    POLYGON_C_RULE = 4,      /* no overlay rule has this number */
    POLYGON_C_FILL = 5,      /* no fill rule has this number, or its depth is below 1 */
    POLYGON_C_STRATEGY = 6,  /* no strategy has this number */
    POLYGON_C_PRECISION = 7, /* no precision has this number */
    POLYGON_C_LENGTHS = 8,   /* the lengths don't sum to what they cut */
    POLYGON_C_RANGE = 9,     /* a coordinate is not from -524288 to 524287 */
    POLYGON_C_ROOM = 10,     /* an array is too small for the answer */
    POLYGON_C_SIZE = 11,     /* a query has more words than the library knows: that is older than the header */
    POLYGON_C_RANGE64 = 12,  /* a coordinate is not from -68719476736 to 68719476735: see polygon_c64.h */
    POLYGON_C_JOIN = 13,     /* no join has this number, or numbers that are to be kept differ: see polygon_overlay_edges */
    POLYGON_C_SLANT = 14     /* an edge is neither horizontal nor vertical: see polygon_sized, polygon_width */
};

/* The version that this header is of: a million times its first number, a thousand times its second, and its third. */
#define POLYGON_C_VERSION 1000000

/* Which points an overlay keeps. */
enum {
    POLYGON_C_SUBJECT = 0,
    POLYGON_C_CLIP = 1,
    POLYGON_C_INTERSECT = 2,
    POLYGON_C_UNION = 3,
    POLYGON_C_DIFFERENCE = 4,         /* of the subject, and not of the clip */
    POLYGON_C_INVERSE_DIFFERENCE = 5, /* of the clip, and not of the subject */
    POLYGON_C_XOR = 6
};

/*
 * Where contours fill: where they wind round a point an odd number of times, any, more than 0, less than 0, or `depth` times or more. A contour that
 * runs clockwise winds -1 times round what lies in it: alone it fills nothing under POLYGON_C_POSITIVE and POLYGON_C_ATLEAST, and no call refuses it.
 */
enum {
    POLYGON_C_EVENODD = 0,
    POLYGON_C_NONZERO = 1,
    POLYGON_C_POSITIVE = 2,
    POLYGON_C_NEGATIVE = 3,
    POLYGON_C_ATLEAST = 4
};

/* How pairs of edges that meet are found. No answer depends on it. */
enum {
    POLYGON_C_AUTO = 0,
    POLYGON_C_LIST = 1,
    POLYGON_C_TREE = 2,
    POLYGON_C_FRAG = 3
};

/* How near to an end a crossing off the grid has to be to go there. */
enum {
    POLYGON_C_HIGH = 0,
    POLYGON_C_MEDIUM_HIGH = 1,
    POLYGON_C_MEDIUM = 2,
    POLYGON_C_MEDIUM_LOW = 3,
    POLYGON_C_LOW = 4,
    POLYGON_C_ABSOLUTE = 5
};

typedef struct polygon_c_point {
    int32_t x, y;
} polygon_c_point;

/*
 * What is asked. What is left 0 is as the engine has it by default. A flag counts unless it is 0.
 *
 * It is handed to the library as words of 32 bits, with how many there are. A later version may have more of them, behind these: what a
 * caller's header doesn't have is 0. So a caller that was compiled with an older header need not be compiled anew.
 */
typedef struct polygon_c_query {
    uint64_t least_area;        /* the least area of a contour of the answer */
    uint32_t rule;              /* POLYGON_C_SUBJECT and so on */
    uint32_t fill;              /* POLYGON_C_EVENODD and so on */
    int32_t depth;              /* of POLYGON_C_ATLEAST: 1 or more */
    uint32_t strategy;          /* POLYGON_C_AUTO and so on */
    uint32_t precision;         /* POLYGON_C_HIGH and so on */
    uint32_t clockwise;         /* outlines run clockwise, and holes the other way */
    uint32_t keep_given_points; /* points on a line with their neighbours are kept of what is given */
    uint32_t keep_points;       /* points that contours pass straight are kept in the answer */
    uint32_t part_contours;     /* contours that touch themselves are parted */
    uint32_t clip_outside;      /* of polygon_clip: what is outside of the shape is kept, and not what is inside */
    uint32_t clip_border;       /* of polygon_clip: what runs along the border is inside */
} polygon_c_query;

/* How many words of a query there are. */
#define POLYGON_C_QUERY_WORDS 13

/* How many there are in an answer. */
typedef struct polygon_c_sizes {
    size_t points, contours, shapes;
} polygon_c_sizes;

/* A shape that lies in a hole of another, directly. All are numbered from 0. */
typedef struct polygon_c_link {
    size_t parent_shape;   /* the shape with the hole */
    size_t parent_contour; /* the hole, by its number among the contours of all shapes */
    size_t child_shape;    /* the shape in the hole */
} polygon_c_link;

/* How many there are in an answer with links. */
typedef struct polygon_c_link_sizes {
    size_t points, contours, shapes, links;
} polygon_c_link_sizes;

/* How many there are in an answer of many overlays. */
typedef struct polygon_c_many_sizes {
    size_t points, contours, shapes, overlays;
} polygon_c_many_sizes;

/* How what a subject and a clip fill is related: 1 where it is so, else 0. */
typedef struct polygon_c_relations {
    uint8_t intersects;          /* they have a point in common */
    uint8_t interiors_intersect; /* their interiors have */
    uint8_t touches;             /* they intersect, and their interiors don't */
    uint8_t point_intersects;    /* they meet at ends of edges alone */
    uint8_t within;              /* the subject fills something, and the clip all that the subject fills */
    uint8_t disjoint;            /* they don't intersect */
    uint8_t covers;              /* the clip fills something, and the subject all that the clip fills */
} polygon_c_relations;

/* A signed number of 128 bits: high * 2^64 + low. */
typedef struct polygon_c_wide {
    uint64_t low;
    int64_t high;
} polygon_c_wide;

/* By how much the sides of a region move outward: left ones to the left, right ones to the right, bottoms down, tops up. Below 0 they move inward. */
typedef struct polygon_c_sizing {
    int32_t left, right, bottom, top;
} polygon_c_sizing;

/* What the number of an edge becomes where several come to lie on one. */
enum {
    POLYGON_C_JOIN_OR = 0,    /* each bit that one of them has */
    POLYGON_C_JOIN_LEAST = 1, /* the least */
    POLYGON_C_JOIN_KEPT = 2   /* the number of all; the call is refused where those of an edge of the answer differ */
};

/* Where a point lies. */
enum { POLYGON_C_OUTSIDE = 0, POLYGON_C_INSIDE = 1, POLYGON_C_ON_EDGE = 2 };

/* ---- what the library exports */

/* The version of the library, as POLYGON_C_VERSION is that of this header. */
uint32_t polygon_c_version(void);

/* See polygon_overlay. */
uint32_t polygon_c_overlay(const polygon_c_point *subject, size_t subject_points, const size_t *subject_lengths, size_t subject_contours,
                           const polygon_c_point *clip, size_t clip_points, const size_t *clip_lengths, size_t clip_contours,
                           const uint32_t *query, size_t query_words, polygon_c_point *points, size_t points_room, size_t *contours,
                           size_t contours_room, size_t *shapes, size_t shapes_room, polygon_c_sizes *sizes);

/* See polygon_hierarchy. */
uint32_t polygon_c_hierarchy(const polygon_c_point *subject, size_t subject_points, const size_t *subject_lengths, size_t subject_contours,
                             const polygon_c_point *clip, size_t clip_points, const size_t *clip_lengths, size_t clip_contours,
                             const uint32_t *query, size_t query_words, polygon_c_point *points, size_t points_room, size_t *contours,
                             size_t contours_room, size_t *shapes, size_t shapes_room, polygon_c_link *links, size_t links_room,
                             polygon_c_link_sizes *sizes);

/* See polygon_overlays. */
uint32_t polygon_c_overlays(const polygon_c_point *subject, size_t subject_points, const size_t *subject_lengths, size_t subject_contours,
                            const polygon_c_point *clip, size_t clip_points, const size_t *clip_lengths, size_t clip_contours,
                            const size_t *groups, size_t groups_len, const uint32_t *query, size_t query_words, polygon_c_point *points,
                            size_t points_room, size_t *contours, size_t contours_room, size_t *shapes, size_t shapes_room,
                            size_t *overlays, size_t overlays_room, polygon_c_many_sizes *sizes);

/* See polygon_overlay_edges. */
uint32_t polygon_c_overlay_edges(const polygon_c_point *subject, size_t subject_points, const size_t *subject_lengths, size_t subject_contours,
                                 const uint64_t *subject_numbers, size_t subject_numbers_len, const polygon_c_point *clip, size_t clip_points,
                                 const size_t *clip_lengths, size_t clip_contours, const uint64_t *clip_numbers, size_t clip_numbers_len,
                                 uint32_t join, const uint32_t *query, size_t query_words, polygon_c_point *points, size_t points_room,
                                 size_t *contours, size_t contours_room, size_t *shapes, size_t shapes_room, uint64_t *numbers,
                                 size_t numbers_room, polygon_c_sizes *sizes);

/* See polygon_slice. */
uint32_t polygon_c_slice(const polygon_c_point *shape, size_t shape_points, const size_t *shape_lengths, size_t shape_contours,
                         const polygon_c_point *lines, size_t lines_points, const size_t *line_lengths, size_t lines_len,
                         const uint32_t *query, size_t query_words, polygon_c_point *points, size_t points_room, size_t *contours,
                         size_t contours_room, size_t *shapes, size_t shapes_room, polygon_c_sizes *sizes);

/* See polygon_clip. */
uint32_t polygon_c_clip(const polygon_c_point *shape, size_t shape_points, const size_t *shape_lengths, size_t shape_contours,
                        const polygon_c_point *lines, size_t lines_points, const size_t *line_lengths, size_t lines_len,
                        const uint32_t *query, size_t query_words, polygon_c_point *points, size_t points_room, size_t *lengths, size_t lengths_room,
                        polygon_c_sizes *sizes);

/* See polygon_sized. */
uint32_t polygon_c_sized(const polygon_c_point *subject, size_t subject_points, const size_t *subject_lengths, size_t subject_contours,
                         int32_t left, int32_t right, int32_t bottom, int32_t top, const uint32_t *query, size_t query_words,
                         polygon_c_point *points, size_t points_room, size_t *contours, size_t contours_room, size_t *shapes, size_t shapes_room,
                         polygon_c_sizes *sizes);

/* See polygon_sized_in_turn. */
uint32_t polygon_c_sized_in_turn(const polygon_c_point *subject, size_t subject_points, const size_t *subject_lengths, size_t subject_contours,
                                 int32_t left, int32_t right, int32_t bottom, int32_t top, int32_t then_left, int32_t then_right,
                                 int32_t then_bottom, int32_t then_top, const uint32_t *query, size_t query_words, polygon_c_point *points,
                                 size_t points_room, size_t *contours, size_t contours_room, size_t *shapes, size_t shapes_room,
                                 polygon_c_sizes *sizes);

/* See polygon_width. */
uint32_t polygon_c_width(const polygon_c_point *subject, size_t subject_points, const size_t *subject_lengths, size_t subject_contours,
                         int32_t width, const uint32_t *query, size_t query_words, polygon_c_point *points, size_t points_room,
                         size_t *contours, size_t contours_room, size_t *shapes, size_t shapes_room, polygon_c_sizes *sizes);

/* See polygon_space. */
uint32_t polygon_c_space(const polygon_c_point *subject, size_t subject_points, const size_t *subject_lengths, size_t subject_contours,
                         int32_t space, const uint32_t *query, size_t query_words, polygon_c_point *points, size_t points_room,
                         size_t *contours, size_t contours_room, size_t *shapes, size_t shapes_room, polygon_c_sizes *sizes);

/* See polygon_relate. */
uint32_t polygon_c_relate(const polygon_c_point *subject, size_t subject_points, const size_t *subject_lengths, size_t subject_contours,
                          const polygon_c_point *clip, size_t clip_points, const size_t *clip_lengths, size_t clip_contours,
                          const uint32_t *query, size_t query_words, polygon_c_relations *relations);

/* See polygon_contains_points. */
uint32_t polygon_c_contains_points(const polygon_c_point *points, size_t points_len, const size_t *contours, size_t contours_len,
                                   const size_t *shapes, size_t shapes_len, const polygon_c_point *places, size_t places_len,
                                   uint8_t *inside, size_t inside_room);

/* See polygon_locate. */
uint32_t polygon_c_locate(const polygon_c_point *points, size_t points_len, const size_t *contours, size_t contours_len,
                          const size_t *shapes, size_t shapes_len, const polygon_c_point *places, size_t places_len, uint8_t *found,
                          size_t found_room);

/* Twice the signed area of one contour, above 0 where it runs counterclockwise: see polygon_area. */
uint32_t polygon_c_area(const polygon_c_point *points, size_t points_len, polygon_c_wide *area);

/* Writes what a status says to `bytes`, if there is room for all of it, with no byte 0 at the end. Answers how many bytes that are. */
size_t polygon_c_text(uint32_t status, unsigned char *bytes, size_t room);

/* ---- what to call */

/* Contours that are given. */
typedef struct polygon_c_contours {
    const polygon_c_point *points; /* those of all contours */
    size_t points_len;
    const size_t *lengths; /* how many points each contour has; they sum to points_len */
    size_t lengths_len;
} polygon_c_contours;

/* Arrays for an answer, and how much of them it takes. */
typedef struct polygon_c_shapes {
    polygon_c_point *points; /* those of all contours */
    size_t points_room;
    size_t *contours; /* how many points each contour has */
    size_t contours_room;
    size_t *shapes; /* how many contours each shape has, the outline first */
    size_t shapes_room;
    polygon_c_sizes sizes; /* told with POLYGON_C_OK, and with POLYGON_C_ROOM */
} polygon_c_shapes;

/* Arrays for paths that are answered, and how much of them it takes. */
typedef struct polygon_c_paths {
    polygon_c_point *points; /* those of all paths */
    size_t points_room;
    size_t *lengths; /* how many points each path has */
    size_t lengths_room;
    polygon_c_sizes sizes; /* told with POLYGON_C_OK, and with POLYGON_C_ROOM: `contours` counts the paths, and `shapes` is 0 */
} polygon_c_paths;

/* Somewhere to point to in place of NULL, where nothing is read or written. */
static inline void *polygon_c_somewhere(const void *array) {
    static size_t nothing;
    return array ? (void *)(uintptr_t)array : (void *)&nothing;
}

/* The words of a query. */
typedef struct polygon_c_words {
    uint32_t all[POLYGON_C_QUERY_WORDS];
} polygon_c_words;

static inline polygon_c_words polygon_c_words_of(const polygon_c_query *query) {
    polygon_c_words words;
    memcpy(words.all, query, sizeof words.all);
    return words;
}

/* Whether an array is there, or has no element. */
static inline int polygon_c_is_there(const void *array, size_t length) { return array != NULL || length == 0; }

static inline int polygon_c_are_there(const polygon_c_contours *given) {
    return polygon_c_is_there(given->points, given->points_len) && polygon_c_is_there(given->lengths, given->lengths_len);
}

/*
 * Overlays the contours of a subject and of a clip. The shapes of the points that the rule keeps are written to the beginnings of the
 * arrays of `answer`, and their numbers to `answer->sizes`.
 *
 * POLYGON_C_ROOM: an array of `answer` is too small; `answer->sizes` says what is needed. POLYGON_C_LENGTHS also where an array is NULL whose
 * length isn't 0.
 */
static inline uint32_t polygon_overlay(const polygon_c_contours *subject, const polygon_c_contours *clip, const polygon_c_query *query,
                                       polygon_c_shapes *answer) {
    const polygon_c_words words = polygon_c_words_of(query);
    if (!polygon_c_are_there(subject) || !polygon_c_are_there(clip) || !polygon_c_is_there(answer->points, answer->points_room) ||
        !polygon_c_is_there(answer->contours, answer->contours_room) || !polygon_c_is_there(answer->shapes, answer->shapes_room)) {
        return POLYGON_C_LENGTHS;
    }
    return polygon_c_overlay(
        (const polygon_c_point *)polygon_c_somewhere(subject->points), subject->points_len,
        (const size_t *)polygon_c_somewhere(subject->lengths), subject->lengths_len,
        (const polygon_c_point *)polygon_c_somewhere(clip->points), clip->points_len, (const size_t *)polygon_c_somewhere(clip->lengths),
        clip->lengths_len, words.all, POLYGON_C_QUERY_WORDS, (polygon_c_point *)polygon_c_somewhere(answer->points), answer->points_room,
        (size_t *)polygon_c_somewhere(answer->contours), answer->contours_room, (size_t *)polygon_c_somewhere(answer->shapes),
        answer->shapes_room, &answer->sizes);
}

/*
 * Overlays a subject with each of many groups of clips, as polygon_overlay does with one, by one builder. `groups` has how many of the clips
 * each group has; they sum to `clip->lengths_len`. The shapes of all overlays are written one overlay after another, and to `overlays` how
 * many shapes each has, one for each group. `sizes` says how many there are of each; that of `answer` is told alike. Where one of the overlays is
 * refused, nothing is answered.
 */
static inline uint32_t polygon_overlays(const polygon_c_contours *subject, const polygon_c_contours *clip, const size_t *groups,
                                        size_t groups_len, const polygon_c_query *query, polygon_c_shapes *answer, size_t *overlays,
                                        size_t overlays_room, polygon_c_many_sizes *sizes) {
    const polygon_c_words words = polygon_c_words_of(query);
    uint32_t status;
    if (!polygon_c_are_there(subject) || !polygon_c_are_there(clip) || !polygon_c_is_there(groups, groups_len) ||
        !polygon_c_is_there(answer->points, answer->points_room) || !polygon_c_is_there(answer->contours, answer->contours_room) ||
        !polygon_c_is_there(answer->shapes, answer->shapes_room) || !polygon_c_is_there(overlays, overlays_room)) {
        return POLYGON_C_LENGTHS;
    }
    status = polygon_c_overlays(
        (const polygon_c_point *)polygon_c_somewhere(subject->points), subject->points_len,
        (const size_t *)polygon_c_somewhere(subject->lengths), subject->lengths_len,
        (const polygon_c_point *)polygon_c_somewhere(clip->points), clip->points_len, (const size_t *)polygon_c_somewhere(clip->lengths),
        clip->lengths_len, (const size_t *)polygon_c_somewhere(groups), groups_len, words.all, POLYGON_C_QUERY_WORDS,
        (polygon_c_point *)polygon_c_somewhere(answer->points), answer->points_room,
        (size_t *)polygon_c_somewhere(answer->contours), answer->contours_room, (size_t *)polygon_c_somewhere(answer->shapes),
        answer->shapes_room, (size_t *)polygon_c_somewhere(overlays), overlays_room, sizes);
    if (status == POLYGON_C_OK || status == POLYGON_C_ROOM) {
        answer->sizes.points = sizes->points;
        answer->sizes.contours = sizes->contours;
        answer->sizes.shapes = sizes->shapes;
    }
    return status;
}

/*
 * Overlays contours whose edges have numbers. `subject_numbers` and `clip_numbers` have one for each point: that of the edge from it to the next of its
 * contour, from the last to the first. `numbers` gets them alike for the answer, `answer->sizes.points` of them. Parts of an edge that is cut have
 * its number. Where several edges come to lie on one, `join` says what it has (POLYGON_C_JOIN_OR and so on), subject and clip alike. A point
 * where the number changes stays, also where the contour passes it straight. Of the query `keep_given_points` and `part_contours` aren't read:
 * all given points are kept, and no contour is parted.
 *
 * POLYGON_C_ROOM also where `numbers` is too small. The export tells POLYGON_C_LENGTHS after POLYGON_C_RANGE where there are more or fewer numbers than
 * points, and then POLYGON_C_JOIN where no join has this number.
 */
static inline uint32_t polygon_overlay_edges(const polygon_c_contours *subject, const uint64_t *subject_numbers, const polygon_c_contours *clip,
                                             const uint64_t *clip_numbers, uint32_t join, const polygon_c_query *query, polygon_c_shapes *answer,
                                             uint64_t *numbers, size_t numbers_room) {
    const polygon_c_words words = polygon_c_words_of(query);
    if (!polygon_c_are_there(subject) || !polygon_c_is_there(subject_numbers, subject->points_len) || !polygon_c_are_there(clip) ||
        !polygon_c_is_there(clip_numbers, clip->points_len) || !polygon_c_is_there(answer->points, answer->points_room) ||
        !polygon_c_is_there(answer->contours, answer->contours_room) || !polygon_c_is_there(answer->shapes, answer->shapes_room) ||
        !polygon_c_is_there(numbers, numbers_room)) {
        return POLYGON_C_LENGTHS;
    }
    return polygon_c_overlay_edges(
        (const polygon_c_point *)polygon_c_somewhere(subject->points), subject->points_len,
        (const size_t *)polygon_c_somewhere(subject->lengths), subject->lengths_len, (const uint64_t *)polygon_c_somewhere(subject_numbers),
        subject->points_len, (const polygon_c_point *)polygon_c_somewhere(clip->points), clip->points_len,
        (const size_t *)polygon_c_somewhere(clip->lengths), clip->lengths_len, (const uint64_t *)polygon_c_somewhere(clip_numbers), clip->points_len,
        join, words.all, POLYGON_C_QUERY_WORDS, (polygon_c_point *)polygon_c_somewhere(answer->points), answer->points_room,
        (size_t *)polygon_c_somewhere(answer->contours), answer->contours_room, (size_t *)polygon_c_somewhere(answer->shapes),
        answer->shapes_room, (uint64_t *)polygon_c_somewhere(numbers), numbers_room, &answer->sizes);
}

/*
 * Parts a shape along open lines: of a line the last point doesn't lead back to the first. A line parts where it runs from border to border.
 * The pieces are answered as polygon_overlay answers shapes, outlines counterclockwise. Of the query it reads fill and depth; all its
 * numbers are tested.
 */
static inline uint32_t polygon_slice(const polygon_c_contours *shape, const polygon_c_contours *lines, const polygon_c_query *query,
                                     polygon_c_shapes *answer) {
    const polygon_c_words words = polygon_c_words_of(query);
    if (!polygon_c_are_there(shape) || !polygon_c_are_there(lines) || !polygon_c_is_there(answer->points, answer->points_room) ||
        !polygon_c_is_there(answer->contours, answer->contours_room) || !polygon_c_is_there(answer->shapes, answer->shapes_room)) {
        return POLYGON_C_LENGTHS;
    }
    return polygon_c_slice(
        (const polygon_c_point *)polygon_c_somewhere(shape->points), shape->points_len,
        (const size_t *)polygon_c_somewhere(shape->lengths), shape->lengths_len,
        (const polygon_c_point *)polygon_c_somewhere(lines->points), lines->points_len,
        (const size_t *)polygon_c_somewhere(lines->lengths), lines->lengths_len, words.all, POLYGON_C_QUERY_WORDS,
        (polygon_c_point *)polygon_c_somewhere(answer->points), answer->points_room,
        (size_t *)polygon_c_somewhere(answer->contours), answer->contours_room, (size_t *)polygon_c_somewhere(answer->shapes),
        answer->shapes_room, &answer->sizes);
}

/*
 * Clips open lines by a shape: the paths that are left of them, in their direction. Of the query it reads fill, depth, clip_outside and
 * clip_border; all its numbers are tested.
 */
static inline uint32_t polygon_clip(const polygon_c_contours *shape, const polygon_c_contours *lines, const polygon_c_query *query,
                                    polygon_c_paths *answer) {
    const polygon_c_words words = polygon_c_words_of(query);
    if (!polygon_c_are_there(shape) || !polygon_c_are_there(lines) || !polygon_c_is_there(answer->points, answer->points_room) ||
        !polygon_c_is_there(answer->lengths, answer->lengths_room)) {
        return POLYGON_C_LENGTHS;
    }
    return polygon_c_clip((const polygon_c_point *)polygon_c_somewhere(shape->points), shape->points_len,
                          (const size_t *)polygon_c_somewhere(shape->lengths), shape->lengths_len,
                          (const polygon_c_point *)polygon_c_somewhere(lines->points), lines->points_len,
                          (const size_t *)polygon_c_somewhere(lines->lengths), lines->lengths_len, words.all, POLYGON_C_QUERY_WORDS,
                          (polygon_c_point *)polygon_c_somewhere(answer->points), answer->points_room,
                          (size_t *)polygon_c_somewhere(answer->lengths), answer->lengths_room, &answer->sizes);
}

/*
 * Grows or shrinks what contours fill, of which each edge is horizontal or vertical: `by` says how far left sides move to the left, right sides to the
 * right, bottoms down and tops up, first in x and then in y, and inward where it is below 0. What is shrunk by as much as it is wide is gone, and gaps
 * and holes that are grown over are filled. The shapes are answered as polygon_overlay answers them, with horizontal and vertical edges. Of the query it reads
 * all but the rule and what is of lines; all its numbers are tested.
 *
 * After POLYGON_C_RANGE it tells POLYGON_C_SLANT, where an edge is neither horizontal nor vertical, and then POLYGON_C_RANGE again, where a point that is moved
 * back by one amount, or on by the other, would be out of range, in x or in y.
 */
static inline uint32_t polygon_sized(const polygon_c_contours *contours, const polygon_c_sizing *by, const polygon_c_query *query,
                                     polygon_c_shapes *answer) {
    const polygon_c_words words = polygon_c_words_of(query);
    if (!polygon_c_are_there(contours) || !polygon_c_is_there(answer->points, answer->points_room) ||
        !polygon_c_is_there(answer->contours, answer->contours_room) || !polygon_c_is_there(answer->shapes, answer->shapes_room)) {
        return POLYGON_C_LENGTHS;
    }
    return polygon_c_sized((const polygon_c_point *)polygon_c_somewhere(contours->points), contours->points_len,
                           (const size_t *)polygon_c_somewhere(contours->lengths), contours->lengths_len, by->left, by->right, by->bottom, by->top,
                           words.all, POLYGON_C_QUERY_WORDS, (polygon_c_point *)polygon_c_somewhere(answer->points), answer->points_room,
                           (size_t *)polygon_c_somewhere(answer->contours), answer->contours_room, (size_t *)polygon_c_somewhere(answer->shapes),
                           answer->shapes_room, &answer->sizes);
}

/*
 * Sizes so twice: what polygon_sized answers for the first amounts is sized by the second, as where a mask is grown and shrunk again, which closes it, or
 * shrunk and grown again, which opens it. Two calls take longer. All else is as of polygon_sized, but that POLYGON_C_RANGE
 * is told also where what a point is moved to would be out of range, once moved again.
 */
static inline uint32_t polygon_sized_in_turn(const polygon_c_contours *contours, const polygon_c_sizing *first,
                                             const polygon_c_sizing *second, const polygon_c_query *query, polygon_c_shapes *answer) {
    const polygon_c_words words = polygon_c_words_of(query);
    if (!polygon_c_are_there(contours) || !polygon_c_is_there(answer->points, answer->points_room) ||
        !polygon_c_is_there(answer->contours, answer->contours_room) || !polygon_c_is_there(answer->shapes, answer->shapes_room)) {
        return POLYGON_C_LENGTHS;
    }
    return polygon_c_sized_in_turn((const polygon_c_point *)polygon_c_somewhere(contours->points), contours->points_len,
                                   (const size_t *)polygon_c_somewhere(contours->lengths), contours->lengths_len, first->left, first->right,
                                   first->bottom, first->top, second->left, second->right, second->bottom, second->top, words.all,
                                   POLYGON_C_QUERY_WORDS, (polygon_c_point *)polygon_c_somewhere(answer->points), answer->points_room,
                                   (size_t *)polygon_c_somewhere(answer->contours), answer->contours_room,
                                   (size_t *)polygon_c_somewhere(answer->shapes), answer->shapes_room, &answer->sizes);
}

/*
 * What of contours, of which each edge is horizontal or vertical, is narrower than a width: each point of what they fill that no square of this width in it
 * covers, wherever the square stands. The shapes are answered as polygon_overlay answers them, with horizontal and vertical edges. Corners that face each
 * other diagonally are told nowhere, however near they are. Of the query it reads all but the rule and what is of lines; all its numbers are tested.
 *
 * After POLYGON_C_RANGE it tells POLYGON_C_SLANT, where an edge is neither horizontal nor vertical, and then POLYGON_C_RANGE again, where the width is below 1,
 * or it or a point that is moved by it would be out of range.
 */
static inline uint32_t polygon_width(const polygon_c_contours *contours, int32_t width, const polygon_c_query *query,
                                     polygon_c_shapes *answer) {
    const polygon_c_words words = polygon_c_words_of(query);
    if (!polygon_c_are_there(contours) || !polygon_c_is_there(answer->points, answer->points_room) ||
        !polygon_c_is_there(answer->contours, answer->contours_room) || !polygon_c_is_there(answer->shapes, answer->shapes_room)) {
        return POLYGON_C_LENGTHS;
    }
    return polygon_c_width((const polygon_c_point *)polygon_c_somewhere(contours->points), contours->points_len,
                           (const size_t *)polygon_c_somewhere(contours->lengths), contours->lengths_len, width, words.all, POLYGON_C_QUERY_WORDS,
                           (polygon_c_point *)polygon_c_somewhere(answer->points), answer->points_room,
                           (size_t *)polygon_c_somewhere(answer->contours), answer->contours_room,
                           (size_t *)polygon_c_somewhere(answer->shapes), answer->shapes_room, &answer->sizes);
}

/*
 * Where such contours are nearer to each other than a space, or sides of a notch: each point outside of what they fill that no square of this width
 * outside covers. All else is as of polygon_width.
 */
static inline uint32_t polygon_space(const polygon_c_contours *contours, int32_t space, const polygon_c_query *query,
                                     polygon_c_shapes *answer) {
    const polygon_c_words words = polygon_c_words_of(query);
    if (!polygon_c_are_there(contours) || !polygon_c_is_there(answer->points, answer->points_room) ||
        !polygon_c_is_there(answer->contours, answer->contours_room) || !polygon_c_is_there(answer->shapes, answer->shapes_room)) {
        return POLYGON_C_LENGTHS;
    }
    return polygon_c_space((const polygon_c_point *)polygon_c_somewhere(contours->points), contours->points_len,
                           (const size_t *)polygon_c_somewhere(contours->lengths), contours->lengths_len, space, words.all, POLYGON_C_QUERY_WORDS,
                           (polygon_c_point *)polygon_c_somewhere(answer->points), answer->points_room,
                           (size_t *)polygon_c_somewhere(answer->contours), answer->contours_room,
                           (size_t *)polygon_c_somewhere(answer->shapes), answer->shapes_room, &answer->sizes);
}

/*
 * Overlays as polygon_overlay does, and writes to `links` a link for each shape that lies in a hole of another, by rising holes and
 * shapes. `sizes` says how many there are of each; that of `answer` is told alike.
 */
static inline uint32_t polygon_hierarchy(const polygon_c_contours *subject, const polygon_c_contours *clip, const polygon_c_query *query,
                                         polygon_c_shapes *answer, polygon_c_link *links, size_t links_room, polygon_c_link_sizes *sizes) {
    const polygon_c_words words = polygon_c_words_of(query);
    uint32_t status;
    if (!polygon_c_are_there(subject) || !polygon_c_are_there(clip) || !polygon_c_is_there(answer->points, answer->points_room) ||
        !polygon_c_is_there(answer->contours, answer->contours_room) || !polygon_c_is_there(answer->shapes, answer->shapes_room) ||
        !polygon_c_is_there(links, links_room)) {
        return POLYGON_C_LENGTHS;
    }
    status = polygon_c_hierarchy(
        (const polygon_c_point *)polygon_c_somewhere(subject->points), subject->points_len,
        (const size_t *)polygon_c_somewhere(subject->lengths), subject->lengths_len,
        (const polygon_c_point *)polygon_c_somewhere(clip->points), clip->points_len, (const size_t *)polygon_c_somewhere(clip->lengths),
        clip->lengths_len, words.all, POLYGON_C_QUERY_WORDS, (polygon_c_point *)polygon_c_somewhere(answer->points), answer->points_room,
        (size_t *)polygon_c_somewhere(answer->contours), answer->contours_room, (size_t *)polygon_c_somewhere(answer->shapes),
        answer->shapes_room, (polygon_c_link *)polygon_c_somewhere(links), links_room, sizes);
    if (status == POLYGON_C_OK || status == POLYGON_C_ROOM) {
        answer->sizes.points = sizes->points;
        answer->sizes.contours = sizes->contours;
        answer->sizes.shapes = sizes->shapes;
    }
    return status;
}

/*
 * Tells how what a subject and a clip fill is related, each contour taken without the points that lie on a line with their neighbours. Of the
 * query it reads fill, depth, strategy and precision; all its numbers are tested.
 */
static inline uint32_t polygon_relate(const polygon_c_contours *subject, const polygon_c_contours *clip, const polygon_c_query *query,
                                      polygon_c_relations *relations) {
    const polygon_c_words words = polygon_c_words_of(query);
    if (!polygon_c_are_there(subject) || !polygon_c_are_there(clip)) {
        return POLYGON_C_LENGTHS;
    }
    return polygon_c_relate((const polygon_c_point *)polygon_c_somewhere(subject->points), subject->points_len,
                            (const size_t *)polygon_c_somewhere(subject->lengths), subject->lengths_len,
                            (const polygon_c_point *)polygon_c_somewhere(clip->points), clip->points_len,
                            (const size_t *)polygon_c_somewhere(clip->lengths), clip->lengths_len, words.all, POLYGON_C_QUERY_WORDS, relations);
}

/*
 * Tells of each of `places_len` points whether it lies in one of the shapes, by 1 or 0 at the beginning of `inside`: inside of an odd number
 * of a shape's contours, each by whether it winds round the point an odd number of times. Nothing is told of a point on an edge. `shapes` has
 * how many contours each shape has; they sum to `contours->lengths_len`. Here POLYGON_C_ROOM is told before anything is reckoned.
 */
static inline uint32_t polygon_contains_points(const polygon_c_contours *contours, const size_t *shapes, size_t shapes_len,
                                               const polygon_c_point *places, size_t places_len, uint8_t *inside, size_t inside_room) {
    if (!polygon_c_are_there(contours) || !polygon_c_is_there(shapes, shapes_len) || !polygon_c_is_there(places, places_len) ||
        !polygon_c_is_there(inside, inside_room)) {
        return POLYGON_C_LENGTHS;
    }
    return polygon_c_contains_points((const polygon_c_point *)polygon_c_somewhere(contours->points), contours->points_len,
                                     (const size_t *)polygon_c_somewhere(contours->lengths), contours->lengths_len,
                                     (const size_t *)polygon_c_somewhere(shapes), shapes_len,
                                     (const polygon_c_point *)polygon_c_somewhere(places), places_len,
                                     (uint8_t *)polygon_c_somewhere(inside), inside_room);
}

/*
 * Tells of each of `places_len` points where it lies, at the beginning of `found`: POLYGON_C_ON_EDGE on an edge of a contour, its ends
 * among them; else POLYGON_C_INSIDE in one of the shapes, as polygon_contains_points tells it; else POLYGON_C_OUTSIDE. Points are asked one by
 * one under boxes of contours: where these lie over each other, as of contours in one another, polygon_contains_points is faster for many
 * points. Here too POLYGON_C_ROOM is told before anything is reckoned.
 */
static inline uint32_t polygon_locate(const polygon_c_contours *contours, const size_t *shapes, size_t shapes_len,
                                      const polygon_c_point *places, size_t places_len, uint8_t *found, size_t found_room) {
    if (!polygon_c_are_there(contours) || !polygon_c_is_there(shapes, shapes_len) || !polygon_c_is_there(places, places_len) ||
        !polygon_c_is_there(found, found_room)) {
        return POLYGON_C_LENGTHS;
    }
    return polygon_c_locate((const polygon_c_point *)polygon_c_somewhere(contours->points), contours->points_len,
                            (const size_t *)polygon_c_somewhere(contours->lengths), contours->lengths_len,
                            (const size_t *)polygon_c_somewhere(shapes), shapes_len,
                            (const polygon_c_point *)polygon_c_somewhere(places), places_len,
                            (uint8_t *)polygon_c_somewhere(found), found_room);
}

/*
 * Twice the signed area of each contour, summed: above 0 where contours run counterclockwise. So the answer of an overlay has twice the area of
 * its region. Where `area->high` is 0 or -1 and the sum is from -2^63 to 2^63 - 1, (int64_t)area->low is it.
 */
static inline uint32_t polygon_area(const polygon_c_contours *contours, polygon_c_wide *area) {
    polygon_c_wide sum = {0, 0}, one;
    size_t at, left = contours->points_len;
    const polygon_c_point *points = (const polygon_c_point *)polygon_c_somewhere(contours->points);
    if (!polygon_c_are_there(contours)) {
        return POLYGON_C_LENGTHS;
    }
    for (at = 0; at < contours->lengths_len; at++) {
        if (contours->lengths[at] > left) {
            return POLYGON_C_LENGTHS;
        }
        left -= contours->lengths[at];
    }
    if (left != 0) {
        return POLYGON_C_LENGTHS;
    }
    for (at = 0; at < contours->lengths_len; points += contours->lengths[at++]) {
        uint32_t status = polygon_c_area(points, contours->lengths[at], &one);
        if (status != POLYGON_C_OK) {
            return status;
        }
        sum.low += one.low;
        sum.high = (int64_t)((uint64_t)sum.high + (uint64_t)one.high + (sum.low < one.low));
    }
    *area = sum;
    return POLYGON_C_OK;
}

/*
 * What contours fill, as shapes whose contours neither cross nor overlap: polygon_overlay by POLYGON_C_SUBJECT without a clip, whatever rule
 * the query has.
 */
static inline uint32_t polygon_simplify(const polygon_c_contours *contours, const polygon_c_query *query, polygon_c_shapes *answer) {
    const polygon_c_contours none = {NULL, 0, NULL, 0};
    polygon_c_query simple = *query;
    simple.rule = POLYGON_C_SUBJECT;
    return polygon_overlay(contours, &none, &simple, answer);
}

/* Writes what a status says as a string, cut short where `room`, 1 or more, is too small, and answers it. */
static inline const char *polygon_text(uint32_t status, char *text, size_t room) {
    unsigned char all[128];
    size_t length = polygon_c_text(status, all, sizeof all), at = 0;
    while (at < length && length <= sizeof all && at + 1 < room) {
        text[at] = (char)all[at];
        at++;
    }
    text[at] = '\0';
    return text;
}

/*
 * Lets the heap keep what calls free: else glibc gives its free end back to the system after a call, and the next has its pages laid anew. From
 * then on it keeps up to 2^28 bytes at its end, and takes 2^26 more than it needs, for all that the process takes by malloc. It does nothing with
 * another C library. Call it before there are threads. No answer depends on it.
 */
static inline void polygon_keep_memory(void) {
#ifdef __GLIBC__
    (void)mallopt(M_TOP_PAD, 1 << 26);
    (void)mallopt(M_TRIM_THRESHOLD, 1 << 28);
#endif
}

#ifdef __cplusplus
}
#endif

#endif
