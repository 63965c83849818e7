/*
 * The overlay engine for C and C++, with coordinates of 64 bits: whole numbers from -68719476736 to 68719476735.
 *
 * Each type and function here has the name of one in polygon_c.h, with 64 behind it, and does the same with such coordinates. A point that is out of
 * range is told by POLYGON_C_RANGE64. Where coordinates are from -524288 to 524287 both answer alike: those of polygon_c.h are faster, and take less memory.
 */
#ifndef POLYGON_C64_H
#define POLYGON_C64_H

#include "polygon_c.h"

#ifdef __cplusplus
extern "C" {
#endif

typedef struct polygon_c_point64 {
    int64_t x, y;
} polygon_c_point64;

typedef struct polygon_c_sizing64 {
    int64_t left, right, bottom, top;
} polygon_c_sizing64;

/* ---- what the library exports */

/* See polygon_overlay. */
uint32_t polygon_c_overlay64(const polygon_c_point64 *subject, size_t subject_points, const size_t *subject_lengths, size_t subject_contours,
                             const polygon_c_point64 *clip, size_t clip_points, const size_t *clip_lengths, size_t clip_contours,
                             const uint32_t *query, size_t query_words, polygon_c_point64 *points, size_t points_room, size_t *contours,
                             size_t contours_room, size_t *shapes, size_t shapes_room, polygon_c_sizes *sizes);

/* See polygon_hierarchy. */
uint32_t polygon_c_hierarchy64(const polygon_c_point64 *subject, size_t subject_points, const size_t *subject_lengths, size_t subject_contours,
                               const polygon_c_point64 *clip, size_t clip_points, const size_t *clip_lengths, size_t clip_contours,
                               const uint32_t *query, size_t query_words, polygon_c_point64 *points, size_t points_room, size_t *contours,
                               size_t contours_room, size_t *shapes, size_t shapes_room, polygon_c_link *links, size_t links_room,
                               polygon_c_link_sizes *sizes);

/* See polygon_overlays. */
uint32_t polygon_c_overlays64(const polygon_c_point64 *subject, size_t subject_points, const size_t *subject_lengths, size_t subject_contours,
                              const polygon_c_point64 *clip, size_t clip_points, const size_t *clip_lengths, size_t clip_contours,
                              const size_t *groups, size_t groups_len, const uint32_t *query, size_t query_words, polygon_c_point64 *points,
                              size_t points_room, size_t *contours, size_t contours_room, size_t *shapes, size_t shapes_room,
                              size_t *overlays, size_t overlays_room, polygon_c_many_sizes *sizes);

/* See polygon_overlay_edges. */
uint32_t polygon_c_overlay_edges64(const polygon_c_point64 *subject, size_t subject_points, const size_t *subject_lengths,
                                   size_t subject_contours, const uint64_t *subject_numbers, size_t subject_numbers_len,
                                   const polygon_c_point64 *clip, size_t clip_points, const size_t *clip_lengths, size_t clip_contours,
                                   const uint64_t *clip_numbers, size_t clip_numbers_len, uint32_t join, const uint32_t *query,
                                   size_t query_words, polygon_c_point64 *points, size_t points_room, size_t *contours, size_t contours_room,
                                   size_t *shapes, size_t shapes_room, uint64_t *numbers, size_t numbers_room, polygon_c_sizes *sizes);

/* See polygon_slice. */
uint32_t polygon_c_slice64(const polygon_c_point64 *shape, size_t shape_points, const size_t *shape_lengths, size_t shape_contours,
                           const polygon_c_point64 *lines, size_t lines_points, const size_t *line_lengths, size_t lines_len,
                           const uint32_t *query, size_t query_words, polygon_c_point64 *points, size_t points_room, size_t *contours,
                           size_t contours_room, size_t *shapes, size_t shapes_room, polygon_c_sizes *sizes);

/* See polygon_clip. */
uint32_t polygon_c_clip64(const polygon_c_point64 *shape, size_t shape_points, const size_t *shape_lengths, size_t shape_contours,
                          const polygon_c_point64 *lines, size_t lines_points, const size_t *line_lengths, size_t lines_len,
                          const uint32_t *query, size_t query_words, polygon_c_point64 *points, size_t points_room, size_t *lengths, size_t lengths_room,
                          polygon_c_sizes *sizes);

/* See polygon_sized. */
uint32_t polygon_c_sized64(const polygon_c_point64 *subject, size_t subject_points, const size_t *subject_lengths, size_t subject_contours,
                           int64_t left, int64_t right, int64_t bottom, int64_t top, const uint32_t *query, size_t query_words,
                           polygon_c_point64 *points, size_t points_room, size_t *contours, size_t contours_room, size_t *shapes, size_t shapes_room,
                           polygon_c_sizes *sizes);

/* See polygon_sized_in_turn. */
uint32_t polygon_c_sized_in_turn64(const polygon_c_point64 *subject, size_t subject_points, const size_t *subject_lengths, size_t subject_contours,
                                   int64_t left, int64_t right, int64_t bottom, int64_t top, int64_t then_left, int64_t then_right,
                                   int64_t then_bottom, int64_t then_top, const uint32_t *query, size_t query_words, polygon_c_point64 *points,
                                   size_t points_room, size_t *contours, size_t contours_room, size_t *shapes, size_t shapes_room,
                                   polygon_c_sizes *sizes);

/* See polygon_width. */
uint32_t polygon_c_width64(const polygon_c_point64 *subject, size_t subject_points, const size_t *subject_lengths, size_t subject_contours,
                           int64_t width, const uint32_t *query, size_t query_words, polygon_c_point64 *points, size_t points_room,
                           size_t *contours, size_t contours_room, size_t *shapes, size_t shapes_room, polygon_c_sizes *sizes);

/* See polygon_space. */
uint32_t polygon_c_space64(const polygon_c_point64 *subject, size_t subject_points, const size_t *subject_lengths, size_t subject_contours,
                           int64_t space, const uint32_t *query, size_t query_words, polygon_c_point64 *points, size_t points_room,
                           size_t *contours, size_t contours_room, size_t *shapes, size_t shapes_room, polygon_c_sizes *sizes);

/* See polygon_relate. */
uint32_t polygon_c_relate64(const polygon_c_point64 *subject, size_t subject_points, const size_t *subject_lengths, size_t subject_contours,
                            const polygon_c_point64 *clip, size_t clip_points, const size_t *clip_lengths, size_t clip_contours,
                            const uint32_t *query, size_t query_words, polygon_c_relations *relations);

/* See polygon_contains_points. */
uint32_t polygon_c_contains_points64(const polygon_c_point64 *points, size_t points_len, const size_t *contours, size_t contours_len,
                                     const size_t *shapes, size_t shapes_len, const polygon_c_point64 *places, size_t places_len,
                                     uint8_t *inside, size_t inside_room);

/* See polygon_locate. */
uint32_t polygon_c_locate64(const polygon_c_point64 *points, size_t points_len, const size_t *contours, size_t contours_len,
                            const size_t *shapes, size_t shapes_len, const polygon_c_point64 *places, size_t places_len, uint8_t *found,
                            size_t found_room);

/* Twice the signed area of one contour, above 0 where it runs counterclockwise: see polygon_area. */
uint32_t polygon_c_area64(const polygon_c_point64 *points, size_t points_len, polygon_c_wide *area);

/* ---- what to call */

/* Contours that are given. */
typedef struct polygon_c_contours64 {
    const polygon_c_point64 *points; /* those of all contours */
    size_t points_len;
    const size_t *lengths; /* how many points each contour has; they sum to points_len */
    size_t lengths_len;
} polygon_c_contours64;

/* Arrays for an answer, and how much of them it takes. */
typedef struct polygon_c_shapes64 {
    polygon_c_point64 *points; /* those of all contours */
    size_t points_room;
    size_t *contours; /* how many points each contour has */
    size_t contours_room;
    size_t *shapes; /* how many contours each shape has, the outline first */
    size_t shapes_room;
    polygon_c_sizes sizes; /* told with POLYGON_C_OK, and with POLYGON_C_ROOM */
} polygon_c_shapes64;

/* Arrays for paths that are answered, and how much of them it takes. */
typedef struct polygon_c_paths64 {
    polygon_c_point64 *points; /* those of all paths */
    size_t points_room;
    size_t *lengths; /* how many points each path has */
    size_t lengths_room;
    polygon_c_sizes sizes; /* told with POLYGON_C_OK, and with POLYGON_C_ROOM: `contours` counts the paths, and `shapes` is 0 */
} polygon_c_paths64;

static inline int polygon_c_are_there64(const polygon_c_contours64 *given) {
    return polygon_c_is_there(given->points, given->points_len) && polygon_c_is_there(given->lengths, given->lengths_len);
}

/* See polygon_overlay. */
static inline uint32_t polygon_overlay64(const polygon_c_contours64 *subject, const polygon_c_contours64 *clip, const polygon_c_query *query,
                                         polygon_c_shapes64 *answer) {
    const polygon_c_words words = polygon_c_words_of(query);
    if (!polygon_c_are_there64(subject) || !polygon_c_are_there64(clip) || !polygon_c_is_there(answer->points, answer->points_room) ||
        !polygon_c_is_there(answer->contours, answer->contours_room) || !polygon_c_is_there(answer->shapes, answer->shapes_room)) {
        return POLYGON_C_LENGTHS;
    }
    return polygon_c_overlay64(
        (const polygon_c_point64 *)polygon_c_somewhere(subject->points), subject->points_len,
        (const size_t *)polygon_c_somewhere(subject->lengths), subject->lengths_len,
        (const polygon_c_point64 *)polygon_c_somewhere(clip->points), clip->points_len, (const size_t *)polygon_c_somewhere(clip->lengths),
        clip->lengths_len, words.all, POLYGON_C_QUERY_WORDS, (polygon_c_point64 *)polygon_c_somewhere(answer->points), answer->points_room,
        (size_t *)polygon_c_somewhere(answer->contours), answer->contours_room, (size_t *)polygon_c_somewhere(answer->shapes),
        answer->shapes_room, &answer->sizes);
}

/* See polygon_overlays. */
static inline uint32_t polygon_overlays64(const polygon_c_contours64 *subject, const polygon_c_contours64 *clip, const size_t *groups,
                                          size_t groups_len, const polygon_c_query *query, polygon_c_shapes64 *answer, size_t *overlays,
                                          size_t overlays_room, polygon_c_many_sizes *sizes) {
    const polygon_c_words words = polygon_c_words_of(query);
    uint32_t status;
    if (!polygon_c_are_there64(subject) || !polygon_c_are_there64(clip) || !polygon_c_is_there(groups, groups_len) ||
        !polygon_c_is_there(answer->points, answer->points_room) || !polygon_c_is_there(answer->contours, answer->contours_room) ||
        !polygon_c_is_there(answer->shapes, answer->shapes_room) || !polygon_c_is_there(overlays, overlays_room)) {
        return POLYGON_C_LENGTHS;
    }
    status = polygon_c_overlays64(
        (const polygon_c_point64 *)polygon_c_somewhere(subject->points), subject->points_len,
        (const size_t *)polygon_c_somewhere(subject->lengths), subject->lengths_len,
        (const polygon_c_point64 *)polygon_c_somewhere(clip->points), clip->points_len, (const size_t *)polygon_c_somewhere(clip->lengths),
        clip->lengths_len, (const size_t *)polygon_c_somewhere(groups), groups_len, words.all, POLYGON_C_QUERY_WORDS,
        (polygon_c_point64 *)polygon_c_somewhere(answer->points), answer->points_room,
        (size_t *)polygon_c_somewhere(answer->contours), answer->contours_room, (size_t *)polygon_c_somewhere(answer->shapes),
        answer->shapes_room, (size_t *)polygon_c_somewhere(overlays), overlays_room, sizes);
    if (status == POLYGON_C_OK || status == POLYGON_C_ROOM) {
        answer->sizes.points = sizes->points;
        answer->sizes.contours = sizes->contours;
        answer->sizes.shapes = sizes->shapes;
    }
    return status;
}

/* See polygon_overlay_edges. */
static inline uint32_t polygon_overlay_edges64(const polygon_c_contours64 *subject, const uint64_t *subject_numbers, const polygon_c_contours64 *clip,
                                               const uint64_t *clip_numbers, uint32_t join, const polygon_c_query *query, polygon_c_shapes64 *answer,
                                               uint64_t *numbers, size_t numbers_room) {
    const polygon_c_words words = polygon_c_words_of(query);
    if (!polygon_c_are_there64(subject) || !polygon_c_is_there(subject_numbers, subject->points_len) || !polygon_c_are_there64(clip) ||
        !polygon_c_is_there(clip_numbers, clip->points_len) || !polygon_c_is_there(answer->points, answer->points_room) ||
        !polygon_c_is_there(answer->contours, answer->contours_room) || !polygon_c_is_there(answer->shapes, answer->shapes_room) ||
        !polygon_c_is_there(numbers, numbers_room)) {
        return POLYGON_C_LENGTHS;
    }
    return polygon_c_overlay_edges64(
        (const polygon_c_point64 *)polygon_c_somewhere(subject->points), subject->points_len,
        (const size_t *)polygon_c_somewhere(subject->lengths), subject->lengths_len, (const uint64_t *)polygon_c_somewhere(subject_numbers),
        subject->points_len, (const polygon_c_point64 *)polygon_c_somewhere(clip->points), clip->points_len,
        (const size_t *)polygon_c_somewhere(clip->lengths), clip->lengths_len, (const uint64_t *)polygon_c_somewhere(clip_numbers), clip->points_len,
        join, words.all, POLYGON_C_QUERY_WORDS, (polygon_c_point64 *)polygon_c_somewhere(answer->points), answer->points_room,
        (size_t *)polygon_c_somewhere(answer->contours), answer->contours_room, (size_t *)polygon_c_somewhere(answer->shapes),
        answer->shapes_room, (uint64_t *)polygon_c_somewhere(numbers), numbers_room, &answer->sizes);
}

/* See polygon_slice. */
static inline uint32_t polygon_slice64(const polygon_c_contours64 *shape, const polygon_c_contours64 *lines, const polygon_c_query *query,
                                       polygon_c_shapes64 *answer) {
    const polygon_c_words words = polygon_c_words_of(query);
    if (!polygon_c_are_there64(shape) || !polygon_c_are_there64(lines) || !polygon_c_is_there(answer->points, answer->points_room) ||
        !polygon_c_is_there(answer->contours, answer->contours_room) || !polygon_c_is_there(answer->shapes, answer->shapes_room)) {
        return POLYGON_C_LENGTHS;
    }
    return polygon_c_slice64(
        (const polygon_c_point64 *)polygon_c_somewhere(shape->points), shape->points_len,
        (const size_t *)polygon_c_somewhere(shape->lengths), shape->lengths_len,
        (const polygon_c_point64 *)polygon_c_somewhere(lines->points), lines->points_len,
        (const size_t *)polygon_c_somewhere(lines->lengths), lines->lengths_len, words.all, POLYGON_C_QUERY_WORDS,
        (polygon_c_point64 *)polygon_c_somewhere(answer->points), answer->points_room,
        (size_t *)polygon_c_somewhere(answer->contours), answer->contours_room, (size_t *)polygon_c_somewhere(answer->shapes),
        answer->shapes_room, &answer->sizes);
}

/* See polygon_clip. */
static inline uint32_t polygon_clip64(const polygon_c_contours64 *shape, const polygon_c_contours64 *lines, const polygon_c_query *query,
                                      polygon_c_paths64 *answer) {
    const polygon_c_words words = polygon_c_words_of(query);
    if (!polygon_c_are_there64(shape) || !polygon_c_are_there64(lines) || !polygon_c_is_there(answer->points, answer->points_room) ||
        !polygon_c_is_there(answer->lengths, answer->lengths_room)) {
        return POLYGON_C_LENGTHS;
    }
    return polygon_c_clip64((const polygon_c_point64 *)polygon_c_somewhere(shape->points), shape->points_len,
                            (const size_t *)polygon_c_somewhere(shape->lengths), shape->lengths_len,
                            (const polygon_c_point64 *)polygon_c_somewhere(lines->points), lines->points_len,
                            (const size_t *)polygon_c_somewhere(lines->lengths), lines->lengths_len, words.all, POLYGON_C_QUERY_WORDS,
                            (polygon_c_point64 *)polygon_c_somewhere(answer->points), answer->points_room,
                            (size_t *)polygon_c_somewhere(answer->lengths), answer->lengths_room, &answer->sizes);
}

/* See polygon_sized. */
static inline uint32_t polygon_sized64(const polygon_c_contours64 *contours, const polygon_c_sizing64 *by, const polygon_c_query *query,
                                       polygon_c_shapes64 *answer) {
    const polygon_c_words words = polygon_c_words_of(query);
    if (!polygon_c_are_there64(contours) || !polygon_c_is_there(answer->points, answer->points_room) ||
        !polygon_c_is_there(answer->contours, answer->contours_room) || !polygon_c_is_there(answer->shapes, answer->shapes_room)) {
        return POLYGON_C_LENGTHS;
    }
    return polygon_c_sized64((const polygon_c_point64 *)polygon_c_somewhere(contours->points), contours->points_len,
                             (const size_t *)polygon_c_somewhere(contours->lengths), contours->lengths_len, by->left, by->right, by->bottom, by->top,
                             words.all, POLYGON_C_QUERY_WORDS, (polygon_c_point64 *)polygon_c_somewhere(answer->points), answer->points_room,
                             (size_t *)polygon_c_somewhere(answer->contours), answer->contours_room, (size_t *)polygon_c_somewhere(answer->shapes),
                             answer->shapes_room, &answer->sizes);
}

/* See polygon_sized_in_turn. */
static inline uint32_t polygon_sized_in_turn64(const polygon_c_contours64 *contours, const polygon_c_sizing64 *first,
                                               const polygon_c_sizing64 *second, const polygon_c_query *query, polygon_c_shapes64 *answer) {
    const polygon_c_words words = polygon_c_words_of(query);
    if (!polygon_c_are_there64(contours) || !polygon_c_is_there(answer->points, answer->points_room) ||
        !polygon_c_is_there(answer->contours, answer->contours_room) || !polygon_c_is_there(answer->shapes, answer->shapes_room)) {
        return POLYGON_C_LENGTHS;
    }
    return polygon_c_sized_in_turn64((const polygon_c_point64 *)polygon_c_somewhere(contours->points), contours->points_len,
                                     (const size_t *)polygon_c_somewhere(contours->lengths), contours->lengths_len, first->left, first->right,
                                     first->bottom, first->top, second->left, second->right, second->bottom, second->top, words.all,
                                     POLYGON_C_QUERY_WORDS, (polygon_c_point64 *)polygon_c_somewhere(answer->points), answer->points_room,
                                     (size_t *)polygon_c_somewhere(answer->contours), answer->contours_room,
                                     (size_t *)polygon_c_somewhere(answer->shapes), answer->shapes_room, &answer->sizes);
}

/* See polygon_width. */
static inline uint32_t polygon_width64(const polygon_c_contours64 *contours, int64_t width, const polygon_c_query *query,
                                       polygon_c_shapes64 *answer) {
    const polygon_c_words words = polygon_c_words_of(query);
    if (!polygon_c_are_there64(contours) || !polygon_c_is_there(answer->points, answer->points_room) ||
        !polygon_c_is_there(answer->contours, answer->contours_room) || !polygon_c_is_there(answer->shapes, answer->shapes_room)) {
        return POLYGON_C_LENGTHS;
    }
    return polygon_c_width64((const polygon_c_point64 *)polygon_c_somewhere(contours->points), contours->points_len,
                             (const size_t *)polygon_c_somewhere(contours->lengths), contours->lengths_len, width, words.all, POLYGON_C_QUERY_WORDS,
                             (polygon_c_point64 *)polygon_c_somewhere(answer->points), answer->points_room,
                             (size_t *)polygon_c_somewhere(answer->contours), answer->contours_room,
                             (size_t *)polygon_c_somewhere(answer->shapes), answer->shapes_room, &answer->sizes);
}

/* See polygon_space. */
static inline uint32_t polygon_space64(const polygon_c_contours64 *contours, int64_t space, const polygon_c_query *query,
                                       polygon_c_shapes64 *answer) {
    const polygon_c_words words = polygon_c_words_of(query);
    if (!polygon_c_are_there64(contours) || !polygon_c_is_there(answer->points, answer->points_room) ||
        !polygon_c_is_there(answer->contours, answer->contours_room) || !polygon_c_is_there(answer->shapes, answer->shapes_room)) {
        return POLYGON_C_LENGTHS;
    }
    return polygon_c_space64((const polygon_c_point64 *)polygon_c_somewhere(contours->points), contours->points_len,
                             (const size_t *)polygon_c_somewhere(contours->lengths), contours->lengths_len, space, words.all, POLYGON_C_QUERY_WORDS,
                             (polygon_c_point64 *)polygon_c_somewhere(answer->points), answer->points_room,
                             (size_t *)polygon_c_somewhere(answer->contours), answer->contours_room,
                             (size_t *)polygon_c_somewhere(answer->shapes), answer->shapes_room, &answer->sizes);
}

/* See polygon_hierarchy. */
static inline uint32_t polygon_hierarchy64(const polygon_c_contours64 *subject, const polygon_c_contours64 *clip, const polygon_c_query *query,
                                           polygon_c_shapes64 *answer, polygon_c_link *links, size_t links_room, polygon_c_link_sizes *sizes) {
    const polygon_c_words words = polygon_c_words_of(query);
    uint32_t status;
    if (!polygon_c_are_there64(subject) || !polygon_c_are_there64(clip) || !polygon_c_is_there(answer->points, answer->points_room) ||
        !polygon_c_is_there(answer->contours, answer->contours_room) || !polygon_c_is_there(answer->shapes, answer->shapes_room) ||
        !polygon_c_is_there(links, links_room)) {
        return POLYGON_C_LENGTHS;
    }
    status = polygon_c_hierarchy64(
        (const polygon_c_point64 *)polygon_c_somewhere(subject->points), subject->points_len,
        (const size_t *)polygon_c_somewhere(subject->lengths), subject->lengths_len,
        (const polygon_c_point64 *)polygon_c_somewhere(clip->points), clip->points_len, (const size_t *)polygon_c_somewhere(clip->lengths),
        clip->lengths_len, words.all, POLYGON_C_QUERY_WORDS, (polygon_c_point64 *)polygon_c_somewhere(answer->points), answer->points_room,
        (size_t *)polygon_c_somewhere(answer->contours), answer->contours_room, (size_t *)polygon_c_somewhere(answer->shapes),
        answer->shapes_room, (polygon_c_link *)polygon_c_somewhere(links), links_room, sizes);
    if (status == POLYGON_C_OK || status == POLYGON_C_ROOM) {
        answer->sizes.points = sizes->points;
        answer->sizes.contours = sizes->contours;
        answer->sizes.shapes = sizes->shapes;
    }
    return status;
}

/* See polygon_relate. */
static inline uint32_t polygon_relate64(const polygon_c_contours64 *subject, const polygon_c_contours64 *clip, const polygon_c_query *query,
                                        polygon_c_relations *relations) {
    const polygon_c_words words = polygon_c_words_of(query);
    if (!polygon_c_are_there64(subject) || !polygon_c_are_there64(clip)) {
        return POLYGON_C_LENGTHS;
    }
    return polygon_c_relate64((const polygon_c_point64 *)polygon_c_somewhere(subject->points), subject->points_len,
                              (const size_t *)polygon_c_somewhere(subject->lengths), subject->lengths_len,
                              (const polygon_c_point64 *)polygon_c_somewhere(clip->points), clip->points_len,
                              (const size_t *)polygon_c_somewhere(clip->lengths), clip->lengths_len, words.all, POLYGON_C_QUERY_WORDS, relations);
}

/* See polygon_contains_points. */
static inline uint32_t polygon_contains_points64(const polygon_c_contours64 *contours, const size_t *shapes, size_t shapes_len,
                                                 const polygon_c_point64 *places, size_t places_len, uint8_t *inside, size_t inside_room) {
    if (!polygon_c_are_there64(contours) || !polygon_c_is_there(shapes, shapes_len) || !polygon_c_is_there(places, places_len) ||
        !polygon_c_is_there(inside, inside_room)) {
        return POLYGON_C_LENGTHS;
    }
    return polygon_c_contains_points64((const polygon_c_point64 *)polygon_c_somewhere(contours->points), contours->points_len,
                                       (const size_t *)polygon_c_somewhere(contours->lengths), contours->lengths_len,
                                       (const size_t *)polygon_c_somewhere(shapes), shapes_len,
                                       (const polygon_c_point64 *)polygon_c_somewhere(places), places_len,
                                       (uint8_t *)polygon_c_somewhere(inside), inside_room);
}

/* See polygon_locate. */
static inline uint32_t polygon_locate64(const polygon_c_contours64 *contours, const size_t *shapes, size_t shapes_len,
                                        const polygon_c_point64 *places, size_t places_len, uint8_t *found, size_t found_room) {
    if (!polygon_c_are_there64(contours) || !polygon_c_is_there(shapes, shapes_len) || !polygon_c_is_there(places, places_len) ||
        !polygon_c_is_there(found, found_room)) {
        return POLYGON_C_LENGTHS;
    }
    return polygon_c_locate64((const polygon_c_point64 *)polygon_c_somewhere(contours->points), contours->points_len,
                              (const size_t *)polygon_c_somewhere(contours->lengths), contours->lengths_len,
                              (const size_t *)polygon_c_somewhere(shapes), shapes_len,
                              (const polygon_c_point64 *)polygon_c_somewhere(places), places_len,
                              (uint8_t *)polygon_c_somewhere(found), found_room);
}

/* See polygon_area. */
static inline uint32_t polygon_area64(const polygon_c_contours64 *contours, polygon_c_wide *area) {
    polygon_c_wide sum = {0, 0}, one;
    size_t at, left = contours->points_len;
    const polygon_c_point64 *points = (const polygon_c_point64 *)polygon_c_somewhere(contours->points);
    if (!polygon_c_are_there64(contours)) {
        return POLYGON_C_LENGTHS;
    }
    for (at = 0; at < contours->lengths_len; at++) {
        if (contours->lengths[at] > left) {
            return POLYGON_C_LENGTHS;
        }
        left -= contours->lengths[at];
    }
    if (left != 0) {
        return POLYGON_C_LENGTHS;
    }
    for (at = 0; at < contours->lengths_len; points += contours->lengths[at++]) {
        uint32_t status = polygon_c_area64(points, contours->lengths[at], &one);
        if (status != POLYGON_C_OK) {
            return status;
        }
        sum.low += one.low;
        sum.high = (int64_t)((uint64_t)sum.high + (uint64_t)one.high + (sum.low < one.low));
    }
    *area = sum;
    return POLYGON_C_OK;
}

/* See polygon_simplify. */
static inline uint32_t polygon_simplify64(const polygon_c_contours64 *contours, const polygon_c_query *query, polygon_c_shapes64 *answer) {
    const polygon_c_contours64 none = {NULL, 0, NULL, 0};
    polygon_c_query simple = *query;
    simple.rule = POLYGON_C_SUBJECT;
    return polygon_overlay64(contours, &none, &simple, answer);
}

#ifdef __cplusplus
}
#endif

#endif
