/* Reads contours, as lines 'subject x y ..' and 'clip x y ..', and times calls for their overlay: 'calls N RULE < CONTOURS'. With 'keep' behind it
 * the heap keeps what calls free. With 'tiles' the subject is overlaid with each clip alone, by a call each, and then by one call for all. */
#include "polygon_c.h"

#include <stdio.h>
#include <stdlib.h>
#include <string.h>
#include <sys/resource.h>
#include <time.h>

enum { MOST = 1000000 };

typedef struct {
    polygon_c_point points[MOST];
    size_t lengths[MOST], points_len, lengths_len;
} Group;

static Group subject, clip;
static polygon_c_point points[4 * MOST];
static size_t contours[MOST], shapes[MOST];

static double seconds(void) {
    struct timespec now;
    clock_gettime(CLOCK_MONOTONIC, &now);
    return (double)now.tv_sec + (double)now.tv_nsec / 1e9;
}

/* How many pages were laid so far. */
static long pages(void) {
    struct rusage used;
    getrusage(RUSAGE_SELF, &used);
    return used.ru_minflt;
}

static int failed(uint32_t status) {
    printf("status %u\n", (unsigned)status);
    return 1;
}

static int tiles(const polygon_c_query *query, polygon_c_contours first, long calls) {
    static size_t ones[MOST], overlays[MOST];
    polygon_c_shapes answer = {points, 4 * MOST, contours, MOST, shapes, MOST, {0, 0, 0}};
    polygon_c_contours second = {clip.points, clip.points_len, clip.lengths, clip.lengths_len};
    polygon_c_many_sizes sizes;
    size_t found = 0, tile, start;
    double begin = seconds(), between;
    long call;
    for (call = 0; call < calls; call++) {
        for (found = tile = start = 0; tile < clip.lengths_len; start += clip.lengths[tile++]) {
            polygon_c_contours one = {clip.points + start, clip.lengths[tile], clip.lengths + tile, 1};
            uint32_t status = polygon_overlay(&first, &one, query, &answer);
            if (status != POLYGON_C_OK) return failed(status);
            found += answer.sizes.shapes;
            ones[tile] = 1;
        }
    }
    between = seconds();
    for (call = 0; call < calls; call++) {
        uint32_t status = polygon_overlays(&first, &second, ones, clip.lengths_len, query, &answer, overlays, MOST, &sizes);
        if (status != POLYGON_C_OK) return failed(status);
    }
    printf("%.3f us a tile by a call each, %.3f us by one call, %zu and %zu shapes\n", (between - begin) * 1e6 / (double)calls / (double)clip.lengths_len,
           (seconds() - between) * 1e6 / (double)calls / (double)clip.lengths_len, found, sizes.shapes);
    return 0;
}

int main(int count, char **words) {
    static char line[1 << 22];
    long calls = count > 1 ? strtol(words[1], NULL, 10) : 1, call;
    polygon_c_query query;
    polygon_c_contours first, second;
    polygon_c_shapes answer = {points, 4 * MOST, contours, MOST, shapes, MOST, {0, 0, 0}};
    double begin, end;
    long laid;
    int at, are_tiles = 0;
    for (at = 3; at < count; at++) {
        if (strcmp(words[at], "keep") == 0) polygon_keep_memory();
        if (strcmp(words[at], "tiles") == 0) are_tiles = 1;
    }
    memset(&query, 0, sizeof query);
    query.rule = count > 2 ? (uint32_t)strtoul(words[2], NULL, 10) : POLYGON_C_UNION;
    query.fill = POLYGON_C_NONZERO;
    while (fgets(line, sizeof line, stdin)) {
        Group *group = line[0] == 's' ? &subject : &clip;
        char *left = strchr(line, ' '), *behind;
        size_t start = group->points_len;
        for (long x = strtol(left, &behind, 10); behind != left; x = strtol(left, &behind, 10)) {
            group->points[group->points_len].x = (int32_t)x;
            group->points[group->points_len++].y = (int32_t)strtol(behind, &left, 10);
        }
        group->lengths[group->lengths_len++] = group->points_len - start;
    }
    first.points = subject.points, first.points_len = subject.points_len, first.lengths = subject.lengths, first.lengths_len = subject.lengths_len;
    second.points = clip.points, second.points_len = clip.points_len, second.lengths = clip.lengths, second.lengths_len = clip.lengths_len;
    if (are_tiles) return tiles(&query, first, calls);
    begin = seconds(), laid = pages();
    for (call = 0; call < calls; call++) {
        uint32_t status = polygon_overlay(&first, &second, &query, &answer);
        if (status != POLYGON_C_OK) return failed(status);
    }
    end = seconds(), laid = pages() - laid;
    printf("%.3f us and %.1f pages a call, %zu points, %zu shapes\n", (end - begin) * 1e6 / (double)calls, (double)laid / (double)calls,
           answer.sizes.points, answer.sizes.shapes);
    return 0;
}
