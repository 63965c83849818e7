// The header for C++: each call, room that grows, and what is thrown. Prints a line for each test that fails, and last 'N passed, M failed'.
#include "polygon_c.hpp"

#include <cstdio>
#include <string>

using namespace polygon_c;

namespace {
int passed, failed;

void test(bool holds, const char *name) {
    (holds ? passed : failed)++;
    if (!holds) std::printf("not as it must be: %s\n", name);
}

bool same(const Contour &one, const Contour &other) {
    bool is_same = one.size() == other.size();
    for (std::size_t at = 0; is_same && at < one.size(); at++) is_same = one[at].x == other[at].x && one[at].y == other[at].y;
    return is_same;
}

template <class T> bool same(const std::vector<T> &one, const std::vector<T> &other) {
    bool is_same = one.size() == other.size();
    for (std::size_t at = 0; is_same && at < one.size(); at++) is_same = same(one[at], other[at]);
    return is_same;
}

Contour box(int left, int bottom, int right, int top) { return {{left, bottom}, {right, bottom}, {right, top}, {left, top}}; }

// The status of the refusal of this kind that a call throws, and 0 where it throws none.
template <class Kind, class Call> std::uint32_t thrown(Call call) {
    try {
        call();
    } catch (const Kind &refused) {
        return std::string(refused.what()).empty() ? 0 : refused.status;
    } catch (...) {
    }
    return 0;
}

const Contours PARCEL = {box(0, 0, 10, 10)}, POND = {box(3, 3, 7, 7)}, ISLAND = {box(4, 4, 6, 6)};
const Contours HOLED = {{{0, 10}, {0, 0}, {10, 0}, {10, 10}}, {{3, 3}, {3, 7}, {7, 7}, {7, 3}}};

void answers() {
    test(same(overlay(PARCEL, POND, Query(POLYGON_C_DIFFERENCE)), Shapes{HOLED}), "a parcel without a pond");
    test(overlay(Contours(), Contours()).empty() && overlay(PARCEL, Contours(), Query(POLYGON_C_CLIP)).empty(), "nothing");
    test(overlay(Contours{Contour()}, POND).size() == 1, "a contour of no point");
    Query turned(POLYGON_C_DIFFERENCE);
    turned.clockwise = 1;
    const Shapes other = overlay(PARCEL, POND, turned);
    test(other.size() == 1 && other[0].size() == 2 && other[0][0][1].x == 0 && other[0][0][1].y == 10, "a field of the query");
    // (a clockwise contour fills nothing under `positive`)
    const Contours hull = {{{0, 0}, {0, 10}, {10, 10}, {10, 0}}};
    test(simplify(hull, Query(0, POLYGON_C_POSITIVE)).empty() && simplify(hull).size() == 1, "a clockwise contour");
    Contours comb;
    for (int at = 0; at < 300; at++) comb.push_back(box(4 * at, 0, 4 * at + 2, 300)), comb.push_back(box(0, 4 * at, 1200, 4 * at + 2));
    Shapes crossing = overlay(comb, Contours(), Query(POLYGON_C_SUBJECT));
    std::size_t points = 0, holes = 0;
    for (const Contours &shape : crossing) {
        holes += shape.size() - 1;
        for (const Contour &contour : shape) points += contour.size();
    }
    test(crossing.size() > 1 && holes > 10000 && points > 40000, "more room than is guessed");
}

// (a bit for each edge: below, right, above, left)
void edges() {
    const Numbers bits = {{1, 2, 4, 8}}, others = {{16, 32, 64, 128}}, near = {{5, 2, 6, 9}};
    const std::pair<Shapes, std::vector<Numbers>> left = overlay_edges(PARCEL, bits, POND, others, POLYGON_C_JOIN_KEPT, Query(POLYGON_C_DIFFERENCE));
    test(same(left.first, Shapes{HOLED}) && left.second == std::vector<Numbers>{{{8, 1, 2, 4}, {128, 64, 32, 16}}}, "the edges of a parcel without a pond");
    test(overlay_edges(PARCEL, bits, PARCEL, near).second == std::vector<Numbers>{{{9, 5, 2, 6}}}, "bits of equal parcels");
    test(overlay_edges(PARCEL, bits, PARCEL, near, POLYGON_C_JOIN_LEAST).second == std::vector<Numbers>{{{8, 1, 2, 4}}}, "the least of equal parcels");
    test(overlay_edges(Contours(), Numbers(), Contours(), Numbers()).second.empty(), "no edges");
    test(thrown<Unfit>([&] { overlay_edges(PARCEL, bits, PARCEL, near, POLYGON_C_JOIN_KEPT); }) == POLYGON_C_JOIN, "numbers that differ");
    test(thrown<Unfit>([&] { overlay_edges(PARCEL, {{1, 2, 4}}, POND, others); }) == POLYGON_C_LENGTHS, "a number too few");
    test(thrown<Unfit>([&] { overlay_edges(PARCEL, bits, POND, Numbers()); }) == POLYGON_C_LENGTHS, "no numbers");
}

void others() {
    const std::vector<Shapes> tiles = overlays(PARCEL, {POND, Contours(), {box(20, 20, 30, 30), ISLAND[0]}}, Query(POLYGON_C_INTERSECT));
    test(tiles.size() == 3 && tiles[0].size() == 1 && tiles[1].empty() && tiles[2].size() == 1, "three tiles");
    const Contours lake = {PARCEL[0], ISLAND[0]};
    const std::pair<Shapes, std::vector<Link>> nested = hierarchy(lake, POND, Query(POLYGON_C_XOR));
    test(nested.first.size() == 1 && nested.second.empty(), "an island that isn't there");
    const std::pair<Shapes, std::vector<Link>> round = hierarchy({PARCEL[0], {{7, 7}, {7, 3}, {3, 3}, {3, 7}}, ISLAND[0]}, Contours());
    test(round.first.size() == 2 && round.second.size() == 1 && round.second[0].parent_contour == 1 && round.second[0].child_shape == 1, "an island");
    const Contours road = {{{5, -1}, {5, 11}}};
    test(slice(PARCEL, road).size() == 2 && slice(PARCEL, Contours()).size() == 1, "two halves");
    Query outside;
    outside.clip_outside = 1;
    test(same(clip(PARCEL, road), Contours{{{5, 0}, {5, 10}}}) && clip(PARCEL, road, outside).size() == 2, "a road, inside and outside");
    test(same(sized(PARCEL, {1, 2, 3, 4}), Shapes{Contours{{{-1, 14}, {-1, -3}, {12, -3}, {12, 14}}}}), "a parcel grown");
    test(same(sized(HOLED, {2, 2, 2, 2}), Shapes{Contours{{{-2, 12}, {-2, -2}, {12, -2}, {12, 12}}}}) && sized(PARCEL, {-5, -5, 0, 0}).empty(), "none left");
    const Contours near = {PARCEL[0], box(14, 0, 24, 10)};
    test(same(sized_in_turn(near, {2, 2, 2, 2}, {-2, -2, -2, -2}), Shapes{Contours{{{0, 10}, {0, 0}, {24, 0}, {24, 10}}}}), "a gap closed");
    test(sized_in_turn(near, {-5, -5, 0, 0}, {5, 5, 0, 0}).empty(), "nothing left to grow");
    test(same(space_errors(near, 5), Shapes{Contours{{{10, 10}, {10, 0}, {14, 0}, {14, 10}}}}) && space_errors(near, 4).empty(), "a gap");
    test(same(width_errors(near, 11), overlay(near, Contours(), Query(POLYGON_C_SUBJECT))) && width_errors(near, 10).empty(), "widths");
    test(relate(POND, PARCEL).within == 1 && relate(PARCEL, POND).within == 0, "relations");
    test(contains_points({HOLED}, {{1, 1}, {5, 5}, {20, 0}}) == std::vector<bool>({true, false, false}), "points");
    test(contains_points(Shapes(), std::vector<Point>()).empty(), "no points");
    test(locate({HOLED}, {{1, 1}, {5, 5}, {3, 4}, {10, 10}, {-1, 0}}) == std::vector<std::uint8_t>({1, 0, 2, 2, 0}), "places");
    test(doubled_area(HOLED) == 168 && doubled_area({HOLED[1]}) == -32 && doubled_area(Contours()) == 0, "areas");
}

void refusals() {
    Query odd;
    test(thrown<Unknown>([&] { overlay(PARCEL, POND, Query(7)); }) == POLYGON_C_RULE, "a rule");
    test(thrown<Refused>([&] { overlay(PARCEL, POND, Query(0, POLYGON_C_ATLEAST)); }) == POLYGON_C_FILL, "a depth of 0");
    odd.strategy = 9;
    test(thrown<Unknown>([&] { relate(PARCEL, POND, odd); }) == POLYGON_C_STRATEGY, "a strategy");
    test(thrown<OutOfRange>([&] { slice({box(0, 0, 1 << 19, 1)}, POND); }) == POLYGON_C_RANGE, "a far point");
    test(thrown<Unfit>([&] { sized({{{0, 0}, {10, 0}, {0, 10}}}, {1, 1, 1, 1}); }) == POLYGON_C_SLANT, "an edge that slants");
    test(thrown<OutOfRange>([&] { sized(PARCEL, {0, 1 << 19, 0, 0}); }) == POLYGON_C_RANGE, "a parcel grown too far");
    test(thrown<OutOfRange>([&] { sized_in_turn(PARCEL, {0, 1 << 18, 0, 0}, {0, 1 << 18, 0, 0}); }) == POLYGON_C_RANGE, "a parcel grown too far in turn");
    test(thrown<OutOfRange>([&] { width_errors(PARCEL, 0); }) == POLYGON_C_RANGE, "a width of 0");
    test(thrown<Unfit>([&] { space_errors({{{0, 0}, {10, 0}, {0, 10}}}, 1); }) == POLYGON_C_SLANT, "an edge that slants, checked");
    test(thrown<OutOfRange>([&] { contains_points({HOLED}, {{0, -524289}}); }) == POLYGON_C_RANGE, "a far point that is asked for");
    test(thrown<Unknown>([] { flat::check(POLYGON_C_SIZE); }) == POLYGON_C_SIZE, "a size");
    test(thrown<OutOfRange>([&] { doubled_area({{{0, 1 << 19}}}); }) == POLYGON_C_RANGE, "a far corner");
    test(thrown<Unfit>([] { flat::check(POLYGON_C_LENGTHS); }) == POLYGON_C_LENGTHS, "lengths");
    test(thrown<TooMany>([] { flat::check(POLYGON_C_COUNT); }) == POLYGON_C_COUNT && thrown<TooMany>([] { flat::check(POLYGON_C_EDGES); }) == 3, "too many");
    bool is_memory = false;
    try {
        flat::check(POLYGON_C_MEMORY);
    } catch (const std::bad_alloc &) {
        is_memory = true;
    }
    test(is_memory, "memory");
}
} // namespace

int main() {
    answers();
    edges();
    others();
    refusals();
    polygon_keep_memory();
    answers(); // (as they were)
    std::printf("%d passed, %d failed\n", passed, failed);
    return failed != 0;
}
