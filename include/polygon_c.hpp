// The overlay engine for C++: vectors in and out, and exceptions in the place of statuses. What each call does is told in polygon_c.h.
//
//     using namespace polygon_c;
//     Contours parcel = {{{0, 0}, {10, 0}, {10, 10}, {0, 10}}}, pond = {{{3, 3}, {7, 3}, {7, 7}, {3, 7}}};
//     Shapes left = overlay(parcel, pond, Query(POLYGON_C_DIFFERENCE));
#ifndef POLYGON_C_HPP
#define POLYGON_C_HPP

#include "polygon_c.h"

#include <new>
#include <stdexcept>
#include <utility>
#include <vector>

namespace polygon_c {

typedef polygon_c_point Point;
typedef std::vector<Point> Contour;    // the last point leads back to the first; of a line or a path it doesn't
typedef std::vector<Contour> Contours; // those of a subject or a clip; a shape, the outline first; lines
typedef std::vector<Contours> Shapes;
typedef std::vector<std::vector<std::uint64_t>> Numbers; // those of the edges of contours, from each point to the next, and from the last to the first
typedef polygon_c_relations Relations;
typedef polygon_c_link Link;
typedef polygon_c_sizing Sizing;

// What is asked: by default the union, filled where contours wind round a point. Its fields are those of polygon_c_query.
struct Query : polygon_c_query {
    explicit Query(std::uint32_t rule_ = POLYGON_C_UNION, std::uint32_t fill_ = POLYGON_C_NONZERO) : polygon_c_query() {
        rule = rule_;
        fill = fill_;
    }
};

// A call that isn't answered, by kind. Where memory is refused it is std::bad_alloc, as of vectors.
struct Refused : std::runtime_error {
    std::uint32_t status;
    Refused(std::uint32_t status_, const char *text) : std::runtime_error(text), status(status_) {}
};
struct TooMany : Refused { using Refused::Refused; };    // POLYGON_C_COUNT and POLYGON_C_EDGES
struct Unknown : Refused { using Refused::Refused; };    // POLYGON_C_RULE to POLYGON_C_PRECISION, and POLYGON_C_SIZE
struct Unfit : Refused { using Refused::Refused; };      // POLYGON_C_LENGTHS, POLYGON_C_JOIN and POLYGON_C_SLANT
struct OutOfRange : Refused { using Refused::Refused; }; // POLYGON_C_RANGE

// ---- how vectors and arrays become each other

namespace flat {
inline void check(std::uint32_t status) {
    char text[128];
    if (status == POLYGON_C_OK) return;
    if (status == POLYGON_C_MEMORY) throw std::bad_alloc();
    polygon_text(status, text, sizeof text);
    if (status == POLYGON_C_COUNT || status == POLYGON_C_EDGES) throw TooMany(status, text);
    if ((status >= POLYGON_C_RULE && status <= POLYGON_C_PRECISION) || status == POLYGON_C_SIZE) throw Unknown(status, text);
    if (status == POLYGON_C_LENGTHS || status == POLYGON_C_JOIN || status == POLYGON_C_SLANT) throw Unfit(status, text);
    if (status == POLYGON_C_RANGE) throw OutOfRange(status, text);
    throw Refused(status, text);
}

// Contours that are given.
struct Given : polygon_c_contours {
    std::vector<Point> all;
    std::vector<std::size_t> each;
    explicit Given(const Contours &contours) : polygon_c_contours() {
        for (const Contour &contour : contours) {
            all.insert(all.end(), contour.begin(), contour.end());
            each.push_back(contour.size());
        }
        points = all.data(), points_len = all.size(), lengths = each.data(), lengths_len = each.size();
    }
    Given(const Given &) = delete;
};

// How many members each list has, and the members one list after another.
inline std::vector<std::size_t> lengths(const std::vector<Contours> &lists) {
    std::vector<std::size_t> found;
    for (const Contours &list : lists) found.push_back(list.size());
    return found;
}
inline Contours together(const std::vector<Contours> &lists) {
    Contours found;
    for (const Contours &list : lists) found.insert(found.end(), list.begin(), list.end());
    return found;
}

// Cuts a list into lists of these lengths.
template <class T> std::vector<std::vector<T>> cut(const std::vector<T> &list, const std::vector<std::size_t> &lengths) {
    std::vector<std::vector<T>> found;
    const T *at = list.data();
    for (std::size_t length : lengths) found.push_back(std::vector<T>(at, at + length)), at += length;
    return found;
}

// The numbers of the edges of contours, one contour after another.
inline std::vector<std::uint64_t> numbers_of(const Contours &contours, const Numbers &numbers) {
    std::vector<std::uint64_t> found;
    check(contours.size() == numbers.size() ? POLYGON_C_OK : POLYGON_C_LENGTHS);
    for (std::size_t at = 0; at < contours.size(); at++) {
        check(contours[at].size() == numbers[at].size() ? POLYGON_C_OK : POLYGON_C_LENGTHS);
        found.insert(found.end(), numbers[at].begin(), numbers[at].end());
    }
    return found;
}

// Arrays for an answer, which grow where it finds no room.
struct Room : polygon_c_shapes {
    std::vector<Point> all;
    std::vector<std::size_t> of_contours, of_shapes;
    explicit Room(std::size_t guess) : polygon_c_shapes() { take(2 * guess + 16, guess / 4 + 4, guess / 4 + 4); }
    Room(const Room &) = delete;
    void take(std::size_t points_, std::size_t contours_, std::size_t shapes_) {
        all.resize(points_), of_contours.resize(contours_), of_shapes.resize(shapes_);
        points = all.data(), points_room = points_, contours = of_contours.data(), contours_room = contours_;
        shapes = of_shapes.data(), shapes_room = shapes_;
    }
    // Calls, and once more with as much room as that asks for.
    template <class Call> void fill(Call call) {
        std::uint32_t status = call(*this);
        if (status == POLYGON_C_ROOM) {
            take(sizes.points, sizes.contours, sizes.shapes);
            status = call(*this);
        }
        check(status);
        take(sizes.points, sizes.contours, sizes.shapes);
    }
    Shapes answer() const { return cut(cut(all, of_contours), of_shapes); }
};
} // namespace flat

// ---- calls

inline Shapes overlay(const Contours &subject, const Contours &clip, const Query &query = Query()) {
    const flat::Given one(subject), other(clip);
    flat::Room room(one.points_len + other.points_len);
    room.fill([&](polygon_c_shapes &answer) { return polygon_overlay(&one, &other, &query, &answer); });
    return room.answer();
}

// What the contours fill, as shapes.
inline Shapes simplify(const Contours &contours, const Query &query = Query()) {
    const flat::Given one(contours);
    flat::Room room(one.points_len);
    room.fill([&](polygon_c_shapes &answer) { return polygon_simplify(&one, &query, &answer); });
    return room.answer();
}

// The shapes of an overlay of contours whose edges have numbers, and the numbers of the edges of each.
inline std::pair<Shapes, std::vector<Numbers>> overlay_edges(const Contours &subject, const Numbers &subject_numbers, const Contours &clip,
                                                             const Numbers &clip_numbers, std::uint32_t join = POLYGON_C_JOIN_OR,
                                                             const Query &query = Query()) {
    const flat::Given one(subject), other(clip);
    const std::vector<std::uint64_t> ones = flat::numbers_of(subject, subject_numbers), others = flat::numbers_of(clip, clip_numbers);
    std::vector<std::uint64_t> found;
    flat::Room room(one.points_len + other.points_len);
    room.fill([&](polygon_c_shapes &answer) {
        found.resize(answer.points_room);
        return polygon_overlay_edges(&one, ones.data(), &other, others.data(), join, &query, &answer, found.data(), found.size());
    });
    return std::make_pair(room.answer(), flat::cut(flat::cut(found, room.of_contours), room.of_shapes));
}

// The overlays of a subject with each of many groups of clips.
inline std::vector<Shapes> overlays(const Contours &subject, const std::vector<Contours> &groups, const Query &query = Query()) {
    const flat::Given one(subject), others(flat::together(groups));
    const std::vector<std::size_t> lengths = flat::lengths(groups);
    std::vector<std::size_t> counts(groups.size());
    polygon_c_many_sizes sizes;
    flat::Room room(one.points_len + others.points_len);
    room.fill([&](polygon_c_shapes &answer) {
        return polygon_overlays(&one, &others, lengths.data(), lengths.size(), &query, &answer, counts.data(), counts.size(), &sizes);
    });
    return flat::cut(room.answer(), counts);
}

// The shapes of an overlay, and a link for each that lies in a hole of another.
inline std::pair<Shapes, std::vector<Link>> hierarchy(const Contours &subject, const Contours &clip, const Query &query = Query()) {
    const flat::Given one(subject), other(clip);
    std::vector<Link> links(one.lengths_len + other.lengths_len);
    polygon_c_link_sizes sizes = {0, 0, 0, 0};
    flat::Room room(one.points_len + other.points_len);
    room.fill([&](polygon_c_shapes &answer) {
        if (sizes.links > links.size()) links.resize(sizes.links);
        return polygon_hierarchy(&one, &other, &query, &answer, links.data(), links.size(), &sizes);
    });
    links.resize(sizes.links);
    return std::make_pair(room.answer(), links);
}

// The pieces into which open lines part a shape.
inline Shapes slice(const Contours &shape, const Contours &lines, const Query &query = Query()) {
    const flat::Given one(shape), other(lines);
    flat::Room room(one.points_len + other.points_len);
    room.fill([&](polygon_c_shapes &answer) { return polygon_slice(&one, &other, &query, &answer); });
    return room.answer();
}

// What is left of open lines: inside of the shape, or outside.
inline Contours clip(const Contours &shape, const Contours &lines, const Query &query = Query()) {
    const flat::Given one(shape), other(lines);
    flat::Room room(one.points_len + other.points_len);
    room.fill([&](polygon_c_shapes &answer) {
        polygon_c_paths paths = {answer.points, answer.points_room, answer.contours, answer.contours_room, {0, 0, 0}};
        const std::uint32_t status = polygon_clip(&one, &other, &query, &paths);
        answer.sizes = paths.sizes;
        return status;
    });
    return flat::cut(room.all, room.of_contours);
}

// What contours of horizontal and vertical edges fill, grown or shrunk.
inline Shapes sized(const Contours &contours, const Sizing &by, const Query &query = Query()) {
    const flat::Given one(contours);
    flat::Room room(one.points_len);
    room.fill([&](polygon_c_shapes &answer) { return polygon_sized(&one, &by, &query, &answer); });
    return room.answer();
}

// What they fill, sized by the first amounts and then by the second, as where a mask is closed or opened.
inline Shapes sized_in_turn(const Contours &contours, const Sizing &first, const Sizing &second, const Query &query = Query()) {
    const flat::Given one(contours);
    flat::Room room(one.points_len);
    room.fill([&](polygon_c_shapes &answer) { return polygon_sized_in_turn(&one, &first, &second, &query, &answer); });
    return room.answer();
}

// What of such contours is narrower than a width: what no square of it covers.
inline Shapes width_errors(const Contours &contours, std::int32_t width, const Query &query = Query()) {
    const flat::Given one(contours);
    flat::Room room(one.points_len);
    room.fill([&](polygon_c_shapes &answer) { return polygon_width(&one, width, &query, &answer); });
    return room.answer();
}

// Where they are nearer to each other than a space, or sides of a notch.
inline Shapes space_errors(const Contours &contours, std::int32_t space, const Query &query = Query()) {
    const flat::Given one(contours);
    flat::Room room(one.points_len);
    room.fill([&](polygon_c_shapes &answer) { return polygon_space(&one, space, &query, &answer); });
    return room.answer();
}

inline Relations relate(const Contours &subject, const Contours &clip, const Query &query = Query()) {
    const flat::Given one(subject), other(clip);
    Relations told = Relations();
    flat::check(polygon_relate(&one, &other, &query, &told));
    return told;
}

// Of each point whether it lies in one of the shapes; nothing is told of a point on an edge.
inline std::vector<bool> contains_points(const Shapes &shapes, const std::vector<Point> &places) {
    const flat::Given given(flat::together(shapes));
    const std::vector<std::size_t> lengths = flat::lengths(shapes);
    std::vector<std::uint8_t> inside(places.size());
    flat::check(polygon_contains_points(&given, lengths.data(), lengths.size(), places.data(), places.size(), inside.data(), inside.size()));
    return std::vector<bool>(inside.begin(), inside.end());
}

// Of each point where it lies: POLYGON_C_OUTSIDE, POLYGON_C_INSIDE or POLYGON_C_ON_EDGE.
inline std::vector<std::uint8_t> locate(const Shapes &shapes, const std::vector<Point> &places) {
    const flat::Given given(flat::together(shapes));
    const std::vector<std::size_t> lengths = flat::lengths(shapes);
    std::vector<std::uint8_t> found(places.size());
    flat::check(polygon_locate(&given, lengths.data(), lengths.size(), places.data(), places.size(), found.data(), found.size()));
    return found;
}

// Twice the signed area of contours, summed; std::overflow_error where 64 bits don't hold it.
inline std::int64_t doubled_area(const Contours &contours) {
    const flat::Given given(contours);
    polygon_c_wide area = polygon_c_wide();
    flat::check(polygon_area(&given, &area));
    if (area.high != (area.low >> 63 ? -1 : 0)) throw std::overflow_error("the area has more than 64 bits");
    return static_cast<std::int64_t>(area.low);
}

} // namespace polygon_c

#endif
