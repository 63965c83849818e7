// Boost.Polygon's rectilinear engine behind the requests of a mask script: contours, one overlay, and the answer's contours.
#include <boost/polygon/polygon.hpp>
#include <cstdio>
#include <cstdlib>
#include <cstring>
#include <iterator>
#include <list>
#include <string>
#include <vector>

namespace bp = boost::polygon;
using Set = bp::polygon_90_set_data<int>;
using Polygon = bp::polygon_90_with_holes_data<int>;

static std::vector<bp::point_data<int>> points_of(char* words) {
    std::vector<bp::point_data<int>> points;
    for (char* end; ; words = end) {
        long x = strtol(words, &end, 10);
        if (end == words) return points;
        long y = strtol(end, &words, 10);
        end = words;
        points.emplace_back(int(x), int(y));
    }
}

static long long area_of(const std::vector<bp::point_data<int>>& points) {
    long long area = 0;
    for (size_t i = 0, k = points.size() - 1; i < points.size(); k = i++)
        area += (long long)points[k].x() * points[i].y() - (long long)points[i].x() * points[k].y();
    return area;
}

template <class Points>
static void tell(std::string& text, Points begin, Points end) {
    text += "contour";
    for (; begin != end; ++begin) text += ' ' + std::to_string((*begin).x()) + ' ' + std::to_string((*begin).y());
    text += '\n';
}

int main() {
    using namespace bp::operators;
    Set sides[2];
    std::vector<std::pair<int, std::vector<bp::point_data<int>>>> held;
    char* line = nullptr;
    size_t room = 0;
    while (getline(&line, &room, stdin) > 0) {
        bool subject = !strncmp(line, "subject ", 8), clip = !strncmp(line, "clip ", 5);
        if (subject || clip) {
            held.emplace_back(clip, points_of(line + (subject ? 8 : 5)));
            puts("ok");
            continue;
        }
        if (!strncmp(line, "reset", 5)) {
            for (Set& side : sides) side.clear();
            held.clear();
            continue;
        }
        char rule[32], fill[32];
        if (sscanf(line, "overlay %31s %31s", rule, fill) != 2) continue;
        for (auto& [side, points] : held) {
            bp::polygon_90_data<int> one;
            one.set(points.begin(), points.end());
            sides[side].insert(one, area_of(points) < 0);
        }
        if (!strcmp(fill, "evenodd"))
            for (Set& side : sides) side.self_xor();
        Set answer = sides[0];
        if (!strcmp(rule, "union")) answer += sides[1];
        if (!strcmp(rule, "intersect")) answer *= sides[1];
        if (!strcmp(rule, "difference")) answer -= sides[1];
        if (!strcmp(rule, "xor")) answer ^= sides[1];
        std::vector<Polygon> shapes;
        answer.get(shapes);
        std::string text = "shapes " + std::to_string(shapes.size()) + '\n';
        for (const Polygon& shape : shapes) {
            text += "shape " + std::to_string(1 + std::distance(shape.begin_holes(), shape.end_holes())) + '\n';
            tell(text, shape.begin(), shape.end());
            for (auto hole = shape.begin_holes(); hole != shape.end_holes(); ++hole) tell(text, hole->begin(), hole->end());
        }
        fputs(text.c_str(), stdout);
        long long area = 0; // doubled, as `area` tells it
        for (const Polygon& shape : shapes) area += 2 * (long long)bp::area(shape);
        fprintf(stderr, "area %lld\n", area);
    }
}
