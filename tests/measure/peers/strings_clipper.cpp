// Clipper 6: open paths clipped by polygons. It has no slices.
#include "strings.hpp"

#include <cmath>
#include <polyclipping/clipper.hpp>

struct Engine {
    ClipperLib::Paths bodies, lines;

    static ClipperLib::Paths paths_of(const std::vector<Path>& from) {
        ClipperLib::Paths to;
        for (const Path& path : from) {
            to.emplace_back();
            for (const Spot& p : path) to.back().emplace_back(p.x, p.y);
        }
        return to;
    }

    void take(const Script& script) {
        bodies = paths_of(script.bodies);
        lines = paths_of(script.lines);
    }

    std::string clip() {
        ClipperLib::Clipper clipper;
        clipper.AddPaths(lines, ClipperLib::ptSubject, false);
        clipper.AddPaths(bodies, ClipperLib::ptClip, true);
        ClipperLib::PolyTree tree;
        clipper.Execute(ClipperLib::ctIntersection, tree, ClipperLib::pftNonZero, ClipperLib::pftNonZero);
        ClipperLib::Paths found;
        ClipperLib::OpenPathsFromPolyTree(tree, found);
        size_t points = 0;
        long long length = 0;
        for (const auto& path : found) {
            points += path.size();
            for (size_t i = 1; i < path.size(); ++i) length += std::llabs(path[i].X - path[i - 1].X) + std::llabs(path[i].Y - path[i - 1].Y);
        }
        return "paths " + std::to_string(found.size()) + " points " + std::to_string(points) + " length " + std::to_string(length);
    }

    std::string slice() { return "slices nothing"; }
};

int main() { return run<Engine>("clipper"); }
