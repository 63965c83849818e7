// GEOS: lines intersected with polygons by OverlayNG on the integer grid, and polygons sliced by noding their borders with the lines, making polygons of the
// faces, and keeping those that lie inside. Bodies are outlines that don't meet.
#include "strings.hpp"

#include <cmath>
#define USE_UNSTABLE_GEOS_CPP_API
#include <geos/algorithm/locate/IndexedPointInAreaLocator.h>
#include <geos/geom/CoordinateArraySequence.h>
#include <geos/geom/Geometry.h>
#include <geos/geom/GeometryFactory.h>
#include <geos/geom/LineString.h>
#include <geos/geom/LinearRing.h>
#include <geos/geom/MultiLineString.h>
#include <geos/geom/MultiPolygon.h>
#include <geos/geom/Point.h>
#include <geos/geom/Polygon.h>
#include <geos/geom/PrecisionModel.h>
#include <geos/operation/overlayng/OverlayNG.h>
#include <geos/operation/overlayng/UnaryUnionNG.h>
#include <geos/operation/polygonize/Polygonizer.h>

using namespace geos::geom;
using geos::operation::overlayng::OverlayNG;
using geos::operation::overlayng::UnaryUnionNG;
using geos::operation::polygonize::Polygonizer;

struct Engine {
    PrecisionModel grid{1.0};
    GeometryFactory::Ptr factory = GeometryFactory::create(&grid);
    std::unique_ptr<Geometry> shape, lines;

    std::unique_ptr<CoordinateSequence> sequence(const Path& path, bool closed) {
        std::vector<Coordinate> all;
        for (const Spot& p : path) all.emplace_back(p.x, p.y);
        if (closed) all.push_back(all.front());
        return std::unique_ptr<CoordinateSequence>(new CoordinateArraySequence(std::move(all)));
    }

    void take(const Script& script) {
        std::vector<std::unique_ptr<Polygon>> polygons;
        for (const Path& body : script.bodies) polygons.push_back(factory->createPolygon(factory->createLinearRing(sequence(body, true))));
        shape = factory->createMultiPolygon(std::move(polygons));
        std::vector<std::unique_ptr<LineString>> all;
        for (const Path& line : script.lines) all.push_back(factory->createLineString(sequence(line, false)));
        lines = factory->createMultiLineString(std::move(all));
    }

    std::string clip() {
        auto found = OverlayNG::overlay(lines.get(), shape.get(), OverlayNG::INTERSECTION, &grid);
        size_t paths = 0, points = 0;
        double length = 0;
        for (size_t i = 0; i < found->getNumGeometries(); ++i) {
            auto* line = dynamic_cast<const LineString*>(found->getGeometryN(i));
            if (!line || line->isEmpty()) continue;
            ++paths;
            points += line->getNumPoints();
            for (size_t k = 1; k < line->getNumPoints(); ++k) {
                const Coordinate &a = line->getCoordinateN(k - 1), &b = line->getCoordinateN(k);
                length += std::fabs(a.x - b.x) + std::fabs(a.y - b.y);
            }
        }
        char text[120];
        snprintf(text, sizeof text, "paths %zu points %zu length %.0f", paths, points, length);
        return text;
    }

    std::string slice() {
        auto border = shape->getBoundary();
        auto noded = OverlayNG::overlay(border.get(), lines.get(), OverlayNG::UNION, &grid);
        Polygonizer polygonizer;
        polygonizer.add(noded.get());
        auto faces = polygonizer.getPolygons();
        geos::algorithm::locate::IndexedPointInAreaLocator locator(*shape);
        size_t pieces = 0, contours = 0, points = 0;
        double area = 0;
        for (const auto& face : faces) {
            auto inside = face->getInteriorPoint();
            if (locator.locate(inside->getCoordinate()) != Location::INTERIOR) continue;
            ++pieces;
            contours += 1 + face->getNumInteriorRing();
            points += face->getNumPoints() - 1 - face->getNumInteriorRing();
            area += 2 * face->getArea();
        }
        char text[160];
        snprintf(text, sizeof text, "pieces %zu contours %zu points %zu area %.0f", pieces, contours, points, area);
        return text;
    }
};

int main() { return run<Engine>("geos"); }
