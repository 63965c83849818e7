// Relations of two maps and points in contours by GEOS, for tests/measure/locating: reads what the program or `bench` reads and
// asks once or not at all. What it answers goes to standard output.
//
// usage: relations relate|prepared|located ASK < SCRIPT, ASK being 0 where nothing is to be asked
#define USE_UNSTABLE_GEOS_CPP_API
#include <geos/algorithm/locate/IndexedPointInAreaLocator.h>
#include <geos/geom/CoordinateArraySequence.h>
#include <geos/geom/Geometry.h>
#include <geos/geom/GeometryFactory.h>
#include <geos/geom/IntersectionMatrix.h>
#include <geos/geom/LinearRing.h>
#include <geos/geom/MultiPolygon.h>
#include <geos/geom/Polygon.h>
#include <geos/geom/prep/PreparedGeometry.h>
#include <geos/geom/prep/PreparedGeometryFactory.h>

#include <iostream>
#include <memory>
#include <sstream>
#include <string>
#include <vector>

using namespace geos::geom;

static GeometryFactory::Ptr factory = GeometryFactory::create();

// The polygon of a contour without holes.
static std::unique_ptr<Polygon> polygon(std::istringstream& words) {
  std::vector<Coordinate> points;
  for (double x, y; words >> x >> y;) points.emplace_back(x, y);
  points.push_back(points.front());
  auto ring = std::unique_ptr<CoordinateSequence>(new CoordinateArraySequence(std::move(points)));
  return factory->createPolygon(factory->createLinearRing(std::move(ring)));
}

int main(int, char** given) {
  std::string what = given[1];
  bool asks = std::string(given[2]) != "0";
  std::vector<std::unique_ptr<Polygon>> subjects, clips;
  std::vector<Coordinate> points;
  for (std::string line; std::getline(std::cin, line);) {
    std::istringstream words(line);
    std::string word;
    words >> word;
    if (word == "subject") subjects.push_back(polygon(words));
    if (word == "clip") clips.push_back(polygon(words));
    if (word == "contour") {
      int count;
      words >> count;
      subjects.push_back(polygon(words));
    }
    if (word == "point") {
      double x, y;
      words >> x >> y;
      points.emplace_back(x, y);
    }
  }
  std::unique_ptr<Geometry> subject = factory->createMultiPolygon(std::move(subjects));
  std::unique_ptr<Geometry> clip = factory->createMultiPolygon(std::move(clips));
  if (!asks) return 0;
  if (what == "relate") std::cout << subject->relate(clip.get())->toString() << "\n";
  if (what == "prepared") std::cout << prep::PreparedGeometryFactory::prepare(subject.get())->intersects(clip.get()) << "\n";
  if (what == "located") {
    geos::algorithm::locate::IndexedPointInAreaLocator locator(*subject);
    size_t inside = 0;
    for (const Coordinate& p : points) inside += locator.locate(&p) == Location::INTERIOR;
    std::cout << inside << " of " << points.size() << " points\n";
  }
}
