// CGAL's Minkowski sum of each two contours, for oracle/bench where CGAL is installed (libcgal-dev;
// its own licence, GPL, is why nothing else here links it). Exact numbers, as its manual's first
// example has them.
#include "peers.h"
#include <CGAL/Exact_predicates_exact_constructions_kernel.h>
#include <CGAL/Polygon_2.h>
#include <CGAL/Polygon_with_holes_2.h>
#include <CGAL/minkowski_sum_2.h>

typedef CGAL::Exact_predicates_exact_constructions_kernel Kernel;
typedef CGAL::Polygon_2<Kernel> Polygon;
typedef std::vector<Polygon> Polygons;

extern "C" Polygons* cgal_operand(const std::vector<C>* operand) {
  Polygons* out = new Polygons;
  for (const C& contour : *operand) {
    Polygon polygon;
    for (const P& p : contour) polygon.push_back(Kernel::Point_2(p.x, p.y));
    out->push_back(polygon);
  }
  return out;
}

extern "C" void cgal_free(Polygons* operand) { delete operand; }

// How many corners all pairs have.
extern "C" size_t cgal_all(const Polygons* left, const Polygons* right) {
  size_t count = 0;
  for (const Polygon& a : *left)
    for (const Polygon& b : *right) count += CGAL::minkowski_sum_2(a, b).outer_boundary().size();
  return count;
}
