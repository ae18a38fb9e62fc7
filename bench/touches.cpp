// Which openings touch which units, by Boost.Geometry: an R-tree a level of the openings' first vertices, made in bulk and asked for
// each unit's frame and the tolerance, and then for each vertex the exact distance to the unit's edges. Of a unit with more than 64
// edges an R-tree of them is made in bulk, where any opening begins in its frame.
// Usage: touches FILE TOLERANCE ROUNDS, where FILE is what `ground_rows.py` prints. Prints the least milliseconds of so many rounds, the
// number of touches, and a sum of them.
#include <boost/geometry.hpp>
#include <boost/geometry/geometries/box.hpp>
#include <boost/geometry/geometries/point.hpp>
#include <boost/geometry/index/rtree.hpp>
#include <algorithm>
#include <chrono>
#include <cstdint>
#include <cstdio>
#include <cstdlib>
#include <utility>
#include <vector>

namespace bg = boost::geometry;
namespace bgi = boost::geometry::index;

using Place = bg::model::point<int64_t, 2, bg::cs::cartesian>;
using Box = bg::model::box<Place>;
using Starts = bgi::rtree<std::pair<Place, uint32_t>, bgi::quadratic<16>>;
using Edges = bgi::rtree<std::pair<Box, uint32_t>, bgi::quadratic<16>>;
using Rows = std::vector<std::vector<uint32_t>>;

struct Point { int64_t x, y; };
struct Edge { Point a, b; };
struct Opening { uint32_t level; std::vector<Point> points; };
struct Unit { uint32_t level; std::vector<std::vector<Point>> rings; };

static bool near_edge(Point p, Point a, Point b, int64_t t) {
  int64_t dx = b.x - a.x, dy = b.y - a.y, qx = p.x - a.x, qy = p.y - a.y;
  int64_t along = dx * qx + dy * qy, length = dx * dx + dy * dy;
  if (along <= 0) return qx * qx + qy * qy <= t * t;
  if (length <= along) return (p.x - b.x) * (p.x - b.x) + (p.y - b.y) * (p.y - b.y) <= t * t;
  __int128 side = dx * qy - dy * qx;
  return side * side <= (__int128)(t * t) * length;
}

static Box box_of(Point a, Point b, int64_t t) {
  return Box(Place(std::min(a.x, b.x) - t, std::min(a.y, b.y) - t), Place(std::max(a.x, b.x) + t, std::max(a.y, b.y) + t));
}

static Box frame_of(const Unit &unit, int64_t t) {
  Point low{INT64_MAX, INT64_MAX}, high{INT64_MIN, INT64_MIN};
  for (auto &ring : unit.rings)
    for (auto &p : ring) {
      low = {std::min(low.x, p.x), std::min(low.y, p.y)};
      high = {std::max(high.x, p.x), std::max(high.y, p.y)};
    }
  return box_of(low, high, t);
}

// The border of a unit: its edges, one by one or in a tree.
struct Border {
  std::vector<Edge> edges;
  Edges tree;
  std::vector<std::pair<Box, uint32_t>> found;

  explicit Border(const Unit &unit) {
    for (auto &ring : unit.rings)
      for (size_t i = 0; i + 1 < ring.size(); i++) edges.push_back({ring[i], ring[i + 1]});
    if (edges.size() <= 64) return;
    std::vector<std::pair<Box, uint32_t>> boxes;
    boxes.reserve(edges.size());
    for (size_t i = 0; i < edges.size(); i++) boxes.emplace_back(box_of(edges[i].a, edges[i].b, 0), (uint32_t)i);
    tree = Edges(boxes);
  }

  bool is_near(Point p, int64_t t) {
    if (edges.size() <= 64) return std::any_of(edges.begin(), edges.end(), [&](const Edge &e) { return near_edge(p, e.a, e.b, t); });
    found.clear();
    tree.query(bgi::intersects(box_of(p, p, t)), std::back_inserter(found));
    return std::any_of(found.begin(), found.end(), [&](auto &f) { return near_edge(p, edges[f.second].a, edges[f.second].b, t); });
  }
};

static Rows touches(const std::vector<Opening> &openings, const std::vector<Unit> &units, size_t levels, int64_t t) {
  std::vector<std::vector<std::pair<Place, uint32_t>>> starts(levels);
  for (size_t i = 0; i < openings.size(); i++) {
    auto &o = openings[i];
    starts[o.level].emplace_back(Place(o.points[0].x, o.points[0].y), (uint32_t)i);
  }
  std::vector<Starts> trees;
  trees.reserve(levels);
  for (auto &s : starts) trees.emplace_back(s);
  Rows rows(openings.size());
  std::vector<std::pair<Place, uint32_t>> found;
  for (size_t u = 0; u < units.size(); u++) {
    found.clear();
    trees[units[u].level].query(bgi::intersects(frame_of(units[u], t)), std::back_inserter(found));
    if (found.empty()) continue;
    Border border(units[u]);
    for (auto &f : found) {
      auto &points = openings[f.second].points;
      if (std::all_of(points.begin(), points.end(), [&](Point p) { return border.is_near(p, t); })) rows[f.second].push_back((uint32_t)u);
    }
  }
  return rows;
}

static double now() { return std::chrono::duration<double, std::milli>(std::chrono::steady_clock::now().time_since_epoch()).count(); }

static uint64_t number(FILE *f) {
  long n;
  if (fscanf(f, "%ld", &n) != 1) exit(1);
  return n;
}

static std::vector<Point> positions(FILE *f) {
  std::vector<Point> points(number(f));
  for (auto &p : points) if (fscanf(f, "%ld %ld", &p.x, &p.y) != 2) exit(1);
  return points;
}

int main(int argc, char **argv) {
  FILE *f = fopen(argv[1], "r");
  int64_t tolerance = atol(argv[2]);
  std::vector<Opening> openings(number(f));
  std::vector<Unit> units(number(f));
  size_t levels = 0;
  for (auto &o : openings) {
    o.level = number(f);
    o.points = positions(f);
    levels = std::max(levels, (size_t)o.level + 1);
  }
  for (auto &u : units) {
    u.level = number(f);
    u.rings.resize(number(f));
    for (auto &ring : u.rings) ring = positions(f);
    levels = std::max(levels, (size_t)u.level + 1);
  }
  double least = 1e9;
  uint64_t count = 0, sum = 0;
  for (int round = 0; round < atoi(argv[3]); round++) {
    double start = now();
    Rows rows = touches(openings, units, levels, tolerance);
    least = std::min(least, now() - start);
    count = sum = 0;
    for (size_t o = 0; o < rows.size(); o++)
      for (uint32_t u : rows[o]) {
        count++;
        sum = sum * 1000003 + o * 131071 + u;
      }
  }
  printf("%.3f %lu %lu\n", least, count, sum);
}
