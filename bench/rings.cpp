// The same tree of octagons in C++, and GEOS where it is installed: the time of 20,000 points and of crossings, ring by ring.
// Usage: rings FILE, where each line of FILE is a name, a number of positions, and x and y of each. Prints a line a ring.
#include <algorithm>
#include <chrono>
#include <cstdint>
#include <cstdio>
#include <cstdlib>
#include <string>
#include <vector>
#ifdef WITH_GEOS
#include <geos_c.h>
#include <cstdarg>
#endif

struct Point { int64_t x, y; };
struct Place { int64_t v[4]; };
struct Octagon { int64_t least[4], greatest[4]; };

static Place place_of(Point o, Point q) {
  int64_t x = q.x - o.x, y = q.y - o.y;
  return {{x, y, x + y, x - y}};
}

static int64_t side(Point a, Point b, Point p) { return (b.x - a.x) * (p.y - a.y) - (b.y - a.y) * (p.x - a.x); }

static bool meets(Point p, Point a, Point b) {
  if (a.y <= p.y) return p.y < b.y && side(a, b, p) > 0;
  return b.y <= p.y && side(a, b, p) < 0;
}

static bool crosses(Point a, Point b, Point c, Point d) {
  auto split = [](int64_t m, int64_t n) { return m < 0 ? n > 0 : m > 0 && n < 0; };
  return split(side(a, b, c), side(a, b, d)) && split(side(c, d, a), side(c, d, b));
}

static bool near_edge(Point p, Point a, Point b, int64_t t) {
  int64_t dx = b.x - a.x, dy = b.y - a.y, qx = p.x - a.x, qy = p.y - a.y;
  int64_t along = dx * qx + dy * qy, length = dx * dx + dy * dy;
  if (along <= 0) return qx * qx + qy * qy <= t * t;
  if (length <= along) return (p.x - b.x) * (p.x - b.x) + (p.y - b.y) * (p.y - b.y) <= t * t;
  __int128 s = side(a, b, p);
  return s * s <= (__int128)(t * t) * length;
}

struct Run { Point start; const Point *rest; size_t n, depth; const Octagon *octagons; size_t count; };

static Octagon grow(Point origin, Point start, const Point *rest, size_t n, size_t depth, std::vector<Octagon> &out) {
  Octagon o;
  if (depth == 0) {
    Place s = place_of(origin, start);
    for (int k = 0; k < 4; k++) o.least[k] = o.greatest[k] = s.v[k];
    for (size_t i = 0; i < n; i++) {
      Place q = place_of(origin, rest[i]);
      for (int k = 0; k < 4; k++) { o.least[k] = std::min(o.least[k], q.v[k]); o.greatest[k] = std::max(o.greatest[k], q.v[k]); }
    }
    out.push_back(o);
    return o;
  }
  size_t at = out.size();
  out.push_back({});
  size_t half = n / 2;
  Octagon a = grow(origin, start, rest, half, depth - 1, out);
  Octagon b = grow(origin, half ? rest[half - 1] : start, rest + half, n - half, depth - 1, out);
  for (int k = 0; k < 4; k++) { o.least[k] = std::min(a.least[k], b.least[k]); o.greatest[k] = std::max(a.greatest[k], b.greatest[k]); }
  out[at] = o;
  return o;
}

static Run half_of(const Run &r, bool back) {
  size_t half = r.n / 2, below = (r.count - 1) / 2;
  if (!back) return {r.start, r.rest, half, r.depth - 1, r.octagons + 1, below};
  return {half ? r.rest[half - 1] : r.start, r.rest + half, r.n - half, r.depth - 1, r.octagons + 1 + below, below};
}

static bool is_odd(Point p, const Place &q, const Run &r) {
  const Octagon &o = *r.octagons;
  if (q.v[1] < o.least[1] || o.greatest[1] <= q.v[1] || o.greatest[0] < q.v[0] || o.greatest[2] < q.v[2] || o.greatest[3] < q.v[3]) return false;
  if (q.v[0] < o.least[0] || q.v[2] < o.least[2] || q.v[3] < o.least[3]) {
    Point last = r.n ? r.rest[r.n - 1] : r.start;
    return (r.start.y <= p.y) != (last.y <= p.y);
  }
  if (r.depth) return is_odd(p, q, half_of(r, false)) != is_odd(p, q, half_of(r, true));
  bool odd = false;
  Point a = r.start;
  for (size_t i = 0; i < r.n; i++) { odd ^= meets(p, a, r.rest[i]); a = r.rest[i]; }
  return odd;
}

static bool is_near(Point p, const Place &q, const Run &r, int64_t t) {
  const Octagon &o = *r.octagons;
  for (int k = 0; k < 4; k++) {
    int64_t s = k < 2 ? t : 2 * t;
    if (q.v[k] + s < o.least[k] || o.greatest[k] < q.v[k] - s) return false;
  }
  if (r.depth) return is_near(p, q, half_of(r, false), t) || is_near(p, q, half_of(r, true), t);
  Point a = r.start;
  for (size_t i = 0; i < r.n; i++) { if (near_edge(p, a, r.rest[i], t)) return true; a = r.rest[i]; }
  return false;
}

static bool lines_cross(const Run &r, const Run &s) {
  Point a = r.start;
  for (size_t i = 0; i < r.n; i++) {
    Point c = s.start;
    for (size_t j = 0; j < s.n; j++) { if (crosses(a, r.rest[i], c, s.rest[j])) return true; c = s.rest[j]; }
    a = r.rest[i];
  }
  return false;
}

static bool runs_cross(const Run &r, const Run &s) {
  for (int k = 0; k < 4; k++)
    if (r.octagons->greatest[k] < s.octagons->least[k] || s.octagons->greatest[k] < r.octagons->least[k]) return false;
  if (s.depth <= r.depth) {
    if (r.depth == 0) return lines_cross(r, s);
    return runs_cross(half_of(r, false), s) || runs_cross(half_of(r, true), s);
  }
  return runs_cross(r, half_of(s, false)) || runs_cross(r, half_of(s, true));
}

static bool crosses_itself(const Run &r) {
  if (r.depth == 0) return lines_cross(r, r);
  Run a = half_of(r, false), b = half_of(r, true);
  return crosses_itself(a) || crosses_itself(b) || runs_cross(a, b);
}

static double now() { return std::chrono::duration<double, std::milli>(std::chrono::steady_clock::now().time_since_epoch()).count(); }

static size_t depth_of(size_t n) {
  size_t d = 0;
  while (n > 8) { n = (n + 1) / 2; d++; }
  return d;
}

int main(int argc, char **argv) {
  FILE *f = fopen(argv[1], "r");
  char name[64];
  long n;
  while (fscanf(f, "%63s %ld", name, &n) == 2) {
    std::vector<Point> ring(n);
    for (auto &q : ring) if (fscanf(f, "%ld %ld", &q.x, &q.y) != 2) return 1;
    int64_t w = ring[0].x, e = w, s = ring[0].y, t = s;
    for (auto &q : ring) { w = std::min(w, q.x); e = std::max(e, q.x); s = std::min(s, q.y); t = std::max(t, q.y); }
    // The same points as the other program's: a generator of 64 bits.
    uint64_t r = 20260101;
    auto random = [&](int64_t m) { r = r * 6364136223846793005ull + 1442695040888963407ull; return (int64_t)((r >> 33) % (uint64_t)m); };
    std::vector<Point> asked(20000);
    for (auto &q : asked) { q.x = w + random(e - w + 1); q.y = s + random(t - s + 1); }
    double best[4] = {1e9, 1e9, 1e9, 1e9};
    size_t found = 0, own = 0;
    bool crossing = false;
    for (int turn = 0; turn < 5; turn++) {
      double a = now();
      std::vector<Octagon> octagons;
      size_t depth = depth_of(n - 1);
      grow(ring[0], ring[0], &ring[1], n - 1, depth, octagons);
      Run run{ring[0], &ring[1], (size_t)n - 1, depth, octagons.data(), octagons.size()};
      double b = now();
      found = 0;
      for (auto &p : asked) { Place q = place_of(ring[0], p); found += is_odd(p, q, run) || is_near(p, q, run, 5000); }
      double c = now();
      own = 0;
      for (auto &p : ring) { Place q = place_of(ring[0], p); own += is_odd(p, q, run) || is_near(p, q, run, 5000); }
      double d = now();
      std::vector<Octagon> again;
      grow(ring[0], ring[0], &ring[1], n - 1, depth, again);
      crossing = crosses_itself(Run{ring[0], &ring[1], (size_t)n - 1, depth, again.data(), again.size()});
      double g = now();
      best[0] = std::min(best[0], b - a); best[1] = std::min(best[1], c - a); best[2] = std::min(best[2], d - c + b - a); best[3] = std::min(best[3], g - d);
    }
    printf("%s c++ make %.2f points %.2f own %.2f crossings %.2f found %zu %zu %d\n", name, best[0], best[1], best[2], best[3], found, own, crossing);
#ifdef WITH_GEOS
    initGEOS(nullptr, nullptr);
    GEOSCoordSequence *seq = GEOSCoordSeq_create(n, 2), *line = GEOSCoordSeq_create(n, 2);
    for (long i = 0; i < n; i++) { GEOSCoordSeq_setXY(seq, i, ring[i].x, ring[i].y); GEOSCoordSeq_setXY(line, i, ring[i].x, ring[i].y); }
    GEOSGeometry *border = GEOSGeom_createLinearRing(line), *area = GEOSGeom_createPolygon(GEOSGeom_createLinearRing(seq), nullptr, 0);
    double geos[3] = {1e9, 1e9, 1e9};
    for (int turn = 0; turn < 3; turn++) {
      double a = now();
      const GEOSPreparedGeometry *ready = GEOSPrepare(area);
      for (auto &p : asked) { GEOSGeometry *g = GEOSGeom_createPointFromXY(p.x, p.y); found += GEOSPreparedCovers(ready, g); GEOSGeom_destroy(g); }
      double b = now();
      for (auto &p : ring) { GEOSGeometry *g = GEOSGeom_createPointFromXY(p.x, p.y); own += GEOSPreparedCovers(ready, g); GEOSGeom_destroy(g); }
      double c = now();
      crossing = GEOSisSimple(border) != 1;
      double d = now();
      GEOSPreparedGeom_destroy(ready);
      geos[0] = std::min(geos[0], b - a); geos[1] = std::min(geos[1], c - b); geos[2] = std::min(geos[2], d - c);
    }
    printf("%s geos points %.2f own %.2f simple %.2f %d\n", name, geos[0], geos[1], geos[2], crossing);
#endif
  }
}
