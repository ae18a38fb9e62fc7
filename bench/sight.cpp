// Which places of rooms are joined, in C++: by the same trees of octagons and the same exact test, by all pairs and all edges, and by GEOS
// where it is installed. Usage: sight FILE trees|edges|geos|next ROUNDS, where FILE has a room a line, as make_rooms.py writes them.
// Prints the milliseconds of processor time that a value of all rooms took, the number of neighbours, and a sum of how many each place has.
// Of `geos`, where ROUNDS tells how many pairs of a room are asked at most, the milliseconds scaled to all pairs, and how many are covered;
// of `next` the least nanoseconds of all calls, their number and a sum of what they tell.
#include <algorithm>
#include <cmath>
#include <cstdint>
#include <cstdio>
#include <cstdlib>
#include <cstring>
#include <ctime>
#include <fstream>
#include <string>
#include <vector>
#ifdef WITH_GEOS
#include <geos_c.h>
#endif

struct Point { int64_t x, y; };
struct Place { int64_t v[4]; };
struct Octagon { int64_t least[4], greatest[4]; };
struct Wall { bool is_edge; Point from, to; };
typedef std::vector<Point> Ring;
struct Room { std::vector<Ring> rings; std::vector<Point> spots; };

static const int64_t T = 5000, KX = 10000000, KY = 10000000;

// ---- the exact test

static int64_t side(Point a, Point b, Point p) { return (b.x - a.x) * (p.y - a.y) - (b.y - a.y) * (p.x - a.x); }
static int64_t along(Point a, Point b, Point p) { return (b.x - a.x) * (p.x - a.x) + (b.y - a.y) * (p.y - a.y); }
static int64_t square(Point a, Point b) { return (b.x - a.x) * (b.x - a.x) + (b.y - a.y) * (b.y - a.y); }

static bool meets(Point p, Point a, Point b) {
  if (a.y <= p.y) return p.y < b.y && side(a, b, p) > 0;
  return b.y <= p.y && side(a, b, p) < 0;
}

static bool separates(Point a, Point b, Point c, Point d) {
  int64_t m = side(a, b, c), n = side(a, b, d);
  return m < 0 ? n > 0 : m > 0 && n < 0;
}

static bool near_edge(Point p, Point a, Point b, int64_t t) {
  int64_t at = along(a, b, p);
  if (at <= 0) return square(a, p) <= t * t;
  int64_t length = square(a, b);
  if (length <= at) return square(b, p) <= t * t;
  __int128 s = side(a, b, p);
  return s * s <= (__int128)(t * t) * length;
}

static bool edge_stops(Point from, Point to, Point a, Point b, int64_t t) {
  return separates(a, b, from, to) && separates(from, to, a, b) && !near_edge(a, from, to, t) && !near_edge(b, from, to, t);
}

static bool vertex_stops(Point v, Point a, Point b, int64_t t) {
  if (side(a, b, v) != 0) return false;
  int64_t at = along(a, b, v);
  return 0 < at && at < square(a, b) && square(v, a) > t * t && square(v, b) > t * t;
}

static bool stops(const Wall &w, Point a, Point b, int64_t t) { return w.is_edge ? edge_stops(w.from, w.to, a, b, t) : vertex_stops(w.from, a, b, t); }

// ---- trees

static Place place_of(Point o, Point q) {
  int64_t x = q.x - o.x, y = q.y - o.y;
  return {{x, y, x + y, x - y}};
}

static Octagon nothing() {
  Octagon o;
  for (int k = 0; k < 4; k++) { o.least[k] = INT64_MAX; o.greatest[k] = INT64_MIN; }
  return o;
}

static void add(Octagon &o, const Place &p) {
  for (int k = 0; k < 4; k++) { o.least[k] = std::min(o.least[k], p.v[k]); o.greatest[k] = std::max(o.greatest[k], p.v[k]); }
}

static void add(Octagon &o, const Octagon &p) {
  for (int k = 0; k < 4; k++) { o.least[k] = std::min(o.least[k], p.least[k]); o.greatest[k] = std::max(o.greatest[k], p.greatest[k]); }
}

static bool apart(const Octagon &a, const Octagon &b) {
  for (int k = 0; k < 4; k++) if (a.greatest[k] < b.least[k] || b.greatest[k] < a.least[k]) return true;
  return false;
}

// 0: the ray to the east misses it, 1: it lies to the east, 2: it has to be looked at.
static int sight_of(const Octagon &o, const Place &q) {
  if (q.v[1] < o.least[1] || o.greatest[1] <= q.v[1] || o.greatest[0] < q.v[0] || o.greatest[2] < q.v[2] || o.greatest[3] < q.v[3]) return 0;
  return q.v[0] < o.least[0] || q.v[2] < o.least[2] || q.v[3] < o.least[3] ? 1 : 2;
}

static bool is_at(const Octagon &o, const Place &q, int64_t t) {
  for (int k = 0; k < 4; k++) {
    int64_t s = k < 2 ? t : 2 * t;
    if (q.v[k] + s < o.least[k] || o.greatest[k] < q.v[k] - s) return false;
  }
  return true;
}

struct Run { Point start; const Point *rest; size_t n, depth; const Octagon *octagons; size_t count; };
struct Tree { Run run; std::vector<Octagon> octagons; };
struct Way { Point a, b; int64_t t; Octagon octagon; };
struct Trees {
  std::vector<Ring> rings;
  std::vector<Tree> trees;
  std::vector<Octagon> over;
  size_t depth = 0;
};
struct Grove { const Tree *trees; size_t n, depth; const Octagon *octagons; size_t count; };

static size_t depth_of(size_t n, size_t leaf) {
  size_t d = 0;
  while (n > leaf) { n = (n + 1) / 2; d++; }
  return d;
}

static Octagon grow(Point origin, Point start, const Point *rest, size_t n, size_t depth, std::vector<Octagon> &out) {
  Octagon o = nothing();
  if (depth == 0) {
    add(o, place_of(origin, start));
    for (size_t i = 0; i < n; i++) add(o, place_of(origin, rest[i]));
    out.push_back(o);
    return o;
  }
  size_t at = out.size(), half = n / 2;
  out.push_back(o);
  o = grow(origin, start, rest, half, depth - 1, out);
  add(o, grow(origin, half ? rest[half - 1] : start, rest + half, n - half, depth - 1, out));
  out[at] = o;
  return o;
}

static Octagon grow_over(Point origin, const Tree *trees, size_t n, size_t depth, std::vector<Octagon> &out) {
  Octagon o = nothing();
  if (depth == 0) {
    for (size_t i = 0; i < n; i++) {
      add(o, place_of(origin, trees[i].run.start));
      for (size_t j = 0; j < trees[i].run.n; j++) add(o, place_of(origin, trees[i].run.rest[j]));
    }
    out.push_back(o);
    return o;
  }
  size_t at = out.size(), half = n / 2;
  out.push_back(o);
  o = grow_over(origin, trees, half, depth - 1, out);
  add(o, grow_over(origin, trees + half, n - half, depth - 1, out));
  out[at] = o;
  return o;
}

static void make(Trees &t, const Room &room) {
  t.rings = room.rings;
  for (auto &ring : t.rings) for (auto &p : ring) { p.x *= 4; p.y *= 4; }
  t.trees.resize(t.rings.size());
  for (size_t i = 0; i < t.rings.size(); i++) {
    const Ring &r = t.rings[i];
    size_t n = r.size() - 1, depth = depth_of(n, 8);
    grow(r[0], r[0], &r[1], n, depth, t.trees[i].octagons);
    t.trees[i].run = {r[0], &r[1], n, depth, t.trees[i].octagons.data(), t.trees[i].octagons.size()};
  }
  if (t.trees.size() <= 4) return;
  t.depth = depth_of(t.trees.size(), 4);
  grow_over(t.rings[0][0], t.trees.data(), t.trees.size(), t.depth, t.over);
}

static Run half_of(const Run &r, bool back) {
  size_t half = r.n / 2, below = (r.count - 1) / 2;
  if (!back) return {r.start, r.rest, half, r.depth - 1, r.octagons + 1, below};
  return {half ? r.rest[half - 1] : r.start, r.rest + half, r.n - half, r.depth - 1, r.octagons + 1 + below, below};
}

static Grove half_of(const Grove &g, bool back) {
  size_t half = g.n / 2, below = (g.count - 1) / 2;
  if (!back) return {g.trees, half, g.depth - 1, g.octagons + 1, below};
  return {g.trees + half, g.n - half, g.depth - 1, g.octagons + 1 + below, below};
}

static bool wall_of(const Way &w, const Run &r, Wall &wall) {
  if (apart(w.octagon, *r.octagons)) return false;
  if (r.depth) return wall_of(w, half_of(r, false), wall) || wall_of(w, half_of(r, true), wall);
  if (vertex_stops(r.start, w.a, w.b, w.t)) { wall = {false, r.start, r.start}; return true; }
  Point from = r.start;
  for (size_t i = 0; i < r.n; i++) {
    Point to = r.rest[i];
    if (edge_stops(from, to, w.a, w.b, w.t)) { wall = {true, from, to}; return true; }
    if (vertex_stops(to, w.a, w.b, w.t)) { wall = {false, to, to}; return true; }
    from = to;
  }
  return false;
}

static Way way_of(Point origin, Point a, Point b, int64_t t) {
  Octagon o = nothing();
  add(o, place_of(origin, a));
  add(o, place_of(origin, b));
  return {a, b, t, o};
}

static bool wall_of(Point a, Point b, int64_t t, const Tree *trees, size_t n, Wall &wall) {
  for (size_t i = 0; i < n; i++) if (wall_of(way_of(trees[i].run.start, a, b, t), trees[i].run, wall)) return true;
  return false;
}

static bool wall_of(const Way &w, const Grove &g, Wall &wall) {
  if (apart(w.octagon, *g.octagons)) return false;
  if (g.depth) return wall_of(w, half_of(g, false), wall) || wall_of(w, half_of(g, true), wall);
  return wall_of(w.a, w.b, w.t, g.trees, g.n, wall);
}

static bool is_odd(Point p, const Place &q, const Run &r) {
  int s = sight_of(*r.octagons, q);
  if (s == 0) return false;
  if (s == 1) { Point last = r.n ? r.rest[r.n - 1] : r.start; return (r.start.y <= p.y) != (last.y <= p.y); }
  if (r.depth) return is_odd(p, q, half_of(r, false)) != is_odd(p, q, half_of(r, true));
  bool odd = false;
  Point a = r.start;
  for (size_t i = 0; i < r.n; i++) { odd ^= meets(p, a, r.rest[i]); a = r.rest[i]; }
  return odd;
}

static bool is_odd(Point p, const Tree *trees, size_t n) {
  bool odd = false;
  for (size_t i = 0; i < n; i++) odd ^= is_odd(p, place_of(trees[i].run.start, p), trees[i].run);
  return odd;
}

static bool is_odd(Point p, const Place &q, const Grove &g) {
  if (sight_of(*g.octagons, q) != 2) return false;
  if (g.depth) return is_odd(p, q, half_of(g, false)) != is_odd(p, q, half_of(g, true));
  return is_odd(p, g.trees, g.n);
}

static bool is_near(Point p, const Place &q, const Run &r, int64_t t) {
  if (!is_at(*r.octagons, q, t)) return false;
  if (r.depth) return is_near(p, q, half_of(r, false), t) || is_near(p, q, half_of(r, true), t);
  Point a = r.start;
  for (size_t i = 0; i < r.n; i++) { if (near_edge(p, a, r.rest[i], t)) return true; a = r.rest[i]; }
  return false;
}

static bool is_near(Point p, const Tree *trees, size_t n, int64_t t) {
  for (size_t i = 0; i < n; i++) if (is_near(p, place_of(trees[i].run.start, p), trees[i].run, t)) return true;
  return false;
}

static bool is_near(Point p, const Place &q, const Grove &g, int64_t t) {
  if (!is_at(*g.octagons, q, t)) return false;
  if (g.depth) return is_near(p, q, half_of(g, false), t) || is_near(p, q, half_of(g, true), t);
  return is_near(p, g.trees, g.n, t);
}

static bool wall_between(const Trees &t, Point a, Point b, Wall &wall) {
  if (t.over.empty()) return wall_of(a, b, 4 * T, t.trees.data(), t.trees.size(), wall);
  return wall_of(way_of(t.rings[0][0], a, b, 4 * T), Grove{t.trees.data(), t.trees.size(), t.depth, t.over.data(), t.over.size()}, wall);
}

static bool is_held(const Trees &t, Point p) {
  if (t.over.empty()) return is_odd(p, t.trees.data(), t.trees.size()) || is_near(p, t.trees.data(), t.trees.size(), 4 * T);
  Grove g{t.trees.data(), t.trees.size(), t.depth, t.over.data(), t.over.size()};
  Place q = place_of(t.rings[0][0], p);
  return is_odd(p, q, g) || is_near(p, q, g, 4 * T);
}

// The wall that stopped the pair before first, then the tree, then the middle.
struct ByTrees {
  Trees trees;
  Wall last;
  bool has_last = false;
  explicit ByTrees(const Room &room) { make(trees, room); }
  bool sees(Point a, Point b) {
    Point from{2 * a.x, 2 * a.y}, to{2 * b.x, 2 * b.y};
    if (has_last && stops(last, from, to, 4 * T)) return false;
    if (wall_between(trees, from, to, last)) { has_last = true; return false; }
    return is_held(trees, Point{a.x + b.x, a.y + b.y});
  }
};

// Every edge of each ring, until one stops the way.
struct ByEdges {
  std::vector<Ring> rings;
  explicit ByEdges(const Room &room) : rings(room.rings) {
    for (auto &ring : rings) for (auto &p : ring) { p.x *= 4; p.y *= 4; }
  }
  bool sees(Point a, Point b) {
    Point from{2 * a.x, 2 * a.y}, to{2 * b.x, 2 * b.y}, p{a.x + b.x, a.y + b.y};
    for (auto &r : rings)
      for (size_t i = 0; i + 1 < r.size(); i++)
        if (edge_stops(r[i], r[i + 1], from, to, 4 * T) || vertex_stops(r[i], from, to, 4 * T)) return false;
    bool odd = false;
    for (auto &r : rings) for (size_t i = 0; i + 1 < r.size(); i++) odd ^= meets(p, r[i], r[i + 1]);
    if (odd) return true;
    for (auto &r : rings) for (size_t i = 0; i + 1 < r.size(); i++) if (near_edge(p, r[i], r[i + 1], 4 * T)) return true;
    return false;
  }
};

// ---- the value

static uint32_t length_cm(Point a, Point b) {
  unsigned __int128 x = (unsigned __int128)(std::llabs(b.x - a.x)) * KX, y = (unsigned __int128)(std::llabs(b.y - a.y)) * KY, s = x * x + y * y;
  const unsigned __int128 unit = 4000000000000000000ull;
  uint32_t c = (uint32_t)(std::sqrt((double)(uint64_t)(s >> 44)) * 0.002097152 + 1.0);
  while (c > 0 && s <= unit * ((uint64_t)(c - 1) * (c - 1))) c--;
  while (s > unit * ((uint64_t)c * c)) c++;
  return c;
}

struct Sights {
  uint32_t m = 0, words = 0;
  bool whole = false;
  std::vector<uint64_t> bits;
  std::vector<uint16_t> fronts;
  void put(uint32_t i, uint32_t j) { bits[(size_t)i * words + j / 64] |= 1ull << (j % 64); }
  void join(uint32_t i, uint32_t j) { put(i, j); put(j, i); }
  bool joins(uint32_t i, uint32_t j) const { return bits[(size_t)i * words + j / 64] >> (j % 64) & 1; }
  uint32_t count(uint32_t i) const {
    if (whole) return m - 1;
    size_t last = (size_t)i * words + words - 1;
    return fronts[last] + __builtin_popcountll(bits[last]);
  }
  static const uint32_t NONE = 0xffffffff;
  uint32_t next(uint32_t i, uint32_t known, uint32_t from) const {
    if (whole) {
      if (known != NONE) return NONE;
      if (from == i) from++;
      return from < m ? from : NONE;
    }
    const uint64_t *row = &bits[(size_t)i * words], *other = known == NONE ? nullptr : &bits[(size_t)known * words];
    uint32_t low = from % 64;
    for (uint32_t w = from / 64; w < words; w++) {
      uint64_t word = other ? row[w] & ~other[w] : row[w];
      if (other && known / 64 == w) word &= ~(1ull << (known % 64));
      word = word >> low << low;
      if (word) return 64 * w + __builtin_ctzll(word);
      low = 0;
    }
    return NONE;
  }
};

template <class By> static Sights sights_of(const Room &room) {
  By by(room);
  Sights s;
  s.m = room.spots.size();
  s.words = (s.m + 63) / 64;
  s.bits.assign((size_t)s.m * s.words, 0);
  for (uint32_t i = 0; i < s.m; i++)
    for (uint32_t j = 0; j < i; j++)
      if (by.sees(room.spots[i], room.spots[j])) s.join(i, j);
  std::vector<bool> blind(s.m);
  uint32_t few = 0;
  for (uint32_t i = 0; i < s.m; i++) {
    bool none = true;
    for (uint32_t w = 0; w < s.words; w++) none &= s.bits[(size_t)i * s.words + w] == 0;
    blind[i] = none;
    few += none;
  }
  size_t pairs = 0;
  for (uint64_t word : s.bits) pairs += __builtin_popcountll(word);
  if (few == s.m || pairs == (size_t)s.m * (s.m - 1)) {
    s.whole = true;
    s.bits = {};
    return s;
  }
  for (uint32_t i = 0; i < s.m; i++) {
    if (!blind[i]) continue;
    uint32_t host = Sights::NONE, least = 0;
    for (uint32_t j = 0; j < s.m; j++) {
      if (blind[j]) continue;
      uint32_t length = length_cm(room.spots[i], room.spots[j]);
      if (host == Sights::NONE || length < least) { host = j; least = length; }
    }
    s.join(i, host);
  }
  // A guest's host may make any two joined.
  pairs = 0;
  for (uint64_t word : s.bits) pairs += __builtin_popcountll(word);
  if (pairs == (size_t)s.m * (s.m - 1)) { s.whole = true; s.bits = {}; return s; }
  s.fronts.resize(s.bits.size());
  for (uint32_t i = 0; i < s.m; i++) {
    uint32_t front = 0;
    for (uint32_t w = 0; w < s.words; w++) { s.fronts[(size_t)i * s.words + w] = front; front += __builtin_popcountll(s.bits[(size_t)i * s.words + w]); }
  }
  return s;
}

// ---- what is told

struct Sum {
  uint64_t count = 0, sum = 0;
  void with(uint32_t n) { count++; sum = sum * 1000003 + n; }
};

static double busy() {
  timespec t;
  clock_gettime(CLOCK_PROCESS_CPUTIME_ID, &t);
  return t.tv_sec * 1e3 + t.tv_nsec * 1e-6;
}

static double now() {
  timespec t;
  clock_gettime(CLOCK_MONOTONIC, &t);
  return t.tv_sec * 1e9 + t.tv_nsec;
}

static uint32_t below(uint64_t &state, uint32_t bound) {
  state = state * 6364136223846793005ull + 1442695040888963407ull;
  return (uint32_t)(state >> 33) % bound;
}

static int64_t number(const char *&at) {
  while (*at == ' ') at++;
  bool minus = *at == '-';
  at += minus;
  int64_t n = 0;
  while (*at >= '0' && *at <= '9') n = 10 * n + (*at++ - '0');
  return minus ? -n : n;
}

static Ring positions(const char *&at) {
  Ring list(number(at));
  for (auto &p : list) { p.x = number(at); p.y = number(at); }
  return list;
}

static Room room_of(const std::string &line) {
  const char *at = line.c_str();
  Room room;
  room.rings.resize(number(at));
  for (auto &ring : room.rings) ring = positions(at);
  room.spots = positions(at);
  return room;
}

template <class By> static double time_of(const Room &room, int rounds, Sum &sum) {
  double took = 0;
  for (int turn = 0; turn < rounds; turn++) {
    double start = busy();
    Sights s = sights_of<By>(room);
    took += busy() - start;
    if (turn) continue;
    for (uint32_t i = 0; i < s.m; i++) {
      uint32_t n = s.count(i);
      sum.count += n;
      sum.sum = sum.sum * 1000003 + n;
    }
  }
  return took / std::max(rounds, 1);
}

static void time_next(const Room &room, int rounds) {
  Sights s = sights_of<ByTrees>(room);
  double least = 1e300;
  Sum sum;
  for (int turn = 0; turn < rounds; turn++) {
    double start = now();
    sum = Sum();
    uint64_t state = 20261201;
    for (int n = 0; n < 2000; n++) {
      uint32_t i = below(state, s.m), a = below(state, s.m), from = 0;
      for (int k = 0; k < 64; k++) {
        uint32_t j = s.next(i, a, from);
        if (j == Sights::NONE) { sum.with(9999); break; }
        sum.with(j);
        from = j + 1;
      }
    }
    least = std::min(least, now() - start);
  }
  printf("%.0f %llu %llu\n", least, (unsigned long long)sum.count, (unsigned long long)sum.sum);
}

#ifdef WITH_GEOS
// Whether a prepared polygon covers the segment, of each so manieth pair, at most so many pairs; the time is scaled to all.
static double time_geos(const Room &room, size_t most, uint64_t &covered) {
  auto line_of = [](const Ring &ring) {
    GEOSCoordSequence *seq = GEOSCoordSeq_create(ring.size(), 2);
    for (size_t i = 0; i < ring.size(); i++) GEOSCoordSeq_setXY(seq, i, 2.0 * ring[i].x, 2.0 * ring[i].y);
    return seq;
  };
  double start = busy();
  std::vector<GEOSGeometry *> holes;
  for (size_t i = 1; i < room.rings.size(); i++) holes.push_back(GEOSGeom_createLinearRing(line_of(room.rings[i])));
  GEOSGeometry *area = GEOSGeom_createPolygon(GEOSGeom_createLinearRing(line_of(room.rings[0])), holes.data(), holes.size());
  const GEOSPreparedGeometry *ready = GEOSPrepare(area);
  auto covers = [&](Point a, Point b) {
    GEOSCoordSequence *seq = GEOSCoordSeq_create(2, 2);
    GEOSCoordSeq_setXY(seq, 0, a.x, a.y);
    GEOSCoordSeq_setXY(seq, 1, b.x, b.y);
    GEOSGeometry *way = GEOSGeom_createLineString(seq);
    bool is = GEOSPreparedCovers(ready, way) == 1;
    GEOSGeom_destroy(way);
    return is;
  };
  // What it makes ready at the first questions counts once.
  size_t m = room.spots.size(), all = m * (m - 1) / 2, step = std::max<size_t>(1, all / most), asked = 0;
  for (size_t j = 1; j < m && j < 10; j++) covers(room.spots[0], room.spots[j]);
  double made = busy();
  for (size_t i = 1, j = 0; i < m;) {
    covered += covers(room.spots[i], room.spots[j]);
    asked++;
    for (j += step; j >= i && i < m; i++) j -= i;
  }
  double took = busy() - made;
  GEOSPreparedGeom_destroy(ready);
  GEOSGeom_destroy(area);
  return made - start + took * all / asked;
}
#endif

int main(int argc, char **argv) {
  if (argc < 4) return 2;
  std::ifstream file(argv[1]);
  std::string line;
  int rounds = atoi(argv[3]);
  double took = 0;
  Sum sum;
#ifdef WITH_GEOS
  initGEOS(nullptr, nullptr);
#endif
  while (std::getline(file, line)) {
    Room room = room_of(line);
    if (!strcmp(argv[2], "trees")) took += time_of<ByTrees>(room, rounds, sum);
    else if (!strcmp(argv[2], "edges")) took += time_of<ByEdges>(room, rounds, sum);
    else if (!strcmp(argv[2], "next")) { time_next(room, rounds); return 0; }
#ifdef WITH_GEOS
    else if (!strcmp(argv[2], "geos")) took += time_geos(room, rounds, sum.count);
#endif
    else return 2;
  }
  printf("%.3f %llu %llu\n", took, (unsigned long long)sum.count, (unsigned long long)sum.sum);
}
