// Plain loops that tell of a place whether it is apart from contours (0), touching (1) or
// overlapping (2), to time ours beside (oracle/bench). A contour has the corners starts[p] ..
// starts[p + 1], x and y in turn. Source and licence: as peers.h.
#include <algorithm>
#include <cstddef>
#include <cstdint>

namespace {
struct Contours {
  const uint32_t* starts;
  size_t parts;
  const int32_t* corners;
};

// Above 0 where (x, y) is left of the edge from corner a to corner b, below 0 where it is right of
// it.
inline int64_t side(const int32_t* a, const int32_t* b, int32_t x, int32_t y) {
  return ((int64_t)b[0] - a[0]) * ((int64_t)y - a[1]) - ((int64_t)b[1] - a[1]) * ((int64_t)x - a[0]);
}

// Not past all of a contour's corners to one side.
inline bool within(const int32_t* c, size_t n, int32_t x, int32_t y) {
  int32_t lx = c[0], gx = c[0], ly = c[1], gy = c[1];
  for (size_t k = 1; k < n; k++) {
    lx = std::min(lx, c[2 * k]), gx = std::max(gx, c[2 * k]);
    ly = std::min(ly, c[2 * k + 1]), gy = std::max(gy, c[2 * k + 1]);
  }
  return lx <= x && x <= gx && ly <= y && y <= gy;
}

inline bool has_length(const int32_t* a, const int32_t* b) { return (a[0] != b[0]) | (a[1] != b[1]); }

// The side of an edge that has a length; of another, more than any.
inline int64_t long_side(const int32_t* a, const int32_t* b, int32_t x, int32_t y) {
  return has_length(a, b) ? side(a, b, x, y) : INT64_MAX;
}

// One contour, every edge asked.
inline uint32_t by_every_edge(const int32_t* c, size_t n, int32_t x, int32_t y) {
  if (n == 0) return 0;
  int64_t least = long_side(c + 2 * (n - 1), c, x, y);
  for (size_t k = 1; k < n; k++) least = std::min(least, long_side(c + 2 * (k - 1), c + 2 * k, x, y));
  if (least < 0) return 0;
  return least > 0 && least < INT64_MAX ? 2 : within(c, n, x, y);
}

// One contour, left at the first edge that the place is right of.
inline uint32_t by_first_edge(const int32_t* c, size_t n, int32_t x, int32_t y) {
  if (n == 0) return 0;
  bool left = false, on = false;
  const int32_t* a = c + 2 * (n - 1);
  for (size_t k = 0; k < n; k++) {
    const int32_t* b = c + 2 * k;
    int64_t s = side(a, b, x, y);
    if (s < 0) return 0;
    left |= s > 0, on |= (s == 0) & has_length(a, b);
    a = b;
  }
  return left && !on ? 2 : within(c, n, x, y);
}

inline uint32_t first_edges(const Contours& of, int32_t x, int32_t y) {
  uint32_t most = 0;
  for (size_t p = 0; p < of.parts; p++) {
    uint32_t told = by_first_edge(of.corners + 2 * of.starts[p], of.starts[p + 1] - of.starts[p], x, y);
    if (told == 2) return 2;
    most = std::max(most, told);
  }
  return most;
}

inline bool in_range(int32_t v) { return -(1 << 30) < v && v < 1 << 30; }
}  // namespace

// Every edge of every contour.
extern "C" uint32_t peers_placement_whole(const uint32_t* starts, size_t parts, const int32_t* corners, int32_t x, int32_t y) {
  uint32_t most = 0;
  for (size_t p = 0; p < parts; p++)
    most = std::max(most, by_every_edge(corners + 2 * starts[p], starts[p + 1] - starts[p], x, y));
  return most;
}

// A contour left at the first edge that the place is right of; done at the first that the place is
// strictly inside.
extern "C" uint32_t peers_placement_leaving(const uint32_t* starts, size_t parts, const int32_t* corners, int32_t x, int32_t y) {
  return first_edges(Contours{starts, parts, corners}, x, y);
}

// The same after the refusals of starts and of range, which are told as 7 and 2 times 16.
extern "C" uint32_t peers_placement_checked(const uint32_t* starts, size_t starts_length, const int32_t* corners, size_t corners_length,
                                            int32_t x, int32_t y) {
  if (starts_length == 0 || starts[0] != 0 || starts[starts_length - 1] != corners_length / 2 || corners_length % 2) return 7 * 16;
  for (size_t k = 1; k < starts_length; k++)
    if (starts[k] < starts[k - 1]) return 7 * 16;
  if (!in_range(x) || !in_range(y)) return 2 * 16;
  for (size_t k = 0; k < corners_length; k++)
    if (!in_range(corners[k])) return 2 * 16;
  return first_edges(Contours{starts, starts_length - 1, corners}, x, y);
}
