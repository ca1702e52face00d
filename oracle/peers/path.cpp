// A path in millimetres to corners on the grid by two plain loops, the first judging and the second
// writing, to time ours beside (oracle/bench). Source and licence: as peers.h.
#include <cmath>
#include <cstddef>
#include <cstdint>

namespace {
struct Item {
  uint64_t kind;
  double x, y;
};
struct Frame {
  double x, y, steps;
};
struct Told {
  uint32_t fault, corners;
};

// Goes where an item leads; false for one that draws no line.
inline bool step(const Item& item, double& x, double& y) {
  switch (item.kind) {
    case 1: x = item.x, y = item.y; return true;
    case 2: x = item.x; return true;
    case 3: y = item.y; return true;
    case 4: x += item.x, y += item.y; return true;
    default: return false;
  }
}

// False for what is not finite too.
inline bool within(double x, double y) { return std::fabs(x) <= 1048576.0 && std::fabs(y) <= 1048576.0; }

inline bool is_power(double steps) {
  if (!(steps >= 1 && steps <= 1024)) return false;
  int whole = (int)steps;
  return whole == steps && (whole & (whole - 1)) == 0;
}

// Whether the nearest whole number, halves away from zero, lies strictly between -2^30 and 2^30.
inline bool on_grid(double v) { return std::fabs(v) < 1073741823.5; }

inline int32_t nearest(double v) {
  int32_t whole = (int32_t)v;
  double rest = v - whole;
  return whole + (rest >= 0.5) - (rest <= -0.5);
}
}  // namespace

extern "C" Told peers_import_path(const Item* path, size_t items, Frame frame, int32_t* corners, size_t corners_room) {
  if (!is_power(frame.steps) || !std::isfinite(frame.x) || !std::isfinite(frame.y)) return Told{14, 0};
  if (items < 2 || path[0].kind != 0 || path[items - 1].kind != 5) return Told{14, 0};
  double x = path[0].x, y = path[0].y;
  if (!within(x, y)) return Told{14, 0};
  bool fits = on_grid((x - frame.x) * frame.steps) && on_grid((y - frame.y) * frame.steps);
  for (size_t k = 1; k + 1 < items; k++) {
    if (!step(path[k], x, y) || !within(x, y)) return Told{14, 0};
    fits &= on_grid((x - frame.x) * frame.steps) & on_grid((y - frame.y) * frame.steps);
  }
  if (items - 1 > 1026) return Told{7, 0};
  if (!fits) return Told{2, 0};
  if (corners_room < 2 * (items - 1)) return Told{21, 0};
  x = path[0].x, y = path[0].y;
  for (size_t k = 0; k + 1 < items; k++) {
    if (k > 0) step(path[k], x, y);
    corners[2 * k] = nearest((x - frame.x) * frame.steps);
    corners[2 * k + 1] = nearest((y - frame.y) * frame.steps);
  }
  return Told{0, (uint32_t)(items - 1)};
}
