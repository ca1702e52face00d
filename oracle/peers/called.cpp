// What oracle/driver calls: operands made once from flat lists, and all pairs of two of them.
#include "peers.h"

typedef std::vector<C> Operand;

// An operand of `parts` contours: part p has the corners starts[p] .. starts[p + 1], x and y in
// turn.
extern "C" Operand* peers_operand(const uint32_t* starts, size_t parts, const int32_t* corners) {
  Operand* out = new Operand(parts);
  for (size_t p = 0; p < parts; p++)
    for (size_t k = starts[p]; k < starts[p + 1]; k++) (*out)[p].push_back(P{corners[2 * k], corners[2 * k + 1]});
  return out;
}

extern "C" void peers_free(Operand* operand) { delete operand; }

// All pairs, one after another in `out`, by the textbook merge; answers how many corners they have.
extern "C" size_t peers_t1_all(const Operand* left, const Operand* right, int32_t* out) {
  return t1_all(*left, *right, reinterpret_cast<P*>(out), true);
}
