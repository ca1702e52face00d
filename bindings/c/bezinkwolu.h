/* Bezinkwolu: convex parts of triangle meshes, their sums and differences pair by pair, and
 * outlines of drawings on the grid. Link with -lbezinkwolu.
 *
 * Every function here takes any input: it refuses by a number, or it finishes and its answer is
 * complete. What each does is proved; these comments say it in words, and the contracts stand in
 * crates/boundary_.. of the repository. None of them allocates, keeps anything, or calls anything
 * but memcpy and memset, and any number of threads may call them at once. A call needs at most 448
 * KiB of stack (measured, not proved).
 *
 * MEMORY is lent for one call:
 *   - a list passes as a pointer and a length, in elements and not in bytes;
 *   - no pointer may be null, also where the length is 0: any aligned address will do then, and
 *     nothing is read or written there;
 *   - memory that a call writes may overlap no other memory of the same call. Lists that are only
 *     read may overlap: left and right may be one table;
 *   - a `bool` is 0 or 1.
 * REFUSED: the answer has the fault's number and zeros, and no lent memory has changed.
 * ACCEPTED: fault is 0. Places past the answer keep what they held.
 *
 * A POINT is two numbers, x and y, each strictly between -2^30 and 2^30.
 * A MESH is a list of triangles, each counter-clockwise. At most 1,024.
 * A PART TABLE is a list of starts and a list of corners. A corner is two numbers, x and then y.
 * Part k has the corners from starts[k] up to, and not with, starts[k + 1], so its first number is
 * corners[2 * starts[k]]. Starts begin with 0, never fall, and end with how many corners there are;
 * there is one more start than parts. A table that is given has at most 2,048 parts, 8,192 corners,
 * and 1,026 corners in one part; a part may be empty.
 * An OPERAND is a part table with bounds: least and greatest x and y, which no corner may be
 * outside of.
 */
#ifndef BEZINKWOLU_H
#define BEZINKWOLU_H

#include <stdbool.h>
#include <stddef.h>
#include <stdint.h>

#define BEZINKWOLU_VERSION_MAJOR 0
#define BEZINKWOLU_VERSION_MINOR 1
#define BEZINKWOLU_VERSION_PATCH 0
#define BEZINKWOLU_VERSION "0.1.0"

/* What lets a compiler warn of a null pointer, and of memory that is written and overlaps other
 * memory of the call. */
#if defined(__GNUC__)
#define BEZINKWOLU_NONNULL __attribute__((nonnull))
#define BEZINKWOLU_RESTRICT __restrict__
#else
#define BEZINKWOLU_NONNULL
#if defined(__STDC_VERSION__) && __STDC_VERSION__ >= 199901L && !defined(__cplusplus)
#define BEZINKWOLU_RESTRICT restrict
#else
#define BEZINKWOLU_RESTRICT
#endif
#endif

#ifdef __cplusplus
extern "C" {
#endif

/* The faults. What each call refuses stands at the call, in the order in which it is tried: the
 * first that holds is told. */
enum bezinkwolu_fault {
    BEZINKWOLU_FAULT_NONE = 0,
    /* Faults that come from the input. */
    BEZINKWOLU_FAULT_TRIANGLES = 1,    /* More than 1,024 triangles. */
    BEZINKWOLU_FAULT_RANGE = 2,        /* A coordinate or bound not strictly between -2^30 and 2^30. */
    BEZINKWOLU_FAULT_STRAY = 3,        /* A neighbour neither none nor in the mesh, or the triangle itself. */
    BEZINKWOLU_FAULT_NAMING = 4,       /* A neighbour named twice, or not naming back exactly once. */
    BEZINKWOLU_FAULT_EDGE = 5,         /* A shared edge whose ends differ or don't run oppositely. */
    BEZINKWOLU_FAULT_FLAT = 6,         /* A triangle's doubled area not above 0. */
    BEZINKWOLU_FAULT_RULES = 7,        /* A part table, or a contour's length, against the rules or limits. */
    BEZINKWOLU_FAULT_WINDING = 8,      /* A winding's running total, as the walk forms it, leaves signed 64 bits. */
    BEZINKWOLU_FAULT_BOUNDS = 9,       /* A least bound above a greatest, or a corner outside its bounds. */
    BEZINKWOLU_FAULT_RESULT = 10,      /* A result bound not strictly between -2^30 and 2^30. */
    BEZINKWOLU_FAULT_TOTAL = 11,       /* Doubled areas of the mesh add up to more than 2^63-1, or a measured one leaves signed 64 bits. */
    BEZINKWOLU_FAULT_PART = 12,        /* A part number past the table. */
    BEZINKWOLU_FAULT_FILE = 13,        /* A file or a pair job against its rules, or no such split. */
    BEZINKWOLU_FAULT_PATH = 14,        /* A path's step count, number, point or order of items against the rules. */
    /* Faults that come from the state. */
    BEZINKWOLU_FAULT_EMPTY = 20,       /* An operand without parts, or a walk begun on an empty contour. */
    BEZINKWOLU_FAULT_CORNER_ROOM = 21, /* Fewer places for corners, or for bytes, than the answer has. */
    BEZINKWOLU_FAULT_START_ROOM = 22,  /* Fewer places for starts than the answer has. */
    BEZINKWOLU_FAULT_PLACE = 23        /* A walk with no step left, or whose place or either segment end isn't a corner of its contour. */
};

/* When a fault is given, as text that stays. It is not an object of the archive, in which there is
 * nothing but what is proved. */
static inline const char *bezinkwolu_fault_text(uint32_t fault)
{
    switch (fault) {
    case BEZINKWOLU_FAULT_NONE: return "no fault";
    case BEZINKWOLU_FAULT_TRIANGLES: return "more than 1,024 triangles";
    case BEZINKWOLU_FAULT_RANGE: return "a coordinate or bound not strictly between -2^30 and 2^30";
    case BEZINKWOLU_FAULT_STRAY: return "a neighbour neither none nor in the mesh, or the triangle itself";
    case BEZINKWOLU_FAULT_NAMING: return "a neighbour named twice, or not naming back exactly once";
    case BEZINKWOLU_FAULT_EDGE: return "a shared edge whose ends differ or don't run oppositely";
    case BEZINKWOLU_FAULT_FLAT: return "a triangle's doubled area not above 0";
    case BEZINKWOLU_FAULT_RULES: return "a part table, or a contour's length, against the rules or limits";
    case BEZINKWOLU_FAULT_WINDING: return "a winding's running total, as the walk forms it, leaves signed 64 bits";
    case BEZINKWOLU_FAULT_BOUNDS: return "a least bound above a greatest, or a corner outside its bounds";
    case BEZINKWOLU_FAULT_RESULT: return "a result bound not strictly between -2^30 and 2^30";
    case BEZINKWOLU_FAULT_TOTAL: return "doubled areas of the mesh add up to more than 2^63-1, or a measured one leaves signed 64 bits";
    case BEZINKWOLU_FAULT_PART: return "a part number past the table";
    case BEZINKWOLU_FAULT_FILE: return "a file or a pair job against its rules, or no such split";
    case BEZINKWOLU_FAULT_PATH: return "a path's step count, number, point or order of items against the rules";
    case BEZINKWOLU_FAULT_EMPTY: return "an operand without parts, or a walk begun on an empty contour";
    case BEZINKWOLU_FAULT_CORNER_ROOM: return "fewer places for corners, or for bytes, than the answer has";
    case BEZINKWOLU_FAULT_START_ROOM: return "fewer places for starts than the answer has";
    case BEZINKWOLU_FAULT_PLACE: return "a walk with no step left, or whose place or either segment end isn't a corner of its contour";
    default: return "a fault that this version has no sentence for";
    }
}

/* ---- meshes and their parts */

typedef struct bezinkwolu_point {
    int32_t x;
    int32_t y;
} bezinkwolu_point;

/* No neighbour. */
#define BEZINKWOLU_NONE UINT32_C(4294967295)

/* neighbors[i] is the number, in the mesh, of the triangle across from vertices[i], or
 * BEZINKWOLU_NONE. */
typedef struct bezinkwolu_triangle {
    bezinkwolu_point vertices[3];
    uint32_t neighbors[3];
} bezinkwolu_triangle;

/* What a call that writes a part table tells: the fault, and how many parts and corners it wrote,
 * both 0 where it refused. */
typedef struct bezinkwolu_counts {
    uint32_t fault;
    uint32_t parts;
    uint32_t corners;
} bezinkwolu_counts;

/* The fault of a mesh, 0 for none. An empty mesh has none.
 * Tells, the first that holds: 1, 2, 3, 4, 5, 6, 11. Writes nothing. */
uint32_t bezinkwolu_mesh_fault(const bezinkwolu_triangle *mesh, size_t triangles) BEZINKWOLU_NONNULL;

/* Joins the triangles of a mesh into convex parts: iTriangle's to_convex_polygons. Parts are
 * strictly convex and counter-clockwise, each triangle is taken into exactly one, and an empty mesh
 * has none.
 * Refuses: 1, 2, 3, 4, 5, 6, 11, 22, 21.
 * Leaves: the parts' starts, parts + 1 of them, at the front of `starts`, and the corners, 2 *
 * corners numbers, at the front of `corners`.
 * Always enough: starts_room = triangles + 1 and corners_room = 6 * triangles, so 1,025 and 6,144
 * for any mesh. */
bezinkwolu_counts bezinkwolu_to_convex_polygons(
    const bezinkwolu_triangle *mesh, size_t triangles,
    uint32_t *BEZINKWOLU_RESTRICT starts, size_t starts_room,
    int32_t *BEZINKWOLU_RESTRICT corners, size_t corners_room) BEZINKWOLU_NONNULL;

/* How a part with more corners than the limit is split. */
enum bezinkwolu_split {
    BEZINKWOLU_SPLIT_EAR_CLIPPING = 0, /* each part starts at the last corner of the one before */
    BEZINKWOLU_SPLIT_FAN = 1,          /* each part starts with the contour's first corner */
    BEZINKWOLU_SPLIT_CENTROID = 2      /* about the rounded area centroid, or as a fan where that is not strictly inside */
};

/* Joins as above and splits each part of more than `limit` corners: iTriangle's
 * to_convex_polygons_with_max_vertices. A limit below 3 is read as 3; one of 1,026 or more splits
 * nothing. `split` is one of enum bezinkwolu_split.
 * Refuses: 13 for any other `split`; then 1, 2, 3, 4, 5, 6, 11, 22, 21.
 * Leaves: starts and corners, as above.
 * Always enough: starts_room = 2 * triangles + 1 and corners_room = 12 * triangles, so 2,049 and
 * 12,288 for any mesh. */
bezinkwolu_counts bezinkwolu_to_convex_polygons_with_max_vertices(
    const bezinkwolu_triangle *mesh, size_t triangles, uint32_t limit, uint32_t split,
    uint32_t *BEZINKWOLU_RESTRICT starts, size_t starts_room,
    int32_t *BEZINKWOLU_RESTRICT corners, size_t corners_room) BEZINKWOLU_NONNULL;

/* ---- part tables */

/* A fault, and how many bytes were written, 0 where it refused. */
typedef struct bezinkwolu_told_length {
    uint32_t fault;
    size_t length;
} bezinkwolu_told_length;

/* A fault, and a part: its first number is at `offset` in the corners of its operand, and it has
 * `length` numbers, two a corner. Both are 0 where it refused. */
typedef struct bezinkwolu_told_part {
    uint32_t fault;
    size_t offset;
    size_t length;
} bezinkwolu_told_part;

/* Reads a stored table: part count, corner count, starts, corners, each 32 bits, little-endian, and
 * nothing behind them.
 * Refuses: 7 (another length than the counts say too), 2, 22, 21.
 * Leaves: starts and corners, as joining does.
 * Always enough: bytes_length / 4 for each; 2,049 starts and 16,384 numbers for any table. */
bezinkwolu_counts bezinkwolu_read_table(
    const uint8_t *bytes, size_t bytes_length,
    uint32_t *BEZINKWOLU_RESTRICT starts, size_t starts_room,
    int32_t *BEZINKWOLU_RESTRICT corners, size_t corners_room) BEZINKWOLU_NONNULL;

/* Stores a table. starts_length and corners_length say how many starts and how many numbers there
 * are.
 * Refuses: 7, 2, 21.
 * Leaves: the stored form, `length` bytes, at the front of `bytes`.
 * Always enough, and exactly what it writes: bytes_room = 8 + 4 * starts_length + 4 *
 * corners_length, so 73,740 for any table. */
bezinkwolu_told_length bezinkwolu_write_table(
    const uint32_t *starts, size_t starts_length,
    const int32_t *corners, size_t corners_length,
    uint8_t *BEZINKWOLU_RESTRICT bytes, size_t bytes_room) BEZINKWOLU_NONNULL;

/* Part k of the left operand or, where `right` holds, of the right one: where it lies in the
 * corners that were lent. Nothing is copied.
 * Refuses: 7 (of either table, also the one not asked for), 12. Writes nothing. */
bezinkwolu_told_part bezinkwolu_show_part(
    const uint32_t *left_starts, size_t left_starts_length,
    const int32_t *left_corners, size_t left_corners_length,
    const uint32_t *right_starts, size_t right_starts_length,
    const int32_t *right_corners, size_t right_corners_length,
    bool right, uint32_t k) BEZINKWOLU_NONNULL;

/* ---- all pairs */

/* Least and greatest x and y of the original source. */
typedef struct bezinkwolu_bounds {
    int32_t min_x;
    int32_t max_x;
    int32_t min_y;
    int32_t max_y;
} bezinkwolu_bounds;

/* A fault; how many contours there are, one for each pair, and how many corners they have; the
 * bounds of the result. All 0 where it refused. */
typedef struct bezinkwolu_told_pairs {
    uint32_t fault;
    uint32_t contours;
    uint32_t corners;
    bezinkwolu_bounds bounds;
} bezinkwolu_told_pairs;

/* The Minkowski sum of each left part and each right part: iTriangle's sum_parts before its union.
 * The contour of left part i and right part j is number i * (right parts) + j, and it is empty
 * where the pair emits nothing (two points, or an empty part). Of two convex parts of some area the
 * contour is their exact sum, strictly convex and counter-clockwise.
 * Refuses, each over the left operand and then the right one: 7, 2, 9, 8; then 10, 20, 22, 21.
 * Leaves: the contours' starts, contours + 1 of them, at the front of `starts`, and the corners,
 * 2 * corners numbers, at the front of `corners`.
 * Always enough: with L and R parts of l and r corners in all, starts_room = L * R + 1 and
 * corners_room = 2 * (R * l + L * r). Less will do if the answer has less, and then it takes
 * longer: the corners are counted first. */
bezinkwolu_told_pairs bezinkwolu_sum_parts(
    const uint32_t *left_starts, size_t left_starts_length,
    const int32_t *left_corners, size_t left_corners_length, bezinkwolu_bounds left_bounds,
    const uint32_t *right_starts, size_t right_starts_length,
    const int32_t *right_corners, size_t right_corners_length, bezinkwolu_bounds right_bounds,
    uint32_t *BEZINKWOLU_RESTRICT starts, size_t starts_room,
    int32_t *BEZINKWOLU_RESTRICT corners, size_t corners_room) BEZINKWOLU_NONNULL;

/* The same of each left part and each right part turned through the origin: {a - b}, iTriangle's
 * difference_parts before its union. */
bezinkwolu_told_pairs bezinkwolu_difference_parts(
    const uint32_t *left_starts, size_t left_starts_length,
    const int32_t *left_corners, size_t left_corners_length, bezinkwolu_bounds left_bounds,
    const uint32_t *right_starts, size_t right_starts_length,
    const int32_t *right_corners, size_t right_corners_length, bezinkwolu_bounds right_bounds,
    uint32_t *BEZINKWOLU_RESTRICT starts, size_t starts_room,
    int32_t *BEZINKWOLU_RESTRICT corners, size_t corners_room) BEZINKWOLU_NONNULL;

/* Where a place lies by the contours of a pair result. */
enum bezinkwolu_contact {
    BEZINKWOLU_APART = 0,      /* inside none of them */
    BEZINKWOLU_TOUCHING = 1,   /* inside one, on its rim, and strictly inside none */
    BEZINKWOLU_OVERLAPPING = 2 /* strictly inside one */
};

/* A fault, and one of enum bezinkwolu_contact, 0 where it refused: look at the fault first. */
typedef struct bezinkwolu_told_placement {
    uint32_t fault;
    uint32_t placement;
} bezinkwolu_told_placement;

/* Where the place (x, y) lies by the contours of a pair result: starts and corners as the two calls
 * above leave them, contours + 1 starts and 2 * corners numbers, not the room that was lent. The
 * limits of a part table do not bind. Contours are taken to go counter-clockwise once round a
 * convex area, as those of meshes' parts do: a place inside one that is not convex may be told
 * apart.
 * Strictly inside a contour: left of each of its edges that has a length, and there is one. Inside:
 * on or left of each edge, and within the corners' least and greatest x and y. An empty contour
 * covers nothing. Each contour is asked alone: a place on an edge that two of them share is
 * strictly inside neither.
 * Of the differences (difference_parts, left less right) of two accepted meshes' parts, split or
 * not: 2 exactly where the right mesh, moved by (x, y), overlaps the left one, 1 exactly where they
 * meet and do not overlap, 0 where they are apart: proved (crates/placement_meshes).
 * Refuses: 7 for starts that do not begin with 0, that fall, or that do not end with how many
 * corners there are, and for an odd corners_length; 2 (of x, y or any corner). Writes nothing. */
bezinkwolu_told_placement bezinkwolu_placement(
    const uint32_t *starts, size_t starts_length,
    const int32_t *corners, size_t corners_length,
    int32_t x, int32_t y) BEZINKWOLU_NONNULL;

/* ---- doubled areas and bounds, of a part table or of a pair result: the limits of a part table do
 * not bind. None of these writes anything. */

/* A fault, and a doubled area, 0 where it refused. It is exact, above 0 where contours run
 * counter-clockwise and below 0 where they run clockwise; a contour that crosses itself or goes
 * round more than once has the area that the shoelace formula gives, and one of fewer than three
 * corners has none. */
typedef struct bezinkwolu_told_area {
    uint32_t fault;
    int64_t area_two;
} bezinkwolu_told_area;

/* A fault, and bounds, all 0 where it refused. */
typedef struct bezinkwolu_told_bounds {
    uint32_t fault;
    bezinkwolu_bounds bounds;
} bezinkwolu_told_bounds;

/* The doubled area of a contour, given by its numbers, two a corner: of part k those are the 2 *
 * (starts[k + 1] - starts[k]) from corners[2 * starts[k]] on. It reads them alone.
 * Refuses: 7 for an odd length; 2; 11 where the area leaves signed 64 bits, as only a contour that
 * goes round more than once can. */
bezinkwolu_told_area bezinkwolu_contour_area_two(const int32_t *contour, size_t length) BEZINKWOLU_NONNULL;

/* The doubled area of part k. It judges the whole table.
 * Refuses: 7 for starts that do not begin with 0, that fall, or that do not end with how many
 * corners there are, and for an odd corners_length; 2 (of any corner); 12; 11, as above. */
bezinkwolu_told_area bezinkwolu_part_area_two(
    const uint32_t *starts, size_t starts_length,
    const int32_t *corners, size_t corners_length, uint32_t k) BEZINKWOLU_NONNULL;

/* The doubled areas of all parts, added.
 * Refuses: 7, 2; 11 where the sum leaves signed 64 bits. What it comes to on the way does not
 * matter. */
bezinkwolu_told_area bezinkwolu_table_area_two(
    const uint32_t *starts, size_t starts_length,
    const int32_t *corners, size_t corners_length) BEZINKWOLU_NONNULL;

/* The least and greatest x and y of all corners, 0 where there are none: with them a table is an
 * operand.
 * Refuses: 7, 2. */
bezinkwolu_told_bounds bezinkwolu_table_bounds(
    const uint32_t *starts, size_t starts_length,
    const int32_t *corners, size_t corners_length) BEZINKWOLU_NONNULL;

/* ---- walks, and one pair a corner at a time. A contour is given by its numbers, two a corner.
 * None of these writes anything. */

/* Where a walk stands. It is a value that the caller keeps, or makes up: each call judges it. */
typedef struct bezinkwolu_place {
    uint16_t index;     /* the corner where it stands */
    uint16_t remaining; /* how many steps are left */
    bool reverse;
    bool reflected;
    bool segment;       /* it goes from start to end and back */
    uint16_t start;
    uint16_t end;
} bezinkwolu_place;

/* The two walks of a pair. */
typedef struct bezinkwolu_places {
    bezinkwolu_place a;
    bezinkwolu_place b;
} bezinkwolu_places;

/* Each has a fault, and the values, 0 where there are none. A place that was refused comes back as
 * it came. */
typedef struct bezinkwolu_told_place {
    uint32_t fault;
    bezinkwolu_place place;
} bezinkwolu_told_place;

typedef struct bezinkwolu_told_point {
    uint32_t fault;
    int32_t x;
    int32_t y;
} bezinkwolu_told_point;

typedef struct bezinkwolu_told_edge {
    uint32_t fault;
    int64_t x;
    int64_t y;
} bezinkwolu_told_edge;

typedef struct bezinkwolu_told_step {
    uint32_t fault;
    int64_t x;
    int64_t y;
    bezinkwolu_place place;
} bezinkwolu_told_step;

typedef struct bezinkwolu_told_pair {
    uint32_t fault;
    bezinkwolu_places places;
} bezinkwolu_told_pair;

/* `corners` is 1 where a corner is handed out, 0 at the end. */
typedef struct bezinkwolu_told_next {
    uint32_t fault;
    uint32_t corners;
    int32_t x;
    int32_t y;
    bezinkwolu_places places;
} bezinkwolu_told_next;

/* Begins a walk at the lowest, then leftmost corner, or a reflected one at the highest, then
 * rightmost.
 * Refuses: 7 for an odd length or more than 1,026 corners; 2, 8, 20. A place that is refused is all
 * zeros. */
bezinkwolu_told_place bezinkwolu_walk_begin(const int32_t *contour, size_t length, bool reflected) BEZINKWOLU_NONNULL;

/* The point where a walk stands, negated of a reflected one.
 * Refuses: 7, 23 (a place or segment end that is no corner; no step needs to be left), 2 (of the
 * corner there). */
bezinkwolu_told_point bezinkwolu_walk_point(const int32_t *contour, size_t length, bezinkwolu_place at) BEZINKWOLU_NONNULL;

/* The edge that a walk takes next.
 * Refuses: 7, 23, 2 (of the corner there and the next). */
bezinkwolu_told_edge bezinkwolu_walk_edge(const int32_t *contour, size_t length, bezinkwolu_place at) BEZINKWOLU_NONNULL;

/* The place after that edge. Refuses as the edge does. */
bezinkwolu_told_place bezinkwolu_walk_advance(const int32_t *contour, size_t length, bezinkwolu_place at) BEZINKWOLU_NONNULL;

/* Both: the edge, and the place after it. Refuses as the edge does. */
bezinkwolu_told_step bezinkwolu_walk_next(const int32_t *contour, size_t length, bezinkwolu_place at) BEZINKWOLU_NONNULL;

/* Begins the walks of a pair: iTriangle's ConvexSum::new, and ConvexSum::difference, whose right
 * walk is reflected.
 * Refuses, each over the left contour and then the right one: 7, 2, 8, 20. */
bezinkwolu_told_pair bezinkwolu_pair_new(
    const int32_t *left, size_t left_length, const int32_t *right, size_t right_length) BEZINKWOLU_NONNULL;
bezinkwolu_told_pair bezinkwolu_pair_difference(
    const int32_t *left, size_t left_length, const int32_t *right, size_t right_length) BEZINKWOLU_NONNULL;

/* The next corner of a pair's contour, or its end. Stepped from its beginning to its end, a pair
 * hands out just the contour that sum_parts or difference_parts has for it. Each step reads both
 * contours whole.
 * Refuses: 7, 23 (a place or segment end of either that is no corner; a walk with no step left
 * stands still), 2 (of any corner). */
bezinkwolu_told_next bezinkwolu_pair_next(
    const int32_t *left, size_t left_length, const int32_t *right, size_t right_length,
    bezinkwolu_places at) BEZINKWOLU_NONNULL;

/* ---- outlines from a drawing program */

/* What an item of a path does, with SVG's meaning. */
enum bezinkwolu_path_kind {
    BEZINKWOLU_PATH_MOVE = 0,          /* To x, y. */
    BEZINKWOLU_PATH_LINE = 1,          /* A line to x, y. */
    BEZINKWOLU_PATH_HORIZONTAL = 2,    /* A line to x at the same height; y is not read. */
    BEZINKWOLU_PATH_VERTICAL = 3,      /* A line up or down to y; x is not read. */
    BEZINKWOLU_PATH_RELATIVE_LINE = 4, /* A line by x, y from the point before. */
    BEZINKWOLU_PATH_CLOSE = 5          /* The end, which writes no corner; neither is read. */
};

/* An item: one of the kinds, with the millimetres that it carries. What it does not carry may hold
 * any bits. */
typedef struct bezinkwolu_path_item {
    uint64_t kind;
    double x;
    double y;
} bezinkwolu_path_item;

/* An origin in millimetres, and how many steps of the grid a millimetre has: a power of two from 1
 * to 1,024. */
typedef struct bezinkwolu_frame {
    double x;
    double y;
    double steps;
} bezinkwolu_frame;

/* `corners` is how many were written, 0 where refused. */
typedef struct bezinkwolu_told_corners {
    uint32_t fault;
    uint32_t corners;
} bezinkwolu_told_corners;

/* The corners of a path on the grid: of each point that an item but the close reaches, the origin
 * is subtracted, the step count multiplied, and the result rounded to the nearest whole number,
 * halves away from zero. Relative lines add in double, one rounding each; of the point so reached
 * each grid coordinate lies within one half plus 2^-23 of the exact difference times the step
 * count. The thread's floating-point environment is the default one: it rounds to nearest, and no
 * exception is unmasked; status flags may be raised.
 * Refuses, each over the whole path: 14 for a step count that is no such power, a number that is
 * not finite, a point past 1,048,576 from zero either way, a kind that is none of the six, and
 * where the path does not open with its only move or end with its only close; 7 for more than 1,026
 * corners; 2 for a grid coordinate, which a product too large for double is too; 21.
 * Leaves: 2 * corners numbers at the front of `corners`.
 * Always enough: corners_room = 2,052. */
bezinkwolu_told_corners bezinkwolu_import_path(
    const bezinkwolu_path_item *path, size_t items, bezinkwolu_frame frame,
    int32_t *BEZINKWOLU_RESTRICT corners, size_t corners_room) BEZINKWOLU_NONNULL;

/* ---- the area listing */

#define BEZINKWOLU_LISTING_ROOM 233522

/* The text that the area program prints for the bytes of a mesh file: `refused` and the number, or
 * counts, doubled areas, shares and corners. It has no refusal of its own. Answers how many bytes
 * the text has; they stand at the front of `text`, which has BEZINKWOLU_LISTING_ROOM places, always
 * enough. */
size_t bezinkwolu_listing(const uint8_t *bytes, size_t bytes_length, uint8_t text[BEZINKWOLU_LISTING_ROOM]) BEZINKWOLU_NONNULL;

/* ---- the plane. Each refuses with 2 a coordinate not strictly between -2^30 and 2^30, with the
 * value 0. */

typedef struct bezinkwolu_told {
    uint32_t fault;
    int64_t value;
} bezinkwolu_told;

/* The cross product of b - a and d - c. */
bezinkwolu_told bezinkwolu_cross_product(
    int32_t ax, int32_t ay, int32_t bx, int32_t by, int32_t cx, int32_t cy, int32_t dx, int32_t dy);

/* The doubled area of the triangle a b c, above 0 where it is counter-clockwise. */
bezinkwolu_told bezinkwolu_area_two(
    int32_t ax, int32_t ay, int32_t bx, int32_t by, int32_t cx, int32_t cy);

/* The direction of b - a against that of d - c, by their angles from 0 up to a full turn: -1 where
 * it comes first, 0 where they are level, 1 where it comes later. */
bezinkwolu_told bezinkwolu_angle_cmp(
    int32_t ax, int32_t ay, int32_t bx, int32_t by, int32_t cx, int32_t cy, int32_t dx, int32_t dy);

#ifdef __cplusplus
}
#endif

#endif
