/* Calls each function of bezinkwolu.h with good input, each of its faults, empty lists, exact room
 * and one place less. Every buffer stands between places that are not lent: a refusal leaves all of
 * them as they were, an answer those past it. Compiled with -Wall -Wextra -Werror
 * -fsanitize=address,undefined by bindings/test. */
#include <bezinkwolu.h>

#include <math.h>
#include <stdio.h>
#include <stdlib.h>
#include <string.h>

static int checked, wrong;

#define CHECK(fact) check((fact), #fact, __LINE__)

static void check(bool holds, const char *fact, int line)
{
    checked++;
    if (!holds) {
        wrong++;
        fprintf(stderr, "test.c:%d: not so: %s\n", line, fact);
    }
}

_Static_assert(sizeof(bezinkwolu_triangle) == 36, "nine numbers");
_Static_assert(sizeof(bezinkwolu_counts) == 12, "three numbers");
_Static_assert(sizeof(bezinkwolu_told_pairs) == 28, "seven numbers");
_Static_assert(sizeof(bezinkwolu_told_placement) == 8, "two numbers");
_Static_assert(sizeof(bezinkwolu_told_area) == 16, "a fault and a wide number");
_Static_assert(sizeof(bezinkwolu_told_bounds) == 20, "five numbers");
_Static_assert(sizeof(bezinkwolu_place) == 12, "two numbers, three bools, two numbers");
_Static_assert(sizeof(bezinkwolu_told_next) == 40, "four numbers and two places");

#define NONE BEZINKWOLU_NONE
#define LENGTH(list) (sizeof(list) / sizeof *(list))
/* The largest coordinate. */
#define FAR 1073741823

/* ---- lent buffers */

#define MARK_U 0xa5a5a5a5u
#define MARK_I (-0x5a5a5a5b)
#define MARK_B 0xa5
enum { MOST = 16384, ASIDE = 2 };

static uint32_t starts_memory[MOST + 2 * ASIDE];
static int32_t corners_memory[MOST + 2 * ASIDE];
static uint8_t bytes_memory[MOST + 2 * ASIDE];
static uint32_t *const starts = starts_memory + ASIDE;
static int32_t *const corners = corners_memory + ASIDE;
static uint8_t *const bytes = bytes_memory + ASIDE;

static void marked(void)
{
    for (size_t i = 0; i < MOST + 2 * ASIDE; i++) {
        starts_memory[i] = MARK_U;
        corners_memory[i] = MARK_I;
        bytes_memory[i] = MARK_B;
    }
}

/* Whether nothing changed but so many places at the fronts. */
static bool kept(size_t starts_written, size_t corners_written, size_t bytes_written)
{
    for (size_t i = 0; i < MOST + 2 * ASIDE; i++) {
        bool front = i >= ASIDE;
        if (!(front && i < ASIDE + starts_written) && starts_memory[i] != MARK_U)
            return false;
        if (!(front && i < ASIDE + corners_written) && corners_memory[i] != MARK_I)
            return false;
        if (!(front && i < ASIDE + bytes_written) && bytes_memory[i] != MARK_B)
            return false;
    }
    return true;
}

static bool told(bezinkwolu_counts c, uint32_t fault, uint32_t parts, uint32_t count)
{
    return c.fault == fault && c.parts == parts && c.corners == count;
}

/* ---- meshes */

static const bezinkwolu_triangle dart[2] = {
    {{{0, 0}, {4, 0}, {0, 4}}, {1, NONE, NONE}},
    {{{4, 0}, {10, -2}, {0, 4}}, {NONE, 0, NONE}},
};

static const bezinkwolu_triangle square[2] = {
    {{{0, 0}, {4, 0}, {4, 4}}, {NONE, 1, NONE}},
    {{{0, 0}, {4, 4}, {0, 4}}, {NONE, NONE, 0}},
};

static bezinkwolu_triangle many[1025];

struct damaged {
    uint32_t fault;
    const bezinkwolu_triangle *mesh;
    size_t triangles;
};

/* A mesh for each fault that a mesh can have. */
static size_t damaged(struct damaged out[8])
{
    static bezinkwolu_triangle range[2], stray[2], self[2], naming[2], edge[2], flat[2], total[3];
    bezinkwolu_triangle *of[] = {range, stray, self, naming, edge, flat};
    for (size_t i = 0; i < LENGTH(of); i++)
        memcpy(of[i], dart, sizeof dart);
    range[1].vertices[1].x = FAR + 1;
    stray[0].neighbors[1] = 2;
    self[0].neighbors[1] = 0;
    naming[1].neighbors[1] = NONE;
    edge[1].vertices[0].x = 5;
    flat[1].vertices[1] = (bezinkwolu_point){2, 2};
    for (size_t i = 0; i < 3; i++)
        total[i] = (bezinkwolu_triangle){{{-FAR, -FAR}, {FAR, -FAR}, {-FAR, FAR}}, {NONE, NONE, NONE}};
    for (int32_t i = 0; i < 1025; i++)
        many[i] = (bezinkwolu_triangle){{{3 * i, 0}, {3 * i + 1, 0}, {3 * i, 1}}, {NONE, NONE, NONE}};
    struct damaged all[8] = {{1, many, 1025}, {2, range, 2},  {3, stray, 2}, {3, self, 2},
                             {4, naming, 2},  {5, edge, 2}, {6, flat, 2},  {11, total, 3}};
    memcpy(out, all, sizeof all);
    return LENGTH(all);
}

static void meshes(void)
{
    struct damaged all[8];
    size_t count = damaged(all);
    marked();
    CHECK(bezinkwolu_mesh_fault(dart, 2) == BEZINKWOLU_FAULT_NONE);
    CHECK(bezinkwolu_mesh_fault(dart, 0) == BEZINKWOLU_FAULT_NONE);
    CHECK(bezinkwolu_mesh_fault(many, 1024) == BEZINKWOLU_FAULT_NONE);
    for (size_t i = 0; i < count; i++) {
        const struct damaged *d = &all[i];
        CHECK(bezinkwolu_mesh_fault(d->mesh, d->triangles) == d->fault);
        CHECK(told(bezinkwolu_to_convex_polygons(d->mesh, d->triangles, starts, MOST, corners, MOST), d->fault, 0, 0));
        CHECK(told(bezinkwolu_to_convex_polygons_with_max_vertices(d->mesh, d->triangles, 3, 0, starts, MOST, corners, MOST), d->fault, 0, 0));
    }
    CHECK(kept(0, 0, 0));
}

static void joining(void)
{
    static const uint32_t s[] = {0, 3, 6};
    static const int32_t c[] = {0, 4, 0, 0, 4, 0, 0, 4, 4, 0, 10, -2};
    marked();
    CHECK(told(bezinkwolu_to_convex_polygons(dart, 2, starts, 2, corners, 12), BEZINKWOLU_FAULT_START_ROOM, 0, 0));
    CHECK(told(bezinkwolu_to_convex_polygons(dart, 2, starts, 3, corners, 11), BEZINKWOLU_FAULT_CORNER_ROOM, 0, 0));
    CHECK(told(bezinkwolu_to_convex_polygons(dart, 2, starts, 0, corners, 0), BEZINKWOLU_FAULT_START_ROOM, 0, 0));
    CHECK(kept(0, 0, 0));
    CHECK(told(bezinkwolu_to_convex_polygons(dart, 2, starts, 3, corners, 12), 0, 2, 6));
    CHECK(kept(3, 12, 0) && memcmp(starts, s, sizeof s) == 0 && memcmp(corners, c, sizeof c) == 0);
    marked();
    CHECK(told(bezinkwolu_to_convex_polygons(many, 1024, starts, 1025, corners, 6144), 0, 1024, 3072));
    CHECK(kept(1025, 6144, 0) && starts[1024] == 3072);
    marked();
    CHECK(told(bezinkwolu_to_convex_polygons(dart, 0, starts, 1, corners, 0), 0, 0, 0));
    CHECK(kept(1, 0, 0) && starts[0] == 0);
}

static void splitting(void)
{
    static const int32_t ear[] = {0, 4, 0, 0, 4, 0, 4, 0, 4, 4, 0, 4};
    static const int32_t fan[] = {0, 4, 0, 0, 4, 0, 0, 4, 4, 0, 4, 4};
    static const int32_t centroid[] = {2, 2, 0, 4, 0, 0, 2, 2, 0, 0, 4, 0, 2, 2, 4, 0, 4, 4, 2, 2, 4, 4, 0, 4};
    marked();
    CHECK(told(bezinkwolu_to_convex_polygons_with_max_vertices(square, 2, 3, 3, starts, MOST, corners, MOST), BEZINKWOLU_FAULT_FILE, 0, 0));
    CHECK(told(bezinkwolu_to_convex_polygons_with_max_vertices(many, 1025, 3, UINT32_MAX, starts, 0, corners, 0), BEZINKWOLU_FAULT_FILE, 0, 0));
    CHECK(told(bezinkwolu_to_convex_polygons_with_max_vertices(square, 2, 3, 2, starts, 4, corners, 24), BEZINKWOLU_FAULT_START_ROOM, 0, 0));
    CHECK(told(bezinkwolu_to_convex_polygons_with_max_vertices(square, 2, 3, 2, starts, 5, corners, 23), BEZINKWOLU_FAULT_CORNER_ROOM, 0, 0));
    CHECK(kept(0, 0, 0));
    CHECK(told(bezinkwolu_to_convex_polygons_with_max_vertices(square, 2, 3, BEZINKWOLU_SPLIT_EAR_CLIPPING, starts, 3, corners, 12), 0, 2, 6));
    CHECK(kept(3, 12, 0) && memcmp(corners, ear, sizeof ear) == 0);
    CHECK(told(bezinkwolu_to_convex_polygons_with_max_vertices(square, 2, 0, BEZINKWOLU_SPLIT_FAN, starts, 3, corners, 12), 0, 2, 6));
    CHECK(kept(3, 12, 0) && memcmp(corners, fan, sizeof fan) == 0);
    CHECK(told(bezinkwolu_to_convex_polygons_with_max_vertices(square, 2, 3, BEZINKWOLU_SPLIT_CENTROID, starts, 5, corners, 24), 0, 4, 12));
    CHECK(kept(5, 24, 0) && memcmp(corners, centroid, sizeof centroid) == 0);
    marked();
    CHECK(told(bezinkwolu_to_convex_polygons_with_max_vertices(square, 2, 4, 0, starts, 2, corners, 8), 0, 1, 4));
    CHECK(kept(2, 8, 0));
    marked();
    CHECK(told(bezinkwolu_to_convex_polygons_with_max_vertices(square, 0, 3, 0, starts, 1, corners, 0), 0, 0, 0));
    CHECK(kept(1, 0, 0));
}

/* ---- tables */

static const uint32_t two_starts[] = {0, 3, 4};
static const int32_t two_corners[] = {0, 0, 2, 0, 0, 2, 5, 5};
static const uint32_t falling[] = {0, 3, 2};
static const int32_t off[] = {0, 0, 2, 0, 0, 2, 5, FAR + 1};
static const uint32_t no_parts[] = {0};

static void tables(void)
{
    uint8_t stored[8 + 12 + 32];
    marked();
    bezinkwolu_told_length w = bezinkwolu_write_table(falling, 3, two_corners, 8, bytes, MOST);
    CHECK(w.fault == BEZINKWOLU_FAULT_RULES && w.length == 0);
    w = bezinkwolu_write_table(two_starts, 0, two_corners, 0, bytes, MOST);
    CHECK(w.fault == BEZINKWOLU_FAULT_RULES);
    w = bezinkwolu_write_table(two_starts, 3, off, 8, bytes, MOST);
    CHECK(w.fault == BEZINKWOLU_FAULT_RANGE);
    w = bezinkwolu_write_table(two_starts, 3, two_corners, 8, bytes, sizeof stored - 1);
    CHECK(w.fault == BEZINKWOLU_FAULT_CORNER_ROOM && w.length == 0);
    CHECK(kept(0, 0, 0));
    w = bezinkwolu_write_table(two_starts, 3, two_corners, 8, bytes, sizeof stored);
    CHECK(w.fault == 0 && w.length == sizeof stored && kept(0, 0, sizeof stored));
    memcpy(stored, bytes, sizeof stored);

    marked();
    CHECK(told(bezinkwolu_read_table(stored, sizeof stored - 1, starts, MOST, corners, MOST), BEZINKWOLU_FAULT_RULES, 0, 0));
    CHECK(told(bezinkwolu_read_table(stored, 0, starts, MOST, corners, MOST), BEZINKWOLU_FAULT_RULES, 0, 0));
    CHECK(told(bezinkwolu_read_table(stored, sizeof stored, starts, 2, corners, 8), BEZINKWOLU_FAULT_START_ROOM, 0, 0));
    CHECK(told(bezinkwolu_read_table(stored, sizeof stored, starts, 3, corners, 7), BEZINKWOLU_FAULT_CORNER_ROOM, 0, 0));
    stored[sizeof stored - 1] = 0x40;
    CHECK(told(bezinkwolu_read_table(stored, sizeof stored, starts, MOST, corners, MOST), BEZINKWOLU_FAULT_RANGE, 0, 0));
    stored[sizeof stored - 1] = 0;
    CHECK(kept(0, 0, 0));
    CHECK(told(bezinkwolu_read_table(stored, sizeof stored, starts, 3, corners, 8), 0, 2, 4));
    CHECK(kept(3, 8, 0) && memcmp(starts, two_starts, sizeof two_starts) == 0 && memcmp(corners, two_corners, sizeof two_corners) == 0);

    marked();
    w = bezinkwolu_write_table(no_parts, 1, two_corners, 0, bytes, 12);
    CHECK(w.fault == 0 && w.length == 12 && kept(0, 0, 12));
    CHECK(told(bezinkwolu_read_table(bytes, 12, starts, 1, corners, 0), 0, 0, 0));
}

static bool shown(bezinkwolu_told_part p, uint32_t fault, size_t offset, size_t length)
{
    return p.fault == fault && p.offset == offset && p.length == length;
}

static void showing(void)
{
    static const uint32_t s[] = {0, 0, 1};
    static const int32_t c[] = {7, 8};
    CHECK(shown(bezinkwolu_show_part(two_starts, 3, two_corners, 8, s, 3, c, 2, false, 0), 0, 0, 6));
    CHECK(shown(bezinkwolu_show_part(two_starts, 3, two_corners, 8, s, 3, c, 2, false, 1), 0, 6, 2));
    CHECK(shown(bezinkwolu_show_part(two_starts, 3, two_corners, 8, s, 3, c, 2, true, 0), 0, 0, 0));
    CHECK(shown(bezinkwolu_show_part(two_starts, 3, two_corners, 8, s, 3, c, 2, true, 1), 0, 0, 2));
    /* one table may be both operands */
    CHECK(shown(bezinkwolu_show_part(two_starts, 3, two_corners, 8, two_starts, 3, two_corners, 8, true, 1), 0, 6, 2));
    CHECK(shown(bezinkwolu_show_part(two_starts, 3, two_corners, 8, s, 3, c, 2, true, 2), BEZINKWOLU_FAULT_PART, 0, 0));
    CHECK(shown(bezinkwolu_show_part(two_starts, 3, two_corners, 8, s, 3, c, 2, false, UINT32_MAX), BEZINKWOLU_FAULT_PART, 0, 0));
    CHECK(shown(bezinkwolu_show_part(two_starts, 3, two_corners, 8, falling, 3, two_corners, 8, false, 0), BEZINKWOLU_FAULT_RULES, 0, 0));
    CHECK(shown(bezinkwolu_show_part(s, 0, c, 0, s, 0, c, 0, false, 0), BEZINKWOLU_FAULT_RULES, 0, 0));
}

/* ---- all pairs */

static const uint32_t one_start[] = {0, 3};
static const int32_t k[] = {0, 0, 2, 0, 0, 2};
static const bezinkwolu_bounds k_bounds = {0, 2, 0, 2};

typedef struct operand {
    const uint32_t *starts;
    size_t starts_length;
    const int32_t *corners;
    size_t corners_length;
    bezinkwolu_bounds bounds;
} operand;

static bezinkwolu_told_pairs pairs(bool difference, operand l, operand r, size_t starts_room, size_t corners_room)
{
    return (difference ? bezinkwolu_difference_parts : bezinkwolu_sum_parts)(
        l.starts, l.starts_length, l.corners, l.corners_length, l.bounds,
        r.starts, r.starts_length, r.corners, r.corners_length, r.bounds,
        starts, starts_room, corners, corners_room);
}

static bool refused(bezinkwolu_told_pairs p, uint32_t fault)
{
    bezinkwolu_bounds b = p.bounds;
    return p.fault == fault && !p.contours && !p.corners && !b.min_x && !b.max_x && !b.min_y && !b.max_y;
}

/* The faults of operands, on either side and both ways. */
static void refused_pairs(void)
{
    static const uint32_t round_starts[] = {0, 8};
    static const int32_t round_twice[] = {-FAR, -FAR, FAR, -FAR, FAR, FAR, -FAR, FAR, -FAR, -FAR, FAR, -FAR, FAR, FAR, -FAR, FAR};
    static const bezinkwolu_bounds all_bounds = {-FAR, FAR, -FAR, FAR};
    static const bezinkwolu_bounds wide = {0, FAR, 0, 2};
    operand good = {one_start, 2, k, 6, k_bounds};
    struct { uint32_t fault; operand o; } bad[] = {
        {BEZINKWOLU_FAULT_RULES, {falling, 3, two_corners, 8, {0, 5, 0, 5}}},
        {BEZINKWOLU_FAULT_RULES, {falling, 0, two_corners, 0, {0, 5, 0, 5}}},
        {BEZINKWOLU_FAULT_RANGE, {two_starts, 3, off, 8, {0, 5, 0, FAR}}},
        {BEZINKWOLU_FAULT_BOUNDS, {one_start, 2, k, 6, {0, 1, 0, 2}}},
        {BEZINKWOLU_FAULT_BOUNDS, {no_parts, 1, k, 0, {1, 0, 0, 0}}},
        {BEZINKWOLU_FAULT_WINDING, {round_starts, 2, round_twice, 16, all_bounds}},
        {BEZINKWOLU_FAULT_EMPTY, {no_parts, 1, k, 0, {0, 0, 0, 0}}},
    };
    marked();
    for (size_t i = 0; i < LENGTH(bad); i++) {
        for (int way = 0; way < 4; way++) {
            operand l = way & 1 ? good : bad[i].o, r = way & 1 ? bad[i].o : good;
            CHECK(refused(pairs(way & 2, l, r, MOST, MOST), bad[i].fault));
        }
    }
    operand far = {one_start, 2, k, 6, wide};
    CHECK(refused(pairs(false, far, far, MOST, MOST), BEZINKWOLU_FAULT_RESULT));
    far.bounds.min_x = -1;
    CHECK(refused(pairs(true, far, far, MOST, MOST), BEZINKWOLU_FAULT_RESULT));
    CHECK(kept(0, 0, 0));
}

static void all_pairs(void)
{
    static const int32_t sum[] = {0, 0, 4, 0, 0, 4};
    static const int32_t difference[] = {0, -2, 2, -2, 2, 0, 0, 2, -2, 2, -2, 0};
    operand one = {one_start, 2, k, 6, k_bounds};
    operand two = {two_starts, 3, two_corners, 8, {0, 5, 0, 5}};
    refused_pairs();
    CHECK(refused(pairs(false, one, one, 1, 6), BEZINKWOLU_FAULT_START_ROOM));
    CHECK(refused(pairs(false, one, one, 2, 5), BEZINKWOLU_FAULT_CORNER_ROOM));
    CHECK(refused(pairs(true, one, one, 2, 11), BEZINKWOLU_FAULT_CORNER_ROOM));
    CHECK(kept(0, 0, 0));
    bezinkwolu_told_pairs p = pairs(false, one, one, 2, 6);
    CHECK(p.fault == 0 && p.contours == 1 && p.corners == 3 && p.bounds.max_x == 4 && p.bounds.min_y == 0);
    CHECK(kept(2, 6, 0) && starts[0] == 0 && starts[1] == 3 && memcmp(corners, sum, sizeof sum) == 0);
    marked();
    p = pairs(true, one, one, 2, 12);
    CHECK(p.fault == 0 && p.contours == 1 && p.corners == 6 && p.bounds.min_x == -2 && p.bounds.max_y == 2);
    CHECK(kept(2, 12, 0) && memcmp(corners, difference, sizeof difference) == 0);
    marked();
    /* the room that is always enough: 2 by 2 parts, 2 (2 * 4 + 2 * 4) numbers; two points emit
     * nothing */
    p = pairs(false, two, two, 5, 32);
    CHECK(p.fault == 0 && p.contours == 4 && p.corners == 9 && starts[3] == 9 && starts[4] == 9);
    CHECK(kept(5, 18, 0));
}

/* ---- places */

static bool placed(bezinkwolu_told_placement p, uint32_t fault, uint32_t placement)
{
    return p.fault == fault && p.placement == placement;
}

/* Where x, y lies by so many starts and numbers, lent from between places that are not. Nothing
 * changes. */
static bezinkwolu_told_placement lent_placement(const uint32_t *s, size_t starts_length, const int32_t *c, size_t corners_length, int32_t x, int32_t y)
{
    marked();
    memcpy(starts, s, starts_length * sizeof *s);
    memcpy(corners, c, corners_length * sizeof *c);
    bezinkwolu_told_placement p = bezinkwolu_placement(starts, starts_length, corners, corners_length, x, y);
    CHECK(kept(starts_length, corners_length, 0));
    CHECK(memcmp(starts, s, starts_length * sizeof *s) == 0 && memcmp(corners, c, corners_length * sizeof *c) == 0);
    return p;
}

static const uint32_t four[] = {0, 4};
static const int32_t around[] = {-4, -4, 4, -4, 4, 4, -4, 4};

static void refused_places(void)
{
    static const uint32_t late[] = {1, 4}, low[] = {0, 5, 4}, early[] = {0, 3}, past[] = {0, 5};
    static const int32_t beyond[] = {-4, -4, 4, -4, 4, FAR + 1, -4, 4}, below[] = {-FAR - 1, -4, 4, -4, 4, 4, -4, 4};
    static const int32_t outside[] = {FAR + 1, -FAR - 1, INT32_MAX, INT32_MIN};
    CHECK(placed(lent_placement(four, 0, around, 0, 0, 0), BEZINKWOLU_FAULT_RULES, 0));
    CHECK(placed(lent_placement(four, 0, around, 8, 0, 0), BEZINKWOLU_FAULT_RULES, 0));
    CHECK(placed(lent_placement(late, 2, around, 8, 0, 0), BEZINKWOLU_FAULT_RULES, 0));
    CHECK(placed(lent_placement(low, 3, around, 8, 0, 0), BEZINKWOLU_FAULT_RULES, 0));
    CHECK(placed(lent_placement(early, 2, around, 8, 0, 0), BEZINKWOLU_FAULT_RULES, 0));
    CHECK(placed(lent_placement(past, 2, around, 8, 0, 0), BEZINKWOLU_FAULT_RULES, 0));
    CHECK(placed(lent_placement(four, 2, around, 7, 0, 0), BEZINKWOLU_FAULT_RULES, 0));
    CHECK(placed(lent_placement(no_parts, 1, around, 8, 0, 0), BEZINKWOLU_FAULT_RULES, 0));
    /* the rules first */
    CHECK(placed(lent_placement(early, 2, beyond, 8, FAR + 1, 0), BEZINKWOLU_FAULT_RULES, 0));
    CHECK(placed(lent_placement(four, 2, beyond, 8, 0, 0), BEZINKWOLU_FAULT_RANGE, 0));
    CHECK(placed(lent_placement(four, 2, below, 8, 0, 0), BEZINKWOLU_FAULT_RANGE, 0));
    for (size_t i = 0; i < LENGTH(outside); i++) {
        CHECK(placed(lent_placement(four, 2, around, 8, outside[i], 0), BEZINKWOLU_FAULT_RANGE, 0));
        CHECK(placed(lent_placement(four, 2, around, 8, 0, outside[i]), BEZINKWOLU_FAULT_RANGE, 0));
        CHECK(placed(lent_placement(no_parts, 1, around, 0, outside[i], 0), BEZINKWOLU_FAULT_RANGE, 0));
    }
}

/* Two squares: a difference, asked where it was written. */
static void placed_squares(void)
{
    static const int32_t corners_of[] = {0, 0, 4, 0, 4, 4, 0, 4};
    static const struct { int32_t x, y; uint32_t placement; } asked[] = {
        {0, 0, BEZINKWOLU_OVERLAPPING}, {3, 3, BEZINKWOLU_OVERLAPPING}, {-3, 0, BEZINKWOLU_OVERLAPPING},
        {4, 1, BEZINKWOLU_TOUCHING}, {0, -4, BEZINKWOLU_TOUCHING}, {4, 4, BEZINKWOLU_TOUCHING}, {-4, 4, BEZINKWOLU_TOUCHING},
        {5, 0, BEZINKWOLU_APART}, {4, 5, BEZINKWOLU_APART}, {FAR, FAR, BEZINKWOLU_APART}, {-FAR, 0, BEZINKWOLU_APART},
    };
    operand o = {four, 2, corners_of, 8, {0, 4, 0, 4}};
    marked();
    bezinkwolu_told_pairs p = pairs(true, o, o, 2, 16);
    CHECK(p.fault == 0 && p.contours == 1 && p.corners == 4);
    for (size_t i = 0; i < LENGTH(asked); i++)
        CHECK(placed(bezinkwolu_placement(starts, p.contours + 1, corners, 2 * p.corners, asked[i].x, asked[i].y), 0, asked[i].placement));
    CHECK(kept(2, 8, 0) && starts[0] == 0 && starts[1] == 4 && memcmp(corners, around, sizeof around) == 0);
}

/* Contours without an inside, several of them, and more than a part table may have. */
static void placed_by_contours(void)
{
    static const uint32_t two[] = {0, 2}, none[] = {0, 0}, among[] = {0, 0, 4, 4}, both[] = {0, 4, 8}, three[] = {0, 4, 8, 12};
    static const uint32_t five[] = {0, 5};
    static const int32_t segment[] = {0, 0, 4, 2}, twice[] = {-4, -4, 4, -4, 4, 4, 4, 4, -4, 4};
    static const int32_t beside[] = {0, 0, 4, 0, 4, 4, 0, 4, 4, 0, 8, 0, 8, 4, 4, 4, 3, 1, 5, 1, 5, 3, 3, 3};
    static uint32_t many_starts[3001];
    static int32_t long_one[2 * 3000];
    CHECK(placed(lent_placement(two, 2, segment, 4, 2, 1), 0, BEZINKWOLU_TOUCHING));
    CHECK(placed(lent_placement(two, 2, segment, 4, 4, 2), 0, BEZINKWOLU_TOUCHING));
    CHECK(placed(lent_placement(two, 2, segment, 4, 6, 3), 0, BEZINKWOLU_APART));
    CHECK(placed(lent_placement(two, 2, segment, 4, -2, -1), 0, BEZINKWOLU_APART));
    CHECK(placed(lent_placement(two, 2, segment, 4, 2, 2), 0, BEZINKWOLU_APART));
    CHECK(placed(lent_placement(none, 2, around, 0, 0, 0), 0, BEZINKWOLU_APART));
    CHECK(placed(lent_placement(among, 4, around, 8, 0, 0), 0, BEZINKWOLU_OVERLAPPING));
    CHECK(placed(lent_placement(among, 4, around, 8, 4, 0), 0, BEZINKWOLU_TOUCHING));
    CHECK(placed(lent_placement(no_parts, 1, around, 0, 0, 0), 0, BEZINKWOLU_APART));
    CHECK(placed(lent_placement(no_parts, 1, around, 0, -FAR, FAR), 0, BEZINKWOLU_APART));
    /* a corner that stands twice in a row hides no overlap */
    CHECK(placed(lent_placement(five, 2, twice, 10, 0, 0), 0, BEZINKWOLU_OVERLAPPING));
    CHECK(placed(lent_placement(five, 2, twice, 10, 4, 4), 0, BEZINKWOLU_TOUCHING));
    /* on the rim of two, and strictly inside a third */
    CHECK(placed(lent_placement(both, 3, beside, 16, 4, 2), 0, BEZINKWOLU_TOUCHING));
    CHECK(placed(lent_placement(three, 4, beside, 24, 4, 2), 0, BEZINKWOLU_OVERLAPPING));
    for (size_t i = 0; i < 3000; i++)
        many_starts[i + 1] = (uint32_t)i + 1;
    CHECK(placed(lent_placement(many_starts, 3001, long_one, 6000, 0, 0), 0, BEZINKWOLU_TOUCHING));
    CHECK(placed(lent_placement((const uint32_t[]){0, 3000}, 2, long_one, 6000, 0, 0), 0, BEZINKWOLU_TOUCHING));
    CHECK(placed(lent_placement((const uint32_t[]){0, 3000}, 2, long_one, 6000, 1, 0), 0, BEZINKWOLU_APART));
}

static void placing(void)
{
    refused_places();
    placed_squares();
    placed_by_contours();
}

/* ---- doubled areas and bounds */

static bool measured(bezinkwolu_told_area a, uint32_t fault, int64_t area_two)
{
    return a.fault == fault && a.area_two == area_two;
}

static bool bounded(bezinkwolu_told_bounds b, uint32_t fault, int32_t min_x, int32_t max_x, int32_t min_y, int32_t max_y)
{
    return b.fault == fault && b.bounds.min_x == min_x && b.bounds.max_x == max_x && b.bounds.min_y == min_y && b.bounds.max_y == max_y;
}

/* So many starts and numbers, lent from between places that are not. */
static void lend_table(const uint32_t *s, size_t starts_length, const int32_t *c, size_t corners_length)
{
    marked();
    memcpy(starts, s, starts_length * sizeof *s);
    memcpy(corners, c, corners_length * sizeof *c);
}

static bool table_kept(const uint32_t *s, size_t starts_length, const int32_t *c, size_t corners_length)
{
    return kept(starts_length, corners_length, 0) && memcmp(starts, s, starts_length * sizeof *s) == 0 && memcmp(corners, c, corners_length * sizeof *c) == 0;
}

/* The fault that each of the three calls on this table tells; nothing changes. */
static void refused_measures(const uint32_t *s, size_t starts_length, const int32_t *c, size_t corners_length, uint32_t k, uint32_t fault)
{
    lend_table(s, starts_length, c, corners_length);
    CHECK(measured(bezinkwolu_part_area_two(starts, starts_length, corners, corners_length, k), fault, 0));
    if (fault != BEZINKWOLU_FAULT_PART) {
        CHECK(measured(bezinkwolu_table_area_two(starts, starts_length, corners, corners_length), fault, 0));
        if (fault != BEZINKWOLU_FAULT_TOTAL)
            CHECK(bounded(bezinkwolu_table_bounds(starts, starts_length, corners, corners_length), fault, 0, 0, 0, 0));
    }
    CHECK(table_kept(s, starts_length, c, corners_length));
}

/* The dart's parts, the second turned about, an empty one and a point. */
static void measured_parts(void)
{
    static const uint32_t s[] = {0, 3, 6, 6, 7};
    static const int32_t c[] = {0, 4, 0, 0, 4, 0, 0, 4, 10, -2, 4, 0, 12, -9};
    static const int64_t areas[] = {16, -16, 0, 0};
    lend_table(s, 5, c, 14);
    for (uint32_t k = 0; k < 4; k++) {
        CHECK(measured(bezinkwolu_part_area_two(starts, 5, corners, 14, k), 0, areas[k]));
        CHECK(measured(bezinkwolu_contour_area_two(corners + 2 * s[k], 2 * (s[k + 1] - s[k])), 0, areas[k]));
    }
    CHECK(measured(bezinkwolu_table_area_two(starts, 5, corners, 14), 0, 0));
    CHECK(measured(bezinkwolu_table_area_two(starts, 2, corners, 6), 0, 16));
    CHECK(bounded(bezinkwolu_table_bounds(starts, 5, corners, 14), 0, 0, 12, -9, 4));
    CHECK(table_kept(s, 5, c, 14));
    CHECK(measured(bezinkwolu_contour_area_two(corners, 5), BEZINKWOLU_FAULT_RULES, 0));
    CHECK(measured(bezinkwolu_contour_area_two(corners, 0), 0, 0));
    CHECK(table_kept(s, 5, c, 14));
    refused_measures(s, 5, c, 14, 4, BEZINKWOLU_FAULT_PART);
    refused_measures(s, 5, c, 14, UINT32_MAX, BEZINKWOLU_FAULT_PART);
    /* no parts */
    lend_table(s, 1, c, 0);
    CHECK(measured(bezinkwolu_table_area_two(starts, 1, corners, 0), 0, 0));
    CHECK(bounded(bezinkwolu_table_bounds(starts, 1, corners, 0), 0, 0, 0, 0, 0));
    CHECK(table_kept(s, 1, c, 0));
    refused_measures(s, 1, c, 0, 0, BEZINKWOLU_FAULT_PART);
}

/* 2^61 a round: four are one too many, and four the other way are just enough. */
static void measured_at_64_bits(void)
{
    enum { HALF = 1 << 29 };
    static const int32_t square[] = {-HALF, -HALF, HALF, -HALF, HALF, HALF, -HALF, HALF};
    static const uint32_t whole[] = {0, 16}, parts[] = {0, 12, 16};
    int32_t round[32], turned[32];
    for (size_t i = 0; i < 16; i++) {
        round[2 * i] = square[2 * (i % 4)], round[2 * i + 1] = square[2 * (i % 4) + 1];
        turned[2 * i] = round[2 * i + 1], turned[2 * i + 1] = round[2 * i];
    }
    refused_measures(whole, 2, round, 32, 0, BEZINKWOLU_FAULT_TOTAL);
    CHECK(measured(bezinkwolu_contour_area_two(corners, 32), BEZINKWOLU_FAULT_TOTAL, 0));
    CHECK(measured(bezinkwolu_table_area_two(parts, 3, round, 32), BEZINKWOLU_FAULT_TOTAL, 0));
    CHECK(measured(bezinkwolu_part_area_two(parts, 3, round, 32, 0), 0, INT64_C(3) << 61));
    CHECK(measured(bezinkwolu_table_area_two(parts, 3, turned, 32), 0, INT64_MIN));
    CHECK(measured(bezinkwolu_contour_area_two(turned, 32), 0, INT64_MIN));
    CHECK(bounded(bezinkwolu_table_bounds(whole, 2, round, 32), 0, -HALF, HALF, -HALF, HALF));
}

static void measuring(void)
{
    static const uint32_t late[] = {1, 4}, low[] = {0, 5, 4}, early[] = {0, 3}, past[] = {0, 5};
    static const int32_t beyond[] = {-4, -4, 4, -4, 4, FAR + 1, -4, 4};
    refused_measures(four, 0, around, 0, 0, BEZINKWOLU_FAULT_RULES);
    refused_measures(late, 2, around, 8, 0, BEZINKWOLU_FAULT_RULES);
    refused_measures(low, 3, around, 8, 0, BEZINKWOLU_FAULT_RULES);
    refused_measures(early, 2, around, 8, 0, BEZINKWOLU_FAULT_RULES);
    refused_measures(past, 2, around, 8, 0, BEZINKWOLU_FAULT_RULES);
    refused_measures(four, 2, around, 7, 0, BEZINKWOLU_FAULT_RULES);
    /* the rules before the range, the range before the part */
    refused_measures(early, 2, beyond, 8, 9, BEZINKWOLU_FAULT_RULES);
    refused_measures(four, 2, beyond, 8, 9, BEZINKWOLU_FAULT_RANGE);
    CHECK(measured(bezinkwolu_contour_area_two(corners, 8), BEZINKWOLU_FAULT_RANGE, 0));
    measured_parts();
    measured_at_64_bits();
}

/* ---- sentences */

static void faults(void)
{
    CHECK(strcmp(bezinkwolu_fault_text(BEZINKWOLU_FAULT_FLAT), "a triangle's doubled area not above 0") == 0);
    CHECK(strcmp(bezinkwolu_fault_text(BEZINKWOLU_FAULT_NONE), "no fault") == 0);
    /* each number has a text, and no two that are told have the same */
    for (uint32_t a = 0; a < 30; a++)
        for (uint32_t b = 0; b < a; b++) {
            bool told = strstr(bezinkwolu_fault_text(a), "no sentence for") == NULL || strstr(bezinkwolu_fault_text(b), "no sentence for") == NULL;
            CHECK(told == (strcmp(bezinkwolu_fault_text(a), bezinkwolu_fault_text(b)) != 0));
        }
}

/* ---- walks */

static void walks(void)
{
    static const int32_t round_twice[] = {-FAR, -FAR, FAR, -FAR, FAR, FAR, -FAR, FAR, -FAR, -FAR, FAR, -FAR, FAR, FAR, -FAR, FAR};
    static const int32_t beyond[] = {0, 0, FAR + 1, 0, 0, 2};
    static int32_t long_one[2 * 1027];
    CHECK(bezinkwolu_walk_begin(k, 5, false).fault == BEZINKWOLU_FAULT_RULES);
    CHECK(bezinkwolu_walk_begin(long_one, LENGTH(long_one), false).fault == BEZINKWOLU_FAULT_RULES);
    CHECK(bezinkwolu_walk_begin(beyond, 6, false).fault == BEZINKWOLU_FAULT_RANGE);
    CHECK(bezinkwolu_walk_begin(round_twice, 16, true).fault == BEZINKWOLU_FAULT_WINDING);
    CHECK(bezinkwolu_walk_begin(k, 0, false).fault == BEZINKWOLU_FAULT_EMPTY);
    bezinkwolu_told_place at = bezinkwolu_walk_begin(k, 6, false);
    CHECK(at.fault == 0 && at.place.index == 0 && at.place.remaining == 3 && !at.place.reflected && !at.place.segment);
    bezinkwolu_told_point p = bezinkwolu_walk_point(k, 6, at.place);
    CHECK(p.fault == 0 && p.x == 0 && p.y == 0);
    bezinkwolu_told_edge e = bezinkwolu_walk_edge(k, 6, at.place);
    CHECK(e.fault == 0 && e.x == 2 && e.y == 0);
    bezinkwolu_told_step s = bezinkwolu_walk_next(k, 6, at.place);
    CHECK(s.fault == 0 && s.x == 2 && s.y == 0 && s.place.index == 1 && s.place.remaining == 2);
    bezinkwolu_told_place next = bezinkwolu_walk_advance(k, 6, at.place);
    CHECK(next.fault == 0 && next.place.index == 1 && next.place.remaining == 2);

    bezinkwolu_place made_up = {.index = 3, .remaining = 1};
    CHECK(bezinkwolu_walk_point(k, 6, made_up).fault == BEZINKWOLU_FAULT_PLACE);
    CHECK(bezinkwolu_walk_point(k, 5, made_up).fault == BEZINKWOLU_FAULT_RULES);
    made_up.index = 1;
    CHECK(bezinkwolu_walk_point(beyond, 6, made_up).fault == BEZINKWOLU_FAULT_RANGE);
    CHECK(bezinkwolu_walk_edge(beyond, 6, made_up).fault == BEZINKWOLU_FAULT_RANGE);
    CHECK(bezinkwolu_walk_advance(beyond, 6, made_up).fault == BEZINKWOLU_FAULT_RANGE);
    CHECK(bezinkwolu_walk_next(beyond, 6, made_up).fault == BEZINKWOLU_FAULT_RANGE);
    made_up.remaining = 0;
    CHECK(bezinkwolu_walk_point(k, 6, made_up).fault == 0);
    CHECK(bezinkwolu_walk_edge(k, 6, made_up).fault == BEZINKWOLU_FAULT_PLACE);
    next = bezinkwolu_walk_advance(k, 6, made_up);
    CHECK(next.fault == BEZINKWOLU_FAULT_PLACE && next.place.index == 1 && next.place.remaining == 0);
    CHECK(bezinkwolu_walk_next(k, 7, made_up).fault == BEZINKWOLU_FAULT_RULES);
    CHECK(bezinkwolu_walk_next(k, 0, made_up).fault == BEZINKWOLU_FAULT_PLACE);
}

static void stepping(void)
{
    static const int32_t difference[] = {0, -2, 2, -2, 2, 0, 0, 2, -2, 2, -2, 0};
    static const int32_t beyond[] = {0, 0, FAR + 1, 0, 0, 2};
    CHECK(bezinkwolu_pair_new(k, 6, k, 5).fault == BEZINKWOLU_FAULT_RULES);
    CHECK(bezinkwolu_pair_new(beyond, 6, k, 6).fault == BEZINKWOLU_FAULT_RANGE);
    CHECK(bezinkwolu_pair_difference(k, 6, k, 0).fault == BEZINKWOLU_FAULT_EMPTY);
    bezinkwolu_told_pair pair = bezinkwolu_pair_new(k, 6, k, 6);
    CHECK(pair.fault == 0 && !pair.places.b.reflected);
    pair = bezinkwolu_pair_difference(k, 6, k, 6);
    CHECK(pair.fault == 0 && pair.places.b.reflected);
    bezinkwolu_places at = pair.places;
    for (size_t i = 0; i < LENGTH(difference); i += 2) {
        bezinkwolu_told_next n = bezinkwolu_pair_next(k, 6, k, 6, at);
        CHECK(n.fault == 0 && n.corners == 1 && n.x == difference[i] && n.y == difference[i + 1]);
        at = n.places;
    }
    bezinkwolu_told_next end = bezinkwolu_pair_next(k, 6, k, 6, at);
    CHECK(end.fault == 0 && end.corners == 0 && end.x == 0 && end.y == 0);
    CHECK(bezinkwolu_pair_next(k, 5, k, 6, at).fault == BEZINKWOLU_FAULT_RULES);
    CHECK(bezinkwolu_pair_next(k, 6, beyond, 6, at).fault == BEZINKWOLU_FAULT_RANGE);
    at.a.index = 3;
    end = bezinkwolu_pair_next(k, 6, k, 6, at);
    CHECK(end.fault == BEZINKWOLU_FAULT_PLACE && end.places.a.index == 3);
    CHECK(bezinkwolu_pair_next(k, 0, k, 0, at).fault == BEZINKWOLU_FAULT_PLACE);
}

/* ---- the listing and the plane */

static void listing(void)
{
    static const char expected[] = "parts 2 corners 6 area2 32\n0 3 16 5000 (0,4) (0,0) (4,0)\n1 3 16 5000 (0,4) (4,0) (10,-2)\n";
    static uint8_t text[BEZINKWOLU_LISTING_ROOM];
    uint32_t head[5] = {20 + sizeof dart, 2, 20, 0, 0};
    uint8_t file[20 + sizeof dart];
    memcpy(file, head, 20);
    memcpy(file + 20, dart, sizeof dart);
    size_t length = bezinkwolu_listing(file, sizeof file, text);
    CHECK(length == sizeof expected - 1 && memcmp(text, expected, length) == 0 && text[length] == 0);
    length = bezinkwolu_listing(file, 0, text);
    CHECK(length == 11 && memcmp(text, "refused 13\n", 11) == 0);
}

static void plane(void)
{
    bezinkwolu_told v = bezinkwolu_cross_product(0, 0, 2, 0, 0, 0, 0, 3);
    CHECK(v.fault == 0 && v.value == 6);
    v = bezinkwolu_area_two(0, 0, 4, 0, 0, 4);
    CHECK(v.fault == 0 && v.value == 16);
    v = bezinkwolu_angle_cmp(0, 0, 0, 1, 0, 0, 1, 0);
    CHECK(v.fault == 0 && v.value == 1);
    CHECK(bezinkwolu_angle_cmp(0, 0, 1, 0, 0, 0, 0, 1).value == -1);
    CHECK(bezinkwolu_cross_product(0, 0, 2, 0, 0, 0, 0, FAR + 1).fault == BEZINKWOLU_FAULT_RANGE);
    CHECK(bezinkwolu_area_two(-FAR - 1, 0, 4, 0, 0, 4).fault == BEZINKWOLU_FAULT_RANGE);
    v = bezinkwolu_angle_cmp(0, 0, FAR + 1, 0, 0, 0, 0, 1);
    CHECK(v.fault == BEZINKWOLU_FAULT_RANGE && v.value == 0);
}

/* What an item does not carry. */
#define ANY NAN

static const bezinkwolu_path_item outline[] = {
    {BEZINKWOLU_PATH_MOVE, 0.5, -0.5},          {BEZINKWOLU_PATH_HORIZONTAL, 2.5, ANY},
    {BEZINKWOLU_PATH_VERTICAL, ANY, 1.25},      {BEZINKWOLU_PATH_RELATIVE_LINE, -1, 0.25},
    {BEZINKWOLU_PATH_LINE, 0.5, 1.5},           {BEZINKWOLU_PATH_CLOSE, ANY, ANY},
};

static const bezinkwolu_frame millimetres = {0, 0, 1};

/* A path's corners into lent memory with so much room. */
static bezinkwolu_told_corners imported(const bezinkwolu_path_item *path, size_t items, bezinkwolu_frame frame, size_t room)
{
    marked();
    return bezinkwolu_import_path(path, items, frame, corners, room);
}

static bool not_imported(const bezinkwolu_path_item *path, size_t items, bezinkwolu_frame frame, size_t room, uint32_t fault)
{
    bezinkwolu_told_corners t = imported(path, items, frame, room);
    return t.fault == fault && t.corners == 0 && kept(0, 0, 0);
}

/* The outline with another item in the place of one. */
static bool refused_with(size_t k, bezinkwolu_path_item item, uint32_t fault)
{
    bezinkwolu_path_item path[6];
    memcpy(path, outline, sizeof path);
    path[k] = item;
    return not_imported(path, 6, millimetres, 10, fault);
}

static void refused_paths(void)
{
    static const bezinkwolu_frame frames[] = {{0, 0, 0}, {0, 0, 3}, {0, 0, 2048}, {0, 0, 0.5}, {0, 0, -1}, {0, 0, NAN}, {NAN, 0, 1}, {0, INFINITY, 1}};
    for (size_t i = 0; i < sizeof frames / sizeof *frames; i++)
        CHECK(not_imported(outline, 6, frames[i], 10, BEZINKWOLU_FAULT_PATH));
    CHECK(not_imported(outline, 0, millimetres, 10, BEZINKWOLU_FAULT_PATH));
    CHECK(not_imported(outline, 1, millimetres, 10, BEZINKWOLU_FAULT_PATH));
    CHECK(not_imported(outline, 5, millimetres, 10, BEZINKWOLU_FAULT_PATH));
    CHECK(not_imported(outline + 1, 5, millimetres, 10, BEZINKWOLU_FAULT_PATH));
    CHECK(not_imported(outline + 5, 1, millimetres, 10, BEZINKWOLU_FAULT_PATH));
    CHECK(refused_with(1, (bezinkwolu_path_item){6, 0, 0}, BEZINKWOLU_FAULT_PATH));
    CHECK(refused_with(1, (bezinkwolu_path_item){UINT64_MAX, 0, 0}, BEZINKWOLU_FAULT_PATH));
    CHECK(refused_with(1, (bezinkwolu_path_item){BEZINKWOLU_PATH_MOVE, 0, 0}, BEZINKWOLU_FAULT_PATH));
    CHECK(refused_with(1, (bezinkwolu_path_item){BEZINKWOLU_PATH_CLOSE, 0, 0}, BEZINKWOLU_FAULT_PATH));
    CHECK(refused_with(1, (bezinkwolu_path_item){BEZINKWOLU_PATH_HORIZONTAL, INFINITY, 0}, BEZINKWOLU_FAULT_PATH));
    CHECK(refused_with(4, (bezinkwolu_path_item){BEZINKWOLU_PATH_RELATIVE_LINE, 1048576, 0}, BEZINKWOLU_FAULT_PATH));
    CHECK(refused_with(4, (bezinkwolu_path_item){BEZINKWOLU_PATH_LINE, 1048576.5, 0}, BEZINKWOLU_FAULT_PATH));
    CHECK(not_imported(outline, 6, (bezinkwolu_frame){1e300, 0, 1024}, 10, BEZINKWOLU_FAULT_RANGE));
    CHECK(not_imported(outline, 6, (bezinkwolu_frame){-1e308, 0, 1024}, 10, BEZINKWOLU_FAULT_RANGE));
    CHECK(not_imported(outline, 6, millimetres, 9, BEZINKWOLU_FAULT_CORNER_ROOM));
    CHECK(not_imported(outline, 6, millimetres, 0, BEZINKWOLU_FAULT_CORNER_ROOM));
}

/* A move, so many lines to one point, and a close. */
static bezinkwolu_path_item long_path[1028];

static size_t lines_to(double x, double y, size_t lines)
{
    long_path[0] = (bezinkwolu_path_item){BEZINKWOLU_PATH_MOVE, x, y};
    for (size_t i = 1; i <= lines; i++)
        long_path[i] = (bezinkwolu_path_item){BEZINKWOLU_PATH_LINE, x, y};
    long_path[lines + 1] = outline[5];
    return lines + 2;
}

static void long_paths(void)
{
    bezinkwolu_told_corners t = imported(long_path, lines_to(1048576, -1048576, 1025), millimetres, 2052);
    CHECK(t.fault == 0 && t.corners == 1026 && kept(0, 2052, 0));
    CHECK(corners[0] == 1048576 && corners[1] == -1048576 && corners[2050] == 1048576 && corners[2051] == -1048576);
    CHECK(not_imported(long_path, lines_to(0, 0, 1026), millimetres, 2054, BEZINKWOLU_FAULT_RULES));
    /* 7 before 2, and 14 before both */
    CHECK(not_imported(long_path, lines_to(1048576, 0, 1026), (bezinkwolu_frame){0, 0, 1024}, 0, BEZINKWOLU_FAULT_RULES));
    CHECK(not_imported(long_path, lines_to(1048577, 0, 1026), (bezinkwolu_frame){0, 0, 1024}, 0, BEZINKWOLU_FAULT_PATH));
    /* one corner; the last coordinate within 2^30, and the first that is not */
    t = imported(long_path, lines_to(1048575.9990234375, 0, 0), (bezinkwolu_frame){0, 0, 1024}, 3);
    CHECK(t.fault == 0 && t.corners == 1 && kept(0, 2, 0) && corners[0] == FAR && corners[1] == 0);
    CHECK(not_imported(long_path, lines_to(1048576, 0, 0), (bezinkwolu_frame){0, 0, 1024}, 3, BEZINKWOLU_FAULT_RANGE));
    CHECK(not_imported(long_path, lines_to(1048576, 0, 0), (bezinkwolu_frame){0, 0, 1024}, 0, BEZINKWOLU_FAULT_RANGE));
}

static void paths(void)
{
    static const int32_t expected[] = {1, -1, 3, -1, 3, 1, 2, 2, 1, 2};
    static const int32_t finer[] = {1, -3, 9, -3, 9, 4, 5, 5, 1, 5};
    bezinkwolu_told_corners t = imported(outline, 6, millimetres, 11);
    CHECK(t.fault == 0 && t.corners == 5 && kept(0, 10, 0) && memcmp(corners, expected, sizeof expected) == 0);
    t = imported(outline, 6, (bezinkwolu_frame){0.25, 0.25, 4}, 10);
    CHECK(t.fault == 0 && t.corners == 5 && kept(0, 10, 0) && memcmp(corners, finer, sizeof finer) == 0);
    refused_paths();
    long_paths();
}

int main(void)
{
    meshes();
    joining();
    splitting();
    tables();
    showing();
    all_pairs();
    placing();
    measuring();
    paths();
    faults();
    walks();
    stepping();
    listing();
    plane();
    printf("%d checked, %d wrong\n", checked, wrong);
    return wrong != 0;
}
