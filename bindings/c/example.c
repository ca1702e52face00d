/* The dart joined into its convex parts, and the first part plus the last. */
#include <bezinkwolu.h>
#include <stdio.h>

#define NONE BEZINKWOLU_NONE

static void print(const int32_t *corners, uint32_t from, uint32_t to)
{
    for (uint32_t i = from; i < to; i++)
        printf("(%d,%d)%s", (int)corners[2 * i], (int)corners[2 * i + 1], i + 1 < to ? " " : "\n");
}

int main(void)
{
    const bezinkwolu_triangle dart[2] = {
        {{{0, 0}, {4, 0}, {0, 4}}, {1, NONE, NONE}},
        {{{4, 0}, {10, -2}, {0, 4}}, {NONE, 0, NONE}},
    };
    uint32_t starts[2 + 1]; /* one start more than triangles and six numbers a triangle are always enough */
    int32_t corners[6 * 2];
    bezinkwolu_counts parts = bezinkwolu_to_convex_polygons(dart, 2, starts, 3, corners, 12);
    if (parts.fault)
        return (int)parts.fault;
    for (uint32_t k = 0; k < parts.parts; k++)
        print(corners, starts[k], starts[k + 1]);

    const bezinkwolu_bounds bounds = bezinkwolu_table_bounds(starts, parts.parts + 1, corners, 2 * parts.corners).bounds;
    uint32_t sum_starts[2 * 2 + 1];
    int32_t sum_corners[2 * (2 * 6 + 2 * 6)];
    /* what is lent here is as long as the first call told, not as long as its room */
    bezinkwolu_told_pairs sums = bezinkwolu_sum_parts(
        starts, parts.parts + 1, corners, 2 * parts.corners, bounds,
        starts, parts.parts + 1, corners, 2 * parts.corners, bounds,
        sum_starts, 5, sum_corners, 48);
    if (sums.fault)
        return (int)sums.fault;
    printf("sum: ");
    print(sum_corners, sum_starts[parts.parts - 1], sum_starts[parts.parts]);
    return 0;
}
