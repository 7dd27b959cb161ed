/* Lists several regions in one call, with what it refuses and leaves alone, and prints 'right' where all is as the header says. */
#include <stdio.h>
#include <string.h>

#include "hornherder.h"

enum { K = 2, N = 6, REGIONS = 3, H = 3, BEHIND = 2, MOST = HORNHERDER_MAX_REGIONS };
enum { LISTS = REGIONS * N + BEHIND, COUNTS = REGIONS * 3 + BEHIND };

/* The six points of the README, their shelf with a place behind it, and an order that is not their shelf. */
static const int32_t points[K * N] = {1, 5, 4, 2, 4, 8, 7, 1, 6, 6, 2, 2};
static const uint8_t live[N] = {1, 1, 1, 1, 1, 1};
static const uint32_t order[N + 1] = {1, 5, 0, 2, 3, 4, 77}, wrong_order[N] = {5, 1, 0, 2, 3, 4};

/* Three regions: the two faces of the README, none, and x > 4. */
static const uint32_t face_counts[REGIONS] = {2, 0, 1};
static const int32_t normals[K * H] = {1, 1, -1, 0, 1, 0};
static const int64_t offsets[H] = {7, -6, 4};
static const uint8_t marks[H] = {0, 0, 1}, wrong_marks[H] = {0, 0, 2};

static uint32_t lists[LISTS], counts[COUNTS];

/* What a call is made with, where it is not as it should be. */
typedef struct {
    size_t regions, face_counts_len, order_len, normals_len, lists_len, counts_len;
    const uint32_t *order, *face_counts;
    const uint8_t *marks;
} changed;

static const changed as_it_should_be = {REGIONS, REGIONS, N + 1, K * H, LISTS, COUNTS, order, face_counts, marks};

/* Makes the call, with both buffers filled before. */
static uint32_t call(changed with)
{
    memset(lists, 0xA5, sizeof lists);
    memset(counts, 0xA5, sizeof counts);
    return hornherder_list_regions(K, N, with.regions, points, K * N, live, N, with.order, with.order_len, with.face_counts,
                                   with.face_counts_len, normals, with.normals_len, offsets, H, with.marks, H, lists, with.lists_len,
                                   counts, with.counts_len);
}

/* 1 where the places of both buffers from these on hold what they held before the call. */
static int kept(size_t list, size_t count)
{
    int same = 1;
    for (; list < LISTS; list++)
        same &= lists[list] == 0xA5A5A5A5u;
    for (; count < COUNTS; count++)
        same &= counts[count] == 0xA5A5A5A5u;
    return same;
}

/* 1 where a call is refused with this number and writes nothing. */
static int refuses(changed with, uint32_t code)
{
    return call(with) == code && kept(0, 0);
}

/* 1 where a region has what the list call gives for its faces alone, which start at this one. */
static int is_as_alone(size_t region, size_t face)
{
    const size_t h = face_counts[region];
    const uint32_t *three = &counts[3 * region];
    uint32_t list[N];
    hornherder_listing alone = hornherder_list(K, N, h, points, K * N, live, N, order, N, &normals[K * face], K * h, &offsets[face], h,
                                               &marks[face], h, list, N);
    return alone.code == HORNHERDER_DONE && alone.inside == three[0] && alone.outside == three[1] && alone.visits == three[2] &&
           memcmp(list, &lists[region * N], sizeof list) == 0;
}

/* 1 where a done call gives each region its places and its counts, and leaves those behind. */
static int lists_all(void)
{
    const uint32_t first[N] = {2, 4, 3, 0, 5, 1}, three[3] = {2, 4, 5};
    return call(as_it_should_be) == HORNHERDER_DONE && kept(REGIONS * N, REGIONS * 3) && memcmp(lists, first, sizeof first) == 0 &&
           memcmp(counts, three, sizeof three) == 0 && is_as_alone(0, 0) && is_as_alone(1, 2) && is_as_alone(2, 2);
}

/* 1 where so many regions with no faces and no points get this answer. */
static int empty_regions(size_t regions, uint32_t code)
{
    static const uint32_t none[MOST + 1] = {0};
    static uint32_t threes[3 * (MOST + 1)];
    return hornherder_list_regions(K, 0, regions, NULL, 0, NULL, 0, NULL, 0, none, regions, NULL, 0, NULL, 0, NULL, 0, NULL, 0,
                                   threes, 3 * regions) == code;
}

/* 1 where every length that is not as it should be is refused. */
static int refuses_lengths(void)
{
    changed more = as_it_should_be, fewer = more, slots = more, places = more, threes = more, components = more, both = more;
    more.face_counts_len = REGIONS - 1;
    fewer.regions = REGIONS - 1;
    slots.order_len = N - 1;
    places.lists_len = REGIONS * N - 1;
    threes.counts_len = REGIONS * 3 - 1;
    components.normals_len = K * H - 1;
    both.regions = MOST + 1;
    both.counts_len = 0;
    return refuses(more, HORNHERDER_REGION_COUNT) && refuses(fewer, HORNHERDER_REGION_COUNT) &&
           refuses(both, HORNHERDER_REGION_COUNT) && refuses(slots, HORNHERDER_SHORT_BUFFER) &&
           refuses(places, HORNHERDER_SHORT_BUFFER) && refuses(threes, HORNHERDER_SHORT_BUFFER) &&
           refuses(components, HORNHERDER_FACES_LENGTH);
}

/* 1 where one bad region, a bad mark and a wrong order refuse the call; face counts are not added up before each is tested. */
static int refuses_values(void)
{
    static const uint32_t over[REGIONS] = {2, 0, 33}, wide[REGIONS] = {2147483648u, 2147483648u, 3}, other[REGIONS] = {2, 1, 1};
    changed one = as_it_should_be, sum = one, total = one, mark = one, tree = one;
    one.face_counts = over;
    sum.face_counts = wide;
    total.face_counts = other;
    mark.marks = wrong_marks;
    mark.order = tree.order = wrong_order;
    mark.order_len = tree.order_len = N;
    return refuses(one, HORNHERDER_TOO_MANY_FACES) && refuses(sum, HORNHERDER_TOO_MANY_FACES) &&
           refuses(total, HORNHERDER_FACES_LENGTH) && refuses(mark, HORNHERDER_MARKS) && refuses(tree, HORNHERDER_NOT_THE_TREE);
}

int main(void)
{
    int right = lists_all() && refuses_lengths() && refuses_values();
    right &= empty_regions(1, HORNHERDER_DONE) && empty_regions(MOST, HORNHERDER_DONE);
    right &= empty_regions(0, HORNHERDER_REGION_COUNT) && empty_regions(MOST + 1, HORNHERDER_REGION_COUNT);
    puts(right ? "right" : "wrong");
    return 0;
}
