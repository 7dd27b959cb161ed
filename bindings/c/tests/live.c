/* Calls on shelves with dead numbers, takes and withdraws, with what is refused and left alone, and prints 'right' where all is as the header says. */
#include <stdio.h>
#include <string.h>

#include "hornherder.h"

enum { K = 2, N = 6, V = 4, REGIONS = 2, FILL = 0xA5 };

/* The six points of the README without numbers 2 and 5, whose coordinates are no colours; their shelf, with a place behind it. */
static const int32_t points[K * N] = {1, 5, 4, 2, INT32_MAX, INT32_MIN, 7, 1, 6, 6, 32768, -32769};
static const uint8_t live[N] = {1, 1, 0, 1, 1, 0};
static const uint32_t order[V + 1] = {1, 0, 4, 3, 2};

/* The two faces of the README, closed, and one region of both, one of none. */
static const int32_t normals[K * 2] = {1, 1, -1, 0};
static const int64_t offsets[2] = {7, -6};
static const uint8_t marks[2] = {HORNHERDER_CLOSED_FACE, HORNHERDER_CLOSED_FACE};
static const uint32_t face_counts[REGIONS] = {2, 0};

/* 1 where all these bytes are as they were filled. */
static int is_filled(const void *bytes, size_t count)
{
    size_t i;
    for (i = 0; i < count; i++)
        if (((const unsigned char *)bytes)[i] != FILL)
            return 0;
    return 1;
}

/* 1 where arrange writes the shelf of the live points into v places, and none behind. */
static int arranges(void)
{
    uint32_t own[V + 1];
    memset(own, FILL, sizeof own);
    return hornherder_arrange(K, N, points, K * N, live, N, own, V - 1).code == HORNHERDER_SHORT_BUFFER && is_filled(own, sizeof own) &&
           hornherder_arrange(K, N, points, K * N, live, N, own, V + 1).code == HORNHERDER_DONE && memcmp(own, order, V * sizeof *own) == 0 &&
           is_filled(&own[V], sizeof *own) && hornherder_arrange(K, N, points, K * N, live, N, own, V).already == 1;
}

/* 1 where list, screen and explain go by the live points. */
static int asks(void)
{
    const uint32_t wanted[V] = {4, 3, 0, 1};
    uint32_t list[V + 1];
    hornherder_listing listing;
    hornherder_screening first = hornherder_screen(K, N, 2, points, K * N, live, N, order, V, normals, K * 2, offsets, 2, marks, 2);
    hornherder_explaining why = hornherder_explain(K, N, 2, 4, points, K * N, live, N, order, V, normals, K * 2, offsets, 2, marks, 2);
    hornherder_explaining dead = hornherder_explain(K, N, 2, 5, points, K * N, live, N, order, V, normals, K * 2, offsets, 2, marks, 2);
    memset(list, FILL, sizeof list);
    listing = hornherder_list(K, N, 2, points, K * N, live, N, order, V + 1, normals, K * 2, offsets, 2, marks, 2, list, V + 1);
    return listing.code == HORNHERDER_DONE && listing.inside == 1 && listing.outside == V - 1 && memcmp(list, wanted, sizeof wanted) == 0 &&
           is_filled(&list[V], sizeof *list) && first.code == HORNHERDER_DONE && first.found == 1 && first.number == 4 &&
           why.code == HORNHERDER_DONE && why.reason == HORNHERDER_INSIDE_BY_ITSELF && why.slot == 2 && dead.code == HORNHERDER_NOT_LIVE &&
           dead.reason == 0 && dead.slot == 0;
}

/* 1 where region r's list starts at place r times v. */
static int lists_regions(void)
{
    const uint32_t wanted[REGIONS * V] = {4, 3, 0, 1, 1, 0, 4, 3};
    uint32_t lists[REGIONS * V + 1], counts[REGIONS * 3];
    memset(lists, FILL, sizeof lists);
    return hornherder_list_regions(K, N, REGIONS, points, K * N, live, N, order, V, face_counts, REGIONS, normals, K * 2, offsets, 2, marks, 2,
                                   lists, REGIONS * V + 1, counts, REGIONS * 3) == HORNHERDER_DONE &&
           memcmp(lists, wanted, sizeof wanted) == 0 && is_filled(&lists[REGIONS * V], sizeof *lists) && counts[0] == 1 && counts[3] == V &&
           counts[4] == 0;
}

/* What list_regions answers with live bytes of this length, and faults in what is tested after them: the region count and all room. */
static uint32_t regions_after(const uint8_t *bytes, size_t length)
{
    return hornherder_list_regions(K, N, 0, points, K * N, bytes, length, NULL, 0, NULL, 0, NULL, 0, NULL, 0, NULL, 0, NULL, 0, NULL, 0);
}

/* 1 where live bytes that are not n, or a byte that is not 0 or 1, are refused with 15: after 3, and before 14, 4 and 5. */
static int refuses_bytes(void)
{
    const uint8_t two[N] = {1, 1, 0, 1, 1, 2}, more[N + 1] = {1, 1, 0, 1, 1, 0, 0};
    const uint32_t code = HORNHERDER_LIVE_BYTES;
    int right = regions_after(live, N) == HORNHERDER_REGION_COUNT && regions_after(two, N) == code && regions_after(live, N - 1) == code;
    right &= hornherder_arrange(K, N, points, K * N, two, N, NULL, 0).code == code;
    right &= hornherder_arrange(K, N, points, K * N, more, N + 1, NULL, 0).code == code;
    right &= hornherder_arrange(K, N, points, K * N, live, N - 1, NULL, 0).code == code;
    right &= hornherder_arrange(K, N, points, K * N - 1, two, N, NULL, 0).code == HORNHERDER_POINTS_LENGTH;
    right &= hornherder_list(K, N, 0, points, K * N, two, N, NULL, 0, NULL, 0, NULL, 0, NULL, 0, NULL, 0).code == code;
    right &= hornherder_screen(K, N, 0, points, K * N, two, N, NULL, 0, NULL, 0, NULL, 0, NULL, 0).code == code;
    right &= hornherder_explain(K, N, 0, 5, points, K * N, two, N, NULL, 0, NULL, 0, NULL, 0, NULL, 0).code == code;
    return right;
}

/* 1 where a point is taken at numbers 2 and 5 and then refused with 16; each take writes its point and its byte alone. */
static int takes(void)
{
    const int32_t first[K] = {3, 9}, second[K] = {HORNHERDER_MIN_COORDINATE, HORNHERDER_MAX_COORDINATE};
    int32_t own[K * N], wanted[K * N];
    uint8_t bytes[N], ones[N] = {1, 1, 1, 1, 1, 0};
    hornherder_taking answer;
    int right;
    memcpy(own, points, sizeof own);
    memcpy(wanted, points, sizeof wanted);
    memcpy(bytes, live, sizeof bytes);
    memcpy(&wanted[K * 2], first, sizeof first);
    answer = hornherder_take(K, N, own, K * N, bytes, N, first, K);
    right = answer.code == HORNHERDER_DONE && answer.number == 2;
    right &= memcmp(own, wanted, sizeof own) == 0 && memcmp(bytes, ones, sizeof bytes) == 0;
    memcpy(&wanted[K * 5], second, sizeof second);
    ones[5] = 1;
    answer = hornherder_take(K, N, own, K * N, bytes, N, second, K);
    right &= answer.code == HORNHERDER_DONE && answer.number == 5;
    answer = hornherder_take(K, N, own, K * N, bytes, N, first, K);
    right &= answer.code == HORNHERDER_NONE_DEAD && answer.number == 0;
    return right && memcmp(own, wanted, sizeof own) == 0 && memcmp(bytes, ones, sizeof bytes) == 0;
}

/* 1 where a take is refused with this number, and writes nothing: of points that start so, with this last live byte and this point. */
static int take_refused(int32_t first, uint8_t last, const int32_t *point, size_t point_len, uint32_t code)
{
    int32_t own[K * N], own_before[K * N];
    uint8_t bytes[N], bytes_before[N];
    hornherder_taking answer;
    memcpy(own, points, sizeof own);
    memcpy(bytes, live, sizeof bytes);
    own[0] = first;
    bytes[5] = last;
    memcpy(own_before, own, sizeof own);
    memcpy(bytes_before, bytes, sizeof bytes);
    answer = hornherder_take(K, N, own, K * N, bytes, N, point, point_len);
    return answer.code == code && answer.number == 0 && memcmp(own, own_before, sizeof own) == 0 && memcmp(bytes, bytes_before, sizeof bytes) == 0;
}

/* 1 where take refuses in its order: 3 of the new point, 15, then 5 of a live point and of the new one. */
static int refuses_takes(void)
{
    const int32_t right[K + 1] = {0, 0, 0}, wrong[K] = {0, 32768};
    return take_refused(32768, 2, wrong, K - 1, HORNHERDER_POINTS_LENGTH) && take_refused(32768, 2, right, K + 1, HORNHERDER_POINTS_LENGTH) &&
           take_refused(32768, 2, wrong, K, HORNHERDER_LIVE_BYTES) && take_refused(32768, 0, right, K, HORNHERDER_COORDINATE_RANGE) &&
           take_refused(1, 0, wrong, K, HORNHERDER_COORDINATE_RANGE);
}

/* 1 where withdrawing clears one byte, and refuses what is not live; the order of before is the shelf where its last slot is withdrawn. */
static int withdraws(void)
{
    const int32_t row[2] = {0, 10};
    uint32_t both[2] = {0, 1};
    uint8_t bytes[3] = {1, 1, FILL};
    int right = hornherder_withdraw(2, 2, bytes, 2) == HORNHERDER_NOT_LIVE && hornherder_withdraw(2, UINT32_MAX, bytes, 2) == HORNHERDER_NOT_LIVE;
    right &= hornherder_withdraw(2, 2, bytes, 3) == HORNHERDER_LIVE_BYTES && hornherder_withdraw(65536, 2, bytes, 3) == HORNHERDER_TOO_MANY_POINTS;
    right &= bytes[0] == 1 && bytes[1] == 1;
    right &= hornherder_withdraw(2, 1, bytes, 2) == HORNHERDER_DONE && bytes[0] == 1 && bytes[1] == 0 && bytes[2] == FILL;
    right &= hornherder_arrange(1, 2, row, 2, bytes, 2, both, 2).already == 1;
    right &= hornherder_withdraw(2, 1, bytes, 2) == HORNHERDER_NOT_LIVE && bytes[0] == 1 && bytes[1] == 0;
    return right && hornherder_withdraw(2, 0, bytes, 2) == HORNHERDER_DONE && bytes[0] == 0;
}

int main(void)
{
    int right = sizeof(hornherder_taking) == 8 && offsetof(hornherder_taking, number) == 4;
    right &= arranges() && asks() && lists_regions() && refuses_bytes() && takes() && refuses_takes() && withdraws();
    puts(right ? "right" : "wrong");
    return 0;
}
