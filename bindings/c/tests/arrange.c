/* Arranges orders of every kind, with what is refused and left alone, and prints 'right' where all is as the header says. */
#include <stdio.h>
#include <string.h>

#include "hornherder.h"

enum { K = 2, N = 6, FILL = 0xA5 };

/* The six points of the README, all live, and their shelf, with places behind it, in memory that may only be read. */
static const int32_t points[K * N] = {1, 5, 4, 2, 4, 8, 7, 1, 6, 6, 2, 2};
static const uint8_t live[N] = {1, 1, 1, 1, 1, 1};
static const uint32_t shelf[N + 2] = {1, 5, 0, 2, 3, 4, 1, UINT32_MAX};

/* Arranges the six points. */
static hornherder_arranging arrange(uint32_t *order, size_t places)
{
    return hornherder_arrange(K, N, points, K * N, live, N, order, places);
}

/* 1 where an arranging is done and says this. */
static int says(hornherder_arranging answer, uint32_t already)
{
    return answer.code == HORNHERDER_DONE && answer.already == already;
}

/* 1 where these first contents become the shelf, and the places behind stay. */
static int becomes_the_shelf(const uint32_t *first)
{
    uint32_t order[N + 2];
    memcpy(order, shelf, sizeof order);
    memcpy(order, first, N * sizeof *order);
    return says(arrange(order, N + 2), 0) && memcmp(order, shelf, sizeof order) == 0;
}

/* 1 where any first contents become the shelf. */
static int takes_any(void)
{
    const uint32_t zeros[N] = {0, 0, 0, 0, 0, 0}, in_turn[N] = {0, 1, 2, 3, 4, 5}, backwards[N] = {4, 3, 2, 0, 5, 1};
    uint32_t filled[N];
    memset(filled, FILL, sizeof filled);
    return becomes_the_shelf(zeros) && becomes_the_shelf(in_turn) && becomes_the_shelf(backwards) && becomes_the_shelf(filled);
}

/* 1 where the shelf is left as it is, with and without places behind. Memory that may only be read is lent: a write would end the program. */
static int leaves_the_shelf(void)
{
    return says(arrange((uint32_t *)shelf, N), 1) && says(arrange((uint32_t *)shelf, N + 2), 1);
}

/* 1 where a list call refuses this order with 9, and arrange makes it the shelf. */
static int mended(const uint32_t *order)
{
    uint32_t list[N];
    hornherder_listing answer = hornherder_list(K, N, 0, points, K * N, live, N, order, N, NULL, 0, NULL, 0, NULL, 0, list, N);
    return answer.code == HORNHERDER_NOT_THE_TREE && answer.inside == 0 && becomes_the_shelf(order);
}

/* 1 where every order is mended that differs from the shelf in one slot, or in two that are changed over. */
static int mends(void)
{
    uint32_t slot, other, number;
    int right = 1;
    for (slot = 0; slot < N; slot++) {
        uint32_t order[N];
        for (number = 0; number <= N; number++) {
            memcpy(order, shelf, sizeof order);
            order[slot] = number;
            right &= number == shelf[slot] || mended(order);
        }
        for (other = 0; other < slot; other++) {
            memcpy(order, shelf, sizeof order);
            order[slot] = shelf[other];
            order[other] = shelf[slot];
            right &= mended(order);
        }
    }
    return right;
}

/* 1 where a call with these numbers, points, last live byte and places is refused with this, and writes nothing. */
static int refused(size_t k, size_t n, const int32_t *given, size_t given_len, uint8_t last, size_t places, uint32_t code)
{
    uint8_t bytes[N] = {1, 1, 1, 1, 1, 1};
    uint32_t order[N], before[N];
    hornherder_arranging answer;
    bytes[N - 1] = last;
    memset(order, FILL, sizeof order);
    memcpy(before, order, sizeof before);
    answer = hornherder_arrange(k, n, given, given_len, bytes, N, order, places);
    return answer.code == code && answer.already == 0 && memcmp(order, before, sizeof order) == 0;
}

/* 1 where arrange refuses in its order, 1, 2, 3, 15, 4, 5, each before all that come after it. */
static int refuses(void)
{
    int32_t wide[K * N];
    memcpy(wide, points, sizeof wide);
    wide[K * N - 1] = HORNHERDER_MAX_COORDINATE + 1;
    return refused(0, 65536, wide, K * N - 1, 2, N - 1, HORNHERDER_DIMENSION) && refused(5, 65536, wide, K * N - 1, 2, N - 1, HORNHERDER_DIMENSION) &&
           refused(K, 65536, wide, K * N - 1, 2, N - 1, HORNHERDER_TOO_MANY_POINTS) &&
           refused(K, N, wide, K * N - 1, 2, N - 1, HORNHERDER_POINTS_LENGTH) && refused(K, N, wide, K * N, 2, N - 1, HORNHERDER_LIVE_BYTES) &&
           refused(K, N, wide, K * N, 1, N - 1, HORNHERDER_SHORT_BUFFER) && refused(K, N, wide, K * N, 1, N, HORNHERDER_COORDINATE_RANGE);
}

int main(void)
{
    int right = sizeof(hornherder_arranging) == 8 && offsetof(hornherder_arranging, already) == 4;
    right &= takes_any() && leaves_the_shelf() && mends() && refuses();
    puts(right ? "right" : "wrong");
    return 0;
}
