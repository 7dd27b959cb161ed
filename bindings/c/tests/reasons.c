/* Asks why points are inside or outside, and where each number of the answer stands, and prints 'right' where all is as the header says. */
#include <stdio.h>

#include "hornherder.h"

enum { K = 2, N = 6 };

/* The six points of the README, their shelf with a place behind it, and an order that is not their shelf. */
static const int32_t points[K * N] = {1, 5, 4, 2, 4, 8, 7, 1, 6, 6, 2, 2};
static const uint8_t live[N] = {1, 1, 1, 1, 1, 1};
static const uint32_t order[N + 1] = {1, 5, 0, 2, 3, 4, 77}, wrong_order[N] = {5, 1, 0, 2, 3, 4};

/* 1 where an answer has these numbers. */
static int is(hornherder_explaining answer, uint32_t code, uint8_t reason, uint16_t slot, uint8_t face, int64_t margin)
{
    return answer.code == code && answer.reason == reason && answer.slot == slot && answer.face == face && answer.margin == margin;
}

/* The answer for a number with the two faces of the README, the second marked so. */
static hornherder_explaining two_faces(uint32_t number, uint8_t mark)
{
    const int32_t normals[K * 2] = {1, 1, -1, 0};
    const int64_t offsets[2] = {7, -6};
    const uint8_t marks[2] = {HORNHERDER_CLOSED_FACE, mark};
    return hornherder_explain(K, N, 2, number, points, K * N, live, N, order, N + 1, normals, K * 2, offsets, 2, marks, 2);
}

/* The answer for a number with one closed face on x. */
static hornherder_explaining one_face(uint32_t number, int64_t offset)
{
    const int32_t normal[K] = {1, 0};
    const uint8_t mark = HORNHERDER_CLOSED_FACE;
    return hornherder_explain(K, N, 1, number, points, K * N, live, N, order, N, normal, K, &offset, 1, &mark, 1);
}

/* The answer for a number with no faces, by this order. */
static hornherder_explaining no_faces(uint32_t number, const uint32_t *slots)
{
    return hornherder_explain(K, N, 0, number, points, K * N, live, N, slots, N, NULL, 0, NULL, 0, NULL, 0);
}

/* 1 where the least coordinates have the least margin there is, with the branch of their one slot. */
static int is_least(void)
{
    const int32_t x = HORNHERDER_MIN_COORDINATE, c = HORNHERDER_MAX_COMPONENT;
    const int32_t point[4] = {x, x, x, x}, normal[4] = {c, c, c, c};
    const int64_t offset = HORNHERDER_MAX_OFFSET;
    const uint32_t slot = 0;
    const uint8_t mark = HORNHERDER_CLOSED_FACE;
    hornherder_explaining answer = hornherder_explain(4, 1, 1, 0, point, 4, live, 1, &slot, 1, normal, 4, &offset, 1, &mark, 1);
    return is(answer, HORNHERDER_DONE, HORNHERDER_OUTSIDE_WITH_BRANCH, 0, 0, HORNHERDER_MIN_MARGIN);
}

/* 1 where the refusals come in their order: 9 before 17, and both with zeros. */
static int refuses(void)
{
    return is(no_faces(N, order), HORNHERDER_NOT_LIVE, 0, 0, 0, 0) &&
           is(no_faces(UINT32_MAX, order), HORNHERDER_NOT_LIVE, 0, 0, 0, 0) &&
           is(no_faces(N, wrong_order), HORNHERDER_NOT_THE_TREE, 0, 0, 0, 0) &&
           is(no_faces(0, wrong_order), HORNHERDER_NOT_THE_TREE, 0, 0, 0, 0) && is(two_faces(N, 2), HORNHERDER_MARKS, 0, 0, 0, 0);
}

int main(void)
{
    uint32_t number;
    int right = sizeof(hornherder_explaining) == 16;
    right &= offsetof(hornherder_explaining, reason) == 4 && offsetof(hornherder_explaining, face) == 5;
    right &= offsetof(hornherder_explaining, slot) == 6 && offsetof(hornherder_explaining, margin) == 8;
    right &= is(two_faces(1, 0), HORNHERDER_DONE, HORNHERDER_OUTSIDE_WITH_BRANCH, 0, 0, -1);
    right &= is(two_faces(5, 0), HORNHERDER_DONE, HORNHERDER_OUTSIDE_BY_ITSELF, 1, 0, -3);
    right &= is(two_faces(3, 0), HORNHERDER_DONE, HORNHERDER_OUTSIDE_BY_ITSELF, 4, 1, -1);
    right &= is(two_faces(4, 0), HORNHERDER_DONE, HORNHERDER_INSIDE_BY_ITSELF, 5, 0, 0);
    right &= is(two_faces(4, 1), HORNHERDER_DONE, HORNHERDER_OUTSIDE_BY_ITSELF, 5, 1, 0);
    right &= is(one_face(3, 4), HORNHERDER_DONE, HORNHERDER_INSIDE_WITH_BRANCH, 5, 0, 0);
    right &= is(one_face(0, 5), HORNHERDER_DONE, HORNHERDER_OUTSIDE_WITH_BRANCH, 1, 0, -4);
    for (number = 0; number < N; number++)
        right &= is(no_faces(number, order), HORNHERDER_DONE, HORNHERDER_INSIDE_WITH_BRANCH, N / 2, 0, 0);
    right &= is_least() && refuses();
    puts(right ? "right" : "wrong");
    return 0;
}
