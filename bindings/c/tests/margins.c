/* Asks for margins, where each number of the answer stands, and both ends of the range, and prints 'right' where all is as the header says. */
#include <stdio.h>

#include "hornherder.h"

/* 1 where a point on one axis gets this inside, face and margin from three faces with normal 1 and these offsets and marks. */
static int is(int32_t x, const int64_t *offsets, const uint8_t *marks, uint8_t inside, uint16_t face, int64_t margin)
{
    const int32_t normals[3] = {1, 1, 1};
    hornherder_placing answer = hornherder_place(1, 3, &x, 1, normals, 3, offsets, 3, marks, 3);
    return answer.code == HORNHERDER_DONE && answer.measured == 1 && answer.inside == inside && answer.face == face && answer.margin == margin;
}

/* 1 where the least coordinates get this margin from a face whose components and offset are the greatest or, with -1, the least. */
static int is_end(int32_t sign, uint8_t inside, int64_t margin)
{
    const int32_t x = HORNHERDER_MIN_COORDINATE, c = sign * HORNHERDER_MAX_COMPONENT;
    const int32_t point[4] = {x, x, x, x}, normal[4] = {c, c, c, c};
    const int64_t offset = sign * HORNHERDER_MAX_OFFSET;
    const uint8_t mark = HORNHERDER_CLOSED_FACE;
    hornherder_placing answer = hornherder_place(4, 1, point, 4, normal, 4, &offset, 1, &mark, 1);
    return answer.code == HORNHERDER_DONE && answer.measured == 1 && answer.inside == inside && answer.face == 0 && answer.margin == margin;
}

int main(void)
{
    const int64_t offsets[3] = {4, 6, 6};
    const uint8_t closed[3] = {0, 0, 0}, last_open[3] = {0, 0, 1};
    int right = sizeof(hornherder_placing) == 16;
    right &= offsetof(hornherder_placing, inside) == 4 && offsetof(hornherder_placing, measured) == 5;
    right &= offsetof(hornherder_placing, face) == 6 && offsetof(hornherder_placing, margin) == 8;
    right &= is(3, offsets, closed, 0, 1, -3);
    right &= is(6, offsets, closed, 1, 1, 0);
    right &= is(6, offsets, last_open, 0, 1, 0);
    right &= is(7, offsets, last_open, 1, 1, 1);
    right &= is_end(1, 0, HORNHERDER_MIN_MARGIN);
    right &= is_end(-1, 1, HORNHERDER_MAX_MARGIN);
    puts(right ? "right" : "wrong");
    return 0;
}
