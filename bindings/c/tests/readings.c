/* Makes points of readings, at both ends of the range, beside them and around zero, and prints 'right' where all is as the header says. */
#include <math.h>
#include <stdio.h>

#include "hornherder.h"

/* What stands in the places before a call, and in a place behind them. */
enum { BEFORE = 77, PLACES = 5 };

/* 1 where an answer has these numbers, and the places hold this point with what stood behind it. */
static int gives(hornherder_making answer, const int32_t *places, uint32_t code, uint32_t made, int32_t x, int32_t y, int32_t z)
{
    return answer.code == code && answer.made == made && places[0] == x && places[1] == y && places[2] == z && places[3] == BEFORE &&
           places[4] == BEFORE;
}

/* 1 where a colour gets this answer in places of this length, which are left alone but where a point is made. */
static int colour(float first, float second, float third, size_t length, uint32_t code, int32_t x, int32_t y, int32_t z)
{
    int32_t places[PLACES] = {BEFORE, BEFORE, BEFORE, BEFORE, BEFORE};
    hornherder_making answer = hornherder_point_from_colour(first, second, third, places, length);
    return code == HORNHERDER_DONE ? gives(answer, places, code, 1, x, y, z) : gives(answer, places, code, 0, BEFORE, BEFORE, BEFORE);
}

/* The same for a grey, whose point has its number first. */
static int grey(float value, size_t length, uint32_t code, int32_t x)
{
    int32_t places[PLACES] = {BEFORE, BEFORE, BEFORE, BEFORE, BEFORE};
    hornherder_making answer = hornherder_point_from_grey(value, places, length);
    return code == HORNHERDER_DONE ? gives(answer, places, code, 1, x, 0, 0) : gives(answer, places, code, 0, BEFORE, BEFORE, BEFORE);
}

/* The same where nothing was measured. */
static int nothing(size_t length, uint32_t code)
{
    int32_t places[PLACES] = {BEFORE, BEFORE, BEFORE, BEFORE, BEFORE};
    return gives(hornherder_point_from_nothing(places, length), places, code, 0, BEFORE, BEFORE, BEFORE);
}

/* 1 where a value is refused as a grey and at each of the three values of a colour; and 3 comes first. */
static int refused(float value)
{
    return grey(value, 3, HORNHERDER_VALUE_RANGE, 0) && grey(value, 2, HORNHERDER_POINTS_LENGTH, 0) &&
           colour(value, 1, 1, 3, HORNHERDER_VALUE_RANGE, 0, 0, 0) && colour(1, value, 1, 3, HORNHERDER_VALUE_RANGE, 0, 0, 0) &&
           colour(1, 1, value, 3, HORNHERDER_VALUE_RANGE, 0, 0, 0) && colour(1, 1, value, 4, HORNHERDER_POINTS_LENGTH, 0, 0, 0);
}

int main(void)
{
    const float below_128 = 127.99999237060546875f, least_above_0 = 1.40129846432481707e-45f;
    const float bad[6] = {128, -128.0000152587890625f, NAN, -NAN, INFINITY, -INFINITY};
    int right = sizeof(hornherder_making) == 8 && offsetof(hornherder_making, made) == 4, i;
    size_t length;
    right &= colour(1, -0.5f, 0.1f, 3, HORNHERDER_DONE, 256, -128, 25);
    right &= colour(0, -0.0f, -least_above_0, 3, HORNHERDER_DONE, 0, 0, -1);
    right &= colour(-128, least_above_0, below_128, 3, HORNHERDER_DONE, HORNHERDER_MIN_COORDINATE, 0, HORNHERDER_MAX_COORDINATE);
    right &= grey(below_128, 3, HORNHERDER_DONE, 32767) && grey(-128, 3, HORNHERDER_DONE, -32768);
    right &= grey(-0.0f, 3, HORNHERDER_DONE, 0) && grey(-least_above_0, 3, HORNHERDER_DONE, -1);
    right &= nothing(3, HORNHERDER_DONE);
    for (i = 0; i < 6; i++)
        right &= refused(bad[i]);
    for (length = 0; length <= PLACES; length++)
        if (length != 3)
            right &= colour(1, 1, 1, length, HORNHERDER_POINTS_LENGTH, 0, 0, 0) && grey(1, length, HORNHERDER_POINTS_LENGTH, 0) &&
                     nothing(length, HORNHERDER_POINTS_LENGTH);
    puts(right ? "right" : "wrong");
    return 0;
}
