/* Makes a point of every float as a grey, and compares it with what wide floats say: 256 times a float is exact there, and so is its floor. */
#include <inttypes.h>
#include <math.h>
#include <stdio.h>
#include <string.h>

#include "hornherder.h"

/* How many floats were done, refused and different. */
typedef struct {
    uint64_t done, refused, different;
} counts;

/* How many of those that are different are named. */
enum { NAMED = 10 };

/* The float that has these bits. */
static float float_of(uint32_t bits)
{
    float value;
    memcpy(&value, &bits, sizeof value);
    return value;
}

/* 1 where the answer and the places are what the wide rule says of this value. */
static int is_right(float value, hornherder_making answer, const int32_t *place, const int32_t *before)
{
    const double wide = value;
    if (wide >= -128.0 && wide < 128.0)
        return answer.code == HORNHERDER_DONE && answer.made == 1 && place[0] == (int32_t)floor(256.0 * wide) && place[1] == 0 &&
               place[2] == 0;
    return answer.code == HORNHERDER_VALUE_RANGE && answer.made == 0 && memcmp(place, before, 3 * sizeof *place) == 0;
}

/* Makes the point of the float that has these bits, and counts what came of it. */
static void count(uint32_t bits, counts *all)
{
    const int32_t before[3] = {70000, 70001, 70002};
    int32_t place[3] = {70000, 70001, 70002};
    const float value = float_of(bits);
    const hornherder_making answer = hornherder_point_from_grey(value, place, 3);
    if (answer.code == HORNHERDER_DONE)
        all->done++;
    else
        all->refused++;
    if (is_right(value, answer, place, before))
        return;
    if (all->different++ < NAMED)
        printf("bits %08" PRIx32 ": code %" PRIu32 ", made %" PRIu32 ", point %" PRId32 " %" PRId32 " %" PRId32 "\n", bits, answer.code,
               answer.made, place[0], place[1], place[2]);
}

int main(void)
{
    counts all = {0, 0, 0};
    uint32_t bits = 0;
    if (hornherder_version() != HORNHERDER_VERSION) {
        puts("the library is of another version");
        return 1;
    }
    do
        count(bits, &all);
    while (++bits != 0);
    printf("%" PRIu64 " floats: %" PRIu64 " done, %" PRIu64 " refused, %" PRIu64 " different\n", all.done + all.refused, all.done,
           all.refused, all.different);
    return all.different != 0;
}
