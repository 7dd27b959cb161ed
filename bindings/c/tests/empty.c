/* Makes every call with NULL and length 0 wherever they can stand, and prints 'right' where all answers are. */
#include <stdio.h>

#include "hornherder.h"

/* The live bytes of one number. */
static const uint8_t live[1] = {HORNHERDER_LIVE};

/* 1 where an arranging of no places is done and they already are the shelf, or is this refusal. */
static int arranges(hornherder_arranging answer, uint32_t code)
{
    return answer.code == code && answer.already == (code == HORNHERDER_DONE);
}

/* 1 where a listing has this code and zeros. */
static int is(hornherder_listing answer, uint32_t code)
{
    return answer.code == code && answer.inside == 0 && answer.outside == 0 && answer.visits == 0;
}

/* 1 where a screening has this code and zeros. */
static int finds_nothing(hornherder_screening answer, uint32_t code)
{
    return answer.code == code && answer.found == 0 && answer.number == 0 && answer.visits == 0;
}

/* 1 where an explaining is this refusal. */
static int explains_nothing(hornherder_explaining answer, uint32_t code)
{
    return answer.code == code && answer.reason == 0 && answer.face == 0 && answer.slot == 0 && answer.margin == 0;
}

/* What several regions with no faces answer, with so many places for counts, which are NULL where there are none. */
static uint32_t regions_of(size_t k, size_t n, size_t regions, const int32_t *points, size_t count_places)
{
    const uint32_t none[2] = {0, 0};
    uint32_t counts[6] = {7, 7, 7, 7, 7, 7};
    return hornherder_list_regions(k, n, regions, points, k * n, n ? live : NULL, n, NULL, 0, regions ? none : NULL, regions, NULL, 0, NULL, 0,
                                   NULL, 0, NULL, 0, count_places ? counts : NULL, count_places);
}

/* 1 where a placing has this code and this inside, and nothing is measured. */
static int not_measured(hornherder_placing answer, uint32_t code, uint8_t inside)
{
    return answer.code == code && answer.inside == inside && answer.measured == 0 && answer.face == 0 && answer.margin == 0;
}

/* 1 where a taking is this refusal. */
static int takes_nothing(hornherder_taking answer, uint32_t code)
{
    return answer.code == code && answer.number == 0;
}

/* 1 where the calls that live bytes came with answer right for numbers of which none is lent, or live bytes of which none is. */
static int live_right(size_t k, const int32_t *zero)
{
    int32_t point[HORNHERDER_MAX_DIMENSION] = {0, 0, 0, 0};
    return takes_nothing(hornherder_take(k, 0, NULL, 0, NULL, 0, zero, k), HORNHERDER_NONE_DEAD) &&
           takes_nothing(hornherder_take(k, 0, NULL, 0, NULL, 0, NULL, 0), HORNHERDER_POINTS_LENGTH) &&
           takes_nothing(hornherder_take(k, 1, point, k, NULL, 0, zero, k), HORNHERDER_LIVE_BYTES) &&
           hornherder_withdraw(0, 0, NULL, 0) == HORNHERDER_NOT_LIVE && hornherder_withdraw(1, 0, NULL, 0) == HORNHERDER_LIVE_BYTES &&
           arranges(hornherder_arrange(k, 1, zero, k, NULL, 0, NULL, 0), HORNHERDER_LIVE_BYTES);
}

/* 1 where one number that is dead asks for no place in an order or a list, whatever its coordinates. */
static int dead_right(size_t k)
{
    const int32_t any[HORNHERDER_MAX_DIMENSION] = {INT32_MIN, INT32_MAX, 32768, -32769};
    const uint8_t dead[1] = {HORNHERDER_DEAD};
    return arranges(hornherder_arrange(k, 1, any, k, dead, 1, NULL, 0), HORNHERDER_DONE) &&
           is(hornherder_list(k, 1, 0, any, k, dead, 1, NULL, 0, NULL, 0, NULL, 0, NULL, 0, NULL, 0), HORNHERDER_DONE) &&
           finds_nothing(hornherder_screen(k, 1, 0, any, k, dead, 1, NULL, 0, NULL, 0, NULL, 0, NULL, 0), HORNHERDER_DONE) &&
           explains_nothing(hornherder_explain(k, 1, 0, 0, any, k, dead, 1, NULL, 0, NULL, 0, NULL, 0, NULL, 0), HORNHERDER_NOT_LIVE);
}

/* 1 where a making is the refusal of places that are not three. */
static int not_three(hornherder_making answer)
{
    return answer.code == HORNHERDER_POINTS_LENGTH && answer.made == 0;
}

int main(void)
{
    const int32_t zero[HORNHERDER_MAX_DIMENSION] = {0, 0, 0, 0};
    const int64_t offset = 0;
    size_t k;
    int right = 1;
    for (k = HORNHERDER_MIN_DIMENSION; k <= HORNHERDER_MAX_DIMENSION; k++) {
        hornherder_placing inside = hornherder_place(k, 0, zero, k, NULL, 0, NULL, 0, NULL, 0);
        hornherder_placing none = hornherder_place(k, 0, NULL, 0, NULL, 0, NULL, 0, NULL, 0);
        hornherder_placing unmarked = hornherder_place(k, 1, zero, k, zero, k, &offset, 1, NULL, 0);
        right &= arranges(hornherder_arrange(k, 0, NULL, 0, NULL, 0, NULL, 0), HORNHERDER_DONE);
        right &= is(hornherder_list(k, 0, 0, NULL, 0, NULL, 0, NULL, 0, NULL, 0, NULL, 0, NULL, 0, NULL, 0), HORNHERDER_DONE);
        right &= finds_nothing(hornherder_screen(k, 0, 0, NULL, 0, NULL, 0, NULL, 0, NULL, 0, NULL, 0, NULL, 0), HORNHERDER_DONE);
        right &= explains_nothing(hornherder_explain(k, 0, 0, 0, NULL, 0, NULL, 0, NULL, 0, NULL, 0, NULL, 0, NULL, 0), HORNHERDER_NOT_LIVE);
        right &= regions_of(k, 0, 2, NULL, 6) == HORNHERDER_DONE && regions_of(k, 0, 0, NULL, 0) == HORNHERDER_REGION_COUNT;
        right &= regions_of(k, 0, 2, NULL, 0) == HORNHERDER_SHORT_BUFFER && regions_of(k, 1, 2, zero, 6) == HORNHERDER_SHORT_BUFFER;
        right &= not_measured(inside, HORNHERDER_DONE, 1);
        right &= not_measured(none, HORNHERDER_POINTS_LENGTH, 0);
        right &= arranges(hornherder_arrange(k, 1, zero, k, live, 1, NULL, 0), HORNHERDER_SHORT_BUFFER);
        right &= arranges(hornherder_arrange(k, 1, NULL, 0, live, 1, NULL, 0), HORNHERDER_POINTS_LENGTH);
        right &= is(hornherder_list(k, 0, 1, NULL, 0, NULL, 0, NULL, 0, NULL, 0, NULL, 0, NULL, 0, NULL, 0), HORNHERDER_FACES_LENGTH);
        right &= finds_nothing(hornherder_screen(k, 1, 0, zero, k, live, 1, NULL, 0, NULL, 0, NULL, 0, NULL, 0), HORNHERDER_SHORT_BUFFER);
        right &= finds_nothing(hornherder_screen(k, 0, 1, NULL, 0, NULL, 0, NULL, 0, NULL, 0, NULL, 0, NULL, 0), HORNHERDER_FACES_LENGTH);
        right &= explains_nothing(hornherder_explain(k, 1, 0, 0, zero, k, live, 1, NULL, 0, NULL, 0, NULL, 0, NULL, 0), HORNHERDER_SHORT_BUFFER);
        right &= explains_nothing(hornherder_explain(k, 0, 1, 0, NULL, 0, NULL, 0, NULL, 0, NULL, 0, NULL, 0, NULL, 0), HORNHERDER_FACES_LENGTH);
        right &= is(hornherder_list(k, 0, 1, NULL, 0, NULL, 0, NULL, 0, zero, k, &offset, 1, NULL, 0, NULL, 0), HORNHERDER_MARKS);
        right &= finds_nothing(hornherder_screen(k, 0, 1, NULL, 0, NULL, 0, NULL, 0, zero, k, &offset, 1, NULL, 0), HORNHERDER_MARKS);
        right &= explains_nothing(hornherder_explain(k, 0, 1, 0, NULL, 0, NULL, 0, NULL, 0, zero, k, &offset, 1, NULL, 0), HORNHERDER_MARKS);
        right &= not_measured(unmarked, HORNHERDER_MARKS, 0);
        right &= live_right(k, zero) && dead_right(k);
    }
    right &= not_three(hornherder_point_from_colour(0, 0, 0, NULL, 0)) && not_three(hornherder_point_from_grey(0, NULL, 0));
    right &= not_three(hornherder_point_from_nothing(NULL, 0));
    puts(right ? "right" : "wrong");
    return 0;
}
