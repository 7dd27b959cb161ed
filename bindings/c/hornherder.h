/*
 * Hornherder for C and C++: points of whole numbers on a shelf, arranged as a k-d tree.
 *
 *   hornherder_arrange   arranges points as a shelf, and says whether the order already was it
 *   hornherder_take      puts a point on the lowest number that is free
 *   hornherder_withdraw  frees a number
 *   hornherder_list      lists the points inside and outside a region, by way of the shelf
 *   hornherder_list_regions
 *                        does so for each of several regions, and checks the order once for all
 *   hornherder_screen    says whether any point is inside a region, and which is the first
 *   hornherder_explain   says why a point is inside a region or outside
 *   hornherder_place     tests one point against a region, and says by how much
 *   hornherder_point_from_colour, hornherder_point_from_grey and hornherder_point_from_nothing
 *                        make a point of what the renderer measured
 *   hornherder_version   says to which version of this file the library belongs
 *
 * Points. A point is k whole numbers. The n points are numbered 0 to n - 1 and lent one after the
 * other: coordinate s of point p is points[p * k + s].
 *
 * Live bytes. Number p is live where live[p] is 1 and dead where it is 0; v is how many are live. A
 * dead one is free to be taken. Nothing depends on the coordinates of a dead number, which may be any
 * 32-bit numbers: the points of a shelf are those of its live numbers. A stock from which nothing was
 * withdrawn has n ones, and v is n.
 *
 * The shelf. Slot i of the order holds the number of a point, for i from 0 to v - 1. A run of c
 * slots that starts at slot a has its node at slot a + c / 2; the slots before the node are its left
 * branch, those after it its right branch. The node at depth j (the root's is 0) splits on
 * coordinate j % k: every point of the left branch comes before it and every point of the right
 * branch after it, by that coordinate and, where two are equal, by number. Points and ties leave
 * exactly one such order of the v live numbers.
 *
 * The region. It is cut by h faces. Face f has the normal normals[f * k] to normals[f * k + k - 1],
 * the offset offsets[f] and the mark marks[f], 0 for a closed face and 1 for an open one. A point x
 * is above a closed face when the sum over s of normals[f * k + s] * x[s] is at least offsets[f],
 * above an open one when that sum is strictly greater; so a point on a face is above it exactly
 * where the face is closed. A point is inside when it is above every face, else outside. With no
 * faces every point is inside. A normal of all zeros is allowed.
 *
 * Margins. The margin of a point to a face is that sum less offsets[f]. Negative is below the face;
 * zero is on it, which is above a closed face and below an open one; positive is above. It is not a
 * length: a normal and an offset that are twice as large give twice the margin.
 *
 * Regions side by side. Give one of them the face between them closed, and the other the same face
 * open, with its normal and its offset negated: every point is then above exactly one of the two.
 *
 * Readings. What the renderer measured is a colour of three floats, a grey of one, or nothing. A
 * value v from -128 up to but not including 128 becomes the greatest whole number not above 256
 * times v, exactly: negative zero gives 0, and the negative float nearest zero gives -1. A colour
 * gives the point of its three numbers, a grey that of its number, then 0, 0; nothing measured gives
 * no point. The points made have k = 3 and are never refused for a coordinate. The thread that calls
 * must have the float environment that C starts with: in one that takes subnormal floats for zero,
 * as a renderer may ask of the processor, negative ones may give 0 in place of -1.
 *
 * Buffers. Each buffer is lent as a pointer and a length, which counts elements, not bytes. The
 * pointer may be NULL exactly where the length is 0. It must be aligned for its type, as every
 * array in C is. The buffers of one call must not overlap. Buffers behind a pointer to const are
 * not written. An order or a list buffer may be longer than v: its places from v on are neither
 * read nor written; for several regions a list buffer may be longer than v places for each, and a
 * counts buffer than three. So n places, for several regions n for each, are always enough. The
 * calls allocate nothing, and keep
 * nothing once they have returned.
 *
 * Refusals. A call that cannot be done returns one of the numbers below. Each call names those that
 * it may return in the order of its tests, makes all the tests before its first write, and returns
 * the first that holds. A refused call changes no lent number, and every other number in its answer
 * is 0. Apart from the rules on floats and buffers above there is nothing that a caller must see to:
 * any k, n, h, region count, values, lengths and lent numbers get the answer promised here.
 * hornherder_refusal_text says what a number means.
 *
 * Threads. The library has no state. Any number of threads may call at once, as long as nobody
 * writes a buffer while it is lent, and nobody reads one while it is lent to be written.
 *
 * Stack. A call needs less than HORNHERDER_STACK_BYTES of stack, whatever its arguments.
 *
 * Cost. A list call checks the order first, which costs what hornherder_arrange does where the order
 * is the shelf already. On 65,535 points with 8 faces that is about seven tenths of the call on x86-64
 * and four fifths on Arm; on small shelves less. A screen checks the order too, and does no more than
 * a list call: where one of the first slots is inside, it is little more than that check. An explain
 * call goes one way down from the root, so it is little more than that check for every point. Several
 * regions in one call share one check: each costs the walk alone.
 *
 * Machine. The library is compiled for x86-64 Linux or for Arm (aarch64) Linux, with the calling
 * convention that C compilers use there. Of the C library it needs at most memcpy, memmove and
 * memset. What is proved is proved of one module, which the toolchain's compiler (LLVM) turns into
 * code: for x86-64 by its x86-64 back end, for Arm by its Arm one. Neither back end is proved; both
 * are assumed to give code that does what the module says, and so alike.
 */
#ifndef HORNHERDER_H
#define HORNHERDER_H

#include <stddef.h>
#include <stdint.h>

#ifdef __cplusplus
extern "C" {
#endif

/*
 * The version of this file and of the library that it belongs to, which hornherder_version answers
 * and the shared library has behind its name. It rises by one with each change of a name, a layout
 * or the meaning of a number.
 */
#define HORNHERDER_VERSION 10

/* k, how many coordinates a point has. */
#define HORNHERDER_MIN_DIMENSION 1
#define HORNHERDER_MAX_DIMENSION 4

/* n, how many numbers there are, live or dead; there may be none. */
#define HORNHERDER_MAX_POINTS 65535

/* A live byte: whether a number is free, or has a point. */
#define HORNHERDER_DEAD 0
#define HORNHERDER_LIVE 1

/* A coordinate. */
#define HORNHERDER_MIN_COORDINATE (-32768)
#define HORNHERDER_MAX_COORDINATE 32767

/* h, how many faces a region has; there may be none. */
#define HORNHERDER_MAX_FACES 32

/* How many regions hornherder_list_regions takes. */
#define HORNHERDER_MIN_REGIONS 1
#define HORNHERDER_MAX_REGIONS 64

/* A component of a normal. Its least is one more than that of a coordinate. */
#define HORNHERDER_MIN_COMPONENT (-32767)
#define HORNHERDER_MAX_COMPONENT 32767

/* An offset. */
#define HORNHERDER_MIN_OFFSET (-INT64_C(8589934592))
#define HORNHERDER_MAX_OFFSET INT64_C(8589934592)

/* A margin, which is answered and never lent: in four dimensions both ends are attained. */
#define HORNHERDER_MIN_MARGIN (-INT64_C(12884770816))
#define HORNHERDER_MAX_MARGIN INT64_C(12884770816)

/* A mark: whether a face is closed or open. */
#define HORNHERDER_CLOSED_FACE 0
#define HORNHERDER_OPEN_FACE 1

/* A reason: why a point is inside or outside, see hornherder_explain. */
#define HORNHERDER_INSIDE_WITH_BRANCH 1
#define HORNHERDER_INSIDE_BY_ITSELF 2
#define HORNHERDER_OUTSIDE_WITH_BRANCH 3
#define HORNHERDER_OUTSIDE_BY_ITSELF 4

/* The stack that is enough for any call, in bytes. */
#define HORNHERDER_STACK_BYTES 32768

/* The numbers that calls return; hornherder_refusal_text says what each means. */
#define HORNHERDER_DONE 0u
#define HORNHERDER_DIMENSION 1u
#define HORNHERDER_TOO_MANY_POINTS 2u
#define HORNHERDER_POINTS_LENGTH 3u
#define HORNHERDER_SHORT_BUFFER 4u
#define HORNHERDER_COORDINATE_RANGE 5u
#define HORNHERDER_TOO_MANY_FACES 6u
#define HORNHERDER_FACES_LENGTH 7u
#define HORNHERDER_FACE_RANGE 8u
#define HORNHERDER_NOT_THE_TREE 9u
#define HORNHERDER_MARKS 11u
#define HORNHERDER_VALUE_RANGE 12u
#define HORNHERDER_REGION_COUNT 14u
#define HORNHERDER_LIVE_BYTES 15u
#define HORNHERDER_NONE_DEAD 16u
#define HORNHERDER_NOT_LIVE 17u

/* When a call returns this number, and the likely cause. */
static inline const char *hornherder_refusal_text(uint32_t number)
{
    switch (number) {
    case HORNHERDER_DONE:
        return "done";
    case HORNHERDER_DIMENSION:
        return "k is not 1 to 4; likely: points of more than four coordinates (in a text 5 to 9)";
    case HORNHERDER_TOO_MANY_POINTS:
        return "n is over 65,535; likely: a stock for several shelves";
    case HORNHERDER_POINTS_LENGTH:
        return "the points are not k times n long (one point: not k; a place for a point: not 3); "
               "likely: n counted in coordinates, or a k of another shelf";
    case HORNHERDER_SHORT_BUFFER:
        return "the order or the list buffer is shorter than v, the count of live numbers "
               "(several regions: the list buffer than v for each, or the counts than 3 for each); "
               "likely: a buffer of an older, smaller shelf";
    case HORNHERDER_COORDINATE_RANGE:
        return "a coordinate is not -32,768 to 32,767 (dead numbers aside); "
               "likely: colours on another scale";
    case HORNHERDER_TOO_MANY_FACES:
        return "h is over 32; "
               "likely: faces that cut nothing off (in a text 33 to 64 faces)";
    case HORNHERDER_FACES_LENGTH:
        return "the normals are not k times h long, or the offsets not h "
               "(several regions: h of all together); "
               "likely: a face too many in one of the two, or faces of another dimension";
    case HORNHERDER_FACE_RANGE:
        return "a component is not -32,767 to 32,767, "
               "or an offset not -8,589,934,592 to 8,589,934,592; "
               "likely: a normal scaled too far, or an offset in a component's place";
    case HORNHERDER_NOT_THE_TREE:
        return "the first v slots are not the tree of the live points; "
               "likely: points taken or withdrawn, or an order of another shelf: arrange again";
    case HORNHERDER_MARKS:
        return "the marks are not h long (several regions: h of all together), "
               "or a mark is not 0 or 1; "
               "likely: closed faces left without a mark, or marks never set";
    case HORNHERDER_VALUE_RANGE:
        return "a value is not finite, or not from -128 up to but not including 128; "
               "likely: a pixel that was never rendered, or values on a scale of 0 to 255";
    case HORNHERDER_REGION_COUNT:
        return "the region count is not 1 to 64, or the face counts are not as many; "
               "likely: no region at all, or more than one call takes";
    case HORNHERDER_LIVE_BYTES:
        return "the live bytes are not n long, or one is not 0 or 1; "
               "likely: bytes for the live numbers alone, or bytes never set";
    case HORNHERDER_NONE_DEAD:
        return "all n numbers are live; "
               "likely: a stock that has outgrown its n";
    case HORNHERDER_NOT_LIVE:
        return "the number is dead, or n or more; "
               "likely: a picture withdrawn before, or numbers counted from 1";
    default:
        return "no number of this version";
    }
}

/* What hornherder_arrange answers. */
typedef struct {
    uint32_t code;    /* HORNHERDER_DONE, or the refusal */
    uint32_t already; /* 1: the order was the shelf before; 0: it was not, or the call was refused */
} hornherder_arranging;

/* What hornherder_take answers. */
typedef struct {
    uint32_t code;   /* HORNHERDER_DONE, or the refusal */
    uint32_t number; /* the number that the point has now; 0 where refused */
} hornherder_taking;

/* What hornherder_list answers. */
typedef struct {
    uint32_t code;    /* HORNHERDER_DONE, or the refusal */
    uint32_t inside;  /* how many points are inside */
    uint32_t outside; /* how many are outside; where done, inside + outside is v */
    uint32_t visits;  /* how many slots are open, see hornherder_list */
} hornherder_listing;

/* What hornherder_screen answers. */
typedef struct {
    uint32_t code;   /* HORNHERDER_DONE, or the refusal */
    uint32_t found;  /* 1: a point is inside; 0: none is, or the call was refused */
    uint32_t number; /* the first point inside, in shelf order; 0 where none is found */
    uint32_t visits; /* how many slots up to that one are open, see hornherder_screen */
} hornherder_screening;

/* What hornherder_explain answers. */
typedef struct {
    uint32_t code;  /* HORNHERDER_DONE, or the refusal */
    uint8_t reason; /* one of the four above, 1 and 2 inside, 3 and 4 outside; 0 where refused */
    uint8_t face;   /* outside, the face that the point is below; 0 where inside or refused */
    uint16_t slot;  /* with a branch, the slot of its node; by itself, the point's own */
    int64_t margin; /* outside, the point's margin to that face, at most 0; else 0 */
} hornherder_explaining;

/* What hornherder_place answers. */
typedef struct {
    uint32_t code;    /* HORNHERDER_DONE, or the refusal */
    uint8_t inside;   /* 1: the point is inside; 0: it is outside, or the call was refused */
    uint8_t measured; /* 1: there are faces; 0: there are none, or the call was refused */
    uint16_t face;    /* the lowest-numbered face with the least margin; 0 where not measured */
    int64_t margin;   /* the point's least margin over all faces; 0 where not measured */
} hornherder_placing;

/* What the calls that make a point answer. */
typedef struct {
    uint32_t code; /* HORNHERDER_DONE, or the refusal */
    uint32_t made; /* 1: a point was written; 0: nothing was measured, or the call was refused */
} hornherder_making;

/*
 * Arranges the points: afterwards order[0] to order[v - 1] are their shelf, whatever they held before.
 * Already says whether they were it before; where they were, nothing is written.
 *
 *   points   k * n coordinates, those of live numbers each -32,768 to 32,767
 *   live     n live bytes, each 0 (dead) or 1 (live)
 *   order    at least v places, which may hold any numbers; the first v are written unless they are
 *            the shelf already
 *
 * An order that is the shelf costs one check. Any other costs what it takes to find it wrong, which
 * is mostly soon, and the arranging.
 *
 * Answers HORNHERDER_DONE with already, or a refusal, 1, 2, 3, then 15, then 4, 5, with 0. A wrong
 * order is no refusal here; the calls that need the shelf and may not write it refuse it with 9.
 */
hornherder_arranging hornherder_arrange(size_t k, size_t n, const int32_t *points,
                                        size_t points_len, const uint8_t *live, size_t live_len,
                                        uint32_t *order, size_t order_len);

/*
 * Takes a point in: writes it at the lowest dead number and sets that number's live byte. So numbers
 * that were freed are used first, and there is room unless all n are live.
 *
 *   points   k * n coordinates, those of live numbers each -32,768 to 32,767; the k coordinates of
 *            the number taken are written, and no others
 *   live     n live bytes, each 0 (dead) or 1 (live); that of the number taken is set, and no other
 *   point    k coordinates, each -32,768 to 32,767
 *
 * The order is not asked for. One of before is still the shelf only where the new number stands in it
 * already, as where it is taken again right after it was withdrawn; hornherder_arrange sees to it.
 *
 * Answers HORNHERDER_DONE with the number taken, or a refusal, 1, 2, 3, then 15, then 5, then 16,
 * with 0. 3 and 5 are asked of the new point too. Number 0 may be the one that is taken: ask the code.
 */
hornherder_taking hornherder_take(size_t k, size_t n, int32_t *points, size_t points_len,
                                  uint8_t *live, size_t live_len, const int32_t *point,
                                  size_t point_len);

/*
 * Withdraws a point: clears the live byte of its number, which can then be taken again.
 *
 *   number   a number that is live
 *   live     n live bytes, each 0 (dead) or 1 (live); that of the number is cleared, and no other
 *
 * Neither points nor order are asked for, and the coordinates stay as they are. An order that was the
 * shelf before can still be that of the points that are live now only where the number stood in the
 * last slot, and with k = 1 it always is then; hornherder_arrange sees to it.
 *
 * Returns HORNHERDER_DONE, or a refusal: 2, then 15, then 17.
 */
uint32_t hornherder_withdraw(size_t n, uint32_t number, uint8_t *live, size_t live_len);

/*
 * Lists the points of a shelf that are inside and outside a region. The order is checked first.
 *
 *   points   k * n coordinates, those of live numbers each -32,768 to 32,767
 *   live     n live bytes, each 0 (dead) or 1 (live)
 *   order    at least v places; the first v must be the shelf of these points
 *   normals  k * h components, each -32,767 to 32,767
 *   offsets  h offsets, each -8,589,934,592 to 8,589,934,592
 *   marks    h marks, each 0 (closed) or 1 (open)
 *   list     at least v places, to be written
 *
 * Where it is done, list[0] to list[v - 1] hold each live number once: those inside from the front,
 * in shelf order; those outside from place v - 1 backwards, so that the first of them in shelf order
 * stands at place v - 1. The counts say v: it is inside + outside. These loops read both in shelf
 * order:
 *
 *     for (uint32_t i = 0; i < answer.inside; i++)
 *         show(list[i]);
 *     for (uint32_t i = 0; i < answer.outside; i++)
 *         leave(list[answer.inside + answer.outside - 1 - i]);
 *
 * The visits say what the answer cost: how many slots are open. A slot is open unless the box of
 * the branch whose node it holds lies wholly below at least one face, or wholly above all of them.
 * A box lies wholly above a face when all its corners are above the face, and wholly below when
 * none is. The box of the root has in each dimension the least and the greatest coordinate of all
 * points. On the dimension that a node splits on, the box of its left branch has the node's
 * coordinate as the greatest, that of its right branch as the least; else they are as the box of
 * the node's branch.
 *
 * The visits are at most the sum of the visits of each face taken as a region alone. A face is
 * square when at most one component of its normal is not zero. Where all faces are square, the
 * visits are at most h times S(v, k): the sum over j = 0 to H - 1 of 2 to the power (j - j / k),
 * with j / k rounded down and H the number of binary digits of v. S(65535, k) is 16, 765, 3411 and
 * 8775 for k = 1 to 4.
 *
 * Answers HORNHERDER_DONE with the three counts, or a refusal, 1, 2, 3, then 15, then 4 to 8, then
 * 11, then 9, with zeros.
 */
hornherder_listing hornherder_list(size_t k, size_t n, size_t h, const int32_t *points,
                                   size_t points_len, const uint8_t *live, size_t live_len,
                                   const uint32_t *order, size_t order_len,
                                   const int32_t *normals, size_t normals_len,
                                   const int64_t *offsets, size_t offsets_len,
                                   const uint8_t *marks, size_t marks_len, uint32_t *list,
                                   size_t list_len);

/*
 * Lists the points of a shelf that are inside and outside each of several regions. The order is
 * checked once, before the first region, where as many calls of hornherder_list check it each time.
 *
 *   regions      how many regions there are, 1 to 64
 *   points       k * n coordinates, those of live numbers each -32,768 to 32,767
 *   live         n live bytes, each 0 (dead) or 1 (live)
 *   order        at least v places; the first v must be the shelf of these points
 *   face_counts  for each region how many faces it has, 0 to 32: exactly as many numbers as regions
 *   normals      k components for each face of all regions, each -32,767 to 32,767
 *   offsets      an offset for each of them, each -8,589,934,592 to 8,589,934,592
 *   marks        a mark for each of them, each 0 (closed) or 1 (open)
 *   lists        at least v places for each region, to be written
 *   counts       at least three places for each region, to be written
 *
 * The faces stand end to end: those of region 0, then those of region 1, and so on. The h of the
 * lengths of normals, offsets and marks is that of all regions together.
 *
 * Where it is done, region r has its list in lists[r * v] to lists[r * v + v - 1], just as
 * hornherder_list, called with its faces alone, writes it to list[0] to list[v - 1]; and its counts,
 * as that call answers them, in counts[3 * r] (inside), counts[3 * r + 1] (outside) and
 * counts[3 * r + 2] (visits). Each list starts where the one before it ends, so it is v, not n, that
 * tells the place; v is counts[0] + counts[1]. Later places of both buffers stay as they were. These
 * loops read both lists of region r in shelf order:
 *
 *     for (uint32_t i = 0; i < counts[3 * r]; i++)
 *         show(lists[r * v + i]);
 *     for (uint32_t i = 0; i < counts[3 * r + 1]; i++)
 *         leave(lists[r * v + v - 1 - i]);
 *
 * Returns HORNHERDER_DONE, or a refusal: 1, 2, 3, then 15, then 14, then 4 to 8, then 11, then 9. One
 * region with a fault refuses the whole call, and neither buffer is written. 6 is for a region with
 * over 32 faces, whatever the others have.
 */
uint32_t hornherder_list_regions(size_t k, size_t n, size_t regions, const int32_t *points,
                                 size_t points_len, const uint8_t *live, size_t live_len,
                                 const uint32_t *order, size_t order_len,
                                 const uint32_t *face_counts, size_t face_counts_len,
                                 const int32_t *normals, size_t normals_len,
                                 const int64_t *offsets, size_t offsets_len,
                                 const uint8_t *marks, size_t marks_len, uint32_t *lists,
                                 size_t lists_len, uint32_t *counts, size_t counts_len);

/*
 * Says whether any point of a shelf is inside a region, and which is the first in shelf order. It
 * stops as soon as it has one, and writes nothing. The order is checked first.
 *
 *   points   k * n coordinates, those of live numbers each -32,768 to 32,767
 *   live     n live bytes, each 0 (dead) or 1 (live)
 *   order    at least v places; the first v must be the shelf of these points
 *   normals  k * h components, each -32,767 to 32,767
 *   offsets  h offsets, each -8,589,934,592 to 8,589,934,592
 *   marks    h marks, each 0 (closed) or 1 (open)
 *
 * Found is 1 exactly where hornherder_list, called with the same, counts a point inside, and the
 * number is then its list[0]. Point 0 may be the one that is found: ask found, and not the number.
 *
 * The visits are the open slots, as hornherder_list says, among those up to and including the found
 * one; all open slots where none is found. They are counted by slot: a node to the right of the
 * found slot is not counted, though the way to that slot may lead through it.
 *
 * Answers HORNHERDER_DONE with found, number and visits, or a refusal, 1, 2, 3, then 15, then 4 to 8,
 * then 11, then 9, with zeros.
 */
hornherder_screening hornherder_screen(size_t k, size_t n, size_t h, const int32_t *points,
                                       size_t points_len, const uint8_t *live, size_t live_len,
                                       const uint32_t *order, size_t order_len,
                                       const int32_t *normals, size_t normals_len,
                                       const int64_t *offsets, size_t offsets_len,
                                       const uint8_t *marks, size_t marks_len);

/*
 * Says why a point of a shelf is inside a region or outside: settled with a whole branch, or by its
 * own test. It goes one way down from the root to the point, and writes nothing. The order is
 * checked first.
 *
 *   number   the number of the point, which must be live
 *   points   k * n coordinates, those of live numbers each -32,768 to 32,767
 *   live     n live bytes, each 0 (dead) or 1 (live)
 *   order    at least v places; the first v must be the shelf of these points
 *   normals  k * h components, each -32,767 to 32,767
 *   offsets  h offsets, each -8,589,934,592 to 8,589,934,592
 *   marks    h marks, each 0 (closed) or 1 (open)
 *
 * A branch holds the points in all its slots, its node's among them; the root's is the whole shelf.
 * It is settled unless the slot of its node is open, as hornherder_list says: its box lies wholly
 * below at least one face, or wholly above all of them. Of the settled branches that hold the point
 * the one nearest the root is the reason, though it may have one slot alone; where there is none,
 * the point's own test is:
 *
 *   HORNHERDER_INSIDE_WITH_BRANCH    the branch's box lies wholly above all faces
 *   HORNHERDER_INSIDE_BY_ITSELF      the point is above every face
 *   HORNHERDER_OUTSIDE_WITH_BRANCH   the branch's box lies wholly below a face
 *   HORNHERDER_OUTSIDE_BY_ITSELF     the point is below a face
 *
 * With a branch the slot is that of its node, by itself that of the point. Outside, the face is the
 * lowest-numbered one that the box lies wholly below, or that the point is below. The margin is the
 * point's to that face in both cases: negative, or 0 where the point lies on it and it is open.
 * hornherder_place, which looks for the least margin, may name another face. Inside, face and margin
 * are 0; outside they may be too, so ask the reason. With no faces every point is inside with the
 * branch of the root, whose node has slot v / 2.
 *
 * The point is inside exactly where hornherder_list, called with the same, lists its number inside.
 * The reason is the point by itself exactly where its own slot is open, and so one of the visits.
 *
 * Answers HORNHERDER_DONE with reason, face, slot and margin, or a refusal, 1, 2, 3, then 15, then 4
 * to 8, then 11, then 9, then 17, with zeros. With a wrong order it is 9, also for a number that is
 * dead, or n or more.
 */
hornherder_explaining hornherder_explain(size_t k, size_t n, size_t h, uint32_t number,
                                         const int32_t *points, size_t points_len,
                                         const uint8_t *live, size_t live_len,
                                         const uint32_t *order, size_t order_len,
                                         const int32_t *normals, size_t normals_len,
                                         const int64_t *offsets, size_t offsets_len,
                                         const uint8_t *marks, size_t marks_len);

/*
 * Tests one point against a region, and says by how much it is inside or outside: its least margin
 * over all faces, with the lowest-numbered face that has it.
 *
 *   point    k coordinates, each -32,768 to 32,767
 *   normals  k * h components, each -32,767 to 32,767
 *   offsets  h offsets, each -8,589,934,592 to 8,589,934,592
 *   marks    h marks, each 0 (closed) or 1 (open)
 *
 * The least is the least number, whatever the marks. A negative margin says outside, and a positive
 * one inside. At 0 the marks decide, and not that of the named face alone: a point on closed face 0
 * and on open face 1 is outside, with margin 0 at face 0. So ask inside, and not the margin. Face 0
 * and margin 0 are answers like others: ask measured whether there are any.
 *
 * Answers HORNHERDER_DONE with inside, measured, face and margin, or a refusal, 1, 3, 5 to 8, then
 * 11, with zeros.
 */
hornherder_placing hornherder_place(size_t k, size_t h, const int32_t *point, size_t point_len,
                                    const int32_t *normals, size_t normals_len,
                                    const int64_t *offsets, size_t offsets_len,
                                    const uint8_t *marks, size_t marks_len);

/*
 * Makes a point of a colour: writes the numbers of its three values into place[0] to place[2].
 *
 *   place    exactly three places
 *
 * Answers HORNHERDER_DONE with made 1, or a refusal, 3, then 12, with made 0: where one value is
 * refused no place is written, be it the last.
 */
hornherder_making hornherder_point_from_colour(float first, float second, float third,
                                               int32_t *place, size_t place_len);

/*
 * Makes a point of a grey: writes the number of its value into place[0], and 0 into place[1] and
 * place[2].
 *
 *   place    exactly three places
 *
 * Answers HORNHERDER_DONE with made 1, or a refusal, 3, then 12, with made 0.
 */
hornherder_making hornherder_point_from_grey(float value, int32_t *place, size_t place_len);

/*
 * Makes no point, since nothing was measured, and writes nothing. So every reading has its call, and
 * made says whether there is a point.
 *
 *   place    exactly three places, which are left alone
 *
 * Answers HORNHERDER_DONE with made 0, or the refusal 3.
 */
hornherder_making hornherder_point_from_nothing(int32_t *place, size_t place_len);

/*
 * Answers the version of the library: HORNHERDER_VERSION where it belongs to this file. With any
 * other answer no other call may be made.
 */
uint32_t hornherder_version(void);

#ifdef __cplusplus
}
#endif

#endif
