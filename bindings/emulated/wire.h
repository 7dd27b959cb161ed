/*
 * What goes over the pipes between forward.c and serve.c: a request, the bytes of each buffer in turn; back comes
 * an answer and the bytes of each buffer as the call left them.
 */
#ifndef WIRE_H
#define WIRE_H

#include "../c/hornherder.h"

/* The calls. */
enum {
    WIRE_ARRANGE,
    WIRE_TAKE,
    WIRE_WITHDRAW,
    WIRE_LIST,
    WIRE_LIST_REGIONS,
    WIRE_SCREEN,
    WIRE_EXPLAIN,
    WIRE_PLACE,
    WIRE_POINT_FROM_COLOUR,
    WIRE_POINT_FROM_GREY,
    WIRE_POINT_FROM_NOTHING,
    WIRE_VERSION
};

/* The buffers. A call that has no such buffer lends it as NULL and 0; calls for one point have it, or its place, in the first, but for
   take, which has all points there. */
enum {
    WIRE_POINTS,
    WIRE_LIVE,
    WIRE_ORDER,
    WIRE_NORMALS,
    WIRE_OFFSETS,
    WIRE_MARKS,
    WIRE_LIST_BUFFER,
    WIRE_FACE_COUNTS,
    WIRE_COUNTS_BUFFER,
    WIRE_NEW_POINT,
    WIRE_BUFFERS
};

/* The most bytes that a buffer may have here: enough for all that the library accepts, 64 full lists among it, and some more. */
#define WIRE_ROOM ((size_t)24 << 20)

typedef struct {
    uint64_t call, k, n, h;        /* of several regions their count stands for h */
    uint64_t length[WIRE_BUFFERS]; /* elements */
    uint64_t null[WIRE_BUFFERS];   /* 1 where the pointer was NULL */
    float value[3];                /* of a reading, those it has first */
    uint32_t number;               /* of the point that is asked about or withdrawn, else 0; so no byte is left unset */
} wire_request;

/* The answer of a call; the code alone where that is a number. The listing comes first: it has every byte, so clearing it clears all. */
typedef union {
    hornherder_listing listing;
    hornherder_screening screening;
    hornherder_explaining explaining;
    hornherder_placing placing;
    hornherder_making making;
    hornherder_arranging arranging;
    hornherder_taking taking;
    uint32_t code;
} wire_answer;

/* The bytes of one element of a buffer. */
static inline size_t wire_width(int buffer)
{
    switch (buffer) {
    case WIRE_OFFSETS:
        return sizeof(int64_t);
    case WIRE_LIVE:
    case WIRE_MARKS:
        return sizeof(uint8_t);
    default:
        return sizeof(int32_t);
    }
}

#endif
