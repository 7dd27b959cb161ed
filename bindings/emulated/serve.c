/*
 * The x86-64 side: reads requests from standard input, makes each call of the library, and writes what came of it to
 * standard output. It ends with its input, and badly where a call does what the header says that none does: each buffer is
 * lent so that it ends at a page which nobody may touch, and the stack beyond what a call may use is marked.
 */
#include "wire.h"

/* What is used of the C library, whose headers for x86-64 may not be on this machine. */
long read(int file, void *bytes, size_t count);
long write(int file, const void *bytes, size_t count);
void *mmap(void *at, size_t size, int may, int how, int file, long from);
int mprotect(void *at, size_t size, int may);
void _exit(int status) __attribute__((noreturn));

enum { PAGE = 4096, MAY_READ_AND_WRITE = 3, MAY_NOTHING = 0, PRIVATE_AND_EMPTY = 0x22 };
enum { STACK_MARKS = 4096, STACK_MARK = 0x5AE1F };

/* Just behind the last byte of each buffer. */
static unsigned char *ends[WIRE_BUFFERS];

/* The marks on the stack, beyond what a call may use. */
static volatile uint32_t *stack_marks;

/* Reads so many bytes, or ends: well where the input is over before the first, badly where it breaks off. */
static void take(void *bytes, size_t count, int may_end)
{
    size_t done = 0;
    while (done < count) {
        long more = read(0, (unsigned char *)bytes + done, count - done);
        if (more <= 0)
            _exit(may_end && more == 0 && done == 0 ? 0 : 1);
        done += (size_t)more;
    }
}

/* Writes so many bytes, or ends badly. */
static void give(const void *bytes, size_t count)
{
    size_t done = 0;
    while (done < count) {
        long more = write(1, (const unsigned char *)bytes + done, count - done);
        if (more <= 0)
            _exit(1);
        done += (size_t)more;
    }
}

/* Makes room for each buffer, with a page behind it that nobody may touch. */
static void make_room(void)
{
    for (int i = 0; i < WIRE_BUFFERS; i++) {
        unsigned char *room = (unsigned char *)mmap(NULL, WIRE_ROOM + PAGE, MAY_READ_AND_WRITE, PRIVATE_AND_EMPTY, -1, 0);
        if (room == (void *)-1 || mprotect(room + WIRE_ROOM, PAGE, MAY_NOTHING) != 0)
            _exit(1);
        ends[i] = room + WIRE_ROOM;
    }
}

/* Marks the stack just beyond what a call may use. Its frame lies where a call's frames will, and is gone by then. */
static void __attribute__((noinline)) mark_stack(void)
{
    volatile uint32_t frame[STACK_MARKS + HORNHERDER_STACK_BYTES / sizeof(uint32_t)];
    for (int i = 0; i < STACK_MARKS; i++)
        frame[i] = STACK_MARK;
    stack_marks = frame;
}

/* Ends badly where a mark is gone. */
static void look_at_stack(void)
{
    for (int i = 0; i < STACK_MARKS; i++)
        if (stack_marks[i] != STACK_MARK)
            _exit(1);
}

/* Makes the call of a request that makes a point of a reading, in this place. */
static hornherder_making make(const wire_request *r, int32_t *place)
{
    const float *v = r->value;
    const uint64_t length = r->length[WIRE_POINTS];
    switch (r->call) {
    case WIRE_POINT_FROM_COLOUR:
        return hornherder_point_from_colour(v[0], v[1], v[2], place, length);
    case WIRE_POINT_FROM_GREY:
        return hornherder_point_from_grey(v[0], place, length);
    default:
        return hornherder_point_from_nothing(place, length);
    }
}

/* Makes the call of a request that takes a point in or withdraws one, with these buffers. */
static wire_answer change(const wire_request *r, void **b)
{
    uint8_t *live = (uint8_t *)b[WIRE_LIVE];
    const uint64_t *length = r->length;
    wire_answer answer = {{0, 0, 0, 0}};
    if (r->call == WIRE_TAKE)
        answer.taking = hornherder_take(r->k, r->n, (int32_t *)b[WIRE_POINTS], length[WIRE_POINTS], live, length[WIRE_LIVE],
                                        (const int32_t *)b[WIRE_NEW_POINT], length[WIRE_NEW_POINT]);
    else
        answer.code = hornherder_withdraw(r->n, r->number, live, length[WIRE_LIVE]);
    return answer;
}

/* Makes the call of a request that has a region, with these buffers. */
static wire_answer ask(const wire_request *r, void **b)
{
    const int32_t *points = (const int32_t *)b[WIRE_POINTS], *normals = (const int32_t *)b[WIRE_NORMALS];
    const uint32_t *order = (const uint32_t *)b[WIRE_ORDER];
    const int64_t *offsets = (const int64_t *)b[WIRE_OFFSETS];
    const uint8_t *live = (const uint8_t *)b[WIRE_LIVE], *marks = (const uint8_t *)b[WIRE_MARKS];
    const uint64_t *length = r->length;
    wire_answer answer = {{0, 0, 0, 0}};
    switch (r->call) {
    case WIRE_LIST:
        answer.listing = hornherder_list(r->k, r->n, r->h, points, length[WIRE_POINTS], live, length[WIRE_LIVE], order,
                                         length[WIRE_ORDER], normals, length[WIRE_NORMALS], offsets, length[WIRE_OFFSETS], marks,
                                         length[WIRE_MARKS], (uint32_t *)b[WIRE_LIST_BUFFER], length[WIRE_LIST_BUFFER]);
        return answer;
    case WIRE_SCREEN:
        answer.screening = hornherder_screen(r->k, r->n, r->h, points, length[WIRE_POINTS], live, length[WIRE_LIVE], order,
                                             length[WIRE_ORDER], normals, length[WIRE_NORMALS], offsets, length[WIRE_OFFSETS], marks,
                                             length[WIRE_MARKS]);
        return answer;
    case WIRE_EXPLAIN:
        answer.explaining = hornherder_explain(r->k, r->n, r->h, r->number, points, length[WIRE_POINTS], live, length[WIRE_LIVE], order,
                                               length[WIRE_ORDER], normals, length[WIRE_NORMALS], offsets, length[WIRE_OFFSETS],
                                               marks, length[WIRE_MARKS]);
        return answer;
    default:
        answer.placing = hornherder_place(r->k, r->h, points, length[WIRE_POINTS], normals, length[WIRE_NORMALS], offsets,
                                          length[WIRE_OFFSETS], marks, length[WIRE_MARKS]);
        return answer;
    }
}

/* Makes the call of a request that has several regions, with these buffers. */
static wire_answer ask_all(const wire_request *r, void **b)
{
    const uint64_t *length = r->length;
    wire_answer answer = {{0, 0, 0, 0}};
    answer.code = hornherder_list_regions(
        r->k, r->n, r->h, (const int32_t *)b[WIRE_POINTS], length[WIRE_POINTS], (const uint8_t *)b[WIRE_LIVE], length[WIRE_LIVE],
        (const uint32_t *)b[WIRE_ORDER], length[WIRE_ORDER], (const uint32_t *)b[WIRE_FACE_COUNTS], length[WIRE_FACE_COUNTS],
        (const int32_t *)b[WIRE_NORMALS], length[WIRE_NORMALS],
        (const int64_t *)b[WIRE_OFFSETS], length[WIRE_OFFSETS], (const uint8_t *)b[WIRE_MARKS], length[WIRE_MARKS],
        (uint32_t *)b[WIRE_LIST_BUFFER], length[WIRE_LIST_BUFFER], (uint32_t *)b[WIRE_COUNTS_BUFFER], length[WIRE_COUNTS_BUFFER]);
    return answer;
}

/* Makes the call of a request with these buffers. */
static wire_answer call(const wire_request *r, void **b)
{
    const int32_t *points = (const int32_t *)b[WIRE_POINTS];
    const uint8_t *live = (const uint8_t *)b[WIRE_LIVE];
    uint32_t *order = (uint32_t *)b[WIRE_ORDER];
    const uint64_t *length = r->length;
    wire_answer answer = {{0, 0, 0, 0}};
    switch (r->call) {
    case WIRE_ARRANGE:
        answer.arranging =
            hornherder_arrange(r->k, r->n, points, length[WIRE_POINTS], live, length[WIRE_LIVE], order, length[WIRE_ORDER]);
        return answer;
    case WIRE_TAKE:
    case WIRE_WITHDRAW:
        return change(r, b);
    case WIRE_LIST:
    case WIRE_SCREEN:
    case WIRE_EXPLAIN:
    case WIRE_PLACE:
        return ask(r, b);
    case WIRE_LIST_REGIONS:
        return ask_all(r, b);
    case WIRE_POINT_FROM_COLOUR:
    case WIRE_POINT_FROM_GREY:
    case WIRE_POINT_FROM_NOTHING:
        answer.making = make(r, (int32_t *)b[WIRE_POINTS]);
        return answer;
    case WIRE_VERSION:
        answer.code = hornherder_version();
        return answer;
    }
    _exit(1);
}

int main(void)
{
    make_room();
    mark_stack();
    for (;;) {
        wire_request request;
        void *buffers[WIRE_BUFFERS];
        take(&request, sizeof request, 1);
        for (int i = 0; i < WIRE_BUFFERS; i++) {
            size_t size = request.length[i] * wire_width(i);
            buffers[i] = request.null[i] ? NULL : ends[i] - size;
            take(buffers[i], size, 0);
        }
        wire_answer answer = call(&request, buffers);
        look_at_stack();
        give(&answer, sizeof answer);
        for (int i = 0; i < WIRE_BUFFERS; i++)
            give(buffers[i], request.length[i] * wire_width(i));
    }
}
