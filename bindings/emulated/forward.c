/*
 * The calls for programs of a machine that is not x86-64, for tests alone: each is passed to serve.c, which makes it
 * with the library itself under an emulator. The program that runs serve.c is started by the first call.
 */
#define _GNU_SOURCE
#include <fcntl.h>
#include <pthread.h>
#include <spawn.h>
#include <stdio.h>
#include <stdlib.h>
#include <string.h>
#include <unistd.h>

#include "wire.h"

/* A buffer as the caller lent it. */
typedef struct {
    const void *bytes;
    size_t length;
    int written; /* 1 where the call may write it */
} lent;

static pthread_mutex_t one_at_a_time = PTHREAD_MUTEX_INITIALIZER;
static int to_serve = -1, from_serve = -1;

/* Ends the program: an answer that was never given must not look like one. */
static void stop(const char *reason)
{
    fprintf(stderr, "hornherder under the emulator: %s\n", reason);
    abort();
}

/* Starts the program that serves. */
static void start(void)
{
    extern char **environ;
    char *words[] = {(char *)HORNHERDER_SERVE, NULL};
    int there[2], back[2];
    pid_t process;
    posix_spawn_file_actions_t files;
    if (pipe2(there, O_CLOEXEC) != 0 || pipe2(back, O_CLOEXEC) != 0)
        stop("no pipe");
    posix_spawn_file_actions_init(&files);
    posix_spawn_file_actions_adddup2(&files, there[0], 0);
    posix_spawn_file_actions_adddup2(&files, back[1], 1);
    if (posix_spawn(&process, words[0], &files, NULL, words, environ) != 0)
        stop("cannot start " HORNHERDER_SERVE);
    posix_spawn_file_actions_destroy(&files);
    close(there[0]);
    close(back[1]);
    to_serve = there[1];
    from_serve = back[0];
}

/* Sends so many bytes. */
static void give(const void *bytes, size_t count)
{
    for (size_t done = 0; done < count;) {
        ssize_t more = write(to_serve, (const char *)bytes + done, count - done);
        if (more <= 0)
            stop("it takes no more");
        done += (size_t)more;
    }
}

/* Receives so many bytes. */
static void take(void *bytes, size_t count)
{
    for (size_t done = 0; done < count;) {
        ssize_t more = read(from_serve, (char *)bytes + done, count - done);
        if (more <= 0)
            stop("it ended within a call");
        done += (size_t)more;
    }
}

/* Takes a buffer back: into the caller's where it is no longer as it was, which it may be only where the call may write it. */
static void take_back(const lent *buffer, size_t size)
{
    void *after = malloc(size + 1);
    if (after == NULL)
        stop("no memory");
    take(after, size);
    if (size != 0 && memcmp(after, buffer->bytes, size) != 0) {
        if (!buffer->written)
            stop("a call wrote what it was lent to read");
        memcpy((void *)buffer->bytes, after, size);
    }
    free(after);
}

/* Passes a request on with its buffers, whose lengths it fills in, and the buffers and the answer back. */
static wire_answer pass(wire_request request, const lent *buffers)
{
    wire_answer answer;
    pthread_mutex_lock(&one_at_a_time);
    if (to_serve < 0)
        start();
    for (int i = 0; i < WIRE_BUFFERS; i++) {
        if (buffers[i].length > WIRE_ROOM / wire_width(i))
            stop("a buffer is too large");
        request.length[i] = buffers[i].length;
        request.null[i] = buffers[i].bytes == NULL;
    }
    give(&request, sizeof request);
    for (int i = 0; i < WIRE_BUFFERS; i++)
        give(buffers[i].bytes, buffers[i].length * wire_width(i));
    take(&answer, sizeof answer);
    for (int i = 0; i < WIRE_BUFFERS; i++)
        take_back(&buffers[i], buffers[i].length * wire_width(i));
    pthread_mutex_unlock(&one_at_a_time);
    return answer;
}

/* Passes a call on that has no floats and asks about no number. */
static wire_answer forward(int call, size_t k, size_t n, size_t h, const lent *buffers)
{
    const wire_request request = {(uint64_t)call, k, n, h, {0}, {0}, {0, 0, 0}, 0};
    return pass(request, buffers);
}

/* Passes a call on that makes a point of these values. */
static hornherder_making forward_reading(int call, float first, float second, float third, int32_t *place, size_t place_len)
{
    const wire_request request = {(uint64_t)call, 0, 0, 0, {0}, {0}, {first, second, third}, 0};
    const lent buffers[WIRE_BUFFERS] = {{place, place_len, 1}};
    return pass(request, buffers).making;
}

hornherder_arranging hornherder_arrange(size_t k, size_t n, const int32_t *points, size_t points_len, const uint8_t *live,
                                        size_t live_len, uint32_t *order, size_t order_len)
{
    const lent buffers[WIRE_BUFFERS] = {{points, points_len, 0}, {live, live_len, 0}, {order, order_len, 1}};
    return forward(WIRE_ARRANGE, k, n, 0, buffers).arranging;
}

hornherder_taking hornherder_take(size_t k, size_t n, int32_t *points, size_t points_len, uint8_t *live, size_t live_len,
                                  const int32_t *point, size_t point_len)
{
    lent buffers[WIRE_BUFFERS] = {{points, points_len, 1}, {live, live_len, 1}};
    buffers[WIRE_NEW_POINT] = (lent){point, point_len, 0};
    return forward(WIRE_TAKE, k, n, 0, buffers).taking;
}

uint32_t hornherder_withdraw(size_t n, uint32_t number, uint8_t *live, size_t live_len)
{
    const wire_request request = {WIRE_WITHDRAW, 0, n, 0, {0}, {0}, {0, 0, 0}, number};
    const lent buffers[WIRE_BUFFERS] = {{NULL, 0, 0}, {live, live_len, 1}};
    return pass(request, buffers).code;
}

hornherder_listing hornherder_list(size_t k, size_t n, size_t h, const int32_t *points, size_t points_len, const uint8_t *live,
                                   size_t live_len, const uint32_t *order, size_t order_len, const int32_t *normals,
                                   size_t normals_len, const int64_t *offsets, size_t offsets_len, const uint8_t *marks,
                                   size_t marks_len, uint32_t *list, size_t list_len)
{
    const lent buffers[WIRE_BUFFERS] = {{points, points_len, 0},   {live, live_len, 0},       {order, order_len, 0},
                                        {normals, normals_len, 0}, {offsets, offsets_len, 0}, {marks, marks_len, 0},
                                        {list, list_len, 1}};
    return forward(WIRE_LIST, k, n, h, buffers).listing;
}

uint32_t hornherder_list_regions(size_t k, size_t n, size_t regions, const int32_t *points, size_t points_len, const uint8_t *live,
                                 size_t live_len, const uint32_t *order, size_t order_len, const uint32_t *face_counts,
                                 size_t face_counts_len, const int32_t *normals, size_t normals_len, const int64_t *offsets,
                                 size_t offsets_len, const uint8_t *marks, size_t marks_len, uint32_t *lists, size_t lists_len,
                                 uint32_t *counts, size_t counts_len)
{
    const lent buffers[WIRE_BUFFERS] = {{points, points_len, 0},   {live, live_len, 0},               {order, order_len, 0},
                                        {normals, normals_len, 0}, {offsets, offsets_len, 0},         {marks, marks_len, 0},
                                        {lists, lists_len, 1},     {face_counts, face_counts_len, 0}, {counts, counts_len, 1}};
    return forward(WIRE_LIST_REGIONS, k, n, regions, buffers).code;
}

hornherder_screening hornherder_screen(size_t k, size_t n, size_t h, const int32_t *points, size_t points_len, const uint8_t *live,
                                       size_t live_len, const uint32_t *order, size_t order_len, const int32_t *normals,
                                       size_t normals_len, const int64_t *offsets, size_t offsets_len, const uint8_t *marks,
                                       size_t marks_len)
{
    const lent buffers[WIRE_BUFFERS] = {{points, points_len, 0},   {live, live_len, 0},       {order, order_len, 0},
                                        {normals, normals_len, 0}, {offsets, offsets_len, 0}, {marks, marks_len, 0}};
    return forward(WIRE_SCREEN, k, n, h, buffers).screening;
}

hornherder_explaining hornherder_explain(size_t k, size_t n, size_t h, uint32_t number, const int32_t *points, size_t points_len,
                                         const uint8_t *live, size_t live_len, const uint32_t *order, size_t order_len,
                                         const int32_t *normals, size_t normals_len, const int64_t *offsets, size_t offsets_len,
                                         const uint8_t *marks, size_t marks_len)
{
    const wire_request request = {WIRE_EXPLAIN, k, n, h, {0}, {0}, {0, 0, 0}, number};
    const lent buffers[WIRE_BUFFERS] = {{points, points_len, 0},   {live, live_len, 0},       {order, order_len, 0},
                                        {normals, normals_len, 0}, {offsets, offsets_len, 0}, {marks, marks_len, 0}};
    return pass(request, buffers).explaining;
}

hornherder_placing hornherder_place(size_t k, size_t h, const int32_t *point, size_t point_len, const int32_t *normals,
                                    size_t normals_len, const int64_t *offsets, size_t offsets_len, const uint8_t *marks,
                                    size_t marks_len)
{
    const lent buffers[WIRE_BUFFERS] = {
        {point, point_len, 0}, {NULL, 0, 0}, {NULL, 0, 0}, {normals, normals_len, 0}, {offsets, offsets_len, 0}, {marks, marks_len, 0}};
    return forward(WIRE_PLACE, k, 0, h, buffers).placing;
}

hornherder_making hornherder_point_from_colour(float first, float second, float third, int32_t *place, size_t place_len)
{
    return forward_reading(WIRE_POINT_FROM_COLOUR, first, second, third, place, place_len);
}

hornherder_making hornherder_point_from_grey(float value, int32_t *place, size_t place_len)
{
    return forward_reading(WIRE_POINT_FROM_GREY, value, 0, 0, place, place_len);
}

hornherder_making hornherder_point_from_nothing(int32_t *place, size_t place_len)
{
    return forward_reading(WIRE_POINT_FROM_NOTHING, 0, 0, 0, place, place_len);
}

uint32_t hornherder_version(void)
{
    const lent buffers[WIRE_BUFFERS] = {{NULL, 0, 0}};
    return forward(WIRE_VERSION, 0, 0, 0, buffers).code;
}
