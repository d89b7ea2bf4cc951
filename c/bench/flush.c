/* Measures how long a flush of many events keeps a track from others.
 *
 *   flush EVENTS SCRIPT FONT
 *
 * One seat of a track feeds so many events. Then another thread offers the first event over and over by a seat of its
 * own, while the first seat drops them all. It prints, in milliseconds, how long the flush took its caller, and the
 * longest time between two tries of the other thread that weren't busy. */
#include "../files.h"
#include <pthread.h>
#include <stdatomic.h>
#include <stdio.h>
#include <stdlib.h>
#include <time.h>

enum { LENGTH = 1000 };

static atomic_int begun, ended;

struct tries {
    vimalorua_seat *seat;
    double longest;
};

static void need(int holds, const char *what) {
    if (!holds) {
        fprintf(stderr, "flush: %s\n", what);
        exit(1);
    }
}

static double now(void) {
    struct timespec time;
    clock_gettime(CLOCK_MONOTONIC, &time);
    return 1e3 * (double)time.tv_sec + 1e-6 * (double)time.tv_nsec;
}

static int32_t offer(vimalorua_seat *seat, unsigned order) {
    char chunk[64];
    uint32_t field;
    size_t place, len = (size_t)snprintf(chunk, sizeof chunk, "%u,0,Default,,0,0,0,,a line of text", order);
    return vimalorua_try_feed(seat, (uint8_t *)chunk, len, (int64_t)order * LENGTH, LENGTH, &field, &place);
}

static void *tries(void *at) {
    struct tries *tries = at;
    double before = now();
    while (!ended) {
        int32_t status = offer(tries->seat, 0);
        if (status == VIMALORUA_BUSY)
            continue;
        need(status == VIMALORUA_DONE || status == VIMALORUA_REPEATED, "a chunk isn't offered");
        double after = now();
        if (begun && after - before > tries->longest)
            tries->longest = after - before;
        before = after;
    }
    return NULL;
}

/* The first seat of a script with a font. No line is fed. */
static vimalorua_seat *first_seat(char *const *files) {
    vimalorua *handle = NULL;
    vimalorua_seat *seat = NULL;
    size_t len, place;
    uint8_t *script = read_file(files[0], &len);
    need(script != NULL && vimalorua_open(script, len, 64 << 20, &handle, &place) == VIMALORUA_DONE, files[0]);
    free(script);
    uint8_t *font = read_file(files[1], &len);
    need(font != NULL && vimalorua_add_font(handle, font, len, &place) == VIMALORUA_DONE, files[1]);
    free(font);
    need(vimalorua_share(handle, &seat) == VIMALORUA_DONE, "no first seat");
    vimalorua_close(handle);
    return seat;
}

int main(int argc, char **argv) {
    struct tries other = {NULL, 0};
    pthread_t thread;
    const struct timespec moment = {0, 200000000};
    size_t place;
    if (argc != 4) {
        fprintf(stderr, "usage: flush EVENTS SCRIPT FONT\n");
        return 2;
    }
    vimalorua_seat *seat = first_seat(argv + 2);
    need(vimalorua_split(seat, &other.seat) == VIMALORUA_DONE, "no seat");
    for (unsigned i = 0; i < (unsigned)atoi(argv[1]); i++)
        need(offer(seat, i) == VIMALORUA_DONE, "a chunk isn't fed");
    need(pthread_create(&thread, NULL, tries, &other) == 0, "no thread");
    nanosleep(&moment, NULL);
    begun = 1;
    double before = now();
    need(vimalorua_flush_waiting(seat, &place, NULL, NULL) == VIMALORUA_DONE, "no flush");
    double took = now() - before;
    nanosleep(&moment, NULL);
    ended = 1;
    pthread_join(thread, NULL);
    vimalorua_leave(other.seat);
    vimalorua_leave(seat);
    printf("%.3f %.3f\n", took, other.longest);
    return 0;
}
