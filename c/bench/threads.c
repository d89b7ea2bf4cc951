/* Measures threads that draw while another one feeds: each by a seat of one track, or each by a handle of its own.
 *
 *   threads seats|handles DRAWERS SECONDS SCRIPT FONT WxH FROM TO STEP
 *
 * All lines of the script are fed first. Each drawer then lists the frames from FROM to TO, over and over, each a
 * little further on than the other, and the feeder offers one chunk a millisecond, which is shown long after TO. It
 * prints the frames a second of all drawers together, and how many of their tries in a hundred found the track busy. */
#include "../files.h"
#include <pthread.h>
#include <stdatomic.h>
#include <stdio.h>
#include <stdlib.h>
#include <string.h>
#include <time.h>

enum { MOST_DRAWERS = 64, FAR = 1000000000 };

static struct {
    unsigned w, h;
    long long from, to, step;
} workload;

static atomic_int started, ended;

struct job {
    pthread_t thread;
    vimalorua_seat *seat; /* or null */
    vimalorua *handle;
    unsigned number;
    unsigned long frames, busy;
};

static void need(int holds, const char *what) {
    if (!holds) {
        fprintf(stderr, "threads: %s\n", what);
        exit(1);
    }
}

static double now(void) {
    struct timespec time;
    clock_gettime(CLOCK_MONOTONIC, &time);
    return (double)time.tv_sec + 1e-9 * (double)time.tv_nsec;
}

static void counts_tries(void *with, unsigned tries) {
    ((struct job *)with)->busy++;
    vimalorua_pause_after(tries - 1, NULL, NULL);
}

static void list(struct job *job, long long ms) {
    int32_t change;
    size_t count, bytes, entries;
    int32_t status =
        job->seat ? vimalorua_list_waiting(job->seat, ms, workload.w, workload.h, &change, &count, &bytes, &entries,
                                           counts_tries, job)
                  : vimalorua_images(job->handle, ms, workload.w, workload.h, &change, &count, &bytes);
    need(status == VIMALORUA_DONE, "no list");
    job->frames++;
}

static void *draws(void *at) {
    struct job *job = at;
    long long count = (workload.to - workload.from) / workload.step;
    for (long long i = job->number * count / MOST_DRAWERS; !ended; i = (i + 1) % count) {
        list(job, workload.from + i * workload.step);
        if (!started)
            job->frames = job->busy = 0;
    }
    return NULL;
}

static void *feeds(void *at) {
    struct job *job = at;
    const struct timespec pause = {0, 1000000};
    for (unsigned i = 0; !ended; i++) {
        char chunk[64];
        uint32_t field;
        size_t place, len = (size_t)snprintf(chunk, sizeof chunk, "%u,0,Default,,0,0,0,,a", FAR + i);
        int32_t status = job->seat ? vimalorua_feed_waiting(job->seat, (uint8_t *)chunk, len, FAR, 1, &field, &place,
                                                            NULL, NULL)
                                   : vimalorua_feed(job->handle, (uint8_t *)chunk, len, FAR, 1, &field, &place);
        need(status == VIMALORUA_DONE, "a chunk isn't fed");
        nanosleep(&pause, NULL);
    }
    return NULL;
}

/* A handle with a script and a font. No line is fed. */
static vimalorua *opened(char *const *files) {
    vimalorua *handle = NULL;
    size_t len, place;
    uint8_t *script = read_file(files[0], &len);
    need(script != NULL && vimalorua_open(script, len, 64 << 20, &handle, &place) == VIMALORUA_DONE, files[0]);
    free(script);
    uint8_t *font = read_file(files[1], &len);
    need(font != NULL && vimalorua_add_font(handle, font, len, &place) == VIMALORUA_DONE, files[1]);
    free(font);
    return handle;
}

/* The seats, or the handles, with all lines. */
static void seat(struct job *jobs, int count, int seats, char *const *files) {
    size_t place = 0;
    for (int i = 0; i < count; i++) {
        jobs[i] = (struct job){.number = (unsigned)i};
        if (seats && i > 0) {
            need(vimalorua_split(jobs[0].seat, &jobs[i].seat) == VIMALORUA_DONE, "no seat");
            continue;
        }
        jobs[i].handle = opened(files);
        if (seats) {
            need(vimalorua_share(jobs[i].handle, &jobs[i].seat) == VIMALORUA_DONE, "no first seat");
            need(vimalorua_feed_lines_waiting(jobs[i].seat, &place, NULL, NULL) == VIMALORUA_DONE, "no lines");
        } else {
            need(vimalorua_feed_lines(jobs[i].handle, &place) == VIMALORUA_DONE, "no lines");
        }
    }
}

static void measure(struct job *jobs, int count, double seconds) {
    for (int i = 0; i < count; i++)
        need(pthread_create(&jobs[i].thread, NULL, i == 0 ? feeds : draws, &jobs[i]) == 0, "no thread");
    const struct timespec half = {0, 500000000}, whole = {(time_t)seconds, 0};
    nanosleep(&half, NULL);
    started = 1;
    double before = now();
    nanosleep(&whole, NULL);
    double took = now() - before;
    ended = 1;
    unsigned long frames = 0, busy = 0;
    for (int i = 0; i < count; i++) {
        pthread_join(jobs[i].thread, NULL);
        frames += jobs[i].frames;
        busy += jobs[i].busy;
        vimalorua_leave(jobs[i].seat);
        vimalorua_close(jobs[i].handle);
    }
    printf("%.0f %.2f\n", (double)frames / took, 100.0 * (double)busy / (double)(frames + busy));
}

int main(int argc, char **argv) {
    struct job jobs[MOST_DRAWERS + 1];
    if (argc != 10 || sscanf(argv[6], "%ux%u", &workload.w, &workload.h) != 2) {
        fprintf(stderr, "usage: threads seats|handles DRAWERS SECONDS SCRIPT FONT WxH FROM TO STEP\n");
        return 2;
    }
    int drawers = atoi(argv[2]);
    workload.from = atoll(argv[7]);
    workload.to = atoll(argv[8]);
    workload.step = atoll(argv[9]);
    need(drawers > 0 && drawers <= MOST_DRAWERS && workload.step > 0 && workload.to > workload.from, "bad numbers");
    seat(jobs, drawers + 1, strcmp(argv[1], "seats") == 0, argv + 4);
    measure(jobs, drawers + 1, atof(argv[3]));
    return 0;
}
