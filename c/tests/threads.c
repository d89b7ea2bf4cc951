/* Seats of one track in eight threads: four feed and flush, four draw and list. Each frame is then drawn again by one
 * handle, which was fed the entries that the frame is of. Then a call that finds the track busy, each status of seats,
 * and each call for memory refused in turn. The heap is compiled as refusing.h says.
 *
 *   threads FONT CHUNKS DRAWS ROUNDS
 *
 * CHUNKS are fed by each of the four, and DRAWS made by each of the others, once by the pause of the header, and in
 * ROUNDS rounds, a twentieth of them each, by one that sleeps at random. */
#include "../files.h"
#include "refusing.h"
#include "want.h"
#include <pthread.h>
#include <stdlib.h>
#include <string.h>
#include <time.h>

enum { FEEDERS = 4, DRAWERS = 4, THREADS = FEEDERS + DRAWERS, W = 64, H = 48, COUNT = 3 * W * H, STEP = 40 };

#define BYTES(text) (const uint8_t *)(text), sizeof(text) - 1

static const char script[] = "[Script Info]\nPlayResX: 64\nPlayResY: 48\n[V4+ Styles]\n"
                             "Format: Name, Fontsize, Outline, Shadow\nStyle: Default,12,1,0\n[Events]\n"
                             "Dialogue: 0,0:00:00.00,0:00:01.00,Default,,0,0,0,,{\\pos(8,20)}a\n"
                             "Dialogue: 0,0:00:00.00,0:00:01.00,Default,,0,0,0,,{\\pos(40,30)}b\n";

static uint8_t *font;
static size_t font_len;

static void *need(void *block) {
    if (block == NULL)
        exit(3);
    return block;
}

/* ---- what threads do */

/* An entry of the history: a flush, or the chunk with a number. */
struct entry {
    size_t place;
    int is_flush;
    unsigned number;
};

/* What a seat showed of the first `entries` entries: a picture, or a list with its images in front of its masks. */
struct frame {
    size_t entries;
    int64_t ms;
    uint8_t *bytes;
    size_t images, masks;
    int is_list;
};

struct job {
    pthread_t thread;
    vimalorua_seat *seat;
    unsigned number, chunks, draws, random;
    unsigned long busy;
    int sleeps;
    size_t seen; /* how many entries the seat has told of */
    struct entry *entries;
    size_t entry_count;
    struct frame *frames;
    size_t frame_count;
};

/* The chunk with a number: where it is shown goes by the number, and every hundredth or so is malformed. */
static size_t chunk_text(unsigned number, char text[64]) {
    const char *order = number % 100 == 50 ? "x" : "";
    const char *tags = number % 3 == 0 ? "\\move(0,10,60,40)" : number % 3 == 1 ? "\\blur1" : "\\1c&H40FF80&";
    return (size_t)snprintf(text, 64, "%s%u,%u,Default,,0,0,0,,{\\pos(%u,%u)%s}%c", order, number, number % 2,
                            number % 56, 10 + number % 37, tags, (int)('a' + number % 26));
}

static int64_t start_of(unsigned number) { return (int64_t)(number % 100000) * STEP; }

static int64_t duration_of(unsigned number) { return STEP * (1 + number % 4); }

static unsigned drawn_lot(struct job *job) { return job->random = job->random * 1664525 + 1013904223; }

static void sleep_for(unsigned microseconds) {
    struct timespec time = {0, (long)microseconds * 1000};
    nanosleep(&time, NULL);
}

static void paused(void *with, unsigned tries) {
    struct job *job = with;
    job->busy++;
    if (job->sleeps)
        sleep_for(drawn_lot(job) >> 8 & 127);
    else
        vimalorua_pause_after(tries - 1, NULL, NULL);
}

/* What a seat tells of the history never falls. */
static void tells(struct job *job, size_t entries) {
    WANT(entries >= job->seen, 1);
    job->seen = entries;
}

static void was_accepted(struct job *job, size_t place, int is_flush, unsigned number) {
    tells(job, place + 1);
    job->entries[job->entry_count++] = (struct entry){place, is_flush, number};
}

static void feed_one(struct job *job, unsigned number) {
    char text[64];
    uint32_t field = 77;
    size_t place = 77, len = chunk_text(number, text);
    int32_t status = vimalorua_feed_waiting(job->seat, (uint8_t *)text, len, start_of(number), duration_of(number),
                                            &field, &place, paused, job);
    if (number % 100 == 50) {
        WANT(status, VIMALORUA_MALFORMED);
        WANT(field, VIMALORUA_READ_ORDER);
    } else if (status != VIMALORUA_REPEATED) {
        WANT(status, VIMALORUA_DONE);
        was_accepted(job, place, 0, number);
    } else {
        const struct entry *last = &job->entries[job->entry_count - 1];
        WANT(job->entry_count > 0 && last->number == number && last->place == place, 1);
    }
}

static void flush_one(struct job *job) {
    size_t place = 77;
    WANT(vimalorua_flush_waiting(job->seat, &place, paused, job), VIMALORUA_DONE);
    was_accepted(job, place, 1, 0);
}

static void draw_one(struct job *job, int64_t ms) {
    struct frame *frame = &job->frames[job->frame_count++];
    *frame = (struct frame){.ms = ms, .bytes = need(calloc(COUNT, 1))};
    WANT(vimalorua_draw_waiting(job->seat, ms, W, H, frame->bytes, COUNT, &frame->entries, paused, job),
         VIMALORUA_DONE);
    tells(job, frame->entries);
}

static void list_one(struct job *job, int64_t ms) {
    struct frame *frame = &job->frames[job->frame_count++];
    int32_t change = 77;
    *frame = (struct frame){.ms = ms, .is_list = 1};
    WANT(vimalorua_list_waiting(job->seat, ms, W, H, &change, &frame->images, &frame->masks, &frame->entries, paused,
                                job),
         VIMALORUA_DONE);
    vimalorua_image *images = need(calloc(frame->images * sizeof *images + frame->masks + 1, 1));
    frame->bytes = (uint8_t *)images;
    WANT(vimalorua_seat_copy(job->seat, images, frame->images, (uint8_t *)(images + frame->images), frame->masks),
         VIMALORUA_DONE);
    tells(job, frame->entries);
}

/* An instant that was fed lately, if the feeders go in step. */
static int64_t late_instant(struct job *job) {
    return ((int64_t)job->seen / FEEDERS - drawn_lot(job) % 8) * STEP;
}

static void *feeds(void *at) {
    struct job *job = at;
    for (unsigned i = 0; i < job->chunks; i++) {
        unsigned number = job->number * 100000 + i;
        feed_one(job, number);
        if (i % 50 == 49)
            feed_one(job, number);
        if (i % 500 == 499)
            flush_one(job);
        if (i % 100 == 99)
            draw_one(job, late_instant(job));
    }
    vimalorua_leave(job->seat);
    return NULL;
}

static void *draws(void *at) {
    struct job *job = at;
    for (unsigned i = 0; i < job->draws; i++)
        if (i % 4 == 3)
            list_one(job, late_instant(job));
        else
            draw_one(job, late_instant(job));
    vimalorua_leave(job->seat);
    return NULL;
}

/* ---- the same by one handle */

static vimalorua *opened(void) {
    vimalorua *handle = NULL;
    size_t place = 77;
    WANT(vimalorua_open(BYTES(script), 1 << 20, &handle, &place), VIMALORUA_DONE);
    WANT(vimalorua_add_font(handle, font, font_len, &place), VIMALORUA_DONE);
    return handle;
}

static vimalorua_seat *shared(void) {
    vimalorua *handle = opened();
    vimalorua_seat *seat = NULL;
    WANT(vimalorua_share(handle, &seat), VIMALORUA_DONE);
    vimalorua_close(handle);
    return seat;
}

static void feed_again(vimalorua *handle, const struct entry *entry, size_t place) {
    char text[64];
    uint32_t field = 77;
    size_t is_place = 77;
    if (entry->is_flush) {
        WANT(vimalorua_flush(handle, &is_place), VIMALORUA_DONE);
    } else {
        size_t len = chunk_text(entry->number, text);
        WANT(vimalorua_feed(handle, (uint8_t *)text, len, start_of(entry->number), duration_of(entry->number), &field,
                            &is_place), VIMALORUA_DONE);
    }
    WANT(is_place, place);
}

static int is_black(const uint8_t *bytes) {
    for (size_t i = 0; i < COUNT; i++)
        if (bytes[i] != 0)
            return 0;
    return 1;
}

/* Draws or lists a frame again, and tells whether it shows anything. */
static int show_again(vimalorua *handle, const struct frame *frame) {
    if (!frame->is_list) {
        uint8_t bytes[COUNT];
        WANT(vimalorua_draw(handle, frame->ms, W, H, bytes, COUNT), VIMALORUA_DONE);
        WANT(memcmp(bytes, frame->bytes, COUNT), 0);
        return !is_black(bytes);
    }
    int32_t change = 77;
    size_t count = 77, bytes = 77;
    WANT(vimalorua_images(handle, frame->ms, W, H, &change, &count, &bytes), VIMALORUA_DONE);
    WANT(count == frame->images && bytes == frame->masks, 1);
    if (count == frame->images && bytes == frame->masks) {
        size_t all = count * sizeof(vimalorua_image) + bytes;
        vimalorua_image *images = need(calloc(all + 1, 1));
        WANT(vimalorua_copy_images(handle, images, count, (uint8_t *)(images + count), bytes), VIMALORUA_DONE);
        WANT(memcmp(images, frame->bytes, all), 0);
        free(images);
    }
    return count != 0;
}

static int in_order(const void *a, const void *b) {
    const struct frame *one = a, *other = b;
    return (one->entries > other->entries) - (one->entries < other->entries);
}

/* The history of all threads: the places that were told are 0 and on, each once. */
static struct entry *history_of(const struct job *jobs, size_t *count) {
    *count = 0;
    for (int i = 0; i < THREADS; i++)
        *count += jobs[i].entry_count;
    struct entry *history = need(calloc(*count + 1, sizeof *history));
    for (size_t i = 0; i < *count; i++)
        history[i].place = SIZE_MAX;
    for (int i = 0; i < THREADS; i++)
        for (size_t k = 0; k < jobs[i].entry_count; k++) {
            size_t place = jobs[i].entries[k].place;
            WANT(place < *count && history[place].place == SIZE_MAX, 1);
            if (place < *count)
                history[place] = jobs[i].entries[k];
        }
    return history;
}

/* All frames of all threads, those of fewer entries first. */
static struct frame *frames_of(const struct job *jobs, size_t *count) {
    struct frame *frames = NULL;
    *count = 0;
    for (int i = 0; i < THREADS; i++) {
        frames = need(realloc(frames, (*count + jobs[i].frame_count + 1) * sizeof *frames));
        if (jobs[i].frame_count != 0)
            memcpy(frames + *count, jobs[i].frames, jobs[i].frame_count * sizeof *frames);
        *count += jobs[i].frame_count;
    }
    qsort(frames, *count, sizeof *frames, in_order);
    return frames;
}

static void compare(const struct job *jobs, unsigned long *shown) {
    size_t entry_count, frame_count, fed = 0;
    struct entry *history = history_of(jobs, &entry_count);
    struct frame *frames = frames_of(jobs, &frame_count);
    vimalorua *handle = opened();
    for (size_t i = 0; i < frame_count; i++) {
        WANT(frames[i].entries <= entry_count, 1);
        for (; fed < frames[i].entries && fed < entry_count; fed++)
            feed_again(handle, &history[fed], fed);
        *shown += (unsigned long)show_again(handle, &frames[i]);
        free(frames[i].bytes);
    }
    vimalorua_close(handle);
    free(history);
    free(frames);
}

/* A run of all threads, and the same by one. */
static void run(unsigned chunks, unsigned draw_count, int sleeps, unsigned seed, unsigned long *busy,
                unsigned long *shown) {
    struct job jobs[THREADS];
    vimalorua_seat *first = shared();
    for (unsigned i = 0; i < THREADS; i++) {
        jobs[i] = (struct job){.number = i, .chunks = chunks, .draws = draw_count, .sleeps = sleeps};
        jobs[i].random = seed + i;
        jobs[i].entries = need(calloc(2 * (size_t)chunks + 1, sizeof *jobs[i].entries));
        jobs[i].frames = need(calloc((size_t)chunks + draw_count + 1, sizeof *jobs[i].frames));
        jobs[i].seat = first;
        if (i != 0)
            WANT(vimalorua_split(first, &jobs[i].seat), VIMALORUA_DONE);
    }
    for (int i = 0; i < THREADS; i++)
        if (pthread_create(&jobs[i].thread, NULL, i < FEEDERS ? feeds : draws, &jobs[i]) != 0)
            exit(3);
    for (int i = 0; i < THREADS; i++) {
        pthread_join(jobs[i].thread, NULL);
        *busy += jobs[i].busy;
    }
    WANT(blocks, 0);
    compare(jobs, shown);
    for (int i = 0; i < THREADS; i++) {
        free(jobs[i].entries);
        free(jobs[i].frames);
    }
    WANT(blocks, 0);
}

/* ---- busy */

static const char lone[] = "7,1,Default,,0,0,0,,{\\pos(20,20)}a";

/* What the other thread's try was answered, while the first one's call asked for memory. */
static struct {
    vimalorua_seat *seat;
    int done, busy;
    size_t entries;
} other;

static void *tries_to_feed(void *unused) {
    uint32_t field = 77;
    size_t place = 77;
    int32_t status = vimalorua_try_feed(other.seat, BYTES(lone), 0, 1000, &field, &place);
    WANT(field, 0);
    if (status == VIMALORUA_BUSY) {
        other.busy++;
        WANT(place, 0);
    } else if (status == VIMALORUA_DONE) {
        other.done++;
    } else {
        WANT(status, VIMALORUA_REPEATED);
    }
    return unused;
}

static void by_another_thread(void) {
    pthread_t thread;
    if (pthread_create(&thread, NULL, tries_to_feed, NULL) != 0)
        exit(3);
    pthread_join(thread, NULL);
}

/* A seat's call asks for memory while it has the track, and then another seat's is busy, and has changed nothing. */
static void busy(void) {
    vimalorua_seat *first = shared(), *second = NULL;
    uint8_t out[COUNT];
    size_t entries = 77, place = 77;
    WANT(vimalorua_split(first, &second), VIMALORUA_DONE);
    place = 0;
    WANT(vimalorua_feed_lines_waiting(first, &place, NULL, NULL), VIMALORUA_DONE);
    WANT(place, 2);
    other.seat = second;
    before_memory = by_another_thread;
    WANT(vimalorua_try_draw(first, 500, W, H, out, COUNT, &entries), VIMALORUA_DONE);
    before_memory = NULL;
    WANT(other.busy > 0, 1);
    WANT(other.done <= 1, 1);
    WANT(entries == 2 || entries == 3, 1);
    tries_to_feed(NULL);
    WANT(other.done, 1);
    WANT(vimalorua_try_draw(first, 500, W, H, out, COUNT, &entries), VIMALORUA_DONE);
    WANT(entries, 3);
    vimalorua_leave(first);
    vimalorua_leave(second);
    WANT(blocks, 0);
}

/* ---- statuses */

static void sharing(void) {
    vimalorua *handle = opened();
    vimalorua_seat *first = NULL, *second = NULL, *third = NULL;
    size_t place = 77;
    uint32_t field = 77;
    WANT(vimalorua_feed(handle, BYTES(lone), 0, 1, &field, &place), VIMALORUA_DONE);
    WANT(vimalorua_share(handle, &first), VIMALORUA_WAS_FED);
    WANT(vimalorua_flush(handle, &place), VIMALORUA_DONE);
    WANT(place, 1);
    WANT(vimalorua_share(handle, &first), VIMALORUA_WAS_FED);
    WANT(first == NULL, 1);
    vimalorua_close(handle);
    handle = opened();
    WANT(vimalorua_share(handle, &first), VIMALORUA_DONE);
    WANT(vimalorua_share(handle, &second), VIMALORUA_CLOSED);
    WANT(vimalorua_flush(handle, &place), VIMALORUA_CLOSED);
    vimalorua_close(handle);
    WANT(vimalorua_split(first, &second), VIMALORUA_DONE);
    WANT(vimalorua_split(second, &third), VIMALORUA_NOT_FIRST);
    WANT(third == NULL, 1);
    vimalorua_leave(first);
    WANT(vimalorua_try_feed(second, BYTES(lone), 0, 1, &field, &place), VIMALORUA_DONE);
    WANT(place, 0);
    WANT(vimalorua_try_feed(second, BYTES(lone), 0, 1, &field, &place), VIMALORUA_REPEATED);
    WANT(place, 0);
    WANT(vimalorua_try_feed(second, NULL, 0, 0, 1, &field, &place), VIMALORUA_MALFORMED);
    WANT(field, VIMALORUA_READ_ORDER);
    WANT(vimalorua_try_flush(second, &place), VIMALORUA_DONE);
    WANT(place, 1);
    vimalorua_leave(second);
    vimalorua_leave(NULL);
}

static void bad_calls(void) {
    vimalorua *handle = NULL;
    vimalorua_seat *seat = NULL;
    uint8_t out[COUNT] = {0};
    uint8_t rgba[4 * W * H] = {0};
    size_t place = 77, count = 77, bytes = 77, entries = 77;
    int32_t change = 77;
    vimalorua_view view = {.size = 15, .w = W, .h = H};
    WANT(vimalorua_open(BYTES(script), 0, &handle, &place), VIMALORUA_DONE);
    WANT(vimalorua_share(handle, &seat), VIMALORUA_DONE);
    vimalorua_close(handle);
    WANT(vimalorua_try_draw(seat, 0, W, H, out, COUNT, &entries), VIMALORUA_NO_FONT);
    WANT(entries, 0);
    WANT(vimalorua_try_list(seat, 0, W, H, &change, &count, &bytes, &entries), VIMALORUA_NO_FONT);
    vimalorua_leave(seat);
    seat = shared();
    WANT(vimalorua_try_draw(seat, 0, W, H, out, COUNT - 1, &entries), VIMALORUA_BAD_CALL);
    WANT(vimalorua_try_draw(seat, INT64_MIN, W, H, out, COUNT, &entries), VIMALORUA_BAD_CALL);
    WANT(vimalorua_try_draw(seat, 0, W, 0, NULL, 0, &entries), VIMALORUA_DONE);
    WANT(vimalorua_try_draw_in(seat, 0, &view, out, COUNT, &entries), VIMALORUA_BAD_CALL);
    WANT(vimalorua_try_list(seat, INT64_MAX, W, H, &change, &count, &bytes, &entries), VIMALORUA_BAD_CALL);
    WANT(vimalorua_try_list_in(seat, 0, &view, &change, &count, &bytes, &entries), VIMALORUA_BAD_CALL);
    view.size = sizeof view;
    WANT(vimalorua_try_draw_in(seat, 0, &view, out, COUNT, &entries), VIMALORUA_DONE);
    WANT(vimalorua_try_draw_alpha_in(seat, 0, &view, 2, rgba, sizeof rgba, &entries), VIMALORUA_BAD_CALL);
    WANT(vimalorua_try_draw_alpha(seat, 0, W, H, VIMALORUA_STRAIGHT, rgba, COUNT, &entries), VIMALORUA_BAD_CALL);
    WANT(vimalorua_try_draw_alpha_in(seat, 0, &view, VIMALORUA_STRAIGHT, rgba, sizeof rgba, &entries), VIMALORUA_DONE);
    WANT(vimalorua_draw_alpha_waiting(seat, 0, W, H, VIMALORUA_PREMULTIPLIED, rgba, sizeof rgba, &entries, NULL, NULL), VIMALORUA_DONE);
    WANT(vimalorua_try_list_in(seat, 0, &view, &change, &count, &bytes, &entries), VIMALORUA_DONE);
    WANT(change, VIMALORUA_SAME);
    WANT(vimalorua_seat_copy(seat, NULL, 0, NULL, 0), VIMALORUA_DONE);
    WANT(vimalorua_seat_copy(seat, NULL, 0, out, 1), VIMALORUA_BAD_CALL);
    WANT(vimalorua_seat_set_budget(seat, (UINT64_C(1) << 40) + 1), VIMALORUA_BAD_CALL);
    WANT(vimalorua_seat_set_budget(seat, 0), VIMALORUA_DONE);
    vimalorua_leave(seat);
    WANT(blocks, 0);
}

/* ---- memory */

/* A whole use of seats, in which the call for memory after `n` others is refused: does one come? Each call can be made
 * again, the frame is the same, and no block is left. */
static int with_refusal(long n, const uint8_t *wanted) {
    static const uint8_t untouched[COUNT] = {0};
    int refused = 0;
    vimalorua *handle = NULL;
    vimalorua_seat *first = NULL, *second = NULL;
    uint32_t field = 0;
    size_t place = 0, count = 0, bytes = 0, entries = 0;
    int32_t change = -1;
    uint8_t out[COUNT] = {0};
    vimalorua_image numbers[16];
    uint8_t masks[16 * COUNT] = {0};
    allowed = n;
    AGAIN(vimalorua_open(BYTES(script), 1 << 20, &handle, &place), handle == NULL);
    AGAIN(vimalorua_add_font(handle, font, font_len, &place), place == 0);
    AGAIN(vimalorua_share(handle, &first), first == NULL);
    AGAIN(vimalorua_split(first, &second), second == NULL);
    AGAIN(vimalorua_seat_set_budget(second, 1 << 16), 1);
    AGAIN(vimalorua_try_feed(second, BYTES(lone), 0, 1000, &field, &place), field == 0 && place == 0);
    WANT(place, 0);
    AGAIN(vimalorua_feed_lines_waiting(first, &place, NULL, NULL), place <= 2);
    WANT(place, 2);
    AGAIN(vimalorua_try_draw(second, 500, W, H, out, COUNT, &entries), !memcmp(out, untouched, COUNT) && entries == 0);
    WANT(memcmp(out, wanted, COUNT), 0);
    WANT(entries, 3);
    AGAIN(vimalorua_try_list(first, 500, W, H, &change, &count, &bytes, &entries), entries == 0);
    WANT(change, VIMALORUA_OTHER_LIST);
    WANT(count <= 16 && bytes <= sizeof masks, 1);
    AGAIN(vimalorua_seat_copy(first, numbers, count, masks, bytes), masks[0] == 0);
    AGAIN(vimalorua_try_flush(first, &place), place == 0);
    WANT(place, 3);
    allowed = -1;
    vimalorua_leave(first);
    vimalorua_leave(second);
    vimalorua_close(handle);
    WANT(blocks, 0);
    return refused;
}

static long refusals(void) {
    uint8_t wanted[COUNT];
    uint32_t field;
    size_t place;
    long n = 0;
    vimalorua *handle = opened();
    WANT(vimalorua_feed(handle, BYTES(lone), 0, 1000, &field, &place), VIMALORUA_DONE);
    WANT(vimalorua_feed_lines(handle, &place), VIMALORUA_DONE);
    WANT(vimalorua_draw(handle, 500, W, H, wanted, COUNT), VIMALORUA_DONE);
    WANT(is_black(wanted), 0);
    vimalorua_close(handle);
    while (with_refusal(n, wanted))
        n++;
    return n;
}

int main(int argc, char **argv) {
    if (argc != 5 || (font = read_file(argv[1], &font_len)) == NULL)
        return 2;
    unsigned chunks = (unsigned)atoi(argv[2]), draw_count = (unsigned)atoi(argv[3]);
    unsigned long tries = 0, shown = 0, all_tries = 0;
    sharing();
    bad_calls();
    busy();
    long refused = refusals();
    run(chunks, draw_count, 0, 1, &tries, &shown);
    printf("%lu frames with images, %lu tries found the track busy, %ld calls for memory refused\n", shown, tries,
           refused);
    WANT(shown > 0, 1);
    for (unsigned i = 0; i < (unsigned)atoi(argv[4]); i++)
        run(chunks / 20, draw_count / 20, 1, 1000 * i, &all_tries, &shown);
    printf("with pauses at random %lu tries did; %d failures\n", all_tries, failures);
    free(font);
    return failures != 0;
}
