/* Frames, drawn and blended from their lists: both give the same bytes, each image lies in the frame, and the change
 * that is told is the one between the lists; by one thread, in other views, with alpha, and then by four in turn.
 *
 *   pictures FROM TO STEP WxH SCRIPT FONT.. */
#include "../ass_images.h"
#include "../files.h"
#include <pthread.h>
#include <stdio.h>
#include <stdlib.h>
#include <string.h>

static int failures;

static void fail(const char *what, long long ms) {
    fprintf(stderr, "pictures: %s at %lld ms\n", what, ms);
    failures++;
}

static void *need(void *block) {
    if (block == NULL)
        exit(3);
    return block;
}

static unsigned div255(unsigned v) { return (v + 127) / 255; }

/* What each node says, and nothing else, onto black. */
static void blend(const vimalorua_node *list, uint8_t *rgb, uint32_t w) {
    for (; list != NULL; list = list->next) {
        unsigned colour[3] = {list->color >> 24, list->color >> 16 & 255, list->color >> 8 & 255};
        unsigned opacity = 255 - (list->color & 255);
        for (int j = 0; j < list->h; j++)
            for (int i = 0; i < list->w; i++) {
                unsigned k = div255(list->bitmap[(size_t)j * (size_t)list->stride + (size_t)i] * opacity);
                uint8_t *pixel = rgb + 3 * ((size_t)(list->dst_y + j) * w + (size_t)(list->dst_x + i));
                for (int c = 0; c < 3; c++)
                    pixel[c] = (uint8_t)div255(pixel[c] * (255 - k) + colour[c] * k);
            }
    }
}

/* A frame's nodes, copied, so that the next ones can be compared with them. */
struct list {
    vimalorua_node *nodes;
    size_t count;
};

static struct list copy_of(const vimalorua_node *node) {
    struct list list = {NULL, 0};
    for (; node != NULL; node = node->next) {
        list.nodes = need(realloc(list.nodes, (list.count + 1) * sizeof *list.nodes));
        vimalorua_node *copy = &list.nodes[list.count++];
        size_t bytes = (size_t)node->stride * (size_t)node->h;
        *copy = *node;
        copy->bitmap = need(malloc(bytes + 1));
        memcpy(copy->bitmap, node->bitmap, bytes);
    }
    return list;
}

static void free_list(struct list *list) {
    for (size_t i = 0; i < list->count; i++)
        free(list->nodes[i].bitmap);
    free(list->nodes);
}

static int is_same_but_moved(const vimalorua_node *a, const vimalorua_node *b) {
    return a->w == b->w && a->h == b->h && a->color == b->color &&
           memcmp(a->bitmap, b->bitmap, (size_t)a->stride * (size_t)a->h) == 0;
}

static int32_t change_between(const struct list *a, const struct list *b) {
    int32_t change = VIMALORUA_SAME;
    if (a->count != b->count)
        return VIMALORUA_OTHER_LIST;
    for (size_t i = 0; i < a->count; i++) {
        if (!is_same_but_moved(&a->nodes[i], &b->nodes[i]))
            return VIMALORUA_OTHER_LIST;
        if (a->nodes[i].dst_x != b->nodes[i].dst_x || a->nodes[i].dst_y != b->nodes[i].dst_y)
            change = VIMALORUA_MOVED;
    }
    return change;
}

struct frames {
    pthread_mutex_t lock;
    vimalorua *handle;
    uint32_t w, h;
    long long from, to, step;
    uint8_t *wanted; /* all of them, one behind the other */
    size_t len;      /* of each */
};

static void look_at_nodes(const struct frames *frames, const struct list *list, long long ms) {
    for (size_t i = 0; i < list->count; i++) {
        const vimalorua_node *node = &list->nodes[i];
        if (node->w < 1 || node->h < 1 || node->dst_x < 0 || node->dst_y < 0 ||
            (uint32_t)(node->dst_x + node->w) > frames->w || (uint32_t)(node->dst_y + node->h) > frames->h)
            fail("an image lies outside of the frame", ms);
    }
}

/* Draws each frame, and blends its list. */
static void by_one_thread(struct frames *frames) {
    ass_images images = {0};
    struct list before = {NULL, 0};
    uint8_t *blended = need(malloc(frames->len + 1)), *drawn = frames->wanted;
    for (long long ms = frames->from; ms < frames->to; ms += frames->step, drawn += frames->len) {
        vimalorua_node *first = NULL;
        int32_t change = -1;
        if (vimalorua_draw(frames->handle, ms, frames->w, frames->h, drawn, frames->len) != VIMALORUA_DONE)
            fail("nothing is drawn", ms);
        if (ass_images_render(frames->handle, &images, ms, frames->w, frames->h, &change, &first) != VIMALORUA_DONE)
            fail("nothing is listed", ms);
        struct list list = copy_of(first);
        memset(blended, 0, frames->len);
        blend(first, blended, frames->w);
        look_at_nodes(frames, &list, ms);
        if (memcmp(blended, drawn, frames->len) != 0)
            fail("the list makes another picture", ms);
        if (change != change_between(&before, &list))
            fail("the change is another one", ms);
        free_list(&before);
        before = list;
    }
    free_list(&before);
    free(blended);
    ass_images_free(&images);
}

/* What the frame may be to the script: the size alone, square pixels, stretched ones, and a picture between bars. */
static size_t views_of(uint32_t w, uint32_t h, vimalorua_view views[4]) {
    vimalorua_view plain = {.size = sizeof plain, .w = w, .h = h};
    for (size_t i = 0; i < 4; i++)
        views[i] = plain;
    views[1].letters = VIMALORUA_BY_ASPECT;
    views[2].letters = VIMALORUA_BY_ASPECT;
    views[2].storage_w = 720;
    views[2].storage_h = 576;
    views[2].scale = 1500;
    views[3].top = (int32_t)(h / 4);
    views[3].content_w = w;
    views[3].content_h = h / 2 + 1;
    views[3].aspect_wide = 64;
    views[3].aspect_high = 45;
    views[3].use_bars = 1;
    return 4;
}

/* Draws a frame in each view, and blends its list. The first is that of the size alone. */
static void in_views(const struct frames *frames, long long ms, const uint8_t *wanted) {
    ass_images images = {0};
    vimalorua_view views[4];
    uint8_t *blended = need(malloc(frames->len + 1)), *drawn = need(malloc(frames->len + 1));
    size_t count = views_of(frames->w, frames->h, views);
    for (size_t i = 0; i < count; i++) {
        vimalorua_node *first = NULL;
        memset(blended, 0, frames->len);
        if (vimalorua_draw_in(frames->handle, ms, &views[i], drawn, frames->len) != VIMALORUA_DONE)
            fail("nothing is drawn in a view", ms);
        if (ass_images_render_in(frames->handle, &images, ms, &views[i], NULL, &first) != VIMALORUA_DONE)
            fail("nothing is listed in a view", ms);
        blend(first, blended, frames->w);
        if (memcmp(blended, drawn, frames->len) != 0)
            fail("the list makes another picture in a view", ms);
        if (i == 0 && memcmp(drawn, wanted, frames->len) != 0)
            fail("the view of a size alone is another picture", ms);
    }
    free(blended);
    free(drawn);
    ass_images_free(&images);
}

/* What nodes make of nothing, in fractions: of each pixel three channels times the alpha, and the alpha, in 255ths. */
static void lay(const vimalorua_node *list, double *layers, uint32_t w) {
    for (; list != NULL; list = list->next) {
        unsigned colour[4] = {list->color >> 24, list->color >> 16 & 255, list->color >> 8 & 255, 255};
        unsigned opacity = 255 - (list->color & 255);
        for (int j = 0; j < list->h; j++)
            for (int i = 0; i < list->w; i++) {
                unsigned k = div255(list->bitmap[(size_t)j * (size_t)list->stride + (size_t)i] * opacity);
                double *pixel = layers + 4 * ((size_t)(list->dst_y + j) * w + (size_t)(list->dst_x + i));
                for (int c = 0; c < 4; c++)
                    pixel[c] = (pixel[c] * (255 - k) + (double)colour[c] * k) / 255;
            }
    }
}

static int is_rounded(uint8_t byte, double exact) { return byte - exact < 0.501 && exact - byte < 0.501; }

static int is_straight(const uint8_t *pixel, const double *layers) {
    for (int c = 0; c < 3; c++)
        if (!is_rounded(pixel[c], layers[3] > 0 ? 255 * layers[c] / layers[3] : 0))
            return 0;
    return is_rounded(pixel[3], layers[3]);
}

static int is_premultiplied(const uint8_t *pixel, const double *layers) {
    for (int c = 0; c < 4; c++)
        if (!is_rounded(pixel[c], layers[c]))
            return 0;
    return 1;
}

/* Draws a frame with alpha in both forms, by its size and in a view: each is what its list makes of nothing, rounded. */
static void with_alpha(const struct frames *frames, long long ms) {
    ass_images images = {0};
    vimalorua_view view = {.size = sizeof view, .w = frames->w, .h = frames->h, .letters = VIMALORUA_BY_ASPECT};
    size_t pixels = frames->len / 3;
    double *layers = need(malloc(4 * pixels * sizeof *layers + 1));
    uint8_t *out = need(malloc(4 * pixels + 1));
    for (int form = VIMALORUA_STRAIGHT; form <= VIMALORUA_PREMULTIPLIED; form++)
        for (int in_view = 0; in_view < 2; in_view++) {
            vimalorua_node *first = NULL;
            int32_t drawn =
                in_view ? vimalorua_draw_alpha_in(frames->handle, ms, &view, (uint32_t)form, out, 4 * pixels)
                        : vimalorua_draw_alpha(frames->handle, ms, frames->w, frames->h, (uint32_t)form, out, 4 * pixels);
            int32_t listed = in_view ? ass_images_render_in(frames->handle, &images, ms, &view, NULL, &first)
                                     : ass_images_render(frames->handle, &images, ms, frames->w, frames->h, NULL, &first);
            if (drawn != VIMALORUA_DONE || listed != VIMALORUA_DONE)
                fail("nothing is drawn with alpha", ms);
            for (size_t i = 0; i < 4 * pixels; i++)
                layers[i] = 0;
            lay(first, layers, frames->w);
            for (size_t i = 0; i < pixels; i++)
                if (!(form == VIMALORUA_STRAIGHT ? is_straight : is_premultiplied)(out + 4 * i, layers + 4 * i)) {
                    fail("a picture with alpha isn't its list", ms);
                    break;
                }
        }
    free(layers);
    free(out);
    ass_images_free(&images);
}

static void *in_turn(void *data) {
    struct frames *frames = data;
    uint8_t *drawn = need(malloc(frames->len + 1)), *wanted = frames->wanted;
    size_t count = 0, bytes = 0;
    int32_t change = -1;
    for (long long ms = frames->from; ms < frames->to; ms += frames->step, wanted += frames->len) {
        pthread_mutex_lock(&frames->lock);
        if (vimalorua_draw(frames->handle, ms, frames->w, frames->h, drawn, frames->len) != VIMALORUA_DONE ||
            memcmp(drawn, wanted, frames->len) != 0)
            fail("threads in turn draw another picture", ms);
        if (vimalorua_images(frames->handle, ms, frames->w, frames->h, &change, &count, &bytes) != VIMALORUA_DONE)
            fail("threads in turn list nothing", ms);
        pthread_mutex_unlock(&frames->lock);
    }
    free(drawn);
    return NULL;
}

/* Each has a stack of 64 KiB. */
static void by_four_threads(struct frames *frames) {
    pthread_t threads[4];
    pthread_attr_t small;
    if (pthread_attr_init(&small) != 0 || pthread_attr_setstacksize(&small, 65536) != 0)
        exit(3);
    for (int i = 0; i < 4; i++)
        if (pthread_create(&threads[i], &small, in_turn, frames) != 0)
            exit(3);
    for (int i = 0; i < 4; i++)
        pthread_join(threads[i], NULL);
    pthread_attr_destroy(&small);
}

int main(int argc, char **argv) {
    struct frames frames = {.lock = PTHREAD_MUTEX_INITIALIZER};
    unsigned w, h;
    if (argc < 7 || sscanf(argv[4], "%ux%u", &w, &h) != 2)
        return 2;
    frames.from = atoll(argv[1]);
    frames.to = atoll(argv[2]);
    frames.step = atoll(argv[3]);
    frames.w = w;
    frames.h = h;
    frames.len = (size_t)3 * w * h;
    frames.handle = open_files(argv[5], argv + 6, argc - 6);
    if (frames.handle == NULL || frames.step < 1)
        return 1;
    size_t count = (size_t)((frames.to - frames.from + frames.step - 1) / frames.step);
    frames.wanted = need(malloc(count * frames.len + 1));
    by_one_thread(&frames);
    in_views(&frames, frames.from, frames.wanted);
    with_alpha(&frames, frames.from);
    by_four_threads(&frames);
    vimalorua_close(frames.handle);
    free(frames.wanted);
    return failures != 0;
}
