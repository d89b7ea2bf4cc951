#include "ass/ass.h"
#include "../files.h"
#include <stdlib.h>
#include <string.h>

#define DEFAULT_BUDGET (UINT64_C(64) << 20)

struct font {
    uint8_t *bytes;
    size_t len;
};

struct ass_library {
    struct font *fonts;
    size_t count;
    void (*call)(int level, const char *format, va_list args, void *data);
    void *data;
};

struct ass_renderer {
    ASS_Library *library;
    ass_images images;
    uint32_t w, h;
    uint64_t budget;
};

/* Tells the callback what failed. */
static void tell(ASS_Library *library, const char *format, ...) {
    va_list args;
    if (library->call == NULL)
        return;
    va_start(args, format);
    library->call(1, format, args, library->data);
    va_end(args);
}

static int is_done(ASS_Library *library, const char *what, int32_t status) {
    if (status != VIMALORUA_DONE)
        tell(library, "%s: status %d", what, (int)status);
    return status == VIMALORUA_DONE;
}

int ass_library_version(void) { return (int)vimalorua_version(); }

ASS_Library *ass_library_init(void) { return calloc(1, sizeof(ASS_Library)); }

void ass_library_done(ASS_Library *library) {
    if (library == NULL)
        return;
    for (size_t i = 0; i < library->count; i++)
        free(library->fonts[i].bytes);
    free(library->fonts);
    free(library);
}

void ass_set_message_cb(ASS_Library *library, void (*call)(int, const char *, va_list, void *), void *data) {
    library->call = call;
    library->data = data;
}

/* Puts a font behind the others, and keeps its bytes. */
static void keep_font(ASS_Library *library, uint8_t *bytes, size_t len) {
    struct font *fonts = realloc(library->fonts, (library->count + 1) * sizeof *fonts);
    if (fonts == NULL) {
        tell(library, "a font: out of memory");
        free(bytes);
        return;
    }
    fonts[library->count].bytes = bytes;
    fonts[library->count].len = len;
    library->fonts = fonts;
    library->count++;
}

void ass_add_font(ASS_Library *library, const char *name, const char *data, int size) {
    (void)name;
    if (data == NULL || size < 0)
        return;
    uint8_t *copy = malloc((size_t)size + 1);
    if (copy == NULL)
        return;
    memcpy(copy, data, (size_t)size);
    keep_font(library, copy, (size_t)size);
}

ASS_Renderer *ass_renderer_init(ASS_Library *library) {
    ASS_Renderer *renderer = calloc(1, sizeof *renderer);
    if (renderer != NULL) {
        renderer->library = library;
        renderer->budget = DEFAULT_BUDGET;
    }
    return renderer;
}

void ass_renderer_done(ASS_Renderer *renderer) {
    if (renderer == NULL)
        return;
    ass_images_free(&renderer->images);
    free(renderer);
}

void ass_set_frame_size(ASS_Renderer *renderer, int w, int h) {
    renderer->w = w < 0 ? 0 : (uint32_t)w;
    renderer->h = h < 0 ? 0 : (uint32_t)h;
}

void ass_set_storage_size(ASS_Renderer *renderer, int w, int h) {
    (void)renderer;
    (void)w;
    (void)h;
}

void ass_set_cache_limits(ASS_Renderer *renderer, int glyph_max, int bitmap_max_size) {
    (void)glyph_max;
    renderer->budget = bitmap_max_size > 0 ? (uint64_t)bitmap_max_size << 20 : DEFAULT_BUDGET;
}

void ass_set_fonts(ASS_Renderer *renderer, const char *default_font, const char *default_family, int provider,
                   const char *config, int update) {
    size_t len = 0;
    (void)default_family;
    (void)provider;
    (void)config;
    (void)update;
    uint8_t *bytes = default_font == NULL ? NULL : read_file(default_font, &len);
    if (bytes != NULL)
        keep_font(renderer->library, bytes, len);
}

ASS_Track *ass_new_track(ASS_Library *library) {
    ASS_Track *track = calloc(1, sizeof *track);
    if (track != NULL)
        track->library = library;
    return track;
}

void ass_free_track(ASS_Track *track) {
    if (track == NULL)
        return;
    vimalorua_close(track->handle);
    free(track);
}

static int32_t open_script(ASS_Track *track, const char *data, size_t len) {
    size_t place = 0;
    vimalorua_close(track->handle);
    track->handle = NULL;
    track->n_events = 0;
    track->fonts = 0;
    track->budget = DEFAULT_BUDGET;
    return vimalorua_open((const uint8_t *)data, len, track->budget, &track->handle, &place);
}

ASS_Track *ass_read_memory(ASS_Library *library, char *buffer, size_t size, const char *codepage) {
    size_t entries = 0;
    (void)codepage;
    ASS_Track *track = ass_new_track(library);
    if (track == NULL)
        return NULL;
    if (!is_done(library, "a script", open_script(track, buffer, size)) ||
        !is_done(library, "its lines", vimalorua_feed_lines(track->handle, &entries))) {
        ass_free_track(track);
        return NULL;
    }
    track->n_events = (int)entries;
    return track;
}

/* libass takes a header without the heading of events. */
static int32_t open_header(ASS_Track *track, const char *data, size_t size) {
    static const char events[] = "\n[Events]\n";
    char *whole = malloc(size + sizeof events);
    if (whole == NULL)
        return VIMALORUA_OUT_OF_MEMORY;
    memcpy(whole, data, size);
    memcpy(whole + size, events, sizeof events);
    int32_t status = open_script(track, whole, size + sizeof events - 1);
    free(whole);
    return status;
}

void ass_process_codec_private(ASS_Track *track, const char *data, int size) {
    if (size < 0)
        return;
    int32_t status = open_script(track, data, (size_t)size);
    if (status == VIMALORUA_NO_EVENTS)
        status = open_header(track, data, (size_t)size);
    is_done(track->library, "a header", status);
}

void ass_process_chunk(ASS_Track *track, const char *data, int size, long long start, long long duration) {
    uint32_t field = 0;
    size_t place = 0;
    if (track->handle == NULL || size < 0)
        return;
    int32_t status =
        vimalorua_feed(track->handle, (const uint8_t *)data, (size_t)size, start, duration, &field, &place);
    if (status != VIMALORUA_REPEATED && is_done(track->library, "a chunk", status))
        track->n_events++;
}

void ass_flush_events(ASS_Track *track) {
    size_t place = 0;
    if (track->handle != NULL && is_done(track->library, "a flush", vimalorua_flush(track->handle, &place)))
        track->n_events = 0;
}

/* Gives a track those of the library's fonts, and the renderer's budget, that it hasn't got. */
static void make_ready(ASS_Renderer *renderer, ASS_Track *track) {
    ASS_Library *library = renderer->library;
    size_t place = 0;
    for (; track->fonts < library->count; track->fonts++) {
        const struct font *font = &library->fonts[track->fonts];
        is_done(library, "a font", vimalorua_add_font(track->handle, font->bytes, font->len, &place));
    }
    if (track->budget != renderer->budget &&
        is_done(library, "a budget", vimalorua_set_budget(track->handle, renderer->budget)))
        track->budget = renderer->budget;
}

ASS_Image *ass_render_frame(ASS_Renderer *renderer, ASS_Track *track, long long now, int *detect_change) {
    ASS_Image *list = NULL;
    int32_t change = VIMALORUA_OTHER_LIST;
    if (track->handle != NULL) {
        make_ready(renderer, track);
        is_done(renderer->library, "a frame",
                ass_images_render(track->handle, &renderer->images, now, renderer->w, renderer->h, &change, &list));
    }
    if (detect_change != NULL)
        *detect_change = change;
    return list;
}
