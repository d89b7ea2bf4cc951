/* What a player does to tracks, by libass's calls: each frame is that of a track that was made anew.
 *
 *   test SCRIPT FONT */
#include <ass/ass.h>
#include <stdint.h>
#include <stdio.h>
#include <stdlib.h>
#include <string.h>

enum { W = 320, H = 180, FLUSHES = 10000 };

static ASS_Library *library;
static ASS_Renderer *renderer, *other;
static int failures;

static void check(int holds, const char *what, long long ms) {
    if (!holds) {
        fprintf(stderr, "test: %s at %lld ms\n", what, ms);
        failures++;
    }
}

static void message(int level, const char *format, va_list words, void *data) {
    (void)data;
    if (level < 3) {
        vfprintf(stderr, format, words);
        fputc('\n', stderr);
    }
}

static char *read_file(const char *name, size_t *len) {
    FILE *file = fopen(name, "rb");
    char *bytes = malloc(1 << 24);
    if (!file || !bytes)
        exit(2);
    *len = fread(bytes, 1, 1 << 24, file);
    fclose(file);
    return bytes;
}

/* A sum of what is listed: places, colours and bytes. */
static uint64_t sum_of(const ASS_Image *image) {
    uint64_t sum = 1;
    for (; image; image = image->next) {
        uint64_t numbers[] = {(uint64_t)image->w,     (uint64_t)image->h,     image->color,
                              (uint64_t)image->dst_x, (uint64_t)image->dst_y, (uint64_t)image->type};
        for (size_t i = 0; i < 6; i++)
            sum = (sum ^ numbers[i]) * UINT64_C(1099511628211);
        for (int y = 0; y < image->h; y++)
            for (int x = 0; x < image->w; x++)
                sum = (sum ^ image->bitmap[y * image->stride + x]) * UINT64_C(1099511628211);
    }
    return sum;
}

static uint64_t frame(ASS_Renderer *by, ASS_Track *track, long long ms) {
    return sum_of(ass_render_frame(by, track, ms, NULL));
}

static uint64_t fresh_frame(char *script, size_t len, long long ms) {
    ASS_Track *track = ass_read_memory(library, script, len, NULL);
    uint64_t sum = frame(other, track, ms);
    ass_free_track(track);
    return sum;
}

/* A script's header, of words of its own, with a style that says all. */
#define HEAD(words, size, colour, alignment)                                                                         \
    "[Script Info]\nScriptType: v4.00+\nPlayResX: 640\nPlayResY: 360\n" words "\n[V4+ Styles]\n"                     \
    "Format: Name, Fontname, Fontsize, PrimaryColour, SecondaryColour, OutlineColour, BackColour, Bold, Italic, "    \
    "Underline, StrikeOut, ScaleX, ScaleY, Spacing, Angle, BorderStyle, Outline, Shadow, Alignment, MarginL, MarginR, "\
    "MarginV, Encoding\n"                                                                                            \
    "Style: Default,Letters," size "," colour ",&H0000FFFF,&H00402010,&H80203040,0,-1,0,0,90,100,0.5,0,1,3,1.5,"     \
    alignment ",10,20,30,1\n\n[Events]\n"                                                                            \
    "Format: Layer, Start, End, Style, Name, MarginL, MarginR, MarginV, Effect, Text\n"
#define LINE(text) "Dialogue: 0,0:00:00.00,0:01:00.00,Default,,0,0,0,," text "\n"
static const char head[] = HEAD("", "40", "&H00FFFFFF", "2");

/* A track of the head, and a script that has these lines. */
static ASS_Track *stream(void) {
    ASS_Track *track = ass_new_track(library);
    ass_process_codec_private(track, (char *)head, (int)strlen(head));
    return track;
}

static void feed(ASS_Track *track, int order, long long start, long long duration, const char *text) {
    char chunk[256];
    int len = snprintf(chunk, sizeof chunk, "%d,0,Default,,0,0,0,,%s", order, text);
    ass_process_chunk(track, chunk, len, start, duration);
}

static uint64_t lines_frame(const char *lines, long long ms) {
    char script[4096];
    int len = snprintf(script, sizeof script, "%s%s", head, lines);
    return fresh_frame(script, (size_t)len, ms);
}

/* Seeks back and forth, with two tracks that are shown in turn. */
static void seeks(char *script, size_t len) {
    ASS_Track *one = ass_read_memory(library, script, len, NULL), *two = stream();
    uint64_t wanted = lines_frame("Dialogue: 0,0:00:00.00,0:01:00.00,Default,,0,0,0,,two\n", 0);
    feed(two, 0, 0, 60000, "two");
    for (long long i = 0; i < 40; i++) {
        long long ms = i * 7919 % 8000;
        check(frame(renderer, one, ms) == fresh_frame(script, len, ms), "another picture behind a seek", ms);
        check(frame(renderer, two, ms) == wanted, "the second track has another picture", ms);
    }
    ass_free_track(one);
    ass_free_track(two);
}

/* A stream that is fed while it is shown, with chunks that come again. */
static void streamed(void) {
    ASS_Track *track = stream();
    feed(track, 0, 0, 2000, "first");
    check(frame(renderer, track, 1000) ==
              lines_frame("Dialogue: 0,0:00:00.00,0:00:02.00,Default,,0,0,0,,first\n", 1000),
          "the first chunk", 1000);
    feed(track, 0, 0, 2000, "first");
    feed(track, 1, 1000, 2000, "second");
    check(track->n_events == 2, "a chunk that came again is an event", track->n_events);
    check(frame(renderer, track, 1500) == lines_frame("Dialogue: 0,0:00:00.00,0:00:02.00,Default,,0,0,0,,first\n"
                                                      "Dialogue: 0,0:00:01.00,0:00:03.00,Default,,0,0,0,,second\n",
                                                      1500),
          "the second chunk", 1500);
    ass_free_track(track);
}

/* An event whose text is written anew behind each flush, as a player's own display does. */
static void flushed(void) {
    ASS_Track *track = stream();
    uint64_t a = lines_frame("Dialogue: 0,0:00:00.00,0:00:10.00,Default,,0,0,0,,a\n", 0);
    uint64_t b = lines_frame("Dialogue: 0,0:00:00.00,0:00:10.00,Default,,0,0,0,,b\n", 0);
    for (int i = 0; i < FLUSHES; i++) {
        ass_flush_events(track);
        feed(track, 0, 0, 10000, i % 2 ? "b" : "a");
        if (i % 97 == 0 || i > FLUSHES - 3)
            check(frame(renderer, track, 0) == (i % 2 ? b : a), "another picture behind so many flushes", i);
    }
    ass_flush_events(track);
    check(ass_render_frame(renderer, track, 0, NULL) == NULL, "a picture without events", 0);
    ass_free_track(track);
}

/* How a list differs from the one before: a track, a renderer or a text that changes makes it another one. */
static void changes(void) {
    ASS_Track *track = stream(), *second = stream();
    int change = -1;
    feed(track, 0, 0, 10000, "a");
    feed(second, 0, 0, 10000, "b");
    ass_render_frame(renderer, track, 0, &change);
    check(change == 2, "the first list isn't another one", change);
    ass_render_frame(renderer, track, 40, &change);
    check(change == 0, "a list that stays isn't the same", change);
    ass_render_frame(renderer, second, 40, &change);
    check(change == 2, "another track's list isn't another one", change);
    ass_render_frame(renderer, track, 40, &change);
    check(change == 2, "the first track's list isn't another one", change);
    feed(track, 1, 0, 10000, "more");
    ass_render_frame(renderer, track, 80, &change);
    check(change == 2, "a list of one event more isn't another one", change);
    ass_free_track(track);
    ass_free_track(second);
}

static ASS_Track *read_text(const char *text) {
    return ass_read_memory(library, (char *)(size_t)text, strlen(text), NULL);
}

/* A track's frame, and that of a script in its place. */
static void compare(ASS_Track *track, const char *script, const char *what) {
    ASS_Track *wanted = read_text(script);
    check(frame(renderer, track, 0) == frame(other, wanted, 0), what, 0);
    ass_free_track(wanted);
    ass_free_track(track);
}

/* What is written into a track, or forced on it, is as if its script said so. */
static void written(void) {
    static const char plain[] = HEAD("", "40", "&H00FFFFFF", "2") LINE("text");
    char *forced[] = {"Fontsize=60", "Default.PrimaryColour=&H0000FF", "Alignment=6", "None.Fontsize=9", NULL};
    ASS_Track *track = read_text(plain);
    frame(renderer, track, 0);
    strcpy(track->events[0].Text, "more");
    compare(track, HEAD("", "40", "&H00FFFFFF", "2") LINE("more"), "an event that was changed");
    track = read_text(plain);
    frame(renderer, track, 0);
    track->styles[1].FontSize = 60.5;
    compare(track, HEAD("", "60.5", "&H00FFFFFF", "2") LINE("text"), "a style that was changed");
    track = read_text(plain);
    track->styles[1].Blur = 3;
    compare(track, HEAD("", "40", "&H00FFFFFF", "2") LINE("{\\blur3}text"), "a style's blur");
    ass_set_style_overrides(library, forced);
    track = read_text(plain);
    ass_set_style_overrides(library, NULL);
    compare(track, HEAD("", "60", "&H0000FF", "8") LINE("text"), "forced styles");
}

/* A script's layout size counts in place of the video's. */
static void layout(void) {
    ASS_Track *track = read_text(HEAD("LayoutResX: 640\nLayoutResY: 640\n", "40", "&H00FFFFFF", "2") LINE("text"));
    ass_set_storage_size(other, 640, 640);
    compare(track, HEAD("", "40", "&H00FFFFFF", "2") LINE("text"), "a layout size");
    ass_set_storage_size(other, W, H);
}

/* Fonts that come and go while a track is shown. */
static void fonts(const char *font, size_t len) {
    ASS_Track *track = read_text(HEAD("", "40", "&H00FFFFFF", "2") LINE("text"));
    uint64_t before = frame(renderer, track, 0);
    ass_add_font(library, "no font", "none", 4);
    ass_add_font(library, "letters again", font, (int)len);
    check(frame(renderer, track, 0) == before, "fonts behind the first one change a picture", 0);
    ass_clear_fonts(library);
    ass_add_font(library, "letters", font, (int)len);
    check(frame(renderer, track, 0) == before, "the same font has another picture", 0);
    ass_free_track(track);
}

static ASS_Renderer *new_renderer(void) {
    ASS_Renderer *made = ass_renderer_init(library);
    ass_set_fonts(made, NULL, "sans-serif", ASS_FONTPROVIDER_NONE, NULL, 1);
    ass_set_frame_size(made, W, H);
    ass_set_storage_size(made, W, H);
    return made;
}

int main(int argc, char **argv) {
    size_t script_len = 0, font_len = 0;
    if (argc != 3)
        return 2;
    char *script = read_file(argv[1], &script_len), *font = read_file(argv[2], &font_len);
    unsetenv("VIMALORUA_FONTS");
    library = ass_library_init();
    ass_set_message_cb(library, message, NULL);
    ass_add_font(library, "letters", font, (int)font_len);
    renderer = new_renderer();
    other = new_renderer();
    seeks(script, script_len);
    streamed();
    flushed();
    changes();
    written();
    layout();
    fonts(font, font_len);
    ass_renderer_done(renderer);
    ass_renderer_done(other);
    ass_library_done(library);
    free(script);
    free(font);
    printf("%d failures\n", failures);
    return failures != 0;
}
