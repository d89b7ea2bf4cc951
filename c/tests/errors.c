/* Each status of a handle once, and each call for memory refused in turn: threads.c asks for those of seats. The heap
 * and ass_images.c are compiled as refusing.h says. */
#include "../ass_images.h"
#include "refusing.h"
#include "want.h"
#include <limits.h>
#include <stdio.h>
#include <stdlib.h>
#include <string.h>

enum { W = 16, H = 12, COUNT = 3 * W * H };

static const char script[] = "[Script Info]\nPlayResX: 16\nPlayResY: 12\n[V4+ Styles]\n[Events]\n"
                             "Dialogue: 0,0:00:00.00,0:00:01.00,Default,,0,0,0,,{\\pos(4,8)}a\n";

/* A font of one glyph, 8 by 8 pixels. */
static const char font[] =
    "STARTFONT 2.1\nFONT dot\nSIZE 8 75 75\nFONTBOUNDINGBOX 8 8 0 0\nSTARTPROPERTIES 2\nFONT_ASCENT 8\n"
    "FONT_DESCENT 0\nENDPROPERTIES\nCHARS 1\nSTARTCHAR a\nENCODING 97\nSWIDTH 500 0\nDWIDTH 8 0\nBBX 8 8 0 0\n"
    "BITMAP\nFF\n81\n81\n81\n81\n81\n81\nFF\nENDCHAR\nENDFONT\n";

static const char chunk[] = "7,1,Default,,0,0,0,,{\\fs4\\bord0\\shad0\\move(4,8,14,8)}a";

#define BYTES(text) (const uint8_t *)(text), sizeof(text) - 1

/* So many bytes of 0. */
static uint8_t *zeros(size_t count) {
    uint8_t *bytes = calloc(count, 1);
    if (bytes == NULL)
        exit(3);
    return bytes;
}

static vimalorua *opened(void) {
    vimalorua *handle = NULL;
    size_t place = 77;
    WANT(vimalorua_open(BYTES(script), 1 << 20, &handle, &place), VIMALORUA_DONE);
    WANT(place, 0);
    return handle;
}

/* A handle with the font and the script's line. */
static vimalorua *ready(void) {
    vimalorua *handle = opened();
    size_t place = 77;
    WANT(vimalorua_add_font(handle, BYTES(font), &place), VIMALORUA_DONE);
    WANT(vimalorua_feed_lines(handle, &place), VIMALORUA_DONE);
    WANT(place, 1);
    return handle;
}

static void opening(void) {
    vimalorua *handle = NULL;
    size_t place = 77;
    uint8_t *large = zeros(67108865);
    WANT(vimalorua_version(), VIMALORUA_VERSION);
    WANT(vimalorua_open(BYTES("[Events]\n\xff"), 0, &handle, &place), VIMALORUA_NOT_UTF8);
    WANT(place, 9);
    WANT(vimalorua_open(NULL, 0, 0, &handle, &place), VIMALORUA_NO_EVENTS);
    WANT(vimalorua_open(BYTES("nothing"), 0, &handle, &place), VIMALORUA_NO_EVENTS);
    WANT(place, 0);
    WANT(vimalorua_open(BYTES(script), (UINT64_C(1) << 40) + 1, &handle, &place), VIMALORUA_BAD_CALL);
    WANT(vimalorua_open(large, 67108865, 0, &handle, &place), VIMALORUA_BAD_CALL);
    WANT(vimalorua_open(large, 67108864, 0, &handle, &place), VIMALORUA_NO_EVENTS);
    WANT(handle != NULL, 0);
    free(large);
    WANT(vimalorua_open(BYTES(script), UINT64_C(1) << 40, &handle, &place), VIMALORUA_DONE);
    vimalorua_close(handle);
    vimalorua_close(NULL);
}

/* Puts the font behind a script as one that it holds, in lines of 80 characters, and tells how long it is then. */
static size_t with_held_font(char *text) {
    size_t at = strlen(strcat(text, "[Fonts]\nfontname: dot.bdf"));
    for (size_t i = 0; i < sizeof font - 1; i += 3) {
        uint32_t three = 0;
        for (size_t k = i; k < i + 3; k++)
            three = three << 8 | (k < sizeof font - 1 ? (uint8_t)font[k] : '\n');
        if (i % 60 == 0)
            text[at++] = '\n';
        for (int shift = 18; shift >= 0; shift -= 6)
            text[at++] = (char)(33 + (three >> shift & 63));
    }
    text[at++] = '\n';
    text[at] = 0;
    return at;
}

/* Adds the fonts that a text holds, and wants a status, a place and a count. */
static void holding(vimalorua *handle, const char *text, int32_t status, size_t place, size_t count) {
    size_t is_place = 77, is_count = 77;
    WANT(vimalorua_add_script_fonts(handle, (const uint8_t *)text, strlen(text), &is_place, &is_count), status);
    WANT(is_place, place);
    WANT(is_count, count);
}

static void held_fonts(void) {
    vimalorua *handle = opened();
    size_t place = 77, count = 77;
    uint8_t *large = zeros(67108865);
    char text[2048] = "";
    WANT(vimalorua_add_script_fonts(handle, large, 67108865, &place, &count), VIMALORUA_BAD_CALL);
    WANT(place, 0);
    WANT(count, 0);
    free(large);
    WANT(vimalorua_add_script_fonts(handle, NULL, 0, &place, &count), VIMALORUA_DONE);
    holding(handle, script, VIMALORUA_DONE, 0, 0);
    holding(handle, "[Fonts]\nfontname: a\nab cd\n", VIMALORUA_BAD_FONT_DATA, 3, 0);
    holding(handle, "[Fonts]\nfontname: a\n!!!!!\n", VIMALORUA_BAD_FONT_DATA, 2, 0);
    with_held_font(text);
    holding(handle, text, VIMALORUA_DONE, 0, 1);
    with_held_font(text);
    holding(handle, text, VIMALORUA_DONE, 1, 2);
    holding(handle, strcat(text, "fontname: a\n!!!!\n"), VIMALORUA_BAD_FONT, 2, 0);
    for (size_t i = 3; i < 64; i++)
        WANT(vimalorua_add_font(handle, BYTES(font), &place), VIMALORUA_DONE);
    holding(handle, script, VIMALORUA_DONE, 64, 0);
    text[0] = 0;
    with_held_font(text);
    holding(handle, text, VIMALORUA_MANY_FONTS, 64, 0);
    vimalorua_close(handle);
}

/* The name of the font, in just enough room, in too little, and in more. */
static void names(vimalorua *handle) {
    uint8_t out[8] = "aaaaaaaa";
    size_t len = 77;
    WANT(vimalorua_font_names(handle, 64, out, 8, &len), VIMALORUA_BAD_CALL);
    WANT(len, 0);
    WANT(vimalorua_font_names(handle, 0, NULL, 0, &len), VIMALORUA_DONE);
    WANT(len, 4);
    WANT(vimalorua_font_names(handle, 63, out, 3, &len), VIMALORUA_DONE);
    WANT(len, 4);
    WANT(memcmp(out, "aaaaaaaa", 8), 0);
    WANT(vimalorua_font_names(handle, 63, out, 4, &len), VIMALORUA_DONE);
    WANT(memcmp(out, "dot\0aaaa", 8), 0);
    WANT(vimalorua_font_names(handle, 1, out, 8, &len), VIMALORUA_DONE);
    WANT(len, 4);
    WANT(memcmp(out, "dot\0aaaa", 8), 0);
}

static void adding_fonts(void) {
    vimalorua *handle = opened();
    size_t place = 77, count = 77;
    uint8_t *large = zeros(67108865);
    WANT(vimalorua_add_font(handle, BYTES("STARTFONT 2.1\nFONT x\nBITMAP\n"), &place), VIMALORUA_BAD_FONT);
    WANT(place, 3);
    WANT(vimalorua_add_fonts(handle, BYTES("STARTFONT 2.1\nFONT x\nBITMAP\n"), &place, &count), VIMALORUA_BAD_FONT);
    WANT(place, 3);
    WANT(count, 0);
    WANT(vimalorua_add_font(handle, NULL, 0, &place), VIMALORUA_BAD_FONT);
    WANT(place, 1);
    WANT(vimalorua_add_font(handle, large, 67108865, &place), VIMALORUA_BAD_CALL);
    WANT(place, 0);
    free(large);
    for (size_t i = 0; i < 64; i++) {
        WANT(vimalorua_add_fonts(handle, BYTES(font), &place, &count), VIMALORUA_DONE);
        WANT(place, i);
        WANT(count, 1);
    }
    names(handle);
    WANT(vimalorua_add_font(handle, BYTES(font), &place), VIMALORUA_MANY_FONTS);
    WANT(place, 64);
    WANT(vimalorua_set_budget(handle, (UINT64_C(1) << 40) + 1), VIMALORUA_BAD_CALL);
    WANT(vimalorua_set_budget(handle, UINT64_C(1) << 40), VIMALORUA_DONE);
    WANT(vimalorua_set_budget(handle, 0), VIMALORUA_DONE);
    vimalorua_close(handle);
}

/* Feeds a chunk that is refused. */
static void refused_feed(vimalorua *handle, const char *bytes, int64_t start, int64_t duration, uint32_t which,
                         size_t at) {
    uint32_t field = 77;
    size_t place = 77;
    WANT(vimalorua_feed(handle, (const uint8_t *)bytes, strlen(bytes), start, duration, &field, &place),
         VIMALORUA_MALFORMED);
    WANT(field, which);
    WANT(place, at);
}

static void feeding(void) {
    vimalorua *handle = ready();
    uint32_t field = 77;
    size_t place = 77;
    uint8_t *large = zeros(134217729);
    WANT(vimalorua_feed(handle, large, 134217729, 0, 1, &field, &place), VIMALORUA_BAD_CALL);
    WANT(field, 0);
    WANT(place, 0);
    free(large);
    WANT(vimalorua_feed(handle, BYTES(chunk), 1000, 1000, &field, &place), VIMALORUA_DONE);
    WANT(field, 0);
    WANT(place, 1);
    WANT(vimalorua_feed(handle, BYTES(chunk), 1000, 1000, &field, &place), VIMALORUA_REPEATED);
    WANT(field, 0);
    WANT(place, 1);
    WANT(vimalorua_feed(handle, NULL, 0, 0, 1, &field, &place), VIMALORUA_MALFORMED);
    WANT(field, VIMALORUA_READ_ORDER);
    WANT(place, 0);
    refused_feed(handle, "x,0,Default,,0,0,0,,a", 0, 1, VIMALORUA_READ_ORDER, 0);
    refused_feed(handle, "8,x,Default,,0,0,0,,a", 0, 1, VIMALORUA_LAYER, 2);
    refused_feed(handle, "8,0", 0, 1, VIMALORUA_STYLE, 3);
    refused_feed(handle, "8,0,Default", 0, 1, VIMALORUA_NAME, 11);
    refused_feed(handle, "8,0,Default,,x,0,0,,a", 0, 1, VIMALORUA_MARGIN_L, 13);
    refused_feed(handle, "8,0,Default,,0,x,0,,a", 0, 1, VIMALORUA_MARGIN_R, 15);
    refused_feed(handle, "8,0,Default,,0,0,x,,a", 0, 1, VIMALORUA_MARGIN_V, 17);
    refused_feed(handle, "8,0,Default,,0,0,0", 0, 1, VIMALORUA_EFFECT, 18);
    refused_feed(handle, "8,0,Default,,0,0,0,", 0, 1, VIMALORUA_TEXT, 19);
    refused_feed(handle, "8,0,Default,,0,0,0,,\xff", 0, 1, VIMALORUA_UTF8, 20);
    refused_feed(handle, "8,0,Default,,0,0,0,,a", -1, 1, VIMALORUA_START, 21);
    refused_feed(handle, "8,0,Default,,0,0,0,,a", INT64_MAX, 1, VIMALORUA_START, 21);
    refused_feed(handle, "8,0,Default,,0,0,0,,a", 0, INT64_MIN, VIMALORUA_DURATION, 21);
    WANT(vimalorua_feed_lines(handle, &place), VIMALORUA_DONE);
    WANT(place, 2);
    WANT(vimalorua_flush(handle, &place), VIMALORUA_DONE);
    WANT(place, 2);
    vimalorua_close(handle);
}

static void drawing(void) {
    static const uint8_t untouched[COUNT] = {0};
    vimalorua *handle = opened();
    uint8_t out[COUNT] = {0};
    size_t place = 77;
    WANT(vimalorua_draw(handle, 0, W, H, out, COUNT), VIMALORUA_NO_FONT);
    vimalorua_close(handle);
    handle = ready();
    WANT(vimalorua_draw(handle, 0, W, H, out, COUNT - 1), VIMALORUA_BAD_CALL);
    WANT(vimalorua_draw(handle, 4000000000001, W, H, out, COUNT), VIMALORUA_BAD_CALL);
    WANT(vimalorua_draw(handle, INT64_MIN, W, H, out, COUNT), VIMALORUA_BAD_CALL);
    WANT(vimalorua_draw(handle, 0, 4097, 0, out, 0), VIMALORUA_BAD_CALL);
    WANT(vimalorua_draw(handle, 0, UINT32_MAX, UINT32_MAX, out, COUNT), VIMALORUA_BAD_CALL);
    WANT(memcmp(out, untouched, COUNT), 0);
    WANT(vimalorua_draw(handle, 0, 4096, 0, out, 0), VIMALORUA_DONE);
    WANT(vimalorua_draw(handle, 0, 4096, 0, NULL, 0), VIMALORUA_DONE);
    WANT(vimalorua_draw(handle, 0, W, H, NULL, 0), VIMALORUA_BAD_CALL);
    WANT(vimalorua_draw(handle, 500, W, H, out, COUNT), VIMALORUA_DONE);
    WANT(memcmp(out, untouched, COUNT) != 0, 1);
    WANT(vimalorua_flush(handle, &place), VIMALORUA_DONE);
    WANT(vimalorua_draw(handle, 500, W, H, out, COUNT), VIMALORUA_DONE);
    WANT(memcmp(out, untouched, COUNT), 0);
    vimalorua_close(handle);
}

/* A call with a view, and what it answers and leaves. */
static void seen(int line, const vimalorua_view *view, int32_t wanted) {
    static const uint8_t untouched[COUNT] = {0};
    vimalorua *handle = ready();
    uint8_t out[COUNT] = {0};
    size_t count = 77, bytes = 77;
    int32_t change = 77;
    want(__FILE__, line, vimalorua_draw_in(handle, 500, view, out, COUNT), wanted);
    want(__FILE__, line, memcmp(out, untouched, COUNT) != 0, wanted == VIMALORUA_DONE);
    want(__FILE__, line, vimalorua_images_in(handle, 500, view, &change, &count, &bytes), wanted);
    want(__FILE__, line, change == 77 && count == 77 && bytes == 77, wanted != VIMALORUA_DONE);
    vimalorua_close(handle);
}

/* A picture with alpha takes four bytes a pixel, and a form that there is; else the bytes stay. */
static void with_alpha(void) {
    static const uint8_t untouched[4 * W * H] = {0};
    vimalorua *handle = ready();
    vimalorua_view view = {.size = sizeof view, .w = W, .h = H};
    uint8_t out[4 * W * H] = {0};
    WANT(vimalorua_draw_alpha(handle, 500, W, H, 2, out, sizeof out), VIMALORUA_BAD_CALL);
    WANT(vimalorua_draw_alpha(handle, 500, W, H, VIMALORUA_STRAIGHT, out, COUNT), VIMALORUA_BAD_CALL);
    WANT(vimalorua_draw_alpha(handle, INT64_MAX, W, H, VIMALORUA_STRAIGHT, out, sizeof out), VIMALORUA_BAD_CALL);
    WANT(vimalorua_draw_alpha_in(handle, 500, &view, 2, out, sizeof out), VIMALORUA_BAD_CALL);
    view.unused = 1;
    WANT(vimalorua_draw_alpha_in(handle, 500, &view, VIMALORUA_STRAIGHT, out, sizeof out), VIMALORUA_BAD_CALL);
    WANT(memcmp(out, untouched, sizeof out), 0);
    WANT(vimalorua_draw_alpha(handle, 500, W, 0, VIMALORUA_STRAIGHT, NULL, 0), VIMALORUA_DONE);
    WANT(vimalorua_draw_alpha(handle, 500, W, H, VIMALORUA_PREMULTIPLIED, out, sizeof out), VIMALORUA_DONE);
    WANT(memcmp(out, untouched, sizeof out) != 0, 1);
    vimalorua_close(handle);
}

/* A view of no rows is drawn into no bytes. */
static void empty(vimalorua_view view) {
    vimalorua *handle = ready();
    view.h = 0;
    WANT(vimalorua_draw_in(handle, 500, &view, NULL, 0), VIMALORUA_DONE);
    vimalorua_close(handle);
}

/* A view with one number that is another one. */
#define SEEN(field, number, wanted)                                                                                    \
    do {                                                                                                               \
        vimalorua_view other = view;                                                                                   \
        other.field = number;                                                                                          \
        seen(__LINE__, &other, wanted);                                                                                \
    } while (0)

static void views(void) {
    vimalorua_view plain = {.size = sizeof plain, .w = W, .h = H};
    vimalorua_view view = {sizeof view, W, H, 0, 0, W, H, 65536, 65536, 65536, 65536, VIMALORUA_BY_ASPECT, 100000, 1, 0};
    struct {
        vimalorua_view view;
        uint32_t more[2];
    } later = {plain, {0, 0}};
    seen(__LINE__, &plain, VIMALORUA_DONE);
    empty(plain);
    with_alpha();
    plain.left = 5000;
    seen(__LINE__, &plain, VIMALORUA_DONE);
    plain.scale = UINT32_MAX;
    plain.size = 16;
    seen(__LINE__, &plain, VIMALORUA_DONE);
    plain.size = 15;
    seen(__LINE__, &plain, VIMALORUA_BAD_CALL);
    later.view.size = sizeof later;
    seen(__LINE__, &later.view, VIMALORUA_DONE);
    later.more[1] = 1;
    seen(__LINE__, &later.view, VIMALORUA_BAD_CALL);
    seen(__LINE__, &view, VIMALORUA_DONE);
    SEEN(w, 4097, VIMALORUA_BAD_CALL);
    SEEN(left, -4097, VIMALORUA_BAD_CALL);
    SEEN(top, 4097, VIMALORUA_BAD_CALL);
    SEEN(content_w, 0, VIMALORUA_BAD_CALL);
    SEEN(content_h, 4097, VIMALORUA_BAD_CALL);
    SEEN(storage_h, 0, VIMALORUA_BAD_CALL);
    SEEN(storage_w, 65537, VIMALORUA_BAD_CALL);
    SEEN(aspect_high, 0, VIMALORUA_BAD_CALL);
    SEEN(aspect_wide, 65537, VIMALORUA_BAD_CALL);
    SEEN(letters, 2, VIMALORUA_BAD_CALL);
    SEEN(scale, 100001, VIMALORUA_BAD_CALL);
    SEEN(use_bars, 2, VIMALORUA_BAD_CALL);
    SEEN(unused, 1, VIMALORUA_BAD_CALL);
}

/* Lists a frame, and wants such a change. */
static void list_changes(vimalorua *handle, int64_t ms, int32_t wanted, size_t *count, size_t *bytes) {
    int32_t change = -1;
    WANT(vimalorua_images(handle, ms, W, H, &change, count, bytes), VIMALORUA_DONE);
    WANT(change, wanted);
}

/* The gap in each image is written. */
static void gaps(vimalorua *handle, size_t count, size_t bytes) {
    vimalorua_image images[64];
    uint8_t masks[64 * COUNT];
    memset(images, 77, sizeof images);
    WANT(count <= 64, 1);
    WANT(vimalorua_copy_images(handle, images, count, masks, bytes), VIMALORUA_DONE);
    for (size_t i = 0; i < count; i++)
        WANT(images[i].unused, 0);
}

static void listing(void) {
    vimalorua *handle = opened();
    uint32_t field = 77;
    size_t place = 77, count = 77, bytes = 77;
    int32_t change = -1;
    vimalorua_image none[1];
    uint8_t masks[64 * COUNT];
    WANT(vimalorua_images(handle, 0, W, H, &change, &count, &bytes), VIMALORUA_NO_FONT);
    WANT(vimalorua_copy_images(handle, none, 0, masks, 0), VIMALORUA_DONE);
    WANT(vimalorua_copy_images(handle, NULL, 0, NULL, 0), VIMALORUA_DONE);
    vimalorua_close(handle);
    handle = ready();
    WANT(vimalorua_feed(handle, BYTES(chunk), 1000, 1000, &field, &place), VIMALORUA_DONE);
    WANT(vimalorua_images(handle, INT64_MAX, W, H, &change, &count, &bytes), VIMALORUA_BAD_CALL);
    WANT(vimalorua_images(handle, 0, 0, 4097, &change, &count, &bytes), VIMALORUA_BAD_CALL);
    list_changes(handle, 5000, VIMALORUA_SAME, &count, &bytes);
    WANT(count, 0);
    WANT(bytes, 0);
    list_changes(handle, 500, VIMALORUA_OTHER_LIST, &count, &bytes);
    WANT(count > 1 && bytes < sizeof masks, 1);
    WANT(vimalorua_copy_images(handle, none, 1, masks, bytes), VIMALORUA_BAD_CALL);
    gaps(handle, count, bytes);
    list_changes(handle, 600, VIMALORUA_SAME, &count, &bytes);
    list_changes(handle, 1200, VIMALORUA_OTHER_LIST, &count, &bytes);
    list_changes(handle, 1300, VIMALORUA_MOVED, &count, &bytes);
    vimalorua_close(handle);
}

/* Each status has a text of its own, and no other number has one of these. */
static void texts(void) {
    const char *other = vimalorua_status_text(-1);
    WANT(strcmp(vimalorua_status_text(VIMALORUA_WAS_FED + 1), other), 0);
    WANT(strcmp(vimalorua_status_text(VIMALORUA_OUT_OF_MEMORY), "out of memory"), 0);
    for (int32_t i = VIMALORUA_DONE; i <= VIMALORUA_WAS_FED; i++) {
        WANT(strcmp(vimalorua_status_text(i), other) != 0, 1);
        for (int32_t k = VIMALORUA_DONE; k < i; k++)
            WANT(strcmp(vimalorua_status_text(i), vimalorua_status_text(k)) != 0, 1);
    }
}

/* A text of a front, so many times a middle, and a back. */
static char *repeated(const char *front, const char *middle, size_t count, const char *back, size_t *len) {
    size_t step = strlen(middle), at = strlen(front);
    *len = at + count * step + strlen(back);
    char *text = malloc(*len + 1);
    if (text == NULL)
        exit(3);
    memcpy(text, front, at);
    for (size_t i = 0; i < count; i++, at += step)
        memcpy(text + at, middle, step);
    strcpy(text + at, back);
    return text;
}

static void many_lines(const char *front, const char *middle, size_t count, const char *back, int32_t wanted,
                       size_t most) {
    vimalorua *handle = NULL;
    size_t place = 77, len = 0;
    char *bytes = repeated(front, middle, count, back, &len);
    WANT(vimalorua_open((uint8_t *)bytes, len, 0, &handle, &place), wanted);
    WANT(place, most);
    vimalorua_close(handle);
    free(bytes);
}

static void many_glyphs(void) {
    static const char head[] =
        "STARTFONT 2.1\nFONT dot\nSIZE 8 75 75\nFONTBOUNDINGBOX 8 8 0 0\nSTARTPROPERTIES 2\nFONT_ASCENT 8\n"
        "FONT_DESCENT 0\nENDPROPERTIES\nCHARS 131073\n";
    static const char glyph[] = "STARTCHAR a\nENCODING -1\nSWIDTH 500 0\nDWIDTH 8 0\nBBX 0 0 0 0\nBITMAP\nENDCHAR\n";
    vimalorua *handle = opened();
    size_t place = 77, len = 0;
    char *bytes = repeated(head, glyph, 131073, "ENDFONT\n", &len);
    WANT(vimalorua_add_font(handle, (uint8_t *)bytes, len, &place), VIMALORUA_LARGE_FONT);
    WANT(place, 131072);
    vimalorua_close(handle);
    free(bytes);
}

static void many_events(void) {
    vimalorua *handle = opened();
    size_t place = 77;
    uint32_t field = 77;
    char text[64];
    for (int i = 0; i <= 1000000; i++) {
        int n = snprintf(text, sizeof text, "%d,0,Default,,0,0,0,,", i);
        int32_t wanted = i < 1000000 ? VIMALORUA_DONE : VIMALORUA_FULL;
        WANT(vimalorua_feed(handle, (uint8_t *)text, (size_t)n, 0, 1, &field, &place), wanted);
    }
    WANT(place, 1000000);
    for (int i = 0; i <= 1000000; i++)
        WANT(vimalorua_flush(handle, &place), i < 1000000 ? VIMALORUA_DONE : VIMALORUA_MANY_FLUSHES);
    WANT(place, 1000000);
    vimalorua_close(handle);
}

/* The statuses that tell of too many. */
static void limits(void) {
    many_lines("[Events]\n", "Dialogue: 0\n", 1000000, "", VIMALORUA_DONE, 0);
    many_lines("[Events]\n", "Dialogue: 0\n", 1000001, "", VIMALORUA_MANY_LINES, 1000000);
    many_lines("[V4+ Styles]\nFormat: Name, Fontname\n", "Style: a,b\n", 10001, "[Events]\n", VIMALORUA_MANY_STYLES,
               10000);
    many_glyphs();
    many_events();
}

/* A whole use of a handle, in which the call for memory after `n` others is refused: does one come? The picture is the
 * same, and no block is left. */
static int with_refusal(long n, const uint8_t *wanted) {
    static const uint8_t untouched[COUNT] = {0};
    int refused = 0;
    vimalorua *handle = NULL;
    ass_images images = {0};
    vimalorua_node *list = NULL;
    uint32_t field = 0;
    size_t place = 0, count = 0, bytes = 0;
    int32_t change = -1;
    uint8_t out[COUNT] = {0};
    static const uint8_t clear[4 * W * H] = {0};
    uint8_t rgba[4 * W * H] = {0};
    vimalorua_image numbers[64];
    uint8_t masks[64 * COUNT] = {0};
    vimalorua_view view = {.size = sizeof view, .w = W, .h = H};
    char held[1024] = "";
    size_t held_len = with_held_font(held);
    allowed = n;
    AGAIN(vimalorua_open(BYTES(script), 1 << 20, &handle, &place), handle == NULL && place == 0);
    AGAIN(vimalorua_add_font(handle, BYTES(font), &place), place == 0);
    AGAIN(vimalorua_add_script_fonts(handle, (uint8_t *)held, held_len, &place, &count), place == 0 && count == 0);
    WANT(place, 1);
    WANT(count, 1);
    AGAIN(vimalorua_font_names(handle, 0, out, COUNT, &count), count == 0 && memcmp(out, untouched, COUNT) == 0);
    WANT(count, 4);
    memset(out, 0, COUNT);
    AGAIN(vimalorua_set_budget(handle, 1 << 16), 1);
    AGAIN(vimalorua_feed_lines(handle, &place), place == 0);
    WANT(place, 1);
    AGAIN(vimalorua_feed(handle, BYTES(chunk), 1000, 1000, &field, &place), field == 0 && place == 0);
    WANT(place, 1);
    AGAIN(vimalorua_draw(handle, 500, W, H, out, COUNT), memcmp(out, untouched, COUNT) == 0);
    WANT(memcmp(out, wanted, COUNT), 0);
    AGAIN(vimalorua_draw_in(handle, 500, &view, out, COUNT), memcmp(out, wanted, COUNT) == 0);
    WANT(memcmp(out, wanted, COUNT), 0);
    AGAIN(vimalorua_draw_alpha(handle, 500, W, H, VIMALORUA_STRAIGHT, rgba, sizeof rgba), memcmp(rgba, clear, sizeof rgba) == 0);
    AGAIN(vimalorua_images(handle, 500, W, H, &change, &count, &bytes), 1);
    WANT(change, VIMALORUA_OTHER_LIST);
    WANT(count <= 64 && bytes <= sizeof masks, 1);
    AGAIN(vimalorua_copy_images(handle, numbers, count, masks, bytes), masks[0] == 0);
    AGAIN(ass_images_render(handle, &images, 1500, W, H, &change, &list), list == NULL);
    WANT(change, VIMALORUA_OTHER_LIST);
    WANT(list != NULL, 1);
    int before = refused;
    AGAIN(ass_images_render(handle, &images, 1500, W, H, &change, &list), list == NULL);
    WANT(change, refused != before ? VIMALORUA_OTHER_LIST : VIMALORUA_SAME);
    AGAIN(vimalorua_flush(handle, &place), 1);
    WANT(place, 2);
    allowed = -1;
    vimalorua_close(handle);
    ass_images_free(&images);
    WANT(blocks, 0);
    return refused;
}

static long refusals(void) {
    uint8_t wanted[COUNT];
    long n = 0;
    vimalorua *handle = ready();
    WANT(vimalorua_draw(handle, 500, W, H, wanted, COUNT), VIMALORUA_DONE);
    vimalorua_close(handle);
    while (with_refusal(n, wanted))
        n++;
    return n;
}

int main(void) {
    opening();
    texts();
    adding_fonts();
    held_fonts();
    feeding();
    drawing();
    views();
    listing();
    limits();
    WANT(blocks, 0);
    printf("%ld calls for memory refused, %d failures\n", refusals(), failures);
    return failures != 0;
}
