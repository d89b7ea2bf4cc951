/* What C puts to the proved library: a place for null pointers to 0 items, views as far as a program knows them,
 * closing and leaving, and texts of statuses. */
#include "vimalorua.h"

/* The proved library's calls that others stand before. None of their pointers is null. */
int32_t vimalorua_open_proved(const uint8_t *script, size_t script_len, uint64_t budget, vimalorua **out,
                              size_t *place);
int32_t vimalorua_add_fonts_proved(vimalorua *handle, const uint8_t *file, size_t file_len, size_t *first,
                                   size_t *count);
int32_t vimalorua_add_script_fonts_proved(vimalorua *handle, const uint8_t *script, size_t script_len, size_t *first,
                                          size_t *count);
int32_t vimalorua_font_names_proved(vimalorua *handle, size_t number, uint8_t *names, size_t room, size_t *len);
int32_t vimalorua_feed_proved(vimalorua *handle, const uint8_t *chunk, size_t chunk_len, int64_t start,
                              int64_t duration, uint32_t *field, size_t *place);
int32_t vimalorua_draw_proved(vimalorua *handle, int64_t ms, uint32_t w, uint32_t h, uint8_t *out, size_t out_len);
int32_t vimalorua_draw_by_numbers(vimalorua *handle, int64_t ms, const vimalorua_view *numbers, uint8_t *out,
                                  size_t out_len);
int32_t vimalorua_draw_alpha_by_numbers(vimalorua *handle, int64_t ms, const vimalorua_view *numbers, uint32_t form,
                                        uint8_t *out, size_t out_len);
int32_t vimalorua_images_by_numbers(vimalorua *handle, int64_t ms, const vimalorua_view *numbers, int32_t *change,
                                    size_t *count, size_t *bytes);
int32_t vimalorua_copy_images_proved(vimalorua *handle, vimalorua_image *images, size_t count, uint8_t *masks,
                                     size_t bytes);
void vimalorua_shut(vimalorua handle);
int32_t vimalorua_try_feed_proved(vimalorua_seat *seat, const uint8_t *chunk, size_t chunk_len, int64_t start,
                                  int64_t duration, uint32_t *field, size_t *place);
int32_t vimalorua_try_draw_proved(vimalorua_seat *seat, int64_t ms, uint32_t w, uint32_t h, uint8_t *out,
                                  size_t out_len, size_t *entries);
int32_t vimalorua_try_draw_by_numbers(vimalorua_seat *seat, int64_t ms, const vimalorua_view *numbers, uint8_t *out,
                                      size_t out_len, size_t *entries);
int32_t vimalorua_try_draw_alpha_by_numbers(vimalorua_seat *seat, int64_t ms, const vimalorua_view *numbers,
                                            uint32_t form, uint8_t *out, size_t out_len, size_t *entries);
int32_t vimalorua_try_list_by_numbers(vimalorua_seat *seat, int64_t ms, const vimalorua_view *numbers,
                                      int32_t *change, size_t *count, size_t *bytes, size_t *entries);
int32_t vimalorua_seat_copy_proved(vimalorua_seat *seat, vimalorua_image *images, size_t count, uint8_t *masks,
                                   size_t bytes);
void vimalorua_seat_shut(vimalorua_seat seat);
void rattle_dealloc(void *block);

/* Where no items stand. Nothing is read or written there. */
static vimalorua_image nowhere;

static const uint8_t *given(const uint8_t *bytes) { return bytes ? bytes : (const uint8_t *)&nowhere; }

static uint8_t *taken(uint8_t *bytes) { return bytes ? bytes : (uint8_t *)&nowhere; }

int32_t vimalorua_open(const uint8_t *script, size_t script_len, uint64_t budget, vimalorua **out, size_t *place) {
    return vimalorua_open_proved(given(script), script_len, budget, out, place);
}

int32_t vimalorua_add_fonts(vimalorua *handle, const uint8_t *file, size_t file_len, size_t *first, size_t *count) {
    return vimalorua_add_fonts_proved(handle, given(file), file_len, first, count);
}

int32_t vimalorua_add_font(vimalorua *handle, const uint8_t *font, size_t font_len, size_t *place) {
    size_t count;
    return vimalorua_add_fonts(handle, font, font_len, place, &count);
}

int32_t vimalorua_add_script_fonts(vimalorua *handle, const uint8_t *script, size_t script_len, size_t *first,
                                   size_t *count) {
    return vimalorua_add_script_fonts_proved(handle, given(script), script_len, first, count);
}

int32_t vimalorua_font_names(vimalorua *handle, size_t number, uint8_t *names, size_t room, size_t *len) {
    return vimalorua_font_names_proved(handle, number, taken(names), room, len);
}

int32_t vimalorua_feed(vimalorua *handle, const uint8_t *chunk, size_t chunk_len, int64_t start, int64_t duration,
                       uint32_t *field, size_t *place) {
    return vimalorua_feed_proved(handle, given(chunk), chunk_len, start, duration, field, place);
}

int32_t vimalorua_draw(vimalorua *handle, int64_t ms, uint32_t w, uint32_t h, uint8_t *out, size_t out_len) {
    return vimalorua_draw_proved(handle, ms, w, h, taken(out), out_len);
}

int32_t vimalorua_copy_images(vimalorua *handle, vimalorua_image *images, size_t count, uint8_t *masks, size_t bytes) {
    return vimalorua_copy_images_proved(handle, images ? images : &nowhere, count, taken(masks), bytes);
}

/* A view with all numbers, of which those that a program doesn't know are 0. What a program says beyond them is told by
 * `unused`. The proved library looks at the numbers. */
static vimalorua_view whole(const vimalorua_view *view) {
    vimalorua_view all = {0};
    const uint8_t *from = (const uint8_t *)view;
    uint8_t *to = (uint8_t *)&all;
    size_t known = view->size < sizeof all ? view->size : sizeof all;
    for (size_t i = 0; i < known; i++)
        to[i] = from[i];
    for (size_t i = known; i < view->size; i++)
        if (from[i] != 0)
            all.unused = 1;
    all.size = view->size;
    return all;
}

int32_t vimalorua_draw_in(vimalorua *handle, int64_t ms, const vimalorua_view *view, uint8_t *out, size_t out_len) {
    vimalorua_view all = whole(view);
    return vimalorua_draw_by_numbers(handle, ms, &all, taken(out), out_len);
}

int32_t vimalorua_draw_alpha_in(vimalorua *handle, int64_t ms, const vimalorua_view *view, uint32_t form,
                                uint8_t *out, size_t out_len) {
    vimalorua_view all = whole(view);
    return vimalorua_draw_alpha_by_numbers(handle, ms, &all, form, taken(out), out_len);
}

/* A view of a size alone. */
static vimalorua_view plain(uint32_t w, uint32_t h) {
    vimalorua_view view = {0};
    view.size = sizeof view;
    view.w = w;
    view.h = h;
    return view;
}

int32_t vimalorua_draw_alpha(vimalorua *handle, int64_t ms, uint32_t w, uint32_t h, uint32_t form, uint8_t *out,
                             size_t out_len) {
    vimalorua_view view = plain(w, h);
    return vimalorua_draw_alpha_by_numbers(handle, ms, &view, form, taken(out), out_len);
}

int32_t vimalorua_images_in(vimalorua *handle, int64_t ms, const vimalorua_view *view, int32_t *change, size_t *count,
                            size_t *bytes) {
    vimalorua_view all = whole(view);
    return vimalorua_images_by_numbers(handle, ms, &all, change, count, bytes);
}

int32_t vimalorua_try_feed(vimalorua_seat *seat, const uint8_t *chunk, size_t chunk_len, int64_t start,
                           int64_t duration, uint32_t *field, size_t *place) {
    return vimalorua_try_feed_proved(seat, given(chunk), chunk_len, start, duration, field, place);
}

int32_t vimalorua_try_draw(vimalorua_seat *seat, int64_t ms, uint32_t w, uint32_t h, uint8_t *out, size_t out_len,
                           size_t *entries) {
    return vimalorua_try_draw_proved(seat, ms, w, h, taken(out), out_len, entries);
}

int32_t vimalorua_try_draw_in(vimalorua_seat *seat, int64_t ms, const vimalorua_view *view, uint8_t *out,
                              size_t out_len, size_t *entries) {
    vimalorua_view all = whole(view);
    return vimalorua_try_draw_by_numbers(seat, ms, &all, taken(out), out_len, entries);
}

int32_t vimalorua_try_draw_alpha(vimalorua_seat *seat, int64_t ms, uint32_t w, uint32_t h, uint32_t form, uint8_t *out,
                                 size_t out_len, size_t *entries) {
    vimalorua_view view = plain(w, h);
    return vimalorua_try_draw_alpha_by_numbers(seat, ms, &view, form, taken(out), out_len, entries);
}

int32_t vimalorua_try_draw_alpha_in(vimalorua_seat *seat, int64_t ms, const vimalorua_view *view, uint32_t form,
                                    uint8_t *out, size_t out_len, size_t *entries) {
    vimalorua_view all = whole(view);
    return vimalorua_try_draw_alpha_by_numbers(seat, ms, &all, form, taken(out), out_len, entries);
}

int32_t vimalorua_try_list_in(vimalorua_seat *seat, int64_t ms, const vimalorua_view *view, int32_t *change,
                              size_t *count, size_t *bytes, size_t *entries) {
    vimalorua_view all = whole(view);
    return vimalorua_try_list_by_numbers(seat, ms, &all, change, count, bytes, entries);
}

int32_t vimalorua_seat_copy(vimalorua_seat *seat, vimalorua_image *images, size_t count, uint8_t *masks,
                            size_t bytes) {
    return vimalorua_seat_copy_proved(seat, images ? images : &nowhere, count, taken(masks), bytes);
}

/* A handle stands in a block. The proved library frees what is behind it, and this the block. */
struct vimalorua {
    void *at;
};

void vimalorua_close(vimalorua *handle) {
    if (handle) {
        vimalorua_shut(*handle);
        rattle_dealloc(handle);
    }
}

/* A seat does too. */
struct vimalorua_seat {
    void *at;
};

void vimalorua_leave(vimalorua_seat *seat) {
    if (seat) {
        vimalorua_seat_shut(*seat);
        rattle_dealloc(seat);
    }
}

const char *vimalorua_status_text(int32_t status) {
    switch (status) {
    case VIMALORUA_DONE: return "done";
    case VIMALORUA_NOT_UTF8: return "not UTF-8";
    case VIMALORUA_NO_EVENTS: return "no [Events] section";
    case VIMALORUA_MANY_LINES: return "too many lines";
    case VIMALORUA_MANY_STYLES: return "too many styles";
    case VIMALORUA_OUT_OF_MEMORY: return "out of memory";
    case VIMALORUA_BAD_FONT: return "bad font";
    case VIMALORUA_LARGE_FONT: return "too many glyphs or faces in a font";
    case VIMALORUA_MANY_FONTS: return "too many fonts";
    case VIMALORUA_NO_FONT: return "no font";
    case VIMALORUA_REPEATED: return "repeated ReadOrder";
    case VIMALORUA_MALFORMED: return "malformed event";
    case VIMALORUA_FULL: return "too many events";
    case VIMALORUA_MANY_FLUSHES: return "too many flushes";
    case VIMALORUA_BAD_CALL: return "number or length out of range";
    case VIMALORUA_CLOSED: return "closed handle";
    case VIMALORUA_BAD_FONT_DATA: return "bad font data in the script";
    case VIMALORUA_BUSY: return "busy track";
    case VIMALORUA_NOT_FIRST: return "not the first seat";
    case VIMALORUA_MANY_SEATS: return "too many seats";
    case VIMALORUA_WAS_FED: return "events fed already";
    }
    return "unknown status";
}
