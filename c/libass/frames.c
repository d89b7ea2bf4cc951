/* Frames: the handle of a track as it now is, and lists of its images. */
#include "drop_in.h"
#include <stdlib.h>
#include <string.h>

#define LAST_INSTANT INT64_C(4000000000000)
#define MOST_PARTS 65536
#define AHEAD 8
#define OTHER_ORDERS 0x40000000 /* from here on, for events whose ReadOrder is another one's */

long long within(long long number, long long least, long long most) {
    return number < least ? least : number > most ? most : number;
}

/* The handle as it was opened, without events. Its own text is taken where the track's fields say just what it said. */
static int32_t open_handle(ASS_Track *track, const ASS_Style *override, int is_as_read, uint64_t budget) {
    static const char events[] = "\n[Events]\n";
    struct parser_priv *own = track->parser_priv;
    size_t len = 0, place = 0;
    char *text = NULL;
    int32_t status = VIMALORUA_NO_EVENTS;
    vimalorua_close(own->handle);
    own->handle = NULL;
    own->font_count = own->taken = 0;
    own->has_script_fonts = 0;
    own->budget = budget;
    if (is_as_read)
        status = vimalorua_open((uint8_t *)own->text, own->text_len, budget, &own->handle, &place);
    if (status == VIMALORUA_NO_EVENTS && is_as_read) {
        len = own->text_len + sizeof events - 1;
        if ((text = malloc(len))) {
            memcpy(text, own->text, own->text_len);
            memcpy(text + own->text_len, events, sizeof events - 1);
        }
    } else if (status == VIMALORUA_NO_EVENTS)
        text = written_script(track, override, &len);
    if (text)
        status = vimalorua_open((uint8_t *)text, len, budget, &own->handle, &place);
    free(text);
    is_done(track->library, "a script", status, place);
    return status;
}

static int is_text(const char *kept, const char *text) { return text ? !strcmp(kept, text) : *kept == 0; }

static int is_as_fed(const struct fed *fed, const ASS_Event *event) {
    return fed->start == event->Start && fed->duration == event->Duration && fed->order == event->ReadOrder &&
           fed->layer == event->Layer && fed->style == event->Style && fed->margin_l == event->MarginL &&
           fed->margin_r == event->MarginR && fed->margin_v == event->MarginV && is_text(fed->texts, event->Text) &&
           is_text(fed->texts + fed->text_len + 1, event->Effect);
}

/* How many events are as they were fed, from the first on. Texts a few events ahead are fetched meanwhile. */
static int count_same(const struct fed *fed, int fed_count, const ASS_Event *events, int count) {
    int most = fed_count < count ? fed_count : count, same = 0;
    while (same < most && is_as_fed(&fed[same], &events[same])) {
        int ahead = same + AHEAD < most ? same + AHEAD : same;
        __builtin_prefetch(events[ahead].Text);
        __builtin_prefetch(events[ahead].Effect);
        __builtin_prefetch(fed[ahead].texts);
        same++;
    }
    return same;
}

/* Forgets what was fed from an event on. */
static void forget(struct parser_priv *own, int from) {
    for (int i = from; i < own->fed_count; i++)
        free(own->fed[i].texts);
    own->fed_count = from;
}

/* Keeps how an event was fed. Whether there was memory for it. */
static int remember(struct parser_priv *own, const ASS_Event *event) {
    const char *text = event->Text ? event->Text : "", *effect = event->Effect ? event->Effect : "";
    size_t text_len = strlen(text), effect_len = strlen(effect);
    char *texts = malloc(text_len + effect_len + 2);
    if (texts && own->fed_count == own->fed_room) {
        struct fed *more = realloc(own->fed, (size_t)(own->fed_room * 2 + 16) * sizeof *more);
        if (!more) {
            free(texts);
            return 0;
        }
        own->fed = more;
        own->fed_room = own->fed_room * 2 + 16;
    }
    if (!texts)
        return 0;
    memcpy(texts, text, text_len + 1);
    memcpy(texts + text_len + 1, effect, effect_len + 1);
    own->fed[own->fed_count++] =
        (struct fed){event->Start,   event->Duration, event->ReadOrder, event->Layer, event->Style,
                     event->MarginL, event->MarginR,  event->MarginV,   texts,        text_len};
    return 1;
}

static int32_t feed_chunk(ASS_Track *track, const ASS_Event *event, int order, size_t *place) {
    long long start = within(event->Start, 0, LAST_INSTANT);
    long long duration = within(event->Duration, 0, LAST_INSTANT - start);
    uint32_t field = 0;
    size_t len = 0;
    char *text = written_chunk(track, event, order, &len);
    int32_t status = VIMALORUA_OUT_OF_MEMORY;
    if (text)
        status = vimalorua_feed(track->parser_priv->handle, (uint8_t *)text, len, start, duration, &field, place);
    free(text);
    return status;
}

/* Feeds the events from one on. libass takes any number of events of one ReadOrder; a handle one. */
static int feed_from(ASS_Track *track, int from) {
    for (int i = from; i < track->n_events; i++) {
        const ASS_Event *event = &track->events[i];
        size_t place = 0;
        int32_t status = feed_chunk(track, event, event->ReadOrder, &place);
        if (status == VIMALORUA_REPEATED)
            status = feed_chunk(track, event, OTHER_ORDERS + i, &place);
        is_done(track->library, "an event", status, place);
        find_families_of_text(track->library, event->Text ? event->Text : "");
        if (status == VIMALORUA_OUT_OF_MEMORY || !remember(track->parser_priv, event))
            return 0;
    }
    return 1;
}

/* Drops what was fed where an event of it was changed or taken away. Whether that could be done. */
static int drop_changed(ASS_Track *track) {
    struct parser_priv *own = track->parser_priv;
    size_t place = 0;
    if (count_same(own->fed, own->fed_count, track->events, track->n_events) == own->fed_count)
        return 1;
    forget(own, 0);
    return vimalorua_flush(own->handle, &place) == VIMALORUA_DONE;
}

/* Offers a handle the fonts of a file. How many it took. */
static size_t offer_font(vimalorua *handle, const struct font *font, ASS_Library *library) {
    size_t place = 0, count = 0;
    is_done(library, font->name, vimalorua_add_fonts(handle, font->bytes, font->len, &place, &count), place);
    return count;
}

/* Offers a handle the fonts of the script that its track was read from. How many it took. */
static size_t offer_script_fonts(const struct parser_priv *own, ASS_Library *library) {
    size_t place = 0, count = 0;
    if (own->text && library->takes_script_fonts)
        is_done(library, "fonts of a script",
                vimalorua_add_script_fonts(own->handle, (uint8_t *)own->text, own->text_len, &place, &count), place);
    return count;
}

/* Offers the handle those of the library's fonts that it wasn't offered yet, and the script's own. */
static void offer_fonts(ASS_Track *track) {
    struct parser_priv *own = track->parser_priv;
    ASS_Library *library = track->library;
    for (; own->font_count < library->font_count; own->font_count++)
        own->taken += offer_font(own->handle, &library->fonts[own->font_count], library);
    if (!own->has_script_fonts)
        own->taken += offer_script_fonts(own, library);
    own->has_script_fonts = 1;
}

/* The style that stands in place of all others, or null. */
static const ASS_Style *override_of(const ASS_Renderer *renderer) {
    return renderer->override_bits & (ASS_OVERRIDE_BIT_STYLE | ASS_OVERRIDE_FULL_STYLE) ? &renderer->override : NULL;
}

/* A sum of what a handle is opened with beside the header: the style that stands for others, and the fonts' list. */
static uint64_t opening_sum(uint64_t header, const ASS_Style *override, const ASS_Library *library) {
    uint64_t sum = sum_of(header, &library->list_number, sizeof library->list_number);
    if (override)
        sum = sum_of(sum, &override->FontSize, sizeof *override - offsetof(ASS_Style, FontSize));
    if (override && override->FontName)
        sum = sum_of(sum, override->FontName, strlen(override->FontName));
    return sum;
}

/* Opens the handle where there is none, or where the header, the styles or the fonts' list became others. */
static int open_as_needed(const ASS_Renderer *renderer, ASS_Track *track) {
    struct parser_priv *own = track->parser_priv;
    const ASS_Style *override = override_of(renderer);
    uint64_t header = header_sum(track), wanted = opening_sum(header, override, track->library);
    if (own->handle && wanted == own->opened_sum)
        return 1;
    forget(own, 0);
    own->opened_sum = wanted;
    return open_handle(track, override, own->text && header == own->text_sum && !override, renderer->budget) ==
           VIMALORUA_DONE;
}

/* Makes the handle one of the track as it now is, for this renderer. */
static int make_ready(const ASS_Renderer *renderer, ASS_Track *track) {
    struct parser_priv *own = track->parser_priv;
    complete_canvas(track);
    for (int i = 0; i < track->n_styles; i++)
        find_family(track->library, track->styles[i].FontName ? track->styles[i].FontName : "");
    if (!open_as_needed(renderer, track))
        return 0;
    if (!drop_changed(track)) { /* a handle has so many flushes */
        vimalorua_close(own->handle);
        own->handle = NULL;
        if (!open_as_needed(renderer, track))
            return 0;
    }
    if (own->budget != renderer->budget && vimalorua_set_budget(own->handle, renderer->budget) == VIMALORUA_DONE)
        own->budget = renderer->budget;
    if (!feed_from(track, own->fed_count))
        return 0;
    offer_fonts(track);
    if (own->taken == 0 && add_last_font(track->library))
        offer_fonts(track);
    return 1;
}

/* The shape of the video's pixels, in parts of up to 65,536. */
static void set_aspect(vimalorua_view *view, double aspect) {
    double wide = aspect < 1 ? aspect * MOST_PARTS : MOST_PARTS, high = aspect < 1 ? MOST_PARTS : MOST_PARTS / aspect;
    view->aspect_wide = (uint32_t)within((long long)(wide + 0.5), 1, MOST_PARTS);
    view->aspect_high = (uint32_t)within((long long)(high + 0.5), 1, MOST_PARTS);
}

/* The frame as the renderer's settings say it, and the layout size of a script that has one: it counts in place of the
 * video's size and of the shape of its pixels. */
static vimalorua_view view_of(const ASS_Renderer *renderer, const ASS_Track *track) {
    vimalorua_view view = {.size = sizeof view, .letters = VIMALORUA_BY_ASPECT};
    int has_layout = track->LayoutResX > 0 && track->LayoutResY > 0;
    int storage_w = has_layout ? track->LayoutResX : renderer->storage_w;
    int storage_h = has_layout ? track->LayoutResY : renderer->storage_h;
    view.w = (uint32_t)renderer->w;
    view.h = (uint32_t)renderer->h;
    view.left = renderer->left;
    view.top = renderer->top;
    view.content_w = (uint32_t)(renderer->w - renderer->left - renderer->right);
    view.content_h = (uint32_t)(renderer->h - renderer->top - renderer->bottom);
    if (storage_w > 0 && storage_h > 0) {
        view.storage_w = (uint32_t)storage_w;
        view.storage_h = (uint32_t)storage_h;
    }
    if (!has_layout && renderer->pixel_aspect > 0)
        set_aspect(&view, renderer->pixel_aspect);
    view.scale = (uint32_t)within((long long)(renderer->font_scale * 1000 + 0.5), 1, 100000);
    view.use_bars = renderer->use_margins != 0;
    return view;
}

static int make_room(ASS_Renderer *renderer, size_t count, size_t bytes) {
    if (renderer->image_room <= count || renderer->mask_room <= bytes) {
        free(renderer->images);
        free(renderer->nodes);
        free(renderer->masks);
        renderer->image_room = count + count / 2 + 1;
        renderer->mask_room = bytes + bytes / 2 + 1;
        renderer->images = malloc(renderer->image_room * sizeof *renderer->images);
        renderer->nodes = malloc(renderer->image_room * sizeof *renderer->nodes);
        renderer->masks = malloc(renderer->mask_room);
    }
    if (renderer->images && renderer->nodes && renderer->masks)
        return 1;
    renderer->image_room = renderer->mask_room = 0;
    return 0;
}

static ASS_Image *make_nodes(ASS_Renderer *renderer, size_t count) {
    for (size_t i = 0; i < count; i++) {
        const vimalorua_image *from = &renderer->images[i];
        renderer->nodes[i] = (ASS_Image){
            .w = (int)from->w,
            .h = (int)from->h,
            .stride = (int)from->w,
            .bitmap = renderer->masks + from->at,
            .color = (uint32_t)from->r << 24 | (uint32_t)from->g << 16 | (uint32_t)from->b << 8 | from->a,
            .dst_x = from->x,
            .dst_y = from->y,
            .next = i + 1 < count ? &renderer->nodes[i + 1] : NULL,
            .type = IMAGE_TYPE_CHARACTER,
        };
    }
    return count ? renderer->nodes : NULL;
}

/* The list of a frame. Whether there is one; a failure is told once. */
static int list_frame(ASS_Renderer *renderer, ASS_Track *track, long long now, int32_t *change, size_t *count) {
    vimalorua *handle = track->parser_priv->handle;
    vimalorua_view view = view_of(renderer, track);
    size_t bytes = 0;
    int32_t status =
        vimalorua_images_in(handle, within(now, -LAST_INSTANT, LAST_INSTANT), &view, change, count, &bytes);
    if (status == VIMALORUA_DONE && !make_room(renderer, *count, bytes))
        status = VIMALORUA_OUT_OF_MEMORY;
    if (status == VIMALORUA_DONE)
        status = vimalorua_copy_images(handle, renderer->images, *count, renderer->masks, bytes);
    if (status != VIMALORUA_DONE && !renderer->has_failed)
        is_done(track->library, "a frame", status, 0);
    renderer->has_failed = status != VIMALORUA_DONE;
    return status == VIMALORUA_DONE;
}

SHOWN ASS_Image *ass_render_frame(ASS_Renderer *renderer, ASS_Track *track, long long now, int *detect_change) {
    int32_t change = VIMALORUA_OTHER_LIST;
    size_t count = 0;
    const ASS_Track *last = renderer->last;
    const vimalorua *handle = track->parser_priv->handle;
    const ASS_Renderer *lister = track->parser_priv->lister;
    renderer->last = NULL;
    track->parser_priv->lister = renderer;
    if (detect_change)
        *detect_change = 2;
    if (renderer->w == 0 || renderer->h == 0 || !make_ready(renderer, track) ||
        !list_frame(renderer, track, now, &change, &count))
        return NULL;
    renderer->last = track;
    if (detect_change && last == track && lister == renderer && handle == track->parser_priv->handle)
        *detect_change = change;
    return make_nodes(renderer, count);
}
