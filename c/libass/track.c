/* Tracks: their events and styles, as programs read and write them. */
#include "drop_in.h"
#include <limits.h>
#include <stdlib.h>
#include <string.h>
#include <strings.h>

#define MOST_ORDERS (1 << 26)
#define SUM_OF_NOTHING UINT64_C(1469598103934665603)

static char *text_of(const char *text) { return copy_of(text, strlen(text)); }

uint64_t sum_of(uint64_t before, const void *bytes, size_t len) {
    const uint8_t *at = bytes;
    for (size_t i = 0; i < len; i++)
        before = (before ^ at[i]) * UINT64_C(1099511628211);
    return before;
}

static uint64_t sum_of_text(uint64_t before, const char *text) {
    return text ? sum_of(before, text, strlen(text) + 1) : sum_of(before, "\1", 1);
}

/* Tells the canvas: what the header doesn't say of it is libass's. */
static void canvas_of(const ASS_Track *track, int *w, int *h) {
    int has_w = track->PlayResX > 0, has_h = track->PlayResY > 0;
    *w = has_w ? track->PlayResX : 384;
    *h = has_h ? track->PlayResY : 288;
    if (has_w && !has_h)
        *h = *w == 1280 ? 1024 : (int)within(*w * 3LL / 4, 1, INT_MAX);
    if (has_h && !has_w)
        *w = *h == 1024 ? 1280 : (int)within(*h * 4LL / 3, 1, INT_MAX);
}

void complete_canvas(ASS_Track *track) { canvas_of(track, &track->PlayResX, &track->PlayResY); }

uint64_t header_sum(const ASS_Track *track) {
    int w, h;
    canvas_of(track, &w, &h);
    int numbers[] = {w, h, track->WrapStyle, track->ScaledBorderAndShadow, track->n_styles, (int)track->track_type};
    uint64_t sum = sum_of(SUM_OF_NOTHING, numbers, sizeof numbers);
    for (int i = 0; i < track->n_styles; i++) {
        const ASS_Style *style = &track->styles[i];
        sum = sum_of_text(sum_of_text(sum, style->Name), style->FontName);
        sum = sum_of(sum, &style->FontSize, sizeof *style - offsetof(ASS_Style, FontSize));
    }
    return sum;
}

/* libass's style of a track that has none. */
static int add_default_style(ASS_Track *track) {
    int id = ass_alloc_style(track);
    if (id < 0)
        return 0;
    track->styles[id] = (ASS_Style){
        .Name = text_of("Default"),
        .FontName = text_of("Arial"),
        .FontSize = 18,
        .PrimaryColour = 0xffffff00,
        .SecondaryColour = 0x00ffff00,
        .OutlineColour = 0,
        .BackColour = 0x00000080,
        .Bold = 200,
        .ScaleX = 1,
        .ScaleY = 1,
        .BorderStyle = 1,
        .Outline = 2,
        .Shadow = 3,
        .Alignment = HALIGN_CENTER | VALIGN_SUB,
        .MarginL = 20,
        .MarginR = 20,
        .MarginV = 20,
    };
    return 1;
}

SHOWN ASS_Track *ass_new_track(ASS_Library *library) {
    ASS_Track *track = calloc(1, sizeof *track);
    if (!track || !(track->parser_priv = calloc(1, sizeof *track->parser_priv))) {
        free(track);
        return NULL;
    }
    track->library = library;
    track->parser_priv->checks_order = 1;
    if (add_default_style(track))
        return track;
    ass_free_track(track);
    return NULL;
}

SHOWN void ass_free_style(ASS_Track *track, int id) {
    free(track->styles[id].Name);
    free(track->styles[id].FontName);
    memset(&track->styles[id], 0, sizeof track->styles[id]);
}

SHOWN void ass_free_event(ASS_Track *track, int id) {
    ASS_Event *event = &track->events[id];
    free(event->Name);
    free(event->Effect);
    free(event->Text);
    memset(event, 0, sizeof *event);
}

/* Room for one item more, twice as many where there is none. Null where memory runs out. */
static void *grown(void *items, int count, int *most, size_t size) {
    if (count < *most)
        return items;
    void *more = realloc(items, (size_t)(*most * 2 + 16) * size);
    if (more)
        *most = *most * 2 + 16;
    return more;
}

SHOWN int ass_alloc_style(ASS_Track *track) {
    ASS_Style *styles = grown(track->styles, track->n_styles, &track->max_styles, sizeof *styles);
    if (!styles)
        return -1;
    track->styles = styles;
    memset(&styles[track->n_styles], 0, sizeof *styles);
    return track->n_styles++;
}

SHOWN int ass_alloc_event(ASS_Track *track) {
    ASS_Event *events = grown(track->events, track->n_events, &track->max_events, sizeof *events);
    if (!events)
        return -1;
    track->events = events;
    memset(&events[track->n_events], 0, sizeof *events);
    return track->n_events++;
}

SHOWN void ass_flush_events(ASS_Track *track) {
    for (int i = 0; i < track->n_events; i++)
        ass_free_event(track, i);
    track->n_events = 0;
    free(track->parser_priv->orders);
    track->parser_priv->orders = NULL;
    track->parser_priv->order_words = 0;
}

SHOWN void ass_free_track(ASS_Track *track) {
    if (!track)
        return;
    struct parser_priv *own = track->parser_priv;
    ass_flush_events(track);
    for (int i = 0; i < track->n_styles; i++)
        ass_free_style(track, i);
    for (int i = 0; i < own->fed_count; i++)
        free(own->fed[i].texts);
    free(own->fed);
    vimalorua_close(own->handle);
    free(own->text);
    free(own);
    free(track->styles);
    free(track->events);
    free(track->style_format);
    free(track->event_format);
    free(track->Language);
    free(track->name);
    free(track);
}

SHOWN int ass_track_set_feature(ASS_Track *track, ASS_Feature feature, int enable) {
    return (void)track, (void)feature, (void)enable, -1;
}

SHOWN void ass_set_check_readorder(ASS_Track *track, int check) { track->parser_priv->checks_order = check; }

/* An override of the header. Whether its name is one of the header's. */
static int apply_to_header(ASS_Track *track, const char *name, const char *value) {
    if (!strcasecmp(name, "PlayResX"))
        track->PlayResX = atoi(value);
    else if (!strcasecmp(name, "PlayResY"))
        track->PlayResY = atoi(value);
    else if (!strcasecmp(name, "LayoutResX"))
        track->LayoutResX = atoi(value);
    else if (!strcasecmp(name, "LayoutResY"))
        track->LayoutResY = atoi(value);
    else if (!strcasecmp(name, "Timer"))
        track->Timer = atof(value);
    else if (!strcasecmp(name, "WrapStyle"))
        track->WrapStyle = atoi(value);
    else if (!strcasecmp(name, "ScaledBorderAndShadow"))
        track->ScaledBorderAndShadow = is_yes(value);
    else if (!strcasecmp(name, "Kerning"))
        track->Kerning = is_yes(value);
    else if (!strcasecmp(name, "YCbCr Matrix"))
        read_matrix(track, value);
    else
        return 0;
    return 1;
}

/* One override: Field=value of the header, or of all styles, or Style.Field=value. */
static void apply_override(ASS_Track *track, char *text) {
    char *value = strrchr(text, '=');
    if (!value)
        return;
    *value++ = 0;
    if (apply_to_header(track, text, value))
        return;
    char *field = strrchr(text, '.');
    const char *style = field ? text : NULL;
    if (field)
        *field++ = 0;
    for (int i = 0; i < track->n_styles; i++)
        if (!style || (track->styles[i].Name && !strcasecmp(track->styles[i].Name, style)))
            set_style_field(&track->styles[i], field ? field : text, value);
}

void apply_overrides(ASS_Track *track) {
    locale_t before = begin_plain_numbers();
    for (char **at = track->library->overrides; at && *at; at++) {
        char *text = text_of(*at);
        if (text)
            apply_override(track, text);
        free(text);
    }
    end_plain_numbers(before);
}

SHOWN void ass_process_force_style(ASS_Track *track) { apply_overrides(track); }

/* Reads more of a script, up to a 0 or so many bytes, and keeps its text. */
static void take_text(ASS_Track *track, const char *bytes, size_t most) {
    struct parser_priv *own = track->parser_priv;
    size_t len = strnlen(bytes, most);
    char *text = realloc(own->text, own->text_len + len + 1);
    if (!text)
        return;
    own->text = text;
    memcpy(text + own->text_len, bytes, len);
    text[own->text_len + len] = 0;
    make_utf8(text + own->text_len, len);
    read_text(track, text + own->text_len);
    own->text_len += len;
    own->text_sum = header_sum(track);
    apply_overrides(track);
}

SHOWN void ass_process_data(ASS_Track *track, char *bytes, int len) {
    if (len > 0)
        take_text(track, bytes, (size_t)len);
}

SHOWN void ass_process_codec_private(ASS_Track *track, char *bytes, int len) { ass_process_data(track, bytes, len); }

/* Marks a ReadOrder as one that was seen. Whether it was before. */
static int was_seen(struct parser_priv *own, int order) {
    size_t word = (size_t)order / 32;
    uint32_t bit = UINT32_C(1) << (order % 32);
    if (order < 0 || order >= MOST_ORDERS)
        return 0;
    if (word >= own->order_words) {
        uint32_t *more = realloc(own->orders, (word + 1) * 2 * sizeof *more);
        if (!more)
            return 0;
        memset(more + own->order_words, 0, ((word + 1) * 2 - own->order_words) * sizeof *more);
        own->orders = more;
        own->order_words = (word + 1) * 2;
    }
    int seen = (own->orders[word] & bit) != 0;
    own->orders[word] |= bit;
    return seen;
}

/* Whether the last event has a ReadOrder that an event before it has. */
static int is_repeated(ASS_Track *track) {
    struct parser_priv *own = track->parser_priv;
    if (!own->checks_order)
        return 0;
    for (int i = 0; own->order_words == 0 && i + 1 < track->n_events; i++)
        was_seen(own, track->events[i].ReadOrder);
    return was_seen(own, track->events[track->n_events - 1].ReadOrder);
}

SHOWN void ass_process_chunk(ASS_Track *track, char *bytes, int len, long long start, long long duration) {
    static const char format[] = "ReadOrder, Layer, Style, Name, MarginL, MarginR, MarginV, Effect, Text";
    char *text = len >= 0 ? copy_of(bytes, (size_t)len) : NULL;
    int id = text ? ass_alloc_event(track) : -1;
    if (id >= 0) {
        size_t whole = strlen(text);
        make_utf8(text, whole);
        int is_read = read_event(track, &track->events[id], format, text, text + whole);
        track->events[id].Start = start;
        track->events[id].Duration = duration;
        if (!is_read || is_repeated(track)) {
            ass_free_event(track, id);
            track->n_events--;
        }
    }
    free(text);
}

SHOWN ASS_Track *ass_read_memory(ASS_Library *library, char *bytes, size_t len, char *codepage) {
    ASS_Track *track = ass_new_track(library);
    if (codepage && strcasecmp(codepage, "UTF-8"))
        tell(library, 2, "[vimalorua] texts are taken as UTF-8, and not as %s", codepage);
    if (!track)
        return NULL;
    take_text(track, bytes, len);
    if (track->track_type != TRACK_TYPE_UNKNOWN)
        return track;
    ass_free_track(track);
    return NULL;
}

SHOWN ASS_Track *ass_read_file(ASS_Library *library, char *name, char *codepage) {
    size_t len = 0;
    uint8_t *bytes = read_whole(name, &len);
    ASS_Track *track = bytes ? ass_read_memory(library, (char *)bytes, len, codepage) : NULL;
    free(bytes);
    if (track)
        track->name = text_of(name);
    return track;
}

SHOWN int ass_read_styles(ASS_Track *track, char *name, char *codepage) {
    size_t len = 0;
    uint8_t *bytes = read_whole(name, &len);
    int section = track->parser_priv->section;
    (void)codepage;
    if (!bytes)
        return 1;
    make_utf8((char *)bytes, len);
    track->parser_priv->section = 3;
    read_text(track, (char *)bytes);
    track->parser_priv->section = section;
    free(bytes);
    apply_overrides(track);
    return 0;
}

/* The event next to an instant: the last that ended before it, the first that begins behind it, or the last that began
 * before it. */
static const ASS_Event *next_to(const ASS_Track *track, long long target, int direction, long long *at) {
    const ASS_Event *closest = NULL;
    for (int i = 0; i < track->n_events; i++) {
        const ASS_Event *event = &track->events[i];
        long long mark = direction < 0 ? event->Start + event->Duration : event->Start;
        int is_there = direction < 0 ? mark < target : direction > 0 ? mark > target : mark < target;
        if (is_there && (!closest || (direction > 0 ? mark < *at : direction < 0 ? mark > *at : mark >= *at))) {
            closest = event;
            *at = mark;
        }
    }
    return closest;
}

SHOWN long long ass_step_sub(ASS_Track *track, long long now, int movement) {
    int direction = (movement > 0) - (movement < 0);
    long long target = now;
    const ASS_Event *best = NULL;
    do {
        long long at = now;
        const ASS_Event *closest = next_to(track, target, direction, &at);
        target = at + direction;
        movement -= direction;
        if (closest)
            best = closest;
    } while (movement);
    return best ? best->Start - now : 0;
}
