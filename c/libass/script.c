/* A script's text read into ASS_Track, for programs that look at it there. The library reads a script's own text by its
 * own rules. */
#include "drop_in.h"
#include <stdio.h>
#include <stdlib.h>
#include <string.h>
#include <strings.h>

enum { NO_SECTION, SCRIPT_INFO, SSA_STYLES, ASS_STYLES, EVENTS, FONTS };

const char STYLE_FORMAT[] =
    "Name, Fontname, Fontsize, PrimaryColour, SecondaryColour, OutlineColour, BackColour, Bold, Italic, Underline, "
    "StrikeOut, ScaleX, ScaleY, Spacing, Angle, BorderStyle, Outline, Shadow, Alignment, MarginL, MarginR, MarginV, "
    "Encoding";
static const char SSA_STYLE_FORMAT[] =
    "Name, Fontname, Fontsize, PrimaryColour, SecondaryColour, TertiaryColour, BackColour, Bold, Italic, BorderStyle, "
    "Outline, Shadow, Alignment, MarginL, MarginR, MarginV, AlphaLevel, Encoding";
const char EVENT_FORMAT[] = "Layer, Start, End, Style, Name, MarginL, MarginR, MarginV, Effect, Text";
static const char SSA_EVENT_FORMAT[] = "Marked, Start, End, Style, Name, MarginL, MarginR, MarginV, Effect, Text";

static const char *usual_style_format(const ASS_Track *track) {
    return track->track_type == TRACK_TYPE_SSA ? SSA_STYLE_FORMAT : STYLE_FORMAT;
}

static const char *usual_event_format(const ASS_Track *track) {
    return track->track_type == TRACK_TYPE_SSA ? SSA_EVENT_FORMAT : EVENT_FORMAT;
}

static void set_text(char **at, const char *from, size_t len) {
    free(*at);
    *at = copy_of(from, len);
}

static void set_whole(char **at, const char *text) { set_text(at, text, strlen(text)); }

static int is_blank(char c) { return c == ' ' || c == '\t'; }

/* A text without the blanks behind it; those before it stay. */
static char *text_up_to(const char *from, const char *end) {
    while (end > from && is_blank(end[-1]))
        end--;
    return copy_of(from, (size_t)(end - from));
}

static char *trimmed(const char *from, const char *end) {
    while (from < end && is_blank(*from))
        from++;
    return text_up_to(from, end);
}

/* A colour as programs see it, 0xRRGGBBAA: of a number that is hexadecimal behind &H or 0x. */
static uint32_t colour_of(const char *text) {
    int is_hexadecimal = !strncasecmp(text, "&H", 2) || !strncasecmp(text, "0x", 2);
    uint32_t n = (uint32_t)strtoull(text + 2 * is_hexadecimal, NULL, is_hexadecimal ? 16 : 10);
    return (n & 0xff) << 24 | (n >> 8 & 0xff) << 16 | (n >> 16 & 0xff) << 8 | n >> 24;
}

int is_yes(const char *text) { return !strncasecmp(text, "yes", 3) || atoi(text) > 0; }

/* An alignment as programs see it, of the numbers of a keypad or of SSA's. */
static int alignment_of(int n, int is_ssa) {
    if (is_ssa)
        return n == 8 ? HALIGN_RIGHT : n == 4 ? VALIGN_CENTER | HALIGN_RIGHT : n;
    n = n < 0 ? -n : n;
    return ((n - 1) % 3 + 1) | (n <= 3 ? VALIGN_SUB : n <= 6 ? VALIGN_CENTER : VALIGN_TOP);
}

/* The fields of a style that are numbers. */
enum { A_DOUBLE, AN_INT, A_COLOUR };
#define FIELD(name, field, kind) \
    { name, offsetof(ASS_Style, field), kind }
static const struct {
    const char *name;
    size_t at;
    int kind;
} number_fields[] = {
    FIELD("Fontsize", FontSize, A_DOUBLE),
    FIELD("PrimaryColour", PrimaryColour, A_COLOUR),
    FIELD("SecondaryColour", SecondaryColour, A_COLOUR),
    FIELD("OutlineColour", OutlineColour, A_COLOUR),
    FIELD("TertiaryColour", OutlineColour, A_COLOUR),
    FIELD("BackColour", BackColour, A_COLOUR),
    FIELD("Bold", Bold, AN_INT),
    FIELD("Italic", Italic, AN_INT),
    FIELD("Underline", Underline, AN_INT),
    FIELD("StrikeOut", StrikeOut, AN_INT),
    FIELD("ScaleX", ScaleX, A_DOUBLE),
    FIELD("ScaleY", ScaleY, A_DOUBLE),
    FIELD("Spacing", Spacing, A_DOUBLE),
    FIELD("Angle", Angle, A_DOUBLE),
    FIELD("BorderStyle", BorderStyle, AN_INT),
    FIELD("Outline", Outline, A_DOUBLE),
    FIELD("Shadow", Shadow, A_DOUBLE),
    FIELD("MarginL", MarginL, AN_INT),
    FIELD("MarginR", MarginR, AN_INT),
    FIELD("MarginV", MarginV, AN_INT),
    FIELD("Encoding", Encoding, AN_INT),
    FIELD("Alignment", Alignment, AN_INT),
    FIELD("Blur", Blur, A_DOUBLE),
    FIELD("Justify", Justify, AN_INT),
};

static int set_number(ASS_Style *style, const char *name, const char *value) {
    for (size_t i = 0; i < sizeof number_fields / sizeof *number_fields; i++) {
        void *at = (char *)style + number_fields[i].at;
        if (strcasecmp(name, number_fields[i].name))
            continue;
        if (number_fields[i].kind == A_COLOUR)
            *(uint32_t *)at = colour_of(value);
        else if (number_fields[i].kind == AN_INT)
            *(int *)at = atoi(value);
        else
            *(double *)at = atof(value);
        return 1;
    }
    return 0;
}

int set_style_field(ASS_Style *style, const char *name, const char *value) {
    if (!strcasecmp(name, "Name"))
        set_whole(&style->Name, *value == '*' ? value + 1 : value);
    else if (!strcasecmp(name, "Fontname"))
        set_whole(&style->FontName, value);
    else
        return set_number(style, name, value);
    return 1;
}

static double not_below_0(double number) { return number > 0 ? number : 0; }

/* Brings what a Style line said into the form that programs see. SSA has one colour for outlines and shadows, and one
 * transparency for all but shadows. */
static void complete_style(ASS_Style *style, int is_ssa, int alpha) {
    style->ScaleX = not_below_0(style->ScaleX) / 100;
    style->ScaleY = not_below_0(style->ScaleY) / 100;
    style->Spacing = not_below_0(style->Spacing);
    style->Outline = not_below_0(style->Outline);
    style->Shadow = not_below_0(style->Shadow);
    style->Bold = style->Bold != 0;
    style->Italic = style->Italic != 0;
    style->Underline = style->Underline != 0;
    style->StrikeOut = style->StrikeOut != 0;
    style->Blur = 0;
    style->Justify = 0;
    style->Alignment = alignment_of(style->Alignment, is_ssa);
    if (is_ssa) {
        uint32_t shown = (uint32_t)alpha & 0xff;
        style->PrimaryColour = (style->PrimaryColour & ~UINT32_C(255)) | shown;
        style->SecondaryColour = (style->SecondaryColour & ~UINT32_C(255)) | shown;
        style->OutlineColour = (style->BackColour & ~UINT32_C(255)) | shown;
        style->BackColour = (style->BackColour & ~UINT32_C(255)) | 0x80;
    }
    if (!style->Name)
        set_whole(&style->Name, "Default");
    if (!style->FontName)
        set_whole(&style->FontName, "Arial");
}

static void read_style(ASS_Track *track, const char *from, const char *end) {
    int is_ssa = track->track_type == TRACK_TYPE_SSA, id = ass_alloc_style(track), alpha = 0;
    if (!track->style_format)
        set_whole(&track->style_format, usual_style_format(track));
    if (id < 0 || !track->style_format)
        return;
    ASS_Style *style = &track->styles[id];
    const char *format = track->style_format;
    style->ScaleX = style->ScaleY = 100;
    while (*format && from <= end) {
        size_t name_len = strcspn(format, ",");
        const char *comma = memchr(from, ',', (size_t)(end - from));
        char *name = trimmed(format, format + name_len), *value = trimmed(from, comma ? comma : end);
        if (name && value && !set_style_field(style, name, value) && !strcasecmp(name, "AlphaLevel"))
            alpha = atoi(value);
        free(name);
        free(value);
        format += name_len + (format[name_len] != 0);
        if (!comma)
            break;
        from = comma + 1;
    }
    complete_style(style, is_ssa, alpha);
    if (style->Name && !strcmp(style->Name, "Default"))
        track->default_style = id;
}

static long long time_of(const char *text) {
    int hours, minutes, seconds, hundredths;
    if (sscanf(text, "%d:%d:%d.%d", &hours, &minutes, &seconds, &hundredths) != 4)
        return 0;
    return ((hours * 60LL + minutes) * 60 + seconds) * 1000 + hundredths * 10LL;
}

/* The last style of a name, or the default one. */
static int style_by_name(const ASS_Track *track, const char *name) {
    while (*name == '*')
        name++;
    if (!strcasecmp(name, "Default"))
        name = "Default";
    for (int i = track->n_styles - 1; i >= 0; i--)
        if (track->styles[i].Name && !strcmp(track->styles[i].Name, name))
            return i;
    return track->default_style;
}

static void set_event_field(ASS_Track *track, ASS_Event *event, const char *name, const char *value) {
    if (!strcasecmp(name, "ReadOrder"))
        event->ReadOrder = atoi(value);
    else if (!strcasecmp(name, "Layer"))
        event->Layer = atoi(value);
    else if (!strcasecmp(name, "Start"))
        event->Start = time_of(value);
    else if (!strcasecmp(name, "End"))
        event->Duration = time_of(value); /* the end, until all fields are read */
    else if (!strcasecmp(name, "Style"))
        event->Style = style_by_name(track, value);
    else if (!strcasecmp(name, "Name") || !strcasecmp(name, "Actor"))
        set_whole(&event->Name, value);
    else if (!strcasecmp(name, "Effect"))
        set_whole(&event->Effect, value);
    else if (!strcasecmp(name, "MarginL"))
        event->MarginL = atoi(value);
    else if (!strcasecmp(name, "MarginR"))
        event->MarginR = atoi(value);
    else if (!strcasecmp(name, "MarginV"))
        event->MarginV = atoi(value);
    else if (!strcasecmp(name, "Text"))
        set_whole(&event->Text, value);
}

int read_event(ASS_Track *track, ASS_Event *event, const char *format, const char *from, const char *end) {
    while (*format) {
        size_t name_len = strcspn(format, ",");
        int is_last = format[name_len] == 0;
        const char *comma = is_last ? end : memchr(from, ',', (size_t)(end - from));
        if (!comma)
            return 0;
        char *name = trimmed(format, format + name_len);
        char *value = is_last ? text_up_to(from, end) : trimmed(from, comma);
        if (name && value)
            set_event_field(track, event, name, value);
        free(name);
        free(value);
        format += name_len + !is_last;
        from = comma < end ? comma + 1 : end;
    }
    event->Duration -= event->Start;
    return event->Text != NULL;
}

void read_matrix(ASS_Track *track, const char *value) {
    static const char *const names[] = {"None",    "TV.601",  "PC.601", "TV.709", "PC.709",
                                        "TV.240M", "PC.240M", "TV.FCC", "PC.FCC"};
    track->YCbCrMatrix = YCBCR_UNKNOWN;
    for (int i = 0; i < 9; i++)
        if (!strcasecmp(value, names[i]))
            track->YCbCrMatrix = (ASS_YCbCrMatrix)(YCBCR_NONE + i);
}

static void read_info(ASS_Track *track, const char *key, const char *value) {
    if (!strcmp(key, "PlayResX"))
        track->PlayResX = atoi(value);
    else if (!strcmp(key, "PlayResY"))
        track->PlayResY = atoi(value);
    else if (!strcmp(key, "LayoutResX"))
        track->LayoutResX = atoi(value);
    else if (!strcmp(key, "LayoutResY"))
        track->LayoutResY = atoi(value);
    else if (!strcmp(key, "Timer"))
        track->Timer = atof(value);
    else if (!strcmp(key, "WrapStyle"))
        track->WrapStyle = atoi(value);
    else if (!strcmp(key, "ScaledBorderAndShadow")) {
        track->ScaledBorderAndShadow = is_yes(value);
        track->parser_priv->says_borders = 1;
    } else if (!strcmp(key, "Kerning"))
        track->Kerning = is_yes(value);
    else if (!strcmp(key, "Language"))
        set_text(&track->Language, value, strnlen(value, 2));
    else if (!strcmp(key, "YCbCr Matrix"))
        read_matrix(track, value);
}

/* Keeps a Format line. libass scales the borders of a script with a format of its own, where the script doesn't say. */
static void read_format(ASS_Track *track, char **kept, const char *usual, const char *value) {
    set_whole(kept, value);
    if (strcasecmp(value, usual) && !track->parser_priv->says_borders)
        track->ScaledBorderAndShadow = 1;
}

static void read_dialogue(ASS_Track *track, const char *from, const char *end) {
    int id = ass_alloc_event(track);
    if (id < 0)
        return;
    while (from < end && *from == ' ')
        from++;
    const char *format = track->event_format ? track->event_format : usual_event_format(track);
    if (read_event(track, &track->events[id], format, from, end))
        track->events[id].ReadOrder = id;
    else {
        ass_free_event(track, id);
        track->n_events--;
    }
}

/* Whether a line is a heading, which begins a section. */
static int read_heading(ASS_Track *track, const char *from, size_t len) {
    static const char *const headings[] = {"[Script Info]", "[V4 Styles]", "[V4+ Styles]", "[Events]", "[Fonts]"};
    if (len == 0 || *from != '[')
        return 0;
    track->parser_priv->section = NO_SECTION;
    for (int i = 0; i < 5; i++)
        if (len >= strlen(headings[i]) && !strncasecmp(from, headings[i], strlen(headings[i])))
            track->parser_priv->section = i + 1;
    if (track->parser_priv->section == SSA_STYLES)
        track->track_type = TRACK_TYPE_SSA;
    if (track->parser_priv->section == ASS_STYLES)
        track->track_type = TRACK_TYPE_ASS;
    return 1;
}

static void read_line(ASS_Track *track, const char *from, const char *end) {
    int section = track->parser_priv->section;
    while (from < end && is_blank(*from))
        from++;
    if (read_heading(track, from, (size_t)(end - from)))
        return;
    const char *colon = memchr(from, ':', (size_t)(end - from));
    if (!colon || *from == ';')
        return;
    char *key = copy_of(from, (size_t)(colon - from)), *value = trimmed(colon + 1, end);
    int is_style = section == SSA_STYLES || section == ASS_STYLES;
    if (key && value) {
        if (section == SCRIPT_INFO)
            read_info(track, key, value);
        else if (is_style && !strcmp(key, "Format"))
            read_format(track, &track->style_format, usual_style_format(track), value);
        else if (is_style && !strcmp(key, "Style"))
            read_style(track, colon + 1, end);
        else if (section == EVENTS && !strcmp(key, "Format"))
            read_format(track, &track->event_format, usual_event_format(track), value);
        else if (section == EVENTS && !strcmp(key, "Dialogue"))
            read_dialogue(track, colon + 1, end);
    }
    free(key);
    free(value);
}

void read_text(ASS_Track *track, const char *text) {
    locale_t before = begin_plain_numbers();
    if (!strncmp(text, "\xef\xbb\xbf", 3))
        text += 3;
    while (*text) {
        size_t len = strcspn(text, "\r\n");
        read_line(track, text, text + len);
        text += len + (text[len] != 0);
    }
    if (!track->event_format && track->parser_priv->section == EVENTS)
        set_whole(&track->event_format, usual_event_format(track));
    end_plain_numbers(before);
}
