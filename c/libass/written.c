/* Scripts and chunks written of ASS_Track's fields. */
#include "drop_in.h"
#include <stdio.h>
#include <stdlib.h>
#include <string.h>

#define LEAST_BOLD 550 /* the least weight that libass shows as bold in a regular face */

locale_t begin_plain_numbers(void) {
    locale_t plain = newlocale(LC_NUMERIC_MASK, "C", (locale_t)0);
    return plain ? uselocale(plain) : (locale_t)0;
}

void end_plain_numbers(locale_t before) {
    if (before)
        freelocale(uselocale(before));
}

/* An alignment by the numbers of a keypad. */
static int on_keypad(int alignment) {
    int across = alignment & 3 ? alignment & 3 : HALIGN_LEFT, down = alignment & 12;
    return across + (down == VALIGN_TOP ? 6 : down == VALIGN_CENTER ? 3 : 0);
}

static int is_bold(int weight) { return weight == 1 || weight == -1 || weight >= LEAST_BOLD; }

static void write_colour(FILE *to, uint32_t colour) {
    fprintf(to, ",&H%02X%02X%02X%02X", colour & 0xff, colour >> 8 & 0xff, colour >> 16 & 0xff, colour >> 24);
}

static void write_style(FILE *to, const char *name, const ASS_Style *style) {
    fprintf(to, "Style: %s,%s,%.10g", name ? name : "Default", style->FontName ? style->FontName : "Arial",
            style->FontSize);
    write_colour(to, style->PrimaryColour);
    write_colour(to, style->SecondaryColour);
    write_colour(to, style->OutlineColour);
    write_colour(to, style->BackColour);
    fprintf(to, ",%d,%d,%d,%d,%.10g,%.10g,%.10g,%.10g", is_bold(style->Bold) ? -1 : 0, style->Italic ? -1 : 0,
            style->Underline ? -1 : 0, style->StrikeOut ? -1 : 0, style->ScaleX * 100, style->ScaleY * 100,
            style->Spacing, style->Angle);
    fprintf(to, ",%d,%.10g,%.10g,%d,%d,%d,%d,%d\n", style->BorderStyle, style->Outline, style->Shadow,
            on_keypad(style->Alignment), style->MarginL, style->MarginR, style->MarginV, style->Encoding);
}

char *written_script(const ASS_Track *track, const ASS_Style *override, size_t *len) {
    char *text = NULL;
    FILE *to = open_memstream(&text, len);
    if (!to)
        return NULL;
    locale_t before = begin_plain_numbers();
    fprintf(to, "[Script Info]\nScriptType: v4.00+\nPlayResX: %d\nPlayResY: %d\nWrapStyle: %d\n", track->PlayResX,
            track->PlayResY, track->WrapStyle);
    fprintf(to, "ScaledBorderAndShadow: %s\n\n[V4+ Styles]\nFormat: %s\n", track->ScaledBorderAndShadow ? "yes" : "no",
            STYLE_FORMAT);
    for (int i = 0; i < track->n_styles; i++)
        write_style(to, track->styles[i].Name, override ? override : &track->styles[i]);
    fprintf(to, "\n[Events]\nFormat: %s\n", EVENT_FORMAT);
    end_plain_numbers(before);
    return fclose(to) == 0 ? text : NULL;
}

char *written_chunk(const ASS_Track *track, const ASS_Event *event, int order, size_t *len) {
    int has_style = event->Style >= 0 && event->Style < track->n_styles;
    const ASS_Style *style = has_style ? &track->styles[event->Style] : NULL;
    char *text = NULL;
    FILE *to = open_memstream(&text, len);
    if (!to)
        return NULL;
    fprintf(to, "%d,%d,%s,,%d,%d,%d,%s,", order, event->Layer, style && style->Name ? style->Name : "Default",
            event->MarginL, event->MarginR, event->MarginV, event->Effect ? event->Effect : "");
    if (style && style->Blur > 0) /* a program set it: no Style line can */
        fprintf(to, "{\\blur%d}", (int)(style->Blur + 0.5));
    for (const char *at = event->Text ? event->Text : ""; *at; at++)
        if (*at != '\r' && *at != '\n')
            fputc(*at, to);
    return fclose(to) == 0 ? text : NULL;
}

/* How many bytes the character at a place has, or 0 where none is UTF-8's. */
static size_t character_len(const unsigned char *at, const unsigned char *end) {
    size_t len = *at < 0x80                  ? 1
                 : *at >= 0xc2 && *at < 0xe0 ? 2
                 : *at >= 0xe0 && *at < 0xf0 ? 3
                 : *at >= 0xf0 && *at < 0xf5 ? 4
                                             : 0;
    if (len == 0 || (size_t)(end - at) < len)
        return 0;
    for (size_t i = 1; i < len; i++)
        if ((at[i] & 0xc0) != 0x80)
            return 0;
    if ((at[0] == 0xe0 && at[1] < 0xa0) || (at[0] == 0xed && at[1] >= 0xa0) || (at[0] == 0xf0 && at[1] < 0x90) ||
        (at[0] == 0xf4 && at[1] >= 0x90))
        return 0;
    return len;
}

void make_utf8(char *text, size_t len) {
    unsigned char *at = (unsigned char *)text, *end = at + len;
    while (at < end) {
        size_t known = character_len(at, end);
        if (known == 0)
            *at = '?';
        at += known ? known : 1;
    }
}
