/* Refuses each call for memory of libass's calls over the library, one in each round: none may end the program, and under
 * a sanitizer nothing may leak. The files are compiled with malloc, calloc and realloc named as below.
 *
 *   refusals FONT FOLDER */
#include <ass/ass.h>
#include <stdio.h>
#include <stdlib.h>
#include <string.h>

static long allowed = -1, calls;

static int is_refused(void) {
    calls++;
    return allowed >= 0 && allowed-- == 0;
}

void *refusing_malloc(size_t bytes);
void *refusing_calloc(size_t count, size_t bytes);
void *refusing_realloc(void *block, size_t bytes);
void *refusing_malloc(size_t bytes) { return is_refused() ? NULL : malloc(bytes); }
void *refusing_calloc(size_t count, size_t bytes) { return is_refused() ? NULL : calloc(count, bytes); }
void *refusing_realloc(void *block, size_t bytes) { return is_refused() ? NULL : realloc(block, bytes); }

static char script[] = "[Script Info]\nPlayResY: 180\nLanguage: en\n\n[V4+ Styles]\n"
                       "Format: Name, Fontname, Fontsize, Outline\nStyle: Default,dot,20,2\nStyle: Other,Other,20,2\n\n"
                       "[Events]\n"
                       "Format: Layer, Start, End, Style, Name, MarginL, MarginR, MarginV, Effect, Text\n"
                       "Dialogue: 0,0:00:00.00,0:01:00.00,Default,me,0,0,0,,{\\fnNone}text\n"
                       "Dialogue: 0,0:00:00.00,0:01:00.00,Default,me,0,0\n";

/* Frames of two tracks, between which events, styles and fonts become others. */
static void draw(ASS_Renderer *renderer, ASS_Track *one, ASS_Track *two) {
    ASS_Style style = {.FontName = "dot", .FontSize = 9, .ScaleX = 1, .ScaleY = 1};
    ass_set_frame_size(renderer, 64, 36);
    ass_set_fonts(renderer, NULL, "sans-serif", ASS_FONTPROVIDER_NONE, NULL, 1);
    ass_render_frame(renderer, one, 10, NULL);
    ass_render_frame(renderer, two, 10, NULL);
    if (one->n_events)
        one->events[0].Layer = 3;
    ass_render_frame(renderer, one, 10, NULL);
    ass_set_selective_style_override(renderer, &style);
    ass_set_selective_style_override_enabled(renderer, ASS_OVERRIDE_BIT_STYLE);
    ass_render_frame(renderer, two, 10, NULL);
}

static void round_of_calls(char *font, const char *folder) {
    char *forced[] = {"Default.Fontsize=30", "Fontname=dot", NULL}, chunk[] = "3,0,Default,,0,0,0,,chunk";
    ASS_Library *library = ass_library_init();
    if (!library)
        return;
    ass_set_style_overrides(library, forced);
    ass_add_font(library, "dot", font, (int)strlen(font));
    ass_set_fonts_dir(library, folder);
    ASS_Renderer *renderer = ass_renderer_init(library);
    ASS_Track *one = ass_read_memory(library, script, strlen(script), NULL), *two = ass_new_track(library);
    if (two) {
        ass_process_codec_private(two, script, (int)strlen(script));
        ass_process_chunk(two, chunk, (int)strlen(chunk), 0, 5000);
    }
    if (renderer && one && two)
        draw(renderer, one, two);
    ass_clear_fonts(library);
    if (renderer && one)
        ass_render_frame(renderer, one, 20, NULL);
    ass_free_track(one);
    ass_free_track(two);
    ass_renderer_done(renderer);
    ass_library_done(library);
}

int main(int argc, char **argv) {
    static char font[1 << 16];
    FILE *file = argc == 3 ? fopen(argv[1], "rb") : NULL;
    if (!file)
        return 2;
    font[fread(font, 1, sizeof font - 1, file)] = 0;
    fclose(file);
    round_of_calls(font, argv[2]);
    long all = calls;
    for (long i = 0; i < all; i++) {
        allowed = i;
        round_of_calls(font, argv[2]);
    }
    printf("%ld calls for memory refused\n", all);
    return 0;
}
