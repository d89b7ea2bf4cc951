/* The library, its fonts and messages, and a renderer's settings. */
#include "drop_in.h"
#include <dirent.h>
#include <stdarg.h>
#include <stdio.h>
#include <stdlib.h>
#include <string.h>
#include <sys/stat.h>

#define USUAL_BUDGET (UINT64_C(64) << 20)
#define MOST_FILES 256
#define PLACED_VERSION 0x01701000 /* of libass, whose functions these are: 0.17.1 */

void tell(ASS_Library *library, int level, const char *format, ...) {
    va_list words;
    va_start(words, format);
    if (library->message)
        library->message(level, format, words, library->message_data);
    va_end(words);
}

int is_done(ASS_Library *library, const char *what, int32_t status, size_t place) {
    if (status != VIMALORUA_DONE)
        tell(library, 2, "[vimalorua] %s: %s, at %zu", what, vimalorua_status_text(status), place);
    return status == VIMALORUA_DONE;
}

char *copy_of(const char *from, size_t len) {
    char *to = malloc(len + 1);
    if (to) {
        memcpy(to, from, len);
        to[len] = 0;
    }
    return to;
}

uint8_t *read_whole(const char *name, size_t *len) {
    struct stat about;
    uint8_t *bytes = NULL;
    FILE *file = fopen(name, "rb");
    if (!file)
        return NULL;
    if (fstat(fileno(file), &about) == 0 && S_ISREG(about.st_mode) && (bytes = malloc((size_t)about.st_size + 1))) {
        *len = fread(bytes, 1, (size_t)about.st_size, file);
        bytes[*len] = 0;
    }
    fclose(file);
    return bytes;
}

SHOWN int ass_library_version(void) { return PLACED_VERSION; }

SHOWN ASS_Library *ass_library_init(void) { return calloc(1, sizeof(ASS_Library)); }

SHOWN void ass_clear_fonts(ASS_Library *library) {
    for (size_t i = 0; i < library->font_count; i++) {
        free(library->fonts[i].bytes);
        free(library->fonts[i].name);
    }
    free(library->fonts);
    library->fonts = NULL;
    library->font_count = 0;
    library->list_number++;
    forget_names(library);
}

SHOWN void ass_set_style_overrides(ASS_Library *library, char **list) {
    size_t count = 0;
    for (char **at = library->overrides; at && *at; at++)
        free(*at);
    free(library->overrides);
    library->overrides = NULL;
    while (list && list[count])
        count++;
    if (count == 0 || !(library->overrides = calloc(count + 1, sizeof *list)))
        return;
    for (size_t i = 0; i < count && (library->overrides[i] = copy_of(list[i], strlen(list[i]))); i++) {
    }
}

SHOWN void ass_library_done(ASS_Library *library) {
    if (!library)
        return;
    ass_clear_fonts(library);
    ass_set_style_overrides(library, NULL);
    free(library->fonts_dir);
    free(library);
}

SHOWN void ass_set_fonts_dir(ASS_Library *library, const char *folder) {
    free(library->fonts_dir);
    library->fonts_dir = folder ? copy_of(folder, strlen(folder)) : NULL;
    library->has_files = 0;
}

SHOWN void ass_set_extract_fonts(ASS_Library *library, int extract) { library->takes_script_fonts = extract != 0; }

SHOWN void ass_set_message_cb(ASS_Library *library, void (*call)(int, const char *, va_list, void *), void *data) {
    library->message = call;
    library->message_data = data;
}

/* Keeps a font's bytes, which are the library's then, at a place of the list. Tracks are offered it when they are
 * drawn; where it isn't the last one, they begin anew. */
static void keep_font(ASS_Library *library, size_t place, const char *name, uint8_t *bytes, size_t len) {
    struct font *fonts = realloc(library->fonts, (library->font_count + 1) * sizeof *fonts);
    char *copy = copy_of(name, strlen(name));
    if (fonts)
        library->fonts = fonts;
    if (!fonts || !copy) {
        free(bytes);
        free(copy);
        return;
    }
    memmove(fonts + place + 1, fonts + place, (library->font_count - place) * sizeof *fonts);
    library->list_number += place < library->font_count;
    library->font_count++;
    fonts[place] = (struct font){copy, bytes, len};
}

int add_file(ASS_Library *library, size_t place, const char *name) {
    size_t len = 0;
    uint8_t *bytes = read_whole(name, &len);
    if (bytes)
        keep_font(library, place, name, bytes, len);
    else
        tell(library, 2, "[vimalorua] font %s: it can't be read", name);
    return bytes != NULL;
}

static int by_name(const void *a, const void *b) { return strcmp(*(char *const *)a, *(char *const *)b); }

/* The files of a folder, by their names. */
static void add_folder(ASS_Library *library, const char *folder) {
    char *names[MOST_FILES], path[4096];
    size_t count = 0;
    DIR *open = opendir(folder);
    for (struct dirent *entry; open && count < MOST_FILES && (entry = readdir(open));)
        if (entry->d_name[0] != '.' && (names[count] = copy_of(entry->d_name, strlen(entry->d_name))))
            count++;
    if (open)
        closedir(open);
    qsort(names, count, sizeof *names, by_name);
    for (size_t i = 0; i < count; i++) {
        snprintf(path, sizeof path, "%s/%s", folder, names[i]);
        add_file(library, library->font_count, path);
        free(names[i]);
    }
}

SHOWN void ass_add_font(ASS_Library *library, const char *name, const char *data, int size) {
    uint8_t *bytes = data && size > 0 ? (uint8_t *)copy_of(data, (size_t)size) : NULL;
    if (bytes)
        keep_font(library, library->font_count, name ? name : "a font", bytes, (size_t)size);
}

SHOWN void ass_get_available_font_providers(ASS_Library *library, ASS_DefaultFontProvider **list, size_t *count) {
    (void)library;
    *count = 0;
    *list = malloc(2 * sizeof **list);
    if (*list) {
        (*list)[(*count)++] = ASS_FONTPROVIDER_NONE;
        (*list)[(*count)++] = ASS_FONTPROVIDER_AUTODETECT;
    }
}

SHOWN ASS_Renderer *ass_renderer_init(ASS_Library *library) {
    ASS_Renderer *renderer = calloc(1, sizeof *renderer);
    if (!renderer)
        return NULL;
    renderer->library = library;
    renderer->font_scale = 1;
    renderer->budget = USUAL_BUDGET;
    tell(library, 4, "[vimalorua] interface %u, in the place of libass %#x", (unsigned)vimalorua_version(),
         PLACED_VERSION);
    return renderer;
}

SHOWN void ass_renderer_done(ASS_Renderer *renderer) {
    if (!renderer)
        return;
    free(renderer->override.FontName);
    free(renderer->images);
    free(renderer->masks);
    free(renderer->nodes);
    free(renderer);
}

SHOWN void ass_set_frame_size(ASS_Renderer *renderer, int w, int h) {
    renderer->w = w < 0 ? 0 : w;
    renderer->h = h < 0 ? 0 : h;
}

SHOWN void ass_set_storage_size(ASS_Renderer *renderer, int w, int h) {
    renderer->storage_w = w;
    renderer->storage_h = h;
}

SHOWN void ass_set_margins(ASS_Renderer *renderer, int top, int bottom, int left, int right) {
    renderer->top = top;
    renderer->bottom = bottom;
    renderer->left = left;
    renderer->right = right;
}

SHOWN void ass_set_use_margins(ASS_Renderer *renderer, int use) { renderer->use_margins = use; }

SHOWN void ass_set_pixel_aspect(ASS_Renderer *renderer, double aspect) { renderer->pixel_aspect = aspect; }

SHOWN void ass_set_aspect_ratio(ASS_Renderer *renderer, double display, double storage) {
    renderer->pixel_aspect = storage > 0 ? display / storage : 0;
}

SHOWN void ass_set_font_scale(ASS_Renderer *renderer, double scale) { renderer->font_scale = scale > 0 ? scale : 1; }

SHOWN void ass_set_cache_limits(ASS_Renderer *renderer, int glyphs, int megabytes) {
    (void)glyphs;
    renderer->budget = megabytes > 0 ? (uint64_t)megabytes << 20 : USUAL_BUDGET;
}

SHOWN void ass_set_selective_style_override_enabled(ASS_Renderer *renderer, int bits) {
    renderer->override_bits = bits;
}

SHOWN void ass_set_selective_style_override(ASS_Renderer *renderer, ASS_Style *style) {
    free(renderer->override.FontName);
    renderer->override = *style;
    renderer->override.Name = NULL;
    renderer->override.FontName = style->FontName ? copy_of(style->FontName, strlen(style->FontName)) : NULL;
}

/* The fonts of the environment. The first one stands for names that aren't found. Whether there is one. */
static int add_named_files(ASS_Library *library) {
    const char *said = getenv("VIMALORUA_FONTS");
    char *names = said ? copy_of(said, strlen(said)) : NULL, *rest = NULL;
    int has_first = 0;
    for (char *name = names ? strtok_r(names, ":", &rest) : NULL; name; name = strtok_r(NULL, ":", &rest))
        has_first |= add_file(library, has_first ? library->font_count : 0, name);
    free(names);
    return has_first;
}

int add_last_font(ASS_Library *library) {
    if (library->has_last)
        return 0;
    library->has_last = 1;
    if (library->asks_system &&
        (find_usual_font(library, library->font_count, "sans-serif") ||
         add_file(library, library->font_count, "/usr/share/fonts/truetype/dejavu/DejaVuSans.ttf")))
        return 1;
    tell(library, 1, "[vimalorua] there is no font, so nothing is shown: VIMALORUA_FONTS names files");
    return 0;
}

SHOWN void ass_set_fonts(ASS_Renderer *renderer, const char *font, const char *family, int provider, const char *config,
                         int update) {
    ASS_Library *library = renderer->library;
    (void)config, (void)update;
    if (library->has_files)
        return;
    library->has_files = 1;
    library->asks_system = provider != ASS_FONTPROVIDER_NONE;
    if (!add_named_files(library) && !(font && *font && add_file(library, 0, font)) && library->asks_system)
        find_usual_font(library, 0, family && *family ? family : "sans-serif");
    if (library->fonts_dir)
        add_folder(library, library->fonts_dir);
}

/* What has no meaning here. */
SHOWN void ass_set_hinting(ASS_Renderer *renderer, ASS_Hinting hinting) { (void)renderer, (void)hinting; }
SHOWN void ass_set_shaper(ASS_Renderer *renderer, ASS_ShapingLevel level) { (void)renderer, (void)level; }
SHOWN void ass_set_line_spacing(ASS_Renderer *renderer, double spacing) { (void)renderer, (void)spacing; }
SHOWN void ass_set_line_position(ASS_Renderer *renderer, double position) { (void)renderer, (void)position; }
SHOWN int ass_fonts_update(ASS_Renderer *renderer) { return (void)renderer, 1; }
