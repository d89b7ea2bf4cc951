/* Fonts of the system, by fontconfig where it is there: it is looked for when the program runs. */
#include "drop_in.h"
#include <dlfcn.h>
#include <pthread.h>
#include <stdlib.h>
#include <string.h>
#include <strings.h>

/* As much of fontconfig's interface as is used. */
enum { FC_MATCH_PATTERN = 0, FC_RESULT_MATCH = 0 };
enum { FC_REGULAR = 80, FC_BOLD = 200, FC_ROMAN = 0, FC_ITALIC = 100 };
typedef struct pattern pattern;
typedef struct config config;
static struct {
    config *all;
    pattern *(*make)(void);
    int (*add_text)(pattern *, const char *object, const unsigned char *text);
    int (*add_number)(pattern *, const char *object, int number);
    int (*substitute)(config *, pattern *, int kind);
    void (*fill)(pattern *);
    pattern *(*match)(config *, pattern *, int *result);
    int (*text)(const pattern *, const char *object, int n, unsigned char **text);
    void (*destroy)(pattern *);
} fontconfig;

/* Looks a call up. Whether it is there. */
static int find_call(void *library, const char *name, void *call) {
    void *found = dlsym(library, name);
    memcpy(call, &found, sizeof found);
    return found != NULL;
}

static void look_for_fontconfig(void) {
    config *(*load)(void);
    void *library = dlopen("libfontconfig.so.1", RTLD_NOW | RTLD_LOCAL);
    if (library && find_call(library, "FcInitLoadConfigAndFonts", &load) &&
        find_call(library, "FcPatternCreate", &fontconfig.make) &&
        find_call(library, "FcPatternAddString", &fontconfig.add_text) &&
        find_call(library, "FcPatternAddInteger", &fontconfig.add_number) &&
        find_call(library, "FcConfigSubstitute", &fontconfig.substitute) &&
        find_call(library, "FcDefaultSubstitute", &fontconfig.fill) &&
        find_call(library, "FcFontMatch", &fontconfig.match) &&
        find_call(library, "FcPatternGetString", &fontconfig.text) &&
        find_call(library, "FcPatternDestroy", &fontconfig.destroy))
        fontconfig.all = load();
}

/* Whether fontconfig is there. It is looked for once. */
static int has_fontconfig(void) {
    static pthread_once_t once = PTHREAD_ONCE_INIT;
    pthread_once(&once, look_for_fontconfig);
    return fontconfig.all != NULL;
}

/* Whether a match has a family of this name. */
static int is_family(const pattern *match, const char *name) {
    unsigned char *family;
    for (int n = 0; fontconfig.text(match, "family", n, &family) == FC_RESULT_MATCH; n++)
        if (!strcasecmp((const char *)family, name))
            return 1;
    return 0;
}

/* The faces of a family that are looked for: the regular one first. */
enum { FACES = 4 };
static const struct face {
    int weight, slant;
} faces[FACES] = {{FC_REGULAR, FC_ROMAN}, {FC_BOLD, FC_ROMAN}, {FC_REGULAR, FC_ITALIC}, {FC_BOLD, FC_ITALIC}};

/* The match of a face of a family, or null. */
static pattern *match_of(const char *name, const struct face *face) {
    pattern *asked = fontconfig.make(), *match;
    int result;
    if (!asked)
        return NULL;
    fontconfig.add_text(asked, "family", (const unsigned char *)name);
    fontconfig.add_number(asked, "weight", face->weight);
    fontconfig.add_number(asked, "slant", face->slant);
    fontconfig.substitute(fontconfig.all, asked, FC_MATCH_PATTERN);
    fontconfig.fill(asked);
    match = fontconfig.match(fontconfig.all, asked, &result);
    fontconfig.destroy(asked);
    return match;
}

/* Whether the library may take a match: fontconfig tells CFF2, which is refused when it is added, as CFF too. */
static int is_taken(const pattern *match) {
    unsigned char *format;
    return fontconfig.text(match, "fontformat", 0, &format) == FC_RESULT_MATCH &&
           (!strcmp((const char *)format, "TrueType") || !strcmp((const char *)format, "CFF"));
}

/* The file of a face, where the system has a font of just this name, or of any where `may_differ`. */
static char *file_of(const char *name, const struct face *face, int may_differ) {
    pattern *match = match_of(name, face);
    unsigned char *file;
    char *found = NULL;
    if (match && (may_differ || is_family(match, name)) && is_taken(match) &&
        fontconfig.text(match, "file", 0, &file) == FC_RESULT_MATCH)
        found = copy_of((const char *)file, strlen((const char *)file));
    if (match)
        fontconfig.destroy(match);
    return found;
}

static int has_font(const ASS_Library *library, const char *file) {
    for (size_t i = 0; i < library->font_count; i++)
        if (!strcmp(library->fonts[i].name, file))
            return 1;
    return 0;
}

static int has_name(const ASS_Library *library, const char *name) {
    for (size_t i = 0; i < library->asked_count; i++)
        if (!strcasecmp(library->asked[i], name))
            return 1;
    return 0;
}

/* Keeps a name as one that was asked for. Whether it wasn't before. */
static int is_new_name(ASS_Library *library, const char *name) {
    char **asked;
    if (has_name(library, name) || !(asked = realloc(library->asked, (library->asked_count + 1) * sizeof *asked)))
        return 0;
    library->asked = asked;
    if (!(asked[library->asked_count] = copy_of(name, strlen(name))))
        return 0;
    library->asked_count++;
    return 1;
}

void find_family(ASS_Library *library, const char *name) {
    name += *name == '@';
    if (!library->asks_system || *name == 0 || !has_fontconfig() || !is_new_name(library, name))
        return;
    for (int i = 0; i < FACES; i++) {
        char *file = file_of(name, &faces[i], 0);
        if (file && !has_font(library, file))
            add_file(library, library->font_count, file);
        else if (!file && i == 0)
            tell(library, 6, "[vimalorua] font %s: the system has none of this name", name);
        free(file);
    }
}

int find_usual_font(ASS_Library *library, size_t place, const char *name) {
    char *file = has_fontconfig() ? file_of(name, &faces[0], 1) : NULL;
    int is_found = file && add_file(library, place, file);
    free(file);
    return is_found;
}

void find_families_of_text(ASS_Library *library, const char *text) {
    for (const char *at = text; library->asks_system && (at = strstr(at, "\\fn")); at += 3) {
        char *name = copy_of(at + 3, strcspn(at + 3, "\\}"));
        if (name)
            find_family(library, name);
        free(name);
    }
}

void forget_names(ASS_Library *library) {
    for (size_t i = 0; i < library->asked_count; i++)
        free(library->asked[i]);
    free(library->asked);
    library->asked = NULL;
    library->asked_count = 0;
}
