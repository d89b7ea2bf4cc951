/* libass's interface over the library: what its files share. The structs whose names libass's header leaves open are
 * defined here. */
#ifndef VIMALORUA_DROP_IN_H
#define VIMALORUA_DROP_IN_H
#include "vimalorua.h"
#include <ass/ass.h>
#include <locale.h>

/* What libass's header declares is shown; all else stays inside. */
#define SHOWN __attribute__((visibility("default")))

struct font {
    char *name;
    uint8_t *bytes;
    size_t len;
};

struct ass_library {
    struct font *fonts; /* the first stands for names that aren't found */
    size_t font_count;
    uint64_t list_number; /* another one where fonts were taken away, or put before others */
    char *fonts_dir;
    char **overrides;       /* "Style.Field=value" or "Field=value", and null behind the last */
    int takes_script_fonts; /* whether fonts inside of scripts are taken */
    int has_files;          /* the fonts of the folder and of the environment were added */
    int has_last;           /* and the one for where there was none that can be drawn */
    int asks_system;        /* whether fonts of the system are looked for */
    char **asked;           /* the names of those that were */
    size_t asked_count;
    void (*message)(int level, const char *format, va_list words, void *data);
    void *message_data;
};

struct ass_renderer {
    ASS_Library *library;
    int w, h, storage_w, storage_h, top, bottom, left, right, use_margins;
    double pixel_aspect, font_scale;
    uint64_t budget;
    int override_bits;
    ASS_Style override;
    ASS_Track *last; /* whose list the nodes are of */
    vimalorua_image *images;
    uint8_t *masks;
    ASS_Image *nodes;
    size_t image_room, mask_room;
    int has_failed; /* a frame failed, and that was told */
};

/* An event as it was fed: its texts stand in one block, the text and then the effect, each with a 0 behind it. A null
 * text is as an empty one. */
struct fed {
    long long start, duration;
    int order, layer, style, margin_l, margin_r, margin_v;
    char *texts;
    size_t text_len;
};

/* What stands behind a track beside its public fields. */
struct parser_priv {
    int section;
    int says_borders; /* the header says whether borders are scaled */
    int checks_order;
    uint32_t *orders; /* a bit for each ReadOrder that a chunk had */
    size_t order_words;
    char *text; /* what the track was read from */
    size_t text_len;
    uint64_t text_sum; /* of the header and the styles that the text gave */
    vimalorua *handle;
    const ASS_Renderer *lister; /* by which the handle was last listed */
    uint64_t opened_sum;        /* of what the handle was opened with */
    struct fed *fed;
    int fed_count, fed_room;
    size_t font_count;    /* how many of the library's fonts the handle was offered */
    int has_script_fonts; /* and whether those of the script were */
    size_t taken;         /* how many it took of all of them */
    uint64_t budget;
};

/* Tells a message at one of libass's levels: 1 errors, 2 warnings, 4 information, 6 details. */
void tell(ASS_Library *library, int level, const char *format, ...) __attribute__((format(printf, 3, 4)));

/* Whether a status is DONE. Another one is told. */
int is_done(ASS_Library *library, const char *what, int32_t status, size_t place);

/* A file's bytes and a 0 behind them; null where it is no plain file or can't be read. */
uint8_t *read_whole(const char *name, size_t *len);

/* Adds the font of a file at a place of the list. Whether it could be read. */
int add_file(ASS_Library *library, size_t place, const char *name);

/* Adds a font for where no other can be drawn, once. Whether one was added. */
int add_last_font(ASS_Library *library);

/* Adds the faces that the system has of a family, once, where fonts of the system are looked for. */
void find_family(ASS_Library *library, const char *name);

/* Adds the font that the system has in place of a family at a place of the list. Whether there is one. */
int find_usual_font(ASS_Library *library, size_t place, const char *name);

/* The families that \fn names in a text. */
void find_families_of_text(ASS_Library *library, const char *text);

/* Forgets which names were looked for. */
void forget_names(ASS_Library *library);

/* A text's copy of so many bytes, and a 0; null where memory runs out. */
char *copy_of(const char *from, size_t len);

/* Reads lines of a script into the track, up to a 0. */
void read_text(ASS_Track *track, const char *text);

/* Reads an event's fields by a format; the last goes on to the end. Whether it has all of them. */
int read_event(ASS_Track *track, ASS_Event *event, const char *format, const char *from, const char *end);

/* The usual Format lines of ASS. */
extern const char STYLE_FORMAT[], EVENT_FORMAT[];

/* Sets a field of a style by its name in a Format line, as the number stands there. Whether there is one so named. */
int set_style_field(ASS_Style *style, const char *name, const char *value);

/* Whether a word of a header says yes. */
int is_yes(const char *text);

/* Sets what YCbCr Matrix says. */
void read_matrix(ASS_Track *track, const char *value);

/* Numbers are read and written as in C's own locale from here on, in this thread; the locale that was before. */
locale_t begin_plain_numbers(void);

void end_plain_numbers(locale_t before);

/* The script of a track's header and styles, or of one style in place of them all, without events. */
char *written_script(const ASS_Track *track, const ASS_Style *override, size_t *len);

/* The chunk of an event. */
char *written_chunk(const ASS_Track *track, const ASS_Event *event, int order, size_t *len);

/* Writes '?' for each byte that isn't of UTF-8. */
void make_utf8(char *text, size_t len);

/* Writes the canvas into a track whose header doesn't say it, or says half of it. */
void complete_canvas(ASS_Track *track);

long long within(long long number, long long least, long long most);

/* A sum of the header and the styles, as a program may have written them. */
uint64_t header_sum(const ASS_Track *track);

uint64_t sum_of(uint64_t before, const void *bytes, size_t len);

/* Applies the library's overrides of styles. */
void apply_overrides(ASS_Track *track);
#endif
