/* The calls of libass's interface that a bench of it makes, over this library, so that one program measures both. It is
 * no whole libass: fonts are BDF files, given to ass_set_fonts or ass_add_font, and what isn't built is passed over.
 * What fails is told to the callback of ass_set_message_cb, at level 1. */
#ifndef VIMALORUA_ASS_H
#define VIMALORUA_ASS_H
#include "../../ass_images.h"
#include <stdarg.h>
#ifdef __cplusplus
extern "C" {
#endif

typedef vimalorua_node ASS_Image;
typedef struct ass_library ASS_Library;
typedef struct ass_renderer ASS_Renderer;

/* A handle, with the library's fonts and the renderer's budget since it was first drawn. */
typedef struct ass_track {
    int n_events;      /* how many events are live */
    vimalorua *handle; /* null before a script was read */
    ASS_Library *library;
    size_t fonts; /* how many of the library's fonts it was offered */
    uint64_t budget;
} ASS_Track;

enum { ASS_FONTPROVIDER_NONE = 0 };

int ass_library_version(void);
ASS_Library *ass_library_init(void);
void ass_library_done(ASS_Library *library);
void ass_set_message_cb(ASS_Library *library, void (*call)(int level, const char *format, va_list args, void *data),
                        void *data);
void ass_add_font(ASS_Library *library, const char *name, const char *data, int size);

ASS_Renderer *ass_renderer_init(ASS_Library *library);
void ass_renderer_done(ASS_Renderer *renderer);
void ass_set_frame_size(ASS_Renderer *renderer, int w, int h);
void ass_set_storage_size(ASS_Renderer *renderer, int w, int h);

/* bitmap_max_size is in MiB, for each of the three caches; 0 is 64. */
void ass_set_cache_limits(ASS_Renderer *renderer, int glyph_max, int bitmap_max_size);

void ass_set_fonts(ASS_Renderer *renderer, const char *default_font, const char *default_family, int provider,
                   const char *config, int update);

ASS_Track *ass_new_track(ASS_Library *library);
void ass_free_track(ASS_Track *track);
ASS_Track *ass_read_memory(ASS_Library *library, char *buffer, size_t size, const char *codepage);
void ass_process_codec_private(ASS_Track *track, const char *data, int size);
void ass_process_chunk(ASS_Track *track, const char *data, int size, long long start, long long duration);
void ass_flush_events(ASS_Track *track);

/* The list is the renderer's, and stays until its next call. */
ASS_Image *ass_render_frame(ASS_Renderer *renderer, ASS_Track *track, long long now, int *detect_change);

#ifdef __cplusplus
}
#endif
#endif
