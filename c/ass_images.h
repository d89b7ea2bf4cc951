/* Frames as lists of nodes that have the shape of libass's: what blends ASS_Image can blend these. They are made of
 * what vimalorua_images and vimalorua_copy_images answer. This header may stand before or behind <ass/ass.h>. */
#ifndef VIMALORUA_ASS_IMAGES_H
#define VIMALORUA_ASS_IMAGES_H
#include "vimalorua.h"
#ifdef __cplusplus
extern "C" {
#endif

/* One image of one colour, inside the frame. `bitmap` has h rows of w bytes, each `stride` behind the one before;
 * `color` is 0xRRGGBBTT, where a TT of 0 is opaque. `type` is always 0, libass's IMAGE_TYPE_CHARACTER: which images are
 * borders or shadows isn't told. Behind <ass/ass.h> it is ASS_Image itself; a program without that header that has code
 * for ASS_Image gives it this name by a typedef of its own. */
#ifdef LIBASS_ASS_H
typedef ASS_Image vimalorua_node;
#else
typedef struct vimalorua_node {
    int w, h;
    int stride;
    unsigned char *bitmap;
    uint32_t color;
    int dst_x, dst_y;
    struct vimalorua_node *next;
    int type;
} vimalorua_node;
#endif

/* What frames are copied into: one for each handle. All zero, it has nothing. */
typedef struct ass_images {
    vimalorua_image *numbers;
    unsigned char *masks;
    vimalorua_node *nodes;
    size_t count, bytes; /* how much room there is */
    int missed;          /* the call before gave no list */
} ass_images;

/* Lists a frame as vimalorua_images does, and makes nodes of it: *list is the first, the lowest, or null where nothing
 * is shown. *change is as there, against the nodes before; behind a call that failed it is 2. `change` may be null. The
 * nodes and their bitmaps are those of `images`, are only read, and stay until the next call with it or
 * ass_images_free. A handle that is listed so is listed by no other call.
 *
 * Statuses are those of vimalorua_images; on any but VIMALORUA_DONE *list is null and *change is 2. */
int32_t ass_images_render(vimalorua *handle, ass_images *images, int64_t ms, uint32_t w, uint32_t h, int32_t *change,
                          vimalorua_node **list);

/* The same as vimalorua_images_in does. */
int32_t ass_images_render_in(vimalorua *handle, ass_images *images, int64_t ms, const vimalorua_view *view,
                             int32_t *change, vimalorua_node **list);

/* Frees what `images` has, so that it has nothing. */
void ass_images_free(ass_images *images);

#ifdef __cplusplus
}
#endif
#endif
