#include "ass_images.h"
#include <stdlib.h>
#include <string.h>

void ass_images_free(ass_images *images) {
    free(images->numbers);
    free(images->masks);
    free(images->nodes);
    memset(images, 0, sizeof *images);
}

/* Room for so many things and half as many again, and never none; 0 where so many bytes can't be counted. */
static size_t with_more(size_t count, size_t size) {
    if (count > (size_t)PTRDIFF_MAX / 2 / size)
        return 0;
    return count + count / 2 + 1;
}

/* Makes room for so many images and so many bytes. What was there is lost. */
static int32_t make_room(ass_images *images, size_t count, size_t bytes) {
    if (images->nodes != NULL && count <= images->count && bytes <= images->bytes)
        return VIMALORUA_DONE;
    ass_images_free(images);
    images->count = with_more(count, sizeof *images->nodes);
    images->bytes = with_more(bytes, 1);
    if (images->count != 0 && images->bytes != 0) {
        images->numbers = malloc(images->count * sizeof *images->numbers);
        images->masks = malloc(images->bytes);
        images->nodes = malloc(images->count * sizeof *images->nodes);
    }
    if (images->numbers != NULL && images->masks != NULL && images->nodes != NULL)
        return VIMALORUA_DONE;
    ass_images_free(images);
    return VIMALORUA_OUT_OF_MEMORY;
}

static void make_nodes(ass_images *images, size_t count) {
    for (size_t i = 0; i < count; i++) {
        const vimalorua_image *from = &images->numbers[i];
        vimalorua_node *node = &images->nodes[i];
        node->w = (int)from->w;
        node->h = (int)from->h;
        node->stride = (int)from->w;
        node->bitmap = images->masks + from->at;
        node->color = (uint32_t)from->r << 24 | (uint32_t)from->g << 16 | (uint32_t)from->b << 8 | from->a;
        node->dst_x = from->x;
        node->dst_y = from->y;
        node->next = i + 1 < count ? node + 1 : NULL;
        node->type = 0;
    }
}

/* Copies the list that the handle keeps, and makes nodes of it. */
static int32_t copy_list(vimalorua *handle, ass_images *images, size_t count, size_t bytes) {
    int32_t status = make_room(images, count, bytes);
    if (status == VIMALORUA_DONE)
        status = vimalorua_copy_images(handle, images->numbers, count, images->masks, bytes);
    if (status == VIMALORUA_DONE)
        make_nodes(images, count);
    return status;
}

int32_t ass_images_render_in(vimalorua *handle, ass_images *images, int64_t ms, const vimalorua_view *view,
                             int32_t *change, vimalorua_node **list) {
    size_t count = 0, bytes = 0;
    int32_t listed = VIMALORUA_OTHER_LIST;
    int missed = images->missed, has_nodes = images->nodes != NULL && !missed;
    *list = NULL;
    if (change != NULL)
        *change = VIMALORUA_OTHER_LIST;
    int32_t status = vimalorua_images_in(handle, ms, view, &listed, &count, &bytes);
    if (status == VIMALORUA_DONE && !(has_nodes && listed == VIMALORUA_SAME))
        status = copy_list(handle, images, count, bytes);
    images->missed = status != VIMALORUA_DONE;
    if (status != VIMALORUA_DONE)
        return status;
    if (change != NULL && !missed)
        *change = listed;
    if (count != 0)
        *list = images->nodes;
    return VIMALORUA_DONE;
}

int32_t ass_images_render(vimalorua *handle, ass_images *images, int64_t ms, uint32_t w, uint32_t h, int32_t *change,
                          vimalorua_node **list) {
    vimalorua_view view = {.size = sizeof view, .w = w, .h = h};
    return ass_images_render_in(handle, images, ms, &view, change, list);
}
