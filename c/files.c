#include "files.h"
#include <stdio.h>
#include <stdlib.h>

static uint8_t *read_open(FILE *file, size_t *len) {
    if (fseek(file, 0, SEEK_END) != 0)
        return NULL;
    long size = ftell(file);
    if (size < 0 || fseek(file, 0, SEEK_SET) != 0)
        return NULL;
    uint8_t *bytes = malloc((size_t)size + 1);
    if (bytes == NULL)
        return NULL;
    if (fread(bytes, 1, (size_t)size, file) != (size_t)size) {
        free(bytes);
        return NULL;
    }
    *len = (size_t)size;
    return bytes;
}

uint8_t *read_file(const char *name, size_t *len) {
    FILE *file = fopen(name, "rb");
    uint8_t *bytes = NULL;
    if (file != NULL) {
        bytes = read_open(file, len);
        fclose(file);
    }
    if (bytes == NULL)
        fprintf(stderr, "%s: can't be read\n", name);
    return bytes;
}

static int is_done(const char *name, int32_t status, size_t place) {
    if (status != VIMALORUA_DONE)
        fprintf(stderr, "%s: status %d at %zu\n", name, (int)status, place);
    return status == VIMALORUA_DONE;
}

static vimalorua *open_script(const char *name) {
    size_t len = 0, place = 0;
    vimalorua *handle = NULL;
    uint8_t *bytes = read_file(name, &len);
    if (bytes == NULL)
        return NULL;
    int32_t status = vimalorua_open(bytes, len, UINT64_C(64) << 20, &handle, &place);
    free(bytes);
    return is_done(name, status, place) ? handle : NULL;
}

static int add_font(vimalorua *handle, const char *name) {
    size_t len = 0, place = 0;
    uint8_t *bytes = read_file(name, &len);
    if (bytes == NULL)
        return 0;
    int32_t status = vimalorua_add_font(handle, bytes, len, &place);
    free(bytes);
    return is_done(name, status, place);
}

vimalorua *open_files(const char *script, char *const *fonts, int count) {
    size_t entries = 0;
    vimalorua *handle = open_script(script);
    int done = handle != NULL;
    for (int i = 0; i < count && done; i++)
        done = add_font(handle, fonts[i]);
    if (done)
        done = is_done(script, vimalorua_feed_lines(handle, &entries), entries);
    if (done)
        return handle;
    vimalorua_close(handle);
    return NULL;
}
