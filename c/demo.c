/* Draws frames of a script in fonts, from one instant on, by a step, before another, as PPM images one behind the
 * other:
 *
 *   demo FROM TO STEP WxH SCRIPT FONT.. > frames.ppm
 *
 * Times are in milliseconds. */
#include "files.h"
#include <stdio.h>
#include <stdlib.h>

static int draw_frame(vimalorua *handle, int64_t ms, uint32_t w, uint32_t h, uint8_t *rgb, size_t len) {
    int32_t status = vimalorua_draw(handle, ms, w, h, rgb, len);
    if (status != VIMALORUA_DONE) {
        fprintf(stderr, "demo: status %d at %lld ms\n", (int)status, (long long)ms);
        return 0;
    }
    printf("P6\n%u %u\n255\n", (unsigned)w, (unsigned)h);
    return fwrite(rgb, 1, len, stdout) == len;
}

int main(int argc, char **argv) {
    unsigned w, h;
    long long from, to, step;
    if (argc < 7 || sscanf(argv[1], "%lld", &from) != 1 || sscanf(argv[2], "%lld", &to) != 1 ||
        sscanf(argv[3], "%lld", &step) != 1 || step < 1 || sscanf(argv[4], "%ux%u", &w, &h) != 2 || w > 4096 ||
        h > 4096) {
        fprintf(stderr, "demo FROM TO STEP WxH SCRIPT FONT.. > frames.ppm\n");
        return 2;
    }
    vimalorua *handle = open_files(argv[5], argv + 6, argc - 6);
    size_t len = (size_t)3 * w * h;
    uint8_t *rgb = malloc(len + 1);
    int done = handle != NULL && rgb != NULL;
    for (int64_t ms = from; ms < to && done; ms += step)
        done = draw_frame(handle, ms, w, h, rgb, len);
    free(rgb);
    vimalorua_close(handle);
    return done ? 0 : 1;
}
