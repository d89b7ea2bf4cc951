/* Handles of named files. */
#ifndef VIMALORUA_FILES_H
#define VIMALORUA_FILES_H
#include "vimalorua.h"
#ifdef __cplusplus
extern "C" {
#endif

/* The bytes of a file, *len of them: the caller frees them. Null where it can't be read, which is told on standard
 * error. */
uint8_t *read_file(const char *name, size_t *len);

/* A handle of a script with fonts, with its own Dialogue lines as events, and 64 MiB for each cache. Null where
 * something went wrong, which is told on standard error. */
vimalorua *open_files(const char *script, char *const *fonts, int count);

#ifdef __cplusplus
}
#endif
#endif
