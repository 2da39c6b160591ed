/* A file that is replaced as a whole, or left as it was. */
#ifndef DESK_SAVE_H
#define DESK_SAVE_H

#include <stdbool.h>
#include <stddef.h>
#include <stdint.h>

/* Makes the bytes the file's content. Where that fails, errno says why, and a file that was there is whole. */
bool save(const char *file, const uint8_t *bytes, size_t length);

#endif
